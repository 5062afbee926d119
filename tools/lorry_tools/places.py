"""Places in people's words: a name of nodes.csv, coordinates, or a node's number."""
from __future__ import annotations

import bisect
import copy
import dataclasses
import difflib
import math
import re
from typing import Optional

from lorry_tools.clocks import Clock, clock_of, named_clock
from lorry_tools.files import GRAPH, NODES
from lorry_tools.folder import UTC, Folder, number_of, zones_of_areas
from lorry_tools.problems import Problem

COORDINATES = re.compile(
    r"([+-]?\d{1,3}(?:\.\d+)?)[ \t]*[,; \t][ \t]*([+-]?\d{1,3}(?:\.\d+)?)", re.ASCII
)
EARTH_RADIUS = 6_371_009  # metres
MOST_LISTED = 12
MOST_CLOSE = 5
MOST_COMPARED = 20_000  # names that are compared letter by letter


@dataclasses.dataclass(frozen=True)
class Place:
    """A node, as the folder knows it. `away` is its distance, in metres, from coordinates that were
    asked for."""

    node: int
    name: str
    town: str = ""
    lat: Optional[float] = None
    lon: Optional[float] = None
    away: Optional[int] = None

    def words(self) -> str:
        return self.name or f"node {self.node}"

    def listed(self) -> str:
        """Returns a line that tells it from others of the same name."""
        town = f", {self.town}" if self.town and self.town != self.name else ""
        where = "" if self.lat is None else f", at {self.lat:.5f},{self.lon:.5f}"
        return f"{self.node}: {self.name}{town}{where}"


class Ambiguous(Problem):
    """A name of several places."""

    def __init__(self, words: str, choices: list[Place]):
        super().__init__(words)
        self.choices = choices


class Places:
    """The places of a folder."""

    def __init__(self, folder: Folder, zone: Optional[str] = None):
        self.folder = folder
        self.nodes = folder.graph().nodes
        self.known: dict[int, Place] = {}
        self.named_zone: Optional[Clock] = named_clock(folder, zone) if zone else None
        self._clocks: dict[tuple[str, ...], list[Clock]] = {}  # by the names of their zones
        self._zones: Optional[dict[int, dict[str, int]]] = None
        self._usual: dict[str, int] = {}  # the zones at a node that has none in _ZONES
        self._by_name: Optional[dict[str, list[Place]]] = None
        self._by_latitude: Optional[list[tuple[float, int, Place]]] = None
        rows = folder.columns(NODES, "node", "lat", "lon", "name", "town")
        for number, latitude, longitude, own, town in rows:
            node = number_of(number)
            if node and node <= self.nodes:
                name = " ".join((own or town).split())
                self.known[node] = Place(node, name, town, *position(latitude, longitude))

    def at(self, node: int) -> Place:
        return self.known.get(node, Place(node, ""))

    def in_zone(self, zone: str) -> Places:
        """Returns these places with the clock of one zone for all of them."""
        places = copy.copy(self)
        places.named_zone, places._clocks = named_clock(self.folder, zone), {}
        return places

    # Words of a user.

    def read(self, text: str, what: str) -> Place:
        """Returns the place that a text names; `what` says where the text stands, such as FROM."""
        word = " ".join(text.split())
        number = number_of(word)
        if number is not None:
            if not 1 <= number <= self.nodes:
                raise Problem(
                    f"{what} {text!r}: {GRAPH} has no node {number}: expected is one from 1 to "
                    f"{self.nodes}"
                )
            return self.at(number)
        if not self.folder.has(NODES):
            raise Problem(
                f"{what} {text!r} is no number, and {self.folder.shown} has no {NODES}: expected "
                f"is the number of a node, from 1 to {self.nodes}"
            )
        pair = COORDINATES.fullmatch(word)
        return (
            self.nearest(float(pair[1]), float(pair[2]), text, what)
            if pair
            else (self.named(word, text, what))
        )

    def named(self, word: str, text: str, what: str) -> Place:
        alike = self.by_name().get(word.casefold(), [])
        if len(alike) == 1:
            return alike[0]
        if alike:
            lines = [f"  {it.listed()}" for it in alike[:MOST_LISTED]]
            if len(alike) > MOST_LISTED:
                lines.append(f"  and {len(alike) - MOST_LISTED} more of {NODES}")
            raise Ambiguous(
                f"{what} {text!r} is the name of {len(alike)} nodes: expected is the number of one "
                "of them, or coordinates\n" + "\n".join(lines),
                alike,
            )
        close = self.close_to(word)
        others = "; the nearest names are " + ", ".join(close) if close else ""
        raise Problem(
            f"{what} {text!r} is no name of {self.folder.shown_file(NODES)}: expected is such a "
            f"name, coordinates such as 47.2405,9.5275, or the number of a node{others}"
        )

    def by_name(self) -> dict[str, list[Place]]:
        """Returns the places of each name, in small letters."""
        if self._by_name is None:
            found: dict[str, list[Place]] = {}
            for place in self.known.values():
                if place.name:
                    found.setdefault(place.name.casefold(), []).append(place)
            self._by_name = found
        return self._by_name

    def close_to(self, word: str, most: int = MOST_CLOSE) -> list[str]:
        """Returns the names that are most like a word, those first of which it is a part."""
        names, small = self.by_name(), word.casefold()
        found = sorted((it for it in names if small in it), key=lambda it: (len(it), it))
        if len(found) < most and len(names) <= MOST_COMPARED:
            parts: dict[str, str] = {}
            for name in names:
                for part in [name, *name.split(" / ")]:
                    parts.setdefault(part, name)
            for part in difflib.get_close_matches(small, list(parts), MOST_CLOSE, 0.6):
                if parts[part] not in found:
                    found.append(parts[part])
        return [names[it][-1].name for it in found[:most]]

    def nearest(self, lat: float, lon: float, text: str, what: str) -> Place:
        if abs(lat) > 90 or abs(lon) > 180:
            raise Problem(
                f"{what} {text!r} is off the globe: expected is the latitude and then the "
                "longitude in degrees, such as 47.2405,9.5275"
            )
        found = self.nearest_to(lat, lon)
        if found is None:
            raise Problem(f"{what} {text!r}: {self.folder.shown_file(NODES)} has no coordinates")
        return found

    def nearest_to(self, lat: float, lon: float) -> Optional[Place]:
        """Returns the nearest node that has coordinates, with its distance. Two places are at least
        as far apart as their circles of latitude, so those of near latitudes come first."""
        rows = self.by_latitude()
        if not rows:
            return None
        above = bisect.bisect_left(rows, (lat, -1, rows[0][2]))
        below, (_, first, found), least = above - 1, rows[0], math.inf
        while above < len(rows) or below >= 0:
            up = rows[above][0] - lat if above < len(rows) else math.inf
            down = lat - rows[below][0] if below >= 0 else math.inf
            if math.radians(min(up, down)) * EARTH_RADIUS > least + 1:
                break
            there, order, place = rows[above if up < down else below]
            above, below = (above + 1, below) if up < down else (above, below - 1)
            metres = distance(lat, lon, there, place.lon or 0.0)
            if (metres, order) < (least, first):
                first, found, least = order, place, metres
        return dataclasses.replace(found, away=round(least))

    def by_latitude(self) -> list[tuple[float, int, Place]]:
        """Returns the places that have coordinates by their latitudes, each with its number among
        all."""
        if self._by_latitude is None:
            rows = enumerate(self.known.values())
            self._by_latitude = sorted(
                ((it.lat, order, it) for order, it in rows if it.lat is not None),
                key=lambda row: row[:2],
            )
        return self._by_latitude

    # Clocks.

    def clocks(self, node: int) -> list[Clock]:
        """Returns the clocks of a place: that which was named, or else those of the areas of its
        roads, that of most roads first."""
        if self.named_zone:
            return [self.named_zone]
        counts = self.zones_of(node)
        names = tuple(sorted(counts, key=lambda it: (-counts[it], it)))
        if names not in self._clocks:
            self._clocks[names] = [clock_of(self.folder, it) for it in names]
        return self._clocks[names]

    def clock(self, node: int) -> Clock:
        return self.clocks(node)[0]

    def zones_of(self, node: int) -> dict[str, int]:
        """Returns how many roads at a node are in areas of each zone."""
        if self._zones is None:
            zones = zones_of_areas(self.folder)
            self._usual = {next(iter(zones.values())): 1}
            self._zones = self.count_zones(zones) if len(set(zones.values())) > 1 else {}
        return self._zones.get(node) or self._usual

    def count_zones(self, zones: dict[str, str]) -> dict[int, dict[str, int]]:
        """Returns, for each node with roads that aren't all in areas of the first zone, how many
        are in those of each."""
        graph, (areas, first) = self.folder.graph(), self.folder.areas_of_arcs()
        usual = next(iter(zones.values()))
        named = (zones.get(areas.get(arc, first), UTC) for arc in range(1, len(graph) + 1))
        by_arc = [None if it == usual else it for it in named]
        ends = zip(by_arc, graph.tails, graph.heads)
        other = {node for zone, *nodes in ends if zone is not None for node in nodes}
        counted: dict[int, dict[str, int]] = {node: {} for node in other}
        for zone, *nodes in zip(by_arc, graph.tails, graph.heads):
            for node in nodes:
                if node in other:
                    name = usual if zone is None else zone
                    counted[node][name] = counted[node].get(name, 0) + 1
        return counted


def position(lat: str, lon: str) -> tuple[Optional[float], Optional[float]]:
    """Returns coordinates as numbers, or nothing where they aren't on the globe."""
    try:
        found = float(lat), float(lon)
    except ValueError:
        return None, None
    if not all(map(math.isfinite, found)) or abs(found[0]) > 90 or abs(found[1]) > 180:
        return None, None
    return found


def distance(lat: float, lon: float, other_lat: float, other_lon: float) -> float:
    """Returns the metres between two places on the globe, by the haversine formula."""
    one, other = math.radians(lat), math.radians(other_lat)
    up, along = math.radians(other_lat - lat), math.radians(other_lon - lon)
    part = math.sin(up / 2) ** 2 + math.cos(one) * math.cos(other) * math.sin(along / 2) ** 2
    return 2 * EARTH_RADIUS * math.asin(min(1.0, math.sqrt(part)))


def distance_text(metres: int) -> str:
    return f"{metres} m" if metres < 1000 else f"{metres / 1000:.1f} km"
