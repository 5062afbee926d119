"""A plan, and what the folder says of its roads: what tools/look draws."""
from __future__ import annotations

import dataclasses
import json
import math
from typing import Any, Iterable, Optional

from lorry_tools.drawing import colours_of
from lorry_tools.files import NODES
from lorry_tools.folder import Folder, closure_groups, number_of
from lorry_tools.instants import LAST_INSTANT, instant_text, minute_of
from lorry_tools.problems import Unreadable
from lorry_tools.program import Program
from lorry_tools.rules import Streets
from lorry_tools.running import Progress
from lorry_tools.tracks import Lines

# Closed minutes: the first one, the first one after them, and the roads.
Closed = tuple[int, int, set[int]]
# A pair as `plan --form json` prints it.
JsonPair = dict[str, Any]


@dataclasses.dataclass
class Leg:
    kind: str
    arc: int  # 0 for a wait
    start: int
    minutes: int
    tail: int
    head: int

    @property
    def end(self) -> int:
        return self.start + self.minutes


@dataclasses.dataclass
class Route:
    number: int
    arrival: int
    cost: int
    legs: list[Leg]  # none where the folder isn't known
    colour: str = ""

    def drives(self) -> list[Leg]:
        return [it for it in self.legs if it.kind == "drive"]

    def waits(self) -> list[Leg]:
        return [it for it in self.legs if it.kind == "wait"]


@dataclasses.dataclass(frozen=True)
class Asked:
    """The words of a plan."""

    folder: Folder
    vehicle: str
    origin: int
    goal: int
    depart: int
    until: int


class Trip:
    """A plan, and what the folder says of its roads."""

    def __init__(self, name: str, pairs: list[JsonPair]):
        self.name = name
        self.routes = [Route(k, it["arrival"], it["cost"], []) for k, it in enumerate(pairs, 1)]
        for route, colour in zip(self.routes, colours_of(len(self.routes))):
            route.colour = colour
        self.asked: Optional[Asked] = None
        self.closed: dict[int, list[tuple[int, int]]] = {}  # of arcs, by their numbers
        self.has_bans = False
        self.notes: list[str] = []
        self.places: dict[int, tuple[float, float]] = {}  # of nodes
        self.names: dict[int, str] = {}
        self.roads: dict[int, str] = {}
        self.metres: dict[int, int] = {}  # of roads
        self.credit = ""

    def take_folder(self, words: list[str], pairs: list[JsonPair]) -> None:
        """Reads the roads of the plan in the folder, and follows its legs."""
        folder = Folder(words[0])
        origin, goal = (number_of(it) for it in words[2:4])
        depart, until = (minute_of(it) for it in words[4:6])
        if origin is None or goal is None or depart is None or until is None:
            raise Unreadable("--trip has the words of a plan: DIR VEHICLE FROM TO DEPART UNTIL")
        self.take_trip(Asked(folder, words[1], origin, goal, depart, until), pairs)
        self.take_names(folder)

    def take_trip(self, asked: Asked, pairs: list[JsonPair]) -> None:
        """Follows the legs of the pairs."""
        self.asked = asked
        for route, pair in zip(self.routes, pairs):
            self.follow(route, pair, asked)
        if self.last() > asked.until:
            raise Unreadable(
                f"{self.name} is no plan of this trip: a route arrives on "
                f"{instant_text(self.last())}, after UNTIL"
            )
        self.credit = asked.folder.graph().credit()

    def follow(self, route: Route, pair: JsonPair, asked: Asked) -> None:
        """Takes the legs of a pair, which have to be those of a trip as it was asked for."""
        graph, node, minute = asked.folder.graph(), asked.origin, asked.depart
        for leg in pair["legs"]:
            if leg["kind"] == "wait":
                route.legs.append(Leg("wait", 0, minute, leg["minutes"], node, node))
            else:
                arc = leg["arc"]
                if not 1 <= arc <= len(graph) or graph.ends(arc)[0] != node:
                    raise Unreadable(
                        f"{self.name} is no plan of this trip: in route {route.number} no arc "
                        f"{arc} leaves node {node}"
                    )
                _, head, minutes = graph.ends(arc)
                route.legs.append(Leg("drive", arc, minute, minutes, node, head))
            node, minute = route.legs[-1].head, route.legs[-1].end
        if (node, minute) != (asked.goal, route.arrival):
            raise Unreadable(
                f"{self.name} is no plan of this trip: the legs of route {route.number} end at "
                f"node {node}, {instant_text(minute)}, and the plan says "
                f"{instant_text(route.arrival)}"
            )

    def take_names(self, folder: Folder) -> None:
        for row in folder.table(NODES):
            node = number_of(row["node"])
            try:
                place = float(row["lon"]), float(row["lat"])
            except ValueError:
                place = math.inf, math.inf
            is_place = all(map(math.isfinite, place))
            if node and is_place and abs(place[0]) <= 180 and abs(place[1]) < 89:
                self.places[node] = place
            if node and (row["name"] or row["town"]):
                self.names[node] = row["name"] or row["town"]
        streets = Streets(folder)
        self.roads, self.metres = streets.names, streets.metres

    def take_bans(self, program: Program, most: int) -> None:
        """Asks when the roads of the routes are closed, once for those that are closed alike."""
        if self.asked is None:
            return
        group = closure_groups(self.asked.folder)
        members: dict[object, dict[int, None]] = {}
        for route in self.routes:
            for leg in route.drives():
                members.setdefault(group(leg.arc), {})[leg.arc] = None
        asked = {next(iter(arcs)): arcs for arcs in members.values()}
        if len(asked) > most:
            self.notes.append(
                f"Closed minutes were asked for {most} of {len(asked)} groups of roads; "
                "--most-bans asks for more."
            )
            asked = dict(list(asked.items())[:most])
        runs = program.bans_of(
            self.asked.folder.path,
            self.asked.vehicle,
            asked,
            self.asked.depart,
            max(self.last(), self.asked.depart + 1),
            Progress("bans"),
        )
        for first, arcs in asked.items():
            for arc in arcs:
                self.closed[arc] = runs[first]
        self.has_bans = True

    def last(self) -> int:
        until = self.asked.until if self.asked else 0
        return max((it.arrival for it in self.routes), default=until)

    def kilometres(self, legs: Iterable[Leg]) -> str:
        """Returns the length of drives in words; nothing where the folder lacks one of them."""
        arcs = [it.arc for it in legs]
        if not arcs or not all(arc in self.metres for arc in arcs):
            return ""
        return f"{sum(self.metres[arc] for arc in arcs) / 1000:.1f} km"

    def line_of(self, route: Route) -> list[tuple[float, float]]:
        """Returns the points of a route, by the shapes of its roads."""
        if self.asked is None:
            return []
        lines = Lines(self.asked.folder.shapes(), self.places.get)
        return lines.drive((it.arc, it.tail, it.head) for it in route.drives())

    def name_of(self, node: int, before: str = "node ") -> str:
        return f"{self.names[node]} ({node})" if node in self.names else f"{before}{node}"

    def road_name(self, arc: int, before: str = "road ") -> str:
        return f"{self.roads[arc]} ({arc})" if arc in self.roads else f"{before}{arc}"

    def ahead(self, route: Route) -> list[tuple[int, int, list[Closed]]]:
        """Returns, for each wait and the drives after it, its time and the closed minutes, until
        they are driven, of these roads."""
        stages: list[tuple[int, int, list[Closed]]] = []
        drives: list[Leg] = []
        start = self.asked.depart if self.asked else 0
        ends: list[Optional[Leg]] = [*route.legs, None]
        for leg in ends:
            if leg is None or leg.kind == "wait":
                if drives:
                    runs = []
                    for drive in drives:
                        for low, high in self.closed.get(drive.arc, []):
                            low, high = max(low, start), min(high, drive.start)
                            if low < high:
                                runs.append((low, high, drive.arc))
                    stages.append((start, drives[-1].end, joined(runs)))
                if leg:
                    start, drives = leg.start, []
            else:
                drives.append(leg)
        return stages


def joined(runs: Iterable[tuple[int, int, int]]) -> list[Closed]:
    """Returns runs that neither overlap nor touch, each with the roads that are closed in it."""
    together: list[Closed] = []
    for low, high, arc in sorted(runs):
        if together and low <= together[-1][1]:
            first, last, arcs = together[-1]
            together[-1] = first, max(last, high), arcs | {arc}
        else:
            together.append((low, high, {arc}))
    return together


# What a leg has beside its kind.
MEASURES = {"drive": "arc", "wait": "minutes"}


def read_plan(text: str, name: str) -> list[JsonPair]:
    """Returns the pairs of a plan in JSON."""
    try:
        pairs: list[JsonPair] = json.loads(text)["pairs"]
        if not all(is_pair(it) for it in pairs):
            raise ValueError
        return pairs
    except (ValueError, KeyError, TypeError, RecursionError):
        line = text.strip().splitlines()[:1] or ["nothing"]
        raise Unreadable(
            f"{name} is not the JSON of a plan; it begins with: {line[0][:80]}"
        ) from None


def is_pair(pair: JsonPair) -> bool:
    whole = isinstance(pair["arrival"], int) and isinstance(pair["cost"], int)
    if not whole or pair["cost"] < 0 or not 0 <= pair["arrival"] <= LAST_INSTANT:
        return False
    return all(is_leg(it) for it in pair["legs"])


def is_leg(leg: JsonPair) -> bool:
    measure = leg[MEASURES[leg["kind"]]]
    return isinstance(measure, int) and measure > 0
