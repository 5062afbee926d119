"""Parking, depots and towns, and the nodes of the network that they are at."""
from __future__ import annotations

import math
import re
from typing import AbstractSet, Any, Callable, Iterable, Mapping, Optional

import numpy

from lorry_tools.conversion import notation, tags as road_tags
from lorry_tools.conversion.borders import CELL, number_of
from lorry_tools.conversion.extract import Extract, TagPairs
from lorry_tools.conversion.notation import Unread
from lorry_tools.conversion.report import Report
from lorry_tools.conversion.roads import AT_ONCE, Network, is_in, metres
from lorry_tools.conversion.tags import Tags

# The farthest node that is taken, in metres.
MOST_TO_PARKING, MOST_TO_DEPOT, MOST_TO_TOWN = 300, 1000, 2000
# Ratings, the best first, each with an invented price of a minute's wait.
RATINGS = {
    "depot": "0.050",
    "services": "0.100",
    "lorry_parking": "0.150",
    "rest_area": "0.250",
    "fuel": "0.500",
    "parking": "0.750",
}
# Ratings whose place stays as it is in a coarse network.
EXACT = ("depot", "services", "lorry_parking", "rest_area")
LORRY = ("yes", "designated", "permissive", "customers")
SHUT = ("no", "private", "permit", "residents", "employees", "staff", "permissive;no", "military")
# A lower bar, or a shorter place, isn't for lorries.
LEAST = {"maxheight": 3.8, "maxweight": 12, "maxlength": 12}


# The node of a site that has none yet.
NOWHERE = -1


class Site:
    """A place where a lorry may wait: its rating, name and hours, its coordinates, and nodes of its
    own."""

    def __init__(
        self, rating: str, name: str, hours: str, x: int, y: int, refs: Iterable[int] = ()
    ) -> None:
        self.rating, self.name, self.hours, self.x, self.y, self.refs = (
            rating,
            name,
            hours,
            x,
            y,
            refs,
        )
        self.node = NOWHERE


def rating_of(tags: Tags, any_parking: bool) -> tuple[Optional[str], str]:
    """The rating of a parking area, or the reason why it isn't taken."""
    lorry = tags.get("hgv", tags.get("truck", tags.get("hgv:parking", "")))
    for_lorries = lorry in LORRY or tags.get("capacity:hgv", "0") not in ("0", "no")
    access = tags.get("access", "yes")
    if lorry in ("no", "none") or tags.get("capacity:hgv") in ("0", "no"):
        return None, "parking that isn't for lorries"
    if access in SHUT or access == "customers" and not for_lorries:
        return None, "parking that isn't public"
    if (
        tags.get("amenity") in ("truck_stop", "truck_parking")
        or tags.get("amenity") != "fuel"
        and for_lorries
        and "highway" not in tags
    ):
        return "lorry_parking", ""
    if tags.get("highway") == "services":
        return "services", ""
    if tags.get("highway") == "rest_area":
        return "rest_area", ""
    if tags.get("amenity") == "fuel":
        return ("fuel", "") if for_lorries else (None, "filling stations without hgv=yes")
    if not any_parking:
        return None, "parking that doesn't say it is for lorries (--any-parking takes it)"
    if tags.get("parking", "surface") not in ("surface", "yes", "lane", "layby", "rest_area"):
        return None, "parking in buildings or underground"
    return "parking", ""


def site_of(
    tags: Tags,
    number: int,
    refs: Iterable[int],
    x: int,
    y: int,
    any_parking: bool,
    reading: road_tags.Reading,
    report: Report,
) -> Optional[Site]:
    """The site of a parking area, if lorries may wait there."""
    rating, reason = rating_of(tags, any_parking)
    what = next(
        (f"{key}={tags[key]}" for key in ("highway", "amenity", "hgv:parking") if key in tags),
        "parking",
    )
    where = f"object {number}" if number > 0 else ""
    if rating is None:
        report.add("left out", reason, what, where)
        return None
    for key, least in LEAST.items():
        if key in tags:
            try:
                kind = road_tags.LIMITS[key]
                if float(road_tags.size_of(kind, tags[key], lambda *_: None)) < least:
                    report.add(
                        "left out", "parking for smaller vehicles", f"{key}={tags[key]}", where
                    )
                    return None
            except Unread:
                if tags[key] not in road_tags.LIFTED:
                    report.add(
                        "left out",
                        "parking with a limit that can't be read",
                        f"{key}={tags[key]}",
                        where,
                    )
                    return None
    hours = ""
    if "opening_hours" in tags:
        text = tags["opening_hours"]
        try:
            hours = notation.hours(
                text,
                lambda what, example: report.add("changed", what, example, where),
                reading.school_holidays,
                True,
            )
            hours = "" if re.sub(r"\s", "", hours) in ("24/7", "24/7open") else hours
        except Unread as error:
            report.add(
                "left out",
                f"parking whose hours can't be read: {error}",
                f"opening_hours={text}",
                where,
            )
            return None
    if "maxstay" in tags and tags["maxstay"] not in ("unlimited", "no", "none", "24/7"):
        report.add(
            "warning",
            "parking with a longest stay, which isn't considered",
            f"maxstay={tags['maxstay']}",
            where,
        )
    report.add("read", "parking, by rating", rating)
    return Site(rating, tags.get("name", tags.get("ref", "")), hours, x, y, refs)


def cells_around(x: int, y: int, reach: int = 1) -> list[tuple[int, int]]:
    column, row = x // CELL, y // CELL
    return [
        (column + i, row + j) for i in range(-reach, reach + 1) for j in range(-reach, reach + 1)
    ]


def nearest_refs(
    extract: Extract, usable: Callable[[TagPairs], bool], sites: Iterable[Site]
) -> set[int]:
    """The node of a usable way that is nearest to each site, so that the network has it."""
    wanted = {number_of(cell) for site in sites for cell in cells_around(site.x, site.y)}
    if not wanted:
        return set()
    grid = places_in_cells(extract, usable, numpy.array(sorted(wanted)))
    xs, ys = (numpy.frombuffer(it, dtype=numpy.intc) for it in (extract.xs, extract.ys))
    on_roads = refs_on_roads(extract, grid, {ref for site in sites for ref in site.refs})
    found: set[int] = set()
    for site in sites:
        cells = [number_of(cell) for cell in cells_around(site.x, site.y)]
        parts = [grid[code] for code in cells if code in grid]
        if parts:
            near = numpy.concatenate(parts)
            wide = math.cos(math.radians(site.y / 1e7))
            away = ((xs[near] - float(site.x)) * wide) ** 2 + (ys[near] - float(site.y)) ** 2
            # The circle of latitude hardly matters so near by, but where it does, it decides.
            found.add(
                extract.refs[nearest_place(site, near[away <= away.min() * 1.01 + 1], extract)]
            )
            own = [
                (cells.index(code), place, ref)
                for ref in site.refs
                for code, place in on_roads.get(ref, ())
                if code in cells
            ]
            if own:
                found.add(min(own)[2])
    return found


def refs_on_roads(
    extract: Extract, grid: Mapping[int, Any], wanted: AbstractSet[int]
) -> dict[int, list[tuple[int, int]]]:
    """Of the nodes that are wanted those on roads, each with the cells and places where it is."""
    refs = numpy.frombuffer(extract.refs, dtype=numpy.int64)
    ordered = numpy.array(sorted(wanted), dtype=numpy.int64)
    found: dict[int, list[tuple[int, int]]] = {}
    for code, places in grid.items():
        for place in places[is_in(refs[places], ordered)].tolist():
            found.setdefault(extract.refs[place], []).append((code, place))
    return found


def places_in_cells(
    extract: Extract, usable: Callable[[TagPairs], bool], wanted: Any
) -> dict[int, Any]:
    """The places of usable ways in the extract's arrays, by some cells, whose numbers are in their
    order."""
    ways = extract.ways
    is_usable = numpy.array([usable(tags) for tags in ways.tags], dtype=bool)
    counts = numpy.subtract(ways.lasts, ways.firsts)
    is_used = numpy.repeat(is_usable[numpy.asarray(ways.tags_of)], counts)
    xs, ys = (numpy.frombuffer(it, dtype=numpy.intc) for it in (extract.xs, extract.ys))
    parts, cells = [], []
    for first in range(0, len(is_used), AT_ONCE):
        at = first + numpy.flatnonzero(is_used[first : first + AT_ONCE])
        codes = number_of([it[at].astype(numpy.int64) // CELL for it in (xs, ys)])
        near = numpy.minimum(numpy.searchsorted(wanted, codes), len(wanted) - 1)
        is_near = wanted[near] == codes
        parts.append(at[is_near].astype(numpy.int32))
        cells.append(near[is_near].astype(numpy.int32))
    own = numpy.concatenate(cells)
    at = numpy.concatenate(parts)[numpy.argsort(own, kind="stable")]
    names, counts = numpy.unique(own, return_counts=True)
    return dict(zip(wanted[names].tolist(), numpy.split(at, numpy.cumsum(counts)[:-1])))


def nearest_place(site: Site, near: Any, extract: Extract) -> int:
    """The nearest of some places of the extract's arrays; of several the one whose node has the
    least number."""
    xs, ys, places = extract.xs, extract.ys, near.tolist()
    found: int = min(
        places, key=lambda at: (metres(site.x, site.y, xs[at], ys[at]), extract.refs[at])
    )
    return found


class Nodes:
    """Nodes of the network by their place."""

    def __init__(self, network: Network, nodes: Any) -> None:
        self.network = network
        places = [numpy.asarray(it)[nodes] for it in (network.xs, network.ys)]
        codes = number_of([it.astype(numpy.int64) // CELL for it in places])
        order = numpy.argsort(codes, kind="stable")
        self.codes, self.nodes = codes[order], nodes[order]
        self.xs, self.ys = (it[order] for it in places)

    def distance(self, node: int, x: int, y: int) -> float:
        return metres(x, y, self.network.xs[node], self.network.ys[node])

    def around(self, x: int, y: int, reach: int) -> Any:
        """The places, in the columns, of the nodes in the cells around a place."""
        column, row = x // CELL, y // CELL
        ends = [
            (number_of((column + it, row - reach)), number_of((column + it, row + reach)) + 1)
            for it in range(-reach, reach + 1)
        ]
        cuts = numpy.searchsorted(self.codes, ends).tolist()
        return numpy.concatenate([numpy.arange(*it) for it in cuts])

    def nearest(self, x: int, y: int, most: int) -> Optional[int]:
        """The nearest node within so many metres, or None."""
        at = self.around(x, y, 1 + int(most / 350))
        if not len(at):
            return None
        wide = math.cos(math.radians(y / 1e7))
        away = ((self.xs[at] - float(x)) * wide) ** 2 + (self.ys[at] - float(y)) ** 2
        # The circle of latitude hardly matters so near by, but where it does, it decides.
        nodes = self.nodes[at[away <= away.min() * 1.01 + 1]].tolist()
        found = min(((self.distance(node, x, y), node) for node in nodes), default=None)
        return found[1] if found and found[0] <= most else None


def place_sites(sites: Iterable[Site], network: Network, nodes: Any, report: Report) -> list[Site]:
    """Gives each site its node, of some that are given by whether each is one; sites that have none
    are left out."""
    index = Nodes(network, numpy.flatnonzero(nodes))
    found = []
    for site in sites:
        own = [
            network.number[ref]
            for ref in site.refs
            if ref in network.number and nodes[network.number[ref]]
        ]
        most = MOST_TO_DEPOT if site.rating == "depot" else MOST_TO_PARKING
        node = own[0] if own else index.nearest(site.x, site.y, most)
        if node is None:
            report.add(
                "warning" if site.rating == "depot" else "left out",
                f"places to wait without a road of the network within {most} m",
                f"{site.rating} {site.name}".strip(),
            )
        else:
            site.node = node
            found.append(site)
    return found


def better(one: Site, other: Site) -> Site:
    """Of two sites at one node the one that is kept: the better rating, and no hours before
    hours."""
    order = list(RATINGS)
    return min(one, other, key=lambda site: (order.index(site.rating), site.hours != "", site.name))


def name_towns(
    places: Iterable[tuple[int, str, int, int]], network: Network, nodes: Any
) -> dict[int, str]:
    """The node that is nearest to each town, with the town's name."""
    index = Nodes(network, nodes)
    found: dict[int, str] = {}
    for _, name, x, y in sorted(places):
        node = index.nearest(x, y, MOST_TO_TOWN)
        if node is not None:
            found.setdefault(node, name)
    return found
