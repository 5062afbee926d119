"""How large the folder of an extract will be, by samples of its roads.

Each sample has the ways that are nearest to a drawn one, with the places to wait along them. What
the conversion makes of its inner part, for each junction there, is what it makes of all."""
from __future__ import annotations

import copy
import math
import random
from typing import Callable, Iterable, Iterator, NamedTuple, Optional

import numpy

from lorry_tools.conversion import coarse, roads, sites
from lorry_tools.conversion.arcs import Arcs, of_list
from lorry_tools.conversion.extract import Extract, Way
from lorry_tools.conversion.report import Report
from lorry_tools.conversion.sites import Site
from lorry_tools.conversion.tags import Notes, Reading

# Smaller extracts aren't looked at: no folder of so few ways is too large.
FEWEST_WAYS = 60_000
SAMPLES, SAMPLED_WAYS = 10, 2_000
# The inner part of a sample has one of this number of its ways.
INNER = 2
# A strongly connected part of fewer nodes is left out.
SMALL_PART, MOST_PARTS = 30, 6
# Seconds of --coarse, and classes of --roads, that are tried where a folder would be too large.
GAPS = (60, 90, 120, 180, 240, 300, 450, 600, 900)
CLASSES = ("residential", "unclassified", "tertiary", "secondary", "primary", "trunk", "motorway")
# What fits has no more than this share of the limits, as estimates are too low.
SHARE = 0.7


class Size(NamedTuple):
    nodes: int
    arcs: int

    def fits(self, most: Size, share: float = 1.0) -> bool:
        return self.nodes <= most.nodes * share and self.arcs <= most.arcs * share

    def text(self) -> str:
        return f"about {rounded(self.nodes):,} nodes and {rounded(self.arcs):,} arcs"


def rounded(number: int) -> int:
    """A number with two digits that matter."""
    unit: int = 10 ** max(0, len(str(number)) - 2)
    return number // unit * unit


class Sample(NamedTuple):
    """Ways around a place, and the square of the inner part's radius, in units of coordinates."""

    ways: list[Way]
    x: int
    y: int
    radius: float

    def has(self, x: int, y: int) -> bool:
        wide = math.cos(math.radians(self.y / 1e7))
        return ((x - self.x) * wide) ** 2 + (y - self.y) ** 2 <= self.radius


class Estimate:
    """The sizes of folders of an extract."""

    def __init__(
        self,
        extract: Extract,
        reading: Reading,
        names: list[str],
        places: list[Site],
        areas_of: Optional[roads.AreasOf] = None,
    ) -> None:
        self.extract, self.names, self.places = extract, names, places
        self.areas_of = areas_of
        self.reading = copy.copy(reading)
        self.reading.notes, self.reading.flags = Notes(), set()
        self.samples = list(self.draw())

    def draw(self) -> Iterator[Sample]:
        ways = self.extract.ways
        firsts = numpy.array(ways.firsts)
        xs = numpy.frombuffer(self.extract.xs, dtype=numpy.intc)[firsts].astype(float)
        ys = numpy.frombuffer(self.extract.ys, dtype=numpy.intc)[firsts].astype(float)
        draws = random.Random(1)
        for _ in range(SAMPLES):
            at = draws.randrange(len(ways))
            wide = numpy.cos(numpy.radians(ys[at] / 1e7))
            away = ((xs - xs[at]) * wide) ** 2 + (ys - ys[at]) ** 2
            count = min(SAMPLED_WAYS, len(ways)) - 1
            inner = count // INNER
            nearest = numpy.argpartition(away, [inner, count])
            around = [ways[it] for it in sorted(nearest[: count + 1].tolist())]
            yield Sample(around, int(xs[at]), int(ys[at]), float(away[nearest[inner]]))

    def size(self, gap: int, least: Optional[str] = None) -> Size:
        """The size of a folder with a junction each GAP seconds, of all classes that are taken,
        or of those down to one."""
        taken = self.names if least is None else self.names[: self.names.index(least) + 1]
        junctions = nodes = arcs = 0
        for sample in self.samples:
            ways = [way for way in sample.ways if dict(way.tags).get("highway", taken[0]) in taken]
            if len(ways) > 1:
                count, size = self.converted(part_of(self.extract, ways), sample, gap)
                junctions, nodes, arcs = junctions + count, nodes + size.nodes, arcs + size.arcs
        if not junctions:
            return Size(0, 0)
        refs: Iterable[int] = self.extract.refs
        if least is not None:
            own = [it for it in self.extract.ways if dict(it.tags).get("highway") in taken]
            refs = part_of(self.extract, own).refs
        whole = len(roads.junctions(refs)) / junctions
        return Size(round(nodes * whole), round(arcs * whole))

    def converted(self, part: Extract, sample: Sample, gap: int) -> tuple[int, Size]:
        """The junctions of the inner part of a sample, and the size of what is made of them."""
        rules = roads.Rules()
        way_rules = roads.WayRules(self.reading, rules, Report())
        near = places_along(part, self.places)
        exact = sites.nearest_refs(
            part, way_rules.is_usable, [it for it in near if it.rating in sites.EXACT]
        )
        keys = exact | sites.nearest_refs(part, way_rules.is_usable, near)
        network, arcs = roads.build(part, way_rules, keys, self.areas_of, "other")
        count = len(network.refs)
        fixed, kept = network.numbers(exact), network.numbers(keys)
        arcs = connected(count, arcs)
        arcs = roads.without_continuations(count, arcs, kept)
        if gap and len(arcs):
            fixed |= roads.at_borders(count, arcs)
            stars = coarse.Stars(count, arcs, (network.xs, network.ys))
            found = coarse.Coarse(stars, fixed, set(), gap * 1000, lambda _: ignore)
            arcs = coarse.usable(found.made, found.sets, rules)
            arcs = coarse.without_detours(arcs, found.sets, network.xs, network.ys, ignore)

        def is_inner(node: int) -> bool:
            return sample.has(network.xs[node], network.ys[node])

        known = (
            network.number[it] for it in roads.junctions(part.refs).tolist() if it in network.number
        )
        tails = list(filter(is_inner, arcs.tails.tolist()))
        return sum(map(is_inner, known)), Size(len(set(tails)), len(tails))


def connected(count: int, arcs: Arcs) -> Arcs:
    """The arcs of the strongly connected parts that aren't small: roads outside the sample may
    connect them."""
    found = of_list([])
    for _ in range(MOST_PARTS):
        nodes = roads.largest_component(count, arcs.tails, arcs.heads)
        if numpy.count_nonzero(nodes) < SMALL_PART:
            break
        found = found.with_more(roads.within(arcs, nodes))
        arcs = arcs.take(~nodes[arcs.tails] & ~nodes[arcs.heads])
    return found


def places_along(part: Extract, places: list[Site]) -> list[Site]:
    """The places to wait that are within the box of some ways."""
    (west, east), (south, north) = ((min(it), max(it)) for it in (part.xs, part.ys))
    return [it for it in places if west <= it.x <= east and south <= it.y <= north]


def part_of(extract: Extract, ways: list[Way]) -> Extract:
    """An extract of some ways."""
    part = Extract()
    part.barriers = extract.barriers
    for way in ways:
        first = len(part.refs)
        part.refs.extend(extract.refs[way.first : way.last])
        part.xs.extend(extract.xs[way.first : way.last])
        part.ys.extend(extract.ys[way.first : way.last])
        part.ways.append(way.number, way.tags, way.name, first, len(part.refs))
    return part


def ignore(done: int, whole: int) -> None:
    """Says nothing."""


def advice(
    estimate: Estimate, gap: int, most: Size, say: Callable[[str], None]
) -> list[tuple[str, Size]]:
    """The options with which a folder would fit, each with its size: a larger gap, and fewer
    classes of roads."""
    found = []
    for other in GAPS:
        if other > gap:
            say(f"trying --coarse {other} ..")
            size = estimate.size(other)
            if size.fits(most, SHARE):
                found.append((f"--coarse {other}", size))
                break
    names = [it for it in CLASSES if it in estimate.names]
    for least in names[1:] if names and names[0] == estimate.names[-1] else names:
        say(f"trying --roads {least} ..")
        size = estimate.size(gap, least)
        if size.nodes and size.fits(most, SHARE):
            found.append((f"--roads {least}", size))
            break
    return found
