"""Where the sections of law tables are on a map.

A section between two junctions goes over the shortest ways along roads of its number, on both
carriageways, from the last node of the one to the first node of the other: an interchange has
several. Where the map hasn't both, it is all of that road that is within the section's box, or all
of it: that is stricter. The network has a node wherever a section begins or ends."""
from __future__ import annotations

import collections
import heapq
from typing import AbstractSet, Iterable, Mapping, Optional

from lorry_tools.conversion.access import Lists
from lorry_tools.conversion.extract import Extract, TagPairs
from lorry_tools.conversion.report import Report
from lorry_tools.conversion.roads import Step, metres
from lorry_tools.laws.section import Box, Section, junction_name, refs_in
from lorry_tools.laws.table import Tables, joined

# The other carriageway is taken up to this multiple of the shortest way, and these metres more.
LONGER, METRES = 1.1, 3_000

# From a node over a step to another one, with the metres.
Stars = dict[int, list[tuple[int, Step, float]]]
# The ways, by their places in the extract's list, that have a number.
WaysByRef = dict[str, list[int]]


class Road:
    """The ways of a section's number and classes, as a graph of steps."""

    def __init__(self, extract: Extract, section: Section, by_ref: WaysByRef) -> None:
        self.extract, self.box = extract, section.box
        candidates: Iterable[int] = range(len(extract.ways))
        if section.refs:
            candidates = sorted({way for ref in section.refs for way in by_ref[ref]})
        self.ways = [it for it in candidates if section.is_about(dict(extract.ways[it].tags))]

    def is_within(self, step: Step) -> bool:
        """Whether the middle of a step is within the box."""
        at, (xs, ys) = step[1], (self.extract.xs, self.extract.ys)
        return is_in_box(self.box, (xs[at] + xs[at + 1]) / 2, (ys[at] + ys[at + 1]) / 2)

    def steps(self) -> set[Step]:
        """All steps within the box."""
        found = (
            (number, at)
            for number in self.ways
            for at in range(self.extract.ways[number].first, self.extract.ways[number].last - 1)
        )
        return {step for step in found if self.is_within(step)}

    def stars(self) -> Stars:
        """The graph of the steps, in both directions."""
        refs, xs, ys = self.extract.refs, self.extract.xs, self.extract.ys
        found: Stars = collections.defaultdict(list)
        for place in self.ways:
            way = self.extract.ways[place]
            for at in range(way.first, way.last - 1):
                length = metres(xs[at], ys[at], xs[at + 1], ys[at + 1])
                found[refs[at]].append((refs[at + 1], (place, at), length))
                found[refs[at + 1]].append((refs[at], (place, at), length))
        return found

    def exits(self, names: AbstractSet[str]) -> set[int]:
        """The nodes of a junction on this road, within the box."""
        refs, xs, ys = self.extract.refs, self.extract.xs, self.extract.ys
        return {
            refs[at]
            for number in self.ways
            for at in range(self.extract.ways[number].first, self.extract.ways[number].last)
            if junction_name(self.extract.exits.get(refs[at], "")) in names
            and is_in_box(self.box, xs[at], ys[at])
        }

    def between(self, starts: set[int], ends: set[int]) -> set[Step]:
        """The steps from the nodes of one junction to those of another."""
        stars, stops = self.stars(), starts | ends
        found = [path for start in sorted(starts) for path in shortest(start, ends, stops, stars)]
        most = min((length for length, _ in found), default=0.0) * LONGER + METRES
        return {step for length, path in found if length <= most for step in path}


def is_in_box(box: Optional[Box], x: float, y: float) -> bool:
    if not box:
        return True
    return box[0] <= x / 1e7 <= box[2] and box[1] <= y / 1e7 <= box[3]


def shortest(
    start: int, ends: AbstractSet[int], stops: AbstractSet[int], stars: Stars
) -> list[tuple[float, list[Step]]]:
    """The shortest path from a node to each of several others that it reaches without passing a
    stop."""
    best: dict[int, float] = {start: 0.0}
    came: dict[int, tuple[int, Step]] = {}
    queue, done = [(0.0, start)], set()
    while queue:
        length, node = heapq.heappop(queue)
        if node in done:
            continue
        done.add(node)
        if node in stops and node != start:
            continue
        for head, step, more in stars.get(node, ()):
            if length + more < best.get(head, float("inf")):
                best[head], came[head] = length + more, (node, step)
                heapq.heappush(queue, (length + more, head))
    return [(best[end], path_to(end, came)) for end in sorted(ends & done - {start})]


def path_to(node: int, came: Mapping[int, tuple[int, Step]]) -> list[Step]:
    path = []
    while node in came:
        node, step = came[node]
        path.append(step)
    return path


def ways_by_ref(extract: Extract) -> WaysByRef:
    found: WaysByRef = collections.defaultdict(list)
    for number, way in enumerate(extract.ways):
        for key, value in way.tags:
            if key == "ref":
                for ref in refs_in(value):
                    found[ref].append(number)
    return found


def steps_of(extract: Extract, section: Section, by_ref: WaysByRef, report: Report) -> set[Step]:
    """The steps of ways on which a section is."""
    road = Road(extract, section, by_ref)
    if not road.ways or not section.ends:
        return road.steps()
    one, other = (road.exits(names) for names in section.ends)
    between = road.between(one, other)
    if between:
        return between
    steps = road.steps()
    if steps:
        report.add(
            "changed",
            "sections of laws of which the map hasn't both junctions: all of the road in their box",
            section.text,
            count=len({number for number, _ in steps}),
        )
    return steps


class SectionLaws:
    """The law of sections, by the tags of a way and its area."""

    def __init__(self, tables: Tables, codes: Iterable[str], first: int, last: int) -> None:
        self.tables, self.first, self.last = tables, first, last
        every = [row for code in codes for row in tables.rules(code) if row.section.text]
        self.rows = list(dict.fromkeys(every))
        self.known: dict[tuple[TagPairs, str, frozenset[Section]], Lists] = {}
        # The sections at each step that is on some, and the nodes where that changes.
        self.on: dict[Step, frozenset[Section]] = {}
        self.changes: set[int] = set()

    def locate(self, extract: Extract, report: Report) -> None:
        """Finds the sections on a map."""
        by_ref = ways_by_ref(extract)
        for section in dict.fromkeys(row.section for row in self.rows if row.section.has_place()):
            for step in steps_of(extract, section, by_ref, report):
                self.on[step] = self.on.get(step, frozenset()) | {section}
        for (place, at), here in self.on.items():
            if self.on.get((place, at - 1)) != here:
                self.changes.add(extract.refs[at])
            if self.on.get((place, at + 1)) != here:
                self.changes.add(extract.refs[at + 1])

    def lists(self, tags: TagPairs, area: str, step: Step) -> Lists:
        """The law of the sections that a way with these tags is on at a step, in an area."""
        on = self.on.get(step, frozenset())
        if (tags, area, on) not in self.known:
            road = dict(tags)
            rows = [
                row
                for row in self.rows
                if row.holds_in(area)
                and (row.section in on if row.section.has_place() else row.section.is_about(road))
            ]
            self.known[tags, area, on] = joined(rows, self.first, self.last)
        return self.known[tags, area, on]
