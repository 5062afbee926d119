"""The network of an extract: arcs between junctions, with their driving times, rules, countries and
tolls."""
from __future__ import annotations

import array
import bisect
import math
from typing import AbstractSet, Any, Callable, Iterable, Iterator, Mapping, Optional, TypeVar

import numpy

from lorry_tools.conversion import access, speeds, tags as road_tags
from lorry_tools.conversion.access import CLOSED, OPEN, Lists
from lorry_tools.conversion.arcs import Arc, Arcs, of_list, ranges, stars
from lorry_tools.conversion.borders import PlainCells
from lorry_tools.conversion.extract import PASSED, WALLS, Extract, TagPairs, Way, Ways
from lorry_tools.conversion.report import Report
from lorry_tools.conversion.tags import Said, Tags

Read = TypeVar("Read")
# The rules and the speed of a direction; None for rules that never let anybody in.
DirectionSays = tuple[Optional[int], float]
# Both directions, and whether a toll is due.
WaySays = tuple[DirectionSays, DirectionSays, bool]
# From the coordinates of places, as arrays, to the codes of their countries, as numbers of a list.
AreasOf = Callable[[Any, Any, PlainCells], tuple[Any, list[Optional[str]]]]
# A step of a way: the way's place in the extract's list, and that of the step's first node in the
# arrays.
Step = tuple[int, int]
# The law of the sections on which a way with these tags is, in an area, at one of its steps.
LawOf = Callable[[TagPairs, str, Step], Lists]

ALL_OPEN: Lists = (OPEN,) * 4
# From how many nodes at most the largest component is looked for in a fast way.
TRIED = 5
# How many places of the extract's arrays are looked at at once.
AT_ONCE = 1 << 16
# How many nodes of roads that go on are looked at at once.
CHAINED = 2000
# Ferries have areas of their own, since no law for roads holds on them.
FERRY_AREA = ".ferry"


def metres(x1: int, y1: int, x2: int, y2: int) -> float:
    """The distance of two places, whose coordinates are whole numbers of 1e-7 degrees, on a
    sphere."""
    wide = math.cos(math.radians((y1 + y2) / 2e7))
    return math.hypot((x2 - x1) * wide, y2 - y1) * 0.0111194927


class Rules:
    """The lists of roads, each with a number; 0 lets everybody in."""

    def __init__(self) -> None:
        self.lists = [ALL_OPEN]
        self.number = {ALL_OPEN: 0}
        self.joined: dict[tuple[int, int], int] = {}

    def of(self, lists: Lists) -> int:
        if lists not in self.number:
            self.number[lists] = len(self.lists)
            self.lists.append(lists)
        return self.number[lists]

    def both(self, one: int, other: int) -> int:
        if not one or not other or one == other:
            return one or other
        key = (one, other) if one < other else (other, one)
        if key not in self.joined:
            self.joined[key] = self.of(
                tuple(access.both(a, b) for a, b in zip(self.lists[one], self.lists[other]))
            )
        return self.joined[key]

    def all(self, numbers: Iterable[int]) -> int:
        found = 0
        for number in sorted(numbers):
            found = self.both(found, number)
        return found


class WayRules:
    """What the tags of ways and barriers say, each set of tags read once; notes are counted for
    each way that has them."""

    def __init__(
        self,
        reading: road_tags.Reading,
        rules: Rules,
        report: Report,
        law_of: Optional[LawOf] = None,
    ) -> None:
        self.reading, self.rules, self.report, self.law_of = reading, rules, report, law_of
        self.most_known: dict[tuple[str, TagPairs], float] = {}
        self.ways: dict[TagPairs, tuple[WaySays, list[Said]]] = {}
        self.nodes: dict[TagPairs, tuple[Optional[int], list[Said]]] = {}

    def read(self, work: Callable[[], Read]) -> tuple[Read, list[Said]]:
        """What `work` gives, with the notes that it makes."""
        self.reading.notes = road_tags.Notes()
        found = work()
        return found, list(self.reading.notes.said)

    def note(self, ways: Ways) -> None:
        """Reports what was noted of the tags of some ways, and the ways that nobody may use."""
        tags_of = numpy.frombuffer(ways.tags_of, dtype=numpy.intc)
        counts = numpy.bincount(tags_of, minlength=len(ways.tags)).tolist()
        firsts = numpy.unique(tags_of, return_index=True)[1].tolist()
        for tags, count, first in zip(ways.tags, counts, firsts):
            where = f"way {ways.numbers[first]}"
            for kind, what, example in self.known(tags)[1]:
                self.report.add(kind, what, example, where, count)
            if not self.is_usable(tags):
                words = (f"{key}={it}" for key, it in tags if key not in ("junction", "maxspeed"))
                text = " ".join(words)
                self.report.add("left out", "roads that nobody may ever use", text, where, count)

    def known(self, tags: TagPairs) -> tuple[WaySays, list[Said]]:
        """What the tags of a way say for each direction: the number of the rules, None where nobody
        is ever let in, and the speed in metres a second, 0 for a ferry. Then whether a toll is due.
        And the notes."""
        if tags not in self.ways:
            self.ways[tags] = self.read(lambda: self.way(dict(tags)))
        return self.ways[tags]

    def with_law(self, rules: int, tags: TagPairs, area: str, step: Step) -> int:
        """These rules, and the law of the sections of an area that a piece of a way is on, which
        begins with a step."""
        if not self.law_of or area.endswith(FERRY_AREA):
            return rules
        lists = self.law_of(tags, area, step)
        return rules if lists == ALL_OPEN else self.rules.both(rules, self.rules.of(lists))

    def most(self, area: str, tags: TagPairs) -> float:
        """The highest speed of our vehicles on a way in an area, in metres a second."""
        key = area, tags
        if key not in self.most_known:
            self.most_known[key] = speeds.most(self.reading.mode, area, dict(tags)) / 3.6
        return self.most_known[key]

    def is_usable(self, tags: TagPairs) -> bool:
        """Whether somebody may drive a way in some direction; nothing is noted."""
        forward, backward, _ = self.known(tags)[0]
        return forward[0] is not None or backward[0] is not None

    def way(self, tags: Tags) -> WaySays:
        highway = tags.get("highway", "")
        implied = (
            "forward"
            if highway == "motorway" or tags.get("junction") in ("roundabout", "circular")
            else ""
        )
        start = CLOSED if highway in ("pedestrian", "") else OPEN
        found = []
        for direction in road_tags.DIRECTIONS:
            lists = self.reading.lists(tags, direction, start, implied)
            number = None if access.is_shut(lists) else self.rules.of(lists)
            speed = self.reading.speed(tags, direction) / 3.6 if highway else 0.0
            found.append((number, speed))
        self.reading.note_keys(tags)
        is_toll = tags.get("toll:hgv", tags.get("toll", "no")) not in ("no", "none")
        return found[0], found[1], is_toll

    def of_node(self, number: int, tags: Tags) -> Optional[int]:
        """The number of the rules of passing a node, or None where nobody is ever let through."""
        key = tuple(sorted(tags.items()))
        if key not in self.nodes:
            self.nodes[key] = self.read(lambda: self.node(tags))
        found, said = self.nodes[key]
        for kind, what, example in said:
            self.report.add(kind, what, example, f"node {number}")
        return found

    def node(self, tags: Tags) -> Optional[int]:
        barrier = tags.get("barrier")
        start = OPEN
        if barrier in WALLS:
            start = CLOSED
        elif barrier == "height_restrictor" and not any(
            key.startswith("maxheight") for key in tags
        ):
            start = (
                CLOSED
                if self.reading.refuse("a barrier of unknown height", "barrier=height_restrictor")
                else OPEN
            )
        elif barrier is not None and barrier not in PASSED:
            start = (
                CLOSED
                if self.reading.refuse("a barrier that isn't known", f"barrier={barrier}")
                else OPEN
            )
        lists = self.reading.lists(
            {key: value for key, value in tags.items() if not key.startswith("oneway")},
            "forward",
            start,
        )
        if barrier in WALLS:
            self.reading.notes.add(
                "read", "barriers that end a road for motor vehicles", f"barrier={barrier}"
            )
        elif barrier is not None:
            self.reading.notes.add(
                "read", "barriers that are passed, by their tags", f"barrier={barrier}"
            )
        return None if access.is_shut(lists) else self.rules.of(lists)


class Numbers(Mapping[int, int]):
    """The number of each node of OpenStreetMap that the network has."""

    def __init__(self, refs: Any) -> None:
        order = numpy.argsort(refs)
        self.refs = array.array("q", refs[order].tobytes())
        self.nodes = array.array("i", order.astype(numpy.intc).tobytes())

    def __getitem__(self, ref: int) -> int:
        at = bisect.bisect_left(self.refs, ref)
        if at == len(self.refs) or self.refs[at] != ref:
            raise KeyError(ref)
        return self.nodes[at]

    def __iter__(self) -> Iterator[int]:
        return iter(self.refs)

    def __len__(self) -> int:
        return len(self.refs)


class Network:
    """Nodes are numbered from 0 by their place in `refs`; `xs` and `ys` are their coordinates. A
    piece of a way has its first and last place in the arrays of the extract, its way, and its ends
    `tails` and `heads`. Arcs have the numbers of their areas in `areas`."""

    def __init__(self, extract: Extract, pieces: Pieces) -> None:
        """Takes the pieces of ways; their ends are numbered as they come."""
        self.firsts, self.lasts, self.way_of = pieces.firsts, pieces.lasts, pieces.ways
        self.areas: list[str] = []
        at = numpy.column_stack((pieces.firsts, pieces.lasts)).reshape(-1)
        refs = numpy.frombuffer(extract.refs, dtype=numpy.int64)
        names, firsts, back = numpy.unique(refs[at], return_index=True, return_inverse=True)
        order = numpy.argsort(firsts)
        number = numpy.empty(len(order), dtype=numpy.int32)
        number[order] = numpy.arange(len(order), dtype=numpy.int32)
        ends = number[back].reshape(-1, 2)
        self.tails, self.heads = ends[:, 0], ends[:, 1]
        places = at[firsts[order]]
        self.refs, self.xs, self.ys = array.array("q"), array.array("i"), array.array("i")
        for column, own in (
            (self.refs, names[order]),
            (self.xs, numpy.frombuffer(extract.xs, dtype=numpy.intc)[places]),
            (self.ys, numpy.frombuffer(extract.ys, dtype=numpy.intc)[places]),
        ):
            column.frombytes(own.tobytes())
        self.number = Numbers(names[order])

    def ways(self, pieces: Iterable[int]) -> tuple[int, ...]:
        """The ways of an arc's pieces, as places in the extract's list, each once in its order."""
        return tuple(dict.fromkeys(map(self.way_of_piece, pieces)))

    def way_of_piece(self, piece: int) -> int:
        return int(self.way_of[piece if piece >= 0 else -1 - piece])

    def copy_of(self, node: int) -> int:
        """A further node at the place of another one."""
        self.refs.append(self.refs[node])
        self.xs.append(self.xs[node])
        self.ys.append(self.ys[node])
        return len(self.refs) - 1

    def numbers(self, refs: Iterable[int]) -> set[int]:
        """The nodes of some numbers of OpenStreetMap that the network has."""
        return {self.number[ref] for ref in refs if ref in self.number}

    def piece_places(self, piece: int) -> range:
        """The places of a piece's points in the arrays of the extract."""
        own = piece if piece >= 0 else -1 - piece
        first, last = int(self.firsts[own]), int(self.lasts[own])
        return range(first, last + 1) if piece >= 0 else range(last, first - 1, -1)


def junctions(refs: Any) -> Any:
    """The nodes that several drivable ways have, or one has twice, by the nodes of all ways, as an
    array."""
    ordered = numpy.sort(numpy.frombuffer(refs, dtype=numpy.int64))
    return numpy.unique(ordered[1:][ordered[1:] == ordered[:-1]])


def metres_of(extract: Extract, firsts: Any, lasts: Any) -> Any:
    """The metres of pieces, which are in their order and don't overlap, from their first place of
    the extract's arrays to their last one."""
    found = numpy.zeros(len(firsts))
    xs, ys = (numpy.frombuffer(it, dtype=numpy.intc) for it in (extract.xs, extract.ys))
    for own in parts_of(lasts):
        begin, end = int(firsts[own][0]), int(lasts[own][-1]) + 1
        x, y = xs[begin:end].astype(float), ys[begin:end].astype(float)
        wide = numpy.cos(numpy.radians((y[:-1] + y[1:]) / 2e7))
        steps = numpy.hypot((x[1:] - x[:-1]) * wide, y[1:] - y[:-1]) * 0.0111194927
        found[own] = sums(steps, firsts[own] - begin, lasts[own] - begin)
    return found


def parts_of(lasts: Any) -> Iterator[slice]:
    """Parts of pieces, whose last places these are, that have about AT_ONCE places each."""
    if not len(lasts):
        return
    cuts = numpy.arange(int(lasts[0]) + AT_ONCE, int(lasts[-1]), AT_ONCE)
    ends = numpy.unique([0, *numpy.searchsorted(lasts, cuts).tolist(), len(lasts)]).tolist()
    yield from map(slice, ends, ends[1:])


def areas_of_steps(
    extract: Extract, is_asked: Any, areas_of: AreasOf, default: str
) -> tuple[Any, list[str]]:
    """The number of the area in the middle of each step that is asked for, by the place where the
    step begins, and the areas by their numbers."""
    xs, ys = (numpy.frombuffer(it, dtype=numpy.intc) for it in (extract.xs, extract.ys))
    names: dict[str, int] = {}
    plain: PlainCells = {}
    found = numpy.zeros(len(extract.refs), dtype=numpy.intc)
    for first in range(0, len(found), AT_ONCE):
        asked = first + numpy.flatnonzero(is_asked[first : first + AT_ONCE])
        x, y = (it[asked].astype(numpy.int64) + it[asked + 1] for it in (xs, ys))
        own, codes = areas_of(x // 2, y // 2, plain)
        kinds, back = numpy.unique(own, return_inverse=True)
        order = numpy.argsort(numpy.unique(own, return_index=True)[1])
        numbers = numpy.zeros(len(kinds), dtype=numpy.intc)
        for kind in order.tolist():
            code = codes[int(kinds[kind])] or default
            numbers[kind] = names.setdefault(code, len(names))
        found[asked] = numbers[back]
    return found, list(names)


def ferry_speed(extract: Extract, way: Way) -> float:
    """The metres a second of a ferry, by its duration; 0 for a road."""
    tags = dict(way.tags)
    minutes = None if "highway" in tags else road_tags.duration_of(tags.get("duration", ""))
    if minutes is None:
        return 0.0
    return max(length_of(extract, way.first, way.last - 1), 1.0) / (minutes * 60)


def length_of(extract: Extract, first: int, last: int) -> float:
    """The metres from one place of the extract's arrays to another."""
    xs, ys = extract.xs, extract.ys
    steps = range(first + 1, last + 1)
    return sum(metres(xs[at - 1], ys[at - 1], xs[at], ys[at]) for at in steps)


def country_of(area: str) -> str:
    """The country of an area of the network."""
    return area.split(".")[0]


class Pieces:
    """The pieces of ways between nodes of the network, by columns: the places of their ends in the
    arrays of the extract, their ways, metres and areas. One that crosses a border is cut there."""

    def __init__(
        self,
        extract: Extract,
        is_usable: Any,
        wanted: Any,
        areas_of: Optional[AreasOf],
        default_area: str,
    ) -> None:
        ways = extract.ways
        firsts, lasts = (
            numpy.frombuffer(it, dtype=numpy.int64) for it in (ways.firsts, ways.lasts)
        )
        numbers = numpy.arange(len(ways), dtype=numpy.int32)
        way_of = numpy.repeat(numbers, lasts - firsts)
        is_used = is_usable[way_of]
        is_break = is_in(numpy.frombuffer(extract.refs, dtype=numpy.int64), wanted)
        is_end = numpy.zeros(len(is_used), dtype=bool)
        is_end[firsts] = True
        is_end[lasts - 1] = True
        self.areas = [default_area]
        area_of = None
        if areas_of:
            is_step = is_used.copy()
            is_step[lasts - 1] = False
            area_of, self.areas = areas_of_steps(extract, is_step, areas_of, default_area)
            is_break[1:] |= (area_of[1:] != area_of[:-1]) & ~is_end[1:]
        at = numpy.flatnonzero((is_break | is_end) & is_used).astype(numpy.int32)
        own = way_of[at]
        is_piece = own[1:] == own[:-1]
        self.firsts, self.lasts, self.ways = at[:-1][is_piece], at[1:][is_piece], own[1:][is_piece]
        self.area = numpy.zeros(len(self.firsts), dtype=numpy.intc)
        if area_of is not None:
            self.area = area_of[self.firsts]
        self.metres = metres_of(extract, self.firsts, self.lasts)


def is_in(values: Any, ordered: Any) -> Any:
    """Which of some values are among others, which are in their order."""
    found = numpy.zeros(len(values), dtype=bool)
    for first in range(0, len(values) if len(ordered) else 0, AT_ONCE):
        own = values[first : first + AT_ONCE]
        at = numpy.minimum(numpy.searchsorted(ordered, own), len(ordered) - 1)
        found[first : first + AT_ONCE] = ordered[at] == own
    return found


def sums(values: Any, firsts: Any, lasts: Any) -> Any:
    """The sums of values from each of some places up to others, added up from the first on."""
    found = numpy.zeros(len(firsts))
    left = numpy.arange(len(firsts))
    at = firsts.copy()
    while len(left):
        found[left] += values[at]
        at = at + 1
        goes_on = at < lasts[left]
        left, at = left[goes_on], at[goes_on]
    return found


def build(
    extract: Extract,
    way_rules: WayRules,
    keys: AbstractSet[int],
    areas_of: Optional[AreasOf],
    default_area: str,
) -> tuple[Network, Arcs]:
    """Makes the arcs of all ways, without those that nobody may ever use. `keys` are nodes that the
    network has to have, besides junctions."""
    ways = extract.ways
    for tags in ways.tags:
        way_rules.known(tags)
    barriers = numpy.array(sorted(extract.barriers), dtype=numpy.int64)
    refs = numpy.frombuffer(extract.refs, dtype=numpy.int64)
    on_roads = numpy.unique(refs[is_in(refs, barriers)]).tolist()
    through = {ref: way_rules.of_node(ref, extract.barriers[ref]) for ref in on_roads}
    way_rules.note(ways)
    more = numpy.fromiter(keys | extract.barriers.keys(), dtype=numpy.int64)
    tags_of = numpy.frombuffer(ways.tags_of, dtype=numpy.intc)
    is_usable = numpy.array([way_rules.is_usable(tags) for tags in ways.tags], dtype=bool)[tags_of]
    wanted = numpy.unique(numpy.concatenate((junctions(extract.refs), more)))
    pieces = Pieces(extract, is_usable, wanted, areas_of, default_area)
    network = Network(extract, pieces)
    directions = Directions(extract, way_rules, pieces, network)
    directions.obey(through)
    network.areas = directions.areas
    return network, directions.arcs()


class Directions:
    """The two directions of each piece, one after the other: their rules, -1 for those that make no
    arc, and their milliseconds; and the areas of pieces."""

    def __init__(
        self, extract: Extract, way_rules: WayRules, pieces: Pieces, network: Network
    ) -> None:
        ways = extract.ways
        self.extract, self.way_rules, self.pieces, self.network = (
            extract,
            way_rules,
            pieces,
            network,
        )
        self.says = [way_rules.known(tags)[0] for tags in ways.tags]
        self.tags_of = numpy.frombuffer(ways.tags_of, dtype=numpy.intc)[pieces.ways]
        ferries = ferry_speeds(extract)[pieces.ways]
        self.areas = pieces.areas + [area + FERRY_AREA for area in pieces.areas]
        self.area_of = pieces.area + len(pieces.areas) * (ferries > 0)
        most = self.most()
        count = len(pieces.ways)
        rules = numpy.empty((count, 2), dtype=numpy.int32)
        times = numpy.empty((count, 2), dtype=numpy.int64)
        is_ring = network.tails == network.heads
        for at, says in enumerate(zip(*((it[0], it[1]) for it in self.says))):
            numbers = numpy.array([-1 if number is None else number for number, _ in says])
            rules[:, at] = numpy.where(is_ring, -1, numbers[self.tags_of])
            speed = numpy.array([it for _, it in says])[self.tags_of]
            speed = numpy.where(ferries > 0, ferries, numpy.minimum(speed, most))
            speed[rules[:, at] < 0] = 1.0
            times[:, at] = numpy.maximum(1, numpy.rint(pieces.metres / speed * 1000))
        self.rules, self.times = rules.reshape(-1), times.reshape(-1)

    def most(self) -> Any:
        """The highest speed of our vehicles on each piece, in metres a second."""
        tags, count = self.extract.ways.tags, len(self.areas)
        both = self.tags_of.astype(numpy.int64) * count + self.area_of
        kinds, kind_of = numpy.unique(both, return_inverse=True)
        found = [
            self.way_rules.most(self.areas[it % count], tags[it // count]) for it in kinds.tolist()
        ]
        return numpy.array(found)[kind_of]

    def obey(self, through: Mapping[int, Optional[int]]) -> None:
        """Adds the law of sections, and the rules of passing some nodes of OpenStreetMap."""
        network, pieces, tags = self.network, self.pieces, self.extract.ways.tags
        starts = numpy.column_stack((network.tails, network.heads)).reshape(-1)
        is_asked = self.rules >= 0
        if not self.way_rules.law_of:
            refs = numpy.fromiter(sorted(through), dtype=numpy.int64)
            is_asked &= is_in(numpy.array(network.refs, dtype=numpy.int64)[starts], refs)
        joined = self.way_rules.rules
        for at in numpy.flatnonzero(is_asked).tolist():
            piece, ref = at >> 1, network.refs[starts[at]]
            step = (int(pieces.ways[piece]), int(pieces.firsts[piece]))
            area = self.areas[self.area_of[piece]]
            own = self.way_rules.with_law(
                int(self.rules[at]), tags[self.tags_of[piece]], area, step
            )
            if ref in through:
                passing = through[ref]
                own = -1 if passing is None else joined.both(own, passing)
                if own >= 0 and access.is_shut(joined.lists[own]):
                    own = -1
            self.rules[at] = own

    def arcs(self) -> Arcs:
        """The arcs, of each piece first the one along its way."""
        network, pieces, ways = self.network, self.pieces, self.extract.ways
        is_toll = numpy.array([it[2] for it in self.says], dtype=bool)[self.tags_of]
        at = numpy.flatnonzero(self.rules >= 0)
        piece, is_back = (at >> 1).astype(numpy.int32), (at & 1).astype(bool)
        tails, heads = network.tails[piece], network.heads[piece]
        columns = (
            numpy.where(is_back, heads, tails),
            numpy.where(is_back, tails, heads),
            self.times[at],
            pieces.metres[piece],
            self.rules[at],
            numpy.where(is_toll, pieces.metres, 0.0)[piece],
            self.area_of[piece],
            numpy.frombuffer(ways.names_of, dtype=numpy.intc)[pieces.ways[piece]],
        )
        return Arcs(columns, numpy.arange(len(at) + 1), numpy.where(is_back, -1 - piece, piece))


def ferry_speeds(extract: Extract) -> Any:
    """The metres a second of each way, by the duration of a ferry; 0 for a road."""
    ways = extract.ways
    found = numpy.zeros(len(ways))
    tags_of = numpy.frombuffer(ways.tags_of, dtype=numpy.intc)
    is_ferry = numpy.array(["highway" not in dict(tags) for tags in ways.tags], dtype=bool)
    for place in numpy.flatnonzero(is_ferry[tags_of]).tolist():
        found[place] = ferry_speed(extract, ways[place])
    return found


def reached(count: int, tails: Any, heads: Any, start: int) -> Any:
    """Which nodes can be reached from one over some arcs."""
    order, firsts = stars(count, tails)
    others = heads[order]
    found = numpy.zeros(count, dtype=bool)
    found[start] = True
    left = numpy.array([start])
    while len(left):
        at, _ = ranges(firsts[left], firsts[left + 1] - firsts[left])
        near = others[at]
        left = numpy.unique(near[~found[near]])
        found[left] = True
    return found


def largest_component(count: int, tails: Any, heads: Any) -> Any:
    """Which nodes are in the largest strongly connected component of some arcs. One that has most
    of all nodes with arcs is found by what can be reached from one of its nodes and reaches it."""
    has_arcs = numpy.zeros(count, dtype=bool)
    has_arcs[tails] = True
    has_arcs[heads] = True
    most = numpy.count_nonzero(has_arcs) // 2
    for at in range(0, len(tails), len(tails) // TRIED + 1):
        start = int(tails[at])
        found = reached(count, tails, heads, start) & reached(count, heads, tails, start)
        if numpy.count_nonzero(found) > most:
            return found
    found = numpy.zeros(count, dtype=bool)
    found[by_tarjan(count, tails, heads)] = True
    return found


def by_tarjan(count: int, tails: Any, heads: Any) -> list[int]:
    """The nodes of the largest strongly connected component; of several the one whose first node
    has the least number. By Tarjan's algorithm without recursion."""
    starts, firsts = stars(count, tails)
    out = [part.tolist() for part in numpy.split(heads[starts], firsts[1:-1])]
    order, low, on_stack = [0] * count, [0] * count, bytearray(count)
    stack: list[int] = []
    best: list[int] = []
    time = 0
    for root in range(count):
        if order[root]:
            continue
        work = [(root, iter(out[root]))]
        time += 1
        order[root] = low[root] = time
        stack.append(root)
        on_stack[root] = 1
        while work:
            node, heads = work[-1]
            for head in heads:
                if not order[head]:
                    time += 1
                    order[head] = low[head] = time
                    stack.append(head)
                    on_stack[head] = 1
                    work.append((head, iter(out[head])))
                    break
                if on_stack[head] and order[head] < low[node]:
                    low[node] = order[head]
            else:
                work.pop()
                if work and low[node] < low[work[-1][0]]:
                    low[work[-1][0]] = low[node]
                if low[node] == order[node]:
                    component = []
                    while True:
                        member = stack.pop()
                        on_stack[member] = 0
                        component.append(member)
                        if member == node:
                            break
                    if len(component) > len(best):
                        best = component
    return best


def at_borders(count: int, arcs: Arcs) -> set[int]:
    """The nodes at which roads of several areas meet."""
    of_node = numpy.zeros(count, dtype=numpy.int32)
    for ends in (arcs.tails, arcs.heads):
        of_node[ends] = arcs.areas
    found: set[int] = set()
    for ends in (arcs.tails, arcs.heads):
        found.update(ends[of_node[ends] != arcs.areas].tolist())
    return found


def within(arcs: Arcs, nodes: Any) -> Arcs:
    """The arcs between some nodes, given by whether each is one."""
    return arcs.take(nodes[arcs.tails] & nodes[arcs.heads])


def joined(one: Arc, other: Arc) -> Arc:
    """The arc over one arc and then another with the same rules and area."""
    return Arc(
        one.tail,
        other.head,
        one.time + other.time,
        one.length + other.length,
        one.rules,
        one.toll + other.toll,
        one.area,
        one.name if one.length >= other.length else other.name,
        one.pieces + other.pieces,
    )


def differs(one: Arc, other: Arc) -> bool:
    return one.rules != other.rules or one.area != other.area or (one.toll > 0) != (other.toll > 0)


def without_continuations(count: int, arcs: Arcs, kept: Iterable[int]) -> Arcs:
    """Drops nodes at which a road only goes on: two neighbours, and on both sides the same rules
    and area, and a toll or none. `kept` stay. The arcs given are changed."""
    chains = Chains(count, arcs, kept)
    nodes = chains.first_nodes()
    # From the last node on, some of them after others.
    for first in reversed(range(0, len(nodes), CHAINED)):
        own = nodes[first : first + CHAINED]
        chains.see(own)
        chains.join(own.tolist())
    made, stays = list(filter(None, chains.made)), chains.stays_arc
    del chains
    more = of_list(made)
    del made
    arcs.keep(stays, more)
    return arcs


class Chains:
    """Roads that go on at nodes: objects are made only of arcs at nodes that may be dropped."""

    def __init__(self, count: int, arcs: Arcs, kept: Iterable[int]) -> None:
        # What was made, None for what went into a longer one.
        self.arcs, self.made = arcs, list[Optional[Arc]]()
        self.first_made = len(arcs)
        self.stays_arc = numpy.ones(len(arcs), dtype=bool)
        self.stays = numpy.zeros(count, dtype=bool)
        self.stays[list(kept)] = True
        self.out_of, self.into_of = stars(count, arcs.tails), stars(count, arcs.heads)
        self.seen: dict[int, Arc] = {}
        self.out: dict[int, list[int]] = {}
        self.into: dict[int, list[int]] = {}
        # The nodes whose lists have changed, but for those that were dropped.
        self.changed: set[int] = set()
        self.is_dropped = bytearray(count)

    def arc(self, at: int) -> Arc:
        made = at - self.first_made
        found = self.made[made] if made >= 0 else self.seen.get(at)
        if found is None:
            found = self.seen[at] = self.arcs[at]
        return found

    def leaving(self, node: int) -> list[int]:
        if node not in self.out:
            order, firsts = self.out_of
            self.out[node] = order[firsts[node] : firsts[node + 1]].tolist()
        return self.out[node]

    def entering(self, node: int) -> list[int]:
        if node not in self.into:
            order, firsts = self.into_of
            self.into[node] = order[firsts[node] : firsts[node + 1]].tolist()
        return self.into[node]

    def first_nodes(self) -> Any:
        """The nodes that may be dropped before any is: others may be after a neighbour is."""
        (leaving, firsts), (entering, begins) = self.out_of, self.into_of
        counts = numpy.diff(firsts)
        is_even = (counts == numpy.diff(begins)) & ~self.stays
        tails, heads = self.arcs.tails, self.arcs.heads
        found = []
        for degree in (1, 2):
            nodes = numpy.flatnonzero(is_even & (counts == degree))
            a = [entering[begins[nodes] + it] for it in range(degree)]
            b = [leaving[firsts[nodes] + it] for it in range(degree)]
            if degree == 2:
                goes_back = heads[b[0]] == tails[a[0]]
                b = [numpy.where(goes_back, b[1], b[0]), numpy.where(goes_back, b[0], b[1])]
                goes_on = (tails[a[0]] == heads[b[1]]) & (tails[a[1]] == heads[b[0]])
            else:
                goes_on = numpy.ones(len(nodes), dtype=bool)
            for one, other in zip(a, b):
                goes_on &= (tails[one] != heads[other]) & (tails[one] != nodes)
                goes_on &= (heads[other] != nodes) & ~self.differ(one, other)
            found.append(nodes[goes_on])
        return numpy.sort(numpy.concatenate(found))

    def see(self, nodes: Any) -> None:
        """Makes the objects of arcs at some nodes at once, in place of earlier ones."""
        arcs = self.arcs
        self.seen.clear()
        for lists in (self.out, self.into):
            for node in lists.keys() - self.changed:
                del lists[node]
        around = (
            order[ranges(firsts[nodes], firsts[nodes + 1] - firsts[nodes])[0]]
            for order, firsts in (self.out_of, self.into_of)
        )
        at = numpy.unique(numpy.concatenate(list(around)))
        cuts = zip(arcs.firsts[at].tolist(), arcs.firsts[at + 1].tolist())
        pieces = (tuple(arcs.pieces[first:last].tolist()) for first, last in cuts)
        columns = [column[at].tolist() for column in arcs.columns()]
        self.seen.update(zip(at.tolist(), map(Arc, *columns, pieces)))

    def differ(self, one: Any, other: Any) -> Any:
        arcs = self.arcs
        return (
            (arcs.rules[one] != arcs.rules[other])
            | (arcs.areas[one] != arcs.areas[other])
            | ((arcs.tolls[one] > 0) != (arcs.tolls[other] > 0))
        )

    def join(self, work: list[int]) -> None:
        """Drops nodes, from the last one of `work` on, and their neighbours where they may be."""
        while work:
            node = work.pop()
            if self.is_dropped[node]:
                continue
            entering, leaving = self.entering(node), self.leaving(node)
            if len(entering) != len(leaving) or len(entering) not in (1, 2):
                continue
            into, out = ([self.arc(it) for it in own] for own in (entering, leaving))
            neighbours = {it.tail for it in into} | {it.head for it in out}
            if len(neighbours) != 2 or node in neighbours:
                continue
            pairs = [
                (a, b)
                for a in zip(entering, into)
                for b in zip(leaving, out)
                if a[1].tail != b[1].head
            ]
            if (
                len(pairs) != len(entering)
                or len({a[0] for a, _ in pairs}) != len(pairs)
                or len({b[0] for _, b in pairs}) != len(pairs)
            ):
                continue
            if any(differs(a[1], b[1]) for a, b in pairs):
                continue
            for a, b in pairs:
                self.replace(a, b)
            self.is_dropped[node] = 1
            self.changed.discard(node)
            del self.out[node], self.into[node]
            work += [it for it in neighbours if not self.stays[it]]

    def replace(self, *pair: tuple[int, Arc]) -> None:
        """Puts the arc over two arcs in their place."""
        made = joined(pair[0][1], pair[1][1])
        for old, arc in pair:
            self.leaving(arc.tail).remove(old)
            self.entering(arc.head).remove(old)
            self.changed.update((arc.tail, arc.head))
            if old < self.first_made:
                self.stays_arc[old] = False
            else:
                self.made[old - self.first_made] = None
        number = self.first_made + len(self.made)
        self.leaving(made.tail).append(number)
        self.entering(made.head).append(number)
        self.made.append(made)
