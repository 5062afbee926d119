"""Turn restrictions: a junction that has one becomes as many nodes as its ways in differ by what
may follow them.

The kinds are those of OpenStreetMap's wiki: `no_*` forbids a turn, and `only_*` all others. They
may be about a class of vehicles (`restriction:hgv`), spare some (`except`), or hold at some hours
(`restriction:conditional`). The turn's hours then close the road after it. Restrictions over ways
in place of a node, and those whose ways go on beyond their node, are left out and counted."""
from __future__ import annotations

import collections
from typing import Callable, Mapping, NamedTuple, Optional

import numpy

from lorry_tools.conversion import access
from lorry_tools.conversion.access import CLASSES, CLOSED, NO, OPEN, YES, Clauses, Lists
from lorry_tools.conversion.arcs import Arc, Arcs, of_list
from lorry_tools.conversion.extract import Extract, Restriction
from lorry_tools.conversion.notation import Unread
from lorry_tools.conversion.report import Report
from lorry_tools.conversion.roads import Network, Rules
from lorry_tools.conversion.tags import Reading

# The keys of each class, from general to special, and the words of `except` that spare it.
MODES = {
    "hgv": ("", ":vehicle", ":motor_vehicle", ":hgv"),
    "hgv_articulated": ("", ":vehicle", ":motor_vehicle", ":hgv", ":hgv_articulated"),
    "goods": ("", ":vehicle", ":motor_vehicle", ":goods"),
    "bus": ("", ":vehicle", ":motor_vehicle", ":psv", ":bus"),
}
LIFTED = ("none", "no", "yes")
ALL_OPEN: Lists = (OPEN,) * len(CLASSES)


class Turn(NamedTuple):
    """A restriction of one way in, one node and one way out; ways are places in the extract's
    list. The lists say who may turn nevertheless."""

    way_in: int
    way_out: int
    is_only: bool
    lists: Lists


def lists_of(tags: Mapping[str, str], reading: Reading) -> tuple[bool, Lists]:
    """Whether a restriction is one of `only_*`, and the lists of whom it lets turn."""
    kinds: set[bool] = set()

    def is_ban(text: str) -> bool:
        text = text.strip().lower()
        if text in LIFTED:
            return False
        if not text.startswith(("no_", "only_")):
            raise Unread("a turn restriction that isn't known")
        kinds.add(text.startswith("only_"))
        return True

    spared = {it.strip() for it in tags.get("except", "").split(";")} - {""}
    found = []
    for name in CLASSES:
        clauses: Clauses = OPEN
        for mode in MODES[name]:
            if mode[1:] in spared:
                clauses = OPEN
                continue
            clauses = with_key(clauses, tags, f"restriction{mode}", is_ban, reading)
        found.append(clauses)
    if len(kinds) > 1:
        raise Unread("a turn restriction of two kinds")
    return True in kinds, tuple(found)


def with_key(
    clauses: Clauses,
    tags: Mapping[str, str],
    key: str,
    is_ban: Callable[[str], bool],
    reading: Reading,
) -> Clauses:
    """The list after a key's plain value and its conditional one."""
    if key in tags:
        clauses = CLOSED if is_ban(tags[key]) else OPEN
    if key + ":conditional" in tags:

        def value(text: str) -> tuple[int]:
            return (NO if is_ban(text) else YES,)

        for given, parts in reading.clauses(
            key + ":conditional", tags[key + ":conditional"], value
        ):
            clauses = reading.with_clause(clauses, given and given[0], parts)
    return clauses


def read(extract: Extract, reading: Reading, report: Report) -> dict[int, list[Turn]]:
    """The turns of each node, by its number in OpenStreetMap."""
    places = places_of(extract)
    found: dict[int, list[Turn]] = collections.defaultdict(list)
    for one in extract.restrictions:
        said, where = said_of(one), f"relation {one.number}"
        reason = reason_against(one, places, extract)
        if reason:
            report.add("left out", reason, said, where)
            continue
        before = len(reading.notes.said)
        try:
            is_only, lists = lists_of(one.tags, reading)
        except Unread as error:
            report.add("left out", f"turn restrictions that can't be read: {error}", said, where)
            continue
        for kind, what, example in list(reading.notes.said)[before:]:
            report.add(kind, what, example, where)
        if lists == ALL_OPEN:
            report.add("left out", "turn restrictions that aren't about lorries", said, where)
            continue
        report.add("read", "turn restrictions", said, where)
        for way_in in one.ways_in:
            for way_out in one.ways_out:
                turn = Turn(places[way_in], places[way_out], is_only, lists)
                found[one.nodes[0]].append(turn)
    return found


def places_of(extract: Extract) -> dict[int, int]:
    """The place of each way that restrictions name, the last one of a way in several parts."""
    named = {it for one in extract.restrictions for it in (*one.ways_in, *one.ways_out)}
    numbers = numpy.frombuffer(extract.ways.numbers, dtype=numpy.int64)
    at = numpy.flatnonzero(numpy.isin(numbers, numpy.fromiter(named, dtype=numpy.int64)))
    return dict(zip(numbers[at].tolist(), at.tolist()))


def said_of(one: Restriction) -> str:
    return next((f"{it}={one.tags[it]}" for it in one.tags if it.startswith("restriction")), "")


def reason_against(one: Restriction, places: Mapping[int, int], extract: Extract) -> Optional[str]:
    """Why a restriction isn't obeyed; None where it is."""
    if one.has_ways_between:
        return "turn restrictions over ways in place of a node"
    if len(one.nodes) != 1 or not one.ways_in or not one.ways_out:
        return "turn restrictions without a node, a way in or a way out"
    if not all(it in places for it in (*one.ways_in, *one.ways_out)):
        return "turn restrictions of roads that aren't taken"
    node = one.nodes[0]
    for number in {*one.ways_in, *one.ways_out}:
        way = extract.ways[places[number]]
        refs = extract.refs[way.first : way.last]
        if node not in refs:
            return "turn restrictions whose roads don't meet at their node"
        goes_on = refs[0] != node and refs[-1] != node or refs[0] == refs[-1]
        if goes_on and set(one.ways_in) != set(one.ways_out):
            return "turn restrictions whose roads go on beyond their node"
    return None


class Road:
    """An arc whose ends and rules change."""

    __slots__ = ("made_of", "tail", "head", "rules")

    def __init__(self, arc: Arc) -> None:
        self.made_of, self.tail, self.head, self.rules = arc, arc.tail, arc.head, arc.rules

    def arc(self) -> Arc:
        return self.made_of._replace(tail=self.tail, head=self.head, rules=self.rules)


class Expansion:
    """A network in which junctions with restrictions become several nodes."""

    def __init__(self, network: Network, rules: Rules, turns: Mapping[int, list[Turn]]) -> None:
        self.network, self.rules = network, rules
        self.turns = {
            network.number[ref]: found for ref, found in turns.items() if ref in network.number
        }
        self.into: dict[int, list[Road]] = {node: [] for node in self.turns}
        self.out: dict[int, list[Road]] = {node: [] for node in self.turns}
        self.split: set[int] = set()

    def arcs(self, arcs: Arcs) -> Arcs:
        """The arcs between the nodes that there are then. The arcs given are changed."""
        if not self.turns:
            return arcs
        nodes = numpy.array(sorted(self.turns))
        near = numpy.flatnonzero(numpy.isin(arcs.tails, nodes) | numpy.isin(arcs.heads, nodes))
        found = [Road(arcs[at]) for at in near.tolist()]
        for road in found:
            if road.tail in self.out:
                self.out[road.tail].append(road)
            if road.head in self.into:
                self.into[road.head].append(road)
        gone: set[int] = set()
        made = [road for node in nodes.tolist() for road in self.divide(node, gone)]
        arcs.heads[near] = [road.head for road in found]
        arcs.rules[near] = [road.rules for road in found]
        stays = numpy.ones(len(arcs), dtype=bool)
        stays[near] = [id(road) not in gone for road in found]
        new = [road.arc() for road in made if id(road) not in gone]
        arcs.keep(stays, of_list(new))
        return arcs

    def divide(self, node: int, gone: set[int]) -> list[Road]:
        """Gives a node's ways in that differ nodes of their own; the new arcs."""
        into = [arc for arc in self.into[node] if id(arc) not in gone]
        out = [arc for arc in self.out[node] if id(arc) not in gone]
        groups: dict[tuple[Optional[int], ...], list[Road]] = collections.defaultdict(list)
        for arc in into:
            groups[tuple(self.rules_of(node, arc, other) for other in out)].append(arc)
        free = (0,) * len(out)
        if not groups or list(groups) == [free]:
            return []
        # The node itself keeps the ways in without restrictions, or else the most.
        order = sorted(groups, key=lambda it: (it != free, -len(groups[it])))
        made: list[Road] = []
        for kind in order[1:]:
            copy = self.network.copy_of(node)
            self.split.add(copy)
            for arc in groups[kind]:
                arc.head = copy
            for arc, rules in zip(out, kind):
                both = self.both(arc.rules, rules)
                if both is not None:
                    made.append(self.followed(arc, copy, both))
        self.split.add(node)
        for arc, rules in zip(out, order[0]):
            both = self.both(arc.rules, rules)
            if both is None:
                gone.add(id(arc))
            else:
                arc.rules = both
        return made

    def followed(self, arc: Road, tail: int, rules: int) -> Road:
        """The same arc from another tail; where its head has restrictions too, they find it."""
        copy = Road(arc.arc()._replace(tail=tail, rules=rules))
        if copy.head in self.into:
            self.into[copy.head].append(copy)
        return copy

    def both(self, one: int, other: Optional[int]) -> Optional[int]:
        if other is None:
            return None
        found = self.rules.both(one, other)
        return None if access.is_shut(self.rules.lists[found]) else found

    def rules_of(self, node: int, arc: Road, other: Road) -> Optional[int]:
        """The number of the rules of a turn; None for one that is forbidden to all."""
        last, first = arc.made_of.pieces[-1], other.made_of.pieces[0]
        way_in, way_out = (self.network.way_of_piece(it) for it in (last, first))
        # Several of `only_*` that hold alike let each of their ways out.
        onlys: dict[Lists, set[int]] = collections.defaultdict(set)
        for turn in self.turns[node]:
            if turn.is_only and turn.way_in == way_in:
                onlys[turn.lists].add(turn.way_out)
        found = 0
        for turn in self.turns[node]:
            if turn.way_in != way_in:
                continue
            if turn.is_only:
                holds = way_out not in onlys[turn.lists]
            elif turn.way_in == turn.way_out:
                holds = first == -1 - last
            else:
                holds = way_out == turn.way_out
            if holds:
                found = self.rules.both(found, self.rules.of(turn.lists))
        return None if access.is_shut(self.rules.lists[found]) else found
