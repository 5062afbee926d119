"""The graph of a network in which searches between kept junctions pass fewer nodes.

Nodes that aren't kept are taken out: ends of roads, since no way leads there and back; and nodes of
two or three neighbours, of which each way through becomes a shortcut. The ways between kept
junctions that no other beats stay the same, but for those that take as long as another one."""
from __future__ import annotations

import array
from typing import Any, Mapping, NamedTuple, Sequence

import numpy

from lorry_tools.conversion.arcs import Arcs, ranges, stars
from lorry_tools.conversion.kinds import Kinds

# The fewest ways that are given up at a node that is left. One that was taken out has three
# neighbours at most, so there fewer came to it than a search over all arcs gives up.
MOST_WAYS = 3
# The most neighbours of a node that is taken out, and the most shortcuts that it becomes.
NEIGHBOURS, SHORTCUTS = 3, 12
# A step that takes out fewer nodes than this share of those that are left is the last one.
FEWEST = 0.002

# What leaves a node: what it adds to the number of a label, the other node, and the place of the
# arc in the list of arcs, or -1 - place for an arc that asks something. These are tuples since
# searches look at them millions of times.
Link = tuple[int, int, int]


class Links(NamedTuple):
    """The links of nodes, and the kind of each place."""

    out: Mapping[int, list[Link]]
    kind_of: Sequence[int]


def inner_nodes(count: int, arcs: Arcs, is_kept: Any) -> Any:
    """Which nodes aren't on roads that end, but for kept junctions."""
    one, other = pairs_of(count, arcs.tails, arcs.heads)
    is_inner = numpy.ones(count, dtype=bool)
    while True:
        neighbours = numpy.bincount(one, minlength=count) + numpy.bincount(other, minlength=count)
        ends = (neighbours == 1) & ~is_kept & is_inner
        if not ends.any():
            return is_inner
        is_inner &= ~ends
        goes_on = is_inner[one] & is_inner[other]
        one, other = one[goes_on], other[goes_on]


def pairs_of(count: int, tails: Any, heads: Any) -> tuple[Any, Any]:
    """The pairs of neighbours, each once: the lesser ones, and the others."""
    pairs = numpy.minimum(tails, heads).astype(numpy.int64)
    pairs *= count
    pairs += numpy.maximum(tails, heads)
    pairs.sort()
    is_first = numpy.ones(len(pairs), dtype=bool)
    is_first[1:] = pairs[1:] != pairs[:-1]
    pairs = pairs[is_first]
    return (pairs // count).astype(numpy.int32), (pairs % count).astype(numpy.int32)


class Graph:
    """What is left, as links in columns. Shortcuts have places after those of the arcs."""

    def __init__(self, arcs: Arcs, kind_of: Any, kinds: Kinds, is_kept: Any) -> None:
        self.count, self.first, self.kinds = len(is_kept), len(arcs), kinds
        is_inner = inner_nodes(self.count, arcs, is_kept)
        at = numpy.flatnonzero(is_inner[arcs.tails] & is_inner[arcs.heads])
        at = at[arcs.tails[at] != arcs.heads[at]].astype(numpy.int32)
        # The links that are left: their ends, milliseconds, places and kinds; and of shortcuts the
        # two links that each is made of, and their kinds.
        self.own = [arcs.tails[at], arcs.heads[at], arcs.times[at], at, kind_of[at]]
        self.parts = [numpy.zeros((0, 2), dtype=numpy.int32)]
        kinds_of = [kind_of]
        self.made = 0
        self.stays = is_kept.copy()
        while self.take_out(NEIGHBOURS - 1, kinds_of):
            pass
        while self.take_out(NEIGHBOURS, kinds_of):
            pass
        tails, heads, times, places, own = self.own
        self.links = tails, heads, times, numpy.where(own > 0, -1 - places, places)
        self.kind_of = array.array("i", numpy.concatenate(kinds_of).tobytes())
        self.made_of = numpy.concatenate(self.parts)
        del self.own, self.parts

    def take_out(self, most: int, kinds_of: list[Any]) -> bool:
        """Takes out nodes of at most so many neighbours, no two of them neighbours, with a shortcut
        for each way through them; whether it is worth it to go on. Of three neighbours the nodes
        around them stay."""
        taken, left = self.taken(most)
        found = numpy.count_nonzero(taken)
        if found:
            self.replace(taken, kinds_of)
            self.leave_out_beaten()
        return found > FEWEST * left

    def taken(self, most: int) -> tuple[Any, int]:
        """Which nodes are taken out next, and how many are left before."""
        count = self.count
        tails, heads = self.own[:2]
        one, other = pairs_of(count, tails, heads)
        around = numpy.bincount(one, minlength=count) + numpy.bincount(other, minlength=count)
        ways = numpy.bincount(tails, minlength=count) * numpy.bincount(heads, minlength=count)
        taken = (around > 0) & (around <= most) & ~self.stays & (ways <= SHORTCUTS)
        # Of neighbours the one with the least number goes first, by numbers without an order.
        rank = numpy.arange(count, dtype=numpy.uint32) * numpy.uint32(2654435761)
        both = taken[one] & taken[other]
        first, second = one[both], other[both]
        taken[numpy.where(rank[first] > rank[second], first, second)] = False
        if most == NEIGHBOURS:
            self.stays[one[taken[other]]] = True
            self.stays[other[taken[one]]] = True
        return taken, numpy.count_nonzero(around)

    def replace(self, taken: Any, kinds_of: list[Any]) -> None:
        tails, heads, times, places, kinds = self.own
        into, out = (numpy.flatnonzero(taken[it]).astype(numpy.int32) for it in (heads, tails))
        order, firsts = stars(self.count, tails[out])
        counts = (firsts[1:] - firsts[:-1])[heads[into]]
        leaving = out[order[ranges(firsts[heads[into]], counts)[0]]]
        entering = numpy.repeat(into, counts)
        goes_on = tails[entering] != heads[leaving]
        entering, leaving = entering[goes_on], leaving[goes_on]
        own = self.kinds.all_joined(kinds[entering], kinds[leaving])
        begin = self.first + self.made
        self.made += len(own)
        kinds_of.append(own)
        self.parts.append(numpy.column_stack((places[entering], places[leaving])))
        new = (
            tails[entering],
            heads[leaving],
            times[entering] + times[leaving],
            numpy.arange(begin, begin + len(own), dtype=numpy.int32),
            own,
        )
        stays = ~(taken[tails] | taken[heads])
        self.own = [numpy.concatenate((it[stays], more)) for it, more in zip(self.own, new)]

    def leave_out_beaten(self) -> None:
        """Leaves out links that another link of the same ends beats: one that takes less time, and
        asks no more."""
        tails, heads, times, _, kinds = self.own
        ends = tails.astype(numpy.int64) * self.count + heads
        order = numpy.lexsort((times, ends)).astype(numpy.int32)
        ends, times, kinds = ends[order], times[order], kinds[order]
        del tails, heads
        stays = numpy.ones(len(order), dtype=bool)
        apart = 1
        while True:
            same = numpy.flatnonzero(ends[apart:] == ends[:-apart])
            if not len(same):
                break
            later = same + apart
            beaten = (times[same] < times[later]) & self.kinds.are_within(kinds[same], kinds[later])
            stays[later[beaten]] = False
            apart += 1
        at = order[stays]
        for place in range(len(self.own)):
            self.own[place] = self.own[place][at]

    def arcs(self, paths: Any, counts: Any) -> tuple[Any, Any]:
        """The arcs of paths, of which each has so many links, and where each path begins."""
        path_of = numpy.repeat(numpy.arange(len(counts), dtype=numpy.int32), counts)
        while True:
            is_short = paths >= self.first
            if not is_short.any():
                break
            at = numpy.flatnonzero(is_short)
            sizes = 1 + is_short
            begins = numpy.cumsum(sizes) - sizes
            found = numpy.empty(len(paths) + len(at), dtype=numpy.int32)
            found[begins[~is_short]] = paths[~is_short]
            found[begins[at]], found[begins[at] + 1] = self.made_of[paths[at] - self.first].T
            paths, path_of = found, numpy.repeat(path_of, sizes)
        firsts = numpy.zeros(len(counts) + 1, dtype=numpy.int64)
        numpy.cumsum(numpy.bincount(path_of, minlength=len(counts)), out=firsts[1:])
        return paths, firsts
