"""Which junctions of a network are kept in a coarse one.

They are taken one after the other, and none within so many milliseconds of one that is kept, in
either direction. Nodes so near to each other are in the same cell of a grid, or in cells that touch
each other. So the first node of a cell that is left is kept if it comes before those of the cells
around, and many are kept at once."""
from __future__ import annotations

from typing import Any, Callable, Collection

import numpy

from lorry_tools.conversion.arcs import Arcs, ranges
from lorry_tools.conversion.least import Once, lower
from lorry_tools.conversion.near import Near, reached

# Nodes around fewer junctions than these are looked for one after the other.
FEWEST_AT_ONCE = 6
# Later than all nodes and times.
NEVER = (1 << 31) - 1
# The steps from a cell to those around it.
AROUND = [(x, y) for x in (-1, 0, 1) for y in (-1, 0, 1) if x or y]


class Cover:
    """The nodes within a time of junctions, in either direction."""

    def __init__(self, count: int, stars: Collection[Near], most: int) -> None:
        self.stars, self.most = stars, most
        self.has = numpy.zeros(count, dtype=bool)
        self.best = numpy.full(count, NEVER, dtype=numpy.int32)
        self.once = Once(count)

    def add(self, junctions: Any) -> None:
        """Adds the nodes around some junctions."""
        for near in self.stars:
            if len(junctions) < FEWEST_AT_ONCE:
                for junction in junctions.tolist():
                    self.has[list(reached(junction, near, self.most))] = True
            else:
                self.add_all(junctions, near)

    def add_all(self, junctions: Any, near: Near) -> None:
        """The same of many: those that a round brings nearer are the next one's."""
        best, firsts = self.best, numpy.frombuffer(near.firsts, dtype=numpy.intc)
        others, times = (numpy.frombuffer(it, dtype=numpy.intc) for it in (near.others, near.times))
        best[junctions] = 0
        left, seen = junctions, []
        while len(left):
            self.has[left] = True
            seen.append(left)
            begins = firsts[left]
            counts = firsts[left + 1] - begins
            arcs, _ = ranges(begins, counts)
            heads = others[arcs]
            later = numpy.repeat(best[left].astype(numpy.int64), counts) + times[arcs]
            is_nearer = (later < best[heads]) & (later <= self.most)
            left, later = heads[is_nearer], later[is_nearer].astype(numpy.int32)
            lower(best, left, later)
            left = self.once(left)
        best[numpy.concatenate(seen)] = NEVER


class Grid:
    """Nodes by cells, in the order in which they are taken."""

    def __init__(self, order: Any, columns: Any, rows: Any) -> None:
        """`order` has the nodes, and the others the column and row of each in this order."""
        codes = columns.astype(numpy.int64) * (1 << 32) + rows
        names, cells = numpy.unique(codes, return_inverse=True)
        by_cell = numpy.argsort(cells, kind="stable")
        self.nodes, self.ranks = order[by_cell], by_cell
        counts = numpy.bincount(cells, minlength=len(names))
        self.ends: Any = numpy.cumsum(counts)
        self.next = self.ends - counts
        # The cells around each one; those without nodes have the number after the last one.
        self.around = numpy.full((len(names), len(AROUND)), len(names))
        for place, (x, y) in enumerate(AROUND):
            wanted = names + x * (1 << 32) + y
            at = numpy.minimum(numpy.searchsorted(names, wanted), len(names) - 1)
            is_there = names[at] == wanted
            self.around[is_there, place] = at[is_there]
        self.left = numpy.arange(len(names))
        # The rank of the first node that is left in each cell.
        self.first = numpy.full(len(names) + 1, NEVER, dtype=numpy.int64)

    def pass_over(self, has: Any) -> int:
        """Goes on to the next node of each cell that isn't covered, and returns how many nodes are
        left."""
        moving = self.left
        while len(moving):
            moving = moving[has[self.nodes[self.next[moving]]]]
            self.next[moving] += 1
            moving = moving[self.next[moving] < self.ends[moving]]
        self.first[self.left] = NEVER
        self.left = self.left[self.next[self.left] < self.ends[self.left]]
        self.first[self.left] = self.ranks[self.next[self.left]]
        return int((self.ends[self.left] - self.next[self.left]).sum())

    def take(self) -> Any:
        """The first nodes of cells that come before those of all cells around."""
        is_first = self.first[self.left] < self.first[self.around[self.left]].min(axis=1)
        return self.nodes[self.next[self.left[is_first]]]


def width(arcs: Arcs, places: Any, most: int) -> int:
    """More than a coordinate changes on any way of so many milliseconds."""
    if not len(arcs):
        return 1
    steps = numpy.abs(places[arcs.heads].astype(numpy.int64) - places[arcs.tails])
    return int(float((steps / arcs.times).max()) * most * 1.001) + 2


def kept_junctions(
    order: Any, fixed: int, grid: Grid, cover: Cover, progress: Callable[[int, int], None]
) -> Any:
    """Which nodes are kept, of some in their order, the first of which are kept whatever is
    near."""
    kept = numpy.zeros(len(cover.has), dtype=bool)
    chosen = order[:fixed]
    while True:
        kept[chosen] = True
        cover.add(chosen)
        left = grid.pass_over(cover.has)
        progress(len(order) - left, len(order))
        if not left:
            return kept
        chosen = grid.take()
