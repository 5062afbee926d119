"""Which country a place is in, by the borders of an extract.

A border whose ways close is a polygon. In an extract that is cut, those of its neighbours are open:
a place outside all closed borders belongs to the open one whose nearest way borders on nothing else
that is open. Coordinates are whole numbers of 1e-7 degrees."""
from __future__ import annotations

import collections
import math
from typing import AbstractSet, Any, Iterable, Mapping, Optional

import numpy

from lorry_tools.conversion.arcs import ranges

# Places, as pairs of coordinates: a list, or an array of two columns.
Line = Any
Cell = tuple[int, int]
# The codes of cells without a border's way, by the cells' numbers, and whether a closed border says
# so.
PlainCells = dict[int, tuple[Optional[str], bool]]

# Places are looked up by cells of a hundredth of a degree; a cell without a border's way lies in
# one country.
CELL = 100_000
# More rows and columns of cells than the globe has.
WIDEST = 1 << 20
# How many cells away a border is looked for.
MOST_RINGS = 200
# Pairs of a place and an edge, and edges, that are looked at at once.
PAIRS_AT_ONCE, AT_ONCE = 100_000, 1 << 14


def cells_of_ring(column: int, row: int, ring: int) -> list[Cell]:
    if not ring:
        return [(column, row)]
    found = [(column + i, row + j) for i in range(-ring, ring + 1) for j in (-ring, ring)]
    return found + [(column + i, row + j) for i in (-ring, ring) for j in range(-ring + 1, ring)]


def number_of(cell: Any) -> Any:
    """The number of a cell, or of many, given as arrays."""
    return (cell[0] + WIDEST // 2) * WIDEST + cell[1] + WIDEST // 2


def cells_of_boxes(low: Any, high: Any) -> Any:
    """The numbers of the cells of some boxes, each once."""
    wide, high = (high - low + 1).astype(numpy.int64).T
    within, _ = ranges(numpy.zeros(len(low), dtype=int), wide * high)
    columns, rows, wide = numpy.repeat((*low.T, wide), wide * high, axis=1)
    return numpy.unique(number_of((columns + within % wide, rows + within // wide)))


def has_places(line: Optional[Line]) -> bool:
    return line is not None and len(line) > 0


def joined(lines: Iterable[Line]) -> tuple[Any, Any]:
    """The places of lines, one after the other, and how many each has."""
    own = list(lines)
    sizes = numpy.array([len(it) for it in own], dtype=int)
    return numpy.concatenate([numpy.zeros((0, 2), dtype=numpy.int32), *own]), sizes


class Border:
    """The rings of one country: edges by the rows of cells that they cross."""

    def __init__(self, code: str, lines: Iterable[Line]) -> None:
        self.code = code
        places, sizes = joined(line for line in lines if len(line) >= 2)
        lasts = numpy.cumsum(sizes) - 1
        counts = collections.Counter(
            map(tuple, places[numpy.concatenate((lasts - sizes + 1, lasts))].tolist())
        )
        goes_on = numpy.ones(len(places), dtype=bool)
        goes_on[lasts] = False
        begins = numpy.flatnonzero(goes_on)
        edges = numpy.concatenate((places[begins], places[begins + 1]), axis=1)
        low = numpy.minimum(edges[:, :2], edges[:, 2:]) // CELL
        high = numpy.maximum(edges[:, :2], edges[:, 2:]) // CELL
        numbers, rows = ranges(low[:, 1], high[:, 1] - low[:, 1] + 1)
        own = numpy.repeat(numpy.arange(len(edges)), numpy.diff(rows))
        order = numpy.argsort(numbers, kind="stable")
        names, firsts = numpy.unique(numbers[order], return_index=True)
        cuts = numpy.split(edges[own[order]], firsts[1:])
        self.edges: dict[int, Any] = dict(zip(names.tolist(), cuts))
        self.known: dict[int, list[list[int]]] = {}
        # The numbers of the cells around edges, in their order.
        every = range(0, len(edges), AT_ONCE)
        found = [cells_of_boxes(low[it : it + AT_ONCE], high[it : it + AT_ONCE]) for it in every]
        self.cells = numpy.unique(numpy.concatenate([numpy.zeros(0, dtype=int), *found]))
        self.closed = len(edges) > 0 and all(count % 2 == 0 for count in counts.values())
        self.box = (0, 0, -1, -1)
        if len(edges):
            (west, south), (east, north) = (
                it(places, axis=0).tolist() for it in (numpy.min, numpy.max)
            )
            self.box = (west, south, east, north)

    def area(self) -> int:
        return (self.box[2] - self.box[0]) * (self.box[3] - self.box[1])

    def contains(self, x: int, y: int) -> bool:
        if not (self.box[0] <= x <= self.box[2] and self.box[1] <= y <= self.box[3]):
            return False
        inside = False
        row = y // CELL
        if row not in self.known:
            self.known[row] = self.edges[row].tolist() if row in self.edges else []
        for x1, y1, x2, y2 in self.known[row]:
            if (y1 > y) != (y2 > y) and x < (x2 - x1) * (y - y1) / (y2 - y1) + x1:
                inside = not inside
        return inside

    def contain(self, xs: Any, ys: Any) -> Any:
        """Which of many places are inside, as arrays."""
        west, south, east, north = self.box
        found = numpy.zeros(len(xs), dtype=bool)
        boxed = numpy.flatnonzero((xs >= west) & (xs <= east) & (ys >= south) & (ys <= north))
        if not len(boxed):
            return found
        order = boxed[numpy.lexsort((xs[boxed] // CELL, ys[boxed] // CELL))]
        cells = numpy.column_stack((xs[order], ys[order])) // CELL
        is_other = (cells[1:] != cells[:-1]).any(axis=1)
        for own in numpy.split(order, numpy.flatnonzero(is_other) + 1):
            edges = self.edges.get(int(ys[own[0]]) // CELL)
            if edges is not None:
                found[own] = odd_crossings(edges.astype(float), xs[own], ys[own])
        return found


def odd_crossings(edges: Any, xs: Any, ys: Any) -> Any:
    """Whether a line to the east from each of some places, which are near each other, crosses an
    odd number of edges. An edge that is east of all is crossed if one of its ends is to the north:
    so the number of ends to the north says whether such edges are an odd number."""
    ends = edges[:, 0], edges[:, 2]
    is_east = numpy.minimum(*ends) > xs.max() + 1
    is_near = ~is_east & (numpy.maximum(*ends) >= xs.min() - 1)
    levels = numpy.sort(edges[is_east][:, 1::2].reshape(-1))
    to_the_north = len(levels) - numpy.searchsorted(levels, ys, side="right")
    found = to_the_north % 2 == 1
    near = edges[is_near]
    for part in numpy.array_split(numpy.arange(len(xs)), len(xs) * len(near) // PAIRS_AT_ONCE + 1):
        found[part] ^= parities(near, xs[part], ys[part])
    return found


def parities(edges: Any, xs: Any, ys: Any) -> Any:
    """Whether a line to the east from each place crosses an odd number of edges."""
    x, y = xs[:, None], ys[:, None]
    x1, y1, x2, y2 = edges.T
    level = y2 == y1
    slope = numpy.where(level, 0.0, (x2 - x1) / numpy.where(level, 1.0, y2 - y1))
    crossed = ((y1 > y) != (y2 > y)) & (x < slope * (y - y1) + x1)
    return crossed.sum(axis=1) % 2 == 1


class Borders:
    def __init__(
        self,
        borders: Iterable[tuple[str, list[int]]],
        ways: Mapping[int, Optional[Line]],
        subdivisions: bool,
    ) -> None:
        """Borders are pairs of a code and the numbers of ways; ways have their coordinates, or None
        where the extract hasn't them."""
        members: dict[str, dict[int, None]] = collections.defaultdict(dict)
        for code, own in borders:
            if subdivisions or "-" not in code:
                members[code].update(dict.fromkeys(own))
        self.closed: list[Border] = []
        cells = [numpy.zeros(0, dtype=int)]
        opened: dict[str, set[int]] = {}
        complete: set[int] = set()
        for code, numbers in sorted(members.items()):
            lines = [ways.get(number) for number in numbers]
            is_whole = all(map(has_places, lines))
            border = Border(code, filter(has_places, lines))
            if not border.edges:
                continue
            cells.append(border.cells)
            if border.closed and is_whole:
                self.closed.append(border)
                complete.update(numbers)
            elif "-" not in code:
                opened[code] = set(numbers)
        self.cells = numpy.unique(numpy.concatenate(cells))
        # A place may be within a country and within its subdivision: the smaller one is looked at
        # first.
        self.closed.sort(key=lambda border: (("-" not in border.code), border.area()))
        self.opened = sorted(opened)
        self.lay_sides(opened, ways)
        self.near: collections.Counter[Optional[str]] = collections.Counter()

    def lay_sides(
        self, opened: Mapping[str, AbstractSet[int]], ways: Mapping[int, Optional[Line]]
    ) -> None:
        """Finds the places of open borders that are those of one country, with the number of its
        code; `sides` says where those of a cell begin and end."""
        own, codes = [], []
        for number, line in ways.items():
            found = [at for at, code in enumerate(self.opened) if number in opened[code]]
            if has_places(line) and len(found) == 1:
                own.append(line)
                codes += found
        places, sizes = joined(own)
        places = numpy.column_stack((places, numpy.repeat(codes, sizes))).astype(numpy.int32)
        cells = places[:, :2] // CELL
        order = numpy.lexsort(cells.T)
        self.places, cells = places[order], cells[order]
        is_first = numpy.ones(len(cells), dtype=bool)
        is_first[1:] = (cells[1:] != cells[:-1]).any(axis=1)
        firsts = numpy.flatnonzero(is_first)
        lasts = numpy.append(firsts[1:], len(cells)).tolist()
        self.sides: dict[Cell, tuple[int, int]] = {
            (x, y): ends
            for (x, y), ends in zip(cells[firsts].tolist(), zip(firsts.tolist(), lasts))
        }

    def codes(self) -> list[str]:
        return sorted({border.code for border in self.closed} | set(self.opened))

    def find(self, x: int, y: int) -> tuple[Optional[str], bool]:
        """The code of a place, and whether a closed border says so; no code where no border is
        near."""
        for border in self.closed:
            if border.contains(x, y):
                return border.code, True
        return self.nearest(x, y), False

    def nearest(self, x: int, y: int) -> Optional[str]:
        """The code of the open border that is nearest to a place; cells are looked at ring by
        ring."""
        if not self.sides:
            return None
        wide = math.cos(math.radians(y / 1e7))
        column, row = x // CELL, y // CELL
        best: Optional[float] = None
        code: Optional[str] = None
        for ring in range(MOST_RINGS):
            if best is not None and (ring - 1) * CELL * min(wide, 1) > best:
                break
            for cell in cells_of_ring(column, row, ring):
                if cell not in self.sides:
                    continue
                first, last = self.sides[cell]
                for other_x, other_y, other_code in self.places[first:last].tolist():
                    distance = math.hypot(wide * (other_x - x), other_y - y)
                    if best is None or distance < best:
                        best, code = distance, self.opened[other_code]
        return code

    def countries(self, xs: Any, ys: Any, plain: PlainCells) -> tuple[Any, list[Optional[str]]]:
        """The codes of many places, given as arrays, as numbers of a list; places that no closed
        border has are counted. `plain` has what was found of cells without a border's way."""
        names, firsts, back, counts = numpy.unique(
            number_of((xs // CELL, ys // CELL)),
            return_index=True,
            return_inverse=True,
            return_counts=True,
        )
        is_plain = ~numpy.isin(names, self.cells)
        codes: dict[Optional[str], int] = {}
        of_cell = numpy.zeros(len(names), dtype=numpy.intc)
        for number in numpy.flatnonzero(is_plain).tolist():
            cell, first = int(names[number]), firsts[number]
            if cell not in plain:
                plain[cell] = self.find(int(xs[first]), int(ys[first]))
            code, is_sure = plain[cell]
            of_cell[number] = codes.setdefault(code, len(codes))
            if not is_sure:
                self.near[code] += int(counts[number])
        found = of_cell[back]
        left = numpy.flatnonzero(~is_plain[back])
        for border in self.closed:
            inside = border.contain(xs[left], ys[left])
            found[left[inside]] = codes.setdefault(border.code, len(codes))
            left = left[~inside]
        for at in left.tolist():
            code = self.nearest(int(xs[at]), int(ys[at]))
            found[at] = codes.setdefault(code, len(codes))
            self.near[code] += 1
        return found, list(codes)
