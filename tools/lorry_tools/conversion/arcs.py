"""Roads driven one way, by columns."""
from __future__ import annotations

from typing import Any, Iterable, NamedTuple, Optional, Sequence

import numpy

# How many roads are looked at at once.
AT_ONCE = 4096


class Arc(NamedTuple):
    """One road: its ends, driving time in milliseconds, metres, the number of its rules, metres
    with a toll, the numbers of its area and name, and its pieces."""

    tail: int
    head: int
    time: int
    length: float
    rules: int
    toll: float
    area: int
    name: int
    pieces: tuple[int, ...]


class Arcs:
    """Many roads: what `Arc` says of each, as columns. The pieces of one are those from its place
    in `firsts` up to the next one's.

    Pieces of ways are numbers of the network, -1 - number for one that is driven against its way.
    In a coarse network the rules are numbers of sets, and each of a set holds."""

    COLUMNS = ("tails", "heads", "times", "lengths", "rules", "tolls", "areas", "names")
    TYPES = (numpy.int32, numpy.int32, numpy.int64, float, numpy.int32, float) + (numpy.int32,) * 2
    tails: Any
    heads: Any
    times: Any
    lengths: Any
    rules: Any
    tolls: Any
    areas: Any
    names: Any
    firsts: Any
    pieces: Any

    def __init__(self, columns: Iterable[Any], firsts: Any, pieces: Any) -> None:
        for name, kind, column in zip(self.COLUMNS, self.TYPES, columns):
            setattr(self, name, numpy.asarray(column, dtype=kind))
        self.firsts = numpy.asarray(firsts, dtype=numpy.int64)
        self.pieces = numpy.asarray(pieces, dtype=numpy.int32)

    def __len__(self) -> int:
        return len(self.firsts) - 1

    def columns(self) -> list[Any]:
        return [getattr(self, name) for name in self.COLUMNS]

    def __getitem__(self, at: int) -> Arc:
        first, last = self.firsts[at : at + 2].tolist()
        own: list[Any] = [column[at].item() for column in self.columns()]
        return Arc._make([*own, tuple(self.pieces[first:last].tolist())])

    def pieces_of(self, at: int) -> list[int]:
        first, last = self.firsts[at : at + 2].tolist()
        found: list[int] = self.pieces[first:last].tolist()
        return found

    def take(self, at: Any) -> Arcs:
        """Some of them, by their places or by whether each is taken; these themselves where all
        are."""
        at = numpy.asarray(at)
        if at.dtype == bool:
            if at.all():
                return self
            at = numpy.flatnonzero(at)
        firsts, pieces = self.pieces_at(at)
        return Arcs((it[at] for it in self.columns()), firsts, pieces)

    def pieces_at(self, at: Any) -> tuple[Any, Any]:
        """The pieces of some, and where those of each begin."""
        begins = self.firsts[at]
        counts = self.firsts[at + 1] - begins
        firsts = numpy.concatenate(([0], numpy.cumsum(counts)))
        pieces = numpy.empty(firsts[-1], dtype=numpy.int32)
        for first in range(0, len(at), AT_ONCE):
            own = slice(first, first + AT_ONCE)
            places, _ = ranges(begins[own], counts[own])
            pieces[firsts[first] : firsts[first] + len(places)] = self.pieces[places]
        return firsts, pieces

    def keep(self, at: Any, more: Optional[Arcs] = None) -> None:
        """Keeps some, as `take` has them, and adds others, column by column: it takes less memory
        than `take` and `with_more`."""
        others = of_list([]) if more is None else more
        at = numpy.flatnonzero(at) if at.dtype == bool else at
        firsts, pieces = self.pieces_at(at)
        self.firsts = numpy.concatenate((firsts, firsts[-1] + others.firsts[1:]))
        self.pieces = numpy.concatenate((pieces, others.pieces))
        for name in self.COLUMNS:
            column = getattr(self, name)[at]
            setattr(self, name, numpy.concatenate((column, getattr(others, name))))

    def with_more(self, others: Arcs) -> Arcs:
        """These and then others."""
        columns = (numpy.concatenate(it) for it in zip(self.columns(), others.columns()))
        firsts = numpy.concatenate((self.firsts, self.firsts[-1] + others.firsts[1:]))
        return Arcs(columns, firsts, numpy.concatenate((self.pieces, others.pieces)))


def of_list(arcs: Sequence[Arc]) -> Arcs:
    """The columns of single roads."""
    columns = list(zip(*(it[:-1] for it in arcs))) or [()] * len(Arcs.COLUMNS)
    firsts = numpy.cumsum([0, *(len(it.pieces) for it in arcs)])
    return Arcs(columns, firsts, [piece for it in arcs for piece in it.pieces])


def ranges(firsts: Any, counts: Any) -> tuple[Any, Any]:
    """The numbers from each of some on, so many of each; and where each begins among them, and
    where the last one ends."""
    ends = numpy.concatenate(([0], numpy.cumsum(counts)))
    return numpy.repeat(firsts - ends[:-1], counts) + numpy.arange(ends[-1]), ends


def stars(count: int, ends: Any) -> tuple[Any, Any]:
    """The order of arcs by one of their ends, and where each node's begin in it."""
    order = numpy.argsort(ends, kind="stable").astype(numpy.int32)
    firsts = numpy.zeros(count + 1, dtype=numpy.int64)
    numpy.cumsum(numpy.bincount(ends, minlength=count), out=firsts[1:])
    return order, firsts
