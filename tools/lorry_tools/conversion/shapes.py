"""The shapes of arcs as encoded polylines with six decimals of a degree, and the table shapes.csv
of them.

Polylines are made of many arcs at once, by numpy. Coordinates are whole numbers of 1e-7 degrees."""
from __future__ import annotations

import os
from typing import Any

import numpy

from lorry_tools.conversion.arcs import Arcs

# Arcs whose polylines are made at once, and five bits of a number for each letter.
AT_ONCE, BITS = 500, 5
MOST_LETTERS = 7


def polylines(xs: Any, ys: Any, at: Any, firsts: Any) -> tuple[bytes, Any]:
    """The letters of lines one after the other, and where each line begins in them. `at` has the
    places of the points in `xs` and `ys`, and `firsts` the first point of each line in `at`."""
    points = numpy.empty((len(at), 2), dtype=numpy.int64)
    points[:, 0] = (ys[at] + 5) // 10
    points[:, 1] = (xs[at] + 5) // 10
    steps = numpy.diff(points, axis=0, prepend=numpy.zeros((1, 2), dtype=numpy.int64))
    steps[firsts] = points[firsts]
    left = ((steps << 1) ^ (steps >> 63)).reshape(-1)
    sizes = numpy.ones(len(left), dtype=int)
    for letter in range(1, MOST_LETTERS):
        sizes += left >= 1 << BITS * letter
    begins = numpy.cumsum(sizes) - sizes
    letters = numpy.empty(int(sizes.sum()), dtype=numpy.uint8)
    at = begins
    while len(at):
        goes_on = sizes > 1
        letters[at] = (left & 31) + 63 + 32 * goes_on
        at, left, sizes = at[goes_on] + 1, left[goes_on] >> BITS, sizes[goes_on] - 1
    return letters.tobytes(), begins[2 * numpy.asarray(firsts, dtype=numpy.int64)]


def points_of(ends: tuple[Any, Any], pieces: Any, counts: Any) -> tuple[Any, Any]:
    """The places of the points of lines, and where each line begins in them. `ends` has the first
    and the last place of each piece of a way; a line is made of some pieces, -1 - number for one
    that is driven against its way, and of each but the first its first point isn't repeated."""
    own = numpy.where(pieces >= 0, pieces, -1 - pieces)
    firsts, lasts = (it[own].astype(numpy.int64) for it in ends)
    is_along = pieces >= 0
    begins = numpy.where(is_along, firsts, lasts)
    step = numpy.where(is_along, 1, -1)
    sizes = lasts - firsts
    lines = numpy.cumsum(counts) - counts
    begins += step
    begins[lines] -= step[lines]
    sizes[lines] += 1
    starts = numpy.cumsum(sizes) - sizes
    within = numpy.arange(int(sizes.sum())) - numpy.repeat(starts, sizes)
    return numpy.repeat(begins, sizes) + numpy.repeat(step, sizes) * within, starts[lines]


def write(
    folder: str,
    xs: Any,
    ys: Any,
    ends: tuple[Any, Any],
    arcs: Arcs,
) -> None:
    """Writes shapes.csv, with the metres of arcs; their pieces are as `points_of` says."""
    xs, ys = numpy.asarray(xs), numpy.asarray(ys)
    with open(os.path.join(folder, "shapes.csv"), "wb") as file:
        file.write(b"arc,metres,polyline\n")
        for first in range(0, len(arcs), AT_ONCE):
            places = arcs.firsts[first : first + AT_ONCE + 1]
            at, firsts = points_of(ends, arcs.pieces[places[0] : places[-1]], numpy.diff(places))
            letters, begins = polylines(xs, ys, at, firsts)
            cuts = [*begins.tolist(), len(letters)]
            lengths = [round(it) for it in arcs.lengths[first : first + AT_ONCE].tolist()]
            numbers = range(first + 1, first + 1 + len(begins))
            for number, length, begin, end in zip(numbers, lengths, cuts, cuts[1:]):
                file.write(b"%d,%d,%s\n" % (number, length, letters[begin:end]))
