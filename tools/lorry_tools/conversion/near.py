"""The nodes near to a node, by driving time."""
from __future__ import annotations

import array
import heapq
from typing import Any

import numpy

from lorry_tools.conversion.arcs import stars

# The bits of a node's number in the queue, and its most.
BITS = 32
MOST = (1 << BITS) - 1
# Longer times than searches of few nodes go.
LONGEST = (1 << 31) - 1


class Near:
    """What leaves each node, or comes into it, in arrays for searches of few nodes."""

    def __init__(self, count: int, ends: Any, others: Any, times: Any) -> None:
        order, firsts = stars(count, ends)
        self.firsts, self.others, self.times = (
            array.array("i", numpy.minimum(it, LONGEST).astype(numpy.int32).tobytes())
            for it in (firsts, others[order], times[order])
        )


def reached(start: int, near: Near, most: int) -> dict[int, int]:
    """The nodes within so many milliseconds of a node."""
    best, queue, far = {start: 0}, [start], most + 1
    push, pop, known = heapq.heappush, heapq.heappop, best.get
    firsts, others, times = near.firsts, near.others, near.times
    while queue:
        number = pop(queue)
        time, node = number >> BITS, number & MOST
        if time > best[node]:
            continue
        for at in range(firsts[node], firsts[node + 1]):
            later, other = time + times[at], others[at]
            if later < known(other, far):
                best[other] = later
                push(queue, later << BITS | other)
    return best
