"""Arrays that are changed at many places at once, some of them given several times."""
from __future__ import annotations

from typing import Any

import numpy


def lower(values: Any, at: Any, others: Any) -> None:
    """Gives values at some places the least of others, where these are less."""
    is_less = others < values[at]
    while is_less.any():
        at, others = at[is_less], others[is_less]
        values[at] = others
        is_less = others < values[at]


class Once:
    """Leaves out places that are given again."""

    def __init__(self, count: int) -> None:
        self.last = numpy.zeros(count, dtype=numpy.int32)

    def __call__(self, places: Any) -> Any:
        order = numpy.arange(len(places), dtype=numpy.int32)
        self.last[places] = order
        return places[self.last[places] == order]
