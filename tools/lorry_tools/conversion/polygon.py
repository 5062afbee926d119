"""The bounding polygon of an extract, in the form of Osmosis: a name, and rings of places between
the number of each and END; a ring whose number begins with ! is a hole.

    europe
    1
       9.47 47.05
       9.64 47.05
       9.55 47.27
    END
    END"""
from __future__ import annotations

import re

from lorry_tools.conversion.borders import CELL, Border, Line, number_of


class NoPolygon(Exception):
    """A file that isn't a polygon; the message says why."""


def rings_of(text: str) -> list[Line]:
    """The rings of a polygon, each closed."""
    found: list[Line] = []
    ring: Line = []
    is_in_ring = False
    for number, line in enumerate(text.splitlines()[1:], 2):
        words = line.split()
        if not words:
            continue
        if words == ["END"]:
            if is_in_ring:
                if len(ring) < 3:
                    raise NoPolygon(f"line {number}: a ring has three places at least")
                found.append(ring + [ring[0]])
            is_in_ring, ring = False, []
        elif not is_in_ring:
            is_in_ring = True
        elif len(words) == 2 and all(re.match(r"[+-]?[\d.]+([eE][+-]?\d+)?$", it) for it in words):
            ring.append((round(float(words[0]) * 1e7), round(float(words[1]) * 1e7)))
        else:
            raise NoPolygon(f"line {number}: expected are a longitude and a latitude, or END")
    if is_in_ring or not found:
        raise NoPolygon("a ring without its END" if is_in_ring else "there is no ring")
    return found


class Polygon:
    """Which places are inside; a hole is outside."""

    def __init__(self, rings: list[Line]) -> None:
        self.border = Border("", rings)
        self.cells = set(self.border.cells.tolist())
        self.known: dict[int, bool] = {}

    def contains(self, x: int, y: int) -> bool:
        cell = number_of((x // CELL, y // CELL))
        if cell in self.cells:
            return self.border.contains(x, y)
        if cell not in self.known:
            self.known[cell] = self.border.contains(x, y)
        return self.known[cell]


def read(path: str) -> Polygon:
    with open(path, encoding="utf-8") as file:
        return Polygon(rings_of(file.read()))
