"""The shapes of roads, as shapes.csv has them: for each arc its metres, and its way over the map as
an encoded polyline with six decimals of a degree (that of Google, of OSRM and of Valhalla)."""
from __future__ import annotations

import math
import mmap
import os
from typing import Iterator, Optional, Sequence

from lorry_tools.problems import Unreadable

# A longitude and a latitude.
Position = tuple[float, float]
DECIMALS = 1_000_000


def decoded(text: bytes) -> list[Position]:
    """Returns the points of a polyline; those that aren't whole are left out."""
    numbers: list[int] = []
    value = shift = 0
    for byte in text:
        bits = byte - 63
        if not 0 <= bits < 64:
            return []
        value |= (bits & 31) << shift
        shift += 5
        if bits < 32:
            numbers.append(~(value >> 1) if value & 1 else value >> 1)
            value = shift = 0
    lat = lon = 0
    points = []
    for up, along in zip(numbers[::2], numbers[1::2]):
        lat, lon = lat + up, lon + along
        points.append((lon / DECIMALS, lat / DECIMALS))
    return points


class Shapes:
    """The rows of shapes.csv, each looked up in the file, which has them by their numbers."""

    def __init__(self, path: str):
        self._file: Optional[mmap.mmap] = None
        try:
            if os.path.isfile(path) and os.path.getsize(path):
                with open(path, "rb") as file:
                    self._file = mmap.mmap(file.fileno(), 0, access=mmap.ACCESS_READ)
        except OSError as error:
            raise Unreadable(f"{path}: {error.strerror}") from error

    def line(self, arc: int) -> list[Position]:
        """Returns the points of an arc; none where the table has none."""
        row = self.row(arc)
        return decoded(row[2]) if row else []

    def row(self, arc: int) -> Optional[list[bytes]]:
        """Returns the fields of an arc's row, by a binary search over the bytes of the file."""
        file = self._file
        if file is None:
            return None
        low, high = file.find(b"\n") + 1, len(file)
        if low == 0:
            return None
        while low < high:
            middle = (low + high) // 2
            start = file.rfind(b"\n", low, middle) + 1 or low
            end = file.find(b"\n", middle, high)
            end = high if end < 0 else end
            fields = file[start:end].rstrip(b"\r").split(b",", 2)
            number = int(fields[0]) if fields[0].isdigit() else 0
            if number == arc:
                return fields if len(fields) == 3 else None
            if number < arc:
                low = end + 1
            else:
                high = start
        return None


def distance(one: Position, other: Position) -> float:
    """Returns something in proportion to the distance of two near places."""
    wide = math.cos(math.radians((one[1] + other[1]) / 2))
    return math.hypot((one[0] - other[0]) * wide, one[1] - other[1])


def with_times(line: Sequence[Position], start: int, end: int) -> Iterator[tuple[Position, float]]:
    """Yields the points of a drive from one minute to another, each with its time in seconds: they
    are driven at one speed."""
    steps = [distance(one, other) for one, other in zip(line, line[1:])]
    whole, done = sum(steps) or 1.0, 0.0
    for point, step in zip(line, [*steps, 0.0]):
        yield point, 60 * (start + (end - start) * done / whole)
        done += step
