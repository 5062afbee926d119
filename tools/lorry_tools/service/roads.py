"""The roads of a folder as GeoJSON, by the boxes of a map."""
from __future__ import annotations

import array
import math
from typing import Any, NamedTuple, Optional, Sequence

from lorry_tools.graph import Graph
from lorry_tools.places import Places
from lorry_tools.rules import Streets

A_CELL_HAS = 64  # roads, on average


class Box(NamedTuple):
    """A part of the map, in degrees."""

    west: float
    south: float
    east: float
    north: float

    def has(self, other: Box) -> bool:
        """Whether another box is within this one."""
        return (
            self.west <= other.west
            and self.south <= other.south
            and self.east >= other.east
            and self.north >= other.north
        )


class RoadMap:
    """The roads of a folder, those of both directions once and by the first arc of both, in the
    cells of a grid. Of two roads the longer one comes first; of roads of which no metres are known,
    the one that takes longer."""

    def __init__(self, places: Places, streets: Streets):
        self.places, self.streets = places, streets
        self.graph: Graph = places.folder.graph()
        self.lons, self.lats = self._positions()
        self.bounds = self._bounds()
        # By arcs: the one of the other direction, or 0, and the place in the order of roads.
        self.backs = array.array("L", [0]) * (len(self.graph) + 1)
        self.rank = self.backs[:]
        self.order = self._order(self._join())
        for place, arc in enumerate(self.order):
            self.rank[arc] = place
        self._size = self._cell_size()
        self._cells = self._fill()

    def _positions(self) -> tuple[array.array[float], array.array[float]]:
        """Returns the longitude and the latitude of each node; NaN where they aren't known."""
        unknown = array.array("d", [math.nan]) * (self.graph.nodes + 1)
        lons, lats = unknown[:], unknown[:]
        for node, place in self.places.known.items():
            if place.lon is not None and place.lat is not None:
                lons[node], lats[node] = place.lon, place.lat
        return lons, lats

    def _bounds(self) -> Optional[Box]:
        known = [it for it in self.places.known.values() if it.lat is not None]
        lats = [it.lat for it in known if it.lat is not None]
        lons = [it.lon for it in known if it.lon is not None]
        return Box(min(lons), min(lats), max(lons), max(lats)) if lats and lons else None

    def collection(self, box: Optional[Box], most: int) -> dict[str, Any]:
        """Returns the roads that touch a box, or all, as a FeatureCollection; of more than MOST the
        first ones."""
        roads = self.within(box)
        return {
            "type": "FeatureCollection",
            "features": [self.feature(it) for it in sorted(roads[:most])],
            "left_out": max(0, len(roads) - most),
        }

    def within(self, box: Optional[Box]) -> Sequence[int]:
        """Returns the roads that touch a box, or all, in their order."""
        bounds = self.bounds
        if bounds is None:
            return []
        if box is None or box.has(bounds):
            return self.order
        left, low = self.cell(max(box.west, bounds.west), max(box.south, bounds.south))
        right, high = self.cell(min(box.east, bounds.east), min(box.north, bounds.north))
        found: set[int] = set()
        for column in range(left, right + 1):
            for row in range(low, high + 1):
                found.update(self._cells.get((column, row), ()))
        return sorted((it for it in found if self.touches(it, box)), key=self.rank.__getitem__)

    def _join(self) -> list[int]:
        """Returns the first arcs of the roads whose ends have coordinates, and joins the arcs of
        both directions."""
        metres, names, lons = self.streets.metres, self.streets.names, self.lons
        waiting: dict[tuple[int, int, int, str], int] = {}
        found: list[int] = []
        ends = zip(self.graph.tails, self.graph.heads, self.graph.minutes)
        for arc, (tail, head, minutes) in enumerate(ends, 1):
            if math.isnan(lons[tail]) or math.isnan(lons[head]):
                continue
            weight, name = metres.get(arc, minutes), names.get(arc, "")
            other = waiting.pop((head, tail, weight, name), 0)
            if other:
                self.backs[other] = arc
            else:
                waiting[tail, head, weight, name] = arc
                found.append(arc)
        return found

    def _order(self, roads: list[int]) -> array.array[int]:
        metres, minutes = self.streets.metres, self.graph.minutes

        def weight(arc: int) -> int:
            return metres.get(arc, minutes[arc - 1])

        return array.array("L", sorted(roads, key=weight, reverse=True))

    def _cell_size(self) -> float:
        bounds = self.bounds
        if bounds is None:
            return 1.0
        across = max(bounds.east - bounds.west, bounds.north - bounds.south, 1e-6)
        return across / max(1.0, math.sqrt(len(self.order) / A_CELL_HAS))

    def _fill(self) -> dict[tuple[int, int], array.array[int]]:
        lons, lats, size, floor = self.lons, self.lats, self._size, math.floor
        tails, heads = self.graph.tails, self.graph.heads
        cells: dict[tuple[int, int], array.array[int]] = {}
        for arc in self.order:
            tail, head = tails[arc - 1], heads[arc - 1]
            column, row = floor(lons[tail] / size), floor(lats[tail] / size)
            right, high = floor(lons[head] / size), floor(lats[head] / size)
            for x in range(min(column, right), max(column, right) + 1):
                for y in range(min(row, high), max(row, high) + 1):
                    cell = cells.get((x, y))
                    if cell is None:
                        cell = cells[x, y] = array.array("L")
                    cell.append(arc)
        return cells

    def cell(self, lon: float, lat: float) -> tuple[int, int]:
        return math.floor(lon / self._size), math.floor(lat / self._size)

    def point(self, node: int) -> tuple[float, float]:
        return self.lons[node], self.lats[node]

    def touches(self, arc: int, box: Box) -> bool:
        tail, head, _ = self.graph.ends(arc)
        (x, y), (other_x, other_y) = self.point(tail), self.point(head)
        return (
            min(x, other_x) <= box.east
            and max(x, other_x) >= box.west
            and min(y, other_y) <= box.north
            and max(y, other_y) >= box.south
        )

    def feature(self, arc: int) -> dict[str, Any]:
        tail, head, minutes = self.graph.ends(arc)
        back = self.backs[arc]
        properties = {
            "arcs": [arc, back] if back else [arc],
            "street": self.streets.names.get(arc),
            "metres": self.streets.metres.get(arc),
            "minutes": minutes,
            "from": tail,
            "to": head,
        }
        shape = self.places.folder.shapes().line(arc)
        ends = [self.point(tail), self.point(head)]
        line = {"type": "LineString", "coordinates": shape or ends}
        return {"type": "Feature", "geometry": line, "properties": properties}
