"""Folders that have the roads of some legs alone, with all that is said of these roads.

Whether legs are lawful, and otherwise what closes the first that isn't, follows from these. So the
program answers over a few lines in place of a country."""
from __future__ import annotations

import csv
import os
from typing import Iterable

from lorry_tools.answers import DRIVE, Leg
from lorry_tools.files import GRAPH
from lorry_tools.folder import Folder, Row, link_files, number_of
from lorry_tools.trips.shown import lines_of

# Files that such a folder has as they are.
SHARED = ("zones.csv", "areas.csv", "vehicles.csv", "ratings.csv", "holidays.csv")


class Ways:
    """The rows of a folder by the arcs, areas and nodes of which they are."""

    def __init__(self, folder: Folder):
        self.folder, self.graph = folder, folder.graph()
        self.areas, self.first = folder.areas_of_arcs()
        self.rules: dict[str, list[Row]] = {}
        for row in folder.table("rules.csv"):
            self.rules.setdefault(scope_of(row["scope"]), []).append(row)
        self.closures: dict[int, list[Row]] = {}
        for row in folder.table("closures.csv"):
            self.closures.setdefault(number_of(row["arc"]) or 0, []).append(row)
        self.parking = {number_of(row["node"]): row for row in folder.table("parking.csv")}

    def write(self, place: str, origin: int, legs: list[Leg], name: str) -> int:
        """Writes the files of legs that begin at a node into an empty folder, with the itinerary
        itself, and returns the last node; the first one is 1."""
        nodes, arcs = {origin: 1}, [it.number for it in legs if it.kind == DRIVE]
        lines = []
        for arc in arcs:
            tail, head, minutes = self.graph.ends(arc)
            ends = [nodes.setdefault(it, len(nodes) + 1) for it in (tail, head)]
            lines.append(f"a {ends[0]} {ends[1]} {minutes}\n")
        link_files(self.folder, place, SHARED)
        write_text(place, GRAPH, [f"p sp {len(nodes)} {len(arcs)}\n", *lines])
        self.write_rows(place, nodes, arcs)
        own = [Leg(it.kind, it.number) for it in legs]
        numbers = iter(range(1, len(arcs) + 1))
        own = [Leg(it.kind, next(numbers)) if it.kind == DRIVE else it for it in own]
        write_text(place, name, [lines_of(own)])
        return nodes[self.graph.ends(arcs[-1])[1]] if arcs else 1

    def write_rows(self, place: str, nodes: dict[int, int], arcs: list[int]) -> None:
        """Writes what the tables say of these nodes and arcs, which have new numbers."""
        areas = [self.areas.get(arc, self.first) for arc in arcs]
        if self.folder.has("roads.csv"):
            roads = [[str(number), area] for number, area in enumerate(areas, 1)]
            write_table(place, "roads.csv", ["arc", "area"], roads)
        rules = [
            it.whole for area in dict.fromkeys(areas) for it in self.rules.get(f"area:{area}", [])
        ]
        closures = []
        for number, arc in enumerate(arcs, 1):
            for row in self.rules.get(f"arc:{arc}", []):
                rules.append([f"arc:{number}", *row.whole[1:]])
            closures += [[str(number), *row.whole[1:]] for row in self.closures.get(arc, [])]
        write_table(place, "rules.csv", ["scope", "key", "value"], rules)
        write_table(place, "closures.csv", ["arc", "from", "to"], closures)
        rows = [
            (number, self.parking[node]) for node, number in nodes.items() if node in self.parking
        ]
        parks = [[str(number), *row.whole[1:]] for number, row in rows]
        header = list(rows[0][1].fields) if rows else ["node", "rating"]
        if rows:
            write_table(place, "parking.csv", header, parks)


def scope_of(text: str) -> str:
    """Returns the scope of a rule with the number of its arc as numbers are written."""
    arc = number_of(text[4:]) if text.startswith("arc:") else None
    return text if arc is None else f"arc:{arc}"


def write_table(place: str, name: str, header: list[str], rows: Iterable[list[str]]) -> None:
    with open(os.path.join(place, name), "w", encoding="utf-8", newline="") as file:
        writer = csv.writer(file, lineterminator="\n")
        writer.writerow(header)
        writer.writerows(rows)


def write_text(place: str, name: str, lines: Iterable[str]) -> None:
    with open(os.path.join(place, name), "w", encoding="utf-8", newline="") as file:
        file.writelines(lines)
