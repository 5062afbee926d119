"""The arcs of a folder, as graph.gr has them."""
from __future__ import annotations

import array
import dataclasses
import re
from typing import Iterable

from lorry_tools.problems import Unreadable

ARC_LINE = re.compile(rb"[ \t]*a[ \t]+(\d+)[ \t]+(\d+)[ \t]+(\d+)[ \t\r]*")
MOST_COMMENTS = 100
OPENSTREETMAP = "Map data © OpenStreetMap contributors, under the Open Database Licence 1.0."


def numbers() -> array.array[int]:
    return array.array("L")


@dataclasses.dataclass
class Graph:
    """The arcs of a graph, each at its number less one."""

    nodes: int = 0
    tails: array.array[int] = dataclasses.field(default_factory=numbers)
    heads: array.array[int] = dataclasses.field(default_factory=numbers)
    minutes: array.array[int] = dataclasses.field(default_factory=numbers)
    comments: list[str] = dataclasses.field(default_factory=list)

    def __len__(self) -> int:
        return len(self.tails)

    def ends(self, arc: int) -> tuple[int, int, int]:
        """Returns the tail, the head and the minutes of an arc, by its number."""
        return self.tails[arc - 1], self.heads[arc - 1], self.minutes[arc - 1]

    def credit(self) -> str:
        """Returns whom the roads are from, where a licence asks for that."""
        is_osm = any("openstreetmap" in it.lower() for it in self.comments)
        return OPENSTREETMAP if is_osm else ""

    def arcs_at(self, nodes: Iterable[int]) -> dict[int, list[int]]:
        """Returns the numbers of the arcs that leave each node, where these are the tails, or that
        come into it, where they are the heads."""
        at: dict[int, list[int]] = {}
        for arc, node in enumerate(nodes, 1):
            at.setdefault(node, []).append(arc)
        return at


def read_graph(path: str) -> Graph:
    """Reads a graph in the form of the 9th DIMACS Implementation Challenge. What isn't read as an
    arc is left out."""
    graph = Graph()
    try:
        with open(path, "rb") as file:
            for line in file:
                take_line(graph, line)
    except OSError as error:
        raise Unreadable(f"{path}: {error.strerror}") from error
    return graph


def take_line(graph: Graph, line: bytes) -> None:
    arc = ARC_LINE.fullmatch(line.rstrip(b"\n"))
    if arc:
        tail, head, minutes = (int(it) for it in arc.groups())
        if max(tail, head, minutes) < 1 << 32:
            graph.tails.append(tail)
            graph.heads.append(head)
            graph.minutes.append(minutes)
    elif line.split()[:2] == [b"p", b"sp"] and line.split()[2:3]:
        nodes = line.split()[2]
        graph.nodes = int(nodes) if re.fullmatch(rb"\d{1,18}", nodes) else 0
    elif line.strip().startswith(b"c") and len(graph.comments) < MOST_COMMENTS:
        graph.comments.append(line.decode("utf-8", "replace").strip()[1:].strip())
