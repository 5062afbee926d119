"""Reads the files of a folder as docs/FORMATS.md describes them.

It reads more than the program does: where the program would refuse a row, it leaves the row out."""
from __future__ import annotations

import contextlib
import csv
import dataclasses
import os
import re
import sys
import tempfile
from typing import Callable, Hashable, Iterable, Iterator, Mapping, Optional

from lorry_tools.files import GRAPH, NETWORK, SHAPES
from lorry_tools.graph import Graph, read_graph
from lorry_tools.problems import Unreadable
from lorry_tools.shapes import Shapes

csv.field_size_limit(1 << 28)

DEFAULT_AREA = "default"
UTC = "UTC"


@dataclasses.dataclass
class Row:
    """A record of a table: its number, the header being 1, and its fields by their columns. Fields
    that are missing are empty."""

    number: int
    fields: dict[str, str]
    whole: list[str]

    def __getitem__(self, column: str) -> str:
        return self.fields.get(column, "")


class Folder:
    """The files of a folder, each read when it is asked for the first time. SHOWN is its name in
    texts, where that isn't its path."""

    def __init__(self, path: str, shown: Optional[str] = None):
        if not os.path.isdir(path):
            raise Unreadable(f"{path} is not a folder")
        self.path = path
        self.shown = path if shown is None else shown
        self._tables: dict[str, list[Row]] = {}
        self._graph: Optional[Graph] = None
        self._areas: Optional[tuple[dict[Optional[int], str], str]] = None
        self._weights: Optional[dict[int, str]] = None
        self._shapes: Optional[Shapes] = None

    def file(self, name: str) -> str:
        return os.path.join(self.path, name)

    def shown_file(self, name: str) -> str:
        return os.path.join(self.shown, name)

    def has(self, name: str) -> bool:
        return os.path.isfile(self.file(name))

    def records(self, name: str) -> list[tuple[int, list[str]]]:
        """Returns the records of a file with their numbers, the header being 1; none where there is
        no such file."""
        return list(enumerate(self.read(name), 1))

    def read(self, name: str) -> Iterator[list[str]]:
        """Yields the records of a file, the header first."""
        if not self.has(name):
            return
        try:
            with open(self.file(name), encoding="utf-8-sig", errors="replace", newline="") as file:
                yield from (it for it in csv.reader(file) if it)
        except (OSError, csv.Error) as error:
            raise Unreadable(f"{self.file(name)}: {error}") from error

    def columns(self, name: str, *wanted: str) -> Iterator[list[str]]:
        """Yields these fields of each data row of a table, whose rows aren't kept. Fields that are
        missing are empty."""
        records = self.read(name)
        header: list[str] = next(records, [])
        places = [header.index(it) if it in header else sys.maxsize for it in wanted]
        for record in records:
            yield [record[it] if it < len(record) else "" for it in places]

    def table(self, name: str) -> list[Row]:
        """Returns the data rows of a table, by the columns of its header."""
        if name not in self._tables:
            records = self.records(name)
            header = records[0][1] if records else []
            self._tables[name] = [
                Row(number, dict(zip(header, fields)), fields) for number, fields in records[1:]
            ]
        return self._tables[name]

    def graph(self) -> Graph:
        if self._graph is None:
            self._graph = read_graph(self.file(GRAPH))
        return self._graph

    def shapes(self) -> Shapes:
        if self._shapes is None:
            self._shapes = Shapes(self.file(SHAPES))
        return self._shapes

    def areas_of_arcs(self) -> tuple[dict[Optional[int], str], str]:
        """Returns the area of each arc that has a row, and the first area, in which all others
        are."""
        if self._areas is None:
            areas = self.table("areas.csv")
            first = areas[0]["area"] if areas else DEFAULT_AREA
            rows = self.columns("roads.csv", "arc", "area")
            self._areas = {number_of(arc): sys.intern(area) for arc, area in rows}, first
        return self._areas

    def weights_of_nodes(self) -> dict[int, str]:
        """Returns, for each node at which a lorry may wait, what a minute costs there, as
        ratings.csv writes it."""
        if self._weights is None:
            weights = {row["rating"]: row["weight"] for row in self.table("ratings.csv")}
            self._weights = {}
            for row in self.table("parking.csv"):
                node = number_of(row["node"])
                if node is not None and row["rating"] in weights:
                    self._weights[node] = weights[row["rating"]]
        return self._weights


def number_of(text: str) -> Optional[int]:
    """Returns the number of an arc or a node, as tables write it, or None."""
    return int(text) if re.fullmatch(r"\d{1,10}", text, re.ASCII) else None


def zones_of_areas(folder: Folder) -> dict[str, str]:
    """Returns the zone of each area."""
    rows = folder.table("areas.csv")
    return {row["area"]: row["zone"] for row in rows} if rows else {DEFAULT_AREA: UTC}


def closure_groups(folder: Folder) -> Callable[[int], Hashable]:
    """Returns a function from an arc to a key, so that arcs of one key are closed to each vehicle
    in the same minutes.

    An arc is closed by its own rules, by those of its area and by its own closures. So all arcs of
    an area that have neither rules nor closures of their own are alike."""
    areas, first = folder.areas_of_arcs()
    own = {number_of(row["arc"]) for row in folder.table("closures.csv")}
    for row in folder.table("rules.csv"):
        if row["scope"].startswith("arc:"):
            own.add(number_of(row["scope"][4:]))
    return lambda arc: ("arc", arc) if arc in own else ("area", areas.get(arc, first))


def link_files(folder: Folder, copy: str, names: Iterable[str] = NETWORK) -> None:
    """Links files of a folder into another one, which is empty."""
    for name in names:
        if folder.has(name):
            os.symlink(os.path.abspath(folder.file(name)), os.path.join(copy, name))


@contextlib.contextmanager
def linked_copy(folder: Folder, files: Mapping[str, str]) -> Iterator[str]:
    """Makes a temporary folder with links to the files of a network, and with further files of
    these texts. It is removed in the end."""
    with tempfile.TemporaryDirectory(prefix="lorry_plan-") as copy:
        link_files(folder, copy)
        for name, text in files.items():
            with open(os.path.join(copy, name), "w", encoding="utf-8", newline="") as file:
                file.write(text)
        yield copy
