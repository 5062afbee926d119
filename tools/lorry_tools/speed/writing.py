"""Writes the files of a folder line by line: no list of lines is held, since a child's peak counts
the size of this process too."""
from __future__ import annotations

import itertools
import os
from typing import Iterable

from lorry_tools.files import GRAPH, JOBS, STOPS, TABLES

# The headers that each table may have, by the name of its file.
HEADERS = {table.name: table.headers for table in TABLES}
HEADERS.update({f"{table.name}.csv": table.headers for table in (JOBS, STOPS)})

# The places of headers: that with all columns, and that with the fewest.
FULL, SHORT = -1, 0


def write_lines(folder: str, name: str, lines: Iterable[str]) -> None:
    with open(os.path.join(folder, name), "w", encoding="ascii", newline="\n") as file:
        for line in lines:
            file.write(line + "\n")


def write_table(folder: str, name: str, rows: Iterable[str], header: int = FULL) -> None:
    """Writes rows below one of the headers that the table may have."""
    write_lines(folder, name, itertools.chain([HEADERS[name][header]], rows))


def write_graph(folder: str, nodes: int, arcs: int, lines: Iterable[str]) -> None:
    """Writes a graph with these numbers of nodes and arcs; an arc is a line such as `a 1 2 60`."""
    write_lines(folder, GRAPH, itertools.chain([f"p sp {nodes} {arcs}"], lines))


def write_parks(folder: str, nodes: Iterable[int], weight: str) -> None:
    """Lets lorries wait at these nodes, where a minute costs this weight."""
    write_table(folder, "ratings.csv", [f"r,{weight}"])
    write_table(folder, "parking.csv", (f"{node},r" for node in nodes), SHORT)
