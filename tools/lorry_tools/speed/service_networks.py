"""Networks over which a service is measured: the example, copies of it side by side, and a grid
with bans; and random trips over each."""
from __future__ import annotations

import dataclasses
import os
import random
import shutil
from typing import Callable, Iterator

from lorry_tools.files import GRAPH, NODES, WAYS
from lorry_tools.folder import Folder
from lorry_tools.running import TOP
from lorry_tools.speed.writing import write_graph, write_lines, write_table

EXAMPLE = os.path.join(TOP, "examples", "liechtenstein")

# The example laid side by side: copies along and across, how far they are apart in degrees, and the
# nodes between which roads lead from one to the next.
COPIES = 12
APART = 0.35
ENDS = (146, 135)
BETWEEN = 30  # minutes

# A grid with bans: its nodes along and across, and how many nodes and arcs have what.
SIDE = 500
AREAS = 8
BANNED_ARCS = 5_000
PARKS = 12_500
NEAR = 20  # cells between the ends of a trip at most, along and across


@dataclasses.dataclass(frozen=True)
class Asked:
    """A trip, with its times in UTC."""

    lorry: str
    origin: int
    goal: int
    leave: str
    within: int  # days


Draw = Callable[[random.Random], Asked]


@dataclasses.dataclass(frozen=True)
class ServiceNetwork:
    """A network, how it is written, and how a trip over it is drawn."""

    name: str
    write: Callable[[str], None]
    draw: Draw


def write_example(folder: str) -> None:
    shutil.copytree(EXAMPLE, folder, dirs_exist_ok=True)


def draw_of_example(draws: random.Random) -> Asked:
    lorry = draws.choice(("van35", "artic40", "any"))
    leave = f"2026-07-{draws.randint(6, 12):02} {draws.randint(0, 23):02}:00Z"
    return Asked(lorry, draws.randint(1, 189), draws.randint(1, 189), leave, 2)


def write_copies(folder: str) -> None:
    """Writes the example many times, side by side, with roads between neighbours."""
    source = Folder(EXAMPLE)
    graph, count = source.graph(), COPIES * COPIES
    nodes, arcs = graph.nodes, len(graph)

    def lines() -> Iterator[str]:
        for copy in range(count):
            for arc in range(1, arcs + 1):
                tail, head, minutes = graph.ends(arc)
                yield f"a {tail + copy * nodes} {head + copy * nodes} {minutes}"
        for copy, other in neighbours():
            one, two = ENDS[0] + copy * nodes, ENDS[1] + other * nodes
            yield f"a {one} {two} {BETWEEN}"
            yield f"a {two} {one} {BETWEEN}"

    write_graph(folder, nodes * count, arcs * count + 2 * len(list(neighbours())), lines())
    for name in os.listdir(EXAMPLE):
        if name not in (GRAPH, NODES, WAYS, "roads.csv", "parking.csv") and name.endswith(".csv"):
            shutil.copy(source.file(name), folder)
    for name, step in (("roads.csv", arcs), ("parking.csv", nodes), (WAYS, arcs)):
        records = source.records(name)
        write_numbered(folder, name, [it for _, it in records], count, step)
    places = [row for _, row in source.records(NODES)[1:]]
    write_lines(folder, NODES, place_lines(places, nodes))


def neighbours() -> Iterator[tuple[int, int]]:
    for copy in range(COPIES * COPIES):
        if copy % COPIES < COPIES - 1:
            yield copy, copy + 1
        if copy // COPIES < COPIES - 1:
            yield copy, copy + COPIES


def write_numbered(folder: str, name: str, records: list[list[str]], count: int, step: int) -> None:
    """Writes the rows of a table whose first column is a number, again for each copy."""

    def lines() -> Iterator[str]:
        yield ",".join(records[0])
        for copy in range(count):
            for first, *rest in records[1:]:
                yield ",".join([str(int(first) + copy * step), *map(plain, rest)])

    with open(os.path.join(folder, name), "w", encoding="utf-8") as file:
        file.writelines(line + "\n" for line in lines())


def plain(field: str) -> str:
    return field.replace(",", " ").replace('"', " ")


def place_lines(places: list[list[str]], nodes: int) -> Iterator[str]:
    yield "node,lon,lat,name"
    for copy in range(COPIES * COPIES):
        across, along = APART * (copy % COPIES), APART * (copy // COPIES)
        for node, _, lon, lat, name in places:
            where = f"{float(lon) + across:.5f},{float(lat) + along:.5f}"
            yield f"{int(node) + copy * nodes},{where},{ascii_of(name)} {copy + 1}"


def ascii_of(name: str) -> str:
    return plain(name).encode("ascii", "replace").decode()


def draw_of_copies(draws: random.Random) -> Asked:
    """Draws a trip between places of one copy or of neighbours."""
    copy, other = draws.choice(list(neighbours()))
    one = draw_of_example(draws)
    origin, goal = one.origin + 189 * copy, one.goal + 189 * draws.choice((copy, other))
    return Asked(one.lorry, origin, goal, one.leave, one.within)


def write_large(folder: str) -> None:
    """Writes a grid of roads of 4 to 16 minutes both ways, with areas that are closed on Sundays,
    and every second one at night too, rules of arcs, and places to park."""
    draws = random.Random(7)
    node_at = {
        (row, column): row * SIDE + column + 1 for row in range(SIDE) for column in range(SIDE)
    }
    arcs: list[tuple[int, int, int]] = []
    for (row, column), node in node_at.items():
        for other in (node_at.get((row, column + 1)), node_at.get((row + 1, column))):
            if other:
                minutes = draws.randint(4, 16)
                arcs += [(node, other, minutes), (other, node, minutes)]
    write_graph(folder, SIDE * SIDE, len(arcs), (f"a {a} {b} {m}" for a, b, m in arcs))
    write_table(
        folder, "zones.csv", ["berlin,2026-01-01T00:00Z,+01:00", "berlin,2026-03-29T01:00Z,+02:00"]
    )
    write_table(folder, "areas.csv", (f"a{it},berlin" for it in range(AREAS)))
    band = SIDE * SIDE // AREAS
    write_table(
        folder,
        "roads.csv",
        (
            f"{arc},a{min(AREAS - 1, (tail - 1) // band)}"
            for arc, (tail, _, _) in enumerate(arcs, 1)
        ),
    )
    night = "; no @ (22:00-05:00 AND weight>7.5)"
    rules = [
        f'area:a{it},hgv:conditional,"no @ (Su 00:00-22:00 AND weight>7.5){night * (it % 2)}"'
        for it in range(AREAS)
    ]
    banned = draws.sample(range(1, len(arcs) + 1), BANNED_ARCS)
    rules += [f'arc:{arc},hgv:conditional,"no @ (06:00-09:00 AND weight>12)"' for arc in banned]
    write_table(folder, "rules.csv", rules)
    write_table(
        folder,
        "vehicles.csv",
        ["artic40,hgv,40000,11500,400,255,1650,5,through,", "solo75,hgv,7490,,,,,2,through,"],
    )
    write_table(folder, "ratings.csv", ["depot,0.050", "parking,0.750"])
    parks = draws.sample(range(1, SIDE * SIDE + 1), PARKS)
    write_table(
        folder, "parking.csv", (f"{node},{draws.choice(('depot', 'parking'))}" for node in parks), 0
    )
    places = (
        f"{node},{6 + column / 60:.5f},{46 + row / 90:.5f},Node {node}"
        for (row, column), node in node_at.items()
    )
    write_lines(folder, NODES, ["node,lon,lat,name", *places])


def draw_of_large(draws: random.Random) -> Asked:
    ends = []
    row, column = draws.randrange(SIDE), draws.randrange(SIDE)
    for _ in range(2):
        ends.append(row * SIDE + column + 1)
        row = min(SIDE - 1, max(0, row + draws.randint(-NEAR, NEAR)))
        column = min(SIDE - 1, max(0, column + draws.randint(-NEAR, NEAR)))
    leave = f"2026-07-{draws.randint(6, 12):02} {draws.randint(0, 23):02}:00Z"
    return Asked(draws.choice(("artic40", "solo75", "any")), ends[0], ends[1], leave, 1)


NETWORKS = {
    "example": ServiceNetwork("the example, 189 nodes", write_example, draw_of_example),
    "copies": ServiceNetwork("144 copies of it, 27,216 nodes", write_copies, draw_of_copies),
    "large": ServiceNetwork("grid with bans, 250,000 nodes", write_large, draw_of_large),
}
