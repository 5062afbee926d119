"""Networks for long trips: grids that the program draws, straight roads, and roads of which each
opens later than the one before."""
from __future__ import annotations

import os
import random
import subprocess
from typing import Iterator

from lorry_tools.files import GRAPH
from lorry_tools.speed.limits import CLOSURES, SIXTY_DAYS, START
from lorry_tools.speed.writing import write_graph, write_parks, write_table

# The arcs of one minute, and the choices behind them, of the trip with a long report.
LONG_WAY = 1_000
CHOICES = 10_079


def draw_grid(program: str, folder: str, rows: int, columns: int) -> int:
    """Lets the program draw a grid: roads both ways of 20 to 60 minutes, one arc in ten closed
    once, a rated node in eight. Returns the number of arcs."""
    words = [program, "gen", folder, "7", str(rows), str(columns)]
    drawn = subprocess.run(words, stdout=subprocess.PIPE, check=True)
    return int(drawn.stdout.split()[2])


def write_night_bans(program: str, folder: str, rows: int, columns: int) -> None:
    """Writes a grid in which 30 of 100 arcs are closed from 22:00 to 06:00 and on Sundays, by rules
    of one area."""
    arcs = draw_grid(program, folder, rows, columns)
    os.remove(os.path.join(folder, "closures.csv"))
    write_table(folder, "areas.csv", ["open,UTC", "banned,UTC"])
    write_table(folder, "zones.csv", ["UTC,525600,+00:00"])
    banned = (arc for arc in range(1, arcs + 1) if arc % 10 < 3)
    write_table(folder, "roads.csv", (f"{arc},banned" for arc in banned))
    value = "no @ (22:00-06:00); no @ (Su 00:00-24:00)"
    write_table(folder, "rules.csv", [f"area:banned,hgv:conditional,{value}"])


def shut_parks_at_night(folder: str) -> None:
    """Gives all parks of a folder hours: they are open from 06:00 to 22:00."""
    rows = rows_of(folder, "parking.csv")
    write_table(folder, "parking.csv", (row + ",,06:00-22:00" for row in rows))


def rows_of(folder: str, name: str) -> list[str]:
    with open(os.path.join(folder, name), encoding="ascii") as file:
        return file.read().splitlines()[1:]


def write_road(folder: str, count: int) -> None:
    """Writes a straight road whose last arc is closed up to a minute before the horizon; lorries
    can wait at each node but the last."""
    write_graph(folder, count + 1, count, (f"a {i} {i + 1} 1" for i in range(1, count + 1)))
    write_table(folder, "closures.csv", [f"{count},{START},{START + SIXTY_DAYS - 1}"])
    write_parks(folder, range(1, count + 1), "0.500")


def write_choices(folder: str) -> None:
    """Writes a long way, and behind it roads of which each is shorter than the one before and opens
    so much later that the arrival is later too."""
    node = LONG_WAY + 1

    def arcs() -> Iterator[str]:
        for i in range(1, node):
            yield f"a {i} {i + 1} 1"
        for i in range(CHOICES):
            yield f"a {node} {node + 1} {10_080 - i}"

    write_graph(folder, node + 1, LONG_WAY + CHOICES, arcs())
    opens = START + LONG_WAY
    closures = (f"{node + i},{START},{opens + 2 * i}" for i in range(1, CHOICES))
    write_table(folder, "closures.csv", closures)
    write_parks(folder, [node], "0.000")


def write_hilly_road(folder: str) -> None:
    """Writes a straight road of 1,000 nodes, whose arcs take 7 to 60 minutes; lorries can wait at
    each third node."""
    arcs = (f"a {i} {i + 1} {7 + i * 7_919 % 54}" for i in range(1, 1_000))
    write_graph(folder, 1_000, 999, arcs)
    write_parks(folder, range(1, 1_001, 3), "0.500")


def write_closed_arc(folder: str) -> None:
    """Writes an arc from a node to itself, with 100,000 closures of a minute each before START."""
    write_graph(folder, 1, 1, ["a 1 1 1"])
    closures = (f"1,{START - 1 - i},{START - i}" for i in range(CLOSURES))
    write_table(folder, "closures.csv", closures)


def write_jobs(folder: str, count: int, nodes: int, minutes: int) -> None:
    """Writes a table of trips between nodes that look random, all within the same minutes."""
    draws = random.Random(7)
    rows = (
        f"any,{draws.randint(1, nodes)},{draws.randint(1, nodes)},{START},{START + minutes}"
        for _ in range(count)
    )
    write_table(folder, "jobs.csv", rows)


def write_stops(folder: str, count: int, nodes: int, apart: int) -> None:
    """Writes a table of stops at nodes that look random, each open for a day, `apart` days after
    the one before."""
    draws = random.Random(7)
    rows = []
    for place in range(1, count + 1):
        opens = START + 1_440 * apart * place
        rows.append(f"{draws.randint(1, nodes)},30,{opens},{opens + 1_440}")
    write_table(folder, "stops.csv", rows)


def arcs_of(folder: str) -> list[tuple[int, int, int]]:
    """Returns tail, head and minutes of each arc of a folder."""
    found = []
    with open(os.path.join(folder, GRAPH), encoding="ascii") as file:
        for line in file:
            if line.startswith("a "):
                tail, head, minutes = map(int, line.split()[1:])
                found.append((tail, head, minutes))
    return found


def states_of(folder: str, origin: int, limit: int) -> tuple[int, int]:
    """Returns how many states a trip from a node has, each a node with the minutes driven since the
    last break, and how many drives and breaks leave them. The minutes of a node are the bits of a
    number."""
    leaving: dict[int, list[tuple[int, int]]] = {}
    for tail, head, minutes in arcs_of(folder):
        leaving.setdefault(tail, []).append((head, minutes))
    rated = {int(row.split(",")[0]) for row in rows_of(folder, "parking.csv")}
    within = (1 << limit + 1) - 1
    driven, left = {origin: 1}, [origin]
    while left:
        node = left.pop()
        driven[node] |= node in rated
        for head, minutes in leaving.get(node, []):
            known = driven.get(head, 0)
            driven[head] = known | driven[node] << minutes & within
            if driven[head] != known:
                left.append(head)
    drives = sum(
        ones(bits << minutes & within)
        for node, bits in driven.items()
        for _, minutes in leaving.get(node, [])
    )
    breaks = sum(ones(bits) - 1 for node, bits in driven.items() if node in rated)
    return sum(map(ones, driven.values())), drives + breaks


def ones(bits: int) -> int:
    return bin(bits).count("1")
