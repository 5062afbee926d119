"""The files of a folder at their limits, which docs/LIMITS.md lists."""
from __future__ import annotations

import datetime
from typing import Callable, Iterator

from lorry_tools.speed.writing import write_graph, write_table

NODES = 500_000
ARCS = 1_000_000
ZONE_ROWS = 10_000
AREAS = 1_000
VEHICLES = 10_000
RULES = 20_000
CLOSURES = 100_000
RATINGS = 1_000
HOLIDAYS = 100_000

# The bytes of a rule's value: 20,000 of them stay below the limit of a file.
RULE_BYTES = 10_000

# 2020-07-04T00:00Z as a Unix minute.
START = 26_563_680

# The longest horizon: 60 days in minutes.
SIXTY_DAYS = 86_400

# The hours of a ban by night, and of one that no trip from START on comes to.
BY_NIGHT = "Mo-Fr 22:00-06:00; PH off"
IN_DECEMBER = "Dec Mo-Fr 22:00-06:00; PH off"

# The keys of access.
KEYS = ("access", "vehicle", "motor_vehicle", "hgv", "hgv_articulated", "goods", "bus")


def ring(longest: int) -> Iterator[str]:
    """Yields the arcs of a ring through all nodes, of 1 to `longest` minutes, and of a chord from
    each node."""
    for node in range(1, NODES + 1):
        yield f"a {node} {node % NODES + 1} {node % longest + 1}"
        yield f"a {node} {node * 7919 % NODES + 1} {node % 300 + 60}"


def write_ring(folder: str, longest: int = 60) -> None:
    write_graph(folder, NODES, ARCS, ring(longest))


def zones() -> Iterator[str]:
    for i in range(ZONE_ROWS):
        zone, change = i % AREAS, i // AREAS
        yield f"zone{zone},{525_600 + 262_800 * change},+{(zone + change) % 15:02}:00"


def areas() -> Iterator[str]:
    for i in range(AREAS):
        yield f"area{i},zone{i}"


def roads() -> Iterator[str]:
    for arc in range(1, ARCS + 1):
        yield f"{arc},area{arc % AREAS}"


def vehicles() -> Iterator[str]:
    classes = ("hgv", "hgv_articulated", "goods", "bus")
    for i in range(VEHICLES):
        weights = f"{3_500 + i},{2_000 + i % 9_500}"
        lengths = f"{200 + i % 201},{180 + i % 76},{500 + i % 1_376}"
        purpose = "delivery" if i % 3 == 0 else "through"
        whole = f"{weights},{lengths},{2 + i % 5},{purpose},low_emission hazmat"
        yield f"vehicle{i},{classes[i % 4]},{whole}"


def conditional_value(hours: str) -> str:
    """Returns a conditional value of at most RULE_BYTES bytes, whose clauses have a comparison, a
    flag and these hours."""
    clause = f"no @ (weight>7.5 AND hazmat AND {hours})"
    count = (RULE_BYTES + 2) // (len(clause) + 2)
    return "; ".join([clause] * count)


def long_rules(hours: str = BY_NIGHT) -> Iterator[str]:
    """Yields long values: all seven conditional keys of each area, and rules of arcs up to the
    limit."""
    value = conditional_value(hours)
    for i in range(AREAS):
        for key in KEYS:
            yield f"area:area{i},{key}:conditional,{value}"
    for i in range(RULES - AREAS * len(KEYS)):
        yield f"arc:{i + 1},hgv:conditional,{value}"


def bans() -> Iterator[str]:
    """Yields a ban by night, on Sundays and on holidays in each area, and rules of 10,000 arcs."""
    value = "no @ (22:00-05:00); no @ (Su 00:00-22:00); no @ (PH 00:00-22:00)"
    for i in range(AREAS):
        yield f"area:area{i},hgv:conditional,{value}"
    for i in range(10_000):
        yield f"arc:{10 * i + 7},hgv:conditional,no @ (weight>7.5 AND Sa 07:00-20:00)"


def one_value() -> Iterator[str]:
    """Yields a value of 1,000 clauses, and nearly the most bytes that a value may have."""
    clauses = "; ".join([f"no @ (weight>7.5 AND hazmat AND {BY_NIGHT})"] * 1_000)
    yield f"arc:1,hgv:conditional,{clauses}"


def closures() -> Iterator[str]:
    for i in range(CLOSURES):
        start = START + i % 80_000
        yield f"{i * 10 + 1},{start},{start + 60}"


def ratings() -> Iterator[str]:
    for i in range(RATINGS):
        yield f"rating{i},{i % 100}.{i % 1_000:03}"


def parking() -> Iterator[str]:
    """Yields parks in all areas, each with three texts of hours: 3,000 timetables."""
    for node in range(1, NODES + 1):
        hours = f"Mo-Sa {node % 10:02}:00-{14 + node % 3}:30; PH off"
        yield f"{node},rating{node % RATINGS},area{node % AREAS},{hours}"


def holidays() -> Iterator[str]:
    first = datetime.date(2000, 1, 1).toordinal()
    for i in range(HOLIDAYS):
        day = datetime.date.fromordinal(first + 37 * (i // AREAS))
        yield f"area{i % AREAS},{'PH' if i % 2 else 'SH'},{day.isoformat()}"


def tolls() -> Iterator[str]:
    for arc in range(1, ARCS + 1):
        yield f"{arc},{arc % 100}.{arc % 1_000:03}"


# The rows of all tables but those of vehicles and rules, which are measured apart.
ROWS: dict[str, Callable[[], Iterator[str]]] = {
    "zones.csv": zones,
    "areas.csv": areas,
    "roads.csv": roads,
    "closures.csv": closures,
    "ratings.csv": ratings,
    "parking.csv": parking,
    "holidays.csv": holidays,
    "tolls.csv": tolls,
}


def write_limits(folder: str) -> None:
    """Writes the graph and the tables of ROWS at their limits."""
    write_ring(folder)
    for name, rows in ROWS.items():
        write_table(folder, name, rows())


def write_rules_of_december(folder: str) -> None:
    """Writes a ring of arcs of one minute and its chords, in all areas, with rules at their limits
    whose hours cover no minute of a trip."""
    write_ring(folder, 1)
    for name in ("zones.csv", "areas.csv", "roads.csv", "holidays.csv"):
        write_table(folder, name, ROWS[name]())
    write_table(folder, "vehicles.csv", vehicles())
    write_table(folder, "rules.csv", long_rules(IN_DECEMBER))
