"""Draws small folders, and the words of trips over them, so that closures, rules, parking hours,
tolls, windows and breaks matter.

tools/random_trips uses it. All draws come from the random number generator that is handed in."""
from __future__ import annotations

import calendar
import csv
import dataclasses
import datetime
import io
import os
import random
from typing import Iterator, Mapping, Optional, Sequence

from lorry_tools.second.trip_answers import Roads, Stop
from lorry_tools.second.trip_network import (
    DAY_0,
    FIRST_INSTANT,
    KEYS,
    KEYS_OF_CLASS,
    LAST_INSTANT,
    MINUTES_OF_DAY,
    MONTHS,
    WEEKDAYS,
    Arc,
    Network,
    minute_of,
)

Rows = list[list[str]]
Leg = tuple[str, int]
# Legs, each with the minute and the node at its end.
Walk = list[tuple[Leg, int, int]]

STOPS, ITINERARY = "stops.csv", "legs.txt"

# Trips begin near these: a Saturday, a Sunday's end, ends of months and years, changes of the
# clocks, and the ends of all time.
BEGINNINGS = [
    "2020-07-04T00:00Z",
    "2020-07-04T05:00Z",
    "2020-07-05T21:30Z",
    "2020-02-29T12:00Z",
    "2020-12-31T23:00Z",
    "2021-01-31T23:30Z",
    "2020-03-29T00:30Z",
    "2020-10-25T00:30Z",
    "2019-02-28T23:30Z",
    "2100-02-28T23:00Z",
    "1971-01-01T00:00Z",
    "2199-12-31T22:00Z",
]

WEIGHTS = ["0", "0.000", "0.001", "0.05", "0.5", "1", "1.000", "1.25", "2.5", "10", "100"]
TOLLS = ["0", "0.001", "0.5", "1", "5", "12.5", "20", "60", "100"]
CLASSES = list(KEYS_OF_CLASS)
FLAGS = ["hazmat", "articulated", "tank_truck"]
OFFSETS = ["+00:00", "+01:00", "+02:00", "-05:00", "+05:45", "-03:30", "+18:00", "-18:00"]


class Window:
    """The time of a trip, and when it begins on clocks with an offset."""

    def __init__(self, depart: int, until: int) -> None:
        self.depart, self.until = depart, until
        self.minutes = until - depart

    def wall(self, offset: str) -> tuple[int, int]:
        sign = -1 if offset[0] == "-" else 1
        return divmod(
            self.depart + sign * (int(offset[1:3]) * 60 + int(offset[4:])), MINUTES_OF_DAY
        )


def draw_window(rng: random.Random, typical: int) -> Window:
    """A trip of no minutes up to 150, often of more than the typical ones."""
    near = [
        typical + rng.randint(0, 15),
        typical + rng.randint(0, 60),
        typical + rng.randint(20, 60),
        2 * typical + rng.randint(0, 30),
    ]
    minutes = rng.choice(
        [0, rng.randint(0, 10), rng.randint(10, 60), rng.randint(60, 150), *near * 3]
    )
    minutes = min(max(minutes, 0), 150)
    depart = minute_of(rng.choice(BEGINNINGS)) + rng.choice([0, rng.randint(-90, 90)])
    depart = min(max(depart, FIRST_INSTANT), LAST_INSTANT - minutes)
    return Window(depart, depart + minutes)


def within_time(minute: int) -> int:
    return min(max(minute, FIRST_INSTANT), LAST_INSTANT)


def instant_text(rng: random.Random, minute: int) -> str:
    if rng.random() < 0.7:
        return str(minute)
    day, part = divmod(minute, MINUTES_OF_DAY)
    date = datetime.date.fromordinal(DAY_0 + day).isoformat()
    return f"{date}T{part // 60:02}:{part % 60:02}{rng.choice(['', ':00'])}Z"


def table(rng: random.Random, header: str, rows: Sequence[Sequence[str]]) -> Optional[str]:
    """The text of a table; None for a file that isn't there."""
    if not rows and rng.random() < 0.7:
        return None
    text = io.StringIO()
    end = rng.choice(["\n", "\n", "\n", "\r\n"])
    csv.writer(text, lineterminator=end).writerows([header.split(","), *rows])
    mark = "\u00ef\u00bb\u00bf" if rng.random() < 0.03 else ""
    whole = mark + text.getvalue()
    return whole[: -len(end)] if rng.random() < 0.1 else whole


# ---- The network ----


@dataclasses.dataclass
class Graph:
    """Nodes, arcs as (tail, head, minutes), and where the trip begins and ends."""

    nodes: int
    arcs: list[Arc]
    origin: int
    goal: int

    def quickest(
        self, origin: int, goal: int, without: Optional[int] = None
    ) -> Optional[list[int]]:
        """The minutes of each arc of a quickest way from a node to another, over all arcs but one;
        None where there is no way."""
        ways: dict[int, list[int]] = {origin: []}
        for _ in range(self.nodes):
            for place, (tail, head, minutes) in enumerate(self.arcs):
                if (
                    place != without
                    and tail in ways
                    and (head not in ways or sum(ways[tail]) + minutes < sum(ways[head]))
                ):
                    ways[head] = ways[tail] + [minutes]
        return ways.get(goal)


def draw_graph(rng: random.Random, command: str) -> Graph:
    nodes = rng.choice(
        [2, 3, 4, 4, 5, 5, 6] if command == "breaks" else [1, 2, 2, 3, 3, 3, 4, 4, 4, 5, 5, 6]
    )
    reach = rng.choice([1, 1, 2, nodes] if command == "breaks" else [1, nodes, nodes])
    count = rng.choice(
        [rng.randint(0, 2), *[rng.randint(nodes - 1, 12)] * 5, *[rng.randint(6, 12)] * 6]
    )
    longest = rng.choice([3, 6, 12, 20])
    way = rng.sample(range(1, nodes + 1), nodes)
    arcs = [(tail, head, rng.randint(1, longest)) for tail, head in zip(way, way[1:])][:count]
    while len(arcs) < count:
        draw = rng.random()
        if draw < 0.3 and arcs:
            tail, head, _ = rng.choice(arcs)
        elif draw < 0.75:
            begin = rng.randrange(nodes)
            tail, head = way[begin], way[min(begin + rng.randint(1, reach), nodes - 1)]
        else:
            tail, head = rng.choice(way), rng.choice(way)
        arcs.append((tail, head, rng.randint(1, 20 if rng.random() < 0.3 else longest)))
    if arcs and rng.random() < 0.05:
        arcs.pop(0)
    rng.shuffle(arcs)
    origin, goal = (way[0], way[-1]) if rng.random() < 0.85 else (rng.choice(way), rng.choice(way))
    return Graph(nodes, arcs, origin, goal if rng.random() < 0.96 else origin)


def graph_text(nodes: int, arcs: Sequence[Arc]) -> str:
    return "".join(
        [
            f"p sp {nodes} {len(arcs)}\n",
            *(f"a {tail} {head} {minutes}\n" for tail, head, minutes in arcs),
        ]
    )


def draw_closures(rng: random.Random, window: Window, arcs: list[Arc], share: float) -> Rows:
    rows = []
    for arc in range(1, len(arcs) + 1):
        for _ in range(rng.randint(1, 3) if rng.random() < share else 0):
            latest = rng.choice([window.minutes + 5, min(window.minutes, 20)])
            begin = min(within_time(window.depart + rng.randint(-15, latest)), LAST_INSTANT - 1)
            end = within_time(
                begin + rng.choice([1, rng.randint(1, 10), rng.randint(5, 25), rng.randint(5, 60)])
            )
            rows.append([str(arc), instant_text(rng, begin), instant_text(rng, end)])
    rng.shuffle(rows)
    return rows


def draw_zones(rng: random.Random, window: Window) -> tuple[Rows, dict[str, str]]:
    """The rows of zones.csv, and the offset of each zone at the departure."""
    rows, offsets = [], {"UTC": "+00:00"}
    for zone in rng.sample(["east", "west", "UTC"], rng.randint(0, 2)):
        begins = {FIRST_INSTANT, within_time(window.depart - rng.randint(0, 100_000))}
        if rng.random() < 0.6:
            begins.add(within_time(window.depart + rng.randint(-5, window.minutes + 5)))
        for begin in sorted(begins)[rng.randint(0, 1) if len(begins) > 1 else 0 :]:
            offset = rng.choice(OFFSETS)
            rows.append([zone, instant_text(rng, begin), offset])
            if begin <= window.depart or zone not in offsets or zone == "UTC":
                offsets[zone] = offset
    return rows, offsets


def draw_parking(
    rng: random.Random,
    window: Window,
    nodes: int,
    areas: list[str],
    offset_of_area: Mapping[str, str],
    share: float,
) -> tuple[Rows, Rows, str]:
    cheap = rng.random() < 0.6
    weights = {
        f"r{place}": (
            f"0.{rng.randint(0, 999):03}"
            if cheap
            else rng.choice([*WEIGHTS, f"{rng.randint(0, 9)}.{rng.randint(0, 999):03}"])
        )
        for place in range(rng.randint(1, 4))
    }
    with_hours = rng.random() < 0.45
    rows = []
    for node in rng.sample(range(1, nodes + 1), nodes):
        if rng.random() >= share:
            continue
        row = [str(node), rng.choice(list(weights))]
        if with_hours:
            area = rng.choice(["", *areas])
            offset = offset_of_area[area or areas[0]]
            row += [area, draw_hours(rng, window, offset) if rng.random() < 0.7 else ""]
        rows.append(row)
    return (
        [[rating, weight] for rating, weight in weights.items()],
        rows,
        "node,rating,area,hours" if with_hours else "node,rating",
    )


def draw_tolls(rng: random.Random, graph: Graph, share: float) -> Rows:
    """Most tolls are about what the arc saves in minutes, so that the dear way is the quick one."""
    rows = []
    for place, (tail, head, minutes) in enumerate(graph.arcs):
        longer = graph.quickest(tail, head, place)
        saved = sum(longer) - minutes if longer else 0
        if rng.random() < share and saved > 0 and rng.random() < 0.8:
            rows.append(
                [
                    str(place + 1),
                    f"{min(max(saved + rng.randint(-2, 9), 0), 99)}.{rng.randint(0, 999):03}",
                ]
            )
        elif rng.random() < share / 2:
            rows.append([str(place + 1), rng.choice(TOLLS)])
    return rows


def draw_vehicles(rng: random.Random) -> Rows:
    rows = []
    for name in rng.sample(["truck", "van", "coach.2"], rng.randint(0, 3)):
        sizes = [
            rng.choice(["", str(rng.randint(low, high))])
            for low, high in (
                (3_000, 12_000),
                (2_000, 9_000),
                (250, 420),
                (200, 260),
                (500, 1_900),
                (2, 6),
            )
        ]
        flags = " ".join(rng.sample(FLAGS, rng.randint(0, 2)))
        rows.append(
            [name, rng.choice(CLASSES), *sizes, rng.choice(["", "through", "delivery"]), flags]
        )
    return rows


def draw_rules(
    rng: random.Random,
    window: Window,
    arcs: list[Arc],
    areas: list[str],
    offset_of_area: Mapping[str, str],
    area_of_arc: Mapping[int, str],
    keys: list[str],
) -> Rows:
    """Rules of which many differ from another in one of scope, key and kind alone."""
    rows: Rows = []
    taken: list[tuple[str, str, str]] = []
    for _ in range(rng.randint(1, 6)):
        arc = rng.randint(1, len(arcs)) if arcs else 0
        area = area_of_arc.get(arc, areas[0]) if rng.random() < 0.7 else rng.choice(areas)
        scope = f"arc:{arc}" if arc and rng.random() < 0.6 else f"area:{area}"
        key = rng.choice(keys) if rng.random() < 0.9 else rng.choice(KEYS)
        kind = rng.choice(["", ":conditional", ":conditional"])
        if taken and rng.random() < 0.5:
            other = rng.choice(taken)
            scope, key, kind = rng.choice(
                [
                    (scope, other[1], other[2]),
                    (other[0], key, other[2]),
                    (*other[:2], kind),
                    (*other[:2], kind),
                ]
            )
        if (scope, key, kind) in taken:
            continue
        taken.append((scope, key, kind))
        of_area = (
            area_of_arc.get(int(scope[4:]), areas[0]) if scope.startswith("arc:") else scope[5:]
        )
        rows.append(
            [
                scope,
                key + kind,
                draw_conditional(rng, window, offset_of_area[of_area]) if kind else draw_value(rng),
            ]
        )
        if rng.random() < 0.1:
            rows.append([scope, rng.choice(["maxspeed", "hgv:forward", "HGV"]), "80"])
    rng.shuffle(rows)
    return rows


def draw_value(rng: random.Random) -> str:
    return rng.choice(
        [
            "no",
            "no",
            "no",
            "yes",
            "yes",
            "destination",
            "delivery",
            "private",
            "designated",
            "permit",
            "discouraged",
        ]
    )


def draw_conditional(rng: random.Random, window: Window, offset: str) -> str:
    clauses = []
    for _ in range(rng.choice([1, 1, 2, 3])):
        parts = rng.choice([" AND ", " and "]).join(
            draw_part(rng, window, offset) for _ in range(rng.choice([1, 1, 1, 2]))
        )
        bare = ";" not in parts and rng.random() < 0.3
        clauses.append(f"{draw_value(rng)} @ {parts}" if bare else f"{draw_value(rng)} @ ({parts})")
    return "; ".join(clauses)


def draw_part(rng: random.Random, window: Window, offset: str) -> str:
    draw = rng.random()
    if draw < 0.7:
        return draw_hours(rng, window, offset)
    if draw < 0.8:
        return rng.choice(FLAGS)
    sign = rng.choice(["<", "<=", ">", ">=", "=", "=="])
    limit = rng.choice(
        [
            f"weight{sign}{rng.randint(3, 12)}.5",
            f"axleload {sign} {rng.randint(2, 9)}t",
            f"height{sign}{rng.randint(2, 4)}.{rng.randint(10, 99)}",
            f"width{sign}2.{rng.randint(0, 6)}m",
            f"length{sign} {rng.randint(5, 19)}",
            f"axles{sign}{rng.randint(2, 6)}",
        ]
    )
    return limit


@dataclasses.dataclass
class Shares:
    """Which part of the nodes is rated and which part of the arcs has closures, and whether there
    are rules."""

    rated: float
    closed: float
    ruled: bool


def draw_shares(rng: random.Random, command: str) -> Shares:
    """Where breaks and stops are to matter, roads are mostly open."""
    rated = rng.choice([0.7, 1, 1] if command == "breaks" else [0, 0.4, 0.7, 1, 1])
    if command in ("breaks", "tour") and rng.random() < 0.6:
        return Shares(rated, rng.choice([0, 0.2]), False)
    return Shares(rated, rng.choice([0, 0.2, 0.4, 0.6, 1]), rng.random() < 0.5)


def draw_network(
    rng: random.Random, graph: Graph, window: Window, shares: Shares
) -> dict[str, Optional[str]]:
    """The texts of the files by name."""
    nodes, arcs = graph.nodes, graph.arcs
    zone_rows, offsets = draw_zones(rng, window)
    areas = rng.sample(["land", "town", "port"], rng.randint(0, 3))
    area_rows = [[area, rng.choice(list(offsets))] for area in areas]
    offset_of_area = {area: offsets[zone] for area, zone in area_rows} or {
        "default": offsets["UTC"]
    }
    areas = areas or ["default"]
    area_of_arc = {arc: rng.choice(areas) for arc in range(1, len(arcs) + 1) if rng.random() < 0.6}
    vehicles = draw_vehicles(rng)
    keys = KEYS_OF_CLASS[rng.choice(["hgv", *(row[1] for row in vehicles)])]
    ratings, parking, parking_header = draw_parking(
        rng, window, nodes, areas, offset_of_area, shares.rated
    )
    days = [date_text(window.wall(offset)[0] + rng.randint(-1, 1)) for offset in offsets.values()]
    holidays = [
        [rng.choice(areas), rng.choice(["PH", "SH"]), rng.choice(days)]
        for _ in range(rng.choice([0, 0, 1, 3]))
    ]
    rules = (
        draw_rules(rng, window, arcs, areas, offset_of_area, area_of_arc, keys)
        if shares.ruled
        else []
    )
    tolls = draw_tolls(rng, graph, rng.choice([0, 0.5, 0.8, 1]))
    return {
        "graph.gr": graph_text(nodes, arcs),
        "zones.csv": table(rng, "zone,from,offset", zone_rows),
        "areas.csv": table(rng, "area,zone", area_rows),
        "roads.csv": table(
            rng, "arc,area", [[str(arc), area] for arc, area in area_of_arc.items()]
        ),
        "vehicles.csv": table(
            rng,
            "name,class,weight_kg,axleload_kg,height_cm,width_cm,length_cm,axles,purpose,flags",
            vehicles,
        ),
        "rules.csv": table(rng, "scope,key,value", rules),
        "closures.csv": table(rng, "arc,from,to", draw_closures(rng, window, arcs, shares.closed)),
        "ratings.csv": table(rng, "rating,weight", ratings),
        "parking.csv": table(rng, parking_header, parking),
        "holidays.csv": table(rng, "area,kind,date", holidays),
        "tolls.csv": table(rng, "arc,toll", tolls),
    }


def date_text(day: int) -> str:
    return datetime.date.fromordinal(DAY_0 + day).isoformat()


# ---- Hours ----


def draw_hours(rng: random.Random, window: Window, offset: str) -> str:
    day, minute = window.wall(offset)
    return "; ".join(
        hours_rule(rng, day, minute, window.minutes) for _ in range(rng.choice([1, 1, 1, 2, 3]))
    )


def hours_rule(rng: random.Random, day: int, minute: int, minutes: int) -> str:
    draw = rng.random()
    opened = " open" if rng.random() < 0.1 else ""
    if draw < 0.04:
        return "24/7" + opened
    if draw < 0.42:
        return spans(rng, minute, minutes) + opened
    if draw < 0.55:
        return day_items(rng, day) + " " + spans(rng, minute, minutes) + opened
    if draw < 0.65:
        between = rng.choice([" ", ": ", " " + day_items(rng, day) + " "])
        return date_spans(rng, day) + between + spans(rng, minute, minutes) + opened
    if draw < 0.72:
        return day_items(rng, day) + opened
    if draw < 0.76:
        return date_spans(rng, day) + opened
    if draw < 0.88:
        days: list[str] = rng.choice([[day_items(rng, day)], [date_spans(rng, day)], ["PH"], []])
        return " ".join([*days, rng.choice(["off", "closed"])])
    return (
        rng.choice(["", "", date_spans(rng, day) + " "])
        + long_span(rng, day, minute, minutes)
        + opened
    )


def time_text(rng: random.Random, minute: int) -> str:
    return (
        f"{minute // 60:02}:{minute % 60:02}"
        if rng.random() < 0.8
        else f"{minute // 60}:{minute % 60:02}"
    )


def spans(rng: random.Random, minute: int, minutes: int) -> str:
    if rng.random() < 0.25:
        begin, end = two_of(rng) if rng.random() < 0.3 else gap(rng, minute, minutes)
        return f"00:00-{time_text(rng, begin)},{time_text(rng, end)}-24:00"
    return rng.choice([",", ", "]).join(
        span(rng, minute, minutes) for _ in range(rng.choice([1, 1, 1, 2, 3]))
    )


def two_of(rng: random.Random) -> tuple[int, int]:
    begin, end = sorted(rng.sample(range(1, MINUTES_OF_DAY), 2))
    return begin, end


def gap(rng: random.Random, minute: int, minutes: int) -> tuple[int, int]:
    begin = min(
        max((minute + rng.randint(-10, minutes + 5)) % MINUTES_OF_DAY, 1), MINUTES_OF_DAY - 2
    )
    return begin, min(
        begin + rng.choice([rng.randint(1, 10), rng.randint(1, 60)]), MINUTES_OF_DAY - 1
    )


def span(rng: random.Random, minute: int, minutes: int) -> str:
    begin = (
        minute + rng.choice([rng.randint(-45, minutes + 15), rng.randint(-20, minutes)])
    ) % MINUTES_OF_DAY
    end = begin + rng.choice(
        [
            rng.randint(1, 8),
            rng.randint(1, 25),
            rng.randint(1, 50),
            rng.randint(1, 180),
            rng.randint(1, MINUTES_OF_DAY),
        ]
    )
    if end > MINUTES_OF_DAY and rng.random() < 0.5:
        end -= MINUTES_OF_DAY
    return f"{time_text(rng, begin)}-{time_text(rng, end)}"


def weekday(day: int) -> str:
    return WEEKDAYS[(day + 3) % 7]


def day_items(rng: random.Random, day: int) -> str:
    return ",".join(day_item(rng, day) for _ in range(rng.choice([1, 1, 1, 2])))


def day_item(rng: random.Random, day: int) -> str:
    near = day + rng.choice([-1, 0, 0, 0, 1])
    draw = rng.random()
    if draw < 0.4:
        return weekday(near)
    if draw < 0.6:
        return f"{weekday(near)}-{weekday(near + rng.randint(0, 6))}"
    if draw < 0.75:
        return rng.choice(["PH", "SH"])
    date = datetime.date.fromordinal(DAY_0 + near)
    from_end = calendar.monthrange(date.year, date.month)[1] - date.day
    ordinal = rng.choice(
        [(date.day - 1) // 7 + 1, -(from_end // 7) - 1, rng.randint(1, 5), -rng.randint(1, 5)]
    )
    return f"{weekday(near)}[{ordinal}]"


def date_spans(rng: random.Random, day: int) -> str:
    return ",".join(date_span(rng, day) for _ in range(rng.choice([1, 1, 1, 2])))


def date_span(rng: random.Random, day: int) -> str:
    first = datetime.date.fromordinal(DAY_0 + day + rng.choice([-2, -1, 0, 0, 0, 1]))
    last = first + datetime.timedelta(days=rng.choice([0, 1, 3, 40, 200]))
    begin, end = MONTHS[first.month - 1], MONTHS[last.month - 1]
    whole = f"{begin} {first.day:02}"
    if first.month == last.month and first.day <= last.day and rng.random() < 0.3:
        return f"{whole}-{last.day}"
    return rng.choice(
        [begin, f"{begin}-{end}", whole, f"{whole}-{end} {last.day}", "Feb 30", "Dec 31-Jan 1"]
    )


def long_span(rng: random.Random, day: int, minute: int, minutes: int) -> str:
    begin = (
        day * MINUTES_OF_DAY
        + minute
        + rng.choice([rng.randint(-300, minutes), rng.randint(-10_080, 300)])
    )
    end = begin + rng.choice(
        [rng.randint(1, 400), rng.randint(1, 3_000), rng.randint(1, 10_080), 10_080]
    )
    last_day, last_minute = divmod(end, MINUTES_OF_DAY)
    if last_minute == 0 and end - begin < 10_080:
        last_day, last_minute = last_day - 1, MINUTES_OF_DAY
    first_day, first_minute = divmod(begin, MINUTES_OF_DAY)
    first = f"{weekday(first_day)} {time_text(rng, first_minute)}"
    return f"{first}-{weekday(last_day)} {time_text(rng, last_minute)}"


# ---- Trips ----


def draw_trip(rng: random.Random, command: str, folder: str) -> list[str]:
    """Draws a trip, writes its files into a folder that is empty, and gives its words."""
    graph = draw_graph(rng, command)
    window = draw_window(
        rng,
        sum(graph.quickest(graph.origin, graph.goal) or [rng.randint(0, 20)])
        + (10 if command == "breaks" else 0),
    )
    if command == "breaks" and window.minutes > 90 and rng.random() < 0.7:
        window = Window(window.depart, window.depart + rng.randint(50, 90))
    if rng.random() < 0.003:
        return draw_long_trip(rng, command, folder, window)
    write_all(folder, draw_network(rng, graph, window, draw_shares(rng, command)))
    network = Network(folder).read()
    return draw_trip_over(rng, command, folder, network, graph, window)


def draw_trip_over(
    rng: random.Random, command: str, folder: str, network: Network, graph: Graph, window: Window
) -> list[str]:
    vehicle = rng.choice(list(network.vehicles))
    origin, goal = graph.origin, graph.goal
    roads = Roads(network, network.vehicles[vehicle])
    most_served = rng.choice([0, 1, 2, 2, 3, 3, 3, 6]) if command == "tour" else 0
    walk = longest_of(
        [random_walk(rng, roads, origin, goal, window, most_served) for _ in range(4)], goal
    )
    if walk and rng.random() < 0.3 and command not in ("breaks", "explain"):
        goal = walk[-1][2]
    words = [
        command,
        folder,
        vehicle,
        str(origin),
        str(goal),
        instant_text(rng, window.depart),
        instant_text(rng, window.until),
    ]
    if command == "tour":
        write(
            folder,
            STOPS,
            spoil_stops(
                rng,
                stops_text(rng, draw_stops(rng, network, window, walk, origin, goal)),
                network.nodes,
                window,
            ),
        )
        words.append(STOPS)
    if command == "explain":
        legs = [leg for leg, *_ in walk] if walk and rng.random() < 0.8 else draw_legs(rng, network)
        if rng.random() < 0.6:
            legs = mutated(rng, legs, network)
        write(folder, ITINERARY, spoil_lines(rng, itinerary_text(rng, legs)))
        words.append(ITINERARY)
    words = spoil_words(rng, words, network, window) if rng.random() < 0.05 else words
    if command == "breaks" or (command == "tour" and rng.random() < 0.5):
        words = with_options(rng, words, rule_options(rng, graph, walk, window))
    if rng.random() < 0.02:
        spoil_folder(rng, folder, words, network, window)
    return words


def draw_long_trip(rng: random.Random, command: str, folder: str, window: Window) -> list[str]:
    """A trip of about the most minutes, over few arcs and without a place to wait, so that few
    places are reached."""
    write_all(
        folder,
        {
            "graph.gr": graph_text(
                3, [(1, 2, rng.randint(1, 10_080)), (2, 3, rng.randint(1, 9))][: rng.randint(0, 2)]
            )
        },
    )
    depart = min(window.depart, LAST_INSTANT - 86_401)
    most = rng.choice([86_399, 86_400, 86_401])
    words = [command, folder, "any", "1", rng.choice("123"), str(depart), str(depart + most)]
    if command == "tour":
        write(
            folder, STOPS, stops_text(rng, [(1, 1_440, depart, depart + most)] * rng.randint(0, 50))
        )
        words.append(STOPS)
    if command == "explain":
        write(folder, ITINERARY, "drive 1\ndrive 2\n")
        words.append(ITINERARY)
    return words


def write(folder: str, name: str, text: str) -> None:
    with open(os.path.join(folder, name), "wb") as file:
        file.write(text.encode("latin-1"))


def write_all(folder: str, files: Mapping[str, Optional[str]]) -> None:
    for name, text in files.items():
        if text is not None:
            write(folder, name, text)


# ---- Walks and legs ----


def random_walk(
    rng: random.Random, roads: Roads, origin: int, goal: int, window: Window, most_served: int = 0
) -> Walk:
    """Lawful legs from the origin, each with the minute and the node at its end; of services, each
    with its minutes, at most so many."""
    node, minute = origin, window.depart
    walk: Walk = []
    likes_waiting = rng.choice([0.1, 0.3, 0.6])
    while len(walk) < 14 and not (node == goal and rng.random() < (0.15 if most_served else 0.5)):
        arcs = list(roads.drives(node, minute, window.until))
        waits = 0
        while waits < 40 and roads.may_wait(node, minute + waits, window.until):
            waits += 1
        may_wait = waits and not (walk and walk[-1][0][0] == "wait")
        if most_served and minute < window.until and rng.random() < 0.4:
            service = rng.randint(1, min(window.until - minute, 12))
            most_served, minute = most_served - 1, minute + service
            walk.append((("serve", service), minute, node))
        elif may_wait and (not arcs or rng.random() < likes_waiting):
            waits = rng.randint(1, waits)
            minute += waits
            walk.append((("wait", waits), minute, node))
        elif arcs:
            arc = rng.choice(arcs)
            node, minute = roads.head(arc), minute + roads.minutes(arc)
            walk.append((("drive", arc), minute, node))
        else:
            break
    return walk


def longest_of(walks: list[Walk], goal: int) -> Walk:
    """A walk that ends at the goal, if there is one, and of these the longest."""
    return max(walks, key=lambda walk: (bool(walk) and walk[-1][2] == goal, len(walk)))


def draw_legs(rng: random.Random, network: Network) -> list[Leg]:
    return [draw_leg(rng, network) for _ in range(rng.choice([0, 1, 2, 3, 5]))]


def draw_leg(rng: random.Random, network: Network) -> Leg:
    if rng.random() < 0.6:
        return "drive", rng.randint(1, max(len(network.arcs), 1))
    return "wait", rng.choice([1, rng.randint(1, 10), rng.randint(1, 60)])


def mutated(rng: random.Random, legs: list[Leg], network: Network) -> list[Leg]:
    legs = list(legs)
    for _ in range(rng.choice([1, 1, 2, 3])):
        place = rng.randint(0, len(legs))
        change = rng.randint(0, 7)
        if change == 0 or place == len(legs):
            legs.insert(place, draw_leg(rng, network))
        elif change == 1:
            legs.pop(place)
        elif change == 2:
            legs.insert(place, legs[place])
        elif change == 3 and legs[place][0] == "wait" and legs[place][1] > 1:
            part = rng.randint(1, legs[place][1] - 1)
            legs[place : place + 1] = [("wait", part), ("wait", legs[place][1] - part)]
        elif change == 4 and legs[place][0] == "wait":
            legs[place] = ("wait", max(legs[place][1] + rng.choice([-1, 1, 2, 100]), 1))
        elif change == 5:
            legs[place] = (
                "drive",
                rng.choice(
                    [
                        len(network.arcs) + 1,
                        4_294_967_295,
                        rng.randint(1, max(len(network.arcs), 1)),
                    ]
                ),
            )
        elif change == 6:
            legs.append(rng.choice([("wait", 86_400), ("wait", 1), draw_leg(rng, network)]))
        else:
            legs[place] = draw_leg(rng, network)
    return legs


def itinerary_text(rng: random.Random, legs: list[Leg]) -> str:
    ends = rng.choice([["\n"], ["\n"], ["\n"], ["\r\n"], ["\n", "\r\n"]])
    text = "".join(f"{kind} {value}{rng.choice(ends)}" for kind, value in legs)
    return (
        text[:-1]
        if text.endswith("\n") and not text.endswith("\r\n") and rng.random() < 0.1
        else text
    )


def spoil_lines(rng: random.Random, text: str) -> str:
    if rng.random() > 0.06:
        return text
    line = rng.choice(
        [
            "",
            "wait 0",
            "wait 86401",
            "wait 86400",
            "wait 01",
            "drive 0",
            "drive 01",
            "drive 4294967296",
            "drive 4294967295",
            "drive 12345678901",
            "drive  1",
            " drive 1",
            "drive 1 ",
            "drive\t1",
            "drive",
            "wait",
            "Drive 1",
            "drive 1 2",
            "drive -1",
            "drive +1",
            "\r",
            "drive 1\r",
            "wait 1.5",
            "drive \u00b2",
            "\u00ef\u00bb\u00bfdrive 1",
            "serve 1",
            "\0",
        ]
    )
    lines = text.split("\n")
    lines.insert(rng.randint(0, len(lines) - 1), line)
    return "\n".join(lines) if rng.random() < 0.7 else text + line


# ---- Stops ----


def draw_stops(
    rng: random.Random, network: Network, window: Window, walk: Walk, origin: int, goal: int
) -> list[Stop]:
    """The services of a walk, each with a window about its time; or any stops."""
    if rng.random() < 0.01:
        return [(origin, 1, window.depart, min(window.until + 50, LAST_INSTANT))] * rng.choice(
            [49, 50, 51]
        )
    served = [
        (node, service, minute - service, minute)
        for (kind, service), minute, node in walk
        if kind == "serve"
    ]
    if rng.random() < 0.1:
        begins = [
            window.depart + rng.randint(-20, window.minutes + 10) for _ in range(rng.randint(0, 3))
        ]
        served = [
            (rng.choice([origin, goal, rng.randint(1, network.nodes)]), 5, begin, begin + 5)
            for begin in sorted(begins)
        ]
    stops = []
    for node, service, begin, end in served:
        begin += rng.choice([0, 0, 0, 1, rng.randint(0, 10), *[-rng.randint(0, 30)] * 6])
        end += rng.choice([0, 0, 0, -1, *[rng.randint(0, 20)] * 3, *[rng.randint(0, 120)] * 4])
        begin = min(within_time(begin), LAST_INSTANT - 1)
        stops.append((node, service, begin, min(max(end, begin + 1), LAST_INSTANT)))
    if len(stops) > 1 and rng.random() < 0.05:
        rng.shuffle(stops)
    return stops


def stops_text(rng: random.Random, stops: list[Stop]) -> str:
    rows = [
        [
            rng.choice([str(node), f"0{node}"]) if rng.random() < 0.05 else str(node),
            str(service),
            instant_text(rng, begin),
            instant_text(rng, end),
        ]
        for node, service, begin, end in stops
    ]
    return table(rng, "node,service,from,to", rows) or "node,service,from,to\n"


def spoil_stops(rng: random.Random, text: str, nodes: int, window: Window) -> str:
    if rng.random() > 0.06:
        return text
    begin, end = str(window.depart), str(within_time(window.until + 1))
    lines = [
        f"1,1,{end},{begin}",
        f"1,1,{begin},{begin}",
        f"{nodes + 1},1,{begin},{end}",
        f"0,1,{begin},{end}",
        f"1,0,{begin},{end}",
        f"1,1441,{begin},{end}",
        f"1,1440,{begin},{end}",
        f"1,,{begin},{end}",
        f",1,{begin},{end}",
        f"1,1,{begin}",
        f"1,1,{begin},{end},",
        f"1,1,525599,{end}",
        f"1,1,{begin},120968640",
        f"1,1,0{begin},{end}",
        f"-1,1,{begin},{end}",
        f"4294967296,1,{begin},{end}",
        f"{nodes + 1},1441,{end},{begin}",
        f"{nodes + 1},1,{end},{begin}",
        f" 1,1,{begin},{end}",
        f'"1","0001",{begin},{end}',
        "",
        "x",
        f"1,1,2020-02-30T00:00Z,{end}",
        "node,service,from,to",
    ]
    rows = text.split("\n")
    rows.insert(rng.randint(0, len(rows) - 1), rng.choice(lines))
    return rng.choice(
        ["\n".join(rows)] * 6
        + ["", "node,service,from\n", text.upper(), text.replace("\n", "\n\n")]
    )


# ---- Words ----


def rule_options(rng: random.Random, graph: Graph, walk: Walk, window: Window) -> list[list[str]]:
    """The words of a break rule; mostly the quickest way can't be driven without a break."""
    driven = graph.quickest(graph.origin, graph.goal)
    waited = [value for (kind, value), *_ in walk if kind == "wait"]
    drive = (
        rng.randint(max(driven), sum(driven))
        if driven and rng.random() < 0.8
        else rng.randint(1, 30)
    )
    drive = min(max(drive + rng.choice([0, 0, 0, 1, -1]), 1), 60)
    rest = max(
        rng.choice([1, 2, *[rng.randint(1, 8)] * 4, rng.randint(1, 30), *waited])
        + rng.choice([-1, 0, 0, 1]),
        1,
    )
    if rng.random() < 0.05:
        rest = rng.choice([window.minutes, window.minutes + 1, 1_440]) or 1
    if rng.random() < 0.05:
        drive = rng.choice([1, 1_440])
    drive_word, rest_word = str(drive), str(rest)
    if rng.random() < 0.04:
        drive_word, rest_word = rng.choice(
            [
                ("0", rest_word),
                ("1441", rest_word),
                ("01", rest_word),
                (drive_word, "0"),
                (drive_word, "1441"),
                (drive_word, "045"),
                ("", rest_word),
                (drive_word, "-1"),
                ("x", rest_word),
                ("+9", rest_word),
            ]
        )
    options = [
        words_of_option(rng, "--drive", drive_word),
        words_of_option(rng, "--rest", rest_word),
    ]
    rng.shuffle(options)
    draw = rng.random()
    if draw < 0.08:
        options.pop()
    elif draw < 0.1:
        options.append(
            rng.choice([*options, ["--drive"], ["--form", "plain"], ["--"], ["-d", "9"]])
        )
    return options


def words_of_option(rng: random.Random, name: str, value: str) -> list[str]:
    return [name, value] if rng.random() < 0.5 else [f"{name}={value}"]


def with_options(rng: random.Random, words: list[str], options: list[list[str]]) -> list[str]:
    """The options at any places after the command."""
    pieces = [[word] for word in words[1:]]
    for option in options:
        pieces.insert(rng.randint(0, len(pieces)), option)
    return words[:1] + [word for piece in pieces for word in piece]


def spoil_words(
    rng: random.Random, words: list[str], network: Network, window: Window
) -> list[str]:
    """Words that are refused, or that are at a limit."""
    words = list(words)
    vehicle, origin, goal, depart, until = range(2, 7)
    changes = [
        (vehicle, ["crane", "ANY", "-x", "", "a" * 64, "a" * 65]),
        (origin, ["0", str(network.nodes + 1), "4294967295", "4294967296", "01", "", "1x", "+1"]),
        (goal, ["0", str(network.nodes + 1), "4294967295", "4294967296", "00", "-1"]),
        (
            until,
            [
                str(window.depart - 1),
                str(window.depart),
                str(min(window.depart + 86_401, LAST_INSTANT)),
                "120968639",
                "120968640",
                "525599",
                "2020-07-04",
            ],
        ),
        (
            depart,
            [
                str(window.until + 1),
                "0",
                "1971-01-01T00:00Z",
                "1970-12-31T23:59Z",
                "2020-07-04T24:00Z",
            ],
        ),
    ]
    for _ in range(rng.choice([1, 1, 2])):
        place, values = rng.choice(changes)
        words[place] = rng.choice(values)
    draw = rng.random()
    if draw < 0.1:
        words.pop(rng.randint(1, len(words) - 1))
    elif draw < 0.2:
        words.insert(rng.randint(1, len(words)), rng.choice(["x", "--form", "--help", "--", ""]))
    elif draw < 0.3 and words[0] in ("tour", "explain"):
        words[-1] = rng.choice(["absent.txt", ".", "..", "-s", "a/b", "s" * 65, ""])
    return words


def spoil_folder(
    rng: random.Random, folder: str, words: list[str], network: Network, window: Window
) -> None:
    """Takes a file away, or gives closures a row with a fault."""
    draw = rng.random()
    if draw < 0.3:
        os.remove(os.path.join(folder, "graph.gr"))
    elif draw < 0.7:
        closures = network.text("closures.csv").rstrip("\r\n") or "arc,from,to"
        arc, begin, end = rng.choice(
            [(len(network.arcs) + 1, 0, 1), (0, 0, 1), (1, 1, 0), (1, 0, 0)]
        )
        begin, end = (min(window.depart, LAST_INSTANT - 1) + minutes for minutes in (begin, end))
        write(folder, "closures.csv", f"{closures}\n{arc},{begin},{end}\n")
    if draw > 0.6 and words[0] in ("tour", "explain"):
        name = os.path.join(folder, STOPS if words[0] == "tour" else ITINERARY)
        os.remove(name)
        if rng.random() < 0.3:
            os.mkdir(name)


# ---- Trips at their limits ----


def limit_trips(folder: str) -> Iterator[tuple[str, list[str]]]:
    """Trips at the limits of their states and of an itinerary's bytes, and one beyond each; gives
    what each is and its words.

    The folder is empty at first, and holds the files of one trip after another."""
    depart = minute_of(BEGINNINGS[0])
    times = [str(depart), str(depart + 50)]
    for arcs in (300_000, 300_001):
        write(folder, "graph.gr", graph_text(500_000, [(1, 2, 10), *[(3, 4, 10)] * (arcs - 1)]))
        write(folder, STOPS, "node,service,from,to\n" + f"2,1,{times[0]},{times[1]}\n" * 49)
        yield f"a tour of {50 * (500_000 + arcs):,} states", [
            "tour",
            folder,
            "any",
            "1",
            "2",
            str(depart),
            str(depart + 60),
            STOPS,
        ]
    nodes, drive = 6_943, 1_440
    chain = [(node, node, 1) for node in range(1, nodes + 1)] + [
        (node, node + 1, 1) for node in range(1, nodes)
    ]
    # Each node has drive + 1 states, a loop and an arc to the next node that drive of these may
    # take, and drive breaks.
    size = nodes * (drive + 1) + (len(chain) + nodes) * drive
    write(folder, "ratings.csv", "rating,weight\nr,0.5\n")
    write(
        folder,
        "parking.csv",
        "node,rating\n" + "".join(f"{node},r\n" for node in range(1, nodes + 1)),
    )
    for most in (40_000_000, 40_000_001):
        write(folder, "graph.gr", graph_text(nodes, chain + [(1, 2, drive)] * (most - size)))
        yield f"breaks of {most:,} states", [
            "breaks",
            folder,
            "any",
            "1",
            "40",
            *times,
            "--drive",
            str(drive),
            "--rest",
            "1",
        ]
    write(folder, "parking.csv", "node,rating\n")
    write(folder, "graph.gr", graph_text(10, [(1, 1, 10_080)] * 10))
    for text in ("drive 1\n" * 2_097_152, "drive 1\n" * 2_097_151 + "drive 10\n"):
        write(folder, ITINERARY, text)
        yield f"an itinerary of {len(text):,} bytes", [
            "explain",
            folder,
            "any",
            "1",
            "1",
            *times,
            ITINERARY,
        ]
