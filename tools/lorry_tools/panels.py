"""The panels of a drawn plan: the front, the map, the days of each option, and its roads.

Each is a drawing of a width; texts say how large a number is, and tips say the rest."""
from __future__ import annotations

import math
from typing import Callable, Iterable, Optional, Sequence

from lorry_tools import drawing
from lorry_tools.drawing import (
    DRIVE,
    GRID,
    HATCHED,
    INK,
    SOFT,
    WAIT,
    WEEKEND,
    Box,
    Drawing,
    Labels,
    Point,
    TimeAxis,
    Value,
    clock,
    moment_text,
    number,
    shortened,
)
from lorry_tools.drawn_plan import Asked, Leg, Route, Trip, joined
from lorry_tools.instants import cost_text, span_text

# Beyond these many a picture leaves out what nobody could see, and says so.
MOST_LANES = 14
MOST_SHAPES = 4000  # legs that are drawn one by one
MOST_LINES = 25_000  # of the map's background

# A place on the globe to one on the panel.
Scale = Callable[[tuple[float, float]], Point]
Runs = tuple[tuple[int, int], ...]


def front_panel(trip: Trip, width: float, height: float) -> Drawing:
    """The options as points: the arrival to the right, the cost upwards."""
    panel = Drawing(width, height, "Each option: its arrival and its cost")
    left, right, top, bottom = 78, width - 18, 34, height - 58
    panel.text(0, 14, "Cost against arrival", "bold", 14)
    panel.text(left, top - 5, "cost (a minute of driving is 1)", "small soft")
    low, high = trip.routes[0].arrival, trip.routes[-1].arrival
    pad = max((high - low) * 0.08, 30)
    axis = TimeAxis(low - pad, high + pad, left, right)
    least, most = trip.routes[-1].cost, trip.routes[0].cost
    margin = max((most - least) * 0.12, most * 0.02, 500)
    floor, roof = max(least - margin, 0), most + margin

    def height_of(cost: float) -> float:
        return bottom - (cost - floor) * (bottom - top) / (roof - floor)

    axis.draw_days(panel, top, bottom)
    ticks, step = drawing.cost_ticks(floor, roof, max(3, (bottom - top) / 45))
    for tick in ticks:
        panel.line(left, height_of(tick), right, height_of(tick), GRID, stroke_dasharray="1 3")
        panel.text(left - 8, height_of(tick) + 4, drawing.cost_label(tick, step), "small end")
    axis.draw_ticks(panel, bottom, top)
    panel.line(left, top, left, bottom, "#7C868E")
    panel.text(
        (left + right) / 2, height - 6, axis.title("arrival", low, high), "small soft middle"
    )
    points = [(axis.at(it.arrival), height_of(it.cost)) for it in trip.routes]
    stairs = [points[0]]
    for (_, before), (x, y) in zip(points, points[1:]):
        stairs += [(x, before), (x, y)]
    stairs = [(points[0][0], top), *stairs, (right, points[-1][1])]
    panel.path(stairs, "#9AA4AC", 1.3)
    radius = 6 if len(points) <= 12 else 4.5 if len(points) <= 40 else 3.5
    labels = Labels(panel, left, top - 4, right + 14, bottom)
    for x, y in points:
        labels.keep_free(x - radius, y - radius, x + radius, y + radius)
    labels.avoid(stairs)
    for route, (x, y) in zip(trip.routes, points):
        tip = (
            f"Option {route.number}: arrives {moment_text(route.arrival, True)} UTC, costs"
            f" {cost_text(route.cost)}"
        )
        panel.circle(
            x,
            y,
            radius,
            route.colour,
            tip,
            data_route=route.number,
            stroke="#fff",
            stroke_width=1.2,
        )
    for route, (x, y) in zip(trip.routes, points):
        texts = (
            [f"{route.number}:  {clock(route.arrival)}, {cost_text(route.cost)}"]
            if len(points) <= 12
            else []
        )
        labels.place(x, y, [*texts, str(route.number)], 12, radius + 4, data_route=route.number)
    return panel


def map_panel(trip: Trip, asked: Asked, width: float, height: float) -> Optional[Drawing]:
    """The routes by the shapes of their roads, or straight between the coordinates of nodes; None
    where these are not known."""
    used = {it for route in trip.routes for leg in route.legs for it in (leg.tail, leg.head)} | {
        asked.origin,
        asked.goal,
    }
    known = [trip.places[it] for it in used if it in trip.places]
    if len(known) < 2:
        return None
    shapes = [trip.line_of(it) for it in trip.routes]
    known += [point for shape in shapes for point in shape]
    panel = Drawing(width, height, "A sketch of the routes by the coordinates of their nodes")
    panel.text(0, 14, "Where they go", "bold", 14)
    top, bottom = 26, height - 2
    west, east = min(it[0] for it in known), max(it[0] for it in known)
    south, north = min(it[1] for it in known), max(it[1] for it in known)
    slim = math.cos(math.radians((south + north) / 2))
    room = 0.86
    scale = min(
        width * room / max((east - west) * slim, 1e-4),
        (bottom - top) * room / max(north - south, 1e-4),
    )
    middle = (west + east) / 2, (south + north) / 2

    def at(place: tuple[float, float]) -> Point:
        right = (place[0] - middle[0]) * slim * scale
        return width / 2 + right, (top + bottom) / 2 - (place[1] - middle[1]) * scale

    panel.rect(0, top, width, bottom - top, "#F7F8F9", stroke=GRID)
    draw_background(trip, asked, panel, at, (0, top, width, bottom))
    labels = Labels(panel, 2, top + 2, width - 2, bottom - 22)
    lines = []
    for k, route in enumerate(trip.routes):
        lines.append([at(it) for it in shapes[k]])
        few = len(trip.routes) <= 8
        thick = 3 + 2.4 * (len(trip.routes) - 1 - k) if few else 2.5
        tip = (
            f"Option {route.number}: arrives {moment_text(route.arrival)} UTC, costs"
            f" {cost_text(route.cost)}"
        )
        round_ends: dict[str, Value] = {
            "stroke_linejoin": "round",
            "stroke_linecap": "round",
            "opacity": 1.0 if few else 0.75,
        }
        panel.path(lines[-1], route.colour, thick, tip, data_route=route.number, **round_ends)
    ends = [it for it in (asked.origin, asked.goal) if it in trip.places]
    for line in lines:
        labels.avoid(line)
    for node in ends:
        x, y = at(trip.places[node])
        labels.keep_free(x - 7, y - 7, x + 7, y + 7)
    waits: dict[int, list[tuple[Route, Leg]]] = {}
    for route in trip.routes:
        for leg in route.waits():
            waits.setdefault(leg.tail, []).append((route, leg))
    for node, stops in waits.items():
        if node not in trip.places:
            continue
        x, y = at(trip.places[node])
        tip = f"Waits at {trip.name_of(node)}: " + "; ".join(
            f"option {route.number} {span_text(leg.minutes)}" for route, leg in stops
        )
        shown = {"data_route": stops[0][0].number} if len(stops) == 1 else {}
        panel.circle(x, y, 5.5, WAIT, tip, stroke=INK, stroke_width=1.2, **shown)
        labels.keep_free(x - 6, y - 6, x + 6, y + 6)
    for node, word in ((asked.origin, "from"), (asked.goal, "to")):
        if node in trip.places:
            x, y = at(trip.places[node])
            panel.rect(
                x - 6,
                y - 6,
                12,
                12,
                "#fff" if word == "from" else INK,
                trip.name_of(node),
                stroke=INK,
                stroke_width=2.4,
            )
            name = f"{word} {shortened(trip.name_of(node), 12, width * 0.45)}"
            labels.place(x, y, [name], 12, 11, "halo bold") or labels.place(
                x, y, [f"{word} {node}"], 12, 11, "halo bold"
            )
    for node in [it for it in waits if it in trip.places and it not in ends][:60]:
        x, y = at(trip.places[node])
        name = shortened(trip.name_of(node), 11, 150)
        labels.place(x, y, [name, str(node)], 11, 9, "halo small")
    draw_scale(panel, scale, 12, bottom - 10, width)
    return panel


def draw_background(trip: Trip, asked: Asked, panel: Drawing, at: Scale, frame: Box) -> None:
    """Draws the roads within the frame, once for both directions; too many are drawn on a coarser
    grid, which joins those that lie together."""
    left, top, right, bottom = frame
    graph = asked.folder.graph()
    places: dict[int, Point] = {}
    for node, place in trip.places.items():
        x, y = at(place)
        if left < x < right and top < y < bottom:
            places[node] = x, y
    both = zip(graph.tails, graph.heads)
    inside = {(min(it), max(it)) for it in both if it[0] in places and it[1] in places}
    grid, lines = 0.1, set[tuple[tuple[int, int], tuple[int, int]]]()
    for grid in (0.1, 1, 2, 4, 8):
        on_grid = {it: (round(x / grid), round(y / grid)) for it, (x, y) in places.items()}
        lines = {(on_grid[a], on_grid[b]) for a, b in inside if on_grid[a] != on_grid[b]}
        if len(lines) <= MOST_LINES:
            break
    words = (
        f"M{number(a * grid)} {number(b * grid)}L{number(c * grid)} {number(d * grid)}"
        for (a, b), (c, d) in sorted(lines)
    )
    panel.shape("path", None, d="".join(words), stroke="#D3D8DD", stroke_width=1, fill="none")


def draw_scale(panel: Drawing, scale: float, x: float, y: float, width: float) -> None:
    """Draws a line of a round number of kilometres."""
    kilometre = scale / 111.2
    lengths = [it * 10.0**power for power in range(-1, 5) for it in (1, 2, 5)]
    length = max((it for it in lengths if it * kilometre <= width / 4), default=lengths[0])
    right = x + length * kilometre
    panel.path([(x, y - 4), (x, y), (right, y), (right, y - 4)], SOFT, 1.4)
    panel.text(right + 6, y + 1, f"{length:g} km", "small soft halo")


def axis_of(trip: Trip, asked: Asked, left: float, right: float) -> TimeAxis:
    low, high = asked.depart, max(trip.last(), asked.depart + 60)
    if asked.until - high <= 0.2 * (high - low):
        high = max(high, asked.until)
    pad = (high - low) * 0.012
    return TimeAxis(low - pad, high + pad, left, right)


def draw_legend(panel: Drawing, x: float, y: float, asked: Asked, entries: Iterable[str]) -> None:
    for kind in entries:
        if kind == "drive":
            panel.rect(x, y - 10, 22, 11, DRIVE, rx=2)
            text = "drive"
        elif kind == "wait":
            panel.rect(x, y - 10, 22, 11, WAIT, rx=2)
            text = "wait"
        elif kind == "ahead":
            panel.rect(x, y - 8, 22, 7, HATCHED)
            text = "a road ahead, before the next wait, is closed"
        elif kind == "closed":
            panel.rect(x, y - 10, 22, 11, HATCHED)
            text = "closed"
        elif kind == "weekend":
            panel.rect(x, y - 10, 22, 11, WEEKEND, stroke="#DCD6C6")
            text = "Saturday, Sunday"
        else:
            panel.line(x + 11, y - 12, x + 11, y + 2, INK, 1.2, stroke_dasharray="4 3")
            text = f"latest arrival, {moment_text(asked.until)}"
        panel.text(x + 28, y, text, "small")
        x += 28 + drawing.text_width(text, 11) + 22


def bars_panel(trip: Trip, asked: Asked, width: float) -> Drawing:
    """Each route as a bar over the days, and below it the minutes at which a road ahead is
    closed."""
    few = len(trip.routes) <= 16
    bar, strip, row = (20, 7, 42) if few else (11, 4, 22)
    left, right, top = 262, width - 14, 62
    bottom = top + row * len(trip.routes) + 4
    panel = Drawing(width, bottom + 78, "Each option over the days: drives, waits and closed roads")
    panel.text(0, 14, "Day by day", "bold", 14)
    axis = axis_of(trip, asked, left, right)
    axis.draw_days(panel, top, bottom)
    axis.draw_ticks(panel, top, top, below=False)
    axis.draw_ticks(panel, bottom, top)
    title = axis.title("time", asked.depart, trip.last())
    panel.text((left + right) / 2, bottom + 47, title, "small soft middle")
    panel.text(0, top - 8, "option", "small soft")
    panel.text(46, top - 8, "arrival (UTC)", "small soft")
    panel.text(left - 14, top - 8, "cost", "small soft end")
    merged = sum(len(it.legs) for it in trip.routes) > MOST_SHAPES
    for k, route in enumerate(trip.routes):
        y = top + row * k + (8 if few else 4)
        panel.begin(data_route=route.number)
        panel.rect(0, y + 2, 9, bar - 4, route.colour, rx=2)
        base = y + bar / 2 + 4.5
        panel.text(14, base, route.number, "bold")
        panel.text(46, base, moment_text(route.arrival))
        panel.text(left - 14, base, cost_text(route.cost), "end")
        draw_bar(trip, panel, axis, route, y, bar, merged)
        if trip.has_bans:
            draw_ahead(trip, panel, axis, route, y + bar + (2 if few else 1), strip)
        panel.end()
    entries = ["drive", "wait"] + ["ahead"] * trip.has_bans
    days = drawing.days_between(axis.low, axis.high)
    entries += ["weekend"] * any(drawing.is_weekend(it) for it in days)
    if asked.until <= axis.high:
        x = axis.at(asked.until)
        panel.line(x, top - 4, x, bottom + 4, INK, 1.2, stroke_dasharray="4 3")
        entries.append("until")
    draw_legend(panel, 0 if len(entries) > 4 else left, bottom + 72, asked, entries)
    return panel


def draw_bar(
    trip: Trip,
    panel: Drawing,
    axis: TimeAxis,
    route: Route,
    y: float,
    bar: float,
    merged: bool,
) -> None:
    """Draws the legs of a route; neighbouring drives as one where there are too many legs."""
    parts = parts_of(route.legs)
    for leg, members in parts:
        if leg.kind == "drive" and not merged:  # so that no light shows between legs
            panel.rect(
                axis.at(leg.start), y, axis.at(members[-1].end) - axis.at(leg.start), bar, DRIVE
            )
    legs = parts if merged else [(it, [it]) for it in route.legs]
    for leg, members in legs:
        x, wide = axis.at(leg.start), axis.at(members[-1].end) - axis.at(leg.start)
        times = f"{moment_text(leg.start)} to {moment_text(members[-1].end)} UTC"
        if leg.kind == "wait":
            tip = f"Wait at {trip.name_of(leg.tail)}: {span_text(leg.minutes)}, {times}"
            panel.rect(x, y, wide, bar, WAIT, tip)
            for text in (f"wait {span_text(leg.minutes)}", span_text(leg.minutes)):
                if bar > 14 and drawing.text_width(text, 11) + 8 < wide:
                    panel.text(x + wide / 2, y + bar / 2 + 4, text, "small middle")
                    break
        else:
            minutes = sum(it.minutes for it in members)
            what = trip.road_name(leg.arc) if len(members) == 1 else f"{len(members)} roads"
            where = f"{leg.tail} to {members[-1].head}"
            tip = f"Drive {what}, {where}: {span_text(minutes)}, {times}"
            panel.rect(x, y, wide, bar, DRIVE, tip)
            if leg is not route.legs[0] and wide > 8:
                panel.line(x, y, x, y + bar, "#fff")
    if not route.legs:
        panel.line(axis.at(route.arrival), y, axis.at(route.arrival), y + bar, DRIVE, 3)


def parts_of(legs: Sequence[Leg]) -> list[tuple[Leg, list[Leg]]]:
    """Returns the legs with neighbouring drives together: the first of each part, and all of it."""
    parts: list[tuple[Leg, list[Leg]]] = []
    for leg in legs:
        if parts and leg.kind == "drive" == parts[-1][0].kind:
            parts[-1][1].append(leg)
        else:
            parts.append((leg, [leg]))
    return parts


def draw_ahead(
    trip: Trip, panel: Drawing, axis: TimeAxis, route: Route, y: float, strip: float
) -> None:
    for _, _, runs in trip.ahead(route):
        for low, high, arcs in runs:
            roads = ", ".join(trip.road_name(it) for it in sorted(arcs)[:4])
            roads += f" and {len(arcs) - 4} more" if len(arcs) > 4 else ""
            tip = f"Closed ahead: {roads}, {moment_text(low)} to {moment_text(high)} UTC"
            panel.rect(axis.at(low), y, axis.at(high) - axis.at(low), strip, HATCHED, tip)


def lanes_of(trip: Trip, route: Route) -> list[tuple[Runs, list[Leg]]]:
    """Returns the roads of a route by their closed minutes, in the order in which they are driven
    first: runs, and drives."""
    lanes: dict[Runs, list[Leg]] = {}
    for leg in route.drives():
        lanes.setdefault(tuple(trip.closed.get(leg.arc, ())), []).append(leg)
    return list(lanes.items())


def lanes_panel(trip: Trip, asked: Asked, route: Route, width: float) -> Drawing:
    """One route: a lane for the roads that are closed in the same minutes, with these minutes and
    the drives."""
    lanes = lanes_of(trip, route)
    shown = lanes if len(lanes) <= MOST_LANES else lanes[: MOST_LANES - 1]
    row, left, right, top = 24, 262, width - 14, 40
    bottom = top + row * (len(shown) + 1 + (len(shown) < len(lanes))) + 4
    panel = Drawing(
        width, bottom + 62, f"Option {route.number}: its roads and when they are closed"
    )
    axis = axis_of(trip, asked, left, right)
    axis.draw_days(panel, top, bottom)
    axis.draw_ticks(panel, top, top, below=False)
    axis.draw_ticks(panel, bottom, top)
    panel.text(0, top + row / 2 + 6, f"option {route.number}", "bold")
    merged = len(route.legs) > MOST_SHAPES / 4
    draw_bar(trip, panel, axis, route, top + 5, 15, merged)
    for k, (runs, legs) in enumerate(shown, 1):
        y = top + row * k
        panel.line(0, y, right, y, GRID)
        panel.text(0, y + row / 2 + 4, lane_name(trip, legs, left - 14))
        for low, high in runs:
            draw_closed(panel, axis, max(low, axis.low), min(high, axis.high), y + 4, row - 8)
        spans = [(it.start, it.end, trip.road_name(it.arc)) for it in legs]
        if merged:
            together = joined([(it.start, it.end, it.arc) for it in legs])
            spans = [(low, high, f"{len(arcs)} roads") for low, high, arcs in together]
        for low, high, name in spans:
            tip = f"Drive {name}, {moment_text(low)} to {moment_text(high)} UTC"
            wide = max(axis.at(high) - axis.at(low), 1)
            panel.rect(axis.at(low), y + row / 2 - 3, wide, 6, DRIVE, tip)
    if len(shown) < len(lanes):
        more = f"and {len(lanes) - len(shown)} more kinds of closed minutes"
        panel.text(0, bottom - row / 2 + 2, more, "soft small")
    draw_legend(panel, left, bottom + 56, asked, ["drive", "wait", "closed"])
    return panel


def draw_closed(
    panel: Drawing, axis: TimeAxis, low: float, high: float, y: float, height: float
) -> None:
    tip = f"Closed {moment_text(int(low))} to {moment_text(int(high))} UTC"
    panel.rect(axis.at(low), y, axis.at(high) - axis.at(low), height, HATCHED, tip)


def lane_name(trip: Trip, legs: Sequence[Leg], width: float) -> str:
    """Names the roads of a lane, as many as there is room for."""
    arcs = list(dict.fromkeys(it.arc for it in legs))
    if len(arcs) == 1:
        return shortened(trip.road_name(arcs[0]), 12, width)
    names = list(dict.fromkeys(trip.roads.get(it, "") for it in arcs))
    text = f"{len(arcs)} roads: " + (", ".join(filter(None, names)) if any(names) else ranges(arcs))
    return shortened(text, 12, width)


def ranges(numbers: Iterable[int]) -> str:
    """Returns numbers in the form `1-3, 7`."""
    parts: list[list[int]] = []
    for it in sorted(numbers):
        if parts and it == parts[-1][1] + 1:
            parts[-1][1] = it
        else:
            parts.append([it, it])
    return ", ".join(str(a) if a == b else f"{a}–{b}" for a, b in parts)
