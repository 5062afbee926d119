"""Draws a plan as one page: its options, the days of each with drives, waits and closed roads, and
a map.

    ./lorry_plan plan DIR VEHICLE FROM TO DEPART UNTIL --form json > PLAN.json
    tools/look PLAN.json --trip DIR VEHICLE FROM TO DEPART UNTIL

PLAN.json is what `plan` printed with `--form json`; `-` is the standard input. --trip has the words
of that plan. Without them only the options are drawn, since a plan has neither the minutes of its
roads nor their names.

The page is PLAN.html, with nothing in it that comes from elsewhere; with --svg it is PLAN.svg.
Closed minutes are those that `bans` prints. Names and coordinates come from nodes.csv
(node,lon,lat,name) and ways.csv (arc,name) of DIR, where they are there. docs/TOOLS.md says how to
read it. It needs jinja2 (python3-jinja2 on Debian), and it is not proved."""
from __future__ import annotations

import argparse
import dataclasses
import os
import sys
from typing import Optional

from lorry_tools.drawing import Drawing, moment_text, shortened
from lorry_tools.drawn_plan import Asked, Leg, Route, Trip, read_plan
from lorry_tools.instants import cost_text, span_text
from lorry_tools.panels import bars_panel, front_panel, lanes_panel, map_panel
from lorry_tools.problems import Unreadable
from lorry_tools.program import Program
from lorry_tools.route import written
from lorry_tools.running import write_as_utf8
from lorry_tools.templates import rendered

WIDTH = 1120

# Beyond these many a picture leaves out what nobody could see, and says so.
MOST_ROUTES_WITH_LANES = 8  # in an SVG; a page folds them
MOST_ROWS = 250  # of a route's table
MOST_OPEN_ROWS = 40  # of a table that isn't folded


@dataclasses.dataclass
class TableRow:
    """A row of the table of a route's legs."""

    start: str
    what: str
    where: str = ""
    takes: str = ""
    is_wait: bool = False


@dataclasses.dataclass
class PageOption:
    """The part of the page that tells one route: its lanes and its legs."""

    number: int
    colour: str
    line: str
    lanes: Optional[Drawing]
    rows: list[TableRow]
    legs: int
    left_out: int
    is_long: bool


@dataclasses.dataclass
class Page:
    """What the template of the page writes."""

    title: str
    facts: list[str]
    closing: list[str]
    front: Optional[Drawing] = None
    map: Optional[Drawing] = None
    bars: Optional[Drawing] = None
    options: list[PageOption] = dataclasses.field(default_factory=list)


def headline(trip: Trip) -> str:
    count = len(trip.routes)
    what = f"{count} option{'s' if count != 1 else ''}" if count else "No lawful trip"
    if trip.asked is None:
        return what
    return f"{what} from {trip.name_of(trip.asked.origin)} to {trip.name_of(trip.asked.goal)}"


def facts(trip: Trip) -> list[str]:
    """Says the plan in a few sentences."""
    said = []
    if trip.asked is not None:
        vehicle = trip.asked.vehicle
        who = "Any lorry" if vehicle == "any" else f"The vehicle {vehicle}"
        depart, until = moment_text(trip.asked.depart, True), moment_text(trip.asked.until, True)
        said.append(f"{who} leaves on {depart} UTC and has until {until} UTC.")
    if not trip.routes:
        said.append("There is no lawful trip in this time. tools/why_empty looks for the cause.")
        return said
    first, last = trip.routes[0], trip.routes[-1]
    said.append(
        f"Option 1 arrives on {moment_text(first.arrival, True)} UTC for {cost_text(first.cost)}."
    )
    if first is not last:
        later, saved = span_text(last.arrival - first.arrival), cost_text(first.cost - last.cost)
        said.append(
            f"Option {last.number} is the cheapest: {saved} less, and {later} later. Each later"
            " option is cheaper than those before it."
        )
    return said


def panels_of(trip: Trip) -> tuple[Drawing, Optional[Drawing], Optional[Drawing]]:
    """Returns the panels of the options: the front, the map or nothing, and the bars or nothing."""
    asked = trip.asked
    chart = map_panel(trip, asked, WIDTH / 2 - 15, 380) if asked else None
    front = front_panel(trip, WIDTH / 2 - 15 if chart else WIDTH, 380)
    return front, chart, bars_panel(trip, asked, WIDTH) if asked else None


def svg_file(trip: Trip) -> str:
    """Returns the whole picture as one SVG."""
    pieces: list[tuple[Drawing, float, float]] = []
    y: float = 0
    heading = Drawing(WIDTH, 40 + 18 * len(facts(trip)), "")
    heading.text(0, 22, headline(trip), "bold", 20)
    for k, said in enumerate(facts(trip)):
        heading.text(0, 46 + 18 * k, said)
    pieces.append((heading, 0, y))
    y += heading.height + 24
    if trip.routes:
        front, chart, bars = panels_of(trip)
        pieces.append((front, 0, y))
        if chart:
            pieces.append((chart, WIDTH / 2 + 15, y))
        y += front.height + 24
        if bars:
            pieces.append((bars, 0, y))
            y += bars.height + 24
        few = len(trip.routes) <= MOST_ROUTES_WITH_LANES
        if bars and trip.asked and trip.has_bans and few:
            for route in trip.routes:
                panel = lanes_panel(trip, trip.asked, route, WIDTH)
                pieces.append((panel, 0, y))
                y += panel.height + 12
    closing = closing_lines(trip)
    whole = Drawing(WIDTH + 48, y + 18 * len(closing) + 40, headline(trip))
    for piece, x, height in pieces:
        whole.put(piece, x + 24, height + 24)
    for k, said in enumerate(closing):
        whole.text(24, y + 34 + 18 * k, said, "small soft")
    return whole.svg(alone=True)


def closing_lines(trip: Trip) -> list[str]:
    lines = list(trip.notes)
    if trip.asked is not None and trip.routes and not trip.has_bans:
        lines.append("Closed minutes are not drawn.")
    lines.append(
        f"Drawn from {trip.name} by tools/look, which is not proved. All times are in UTC."
    )
    return lines + ([trip.credit] if trip.credit else [])


def html_file(trip: Trip) -> str:
    """Returns the whole page."""
    page = Page(headline(trip), facts(trip), closing_lines(trip))
    if trip.routes:
        page.front, page.map, page.bars = panels_of(trip)
        if trip.asked:
            page.options = [option_of(trip, trip.asked, it) for it in trip.routes]
    return rendered("page.html", page=page)


def option_of(trip: Trip, asked: Asked, route: Route) -> PageOption:
    driven, waited = (sum(it.minutes for it in legs) for legs in (route.drives(), route.waits()))
    waits = f"{span_text(waited)} of waiting" if waited else "no waiting"
    length = trip.kilometres(route.drives())
    line = (
        f"arrives {moment_text(route.arrival)} UTC, costs {cost_text(route.cost)}: "
        f"{span_text(driven)} of driving{f' over {length}' if length else ''}, {waits}"
    )
    rows = joined_legs(trip, route)
    shown = [row_of(trip, name, legs) for name, legs in rows[:MOST_ROWS]]
    goal = f"arrive at {trip.name_of(asked.goal)}"
    return PageOption(
        route.number,
        route.colour,
        line,
        lanes_panel(trip, asked, route, WIDTH) if trip.has_bans and route.legs else None,
        [*shown, TableRow(moment_text(route.arrival), goal)],
        len(route.legs),
        max(0, len(rows) - MOST_ROWS),
        len(rows) > MOST_OPEN_ROWS,
    )


def joined_legs(trip: Trip, route: Route) -> list[tuple[Optional[str], list[Leg]]]:
    """Returns the legs, neighbouring drives over roads of one name together."""
    rows: list[tuple[Optional[str], list[Leg]]] = []
    for leg in route.legs:
        name = trip.roads.get(leg.arc) if leg.kind == "drive" else None
        if rows and name and rows[-1][0] == name:
            rows[-1][1].append(leg)
        else:
            rows.append((name, [leg]))
    return rows


def row_of(trip: Trip, name: Optional[str], legs: list[Leg]) -> TableRow:
    first, last = legs[0], legs[-1]
    start, takes = moment_text(first.start), span_text(sum(it.minutes for it in legs))
    if first.kind == "wait":
        return TableRow(start, f"wait at {trip.name_of(first.tail)}", "", takes, True)
    arcs = "arc " if len(legs) == 1 else "arcs "
    arcs += shortened(", ".join(str(it.arc) for it in legs), 12, 260)
    where = f"{trip.name_of(first.tail, '')} → {trip.name_of(last.head, '')}"
    length = trip.kilometres(legs)
    what = f"drive {name}, {arcs}" if name else f"drive {arcs}"
    return TableRow(start, f"{what}, {length}" if length else what, where, takes)


def output_name(options: argparse.Namespace) -> str:
    if options.out:
        return str(options.out)
    if options.plan == "-":
        raise Unreadable(
            "--out says where a plan from the standard input is drawn; --out - is the standard "
            "output"
        )
    forms = {".svg": options.svg, ".gpx": options.gpx, ".geojson": options.geojson}
    ending = next((it for it, is_chosen in forms.items() if is_chosen), ".html")
    return os.path.splitext(str(options.plan))[0] + ending


def read_words() -> argparse.Namespace:
    parser = argparse.ArgumentParser(
        description=__doc__, formatter_class=argparse.RawDescriptionHelpFormatter
    )
    parser.add_argument("plan", metavar="PLAN.json", help="the plan; - is the standard input")
    parser.add_argument(
        "--trip",
        nargs=6,
        metavar=("DIR", "VEHICLE", "FROM", "TO", "DEPART", "UNTIL"),
        help="the words of the plan",
    )
    form = parser.add_mutually_exclusive_group()
    form.add_argument("--svg", action="store_true", help="draw an SVG file in place of a page")
    form.add_argument("--gpx", action="store_true", help="write what tools/route writes, as GPX")
    form.add_argument("--geojson", action="store_true", help="the same as GeoJSON")
    parser.add_argument("--out", metavar="FILE", help="the file to write; - is the standard output")
    parser.add_argument(
        "--no-bans", action="store_true", help="draw no closed minutes, and run nothing"
    )
    parser.add_argument(
        "--most-bans",
        metavar="N",
        type=int,
        default=400,
        help="the most runs of bans (default 400)",
    )
    parser.add_argument(
        "--program",
        metavar="PATH",
        help="the program; otherwise ./lorry_plan at the top of the repository",
    )
    return parser.parse_args()


def main() -> int:
    options = read_words()
    name = "the standard input" if options.plan == "-" else options.plan
    out = output_name(options)
    if options.plan == "-":
        text = sys.stdin.read()
    else:
        with open(options.plan, encoding="utf-8", errors="replace") as file:
            text = file.read()
    pairs = read_plan(text, name)
    trip = Trip(os.path.basename(name), pairs)
    if options.trip:
        trip.take_folder(options.trip, pairs)
        if trip.routes and not (options.no_bans or options.gpx or options.geojson):
            trip.take_bans(Program(options.program), options.most_bans)
    if options.gpx or options.geojson:
        write_page(written(trip, options.geojson), out)
    else:
        write_page(svg_file(trip) if options.svg else html_file(trip), out)
    return 0


def write_page(page: str, out: str) -> None:
    if out == "-":
        write_as_utf8()
        sys.stdout.write(page)
    else:
        with open(out, "w", encoding="utf-8") as file:
            file.write(page)
        print(out)
