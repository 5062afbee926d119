"""Writes the options of a plan as lines over the map, with the time at each point: GPX for
navigators, GeoJSON for maps.

    ./lorry_plan plan DIR VEHICLE FROM TO DEPART UNTIL --form json > PLAN.json
    tools/route PLAN.json --trip DIR VEHICLE FROM TO DEPART UNTIL [--option N] > ROUTE.gpx

PLAN.json is what `plan` printed with `--form json`; `-` is the standard input. --trip has the words
of that plan. Without --option all options are written. The shapes of roads come from shapes.csv of
DIR, as tools/from_osm writes it; a road without one is straight between the coordinates of
nodes.csv. Times are in UTC; a road is driven at one speed. It is not proved, and needs no
packages."""
from __future__ import annotations

import argparse
import json
import os
import sys
from typing import Optional

from lorry_tools import tracks
from lorry_tools.answers import DRIVE
from lorry_tools.drawn_plan import Route, Trip, read_plan
from lorry_tools.folder import Folder
from lorry_tools.instants import cost_text
from lorry_tools.problems import Problem
from lorry_tools.rules import Streets
from lorry_tools.running import write_as_utf8
from lorry_tools.tracks import Lines, Track


def read_words() -> argparse.Namespace:
    parser = argparse.ArgumentParser(
        description=__doc__, formatter_class=argparse.RawDescriptionHelpFormatter
    )
    add = parser.add_argument
    add("plan", metavar="PLAN.json", help="the plan; - is the standard input")
    add(
        "--trip",
        nargs=6,
        required=True,
        metavar=("DIR", "VEHICLE", "FROM", "TO", "DEPART", "UNTIL"),
        help="the words of the plan",
    )
    add("--option", type=int, metavar="N", help="this option alone; the first one is 1")
    form = parser.add_mutually_exclusive_group()
    form.add_argument("--gpx", action="store_true", help="GPX 1.1, which is the usual form")
    form.add_argument("--geojson", action="store_true", help="GeoJSON, a feature for each leg")
    add("--out", metavar="FILE", default="-", help="the file to write; - is the standard output")
    return parser.parse_args()


def lines_of(trip: Trip, folder: Folder) -> Lines:
    return Lines(folder.shapes(), trip.places.get)


def track_of(trip: Trip, streets: Streets, route: Route) -> Track:
    def words(step: tracks.Step) -> str:
        if step.kind == DRIVE:
            return streets.name(step.arc)
        return f"wait at {trip.name_of(step.tail)}"

    steps = [tracks.Step(it.kind, it.arc, it.start, it.end, it.tail, it.head) for it in route.legs]
    title = f"option {route.number}, cost {cost_text(route.cost)}"
    metres = streets.length([it.arc for it in route.drives()])
    if metres is not None:
        title += f", {metres / 1000:.1f} km"
    return Track(route.number, title, steps, words, streets.metres.get)


def written(trip: Trip, as_geojson: bool, option: Optional[int] = None) -> str:
    """Returns the text of a plan's options, or of one of them."""
    if trip.asked is None:
        raise Problem("expected is --trip with the words of the plan")
    if option is not None and not 1 <= option <= len(trip.routes):
        raise Problem(f"there is no option {option}: the plan has {len(trip.routes)}")
    folder = trip.asked.folder
    if not trip.places:
        raise Problem(f"{folder.path} has no nodes.csv with coordinates")
    streets, lines = Streets(folder), lines_of(trip, folder)
    chosen = [it for it in trip.routes if option in (None, it.number)]
    found = [track_of(trip, streets, it) for it in chosen]
    if as_geojson:
        return json.dumps(tracks.geojson(found, lines), ensure_ascii=False) + "\n"
    return tracks.gpx_text(found, lines)


def main() -> int:
    options = read_words()
    name = "the standard input" if options.plan == "-" else options.plan
    if options.plan == "-":
        text = sys.stdin.read()
    else:
        with open(options.plan, encoding="utf-8", errors="replace") as file:
            text = file.read()
    pairs = read_plan(text, name)
    trip = Trip(os.path.basename(name), pairs)
    trip.take_folder(options.trip, pairs)
    text = written(trip, options.geojson, options.option)
    if options.out == "-":
        write_as_utf8()
        sys.stdout.write(text)
    else:
        with open(options.out, "w", encoding="utf-8") as file:
            file.write(text)
    return 0
