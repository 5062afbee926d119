"""Draws the answer to a trip as the page of tools/look, and opens it where there is a screen."""
from __future__ import annotations

import os
import webbrowser

from lorry_tools.answers import DRIVE
from lorry_tools.drawn_plan import JsonPair, Trip
from lorry_tools.look import html_file
from lorry_tools.problems import Problem
from lorry_tools.program import Program
from lorry_tools.trips.answer import Answer, Option, trip_of
from lorry_tools.trips.request import BREAKS, PLAN

MOST_BANS = 400
SCREENS = ("DISPLAY", "WAYLAND_DISPLAY")


def check_picture(command: str) -> None:
    """Tells of what there is no page yet."""
    if command not in (PLAN, BREAKS):
        raise Problem("--picture draws a plan: expected is neither --latest nor --stop beside it")


def draw(answer: Answer, program: Program, path: str) -> None:
    """Writes the page, which is whole once it is there, and opens it."""
    pairs = [pair_of(it) for it in answer.options]
    drawn = Trip("the answer of tools/trip", pairs)
    drawn.take_folder(trip_of(answer.folder, answer.request).words(), pairs)
    if pairs:
        drawn.take_bans(program, MOST_BANS)
    with open(f"{path}.new", "w", encoding="utf-8") as file:
        file.write(html_file(drawn))
    os.replace(f"{path}.new", path)
    if any(os.environ.get(it) for it in SCREENS):
        webbrowser.open(f"file://{os.path.abspath(path)}")


def pair_of(option: Option) -> JsonPair:
    """Returns an option as `plan --form json` prints a pair."""
    legs = [
        {"kind": it.kind, "arc" if it.kind == DRIVE else "minutes": it.number}
        for it in option.steps
    ]
    return {"arrival": option.arrival, "cost": option.cost, "legs": legs}
