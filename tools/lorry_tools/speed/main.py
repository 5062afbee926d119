"""Measures how long the program takes over folders at their limits and over long trips, and how
much memory.

    tools/speed [--runs N] [--only trips|reports|batches|others|explained|limits] [PROGRAM]

PROGRAM is a built program, crates/lorry_plan/out/lorry_plan if it isn't named. Each instance is
written to a temporary folder and run N times, five if N isn't given. A row of a table is printed
for each: the medians of the seconds and of the processor seconds, and the peak of memory in MB.
docs/SPEED.md says what is run and what the numbers mean."""
from __future__ import annotations

import argparse
import os

from lorry_tools.running import TOP
from lorry_tools.speed.instances import KINDS
from lorry_tools.speed.meter import Meter

PROGRAM = os.path.join(TOP, "crates", "lorry_plan", "out", "lorry_plan")


def arguments() -> argparse.Namespace:
    parser = argparse.ArgumentParser(
        description=__doc__, formatter_class=argparse.RawDescriptionHelpFormatter
    )
    parser.add_argument("--runs", type=int, default=5, help="the runs of each instance (5)")
    parser.add_argument("--only", choices=list(KINDS), help="the instances of this kind alone")
    parser.add_argument("program", nargs="?", default=PROGRAM, help="a built program")
    words = parser.parse_args()
    if words.runs < 1:
        parser.error("there has to be a run")
    if not os.access(words.program, os.X_OK):
        parser.error(f"there is no program {words.program}: ./lorry_plan builds it")
    return words


def main() -> int:
    words = arguments()
    meter = Meter(os.path.abspath(words.program), words.runs)
    meter.print_head()
    for kind, measure in KINDS.items():
        if words.only in (None, kind):
            measure(meter)
    return 0
