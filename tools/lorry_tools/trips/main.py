"""Plans a trip in people's words: places by their names, local times, lorries by their names.

    tools/trip DIR FROM TO --lorry NAME --leave TIME [--by TIME | --within DAYS]

FROM and TO are names of nodes.csv, in any case, coordinates such as 47.2405,9.5275 (the nearest
node), or numbers of nodes. TIME is local to its place, such as "2026-07-10 21:45"; with --zone it
is that of a zone, and with an offset or a Z, as in "2026-07-10 21:45+02:00", it isn't local.

The answer has the options side by side, and then each by its streets, with every wait and what it
waits for. --show adds the commands of the program that were run, so that each answer can be had
from the proved program alone; this tool itself is not proved. docs/TRIP.md has examples.

The status is 0 where the program answered, also with no option; 2 for words that can't be read;
and otherwise that of the program where it refuses. It needs no packages, but --picture needs
jinja2."""
from __future__ import annotations

import argparse
import json
import sys

from lorry_tools.folder import Folder
from lorry_tools.places import Places
from lorry_tools.problems import Problem
from lorry_tools.program import Program
from lorry_tools.running import write_as_utf8
from lorry_tools.trips import forms, geometry, picture
from lorry_tools.trips.answer import Answer
from lorry_tools.trips.ask import answer_to
from lorry_tools.trips.many import main_of_table
from lorry_tools.trips.request import Words, read_request
from lorry_tools.trips.shown import NotedProgram
from lorry_tools.trips.text import Text


def read_words() -> argparse.Namespace:
    parser = argparse.ArgumentParser(
        description=__doc__, formatter_class=argparse.RawDescriptionHelpFormatter
    )
    parser.add_argument("dir", metavar="DIR", help="the folder")
    parser.add_argument("origin", metavar="FROM", nargs="?", help="where the trip begins")
    parser.add_argument("goal", metavar="TO", nargs="?", help="where it goes")
    add = parser.add_argument
    add("--lorry", metavar="NAME", help="a lorry of vehicles.csv, or any; without it the list")
    add("--leave", metavar="TIME", help="the departure; for --latest the earliest one")
    add("--by", metavar="TIME", help="the last arrival")
    add("--within", metavar="DAYS", help="the days that the trip may take (3)")
    add("--latest", action="store_true", help="how late the trip may leave to arrive --by")
    add(
        "--stop",
        metavar="'PLACE, MINUTES, WINDOW'",
        action="append",
        default=[],
        help="a stop, such as 'Vaduz, 20 min, 08:00-12:00', with or without a window; several are "
        "served in their order",
    )
    add(
        "--breaks",
        action="store_true",
        help="breaks of 45 minutes after 4.5 hours of driving, also of a trip with stops",
    )
    add("--drive", metavar="MINUTES", help="the most driving since the last break (270)")
    add("--rest", metavar="MINUTES", help="the least of a break (45)")
    add(
        "--why",
        metavar="'STREET, STREET, ..'",
        help="why not this way, over these streets; or a file with legs or streets",
    )
    add("--certificate", metavar="NAME", help="write a certificate NAME into DIR, and judge it")
    add("--zone", metavar="ZONE", help="the zone of all times, such as Europe/Vaduz or UTC")
    form = parser.add_mutually_exclusive_group()
    form.add_argument("--json", action="store_true", help="the answer by trip.schema.json")
    form.add_argument("--csv", action="store_true", help="a row for each part of each option")
    form.add_argument(
        "--gpx", action="store_true", help="the options as tracks with the time at each point"
    )
    form.add_argument(
        "--geojson", action="store_true", help="a line or a point for each leg of each option"
    )
    add("--option", metavar="N", type=int, help="this option alone, with --gpx and --geojson")
    add("--show", action="store_true", help="add the commands of the program that were run")
    add("--picture", action="store_true", help="draw the options as a page, and open it")
    add("--out", metavar="FILE", default="trip.html", help="where the page is (trip.html)")
    add(
        "--table",
        metavar="FILE",
        help="a CSV file of trips, with the columns from, to, lorry, leave, and if wanted by or "
        "within; the answer is CSV",
    )
    add("--program", metavar="PATH", help="the program")
    words = parser.parse_args()
    if words.table and (words.origin or words.lorry or words.leave):
        parser.error("--table has the words of its trips")
    if not words.table and words.goal is None:
        parser.error("expected are DIR, FROM and TO, or DIR --table FILE")
    return words


def main() -> int:
    words = read_words()
    write_as_utf8()
    folder = Folder(words.dir)
    places = Places(folder, words.zone)
    if words.table:
        with NotedProgram(folder, words.program) as program:
            return main_of_table(words.table, folder, places, program)
    asked = Words(
        words.origin,
        words.goal,
        words.lorry,
        words.leave,
        words.by,
        words.within,
        words.latest,
        words.breaks,
        words.drive,
        words.rest,
        words.stop,
    )
    request = read_request(folder, places, asked)
    if words.picture:
        picture.check_picture(request.command)
    with NotedProgram(folder, words.program) as program:
        answer = answer_to(folder, places, request, program, words.certificate, words.why)
        if words.picture and not answer.why:
            picture.draw(answer, Program(words.program), words.out)
            answer.picture = words.out
    print_answer(answer, words)
    return 0


def print_answer(answer: Answer, words: argparse.Namespace) -> None:
    if words.option is not None:
        if not 1 <= words.option <= len(answer.options):
            raise Problem(f"--option {words.option}: the answer has {len(answer.options)} options")
        answer.options = [it for it in answer.options if it.number == words.option]
    if words.json:
        print(forms.json_text(answer))
    elif words.gpx:
        sys.stdout.write(geometry.gpx_text(answer))
    elif words.geojson:
        print(json.dumps(geometry.timed_geojson(answer), ensure_ascii=False))
    elif words.csv:
        if answer.why:
            raise Problem("--csv has options, and --why has none: expected is --json")
        sys.stdout.write(forms.csv_text(answer))
        for line in [*answer.causes, *answer.warnings]:
            print(f"trip: {line}", file=sys.stderr)
    else:
        for line in Text(answer).lines():
            print(line)
        if words.show:
            print("\nThe commands of the program:")
            for line in answer.commands:
                print(f"  {line}")
