"""Answers a table of trips in people's words by one batch of the program.

The table is a CSV file with the columns from, to, lorry and leave, and if wanted by or within, with
the words that the options of tools/trip take."""
from __future__ import annotations

import csv
import dataclasses
import sys
from typing import IO, Optional, Union

from lorry_tools.answers import DRIVE, WAIT, Pair, RefusedTrip
from lorry_tools.clocks import shown_text
from lorry_tools.files import JOBS
from lorry_tools.folder import Folder
from lorry_tools.instants import cost_text, instant_text
from lorry_tools.places import Places
from lorry_tools.problems import Problem
from lorry_tools.program import CAUSES
from lorry_tools.rules import Streets
from lorry_tools.trips.answer import Answer, options_of
from lorry_tools.trips.request import Request, Words, read_request
from lorry_tools.trips.shown import NotedProgram

NEEDED = ("from", "to", "lorry", "leave")
ALLOWED = (*NEEDED, "by", "within")
MOST_JOBS = 10_000  # of one batch
HEADER = (
    "row",
    "from",
    "to",
    "lorry",
    "option",
    "departure",
    "arrival",
    "cost",
    "metres",
    "driving_minutes",
    "waiting_minutes",
    "trouble",
)
EMPTY = "no lawful trip: tools/trip with these words says why"


@dataclasses.dataclass
class Job:
    """A row of the table: what it asks for, or why it can't be read."""

    number: int
    fields: dict[str, str]
    request: Optional[Request] = None
    trouble: str = ""


@dataclasses.dataclass
class Counts:
    planned: int = 0
    empty: int = 0
    refused: int = 0

    def words(self) -> str:
        whole = self.planned + self.empty + self.refused
        return f"{whole} trips: {self.planned} planned, {self.empty} empty, {self.refused} refused"


def read_jobs(path: str, folder: Folder, places: Places) -> list[Job]:
    """Returns the rows of a table. A row that can't be read has its trouble."""
    try:
        with open(path, encoding="utf-8-sig", newline="") as file:
            records = [it for it in csv.reader(file) if it]
    except (OSError, UnicodeDecodeError, csv.Error) as error:
        raise Problem(f"--table {path}: the table can't be read: {error}") from None
    header = [it.strip().lower() for it in records[0]] if records else []
    if any(it not in header for it in NEEDED) or any(it not in ALLOWED for it in header):
        raise Problem(
            f"--table {path} has the columns {', '.join(header) or 'of an empty file'}: expected "
            f"are {', '.join(NEEDED)}, and if wanted by or within"
        )
    jobs = []
    for number, record in enumerate(records[1:], 2):
        job = Job(number, dict(zip(header, record)))
        try:
            if len(record) != len(header):
                raise Problem(f"the row has {len(record)} fields: expected are {len(header)}")
            job.request = read_request(folder, places, words_of(job.fields))
        except Problem as problem:
            job.trouble = str(problem).splitlines()[0]
        jobs.append(job)
    return jobs


def words_of(fields: dict[str, str]) -> Words:
    return Words(
        fields["from"],
        fields["to"],
        fields["lorry"] or None,
        fields["leave"] or None,
        fields.get("by") or None,
        fields.get("within") or None,
    )


def answer_table(
    path: str, folder: Folder, places: Places, program: NotedProgram, out: IO[str]
) -> Counts:
    """Writes the answers as CSV: a row for each option of each trip, or for its trouble."""
    writer, counts = csv.writer(out, lineterminator="\n"), Counts()
    jobs, streets = read_jobs(path, folder, places), Streets(folder)
    writer.writerow(HEADER)
    found = iter(planned(jobs, program))
    for job in jobs:
        result: Union[list[Pair], RefusedTrip] = []
        if job.request:
            result = next(found)
        if isinstance(result, RefusedTrip):
            cause = result.cause
            job.trouble = f"refused request {cause}: {CAUSES.get(cause, '')}"
        if job.trouble or not job.request or isinstance(result, RefusedTrip):
            counts.refused += 1
            writer.writerow([*head_of(job), *[""] * 7, job.trouble])
        elif not result:
            counts.empty += 1
            writer.writerow([*head_of(job), *[""] * 7, EMPTY])
        else:
            counts.planned += 1
            answer = Answer(job.request, folder, places, streets)
            writer.writerows(rows_of(job, answer, result))
    return counts


def head_of(job: Job) -> list[object]:
    return [job.number, *(job.fields.get(it, "") for it in ("from", "to", "lorry"))]


def planned(jobs: list[Job], program: NotedProgram) -> list[Union[list[Pair], RefusedTrip]]:
    """Returns the pairs of the jobs that could be read."""
    requests = [job.request for job in jobs if job.request]
    found: list[Union[list[Pair], RefusedTrip]] = []
    for first in range(0, len(requests), MOST_JOBS):
        last = first + MOST_JOBS
        rows = [row_of(it) for it in requests[first:last]]
        name = program.write("jobs.csv", "\n".join([*JOBS.headers, *rows, ""]))
        found += program.batch(program.work(), name)
    return found


def row_of(request: Request) -> str:
    times = f"{instant_text(request.depart)},{instant_text(request.until)}"
    return f"{request.vehicle},{request.origin.node},{request.goal.node},{times}"


def rows_of(job: Job, answer: Answer, pairs: list[Pair]) -> list[list[object]]:
    request, places = answer.request, answer.places
    rows = []
    for option in options_of(answer, pairs):
        rows.append(
            [
                *head_of(job),
                option.number,
                shown_text(places.clock(request.origin.node), option.depart),
                shown_text(places.clock(request.goal.node), option.arrival),
                cost_text(option.cost),
                "" if option.metres is None else option.metres,
                option.minutes_of(DRIVE),
                option.minutes_of(WAIT),
                "",
            ]
        )
    return rows


def main_of_table(path: str, folder: Folder, places: Places, program: NotedProgram) -> int:
    counts = answer_table(path, folder, places, program, sys.stdout)
    sys.stdout.flush()
    print(f"trip: {counts.words()}", file=sys.stderr)
    return 1 if counts.refused else 0
