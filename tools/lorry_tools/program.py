"""Runs of the program: each command is a function from a typed request to a typed answer."""
from __future__ import annotations

import concurrent.futures
import dataclasses
import os
import shutil
import subprocess
from typing import Callable, Iterable, Optional, Sequence, Union

from lorry_tools import answers
from lorry_tools.answers import Lawful, Pair, RefusedTrip, Unexpected, Unlawful
from lorry_tools.instants import instant_text
from lorry_tools.problems import Problem, Unreadable
from lorry_tools.running import TOP

# How many runs of the program are at work at once.
WORKERS = 4

# docs/COMMANDS.md: what a status says that comes without a line.
SILENT = {
    4: "a file could not be read",
    5: "writing failed: the disk may be full, or the folder may not be written into",
    6: "out of memory",
    70: "the program could not be built; the lines above say why",
}

# docs/FORMATS.md: what the causes of refused requests say.
CAUSES = {
    "UnknownVehicle": "vehicles.csv has no vehicle of this name",
    "UnknownArc": "graph.gr has no arc of this number",
    "OriginRange": "graph.gr has no node of the number that the trip begins at",
    "GoalRange": "graph.gr has no node of the number that the trip goes to",
    "UntilBeforeDepart": "the last arrival is before the departure",
    "HorizonTooLong": "there are more than 60 days from the departure to the last arrival",
    "TooManyStates": "a tour or a trip with breaks is too large for this network",
}


class Refused(Problem):
    """The program refused a request: with a line, which may be empty, and a status."""

    def __init__(self, command: str, line: str, status: int):
        super().__init__(meaning_of(command, line, status), status)
        self.line = line


def meaning_of(command: str, line: str, status: int) -> str:
    """Says what a refusal means."""
    words = line.split()
    if not line:
        ended = f"ended by signal {-status}" if status < 0 else f"ended with status {status}"
        return f"the program {ended}: {SILENT.get(status, 'it said nothing')}"
    if words[:2] == ["refused", "request"] and words[2:3]:
        return f"{line}: {CAUSES.get(words[2], 'docs/FORMATS.md has the causes')}"
    if words[:2] == ["refused", "input"] and len(words) == 5:
        row = f"row {words[3]} of {words[2]}" if words[3] != "0" else f"{words[2]} as a whole"
        return f"{line}: the fault is in {row}; docs/FORMATS.md has the causes"
    if line == "refused usage":
        return (
            f"{line}: the program doesn't know these words of `{command}`, so it may be older than "
            "these tools"
        )
    return line


@dataclasses.dataclass(frozen=True)
class Trip:
    """The words of a trip, as most commands take them."""

    folder: str
    vehicle: str
    origin: int
    goal: int
    depart: int
    until: int

    def words(self) -> list[str]:
        times = [instant_text(self.depart), instant_text(self.until)]
        return [self.folder, self.vehicle, str(self.origin), str(self.goal), *times]


@dataclasses.dataclass(frozen=True)
class BreakRule:
    """At most DRIVE minutes of driving since the last break; a break has at least REST minutes."""

    drive: int
    rest: int

    def words(self) -> list[str]:
        return ["--drive", str(self.drive), "--rest", str(self.rest)]


class Program:
    """The program, which is run anew for each question."""

    def __init__(self, path: Optional[str] = None):
        self.path = path or default_program()

    def run(self, words: Iterable[object]) -> tuple[int, str]:
        """Runs the program on these words, and returns its status and what it printed."""
        return self.execute([self.path, *(str(it) for it in words)])

    def execute(self, words: list[str]) -> tuple[int, str]:
        try:
            done = subprocess.run(words, stdout=subprocess.PIPE, stdin=subprocess.DEVNULL)
        except OSError as error:
            raise Unreadable(f"the program can't be run: {self.path}: {error.strerror}") from error
        return done.returncode, done.stdout.decode("utf-8", "replace")

    def answer(self, words: Sequence[str]) -> str:
        """Returns what the program printed, where it answers."""
        status, printed = self.run(words)
        if status:
            raise Refused(words[0], printed.strip(), status)
        return printed

    # The commands.

    def plan(self, trip: Trip, certificate: Optional[str] = None) -> list[Pair]:
        words = ["plan", *trip.words(), "--form", "json"]
        if certificate is not None:
            words += ["--certificate", certificate]
        return answers.read_json(self.answer(words))

    def latest(self, trip: Trip) -> list[Pair]:
        return answers.read_plain(self.answer(["latest", *trip.words()]).splitlines())

    def tour(self, trip: Trip, stops: str, rule: Optional[BreakRule] = None) -> list[Pair]:
        words = ["tour", *trip.words(), stops, *(rule.words() if rule else [])]
        return answers.read_plain(self.answer(words).splitlines())

    def breaks(self, trip: Trip, rule: BreakRule) -> list[Pair]:
        words = ["breaks", *trip.words(), *rule.words()]
        return answers.read_plain(self.answer(words).splitlines())

    def explain(self, trip: Trip, itinerary: str) -> Union[Lawful, Unlawful]:
        return answers.read_explanation(self.answer(["explain", *trip.words(), itinerary]))

    def check(self, trip: Trip, certificate: str) -> tuple[bool, int]:
        """Returns whether a certificate was accepted, and the number of its pairs or of the first
        condition that fails."""
        words = ["check", *trip.words(), certificate]
        status, printed = self.run(words)
        judged = printed.split()
        if status in (0, 1) and len(judged) == 2 and judged[0] in ("accepted", "rejected"):
            return status == 0, int(judged[1])
        if status:
            raise Refused("check", printed.strip(), status)
        raise Unexpected(printed)

    def batch(
        self, folder: str, jobs: str, workers: int = WORKERS
    ) -> list[Union[list[Pair], RefusedTrip]]:
        words = ["batch", folder, jobs, "--workers", str(workers)]
        return list(answers.read_batch(self.answer(words)))

    def bans(
        self, folder: str, vehicle: str, arc: int, depart: int, until: int
    ) -> list[tuple[int, int]]:
        """Returns the runs of closed minutes of an arc, each with its first minute and the first
        one after it."""
        words = ["bans", folder, vehicle, str(arc), instant_text(depart), instant_text(until)]
        status, printed = self.run(words)
        if status:
            raise Unreadable(f"bans of arc {arc}: {printed.strip() or f'status {status}'}")
        return answers.read_bans(printed)

    def bans_of(
        self,
        folder: str,
        vehicle: str,
        arcs: Iterable[int],
        depart: int,
        until: int,
        say: Optional[Callable[[int, int], None]] = None,
    ) -> dict[int, list[tuple[int, int]]]:
        """Returns the closed minutes of several arcs, by their numbers. Not all are asked at once;
        `say` is told how far it is."""
        asked, found = list(arcs), {}
        with concurrent.futures.ThreadPoolExecutor(WORKERS) as pool:
            runs = {
                pool.submit(self.bans, folder, vehicle, arc, depart, until): arc for arc in asked
            }
            try:
                for run in concurrent.futures.as_completed(runs):
                    found[runs[run]] = run.result()
                    if say:
                        say(len(found), len(asked))
            except Problem:
                for run in runs:
                    run.cancel()
                raise
        return found


def default_program() -> str:
    """Returns the launcher at the top of the repository, or an installed program where there is
    none."""
    launcher = os.path.join(TOP, "lorry_plan")
    if os.path.isfile(launcher):
        return launcher
    installed = shutil.which("lorry_plan")
    if not installed:
        raise Unreadable(
            "there is no program lorry_plan: install the package lorry-plan, or name a program by "
            "--program"
        )
    return installed
