"""Plans a table of jobs on many machines: `lorry_plan batch DIR JOBS`, cut by rows into parts.

    tools/batch_over_machines DIR JOBS [--machines FILE] [--sshlogin LOGIN].. [--send]
    tools/batch_over_machines DIR JOBS --slurm [--slurm-option=OPTION]..

The parts are run by GNU parallel, on this machine or over ssh, or as an array of Slurm. It prints
what one batch over the whole table prints, and ends with its status: a table that is refused is
refused with the row in the whole table, before any trip is planned; with --skip-bad the other rows
are planned. A part that fails is run again. A run that was interrupted goes on where the same words
are given again. The last line on standard error counts the trips. Not proved: docs/TOOLS.md says
what rests on a proof.

Statuses beside those of the program: 69 a program is missing; 75 parts are left: the same words go
on; 2 the words make no sense; 1 rows were skipped."""
from __future__ import annotations

import argparse
import collections
import os
import re
import secrets
import shutil
import signal
import subprocess
from typing import Callable, Optional, Type, Union

from lorry_tools.batches.judging import MOST_JOBS, Fault, bad_row_text, first_fault
from lorry_tools.batches.runners import Machines, Parallel, Progress, Slurm
from lorry_tools.batches.table import records_of
from lorry_tools.batches.work import (
    MOST_WORKERS,
    Work,
    last_line,
    output,
    read_file,
    renumbered,
    say,
)
from lorry_tools.problems import LEFT, NO_PROGRAM, Problem
from lorry_tools.running import ENDING, TOP

# docs/LIMITS.md: the bytes of a file.
LONGEST_FILE = 268_435_456

NAME = re.compile(r"[A-Za-z0-9_.][A-Za-z0-9_.-]{0,63}\Z")
SKIPPED = 1
Runner = Union[Parallel, Slurm]


def run_parts(work: Work, machines: Runner) -> None:
    """Runs the parts that aren't done until all are, or until each was tried as often as was
    asked."""
    undone = work.undone()
    if len(undone) < len(work.cut):
        done = len(work.cut) - len(undone)
        say(f"goes on: {done} of {len(work.cut)} parts were done before")
    token = ""
    for again in range(machines.rounds):
        if not undone:
            return
        if again:
            say(f"{len(undone)} parts failed, and are run again")
        token = secrets.token_hex(8)
        machines.run(undone, token, Progress(work, undone, token))
        undone = work.undone()
    for number in undone[:10]:
        complaint = last_line(work.attempt(number, token) + ".err") or "failed"
        say(f"{work.rows_named(number)}: {complaint}")
    if undone:
        raise Problem(
            f"{len(undone)} of {len(work.cut)} parts are left; the same words try them again "
            f"({work.folder} has the others)",
            LEFT,
        )


class Counts:
    """Counts the trips of a text."""

    def __init__(self) -> None:
        self.found: collections.Counter[bytes] = collections.Counter()

    def add(self, text: bytes) -> None:
        self.found.update(re.findall(rb"^job |^pairs 0$|^refused request ", text, re.M))

    def line(self, skipped: int) -> str:
        jobs, empty = self.found[b"job "], self.found[b"pairs 0"]
        refused = self.found[b"refused request "]
        more = f", {skipped} rows skipped" if skipped else ""
        planned = jobs - empty - refused
        return f"{jobs} trips: {planned} planned, {empty} empty, {refused} refused{more}"


def put_together(work: Work, path: Optional[str]) -> None:
    """Writes the texts of all parts in the order of the jobs, and counts the trips."""
    counts = Counts()
    with output(path) as out:
        for number, (first, behind) in enumerate(work.cut):
            text = work.whole_text(number)
            if text is None:
                raise Problem(f"{work.rows_named(number)}: its text was changed or removed", LEFT)
            counts.add(text)
            out.write(renumbered(text, work.rows[first:behind]))
    say(counts.line(len(work.skipped)))


def answer(path: Optional[str], text: bytes) -> None:
    """Writes a text to the file that was asked for, or to the standard output."""
    with output(path) as out:
        out.write(text)


def run_alone(words: argparse.Namespace, program: str) -> int:
    """One batch over the whole table, where there is nothing to cut: an empty or missing table, and
    words that the program refuses."""
    workers = ["--workers", str(words.workers)] if words.workers else []
    asked = [program, "batch", words.dir, words.jobs_table, *workers]
    done = subprocess.run(asked, stdin=subprocess.DEVNULL, stdout=subprocess.PIPE)
    answer(words.out, done.stdout)
    return done.returncode


def read_table(words: argparse.Namespace) -> tuple[bytes, list[bytes]]:
    """The bytes of the table and its records; no records where it isn't there, or too long or
    empty."""
    path = os.path.join(words.dir, words.jobs_table)
    is_file = NAME.match(words.jobs_table) and os.path.isfile(path)
    if not is_file or os.path.getsize(path) + 100 > LONGEST_FILE:
        return b"", []
    table = read_file(path)
    return table, records_of(table)


def judge(work: Work, records: list[bytes], words: argparse.Namespace) -> Optional[Fault]:
    """Returns the first fault of the files or the table; with --skip-bad rows with faults are left
    out of the work, and said."""
    work.rows = list(range(2, len(records) + 1))
    while work.rows:
        fault = first_fault(work, records, work.rows, words.long_table)
        if fault is None or not words.skip_bad or fault.row not in work.rows:
            return fault
        if fault.cause == "SizeLimit":  # (too many rows, of which none is bad)
            return fault
        work.rows.remove(fault.row)
        work.skipped.append(bad_row_text(words.jobs_table, records, fault))
    return None


def run(words: argparse.Namespace, machines_of: Type[Runner]) -> int:
    program = program_of(words.program)
    machines = machines_from(words)
    machines_of.check(machines)
    table, records = read_table(words)
    if len(records) < 2:
        return run_alone(words, program)
    work = Work(words.work or f"{words.jobs_table}.work", words.dir, program)
    work.open()
    if not work.goes_on(table, records):
        work.copy_files()
        fault = judge(work, records, words)
        if fault is not None:
            answer(words.out, fault.text)
            shutil.rmtree(work.folder)
            return fault.status
        work.cut_table(table, records, words.rows)
    for line in work.skipped:
        say(line)
    if work.rows:
        run_parts(work, machines_of(machines, work))
    put_together(work, words.out)
    if not words.keep:
        shutil.rmtree(work.folder)
    return SKIPPED if work.skipped else 0


def program_of(name: Optional[str]) -> str:
    """The path of the program: the one that was named, the built one, or that of the path."""
    built = os.path.join(TOP, "crates", "lorry_plan", "out", "lorry_plan")
    found = shutil.which(name) if name else shutil.which(built) or shutil.which("lorry_plan")
    if not found:
        missing = "there is no program: ./lorry_plan builds it, and --program names one"
        raise Problem(f"there is no program {name}" if name else missing, NO_PROGRAM)
    return os.path.abspath(found)


def machines_from(words: argparse.Namespace) -> Machines:
    return Machines(
        words.sshlogin,
        words.machines,
        words.send,
        words.remote_folder,
        words.slurm_option,
        words.jobs,
        words.workers,
        words.tries,
        words.timeout,
    )


def number_from(least: int, most: Optional[int] = None) -> Callable[[str], int]:
    def read(word: str) -> int:
        number = int(word)
        if number < least or most is not None and number > most:
            raise ValueError
        return number

    read.__name__ = f"number from {least}" + (f" to {most}" if most is not None else "")
    return read


def arguments() -> argparse.Namespace:
    parser = argparse.ArgumentParser(
        description=__doc__, formatter_class=argparse.RawDescriptionHelpFormatter
    )
    add = parser.add_argument
    add("dir", metavar="DIR", help="the folder")
    add("jobs_table", metavar="JOBS", help="the name of a table of jobs in DIR")
    add(
        "--machines",
        metavar="FILE",
        help="a file with a login in each line; a line that begins with # says nothing",
    )
    add(
        "--sshlogin",
        metavar="LOGIN",
        action="append",
        default=[],
        help="a machine as GNU parallel names it, such as user@host; `:` is this one",
    )
    add(
        "--send",
        action="store_true",
        help="send the program and the files to the machines, which needs rsync on them; without "
        "it they have to see the work folder under the same path",
    )
    add(
        "--remote-folder",
        metavar="PATH",
        default="/tmp",
        help="where --send puts a folder of its own on each machine (/tmp)",
    )
    add(
        "--slurm",
        action="store_true",
        help="an array of Slurm, whose machines see the work folder under the same path",
    )
    add(
        "--slurm-option",
        metavar="OPTION",
        action="append",
        default=[],
        help="an option for sbatch, such as --partition=long",
    )
    part = number_from(1, MOST_JOBS)
    add("--rows", metavar="N", type=part, default=500, help="the most rows of a part (500)")
    add(
        "--jobs",
        metavar="N",
        type=number_from(1),
        default=1,
        help="parts at once on each machine, for GNU parallel (1)",
    )
    add(
        "--workers",
        metavar="N",
        type=number_from(0, MOST_WORKERS),
        default=0,
        help="workers of each part (as many as the machine has processors)",
    )
    add(
        "--tries",
        metavar="N",
        type=number_from(1, 100),
        default=3,
        help="how often a part that fails is tried (3)",
    )
    add(
        "--timeout",
        metavar="SECONDS",
        type=number_from(1),
        help="a part that takes longer has failed",
    )
    add(
        "--skip-bad",
        action="store_true",
        help="plan the good rows of the table, and list the bad ones on the standard error; the "
        "status is then 1",
    )
    add(
        "--long-table",
        action="store_true",
        help="plan a table of more than 10,000 rows too, which one batch refuses",
    )
    add(
        "--program",
        metavar="PATH",
        help="the program (crates/lorry_plan/out/lorry_plan, or lorry_plan of the path)",
    )
    add(
        "--work",
        metavar="FOLDER",
        help="the folder for parts and texts (JOBS.work in the current folder)",
    )
    add("--keep", action="store_true", help="keep that folder in the end")
    add("--out", metavar="FILE", help="write the text to a file, which is whole once it is there")
    words = parser.parse_args()
    check_words(parser, words)
    return words


def check_words(parser: argparse.ArgumentParser, words: argparse.Namespace) -> None:
    if words.slurm and (words.machines or words.sshlogin or words.send):
        parser.error("--slurm chooses the machines itself")
    if words.slurm_option and not words.slurm:
        parser.error("--slurm-option is for --slurm")
    if words.send and not (words.machines or words.sshlogin):
        parser.error("--send is for --machines and --sshlogin")
    if not os.path.isabs(words.remote_folder):
        parser.error("--remote-folder is a path from the root")
    if words.machines and not os.path.isfile(words.machines):
        parser.error(f"there is no file {words.machines}")


def interrupted(number: int, _: object) -> None:
    raise Problem("interrupted; the same words go on", 128 + number)


def main() -> int:
    words = arguments()
    for number in ENDING:
        signal.signal(number, interrupted)
    try:
        return run(words, Slurm if words.slurm else Parallel)
    except OSError as error:
        raise Problem(str(error), LEFT) from error
