"""Uses the built program in hostile ways, and finds out whether each run ends as docs/COMMANDS.md
says.

    tools/hostile [--only memory|faults|bytes] [PROGRAM]

PROGRAM is a built program, crates/lorry_plan/out/lorry_plan if it isn't named. There are three
parts:

    memory  refuses each request for memory of each command in turn, alone and with all later ones
    faults  lets each call over files fail in turn, by several errors, makes reads and writes short,
            and gives folders and outputs that can't be read or written
    bytes   cuts each file of a small folder at each byte, and changes each byte to eight others

Each part prints a table of counts. A run that isn't lawful is printed with its words, and then the
status is 1. docs/RELIABILITY.md says what is lawful, and what was found."""
from __future__ import annotations

import argparse
import collections
import dataclasses
import errno
import itertools
import os
import struct
import subprocess
import sys
import tempfile
import time
from typing import Callable, Iterable, Iterator, Mapping, Optional, Union

from lorry_tools.running import TOP
from lorry_tools.trials import one_run, small_folder
from lorry_tools.trials.one_run import (
    BAD_INPUT,
    BAD_REQUEST,
    DONE,
    NO_MEMORY,
    READ_FAULT,
    REJECTED,
    USAGE,
    WRITE_FAULT,
    Run,
    Runner,
)

Files = dict[str, bytes]
# A folder to read, one to draw into, and an empty one.
Folders = tuple[str, str, str]
# The cells of further columns of a table, by the name of a row.
Columns = Mapping[str, Mapping[str, Union[str, int]]]

SHIM = os.path.join(TOP, "tools", "hostile_shims", "refuse.c")

# The calls of the C library that the shim can refuse, and those that ask for no memory and no file,
# or can't fail in this program.
REFUSED_CALLS = {
    "malloc",
    "calloc",
    "realloc",
    "mmap",
    "pthread_create",
    "open",
    "openat",
    "close",
    "lseek",
    "fsync",
    "fdatasync",
    "ftruncate",
    "rename",
    "unlink",
    "read",
    "pread",
    "write",
    "__write",
    "pwrite",
    "writev",
}
HARMLESS_CALLS = {
    "free",
    "memcpy",
    "memmove",
    "memset",
    "memcmp",
    "bcmp",
    "strlen",
    "abort",
    "_exit",
    "exit",
    "getenv",
    "environ",
    "pthread_attr_init",
    "pthread_attr_destroy",
    "pthread_attr_setguardsize",
    "pthread_self",
    "pthread_detach",
    "pthread_join",
    "__libc_start_main",
    "__cxa_finalize",
    "__errno_location",
    "__sysv_signal",
    "__x86_get_cpuid_feature_leaf",
    "__gmon_start__",
    "_ITM_registerTMCloneTable",
    "_ITM_deregisterTMCloneTable",
}

# Of struct told in the shim.
TOLD = struct.Struct("QQ24s8s4400s")


@dataclasses.dataclass
class Case:
    """A command that ends well where nothing is refused: the files that it writes, in their order,
    and how it ends."""

    name: str
    words: list[str]
    folder: str
    written: list[str]
    before: Files
    after: Files = dataclasses.field(default_factory=dict)
    status: int = DONE
    printed: bytes = b""


@dataclasses.dataclass
class Mode:
    """What is refused: by which error, and whether all later calls are refused too."""

    name: str
    watch: str
    error: int
    goes_on: bool = False
    drips: bool = False
    at_first_call_alone: bool = False


@dataclasses.dataclass
class Told:
    """What the shim tells of a run: the calls that were counted and refused, and the last of the
    refused ones."""

    calls: int
    refused: int
    call: str
    way: str
    path: str


ONE_BYTE, NO_BYTE = -1, -2

MEMORY_MODES = [
    Mode("alone", "memory", errno.ENOMEM),
    Mode("with all later ones", "memory", errno.ENOMEM, goes_on=True),
]

FAULT_MODES = [
    Mode("EIO", "files", errno.EIO),
    Mode("EIO, and from then on", "files", errno.EIO, goes_on=True),
    Mode("ENOSPC", "files", errno.ENOSPC),
    Mode("EINTR", "files", errno.EINTR),
    Mode("EACCES", "files", errno.EACCES),
    Mode("a short read or write", "transfers", ONE_BYTE),
    Mode(
        "short reads and writes from then on",
        "transfers",
        ONE_BYTE,
        goes_on=True,
        at_first_call_alone=True,
    ),
    Mode("a write that takes nothing", "writes", NO_BYTE),
    Mode("short writes, and ENOSPC", "writes", errno.ENOSPC, drips=True),
]


class Counts:
    """The runs by a name and by their status, and those that weren't lawful."""

    def __init__(self) -> None:
        self.by_name: dict[str, collections.Counter[int]] = collections.defaultdict(
            collections.Counter
        )
        self.unlawful: collections.Counter[str] = collections.Counter()

    def add(self, name: str, status: int, wrong: Optional[str]) -> None:
        self.by_name[name][status] += 1
        self.unlawful[name] += wrong is not None

    def show(self, title: str, more: Optional[Columns] = None) -> None:
        """A table with a row for each name, and a column for each status that came."""
        statuses = sorted({status for counts in self.by_name.values() for status in counts})
        columns = (
            [title, "Runs"]
            + [f"Status {status}" for status in statuses]
            + ["Unlawful"]
            + list(more or {})
        )
        print_row(columns)
        print_row(["---"] * len(columns))
        for name, counts in self.by_name.items():
            cells: list[Union[str, int]] = [name, sum(counts.values())]
            cells += [counts[status] for status in statuses]
            cells.append(self.unlawful[name])
            print_row(cells + [column[name] for column in (more or {}).values()])
        print(flush=True)


def print_row(cells: Iterable[Union[str, int]]) -> None:
    print(
        "| " + " | ".join(f"{cell:,}" if isinstance(cell, int) else cell for cell in cells) + " |",
        flush=True,
    )


class Findings:
    """The runs that weren't lawful. The first of them are printed at once, all are counted."""

    MOST_SHOWN = 40

    def __init__(self) -> None:
        self.count = 0

    def add_where(self, wrong: Optional[str], words: list[str], hostile: str) -> None:
        """Adds a run where something was wrong with it."""
        if wrong is None:
            return
        self.count += 1
        if self.count <= self.MOST_SHOWN:
            print(f"unlawful: {' '.join(words)}: {hostile}: {wrong}", flush=True)


# ---- The shim ----


def build_shim(folder: str) -> str:
    library = os.path.join(folder, "refuse.so")
    subprocess.run(
        ["gcc", "-O1", "-Wall", "-shared", "-fPIC", "-o", library, SHIM, "-ldl"], check=True
    )
    return library


def calls_of(program: str) -> set[str]:
    """What the program calls of the C library. A program that is linked without it has none."""
    listed = subprocess.run(
        ["nm", "-D", "--undefined-only", program], capture_output=True, text=True
    )
    return {line.split()[-1].partition("@")[0] for line in listed.stdout.splitlines()}


def say_what_is_refused(program: str) -> None:
    """Ends where the shim couldn't refuse anything; names calls that it doesn't know."""
    calls = calls_of(program)
    if not calls & REFUSED_CALLS:
        sys.exit(
            f"hostile: {program} isn't linked with the C library, so no call of it can be refused"
        )
    others = calls - REFUSED_CALLS - HARMLESS_CALLS
    print(f"Calls that are refused: {', '.join(sorted(calls & REFUSED_CALLS))}.")
    print(f"Calls that aren't watched: {', '.join(sorted(others)) or 'none'}.\n", flush=True)


class Shim:
    """Runs a program with the shim in front of the C library."""

    def __init__(self, runner: Runner, folder: str) -> None:
        self.runner = runner
        self.library = build_shim(folder)
        self.told = os.path.join(folder, "told")

    def run(self, words: list[str], mode: Mode, at: int) -> tuple[Run, Told]:
        with open(self.told, "wb") as told:
            told.write(bytes(TOLD.size))
        environment = {
            "LD_PRELOAD": self.library,
            "HOSTILE_TOLD": self.told,
            "HOSTILE_WATCH": mode.watch,
            "HOSTILE_AT": str(at),
            "HOSTILE_ERROR": str(mode.error),
            "HOSTILE_ON": str(int(mode.goes_on)),
            "HOSTILE_DRIP": str(int(mode.drips)),
        }
        return self.runner.run(words, environment), self.read_told()

    def read_told(self) -> Told:
        with open(self.told, "rb") as told:
            calls, refused, *texts = TOLD.unpack(told.read())
        return Told(
            calls, refused, *(text.split(b"\0")[0].decode("utf-8", "replace") for text in texts)
        )


# ---- The commands ----


def make_folders(runner: Runner, top: str) -> Folders:
    """A folder to read, one to draw into, and an empty one."""
    rich, drawn, bare = (os.path.join(top, name) for name in ("rich", "drawn", "bare"))
    for folder in (rich, drawn, bare):
        os.mkdir(folder)
    small_folder.make(runner, rich)
    others = {
        "c.cert": "an old certificate\n",
        "other.cert": "no certificate\n",
        "closed.txt": "drive 1\ndrive 2\n",
    }
    small_folder.write_files(rich, others)
    small_folder.write_files(drawn, {**small_folder.OLD_DRAWING, "notes.txt": "left alone\n"})
    return rich, drawn, bare


def commands_over(
    rich: str, drawn: str, bare: str
) -> Iterator[tuple[str, list[str], str, list[str]]]:
    """Each command in each form, and each kind of refusal: its words, its folder and the files that
    it writes."""
    yield "plan", small_folder.plan(rich), rich, []
    for form in ("table", "csv", "json"):
        yield f"plan --form {form}", small_folder.plan(rich, "--form", form), rich, []
    yield "plan --certificate", small_folder.plan(rich, "--certificate", "c.cert"), rich, ["c.cert"]
    yield "check", small_folder.check(rich), rich, []
    yield "bans", small_folder.bans(rich), rich, []
    yield "latest", small_folder.latest(rich), rich, []
    yield "batch, 1 worker", small_folder.batch(rich, 1), rich, []
    yield "batch, 4 workers", small_folder.batch(rich, 4), rich, []
    yield "gen", small_folder.gen(drawn), drawn, small_folder.DRAWN
    yield "tour", small_folder.tour(rich), rich, []
    yield "breaks", small_folder.breaks(rich, "--drive", "60", "--rest", "15"), rich, []
    yield "explain", small_folder.explain(rich), rich, []
    yield "explain, unlawful", small_folder.explain(rich, "closed.txt"), rich, []
    yield "check, rejected", small_folder.check(rich, "other.cert"), rich, []
    yield "plan, usage", ["plan", rich, "any"], rich, []
    yield "plan, bad input", small_folder.plan(bare), bare, []
    yield "plan, bad request", ["plan", rich, "nobody"] + small_folder.TRIP[1:], rich, []


def cases_over(runner: Runner, folders: Folders) -> Iterator[Case]:
    """The commands with how they end where nothing is refused."""
    due = {
        "check, rejected": REJECTED,
        "plan, usage": USAGE,
        "plan, bad input": BAD_INPUT,
        "plan, bad request": BAD_REQUEST,
    }
    for name, words, folder, written in commands_over(*folders):
        case = Case(name, words, folder, written, small_folder.read_files(folder))
        run = runner.run(words)
        case.status, case.printed, case.after = (
            run.status,
            run.printed,
            small_folder.read_files(folder),
        )
        small_folder.restore(folder, case.before)
        if (
            one_run.wrong_end(run)
            or case.status != due.get(name, DONE)
            or wrong_files(case, case.after)
        ):
            sys.exit(f"hostile: without any fault {' '.join(words)} ends with {run}")
        yield case


# ---- What is lawful ----


def wrong_files(case: Case, files: Files, open_file: Optional[str] = None) -> Optional[str]:
    """How the files differ from lawful ones: those that are written are whole up to some place and
    as they were behind it, all others as they were.

    `open_file` is a written file that may hold anything; those before it are whole, those behind it
    as they were."""
    names = set(files) | set(case.before)
    changed = [
        name
        for name in names
        if name not in case.written and files.get(name) != case.before.get(name)
    ]
    if changed:
        return f"{sorted(changed)[0]} was changed"
    for whole in range(len(case.written) + 1):
        wanted = {
            name: (case.after if place < whole else case.before).get(name)
            for place, name in enumerate(case.written)
        }
        stops_here = open_file is None or (
            whole < len(case.written) and case.written[whole] == open_file
        )
        if stops_here and all(
            files.get(name) == wanted[name] for name in case.written if name != open_file
        ):
            return None
    return f"the files {', '.join(case.written)} are neither whole nor as they were"


def wrong_as_without(case: Case, run: Run, files: Files) -> Optional[str]:
    """How a run differs from that in which nothing is refused."""
    if run.status != case.status:
        return f"status {run.status} in place of {case.status}"
    if run.printed != case.printed:
        return f"printed {run.printed[:200]!r} in place of {case.printed[:200]!r}"
    return None if files == case.after else "its files aren't those of a run without a fault"


def wrong_where_silent(
    run: Run, case: Case, files: Files, open_file: Optional[str] = None
) -> Optional[str]:
    if run.printed:
        return f"with status {run.status} it printed {run.printed[:200]!r}"
    return wrong_files(case, files, open_file)


def wrong_without_memory(case: Case, run: Run, told: Told, files: Files) -> Optional[str]:
    """Where a request for memory was refused: status 6, silent; or as if nothing had been."""
    if told.refused and run.status == NO_MEMORY:
        return wrong_where_silent(run, case, files)
    return wrong_as_without(case, run, files)


def wrong_after_output_fault(case: Case, run: Run, files: Files) -> Optional[str]:
    """Where a write of the output failed: a prefix of the text was printed, and the files were
    written before."""
    if not case.printed.startswith(run.printed):
        return f"printed {run.printed[:200]!r}, no prefix of {case.printed[:200]!r}"
    return None if files == case.after else "its files aren't whole"


def wrong_after_fault(case: Case, run: Run, told: Told, files: Files) -> Optional[str]:
    """Where a call over files failed: 4 for a file that is read, 5 for one that is written and for
    the output.

    Without a failed call, or where it was a close, which may go unnoticed, the run ends as any
    other."""
    if run.status == READ_FAULT and told.way == "reads":
        return wrong_where_silent(run, case, files)
    if run.status == WRITE_FAULT and told.way == "writes":
        return wrong_where_silent(run, case, files, os.path.basename(told.path))
    if run.status == WRITE_FAULT and told.way == "output":
        return wrong_after_output_fault(case, run, files)
    if told.call and told.call != "close":
        return f"status {run.status} where the call failed"
    return wrong_as_without(case, run, files)


def wrong_after(case: Case, mode: Mode, run: Run, told: Told, files: Files) -> Optional[str]:
    wrong = one_run.wrong_end(run)
    if wrong:
        return wrong
    if mode.watch == "memory":
        return wrong_without_memory(case, run, told, files)
    if mode.error == ONE_BYTE or (mode.error == errno.EINTR and run.status == case.status):
        return wrong_as_without(case, run, files)
    return wrong_after_fault(case, run, told, files)


# ---- The parts ----


def refuse_in_turn(
    shim: Shim, case: Case, mode: Mode
) -> Iterator[tuple[int, Run, Told, Optional[str]]]:
    """Refuses the first call, the second, and so on, until a run makes fewer calls."""
    for at in itertools.count(1):
        run, told = shim.run(case.words, mode, at)
        files = small_folder.read_files(case.folder)
        wrong = wrong_after(case, mode, run, told, files)
        if files != case.before:
            small_folder.restore(case.folder, case.before)
        yield at, run, told, wrong
        if not told.refused or mode.at_first_call_alone:
            return


def describe(mode: Mode, at: int, told: Told) -> str:
    refused = f", the last of them {told.call} {told.path}" if told.call else ""
    return f"call {at} of {mode.watch} refused, {mode.name}{refused}"


def refuse_calls(shim: Shim, cases: list[Case], modes: list[Mode], findings: Findings) -> None:
    """Prints the runs by command and by what was refused."""
    by_case, by_mode = Counts(), Counts()
    calls: dict[str, int] = collections.defaultdict(int)
    for case in cases:
        for mode in modes:
            for at, run, told, wrong in refuse_in_turn(shim, case, mode):
                by_case.add(case.name, run.status, wrong)
                by_mode.add(mode.name, run.status, wrong)
                findings.add_where(wrong, case.words, describe(mode, at, told))
            # The last run refused nothing, but for a mode of one run.
            calls.setdefault(case.name, told.calls)
    by_case.show("Command", {"Calls": calls})
    by_mode.show("Refused")


def memory_part(runner: Runner, top: str, findings: Findings) -> None:
    say_what_is_refused(runner.program)
    cases = list(cases_over(runner, make_folders(runner, top)))
    refuse_calls(Shim(runner, top), cases, MEMORY_MODES, findings)


def faults_part(runner: Runner, top: str, findings: Findings) -> None:
    say_what_is_refused(runner.program)
    folders = make_folders(runner, top)
    cases = list(cases_over(runner, folders))
    refuse_calls(Shim(runner, top), cases, FAULT_MODES, findings)
    real_faults(runner, cases, top, findings)


# ---- Faults of the system itself ----


def broken_pipe() -> int:
    reading, writing = os.pipe()
    os.close(reading)
    return writing


def full_device() -> int:
    return os.open("/dev/full", os.O_WRONLY)


def closed() -> int:
    return -1


# Outputs that take nothing.
HOSTILE_OUTPUTS = {
    "the output is a full device": full_device,
    "the output is a pipe without a reader": broken_pipe,
    "the output is closed": closed,
}


def hostile_folders(top: str) -> Iterator[tuple[str, list[str], int]]:
    """Words over folders and files that can't be read or written, and the status that is due."""
    hostile = os.path.join(top, "hostile")
    os.mkdir(hostile)
    small_folder.write_files(hostile, {**small_folder.NETWORK, "file": ""})
    os.mkdir(os.path.join(hostile, "jobs.csv"))
    os.mkdir(os.path.join(hostile, "stops.csv"))
    os.mkdir(os.path.join(hostile, small_folder.ITINERARY))
    os.mkdir(os.path.join(hostile, "d.cert"))
    os.symlink("loop.cert", os.path.join(hostile, "loop.cert"))
    yield "the folder is a file", small_folder.plan(os.path.join(hostile, "file")), READ_FAULT
    yield "the folder's name is too long for the system", small_folder.plan(
        "x/" * 2_048
    ), READ_FAULT
    yield "the table of jobs is a folder", small_folder.batch(hostile, 1), READ_FAULT
    yield "the table of stops is a folder", small_folder.tour(hostile), READ_FAULT
    yield "the itinerary is a folder", small_folder.explain(hostile), READ_FAULT
    yield "the certificate to judge is a folder", small_folder.check(hostile, "d.cert"), READ_FAULT
    yield "the certificate to judge is a link to itself", small_folder.check(
        hostile, "loop.cert"
    ), READ_FAULT
    yield "the certificate to write is a folder", small_folder.plan(
        hostile, "--certificate", "d.cert"
    ), WRITE_FAULT
    yield "the certificate to write is a link to itself", small_folder.plan(
        hostile, "--certificate", "loop.cert"
    ), WRITE_FAULT
    yield "the folder to draw into isn't there", small_folder.gen(
        os.path.join(hostile, "absent")
    ), WRITE_FAULT
    yield "the folder to draw into is a file", small_folder.gen(
        os.path.join(hostile, "file")
    ), WRITE_FAULT


def wrong_with_hostile_output(case: Case, run: Run, files: Files) -> Optional[str]:
    wrong = one_run.wrong_end(run)
    if wrong or run.status != WRITE_FAULT:
        return wrong or f"status {run.status} where nothing could be printed"
    return None if files == case.after else "its files aren't whole"


def run_with_output(
    runner: Runner, case: Case, make_output: Callable[[], int]
) -> tuple[Run, Optional[str]]:
    """Runs a command with a hostile output, and puts its folder back."""
    output = make_output()
    run = runner.run(case.words, output=output)
    if output >= 0:
        os.close(output)
    wrong = wrong_with_hostile_output(case, run, small_folder.read_files(case.folder))
    small_folder.restore(case.folder, case.before)
    return run, wrong


def wrong_over_hostile_folder(run: Run, due: int) -> Optional[str]:
    wrong = one_run.wrong_end(run)
    if wrong or (run.status, run.printed) == (due, b""):
        return wrong
    return f"status {run.status}, printed {run.printed[:200]!r}"


def real_faults(runner: Runner, cases: list[Case], top: str, findings: Findings) -> None:
    counts = Counts()
    for case, (name, make_output) in itertools.product(cases, HOSTILE_OUTPUTS.items()):
        run, wrong = run_with_output(runner, case, make_output)
        counts.add(name, run.status, wrong)
        findings.add_where(wrong, case.words, name)
    for name, words, due in hostile_folders(top):
        run = runner.run(words)
        wrong = wrong_over_hostile_folder(run, due)
        counts.add(name, run.status, wrong)
        findings.add_where(wrong, words, name)
    counts.show("Without the shim")


# ---- Changed bytes ----

OTHER_BYTES = b'\0\n\r",09\xff'
SPARE_BYTE = b" "


def other_bytes(byte: int) -> list[int]:
    """Eight bytes other than this one."""
    return [other if other != byte else SPARE_BYTE[0] for other in OTHER_BYTES]


def hostile_texts(text: bytes) -> Iterator[tuple[str, bytes]]:
    """The text cut at each byte, and with each byte changed to eight others; and what was done."""
    for length in range(len(text)):
        yield f"cut to {length} bytes", text[:length]
    for place, byte in enumerate(text):
        for other in other_bytes(byte):
            yield f"byte {place} is {bytes([other])!r}", text[:place] + bytes([other]) + text[
                place + 1 :
            ]


class Most:
    """The most that the runs of each name took."""

    def __init__(self) -> None:
        self.seconds: dict[str, float] = collections.defaultdict(float)
        self.memory: dict[str, float] = collections.defaultdict(float)

    def add(self, name: str, run: Run) -> None:
        self.seconds[name] = max(self.seconds[name], run.busy)
        self.memory[name] = max(self.memory[name], run.peak)

    def columns(self) -> Columns:
        return {
            "Longest, s": {name: f"{seconds:.3f}" for name, seconds in self.seconds.items()},
            "Peak, MB": {name: f"{memory:.0f}" for name, memory in self.memory.items()},
        }


def change_file(
    runner: Runner,
    folder: str,
    name: str,
    text: bytes,
    counts: Counts,
    most: Most,
    findings: Findings,
) -> None:
    """Runs the commands that read a file over each hostile text of it."""
    for change, hostile in hostile_texts(text):
        small_folder.write_files(folder, {name: hostile})
        for words, lawful in small_folder.readers_of(name, folder):
            run = runner.run(words)
            wrong = one_run.wrong_answer(words[0], run, lawful)
            counts.add(name, run.status, wrong)
            most.add(name, run)
            findings.add_where(wrong, words, f"{name} {change}")
    small_folder.write_files(folder, {name: text})


def bytes_part(runner: Runner, top: str, findings: Findings) -> None:
    folder = make_folders(runner, top)[0]
    before = small_folder.read_files(folder)
    counts, most = Counts(), Most()
    for name in small_folder.KINDS:
        change_file(runner, folder, name, before[name], counts, most, findings)
        if small_folder.read_files(folder) != before:
            findings.add_where("a file was changed", [folder], f"over the texts of {name}")
            small_folder.restore(folder, before)
    counts.show("File", most.columns())


PARTS = {"memory": memory_part, "faults": faults_part, "bytes": bytes_part}


def arguments() -> argparse.Namespace:
    parser = argparse.ArgumentParser(
        description=__doc__, formatter_class=argparse.RawDescriptionHelpFormatter
    )
    parser.add_argument("--only", choices=list(PARTS), help="this part alone")
    parser.add_argument("program", nargs="?", default=one_run.PROGRAM, help="a built program")
    words = parser.parse_args()
    if not os.access(words.program, os.X_OK):
        parser.error(f"there is no program {words.program}: ./lorry_plan builds it")
    return words


def main() -> int:
    words = arguments()
    findings = Findings()
    for name, part in PARTS.items():
        if words.only in (None, name):
            begin = time.monotonic()
            with tempfile.TemporaryDirectory() as top:
                part(one_run.Runner(words.program), top, findings)
            print(f"{name}: {time.monotonic() - begin:.0f} seconds\n", flush=True)
    print(f"hostile: {findings.count:,} runs weren't lawful")
    return 1 if findings.count else 0
