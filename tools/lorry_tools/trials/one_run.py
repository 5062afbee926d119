"""Runs a program once: its status, what it printed, and what it took; and whether its end is one
that docs/COMMANDS.md knows.

tools/hostile and tools/fuzz_one use it."""
from __future__ import annotations

import dataclasses
import os
import re
import select
import signal
import tempfile
from typing import IO, Collection, Optional, Union

from lorry_tools.running import TOP

PROGRAM = os.path.join(TOP, "crates", "lorry_plan", "out", "lorry_plan")

# A run that takes longer hangs. A run that waits for a processor may be slow, so the bound of a
# second is one of processor seconds.
PATIENCE = 10

# The most that a run over a small folder may take, whatever its bytes are.
MOST_SECONDS = 1.0
MOST_MEMORY = 200

DONE, REJECTED, USAGE, BAD_INPUT, READ_FAULT, WRITE_FAULT, NO_MEMORY, BAD_REQUEST = range(8)

INSTANT = rb"\d{4}-\d\d-\d\dT\d\d:\d\dZ"
PAIR = rb"\d+ \d+\.\d{3}"
REASON = (
    rb"(?:tail|late|unrated|shut|goal|closure \d+|rule (?:area|arc) [a-z_]+ (?:plain|conditional)"
    rb" \d+)"
)
PLAIN = rb"pairs \d+\n(?:pair \d+ \d+\.\d{3}\n(?:drive \d+\n|wait \d+\n)*)*"
REQUEST_REFUSED = rb"refused request [A-Za-z]+\n"

# What is printed with a status, by the command's name where it matters.
TEXTS: dict[int, Union[bytes, dict[str, bytes]]] = {
    DONE: {
        "plan": PLAIN,
        "check": rb"accepted \d+\n",
        "bans": rb"bans \d+\n(?:closed " + INSTANT + b" " + INSTANT + rb"\n)*passed \d+\n",
        "batch": rb"(?:job \d+\n(?:" + PLAIN + b"|" + REQUEST_REFUSED + b"))*",
        "explain": (
            rb"lawful "
            + PAIR
            + rb"\n(?:undominated|dominated "
            + PAIR
            + rb")\n|unlawful \d+ \d+ "
            + REASON
            + rb"\n"
        ),
        "gen": rb"generated \d+ \d+\npairs \d+\n(?:first \d+ \d+\.\d{3}\nlast \d+ \d+\.\d{3}\n)?",
        "latest": rb"pairs \d+\n(?:leave " + PAIR + rb"\n(?:drive \d+\n|wait \d+\n)*)*",
        "tour": rb"pairs \d+\n(?:pair " + PAIR + rb"\n(?:drive \d+\n|wait \d+\n|serve \d+\n)*)*",
        "breaks": PLAIN,
    },
    REJECTED: rb"rejected [0-6]\n",
    USAGE: rb"refused usage\n",
    BAD_INPUT: rb"refused input [a-z]+(?:\.csv|\.gr)? \d+ [A-Za-z]+\n",
    READ_FAULT: b"",
    NO_MEMORY: b"",
    BAD_REQUEST: REQUEST_REFUSED,
}


@dataclasses.dataclass
class Run:
    status: int  # below 0: ended by that signal
    hung: bool
    printed: bytes
    complained: bytes  # what it wrote to the standard error
    busy: float  # processor seconds
    peak: float  # MB


class Runner:
    """Starts a program again and again, one process at a time."""

    def __init__(self, program: str) -> None:
        self.program = os.path.abspath(program)
        self.output = tempfile.TemporaryFile()
        self.errors = tempfile.TemporaryFile()
        self.nothing = os.open(os.devnull, os.O_RDONLY)

    def run(
        self,
        words: list[str],
        environment: Optional[dict[str, str]] = None,
        output: Optional[int] = None,
    ) -> Run:
        """Runs the program on these words; `output` is a descriptor in place of a file, or -1 for
        none at all."""
        for file in (self.output, self.errors):
            file.seek(0)
            file.truncate()
        child = self.start(
            words,
            {**os.environ, **(environment or {})},
            self.output.fileno() if output is None else output,
        )
        hung = is_hanging(child)
        if hung:
            os.kill(child, signal.SIGKILL)
        _, status, usage = os.wait4(child, 0)
        return Run(
            status=os.waitstatus_to_exitcode(status),
            hung=hung,
            printed=bytes_of(self.output),
            complained=bytes_of(self.errors),
            busy=usage.ru_utime + usage.ru_stime,
            peak=usage.ru_maxrss / 1024,
        )

    def start(self, words: list[str], environment: dict[str, str], output: int) -> int:
        actions: list[tuple[int, ...]] = [
            (os.POSIX_SPAWN_DUP2, self.nothing, 0),
            (os.POSIX_SPAWN_DUP2, self.errors.fileno(), 2),
        ]
        actions.append(
            (os.POSIX_SPAWN_CLOSE, 1) if output < 0 else (os.POSIX_SPAWN_DUP2, output, 1)
        )
        return os.posix_spawn(
            self.program, [self.program] + words, environment, file_actions=actions
        )


def is_hanging(child: int) -> bool:
    """Waits for the child's end, and answers whether it didn't come in time."""
    process = os.pidfd_open(child)
    try:
        waiting = select.poll()
        waiting.register(process, select.POLLIN)
        return not waiting.poll(PATIENCE * 1000)
    finally:
        os.close(process)


def bytes_of(file: IO[bytes]) -> bytes:
    file.seek(0)
    return file.read()


def is_text_of(command: str, status: int, printed: bytes) -> bool:
    """Whether the bytes may be a command's text with a status. A report in another form than plain
    lines isn't looked into."""
    text = TEXTS.get(status)
    if isinstance(text, dict):
        text = text.get(command)
    return text is None or re.fullmatch(text, printed) is not None


def wrong_end(run: Run) -> Optional[str]:
    """How a run ended that no run may end with; None where it ended with a status."""
    if run.hung:
        return f"it hung for {PATIENCE} seconds"
    if run.status < 0:
        return f"it was ended by {signal.Signals(-run.status).name}"
    if run.status > BAD_REQUEST:
        return f"status {run.status} is none of the program's"
    if run.complained:
        return f"it wrote {run.complained[:200]!r} to the standard error"
    return None


def wrong_answer(command: str, run: Run, lawful: Collection[int]) -> Optional[str]:
    """Why a run over hostile files, in which no call failed, isn't lawful; None where it is."""
    wrong = wrong_end(run)
    if wrong:
        return wrong
    if run.status not in lawful:
        return f"status {run.status} has no cause here"
    if not is_text_of(command, run.status, run.printed):
        return f"with status {run.status} it printed {run.printed[:200]!r}"
    if run.busy > MOST_SECONDS:
        return f"it took {run.busy:.1f} processor seconds"
    return f"it took {run.peak:.0f} MB" if run.peak > MOST_MEMORY else None
