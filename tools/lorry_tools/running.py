"""What all tools share when they run: where things are, how they end, how far they are."""
from __future__ import annotations

import os
import signal
import sys
from typing import Callable, Optional

from lorry_tools.problems import Problem

# The folder of the tools, and that of the repository, where the tools are in one.
TOOLS = os.path.dirname(os.path.dirname(os.path.abspath(__file__)))
TOP = os.path.dirname(TOOLS)

ENDING = tuple(
    getattr(signal, name) for name in ("SIGTERM", "SIGHUP", "SIGINT") if hasattr(signal, name)
)


def end_by(number: int, _: object) -> None:
    """Ends the tool as its caller expects after a signal; temporary folders are removed on the
    way."""
    raise SystemExit(128 + number)


def run_tool(name: str, main: Callable[[], int]) -> None:
    """Runs a tool as a program of its own: a problem is a line on the standard error."""
    for number in ENDING:
        signal.signal(number, end_by)
    sys.exit(guarded(name, main))


def guarded(name: str, main: Callable[[], int]) -> int:
    """Returns the status of a tool, after it has said why where it fails."""
    try:
        status = main()
        sys.stdout.flush()
        return status
    except Problem as problem:
        print(f"{name}: {problem}", file=sys.stderr)
        return problem.status
    except BrokenPipeError:
        # A reader that has seen enough, such as head, ends the tool.
        os.dup2(os.open(os.devnull, os.O_WRONLY), sys.stdout.fileno())
        return 128 + signal.SIGPIPE
    except OSError as error:
        where = f"{error.filename}: " if error.filename else ""
        print(f"{name}: {where}{error.strerror}", file=sys.stderr)
        return 2


def write_as_utf8() -> None:
    """Lets the standard output take any text, whatever the language of the machine is."""
    reconfigure: Optional[Callable[..., None]] = getattr(sys.stdout, "reconfigure", None)
    if reconfigure:
        reconfigure(encoding="utf-8", errors="replace")


class Progress:
    """A line on the standard error that tells how far long work is. It appears only on a terminal,
    and only where the work is long."""

    LONG = 4

    def __init__(self, what: str):
        self.what = what

    def __call__(self, done: int, whole: int) -> None:
        if sys.stderr.isatty() and whole > self.LONG:
            sys.stderr.write(f"\r{self.what}: {done} of {whole} ")
            if done == whole:
                sys.stderr.write("\n")
            sys.stderr.flush()
