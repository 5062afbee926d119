"""Measures runs of a program, and prints a row of a table for each instance."""
from __future__ import annotations

import dataclasses
import os
import statistics
import subprocess
import tempfile
import time

from lorry_tools.problems import Problem


@dataclasses.dataclass
class Run:
    """The seconds and the processor seconds of a run, its peak of memory, and the size of what it
    printed, both in MB."""

    seconds: float
    busy: float
    peak: float
    printed: float


class Meter:
    """A program, and how often it runs over each instance."""

    def __init__(self, program: str, runs: int):
        self.program = program
        self.runs = runs

    def run(self, command: str, folder: str, rest: list[str]) -> Run:
        """Runs the program once; the tool ends where that fails."""
        words = [self.program, command, folder, *rest]
        with tempfile.TemporaryFile() as output:
            begin = time.monotonic()
            child = subprocess.Popen(words, stdin=subprocess.DEVNULL, stdout=output)
            _, status, usage = os.wait4(child.pid, 0)
            seconds = time.monotonic() - begin
            child.returncode = os.waitstatus_to_exitcode(status)
            output.seek(0)
            printed = output.read(200).decode("utf-8", "replace")
            size = output.seek(0, os.SEEK_END) / 1_000_000
        if child.returncode != 0:
            raise Problem(f"status {child.returncode}, printed {printed!r}", 1)
        return Run(seconds, usage.ru_utime + usage.ru_stime, usage.ru_maxrss / 1024, size)

    def print_head(self) -> None:
        print("| Instance | Command | Folder, MB | Seconds | Processor seconds | Peak, MB |")
        print("|---|---|---|---|---|---|", flush=True)

    def measure(
        self, command: str, folder: str, rest: list[str], name: str, of_report: bool = False
    ) -> None:
        """Prints the row of an instance, with the size of its report where that is asked for."""
        size = sum(file.stat().st_size for file in os.scandir(folder)) / 1_000_000
        done = [self.run(command, folder, rest) for _ in range(self.runs)]
        seconds = statistics.median(it.seconds for it in done)
        busy = statistics.median(it.busy for it in done)
        peak = max(it.peak for it in done)
        if of_report:
            name += f": {done[0].printed:.0f} MB"
        numbers = f"{size:.1f} | {seconds:.2f} | {busy:.2f} | {peak:.0f}"
        print(f"| {name} | `{command}` | {numbers} |", flush=True)
