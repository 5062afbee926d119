"""Runs of the program with limits: how many at once, how long, and with how much memory."""
from __future__ import annotations

import dataclasses
import errno
import os
import selectors
import signal
import subprocess
import tempfile
import threading
import time
from typing import Mapping, Optional, Union

from lorry_tools.answers import Lawful, Leg, Unlawful
from lorry_tools.folder import Folder
from lorry_tools.program import Program, Refused, Trip
from lorry_tools.service.limits import MEBIBYTE, Limits, Stopping, TooSlow, Unavailable
from lorry_tools.service.ways import Ways
from lorry_tools.trips.shown import ITINERARY, WORK, NotedProgram, lines_of

NO_MEMORY = 6  # docs/COMMANDS.md: the status where memory is out
# The shell limits the memory, and then becomes the program: no run begins without its limit.
WITH_LIMIT = ("/bin/sh", "-c", 'ulimit -v "$0" && exec "$@"')
NOT_RUN = (126, 127)  # the statuses of a shell that can't run a program, and of a loader
CHUNK = 1 << 18
LARGE_PAGES = "glibc.malloc.hugetlb=1"  # for memory that a run asks for


class Missing(Unavailable):
    """The program can't be run."""


class Runs:
    """Runs of the program, in processes of their own, each of which is ended in the end."""

    def __init__(self, path: str, limits: Limits):
        self.path, self.limits = path, limits
        self._slots = threading.BoundedSemaphore(limits.runs)
        self._lock = threading.Lock()
        self._open: set[subprocess.Popen[bytes]] = set()
        self._is_stopped = False

    def run(self, words: list[str], deadline: float) -> tuple[int, str]:
        """Runs the program on these words, and returns its status and what it printed."""
        if not self._slots.acquire(timeout=max(0.0, deadline - time.monotonic())):
            raise TooSlow(self.limits.seconds)
        try:
            return self._run(words, deadline)
        finally:
            self._slots.release()

    def stop(self) -> None:
        """Ends the runs that are open, and starts no more."""
        with self._lock:
            self._is_stopped = True
            for process in self._open:
                end(process)

    def _run(self, words: list[str], deadline: float) -> tuple[int, str]:
        with self._lock:
            if self._is_stopped:
                raise Stopping()
            process = self._start(words)
            self._open.add(process)
        try:
            text = self._text_of(process, deadline)
            status = process.wait(max(0.1, deadline - time.monotonic()))
        except subprocess.TimeoutExpired:
            raise TooSlow(self.limits.seconds) from None
        finally:
            with self._lock:
                self._open.discard(process)
                is_stopped = self._is_stopped
            end(process)
            process.wait()
            if process.stdout:
                process.stdout.close()
        if status < 0 and is_stopped:
            raise Stopping()
        if status in NOT_RUN and not os.access(self.path, os.X_OK):
            number = errno.EACCES if os.path.exists(self.path) else errno.ENOENT
            raise Missing(f"the program can't be run: {os.strerror(number)}")
        return status, text

    def _start(self, words: list[str]) -> subprocess.Popen[bytes]:
        kibibytes = self.limits.memory_mb * MEBIBYTE // 1024
        try:
            return subprocess.Popen(
                [*WITH_LIMIT, str(kibibytes), self.path, *words],
                stdin=subprocess.DEVNULL,
                stdout=subprocess.PIPE,
                stderr=subprocess.DEVNULL,
                start_new_session=True,
                env=environment_of(os.environ),
            )
        except OSError as error:
            raise Missing(f"the program can't be run: {error.strerror}") from None

    def _text_of(self, process: subprocess.Popen[bytes], deadline: float) -> str:
        """Returns all that a run prints, within its time."""
        chunks: list[bytes] = []
        size, most = 0, self.limits.answer_mb * MEBIBYTE
        if process.stdout is None:
            return ""
        with selectors.DefaultSelector() as waiting:
            waiting.register(process.stdout, selectors.EVENT_READ)
            while True:
                left = deadline - time.monotonic()
                if left <= 0 or not waiting.select(left):
                    raise TooSlow(self.limits.seconds)
                chunk = os.read(process.stdout.fileno(), CHUNK)
                if not chunk:
                    return b"".join(chunks).decode("utf-8", "replace")
                chunks.append(chunk)
                size += len(chunk)
                if size > most:
                    raise Unavailable(f"the answer is larger than {self.limits.answer_mb} MB")


def environment_of(own: Mapping[str, str]) -> dict[str, str]:
    """Returns the environment of a run: the service's own, with large pages."""
    given = own.get("GLIBC_TUNABLES")
    return {**own, "GLIBC_TUNABLES": f"{given}:{LARGE_PAGES}" if given else LARGE_PAGES}


def end(process: subprocess.Popen[bytes]) -> None:
    """Ends a run and all that it started, where it hasn't ended."""
    if process.poll() is None:
        try:
            os.killpg(process.pid, signal.SIGKILL)
        except ProcessLookupError:
            pass


class LimitedProgram(NotedProgram):
    """The program for one request, all runs of which end by a deadline."""

    def __init__(self, folder: Folder, runs: Runs, deadline: float, ways: Optional[Ways] = None):
        super().__init__(folder, runs.path)
        self.shown, self.ways = os.path.basename(runs.path), ways
        self.runs, self.deadline = runs, deadline

    def execute(self, words: list[str]) -> tuple[int, str]:
        return checked(words[1], *self.runs.run(words[1:], self.deadline))

    def unnoted(self) -> Program:
        return UnnotedProgram(self.runs, self.deadline)

    def explain_way(self, trip: Trip, legs: list[Leg]) -> Union[Lawful, Unlawful]:
        """Asks over a folder that has the roads of these legs alone, which is read sooner; noted is
        the run over the whole folder, which has the same answer."""
        if self.ways is None:
            return super().explain_way(trip, legs)
        self.note_file(ITINERARY, lines_of(legs))
        self.note_run(["explain", WORK, *trip.words()[1:], ITINERARY])
        with tempfile.TemporaryDirectory(prefix="way-") as place:
            goal = self.ways.write(place, trip.origin, legs, ITINERARY)
            own = dataclasses.replace(trip, folder=place, origin=1, goal=goal)
            return self.unnoted().explain(own, ITINERARY)


class UnnotedProgram(Program):
    """The same without notes of its runs."""

    def __init__(self, runs: Runs, deadline: float):
        super().__init__(runs.path)
        self.runs, self.deadline = runs, deadline

    def execute(self, words: list[str]) -> tuple[int, str]:
        return checked(words[1], *self.runs.run(words[1:], self.deadline))


def checked(command: str, status: int, text: str) -> tuple[int, str]:
    """Returns what a run gave, unless it was killed or out of memory, which isn't its answer."""
    if status < 0 or status == NO_MEMORY:
        raise Unavailable(str(Refused(command, text.strip(), status)))
    return status, text


def deadline_of(limits: Limits, since: Optional[float] = None) -> float:
    """Returns when a request that came at a time, or comes now, has to be answered."""
    return (time.monotonic() if since is None else since) + limits.seconds
