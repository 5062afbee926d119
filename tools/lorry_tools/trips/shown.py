"""Runs of the program that are noted, so that each can be had again from the program alone."""
from __future__ import annotations

import dataclasses
import os
import shlex
import tempfile
from types import TracebackType
from typing import Iterable, Optional, Type, TypeVar, Union

from lorry_tools.answers import Lawful, Leg, Unlawful
from lorry_tools.folder import Folder, link_files
from lorry_tools.program import Program, Trip

WORK = '"$work"'
ITINERARY = "trip.itinerary"

N = TypeVar("N", bound="NotedProgram")


class NotedProgram(Program):
    """The program, with a line of the shell for each run. Files that a run needs beside those of
    the folder are in a temporary folder with links to these."""

    def __init__(self, folder: Folder, path: Optional[str] = None):
        super().__init__(path)
        self.folder = folder
        self.shown = short_path(self.path)
        self.lines: list[str] = []
        self._place: Optional[tempfile.TemporaryDirectory[str]] = None
        self._is_told = False
        self._texts: dict[str, str] = {}  # of the files in it

    def __enter__(self: N) -> N:
        return self

    def __exit__(
        self,
        kind: Optional[Type[BaseException]],
        error: Optional[BaseException],
        trace: Optional[TracebackType],
    ) -> None:
        if self._place:
            self._place.cleanup()

    def work(self) -> str:
        """Returns the temporary folder, which is made when it is asked for the first time."""
        if self._place is None:
            self._place = tempfile.TemporaryDirectory(prefix="lorry_plan-")
            link_files(self.folder, self._place.name)
        return self._place.name

    def write(self, name: str, text: str) -> str:
        """Writes a file into the temporary folder, and returns its name."""
        if self.note_file(name, text):
            with open(os.path.join(self.work(), name), "w", encoding="utf-8", newline="") as file:
                file.write(text)
        return name

    def note_file(self, name: str, text: str) -> bool:
        """Notes how a file of the temporary folder is written; False where it has this text."""
        self.note_work()
        if self._texts.get(name) == text:
            return False
        self._texts[name] = text
        words = " ".join(shlex.quote(it) for it in text.splitlines())
        printed = f"printf '%s\\n' {words}" if text else ":"
        self.lines.append(f"{printed} > {WORK}/{name}")
        return True

    def explain_way(self, trip: Trip, legs: list[Leg]) -> Union[Lawful, Unlawful]:
        """Asks why legs aren't lawful, where nothing is asked about better ones."""
        name = self.write(ITINERARY, lines_of(legs))
        return self.explain(dataclasses.replace(trip, folder=self.work()), name)

    def unnoted(self) -> Program:
        """Returns the program without notes of its runs."""
        return Program(self.path)

    def note(self, line: str) -> None:
        self.lines.append(line)

    def note_work(self) -> None:
        """Notes how the temporary folder is made, once."""
        if not self._is_told:
            self._is_told = True
            source = shlex.quote(self.folder.shown)
            self.lines.append(f'work=$(mktemp -d) && ln -s "$(realpath {source})"/* {WORK}')

    def note_run(self, words: Iterable[object]) -> None:
        """Notes a run of the program."""
        asked = [str(it) for it in words]
        names = {WORK: WORK, self.folder.path: shlex.quote(self.folder.shown)}
        if self._place:
            names[self._place.name] = WORK
        shown = [names.get(it) or shlex.quote(it) for it in asked]
        self.lines.append(" ".join([shlex.quote(self.shown), *shown]))

    def run(self, words: Iterable[object]) -> tuple[int, str]:
        asked = [str(it) for it in words]
        self.note_run(asked)
        return super().run(asked)


def lines_of(legs: list[Leg]) -> str:
    """Returns the text of an itinerary."""
    return "".join(f"{leg.line()}\n" for leg in legs)


def short_path(path: str) -> str:
    """Returns the shorter of a path and of that from the current folder."""
    if os.path.sep not in path:
        return path
    near = os.path.relpath(path)
    if near.startswith(os.pardir):
        return path
    return near if os.path.sep in near else os.path.join(os.curdir, near)
