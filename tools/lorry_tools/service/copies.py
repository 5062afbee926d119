"""Copies of folders: a request is answered over a copy, which doesn't change."""
from __future__ import annotations

import contextlib
import datetime
import hashlib
import itertools
import os
import shutil
import threading
import time
from typing import Iterator, Optional

from lorry_tools.files import BESIDE, GRAPH, NETWORK
from lorry_tools.folder import Folder, zones_of_areas
from lorry_tools.places import Places
from lorry_tools.problems import Problem, Unreadable
from lorry_tools.program import Refused
from lorry_tools.rules import Streets
from lorry_tools.service.limits import Limits
from lorry_tools.service.roads import RoadMap
from lorry_tools.service.runs import LimitedProgram, Runs, deadline_of
from lorry_tools.service.ways import Ways

FILES = (*NETWORK, *BESIDE)
BAD_REQUEST = 7  # docs/COMMANDS.md: the status where all files are good, and the words aren't
ANY_TIME = "2020-01-01T00:00Z"
ATTEMPTS = 20
PAUSE = 0.1  # seconds between two attempts to copy files that change
CHUNK = 1 << 20

# Of each file its time, size and number, by which a change is noticed; None where there is none.
Stamp = tuple[Optional[tuple[int, int, int]], ...]


class Copy:
    """A copy of a folder that was judged, with what requests need of it. It is removed when it is
    retired and no request uses it any more."""

    def __init__(self, folder: Folder, version: str, stamp: Stamp):
        self.folder, self.version, self.stamp = folder, version, stamp
        self.loaded = datetime.datetime.now(datetime.timezone.utc)
        self.places = Places(folder)
        self.streets = Streets(folder)
        self.roads, self.ways = RoadMap(self.places, self.streets), Ways(folder)
        self.places.by_name()
        self.places.by_latitude()
        self.places.zones_of(1)
        folder.weights_of_nodes()
        self.zones = list(dict.fromkeys(zones_of_areas(folder).values()))
        self._users = 0
        self._is_retired = False
        self._lock = threading.Lock()

    @contextlib.contextmanager
    def used(self) -> Iterator[Copy]:
        self.take()
        try:
            yield self
        finally:
            self.release()

    def take(self) -> None:
        with self._lock:
            self._users += 1

    def release(self) -> None:
        with self._lock:
            self._users -= 1
            is_last = self._is_retired and self._users == 0
        if is_last:
            self.remove()

    def retire(self) -> None:
        with self._lock:
            self._is_retired = True
            is_last = self._users == 0
        if is_last:
            self.remove()

    def remove(self) -> None:
        shutil.rmtree(self.folder.path, ignore_errors=True)


class Served:
    """A folder that is served under a name: the copy that is in use, and why a newer one isn't."""

    def __init__(self, name: str, path: str, place: str, runs: Runs, limits: Limits):
        self.name, self.path, self.place = name, path, place
        self.runs, self.limits = runs, limits
        self.trouble: Optional[str] = None
        self._numbers = itertools.count(1)
        self._lock = threading.Lock()
        self._tried: Optional[Stamp] = None  # the files that were tried last
        self._copy = self._load()

    @contextlib.contextmanager
    def used(self) -> Iterator[Copy]:
        """Gives the copy that is in use, which stays there."""
        copy = self.take()
        try:
            yield copy
        finally:
            copy.release()

    def take(self) -> Copy:
        with self._lock:
            self._copy.take()
            return self._copy

    def close(self) -> None:
        self._copy.retire()

    def look(self, seen: Optional[Stamp]) -> Optional[Stamp]:
        """Loads the folder again where its files have changed and are now as they were SEEN;
        returns how they are where they have changed since."""
        stamp = stamp_of(self.path)
        if stamp in (self._copy.stamp, self._tried):
            if stamp == self._copy.stamp:
                self.trouble = None
            return None
        if stamp != seen:
            return stamp
        self._reload(stamp)
        return None

    def _reload(self, stamp: Stamp) -> None:
        try:
            copy = self._load()
        except Problem as problem:
            self.trouble = str(problem)
            # What the program refuses stays so; anything else is tried again.
            self._tried = stamp if isinstance(problem, BadFolder) else None
            return
        except Exception as error:
            self.trouble = f"{self.name}: the files can't be read: {type(error).__name__}"
            return
        self.trouble, self._tried = None, None
        with self._lock:
            old, self._copy = self._copy, copy
        if copy.version == old.version:
            copy.loaded = old.loaded
        old.retire()

    def _load(self) -> Copy:
        """Copies the files, lets the program judge them, and reads them."""
        path = os.path.join(self.place, f"{self.name}-{next(self._numbers)}")
        os.makedirs(path)
        try:
            stamp, version = copy_files(self.path, path)
            folder = Folder(path, self.name)
            judge(folder, self.runs, self.limits)
            return Copy(folder, version, stamp)
        except (OSError, Unreadable) as error:
            shutil.rmtree(path, ignore_errors=True)
            why = error.strerror if isinstance(error, OSError) else str(error)
            raise Unreadable(f"{self.name}: {why}") from None
        except BaseException:
            shutil.rmtree(path, ignore_errors=True)
            raise


class BadFolder(Problem):
    """The program refuses a file of a folder."""


def judge(folder: Folder, runs: Runs, limits: Limits) -> None:
    """Lets the program read all files of a folder."""
    program = LimitedProgram(folder, runs, deadline_of(limits))
    status, text = program.run(["plan", folder.path, "any", 1, 1, ANY_TIME, ANY_TIME])
    if status not in (0, BAD_REQUEST):
        raise BadFolder(f"{folder.shown}: {Refused('plan', text.strip(), status)}", status)


def stamp_of(path: str) -> Stamp:
    """Returns how the files of a folder are now."""
    found: list[Optional[tuple[int, int, int]]] = []
    for name in FILES:
        try:
            state = os.stat(os.path.join(path, name))
            found.append((state.st_mtime_ns, state.st_size, state.st_ino))
        except OSError:
            found.append(None)
    return tuple(found)


def copy_files(source: str, target: str) -> tuple[Stamp, str]:
    """Copies the files of a folder at a time at which none of them changes; returns how they were,
    and a digest of their contents."""
    for attempt in range(ATTEMPTS):
        before = stamp_of(source)
        digest = hashlib.sha256()
        for name, state in zip(FILES, before):
            if state is None:
                continue
            with open(os.path.join(source, name), "rb") as file, open(
                os.path.join(target, name), "wb"
            ) as out:
                digest.update(f"{name} ".encode())
                while chunk := file.read(CHUNK):
                    digest.update(chunk)
                    out.write(chunk)
        if stamp_of(source) == before:
            if before[0] is None:
                has_folder = os.path.isdir(source)
                raise Unreadable(f"it has no {GRAPH}" if has_folder else "there is no such folder")
            return before, digest.hexdigest()[:16]
        for name in os.listdir(target):
            os.remove(os.path.join(target, name))
        time.sleep(PAUSE)
    raise Unreadable("the files change all the time")


def names_of(paths: list[str]) -> dict[str, str]:
    """Returns a name of its own for each folder: its last part, with a number where several have
    the same."""
    names: dict[str, str] = {}
    for path in paths:
        last = os.path.basename(os.path.abspath(path)) or "folder"
        word = "".join(it if it.isascii() and (it.isalnum() or it in "-_.") else "-" for it in last)
        name = word
        for number in itertools.count(2):
            if name not in names:
                break
            name = f"{word}-{number}"
        names[name] = path
    return names
