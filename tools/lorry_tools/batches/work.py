"""The work folder of a batch over machines: copies of the program and the files, the table in
parts, and the texts of the parts that are done."""
from __future__ import annotations

import contextlib
import fcntl
import hashlib
import json
import os
import re
import secrets
import shutil
import sys
from typing import IO, Iterable, Iterator, Optional

from lorry_tools.batches.table import HEADER, cut_of
from lorry_tools.files import NETWORK
from lorry_tools.problems import LEFT, Problem

# docs/LIMITS.md: the workers of a batch.
MOST_WORKERS = 64

# Runs one part where the work folder is, or was sent. The text is followed by a line that says how
# the part ended and over which files, so that a part of other files, or one that was cut short, is
# never taken.
RUN_PART = os.path.join(os.path.dirname(os.path.abspath(__file__)), "run_part.sh")


def say(message: object) -> None:
    print(f"batch_over_machines: {message}", file=sys.stderr, flush=True)


def read_file(path: str) -> bytes:
    with open(path, "rb") as file:
        return file.read()


def write_file(path: str, content: bytes) -> None:
    """Writes a file that is whole once it is there."""
    with open(path + ".new", "wb") as file:
        file.write(content)
    os.replace(path + ".new", path)


def hash_files(paths: Iterable[str], start: Optional[hashlib._Hash] = None) -> hashlib._Hash:
    total = start.copy() if start else hashlib.sha256()
    for path in paths:
        with open(path, "rb") as file:
            for block in iter(lambda: file.read(1 << 20), b""):
                total.update(block)
    return total


def part_name(number: int) -> str:
    return f"{number + 1:05}"


class Work:
    """The folder with copies of the program and the files, the table in parts, and the texts of the
    parts that are done."""

    def __init__(self, folder: str, dir_name: str, program: str):
        self.folder = os.path.abspath(folder)
        self.net = os.path.join(self.folder, "net")
        self.texts = os.path.join(self.folder, "texts")
        self.program = os.path.join(self.folder, "program")
        self.sources = [(program, self.program)]
        for name in NETWORK:
            if os.path.exists(os.path.join(dir_name, name)):
                self.sources.append((os.path.join(dir_name, name), os.path.join(self.net, name)))
        self.manifest = os.path.join(self.folder, "manifest.json")
        self.token = secrets.token_hex(8)
        self.cut: list[tuple[int, int]] = []
        self.rows: list[int] = []  # the numbers of the rows that are planned, the header being 1
        self.skipped: list[str] = []  # what is said of the others
        self.base = hashlib.sha256()
        self.lock: Optional[IO[str]] = None

    def files(self) -> list[str]:
        """The files of the network in it, by their paths from it."""
        return [os.path.relpath(copy, self.folder) for _, copy in self.sources[1:]]

    def open(self) -> None:
        """Makes the folder, or takes that of an earlier call. In the end it is removed: so no
        folder with other files is taken."""
        os.makedirs(self.folder, exist_ok=True)
        lock = os.path.join(self.folder, "batch_over_machines.lock")
        if os.listdir(self.folder) and not os.path.exists(lock):
            raise Problem(f"{self.folder} has other files: name another folder by --work")
        self.lock = open(lock, "w")
        try:
            fcntl.flock(self.lock, fcntl.LOCK_EX | fcntl.LOCK_NB)
        except OSError:
            raise Problem(f"another call is at work in {self.folder}", LEFT) from None

    def goes_on(self, table: bytes, records: list[bytes]) -> bool:
        """Whether it has parts of these very files; it is an error where it has parts of others, or
        where its copies were changed."""
        if not os.path.exists(self.manifest):
            return False
        manifest = json.loads(read_file(self.manifest))
        if manifest["input"] != self.input_of(table, [source for source, _ in self.sources]):
            raise Problem(
                f"{self.folder} has parts of other files, or of another program: remove it, or name"
                " another folder by --work"
            )
        self.cut = [(first, behind) for first, behind in manifest["cut"]]
        self.rows, self.skipped = manifest["rows"], manifest["skipped"]
        self.token = manifest["token"]
        self.write_parts(records)
        if self.base.hexdigest() != manifest["input"][1]:
            raise Problem(
                f"the copies in {self.folder} were changed: remove it, or name another folder by "
                "--work"
            )
        return True

    def input_of(self, table: bytes, paths: Iterable[str]) -> list[object]:
        names = [os.path.basename(copy) for _, copy in self.sources]
        return [names, hash_files(paths).hexdigest(), hashlib.sha256(table).hexdigest()]

    def copy_files(self) -> None:
        """The files as they are now: what is changed from now on isn't read by any part."""
        for folder in (self.net, self.texts):
            shutil.rmtree(folder, ignore_errors=True)
            os.makedirs(folder)
        for source, copy in self.sources:
            shutil.copyfile(source, copy)
        os.chmod(self.program, 0o755)
        script = read_file(RUN_PART).replace(b"@FILES@", " ".join(self.files()).encode())
        script = script.replace(b"@MOST@", str(MOST_WORKERS).encode())
        write_file(os.path.join(self.folder, "run_part"), script)

    def write_parts(self, records: list[bytes]) -> None:
        """Writes the table of each part; `records` are those of the whole table."""
        self.base = hash_files([copy for _, copy in self.sources])
        for number, (first, behind) in enumerate(self.cut):
            rows = [records[row - 1] for row in self.rows[first:behind]]
            write_file(self.part(number), b"\n".join([HEADER, *rows, b""]))

    def cut_table(self, table: bytes, records: list[bytes], most: int) -> None:
        """Writes the parts, and then the manifest: from then on the run can be continued."""
        self.cut = cut_of(len(self.rows), most)
        self.write_parts(records)
        manifest = {
            "input": self.input_of(table, [copy for _, copy in self.sources]),
            "cut": self.cut,
            "rows": self.rows,
            "skipped": self.skipped,
            "token": self.token,
        }
        write_file(self.manifest, json.dumps(manifest).encode())

    def part(self, number: int) -> str:
        return os.path.join(self.net, f"part-{part_name(number)}.csv")

    def task(self, number: int) -> tuple[str, str, str]:
        """What run_part is told of a part: its name, the number of its rows, and its digest."""
        first, behind = self.cut[number]
        return part_name(number), str(behind - first), self.input(number)

    def text(self, number: int) -> str:
        return os.path.join(self.texts, part_name(number))

    def input(self, number: int) -> str:
        """The digest of the program, the files and the table of a part."""
        return hash_files([self.part(number)], self.base).hexdigest()

    def attempt(self, number: int, token: str) -> str:
        """Where one attempt at a part writes its text: attempts that overlap never share a
        file."""
        return f"{self.text(number)}.{token}"

    def take_attempts(self) -> None:
        """Takes the texts of attempts that are whole, also those of an earlier call."""
        for name in os.listdir(self.texts):
            match = re.fullmatch(r"(\d+)\.[0-9a-f]{16}", name)
            number = int(match.group(1)) - 1 if match else -1
            if 0 <= number < len(self.cut) and self.whole_text(number) is None:
                path = os.path.join(self.texts, name)
                if self.whole_text(number, path) is not None:
                    os.replace(path, self.text(number))

    def rows_named(self, number: int) -> str:
        """The rows of a part by their numbers in the whole table, whose header is row 1."""
        first, behind = self.cut[number]
        return f"part {number + 1}, rows {self.rows[first]} to {self.rows[behind - 1]}"

    def whole_text(self, number: int, path: Optional[str] = None) -> Optional[bytes]:
        """The text of a part, or None where it isn't there, whole and of these files."""
        try:
            text, last = split_last_line(read_file(path or self.text(number)))
        except FileNotFoundError:
            return None
        first, behind = self.cut[number]
        digest = hashlib.sha256(text).hexdigest()
        end = f"end {part_name(number)} 0 {self.input(number)} {digest}\n"
        return text if last == end.encode() and has_jobs(text, behind - first) else None

    def undone(self) -> list[int]:
        self.take_attempts()
        return [number for number in range(len(self.cut)) if self.whole_text(number) is None]


def split_last_line(text: bytes) -> tuple[bytes, bytes]:
    at = text.rfind(b"\n", 0, -1) + 1
    return text[:at], text[at:]


def has_jobs(text: bytes, count: int) -> bool:
    """Whether the text has the lines of the jobs from 1 to so many, in this order, and begins with
    the first."""
    numbers = [int(number) for number in re.findall(rb"^job (\d+)$", text, re.M)]
    return (
        numbers == list(range(1, count + 1))
        and text.startswith(b"job 1\n")
        and text.endswith(b"\n")
    )


def renumbered(text: bytes, rows: list[int]) -> bytes:
    """The text of a part with the jobs numbered by their rows of the whole table, whose header is
    row 1 and has the job 0."""
    numbers = iter(rows)
    return re.sub(rb"^job \d+$", lambda _: b"job %d" % (next(numbers) - 1), text, flags=re.M)


def last_line(path: str) -> str:
    try:
        lines = read_file(path).decode("utf-8", "replace").strip().splitlines()
    except OSError:
        return ""
    return lines[-1] if lines else ""


@contextlib.contextmanager
def output(path: Optional[str]) -> Iterator[IO[bytes]]:
    """The file that was asked for, which is whole once it is there, or the standard output."""
    if path is None:
        yield sys.stdout.buffer
        sys.stdout.buffer.flush()
        return
    with open(f"{path}.new", "wb") as out:
        yield out
    os.replace(f"{path}.new", path)
