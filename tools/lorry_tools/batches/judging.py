"""Which rows of a table of jobs the program refuses, as the program itself judges them."""
from __future__ import annotations

import dataclasses
import os
import re
import subprocess
from typing import Optional

from lorry_tools.batches.table import fields_of
from lorry_tools.batches.work import Work, write_file
from lorry_tools.files import JOBS
from lorry_tools.instants import minute_of
from lorry_tools.problems import LEFT, Problem

# docs/LIMITS.md: the rows of a table of jobs.
MOST_JOBS = 10_000

COLUMNS = JOBS.headers[0].split(",")
REFUSED = re.compile(rb"refused input jobs (\d+) ([A-Za-z]+)\n")
NAME = re.compile(r"[A-Za-z0-9_.][A-Za-z0-9_.-]{0,63}", re.ASCII)
NUMBER = re.compile(r"\d{1,10}", re.ASCII)


@dataclasses.dataclass(frozen=True)
class Fault:
    """What one batch prints where it refuses the files or the table, and its status. ROW is that of
    the table, the header being 1, or 0 where the fault is elsewhere."""

    text: bytes
    status: int
    row: int = 0
    cause: str = ""


def first_fault(
    work: Work, records: list[bytes], rows: list[int], long_table: bool
) -> Optional[Fault]:
    """Returns the first fault of the files or of these rows; None where there is none.

    The program judges them, over the table and one row more that it refuses: so it plans nothing.
    With `long_table` it judges 10,000 rows at a time."""
    step = MOST_JOBS if long_table else max(1, len(rows))
    for first in range(0, len(rows), step):
        fault = fault_of(work, records, rows[first : first + step])
        if fault:
            return fault
    os.remove(os.path.join(work.net, "check.csv"))
    return None


def fault_of(work: Work, records: list[bytes], rows: list[int]) -> Optional[Fault]:
    judged = [records[0], *(records[row - 1] for row in rows), b"a row with one field", b""]
    write_file(os.path.join(work.net, "check.csv"), b"\n".join(judged))
    words = [work.program, "batch", work.net, "check.csv"]
    done = subprocess.run(words, stdin=subprocess.DEVNULL, stdout=subprocess.PIPE)
    refused = REFUSED.fullmatch(done.stdout)
    place = int(refused[1]) if refused else 0
    if place == 0 and done.returncode > 0:
        return Fault(done.stdout, done.returncode)
    if refused is None or place == 0:
        raise Problem(
            f"the program ended with status {done.returncode} over a table that it has to refuse",
            LEFT,
        )
    if (place, refused[2]) == (len(rows) + 2, b"FieldCount"):
        return None
    row = rows[place - 2] if 2 <= place <= len(rows) + 1 else place
    text = b"refused input jobs %d %s\n" % (row, refused[2])
    return Fault(text, done.returncode, row, refused[2].decode())


def column_of(record: bytes) -> str:
    """Returns the first column of a row whose field isn't of its form; nothing where none is."""
    fields = [it.decode("utf-8", "replace").strip('"') for it in fields_of(record)]
    for column, field in zip(COLUMNS, fields):
        if column == "vehicle":
            is_good = NAME.fullmatch(field) is not None
        elif column in ("from", "to"):
            is_good = NUMBER.fullmatch(field) is not None and int(field) < 1 << 32
        else:
            is_good = minute_of(field) is not None
        if not is_good:
            return column
    return ""


def bad_row_text(name: str, records: list[bytes], fault: Fault) -> str:
    """Says which row is bad: the file, the row, the column and the cause."""
    record = records[fault.row - 1]
    column = column_of(record) if fault.cause == "BadField" else ""
    where = f"{name} row {fault.row}" + (f", column {column}" if column else "")
    return f"{where}: {fault.cause}: {record.decode('utf-8', 'replace')[:80]}"
