"""The records of a table of jobs, and how they are cut into parts."""
from __future__ import annotations

import re

from lorry_tools.files import JOBS

HEADER = JOBS.headers[0].encode()

# One record, as the program's reader of tables cuts it: a field in quotes ends at a quote that
# isn't doubled, and goes on to the next comma.
FIELD = rb'(?:"[^"]*(?:""[^"]*)*(?:"[^,\r\n]*|\Z)|[^",\r\n][^,\r\n]*|)'
ONE_FIELD = re.compile(FIELD)
RECORD = re.compile(FIELD + rb"(?:," + FIELD + rb")*")
BLANK_LINES = re.compile(rb"[\r\n]*")


def end_of(pattern: re.Pattern[bytes], table: bytes, at: int) -> int:
    """The end of what a pattern, which matches nothing too, finds at a place."""
    found = pattern.match(table, at)
    return found.end() if found else at


def records_of(table: bytes) -> list[bytes]:
    """The records of a table, each as its bytes without the end of its line; an open quote at the
    end of the table is closed."""
    records: list[bytes] = []
    at = end_of(BLANK_LINES, table, 0)
    while at < len(table):
        end = end_of(RECORD, table, at)
        records.append(table[at:end])
        at = end_of(BLANK_LINES, table, end)
    if records and ends_in_quotes(records[-1]):
        records[-1] += b'"'
    return records


def fields_of(record: bytes) -> list[bytes]:
    """The fields of a record, with their quotes."""
    fields, at = [], 0
    while at <= len(record):
        end = end_of(ONE_FIELD, record, at)
        fields.append(record[at:end])
        at = end + 1
    return fields


def ends_in_quotes(record: bytes) -> bool:
    """Whether the last field of a record is in quotes that aren't closed."""
    return re.fullmatch(rb'"[^"]*(?:""[^"]*)*', fields_of(record)[-1]) is not None


def cut_of(count: int, most: int) -> list[tuple[int, int]]:
    """The numbers of the first row and the row behind the last of each part, from 0: as few parts
    as have at most so many rows each, of which no two differ by more than one row."""
    parts = -(-count // most)
    return [(count * k // parts, count * (k + 1) // parts) for k in range(parts)]
