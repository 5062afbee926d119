"""Clocks of zones, and local times in people's words.

A time that a clock skips or shows twice is asked back, never guessed."""
from __future__ import annotations

import bisect
import datetime
import re
import zoneinfo
from typing import Optional, Union

from lorry_tools.folder import UTC, Folder
from lorry_tools.instants import DAY, FIRST_INSTANT, LAST_INSTANT, minute_at, minute_of, moment_of
from lorry_tools.problems import Problem

TIME = re.compile(
    r"(\d{4})-(\d\d?)-(\d\d?)(?:[ \t]+|[ \t]*T)(\d\d?):(\d\d)(?::00)?[ \t]*(Z|[+-]\d\d:?\d\d)?",
    re.ASCII,
)
OFFSET = re.compile(r"([+-])(\d\d):?(\d\d)", re.ASCII)
EXPECTED = (
    "a date and a time such as 2026-07-10 21:45, with Z or an offset such as +02:00 where it isn't "
    "local"
)


class TableClock:
    """The clock of a zone by the rows of zones.csv: the offset from UTC, in minutes, from each
    change on. Before the first change it is that of the first one, as the program has it."""

    def __init__(self, name: str, changes: list[tuple[int, int]]):
        self.name = name
        self.changes = changes or [(FIRST_INSTANT, 0)]
        self._starts = [start for start, _ in self.changes]

    def offset(self, minute: int) -> int:
        place = bisect.bisect_right(self._starts, minute)
        return self.changes[max(0, place - 1)][1]

    def offsets(self, low: int, high: int) -> set[int]:
        """Returns the offsets at the minutes from LOW to HIGH."""
        places = (bisect.bisect_right(self._starts, it) for it in (low, high))
        first, last = (max(0, it - 1) for it in places)
        end = last + 1
        return {offset for _, offset in self.changes[first:end]}


class SystemClock:
    """The clock of a zone by the zone database of this system."""

    def __init__(self, name: str):
        self.name = name
        try:
            self.zone = zoneinfo.ZoneInfo(name)
        except (zoneinfo.ZoneInfoNotFoundError, ValueError, OSError):
            raise Problem(
                f"--zone {name}: neither zones.csv nor the zone database of this system has such a "
                "zone; expected is a name such as Europe/Vaduz"
            ) from None

    def offset(self, minute: int) -> int:
        moment = moment_of(minute).replace(tzinfo=datetime.timezone.utc).astimezone(self.zone)
        return int((moment.utcoffset() or datetime.timedelta()).total_seconds()) // 60

    def offsets(self, low: int, high: int) -> set[int]:
        """Returns the offsets at some minutes from LOW to HIGH, one in each hour."""
        return {self.offset(it) for it in range(low, high + 1, 60)}


Clock = Union[TableClock, SystemClock]


def clock_of(folder: Folder, zone: str) -> TableClock:
    """Returns the clock of a zone as the program reads it."""
    changes = []
    for row in folder.table("zones.csv"):
        start, offset = minute_of(row["from"]), offset_of(row["offset"])
        if row["zone"] == zone and start is not None and offset is not None:
            changes.append((start, offset))
    return TableClock(zone, sorted(changes))


def named_clock(folder: Folder, name: str) -> Clock:
    """Returns the clock of a zone that a user names: one of zones.csv, or one of this system."""
    if name == UTC or any(row["zone"] == name for row in folder.table("zones.csv")):
        return clock_of(folder, name)
    return SystemClock(name)


def offset_of(text: str) -> Optional[int]:
    """Returns the minutes of an offset such as +02:00, or None."""
    parts = OFFSET.fullmatch(text)
    if not parts:
        return None
    minutes = int(parts[2]) * 60 + int(parts[3])
    return -minutes if parts[1] == "-" else minutes


def offset_text(minutes: int) -> str:
    return f"{'-' if minutes < 0 else '+'}{abs(minutes) // 60:02}:{abs(minutes) % 60:02}"


def local_of(clock: Clock, minute: int) -> datetime.datetime:
    """Returns what a clock shows at a minute."""
    return moment_of(minute + clock.offset(minute))


def minutes_showing(clock: Clock, shown: datetime.datetime) -> list[int]:
    """Returns the minutes at which a clock shows this: none where it skips it, two where it shows
    it twice."""
    there = minute_at(shown)
    offsets = clock.offsets(there - DAY, there + DAY)
    return sorted(there - it for it in offsets if clock.offset(there - it) == it)


def shown_text(clock: Clock, minute: int) -> str:
    """Returns a minute as a local time with its offset, such as 2026-07-10T21:45+02:00."""
    offset = clock.offset(minute)
    return moment_of(minute + offset).isoformat(timespec="minutes") + offset_text(offset)


def local_text(
    clock: Clock, minute: int, beside: Optional[int] = None, with_year: bool = False
) -> str:
    """Returns a minute as people write it, such as `Fri 10 Jul 21:45`, with the offset from UTC
    where it isn't BESIDE."""
    local, offset = local_of(clock, minute), clock.offset(minute)
    year = f" {local.year}" if with_year else ""
    text = f"{local:%a} {local.day} {local:%b}{year} {local:%H:%M}"
    return text if beside in (None, offset) else f"{text}{offset_text(offset)}"


def read_time(text: str, clocks: list[Clock], what: str) -> int:
    """Returns the minute that a text states, local to these clocks where it has no offset.

    `what` says where the text stands, such as `--leave`. Several clocks are those of a place at a
    border: the time is asked back where they differ."""
    parts = TIME.fullmatch(text.strip())
    if not parts:
        raise Problem(f"{what} {text!r} is no time: expected is {EXPECTED}")
    year, month, day, hour, minute = (int(it) for it in parts.groups()[:5])
    try:
        shown = datetime.datetime(year, month, day, hour, minute)
    except ValueError:
        raise Problem(
            f"{what} {text!r} is no time of the calendar: expected is {EXPECTED}"
        ) from None
    if not 1971 <= year <= 2199:
        raise Problem(f"{what} {text!r}: expected is a year from 1971 to 2199")
    found = (
        [minute_at(shown) - (offset_of(parts[6]) or 0)]
        if parts[6]
        else [local_minute(shown, clocks, what, text)]
    )
    if not FIRST_INSTANT <= found[0] <= LAST_INSTANT:
        raise Problem(f"{what} {text!r}: expected is a time from 1971 to 2199 in UTC")
    return found[0]


def local_minute(shown: datetime.datetime, clocks: list[Clock], what: str, text: str) -> int:
    """Returns the one minute at which all these clocks show a time."""
    found = {minute: clock for clock in clocks for minute in minutes_showing(clock, shown)}
    if len(found) == 1 and all(minutes_showing(clock, shown) for clock in clocks):
        return next(iter(found))
    names = " and ".join(dict.fromkeys(clock.name for clock in clocks))
    if not found:
        raise Problem(
            f"{what} {text!r} is skipped by the clock of {names}, which is put forward then: "
            "expected is another time, or one with an offset from UTC, such as +01:00, behind it"
        )
    choices = " or ".join(
        f"{shown:%Y-%m-%d %H:%M}{offset_text(minute_at(shown) - it)}" for it in sorted(found)
    )
    if len(clocks) > 1:
        raise Problem(
            f"{what} {text!r}: the place has roads in the zones {names}: expected is {choices}, or "
            "a zone by --zone"
        )
    raise Problem(
        f"{what} {text!r} is shown twice by the clock of {names}, which is put back then: expected "
        f"is {choices}"
    )
