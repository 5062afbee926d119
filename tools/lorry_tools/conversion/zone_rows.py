"""Rows of zones.csv by the system's zone database."""
from __future__ import annotations

import datetime
import re
import zoneinfo
from typing import Optional

UTC = datetime.timezone.utc
# The instants that lorry_plan reads.
FIRST_YEAR, LAST_YEAR = 1971, 2199
MOST_ROWS = 10_000


class NoZone(Exception):
    """A zone that the database hasn't, or whose clocks a table can't say; the message says why."""


def name_of(zone: str) -> str:
    """The name of a zone in the tables of lorry_plan, which has no slashes and plus signs."""
    return zone.replace("/", "-").replace("+", "plus")


def load(zone: str) -> zoneinfo.ZoneInfo:
    try:
        return zoneinfo.ZoneInfo(zone)
    except (zoneinfo.ZoneInfoNotFoundError, ValueError, OSError):
        raise NoZone(f"the zone database of this system has no {zone}") from None


def offset(zone: zoneinfo.ZoneInfo, minute: int) -> int:
    shown = datetime.datetime.fromtimestamp(minute * 60, UTC).astimezone(zone).utcoffset()
    return int((shown or datetime.timedelta()).total_seconds())


def changes(name: str, first: int, last: int) -> list[tuple[int, int]]:
    """The Unix minutes from which a zone has an offset, in seconds, from the start of the first
    year to the end of the last one."""
    zone = load(name)
    minute, end = (
        int(datetime.datetime(year, 1, 1, tzinfo=UTC).timestamp()) // 60
        for year in (first, last + 1)
    )
    found = [(minute, offset(zone, minute))]
    while minute < end:
        later = min(minute + 1440, end)
        if offset(zone, later) != found[-1][1]:
            low, high = minute, later
            while high - low > 1:
                middle = (low + high) // 2
                low, high = (
                    (middle, high) if offset(zone, middle) == found[-1][1] else (low, middle)
                )
            if high < end:
                found.append((high, offset(zone, high)))
            minute = high
        else:
            minute = later
    return found


def rows(
    zone: str, first: int, last: int, name: Optional[str] = None
) -> list[tuple[str, str, str]]:
    """The rows of a zone for some years."""
    found = []
    for minute, seconds in changes(zone, first, last):
        if seconds % 60:
            raise NoZone(
                f"{zone} has an offset of {seconds} seconds, and lorry_plan has whole minutes:"
                " begin with a later year"
            )
        sign, minutes = ("-" if seconds < 0 else "+"), abs(seconds) // 60
        instant = datetime.datetime.fromtimestamp(minute * 60, UTC).strftime("%Y-%m-%dT%H:%MZ")
        found.append(
            (name or name_of(zone), instant, f"{sign}{minutes // 60:02}:{minutes % 60:02}")
        )
    return found


def zones_of(country: str) -> list[tuple[str, float, float]]:
    """The zones of a country with the places of their towns, by the table of the zone database:
    name, latitude, longitude."""
    for folder in zoneinfo.TZPATH:
        try:
            with open(f"{folder}/zone.tab", encoding="utf-8") as table:
                rows = [line.rstrip("\n").split("\t") for line in table]
            return [zone_at(it) for it in rows if it[0] == country.upper()]
        except OSError:
            continue
    return []


def zone_at(fields: list[str]) -> tuple[str, float, float]:
    """The zone of a row of the table, with the latitude and longitude of its town."""
    parts = re.match(r"([+-]\d+)([+-]\d+)$", fields[1])
    if not parts:
        raise NoZone(f"the zone database of this system has no place of {fields[2]}")
    return fields[2], degrees(parts[1], 2), degrees(parts[2], 3)


def degrees(text: str, whole: int) -> float:
    """Degrees of a text such as +4709 or -0003130, whose whole degrees have so many digits."""
    digits = text[1:].ljust(whole + 4, "0")
    value = (
        int(digits[:whole])
        + int(digits[whole : whole + 2]) / 60
        + int(digits[whole + 2 : whole + 4]) / 3600
    )
    return -value if text[0] == "-" else value
