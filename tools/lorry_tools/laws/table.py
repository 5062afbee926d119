"""Reads law tables: which rows hold in a region and on a road, the rules that they make, and
their days."""
from __future__ import annotations

import csv
import dataclasses
import datetime
import os
import re
from typing import Iterable, Mapping, Optional

from lorry_tools.conversion import access, tags
from lorry_tools.conversion.access import OPEN, Lists
from lorry_tools.conversion.notation import Unread
from lorry_tools.laws import days, years
from lorry_tools.laws.section import EVERYWHERE, NoSection, Section
from lorry_tools.problems import Problem

# The tables that come with the tools.
OWN = os.path.dirname(os.path.abspath(__file__))
HEADER = ("country", "region", "section", "key", "value", "article", "written", "caution")
DAY_KINDS = ("PH", "SH")
SPEED_KEY = "maxspeed:hgv:conditional"
# What a vehicle or its load may be, as laws have it, besides the flags of signs.
FLAGS = ("combined", "low_noise", "perishable")
ALL_OPEN: Lists = (OPEN,) * len(access.CLASSES)


class BadTable(Problem):
    """A law table that can't be read; the message says where, and why."""

    def __init__(self, place: str, cause: str):
        super().__init__(f"{place}: {cause}", 1)


@dataclasses.dataclass(frozen=True)
class Row:
    """A row of a law table. The regions are those where it holds, or, with `besides`, where it
    doesn't; without any it holds in the whole country."""

    place: str
    country: str
    regions: tuple[str, ...]
    besides: bool
    section: Section
    key: str
    value: str
    article: str
    written: str
    caution: str

    def is_day(self) -> bool:
        return self.key in DAY_KINDS

    def is_speed(self) -> bool:
        return self.key == SPEED_KEY

    def is_rule(self) -> bool:
        return not self.is_day() and not self.is_speed()

    def holds_in(self, code: str) -> bool:
        """Whether it holds in a country or a region. In a country whose region isn't known, all
        rows hold: that is stricter."""
        country, _, region = code.partition("-")
        if country != self.country:
            return False
        return not region or not self.regions or (region in self.regions) != self.besides

    def lists(self, first: int, last: int) -> Lists:
        """Whom it lets in, class by class, in some years."""
        try:
            text = years.value(self.value, first, last)
            return tags.law_lists([(self.key, text)], FLAGS) if text else ALL_OPEN
        except (years.NoYears, Unread) as error:
            raise BadTable(self.place, str(error)) from None


def row_of(place: str, fields: list[str]) -> Row:
    if len(fields) != len(HEADER):
        raise BadTable(place, f"{len(fields)} fields, and not {len(HEADER)}")
    country, region, section, key, value, article, written, caution = fields
    if not re.match(r"[a-z]{2}$", country):
        raise BadTable(place, f"{country} is no country of two small letters")
    words = region.split()
    besides = words[:1] == ["not"]
    regions = tuple(words[besides:])
    if besides and not regions or not all(re.match(r"[a-z0-9]{1,3}$", it) for it in regions):
        raise BadTable(place, f"{region} has no regions such as `by he` or `not ti vs`")
    if not article or not caution:
        raise BadTable(place, "no article, or no caution that says who has checked the row")
    try:
        datetime.date.fromisoformat(written)
    except ValueError:
        raise BadTable(place, f"{written} is no date") from None
    try:
        where = Section.of(section)
    except NoSection as error:
        raise BadTable(place, str(error)) from None
    row = Row(place, country, regions, besides, where, key, value, article, written, caution)
    check_value(row)
    return row


def check_value(row: Row) -> None:
    """Refuses a row whose value can't be read."""
    if row.is_day():
        if row.section != EVERYWHERE:
            raise BadTable(row.place, "a day of a section")
        try:
            days.check(row.key, row.value)
        except days.NoDay as error:
            raise BadTable(row.place, str(error)) from None
    elif row.is_speed():
        if not re.match(r"\d{1,3} @ ", row.value):
            raise BadTable(row.place, f"{row.value} is no speed with a condition")
    else:
        for year in sorted(years.years_in(row.value)) or [2000]:
            row.lists(year, year)


class Tables:
    """The rows of all tables of a folder."""

    def __init__(self, rows: Iterable[Row]) -> None:
        self.rows: dict[str, list[Row]] = {}
        for row in rows:
            self.rows.setdefault(row.country, []).append(row)

    def knows(self, code: str) -> bool:
        return code.split("-")[0] in self.rows

    def of(self, code: str) -> list[Row]:
        """The rows that hold in a country or a region."""
        return [row for row in self.rows.get(code.split("-")[0], []) if row.holds_in(code)]

    def rules(self, code: str) -> list[Row]:
        return [row for row in self.of(code) if row.is_rule()]

    def lists(self, code: str, first: int, last: int) -> Lists:
        """The law that holds on all roads of a country or a region."""
        rows = [row for row in self.rules(code) if row.section == EVERYWHERE]
        return joined(rows, first, last)

    def lists_on(self, code: str, road: Mapping[str, str], first: int, last: int) -> Lists:
        """The law on a road with these tags of `ref` and `highway`, which lies where its sections
        are."""
        rows = [row for row in self.rules(code) if row.section.is_about(road)]
        return joined(rows, first, last)

    def days(self, code: str, first: int, last: int) -> list[tuple[str, str]]:
        """The days of a country or a region in some years, each a kind and a date."""
        rows = [(row.key, row.value) for row in self.of(code) if row.is_day()]
        return days.dates(rows, first, last)

    def speaks_of_eves(self, code: str) -> bool:
        return any(row.is_rule() and "SH" in row.value for row in self.of(code))

    def years_without(self, code: str, first: int, last: int) -> list[int]:
        """The years for which a law that is written anew each year has no hours."""
        wanted = set(range(first, last + 1))
        found: set[int] = set()
        for row in self.rules(code):
            known = years.years_in(row.value)
            found |= wanted - known if known else set()
        return sorted(found)

    def warnings(self, code: str, first: int, last: int) -> list[tuple[str, str]]:
        """What whoever uses the law of a country or a region has to look at: what it is, and an
        example."""
        found, rows = [], self.of(code)
        unchecked = [row for row in rows if "from memory" in row.caution]
        if unchecked:
            written = max(row.written for row in unchecked)
            found.append(
                (
                    "laws written from memory: check them before you use them",
                    f"{code}: {len(unchecked)} of {len(rows)} rows, written until {written}",
                )
            )
        regional = [row for row in rows if row.regions]
        if regional and "-" not in code:
            found.append(
                (
                    "laws and days of single regions, taken for all roads of the country"
                    " (--subdivisions, or --country CODE-REGION)",
                    f"{code}: {len(regional)} rows, such as {regional[0].article}",
                )
            )
        lacking = self.years_without(code, first, last)
        if lacking:
            years_text = ", ".join(str(it) for it in lacking)
            found.append(("years for which a law's calendar is missing", f"{code}: {years_text}"))
        found += [
            ("limits of speed by the hour, which a law has (--night-speed)", f"{code}: {row.value}")
            for row in rows
            if row.is_speed()
        ]
        return found

    def refs(self) -> set[str]:
        """The numbers of roads that sections name."""
        every = (row for rows in self.rows.values() for row in rows)
        return {ref for row in every for ref in row.section.refs}


def joined(rows: Iterable[Row], first: int, last: int) -> Lists:
    """The lists that let in whom all rows let in."""
    found = ALL_OPEN
    for row in rows:
        own = row.lists(first, last)
        found = tuple(access.both(one, other) for one, other in zip(found, own))
    return found


def read_file(path: str) -> list[Row]:
    with open(path, encoding="utf-8-sig", newline="") as file:
        records = [it for it in csv.reader(line for line in file if line[:1] != "#") if it]
    name = os.path.basename(path)
    if not records or tuple(records[0]) != HEADER:
        raise BadTable(path, f"it doesn't begin with the header {','.join(HEADER)}")
    return [row_of(f"{name} {number}", it) for number, it in enumerate(records[1:], 2)]


def is_table(path: str) -> bool:
    """Whether a file begins with the header of a law table."""
    try:
        with open(path, encoding="utf-8-sig", newline="") as file:
            return tuple(next(csv.reader(file), ())) == HEADER
    except (OSError, UnicodeDecodeError):
        return False


def table_paths(folder: str) -> list[str]:
    names = sorted(it for it in os.listdir(folder) if it.endswith(".csv"))
    return [os.path.join(folder, name) for name in names]


def read(folder: Optional[str] = None) -> Tables:
    """Reads the tables of a folder, or those that come with the tools."""
    paths = table_paths(folder or OWN)
    if not paths:
        raise BadTable(folder or OWN, "there is no law table, such as de.csv")
    return Tables(row for path in paths for row in read_file(path))
