"""Hours of single years, in the program's words.

A law that is written anew each year has hours such as `2026 Jul 04-Aug 08 Sa 08:00-16:00`. The
program's hours have no years. But a date has another weekday in the next four years at least, so
the dates of a year are written with theirs: `Jul 04,Jul 11 Sa 08:00-16:00`."""
from __future__ import annotations

import collections
import datetime
import re
from typing import Iterator, Optional

from lorry_tools import rule_texts
from lorry_tools.conversion import notation
from lorry_tools.rule_texts import MONTHS, WEEKDAYS, HoursRule

DATED = re.compile(r"(\d{4}) +(.+)$")
DATED_PART = re.compile(r"(?:^|;)\s*\d{4} ")
DAY = datetime.timedelta(days=1)


class NoYears(Exception):
    """Hours of a year that can't be said without it; the message says why."""


def years_in(value: str) -> set[int]:
    """The years of which a conditional value speaks."""
    return {int(it) for it in re.findall(r"(?<![\d.:])(\d{4}) +[A-Z]", value)}


def days_of(year: int) -> Iterator[datetime.date]:
    day = datetime.date(year, 1, 1)
    while day.year == year:
        yield day
        day += DAY


def time_text(minute: int) -> str:
    return f"{minute // 60:02}:{minute % 60:02}"


def spans_text(rule: HoursRule) -> str:
    if not rule.spans:
        return "off"
    if any(start >= 1440 or end > 2880 for start, end in rule.spans):
        raise NoYears("a span of more than a day in hours of a year")
    return ",".join(f"{time_text(start)}-{time_text(end)}" for start, end in rule.spans)


def check_recurrence(day: datetime.date, first: int, last: int) -> None:
    """Refuses a date that has the same weekday in another of the years, or in one beside them."""
    for year in range(first - 1, last + 2):
        if year == day.year or (day.month, day.day) == (2, 29):
            continue
        if day.replace(year=year).weekday() == day.weekday():
            raise NoYears(
                f"{day:%d %b} is a {WEEKDAYS[day.weekday()]} in {day.year} and in {year}, and"
                " hours have no years: take fewer --years"
            )


def dated(text: str, first: int, last: int) -> list[str]:
    """The rules of hours that say what a rule of one year does; none where that year isn't from
    the first to the last."""
    found = DATED.match(text)
    if not found:
        return [text]
    year = int(found[1])
    try:
        (rule,) = rule_texts.read_hours(found[2])
    except (rule_texts.NotRead, ValueError) as error:
        raise NoYears(f"{text}: {error}") from None
    if rule.holidays or not rule.dates:
        raise NoYears(f"{text}: a year goes with dates, and not with holidays")
    spans = spans_text(rule)
    matched: dict[int, list[str]] = collections.defaultdict(list)
    for day in days_of(year):
        if rule.matches(day, frozenset()):
            matched[day.weekday()].append(f"{MONTHS[day.month - 1]} {day.day:02}")
            if first <= year <= last:
                check_recurrence(day, first, last)
    if not matched:
        raise NoYears(f"{text}: {year} has no such day")
    if not first <= year <= last:
        return []
    return [f"{','.join(it)} {WEEKDAYS[weekday]} {spans}" for weekday, it in matched.items()]


def hours(text: str, first: int, last: int) -> Optional[str]:
    """Hours without years; None where they cover nothing in the years from first to last."""
    rules = [rule for one in text.split(";") for rule in dated(one.strip(), first, last)]
    return "; ".join(rules) if rules else None


def value(text: str, first: int, last: int) -> str:
    """A conditional value without years. A clause whose hours are of other years is left out."""
    clauses = []
    for one in notation.outside_parentheses(text, ";"):
        if not years_in(one):
            clauses.append(one.strip())
            continue
        given, _, condition = one.partition("@")
        condition = condition.strip()
        if condition.startswith("(") and condition.endswith(")"):
            condition = condition[1:-1]
        parts: list[Optional[str]] = [
            hours(it, first, last) if DATED_PART.search(it) else it
            for it in (part.strip() for part in re.split(r"\s+AND\s+", condition))
        ]
        if None not in parts:
            clauses.append(f"{given.strip()} @ ({' AND '.join(str(it) for it in parts)})")
    return "; ".join(clauses)
