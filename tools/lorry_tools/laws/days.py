"""The days of a law by year: `12-25`, `easter+39`, `2026-08-15`, and `PH-1`, the day before each
public holiday."""
from __future__ import annotations

import datetime
import re
from typing import Iterable

# A kind of days, PH or SH, and a text that says which day.
DayRow = tuple[str, str]
DAY = datetime.timedelta(days=1)
EVES = "PH-1"
TEXT = re.compile(r"(?:easter([+-]\d{1,3})?|(?:(\d{4})-)?(\d\d)-(\d\d))$")


class NoDay(Exception):
    """A text that says no day; the message says why."""


def easter(year: int) -> datetime.date:
    """Easter Sunday of the Gregorian calendar, by the rule of Meeus, Jones and Butcher."""
    century, place = divmod(year, 100)
    leaps, rest = divmod(century, 4)
    correction = (century - (century + 8) // 25 + 1) // 3
    epact = (19 * (year % 19) + century - leaps - correction + 15) % 30
    weekday = (32 + 2 * rest + 2 * (place // 4) - epact - place % 4) % 7
    shift = (year % 19 + 11 * epact + 22 * weekday) // 451
    month, day = divmod(epact + weekday - 7 * shift + 114, 31)
    return datetime.date(year, month, day + 1)


def check(kind: str, text: str) -> None:
    """Raises NoDay where a row of days can't be read."""
    if text == EVES:
        if kind != "SH":
            raise NoDay("the eves of public holidays are of the kind SH")
        return
    found = TEXT.match(text)
    if not found:
        raise NoDay(f"{text} is no day such as 12-25, easter+39 or 2026-08-15")
    if found[3]:
        try:
            datetime.date(int(found[2] or 2000), int(found[3]), int(found[4]))
        except ValueError:
            raise NoDay(f"{text} is in no year") from None


def day_of(text: str, year: int) -> list[datetime.date]:
    """The day of a year that a text says; none where the year has none."""
    found = TEXT.match(text)
    if not found or (found[2] and int(found[2]) != year):
        return []
    if not found[3]:
        return [easter(year) + int(found[1] or 0) * DAY]
    try:
        return [datetime.date(year, int(found[3]), int(found[4]))]
    except ValueError:
        return []


def dates(rows: Iterable[DayRow], first: int, last: int) -> list[tuple[str, str]]:
    """The kind and the date of each day from the first year to the last, in order."""
    own = list(rows)
    years = range(first - 1, last + 2)
    found = {
        (kind, day)
        for kind, text in own
        for year in years
        for day in day_of(text, year)
        if text != EVES
    }
    if ("SH", EVES) in own:
        found |= {("SH", day - DAY) for kind, day in found if kind == "PH"}
    kept = sorted((day, kind) for kind, day in found if first <= day.year <= last)
    return [(kind, day.isoformat()) for day, kind in kept]
