"""Public holidays by python3-holidays, of which there are versions with two kinds of calls."""
from __future__ import annotations

import datetime
from typing import Any, Optional

INSTALL = (
    "python3-holidays is missing: apt-get install python3-holidays, and run this by the system's"
    " own Python, /usr/bin/python3"
)
MOST_ROWS = 100_000

# Codes of ISO 3166-1 that older versions, such as that of Debian 12, have under other names.
OTHER_CODES = {"FR": "FRA", "HN": "HND", "IN": "IND"}
FIRST_YEAR, LAST_YEAR = 1970, 2199


class NoHolidays(Exception):
    """The library is missing, or hasn't the country; the message says so."""


def library() -> Any:
    try:
        import holidays
    except ImportError:
        raise NoHolidays(INSTALL) from None
    return holidays


def days(
    country: str, subdivision: Optional[str], first: int, last: int
) -> list[tuple[datetime.date, str]]:
    """The public holidays of a country, or of one of its subdivisions, such as DE and BY, in some
    years: dates with their names."""
    holidays = library()
    years = list(range(first, last + 1))
    if not hasattr(holidays, country):
        country = OTHER_CODES.get(country, country)
    try:
        if hasattr(holidays, "country_holidays"):
            found = holidays.country_holidays(country, subdiv=subdivision or None, years=years)
        else:
            found = with_old_calls(holidays, country, subdivision, years)
    except (KeyError, NotImplementedError, AttributeError):
        raise NoHolidays(
            "python3-holidays of this version has no"
            f" {country}{'-' + subdivision if subdivision else ''}"
        ) from None
    return [(day, found[day]) for day in sorted(found) if first <= day.year <= last]


def with_old_calls(
    holidays: Any, country: str, subdivision: Optional[str], years: list[int]
) -> Any:
    if not subdivision:
        return holidays.CountryHoliday(country, years=years)
    kind = getattr(holidays, country)
    if subdivision in getattr(kind, "STATES", ()):
        return holidays.CountryHoliday(country, state=subdivision, years=years)
    if subdivision in getattr(kind, "PROVINCES", ()):
        return holidays.CountryHoliday(country, prov=subdivision, years=years)
    # A version of this kind takes any other word, and leaves its days out.
    raise KeyError(subdivision)


def years_from_now() -> tuple[int, int]:
    """This year and the two that follow."""
    year = datetime.date.today().year
    return year, year + 2
