"""Writes the table holidays.csv of some areas, by python3-holidays, to the standard output.

    tools/holidays [--years FIRST LAST] [--names] AREA=COUNTRY[-SUBDIVISION].. > DIR/holidays.csv

AREA is a name of areas.csv. COUNTRY has two letters, such as DE, and SUBDIVISION is a part of it
with holidays of its own, such as BY; without one the days of the whole country are written. The
years are this one and the two that follow, if none are given. With --names the names of the days go
to the standard error, one on a line, to be read through: the library has the days on which people
are off, and the law of a ban may have others. School holidays (SH), and countries that the library
hasn't, are to be written by hand."""
from __future__ import annotations

import argparse
import csv
import re
import sys

from lorry_tools.conversion import holiday_rows
from lorry_tools.problems import Problem


def main() -> int:
    parser = argparse.ArgumentParser(
        description=__doc__, formatter_class=argparse.RawDescriptionHelpFormatter
    )
    parser.add_argument(
        "--years",
        nargs=2,
        type=int,
        metavar=("FIRST", "LAST"),
        default=holiday_rows.years_from_now(),
    )
    parser.add_argument("--names", action="store_true")
    parser.add_argument("areas", nargs="+", metavar="AREA=COUNTRY[-SUBDIVISION]")
    words = parser.parse_args()
    first, last = words.years
    if not holiday_rows.FIRST_YEAR <= first <= last <= holiday_rows.LAST_YEAR:
        parser.error(
            f"years go from {holiday_rows.FIRST_YEAR} to {holiday_rows.LAST_YEAR}, the first one"
            " first"
        )
    found = []
    for word in words.areas:
        parts = re.match(
            r"([A-Za-z0-9_.][A-Za-z0-9_.-]{0,63})=([A-Z]{2})(?:-([A-Za-z0-9]{1,3}))?$", word
        )
        if not parts:
            parser.error(f"{word} isn't of the form AREA=COUNTRY or AREA=COUNTRY-SUBDIVISION")
        area, country, subdivision = parts.groups()
        try:
            days = holiday_rows.days(country, subdivision, first, last)
        except holiday_rows.NoHolidays as error:
            raise Problem(str(error), 1) from error
        found += [(area, "PH", day.isoformat()) for day, _ in days]
        if words.names:
            for day, name in days:
                print(area, day.isoformat(), name, file=sys.stderr)
    if len(found) > holiday_rows.MOST_ROWS:
        raise Problem(
            f"{len(found):,} rows are more than the {holiday_rows.MOST_ROWS:,} that lorry_plan"
            " reads: take fewer years",
            1,
        )
    writer = csv.writer(sys.stdout, lineterminator="\n")
    writer.writerow(("area", "kind", "date"))
    writer.writerows(found)
    return 0
