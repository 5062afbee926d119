"""Writes the table zones.csv of some zones, by the zone database of this system, to the standard
output.

    tools/zones [--years FIRST LAST] [NAME=]ZONE.. > DIR/zones.csv

ZONE is a name of that database, such as Europe/Berlin. In the table it is called NAME, or
Europe-Berlin where none is given: names have no slash there. There is a row for the start of the
year FIRST, and one for each change of the clocks up to the end of LAST: this year and the two that
follow, if no years are given. Before its first row a zone has the offset of that row, and after its
last row that of the last one, so take all years of your trips. It needs no package but tzdata,
whose rules for years to come are those that are known now."""
from __future__ import annotations

import argparse
import csv
import re
import sys

from lorry_tools.conversion import holiday_rows, zone_rows
from lorry_tools.problems import Problem


def main() -> int:
    parser = argparse.ArgumentParser(
        description=__doc__, formatter_class=argparse.RawDescriptionHelpFormatter
    )
    parser.add_argument(
        "--years",
        nargs=2,
        type=int,
        metavar=("FIRST", "LAST"),
        default=holiday_rows.years_from_now(),
    )
    parser.add_argument("zones", nargs="+", metavar="[NAME=]ZONE")
    words = parser.parse_args()
    first, last = words.years
    if not zone_rows.FIRST_YEAR <= first <= last <= zone_rows.LAST_YEAR:
        parser.error(
            f"years go from {zone_rows.FIRST_YEAR} to {zone_rows.LAST_YEAR}, the first one first"
        )
    found, seen = [], set()
    for word in words.zones:
        name, _, zone = word.rpartition("=")
        name = name or zone_rows.name_of(zone)
        if not re.match(r"[A-Za-z0-9_.][A-Za-z0-9_.-]{0,63}$", name):
            parser.error(f"{name} is no name of a zone in lorry_plan")
        if name in seen:
            parser.error(f"{name} is given twice")
        seen.add(name)
        try:
            found += zone_rows.rows(zone, first, last, name)
        except zone_rows.NoZone as error:
            raise Problem(f"{error} (apt-get install tzdata brings the database)", 1)
    if len(found) > zone_rows.MOST_ROWS:
        raise Problem(
            f"{len(found):,} rows are more than the {zone_rows.MOST_ROWS:,} that lorry_plan reads:"
            " take fewer years",
            1,
        )
    writer = csv.writer(sys.stdout, lineterminator="\n")
    writer.writerow(("zone", "from", "offset"))
    writer.writerows(found)
    return 0
