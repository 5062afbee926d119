"""Writes the rules and days of law tables for a folder made by hand, and shows the tables.

    tools/laws show [COUNTRY..]
    tools/laws copy DIR
    tools/laws rules [--years FIRST LAST] [--tables FOLDER] AREA=CODE[,ROAD].. > DIR/rules.csv
    tools/laws days [--years FIRST LAST] [--tables FOLDER] AREA=CODE.. > DIR/holidays.csv

The tables were written from memory: whoever uses a row has to check it, by the article that it
names. `show` prints rows, `copy` copies the tables to a folder where they may be corrected, which
is then named by --tables, here, or by --laws of tools/from_osm.

AREA is a name of areas.csv. CODE is a country, such as de, or a region of it, such as de-by. ROAD
is the class of the area's roads, such as motorway or primary, or their number, such as 'A 8': the
rows of all sections of such roads hold there too. The days have the kinds PH, days of the ban,
and SH, the eves that the laws of some countries speak of. The years are this one and the two that
follow, if none are given."""
from __future__ import annotations

import argparse
import csv
import os
import re
import shutil
import sys
from typing import Iterable, Iterator, Optional

from lorry_tools.conversion import access, holiday_rows
from lorry_tools.laws import table
from lorry_tools.laws.table import Tables
from lorry_tools.problems import Problem
from lorry_tools.running import write_as_utf8

AREA = re.compile(r"([A-Za-z0-9_.][A-Za-z0-9_.-]{0,63})=([a-z]{2}(?:-[a-z0-9]{1,3})?)(?:,(.+))?$")


def parser() -> argparse.ArgumentParser:
    found = argparse.ArgumentParser(
        description=__doc__, formatter_class=argparse.RawDescriptionHelpFormatter
    )
    found.add_argument("command", choices=("show", "copy", "rules", "days"))
    found.add_argument(
        "--years",
        nargs=2,
        type=int,
        metavar=("FIRST", "LAST"),
        default=holiday_rows.years_from_now(),
    )
    found.add_argument("--tables", metavar="FOLDER", help="other tables than those of the tools")
    found.add_argument("words", nargs="*", metavar="WORD")
    return found


def areas_of(words: Iterable[str], tables: Tables) -> Iterator[tuple[str, str, dict[str, str]]]:
    """The name of each area, its country or region, and the tags of its roads."""
    for word in words:
        parts = AREA.match(word)
        if not parts:
            raise Problem(f"{word} isn't of the form AREA=CODE or AREA=CODE,ROAD", 2)
        name, code, road = parts.groups()
        if not tables.knows(code):
            raise Problem(f"there is no law table of {code.split('-')[0]}", 1)
        yield name, code, tags_of(road)


def tags_of(road: Optional[str]) -> dict[str, str]:
    """The tags of a road that is named by its class or by its number."""
    if not road:
        return {}
    if re.match(r"[a-z_]+$", road):
        return {"highway": road}
    return {"ref": road, "highway": "motorway" if road.startswith("A") else "primary"}


def rules(tables: Tables, words: list[str], first: int, last: int) -> Iterator[tuple[str, ...]]:
    for area, code, road in areas_of(words, tables):
        for key, value in access.rows(tables.lists_on(code, road, first, last), False):
            yield f"area:{area}", key, value


def days(tables: Tables, words: list[str], first: int, last: int) -> Iterator[tuple[str, ...]]:
    for area, code, _ in areas_of(words, tables):
        for kind, day in tables.days(code, first, last):
            yield area, kind, day


def show(tables: Tables, countries: list[str]) -> Iterator[tuple[str, ...]]:
    for country in countries or sorted(tables.rows):
        if country not in tables.rows:
            raise Problem(f"there is no law table of {country}", 1)
        for row in tables.rows[country]:
            regions = ("not " if row.besides else "") + " ".join(row.regions)
            yield (
                row.country,
                regions,
                row.section.text,
                row.key,
                row.value,
                row.article,
                row.written,
                row.caution,
            )


def copy(folder: str, target: str) -> None:
    os.makedirs(target, exist_ok=True)
    for path in table.table_paths(folder):
        place = os.path.join(target, os.path.basename(path))
        if os.path.exists(place):
            raise Problem(f"{place} is there already", 2)
        shutil.copyfile(path, place)


def warn(tables: Tables, words: list[str], first: int, last: int) -> None:
    """Says on the standard error what has to be looked at."""
    codes = dict.fromkeys(code for _, code, _ in areas_of(words, tables))
    for code in codes:
        for what, example in tables.warnings(code, first, last):
            print(f"laws: {what}: {example}", file=sys.stderr)


def main() -> int:
    write_as_utf8()
    options = parser().parse_intermixed_args()
    first, last = options.years
    if not holiday_rows.FIRST_YEAR <= first <= last <= holiday_rows.LAST_YEAR:
        raise Problem(f"years {first} to {last}: the first one first, from 1970 to 2199", 2)
    folder = options.tables or table.OWN
    if options.command == "copy":
        if len(options.words) != 1:
            raise Problem("copy takes the folder to which the tables are copied", 2)
        copy(folder, options.words[0])
        return 0
    tables = table.read(folder)
    writer = csv.writer(sys.stdout, lineterminator="\n")
    if options.command == "show":
        writer.writerow(table.HEADER)
        writer.writerows(show(tables, options.words))
        return 0
    if not options.words:
        raise Problem(f"{options.command} takes areas, such as berlin=de-be", 2)
    is_rules = options.command == "rules"
    writer.writerow(("scope", "key", "value") if is_rules else ("area", "kind", "date"))
    made = (rules if is_rules else days)(tables, options.words, first, last)
    writer.writerows(made)
    warn(tables, options.words, first, last)
    return 0
