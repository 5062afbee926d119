"""Makes a folder for lorry_plan from an OpenStreetMap extract.

    tools/from_osm [options] EXTRACT DIR

EXTRACT is a file that pyosmium reads: .osm.pbf, .osm, .osm.bz2. DIR gets graph.gr, the tables,
nodes.csv and ways.csv with the places and names of nodes and arcs, shapes.csv with the way of each
arc over the map, and report.txt, which says what was read, changed, closed and left out. Tables of
an earlier run are replaced, but vehicles.csv and ratings.csv stay as they are. docs/REAL_ROADS.md
has an example, and says what the folder isn't good for."""
from __future__ import annotations

import argparse
import gc
import os

from lorry_tools.conversion import holiday_rows, memory
from lorry_tools.problems import Problem

MISSING = (
    "pyosmium or numpy is missing: apt-get install python3-pyosmium python3-numpy, and run this by "
    "the system's own Python, /usr/bin/python3"
)


def parser() -> argparse.ArgumentParser:
    found = argparse.ArgumentParser(
        description=__doc__, formatter_class=argparse.RawDescriptionHelpFormatter
    )
    add = found.add_argument
    add("extract", metavar="EXTRACT")
    add("dir", metavar="DIR")
    add(
        "--coarse",
        type=int,
        default=90,
        metavar="SECONDS",
        help=(
            "keep about one junction in so many seconds of driving (90); 0 keeps all, and trips in"
            " towns get four times too long"
        ),
    )
    add(
        "--roads",
        metavar="CLASS",
        help="the least class of roads that is taken, such as tertiary; all, if it isn't given",
    )
    add(
        "--processes",
        type=int,
        default=1,
        metavar="N",
        help="how many processes look for ways between kept junctions (1); the folder is the same",
    )
    add(
        "--polygon",
        metavar="FILE",
        help="take only roads within a polygon, in the form of Osmosis (.poly)",
    )
    add(
        "--country",
        metavar="CODE",
        help="the country, such as de or de-by, of roads outside the borders of the extract",
    )
    add(
        "--borders", metavar="FILE", help="another OpenStreetMap file with the borders of countries"
    )
    add(
        "--subdivisions",
        action="store_true",
        help="areas by the borders of subdivisions, such as de-by, where the extract has them",
    )
    add(
        "--zone",
        action="append",
        default=[],
        metavar="CODE=ZONE",
        help="the time zone of a country; the zone database says it for most",
    )
    add(
        "--laws",
        metavar="FILE",
        help=(
            "a table `country,key,value` of bans that hold on all roads of a country; or a law"
            " table, or a folder of them; or the word `tables`, for those of the tools, which are"
            " to be checked"
        ),
    )
    add(
        "--holidays",
        metavar="FILE",
        help="a table `area,kind,date` for countries, in place of python3-holidays",
    )
    add(
        "--no-holidays",
        action="store_true",
        help="go on without the holidays of countries that aren't known",
    )
    add(
        "--years",
        nargs=2,
        type=int,
        metavar=("FIRST", "LAST"),
        default=holiday_rows.years_from_now(),
        help="years of zones and holidays: this one and two more",
    )
    add(
        "--depot",
        action="append",
        default=[],
        metavar="NAME=LAT,LON",
        help="a place of your own where lorries may wait; its node is kept and printed",
    )
    add(
        "--any-parking",
        action="store_true",
        help="take all public parking, not only that for lorries",
    )
    add(
        "--toll-per-km",
        type=float,
        default=0,
        metavar="PRICE",
        help="the price of a kilometre with a toll; a minute of driving costs 1",
    )
    add(
        "--motorcar",
        action="store_true",
        help=(
            "read motorcar=no and the like as motor_vehicle, where nothing else is said: older data"
            " mean so"
        ),
    )
    add("--tracks", action="store_true", help="take tracks too")
    add(
        "--ferries",
        choices=("driving", "out"),
        default="driving",
        help="whether ferries that have a duration are roads, or left out; timetables aren't read",
    )
    add(
        "--speed",
        action="append",
        default=[],
        metavar="CLASS=KMH",
        help="the speed on a class of roads",
    )
    add(
        "--vehicle-class",
        choices=("hgv", "goods", "bus"),
        default="hgv",
        help=(
            "whose minutes the folder has: those of lorries (the default), which drive at most 80"
            " km/h, or as fast as their country lets them; of vans, or of coaches"
        ),
    )
    add(
        "--night-speed",
        action="append",
        default=[],
        metavar="CODE=KMH",
        help=(
            "a speed of lorries over 7.5 tonnes from 22:00 to 05:00 in a country, such as at=60: by"
            " a slower arc beside each faster one, which is closed to them then"
        ),
    )
    add(
        "--unread",
        choices=("close", "open"),
        default="close",
        help=(
            "what to do with a ban or a limit that can't be read: close the road (the default), or"
            " leave it out"
        ),
    )
    return found


def main() -> int:
    words = parser()
    options = words.parse_args()
    try:
        import numpy  # noqa: F401
        import osmium  # noqa: F401
    except ImportError:
        raise Problem(MISSING, 1) from None
    from lorry_tools.conversion import convert, speeds, tables, zone_rows

    if options.roads and options.roads not in speeds.LORRIES:
        words.error("--roads is one of " + ", ".join(speeds.LORRIES))
    if not 0 <= options.coarse <= 3600 or not 0 <= options.toll_per_km <= 100:
        words.error("--coarse is from 0 to 3600, and --toll-per-km from 0 to 100")
    if not 1 <= options.processes <= 64:
        words.error("--processes is from 1 to 64")
    if not 1972 <= options.years[0] <= options.years[1] <= zone_rows.LAST_YEAR - 1:
        words.error(f"years go from 1972 to {zone_rows.LAST_YEAR - 1}, the first one first")
    if not os.path.exists(options.extract):
        raise Problem(f"there is no file {options.extract}", 1)
    # A conversion makes no cycles, and each look for some would pass millions of objects.
    gc.disable()
    memory.map_large()
    try:
        report = convert.Conversion(options, convert.say).run()
    except (convert.Stop, tables.TooLarge) as error:
        raise Problem(str(error), 1) from error
    print(report.text(most=4), end="")
    return 0
