"""The tables of a folder that lorry_plan reads, and two more that say which node and road a number
is."""
from __future__ import annotations

import csv
import os
from typing import AbstractSet, Any, Iterable, Iterator, Mapping, Sequence, Sized

import numpy

from lorry_tools.conversion import access, coarse, sites, zone_rows
from lorry_tools.conversion.access import OPEN, Lists
from lorry_tools.conversion.arcs import Arcs
from lorry_tools.conversion.extract import Extract, TagPairs
from lorry_tools.conversion.report import Report
from lorry_tools.conversion.roads import FERRY_AREA, Network

# The limits of docs/LIMITS.md.
MOST_NODES, MOST_ARCS, MOST_AREAS, MOST_RULES, LONGEST_DRIVE = (
    500_000,
    1_000_000,
    1_000,
    20_000,
    10_080,
)
# A folder that is estimated to be larger than this share of the limits is refused before it is
# made: estimates are too low rather than too high.
SURELY = 1.0
MAP_LICENCE = (
    "(c) OpenStreetMap contributors, Open Database License (ODbL) 1.0,"
    " https://www.openstreetmap.org/copyright"
)
# How many rows are made at once.
AT_ONCE = 2_000
# Tags that say nothing about who is let in.
PLAIN_TAGS = ("highway", "junction", "toll", "ref", "route", "duration", "motorroad")

VEHICLES = """name,class,weight_kg,axleload_kg,height_cm,width_cm,length_cm,axles,purpose,flags
van35,goods,3500,2000,280,220,650,2,through,
solo75,hgv,7490,5500,350,250,850,2,through,
solo18,hgv,18000,11500,400,255,1000,2,through,
solo18d,hgv,18000,11500,400,255,1000,2,delivery,
artic40,hgv_articulated,40000,11500,400,255,1650,5,through,articulated
artic40d,hgv_articulated,40000,11500,400,255,1650,5,delivery,articulated
tanker40,hgv_articulated,40000,11500,400,255,1650,5,delivery,articulated hazmat hazmat_water
coach,bus,18000,11500,385,255,1300,2,through,
"""


class TooLarge(Exception):
    """The folder would be larger than lorry_plan reads; the message says what to do."""


def write(folder: str, name: str, header: Iterable[str], rows: Iterable[Iterable[object]]) -> None:
    with open(os.path.join(folder, name), "w", encoding="utf-8", newline="") as file:
        writer = csv.writer(file, lineterminator="\n")
        writer.writerow(header)
        writer.writerows(rows)


def write_graph(folder: str, extract: str, count: int, arcs: Arcs, numbers: Any) -> None:
    with open(
        os.path.join(folder, "graph.gr"), "w", encoding="ascii", errors="replace", newline="\n"
    ) as file:
        file.write(
            f"c Roads of {extract}, by tools/from_osm\nc Map data {MAP_LICENCE}\np sp"
            f" {count} {len(arcs)}\n"
        )
        for first in range(0, len(arcs), AT_ONCE):
            tails, heads, times = (
                it[first : first + AT_ONCE] for it in (arcs.tails, arcs.heads, arcs.times)
            )
            columns = (numbers[tails], numbers[heads], coarse.minutes(times))
            file.writelines(["a %d %d %d\n" % it for it in zip(*(it.tolist() for it in columns))])


class Areas:
    """Areas of arcs: those of the countries, and one for each set of arcs of a country that have
    the same rules of their own."""

    def __init__(self, laws: Mapping[str, Lists]) -> None:
        self.laws = laws
        self.all_open: Lists = (OPEN,) * 4
        self.countries: dict[str, str] = {}
        self.rows: list[tuple[str, str, str]] = []
        # The area of each arc, as a number of `countries`; the first one need not be said.
        self.of_arc = numpy.zeros(0, dtype=numpy.int32)
        self.by_arc = 0

    def law(self, country: str) -> Lists:
        if country.endswith(FERRY_AREA):
            return self.all_open
        return self.laws.get(country) or self.laws.get(country.split("-")[0]) or self.all_open

    def divide(self, arcs: Arcs, names: Sequence[str], lists_of: Sequence[Lists]) -> int:
        """Sets `names` and `countries` of areas, `of_arc`, and `rows` of rules. Arcs have the
        numbers of their country in `names`, and of their own rules in `lists_of`."""
        used, counts = numpy.unique(arcs.areas, return_counts=True)
        sizes = {names[it]: count for it, count in zip(used.tolist(), counts.tolist())}
        self.countries = {
            name: name for name, _ in sorted(sizes.items(), key=lambda it: (-it[1], it[0]))
        }
        self.rows = [
            (f"area:{name}",) + row
            for name in self.countries
            for row in access.rows(self.law(name), False)
        ]
        numbers = {name: number for number, name in enumerate(self.countries)}
        self.of_arc = numpy.array([numbers.get(it, 0) for it in names], dtype=int)[arcs.areas]
        self.by_arc = 0
        groups, group_of = self.groups(arcs, names, lists_of)
        at = numpy.flatnonzero(group_of >= 0)
        order = at[numpy.argsort(group_of[at], kind="stable")]
        members = numpy.split(order, numpy.cumsum(numpy.bincount(group_of[at]))[:-1])
        ordered = sorted(zip(groups, members), key=lambda it: (-len(it[1]), int(it[1][0])))
        for (country, lists), own in ordered:
            if len(self.countries) < MOST_AREAS:
                name = f"{country}.{len(self.countries) + 1 - len(used)}"
                self.of_arc[own] = len(self.countries)
                self.countries[name] = country
                self.rows += [(f"area:{name}",) + row for row in access.rows(lists, False)]
            else:
                self.by_arc += len(own)
                rows = access.rows(lists, True)
                self.rows += [(f"arc:{it + 1}",) + row for it in own.tolist() for row in rows]
        return len(order)

    def groups(
        self, arcs: Arcs, names: Sequence[str], lists_of: Sequence[Lists]
    ) -> tuple[list[tuple[str, Lists]], Any]:
        """The countries and lists of arcs whose lists aren't their country's law, and the number of
        each arc's among these, -1 for other arcs."""
        found: dict[tuple[str, Lists], int] = {}
        kinds, kind_of = numpy.unique(
            arcs.areas.astype(numpy.int64) * len(lists_of) + arcs.rules, return_inverse=True
        )
        numbers = numpy.full(len(kinds), -1)
        for at, kind in enumerate(kinds.tolist()):
            country, own_lists = names[kind // len(lists_of)], lists_of[kind % len(lists_of)]
            law = self.law(country)
            lists = tuple(access.both(own, other) for own, other in zip(law, own_lists))
            if lists != law:
                numbers[at] = found.setdefault((country, lists), len(found))
        return list(found), numbers[kind_of]

    def arcs(self) -> Iterator[tuple[int, str]]:
        """The arcs that aren't in the first area, by their numbers, with their areas."""
        names = list(self.countries)
        at = numpy.flatnonzero(self.of_arc)
        return ((it + 1, names[area]) for it, area in zip(at.tolist(), self.of_arc[at].tolist()))

    def holiday_areas(self) -> list[str]:
        """The areas whose rules speak of holidays, and all countries."""
        named = {
            scope[len("area:") :] for scope, _, value in self.rows if "PH" in value or "SH" in value
        }
        return [
            name for name, country in self.countries.items() if name == country or name in named
        ]

    def speak_of_holidays(self, kind: str) -> list[str]:
        """The countries of which some rule speaks of holidays of this kind."""
        found: set[str] = set()
        for scope, _, value in self.rows:
            if kind in value:
                found.update(
                    [self.countries[scope[len("area:") :]]]
                    if scope.startswith("area:")
                    else self.countries.values()
                )
        return sorted(found)


def zone_of(country: str, given: Mapping[str, str], middle: Sequence[float], report: Report) -> str:
    """The zone of a country: as given, or that of the database whose town is nearest to the middle
    of the roads."""
    for name in (country, country.split("-")[0]):
        if name in given:
            return given[name]
    zones = zone_rows.zones_of(country[:2])
    if not zones:
        report.add("warning", "no zone is known: hours are read in UTC (--zone NAME=ZONE)", country)
        return "UTC"
    zone = min(zones, key=lambda it: (it[1] - middle[0]) ** 2 + (it[2] - middle[1]) ** 2)[0]
    if len(zones) > 1:
        report.add(
            "warning",
            "a country of several zones, one of which was taken (--zone NAME=ZONE)",
            f"{country}: {zone}",
        )
    return zone


def rating_rows(folder: str, used: AbstractSet[str]) -> list[list[str]]:
    """The rows of ratings.csv: those that the user has there, and those that are missing."""
    rows: list[list[str]] = []
    path = os.path.join(folder, "ratings.csv")
    if os.path.exists(path):
        with open(path, encoding="utf-8", newline="") as file:
            rows = [row for row in list(csv.reader(file))[1:] if row]
    known = {row[0] for row in rows}
    return rows + [
        [name, weight]
        for name, weight in sites.RATINGS.items()
        if name in used and name not in known
    ]


def check_sizes(count: int, arcs: Arcs, rows: Sized) -> None:
    if count > MOST_NODES or len(arcs) > MOST_ARCS:
        raise TooLarge(
            f"{count:,} nodes and {len(arcs):,} arcs are more than the {MOST_NODES:,} and"
            f" {MOST_ARCS:,} that lorry_plan reads: take more seconds by --coarse, or only larger"
            " roads by --roads"
        )
    if (coarse.minutes(arcs.times) > LONGEST_DRIVE).any():
        raise TooLarge(
            "a road takes more than the week that lorry_plan reads: look at its maxspeed"
        )
    if len(rows) > MOST_RULES:
        raise TooLarge(
            f"{len(rows):,} rows of rules are more than the {MOST_RULES:,} that lorry_plan reads: "
            "take more seconds by --coarse, or only larger roads by --roads"
        )


def texts_of(tags: TagPairs) -> list[str]:
    """The tags of a way that may be behind its rules."""
    return [
        f"{key}={value}"
        for key, value in tags
        if key not in PLAIN_TAGS and not key.startswith(("maxspeed", "oneway"))
    ]


def way_rows(
    extract: Extract, network: Network, arcs: Arcs
) -> Iterator[tuple[int, str, str, int, int, str]]:
    """The rows of ways.csv, with each of the tags of an arc's ways once."""
    ways, number = extract.ways, 0
    texts = [texts_of(tags) for tags in ways.tags]
    numbers = numpy.frombuffer(ways.numbers, dtype=numpy.int64)
    # The place of each way's texts, -1 where it has none.
    has_texts = numpy.array([len(it) > 0 for it in texts], dtype=bool)
    tags_of = numpy.frombuffer(ways.tags_of, dtype=numpy.intc)
    for first in range(0, len(arcs), AT_ONCE):
        firsts = arcs.firsts[first : first + AT_ONCE + 1]
        pieces = arcs.pieces[firsts[0] : firsts[-1]]
        way_of = network.way_of[numpy.where(pieces >= 0, pieces, -1 - pieces)]
        # Of pieces of the same way, one after the other, the first one.
        is_other = numpy.ones(len(way_of), dtype=bool)
        is_other[1:] = way_of[1:] != way_of[:-1]
        is_other[firsts[:-1] - firsts[0]] = True
        cuts = numpy.concatenate(([0], numpy.cumsum(is_other)))[firsts - firsts[0]].tolist()
        own_ways, tags_here = way_of[is_other], tags_of[way_of[is_other]]
        own_tags = numpy.where(has_texts[tags_here], tags_here, -1).tolist()
        own_numbers = list(map(str, numbers[own_ways].tolist()))
        own_ways = own_ways.tolist()
        columns = (it[first : first + AT_ONCE] for it in (arcs.names, arcs.lengths, arcs.times))
        for a, b, name, length, time in zip(cuts, cuts[1:], *(it.tolist() for it in columns)):
            number += 1
            tags = dict.fromkeys(text for at in own_tags[a:b] if at >= 0 for text in texts[at])
            yield (
                number,
                ";".join(dict(zip(own_ways[a:b], own_numbers[a:b])).values()),
                ways.names[name],
                round(length),
                round(time / 1000),
                " | ".join(tags),
            )


def write_roads(
    folder: str,
    extract: Extract,
    network: Network,
    nodes: Any,
    arcs: Arcs,
    names: Mapping[int, str],
) -> None:
    """Writes nodes.csv and ways.csv."""
    write(
        folder,
        "nodes.csv",
        ("node", "osm_node", "lon", "lat", "name"),
        (
            (
                number,
                network.refs[node],
                f"{network.xs[node] / 1e7:.5f}",
                f"{network.ys[node] / 1e7:.5f}",
                names.get(node, ""),
            )
            for number, node in enumerate(nodes.tolist(), 1)
        ),
    )
    write(
        folder,
        "ways.csv",
        ("arc", "osm_way", "name", "metres", "seconds", "tags"),
        way_rows(extract, network, arcs),
    )
