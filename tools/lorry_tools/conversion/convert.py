"""From an extract to a folder: the steps of tools/from_osm, and the measures of its report."""
from __future__ import annotations

import argparse
import array
import collections
import copy
import csv
import os
import re
import statistics
import sys
import time
from typing import AbstractSet, Any, Callable, Iterable, Mapping, Optional, Sequence

import numpy

from lorry_tools.conversion import (
    access,
    borders,
    coarse,
    estimate,
    extract,
    holiday_rows,
    law_sections,
    memory,
    polygon,
    roads,
    shapes,
    sites,
    speeds,
    tables,
    tags as road_tags,
    turns,
    zone_rows,
)
from lorry_tools.conversion.access import Lists
from lorry_tools.conversion.arcs import Arc, Arcs, of_list
from lorry_tools.conversion.notation import Unread
from lorry_tools.conversion.report import Report
from lorry_tools.laws import table as laws
from lorry_tools.laws.table import Tables

# From how many junctions trips are measured, fewer where there are many arcs, and the shortest trip
# that counts, in milliseconds.
MOST_SOURCES, LEAST_SOURCES, MEASURED_ARCS, SHORTEST = 24, 4, 300_000, 300_000


class Stop(Exception):
    """The conversion can't go on; the message says why."""


def read_table(path: str, header: str) -> list[list[str]]:
    try:
        with open(path, encoding="utf-8-sig", newline="") as file:
            rows = list(csv.reader(line for line in file if not line.startswith("#")))
    except OSError as error:
        raise Stop(f"{path}: {error.strerror}") from None
    if not rows or rows[0] != header.split(","):
        raise Stop(f"{path} doesn't begin with the header {header}")
    return [row for row in rows[1:] if row]


def law_tables(word: Optional[str]) -> Optional[Tables]:
    """The law tables that `--laws` names: those of the tools or of a folder, or one by itself; None
    for a file of another form."""
    if word == "tables":
        return laws.read()
    if word and os.path.isdir(word):
        return laws.read(word)
    return Tables(laws.read_file(word)) if word and laws.is_table(word) else None


def read_laws(path: str) -> dict[str, Lists]:
    """The law of each country, as the lists of the four classes."""
    rows: dict[str, list[tuple[str, str]]] = {}
    for row in read_table(path, "country,key,value"):
        if len(row) != 3:
            raise Stop(f"{path}: a row has {len(row)} fields, not 3: {','.join(row)}")
        rows.setdefault(row[0].lower(), []).append((row[1], row[2]))
    found = {}
    for country, own in rows.items():
        try:
            found[country] = road_tags.law_lists(own)
        except Unread as error:
            raise Stop(f"{path}: the law of {country} can't be read: {error}") from None
    return found


def read_holidays(path: str) -> dict[str, list[tuple[str, str]]]:
    """Days by area, each a kind and a date."""
    found: dict[str, list[tuple[str, str]]] = {}
    for row in read_table(path, "area,kind,date"):
        if len(row) != 3 or row[1] not in ("PH", "SH") or not re.match(r"\d{4}-\d\d-\d\d$", row[2]):
            raise Stop(f"{path}: no area, kind and date: {','.join(row)}")
        found.setdefault(row[0].lower(), []).append((row[1], row[2]))
    return found


def speeds_of(options: argparse.Namespace) -> dict[str, int]:
    """The speeds of the classes that are taken."""
    found = dict(speeds.BY_CLASS[options.vehicle_class])
    for word in options.speed:
        name, _, number = word.partition("=")
        if name not in found or not re.match(r"\d+$", number) or not 1 <= int(number) <= 130:
            raise Stop(f"--speed {word}: not a class of roads and kilometres an hour")
        found[name] = int(number)
    if options.roads:
        names = list(found)
        last = names.index(options.roads)
        last += last + 1 < len(names) and names[last + 1] == options.roads + "_link"
        found = {name: found[name] for name in names[: last + 1]}
    return found


def depots_of(options: argparse.Namespace) -> list[sites.Site]:
    found = []
    for word in options.depot:
        parts = re.match(r"([^=]+)=(-?\d+(?:\.\d+)?),(-?\d+(?:\.\d+)?)$", word)
        if not parts or abs(float(parts[2])) > 90 or abs(float(parts[3])) > 180:
            raise Stop(f"--depot {word}: not NAME=LATITUDE,LONGITUDE")
        found.append(
            sites.Site(
                "depot", parts[1], "", round(float(parts[3]) * 1e7), round(float(parts[2]) * 1e7)
            )
        )
    return found


class Conversion:
    def __init__(self, options: argparse.Namespace, progress: Callable[[str], None]) -> None:
        self.options, self.progress = options, progress
        self.report = Report()
        self.tables = law_tables(options.laws)
        self.laws = read_laws(options.laws) if options.laws and not self.tables else {}
        self.days = read_holidays(options.holidays) if options.holidays else {}
        self.speeds = speeds_of(options)
        try:
            self.nights = speeds.nights_of(options.night_speed)
        except ValueError as error:
            raise Stop(str(error)) from None
        self.depots = depots_of(options)
        school = any(kind == "SH" for rows in self.days.values() for kind, _ in rows)
        self.reading = road_tags.Reading(
            options.unread, options.motorcar, school, options.years[0], self.speeds
        )
        self.reading.mode = options.vehicle_class

    def counted(self, what: str) -> Callable[[int, int], None]:
        """What tells, from time to time, how far a step is, and how long the rest takes."""
        return Counted(what, self.progress)

    def run(self) -> Report:
        for step in (
            self.read,
            self.find_countries,
            self.estimate,
            self.make_network,
            self.make_coarse,
            self.make_nights,
            self.number,
            self.write,
        ):
            step()
            memory.give_back()
        return self.report

    # Reading

    def read(self) -> None:
        options, report = self.options, self.report
        self.progress("reading the extract ..")
        try:
            self.extract = extract.read(
                options.extract,
                extract.Choice(
                    self.speeds,
                    options.tracks,
                    options.ferries == "driving",
                    polygon.read(options.polygon).contains if options.polygon else None,
                    self.tables.refs() if self.tables else set(),
                ),
                not options.borders,
                self.progress,
            )
        except RuntimeError as error:
            raise Stop(f"{options.extract}: {error}") from None
        except polygon.NoPolygon as error:
            raise Stop(f"{options.polygon}: {error}") from None
        found = self.extract
        if not found.ways:
            outside = found.counts["drivable ways of less than two nodes"]
            raise Stop(
                f"{options.extract} has no drivable road of the classes that are taken"
                + (
                    f"; the nodes of {outside:,} ways aren't there, or come after them (osmium"
                    " sort)"
                    if outside
                    else ""
                )
            )
        report.number(
            "nodes, ways and relations of the extract",
            ", ".join(f"{found.counts[it]:,}" for it in ("nodes", "ways", "relations")),
        )
        report.number("drivable ways", f"{found.counts['drivable ways']:,}")
        for what in (
            "drivable ways with nodes outside the extract",
            "drivable ways of less than two nodes",
            "borders of countries without a code",
        ):
            if found.counts[what]:
                report.add("left out", what, "", count=found.counts[what])
        for reason, count in found.classes.items():
            report.add("left out", "roads of classes that aren't taken", reason, count=count)
        for reason, names in found.ferries.items():
            for name in names:
                report.add("left out", reason, name)
        for kind, count in found.toll_points.items():
            report.add(
                "left out", "points of a toll, whose prices aren't in the map", kind, count=count
            )
        for key, count in found.other_keys.items():
            report.add(
                "left out",
                "tags of other keys, which aren't about access, limits, speeds or tolls",
                key,
                count=count,
            )

    # Countries

    def find_countries(self) -> None:
        options, report = self.options, self.report
        given, ways = (
            extract.read_borders(options.borders)
            if options.borders
            else (self.extract.borders, self.extract.border_ways)
        )
        self.country = options.country.lower() if options.country else None
        if self.country and not re.match(r"[a-z0-9_][a-z0-9_-]{0,40}$", self.country):
            raise Stop(f"--country {options.country}: not a code such as de or de-by")
        self.borders = borders.Borders(given, ways, options.subdivisions)
        # Their lines are no longer needed.
        self.extract.borders, self.extract.border_ways = [], {}
        codes = self.borders.codes()
        report.number(
            "borders",
            ", ".join(f"{code}{' (open)' if code in self.borders.opened else ''}" for code in codes)
            or "none",
        )
        if not codes and not self.country:
            report.add(
                "warning",
                "no border and no --country: one area `home`, whose hours are read in UTC",
                "",
            )
        self.default_area = self.country or ("home" if not codes else "other")
        use = codes and not (len(codes) == 1 and not self.borders.closed)
        self.areas_of = self.borders.countries if use else None
        if codes and not use and not self.country:
            self.default_area = codes[0]
        self.read_law_tables(dict.fromkeys([*codes, self.default_area]))

    def read_law_tables(self, codes: Iterable[str]) -> None:
        """Takes the laws of these countries and regions from the tables, and says what whoever
        uses them has to look at."""
        first, last = self.options.years
        self.law_of: Optional[roads.LawOf] = None
        self.law_changes: AbstractSet[int] = set()
        if not self.tables:
            return
        known = [code for code in codes if self.tables.knows(code)]
        self.laws = {code: self.tables.lists(code, first, last) for code in known}
        sections = law_sections.SectionLaws(self.tables, known, first, last)
        sections.locate(self.extract, self.report)
        self.law_of = sections.lists if sections.rows else None
        self.law_changes = sections.changes
        if self.reading.school_holidays and any(map(self.tables.speaks_of_eves, known)):
            self.reading.school_holidays = False
            self.report.add(
                "warning", "school holidays of signs aren't read, as SH are the eves of a law", ""
            )
        for code in known:
            for what, example in self.tables.warnings(code, first, last):
                self.report.add("warning", what, example)

    # The network

    def estimate(self) -> None:
        """Stops where the folder would be far too large."""
        if len(self.extract.ways) < estimate.FEWEST_WAYS:
            return
        gap, most = self.options.coarse, estimate.Size(tables.MOST_NODES, tables.MOST_ARCS)
        self.progress("estimating the size of the folder ..")
        places = self.places_to_wait(Report())
        # The borders count what they are asked, and the report says so.
        own = copy.copy(self.borders)
        own.near = collections.Counter()
        estimated = estimate.Estimate(
            self.extract,
            self.reading,
            list(self.speeds),
            places,
            own.countries if self.areas_of else None,
        )
        size = estimated.size(gap)
        self.progress(f"the folder will have {size.text()}")
        self.report.number("size of the folder, as estimated after reading", size.text())
        if size.fits(most, tables.SURELY):
            return
        found = estimate.advice(estimated, gap, most, self.progress)
        words = "; ".join(f"{word} would fit, with {it.text()}" for word, it in found)
        raise Stop(
            f"the folder would have {size.text()}, and lorry_plan reads {most.nodes:,} nodes and"
            f" {most.arcs:,} arcs: {words or 'take a part of the extract, by --polygon'}"
        )

    def places_to_wait(self, report: Report) -> list[sites.Site]:
        """The depots, and the parking that is taken."""
        any_parking, reading = self.options.any_parking, self.reading
        found = (sites.site_of(*it, any_parking, reading, report) for it in self.extract.parking)
        return self.depots + [site for site in found if site]

    def make_network(self) -> None:
        report, found = self.report, self.extract
        self.rules = roads.Rules()
        way_rules = self.way_rules = roads.WayRules(self.reading, self.rules, report, self.law_of)
        self.progress(f"{len(found.ways):,} drivable ways read")
        self.sites = self.places_to_wait(report)
        keys = sites.nearest_refs(found, way_rules.is_usable, self.sites)
        restricted = turns.read(found, self.reading, report)
        keys |= restricted.keys() | self.law_changes
        self.network, arcs = roads.build(found, way_rules, keys, self.areas_of, self.default_area)
        network = self.network
        expansion = turns.Expansion(network, self.rules, restricted)
        arcs, self.split = expansion.arcs(arcs), expansion.split
        if self.split:
            report.number("nodes of junctions with turn restrictions", f"{len(self.split):,}")
        report.number("arcs before anything is left out", f"{len(arcs):,}")
        self.progress(f"{len(arcs):,} arcs; the largest strongly connected part ..")
        nodes = roads.largest_component(len(network.refs), arcs.tails, arcs.heads)
        self.report_lost(arcs, numpy.flatnonzero(~(nodes[arcs.tails] & nodes[arcs.heads])))
        arcs.keep(nodes[arcs.tails] & nodes[arcs.heads])
        if not len(arcs):
            raise Stop("no two places are connected in both directions")
        self.sites = sites.place_sites(self.sites, network, nodes, report)
        found.parking = []
        kept = {site.node for site in self.sites}
        self.arcs = arcs = roads.without_continuations(len(network.refs), arcs, kept)
        self.nodes = numpy.unique(arcs.tails)
        # The numbers of the nodes of ways are no longer needed.
        found.refs = array.array("q")
        report.number(
            "junctions and arcs of the largest strongly connected part",
            f"{len(self.nodes):,}, {len(arcs):,}",
        )
        report.number("kilometres of arcs", f"{sum(arcs.lengths.tolist()) / 1000:,.0f}")
        for area, count in self.borders.near.items():
            if area is not None:
                report.add(
                    "warning",
                    (
                        "steps of roads whose country was found by the nearest border, as borders"
                        " of the extract are cut"
                    ),
                    area,
                    count=count,
                )
        # Nothing is asked of the borders from here on.
        self.borders, self.areas_of = borders.Borders([], {}, False), None
        if "other" in (network.areas[it] for it in numpy.unique(arcs.areas).tolist()):
            report.add("warning", "roads in no known country: give --country", "")

    def report_lost(self, arcs: Arcs, lost: Any) -> None:
        """Reports arcs that are left out, by their names."""
        extract = self.extract
        names, firsts, counts = numpy.unique(
            arcs.names[lost], return_index=True, return_counts=True
        )
        for name, first, count in zip(names.tolist(), firsts.tolist(), counts.tolist()):
            piece = arcs[int(lost[first])].pieces[0]
            self.report.add(
                "left out",
                "arcs outside the largest strongly connected part",
                extract.ways.names[name] or "without a name",
                f"way {extract.ways.numbers[self.network.way_of_piece(piece)]}",
                count,
            )

    # Coarse

    def make_coarse(self) -> None:
        options, report, network = self.options, self.report, self.network
        self.fine_arcs = self.arcs
        # In a coarse network the rules of arcs are numbers of these sets.
        self.sets: list[frozenset[int]] = []
        if not options.coarse:
            return
        count = len(network.refs)
        fixed = roads.at_borders(count, self.arcs) | {
            site.node for site in self.sites if site.rating in sites.EXACT
        }
        unfit = network.numbers(self.extract.barriers) | self.split
        stars = coarse.Stars(count, self.arcs, (network.xs, network.ys))
        found = coarse.Coarse(
            stars, fixed, unfit, options.coarse * 1000, self.counted, options.processes
        )
        made, self.sets = found.made, found.sets
        kept = f"{numpy.count_nonzero(found.kept):,}"
        self.progress(
            f"{kept} junctions kept, {len(made):,} ways between them; leaving out what others"
            " replace .."
        )
        arcs = coarse.usable(made, self.sets, self.rules)
        report.number("junctions kept, and ways between them", f"{kept}, {len(made):,}")
        if len(made) > len(arcs):
            report.add(
                "left out",
                "ways between junctions that nobody may use as a whole",
                "",
                count=len(made) - len(arcs),
            )
        if found.gave_up:
            report.add(
                "warning",
                "junctions from which ways with more rules were given up",
                "",
                count=found.gave_up,
            )
        del found, made
        arcs = coarse.without_detours(
            arcs, self.sets, network.xs, network.ys, self.counted("ways compared with others")
        )
        nodes = roads.largest_component(count, arcs.tails, arcs.heads)
        arcs = roads.within(arcs, nodes)
        if not len(arcs):
            raise Stop("nothing is left of so coarse a network: take fewer seconds by --coarse")
        self.move_sites(nodes, stars)
        del stars
        self.arcs = coarse.named(arcs, self.fine_arcs, self.extract.ways.names)

    def move_sites(self, nodes: Any, stars: coarse.Stars) -> None:
        """Parking that isn't at a kept junction moves to the nearest one by driving time."""
        gap = self.options.coarse * 1000
        known: dict[int, Optional[int]] = {}
        is_kept = nodes.tobytes()
        for site in self.sites:
            if not nodes[site.node]:
                if site.node not in known:
                    known[site.node] = coarse.nearest(site.node, stars, is_kept, 2 * gap)
                near = known[site.node]
                site.node = sites.NOWHERE if near is None else near
                if site.node == sites.NOWHERE:
                    self.report.add(
                        "left out",
                        "places to wait too far from a kept junction",
                        f"{site.rating} {site.name}".strip(),
                    )
                else:
                    self.report.add(
                        "changed",
                        "places to wait that moved to the nearest kept junction",
                        site.rating,
                    )
        self.sites = [site for site in self.sites if site.node != sites.NOWHERE]

    # Nights

    def make_nights(self) -> None:
        """Lays a slower arc beside each one that takes longer by night, which is then closed to
        heavy lorries."""
        if not self.nights:
            return
        number = self.rules.of(speeds.night_lists())
        arcs, found = self.arcs, list[Arc]()
        self.set_numbers = {it: at for at, it in enumerate(self.sets)}
        for at in range(len(arcs)):
            arc = arcs[at]
            night = self.nights.get(self.network.areas[arc.area].split("-")[0])
            slow = self.night_time(arc, night) if night else arc.time
            if slow // 1000 > arc.time // 1000:
                if coarse.minutes(slow) > coarse.minutes(arc.time):
                    found.append(arc._replace(time=slow))
                    arcs.rules[at] = self.with_rule(arc, number)
        self.arcs = arcs.with_more(of_list(found))
        if found:
            self.report.number("slower arcs for the night", f"{len(found):,}")

    def with_rule(self, arc: Arc, number: int) -> int:
        if not self.sets:
            return self.rules.both(arc.rules, number)
        own = self.sets[arc.rules] | {number}
        if own not in self.set_numbers:
            self.set_numbers[own] = len(self.sets)
            self.sets.append(own)
        return self.set_numbers[own]

    def night_time(self, arc: Arc, night: int) -> int:
        """The milliseconds of an arc's pieces, none faster than NIGHT kilometres an hour."""
        time = 0
        for piece in arc.pieces:
            places = self.network.piece_places(piece)
            way = self.extract.ways[self.network.way_of_piece(piece)]
            forward, backward, _ = self.way_rules.known(way.tags)[0]
            speed = (forward if piece >= 0 else backward)[1]
            area = self.network.areas[arc.area]
            speed = min(speed, self.way_rules.most(area, way.tags), night / 3.6)
            length = roads.length_of(self.extract, min(places), max(places))
            time += max(1, round(length / speed * 1000))
        return time

    # Numbers and tables

    def number(self) -> None:
        network, arcs = self.network, self.arcs
        # (the nodes of one place are in the order of this set)
        nodes = sorted(set(arcs.tails.tolist()), key=network.refs.__getitem__)
        self.nodes = numpy.array(nodes)
        # From 1 on; 0 for other nodes.
        self.numbers = numpy.zeros(len(network.refs), dtype=numpy.int32)
        self.numbers[self.nodes] = numpy.arange(1, len(self.nodes) + 1)
        places = self.numbers[arcs.tails], self.numbers[arcs.heads], arcs.times
        order = numpy.lexsort(places[::-1])
        if not self.sets:
            self.fine_arcs = arcs.take(order)
        # The ways decide only between arcs that are alike.
        is_next = numpy.ones(len(order), dtype=bool)
        for it in places:
            is_next[1:] &= it[order[1:]] == it[order[:-1]]
        is_next[0] = False
        starts = numpy.flatnonzero(~is_next)
        ends = numpy.append(starts[1:], len(order))
        for at in numpy.flatnonzero(ends - starts > 1).tolist():
            first, last = int(starts[at]), int(ends[at])
            own = order[first:last].tolist()
            order[first:last] = sorted(own, key=lambda it: network.ways(arcs.pieces_of(it)))
        self.arcs = arcs.take(order)
        if self.sets:
            numbers = coarse.numbers_of_sets(self.arcs, self.sets, self.rules)
            self.arcs.rules = numbers[self.arcs.rules]

    def at_sites(self) -> dict[int, sites.Site]:
        """The site of each node that has one."""
        found: dict[int, sites.Site] = {}
        for site in self.sites:
            if site.node in found:
                self.report.add(
                    "left out",
                    "places to wait at the node of another one",
                    f"{site.rating} {site.name}".strip(),
                )
                found[site.node] = sites.better(site, found[site.node])
            else:
                found[site.node] = site
        return found

    def write(self) -> None:
        options, report, folder = self.options, self.report, self.options.dir
        areas = tables.Areas(self.laws)
        own = areas.divide(self.arcs, self.network.areas, self.rules.lists)
        tables.check_sizes(len(self.nodes), self.arcs, areas.rows)
        self.check_laws(areas)
        days = self.holidays(areas)
        park = self.at_sites()
        middle = [
            statistics.median(numpy.asarray(values)[self.nodes].tolist()) / 1e7
            for values in (self.network.ys, self.network.xs)
        ]
        zones = {
            country: self.zone(country, middle)
            for country in dict.fromkeys(areas.countries.values())
        }
        os.makedirs(folder, exist_ok=True)
        self.progress("writing the folder ..")
        tables.write_graph(
            folder, os.path.basename(options.extract), len(self.nodes), self.arcs, self.numbers
        )
        named = {zone for zone in zones.values() if zone != "UTC"}
        rows = [
            row
            for zone in sorted(named)
            for row in zone_rows.rows(zone, options.years[0], options.years[1])
        ]
        tables.write(folder, "zones.csv", ("zone", "from", "offset"), rows)
        tables.write(
            folder,
            "areas.csv",
            ("area", "zone"),
            (
                (name, zone_rows.name_of(zones[country]))
                for name, country in areas.countries.items()
            ),
        )
        tables.write(folder, "roads.csv", ("arc", "area"), areas.arcs())
        tables.write(folder, "rules.csv", ("scope", "key", "value"), areas.rows)
        tables.write(folder, "holidays.csv", ("area", "kind", "date"), days)
        with_hours = any(site.hours for site in park.values())
        country_at = dict(zip(self.arcs.tails.tolist(), self.arcs.areas.tolist()))
        tables.write(
            folder,
            "parking.csv",
            ("node", "rating", "area", "hours") if with_hours else ("node", "rating"),
            sorted(
                (int(self.numbers[node]), site.rating)
                + ((self.network.areas[country_at[node]], site.hours) if with_hours else ())
                for node, site in park.items()
            ),
        )
        used = {site.rating for site in park.values()}
        tables.write(folder, "ratings.csv", ("rating", "weight"), tables.rating_rows(folder, used))
        self.write_tolls(folder)
        names = self.names(park)
        tables.write_roads(folder, self.extract, self.network, self.nodes, self.arcs, names)
        shapes.write(
            folder,
            self.extract.xs,
            self.extract.ys,
            (self.network.firsts, self.network.lasts),
            self.arcs,
        )
        if not os.path.exists(os.path.join(folder, "vehicles.csv")):
            with open(
                os.path.join(folder, "vehicles.csv"), "w", encoding="ascii", newline=""
            ) as file:
                file.write(tables.VEHICLES)
        with open(os.path.join(folder, "LICENCE.txt"), "w", encoding="utf-8") as file:
            file.write(
                "The tables of this folder were made by tools/from_osm from"
                f" {os.path.basename(options.extract)}.\nMap data {tables.MAP_LICENCE}\nThe folder"
                " is a derived database: whoever passes it on says so, and leaves it under the"
                " same licence.\n"
            )
        self.summarise(areas, own, park, used)
        with open(os.path.join(folder, "report.txt"), "w", encoding="utf-8") as file:
            file.write(report.text())

    def zone(self, country: str, middle: Sequence[float]) -> str:
        country = roads.country_of(country)
        if country in ("home", "other") and country not in self.given_zones():
            return "UTC"
        zone = tables.zone_of(country, self.given_zones(), middle, self.report)
        try:
            zone_rows.load(zone)
        except zone_rows.NoZone as error:
            raise Stop(str(error)) from None
        return zone

    def given_zones(self) -> dict[str, str]:
        found = {}
        for word in self.options.zone:
            name, _, zone = word.partition("=")
            if not zone:
                raise Stop(f"--zone {word}: not NAME=ZONE")
            found[name.lower()] = zone
        return found

    def check_laws(self, areas: tables.Areas) -> None:
        for country in dict.fromkeys(areas.countries.values()):
            has_none = areas.law(country) == areas.all_open and country not in self.laws
            if has_none and not country.endswith(roads.FERRY_AREA):
                self.report.add(
                    "warning",
                    "no law: in this country only the roads' own signs are obeyed (--laws)",
                    country,
                )

    def holidays(self, areas: tables.Areas) -> list[tuple[str, str, str]]:
        """The rows of holidays.csv; stops where rules speak of days that nobody gives."""
        first, last = self.options.years
        by_country, missing = {}, []
        hours = {site.hours for site in self.sites}
        needed = set(areas.speak_of_holidays("PH")) | (
            set(areas.countries.values()) if any("PH" in text for text in hours) else set()
        )
        for country in dict.fromkeys(areas.countries.values()):
            named = roads.country_of(country)
            rows = self.days.get(named) or self.days.get(named.split("-")[0])
            rows = self.law_days(named, rows)
            if rows is None and not self.options.no_holidays:
                code, _, part = named.upper().partition("-")
                try:
                    rows = (
                        [
                            ("PH", day.isoformat())
                            for day, _ in holiday_rows.days(code, part, first, last)
                        ]
                        if len(code) == 2
                        else []
                    )
                except holiday_rows.NoHolidays as error:
                    if country in needed:
                        missing.append(f"{country}: {error}")
            by_country[country] = rows or []
            if not rows:
                self.report.add("warning", "no holidays: PH holds on no day", country)
        if missing:
            raise Stop(
                "rules speak of public holidays. "
                + "; ".join(missing)
                + ". Give them by --holidays FILE, or say --no-holidays"
            )
        found = [
            (area, kind, day)
            for area in areas.holiday_areas()
            for kind, day in by_country[areas.countries[area]]
        ]
        if len(found) > holiday_rows.MOST_ROWS:
            raise Stop(
                f"{len(found):,} rows of holidays are more than the {holiday_rows.MOST_ROWS:,} that"
                " lorry_plan reads: take fewer --years"
            )
        return found

    def law_days(
        self, country: str, given: Optional[list[tuple[str, str]]]
    ) -> Optional[list[tuple[str, str]]]:
        """The days of a country: those that are given, otherwise those of its law table, if it has
        one."""
        tables = self.tables
        if not tables or not tables.knows(country):
            return given
        if given is None:
            return tables.days(country, *self.options.years)
        if tables.speaks_of_eves(country) and not any(kind == "SH" for kind, _ in given):
            raise Stop(f"the law of {country} speaks of eves, SH, and --holidays has none there")
        return given

    def write_tolls(self, folder: str) -> None:
        tolls = self.arcs.tolls.tolist()
        length = sum(tolls) / 1000
        rate = self.options.toll_per_km
        if rate:
            rows = [
                (number, f"{min(100, toll / 1000 * rate):.3f}")
                for number, toll in enumerate(tolls, 1)
                if toll
            ]
            tables.write(folder, "tolls.csv", ("arc", "toll"), rows)
            self.report.number(
                "kilometres of arcs with a toll", f"{length:,.0f}, at {rate} a kilometre"
            )
        else:
            if length:
                self.report.add(
                    "left out",
                    "kilometres of arcs with a toll: the map has no prices (--toll-per-km)",
                    "",
                    count=round(length),
                )
            if os.path.exists(os.path.join(folder, "tolls.csv")):
                os.remove(os.path.join(folder, "tolls.csv"))

    def names(self, park: Mapping[int, sites.Site]) -> dict[int, str]:
        """A name for a node: that of a place to wait, of a town, or of two roads that meet."""
        names = {}
        meet: dict[int, dict[str, bool]] = {}
        every, arcs = self.extract.ways.names, self.fine_arcs
        at = numpy.flatnonzero((self.numbers[arcs.tails] > 0) | (self.numbers[arcs.heads] > 0))
        columns = (it[at].tolist() for it in (arcs.tails, arcs.heads, arcs.names))
        for tail, head, number in zip(*columns):
            name = every[number]
            if name:
                for node in (tail, head):
                    if self.numbers[node]:
                        meet.setdefault(node, {}).setdefault(name, True)
        for node, found in meet.items():
            names[node] = " / ".join(list(found)[:2])
        for node, name in sites.name_towns(self.extract.places, self.network, self.nodes).items():
            names[node] = name
        for node, site in park.items():
            if site.name:
                names[node] = site.name
        return names

    def summarise(
        self, areas: tables.Areas, own: int, park: Mapping[int, sites.Site], used: AbstractSet[str]
    ) -> None:
        report, arcs = self.report, self.arcs
        report.number("nodes and arcs of the folder", f"{len(self.nodes):,}, {len(arcs):,}")
        report.number(
            "arcs with rules of their own",
            f"{own:,}"
            + (f" ({areas.by_arc:,} by arc, as areas are used up)" if areas.by_arc else ""),
        )
        report.number("rows of rules, areas", f"{len(areas.rows):,}, {len(areas.countries):,}")
        report.number(
            "places to wait",
            ", ".join(
                f"{sum(site.rating == name for site in park.values())} {name}"
                for name in sites.RATINGS
                if name in used
            )
            or "none",
        )
        for node, site in sorted(park.items()):
            if site.rating == "depot":
                report.number(f"node of the depot {site.name}", self.numbers[node])
        lets_in = [
            any(clause[0] == access.YES for clause in lists[0]) for lists in self.rules.lists
        ]
        lorry = numpy.array(lets_in)[arcs.rules]
        reach = roads.largest_component(
            len(self.network.refs), arcs.tails[lorry], arcs.heads[lorry]
        )
        report.number(
            "nodes that a lorry without a delivery can reach, and leave",
            f"{numpy.count_nonzero(reach):,}",
        )
        flags = sorted(flag for flag in self.reading.flags)
        report.number("flags of vehicles that rules speak of", ", ".join(flags) or "none")
        if os.path.exists(os.path.join(self.options.dir, "closures.csv")):
            report.add(
                "warning", "closures.csv names arcs by their numbers, which may have changed", ""
            )
        bend = self.bend()
        if bend:
            report.number(
                "minutes of a trip, as a share of its driving time",
                "median {:.2f}, 5 % of trips below {:.2f}, 5 % above {:.2f}".format(*bend),
            )
            if not 0.9 <= bend[0] <= 1.25:
                report.add(
                    "warning",
                    "whole minutes bend the trips of this folder: take more seconds by --coarse",
                    "",
                )
        report.add("warning", "prices of waiting are invented: see ratings.csv", "")
        report.add("warning", "a size that vehicles.csv doesn't have, passes every limit", "")

    def bend(self) -> Optional[list[float]]:
        """How many minutes trips take in the folder, for each minute over all roads: the median,
        and the quantiles of 5 and 95 percent."""
        self.progress("measuring trips ..")
        sources = max(LEAST_SOURCES, min(MOST_SOURCES, MEASURED_ARCS // len(self.fine_arcs)))
        step = max(1, len(self.nodes) // sources)
        count = len(self.network.refs)
        fine, own = (
            coarse.Distances(count, arcs.tails, arcs.heads, times)
            for arcs, times in (
                (self.fine_arcs, self.fine_arcs.times),
                (self.arcs, coarse.minutes(self.arcs.times) * 60_000),
            )
        )
        found: list[float] = []
        starts = self.nodes[step // 2 :: step][:sources].tolist()
        for exact, whole in zip(fine(starts), own(starts)):
            counts = (whole < coarse.FOR_EVER) & (exact >= SHORTEST) & (exact < coarse.FOR_EVER)
            found += (whole[counts] / exact[counts]).tolist()
        found.sort()
        return [found[int(len(found) * share)] for share in (0.5, 0.05, 0.95)] if found else None


class Counted:
    """Tells every few seconds how far a step is, and how long the rest takes at this pace."""

    EACH, SECONDS = 256, 10

    def __init__(self, what: str, progress: Callable[[str], None]) -> None:
        self.what, self.progress = what, progress
        self.start = self.said = time.monotonic()
        self.told = 0

    def __call__(self, done: int, whole: int) -> None:
        if done // self.EACH == self.told:
            return
        self.told = done // self.EACH
        now = time.monotonic()
        if now - self.said >= self.SECONDS:
            self.said = now
            left = (now - self.start) * (whole - done) / done
            words = f"{left / 60:.0f} min" if left >= 90 else f"{left:.0f} s"
            self.progress(f"{done:,} of {whole:,} {self.what}; {words} left of this step")


def say(text: str) -> None:
    print(f"from_osm: {text}", file=sys.stderr, flush=True)
