"""Tells what the program passes over in a folder, and what its tables may not mean.

    tools/lint DIR [--window FROM UNTIL]

Each finding is a line that begins with a file and a row, counted as the program does (the header is
1, and 0 is the file as a whole), and a name:

    passed-over     rows of rules.csv whose key is no access key, by key with an example
    lifted-ban      a road's own rule that lets a vehicle in at minutes at which the rules of its
                    area don't
    no-rule         a vehicle that no rule speaks of
    unknown-size    a vehicle that lacks a size, so that comparisons with it never hold
    unknown-flag    a flag in a rule that no vehicle has
    no-such-node    parking at a node that isn't in the graph, and
    no-road-there   at one that no road leads to
    utc-hours       hours that are read in UTC, since their area has no zone of its own
    old-zone        a zone with changes of its clock, but none for the time of the window
    no-holidays     PH or SH in a rule of an area that has no such holiday in a year of the window
    never-read      a file that no command reads, perhaps misspelt
    past-closure    a closure that ends before the window begins
    not-read        a value or a row that is not understood here; the program will refuse it

--window gives two instants, such as 2026-07-01T00:00Z 2026-08-01T00:00Z. Without it the window is
the year from today, and past closures aren't told. Rules are laid out over the local days of the
window, by another reading than the program's: this is a warning and not proved. The status is 0
without findings, 1 with some, and 2 where the folder can't be read. docs/TOOLS.md has an example.
It needs neither packages nor the program."""
from __future__ import annotations

import argparse
import collections
import datetime
import difflib
import os
import re
from typing import Optional, Sequence

from lorry_tools import rule_texts
from lorry_tools.files import BESIDE, JOBS, NETWORK, STOPS, TABLES
from lorry_tools.folder import Folder, Row, number_of
from lorry_tools.instants import minute_of, moment_of
from lorry_tools.problems import Unreadable
from lorry_tools.rule_texts import ALL, DELIVERING, VALUES, NotRead, Window
from lorry_tools.running import write_as_utf8

Vehicle = dict[str, str]
Place = tuple[str, int]  # a file and a row

# The keys of each class, from general to special.
CLASSES = {
    "hgv": ["access", "vehicle", "motor_vehicle", "hgv"],
    "hgv_articulated": ["access", "vehicle", "motor_vehicle", "hgv", "hgv_articulated"],
    "goods": ["access", "vehicle", "motor_vehicle", "goods"],
    "bus": ["access", "vehicle", "motor_vehicle", "bus"],
}
KEYS = list(dict.fromkeys(key for keys in CLASSES.values() for key in keys))

# How a key that is passed over is written as a rule.
LIMITS = {
    "maxweight": "weight",
    "maxweightrating": "weight",
    "maxgcweight": "weight",
    "maxaxleload": "axleload",
}
LIMITS.update(
    {"maxheight": "height", "maxwidth": "width", "maxlength": "length", "maxaxles": "axles"}
)

# Files beside the tables that nobody takes for a table.
NOTES = (".md", ".txt", ".cert", ".json", ".html", ".svg", ".geojson", ".pdf", ".png")

# A zone of which no change is told for so long before the end of the window is old.
MOST_ZONE_DAYS = 300
MOST_DAYS = 800

ANY: Vehicle = {
    **dict.fromkeys(("weight_kg", "axleload_kg", "height_cm", "width_cm", "length_cm"), ""),
    **dict.fromkeys(("axles", "purpose", "flags"), ""),
    "name": "any",
    "class": "hgv",
}


class Rule:
    """A row of rules.csv whose key is an access key."""

    def __init__(self, row: Row):
        self.row = row
        self.scope, self.value = row["scope"], row["value"]
        self.key, self.is_conditional = row["key"].split(":")[0], ":" in row["key"]
        self.arc = number_of(self.scope[4:]) if self.scope.startswith("arc:") else None
        self.area = self.scope[5:] if self.scope.startswith("area:") else None
        self.clauses = (
            rule_texts.read_conditional(self.value)
            if self.is_conditional
            else [rule_texts.Clause(VALUES[self.value])]
        )

    def hours(self) -> list[str]:
        return [it for clause in self.clauses for it in clause.hours]

    def __str__(self) -> str:
        return f"{self.scope} {self.row['key']}"


def is_access_key(key: str) -> bool:
    plain = key.split(":")[0]
    return plain in KEYS and key in (plain, f"{plain}:conditional")


class Lint:
    """A folder, a window, and what was found."""

    def __init__(
        self,
        folder: Folder,
        window: tuple[datetime.datetime, datetime.datetime],
        is_given: bool,
        most: int,
    ):
        self.folder, self.most = folder, most
        self.low, self.high = window
        self.is_given = is_given
        self.found: list[str] = []
        self.counts: collections.Counter[str] = collections.Counter()
        first = self.low.date()
        self.window = Window(first, (self.high.date() - first).days + 1)
        self.areas = [it["area"] for it in folder.table("areas.csv")] or ["default"]
        self.zones = {it["area"]: it["zone"] for it in folder.table("areas.csv")}
        self.vehicles: list[Vehicle] = [
            ANY,
            *({column: row[column] for column in ANY} for row in folder.table("vehicles.csv")),
        ]
        self.clean_sizes()
        self.rules: list[Rule] = []
        # Minutes, by a text of hours and an area.
        self.covered: dict[tuple[str, Optional[str]], int] = {}

    def clean_sizes(self) -> None:
        """Takes out sizes that are no numbers, so that they count as unknown."""
        for row, vehicle in zip(self.folder.table("vehicles.csv"), self.vehicles[1:]):
            for column in (it for it, _, _ in rule_texts.SIZES.values()):
                if vehicle[column] and number_of(vehicle[column]) is None:
                    self.say(
                        "not-read",
                        "vehicles.csv",
                        row.number,
                        f"the {column} of {row['name']} is no number: {vehicle[column][:40]}",
                    )
                    vehicle[column] = ""

    def say(self, name: str, file: str, row: int, text: str) -> None:
        """Adds a finding. Beyond the most of one name they are only counted."""
        self.counts[name] += 1
        if self.counts[name] <= self.most:
            line = f"{file} {row} {name}: {text}"
            self.found.append("".join(it if it.isprintable() else "?" for it in line))

    def lines(self) -> list[str]:
        more = [
            f"{name}: {count - self.most} more"
            for name, count in self.counts.items()
            if count > self.most
        ]
        return self.found + more

    def run(self) -> None:
        self.read_rules()
        self.look_at_lifted_bans()
        self.look_at_vehicles()
        self.look_at_parking()
        self.look_at_zones()
        self.look_at_holidays()
        self.look_at_files()
        if self.is_given:
            self.look_at_closures()

    # Rules.

    def read_rules(self) -> None:
        others: dict[str, list[Row]] = {}
        for row in self.folder.table("rules.csv"):
            if not is_access_key(row["key"]):
                others.setdefault(row["key"], []).append(row)
                continue
            try:
                self.rules.append(Rule(row))
            except (NotRead, KeyError, ValueError):
                text = (
                    f"{row['scope']} {row['key']} has a value that isn't understood:"
                    f" {row['value'][:80]}"
                )
                self.say("not-read", "rules.csv", row.number, text)
        for key, rows in others.items():
            count = f"{len(rows)} row" + "s" * (len(rows) > 1)
            example = ",".join(rows[0].whole)[:80]
            self.say(
                "passed-over",
                "rules.csv",
                rows[0].number,
                f"{count} with the key {key or '(empty)'}, such as {example}{self.hint(key)}",
            )

    def hint(self, key: str) -> str:
        """Says how the row could be a rule."""
        plain = key.split(":")[0].strip()
        if plain in LIMITS:
            return f"; a limit is a rule such as hgv:conditional with no @ ({LIMITS[plain]}>N)"
        if plain == "hazmat":
            return "; as a rule: hgv:conditional with no @ (hazmat), for vehicles with this flag"
        if plain in ("psv", "tourist_bus", "coach"):
            return "; the key of buses is bus"
        if key.endswith((":forward", ":backward", ":forward:conditional", ":backward:conditional")):
            return "; an arc goes one way, so its key has no direction"
        close = [it for it in KEYS if it == plain.lower()] or difflib.get_close_matches(
            plain.lower(), KEYS, 1, 0.8
        )
        return f"; perhaps {close[0]} is meant" if close else ""

    def minutes_of(self, text: str, area: str) -> int:
        """Returns the minutes of the window that hours cover, with the holidays of an area."""
        rules = rule_texts.read_hours(text)
        kinds = any(it.holidays for it in rules)
        key = text, area if kinds else None
        if key not in self.covered:
            self.covered[key] = self.window.covered(rules, self.holidays_of(area) if kinds else {})
        return self.covered[key]

    def holidays_of(self, area: str) -> dict[datetime.date, set[str]]:
        days: dict[datetime.date, set[str]] = {}
        for row in self.folder.table("holidays.csv"):
            if row["area"] == area:
                try:
                    days.setdefault(datetime.date.fromisoformat(row["date"]), set()).add(
                        row["kind"]
                    )
                except ValueError:
                    pass
        return days

    def holding(self, clause: rule_texts.Clause, vehicle: Vehicle, area: str) -> int:
        """Returns the minutes at which a clause holds for a vehicle."""
        if not clause.holds_for(vehicle):
            return 0
        minutes = self.window.whole
        for text in clause.hours:
            minutes &= self.minutes_of(text, area)
        return minutes

    def decided(
        self, rules: Sequence[Rule], vehicle: Vehicle, area: str
    ) -> tuple[int, dict[Rule, int]]:
        """Returns the minutes at which rules let a vehicle in, and for each rule those that it
        decides. They come from general to special."""
        let_in = self.window.whole
        by: dict[Rule, int] = {}
        for rule in rules:
            for clause in rule.clauses:
                minutes = self.holding(clause, vehicle, area)
                lets = clause.value == ALL or (
                    clause.value == DELIVERING and vehicle["purpose"] == "delivery"
                )
                let_in = let_in | minutes if lets else let_in & ~minutes
                for other in by:
                    by[other] &= ~minutes
                by[rule] = by.get(rule, 0) | minutes
        return let_in, by

    def in_order(self, rules: Sequence[Rule], vehicle: Vehicle) -> list[Rule]:
        """Returns the rules that a vehicle goes by, in the order in which the last one decides."""
        keys = CLASSES.get(vehicle["class"], [])
        return sorted(
            (it for it in rules if it.key in keys),
            key=lambda it: (keys.index(it.key), it.arc is not None, it.is_conditional),
        )

    def look_at_lifted_bans(self) -> None:
        """Compares, for each road with rules of its own, the minutes at which they let vehicles in
        with those of its area alone."""
        areas, first = self.folder.areas_of_arcs()
        of_area: dict[Optional[str], list[Rule]] = {}
        of_arc: dict[int, list[Rule]] = {}
        alike: dict[object, dict[int, tuple[list[str], int]]] = {}
        for rule in self.rules:
            if rule.arc is not None:
                of_arc.setdefault(rule.arc, []).append(rule)
            else:
                of_area.setdefault(rule.area, []).append(rule)
        lifting: dict[Rule, tuple[list[str], int, str]] = {}
        for arc, own in of_arc.items():
            area = areas.get(arc, first)
            key = area, tuple((it.row["key"], it.value) for it in own)
            if key not in alike:
                alike[key] = self.lifted_by(own, of_area.get(area, []), area)
            for place, (names, minutes) in alike[key].items():
                lifting[own[place]] = (names, minutes, area)
        for rule, (names, minutes, area) in lifting.items():
            whom = listed(names)
            when = (
                "at all minutes"
                if minutes == self.window.whole
                else f"first on {self.window.first_of(minutes):%Y-%m-%d %H:%M} local time"
            )
            text = (
                f"{rule} {rule.value[:60]} lets {whom} in where the rules of area {area} don't,"
                f" {when}"
            )
            self.say("lifted-ban", "rules.csv", rule.row.number, text)

    def lifted_by(
        self, own: list[Rule], general: list[Rule], area: str
    ) -> dict[int, tuple[list[str], int]]:
        """Returns, by the places of a road's own rules, the vehicles that they let in against those
        of the area, and at which minutes."""
        found: dict[int, tuple[list[str], int]] = {}
        for names in self.alike_vehicles():
            vehicle = names[0]
            closed = (
                self.window.whole & ~self.decided(self.in_order(general, vehicle), vehicle, area)[0]
            )
            if not closed:
                continue
            let_in, by = self.decided(self.in_order(own + general, vehicle), vehicle, area)
            for place, rule in enumerate(own):
                minutes = by.get(rule, 0) & let_in & closed
                if minutes:
                    before, at = found.get(place, ([], 0))
                    found[place] = before + [it["name"] for it in names], at | minutes
        return found

    def alike_vehicles(self) -> list[list[Vehicle]]:
        """Returns the vehicles, those together that differ in their names alone."""
        alike: dict[object, list[Vehicle]] = {}
        for vehicle in self.vehicles:
            rest = tuple(value for column, value in vehicle.items() if column != "name")
            alike.setdefault(rest, []).append(vehicle)
        return list(alike.values())

    # Vehicles.

    def look_at_vehicles(self) -> None:
        known_flags = {flag for vehicle in self.vehicles for flag in vehicle["flags"].split()}
        for row, vehicle in zip(self.folder.table("vehicles.csv"), self.vehicles[1:]):
            keys = CLASSES.get(vehicle["class"])
            if keys is None:
                self.say(
                    "not-read",
                    "vehicles.csv",
                    row.number,
                    f"{row['name']} has a class that isn't known: {row['class']}",
                )
                continue
            mine = [it for it in self.rules if it.key in keys]
            if self.rules and not mine:
                text = (
                    f"{row['name']} is of the class {vehicle['class']}, and no rule has one of its"
                    f" keys ({', '.join(keys)})"
                )
                self.say("no-rule", "vehicles.csv", row.number, text)
                continue
            self.look_at_sizes(row, vehicle, mine)
            if mine and not any(
                clause.holds_for(vehicle) for rule in mine for clause in rule.clauses
            ):
                many = f"each of the {len(mine)} rules" if len(mine) > 1 else "the one rule"
                text = (
                    f"no rule ever holds for {row['name']}: {many} for its class asks for other"
                    " sizes or flags"
                )
                self.say("no-rule", "vehicles.csv", row.number, text)
        for rule in self.rules:
            for flag in dict.fromkeys(it for clause in rule.clauses for it in clause.flags):
                if flag not in known_flags:
                    text = (
                        f"{rule} speaks of the flag {flag}, which no vehicle"
                        f" has{self.flag_hint(flag)}"
                    )
                    self.say("unknown-flag", "rules.csv", rule.row.number, text)

    def flag_hint(self, flag: str) -> str:
        days = {
            it.lower(): it
            for it in [*rule_texts.WEEKDAYS, *rule_texts.MONTHS, *rule_texts.HOLIDAYS]
        }
        return f"; {days[flag]} is written with a capital letter" if flag in days else ""

    def look_at_sizes(self, row: Row, vehicle: Vehicle, rules: list[Rule]) -> None:
        for column in dict.fromkeys(
            it[0] for rule in rules for clause in rule.clauses for it in clause.comparisons
        ):
            if vehicle[column] == "":
                those = [it for it in rules if speaks_of(it, column)]
                many = f"in {len(those)} rules, the first in" if len(those) > 1 else "in"
                text = (
                    f"{row['name']} has no {column}, so comparisons with it {many} rules.csv"
                    f" {those[0].row.number} never hold"
                )
                self.say("unknown-size", "vehicles.csv", row.number, text)

    # Parking.

    def look_at_parking(self) -> None:
        graph = self.folder.graph()
        reached = set(graph.heads)
        for row in self.folder.table("parking.csv"):
            node = number_of(row["node"])
            if node is None or not 1 <= node <= graph.nodes:
                text = (
                    f"node {row['node']} isn't in graph.gr, whose nodes are 1 to {graph.nodes}; the"
                    " program will refuse the folder"
                )
                self.say("no-such-node", "parking.csv", row.number, text)
            elif node not in reached:
                self.say(
                    "no-road-there",
                    "parking.csv",
                    row.number,
                    (
                        f"no road leads to node {node}, so only a trip that begins there can wait"
                        " there"
                    ),
                )

    # Zones, holidays, closures.

    def hours_by_area(self) -> dict[Optional[str], list[Place]]:
        """Returns, for each area, the files and rows that have hours in its time."""
        areas, first = self.folder.areas_of_arcs()
        first = self.areas[0] if not self.folder.table("areas.csv") else first
        found: dict[Optional[str], list[Place]] = {}
        for rule in self.rules:
            if rule.hours():
                area = areas.get(rule.arc, first) if rule.arc is not None else rule.area
                found.setdefault(area, []).append(("rules.csv", rule.row.number))
        for row in self.folder.table("parking.csv"):
            if row["hours"]:
                found.setdefault(row["area"] or first, []).append(("parking.csv", row.number))
        return found

    def look_at_zones(self) -> None:
        timed = self.hours_by_area()
        zone_rows: dict[str, list[Row]] = {}
        for row in self.folder.table("zones.csv"):
            zone_rows.setdefault(row["zone"], []).append(row)
        if not self.folder.table("areas.csv"):
            for places in timed.values():
                file, number = places[0]
                self.say(
                    "utc-hours",
                    "areas.csv",
                    0,
                    (
                        f"there is no area, so hours are read in UTC: {count_of(places)}, the first"
                        f" in {file} {number}"
                    ),
                )
            return
        rows = {it["area"]: it for it in self.folder.table("areas.csv")}
        used: dict[str, tuple[Row, list[Place]]] = {}
        for area, places in timed.items():
            if area is not None and area in rows:
                used.setdefault(self.zones[area], (rows[area], places))
                if self.zones[area] == "UTC" and "UTC" not in zone_rows:
                    file, number = places[0]
                    text = (
                        f"area {area} is in the zone UTC, and has hours: {count_of(places)}, the"
                        f" first in {file} {number}"
                    )
                    self.say("utc-hours", "areas.csv", rows[area].number, text)
        for zone in used:
            self.look_at_zone(zone, zone_rows.get(zone, []))

    def look_at_zone(self, zone: str, rows: list[Row]) -> None:
        """Says where a zone whose clock changes has no change for the window."""
        found = [minute_of(it["from"]) for it in rows]
        starts = [it for it in found if it is not None]
        if len({it["offset"] for it in rows}) < 2 or len(starts) < len(found):
            return
        first, last = moment_of(starts[0]), moment_of(starts[-1])
        if (self.high - last).days > MOST_ZONE_DAYS:
            text = (
                f"the last change of {zone} is on {last:%Y-%m-%d}, long before the window ends, on"
                f" {self.high:%Y-%m-%d}"
            )
            self.say("old-zone", "zones.csv", rows[-1].number, text)
        elif first > self.low:
            text = (
                f"the first change of {zone} is on {first:%Y-%m-%d}, after the window begins, on"
                f" {self.low:%Y-%m-%d}"
            )
            self.say("old-zone", "zones.csv", rows[0].number, text)

    def look_at_holidays(self) -> None:
        areas, first = self.folder.areas_of_arcs()
        known: set[tuple[Optional[str], str, int]] = set()
        said: set[tuple[Optional[str], str]] = set()
        for row in self.folder.table("holidays.csv"):
            try:
                known.add((row["area"], row["kind"], datetime.date.fromisoformat(row["date"]).year))
            except ValueError:
                self.say("not-read", "holidays.csv", row.number, f"{row['date']} is no date")
        for rule in self.rules:
            area = rule.area if rule.arc is None else areas.get(rule.arc, first)
            for kind in holidays_in(rule):
                years = range(self.low.year, self.high.year + 1)
                missing = [str(it) for it in years if (area, kind, it) not in known]
                if missing and (area, kind) not in said:
                    said.add((area, kind))
                    text = (
                        f"{rule} speaks of {kind}, and holidays.csv has none of area {area} in"
                        f" {' and '.join(missing)}"
                    )
                    self.say("no-holidays", "rules.csv", rule.row.number, text)

    def look_at_closures(self) -> None:
        for row in self.folder.table("closures.csv"):
            end = minute_of(row["to"])
            if end is None or minute_of(row["from"]) is None:
                self.say(
                    "not-read",
                    "closures.csv",
                    row.number,
                    f"not two instants: {row['from']}, {row['to']}",
                )
            elif moment_of(end) <= self.low:
                self.say(
                    "past-closure",
                    "closures.csv",
                    row.number,
                    f"arc {row['arc']} is closed until {row['to']}, before the window",
                )

    # Files.

    def look_at_files(self) -> None:
        known = [*NETWORK, *BESIDE]
        meant = [*NETWORK, *(it for it in BESIDE if not self.folder.has(it))]
        headers = {header: table.name for table in TABLES for header in table.headers}
        for name in sorted(os.listdir(self.folder.path)):
            if name in known or not self.folder.has(name):
                continue
            header = self.header_of(name)
            if header in (*JOBS.headers, *STOPS.headers):
                continue
            alike = [it for it in meant if it.lower() == name.lower()]
            close = alike or difflib.get_close_matches(name.lower(), meant, 1, 0.75)
            if header in headers:
                self.say(
                    "never-read",
                    name,
                    0,
                    f"it has the header of {headers[header]}, but not its name",
                )
            elif close and not name.lower().endswith(NOTES):
                self.say("never-read", name, 0, f"no command reads it; perhaps {close[0]} is meant")
            elif not name.lower().endswith(NOTES) and not self.is_itinerary(name):
                self.say("never-read", name, 0, "no command reads it")

    def header_of(self, name: str) -> str:
        """Returns the first line of a small part of a file."""
        with open(self.folder.file(name), "rb") as file:
            line = file.read(300).removeprefix(b"\xef\xbb\xbf").splitlines()[:1] or [b""]
        return line[0].decode("utf-8", "replace").strip()

    def is_itinerary(self, name: str) -> bool:
        return re.fullmatch(r"(drive|wait) \d+", self.header_of(name)) is not None


def holidays_in(rule: Rule) -> list[str]:
    """Returns the kinds of holidays that the hours of a rule speak of."""
    texts = (hours for text in rule.hours() for hours in rule_texts.read_hours(text))
    return sorted({it for hours in texts for it in hours.holidays})


def speaks_of(rule: Rule, column: str) -> bool:
    """Whether a rule compares a size."""
    return any(column == it[0] for clause in rule.clauses for it in clause.comparisons)


def listed(names: list[str]) -> str:
    """Returns the first names in words."""
    shown = names[:3] + [f"{len(names) - 3} more"] if len(names) > 4 else names
    return " and ".join([", ".join(shown[:-1])] * (len(shown) > 1) + shown[-1:])


def count_of(places: Sequence[object]) -> str:
    return f"{len(places)} rows" if len(places) > 1 else "a row"


def window_of(
    words: Optional[list[str]],
) -> tuple[tuple[datetime.datetime, datetime.datetime], bool]:
    """Returns the two moments of the window, and whether it was given."""
    if not words:
        today = datetime.datetime.now(datetime.timezone.utc).date()
        start = datetime.datetime.combine(today, datetime.time())
        return (start, start + datetime.timedelta(days=365)), False
    minutes = [it for it in map(minute_of, words) if it is not None]
    if len(minutes) < 2 or minutes[0] >= minutes[1]:
        raise Unreadable(
            "--window has two instants, such as 2026-07-01T00:00Z 2026-08-01T00:00Z, the later one"
            " last"
        )
    low, high = (moment_of(it) for it in minutes)
    if (high - low).days > MOST_DAYS:
        raise Unreadable(f"--window has at most {MOST_DAYS} days")
    return (low, high), True


def main() -> int:
    words = read_words()
    window, is_given = window_of(words.window)
    lint = Lint(Folder(words.dir), window, is_given, words.most)
    lint.run()
    write_as_utf8()
    for line in lint.lines():
        print(line)
    if not lint.found:
        print("nothing found")
    return 1 if lint.found else 0


def read_words() -> argparse.Namespace:
    parser = argparse.ArgumentParser(
        description=__doc__, formatter_class=argparse.RawDescriptionHelpFormatter
    )
    parser.add_argument("dir", metavar="DIR")
    parser.add_argument(
        "--window",
        nargs=2,
        metavar=("FROM", "UNTIL"),
        help="two instants; without it the year from today",
    )
    parser.add_argument(
        "--most",
        metavar="N",
        type=int,
        default=20,
        help="the most lines of one name (default 20); further ones are counted",
    )
    return parser.parse_args()
