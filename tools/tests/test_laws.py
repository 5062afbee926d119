#!/usr/bin/env python3
"""Tests of the law tables, and of what reads them.

law_instants has a table for each law: instants of local time with what the law's text says of a road then, written by hand. The program is asked about
each, by `bans` over an arc of a folder that is made of the law tables. Those of sections, which are on a map, need python3-pyosmium too."""
import contextlib
import csv
import datetime
import glob
import io
import os
import random
import subprocess
import sys
import unittest
import zoneinfo

sys.path.insert(0, os.path.dirname(os.path.abspath(__file__)))

import beside
import small_extract
from beside import TOOLS, VEHICLES, FolderTest, graph, needs_program
from lorry_tools.conversion import zone_rows
from lorry_tools.laws import days, main, section, table, years
from lorry_tools.problems import Problem
from lorry_tools.program import Program

SHORT = os.environ.get("LORRY_PLAN_TESTS") == "short"  # the gate's form tries less


def python_with(package):
    """A Python that has a package: this one, or the system's own."""
    for python in (sys.executable, "/usr/bin/python3"):
        if os.path.exists(python) and subprocess.run([python, "-c", f"import {package}"], stderr=subprocess.DEVNULL).returncode == 0:
            return python
    return None


OSMIUM = python_with("osmium")
needs_osmium = unittest.skipUnless(OSMIUM, "python3-pyosmium is missing")
INSTANTS = os.path.join(os.path.dirname(os.path.abspath(__file__)), "law_instants")
FIRST, LAST = 2026, 2027
UTC = datetime.timezone.utc
LAWS = ["at", "ch", "cz", "de", "fr", "hu", "it", "li", "pl", "sk"]
ZONES = dict(zip(LAWS, "Vienna Zurich Prague Berlin Paris Budapest Rome Vaduz Warsaw Bratislava".split()))
FLEET = VEHICLES + "".join(
    f"{name},{kind},{weight},,,,,,,{flags}\n"
    for name, kind, weight, flags in [
        ("van", "goods", 3500, ""),
        ("van_trailer", "goods", 3500, "trailer"),
        ("lorry5", "hgv", 5000, ""),
        ("lorry5_trailer", "hgv", 5000, "trailer"),
        ("lorry7", "hgv", 7500, ""),
        ("lorry12", "hgv", 12000, ""),
        ("lorry40", "hgv_articulated", 40000, ""),
        ("fresh40", "hgv_articulated", 40000, "perishable"),
        ("quiet40", "hgv_articulated", 40000, "low_noise"),
        ("rail40", "hgv_articulated", 40000, "combined"),
        ("coach", "bus", 18000, ""),
    ]
)
PERIOD = ["--years", str(FIRST), str(LAST)]


def rows_of(code):
    with open(os.path.join(INSTANTS, f"{code}.csv"), encoding="utf-8", newline="") as file:
        return list(csv.DictReader(file))


def words(text):
    """Returns what `tools/laws` prints, and what it says on the standard error."""
    printed, said, before = io.StringIO(), io.StringIO(), sys.argv
    sys.argv = ["laws", *text]
    try:
        with contextlib.redirect_stdout(printed), contextlib.redirect_stderr(said):
            main.main()
    finally:
        sys.argv = before
    return printed.getvalue(), said.getvalue()


class Days(unittest.TestCase):
    def test_easter(self):
        for text in "1981-04-19 2000-04-23 2008-03-23 2011-04-24 2025-04-20 2026-04-05 2027-03-28 2028-04-16 2038-04-25".split():
            self.assertEqual(days.easter(int(text[:4])).isoformat(), text)

    def test_days_of_germany_are_days_of_the_ban(self):
        tables, everywhere = table.read(), "01-01 04-03 04-06 05-01 05-14 05-25 10-03 12-25 12-26"
        regions = {"de-be": "", "de-by": "06-04 11-01", "de-bb": "10-31", "de-he": "06-04", "de-sl": "06-04 11-01", "de-th": "10-31"}
        for code, more in [*regions.items(), ("de", "06-04 10-31 11-01")]:
            expected = sorted(f"2026-{day}" for day in f"{everywhere} {more}".split())
            self.assertEqual([day for _, day in tables.days(code, 2026, 2026)], expected, code)

    def test_eves(self):
        rows = [("PH", "01-01"), ("PH", "easter+1"), ("PH", "2026-07-14"), ("SH", "PH-1"), ("SH", "02-29")]
        expected = "PH 2026-01-01, SH 2026-04-05, PH 2026-04-06, SH 2026-07-13, PH 2026-07-14, SH 2026-12-31".split(", ")
        self.assertEqual([" ".join(it) for it in days.dates(rows, 2026, 2026)], expected)
        self.assertIn(("SH", "2028-02-29"), days.dates(rows, 2028, 2028))

    def test_days_that_are_none(self):
        for kind, text in [("PH", "PH-1"), ("PH", "easter+"), ("PH", "13-01"), ("PH", "04-31"), ("SH", "2027-02-29"), ("PH", "Easter")]:
            with self.assertRaises(days.NoDay, msg=text):
                days.check(kind, text)
        days.check("SH", "02-29")


class Years(unittest.TestCase):
    """Hours of years, which the program's hours don't have."""

    def test_a_year_is_said_by_weekdays(self):
        for text, expected in [
            ("Su 00:00-22:00", "Su 00:00-22:00"),
            ("2026 Jul 04-Jul 20 Sa 08:00-16:00", "Jul 04,Jul 11,Jul 18 Sa 08:00-16:00"),
            ("2026 Apr 03 14:00-22:00", "Apr 03 Fr 14:00-22:00"),
            ("2026 Jul 31-Aug 01 22:00-02:00", "Jul 31 Fr 22:00-26:00; Aug 01 Sa 22:00-26:00"),
            ("Sa 10:00-12:00; 2026 Jul 04 off", "Sa 10:00-12:00; Jul 04 Sa off"),
            ("2025 Jul 05 Sa 08:00-16:00", None),
        ]:
            self.assertEqual(years.hours(text, 2026, 2028), expected)

    def test_clauses_of_other_years_are_left_out(self):
        text = "no @ (weight>7.5 AND 2026 Jul 04 Sa 08:00-16:00); no @ (weight>7.5 AND 2030 Jul 06 Sa 08:00-16:00); yes @ (perishable)"
        self.assertEqual(years.value(text, 2026, 2027), "no @ (weight>7.5 AND Jul 04 Sa 08:00-16:00); yes @ (perishable)")
        self.assertEqual(years.value(text, 2030, 2030), "no @ (weight>7.5 AND Jul 06 Sa 08:00-16:00); yes @ (perishable)")
        self.assertEqual(years.years_in(text), {2026, 2030})

    def test_every_day_of_five_years_is_told_apart(self):
        for year in range(2026, 2031):
            for day in years.days_of(year):
                years.check_recurrence(day, max(year - 2, 2026), min(year + 2, 2030))

    def test_what_is_refused(self):
        for text, first, last in [
            ("2026 Jul 04 Sa 08:00-16:00", 2026, 2037),  # 4 July 2037 is a Saturday too
            ("2026 Jul 05 Sa 08:00-16:00", 2026, 2027),  # a Sunday
            ("2026 PH 08:00-16:00", 2026, 2027),
            ("2026 Sa 08:00-16:00", 2026, 2027),
            ("2026 Jul 04 Sa 08:00-16:00 open open", 2026, 2027),
            ("2026 Sa 08:00-Mo 16:00", 2026, 2027),
        ]:
            with self.assertRaises(years.NoYears, msg=text):
                years.hours(text, first, last)


class Sections(unittest.TestCase):
    def test_parts(self):
        found = section.Section.of("ref=A 8, a81; from=Dreieck Karlsruhe|Karlsruhe (A 5); to=AS München-West; box=8.3,48,11.6,49.1")
        self.assertEqual(found.refs, {"A8", "A81"})
        self.assertEqual(found.ends, ({"karlsruhe", "karlsruhea5"}, {"münchenwest"}))
        self.assertEqual(found.box, (8.3, 48, 11.6, 49.1))
        self.assertEqual(section.Section.of(""), section.EVERYWHERE)
        for name, same in [("Kreuz Ulm/Elchingen", "Ulm/Elchingen"), ("Autobahndreieck Inntal", "AD Inntal"), ("Knoten Haid", "haid")]:
            self.assertEqual(section.junction_name(name), section.junction_name(same))

    def test_which_roads(self):
        one, classes = section.Section.of("ref=A 8"), section.Section.of("highway=motorway,trunk")
        for ref, expected in [("A 8", True), ("A8", True), ("A 81", False), ("A 7;A 8", True), ("", False)]:
            self.assertEqual(one.is_about({"highway": "motorway", "ref": ref}), expected)
        self.assertEqual([classes.is_about({"highway": it}) for it in ("motorway", "trunk", "trunk_link")], [True, True, False])
        self.assertTrue(section.EVERYWHERE.is_about({"highway": "service"}))

    def test_what_is_refused(self):
        for text in ["A 8", "ref=", "ref=A 8; from=Ulm", "from=Ulm; to=Aalen", "box=1,2,3", "box=3,2,1,4", "name=x", "ref=A 8; ref=A 9"]:
            with self.assertRaises(section.NoSection, msg=text):
                section.Section.of(text)


class Tables(FolderTest):
    def test_each_row_says_where_it_is_from_and_that_it_has_to_be_checked(self):
        tables = table.read()
        self.assertEqual(sorted(tables.rows), LAWS)
        for rows in tables.rows.values():
            for row in rows:
                self.assertEqual(row.caution, "Written from memory. Whoever uses it has to check it.", row.place)
                self.assertGreater(len(row.article), 8, row.place)
                self.assertGreaterEqual(row.written, "2026-12-01")

    def test_rows_are_read_in_all_years_that_they_name(self):
        tables = table.read()
        for code, lacking in [("de", []), ("it", [2027, 2028]), ("fr", [2027, 2028]), ("pl", [])]:
            self.assertEqual(tables.years_without(code, 2026, 2028), lacking)

    def made(self, text, name="xx"):
        with open(self.path(f"{name}.csv"), "w", encoding="utf-8") as file:
            file.write(",".join(table.HEADER) + "\n" + text)
        return table.read(self.folder)

    def test_regions(self):
        tables = self.made(
            "xx,,,PH,01-01,law 1,2026-12-01,mine\nxx,aa bb,,PH,01-02,law 1,2026-12-01,mine\nxx,not aa,,PH,01-03,law 1,2026-12-01,mine\n"
            "xx,aa,,hgv:conditional,no @ (Su),law 1,2026-12-01,mine\n"
        )
        for code, expected in [("xx-aa", "01 02"), ("xx-bb", "01 02 03"), ("xx-cc", "01 03"), ("xx", "01 02 03")]:
            self.assertEqual([day[-2:] for _, day in tables.days(code, 2026, 2026)], expected.split(), code)
        self.assertEqual([len(tables.rules(code)) for code in ("xx-aa", "xx-bb", "xx", "yy")], [1, 0, 1, 0])

    def test_rows_hold_together(self):
        """Each row lets in by itself: what one lifts, another may still close."""
        tables = self.made(
            "xx,,,hgv:conditional,no @ (22:00-05:00); yes @ (low_noise),law 1,2026-12-01,mine\n"
            "xx,,,hgv:conditional,no @ (Su); yes @ (perishable),law 2,2026-12-01,mine\n"
        )
        lists = tables.lists("xx", 2026, 2026)[0]

        def decided(*facts):
            return [access for access, parts in lists if set(parts) <= set(facts)][-1]

        for facts, expected in [
            (("22:00-05:00", "low_noise"), 2),
            (("22:00-05:00", "low_noise", "Su"), 0),
            (("22:00-05:00", "Su", "perishable"), 0),
            (("Su", "perishable"), 2),
            (("Su",), 0),
            ((), 2),
        ]:
            self.assertEqual(decided(*facts), expected, facts)

    def test_what_is_refused(self):
        for text in [
            "xx,,,hgv:conditional,no @ (Su),law,2026-12-01\n",
            "XX,,,hgv:conditional,no @ (Su),law,2026-12-01,mine\n",
            "xx,not,,hgv:conditional,no @ (Su),law,2026-12-01,mine\n",
            "xx,xx-aa,,PH,01-01,law,2026-12-01,mine\n",
            "xx,,box=1,hgv:conditional,no @ (Su),law,2026-12-01,mine\n",
            "xx,,,hgv:conditional,no @ (dusk-dawn),law,2026-12-01,mine\n",
            "xx,,,hgv:conditional,no @ (dirty),law,2026-12-01,mine\n",
            "xx,,,hgv:conditional,no @ (2026 Jul 05 Sa 08:00-16:00),law,2026-12-01,mine\n",
            "xx,,,maxweight,7.5,law,2026-12-01,mine\n",
            "xx,,,maxspeed:hgv:conditional,slow,law,2026-12-01,mine\n",
            "xx,,ref=A 8,PH,01-01,law,2026-12-01,mine\n",
            "xx,,,PH,PH-1,law,2026-12-01,mine\n",
            "xx,,,PH,01-01,,2026-12-01,mine\n",
            "xx,,,PH,01-01,law,2026-12-01,\n",
            "xx,,,PH,01-01,law,today,mine\n",
        ]:
            with self.assertRaises(table.BadTable, msg=text):
                self.made(text)

    def test_the_command(self):
        printed, said = words(["rules", *PERIOD, "home=at", "main=cz,primary", "side=cz"])
        self.assertIn('area:home,hgv:conditional,"no @ (22:00-05:00 AND weight>7.5); yes @ (low_noise); ', printed)
        self.assertIn("area:main,hgv:conditional,", printed)
        self.assertNotIn("area:side,", printed)
        for text in ("at: 17 of 17 rows", "60 @ (weight>7.5 AND 22:00-05:00)", "check them before you use them"):
            self.assertIn(text, said)
        printed, said = words(["days", "--years", "2026", "2026", "home=de"])
        self.assertEqual(printed.count("home,PH,2026-"), 12)
        self.assertIn("single regions", said)
        self.assertEqual(len(words(["show", "li"])[0].splitlines()), 16)
        words(["copy", self.path("own")])
        self.assertEqual(sorted(os.listdir(self.path("own"))), [f"{it}.csv" for it in LAWS])
        self.assertEqual(words(["days", *PERIOD, "home=at", "--tables", self.path("own")]), words(["days", *PERIOD, "home=at"]))
        for text in (f"copy {self.path('own')}", "rules home=xx", "rules home", "days", "show xx", "days --years 2027 2026 home=at"):
            with self.assertRaises(Problem, msg=text):
                words(text.split())


class Instants(FolderTest):
    """The instants of each law."""

    def test_each_law_has_instants_of_each_kind(self):
        self.assertEqual(sorted(glob.glob(os.path.join(INSTANTS, "*.csv"))), [os.path.join(INSTANTS, f"{it}.csv") for it in LAWS])
        tables = table.read()
        for code in LAWS:
            rows = rows_of(code)
            local = [datetime.datetime.fromisoformat(row["local"]) for row in rows]
            holidays = {row["area"]: {day for kind, day in tables.days(row["area"], FIRST, LAST) if kind == "PH"} for row in rows}
            zone = zoneinfo.ZoneInfo(f"Europe/{ZONES[code]}")
            self.assertGreaterEqual(len(rows), 12)
            for row, at in zip(rows, local):
                self.assertEqual(at.astimezone(zone).isoformat(timespec="minutes"), row["local"])
                self.assertEqual(f"{at:%a}"[:2], row["day"])
            offsets = [(at.astimezone(zone).utcoffset(), (at - datetime.timedelta(days=1)).astimezone(zone).utcoffset()) for at in local]
            for kind, found in [
                ("the clocks go forward", any(now > before for now, before in offsets)),
                ("the clocks go back", any(now < before for now, before in offsets)),
                ("a holiday on a Sunday", any(row["day"] == "Su" and row["local"][:10] in holidays[row["area"]] for row in rows)),
                ("the end of a year", any((at.month, at.day) == (12, 31) for at in local)),
                ("the start of a year", any((at.month, at.day) == (1, 1) for at in local)),
            ]:
                self.assertTrue(found, f"{code}: {kind}")

    def folder_of(self, code, places):
        """A folder with an arc for each area and road of a table; returns the arc of each."""
        arcs = {place: number for number, place in enumerate(places, 1)}
        named = [f"a{number}={area}" + (f",{road}" if road else "") for (area, road), number in arcs.items()]
        self.write(
            graph=graph(2, *[(1, 2, 1)] * len(arcs)),
            areas="area,zone\n" + "".join(f"a{number},home\n" for number in arcs.values()),
            roads="arc,area\n" + "".join(f"{number},a{number}\n" for number in arcs.values()),
            zones="zone,from,offset\n" + "".join(",".join(it) + "\n" for it in zone_rows.rows(f"Europe/{ZONES[code]}", FIRST, LAST, "home")),
            vehicles=FLEET,
            rules=words(["rules", *PERIOD, *named])[0],
            holidays=words(["days", *PERIOD, *(it.partition(",")[0] for it in named)])[0],
        )
        return arcs

    @needs_program
    def test_the_program_answers_as_the_laws_say(self):
        program = Program(beside.PROGRAM)
        for code in LAWS:
            rows = rows_of(code)
            arcs = self.folder_of(code, dict.fromkeys((row["area"], row["road"]) for row in rows))
            for row in rows:
                minute = int(datetime.datetime.fromisoformat(row["local"]).timestamp()) // 60
                closed = program.bans(self.folder, row["vehicle"], arcs[row["area"], row["road"]], minute, minute + 1)
                self.assertEqual("closed" if closed else "open", row["answer"], " ".join(row.values()))


ROW = ",".join(table.HEADER) + "\n"


def row(section, value, region="", country="de"):
    return f'{country},{region},"{section}",hgv:conditional,"{value}",law of the test,2026-12-01,mine\n'


@needs_osmium
class OnMaps(FolderTest):
    """Sections on small maps, which tools/from_osm finds."""

    def convert(self, text, laws, *options, place="laws"):
        os.makedirs(self.path("laws"), exist_ok=True)
        for name, content in (("roads.osm", text), ("laws/de.csv", ROW + laws)):
            with open(self.path(name), "w", encoding="utf-8") as file:
                file.write(content)
        words = [OSMIUM, f"{TOOLS}/from_osm", self.path("roads.osm"), self.path("made"), "--years", "2026", "2027", "--laws", place if place == "tables" else self.path(place), *options]
        done = subprocess.run(words, stdout=subprocess.PIPE, stderr=subprocess.PIPE, universal_newlines=True)
        self.assertEqual(done.returncode, 0, done.stderr[-2000:])
        return done.stdout

    def table(self, name):
        with open(self.path(f"made/{name}.csv"), encoding="utf-8", newline="") as file:
            return list(csv.DictReader(file))

    def rules_of_areas(self):
        return {row["scope"][len("area:") :]: row["value"] for row in self.table("rules")}

    def rules_by_arc(self):
        """The rules of each arc, by the nodes of its ends."""
        at = {row["node"]: int(row["osm_node"]) for row in self.table("nodes")}
        areas = {row["arc"]: row["area"] for row in self.table("roads")}
        first = self.table("areas")[0]["area"]
        rules = self.rules_of_areas()
        with open(self.path("made/graph.gr"), encoding="ascii") as file:
            arcs = [line.split()[1:3] for line in file if line.startswith("a ")]
        return {(at[tail], at[head]): rules.get(areas.get(str(arc), first), "") for arc, (tail, head) in enumerate(arcs, 1)}

    def motorway(self, names):
        """A motorway of two carriageways from west to east, nodes 1 to 6 and 11 to 16 back, joined at both ends and by a road at each junction."""
        nodes = [(row * 10 + k, 48.0 + row * 0.001, 9.0 + k * 0.05, {}) for row in (0, 1) for k in range(1, 7)]
        nodes = [(it[0], *it[1:3], {"highway": "motorway_junction", "name": names[it[0] % 10]} if it[0] % 10 in names else {}) for it in nodes]
        ways = [(100, [1, 2, 3, 4, 5, 6], {"highway": "motorway", "ref": "A 8"}), (101, [16, 15, 14, 13, 12, 11], {"highway": "motorway", "ref": "A 8;E 52"})]
        ways += [(110 + k, [k, 10 + k], {"highway": "primary", "ref": "B 1"}) for k in range(1, 7)]
        return nodes, ways

    CLOSED = "no @ (Sa 07:00-20:00 AND weight>7.5)"

    def closed_arcs(self):
        return sorted(it for it, rules in self.rules_by_arc().items() if rules)

    def test_a_section_between_two_junctions(self):
        text = small_extract.text_of(*self.motorway({2: "Dreieck Nord", 3: "Mitte", 5: "Süd"}))
        for ends in ("from=Nord; to=Süd", "from=Kreuz Süd|Sud; to=Dreieck Nord"):
            printed = self.convert(text, row(f"ref=A8; {ends}", self.CLOSED), "--country", "de", "--coarse", "0")
            self.assertEqual(self.closed_arcs(), [(2, 3), (3, 4), (4, 5), (13, 12), (14, 13), (15, 14)])
            self.assertNotIn("hasn't both junctions", printed)
        self.convert(text, row("ref=A8; from=Nord; to=Süd; box=9.2,47,10,49", self.CLOSED), "--country", "de", "--coarse", "0")
        self.assertEqual(self.closed_arcs(), [(4, 5), (5, 6), (15, 14), (16, 15)])
        self.convert(text, row("ref=A8; from=Nord; to=Mitte", self.CLOSED), "--country", "de", "--coarse", "0", place="laws/de.csv")
        self.assertEqual(self.closed_arcs(), [(2, 3), (13, 12)])

    def test_a_section_in_a_box(self):
        text = small_extract.text_of(*self.motorway({2: "Nord"}))
        printed = self.convert(text, row("ref=A 8; from=Nord; to=West; box=9.12,47.9,9.22,48.2", self.CLOSED), "--country", "de", "--coarse", "0")
        self.assertEqual(self.closed_arcs(), [(2, 3), (3, 4), (13, 12), (14, 13)])
        self.assertIn("sections of laws of which the map hasn't both junctions", printed)
        for box, closed in [
            ("9.12,47.9,9.17,48.2", [(2, 3), (3, 13), (13, 3), (13, 12)]),
            ("9.12,47.9,9.17,48.0004", [(2, 3)]),
            ("9.12,48.0008,9.17,48.2", [(13, 12)]),
        ]:
            self.convert(text, row(f"box={box}", self.CLOSED), "--country", "de", "--coarse", "0")
            self.assertEqual(self.closed_arcs(), closed)

    def test_a_way_that_goes_on_is_cut_where_a_section_ends(self):
        """Node 3 is no junction of roads: it becomes a node since the box begins there."""
        nodes = [(k, 48.0, 9.0 + k * 0.05, {}) for k in range(1, 7)]
        ways = [(100, [1, 2, 3, 4, 5, 6], {"highway": "primary", "ref": "B 1", "name": "Long"}), (101, [6, 1], {"highway": "primary"})]
        self.convert(small_extract.text_of(nodes, ways), row("ref=B 1; box=9.16,47.9,9.22,48.2", self.CLOSED), "--country", "de", "--coarse", "0")
        rules, areas = self.rules_of_areas(), {row["arc"]: row["area"] for row in self.table("roads")}
        found = sorted((row["osm_way"], row["metres"], rules.get(areas.get(row["arc"], "de"), "")) for row in self.table("ways"))
        self.assertEqual(found, [("100", "3720", self.CLOSED)] * 2 + [("100;101", "33482", "")] * 2)

    def test_classes_and_regions(self):
        laws = row("highway=motorway", self.CLOSED) + row("highway=primary", "no @ (Su)", "by") + row("", "no @ (Mo)", "be")
        text = small_extract.text_of(*self.motorway({}))
        for code, motorways, others in [("de-by", self.CLOSED, "no @ (Su)"), ("de-sn", self.CLOSED, ""), ("de-be", "no @ (Mo); " + self.CLOSED, "no @ (Mo)")]:
            self.convert(text, laws, "--country", code, "--coarse", "0")
            rules = self.rules_by_arc()
            self.assertEqual(sorted(rules[2, 3].split("; ")), sorted(motorways.split("; ")), code)
            self.assertEqual(rules[2, 12], others, code)
        printed = self.convert(text, laws, "--country", "de", "--coarse", "0")
        self.assertEqual(sorted(self.rules_by_arc()[2, 12].split("; ")), ["no @ (Mo)", "no @ (Su)"])
        self.assertIn("laws and days of single regions, taken for all roads", printed)

    def test_a_border(self):
        """A row of one country doesn't hold on the same road beyond its border; it is cut where it crosses it."""
        nodes, ways = self.motorway({})
        corners = [(50 + k, lat, lon, {}) for k, (lat, lon) in enumerate([(47.9, 9.17), (47.9, 9.9), (48.1, 9.9), (48.1, 9.17)])]
        ways += [(60, [50, 51], {}), (61, [51, 52, 53, 50], {})]
        given = {"type": "boundary", "boundary": "administrative", "admin_level": "2", "ISO3166-1": "AT"}
        border = (70, [("way", 60, "outer"), ("way", 61, "outer")], given)
        text = small_extract.text_of(nodes + corners, ways, [border])
        laws = row("ref=A 8", self.CLOSED) + row("highway=primary", "no @ (Su)", country="at")
        self.convert(text, laws, "--country", "de", "--coarse", "0")
        rules = self.rules_by_arc()
        self.assertEqual([rules[it] for it in [(2, 3), (13, 12)]], [self.CLOSED] * 2)
        self.assertEqual([rules[it] for it in [(5, 6), (16, 15), (2, 12)]], [""] * 3)
        self.assertEqual([rules[it] for it in [(5, 15), (6, 16)]], ["no @ (Su)"] * 2)

    def test_the_sections_of_germany(self):
        """Each listed motorway, as a road over its box from west to east with both junctions on it, is closed between them on Saturdays of the summer."""
        nodes, ways, expected = [], [], []
        sections = dict.fromkeys(row.section for row in table.read().rules("de") if row.section.ends)
        for number, found in enumerate(sections):
            parts = dict(it.strip().split("=") for it in found.text.split(";"))
            (west, south, east, north), first = found.box, 100 * (number + 1)
            names = {2: parts["from"].split("|")[-1], 4: parts["to"].split("|")[0]}
            for k in range(1, 6):
                tags = {"highway": "motorway_junction", "name": names[k]} if k in names else {}
                nodes.append((first + k, (south + north) / 2, west + (east - west) * k / 6, tags))
                road = {"highway": "motorway", "oneway": "no", "ref": parts["ref"]} if k < 5 else {"highway": "primary"}
                ways.append((first + k, [first + k, first + k % 5 + 1], road))
            ways.append((first + 10, [first + 1, 101], {"highway": "primary"}))
            expected += [(first + 2, first + 4), (first + 4, first + 2)]
        printed = self.convert(small_extract.text_of(nodes, ways), "", "--country", "de-by", "--coarse", "0", place="tables")
        self.assertEqual(len(sections), 20)
        self.assertEqual(sorted(it for it, rules in self.rules_by_arc().items() if "Jul-Aug Sa 07:00-20:00" in rules), sorted(expected))
        self.assertNotIn("hasn't both", printed)

    def test_a_ferry_has_no_law(self):
        nodes, ways = self.motorway({})
        nodes += [(30 + k, 48.2, 9.0 + k * 0.05, {}) for k in (1, 6)]
        ways += [(130 + k, [10 + k, 30 + k], {"route": "ferry", "duration": "00:20", "motor_vehicle": "yes", "ref": "A 8"}) for k in (1, 6)]
        ways.append((140, [31, 36], {"highway": "primary"}))
        laws = row("", "no @ (Mo)", "by") + row("box=8,47,10,49", self.CLOSED) + row("ref=A 8", "no @ (Su)")
        self.convert(small_extract.text_of(nodes, ways), laws, "--country", "de-by", "--coarse", "0")
        rules = self.rules_by_arc()
        self.assertEqual([rules[it] for it in [(11, 31), (31, 11), (16, 36)]], [""] * 3)
        self.assertEqual(sorted(rules[31, 36].split("; ")), ["no @ (Mo)", self.CLOSED])
        with open(self.path("old.csv"), "w", encoding="ascii") as file:
            file.write("country,key,value\nde,hgv:conditional,no @ (Mo)\n")
        self.convert(small_extract.text_of(nodes, ways), "", "--country", "de-by", "--coarse", "0", place="old.csv")
        rules = self.rules_by_arc()
        self.assertEqual([rules[it] for it in [(11, 31), (16, 36), (31, 36)]], ["", "", "no @ (Mo)"])

    def test_an_interchange_has_several_nodes(self):
        """Between the last node of the one and the first of the other, even where the carriageways meet beyond them."""
        nodes, ways = self.motorway({1: "Nord", 2: "Nord", 4: "Süd", 5: "Süd"})
        ways.append((120, [1, 11], {"highway": "motorway", "ref": "A 8", "oneway": "no"}))
        self.convert(small_extract.text_of(nodes, ways), row("ref=A 8; from=Nord; to=Süd", self.CLOSED), "--country", "de", "--coarse", "0")
        self.assertEqual(self.closed_arcs(), [(2, 3), (3, 4), (13, 12), (14, 13)])

    def test_a_ring_is_closed_on_the_shorter_side(self):
        ring = [(k, 48 + lat, 9 + lon, {}) for k, (lat, lon) in enumerate([(0, 0), (0, 0.2), (0.1, 0.4), (0.2, 0.4), (0.3, 0.2), (0.2, 0), (0.1, -0.1)], 1)]
        ring = [(*it[:3], {"highway": "motorway_junction", "name": {1: "A", 3: "B"}[it[0]]} if it[0] in (1, 3) else {}) for it in ring]
        ring += [(it[0] + 10, it[1] + 0.001, *it[2:]) for it in ring]
        # (the inner carriageway isn't there on the shorter side)
        ways = [(100 + k, [k, k % 7 + 1], {"highway": "trunk", "ref": "A 10"}) for k in range(1, 8)]
        ways += [(100 + k, [k, (k - 10) % 7 + 11], {"highway": "trunk", "ref": "A 10"}) for k in range(11, 18) if k != 12]
        ways += [(200 + k, [k, 10 + k], {"highway": "primary"}) for k in range(1, 8)]
        self.convert(small_extract.text_of(ring, ways), row("ref=A 10; from=A; to=B", self.CLOSED), "--country", "de", "--coarse", "0")
        self.assertEqual(self.closed_arcs(), [(1, 2), (2, 1), (2, 3), (3, 2)])

    def test_eves_and_days(self):
        """Days and eves are those of the tables; those of a file come before them, and have to have eves where the law speaks of them."""
        nodes, ways = self.motorway({})
        ways[3][2]["hgv:conditional"] = "no @ (SH 07:00-09:00)"
        text = small_extract.text_of(nodes, ways)
        laws = row("", "no @ (SH 22:00-24:00)") + "de,,,PH,05-01,law of the test,2026-12-01,mine\nde,,,SH,PH-1,law of the test,2026-12-01,mine\n"
        self.convert(text, laws, "--country", "de")
        found = {(row["kind"], row["date"]) for row in self.table("holidays")}
        self.assertEqual(found, {("SH", "2026-04-30"), ("PH", "2026-05-01"), ("SH", "2027-04-30"), ("PH", "2027-05-01")})
        days_file = self.path("days.csv")
        for rows, message in [("de,PH,2026-05-01\n", "speaks of eves"), ("de,SH,2026-05-05\n", "")]:
            with open(days_file, "w", encoding="ascii") as file:
                file.write("area,kind,date\n" + rows)
            if message:
                with self.assertRaisesRegex(AssertionError, message):
                    self.convert(text, laws, "--country", "de", "--holidays", days_file)
            else:
                printed = self.convert(text, laws, "--country", "de", "--holidays", days_file)
                self.assertIn("school holidays of signs aren't read", printed)
                self.assertIn(("hgv", "no"), [(row["key"], row["value"]) for row in self.table("rules")])
                self.assertEqual([row["date"] for row in self.table("holidays")], ["2026-05-05"])

    def drawn(self, seed):
        """A grid whose rows and columns are roads with a number and drawn tags, and laws of drawn sections of them."""
        draws, side = random.Random(seed), 6
        nodes, pairs = small_extract.grid(side)
        names = draws.sample(range(1, side * side + 1), 20)
        nodes = [(*it[:3], {"highway": "motorway_junction", "name": f"Kreuz N{it[0]}"} if it[0] in names else {}) for it in nodes]
        ways = []
        for number, (one, other) in enumerate(pairs, 1):
            level = other == one + 1
            ref = f"A {(one - 1) // side + 1}" if level else f"B {(one - 1) % side + 1}"
            tags = small_extract.drawn_tags(draws)
            tags.update(ref=ref, highway=draws.choice(["primary", "secondary", "trunk"]))
            ways.append((number, [one, other], tags))
        hours = ["Sa 07:00-20:00", "Jul-Aug Sa,Su 07:00-20:00", "22:00-05:00", "Su,PH 00:00-22:00", "SH 22:00-24:00"]
        hours += ["2026 Jul 03-Jul 12 Fr 14:00-22:00", "2026 Jul 11 09:00-16:00"]
        laws = "de,,,PH,2026-07-09,law of the test,2026-12-01,mine\nde,,,SH,PH-1,law of the test,2026-12-01,mine\n"
        laws += row("", "no @ (weight>7.5 AND Su 00:00-22:00); yes @ (perishable)")
        for _ in range(8):
            line = draws.randrange(side)
            on_row = [k for k in names if (k - 1) // side == line]
            west, south = 13.4 + draws.random() * 0.03, 52.5 + draws.random() * 0.02
            box = f"box={west:.3f},{south:.3f},{west + 0.02:.3f},{south + 0.015:.3f}"
            one, other = draws.sample(on_row, 2) if len(on_row) > 1 else (1, 2)
            sections = [f"ref=A {line + 1}; from=AK N{one}; to=N{other}", f"ref=B {line + 1}", box, f"ref=A {line + 1},B {line + 1}; {box}", "highway=trunk"]
            value = f"no @ (weight>{draws.choice(['3.5', '7.5', '12'])} AND {draws.choice(hours)})"
            laws += row(draws.choice(sections), value, draws.choice(["", "", "by", "not by", "be"]))
        return small_extract.text_of(nodes, ways), laws

    @needs_program
    def test_folders_agree_with_a_plain_reading(self):
        for seed, coarse in [(1, "90")] if SHORT else [(1, "0"), (2, "90"), (3, "0"), (4, "60")]:
            text, laws = self.drawn(seed)
            self.convert(text, laws, "--country", "de-by", "--coarse", coarse)
            words = [OSMIUM, f"{TOOLS}/tests/agrees_with_tags", "--laws", self.path("laws"), "--program", beside.PROGRAM, "--from", "2026-07-07", "--days", "6"]
            words += ["--arcs", "8" if SHORT else "25", "--trips", "1", self.path("roads.osm"), self.path("made")]
            done = subprocess.run(words, stdout=subprocess.PIPE, stderr=subprocess.PIPE, universal_newlines=True)
            self.assertEqual(done.returncode, 0, f"seed {seed}: {done.stdout[-3000:]}{done.stderr[-2000:]}")


if __name__ == "__main__":
    beside.say_what_is_skipped("test_laws")
    unittest.main()
