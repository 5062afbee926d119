#!/usr/bin/env python3
"""Tests of tools/from_osm, tools/zones and tools/holidays.

    tools/tests/test_from_osm.py [--program PROGRAM] [TEST..]

Those that need python3-pyosmium, python3-holidays or the built program (LORRY_PLAN_PROGRAM or crates/lorry_plan/out/lorry_plan, if it isn't named) are
skipped where these aren't there. The last line says how many passed, and why others were skipped."""
import argparse
import csv
import itertools
import json
import os
import random
import re
import subprocess
import sys
import tempfile
import unittest

sys.dont_write_bytecode = True
TOP = os.path.dirname(os.path.dirname(os.path.dirname(os.path.abspath(__file__))))
TOOLS = os.path.join(TOP, "tools")
TESTS = os.path.join(TOOLS, "tests")
PROGRAM = os.environ.get("LORRY_PLAN_PROGRAM") or os.path.join(TOP, "crates", "lorry_plan", "out", "lorry_plan")
sys.path[:0] = [TOOLS, TESTS]

import small_extract
from lorry_tools.conversion import access, holiday_rows, notation, tags, zone_rows
from lorry_tools.conversion.access import CLOSED, DESTINATION, NO, OPEN, YES
from lorry_tools.shapes import Shapes, decoded, with_times


def python_with(package):
    """A Python that has a package: this one, or the system's own."""
    for python in (sys.executable, "/usr/bin/python3"):
        if os.path.exists(python) and subprocess.run([python, "-c", f"import {package}"], stderr=subprocess.DEVNULL).returncode == 0:
            return python
    return None


# The gate's short form tries less.
SHORT = os.environ.get("LORRY_PLAN_TESTS") == "short"
OSMIUM, HOLIDAYS = python_with("osmium, numpy"), python_with("holidays")
needs_osmium = unittest.skipUnless(OSMIUM, "python3-pyosmium is missing")
needs_holidays = unittest.skipUnless(HOLIDAYS, "python3-holidays is missing")
LAWS = """country,key,value
de,hgv:conditional,no @ (weight>7.5 AND Su 00:00-22:00)
de,hgv:conditional,"no @ (weight>7.5 AND PH 00:00-22:00)"
"""
DAYS = "area,kind,date\nde,PH,2026-10-03\n"


def run(python, *words, check=True):
    done = subprocess.run([python, *words], stdout=subprocess.PIPE, stderr=subprocess.PIPE, universal_newlines=True)
    if check and done.returncode:
        raise AssertionError(f"{' '.join(words)}: {done.stderr[-2000:]}")
    return done


class Polylines(unittest.TestCase):
    def test_the_example_of_the_format(self):
        # Google's own example has five decimals.
        self.assertEqual(decoded(b"_p~iF~ps|U_ulLnnqC_mqNvxq`@"), [(-12.02, 3.85), (-12.095, 4.07), (-12.6453, 4.3252)])
        self.assertEqual(decoded(b"_p~i F"), [])
        self.assertEqual(decoded(b""), [])

    def test_times_by_distance(self):
        timed = list(with_times([(0.0, 0.0), (0.0, 1.0), (0.0, 4.0)], 10, 14))
        self.assertEqual([round(second) for _, second in timed], [600, 660, 840])

    @needs_osmium
    def test_what_is_written_is_read(self):
        script = (
            "import array, sys; sys.path.insert(0, sys.argv[1])\n"
            "from lorry_tools.conversion import arcs, shapes\n"
            "import numpy, random\n"
            "draws = random.Random(1)\n"
            "xs = array.array('i', [draws.randint(-1800000000, 1800000000) for _ in range(500)])\n"
            "ys = array.array('i', [draws.randint(-900000000, 900000000) for _ in range(500)])\n"
            "parts = [[range(k, k + 5), range(k + 4, k - 1, -1)] for k in range(0, 490, 7)]\n"
            "ends = numpy.arange(0, 490, 7), numpy.arange(4, 494, 7)\n"
            "shapes.AT_ONCE = 30\n"
            "roads = [arcs.Arc(0, 0, 0, float(k), 0, 0.0, 0, 0, (k, -1 - k)) for k in range(len(parts))]\n"
            "shapes.write(sys.argv[2], xs, ys, ends, arcs.of_list(roads))\n"
            "for it in parts: print([((xs[k] + 5) // 10, (ys[k] + 5) // 10) for k in [*it[0], *it[1][1:]]])\n"
        )
        with tempfile.TemporaryDirectory() as folder:
            done = run(OSMIUM, "-c", script, TOOLS, folder)
            found = Shapes(os.path.join(folder, "shapes.csv"))
            for arc, line in enumerate(done.stdout.splitlines(), 1):
                self.assertEqual([(round(lon * 1e6), round(lat * 1e6)) for lon, lat in found.line(arc)], [tuple(it) for it in json.loads(line.replace("(", "[").replace(")", "]"))])


class Kept(unittest.TestCase):
    @needs_osmium
    def test_junctions_are_kept_as_one_after_the_other(self):
        script = (
            "import sys; sys.path.insert(0, sys.argv[1])\n"
            "import numpy\n"
            "from lorry_tools.conversion import coarse, kept\n"
            "from lorry_tools.conversion.arcs import Arcs\n"
            "from lorry_tools.conversion.near import reached\n"
            "kept.FEWEST_AT_ONCE = int(sys.argv[2])\n"
            "for seed, gap in ((1, 20000), (2, 60000), (3, 100000)):\n"
            "    draws = numpy.random.RandomState(seed)\n"
            "    wide = 24\n"
            "    places = numpy.arange(wide * wide)\n"
            "    xs, ys = ((it * 10000 + draws.randint(-3000, 3000, len(places))).astype(numpy.int32) for it in (places % wide, places // wide))\n"
            "    pairs = [(one, one + step) for one in places.tolist() for step in (1, wide) if (one + step) % wide >= one % wide and one + step < len(places)]\n"
            "    tails, heads = numpy.array(pairs + [it[::-1] for it in pairs])[draws.rand(2 * len(pairs)) < 0.9].T\n"
            "    metres = numpy.hypot(xs[tails] - xs[heads], ys[tails] - ys[heads]) * 0.0111\n"
            "    times = numpy.maximum(1, metres / draws.choice([8.3, 13.9, 22.2], len(tails)) * 1000)\n"
            "    zeros = numpy.zeros(len(tails))\n"
            "    arcs = Arcs((tails, heads, times, metres, zeros, zeros, zeros, zeros), numpy.arange(len(tails) + 1), numpy.arange(len(tails)))\n"
            "    stars = coarse.Stars(len(places), arcs, (xs, ys))\n"
            "    fixed, unfit = (set(draws.randint(0, len(places), count).tolist()) for count in (3, 40))\n"
            "    nodes = numpy.unique(arcs.tails)\n"
            "    found = coarse.kept_junctions(nodes, stars, fixed, unfit, gap, lambda *_: None)\n"
            "    fastest = numpy.rint(stars.speeds() * 3600)\n"
            "    covered, plain = set(), []\n"
            "    for node in sorted(nodes.tolist(), key=lambda it: (it not in fixed, it in unfit, -fastest[it], it)):\n"
            "        if node in fixed or node not in covered:\n"
            "            plain.append(node)\n"
            "            for near in (stars.out, stars.into):\n"
            "                covered.update(reached(node, near, gap))\n"
            "    print(sorted(plain) == numpy.flatnonzero(found).tolist(), len(plain) > len(fixed))\n"
        )
        for fewest in ("1", "1000"):
            self.assertEqual(run(OSMIUM, "-c", script, TOOLS, fewest).stdout, "True True\n" * 3)


class Notation(unittest.TestCase):
    """docs/FORMATS.md says what the program reads."""

    READ = [
        "24/7",
        "24/7open",
        "Mo 08:00-12:00; Tu 09:00-10:00",
        "Mo-Fr 22:00-06:00; PH off",
        "PH,Mo",
        "Su[1]",
        "Fr[-1]",
        "Sa 22:00-Su 22:00",
        "off",
        "Jul:",
        "Jul: open",
        "Jul 05-29: 08:00-12:00",
        "Jul12:00-13:00",
        "Nov-Feb",
        "Jul 1-Aug 7",
        "Mo08:00-09:00",
        "22:00-30:00",
        "Feb 30",
        "08:00-48:00",
        "Mo 08:00-Mo 08:00",
        "SH off",
        "Mo-Mo",
        "Jan 01,Jan 06",
        "Mo 08:00-12:00,13:00-17:00",
        "Sa 22:00-Su 24:00",
    ]
    REFUSED = [
        "Mo 08:00-12:00;",
        "Mo 08:00-12:00 off",
        "mo",
        "24:00-25:00",
        "08:60-09:00",
        "17:00+",
        "sunrise-sunset",
        "Su[01]",
        "Su[1] 22:00-Mo 06:00",
        "week 1-2",
        "2024 Jul",
        "easter",
        "PH Mo",
        "Su[1,3]",
        "Jan 01,06",
        "Jul-Aug 7",
        "Mo 08:00-12:00, Tu 09:00-10:00",
        "Jul 05-29:08:00-12:00",
        "",
        "Su[6]",
        "08:00-48:01",
        "08:00",
        "Jan 32",
        "Mo 22:00-Tu 06:00 -",
    ]

    def test_hours_are_read_as_by_the_program(self):
        for text in self.READ:
            notation.read_hours(text)
        for text in self.REFUSED:
            with self.assertRaises(notation.Unread, msg=text):
                notation.read_hours(text)

    def test_hours_are_rewritten(self):
        for text, expected in [
            ("Su[1,3]", "Su[1],Su[3]"),
            ("Jan 01,06", "Jan 01,Jan 06"),
            ("Tu 10:00-12:00, We 10:00-12:00", "Tu 10:00-12:00; We 10:00-12:00"),
            ("Mo\u2013Fr 08:00\u201312:00;", "Mo-Fr 08:00-12:00"),
            ("Mo  08:00 - 12:00", "Mo 08:00 - 12:00"),
        ]:
            self.assertEqual(notation.hours(text, lambda *_: None), expected)

    def test_an_additional_rule_that_repeats_a_day_is_refused(self):
        with self.assertRaises(notation.Unread):
            notation.hours("Mo-Fr 10:00-12:00, We 14:00-16:00", lambda *_: None)

    def test_school_holidays_need_a_table(self):
        self.assertEqual(notation.hours("Mo-Fr 07:00-09:00; SH off", lambda *_: None), "Mo-Fr 07:00-09:00; SH off")
        for text, lifts in [("SH", False), ("Mo-Fr 07:00-09:00; SH off", True)]:
            with self.assertRaises(notation.Unread):
                notation.hours(text, lambda *_: None, False, lifts)
            notation.hours(text, lambda *_: None, True, lifts)


def decided(clauses, facts):
    """What a list says where the parts in `facts` hold."""
    found = None
    for value, parts in clauses:
        if set(parts) <= facts:
            found = value
    return found


class Clauses(unittest.TestCase):
    """Lists of clauses, by all facts over three parts."""

    PARTS = ("a", "b", "c")
    FACTS = [frozenset(it) for count in range(4) for it in itertools.combinations("abc", count)]

    def lists(self, seed):
        draws = random.Random(seed)
        base = ((draws.choice((NO, DESTINATION, YES)), ()),)
        return base + tuple(
            access.clause(draws.choice((NO, DESTINATION, YES)), draws.sample(self.PARTS, draws.randint(1, 2))) for _ in range(draws.randint(0, 4))
        )

    def test_each_call_says_what_it_should(self):
        for seed in range(400):
            one, other = self.lists(seed), self.lists(seed + 1000)
            for facts in self.FACTS:
                first, second = decided(one, facts), decided(other, facts)
                self.assertEqual(decided(access.simplified(one), facts), first)
                self.assertEqual(decided(access.both(one, other), facts), min(first, second))
                self.assertEqual(decided(access.capped(one, DESTINATION), facts), min(first, DESTINATION))
                self.assertEqual(decided(access.with_parts(one, ("c",)), facts), first if "c" in facts else YES)
                self.assertEqual(decided(access.for_deliveries(one, ("c",)), facts), max(first, DESTINATION) if "c" in facts else first)

    def test_limits_stay_short(self):
        limits = [((YES, ()), (NO, (f"weight>{number}",))) for number in range(8)]
        joined = OPEN
        for one in limits:
            joined = access.both(joined, one)
        self.assertEqual(len(joined), 9)


class Tags(unittest.TestCase):
    def rows(self, text, way="forward", **options):
        given = dict(one.split("=", 1) for one in text.split(" | ")) if text else {}
        reading = tags.Reading(**options)
        rows = access.rows(reading.lists(given, way), False)
        return "\n".join(f"{key},{value}" for key, value in rows), reading

    CASES = [
        ("", ""),
        ("hgv=designated", ""),
        ("hgv=no", "hgv,no"),
        ("access=no | bus=yes", "hgv,no\ngoods,no"),
        ("access=psv", "hgv,no\ngoods,no"),
        ("motor_vehicle=agricultural;forestry", "access,no"),
        ("vehicle=destination", "access,destination"),
        ("hgv=official", ""),
        ("hgv=local", "hgv,destination"),
        ("maxweight=7.5", "access:conditional,no @ (weight>7.5)"),
        ("maxweight=7.5 | hgv=designated", "access:conditional,no @ (weight>7.5)"),
        ("maxweight=16000 kg", "access:conditional,no @ (weight>16)"),
        ("maxweight:hgv=12", "hgv:conditional,no @ (weight>12)"),
        ("maxweight=3.5 | maxweight:bus=none", "hgv:conditional,no @ (weight>3.5)\ngoods:conditional,no @ (weight>3.5)"),
        ("maxheight=12'6\"", "access:conditional,no @ (height>3.81)"),
        ("maxheight=10 ft", "access:conditional,no @ (height>3.04)"),
        ("maxheight=none", ""),
        ("maxheight=3,8", "access:conditional,no @ (height>3.8)"),
        ("maxlength=12 | maxwidth=2.3 m", "access:conditional,no @ (width>2.3); no @ (length>12)"),
        ("maxaxleload=8", "access:conditional,no @ (axleload>8)"),
        ("maxweight=7.5 | maxweight:conditional=none @ destination", "access:conditional,destination @ (weight>7.5)"),
        ("maxweight:conditional=3.5 @ (22:00-06:00)", "access:conditional,no @ (22:00-06:00 AND weight>3.5)"),
        ("hazmat=no", "access:conditional,no @ (hazmat)"),
        ("hazmat=designated", ""),
        ("hazmat:water=no", "access:conditional,no @ (hazmat_water)"),
        ("hazmat:adr_tunnel_code=C", "access:conditional,no @ (hazmat_c)"),
        ("hazmat:conditional=no @ (Mo-Fr 06:00-09:00)", "access:conditional,no @ (Mo-Fr 06:00-09:00 AND hazmat)"),
        ("hgv:conditional=no @ (weight > 7.5 t AND Sa,Su)", "hgv:conditional,no @ (Sa,Su AND weight>7.5)"),
        ("hgv=no | hgv:conditional=yes @ delivery", "hgv,destination"),
        ("hgv=no | hgv:conditional=delivery @ (06:00-11:00)", "hgv,no\nhgv:conditional,destination @ (06:00-11:00)"),
        ("hgv:conditional=no @ (SH Mo-Fr 07:00-08:00)", "hgv,no"),
        ("hgv:conditional=no @ (PH Mo-Fr 07:00-08:00)", "hgv:conditional,no @ (Mo-Fr 07:00-08:00 AND PH)"),
        ("hgv:conditional=no @ (sunset-sunrise)", "hgv,no"),
        ("hgv=no | hgv:conditional=yes @ (sunset-sunrise)", "hgv,no"),
        ("hgv:conditional=no @ (2013 Jun 01-2013 Sep 30)", ""),
        ("access:conditional=no @ wet", "access:conditional,no @ (wet)"),
        ("maxheight=below_default", "access,no"),
        ("hgv=whatever", "hgv,no"),
        ("hgv_articulated=no", "hgv_articulated,no"),
        ("hgv=no | hgv_articulated=yes", "hgv,no\nhgv_articulated,yes"),
        ("hgv:backward=no", ""),
        ("hgv:forward=no", "hgv,no"),
        ("oneway=yes", ""),
        ("oneway=-1", "access,no"),
        ("oneway=-1 | oneway:bus=no", "hgv,no\ngoods,no"),
        ("oneway=reversible", "access,no"),
        ("motorcar=no", ""),
    ]

    def test_each_tag_becomes_rules(self):
        for text, expected in self.CASES:
            self.assertEqual(self.rows(text, first_year=2026)[0], expected, text)

    def test_options(self):
        self.assertEqual(self.rows("motorcar=no", motorcar=True)[0], "access,no")
        self.assertEqual(self.rows("hgv:conditional=no @ (sunset-sunrise)", unread="open")[0], "")
        self.assertEqual(
            self.rows("hgv:conditional=no @ (SH Mo-Fr 07:00-08:00)", school_holidays=True)[0], "hgv:conditional,no @ (Mo-Fr 07:00-08:00 AND SH)"
        )
        self.assertEqual(self.rows("oneway=yes", "backward")[0], "access,no")
        self.assertEqual(
            self.rows("oneway=yes | oneway:conditional=no @ (22:00-06:00)", "backward")[0], "access,no\naccess:conditional,yes @ (22:00-06:00)"
        )

    def test_what_is_not_read_is_noted(self):
        for text, kind in [
            ("maxheight=below_default", "closed"),
            ("hgv=whatever", "closed"),
            ("hgv:conditional=no @ (dusk-dawn)", "closed"),
            ("hgv=official", "changed"),
            ("access=unknown", "left out"),
            ("hgv:conditional=no @ 7.5", "closed"),
            ("hgv:conditional=80 @ wet", "closed"),
            ("hgv:conditional=no @ (2013 Jun)", "left out"),
        ]:
            _, reading = self.rows(text, first_year=2026)
            self.assertIn(kind, {it[0] for it in reading.notes.said}, text)
        for text in (
            "maxbogieweight=11",
            "hgv:lanes=no|yes",
            "maxspeed:conditional=80 @ wet",
            "coach=no",
            "access:lanes=no|yes",
            "maxheight:marine=3",
        ):
            reading = tags.Reading()
            reading.note_keys(dict([text.split("=", 1)]))
            self.assertEqual({it[0] for it in reading.notes.said}, {"left out"}, text)

    def test_each_value_is_one_that_the_notation_has(self):
        for text, _ in self.CASES:
            rows, _ = self.rows(text)
            for row in filter(None, rows.split("\n")):
                key, value = row.split(",", 1)
                if key.endswith(":conditional"):
                    for one in notation.outside_parentheses(value, ";"):
                        for part in one.partition("@")[2].strip(" ()").split(" AND "):
                            if not notation.FLAG.match(part) and not tags.COMPARISON.match(part):
                                notation.read_hours(part)

    def test_a_law_holds_whatever_a_sign_says(self):
        law = tags.law_lists([("hgv:conditional", "no @ (weight>7.5 AND Su)")])
        sign = tags.Reading().lists({"hgv": "designated", "maxweight": "12"}, "forward")
        both = tuple(access.both(one, other) for one, other in zip(law, sign))
        self.assertEqual(
            access.rows(both, False),
            [
                ("hgv:conditional", "no @ (Su AND weight>7.5); no @ (weight>12)"),
                ("goods:conditional", "no @ (weight>12)"),
                ("bus:conditional", "no @ (weight>12)"),
            ],
        )
        self.assertEqual(access.rows((CLOSED, OPEN, OPEN, OPEN), True), [("hgv", "no"), ("hgv_articulated", "yes"), ("goods", "yes"), ("bus", "yes")])

    def test_a_law_in_another_form_is_refused(self):
        for row in [("maxweight", "7.5"), ("hgv", "whatever"), ("hgv:conditional", "no @ (dusk-dawn)")]:
            with self.assertRaises(notation.Unread):
                tags.law_lists([row])

    def test_speeds(self):
        reading = tags.Reading(speeds={"primary": 60})
        for text, expected in [("60", 60), ("30", 30), ("20 mph", 32.2), ("DE:urban", 50), ("none", 60), ("walk", 7), ("130", 60), ("fast", 60)]:
            self.assertAlmostEqual(reading.speed({"highway": "primary", "maxspeed": text}, "forward"), expected, 1)
        self.assertEqual(reading.speed({"highway": "primary", "maxspeed": "50", "maxspeed:hgv": "40", "maxspeed:hgv:backward": "30"}, "backward"), 30)


class Tables(unittest.TestCase):
    def test_zones(self):
        rows = zone_rows.rows("Europe/Berlin", 2026, 2026)
        self.assertEqual(
            [row[1:] for row in rows], [("2026-01-01T00:00Z", "+01:00"), ("2026-03-29T01:00Z", "+02:00"), ("2026-10-25T01:00Z", "+01:00")]
        )
        self.assertEqual({row[0] for row in rows}, {"Europe-Berlin"})
        self.assertEqual(zone_rows.rows("Asia/Kathmandu", 1985, 1986, "np")[1], ("np", "1985-12-31T18:30Z", "+05:45"))
        for zone in ("Europe/Nowhere", "../etc/passwd"):
            with self.assertRaises(zone_rows.NoZone):
                zone_rows.rows(zone, 2026, 2026)

    def test_the_script_of_zones(self):
        text = run(sys.executable, f"{TOOLS}/zones", "--years", "2026", "2026", "home=America/New_York").stdout
        self.assertEqual(text.splitlines()[:2], ["zone,from,offset", "home,2026-01-01T00:00Z,-05:00"])
        self.assertEqual(run(sys.executable, f"{TOOLS}/zones", "Europe/Nowhere", check=False).returncode, 1)

    @needs_holidays
    def test_a_country_under_another_code(self):
        text = run(HOLIDAYS, f"{TOOLS}/holidays", "--years", "2026", "2026", "fr=FR").stdout
        self.assertIn("fr,PH,2026-07-14\n", text)

    @needs_holidays
    def test_the_script_of_holidays(self):
        text = run(HOLIDAYS, f"{TOOLS}/holidays", "--years", "2026", "2026", "de=DE-BY", "at=AT").stdout.splitlines()
        self.assertEqual(text[0], "area,kind,date")
        self.assertIn("de,PH,2026-06-04", text)
        self.assertIn("at,PH,2026-10-26", text)
        for word in ("de=DE-XX", "xx=XX"):
            done = run(HOLIDAYS, f"{TOOLS}/holidays", word, check=False)
            self.assertEqual((done.returncode, len(done.stderr.splitlines())), (1, 1))

    def test_help_needs_no_package_and_a_missing_one_is_named_on_one_line(self):
        with tempfile.TemporaryDirectory() as folder:
            for name in ("osmium", "holidays"):
                with open(os.path.join(folder, name + ".py"), "w", encoding="ascii") as file:
                    file.write("raise ImportError\n")
            without = [
                "-c",
                "import os, sys; os.environ['PYTHONPATH'] = sys.argv[1]; os.execv(sys.executable, [sys.executable] + sys.argv[2:])",
                folder,
            ]
            for script, words in [("from_osm", ["a", "b"]), ("holidays", ["de=DE"])]:
                done = run(sys.executable, *without, f"{TOOLS}/{script}", *words, check=False)
                self.assertEqual(len(done.stderr.splitlines()), 1, done.stderr)
                self.assertIn("apt-get install python3-", done.stderr)
            for script in ("from_osm", "zones", "holidays"):
                self.assertIn("tools/" + script, run(sys.executable, *without, f"{TOOLS}/{script}", "--help").stdout)


def table(folder, name):
    with open(os.path.join(folder, name), encoding="utf-8", newline="") as file:
        return list(csv.DictReader(file))


@needs_osmium
class Folders(unittest.TestCase):
    """Folders of small extracts."""

    def setUp(self):
        self.kept = tempfile.TemporaryDirectory()
        self.addCleanup(self.kept.cleanup)
        self.write("laws.csv", LAWS)
        self.write("days.csv", DAYS)

    def write(self, name, text):
        path = os.path.join(self.kept.name, name)
        with open(path, "w", encoding="utf-8") as file:
            file.write(text)
        return path

    def convert(self, text, *options, check=True):
        folder = os.path.join(self.kept.name, "made")
        done = run(OSMIUM, f"{TOOLS}/from_osm", self.write("roads.osm", text), folder, "--years", "2026", "2026", *options, check=check)
        return folder, done

    def law(self):
        return ["--country", "de", "--laws", os.path.join(self.kept.name, "laws.csv"), "--holidays", os.path.join(self.kept.name, "days.csv")]

    def square(self, *tags_of_roads, nodes=()):
        """Four nodes in a ring, two kilometres apart, whose roads have these tags, and further nodes."""
        corners = [(1, 52.5, 13.4, {}), (2, 52.5, 13.43, {}), (3, 52.52, 13.43, {}), (4, 52.52, 13.4, {})]
        own = list(tags_of_roads) + [{}] * (4 - len(tags_of_roads))
        ways = [(number, [number, number % 4 + 1], {"highway": "primary", "name": f"road {number}", **given}) for number, given in enumerate(own, 1)]
        return corners + list(nodes), ways

    def test_a_road_has_both_directions_and_its_minutes(self):
        nodes, ways = self.square({"maxspeed": "20"})
        folder, _ = self.convert(small_extract.text_of(nodes, ways + [(9, [1, 3], {"highway": "primary"})]), *self.law(), "--coarse", "0")
        with open(os.path.join(folder, "graph.gr"), encoding="ascii") as file:
            lines = file.read().splitlines()
        self.assertIn("p sp 2 6", lines)  # corners 2 and 4 only continue a road
        ways_table = table(folder, "ways.csv")
        self.assertEqual({row["osm_way"] for row in ways_table}, {"1;2", "2;1", "3;4", "4;3", "9"})
        self.assertIn("OpenStreetMap contributors", lines[1])
        slow = next(row for row in ways_table if row["osm_way"] == "1;2")
        self.assertAlmostEqual(int(slow["seconds"]), 2031 / 20 * 3.6 + 2224 / 60 * 3.6, delta=6)

    def test_oneway_streets_barriers_and_dead_ends(self):
        nodes, ways = self.square({"oneway": "yes"}, nodes=[(5, 52.51, 13.46, {}), (6, 52.5, 13.415, {"barrier": "bollard"}), (7, 52.49, 13.4, {})])
        ways += [
            (10, [2, 5], {"highway": "residential", "oneway": "yes"}),
            (11, [1, 6, 2], {"highway": "residential"}),
            (12, [1, 7], {"highway": "service", "access": "private"}),
        ]
        folder, done = self.convert(small_extract.text_of(nodes, ways), *self.law(), "--coarse", "0")
        self.assertEqual({row["osm_node"] for row in table(folder, "nodes.csv")} & {"5", "6", "7"}, set())
        self.assertTrue(all("11" not in row["osm_way"].split(";") for row in table(folder, "ways.csv")))
        for text in ("barrier=bollard", "access=private highway=service", "arcs outside the largest strongly connected part"):
            self.assertIn(text, done.stdout)

    def test_a_law_is_repeated_behind_the_own_rules_of_a_road(self):
        nodes, ways = self.square({"hgv": "designated"}, {"maxheight": "3.8"}, {"hgv": "destination"})
        folder, _ = self.convert(small_extract.text_of(nodes, ways), *self.law(), "--coarse", "0")
        rules = {(row["scope"], row["key"]): row["value"] for row in table(folder, "rules.csv")}
        law = "no @ (Su 00:00-22:00 AND weight>7.5); no @ (PH 00:00-22:00 AND weight>7.5)"
        self.assertEqual(rules["area:de", "hgv:conditional"], law)
        of_scope = {scope: {key: value for (one, key), value in rules.items() if one == scope} for scope, _ in rules}
        self.assertIn(
            {"hgv:conditional": law + "; no @ (height>3.8)", "goods:conditional": "no @ (height>3.8)", "bus:conditional": "no @ (height>3.8)"},
            of_scope.values(),
        )
        self.assertIn({"hgv": "destination", "hgv:conditional": law}, of_scope.values())
        self.assertEqual(len(of_scope), 3)  # hgv=designated says what the law leaves open
        days = {row["area"] for row in table(folder, "holidays.csv")}
        self.assertEqual(days, {row["area"] for row in table(folder, "areas.csv")})

    def test_places_to_wait(self):
        area = [(21, 52.5005, 13.4, {}), (22, 52.5005, 13.401, {}), (23, 52.501, 13.401, {})]
        nodes, ways = self.square(
            nodes=area
            + [
                (31, 52.52, 13.4301, {"amenity": "parking", "hgv": "yes", "opening_hours": "Mo-Fr 06:00-22:00"}),
                (32, 52.5, 13.4301, {"amenity": "parking", "hgv": "yes", "opening_hours": "sunrise-sunset"}),
                (33, 52.5, 13.43, {"amenity": "parking"}),
                (34, 52.5, 13.4302, {"amenity": "parking", "hgv": "yes", "maxheight": "2.1"}),
            ]
        )
        ways += [(20, [21, 22, 23, 21], {"highway": "rest_area", "name": "Field"})]
        folder, done = self.convert(small_extract.text_of(nodes, ways), *self.law(), "--depot", "Yard=52.5205,13.4001")
        at = {row["osm_node"]: row["node"] for row in table(folder, "nodes.csv")}
        parking = {row["node"]: (row["rating"], row["hours"]) for row in table(folder, "parking.csv")}
        self.assertEqual(parking, {at["1"]: ("rest_area", ""), at["3"]: ("lorry_parking", "Mo-Fr 06:00-22:00"), at["4"]: ("depot", "")})
        self.assertIn(f"node of the depot Yard", done.stdout)
        self.assertEqual({row["name"] for row in table(folder, "nodes.csv")} & {"Field", "Yard"}, {"Field", "Yard"})
        for text in ("hours can't be read", "--any-parking", "parking for smaller vehicles"):
            self.assertIn(text, done.stdout)

    def test_shapes_lead_along_the_ways(self):
        nodes, ways = self.square()
        bent = [(8, 52.505, 13.425, {}), (9, 52.495, 13.415, {})]
        ways[0] = (1, [1, 9, 8, 2], ways[0][2])
        folder, _ = self.convert(small_extract.text_of(nodes + bent, ways + [(9, [1, 3], {"highway": "primary"})]), *self.law(), "--coarse", "0")
        rows = table(folder, "shapes.csv")
        arc = next(row["arc"] for row in table(folder, "ways.csv") if row["osm_way"] == "1;2")
        self.assertEqual(len(rows), 6)
        self.assertEqual(rows[int(arc) - 1]["arc"], arc)
        found = Shapes(os.path.join(folder, "shapes.csv"))
        line = [(13.4, 52.5), (13.415, 52.495), (13.425, 52.505), (13.43, 52.5), (13.43, 52.52)]
        self.assertEqual(found.line(int(arc)), line)
        self.assertEqual([found.line(it)[:1] for it in (0, 7, 10**9)], [[], [], []])
        back = next(row["arc"] for row in table(folder, "ways.csv") if row["osm_way"] == "2;1")
        self.assertEqual(found.line(int(back)), line[::-1])
        length = next(row["metres"] for row in table(folder, "ways.csv") if row["arc"] == arc)
        self.assertEqual(rows[int(arc) - 1]["metres"], length)

    def star(self, *restrictions):
        """Roads from a crossing, node 1, to nodes 2 to 5, which a ring joins, with turn restrictions."""
        nodes = [(1, 52.5, 13.4, {}), (2, 52.52, 13.4, {}), (3, 52.5, 13.43, {}), (4, 52.48, 13.4, {}), (5, 52.5, 13.37, {})]
        ways = [(number, [1, number], {"highway": "primary"}) for number in (2, 3, 4, 5)]
        ways += [(10 + number, [number, number % 4 + 2], {"highway": "secondary"}) for number in (2, 3, 4, 5)]
        relations = [
            (number, [("way", first, "from"), ("node", 1, "via"), ("way", last, "to")], {"type": "restriction", **tags})
            for number, (first, last, tags) in enumerate(restrictions, 1)
        ]
        return small_extract.text_of(nodes, ways, relations)

    def turns(self, *restrictions, coarse="0"):
        """The turns over the crossing, each two ways, with the rules of the arc after it, and what was printed."""
        folder, done = self.convert(self.star(*restrictions), "--country", "de", "--no-holidays", "--coarse", coarse)
        at = {row["node"] for row in table(folder, "nodes.csv") if row["osm_node"] == "1"}
        with open(os.path.join(folder, "graph.gr"), encoding="ascii") as file:
            arcs = [line.split()[1:3] for line in file if line.startswith("a ")]
        ways = [row["osm_way"].split(";") for row in table(folder, "ways.csv")]
        areas = {int(row["arc"]): row["area"] for row in table(folder, "roads.csv")}
        first = table(folder, "areas.csv")[0]["area"]
        rules = {}
        for row in table(folder, "rules.csv"):
            rules.setdefault(row["scope"], {})[row["key"]] = row["value"]
        found = {
            (before[-1], after[0]): rules.get("area:" + areas.get(arc, first), {})
            for (_, head), before in zip(arcs, ways)
            for arc, ((tail, _), after) in enumerate(zip(arcs, ways), 1)
            if head == tail and head in at
        }
        for arc, over in enumerate(ways, 1):
            inside = [it for it in zip(over, over[1:]) if all(len(way) == 1 for way in it)]
            found.update((it, rules.get("area:" + areas.get(arc, first), {})) for it in inside)
        return found, done.stdout

    def test_turn_restrictions(self):
        free, _ = self.turns()
        self.assertEqual(len(free), 16)
        found, _ = self.turns(("2", "3", {"restriction": "no_left_turn"}))
        self.assertEqual(set(free) - set(found), {("2", "3")})
        found, _ = self.turns(("2", "4", {"restriction": "only_straight_on"}))
        self.assertEqual(set(free) - set(found), {("2", "2"), ("2", "3"), ("2", "5")})
        found, _ = self.turns(("2", "4", {"restriction": "only_straight_on"}), ("2", "3", {"restriction": "only_left_turn"}))
        self.assertEqual(set(free) - set(found), {("2", "2"), ("2", "5")})
        found, _ = self.turns(("2", "2", {"restriction": "no_u_turn"}), ("5", "3", {"type": "restriction:hgv", "restriction": "no_straight_on"}))
        self.assertEqual(set(free) - set(found), {("2", "2")})
        self.assertEqual(found["5", "3"], {"hgv": "no"})
        self.assertEqual(found["5", "4"], {})

    def test_turn_restrictions_of_some_vehicles_and_hours(self):
        hours = {"restriction:conditional": "no_left_turn @ (Mo-Fr 07:00-09:00)", "except": "bus;bicycle"}
        found, text = self.turns(("2", "3", hours), ("3", "4", {"restriction": "no_left_turn", "except": "hgv"}))
        self.assertEqual(len(found), 16)
        ban = "no @ (Mo-Fr 07:00-09:00)"
        self.assertEqual(found["2", "3"], {"hgv:conditional": ban, "goods:conditional": ban})
        self.assertEqual(found["3", "4"], {"goods": "no", "bus": "no"})
        self.assertIn("2 turn restrictions\n", text)

    def test_turn_restrictions_that_are_left_out(self):
        nodes = [("way", 2, "from"), ("way", 3, "via"), ("way", 13, "to")]
        text = self.star(("2", "3", {"restriction:motorcar": "no_left_turn"}), ("2", "99", {"restriction": "no_left_turn"}), ("2", "3", {"restriction": "odd"}))
        text = text.replace("</osm>", small_extract.element("relation", 9, {}, small_extract.member_lines(nodes) + ['<tag k="type" v="restriction"/>']) + "</osm>")
        _, done = self.convert(text, "--country", "de", "--no-holidays", "--coarse", "0")
        for words in ("aren't about lorries", "of roads that aren't taken", "a turn restriction that isn't known", "over ways in place of a node"):
            self.assertIn(words, done.stdout)

    def test_a_coarse_network_obeys_turn_restrictions(self):
        found, _ = self.turns(("2", "4", {"restriction": "only_straight_on"}), coarse="60")
        self.assertLessEqual({it for it in found if it[0] == "2"}, {("2", "4")})

    def test_ferries(self):
        nodes, ways = self.square({"hgv": "no"}, {"access": "no"})
        sea = [(8, 52.55, 13.4, {}), (9, 52.56, 13.4, {})]
        ways += [
            (30, [4, 8], {"route": "ferry", "motor_vehicle": "yes", "duration": "00:30", "hgv:conditional": "no @ (weight>20)"}),
            (31, [8, 3], {"highway": "primary"}),
            (32, [4, 9], {"route": "ferry", "motor_vehicle": "yes"}),
            (33, [4, 9], {"route": "ferry", "duration": "10"}),
        ]
        text = small_extract.text_of(nodes + sea, ways)
        folder, done = self.convert(text, *self.law(), "--coarse", "0")
        seconds = {row["osm_way"]: int(row["seconds"]) for row in table(folder, "ways.csv")}
        ferry = next(way for way in seconds if "30" in way.split(";"))
        self.assertEqual(ferry, "30")
        self.assertEqual(seconds["30"], 1800)
        rules = {(row["scope"], row["key"]): row["value"] for row in table(folder, "rules.csv")}
        self.assertEqual({value for (scope, _), value in rules.items() if "ferry" in scope}, {"no @ (weight>20)"})
        self.assertEqual({row["zone"] for row in table(folder, "areas.csv")}, {"Europe-Berlin"})
        for words in ("without a duration", "don't say that they take lorries"):
            self.assertIn(words, done.stdout)
        _, done = self.convert(text, *self.law(), "--coarse", "0", "--ferries", "out")
        self.assertIn("--ferries out", done.stdout)

    def test_durations(self):
        for text, minutes in [("25", 25), ("00:25", 25), ("1:30:00", 90), ("PT1H30M", 90), ("P1DT2H", 1560), ("soon", None), ("0", None), ("", None), ("99999", None)]:
            self.assertEqual(tags.duration_of(text), minutes, text)

    def seconds(self, highway, *options, **tags):
        """The seconds of the first road of the square, on which the second one follows."""
        nodes, ways = self.square()
        ways[0] = (1, [1, 2], {"highway": highway, **tags})
        folder, _ = self.convert(small_extract.text_of(nodes, ways + [(9, [1, 3], {"highway": "primary"}), (8, [2, 4], {"highway": "primary"})]), *self.law(), "--coarse", "0", *options)
        return sorted(int(row["seconds"]) for row in table(folder, "ways.csv") if row["osm_way"] == "1")

    def test_speeds_by_class_of_vehicles(self):
        length = 2030.8
        for highway, words, kmh in [
            ("trunk", ["--country", "de"], 60),  # the limit of lorries on roads that are no motorways
            ("trunk", ["--country", "ch", "--no-holidays"], 75),
            ("trunk", ["--country", "de", "--vehicle-class", "goods"], 95),
            ("motorway", ["--country", "de", "--speed", "motorway=100"], 80),
            ("motorway", ["--country", "fr", "--no-holidays", "--speed", "motorway=100"], 90),
            ("motorway", ["--country", "de", "--vehicle-class", "bus"], 95),
        ]:
            found = self.seconds(highway, *words, oneway="no")
            self.assertEqual(len(found), 2)
            self.assertAlmostEqual(found[0], length / kmh * 3.6, delta=1, msg=(highway, words))
        self.assertAlmostEqual(self.seconds("trunk", "--vehicle-class", "goods", **{"maxspeed:goods": "50", "maxspeed:hgv": "20"})[0], length / 50 * 3.6, delta=1)

    def test_night_speeds(self):
        found = self.seconds("primary", "--night-speed", "de=30")
        for one, kmh in zip(found, (60, 60, 30, 30)):
            self.assertAlmostEqual(one, 2030.8 / kmh * 3.6, delta=1)
        folder = os.path.join(self.kept.name, "made")
        arcs = {int(row["seconds"]): row["arc"] for row in table(folder, "ways.csv") if row["osm_way"] == "1"}
        areas = {row["arc"]: row["area"] for row in table(folder, "roads.csv")}
        values = [row["value"] for row in table(folder, "rules.csv") if row["scope"] == "area:" + areas.get(arcs[found[0]], "") and row["key"].startswith("hgv")]
        first = table(folder, "areas.csv")[0]["area"]
        ban = "22:00-05:00 AND weight>7.5"
        of_area = {area: [row["value"] for row in table(folder, "rules.csv") if row["scope"] == f"area:{area}"] for area in {first, *areas.values()}}
        self.assertTrue(any(ban in value for value in of_area[areas.get(arcs[found[0]], first)]), values)
        self.assertFalse(any(ban in value for value in of_area[areas.get(arcs[found[-1]], first)]))
        self.assertEqual(len(self.seconds("primary", "--night-speed", "at=30")), 2)
        nodes, ways = self.square()
        _, done = self.convert(small_extract.text_of(nodes, ways), *self.law(), "--night-speed", "de=slow", check=False)
        self.assertIn("--night-speed", done.stderr)

    def test_a_polygon_cuts_the_extract(self):
        nodes, pairs = small_extract.grid(6)
        roads = [(number, list(pair), {"highway": "primary"}) for number, pair in enumerate(pairs, 1)]
        roads.append((99, [1, 2, 3, 4, 5, 6], {"highway": "primary"}))  # leaves the polygon for a while
        whole = [("w", 13.39, 52.49), ("e", 13.5, 52.49), ("e", 13.5, 52.6), ("w", 13.39, 52.6)]
        hole = [(13.4072 + 0.0072 * k, lat) for k, lat in ((0, 52.499), (3, 52.499), (3, 52.5065), (0, 52.5065))]
        lines = ["name", "1", *(f"  {lon} {lat}" for _, lon, lat in whole), "END", "!2", *(f"  {lon - 0.001} {lat}" for lon, lat in hole), "END", "END", ""]
        area = self.write("part.poly", "\n".join(lines))
        text = small_extract.text_of(nodes, roads)
        folder, _ = self.convert(text, *self.law(), "--coarse", "0", "--polygon", area)
        found = {int(row["osm_node"]) for row in table(folder, "nodes.csv")}
        inside = {number for number, lat, lon, _ in nodes if not (13.4062 < lon < 13.4278 and lat < 52.5065)}
        self.assertLessEqual(found, inside)
        self.assertGreater(len(found), 20)
        metres = [int(row["metres"]) for row in table(folder, "ways.csv") if "99" in row["osm_way"].split(";")]
        self.assertLess(max(metres), 2500)
        for bad in ("name\n1\n 1 2\nEND\nEND\n", "name\n1\n 1 2\n 2 3\n 3 3\n", "name\n", "name\n1\n one two\nEND\n"):
            _, done = self.convert(text, *self.law(), "--polygon", self.write("bad.poly", bad), check=False)
            self.assertEqual(done.returncode, 1)
            self.assertIn("bad.poly", done.stderr.splitlines()[-1])

    def test_a_folder_that_would_be_too_large_is_refused_after_reading(self):
        nodes, pairs = small_extract.grid(30)
        # Each third line of the grid is larger than the others.
        lines = [(one - 1) // 30 if other == one + 1 else (one - 1) % 30 for one, other in pairs]
        kinds = ["residential" if line % 3 else "primary" for line in lines]
        roads = [(number, list(pair), {"highway": kinds[number - 1]}) for number, pair in enumerate(pairs, 1)]
        path = self.write("grid.osm", small_extract.text_of(nodes, roads))
        script = (
            "import sys; sys.argv[0] = sys.argv.pop(1); sys.path[:0] = [sys.argv.pop(1)]; from lorry_tools.conversion import estimate, tables\n"
            "estimate.FEWEST_WAYS, estimate.SAMPLES, estimate.SAMPLED_WAYS, estimate.SMALL_PART = 100, 2, 900, 2\n"
            "tables.MOST_NODES, tables.MOST_ARCS = int(sys.argv.pop(1)), 100000\n"
            "exec(compile(open(sys.argv[0]).read(), sys.argv[0], 'exec'))"
        )
        words = [f"{TOOLS}/from_osm", TOOLS]
        own = [path, os.path.join(self.kept.name, "large"), "--years", "2026", "2026", *self.law(), "--coarse", "60"]
        done = run(OSMIUM, "-c", script, *words, "100000", *own)
        rows = table(own[1], "nodes.csv")
        said = re.search(r"the folder will have about ([\d,]+) nodes and ([\d,]+) arcs", done.stderr)
        for text, count in zip(said.groups(), (len(rows), len(table(own[1], "ways.csv")))):
            self.assertTrue(0.6 < int(text.replace(",", "")) / count < 1.3, (text, count))
        done = run(OSMIUM, "-c", script, *words, str(len(rows) // 2), *own, check=False)
        self.assertEqual(done.returncode, 1)
        last = done.stderr.splitlines()[-1]
        self.assertRegex(last, r"the folder would have about .* --coarse \d+ would fit, with about")
        self.assertIn("--roads unclassified would fit", last)
        self.assertNotIn("strongly connected", done.stderr)

    def test_several_processes_make_the_same_folder(self):
        path = self.write("drawn.osm", small_extract.drawn(2, 8))
        script = (
            "import sys; sys.argv[0] = sys.argv.pop(1); sys.path[:0] = [sys.argv.pop(1)]; from lorry_tools.conversion import coarse\n"
            "coarse.FEWEST_FOR_PROCESSES, coarse.CHUNK = 2, 3\n"
            "exec(compile(open(sys.argv[0]).read(), sys.argv[0], 'exec'))"
        )
        made = []
        for processes in ("1", "2"):
            folder = os.path.join(self.kept.name, f"by{processes}")
            own = [path, folder, "--years", "2026", "2026", *self.law(), "--coarse", "60", "--processes", processes]
            run(OSMIUM, "-c", script, f"{TOOLS}/from_osm", TOOLS, *own)
            made.append({name: open(os.path.join(folder, name), "rb").read() for name in sorted(os.listdir(folder))})
        self.assertEqual(*made)

    def test_blocks_read_by_numpy_and_by_pyosmium_make_the_same_folder(self):
        path = self.write("drawn.osm", small_extract.drawn(4, 8))
        blocks = os.path.join(self.kept.name, "drawn.osm.pbf")
        copy = (
            "import osmium, sys\n"
            "class Copy(osmium.SimpleHandler):\n"
            "    def node(self, it): out.add_node(it)\n"
            "    def way(self, it): out.add_way(it)\n"
            "    def relation(self, it): out.add_relation(it)\n"
            "out = osmium.SimpleWriter(sys.argv[2]); Copy().apply_file(sys.argv[1]); out.close()"
        )
        run(OSMIUM, "-c", copy, path, blocks)
        script = (
            "import sys; sys.argv[0] = sys.argv.pop(1); sys.path[:0] = [sys.argv.pop(1)]; from lorry_tools.conversion import pbf\n"
            "pbf.FEATURES.clear() if sys.argv.pop(1) == 'pyosmium' else None\n"
            "exec(compile(open(sys.argv[0]).read(), sys.argv[0], 'exec'))"
        )
        made = []
        for words in (["-c", script, f"{TOOLS}/from_osm", TOOLS, "pyosmium"], ["-c", script, f"{TOOLS}/from_osm", TOOLS, "numpy"]):
            folder = os.path.join(self.kept.name, f"by{words[-1]}")
            run(OSMIUM, *words, blocks, folder, "--years", "2026", "2026", *self.law(), "--coarse", "60", "--depot", "here=52.51,13.42")
            made.append({name: open(os.path.join(folder, name), "rb").read() for name in sorted(os.listdir(folder))})
        self.assertEqual(*made)

    def test_tolls(self):
        nodes, ways = self.square({"toll": "yes"})
        text = small_extract.text_of(nodes, ways)
        folder, done = self.convert(text, *self.law(), "--coarse", "0")
        self.assertFalse(os.path.exists(os.path.join(folder, "tolls.csv")))
        self.assertIn("--toll-per-km", done.stdout)
        folder, _ = self.convert(text, *self.law(), "--coarse", "0", "--toll-per-km", "0.5")
        self.assertTrue(all(0.9 < float(row["toll"]) < 1.2 for row in table(folder, "tolls.csv")))

    def test_countries_by_border(self):
        nodes, ways = self.square()
        corners = [(50 + number, lat, lon, {}) for number, (lat, lon) in enumerate([(52.4, 13.3), (52.4, 13.415), (52.6, 13.415), (52.6, 13.3)])]
        ways += [(60, [50, 51], {}), (61, [51, 52, 53, 50], {})]
        border = (
            70,
            [("way", 60, "outer"), ("way", 61, "outer")],
            {"type": "boundary", "boundary": "administrative", "admin_level": "2", "ISO3166-1": "PL"},
        )
        ways[0][1].insert(1, 8)
        folder, _ = self.convert(small_extract.text_of(nodes + corners + [(8, 52.5, 13.4149, {})], ways, [border]), *self.law(), "--coarse", "0")
        zones = {row["area"]: row["zone"] for row in table(folder, "areas.csv")}
        self.assertEqual(zones, {"de": "Europe-Berlin", "pl": "Europe-Warsaw"})
        self.assertIn("8", {row["osm_node"] for row in table(folder, "nodes.csv")})  # the road is cut where it crosses the border
        self.assertIn("pl", {row["area"] for row in table(folder, "roads.csv")} | {table(folder, "areas.csv")[0]["area"]})

    def test_what_stops_a_conversion(self):
        nodes, ways = self.square()
        text = small_extract.text_of(nodes, ways)
        bad = self.write("bad.csv", "country,key,value\nde,hgv:conditional,no @ (dusk-dawn)\n")
        unknown = self.write("unknown.csv", "country,key,value\nxx,hgv:conditional,no @ (PH)\n")
        for words, expected in [
            (["--laws", bad], "can't be read"),
            (["--laws", unknown, "--country", "xx"], "public holidays"),
            (["--depot", "A=1,2,3"], "--depot"),
            (["--speed", "primary=fast"], "--speed"),
            (["--country", "de", "--zone", "de=Europe/Nowhere"], "zone database"),
            (["--roads", "motorway"], "no drivable road"),
        ]:
            _, done = self.convert(text, *words, check=False)
            self.assertEqual((done.returncode, len(done.stderr.splitlines()[-1:])), (1, 1))
            self.assertIn(expected, done.stderr.splitlines()[-1])
        self.assertIn("no file", run(OSMIUM, f"{TOOLS}/from_osm", "absent.osm", "x", check=False).stderr)
        self.assertEqual(run(OSMIUM, f"{TOOLS}/from_osm", self.write("x.osm", "no map"), "x", check=False).stderr.count("Traceback"), 0)

    def test_vehicles_and_prices_of_the_user_stay(self):
        nodes, ways = self.square(nodes=[(31, 52.52, 13.4301, {"amenity": "parking", "hgv": "yes"})])
        os.mkdir(os.path.join(self.kept.name, "made"))
        header = "name,class,weight_kg,axleload_kg,height_cm,width_cm,length_cm,axles,purpose,flags\n"
        self.write("made/vehicles.csv", header + "mine,hgv,,,,,,,,\n")
        self.write("made/ratings.csv", "rating,weight\nlorry_parking,0.9\n")
        folder, _ = self.convert(small_extract.text_of(nodes, ways), *self.law())
        self.assertEqual([row["name"] for row in table(folder, "vehicles.csv")], ["mine"])
        self.assertEqual(table(folder, "ratings.csv"), [{"rating": "lorry_parking", "weight": "0.9"}])

    def test_folders_agree_with_the_tags(self):
        """By a script that shares no code with the converter, and by the built program."""
        if not os.access(PROGRAM, os.X_OK):
            self.skipTest("the program isn't built")
        most = [
            "-c",
            "import sys; sys.argv[0] = sys.argv.pop(1); sys.path[:0] = [sys.argv.pop(1)]; from lorry_tools.conversion import tables; tables.MOST_AREAS = 9\n"
            "exec(compile(open(sys.argv[0]).read(), sys.argv[0], 'exec'))",
        ]
        drawn = [(2, "90", False), (3, "0", True)] if SHORT else [(1, "0", False), (2, "90", False), (3, "0", True)]
        for seed, coarse, few_areas in drawn:
            night = ["--night-speed", "de=40"] if seed == 2 else []
            roads = self.write(f"{seed}.osm", small_extract.drawn(seed, 6))
            folder = os.path.join(self.kept.name, f"drawn{seed}")
            script = most + [f"{TOOLS}/from_osm", TOOLS] if few_areas else [f"{TOOLS}/from_osm"]
            run(OSMIUM, *script, roads, folder, "--years", "2026", "2026", "--coarse", coarse, *night, *self.law())
            if few_areas:
                self.assertEqual(len(table(folder, "areas.csv")), 9)
            done = run(
                OSMIUM,
                f"{TESTS}/agrees_with_tags",
                "--laws",
                os.path.join(self.kept.name, "laws.csv"),
                "--program",
                PROGRAM,
                "--from",
                "2026-10-02",
                "--days",
                "3",
                *(["--fine"] if coarse == "0" else []),
                *night,
                "--arcs",
                "2" if SHORT else "6",
                "--trips",
                "1" if SHORT else "2",
                roads,
                folder,
                check=False,
            )
            self.assertEqual(done.returncode, 0, done.stdout[-3000:] + done.stderr[-2000:])


def main():
    global PROGRAM
    parser = argparse.ArgumentParser(description=__doc__, formatter_class=argparse.RawDescriptionHelpFormatter)
    parser.add_argument("--program", default=PROGRAM)
    parser.add_argument("tests", nargs="*")
    words = parser.parse_args()
    PROGRAM = words.program
    loader = unittest.defaultTestLoader
    module = sys.modules[__name__]
    suite = loader.loadTestsFromNames(words.tests, module) if words.tests else loader.loadTestsFromModule(module)
    result = unittest.TextTestRunner(stream=open(os.devnull, "w", encoding="ascii"), verbosity=0).run(suite)
    for test, trace in result.failures + result.errors:
        print(f"{test}:\n{trace}")
    failed, skipped = len(result.failures) + len(result.errors), len(result.skipped)
    reasons = ", ".join(sorted({reason for _, reason in result.skipped}))
    print(f"from_osm: {result.testsRun - failed - skipped} passed, {failed} failed, {skipped} skipped" + (f" ({reasons})" if skipped else ""))
    return 1 if failed or not result.testsRun else 0


if __name__ == "__main__":
    sys.exit(main())
