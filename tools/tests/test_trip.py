"""Tests of tools/trip: places, times and stops in people's words, ways by streets, warnings, and whole answers by the program where it is built.

    python3 -m unittest tools/tests/test_trip.py

The folder has a night ban from 22:00 to 05:00 local time, and these roads: Low Road leads from Depot over Inn to Market in 60 and 60 minutes, High
Road past Inn in 300, Mill Lane from Market to Mill in 30, Back Lane from there to Depot in 90, and Long Road to Far in 240. A lorry may wait in
Depot for nothing, and at Inn and Mill for 0.500 a minute."""
import csv
import datetime
import io
import json
import os
import re
import subprocess
import sys
import tempfile
import unittest

sys.path.insert(0, os.path.dirname(os.path.abspath(__file__)))
import beside
from beside import graph

beside.say_what_is_skipped("test_trip")

from lorry_tools.clocks import SystemClock, TableClock, minutes_showing, read_time, shown_text
from lorry_tools.folder import Folder
from lorry_tools.instants import instant_text, minute_of
from lorry_tools.places import Places, distance
from lorry_tools.problems import Problem
from lorry_tools.program import BreakRule
from lorry_tools.rules import Streets, clause_text
from lorry_tools.second import trip_answers, trip_network
from lorry_tools.trips.answer import Answer, Step
from lorry_tools.trips.request import Request, Words, read_request, read_span
from lorry_tools.trips.warnings import longest_drive
from lorry_tools.trips.why import by_streets

ARCS = [(1, 2, 60), (2, 3, 60), (3, 5, 30), (1, 3, 300), (5, 1, 90), (3, 4, 10), (5, 6, 240), (3, 7, 10)]
FILES = {
    "zones": "zone,from,offset\nberlin,2026-01-01T00:00Z,+01:00\nberlin,2026-03-29T01:00Z,+02:00\nberlin,2026-10-25T01:00Z,+01:00\n",
    "areas": "area,zone\nland,berlin\n",
    "vehicles": beside.VEHICLES + "truck,hgv,40000,11500,400,255,1650,5,through,\nvan,goods,3500,,,,,2,delivery,\n",
    "rules": 'scope,key,value\narea:land,hgv:conditional,"no @ (22:00-05:00 AND weight>7.5); no @ (hazmat)"\n',
    "ratings": "rating,weight\nfree,0\ninn,0.5\n",
    "parking": "node,rating\n1,free\n2,inn\n5,inn\n",
    "nodes": "node,lon,lat,name\n1,9.0,47.0,Depot\n2,9.1,47.0,Inn\n3,9.2,47.0,Market\n4,9.3,47.0,Gate\n5,9.2,47.1,Mill\n6,9.9,47.1,Far\n7,9.3,47.1,gate\n",
    "ways": "arc,name,metres\n1,Low Road,40000\n2,Low Road,41500\n3,Mill Lane,20000\n4,High Road,200000\n5,Back Lane,60000\n6,Gate Lane,5000\n"
    "7,Long Road,160000\n8,Gate Lane,5000\n",
}


class TripTest(beside.FolderTest):
    def setUp(self):
        super().setUp()
        self.write(graph=graph(7, *ARCS), **FILES)

    def refused(self, said, call, *words):
        with self.assertRaises(Problem) as caught:
            call(*words)
        for part in [said] if isinstance(said, str) else said:
            self.assertIn(part, str(caught.exception))


class InWords(TripTest):
    def places(self, zone=None):
        return Places(Folder(self.folder), zone)

    def test_names_in_any_case_numbers_and_coordinates(self):
        places = self.places()
        for text, node in (("Depot", 1), ("dEPOT", 1), (" depot ", 1), ("3", 3), ("47.0,9.21", 3), ("47.09 9.19", 5), ("+47.0; 9.0", 1)):
            self.assertEqual(places.read(text, "FROM").node, node, text)
        # A hundredth of a degree of longitude at 47 degrees north is 758 metres.
        self.assertEqual(places.read("47.0,9.21", "FROM").away, 758)
        self.assertIsNone(places.read("Depot", "FROM").away)
        self.assertAlmostEqual(distance(47, 9, 48, 9), 111195, delta=1)

    def test_places_that_are_not_there(self):
        read = self.places().read
        self.refused(["FROM 'Depott' is no name of", "the nearest names are Depot"], read, "Depott", "FROM")
        self.refused("'gate' is the name of 2 nodes: expected is the number of one of them, or coordinates\n  4: Gate, at 47.00000,9.30000", read, "gate", "TO")
        self.refused("graph.gr has no node 8: expected is one from 1 to 7", read, "8", "TO")
        self.refused("graph.gr has no node 0", read, "0", "TO")
        self.refused("is off the globe: expected is the latitude and then the longitude", read, "97.0,9.21", "TO")
        os.remove(self.path("nodes.csv"))
        read = self.places().read
        self.assertEqual(read("3", "TO").words(), "node 3")
        self.refused("has no nodes.csv: expected is the number of a node, from 1 to 7", read, "Depot", "TO")

    def test_times(self):
        clocks = self.places().clocks(1)
        for text, instant in (
            ("2026-07-10 21:45", "2026-07-10T19:45Z"),
            ("2026-7-10T21:45", "2026-07-10T19:45Z"),
            ("2026-01-10 21:45", "2026-01-10T20:45Z"),
            ("2026-07-10 21:45Z", "2026-07-10T21:45Z"),
            ("2026-07-10T21:45:00 -01:30", "2026-07-10T23:15Z"),
            ("2026-10-25 02:30+02:00", "2026-10-25T00:30Z"),
            ("2026-10-25 02:30+01:00", "2026-10-25T01:30Z"),
        ):
            self.assertEqual(instant_text(read_time(text, clocks, "--leave")), instant, text)

    def test_times_that_are_not(self):
        clocks = self.places().clocks(1)
        for text, said in (
            ("2026-07-10", "is no time: expected is a date and a time such as 2026-07-10 21:45"),
            ("tomorrow", "is no time"),
            ("2026-02-29 08:00", "is no time of the calendar"),
            ("2026-07-10 24:00", "is no time of the calendar"),
            ("1970-07-10 21:45", "expected is a year from 1971 to 2199"),
            ("2200-01-01 00:00", "expected is a year from 1971 to 2199"),
            ("2199-12-31 23:59-01:00", "expected is a time from 1971 to 2199 in UTC"),
            ("2026-03-29 02:30", "is skipped by the clock of berlin"),
            ("2026-10-25 02:30", "is shown twice by the clock of berlin, which is put back then: expected is 2026-10-25 02:30+02:00 or"),
        ):
            self.refused(["--leave '" + text, said], read_time, text, clocks, "--leave")

    def test_a_place_between_two_zones_is_asked_back(self):
        self.write(areas="area,zone\nland,berlin\nisle,lisbon\n", roads="arc,area\n1,isle\n")
        with open(self.path("zones.csv"), "a", encoding="utf-8") as file:
            file.write("lisbon,2026-03-29T01:00Z,+01:00\n")
        places = self.places()
        self.assertEqual([it.name for it in places.clocks(2)], ["berlin", "lisbon"])
        self.assertEqual([it.name for it in places.clocks(3)], ["berlin"])
        self.assertIs(places.clock(3), places.clock(4))
        self.refused(
            "the place has roads in the zones berlin and lisbon: expected is 2026-07-10 08:00+02:00 or 2026-07-10 08:00+01:00, or a zone by --zone",
            read_time, "2026-07-10 08:00", places.clocks(2), "--leave",
        )  # fmt: skip
        self.assertEqual(instant_text(read_time("2026-07-10 08:00", self.places("lisbon").clocks(2), "--leave")), "2026-07-10T07:00Z")
        self.assertEqual([it.name for it in self.places("UTC").clocks(2)], ["UTC"])
        self.refused("--zone Europe/Nowhere: neither zones.csv nor the zone database", self.places, "Europe/Nowhere")

    def test_clocks_of_this_system_and_of_the_table_agree(self):
        table = TableClock("berlin", [(minute_of("2026-01-01T00:00Z"), 60), (minute_of("2026-03-29T01:00Z"), 120), (minute_of("2026-10-25T01:00Z"), 60)])
        try:
            system = SystemClock("Europe/Berlin")
        except Problem:
            self.skipTest("tzdata is missing")
        for start in ("2026-01-05T00:00Z", "2026-03-28T22:00Z", "2026-07-01T00:00Z", "2026-10-24T22:00Z"):
            for minute in range(minute_of(start), minute_of(start) + 600, 7):
                self.assertEqual(table.offset(minute), system.offset(minute))
                self.assertEqual(shown_text(table, minute), shown_text(system, minute))
        for text, count in (("2026-03-29 02:30", 0), ("2026-10-25 02:30", 2), ("2026-07-10 08:00", 1)):
            shown = datetime.datetime.fromisoformat(text)
            self.assertEqual(len(minutes_showing(table, shown)), count)
            self.assertEqual(minutes_showing(table, shown), minutes_showing(system, shown))

    def asked(self, *stops, lorry="truck", leave="2026-07-07 06:00", **more):
        folder = Folder(self.folder)
        return read_request(folder, Places(folder), Words("Depot", "Depot", lorry, leave, stops=list(stops), **more))

    def test_stops(self):
        first, second, third = self.asked("Inn, 30 min, 08:00-09:00", "47.1,9.2,1 h 20 min", "3, 2h, 2026-07-08 06:00-7:30").stops
        self.assertEqual((first.place.node, first.service), (2, 30))
        self.assertEqual([instant_text(it) for it in (first.start, first.end)], ["2026-07-07T06:00Z", "2026-07-07T07:00Z"])
        self.assertEqual((second.place.node, second.service), (5, 80))
        self.assertEqual([instant_text(it) for it in (second.start, second.end)], ["2026-07-07T04:00Z", "2026-07-10T04:00Z"])
        self.assertEqual((third.place.node, third.service), (3, 120))
        self.assertEqual([instant_text(it) for it in (third.start, third.end)], ["2026-07-08T04:00Z", "2026-07-08T05:30Z"])
        early = self.asked("Inn, 30 min, 04:00-05:00").stops[0]
        self.assertEqual([instant_text(it) for it in (early.start, early.end)], ["2026-07-08T02:00Z", "2026-07-08T03:00Z"])
        for text, minutes in (("20 min", 20), ("2 h", 120), ("1h5min", 65)):
            self.assertEqual(read_span(text), minutes)

    def test_stops_that_can_not_be_read(self):
        for text, said in (
            ("Inn", "expected is a place and the minutes of service"),
            ("Inn, 20", "expected is a place and the minutes of service"),
            ("Inn, 20 min, 8-9", "expected is a place and the minutes of service"),
            ("Innn, 20 min", "is no name of"),
            ("Inn, 0 min", "a service takes from 1 to 1440 minutes"),
            ("Inn, 20 min, 09:00-08:00", "the window ends at 08:00, which isn't after 09:00"),
            ("Inn, 20 min, 2026-07-07 04:00-05:00", "the window is over before the departure"),
        ):
            self.refused(["--stop", said], self.asked, text)

    def test_what_is_missing_or_does_not_go_together(self):
        with self.assertRaises(Problem) as caught:
            self.asked(lorry=None)
        self.assertIn("--lorry is missing: expected is one of\n  any: a lorry of which no size is known\n  truck: hgv, 40 t\n  van: goods, 3.5 t, delivers", str(caught.exception))
        self.assertEqual(self.asked(lorry="TRUCK").vehicle, "truck")
        for more, said in (
            ({"lorry": "crane"}, "--lorry 'crane' is no lorry of"),
            ({"leave": None}, "--leave is missing"),
            ({"leave": None, "latest": True}, "--latest needs the last arrival"),
            ({"by": "2026-07-06 08:00"}, "is before the departure"),
            ({"by": "2026-07-08 08:00", "within": "2"}, "both say when"),
            ({"within": "61"}, "is no number of days"),
            ({"within": "0"}, "is no number of days"),
            ({"by": "2026-09-07 08:00"}, "the trip may take 62.0833 days: expected are at most 60"),
            ({"latest": True, "breaks": True, "by": "2026-07-08 08:00"}, "--latest and --breaks can't be asked for together"),
            ({"drive": "270"}, "--drive is for breaks: expected is --breaks beside it"),
            ({"rest": "45"}, "--rest is for breaks: expected is --breaks beside it"),
            ({"breaks": True, "drive": "0"}, "--drive '0': expected are from 1 to 1440 minutes, such as 270 or '4 h 30 min'"),
            ({"breaks": True, "rest": "25 h"}, "--rest '25 h': expected are from 1 to 1440 minutes, such as 45 or '45 min'"),
            ({"breaks": True, "rest": "soon"}, "--rest 'soon': expected are from 1 to 1440 minutes"),
        ):
            with self.assertRaises(Problem) as caught:
                self.asked(**more)
            self.assertIn(said, str(caught.exception))

    def test_rules_for_breaks(self):
        for more, rule in (
            ({}, None),
            ({"breaks": True}, BreakRule(270, 45)),
            ({"breaks": True, "drive": "4 h"}, BreakRule(240, 45)),
            ({"breaks": True, "drive": "300", "rest": "1 h 5 min"}, BreakRule(300, 65)),
        ):
            request = self.asked(**more)
            self.assertEqual((request.command, request.rule), ("breaks" if rule else "plan", rule))
            request = self.asked("Inn, 30 min", **more)
            self.assertEqual((request.command, request.rule), ("tour", rule))


class Ways(TripTest):
    def way(self, *streets, goal="Market"):
        folder = Folder(self.folder)
        places = Places(folder)
        request = Request("plan", "truck", places.read("Depot", ""), places.read(goal, ""), 0, 0, [])
        return [it.number for it in by_streets(Answer(request, folder, places, Streets(folder)), list(streets), "--why")]

    def test_the_quickest_way_over_streets_in_their_order(self):
        self.assertEqual(self.way("Low Road"), [1, 2])
        self.assertEqual(self.way("high road"), [4])
        self.assertEqual(self.way("Low Road", "Mill Lane", goal="Mill"), [1, 2, 3])
        # Around: Low Road, Mill Lane and Back Lane lead back to the depot.
        self.assertEqual(self.way("Back Lane", "High Road"), [1, 2, 3, 5, 4])
        self.assertEqual(self.way("Low Road", "Low Road", "Low Road"), [1, 2, 3, 5, 1, 2])

    def test_ways_that_are_not_there(self):
        self.refused("no chain of roads leads from Depot over these streets, in this order, to Market", self.way, "Long Road")
        self.refused("ways.csv has no street 'Lo Road': the nearest names are Low Road", self.way, "Lo Road")
        os.remove(self.path("ways.csv"))
        self.refused("has no names of roads (ways.csv): expected is a file with legs", self.way, "Low Road")

    def test_the_text_of_a_clause(self):
        value = "no @ (Mo 22:00-06:00; PH off); yes @ (weight<=7.5)"
        self.assertEqual([clause_text(value, it) for it in (1, 2, 3)], ["no @ (Mo 22:00-06:00; PH off)", "yes @ (weight<=7.5)", value])


class Driving(unittest.TestCase):
    def test_the_longest_drive_without_a_break(self):
        def steps(*legs):
            return [Step(kind, 1, 0, minutes, 1, 1) for kind, minutes in legs]

        self.assertEqual(longest_drive(steps(("drive", 200), ("wait", 44), ("drive", 100)), 45), 300)
        self.assertEqual(longest_drive(steps(("drive", 200), ("wait", 45), ("drive", 100)), 45), 200)
        # A service is work, and no break.
        self.assertEqual(longest_drive(steps(("drive", 200), ("serve", 90), ("drive", 100)), 45), 300)
        self.assertEqual(longest_drive([], 45), 0)


class Answers(TripTest):
    """Whole answers, each worked out by hand."""

    maxDiff = None
    BAN = "rules.csv 2, clause 1: no @ (22:00-05:00 AND weight>7.5)"

    def trip(self, *words, status=0, program=beside.PROGRAM):
        done, printed, complained = beside.run("trip", self.folder, *words, "--program", program)
        self.assertEqual(done, status, complained + printed)
        return printed if status == 0 else complained

    def json(self, *words):
        found = json.loads(self.trip(*words, "--json"))
        with open(os.path.join(beside.TOOLS, "lorry_tools", "trips", "trip.schema.json"), encoding="utf-8") as file:
            schema = json.load(file)
        self.assertEqual(list(against_schema(found, schema, schema)), [])
        return found

    @beside.needs_program
    def test_two_options_and_what_they_wait_for(self):
        """Half an hour in the depot costs nothing, so the lorry comes to Inn as the ban begins, and waits there for 210; or it waits in the depot."""
        self.assertEqual(
            self.trip("depot", "market", "--lorry", "truck", "--leave", "2026-07-10 20:30"),
            f"""Depot (1) to Market (3), truck
leaves Fri 10 Jul 2026 20:30 and has until Mon 13 Jul 20:30; local time of berlin

option  arrival           cost     km    driving  waiting
1       Sat 11 Jul 06:00  330.000  81.5  2 h      7 h 30 min
2       Sat 11 Jul 07:00  120.000  81.5  2 h      8 h 30 min

Option 1
  Fri 10 Jul 20:30  wait    Depot (1), 30 min, costs 0.000
                              here, where a minute costs 0, and not at Inn (2), where it costs 0.5
                              for Low Road, closed until Sat 11 Jul 05:00 by {self.BAN}
  Fri 10 Jul 21:00  drive   Low Road, 1 h, 40.0 km, to Inn (2)
  Fri 10 Jul 22:00  wait    Inn (2), 7 h, costs 210.000
                              for Low Road, closed until Sat 11 Jul 05:00 by {self.BAN}
  Sat 11 Jul 05:00  drive   Low Road, 1 h, 41.5 km, to Market (3)
  Sat 11 Jul 06:00  arrive  Market (3)

Option 2
  Fri 10 Jul 20:30  wait    Depot (1), 8 h 30 min, costs 0.000
                              for Low Road, closed until Sat 11 Jul 05:00 by {self.BAN}
  Sat 11 Jul 05:00  drive   Low Road, 2 h, 81.5 km, to Market (3)
  Sat 11 Jul 07:00  arrive  Market (3)
""",
        )

    @beside.needs_program
    def test_how_late_to_leave(self):
        found = self.json("depot", "market", "--lorry", "truck", "--latest", "--by", "2026-07-11 12:00")
        self.assertEqual(found["command"], "latest")
        ((depart, arrival, cost),) = [(it["departure"]["local"], it["arrival"]["local"], it["cost_thousandths"]) for it in found["options"]]
        self.assertEqual((depart, arrival, cost), ("2026-07-11T10:00+02:00", "2026-07-11T12:00+02:00", 120000))

    @beside.needs_program
    def test_a_tour(self):
        text = self.trip(
            "depot", "depot", "--lorry", "truck", "--leave", "2026-07-07 06:00", "--stop", "Inn, 30 min, 08:00-09:00", "--stop", "Mill, 20 min"
        )
        self.assertIn("stop 1: Inn (2), 30 min, from Tue 7 Jul 08:00 to Tue 7 Jul 09:00\n", text)
        self.assertIn("1       Tue 7 Jul 11:50  240.000  161.5  4 h      1 h      50 min\n", text)
        self.assertIn("  Tue 7 Jul 06:00  wait    Depot (1), 1 h, costs 0.000\n                             for the window of stop 1\n", text)
        self.assertIn("  Tue 7 Jul 10:00  serve   stop 2, Mill (5), 20 min\n", text)
        late = self.trip("depot", "depot", "--lorry", "truck", "--leave", "2026-07-07 06:00", "--stop", "Inn, 30 min, 06:30-07:10")
        self.assertIn(
            "There is no lawful trip:\n  stop-out-of-time: stop 1, Inn, can't be served in its window; without a window it is served from "
            "Tue 7 Jul 07:00 on at the earliest\n", late,
        )  # fmt: skip
        back = self.trip("depot", "depot", "--lorry", "truck", "--leave", "2026-07-07 06:00", "--within", "0.1", "--stop", "Inn, 30 min")
        self.assertIn("the-way-back: all stops can be served, but then there is no way to the goal in time", back)

    @beside.needs_program
    def test_breaks_and_warnings(self):
        words = ["depot", "far", "--lorry", "truck", "--leave", "2026-07-07 06:00"]
        self.assertIn(
            "Warning: option 1: up to 6 h 30 min of driving without a break of 45 minutes; one driver may drive 4 h 30 min "
            "(Regulation (EC) 561/2006, Article 7): --breaks plans breaks.\n", self.trip(*words),
        )  # fmt: skip
        text = self.trip(*words, "--breaks")
        self.assertNotIn("Warning", text)
        self.assertIn("1       Tue 7 Jul 13:15  412.500  261.5  6 h 30 min  45 min\n", text)
        self.assertIn("  Tue 7 Jul 08:30  wait    Mill (5), 45 min, costs 22.500\n                             for a driver's break\n", text)
        self.assertIn("with-breaks: there is a trip without breaks", self.trip(*words, "--breaks", "--within", "0.3"))

    @beside.needs_program
    def test_a_tour_with_breaks(self):
        """Behind Mill, which is 2 h 30 min away, come 4 h more."""
        words = ["depot", "far", "--lorry", "truck", "--leave", "2026-07-07 06:00", "--stop", "Mill, 20 min"]
        self.assertIn("Warning: option 1: up to 6 h 30 min of driving without a break of 45 minutes", self.trip(*words))
        text = self.trip(*words, "--breaks")
        self.assertIn("\nwith breaks of 45 minutes after 4 h 30 min of driving\n", text)
        self.assertIn("1       Tue 7 Jul 13:35  412.500  261.5  6 h 30 min  45 min   20 min\n", text)
        self.assertIn("wait    Mill (5), 45 min, costs 22.500\n                             for a driver's break\n", text)
        self.assertNotIn("Warning", text)
        found = self.json(*words, "--breaks", "--drive", "6 h 30 min", "--rest", "30")
        self.assertEqual((found["command"], found["breaks"]), ("tour", {"drive_minutes": 390, "rest_minutes": 30}))
        self.assertEqual([it["waiting_minutes"] for it in found["options"]], [0])
        self.assertRegex(found["warnings"][0], r"6 h 30 min of driving .* \(Regulation \(EC\) 561/2006, Article 7\)$")
        # A wait for a window is a break too, and of both it is told; what of it needn't be one is in the depot, which costs nothing.
        words[-1] = "Mill, 20 min, 09:30-10:30"
        parts = self.json(*words, "--breaks")["options"][-1]["parts"]
        waits = [(it["from"]["name"], it["minutes"], [reason["kind"] for reason in it["for"]]) for it in parts if it["kind"] == "wait"]
        self.assertEqual(waits, [("Depot", 15, ["price", "break", "window"]), ("Mill", 45, ["break", "window"])])
        words[-1] = "Mill, 20 min"
        self.assertIn("with-breaks: there is a trip without breaks", self.trip(*words, "--breaks", "--within", "0.3"))
        words[-1] = "Mill, 20 min, 06:30-07:00"
        self.assertIn("stop-out-of-time: stop 1, Mill, can't be served in its window", self.trip(*words, "--breaks"))

    @beside.needs_program
    def test_more_than_nine_hours(self):
        """Three more hours behind Far: 9 h 30 min, with breaks of 45 minutes that are no rests."""
        self.write(graph=graph(8, *ARCS, (6, 8, 180)), parking=FILES["parking"] + "6,inn\n")
        text = self.trip("depot", "8", "--lorry", "truck", "--leave", "2026-07-07 06:00", "--breaks")
        self.assertIn(
            "Warning: option 1: up to 9 h 30 min of driving without a rest of 11 h; one driver may drive 9 h a day "
            "(Regulation (EC) 561/2006, Articles 6 and 8): the program plans no daily rests.\n", text,
        )  # fmt: skip

    @beside.needs_program
    def test_why_not_this_way(self):
        words = ["depot", "market", "--lorry", "truck"]
        for leave, way, said in (
            (
                "2026-07-07 06:00", "High Road",
                "It arrives Tue 7 Jul 11:00 for 300.000: it is lawful, but there is a better option, which arrives Tue 7 Jul 08:00 for 120.000.",
            ),
            ("2026-07-07 20:00", "high road", f"It isn't lawful: High Road is closed at Tue 7 Jul 22:00 by {self.BAN}."),
            ("2026-07-07 06:00", "Low Road", "It arrives Tue 7 Jul 08:00 for 120.000: it is lawful, and no option is better."),
        ):  # fmt: skip
            self.assertIn(said, self.trip(*words, "--leave", leave, "--why", way))
        way = self.path("way.txt")
        for text, said in (
            ("drive 1\nwait 30\ndrive 2\n", "It arrives Tue 7 Jul 08:30 for 135.000: it is lawful, but there is a better option"),
            ("drive 2\n", "It isn't lawful: Low Road from Depot (1), Tue 7 Jul 06:00: no such road begins there."),
            ("Low Road\n", "and no option is better"),
        ):
            with open(way, "w", encoding="utf-8") as file:
                file.write(text)
            self.assertIn(said, self.trip(*words, "--leave", "2026-07-07 06:00", "--why", way))
        found = self.json(*words, "--leave", "2026-07-07 20:00", "--why", "High Road")["why"]
        self.assertEqual((found["verdict"], found["arc"], found["street"], found["rule"]["row"]), ("unlawful", 4, "High Road", 2))
        self.assertEqual(found["rule"]["text"], "no @ (22:00-05:00 AND weight>7.5)")

    @beside.needs_program
    def test_closures_and_parking_hours(self):
        """Mill Lane is closed until noon, and the parking at Market opens at nine: the lorry waits at Inn for it, and then for the closure."""
        self.write(closures="arc,from,to\n3,2026-07-07T00:00Z,2026-07-07T10:00Z\n", parking="node,rating,area,hours\n2,inn,,\n3,free,land,09:00-18:00\n")
        text = self.trip("inn", "mill", "--lorry", "truck", "--leave", "2026-07-07 06:00")
        self.assertIn("for the parking at Market (3), which isn't open before\n", text)
        self.assertIn("for Mill Lane, closed until Tue 7 Jul 12:00 by closures.csv 2: closed from 2026-07-07T00:00Z to 2026-07-07T10:00Z\n", text)

    @beside.needs_program
    def test_why_there_is_none(self):
        text = self.trip("depot", "market", "--lorry", "truck", "--leave", "2026-07-07 20:30", "--within", "0.1")
        self.assertIn("There is no lawful trip:\n  horizon-in-ban: the last arrival is in a ban, Low Road (arc 2) from Tue 7 Jul 22:00 until Wed 8 Jul", text)
        self.assertIn("no-way: no chain of roads in graph.gr leads from Far (node 6) to Depot (node 1)", self.trip("far", "depot", "--lorry", "truck", "--leave", "2026-07-07 06:00"))

    @beside.needs_program
    def test_certificates(self):
        words = ["depot", "market", "--lorry", "truck", "--leave", "2026-07-07 06:00", "--certificate"]
        self.assertIn("The certificate day.cert was written and judged: accepted: it has all options there are, 1.\n", self.trip(*words, "day.cert"))
        self.assertTrue(os.path.exists(self.path("day.cert")))
        self.assertEqual(self.json(*words, "day.cert")["certificate"], {"name": "day.cert", "accepted": True, "number": 1, "text": None})
        for name in ("day", "../day.cert", "a b.cert"):
            self.assertIn("expected is a name that ends in .cert", self.trip(*words, name, status=2))
        self.assertIn("is for a plain trip", self.trip(*words, "day.cert", "--breaks", status=2))

    @beside.needs_program
    def test_csv(self):
        rows = list(csv.DictReader(io.StringIO(self.trip("depot", "market", "--lorry", "truck", "--leave", "2026-07-10 20:30", "--csv"))))
        self.assertEqual([(it["option"], it["kind"], it["minutes"], it["cost"]) for it in rows[:5]], [
            ("1", "wait", "30", "0.000"), ("1", "drive", "60", ""), ("1", "wait", "420", "210.000"), ("1", "drive", "60", ""), ("1", "arrive", "570", "330.000"),
        ])  # fmt: skip
        self.assertEqual(rows[2]["for"], f"Low Road by {self.BAN}")
        self.assertEqual(rows[4]["end"], "2026-07-11T06:00+02:00")

    @beside.needs_program
    def test_the_shown_commands_print_the_same_again(self):
        """Each option's legs are those that the shown commands print, in a shell."""
        for words in (
            ["depot", "market", "--lorry", "truck", "--leave", "2026-07-10 20:30"],
            ["depot", "far", "--lorry", "truck", "--leave", "2026-07-07 06:00", "--breaks"],
            ["depot", "depot", "--lorry", "truck", "--leave", "2026-07-07 06:00", "--stop", "Inn, 30 min, 08:00-09:00"],
            ["depot", "far", "--lorry", "truck", "--leave", "2026-07-07 06:00", "--stop", "Mill, 20 min", "--breaks", "--drive", "240"],
            ["depot", "market", "--lorry", "truck", "--latest", "--by", "2026-07-11 12:00"],
        ):
            found = self.json(*words)
            first = [it for it in found["commands"] if re.search(r" (plan|breaks|tour|latest) ", it)][0]
            lines = [it for it in found["commands"] if it.startswith(("work=", "printf")) and "itinerary" not in it]
            done = subprocess.run(["bash", "-c", "\n".join([*lines, first.replace(" --form json", "")])], stdout=subprocess.PIPE, check=True)
            self.assertEqual(self.plain(found), done.stdout.decode(), words)

    def plain(self, found):
        """Returns the options of an answer as the program prints them."""
        lines = [f"pairs {len(found['options'])}"]
        for option in found["options"]:
            late = found["command"] == "latest"
            minute = minute_of(option["departure" if late else "arrival"]["utc"])
            cost = option["cost_thousandths"]
            lines.append(f"{'leave' if late else 'pair'} {minute} {cost // 1000}.{cost % 1000:03}")
            for part in option["parts"]:
                lines += [f"drive {arc}" for arc in part["arcs"]]
                lines += [f"wait {part['minutes']}"] * (part["kind"] == "wait") + [f"serve {part['stop']}"] * (part["kind"] == "serve")
        return "".join(f"{it}\n" for it in lines)

    @beside.needs_program
    def test_the_second_implementation_drives_each_option(self):
        """It follows the legs step by step, and comes to the same arrival and cost."""
        network = trip_network.Network(self.folder).read()
        roads = trip_answers.Roads(network, network.vehicles["truck"])
        for words, command in (
            (["depot", "market", "--leave", "2026-07-10 20:30"], "plan"),
            (["depot", "far", "--leave", "2026-07-07 06:00", "--breaks"], "breaks"),
            (["market", "depot", "--leave", "2026-07-07 20:30"], "plan"),
        ):
            found = self.json(*words, "--lorry", "truck")
            ends = [str(found[it]["node"]) for it in ("from", "to")]
            times = [found[it]["utc"] for it in ("departure", "until")]
            request = trip_answers.request_of([command, self.folder, "truck", *ends, *times])
            for option in found["options"]:
                legs = []
                for part in option["parts"]:
                    legs += [("drive", arc) for arc in part["arcs"]] or [("wait", part["minutes"])]
                node, minute, cost, _ = trip_answers.follow(roads, request, legs, request.depart)
                self.assertEqual((node, instant_text(minute), cost), (request.goal, option["arrival"]["utc"], option["cost_thousandths"]))

    @beside.needs_program
    def test_numbers_are_those_of_the_program(self):
        """Starts, nodes and costs of each leg are those of `plan --form csv`."""
        folder = os.path.join(beside.TOP, "examples", "liechtenstein")
        program = beside.Program(beside.PROGRAM)
        words = ["artic40", 146, 135, "2026-07-10T19:45Z", "2026-07-13T19:45Z"]
        legs = list(csv.DictReader(io.StringIO(program.run(["plan", folder, *words, "--form", "csv"])[1])))
        done, printed, _ = beside.run("trip", folder, "Yard", "Balzers", "--lorry", "artic40", "--leave", "2026-07-10 21:45", "--json", "--program", beside.PROGRAM)
        self.assertEqual(done, 0)
        for option in json.loads(printed)["options"]:
            mine = [it for it in legs if int(it["pair"]) == option["number"]]
            starts = {it["start"]: it for it in mine}
            for part in option["parts"]:
                leg = starts[part["start"]["utc"]]
                self.assertEqual((leg["kind"], int(leg["node"])), (part["kind"], part["from"]["node"]))
                if part["kind"] == "wait":
                    after = mine[int(leg["leg"])]
                    price = round((float(after["cost"]) - float(leg["cost"])) * 1000)
                    self.assertEqual((int(leg["minutes"]), price), (part["minutes"], part["cost_thousandths"]))
            self.assertEqual([int(it["arc"]) for it in mine if it["arc"]], [arc for part in option["parts"] for arc in part["arcs"]])
            self.assertEqual((mine[-1]["start"], float(mine[-1]["cost"])), (option["arrival"]["utc"], option["cost_thousandths"] / 1000))

    @beside.needs_program
    def test_a_folder_without_names(self):
        for name in ("nodes.csv", "ways.csv", "zones.csv", "areas.csv"):
            os.remove(self.path(name))
        os.remove(self.path("rules.csv"))
        text = self.trip("1", "3", "--lorry", "truck", "--leave", "2026-07-07 06:00")
        self.assertIn("node 1 to node 3, truck\nleaves Tue 7 Jul 2026 06:00 and has until Fri 10 Jul 06:00; local time of UTC\n", text)
        self.assertIn("option  arrival          cost     driving  waiting\n", text)
        self.assertIn("  Tue 7 Jul 06:00  drive   road 1, 1 h, to node 2\n  Tue 7 Jul 07:00  drive   road 2, 1 h, to node 3\n", text)

    @beside.needs_program
    def test_the_picture(self):
        try:
            import jinja2  # noqa: F401
        except ImportError:
            self.skipTest("python3-jinja2 is missing")
        out, screens = self.path("page.html"), {it: os.environ.pop(it) for it in ("DISPLAY", "WAYLAND_DISPLAY") if it in os.environ}
        self.addCleanup(os.environ.update, screens)
        words = ["depot", "market", "--lorry", "truck", "--leave", "2026-07-10 20:30", "--picture", "--out", out]
        self.assertIn(f"The picture is {out}.\n", self.trip(*words))
        with open(out, encoding="utf-8") as file:
            self.assertIn("2 options from Depot (1) to Market (3)", file.read())
        self.assertIn("--picture draws a plan", self.trip(*words, "--stop", "Inn, 5 min", status=2))

    @beside.needs_program
    def test_a_table(self):
        jobs = self.path("jobs-of-today.csv")
        with open(jobs, "w", encoding="utf-8") as file:
            file.write("From,to,lorry,leave,by\ndepot,market,truck,2026-07-07 06:00,\nfar,depot,van,2026-07-07 06:00,\ndepo,market,truck,2026-07-07 06:00,\n")
            file.write("depot,market,truck,2026-07-07 20:30,2026-07-08 06:00\n")
        done, printed, complained = beside.run("trip", self.folder, "--table", jobs, "--program", beside.PROGRAM)
        rows = list(csv.DictReader(io.StringIO(printed)))
        self.assertEqual([(it["row"], it["option"], it["arrival"], it["cost"]) for it in rows], [
            ("2", "1", "2026-07-07T08:00+02:00", "120.000"), ("3", "", "", ""), ("4", "", "", ""), ("5", "1", "2026-07-08T06:00+02:00", "330.000"),
        ])  # fmt: skip
        self.assertIn("no lawful trip", rows[1]["trouble"])
        self.assertIn("FROM 'depo' is no name of", rows[2]["trouble"])
        self.assertEqual((done, complained), (1, "trip: 4 trips: 2 planned, 1 empty, 1 refused\n"))
        with open(jobs, "w", encoding="utf-8") as file:
            file.write("from,to,leave\n")
        self.assertIn("expected are from, to, lorry, leave", beside.run("trip", self.folder, "--table", jobs)[2])

    def test_a_program_that_is_missing_or_old(self):
        words = ["depot", "market", "--lorry", "truck", "--leave", "2026-07-07 06:00"]
        self.assertIn("the program can't be run: /nowhere/lorry_plan: No such file", self.trip(*words, program="/nowhere/lorry_plan", status=2))
        old = self.path("old")
        for script, status, said in (
            ("echo refused usage; exit 2", 2, "the program doesn't know these words of `plan`, so it may be older than these tools"),
            ("exit 5", 5, "ended with status 5: writing failed: the disk may be full, or the folder may not be written into"),
            ("exit 6", 6, "ended with status 6: out of memory"),
            ("echo refused input rules.csv 3 NotConditional; exit 3", 3, "the fault is in row 3 of rules.csv"),
            ("kill -9 $$", -9, "ended by signal 9"),
        ):
            with open(old, "w", encoding="utf-8") as file:
                file.write(f"#!/bin/sh\n{script}\n")
            os.chmod(old, 0o755)
            self.assertIn(said, self.trip(*words, program=old, status=status))

    @beside.needs_program
    @unittest.skipUnless(os.getuid(), "root writes into each folder")
    def test_a_folder_that_is_read_only(self):
        os.chmod(self.folder, 0o555)
        self.addCleanup(os.chmod, self.folder, 0o755)
        words = ["depot", "market", "--lorry", "truck", "--leave", "2026-07-07 06:00"]
        self.assertIn("the folder may not be written into", self.trip(*words, "--certificate", "day.cert", status=5))
        self.assertIn("Option 1", self.trip(*words))


def against_schema(value, schema, whole, place="$"):
    """Yields where a value isn't as a schema says, of the words of JSON Schema that trip.schema.json has."""
    if "$ref" in schema:
        yield from against_schema(value, whole["definitions"][schema["$ref"].rsplit("/", 1)[1]], whole, place)
        return
    if "anyOf" in schema:
        if all(list(against_schema(value, it, whole, place)) for it in schema["anyOf"]):
            yield f"{place}: {value!r} is none of {schema['anyOf']}"
        return
    if "enum" in schema and value not in schema["enum"]:
        yield f"{place}: {value!r}"
    kinds = {"object": dict, "array": list, "string": str, "integer": int, "number": (int, float), "boolean": bool, "null": type(None)}
    if "type" in schema and not isinstance(value, kinds[schema["type"]]):
        yield f"{place}: {value!r} is no {schema['type']}"
        return
    if schema.get("type") == "array":
        for number, it in enumerate(value):
            yield from against_schema(it, schema["items"], whole, f"{place}[{number}]")
    if schema.get("type") == "object":
        for name in schema["required"]:
            if name not in value:
                yield f"{place}.{name} is missing"
        for name, it in value.items():
            if name not in schema["properties"]:
                yield f"{place}.{name} isn't in the schema"
            else:
                yield from against_schema(it, schema["properties"][name], whole, f"{place}.{name}")


if __name__ == "__main__":
    unittest.main()
