"""Tests of tools/why_empty: each cause over a small folder, by a stand-in for the program and by the program where it is built.

    python3 -m unittest tools/tests/test_why_empty.py"""
import os
import re
import sys
import unittest

sys.path.insert(0, os.path.dirname(os.path.abspath(__file__)))
import beside
from beside import graph

beside.say_what_is_skipped("test_why_empty")

START, END = "2026-07-04T00:00Z", "2026-07-04T10:00Z"
RATINGS = "rating,weight\nyard,1\n"


class Causes:
    """The cases; a class below says which program is asked."""

    program = ""

    def lines(self, origin, goal, until=END, depart=START, vehicle="any", status=0):
        """Returns the lines for a trip, without what `explain` adds in parentheses."""
        words = [self.folder, vehicle, origin, goal, depart, until, "--program", self.program]
        done, printed, complained = beside.run("why_empty", *words)
        self.assertEqual(complained, "")
        self.assertEqual(done, status, printed)
        return re.sub(r" \((closures|rules)\.csv [^()]*(\([^()]*\))?[^()]*\)", "", printed).splitlines()

    def test_a_plan_that_is_not_empty(self):
        self.write(graph=graph(2, (1, 2, 60)))
        self.assertEqual(self.lines(1, 2), ["pairs 1: the plan is not empty"])

    def test_no_chain_of_roads(self):
        self.write(graph=graph(3, (1, 2, 60), (3, 2, 60)))
        self.assertEqual(self.lines(1, 3), ["no-way: no chain of roads in graph.gr leads from node 1 to node 3"])

    def test_a_drive_that_is_too_long(self):
        self.write(graph=graph(2, (1, 2, 660)))
        self.assertEqual(
            self.lines(1, 2),
            [
                "short-horizon: there are 10 h from the departure to UNTIL, and the roads alone take 11 h; "
                "the first arrival is 2026-07-04T11:00Z, 1 h after UNTIL"
            ],
        )

    def test_a_departure_within_a_ban(self):
        self.write(graph=graph(3, (1, 2, 60), (1, 2, 90), (1, 3, 10)), closures="arc,from,to\n1,2026-07-03T20:00Z,2026-07-04T02:00Z\n")
        with open(self.path("closures.csv"), "a", encoding="utf-8") as file:
            file.write("2,2026-07-04T01:29Z,2026-07-04T03:00Z\n")
        self.assertEqual(
            self.lines(1, 2),
            [
                "departure-in-ban: each of the 2 roads that lead on in time is closed when the trip begins, arc 1 until 2026-07-04T02:00Z; "
                "node 1 isn't in parking.csv, so a lorry may not wait there; with parking there it leaves at 2026-07-04T02:00Z and arrives at "
                "2026-07-04T03:00Z"
            ],
        )

    def test_a_road_that_leads_on_in_time_is_not_closed(self):
        # The long way is open at the departure, but too long. So it doesn't count.
        self.write(graph=graph(2, (1, 2, 60), (1, 2, 700)), closures="arc,from,to\n1,2026-07-03T20:00Z,2026-07-04T02:00Z\n")
        first, second = self.lines(1, 2)
        self.assertTrue(first.startswith("departure-in-ban: the one road that leads on in time is closed when the trip begins, arc 1 until"))
        self.assertEqual(
            second,
            "short-horizon: there are 10 h from the departure to UNTIL, and the roads alone take 1 h; "
            "the first arrival is 2026-07-04T11:40Z, 1 h 40 min after UNTIL",
        )

    def test_a_ban_on_the_way_without_parking_before_it(self):
        self.write(graph=graph(3, (1, 2, 60), (2, 3, 60)), closures="arc,from,to\n2,2026-07-04T01:30Z,2026-07-04T04:00Z\n")
        self.assertEqual(
            self.lines(1, 3),
            [
                "no-parking: a lorry that leaves at once comes to a closed road, arc 2 from 2026-07-04T01:30Z until 2026-07-04T04:00Z; "
                "node 1 isn't in parking.csv, so a lorry may not wait there; with parking there it leaves at 2026-07-04T03:00Z and arrives at "
                "2026-07-04T05:00Z"
            ],
        )

    def test_parking_at_the_start_does_not_help(self):
        # The first road closes before the second one opens.
        closures = "arc,from,to\n1,2026-07-04T00:30Z,2026-07-05T00:00Z\n2,2026-07-04T00:00Z,2026-07-04T04:00Z\n"
        self.write(graph=graph(3, (1, 2, 30), (2, 3, 60)), closures=closures, ratings=RATINGS, parking="node,rating\n1,yard\n")
        lines = self.lines(1, 3)
        self.assertEqual(len(lines), 1)
        self.assertTrue(lines[0].startswith("horizon-in-ban: UNTIL is in a ban, arc 1 from 2026-07-04T00:30Z until 2026-07-05T00:00Z, "), lines)
        self.write(closures=closures.replace("2026-07-05T00:00Z", "2026-10-04T00:00Z"))
        self.assertEqual(
            self.lines(1, 3),
            [
                "no-parking: with parking everywhere it arrives at 2026-07-04T05:00Z and waits at node 2 (not in parking.csv) from "
                "2026-07-04T00:30Z to 2026-07-04T04:00Z"
            ],
        )

    def test_a_horizon_that_ends_within_a_ban(self):
        closures = "arc,from,to\n2,2026-07-04T01:00Z,2026-07-04T12:00Z\n"
        self.write(graph=graph(3, (1, 2, 60), (2, 3, 60)), closures=closures, ratings=RATINGS, parking="node,rating\n2,yard\n")
        self.assertEqual(
            self.lines(1, 3),
            [
                "horizon-in-ban: UNTIL is in a ban, arc 2 from 2026-07-04T01:00Z until 2026-07-04T12:00Z, which is still to be driven; "
                "the first arrival is 2026-07-04T13:00Z, 3 h after UNTIL"
            ],
        )

    def test_a_ban_at_until_of_a_road_that_is_behind_the_lorry(self):
        closures = "arc,from,to\n1,2026-07-04T02:00Z,2026-07-04T20:00Z\n2,2026-07-04T01:00Z,2026-07-04T12:00Z\n"
        self.write(graph=graph(3, (1, 2, 60), (2, 3, 60)), closures=closures, ratings=RATINGS, parking="node,rating\n2,yard\n")
        (line,) = self.lines(1, 3)
        self.assertTrue(line.startswith("horizon-in-ban: UNTIL is in a ban, arc 2 from 2026-07-04T01:00Z"), line)

    def test_both_a_departure_within_a_ban_and_a_horizon_that_ends_in_it(self):
        self.write(graph=graph(2, (1, 2, 60)), closures="arc,from,to\n1,2026-07-03T00:00Z,2026-07-04T12:00Z\n")
        first, second = self.lines(1, 2)
        self.assertTrue(first.startswith("departure-in-ban: the one road"), first)
        self.assertTrue(second.startswith("horizon-in-ban: UNTIL is in a ban, arc 1 until 2026-07-04T12:00Z, which is still to be driven"), second)

    def test_a_road_at_the_start_that_is_closed_for_good(self):
        self.write(graph=graph(4, (1, 2, 60), (1, 3, 60), (2, 3, 60), (1, 4, 5)), closures="arc,from,to\n1,2000-01-01T00:00Z,2100-01-01T00:00Z\n")
        with open(self.path("closures.csv"), "a", encoding="utf-8") as file:
            file.write("2,2000-01-01T00:00Z,2100-01-01T00:00Z\n")
        self.assertEqual(
            self.lines(1, 3), ["closed-for-good: each of the 2 roads out of node 1 is closed to any lorry for the next 60 d: arc 1; arc 2"]
        )

    def test_roads_around_several_nodes_that_are_closed_for_good(self):
        self.write(graph=graph(5, (1, 2, 5), (2, 1, 5), (2, 3, 5), (1, 4, 5), (3, 5, 5), (4, 5, 5), (5, 4, 5), (5, 3, 5)))
        self.write(closures="arc,from,to\n3,2000-01-01T00:00Z,2100-01-01T00:00Z\n4,2000-01-01T00:00Z,2100-01-01T00:00Z\n")
        self.assertEqual(
            self.lines(1, 5),
            [
                "closed-for-good: each of the 2 roads from the 2 nodes that can be reached from node 1 is closed to any lorry for the next 60 d: "
                "arc 4; arc 3"
            ],
        )

    def test_a_road_at_the_goal_that_is_closed_for_good(self):
        self.write(graph=graph(4, (1, 2, 60), (2, 3, 60), (3, 4, 60), (2, 1, 60)), closures="arc,from,to\n3,2000-01-01T00:00Z,2100-01-01T00:00Z\n")
        self.assertEqual(self.lines(1, 4), ["closed-for-good: the one road into node 4 is closed to any lorry for the next 60 d: arc 3"])

    def test_a_road_that_is_never_open_for_long_enough(self):
        days = "".join(f"1,2026-07-{day:02}T00:00Z,2026-07-{day:02}T23:30Z\n" for day in range(4, 32))
        days += "".join(f"1,2026-08-{day:02}T00:00Z,2026-08-{day:02}T23:30Z\n" for day in range(1, 32))
        days += "".join(f"1,2026-09-{day:02}T00:00Z,2026-09-{day:02}T23:30Z\n" for day in range(1, 10))
        self.write(graph=graph(2, (1, 2, 60)), closures="arc,from,to\n" + days)
        self.assertEqual(
            self.lines(1, 2),
            [
                "closed-for-good: the one road out of node 1 is closed to any lorry for the next 60 d: arc 1, which takes 1 h and "
                "is never open for so long"
            ],
        )


class ByStandIn(Causes, beside.FolderTest):
    program = beside.STAND_IN

    def test_the_row_of_a_closure_by_explain(self):
        self.write(graph=graph(2, (1, 2, 60)), closures="arc,from,to\n2,1,2\n1,2026-07-03T20:00Z,2026-07-04T02:00Z\n")
        words = [self.folder, "any", 1, 2, START, END, "--program", self.program]
        self.assertIn("arc 1 until 2026-07-04T02:00Z (closures.csv 3); node 1", beside.run("why_empty", *words, explains=True)[1])

    def test_too_many_runs_of_bans(self):
        closures = "arc,from,to\n1,2000-01-01T00:00Z,2100-01-01T00:00Z\n2,2000-01-01T00:00Z,2100-01-01T00:00Z\n"
        self.write(graph=graph(2, (1, 2, 60), (1, 2, 61)), closures=closures)
        words = [self.folder, "any", 1, 2, START, END, "--program", self.program, "--most-bans", 1]
        status, printed, _ = beside.run("why_empty", *words)
        self.assertEqual(status, 0)
        self.assertIn("takes more runs of bans (--most-bans)", printed)

    def test_ends_are_looked_at_however_few_runs_are_allowed(self):
        closures = "arc,from,to\n1,2026-07-03T20:00Z,2026-07-04T02:00Z\n2,2026-07-03T20:00Z,2026-07-04T03:00Z\n"
        self.write(graph=graph(2, (1, 2, 60), (1, 2, 61)), closures=closures)
        words = [self.folder, "any", 1, 2, START, END, "--program", self.program, "--most-bans", 0]
        self.assertTrue(beside.run("why_empty", *words)[1].startswith("departure-in-ban: each of the 2 roads"))

    def test_a_program_that_is_not_there(self):
        self.write(graph=graph(2, (1, 2, 60)))
        status, printed, complained = beside.run("why_empty", self.folder, "any", 1, 2, START, END, "--program", "/nowhere/lorry_plan")
        self.assertEqual((status, printed), (2, ""))
        self.assertIn("the program can't be run", complained)


@beside.needs_program
class ByProgram(Causes, beside.FolderTest):
    program = beside.PROGRAM

    def test_a_refused_trip(self):
        self.write(graph=graph(2, (1, 2, 60)))
        self.assertEqual(self.lines(1, 3, status=7), ["refused request GoalRange"])
        self.assertEqual(self.lines(1, 2, vehicle="crane", status=7), ["refused request UnknownVehicle"])

    def test_parking_that_is_shut_when_the_trip_begins(self):
        self.write(
            graph=graph(2, (1, 2, 60)), closures="arc,from,to\n1,2026-07-03T20:00Z,2026-07-04T02:00Z\n",
            ratings=RATINGS, parking="node,rating,area,hours\n1,yard,,06:00-20:00\n",
        )  # fmt: skip
        self.assertIn("node 1 has hours outside which a lorry may not wait there, 06:00-20:00", self.lines(1, 2)[0])

    def test_rules_that_close_a_road_for_good(self):
        self.write(
            graph=graph(3, (1, 2, 60), (2, 3, 60)), areas="area,zone\nland,UTC\n",
            vehicles=beside.VEHICLES + "truck,hgv,40000,,,,,,,\nvan,hgv,3500,,,,,,,\n",
            rules="scope,key,value\narc:2,hgv:conditional,no @ (weight>7.5)\n",
        )  # fmt: skip
        self.assertEqual(self.lines(1, 3, vehicle="truck"), ["closed-for-good: the one road into node 3 is closed to truck for the next 60 d: arc 2"])
        self.assertEqual(self.lines(1, 3, vehicle="van"), ["pairs 1: the plan is not empty"])

    def test_the_rule_that_closes_a_road_for_good_and_not_that_of_the_departure(self):
        if beside.Program(beside.PROGRAM).run(["explain", ".", "any", 1, 1, 26563680, 26563680, "x"])[1] == "refused usage\n":
            self.skipTest("the program has no command explain")
        self.write(
            graph=graph(3, (1, 2, 60), (2, 3, 60)), areas="area,zone\nland,UTC\n",
            rules="scope,key,value\narea:land,hgv,destination\narea:land,hgv:conditional,no @ (Sa)\n",
        )  # fmt: skip
        words = [self.folder, "any", 1, 3, START, END, "--program", self.program]
        self.assertIn("arc 1 (rules.csv 2: area:land hgv)", beside.run("why_empty", *words)[1])


if __name__ == "__main__":
    unittest.main()
