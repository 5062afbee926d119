"""Tests of the second implementation of the answers (trip_network, trip_answers, random_folder), with answers that are worked out by hand.

    python3 -m unittest tools/tests/test_second_implementation.py

The folder is that of a night: road 1 leads from node 1 to 2 in 60 minutes, road 2 from there to 3 in 60, and road 3 from 1 to 3 in 300, for a toll of
10. Road 2 is closed from 01:00 to 03:00, and road 1 to lorries above 7.5 tonnes on Sundays. A lorry may wait at node 2 for 2.000 a minute, and at node
1 for 0.500 from 00:00 to 02:00."""
import datetime
import os
import random
import sys
import unittest

sys.path.insert(0, os.path.dirname(os.path.abspath(__file__)))
import beside
from beside import graph

from lorry_tools.second import random_folder, trip_answers, trip_network
from lorry_tools.second.trip_answers import Due

# A Saturday; the folder's area is in UTC.
START, END = "2020-07-04T00:00Z", "2020-07-04T06:40Z"
MIDNIGHT = 26563680

FILES = {
    "areas": "area,zone\nland,UTC\n",
    "vehicles": beside.VEHICLES + "truck,hgv,40000,,,,,,,\nvan,goods,3500,,,,,,,\n",
    "rules": "scope,key,value\narc:1,hgv:conditional,no @ (weight>7.5 AND Su)\n",
    "closures": "arc,from,to\n2,2020-07-04T01:00Z,2020-07-04T03:00Z\n",
    "ratings": "rating,weight\ndear,2\ncheap,0.5\n",
    "parking": "node,rating,area,hours\n2,dear,,\n1,cheap,land,00:00-02:00\n",
    "tolls": "arc,toll\n3,10\n",
}


class Fields(unittest.TestCase):
    def test_instants(self):
        # 2020-07-04 is day 18,447 after 1970-01-01: 50 years with 12 leap days, and 185 days.
        self.assertEqual(50 * 365 + 12 + 185, 18447)
        self.assertEqual(trip_network.instant_of(START), 18447 * 1440)
        self.assertEqual(trip_network.instant_of("2020-07-04T01:02:00Z"), MIDNIGHT + 62)
        self.assertEqual(trip_network.instant_of("525600"), 525600)
        for text in ("525599", "0525600", "2020-02-30T00:00Z", "2020-07-04T24:00Z", "2020-07-04T00:00", "2200-01-01T00:00Z", ""):
            self.assertIsNone(trip_network.instant_of(text), text)

    def test_numbers(self):
        self.assertEqual([trip_network.thousandths_of(it) for it in ("2", "0.5", "12.345")], [2000, 500, 12345])
        self.assertEqual([trip_network.offset_of(it) for it in ("+02:00", "-00:30", "-18:00")], [120, -30, -1080])
        self.assertEqual([trip_network.number_of(it) for it in ("007", "4294967295", "4294967296", "-1")], [7, 4294967295, None, None])
        self.assertTrue(trip_network.is_name(".a-1"))
        self.assertFalse(trip_network.is_name("-a"))


class Hours(unittest.TestCase):
    def covered(self, text, date, holidays=None):
        """The minutes of a day that hours cover, as runs."""
        hours, day = trip_network.Hours(text), datetime.date.fromisoformat(date).toordinal() - trip_network.DAY_0
        minutes = [it for it in range(1440) if hours.cover(day, it, holidays or trip_network.NO_HOLIDAYS)]
        runs = []
        for minute in minutes:
            if runs and runs[-1][1] == minute:
                runs[-1][1] += 1
            else:
                runs.append([minute, minute + 1])
        return [(low, high) for low, high in runs]

    def test_days_and_spans(self):
        # 2020-07-04 is a Saturday, and the first one of its month.
        for text, runs in (
            ("24/7", [(0, 1440)]),
            ("08:00-10:00,12:00-13:00", [(480, 600), (720, 780)]),
            ("22:00-06:00", [(0, 360), (1320, 1440)]),
            ("Mo-Fr 22:00-06:00", [(0, 360)]),
            ("Sa[1] 08:00-09:00", [(480, 540)]),
            ("Sa[2] 08:00-09:00", []),
            ("Sa[-4] 08:00-09:00", [(480, 540)]),
            ("Jul 04 08:00-09:00", [(480, 540)]),
            ("Nov-Feb 08:00-09:00", []),
            ("08:00-12:00; Sa 09:00-10:00", [(540, 600)]),
            ("08:00-12:00; Sa off", []),
            ("Fr 23:00-Sa 01:00", [(0, 60)]),
            ("Th 23:00-Su 01:00", [(0, 1440)]),
        ):
            self.assertEqual(self.covered(text, "2020-07-04"), runs, text)

    def test_holidays(self):
        day = datetime.date(2020, 7, 4).toordinal() - trip_network.DAY_0
        self.assertEqual(self.covered("PH 08:00-09:00", "2020-07-04", {"PH": {day}, "SH": set()}), [(480, 540)])
        self.assertEqual(self.covered("SH 08:00-09:00", "2020-07-04", {"PH": {day}, "SH": set()}), [])


class Trips(beside.FolderTest):
    def setUp(self):
        super().setUp()
        self.write(graph=graph(3, (1, 2, 60), (2, 3, 60), (1, 3, 300)), **FILES)

    def due(self, command, *words, vehicle="truck", depart=START, until=END):
        return trip_answers.answer_due([command, self.folder, vehicle, "1", "3", depart, until, *words])

    def test_the_network(self):
        network = trip_network.Network(self.folder).read()
        self.assertEqual((network.nodes, network.arcs), (3, [(1, 2, 60), (2, 3, 60), (1, 3, 300)]))
        self.assertEqual([network.closure_at(2, MIDNIGHT + it) for it in (59, 60, 179, 180)], [None, 1, 1, None])
        self.assertEqual([network.is_park_open(1, MIDNIGHT + it) for it in (0, 119, 120)], [True, True, False])
        truck = network.vehicles["truck"]
        places = network.places(1, truck)
        self.assertIsNone(network.ruling(1, truck, places, MIDNIGHT + 1439))
        ruling = network.ruling(1, truck, places, MIDNIGHT + 1440)
        self.assertEqual((ruling.scope, ruling.key, ruling.kind, ruling.clause, ruling.access), ("arc", "hgv", "conditional", 1, "barred"))

    def test_a_plan(self):
        """At once to node 2, 120 minutes there (240), arrival 04:00 for 60 + 240 + 60; or first up to 120 minutes at node 1 for 0.5 each (60), arrival
        04:00 for 60 + 60 + 60; or the long road, 05:00 for 310, which is dearer."""
        due = self.due("plan")
        self.assertEqual((due.status, due.pairs), (0, [(MIDNIGHT + 240, 180_000)]))
        legs = [("wait", 120), ("drive", 1), ("drive", 2)]
        self.assertIsNone(due.wrong_legs((MIDNIGHT + 240, 180_000), legs))
        self.assertEqual(
            due.wrong_legs((MIDNIGHT + 240, 360_000), [("drive", 1), ("wait", 120), ("drive", 2)]),
            "the first itinerary has [('wait', 120), ('drive', 1), ('drive', 2)]",
        )
        self.assertEqual(due.wrong_legs((MIDNIGHT + 240, 180_000), legs[:2]), "it ends at node 2 with 0 stops served")
        self.assertEqual(
            due.wrong_legs((MIDNIGHT + 120, 120_000), [("drive", 1), ("drive", 2)]), f"leg 2 isn't lawful at {MIDNIGHT + 60}: closure 1"
        )

    def test_a_sunday(self):
        """On Sunday road 1 is closed to the truck, and the van needs two hours."""
        self.assertEqual(self.due("plan", depart="2020-07-05T00:00Z", until="2020-07-05T06:40Z").pairs, [(MIDNIGHT + 1440 + 300, 310_000)])
        self.assertEqual(
            self.due("plan", vehicle="van", depart="2020-07-05T00:00Z", until="2020-07-05T06:40Z").pairs, [(MIDNIGHT + 1440 + 120, 120_000)]
        )

    def test_the_latest_departures(self):
        """To arrive by 04:00 leave at 02:00 for 120; by the long road at 00:00 no more than that. Waits before the departure don't count."""
        due = self.due("latest", until="2020-07-04T04:00Z")
        self.assertEqual(due.pairs, [(MIDNIGHT + 120, 120_000)])
        self.assertIsNone(due.wrong_legs((MIDNIGHT + 120, 120_000), [("drive", 1), ("drive", 2)]))

    def test_a_tour(self):
        """A stop of 30 minutes at node 2, from 01:00 on: the closure ends at 03:00, and the best is to begin it at 02:30 or to wait there. At node 1 one
        waits until 01:30 for 45, serves from 02:30, and arrives at 04:00 for 165."""
        with open(self.path("stops.csv"), "w", encoding="utf-8") as file:
            file.write("node,service,from,to\n2,30,2020-07-04T01:00Z,2020-07-04T03:20Z\n")
        due = self.due("tour", "stops.csv")
        self.assertEqual(due.pairs, [(MIDNIGHT + 240, 165_000)])
        self.assertIsNone(due.wrong_legs((MIDNIGHT + 240, 165_000), [("wait", 90), ("drive", 1), ("serve", 1), ("drive", 2)]))

    def test_breaks(self):
        """With 60 minutes of driving and breaks of 30 a break at node 2 is among the 120 minutes of its wait: cost 60 + 240 + 60."""
        due = self.due("breaks", "--drive", "60", "--rest", "30")
        # 90 minutes at node 1 for 45, and 30 at node 2 for 60: the closure ends at 03:00.
        self.assertEqual(due.pairs, [(MIDNIGHT + 240, 225_000)])
        self.assertIsNone(due.wrong_legs((MIDNIGHT + 240, 225_000), [("wait", 90), ("drive", 1), ("wait", 30), ("drive", 2)]))
        self.assertEqual(
            due.wrong_legs((MIDNIGHT + 240, 180_000), [("wait", 120), ("drive", 1), ("drive", 2)]), "a stretch is too long"
        )

    def test_the_first_itinerary_with_breaks(self):
        """Two ways of 120 minutes, whose second roads are closed from 01:00 to 01:30, so that half an hour is waited at node 1, or, on the way by node 4,
        there. The way by node 2 has the smaller last road; that by node 4 drove 60 minutes since its break, and not 120."""
        roads = graph(4, (1, 2, 60), (2, 3, 60), (1, 4, 60), (4, 3, 60))
        closed = "2020-07-04T01:00Z,2020-07-04T01:30Z"
        files = {"rules": "scope,key,value\n", "closures": f"arc,from,to\n2,{closed}\n4,{closed}\n"}
        parking = {"ratings": "rating,weight\nyard,1\n", "parking": "node,rating\n1,yard\n4,yard\n", "tolls": "arc,toll\n"}
        self.write(graph=roads, **{**FILES, **files, **parking})
        pair = (MIDNIGHT + 150, 150_000)
        by_2, by_4 = [("wait", 30), ("drive", 1), ("drive", 2)], [("drive", 3), ("wait", 30), ("drive", 4)]
        parted = [("wait", 1), ("drive", 3), ("wait", 29), ("drive", 4)]
        plan, breaks = self.due("plan"), self.due("breaks", "--drive", "120", "--rest", "30")
        self.assertEqual((plan.pairs, breaks.pairs), ([pair], [pair]))
        self.assertIsNone(plan.wrong_legs(pair, by_2))
        self.assertIsNone(breaks.wrong_legs(pair, by_4))
        for legs in (by_2, parted):
            self.assertEqual(breaks.wrong_legs(pair, legs), f"the first itinerary has {by_4}")

    def test_a_tour_with_breaks(self):
        """With 60 minutes of driving a break of 30 is due at node 2, before or after the service. One waits at node 1 until 01:00 for 30, serves and rests
        from 02:00 to 03:00, which costs 60, and arrives at 04:00: 210 with both roads. A break that the service parts is none."""
        with open(self.path("stops.csv"), "w", encoding="utf-8") as file:
            file.write("node,service,from,to\n2,30,2020-07-04T01:00Z,2020-07-04T03:30Z\n")
        due = self.due("tour", "stops.csv", "--drive", "60", "--rest", "30")
        self.assertEqual(due.pairs, [(MIDNIGHT + 240, 210_000)])
        best = [("wait", 60), ("drive", 1), ("serve", 1), ("wait", 30), ("drive", 2)]
        self.assertIsNone(due.wrong_legs((MIDNIGHT + 240, 210_000), best))
        # A break before the service is as good, but a wait comes before a service.
        before = [("wait", 60), ("drive", 1), ("wait", 30), ("serve", 1), ("drive", 2)]
        self.assertEqual(due.wrong_legs((MIDNIGHT + 240, 210_000), before), f"the first itinerary has {best}")
        parted = [("wait", 60), ("drive", 1), ("wait", 15), ("serve", 1), ("wait", 15), ("drive", 2)]
        self.assertEqual(due.wrong_legs((MIDNIGHT + 240, 210_000), parted), "a stretch is too long")
        alone = self.due("tour", "stops.csv", "--rest=30")
        # With the usual 270 minutes of driving none is due.
        self.assertEqual(alone.pairs, [(MIDNIGHT + 240, 165_000)])

    def test_explanations(self):
        for legs, text in (
            ("drive 3\n", f"lawful {MIDNIGHT + 300} 310.000\ndominated {MIDNIGHT + 240} 180.000\n"),
            ("wait 120\ndrive 1\ndrive 2\n", f"lawful {MIDNIGHT + 240} 180.000\nundominated\n"),
            ("drive 1\ndrive 2\n", f"unlawful 2 {MIDNIGHT + 60} closure 1\n"),
            ("wait 121\ndrive 1\n", f"unlawful 1 {MIDNIGHT + 120} shut\n"),
            ("drive 2\n", f"unlawful 1 {MIDNIGHT} tail\n"),
            ("drive 1\nwait 400\n", f"unlawful 2 {MIDNIGHT + 400} late\n"),
            ("drive 1\n", f"unlawful 2 {MIDNIGHT + 60} goal\n"),
            ("", f"unlawful 1 {MIDNIGHT} goal\n"),
        ):
            with open(self.path("way.txt"), "w", encoding="utf-8") as file:
                file.write(legs)
            self.assertEqual(self.due("explain", "way.txt"), Due(0, text.encode("ascii")), legs)

    def test_refusals(self):
        for words, text in (
            (["plan", self.folder, "crane", "1", "3", START, END], "refused request UnknownVehicle\n"),
            (["plan", self.folder, "any", "0", "3", START, END], "refused request OriginRange\n"),
            (["plan", self.folder, "any", "1", "4", START, END], "refused request GoalRange\n"),
            (["plan", self.folder, "any", "1", "3", END, START], "refused request UntilBeforeDepart\n"),
            (["latest", self.folder, "any", "1", "3", "1000000", "1086400"], "refused request HorizonTooLong\n"),
            (["plan", self.folder, "any", "1", "3", START], "refused usage\n"),
            (["tour", self.folder, "any", "1", "3", START, END, "absent.csv"], "refused input stops 0 Missing\n"),
        ):
            self.assertEqual(trip_answers.answer_due(words).text.decode("ascii"), text)

    def test_printed_fronts(self):
        due = self.due("plan")
        text = f"pairs 1\npair {MIDNIGHT + 240} 180.000\nwait 120\ndrive 1\ndrive 2\n".encode("ascii")
        self.assertIsNone(trip_answers.wrong_answer("plan", due, 0, text))
        self.assertIn("is due", trip_answers.wrong_answer("plan", due, 3, text))
        self.assertIn("are due", trip_answers.wrong_answer("plan", due, 0, b"pairs 0\n"))
        self.assertEqual(trip_answers.wrong_answer("plan", due, 0, text + b"\n"), "the text isn't that of a front")


class DrawnFolders(beside.FolderTest):
    def test_the_same_number_draws_the_same_folder(self):
        for command in trip_answers.COMMANDS:
            texts = []
            for name in (f"{command}-one", f"{command}-other"):
                os.mkdir(self.path(name))
                words = random_folder.draw_trip(random.Random(f"1 {command} 7"), command, self.path(name))
                files = {}
                for file in sorted(os.listdir(self.path(name))):
                    if os.path.isfile(self.path(os.path.join(name, file))):
                        with open(self.path(os.path.join(name, file)), "rb") as opened:
                            files[file] = opened.read()
                texts.append(([it.replace(self.path(name), "DIR") for it in words], files))
            self.assertEqual(texts[0], texts[1], command)
            self.assertIn("graph.gr", texts[0][1])

    def test_drawn_trips_have_an_answer(self):
        """Most of them have pairs; the others are refused with a cause, as some are spoilt on purpose."""
        answered = 0
        for number in range(20):
            folder = self.path(str(number))
            os.mkdir(folder)
            due = trip_answers.answer_due(random_folder.draw_trip(random.Random(f"1 plan {number}"), "plan", folder))
            answered += due.pairs is not None
            self.assertTrue(due.pairs is not None or due.text.startswith(b"refused "))
        self.assertGreater(answered, 10)


if __name__ == "__main__":
    unittest.main()
