"""Tests of tools/look: what it draws of plans of 0 to 100 pairs, where things are, and what it refuses.

    python3 -m unittest tools/tests/test_look.py"""
import html.parser
import json
import os
import re
import sys
import unittest
import xml.etree.ElementTree as tree

sys.path.insert(0, os.path.dirname(os.path.abspath(__file__)))
import beside
from beside import graph

beside.say_what_is_skipped("test_look")

from lorry_tools import drawing, drawn_plan, look
from lorry_tools.instants import minute_of

SVG = "{http://www.w3.org/2000/svg}"
START = minute_of("2026-07-04T16:00Z")

# Node 2 is before a road that is closed from 20:00 to 22:00.
PASS = graph(3, (1, 2, 60), (2, 3, 60), (1, 3, 600))
PASS_PAIRS = [
    {"arrival": START + 420, "cost": 500000, "legs": [{"arc": 1, "kind": "drive"}, {"kind": "wait", "minutes": 300}, {"arc": 2, "kind": "drive"}]},
    {"arrival": START + 600, "cost": 400000, "legs": [{"arc": 3, "kind": "drive"}]},
]
TRIP = ["any", 1, 3, "2026-07-04T16:00Z", "2026-07-05T04:00Z"]


class Elements(html.parser.HTMLParser):
    """The elements of a page, and those that are not closed in order."""

    VOID = {"meta", "br"}

    def __init__(self, text):
        super().__init__()
        self.elements, self.open, self.wrong = [], [], []
        self.feed(text)
        self.close()

    def handle_starttag(self, tag, attrs):
        self.elements.append((tag, dict(attrs)))
        if tag not in self.VOID:
            self.open.append(tag)

    def handle_startendtag(self, tag, attrs):
        self.elements.append((tag, dict(attrs)))

    def handle_endtag(self, tag):
        if not self.open or self.open.pop() != tag:
            self.wrong.append(tag)


@beside.needs_jinja
class Pages(beside.FolderTest):
    def setUp(self):
        super().setUp()
        self.write(graph=PASS, closures="arc,from,to\n2,2026-07-04T20:00Z,2026-07-04T22:00Z\n")

    def plan(self, pairs):
        with open(self.path("plan.json"), "w", encoding="utf-8") as file:
            json.dump({"pairs": pairs}, file)

    def draw(self, *words, pairs=None, trip=True, program=beside.STAND_IN, svg=False):
        """Returns what is drawn of a plan."""
        if pairs is not None:
            self.plan(pairs)
        asked = ["--trip", self.folder, *TRIP] if trip else []
        status, printed, complained = beside.run("look", self.path("plan.json"), *asked, "--program", program, *(["--svg"] if svg else []), *words)
        self.assertEqual((status, complained), (0, ""))
        name = self.path("plan.svg" if svg else "plan.html")
        self.assertEqual(printed.strip(), name)
        with open(name, encoding="utf-8") as file:
            return file.read()

    def check_page(self, page):
        """A page is well-formed, and has nothing from elsewhere."""
        elements = Elements(page)
        self.assertEqual((elements.open, elements.wrong), ([], []))
        self.assertEqual(re.findall(r"https?:|//[a-z]|@import|src=|href=", page), [])
        self.assertNotRegex(page, r"\b(nan|inf)\b")
        return elements.elements

    def check_svg(self, text):
        """An SVG is well-formed XML, refers to nothing outside, and has each shape within it."""
        root = tree.fromstring(text)
        self.assertEqual(root.tag, SVG + "svg")
        self.assertEqual(re.findall(r"https?:", text.replace('xmlns="http://www.w3.org/2000/svg"', "")), [])
        width, height = float(root.get("width")), float(root.get("height"))
        for group in [root, *root.iter(SVG + "g")]:
            for rect in group.findall(SVG + "rect"):
                self.assertTrue(-20 <= float(rect.get("x", 0)) <= width and float(rect.get("width")) <= width and float(rect.get("height")) <= height)
        return root

    def tips(self, text):
        return re.findall(r"<title>([^<]*)</title>", text)

    def test_a_page_and_an_svg(self):
        page = self.draw(pairs=PASS_PAIRS)
        elements = self.check_page(page)
        self.assertEqual(sum(tag == "details" for tag, _ in elements), 2)
        self.assertIn("2 options from node 1 to node 3", page)
        self.assertIn("Any lorry leaves on Sat 4 Jul 2026 16:00 UTC and has until Sun 5 Jul 2026 04:00 UTC.", page)
        self.assertIn("Option 2 is the cheapest: 100.000 less, and 3 h later.", page)
        self.check_svg(self.draw(svg=True))

    def test_where_legs_and_closed_minutes_are(self):
        root = self.check_svg(self.draw(pairs=PASS_PAIRS, svg=True))
        places = {}
        for rect in root.iter(SVG + "rect"):
            tip = rect.find(SVG + "title")
            if tip is not None:
                places.setdefault(tip.text.split(",")[0].split(":")[0], []).append((float(rect.get("x")), float(rect.get("width"))))
        (first, *_), (wait, *_), (second, *_), (ahead, *_) = (places[it] for it in ("Drive road 1", "Wait at node 2", "Drive road 2", "Closed ahead"))
        minute = first[1] / 60
        self.assertAlmostEqual(wait[0], first[0] + 60 * minute, delta=0.1)
        self.assertAlmostEqual(wait[1], 300 * minute, delta=0.1)
        self.assertAlmostEqual(second[0], first[0] + 360 * minute, delta=0.1)
        self.assertAlmostEqual(ahead[0], first[0] + 240 * minute, delta=0.1)
        self.assertAlmostEqual(ahead[1], 120 * minute, delta=0.1)
        ticks = [float(it.get("x")) for it in root.iter(SVG + "text") if it.text == "20:00"]
        self.assertTrue(any(abs(it - ahead[0]) < 0.1 for it in ticks), (ticks, ahead))

    def test_which_closed_minutes_are_ahead(self):
        self.plan(PASS_PAIRS)
        trip = drawn_plan.Trip("plan.json", PASS_PAIRS)
        trip.take_folder([self.folder, *(str(it) for it in TRIP)], PASS_PAIRS)
        trip.closed = {1: [(START + 30, START + 900)], 2: [(START, START + 10), (START + 240, START + 360)], 3: []}
        # The minutes before the first stage's end are those of road 1 alone, and none is left of road 2 before the wait.
        stages = trip.ahead(trip.routes[0])
        self.assertEqual([(low, high) for low, high, _ in stages], [(START, START + 60), (START + 60, START + 420)])
        self.assertEqual([[run[:2] for run in runs] for _, _, runs in stages], [[], [(START + 240, START + 360)]])

    def test_roads_that_are_closed_alike_are_asked_once(self):
        asked = self.path("asked")
        script = f'#!/bin/sh\necho "$*" >> "{asked}"\nexec "{beside.STAND_IN}" "$@"\n'
        with open(self.path("program"), "w", encoding="utf-8") as file:
            file.write(script)
        os.chmod(self.path("program"), 0o755)
        self.draw(pairs=PASS_PAIRS, program=self.path("program"))
        with open(asked, encoding="utf-8") as file:
            lines = [it.split() for it in file]
        self.assertEqual(sorted(it[3] for it in lines), ["1", "2"])

    def test_without_bans_without_a_trip_and_without_pairs(self):
        page = self.draw("--no-bans", pairs=PASS_PAIRS, program="/nowhere")
        self.check_page(page)
        self.assertIn("Closed minutes are not drawn.", page)
        self.assertNotIn("a road ahead", page)
        page = self.draw(pairs=PASS_PAIRS, trip=False)
        self.check_page(page)
        self.assertIn("<h1>2 options</h1>", page)
        for trip in (True, False):
            page = self.draw(pairs=[], trip=trip)
            self.check_page(page)
            self.assertIn("There is no lawful trip in this time.", page)
            self.check_svg(self.draw(pairs=[], trip=trip, svg=True))

    def test_the_empty_itinerary(self):
        pairs = [{"arrival": START, "cost": 0, "legs": []}]
        self.plan(pairs)
        words = [self.path("plan.json"), "--trip", self.folder, "any", 1, 1, "2026-07-04T16:00Z", "2026-07-04T16:00Z", "--program", beside.STAND_IN]
        for more in ([], ["--svg"]):
            self.assertEqual(beside.run("look", *words, *more)[0], 0)

    def test_one_to_a_hundred_pairs(self):
        arcs = [(1, 3, 100 + 6 * k) for k in range(100)]
        self.write(graph=graph(3, *arcs))
        for count in (1, 2, 9, 17, 41, 100):
            pairs = [{"arrival": START + 100 + 6 * k, "cost": 9000000 - 1234 * k, "legs": [{"arc": k + 1, "kind": "drive"}]} for k in range(count)]
            page = self.draw("--no-bans", pairs=pairs)
            elements = self.check_page(page)
            self.assertEqual(sum(tag == "details" for tag, _ in elements), count)
            points = [it for tag, it in elements if tag == "circle" and "data-route" in it]
            self.assertEqual([int(it["data-route"]) for it in points], list(range(1, count + 1)))
            across, down = ([float(it[key]) for it in points] for key in ("cx", "cy"))
            self.assertEqual((across, down), (sorted(across), sorted(down)))
            self.check_svg(self.draw("--no-bans", svg=True))

    def test_a_map_with_names(self):
        nodes = "node,osm_node,lon,lat,name\n1,7,9.5,47.1,Vaduz\n2,8,9.6,47.2,\n3,9,9.7,47.1,<b>&\x01\n"
        self.write(graph="c Map data (c) OpenStreetMap contributors\n" + PASS, nodes=nodes, ways="arc,name\n1,Landstrasse\n")
        page = self.draw(pairs=PASS_PAIRS)
        self.check_page(page)
        said = ["Where they go", "Vaduz (1)", "Landstrasse (1)", "&lt;b&gt;&amp;\ufffd (3)", "© OpenStreetMap", "Waits at node 2: option 1 5 h"]
        for text in said:
            self.assertIn(text, page)
        root = self.check_svg(self.draw(svg=True))
        places = {it.find(SVG + "title").text.split(":")[0]: it for it in root.iter() if it.find(SVG + "title") is not None}
        start, goal, wait = places["Vaduz (1)"], places["<b>&\ufffd (3)"], places["Waits at node 2"]
        x, y = float(wait.get("cx")), float(wait.get("cy"))
        self.assertTrue(float(start.get("x")) < x < float(goal.get("x")), "east is to the right")
        self.assertTrue(y < float(start.get("y")) == float(goal.get("y")), "north is above")

    def test_a_map_without_some_coordinates(self):
        self.write(nodes="node,lon,lat\n1,9.5,47.1\n2,east,north\n3,nan,47\n")
        self.assertNotIn("Where they go", self.draw(pairs=PASS_PAIRS))
        self.write(nodes="node,lon,lat\n1,9.5,47.1\n2,9.5,47.1\n")
        self.check_page(self.draw(pairs=PASS_PAIRS))

    def test_a_long_plan(self):
        count = 1500
        self.write(graph=graph(count + 1, *((k, k + 1, 5) for k in range(1, count + 1))))
        legs = [{"arc": k, "kind": "drive"} for k in range(1, count + 1)]
        pairs = [{"arrival": START + 5 * count, "cost": 9000 - k, "legs": legs} for k in range(4)]
        self.plan(pairs)
        words = ["--trip", self.folder, "any", 1, count + 1, "2026-07-04T16:00Z", "2026-07-30T00:00Z", "--no-bans"]
        status, printed, _ = beside.run("look", self.path("plan.json"), *words, "--out", "-")
        self.assertEqual(status, 0)
        self.check_page(printed)
        self.assertLess(len(printed), 400_000)

    def test_standard_input_and_output(self):
        text = json.dumps({"pairs": PASS_PAIRS})
        status, printed, _ = beside.run("look", "-", "--out", "-", stdin=text)
        self.assertEqual(status, 0)
        self.check_page(printed)
        status, printed, complained = beside.run("look", "-", stdin=text)
        self.assertEqual((status, printed), (2, ""))
        self.assertIn("--out says where", complained)

    def test_what_is_no_plan(self):
        texts = ["", "refused usage\n", "[]", '{"pairs":3}', '{"pairs":[{"arrival":1}]}']
        legs = ['{"kind":"fly","minutes":2}', '{"kind":"wait","minutes":0}', '{"kind":"drive","minutes":2}', "7"]
        for text in texts + [f'{{"pairs":[{{"arrival":1,"cost":2,"legs":[{it}]}}]}}' for it in legs]:
            with open(self.path("plan.json"), "w", encoding="utf-8") as file:
                file.write(text)
            status, printed, complained = beside.run("look", self.path("plan.json"))
            self.assertEqual((status, printed), (2, ""), text)
            self.assertIn("is not the JSON of a plan", complained)
        self.assertEqual(beside.run("look", self.path("absent.json"))[0], 2)

    def test_a_plan_of_another_trip(self):
        self.plan(PASS_PAIRS)
        for words, said in (
            (["any", 2, 3, "2026-07-04T16:00Z", "2026-07-05T04:00Z"], "no arc 1 leaves node 2"),
            (["any", 1, 2, "2026-07-04T16:00Z", "2026-07-05T04:00Z"], "end at node 3"),
            (["any", 1, 3, "2026-07-04T17:00Z", "2026-07-05T04:00Z"], "2026-07-05T00:00Z, and the plan says 2026-07-04T23:00Z"),
            (["any", 1, 3, "today", "2026-07-05T04:00Z"], "--trip has the words of a plan"),
            (["any", 1, 3, "2026-07-04T16:00Z", "2026-07-05T01:00Z"], "a route arrives on 2026-07-05T02:00Z, after UNTIL"),
        ):
            status, printed, complained = beside.run("look", self.path("plan.json"), "--trip", self.folder, *words)
            self.assertEqual((status, printed), (2, ""))
            self.assertIn(said, complained)

    def test_most_bans(self):
        page = self.draw("--most-bans", 1, pairs=PASS_PAIRS)
        self.assertIn("Closed minutes were asked for 1 of 2 groups of roads", page)

    @beside.needs_program
    def test_a_plan_of_the_program(self):
        folder = os.path.join(beside.TOP, "examples", "weekend-ban")
        words = [folder, "truck", "1", "4", "2020-07-04T02:00Z", "2020-07-08T00:00Z"]
        plan = look.Program(beside.PROGRAM).run(["plan", *words, "--form", "json"])[1]
        status, printed, _ = beside.run("look", "-", "--trip", *words, "--program", beside.PROGRAM, "--out", "-", stdin=plan)
        self.assertEqual(status, 0)
        self.check_page(printed)
        self.assertIn("Closed ahead: road 2, Sat 4 Jul 05:00 to Sat 4 Jul 18:00 UTC", self.tips(printed))
        self.assertIn("Closed ahead: road 3, Sat 4 Jul 22:00 to Sun 5 Jul 20:00 UTC", self.tips(printed))


class Scales(unittest.TestCase):
    def test_ticks_of_time(self):
        midnight = minute_of("2026-07-06T00:00Z")  # a Monday
        self.assertEqual(drawing.time_ticks(midnight + 1, midnight + 60, 10), ([midnight + 10 * k for k in range(1, 7)], 10))
        self.assertEqual(drawing.time_ticks(midnight - 5, midnight + 60 * 1440, 10)[0][0], midnight)
        self.assertEqual(drawing.time_ticks(midnight - 5, midnight + 60 * 1440, 10)[1], 10080)
        for span in (1, 59, 300, 5000, 86400):
            ticks, step = drawing.time_ticks(midnight, midnight + span, 12)
            self.assertTrue(1 <= len(ticks) <= 13 and all(it % 60 == 0 for it in ticks if step >= 60), span)

    def test_ticks_of_cost(self):
        self.assertEqual(drawing.cost_ticks(0, 10_000, 5), ([0, 2000, 4000, 6000, 8000, 10000], 2000))
        self.assertEqual([drawing.cost_label(it, 500) for it in (0, 500, 1000)], ["0.0", "0.5", "1.0"])
        for low, high in ((0, 1), (5, 6), (0, 10**9), (872_000, 1_500_000)):
            ticks, _ = drawing.cost_ticks(low, high, 6)
            self.assertTrue(1 <= len(ticks) <= 8 and low <= ticks[0] <= ticks[-1] <= high, (low, high))

    def test_colours_of_many_routes_are_different(self):
        for count in (1, 8, 9, 100):
            colours = drawing.colours_of(count)
            self.assertEqual((len(colours), len(set(colours))), (count, count))


if __name__ == "__main__":
    unittest.main()
