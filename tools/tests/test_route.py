"""Tests of tools/route, and of the lines of tools/trip and tools/look: GPX and GeoJSON with the time at each point.

    python3 -m unittest tools/tests/test_route.py"""
import json
import os
import sys
import unittest
import xml.etree.ElementTree as tree

sys.path.insert(0, os.path.dirname(os.path.abspath(__file__)))
import beside
from beside import graph

from lorry_tools.instants import minute_of

GPX = "{http://www.topografix.com/GPX/1/1}"
START = minute_of("2026-07-04T16:00Z")
TRIP = ["any", 1, 3, "2026-07-04T16:00Z", "2026-07-05T04:00Z"]
PAIRS = [
    {"arrival": START + 30, "cost": 30000, "legs": [{"arc": 1, "kind": "drive"}, {"kind": "wait", "minutes": 10}, {"arc": 2, "kind": "drive"}]},
    {"arrival": START + 60, "cost": 20000, "legs": [{"arc": 3, "kind": "drive"}]},
]


def polyline(*points):
    """Points, each a longitude and a latitude in millionths of a degree, as an encoded polyline."""
    text, before = "", (0, 0)
    for point in points:
        for number in (point[1] - before[1], point[0] - before[0]):
            left = 2 * number if number >= 0 else -2 * number - 1
            while left >= 32:
                text += chr((left & 31) + 95)
                left >>= 5
            text += chr(left + 63)
        before = point
    return text


EAST = polyline((9_000_000, 47_000_000), (9_050_000, 47_050_000), (9_000_000, 47_100_000))
LONG = polyline((9_000_000, 47_000_000), (9_000_000, 47_200_000))


class Routes(beside.FolderTest):
    def setUp(self):
        super().setUp()
        self.write(
            graph=graph(3, (1, 2, 10), (2, 3, 10), (1, 3, 60)),
            nodes="node,osm_node,lon,lat,name\n1,1,9.00000,47.00000,A & B\n2,2,9.00000,47.10000,<Inn>\n3,3,9.00000,47.20000,\n",
            # Arc 1 leads by the east, arc 2 has no shape.
            shapes=f"arc,metres,polyline\n1,12000,{EAST}\n3,23000,{LONG}\n",
            ways="arc,name,metres\n1,East,12000\n2,North,11000\n3,Long,23000\n",
        )
        with open(self.path("plan.json"), "w", encoding="utf-8") as file:
            json.dump({"pairs": PAIRS}, file)

    def route(self, *words):
        status, printed, complained = beside.run("route", self.path("plan.json"), "--trip", self.folder, *TRIP, *words)
        self.assertEqual((status, complained), (0, ""))
        return printed

    def points(self, text):
        found = tree.fromstring(text)
        rows = []
        for track in found.iter(GPX + "trk"):
            rows.append([(float(it.get("lon")), float(it.get("lat")), it.find(GPX + "time").text) for it in track.iter(GPX + "trkpt")])
        return found, rows

    def test_gpx(self):
        found, rows = self.points(self.route())
        self.assertEqual(
            rows[0],
            [
                (9.0, 47.0, "2026-07-04T16:00:00Z"),
                (9.05, 47.05, "2026-07-04T16:05:00Z"),
                (9.0, 47.1, "2026-07-04T16:10:00Z"),
                (9.0, 47.1, "2026-07-04T16:20:00Z"),
                (9.0, 47.2, "2026-07-04T16:30:00Z"),
            ],
        )
        self.assertEqual([it.text for it in found.iter(GPX + "name")][1:], ["option 1, cost 30.000, 23.0 km", "option 2, cost 20.000, 23.0 km"])
        stop = next(found.iter(GPX + "wpt"))
        self.assertEqual((stop.get("lat"), stop.find(GPX + "time").text), ("47.1", "2026-07-04T16:10:00Z"))
        self.assertIn("wait at <Inn>", stop.find(GPX + "name").text)

    def test_one_option(self):
        _, rows = self.points(self.route("--option", 2))
        self.assertEqual(rows, [[(9.0, 47.0, "2026-07-04T16:00:00Z"), (9.0, 47.2, "2026-07-04T17:00:00Z")]])
        status, _, complained = beside.run("route", self.path("plan.json"), "--trip", self.folder, *TRIP, "--option", 3)
        self.assertEqual((status, complained), (2, "route: there is no option 3: the plan has 2\n"))

    def test_geojson(self):
        features = json.loads(self.route("--geojson"))["features"]
        self.assertEqual([it["properties"]["kind"] for it in features], ["drive", "wait", "drive", "drive"])
        first = features[0]
        self.assertEqual(first["geometry"]["coordinates"], [[9.0, 47.0], [9.05, 47.05], [9.0, 47.1]])
        self.assertEqual(first["properties"]["coordTimes"][1], "2026-07-04T16:05:00Z")
        self.assertEqual((first["properties"]["metres"], first["properties"]["what"]), (12000, "East"))
        self.assertEqual(features[1]["geometry"], {"type": "Point", "coordinates": [9.0, 47.1]})

    def test_look_writes_the_same(self):
        for form in ("--gpx", "--geojson"):
            words = [self.path("plan.json"), "--trip", self.folder, *TRIP, form, "--out", self.path("out")]
            self.assertEqual(beside.run("look", *words)[0], 0)
            with open(self.path("out"), encoding="utf-8") as file:
                self.assertEqual(file.read(), self.route(form))

    def test_without_coordinates(self):
        os.remove(self.path("nodes.csv"))
        status, _, complained = beside.run("route", self.path("plan.json"), "--trip", self.folder, *TRIP)
        self.assertEqual(status, 2)
        self.assertIn("nodes.csv", complained)


if __name__ == "__main__":
    unittest.main()
