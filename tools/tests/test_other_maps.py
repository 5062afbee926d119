#!/usr/bin/env python3
"""Converts the maps that Debian's source packages bring, and compares each folder with its map by agrees_with_tags: Neubrandenburg and the state roads
around Oswego (josm), and York (marble).

    python3 -m unittest tools/tests/test_other_maps.py

The packages, 110 MB, are fetched by apt-get, over a list of sources of their own, into LORRY_PLAN_MAPS, or into a temporary folder. A map is skipped
where it can't be fetched, where python3-pyosmium or the built program is missing, and in the gate's short form unless LORRY_PLAN_MAPS has it."""
import glob
import os
import shutil
import subprocess
import sys
import tarfile
import tempfile
import unittest

sys.path.insert(0, os.path.dirname(os.path.abspath(__file__)))
import beside
from test_from_osm import OSMIUM, SHORT, TESTS, TOOLS, run

SOURCES = "deb-src http://deb.debian.org/debian {release} main\n"
RELEASE = "bookworm"
LAWS = """country,key,value
de,hgv:conditional,"no @ (weight>7.5 AND Su,PH 00:00-22:00)"
us,hgv:conditional,no @ (weight>12 AND Su 08:00-20:00)
gb,hgv:conditional,no @ (weight>12 AND 22:00-06:00)
"""
DAYS = "area,kind,date\nde,PH,2026-10-03\nus,PH,2026-10-12\ngb,PH,2026-12-25\n"


def fetched(package, member, place):
    """The path of a map in a folder, which is fetched from Debian where it isn't there; None where that fails."""
    path = os.path.join(place, os.path.basename(member))
    if os.path.exists(path):
        return path
    if SHORT or not shutil.which("apt-get"):
        return None
    for folder in ("lists/partial", "cache/archives/partial"):
        os.makedirs(os.path.join(place, folder), exist_ok=True)
    with open(os.path.join(place, "sources.list"), "w", encoding="ascii") as file:
        file.write(SOURCES.format(release=RELEASE))
    own = {
        "Dir::Etc::SourceList": os.path.join(place, "sources.list"),
        "Dir::Etc::SourceParts": "/dev/null",
        "Dir::State::Lists": os.path.join(place, "lists"),
        "Dir::Cache": os.path.join(place, "cache"),
        "APT::Sandbox::User": "root",
    }
    words = [f"-o{key}={value}" for key, value in own.items()]
    for command in (["update"], ["source", "--download-only", package]):
        try:
            done = subprocess.run(["apt-get", *words, *command], cwd=place, stdout=subprocess.DEVNULL, stderr=subprocess.DEVNULL, timeout=600)
        except subprocess.TimeoutExpired:
            return None
        if done.returncode:
            return None
    for archive in glob.glob(os.path.join(place, f"{package}_*.orig.tar.*")):
        if archive.endswith(".asc"):
            continue
        with tarfile.open(archive) as files:
            for one in files:
                if one.name.endswith("/" + member):
                    with files.extractfile(one) as source, open(path, "wb") as target:
                        shutil.copyfileobj(source, target)
                    return path
    return None


@unittest.skipUnless(OSMIUM, "python3-pyosmium or python3-numpy is missing")
@unittest.skipUnless(beside.HAS_PROGRAM, "there is no built program")
class OtherMaps(unittest.TestCase):
    def setUp(self):
        kept = tempfile.TemporaryDirectory(prefix="maps-")
        self.addCleanup(kept.cleanup)
        self.place = kept.name
        for name, text in (("laws.csv", LAWS), ("days.csv", DAYS)):
            with open(os.path.join(self.place, name), "w", encoding="ascii") as file:
                file.write(text)

    def agrees(self, package, member, country, *options, trips=1):
        path = fetched(package, member, os.environ.get("LORRY_PLAN_MAPS") or self.place)
        if path is None:
            self.skipTest(f"{member} of {package} can't be had from Debian")
        laws = ["--laws", os.path.join(self.place, "laws.csv")]
        for coarse in ("90", "0"):
            folder = os.path.join(self.place, f"made{coarse}")
            days = ["--holidays", os.path.join(self.place, "days.csv"), "--years", "2026", "2026"]
            run(OSMIUM, f"{TOOLS}/from_osm", path, folder, "--country", country, "--coarse", coarse, "--any-parking", *laws, *days, *options)
            words = ["--program", beside.PROGRAM, "--from", "2026-10-02", "--days", "3", "--arcs", "10", *laws, *options]
            words += ["--fine", "--trips", "0"] if coarse == "0" else ["--trips", str(trips)]
            done = run(OSMIUM, f"{TESTS}/agrees_with_tags", *words, path, folder, check=False)
            self.assertEqual(done.returncode, 0, done.stdout[-3000:] + done.stderr[-2000:])

    def test_neubrandenburg(self):
        self.agrees("josm", "nodist/data/neubrandenburg.osm.bz2", "de", "--night-speed", "de=40")

    def test_oswego(self):
        self.agrees("josm", "nodist/data/overpass-download.osm.bz2", "us")

    def test_york(self):
        self.agrees("marble", "examples/osm/map.osm", "gb")


if __name__ == "__main__":
    unittest.main()
