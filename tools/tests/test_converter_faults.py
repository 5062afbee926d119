#!/usr/bin/env python3
"""Plants faults in the converter, and sees that agrees_with_tags finds each.

    python3 -m unittest tools/tests/test_converter_faults.py"""
import os
import sys
import tempfile
import unittest

sys.path.insert(0, os.path.dirname(os.path.abspath(__file__)))
import beside
import small_extract
from test_from_osm import DAYS, LAWS, OSMIUM, TESTS, TOOLS, run

# What a fault does, its module, the text and what stands there in its place.
FAULTS = [
    ("a limit of height is forgotten", "tags", '    "maxheight": "height",\n', '    "maxheight": "width",\n'),
    ("a direction is turned round", "tags", 'DIRECTIONS = ("forward", "backward")', 'DIRECTIONS = ("backward", "forward")'),
    ("a road's tags lift the law", "tables", "access.both(own, other) for own, other in zip(law, own_lists)", "own for own in own_lists"),
    ("a forbidden turn is taken", "turns", "                holds = way_out == turn.way_out\n", "                holds = False\n"),
    ("only_* is read as no_*", "turns", "holds = way_out not in onlys[turn.lists]", "holds = way_out in onlys[turn.lists]"),
    ("a ferry takes twice its time", "roads", "/ (minutes * 60)", "/ (minutes * 120)"),
    ("roads are fast by night too", "convert", "                    arcs.rules[at] = self.with_rule(arc, number)\n", "                    pass\n"),
    ("shapes are driven backwards", "shapes", "    is_along = pieces >= 0\n", "    is_along = pieces < -len(ends[0])\n"),
    ("a coarse arc forgets a rule", "kinds", "self.number_of((rules | own, toll + more))", "self.number_of((rules, toll + more))"),
    ("maxspeed is passed over", "tags", "                    return min(found, float(number[1]) *", "                    return max(found, 0 * float(number[1]) *"),
]
# Runs the converter with one text of one module in place of another.
RUNNER = """
import importlib.abc, importlib.util, os, sys
place, module, old, new, script = sys.argv[1:6]
sys.argv = [script, *sys.argv[6:]]
sys.path.insert(0, place)
name = "lorry_tools.conversion." + module
class Planted(importlib.abc.MetaPathFinder, importlib.abc.SourceLoader):
    def find_spec(self, wanted, path, target=None):
        return importlib.util.spec_from_loader(wanted, self) if wanted == name else None
    def get_filename(self, wanted):
        return os.path.join(place, *wanted.split(".")) + ".py"
    def get_data(self, path):
        with open(path, "rb") as file:
            text = file.read().decode()
        assert text.count(old) == 1, (path, old, text.count(old))
        return text.replace(old, new).encode()
sys.meta_path.insert(0, Planted())
sys.dont_write_bytecode = True
exec(compile(open(script).read(), script, "exec"))
"""


@unittest.skipUnless(OSMIUM, "python3-pyosmium or python3-numpy is missing")
@unittest.skipUnless(beside.HAS_PROGRAM, "there is no built program")
class Faults(unittest.TestCase):
    def setUp(self):
        kept = tempfile.TemporaryDirectory(prefix="faults-")
        self.addCleanup(kept.cleanup)
        self.place = kept.name
        for name, text in (("laws.csv", LAWS), ("days.csv", DAYS)):
            self.write(name, text)
        self.night = ["--night-speed", "de=40"]
        self.laws = ["--laws", os.path.join(self.place, "laws.csv")]

    def write(self, name, text):
        path = os.path.join(self.place, name)
        with open(path, "w", encoding="utf-8") as file:
            file.write(text)
        return path

    def agree(self, seed, coarse, fault):
        """Whether the folder of a drawn extract, made with a fault, agrees with its tags; and what was said."""
        roads = self.write(f"{seed}.osm", small_extract.drawn(seed, 6))
        folder = os.path.join(self.place, "made")
        own = ["--country", "de", "--years", "2026", "2026", "--coarse", coarse, "--holidays", os.path.join(self.place, "days.csv"), *self.laws, *self.night]
        script = ["-c", RUNNER, TOOLS, *fault, f"{TOOLS}/from_osm"] if fault else [f"{TOOLS}/from_osm"]
        run(OSMIUM, *script, roads, folder, *own)
        words = ["--program", beside.PROGRAM, "--from", "2026-10-02", "--days", "3", "--arcs", "12", "--trips", "0", *self.laws, *self.night]
        words += ["--fine"] if coarse == "0" else []
        done = run(OSMIUM, f"{TESTS}/agrees_with_tags", *words, roads, folder, check=False)
        return done.returncode == 0, done.stdout + done.stderr

    def test_each_fault_is_found(self):
        for what, *fault in FAULTS:
            with self.subTest(what):
                coarse = "90" if fault[0] in ("convert", "kinds") else "0"
                agree, said = self.agree(3, coarse, fault)
                self.assertFalse(agree, said)
                self.assertNotIn("Traceback", said)

    def test_without_a_fault_nothing_is_found(self):
        for coarse in ("0", "90"):
            agree, said = self.agree(3, coarse, None)
            self.assertTrue(agree, said)


if __name__ == "__main__":
    unittest.main()
