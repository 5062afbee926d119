"""Tests of tools/build_libraries over a stand-in for `rt`, in a repository of five small crates.

    python3 -m unittest tools/tests/test_build_libraries.py"""
import collections
import os
import shutil
import signal
import subprocess
import sys
import tempfile
import time
import unittest

TOP = os.path.dirname(os.path.dirname(os.path.dirname(os.path.abspath(__file__))))
CRATES = """# crate: the libraries that it uses
base:
left: base
right: base csv
top: base left right
program: top
"""

# It builds a crate and those below it, or takes a library that another copy has built where the folder SHARED is named.
STAND_IN = """#!/usr/bin/env python3
import os, shutil, sys, time

uses = {}
for line in open("../../crates.txt"):
    if not line.startswith("#"):
        name, below = line.split(":")
        uses[name] = below.split()


def stamp(crate):
    return open(f"../{crate}/src/lib.rt").read() + "".join(stamp(it) for it in uses[crate] if it in uses)


def build(crate):
    for it in uses[crate]:
        if it in uses:
            build(it)
    rlib, shared = f"../{crate}/out/rlib", os.environ.get("SHARED")
    if os.path.exists(f"{rlib}/stamp") and open(f"{rlib}/stamp").read() == stamp(crate):
        return
    place = shared and f"{shared}/{crate}"
    if place and os.path.exists(f"{place}/stamp") and open(f"{place}/stamp").read() == stamp(crate):
        shutil.rmtree(rlib, ignore_errors=True)
        shutil.copytree(place, rlib)
        return
    print(f"fn {crate}::f: proved", flush=True)
    time.sleep(0.3)
    if "wrong" in stamp(crate):
        sys.exit(1)
    with open(os.environ["BUILT"], "a") as log:
        print(crate, file=log)
    shutil.rmtree(rlib, ignore_errors=True)
    os.makedirs(rlib)
    open(f"{rlib}/stamp", "w").write(stamp(crate))
    if place:
        shutil.rmtree(place, ignore_errors=True)
        shutil.copytree(rlib, place)


build(os.path.basename(os.getcwd()))
"""


class Building(unittest.TestCase):
    def setUp(self):
        place = tempfile.TemporaryDirectory(prefix="build-test-")
        self.addCleanup(place.cleanup)
        self.top = place.name
        for name in ("tools", "bin", "shared"):
            os.mkdir(os.path.join(self.top, name))
        shutil.copy(os.path.join(TOP, "tools", "build_libraries"), os.path.join(self.top, "tools"))
        self.write("crates.txt", CRATES)
        self.write("HANDLES", "Handles allowed: none.\n")
        self.write("bin/rt", STAND_IN.replace("/usr/bin/env python3", sys.executable))
        os.chmod(os.path.join(self.top, "bin", "rt"), 0o755)
        for crate in ("base", "left", "right", "top", "program"):
            self.write(f"crates/{crate}/src/lib.rt", f"// {crate}\n")

    def write(self, name, text):
        path = os.path.join(self.top, name)
        os.makedirs(os.path.dirname(path), exist_ok=True)
        with open(path, "w", encoding="utf-8") as file:
            file.write(text)

    def build(self, shares):
        """Builds the libraries below the program. Returns the status, how often each was built, and which the repository has."""
        log = os.path.join(self.top, "built")
        self.write("built", "")
        environment = {**os.environ, "PATH": os.path.join(self.top, "bin") + os.pathsep + os.environ["PATH"], "BUILT": log}
        if shares:
            environment["SHARED"] = os.path.join(self.top, "shared")
        words = [sys.executable, os.path.join(self.top, "tools", "build_libraries"), "program"]
        done = subprocess.run(words, env=environment, stdin=subprocess.DEVNULL, stdout=subprocess.DEVNULL, stderr=subprocess.DEVNULL)
        with open(log, encoding="utf-8") as file:
            built = collections.Counter(file.read().split())
        return done.returncode, built, {it for it in os.listdir(os.path.join(self.top, "crates")) if self.has(it)}

    def has(self, crate):
        return os.path.exists(os.path.join(self.top, "crates", crate, "out", "rlib", "stamp"))

    def test_each_library_is_built_once(self):
        """Where `rt` takes libraries from other copies, and where it can't."""
        for shares in (False, True):
            self.write("crates/base/src/lib.rt", f"// base, {shares}\n")
            status, built, there = self.build(shares)
            self.assertEqual((status, built), (0, dict.fromkeys(["base", "left", "right", "top"], 1)))
            self.assertEqual(there, {"base", "left", "right", "top"})

    def test_what_is_there_is_not_built_again(self):
        for shares in (False, True):
            self.build(shares)
            self.assertEqual(self.build(shares)[:2], (0, {}))
            self.write("crates/left/src/lib.rt", f"// left, {shares}\n")
            self.assertEqual(self.build(shares)[:2], (0, {"left": 1, "top": 1}))

    def test_a_library_that_is_not_proved(self):
        self.write("crates/right/src/lib.rt", "// wrong\n")
        status, built, there = self.build(False)
        self.assertEqual((status, built["top"], "top" in there), (1, 0, False))

    def test_nothing_stays_after_a_signal(self):
        rooms = os.path.join(self.top, "rooms")
        os.mkdir(rooms)
        path = os.path.join(self.top, "bin") + os.pathsep + os.environ["PATH"]
        environment = {**os.environ, "PATH": path, "BUILT": os.path.join(self.top, "built"), "TMPDIR": rooms}
        words = [sys.executable, os.path.join(self.top, "tools", "build_libraries"), "program"]
        how = {"env": environment, "stdin": subprocess.DEVNULL, "stdout": subprocess.DEVNULL, "stderr": subprocess.DEVNULL}
        run = subprocess.Popen(words, start_new_session=True, **how)
        end = time.monotonic() + 30
        while not os.listdir(rooms) and time.monotonic() < end:
            time.sleep(0.02)
        time.sleep(0.3)
        os.killpg(run.pid, signal.SIGTERM)
        self.assertEqual(run.wait(30), 128 + signal.SIGTERM)
        self.assertEqual(os.listdir(rooms), [])


if __name__ == "__main__":
    unittest.main()
