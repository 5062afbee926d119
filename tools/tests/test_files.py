"""Tests that every list of a folder's files is that of lorry_tools.files.

    python3 -m unittest tools/tests/test_files.py"""
import os
import re
import sys
import unittest

sys.path.insert(0, os.path.dirname(os.path.abspath(__file__)))
import beside

import lorry_tools
from lorry_tools.files import NETWORK, TABLES
from lorry_tools.speed import limits
from lorry_tools.trials import small_folder


class Lists(unittest.TestCase):
    def test_the_manual_page(self):
        with open(os.path.join(beside.TOOLS, "package.d", "lorry_plan.1"), encoding="utf-8") as file:
            page = file.read()
        part = page[page.index(".SH FILES") :].split(".SH ", 2)[1]
        self.assertEqual(list(dict.fromkeys(re.findall(r"\\fB([a-z]+\.(?:gr|csv))\\fP", part))), list(NETWORK))

    def test_the_version(self):
        with open(os.path.join(beside.TOP, "CHANGES.md"), encoding="utf-8") as file:
            self.assertEqual(re.search(r"^## (\S+) \(", file.read(), re.M)[1], lorry_tools.__version__)

    def test_the_parts_of_the_library(self):
        """pyproject.toml names each package in it."""
        with open(os.path.join(beside.TOOLS, "pyproject.toml"), encoding="utf-8") as file:
            named = re.findall(r'^    "(lorry_tools[\w.]*)",$', file.read(), re.M)
        library = os.path.join(beside.TOOLS, "lorry_tools")
        found = [folder for folder, _, names in os.walk(library) if "__init__.py" in names]
        self.assertEqual(sorted(named), sorted(os.path.relpath(it, beside.TOOLS).replace(os.sep, ".") for it in found))

    def test_the_small_folder(self):
        self.assertEqual(list(small_folder.NETWORK), list(NETWORK))

    def test_the_limits(self):
        """Each table but those of vehicles and rules, which `speed` adds by itself, is written at its limits, in the order of reading."""
        self.assertEqual(list(limits.ROWS), [it.name for it in TABLES if it.name not in ("vehicles.csv", "rules.csv")])

    def test_the_documents(self):
        with open(os.path.join(beside.TOP, "docs", "FORMATS.md"), encoding="utf-8") as file:
            rows = re.findall(r"^\| `(\w+\.csv)` \| `([^`]+)`(?:<br>`[^`]*`<br>or `([^`]+)`)?", file.read(), re.M)
        self.assertEqual([(name, tuple(filter(None, it))) for name, *it in rows], [(it.name, it.headers) for it in TABLES])


if __name__ == "__main__":
    unittest.main()
