"""What the tests of the tools share: folders, runs of a tool, the built program, and a stand-in for it.

The built program is LORRY_PLAN_PROGRAM, or crates/lorry_plan/out/lorry_plan."""
import contextlib
import importlib.machinery
import importlib.util
import io
import os
import sys
import tempfile
import unittest

TOP = os.path.dirname(os.path.dirname(os.path.dirname(os.path.abspath(__file__))))
TOOLS = os.path.join(TOP, "tools")
PROGRAM = os.environ.get("LORRY_PLAN_PROGRAM") or os.path.join(TOP, "crates", "lorry_plan", "out", "lorry_plan")
HAS_PROGRAM = os.path.exists(PROGRAM)
STAND_IN = os.path.join(TOP, "tools", "tests", "stand_in.py")

sys.dont_write_bytecode = True
if TOOLS not in sys.path:
    sys.path.insert(0, TOOLS)

import stand_in
from lorry_tools import running
from lorry_tools.program import Program

HAS_JINJA = importlib.util.find_spec("jinja2") is not None
needs_jinja = unittest.skipUnless(HAS_JINJA, "python3-jinja2 is missing")
needs_program = unittest.skipUnless(HAS_PROGRAM, "there is no built program")

VEHICLES = "name,class,weight_kg,axleload_kg,height_cm,width_cm,length_cm,axles,purpose,flags\n"


def load(name):
    """Returns a tool as a module."""
    if name not in sys.modules:
        loader = importlib.machinery.SourceFileLoader(name, os.path.join(TOOLS, name))
        module = importlib.util.module_from_spec(importlib.util.spec_from_loader(name, loader))
        sys.modules[name] = module
        loader.exec_module(module)
    return sys.modules[name]


def run(tool, *words, stdin="", explains=False):
    """Runs a tool in this process, and returns its status and what it wrote to both outputs. The stand-in is called, and not started."""
    printed, complained, before = io.StringIO(), io.StringIO(), (sys.argv, sys.stdin, Program.run)

    def asked(program, questions):
        return stand_in.answer([str(it) for it in questions], explains) if program.path == STAND_IN else before[2](program, questions)

    sys.argv, sys.stdin, Program.run = [tool, *(str(it) for it in words)], io.StringIO(stdin), asked
    try:
        with contextlib.redirect_stdout(printed), contextlib.redirect_stderr(complained):
            status = running.guarded(tool, load(tool).main)
    except SystemExit as end:
        status = end.code
    finally:
        sys.argv, sys.stdin, Program.run = before
    return status, printed.getvalue(), complained.getvalue()


def graph(nodes, *arcs):
    """Returns the text of a graph whose arcs are given as a tail, a head and minutes."""
    return f"p sp {nodes} {len(arcs)}\n" + "".join(f"a {a} {b} {w}\n" for a, b, w in arcs)


class FolderTest(unittest.TestCase):
    """A test with a folder of its own."""

    def setUp(self):
        place = tempfile.TemporaryDirectory(prefix="beside-")
        self.addCleanup(place.cleanup)
        self.folder = place.name

    def write(self, **files):
        """Writes files; `graph` stands for graph.gr, and any other name for a table."""
        for name, text in files.items():
            with open(self.path("graph.gr" if name == "graph" else f"{name}.csv"), "w", encoding="utf-8") as file:
                file.write(text)

    def path(self, name):
        return os.path.join(self.folder, name)


def say_what_is_skipped(name):
    if not HAS_PROGRAM:
        print(f"{name}: there is no built program at {PROGRAM}, so the tests over it are skipped", file=sys.stderr)
