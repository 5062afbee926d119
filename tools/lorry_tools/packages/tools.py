"""The package of the tools: the library, a command for each tool that users call, and its manual
page."""
from __future__ import annotations

import ast
import os
import re

from lorry_tools.packages.making import Tree, link_to, zipped
from lorry_tools.packages.texts import read, read_bytes
from lorry_tools.running import TOOLS
from lorry_tools.templates import rendered

PACKAGE = "lorry-plan-tools"
PLACE = f"share/{PACKAGE}"

# The tools that users call, each with the module that has its words. Their commands are named
# after the package, as other packages have commands such as `look`.
SCRIPTS = {
    "trip": "lorry_tools/trips/main.py",
    "serve": "lorry_tools/service/main.py",
    "look": "lorry_tools/look.py",
    "route": "lorry_tools/route.py",
    "why_empty": "lorry_tools/why_empty.py",
    "lint": "lorry_tools/lint.py",
    "batch_over_machines": "lorry_tools/batches/main.py",
    "from_osm": "lorry_tools/conversion/main.py",
    "zones": "lorry_tools/conversion/zones.py",
    "holidays": "lorry_tools/conversion/holidays_table.py",
    "laws": "lorry_tools/laws/main.py",
    "examples": "lorry_tools/examples.py",
}
KEPT = tuple(".py .json .typed .html .css .js .svg .sh .txt .md .csv .1".split())
NOT_PACKED = ("packages", "proving", "second", "speed", "trials")  # of the library

DEPENDS = "lorry-plan, python3 (>= 3.9), python3-jinja2"
RECOMMENDS = "libjs-leaflet, python3-fastapi, python3-uvicorn"
SUGGESTS = "parallel, python3-holidays, python3-numpy, python3-pyosmium, rsync, tzdata"
DESCRIPTION = """trips in people's words, and other tools beside lorry_plan
 Names of places, local times and streets in place of numbers; a desk in the
 browser and a service over HTTP; pages of plans; why a plan is empty; what a
 folder of roads leaves out; tables of trips over many machines; and folders
 made from OpenStreetMap.
 .
 The tools aren't proved: they ask the proved program of lorry-plan."""


def command_of(script: str) -> str:
    return "lorry-serve" if script == "serve" else f"lorry-plan-{script.replace('_', '-')}"


def installed_words(text: str) -> str:
    """Returns a text in which tools are called by the names of their commands."""
    names = "|".join(SCRIPTS)
    return re.sub(rf"\btools/({names})\b", lambda found: command_of(found[1]), text)


def tree_of_tools(version: str, date: str) -> tuple[Tree, set[str]]:
    """Returns the files of the package below `usr/`, and those that can be run."""
    tree, programs = library(), set()
    for script, module in SCRIPTS.items():
        path = f"usr/{PLACE}/{script}"
        tree[path] = installed_words(read(os.path.join(TOOLS, script))).encode()
        programs.add(path)
        tree[f"usr/bin/{command_of(script)}"] = link_to(f"../{PLACE}/{script}")
        page = manual_of(script, read(os.path.join(TOOLS, module)), version, date)
        tree[f"usr/share/man/man1/{command_of(script)}.1.gz"] = zipped(page.encode())
    return tree, programs


def library() -> Tree:
    tree: Tree = {}
    for folder, folders, names in os.walk(os.path.join(TOOLS, "lorry_tools")):
        folders[:] = sorted(set(folders) - {"__pycache__", *NOT_PACKED})
        for name in sorted(names):
            if name.endswith(KEPT):
                path = os.path.join(folder, name)
                content = read_bytes(path)
                if name.endswith(".py"):
                    content = installed_words(content.decode()).encode()
                tree[f"usr/{PLACE}/{os.path.relpath(path, TOOLS)}"] = content
    return tree


def manual_of(script: str, source: str, version: str, date: str) -> str:
    """Returns the manual page of a tool, made of what its --help says of it."""
    told = installed_words(ast.get_docstring(ast.parse(source)) or "")
    summary, _, rest = told.partition("\n")
    return rendered(
        "tool.1",
        command=command_of(script),
        name=command_of(script).upper(),
        summary=roff(summary.rstrip(".")),
        lines=[roff(line) for line in rest.strip("\n").splitlines()],
        version=version,
        date=date,
    )


def roff(line: str) -> str:
    """Returns a line as roff has it: neither an escape nor a request."""
    text = line.replace("\\", "\\e").replace("-", "\\-")
    return f"\\&{text}" if text.startswith((".", "'")) else text
