"""Measures the processor seconds that each part of a run of `rt ci` takes, while it runs.

    tools/gate_times [--edits N]

Start it beside `.ci/run` in the same checkout, with the same TMPDIR; it ends when no check is left,
or is told to. Once a second it looks at the processes of rattle that work for this checkout, and in
the end it prints a row for each crate: the seconds of its proof, of the proof once more before its
planted bugs, of its tests, and of its planted bugs. The table in docs/HACKING.md adds the second of
these to the last. Below are the N slowest planted bugs, 20 if N isn't given. It needs Linux."""
from __future__ import annotations

import argparse
import collections
import dataclasses
import glob
import os
import signal
import tempfile
import time
from typing import Mapping, Optional

from lorry_tools.running import TOP

# The name, the file and the new text of a planted bug.
Bug = tuple[str, str, str]

TICKS = os.sysconf("SC_CLK_TCK")

# The copies that `rt` makes begin so. Runs in two checkouts are told apart where each has a TMPDIR
# of its own.
COPIES = os.path.join(tempfile.gettempdir(), "rt-")

# The end has come when no check was seen for so many seconds.
PATIENCE = 120


@dataclasses.dataclass
class Seen:
    """A process of rattle: the crate, what it does there, and its processor seconds."""

    crate: str
    kind: str
    bug: Optional[str]
    seconds: float


def planted() -> dict[str, list[Bug]]:
    """Returns the planted bugs of each crate: name, file and new text."""
    found: dict[str, list[Bug]] = collections.defaultdict(list)
    for path in sorted(glob.glob(os.path.join(TOP, "crates", "*", "must-fail", "*.edit"))):
        crate = path.split(os.sep)[-3]
        with open(path, encoding="utf-8") as edit:
            lines = edit.read().splitlines()
        file = next(it.removeprefix("file: ") for it in lines if it.startswith("file: "))
        new = next(it.removeprefix("new: ") for it in lines if it.startswith("new: "))
        found[crate].append((os.path.basename(path).removesuffix(".edit"), file, new.strip()))
    return found


def text_of(path: str) -> Optional[str]:
    try:
        with open(path, encoding="utf-8") as file:
            return file.read()
    except OSError:
        return None


def bug_in(folder: str, crate: str, bugs: Mapping[str, list[Bug]]) -> Optional[str]:
    """Returns the planted bug that the copy of the crate in the folder has, if it has one."""
    for name, file, new in bugs[crate]:
        text, own = text_of(f"{folder}/{file}"), text_of(os.path.join(TOP, "crates", crate, file))
        if text and own and text != own and new in text:
            return name
    return None


def look(seen: dict[tuple[str, str], Seen], bugs: Mapping[str, list[Bug]]) -> bool:
    """Notes the processor seconds of each process of rattle, and returns whether there is one."""
    is_there = False
    for process in filter(str.isdigit, os.listdir("/proc")):
        try:
            if os.path.basename(os.readlink(f"/proc/{process}/exe")) != "rattle":
                continue
            with open(f"/proc/{process}/stat", encoding="utf-8") as stat:
                fields = stat.read().rsplit(")", 1)[1].split()
            key = process, fields[19]
            if key not in seen:
                with open(f"/proc/{process}/cmdline", encoding="utf-8") as line:
                    words = line.read().split("\0")
                if "--crate-name" not in words:
                    continue
                crate, folder = words[words.index("--crate-name") + 1], os.readlink(
                    f"/proc/{process}/cwd"
                )
                if not folder.startswith((TOP + os.sep, COPIES)):
                    # (another checkout's)
                    continue
                bug = bug_in(folder, crate, bugs) if "/rt-edit-" in folder else None
                kind = (
                    "bugs"
                    if bug
                    else (
                        "again"
                        if "/rt-edit-" in folder
                        else "tests"
                        if "--test" in words
                        else "proof"
                    )
                )
                seen[key] = Seen(crate, kind, bug, 0)
            seen[key].seconds = (int(fields[11]) + int(fields[12])) / TICKS
            is_there = True
        except (OSError, ValueError, IndexError):
            # (it has ended meanwhile)
            continue
    return is_there


def main() -> int:
    parser = argparse.ArgumentParser(
        description=__doc__, formatter_class=argparse.RawDescriptionHelpFormatter
    )
    parser.add_argument("--edits", type=int, default=20)
    asked = parser.parse_args()
    seen: dict[tuple[str, str], Seen] = {}
    bugs, last = planted(), time.time()
    for number in (signal.SIGTERM, signal.SIGINT):
        signal.signal(number, signal.default_int_handler)
    try:
        while time.time() - last < PATIENCE:
            if look(seen, bugs):
                last = time.time()
            time.sleep(1)
    except KeyboardInterrupt:
        pass
    seconds: dict[tuple[str, str], float] = collections.defaultdict(float)
    slowest: dict[str, float] = collections.defaultdict(float)
    for it in seen.values():
        seconds[it.crate, it.kind] += it.seconds
        if it.bug:
            slowest[f"{it.crate}/{it.bug}"] += it.seconds
    print("| Crate | Proof | Again | Tests | Edits |\n|---|---|---|---|---|")
    with open(os.path.join(TOP, "crates.txt"), encoding="utf-8") as file:
        crates = [it.split(":")[0] for it in file if ":" in it and not it.startswith("#")]
    for crate in crates:
        row = [f"{seconds[crate, kind]:.0f}" for kind in ("proof", "again", "tests", "bugs")]
        print(f"| `{crate}` | {' | '.join(row)} ({len(bugs[crate])}) |")
    print(f"\n{sum(seconds.values()) / 60:.0f} processor minutes in all\n")
    for name, spent in sorted(slowest.items(), key=lambda it: -it[1])[: asked.edits]:
        print(f"{spent:6.0f}  {name}")
    return 0
