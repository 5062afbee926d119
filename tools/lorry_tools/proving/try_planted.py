"""Tries the planted bugs of tools/planted, which `rt ci` doesn't try: the prover must refuse each.

    tools/try_planted [CRATE..]

It copies crates, crates.txt and HANDLES into a temporary folder, puts tools/planted/CRATE there in
the place of crates/CRATE/must-fail, and runs `rt must-fail CRATE` for one crate after another, the
lowest first: all that have a folder in tools/planted, where none is named. It prints a line for
each crate, how many of its bugs were refused, and below it the words of `rt` for each that was not
refused, could not be applied or was not tried, and every line of `rt` that it can't read. If there
is such a bug, it ends with status 1. The copy is removed at the end. It takes about half a minute
of one processor for each bug, and the proofs of the crates that no check on this machine has kept.
docs/HACKING.md says when to run it."""
from __future__ import annotations

import argparse
import os
import re
import shutil
import subprocess
import sys
import tempfile
import time

from lorry_tools.running import TOP

PLANTED = os.path.join(TOP, "tools", "planted")
RESULT = re.compile(r"(?:rt: )?must-fail (\w+)/(\S+)\.edit: (.*)")
REFUSED = "refused, as it must be"
# The lines of rt that say only what it begins with.
NOTE = re.compile(
    r"rt: \w+: (begins with what|\d+ of its \d+ must-fail edits were tried by an earlier run)"
)


def crates_in_order() -> list[str]:
    """Returns the names of all crates, the lowest first."""
    with open(os.path.join(TOP, "crates.txt"), encoding="utf-8") as file:
        return [it.split(":")[0].split()[0] for it in file if ":" in it and not it.startswith("#")]


def bugs_of(crate: str) -> list[str]:
    """Returns the names of the bugs that are planted in a crate, without their ending."""
    folder = os.path.join(PLANTED, crate)
    names = os.listdir(folder) if os.path.isdir(folder) else []
    return sorted(it[: -len(".edit")] for it in names if it.endswith(".edit"))


def copy_into(room: str, crates: list[str]) -> None:
    """Copies the crates into the folder, and gives those that are tried the bugs of tools/planted
    in the place of their own."""
    shutil.copytree(
        os.path.join(TOP, "crates"),
        os.path.join(room, "crates"),
        ignore=shutil.ignore_patterns("out"),
    )
    for name in ("crates.txt", "HANDLES"):
        shutil.copy(os.path.join(TOP, name), room)
    os.mkdir(os.path.join(room, "tmp"))
    for crate in crates:
        must_fail = os.path.join(room, "crates", crate, "must-fail")
        shutil.rmtree(must_fail, ignore_errors=True)
        os.mkdir(must_fail)
        for bug in bugs_of(crate):
            shutil.copy(os.path.join(PLANTED, crate, f"{bug}.edit"), must_fail)


def run_in(room: str, crate: str) -> tuple[int, list[str]]:
    """Returns the status of `rt must-fail` for a crate, and the lines that it printed."""
    # (the temporary files of rt are removed with the copy)
    environment = {**os.environ, "TMPDIR": os.path.join(room, "tmp")}
    with subprocess.Popen(
        ["rt", "must-fail", crate],
        cwd=room,
        env=environment,
        stdin=subprocess.DEVNULL,
        stdout=subprocess.PIPE,
        stderr=subprocess.STDOUT,
    ) as process:
        try:
            printed = process.communicate()[0]
        except BaseException:
            # (what rt has begun ends soon after it)
            process.terminate()
            process.wait()
            time.sleep(1)
            raise
    return process.returncode, printed.decode("utf-8", "replace").splitlines()


def results_in(crate: str, lines: list[str]) -> tuple[dict[str, str], list[str]]:
    """Returns what `rt` says of each bug of a crate, by its name, and the lines that say no such
    thing."""
    results: dict[str, str] = {}
    others: list[str] = []
    for line in lines:
        found = RESULT.match(line)
        if found and found[1] == crate:
            results[found[2]] = found[3]
        elif line.strip() and not NOTE.match(line):
            others.append(line)
    return results, others


def try_crate(room: str, crate: str) -> tuple[int, int, bool]:
    """Tries the bugs of a crate, prints what came of it, and returns how many were tried, how many
    were refused, and whether all is well."""
    begun, bugs = time.time(), bugs_of(crate)
    status, lines = run_in(room, crate)
    results, others = results_in(crate, lines)
    refused = [it for it in bugs if results.get(it, "").startswith(REFUSED)]
    print(f"{crate}: {len(refused)} of {len(bugs)} refused, {time.time() - begun:.0f} s")
    for bug in bugs:
        if bug not in refused:
            print(f"  {bug}: {results.get(bug, 'NOT TRIED: rt says nothing of it')}")
    for line in others:
        print(f"  rt printed: {line}")
    is_well = status == 0 and len(refused) == len(bugs)
    if status != 0 and len(refused) == len(bugs):
        print(f"  rt must-fail ended with status {status}")
    sys.stdout.flush()
    return len(bugs), len(refused), is_well


def main() -> int:
    parser = argparse.ArgumentParser(
        description=__doc__, formatter_class=argparse.RawDescriptionHelpFormatter
    )
    parser.add_argument("crates", nargs="*", metavar="CRATE")
    asked = parser.parse_args()
    known = crates_in_order()
    named = asked.crates or [
        it for it in sorted(os.listdir(PLANTED)) if os.path.isdir(os.path.join(PLANTED, it))
    ]
    for crate in named:
        if crate not in known:
            raise SystemExit(f"{crate} is no crate of crates.txt")
        if not bugs_of(crate):
            raise SystemExit(f"{crate} has no planted bugs in tools/planted")
    if not shutil.which("rt"):
        raise SystemExit("rt is not on the path")
    crates = [it for it in known if it in named]
    room = tempfile.mkdtemp(prefix="try_planted-")
    try:
        copy_into(room, crates)
        tried = [try_crate(room, it) for it in crates]
    finally:
        shutil.rmtree(room, ignore_errors=True)
    print(
        f"{sum(it[1] for it in tried)} of {sum(it[0] for it in tried)} planted bugs refused, in"
        f" {len(crates)} crates"
    )
    return 0 if all(it[2] for it in tried) else 1
