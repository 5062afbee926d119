"""Shows which functions of a crate take longest to prove.

    tools/proof_times [--most N] CRATE

A check writes a file as it ends with each part of a proof, and so the times of these files tell how
long each part took. Check the crate from nothing with one job first: `rm -rf out; rt check --jobs
1` in its folder. A line is printed for each of the N slowest functions, 20 if N isn't given: the
seconds of all its parts, and those of its modules `Lts` and `Proof`. docs/HACKING.md says what
makes them large."""
from __future__ import annotations

import argparse
import collections
import os

from lorry_tools.running import TOP


# The parts of a function's proof; the files of a part have its name, or begin with it.
PARTS = (
    "Lts",
    "Proof",
    "Tie",
    "Answers",
    "Goals",
    "Given",
    "Invariants",
    "Reads",
    "Named",
    "Kinds",
    "Layout",
    "Code",
    "Statement",
    "Met",
)


def written(crate: str) -> list[tuple[float, str]]:
    """Returns the parts of the crate's proofs in the order in which they were written, each with
    its time."""
    prefix = f"Rattle-{crate}-"
    found = []
    for at, _, names in os.walk(os.path.join(TOP, "crates", crate, "out", "incremental")):
        for name in names:
            if name.startswith(prefix) and name.endswith(".oantt"):
                time = os.stat(os.path.join(at, name)).st_mtime_ns / 1e9
                found.append((time, name.removeprefix(prefix).removesuffix(".oantt")))
    return sorted(found)


def function_and_part(name: str) -> tuple[str, str]:
    """Returns the function that a file is about, and the part of its proof; the part is empty for
    what is no function's."""
    words = name.split(".")
    for place, word in enumerate(words):
        part = next((it for it in PARTS if word == it or word.startswith(it + "-")), None)
        if part and words[0] == "proofs":
            return ".".join(words[1:place]), part
    return name, ""


def main() -> int:
    parser = argparse.ArgumentParser(
        description=__doc__, formatter_class=argparse.RawDescriptionHelpFormatter
    )
    parser.add_argument("--most", type=int, default=20)
    parser.add_argument("crate")
    asked = parser.parse_args()
    files = written(asked.crate)
    if not files:
        raise SystemExit(
            f"{asked.crate} has no kept proofs: run rt check --jobs 1 in its folder first"
        )
    all_of: dict[str, float] = collections.defaultdict(float)
    parts_of: dict[tuple[str, str], float] = collections.defaultdict(float)
    for (before, _), (time, name) in zip(files, files[1:]):
        function, part = function_and_part(name)
        if part:
            all_of[function] += time - before
            parts_of[function, part] += time - before
    print(f"{files[-1][0] - files[0][0]:.0f} s in all\n")
    print(f"{'all':>6} {'Lts':>6} {'Proof':>6}  function")
    for function, seconds in sorted(all_of.items(), key=lambda it: -it[1])[: asked.most]:
        print(
            f"{seconds:6.1f} {parts_of[function, 'Lts']:6.1f} {parts_of[function, 'Proof']:6.1f} "
            f" {function}"
        )
    return 0
