"""Copies the examples of lorry_plan into a folder of your own, which may be written into.

    tools/examples DIR

DIR is made, and gets a folder for each example, such as DIR/liechtenstein. A folder that is there
stays as it is: then nothing is copied."""
from __future__ import annotations

import argparse
import os
import shutil

from lorry_tools.problems import Problem
from lorry_tools.running import TOP

INSTALLED = "/usr/share/doc/lorry-plan/examples"


def source() -> str:
    """Returns the folder of the examples: that of the repository, or that of the package."""
    for folder in (os.path.join(TOP, "examples"), INSTALLED):
        if os.path.isdir(folder):
            return folder
    raise Problem(f"there are no examples: neither in the repository nor in {INSTALLED}")


def copy_examples(target: str) -> int:
    """Copies the examples, and returns how many there are."""
    found = sorted(it.name for it in os.scandir(source()) if it.is_dir())
    there = [it for it in found if os.path.exists(os.path.join(target, it))]
    if there:
        raise Problem(
            f"{target} has a folder {there[0]}: expected is a folder without the examples"
        )
    os.makedirs(target, exist_ok=True)
    for name in found:
        made = os.path.join(target, name)
        shutil.copytree(os.path.join(source(), name), made, copy_function=shutil.copyfile)
        for folder, _, names in os.walk(made):
            os.chmod(folder, 0o755)
            for inner in names:
                os.chmod(os.path.join(folder, inner), 0o644)
    return len(found)


def main() -> int:
    parser = argparse.ArgumentParser(
        description=__doc__, formatter_class=argparse.RawDescriptionHelpFormatter
    )
    parser.add_argument("dir", metavar="DIR", help="the folder to copy the examples into")
    words = parser.parse_args()
    print(f"{copy_examples(words.dir)} examples are in {words.dir}")
    return 0
