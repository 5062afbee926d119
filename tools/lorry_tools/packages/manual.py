"""Compares the manual page and the completions of tools/package.d with docs/COMMANDS.md.

    tools/package.d/manual.py [--write]

The manual page repeats the commands, the values, the rules for words and the statuses of COMMANDS,
in blocks that begin with a comment: `--write` writes these anew after COMMANDS was changed. The
completions are written by hand, and have to name the same commands, options and forms.
.ci/documents.py compares them too."""
from __future__ import annotations

import argparse
import os
import re
from typing import Iterator, Mapping

from lorry_tools.packages.commands import COMMANDS, Commands
from lorry_tools.packages.completions import differences_of_completions
from lorry_tools.packages.texts import PARTS, read

MANUAL = os.path.join(PARTS, "lorry_plan.1")
BLOCK = re.compile(r'(\.\\" docs/COMMANDS\.md: (\w+)\n)(.*?)(\.\\" end\n)', re.S)


def plain(markdown: str) -> str:
    """Returns Markdown as text for roff: links without their targets, code in bold."""
    text = re.sub(r"\[([^]]*)\]\([^)]*\)", r"\1", markdown).replace("\\", "\\e")
    text = re.sub(r"`([^`]*)`", lambda code: rf"\fB{code[1]}\fP", text)
    return re.sub(r"^(['.])", r"\\&\1", text.replace("-", r"\-"))


def usage_word(word: str) -> str:
    """Returns a word of a usage: a value in italics, any other word in bold, brackets as they
    are."""
    opened = "[" if word.startswith("[") else ""
    closed = "]" if word.endswith("]") else ""
    inner = word.removeprefix(opened).removesuffix(closed)
    shown = rf"\fI{inner}\fP" if inner.isupper() else rf"\fB{inner}\fP".replace("-", r"\-")
    return opened + shown + closed


def usage_line(usage: str) -> str:
    """Returns the words of a command: its name and options in bold, its values in italics."""
    return " ".join(usage_word(word) for word in usage.split())


def blocks(commands: Commands) -> dict[str, str]:
    """Returns the blocks of the manual page by their names."""
    usages = [(usage_line(usage), plain(does)) for usage, does in commands.usages]
    statuses = [(f"{number} {name}", plain(when)) for number, name, when in commands.statuses]
    return {
        "usages": ".br\n".join(f"\\fBlorry_plan\\fP {usage}\n" for usage, _ in usages),
        "commands": "".join(f".TP\n{usage}\n{does}\n" for usage, does in usages),
        "values": "".join(f".IP \\(bu 2\n{plain(value)}\n" for value in commands.values),
        "words": plain(commands.words) + "\n",
        "statuses": "".join(f".TP\n.B {status}\n{when}\n" for status, when in statuses),
        "order": plain(commands.order) + "\n",
    }


def manual_as_it_should_be(manual: str, wanted: Mapping[str, str]) -> str:
    return BLOCK.sub(lambda block: block[1] + wanted[block[2]] + block[4], manual)


def differences_of_manual(commands: Commands) -> Iterator[str]:
    manual, wanted = read(MANUAL), blocks(commands)
    found = {name: text for _, name, text, _ in BLOCK.findall(manual)}
    for name in sorted(wanted.keys() | found.keys()):
        if found.get(name) != wanted.get(name):
            yield (
                f"lorry_plan.1: the block '{name}' isn't that of docs/COMMANDS.md: "
                "tools/package.d/manual.py --write writes it"
            )


def differences() -> list[str]:
    """Returns how the manual page and the completions differ from docs/COMMANDS.md, each in one
    line."""
    try:
        commands = Commands(read(COMMANDS))
    except ValueError as error:
        return [f"docs/COMMANDS.md has another form than tools/package.d/manual.py reads: {error}"]
    return [*differences_of_manual(commands), *differences_of_completions(commands)]


def main() -> int:
    parser = argparse.ArgumentParser(
        description=__doc__, formatter_class=argparse.RawDescriptionHelpFormatter
    )
    parser.add_argument(
        "--write", action="store_true", help="write the blocks of the manual page anew"
    )
    if parser.parse_args().write:
        page = manual_as_it_should_be(read(MANUAL), blocks(Commands(read(COMMANDS))))
        with open(MANUAL, "w", encoding="utf-8") as file:
            file.write(page)
    found = differences()
    print("\n".join([*found, f"manual: {len(found)} differences"]))
    return 1 if found else 0
