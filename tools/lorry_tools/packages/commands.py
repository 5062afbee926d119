"""What docs/COMMANDS.md says of the words and the statuses of the program, as Markdown."""
from __future__ import annotations

import os
import re

from lorry_tools.running import TOP

COMMANDS = os.path.join(TOP, "docs", "COMMANDS.md")

# A command, and a status, as a row of their tables.
USAGE = re.compile(r"\| `(.+?)` \| (.+) \|")
STATUS = re.compile(r"\| (\d+) \| (\w+) \| (.+) \|")


class Commands:
    """The tables and the paragraphs of a text that has the form of docs/COMMANDS.md; a ValueError
    where it has another one."""

    def __init__(self, text: str):
        table, rest = table_of(text, "| Words | Does |\n|---|---|\n")
        self.usages = rows_of(table, USAGE)
        values, _, rest = rest.partition("\n\n")
        self.values = [joined(value) for value in re.split(r"^- ", values, flags=re.M)[1:]]
        self.words = joined(rest.partition("\n\n")[0])
        table, rest = table_of(text, "| Status | Name | When |\n|---|---|---|\n")
        self.statuses = rows_of(table, STATUS)
        self.order = joined(rest.partition("\n\n")[0])
        if not (self.usages and self.values and self.statuses and self.words and self.order):
            raise ValueError("a table or a paragraph is missing")

    def options(self) -> dict[str, list[str]]:
        """Returns the options of each command."""
        return {usage.split()[0]: re.findall(r"--[a-z]+", usage) for usage, _ in self.usages}

    def forms(self) -> list[str]:
        """Returns the forms of a report."""
        return next(
            re.findall(r"`([a-z]+)`", value.partition(";")[0])
            for value in self.values
            if value.startswith("F is ")
        )


def table_of(text: str, head: str) -> tuple[str, str]:
    """Returns the table below these lines, and the text behind it."""
    table, _, rest = text.partition(head)[2].partition("\n\n")
    return table, rest


def rows_of(table: str, form: re.Pattern[str]) -> list[tuple[str, ...]]:
    rows = []
    for line in table.splitlines():
        row = form.fullmatch(line)
        if not row:
            raise ValueError(f"a row is {line!r}")
        rows.append(row.groups())
    return rows


def joined(text: str) -> str:
    return " ".join(text.split())
