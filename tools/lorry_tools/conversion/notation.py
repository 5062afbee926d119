"""The notation of hours and of conditional values that lorry_plan reads, by docs/FORMATS.md, and
what is put into it.

`hours` gives the text of hours that the program reads, or raises `Unread`. Texts that other
evaluators of OpenStreetMap's `opening_hours` read, and that the program can say in other words, are
rewritten; each rewriting is told to `changed`."""
from __future__ import annotations

import re
from typing import Callable, Optional

from lorry_tools import rule_texts
from lorry_tools.rule_texts import MONTHS, WEEKDAYS

# Told what is changed, and an example.
Changed = Callable[[str, str], None]

FLAG = re.compile(r"[a-z][a-z_]*$")
# The longest value of a rule, and hours of parking, in bytes.
LONGEST_VALUE = 65_536


class Unread(Exception):
    """A text that the program can't read; its message is the cause."""


def read_hours(text: str) -> tuple[set[str], set[str]]:
    """Reads hours as the program does: the holidays that are named where something is covered, and
    where `off`."""
    try:
        rules = rule_texts.read_hours(text)
    except rule_texts.NotRead as error:
        raise Unread(str(error)) from None
    covered: set[str] = set().union(*(it.holidays for it in rules if it.spans))
    off: set[str] = set().union(*(it.holidays for it in rules if not it.spans))
    return covered, off


def with_ordinals(text: str) -> str:
    """Su[1,3] as Su[1],Su[3]"""

    def each(found: re.Match[str]) -> str:
        return ",".join(f"{found[1]}[{one.strip()}]" for one in found[2].split(","))

    return re.sub(r"\b(Mo|Tu|We|Th|Fr|Sa|Su)\[(-?\d(?:\s*,\s*-?\d)+)\]", each, text)


def with_months(text: str) -> str:
    """Jan 01,06 as Jan 01,Jan 06"""
    month = "|".join(MONTHS)
    while True:
        text, count = re.subn(
            rf"\b({month})( \d{{1,2}}), ?(\d{{1,2}})(?![\d:])", r"\1\2,\1 \3", text
        )
        if not count:
            return text


def weekdays_of(rule: str) -> Optional[set[int]]:
    """The weekdays of a rule that begins with some, as a set; None where it is of another form."""
    day = "(?:Mo|Tu|We|Th|Fr|Sa|Su)"
    days = re.match(rf"({day}(?:-{day})?(?:,{day}(?:-{day})?)*) ", rule)
    if not days:
        return None
    found: set[int] = set()
    for item in days.group(1).split(","):
        first, last = (WEEKDAYS.index(day) for day in (item.split("-") * 2)[:2])
        found.update((first + k) % 7 for k in range((last - first) % 7 + 1))
    return found


def with_semicolons(text: str) -> str:
    """`Tu 10:00-12:00, We 10:00-12:00` with a `;`: an additional rule is the same as another one
    where no weekday repeats."""
    if ";" in text:
        return text
    rules = re.split(r"(?<=\d\d), ?(?=(?:Mo|Tu|We|Th|Fr|Sa|Su)\b)", text)
    if len(rules) < 2:
        return text
    seen: set[int] = set()
    for rule in rules:
        days = weekdays_of(rule)
        if days is None or seen & days:
            return text
        seen |= days
    return "; ".join(rules)


def hours(text: str, changed: Changed, school_holidays: bool = False, lifts: bool = False) -> str:
    """Gives hours that the program reads. Without a table of school holidays, hours that need one
    are refused; `lifts` says that the hours let vehicles in, so that a missing holiday would let
    them in wrongly."""
    text = re.sub(r"[\u2013\u2014]", "-", text.replace("\u00a0", " ")).strip(" \t;")
    try:
        covered, off = read_hours(text)
    except Unread:
        other = with_semicolons(with_months(with_ordinals(text)))
        if other == text:
            raise
        covered, off = read_hours(other)
        changed("hours written in other words", f"{text} as {other}")
        text = other
    if not school_holidays and ("SH" in covered or "SH" in off and lifts):
        raise Unread("school holidays, of which there is no table")
    if len(text) > LONGEST_VALUE:
        raise Unread("too long")
    return re.sub(r"[ \t]+", " ", text)


def outside_parentheses(text: str, mark: str) -> list[str]:
    """Cuts a text at each mark that is outside parentheses."""
    parts, depth, start = [], 0, 0
    for at, letter in enumerate(text):
        if letter == "(":
            depth += 1
        elif letter == ")":
            depth -= 1
        elif letter == mark and depth == 0:
            parts.append(text[start:at])
            start = at + 1
    return parts + [text[start:]]
