"""Reads conditional values and hours as docs/FORMATS.md describes them, and lays them out over the
days of a window.

It is another reading than the program's, written for warnings. Minutes are those of local time,
each day has 1,440, and a set of minutes is a whole number whose bit k is the minute k after the
first midnight."""
from __future__ import annotations

import dataclasses
import datetime
import re
from typing import AbstractSet, Mapping, Optional, Sequence

TOKEN = re.compile(r"[ \t]*([A-Za-z]+|24/7|\d{1,2}:\d\d|\d{1,2}|[-,;:\[\]])", re.ASCII)
MONTHS = "Jan Feb Mar Apr May Jun Jul Aug Sep Oct Nov Dec".split()
WEEKDAYS = "Mo Tu We Th Fr Sa Su".split()
HOLIDAYS = ("PH", "SH")

Date = tuple[int, int]  # a month and a day

# Values, by whom they let in: every vehicle, those that deliver, or none.
ALL, DELIVERING, NONE = "all", "delivering", "none"
VALUES = {
    **dict.fromkeys("yes designated permissive discouraged".split(), ALL),
    **dict.fromkeys("destination delivery".split(), DELIVERING),
    **dict.fromkeys("no private agricultural forestry customers permit".split(), NONE),
}

# Each size with the columns of vehicles.csv, its unit, and how many of the column's units are one
# of the number's.
SIZES: dict[str, tuple[str, Optional[str], int]] = {
    "weight": ("weight_kg", "t", 1000),
    "axleload": ("axleload_kg", "t", 1000),
    "height": ("height_cm", "m", 100),
    "width": ("width_cm", "m", 100),
    "length": ("length_cm", "m", 100),
    "axles": ("axles", None, 1),
}
COMPARISON = re.compile(
    r"(\w+)[ \t]*(<=|>=|==|<|>|=)[ \t]*(\d{1,6})(?:\.(\d{1,3}))?[ \t]*([tm]?)", re.ASCII
)
FLAG = re.compile(r"[a-z][a-z_]*", re.ASCII)
NO_FLAGS = ("off", "closed", "open", "and")


OTHERWISE = "hours in another notation"


class NotRead(Exception):
    """A text is outside the notation; its message is the cause."""

    def __init__(self, cause: str = OTHERWISE):
        super().__init__(cause)


# Hours.


@dataclasses.dataclass
class HoursRule:
    """The days that a rule matches, and the spans that begin on them: pairs of a first minute and
    the one after the last."""

    dates: list[tuple[Date, Date]] = dataclasses.field(default_factory=list)  # none: every date
    weekdays: set[int] = dataclasses.field(default_factory=set)
    holidays: set[str] = dataclasses.field(default_factory=set)
    ordinals: list[tuple[int, int]] = dataclasses.field(default_factory=list)  # with a weekday
    spans: list[tuple[int, int]] = dataclasses.field(default_factory=list)  # none for `off`

    def matches(self, day: datetime.date, kinds: AbstractSet[str]) -> bool:
        date = (day.month, day.day)
        if self.dates and not any(is_between(date, first, last) for first, last in self.dates):
            return False
        if not (self.weekdays or self.holidays or self.ordinals):
            return True
        if day.weekday() in self.weekdays or self.holidays & kinds:
            return True
        return any(is_nth(day, *it) for it in self.ordinals)


def is_between(date: Date, first: Date, last: Date) -> bool:
    """Whether a day of the year is from the first to the last, also over the end of the year."""
    return first <= date <= last if first <= last else date >= first or date <= last


def is_nth(day: datetime.date, weekday: int, ordinal: int) -> bool:
    """Whether a day is the first (1) to fifth of this weekday in its month, or the last (-1) to
    fifth from its end."""
    if day.weekday() != weekday:
        return False
    if ordinal > 0:
        return (day.day + 6) // 7 == ordinal
    following = (day.replace(day=28) + datetime.timedelta(days=4)).replace(day=1) - day
    return (following.days + 6) // 7 == -ordinal


class HoursReader:
    """Reads the tokens of a text of hours."""

    def __init__(self, text: str):
        self.tokens: list[str] = []
        place = 0
        if text != text.strip(" \t") or not text:
            raise NotRead("empty hours")
        while place < len(text):
            token = TOKEN.match(text, place)
            if not token:
                raise NotRead
            self.tokens.append(token.group(1))
            place = token.end()
        self.at = 0

    def peek(self, ahead: int = 0) -> str:
        return self.tokens[self.at + ahead] if self.at + ahead < len(self.tokens) else ""

    def take(self, *allowed: str) -> str:
        token = self.peek()
        if not token or (allowed and token not in allowed):
            raise NotRead
        self.at += 1
        return token

    def takes(self, *allowed: str) -> bool:
        if self.peek() in allowed and self.peek():
            self.at += 1
            return True
        return False

    def rules(self) -> list[HoursRule]:
        rules = [self.rule()]
        while self.takes(";"):
            rules.append(self.rule())
        if self.peek():
            raise NotRead
        return rules

    def rule(self) -> HoursRule:
        rule, begin = HoursRule(spans=[(0, 1440)]), self.at
        if self.takes("24/7"):
            self.takes("open")
            return rule
        if self.peek() in MONTHS:
            rule.dates.append(self.date())
            while self.takes(","):
                rule.dates.append(self.date())
            self.takes(":")
        if self.is_long_span():
            first, start = WEEKDAYS.index(self.take()), self.time(1439)
            self.take("-")
            last, end = WEEKDAYS.index(self.take(*WEEKDAYS)), self.time(1440)
            length = (last - first) * 1440 + end - start
            rule.weekdays = {first}
            rule.spans = [(start, start + (length if length > 0 else length + 7 * 1440))]
            self.takes("open")
            return rule
        if self.peek() in WEEKDAYS or self.peek() in HOLIDAYS:
            self.item(rule)
            while self.takes(","):
                self.item(rule)
        if is_time(self.peek()):
            rule.spans = [self.span()]
            while self.takes(","):
                rule.spans.append(self.span())
            self.takes("open")
        elif self.takes("off", "closed"):
            rule.spans = []
        elif self.at > begin:
            self.takes("open")
        if self.at == begin:
            raise NotRead(OTHERWISE if self.peek() not in ("", ";") else "an empty rule of hours")
        return rule

    def is_long_span(self) -> bool:
        days = self.peek() in WEEKDAYS and self.peek(3) in WEEKDAYS
        return days and is_time(self.peek(1)) and self.peek(2) == "-"

    def date(self) -> tuple[Date, Date]:
        month = MONTHS.index(self.take(*MONTHS)) + 1
        if not is_number(self.peek()):
            if self.peek() == "-":
                self.take()
                last = MONTHS.index(self.take(*MONTHS)) + 1
                if is_number(self.peek()):
                    raise NotRead("a date without its first day")
                return (month, 1), (last, 31)
            return (month, 1), (month, 31)
        first = (month, self.day())
        if not self.takes("-"):
            return first, first
        if self.peek() in MONTHS:
            month = MONTHS.index(self.take()) + 1
        return first, (month, self.day())

    def day(self) -> int:
        if not is_number(self.peek()) or not 1 <= int(self.peek()) <= 31:
            raise NotRead("no day of a month")
        return int(self.take())

    def item(self, rule: HoursRule) -> None:
        word = self.take(*WEEKDAYS, *HOLIDAYS)
        if word in HOLIDAYS:
            rule.holidays.add(word)
            return
        first = WEEKDAYS.index(word)
        if self.takes("["):
            sign = -1 if self.takes("-") else 1
            number = self.take()
            if number not in ("1", "2", "3", "4", "5") or not self.takes("]"):
                raise NotRead("no ordinal of a weekday")
            rule.ordinals.append((first, sign * int(number)))
            return
        last = WEEKDAYS.index(self.take(*WEEKDAYS)) if self.takes("-") else first
        rule.weekdays |= {(first + k) % 7 for k in range((last - first) % 7 + 1)}

    def span(self) -> tuple[int, int]:
        start = self.time(1439)
        if not self.takes("-"):
            raise NotRead("a point in time, or an open end")
        end = self.time(2880)
        return start, end if end > start else end + 1440

    def time(self, most: int) -> int:
        if not is_time(self.peek()):
            raise NotRead
        hours, minutes = (int(it) for it in self.take().split(":"))
        if minutes > 59 or hours * 60 + minutes > most:
            raise NotRead("no time of a day")
        return hours * 60 + minutes


def is_time(token: str) -> bool:
    return ":" in token and token != ":"


def is_number(token: str) -> bool:
    return token.isdigit()


def read_hours(text: str) -> list[HoursRule]:
    return HoursReader(text).rules()


class Window:
    """Whole local days, over which hours are laid out."""

    def __init__(self, first: datetime.date, days: int):
        self.first, self.days = first, days
        self.whole = (1 << days * 1440) - 1

    def covered(
        self, rules: Sequence[HoursRule], holidays: Mapping[datetime.date, AbstractSet[str]]
    ) -> int:
        """Returns the minutes that hours cover; `holidays` has the set of kinds for each day that
        has one."""
        minutes = 0
        for k in range(-8, self.days):
            day = self.first + datetime.timedelta(days=k)
            kinds = holidays.get(day, frozenset())
            governing = next((it for it in reversed(rules) if it.matches(day, kinds)), None)
            for start, end in governing.spans if governing else ():
                low, high = max(k * 1440 + start, 0), min(k * 1440 + end, self.days * 1440)
                if low < high:
                    minutes |= ((1 << high - low) - 1) << low
        return minutes

    def first_of(self, minutes: int) -> datetime.datetime:
        """Returns the first minute of a set as a local date and time."""
        least = (minutes & -minutes).bit_length() - 1
        start = datetime.datetime.combine(self.first, datetime.time())
        return start + datetime.timedelta(minutes=least)


# Conditional values.


@dataclasses.dataclass
class Clause:
    value: str  # ALL, DELIVERING or NONE
    # A column of vehicles.csv, a sign, and a number in the column's units.
    comparisons: list[tuple[str, str, int]] = dataclasses.field(default_factory=list)
    flags: list[str] = dataclasses.field(default_factory=list)
    hours: list[str] = dataclasses.field(default_factory=list)  # texts

    def holds_for(self, vehicle: Mapping[str, str]) -> bool:
        """Whether the parts that are about the vehicle hold: a size that isn't known compares with
        no number."""
        for column, sign, number in self.comparisons:
            if vehicle[column] == "" or not compares(int(vehicle[column]), sign, number):
                return False
        return all(it in vehicle["flags"].split() for it in self.flags)


def compares(size: int, sign: str, number: int) -> bool:
    return {
        "<": size < number,
        "<=": size <= number,
        ">": size > number,
        ">=": size >= number,
    }.get(sign, size == number)


def read_conditional(text: str) -> list[Clause]:
    """Returns the clauses of a conditional value."""
    return [read_clause(it) for it in cut_clauses(text)]


def cut_clauses(text: str) -> list[str]:
    """Cuts a text at the semicolons outside parentheses."""
    parts, depth = [""], 0
    for it in text:
        depth += (it == "(") - (it == ")")
        if depth not in (0, 1):
            raise NotRead
        if it == ";" and not depth:
            parts.append("")
        else:
            parts[-1] += it
    if depth:
        raise NotRead
    return parts


def read_clause(text: str) -> Clause:
    value, mark, condition = text.partition("@")
    value, condition = value.strip(" \t"), condition.strip(" \t")
    if not mark or value not in VALUES:
        raise NotRead
    if condition.startswith("(") and condition.endswith(")"):
        condition = condition[1:-1].strip(" \t")
    if "(" in condition or ")" in condition:
        raise NotRead
    clause = Clause(VALUES[value])
    for part in re.split(r"[ \t]+(?:AND|and)(?=[ \t])", condition):
        add_part(clause, part.strip(" \t"))
    return clause


def add_part(clause: Clause, part: str) -> None:
    if any(it in part for it in "<=>"):
        words = COMPARISON.fullmatch(part)
        if not words or words[1] not in SIZES:
            raise NotRead
        column, unit, scale = SIZES[words[1]]
        decimals = words[4] or ""
        if (words[5] and words[5] != unit) or len(decimals) > len(str(scale)) - 1:
            raise NotRead
        number = int(words[3]) * scale + int((decimals + "000")[: len(str(scale)) - 1] or "0")
        clause.comparisons.append((column, words[2], number))
    elif FLAG.fullmatch(part) and part not in NO_FLAGS:
        clause.flags.append(part)
    else:
        read_hours(part)
        clause.hours.append(part)
