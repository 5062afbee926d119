"""What the files of a folder state, read as docs/FORMATS.md says, and when its arcs and parking
areas are open, minute by minute.

tools/random_trips uses it. It is written for small folders, and shares nothing with the program. It
takes files for granted that have no fault: of the faults it knows a missing graph and closures that
name no arc or end before they begin."""
from __future__ import annotations

import calendar
import csv
import dataclasses
import datetime
import io
import os
import re
from typing import Callable, Mapping, Optional, Sequence, TypeVar, Union

Taken = TypeVar("Taken")
# The days of each kind of holiday.
Holidays = Mapping[str, set[int]]
# A first and a last month and day.
DateSpan = tuple[tuple[int, int], tuple[int, int]]
# Whether a rule of hours is about a day: its number, its date and the holidays.
DayTest = Callable[[int, datetime.date, Holidays], bool]
# Its tail, its head and its minutes.
Arc = tuple[int, int, int]
# The scope of a rule, the place of its area or its arc, its key and its kind.
RulePlace = tuple[str, int, str, str]

FIRST_INSTANT, LAST_INSTANT = 525_600, 120_968_639

# The first day number, 0, as a day of Python's calendar.
DAY_0 = datetime.date(1970, 1, 1).toordinal()

MINUTES_OF_DAY = 1_440
COST_OF_MINUTE = 1_000

WEEKDAYS = ["Mo", "Tu", "We", "Th", "Fr", "Sa", "Su"]
MONTHS = ["Jan", "Feb", "Mar", "Apr", "May", "Jun", "Jul", "Aug", "Sep", "Oct", "Nov", "Dec"]

KEYS = ["access", "vehicle", "motor_vehicle", "hgv", "hgv_articulated", "goods", "bus"]
KEYS_OF_CLASS = {
    "hgv": ["access", "vehicle", "motor_vehicle", "hgv"],
    "hgv_articulated": ["access", "vehicle", "motor_vehicle", "hgv", "hgv_articulated"],
    "goods": ["access", "vehicle", "motor_vehicle", "goods"],
    "bus": ["access", "vehicle", "motor_vehicle", "bus"],
}

FREE, BARRED, FOR_DELIVERY = "free", "barred", "for delivery"
ACCESS_OF_VALUE = {
    **dict.fromkeys(["yes", "designated", "permissive", "discouraged"], FREE),
    **dict.fromkeys(["no", "private", "agricultural", "forestry", "customers", "permit"], BARRED),
    **dict.fromkeys(["destination", "delivery"], FOR_DELIVERY),
}


class BadInput(Exception):
    """The first fault of the files: the file's label, the row and the cause."""


# ---- Fields ----


def instant_of(text: str) -> Optional[int]:
    """The Unix minute that a text states; None where it isn't an instant."""
    if re.fullmatch("[1-9][0-9]{0,8}", text):
        minute = int(text)
    else:
        fields = re.fullmatch("([0-9]{4})-([0-9]{2})-([0-9]{2})T([0-9]{2}):([0-9]{2})(:00)?Z", text)
        if not fields:
            return None
        year, month, day, hour, part = (int(field) for field in fields.groups()[:5])
        try:
            date = datetime.date(year, month, day)
        except ValueError:
            return None
        if hour > 23 or part > 59:
            return None
        minute = (date.toordinal() - DAY_0) * MINUTES_OF_DAY + hour * 60 + part
    return minute if FIRST_INSTANT <= minute <= LAST_INSTANT else None


def minute_of(text: str) -> int:
    """The minute of a text that is an instant."""
    minute = instant_of(text)
    assert minute is not None, text
    return minute


def number_of(text: str) -> Optional[int]:
    """A number of a table; None where the text isn't one."""
    return int(text) if re.fullmatch("[0-9]{1,10}", text) and int(text) <= 4_294_967_295 else None


def is_name(text: str) -> bool:
    return re.fullmatch(r"[A-Za-z0-9_.][A-Za-z0-9_.-]{0,63}", text) is not None


def thousandths_of(text: str) -> int:
    whole, _, rest = text.partition(".")
    return int(whole) * 1_000 + int(rest.ljust(3, "0"))


def offset_of(text: str) -> int:
    minutes = int(text[1:3]) * 60 + int(text[4:])
    return -minutes if text[0] == "-" else minutes


def day_of(text: str) -> int:
    return datetime.date.fromisoformat(text).toordinal() - DAY_0


# ---- Hours ----


@dataclasses.dataclass
class HoursRule:
    """Dates as pairs of (month, day), items as tests of a date, spans of (start, length), or None
    for `off`."""

    dates: list[DateSpan]
    items: list[DayTest]
    spans: Optional[list[tuple[int, int]]]


class Hours:
    def __init__(self, text: str) -> None:
        self.rules = [rule_of(tokens) for tokens in split_at(tokens_of(text), ";")]
        self.known: dict[int, Optional[HoursRule]] = {}

    def governing(self, day: int, holidays: Holidays) -> Optional[HoursRule]:
        """The last rule that matches a day."""
        if day not in self.known:
            date = datetime.date.fromordinal(DAY_0 + day)
            matching = [rule for rule in self.rules if matches(rule, day, date, holidays)]
            self.known[day] = matching[-1] if matching else None
        return self.known[day]

    def cover(self, day: int, minute: int, holidays: Holidays) -> bool:
        """Whether a span that began on the day, or on one of the seven before it, has the minute.
        The holidays are always the same ones."""
        for back in range(8):
            rule = self.governing(day - back, holidays)
            if rule is None or rule.spans is None:
                continue
            late = minute + MINUTES_OF_DAY * back
            if any(start <= late < start + length for start, length in rule.spans):
                return True
        return False


def matches(rule: HoursRule, day: int, date: datetime.date, holidays: Holidays) -> bool:
    here = (date.month, date.day)
    in_dates = not rule.dates or any(
        first <= here <= last if first <= last else here >= first or here <= last
        for first, last in rule.dates
    )
    return in_dates and (not rule.items or any(item(day, date, holidays) for item in rule.items))


TOKEN = re.compile(r"24/7|[0-9]{1,2}:[0-9]{2}|[0-9]{1,2}|[A-Za-z]+|[-,;:\[\]]")


def tokens_of(text: str) -> list[str]:
    tokens, at = [], 0
    while at < len(text):
        while text[at] in " \t":
            at += 1
        token = TOKEN.match(text, at)
        assert token, text
        tokens.append(token.group())
        at = token.end()
    return tokens


def split_at(tokens: list[str], mark: str) -> list[list[str]]:
    parts: list[list[str]] = [[]]
    for token in tokens:
        if token == mark:
            parts.append([])
        else:
            parts[-1].append(token)
    return parts


def rule_of(tokens: list[str]) -> HoursRule:
    left = list(tokens)
    dates = take_list(left, MONTHS, take_date)
    if left and left[0] == ":":
        left.pop(0)
    if (
        len(left) >= 5
        and left[0] in WEEKDAYS
        and is_time(left[1])
        and left[2] == "-"
        and left[3] in WEEKDAYS
    ):
        rule = HoursRule(dates, *take_long(left))
    else:
        items = take_list(left, [*WEEKDAYS, "PH", "SH"], take_item)
        rule = HoursRule(dates, items, take_times(left))
    if left == ["open"]:
        left = []
    assert not left, tokens
    return rule


def take_list(
    left: list[str], heads: Sequence[str], take: Callable[[list[str]], Taken]
) -> list[Taken]:
    """Takes things that begin with one of these tokens, separated by commas."""
    taken = []
    while left and left[0] in heads:
        taken.append(take(left))
        if not (len(left) >= 2 and left[0] == "," and left[1] in heads):
            break
        left.pop(0)
    return taken


def take_date(left: list[str]) -> DateSpan:
    first = MONTHS.index(left.pop(0)) + 1
    if left and re.fullmatch("[0-9]{1,2}", left[0]):
        begin = (first, int(left.pop(0)))
        if not (left and left[0] == "-"):
            return begin, begin
        left.pop(0)
        month = MONTHS.index(left.pop(0)) + 1 if left[0] in MONTHS else first
        return begin, (month, int(left.pop(0)))
    if left and left[0] == "-":
        left.pop(0)
        return (first, 1), (MONTHS.index(left.pop(0)) + 1, 31)
    return (first, 1), (first, 31)


def take_item(left: list[str]) -> DayTest:
    word = left.pop(0)
    if word == "PH":
        return lambda day, date, holidays: day in holidays["PH"]
    if word == "SH":
        return lambda day, date, holidays: day in holidays["SH"]
    first = WEEKDAYS.index(word)
    if left and left[0] == "-":
        left.pop(0)
        last = WEEKDAYS.index(left.pop(0))
        return lambda day, date, holidays: (date.weekday() - first) % 7 <= (last - first) % 7
    if left and left[0] == "[":
        return take_ordinal(left, first)
    return lambda day, date, holidays: date.weekday() == first


def take_ordinal(left: list[str], weekday: int) -> DayTest:
    left.pop(0)
    from_end = left[0] == "-"
    if from_end:
        left.pop(0)
    number = int(left.pop(0))
    assert left.pop(0) == "]"
    low, high = (7 * number - 7, 7 * number - 1) if from_end else (7 * number - 6, 7 * number)

    def holds(day: int, date: datetime.date, holidays: Holidays) -> bool:
        place = calendar.monthrange(date.year, date.month)[1] - date.day if from_end else date.day
        return date.weekday() == weekday and low <= place <= high

    return holds


def is_time(token: str) -> bool:
    return re.fullmatch("[0-9]{1,2}:[0-9]{2}", token) is not None


def time_of(token: str) -> int:
    hour, minute = token.split(":")
    return int(hour) * 60 + int(minute)


def take_long(left: list[str]) -> tuple[list[DayTest], list[tuple[int, int]]]:
    """The one item and the one span of a rule such as `Sa 22:00-Su 22:00`."""
    first, start, last, end = left[0], time_of(left[1]), left[3], time_of(left[4])
    del left[:5]
    weekday = WEEKDAYS.index(first)
    length = MINUTES_OF_DAY * ((WEEKDAYS.index(last) - weekday) % 7) + end - start
    return [lambda day, date, holidays: date.weekday() == weekday], [
        (start, length if length > 0 else length + 7 * MINUTES_OF_DAY)
    ]


def take_times(left: list[str]) -> Optional[list[tuple[int, int]]]:
    if left in (["off"], ["closed"]):
        left.pop()
        return None
    if left and left[0] == "24/7":
        left.pop(0)
    spans = []
    while left and is_time(left[0]):
        start, end = time_of(left[0]), time_of(left[2])
        del left[:3]
        spans.append((start, end - start if end > start else end - start + MINUTES_OF_DAY))
        if left and left[0] == ",":
            left.pop(0)
    return spans or [(0, MINUTES_OF_DAY)]


# ---- Conditional values ----

SIZES = ["weight", "axleload", "height", "width", "length", "axles"]
COMPARE: dict[str, Callable[[int, int], bool]] = {
    "<": lambda size, limit: size < limit,
    "<=": lambda size, limit: size <= limit,
    ">": lambda size, limit: size > limit,
    ">=": lambda size, limit: size >= limit,
    "=": lambda size, limit: size == limit,
    "==": lambda size, limit: size == limit,
}
DECIMALS = {"weight": 3, "axleload": 3, "height": 2, "width": 2, "length": 2, "axles": 0}


@dataclasses.dataclass
class Clause:
    access: str
    parts: list[PartTest]


def clauses_of(text: str) -> list[Clause]:
    return [clause_of(piece) for piece in re.findall(r"(?:\([^)]*\)|[^;(])+", text)]


def clause_of(text: str) -> Clause:
    value, _, condition = text.partition("@")
    condition = condition.strip(" \t")
    if condition.startswith("("):
        condition = condition[1:-1].strip(" \t")
    parts = re.split("[ \t](?:AND|and)(?=[ \t])", condition)
    return Clause(
        ACCESS_OF_VALUE[value.strip(" \t")], [part_of(part.strip(" \t")) for part in parts]
    )


def part_of(text: str) -> PartTest:
    """A test of a vehicle, a day, a minute of it and the holidays of an area."""
    compared = re.fullmatch(
        r"([a-z]+)[ \t]*(<=|>=|==|<|>|=)[ \t]*([0-9]+)(?:\.([0-9]+))?[ \t]*[tm]?", text
    )
    if compared:
        size, sign, whole, rest = compared.groups()
        limit = int(whole + (rest or "").ljust(DECIMALS[size], "0"))
        return lambda vehicle, day, minute, holidays: size in vehicle.sizes and COMPARE[sign](
            vehicle.sizes[size], limit
        )
    if re.fullmatch("[a-z][a-z_]*", text) and text not in ("off", "closed", "open", "and"):
        return lambda vehicle, day, minute, holidays: text in vehicle.flags
    hours = Hours(text)
    return lambda vehicle, day, minute, holidays: hours.cover(day, minute, holidays)


# ---- Tables ----


@dataclasses.dataclass
class Vehicle:
    of_class: str
    sizes: dict[str, int]
    purpose: str
    flags: set[str]


@dataclasses.dataclass
class Park:
    """A place to wait: thousandths for a minute, the place of its area in the list of areas, and
    its hours, None for always open."""

    weight: int
    area: int
    hours: Optional[Hours]


# Whether a part of a clause holds for a vehicle: at a day, a minute of it, and with the holidays.
PartTest = Callable[[Vehicle, int, int, Holidays], bool]
# An access, or the clauses of a conditional value.
RuleValue = Union[str, list[Clause]]
# The scope, key and kind of a rule, and its value.
Place = tuple[str, str, str, RuleValue]


@dataclasses.dataclass
class Ruling:
    """The last place that gives a value, and the clause that decides there, from 1."""

    scope: str
    key: str
    kind: str
    clause: int
    access: str


ANY_VEHICLE = Vehicle("hgv", {}, "through", set())

NO_HOLIDAYS: Holidays = {"PH": set(), "SH": set()}


def records_of(text: str) -> list[tuple[int, list[str]]]:
    """The records of a table, each with its number from 1."""
    text = text[3:] if text.startswith("\u00ef\u00bb\u00bf") else text
    return list(
        enumerate((record for record in csv.reader(io.StringIO(text, newline="")) if record), 1)
    )


def lines_of(text: str) -> list[str]:
    """The lines of a text without their ends."""
    lines = text.split("\n")
    if lines[-1] == "":
        lines.pop()
        return [line[:-1] if line.endswith("\r") else line for line in lines]
    return [line[:-1] if line.endswith("\r") else line for line in lines[:-1]] + lines[-1:]


class Network:
    """The tables of a folder. Raises BadInput for one of the faults that this reader knows."""

    def __init__(self, folder: str) -> None:
        self.folder = folder
        if not os.path.exists(os.path.join(folder, "graph.gr")):
            raise BadInput("graph.gr", 0, "Missing")

    def read(self) -> Network:
        self.nodes, self.arcs = graph_of(self.text("graph.gr"))
        zones = {"UTC": [(FIRST_INSTANT, 0)]}
        own_zones: dict[str, list[tuple[int, int]]] = {}
        for zone, begin, offset in self.rows("zones.csv"):
            own_zones.setdefault(zone, []).append((minute_of(begin), offset_of(offset)))
        zones.update(own_zones)
        areas = [(area, zone) for area, zone in self.rows("areas.csv")] or [("default", "UTC")]
        places = {area: place for place, (area, _) in enumerate(areas)}
        self.zones = [zones[zone] for _, zone in areas]
        self.area_of_arc = {int(arc): places[area] for arc, area in self.rows("roads.csv")}
        self.vehicles = {
            "any": ANY_VEHICLE,
            **{row[0]: vehicle_of(row) for row in self.rows("vehicles.csv")},
        }
        self.rules = dict(
            filter(None, (rule_of_row(row, places) for row in self.rows("rules.csv")))
        )
        self.closures = self.read_closures()
        weights = {rating: thousandths_of(weight) for rating, weight in self.rows("ratings.csv")}
        self.parks = {
            int(row[0]): park_of(row, weights, places) for row in self.rows("parking.csv")
        }
        self.holidays: list[dict[str, set[int]]] = [{"PH": set(), "SH": set()} for _ in areas]
        for area, kind, date in self.rows("holidays.csv"):
            self.holidays[places[area]][kind].add(day_of(date))
        self.tolls = {int(arc): thousandths_of(toll) for arc, toll in self.rows("tolls.csv")}
        return self

    def text(self, name: str) -> str:
        """The bytes of a file as characters of the same numbers; an empty text where there is no
        such file."""
        try:
            with open(os.path.join(self.folder, name), "rb") as file:
                return file.read().decode("latin-1")
        except FileNotFoundError:
            return ""

    def rows(self, name: str) -> list[list[str]]:
        return [record for _, record in records_of(self.text(name))[1:]]

    def read_closures(self) -> dict[int, list[tuple[int, int]]]:
        closures: dict[int, list[tuple[int, int]]] = {}
        for number, (arc, begin, end) in records_of(self.text("closures.csv"))[1:]:
            if not 1 <= int(arc) <= len(self.arcs):
                raise BadInput("closures.csv", number, "Unknown")
            if minute_of(end) <= minute_of(begin):
                raise BadInput("closures.csv", number, "NotRising")
            closures.setdefault(int(arc), []).append((minute_of(begin), minute_of(end)))
        return closures

    def wall(self, area: int, minute: int) -> tuple[int, int]:
        """The day and the minute of the day that clocks of an area show."""
        offset = self.zones[area][0][1]
        for begin, later_offset in self.zones[area]:
            if begin <= minute:
                offset = later_offset
        return divmod(minute + offset, MINUTES_OF_DAY)

    def places(self, arc: int, vehicle: Vehicle) -> list[Place]:
        """The places that have a rule for an arc and a vehicle, from general to special, each with
        its access or clauses."""
        area = self.area_of_arc.get(arc, 0)
        places: list[Place] = []
        for key in KEYS_OF_CLASS[vehicle.of_class]:
            for scope, place in (("area", area), ("arc", arc)):
                for kind in ("plain", "conditional"):
                    if (scope, place, key, kind) in self.rules:
                        places.append((scope, key, kind, self.rules[scope, place, key, kind]))
        return places

    def ruling(
        self, arc: int, vehicle: Vehicle, places: list[Place], minute: int
    ) -> Optional[Ruling]:
        """The ruling of the last of an arc's places that gives a value; None where none does."""
        if not places:
            return None
        area = self.area_of_arc.get(arc, 0)
        day, part = self.wall(area, minute)
        last = None
        for scope, key, kind, value in places:
            if isinstance(value, str):
                last = Ruling(scope, key, kind, 1, value)
                continue
            for number, clause in enumerate(value, 1):
                if all(holds(vehicle, day, part, self.holidays[area]) for holds in clause.parts):
                    last = Ruling(scope, key, kind, number, clause.access)
        return last

    def closure_at(self, arc: int, minute: int) -> Optional[int]:
        """The number from 1 of the arc's first closure that has the minute; None where none has."""
        for number, (begin, end) in enumerate(self.closures.get(arc, []), 1):
            if begin <= minute < end:
                return number
        return None

    def is_park_open(self, node: int, minute: int) -> bool:
        park = self.parks[node]
        if park.hours is None:
            return True
        return park.hours.cover(*self.wall(park.area, minute), self.holidays[park.area])


def graph_of(text: str) -> tuple[int, list[Arc]]:
    nodes = 0
    arcs: list[Arc] = []
    for line in lines_of(text):
        tokens = line.split()
        if tokens and tokens[0] == "p":
            nodes = int(tokens[2])
        elif tokens and tokens[0] == "a":
            tail, head, minutes = (int(token) for token in tokens[1:])
            arcs.append((tail, head, minutes))
    return nodes, arcs


def vehicle_of(row: list[str]) -> Vehicle:
    sizes = {size: int(field) for size, field in zip(SIZES, row[2:8]) if field}
    return Vehicle(row[1], sizes, row[8] or "through", set(row[9].split()))


def rule_of_row(row: list[str], places: Mapping[str, int]) -> Optional[tuple[RulePlace, RuleValue]]:
    """The place of a rule and its value; None for a key that is passed over."""
    scope, _, name = row[0].partition(":")
    key, _, kind = row[1].partition(":")
    if key not in KEYS or kind not in ("", "conditional"):
        return None
    place = places[name] if scope == "area" else int(name)
    if kind:
        return (scope, place, key, "conditional"), clauses_of(row[2])
    return (scope, place, key, "plain"), ACCESS_OF_VALUE[row[2]]


def park_of(row: list[str], weights: Mapping[str, int], places: Mapping[str, int]) -> Park:
    area, hours = row[2:] if len(row) == 4 else ("", "")
    return Park(weights[row[1]], places[area] if area else 0, Hours(hours) if hours else None)
