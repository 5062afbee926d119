"""What a user asks, read from words and times into nodes and minutes."""
from __future__ import annotations

import dataclasses
import datetime
import re
from typing import Optional

from lorry_tools.clocks import Clock, local_of, read_time
from lorry_tools.folder import Folder, Row
from lorry_tools.instants import DAY, LONGEST_HORIZON, span_text
from lorry_tools.places import Place, Places
from lorry_tools.problems import Problem
from lorry_tools.program import BreakRule

PLAN, LATEST, TOUR, BREAKS = "plan", "latest", "tour", "breaks"

# docs/COMMANDS.md: the longest time from the earliest departure of `latest`.
LONGEST_FOR_LATEST = LONGEST_HORIZON - 1
USUAL_DAYS = 3.0

# Regulation (EC) 561/2006, Articles 6 to 8: minutes of driving and of breaks and rests.
DRIVE_TO_BREAK, BREAK, DRIVE_A_DAY, REST = 270, 45, 540, 660

ANY = "any"
ANY_WORDS = "a lorry of which no size is known"
ONE_DAY = datetime.timedelta(days=1)

SPAN = re.compile(r"(?:(\d+)[ \t]*h)?[ \t]*(?:(\d+)[ \t]*min)?", re.ASCII)
DURATION = r"(?:\d+[ \t]*h(?:[ \t]*\d+[ \t]*min)?|\d+[ \t]*min)"
CLOCK = r"\d\d?:\d\d"
STOP = re.compile(
    rf"(?P<place>.*?)[ \t]*,[ \t]*(?P<service>{DURATION})"
    rf"(?:[ \t]*,[ \t]*(?:(?P<date>\d{{4}}-\d\d?-\d\d?)[ \t]+)?(?P<from>{CLOCK})[ \t]*-[ \t]*"
    rf"(?P<to>{CLOCK}))?",
    re.ASCII,
)
STOP_EXPECTED = (
    'expected is a place and the minutes of service, with a window if there is one: "Vaduz, 20 '
    'min" or "Vaduz, 20 min, 08:00-12:00", which is the first such window that isn\'t over at the '
    'departure, or "Vaduz, 20 min, 2026-07-11 08:00-12:00"'
)


@dataclasses.dataclass(frozen=True)
class Stop:
    """A stop of a tour: its place, the minutes of service, and the window in which it is."""

    place: Place
    service: int
    start: int
    end: int

    def row(self) -> tuple[int, int, int, int]:
        return self.place.node, self.service, self.start, self.end


@dataclasses.dataclass
class Request:
    """A trip that is asked for."""

    command: str
    vehicle: str
    origin: Place
    goal: Place
    depart: int
    until: int
    stops: list[Stop]
    rule: Optional[BreakRule] = None  # of a trip or a tour with breaks


@dataclasses.dataclass
class Words:
    """The words of a user, as they were given."""

    origin: str
    goal: str
    vehicle: Optional[str] = None
    leave: Optional[str] = None
    by: Optional[str] = None
    within: Optional[str] = None
    latest: bool = False
    breaks: bool = False
    drive: Optional[str] = None
    rest: Optional[str] = None
    stops: list[str] = dataclasses.field(default_factory=list)


def read_request(folder: Folder, places: Places, words: Words) -> Request:
    """Returns what is asked for; each word that can't be read is a problem that says so."""
    command = command_of(words)
    origin = places.read(words.origin, "FROM")
    goal = places.read(words.goal, "TO")
    vehicle = read_vehicle(folder, words.vehicle)
    depart, until = read_times(places, origin, goal, words)
    stops = [read_stop(places, text, depart, until) for text in words.stops]
    return Request(command, vehicle, origin, goal, depart, until, stops, read_rule(words))


def command_of(words: Words) -> str:
    given = ((words.stops, "--stop"), (words.breaks, "--breaks"))
    others = [option for is_given, option in given if is_given]
    if words.latest and others:
        options = " and ".join(["--latest", *others])
        raise Problem(f"{options} can't be asked for together: the program has no such command")
    if words.latest:
        return LATEST
    if words.stops:
        return TOUR
    return BREAKS if words.breaks else PLAN


def read_rule(words: Words) -> Optional[BreakRule]:
    """Returns the rule for breaks that is to be kept, if any."""
    if words.breaks:
        drive = read_minutes(words.drive, DRIVE_TO_BREAK, "--drive")
        return BreakRule(drive, read_minutes(words.rest, BREAK, "--rest"))
    for option, given in (("--drive", words.drive), ("--rest", words.rest)):
        if given is not None:
            raise Problem(f"{option} is for breaks: expected is --breaks beside it")
    return None


def read_minutes(text: Optional[str], usual: int, option: str) -> int:
    """Returns the minutes of a number, or of a text such as `4 h 30 min`."""
    if text is None:
        return usual
    plain = re.fullmatch(r"\d{1,4}", text.strip(), re.ASCII)
    minutes = int(plain[0]) if plain else read_span(text)
    if not 1 <= minutes <= DAY:
        raise Problem(
            f"{option} {text!r}: expected are from 1 to {DAY} minutes, such as {usual} or "
            f"{span_text(usual)!r}"
        )
    return minutes


def lorries(folder: Folder) -> list[str]:
    """Returns a line for each lorry that there is."""
    lines = [f"  {ANY}: {ANY_WORDS}"]
    for row in folder.table("vehicles.csv"):
        lines.append(f"  {row['name']}: {lorry_words(row)}")
    return lines


def lorry_words(row: Row) -> str:
    """Returns what a row of vehicles.csv says of a lorry."""
    facts = [row["class"]]
    if row["weight_kg"].isdigit():
        facts.append(f"{int(row['weight_kg']) / 1000:g} t")
    if row["purpose"] == "delivery":
        facts.append("delivers")
    return ", ".join(filter(None, [*facts, *row["flags"].split()]))


def read_vehicle(folder: Folder, name: Optional[str]) -> str:
    if name is None:
        raise Problem("--lorry is missing: expected is one of\n" + "\n".join(lorries(folder)))
    names = [ANY, *(row["name"] for row in folder.table("vehicles.csv"))]
    if name in names:
        return name
    alike = [it for it in names if it.casefold() == name.casefold()]
    if len(alike) == 1:
        return alike[0]
    raise Problem(
        f"--lorry {name!r} is no lorry of {folder.shown_file('vehicles.csv')}: expected is one of\n"
        + "\n".join(lorries(folder))
    )


def read_times(places: Places, origin: Place, goal: Place, words: Words) -> tuple[int, int]:
    """Returns the departure and the last arrival; for the latest departure, the earliest one."""
    if words.by is not None and words.within is not None:
        raise Problem("--by and --within both say when the trip has to end: expected is one")
    horizon = read_days(words.within)
    if words.leave is None:
        if not words.latest:
            raise Problem("--leave is missing: expected is a time such as 2026-07-10 21:45")
        if words.by is None:
            raise Problem("--latest needs the last arrival: expected is --by TIME")
        until = read_time(words.by, places.clocks(goal.node), "--by")
        return until - round(USUAL_DAYS * DAY), until
    depart = read_time(words.leave, places.clocks(origin.node), "--leave")
    until = depart + horizon
    if words.by is not None:
        until = read_time(words.by, places.clocks(goal.node), "--by")
    if until < depart:
        raise Problem(f"--by {words.by!r} is before the departure, {words.leave!r}")
    longest = LONGEST_FOR_LATEST if words.latest else LONGEST_HORIZON
    if until - depart > longest:
        raise Problem(
            f"the trip may take {(until - depart) / DAY:g} days: expected are at most 60"
            + (" (for --latest a minute less)" if words.latest else "")
        )
    return depart, until


def read_days(text: Optional[str]) -> int:
    """Returns the minutes of a number of days."""
    if text is None:
        return round(USUAL_DAYS * DAY)
    if not re.fullmatch(r"\d{1,3}(?:\.\d{1,3})?", text, re.ASCII) or not 0 < float(text) <= 60:
        raise Problem(f"--within {text!r} is no number of days: expected is one from 0.001 to 60")
    return max(1, round(float(text) * DAY))


def read_span(text: str) -> int:
    """Returns the minutes of a text such as `1 h 20 min`."""
    parts = SPAN.fullmatch(text.strip())
    return int(parts[1] or 0) * 60 + int(parts[2] or 0) if parts else 0


def read_stop(places: Places, text: str, depart: int, until: int) -> Stop:
    """Returns a stop. A window without a date is the first that isn't over at the departure."""
    what = f"--stop {text!r}"
    parts = STOP.fullmatch(text.strip())
    if not parts or not parts["place"]:
        raise Problem(f"{what}: {STOP_EXPECTED}")
    place = places.read(parts["place"], f"{what}: the place")
    service = read_span(parts["service"])
    if not 1 <= service <= DAY:
        raise Problem(f"{what}: a service takes from 1 to {DAY} minutes")
    if parts["from"] is None:
        return Stop(place, service, depart, until)
    clocks = places.clocks(place.node)
    hours = (parts["from"], parts["to"])
    if parts["date"]:
        start, end = read_window(clocks, parts["date"], hours, what)
        if end <= depart:
            raise Problem(f"{what}: the window is over before the departure")
        return Stop(place, service, start, end)
    day = local_of(clocks[0], depart).date()
    start, end = read_window(clocks, f"{day:%Y-%m-%d}", hours, what)
    if end <= depart:
        start, end = read_window(clocks, f"{day + ONE_DAY:%Y-%m-%d}", hours, what)
    return Stop(place, service, start, end)


def read_window(
    clocks: list[Clock], date: str, hours: tuple[str, str], what: str
) -> tuple[int, int]:
    """Returns the minutes at which a window of a local day begins and ends."""
    start = read_time(f"{date} {hours[0]}", clocks, f"{what}: the window's")
    end = read_time(f"{date} {hours[1]}", clocks, f"{what}: the window's")
    if end <= start:
        raise Problem(
            f"{what}: the window ends at {hours[1]}, which isn't after {hours[0]}: "
            "expected is a window within a day"
        )
    return start, end
