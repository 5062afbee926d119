"""The bodies of requests, and how they are read into nodes and minutes.

Their fields have the names of the options of tools/trip."""
from __future__ import annotations

import re
from typing import List, Optional, Sequence, Union

from pydantic import BaseModel, ConstrainedInt, Extra, Field, StrictBool, StrictInt, StrictStr

from lorry_tools.answers import DRIVE, WAIT, Leg
from lorry_tools.clocks import local_of, read_time
from lorry_tools.instants import DAY, LONGEST_HORIZON
from lorry_tools.places import Places
from lorry_tools.problems import Problem
from lorry_tools.trips.answer import Answer
from lorry_tools.trips.request import (
    BREAK,
    DRIVE_TO_BREAK,
    ONE_DAY,
    TOUR,
    Request,
    Stop,
    Words,
    read_request,
    read_vehicle,
    read_window,
)
from lorry_tools.trips.why import check_legs, named_arcs, way_over

MOST_LETTERS = 200
MOST_STOPS = 50
MOST_STREETS = 50
MOST_LEGS = 5_000
MOST_ARCS = 400

CLOCK = re.compile(r"\d\d?:\d\d", re.ASCII)
# (the words of tools/trip, which are fields here)
OPTION = re.compile(r"--(leave|by|within|lorry|zone|why|breaks|drive|rest)\b")
ENDS = re.compile(r"\A(FROM|TO)\b")


class Arc(ConstrainedInt):
    """The number of an arc."""

    strict, ge, le = True, 1, (1 << 32) - 1


class MinutesOfDay(ConstrainedInt):
    """Minutes of a day at most: those of a service, of driving and of a break."""

    strict, ge, le = True, 1, DAY


class WaitMinutes(ConstrainedInt):
    """The minutes of a wait."""

    strict, ge, le = True, 1, LONGEST_HORIZON


class Body(BaseModel):
    """What all bodies share: no other fields than those that are named."""

    class Config:
        extra = Extra.forbid
        allow_population_by_field_name = False


class TripBody(Body):
    """A trip."""

    origin: Union[StrictInt, StrictStr] = Field(
        alias="from",
        description="where the trip begins: a name, coordinates such as `47.0669,9.5034`, or the "
        "number of a node",
        max_length=MOST_LETTERS,
    )
    goal: Union[StrictInt, StrictStr] = Field(
        alias="to", description="where it goes", max_length=MOST_LETTERS
    )
    lorry: StrictStr = Field(description="a name of `vehicles`, or `any`", max_length=MOST_LETTERS)
    leave: Optional[StrictStr] = Field(
        None,
        description="the departure, such as `2026-07-10 21:45`: local to its place, or with `Z` or "
        "an offset such as `+02:00`; for `latest` the earliest one",
        max_length=MOST_LETTERS,
    )
    by: Optional[StrictStr] = Field(None, description="the last arrival", max_length=MOST_LETTERS)
    within: Optional[float] = Field(
        None, description="the days that the trip may take, in place of `by`", gt=0, le=60
    )
    zone: Optional[StrictStr] = Field(
        None,
        description="the zone of all times, such as `Europe/Vaduz` or `UTC`",
        max_length=MOST_LETTERS,
    )
    reasons: StrictBool = Field(
        True, description="whether to tell what waits are for, and why there is no option"
    )
    geometry: StrictBool = Field(False, description="whether to add lines and points")

    def places(self, places: Places) -> Places:
        return places if self.zone is None else places.in_zone(self.zone)

    def words(self) -> Words:
        within = None if self.within is None else f"{self.within:.3f}"
        return Words(str(self.origin), str(self.goal), self.lorry, self.leave, self.by, within)

    def request(self, places: Places) -> Request:
        return read_request(places.folder, places, self.words())

    def asks_for_a_way(self) -> bool:
        return False

    def is_read_at_once(self, places: Places) -> bool:
        """Whether both ends are known by their numbers, or by names that there are; others are
        looked for in a thread."""
        ends = (str(self.origin), str(self.goal))
        return all(it.isdigit() or it.casefold() in places.by_name() for it in ends)


class PlanBody(TripBody):
    """A trip that is planned, with a certificate if wanted."""

    certificate: StrictBool = Field(
        False, description="whether to write a certificate, and to have it judged"
    )


class LatestBody(TripBody):
    """A trip of which the latest departure is asked for; `by` is needed."""

    def words(self) -> Words:
        words = super().words()
        words.latest = True
        return words


class RuleBody(TripBody):
    """A trip that may have to keep a rule for breaks."""

    drive: Optional[MinutesOfDay] = Field(
        None,
        description=f"the most minutes of driving since the last break; usual {DRIVE_TO_BREAK}",
    )
    rest: Optional[MinutesOfDay] = Field(
        None, description=f"the least minutes of a break; usual {BREAK}"
    )

    def words(self) -> Words:
        words = super().words()
        words.breaks = self.keeps_rule()
        words.drive = None if self.drive is None else str(self.drive)
        words.rest = None if self.rest is None else str(self.rest)
        return words

    def keeps_rule(self) -> bool:
        return True


class BreaksBody(RuleBody):
    """A trip with breaks, usually of 45 minutes after 4.5 hours of driving."""


class StopBody(Body):
    """A stop of a tour."""

    place: Union[StrictInt, StrictStr] = Field(
        description="a name, coordinates, or the number of a node", max_length=MOST_LETTERS
    )
    minutes: MinutesOfDay = Field(description="the minutes of service")
    window_from: Optional[StrictStr] = Field(
        None,
        description="when the window of the service begins: a time, or an hour such as `08:00`, "
        "which is that of the first window that isn't over at the departure",
        max_length=MOST_LETTERS,
    )
    window_to: Optional[StrictStr] = Field(
        None, description="when the window ends", max_length=MOST_LETTERS
    )

    def stop(self, places: Places, number: int, depart: int, until: int) -> Stop:
        what = f"stop {number}"
        place = places.read(str(self.place), f"{what}: the place")
        if (self.window_from is None) != (self.window_to is None):
            raise Problem(f"{what}: a window has both `window_from` and `window_to`, or neither")
        if self.window_from is None or self.window_to is None:
            return Stop(place, self.minutes, depart, until)
        start, end = self.window(places, place.node, (self.window_from, self.window_to), depart)
        if end <= start:
            raise Problem(f"{what}: the window ends at {self.window_to}, before it begins")
        if end <= depart:
            raise Problem(f"{what}: the window is over before the departure")
        return Stop(place, self.minutes, start, end)

    def window(
        self, places: Places, node: int, ends: tuple[str, str], depart: int
    ) -> tuple[int, int]:
        what, clocks = f"stop {self.place!r}", places.clocks(node)
        hours = [CLOCK.fullmatch(it.strip()) is not None for it in ends]
        if all(hours):
            day = local_of(clocks[0], depart).date()
            start, end = read_window(clocks, f"{day:%Y-%m-%d}", ends, what)
            if end <= depart:
                start, end = read_window(clocks, f"{day + ONE_DAY:%Y-%m-%d}", ends, what)
            return start, end
        if any(hours):
            raise Problem(f"{what}: of a window both ends have a date, or neither")
        start = read_time(ends[0], clocks, f"{what}: window_from")
        return start, read_time(ends[1], clocks, f"{what}: window_to")


class TourBody(RuleBody):
    """A trip that serves stops in their order, with breaks if wanted."""

    stops: List[StopBody] = Field(
        description="the stops, in their order", min_items=1, max_items=MOST_STOPS
    )
    breaks: StrictBool = Field(False, description="whether a rule for breaks is kept")

    def keeps_rule(self) -> bool:
        return self.breaks

    def request(self, places: Places) -> Request:
        request = super().request(places)
        times = request.depart, request.until
        stops = [it.stop(places, number, *times) for number, it in enumerate(self.stops, 1)]
        request.command, request.stops = TOUR, stops
        return request


class LegBody(Body):
    """A drive over an arc, or a wait."""

    kind: StrictStr = Field(description="`drive` or `wait`", regex=f"^({DRIVE}|{WAIT})$")
    arc: Optional[Arc] = Field(None, description="of a drive")
    minutes: Optional[WaitMinutes] = Field(None, description="of a wait")

    def leg(self, number: int) -> Leg:
        named, other = (self.arc, self.minutes) if self.kind == DRIVE else (self.minutes, self.arc)
        if named is None or other is not None:
            raise Problem(f"leg {number}: a drive has an arc, and a wait minutes")
        return Leg(self.kind, named)


class ExplainBody(TripBody):
    """Another way, of which the program says why it isn't lawful, or which option is better."""

    over: Optional[List[Union[Arc, StrictStr, List[Arc]]]] = Field(
        None,
        description="streets by their names, arcs, or lists of arcs of which one is driven, in "
        "their order; between them the quickest roads are taken",
        min_items=1,
        max_items=MOST_STREETS,
    )
    legs: Optional[List[LegBody]] = Field(
        None, description="all legs of the way", min_items=1, max_items=MOST_LEGS
    )

    def asks_for_a_way(self) -> bool:
        return True

    def way(self, answer: Answer) -> List[Leg]:
        if (self.over is None) == (self.legs is None):
            raise Problem("a way has either `over` or `legs`")
        if self.legs is not None:
            legs = [it.leg(number) for number, it in enumerate(self.legs, 1)]
            check_legs(answer, legs, "leg")
            return legs
        return way_over(answer, [arcs_of(answer, it) for it in self.over or []], "over")


def arcs_of(answer: Answer, word: Union[int, str, Sequence[int]]) -> set[int]:
    """Returns the arcs of a street, or those that are named."""
    if isinstance(word, str):
        if len(word) > MOST_LETTERS:
            raise Problem(f"over: a street has more than {MOST_LETTERS} letters")
        return named_arcs(answer, word, "over")
    arcs = {word} if isinstance(word, int) else set(word)
    most = len(answer.folder.graph())
    if not arcs or not all(1 <= it <= most for it in arcs):
        raise Problem(f"over: expected is an arc of graph.gr, from 1 to {most}")
    return arcs


class BansBody(Body):
    """Roads of which is asked when they are closed."""

    lorry: StrictStr = Field(description="a name of `vehicles`, or `any`", max_length=MOST_LETTERS)
    arcs: List[Arc] = Field(description="the roads", min_items=1, max_items=MOST_ARCS)
    start: StrictStr = Field(
        alias="from",
        description="from when on; local to the roads, each of which may have another zone, or "
        "with `Z` or an offset",
        max_length=MOST_LETTERS,
    )
    until: StrictStr = Field(
        description="until when, at most 60 days later", max_length=MOST_LETTERS
    )
    zone: Optional[StrictStr] = Field(
        None, description="the zone of all times", max_length=MOST_LETTERS
    )

    def read(self, places: Places) -> tuple[str, int, int]:
        """Returns the lorry and the times, local to where the first road begins."""
        graph = places.folder.graph()
        for arc in self.arcs:
            if not 1 <= arc <= len(graph):
                raise Problem(
                    f"arcs: graph.gr has no arc {arc}: expected is one up to {len(graph)}"
                )
        clocks = places.clocks(graph.ends(self.arcs[0])[0])
        start = read_time(self.start, clocks, "from")
        until = read_time(self.until, clocks, "until")
        if until < start:
            raise Problem("`until` is before `from`")
        if until - start > LONGEST_HORIZON:
            raise Problem("`until` is more than 60 days after `from`")
        return read_vehicle(places.folder, self.lorry), start, until


def in_fields(text: str) -> str:
    """Returns what is said of the options of tools/trip with the names of fields."""
    text = ENDS.sub(lambda it: it[1].lower(), text)
    return OPTION.sub(lambda it: it[1], text)
