"""Asks the program about a trip, and makes the answer."""
from __future__ import annotations

import re
from typing import Optional

from lorry_tools.answers import Pair
from lorry_tools.clocks import local_text
from lorry_tools.folder import Folder
from lorry_tools.instants import instant_text, minute_of
from lorry_tools.places import Places
from lorry_tools.problems import Problem
from lorry_tools.program import BreakRule, Trip
from lorry_tools.rules import Streets
from lorry_tools.trips.answer import Answer, Judged, options_of, trip_of
from lorry_tools.trips.reasons import Reasons
from lorry_tools.trips.request import (
    BREAKS,
    LATEST,
    PLAN,
    TOUR,
    Request,
    Stop,
)
from lorry_tools.trips.shown import NotedProgram
from lorry_tools.trips.warnings import warnings_of
from lorry_tools.trips.why import explained, read_way
from lorry_tools.why_empty import Case

STOPS = "stops.csv"
STOPS_HEADER = "node,service,from,to"
CERTIFICATE = re.compile(r"[A-Za-z0-9_.][A-Za-z0-9_.-]{0,58}\.cert", re.ASCII)


def answer_to(
    folder: Folder,
    places: Places,
    request: Request,
    program: NotedProgram,
    certificate: Optional[str] = None,
    why: Optional[str] = None,
) -> Answer:
    """Returns the answer to a request, or why not another way."""
    check_options(request, certificate, why)
    answer = Answer(request, folder, places, Streets(folder))
    if why is not None:
        answer.why = explained(answer, program, read_way(answer, why))
    else:
        take_pairs(answer, pairs_of(answer, program, certificate))
        take_reasons(answer, program)
        if certificate is not None:
            accepted, number = program.check(trip_of(folder, request), certificate)
            answer.judged = Judged(certificate, accepted, number)
    answer.commands = program.lines
    return answer


def take_pairs(answer: Answer, pairs: list[Pair]) -> None:
    """Adds the options of the program's pairs, and warnings."""
    answer.options = options_of(answer, pairs)
    answer.warnings = warnings_of(answer.options, answer.request.rule is not None)


def take_reasons(answer: Answer, program: NotedProgram) -> None:
    """Adds what the waits of the options are for, or why there is no option."""
    reasons = Reasons(answer, program)
    for option in answer.options:
        reasons.take(option)
    if not answer.options:
        answer.causes = causes_of(answer, program)


def check_options(request: Request, certificate: Optional[str], why: Optional[str]) -> None:
    for option, given in (("--certificate", certificate), ("--why", why)):
        if given is not None and request.command != PLAN:
            raise Problem(
                f"{option} is for a plain trip: expected is none of --latest, --stop and --breaks "
                "beside it"
            )
    if certificate is not None and why is not None:
        raise Problem("--certificate and --why can't be asked for together")
    if certificate is not None and not CERTIFICATE.fullmatch(certificate):
        raise Problem(
            f"--certificate {certificate!r}: expected is a name that ends in .cert, of letters, "
            "digits, `_`, `-` and `.`; the file is then in the folder"
        )


def pairs_of(answer: Answer, program: NotedProgram, certificate: Optional[str]) -> list[Pair]:
    request, trip = answer.request, trip_of(answer.folder, answer.request)
    if request.command == LATEST:
        return program.latest(trip)
    if request.command == TOUR:
        return tour_of(answer, program, request.stops, trip.goal, request.rule)
    if request.rule:
        return program.breaks(trip, request.rule)
    return program.plan(trip, certificate)


def tour_of(
    answer: Answer,
    program: NotedProgram,
    stops: list[Stop],
    goal: int,
    rule: Optional[BreakRule] = None,
) -> list[Pair]:
    """Returns the pairs of a tour over some stops to a node."""
    rows = [
        f"{stop.place.node},{stop.service},{instant_text(stop.start)},{instant_text(stop.end)}"
        for stop in stops
    ]
    name = program.write(STOPS, "\n".join([STOPS_HEADER, *rows, ""]))
    request = answer.request
    trip = Trip(
        program.work(), request.vehicle, request.origin.node, goal, request.depart, request.until
    )
    return program.tour(trip, name, rule)


# Why there is no option.


def causes_of(answer: Answer, program: NotedProgram) -> list[str]:
    """Returns why a trip has no option, as far as it is found."""
    request = answer.request
    trip = trip_of(answer.folder, request)
    if request.rule and without_breaks(answer, program):
        return ["with-breaks: there is a trip without breaks, and none that keeps the breaks"]
    if request.command == TOUR:
        return tour_causes(answer, program)
    program.note(" ".join(["tools/why_empty", *trip.words()]))
    lines = Case(program.unnoted(), answer.folder, trip).causes()
    return [in_words(answer, line) for line in lines]


def without_breaks(answer: Answer, program: NotedProgram) -> list[Pair]:
    """Returns the pairs of a trip or a tour without its rule for breaks."""
    request = answer.request
    if request.command == BREAKS:
        return program.plan(trip_of(answer.folder, request))
    return tour_of(answer, program, request.stops, request.goal.node)


def in_words(answer: Answer, line: str) -> str:
    """Returns a line of why_empty with local times, and with the names of roads and places."""
    request, places = answer.request, answer.places
    clock = places.clock(request.origin.node)
    offset = clock.offset(request.depart)

    def time(found: re.Match[str]) -> str:
        minute = minute_of(found[0])
        return found[0] if minute is None else local_text(clock, minute, offset)

    def road(found: re.Match[str]) -> str:
        name = answer.streets.names.get(int(found[1]))
        return f"{name} ({found[0]})" if name else found[0]

    def place(found: re.Match[str]) -> str:
        name = places.at(int(found[1])).name
        return f"{name} ({found[0]})" if name else found[0]

    line = re.sub(r"\d{4}-\d\d-\d\dT\d\d:\d\dZ", time, line)
    line = re.sub(r"\barc (\d+)", road, line)
    line = re.sub(r"\bnode (\d+)", place, line)
    return line.replace("UNTIL", "the last arrival")


def tour_causes(answer: Answer, program: NotedProgram) -> list[str]:
    """Finds the first stop that can't be served after those before it, by shorter tours."""
    request, stops = answer.request, answer.request.stops
    for number, stop in enumerate(stops, 1):
        if tour_of(answer, program, stops[:number], stop.place.node):
            continue
        clock = answer.places.clock(stop.place.node)
        where = f"stop {number}, {stop.place.words()},"
        words = f"stop-out-of-time: {where} can't be served in its window"
        free = Stop(stop.place, stop.service, request.depart, request.until)
        later = tour_of(answer, program, [*stops[: number - 1], free], stop.place.node)
        if not later:
            return [f"{words}, nor at any other time of the trip, after the stops before it"]
        served = local_text(clock, later[0].minute - stop.service)
        return [f"{words}; without a window it is served from {served} on at the earliest"]
    return ["the-way-back: all stops can be served, but then there is no way to the goal in time"]
