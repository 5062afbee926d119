"""The answers to questions, over a copy of a folder."""
from __future__ import annotations

import dataclasses
import os
from typing import Any, Callable, Union

from lorry_tools.answers import Pair, RefusedTrip
from lorry_tools.clocks import Clock, shown_text
from lorry_tools.drawn_plan import Asked
from lorry_tools.drawn_plan import Trip as DrawnTrip
from lorry_tools.folder import closure_groups
from lorry_tools.instants import instant_text
from lorry_tools.look import svg_file
from lorry_tools.places import Place
from lorry_tools.problems import Problem
from lorry_tools.program import Refused
from lorry_tools.service.bodies import BansBody, ExplainBody, PlanBody, TripBody
from lorry_tools.service.copies import Copy, Served
from lorry_tools.service.guards import json_bytes
from lorry_tools.service.limits import Unavailable
from lorry_tools.service.runs import LimitedProgram
from lorry_tools.trips import forms
from lorry_tools.trips.answer import Answer, Judged, trip_of
from lorry_tools.trips.ask import pairs_of, take_pairs, take_reasons
from lorry_tools.trips.geometry import geojson, gpx_text
from lorry_tools.trips.picture import MOST_BANS, check_picture, pair_of
from lorry_tools.trips.request import ANY, ANY_WORDS, Request, lorry_words
from lorry_tools.trips.why import explained

CERTIFICATE = "trip.cert"
BAD_REQUEST = 7
SIZES = ("weight_kg", "axleload_kg", "height_cm", "width_cm", "length_cm", "axles")
MOST_NORTH = 89  # degrees, on a map

Value = dict[str, Any]
Writer = Callable[[Answer, LimitedProgram], bytes]


# Trips.


def empty_answer(copy: Copy, body: TripBody, request: Request) -> Answer:
    answer = Answer(request, copy.folder, body.places(copy.places), copy.streets)
    answer.has_geometry = body.geometry
    return answer


def answer_of_pairs(
    copy: Copy,
    body: TripBody,
    request: Request,
    found: Union[list[Pair], RefusedTrip],
    program: LimitedProgram,
) -> Answer:
    """Returns the answer to a plan whose pairs are known from a batch; its command is that of a
    plan, which has the same."""
    answer = empty_answer(copy, body, request)
    if isinstance(found, RefusedTrip):
        raise Refused("plan", f"refused request {found.cause}", BAD_REQUEST)
    program.note_run(["plan", *trip_of(copy.folder, request).words()])
    take_pairs(answer, found)
    if body.reasons:
        take_reasons(answer, program)
    answer.commands = program.lines
    return answer


def answer_of_run(copy: Copy, body: TripBody, request: Request, program: LimitedProgram) -> Answer:
    """Returns the answer to a trip by runs of its own."""
    answer = empty_answer(copy, body, request)
    if isinstance(body, ExplainBody):
        answer.why = explained(answer, program, body.way(answer))
    elif isinstance(body, PlanBody) and body.certificate:
        certify(answer, program)
    else:
        take_pairs(answer, pairs_of(answer, program, None))
    if body.reasons and answer.why is None:
        take_reasons(answer, program)
    answer.commands = program.lines
    return answer


def certify(answer: Answer, program: LimitedProgram) -> None:
    """Plans with a certificate, which is judged and handed out."""
    trip = dataclasses.replace(trip_of(answer.folder, answer.request), folder=program.work())
    program.note_work()
    take_pairs(answer, program.plan(trip, CERTIFICATE))
    accepted, number = program.check(trip, CERTIFICATE)
    if not accepted:
        raise Unavailable(f"the certificate was rejected, by condition {number}")
    path = os.path.join(program.work(), CERTIFICATE)
    with open(path, encoding="utf-8", errors="replace") as file:
        answer.judged = Judged(CERTIFICATE, accepted, number, file.read())


def json_of(answer: Answer, _: LimitedProgram) -> bytes:
    return json_bytes(forms.Forms(answer).value())


def csv_of(answer: Answer, _: LimitedProgram) -> bytes:
    return forms.csv_text(answer).encode()


def geojson_of(answer: Answer, _: LimitedProgram) -> bytes:
    return json_bytes(geojson(answer))


def gpx_of(answer: Answer, _: LimitedProgram) -> bytes:
    return gpx_text(answer).encode()


def svg_of(answer: Answer, program: LimitedProgram) -> bytes:
    """Returns the drawing of tools/look."""
    check_picture(answer.request.command)
    pairs = [pair_of(it) for it in answer.options]
    drawn = DrawnTrip("the answer of tools/serve", pairs)
    request = answer.request
    ends = request.origin.node, request.goal.node
    asked = Asked(answer.folder, request.vehicle, *ends, request.depart, request.until)
    drawn.take_trip(asked, pairs)
    drawn.roads = answer.streets.names
    for place in answer.places.known.values():
        if place.name:
            drawn.names[place.node] = place.name
        if place.lat is not None and place.lon is not None and abs(place.lat) < MOST_NORTH:
            drawn.places[place.node] = place.lon, place.lat
    if pairs:
        drawn.take_bans(program, MOST_BANS)
    return svg_file(drawn).encode()


# The forms of an answer, each with its type.
FORMS: dict[str, tuple[str, Writer]] = {
    "json": ("application/json", json_of),
    "csv": ("text/csv", csv_of),
    "geojson": ("application/geo+json", geojson_of),
    "gpx": ("application/gpx+xml", gpx_of),
    "svg": ("image/svg+xml", svg_of),
}


# Bans.


def bans_value(copy: Copy, body: BansBody, program: LimitedProgram) -> Value:
    """Returns when roads are closed; those that are closed alike are asked for once."""
    places = copy.places if body.zone is None else copy.places.in_zone(body.zone)
    lorry, start, until = body.read(places)
    graph, group = copy.folder.graph(), closure_groups(copy.folder)
    first = {group(arc): arc for arc in reversed(body.arcs)}
    path = copy.folder.path
    runs = program.bans_of(path, lorry, dict.fromkeys(first.values()), start, until)
    roads = []
    for arc in dict.fromkeys(body.arcs):
        clock = places.clock(graph.ends(arc)[0])
        closed = runs[first[group(arc)]]
        roads.append(
            {
                "arc": arc,
                "street": copy.streets.names.get(arc),
                "closed": [
                    {"from": time_value(clock, low), "until": time_value(clock, high)}
                    for low, high in closed
                ],
            }
        )
    clock = places.clock(graph.ends(body.arcs[0])[0])
    ends = {"from": time_value(clock, start), "until": time_value(clock, until)}
    return {"lorry": lorry, "roads": roads, **ends}


def time_value(clock: Clock, minute: int) -> Value:
    return {
        "local": shown_text(clock, minute),
        "zone": clock.name,
        "utc": instant_text(minute),
    }


# What a folder has.


def folder_value(served: Served, copy: Copy) -> Value:
    graph, bounds = copy.folder.graph(), copy.roads.bounds
    return {
        "name": served.name,
        "version": copy.version,
        "loaded": f"{copy.loaded:%Y-%m-%dT%H:%M:%SZ}",
        "nodes": graph.nodes,
        "arcs": len(graph),
        "named_places": sum(len(it) for it in copy.places.by_name().values()),
        "has_coordinates": bounds is not None,
        "has_streets": bool(copy.streets.names),
        "bounds": None if bounds is None else list(bounds),
        "zones": copy.zones,
        "credit": graph.credit() or None,
        "trouble": served.trouble,
    }


def vehicles_value(copy: Copy) -> Value:
    nothing: Value = {"class": None, **dict.fromkeys(SIZES), "purpose": None, "flags": []}
    found: list[Value] = [{"name": ANY, "words": ANY_WORDS, **nothing}]
    for row in copy.folder.table("vehicles.csv"):
        sizes = {it: int(row[it]) if row[it].isdigit() else None for it in SIZES}
        found.append(
            {
                "name": row["name"],
                "words": lorry_words(row),
                "class": row["class"],
                **sizes,
                "purpose": row["purpose"],
                "flags": row["flags"].split(),
            }
        )
    return {"vehicles": found}


def place_value(place: Place) -> Value:
    return {
        "node": place.node,
        "name": place.name,
        "town": place.town,
        "latitude": place.lat,
        "longitude": place.lon,
        "metres_away": place.away,
    }


def places_value(copy: Copy, name: str, most: int) -> Value:
    """Returns the places whose name begins so, then those that contain it, then those of names that
    are like it."""
    small, by_name = " ".join(name.split()).casefold(), copy.places.by_name()
    begins = sorted((it for it in by_name if it.startswith(small)), key=lambda it: (len(it), it))
    others = [it.casefold() for it in copy.places.close_to(small, most)] if small else []
    found: list[Place] = []
    for word in dict.fromkeys([*begins[:most], *others]):
        found += by_name[word]
    return {"places": [place_value(it) for it in found[:most]]}


def nearest_value(copy: Copy, latitude: float, longitude: float) -> Value:
    place = copy.places.nearest_to(latitude, longitude)
    if place is None:
        raise Problem(f"{copy.folder.shown} has no coordinates")
    return place_value(place)


def streets_value(copy: Copy, name: str, most: int) -> Value:
    small = " ".join(name.split()).casefold()
    names = dict.fromkeys(copy.streets.names.values())
    found = [it for it in names if small in it.casefold()]
    found.sort(key=lambda it: (not it.casefold().startswith(small), len(it), it))
    return {"streets": found[:most]}
