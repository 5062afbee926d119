"""The answer to a trip as JSON, by the schema trip.schema.json, and as CSV."""
from __future__ import annotations

import csv
import io
import json
from typing import Any, Optional

from lorry_tools.answers import DRIVE, SERVE, WAIT
from lorry_tools.clocks import shown_text
from lorry_tools.instants import cost_text, instant_text
from lorry_tools.places import Place
from lorry_tools.rules import Cause
from lorry_tools.trips.answer import Answer, Option, Part, WaitReason, Why
from lorry_tools.trips.geometry import geojson

Value = dict[str, Any]

CSV_HEADER = (
    "option",
    "part",
    "kind",
    "what",
    "from_node",
    "to_node",
    "start",
    "end",
    "minutes",
    "metres",
    "cost",
    "for",
)


def json_text(answer: Answer) -> str:
    return json.dumps(Forms(answer).value(), ensure_ascii=False, indent=1)


def csv_text(answer: Answer) -> str:
    """Returns a row for each part of each option, and one for its arrival, with the whole cost."""
    out = io.StringIO()
    writer = csv.writer(out, lineterminator="\n")
    writer.writerow(CSV_HEADER)
    for option in answer.options:
        writer.writerows(Forms(answer).rows(option))
    return out.getvalue()


class Forms:
    """Makes values of an answer."""

    def __init__(self, answer: Answer):
        self.answer = answer
        self._times: dict[tuple[int, int], Value] = {}
        self._nodes: dict[int, Value] = {}

    def value(self) -> Value:
        answer, request = self.answer, self.answer.request
        judged = answer.judged
        return {
            "command": "explain" if answer.why else request.command,
            "folder": answer.folder.shown,
            "lorry": request.vehicle,
            "from": self.place(request.origin),
            "to": self.place(request.goal),
            "departure": self.time(request.depart, request.origin.node),
            "until": self.time(request.until, request.goal.node),
            "stops": [
                {
                    "number": number,
                    "place": self.place(stop.place),
                    "service_minutes": stop.service,
                    "window_from": self.time(stop.start, stop.place.node),
                    "window_to": self.time(stop.end, stop.place.node),
                }
                for number, stop in enumerate(request.stops, 1)
            ],
            "breaks": request.rule
            and {"drive_minutes": request.rule.drive, "rest_minutes": request.rule.rest},
            "options": [self.option(it) for it in answer.options],
            "causes": answer.causes,
            "warnings": answer.warnings,
            "certificate": judged
            and {
                "name": judged.name,
                "accepted": judged.accepted,
                "number": judged.number,
                "text": judged.text,
            },
            "why": answer.why and self.why(answer.why),
            "picture": answer.picture,
            "commands": answer.commands,
            "geometry": geojson(answer) if answer.has_geometry else None,
        }

    def time(self, minute: int, node: int) -> Value:
        if (minute, node) not in self._times:
            clock = self.answer.places.clock(node)
            self._times[minute, node] = {
                "local": shown_text(clock, minute),
                "zone": clock.name,
                "utc": instant_text(minute),
            }
        return self._times[minute, node]

    def place(self, place: Place) -> Value:
        return {
            "node": place.node,
            "name": place.name,
            "latitude": place.lat,
            "longitude": place.lon,
            "metres_away": place.away,
        }

    def node(self, node: int) -> Value:
        if node not in self._nodes:
            self._nodes[node] = self.place(self.answer.places.at(node))
        return self._nodes[node]

    def option(self, option: Option) -> Value:
        request = self.answer.request
        return {
            "number": option.number,
            "departure": self.time(option.depart, request.origin.node),
            "arrival": self.time(option.arrival, request.goal.node),
            "cost_thousandths": option.cost,
            "metres": option.metres,
            "driving_minutes": option.minutes_of(DRIVE),
            "waiting_minutes": option.minutes_of(WAIT),
            "service_minutes": option.minutes_of(SERVE),
            "parts": [self.part(it) for it in option.parts],
        }

    def part(self, part: Part) -> Value:
        return {
            "kind": part.kind,
            "from": self.node(part.tail),
            "to": self.node(part.head),
            "start": self.time(part.start, part.tail),
            "end": self.time(part.end, part.head),
            "minutes": part.minutes,
            "street": part.street or None,
            "arcs": part.arcs,
            "metres": part.metres,
            "cost_thousandths": part.price if part.kind == WAIT else None,
            "stop": part.stop or None,
            "for": [self.reason(it, part) for it in part.reasons],
        }

    def reason(self, reason: WaitReason, part: Part) -> Value:
        return {
            "kind": reason.kind,
            "time": self.time(reason.minute, part.tail),
            "until": None if reason.until is None else self.time(reason.until, part.tail),
            "arc": reason.arc or None,
            "street": self.answer.streets.name(reason.arc) if reason.arc else None,
            "place": self.node(reason.node) if reason.node else None,
            "stop": reason.stop or None,
            "rule": cause_value(reason.cause),
        }

    def why(self, why: Why) -> Value:
        goal = self.answer.request.goal.node
        return {
            "verdict": why.verdict,
            "time": self.time(why.minute, why.node or goal),
            "cost_thousandths": why.cost if why.verdict != "unlawful" else None,
            "better": why.better
            and {"arrival": self.time(why.better[0], goal), "cost_thousandths": why.better[1]},
            "reason": why.reason or None,
            "arc": why.arc or None,
            "street": self.answer.streets.name(why.arc) if why.arc else None,
            "place": self.node(why.node) if why.node else None,
            "rule": cause_value(why.cause),
            "parts": [self.part(it) for it in why.parts],
        }

    # Rows.

    def rows(self, option: Option) -> list[list[object]]:
        rows: list[list[object]] = []
        for number, part in enumerate(option.parts, 1):
            rows.append([option.number, number, part.kind, self.what(part), part.tail, part.head])
            rows[-1] += [
                shown_text(self.answer.places.clock(part.tail), part.start),
                shown_text(self.answer.places.clock(part.head), part.end),
                part.minutes,
                "" if part.metres is None else part.metres,
                cost_text(part.price) if part.kind == WAIT else "",
                "; ".join(self.reason_words(it) for it in part.reasons),
            ]
        goal = self.answer.request.goal
        arrival = shown_text(self.answer.places.clock(goal.node), option.arrival)
        rows.append([option.number, len(rows) + 1, "arrive", goal.name, goal.node, goal.node])
        length: object = "" if option.metres is None else option.metres
        minutes = option.arrival - option.depart
        rows[-1] += [arrival, arrival, minutes, length, cost_text(option.cost), ""]
        return rows

    def what(self, part: Part) -> str:
        return part.street if part.kind == DRIVE else self.answer.places.at(part.tail).name

    def reason_words(self, reason: WaitReason) -> str:
        if reason.cause:
            return f"{self.answer.streets.name(reason.arc)} by {reason.cause.words()}"
        return f"{reason.kind} of stop {reason.stop}" if reason.stop else reason.kind


def cause_value(cause: Optional[Cause]) -> Optional[Value]:
    if cause is None:
        return None
    return {
        "file": cause.file,
        "row": cause.row,
        "scope": cause.scope,
        "key": cause.key,
        "clause": cause.clause or None,
        "text": cause.text,
    }
