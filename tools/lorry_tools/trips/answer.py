"""The answer to a trip: its options by their streets, each wait with what it waits for.

Every number is the program's or the folder's, or a sum of these."""
from __future__ import annotations

import dataclasses
from typing import Optional

from lorry_tools.answers import DRIVE, SERVE, WAIT, Leg, Pair
from lorry_tools.folder import Folder
from lorry_tools.instants import cost_of
from lorry_tools.places import Places
from lorry_tools.program import Trip
from lorry_tools.rules import Cause, Streets
from lorry_tools.trips.request import LATEST, Request


@dataclasses.dataclass
class Step:
    """A leg with its times and ends."""

    kind: str
    number: int
    start: int
    end: int
    tail: int
    head: int


@dataclasses.dataclass
class WaitReason:
    """What a wait is for. KIND is `rule` or `closure` for a road ahead that is closed at MINUTE and
    that opens at UNTIL where it is the last one to open; `parking` where a later place to wait
    isn't open yet, `window` for that of a stop, `break` for a driver's break, `price` where waiting
    here costs less than later on, or `unknown`."""

    kind: str
    minute: int
    arc: int = 0
    cause: Optional[Cause] = None
    node: int = 0  # the later place of `parking` and `price`
    stop: int = 0
    until: Optional[int] = None


@dataclasses.dataclass
class Part:
    """Neighbouring drives over one street, a wait, or a service."""

    kind: str
    start: int
    end: int
    tail: int
    head: int
    arcs: list[int] = dataclasses.field(default_factory=list)
    street: str = ""
    metres: Optional[int] = None
    price: int = 0  # of a wait, in thousandths
    stop: int = 0
    reasons: list[WaitReason] = dataclasses.field(default_factory=list)

    @property
    def minutes(self) -> int:
        return self.end - self.start


@dataclasses.dataclass
class Option:
    """An option: a pair of the program with its parts."""

    number: int
    depart: int
    arrival: int
    cost: int
    metres: Optional[int]
    steps: list[Step]
    parts: list[Part]

    def minutes_of(self, kind: str) -> int:
        return sum(it.end - it.start for it in self.steps if it.kind == kind)

    def legs(self) -> list[Leg]:
        return [Leg(it.kind, it.number) for it in self.steps]


@dataclasses.dataclass
class Judged:
    """A certificate that was written and then judged."""

    name: str
    accepted: bool
    number: int
    text: Optional[str] = None  # where it is handed out with the answer


@dataclasses.dataclass
class Why:
    """Why not another way: its parts, and what the program says of them."""

    parts: list[Part]
    verdict: str  # `unlawful`, `dominated` or `undominated`
    minute: int  # the first at which a leg fails, or the arrival
    arc: int = 0
    node: int = 0
    reason: str = ""
    cause: Optional[Cause] = None
    cost: int = 0
    better: Optional[tuple[int, int]] = None


@dataclasses.dataclass
class Answer:
    """All that is said about a trip."""

    request: Request
    folder: Folder
    places: Places
    streets: Streets
    options: list[Option] = dataclasses.field(default_factory=list)
    causes: list[str] = dataclasses.field(default_factory=list)
    warnings: list[str] = dataclasses.field(default_factory=list)
    judged: Optional[Judged] = None
    why: Optional[Why] = None
    commands: list[str] = dataclasses.field(default_factory=list)
    picture: Optional[str] = None
    has_geometry: bool = False  # whether its JSON has lines and points


def trip_of(folder: Folder, request: Request) -> Trip:
    return Trip(
        folder.path,
        request.vehicle,
        request.origin.node,
        request.goal.node,
        request.depart,
        request.until,
    )


def options_of(answer: Answer, pairs: list[Pair]) -> list[Option]:
    """Returns the options of the program's pairs, by their streets."""
    request = answer.request
    found = []
    for number, pair in enumerate(pairs, 1):
        depart = pair.minute if request.command == LATEST else request.depart
        steps = steps_of(answer, pair.legs, depart)
        arrival = steps[-1].end if steps else depart
        parts = parts_of(answer, steps)
        arcs = [it.number for it in steps if it.kind == DRIVE]
        metres = answer.streets.length(arcs)
        found.append(Option(number, depart, arrival, pair.cost, metres, steps, parts))
    return found


def steps_of(answer: Answer, legs: list[Leg], depart: int) -> list[Step]:
    """Follows legs from the departure on."""
    graph, node, minute = answer.folder.graph(), answer.request.origin.node, depart
    steps = []
    for leg in legs:
        head, minutes = node, leg.number
        if leg.kind == DRIVE:
            _, head, minutes = graph.ends(leg.number)
        elif leg.kind == SERVE:
            minutes = answer.request.stops[leg.number - 1].service
        steps.append(Step(leg.kind, leg.number, minute, minute + minutes, node, head))
        node, minute = head, minute + minutes
    return steps


def parts_of(answer: Answer, steps: list[Step]) -> list[Part]:
    """Joins neighbouring drives over one street, and prices waits."""
    weights, streets = answer.folder.weights_of_nodes(), answer.streets
    parts: list[Part] = []
    for step in steps:
        if step.kind == DRIVE:
            street = streets.name(step.number)
            before = parts[-1] if parts and parts[-1].kind == DRIVE else None
            if before and before.street == street:
                before.arcs.append(step.number)
                before.end, before.head = step.end, step.head
            else:
                part = Part(DRIVE, step.start, step.end, step.tail, step.head, [step.number])
                part.street = street
                parts.append(part)
        else:
            part = Part(step.kind, step.start, step.end, step.tail, step.head)
            if step.kind == WAIT:
                part.price = cost_of(weights.get(step.tail, "0")) * part.minutes
            else:
                part.stop = step.number
            parts.append(part)
    for part in parts:
        part.metres = streets.length(part.arcs) if part.arcs else None
    return parts
