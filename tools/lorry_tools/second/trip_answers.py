"""What the program has to answer to the words of a trip over a folder, by the definitions of
docs/MODEL.md, minute by minute.

tools/random_trips uses it. There is no search here and no pruning: the least cost of each place at
each minute is carried forward by each lawful step, and printed legs are followed step by step. It
shares nothing with the program."""
from __future__ import annotations

import dataclasses
import heapq
import os
import re
from typing import (
    Callable,
    Collection,
    Hashable,
    Iterable,
    Iterator,
    Mapping,
    Optional,
    Sequence,
    TypeVar,
)

from lorry_tools.second import trip_network
from lorry_tools.second.trip_network import (
    COST_OF_MINUTE,
    FOR_DELIVERY,
    FREE,
    BadInput,
    Network,
    Place,
    Ruling,
    Vehicle,
    instant_of,
    is_name,
    number_of,
)

State = TypeVar("State", bound=Hashable)
# An arrival, or a departure of `latest`, and a cost in thousandths.
Pair = tuple[int, int]
# A kind and a value.
Leg = tuple[str, int]
Legs = list[Leg]
Route = tuple[Pair, Legs]
# A node, the minutes of service, and the window.
Stop = tuple[int, int, int, int]
Stops = Sequence[Stop]
# A node and how many stops were served.
Served = tuple[int, int]
TourCosts = dict[int, dict[Served, int]]
# A node, the minutes driven since the last break, the neighbouring waits so far, and the number of
# stops served.
Driven = tuple[int, int, int, int]
PlainSteps = Callable[[int, int], list[tuple[int, int, int]]]
# From a state and a minute: each step, and the state, the minute and the cost that it leads to.
RestedSteps = Callable[[Driven, int], Iterable[tuple[Leg, Driven, int, int]]]
RestedCosts = dict[int, dict[Driven, int]]

COMMANDS = ["plan", "latest", "tour", "breaks", "explain"]

# Of two tours that differ in a step, the one whose step is of the earlier kind comes first.
STEP_ORDER = ["wait", "drive", "serve"]

DONE, USAGE, BAD_INPUT, READ_FAULT, BAD_REQUEST = 0, 2, 3, 4, 7

MOST_MINUTES = 86_400
MOST_STATES = 40_000_000
MOST_STOPS = 50
MOST_ITINERARY_BYTES = 16_777_216

# The options of a command, with the values that they have where one of them is given.
RULE = {"--drive": 270, "--rest": 45}
OPTIONS: dict[str, dict[str, int]] = {"tour": RULE, "breaks": RULE}
FILE_LABELS = {"tour": "stops", "explain": "itinerary"}


@dataclasses.dataclass
class Request:
    """The words of a trip; `file` is the last word of a tour, and of a trip that is explained. Both
    numbers of the break rule are 0 where the trip keeps none."""

    command: str
    folder: str
    vehicle: str
    origin: int
    goal: int
    depart: int
    until: int
    file: str
    drive: int
    rest: int


@dataclasses.dataclass
class Due:
    """The status and the bytes that are due; where there is a front, its pairs in place of the
    bytes, and the test of a route's legs."""

    status: int
    text: Optional[bytes] = None
    pairs: Optional[list[Pair]] = None
    wrong_legs: Callable[[Pair, Legs], Optional[str]] = lambda pair, legs: None


class Unlawful(Exception):
    """The first unlawful step: its leg from 1, a minute and the reason."""


# ---- Words ----


def request_of(words: list[str]) -> Optional[Request]:
    """The request that words are; None where they aren't one of a command of COMMANDS."""
    if not words or words[0] not in COMMANDS:
        return None
    command = words[0]
    split = split_words(words[1:], OPTIONS.get(command, {}))
    if split is None:
        return None
    positional, options = split
    if len(positional) != (7 if command in FILE_LABELS else 6):
        return None
    folder, vehicle, origin, goal, depart, until = positional[:6]
    file = positional[6] if command in FILE_LABELS else "any"
    given = {name: option_of(value) for name, value in options.items()}
    numbers = [node_of(origin), node_of(goal), instant_of(depart), instant_of(until)]
    known = [it for it in numbers if it is not None]
    usual = OPTIONS.get(command, {}) if command == "breaks" or options else {}
    values = {**usual, **{k: it for k, it in given.items() if it is not None}}
    forms = 1 <= len(os.fsencode(folder)) <= 4_096 and is_name(vehicle) and is_name(file)
    if not forms or len(known) < len(numbers) or None in given.values():
        return None
    start, end, first, last = known
    drive, rest = values.get("--drive", 0), values.get("--rest", 0)
    return Request(command, folder, vehicle, start, end, first, last, file, drive, rest)


def split_words(
    words: list[str], known: Collection[str]
) -> Optional[tuple[list[str], dict[str, str]]]:
    """The positional words and the options, or None where a word with a dash is none of them."""
    positional: list[str] = []
    options: dict[str, str] = {}
    left = list(words)
    while left:
        word = left.pop(0)
        if not word.startswith("-"):
            positional.append(word)
            continue
        name, equals, value = word.partition("=")
        if not equals:
            value = left.pop(0) if left else "-"
        if name not in known or name in options or value.startswith("-"):
            return None
        options[name] = value
    return positional, options


def node_of(word: str) -> Optional[int]:
    return number_of(word) if re.fullmatch("0|[1-9][0-9]*", word) else None


def option_of(word: str) -> Optional[int]:
    return int(word) if re.fullmatch("[1-9][0-9]{0,3}", word) and int(word) <= 1_440 else None


# ---- Files of a request ----


def read_own_file(request: Request) -> str:
    """The bytes of the request's own file as characters of the same numbers."""
    label = FILE_LABELS[request.command]
    try:
        with open(os.path.join(request.folder, request.file), "rb") as file:
            data = file.read().decode("latin-1")
    except FileNotFoundError:
        raise BadInput(label, 0, "Missing") from None
    if request.command == "explain" and len(data) > MOST_ITINERARY_BYTES:
        raise BadInput(label, 0, "TooLong")
    return data


def stops_of(text: str, nodes: int) -> list[Stop]:
    """The stops as (node, service, from, to). Raises BadInput for the first fault."""
    stops = []
    for number, record in trip_network.records_of(text):
        if number == 1:
            if record != ["node", "service", "from", "to"]:
                raise BadInput("stops", 1, "BadHeader")
            continue
        if len(record) != 4:
            raise BadInput("stops", number, "FieldCount")
        if number > MOST_STOPS + 1:
            raise BadInput("stops", number, "SizeLimit")
        node, service, begin, end = (
            number_of(record[0]),
            number_of(record[1]),
            instant_of(record[2]),
            instant_of(record[3]),
        )
        if (
            node is None
            or service is None
            or not 1 <= service <= 1_440
            or begin is None
            or end is None
        ):
            raise BadInput("stops", number, "BadField")
        if not 1 <= node <= nodes:
            raise BadInput("stops", number, "Unknown")
        if end <= begin:
            raise BadInput("stops", number, "NotRising")
        stops.append((node, service, begin, end))
    return stops


def legs_of(text: str) -> Legs:
    """The legs of an itinerary. Raises BadInput for the first line that is none."""
    legs = []
    for number, line in enumerate(trip_network.lines_of(text), 1):
        form = re.fullmatch("(drive|wait) ([1-9][0-9]{0,9})", line)
        if not form or int(form[2]) > (4_294_967_295 if form[1] == "drive" else 86_400):
            raise BadInput("itinerary", number, "BadForm")
        legs.append((form[1], int(form[2])))
    return legs


# ---- Lawful steps ----


class Roads:
    """Where a vehicle may drive and wait, and what it costs."""

    def __init__(self, network: Network, vehicle: Vehicle) -> None:
        self.network = network
        self.vehicle = vehicle
        self.closed: dict[tuple[int, int], bool] = {}
        self.entered: dict[tuple[int, int], bool] = {}
        self.parked: dict[tuple[int, int], bool] = {}
        self.arcs_at: dict[int, list[int]] = {}
        self.places: dict[int, list[Place]] = {}
        for arc, (tail, *_) in enumerate(network.arcs, 1):
            self.arcs_at.setdefault(tail, []).append(arc)
            self.places[arc] = network.places(arc, vehicle)

    def closing_rule(self, arc: int, minute: int) -> Optional[Ruling]:
        """The ruling by which an arc doesn't let the vehicle in; None where it is let in."""
        ruling = self.network.ruling(arc, self.vehicle, self.places[arc], minute)
        if (
            ruling is None
            or ruling.access == FREE
            or (ruling.access == FOR_DELIVERY and self.vehicle.purpose == "delivery")
        ):
            return None
        return ruling

    def is_closed(self, arc: int, minute: int) -> bool:
        if (arc, minute) not in self.closed:
            closed = (
                self.closing_rule(arc, minute) is not None
                or self.network.closure_at(arc, minute) is not None
            )
            self.closed[arc, minute] = closed
        return self.closed[arc, minute]

    def is_open_from(self, arc: int, minute: int) -> bool:
        """Whether an arc is closed at none of the minutes that a drive from this minute takes."""
        if (arc, minute) not in self.entered:
            self.entered[arc, minute] = not any(
                self.is_closed(arc, minute + part) for part in range(self.minutes(arc))
            )
        return self.entered[arc, minute]

    def head(self, arc: int) -> int:
        return self.network.arcs[arc - 1][1]

    def minutes(self, arc: int) -> int:
        return self.network.arcs[arc - 1][2]

    def cost(self, arc: int) -> int:
        return self.minutes(arc) * COST_OF_MINUTE + self.network.tolls.get(arc, 0)

    def weight(self, node: int) -> Optional[int]:
        """What a minute's wait at a node costs; None where it isn't rated."""
        return self.network.parks[node].weight if node in self.network.parks else None

    def price(self, node: int) -> int:
        """The same of a node that is rated."""
        return self.network.parks[node].weight

    def is_park_open(self, node: int, minute: int) -> bool:
        if (node, minute) not in self.parked:
            self.parked[node, minute] = self.network.is_park_open(node, minute)
        return self.parked[node, minute]

    def may_wait(self, node: int, minute: int, until: int) -> bool:
        return (
            self.weight(node) is not None
            and minute + 1 <= until
            and self.is_park_open(node, minute)
        )

    def drives(self, node: int, minute: int, until: int) -> Iterator[int]:
        """The arcs that a lawful drive may take."""
        for arc in self.arcs_at.get(node, []):
            if minute + self.minutes(arc) <= until and self.is_open_from(arc, minute):
                yield arc


def least_costs(
    start: State, depart: int, steps: Callable[[State, int], Iterable[tuple[State, int, int]]]
) -> dict[int, dict[State, int]]:
    """The least cost of each state at each minute that is reached, over all runs of lawful steps
    from the start.

    `steps(state, minute)` gives the next states, the minutes to them, of which there is at least
    one, and the costs."""
    costs: dict[int, dict[State, int]] = {depart: {start: 0}}
    ahead = [depart]
    while ahead:
        minute = heapq.heappop(ahead)
        for state, cost in costs[minute].items():
            for after, minutes, price in steps(state, minute):
                if minute + minutes not in costs:
                    costs[minute + minutes] = {}
                    heapq.heappush(ahead, minute + minutes)
                later = costs[minute + minutes]
                if after not in later or later[after] > cost + price:
                    later[after] = cost + price
    return costs


def front_of(achieved: Iterable[Pair]) -> list[Pair]:
    """The achieved pairs that none dominates: of each arrival, by rising ones, the least cost,
    where it is below those before it."""
    front: list[Pair] = []
    for arrival, cost in sorted(achieved):
        if not front or cost < front[-1][1]:
            front.append((arrival, cost))
    return front


def dominates(pair: Pair, other: Pair) -> bool:
    return pair != other and pair[0] <= other[0] and pair[1] <= other[1]


def plain_steps(roads: Roads, until: int) -> PlainSteps:
    """The lawful steps from a node at a minute: the next nodes, the minutes to them and the
    costs."""
    known: dict[tuple[int, int], list[tuple[int, int, int]]] = {}

    def steps(node: int, minute: int) -> list[tuple[int, int, int]]:
        if (node, minute) not in known:
            may_wait = roads.may_wait(node, minute, until)
            waits = [(node, 1, roads.price(node))] if may_wait else []
            drives = [
                (roads.head(arc), roads.minutes(arc), roads.cost(arc))
                for arc in roads.drives(node, minute, until)
            ]
            known[node, minute] = waits + drives
        return known[node, minute]

    return steps


def tour_costs(roads: Roads, request: Request, stops: Stops = ()) -> TourCosts:
    """The least costs of all tours; a state is a node and the number of stops served, and a trip is
    a tour without stops."""
    plain = plain_steps(roads, request.until)

    def steps(state: Served, minute: int) -> Iterator[tuple[Served, int, int]]:
        node, served = state
        for after, minutes, cost in plain(node, minute):
            yield (after, served), minutes, cost
        if served < len(stops) and may_serve(stops[served], node, minute, request.until):
            yield (node, served + 1), stops[served][1], 0

    return least_costs((request.origin, 0), request.depart, steps)


def tour_front(request: Request, costs: TourCosts, stops: Stops = ()) -> list[Pair]:
    end = (request.goal, len(stops))
    return front_of([(minute, at[end]) for minute, at in costs.items() if end in at])


def last_step(
    roads: Roads, until: int, costs: TourCosts, state: Served, minute: int, stops: Stops
) -> tuple[str, int, Served, int]:
    """The last step of the first itinerary to a state and minute at the least cost: a wait if one
    has it, else the drive over the smallest arc, else a service. It is given with the state and the
    minute before it."""
    node, served = state
    cost = costs[minute][state]
    before = costs.get(minute - 1, {}).get(state)
    if (
        before is not None
        and roads.may_wait(node, minute - 1, until)
        and before + roads.price(node) == cost
    ):
        return "wait", 1, state, minute - 1
    for arc, (tail, head, minutes, *_) in enumerate(roads.network.arcs, 1):
        before = costs.get(minute - minutes, {}).get((tail, served))
        if (
            head == node
            and before is not None
            and before + roads.cost(arc) == cost
            and roads.is_open_from(arc, minute - minutes)
        ):
            return "drive", arc, (tail, served), minute - minutes
    if served:
        begun = minute - stops[served - 1][1]
        if costs.get(begun, {}).get((node, served - 1)) == cost and may_serve(
            stops[served - 1], node, begun, until
        ):
            return "serve", served, (node, served - 1), begun
    raise AssertionError(f"no step leads to node {node} at {minute}")


def legs_of_steps(steps: Iterable[tuple[str, int]]) -> Legs:
    """The legs of steps: neighbouring waits are one leg."""
    legs: Legs = []
    for kind, value in steps:
        if legs and kind == legs[-1][0] == "wait":
            value += legs.pop()[1]
        legs.append((kind, value))
    return legs


def first_legs(
    roads: Roads, request: Request, costs: TourCosts, arrival: int, stops: Stops = ()
) -> Legs:
    """The legs of the first itinerary of the pair of the front that arrives then, from the end
    backwards."""
    steps, state, minute = [], (request.goal, len(stops)), arrival
    while (state, minute) != ((request.origin, 0), request.depart):
        kind, value, state, minute = last_step(roads, request.until, costs, state, minute, stops)
        steps.append((kind, value))
    return legs_of_steps(steps[::-1])


def late_costs(roads: Roads, request: Request) -> dict[int, dict[int, int]]:
    """For each minute from the last one backwards, the least cost from each node to the goal."""
    steps = plain_steps(roads, request.until)
    left: dict[int, dict[int, int]] = {}
    nodes = range(1, roads.network.nodes + 1)
    for minute in range(request.until, request.depart - 1, -1):
        left[minute] = {request.goal: 0}
        for node in nodes:
            for after, minutes, price in steps(node, minute):
                if after in left[minute + minutes]:
                    cost = left[minute + minutes][after] + price
                    left[minute][node] = min(cost, left[minute].get(node, cost))
    return left


def late_front(request: Request, left: Mapping[int, Mapping[int, int]]) -> list[Pair]:
    """For each departure, by falling ones, the least cost of an itinerary that leaves then, where
    it is below those before it."""
    front: list[Pair] = []
    for departure, costs in left.items():
        cost = costs.get(request.origin)
        if cost is not None and (not front or cost < front[-1][1]):
            front.append((departure, cost))
    return front


def next_step(
    roads: Roads, until: int, left: Mapping[int, Mapping[int, int]], node: int, minute: int
) -> tuple[str, int, int, int]:
    """The next step of the first itinerary from a node and minute to the goal at the least cost: a
    wait if one has it, else the drive over the smallest arc. It is given with the node and the
    minute behind it."""
    cost = left[minute][node]
    may_wait = roads.may_wait(node, minute, until)
    if may_wait and left[minute + 1].get(node) == cost - roads.price(node):
        return "wait", 1, node, minute + 1
    arc = min(
        arc
        for arc in roads.drives(node, minute, until)
        if left[minute + roads.minutes(arc)].get(roads.head(arc)) == cost - roads.cost(arc)
    )
    return "drive", arc, roads.head(arc), minute + roads.minutes(arc)


def first_late_legs(
    roads: Roads, request: Request, left: Mapping[int, Mapping[int, int]], departure: int
) -> Legs:
    """The legs of the first itinerary of the pair of the late front that leaves then, from its
    beginning: it ends where it first arrives."""
    steps, node, minute = [], request.origin, departure
    while node != request.goal:
        kind, value, node, minute = next_step(roads, request.until, left, node, minute)
        steps.append((kind, value))
    return legs_of_steps(steps)


def may_serve(stop: Stop, node: int, minute: int, until: int) -> bool:
    at, service, begin, end = stop
    return node == at and begin <= minute and minute + service <= end and minute + service <= until


def rested_steps(roads: Roads, request: Request, stops: Stops) -> RestedSteps:
    """The lawful steps of a tour that keeps the rule, with the states and minutes that they lead to
    and their costs. The neighbouring waits so far don't matter after a break; a service ends them,
    and is no driving."""

    def steps(state: Driven, minute: int) -> Iterator[tuple[Leg, Driven, int, int]]:
        node, driven, waits, served = state
        if roads.may_wait(node, minute, request.until):
            rested = driven == 0 or waits + 1 == request.rest
            after = (node, 0, 0, served) if rested else (node, driven, waits + 1, served)
            yield ("wait", 1), after, minute + 1, roads.price(node)
        for arc in roads.drives(node, minute, request.until):
            stretch, end = driven + roads.minutes(arc), minute + roads.minutes(arc)
            if stretch <= request.drive:
                yield ("drive", arc), (roads.head(arc), stretch, 0, served), end, roads.cost(arc)
        if served < len(stops) and may_serve(stops[served], node, minute, request.until):
            end = minute + stops[served][1]
            yield ("serve", served + 1), (node, driven, 0, served + 1), end, 0

    return steps


def rested_costs(request: Request, steps: RestedSteps) -> RestedCosts:
    """The least costs of all tours that keep the rule, and, without stops, of such trips."""
    return least_costs(
        (request.origin, 0, 0, 0),
        request.depart,
        lambda state, minute: (
            (after, end - minute, cost) for _, after, end, cost in steps(state, minute)
        ),
    )


def rested_front(request: Request, costs: RestedCosts, stops: Stops = ()) -> list[Pair]:
    return front_of(
        [
            (minute, cost)
            for minute, at in costs.items()
            for (node, _, _, served), cost in at.items()
            if (node, served) == (request.goal, len(stops))
        ]
    )


def first_rested_legs(
    request: Request, costs: RestedCosts, steps: RestedSteps, pair: Pair, stops: Stops = ()
) -> Legs:
    """The legs of the first tour of the pair of the front, from the end backwards. `ends` are the
    states from which the legs told so far end the tour: those with the fewest minutes driven since
    the last break count, and of the steps to them the first."""
    before: dict[tuple[int, Driven], list[tuple[Leg, Driven, int]]] = {}
    for begin, at in costs.items():
        for state, least in at.items():
            for step, after, end, cost in steps(state, begin):
                if costs[end][after] == least + cost:
                    before.setdefault((end, after), []).append((step, state, begin))
    minute, told = pair[0], []
    ends = {
        state
        for state, cost in costs[minute].items()
        if (state[0], state[3], cost) == (request.goal, len(stops), pair[1])
    }
    while minute > request.depart:
        driven = min(state[1] for state in ends)
        ways = [way for state in ends if state[1] == driven for way in before[minute, state]]
        first = min((way[0] for way in ways), key=lambda step: (STEP_ORDER.index(step[0]), step[1]))
        ends = {state for step, state, _ in ways if step == first}
        minute = next(begin for step, _, begin in ways if step == first)
        told.append(first)
    return legs_of_steps(told[::-1])


def breaks_size(roads: Roads, request: Request) -> int:
    """The states, the drives and the breaks that leave them; the states of a node are the bits of a
    number."""
    network = roads.network
    held = {request.origin: 1}
    waiting = [request.origin]
    while waiting:
        node = waiting.pop()
        if roads.weight(node) is not None:
            held[node] |= 1
        for arc in roads.arcs_at.get(node, []):
            head = roads.head(arc)
            more = held.get(head, 0) | below(
                held[node], request.drive - roads.minutes(arc)
            ) << roads.minutes(arc)
            if more != held.get(head, 0):
                held[head] = more
                waiting.append(head)
    states = sum(ones(bits) for bits in held.values())
    drives = sum(
        ones(below(held.get(tail, 0), request.drive - minutes)) for tail, _, minutes in network.arcs
    )
    breaks = sum(ones(bits & ~1) for node, bits in held.items() if roads.weight(node) is not None)
    return states + drives + breaks


def below(bits: int, most: int) -> int:
    """The bits up to this place."""
    return bits & ((1 << (most + 1)) - 1) if most >= 0 else 0


def ones(bits: int) -> int:
    return bin(bits).count("1")


# ---- Following legs ----


def follow(
    roads: Roads, request: Request, legs: Legs, depart: int, stops: Stops = ()
) -> tuple[int, int, int, int]:
    """The node, the minute, the cost and the stops served at the end of the legs. Raises
    Unlawful."""
    node, minute, cost, served = request.origin, depart, 0, 0
    for number, (kind, value) in enumerate(legs, 1):
        for _ in range(value if kind == "wait" else 1):
            wrong = wrong_step(roads, request.until, node, minute, kind, value, served, stops)
            if wrong:
                raise Unlawful(number, *wrong)
            if kind == "wait":
                minute, cost = minute + 1, cost + roads.price(node)
            elif kind == "drive":
                node, minute, cost = (
                    roads.head(value),
                    minute + roads.minutes(value),
                    cost + roads.cost(value),
                )
            else:
                minute, served = minute + stops[served][1], served + 1
    return node, minute, cost, served


def wrong_step(
    roads: Roads,
    until: int,
    node: int,
    minute: int,
    kind: str,
    value: int,
    served: int,
    stops: Stops,
) -> Optional[tuple[int, str]]:
    """The minute and the first reason why a step isn't lawful; None where it is."""
    network = roads.network
    if kind == "serve":
        lawful = (
            value == served + 1
            and value <= len(stops)
            and may_serve(stops[value - 1], node, minute, until)
        )
        return None if lawful else (minute, "serve")
    if kind == "wait":
        if roads.weight(node) is None:
            return minute, "unrated"
        if minute + 1 > until:
            return minute, "late"
        return None if roads.is_park_open(node, minute) else (minute, "shut")
    if not 1 <= value <= len(network.arcs) or network.arcs[value - 1][0] != node:
        return minute, "tail"
    if minute + roads.minutes(value) > until:
        return minute, "late"
    for later in range(minute, minute + roads.minutes(value)):
        if roads.is_closed(value, later):
            return later, closing_reason(roads, value, later)
    return None


def closing_reason(roads: Roads, arc: int, minute: int) -> str:
    ruling = roads.closing_rule(arc, minute)
    if ruling:
        return f"rule {ruling.scope} {ruling.key} {ruling.kind} {ruling.clause}"
    return f"closure {roads.network.closure_at(arc, minute)}"


def is_rested(roads: Roads, legs: Legs, rule: Request) -> bool:
    """Whether the stretch of each drive is within the rule: its minutes, and those of the drives
    after the last break before it. A service is a drive of no minutes."""
    # The minutes of each drive and service; None for a minute of waiting.
    steps: list[Optional[int]] = []
    for kind, value in legs:
        if kind == "wait":
            steps += [None] * value
        else:
            steps.append(roads.minutes(value) if kind == "drive" else 0)
    for place, minutes in enumerate(steps):
        if minutes is None:
            continue
        ends = [
            end
            for end in range(rule.rest, place + 1)
            if all(step is None for step in steps[end - rule.rest : end])
        ]
        since = ends[-1] if ends else 0
        if sum(step for step in steps[since : place + 1] if step is not None) > rule.drive:
            return False
    return True


def wrong_route(
    roads: Roads, request: Request, pair: Pair, legs: Legs, stops: Stops = ()
) -> Optional[str]:
    """Why the legs of a route aren't lawful, or aren't those of its pair; None where they are."""
    kinds = [kind for kind, _ in legs]
    if ("wait", "wait") in zip(kinds, kinds[1:]) or ("wait", 0) in legs:
        return "neighbouring or empty waits"
    late = request.command == "latest"
    try:
        node, minute, cost, served = follow(
            roads, request, legs, pair[0] if late else request.depart, stops
        )
    except Unlawful as unlawful:
        return f"leg {unlawful.args[0]} isn't lawful at {unlawful.args[1]}: {unlawful.args[2]}"
    if node != request.goal or served != len(stops):
        return f"it ends at node {node} with {served} stops served"
    if cost != pair[1] or (not late and minute != pair[0]):
        return f"it ends at {minute} with the cost {cost}"
    if request.drive and not is_rested(roads, legs, request):
        return "a stretch is too long"
    return None


# ---- Answers ----


def refused(status: int, *words: object) -> Due:
    return Due(
        status, (" ".join(["refused", *(str(word) for word in words)]) + "\n").encode("ascii")
    )


def answer_due(words: list[str]) -> Due:
    """What is due for the words of a command."""
    request = request_of(words)
    if request is None:
        return refused(USAGE, "usage")
    try:
        network = trip_network.Network(request.folder)
        if request.command in FILE_LABELS and os.path.isdir(
            os.path.join(request.folder, request.file)
        ):
            return Due(READ_FAULT, b"")
        text = read_own_file(request) if request.command in FILE_LABELS else ""
        network.read()
        stops = stops_of(text, network.nodes) if request.command == "tour" else []
        legs = legs_of(text) if request.command == "explain" else []
    except BadInput as fault:
        return refused(BAD_INPUT, "input", *fault.args)
    fault_of_request = failed_check(network, request)
    if fault_of_request:
        return refused(BAD_REQUEST, "request", fault_of_request)
    roads = Roads(network, network.vehicles[request.vehicle])
    if request.command == "tour":
        return tour_due(roads, request, stops)
    if request.command == "explain":
        return explain_due(roads, request, legs)
    return {"plan": plan_due, "latest": late_due, "breaks": breaks_due}[request.command](
        roads, request
    )


def failed_check(network: Network, request: Request) -> Optional[str]:
    if request.vehicle not in network.vehicles:
        return "UnknownVehicle"
    if not 1 <= request.origin <= network.nodes:
        return "OriginRange"
    if not 1 <= request.goal <= network.nodes:
        return "GoalRange"
    if request.until < request.depart:
        return "UntilBeforeDepart"
    if request.until - request.depart > (
        MOST_MINUTES - 1 if request.command == "latest" else MOST_MINUTES
    ):
        return "HorizonTooLong"
    return None


def not_first(legs: Legs, first: Legs) -> Optional[str]:
    return None if legs == first else f"the first itinerary has {first}"


def front_due(roads: Roads, request: Request, stops: Stops = ()) -> Due:
    costs = tour_costs(roads, request, stops)

    def wrong_legs(pair: Pair, legs: Legs) -> Optional[str]:
        return wrong_route(roads, request, pair, legs, stops) or not_first(
            legs, first_legs(roads, request, costs, pair[0], stops)
        )

    return Due(DONE, pairs=tour_front(request, costs, stops), wrong_legs=wrong_legs)


def plan_due(roads: Roads, request: Request) -> Due:
    return front_due(roads, request)


def late_due(roads: Roads, request: Request) -> Due:
    left = late_costs(roads, request)

    def wrong_legs(pair: Pair, legs: Legs) -> Optional[str]:
        return wrong_route(roads, request, pair, legs) or not_first(
            legs, first_late_legs(roads, request, left, pair[0])
        )

    return Due(DONE, pairs=late_front(request, left), wrong_legs=wrong_legs)


def tour_due(roads: Roads, request: Request, stops: Stops) -> Due:
    if (len(stops) + 1) * (roads.network.nodes + len(roads.network.arcs)) > MOST_STATES:
        return refused(BAD_REQUEST, "request", "TooManyStates")
    return rested_due(roads, request, stops) if request.drive else front_due(roads, request, stops)


def rested_due(roads: Roads, request: Request, stops: Stops = ()) -> Due:
    steps = rested_steps(roads, request, stops)
    costs = rested_costs(request, steps)

    def wrong_legs(pair: Pair, legs: Legs) -> Optional[str]:
        return wrong_route(roads, request, pair, legs, stops) or not_first(
            legs, first_rested_legs(request, costs, steps, pair, stops)
        )

    return Due(DONE, pairs=rested_front(request, costs, stops), wrong_legs=wrong_legs)


def breaks_due(roads: Roads, request: Request) -> Due:
    if breaks_size(roads, request) > MOST_STATES:
        return refused(BAD_REQUEST, "request", "TooManyStates")
    return rested_due(roads, request)


def explain_due(roads: Roads, request: Request, legs: Legs) -> Due:
    try:
        node, minute, cost, _ = follow(roads, request, legs, request.depart)
    except Unlawful as unlawful:
        return Due(
            DONE,
            f"unlawful {unlawful.args[0]} {unlawful.args[1]} {unlawful.args[2]}\n".encode("ascii"),
        )
    if node != request.goal:
        return Due(DONE, f"unlawful {len(legs) + 1} {minute} goal\n".encode("ascii"))
    front = tour_front(request, tour_costs(roads, request))
    better = next((pair for pair in front if dominates(pair, (minute, cost))), None)
    verdict = f"dominated {better[0]} {cost_text(better[1])}" if better else "undominated"
    return Due(DONE, f"lawful {minute} {cost_text(cost)}\n{verdict}\n".encode("ascii"))


# ---- Printed fronts ----


def cost_text(cost: int) -> str:
    return f"{cost // 1_000}.{cost % 1_000:03}"


def front_text(command: str, routes: list[Route]) -> bytes:
    head = "leave" if command == "latest" else "pair"
    lines = [f"pairs {len(routes)}"]
    for (first, cost), legs in routes:
        lines.append(f"{head} {first} {cost_text(cost)}")
        lines += [f"{kind} {value}" for kind, value in legs]
    return "".join(line + "\n" for line in lines).encode("ascii")


def routes_of(printed: bytes) -> list[Route]:
    """The pairs and legs in a printed front, whose form isn't looked into."""
    routes: list[Route] = []
    for line in printed.decode("latin-1").split("\n"):
        pair = re.fullmatch(r"(?:pair|leave) ([0-9]+) ([0-9]+)\.([0-9]{3})", line)
        leg = re.fullmatch("(drive|wait|serve) ([0-9]+)", line)
        if pair:
            routes.append(((int(pair[1]), int(pair[2] + pair[3])), []))
        elif leg and routes:
            routes[-1][1].append((leg[1], int(leg[2])))
    return routes


def wrong_answer(command: str, due: Due, status: int, printed: bytes) -> Optional[str]:
    """How a run's status and text differ from what is due; None where they don't."""
    if status != due.status:
        return f"the status is {status}, and {due.status} is due"
    if due.pairs is None:
        return None if printed == due.text else f"{due.text!r} is due"
    routes = routes_of(printed)
    if printed != front_text(command, routes):
        return "the text isn't that of a front"
    pairs = [pair for pair, _ in routes]
    if pairs != due.pairs:
        return f"the pairs {due.pairs} are due"
    for pair, legs in routes:
        wrong = due.wrong_legs(pair, legs)
        if wrong:
            return f"the legs of {pair}: {wrong}"
    return None
