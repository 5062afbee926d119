"""Why not another way: a way by its streets or its legs, and what the program says of it."""
from __future__ import annotations

import difflib
import heapq
import os
import re
from typing import Optional

from lorry_tools.answers import DRIVE, Lawful, Leg, Unlawful
from lorry_tools.problems import Problem
from lorry_tools.program import Trip
from lorry_tools.rules import cause_of
from lorry_tools.trips.answer import Answer, Why, parts_of, steps_of
from lorry_tools.trips.shown import NotedProgram, lines_of

ITINERARY = "way.itinerary"
LINE = re.compile(r"(drive|wait) ([1-9]\d{0,9})", re.ASCII)
MOST_CLOSE = 5

# What `explain` says besides rules and closures.
REASONS = {
    "tail": "no such road begins there",
    "unrated": "a lorry may not wait there: parking.csv has no such node",
    "late": "the trip would end after its last arrival",
    "shut": "the parking isn't open then",
    "goal": "the way doesn't end at the goal",
}


def explained(answer: Answer, program: NotedProgram, legs: list[Leg]) -> Why:
    """Returns what the program says of a way."""
    request = answer.request
    steps = steps_of(answer, legs, request.depart)
    name = program.write(ITINERARY, lines_of(legs))
    trip = Trip(
        program.work(),
        request.vehicle,
        request.origin.node,
        request.goal.node,
        request.depart,
        request.until,
    )
    found = program.explain(trip, name)
    parts = parts_of(answer, steps)
    if isinstance(found, Lawful):
        verdict = "dominated" if found.better else "undominated"
        return Why(parts, verdict, found.arrival, cost=found.cost, better=found.better)
    return unlawful(answer, found, legs, Why(parts, "unlawful", found.minute))


def unlawful(answer: Answer, found: Unlawful, legs: list[Leg], why: Why) -> Why:
    steps = steps_of(answer, legs, answer.request.depart)
    step = steps[min(found.leg, len(steps)) - 1] if steps else None
    why.arc = step.number if step and step.kind == DRIVE else 0
    why.node = step.tail if step else answer.request.origin.node
    why.cause = cause_of(answer.folder, why.arc, found.reason) if why.arc else None
    why.reason = found.reason.name
    return why


def read_way(answer: Answer, text: str) -> list[Leg]:
    """Returns the legs of a way: a file has legs as docs/FORMATS.md has them, or a street in each
    line; other texts are streets with commas between them."""
    if not os.path.isfile(text):
        return by_streets(answer, [it.strip() for it in text.split(",") if it.strip()], "--why")
    try:
        with open(text, encoding="utf-8") as file:
            lines = [it.strip() for it in file if it.strip()]
    except (OSError, UnicodeDecodeError) as error:
        raise Problem(f"--why {text}: the file can't be read: {error}") from None
    found = [LINE.fullmatch(it) for it in lines]
    if lines and all(found):
        legs = [Leg(it[1], int(it[2])) for it in found if it]
        check_legs(answer, legs, f"--why {text}, line")
        return legs
    return by_streets(answer, lines, f"--why {text}")


def check_legs(answer: Answer, legs: list[Leg], where: str) -> None:
    """Tells a leg that no trip can have; WHERE stands before its number."""
    graph = answer.folder.graph()
    for row, leg in enumerate(legs, 1):
        if leg.kind == DRIVE and not 1 <= leg.number <= len(graph):
            raise Problem(
                f"{where} {row}: graph.gr has no arc {leg.number}: expected is one from "
                f"1 to {len(graph)}"
            )


def by_streets(answer: Answer, words: list[str], what: str) -> list[Leg]:
    """Returns the quickest way that goes over these streets in their order."""
    if not words:
        raise Problem(f"{what} has no street: expected are streets with commas between them")
    if not answer.streets.names:
        raise Problem(
            f"{what}: {answer.folder.shown} has no names of roads (ways.csv): expected is a file "
            "with legs, such as `drive 7`"
        )
    return way_over(answer, [named_arcs(answer, word, what) for word in words], what)


def way_over(answer: Answer, streets: list[set[int]], what: str) -> list[Leg]:
    """Returns the quickest way that goes over an arc of each of these, in their order."""
    arcs = quickest(answer, streets)
    if arcs is None:
        request = answer.request
        raise Problem(
            f"{what}: no chain of roads leads from {request.origin.words()} over these streets, in "
            f"this order, to {request.goal.words()}"
        )
    return [Leg(DRIVE, arc) for arc in arcs]


def named_arcs(answer: Answer, word: str, what: str) -> set[int]:
    """Returns the arcs of a street, by its whole name or one of its parts."""
    small = " ".join(word.split()).casefold()
    whole: dict[str, set[int]] = {}
    parts: dict[str, set[int]] = {}
    for arc, name in answer.streets.names.items():
        whole.setdefault(name.casefold(), set()).add(arc)
        for part in name.split(" / "):
            parts.setdefault(part.casefold(), set()).add(arc)
    found = whole.get(small) or parts.get(small)
    if found:
        return found
    shown = {it.casefold(): it for it in answer.streets.names.values()}
    close = [it for it in sorted(shown, key=len) if small in it][:MOST_CLOSE]
    close = close or difflib.get_close_matches(small, list(shown), MOST_CLOSE, 0.6)
    nearest = f": the nearest names are {', '.join(shown[it] for it in close)}" if close else ""
    raise Problem(f"{what}: ways.csv has no street {word!r}{nearest}")


def quickest(answer: Answer, streets: list[set[int]]) -> Optional[list[int]]:
    """Returns the arcs of the quickest way over streets in their order, by Dijkstra's algorithm
    over pairs of a node and the number of streets that were driven."""
    graph = answer.folder.graph()
    out_of = graph.arcs_at(graph.tails)
    start, goal = answer.request.origin.node, (answer.request.goal.node, len(streets))
    queue: list[tuple[int, int, int, int, int]] = [(0, start, 0, 0, 0)]
    came: dict[tuple[int, int], tuple[int, int, int]] = {}
    while queue:
        minutes, node, done, arc, before = heapq.heappop(queue)
        if (node, done) in came:
            continue
        came[node, done] = (arc, graph.ends(arc)[0] if arc else node, before)
        if (node, done) == goal:
            return way_to(came, goal)
        for arc in out_of.get(node, ()):
            _, head, more = graph.ends(arc)
            after = done + 1 if done < len(streets) and arc in streets[done] else done
            if (head, after) not in came:
                heapq.heappush(queue, (minutes + more, head, after, arc, done))
    return None


def way_to(came: dict[tuple[int, int], tuple[int, int, int]], goal: tuple[int, int]) -> list[int]:
    """Follows a way back from the goal."""
    arcs: list[int] = []
    arc, node, done = came[goal]
    while arc:
        arcs.append(arc)
        arc, node, done = came[node, done]
    return arcs[::-1]
