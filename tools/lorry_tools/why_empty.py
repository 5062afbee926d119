"""Looks for the cause where `plan` prints `pairs 0`.

    tools/why_empty DIR VEHICLE FROM TO DEPART UNTIL

The words are those of `plan`. Each cause is a line with its name:

    no-way             no chain of roads leads from FROM to TO
    short-horizon      there is too little time, even for the drive alone or with the bans on the
                       way
    horizon-in-ban     the same, and a road that is still to be driven is closed at UNTIL
    departure-in-ban   the roads out of FROM are closed at DEPART, and a lorry may not wait there
    no-parking         a road on the way is closed when the lorry comes, and it may not wait before
                       it
    closed-for-good    a road on every way is closed to the vehicle for 60 days
    unexplained        none of these explains it

It plans again over copies of the folder, in a temporary folder, with more time, with parking or
without bans, asks `bans` about roads, and asks `explain` for the rule that closes one, where the
program has that command. So each line is true of the runs that it speaks of; that there is no other
cause is not proved. If there are pairs, it says so. The status is 0 where there are pairs or a
cause was found, 1 where none was, 2 for words that are wrong, and otherwise that of the program
where it refuses the trip. docs/TOOLS.md has examples. It needs no packages."""
from __future__ import annotations

import argparse
import collections
import heapq
import os
import tempfile
from typing import Callable, Hashable, Iterable, Iterator, Mapping, Optional, Sequence

from lorry_tools.answers import DRIVE, Pair, Unlawful
from lorry_tools.files import GRAPH, NETWORK
from lorry_tools.folder import Folder, Row, closure_groups, link_files, number_of
from lorry_tools.instants import LAST_INSTANT, LONGEST_HORIZON, instant_text, minute_of, span_text
from lorry_tools.problems import Problem
from lorry_tools.program import Program, Refused, Trip, meaning_of
from lorry_tools.rules import cause_of
from lorry_tools.running import Progress

ITINERARY = "why_empty.itinerary"
USAGE = 2

Run = tuple[int, int]  # closed minutes: the first one, and the first one after them
Ends = Sequence[int]
ArcsAt = Mapping[int, list[int]]

# A leg: its arc or 0, the node at which it starts, its start and its end.
TimedLeg = tuple[int, int, int, int]


# How many roads a line names, and around how many nodes closed roads are told beside those around
# fewer.
MOST_NAMED = 3
MOST_AROUND = 20


class TooMany(Exception):
    """More runs of `bans` would be needed than are allowed."""


class Case:
    """A trip without pairs, and the questions that can be asked about it."""

    def __init__(self, program: Program, folder: Folder, trip: Trip, most_bans: int = 400):
        self.program, self.folder, self.vehicle = program, folder, trip.vehicle
        self.origin, self.goal, self.depart, self.until = (
            trip.origin,
            trip.goal,
            trip.depart,
            trip.until,
        )
        self.far = min(self.depart + LONGEST_HORIZON, LAST_INSTANT)
        self.graph = folder.graph()
        self.out_of = self.graph.arcs_at(self.graph.tails)
        self.into = self.graph.arcs_at(self.graph.heads)
        self.group = closure_groups(folder)
        # Closed minutes until `far`, by the group of a road.
        self.runs: dict[Hashable, list[Run]] = {}
        self.bans_left = most_bans
        self.has_explain = True

    # Runs of the program.

    def first_pair(self, folder: str, until: int) -> Optional[Pair]:
        """Returns the first pair of a plan over a folder, or None."""
        trip = Trip(folder, self.vehicle, self.origin, self.goal, self.depart, until)
        return next(iter(self.program.plan(trip)), None)

    def with_changes(
        self, until: int, only_roads: bool = False, parking: Optional[str] = None
    ) -> Optional[Pair]:
        """Returns the first pair of a plan over a copy of the folder with changes, or None."""
        with tempfile.TemporaryDirectory(prefix="why_empty-") as copy:
            self.copy_to(copy, only_roads, parking)
            return self.first_pair(copy, until)

    def copy_to(self, copy: str, only_roads: bool = False, parking: Optional[str] = None) -> None:
        """Links the files of the folder into another: only the roads and the vehicles, or all with
        further parking."""
        link_files(self.folder, copy, [GRAPH, "vehicles.csv"] if only_roads else NETWORK)
        if parking:
            rating, rows = self.parking_with(parking)
            for name, lines in (("ratings.csv", rating), ("parking.csv", rows)):
                if lines:
                    path = os.path.join(copy, name)
                    if os.path.lexists(path):
                        os.remove(path)
                    with open(path, "w", encoding="utf-8", newline="") as file:
                        file.writelines(it + "\n" for it in lines)

    def parking_with(self, parking: str) -> tuple[list[str], list[str]]:
        """Returns the rows of ratings.csv, or nothing where they stay, and of parking.csv, with
        parking at FROM or everywhere at all hours."""
        if parking == "everywhere":
            return ["rating,weight", "free,0"], [
                "node,rating",
                *(f"{node},free" for node in range(1, self.graph.nodes + 1)),
            ]
        ratings = [row["rating"] for row in self.folder.table("ratings.csv")]
        rows = [
            self.quoted_row(row)
            for row in self.folder.table("parking.csv")
            if number_of(row["node"]) != self.origin
        ]
        rating = ratings[0] if ratings else "free"
        return [] if ratings else ["rating,weight", "free,0"], [
            "node,rating,area,hours",
            *rows,
            f"{self.origin},{rating},,",
        ]

    def quoted_row(self, row: Row) -> str:
        return ",".join(
            '"' + row[it].replace('"', '""') + '"' for it in ("node", "rating", "area", "hours")
        )

    def closed(
        self,
        arcs: Iterable[int],
        limited: bool = False,
        say: Optional[Callable[[int, int], None]] = None,
    ) -> dict[int, list[Run]]:
        """Returns the closed minutes of roads until 60 days after the departure, by their numbers;
        TooMany where runs are limited."""
        arcs = list(arcs)
        missing: dict[Hashable, int] = {}
        for arc in arcs:
            if self.group(arc) not in self.runs:
                missing.setdefault(self.group(arc), arc)
        if limited and len(missing) > self.bans_left:
            raise TooMany
        self.bans_left -= len(missing)
        found = self.program.bans_of(
            self.folder.path, self.vehicle, missing.values(), self.depart, self.far, say
        )
        self.runs.update((group, found[arc]) for group, arc in missing.items())
        return {arc: self.runs[self.group(arc)] for arc in arcs}

    def rule_of(self, arc: int, minute: int) -> str:
        """Returns, in parentheses, what closes a road at a minute, by `explain`; nothing where the
        program can't tell."""
        tail, head, _ = self.graph.ends(arc)
        if not self.has_explain or minute >= self.far:
            return ""
        with tempfile.TemporaryDirectory(prefix="why_empty-") as copy:
            self.copy_to(copy)
            with open(os.path.join(copy, ITINERARY), "w", encoding="utf-8") as file:
                file.write(f"drive {arc}\n")
            trip = Trip(copy, self.vehicle, tail, head, minute, self.far)
            try:
                found = self.program.explain(trip, ITINERARY)
            except Refused as refused:
                self.has_explain = refused.status != USAGE
                return ""
        if not isinstance(found, Unlawful) or found.leg != 1:
            return ""
        cause = cause_of(self.folder, arc, found.reason)
        if cause is None:
            return ""
        if cause.file == "closures.csv":
            return f" ({cause.place()})"
        return f" ({cause.place()}: {cause.scope} {cause.key})"

    def lasting_rule_of(self, arc: int, first: int) -> str:
        """The same for a road that is closed for good: what is named most often at some hours of
        several days, not all of them Sundays."""
        some = (first, *(self.depart + it * 60 for it in (9, 33, 57, 81)))
        named = [self.rule_of(arc, minute) for minute in some if self.has_explain]
        return max(named, key=named.count, default="")

    # What can be reached.

    def reached(self, start: int, arcs_at: ArcsAt, ends: Ends) -> set[int]:
        """Returns the nodes that can be reached from a node when nothing is closed; `ends` are the
        far ends of arcs."""
        seen, queue = {start}, collections.deque([start])
        while queue:
            for arc in arcs_at.get(queue.popleft(), ()):
                if ends[arc - 1] not in seen:
                    seen.add(ends[arc - 1])
                    queue.append(ends[arc - 1])
        return seen

    def reached_by_open(
        self, start: int, arcs_at: ArcsAt, ends: Ends
    ) -> tuple[set[int], list[int]]:
        """Returns the nodes that can be reached over roads that are open for their minutes within
        60 days, and the closed roads around them."""
        seen, edge, say = {start}, [start], Progress("bans of roads")
        border: list[int] = []
        while edge:
            arcs = [arc for node in edge for arc in arcs_at.get(node, ())]
            closed, edge = self.closed(arcs, True, say), []
            for arc in arcs:
                if not self.is_ever_open(arc, closed[arc]):
                    border.append(arc)
                elif ends[arc - 1] not in seen:
                    seen.add(ends[arc - 1])
                    edge.append(ends[arc - 1])
        return seen, [arc for arc in border if ends[arc - 1] not in seen]

    def is_ever_open(self, arc: int, closed: list[Run]) -> bool:
        """Whether a road can be driven at some time within 60 days."""
        open_from = self.depart
        for low, high in [*closed, (self.far, self.far)]:
            if low - open_from >= self.graph.ends(arc)[2]:
                return True
            open_from = high
        return False

    # The causes.

    def causes(self) -> Iterator[str]:
        """Yields the lines of the causes."""
        if self.goal not in self.reached(self.origin, self.out_of, self.graph.heads):
            yield (
                f"no-way: no chain of roads in graph.gr leads from node {self.origin} to node"
                f" {self.goal}"
            )
            return
        # The first pair where nothing is ever closed.
        quickest = self.with_changes(self.far, only_roads=True)
        if not quickest:
            yield (
                f"short-horizon: the roads from node {self.origin} to node {self.goal} take longer"
                " than a plan may, even without any ban"
            )
            return
        in_time = quickest.minute <= self.until
        # What makes a plan: parking at FROM, more time, both, parking everywhere, and that with
        # more time.
        start = self.with_changes(self.until, parking="start") if in_time else None
        later = self.first_pair(self.folder.path, self.far)
        start_later = None if start else self.with_changes(self.far, parking="start")
        if start:
            yield self.start_line(start, self.until)
        elif start_later and (not later or self.is_shut_in(self.until if in_time else self.far)):
            yield self.start_line(start_later, self.until if in_time else self.far)
        if later or start_later:
            yield self.time_line(later or start_later, quickest)
        if start or later or start_later:
            return
        everywhere = self.with_changes(self.until, parking="everywhere") if in_time else None
        everywhere_later = None if everywhere else self.with_changes(self.far, parking="everywhere")
        parked = everywhere or everywhere_later
        if parked:
            yield self.parking_line(parked)
        if not everywhere and (everywhere_later or not in_time):
            yield self.time_line(everywhere_later, quickest)
        if not everywhere and not everywhere_later:
            yield from self.closed_lines()

    def legs_of(self, pair: Pair) -> Iterator[TimedLeg]:
        """Yields the legs of a pair: the arc or 0, the node at which it starts, its start and its
        end."""
        node, minute = self.origin, self.depart
        for leg in pair.legs:
            arc = leg.number if leg.kind == DRIVE else 0
            minutes = self.graph.ends(arc)[2] if arc else leg.number
            yield arc, node, minute, minute + minutes
            node, minute = self.graph.ends(arc)[1] if arc else node, minute + minutes

    def parked_at_start(self) -> Optional[Row]:
        """Returns the row of parking.csv that lets a lorry wait at FROM, or None."""
        return next(
            (it for it in self.folder.table("parking.csv") if number_of(it["node"]) == self.origin),
            None,
        )

    def shut_roads(self, until: int) -> tuple[list[int], dict[int, Run]]:
        """Returns the roads out of FROM that lead on by UNTIL, bans not counted, and of each that
        is closed when the trip begins the run."""
        in_time = self.minutes_to_goal(until - self.depart)
        arcs = [it for it in self.out_of.get(self.origin, ()) if self.ends_by(it, in_time) <= until]
        closed = self.closed(arcs)
        shut = {
            it: self.run_in(closed[it], self.depart, self.depart + self.graph.ends(it)[2])
            for it in arcs
        }
        return arcs, {arc: run for arc, run in shut.items() if run}

    def is_shut_in(self, until: int) -> bool:
        """Whether the trip can't begin: all these roads are closed, and parking at FROM isn't open
        at all hours."""
        parked = self.parked_at_start()
        arcs, shut = self.shut_roads(until)
        return len(arcs) == len(shut) and (not parked or parked["hours"] != "")

    def start_line(self, pair: Pair, until: int) -> str:
        """Says that parking at FROM makes a plan, and whether the roads out of it are closed at the
        departure."""
        wait = next(
            (end for arc, node, _, end in self.legs_of(pair) if not arc and node == self.origin),
            self.depart,
        )
        helps = (
            f"with parking there it leaves at {instant_text(wait)} and arrives at"
            f" {instant_text(pair.minute)}"
        )
        parked = self.parked_at_start()
        place = f"node {self.origin} isn't in parking.csv, so a lorry may not wait there; {helps}"
        if parked:
            place = (
                f"node {self.origin} has hours outside which a lorry may not wait there,"
                f" {parked['hours']} (parking.csv {parked.number}); {helps}"
            )
        arcs, shut = self.shut_roads(until)
        if len(shut) == len(arcs):
            arc = min(shut, key=lambda it: (shut[it][1], it))
            whom = (
                "the one road that leads"
                if len(arcs) == 1
                else f"each of the {len(arcs)} roads that lead"
            )
            return (
                f"departure-in-ban: {whom} on in time is closed when the trip begins,"
                f" {self.closed_text(arc, shut[arc])}; {place}"
            )
        arc, run = self.first_closed(pair, wait - self.depart)
        return (
            "no-parking: a lorry that leaves at once comes to a closed road,"
            f" {self.closed_text(arc, run)}; {place}"
        )

    def minutes_to_goal(self, most: int) -> dict[int, int]:
        """Returns the least minutes of driving to the goal, by node, where they are no more than
        this; bans don't count."""
        least, queue = {}, [(0, self.goal)]
        while queue:
            minutes, node = heapq.heappop(queue)
            if node not in least:
                least[node] = minutes
                for arc in self.into.get(node, ()):
                    tail, _, more = self.graph.ends(arc)
                    if tail not in least and minutes + more <= most:
                        heapq.heappush(queue, (minutes + more, tail))
        return least

    def ends_by(self, arc: int, least: Mapping[int, int]) -> int:
        """Returns when a lorry that begins with a road arrives at the earliest, bans not
        counted."""
        _, head, minutes = self.graph.ends(arc)
        return self.depart + minutes + least.get(head, 2 * LONGEST_HORIZON)

    def run_in(self, runs: list[Run], start: int, end: int) -> Optional[Run]:
        """Returns the first closed run that has a minute of this time, or None."""
        return next(((low, high) for low, high in runs if low < end and start < high), None)

    def closed_text(self, arc: int, run: Run) -> str:
        """Says when a road is closed: bans before the departure aren't known, nor those after 60
        days."""
        start = "" if run[0] <= self.depart else f" from {instant_text(run[0])}"
        end = "" if run[1] >= self.far else f" until {instant_text(run[1])}"
        return f"arc {arc}{start}{end}{self.rule_of(arc, run[0])}"

    def first_closed(self, pair: Pair, sooner: int) -> tuple[int, Run]:
        """Returns the first road, and its closed run, that a lorry meets which leaves so much
        sooner than the pair does."""
        legs = [
            (arc, start - sooner, end - sooner) for arc, _, start, end in self.legs_of(pair) if arc
        ]
        runs = self.closed([it[0] for it in legs])
        return next(
            (arc, run)
            for arc, start, end in legs
            for run in [self.run_in(runs[arc], start, end)]
            if run
        )

    def time_line(self, pair: Optional[Pair], quickest: Pair) -> str:
        """Says that there is too little time, and whether a road that is still to be driven is
        closed at UNTIL."""
        drive = span_text(quickest.minute - self.depart)
        given = (
            f"there are {span_text(self.until - self.depart)} from the departure to UNTIL, and the"
            f" roads alone take {drive}"
        )
        if not pair:
            return f"short-horizon: {given}"
        first = (
            f"the first arrival is {instant_text(pair.minute)},"
            f" {span_text(pair.minute - self.until)} after UNTIL"
        )
        ban = self.ban_at_until(pair, quickest) if quickest.minute <= self.until else None
        return (
            f"horizon-in-ban: UNTIL is in a ban, {ban}; {first}"
            if ban
            else f"short-horizon: {given}; {first}"
        )

    def ban_at_until(self, pair: Pair, quickest: Pair) -> Optional[str]:
        """Tells a road that is closed at UNTIL, of those that this pair has still to drive, or of
        the quickest way; None where there is none."""
        left = [arc for arc, _, _, end in self.legs_of(pair) if arc and end > self.until]
        quick = [it[0] for it in self.legs_of(quickest) if it[0]]
        try:
            for arcs, words in (
                (left, "which is still to be driven"),
                (quick, "which is on the quickest way"),
            ):
                closed = self.closed(arcs, True)
                for arc in arcs:
                    run = self.run_in(closed[arc], self.until, self.until + 1)
                    if run:
                        return f"{self.closed_text(arc, run)}, {words}"
        except TooMany:
            pass
        return None

    def parking_line(self, pair: Pair) -> str:
        """Says where a lorry would have to wait that may not."""
        rated = {number_of(it["node"]): it for it in self.folder.table("parking.csv")}
        stops = []
        for arc, node, start, end in self.legs_of(pair):
            if not arc:
                what = (
                    f"parking.csv {rated[node].number}" if node in rated else "not in parking.csv"
                )
                stops.append(
                    f"node {node} ({what}) from {instant_text(start)} to {instant_text(end)}"
                )
        where = "; ".join(stops[:MOST_NAMED]) + (
            f"; and {len(stops) - MOST_NAMED} more places" if len(stops) > MOST_NAMED else ""
        )
        return (
            f"no-parking: with parking everywhere it arrives at {instant_text(pair.minute)} and"
            f" waits at {where}"
        )

    def closed_lines(self) -> Iterator[str]:
        """Yields the roads that are closed for 60 days around FROM or TO."""
        try:
            ahead, after = self.reached_by_open(self.origin, self.out_of, self.graph.heads)
            behind, before = self.reached_by_open(self.goal, self.into, self.graph.tails)
        except TooMany:
            yield (
                "closed-for-good: even with parking everywhere there is no trip within 60 days, so"
                " on every way a road is never open for long enough; which one it is was not found,"
                " as that takes more runs of bans (--most-bans)"
            )
            return
        if self.goal in ahead:
            yield (
                "unexplained: each road of some way is open at times, but no trip within 60 days"
                " was found, even with parking everywhere"
            )
            return
        # Only nodes and roads between FROM and TO count.
        to_goal = self.reached(self.goal, self.into, self.graph.tails)
        from_start = self.reached(self.origin, self.out_of, self.graph.heads)
        after = [it for it in after if self.graph.ends(it)[1] in to_goal]
        before = [it for it in before if self.graph.ends(it)[0] in from_start]
        ahead, behind = ahead & to_goal, behind & from_start
        # Where the same roads are around both ends, they are told once, and those around many nodes
        # only where there are no more at the other end.
        apart = set(before).isdisjoint(after)
        if len(ahead) <= len(behind) or (apart and len(ahead) <= MOST_AROUND):
            many = f"from the {len(ahead)} nodes that can be reached from node {self.origin}"
            yield self.border_line(after, f"out of node {self.origin}", many, ahead)
        if len(behind) < len(ahead) or (apart and len(behind) <= MOST_AROUND):
            many = f"to the {len(behind)} nodes from which node {self.goal} can be reached"
            yield self.border_line(before, f"into node {self.goal}", many, behind)

    def border_line(self, arcs: list[int], single: str, many: str, nodes: set[int]) -> str:
        """Says which roads are closed around some nodes."""
        parts = []
        for arc in arcs[:MOST_NAMED]:
            runs = self.closed([arc])[arc]
            minutes = self.graph.ends(arc)[2]
            short = (
                ""
                if runs == [(self.depart, self.far)]
                else f", which takes {span_text(minutes)} and is never open for so long"
            )
            parts.append(f"arc {arc}{short}{self.lasting_rule_of(arc, runs[0][0])}")
        more = f"; and {len(arcs) - MOST_NAMED} more" if len(arcs) > MOST_NAMED else ""
        whom = "any lorry" if self.vehicle == "any" else self.vehicle
        where = single if len(nodes) == 1 else many
        every = (
            f"the one road {where}" if len(arcs) == 1 else f"each of the {len(arcs)} roads {where}"
        )
        return (
            f"closed-for-good: {every} is closed to {whom} for the next"
            f" {span_text(self.far - self.depart)}: {'; '.join(parts)}{more}"
        )


def main() -> int:
    words = read_words()
    program = Program(words.program)
    asked = [words.dir, words.vehicle, words.origin, words.goal, words.depart, words.until]
    status, printed = program.run(["plan", *asked])
    if status:
        print(printed.strip() or meaning_of("plan", "", status))
        return status
    pairs = int(printed.split()[1])
    if pairs:
        print(f"pairs {pairs}: the plan is not empty")
        return 0
    origin, goal = number_of(words.origin), number_of(words.goal)
    depart, until = minute_of(words.depart), minute_of(words.until)
    if origin is None or goal is None or depart is None or until is None:
        raise Problem("the words are those of `plan`: DIR VEHICLE FROM TO DEPART UNTIL")
    trip = Trip(words.dir, words.vehicle, origin, goal, depart, until)
    found = 0
    for line in Case(program, Folder(words.dir), trip, words.most_bans).causes():
        print(line, flush=True)
        found += not line.startswith("unexplained")
    return 0 if found else 1


def read_words() -> argparse.Namespace:
    parser = argparse.ArgumentParser(
        description=__doc__, formatter_class=argparse.RawDescriptionHelpFormatter
    )
    parser.add_argument("dir", metavar="DIR")
    parser.add_argument("vehicle", metavar="VEHICLE")
    parser.add_argument("origin", metavar="FROM")
    parser.add_argument("goal", metavar="TO")
    parser.add_argument("depart", metavar="DEPART")
    parser.add_argument("until", metavar="UNTIL")
    parser.add_argument(
        "--most-bans",
        metavar="N",
        type=int,
        default=400,
        help="the most runs of bans (default 400)",
    )
    parser.add_argument(
        "--program",
        metavar="PATH",
        help="the program; otherwise ./lorry_plan at the top of the repository",
    )
    return parser.parse_args()
