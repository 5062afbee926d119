"""What each wait of an option is for, as the program's `explain` tells it.

A wait is followed by drives, up to the next wait, service or the end. `explain` is asked about
these drives a minute sooner than the option has them, and at the start of the wait: what closes a
road then is what the lorry waits for."""
from __future__ import annotations

import dataclasses
from typing import Optional

from lorry_tools.answers import DRIVE, SERVE, WAIT, Leg, Unlawful
from lorry_tools.program import Refused, Trip
from lorry_tools.rules import cause_of
from lorry_tools.trips.answer import Answer, Option, Part, Step, WaitReason
from lorry_tools.trips.shown import NotedProgram
from lorry_tools.trips.warnings import longest_drive

# Beyond so many questions no further wait is explained.
MOST_ASKED = 200


class Reasons:
    """Asks the program what the waits of options are for, each question once."""

    def __init__(self, answer: Answer, program: NotedProgram):
        self.answer, self.program = answer, program
        self.asked: dict[tuple[int, tuple[Leg, ...]], Optional[WaitReason]] = {}
        self.has_explain = True

    def take(self, option: Option) -> None:
        """Finds what the waits of an option are for. The last one comes first: a wait that moves
        another one to a cheaper place is for the same."""
        waits = iter([it for it in reversed(option.parts) if it.kind == WAIT])
        for index in range(len(option.steps) - 1, -1, -1):
            if option.steps[index].kind == WAIT:
                next(waits).reasons = self.of_wait(option, index)

    def of_wait(self, option: Option, index: int) -> list[WaitReason]:
        wait = option.steps[index]
        drives, after = stage_after(option.steps, index)
        last = self.ask(wait, drives, wait.end - 1)
        if last:
            # A drive that may begin now, and a minute ago might not, is over a road that opens now.
            last = dataclasses.replace(last, until=last.minute + 1)
            first = self.ask(wait, drives, wait.start) or last
            return [last] if first.cause == last.cause else [first, last]
        if self.is_break(option, index):
            return [WaitReason("break", wait.end), *self.window_that_opens(after)]
        if not self.has_explain or len(self.asked) >= MOST_ASKED:
            return [WaitReason("unknown", wait.end)]
        if after and after.kind == SERVE:
            return [WaitReason("window", after.start, node=after.tail, stop=after.number)]
        if after and after.kind == WAIT:
            return [self.moved(wait, drives, after), *self.later_reasons(option, after)]
        return [WaitReason("unknown", wait.end)]

    def is_break(self, option: Option, index: int) -> bool:
        """Whether too much would be driven since the last break without a wait."""
        rule, wait = self.answer.request.rule, option.steps[index]
        if rule is None or wait.end - wait.start < rule.rest:
            return False
        others = [it for place, it in enumerate(option.steps) if place != index]
        return longest_drive(others, rule.rest) > rule.drive

    def window_that_opens(self, after: Optional[Step]) -> list[WaitReason]:
        """Returns the window of the next leg, where that is a service as its window opens."""
        if after is None or after.kind != SERVE:
            return []
        if self.answer.request.stops[after.number - 1].start != after.start:
            return []
        return [WaitReason("window", after.start, node=after.tail, stop=after.number)]

    def moved(self, wait: Step, drives: list[Step], after: Step) -> WaitReason:
        """Why a lorry waits here and not at its next place to wait."""
        shut = self.ask(wait, [*drives, after], wait.end - 1, 1)
        if shut and shut.kind == "parking":
            return WaitReason("parking", shut.minute, node=after.tail)
        return WaitReason("price", wait.end, node=after.tail)

    def later_reasons(self, option: Option, after: Step) -> list[WaitReason]:
        part: Optional[Part] = next(
            (it for it in option.parts if it.kind == WAIT and it.start == after.start), None
        )
        return list(part.reasons) if part else []

    def ask(
        self, wait: Step, steps: list[Step], minute: int, wait_minutes: int = 0
    ) -> Optional[WaitReason]:
        """Returns what closes a road, or the parking behind it, for a lorry that leaves the place
        of a wait at a minute; None where nothing does."""
        legs = [Leg(it.kind, wait_minutes if it.kind == WAIT else it.number) for it in steps]
        key = minute, tuple(legs)
        if not steps or not self.has_explain or len(self.asked) >= MOST_ASKED:
            return self.asked.get(key)
        if key not in self.asked:
            self.asked[key] = self.reason(wait, steps, minute, legs)
        return self.asked[key]

    def reason(
        self, wait: Step, steps: list[Step], minute: int, legs: list[Leg]
    ) -> Optional[WaitReason]:
        folder, request = self.answer.folder, self.answer.request
        ends = wait.tail, steps[-1].head
        trip = Trip(folder.path, request.vehicle, *ends, minute, request.until)
        try:
            found = self.program.explain_way(trip, legs)
        except Refused:
            self.has_explain = False
            return None
        if not isinstance(found, Unlawful):
            return None
        step = steps[found.leg - 1]
        if found.reason.name == "shut":
            return WaitReason("parking", found.minute, node=step.tail)
        cause = cause_of(self.answer.folder, step.number, found.reason)
        return WaitReason(found.reason.name, found.minute, step.number, cause) if cause else None


def stage_after(steps: list[Step], index: int) -> tuple[list[Step], Optional[Step]]:
    """Returns the drives after a wait, and the leg that follows them, if any."""
    drives: list[Step] = []
    after = index + 1
    for step in steps[after:]:
        if step.kind != DRIVE:
            return drives, step
        drives.append(step)
    return drives, None
