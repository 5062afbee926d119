"""Warns where one driver may not drive a plan, by Regulation (EC) 561/2006, Articles 6 to 8."""
from __future__ import annotations

from lorry_tools.answers import DRIVE, WAIT
from lorry_tools.instants import span_text
from lorry_tools.trips.answer import Option, Step
from lorry_tools.trips.request import BREAK, DRIVE_A_DAY, DRIVE_TO_BREAK, REST


def longest_drive(steps: list[Step], pause: int) -> int:
    """Returns the most minutes of driving without a wait of PAUSE minutes."""
    most = driven = 0
    for step in steps:
        if step.kind == DRIVE:
            driven += step.end - step.start
            most = max(most, driven)
        elif step.kind == WAIT and step.end - step.start >= pause:
            driven = 0
    return most


def warnings_of(options: list[Option], has_rule: bool) -> list[str]:
    """Returns what one driver may not do, with the options of which it is true; HAS_RULE tells
    whether a rule for breaks was kept."""
    found = []
    without_break = {it.number: longest_drive(it.steps, BREAK) for it in options}
    over = [number for number, minutes in without_break.items() if minutes > DRIVE_TO_BREAK]
    if over:
        most = span_text(max(without_break[it] for it in over))
        found.append(
            f"{named(over)}: up to {most} of driving without a break of {BREAK} minutes; one "
            f"driver may drive {span_text(DRIVE_TO_BREAK)} (Regulation (EC) 561/2006, Article 7)"
            + ("" if has_rule else ": --breaks plans breaks")
        )
    without_rest = {it.number: longest_drive(it.steps, REST) for it in options}
    over = [number for number, minutes in without_rest.items() if minutes > DRIVE_A_DAY]
    if over:
        most = span_text(max(without_rest[it] for it in over))
        found.append(
            f"{named(over)}: up to {most} of driving without a rest of {span_text(REST)}; one "
            f"driver may drive {span_text(DRIVE_A_DAY)} a day (Regulation (EC) 561/2006, Articles "
            "6 and 8): the program plans no daily rests"
        )
    return found


def named(numbers: list[int]) -> str:
    """Returns options in words, such as `options 1, 2 and 4`."""
    if len(numbers) == 1:
        return f"option {numbers[0]}"
    first = ", ".join(str(it) for it in numbers[:-1])
    return f"options {first} and {numbers[-1]}"
