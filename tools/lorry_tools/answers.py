"""What the program answers, each text as a value.

docs/FORMATS.md and docs/COMMANDS.md have the forms."""
from __future__ import annotations

import dataclasses
import json
from typing import Iterator, Optional, Union

from lorry_tools.instants import cost_of, minute_of
from lorry_tools.problems import Problem

DRIVE, WAIT, SERVE = "drive", "wait", "serve"


@dataclasses.dataclass(frozen=True)
class Leg:
    """A leg of an itinerary: a drive over the arc NUMBER, a wait of NUMBER minutes, or the service
    of the stop NUMBER."""

    kind: str
    number: int

    def line(self) -> str:
        return f"{self.kind} {self.number}"


@dataclasses.dataclass
class Pair:
    """An option: its arrival, or for the latest departures its departure, its cost in thousandths,
    and its legs."""

    minute: int
    cost: int
    legs: list[Leg]


@dataclasses.dataclass(frozen=True)
class Reason:
    """Why a leg isn't lawful: `tail`, `unrated`, `late`, `shut`, `goal`, `closure` with its place
    among those of the arc, or `rule` with the scope, key and kind of the rule and the clause."""

    name: str
    scope: str = ""
    key: str = ""
    kind: str = ""
    number: int = 0


@dataclasses.dataclass(frozen=True)
class Lawful:
    """An itinerary is lawful: its arrival and cost, and the first better pair, if any."""

    arrival: int
    cost: int
    better: Optional[tuple[int, int]]


@dataclasses.dataclass(frozen=True)
class Unlawful:
    """An itinerary isn't lawful: the first leg that fails, counted from 1, a minute and the
    reason."""

    leg: int
    minute: int
    reason: Reason


@dataclasses.dataclass(frozen=True)
class RefusedTrip:
    """A trip of a batch that was refused, with its cause."""

    cause: str


class Unexpected(Problem):
    """The program printed what none of its versions prints."""

    def __init__(self, text: str):
        super().__init__(f"the program printed what these tools don't know: {text.strip()[:80]!r}")


def read_json(text: str) -> list[Pair]:
    """Reads the plan that `--form json` prints."""
    try:
        return [
            Pair(int(pair["arrival"]), int(pair["cost"]), [json_leg(it) for it in pair["legs"]])
            for pair in json.loads(text)["pairs"]
        ]
    except (ValueError, KeyError, TypeError):
        raise Unexpected(text) from None


def json_leg(leg: dict[str, Union[str, int]]) -> Leg:
    if leg["kind"] == DRIVE:
        return Leg(DRIVE, int(leg["arc"]))
    return Leg(WAIT, int(leg["minutes"]))


def read_plain(lines: list[str]) -> list[Pair]:
    """Reads plain lines, of a plan, a tour, a trip with breaks, or the latest departures."""
    pairs: list[Pair] = []
    for words in (line.split() for line in lines[1:]):
        if words and words[0] in ("pair", "leave") and len(words) == 3:
            pairs.append(Pair(int(words[1]), cost_of(words[2]), []))
        elif pairs and len(words) == 2 and words[0] in (DRIVE, WAIT, SERVE):
            pairs[-1].legs.append(Leg(words[0], int(words[1])))
        else:
            raise Unexpected(" ".join(words))
    if not lines or lines[0] != f"pairs {len(pairs)}":
        raise Unexpected("\n".join(lines[:1]))
    return pairs


def read_bans(text: str) -> list[tuple[int, int]]:
    """Reads the runs of closed minutes, each with its first minute and the first one after it."""
    runs = []
    for words in (line.split() for line in text.splitlines()):
        if words[:1] == ["closed"] and len(words) == 3:
            low, high = minute_of(words[1]), minute_of(words[2])
            if low is None or high is None:
                raise Unexpected(text)
            runs.append((low, high))
    return runs


def read_explanation(text: str) -> Union[Lawful, Unlawful]:
    words = text.split()
    try:
        if words[0] == "lawful":
            better = (int(words[4]), cost_of(words[5])) if words[3] == "dominated" else None
            return Lawful(int(words[1]), cost_of(words[2]), better)
        if words[0] == "unlawful":
            return Unlawful(int(words[1]), int(words[2]), read_reason(words[3:]))
    except (IndexError, ValueError):
        pass
    raise Unexpected(text)


def read_reason(words: list[str]) -> Reason:
    if words[0] == "rule":
        return Reason("rule", words[1], words[2], words[3], int(words[4]))
    if words[0] == "closure":
        return Reason("closure", number=int(words[1]))
    return Reason(words[0])


def read_batch(text: str) -> Iterator[Union[list[Pair], RefusedTrip]]:
    """Reads the text of a batch, job by job."""
    jobs: list[list[str]] = []
    for line in text.splitlines():
        if line.startswith("job "):
            jobs.append([])
        elif jobs:
            jobs[-1].append(line)
        else:
            raise Unexpected(text)
    for lines in jobs:
        if lines and lines[0].startswith("refused request "):
            yield RefusedTrip(lines[0].split()[2])
        else:
            yield read_plain(lines)
