"""What a conversion read, changed, closed and left out, by count and example."""
from __future__ import annotations

import collections
import dataclasses
from typing import Iterator, Mapping, Optional

KINDS = (
    ("read", "Read"),
    ("changed", "Changed: the program's words say the same or something stricter"),
    (
        "closed",
        (
            "Closed: these texts can't be read, so the road is taken as closed where they may close"
            " it (--unread open leaves them out)"
        ),
    ),
    ("left out", "Left out"),
    ("warning", "Look at these"),
)
# Distinct examples of a line that are printed; the file has all.
MOST_EXAMPLES = 4


@dataclasses.dataclass
class Found:
    """How often an example was found, and where first."""

    count: int
    where: str


class Report:
    def __init__(self) -> None:
        self.numbers: list[tuple[str, object]] = []
        self.found: dict[str, dict[str, dict[str, Found]]] = {
            kind: collections.defaultdict(dict) for kind, _ in KINDS
        }

    def number(self, what: str, value: object) -> None:
        self.numbers.append((what, value))

    def add(self, kind: str, what: str, example: str, where: str = "", count: int = 1) -> None:
        examples = self.found[kind][what]
        if example in examples:
            examples[example].count += count
        else:
            examples[example] = Found(count, where)

    def count(self, kind: str, what: Optional[str] = None) -> int:
        lines = self.found[kind]
        chosen = [it for name, it in lines.items() if what in (None, name)]
        return sum(it.count for examples in chosen for it in examples.values())

    def text(self, most: Optional[int] = None) -> str:
        lines = []
        width = max((len(what) for what, _ in self.numbers), default=0)
        lines += [f"{what.ljust(width)}  {value}" for what, value in self.numbers]
        for kind, title in KINDS:
            if self.found[kind]:
                lines += ["", title + ":"]
                found = self.found[kind]
                for what in sorted(found, key=lambda it: (-self.count(kind, it), it)):
                    examples = found[what]
                    lines += list(self.lines(what, examples, most))
        return "\n".join(lines) + "\n"

    def lines(self, what: str, examples: Mapping[str, Found], most: Optional[int]) -> Iterator[str]:
        total = sum(it.count for it in examples.values())
        yield f"{total:>7,} {what}"
        ordered = sorted(examples.items(), key=lambda it: (-it[1].count, it[0]))
        for example, found in ordered[:most]:
            if example:
                where = f" ({found.where})" if found.where else ""
                yield f"{'':>7}   {found.count:,} x {example}{where}"
        if most is not None and len(ordered) > most:
            yield f"{'':>7}   and {len(ordered) - most:,} others"
