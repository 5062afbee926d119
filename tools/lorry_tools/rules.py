"""What closes a road: the row of the rule or closure that the program names, with its text."""
from __future__ import annotations

import dataclasses
import sys
from typing import Optional

from lorry_tools import rule_texts
from lorry_tools.answers import Reason
from lorry_tools.files import WAYS
from lorry_tools.folder import Folder, Row, number_of


@dataclasses.dataclass(frozen=True)
class Cause:
    """What closes a road: a file, its row (0 where it isn't found), and the text that decides."""

    file: str
    row: int
    scope: str
    key: str
    clause: int  # 0 for a closure or a plain rule
    text: str

    def place(self) -> str:
        """Returns the file, the row and the clause, such as `rules.csv 2, clause 1`."""
        row = f" {self.row}" if self.row else ""
        return f"{self.file}{row}" + (f", clause {self.clause}" if self.clause else "")

    def words(self) -> str:
        return f"{self.place()}: {self.text}"


def cause_of(folder: Folder, arc: int, reason: Reason) -> Optional[Cause]:
    """Returns what a reason of `explain` names for an arc; None where it is neither a rule nor a
    closure."""
    if reason.name == "closure":
        return closure_cause(folder, arc, reason.number)
    return rule_cause(folder, arc, reason) if reason.name == "rule" else None


def closure_cause(folder: Folder, arc: int, place: int) -> Cause:
    rows = [it for it in folder.table("closures.csv") if number_of(it["arc"]) == arc]
    if not 1 <= place <= len(rows):
        return Cause("closures.csv", 0, f"arc:{arc}", "", 0, f"closure {place} of arc {arc}")
    row = rows[place - 1]
    text = f"closed from {row['from']} to {row['to']}"
    return Cause("closures.csv", row.number, f"arc:{arc}", "", 0, text)


def rule_cause(folder: Folder, arc: int, reason: Reason) -> Cause:
    conditional = reason.kind == "conditional"
    key = reason.key + (":conditional" if conditional else "")
    clause = reason.number if conditional else 0
    row = rule_row(folder, arc, reason.scope, key)
    if row is None:
        return Cause("rules.csv", 0, reason.scope, key, clause, f"a rule of the {reason.scope}")
    text = clause_text(row["value"], clause) if conditional else row["value"]
    return Cause("rules.csv", row.number, row["scope"], key, clause, text)


def rule_row(folder: Folder, arc: int, scope: str, key: str) -> Optional[Row]:
    """Returns the row of a rule of an arc or of its area."""
    areas, first = folder.areas_of_arcs()
    area = areas.get(arc, first)
    for row in folder.table("rules.csv"):
        on_arc = row["scope"].startswith("arc:") and number_of(row["scope"][4:]) == arc
        if row["key"] == key and (on_arc if scope == "arc" else row["scope"] == f"area:{area}"):
            return row
    return None


def clause_text(value: str, clause: int) -> str:
    """Returns a clause of a conditional value, counted from 1; the whole value where it can't be
    cut."""
    try:
        clauses = rule_texts.cut_clauses(value)
    except rule_texts.NotRead:
        return value
    return clauses[clause - 1].strip(" \t") if 1 <= clause <= len(clauses) else value


class Streets:
    """The names and lengths of roads, by ways.csv, where a folder has it."""

    def __init__(self, folder: Folder):
        self.names: dict[int, str] = {}
        self.metres: dict[int, int] = {}
        for number, name, ref, length in folder.columns(WAYS, "arc", "name", "ref", "metres"):
            arc, metres = number_of(number), number_of(length)
            if arc and (name or ref):
                self.names[arc] = sys.intern(name or ref)
            if arc and metres is not None:
                self.metres[arc] = metres

    def name(self, arc: int) -> str:
        return self.names.get(arc, f"road {arc}")

    def length(self, arcs: list[int]) -> Optional[int]:
        """Returns the metres of some arcs; None where the folder lacks one of them."""
        if not all(arc in self.metres for arc in arcs):
            return None
        return sum(self.metres[arc] for arc in arcs)
