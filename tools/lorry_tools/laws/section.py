"""The part of a country's roads on which a row of a law table holds.

    ref=A 8; from=Dreieck Karlsruhe; to=München-West; box=8.3,48.0,11.6,49.1
    highway=motorway,trunk

Each part narrows it: numbers of roads, of which one suffices; classes of roads; two junctions, each
with other names of it after a `|`; and a box of the least longitude and latitude and the largest
ones. A box beside two junctions is where they are looked for, and all of the road within it is
taken where the map hasn't both."""
from __future__ import annotations

import dataclasses
import re
from typing import Mapping, Optional

Box = tuple[float, float, float, float]
# What a junction's name may begin with, as a law or a map has it.
KIND = re.compile(
    r"^(autobahn-?(kreuz|dreieck)|kreuz|dreieck|anschlussstelle|knoten|nœud|svincolo|"
    r"węzeł|ak|ad|as|kn)\.?\s+",
    re.I,
)


class NoSection(Exception):
    """A text that is no section; the message says why."""


def ref_text(text: str) -> str:
    """A road's number without blanks, in capital letters."""
    return re.sub(r"\s+", "", text).upper()


def refs_in(text: str) -> set[str]:
    """The numbers of a tag `ref`."""
    return {ref_text(it) for it in re.split("[;,]", text) if it.strip()}


def junction_name(text: str) -> str:
    """A junction's name to be compared: without its kind, blanks, signs and capital letters."""
    return re.sub(r"[\W_]+", "", KIND.sub("", text.strip())).lower()


@dataclasses.dataclass(frozen=True)
class Section:
    refs: frozenset[str] = frozenset()
    classes: frozenset[str] = frozenset()
    ends: Optional[tuple[frozenset[str], frozenset[str]]] = None
    box: Optional[Box] = None
    text: str = ""

    @staticmethod
    def of(text: str) -> Section:
        parts: dict[str, str] = {}
        for one in text.split(";") if text.strip() else []:
            name, mark, value = one.partition("=")
            name = name.strip()
            if not mark or name not in ("ref", "highway", "from", "to", "box") or name in parts:
                raise NoSection(f"{one.strip()} is no part of a section")
            parts[name] = value.strip()
        if ("from" in parts) != ("to" in parts) or "from" in parts and "ref" not in parts:
            raise NoSection("two junctions, `from` and `to`, go with a `ref`")
        if "" in parts.values():
            raise NoSection(f"{text}: an empty part")
        return Section(
            frozenset(ref_text(it) for it in parts.get("ref", "").split(",") if it.strip()),
            frozenset(it.strip() for it in parts.get("highway", "").split(",") if it.strip()),
            (names_of(parts["from"]), names_of(parts["to"])) if "from" in parts else None,
            box_of(parts["box"]) if "box" in parts else None,
            text.strip(),
        )

    def is_about(self, road: Mapping[str, str]) -> bool:
        """Whether the number and the class of a road are the section's."""
        if self.classes and road.get("highway") not in self.classes:
            return False
        return not self.refs or bool(self.refs & refs_in(road.get("ref", "")))

    def has_place(self) -> bool:
        """Whether it has to be looked for on the map."""
        return self.ends is not None or self.box is not None


EVERYWHERE = Section()


def names_of(text: str) -> frozenset[str]:
    return frozenset(junction_name(it) for it in text.split("|"))


def box_of(text: str) -> Box:
    numbers = text.split(",")
    try:
        west, south, east, north = (float(it) for it in numbers)
    except ValueError:
        raise NoSection(f"{text} is no box of four numbers") from None
    if not (-180 <= west < east <= 180 and -90 <= south < north <= 90):
        raise NoSection(f"{text} is no box west,south,east,north in degrees")
    return west, south, east, north
