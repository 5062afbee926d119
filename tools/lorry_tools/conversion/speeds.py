"""How fast vehicles are: a table by the class of a road for each class of vehicles, the limits of
lorries by country, and those that hold at night.

The limits are from memory: look them up before you rely on them."""
from __future__ import annotations

import re
from typing import Iterable, Mapping

from lorry_tools.conversion.access import CLASSES, NO, OPEN, YES, Lists

# Kilometres an hour by the class of a road, with its junctions; maxspeed lowers them.
LORRIES = {
    "motorway": 80,
    "motorway_link": 50,
    "trunk": 75,
    "trunk_link": 45,
    "primary": 60,
    "primary_link": 40,
    "secondary": 55,
    "secondary_link": 40,
    "tertiary": 45,
    "tertiary_link": 35,
    "unclassified": 35,
    "road": 30,
    "residential": 25,
    "living_street": 7,
    "service": 12,
    "pedestrian": 7,
    "track": 10,
}
# Vans up to 3.5 tonnes, and coaches.
VANS = {**LORRIES, "motorway": 115, "trunk": 95, "primary": 75, "secondary": 65, "tertiary": 50}
COACHES = {**LORRIES, "motorway": 95, "trunk": 80}
BY_CLASS = {"hgv": LORRIES, "goods": VANS, "bus": COACHES}

# The highest speed of heavy lorries on motorways, and on other roads outside towns, by country.
LIMITS = {
    "at": (80, 70),
    "ch": (80, 80),
    "cz": (80, 80),
    "de": (80, 60),
    "fr": (90, 80),
    "hu": (80, 70),
    "it": (80, 70),
    "li": (80, 80),
    "pl": (80, 70),
    "sk": (90, 90),
}
OTHER_LIMIT = 80

# When night speeds hold, and for which lorries: as in Austria.
NIGHT, NIGHT_WEIGHT = "22:00-05:00", "weight>7.5"


def most(vehicle: str, country: str, tags: Mapping[str, str]) -> float:
    """The highest speed of a class of vehicles on a road of a country, in kilometres an hour."""
    if vehicle != "hgv":
        return 130
    on_motorways, elsewhere = LIMITS.get(country.split("-")[0], (OTHER_LIMIT, OTHER_LIMIT))
    is_motorway = tags.get("highway", "").startswith("motorway") or tags.get("motorroad") == "yes"
    return on_motorways if is_motorway else elsewhere


def night_lists() -> Lists:
    """Who may drive a road at its speed of the day: heavy lorries not by night."""
    closed = ((YES, ()), (NO, tuple(sorted((NIGHT, NIGHT_WEIGHT)))))
    return tuple(closed if name.startswith("hgv") else OPEN for name in CLASSES)


def nights_of(words: Iterable[str]) -> dict[str, int]:
    """The night speeds of countries, from words such as at=60; raises ValueError."""
    found = {}
    for word in words:
        parts = re.match(r"([A-Za-z]{2})=(\d{2,3})$", word)
        if not parts or not 10 <= int(parts[2]) <= 130:
            raise ValueError(f"--night-speed {word}: not a country and kilometres an hour")
        found[parts[1].lower()] = int(parts[2])
    return found
