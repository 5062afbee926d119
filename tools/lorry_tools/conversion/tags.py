"""The tags of a road: whom it lets in, in each direction, and how fast it is.

The keys are those of OpenStreetMap's wiki: access tags of land transport, conditional restrictions,
`:forward` and `:backward`, `oneway`, limits such as `maxweight`, `hazmat`. Nothing is left out in
silence: what is changed, closed because it can't be read, or not considered, is noted."""
from __future__ import annotations

import re
from typing import Callable, Iterable, Iterator, Mapping, Optional, TypeVar

from lorry_tools.conversion import access, notation
from lorry_tools.conversion.access import (
    CLASSES,
    CLOSED,
    DESTINATION,
    NO,
    OPEN,
    YES,
    Clauses,
    Lists,
)
from lorry_tools.conversion.notation import Changed, Unread

Tags = dict[str, str]
# A kind of note, what is said, and an example.
Said = tuple[str, str, str]
# What a clause says, its access first.
Given = TypeVar("Given", bound="tuple[object, ...]")

# The words of lorry_plan itself.
NATIVE = {
    **dict.fromkeys(("yes", "designated", "permissive", "discouraged"), YES),
    **dict.fromkeys(("destination", "delivery"), DESTINATION),
    **dict.fromkeys(("no", "private", "agricultural", "forestry", "customers", "permit"), NO),
}
# Words that mean one of them.
OTHER_WORDS = {
    **dict.fromkeys(
        ("official", "public", "allowed", "fee", "toll", "unsuitable", "tolerated"), "yes"
    ),
    **dict.fromkeys(
        (
            "residents",
            "resident",
            "employees",
            "staff",
            "members",
            "military",
            "emergency",
            "restricted",
            "none",
            "taxi",
            "use_sidepath",
            "dismount",
            "tourist_bus",
            "foot",
            "bicycle",
            "school",
        ),
        "no",
    ),
    **dict.fromkeys(("loading", "unloading", "deliveries"), "delivery"),
    "local": "destination",
}
SAYS_NOTHING = ("unknown", "undefined", "fixme", "")
LIFTED = ("none", "no", "unlimited", "unsigned", "no_sign", "no_indications", "default", "no_limit")

# The keys that speak of each class, from general to special.
KEYS_OF = {
    "hgv": ("access", "vehicle", "motor_vehicle", "hgv"),
    "hgv_articulated": ("access", "vehicle", "motor_vehicle", "hgv", "hgv_articulated"),
    "goods": ("access", "vehicle", "motor_vehicle", "goods"),
    "bus": ("access", "vehicle", "motor_vehicle", "psv", "bus"),
}
LAW_KEYS = ("access", "vehicle", "motor_vehicle", "hgv", "hgv_articulated", "goods", "bus")
ACCESS_KEYS = LAW_KEYS[:3] + ("motorcar", "psv") + LAW_KEYS[3:]

# The limits, and the size of a vehicle that each is about. A vehicle has one weight only.
LIMITS = {
    "maxweight": "weight",
    "maxweightrating": "weight",
    "maxgcweight": "weight",
    "maxgcweightrating": "weight",
    "maxaxleload": "axleload",
    "maxheight": "height",
    "maxheight:physical": "height",
    "maxheight:legal": "height",
    "maxwidth": "width",
    "maxwidth:physical": "width",
    "maxlength": "length",
}
SIZES = {
    "weight": "weight",
    "weightrating": "weight",
    "gcweight": "weight",
    "gcweightrating": "weight",
    "maxweight": "weight",
    "axleload": "axleload",
    "height": "height",
    "width": "width",
    "length": "length",
    "axles": "axles",
}
COMPARISON = re.compile(r"([a-z]+)\s*(<=|>=|==|<|>|=)\s*(.+)$")
# What a vehicle may carry or draw, with the flag that says so.
FLAG_KEYS = {
    "hazmat": "hazmat",
    "hazmat:water": "hazmat_water",
    "trailer": "trailer",
    **{f"hazmat:{it}": f"hazmat_{it.lower()}" for it in "ABCDE"},
}
# Words of conditions that say something of a vehicle, its load or the weather.
FLAGS = {
    "hazmat",
    "trailer",
    "caravan",
    "articulated",
    "bdouble",
    "permit",
    "residents",
    "resident",
    "employees",
    "customers",
    "emergency",
    "disabled",
    "doctor",
    "military",
    "forestry",
    "agricultural",
    "wet",
    "snow",
    "ice",
    "fog",
    "winter",
    "snow_chains",
    "winter_tyres",
}

DIRECTIONS = ("forward", "backward")
ONEWAY = {
    "yes": "forward",
    "true": "forward",
    "1": "forward",
    "-1": "backward",
    "reverse": "backward",
    "no": "",
    "false": "",
    "0": "",
    "alternating": "",
}
# Words in a key that make it worth a line where it isn't read.
WATCHED = re.compile(
    r"(^|:)(access|vehicle|motor_vehicle|motorcar|hgv|hgv_articulated|goods|bus|psv|coach|"
    r"tourist_bus|trailer|hazmat|bdouble|oneway|toll|conditional|tunnel_code|adr_tunnel_code|"
    r"restriction|traffic_sign)(:|$)|^max|^overtaking:hgv"
)
# Kilometres an hour for words of maxspeed.
SPEED_WORDS = {
    "walk": 7,
    "living_street": 7,
    "urban": 50,
    "rural": 80,
    "trunk": 80,
    "motorway": 80,
    "zone30": 30,
    "zone:30": 30,
    "30": 30,
    "20": 20,
}

TONNES = {
    "": 1,
    "t": 1,
    "kg": 0.001,
    "st": 0.90718474,
    "lb": 0.00045359237,
    "lbs": 0.00045359237,
    "cwt": 0.05080235,
}
METRES = {"": 1, "m": 1, "cm": 0.01, "ft": 0.3048, "in": 0.0254}


# The longest duration of a ferry, in minutes: as long as an arc may be.
LONGEST_FERRY = 10_080


def duration_of(text: str) -> Optional[int]:
    """The minutes of a duration: `25`, `00:25`, `1:30:00`, or of ISO 8601 such as PT1H30M; None
    where it isn't one."""
    text = text.strip()
    iso = re.match(r"P(?:(\d+)D)?(?:T(?:(\d+)H)?(?:(\d+)M)?(?:\d+S)?)?$", text)
    clock = re.match(r"(\d{1,3}):(\d\d)(?::\d\d)?$", text)
    if iso:
        days, hours, minutes = (int(it or 0) for it in iso.groups())
        found = (days * 24 + hours) * 60 + minutes
    elif clock:
        found = int(clock[1]) * 60 + int(clock[2])
    else:
        found = int(text) if re.match(r"\d{1,5}$", text) else 0
    return found if 0 < found <= LONGEST_FERRY else None


def trimmed(number: float, decimals: int) -> str:
    """A number rounded down to so many decimals, as text."""
    scaled = int(number * 10**decimals + 1e-6)
    whole, part = divmod(scaled, 10**decimals)
    text = f"{whole}.{part:0{decimals}d}" if part else str(whole)
    return text.rstrip("0") if part else text


def size_of(kind: str, text: str, changed: Changed) -> str:
    """The tonnes, metres or axles of a text, as lorry_plan writes them."""
    value = (
        text.strip()
        .replace(",", ".")
        .replace("\u2032", "'")
        .replace("\u2033", '"')
        .replace("''", '"')
    )
    if kind == "axles":
        if not re.match(r"\d{1,6}$", value):
            raise Unread("no number of axles")
        return str(int(value))
    feet = re.match(
        r"(\d+(?:\.\d+)?)\s*(?:'|ft|feet)\s*-?\s*(?:(\d+(?:\.\d+)?)\s*(?:\"|in|inches)?)?$", value
    )
    plain = re.match(r"(\d+(?:\.\d+)?)\s*([a-z]*)$", value)
    is_weight = kind in ("weight", "axleload")
    if feet and not is_weight:
        number, unit = float(feet[1]) * 0.3048 + float(feet[2] or 0) * 0.0254, "ft"
    elif plain and plain[2] in (TONNES if is_weight else METRES):
        unit = plain[2]
        number = float(plain[1]) * (TONNES if is_weight else METRES)[unit]
        if not unit and is_weight and number >= 400:
            number, unit = number / 1000, "kg"
            changed("a weight without a unit read as kilograms", text)
        elif not unit and not is_weight and number >= (100 if kind == "length" else 20):
            number, unit = number / 100, "cm"
            changed("a size without a unit read as centimetres", text)
    else:
        raise Unread("no size")
    if number >= 999_999:
        raise Unread("no size")
    return trimmed(number, 3 if is_weight else 2)


class Notes:
    """What is said of the tags of one road, each thing once."""

    def __init__(self) -> None:
        self.said: dict[Said, bool] = {}

    def add(self, kind: str, what: str, example: str) -> None:
        self.said[kind, what, example] = True


class Reading:
    """How tags are read."""

    def __init__(
        self,
        unread: str = "close",
        motorcar: bool = False,
        school_holidays: bool = False,
        first_year: int = 0,
        speeds: Optional[Mapping[str, int]] = None,
        law_flags: Iterable[str] = (),
    ) -> None:
        self.known_flags = FLAGS.union(law_flags)
        self.unread, self.motorcar, self.school_holidays, self.first_year = (
            unread,
            motorcar,
            school_holidays,
            first_year,
        )
        self.speeds = speeds or {}
        self.notes = Notes()
        self.flags: set[str] = set()
        # The class of vehicles whose minutes are wanted.
        self.mode = "hgv"

    def changed(self, key: str) -> Changed:
        return lambda what, example: self.notes.add("changed", what, f"{key}={example}")

    def refuse(self, cause: str, example: str) -> bool:
        """Notes a text that can't be read, and says whether the road is closed for it."""
        closes = self.unread == "close"
        self.notes.add("closed" if closes else "left out", f"not read: {cause}", example)
        return closes

    # Words

    def word(self, key: str, value: str, is_bus: bool) -> Optional[int]:
        """The access that a plain value gives; None where it says nothing."""
        text = value.strip().lower()
        if text in NATIVE:
            return NATIVE[text]
        if text in OTHER_WORDS:
            self.notes.add(
                "changed", "a value read as another word", f"{key}={value} as {OTHER_WORDS[text]}"
            )
            return NATIVE[OTHER_WORDS[text]]
        if text in SAYS_NOTHING:
            self.notes.add("left out", "a value that says nothing", f"{key}={value}")
            return None
        if text in ("psv", "bus"):
            self.notes.add(
                "changed", "a value read as another word", f"{key}={value} as no, but for buses"
            )
            return YES if is_bus else NO
        if ";" in text:
            found = [it for it in self.words(key, text.split(";"), is_bus) if it is not None]
            if found:
                self.notes.add("changed", "a list of values read as its widest", f"{key}={value}")
                return max(found)
        raise Unread("a value that isn't known")

    def words(self, key: str, values: Iterable[str], is_bus: bool) -> Iterator[Optional[int]]:
        """The accesses of those values that can be read."""
        for value in values:
            try:
                yield self.word(key, value, is_bus)
            except Unread:
                pass

    # Conditions

    def part(self, text: str, lifts: bool) -> list[str]:
        """The parts of a condition that a text between two `AND` says; `delivery` stands for a
        purpose."""
        text = text.strip()
        if re.match(r"(destination|delivery)$", text):
            return ["delivery"]
        if notation.FLAG.match(text):
            if text not in self.known_flags:
                raise Unread("a word that isn't known in a condition")
            return [text]
        comparison = COMPARISON.match(text)
        if comparison:
            name, sign, number = comparison.groups()
            if name not in SIZES:
                raise Unread("a comparison of something else")
            if name != SIZES[name]:
                self.notes.add("changed", "another weight read as the weight", text)
            size = size_of(SIZES[name], number, self.changed(name))
            return [f"{SIZES[name]}{'=' if sign == '==' else sign}{size}"]

        def changed(what: str, example: str) -> None:
            self.notes.add("changed", what, example)

        holidays = re.match(r"(PH|SH) ((?:Mo|Tu|We|Th|Fr|Sa|Su).*)$", text)
        if holidays:
            for start, end in re.findall(r"(\d{1,2}:\d\d)\s*-\s*(\d{1,2}:\d\d)", text):
                if start.zfill(5) >= end.zfill(5):
                    raise Unread("weekdays of holidays with hours past midnight")
            days = notation.hours(holidays[1], changed, self.school_holidays, lifts)
            rest = notation.hours(holidays[2], changed, self.school_holidays, lifts)
            changed("hours written in other words", f"{text} as {days} AND {rest}")
            return [days, rest]
        return [notation.hours(text, changed, self.school_holidays, lifts)]

    def parts(self, text: str, lifts: bool) -> list[str]:
        text = text.strip()
        if text.startswith("(") and text.endswith(")"):
            text = text[1:-1]
        if "(" in text or ")" in text:
            raise Unread("parentheses within a condition")
        found = []
        for one in re.split(r"\s+(?:AND|and)\s+", text):
            found += self.part(one, lifts)
        return found

    def is_past(self, text: str) -> bool:
        text = re.sub(r"[<>=]\s*[\d.]+", "", text)
        years = [int(year) for year in re.findall(r"(?<![\d.:])(?:19|20)\d\d(?![\d.:])", text)]
        return bool(years) and max(years) < self.first_year

    def clauses(
        self, key: str, text: str, value_of: Callable[[str], Given]
    ) -> Iterator[tuple[Optional[Given], Optional[list[str]]]]:
        """Yields each clause of a conditional text: its value, and its parts, or none where its
        condition can't be read."""
        for one in notation.outside_parentheses(text, ";"):
            one = one.strip()
            if not one:
                continue
            example = f"{key}={one}"
            value, at, condition = one.partition("@")
            if self.is_past(condition):
                self.notes.add("left out", "a condition of years that are past", example)
                continue
            try:
                if not at:
                    raise Unread("a clause without a condition")
                given = value_of(value.strip())
            except Unread as error:
                if self.refuse(str(error), example):
                    yield None, None
                continue
            if given is None:
                continue
            try:
                yield given, self.parts(condition, given[0] == YES)
            except Unread as error:
                if self.refuse(str(error), example):
                    yield given, None

    def with_clause(
        self, clauses: Clauses, given: Optional[int], parts: Optional[list[str]]
    ) -> Clauses:
        """The list after a clause; parts are None where it may hold at any time, and the value
        where it can't be read at all."""
        if given is None:
            return access.capped(clauses, NO)
        if parts is None:
            return access.capped(clauses, given)
        if "delivery" in parts:
            parts = [it for it in parts if it != "delivery"]
            if given == NO:
                self.notes.add(
                    "changed", "a ban of deliveries alone read as one of all", " AND ".join(parts)
                )
            else:
                return access.for_deliveries(clauses, parts)
        return access.simplified(clauses + (access.clause(given, parts),))

    # Keys

    def value(self, tags: Tags, key: str, way: str) -> tuple[str, Optional[str]]:
        """The plain value of a key in a direction, with the key that has it."""
        for one in (f"{key}:{way}", key):
            if one in tags:
                return one, tags[one]
        return key, None

    def conditional(self, tags: Tags, key: str, way: str) -> tuple[str, Optional[str]]:
        for one in (f"{key}:{way}:conditional", f"{key}:conditional:{way}", f"{key}:conditional"):
            if one in tags:
                return one, tags[one]
        return key, None

    def by_key(self, clauses: Clauses, tags: Tags, key: str, way: str, is_bus: bool) -> Clauses:
        """The list after a key's plain value and its conditional one."""
        name, value = self.value(tags, key, way)
        if value is not None:
            try:
                given = self.word(name, value, is_bus)
                if given is not None:
                    clauses = ((given, ()),)
            except Unread as error:
                if self.refuse(str(error), f"{name}={value}"):
                    clauses = access.capped(clauses, NO)
        name, value = self.conditional(tags, key, way)
        if value is not None:
            for said, parts in self.clauses(
                name, value, lambda text: (self.word(name, text, is_bus),)
            ):
                if said is None:
                    clauses = self.with_clause(clauses, None, parts)
                elif said[0] is not None:
                    clauses = self.with_clause(clauses, said[0], parts)
        return clauses

    def by_access(self, tags: Tags, way: str, start: Clauses) -> list[Clauses]:
        lists = []
        for name in CLASSES:
            clauses, keys = start, list(KEYS_OF[name])
            if self.motorcar and not any(
                self.value(tags, key, way)[1] for key in ("vehicle", "motor_vehicle", "hgv")
            ):
                keys.insert(3, "motorcar")
            for key in keys:
                clauses = self.by_key(clauses, tags, key, way, name == "bus")
            lists.append(clauses)
        return lists

    def limit(self, tags: Tags, base: str, kind: str, name: str, way: str) -> Clauses:
        """The list of one limit for a class."""
        clauses, number = OPEN, None
        modes = [""] + [f":{key}" for key in KEYS_OF[name][1:]]
        for mode in modes:
            key, value = self.value(tags, base + mode, way)
            if value is not None:
                try:
                    number = self.least(kind, key, value)
                    clauses = OPEN if number is None else ((YES, ()), (NO, (f"{kind}>{number}",)))
                    if number is not None and base not in (
                        "maxweight",
                        "maxaxleload",
                        "maxheight",
                        "maxwidth",
                        "maxlength",
                    ):
                        self.notes.add(
                            "changed",
                            "a limit read as that of the size which a vehicle has",
                            f"{key}={value} as {kind}>{number}",
                        )
                except Unread as error:
                    if self.refuse(f"a limit with {error}", f"{key}={value}"):
                        clauses = CLOSED
            key, value = self.conditional(tags, base + mode, way)
            if value is not None:
                for given, parts in self.clauses(
                    key, value, lambda text: self.limited(kind, key, text)
                ):
                    clauses = self.with_limit(clauses, given, parts, kind)
        return clauses

    def least(self, kind: str, key: str, value: str) -> Optional[str]:
        """The least size of a list; None where there is no limit."""
        found = [
            size_of(kind, one, self.changed(key))
            for one in re.split(r"[;|]", value)
            if one.strip().lower() not in LIFTED
        ]
        return min(found, key=float) if found else None

    def limited(self, kind: str, key: str, text: str) -> tuple[int, Optional[str]]:
        """What a clause of a limit says: an access for those above its number, with the number, if
        any."""
        number = self.least(kind, key, text)
        return (YES, None) if number is None else (NO, number)

    def with_limit(
        self,
        clauses: Clauses,
        given: Optional[tuple[int, Optional[str]]],
        parts: Optional[list[str]],
        kind: str,
    ) -> Clauses:
        if given is None:
            return access.capped(clauses, NO)
        allowed, number = given
        if parts is None:
            return (
                clauses
                if number is None
                else access.both(clauses, ((YES, ()), (NO, (f"{kind}>{number}",))))
            )
        if number is None:
            return self.with_clause(clauses, allowed, parts)
        if "delivery" in parts:
            # A number for deliveries alone: both limits then hold, which is stricter.
            self.notes.add(
                "changed", "a limit of deliveries alone read as one of all", f"{kind}>{number}"
            )
            rest = [it for it in parts if it != "delivery"]
            return access.both(
                clauses, access.simplified(OPEN + (access.clause(NO, rest + [f"{kind}>{number}"]),))
            )
        return access.simplified(
            clauses + (access.clause(YES, parts), access.clause(NO, parts + [f"{kind}>{number}"]))
        )

    def oneway(self, tags: Tags, name: str, way: str, implied: str) -> Clauses:
        """The list that says when this direction may be driven."""
        clauses = CLOSED if implied and implied != way else OPEN
        for mode in [""] + [f":{key}" for key in KEYS_OF[name][1:]]:
            key = "oneway" + mode
            value = tags.get(key)
            if value in ONEWAY:
                clauses = CLOSED if ONEWAY[value] and ONEWAY[value] != way else OPEN
            elif value is not None and self.refuse(
                "a direction that isn't known", f"{key}={value}"
            ):
                clauses = CLOSED
            if f"{key}:conditional" in tags:

                def directed(text: str) -> tuple[int]:
                    if text not in ONEWAY:
                        raise Unread("a direction that isn't known")
                    return (NO if ONEWAY[text] and ONEWAY[text] != way else YES,)

                for given, parts in self.clauses(
                    f"{key}:conditional", tags[f"{key}:conditional"], directed
                ):
                    clauses = self.with_clause(clauses, given and given[0], parts)
        return clauses

    def lists(self, tags: Tags, way: str, start: Clauses = OPEN, implied: str = "") -> Lists:
        """Whom the tags let in, class by class, in a direction."""
        lists = self.by_access(tags, way, start)
        for base, kind in LIMITS.items():
            if any(key.startswith(base) for key in tags):
                lists = [
                    access.both(own, self.limit(tags, base, kind, name, way))
                    for own, name in zip(lists, CLASSES)
                ]
        for key, flag in FLAG_KEYS.items():
            if any(one.startswith(key) for one in tags):
                flagged = access.with_parts(self.by_key(OPEN, tags, key, way, False), (flag,))
                lists = [access.both(own, flagged) for own in lists]
        code = tags.get("hazmat:adr_tunnel_code", tags.get("hazmat:tunnel_code", ""))
        if code.upper() in tuple("BCDE"):
            lists = [
                access.both(own, ((YES, ()), (NO, (f"hazmat_{code.lower()}",)))) for own in lists
            ]
        lists = [
            access.both(own, self.oneway(tags, name, way, implied))
            for own, name in zip(lists, CLASSES)
        ]
        self.flags.update(
            part for own in lists for _, parts in own for part in parts if notation.FLAG.match(part)
        )
        return tuple(lists)

    # Keys that aren't read

    def is_read(self, key: str) -> bool:
        plain = key
        for end in (":conditional", ":forward", ":backward"):
            plain = plain.replace(end, "")
        if plain == "motorcar":
            return self.motorcar
        base, _, mode = plain.rpartition(":")
        modes = LAW_KEYS[1:] + ("psv",)
        return (
            plain in ACCESS_KEYS
            or plain in LIMITS
            or plain in FLAG_KEYS
            or plain == "oneway"
            or mode in modes
            and (base in LIMITS or base == "oneway")
            or plain
            in ("hazmat:adr_tunnel_code", "hazmat:tunnel_code", "toll", "toll:hgv", "maxstay")
            or plain in ("maxspeed", f"maxspeed:{self.mode}")
            and not key.endswith(":conditional")
        )

    def note_keys(self, tags: Tags) -> None:
        """Notes each key that matters: whether it was read, or is left out."""
        refused = {
            example.split("=")[0]
            for kind, _, example in self.notes.said
            if kind in ("closed", "left out")
        }
        for key, value in tags.items():
            if self.is_read(key) and key not in refused:
                self.notes.add("read", kind_of(key), f"{key}={value}")
            elif WATCHED.search(key) and not self.is_read(key):
                if key.startswith("max") and not key.startswith("maxspeed"):
                    self.notes.add(
                        "left out",
                        "a limit under a key that isn't read: look at these roads",
                        f"{key}={value}",
                    )
                elif key == "motorcar":
                    self.notes.add(
                        "left out",
                        (
                            "motorcar, which isn't about lorries; older data mean all motors"
                            " (--motorcar)"
                        ),
                        f"{key}={value}",
                    )
                elif key.startswith("maxspeed"):
                    self.notes.add("left out", "a speed that isn't read", f"{key}={value}")
                else:
                    self.notes.add("left out", "a key that isn't read", f"{key}={value}")

    # Speeds

    def speed(self, tags: Tags, way: str) -> float:
        """Kilometres an hour: that of the class, or what maxspeed says where that is less."""
        found = self.speeds[tags["highway"]]
        own = f"maxspeed:{self.mode}"
        for key in (f"{own}:{way}", own, f"maxspeed:{way}", "maxspeed"):
            if key in tags:
                text = tags[key].strip().lower()
                number = re.match(r"(\d+(?:\.\d+)?)\s*(km/h|kmh|kph|mph)?$", text)
                word = text.split(":", 1)[-1]
                if number and float(number[1]) > 0:
                    return min(found, float(number[1]) * (1.609344 if number[2] == "mph" else 1))
                if word in SPEED_WORDS:
                    return min(found, SPEED_WORDS[word])
                if text not in ("none", "signals", "variable"):
                    self.notes.add("left out", "a speed that isn't read", f"{key}={tags[key]}")
        return found


def kind_of(key: str) -> str:
    """What a key that is read is about."""
    if key.endswith(":conditional"):
        return "conditional tags"
    base = key.split(":")[0]
    if base in LIMITS:
        return "limits"
    return {
        "oneway": "one-way streets",
        "maxspeed": "speeds",
        "toll": "tolls",
        "hazmat": "dangerous goods",
    }.get(base, "access tags")


def is_relevant(key: str) -> bool:
    """Whether the key may change who is let in."""
    return bool(WATCHED.search(key)) or key.startswith("maxspeed")


def law_lists(rows: Iterable[tuple[str, str]], flags: Iterable[str] = ()) -> Lists:
    """The lists of a country's law, from rows of keys and values in lorry_plan's own words; raises
    Unread where one isn't of that form. Laws may have further flags."""
    tags: Tags = {}
    for key, value in rows:
        base = key[: -len(":conditional")] if key.endswith(":conditional") else key
        if base not in LAW_KEYS:
            raise Unread(f"a key that isn't one of rules: {key}")
        tags[key] = (
            tags[key] + "; " + value if key in tags and key.endswith(":conditional") else value
        )
    strict = Reading("close", school_holidays=True, law_flags=flags)
    lists = strict.by_access(tags, "forward", OPEN)
    for kind, what, example in strict.notes.said:
        if kind in ("closed", "left out"):
            raise Unread(f"{what}: {example}")
    return tuple(lists)
