"""What an OpenStreetMap extract says that roads need: ways with their nodes, barriers, parking,
places, borders.

The extract is read twice: by pyosmium for its relations, and then for its nodes and ways, of an
.osm.pbf file by numpy."""
from __future__ import annotations

import array
import collections
import re
from typing import AbstractSet, Any, Callable, Iterator, Mapping, Optional

import numpy
import osmium

from lorry_tools.conversion import pbf, tags as road_tags
from lorry_tools.conversion.borders import Line
from lorry_tools.conversion.pbf import NO_PLACE, FoundWay
from lorry_tools.conversion.tags import Tags
from lorry_tools.laws.section import refs_in

TagPairs = tuple[tuple[str, str], ...]
# Tags, the number of the object, its nodes, and its place.
Parking = tuple[Tags, int, list[int], int, int]

PLACES = ("city", "town", "village")
WALLS = {
    "bollard",
    "block",
    "jersey_barrier",
    "cycle_barrier",
    "debris",
    "log",
    "kissing_gate",
    "turnstile",
    "stile",
    "fence",
    "wall",
    "motorcycle_barrier",
    "planter",
    "full-height_turnstile",
    "hampshire_gate",
    "horse_stile",
    "chain",
    "rope",
    "spikes",
    "barrier_board",
}
# Barriers that let motor vehicles pass unless their tags say otherwise.
PASSED = {
    "gate",
    "lift_gate",
    "swing_gate",
    "sliding_gate",
    "sliding_beam",
    "bump_gate",
    "wicket_gate",
    "entrance",
    "border_control",
    "toll_booth",
    "cattle_grid",
    "sally_port",
    "kerb",
    "height_restrictor",
    "width_restrictor",
    "yes",
    "bus_trap",
    "sump_buster",
}
PARKING_TAGS = (
    "amenity",
    "highway",
    "hgv",
    "access",
    "opening_hours",
    "name",
    "ref",
    "capacity:hgv",
    "parking",
    "fee",
    "maxstay",
    "maxheight",
    "maxweight",
    "maxlength",
    "hgv:parking",
    "truck",
    "goods",
)
LET_IN = {"yes", "designated", "permissive", "destination", "delivery", "official"}
# The keys that say that motor vehicles of our classes are let in.
DRIVEN = ("access", "vehicle", "motor_vehicle", "goods", "hgv", "bus")
FERRIES = ("ferry", "shuttle_train")
# The keys without one of which a node or a way says nothing here.
NODE_KEYS = frozenset(
    ("barrier", "hazmat", "highway", "amenity", "hgv:parking", "place", *road_tags.LIMITS)
)
WAY_KEYS = frozenset(("highway", "amenity", "route", "hgv:parking", "boundary"))
# The largest coordinates.
FARTHEST_X, FARTHEST_Y = 1_800_000_000, 900_000_000
# Keys that say what a way is.
OWN_KEYS = ("highway", "junction", "route", "duration", "motorroad")


def is_parking(tags: Tags) -> bool:
    return (
        tags.get("amenity") in ("parking", "truck_stop", "fuel", "truck_parking")
        or tags.get("highway") in ("rest_area", "services")
        or "hgv:parking" in tags
    )


def country_of(tags: Tags) -> Optional[str]:
    """The country whose border a relation or a closed way is, in small letters."""
    for key in ("ISO3166-1:alpha2", "ISO3166-1", "country_code_iso3166_1_alpha_2"):
        if re.match(r"[A-Za-z]{2}$", tags.get(key, "")):
            return tags[key].lower()
    return None


def subdivision_of(tags: Tags) -> Optional[str]:
    code = tags.get("ISO3166-2", "")
    return code.lower() if re.match(r"[A-Za-z]{2}-[A-Za-z0-9]{1,3}$", code) else None


class Way:
    """A drivable way: its number in OpenStreetMap, class, name, tags, and the place of its nodes in
    the arrays of the extract."""

    __slots__ = ("number", "tags", "name", "first", "last")

    def __init__(self, number: int, tags: TagPairs, name: str, first: int, last: int) -> None:
        self.number, self.tags, self.name, self.first, self.last = number, tags, name, first, last


class Ways:
    """The drivable ways, by columns; an item is made when it is asked for."""

    def __init__(self) -> None:
        self.numbers, self.firsts, self.lasts = (array.array("q") for _ in range(3))
        # Tags and names by their places in lists that have each once.
        self.tags_of, self.names_of = array.array("i"), array.array("i")
        self.tags: list[TagPairs] = []
        self.names: list[str] = []
        self.place_of_tags: dict[TagPairs, int] = {}
        self.place_of_name: dict[str, int] = {}

    def append(self, number: int, tags: TagPairs, name: str, first: int, last: int) -> None:
        self.add(number, self.places(tags, name), first, last)

    def places(self, tags: TagPairs, name: str) -> tuple[int, int]:
        """The places of tags and of a name in the lists, which get those that they haven't."""
        if tags not in self.place_of_tags:
            self.place_of_tags[tags] = len(self.tags)
            self.tags.append(tags)
        if name not in self.place_of_name:
            self.place_of_name[name] = len(self.names)
            self.names.append(name)
        return self.place_of_tags[tags], self.place_of_name[name]

    def add(self, number: int, places: tuple[int, int], first: int, last: int) -> None:
        self.numbers.append(number)
        self.tags_of.append(places[0])
        self.names_of.append(places[1])
        self.firsts.append(first)
        self.lasts.append(last)

    def __len__(self) -> int:
        return len(self.numbers)

    def __getitem__(self, at: int) -> Way:
        return Way(
            self.numbers[at],
            self.tags[self.tags_of[at]],
            self.names[self.names_of[at]],
            self.firsts[at],
            self.lasts[at],
        )

    def __iter__(self) -> Iterator[Way]:
        return map(self.__getitem__, range(len(self)))


class Restriction:
    """A turn restriction: its number, tags, ways in, nodes and ways out, and whether it has ways
    between them."""

    __slots__ = ("number", "tags", "ways_in", "nodes", "ways_out", "has_ways_between")

    def __init__(
        self,
        number: int,
        tags: Tags,
        ways_in: list[int],
        nodes: list[int],
        ways_out: list[int],
        has_ways_between: bool,
    ) -> None:
        self.number, self.tags, self.ways_in, self.nodes = number, tags, ways_in, nodes
        self.ways_out, self.has_ways_between = ways_out, has_ways_between


class Extract:
    """What was read."""

    def __init__(self) -> None:
        self.counts: collections.Counter[str] = collections.Counter()
        self.classes: collections.Counter[str] = collections.Counter()
        self.other_keys: collections.Counter[str] = collections.Counter()
        self.ways = Ways()
        self.refs, self.xs, self.ys = array.array("q"), array.array("i"), array.array("i")
        self.barriers: dict[int, Tags] = {}
        # The names of the junctions of motorways, at their nodes.
        self.exits: dict[int, str] = {}
        self.parking: list[Parking] = []
        self.places: list[tuple[int, str, int, int]] = []
        # Borders: the code and the ways of each; the ways with their coordinates.
        self.borders: list[tuple[str, list[int]]] = []
        self.border_ways: dict[int, Optional[Line]] = {}
        self.restrictions: list[Restriction] = []
        # Ferries that aren't taken, by the reason.
        self.ferries: dict[str, list[str]] = collections.defaultdict(list)
        self.toll_points: collections.Counter[str] = collections.Counter()


def restriction_of(relation: Any, kind: str, tags: Tags) -> Restriction:
    own = {key: tags[key] for key in tags if key.startswith("restriction") or key == "except"}
    mode = kind.removeprefix("restriction")
    if mode and "restriction" in own:
        # An older form: the type says which vehicles it is about.
        own["restriction" + mode] = own.pop("restriction")
    members = [(it.role, it.type, it.ref) for it in relation.members]
    return Restriction(
        relation.id,
        own,
        [ref for role, one, ref in members if role == "from" and one == "w"],
        [ref for role, one, ref in members if role == "via" and one == "n"],
        [ref for role, one, ref in members if role == "to" and one == "w"],
        any(role == "via" and one == "w" for role, one, _ in members),
    )


class Relations(osmium.SimpleHandler):
    def __init__(self, found: Extract, wants_borders: bool) -> None:
        super().__init__()
        self.found, self.wants_borders = found, wants_borders
        self.parking: list[tuple[Tags, set[int]]] = []

    def relation(self, relation: Any) -> None:
        self.found.counts["relations"] += 1
        tags = {tag.k: tag.v for tag in relation.tags}
        kind = tags.get("type", "")
        if kind.startswith("restriction"):
            self.found.restrictions.append(restriction_of(relation, kind, tags))
        elif (
            self.wants_borders
            and tags.get("boundary") == "administrative"
            and kind in ("boundary", "multipolygon")
        ):
            country = country_of(tags) if tags.get("admin_level", "2") == "2" else None
            code = country or subdivision_of(tags)
            members = [
                it.ref
                for it in relation.members
                if it.type == "w" and it.role in ("outer", "inner", "", "exclave", "enclave")
            ]
            if code:
                self.found.borders.append((code, members))
                self.found.border_ways.update((ref, None) for ref in members)
            elif tags.get("admin_level") == "2":
                self.found.counts["borders of countries without a code"] += 1
        elif kind == "multipolygon" and is_parking(tags):
            self.parking.append(
                (
                    {key: tags[key] for key in PARKING_TAGS if key in tags},
                    {it.ref for it in relation.members if it.type == "w"},
                )
            )


class WayTags:
    """What the tags of a way say here: whether it is parking, its country if it is a border, and
    why it isn't a road that is taken. Of one that is, the places of its tags and name in the list
    of ways, once it has them, and the keys that aren't kept."""

    __slots__ = ("tags", "is_parking", "country", "highway", "reason", "places", "others")

    def __init__(self, tags: Tags, choice: Choice) -> None:
        self.tags, self.is_parking = tags, is_parking(tags)
        is_border = tags.get("boundary") == "administrative"
        self.country = country_of(tags) if is_border else None
        self.highway = tags.get("highway")
        self.reason = choice.leaves_out(self.highway, tags) if self.highway else None
        self.places: Optional[tuple[int, int]] = None
        self.others: list[str] = []


class NodesAndWays:
    """Takes the nodes and ways of an extract."""

    # What the tags of the last ways say is known of so many.
    MOST_KNOWN = 10_000

    def __init__(self, found: Extract, parts_of_parking: Mapping[int, int], choice: Choice) -> None:
        self.found, self.choice = found, choice
        self.parts_of_parking = parts_of_parking
        self.parts: dict[int, list[tuple[int, int, int]]] = {}
        self.is_relevant: dict[str, bool] = {}
        # By the identity of tags: ways of a block that have the same share them.
        self.known: dict[int, WayTags] = {}

    def said(self, tags: Tags) -> WayTags:
        found = self.known.get(id(tags))
        if found is None or found.tags is not tags:
            if len(self.known) >= self.MOST_KNOWN:
                self.known.clear()
            found = self.known[id(tags)] = WayTags(tags, self.choice)
        return found

    def node(self, number: int, tags: Tags, x: int, y: int) -> None:
        found = self.found
        if abs(x) > FARTHEST_X or abs(y) > FARTHEST_Y:
            return
        if "barrier" in tags or any(key in tags for key in road_tags.LIMITS) or "hazmat" in tags:
            found.barriers[number] = {
                key: tags[key] for key in tags if key == "barrier" or road_tags.is_relevant(key)
            }
        if tags.get("highway") == "motorway_junction" and "name" in tags:
            found.exits[number] = tags["name"]
        if tags.get("barrier") == "toll_booth" or tags.get("highway") == "toll_gantry":
            found.toll_points[tags.get("barrier") or tags["highway"]] += 1
        if is_parking(tags):
            found.parking.append(
                (
                    {key: tags[key] for key in PARKING_TAGS if key in tags},
                    number,
                    [number],
                    x,
                    y,
                )
            )
        if tags.get("place") in PLACES and "name" in tags:
            found.places.append((PLACES.index(tags["place"]), tags["name"], x, y))

    def way(self, way: FoundWay) -> None:
        found, tags = self.found, way.tags
        if way.number in found.border_ways:
            found.border_ways[way.number] = line_of(way)
        number = self.parts_of_parking.get(way.number)
        if number is not None:
            self.parts.setdefault(number, []).extend(nodes_of(way))
        if WAY_KEYS.isdisjoint(tags):
            return
        said = self.said(tags)
        if said.is_parking:
            nodes = nodes_of(way)
            if nodes:
                found.parking.append(parking_of(tags, way.number, nodes))
        if said.country and len(way.refs) > 3 and way.refs[0] == way.refs[-1]:
            found.border_ways[way.number] = line_of(way)
            found.borders.append((said.country, [way.number]))
        if said.reason:
            found.classes[said.reason] += 1
        elif said.highway:
            self.line(way, said)
        elif tags.get("route") in FERRIES:
            self.ferry(way, said)

    def ferry(self, way: FoundWay, said: WayTags) -> None:
        """Takes a ferry for motor vehicles whose duration is known."""
        tags = way.tags
        what = f"{tags['route']} {tags.get('name', '')} (way {way.number})"
        if not self.choice.ferries:
            self.found.ferries["ferries and trains for vehicles (--ferries out)"].append(what)
        elif not any(tags.get(key) in LET_IN or f"{key}:conditional" in tags for key in DRIVEN):
            self.found.ferries["ferries that don't say that they take lorries"].append(what)
        elif road_tags.duration_of(tags.get("duration", "")) is None:
            self.found.ferries["ferries and trains for vehicles without a duration"].append(what)
        else:
            self.line(way, said)

    def line(self, way: FoundWay, said: WayTags) -> None:
        """Takes a way with its nodes and its relevant tags."""
        found = self.found
        if not way.is_whole:
            found.counts["drivable ways with nodes outside the extract"] += 1
        parts = self.taken(way)
        if not parts:
            found.counts["drivable ways of less than two nodes"] += 1
            return
        if said.places is None:
            said.places = found.ways.places(*self.line_of_tags(said))
        for key in said.others:
            found.other_keys[key] += 1
        found.counts["drivable ways"] += 1
        for first, last in parts:
            found.ways.add(way.number, said.places, first, last)

    def line_of_tags(self, said: WayTags) -> tuple[TagPairs, str]:
        """The relevant tags and the name of a way; notes which keys aren't kept."""
        tags, pairs, refs = said.tags, [], self.choice.refs
        for key in tags:
            if self.is_kept(key) or key == "ref" and refs and refs & refs_in(tags[key]):
                pairs.append((key, tags[key]))
            else:
                said.others.append(key)
        return tuple(sorted(pairs)), " ".join(tags[key] for key in ("ref", "name") if key in tags)

    def is_kept(self, key: str) -> bool:
        if key not in self.is_relevant:
            self.is_relevant[key] = key in OWN_KEYS or road_tags.is_relevant(key)
        return self.is_relevant[key]

    def taken(self, way: FoundWay) -> list[tuple[int, int]]:
        """Takes the nodes of a way that are there and within the polygon, and returns the places of
        its parts in the arrays."""
        found = self.found
        if not way.is_whole or self.choice.inside:
            return list(self.parts_inside(way))
        first = len(found.refs)
        if len(way.refs) < 2:
            return []
        for column, own in ((found.refs, way.refs), (found.xs, way.xs), (found.ys, way.ys)):
            column.frombytes(own.tobytes())
        return [(first, len(found.refs))]

    def parts_inside(self, way: FoundWay) -> Iterator[tuple[int, int]]:
        found, inside = self.found, self.choice.inside
        first = len(found.refs)
        for ref, x, y in nodes_of(way):
            if inside and not inside(x, y):
                yield from self.part(first)
                first = len(found.refs)
                continue
            found.refs.append(ref)
            found.xs.append(x)
            found.ys.append(y)
        yield from self.part(first)

    def part(self, first: int) -> Iterator[tuple[int, int]]:
        """Yields a part of a way that begins at a place of the arrays, or takes it out again."""
        found = self.found
        if len(found.refs) - first > 1:
            yield first, len(found.refs)
        else:
            del found.refs[first:], found.xs[first:], found.ys[first:]


def nodes_of(way: FoundWay) -> list[tuple[int, int, int]]:
    """The nodes of a way that are there, with their coordinates."""
    every = zip(way.refs.tolist(), way.xs.tolist(), way.ys.tolist())
    return [it for it in every if it[1] != NO_PLACE]


def line_of(way: FoundWay) -> Line:
    is_there = way.xs != NO_PLACE
    return numpy.column_stack((way.xs[is_there], way.ys[is_there]))


class Handler(osmium.SimpleHandler):
    """Hands nodes and ways on from pyosmium."""

    def __init__(
        self, taker: NodesAndWays, wanted: pbf.Wanted, progress: Callable[[str], None]
    ) -> None:
        super().__init__()
        self.taker, self.wanted, self.progress = taker, wanted, progress
        self.nodes = self.ways = 0

    def node(self, node: Any) -> None:
        self.nodes += 1
        if self.nodes % 1_000_000 == 0:
            self.progress(f"{self.nodes:,} nodes read")
        if len(node.tags) and node.location.valid():
            tags = {tag.k: tag.v for tag in node.tags}
            self.taker.node(node.id, tags, node.location.x, node.location.y)

    def way(self, way: Any) -> None:
        self.ways += 1
        if self.ways % 200_000 == 0:
            self.progress(f"{self.ways:,} ways read")
        if not any(key in way.tags for key in WAY_KEYS) and not self.wanted.has_way(way.id):
            return
        tags = {tag.k: tag.v for tag in way.tags}
        places = [(it.ref, it.location) for it in way.nodes]
        refs = numpy.array([ref for ref, _ in places], dtype=numpy.int64)
        xs = numpy.array([it.x for _, it in places], dtype=numpy.int32)
        ys = numpy.array([it.y for _, it in places], dtype=numpy.int32)
        is_whole = bool((xs != NO_PLACE).all())
        self.taker.way(FoundWay(way.id, tags, refs, xs, ys, is_whole))


def parking_of(tags: Tags, number: int, nodes: list[tuple[int, int, int]]) -> Parking:
    """A parking area with its nodes and its middle."""
    middle = [sum(it[at] for it in nodes) // len(nodes) for at in (1, 2)]
    return (
        {key: tags[key] for key in PARKING_TAGS if key in tags},
        number,
        [it[0] for it in nodes],
        middle[0],
        middle[1],
    )


class Choice:
    """Which roads are taken: their classes, tracks and ferries, and places; None takes all. And of
    which numbers roads keep theirs."""

    def __init__(
        self,
        speeds: Mapping[str, int],
        tracks: bool,
        ferries: bool = False,
        inside: Optional[Callable[[int, int], bool]] = None,
        refs: AbstractSet[str] = frozenset(),
    ) -> None:
        self.speeds, self.tracks, self.ferries, self.inside = speeds, tracks, ferries, inside
        self.refs = refs

    def leaves_out(self, highway: str, tags: Tags) -> Optional[str]:
        """Why a road isn't taken; None where it is."""
        if highway not in self.speeds:
            return f"highway={highway}"
        if tags.get("area") == "yes":
            return "area=yes"
        if highway == "track" and not self.tracks and tags.get("hgv") not in LET_IN:
            return "highway=track without hgv=yes"
        if highway == "pedestrian":
            if not any(tags.get(key) in LET_IN or f"{key}:conditional" in tags for key in DRIVEN):
                return "highway=pedestrian without motor vehicles"
        if tags.get("service") == "emergency_access":
            return "service=emergency_access"
        return None


def read(
    path: str, choice: Choice, wants_borders: bool, progress: Callable[[str], None]
) -> Extract:
    """Reads an extract; raises RuntimeError where pyosmium can't."""
    if path.endswith(".pbf"):
        try:
            return read_by(path, choice, wants_borders, progress, True)
        except pbf.Unusual:
            pass
    return read_by(path, choice, wants_borders, progress, False)


def read_by(
    path: str,
    choice: Choice,
    wants_borders: bool,
    progress: Callable[[str], None],
    by_numpy: bool,
) -> Extract:
    found = Extract()
    relations = Relations(found, wants_borders)
    reader = osmium.io.Reader(path, osmium.osm.osm_entity_bits.RELATION)
    osmium.apply(reader, relations)
    reader.close()
    parts = {way: number for number, (_, ways) in enumerate(relations.parking) for way in ways}
    taker = NodesAndWays(found, parts, choice)
    found.counts["nodes"], found.counts["ways"] = read_with(path, taker, progress, by_numpy)
    for number, nodes in taker.parts.items():
        found.parking.append(parking_of(relations.parking[number][0], -number - 1, nodes))
    return found


def read_with(
    path: str, taker: NodesAndWays, progress: Callable[[str], None], by_numpy: bool
) -> tuple[int, int]:
    """Hands the nodes and ways of an extract on, and returns how many it has."""
    wanted = pbf.Wanted(NODE_KEYS, WAY_KEYS, (taker.found.border_ways, taker.parts_of_parking))
    if by_numpy:
        file = pbf.File(wanted, taker.node, progress)
        for way in file.read(path):
            taker.way(way)
        return file.nodes, file.ways
    handler = Handler(taker, wanted, progress)
    handler.apply_file(path, locations=True)
    return handler.nodes, handler.ways


def read_borders(path: str) -> tuple[list[tuple[str, list[int]]], dict[int, Optional[Line]]]:
    """Reads only the borders of another file."""
    found = read(path, Choice({}, False), True, lambda text: None)
    return found.borders, found.border_ways
