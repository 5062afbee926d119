"""Nodes and ways of an .osm.pbf file, by numpy: a block of them at once.

The form is that of OpenStreetMap's wiki, PBF Format. What is rare there, such as other compressions
than zlib's or nodes after ways, raises Unusual, and pyosmium reads the file."""
from __future__ import annotations

import struct
import zlib
from typing import Any, BinaryIO, Callable, Iterable, Iterator, Mapping, NamedTuple, Optional

import numpy

# Coordinates are whole numbers of 1e-7 degrees; this one is none.
NO_PLACE = 2147483647
FEATURES = {b"OsmSchema-V0.6", b"DenseNodes"}
LARGEST_HEADER, LARGEST_BLOB = 64 << 10, 32 << 20
# The granularity, in nanodegrees, and what a coordinate has of them.
GRANULARITY, UNIT = 100, 100
VARINT, DOUBLE, BYTES, FLOAT = 0, 1, 2, 5
# How a way's number, keys, values and nodes begin.
ID, KEYS, VALUES, REFS = 8, 18, 26, 66

Tags = dict[str, str]
# A number, the tags, and the coordinates of a node.
TakeNode = Callable[[int, Tags, int, int], None]


class Unusual(Exception):
    """The file has a form that isn't read here."""


class FoundWay(NamedTuple):
    """A way: its number and tags, its nodes with their coordinates as arrays, and whether all
    nodes are there."""

    number: int
    tags: Tags
    refs: Any
    xs: Any
    ys: Any
    is_whole: bool


class Wanted(NamedTuple):
    """The keys of nodes and of ways that are wanted, and ways that are wanted whatever their
    keys."""

    node_keys: frozenset[str]
    way_keys: frozenset[str]
    ways: Iterable[Mapping[int, object]]

    def has_way(self, number: int) -> bool:
        return any(number in it for it in self.ways)


def varint(data: bytes, at: int) -> tuple[int, int]:
    """A number, and the place after it."""
    value = shift = 0
    while True:
        byte = data[at]
        at += 1
        value |= (byte & 127) << shift
        if byte < 128:
            return value, at
        shift += 7


def fields(data: bytes) -> Iterator[tuple[int, Any]]:
    """The fields of a message: numbers, or bytes."""
    at, end = 0, len(data)
    while at < end:
        # (most of these numbers are short)
        tag, at = (data[at], at + 1) if data[at] < 128 else varint(data, at)
        kind = tag & 7
        if kind == VARINT:
            value, at = varint(data, at)
            yield tag >> 3, value
            continue
        if kind == BYTES:
            size, at = (data[at], at + 1) if data[at] < 128 else varint(data, at)
        elif kind in (DOUBLE, FLOAT):
            size = 8 if kind == DOUBLE else 4
        else:
            raise Unusual("a field of another kind")
        if at + size > end:
            raise Unusual("a field that ends after its message")
        begin, at = at, at + size
        yield tag >> 3, data[begin:at]


def signed(number: int) -> int:
    """A number of 64 bits with its sign."""
    return number - (1 << 64) if number >> 63 else number


def numbers(data: bytes) -> Any:
    """The numbers of packed fields, as an array."""
    letters: Any = numpy.frombuffer(data, dtype=numpy.uint8)
    ends: Any = numpy.flatnonzero(letters < 128)
    if len(ends) == 0 or ends[-1] != len(letters) - 1:
        if len(letters):
            raise Unusual("packed numbers that don't end")
        return numpy.zeros(0, dtype=numpy.int64)
    firsts = numpy.concatenate(([0], ends[:-1] + 1))
    found = (letters[firsts] & 127).astype(numpy.uint64)
    sizes = ends - firsts + 1
    for place in range(1, int(sizes.max())):
        longer = numpy.flatnonzero(sizes > place)
        part = (letters[firsts[longer] + place] & 127).astype(numpy.uint64)
        found[longer] |= part << numpy.uint64(7 * place)
    return found.view(numpy.int64)


def zigzag(values: Any) -> Any:
    """Numbers with signs, of those that packed fields have for them."""
    return (values >> 1 & 0x7FFFFFFFFFFFFFFF) ^ -(values & 1)


def blobs(file: BinaryIO) -> Iterator[tuple[bytes, bytes]]:
    """The kind and the bytes of each block of a file."""
    while True:
        head = file.read(4)
        if not head:
            return
        size = struct.unpack(">I", head)[0] if len(head) == 4 else LARGEST_HEADER
        if size >= LARGEST_HEADER:
            raise Unusual("no block")
        header = dict(fields(file.read(size)))
        length = header.get(3, LARGEST_BLOB + 1)
        if not isinstance(length, int) or length > LARGEST_BLOB or 1 not in header:
            raise Unusual("no block")
        data = file.read(length)
        if len(data) < length:
            raise Unusual("a block that is cut")
        blob = dict(fields(data))
        if 1 in blob:
            yield header[1], blob[1]
        elif 3 in blob:
            yield header[1], zlib.decompress(blob[3])
        else:
            raise Unusual("another compression")


class Block:
    """A block: its texts, groups, and how coordinates are written."""

    def __init__(self, data: bytes) -> None:
        self.groups: list[bytes] = []
        self.texts: list[bytes] = []
        self.granularity, self.offsets = GRANULARITY, [0, 0]
        for field, value in fields(data):
            if field == 1:
                self.texts = [text for kind, text in fields(value) if kind == 1]
            elif field == 2:
                self.groups.append(value)
            elif field == 17:
                self.granularity = value
            elif field in (19, 20):
                self.offsets[field - 19] = signed(value)
        self.known: dict[int, str] = {}
        # The tags of ways, by their keys and values as they are written; None for others than the
        # wanted ones.
        self.way_tags: dict[tuple[bytes, bytes], Optional[Tags]] = {}

    def text(self, number: int) -> str:
        found = self.known.get(number)
        if found is None:
            found = self.known[number] = self.texts[number].decode("utf-8")
        return found

    def tags(self, keys: bytes, values: bytes) -> Tags:
        pairs = zip(places_in(keys), places_in(values))
        return {self.text(key): self.text(value) for key, value in pairs}

    def places_of(self, keys: Iterable[str]) -> set[int]:
        """The numbers of some texts."""
        wanted = {key.encode() for key in keys}
        return {number for number, text in enumerate(self.texts) if text in wanted}

    def coordinates(self, data: bytes, offset: int) -> Any:
        found = numpy.cumsum(zigzag(numbers(data))) * self.granularity + offset
        # (libosmium cuts off what is beyond the last decimal)
        return (numpy.sign(found) * (numpy.abs(found) // UNIT)).astype(numpy.int32)


class Places:
    """The coordinates of nodes by their numbers."""

    def __init__(self) -> None:
        self.parts: list[tuple[Any, Any, Any]] = []
        self.refs: Optional[Any] = None

    def add(self, refs: Any, xs: Any, ys: Any) -> None:
        if self.refs is not None:
            raise Unusual("nodes after ways")
        self.parts.append((refs, xs, ys))

    def index(self) -> None:
        """Ends the adding."""
        if self.refs is None:
            if not self.parts:
                raise Unusual("ways before nodes")
            self.refs = numpy.concatenate([it[0] for it in self.parts])
            self.xs = numpy.concatenate([it[1] for it in self.parts])
            self.ys = numpy.concatenate([it[2] for it in self.parts])
            self.parts = []
            if not (self.refs[1:] > self.refs[:-1]).all():
                raise Unusual("nodes that aren't in their order")

    def of(self, refs: Any) -> tuple[Any, Any, Any]:
        """The coordinates of some nodes, and whether each is there; after `index`."""
        own: Any = self.refs
        at = numpy.minimum(numpy.searchsorted(own, refs), len(own) - 1)
        is_there = own[at] == refs
        xs, ys = (numpy.where(is_there, it[at], NO_PLACE) for it in (self.xs, self.ys))
        return xs.astype(numpy.int32), ys.astype(numpy.int32), is_there


class File:
    """What is read of a file, and how many nodes and ways it has."""

    def __init__(self, wanted: Wanted, take_node: TakeNode, progress: Callable[[str], None]):
        self.wanted, self.take_node, self.progress = wanted, take_node, progress
        self.places = Places()
        self.nodes = self.ways = 0

    def read(self, path: str) -> Iterator[FoundWay]:
        """Takes the wanted nodes, and yields the wanted ways."""
        try:
            with open(path, "rb") as file:
                for kind, data in blobs(file):
                    if kind == b"OSMHeader":
                        features = {it for field, it in fields(data) if field == 4}
                        if features - FEATURES:
                            raise Unusual("other features")
                    elif kind == b"OSMData":
                        yield from self.block(Block(data))
        except (LookupError, ValueError, struct.error, zlib.error, TypeError) as error:
            raise Unusual(f"no block: {error}") from None

    def block(self, block: Block) -> Iterator[FoundWay]:
        for group in block.groups:
            ways = []
            for field, value in fields(group):
                if field == 2:
                    self.dense(block, dict(fields(value)))
                elif field == 3:
                    ways.append(value)
                elif field == 1:
                    raise Unusual("nodes by themselves")
            if ways:
                yield from self.some_ways(block, ways)

    def dense(self, block: Block, found: dict[int, Any]) -> None:
        refs = numpy.cumsum(zigzag(numbers(found.get(1, b""))))
        ys = block.coordinates(found.get(8, b""), block.offsets[0])
        xs = block.coordinates(found.get(9, b""), block.offsets[1])
        if not len(refs) == len(xs) == len(ys):
            raise Unusual("nodes without their places")
        self.places.add(refs, xs, ys)
        before = self.nodes // 1_000_000
        self.nodes += len(refs)
        if self.nodes // 1_000_000 > before:
            self.progress(f"{self.nodes:,} nodes read")
        if found.get(10):
            self.tagged(block, numbers(found[10]), refs, xs, ys)

    def tagged(self, block: Block, texts: Any, refs: Any, xs: Any, ys: Any) -> None:
        """Takes the nodes of some that have one of the wanted keys."""
        ends = numpy.flatnonzero(texts == 0)
        if len(ends) != len(refs):
            raise Unusual("an empty text")
        wanted = block.places_of(self.wanted.node_keys)
        has_key = numpy.flatnonzero(numpy.isin(texts, list(wanted)))
        for node in numpy.unique(numpy.searchsorted(ends, has_key)).tolist():
            first, last = int(ends[node - 1]) + 1 if node else 0, int(ends[node])
            own = texts[first:last].tolist()
            tags = {block.text(key): block.text(value) for key, value in zip(own[::2], own[1::2])}
            self.take_node(int(refs[node]), tags, int(xs[node]), int(ys[node]))

    def some_ways(self, block: Block, ways: list[bytes]) -> Iterator[FoundWay]:
        self.places.index()
        before = self.ways // 200_000
        self.ways += len(ways)
        if self.ways // 200_000 > before:
            self.progress(f"{self.ways:,} ways read")
        wanted = block.places_of(self.wanted.way_keys)
        known = block.way_tags
        found: list[tuple[int, Tags]] = []
        nodes: list[bytes] = []
        for way in ways:
            number, keys, values, refs = way_parts(way)
            pair = keys, values
            if pair not in known:
                is_wanted = not wanted.isdisjoint(places_in(keys))
                known[pair] = block.tags(keys, values) if is_wanted else None
            tags = known[pair]
            if tags is None:
                if not self.wanted.has_way(number):
                    continue
                tags = block.tags(keys, values)
            found.append((number, tags))
            nodes.append(refs)
        yield from self.with_nodes(found, nodes)

    def with_nodes(self, ways: list[tuple[int, Tags]], nodes: list[bytes]) -> Iterator[FoundWay]:
        """The ways, each with its nodes, whose numbers are written as steps."""
        data = b"".join(nodes)
        if not data:
            yield from (FoundWay(*it, *(numpy.zeros(0, dtype=int),) * 3, True) for it in ways)
            return
        ends_of: Any = numpy.cumsum([len(it) for it in nodes])
        letters: Any = numpy.frombuffer(data, dtype=numpy.uint8)
        lasts: Any = numpy.where(ends_of > 0, numpy.cumsum(letters < 128)[ends_of - 1], 0)
        firsts = numpy.concatenate(([0], lasts[:-1]))
        steps = zigzag(numbers(data))
        sums = numpy.concatenate(([0], numpy.cumsum(steps)))
        refs = sums[1:] - numpy.repeat(sums[firsts], lasts - firsts)
        xs, ys, is_there = self.places.of(refs)
        gaps = numpy.concatenate(([0], numpy.cumsum(~is_there)))
        is_whole = (gaps[lasts] == gaps[firsts]).tolist()
        for (number, tags), a, b, whole in zip(ways, firsts.tolist(), lasts.tolist(), is_whole):
            yield FoundWay(number, tags, refs[a:b], xs[a:b], ys[a:b], whole)


def way_parts(data: bytes) -> tuple[int, bytes, bytes, bytes]:
    """The number of a way, and its keys, values and nodes as they are written."""
    number: Optional[int] = None
    keys = values = refs = b""
    at, end = 0, len(data)
    while at < end:
        tag = data[at]
        at += 1
        if tag == ID:
            number, at = varint(data, at)
            continue
        if tag & 7 != BYTES or tag > 127:
            found = dict(fields(data))
            return signed(found[1]), found.get(2, b""), found.get(3, b""), found.get(8, b"")
        size = data[at]
        at += 1
        if size > 127:
            size, at = varint(data, at - 1)
        begin, at = at, at + size
        if tag == KEYS:
            keys = data[begin:at]
        elif tag == VALUES:
            values = data[begin:at]
        elif tag == REFS:
            refs = data[begin:at]
    if at > end:
        raise Unusual("a field that ends after its message")
    if number is None:
        raise Unusual("a way without a number")
    return signed(number), keys, values, refs


def places_in(data: bytes) -> Any:
    """The numbers of a short packed field."""
    if data.isascii():
        return list(data)
    found: list[int] = []
    at = 0
    while at < len(data):
        value, at = varint(data, at)
        found.append(value)
    return found
