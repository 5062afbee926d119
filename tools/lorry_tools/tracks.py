"""Options as lines over the map with the time at each point, as GPX 1.1 and as GeoJSON (RFC 7946).

A drive follows the shapes of its roads, or straight lines between nodes where these have none, at
one speed on each road."""
from __future__ import annotations

import dataclasses
import datetime
import html
from typing import Any, Callable, Iterable, Iterator, Optional

from lorry_tools.answers import DRIVE
from lorry_tools.instants import instant_text, moment_of
from lorry_tools.shapes import Position, Shapes, with_times
from lorry_tools.templates import NOT_XML

Value = dict[str, Any]
# A point and its Unix time in seconds.
Timed = tuple[Position, float]


@dataclasses.dataclass(frozen=True)
class Step:
    """A leg with its minutes and ends; `arc` is 0 where it is no drive."""

    kind: str
    arc: int
    start: int
    end: int
    tail: int
    head: int


@dataclasses.dataclass(frozen=True)
class Track:
    """An option: its number, its title, its legs, and the words of each."""

    number: int
    title: str
    steps: list[Step]
    words: Callable[[Step], str]
    metres: Callable[[int], Optional[int]]


class Lines:
    """The points of roads, by shapes.csv and by the coordinates of nodes."""

    def __init__(self, shapes: Shapes, position: Callable[[int], Optional[Position]]):
        self.shapes, self.position = shapes, position

    def road(self, arc: int, tail: int, head: int) -> list[Position]:
        """Returns the points of an arc, or its ends that have coordinates."""
        ends = [it for it in (self.position(tail), self.position(head)) if it is not None]
        return self.shapes.line(arc) or ends

    def drive(self, roads: Iterable[tuple[int, int, int]]) -> list[Position]:
        """Returns the points of roads that follow on each other, each an arc with its ends."""
        points: list[Position] = []
        for arc, tail, head in roads:
            line = self.road(arc, tail, head)
            points += line[1:] if points and line and is_near(points[-1], line[0]) else line
        return points

    def timed(self, steps: Iterable[Step]) -> list[Timed]:
        """Returns the points of drives with their times; one that two roads share comes once."""
        points: list[Timed] = []
        for step in steps:
            line = list(with_times(self.road(step.arc, step.tail, step.head), step.start, step.end))
            shared = points and line and is_near(points[-1][0], line[0][0])
            points += line[1:] if shared and points[-1][1] == line[0][1] else line
        return points


def is_near(one: Position, other: Position) -> bool:
    """Whether two places are the same as nodes.csv writes them."""
    return abs(one[0] - other[0]) < 2e-5 and abs(one[1] - other[1]) < 2e-5


def second_text(second: float) -> str:
    moment = moment_of(0) + datetime.timedelta(seconds=round(second))
    return f"{moment:%Y-%m-%dT%H:%M:%SZ}"


# GPX.


def gpx_text(tracks: list[Track], lines: Lines) -> str:
    """Returns the options as tracks, with waits and services as waypoints. Times are in UTC."""
    found = [
        '<?xml version="1.0" encoding="UTF-8"?>',
        '<gpx version="1.1" creator="lorry_plan" xmlns="http://www.topografix.com/GPX/1/1">',
    ]
    for track in tracks:
        for step in track.steps:
            there = lines.position(step.tail)
            if step.kind != DRIVE and there:
                name = f"option {track.number}: {track.words(step)}"
                found.append(point_line("wpt", (there, 60.0 * step.start), name))
    for track in tracks:
        found.append(f" <trk><name>{escaped(track.title)}</name><trkseg>")
        drives = [it for it in track.steps if it.kind == DRIVE]
        found += [point_line("trkpt", it) for it in lines.timed(drives)]
        found.append(" </trkseg></trk>")
    return "\n".join([*found, "</gpx>", ""])


def point_line(kind: str, point: Timed, name: str = "") -> str:
    (lon, lat), second = point
    named = f"<name>{escaped(name)}</name>" if name else ""
    return f' <{kind} lat="{lat}" lon="{lon}"><time>{second_text(second)}</time>{named}</{kind}>'


def escaped(text: str) -> str:
    return html.escape(NOT_XML.sub(" ", text))


# GeoJSON.


def geojson(tracks: list[Track], lines: Lines) -> Value:
    """Returns a feature for each leg; `coordTimes` of a drive has the time of each point."""
    features = [it for track in tracks for it in features_of(track, lines)]
    return {"type": "FeatureCollection", "features": features}


def features_of(track: Track, lines: Lines) -> Iterator[Value]:
    for number, step in enumerate(track.steps, 1):
        properties: Value = {"option": track.number, "leg": number, "kind": step.kind}
        properties["what"] = track.words(step)
        properties["start"], properties["end"] = instant_text(step.start), instant_text(step.end)
        properties["minutes"] = step.end - step.start
        geometry: Optional[Value] = None
        if step.kind == DRIVE:
            points = lines.timed([step])
            if len(points) > 1:
                geometry = {"type": "LineString", "coordinates": [it[0] for it in points]}
            properties["arc"], properties["metres"] = step.arc, track.metres(step.arc)
            properties["coordTimes"] = [second_text(it[1]) for it in points]
        else:
            there = lines.position(step.tail)
            geometry = {"type": "Point", "coordinates": there} if there else None
        if geometry:
            yield {"type": "Feature", "geometry": geometry, "properties": properties}
