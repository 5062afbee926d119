"""The lines and points of an answer, as GeoJSON and as GPX. Roads have their shapes where the
folder has them, and are straight between nodes elsewhere."""
from __future__ import annotations

from typing import Any, Iterator, Optional

from lorry_tools import tracks
from lorry_tools.answers import DRIVE, SERVE
from lorry_tools.clocks import shown_text
from lorry_tools.instants import cost_text
from lorry_tools.shapes import Position
from lorry_tools.tracks import Lines, Track
from lorry_tools.trips.answer import Answer, Option, Part

Value = dict[str, Any]


def position_of(answer: Answer, node: int) -> Optional[Position]:
    """Returns the longitude and the latitude of a node."""
    place = answer.places.at(node)
    return None if place.lat is None or place.lon is None else (place.lon, place.lat)


def lines_of(answer: Answer) -> Lines:
    return Lines(answer.folder.shapes(), lambda node: position_of(answer, node))


def geometry_of(answer: Answer, lines: Lines, part: Part) -> Optional[Value]:
    """Returns a line for a drive, and a point for a wait or a service; None where nodes have no
    coordinates."""
    if part.kind == DRIVE:
        graph = answer.folder.graph()
        line = lines.drive((arc, *graph.ends(arc)[:2]) for arc in part.arcs)
        return {"type": "LineString", "coordinates": line} if len(line) > 1 else None
    there = position_of(answer, part.tail)
    return {"type": "Point", "coordinates": there} if there else None


def geojson(answer: Answer) -> Value:
    """Returns the parts of all options, and of another way as option 0, as a FeatureCollection."""
    found = [(it.number, it.parts) for it in answer.options]
    if answer.why:
        found.append((0, answer.why.parts))
    features = [it for number, parts in found for it in features_of(answer, number, parts)]
    return {"type": "FeatureCollection", "features": features}


def features_of(answer: Answer, option: int, parts: list[Part]) -> Iterator[Value]:
    lines = lines_of(answer)
    for number, part in enumerate(parts, 1):
        geometry = geometry_of(answer, lines, part)
        if geometry:
            clock = answer.places.clock
            properties = {
                "option": option,
                "part": number,
                "kind": part.kind,
                "what": part.street if part.kind == DRIVE else answer.places.at(part.tail).words(),
                "start": shown_text(clock(part.tail), part.start),
                "end": shown_text(clock(part.head), part.end),
                "minutes": part.minutes,
            }
            yield {"type": "Feature", "geometry": geometry, "properties": properties}


def tracks_of(answer: Answer) -> list[Track]:
    return [track_of(answer, it) for it in answer.options]


def track_of(answer: Answer, option: Option) -> Track:
    def words(step: tracks.Step) -> str:
        if step.kind == DRIVE:
            return answer.streets.name(step.arc)
        verb = "serve" if step.kind == SERVE else "wait"
        return f"{verb} at {answer.places.at(step.tail).words()}"

    steps = [
        tracks.Step(
            it.kind, it.number if it.kind == DRIVE else 0, it.start, it.end, it.tail, it.head
        )
        for it in option.steps
    ]
    title = f"option {option.number}, cost {cost_text(option.cost)}"
    if option.metres is not None:
        title += f", {option.metres / 1000:.1f} km"
    return Track(option.number, title, steps, words, answer.streets.metres.get)


def gpx_text(answer: Answer) -> str:
    """Returns the options as tracks of GPX 1.1, with the time at each point in UTC, and waits and
    services as waypoints."""
    return tracks.gpx_text(tracks_of(answer), lines_of(answer))


def timed_geojson(answer: Answer) -> Value:
    """Returns each leg of the options, with the time at each point in UTC."""
    return tracks.geojson(tracks_of(answer), lines_of(answer))
