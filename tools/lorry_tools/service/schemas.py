"""What the service answers, as a schema: that of tools/trip --json, and those of the other
questions."""
from __future__ import annotations

import json
import os
from typing import Any

from lorry_tools.service.guards import PROBLEM

Value = dict[str, Any]

TRIP_SCHEMA = os.path.join(
    os.path.dirname(os.path.dirname(os.path.abspath(__file__))), "trips", "trip.schema.json"
)
COMPONENTS = "#/components/schemas/"
TEXT, INTEGER, NUMBER, NOTHING = ({"type": it} for it in ("string", "integer", "number", "null"))


def maybe(schema: Value) -> Value:
    return {"anyOf": [schema, NOTHING]}


def listed(schema: Value) -> Value:
    return {"type": "array", "items": schema}


def named(name: str) -> Value:
    return {"$ref": COMPONENTS + name}


def record(description: str, **fields: Value) -> Value:
    """Returns the schema of an object that has all these fields and no others."""
    return {
        "description": description,
        "type": "object",
        "properties": fields,
        "required": list(fields),
        "additionalProperties": False,
    }


PLACE_FIELDS = {
    "node": INTEGER,
    "name": TEXT,
    "town": TEXT,
    "latitude": maybe(NUMBER),
    "longitude": maybe(NUMBER),
    "metres_away": maybe(INTEGER),
}
SIZES = ("weight_kg", "axleload_kg", "height_cm", "width_cm", "length_cm", "axles")

OTHERS: dict[str, Value] = {
    "problem": record(
        "Why a request isn't answered (RFC 7807): DETAIL is for people; LINE and PROGRAM_STATUS "
        "are what the program said, where it refused the request; CHOICES are the places of a "
        "name that several have.",
        type=TEXT,
        title=TEXT,
        status=INTEGER,
        detail=TEXT,
        line=maybe(TEXT),
        program_status=maybe(INTEGER),
        choices=listed(named("found_place")),
    ),
    "service": record(
        "The service itself, and what it allows at most.",
        version=TEXT,
        tiles=maybe(TEXT),
        limits=record(
            "The limits.",
            body_bytes=INTEGER,
            requests=INTEGER,
            runs=INTEGER,
            seconds=NUMBER,
            memory_mb=INTEGER,
            gather_ms=INTEGER,
        ),
    ),
    "folder": record(
        "A folder that is served. TROUBLE says why its files as they are now aren't used.",
        name=TEXT,
        version=TEXT,
        loaded=TEXT,
        nodes=INTEGER,
        arcs=INTEGER,
        named_places=INTEGER,
        has_coordinates={"type": "boolean"},
        has_streets={"type": "boolean"},
        bounds=maybe({**listed(NUMBER), "minItems": 4, "maxItems": 4}),
        zones=listed(TEXT),
        credit=maybe(TEXT),
        trouble=maybe(TEXT),
    ),
    "folders": record("All folders.", folders=listed(named("folder"))),
    "vehicle": record(
        "A lorry of vehicles.csv, or `any`.",
        name=TEXT,
        words=TEXT,
        **{"class": maybe(TEXT)},
        **{it: maybe(INTEGER) for it in SIZES},
        purpose=maybe(TEXT),
        flags=listed(TEXT),
    ),
    "vehicles": record("All lorries of a folder.", vehicles=listed(named("vehicle"))),
    "found_place": record("A node of graph.gr, by nodes.csv.", **PLACE_FIELDS),
    "found_places": record("Places by their names.", places=listed(named("found_place"))),
    "found_streets": record("Names of roads.", streets=listed(TEXT)),
    "roads": record(
        "Roads as a GeoJSON FeatureCollection; LEFT_OUT counts those beyond `most`.",
        type={"const": "FeatureCollection"},
        features=listed(named("road")),
        left_out=INTEGER,
    ),
    "road": record(
        "A road: one arc, or both where it is driven in two directions.",
        type={"const": "Feature"},
        geometry=record(
            "Its shape where the folder has one, or a straight line between its nodes.",
            type={"const": "LineString"},
            coordinates={**listed(named("position")), "minItems": 2},
        ),
        properties=record(
            "What is known of it.",
            arcs={**listed(INTEGER), "minItems": 1, "maxItems": 2},
            street=maybe(TEXT),
            metres=maybe(INTEGER),
            minutes=INTEGER,
            **{"from": INTEGER, "to": INTEGER},
        ),
    ),
    "bans": record(
        "When roads are closed to a lorry; `until` is the first minute that is open again.",
        lorry=TEXT,
        roads=listed(
            record(
                "A road.",
                arc=INTEGER,
                street=maybe(TEXT),
                closed=listed(
                    record("Closed minutes.", **{"from": named("time")}, until=named("time"))
                ),
            )
        ),
        **{"from": named("time")},
        until=named("time"),
    ),
}


def components() -> dict[str, Value]:
    """Returns the schemas of all answers: the definitions of trip.schema.json, the whole of it as
    `trip`, and the others."""
    with open(TRIP_SCHEMA, encoding="utf-8") as file:
        text = file.read().replace("#/definitions/", COMPONENTS)
    whole = json.loads(text)
    definitions: dict[str, Value] = whole.pop("definitions")
    whole.pop("$schema")
    return {"trip": whole, **definitions, **OTHERS}


def answers(name: str, *more: str) -> dict[Any, Any]:
    """Returns the answers of an address, as FastAPI documents them: one of a schema, in further
    types of text, or a problem."""
    kind = "application/geo+json" if name == "roads" else "application/json"
    content: Value = {kind: {"schema": named(name)}}
    content.update((it, {"schema": TEXT}) for it in more)
    problem = {"description": "A problem", "content": {PROBLEM: {"schema": named("problem")}}}
    return {
        200: {"description": "The answer", "content": content},
        "4XX": problem,
        "5XX": problem,
    }
