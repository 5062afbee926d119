"""The files of a folder, each listed once for all tools, with what it holds.

docs/FORMATS.md describes them. A further table of the program is one more line of TABLES."""
from __future__ import annotations

import dataclasses

GRAPH = "graph.gr"


@dataclasses.dataclass(frozen=True)
class Table:
    """A table of a folder: its name, the headers that it may have, and what a row says."""

    name: str
    headers: tuple[str, ...]
    says: str


VEHICLE_COLUMNS = (
    "name,class,weight_kg,axleload_kg,height_cm,width_cm,length_cm,axles,purpose,flags"
)

# The tables that the program reads, in its order.
TABLES = (
    Table("zones.csv", ("zone,from,offset",), "from an instant on, a zone's offset from UTC"),
    Table("areas.csv", ("area,zone",), "an area's zone"),
    Table("roads.csv", ("arc,area",), "an arc's area"),
    Table("vehicles.csv", (VEHICLE_COLUMNS,), "a vehicle, by its name"),
    Table("rules.csv", ("scope,key,value",), "a rule of an area or an arc"),
    Table("closures.csv", ("arc,from,to",), "a time at which an arc is closed"),
    Table("ratings.csv", ("rating,weight",), "what a minute's wait costs at places of a rating"),
    Table(
        "parking.csv",
        ("node,rating", "node,rating,area,hours"),
        "that a lorry may wait at a node, and when",
    ),
    Table("holidays.csv", ("area,kind,date",), "a public or school holiday of an area"),
    Table("tolls.csv", ("arc,toll",), "what a drive over an arc costs beside its minutes"),
)

# All files that the program reads for a network, in its order.
NETWORK = (GRAPH, *(table.name for table in TABLES))

# The tables that the program reads where a command names them.
JOBS = Table("jobs", ("vehicle,from,to,depart,until",), "a trip of a batch")
STOPS = Table("stops", ("node,service,from,to",), "a stop of a tour")

# Tables that only the tools read.
NODES = "nodes.csv"
WAYS = "ways.csv"
SHAPES = "shapes.csv"
BESIDE = (NODES, WAYS, SHAPES)
