"""A folder with a few rows of each table, and the words of each command over it.

tools/hostile and tools/fuzz_one use it. It is small on purpose: each of its bytes is changed, and
each call over it refused."""
from __future__ import annotations

import os
import sys
from typing import Mapping, Union

from lorry_tools.trials.one_run import BAD_INPUT, BAD_REQUEST, DONE, REJECTED, Runner

# A trip of two days: the truck waits at node 2 for the closure's end, at node 3 for the ban's end,
# or drives the long way.
TRIP = ["truck", "1", "4", "2020-07-04T00:00Z", "2020-07-05T00:00Z"]
BANS = ["truck", "4", "2020-07-04T00:00Z", "2020-07-05T00:00Z"]
TOUR = TRIP[:4] + ["2020-07-06T00:00Z"]

CERTIFICATE = "plan.cert"
JOBS = "jobs.csv"
STOPS = "stops.csv"
ITINERARY = "itinerary.txt"

NETWORK = {
    "graph.gr": "c Five roads.\np sp 4 5\na 1 2 60\na 2 4 60\na 1 3 90\na 3 4 60\na 1 4 300\n",
    "zones.csv": (
        "zone,from,offset\nberlin,2020-03-29T01:00Z,+02:00\nberlin,2020-10-25T01:00Z,+01:00\n"
    ),
    "areas.csv": "area,zone\nland,UTC\ntown,berlin\n",
    "roads.csv": "arc,area\n4,town\n3,land\n",
    "vehicles.csv": (
        "name,class,weight_kg,axleload_kg,height_cm,width_cm,length_cm,axles,purpose,flags\n"
        "truck,hgv,40000,11500,400,255,1650,5,through,hazmat\n"
        "van,goods,3500,,,,,2,delivery,\n"
    ),
    "rules.csv": (
        "scope,key,value\n"
        'area:town,hgv:conditional,"no @ (weight>7.5 AND Sa 03:00-20:00; PH off)"\n'
        "arc:5,goods,no\n"
        "area:land,maxspeed,80\n"
    ),
    "closures.csv": "arc,from,to\n2,2020-07-04T01:00Z,26563860\n",
    "ratings.csv": "rating,weight\ncheap,0.010\nr,2\n",
    "parking.csv": "node,rating,area,hours\n2,r,,\n3,cheap,town,Mo-Su 00:00-24:00\n",
    "holidays.csv": "area,kind,date\ntown,PH,2020-10-03\nland,SH,2020-07-01\n",
    "tolls.csv": "arc,toll\n5,12.5\n3,0\n",
}

JOBS_TEXT = (
    "vehicle,from,to,depart,until\n"
    "truck,1,4,2020-07-04T00:00Z,2020-07-05T00:00Z\n"
    "any,4,1,26563680,26564080\n"
    "crane,1,4,26563680,26564080\n"
    "van,1,4,26563680,26564080\n"
)

# A stop at the node where the truck waits for the closure's end, and one at the goal.
STOPS_TEXT = (
    "node,service,from,to\n2,30,2020-07-04T01:00Z,26563860\n4,1440,26563680,2020-07-06T00:00Z\n"
)

# The first pair of the truck's trip, with its wait in two parts.
ITINERARY_TEXT = "drive 1\nwait 60\nwait 60\ndrive 2\n"

# The kinds of files that a command reads.
KINDS = [*NETWORK, JOBS, STOPS, ITINERARY, CERTIFICATE]

# Files that gen replaces, so that a file that was left as it was can be told from one that was
# written.
OLD_DRAWING = {
    "graph.gr": "c An old graph.\np sp 1 0\n",
    "closures.csv": "arc,from,to\n",
    "parking.csv": "node,rating\n",
    "ratings.csv": "rating,weight\nold,1\n",
}
DRAWN = list(OLD_DRAWING)


def write_files(folder: str, files: Mapping[str, Union[str, bytes]]) -> None:
    for name, text in files.items():
        with open(os.path.join(folder, name), "wb") as file:
            file.write(text if isinstance(text, bytes) else text.encode("ascii"))


def make(runner: Runner, folder: str) -> None:
    """Writes all files into a folder; the certificate is the program's own."""
    write_files(folder, {**NETWORK, JOBS: JOBS_TEXT, STOPS: STOPS_TEXT, ITINERARY: ITINERARY_TEXT})
    run = runner.run(plan(folder, "--certificate", CERTIFICATE))
    if run.status != DONE:
        sys.exit(
            f"the trip of the small folder ends with status {run.status}, and prints"
            f" {run.printed!r}"
        )


def read_files(folder: str) -> dict[str, bytes]:
    """The bytes of each file of a folder, by its name."""
    files = {}
    for entry in os.scandir(folder):
        if entry.is_file():
            with open(entry.path, "rb") as file:
                files[entry.name] = file.read()
    return files


def restore(folder: str, files: Mapping[str, bytes]) -> None:
    """Puts a folder back to these files, after a run that may have changed some."""
    found = read_files(folder)
    for name in found.keys() - files.keys():
        os.remove(os.path.join(folder, name))
    write_files(folder, {name: text for name, text in files.items() if found.get(name) != text})


def plan(folder: str, *options: str) -> list[str]:
    return ["plan", folder] + TRIP + list(options)


def check(folder: str, name: str = CERTIFICATE) -> list[str]:
    return ["check", folder] + TRIP + [name]


def bans(folder: str) -> list[str]:
    return ["bans", folder] + BANS


def latest(folder: str) -> list[str]:
    return ["latest", folder] + TRIP


def batch(folder: str, workers: int) -> list[str]:
    return ["batch", folder, JOBS, "--workers", str(workers)]


def tour(folder: str) -> list[str]:
    return ["tour", folder] + TOUR + [STOPS]


def breaks(folder: str, *options: str) -> list[str]:
    return ["breaks", folder] + TRIP + list(options)


def explain(folder: str, name: str = ITINERARY) -> list[str]:
    return ["explain", folder] + TRIP + [name]


def gen(folder: str) -> list[str]:
    return ["gen", folder, "7", "2", "3"]


NETWORK_STATUSES = {DONE, BAD_INPUT, BAD_REQUEST}


def readers_of(name: str, folder: str) -> list[tuple[list[str], set[int]]]:
    """The words that read a file of this name, and the statuses that its bytes can cause."""
    if name == CERTIFICATE:
        return [(check(folder), {DONE, REJECTED})]
    if name == JOBS:
        return [(batch(folder, 2), {DONE, BAD_INPUT})]
    if name == STOPS:
        return [(tour(folder), {DONE, BAD_INPUT})]
    if name == ITINERARY:
        return [(explain(folder), {DONE, BAD_INPUT})]
    return [
        (plan(folder), NETWORK_STATUSES),
        (bans(folder), NETWORK_STATUSES),
        (latest(folder), NETWORK_STATUSES),
        (check(folder), NETWORK_STATUSES | {REJECTED}),
        (batch(folder, 1), {DONE, BAD_INPUT}),
        (tour(folder), NETWORK_STATUSES),
        (breaks(folder), NETWORK_STATUSES),
        (explain(folder), NETWORK_STATUSES),
    ]
