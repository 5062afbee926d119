"""The instances that are measured, by their kind."""
from __future__ import annotations

import os
import tempfile
from typing import Callable, Iterable, Iterator

from lorry_tools.speed import limits
from lorry_tools.speed.limits import SIXTY_DAYS, START
from lorry_tools.speed.meter import Meter
from lorry_tools.speed.networks import (
    CHOICES,
    LONG_WAY,
    arcs_of,
    draw_grid,
    shut_parks_at_night,
    states_of,
    write_choices,
    write_closed_arc,
    write_hilly_road,
    write_jobs,
    write_night_bans,
    write_road,
    write_stops,
)
from lorry_tools.speed.writing import write_graph, write_lines, write_table

ONE_WEEK = 10_080
TWO_WEEKS = 20_160

# The legs of an itinerary that is explained: drives of one minute each.
LEGS = 66_000


def trip_to(goal: int, minutes: int, origin: int = 1, vehicle: str = "any") -> list[str]:
    """Returns the words of a trip that departs at START, and takes at most these minutes."""
    return [vehicle, str(origin), str(goal), str(START), str(START + minutes)]


# ---- Long trips ----


def measure_certified(meter: Meter, folder: str, trip: list[str], name: str) -> None:
    """Prints the rows of a trip: planned, planned with a certificate, and this certificate
    judged."""
    meter.measure("plan", folder, trip, name)
    certified = [*trip, "--certificate", "c.cert"]
    meter.measure("plan", folder, certified, "the same with a certificate")
    size = os.path.getsize(os.path.join(folder, "c.cert")) / 1e6
    judged = f"the same certificate of {size:.1f} MB judged"
    meter.measure("check", folder, [*trip, "c.cert"], judged)


def measure_trips(meter: Meter) -> None:
    """Prints the rows of long trips."""
    for rows, columns in ((100, 200), (150, 150)):
        with tempfile.TemporaryDirectory() as folder:
            draw_grid(meter.program, folder, rows, columns)
            trip = trip_to(rows * columns, SIXTY_DAYS)
            measure_certified(meter, folder, trip, f"grid of {rows} by {columns}, 60 days")
            late = trip_to(rows * columns, SIXTY_DAYS - 1)
            meter.measure("latest", folder, late, "the same but for a minute, as late as may be")
    with tempfile.TemporaryDirectory() as folder:
        write_night_bans(meter.program, folder, 150, 150)
        trip = trip_to(22_500, TWO_WEEKS)
        measure_certified(meter, folder, trip, "grid of 150 by 150 with night bans, two weeks")
        shut_parks_at_night(folder)
        measure_certified(meter, folder, trip, "the same, with parks that are shut at night")
    for nodes, origin in ((20_001, 1), (500_000, 413_601)):
        with tempfile.TemporaryDirectory() as folder:
            write_road(folder, nodes - 1)
            trip = trip_to(nodes, SIXTY_DAYS, origin)
            measure_certified(meter, folder, trip, f"straight road of {nodes:,} nodes, 60 days")
    for minutes, name in ((ONE_WEEK, "a week"), (SIXTY_DAYS, "60 days")):
        with tempfile.TemporaryDirectory() as folder:
            draw_grid(meter.program, folder, 20, 30)
            measure_certified(meter, folder, trip_to(600, minutes), f"grid of 20 by 30, {name}")


def measure_reports(meter: Meter) -> None:
    """Prints the rows of long reports, one for each form."""
    with tempfile.TemporaryDirectory() as folder:
        write_choices(folder)
        trip = trip_to(LONG_WAY + 2, 60_000)
        for form in ("plain", "table", "csv", "json"):
            name = f"{CHOICES:,} pairs with {LONG_WAY:,} legs and more each, as {form}"
            meter.measure("plan", folder, [*trip, "--form", form], name, of_report=True)


# ---- Batches ----


def measure_batches(meter: Meter) -> None:
    """Prints the rows of networks that are drawn, and of batches over them by the number of
    workers."""
    for rows, columns, count in ((50, 50, 200), (100, 200, 2_000)):
        with tempfile.TemporaryDirectory() as folder:
            drawn = f"grid of {rows} by {columns} drawn, and planned over 60 days"
            meter.measure("gen", folder, ["7", str(rows), str(columns)], drawn)
            write_jobs(folder, count, rows * columns, 2_880)
            without = trip_to(rows * columns, 0)
            meter.measure("plan", folder, without, "a trip without a minute over it")
            for workers in (1, 2, 4, 64):
                name = f"{count:,} trips of two days over it, {workers} workers"
                meter.measure("batch", folder, ["jobs.csv", "--workers", str(workers)], name)


# ---- Breaks, tours and latest departures ----


def measure_breaks(meter: Meter, folder: str, nodes: int, minutes: int, name: str) -> None:
    """Prints the rows of a trip without and with breaks."""
    trip = trip_to(nodes, minutes)
    meter.measure("plan", folder, trip, name)
    states, leaving = states_of(folder, 1, 270)
    with_breaks = f"the same with breaks, {states:,} states and {leaving:,} arcs"
    meter.measure("breaks", folder, trip, with_breaks)


def measure_tours(
    meter: Meter,
    folder: str,
    nodes: int,
    minutes: int,
    stops: Iterable[int],
    apart: int,
    among: int,
) -> None:
    """Prints the rows of tours of these numbers of stops, `apart` days apart, at the first `among`
    nodes."""
    trip = trip_to(nodes, minutes)
    arcs = len(arcs_of(folder))
    for count in stops:
        write_stops(folder, count, among, apart)
        layers = count + 1
        size = f"{layers * nodes:,} nodes and {layers * arcs + count:,} arcs"
        name = f"the same, a tour of {count} stop{'s' * (count > 1)}, {size}"
        meter.measure("tour", folder, [*trip, "stops.csv"], name)


def measure_others(meter: Meter) -> None:
    """Prints the rows of trips with breaks, of tours and of latest departures, beside the trips
    without."""
    with tempfile.TemporaryDirectory() as folder:
        draw_grid(meter.program, folder, 20, 30)
        measure_breaks(meter, folder, 600, SIXTY_DAYS, "grid of 20 by 30, 60 days")
    with tempfile.TemporaryDirectory() as folder:
        draw_grid(meter.program, folder, 50, 50)
        measure_breaks(meter, folder, 2_500, SIXTY_DAYS, "grid of 50 by 50, 60 days")
        measure_tours(meter, folder, 2_500, SIXTY_DAYS, (1, 5, 20, 50), 1, 2_500)
    with tempfile.TemporaryDirectory() as folder:
        write_night_bans(meter.program, folder, 60, 100)
        name = "grid of 60 by 100 with night bans, two weeks"
        measure_breaks(meter, folder, 6_000, TWO_WEEKS, name)
        late = trip_to(6_000, TWO_WEEKS)
        meter.measure("latest", folder, late, "the same, as late as may be")
        measure_tours(meter, folder, 6_000, TWO_WEEKS, (1, 5), 2, 600)
    with tempfile.TemporaryDirectory() as folder:
        write_hilly_road(folder)
        name = "straight road of 1,000 nodes, arcs of 7 to 60 minutes, 60 days"
        measure_breaks(meter, folder, 1_000, SIXTY_DAYS, name)


# ---- Itineraries that are explained ----


def drives_to(last: int) -> Iterator[str]:
    """Yields an itinerary along the ring from node 1, whose last leg is a drive over this arc."""
    for leg in range(1, LEGS):
        yield f"drive {2 * leg - 1}"
    yield f"drive {last}"


def measure_explained(meter: Meter) -> None:
    """Prints the rows of itineraries that are explained: a lawful one, whose pair is compared with
    the front, and one whose last leg fails."""
    with tempfile.TemporaryDirectory() as folder:
        limits.write_rules_of_december(folder)
        write_lines(folder, "lawful.txt", drives_to(2 * LEGS - 1))
        write_lines(folder, "unlawful.txt", drives_to(1))
        trip = trip_to(LEGS + 1, LEGS, vehicle="vehicle8000")
        name = f"a lawful itinerary of {LEGS:,} legs, with 20,000 rules of 10 KB"
        meter.measure("explain", folder, [*trip, "lawful.txt"], name)
        unlawful = "the same, but the last leg is unlawful"
        meter.measure("explain", folder, [*trip, "unlawful.txt"], unlawful)
    with tempfile.TemporaryDirectory() as folder:
        write_closed_arc(folder)
        write_lines(folder, "around.txt", ["drive 1"] * SIXTY_DAYS)
        name = "one arc of 100,000 closures, driven 86,400 times"
        meter.measure("explain", folder, [*trip_to(1, SIXTY_DAYS), "around.txt"], name)


# ---- Folders at their limits ----


def measure_limits(meter: Meter) -> None:
    """Prints the rows of folders at their limits."""
    # (a trip from node 1 to node 1 without a minute)
    trip, times = trip_to(1, 0), [str(START), str(START + SIXTY_DAYS)]
    with tempfile.TemporaryDirectory() as folder:
        limits.write_limits(folder)
        meter.measure("plan", folder, trip, "graph and tables at their limits")
        write_table(folder, "vehicles.csv", limits.vehicles())
        meter.measure("plan", folder, trip, "the same with 10,000 vehicles")
        write_table(folder, "rules.csv", limits.bans())
        name = "the same with three bans in each area, and 10,000 arcs with a rule"
        meter.measure("bans", folder, ["vehicle8000", "7", *times], name)
        whole = trip_to(1, SIXTY_DAYS, vehicle="vehicle8000")
        meter.measure("plan", folder, whole, "the same, all arcs expanded over 60 days")
        write_table(folder, "rules.csv", limits.long_rules())
        name = "the same with 20,000 rules of 10 KB in their place"
        meter.measure("plan", folder, trip, name)
    with tempfile.TemporaryDirectory() as folder:
        write_graph(folder, 2, 1, ["a 1 2 60"])
        write_table(folder, "vehicles.csv", limits.vehicles())
        write_table(folder, "rules.csv", limits.one_value())
        name = "one arc with a value of 1,000 clauses"
        meter.measure("bans", folder, ["vehicle8000", "1", *times], name)


# The kinds of instances, in the order in which they are measured.
KINDS: dict[str, Callable[[Meter], None]] = {
    "trips": measure_trips,
    "reports": measure_reports,
    "batches": measure_batches,
    "others": measure_others,
    "explained": measure_explained,
    "limits": measure_limits,
}
