#!/usr/bin/env python3
"""A stand-in for the program, for tests of the tools: roads, closures and parking without hours, and no rules.

It knows `plan` in JSON with the first arrival alone, `bans`, and, where it is told to, `explain` for an itinerary of one drive. It goes minute by
minute. Tests call `answer`; as a script it is a program."""
import json
import os
import sys

sys.dont_write_bytecode = True
sys.path.insert(0, os.path.join(os.path.dirname(os.path.abspath(__file__)), ".."))
from lorry_tools.folder import Folder, number_of
from lorry_tools.instants import instant_text, minute_of


def closures_of(folder, arc):
    return [(minute_of(it["from"]), minute_of(it["to"])) for it in folder.table("closures.csv") if number_of(it["arc"]) == arc]


def runs_of(folder, arc, depart, until):
    """Returns the closed minutes of an arc as runs within a time."""
    runs = []
    for low, high in sorted(closures_of(folder, arc)):
        low, high = max(low, depart), min(high, until)
        if low < high:
            if runs and low <= runs[-1][1]:
                runs[-1][1] = max(runs[-1][1], high)
            else:
                runs.append([low, high])
    return runs


def first_pair(folder, origin, goal, depart, until):
    """Returns the pair that arrives first, or None."""
    graph, rated = folder.graph(), {number_of(it["node"]) for it in folder.table("parking.csv")}
    out_of = graph.arcs_at(graph.tails)
    closed = {arc: runs_of(folder, arc, depart, until + 20000) for arc in range(1, len(graph) + 1)}
    # After the last closure that ends nothing changes: a trip that there is then arrives within the sum of all minutes.
    ends = [high for runs in closed.values() for _, high in runs if high <= until]
    until = min(until, max([depart, *ends]) + sum(graph.minutes))
    turns, legs = {depart: {origin: None}}, {}
    for minute in range(depart, until + 1):
        for node, leg in turns.pop(minute, {}).items():
            if (node, minute) in legs:
                continue
            legs[node, minute] = leg
            if node == goal:
                return {"arrival": minute, "cost": 0, "legs": legs_to(legs, graph, origin, depart, node, minute)}
            for arc in out_of.get(node, ()):
                end = minute + graph.ends(arc)[2]
                if end <= until and not any(low < end and minute < high for low, high in closed[arc]):
                    turns.setdefault(end, {}).setdefault(graph.ends(arc)[1], arc)
            if node in rated:
                turns.setdefault(minute + 1, {}).setdefault(node, 0)
    return None


def legs_to(legs, graph, origin, depart, node, minute):
    found = []
    while (node, minute) != (origin, depart):
        arc = legs[node, minute]
        if arc:
            found.insert(0, {"arc": arc, "kind": "drive"})
            node, minute = graph.ends(arc)[0], minute - graph.ends(arc)[2]
        else:
            if found and found[0]["kind"] == "wait":
                found[0]["minutes"] += 1
            else:
                found.insert(0, {"kind": "wait", "minutes": 1})
            minute -= 1
    return found


def answer(words, explains=False):
    """Returns the status for these words, and what is printed."""
    command, folder, words = words[0], Folder(words[1]), words[3:]
    if command == "bans":
        arc, depart, until = number_of(words[0]), minute_of(words[1]), minute_of(words[2])
        runs = runs_of(folder, arc, depart, until)
        return 0, "\n".join([f"bans {len(runs)}", *(f"closed {instant_text(low)} {instant_text(high)}" for low, high in runs), "passed 0\n"])
    origin, goal, depart, until = number_of(words[0]), number_of(words[1]), minute_of(words[2]), minute_of(words[3])
    if command == "plan":
        pair = first_pair(folder, origin, goal, depart, until)
        pairs = [pair] if pair else []
        return 0, json.dumps({"pairs": pairs}) if "json" in words else f"pairs {len(pairs)}\n"
    if command == "explain" and explains:
        with open(folder.file(words[4]), encoding="utf-8") as file:
            arc = int(file.read().split()[1])
        end = depart + folder.graph().ends(arc)[2]
        for place, (low, high) in enumerate(closures_of(folder, arc), 1):
            if low < end and depart < high:
                return 0, f"unlawful 1 {max(low, depart)} closure {place}\n"
        return 0, f"lawful {end} 0.000\nundominated\n"
    return 2, "refused usage\n"


if __name__ == "__main__":
    status, text = answer(sys.argv[1:])
    sys.stdout.write(text)
    sys.exit(status)
