"""A plain reading of law tables over an extract, for agrees_with_tags: which rows hold on a road, from one node to the next. It shares no code with
the converter.

A section between two junctions is all that can be driven on roads of its number from the one to the other, in either direction, without passing one
of them on the way."""
import collections
import csv
import glob
import os
import re

import osmium

TABLES = os.path.join(os.path.dirname(os.path.dirname(os.path.abspath(__file__))), "lorry_tools", "laws")
KINDS = "autobahnkreuz autobahndreieck kreuz dreieck anschlussstelle knoten ak ad as kn".split()


class Roads(osmium.SimpleHandler):
    """The tags and nodes of all roads, and the names of junctions."""

    def __init__(self):
        super().__init__()
        self.ways, self.names = {}, {}

    def node(self, node):
        if node.tags.get("highway") == "motorway_junction" and "name" in node.tags:
            self.names[node.id] = plain_name(node.tags["name"])

    def way(self, way):
        if "highway" in way.tags:
            known = [node for node in way.nodes if node.location.valid()]
            self.ways[way.id] = ({tag.k: tag.v for tag in way.tags}, [(node.ref, node.lon, node.lat) for node in known])


def plain_name(name):
    words = name.lower().split()
    if len(words) > 1 and words[0].rstrip(".") in KINDS:
        words = words[1:]
    return "".join(letter for letter in "".join(words) if letter.isalnum())


def number_text(text):
    return text.replace(" ", "").upper()


class Section:
    """The steps of one section: pairs of a way and a set of two neighbouring nodes."""

    def __init__(self, text, roads):
        self.parts = dict(part.strip().split("=", 1) for part in text.split(";"))
        self.box = [float(it) for it in self.parts["box"].split(",")] if "box" in self.parts else None
        self.steps, self.roads = set(), roads
        self.follow()

    def has(self, tags):
        if "highway" in self.parts and tags["highway"] not in self.parts["highway"].split(","):
            return False
        wanted = {number_text(it) for it in self.parts.get("ref", "").split(",") if it}
        return not wanted or bool(wanted & {number_text(it) for it in re.split("[;,]", tags.get("ref", ""))})

    def is_inside(self, lon, lat):
        return not self.box or self.box[0] <= lon <= self.box[2] and self.box[1] <= lat <= self.box[3]

    def follow(self):
        own = {number: way for number, way in self.roads.ways.items() if self.has(way[0])}
        inside, out, into = set(), collections.defaultdict(list), collections.defaultdict(list)
        for number, (tags, nodes) in own.items():
            for (one, lon, lat), (other, lon2, lat2) in zip(nodes, nodes[1:]):
                step = (number, frozenset((one, other)))
                if self.is_inside((lon + lon2) / 2, (lat + lat2) / 2):
                    inside.add(step)
                round_it = tags["highway"] == "motorway" or tags.get("junction") in ("roundabout", "circular")
                oneway = tags.get("oneway", "yes" if round_it else "no")
                for tail, head, barred in ((one, other, ("-1",)), (other, one, ("yes", "true", "1"))):
                    if oneway not in barred:
                        out[tail].append((head, step))
                        into[head].append((tail, step))
        places = {ref: (lon, lat) for _, nodes in own.values() for ref, lon, lat in nodes}
        ends = [self.exits(self.parts[end].split("|"), places) for end in ("from", "to") if end in self.parts]
        self.steps = (self.between(*ends, out, into) | self.between(*reversed(ends), out, into)) if ends else set()
        self.steps = self.steps or inside

    def exits(self, names, places):
        wanted = {plain_name(it) for it in names}
        return {ref for ref, place in places.items() if self.roads.names.get(ref) in wanted and self.is_inside(*place)}

    def between(self, starts, ends, out, into):
        ahead, behind = spread(starts, ends, out), spread(ends, starts, into)
        return {step for tail in ahead - ends for head, step in out[tail] if head in behind - starts}


def spread(starts, stops, edges):
    """The nodes that are reached without going on from a stop."""
    found, work = set(starts), list(starts)
    while work:
        node = work.pop()
        if node in stops:
            continue
        for other, _ in edges[node]:
            if other not in found:
                found.add(other)
                work.append(other)
    return found


class PlainLaws:
    def __init__(self, folder, extract):
        self.rows, self.roads, self.sections = [], Roads(), {}
        for path in glob.glob(os.path.join(folder, "*.csv")):
            with open(path, encoding="utf-8", newline="") as file:
                self.rows += [row for row in csv.DictReader(file) if row["key"] not in ("PH", "SH") and "speed" not in row["key"]]
        self.roads.apply_file(extract, locations=True)

    def groups(self, area, steps):
        """The rows of keys and values that hold on some steps in an area: a list for each row, each of which has to let in. Steps are ways with two
        nodes."""
        steps = list(steps)
        country, _, region = area.split(".")[0].partition("-")
        for row in self.rows:
            words = row["region"].split()
            listed = region in words[1:] if words[:1] == ["not"] else region not in words
            if row["country"] != country or words and region and listed:
                continue
            if not row["section"] or any(self.is_on(row["section"], way, one, other) for way, one, other in steps):
                yield [(row["key"], row["value"])]

    def is_on(self, text, way, one, other):
        if text not in self.sections:
            self.sections[text] = Section(text, self.roads)
        return (way, frozenset((one, other))) in self.sections[text].steps
