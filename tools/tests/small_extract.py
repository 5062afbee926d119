"""An OpenStreetMap extract of a grid of roads with tags drawn from lists, as a text; tests of tools/from_osm convert it."""
import random
from xml.sax.saxutils import quoteattr

# Nodes of the grid are so many degrees apart, half a kilometre to the north.
STEP = 0.0045
CLASSES = ["primary", "secondary", "tertiary", "residential", "unclassified", "motorway_link", "trunk"]
PLAIN = ["yes", "no", "destination", "delivery", "private", "designated", "agricultural", "permissive"]
HOURS = ["22:00-06:00", "Sa,Su", "Mo-Fr 06:00-09:00,16:00-19:00", "Su,PH 00:00-22:00", "Jul-Aug Sa 07:00-20:00", "Mo-Fr 08:00-18:00; PH off", "24/7"]
CONDITIONS = [
    "{hours}",
    "weight>7.5",
    "weight > 12 t",
    "weight>3.5 AND {hours}",
    "length>=12",
    "axles>2 AND {hours}",
    "hazmat",
    "delivery",
    "destination AND {hours}",
]
LIMITS = {
    "maxweight": ["7.5", "12 t", "3.5", "18", "7500 kg"],
    "maxheight": ["3.8", "3.6 m", "12'6\"", "default", "none"],
    "maxlength": ["12", "8.5 m"],
    "maxwidth": ["2.3", "2 m"],
    "maxaxleload": ["8", "10 t"],
}


def condition(draws):
    return "(" + draws.choice(CONDITIONS).format(hours=draws.choice(HOURS)) + ")"


def drawn_tags(draws):
    """Tags of a road; most roads have few."""
    tags = {"highway": draws.choice(CLASSES), "name": f"{draws.choice('ABCDEFGH')} {draws.randint(1, 99)}"}
    if draws.random() < 0.3:
        tags["maxspeed"] = draws.choice(["30", "50", "80", "20 mph"])
    if draws.random() < 0.45:
        for _ in range(draws.randint(1, 2)):
            key = draws.choice(["access", "vehicle", "motor_vehicle", "hgv", "hgv", "hgv", "hgv_articulated", "goods", "bus"])
            if draws.random() < 0.5:
                tags[key] = draws.choice(PLAIN if key != "access" else ["yes", "destination", "permissive"])
            else:
                tags[key + ":conditional"] = "; ".join(
                    f"{draws.choice(['no', 'no', 'yes', 'destination'])} @ {condition(draws)}" for _ in range(draws.randint(1, 2))
                )
    if draws.random() < 0.25:
        key = draws.choice(list(LIMITS))
        tags[key] = draws.choice(LIMITS[key])
        if draws.random() < 0.3:
            tags[key + ":conditional"] = f"none @ ({draws.choice(['destination', '22:00-06:00', 'Su,PH 00:00-22:00'])})"
    if draws.random() < 0.1:
        tags["hazmat"] = draws.choice(["no", "destination", "designated"])
    if draws.random() < 0.08:
        tags["hgv:forward"] = draws.choice(["no", "destination"])
    return tags


def element(kind, number, attributes, inside):
    words = "".join(f" {key}={quoteattr(str(value))}" for key, value in attributes.items())
    return f'  <{kind} id="{number}" version="1"{words}>\n' + "".join(f"    {one}\n" for one in inside) + f"  </{kind}>\n"


def tag_lines(tags):
    return [f"<tag k={quoteattr(key)} v={quoteattr(value)}/>" for key, value in tags.items()]


def member_lines(members):
    return [f'<member type="{kind}" ref="{ref}" role="{role}"/>' for kind, ref, role in members]


def text_of(nodes, ways, relations=()):
    """The text of an extract: nodes are number, latitude, longitude and tags; ways are number, nodes and tags."""
    parts = ['<?xml version="1.0"?>\n<osm version="0.6" generator="tests">\n']
    parts += [element("node", number, {"lat": f"{lat:.7f}", "lon": f"{lon:.7f}"}, tag_lines(tags)) for number, lat, lon, tags in nodes]
    parts += [element("way", number, {}, [f'<nd ref="{ref}"/>' for ref in refs] + tag_lines(tags)) for number, refs, tags in ways]
    parts += [
        element("relation", number, {}, member_lines(members) + tag_lines(tags))
        for number, members, tags in relations
    ]
    return "".join(parts) + "</osm>\n"


def grid(side, south=52.5, west=13.4):
    """The nodes of a grid, numbered from 1 row by row, and the pairs of neighbours."""
    nodes = [(row * side + column + 1, south + row * STEP, west + column * STEP * 1.6, {}) for row in range(side) for column in range(side)]
    pairs = [(row * side + column + 1, row * side + column + 2) for row in range(side) for column in range(side - 1)]
    pairs += [(row * side + column + 1, (row + 1) * side + column + 1) for row in range(side - 1) for column in range(side)]
    return nodes, pairs


TURNS = ["no_left_turn", "no_right_turn", "no_straight_on", "no_u_turn", "only_straight_on", "only_right_turn"]


def drawn_restriction(draws, kind):
    """Tags of a turn restriction."""
    tags = {"type": "restriction"}
    key = draws.choice(["restriction", "restriction", "restriction", "restriction:hgv", "restriction:bus"])
    if draws.random() < 0.4:
        tags[key + ":conditional"] = f"{kind} @ {condition(draws)}"
    else:
        tags[key] = kind
    if draws.random() < 0.2:
        tags["except"] = draws.choice(["psv", "bus", "hgv;psv", "bicycle"])
    return tags


def drawn_restrictions(draws, ways, count):
    """Turn restrictions at nodes that several ways have."""
    at = {}
    for number, refs, _ in ways:
        for ref in refs:
            at.setdefault(ref, []).append(number)
    crossings = sorted(ref for ref, numbers in at.items() if len(numbers) > 2)
    found = []
    for number in range(count):
        node = draws.choice(crossings)
        kind = draws.choice(TURNS)
        first, last = draws.sample(at[node], 2)
        last = first if kind == "no_u_turn" else last
        found.append((number + 1, [("way", first, "from"), ("node", node, "via"), ("way", last, "to")], drawn_restriction(draws, kind)))
    return found


def drawn(seed, side):
    """A grid whose roads have drawn tags, some of them ferries, with drawn turn restrictions."""
    draws = random.Random(seed)
    nodes, pairs = grid(side)
    ways = [(number, list(pair), drawn_tags(draws)) for number, pair in enumerate(pairs, 1)]
    for number, pair, _ in draws.sample(ways, 2):
        duration = draws.choice(["00:12", "7", "0:25"])
        ways[number - 1] = (number, pair, {"route": "ferry", "motor_vehicle": draws.choice(["yes", "destination"]), "duration": duration})
    return text_of(nodes, ways, drawn_restrictions(draws, ways, side * 2))
