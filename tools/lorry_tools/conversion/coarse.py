"""A coarser network: few junctions, and between them the least driving times.

An arc takes at least a minute, so trips in a network of all junctions of a town are far too slow.
Some junctions are kept, none within so many seconds of another, those of the fastest roads first.
An arc between two kept junctions stands for a way over the roads between them, and each rule of
these roads holds on it. From one kept junction to another all ways are taken that no other way
beats in driving time, rules and metres with a toll: a way with fewer rules may take longer. Then
those that others replace in little more time are left out. A trip in the coarse network is lawful
over the roads too: a road that is closed for a while closes the whole arc for this while."""
from __future__ import annotations

import array
import heapq
import math
import multiprocessing
from typing import Any, Callable, Collection, Iterable, Iterator, Mapping, Optional, Sequence

import numpy

from lorry_tools.conversion import access, kept, shortcuts
from lorry_tools.conversion.arcs import AT_ONCE, Arcs, ranges, stars
from lorry_tools.conversion.kinds import Kinds, Ruled
from lorry_tools.conversion.least import Once, lower
from lorry_tools.conversion.near import Near, reached
from lorry_tools.conversion.roads import Rules, sums
from lorry_tools.conversion.shortcuts import Link, Links

# The places of a way's arcs, and the number of its kind.
Way = tuple[list[int], int]
# The ways of a node, and whether some were given up.
Ways = tuple[list[Way], bool]

# A way over this many kept junctions is no longer followed to see whether it is better than another
# one: then an arc may be looked at for nothing.
MOST_KEPT = 1
# The most ways to a junction that are followed at once, by their rules and tolls.
MOST_WAYS = 12

FOR_EVER = 1 << 60
# The bits of a node's or a label's number in the queue, and the kinds of labels at one millisecond.
BITS = 32
MOST_LABELS = (1 << BITS) - 1
KINDS = MOST_KEPT + 1
# From how many kept junctions on several processes are worth it, and how many one takes at once.
FEWEST_FOR_PROCESSES, CHUNK = 500, 50
# The most nodes whose links are objects, and how many get theirs at once.
MOST_LINKED, BLOCK = 1 << 13, 32


class Star(dict[int, list[Link]]):
    """The links of nodes, which are objects only around the nodes that were asked for last."""

    def __init__(self, count: int, tails: Any, heads: Any, times: Any, places: Any) -> None:
        super().__init__()
        self.order, self.firsts = stars(count, tails)
        self.heads, self.times, self.places = heads, times, places

    def __missing__(self, node: int) -> list[Link]:
        """Makes the links of this node, and of those whose numbers are next to it."""
        if len(self) >= MOST_LINKED:
            self.clear()
        begin = node - node % BLOCK
        end = begin + BLOCK + 1
        firsts = self.firsts[begin:end].tolist()
        low, high = firsts[0], firsts[-1]
        at = self.order[low:high]
        columns = (self.times[at] * KINDS, self.heads[at], self.places[at])
        links = list(zip(*(it.tolist() for it in columns)))
        base = firsts[0]
        for number, (first, last) in enumerate(zip(firsts, firsts[1:]), begin):
            self[number] = links[first - base : last - base]
        return self[node]


class Stars:
    """The arcs that leave each node, and that come into it; and the kinds of arcs, by what they ask
    of vehicles."""

    def __init__(self, count: int, arcs: Arcs, places: tuple[Any, Any]) -> None:
        """`places` are the coordinates of nodes."""
        self.count, self.arcs, self.kinds = count, arcs, Kinds()
        self.places = tuple(numpy.asarray(it) for it in places)
        self.kind_of = self.kinds.of_arcs(arcs)
        # An arc that asks something has -1 - its place in the list of arcs.
        own = numpy.arange(len(arcs), dtype=numpy.int32)
        own = numpy.where(self.kind_of > 0, -1 - own, own)
        self.links = Star(count, arcs.tails, arcs.heads, arcs.times, own)
        self.out = Near(count, arcs.tails, arcs.heads, arcs.times)
        self.into = Near(count, arcs.heads, arcs.tails, arcs.times)

    def speeds(self) -> Any:
        """The metres a millisecond of the fastest arc at each node."""
        found = numpy.zeros(self.count)
        own = self.arcs.lengths / self.arcs.times
        for ends in (self.arcs.tails, self.arcs.heads):
            numpy.maximum.at(found, ends, own)
        return found


def nearest(start: int, stars: Stars, is_kept: Sequence[int], most: int) -> Optional[int]:
    """The kept node that is nearest to a node there and back, whichever takes longer; None where
    none is within so many milliseconds in either direction."""
    for reach in (most // 8, most // 4, most // 2, most):
        near = kept_of(reached(start, stars.out, reach), is_kept)
        if not near and reach < most:
            continue
        back = kept_of(reached(start, stars.into, reach), is_kept)
        either = near.keys() & back.keys() if reach < most else near.keys() | back.keys()
        ends = [(max(near.get(it, FOR_EVER), back.get(it, FOR_EVER)), it) for it in either]
        if ends:
            return min(ends)[1]
    return None


def kept_of(nodes: Mapping[int, int], is_kept: Sequence[int]) -> dict[int, int]:
    return {node: time for node, time in nodes.items() if is_kept[node]}


class Distances:
    """The least times from some nodes to all others, over arrays of arcs: the nodes that a round
    brought nearer are looked at together, those of the next few arcs' time first."""

    # How many arcs of middling time are looked at before farther nodes.
    AHEAD = 4

    def __init__(self, count: int, tails: Any, heads: Any, times: Any) -> None:
        order, self.firsts = stars(count, tails)
        self.count, self.heads, self.times = count, heads[order], times[order]
        self.step = self.AHEAD * int(times.mean()) + 1

    def __call__(self, starts: Sequence[int]) -> Any:
        """A row of times by node for each start, FOR_EVER for nodes that can't be reached."""
        best = numpy.full(len(starts) * self.count, FOR_EVER, dtype=numpy.int64)
        once = Once(len(best))
        left = numpy.arange(len(starts)) * self.count + numpy.array(starts)
        best[left] = 0
        while len(left):
            times = best[left]
            is_near = times < times.min() + self.step
            heads, times = self.nearer(best, left[is_near], times[is_near])
            lower(best, heads, times)
            left = once(numpy.concatenate((left[~is_near], heads)))
        return best.reshape(len(starts), self.count)

    def nearer(self, best: Any, at: Any, times: Any) -> tuple[Any, Any]:
        """The places in `best` to which arcs from some places come earlier, with the times."""
        nodes = at % self.count
        counts = self.firsts[nodes + 1] - self.firsts[nodes]
        arcs, _ = ranges(self.firsts[nodes], counts)
        heads = numpy.repeat(at - nodes, counts) + self.heads[arcs]
        later = numpy.repeat(times, counts) + self.times[arcs]
        is_nearer = later < best[heads]
        return heads[is_nearer], later[is_nearer]


def kept_junctions(
    nodes: Any,
    stars: Stars,
    fixed: Collection[int],
    unfit: Collection[int],
    gap: int,
    progress: Callable[[int, int], None],
) -> Any:
    """Which nodes are kept: the fixed ones, and then those that none before is within the gap of,
    in either direction."""
    fastest = numpy.rint(stars.speeds() * 3600).astype(int)[nodes]
    is_fixed, is_unfit = (numpy.isin(nodes, list(it)) for it in (fixed, unfit))
    order = nodes[numpy.lexsort((nodes, -fastest, is_unfit, ~is_fixed))]
    columns, rows = (it[order] // kept.width(stars.arcs, it, gap) for it in stars.places)
    cover = kept.Cover(stars.count, (stars.out, stars.into), gap)
    grid = kept.Grid(order, columns, rows)
    return kept.kept_junctions(order, numpy.count_nonzero(is_fixed), grid, cover, progress)


def ways_from(
    start: int,
    links: Links,
    kinds: Kinds,
    kept: Sequence[int],
    most: int,
    is_strict: bool,
) -> Optional[Ways]:
    """The ways from a kept junction to others without a kept one between, that no way beats, and
    whether some were given up, as more than MOST came to a node.

    A way is beaten by one that takes no longer, and has neither a rule that it hasn't nor a higher
    toll. Of ways that take as long, those with kept junctions come first, and then those that were
    met first: so a number says the place of a label in the queue. It is the milliseconds, then
    whether the way may still pass a kept junction, and then the number of the label. A strict
    search returns None where this last one would decide, or where some were given up.

    Labels that have passed a kept junction end at the next one. There a strict search only notes
    their number."""
    push, pop = heapq.heappush, heapq.heappop
    out, kind_of, of, joined = links.out, links.kind_of, kinds.of, kinds.joined
    # The labels: their nodes, arcs, the labels before them, and the kinds that aren't free.
    nodes, places, before = [start], [0], [0]
    of_label: dict[int, int] = {}
    settled: dict[int, tuple[Ruled, ...]] = {}
    # When a node was settled last.
    last: dict[int, int] = {}
    # The least number of a label without rules and toll at a node: it beats all later ones.
    fresh = MOST_KEPT
    least: dict[int, int] = {start: fresh}
    known, kind_at, others_at = least.get, of_label.get, settled.get
    # The number of the last labels without rules that came to a node alike.
    alike: dict[int, int] = {}
    found: list[Way] = []
    gave_up = False
    queue = [fresh << BITS]
    count = direct = 1
    while queue and direct:
        number = pop(queue)
        label = number & MOST_LABELS
        number >>= BITS
        left = number % KINDS
        direct -= left == fresh
        node = nodes[label]
        kind = kind_at(label, 0)
        if not kind and number > least[node]:
            # A label without rules and toll came after it, and is earlier.
            continue
        if kind and is_strict and number >= known(node, FOR_EVER):
            if number == least[node]:
                return None
            continue
        others = others_at(node)
        if others is None:
            settled[node] = (of[kind],)
        else:
            if is_strict and last[node] == number:
                return None
            if kind and beaten(others, *of[kind]):
                continue
            if len(others) >= most:
                if is_strict:
                    return None
                gave_up = True
                continue
            settled[node] = (*others, of[kind])
        last[node] = number
        if label and kept[node]:
            if left == fresh:
                if alike and is_alike(label, nodes, before, alike, least):
                    return None
                found.append((path_of(label, places, before), kind))
            if not left:
                continue
            left -= 1
            number -= 1
        for step, head, place in out[node]:
            later = number + step
            if later >= known(head, FOR_EVER):
                # (of ways over a kept junction it doesn't matter which one comes first)
                if is_strict and left and later == least[head]:
                    if kind or place < 0:
                        return None
                    alike[head] = later
                continue
            if not kind and place >= 0:
                least[head] = later
                if is_strict and not left and kept[head]:
                    continue
            else:
                if head == start:
                    continue
                own = kind
                if place < 0:
                    place = -1 - place
                    own = joined(kind, int(kind_of[place]))
                if head in settled and beaten(settled[head], *of[own]):
                    continue
                of_label[count] = own
            push(queue, later << BITS | count)
            count += 1
            nodes.append(head)
            places.append(place)
            before.append(label)
            direct += left == fresh
    return found, gave_up


def beaten(others: Iterable[Ruled], rules: frozenset[int], toll: int) -> bool:
    """Whether one of the others has no further rules and no higher toll."""
    for other, other_toll in others:
        if other_toll <= toll and other <= rules:
            return True
    return False


def is_alike(
    label: int,
    nodes: Sequence[int],
    before: Sequence[int],
    alike: Mapping[int, int],
    least: Mapping[int, int],
) -> bool:
    """Whether another label came to some node of a label's way as early, and none earlier."""
    while label:
        node = nodes[label]
        if node in alike and alike[node] <= least.get(node, FOR_EVER):
            return True
        label = before[label]
    return False


def path_of(label: int, places: Sequence[int], before: Sequence[int]) -> list[int]:
    """The places of the arcs of a label, in their order."""
    path: list[int] = []
    while label:
        path.append(places[label])
        label = before[label]
    path.reverse()
    return path


def numbers_of_sets(arcs: Arcs, sets: Sequence[frozenset[int]], rules: Rules) -> Any:
    """The number of the rules of each set that arcs have, 0 for the others."""
    found = numpy.zeros(len(sets), dtype=numpy.int32)
    used, firsts = numpy.unique(arcs.rules, return_index=True)
    for at in used[numpy.argsort(firsts)].tolist():
        found[at] = rules.all(sets[at])
    return found


def usable(arcs: Arcs, sets: Sequence[frozenset[int]], rules: Rules) -> Arcs:
    """Those arcs that somebody may use as a whole."""
    numbers = numbers_of_sets(arcs, sets, rules)
    is_shut = numpy.array([access.is_shut(it) for it in rules.lists])
    return arcs.take(~is_shut[numbers[arcs.rules]])


def minutes(times: Any) -> Any:
    """The whole minutes of arcs' milliseconds: the nearest, at least one."""
    return numpy.maximum(1, (times + 30_000) // 60_000)


class Detours:
    """Arcs, which are added from short to long, and whether others replace a further one."""

    def __init__(self, xs: Sequence[int], ys: Sequence[int], fastest: float) -> None:
        self.xs, self.ys = xs, ys
        # The fastest arc bounds how far a way may lead away from its end.
        self.fastest = fastest
        self.out: dict[int, list[tuple[int, int, frozenset[int], float]]] = {}
        # The time of the shortest arc into each node, and of that from each tail.
        self.least: dict[int, int] = {}
        self.into: dict[int, dict[int, int]] = {}

    def add(self, tail: int, head: int, time: int, rules: frozenset[int], toll: float) -> None:
        self.out.setdefault(tail, []).append((time, head, rules, toll))
        self.least.setdefault(head, time)
        self.into.setdefault(head, {}).setdefault(tail, time)

    def ends(self, node: int, goal: int, most: int, rules: frozenset[int], toll: float) -> bool:
        """Whether one arc leads from a node to the goal in time, with no further rules."""
        for step, head, own, own_toll in self.out[node]:
            if step > most:
                break
            if head == goal and own_toll <= toll and own <= rules:
                return True
        return False

    def replace(self, tail: int, goal: int, time: int, rules: frozenset[int], toll: float) -> bool:
        """Whether some arcs replace one, with the same rules or fewer, within a tenth and ten
        seconds."""
        most, out = time + time // 10 + 10_000, self.out
        before = self.into.get(goal)
        if before is None or tail not in out:
            return False
        # Whatever comes to another node first needs one more arc.
        limit, last = most - self.least[goal], before.get
        if out[tail][0][0] > limit and tail not in before:
            return False
        best, queue = {tail: 0}, [(0.0, 0, tail)]
        push, pop, hypot = heapq.heappush, heapq.heappop, math.hypot
        xs, ys = self.xs, self.ys
        x, y = xs[goal], ys[goal]
        wide = math.cos(math.radians(y / 1e7))
        # Milliseconds for each unit of a coordinate; a little less, as the globe is no plane.
        pace = 0.0111194927 / self.fastest * 0.99
        while queue:
            _, time, node = pop(queue)
            if time > best[node]:
                continue
            # From short to long, as they were added.
            for step, head, own, own_toll in out.get(node, ()):
                later = time + step
                if later > most:
                    break
                if own_toll > toll or own and not own <= rules:
                    continue
                if head == goal:
                    return True
                if later > limit or later >= best.get(head, FOR_EVER) or head not in out:
                    continue
                rest = most - later
                is_near = last(head, FOR_EVER) <= rest and self.ends(head, goal, rest, rules, toll)
                if is_near or later + out[head][0][0] <= limit:
                    left = hypot((xs[head] - x) * wide, ys[head] - y) * pace
                    if later + left <= most:
                        if is_near:
                            return True
                        best[head] = later
                        push(queue, (later + left, later, head))
        return False


def without_detours(
    arcs: Arcs,
    sets: Sequence[frozenset[int]],
    xs: Sequence[int],
    ys: Sequence[int],
    progress: Callable[[int, int], None],
) -> Arcs:
    """Leaves out arcs that others replace, from short to long. The arcs given are changed."""
    fastest = float((arcs.lengths / arcs.times).max()) if len(arcs) else 1.0
    detours = Detours(xs, ys, fastest)
    found = array.array("i")
    sizes = numpy.array([len(it) for it in sets])
    order = numpy.lexsort((arcs.heads, arcs.tails, sizes[arcs.rules], arcs.times))
    count = 0
    for first in range(0, len(order), AT_ONCE):
        part = order[first : first + AT_ONCE]
        columns = (arcs.tails, arcs.heads, arcs.times, arcs.rules, arcs.tolls)
        rows = zip(part.tolist(), *(it[part].tolist() for it in columns))
        for at, tail, head, time, rules, toll in rows:
            count += 1
            progress(count, len(order))
            own = (tail, head, time, sets[rules], toll or 0.0)
            if not detours.replace(*own):
                detours.add(*own)
                found.append(at)
    del detours
    arcs.keep(numpy.array(found, dtype=int))
    return arcs


class Coarse:
    """The coarse arcs, whose pieces are the places of other arcs until `named`, and whose rules are
    numbers of `sets`; which nodes are kept, and the number of those from which ways were given
    up."""

    def __init__(
        self,
        stars: Stars,
        fixed: Collection[int],
        unfit: Collection[int],
        gap: int,
        progress: Callable[[str], Callable[[int, int], None]],
        processes: int = 1,
    ) -> None:
        """Several processes find the same ways."""
        nodes = numpy.unique(stars.arcs.tails)
        self.kept = kept_junctions(nodes, stars, fixed, unfit, gap, progress("junctions looked at"))
        kept = numpy.flatnonzero(self.kept).tolist()
        self.gave_up = 0
        said = progress("kept junctions whose ways are found")
        self.arcs = stars.arcs
        search = Search(stars, self.kept)
        self.paths, self.kinds = array.array("i"), array.array("i")
        self.counts = array.array("i")
        for number, (ways, partly) in enumerate(search.all(kept, processes), 1):
            said(number, len(kept))
            self.gave_up += partly
            for path, kind in ways:
                self.paths.extend(path)
                self.counts.append(len(path))
                self.kinds.append(kind)
        # What only the search needed.
        short = search.short
        stars.links.clear()
        del search, short.links
        self.sets, set_of_kind = stars.kinds.sets()
        paths, firsts = self.over_arcs(short)
        rules = set_of_kind[numpy.array(self.kinds, dtype=int)]
        del short, self.paths, self.kinds, self.counts
        self.made = self.of_ways(paths, firsts, rules)

    def over_arcs(self, short: shortcuts.Graph) -> tuple[Any, Any]:
        """The arcs of the ways, for which there are shortcuts, and where each way begins."""
        paths = numpy.frombuffer(self.paths, dtype=numpy.intc)
        cuts: Any = numpy.cumsum([0, *self.counts])
        found, sizes = array.array("i"), array.array("i")
        for a, b, begin, end in parts_of(cuts):
            own, firsts = short.arcs(paths[a:b], end - begin)
            found.frombytes(own.tobytes())
            sizes.frombytes(numpy.diff(firsts).astype(numpy.intc).tobytes())
        firsts = numpy.zeros(len(sizes) + 1, dtype=numpy.int64)
        numpy.cumsum(sizes, out=firsts[1:])
        return numpy.frombuffer(found, dtype=numpy.intc), firsts

    def of_ways(self, paths: Any, firsts: Any, rules: Any) -> Arcs:
        """The arcs that stand for the ways, which are lists of other arcs."""
        arcs = self.arcs
        begins, ends = firsts[:-1], firsts[1:]
        one = paths[begins]
        times, lengths, tolls = (
            numpy.concatenate([sums(it[paths[a:b]], x, y) for a, b, x, y in parts_of(firsts)])
            for it in (arcs.times, arcs.lengths, arcs.tolls)
        )
        columns = (
            arcs.tails[one],
            arcs.heads[paths[ends - 1]],
            numpy.rint(times),
            lengths,
            rules,
            tolls,
            arcs.areas[one],
            numpy.zeros(len(one)),
        )
        return Arcs(columns, firsts, paths)


def parts_of(firsts: Any) -> Iterator[tuple[int, int, Any, Any]]:
    """Some ways after others: where their pieces begin and end, and where those of each begin and
    end from there on."""
    for first in range(0, max(1, len(firsts) - 1), AT_ONCE):
        own = firsts[first : first + AT_ONCE + 1]
        yield int(own[0]), int(own[-1]), own[:-1] - own[0], own[1:] - own[0]


def named(made: Arcs, arcs: Arcs, names: Sequence[str]) -> Arcs:
    """Arcs that stand for ways over others with the pieces of these, and with the name of most of
    their metres."""
    plain = names.index("") if "" in names else -1
    counts: list[Any] = []
    pieces = array.array("i")
    own_names: list[Any] = []
    for a, b, begins, ends in parts_of(made.firsts):
        places = made.pieces[a:b]
        way = numpy.repeat(numpy.arange(len(begins)), ends - begins)
        both = way * len(names) + arcs.names[places]
        kinds, firsts, back = numpy.unique(both, return_index=True, return_inverse=True)
        metres = numpy.bincount(back, arcs.lengths[places])
        name, way = kinds % len(names), kinds // len(names)
        order = numpy.lexsort((firsts, -metres, name == plain, way))
        own_names.append(name[order][numpy.unique(way[order], return_index=True)[1]])
        sizes = arcs.firsts[places + 1] - arcs.firsts[places]
        pieces.frombytes(arcs.pieces[ranges(arcs.firsts[places], sizes)[0]].tobytes())
        counts.append(numpy.add.reduceat(sizes, begins))
    columns = made.columns()
    columns[-1] = numpy.concatenate(own_names)
    firsts = numpy.concatenate(([0], numpy.cumsum(numpy.concatenate(counts))))
    return Arcs(columns, firsts, numpy.frombuffer(pieces, dtype=numpy.intc))


class Search:
    """The ways from kept junctions, found by one process or several."""

    # What a process that is forked inherits.
    inherited: Optional[Search] = None

    def __init__(self, stars: Stars, is_kept: Any) -> None:
        self.kinds, self.whole = stars.kinds, Links(stars.links, stars.kind_of)
        self.kept = is_kept.tobytes()
        self.short = shortcuts.Graph(stars.arcs, stars.kind_of, stars.kinds, is_kept)
        links = self.short.links
        self.few = Links(Star(stars.count, *links), self.short.kind_of)

    def ways(self, node: int) -> Ways:
        """Over the graph with shortcuts, and only where that doesn't decide over all arcs."""
        kinds, kept = self.kinds, self.kept
        found = ways_from(node, self.few, kinds, kept, shortcuts.MOST_WAYS, True)
        if found is None:
            found = ways_from(node, self.whole, kinds, kept, MOST_WAYS, False)
        return found or ([], False)

    def all(self, nodes: list[int], processes: int) -> Iterator[Ways]:
        """Yields the ways from each node, in the order of the nodes."""
        if processes < 2 or len(nodes) < FEWEST_FOR_PROCESSES:
            yield from map(self.ways, nodes)
            return
        Search.inherited = self
        try:
            with multiprocessing.get_context("fork").Pool(processes) as pool:
                for ways, partly in pool.imap(inherited_ways, nodes, CHUNK):
                    yield [(path, self.kinds.number_of(own)) for path, own in ways], partly
        finally:
            Search.inherited = None


def inherited_ways(node: int) -> tuple[list[tuple[list[int], Ruled]], bool]:
    """The ways from a node. A process numbers the kinds that it makes by itself, so it hands kinds
    on as they are."""
    search = Search.inherited
    if search is None:
        raise RuntimeError("nothing was inherited")
    ways, partly = search.ways(node)
    return [(path, search.kinds.of[kind]) for path, kind in ways], partly
