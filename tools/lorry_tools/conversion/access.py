"""Who is let in, as a list of clauses for each class of vehicles, and the rows of rules.csv that
say so.

A clause is an access and parts: the comparisons, flags and hours that must all hold. In a list the
last clause that holds decides, as in lorry_plan; a clause without parts always holds. Roads need
four operations on lists: a road's sign and a country's law must both let in (`both`); a text whose
hours can't be read may hold at any time (`capped`); a list is about some vehicles only
(`with_parts`); and a ban is lifted for deliveries (`for_deliveries`)."""
from __future__ import annotations

from typing import Iterable

# An access, and the parts that must all hold.
Clause = tuple[int, tuple[str, ...]]
Clauses = tuple[Clause, ...]
# A list for each class.
Lists = tuple[Clauses, ...]

NO, DESTINATION, YES = 0, 1, 2
VALUES = ("no", "destination", "yes")

# The classes, and the key that comes last for each: nothing of the same road or of its area comes
# after it.
CLASSES = ("hgv", "hgv_articulated", "goods", "bus")

OPEN: Clauses = ((YES, ()),)
CLOSED: Clauses = ((NO, ()),)
# Lists that would be longer become a closed road.
MOST_CLAUSES = 400


def clause(access: int, parts: Iterable[str] = ()) -> Clause:
    return access, tuple(sorted(set(parts)))


def simplified(clauses: Clauses) -> Clauses:
    """The same list without clauses that never decide, or that decide what is decided without
    them."""
    kept: list[Clause] = []
    for access, parts in clauses:
        if not parts:
            kept = []
        else:
            # A clause before this one that holds only where this one does, never decides.
            kept = [it for it in kept if not set(parts) <= set(it[1])]
        kept.append((access, parts))
    found: list[Clause] = []
    for access, parts in kept:
        redundant = False
        for before_access, before_parts in reversed(found):
            if before_access != access:
                break
            if set(before_parts) <= set(parts):
                redundant = True
                break
        if not redundant:
            found.append((access, parts))
    return tuple(found)


def falls(clauses: Clauses) -> bool:
    """Whether no clause lets in more than those before it, so that the least access of those that
    hold decides."""
    return all(one[0] >= other[0] for one, other in zip(clauses, clauses[1:]))


def both(one: Clauses, other: Clauses) -> Clauses:
    """The list that lets in whom both let in. Each begins with a clause that always holds."""
    if one == OPEN or one == other:
        return other
    if other == OPEN:
        return one
    if falls(one) and falls(other):
        base = min(one[0][0], other[0][0])
        rest = sorted(one[1:] + other[1:], key=lambda it: -it[0])
        return simplified(((base, ()),) + tuple(it for it in rest if it[0] < base))
    if len(one) * len(other) > MOST_CLAUSES:
        return CLOSED
    # The last pair that holds, by the place in the first list and then in the second, is that of
    # the two clauses that decide.
    return simplified(tuple(clause(min(a[0], b[0]), a[1] + b[1]) for a in one for b in other))


def capped(clauses: Clauses, access: int) -> Clauses:
    """The list that lets in no more than this access."""
    return both(clauses, ((access, ()),))


def with_parts(clauses: Clauses, parts: Iterable[str]) -> Clauses:
    """The list that says the same, but only where the parts hold; elsewhere everybody is let in."""
    return simplified(OPEN + tuple(clause(access, own + tuple(parts)) for access, own in clauses))


def for_deliveries(clauses: Clauses, parts: Iterable[str]) -> Clauses:
    """The list that also lets deliveries in where the parts hold."""
    return simplified(
        clauses
        + tuple(clause(max(access, DESTINATION), own + tuple(parts)) for access, own in clauses)
    )


def value_of(clauses: Clauses) -> str:
    """The text of a conditional value."""
    return "; ".join(f"{VALUES[access]} @ ({' AND '.join(parts)})" for access, parts in clauses)


def rows(lists: Lists, explicit: bool) -> list[tuple[str, str]]:
    """The keys and values that say what the lists of the four classes say. With `explicit` they
    replace whatever an area says."""
    found: list[tuple[str, str]] = []

    def add(key: str, clauses: Clauses) -> None:
        if explicit or clauses[0][0] != YES:
            found.append((key, VALUES[clauses[0][0]]))
        if len(clauses) > 1:
            found.append((key + ":conditional", value_of(clauses[1:])))

    if not explicit and lists[0] == lists[1] == lists[2] == lists[3]:
        add("access", lists[0])
        return found
    add("hgv", lists[0])
    if lists[1] != lists[0] or explicit:
        if not explicit and lists[1][0][0] == YES and lists[0] != OPEN:
            # Said in so many words, since the key `hgv` is about this class too.
            found.append(("hgv_articulated", "yes"))
            if len(lists[1]) > 1:
                found.append(("hgv_articulated:conditional", value_of(lists[1][1:])))
        else:
            add("hgv_articulated", lists[1])
    add("goods", lists[2])
    add("bus", lists[3])
    return found


def is_shut(lists: Iterable[Clauses]) -> bool:
    """Whether no vehicle is ever let in."""
    return all(access == NO for clauses in lists for access, _ in clauses)
