"""What roads ask of vehicles: a set of rules, and a toll."""
from __future__ import annotations

from typing import Any

import numpy

from lorry_tools.conversion.arcs import Arcs

NO_RULES: frozenset[int] = frozenset()
# The numbers of rules, and the toll.
Ruled = tuple[frozenset[int], int]
FREE: Ruled = (NO_RULES, 0)
# Tolls are added up as whole numbers, so that the order doesn't matter: of these parts of a metre,
# whose numbers are exact.
TOLL = 1 << 60
BITS = 32


class Kinds:
    """Each set of rules with a toll that roads have, with a number; 0 asks nothing."""

    def __init__(self) -> None:
        self.of = [FREE]
        self.numbers = {FREE: 0}
        self.sums: dict[int, int] = {}
        self.known: dict[int, bool] = {}

    def number_of(self, ruled: Ruled) -> int:
        found = self.numbers.get(ruled)
        if found is None:
            found = self.numbers[ruled] = len(self.of)
            self.of.append(ruled)
        return found

    def of_arcs(self, arcs: Arcs) -> Any:
        """The kind of each arc."""
        found = numpy.zeros(len(arcs), dtype=numpy.int32)
        at = numpy.flatnonzero((arcs.rules != 0) | (arcs.tolls != 0))
        sets = {it: frozenset((it,)) for it in numpy.unique(arcs.rules[at]).tolist()}
        sets[0] = NO_RULES
        pairs = zip(arcs.rules[at].tolist(), arcs.tolls[at].tolist())
        found[at] = [self.number_of((sets[rules], int(toll * TOLL))) for rules, toll in pairs]
        return found

    def joined(self, one: int, other: int) -> int:
        """The kind of a way over a road of each."""
        if not one or not other:
            return one or other
        key = one << BITS | other
        found = self.sums.get(key)
        if found is None:
            (rules, toll), (own, more) = self.of[one], self.of[other]
            found = self.sums[key] = self.number_of((rules | own, toll + more))
        return found

    def all_joined(self, ones: Any, others: Any) -> Any:
        """The same of many pairs, given as arrays."""
        found = numpy.where(ones == 0, others, ones)
        at = numpy.flatnonzero((ones != 0) & (others != 0))
        keys = ones[at].astype(numpy.int64) << BITS | others[at]
        pairs, back = numpy.unique(keys, return_inverse=True)
        sums = [self.joined(it >> BITS, it & (1 << BITS) - 1) for it in pairs.tolist()]
        found[at] = numpy.array(sums, dtype=found.dtype)[back]
        return found

    def is_within(self, one: int, other: int) -> bool:
        """Whether a kind has no further rules and no higher toll than another one."""
        (rules, toll), (own, more) = self.of[one], self.of[other]
        return toll <= more and rules <= own

    def are_within(self, ones: Any, others: Any) -> Any:
        """The same of many pairs, given as arrays."""
        found = (ones == 0) | (ones == others)
        at = numpy.flatnonzero(~found & (others != 0))
        keys = ones[at].astype(numpy.int64) << BITS | others[at]
        pairs, back = numpy.unique(keys, return_inverse=True)
        within = [self.is_within(it >> BITS, it & (1 << BITS) - 1) for it in pairs.tolist()]
        found[at] = numpy.array(within, dtype=bool)[back]
        return found

    def sets(self) -> tuple[list[frozenset[int]], Any]:
        """The sets of rules, and the number of each kind's."""
        numbers = {NO_RULES: 0}
        found = [numbers.setdefault(rules, len(numbers)) for rules, _ in self.of]
        return list(numbers), numpy.array(found, dtype=numpy.int32)
