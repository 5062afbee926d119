"""Tests of how the service shares plans: what is a batch, with how many workers, and which trips stand together.

    python3 -m unittest tools/tests/test_gathering.py

No program runs: a stand-in notes what it is asked, and answers each row with its number of minutes."""
import asyncio
import concurrent.futures
import os
import sys
import tempfile
import threading
import time
import types
import unittest

sys.path.insert(0, os.path.dirname(os.path.abspath(__file__)))
import beside  # (finds the library)

from lorry_tools.folder import Folder
from lorry_tools.places import Place
from lorry_tools.service.gathering import MANY, Asked, Gatherer, Line
from lorry_tools.service.limits import Limits
from lorry_tools.service.runs import Runs as ProgramRuns
from lorry_tools.service.runs import environment_of
from lorry_tools.trips.request import PLAN, Request

SECONDS = 60


def request_of(number, vehicle="van", depart=20_000_000):
    return Request(PLAN, vehicle, Place(number, ""), Place(number, ""), depart, depart + 60, [])


def line_of(waiting, at_work=()):
    """Returns a line in which so many plans wait beside batches of these sizes."""
    line = Line()
    line.at_work = list(at_work)
    open_future = types.SimpleNamespace(done=lambda: False)
    line.waiting.extend(Asked(request_of(it), 0.0, open_future, None) for it in range(waiting))
    return line


class Sharing(unittest.TestCase):
    def shared(self, waiting, at_work=(), runs=4):
        """Returns the batches, rows and workers of what begins."""
        share = line_of(waiting, at_work).share(runs)
        return share and (share.batches, share.rows, share.workers)

    def test_few_plans_are_one_batch_with_all_workers(self):
        self.assertIsNone(self.shared(0))
        for waiting in (1, 8, MANY, 2 * MANY - 1):
            self.assertEqual(self.shared(waiting), (1, waiting, 4))

    def test_a_second_batch_of_few_plans_is_about_as_large(self):
        self.assertIsNone(self.shared(5, [8]))
        self.assertEqual(self.shared(6, [8]), (1, 6, 4))
        self.assertEqual(self.shared(15, [1]), (1, 8, 4))
        self.assertIsNone(self.shared(MANY - 1, [8, 8]))

    def test_many_plans_are_several_batches_with_few_workers(self):
        self.assertEqual(self.shared(2 * MANY), (2, MANY, 2))
        self.assertEqual(self.shared(3 * MANY + 1), (3, MANY + 1, 1))
        self.assertEqual(self.shared(4 * MANY), (4, MANY, 1))
        self.assertEqual(self.shared(256), (4, 64, 1))
        self.assertEqual(self.shared(256, runs=8), (8, MANY, 1))

    def test_many_plans_begin_beside_other_batches(self):
        self.assertEqual(self.shared(MANY, [MANY] * 3), (1, MANY, 1))
        self.assertIsNone(self.shared(4 * MANY, [MANY] * 4))
        self.assertEqual(self.shared(2 * MANY, [2 * MANY]), (2, MANY, 1))

    def test_one_run_at_once_is_one_worker(self):
        self.assertEqual(self.shared(64, runs=1), (1, 64, 1))
        self.assertEqual(self.shared(5, runs=100), (1, 5, 64))

    def test_trips_of_a_lorry_stand_together_by_departure(self):
        line = line_of(4 * MANY)
        for number, asked in enumerate(line.waiting):
            asked.request = request_of(number, "xyz"[number % 3], 20_000_000 + 37 * number % 64)
        batches = line.take(line.share(4), 256)
        keys = [[(it.request.vehicle, it.request.depart) for it in batch] for batch in batches]
        self.assertEqual([len(it) for it in keys], [MANY] * 4)
        self.assertEqual(sum(keys, []), sorted(sum(keys, [])))
        self.assertLessEqual(max(len({it[0] for it in batch}) for batch in keys), 2)

    def test_those_that_have_waited_longest_come_first_and_those_that_left_not_at_all(self):
        line = line_of(4 * MANY)
        line.waiting[3].future = types.SimpleNamespace(done=lambda: True)
        taken = line.take(line.share(4), 10)
        self.assertEqual([it.request.origin.node for batch in taken for it in batch], [it for it in range(40) if it != 3])
        self.assertEqual(len(line.waiting), 4 * MANY - 40)


class Runs:
    """Notes each batch that is asked for, and answers it when it is told to."""

    path = "lorry_plan"

    def __init__(self):
        self.batches, self.go = [], threading.Event()

    def run(self, words, deadline):
        with open(os.path.join(words[1], words[2]), encoding="ascii") as file:
            rows = file.read().splitlines()[1:]
        self.batches.append((int(words[4]), rows))
        self.go.wait(SECONDS)
        pairs = (f"job {number}\npairs 1\npair {row.split(',')[1]} 0.000\n" for number, row in enumerate(rows, 1))
        return 0, "".join(pairs)


class Gathering(unittest.TestCase):
    def test_each_plan_gets_its_own_answer_from_batches_at_once(self):
        runs, limits = Runs(), Limits(gather_ms=5)

        async def ask(place, pool):
            folder = Folder(place)
            copy = Copy(folder)
            gatherer = Gatherer(runs, limits, pool)
            deadline = time.monotonic() + SECONDS
            first = gatherer.plan(copy, request_of(1), deadline)
            await until(lambda: len(runs.batches) == 1)
            others = [gatherer.plan(copy, request_of(it, "xyz"[it % 3]), deadline) for it in range(2, 98)]
            waiting = asyncio.gather(first, *others)
            await until(lambda: len(runs.batches) == 4)
            runs.go.set()
            self.assertEqual([it[0].minute for it in await waiting], list(range(1, 98)))

        with tempfile.TemporaryDirectory() as place, concurrent.futures.ThreadPoolExecutor(8) as pool:
            asyncio.run(ask(place, pool))
            self.assertEqual(os.listdir(place), [])
        self.assertEqual(sorted((workers, len(rows)) for workers, rows in runs.batches), [(1, 32), (1, 32), (1, 32), (4, 1)])
        for _, rows in runs.batches:
            lorries = [it.partition(",")[0] for it in rows]
            self.assertEqual(lorries, sorted(lorries))


class LargePages(unittest.TestCase):
    def test_a_run_asks_for_large_pages_beside_what_is_set(self):
        with tempfile.TemporaryDirectory() as place:
            path = os.path.join(place, "program")
            with open(path, "w", encoding="ascii") as file:
                file.write('#!/bin/sh\necho "$1 $GLIBC_TUNABLES"\n')
            os.chmod(path, 0o755)
            printed = ProgramRuns(path, Limits()).run(["plan"], time.monotonic() + SECONDS)
        self.assertEqual(printed[0], 0)
        self.assertRegex(printed[1], r"^plan (.*:)?glibc\.malloc\.hugetlb=1\n$")
        self.assertEqual(environment_of({"GLIBC_TUNABLES": "a=1", "B": "2"}), {"GLIBC_TUNABLES": "a=1:glibc.malloc.hugetlb=1", "B": "2"})


class Copy:
    """A copy of a folder that counts its users."""

    def __init__(self, folder):
        self.folder, self.users = folder, 0

    def take(self):
        self.users += 1

    def release(self):
        self.users -= 1


async def until(holds):
    end = time.monotonic() + SECONDS
    while not holds() and time.monotonic() < end:
        await asyncio.sleep(0.005)


if __name__ == "__main__":
    unittest.main()
