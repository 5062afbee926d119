"""Plans that are asked for at about the same time are planned together, by one batch.

A plan that comes alone is planned at once. Otherwise it waits some milliseconds for others, so that
those who were answered together, and ask again, are planned together again. Few plans are one batch
with all workers; beside it a second one reads while the first one plans, if it is about as large.
Many plans are shared by several batches at once, of which each reads the folder and then plans
with few workers, so that no processor waits for another one's reading. Where a batch fails, each
of its plans is planned by itself."""
from __future__ import annotations

import asyncio
import collections
import concurrent.futures
import dataclasses
import functools
import itertools
import os
import weakref
from typing import Callable, Deque, Optional, Union

from lorry_tools.answers import Pair, RefusedTrip
from lorry_tools.files import JOBS
from lorry_tools.problems import Problem
from lorry_tools.program import Refused
from lorry_tools.service.copies import Copy
from lorry_tools.service.limits import Limits, Stopping, TooSlow, Unavailable
from lorry_tools.service.runs import LimitedProgram, Runs
from lorry_tools.trips.many import row_of
from lorry_tools.trips.answer import trip_of
from lorry_tools.trips.request import Request

BATCHES_AT_ONCE = 2  # of few plans over one folder: while one searches the other one reads
MOST_WORKERS = 64  # docs/LIMITS.md: of a batch
MANY = 32  # plans, which are worth a reading of the folder beside other batches
LONGEST_WAIT = 0.05  # seconds that a plan waits for others while another batch may begin
PART_OF_BATCH = 20  # such a wait is up to this part of the time that the last batch took

Planned = Union[list[Pair], RefusedTrip]
# What is made of a plan where it was planned, and what a request gets.
Finish = Callable[[Planned], bytes]
Result = Union[Planned, bytes]


@dataclasses.dataclass
class Asked:
    """A plan that waits for its batch."""

    request: Request
    deadline: float
    future: asyncio.Future[Result]
    finish: Optional[Finish]


@dataclasses.dataclass
class Share:
    """How those that wait are shared: how many batches begin, and how many plans and workers each
    of them has at most."""

    batches: int
    rows: int
    workers: int


class Line:
    """The plans over one copy that wait, and the batches that are at work."""

    def __init__(self) -> None:
        self.waiting: Deque[Asked] = collections.deque()
        self.at_work: list[int] = []  # how many plans each of those has
        self.has_timer = False
        self.last = 0.0  # when a plan came, or a batch was answered, for the last time
        self.took = 0.0  # the seconds of the last batch

    def share(self, runs: int) -> Optional[Share]:
        """Returns how those that wait are shared, where at most RUNS batches are at work at once;
        none where a batch isn't worth its reading of the folder."""
        free = runs - len(self.at_work)
        many = min(len(self.waiting) // MANY, free)
        if many > (0 if self.at_work else 1):
            rows = -(-len(self.waiting) // many)
            return Share(many, rows, min(free // many, MOST_WORKERS))
        return Share(1, self.rows(), min(runs, MOST_WORKERS)) if self.may_begin() else None

    def may_begin(self) -> bool:
        """Whether a batch of few plans may begin."""
        if not self.waiting or len(self.at_work) >= BATCHES_AT_ONCE:
            return False
        return not self.at_work or 4 * len(self.waiting) >= 3 * max(self.at_work)

    def rows(self) -> int:
        """Returns how many of those that wait a batch of few plans takes. Beside another batch it
        is at most half of all plans, so that the two become alike, and one reads while the other
        plans."""
        waiting, at_work = len(self.waiting), sum(self.at_work)
        return min(waiting, (waiting + at_work + 1) // 2) if at_work else waiting

    def take(self, share: Share, most: int) -> list[list[Asked]]:
        """Returns the plans of some batches, which wait no longer: those that have waited longest,
        by lorry and departure, so that each batch makes few nets."""
        rows = min(share.rows, most)
        count = min(len(self.waiting), share.batches * rows)
        taken = [self.waiting.popleft() for _ in range(count)]
        taken = [it for it in taken if not it.future.done()]
        taken.sort(key=lambda it: (it.request.vehicle, it.request.depart))
        return [taken[at : at + rows] for at in range(0, len(taken), rows)]


class Gatherer:
    """Plans trips together. All but `plan_batch` runs in the event loop."""

    def __init__(self, runs: Runs, limits: Limits, pool: concurrent.futures.Executor):
        self.runs, self.limits, self.pool = runs, limits, pool
        self.lines: weakref.WeakKeyDictionary[Copy, Line] = weakref.WeakKeyDictionary()
        self.batches = self.plans = 0
        self._numbers = itertools.count(1)
        self._tasks: set[asyncio.Task[None]] = set()

    def plan(
        self, copy: Copy, request: Request, deadline: float, finish: Optional[Finish] = None
    ) -> asyncio.Future[Result]:
        """Returns what will be the pairs of a plan over a copy that is in use until then, or what
        FINISH makes of them."""
        loop = asyncio.get_running_loop()
        line = self.lines.setdefault(copy, Line())
        asked = Asked(request, deadline, loop.create_future(), finish)
        line.waiting.append(asked)
        is_alone = not line.at_work and loop.time() - line.last > self.wait_of(line)
        self.begin_soon(copy, line, 0.0 if is_alone else self.wait_of(line))
        line.last = loop.time()
        return asked.future

    def wait_of(self, line: Line) -> float:
        """Returns the seconds that a plan waits for others: where batches take long, those who were
        answered together need more of them to ask again."""
        usual = self.limits.gather_ms / 1000
        return max(usual, min(LONGEST_WAIT, line.took / PART_OF_BATCH)) if usual else 0.0

    def begin_soon(self, copy: Copy, line: Line, wait: float) -> None:
        if line.waiting and not line.has_timer:
            line.has_timer = True
            asyncio.get_running_loop().call_later(wait, self.begin, copy, line)

    def begin(self, copy: Copy, line: Line) -> None:
        """Starts batches of those that wait, unless enough are at work: their ends start them."""
        line.has_timer = False
        while share := line.share(self.limits.runs):
            for batch in line.take(share, self.limits.batch_rows):
                line.at_work.append(len(batch))
                work = self.work(copy, line, batch, share.workers)
                task = asyncio.get_running_loop().create_task(work)
                self._tasks.add(task)
                task.add_done_callback(self._tasks.discard)

    async def work(self, copy: Copy, line: Line, batch: list[Asked], workers: int) -> None:
        loop = asyncio.get_running_loop()
        copy.take()
        failed: BaseException = Stopping()
        begun = loop.time()
        try:
            self.batches, self.plans = self.batches + 1, self.plans + len(batch)
            number = next(self._numbers)
            plan = functools.partial(self.plan_batch, copy, batch, number, workers)
            found = await loop.run_in_executor(self.pool, plan)
            # All are answered together, so that those who ask again do so together.
            results = await loop.run_in_executor(self.pool, finish_all, batch, found)
            for asked, result in zip(batch, results):
                give(asked.future, result)
        except Exception as error:
            failed = error
        finally:
            for asked in batch:
                give(asked.future, failed)  # (to those that have no result yet)
            line.at_work.remove(len(batch))
            line.last = loop.time()
            line.took = line.last - begun
            self.begin_soon(copy, line, self.wait_of(line))
            copy.release()

    def plan_batch(
        self, copy: Copy, batch: list[Asked], number: int, workers: int
    ) -> list[Union[Planned, BaseException]]:
        """Plans some trips by one run of the program, and each by itself where that fails."""
        deadline = max(it.deadline for it in batch)
        program = LimitedProgram(copy.folder, self.runs, deadline)
        name = f"jobs-{number}.csv"
        path = copy.folder.file(name)
        try:
            with open(path, "w", encoding="ascii") as file:
                file.write("\n".join([*JOBS.headers, *(row_of(it.request) for it in batch), ""]))
            found = program.batch(copy.folder.path, name, workers)
            if len(found) == len(batch):
                return list(found)
        except Stopping as problem:
            return [problem] * len(batch)
        except TooSlow as problem:
            if len(batch) == 1:
                return [problem]
        except (Problem, OSError):
            pass
        finally:
            remove(path)
        return [self.plan_alone(copy, it) for it in batch]

    def plan_alone(self, copy: Copy, asked: Asked) -> Union[Planned, BaseException]:
        try:
            program = LimitedProgram(copy.folder, self.runs, asked.deadline)
            return program.plan(trip_of(copy.folder, asked.request))
        except Refused as refused:
            words = refused.line.split()
            return RefusedTrip(words[2]) if words[:2] == ["refused", "request"] else refused
        except Problem as problem:
            return problem
        except OSError as error:
            return Unavailable(f"a file can't be read: {error.strerror}")


def finish_all(
    batch: list[Asked], found: list[Union[Planned, BaseException]]
) -> list[Union[Result, BaseException]]:
    """Returns what each plan of a batch gets."""
    results: list[Union[Result, BaseException]] = []
    for asked, planned in zip(batch, found):
        result: Union[Result, BaseException] = planned
        if asked.finish and not isinstance(planned, BaseException):
            try:
                result = asked.finish(planned)
            except Exception as error:
                result = error
        results.append(result)
    return results


def give(future: asyncio.Future[Result], result: Union[Result, BaseException]) -> None:
    if future.done():
        return
    if isinstance(result, BaseException):
        future.set_exception(result)
    else:
        future.set_result(result)


def remove(path: str) -> None:
    try:
        os.remove(path)
    except OSError:
        pass
