"""The service: its folders, its runs, and how each question is answered."""
from __future__ import annotations

import asyncio
import concurrent.futures
import time
from typing import Any, Awaitable, Callable, Optional, TypeVar, Union

from lorry_tools.service.answering import (
    FORMS,
    answer_of_pairs,
    answer_of_run,
    bans_value,
)
from lorry_tools.service.bodies import BansBody, PlanBody, TripBody
from lorry_tools.service.copies import Copy, Served, Stamp
from lorry_tools.service.gathering import BATCHES_AT_ONCE, Gatherer, Planned
from lorry_tools.service.guards import json_bytes
from lorry_tools.service.limits import Limits, TooSlow
from lorry_tools.service.runs import LimitedProgram, Runs, deadline_of
from lorry_tools.trips.request import PLAN, Request

LOOK_EACH = 1.0  # seconds between two looks at the files of the folders
BUILDERS = 2  # threads that write answers of which all runs have ended

T = TypeVar("T")


class Service:
    """The folders that are served, and the threads in which questions are answered."""

    def __init__(self, paths: dict[str, str], place: str, runs: Runs, limits: Limits):
        self.runs, self.limits = runs, limits
        self.folders = {
            name: Served(name, path, place, runs, limits) for name, path in paths.items()
        }
        pool = concurrent.futures.ThreadPoolExecutor
        self.builders, self.workers = pool(BUILDERS), pool(2 * limits.runs)
        batches = max(BATCHES_AT_ONCE, limits.runs) * len(paths)
        self.planners, self.watcher = pool(batches + 2), pool(1)
        self.gatherer = Gatherer(runs, limits, self.planners)
        self._watch: Optional[asyncio.Task[None]] = None

    async def start(self) -> None:
        self._watch = asyncio.get_running_loop().create_task(self.watch())

    async def stop(self) -> None:
        if self._watch:
            self._watch.cancel()
        self.runs.stop()
        for pool in (self.builders, self.workers, self.planners, self.watcher):
            pool.shutdown()
        for served in self.folders.values():
            served.close()

    async def watch(self) -> None:
        """Loads folders whose files have changed."""
        loop = asyncio.get_running_loop()
        seen: dict[str, Optional[Stamp]] = {}
        while True:
            await asyncio.sleep(LOOK_EACH)
            for name, served in self.folders.items():
                last = seen.get(name)
                seen[name] = await loop.run_in_executor(self.watcher, served.look, last)

    # Questions.

    async def trip(self, served: Served, body: TripBody, form: str) -> tuple[str, bytes, str]:
        """Returns the version of the copy that was used, the answer to a trip, and its type."""
        copy, deadline = served.take(), deadline_of(self.limits)
        try:
            if body.is_read_at_once(copy.places):
                request = read_body(copy, body)
            else:
                read = self.in_thread(self.builders, deadline, lambda: read_body(copy, body))
                request = await read

            def write(found: Optional[Planned]) -> bytes:
                return self.written(copy, body, request, found, form, deadline)

            found: Union[None, Planned, bytes] = None
            if is_plain(body, request):
                needs_runs = body.reasons or form == "svg"
                finish = None if needs_runs else write
                plan = self.gatherer.plan(copy, request, deadline, finish)
                found = await self.within(deadline, plan)
            if not isinstance(found, bytes):
                pairs = found
                found = await self.in_thread(self.workers, deadline, lambda: write(pairs))
            return copy.version, found, FORMS[form][0]
        finally:
            copy.release()

    def written(
        self,
        copy: Copy,
        body: TripBody,
        request: Request,
        found: Optional[Planned],
        form: str,
        deadline: float,
    ) -> bytes:
        """Returns the answer to a trip in a form; runs of the program that are still needed are
        done here."""
        with LimitedProgram(copy.folder, self.runs, deadline, copy.ways) as program:
            if found is None:
                answer = answer_of_run(copy, body, request, program)
            else:
                answer = answer_of_pairs(copy, body, request, found, program)
            return FORMS[form][1](answer, program)

    async def bans(self, served: Served, body: BansBody) -> tuple[str, bytes, str]:
        copy, deadline = served.take(), deadline_of(self.limits)

        def write() -> bytes:
            with LimitedProgram(copy.folder, self.runs, deadline) as program:
                return json_bytes(bans_value(copy, body, program))

        try:
            text = await self.in_thread(self.workers, deadline, write)
            return copy.version, text, FORMS["json"][0]
        finally:
            copy.release()

    async def about(
        self, served: Served, what: Callable[[Copy], dict[str, Any]]
    ) -> tuple[str, bytes]:
        """Returns the version of a copy, and what it has."""
        copy, deadline = served.take(), deadline_of(self.limits)
        try:
            write = self.in_thread(self.builders, deadline, lambda: json_bytes(what(copy)))
            return copy.version, await write
        finally:
            copy.release()

    # Threads.

    async def in_thread(
        self, pool: concurrent.futures.Executor, deadline: float, work: Callable[[], T]
    ) -> T:
        """Does work in a thread; work whose time is over before it begins isn't begun."""

        def in_time() -> T:
            if time.monotonic() > deadline:
                raise TooSlow(self.limits.seconds)
            return work()

        loop = asyncio.get_running_loop()
        return await loop.run_in_executor(pool, in_time)

    async def within(self, deadline: float, work: Awaitable[T]) -> T:
        try:
            return await asyncio.wait_for(work, max(0.0, deadline - time.monotonic()))
        except asyncio.TimeoutError:
            raise TooSlow(self.limits.seconds) from None


def read_body(copy: Copy, body: TripBody) -> Request:
    return body.request(body.places(copy.places))


def is_plain(body: TripBody, request: Request) -> bool:
    """Whether a trip is planned as a row of a batch."""
    has_certificate = isinstance(body, PlanBody) and body.certificate
    return request.command == PLAN and not has_certificate and not body.asks_for_a_way()
