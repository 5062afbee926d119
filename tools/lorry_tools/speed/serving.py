"""Measures how many requests a second the service answers, and how long they take.

    tools/service_speed [--seconds N] [--clients 1,8,64] [--only example|copies|large] [PROGRAM]

PROGRAM is a built program, crates/lorry_plan/out/lorry_plan if it isn't named. Each network is
written to a temporary folder, and served by tools/serve; the clients run in four other processes,
each with a connection of its own, and ask for random plans without reasons, one after another.
Beside it each client runs the program for each of its requests. A row of a table is printed for
each: requests a second, the 50th, 95th and 99th percentile in milliseconds, the processor
milliseconds of each request, without those of the clients, and the memory of the service at the
end in MB. docs/SPEED.md says what the numbers mean."""
from __future__ import annotations

import argparse
import concurrent.futures
import contextlib
import dataclasses
import functools
import http.client
import json
import multiprocessing
import os
import random
import re
import resource
import subprocess
import sys
import tempfile
import time
from typing import Callable, Iterator

from lorry_tools.instants import DAY, instant_text, minute_of
from lorry_tools.problems import Problem
from lorry_tools.running import TOOLS, TOP
from lorry_tools.speed.service_networks import NETWORKS, Asked, Draw

PROGRAM = os.path.join(TOP, "crates", "lorry_plan", "out", "lorry_plan")
PROCESSES = 4
COLUMNS = (
    "Network",
    "Clients",
    "By",
    "Requests a second",
    "50th, ms",
    "95th",
    "99th",
    "Processor, ms each",
    "Memory, MB",
)
NAME = "network"

Ask = Callable[[Asked], None]


def arguments() -> argparse.Namespace:
    parser = argparse.ArgumentParser(
        description=__doc__, formatter_class=argparse.RawDescriptionHelpFormatter
    )
    parser.add_argument("--seconds", type=float, default=20, help="the seconds of each row (20)")
    parser.add_argument("--clients", default="1,8,64", help="how many ask at once (1,8,64)")
    parser.add_argument("--only", choices=list(NETWORKS), help="this network alone")
    parser.add_argument("program", nargs="?", default=PROGRAM, help="a built program")
    words = parser.parse_args()
    if not os.access(words.program, os.X_OK):
        parser.error(f"there is no program {words.program}: ./lorry_plan builds it")
    return words


@contextlib.contextmanager
def served(folder: str, program: str) -> Iterator[tuple[int, int]]:
    """Serves a folder; gives the port, and the number of the process."""
    words = [sys.executable, os.path.join(TOOLS, "serve"), folder, "--port", "0"]
    process = subprocess.Popen(
        [*words, "--program", program], stdout=subprocess.PIPE, universal_newlines=True
    )
    try:
        said = process.stdout.readline() if process.stdout else ""
        found = re.search(r"http://127\.0\.0\.1:(\d+)", said)
        if not found:
            raise Problem(f"the service didn't start: {said!r}", 1)
        yield int(found[1]), process.pid
    finally:
        process.terminate()
        process.wait()


def asker_of_service(port: int) -> Ask:
    connection = http.client.HTTPConnection("127.0.0.1", port, timeout=300)

    def ask(asked: Asked) -> None:
        body = {
            "from": asked.origin,
            "to": asked.goal,
            "lorry": asked.lorry,
            "leave": asked.leave,
            "within": asked.within,
            "reasons": False,
        }
        kind = {"Content-Type": "application/json"}
        connection.request("POST", f"/api/folders/{NAME}/plan", json.dumps(body), kind)
        answer = connection.getresponse()
        text = answer.read()
        if answer.status != 200:
            raise Problem(f"status {answer.status}: {text[:200]!r}", 1)

    return ask


def asker_of_program(program: str, folder: str) -> Ask:
    def ask(asked: Asked) -> None:
        depart = minute_of(asked.leave.replace(" ", "T")) or 0
        times = [instant_text(depart), instant_text(depart + asked.within * DAY)]
        ends = [asked.lorry, str(asked.origin), str(asked.goal), *times]
        words = [program, "plan", folder, *ends, "--form", "json"]
        subprocess.run(words, stdout=subprocess.PIPE, stdin=subprocess.DEVNULL, check=True)

    return ask


def client(make: Callable[[], Ask], draw: Draw, number: int, end: float) -> list[float]:
    """Asks until a time, and returns how long each answer took."""
    ask, draws, taken = make(), random.Random(number), []
    while time.monotonic() < end:
        asked, begun = draw(draws), time.monotonic()
        ask(asked)
        taken.append(time.monotonic() - begun)
    return taken


def clients_of(make: Callable[[], Ask], draw: Draw, numbers: list[int], end: float) -> list[float]:
    """Runs some clients, each in a thread."""
    with concurrent.futures.ThreadPoolExecutor(len(numbers)) as pool:
        runs = [pool.submit(client, make, draw, it, end) for it in numbers]
        return [seconds for run in runs for seconds in run.result()]


@dataclasses.dataclass
class Row:
    """How long answers took, sorted, and the processor seconds of the programs that the clients
    ran."""

    taken: list[float]
    busy: float

    def numbers(self, seconds: float, busy: float) -> str:
        """Returns requests a second, percentiles in milliseconds, and processor milliseconds of
        each request."""
        count = len(self.taken)
        places = (count * 50 // 100, count * 95 // 100, count * 99 // 100)
        shown = " | ".join(f"{1000 * self.taken[it]:.0f}" for it in places)
        return f"{count / seconds:.1f} | {shown} | {1000 * busy / count:.1f}"


def measured(make: Callable[[], Ask], draw: Draw, count: int, seconds: float) -> Row:
    """Lets some clients ask for a time."""
    context = multiprocessing.get_context("fork")
    answers = context.SimpleQueue()
    end = time.monotonic() + seconds
    shares = [list(range(it, count, PROCESSES)) for it in range(min(PROCESSES, count))]

    def work(numbers: list[int]) -> None:
        taken = clients_of(make, draw, numbers, end)
        usage = resource.getrusage(resource.RUSAGE_CHILDREN)
        answers.put((taken, usage.ru_utime + usage.ru_stime))

    processes = [context.Process(target=work, args=(it,), daemon=True) for it in shares]
    for process in processes:
        process.start()
    found = [answers.get() for _ in processes]
    for process in processes:
        process.join()
    return Row(sorted(it for taken, _ in found for it in taken), sum(busy for _, busy in found))


def busy_of(process: int) -> float:
    """Returns the processor seconds of a process and of those that it started and that ended."""
    with open(f"/proc/{process}/stat", encoding="ascii") as file:
        fields = file.read().rpartition(")")[2].split()
    return sum(map(int, fields[11:15])) / os.sysconf("SC_CLK_TCK")


def memory_of(process: int) -> float:
    """Returns the megabytes of memory of a process."""
    with open(f"/proc/{process}/status", encoding="ascii") as file:
        return next(int(line.split()[1]) / 1024 for line in file if line.startswith("VmRSS:"))


def main() -> int:
    words = arguments()
    program = os.path.abspath(words.program)
    print(f"| {' | '.join(COLUMNS)} |\n|{'---|' * len(COLUMNS)}", flush=True)
    for key, network in NETWORKS.items():
        if words.only not in (None, key):
            continue
        with tempfile.TemporaryDirectory(prefix="lorry_plan-") as place:
            folder = os.path.join(place, NAME)
            os.mkdir(folder)
            network.write(folder)
            by_program = functools.partial(asker_of_program, program, folder)
            with served(folder, program) as (port, process):
                by_service = functools.partial(asker_of_service, port)
                for count in map(int, words.clients.split(",")):
                    row = f"| {network.name} | {count}"
                    before = busy_of(process)
                    found = measured(by_service, network.draw, count, words.seconds)
                    numbers = found.numbers(words.seconds, busy_of(process) - before)
                    print(f"{row} | service | {numbers} | {memory_of(process):.0f} |", flush=True)
                    found = measured(by_program, network.draw, count, words.seconds)
                    numbers = found.numbers(words.seconds, found.busy)
                    print(f"{row} | a process each | {numbers} | |", flush=True)
    return 0
