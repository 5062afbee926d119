"""Answers questions about trips over HTTP, and shows a desk in the browser.

    tools/serve FOLDER.. [--port 8080] [--host 127.0.0.1]

Open http://127.0.0.1:8080 in a browser, or ask by JSON: /openapi.json has the addresses, and
docs/SERVE.md an example of each. Each folder has the last part of its path as its name.

It listens on this machine alone unless --host names another address, and then it asks nobody for a
password. It reads only the folders that are named here, and answers over copies of them: changed
files are noticed, and used once the program has found no fault in them.

Limits: 64 kB of a request (413), 10 seconds until it is there (408), 256 open requests (429, or
--requests), 60 seconds of a request (504, or --seconds), as many runs of the program at once as
there are processors (--runs), and 4,096 MB of memory of each (503, or --memory). A signal ends it:
open requests have 10 more seconds.

It needs python3-fastapi, python3-uvicorn and python3-jinja2, and for the map libjs-leaflet. It is
not proved; it asks the proved program."""
from __future__ import annotations

import argparse
import ipaddress
import json
import os
import resource
import socket
import subprocess
import sys
import tempfile
from typing import Optional

from lorry_tools.problems import NO_PROGRAM, Problem
from lorry_tools.program import default_program
from lorry_tools.running import TOP
from lorry_tools.service.limits import Limits

LAUNCHER = os.path.join(TOP, "lorry_plan")
BUILT = os.path.join(TOP, "crates", "lorry_plan", "out", "lorry_plan")
SYSTEM_PYTHON = "/usr/bin/python3"
BACKLOG = 2048


def read_words() -> argparse.Namespace:
    usual = Limits(runs=len(os.sched_getaffinity(0)))
    parser = argparse.ArgumentParser(
        description=__doc__, formatter_class=argparse.RawDescriptionHelpFormatter
    )
    add = parser.add_argument
    add("folders", metavar="FOLDER", nargs="*", help="a folder that is served")
    add("--port", metavar="N", type=int, default=8080, help="the port (8080); 0 is any free one")
    add("--host", metavar="ADDRESS", default="127.0.0.1", help="the address (127.0.0.1)")
    add(
        "--tiles",
        metavar="URL",
        help="tiles below the roads, such as https://tile.example.org/{z}/{x}/{y}.png; without it "
        "nothing comes from another host",
    )
    add("--runs", metavar="N", type=int, default=usual.runs, help="runs of the program at once")
    add("--requests", metavar="N", type=int, default=usual.requests, help="open requests at once")
    add("--seconds", metavar="N", type=float, default=usual.seconds, help="seconds of a request")
    add("--memory", metavar="MB", type=int, default=usual.memory_mb, help="memory of a run")
    add(
        "--gather",
        metavar="MS",
        type=int,
        default=usual.gather_ms,
        help="milliseconds that a plan waits for others, at most 50 (10)",
    )
    add(
        "--openapi",
        action="store_true",
        help="print the schema of all addresses, and serve nothing",
    )
    add("--program", metavar="PATH", help="the program")
    words = parser.parse_args()
    if not words.folders and not words.openapi:
        parser.error("expected is a folder")
    for name in ("runs", "requests", "seconds", "memory"):
        if getattr(words, name) <= 0:
            parser.error(f"--{name} is above 0")
    if not 0 <= words.gather <= 50:
        parser.error("--gather is from 0 to 50")
    if not 0 <= words.port <= 65535:
        parser.error("--port is from 0 to 65535")
    return words


def limits_of(words: argparse.Namespace) -> Limits:
    return Limits(
        requests=words.requests,
        runs=words.runs,
        seconds=words.seconds,
        memory_mb=words.memory,
        gather_ms=words.gather,
    )


def program_of(path: Optional[str]) -> str:
    """Returns the program itself: the launcher, which looks whether it has to be built, is run only
    once."""
    program = path or default_program()
    if path is None and program == LAUNCHER:
        subprocess.run([program], stdin=subprocess.DEVNULL, stdout=subprocess.DEVNULL, check=False)
        program = BUILT
    found = os.path.abspath(program)
    if not os.access(found, os.X_OK):
        raise Problem(f"there is no program {program}", NO_PROGRAM)
    return found


def allow_many_files() -> None:
    """Lets this process have as many connections as it may."""
    _, most = resource.getrlimit(resource.RLIMIT_NOFILE)
    resource.setrlimit(resource.RLIMIT_NOFILE, (most, most))


def listening(host: str, port: int) -> socket.socket:
    try:
        family, kind, protocol, _, address = socket.getaddrinfo(
            host, port, type=socket.SOCK_STREAM, flags=socket.AI_PASSIVE
        )[0]
        found = socket.socket(family, kind, protocol)
        found.setsockopt(socket.SOL_SOCKET, socket.SO_REUSEADDR, 1)
        found.bind(address)
    except OSError as error:
        raise Problem(f"{host} port {port} can't be used: {error.strerror}") from None
    return found


def is_loopback(address: str) -> bool:
    return ipaddress.ip_address(address.partition("%")[0]).is_loopback


def hosts_of(host: str, address: str) -> Optional[set[str]]:
    """Returns the names that requests may have for this service; any where it is open to others."""
    if not is_loopback(address):
        return None
    own = f"[{address}]" if ":" in address else address
    return {"localhost", "127.0.0.1", "[::1]", own, host.lower()}


def said_of(names: list[str], address: str, port: int) -> str:
    shown = f"[{address}]" if ":" in address else address
    whom = (
        "for this machine alone"
        if is_loopback(address)
        else "for all who can reach this address, without a password"
    )
    return f"serve: {', '.join(names)} on http://{shown}:{port}, {whom}"


def run_by_system() -> None:
    """Goes on in the system's own Python, for which Debian's packages are, where this is another
    one."""
    if os.path.exists(SYSTEM_PYTHON) and not os.path.samefile(sys.executable, SYSTEM_PYTHON):
        os.execv(SYSTEM_PYTHON, [SYSTEM_PYTHON, *sys.argv])


def main() -> int:
    words = read_words()
    # The packages that a service needs are loaded only here: --help needs none of them.
    try:
        from lorry_tools.service import serving
    except ImportError as error:
        run_by_system()
        raise Problem(
            f"{error.name} is missing: apt-get install python3-fastapi python3-uvicorn "
            "python3-jinja2 libjs-leaflet",
            NO_PROGRAM,
        ) from None
    if words.openapi:
        print(json.dumps(serving.schema(), indent=1, sort_keys=True))
        return 0
    program, limits = program_of(words.program), limits_of(words)
    allow_many_files()
    with tempfile.TemporaryDirectory(prefix="lorry_plan-serve-") as place:
        tempfile.tempdir = place  # (of all that the library makes)
        try:
            return serving.serve(words, program, limits, place)
        finally:
            tempfile.tempdir = None
