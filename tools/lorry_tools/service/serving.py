"""Runs the service until a signal ends it."""
from __future__ import annotations

import argparse
import asyncio
import os
import signal
import socket
from types import FrameType
from typing import Any, Optional

import uvicorn
from uvicorn.protocols.http.h11_impl import H11Protocol

from lorry_tools.problems import Unreadable
from lorry_tools.service.app import make_app
from lorry_tools.service.copies import names_of
from lorry_tools.service.desk import Service
from lorry_tools.service.guards import Guard
from lorry_tools.service.limits import Limits
from lorry_tools.service.main import BACKLOG, hosts_of, listening, said_of
from lorry_tools.service.runs import Runs

GRACE = 10.0  # seconds that open requests have once the service is to end
LAST = 3.0  # seconds more until connections are cut
HEAD_SECONDS = 10.0  # until the head of a request is there


class Protocol(H11Protocol):
    """A connection that is closed where the head of a request doesn't come in time."""

    timer: Optional[asyncio.TimerHandle] = None

    def connection_made(self, transport: Any) -> None:
        super().connection_made(transport)
        self.wait_for_head()

    def data_received(self, data: bytes) -> None:
        super().data_received(data)
        self.wait_for_head()

    def is_between(self) -> bool:
        """Whether no request is open."""
        return self.cycle is None or self.cycle.response_complete

    def wait_for_head(self) -> None:
        if self.is_between() and self.timer is None:
            self.timer = self.loop.call_later(HEAD_SECONDS, self.close_if_silent, self.cycle)

    def close_if_silent(self, last: object) -> None:
        self.timer = None
        if self.transport.is_closing():
            return
        if self.cycle is last and self.is_between():
            self.transport.close()
        else:
            self.wait_for_head()


class Server(uvicorn.Server):
    """The server, which says where it listens, and ends runs that outlast its end."""

    def __init__(self, config: uvicorn.Config, guard: Guard, runs: Runs, said: str):
        super().__init__(config)
        self.guard, self.runs, self.said = guard, runs, said

    async def startup(self, sockets: Optional[list[socket.socket]] = None) -> None:
        await super().startup(sockets)
        asyncio.get_running_loop().add_signal_handler(
            signal.SIGHUP, self.handle_exit, signal.SIGHUP, None
        )
        if self.started:
            print(self.said, flush=True)

    def handle_exit(self, sig: int, frame: Optional[FrameType]) -> None:
        self.guard.is_stopping = True
        loop = asyncio.get_running_loop()
        loop.call_later(GRACE, self.runs.stop)
        loop.call_later(GRACE + LAST, self.leave)
        super().handle_exit(sig, frame)

    def leave(self) -> None:
        """Ends even where clients don't take their answers."""
        self.force_exit = True


def serve(words: argparse.Namespace, program: str, limits: Limits, place: str) -> int:
    for path in words.folders:
        if not os.path.isdir(path):
            raise Unreadable(f"{path} is not a folder")
    listener = listening(words.host, words.port)
    address, port = listener.getsockname()[:2]
    paths = names_of(words.folders)
    runs = Runs(program, limits)
    service = Service(paths, place, runs, limits)
    app = make_app(service, words.tiles)
    guard = Guard(app, limits, words.tiles, hosts_of(words.host, address))
    config = uvicorn.Config(
        guard,
        http=Protocol,
        ws="none",
        lifespan="on",
        log_level="error",
        access_log=False,
        server_header=False,
        proxy_headers=False,
        backlog=BACKLOG,
    )
    server = Server(config, guard, runs, said_of(list(paths), address, port))
    server.run(sockets=[listener])
    return 0 if server.started else 1


def schema() -> dict[str, Any]:
    """Returns the schema of all addresses."""
    limits = Limits()
    app = make_app(Service({}, "", Runs("", limits), limits))
    found: dict[str, Any] = app.openapi()
    return found
