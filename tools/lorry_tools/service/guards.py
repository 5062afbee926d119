"""What stands before each request: how many are open, how large they are, how long they take to
come, and which headers an answer has."""
from __future__ import annotations

import asyncio
import json
from typing import Any, Awaitable, Callable, Iterable, MutableMapping, Optional

from lorry_tools.service.limits import Limits

Message = MutableMapping[str, Any]
Receive = Callable[[], Awaitable[Message]]
Send = Callable[[Message], Awaitable[None]]
Application = Callable[[Message, Receive, Send], Awaitable[None]]

PROBLEM = "application/problem+json"
# No value that is written has itself as a part.
ENCODER = json.JSONEncoder(ensure_ascii=False, check_circular=False)
LARGE = 1 << 16  # bytes of an answer that a client may not take at once
WAIT_A_SECOND = {"Retry-After": "1"}
TITLES = {
    400: "The request can't be read",
    404: "Not found",
    405: "The address doesn't take this method",
    408: "The request didn't come in time",
    413: "The request is too large",
    415: "The body isn't JSON",
    421: "The service has another name",
    422: "The request can't be answered as it is",
    429: "Too many requests at once",
    500: "A fault of the service",
    503: "The service can't answer at present",
    504: "The answer took too long",
}


def policy_of(tiles: Optional[str]) -> str:
    """Returns the content security policy: nothing from elsewhere but the tiles of a map."""
    images = f"'self' data: blob:{' ' + origin_of(tiles) if tiles else ''}"
    return (
        f"default-src 'none'; script-src 'self'; style-src 'self'; img-src {images}; "
        "connect-src 'self'; font-src 'self'; form-action 'self'; base-uri 'none'; "
        "frame-ancestors 'none'"
    )


def origin_of(tiles: str) -> str:
    """Returns the scheme and the host of an address of tiles; `{s}` stands for several hosts."""
    scheme, _, rest = tiles.partition("://")
    return f"{scheme}://{rest.partition('/')[0].replace('{s}', '*')}"


def problem_of(
    status: int,
    detail: str,
    line: Optional[str] = None,
    program_status: Optional[int] = None,
    choices: Iterable[Message] = (),
) -> bytes:
    """Returns a problem as RFC 7807 has it, with what the program said, if it did."""
    value = {
        "type": "about:blank",
        "title": TITLES.get(status, "The request failed"),
        "status": status,
        "detail": detail,
        "line": line,
        "program_status": program_status,
        "choices": list(choices),
    }
    return json_bytes(value)


def json_bytes(value: object) -> bytes:
    """Returns a value as JSON, with a line's end behind it."""
    try:
        return (ENCODER.encode(value) + "\n").encode()
    except UnicodeEncodeError:  # of half a pair of surrogates, which a request may have
        return (json.dumps(value) + "\n").encode()


class Gone(Exception):
    """The client has gone."""


class Guard:
    """Passes requests on to an application, within the limits."""

    def __init__(
        self, inner: Application, limits: Limits, tiles: Optional[str], hosts: Optional[set[str]]
    ):
        self.inner, self.limits, self.hosts = inner, limits, hosts
        self.open = self.most_open = self.refused = 0
        self.is_stopping = False
        self.headers = [
            (b"content-security-policy", policy_of(tiles).encode()),
            (b"x-frame-options", b"DENY"),
            (b"x-content-type-options", b"nosniff"),
            (b"referrer-policy", b"no-referrer"),
            (b"cross-origin-resource-policy", b"same-origin"),
            (b"cross-origin-opener-policy", b"same-origin"),
        ]

    async def __call__(self, scope: Message, receive: Receive, send: Send) -> None:
        if scope["type"] != "http":
            await self.inner(scope, receive, send)
            return

        async def with_headers(message: Message) -> None:
            if message["type"] == "http.response.start":
                has = {name for name, _ in message["headers"]}
                more = [it for it in self.headers if it[0] not in has]
                if b"cache-control" not in has:
                    is_answer = scope["path"].startswith("/api")
                    more.append((b"cache-control", b"no-store" if is_answer else b"no-cache"))
                message["headers"] = [*message["headers"], *more]
            if len(message.get("body", b"")) < LARGE:
                await send(message)
                return
            try:
                await asyncio.wait_for(send(message), self.limits.send_seconds)
            except asyncio.TimeoutError:
                raise Gone from None

        if self.open >= self.limits.requests:
            self.refused += 1
            await refuse(with_headers, 429, f"{self.open} requests are open", WAIT_A_SECOND)
            return
        self.open += 1
        self.most_open = max(self.most_open, self.open)
        try:
            await self.pass_on(scope, receive, with_headers)
        except Gone:
            pass
        finally:
            self.open -= 1

    async def pass_on(self, scope: Message, receive: Receive, send: Send) -> None:
        headers = dict(scope["headers"])
        if self.is_stopping:
            await refuse(send, 503, "the service is being stopped", WAIT_A_SECOND)
        elif self.hosts is not None and host_of(headers) not in self.hosts:
            await refuse(send, 421, "the header `Host` names another host than this service")
        elif scope["method"] == "POST" and not is_json(headers):
            await refuse(send, 415, "expected is a body of the type application/json")
        else:
            await self.with_body(scope, receive, send, headers)

    async def with_body(
        self, scope: Message, receive: Receive, send: Send, headers: dict[bytes, bytes]
    ) -> None:
        most, seconds = self.limits.body_bytes, self.limits.body_seconds
        too_large = f"a request has at most {most} bytes"
        length = headers.get(b"content-length", b"0")
        if length.isdigit() and int(length[:18]) > most:
            await refuse(send, 413, too_large)
            return
        try:
            body = await asyncio.wait_for(body_of(receive, most), seconds)
        except asyncio.TimeoutError:
            await refuse(send, 408, f"the request took more than {seconds:g} seconds to come")
            return
        if body is None:
            await refuse(send, 413, too_large)
            return
        is_given = False

        async def again() -> Message:
            nonlocal is_given
            if is_given:
                return await receive()
            is_given = True
            return {"type": "http.request", "body": body, "more_body": False}

        await self.inner(scope, again, send)


async def body_of(receive: Receive, most: int) -> Optional[bytes]:
    """Returns the body of a request; None where it is too large."""
    body = bytearray()
    while True:
        message = await receive()
        if message["type"] == "http.disconnect":
            raise Gone
        body += message.get("body", b"")
        if len(body) > most:
            return None
        if not message.get("more_body", False):
            return bytes(body)


async def refuse(
    send: Send, status: int, detail: str, headers: Optional[dict[str, str]] = None
) -> None:
    """Answers a request with a problem, and ends its connection, as its body may not be read."""
    body = problem_of(status, detail)
    head = [
        (b"content-type", PROBLEM.encode()),
        (b"content-length", str(len(body)).encode()),
        (b"connection", b"close"),
        *((name.lower().encode(), value.encode()) for name, value in (headers or {}).items()),
    ]
    await send({"type": "http.response.start", "status": status, "headers": head})
    await send({"type": "http.response.body", "body": body})


def is_json(headers: dict[bytes, bytes]) -> bool:
    kind = headers.get(b"content-type", b"").partition(b";")[0].strip().lower()
    return kind == b"application/json"


def host_of(headers: dict[bytes, bytes]) -> str:
    """Returns the host that a request names, without a port."""
    host = headers.get(b"host", b"").decode("latin-1").lower()
    if host.startswith("["):
        return host.partition("]")[0] + "]"
    return host.partition(":")[0]
