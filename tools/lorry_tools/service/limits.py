"""What a service allows, each limit with the answer that says that it is reached."""
from __future__ import annotations

import dataclasses

from lorry_tools.problems import Problem

MEBIBYTE = 1 << 20


@dataclasses.dataclass(frozen=True)
class Limits:
    """What a service allows at most."""

    body_bytes: int = 65_536  # of a request; 413
    body_seconds: float = 10.0  # until a request is there; 408
    send_seconds: float = 30.0  # until a client has taken an answer; then it is cut off
    requests: int = 256  # that are open at once; 429
    runs: int = 4  # of the program at once
    seconds: float = 60.0  # of a request; 504
    memory_mb: int = 4_096  # of a run; 503
    answer_mb: int = 64  # that a run prints; 503
    gather_ms: int = 10  # that a plan waits for others, to be planned together with them
    batch_rows: int = 256  # of plans that are planned together


class Unavailable(Problem):
    """A request that can't be answered at present; HTTP_STATUS says why."""

    def __init__(self, words: str, http_status: int = 503):
        super().__init__(words)
        self.http_status = http_status


class TooSlow(Unavailable):
    """A request took too long."""

    def __init__(self, seconds: float):
        super().__init__(f"the answer took more than {seconds:g} seconds, which is the limit", 504)


class Stopping(Unavailable):
    """The service is about to end."""

    def __init__(self) -> None:
        super().__init__("the service is being stopped")
