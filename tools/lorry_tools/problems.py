"""What a tool can't do, in words for its user, with the status of the tool."""
from __future__ import annotations

USAGE = 2
# As sysexits.h has them.
NO_PROGRAM = 69
LEFT = 75


class Problem(Exception):
    """Ends a tool with these words and this status."""

    def __init__(self, words: str, status: int = USAGE):
        super().__init__(words)
        self.status = status


class Unreadable(Problem):
    """A file or a text that can't be read."""
