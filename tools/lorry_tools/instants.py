"""Instants as the program reads and prints them, spans of minutes, and costs."""
from __future__ import annotations

import datetime
import re
from typing import Optional

# docs/LIMITS.md: the first and the last instant, and the longest time from the departure to the
# last arrival, in minutes.
FIRST_INSTANT = 525_600
LAST_INSTANT = 120_968_639
LONGEST_HORIZON = 86_400

DAY = 1_440

INSTANT = re.compile(r"(\d{4})-(\d\d)-(\d\d)T(\d\d):(\d\d)(?::00)?Z", re.ASCII)
EPOCH = datetime.datetime(1970, 1, 1)


def minute_of(text: str) -> Optional[int]:
    """Returns the Unix minute of an instant, or None where the text states none."""
    if re.fullmatch(r"0|[1-9]\d*", text, re.ASCII):
        minute = int(text) if len(text) < 12 else -1
    else:
        parts = INSTANT.fullmatch(text)
        try:
            year, month, day, hour, rest = (int(it) for it in parts.groups()) if parts else [0] * 5
            minute = minute_at(datetime.datetime(year, month, day, hour, rest)) if parts else -1
        except ValueError:
            minute = -1
    return minute if FIRST_INSTANT <= minute <= LAST_INSTANT else None


def minute_at(moment: datetime.datetime) -> int:
    """Returns the Unix minute of a date and a time without a zone, in UTC."""
    return (moment - EPOCH) // datetime.timedelta(minutes=1)


def moment_of(minute: int) -> datetime.datetime:
    """Returns a Unix minute as a date and a time without a zone, in UTC."""
    return EPOCH + datetime.timedelta(minutes=minute)


def instant_text(minute: int) -> str:
    return moment_of(minute).isoformat(timespec="minutes") + "Z"


def span_text(minutes: int) -> str:
    """Returns a number of minutes in words, such as `2 d 4 h 30 min`."""
    days, hours, rest = minutes // DAY, minutes // 60 % 24, minutes % 60
    counted = ((days, "d"), (hours, "h"), (rest, "min"))
    return " ".join(f"{number} {unit}" for number, unit in counted if number) or "0 min"


def cost_text(thousandths: int) -> str:
    return f"{thousandths // 1000}.{thousandths % 1000:03}"


def cost_of(text: str) -> int:
    """Returns a cost with three decimals, as the program prints it, in thousandths."""
    whole, _, decimals = text.partition(".")
    return int(whole) * 1000 + int((decimals + "000")[:3])
