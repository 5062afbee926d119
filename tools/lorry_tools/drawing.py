"""Draws charts: scales, ticks of time and cost, and labels that don't lie on each other.

A drawing is a list of elements, which the template drawing.svg writes."""
from __future__ import annotations

import dataclasses
import math
from typing import Callable, Iterable, Mapping, Optional, Sequence, Union

from lorry_tools.instants import moment_of
from lorry_tools.templates import rendered

Point = tuple[float, float]
Box = tuple[float, float, float, float]
Value = Union[str, int, float]

# A palette that the colour-blind can tell apart (Okabe and Ito), without its yellow, which is too
# light for a line on white.
FEW = ["#0072B2", "#D55E00", "#009E73", "#CC79A7", "#56B4E9", "#E69F00", "#000000", "#8C6D1F"]
# Steps of cividis, whose lightness rises evenly for everyone, without its lightest part.
RAMP = [
    (0, 34, 78),
    (18, 53, 112),
    (59, 73, 108),
    (87, 93, 109),
    (112, 113, 115),
    (138, 134, 120),
    (165, 156, 116),
    (195, 179, 105),
]

DRIVE, WAIT, CLOSED, INK, SOFT, GRID, WEEKEND = (
    "#0072B2",
    "#E69F00",
    "#3D3D3D",
    "#1D2328",
    "#5A646D",
    "#DDE2E7",
    "#F6F4EE",
)

# The steps between two ticks of time, in minutes.
STEPS = [1, 2, 5, 10, 15, 30, 60, 120, 180, 360, 720, 1440, 2880, 4320, 10080, 20160]
MONDAY = 4 * 1440  # the first Monday of Unix time


def number(value: float) -> str:
    """Returns a coordinate with at most two decimals."""
    text = f"{value:.2f}".rstrip("0").rstrip(".")
    return "0" if text in ("-0", "") else text


def colours_of(count: int) -> list[str]:
    """Returns a colour for each of so many routes: those of a palette for a few, and steps from
    dark to light for many."""
    return FEW[:count] if count <= len(FEW) else [between(k / (count - 1)) for k in range(count)]


def between(part: float) -> str:
    """Returns the colour at this part of the way, from 0 to 1, through the ramp."""
    place = part * (len(RAMP) - 1)
    low = min(int(place), len(RAMP) - 2)
    mixed = (round(a + (b - a) * (place - low)) for a, b in zip(RAMP[low], RAMP[low + 1]))
    return "#" + "".join(f"{it:02X}" for it in mixed)


def text_width(text: object, size: float, bold: bool = False) -> float:
    """Returns about how wide a text is, in a wide font."""
    return size * sum(map(letter_width, str(text))) * (1.1 if bold else 1)


def letter_width(letter: str) -> float:
    if letter in " .,:;'|ijl!()[]":
        return 0.36
    if letter in "mwMW%@→":
        return 0.95
    return 0.72 if letter.isupper() else 0.63


def shortened(text: str, size: float, width: float) -> str:
    """Returns the text, or its beginning and three points where it is wider than this."""
    if text_width(text, size) <= width:
        return text
    while text and text_width(text + "…", size) > width:
        text = text[:-1]
    return text.rstrip() + "…"


@dataclasses.dataclass
class Element:
    """An element of a drawing; those named `begin` and `end` are a group's two ends."""

    name: str
    attributes: list[tuple[str, str]] = dataclasses.field(default_factory=list)
    tip: Optional[str] = None  # shown where the pointer rests on it
    text: Optional[str] = None


def attributes_of(attributes: dict[str, Value]) -> list[tuple[str, str]]:
    """Returns attributes as an element has them; `_` stands for `-`."""
    return [
        (key.replace("_", "-"), number(it) if isinstance(it, float) else str(it))
        for key, it in attributes.items()
    ]


class Drawing:
    """A drawing of a width and a height, to which elements are added."""

    def __init__(self, width: float, height: float, title: str):
        self.width, self.height, self.title = width, height, title
        self.parts: list[Element] = []

    def shape(self, name: str, tip: Optional[str] = None, **attributes: Value) -> None:
        self.add(name, tip, attributes)

    def add(self, name: str, tip: Optional[str], *attributes: Mapping[str, Value]) -> None:
        """Adds an element with these attributes, of which later ones replace earlier ones."""
        joined = {key: value for some in attributes for key, value in some.items()}
        self.parts.append(Element(name, attributes_of(joined), tip))

    def rect(
        self,
        x: float,
        y: float,
        width: float,
        height: float,
        fill: str,
        tip: Optional[str] = None,
        **more: Value,
    ) -> None:
        size: dict[str, Value] = {"width": float(max(width, 0)), "height": float(height)}
        place: dict[str, Value] = {"x": float(x), "y": float(y), **size, "fill": fill}
        self.add("rect", tip, place, more)

    def line(
        self,
        x1: float,
        y1: float,
        x2: float,
        y2: float,
        stroke: str,
        width: float = 1.0,
        **more: Value,
    ) -> None:
        ends: dict[str, Value] = {
            "x1": float(x1),
            "y1": float(y1),
            "x2": float(x2),
            "y2": float(y2),
        }
        self.add("line", None, ends, {"stroke": stroke, "stroke_width": float(width)}, more)

    def path(
        self,
        points: Iterable[Point],
        stroke: str,
        width: float = 1.0,
        tip: Optional[str] = None,
        **more: Value,
    ) -> None:
        words = "".join(
            f"{'L' if k else 'M'}{number(x)} {number(y)}" for k, (x, y) in enumerate(points)
        )
        drawn: dict[str, Value] = {"d": words, "fill": "none", "stroke": stroke}
        self.add("path", tip, drawn, {"stroke_width": float(width)}, more)

    def circle(
        self,
        x: float,
        y: float,
        radius: float,
        fill: str,
        tip: Optional[str] = None,
        **more: Value,
    ) -> None:
        drawn: dict[str, Value] = {"cx": float(x), "cy": float(y), "r": float(radius)}
        self.add("circle", tip, drawn, {"fill": fill}, more)

    def text(
        self,
        x: float,
        y: float,
        text: object,
        kind: str = "",
        size: Optional[float] = None,
        **more: Value,
    ) -> None:
        words = [("x", number(x)), ("y", number(y))]
        words += [("class", kind)] if kind else []
        words += [("style", f"font-size:{number(float(size))}px")] if size else []
        self.parts.append(Element("text", words + attributes_of(more), text=str(text)))

    def begin(self, **attributes: Value) -> None:
        self.parts.append(Element("begin", attributes_of(attributes)))

    def end(self) -> None:
        self.parts.append(Element("end"))

    def put(self, other: Drawing, x: float, y: float) -> None:
        """Adds another drawing with its upper left corner here."""
        self.begin(transform=f"translate({number(x)} {number(y)})")
        self.parts += other.parts
        self.end()

    def size(self) -> tuple[str, str]:
        return number(self.width), number(self.height)

    def svg(self, alone: bool = False) -> str:
        """Returns the drawing as an element, or as a whole file where it is alone."""
        return rendered("drawing.svg", drawing=self, alone=alone)


# Closed minutes are hatched, so that they are told from others without colour: drawing.svg has the
# pattern.
HATCHED = "url(#closed)"


class Labels:
    """Places labels where they lie neither on each other nor on what is there already, and if
    possible on no line."""

    def __init__(self, drawing: Drawing, left: float, top: float, right: float, bottom: float):
        self.drawing = drawing
        self.frame = (left, top, right, bottom)
        self.boxes: list[Box] = []
        self.dots: set[tuple[float, float]] = set()  # the cells, of 4 by 4, in which a line is

    def keep_free(self, left: float, top: float, right: float, bottom: float) -> None:
        self.boxes.append((left, top, right, bottom))

    def avoid(self, points: Sequence[Point]) -> None:
        """Says where a line is."""
        for (a, b), (c, d) in zip(points, points[1:]):
            steps = int(max(abs(c - a), abs(d - b)) / 3) + 1
            for k in range(steps + 1):
                x, y = a + (c - a) * k / steps, b + (d - b) * k / steps
                self.dots.add((int(x // 4), int(y // 4)))

    def is_free(self, box: Box) -> bool:
        left, top, right, bottom = box
        low, high, far, deep = self.frame
        if left < low or top < high or right > far or bottom > deep:
            return False
        return not any(
            left < far and low < right and top < deep and high < bottom
            for low, high, far, deep in self.boxes
        )

    def is_off_lines(self, box: Box) -> bool:
        left, top, right, bottom = (int(it // 4) for it in box)
        across, down = range(left, right + 1), range(top, bottom + 1)
        return not any((x, y) in self.dots for x in across for y in down)

    def place(
        self,
        x: float,
        y: float,
        texts: list[str],
        size: float = 12,
        away: float = 8,
        kind: str = "halo",
        **more: Value,
    ) -> bool:
        """Writes the first of these texts that has a free place beside the point; answers whether
        there was one."""
        height, low, high = size * 1.15, y + away + size * 0.4, y - away - size * 0.4
        places = (
            ("start", x + away, y),
            ("start", x + away * 0.7, high),
            ("start", x + away * 0.7, low),
            ("end", x - away, y),
            ("end", x - away * 0.7, high),
            ("end", x - away * 0.7, low),
            ("middle", x, high - size * 0.3),
            ("middle", x, low + size * 0.3),
        )
        tries = [(it, False) for it in texts] + [(it, True) for it in texts if self.dots]
        for text, anywhere in tries:
            width = text_width(text, size, "bold" in kind)
            for anchor, place, middle in places:
                left = place - width * {"start": 0, "middle": 0.5, "end": 1}[anchor]
                box = (left, middle - height / 2, left + width, middle + height / 2)
                if self.is_free(box) and (anywhere or self.is_off_lines(box)):
                    self.boxes.append(box)
                    words = kind if anchor == "start" else f"{kind} {anchor}"
                    self.drawing.text(place, middle + size * 0.36, text, words, size, **more)
                    return True
        return False


def time_step(low: float, high: float, most: float) -> int:
    """Returns the least step of minutes that has at most so many ticks."""
    return next((it for it in STEPS if (high - low) / it <= most), 40320)


def time_ticks(low: float, high: float, most: float) -> tuple[list[int], int]:
    """Returns the minutes of the ticks from low to high, and their step."""
    step = time_step(low, high, most)
    offset = MONDAY % step
    first = math.ceil((low - offset) / step) * step + offset
    return list(range(first, int(high) + 1, step)), step


def clock(minute: int) -> str:
    return f"{moment_of(minute):%H:%M}"


def day_text(minute: int, year: bool = False) -> str:
    moment = moment_of(minute)
    return f"{moment:%a} {moment.day} {moment:%b}" + (f" {moment.year}" if year else "")


def moment_text(minute: int, year: bool = False) -> str:
    """Returns a minute as people write it, such as `Sat 4 Jul 16:00`."""
    return f"{day_text(minute, year)} {clock(minute)}"


def days_between(low: float, high: float) -> range:
    """Returns the first minute of each day that begins in this time, and of the day of its first
    minute."""
    return range(int(low) // 1440 * 1440, int(high) + 1, 1440)


def is_weekend(minute: int) -> bool:
    return moment_of(minute).weekday() >= 5


def cost_ticks(low: float, high: float, most: float) -> tuple[list[int], int]:
    """Returns round thousandths from low to high."""
    rough = max((high - low) / most, 1)
    power: float = 10 ** math.floor(math.log10(rough))
    step = next(int(it * power) for it in (1, 2, 5, 10) if it * power >= rough * 0.999)
    return list(range(math.ceil(low / step) * step, int(high) + 1, step)), step


def cost_label(thousandths: int, step: int) -> str:
    """Returns a tick of cost with the decimals that its step needs."""
    decimals = 0 if step % 1000 == 0 else 1 if step % 100 == 0 else 2 if step % 10 == 0 else 3
    return f"{thousandths / 1000:.{decimals}f}"


class TimeAxis:
    """A horizontal axis of time: minutes from low to high between two places."""

    def __init__(self, low: float, high: float, left: float, right: float):
        self.low, self.high, self.left, self.right = low, high, left, right

    def at(self, minute: float) -> float:
        return self.left + (minute - self.low) * (self.right - self.left) / (self.high - self.low)

    def draw_days(self, drawing: Drawing, top: float, bottom: float) -> None:
        """Shades every weekend, and draws a line where a day begins."""
        for day in days_between(self.low, self.high):
            left, right = self.at(max(day, self.low)), self.at(min(day + 1440, self.high))
            if is_weekend(day):
                drawing.rect(left, top, right - left, bottom - top, WEEKEND)
            if day > self.low and (self.high - self.low) <= 40 * 1440:
                drawing.line(left, top, left, bottom, "#B9C1C8")

    def draw_ticks(self, drawing: Drawing, place: float, other: float, below: bool = True) -> None:
        """Draws the axis at a place, with lines of the grid to the other side, clock times beside
        it, and days beyond them."""
        ticks, step = time_ticks(self.low, self.high, max(2, (self.right - self.left) / 58))
        far = -1 if not below else 1
        drawing.line(self.left, place, self.right, place, "#7C868E")
        for tick in ticks:
            x = self.at(tick)
            drawing.line(x, place, x, place + 4 * far, "#7C868E")
            if other != place:
                drawing.line(x, place, x, other, GRID, stroke_dasharray="1 3")
            if step < 1440:
                drawing.text(x, place + (17 if below else -8), clock(tick), "small middle")
        near, far_away = (17, 32) if below else (-8, -23)
        self.draw_day_names(drawing, place + (far_away if step < 1440 else near))

    def draw_day_names(self, drawing: Drawing, y: float) -> None:
        """Writes the name of each day into the middle of its part of the axis, where there is room
        for it; of many days only the Mondays."""
        days, end = list(days_between(self.low, self.high)), -math.inf
        wide = self.at(self.low + 1440) - self.left
        named = [
            it
            for it in NAMES
            if len(days) <= 4 or max(text_width(it(day), 11) for day in days) + 6 <= wide
        ]
        for day in days:
            left, right = self.at(max(day, self.low)), self.at(min(day + 1440, self.high))
            texts = (it(day) for it in named)
            text = next((it for it in texts if text_width(it, 11) + 6 <= right - left), None)
            if not named and moment_of(day).weekday() == 0 and day >= self.low:
                text, right = f"{moment_of(day).day} {moment_of(day):%b}", left
            half = text_width(text, 11) / 2 + 3 if text else 0
            middle = min(max((left + right) / 2, self.left + half), self.right - half)
            if text and middle - half >= end:
                drawing.text(middle, y, text, "small middle soft")
                end = middle + half

    def title(self, what: str, low: int, high: int) -> str:
        """Returns the title of the axis, with the days of these minutes."""
        first, last = moment_of(low), moment_of(high)
        until = f"{last.day} {last:%b} {last.year}"
        if first.date() == last.date():
            return f"{what} (UTC), {until}"
        return f"{what} (UTC), {first.day} {first:%b} {first.year} to {until}"


# The forms of the name of a day, the longest first.
NAMES: list[Callable[[int], str]] = [
    lambda day: day_text(day, True),
    day_text,
    lambda day: f"{moment_of(day):%a} {moment_of(day).day}",
    lambda day: f"{moment_of(day).day}",
]
