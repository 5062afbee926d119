"""The answer to a trip as lines for a person."""
from __future__ import annotations

from lorry_tools.answers import DRIVE, SERVE, WAIT
from lorry_tools.clocks import local_text
from lorry_tools.instants import cost_text, span_text
from lorry_tools.places import Place, distance_text
from lorry_tools.trips.answer import Answer, Option, Part, WaitReason, Why
from lorry_tools.trips.request import ANY, LATEST
from lorry_tools.trips.why import REASONS


class Text:
    """Writes an answer. Times are local to their places; those whose offset from UTC isn't that of
    the departure have it behind them."""

    def __init__(self, answer: Answer):
        self.answer = answer
        self.places = answer.places
        request = answer.request
        self.clock = answer.places.clock(request.origin.node)
        self.offset = self.clock.offset(request.depart)

    def lines(self) -> list[str]:
        answer = self.answer
        lines = self.head()
        if answer.why:
            lines += ["", *self.why_lines(answer.why)]
        elif answer.options:
            lines += ["", *self.table()]
            for option in answer.options:
                lines += ["", *self.option_lines(option)]
        else:
            lines += ["", "There is no lawful trip:", *(f"  {it}" for it in answer.causes)]
        if answer.judged:
            judged = answer.judged
            verdict = (
                f"accepted: it has all options there are, {judged.number}"
                if judged.accepted
                else f"rejected, by condition {judged.number}"
            )
            lines += ["", f"The certificate {judged.name} was written and judged: {verdict}."]
        if answer.picture:
            lines += ["", f"The picture is {answer.picture}."]
        if answer.warnings:
            lines += ["", *(f"Warning: {it}." for it in answer.warnings)]
        return lines

    # Times and places.

    def time(self, minute: int, node: int) -> str:
        return local_text(self.places.clock(node), minute, self.offset)

    def place(self, node: int) -> str:
        place = self.places.at(node)
        return f"{place.name} ({node})" if place.name else f"node {node}"

    def asked_place(self, place: Place) -> str:
        if place.away is None:
            return self.place(place.node)
        return f"{self.place(place.node)}, {distance_text(place.away)} from the coordinates"

    # Parts of the text.

    def head(self) -> list[str]:
        request = self.answer.request
        lorry = "any lorry" if request.vehicle == ANY else request.vehicle
        verb = "leaves from {} on" if request.command == LATEST else "leaves {}"
        depart = self.clock, request.depart, self.offset
        leaves = verb.format(local_text(*depart, with_year=True))
        until = self.time(request.until, request.goal.node)
        lines = [
            f"{self.asked_place(request.origin)} to {self.asked_place(request.goal)}, {lorry}",
            f"{leaves} and has until {until}; local time of {self.clock.name}",
        ]
        for number, stop in enumerate(request.stops, 1):
            window = (
                f"from {self.time(stop.start, stop.place.node)} to "
                f"{self.time(stop.end, stop.place.node)}"
            )
            where = self.asked_place(stop.place)
            lines.append(f"stop {number}: {where}, {span_text(stop.service)}, {window}")
        if request.rule:
            drive = span_text(request.rule.drive)
            lines.append(f"with breaks of {request.rule.rest} minutes after {drive} of driving")
        return lines

    def table(self) -> list[str]:
        """The options side by side."""
        request = self.answer.request
        late = request.command == LATEST
        rows = [["option", *(["departure"] if late else []), "arrival", "cost", "km", "driving"]]
        rows[0] += ["waiting", *(["service"] if request.stops else [])]
        for option in self.answer.options:
            row = [str(option.number)]
            row += [self.time(option.depart, request.origin.node)] if late else []
            row += [
                self.time(option.arrival, request.goal.node),
                cost_text(option.cost),
                "" if option.metres is None else f"{option.metres / 1000:.1f}",
                span_text(option.minutes_of(DRIVE)),
                span_text(option.minutes_of(WAIT)),
            ]
            row += [span_text(option.minutes_of(SERVE))] if request.stops else []
            rows.append(row)
        if all(option.metres is None for option in self.answer.options):
            place = rows[0].index("km")
            for row in rows:
                del row[place]
        return aligned(rows)

    def option_lines(self, option: Option) -> list[str]:
        request = self.answer.request
        rows = []
        for part in option.parts:
            rows.append([self.time(part.start, part.tail), *self.part_cells(part)])
            rows += [["", "", words] for words in self.reason_lines(part)]
        rows.append([self.time(option.arrival, request.goal.node), "arrive", self.place_of_goal()])
        return [f"Option {option.number}", *(f"  {it}" for it in aligned(rows))]

    def place_of_goal(self) -> str:
        return self.place(self.answer.request.goal.node)

    def part_cells(self, part: Part) -> list[str]:
        if part.kind == DRIVE:
            length = "" if part.metres is None else f", {part.metres / 1000:.1f} km"
            to = self.place(part.head)
            return ["drive", f"{part.street}, {span_text(part.minutes)}{length}, to {to}"]
        if part.kind == WAIT:
            price = f"costs {cost_text(part.price)}"
            return ["wait", f"{self.place(part.tail)}, {span_text(part.minutes)}, {price}"]
        return ["serve", f"stop {part.stop}, {self.place(part.tail)}, {span_text(part.minutes)}"]

    def weight(self, node: int) -> str:
        """Returns what a minute's wait costs at a node, as ratings.csv has it."""
        return self.answer.folder.weights_of_nodes().get(node, "nothing known")

    def reason_lines(self, part: Part) -> list[str]:
        return [f"  {self.reason(part, it)}" for it in part.reasons]

    def reason(self, part: Part, reason: WaitReason) -> str:
        if reason.cause:
            street = self.answer.streets.name(reason.arc)
            when = f"at {self.time(reason.minute, part.tail)}"
            if reason.until is not None:
                when = f"until {self.time(reason.until, part.tail)}"
            return f"for {street}, closed {when} by {reason.cause.words()}"
        if reason.kind == "window":
            return f"for the window of stop {reason.stop}"
        if reason.kind == "break":
            return "for a driver's break"
        if reason.kind == "parking":
            return f"for the parking at {self.place(reason.node)}, which isn't open before"
        if reason.kind == "price":
            here, there = self.weight(part.tail), self.weight(reason.node)
            return (
                f"here, where a minute costs {here}, and not at {self.place(reason.node)}, where "
                f"it costs {there}"
            )
        return "(what it is for was not found)"

    def why_lines(self, why: Why) -> list[str]:
        rows = []
        for part in why.parts:
            rows.append([self.time(part.start, part.tail), *self.part_cells(part)])
        return ["Your way", *(f"  {it}" for it in aligned(rows)), "", self.verdict(why)]

    def verdict(self, why: Why) -> str:
        request = self.answer.request
        if why.verdict == "unlawful":
            return f"It isn't lawful: {self.fault(why)}."
        arrives = f"It arrives {self.time(why.minute, request.goal.node)} for {cost_text(why.cost)}"
        if why.better is None:
            return f"{arrives}: it is lawful, and no option is better."
        arrival, cost = why.better
        better = f"{self.time(arrival, request.goal.node)} for {cost_text(cost)}"
        return f"{arrives}: it is lawful, but there is a better option, which arrives {better}."

    def fault(self, why: Why) -> str:
        when = self.time(why.minute, why.node)
        street = self.answer.streets.name(why.arc) if why.arc else ""
        if why.cause:
            return f"{street} is closed at {when} by {why.cause.words()}"
        where = f"{street} from {self.place(why.node)}" if street else f"at {self.place(why.node)}"
        return f"{where}, {when}: {REASONS.get(why.reason, why.reason)}"


def aligned(rows: list[list[str]]) -> list[str]:
    """Returns rows as lines whose cells begin below each other."""
    count = max(len(row) for row in rows)
    widths = [
        max((len(row[k]) for row in rows if k < len(row) - 1), default=0) for k in range(count)
    ]
    lines = []
    for row in rows:
        cells = [it.ljust(widths[k]) if k < len(row) - 1 else it for k, it in enumerate(row)]
        lines.append("  ".join(cells).rstrip())
    return lines
