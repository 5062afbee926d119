// The days of an answer: each option as a bar of drives, waits and services, and below it a strip
// where a road that it waits for is closed. The days are those of the place where the trip begins.

import { DRIVE, GRID, INK, SERVE, SOFT, WAIT, WEEKEND } from "./colours.js";
import { element, shape } from "./elements.js";
import { text } from "./texts.js";
import { cost, localClock, localDay, minuteOf, moment, offsetOf } from "./writing.js";
import { placeName, span, streetName } from "./writing.js";

const DAY = 1440;
const STEPS = [15, 30, 60, 120, 180, 360, 720, DAY, 2 * DAY, 7 * DAY, 14 * DAY];
const FILLS = { drive: DRIVE, wait: WAIT, serve: SERVE };
const ROOM_OF_TICK = 62;
const LETTER = 6.6; // about the width of one
const MOST_PARTS = 4000;

/** The axis of time: Unix minutes to places, and to the local minutes of the place of departure. */
class TimeAxis {
  constructor(answer, left, right) {
    const departures = answer.options.map((it) => minuteOf(it.departure));
    const arrivals = answer.options.map((it) => minuteOf(it.arrival));
    const until = minuteOf(answer.until);
    const first = Math.min(...departures);
    let last = Math.max(...arrivals, first + 60);
    if (until - last <= 0.2 * (last - first)) {
      last = Math.max(last, until);
    }
    const pad = (last - first) * 0.012;
    [this.low, this.high] = [first - pad, last + pad];
    [this.left, this.right] = [left, right];
    this.offsets = offsetsOf(answer);
  }

  at(minute) {
    const part = (minute - this.low) / (this.high - this.low);
    return this.left + part * (this.right - this.left);
  }

  offset(minute) {
    const before = this.offsets.filter((it) => it.minute <= minute);
    return (before.at(-1) ?? this.offsets[0]).offset;
  }

  /** Returns the ticks, a step apart by the local clock: the minute and the local one of each. */
  ticks(step) {
    const monday = step > DAY ? 4 * DAY : 0; // (the first Monday of Unix time)
    const begin = this.low + this.offset(this.low);
    const found = [];
    let local = Math.ceil((begin - monday) / step) * step + monday;
    for (; ; local += step) {
      const minute = local - this.offset(local - this.offset(this.low));
      if (minute > this.high) {
        return found;
      }
      found.push({ minute, local });
    }
  }

  step(room) {
    const most = Math.max(2, (this.right - this.left) / room);
    return STEPS.find((it) => (this.high - this.low) / it <= most) ?? 28 * DAY;
  }
}

/** Returns the offsets from UTC that an answer shows for the zone of its departure. */
function offsetsOf(answer) {
  const { zone } = answer.departure;
  const times = [answer.departure, answer.until];
  for (const option of answer.options) {
    times.push(option.departure, option.arrival);
    for (const part of option.parts) {
      times.push(part.start, part.end);
    }
  }
  return times
    .filter((it) => it.zone === zone)
    .map((it) => ({ minute: minuteOf(it), offset: offsetOf(it) }))
    .sort((one, other) => one.minute - other.minute);
}

/** Draws the bars of an answer. `closed` has the closed runs of each arc that is waited for. */
export function drawnBars(answer, { colours, closed, chosen, width, onchoose }) {
  const isFew = answer.options.length <= 16;
  const rows = isFew
    ? { label: 20, bar: 20, strip: 7, gap: 12 }
    : { label: 15, bar: 11, strip: 4, gap: 5 };
  const step = rows.label + rows.bar + rows.strip + rows.gap;
  const top = 36;
  const bottom = top + step * answer.options.length;
  const axis = new TimeAxis(answer, 4, width - 4);
  const panel = shape("svg", {
    viewBox: `0 0 ${width} ${bottom + 8}`,
    width,
    height: bottom + 8,
    role: "img",
    "aria-label": text("bars_help"),
    class: "bars",
  });
  panel.append(hatching());
  drawDays(panel, axis, top, bottom);
  const isMerged = answer.options.reduce((sum, it) => sum + it.parts.length, 0) > MOST_PARTS;
  for (const [k, option] of answer.options.entries()) {
    const place = { ...rows, y: top + step * k, step, width };
    const group = shape("g", { class: "row", onclick: () => onchoose(option.number) });
    const frame = { x: 1, y: place.y + 1, width: width - 2, height: step - 2, rx: 3 };
    const kind = option.number === chosen ? "chosen-row" : "other-row";
    group.append(shape("rect", { ...frame, class: kind }));
    drawLabel(group, option, colours[k], place);
    drawParts(group, axis, option, place, isMerged);
    drawClosed(group, axis, option, closed, place);
    panel.append(group);
  }
  drawUntil(panel, axis, answer, top, bottom);
  return panel;
}

function hatching() {
  const square = { width: 5, height: 5 };
  const stripes = { id: "closed-pattern", ...square, patternUnits: "userSpaceOnUse" };
  return shape(
    "defs",
    {},
    shape(
      "pattern",
      { ...stripes, patternTransform: "rotate(45)" },
      shape("rect", { ...square, fill: "#D4D4D4" }),
      shape("rect", { width: 2.2, height: 5, fill: "#3D3D3D" }),
    ),
  );
}

/** Shades weekends, and draws ticks of clock times and of days. */
function drawDays(panel, axis, top, bottom) {
  const days = axis.ticks(DAY);
  const first = axis.low + axis.offset(axis.low);
  const begun = { minute: axis.low, local: first };
  const all = [begun, ...days];
  for (const [k, { minute, local }] of all.entries()) {
    const x = axis.at(Math.max(minute, axis.low));
    const end = axis.at(Math.min(all[k + 1]?.minute ?? axis.high, axis.high));
    if (isWeekend(local)) {
      const shade = { x, y: top, width: end - x, height: bottom - top, fill: WEEKEND };
      panel.append(shape("rect", shade));
    }
    drawDayName(panel, x, end, local);
    if (k > 0 && all.length <= 42) {
      panel.append(line(x, top - 20, x, bottom, "#B9C1C8"));
    }
  }
  const step = axis.step(ROOM_OF_TICK);
  for (const { minute, local } of step < DAY ? axis.ticks(step) : []) {
    const x = axis.at(minute);
    panel.append(line(x, top, x, bottom, GRID, "1 3"));
    const isInside = x > axis.left + 16 && x < axis.right - 16;
    panel.append(line(x, top - 4, x, top, "#7C868E"));
    if (isInside) {
      panel.append(written(x, top - 7, localClock(local), "small middle"));
    }
  }
  panel.append(line(axis.left, top, axis.right, top, "#7C868E"));
}

function drawDayName(panel, x, end, local) {
  const whole = localDay(local);
  const short = String(new Date(local * 60_000).getUTCDate());
  const name = [whole, short].find((it) => it.length * LETTER + 6 <= end - x);
  if (name) {
    panel.append(written((x + end) / 2, 12, name, "small middle soft"));
  }
}

function drawLabel(group, option, colour, place) {
  const size = place.label > 16 ? 10 : 8;
  const y = place.y + place.label - 5;
  const square = { x: 4, y: y - size + 1, width: size, height: size, rx: 2 };
  group.append(shape("rect", { ...square, fill: colour }));
  group.append(written(20, y, String(option.number), "bold"));
  const words = `${moment(option.arrival)} · ${cost(option.cost_thousandths)}`;
  group.append(written(44, y, words, ""));
}

function drawParts(group, axis, option, place, isMerged) {
  const y = place.y + place.label;
  for (const part of isMerged ? mergedParts(option.parts) : option.parts) {
    const x = axis.at(minuteOf(part.start));
    const width = axis.at(minuteOf(part.end)) - x;
    const bar = { x, y, width: Math.max(width, 0.5), height: place.bar, fill: FILLS[part.kind] };
    group.append(shape("rect", bar, shape("title", {}, partTitle(part))));
    const words = span(part.minutes);
    if (part.kind === "wait" && place.bar > 14 && words.length * LETTER + 8 < width) {
      group.append(written(x + width / 2, y + place.bar / 2 + 4, words, "small middle"));
    }
  }
}

/** Returns parts with neighbouring drives as one, where there are too many to be seen. */
function mergedParts(parts) {
  const merged = [];
  for (const part of parts) {
    const before = merged.at(-1);
    if (before?.kind === "drive" && part.kind === "drive") {
      merged[merged.length - 1] = {
        ...before,
        end: part.end,
        minutes: before.minutes + part.minutes,
        street: `${before.street} … ${part.street}`,
      };
    } else {
      merged.push(part);
    }
  }
  return merged;
}

function partTitle(part) {
  return text(`bar_title_${part.kind}`, {
    street: streetName(part.street, part.arcs),
    place: placeName(part.from),
    number: part.stop,
    span: span(part.minutes),
    start: moment(part.start),
    end: moment(part.end),
  });
}

function drawClosed(group, axis, option, closed, place) {
  const y = place.y + place.label + place.bar + 2;
  const first = minuteOf(option.departure);
  const last = minuteOf(option.arrival);
  for (const arc of arcsWaitedFor([option])) {
    for (const run of closed.get(arc)?.closed ?? []) {
      const low = Math.max(minuteOf(run.from), first);
      const high = Math.min(minuteOf(run.until), last);
      if (low < high) {
        const strip = { x: axis.at(low), y, width: axis.at(high) - axis.at(low) };
        const fill = { height: place.strip, fill: "url(#closed-pattern)" };
        const street = streetName(closed.get(arc).street, [arc]);
        const words = { street, start: moment(run.from), end: moment(run.until) };
        const title = shape("title", {}, text("bar_title_closed", words));
        group.append(shape("rect", { ...strip, ...fill }, title));
      }
    }
  }
}

/** Returns the arcs that waits of options are for. */
export function arcsWaitedFor(options) {
  const reasons = options.flatMap((it) => it.parts).flatMap((it) => it.for);
  return [...new Set(reasons.map((it) => it.arc).filter((it) => it !== null))];
}

function drawUntil(panel, axis, answer, top, bottom) {
  const until = minuteOf(answer.until);
  if (until <= axis.high) {
    const x = axis.at(until);
    const title = shape("title", {}, `${text("bar_until")}: ${moment(answer.until)}`);
    const mark = line(x, top - 4, x, bottom, INK, "4 3");
    mark.append(title);
    panel.append(mark);
  }
}

function line(x1, y1, x2, y2, stroke, dashes = null) {
  return shape("line", { x1, y1, x2, y2, stroke, "stroke-dasharray": dashes });
}

function written(x, y, words, kind) {
  const fill = kind.includes("soft") ? SOFT : INK;
  return shape("text", { x, y, class: kind || null, fill }, words);
}

function hasWeekend(answer) {
  const axis = new TimeAxis(answer, 0, 1);
  const first = axis.low + axis.offset(axis.low);
  const days = [first, ...axis.ticks(DAY).map((it) => it.local)];
  return days.some(isWeekend);
}

/** Tells whether a local minute is on a Saturday or a Sunday. */
function isWeekend(local) {
  return (Math.floor(local / DAY) + 3) % 7 >= 5; // (0 is a Monday)
}

/** Says what the colours of the bars are. */
export function legendOfBars(answer) {
  const has = (kind) => answer.options.some((it) => it.parts.some((part) => part.kind === kind));
  const entries = [
    ["bar_drive", DRIVE, has("drive")],
    ["bar_wait", WAIT, has("wait")],
    ["bar_serve", SERVE, has("serve")],
    ["bar_closed", "url(#closed-pattern)", arcsWaitedFor(answer.options).length > 0],
    ["bar_weekend", WEEKEND, hasWeekend(answer)],
  ];
  const shown = entries.filter(([, , is]) => is);
  return element(
    "ul",
    { class: "legend" },
    shown.map(([key, fill]) => {
      const sample = shape("svg", { width: 22, height: 11, "aria-hidden": "true" });
      sample.append(shape("rect", { width: 22, height: 11, rx: 2, fill, stroke: GRID }));
      return element("li", {}, sample, text(key));
    }),
  );
}
