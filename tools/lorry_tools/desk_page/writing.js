// Times, spans, costs, lengths and places in the language of the page. Times are the local ones of
// the answer, never those of the browser's own zone.

import { language, text } from "./texts.js";

const MINUTE = 60_000;
const DAY = { weekday: "short", day: "numeric", month: "short" };
const CLOCK = { hour: "2-digit", minute: "2-digit", hourCycle: "h23" };
const formats = new Map();

/** Returns a format of dates in UTC, made once a language. */
function format(name, parts) {
  const key = `${language()} ${name}`;
  if (!formats.has(key)) {
    const place = language() === "en" ? "en-GB" : language();
    formats.set(key, new Intl.DateTimeFormat(place, { ...parts, timeZone: "UTC" }));
  }
  return formats.get(key);
}

/** Returns the Unix minute of a time of the service. */
export function minuteOf(time) {
  return Date.parse(time.utc) / MINUTE;
}

/** Returns how many minutes the local time is ahead of UTC, at a time of the service. */
export function offsetOf(time) {
  const shown = Date.parse(`${time.local.slice(0, 16)}Z`) / MINUTE;
  return shown - minuteOf(time);
}

/** Returns the day and the clock of a local minute, such as `Sat 11 Jul 05:11`. */
export function localMoment(minute) {
  return `${localDay(minute)} ${localClock(minute)}`;
}

export function localDay(minute) {
  return format("day", DAY).format(minute * MINUTE).replace(",", "");
}

export function localDayOfYear(minute) {
  const parts = { ...DAY, year: "numeric" };
  return format("day of year", parts).format(minute * MINUTE).replace(",", "");
}

export function localClock(minute) {
  return format("clock", CLOCK).format(minute * MINUTE);
}

export function localMinute(time) {
  return minuteOf(time) + offsetOf(time);
}

export function moment(time) {
  return localMoment(localMinute(time));
}

/** Returns the moment with the year. */
export function momentOfYear(time) {
  const minute = localMinute(time);
  return `${localDayOfYear(minute)} ${localClock(minute)}`;
}

/** Returns a number of minutes in words, such as `7 h 15 min`. */
export function span(minutes) {
  const parts = [
    [Math.floor(minutes / 1440), "unit_day"],
    [Math.floor(minutes / 60) % 24, "unit_hour"],
    [minutes % 60, "unit_minute"],
  ];
  const said = parts.filter(([count]) => count).map(([count, unit]) => `${count} ${text(unit)}`);
  return said.join(" ") || `0 ${text("unit_minute")}`;
}

/** Returns a span of the service, such as `9 h 30 min`, in the language of the page. */
export function spanIn(words) {
  const units = { d: 1440, h: 60, min: 1 };
  const parts = [...words.matchAll(/(\d+) (d|h|min)/g)];
  return span(parts.reduce((sum, [, count, unit]) => sum + Number(count) * units[unit], 0));
}

function decimal(value, digits) {
  const place = language() === "en" ? "en-GB" : language();
  const digitsOf = { minimumFractionDigits: digits, maximumFractionDigits: digits };
  return value.toLocaleString(place, digitsOf);
}

export function cost(thousandths) {
  return decimal(thousandths / 1000, 3);
}

export function kilometres(metres) {
  return metres === null ? "" : decimal(metres / 1000, 1);
}

export function distance(metres) {
  if (metres < 1000) {
    return `${metres} ${text("unit_metre")}`;
  }
  return `${kilometres(metres)} ${text("unit_kilometre")}`;
}

/** Returns a place by its name, and its node where it has none. */
export function placeName(place) {
  return place.name || text("node_number", { node: place.node });
}

/** Returns a place by its name and its node, as fields show it. */
export function placeWords(place) {
  return place.name ? `${place.name} (${place.node})` : String(place.node);
}

/** Returns a street as the service names it; `road N` is written in the language of the page. */
export function streetName(street, arcs = []) {
  const number = /^road (\d+)$/.exec(street ?? "");
  return number || !street
    ? text("road_number", { arc: number ? number[1] : arcs.join(", ") })
    : street;
}
