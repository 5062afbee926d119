// The details of causes, which the service tells in English, in the language of the page. The texts
// whose names begin with `detail_` are sentences of the service with words in braces; those words
// are times, spans, places, roads, or further sentences.

import { element } from "./elements.js";
import { english, language, text, textNames } from "./texts.js";
import { localDay, spanIn } from "./writing.js";

const DAYS = ["Sun", "Mon", "Tue", "Wed", "Thu", "Fri", "Sat"];
const MONTHS = "Jan Feb Mar Apr May Jun Jul Aug Sep Oct Nov Dec".split(" ");
const TIME = /^(\w{3}) (\d{1,2}) (\w{3})(?: (\d{4}))? (\d\d:\d\d)( [+-]\d\d:\d\d)?$/;
const CLOSED = /^(.*?)(?: from ([^(]*?))?(?: until ([^(]*?))?(?: \(((?:rules|closures)\.csv .*)\))?$/;
const RULE = /^(\S+) (\d+)(?:, clause (\d+))?(?:: (.*))?$/;
const ROAD = /^([^;]* \()?arc \d+\)?$/;
const MINUTE = 60_000;

/** Returns what is said of a cause, in the language of the page where that is known. */
export function detailWords(said) {
  const words = language() === "en" ? null : sentencesIn(said);
  if (words === null) {
    return element("span", { lang: "en", class: "words" }, said);
  }
  return element("span", { class: "words" }, words);
}

/** Returns sentences of the service in the language of the page, or null where one isn't known. */
export function sentencesIn(said) {
  const found = [];
  let rest = said;
  while (rest) {
    const next = firstSentence(rest);
    if (!next) {
      return null;
    }
    found.push(next.words);
    rest = rest.slice(next.length);
  }
  return found.join("; ");
}

/** Returns the first sentence, and how long it is with the semicolon behind it. */
function firstSentence(said) {
  for (const { name, pattern, slots } of patterns()) {
    const match = pattern.exec(said);
    if (match) {
      const values = {};
      slots.forEach((slot, k) => {
        values[slot] = valueIn(slot.replace(/\d$/, ""), match[k + 1]);
      });
      if (!Object.values(values).includes(null)) {
        return { words: text(name, values), length: match[0].length };
      }
    }
  }
  return null;
}

let made = null;

/** Returns the sentences as patterns, the longest first. */
function patterns() {
  if (!made) {
    const names = textNames().filter((it) => it.startsWith("detail_"));
    names.sort((one, other) => english(other).length - english(one).length);
    made = names.map(patternOf);
  }
  return made;
}

function patternOf(name) {
  const parts = english(name).split(/\{(\w+)\}/);
  const escaped = (it) => it.replace(/[.*+?^$()|[\]\\]/g, "\\$&");
  const words = parts.map((it, k) => (k % 2 ? "(.+?)" : escaped(it)));
  const slots = parts.filter((_, k) => k % 2);
  return { name, pattern: new RegExp(`^${words.join("")}(?:; |$)`), slots };
}

/** Returns a value of a kind in the language of the page; null where it can't be read. */
function valueIn(kind, words) {
  switch (kind) {
    case "time":
      return timeIn(words);
    case "span":
      return spanIn(words);
    case "place":
      return placeIn(words);
    case "closed":
      return closedIn(words);
    case "road":
      return ROAD.test(words) ? roadIn(words) : null;
    case "rule":
      return RULE.test(words) ? ruleIn(words) : null;
    case "lorry":
      return words === "any lorry" ? text("closed_to_any") : words;
    case "roads":
    case "where":
    case "wait":
      return sentencesIn(words);
    default:
      return words;
  }
}

/** Returns a time such as `Mon 13 Jul 05:00`. Its year is one in which that day is a Monday. */
function timeIn(words) {
  const parts = TIME.exec(words);
  if (!parts) {
    return words;
  }
  const [, day, date, month, year, clock, offset = ""] = parts;
  const isIt = (it) => new Date(it).getUTCDay() === DAYS.indexOf(day);
  for (let it = Number(year ?? 2000); it < 2030; it += 1) {
    const found = Date.UTC(it, MONTHS.indexOf(month), Number(date));
    if (isIt(found) || year) {
      const shown = localDay(found / MINUTE);
      return `${shown}${year ? ` ${year}` : ""} ${clock}${offset}`;
    }
  }
  return words;
}

/** Returns a place; null where the words are more than one sentence. */
function placeIn(words) {
  if (words.includes("; ")) {
    return null;
  }
  return words.replace(/\bnode (\d+)/, (_, node) => text("node_number", { node }));
}

function roadIn(words) {
  return words.replace(/\barc (\d+)/, (_, arc) => text("road_number", { arc }));
}

/** Returns a road with its closed time and what closes it. */
function closedIn(words) {
  const parts = CLOSED.exec(words);
  if (!parts) {
    return null;
  }
  const [, road, from, until, rule] = parts;
  const named = sentencesIn(road);
  if (named === null) {
    return null;
  }
  const shown = [named];
  if (from) {
    shown.push(text("closed_from", { time: timeIn(from) }));
  }
  if (until) {
    shown.push(text("closed_until", { time: timeIn(until) }));
  }
  if (rule) {
    shown.push(`(${ruleIn(rule)})`);
  }
  return shown.join(" ");
}

function ruleIn(words) {
  const parts = RULE.exec(words);
  if (!parts) {
    return words;
  }
  const [, file, row, clause, scope] = parts;
  const where = [text("rule_row", { file, row })];
  if (clause) {
    where.push(text("rule_clause", { clause }));
  }
  return where.join(", ") + (scope ? `: ${scope}` : "");
}
