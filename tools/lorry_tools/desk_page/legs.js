// The parts of a trip as a table: drives by their streets, waits with what they are for, services.

import { element } from "./elements.js";
import { text } from "./texts.js";
import { cost, kilometres, localClock, localDay, localMinute, moment } from "./writing.js";
import { placeName, span, streetName } from "./writing.js";

/** Returns the table of some parts; `goal` has the time and the place of the arrival, if any. */
export function legsTable(parts, caption, goal = null) {
  const hasLengths = parts.some((it) => it.metres !== null);
  const names = ["leg_time", "leg_what", "leg_takes", ...(hasLengths ? ["leg_length"] : [])];
  const head = names.map((it, k) => element("th", { scope: "col", class: kindOf(k) }, text(it)));
  const rows = new Rows(names.length);
  for (const part of parts) {
    const length = hasLengths ? [kilometres(part.metres)] : [];
    rows.add(part.kind, part.start, [partCell(part), span(part.minutes), ...length]);
  }
  if (goal) {
    const words = text("leg_arrive", { place: placeName(goal.place) });
    rows.add("arrive", goal.time, [words, "", ...(hasLengths ? [""] : [])]);
  }
  return element(
    "table",
    { class: "legs" },
    element("caption", {}, caption),
    element("thead", {}, element("tr", {}, head)),
    rows.made,
  );
}

/** Returns the class of the cells of a column: those behind the time and the words are numbers. */
function kindOf(column) {
  return column > 1 ? "number" : null;
}

/** The rows of a table, those of a day below its name. */
class Rows {
  constructor(columns) {
    this.columns = columns;
    this.made = [];
    this.day = "";
  }

  add(kind, time, cells) {
    const minute = localMinute(time);
    const day = localDay(minute);
    if (day !== this.day) {
      this.day = day;
      const name = element("th", { scope: "rowgroup", colspan: this.columns }, day);
      this.made.push(element("tbody", {}, element("tr", { class: "day" }, name)));
    }
    const all = [localClock(minute), ...cells];
    const made = all.map((it, k) => element("td", { class: kindOf(k) }, it));
    this.made.at(-1).append(element("tr", { class: kind }, made));
  }
}

function partCell(part) {
  if (part.kind === "drive") {
    const street = streetName(part.street, part.arcs);
    return text("leg_drive", { street, place: placeName(part.to) });
  }
  if (part.kind === "serve") {
    return text("leg_serve", { number: part.stop, place: placeName(part.from) });
  }
  const price = text("leg_wait_cost", { cost: cost(part.cost_thousandths ?? 0) });
  const where = text("leg_wait", { place: placeName(part.from) });
  const reasons = part.for.map((it) => element("li", {}, reasonWords(it), ruleWords(it.rule)));
  const list = reasons.length ? element("ul", { class: "reasons" }, reasons) : null;
  return element("div", {}, `${where}, ${price}`, list);
}

/** Says what a wait is for. */
function reasonWords(reason) {
  const street = reason.arc === null ? "" : streetName(reason.street, [reason.arc]);
  switch (reason.kind) {
    case "rule":
    case "closure":
      return reason.until === null
        ? text("for_closed_at", { street, time: moment(reason.time) })
        : text("for_closed_until", { street, until: moment(reason.until) });
    case "parking":
    case "price":
      return text(`for_${reason.kind}`, { place: reason.place ? placeName(reason.place) : "" });
    case "window":
      return text("for_window", { number: reason.stop });
    default:
      return text(`for_${reason.kind}`);
  }
}

/** Returns the text of a rule or a closure, and where it stands. */
export function ruleWords(rule) {
  if (!rule) {
    return null;
  }
  const place = rule.row ? text("rule_row", { file: rule.file, row: rule.row }) : rule.file;
  const clause = rule.clause ? `, ${text("rule_clause", { clause: rule.clause })}` : "";
  const scope = [rule.scope, rule.key].filter(Boolean).join(" ");
  const source = element("span", { class: "soft" }, ` (${place}${clause}; ${scope})`);
  return element("span", { class: "rule" }, element("code", {}, rule.text), source);
}
