// An answer: its options as cards of which one is chosen, their days, and the legs of the chosen
// one; or why there is no option.

import { arcsWaitedFor, drawnBars, legendOfBars } from "./bars.js";
import { coloursOf } from "./colours.js";
import { detailWords } from "./detail_words.js";
import { button, byId, element, saveFile, shape } from "./elements.js";
import { legsTable } from "./legs.js";
import { counted, hasText, text } from "./texts.js";
import { cost, kilometres, moment, momentOfYear } from "./writing.js";
import { placeName, span, spanIn } from "./writing.js";

const MOST_ASKED = 400; // arcs whose closed times are asked for at once
const MOST_OPEN = 8; // options whose cards and bars don't scroll
const WARNED = /^options? ([\d, and]+): up to (.+) of driving without a (break|rest) /;
const ALLOWED = / may drive (.+?)(?: a day)? \(/;

export class AnswerView {
  /** `onchoose(number)` is told the option that is chosen. */
  constructor(onchoose) {
    this.onchoose = onchoose;
    this.place = byId("found");
    this.answer = null;
    new ResizeObserver(() => this.drawBars()).observe(this.place);
  }

  /** Writes the answer again, after a change of the language. */
  write() {
    if (this.answer) {
      this.show(this.answer, this.chosen, this.closed);
    } else {
      this.clear();
    }
  }

  clear() {
    this.answer = null;
    this.chosen = 1;
    this.place.replaceChildren();
    byId("said").textContent = text("nothing_asked");
  }

  /** Returns the number of the option that is shown: the wanted one, or the first. */
  numberOf(answer, wanted) {
    return answer.options.some((it) => it.number === wanted) ? wanted : 1;
  }

  colour(number) {
    return coloursOf(this.answer.options.length)[number - 1];
  }

  /** Writes an answer; `closed` has the closed times of roads, once they are known. */
  show(answer, chosen, closed = new Map()) {
    this.answer = answer;
    this.closed = closed;
    this.chosen = chosen;
    byId("said").textContent = headline(answer);
    const parts = [element("p", {}, facts(answer)), ...ruleKept(answer), ...notices(answer)];
    if (answer.options.length) {
      this.figure = element("div", { class: "days", ...this.scrolling() });
      this.legs = element("div", { class: "wide" });
      parts.push(this.cards(), this.days(), this.legs);
    } else {
      parts.push(causes(answer));
    }
    this.place.replaceChildren(...parts, commands(answer));
    this.choose(chosen);
  }

  /** Lets cards and bars scroll where there are many; returns what a part that scrolls needs. */
  scrolling() {
    const isMany = this.answer.options.length > MOST_OPEN;
    this.place.classList.toggle("many", isMany);
    return isMany ? { tabindex: 0, role: "group", "aria-label": text("bars") } : {};
  }

  /** Asks for the closed times of the roads that are waited for, and draws them. */
  async showClosed(service) {
    const { answer } = this;
    const arcs = arcsWaitedFor(answer.options).slice(0, MOST_ASKED);
    if (!arcs.length) {
      return;
    }
    const from = answer.departure.utc;
    const until = answer.options.map((it) => it.arrival.utc).sort().at(-1);
    const found = await service.ask("bans", { lorry: answer.lorry, arcs, from, until });
    if (answer === this.answer) {
      this.closed = new Map(found.roads.map((it) => [it.arc, it]));
      this.drawBars();
    }
  }

  /** Shows the option that is chosen. */
  choose(number) {
    this.chosen = number;
    const option = this.answer.options.find((it) => it.number === number);
    if (option) {
      byId(`option-${number}`).checked = true;
      const goal = { time: option.arrival, place: this.answer.to };
      this.legs.replaceChildren(legsTable(option.parts, text("legs", { number }), goal));
      this.drawBars();
      const card = byId(`option-${number}`).parentElement;
      scrollTo(card.parentElement, card.offsetTop, card.offsetHeight);
      const row = this.figure.querySelector(".chosen-row");
      scrollTo(this.figure, Number(row.getAttribute("y")), Number(row.getAttribute("height")));
    }
  }

  // Cards.

  cards() {
    const late = this.answer.command === "latest";
    const help = text(late ? "options_help_latest" : "options_help");
    const { options } = this.answer;
    const several = options.length > 1 ? `${help} ` : "";
    const cards = options.map((it) => this.card(it, late));
    return element(
      "fieldset",
      { class: "options" },
      element("legend", {}, text("options")),
      element("p", { class: "hint" }, several + text("cost_help")),
      element("div", { class: "cards" }, cards),
    );
  }

  card(option, late) {
    const id = `option-${option.number}`;
    const input = element("input", {
      type: "radio",
      name: "option",
      id,
      value: option.number,
      onchange: () => this.onchoose(option.number),
    });
    const square = { width: 12, height: 12, rx: 2, fill: this.colour(option.number) };
    const swatch = shape("svg", { width: 12, height: 12, "aria-hidden": "true" });
    swatch.append(shape("rect", square));
    const name = element("strong", {}, swatch, ` ${text("option_number", option)}`);
    const label = element("label", { for: id }, name, optionFacts(option, late));
    return element("div", { class: "card" }, input, label);
  }

  // Days.

  days() {
    return element(
      "figure",
      {},
      element("figcaption", {}, element("h3", {}, text("bars"))),
      this.figure,
      legendOfBars(this.answer),
    );
  }

  drawBars() {
    if (!this.answer?.options.length || !this.figure?.isConnected) {
      return;
    }
    const drawn = drawnBars(this.answer, {
      colours: coloursOf(this.answer.options.length),
      closed: this.closed,
      chosen: this.chosen,
      width: Math.max(280, Math.floor(this.figure.clientWidth)),
      onchoose: this.onchoose,
    });
    this.figure.replaceChildren(drawn);
  }
}

/** Scrolls a part of the page, and nothing around it, until this much of its inside is in view. */
function scrollTo(part, top, height) {
  if (top < part.scrollTop) {
    part.scrollTop = top;
  } else if (top + height > part.scrollTop + part.clientHeight) {
    part.scrollTop = top + height - part.clientHeight;
  }
}

function ends(answer) {
  return { from: placeName(answer.from), to: placeName(answer.to) };
}

function headline(answer) {
  const count = answer.options.length;
  return count ? counted("options_found", count, ends(answer)) : text("no_option", ends(answer));
}

function facts(answer) {
  const zones = new Set([answer.departure.zone, answer.until.zone]);
  return text(answer.command === "latest" ? "request_facts_latest" : "request_facts", {
    lorry: answer.lorry,
    depart: momentOfYear(answer.departure),
    until: momentOfYear(answer.until),
    zone: [...zones].join(", "),
  });
}

/** Says which rule for breaks was kept, if one was. */
function ruleKept({ breaks }) {
  if (!breaks) {
    return [];
  }
  const values = { rest: span(breaks.rest_minutes), drive: span(breaks.drive_minutes) };
  return [element("p", {}, text("breaks_kept", values))];
}

function optionFacts(option, late) {
  const shown = [
    ["fact_leaves", late ? moment(option.departure) : ""],
    ["fact_arrives", moment(option.arrival)],
    ["fact_cost", cost(option.cost_thousandths)],
    ["fact_length", kilometres(option.metres)],
    ["fact_driving", span(option.driving_minutes)],
    ["fact_waiting", option.waiting_minutes ? span(option.waiting_minutes) : ""],
    ["fact_service", option.service_minutes ? span(option.service_minutes) : ""],
  ];
  return shown
    .filter(([, value]) => value)
    .map(([key, value]) => {
      const name = element("span", { class: "soft" }, `${text(key)} `);
      return element("span", { class: "fact" }, name, element("span", {}, value));
    });
}

// Warnings, certificates, causes and commands.

function notices(answer) {
  const found = [];
  if (answer.warnings.length) {
    const lines = answer.warnings.map((it) => element("li", {}, warningWords(it)));
    const title = element("h3", {}, text("warnings"));
    found.push(element("div", { class: "notice" }, title, element("ul", {}, lines)));
  }
  if (answer.certificate) {
    found.push(certificateNotice(answer.certificate));
  }
  return found;
}

/** Says a warning of the service in the language of the page; an unknown one in its own words. */
function warningWords(words) {
  const [parts, allowed] = [WARNED.exec(words), ALLOWED.exec(words)];
  if (!parts || !allowed) {
    return element("span", { lang: "en" }, words);
  }
  const [, options, most, pause] = parts;
  const said = options.replace(" and ", ` ${text("and")} `);
  const values = { options: said, most: spanIn(most), may: spanIn(allowed[1]) };
  return text(`warning_${pause}_${said === options && !/,/.test(said) ? "one" : "other"}`, values);
}

function certificateNotice({ name, accepted, number, text: content }) {
  const words = accepted
    ? counted("certificate_accepted", number)
    : text("certificate_rejected", { count: number });
  const save = () => saveFile(name, content, "text/plain");
  const download = content ? button(text("certificate_file"), save) : null;
  return element("p", { class: accepted ? "good" : "notice" }, `${words} `, download);
}

function causes(answer) {
  const lines = answer.causes.map((it) => {
    const [, name, rest] = /^([a-z-]+): (.*)$/s.exec(it) ?? [null, "", it];
    const known = hasText(`cause_${name}`) ? text(`cause_${name}`) : name;
    return element("li", {}, element("strong", {}, known), " ", detailWords(rest));
  });
  return element(
    "div",
    { class: "notice" },
    element("h3", {}, text("causes")),
    lines.length ? element("ul", {}, lines) : text("causes_none"),
  );
}

function commands(answer) {
  if (!answer.commands.length) {
    return "";
  }
  return element(
    "details",
    {},
    element("summary", {}, text("commands")),
    element("pre", { tabindex: 0, "aria-label": text("commands") }, answer.commands.join("\n")),
  );
}
