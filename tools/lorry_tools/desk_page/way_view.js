// Why not this way: roads of another way in their order, chosen on the map or by their streets, and
// what the program says of it.

import { button, byId, element, setFault } from "./elements.js";
import { legsTable, ruleWords } from "./legs.js";
import { setText, text } from "./texts.js";
import { cost, moment, placeName, streetName } from "./writing.js";

const MOST_STREETS = 8;
const PAUSE = 150;

export class WayView {
  /** `onask` asks why not this way, `onchange` is told that its roads are others now. */
  constructor({ service, map, onask, onchange }) {
    this.service = service;
    this.map = map;
    this.onchange = onchange;
    this.over = []; // of a request: streets, and arcs of roads
    this.features = new Map(); // of the roads that were clicked, by their arcs
    this.why = null;
    byId("way-choose").addEventListener("click", () => this.setChoosing(!map.isChoosing));
    byId("way-street").addEventListener("input", () => this.edited());
    byId("way-street").addEventListener("keydown", (event) => {
      if (event.key === "Enter") {
        event.preventDefault();
        this.addStreet();
      }
    });
    byId("way-add").addEventListener("click", () => this.addStreet());
    byId("way-ask").addEventListener("click", () => this.ask(onask));
  }

  setChoosing(is) {
    this.map.setChoosing(is);
    byId("way-choose").setAttribute("aria-pressed", String(is));
    setText(byId("way-choose"), is ? "way_end" : "way_begin");
    if (is) {
      byId("map-part").scrollIntoView({ block: "start" });
      byId("map").focus({ preventScroll: true });
    }
  }

  // Its roads.

  edited() {
    setFault(byId("way-street"), byId("way-street-fault"), "");
    clearTimeout(this.timer);
    this.timer = setTimeout(() => this.suggest(), PAUSE);
  }

  async suggest() {
    const name = byId("way-street").value.trim();
    const found = name ? await this.service().streets(name, MOST_STREETS).catch(() => []) : [];
    const options = found.map((it) => element("option", { value: it }));
    byId("streets").replaceChildren(...options);
  }

  async addStreet() {
    const field = byId("way-street");
    const name = field.value.trim();
    if (!name) {
      return;
    }
    const found = await this.service().streets(name, MOST_STREETS).catch(() => []);
    const street = found.find((it) => it.toLowerCase() === name.toLowerCase()) ?? found[0];
    if (!street) {
      setFault(field, byId("way-street-fault"), text("way_no_street", { name }));
      return;
    }
    field.value = "";
    this.add(street);
  }

  /** Adds a road that was clicked. */
  addRoad(feature) {
    const { arcs } = feature.properties;
    this.features.set(arcs.join(), feature);
    this.add(arcs);
  }

  add(road) {
    this.set([...this.over, road]);
    byId("way-said").textContent = this.roadWords(road);
  }

  /** Takes other roads; what was said of those before is cleared. */
  set(over) {
    this.over = over;
    this.why = null;
    byId("way-found").replaceChildren();
    byId("way-said").textContent = "";
    this.write();
    this.drawChosen();
    this.onchange();
  }

  drawChosen() {
    const roads = this.over.filter(Array.isArray);
    this.map.showChosenRoads(roads.flatMap((it) => this.feature(it) ?? []));
  }

  /** Returns a road of the map by its arcs; undefined where the map doesn't show it. */
  feature(arcs) {
    const key = arcs.join();
    const isIt = (it) => it.properties.arcs.join() === key;
    return this.features.get(key) ?? this.map.roads.find(isIt);
  }

  roadWords(road) {
    return Array.isArray(road) ? streetName(this.feature(road)?.properties.street, road) : road;
  }

  move(k, by) {
    const over = [...this.over];
    if (k + by < 0 || k + by >= over.length) {
      return;
    }
    over.splice(k + by, 0, ...over.splice(k, 1));
    this.set(over);
    this.focusButton(k + by, by < 0 ? 0 : 1);
  }

  remove(k) {
    this.set(this.over.filter((_, other) => other !== k));
    this.focusButton(Math.min(k, this.over.length - 1), 2);
  }

  focusButton(k, place) {
    const row = byId("way-roads").children[k];
    (row?.querySelectorAll("button")[place] ?? byId("way-street")).focus();
  }

  /** Writes the list of its roads, in the language of the page. */
  write() {
    const rows = this.over.map((road, k) => this.row(road, k));
    byId("way-roads").replaceChildren(...rows);
    byId("way-none").hidden = this.over.length > 0;
    if (this.why) {
      this.writeAnswer();
    }
  }

  row(road, k) {
    const named = (key, sign, onclick, isOff = false) => {
      const title = text(key, { number: k + 1 });
      const off = { "aria-disabled": String(isOff) };
      return button(sign, onclick, { "aria-label": title, title, ...off });
    };
    const buttons = [
      named("way_up", "↑", () => this.move(k, -1), k === 0),
      named("way_down", "↓", () => this.move(k, 1), k === this.over.length - 1),
      named("way_remove", "✕", () => this.remove(k)),
    ];
    const words = element("span", {}, this.roadWords(road));
    return element("li", {}, words, element("span", { class: "buttons" }, buttons));
  }

  // The answer.

  ask(onask) {
    if (!this.over.length) {
      setFault(byId("way-street"), byId("way-street-fault"), text("missing_way"));
      byId("way-street").focus();
      return;
    }
    this.setChoosing(false);
    onask();
  }

  show(answer) {
    this.why = answer.why;
    this.goal = answer.to;
    this.writeAnswer();
    this.map.showWay(answer.geometry?.features ?? []);
  }

  writeAnswer() {
    const { why, goal } = this;
    byId("way-said").textContent = verdict(why);
    const arrival = why.verdict === "unlawful" ? null : { time: why.time, place: goal };
    byId("way-found").replaceChildren(
      element("p", {}, ruleWords(why.rule)),
      element("div", { class: "wide" }, legsTable(why.parts, text("way_answer"), arrival)),
    );
  }
}

function verdict(why) {
  if (why.verdict === "unlawful") {
    return `${text("way_unlawful")} ${fault(why)}.`;
  }
  const values = { time: moment(why.time), cost: cost(why.cost_thousandths) };
  if (why.better) {
    values.better = moment(why.better.arrival);
    values.better_cost = cost(why.better.cost_thousandths);
  }
  return text(`way_${why.verdict}`, values);
}

function fault(why) {
  const street = why.arc === null ? "" : streetName(why.street, [why.arc]);
  const time = moment(why.time);
  if (why.rule) {
    return text("way_fault_closed", { street, time });
  }
  const place = why.place ? placeName(why.place) : "";
  const where = street ? text("way_fault_at", { street, place, time }) : `${place}, ${time}`;
  return `${where}: ${text(`way_reason_${why.reason}`)}`;
}
