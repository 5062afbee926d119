// The stops of a trip in their order, which buttons change.

import { button, byId, element, setFault } from "./elements.js";
import { PlaceField } from "./place_field.js";
import { text } from "./texts.js";

const USUAL_MINUTES = "30";
const LONGEST_SERVICE = 1440;
const FIELDS = [
  { name: "minutes", label: "stop_service", type: "number", min: 1, max: LONGEST_SERVICE },
  { name: "date", label: "stop_date", type: "date" },
  { name: "opens", label: "stop_opens", type: "time" },
  { name: "closes", label: "stop_closes", type: "time" },
];

let made = 0; // how many stops there were, so that each has an id of its own

class StopFields {
  constructor(folder, list) {
    this.list = list;
    this.id = `stop-${(made += 1)}`;
    this.place = new PlaceField(`${this.id}-place`, "stop_place", folder, list.onchange);
    this.legend = element("legend");
    this.fields = {};
    const parts = FIELDS.map((field) => this.part(field));
    this.buttons = {
      up: button("↑", () => list.move(this, -1)),
      down: button("↓", () => list.move(this, 1)),
      remove: button("✕", () => list.remove(this)),
    };
    const buttons = element("div", { class: "buttons" }, Object.values(this.buttons));
    const row = element("div", { class: "stop-fields" }, parts);
    const inside = [this.legend, this.place.element, row, buttons];
    this.element = element("li", {}, element("fieldset", {}, inside));
  }

  part({ name, label, ...attributes }) {
    const id = `${this.id}-${name}`;
    const input = element("input", { id, ...attributes, oninput: () => this.clearFault(name) });
    const fault = element("p", { class: "fault", id: `${id}-fault` });
    this.fields[name] = { input, fault };
    const words = element("label", { for: id, "data-text": label }, text(label));
    return element("div", { class: "field" }, words, input, fault);
  }

  clearFault(name) {
    setFault(this.fields[name].input, this.fields[name].fault, "");
    this.list.onchange();
  }

  get value() {
    const value = { place: this.place.value };
    for (const [name, { input }] of Object.entries(this.fields)) {
      value[name] = input.value;
    }
    return value;
  }

  set value(stop) {
    this.place.value = stop.place;
    for (const [name, { input }] of Object.entries(this.fields)) {
      input.value = stop[name];
    }
  }

  /** Marks what is missing, and returns the fields that have to be corrected. */
  faulty() {
    const { minutes, opens, closes } = this.fields;
    const service = Number(minutes.input.value);
    const isService = Number.isInteger(service) && service >= 1 && service <= LONGEST_SERVICE;
    const isWindow = Boolean(opens.input.value) === Boolean(closes.input.value);
    const late = opens.input.value ? closes : opens;
    this.place.setFault(this.place.isEmpty ? text("missing_place") : "");
    setFault(minutes.input, minutes.fault, isService ? "" : text("missing_service"));
    setFault(late.input, late.fault, isWindow ? "" : text("missing_window"));
    const wrong = [this.place.input, minutes.input, late.input];
    return wrong.filter((it) => it.hasAttribute("aria-invalid"));
  }

  write(number, count) {
    this.legend.textContent = text("stop_number", { number });
    for (const [name, it] of Object.entries(this.buttons)) {
      it.setAttribute("aria-label", text(`stop_${name}`, { number }));
      it.title = text(`stop_${name}`, { number });
    }
    setDisabled(this.buttons.up, number === 1);
    setDisabled(this.buttons.down, number === count);
  }
}

/** A button that can't be used now keeps the focus. */
function setDisabled(it, is) {
  it.setAttribute("aria-disabled", String(is));
}

export class StopList {
  constructor(folder, onchange) {
    this.folder = folder;
    this.onchange = onchange;
    this.stops = [];
    this.place = byId("stops");
    this.said = element("p", { class: "unseen", role: "status" });
    this.place.after(this.said);
    byId("add-stop").addEventListener("click", () => this.add().place.input.focus());
  }

  get value() {
    return this.stops.map((it) => it.value);
  }

  set value(stops) {
    this.stops = [];
    this.place.replaceChildren();
    for (const stop of stops) {
      this.add().value = stop;
    }
    this.write();
  }

  add() {
    const stop = new StopFields(this.folder, this);
    stop.fields.minutes.input.value = USUAL_MINUTES;
    this.stops.push(stop);
    this.place.append(stop.element);
    this.write();
    return stop;
  }

  move(stop, by) {
    const from = this.stops.indexOf(stop);
    const to = from + by;
    if (to < 0 || to >= this.stops.length) {
      return;
    }
    this.stops.splice(from, 1);
    this.stops.splice(to, 0, stop);
    const focused = document.activeElement;
    this.place.insertBefore(stop.element, this.stops[to + 1]?.element ?? null);
    focused.focus();
    this.write();
    this.said.textContent = text("stop_moved", { number: to + 1 });
  }

  remove(stop) {
    const from = this.stops.indexOf(stop);
    this.stops.splice(from, 1);
    stop.element.remove();
    this.write();
    this.said.textContent = text("stop_removed");
    const next = this.stops[from] ?? this.stops[from - 1];
    (next?.buttons.remove ?? byId("add-stop")).focus();
  }

  /** Writes numbers and labels, in the language of the page. */
  write() {
    this.place.hidden = !this.stops.length;
    for (const [k, stop] of this.stops.entries()) {
      stop.write(k + 1, this.stops.length);
    }
    this.onchange();
  }

  faulty() {
    return this.stops.flatMap((it) => it.faulty());
  }
}
