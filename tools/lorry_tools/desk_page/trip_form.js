// The form of a trip: its fields are a request, and what is missing is marked.

import { button, byId, element, setFault } from "./elements.js";
import { PlaceField } from "./place_field.js";
import { StopList } from "./stop_list.js";
import { setText, text } from "./texts.js";
import { placeWords } from "./writing.js";

const HOUR = 3_600_000;

export class TripForm {
  /** `onplan` is called when a whole trip is asked for, `onclear` for a new trip. */
  constructor(folder, { onplan, onclear, onchange }) {
    this.onchange = onchange;
    this.from = new PlaceField("from", "from", folder, onchange);
    this.to = new PlaceField("to", "to", folder, onchange);
    byId("from-part").append(this.from.element);
    byId("to-part").append(this.to.element);
    this.stops = new StopList(folder, () => this.changed());
    this.form = byId("trip");
    this.offsets = { leave: "", by: "" }; // of a time that the clock shows twice
    for (const name of ["leave", "by"]) {
      byId(name).addEventListener("input", () => this.setOffset(name, ""));
    }
    byId("lorry").addEventListener("change", () => {
      setFault(byId("lorry"), byId("lorry-fault"), "");
    });
    byId("question").addEventListener("change", () => this.changed());
    byId("swap").addEventListener("click", () => this.swap());
    byId("clear").addEventListener("click", onclear);
    this.form.addEventListener("submit", (event) => {
      event.preventDefault();
      if (this.check()) {
        onplan();
      }
    });
  }

  // Its value.

  /** Returns the part of a request that the form holds. */
  get value() {
    return {
      ask: this.form.elements.ask.value,
      from: this.from.value,
      to: this.to.value,
      stops: this.stops.value,
      lorry: byId("lorry").value,
      leave: this.time("leave"),
      by: this.time("by"),
      breaks: byId("breaks").checked,
      certificate: byId("certificate").checked,
    };
  }

  set value(request) {
    this.form.elements.ask.value = request.ask;
    this.from.value = request.from;
    this.to.value = request.to;
    this.stops.value = request.stops;
    byId("lorry").value = request.lorry;
    this.setTime("leave", request.leave);
    this.setTime("by", request.by);
    byId("breaks").checked = request.breaks;
    byId("certificate").checked = request.certificate;
    this.changed();
  }

  time(name) {
    const shown = byId(name).value;
    return shown ? shown + this.offsets[name] : "";
  }

  setTime(name, words) {
    byId(name).value = words.slice(0, 16);
    this.offsets[name] = words.slice(16);
  }

  /** Says which of the two times is meant that a clock shows twice. */
  setOffset(name, offset) {
    this.offsets[name] = offset;
    setFault(byId(name), byId(`${name}-fault`), "");
    this.onchange();
  }

  /** Sets the departure to the next whole hour of this computer, where a new trip begins. */
  setUsualTime() {
    const now = new Date();
    const local = now.getTime() - now.getTimezoneOffset() * 60_000;
    const next = new Date(Math.ceil(local / HOUR) * HOUR);
    this.setTime("leave", next.toISOString().slice(0, 16));
  }

  setVehicles(vehicles) {
    const chosen = byId("lorry").value;
    const options = vehicles.map((it) => element("option", { value: it.name }, lorryWords(it)));
    byId("lorry").replaceChildren(element("option", { value: "" }, "–"), ...options);
    byId("lorry").value = vehicles.some((it) => it.name === chosen) ? chosen : "";
  }

  /** Takes the places of an answer, which have names. */
  takePlaces(answer) {
    for (const [field, place] of [
      [this.from, answer.from],
      [this.to, answer.to],
      ...answer.stops.map((stop, k) => [this.stops.stops[k]?.place, stop.place]),
    ]) {
      if (field) {
        field.value = { text: placeWords(place), node: place.node };
      }
    }
  }

  // What changes with it.

  changed() {
    const hasStops = this.stops.stops.length > 0;
    for (const it of this.form.querySelectorAll("[name=ask]")) {
      it.disabled = hasStops && it.value !== "plan";
    }
    if (hasStops) {
      this.form.elements.ask.value = "plan";
    }
    const asked = this.form.elements.ask.value;
    byId("question-hint").hidden = !hasStops;
    byId("breaks-part").hidden = !hasStops;
    byId("certificate-part").hidden = hasStops || asked !== "plan";
    setText(byId("leave-label"), asked === "latest" ? "leave_at_the_earliest" : "leave");
    setText(byId("by-label"), asked === "latest" ? "by_needed" : "by");
    this.onchange();
  }

  swap() {
    [this.from.value, this.to.value] = [this.to.value, this.from.value];
    this.onchange();
  }

  /** Writes what isn't in the page's own texts again, after a change of the language. */
  write() {
    this.stops.write();
  }

  // What is missing.

  /** Marks fields that have to be corrected; the first of them has the focus then. */
  check() {
    const late = this.form.elements.ask.value === "latest";
    this.from.setFault(this.from.isEmpty ? text("missing_place") : "");
    this.to.setFault(this.to.isEmpty ? text("missing_place") : "");
    this.need("lorry", "missing_lorry");
    this.need("leave", "missing_time", late);
    this.need("by", "missing_time", !late);
    this.stops.faulty();
    const wrong = this.form.querySelectorAll("[aria-invalid]");
    wrong[0]?.focus();
    return wrong.length === 0;
  }

  need(name, fault, mayBeEmpty = false) {
    const field = byId(name);
    // (a time that is begun and not whole has no value either)
    const isGood = field.value || (mayBeEmpty && !field.validity.badInput);
    setFault(field, byId(`${name}-fault`), isGood ? "" : text(fault));
  }

  /** Offers both times that a clock shows twice, and plans again with the one that is chosen. */
  offerTimes(name, offsets, onchoose) {
    const place = byId(`${name}-fault`);
    setFault(byId(name), place, text("clock_shown_twice"));
    const choices = offsets.map((offset, k) => {
      const words = text(k ? "second_time" : "first_time", { offset });
      return button(words, () => {
        this.setOffset(name, offset);
        onchoose();
      });
    });
    place.append(element("span", { class: "buttons" }, choices));
  }
}

function lorryWords(vehicle) {
  if (vehicle.name === "any") {
    return text("any_lorry");
  }
  const tonnes = vehicle.weight_kg === null ? "" : `${vehicle.weight_kg / 1000} t`;
  const delivers = vehicle.purpose === "delivery" ? text("delivers") : "";
  const facts = [vehicle.class, tonnes, delivers, ...vehicle.flags].filter(Boolean);
  return facts.length ? `${vehicle.name}: ${facts.join(", ")}` : vehicle.name;
}
