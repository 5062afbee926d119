// A field for a place: a name with a list of those that are alike, coordinates, or a node's number.
// It is a combobox after the ARIA Authoring Practices.

import { element, setFault } from "./elements.js";
import { counted, text } from "./texts.js";
import { placeWords } from "./writing.js";

const MOST = 8;
const PAUSE = 120; // milliseconds after the last letter
const NO_NAME = /^[\s\d.,;+-]*$/; // a node's number or coordinates

export class PlaceField {
  /** `folder` returns the service of the folder that is asked. */
  constructor(id, label, folder, onchange = () => {}) {
    this.id = id;
    this.folder = folder;
    this.onchange = onchange;
    this.node = null;
    this.places = [];
    this.active = -1;
    this.make(label);
  }

  make(label) {
    const { id } = this;
    this.input = element("input", {
      type: "text",
      id,
      role: "combobox",
      autocomplete: "off",
      spellcheck: "false",
      "data-hint": "place_hint",
      placeholder: text("place_hint"),
      "aria-autocomplete": "list",
      "aria-expanded": "false",
      "aria-controls": `${id}-list`,
      oninput: () => this.edited(),
      onkeydown: (event) => this.pressed(event),
      onblur: () => this.close(),
    });
    this.list = element("ul", {
      id: `${id}-list`,
      role: "listbox",
      "data-label": "place_list",
      "aria-label": text("place_list"),
      hidden: true,
      onmousedown: (event) => event.preventDefault(), // (the field keeps the focus)
    });
    this.said = element("p", { class: "unseen", role: "status" });
    this.fault = element("p", { class: "fault", id: `${id}-fault` });
    const name = element("label", { for: id, "data-text": label }, text(label));
    const held = element("div", { class: "combobox" }, this.input, this.list);
    this.element = element("div", { class: "field" }, name, held, this.fault, this.said);
  }

  /** The place as a request has it: the node where it is known, and the text. */
  get value() {
    return { text: this.input.value.trim(), node: this.node };
  }

  set value({ text: words, node }) {
    this.input.value = words;
    this.node = node;
  }

  get isEmpty() {
    return !this.input.value.trim();
  }

  /** Takes a place of the service. */
  take(place) {
    this.value = { text: placeWords(place), node: place.node };
    this.setFault("");
    this.close();
    this.onchange();
  }

  setFault(fault) {
    setFault(this.input, this.fault, fault);
  }

  // The list.

  edited() {
    this.node = null;
    this.setFault("");
    this.onchange();
    clearTimeout(this.timer);
    this.question?.abort();
    const words = this.input.value.trim();
    if (NO_NAME.test(words)) {
      this.close();
    } else {
      this.timer = setTimeout(() => this.look(words), PAUSE);
    }
  }

  async look(words) {
    this.question = new AbortController();
    try {
      const places = await this.folder().places(words, MOST, this.question.signal);
      if (words === this.input.value.trim() && document.activeElement === this.input) {
        this.open(places);
      }
    } catch {
      this.close();
    }
  }

  open(places) {
    this.places = places;
    this.active = -1;
    const options = places.map((place, k) => this.option(place, k));
    this.list.replaceChildren(...options);
    this.list.hidden = !places.length;
    this.input.setAttribute("aria-expanded", String(places.length > 0));
    this.input.removeAttribute("aria-activedescendant");
    this.said.textContent = counted("places_found", places.length);
  }

  option(place, k) {
    const town = place.town && place.town !== place.name ? `, ${place.town}` : "";
    const attributes = {
      role: "option",
      id: `${this.id}-option-${k}`,
      "aria-selected": "false",
      onclick: () => this.take(place),
    };
    return element("li", attributes, placeWords(place) + town);
  }

  close() {
    this.list.hidden = true;
    this.places = [];
    this.active = -1;
    this.said.textContent = "";
    this.input.setAttribute("aria-expanded", "false");
    this.input.removeAttribute("aria-activedescendant");
  }

  pressed(event) {
    const steps = { ArrowDown: 1, ArrowUp: -1 };
    if (event.key in steps && this.places.length) {
      event.preventDefault();
      const count = this.places.length;
      const before = this.active < 0 && event.key === "ArrowUp" ? 0 : this.active;
      this.activate((before + steps[event.key] + count) % count);
    } else if (event.key === "Enter" && this.active >= 0) {
      event.preventDefault();
      this.take(this.places[this.active]);
    } else if (event.key === "Escape" && this.places.length) {
      event.preventDefault();
      this.close();
    }
  }

  activate(k) {
    this.active = k;
    for (const [place, option] of [...this.list.children].entries()) {
      option.setAttribute("aria-selected", String(place === k));
    }
    const option = this.list.children[k];
    this.input.setAttribute("aria-activedescendant", option.id);
    option.scrollIntoView({ block: "nearest" });
  }
}
