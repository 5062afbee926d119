// What can't be answered: in the language of the page by its status, and in the service's words.
// Where the service names what it would understand, that can be chosen.

import { button, byId, element } from "./elements.js";
import { hasText, text } from "./texts.js";
import { placeWords } from "./writing.js";

const END = /^(from|to) /;
const TIMES = /^(leave|by) .* is shown twice .*?([+-]\d\d:\d\d) or .*([+-]\d\d:\d\d)/;

export function clearTrouble() {
  byId("trouble").replaceChildren();
}

/** Shows a trouble; `onplace(end, place)` and `ontime(field, offsets)` take what is chosen. */
export function showTrouble(trouble, { onplace, ontime }) {
  const parts = [element("strong", {}, text("problem")), " ", statusWords(trouble.status)];
  const said = [element("p", {}, parts)];
  if (trouble.detail) {
    said.push(element("p", { lang: "en", class: "words" }, trouble.detail));
  }
  const times = TIMES.exec(trouble.detail);
  if (times) {
    ontime(times[1], [times[2], times[3]]);
  }
  const end = END.exec(trouble.detail);
  if (end && trouble.choices.length) {
    said.push(element("p", {}, text("choose_place")));
    said.push(choices(trouble.choices, end[1], onplace));
  }
  byId("trouble").replaceChildren(element("div", { class: "notice" }, said));
}

function statusWords(status) {
  if (status === 0) {
    return text("problem_reach");
  }
  const key = `problem_${status}`;
  return hasText(key) ? text(key) : text("problem_other", { status });
}

function choices(places, end, onplace) {
  const words = ({ town, name }) => (town && town !== name ? `, ${town}` : "");
  const buttons = places.map((place) =>
    button(placeWords(place) + words(place), () => onplace(end, place)),
  );
  return element("div", { class: "buttons" }, buttons);
}
