// Hands an answer on: the link to its request, the printed page, and files in other forms.

import { byId, element, saveFile } from "./elements.js";
import { text } from "./texts.js";

const KINDS = { csv: "text/csv", geojson: "application/geo+json", gpx: "application/gpx+xml" };

/** `ask(form)` returns the answer in another form, or null where that failed. */
export function prepareHandingOn(ask) {
  byId("copy-link").addEventListener("click", copyLink);
  byId("print").addEventListener("click", () => window.print());
  for (const it of document.querySelectorAll("[data-form]")) {
    it.addEventListener("click", () => saveForm(it.dataset.form, ask));
  }
}

async function copyLink() {
  const address = window.location.href;
  try {
    await navigator.clipboard.writeText(address);
    say(text("link_copied"));
  } catch {
    // (a browser lets only some pages copy: the link is shown, to be copied by hand)
    const id = "link";
    const label = element("label", { for: id }, text("link_shown"));
    const field = element("input", { id, type: "text", readonly: true, value: address });
    byId("handed").replaceChildren(label, " ", field);
    field.select();
  }
}

async function saveForm(form, ask) {
  const content = await ask(form);
  if (content !== null) {
    const name = `trip.${form}`;
    saveFile(name, content, KINDS[form]);
    say(text("export_done", { name }));
  }
}

function say(words) {
  byId("handed").textContent = words;
}
