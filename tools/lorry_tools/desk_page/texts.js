// The texts of the page, one file a language. The address names the language, or else the browser.

export const LANGUAGES = ["en", "de"];

let texts = {};
let ofService = {}; // the texts in English, in which the service speaks
let chosen = "en";
let plurals = new Intl.PluralRules("en");

/** Returns the language of the page. */
export function language() {
  return chosen;
}

/** Returns the first language of the browser that the page has, or English. */
export function languageOfBrowser() {
  const asked = navigator.languages.map((it) => it.slice(0, 2).toLowerCase());
  return asked.find((it) => LANGUAGES.includes(it)) ?? "en";
}

/** Loads the texts of a language, and writes them into the page. */
export async function useLanguage(wanted) {
  const found = LANGUAGES.includes(wanted) ? wanted : languageOfBrowser();
  texts = await textsOf(found);
  ofService = found === "en" ? texts : await textsOf("en");
  chosen = found;
  plurals = new Intl.PluralRules(found);
  document.documentElement.lang = found;
  document.title = text("title");
  writeTexts(document);
}

async function textsOf(wanted) {
  return (await fetch(`desk/texts/${wanted}.json`)).json();
}

/** Returns a text in English, with the names of its values in braces. */
export function english(key) {
  return ofService[key];
}

export function textNames() {
  return Object.keys(ofService);
}

/** Writes the texts that the elements below this one name. */
export function writeTexts(root) {
  for (const it of root.querySelectorAll("[data-text]")) {
    it.textContent = text(it.dataset.text);
  }
  for (const it of root.querySelectorAll("[data-label]")) {
    it.setAttribute("aria-label", text(it.dataset.label));
  }
  for (const it of root.querySelectorAll("[data-hint]")) {
    it.setAttribute("placeholder", text(it.dataset.hint));
  }
}

/** Lets an element have another text from now on. */
export function setText(place, key) {
  place.dataset.text = key;
  place.textContent = text(key);
}

/** Returns a text with these values in the places of their names. */
export function text(key, values = {}) {
  const found = texts[key] ?? key;
  return found.replace(/\{(\w+)\}/g, (whole, name) => String(values[name] ?? whole));
}

export function hasText(key) {
  return key in texts;
}

/** Returns the form of a text for a number of things. */
export function counted(key, count, values = {}) {
  const form = count === 0 && hasText(`${key}_none`) ? "none" : plurals.select(count);
  return text(`${key}_${form}`, { count, ...values });
}
