// The desk: a trip is asked for by the form, by the map, or by the address of the page, and its
// answer is shown beside the map. The address always has the whole request.

import { AnswerView } from "./answer_view.js";
import { byId, element } from "./elements.js";
import { prepareHandingOn } from "./hand_on.js";
import { MapView } from "./map_view.js";
import { bodyOf, emptyRequest, isWhole, queryOf, questionOf } from "./request.js";
import { requestIn, wayBodyOf } from "./request.js";
import { FolderService, Trouble, folders, service } from "./service.js";
import { LANGUAGES, language, text, useLanguage } from "./texts.js";
import { TripForm } from "./trip_form.js";
import { clearTrouble, showTrouble } from "./trouble_view.js";
import { WayView } from "./way_view.js";

class Desk {
  constructor(about, all) {
    this.tiles = about.tiles;
    this.folders = all;
    this.request = emptyRequest();
    this.wanted = ""; // the language that was chosen, if one was
    this.asked = null; // the request that the answer is of
    const current = () => this.service;
    this.form = new TripForm(current, {
      onplan: () => this.plan(),
      onclear: () => this.clear(),
      onchange: () => {},
    });
    this.map = new MapView({
      onplace: (kind, place) => this.takePlace(kind, place),
      onroad: (road) => this.way.addRoad(road),
    });
    this.answer = new AnswerView((number) => this.choose(number));
    this.way = new WayView({
      service: current,
      map: this.map,
      onask: () => this.askWay(),
      onchange: () => this.keepAddress(),
    });
    prepareHandingOn((form) => this.inForm(form));
    window.addEventListener("beforeprint", () => this.map.setPrinting(true));
    window.addEventListener("afterprint", () => this.map.setPrinting(false));
    this.prepareHead();
  }

  prepareHead() {
    const options = this.folders.map((it) => element("option", { value: it.name }, it.name));
    byId("folder").replaceChildren(...options);
    byId("folder-part").hidden = options.length < 2;
    byId("folder").addEventListener("change", () => this.changeFolder());
    byId("language").addEventListener("change", () => this.changeLanguage());
    window.addEventListener("popstate", () => this.takeAddress());
  }

  // The address.

  /** Takes the request of the address, and plans where it is a whole one. */
  async takeAddress() {
    const request = requestIn(window.location.search);
    this.wanted = LANGUAGES.includes(request.language) ? request.language : "";
    await useLanguage(this.wanted);
    byId("language").value = language();
    this.map.write();
    const isKnown = this.folders.some((it) => it.name === request.folder);
    await this.useFolder(isKnown ? request.folder : this.folders[0].name);
    this.form.value = request;
    this.way.set(request.over);
    if (request.folder && !isKnown) {
      this.tell(new Trouble(404, { detail: request.folder }));
    } else if (isWhole(request)) {
      await this.plan({ chosen: request.option, isNew: false });
      await this.roads;
      this.way.write();
      if (request.over.length && this.found?.command === "plan") {
        await this.askWay();
      }
    } else if (!request.leave) {
      this.form.setUsualTime();
    }
  }

  /** Returns the whole request: what the form, the map and the answer hold. */
  whole() {
    const chosen = this.answer?.chosen ?? 1;
    const folder = byId("folder").value;
    const over = this.way?.over ?? [];
    return { ...this.form.value, folder, over, option: chosen, language: this.wanted };
  }

  /** Writes the request of the answer into the address; a new one can be left by going back. */
  keepAddress(isNew = false) {
    if (!this.asked) {
      return;
    }
    const { over, option, language: wanted } = this.whole();
    this.asked = { ...this.asked, over, option, language: wanted };
    const address = `${window.location.pathname}?${queryOf(this.asked)}`;
    if (isNew && address !== window.location.pathname + window.location.search) {
      history.pushState(null, "", address);
    } else {
      history.replaceState(null, "", address);
    }
  }

  // The folder and the language.

  async useFolder(name) {
    if (this.service && this.folder.name === name) {
      this.clearAnswer();
      return;
    }
    this.folder = this.folders.find((it) => it.name === name);
    this.service = new FolderService(name);
    byId("folder").value = name;
    byId("folder-trouble").hidden = !this.folder.trouble;
    byId("folder-trouble-words").textContent = this.folder.trouble ?? "";
    this.clearAnswer();
    const roads = this.map.useFolder(this.folder, this.service, this.tiles);
    this.vehicles = await this.service.vehicles();
    this.form.setVehicles(this.vehicles);
    this.roads = roads;
  }

  async changeFolder() {
    await this.useFolder(byId("folder").value);
    this.clear();
  }

  async changeLanguage() {
    this.wanted = byId("language").value;
    await useLanguage(this.wanted);
    this.map.write();
    this.form.setVehicles(this.vehicles);
    this.form.write();
    this.way.write();
    clearTrouble();
    this.answer.write();
    if (this.found) {
      this.showOnMap(this.answer.chosen);
    }
    this.keepAddress();
  }

  // Places of the map.

  takePlace(kind, place) {
    const field = kind === "stop" ? this.form.stops.add().place : this.form[kind];
    field.take(place);
    const letters = { from: "A", to: "B", stop: String(this.form.stops.stops.length) };
    this.map.showPlace(place, letters[kind]);
  }

  // The question.

  clear() {
    this.clearAnswer();
    this.form.value = emptyRequest();
    this.form.setUsualTime();
    this.way.set([]);
    const bare = { ...emptyRequest(), ask: "", folder: this.folder.name, language: this.wanted };
    history.pushState(null, "", `${window.location.pathname}?${queryOf(bare)}`);
    byId("trip-title").focus();
  }

  clearAnswer() {
    this.question?.abort();
    this.asked = null;
    this.found = null;
    clearTrouble();
    this.answer.clear();
    this.map.clear();
    byId("way").hidden = true;
    byId("hand-on").hidden = true;
    byId("handed").replaceChildren();
  }

  async plan({ chosen = 1, isNew = true } = {}) {
    this.clearAnswer();
    const request = { ...this.whole(), option: chosen };
    const question = questionOf(request);
    this.question = new AbortController();
    byId("said").textContent = text("planning");
    byId("answer").setAttribute("aria-busy", "true");
    try {
      const found = await this.service.ask(question, bodyOf(request), this.question.signal);
      this.show(found, request, isNew);
      await this.answer.showClosed(this.service);
    } catch (trouble) {
      this.tell(trouble);
    } finally {
      byId("answer").removeAttribute("aria-busy");
    }
  }

  show(found, request, isNew) {
    this.found = found;
    this.form.takePlaces(found);
    this.asked = { ...request, ...this.form.value };
    const number = this.answer.numberOf(found, request.option);
    this.answer.show(found, number);
    this.keepAddress(isNew);
    this.showOnMap(number);
    byId("hand-on").hidden = !found.options.length;
    byId("way").hidden = found.command !== "plan";
    if (isNew) {
      byId("answer-title").focus({ preventScroll: true });
      showPart(byId("answer"));
    }
  }

  choose(number) {
    this.answer.choose(number);
    this.showOnMap(number);
    this.keepAddress();
  }

  showOnMap(number) {
    const colour = this.found.options.length ? this.answer.colour(number) : null;
    this.map.showAnswer(this.found, number, colour);
  }

  async askWay() {
    clearTrouble();
    const body = wayBodyOf({ ...this.asked, over: this.way.over });
    try {
      this.way.show(await this.service.ask("explain", body));
    } catch (trouble) {
      this.tell(trouble);
    }
  }

  /** Returns the answer in another form, or null where that failed. */
  async inForm(form) {
    clearTrouble();
    try {
      return await this.service.askForm(questionOf(this.asked), bodyOf(this.asked), form);
    } catch (trouble) {
      this.tell(trouble);
      return null;
    }
  }

  tell(trouble) {
    if (trouble.name === "AbortError") {
      return;
    }
    if (!(trouble instanceof Trouble)) {
      throw trouble;
    }
    if (!this.found) {
      byId("said").textContent = "";
    }
    showTrouble(trouble, {
      onplace: (end, place) => {
        this.form[end].take(place);
        this.plan();
      },
      ontime: (field, offsets) => this.form.offerTimes(field, offsets, () => this.plan()),
    });
    showPart(byId("answer"));
  }
}

/** Scrolls to the begin of a part of the page where little of it is in view. */
function showPart(part) {
  const { top } = part.getBoundingClientRect();
  if (top < 0 || top > window.innerHeight * 0.6) {
    part.scrollIntoView({ block: "start" });
  }
}

async function begin() {
  await useLanguage(requestIn(window.location.search).language);
  try {
    const desk = new Desk(await service(), await folders());
    await desk.takeAddress();
    document.body.dataset.ready = "yes";
  } catch (trouble) {
    showTrouble(trouble instanceof Trouble ? trouble : new Trouble(0, {}), {});
    throw trouble;
  }
}

begin();
