// The map: the roads of the folder, the places of the request, and the option that is chosen.
//
// A click is at a place, or, while roads of another way are chosen, at a road. The key Enter is a
// click in the middle of the map.

import { INK, ROAD, WAIT, WAY } from "./colours.js";
import { button, byId, element } from "./elements.js";
import { text } from "./texts.js";
import { placeName, placeWords, distance, span } from "./writing.js";

const MOST_ROADS = 4000;
const REACH = 24; // pixels from a click to its road
const PAUSE = 250; // milliseconds after a move
const CLOSEST = 16;

export class MapView {
  /** `onplace(kind, place)` takes a place as `from`, `to` or `stop`, `onroad(road)` a road. */
  constructor({ onplace, onroad }) {
    this.onplace = onplace;
    this.onroad = onroad;
    this.isChoosing = false;
    this.roads = [];
    this.places = new Map(); // marks of places that were taken from the map, by their letters
    this.makeMap();
    this.container = byId("map");
    this.container.addEventListener("keydown", (event) => {
      if (event.key === "Enter" && event.target === this.container) {
        event.preventDefault();
        this.clicked(this.map.getCenter());
      }
    });
    this.container.append(element("div", { class: "crosshair", "aria-hidden": "true" }));
    byId("show-all").addEventListener("click", () => this.showAll());
    byId("show-option").addEventListener("click", () => this.showBounds(this.option));
  }

  makeMap() {
    const isCalm = matchMedia("(prefers-reduced-motion: reduce)").matches;
    this.map = L.map("map", {
      zoomControl: false,
      zoomSnap: 0.25,
      maxZoom: 19,
      zoomAnimation: !isCalm,
      fadeAnimation: !isCalm,
      inertia: !isCalm,
    }).setView([0, 0], 2);
    this.map.attributionControl.setPrefix(false);
    // (the answer says in words what these lines are)
    this.map.getPane("overlayPane").setAttribute("aria-hidden", "true");
    this.background = L.layerGroup().addTo(this.map);
    this.canvas = L.canvas({ padding: 0.3 });
    this.way = L.featureGroup().addTo(this.map);
    this.option = L.featureGroup().addTo(this.map);
    this.ends = L.featureGroup().addTo(this.map);
    this.map.on("click", (event) => this.clicked(event.latlng));
    this.map.on("moveend", () => this.moved());
  }

  /** Writes what isn't in the page's own texts again, after a change of the language. */
  write() {
    this.zoom?.remove();
    const titles = { zoomInTitle: text("zoom_in"), zoomOutTitle: text("zoom_out") };
    this.zoom = L.control.zoom(titles).addTo(this.map);
    this.writeHelp();
    this.map.closePopup();
  }

  writeHelp() {
    const shown = this.isChoosing ? "map_help_way" : "map_help";
    byId("map-help").textContent = text(this.hasMap === false ? "no_map" : shown);
  }

  // The folder.

  /** Shows the roads of a folder, and behind them tiles where the service names some. */
  async useFolder(folder, service, tiles) {
    this.service = service;
    this.hasMap = folder.has_coordinates && folder.bounds !== null;
    this.clear();
    this.background.clearLayers();
    this.container.hidden = !this.hasMap;
    for (const id of ["show-all", "map-cut"]) {
      byId(id).hidden = id === "map-cut" || !this.hasMap;
    }
    this.writeHelp();
    if (!this.hasMap) {
      return;
    }
    const [west, south, east, north] = folder.bounds;
    this.bounds = L.latLngBounds([south, west], [north, east]);
    this.map.invalidateSize();
    this.map.attributionControl.remove();
    this.map.attributionControl = L.control.attribution({ prefix: false }).addTo(this.map);
    if (folder.credit) {
      this.map.attributionControl.addAttribution(folder.credit.replace(/[<>&]/g, " "));
    }
    if (tiles) {
      L.tileLayer(tiles, { maxZoom: 19 }).addTo(this.background);
    }
    this.showAll();
    this.isCut = true; // until the answer tells
    await this.load();
  }

  moved() {
    if (this.hasMap && this.isCut) {
      clearTimeout(this.timer);
      this.timer = setTimeout(() => this.load(), PAUSE);
    }
  }

  /** Loads the roads: all, where these are few, or those of the view. */
  async load() {
    this.question?.abort();
    this.question = new AbortController();
    const view = this.map.getBounds().pad(0.1);
    const box = this.isWhole(view)
      ? {}
      : {
          west: view.getWest(),
          south: view.getSouth(),
          east: view.getEast(),
          north: view.getNorth(),
        };
    try {
      const found = await this.service.roads(box, MOST_ROADS, this.question.signal);
      this.isCut = found.left_out > 0 || "west" in box;
      byId("map-cut").hidden = found.left_out === 0;
      this.showRoads(found);
    } catch {
      // (the next move asks again)
    }
  }

  isWhole(view) {
    return view.contains(this.bounds);
  }

  showRoads(found) {
    this.roads = found.features;
    this.lines?.remove();
    this.lines = L.geoJSON(found, {
      interactive: false,
      renderer: this.canvas,
      style: { color: ROAD, weight: 1.5 },
    }).addTo(this.background);
  }

  // Clicks.

  async clicked(place) {
    if (this.isChoosing) {
      const road = this.roadAt(place);
      if (road) {
        this.onroad(road);
      }
      return;
    }
    const spot = place.wrap();
    try {
      this.offer(await this.service.nearest(spot.lat, spot.lng));
    } catch {
      this.popUp(place, [element("p", {}, text("no_place_near"))]);
    }
  }

  /** Returns the road that is nearest to a place on the screen, if one is near. */
  roadAt(place) {
    const point = this.map.latLngToLayerPoint(place);
    const at = ([longitude, latitude]) => this.map.latLngToLayerPoint([latitude, longitude]);
    let found = null;
    let least = REACH;
    for (const road of this.roads) {
      const points = road.geometry.coordinates.map(at);
      for (let k = 1; k < points.length; k += 1) {
        const away = L.LineUtil.pointToSegmentDistance(point, points[k - 1], points[k]);
        if (away < least) {
          [found, least] = [road, away];
        }
      }
    }
    return found;
  }

  /** Offers a place as an end of the trip or as a stop. */
  offer(place) {
    const away = distance(place.metres_away ?? 0);
    const words = text("place_near", { name: placeWords(place), distance: away });
    const kinds = ["from", "to", "stop"];
    const choices = kinds.map((kind) =>
      button(text(`${kind}_here`), () => {
        this.closePopUp();
        this.onplace(kind, place);
      }),
    );
    this.popUp([place.latitude, place.longitude], [element("p", {}, words), ...choices]);
  }

  popUp(place, parts) {
    const close = button(text("close"), () => this.closePopUp());
    const content = element("div", { class: "pop-up", role: "group" }, parts, close);
    content.addEventListener("keydown", (event) => {
      event.stopPropagation();
      if (event.key === "Escape") {
        this.closePopUp();
      }
    });
    const shown = L.popup({ closeButton: false, minWidth: 190 });
    shown.setLatLng(place).setContent(content).openOn(this.map);
    content.querySelector("button").focus({ preventScroll: true });
  }

  closePopUp() {
    this.map.closePopup();
    this.container.focus({ preventScroll: true });
  }

  setChoosing(is) {
    this.isChoosing = is;
    this.map.closePopup();
    this.container.classList.toggle("choosing", is);
    this.writeHelp();
  }

  // What is shown over the roads.

  clear() {
    this.option.clearLayers();
    this.clearEnds();
    this.way.clearLayers();
    byId("show-option").hidden = true;
  }

  clearEnds() {
    this.ends.clearLayers();
    this.places.clear();
  }

  /** Shows the places of an answer and one of its options, in a colour. */
  showAnswer(answer, number, colour) {
    this.option.clearLayers();
    this.showEnds(answer);
    const features = (answer.geometry?.features ?? []).filter(
      (it) => it.properties.option === number,
    );
    this.drawLines(this.option, features, colour);
    const option = answer.options.find((it) => it.number === number);
    for (const part of option?.parts ?? []) {
      if (part.kind === "wait") {
        this.markWait(part);
      }
    }
    const hasOption = this.hasMap && this.option.getBounds().isValid();
    byId("show-option").hidden = !hasOption;
    this.showBounds(hasOption ? this.option : this.ends);
  }

  /** Shows another way, which is asked about. */
  showWay(features) {
    this.way.clearLayers();
    this.drawLines(this.way, features, WAY, "8 8");
    this.showBounds(this.way);
  }

  /** Shows the roads that are chosen for it. */
  showChosenRoads(features) {
    this.way.clearLayers();
    this.drawLines(this.way, features, WAY);
  }

  drawLines(layer, features, color, dashArray = null) {
    const lines = features.filter((it) => it.geometry?.type === "LineString");
    const ends = { lineCap: "round", lineJoin: "round", interactive: false };
    for (const style of [
      { color: "#FFFFFF", weight: 9, opacity: 0.9 },
      { color, weight: 5, dashArray },
    ]) {
      L.geoJSON(lines, { ...ends, style: { ...ends, ...style } }).addTo(layer);
    }
  }

  markWait(part) {
    if (part.from.latitude === null) {
      return;
    }
    const words = { place: placeName(part.from), span: span(part.minutes) };
    const circle = { radius: 8, color: INK, weight: 2, fillColor: WAIT, fillOpacity: 1 };
    L.circleMarker([part.from.latitude, part.from.longitude], circle)
      .bindTooltip(element("span", {}, text("wait_marker", words)))
      .addTo(this.option);
  }

  /** Shows a place that was taken from the map, until the trip is planned. */
  showPlace(place, letter) {
    this.places.get(letter)?.remove();
    this.places.set(letter, this.mark(place, letter, placeName(place)));
  }

  showEnds(answer) {
    this.clearEnds();
    const isRound = answer.from.node === answer.to.node;
    const start = text("from_marker", { place: placeName(answer.from) });
    this.mark(answer.from, isRound ? "AB" : "A", start);
    for (const stop of answer.stops) {
      const words = { number: stop.number, place: placeName(stop.place) };
      this.mark(stop.place, String(stop.number), text("stop_marker", words));
    }
    if (!isRound) {
      this.mark(answer.to, "B", text("to_marker", { place: placeName(answer.to) }));
    }
  }

  mark(place, letter, words) {
    if (!this.hasMap || place.latitude === null) {
      return null;
    }
    const html = element("span", {}, letter);
    const icon = L.divIcon({ className: "mark", html, iconSize: [26, 26] });
    return L.marker([place.latitude, place.longitude], { icon, keyboard: false })
      .bindTooltip(element("span", {}, words))
      .addTo(this.ends);
  }

  /** Gives the map its size on paper, or that on the screen again. */
  setPrinting(is) {
    document.body.classList.toggle("printing", is);
    this.map.invalidateSize({ animate: false });
    const shown = this.option.getBounds().isValid() ? this.option : this.ends;
    this.showBounds(shown, { animate: false });
  }

  showAll() {
    this.map.fitBounds(this.bounds, { padding: [10, 10] });
  }

  showBounds(layer, moves = {}) {
    const bounds = layer.getBounds();
    if (this.hasMap && bounds.isValid()) {
      this.map.fitBounds(bounds, { padding: [40, 40], maxZoom: CLOSEST, ...moves });
    }
  }
}
