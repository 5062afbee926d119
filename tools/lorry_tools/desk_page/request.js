// A request: what the form and the address of the page hold, and what the service is asked.

/** Returns a request without any words. */
export function emptyRequest() {
  return {
    folder: "",
    ask: "plan",
    from: { text: "", node: null },
    to: { text: "", node: null },
    stops: [],
    lorry: "",
    leave: "",
    by: "",
    breaks: false, // of a trip with stops; without any it is a question of its own
    certificate: false,
    over: [], // of another way: a street's name, or the arcs of one road
    option: 1,
    language: "",
  };
}

/** Returns the question that the service is asked: one with stops is a tour. */
export function questionOf(request) {
  return request.stops.length ? "tour" : request.ask;
}

// The address. Its values are words of the request; a stop's are joined by semicolons.

const ARCS = /^arcs:(\d+(?:\.\d+)*)$/;

/** Returns the query of the address that has all of a request. */
export function queryOf(request) {
  const words = new URLSearchParams();
  const put = (key, value) => value && words.append(key, value);
  put("folder", request.folder);
  put("ask", request.ask);
  put("from", placeText(request.from));
  put("to", placeText(request.to));
  request.stops.forEach((stop) => words.append("stop", stopText(stop)));
  put("lorry", request.lorry);
  put("leave", request.leave);
  put("by", request.by);
  put("breaks", request.breaks && request.stops.length ? "yes" : "");
  put("certificate", request.certificate ? "yes" : "");
  request.over.forEach((road) => put("over", roadText(road)));
  put("option", request.option > 1 ? String(request.option) : "");
  put("language", request.language);
  return words.toString();
}

/** Returns the request that a query has. */
export function requestIn(query) {
  const words = new URLSearchParams(query);
  const word = (key) => words.get(key) ?? "";
  const asked = word("ask");
  return {
    folder: word("folder"),
    ask: ["plan", "latest", "breaks"].includes(asked) ? asked : "plan",
    from: placeIn(word("from")),
    to: placeIn(word("to")),
    stops: words.getAll("stop").map(stopIn),
    lorry: word("lorry"),
    leave: word("leave"),
    by: word("by"),
    breaks: word("breaks") === "yes",
    certificate: word("certificate") === "yes",
    over: words.getAll("over").map(roadIn),
    option: Number(word("option")) || 1,
    language: word("language"),
  };
}

/** Tells whether a request has what a plan needs. */
export function isWhole(request) {
  const hasTime = request.ask === "latest" ? request.by : request.leave;
  return Boolean(placeText(request.from) && placeText(request.to) && request.lorry && hasTime);
}

function placeText(place) {
  return place.node === null ? place.text : String(place.node);
}

function placeIn(text) {
  return { text, node: /^[1-9]\d{0,9}$/.test(text) ? Number(text) : null };
}

function stopText({ place, minutes, date, opens, closes }) {
  return [placeText(place), minutes, date, opens, closes].join(";");
}

function stopIn(text) {
  const parts = text.split(";");
  const [minutes, date, opens, closes] = [...parts.slice(-4), "", "", "", ""];
  return { place: placeIn(parts.slice(0, -4).join(";")), minutes, date, opens, closes };
}

function roadText(road) {
  return Array.isArray(road) ? `arcs:${road.join(".")}` : road;
}

function roadIn(text) {
  const arcs = ARCS.exec(text);
  return arcs ? arcs[1].split(".").map(Number) : text;
}

// The service.

/** Returns the body of the question that the service is asked. */
export function bodyOf(request) {
  const question = questionOf(request);
  if (question === "plan") {
    return { ...tripOf(request), certificate: request.certificate };
  }
  return question === "tour"
    ? { ...tripOf(request), stops: request.stops.map(stopBody), breaks: request.breaks }
    : tripOf(request);
}

/** Returns the body of the question why a trip isn't another way. */
export function wayBodyOf(request) {
  return { ...tripOf(request), over: request.over };
}

function tripOf(request) {
  return {
    from: placeText(request.from),
    to: placeText(request.to),
    lorry: request.lorry,
    leave: timeText(request.leave),
    by: timeText(request.by),
    geometry: true,
  };
}

function timeText(time) {
  return time ? time.replace("T", " ") : null;
}

function stopBody(stop) {
  const hour = (time) => (time ? `${stop.date} ${time}`.trim() : null);
  return {
    place: placeText(stop.place),
    minutes: Number(stop.minutes),
    window_from: hour(stop.opens),
    window_to: hour(stop.closes),
  };
}
