// The questions of the service. Each answer is a value of its schema, or a Trouble is thrown.

/** What the service, or the way to it, refused. `status` is 0 where it can't be reached. */
export class Trouble extends Error {
  constructor(status, problem) {
    super(problem.detail ?? "");
    this.status = status;
    this.detail = problem.detail ?? "";
    this.choices = problem.choices ?? []; // places of a name that several have
  }
}

async function answered(address, options = {}) {
  let answer;
  try {
    answer = await fetch(address, options);
  } catch (error) {
    if (error.name === "AbortError") {
      throw error;
    }
    throw new Trouble(0, {});
  }
  if (!answer.ok) {
    throw new Trouble(answer.status, await answer.json().catch(() => ({})));
  }
  return answer;
}

async function valueAt(address, parameters = {}, signal = undefined) {
  const words = new URLSearchParams(parameters).toString();
  const answer = await answered(words ? `${address}?${words}` : address, { signal });
  return answer.json();
}

function posted(address, body, signal = undefined) {
  const headers = { "Content-Type": "application/json" };
  return answered(address, { method: "POST", headers, body: JSON.stringify(body), signal });
}

export function service() {
  return valueAt("api/service");
}

export async function folders() {
  return (await valueAt("api/folders")).folders;
}

/** The questions about one folder. */
export class FolderService {
  constructor(name) {
    this.address = `api/folders/${encodeURIComponent(name)}`;
  }

  async vehicles() {
    return (await valueAt(`${this.address}/vehicles`)).vehicles;
  }

  async places(name, most, signal) {
    return (await valueAt(`${this.address}/places`, { name, most }, signal)).places;
  }

  async streets(name, most, signal) {
    return (await valueAt(`${this.address}/streets`, { name, most }, signal)).streets;
  }

  nearest(latitude, longitude) {
    return valueAt(`${this.address}/nearest`, { latitude, longitude });
  }

  roads(box, most, signal) {
    return valueAt(`${this.address}/roads`, { ...box, most }, signal);
  }

  /** Asks `plan`, `latest`, `tour`, `breaks`, `explain` or `bans`. */
  async ask(question, body, signal) {
    return (await posted(`${this.address}/${question}`, body, signal)).json();
  }

  /** Asks the same for a text in another form. */
  async askForm(question, body, form) {
    return (await posted(`${this.address}/${question}?form=${form}`, body)).text();
  }
}
