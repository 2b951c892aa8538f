// Requests to the newsroom, which the gateway has beside this page.

// longer than the gateway waits for the newsroom
const PATIENCE = 75_000;
// answered by the gateway where the newsroom did not answer
const LOST = [502, 504];

export class Api {
  // `user` is who is asked for at each request: the site answers 403 where the browser has become somebody else.
  // `onAnswer` is told, behind each request, whether it was answered.
  constructor(onAnswer) {
    this.user = null;
    this.onAnswer = onAnswer;
  }

  // Who this browser is at the gateway, or null where that was not told.
  async learnUser() {
    const said = await this.exchange("HEAD", location.pathname);
    this.user = said.lost ? null : said.user;
    return said;
  }

  ask(path) {
    return this.exchange("GET", path);
  }

  post(path, body) {
    return this.exchange("POST", path, body);
  }

  // Either `{lost: true, why}`, where it is not known what the newsroom did, or the status, with the answer where there is one.
  async exchange(method, path, body) {
    const said = await this.read(method, path, body);
    this.onAnswer(!said.lost, said.why);
    if (this.user && said.user && said.user !== this.user) {
      said.other = { now: said.user, before: this.user };
    }
    return said;
  }

  async read(method, path, body) {
    const headers = this.user === null ? {} : { "Desk-User": this.user };
    if (body !== undefined) {
      headers["Content-Type"] = "application/json";
    }
    try {
      // not relative to the page: its address may have had a name and a password in it
      const response = await fetch(location.origin + path, {
        method, body, headers, cache: "no-store", credentials: "same-origin", redirect: "error", signal: AbortSignal.timeout(PATIENCE),
      });
      const text = await response.text();
      return told(response, text);
    } catch (error) {
      return { lost: true, why: error.name === "TimeoutError" ? "no answer came in time" : "the connection failed" };
    }
  }
}

function told(response, text) {
  if (LOST.includes(response.status)) {
    return { lost: true, why: `the gateway had no answer (${response.status})` };
  }
  const user = response.headers.get("Desk-User");
  const json = (response.headers.get("Content-Type") ?? "").startsWith("application/json");
  if (!json || text === "") {
    return { lost: false, status: response.status, user, answer: null };
  }
  try {
    return { lost: false, status: response.status, user, answer: JSON.parse(text) };
  } catch {
    return { lost: true, why: "the answer could not be read" };
  }
}
