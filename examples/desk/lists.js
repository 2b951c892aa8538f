// The queue of the feeds, and the things of the newsroom.
import { at, button, fill, make, table } from "./dom.js";
import { feedWords, whyNot } from "./words.js";

const PAGE = 100;

export class QueueView {
  constructor(desk) {
    this.desk = desk;
    at("queue-again").addEventListener("click", () => this.show());
  }

  async show() {
    const said = await this.desk.api.ask("/queue");
    if (said.answer?.answer !== "queue") {
      fill(at("queue-table"), make("p", { className: "not" }, `The queue cannot be shown: ${whyNot(said)}.`));
      return;
    }
    const rows = said.answer.feeds.map((feed) => [
      feed.subscriber, feedWords(feed.state), String(feed.length), String(feed.acked), String(feed.tries), this.resumes(feed),
    ]);
    fill(at("queue-table"), table("Feeds", ["Subscriber", "State", "Entries", "Acknowledged", "Attempts", "What to do"], rows, "There are none."));
  }

  resumes(feed) {
    return feed.state === "paused" ? button(`Resume ${feed.subscriber}`, () => this.resume(feed.subscriber)) : "";
  }

  async resume(subscriber) {
    await this.desk.perform({ do: "resume", subscriber }, `Resume the feed of ${subscriber}`);
    await this.show();
    at("queue-title").focus();
  }
}

// What a thing has, in words: lists with commas, objects as they are.
function words(value) {
  if (value === null || value === undefined) {
    return "none";
  }
  if (typeof value === "boolean") {
    return value ? "yes" : "no";
  }
  if (Array.isArray(value)) {
    return value.every((one) => typeof one === "string") ? value.join(", ") : value.map((one) => make("code", {}, JSON.stringify(one)));
  }
  return String(value);
}

export class ThingsView {
  constructor(desk) {
    this.desk = desk;
    this.after = null;
    this.turn = 0;
    at("things-form").addEventListener("submit", (event) => {
      event.preventDefault();
      this.list("first");
    });
    at("things-next").addEventListener("click", () => this.list(`after/${this.after}`));
  }

  show() {
    return this.list("first");
  }

  async list(from) {
    const turn = ++this.turn;
    const of = at("things-of").value;
    const said = await this.desk.api.ask(`/things/${of}/${from}`);
    if (turn !== this.turn) {
      return;
    }
    const rows = said.answer?.answer === "things" ? said.answer.rows : null;
    at("things-next").disabled = (rows?.length ?? 0) < PAGE;
    if (rows === null) {
      fill(at("things-table"), make("p", { className: "not" }, `They cannot be shown: ${whyNot(said)}.`));
      return;
    }
    const name = of.slice(0, -1);
    this.after = rows.at(-1)?.[name];
    const heads = [name, ...Object.keys(rows[0] ?? {}).filter((key) => key !== name)];
    fill(at("things-table"), table(of, heads, rows.map((row) => heads.map((key) => words(row[key]))), "There are none."));
  }
}
