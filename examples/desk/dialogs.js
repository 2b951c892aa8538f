// The dialogs of an item: publishing it, correcting it, killing or recalling it, and putting it on a desk.
import { at, fill, make, onDialog, table } from "./dom.js";
import { reasonWords, whyNot } from "./words.js";

const HEADS = ["Subscriber", "Reached", "Why"];
const lower = (text) => text.charAt(0).toLowerCase() + text.slice(1);

// Whom a first publication reaches, as a table.
const firstReach = (rows) =>
  table(`It reaches ${rows.filter((row) => row.reason === "permitted").length} of ${rows.length} subscribers`, HEADS,
    rows.map((row) => [row.subscriber, row.reason === "permitted" ? "yes" : "no", reasonWords(row)]), "There are no subscribers.");

// Whom a correction reaches: who has the item or waits for it, whatever else holds. Of the others the newsroom judges the new story.
function correctionReach(rows) {
  const had = rows.filter((row) => row.had).length;
  const cells = rows.map((row) => row.had
    ? [row.subscriber, "yes", "it has the item, or waits for it"]
    : [row.subscriber, "if the corrected story is permitted to it", `of the story as it is now: ${reasonWords(row)}`]);
  return table(`It reaches ${had} of ${rows.length} subscribers for certain`, HEADS, cells, "There are no subscribers.");
}

// Whom a kill or a recall can reach.
function hadReach(rows) {
  const had = rows.filter((row) => row.had);
  return table(`It is told to those who were given the item by then, of these ${had.length}`, ["Subscriber"],
    had.map((row) => [row.subscriber]), "Nobody has the item.");
}

// Asks whom the item reaches, and shows it or why it is not known. Whether it is shown.
async function showReach(view, place, targets, shape) {
  fill(place, make("p", {}, "Asking whom it reaches."));
  const said = await view.desk.api.post(`/items/${view.row.item}/reach`, JSON.stringify({ targets }));
  const rows = said.answer?.answer === "reach" ? said.answer.rows : null;
  fill(place, rows === null ? make("p", { className: "not" }, `It is not known whom it reaches: ${whyNot(said)}.`) : shape(rows));
  return rows;
}

export class PublishDialog {
  constructor(view) {
    this.view = view;
    this.turn = 0;
    fill(at("publish-zone"), `by this machine's clock, ${Intl.DateTimeFormat().resolvedOptions().timeZone}`);
    at("publish-reach").addEventListener("click", () => this.reach());
    at("publish-targets").addEventListener("change", () => this.forget());
    onDialog(at("publish"), () => this.send());
  }

  async open() {
    const { view } = this;
    if (view.fields.isChanged()) {
      view.desk.say(`Save ${view.name()} first: what is published is the story as it is saved.`, "not");
      return;
    }
    fill(at("publish-what"), `Version ${view.row.version} of ${view.name()}.`);
    at("publish").querySelector("[value=now]").checked = true;
    at("publish-time").value = "";
    this.forget();
    fill(at("publish-targets"), "Asking who there is.");
    at("publish").showModal();
    // of all subscribers, each once
    const said = await view.desk.api.ask(`/items/${view.row.item}/reach`);
    fill(at("publish-targets"), said.answer?.answer === "reach"
      ? said.answer.rows.map((row) => make("label", {}, make("input", { type: "checkbox", value: row.subscriber }), ` ${row.subscriber}`))
      : `It is not known who there is: ${whyNot(said)}.`);
  }

  targets() {
    return [...at("publish-targets").querySelectorAll(":checked")].map((box) => box.value);
  }

  // Nothing is published before it was shown whom it reaches with just these targets.
  forget() {
    this.turn++;
    fill(at("publish-rows"));
    at("publish-send").disabled = true;
  }

  async reach() {
    this.forget();
    const { turn } = this;
    const rows = await showReach(this.view, at("publish-rows"), this.targets(), firstReach);
    if (turn === this.turn && rows !== null) {
      at("publish-send").disabled = false;
      at("publish-send").focus();
    }
  }

  // The schedule or embargo that is chosen, in seconds; nothing where it is to be at once, and null where a time is missing.
  times() {
    const when = at("publish").querySelector("[name=when]:checked").value;
    if (when === "now") {
      return {};
    }
    const seconds = Math.floor(new Date(at("publish-time").value).getTime() / 1000);
    return Number.isNaN(seconds) ? null : { [when]: seconds };
  }

  async send() {
    if (at("publish-send").disabled) {
      return;
    }
    const times = this.times();
    at("publish-time").setCustomValidity(times === null ? "A schedule and an embargo have a time." : "");
    if (!at("publish-time").reportValidity()) {
      at("publish-time").setCustomValidity("");
      return;
    }
    at("publish").close();
    await this.view.perform(this.view.inSession({ do: "publish", ...times, targets: this.targets() }), "Publish");
  }
}

export class CorrectDialog {
  constructor(view) {
    this.view = view;
    onDialog(at("correct"), () => this.send());
  }

  async open() {
    const { view } = this;
    if (!view.fields.isChanged()) {
      view.desk.say(`Nothing of ${view.name()} is changed: write the corrected story first.`, "not");
      return;
    }
    fill(at("correct-what"), `All of the story as it is in the fields now goes out as the correction of ${view.name()}, at once.`);
    at("correct-send").disabled = true;
    at("correct").showModal();
    if ((await showReach(view, at("correct-rows"), [], correctionReach)) !== null) {
      at("correct-send").disabled = false;
      at("correct-send").focus();
    }
  }

  async send() {
    if (at("correct-send").disabled) {
      return;
    }
    at("correct").close();
    await this.view.perform(this.view.inSession({ do: "correct", story: this.view.fields.read() }), "Correct");
  }
}

const NOTES = {
  kill: { title: "Kill", what: "A kill", done: "Nothing may be done with a killed item any more." },
  recall: { title: "Recall", what: "A recall", done: "Nothing may be done with a recalled item any more." },
};

export class NoteDialog {
  constructor(view) {
    this.view = view;
    onDialog(at("note"), () => this.askAgain());
  }

  open(how) {
    this.how = how;
    const { title, what, done } = NOTES[how];
    fill(at("note-title"), title);
    fill(at("note-what"), `${what} of ${this.view.name()} goes to everyone who was given it, whatever their products permit today. ${done}`);
    at("note").showModal();
    showReach(this.view, at("note-rows"), [], hadReach);
  }

  async askAgain() {
    const { how, view } = this;
    const { item } = view.row;
    const { title } = NOTES[how];
    const note = at("note-text").value;
    at("note").close();
    const sure = await view.desk.ask(`${title} it?`, `${title} ${view.name()} with the note “${note}”? It cannot be taken back.`, `Yes, ${lower(title)} item ${item}`);
    if (!sure) {
      view.desk.say(`${title} ${view.name()}: left as it is, and nothing was sent.`, "not");
      return;
    }
    const end = await view.perform(view.inSession({ do: how, note }), title);
    if (end.is === "done") {
      at("note-text").value = "";
    }
  }
}

const PLACES = { move: "Move", fetch: "Fetch", unspike: "Unspike" };

export class PlaceDialog {
  constructor(view) {
    this.view = view;
    at("place-desk").addEventListener("change", () => this.fillStages());
    onDialog(at("place"), () => this.send());
  }

  async open(how) {
    this.how = how;
    fill(at("place-title"), `${PLACES[how]} ${this.view.name()}`);
    at("place-stages").hidden = how !== "move";
    at("place").showModal();
    this.rows = (await this.view.desk.things("desks")).rows ?? [];
    fill(at("place-desk"), this.rows.map((row) => make("option", {}, row.desk)));
    this.fillStages();
  }

  fillStages() {
    const row = this.rows.find((one) => one.desk === at("place-desk").value);
    fill(at("place-stage"), (row?.stages ?? []).map((stage) => make("option", {}, stage)));
  }

  async send() {
    at("place").close();
    const stage = this.how === "move" ? { stage: at("place-stage").value } : {};
    await this.view.perform({ do: this.how, desk: at("place-desk").value, ...stage }, PLACES[this.how]);
  }
}
