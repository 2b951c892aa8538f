// One item: its story, what may be done with it, and where its publications stand.
import { at, button, facts, fill, make, table, timeOf } from "./dom.js";
import { courseWords, kindWords, stateWords, whyNot } from "./words.js";
import { holderWords, placeWords } from "./items.js";
import { StoryFields } from "./story.js";
import { CorrectDialog, NoteDialog, PlaceDialog, PublishDialog } from "./dialogs.js";

const WRITTEN = ["draft", "routed", "fetched", "submitted", "in_progress"];
const OUT = ["published", "corrected"];
const PAGE = 100;

export class ItemView {
  constructor(desk) {
    this.desk = desk;
    this.row = null;
    this.turn = 0;
    this.fields = new StoryFields(at("item-story"));
    this.dialogs = { publish: new PublishDialog(this), correct: new CorrectDialog(this), note: new NoteDialog(this), place: new PlaceDialog(this) };
    this.buttons = this.makeButtons();
    at("item-story").addEventListener("submit", (event) => event.preventDefault());
    at("publications-more").addEventListener("click", () => this.listPublications(this.lastPublication));
  }

  // Each button, with when it is there.
  makeButtons() {
    const { note, place, publish, correct } = this.dialogs;
    const all = [
      ["Lock", () => this.lock(), (row) => row.user === undefined && [...WRITTEN, "scheduled", ...OUT].includes(row.state)],
      ["Save", () => this.save(), (row) => this.isMine(row) && WRITTEN.includes(row.state)],
      ["Unlock", () => this.unlock(), (row) => this.isMine(row)],
      ["Publish …", () => publish.open(), (row) => this.isMine(row) && WRITTEN.includes(row.state)],
      ["Correct …", () => correct.open(), (row) => this.isMine(row) && OUT.includes(row.state)],
      ["Kill …", () => note.open("kill"), (row) => this.isMine(row) && OUT.includes(row.state)],
      ["Recall …", () => note.open("recall"), (row) => this.isMine(row) && OUT.includes(row.state)],
      ["Deschedule", () => this.deschedule(), (row) => row.user === undefined && row.state === "scheduled"],
      ["Break the lock …", () => this.breakLock(), (row) => row.user !== undefined && !this.isMine(row)],
      ["Move …", () => place.open("move"), (row) => row.user === undefined && WRITTEN.includes(row.state)],
      ["Fetch …", () => place.open("fetch"), (row) => row.user === undefined && row.state === "ingested"],
      ["Spike …", () => this.spike(), (row) => row.user === undefined && WRITTEN.includes(row.state)],
      ["Unspike …", () => place.open("unspike"), (row) => row.state === "spiked"],
      ["Refresh", () => this.refresh(), () => true],
    ];
    return all.map(([text, act, isThere]) => {
      const made = button(text, act);
      at("item-buttons").append(made);
      return { made, isThere };
    });
  }

  isMine(row) {
    return row.user === this.desk.api.user && row.session === this.desk.session;
  }

  hasChanges() {
    return this.row !== null && this.isMine(this.row) && this.fields.isChanged();
  }

  name() {
    const { item, story } = this.row;
    return `item ${item}${story.headline === "" ? "" : `, “${story.headline}”`}`;
  }

  // Shows an item. What was changed here and not saved stays, as long as the item is the same and is held in this window.
  async show(word) {
    const turn = ++this.turn;
    const said = await this.desk.api.ask(`/items/${word}`);
    if (turn !== this.turn) {
      return;
    }
    if (said.answer?.answer !== "item") {
      this.showNone(word, said);
      return;
    }
    const before = this.row;
    const row = said.answer;
    const stays = this.hasChanges() && before.item === row.item && before.version === row.version && this.isMine(row);
    if (this.hasChanges() && !stays && !this.fields.has(row.story)) {
      this.keepWritten();
    }
    this.row = row;
    this.render(stays);
    this.listPublications(0);
  }

  // What was written and cannot stay in the fields can still be read and copied.
  keepWritten() {
    const { headline, body } = this.fields.read();
    fill(at("written-of"), `What was written here of ${this.name()}, and not saved`);
    at("written-text").value = `${headline}\n\n${body}`;
    at("written").hidden = false;
    this.desk.say(`What was written of ${this.name()} is not what is shown now: it stands below the item.`, "not");
  }

  showNone(word, said) {
    if (said.lost && this.row !== null && String(this.row.item) === word) {
      return;
    }
    this.row = null;
    fill(at("item-title"), `Item ${word}`);
    facts(at("item-facts"), [["It cannot be shown", whyNot(said)]]);
    at("item-story").hidden = true;
    at("item-buttons").hidden = true;
    fill(at("item-publications"));
    at("publications-more").hidden = true;
  }

  render(keepsFields) {
    const { row } = this;
    fill(at("item-title"), `Item ${row.item}${row.story.headline === "" ? "" : `: ${row.story.headline}`}`);
    const wire = row.status === undefined ? [] : [["Its provider", row.status], ["Its provider's embargo", row.embargo === 0 ? "none" : timeOf(row.embargo)]];
    facts(at("item-facts"), [
      ["State", stateWords(row.state)], ["Version", row.version], ["Place", placeWords(row) || "none"], ["Held by", this.holder()], ...wire,
    ]);
    const inside = at("item-buttons").contains(document.activeElement);
    for (const { made, isThere } of this.buttons) {
      made.hidden = !isThere(row);
    }
    at("item-buttons").hidden = false;
    at("item-story").hidden = false;
    if (!keepsFields) {
      this.fields.write(row.story);
    }
    this.fields.setReadOnly(!this.isMine(row) || ![...WRITTEN, ...OUT].includes(row.state));
    if (inside && document.activeElement.hidden) {
      at("item-title").focus();
    }
  }

  holder() {
    const { row } = this;
    if (this.isMine(row)) {
      return "you, in this window";
    }
    return row.user === this.desk.api.user ? `you, in another window (${row.session})` : holderWords(row) || "nobody";
  }

  refresh() {
    return this.show(String(this.row.item));
  }

  async listPublications(after) {
    const { item } = this.row;
    const said = await this.desk.api.ask(`/items/${item}/publications/after/${after}`);
    if (this.row?.item !== item) {
      return;
    }
    const rows = said.answer?.answer === "publications" ? said.answer.rows : null;
    at("publications-more").hidden = (rows?.length ?? 0) < PAGE;
    this.lastPublication = rows?.at(-1)?.publication;
    fill(at("item-publications"), rows === null
      ? make("p", { className: "not" }, `It is not known: ${whyNot(said)}.`)
      : table("Its publications, and where each stands", ["Publication", "Kind", "Version", "Release", "At its subscribers"],
        rows.map(publicationCells), "It was not published."));
  }

  // A request about the item, behind which it is shown as it stands then.
  async perform(request, about) {
    const { item } = this.row;
    const end = await this.desk.perform({ ...request, item }, `${about} ${this.name()}`, item);
    if (end.is === "done" && this.row?.item === item) {
      this.settleFields(request);
    }
    if (this.row?.item === item && end.is !== "blocked") {
      await this.refresh();
    }
    return end;
  }

  // What was changed is the story now, or was given up.
  settleFields(request) {
    if (["edit", "correct"].includes(request.do)) {
      this.fields.write(request.story);
    } else if (request.do === "unlock") {
      this.fields.write(this.row.story);
    }
  }

  inSession(request) {
    return { session: this.desk.session, ...request };
  }

  async lock() {
    const end = await this.perform(this.inSession({ do: "lock" }), "Lock");
    const { activeElement } = document;
    if (end.is === "done" && [document.body, at("item-title")].includes(activeElement)) {
      this.fields.inputs.headline.focus();
    }
  }

  save() {
    return this.perform(this.inSession({ do: "edit", story: this.fields.read() }), "Save");
  }

  async unlock() {
    if (this.fields.isChanged() && !(await this.desk.ask("Give it back unsaved?", `What you changed of ${this.name()} is not saved, and is lost.`, "Yes, unlock it"))) {
      return;
    }
    await this.perform(this.inSession({ do: "unlock" }), "Unlock");
  }

  async breakLock() {
    const what = `${this.holder()} holds ${this.name()}. What is not saved there can then not be saved any more.`;
    if (await this.desk.ask("Break the lock?", what, "Yes, break it")) {
      await this.perform({ do: "break_lock" }, "Break the lock of");
    }
  }

  async spike() {
    if (await this.desk.ask("Spike it?", `${this.name()} is thrown away. It can be taken back.`, "Yes, spike it")) {
      await this.perform({ do: "spike" }, "Spike");
    }
  }

  deschedule() {
    return this.perform({ do: "deschedule" }, "Deschedule");
  }
}

function publicationCells(row) {
  const due = row.due.map((one) => make("li", {}, `${one.subscriber}: ${courseWords(one)}`));
  const stands = row.stands ? "" : " (descheduled)";
  return [
    String(row.publication), kindWords(row.kind) + stands, String(row.version), timeOf(row.release),
    due.length === 0 ? "due to nobody" : make("ul", {}, due),
  ];
}
