// The items of a desk, newest first, a hundred at a time; and a new one.
import { at, fill, make, onDialog, table } from "./dom.js";
import { stateWords, whyNot } from "./words.js";
import { StoryFields } from "./story.js";

const HEADS = ["Item", "Headline", "Slugline", "State", "Held by", "Urgency", "Place"];
const NEWEST = "4294967295";
const PAGE = 100;

export const placeWords = (row) => (row.desk === undefined ? "" : `${row.desk}, ${row.stage}`);
export const holderWords = (row) => (row.user === undefined ? "" : `${row.user} (${row.session})`);
const fromWire = (row) => (row.status === undefined || row.status === "usable" ? "" : `, ${row.status} by its provider`);

function cells(row) {
  return [
    make("a", { href: `#item/${row.item}` }, String(row.item)),
    row.headline,
    row.slugline,
    stateWords(row.state) + fromWire(row),
    holderWords(row),
    row.urgency === 0 ? "" : String(row.urgency),
    placeWords(row),
  ];
}

export class ItemsView {
  constructor(desk) {
    this.desk = desk;
    this.turn = 0;
    this.last = null;
    this.fields = new StoryFields(at("create-story"));
    at("items-form").addEventListener("submit", (event) => {
      event.preventDefault();
      this.list();
    });
    at("items-newest").addEventListener("click", () => this.listBelow(""));
    at("items-older").addEventListener("click", () => this.listBelow(String(this.last)));
    at("items-create").addEventListener("click", () => this.openCreate());
    onDialog(at("create"), () => this.create());
    this.desks = this.fillDesks();
  }

  async show() {
    await this.desks;
    await this.list();
  }

  async fillDesks() {
    const { rows } = await this.desk.things("desks");
    for (const row of rows ?? []) {
      at("items-desk").append(make("option", {}, row.desk));
      at("create-desk").append(make("option", {}, row.desk));
    }
    // where somebody is a member of one desk alone, that is theirs
    const mine = (rows ?? []).filter((row) => row.members.includes(this.desk.api.user));
    if (mine.length === 1) {
      at("items-desk").value = mine[0].desk;
      at("create-desk").value = mine[0].desk;
    }
  }

  listBelow(below) {
    at("items-below").value = below;
    return this.list();
  }

  async list() {
    const turn = ++this.turn;
    const desk = at("items-desk").value;
    const below = at("items-below").value || NEWEST;
    const said = await this.desk.api.ask(`${desk === "" ? "" : `/desks/${desk}`}/items/below/${below}`);
    if (turn !== this.turn) {
      return;
    }
    const rows = said.answer?.answer === "items" ? said.answer.rows : null;
    at("items-older").disabled = (rows?.length ?? 0) < PAGE;
    this.last = rows?.at(-1)?.item ?? null;
    fill(at("items-table"), rows === null
      ? make("p", { className: "not" }, `The items cannot be shown: ${whyNot(said)}.`)
      : table(desk === "" ? "Items" : `Items of the desk ${desk}`, HEADS, rows.map(cells), "There are none."));
  }

  openCreate() {
    if (at("items-desk").value !== "") {
      at("create-desk").value = at("items-desk").value;
    }
    at("create").showModal();
  }

  // The dialog keeps what was written until it is done.
  async create() {
    at("create").close();
    const desk = at("create-desk").value;
    const end = await this.desk.perform({ do: "create", desk, story: this.fields.read() }, `Create an item on ${desk}`);
    if (end.is === "done") {
      this.fields.write({});
      this.desk.open(end.answer.item);
    }
  }
}
