// The page of a desk: its views, and what is said of each request.
import { Api } from "./api.js";
import { Sender, sessionOfWindow } from "./numbers.js";
import { at, fill, make, onDialog } from "./dom.js";
import { endWords, whyNot } from "./words.js";
import { ItemsView } from "./items.js";
import { ItemView } from "./item.js";
import { QueueView, ThingsView } from "./lists.js";

const SAID = 5;

class Desk {
  constructor() {
    this.api = new Api((answered, why) => this.showAway(answered, why));
    this.sender = new Sender(this.api, (open, wait) => this.showOpen(open, wait));
    this.session = null;
    this.sure = null;
    at("open-ask").addEventListener("click", () => this.sender.askNow());
    at("open-leave").addEventListener("click", () => this.sender.leave());
    onDialog(at("sure"), () => at("sure").close("yes"));
    at("sure").addEventListener("close", () => this.sure?.(at("sure").returnValue === "yes"));
  }

  async start() {
    const said = await this.api.learnUser();
    if (!this.api.user) {
      fill(at("who"), `Who you are is not known: ${said.lost || said.status !== 200 ? whyNot(said) : "the site does not tell it"}. Load the page again.`);
      return;
    }
    this.session = await sessionOfWindow();
    fill(at("who"), `You are ${this.api.user}, in the session ${this.session}.`);
    this.views = { items: new ItemsView(this), item: new ItemView(this), queue: new QueueView(this), things: new ThingsView(this) };
    window.addEventListener("hashchange", () => this.route(true));
    window.addEventListener("beforeunload", (event) => this.views.item.hasChanges() && event.preventDefault());
    this.route(false);
    const open = this.sender.restored();
    if (open !== null) {
      this.conclude(open.about, await this.sender.settle(open));
    }
  }

  // Shows what the address names: #items, #item/7, #queue, #things.
  route(moves) {
    const [name, word] = location.hash.slice(1).split("/");
    if (name === "main") {
      return;
    }
    const shown = Object.hasOwn(this.views, name) ? name : "items";
    // a dialog is about what was shown
    for (const dialog of document.querySelectorAll("dialog[open]")) {
      dialog.close();
    }
    for (const view of Object.keys(this.views)) {
      at(`view-${view}`).hidden = view !== shown;
    }
    for (const link of document.querySelectorAll("nav a")) {
      link.setAttribute("aria-current", link.hash === `#${shown}` ? "page" : "false");
    }
    if (moves) {
      at(`${shown}-title`).focus();
    }
    this.views[shown].show(word);
  }

  // Sends a request, says what came of it, and gives it. `about` is what is asked, in words; `item` the item that it is about, or null.
  async perform(request, about, item = null) {
    document.body.classList.add("sending");
    this.say(`${about}: on its way, not answered yet.`, "sent");
    let end;
    try {
      end = await this.sender.send(request, { words: about, item });
    } catch (error) {
      this.say(`${about}: this browser failed, and it is not known whether it was done: ${error.message}.`, "not");
      throw error;
    } finally {
      document.body.classList.remove("sending");
    }
    this.conclude({ words: about, item }, end);
    return end;
  }

  // Says what came of a request. Where that is not known, the item is shown as it stands.
  conclude(about, end) {
    this.say(endWords(about.words, end), end.is === "done" ? "done" : "not");
    if (end.is === "unknown" && about.item !== null) {
      this.open(about.item);
    }
  }

  open(item) {
    if (location.hash === `#item/${item}`) {
      this.views.item.show(String(item));
    } else {
      location.hash = `#item/${item}`;
    }
  }

  // The last of what was said, newest first.
  say(text, kind) {
    const says = at("says");
    if (says.firstChild?.className === "sent") {
      says.firstChild.remove();
    }
    says.prepend(make("p", { className: kind }, text));
    while (says.childElementCount > SAID) {
      says.lastChild.remove();
    }
  }

  showAway(answered, why) {
    at("away").hidden = answered;
    fill(at("away"), answered ? "" : `The server does not answer: ${why}. What is shown may be old.`);
  }

  showOpen(open, wait) {
    at("open").hidden = open === null;
    if (open === null) {
      return;
    }
    const why = open.said === null ? "the page was loaded anew before it was answered" : whyNot(open.said);
    const next = wait === undefined ? "It is asked for again when you say so" : `It is asked for again in ${wait / 1000} s`;
    fill(at("open-says"), `${open.about.words}: it is not known yet whether it was done; ${why}. ${next}, as it was, with its number ${open.number}: it is not done twice.`);
  }

  // A second question. Whether it is answered with yes.
  ask(title, what, yes) {
    fill(at("sure-title"), title);
    fill(at("sure-what"), what);
    fill(at("sure-yes"), yes);
    at("sure").returnValue = "";
    at("sure").showModal();
    return new Promise((tell) => {
      this.sure = tell;
    });
  }

  // All things of a kind, page by page; or what was said in their place.
  async things(of) {
    const rows = [];
    for (let path = `/things/${of}/first`; ;) {
      const said = await this.api.ask(path);
      if (said.answer?.answer !== "things") {
        return { rows: null, said };
      }
      rows.push(...said.answer.rows);
      if (said.answer.rows.length < 100) {
        return { rows, said };
      }
      path = `/things/${of}/after/${rows.at(-1)[of.slice(0, -1)]}`;
    }
  }
}

new Desk().start().catch((error) => {
  fill(at("who"), `This page does not work in this browser: ${error.message}. Nothing was sent.`);
  throw error;
});
