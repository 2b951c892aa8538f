// A story as fields of a form.
import { make } from "./dom.js";

const KINDS = ["text", "audio", "video", "picture", "graphic", "composite"];
const LINES = ["slugline", "headline", "byline", "language", "category", "copyright"];
const EMPTY = { kind: "text", urgency: 0, slugline: "", headline: "", byline: "", language: "", category: "", body: "", html: false, copyright: "" };

const field = (text, input) => make("label", { className: `field ${input.name}` }, `${text} `, input);

export class StoryFields {
  constructor(place) {
    this.inputs = {
      kind: make("select", { name: "kind" }, KINDS.map((kind) => make("option", {}, kind))),
      urgency: make("select", { name: "urgency" }, [..."0123456789"].map((urgency) =>
        make("option", { value: urgency }, urgency === "0" ? "not given" : urgency))),
      body: make("textarea", { name: "body", rows: 8 }),
      html: make("input", { name: "html", type: "checkbox" }),
    };
    for (const name of LINES) {
      this.inputs[name] = make("input", { name, autocomplete: "off" });
    }
    const { headline, slugline, byline, urgency, kind, language, category, copyright, body, html } = this.inputs;
    place.append(
      field("Headline", headline), field("Slugline", slugline), field("Byline", byline), field("Urgency", urgency), field("Kind", kind),
      field("Language", language), field("Category", category), field("Copyright", copyright), field("Body", body), field("The body is HTML", html),
    );
    this.write(EMPTY);
  }

  // Shows a story.
  write(story) {
    this.story = { ...EMPTY, ...story };
    for (const [name, input] of Object.entries(this.inputs)) {
      if (input.type === "checkbox") {
        input.checked = this.story[name];
      } else {
        input.value = String(this.story[name]);
      }
    }
    // a field may show its text otherwise than it is, as without line ends
    this.shown = this.values();
  }

  values() {
    return Object.fromEntries(Object.entries(this.inputs).map(([name, input]) => [name, input.type === "checkbox" ? input.checked : input.value]));
  }

  // The story as it is in the fields. What was not changed is as it was told, byte by byte.
  read() {
    const now = this.values();
    const story = {};
    for (const name of Object.keys(EMPTY)) {
      if (now[name] === this.shown[name]) {
        story[name] = this.story[name];
      } else {
        story[name] = name === "urgency" ? Number(now[name]) : now[name];
      }
    }
    return story;
  }

  isChanged() {
    const now = this.values();
    return Object.keys(EMPTY).some((name) => now[name] !== this.shown[name]);
  }

  // Whether the fields have this story.
  has(story) {
    const now = this.read();
    return Object.entries({ ...EMPTY, ...story }).every(([name, value]) => now[name] === value);
  }

  // Fields that may not be changed can be read and copied all the same.
  setReadOnly(is) {
    for (const input of Object.values(this.inputs)) {
      if (input.tagName === "SELECT" || input.type === "checkbox") {
        input.disabled = is;
      } else {
        input.readOnly = is;
      }
    }
  }
}
