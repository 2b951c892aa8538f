// Elements of the page. What the server tells becomes text, and never markup.

export const at = (id) => document.getElementById(id);

// An element with these properties; children that are no elements are text.
export function make(tag, properties = {}, ...children) {
  const element = document.createElement(tag);
  for (const [name, value] of Object.entries(properties)) {
    if (name === "label") {
      element.setAttribute("aria-label", value);
    } else if (name === "data") {
      Object.assign(element.dataset, value);
    } else {
      element[name] = value;
    }
  }
  fill(element, ...children);
  return element;
}

export function fill(element, ...children) {
  element.replaceChildren();
  for (const child of children.flat()) {
    element.append(child instanceof Node ? child : document.createTextNode(String(child)));
  }
  return element;
}

export function button(text, act, properties = {}) {
  const made = make("button", { type: "button", ...properties }, text);
  made.addEventListener("click", act);
  return made;
}

// A table with a caption, its columns' heads, and rows of cells. A narrow window shows each cell behind its head.
export function table(caption, heads, rows, none) {
  if (rows.length === 0) {
    return make("p", { className: "none" }, none);
  }
  const head = make("tr", {}, heads.map((text) => make("th", { scope: "col" }, text)));
  const body = rows.map((row) =>
    make("tr", {}, row.map((cell, place) => make("td", { data: { head: heads[place] } }, Array.isArray(cell) ? cell : [cell]))));
  return make("table", {}, make("caption", {}, caption), make("thead", {}, head), make("tbody", {}, body));
}

// Names and what stands beside them, as a description list.
export function facts(list, pairs) {
  return fill(list, pairs.map(([name, value]) => make("div", {}, make("dt", {}, name), make("dd", {}, value))));
}

// What happens in a dialog's form: `act` where it is sent. Its buttons of the class `close` close it.
export function onDialog(dialog, act) {
  dialog.querySelector("form").addEventListener("submit", (event) => {
    event.preventDefault();
    act();
  });
  for (const one of dialog.querySelectorAll(".close")) {
    one.addEventListener("click", () => dialog.close());
  }
}

// A time of the newsroom, in seconds since 1970, in UTC and on this machine's clock.
export function timeOf(seconds) {
  const time = new Date(seconds * 1000);
  if (Number.isNaN(time.getTime())) {
    return `second ${seconds}`;
  }
  const utc = time.toISOString().replace("T", " ").replace(".000Z", " UTC");
  return time.getTimezoneOffset() === 0 ? utc : `${utc} (${time.toLocaleString()} here)`;
}
