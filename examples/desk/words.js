// What the newsroom answers, in words.
import { timeOf } from "./dom.js";

const STATES = {
  draft: "a draft", ingested: "ingested from a wire", routed: "routed from a wire", fetched: "fetched from a wire", submitted: "submitted",
  in_progress: "in progress", spiked: "spiked", scheduled: "scheduled", published: "published", corrected: "corrected", killed: "killed",
  recalled: "recalled",
};
export const stateWords = (state) => STATES[state] ?? state;

const DENIALS = {
  OutOfTurn: (a) => `the number of the request is not your next one, which is ${a.expected}`,
  NumberUsed: (a) => `your number ${a.kept} was used by another request`,
  UnknownUser: () => "the newsroom does not know you: nobody has added you as a user",
  NoPrivilege: (a) => `you lack the privilege “${a.privilege}”`,
  UnknownThing: (a) => `there is no such ${a.thing}`,
  NameTaken: () => "the name is taken already",
  NotMember: (a) => `you are no member of the desk ${a.desk}`,
  WrongState: (a) => `the item is ${stateWords(a.state)}, which does not allow it`,
  NotLocked: () => "nobody holds the item: lock it first",
  LockedBy: (a) => `${a.user} holds the item, in the session ${a.session}`,
  NotReleased: (a) => `it is released at ${timeOf(a.release)}, and nobody has it before: deschedule it instead`,
  AlreadyReleased: (a) => `it was released at ${timeOf(a.release)}: a correction, a kill or a recall reaches those who have it`,
  BothTimes: () => "it has a schedule and an embargo, and may have one of them",
  PastMoment: (a) => `the time is past: for the newsroom it is ${timeOf(a.moment)}`,
  ReceiptAhead: (a) => `the receipt is past the feed, which has ${a.length} entries`,
  NotPaused: () => "the feed is not paused",
  FilterOrder: () => "a filter names itself, or one that was added later",
  BadOperand: () => "its values, statements, days or zone mean nothing",
  Limit: (a) => `there are ${a.limit} already, as many as there may be: ${a.which}`,
};

// What was wrong with what was sent.
function badWords(answer) {
  if (answer.property === "line") {
    return "what was sent is no request";
  }
  const name = answer.name === undefined ? "" : ` (${answer.name})`;
  return `“${answer.property}” is missing, too long or of the wrong form${name}`;
}

const STATUSES = {
  400: "what was sent was not understood; nothing was kept",
  401: "the gateway asks for your name and password: load the page again",
  403: "you may not do that, or the gateway did not let it through; nothing was kept",
  404: "that is not there",
  413: "it is too long; nothing was kept",
  501: "the newsroom does not take it in this form; nothing was kept",
  503: "the newsroom's log could not be written",
  507: "the newsroom had no memory for it",
  508: "the newsroom's log is full; nothing was kept",
};

// Why something was not done or not answered.
export function whyNot(said) {
  if (said.lost) {
    return `the server does not answer: ${said.why}`;
  }
  const { answer, other } = said;
  if (other !== undefined) {
    return `at the gateway this browser is ${other.now} now, and this page is for ${other.before}: load it again`;
  }
  if (answer?.answer === "denied") {
    return DENIALS[answer.denial]?.(answer) ?? `denied, ${answer.denial}`;
  }
  if (answer?.answer === "bad") {
    return badWords(answer);
  }
  return STATUSES[said.status] ?? `the answer was ${said.status}`;
}

// What was done, as the newsroom's answer tells it.
export function doneWords(answer) {
  const parts = [answer.answer === "repeat" ? "had been done before" : "done"];
  if (answer.entry !== undefined) {
    parts.push(`entry ${answer.entry}`);
  }
  if (answer.item !== undefined) {
    parts.push(`item ${answer.item}`);
  }
  if (answer.publication !== undefined) {
    parts.push(`publication ${answer.publication}, released at ${timeOf(answer.release)}`);
  }
  return parts.join(", ");
}

// What came of a request; `about` is what was asked.
export function endWords(about, end) {
  switch (end.is) {
    case "done": return `${about}: ${doneWords(end.answer)}.`;
    case "not": return `${about}: not done; ${whyNot(end.said)}.`;
    case "taken": return `${about}: not done; its number went to another request of yours.`;
    case "unknown": return `${about}: not known whether it was done. It is not sent again.`;
    default: return `${about}: not sent. This window waits for the answer to another request.`;
  }
}

const KINDS = { first: "first", correct: "correction", kill: "kill", recall: "recall" };
export const kindWords = (kind) => KINDS[kind] ?? kind;

// Whether a publication reaches a subscriber, and why or why not.
export function reasonWords(row) {
  switch (row.reason) {
    case "permitted": return `its product ${row.product} permits it`;
    case "inactive": return "it is not active";
    case "not_target": return "it is none of the targets";
    case "blocked": return `the filter ${row.filter} blocks it`;
    case "refused": return refusedWords(row.products ?? []);
    default: return row.reason;
  }
}

function refusedWords(products) {
  if (products.length === 0) {
    return "it has no product";
  }
  return `no product permits it: ${products.map(productWords).join("; ")}`;
}

function productWords(row) {
  if (row.filter === null || row.filter === undefined) {
    return row.product;
  }
  return `${row.product}, whose filter ${row.filter} ${row.matches ? "matches" : "does not match"}`;
}

// Where a publication stands at one to whom it is due.
export function courseWords(row) {
  switch (row.course) {
    case "sent": return `entry ${row.k} of its feed, ${row.acked ? "acknowledged" : "not acknowledged yet"}`;
    case "waits": return `waits until ${timeOf(row.release)}`;
    case "taken_back": return "was taken back before its release";
    default: return row.course;
  }
}

const FEEDS = {
  paused: "paused after ten attempts", retrying: "retrying", pending: "something is not acknowledged", waiting: "waits for a release",
  success: "all is acknowledged",
};
export const feedWords = (state) => FEEDS[state] ?? state;
