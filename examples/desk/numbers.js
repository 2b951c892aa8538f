// Requests with their numbers. Each user numbers requests from 1, and the newsroom does each number once: so one whose answer was lost may be
// asked for again as it was. All windows of a user in this browser take their numbers under one lock.

// how long to wait before an unanswered request is asked for again, each time; behind the last it is asked for by hand
const WAITS = [1000, 2000, 4000, 8000, 15_000, 30_000, 30_000, 30_000];
// how often the newsroom may say that a number is another one before this gives up
const GUESSES = 5;
// of these, and of those below 500, it is known that nothing was kept; of the other ones it is not, and the same request may be sent again
const REFUSED = [501, 508];
const OPEN = "newsdesk.open";

const read = (place, key) => {
  try {
    return JSON.parse(place.getItem(key));
  } catch {
    return null;
  }
};

// What an answer tells of the user's next number, or null where it tells nothing.
export function nextNumber(number, answer) {
  if (answer === null) {
    return null;
  }
  if (answer.answer === "done" || answer.answer === "repeat") {
    return number + 1;
  }
  if (answer.answer !== "denied") {
    return null;
  }
  if (answer.denial === "OutOfTurn") {
    return answer.expected;
  }
  // the turn is judged first: a request that is denied for another reason had the right number, which is free
  return answer.denial === "NumberUsed" ? answer.kept + 1 : number;
}

// Whether it is said that the request was not of this number's turn.
const isTurn = (answer) => answer?.answer === "denied" && (answer.denial === "OutOfTurn" || answer.denial === "NumberUsed");
const isDone = (said) => !said.lost && said.status === 200 && ["done", "repeat"].includes(said.answer?.answer);
const isRefused = (said) => !said.lost && ["denied", "bad"].includes(said.answer?.answer);
// Whether nothing was kept of a request that was sent once.
const isNotKept = (said) => isRefused(said) || (!said.lost && (REFUSED.includes(said.status) || (said.status >= 400 && said.status < 500)));

// One that sends a window's requests, one at a time. `onOpen` is told of the request that has no answer, or null where there is none.
export class Sender {
  constructor(api, onOpen) {
    this.api = api;
    this.onOpen = onOpen;
    this.open = null;
    this.busy = false;
    this.wake = null;
    this.left = false;
  }

  // What had no answer in this window when it was loaded anew, or null. It is not asked for again before the user says so.
  restored() {
    const open = read(sessionStorage, OPEN);
    if (open === null || open.user !== this.api.user) {
      this.keep(null);
      return null;
    }
    return { ...open, said: null };
  }

  // Sends a request. What comes of it is one of
  //   {is: "done", answer}         the newsroom says that it is done, or was done before
  //   {is: "not", said}            it was not done, for the reason that was said
  //   {is: "taken", said}          it was not done: its number went to another request
  //   {is: "unknown", said}        it is not known whether it was done, and it is not sent again
  //   {is: "blocked"}              it was not sent: this window has a request that is not answered yet, or sends one
  async send(request, about) {
    if (this.open !== null || this.busy) {
      return { is: "blocked" };
    }
    this.busy = true;
    try {
      const first = await this.underLock(() => this.sendFirst(request, about));
      return first.open === undefined ? first : await this.settle(first.open);
    } finally {
      this.busy = false;
    }
  }

  // With the number that is next as far as is known, or as the newsroom then says.
  async sendFirst(request, about) {
    let said;
    for (let guess = 0; guess < GUESSES; guess++) {
      const number = this.known();
      const open = { user: this.api.user, number, about, body: JSON.stringify({ number, ...request }) };
      // kept before it is sent, and so behind a window that is closed or loaded anew meanwhile
      this.keep(open);
      said = await this.api.post("/requests", open.body);
      if (!isDone(said) && !isNotKept(said)) {
        return { open: { ...open, said } };
      }
      this.learn(number, said.answer);
      this.keep(null);
      if (isDone(said)) {
        return { is: "done", answer: said.answer };
      }
      if (!isTurn(said.answer)) {
        return { is: "not", said };
      }
    }
    return { is: "not", said };
  }

  // Asks for an unanswered request again, as it was, until it is known what became of it or the user leaves it. The lock is free between.
  async settle(open) {
    this.open = open;
    this.left = false;
    for (let turn = 0; ; turn++) {
      // by itself where no answer came, and by hand where the newsroom could not keep it, or the page was loaded anew
      const wait = this.open.said?.lost ? WAITS[turn] : undefined;
      this.onOpen(this.open, wait);
      const leave = this.left || await this.pause(wait);
      const end = leave ? { is: "unknown", said: null } : await this.underLock(() => this.sendAgain());
      if (end !== null) {
        this.open = null;
        this.keep(null);
        this.onOpen(null);
        return end;
      }
    }
  }

  // What became of it, or null where that is still not known.
  async sendAgain() {
    const { number, body } = this.open;
    const said = await this.api.post("/requests", body);
    if (isDone(said)) {
      this.learn(number, said.answer);
      return { is: "done", answer: said.answer };
    }
    if (!isRefused(said)) {
      this.open = { ...this.open, said };
      return null;
    }
    this.learn(number, said.answer);
    if (said.answer.denial === "OutOfTurn") {
      return { is: "unknown", said };
    }
    return { is: said.answer.denial === "NumberUsed" ? "taken" : "not", said };
  }

  // Waits until the time is over or the user asks; tells whether the user leaves it.
  pause(time) {
    return new Promise((end) => {
      const timer = time === undefined ? null : setTimeout(() => end(false), time);
      this.wake = (leave) => {
        clearTimeout(timer);
        end(leave);
      };
    });
  }

  askNow() {
    this.wake?.(false);
  }

  leave() {
    // also where it is just being asked for, and then is not answered
    this.left = true;
    this.wake?.(true);
  }

  underLock(act) {
    return navigator.locks.request(`newsdesk.number.${this.api.user}`, act);
  }

  known() {
    const number = read(localStorage, `newsdesk.number.${this.api.user}`);
    return Number.isSafeInteger(number) && number > 0 ? number : 1;
  }

  learn(number, answer) {
    const next = nextNumber(number, answer);
    if (Number.isSafeInteger(next)) {
      try {
        localStorage.setItem(`newsdesk.number.${this.api.user}`, String(next));
      } catch {
        // there is no room for it: the newsroom says the number again
      }
    }
  }

  keep(open) {
    if (open === null) {
      sessionStorage.removeItem(OPEN);
    } else {
      sessionStorage.setItem(OPEN, JSON.stringify(open));
    }
  }
}

// The session in which this window holds items: a name of its own, also where the browser has copied another window's storage to it.
export async function sessionOfWindow() {
  let session = sessionStorage.getItem("newsdesk.session");
  // a window that is loaded anew may have to wait until the page that it was has let its name go
  for (let turn = 0; turn < 5 && session !== null; turn++) {
    if (await held(session)) {
      return session;
    }
    await new Promise((end) => setTimeout(end, 100));
  }
  sessionStorage.clear();
  session = `w-${crypto.randomUUID().replaceAll("-", "").slice(0, 20)}`;
  sessionStorage.setItem("newsdesk.session", session);
  await held(session);
  return session;
}

// Takes the window's name for as long as the page is there. Whether it was free.
function held(session) {
  return new Promise((tell) => {
    navigator.locks.request(`newsdesk.window.${session}`, { ifAvailable: true }, (lock) => {
      tell(lock !== null);
      return lock === null ? undefined : new Promise(() => {});
    });
  });
}
