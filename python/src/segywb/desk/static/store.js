// What the page knows, and the order in which it is brought up to date: the map first.

import { ask, tell } from "./api.js";

export const store = { state: null, version: 0, compare: false, words: null, bound: {}, ready: false, spot: null };

const parts = [];
let running = false;
let again = false; // something is to be brought up to date

export const part = (does) => parts.push(does);

const marked = [];

export const whenSpotted = (does) => marked.push(does);

// What a problem leads to: traces, and where they lie. It is marked on the map, in the section, on the graph and in the table, until the next edit.
export function spot(where) {
  store.spot = where;
  for (const does of marked) does(where);
}

// Whether something was wanted, or was not answered, while the server was not ready.
export const behind = () => again;

// The server is not ready: what it is asked from now on, and what it was asked before, may not be answered, and is asked again once it is.
export function unready() {
  store.ready = false;
  again = true;
}

export async function refresh() {
  again = true;
  if (store.spot && store.spot.version !== store.version) store.spot = null;
  delete document.body.dataset.whole;
  if (running) return;
  running = true;
  try {
    while (again && store.ready) {
      again = false;
      for (const does of parts) {
        if (again) break;
        await does().catch((error) => console.warn(error.message));
      }
      if (!again) document.body.dataset.whole = String(store.version);
    }
  } finally {
    running = false;
  }
}

// A version that another tab, or this one, has made.
export function seen(version) {
  if (version > store.version) {
    store.version = version;
    refresh();
  }
}

part.state = async () => {
  store.state = await ask("state");
  store.bound = store.state.fields;
};

// What asks, and what takes the answer. Answers come in any order, and more may be asked before one is taken: the last one asked counts alone, and
// whoever asked before it waits for that one.
export function latest(asks, takes) {
  let last = null;
  return () => {
    const mine = asks().then((got) => (mine === last ? takes(got) : last), (error) => {
      if (mine === last) throw error;
      return last;
    });
    last = mine;
    return mine;
  };
}

export async function done(name, body) {
  const answer = await tell(name, body);
  if (answer.version) seen(answer.version);
  return answer;
}
