// The page: what is ready, what has ended, and the parts.

import { tell, whenPhase, words } from "./api.js";
import * as command from "./command.js";
import * as csv from "./csv.js";
import { at, fill, make, many } from "./dom.js";
import * as graph from "./graph.js";
import * as layout from "./layout.js";
import * as maps from "./maps.js";
import * as offers from "./offers.js";
import * as save from "./save.js";
import * as section from "./section.js";
import * as side from "./side.js";
import { behind, done, part, refresh, store, unready } from "./store.js";
import * as table from "./table.js";

// ---- what the server tells of itself

let refusal = [];
let told = "";
let turn = 0; // of the latest that the server told of itself
let lookIsOpen = false;

// A refused file: what the program says of it, and a button for each reading that takes it. All but the buttons stays where the desk has ended since, as
// it does where there are none.
function refused(status) {
  const offer = ({ words, traces, samples, tail }) => make("button", { class: "reading", on: { click: () => read(words) } },
    `Read it ${words}`, make("span", { class: "hint" }, ` ${many(traces, "trace")} of ${many(samples, "sample")}${tail ? `, and ${many(tail, "byte")} behind the last` : ""}`));
  const said = [make("strong", {}, "The file is refused: "), make("code", {}, status.why)];
  const none = status.readings.length ? null : make("p", {}, "No reading of the desk takes it.");
  const looked = status.look && status.look.length ? make("details", { id: "look", open: lookIsOpen, on: { toggle: (event) => { lookIsOpen = event.target.open; } } }, make("summary", {}, "What its head says, and its length"),
    make("table", {}, make("tbody", {}, ...status.look.map(([name, value]) => make("tr", {}, make("th", { scope: "row" }, name), make("td", {}, value)))))) : null;
  refusal = [...said, none, looked];
  return [...said, none || make("p", {}, ...status.readings.map(offer)), looked];
}

// A file of which a repair was cut off, and the button that undoes it.
function cut(status) {
  return [make("strong", {}, "A repair of this file was cut off. "), "It is neither the old file nor the edited one. The journal beside it has the old bytes. ", make("code", {}, status.why),
    make("p", {}, make("button", { id: "recover", on: { click: recover } }, "Put the old bytes back"), make("span", { class: "hint" }, `by the journal of ${status.file}; then it is opened`),
      status.edits ? make("a", { href: "edits.txt", download: "edits.txt" }, "Download the script") : null),
    status.failed ? make("p", { id: "recover-said", class: "no-text" }, `Nothing was put back: ${status.failed}`) : null];
}

async function recover() {
  at("recover").disabled = true;
  const answer = await tell("recover", {}, "recover").catch(() => null);
  if (answer) phase(answer);
}

async function read(words) {
  for (const one of document.querySelectorAll("#banner button")) one.disabled = true;
  const answer = await tell("read", { words }, "read").catch(() => null);
  if (answer) phase(answer);
}

const texts = {
  ended: (status) => [make("strong", {}, `The program ended: ${status.why}. `), "The accepted edits are kept. ",
    make("button", { id: "restart", on: { click: restart } }, "Start a new session with them"), make("a", { href: "edits.txt", download: "edits.txt" }, "Download the script")],
  changed: (status) => [make("strong", {}, `${status.why}. `), make("a", { href: "edits.txt", download: "edits.txt" }, "Download the script")],
  refused,
  cut,
  gone: () => [...refusal, make("p", {}, make("strong", {}, "The desk has ended, or does not answer. "), "Start it again with the command segywb-desk.")],
};

// What the server tells of itself: by an event, or in an answer. One that was overtaken is no news, and what is shown already is not made anew: a button
// may be pressed just then. That the server does not answer has no turn.
function phase(status) {
  if (status.turn < turn || (status.turn === turn && status.phase !== "ready" && status.phase === document.body.dataset.phase)) return;
  turn = status.turn || turn;
  const banner = at("banner");
  if (status.phase === "ready") store.ready = true;
  else unready();
  at("loading").hidden = status.phase !== "loading";
  if (status.phase === "loading") loading(status);
  if (texts[status.phase]) {
    fill(banner, ...texts[status.phase](status));
    banner.hidden = false;
    document.body.dataset.phase = status.phase;
    return;
  }
  banner.hidden = true;
  refusal = [];
  document.body.dataset.phase = status.phase;
  if (store.ready) ready(status);
}

function loading(status) {
  const [done, of, unit] = status.of ? [status.done, status.of, "trace"] : [status.bytes || 0, status.size || 0, "byte"];
  at("loading-text").textContent = of && done ? `Reading ${status.what}: ${done.toLocaleString("en")} of ${many(of, unit)}` : `Reading ${status.what} ..`;
  if (of && done) {
    at("progress").max = of;
    at("progress").value = done;
  } else {
    at("progress").removeAttribute("value");
  }
}

function ready(status) {
  const first = at("main").hidden;
  at("main").hidden = false;
  if (first && status.grid === false) layout.first("section");
  if (first || behind() || status.version > store.version) {
    store.version = Math.max(store.version, status.version);
    refresh();
  }
}

async function restart() {
  at("restart").disabled = true;
  const answer = await tell("restart", {}, "restart").catch(() => null);
  if (answer) phase(answer);
}

// ---- the bar

async function bar() {
  await part.state();
  const { file, traces, edits, undoable, redoable, opaque, large, samples, tail, reading, declarable, recovered } = store.state;
  const cut = file.lastIndexOf("/") + 1;
  at("name").textContent = file.slice(cut);
  at("file").title = file;
  document.title = `${file.slice(cut)} – segywb desk`;
  at("summary").textContent = `${many(traces, "trace")} of ${many(samples, "sample")}, ${many(edits, "edit")}${opaque ? "; samples of this format have no values here" : ""}${large ? "; larger than half the memory, so left on disk: let no program change it meanwhile" : ""}`;
  at("reading").hidden = !reading;
  at("reading-text").textContent = `read with ${reading}`;
  at("declare").hidden = !declarable;
  at("drop").hidden = !tail;
  at("drop").textContent = `Take ${many(tail, "byte")} behind the last trace away`;
  if (recovered && recovered !== told) command.answered(command.log("recovered"), { kind: "edit", text: recovered, more: 0 });
  told = recovered;
  at("undo").disabled = !undoable;
  at("redo").disabled = !redoable;
  at("save").disabled = false;
  at("csv").disabled = false;
  document.body.dataset.version = String(store.state.version);
  maps.time();
  layout.again();
}

async function back(name) {
  const entry = command.log(name);
  at(name).disabled = true;
  try {
    const { lines } = await done(name);
    command.answered(entry, { kind: "edit", text: `${name === "undo" ? "taken back" : "done again"}: ${lines.first[0]}${lines.count > 1 ? ` .. ${many(lines.count, "line")}` : ""}`, more: 0 });
  } catch (error) {
    command.answered(entry, { kind: "refused", text: error.message, more: 0 });
  }
}

function keys(event) {
  if (!(event.ctrlKey || event.metaKey) || event.target.matches("input, textarea")) return;
  const does = { z: event.shiftKey ? "redo" : "undo", y: "redo", s: "save" }[event.key.toLowerCase()];
  if (!does) return;
  event.preventDefault();
  at(does).click();
}

async function start() {
  whenPhase(phase);
  store.words = await words();
  maps.start();
  part(bar);
  table.start();
  offers.start();
  side.start();
  section.start();
  graph.start();
  csv.start();
  layout.start();
  command.start();
  at("undo").addEventListener("click", () => back("undo"));
  at("redo").addEventListener("click", () => back("redo"));
  at("save").addEventListener("click", save.open);
  at("declare").addEventListener("click", () => command.runLine("declare"));
  at("drop").addEventListener("click", () => command.runLine("drop tail"));
  at("compare").addEventListener("change", () => { store.compare = at("compare").checked; refresh(); });
  document.addEventListener("keydown", keys);
  const events = new EventSource("events");
  events.addEventListener("message", (event) => phase(JSON.parse(event.data)));
  events.addEventListener("error", () => phase({ phase: "gone" }));
}

start();
