// The panel beside the map: problems, numbers, texts, edits.

import { ask } from "./api.js";
import { at, fill, make, many, tabs } from "./dom.js";
import { begin, runScript } from "./command.js";
import { part, spot, store } from "./store.js";
import { goTo } from "./table.js";

const PANELS = [["problems", "Problems"], ["numbers", "Numbers"], ["text", "Text"], ["edits", "Edits"]];
let chosen = "problems";
let found = { version: 0, now: null, before: null };
let looked = -1;
let open = null;
let block = 0;
let turn = 0; // counts what is shown,
let leading = 0; // what leads somewhere,
let paging = 0; // and the windows of faults
let texts = { version: 0, lines: null, before: null };

const shows = { problems, numbers, text, edits };

// Each of them asks, and shows what was answered where nothing else was to be shown meanwhile.
async function show() {
  const mine = ++turn;
  await shows[chosen](() => mine === turn);
}

// ---- problems

async function problems(last) {
  const { version, costly, traces } = store.state || await ask("state");
  if (costly && looked !== version) return last() && offerLook(version, traces);
  const got = await ask("problems").catch((error) => error);
  if (!last()) return undefined;
  if (got.refused) return notTold(got.message); // the file could not be read again, or is another now
  if (got instanceof Error) throw got;
  const now = Object.fromEntries(got.problems.map((one) => [one.code, one]));
  if (got.version !== found.version) found = { version: got.version, now, before: found.now };
  const codes = Object.keys(store.words.problems).filter((code) => now[code] || (found.before || {})[code]);
  const count = got.problems.length;
  at("tab-problems").textContent = `Problems ${count}`;
  fill(at("panel"), make("p", { id: "problems-said" }, count ? `${many(count, "problem")}. Not every one is an error.` : traces ? "No problems found. The survey can still be wrong." : "No problems found: the file has no traces."),
    codes.length ? make("table", {}, make("tbody", {}, ...codes.map((code) => problemRow(code, now[code])))) : null, make("p", { id: "spot-said", "aria-live": "polite" }), make("div", { id: "problem-window" }));
  if (open && now[open]) await problemWindow(now[open]);
  return undefined;
}

function notTold(why) {
  at("tab-problems").textContent = "Problems";
  fill(at("panel"), make("p", { id: "problems-said" }, `Not told: ${why}`));
}

// Where there are so many traces that a look at each of them takes long, it is taken when it is asked for.
function offerLook(version, traces) {
  at("tab-problems").textContent = "Problems";
  fill(at("panel"), make("p", { id: "problems-said" }, `To find what is wrong or doubtful, each of ${many(traces, "trace")} is looked at.`),
    make("button", { type: "button", id: "look", on: { click: () => { looked = version; show().catch((error) => fill(at("panel"), error.message)); } } }, "Look for problems"));
}

const told = (one) => (one ? one.count : 0);
const leads = (run) => (run.trace || run.gap ? make("button", { class: "link", type: "button", on: { click: () => lead(run).catch((error) => say(error.message)) } }, run.text) : run.text);
const puts = (line) => make("button", { class: "link line", type: "button", "aria-label": `put into the command line: ${line}`, on: { click: () => begin(line) } }, line);

// What is marked, in words, and what takes the marks away.
const nothing = () => ({ version: store.version, first: 0, last: 0, boxes: [], x: [], y: [] });
function say(...parts) {
  const room = at("spot-said");
  if (room) fill(room, ...parts);
}
const unmark = () => make("button", { class: "link", type: "button", id: "spot-none", on: { click: () => { leading += 1; spot(nothing()); say(); } } }, "Take the marks away");

// To the traces of a run, or to the lines that are missing: all that is open shows them, and the page stays where it is. Where it leads elsewhere
// meanwhile, or the traces are others by now, nothing is marked.
async function lead(run) {
  const mine = ++leading;
  if (run.gap) {
    const [name, low, high] = run.gap;
    spot({ ...nothing(), boxes: [name === "inline" ? [low, high, null, null] : [null, null, low, high]] });
    say(`Marked on the map: ${run.text}. `, unmark());
    return;
  }
  const last = run.last || run.trace;
  const where = await ask("spot", { first: run.trace, last });
  if (mine !== leading || where.version < store.version) return;
  spot(where);
  await goTo(run.trace, true);
  if (mine !== leading) return;
  say(`Marked on the map, in the section, on the graph and in the table, where these are open: ${last > run.trace ? `traces ${run.trace} to ${last}` : `trace ${run.trace}`}. `,
    make("button", { class: "link", type: "button", id: "spot-row", on: { click: () => goTo(run.trace) } }, "To its row"), ". ", unmark());
}

// A group: how many have it, what it means, where it begins, and a line for the command line.
function problemRow(code, one) {
  const before = found.before ? told(found.before[code]) : told(one);
  const { meaning, do: mend } = store.words.problems[code];
  const count = told(one);
  const name = one ? make("button", { class: "link", type: "button", "aria-label": `show where ${code} is`, on: { click: () => { open = code; problemWindow(one); } } }, code) : code;
  return make("tr", { class: before !== count ? "mark" : "" }, make("td", {}, name),
    make("td", { class: "count" }, count.toLocaleString("en"), before !== count ? make("span", { class: "was" }, `was ${before.toLocaleString("en")}`) : null),
    make("td", {}, meaning, ...(one ? where(one) : []), mend ? make("span", { class: "was" }, `To mend: ${mend}`) : null,
      one && one.line ? make("button", { class: "link line", type: "button", "aria-label": `put a line for ${code} into the command line`, on: { click: () => begin(one.line) } }, one.line) : null));
}

function where(one) {
  const more = one.runs > 1 ? ` and ${(one.runs - 1).toLocaleString("en")} more` : "";
  return [one.facts ? make("span", { class: "was" }, one.facts) : null, one.first.length ? make("span", { class: "was" }, leads(one.first[0]), more) : null];
}

// The first runs of a group, and below them each fault of its code.
async function problemWindow(one) {
  const more = one.runs - one.first.length;
  const said = one.runs ? `${one.code}: ${many(one.runs, "run")}` : `${one.code}: ${one.facts || one.meaning}`;
  fill(at("problem-window"), make("p", {}, said), make("ul", { class: "lines" }, ...one.first.map((run) => make("li", {}, leads(run), ...run.lines.map(puts)))),
    more > 0 ? make("p", {}, `.. and ${more.toLocaleString("en")} more runs`) : null, make("div", { id: "fault-window" }));
  if (one.single) await faultWindow(one, 0);
}

async function faultWindow(one, skip) {
  const room = at("fault-window");
  if (!room) return;
  const mine = ++paging;
  const got = await ask("fault", { code: one.code, skip });
  if (mine !== paging) return;
  const items = got.faults.map((fault) => make("li", {}, fault.trace ? leads(fault) : fault.text,
    fault.first ? make("span", {}, "  ", leads({ trace: fault.first, text: `to trace ${fault.first}` })) : null));
  const step = (by, text) => make("button", { type: "button", disabled: skip + by < 0 || skip + by >= one.count, on: { click: () => faultWindow(one, skip + by) } }, text);
  fill(room, make("p", {}, `Each of them: ${skip + 1} to ${skip + got.faults.length} of ${one.count.toLocaleString("en")} `, one.count > 100 ? step(-100, "◀") : null, one.count > 100 ? step(100, "▶") : null),
    make("ul", { class: "lines" }, ...items));
}

// ---- numbers

async function numbers(last) {
  const { numbers: now, before, loaded } = store.state || await ask("state");
  if (!last()) return;
  const of = (list) => Object.fromEntries(list || []);
  const earlier = of(before);
  const first = of(loaded);
  const rows = now.map(([name, value]) => make("tr", { class: before && earlier[name] !== value ? "mark" : "" }, make("th", { scope: "row" }, name),
    make("td", {}, value, first[name] !== value ? make("span", { class: "was" }, `as loaded ${first[name]}`) : null)));
  fill(at("panel"), make("p", {}, `x and y are under the scalar, in ${store.state ? store.state.unit : "the unit of the file"}.`), make("table", {}, make("tbody", {}, ...rows)));
}

// ---- texts

async function text(last) {
  const got = await ask("text", { block, compare: store.compare && block === 0 ? 1 : 0 });
  if (!last()) return;
  if (texts.version !== got.version || texts.block !== block) texts = { version: got.version, block, lines: got.lines, before: texts.block === block ? texts.lines : null };
  const choice = make("select", { "aria-label": "block of text", on: { change: (event) => { block = Number(event.target.value); show(); } } },
    ...Array.from({ length: got.blocks + 1 }, (_, one) => make("option", { value: String(one), selected: one === block }, one ? `extended textual header ${one}` : "textual header")));
  const lines = got.lines.map((line, index) => {
    const changed = (texts.before && texts.before[index] !== line) || (got.was && got.was[index] !== line);
    return make("li", { class: changed ? "mark" : "" }, line || " ", got.was && got.was[index] !== line ? make("span", { class: "was" }, got.was[index]) : null);
  });
  fill(at("panel"), make("p", {}, choice, ` in ${got.code.toUpperCase()}; the command text L TEXT writes line L.`),
    got.stanzas.length ? make("p", {}, `Stanzas: ${got.stanzas.map(([where, name]) => `${name} (${where})`).join(", ")}`) : null, make("ol", { class: "lines" }, ...lines));
}

// ---- edits

async function edits(last) {
  const got = await ask("edits");
  if (!last()) return;
  const item = (step, undone) => make("li", { class: undone ? "was" : "" }, step.count === 1 ? step.first : `${step.first}\n.. ${step.last}  (${many(step.count, "line")}, one step)`);
  fill(at("panel"),
    make("p", {}, got.lines ? `${many(got.lines, "accepted edit")}: with them as a script, ${got.words} gives the same file.` : "No edits yet. Here they will stand, as a script."),
    make("div", { class: "bar" }, make("button", { type: "button", id: "copy", disabled: !got.lines, on: { click: copy } }, "Copy"),
      make("a", { href: "edits.txt", download: "edits.txt", id: "download" }, "Download"),
      make("label", {}, "Load a script ", make("input", { type: "file", id: "load", on: { change: load } }))),
    got.before ? make("p", {}, `.. ${many(got.before, "step")} before these`) : null,
    make("ol", { class: "lines", id: "steps" }, ...got.steps.map((step) => item(step, false))),
    got.undone.length ? make("p", {}, "Taken back, and can be done again:") : null,
    make("ol", { class: "lines" }, ...got.undone.map((step) => item(step, true))));
}

async function copy() {
  const script = await (await fetch("edits.txt")).text();
  try {
    await navigator.clipboard.writeText(script);
    at("copy").textContent = "Copied";
  } catch {
    at("copy").textContent = "The browser does not allow it";
  }
}

async function load(event) {
  const [file] = event.target.files;
  if (file) await runScript(await file.text(), `script ${file.name}`);
  event.target.value = "";
}

export function start() {
  tabs(at("side-tabs"), PANELS, chosen, (key) => { chosen = key; at("panel").setAttribute("aria-labelledby", `tab-${key}`); show().catch((error) => fill(at("panel"), error.message)); });
  part(show);
}
