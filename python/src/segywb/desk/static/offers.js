// What can be done to the traces that were selected, with the lines shown before they are run.

import { at, fill, make, many } from "./dom.js";
import { ask } from "./api.js";
import { part, store } from "./store.js";
import { runScript } from "./command.js";
import { goTo } from "./table.js";

const MOST_SHOWN = 200;
let runs = [];
let count = 0;
let version = 0;
let source = null;
let turn = 0; // counts what was selected
let preview = () => {};

// The bytes of a field by its name or its place: the first one, and the one behind the last. Nothing where the page does not know it.
function bytesOf(field) {
  const known = store.words && store.words.names.find((one) => one.name === field);
  const [, extension, first, size] = /^@(?:(\d+)\.)?(\d+):(\d+)u?$/.exec(store.bound[field] || (known ? known.place : field)) || [];
  return first ? [240 * Number(extension || 0) + Number(first), 240 * Number(extension || 0) + Number(first) + Number(size)] : null;
}

// Whether two fields may share bytes, as far as the page knows: of these the second number would be written over the first.
function overlap(one, other) {
  const [left, right] = [bytesOf(one), bytesOf(other)];
  return !left || !right || (left[0] < right[1] && right[0] < left[1]);
}

// The lines of a repair of these runs of traces.
export function linesOf(what, field, value, step, formula) {
  const made = [];
  let at = BigInt(0);
  for (const [first, last] of runs) {
    const size = BigInt(last - first + 1);
    const set = first === last ? `set ${first}` : `set ${first} ${last}`;
    if (what === "renumber") made.push(`renumber ${first} ${last} ${field} ${value + step * at} ${step}`);
    if (what === "compute") made.push(`compute ${first} ${last} ${field} ${formula}`);
    if (what === "swap") made.push(`swap ${first} ${last} ${field} ${formula}`);
    if (what === "set") made.push(`${set} ${field} ${value}`);
    at += size;
  }
  if (what === "delete") for (const [first, last] of [...runs].reverse()) for (let trace = last; trace >= first; trace -= 1) made.push(`delete ${trace}`);
  return made;
}

// What the traces of a selection have in common, as the program finds them: the traces among which they are chosen, and the condition.
export function conditionOf({ ask: asked, query }) {
  const some = query.names ? query.names.split(" ") : [];
  const [lows, highs] = [query.low, query.high].map((one) => (one === undefined ? [] : one.split(" ").map(Number)));
  const ends = asked === "select" ? [["inline", query.i0, query.i1], ["crossline", query.x0, query.x1]].map(([name, ...both]) => [name, ...both.map(Number).sort((one, other) => one - other)])
    : some.map((name, at) => [name, Math.ceil(lows[at]), Math.floor(highs[at])]);
  const text = ends.map(([name, low, high]) => (low === high ? `${name} = ${BigInt(low)}` : `${name} >= ${BigInt(low)} and ${name} <= ${BigInt(high)}`)).join(" and ");
  const most = store.state ? store.state.traces : query.last;
  return [query.first ? `${Math.min(query.first, most)} ${Math.min(query.last, most)}` : "all", text];
}

// The same repair as one line: all traces that meet the condition.
function foundLines(what, field, value, step, formula) {
  const [among, text] = conditionOf(source);
  const words = { set: `set ${among} ${field} ${value}`, renumber: `renumber ${among} ${field} ${value} ${step}`, compute: `compute ${among} ${field} ${formula}`, swap: `swap ${among} ${field} ${formula}`, delete: `delete ${among}` }[what];
  return [`${words} where ${text}`];
}

const names = () => (store.words ? store.words.names.map((one) => one.name) : []);

// Asks which traces were selected, and offers what can be done to them. What is asked is told by `from`: the question and its words, the field and the
// number that are suggested, what holds the traces, and the panel where they were selected. What was selected last counts, as it is in the last version.
export async function choose(from) {
  const mine = ++turn;
  let got = null;
  do got = await ask(from.ask, from.query); while (mine === turn && got.version < store.version);
  if (mine === turn) offer(from, got);
}

function offer(from, got) {
  runs = got.runs;
  count = got.count;
  version = got.version;
  source = from;
  preview = () => {};
  const room = at("offers");
  at(from.room).append(room);
  room.hidden = false;
  if (!count) {
    fill(room, `No traces in this ${from.shape}.`, close());
    return;
  }
  const found = make("input", { type: "checkbox", id: "offer-found", checked: !got.all, disabled: !got.all });
  const what = make("select", { "aria-label": "what to do", id: "offer-what" }, ...["renumber", "set", "compute", "swap", "delete"].map((one) => make("option", {}, one)));
  const field = make("input", { "aria-label": "field", id: "offer-field", list: "offer-fields", size: "14", spellcheck: "false", value: from.field });
  const value = make("input", { "aria-label": "first number", id: "offer-value", size: "9", value: String(from.value) });
  const step = make("input", { "aria-label": "step", id: "offer-step", size: "5", value: "0" });
  const formula = make("input", { "aria-label": "formula", id: "offer-formula", size: "22", spellcheck: "false", value: `${from.field} + 0` });
  const other = make("input", { "aria-label": "the other field", id: "offer-other", list: "offer-fields", size: "14", spellcheck: "false", value: from.field === "inline" ? "crossline" : "inline" });
  const shown = make("pre", { "aria-label": "the lines that will be run", tabIndex: 0 });
  const run = make("button", { class: "strong", id: "offer-run" }, "Run");
  const fields = make("datalist", { id: "offer-fields" }, ...[...new Set([...Object.keys(store.bound), ...names()])].map((name) => make("option", { value: name })));
  const parts = make("span", {}, field, make("label", {}, " from ", value), make("label", {}, " step ", step), make("label", {}, " = ", formula), make("label", {}, " with ", other));
  const form = make("form", { class: "bar", on: { submit: (event) => { event.preventDefault(); apply(); } } },
    make("strong", { id: "offer-count" }, many(count, "trace")), what, parts, fields, make("label", { title: "One line for all traces that meet the condition, in place of one for each run of them" }, found, " apply to all found (where ..)"), run,
    make("button", { type: "button", on: { click: () => goTo(runs[0][0]) } }, "Show in the table"), close());
  const made = () => {
    const linesFor = found.checked ? foundLines : linesOf;
    const both = [field, other].map((one) => one.value.trim());
    if (what.value === "swap") return !overlap(...both) ? linesFor("swap", both[0], 0, 0, both[1]) : null;
    if (what.value === "compute") return formula.value.trim() && !/[\r\n]/.test(formula.value) ? linesFor("compute", field.value.trim(), 0, 0, formula.value.trim()) : null;
    try {
      return linesFor(what.value, field.value.trim(), BigInt(value.value.trim() || "0"), BigInt(step.value.trim() || "0"));
    } catch {
      return null;
    }
  };
  preview = () => {
    parts.hidden = what.value === "delete";
    value.parentElement.hidden = what.value === "compute" || what.value === "swap";
    other.parentElement.hidden = what.value !== "swap";
    step.parentElement.hidden = what.value !== "renumber";
    formula.parentElement.hidden = what.value !== "compute";
    const lines = made();
    run.disabled = !lines;
    run.textContent = lines ? `Run ${many(lines.length, "line")}` : "Run";
    fill(at("offer-count"), many(count, "trace"));
    const lacks = { compute: "A formula is wanted, as inline + 100.", swap: "Two fields are wanted, by their names or places, that share no bytes." }[what.value] || "The numbers must be whole.";
    fill(shown, lines ? lines.slice(0, MOST_SHOWN).join("\n") + (lines.length > MOST_SHOWN ? `\n.. and ${(lines.length - MOST_SHOWN).toLocaleString("en")} more` : "") : lacks);
  };
  const apply = async () => {
    const lines = made();
    if (!lines) return;
    if (version !== store.version) {
      fill(shown, `The survey has changed since this ${from.shape} was selected: select it again.`);
      return;
    }
    run.disabled = true;
    const title = lines.length === 1 ? lines[0] : `${lines[0]}  .. ${many(lines.length, "line")}`;
    const answer = await runScript(`${lines.join("\n")}\n`, title);
    if (answer.kind === "refused") {
      run.disabled = false;
      fill(shown, make("span", { class: "no-text", role: "alert" }, answer.text));
    } else {
      room.hidden = true;
    }
  };
  for (const one of [what, field, value, step, formula, other, found]) one.addEventListener("input", preview);
  fill(room, form, shown);
  preview();
}

// After a step the same part may hold other traces.
export function start() {
  part(async () => {
    if (at("offers").hidden || version === store.version) return;
    const mine = turn;
    const got = await ask(source.ask, source.query);
    if (mine !== turn) return; // something else was selected meanwhile
    if (!got.count || !got.all || !at("offer-run")) offer(source, got);
    else {
      ({ runs, count, version } = got);
      preview();
    }
  });
}

function close() {
  return make("button", { type: "button", on: { click: () => { at("offers").hidden = true; } } }, "Close");
}
