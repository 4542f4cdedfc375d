// The panel of graphs: header fields against the number of the trace, or one field against another; what is brushed is selected.

import { ask } from "./api.js";
import { at, fill, make, many, tabs } from "./dom.js";
import { choose as chosen } from "./offers.js";
import * as plots from "./plots.js";
import { latest, part, store, whenSpotted } from "./store.js";
import { goTo } from "./table.js";

const room = at("plot-graph");
const MODES = [["against-trace", "Against the trace"], ["against-field", "Field against field"]];
let mode = "against-trace";
let names = ["inline", "crossline"];
let span = null;
let view = null;
let bound = false;
let drawing = 0; // counts what is drawn
let heights = {}; // the least and the greatest number that are shown of a field, where it was zoomed into

export const shown = () => !at("graph").dataset.folded;

function query(some = names) {
  if (mode === "against-field") return { pair: 1, x: at("graph-x").value.trim(), y: at("graph-y").value.trim(), ...ends() };
  return { names: some.join(" "), first: span ? span[0] : 1, last: span ? span[1] : 0, wide: Math.max(room.clientWidth - 100, 60) };
}

// The part of a graph of field against field that is zoomed into.
function ends() {
  return span ? { low: `${span[0]} ${span[2]}`, high: `${span[1]} ${span[3]}` } : {};
}

async function took(got) {
  try {
    if (got instanceof Error) throw got;
    view = got;
    await draw();
    at("graph-said").textContent = "";
  } catch (error) {
    at("graph-said").textContent = error.message;
  }
}

const drawn = latest(() => ask("graph", query()).catch((error) => error), took);

export async function show() {
  if (shown()) await drawn();
}

async function draw() {
  const mine = ++drawing;
  const points = at("graph-style").value === "points";
  const drag = at("graph-drag").value;
  const picture = view.fields ? plots.series(view, points, drag, heights) : plots.cloud(view, drag);
  await plots.draw(room, picture);
  if (mine !== drawing) return; // something else is drawn since, or was chosen
  if (store.spot && view.fields) await plots.band(room, store.spot);
  if (mine !== drawing) return;
  fill(at("graph-caption"), caption());
  document.body.dataset.graphVersion = String(view.version);
  document.body.dataset.graphKind = mode;
  if (!bound) listen();
}

function caption() {
  if (view.fields) {
    const which = view.last - view.first + 1 < view.traces ? `Traces ${view.first.toLocaleString("en")} to ${view.last.toLocaleString("en")} of ${many(view.traces, "trace")}. ` : "";
    const told = view.fields.map(({ name, least, greatest }) => `${name} ${least === null ? "has no numbers" : `from ${least} to ${greatest}`}`).join(", ");
    const thin = view.fields.every((one) => one.whole) ? "" : " Many traces: a pixel shows the least and the greatest number in it.";
    return `${which}${told}.${thin} Draw a rectangle to select traces by their numbers.`;
  }
  const part = view.shown < view.traces ? `${many(view.shown, "trace")} of ${view.traces.toLocaleString("en")} in this part. ` : `${many(view.shown, "trace")}. `;
  return `${part}${view.kind === "pixels" ? "Colours: how many traces a pixel has, in powers of ten. " : ""}Numbers as they stand in the headers. Draw a rectangle to select traces.`;
}

// ---- the fields

function chips() {
  fill(at("graph-names"), ...names.map((name) => make("span", { class: "chip" }, name,
    make("button", { type: "button", "aria-label": `leave ${name} out of the graph`, on: { click: () => drop(name) } }, "×"))));
}

function drop(name) {
  if (names.length > 1) names = names.filter((one) => one !== name);
  chips();
  show();
}

async function add(event) {
  event.preventDefault();
  const some = at("graph-field").value.trim().split(/\s+/).filter((one) => one && !names.includes(one));
  if (!some.length) return;
  const typed = at("graph-field").value;
  try {
    await ask("graph", query([...names, ...some])); // the fields stay what they are until these are known
  } catch (error) {
    at("graph-said").textContent = error.message;
    return;
  }
  if (at("graph-field").value === typed) at("graph-field").value = "";
  names = [...names, ...some.filter((one) => !names.includes(one))];
  chips();
  await show();
}

function choose(key) {
  mode = key;
  drawing += 1; // what is being drawn is of the other kind
  span = null;
  heights = {};
  at("graph-add").hidden = mode !== "against-trace";
  at("graph-names").hidden = mode !== "against-trace";
  at("graph-style").parentElement.hidden = mode !== "against-trace";
  at("graph-pair").hidden = mode !== "against-field";
  show();
}

function whole() {
  span = null;
  heights = {};
  show();
}

// ---- the rectangle, and the zoom

const sorted = (both) => [...both].sort((one, other) => one - other);

async function brushed(event) {
  if (!event || !event.range || !view) return;
  const { x, ...others } = event.range;
  const [axis, values] = Object.entries(others)[0];
  await select(view.fields ? fieldPart(x, axis, values) : pairPart(x, values));
}

function fieldPart(x, axis, values) {
  const { name } = view.fields[Number(axis.slice(1) || 1) - 1];
  const [first, last] = sorted(x);
  const [low, high] = sorted(values);
  return { names: name, low: String(low), high: String(high), first: Math.max(1, Math.ceil(first)), last: Math.max(1, Math.floor(last)) };
}

function pairPart(x, y) {
  const [[left, right], [low, high]] = [sorted(x), sorted(y)];
  const [one, other] = view.names;
  return one === other ? { names: one, low: String(Math.max(left, low)), high: String(Math.min(right, high)) } : { names: `${one} ${other}`, low: `${left} ${low}`, high: `${right} ${high}` };
}

async function select(words) {
  const [field] = words.names.split(" ").slice(-1);
  try {
    await chosen({ ask: "choose", query: words, field, value: Math.ceil(Number(words.low.split(" ").slice(-1)[0])), shape: "rectangle", room: "graph" });
  } catch (error) {
    at("graph-said").textContent = error.message;
  }
}

// After a zoom what is shown is asked anew, so that more of it is seen.
function zoomed(change) {
  const keys = Object.keys(change);
  if (keys.some((key) => /autorange/.test(key))) {
    whole();
    return;
  }
  if (!keys.some((key) => /range/.test(key)) || !view) return;
  const { xaxis, yaxis } = room._fullLayout;
  if (view.fields) {
    view.fields.forEach(({ name }, index) => {
      const of = index ? `yaxis${index + 1}` : "yaxis";
      if (keys.some((key) => key.startsWith(`${of}.range`))) heights[name] = [...room._fullLayout[of].range];
    });
    if (!keys.some((key) => key.startsWith("xaxis.range"))) return;
    const [first, last] = sorted(xaxis.range);
    span = [Math.max(1, Math.ceil(first)), Math.max(1, Math.floor(last))];
  } else {
    span = [...sorted(xaxis.range), ...sorted(yaxis.range)];
  }
  show();
}

function click(event) {
  const [point] = event.points;
  if (!point) return;
  if (view.fields) goTo(Math.round(point.x));
  else if (point.customdata) goTo(point.customdata);
}

function listen() {
  bound = true;
  room.on("plotly_selected", brushed);
  room.on("plotly_relayout", zoomed);
  room.on("plotly_click", click);
}

export function start() {
  tabs(at("graph-tabs"), MODES, mode, choose);
  chips();
  at("graph-add").addEventListener("submit", add);
  at("graph-pair").addEventListener("submit", (event) => { event.preventDefault(); whole(); });
  at("graph-style").addEventListener("change", () => { if (view) draw(); });
  at("graph-drag").addEventListener("change", () => { if (view) draw(); });
  at("graph-all").addEventListener("click", whole);
  window.addEventListener("desk-layout", () => { if (store.ready) show(); });
  whenSpotted((where) => { if (shown() && view && view.fields) plots.band(room, where); });
  window.matchMedia("(prefers-color-scheme: dark)").addEventListener("change", () => { if (view && shown()) draw(); });
  part(show);
}
