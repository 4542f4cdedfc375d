// The panel of maps: which one is shown, what stands under the pointer, and the rectangle that is drawn.

import { ask } from "./api.js";
import { at, fill, make, many, tabs } from "./dom.js";
import * as plots from "./plots.js";
import { latest, part, store, whenSpotted } from "./store.js";
import { goTo } from "./table.js";
import { choose as chosen } from "./offers.js";

const now = at("plot-now");
const was = at("plot-was");
const tip = at("tip");
let kind = "fold";
let view = null;
let place = null;
let bound = false;
let drawing = 0; // counts what is drawn: behind each step of it something else may have been chosen

const KINDS = [["fold", "Fold map"], ["field", "Field map"], ["positions", "Positions"], ["slice", "Slice"], ["histogram", "Histogram"]];
const isMap = () => kind === "fold" || kind === "slice" || (kind === "field" && Boolean(view) && view.kind === "number");
const beside = () => store.compare && kind !== "field";

function query() {
  at("was-figure").hidden = !beside();
  at("now-caption").hidden = !beside();
  const room = { wide: Math.max(now.clientWidth - 150, 60), tall: now.clientHeight - 80, all: at("whole").checked ? 1 : 0 };
  if (kind === "field") return { ...room, colour: at("map-colour").value.trim(), how: at("map-how").value, place: at("map-place").value };
  return { ...room, compare: store.compare ? 1 : 0, sample: at("sample-number").value || 0 };
}

async function took(got) {
  try {
    if (got instanceof Error) throw got;
    view = got;
    at("box").hidden = !isMap();
    await drawAll(got);
    at("map-said").textContent = "";
  } catch (error) {
    at("map-said").textContent = error.message;
  } finally {
    now.classList.remove("busy");
  }
}

export const show = latest(() => {
  now.classList.add("busy");
  return ask(kind, query()).catch((error) => error);
}, took);

async function drawAll(got) {
  const mine = ++drawing;
  if (got.refused || got.kind === "none") {
    await plots.draw(now, { data: [], layout: { paper_bgcolor: "rgba(0,0,0,0)", plot_bgcolor: "rgba(0,0,0,0)", xaxis: { visible: false }, yaxis: { visible: false } } });
    if (mine !== drawing) return;
    fill(at("caption"), got.refused ? `The program answers: ${got.refused}` : `No grid can be fitted: ${got.why}.`);
    if (got.refused) return;
    document.body.dataset.mapVersion = String(got.version);
    document.body.dataset.mapKind = kind;
    return;
  }
  await plots.draw(now, picture(got, got.now), beside());
  if (mine !== drawing) return;
  if (beside() && got.was) await plots.draw(was, picture(got, got.was), true);
  if (mine !== drawing) return;
  fill(at("caption"), caption(got));
  if (store.spot) await spotted();
  if (mine !== drawing) return;
  document.body.dataset.mapVersion = String(got.version);
  document.body.dataset.mapKind = kind;
  if (!bound) listen();
}

// The slots of the lines from one to another, or the one behind the last line before them where they have none of their own.
function slotsOf({ first, last }, low, high) {
  const some = first.map((_, slot) => slot).filter((slot) => first[slot] !== null && (high === null || first[slot] <= high) && (low === null || last[slot] >= low));
  const before = first.findLastIndex((one, slot) => one !== null && last[slot] < low);
  return some.length ? [some[0] - 0.5, some[some.length - 1] + 0.5] : [before + 0.5, before + 1.5];
}

// What a problem leads to, on the map that is shown.
function spotted() {
  if (!view || view.refused || view.kind === "none" || kind === "histogram" || !now._fullLayout) return undefined;
  const { boxes, x, y } = store.spot;
  if (!isMap()) return plots.spot(now, [], x.map((one, index) => [one, y[index]]));
  return plots.spot(now, boxes.map(([i0, i1, x0, x1]) => [...slotsOf(view.right, x0, x1), ...slotsOf(view.down, i0, i1)]), []);
}

function picture(got, drawn) {
  if (kind === "field") return plots.fieldMap(got, at("map-scale").value, store.state ? store.state.unit : "unit not told");
  if (isMap()) return plots.map(kind, drawn, got, marking() ? plots.boxes(got) : [], at("map-scale").value);
  if (kind === "positions") return plots.places(drawn, got, store.state ? store.state.unit : "unit not told", marking(), at("map-scale").value);
  const every = [...got.now, ...(got.was || [])];
  return plots.bars(drawn, { fold: Math.max(1, ...every.map(([fold]) => fold)), cells: Math.max(1, ...every.map(([, count]) => count)) });
}

const marking = () => at("marks").checked;

// What the marks show, in words: also where they are switched off.
function changed(got, one, does) {
  if (!got.changed) return [];
  const how = !marking() ? "" : got.region ? ", within the outline" : does;
  return [`${many(got.changed, one)} changed ${store.compare ? "since the file was loaded" : "by the last step"}${how}.`];
}

// The lines of both axes that no trace has, between the first and the last.
function missing(both) {
  const some = both.map(({ count, first }, axis) => [count, `${many(count, axis ? "crossline" : "inline")} (${first.join(", ")}${count > first.length ? " .." : ""})`]);
  const told = some.filter(([count]) => count).map(([, text]) => text);
  return told.length ? `Missing: ${told.join(" and ")}.` : "No line is missing.";
}

// What a pixel shows that stands for several cells.
function bundled([tall, wide]) {
  if (tall * wide === 1) return [];
  const shows = kind === "fold" ? "is grey where one of them lacks between others, else shows the fold farthest from the usual" : "shows the sample farthest from zero";
  return [`A pixel stands for up to ${tall} by ${wide} cells and ${shows}.`];
}

function positions(got) {
  const said = [];
  const out = [[got.zero, "at (0, 0)"], [got.far, "far from the rest"]].filter(([count]) => count).map(([count, where]) => `${many(count, "trace")} ${where}`);
  if (out.length) said.push(`Not drawn, of ${many(got.traces, "trace")}: ${out.join(", ")}.`);
  if (got.now.kind === "pixels") said.push("Many traces: a pixel shows the first one in it.");
  if (got.changed) said.push(`${many(got.changed, "trace")} moved by the last step${!marking() ? "" : got.region ? ", within the outline" : ", ringed"}.`);
  said.push("x and y are under the scalar of each trace, and have one scale.");
  return said;
}

const short = (number) => Number(number.toPrecision(7)).toLocaleString("en", { maximumFractionDigits: 9 });

// The grid that was fitted, and how far the farthest trace lies from it.
function fitted(got) {
  if (!got.grid) return `No grid can be fitted: ${got.why}.`;
  const { spacing, angle, used, most, trace } = got.grid;
  return `Fitted grid: inlines ${short(spacing[0])} apart, crosslines ${short(spacing[1])}, ${Number(angle.toFixed(2))} degrees between them, from ${used.toLocaleString("en")} of ${many(got.traces, "trace")}; the farthest is trace ${trace}, by ${short(most)}.`;
}

function fieldSaid(got) {
  const whose = got.colour === "fold" ? "Colours: fold" : `Colours: ${got.how} ${got.colour === "misfit" ? "distance of a trace from the fitted grid" : got.colour} of a cell`;
  const said = [`${whose}, ${short(got.least)} to ${short(got.most)} in ${many(got.cells, "cell")}.`];
  if (got.kind === "number" && got.bundle[0] * got.bundle[1] > 1) said.push(`A pixel stands for up to ${got.bundle[0]} by ${got.bundle[1]} cells and shows their ${got.how}.`);
  if (got.kind === "pixels") said.push(`Many cells: a pixel shows the ${got.how} of those in it.`);
  if (got.left) said.push(`Not drawn: ${many(got.left, "trace")} at (0, 0) or far from the rest.`);
  if (got.beyond) said.push(`${many(got.beyond, "value")} beyond the colours.`);
  return [...said, fitted(got)].join(" ");
}

function caption(got) {
  if (kind === "field") return fieldSaid(got);
  if (kind === "histogram") return "How many cells have each fold.";
  if (kind === "positions") return positions(got).join(" ");
  const said = [];
  if (store.compare) said.push(kind === "fold" ? "Colours: fold." : "Colours: samples.");
  if (kind === "fold") said.push(`Usual fold ${got.usual}; grey: no traces.`, missing(got.missing));
  if (kind === "slice") said.push(`${many(got.rows, "trace")} with this sample; grey: none${got.odd ? `, or one of ${many(got.odd, "sample")} that are no finite numbers` : ""}.`);
  said.push(...changed(got, "cell", ", outlined"), ...bundled(got.bundle));
  if (got.beyond) said.push(`${many(got.beyond, "value")} beyond the colours, up to ${Number(got.most.toPrecision(7))}.`);
  if (got.down.gaps || got.right.gaps) said.push("An empty line without a number: many numbers lack there.");
  return said.join(" ");
}

function choose(key) {
  kind = key;
  drawing += 1; // what is being drawn is of another kind
  at("slice-tools").hidden = kind !== "slice";
  at("field-tools").hidden = kind !== "field";
  at("scale-tools").hidden = kind === "slice" || kind === "histogram";
  at("whole-tools").hidden = kind === "fold" || kind === "histogram";
  at("whole-text").textContent = { slice: "all colours", field: "all colours, all traces" }[kind] || "axes to the farthest trace";
  at("whole").checked = false;
  view = null;
  at("box").hidden = !isMap();
  at("map-said").textContent = "";
  place = null;
  fill(at("told"));
  show();
}

// ---- cells under the pointer, and by the keyboard

const label = (axis, slot) => {
  const [first, last] = [axis.first[slot], axis.last[slot]];
  return first === null || first === undefined ? null : first === last ? `${first}` : `${first} to ${last}`;
};

function boxOf(row, column) {
  const ends = [view.down.first[row], view.down.last[row], view.right.first[column], view.right.last[column]];
  return ends.includes(null) ? null : { i0: ends[0], i1: ends[1], x0: ends[2], x1: ends[3] };
}

const named = (value) => (value === null ? "no traces" : `${view.colour === "fold" ? "" : `${view.how} `}${view.colour} ${Number(value.toPrecision(9))}`);

let asking = 0;

async function tell(row, column, side, put) {
  const inline = label(view.down, row);
  const crossline = label(view.right, column);
  if (inline === null || crossline === null) return put("no lines here");
  const value = side === was ? view.was[row][column] : view.now[row][column];
  const text = `inline ${inline}, crossline ${crossline}: ${kind === "field" ? named(value) : kind === "fold" ? `fold ${value === null ? 0 : value}` : value === null ? "no sample" : `sample ${Number.isInteger(value) ? value : Number(value.toPrecision(9))}`}`;
  put(text);
  if (side === was) return undefined;
  const mine = ++asking;
  const got = await ask("cell", boxOf(row, column)).catch(() => null);
  if (!got || mine !== asking) return undefined;
  const rest = got.count > got.traces.length ? " .." : "";
  return put(`${text}, ${got.count === 1 ? "trace" : `${got.count} traces`} ${got.traces.join(", ")}${rest}`);
}

let waiting = null;

function hover(side) {
  return (event) => {
    if (!isMap()) return;
    const point = event.points.find((one) => one.data.type === "heatmap");
    if (!point) return;
    const [row, column] = point.pointIndex || point.pointNumber;
    place = [row, column];
    const { clientX, clientY } = event.event;
    clearTimeout(waiting);
    waiting = setTimeout(() => tell(row, column, side, (text) => {
      tip.textContent = text;
      at("told").textContent = text;
      tip.hidden = false;
      tip.style.left = `${Math.min(clientX + 14, window.innerWidth - tip.offsetWidth - 8)}px`;
      tip.style.top = `${clientY + 16}px`;
    }), 40);
  };
}

function unhover() {
  clearTimeout(waiting);
  asking += 1;
  tip.hidden = true;
}

async function click(event) {
  if (kind === "positions" || (kind === "field" && !isMap())) {
    const point = event.points[0];
    if (point && point.customdata) goTo(point.customdata);
    return;
  }
  if (isMap() && place) await choosePlace();
}

async function choosePlace() {
  const box = boxOf(...place);
  if (!box) return;
  const got = await ask("cell", box);
  if (got.traces.length) goTo(got.traces[0]);
}

function key(event) {
  const step = { ArrowUp: [1, 0], ArrowDown: [-1, 0], ArrowLeft: [0, -1], ArrowRight: [0, 1] }[event.key];
  if (!isMap() || !view || view.refused) return;
  if (step) {
    event.preventDefault();
    const [row, column] = place || [0, -1];
    place = [Math.min(Math.max(row + step[0], 0), view.down.first.length - 1), Math.min(Math.max(column + step[1], 0), view.right.first.length - 1)];
    plots.cursor(now, ...place);
    tell(...place, now, (text) => { at("told").textContent = text; });
  } else if (event.key === "Enter" && place) {
    event.preventDefault();
    choosePlace();
  } else if (event.key === " " && place) {
    event.preventDefault();
    const box = boxOf(...place);
    if (box) select(box);
  }
}

// ---- the rectangle

const edge = (axis, from, to) => {
  const some = [];
  for (let slot = Math.max(0, Math.round(from)); slot <= Math.min(axis.first.length - 1, Math.round(to)); slot += 1) {
    if (axis.first[slot] !== null) some.push(axis.first[slot], axis.last[slot]);
  }
  return some.length ? [Math.min(...some), Math.max(...some)] : null;
};

function drawn(event) {
  if (!event || !event.range || !isMap()) return;
  const sorted = (ends) => [...ends].sort((one, other) => one - other);
  const inlines = edge(view.down, ...sorted(event.range.y));
  const crosslines = edge(view.right, ...sorted(event.range.x));
  if (inlines && crosslines) select({ i0: inlines[0], i1: inlines[1], x0: crosslines[0], x1: crosslines[1] });
}

function select(box) {
  for (const [name, value] of Object.entries(box)) at("box").elements[name].value = value;
  return chosen({ ask: "select", query: box, field: "inline", value: box.i0, shape: "rectangle", room: "maps" });
}

function listen() {
  bound = true;
  for (const side of [now, was]) {
    side.tabIndex = 0;
    side.setAttribute("role", "application");
    side.setAttribute("aria-label", side === now ? "Map of the survey. The arrow keys go from cell to cell, Enter shows the traces, the space bar selects." : "Map of the survey as it was loaded");
  }
  const attach = (side) => {
    if (!side.on || side.dataset.bound) return;
    side.dataset.bound = "yes";
    side.on("plotly_hover", hover(side));
    side.on("plotly_unhover", unhover);
    side.on("plotly_click", click);
    side.on("plotly_selected", drawn);
  };
  attach(now);
  now.addEventListener("keydown", key);
  const watch = new MutationObserver(() => {
    if (!was._fullLayout || was.dataset.bound) return;
    attach(was);
    plots.together(now, was);
  });
  watch.observe(was, { childList: true });
}

let resizing = null;

export function start() {
  window.addEventListener("resize", () => {
    clearTimeout(resizing);
    resizing = setTimeout(() => { if (view) show(); }, 150);
  });
  tabs(at("map-tabs"), KINDS, kind, choose);
  at("box").hidden = false;
  at("box").addEventListener("submit", (event) => {
    event.preventDefault();
    const box = Object.fromEntries(["i0", "i1", "x0", "x1"].map((name) => [name, at("box").elements[name].value]));
    select(box).catch((error) => { at("told").textContent = error.message; });
  });
  whenSpotted(spotted);
  at("whole").addEventListener("change", show);
  for (const id of ["map-colour", "map-how", "map-place"]) at(id).addEventListener("change", show);
  at("map-scale").addEventListener("change", () => { if (view) drawAll(view); });
  at("marks").addEventListener("change", () => { if (view) drawAll(view); });
  const sample = (value) => {
    at("sample").value = value;
    at("sample-number").value = value;
    time();
    show();
  };
  at("sample").addEventListener("change", () => sample(at("sample").value));
  at("sample").addEventListener("input", () => { at("sample-number").value = at("sample").value; time(); });
  at("sample-number").addEventListener("change", () => sample(at("sample-number").value));
  window.matchMedia("(prefers-color-scheme: dark)").addEventListener("change", () => { if (view) drawAll(view); });
  part(show);
  part(async () => {
    const names = ["fold", "misfit", ...Object.keys(store.bound), ...(store.words ? store.words.names.map((one) => one.name) : [])];
    fill(at("map-colours"), ...[...new Set(names)].map((value) => make("option", { value })));
  });
}

export function time() {
  if (!store.state) return;
  at("sample").max = Math.max(store.state.samples - 1, 0);
  at("sample-time").textContent = `at ${(at("sample-number").value * store.state.interval).toLocaleString("en")} ms`;
}
