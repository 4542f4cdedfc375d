// The panel of sections: which traces, how they are drawn, zoom and pan, and what stands under the pointer.

import { ask, picture } from "./api.js";
import * as canvas from "./canvas.js";
import { runLine } from "./command.js";
import { at, fill, many } from "./dom.js";
import * as mute from "./mute.js";
import { part, store, whenSpotted } from "./store.js";
import { columns, goTo } from "./table.js";

const room = at("plot-section");
const paper = at("section-canvas");
const SETTLE = 60; // milliseconds behind the last movement, until a sharper picture is asked for
const TITLES = { was: "As it was loaded", now: "Now", difference: "Now less as it was loaded" };
const PAPERS = { wiggles: null, both: "#ffffff", density: null };
let auto = true;
let sought = 0; // a trace whose section is wanted
let told = null; // what the server tells of the section
let view = null; // the part that is looked at: traces and samples, in fractions
let near = null; // the sharpest picture
let far = null; // the picture of the whole section, which lies below
let places = [];
let busy = false;
let again = false;
let timer = null;
let frame = null;

export const shown = () => !at("section").dataset.folded;

// ---- what is asked

function which() {
  const trace = sought ? { trace: sought } : {};
  if (auto) return { field: "auto", ...trace };
  const of = at("section-of").value;
  if (of === "traces") return { first: at("section-first").value || 1, last: at("section-last").value || 0, ...trace };
  return { field: of === "field" ? at("section-field").value.trim() : of, value: at("section-value").value.trim(), ...trace };
}

// To a trace that a problem has: the section that has it is shown, and all of it where the trace is not in the part that is looked at.
function spotted({ first }) {
  sought = first;
  show();
}

const marked = () => (store.spot && store.spot.first ? { marked: `${store.spot.first} ${store.spot.last}` } : {});

const side = () => (at("section-side").value === "now" && store.compare ? "both" : at("section-side").value);

function look() {
  const names = at("section-headers").value.trim();
  return { style: at("section-style").value, side: side(), percentile: at("section-percentile").value || 98, balance: at("section-balance").value, window: at("section-window").value || 500,
    reverse: at("section-reverse").checked ? 1 : 0, headers: names };
}

function window_() {
  const size = { wide: Math.max(16, Math.round(paper.clientWidth - 78)), tall: Math.max(16, Math.round(paper.clientHeight - 34)) };
  if (!view) return size;
  const clamp = (value, most) => Math.min(Math.max(value, 0), most);
  const left = clamp(Math.floor(view.left), told.traces - 1);
  const top = clamp(Math.floor(view.top), told.samples - 1);
  return { ...size, left, right: Math.max(clamp(Math.ceil(view.right), told.traces), left + 1), top, bottom: Math.max(clamp(Math.ceil(view.bottom), told.samples), top + 1) };
}

// Asks for what is looked at. While an answer is awaited nothing else is asked; then the last of what was wanted.
export async function show() {
  if (!shown() || !store.ready) return undefined;
  if (busy) {
    again = true;
    return undefined;
  }
  busy = true;
  try {
    do {
      again = false;
      const asked = which();
      const got = await picture("section", { ...asked, ...look(), ...marked(), ...window_() });
      // An answer to what is asked no more would write its line over the one that was chosen since.
      const still = JSON.stringify(asked) === JSON.stringify(which());
      if (!again || (still && !near)) took(got, asked.trace);
      room.classList.remove("busy");
    } while (again || told.read < 1);
    at("section-said").textContent = "";
  } catch (error) {
    at("section-said").textContent = error.message;
  } finally {
    busy = false;
    room.classList.remove("busy");
  }
  return again ? show() : undefined;
}

// A section that begins anew: other traces, or another number of them.
function fresh() {
  view = near = far = null;
  room.classList.add("busy");
  return show();
}

function took([head, bytes], trace) {
  const same = told && ["field", "value", "first", "last", "traces", "samples"].every((name) => told[name] === head[name]);
  if (!same) view = near = far = null;
  told = head;
  if (auto || trace) takeOver();
  if (!view) view = { left: 0, right: Math.max(told.traces, 1), top: 0, bottom: Math.max(told.samples, 1) };
  near = painted(head, bytes);
  if (near.whole) far = near;
  else if (far && (far.version !== near.version || far.look !== near.look)) far = null;
  steps();
  shots();
  fill(at("section-caption"), caption());
  if (head.read === 1) document.body.dataset.sectionVersion = String(head.version);
  paper.shown = { told: head, bytes, view };
  paint();
  if (trace) reach(trace, head.sides.flatMap((one) => one.marks));
}

// What was sought is there: it must lie in the part that is looked at.
function reach(trace, marks) {
  if (sought === trace) sought = 0;
  if (marks.length && !marks.some(([from, to]) => from >= view.left && to <= view.right)) whole();
}

// What the server chose is shown in the fields.
function takeOver() {
  auto = false;
  const { field, value, first, last } = told;
  at("section-of").value = !field ? "traces" : ["inline", "crossline"].includes(field) ? field : "field";
  at("section-field").value = ["", "inline", "crossline"].includes(field) ? "field_record" : field;
  if (field) at("section-value").value = value;
  else {
    at("section-first").value = first;
    at("section-last").value = last;
  }
  kinds();
}

// The bytes as pictures, a list for each side.
function painted(head, bytes) {
  const table = canvas.palette(at("section-scale").value, getComputedStyle(document.documentElement).getPropertyValue("--empty").trim());
  const ink = at("section-style").value === "both" ? "rgba(0, 0, 0, .8)" : getComputedStyle(document.documentElement).getPropertyValue("--text").trim();
  const style = at("section-style").value;
  let from = 0;
  const [left, right, top, bottom] = head.window;
  const pictures = head.sides.map(({ rows, columns: count, wiggles, stride, part: [x0, x1, y0, y1] }) => {
    const made = [];
    if (style !== "wiggles") {
      made.push(canvas.image(bytes.subarray(from, from + rows * count), count, rows, table));
      from += rows * count;
    }
    if (style !== "density") {
      const { wide, tall } = canvas.plots(paper.clientWidth, paper.clientHeight, head.sides.length, head.sides[0].headers.length)[0];
      made.push(canvas.curves(bytes.subarray(from, from + wiggles * rows), wiggles, rows, stride, x1 - x0, wide * (x1 - x0) / (right - left || 1), tall * (y1 - y0) / (bottom - top || 1), ink));
      from += wiggles * rows;
    }
    return made;
  });
  return { parts: head.sides.map((one) => one.part), pictures, version: head.version, look: JSON.stringify([look(), at("section-scale").value]), whole: left === 0 && top === 0 && right === head.traces && bottom === head.samples, head };
}

// ---- drawing

function paint() {
  if (frame) return;
  frame = requestAnimationFrame(() => {
    frame = null;
    if (!near || !view) return;
    const { head } = near;
    const layers = [far, near].filter((one, index, all) => one && (index === 1 || one !== all[1]));
    const axes = { empty: !head.samples, start: head.start, step: head.step || 1, unit: head.step ? "time (ms)" : "sample", along: head.along, headers: head.sides[0].headers.length, paper: PAPERS[at("section-style").value],
      sides: head.sides.map((one) => ({ title: head.sides.length > 1 ? TITLES[one.name] : "", label: one.label, part: one.part, headers: one.headers, marks: one.marks })) };
    places = canvas.draw(paper, view, layers, axes);
    document.body.dataset.sectionFrames = String(Number(document.body.dataset.sectionFrames || 0) + 1);
  });
}

function caption() {
  const { field, value, whole, every, samples, step, start, traces, sides } = told;
  if (store.state && !store.state.traces) return "The file has no traces.";
  const [first] = sides;
  const of = field ? `Where ${field} is ${value}` : `Traces ${told.first.toLocaleString("en")} to ${told.last.toLocaleString("en")}`;
  const said = [`${of}: ${many(whole, "trace")} of ${many(samples, "sample")}${step ? `, ${start.toLocaleString("en")} to ${(start + Math.max(samples - 1, 0) * step).toLocaleString("en")} ms` : ""}.`];
  if (every > 1) said.push(`One trace of ${every} is shown.`);
  if (!traces) said.push("No trace has this number.");
  if (told.read < 1) said.push(`Reading: ${Math.floor(told.read * 100)} %; what is not read yet shows the sample before it.`);
  const gain = { none: "", trace: ", each trace over its root mean square", agc: `, over the root mean square of ${at("section-window").value || 500} ms around each sample` }[at("section-balance").value];
  said.push(`A display alone${gain}: ${first.name === "difference" ? "the difference" : "colours"} to ±${Number(first.end.toPrecision(4)).toLocaleString("en")}${at("section-reverse").checked ? ", polarity reversed" : ""}.`);
  const [left, right, top, bottom] = first.part;
  if (first.columns && (right - left > first.columns || bottom - top > first.rows)) said.push("A pixel shows the sample farthest from zero.");
  if (first.stride > 1 && at("section-style").value !== "density") said.push(`Wiggles of one trace of ${first.stride}: zoom in for all.`);
  return `${said.join(" ")} The wheel zooms (with Shift the traces alone, with Alt the time), a drag ${at("section-drag").value === "selects" ? "selects samples" : "moves"}, a click goes to the row.`;
}

// ---- zoom and pan

function within(low, high, most) {
  const size = Math.min(Math.max(high - low, Math.min(most, 2)), most || 1);
  const from = Math.min(Math.max(low, 0), Math.max(most - size, 0));
  return [from, from + size];
}

function moved(left, right, top, bottom) {
  [left, right] = within(left, right, told.traces);
  [top, bottom] = within(top, bottom, told.samples);
  view = { left, right, top, bottom };
  paint();
  clearTimeout(timer);
  timer = setTimeout(show, SETTLE);
}

// Around a place of the plot, which stays where it is; `across` and `down` tell along which axes.
function zoom(factor, x, y, across = true, down = true) {
  const { left, right, top, bottom } = view;
  const [fx, fy] = [across ? factor : 1, down ? factor : 1];
  moved(x - (x - left) * fx, x + (right - x) * fx, y - (y - top) * fy, y + (bottom - y) * fy);
}

function whole() {
  if (told) moved(0, told.traces, 0, told.samples);
}

// The side, trace and sample under the pointer, in fractions.
function under(event) {
  const box = paper.getBoundingClientRect();
  const [x, y] = [event.clientX - box.left, event.clientY - box.top];
  const index = places.findIndex((one) => x >= one.x && x <= one.x + one.wide && y >= one.y && y <= one.y + one.tall);
  if (index < 0 || !view) return null;
  const plot = places[index];
  return { index, plot, x, y, trace: view.left + (x - plot.x) / plot.wide * (view.right - view.left), sample: view.top + (y - plot.y) / plot.tall * (view.bottom - view.top) };
}

function wheel(event) {
  const place = under(event);
  if (!place) return;
  event.preventDefault();
  const by = event.deltaY || event.deltaX;
  zoom(Math.exp(Math.min(Math.max(by, -300), 300) * 0.0016), place.trace, place.sample, !event.altKey, !event.shiftKey);
}

function drag(event) {
  const place = under(event);
  if (!place || event.button) return;
  paper.setPointerCapture(event.pointerId);
  if (at("section-drag").value === "selects") {
    select(place);
    return;
  }
  const from = { ...view };
  const [x, y] = [event.clientX, event.clientY];
  let far_ = false;
  const move = (to) => {
    far_ = far_ || Math.hypot(to.clientX - x, to.clientY - y) > 4;
    if (!far_) return;
    const [dx, dy] = [(to.clientX - x) / place.plot.wide * (from.right - from.left), (to.clientY - y) / place.plot.tall * (from.bottom - from.top)];
    moved(from.left - dx, from.right - dx, from.top - dy, from.bottom - dy);
  };
  const end = () => {
    paper.removeEventListener("pointermove", move);
    if (!far_) click(place);
  };
  paper.addEventListener("pointermove", move);
  paper.addEventListener("pointerup", end, { once: true });
}

// A rectangle of what is now: the samples in it are offered to be muted. A click is a click.
function select(place) {
  const { plot, index } = place;
  const inside = (event) => {
    const box = paper.getBoundingClientRect();
    const [x, y] = [event.clientX - box.left - plot.x, event.clientY - box.top - plot.y];
    return [Math.min(Math.max(x, 0), plot.wide), Math.min(Math.max(y, 0), plot.tall)];
  };
  const from = [place.x - plot.x, place.y - plot.y];
  let ends = null;
  const move = (event) => {
    const to = inside(event);
    if (!ends && Math.hypot(to[0] - from[0], to[1] - from[1]) <= 4) return;
    ends = [0, 1].map((axis) => [Math.min(from[axis], to[axis]), Math.max(from[axis], to[axis])]);
    const [[left, right], [top, bottom]] = ends;
    at("section-box").hidden = false;
    for (const [name, pixels] of Object.entries({ left: plot.x + left, top: plot.y + top, width: right - left, height: bottom - top })) at("section-box").style[name] = `${pixels}px`;
  };
  const end = () => {
    paper.removeEventListener("pointermove", move);
    at("section-box").hidden = true;
    if (ends) boxed(near.head.sides[index].name, plot, ends);
    else click(place);
  };
  paper.addEventListener("pointermove", move);
  paper.addEventListener("pointerup", end, { once: true });
}

// Each trace and each sample that the rectangle touches.
function boxed(name, { wide, tall }, [across, down]) {
  if (name === "was") {
    at("section-said").textContent = "This is the file as it was loaded: draw on what is now.";
    return;
  }
  at("section-said").textContent = "";
  const [left, right] = across.map((x) => view.left + x / wide * (view.right - view.left));
  const [top, bottom] = down.map((y) => view.top + y / tall * (view.bottom - view.top));
  const least = (low, most) => Math.min(Math.max(Math.floor(low), 0), most - 1);
  const ends = { left: least(left, told.traces), top: least(top, told.samples) };
  const { field, value, first, last } = told;
  mute.offer({ ...(field ? { field, value } : { first, last }), ...ends, right: Math.max(Math.ceil(right), ends.left + 1), bottom: Math.max(Math.ceil(bottom), ends.top + 1) });
}

// ---- under the pointer

// The trace of the picture that lies there; of what was there is no position now.
function traceAt({ index, trace }) {
  const one = near && near.head.sides[index];
  if (!one || !one.columns) return null;
  const [left, right] = one.part;
  const column = Math.floor((trace - left) / (right - left) * one.columns);
  return one.trace[column] === undefined ? null : { trace: one.trace[column], label: one.label[column], name: one.name };
}

// A trace of the side "as it was loaded" leads to where it stands now.
async function click(place) {
  const found = traceAt(place);
  if (!found) return;
  const { trace } = found.name === "was" ? await ask("stands", { trace: found.trace }) : found;
  if (trace) goTo(trace);
  else at("section-under").textContent = `Trace ${found.trace} as it was loaded: it is no longer there.`;
}

let asking = 0;
let waiting = null;

function hover(event) {
  const place = under(event);
  cross(place);
  clearTimeout(waiting);
  const found = place && traceAt(place);
  const mine = ++asking;
  if (!found) {
    at("section-under").textContent = "";
    return;
  }
  const sample = Math.floor(place.sample);
  const time = told.step ? `, ${(told.start + sample * told.step).toLocaleString("en")} ms` : "";
  if (found.name === "was") {
    at("section-under").textContent = `As it was loaded: trace ${found.trace}${time}`;
    return;
  }
  waiting = setTimeout(async () => {
    const got = await ask("under", { trace: found.trace, column: sample, names: columns().join(" ") }).catch(() => null);
    if (!got || mine !== asking) return;
    const headers = got.names.map((name, index) => `${name} ${got.values[index]}`).join(", ");
    at("section-under").textContent = `trace ${got.trace}${time}${got.value === null ? "" : `, sample ${got.sample}: ${got.value}`}; ${headers}`;
  }, 30);
}

function cross(place) {
  for (const [id, shape] of [["section-x", place && { left: place.x, top: place.plot.y, width: 1, height: place.plot.tall }], ["section-y", place && { left: place.plot.x, top: place.y, width: place.plot.wide, height: 1 }]]) {
    at(id).hidden = !place;
    if (place) for (const [name, pixels] of Object.entries(shape)) at(id).style[name] = `${pixels}px`;
  }
}

function key(event) {
  const step = { ArrowLeft: [-1, 0], ArrowRight: [1, 0], ArrowUp: [0, -1], ArrowDown: [0, 1] }[event.key];
  const by = { "+": 0.8, "-": 1.25, 0: 0 }[event.key];
  if (!view || (!step && by === undefined)) return;
  event.preventDefault();
  const [wide, tall] = [view.right - view.left, view.bottom - view.top];
  if (step) moved(view.left + step[0] * wide / 10, view.right + step[0] * wide / 10, view.top + step[1] * tall / 10, view.bottom + step[1] * tall / 10);
  else if (by) zoom(by, view.left + wide / 2, view.top + tall / 2);
  else whole();
}

// ---- the fields

function kinds() {
  const of = at("section-of").value;
  at("section-line").hidden = of === "traces";
  at("section-traces").hidden = of !== "traces";
  at("section-field").hidden = of !== "field";
  at("section-window").parentElement.hidden = at("section-balance").value !== "agc";
}

function steps() {
  at("section-back").disabled = told.back === null;
  at("section-on").disabled = told.on === null;
  if (told.field && document.activeElement !== at("section-value")) at("section-value").value = told.value;
}

// A file of shots (S1): its records and their traces become its lines, by a command that is shown.
function shots() {
  const found = told.shots;
  at("section-shots").hidden = !found;
  if (!found) return;
  const records = found.count === 1 ? `one field record, ${found.first}` : `${many(found.count, "field record")}, ${found.first} to ${found.last}`;
  at("section-shots").firstChild.textContent = `All traces have inline ${found.inline} and crossline ${found.crossline} (S1), as those of shots: ${records}. map shot makes inlines of the records and crosslines of their traces.`;
}

function line(value) {
  if (value === null) return;
  at("section-value").value = value;
  fresh();
}

export function start() {
  at("section-of").addEventListener("change", () => { auto = false; kinds(); at("section-value").value = ""; fresh(); });
  for (const id of ["section-value", "section-field", "section-first", "section-last"]) at(id).addEventListener("change", () => { auto = false; if (id === "section-field") at("section-value").value = ""; fresh(); });
  at("section-back").addEventListener("click", () => line(told && told.back));
  at("section-on").addEventListener("click", () => line(told && told.on));
  for (const id of ["section-style", "section-side", "section-percentile", "section-balance", "section-window", "section-reverse", "section-headers"]) at(id).addEventListener("change", () => { kinds(); show(); });
  at("section-scale").addEventListener("change", show);
  at("section-drag").addEventListener("change", () => { if (told) fill(at("section-caption"), caption()); });
  at("section-all").addEventListener("click", whole);
  at("section-map").addEventListener("click", () => runLine("map shot"));
  mute.start();
  whenSpotted(spotted);
  paper.addEventListener("wheel", wheel, { passive: false });
  paper.addEventListener("pointerdown", drag);
  paper.addEventListener("pointermove", hover);
  paper.addEventListener("pointerleave", () => { asking += 1; clearTimeout(waiting); cross(null); });
  paper.addEventListener("dblclick", whole);
  paper.addEventListener("keydown", key);
  window.addEventListener("desk-layout", () => { if (store.ready) show(); });
  window.addEventListener("resize", () => { clearTimeout(timer); timer = setTimeout(show, 150); });
  window.matchMedia("(prefers-color-scheme: dark)").addEventListener("change", show);
  kinds();
  part(show);
}
