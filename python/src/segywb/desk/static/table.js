// The header table: a window of traces, columns by their names, edits by a double click.

import { ask } from "./api.js";
import { at, fill, make, many } from "./dom.js";
import { latest, part, store, whenSpotted } from "./store.js";
import { begin, runLine, whenFound } from "./command.js";

let names = ["inline", "crossline", "offset", "x", "y", "scalar"];
let first = 1;
let here = 0;
let got = null;
let last = { version: 0, values: new Map() };
let marked = new Set();
let wanted = null;

// The fields that are shown.
export const columns = () => names;

const query = (some) => ({ first, size: at("size").value, names: some.join(" "), compare: store.compare ? 1 : 0 });

export const show = latest(() => ask("table", query(names)), (found) => {
  if (found.error) return;
  got = found;
  first = found.first;
  if (document.activeElement !== at("first")) at("first").value = found.first;
  at("first").max = found.traces;
  mark(found);
  drawTable();
});

// What differs from what was shown of the same trace before the last step.
function mark(found) {
  const values = new Map();
  found.rows.forEach((row, at) => row.forEach((value, column) => {
    if (found.origin[at] > 0) values.set(`${found.origin[at]} ${found.names[column]}`, value);
  }));
  if (found.version !== last.version) {
    marked = new Set([...values].filter(([key, value]) => last.values.has(key) && last.values.get(key) !== value).map(([key]) => key));
    last = { version: found.version, values };
  } else {
    for (const [key, value] of values) last.values.set(key, value);
  }
}

// The columns are those of the answer: others may have been asked for since.
function drawTable() {
  const head = make("tr", {}, make("th", { scope: "col" }, "trace"), ...got.names.map((name) => make("th", { scope: "col", title: told(name) },
    make("button", { class: "link", type: "button", "aria-label": `find in ${name}`, on: { click: () => begin(`find 1 ${got.traces} ${name} `) } }, name),
    make("button", { type: "button", "aria-label": `leave out ${name}`, on: { click: () => drop(name) } }, "×"))));
  const body = got.rows.map((row, index) => rowOf(row, index));
  fill(at("table-room"), make("table", {}, make("thead", {}, head), make("tbody", {}, ...body)));
  if (wanted) focusCell(...wanted);
  wanted = null;
}

function rowOf(row, index) {
  const trace = got.first + index;
  const origin = got.origin[index];
  const moved = origin === 0 ? "new" : origin !== trace ? `was ${origin}` : null;
  const marked = store.spot && trace >= store.spot.first && trace <= store.spot.last ? " spot" : "";
  return make("tr", { class: `${trace === here ? "here" : ""}${marked}`.trim(), "data-trace": String(trace) },
    make("th", { scope: "row" }, String(trace), moved ? make("span", { class: "was" }, moved) : null),
    ...row.map((value, column) => cellOf(value, index, column, trace, origin)));
}

function cellOf(value, index, column, trace, origin) {
  const was = got.was && got.was[index] ? got.was[index][column] : null;
  const name = got.names[column];
  const changed = marked.has(`${origin} ${name}`) || (was !== null && was !== value);
  const cell = make("td", { class: changed ? "mark" : "", tabIndex: index === 0 && column === 0 ? 0 : -1, "data-at": `${index} ${column}`,
    on: { dblclick: () => edit(cell, value, trace, name), keydown: (event) => key(event, cell, value, index, column, trace, name) } },
  value, was !== null && was !== value ? make("span", { class: "was" }, `was ${was}`) : null);
  return cell;
}

function key(event, cell, value, index, column, trace, name) {
  if (event.target !== cell) return;
  const step = { ArrowUp: [-1, 0], ArrowDown: [1, 0], ArrowLeft: [0, -1], ArrowRight: [0, 1] }[event.key];
  if (event.key === "Enter" || event.key === "F2") {
    event.preventDefault();
    edit(cell, value, trace, name);
  } else if (step) {
    event.preventDefault();
    focusCell(index + step[0], column + step[1]);
  }
}

function focusCell(index, column) {
  const cell = at("table-room").querySelector(`td[data-at="${index} ${column}"]`);
  if (!cell) return;
  for (const one of at("table-room").querySelectorAll("td[tabindex='0']")) one.tabIndex = -1;
  cell.tabIndex = 0;
  cell.focus();
}

function edit(cell, value, trace, name) {
  const input = make("input", { "aria-label": `${name} of trace ${trace}`, spellcheck: "false" });
  input.value = value;
  const end = () => { drawTable(); };
  input.addEventListener("keydown", async (event) => {
    if (event.key === "Escape") end();
    if (event.key !== "Enter") return;
    event.preventDefault();
    wanted = cell.dataset.at.split(" ").map(Number);
    const answer = await runLine(`set ${trace} ${name} ${input.value.trim()}`);
    if (answer.kind !== "refused") return end();
    wanted = null;
    cell.querySelector(".no")?.remove();
    cell.append(make("span", { class: "no", role: "alert" }, answer.text));
    input.focus();
  });
  fill(cell, input);
  input.select();
  input.focus();
}

const told = (name) => {
  const found = store.words && store.words.names.find((one) => one.name === name);
  return found ? `${found.told}, ${store.bound[name] || found.place}` : store.bound[name] || name;
};

function drop(name) {
  if (names.length > 1) names = names.filter((one) => one !== name);
  show();
}

async function add(event) {
  event.preventDefault();
  const name = at("column").value.trim();
  if (!name || names.includes(name)) return;
  const some = name.split(/\s+/);
  const found = await ask("table", query([...names, ...some])); // the columns stay what they are until these are known
  if (found.error) {
    at("column").setCustomValidity(found.error);
    at("column").reportValidity();
    return;
  }
  if (at("column").value.trim() === name) at("column").value = "";
  names = [...names, ...some.filter((one) => !names.includes(one))];
  await show();
}

// The headers that are used, with their least and greatest numbers: shown on demand, since every trace is looked at.
const used = latest(async () => (at("used").open ? ask("extremes").catch((error) => ({ error: error.message })) : null), (found) => {
  if (!found) return;
  if (found.error) {
    fill(at("used-room"), found.error);
    return;
  }
  const head = make("tr", {}, ...["field", "least", "greatest", "first", "last"].map((one) => make("th", { scope: "col" }, one)));
  const body = found.rows.map(([name, ...numbers]) => make("tr", { title: told(name) },
    make("th", { scope: "row" }, make("button", { class: "link", type: "button", "aria-label": `add the column ${name}`, on: { click: () => addColumn(name) } }, name)),
    ...numbers.map((one) => make("td", {}, one))));
  fill(at("used-room"), make("p", { id: "used-said" }, `${many(found.rows.length, "field")} used. The others are 0 in every trace.`),
    found.rows.length ? make("table", {}, make("thead", {}, head), make("tbody", {}, ...body)) : null);
});

async function addColumn(name) {
  if (names.includes(name)) return;
  names = [...names, name];
  await show();
}

// To a trace: the table shows it, with a frame. With `stay` the page is not scrolled to it.
export async function goTo(trace, stay = false) {
  here = trace;
  const size = Number(at("size").value);
  if (!got || trace < got.first || trace >= got.first + got.rows.length) first = Math.max(1, trace - Math.floor(size / 4));
  await show();
  if (here !== trace) return; // to another one since
  const row = at("table-room").querySelector("tr.here");
  if (row && stay) at("table-room").scrollTop = row.offsetTop - row.offsetHeight * 2;
  else if (row) {
    row.scrollIntoView({ block: "nearest" });
    focusCell(trace - got.first, 0);
  }
}

export function start() {
  at("first").addEventListener("change", () => { first = Number(at("first").value) || 1; show(); });
  at("size").addEventListener("change", show);
  at("rows-back").addEventListener("click", () => { first = Math.max(1, first - Number(at("size").value)); show(); });
  at("rows-on").addEventListener("click", () => { if (got && got.first + got.rows.length <= got.traces) first += Number(at("size").value); show(); });
  at("add-column").addEventListener("submit", add);
  at("column").addEventListener("input", () => at("column").setCustomValidity(""));
  at("used").addEventListener("toggle", used);
  whenFound(goTo);
  whenSpotted((where) => { if (got && !where.first) drawTable(); });
  part(show);
  part(used);
  part(async () => {
    const known = { ...Object.fromEntries((store.words ? store.words.names : []).map((one) => [one.name, one.told])), ...store.bound };
    fill(at("fields"), ...Object.entries(known).map(([name, what]) => make("option", { value: name }, what)));
  });
}
