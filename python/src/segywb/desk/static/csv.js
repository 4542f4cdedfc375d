// The import of a CSV: its columns, what it would change, and then one step.

import { at, fill, make, many } from "./dom.js";
import { tell } from "./api.js";
import * as command from "./command.js";
import { done, store } from "./store.js";

const MOST_BYTES = 30000000; // as JSON it is somewhat longer, and the desk takes 40 MiB at once
const KEYS = ["inline", "crossline", "trace", "field_record"];
const VALUES = ["x", "y"];
const box = at("csv-box");
let text = null;
let name = "";
let columns = [];
let looked = null;
let turn = 0; // counts the files that were chosen

const role = (column) => (KEYS.includes(column) ? "key" : VALUES.includes(column) ? "value" : "");

export function open() {
  turn += 1;
  text = null;
  columns = [];
  looked = null;
  const file = make("input", { type: "file", id: "csv-file", "aria-label": "the CSV", on: { change: chosen } });
  fill(box,
    make("p", {}, make("strong", {}, "Import a CSV"), " onto the traces: its key columns say which traces are meant, its value columns are written into their headers."),
    file, make("div", { id: "csv-columns" }), make("div", { id: "csv-said", "aria-live": "assertive" }),
    make("div", { class: "buttons" }, make("button", { type: "button", on: { click: () => box.close() } }, "Close"),
      make("button", { type: "button", id: "csv-look", disabled: true, on: { click: look } }, "What would change"),
      make("button", { type: "button", class: "strong", id: "csv-go", disabled: true, on: { click: write } }, "Write")));
  box.showModal();
}

async function chosen(event) {
  const [file] = event.target.files;
  if (!file) return;
  const mine = ++turn;
  stale();
  fill(at("csv-columns"));
  at("csv-look").disabled = true;
  ({ name } = file);
  if (file.size > MOST_BYTES) return said(`This has ${many(file.size, "byte")}, more than the desk takes: import_csv of Python takes it.`);
  const bytes = await file.arrayBuffer();
  if (mine !== turn) return undefined;
  try {
    text = new TextDecoder("utf-8", { fatal: true }).decode(bytes);
  } catch {
    return said("This is not UTF-8.");
  }
  const got = await tell("csv", { text: text.slice(0, 65536) }).catch((error) => ({ error: error.message }));
  if (mine !== turn) return undefined; // another file was chosen meanwhile
  if (got.error) return said(got.error);
  columns = got.columns.map((column) => ({ column, role: role(column.toLowerCase()), field: column.toLowerCase() }));
  return drawColumns();
}

function drawColumns() {
  const row = (one) => {
    const what = make("select", { "aria-label": `what ${one.column} is`, on: { change: (event) => { one.role = event.target.value; stale(); } } },
      ...[["", "left out"], ["key", "key"], ["value", "value"]].map(([value, shown]) => make("option", { value, selected: value === one.role }, shown)));
    const field = make("input", { "aria-label": `field of ${one.column}`, list: "fields", size: "16", spellcheck: "false", on: { input: (event) => { one.field = event.target.value; stale(); } } });
    field.value = one.field;
    return make("tr", {}, make("th", { scope: "row" }, one.column), make("td", {}, what), make("td", {}, field));
  };
  fill(at("csv-columns"), make("table", {}, make("thead", {}, make("tr", {}, ...["column", "is a", "field"].map((one) => make("th", { scope: "col" }, one)))), make("tbody", {}, ...columns.map(row))));
  at("csv-look").disabled = false;
  fill(at("csv-said"));
}

// What was looked at is not what would be written now.
function stale() {
  looked = null;
  at("csv-go").disabled = true;
  at("csv-go").textContent = "Write";
  fill(at("csv-said"));
}

function said(what) {
  fill(at("csv-said"), make("p", { class: "no-text", role: "alert" }, what));
}

const body = () => ({ text, keys: pairs("key"), values: pairs("value") });
const pairs = (kind) => columns.filter((one) => one.role === kind).map((one) => [one.column, one.field]);

async function look() {
  stale();
  const asked = body();
  const got = await tell("csv", asked).catch((error) => ({ error: error.message }));
  if (JSON.stringify([asked.keys, asked.values]) !== JSON.stringify([pairs("key"), pairs("value")]) || asked.text !== text) return;
  if (got.error) {
    said(got.error);
    return;
  }
  looked = { ...asked, version: got.version };
  at("csv-go").disabled = !got.numbers || got.conflicts > 0;
  at("csv-go").textContent = `Write ${many(got.numbers, "number")}`;
  fill(at("csv-said"), ...told(got));
}

function told(got) {
  const table = (heads, rows) => make("table", {}, make("thead", {}, make("tr", {}, ...heads.map((one) => make("th", { scope: "col" }, one)))), make("tbody", {}, ...rows.map((row) => make("tr", {}, ...row.map((one) => make("td", {}, String(one)))))));
  return [
    make("p", { id: "csv-told" }, `${many(got.rows, "row")}, ${got.matched.toLocaleString("en")} with a trace; ${many(got.traces, "trace")} of ${(got.traces + got.unnamed).toLocaleString("en")} meant. ${many(got.numbers, "number")} of ${many(got.changed, "trace")} would change.`),
    got.differences.length ? table(["trace", "field", "is", "becomes", "line"], got.differences) : null,
    got.lacking ? make("p", { id: "csv-lacking" }, `${many(got.lacking, "row")} whose key no trace has: ${got.lacking_keys.map(([key, line]) => `${key} (line ${line})`).join("; ")}${got.lacking > got.lacking_keys.length ? " .." : ""}`) : null,
    got.doubled ? make("p", { id: "csv-doubled", class: got.conflicts ? "no-text" : "" }, `${many(got.doubled, "key")} in several rows, ${got.conflicts.toLocaleString("en")} of them with other values: ${got.doubled_keys.map(([key, lines]) => `${key} (lines ${lines})`).join("; ")}${got.doubled > got.doubled_keys.length ? " .." : ""}`) : null,
  ].filter(Boolean);
}

async function write() {
  if (!looked) return;
  at("csv-go").disabled = true;
  if (looked.version !== store.version) {
    said("The survey has changed since this was looked at: look at it again.");
    return;
  }
  const got = await done("csv", { ...looked, do: true }).catch((error) => ({ error: error.message }));
  if (got.error) {
    said(got.error);
    return;
  }
  command.answered(command.log(`csv ${name}`), { kind: "edit", text: `ok: ${many(got.numbers, "edit")} as one step`, more: 0 });
  box.close();
}

export function start() {
  at("csv").addEventListener("click", open);
}
