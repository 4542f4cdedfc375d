// The command line: completion, history, the manual's words, and the answers.

import { at, fill, make } from "./dom.js";
import { done, store } from "./store.js";

const WHICH = ["inline", "crossline", "offset", "x", "y"];
const line = at("line");
const list = at("choices");
const history = [];
let back = 0;
let active = -1;
let choices = [];

// ---- answers

// Runs a line, shows its answer, and gives it back.
export async function runLine(text) {
  const entry = log(text);
  try {
    const answer = await done("run", { line: text });
    const [first] = answer.answers;
    if (first) return answered(entry, first);
    entry.remove();
    return { kind: "none", text: "" };
  } catch (error) {
    return answered(entry, { kind: "refused", text: error.message, more: 0 });
  }
}

// Runs many lines as one step: all of them, or none.
export async function runScript(script, title) {
  const entry = log(title);
  try {
    const answer = await done("script", { script });
    if (answer.refused) {
      return answered(entry, { ...answer.refused, text: `${answer.refused.text}\n(${answer.refused.line}; nothing was changed)` });
    }
    for (const one of answer.answers) answered(log(one.line), one);
    return answered(entry, { kind: "edit", text: answer.edits ? `ok: ${answer.edits.toLocaleString("en")} edits as one step` : "no edits in it", more: 0 });
  } catch (error) {
    return answered(entry, { kind: "refused", text: error.message, more: 0 });
  }
}

export function log(text) {
  const entry = make("li", {}, make("span", { class: "line" }, text), make("span", { class: "answer" }, ".."));
  at("log").prepend(entry);
  while (at("log").children.length > 200) at("log").lastChild.remove();
  return entry;
}

let onFound = () => {};
export const whenFound = (does) => { onFound = does; };

// A list of traces that were found: each of them leads to it.
const shown = (text) => (text.startsWith("found ") ? text.split("\n").flatMap((row) => {
  const [, trace] = /^trace (\d+) /.exec(row) || [];
  return trace ? ["\n", make("button", { class: "link", type: "button", on: { click: () => onFound(Number(trace)) } }, row)] : [row];
}) : [text]);

export function answered(entry, answer) {
  const room = entry.querySelector(".answer");
  room.className = `answer ${answer.kind}`;
  fill(room, ...shown(answer.text), answer.more ? `\n.. and ${answer.more.toLocaleString("en")} more lines` : null);
  if (answer.kind === "refused") room.append(...why(answer.text));
  return answer;
}

const capital = (text) => text.charAt(0).toUpperCase() + text.slice(1);

// What the manual says of a refusal.
function why(text) {
  const [, code, part] = /^refused (\S+) ?(\S*)/.exec(text) || [];
  const rows = store.words ? store.words.refusals.filter((one) => one.code === code) : [];
  const found = rows.length > 1 ? rows.find((one) => one.text.startsWith(part)) : rows[0];
  return found ? [make("span", { class: "why" }, `${capital(found.when)}. ${capital(found.do)}.`)] : [];
}

// Puts the first words of a line into the command line, for the rest to be typed.
export function begin(text) {
  line.value = text;
  line.focus();
  complete();
}

// ---- words

function kindAt(words, index) {
  if (index === 0) return "COMMAND";
  const command = store.words.commands.find((one) => one.word === words[0]);
  const where = words.indexOf("where");
  if (where > 1 && index > where) return (index - where) % 2 ? "SIDE" : "OP"; // A OP B and A OP B ..
  const wanted = command ? command.usage.replace(/ \[[^\]]*where .*$/, "").split(" ") : [];
  const single = wanted[2] === "[Q]" && index > 1 && !/^(\d+|last)$/.test(words[2]); // P alone, and what follows it
  const shift = single || (words[1] === "all" && index > 1) ? 1 : 0; // `all` stands for P and Q
  const at = Math.min(index + shift, wanted.length - 1);
  const kind = wanted[at] === ".." ? wanted[at - 1] : wanted[at];
  return kind === "FIELD" && /^(get)?bin$/.test(words[0]) ? "BINARY" : kind;
}

function candidates(kind) {
  const { commands, names, binary, facts } = store.words;
  const bound = Object.entries(store.bound).filter(([name]) => !names.some((one) => one.name === name)).map(([name, place]) => ({ word: name, what: place }));
  const named = names.map((one) => ({ word: one.name, what: one.told }));
  if (kind === "COMMAND") return commands.map((one) => ({ word: one.word, what: one.usage }));
  if (kind === "FIELD") return [...bound, ...named];
  if (kind === "SIDE") return [...bound, ...named, ...facts.map((one) => ({ word: one.name, what: one.told }))];
  if (kind === "NAME") return bound;
  if (kind === "PLACE") return [...Object.entries(store.bound).map(([name, place]) => ({ word: place, what: name })), ...names.map((one) => ({ word: one.place, what: one.told }))];
  if (kind === "BINARY") return binary.map((one) => ({ word: one.name, what: one.told }));
  if (kind === "WHICH") return WHICH.map((word) => ({ word, what: "" }));
  return /^[a-z]+$/.test(kind ?? "") ? [{ word: kind, what: "" }] : []; // the word itself, as of `drop tail`
}

function typed() {
  const before = line.value.slice(0, line.selectionStart).trimStart();
  const words = before.split(/[ \t]+/);
  return { words, index: words.length - 1, word: words[words.length - 1] };
}

function complete() {
  if (!store.words) return;
  const { words, index, word } = typed();
  const all = candidates(kindAt(words, index));
  choices = word || index > 0 ? all.filter((one) => one.word.startsWith(word) && one.word !== word) : [];
  if (word && choices.length < 8) choices.push(...all.filter((one) => word.length > 1 && !one.word.startsWith(word) && `${one.word} ${one.what}`.includes(word)).slice(0, 6));
  active = -1;
  drawChoices();
  usage(words[0]);
}

function drawChoices() {
  fill(list, ...choices.slice(0, 60).map((one, index) => make("li", { role: "option", id: `choice-${index}`, "aria-selected": String(index === active),
    on: { mousedown: (event) => { event.preventDefault(); take(index); } } }, make("span", { class: "word" }, one.word), make("span", { class: "what" }, one.what))));
  list.hidden = choices.length === 0;
  line.setAttribute("aria-expanded", String(!list.hidden));
  if (active >= 0) line.setAttribute("aria-activedescendant", `choice-${active}`);
  else line.removeAttribute("aria-activedescendant");
  list.children[active]?.scrollIntoView({ block: "nearest" });
}

function close() {
  choices = [];
  drawChoices();
}

function take(index) {
  const { word } = typed();
  const end = line.selectionStart;
  const chosen = choices[index].word;
  line.value = `${line.value.slice(0, end - word.length)}${chosen} ${line.value.slice(end).trimStart()}`;
  const caret = end - word.length + chosen.length + 1;
  line.setSelectionRange(caret, caret);
  complete();
}

// The first sentences of a paragraph.
function brief(text) {
  const [first, ...rest] = text.split(/(?<=\.) (?=[A-Z])/);
  return [first, ...rest].reduce((said, one) => (`${said} ${one}`.length > 150 ? said : `${said} ${one}`));
}

function usage(word) {
  const found = store.words && store.words.commands.find((one) => one.word === word);
  if (found) fill(at("usage"), make("code", {}, found.usage), brief(found.told));
  else if (!word) fill(at("usage"), "Type a command: Tab takes a word, the arrows go through the earlier lines.");
  else fill(at("usage"), "No command begins with this word yet.");
}

// ---- keys

function key(event) {
  const open = choices.length > 0 && !list.hidden;
  if (event.key === "Tab" && open && !event.shiftKey) {
    event.preventDefault();
    take(Math.max(active, 0));
  } else if (event.key === "Escape") {
    close();
  } else if (event.key === "Enter" && open && active >= 0) {
    event.preventDefault();
    take(active);
  } else if ((event.key === "ArrowDown" || event.key === "ArrowUp") && open && !(event.key === "ArrowUp" && active < 0)) {
    event.preventDefault();
    active = Math.min(Math.max(active + (event.key === "ArrowDown" ? 1 : -1), -1), Math.min(choices.length, 60) - 1);
    drawChoices();
  } else if (event.key === "ArrowUp" || event.key === "ArrowDown") {
    event.preventDefault();
    recall(event.key === "ArrowUp" ? 1 : -1);
  }
}

function recall(step) {
  back = Math.min(Math.max(back + step, 0), history.length);
  line.value = back ? history[history.length - back] : "";
  close();
  usage(line.value.trim().split(/\s+/)[0]);
}

async function submit(event) {
  event.preventDefault();
  const text = line.value.replace(/\s*[\r\n]\s*/g, " ");
  close();
  if (!text.trim()) return undefined;
  if (history[history.length - 1] !== text) history.push(text);
  back = 0;
  line.value = "";
  if (text.trim() === "save") return at("save").click(); // the program has no path here: the box asks for one
  const answer = await runLine(text);
  if (answer.kind === "refused" && !line.value) line.value = text;
  return line.focus();
}

export function start() {
  line.addEventListener("input", complete);
  line.addEventListener("keydown", key);
  line.addEventListener("blur", close);
  at("command").addEventListener("submit", submit);
}
