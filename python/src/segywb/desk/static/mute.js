// The samples in a rectangle of a section get one value, by lines that are shown before they are run.

import { ask } from "./api.js";
import { runScript } from "./command.js";
import { at, fill, make, many } from "./dom.js";
import { part, store } from "./store.js";
import { goTo } from "./table.js";

const MOST_SHOWN = 200;
const room = at("mute");
let asked = null; // the rectangle
let got = null; // the samples that lie in it, of the version that is shown
let turn = 0; // counts the questions

const close = () => make("button", { type: "button", on: { click: () => { room.hidden = true; } } }, "Close");

const lines = (value) => got.runs.map(([first, last, from, to]) => `fill ${first} ${last} ${from} ${to} ${value}`);

// What is meant, in words: the least and the greatest number of a sample, since traces may begin at other times.
function said() {
  const [least, most] = [Math.min(...got.runs.map((run) => run[2])), Math.max(...got.runs.map((run) => run[3]))];
  return `${many(got.count, "trace")}, ${least === most ? `sample ${least}` : `samples ${least} to ${most}`}`;
}

function form() {
  const value = make("input", { "aria-label": "value", id: "mute-value", size: "9", value: at("mute-value") ? at("mute-value").value : "0" });
  const run = make("button", { class: "strong", id: "mute-run" }, "Run");
  const shown = make("pre", { "aria-label": "the lines that will be run", tabIndex: 0 });
  const wanted = () => value.value.trim();
  const preview = () => {
    run.disabled = !/^\S+$/.test(wanted());
    run.textContent = `Run ${many(got.runs.length, "line")}`;
    const some = lines(wanted());
    fill(shown, run.disabled ? "One value is wanted." : some.slice(0, MOST_SHOWN).join("\n") + (some.length > MOST_SHOWN ? `\n.. and ${(some.length - MOST_SHOWN).toLocaleString("en")} more` : ""));
  };
  const apply = async (event) => {
    event.preventDefault();
    if (run.disabled) return;
    if (got.version !== store.version) {
      fill(shown, "The survey has changed since this rectangle was drawn: draw it again.");
      return;
    }
    run.disabled = true;
    const made = lines(wanted());
    const answer = await runScript(`${made.join("\n")}\n`, made.length === 1 ? made[0] : `${made[0]}  .. ${many(made.length, "line")}`);
    if (answer.kind === "refused") {
      run.disabled = false;
      fill(shown, make("span", { class: "no-text", role: "alert" }, answer.text));
    } else {
      room.hidden = true;
    }
  };
  value.addEventListener("input", preview);
  fill(room, make("form", { class: "bar", on: { submit: apply } }, make("strong", {}, said()), make("label", {}, "mute: each sample becomes ", value), run,
    make("button", { type: "button", on: { click: () => goTo(got.runs[0][0]) } }, "Show in the table"), close()), shown);
  preview();
}

// What lies in the rectangle that was drawn last, in the last version.
async function look() {
  const mine = ++turn;
  try {
    let found = null;
    do found = await ask("boxed", asked); while (mine === turn && found.version < store.version);
    if (mine !== turn) return;
    got = found;
    if (got.count && got.all) form();
    else fill(room, got.count ? "These are more runs of traces than the desk mutes as one step. " : "No samples in this rectangle. ", close());
  } catch (error) {
    if (mine === turn) fill(room, make("span", { class: "no-text", role: "alert" }, error.message), " ", close());
  }
}

// Offers what can be done to the samples in a rectangle: the section that it was drawn on, and its ends.
export function offer(rectangle) {
  asked = rectangle;
  room.hidden = false;
  return look();
}

// After a step the same rectangle may hold other samples.
export function start() {
  part(async () => {
    if (!room.hidden && got && got.version !== store.version) await look();
  });
}
