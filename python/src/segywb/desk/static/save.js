// The save, with its question before a file is replaced.

import { at, fill, make, many } from "./dom.js";
import { done, store } from "./store.js";

const box = at("save-box");
let path = null;

const suggested = () => store.state.out || store.state.file.replace(/(\.[^./]*)?$/, (end) => `-edited${end}`);

export function open() {
  const input = make("input", { id: "save-path", "aria-label": "path", spellcheck: "false" });
  input.value = path || suggested();
  const said = make("div", { id: "save-said", "aria-live": "assertive" });
  const save = async (how) => {
    fill(said, "Saving ..");
    path = input.value;
    try {
      told(said, await done("save", { path, ...how }), save);
    } catch (error) {
      if (error.phase === "cut") box.close();
      fill(said, make("p", { class: "no-text" }, error.message));
    }
  };
  const form = make("form", { on: { submit: (event) => { event.preventDefault(); save({}); } } },
    make("p", {}, make("strong", {}, "Save the edited file"), ` with its ${many(store.state.edits, "edit")}`), input, said,
    make("div", { class: "buttons" }, make("button", { type: "button", on: { click: () => box.close() } }, "Close"), make("button", { class: "strong", id: "save-go" }, "Save")));
  fill(box, form);
  box.showModal();
  input.focus();
}

const big = (count) => count.toLocaleString("en");

function told(said, answer, save) {
  if (answer.error) {
    fill(said, make("p", { class: "no-text", role: "alert" }, answer.error));
  } else if (answer.ask) {
    fill(said, ...(answer.own ? ways(answer, save) : [make("p", {}, make("strong", {}, "There is a file already:"), ` ${answer.ask}`),
      make("button", { type: "button", id: "save-replace", on: { click: () => save({ replace: true }) } }, "Replace it")]));
    said.querySelector("button").focus();
  } else {
    const size = answer.before === answer.bytes ? `${big(answer.bytes)} bytes` : `${big(answer.bytes)} bytes, where the file had ${big(answer.before)}`;
    const changed = answer.changed === null ? "" : `; ${answer.changed === 0 ? "no byte" : many(answer.changed, "byte")} changed`;
    const what = answer.repaired ? `Repaired in place: ${answer.path}, ${size}.` : `Saved as ${answer.path}: ${size}${changed}.`;
    fill(said, make("p", { id: "saved" }, what), ...answer.said.map((one) => make("p", {}, one)));
  }
}

// The two ways to save over the file that is open, the one that the rule chooses first.
function ways({ ask, size, in_place: { possible, chosen, why } }, save) {
  const way = (id, text, inPlace, means) => make("p", { class: "way" },
    make("button", { type: "button", id, class: inPlace === chosen ? "strong" : "", on: { click: () => save({ replace: true, in_place: inPlace }) } }, text), make("span", { class: "hint" }, means));
  const both = [
    way("save-replace", "Replace it by a new file", false, `The whole edited file is written beside it, and takes its name once it is on the disk. That wants room for ${size ? big(size) : "as many"} bytes more.`),
    possible ? way("save-in-place", "Repair it in place", true, "Only the bytes that changed are written into it. A journal beside it has the old ones: a repair that is cut off, by a crash or a power cut, is undone from there.") : null,
  ];
  return [make("p", {}, make("strong", {}, "This is the file that is open:"), ` ${ask}`), ...(chosen ? both.reverse() : both), make("p", { class: "hint", id: "save-why" }, possible ? `First stands what is usual here: ${why}.` : `Not in place: ${why}.`)];
}
