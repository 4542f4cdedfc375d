// Where the panels stand: two side by side, the others below, and each of them a tab over both sides; one can fill the window. Sizes are kept in the browser.

import { at, make } from "./dom.js";

const PANELS = { maps: "Maps", side: "Reports", section: "Section", graph: "Graph", headers: "Trace headers" };
const KEPT = "segywb-desk-layout";
// The plots are as high as the window allows with the command line still in it.
const tallest = () => Math.min(Math.max(window.innerHeight - 398, 352), 1600);
const FIRST = { left: "maps", right: "side", split: 63, tall: tallest(), open: ["headers"] };
let state = { ...FIRST };
let whole = null;
let own = false; // whether a layout was kept

const clamp = (value, least, most) => Math.min(Math.max(value, least), most);
const known = (name) => Object.prototype.hasOwnProperty.call(PANELS, name);

// What was kept, where it still is a layout.
function read() {
  try {
    const kept = JSON.parse(localStorage.getItem(KEPT));
    if (!kept || !known(kept.left) || !known(kept.right) || kept.left === kept.right) return;
    own = true;
    state = { left: kept.left, right: kept.right, split: clamp(Number(kept.split) || 63, 25, 75), tall: clamp(Number(kept.tall) || tallest(), 160, 1600),
      open: Array.isArray(kept.open) ? kept.open.filter(known) : FIRST.open };
  } catch {
    // a layout that cannot be read is none
  }
}

function keep() {
  try {
    localStorage.setItem(KEPT, JSON.stringify(state));
  } catch {
    // without a place to keep it, it lasts as long as the page
  }
}

// What each side shows is a tab of it, so that no panel is out of sight below the others.
function tabsOf(side) {
  const room = at(`${side}-panels`);
  const tabs = Object.entries(PANELS).map(([name, text]) => make("button", { role: "tab", type: "button", id: `${side}-${name}`, "aria-controls": name, on: { click: () => pick(name, side) } }, text));
  room.append(...tabs);
  room.addEventListener("keydown", (event) => {
    const step = { ArrowRight: 1, ArrowLeft: -1 }[event.key];
    if (!step) return;
    const next = tabs[(tabs.indexOf(document.activeElement) + step + tabs.length) % tabs.length];
    next.focus();
    next.click();
  });
}

function pick(name, side) {
  if (state[side] !== name) put(name, side);
}

const placeOf = (name) => (state.left === name ? "left" : state.right === name ? "right" : "below");

function apply() {
  const main = at("main");
  main.style.setProperty("--split", `${state.split}fr`);
  main.style.setProperty("--rest", `${100 - state.split}fr`);
  main.style.setProperty("--tall", `${state.tall}px`);
  main.style.setProperty("--head", `${document.querySelector("header").offsetHeight}px`);
  for (const name of Object.keys(PANELS)) {
    const panel = at(name);
    panel.dataset.place = placeOf(name);
    panel.classList.toggle("whole", whole === name);
    const folded = placeOf(name) === "below" && whole !== name && !state.open.includes(name);
    if (folded) panel.dataset.folded = "yes";
    else delete panel.dataset.folded;
    const fold = panel.querySelector(".fold");
    fold.hidden = placeOf(name) !== "below" || whole === name;
    fold.textContent = folded ? "Open" : "Fold";
    for (const side of ["left", "right"]) panel.querySelector(`.to-${side}`).disabled = placeOf(name) === side || whole === name;
    const enlarge = panel.querySelector(".enlarge");
    enlarge.textContent = whole === name ? "Back" : "Enlarge";
    enlarge.setAttribute("aria-label", whole === name ? `${PANELS[name]} back to its place` : `${PANELS[name]} as large as the window`);
  }
  for (const one of document.querySelectorAll(".panels > button")) {
    const chosen = one.id === `${one.parentElement.dataset.side}-${state[one.parentElement.dataset.side]}`;
    one.setAttribute("aria-selected", String(chosen));
    one.tabIndex = chosen ? 0 : -1;
  }
  document.body.classList.toggle("enlarged", whole !== null);
  at("splitter").setAttribute("aria-valuenow", String(Math.round(state.split)));
  for (const one of document.querySelectorAll(".sash")) one.setAttribute("aria-valuenow", String(state.tall));
  window.dispatchEvent(new Event("resize"));
  window.dispatchEvent(new Event("desk-layout"));
}

// A panel to a side: the one that stood there takes its place.
function put(name, side) {
  const other = side === "left" ? "right" : "left";
  if (state[other] === name) state[other] = state[side];
  else if (!state.open.includes(state[side])) state.open.push(state[side]);
  state[side] = name;
  whole = null;
  keep();
  apply();
}

// A panel that is seen first, on the left, where no layout was kept.
export function first(name) {
  if (own) return;
  state = { ...state, left: name, open: [...state.open, state.left] };
  apply();
}

function enlarge(name) {
  whole = whole === name ? null : name;
  apply();
  at(name).scrollIntoView({ block: "nearest" });
}

function fold(name) {
  state.open = state.open.includes(name) ? state.open.filter((one) => one !== name) : [...state.open, name];
  keep();
  apply();
}

function buttons(name) {
  const button = (kind, text, told, does) => make("button", { type: "button", class: `${kind} place`, "aria-label": `${PANELS[name]} ${told}`, title: `${PANELS[name]} ${told}`, on: { click: does } }, text);
  at(name).querySelector(".bar").append(make("span", { class: "places" },
    button("to-left", "◧", "to the left", () => put(name, "left")), button("to-right", "◨", "to the right", () => put(name, "right")),
    button("fold", "Fold", "open or folded", () => fold(name)), button("enlarge", "Enlarge", "as large as the window", () => enlarge(name))));
}

// A bar that is dragged, or moved by the arrow keys. What `moved` makes of a place is kept at the end.
function sash(bar, moved, step) {
  bar.addEventListener("pointerdown", (event) => {
    event.preventDefault();
    bar.setPointerCapture(event.pointerId);
    const move = (to) => moved(to);
    const end = () => {
      bar.removeEventListener("pointermove", move);
      keep();
      apply();
    };
    bar.addEventListener("pointermove", move);
    bar.addEventListener("pointerup", end, { once: true });
  });
  bar.addEventListener("keydown", (event) => {
    const by = { ArrowLeft: -1, ArrowUp: -1, ArrowRight: 1, ArrowDown: 1 }[event.key];
    if (!by) return;
    event.preventDefault();
    step(by);
    keep();
    apply();
  });
}

function splits() {
  const to = (percent) => {
    state.split = clamp(percent, 25, 75);
    at("main").style.setProperty("--split", `${state.split}fr`);
    at("main").style.setProperty("--rest", `${100 - state.split}fr`);
  };
  const { left, right } = { left: () => at(state.left).getBoundingClientRect().left, right: () => at(state.right).getBoundingClientRect().right };
  sash(at("splitter"), (event) => to((event.clientX - left()) / (right() - left()) * 100), (by) => to(state.split + 2 * by));
  for (const bar of document.querySelectorAll(".sash")) {
    const tall = (pixels) => {
      state.tall = Math.round(clamp(pixels, 160, 1600));
      at("main").style.setProperty("--tall", `${state.tall}px`);
    };
    sash(bar, (event) => tall(event.clientY - bar.previousElementSibling.getBoundingClientRect().top), (by) => tall(state.tall + 16 * by));
  }
}

export function start() {
  read();
  Object.keys(PANELS).forEach(buttons);
  for (const side of ["left", "right"]) tabsOf(side);
  splits();
  document.addEventListener("keydown", (event) => {
    if (event.key !== "Escape" || whole === null || event.target.matches("input, select, textarea") || document.querySelector("dialog[open]")) return;
    enlarge(whole);
  });
  apply();
}

// The header may take another height: two lines where the window is narrow.
export const again = () => at("main").style.setProperty("--head", `${document.querySelector("header").offsetHeight}px`);
