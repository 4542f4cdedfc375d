// Elements. Every text becomes a text node: nothing that a file holds is ever read as HTML.

export const at = (id) => document.getElementById(id);

export function make(tag, properties = {}, ...children) {
  const made = document.createElement(tag);
  for (const [name, value] of Object.entries(properties)) {
    if (name === "class") made.className = value;
    else if (name === "on") for (const [kind, does] of Object.entries(value)) made.addEventListener(kind, does);
    else if (name in made && typeof value !== "string") made[name] = value;
    else made.setAttribute(name, value);
  }
  made.append(...children.filter((child) => child !== null && child !== undefined));
  return made;
}

export function fill(element, ...children) {
  element.replaceChildren(...children.filter((child) => child !== null && child !== undefined));
}

export const many = (count, one, more = `${one}s`) => `${count.toLocaleString("en")} ${count === 1 ? one : more}`;

// Tabs that the arrow keys go through.
export function tabs(room, names, chosen, choose) {
  const buttons = names.map(([key, text]) => make("button", { role: "tab", type: "button", id: `tab-${key}`, on: { click: () => pick(key) } }, text));
  const pick = (key) => {
    names.forEach(([one], index) => {
      buttons[index].setAttribute("aria-selected", String(one === key));
      buttons[index].tabIndex = one === key ? 0 : -1;
    });
    choose(key);
  };
  room.addEventListener("keydown", (event) => {
    const step = { ArrowRight: 1, ArrowLeft: -1 }[event.key];
    if (!step) return;
    const next = buttons[(buttons.indexOf(document.activeElement) + step + buttons.length) % buttons.length];
    next.focus();
    next.click();
  });
  fill(room, ...buttons);
  names.forEach(([one], index) => {
    buttons[index].setAttribute("aria-selected", String(one === chosen));
    buttons[index].tabIndex = one === chosen ? 0 : -1;
  });
  return pick;
}
