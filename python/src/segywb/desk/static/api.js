// Questions to the server, and what it is told to do.

export class Failed extends Error {
  constructor(answer, status) {
    super(answer.refused || answer.error || answer.why || `status ${status}`);
    this.answer = answer;
    this.refused = Boolean(answer.refused);
    this.phase = answer.phase;
  }
}

let onPhase = () => {};
export const whenPhase = (does) => { onPhase = does; };

async function answered(response) {
  const answer = await response.json();
  if (response.ok) return answer;
  if (answer.phase) onPhase(answer);
  throw new Failed(answer, response.status);
}

async function sent(where, options) {
  let response;
  try {
    response = await fetch(where, options);
  } catch {
    onPhase({ phase: "gone" });
    throw new Failed({ error: "the desk does not answer" }, 0);
  }
  return answered(response);
}

export const ask = (name, query = {}) => sent(`ask/${name}?${new URLSearchParams(query)}`);

export const tell = (name, body = {}, where = `do/${name}`) =>
  sent(where, { method: "POST", headers: { "Content-Type": "application/json" }, body: JSON.stringify(body) });

// A picture: what is told of it, and its bytes. The first four bytes are the size of what is told.
export async function picture(name, query) {
  let response;
  try {
    response = await fetch(`picture/${name}?${new URLSearchParams(query)}`);
  } catch {
    onPhase({ phase: "gone" });
    throw new Failed({ error: "the desk does not answer" }, 0);
  }
  if (!response.ok) return answered(response);
  const made = await response.arrayBuffer();
  const size = new DataView(made).getUint32(0);
  return [JSON.parse(new TextDecoder().decode(new Uint8Array(made, 4, size))), new Int8Array(made, 4 + size)];
}

export const words = () => sent("words");
