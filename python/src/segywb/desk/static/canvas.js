// A section on a canvas: bytes of samples as colours or wiggles, with the axes around them and headers above. It knows no server.

const STOPS = {
  grey: [[0, 255, 255, 255], [1, 0, 0, 0]],
  "red-white-blue": [[0, 33, 102, 172], [0.25, 146, 197, 222], [0.5, 247, 247, 247], [0.75, 244, 165, 130], [1, 178, 24, 43]],
  "purple-white-orange": [[0, 84, 39, 136], [0.25, 153, 142, 195], [0.5, 247, 247, 247], [0.75, 241, 163, 64], [1, 179, 88, 6]],
};
const NONE = -128;
const LEFT = 70;
const RIGHT = 8;
const AXIS = 24;
const TITLE = 18;
const BAND = 44;
const BOTTOM = 10;

const css = (name) => getComputedStyle(document.documentElement).getPropertyValue(name).trim();

// A colour as red, green and blue.
function channels(colour) {
  const [, hex] = /^#([0-9a-f]{6})$/i.exec(colour) || [null, "808080"];
  return [0, 2, 4].map((at) => parseInt(hex.slice(at, at + 2), 16));
}

// The colour of each byte, as a pixel of four bytes; the first one is that of none.
export function palette(name, none) {
  const stops = STOPS[name] || STOPS.grey;
  const table = new Uint32Array(256);
  const pixel = ([red, green, blue]) => ((255 << 24) | (blue << 16) | (green << 8) | red) >>> 0;
  for (let value = -127; value <= 127; value += 1) {
    const place = (value + 127) / 254;
    const behind = stops.findIndex(([end], index) => index > 0 && place <= end);
    const [[low, ...from], [high, ...to]] = [stops[behind - 1], stops[behind]];
    table[value & 255] = pixel(from.map((one, index) => Math.round(one + (to[index] - one) * (place - low) / (high - low))));
  }
  table[NONE & 255] = pixel(channels(none));
  return table;
}

function room(wide, tall) {
  const made = document.createElement("canvas");
  made.width = Math.max(1, Math.round(wide));
  made.height = Math.max(1, Math.round(tall));
  return made;
}

// The bytes as an image of a pixel each.
export function image(bytes, columns, rows, table) {
  const made = room(columns, rows);
  if (!columns || !rows) return made;
  const pixels = new ImageData(columns, rows);
  const whole = new Uint32Array(pixels.data.buffer);
  for (let at = 0; at < bytes.length; at += 1) whole[at] = table[bytes[at] & 255];
  made.getContext("2d").putImageData(pixels, 0, 0);
  return made;
}

// Traces as curves with their peaks filled, as large as the plot. `stride`: every so manieth trace of the window has one.
export function curves(bytes, count, rows, stride, traces, wide, tall, colour) {
  const made = room(wide, tall);
  const draw = made.getContext("2d");
  const each = wide / Math.max(traces, 1);
  const reach = each * stride * 0.95 / 127;
  draw.strokeStyle = colour;
  draw.fillStyle = colour;
  draw.lineWidth = each * stride > 12 ? 1 : 0.7;
  for (let at = 0; at < count; at += 1) {
    const middle = (Math.floor(stride / 2) + at * stride + 0.5) * each;
    curve(draw, bytes.subarray(at * rows, (at + 1) * rows), middle, reach, tall / rows);
  }
  return made;
}

function curve(draw, bytes, middle, reach, step) {
  draw.beginPath();
  draw.moveTo(middle, 0);
  for (let row = 0; row < bytes.length; row += 1) draw.lineTo(middle + Math.max(bytes[row], 0) * reach, (row + 0.5) * step);
  draw.lineTo(middle, bytes.length * step);
  draw.fill();
  draw.beginPath();
  let open = false;
  for (let row = 0; row < bytes.length; row += 1) {
    if (bytes[row] === NONE) open = false;
    else if (open) draw.lineTo(middle + bytes[row] * reach, (row + 0.5) * step);
    else {
      draw.moveTo(middle + bytes[row] * reach, (row + 0.5) * step);
      open = true;
    }
  }
  draw.stroke();
}

// Where the plots stand on a canvas of this size: side by side, below their headers.
export function plots(wide, tall, sides, headers) {
  const top = AXIS + headers * BAND + (sides > 1 ? TITLE : 0);
  const each = (wide - LEFT * sides - RIGHT * sides) / sides;
  return Array.from({ length: sides }, (_, at) => ({ x: LEFT + at * (each + LEFT + RIGHT), y: top, wide: Math.max(each, 10), tall: Math.max(tall - top - BOTTOM, 10) }));
}

// Round steps so that at most so many of them lie between two numbers.
export function steps(low, high, most) {
  const rough = (high - low) / Math.max(most, 1);
  if (!(rough > 0)) return [];
  const power = 10 ** Math.floor(Math.log10(rough));
  const step = [1, 2, 5, 10].map((one) => one * power).find((one) => one >= rough * 0.999);
  const found = [];
  for (let at = Math.ceil(low / step - 1e-9); at * step <= high + step * 1e-9; at += 1) found.push(Number((at * step).toPrecision(12)));
  return found;
}

// The columns whose labels are round, where these are few enough; else columns at even distances. Where columns stand for several traces
// a round number may lie in one between its label and the next.
export function rounded(labels, most, several) {
  const rising = labels.every((one, at) => at === 0 || one >= labels[at - 1]);
  if (rising && labels.length > most) {
    const place = (number) => labels.findLastIndex((one) => one <= number);
    const some = steps(labels[0], labels[labels.length - 1], most).filter(Number.isInteger).map((number) => [place(number), number]).filter(([at, number]) => several || labels[at] === number);
    if (some.length > 1) return some;
  }
  const step = Math.max(1, Math.ceil(labels.length / Math.max(most, 1)));
  return labels.map((number, at) => [at, number]).filter(([at]) => at % step === 0);
}

const across = (plot, view, trace) => plot.x + (trace - view.left) / (view.right - view.left) * plot.wide;
const down = (plot, view, sample) => plot.y + (sample - view.top) / (view.bottom - view.top) * plot.tall;

// All of it: `view` is what is looked at, `layers` the pictures of each side from the farthest to the nearest, with the parts that they show.
export function draw(canvas, view, layers, axes) {
  const scale = window.devicePixelRatio || 1;
  const [wide, tall] = [canvas.clientWidth, canvas.clientHeight];
  if (canvas.width !== Math.round(wide * scale) || canvas.height !== Math.round(tall * scale)) {
    canvas.width = Math.round(wide * scale);
    canvas.height = Math.round(tall * scale);
  }
  const pen = canvas.getContext("2d");
  pen.setTransform(scale, 0, 0, scale, 0, 0);
  pen.clearRect(0, 0, wide, tall);
  pen.font = '12px system-ui, "DejaVu Sans", sans-serif';
  const places = plots(wide, tall, axes.sides.length, axes.headers);
  const colours = { text: css("--text"), quiet: css("--quiet"), line: css("--line"), empty: css("--empty"), strong: css("--strong"), plot: css("--plot") };
  axes.sides.forEach((side, at) => {
    const plot = places[at];
    pen.fillStyle = axes.paper || colours.plot;
    pen.fillRect(plot.x, plot.y, plot.wide, plot.tall);
    pen.save();
    pen.beginPath();
    pen.rect(plot.x, plot.y, plot.wide, plot.tall);
    pen.clip();
    pen.imageSmoothingEnabled = false;
    for (const { parts: { [at]: part }, pictures } of layers) {
      if (!part) continue;
      const [x0, x1, y0, y1] = [across(plot, view, part[0]), across(plot, view, part[1]), down(plot, view, part[2]), down(plot, view, part[3])];
      for (const picture of pictures[at] || []) pen.drawImage(picture, x0, y0, x1 - x0, y1 - y0);
    }
    for (const [from, to] of side.marks) framed(pen, plot, across(plot, view, from), across(plot, view, to));
    pen.restore();
    frame(pen, plot, view, side, axes, colours);
  });
  return places;
}

// Traces that are marked, from one place to another: a frame, so that their colours stay what they are.
function framed(pen, plot, from, to) {
  const wide = Math.max(to - from, 3);
  pen.fillStyle = css("--mark");
  pen.fillRect(from, plot.y, wide, 5);
  pen.fillRect(from, plot.y + plot.tall - 5, wide, 5);
  for (const x of [from, from + wide - 1.5]) pen.fillRect(x, plot.y, 1.5, plot.tall);
}

function frame(pen, plot, view, side, axes, colours) {
  pen.strokeStyle = colours.line;
  pen.lineWidth = 1;
  pen.strokeRect(plot.x - 0.5, plot.y - 0.5, plot.wide + 1, plot.tall + 1);
  if (!axes.empty) times(pen, plot, view, axes, colours);
  numbers(pen, plot, view, side, axes, colours);
  side.headers.forEach((header, at) => band(pen, plot, view, side, header, plot.y - AXIS - (at + 1) * BAND, colours));
  if (side.title) {
    pen.fillStyle = colours.text;
    pen.textAlign = "center";
    pen.textBaseline = "top";
    pen.fillText(side.title, plot.x + plot.wide / 2, 2);
  }
}

// The time axis: sample k lies in the middle of its row.
function times(pen, plot, view, { start, step, unit }, colours) {
  const time = (sample) => start + (sample - 0.5) * step;
  pen.fillStyle = colours.text;
  pen.textAlign = "right";
  pen.textBaseline = "middle";
  for (const at of steps(time(view.top), time(view.bottom), Math.floor(plot.tall / 34))) {
    const y = down(plot, view, (at - start) / step + 0.5);
    if (y < plot.y - 0.5 || y > plot.y + plot.tall + 0.5) continue;
    pen.fillText(at.toLocaleString("en", { maximumFractionDigits: 3 }), plot.x - 8, y);
    pen.fillRect(plot.x - 5, y - 0.5, 5, 1);
  }
  pen.save();
  pen.translate(plot.x - LEFT + 9, plot.y + plot.tall / 2);
  pen.rotate(-Math.PI / 2);
  pen.textAlign = "center";
  pen.fillStyle = colours.quiet;
  pen.fillText(unit, 0, 0);
  pen.restore();
}

function numbers(pen, plot, view, side, { along }, colours) {
  const [first, last] = side.part;
  const each = (last - first) / Math.max(side.label.length, 1);
  const middle = (column) => across(plot, view, first + (column + 0.5) * each);
  const seen = side.label.map((_, column) => column).filter((column) => middle(column) >= plot.x && middle(column) <= plot.x + plot.wide);
  if (!seen.length) return;
  pen.fillStyle = colours.text;
  pen.textAlign = "center";
  pen.textBaseline = "bottom";
  for (const [at, number] of rounded(seen.map((column) => side.label[column]), Math.max(2, Math.floor(plot.wide / 74)), each > 1)) {
    const x = middle(seen[at]);
    pen.fillText(String(number), Math.min(Math.max(x, plot.x + 8), plot.x + plot.wide - 8), plot.y - 6);
    pen.fillRect(x - 0.5, plot.y - 5, 1, 5);
  }
  pen.fillStyle = colours.quiet;
  pen.textAlign = "right";
  pen.fillText(along, plot.x - 6, plot.y - 6);
}

// A field above the section, on its axis: the least and the greatest number of each column.
function band(pen, plot, view, side, { name, low, high }, top, colours) {
  const [first, last] = side.part;
  const each = (last - first) / Math.max(low.length, 1);
  const [least, most] = [Math.min(...low), Math.max(...high)];
  const y = (number) => top + BAND - 8 - (number - least) / (most - least || 1) * (BAND - 14);
  pen.save();
  pen.beginPath();
  pen.rect(plot.x, top, plot.wide, BAND);
  pen.clip();
  pen.strokeStyle = colours.strong;
  pen.lineWidth = 1.2;
  pen.beginPath();
  low.forEach((number, column) => {
    const x = across(plot, view, first + (column + 0.5) * each);
    pen.lineTo(x, y(number));
    if (high[column] !== number) pen.lineTo(x, y(high[column]));
  });
  pen.stroke();
  if (low.length === 1) pen.fillRect(plot.x, y(low[0]), plot.wide, 1);
  pen.restore();
  pen.fillStyle = colours.quiet;
  pen.textAlign = "right";
  pen.textBaseline = "middle";
  for (const [number, at] of least === most ? [[least, top + BAND / 2]] : [[most, top + 9], [least, top + BAND - 9]]) if (low.length) pen.fillText(String(number), plot.x - 6, at, LEFT - 8);
  pen.textAlign = "left";
  pen.textBaseline = "top";
  pen.fillText(name, plot.x + 4, top + 1);
}
