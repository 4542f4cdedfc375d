// Plots by plotly. Maps stand on slots: the numbers of their axes are those that occur, with the gaps between them.

/* global Plotly */

const css = (name) => getComputedStyle(document.documentElement).getPropertyValue(name).trim();
const SLICES = [[0, "#2166ac"], [0.25, "#92c5de"], [0.5, "#f7f7f7"], [0.75, "#f4a582"], [1, "#b2182b"]];
const MANY = 20000; // cells: from there on they are drawn as the pixels of one image, which the style sheet keeps sharp
const CONFIG = {
  displaylogo: false, scrollZoom: true, doubleClick: "reset",
  modeBarButtonsToRemove: ["lasso2d", "toImage", "autoScale2d", "hoverClosestCartesian", "hoverCompareCartesian", "toggleSpikelines"],
};

// At most eight places of an axis, the first one among them.
export function chosen(count, most = 8) {
  const step = Math.max(1, Math.ceil(count / most));
  return Array.from({ length: Math.ceil(count / step) }, (_, index) => index * step);
}

// At most eight whole numbers from one to another.
export function wholes(least, most) {
  const rough = Math.max(1, (most - least) / 7);
  const power = 10 ** Math.floor(Math.log10(rough));
  const step = Math.max(1, [1, 2, 5, 10].map((one) => one * power).find((one) => one >= rough));
  const found = [];
  for (let at = Math.ceil(least / step) * step; at <= most; at += step) found.push(at);
  return found;
}

function axis(title, more) {
  return {
    title: { text: title, standoff: 8 }, color: css("--text"), gridcolor: css("--line"), linecolor: css("--line"), zeroline: false,
    ticks: "outside", tickcolor: css("--line"), automargin: true, ...more,
  };
}

// At most eight slots with the round numbers in them; where there are too few of these, slots at even distances.
export function rounded(numbers, most = 8) {
  const named = numbers.first.map((number, slot) => [number, slot, numbers.last[slot]]).filter(([number]) => number !== null);
  for (let power = 1; named.length > most && power < 1e10; power *= 10) {
    for (const step of [1, 2, 5].map((one) => one * power)) {
      const some = named.map(([first, slot, last]) => [Math.ceil(first / step) * step, slot, last]).filter(([number, , last]) => number <= last);
      if (some.length <= most && some.length > 2) return some;
    }
  }
  return chosen(named.length, most).map((index) => named[index]);
}

function slots(title, numbers) {
  const some = rounded(numbers);
  return axis(title, {
    tickmode: "array", tickvals: some.map(([, slot]) => slot), ticktext: some.map(([number]) => String(number)),
    range: [-0.5, Math.max(numbers.first.length - 0.5, 0.5)], showgrid: false,
  });
}

function layout(x, y, more = {}) {
  return {
    xaxis: x, yaxis: y, margin: { l: 62, r: 12, t: 26, b: 40 }, paper_bgcolor: css("--panel"), plot_bgcolor: css("--empty"),
    font: { color: css("--text"), size: 12, family: "system-ui, DejaVu Sans, sans-serif" }, dragmode: "select", selectdirection: "d",
    modebar: { bgcolor: "rgba(0,0,0,0)", color: css("--quiet"), activecolor: css("--strong") }, hovermode: "closest", showlegend: false, ...more,
  };
}

const bar = (title, ticks) => ({
  title: { text: title, side: "right" }, thickness: 12, outlinewidth: 0, tickcolor: css("--line"), tickmode: ticks ? "array" : "auto", nticks: 8, tickformat: ",~f",
  ...(ticks ? { tickvals: ticks, ticktext: ticks.map(String) } : {}),
});

// The outlines around what changed in a map, in slots: boxes of cells, or the region that holds all of them.
export const boxes = (view) => (view.region ? [view.region] : view.marks).map(([low, high, first, last]) => [first - 0.5, last + 0.5, low - 0.5, high + 0.5]);

function outlines(found) {
  const x = [];
  const y = [];
  for (const [left, right, low, high] of found) {
    x.push(left, right, right, left, left, null);
    y.push(low, low, high, high, low, null);
  }
  return [[css("--halo"), 4], [css("--mark"), 2]].map(([color, width]) => ({ type: "scatter", mode: "lines", x, y, line: { color, width }, hoverinfo: "skip" }));
}

function cells(z, view, look) {
  const count = view.down.first.length * view.right.first.length;
  const gap = count < 2500 ? 1 : 0;
  return { type: "heatmap", z, xgap: gap, ygap: gap, zsmooth: count > MANY ? "fast" : false, hoverinfo: "none", ...look };
}

const foldLook = (view, scale) => ({
  zmin: 0, zmax: Math.max(view.end, 2), ...scaled(scale), colorbar: bar("fold (traces of a cell)", wholes(0, Math.max(view.end, 2))),
});
const sliceLook = (view) => ({ zmin: -view.end, zmax: view.end, colorscale: SLICES, colorbar: bar("sample (as in the file, no unit)") });

// A scale of colours by its name. The greys of plotly begin with black, and a cell without traces is grey: they end before it.
const scaled = (name) => (name === "Greys" ? { colorscale: [[0, "#101010"], [1, "#ffffff"]] } : { colorscale: name });

export const map = (kind, z, view, found, scale) => ({
  data: [cells(z, view, kind === "fold" ? foldLook(view, scale) : sliceLook(view)), ...outlines(found)],
  layout: layout(slots("crossline (number)", view.right), slots("inline (number)", view.down), { uirevision: `${kind} ${view.right.first.length} ${view.down.first.length}` }),
});

// x and y have one scale: a survey has the shape that it has on the ground.
export function places(drawn, view, unit, marking, scale) {
  const look = { ...scaled(scale), colorbar: bar("trace (position in the file)") };
  const data = drawn.kind === "points"
    ? { type: "scatter", mode: "markers", x: drawn.x, y: drawn.y, customdata: drawn.trace, hovertemplate: "trace %{customdata}<br>x %{x}<br>y %{y}<extra></extra>",
        marker: { size: 7, color: drawn.trace, line: { width: 0.8, color: css("--quiet") }, ...look } }
    : { type: "heatmap", z: drawn.z, x0: drawn.x0, y0: drawn.y0, dx: drawn.dx, dy: drawn.dy, hovertemplate: "first trace %{z}<br>x %{x}<br>y %{y}<extra></extra>", ...look };
  const { x, y } = marking ? view.marks : { x: [], y: [] };
  const marks = { type: "scatter", mode: "markers", x, y, hoverinfo: "skip", marker: { size: 11, symbol: "circle-open", color: css("--mark"), line: { width: 2 } } };
  const format = { tickformat: "~f" };
  return {
    data: [data, marks, ...outlines(marking && view.region ? [view.region] : [])],
    layout: layout(axis(`x (${unit})`, { range: wide(view.x), nticks: 6, ...format }), axis(`y (${unit})`, { range: wide(view.y), nticks: 8, scaleanchor: "x", ...format }),
      { plot_bgcolor: css("--plot"), dragmode: "zoom", uirevision: "places" }),
  };
}

// Bins by the numbers of their lines, or where they lie: then x and y have one scale.
export function fieldMap(view, scale, unit) {
  const title = view.colour === "fold" ? "fold (traces of a cell)" : view.colour === "misfit" ? `misfit (${unit})` : plain(view.colour);
  const ends = { ...scaled(scale), colorbar: bar(title) };
  if (view.kind === "number") {
    return { data: [cells(view.now, view, { zmin: view.low, zmax: view.high, ...ends })],
      layout: layout(slots("crossline (number)", view.right), slots("inline (number)", view.down), { uirevision: `field ${view.right.first.length} ${view.down.first.length}` }) };
  }
  const [x0, y0] = [view.x[0], view.y[0]];
  const data = view.kind === "points"
    ? { type: "scatter", mode: "markers", x: view.px, y: view.py, customdata: view.trace, text: view.value.map((value, at) => `inline ${view.inline[at]}, crossline ${view.crossline[at]}: ${Number(value.toPrecision(9))}`),
        hovertemplate: "%{text}<br>x %{x}<br>y %{y}<extra></extra>", marker: { size: 8, symbol: "square", color: view.value, cmin: view.low, cmax: view.high, ...ends } }
    : { type: "heatmap", z: view.z, x0, y0, dx: view.side, dy: view.side, customdata: view.first, zmin: view.low, zmax: view.high, hovertemplate: "%{z}<br>trace %{customdata}<br>x %{x}<br>y %{y}<extra></extra>", ...ends };
  return { data: [data], layout: layout(axis(`x (${unit})`, { range: wide(view.x), nticks: 6, tickformat: "~f" }), axis(`y (${unit})`, { range: wide(view.y), nticks: 8, tickformat: "~f", scaleanchor: "x" }),
    { plot_bgcolor: css("--plot"), dragmode: "zoom", uirevision: "lying" }) };
}

function wide([least, most]) {
  const room = (most - least) * 0.04 || 1;
  return [least - room, most + room];
}

// Fields against the number of the trace, one below the other: the numbers stay whole, and one scale goes across all of them.
export function series(view, points, drag, heights) {
  const count = view.fields.length;
  const room = 0.06;
  const tall = (1 - room * (count - 1)) / count;
  const kind = points || view.last === view.first ? "markers" : "lines";
  const data = view.fields.map(({ name, trace, value }, at) => ({
    type: "scatter", mode: kind, x: trace, y: value, xaxis: "x", yaxis: at ? `y${at + 1}` : "y", name, line: { color: css("--strong"), width: 1.2 }, marker: { color: css("--strong"), size: 4 },
    hovertemplate: `trace %{x}<br>${plain(name)} %{y}<extra></extra>`,
  }));
  const shape = layout(axis("trace (position in the file)", { range: [view.first - 0.5, Math.max(view.last, view.first) + 0.5], tickformat: "d", nticks: 10, anchor: count > 1 ? `y${count}` : "y" }), null,
    { plot_bgcolor: css("--plot"), selectdirection: "any", dragmode: drag });
  delete shape.yaxis;
  view.fields.forEach(({ name }, at) => {
    const top = 1 - at * (tall + room);
    shape[at ? `yaxis${at + 1}` : "yaxis"] = axis(plain(name), { domain: [Math.max(top - tall, 0), top], anchor: "x", tickformat: "~f", nticks: count > 2 ? 4 : 6,
      ...(heights[name] ? { range: heights[name] } : { autorange: true }) });
  });
  return { data, layout: shape };
}

// A name as plotly shows it: it reads some tags, and a name has none.
const plain = (name) => name.replace(/[<>&%]/g, "?");

// A field against another one: points that lead to their traces, or pixels with their numbers of traces.
export function cloud(view, drag) {
  const [x, y] = view.names.map(plain);
  const data = view.kind === "points"
    ? { type: "scatter", mode: "markers", x: view.x, y: view.y, customdata: view.trace, marker: { size: 6, color: css("--strong") }, hovertemplate: `trace %{customdata}<br>${x} %{x}<br>${y} %{y}<extra></extra>` }
    : { type: "heatmap", x0: view.x0, y0: view.y0, dx: view.dx, dy: view.dy, z: view.z.map((row) => row.map((one) => (one === null ? null : Math.log10(one)))), customdata: view.z,
        hovertemplate: `%{customdata} traces<br>${x} %{x}<br>${y} %{y}<extra></extra>`, colorscale: "Cividis", colorbar: bar("traces of a pixel (power of ten)") };
  const look = { tickformat: "~f", nticks: 8 };
  return { data: [data], layout: layout(axis(x, look), axis(y, look), { plot_bgcolor: css("--plot"), selectdirection: "any", dragmode: drag }) };
}

export function bars(times, end) {
  return {
    data: [{ type: "bar", x: times.map(([fold]) => fold), y: times.map(([, count]) => count), marker: { color: css("--strong") }, hovertemplate: "fold %{x}: %{y} cells<extra></extra>" }],
    layout: layout(axis("fold (traces of a cell)", { tickvals: wholes(0, end.fold), range: [0.4, end.fold + 0.6], showgrid: false }),
      axis("cells (number)", { tickvals: wholes(0, end.cells), range: [0, end.cells * 1.06], tickformat: "d" }), { plot_bgcolor: css("--plot"), dragmode: "zoom" }),
  };
}

// A picture as large as its room. Beside another one the colour bar has no title: there the caption tells it.
export function draw(room, picture, beside = false) {
  for (const one of picture.data) {
    const look = one.colorbar || (one.marker && one.marker.colorbar);
    if (look && beside) look.title = { text: "" };
  }
  return Plotly.react(room, picture.data, { ...picture.layout, width: room.clientWidth, height: room.clientHeight }, CONFIG);
}

// A zoom of one plot is that of the other.
export function together(one, other) {
  const follow = (from, to) => from.on("plotly_relayout", (change) => {
    const keys = Object.keys(change).filter((key) => /^[xy]axis\.(range|autorange)/.test(key));
    if (!keys.length || to.hidden || !to._fullLayout || to.closest("[hidden]")) return;
    const now = keys.every((key) => JSON.stringify(valueAt(to.layout, key)) === JSON.stringify(change[key]));
    if (!now) Plotly.relayout(to, Object.fromEntries(keys.map((key) => [key, change[key]])));
  });
  follow(one, other);
  follow(other, one);
}

function valueAt(object, path) {
  return path.replace(/\[(\d)\]/g, ".$1").split(".").reduce((found, key) => (found === undefined || found === null ? undefined : found[key]), object);
}

const stroke = (width) => ({ color: css("--mark"), width });
const ring = (x, y) => ({ type: "circle", xsizemode: "pixel", ysizemode: "pixel", xanchor: x, yanchor: y, x0: -9, x1: 9, y0: -9, y1: 9, line: stroke(3) });

// The traces of a problem: boxes of slots on a map, rings around places. In its place stands nothing.
export const spot = (room, found, places) => Plotly.relayout(room, {
  shapes: [...found.map(([x0, x1, y0, y1]) => ({ type: "rect", x0, x1, y0, y1, line: stroke(3) })), ...places.map(([x, y]) => ring(x, y))],
});

// The traces from one to another on a graph of fields against the trace.
export const band = (room, { first, last }) => Plotly.relayout(room, {
  shapes: first ? [{ type: "rect", xref: "x", yref: "paper", x0: first - 0.5, x1: last + 0.5, y0: 0, y1: 1, fillcolor: css("--mark"), opacity: 0.3, line: stroke(2) }] : [],
});

export const cursor = (room, row, column) => Plotly.relayout(room, {
  shapes: row === null ? [] : [{ type: "rect", x0: column - 0.5, x1: column + 0.5, y0: row - 0.5, y1: row + 0.5, line: { color: css("--text"), width: 3 } }],
});
