// The viewer in a page that `comtrade page` writes. The page holds one record: its head as JSON in #head, each analogue channel's
// samples in #s0, #s1 .. (little-endian integers in base64; the least one is a missing reading), each contact's bits in #d0, #d1 ..,
// the rows' times in #times (doubles, nanoseconds since the trigger). Everything else is drawn here.
"use strict";

const head = JSON.parse(document.getElementById("head").textContent);
const rows = head.rows;
const dark = matchMedia("(prefers-color-scheme:dark)");

/** The bytes of a block of the page. */
function bytesOf(id) {
  const element = document.getElementById(id);
  const text = atob(element.textContent);
  element.remove();
  const bytes = new Uint8Array(text.length);
  for (let i = 0; i < text.length; i++) bytes[i] = text.charCodeAt(i);
  return bytes;
}

const times = new Float64Array(bytesOf("times").buffer);

/** Rows of a block of the lowest level of a pyramid, and blocks of a block of the next one. */
const BLOCK = 32, FACTOR = 4;

/** The least and the greatest sample of blocks of rows, level by level, so that the extremes of a column of any width are found in a few steps. */
function pyramidOf(samples, missing) {
  const levels = [];
  let count = Math.ceil(rows / BLOCK);
  let least = new Int32Array(count).fill(2147483647), greatest = new Int32Array(count).fill(-2147483648);
  for (let i = 0; i < rows; i++) {
    const sample = samples[i], block = Math.floor(i / BLOCK);
    if (sample === missing) continue;
    if (sample < least[block]) least[block] = sample;
    if (sample > greatest[block]) greatest[block] = sample;
  }
  for (let size = BLOCK; ; size *= FACTOR) {
    levels.push({ size, least, greatest });
    if (count <= FACTOR) return levels;
    const next = Math.ceil(count / FACTOR);
    const low = new Int32Array(next).fill(2147483647), high = new Int32Array(next).fill(-2147483648);
    for (let i = 0; i < count; i++) {
      const block = Math.floor(i / FACTOR);
      low[block] = Math.min(low[block], least[i]);
      high[block] = Math.max(high[block], greatest[i]);
    }
    least = low, greatest = high, count = next;
  }
}

const channels = head.analog.map((channel, i) => {
  const bytes = bytesOf("s" + i);
  const samples = channel.wide ? new Int32Array(bytes.buffer) : new Int16Array(bytes.buffer);
  const missing = channel.wide ? -2147483648 : -32768;
  return { ...channel, samples, missing, pyramid: pyramidOf(samples, missing), isOn: true };
});

const bitAt = (contact, row) => (contact.bits[row >> 3] >> (row & 7)) & 1;

/** The rows whose bit differs from that of the row before. */
function changesOf(contact) {
  const list = [];
  for (let i = 1; i < rows; i++) if (bitAt(contact, i) !== bitAt(contact, i - 1)) list.push(i);
  return list;
}
const contacts = head.status.map((contact, i) => ({ ...contact, bits: bytesOf("d" + i) }));
for (const contact of contacts) {
  contact.changes = changesOf(contact);
  contact.isOn = contacts.length <= 8 || contact.changes.length > 0;
}

/** Whether a scan was lost: no channel has a reading. */
const isLost = (row) => channels.length > 0 && channels.every((channel) => channel.samples[row] === channel.missing);
/** The runs of lost scans: the row before each, and the one after it. */
const gaps = [];
for (let i = 0; i < rows; i++) {
  if (!isLost(i)) continue;
  const from = Math.max(0, i - 1);
  while (i < rows && isLost(i)) i++;
  gaps.push([from, Math.min(i, rows - 1)]);
}

/** The least and greatest sample of the rows from `from` on and before `to`; null where all are missing. */
function extremes(channel, from, to) {
  let low = Infinity, high = -Infinity, row = from;
  const look = (least, greatest) => {
    if (least <= greatest) low = Math.min(low, least), high = Math.max(high, greatest);
  };
  while (row < to) {
    let level = -1;
    while (level + 1 < channel.pyramid.length) {
      const { size } = channel.pyramid[level + 1];
      if (row % size !== 0 || row + size > to) break;
      level++;
    }
    if (level < 0) {
      const sample = channel.samples[row++];
      if (sample !== channel.missing) look(sample, sample);
    } else {
      const { size, least, greatest } = channel.pyramid[level];
      look(least[row / size], greatest[row / size]);
      row += size;
    }
  }
  return low <= high ? [low, high] : null;
}

/** The first row at or after a time. */
function rowAt(time) {
  let low = 0, high = rows;
  while (low < high) {
    const middle = (low + high) >> 1;
    if (times[middle] < time) low = middle + 1;
    else high = middle;
  }
  return low;
}

/** The row nearest to a time. */
function nearestRow(time) {
  const after = Math.min(rowAt(time), rows - 1), before = Math.max(after - 1, 0);
  return time - times[before] < times[after] - time ? before : after;
}

const begin = rows ? times[0] : 0;
const whole = { from: begin, to: rows && times[rows - 1] > begin ? times[rows - 1] : begin + 1 };
const cycle = head.hertz > 0 ? 1e9 / head.hertz : 0;
const state = {
  from: head.from ?? whole.from, to: head.to ?? whole.to,
  cursors: [nearestRow(0), nearestRow(Math.min(whole.to, cycle || whole.to))],
  active: 0, side: "file",
};

/** The factor that converts a channel's values to the chosen side. */
function ratio(channel) {
  if (state.side === "file" || state.side === channel.side || !(channel.primary > 0) || !(channel.secondary > 0)) return 1;
  return state.side === "P" ? channel.primary / channel.secondary : channel.secondary / channel.primary;
}

/** The value of a channel in a row; null where its reading is missing. */
function valueAt(channel, row) {
  const sample = channel.samples[row];
  return sample === channel.missing || sample === undefined ? null : (channel.a * sample + channel.b) * ratio(channel);
}

const PREFIXES = { "-12": "p", "-9": "n", "-6": "\u00b5", "-3": "m", 0: "", 3: "k", 6: "M", 9: "G", 12: "T", 15: "P", 18: "E" };
const BASE = /^([numkKMG]?)(A|V|W|VA|var|VAr|VAR|Hz|Ohm|ohm)$/;

/** A number to four digits, without zeros at its end. */
function digits(x) {
  const text = Math.abs(x) < 1e15 && (Math.abs(x) >= 1e-4 || x === 0) ? Number(x.toPrecision(4)).toString() : x.toExponential(3);
  return text.replace("-", "\u2212");
}

/** A value with its unit, with a prefix where the unit takes one. */
function quantity(value, unit) {
  if (value === null || value === undefined || Number.isNaN(value)) return "";
  const match = BASE.exec(unit);
  if (!match) return digits(value) + " " + unit;
  const shift = { n: -9, u: -6, m: -3, "": 0, k: 3, K: 3, M: 6, G: 9 }[match[1]];
  const size = Math.abs(value) * 10 ** shift;
  let exponent = size > 0 ? Math.floor(Math.log10(size * 1.0000001) / 3) * 3 : shift;
  exponent = Math.max(-12, Math.min(18, exponent));
  return digits(value * 10 ** (shift - exponent)) + " " + PREFIXES[exponent] + match[2];
}

/** The unit in which times are shown. */
function timeUnit(span) {
  if (!head.isTimed) return { size: 1, name: "row" };
  if (span < 2e6) return { size: 1e3, name: "\u00b5s" };
  return span < 1e10 ? { size: 1e6, name: "ms" } : { size: 1e9, name: "s" };
}
const timeText = (time, span = Math.abs(time)) => {
  const unit = timeUnit(span);
  return Number((time / unit.size).toFixed(3)).toString().replace("-", "\u2212") + " " + unit.name;
};

/** The rows of each rate: from where to where, the rows of a cycle (`length`), and the whole ones of these (`count`). */
const stretches = head.rates.map(([rate, to], i) => {
  const length = rate / head.hertz;
  return { from: i ? head.rates[i - 1][1] : 0, to, length, count: Math.floor(length + 1e-9), fit: undefined };
});

/** The least squares over a cycle's rows, as in `comtrade measure`: in each row a 1, and the cosine and sine of each order below half the rows
    of a cycle, at most 25; and the matrix of their products as a lower triangle times its transpose. Null where there is no single solution. */
function fitOf({ length, count }) {
  const side = 2 * Math.min(25, Math.floor((count - 1) / 2)) + 1, cells = [];
  const terms = Array.from({ length: count }, (_, row) => Float64Array.from({ length: side }, (_, i) => {
    const angle = (2 * Math.PI * row * Math.ceil(i / 2)) / length;
    return i % 2 ? Math.cos(angle) : i ? Math.sin(angle) : 1;
  }));
  for (let i = 0; i < side; i++) {
    cells.push(new Float64Array(side));
    for (const list of terms) for (let k = 0; k <= i; k++) cells[i][k] += list[i] * list[k];
  }
  for (let k = 0; k < side; k++)
    for (let i = k; i < side; i++) {
      let rest = cells[i][k];
      for (let n = 0; n < k; n++) rest -= cells[i][n] * cells[k][n];
      if (i === k && !(rest > cells[k][k] * 1e-10)) return null;
      cells[i][k] = i === k ? Math.sqrt(rest) : rest / cells[k][k];
    }
  return withLine({ terms, cells, side });
}

/** The parts of a signal whose products with the terms have these sums. */
function solve({ cells, side }, sums) {
  const parts = Float64Array.from(sums);
  for (let i = 0; i < side; i++) {
    for (let n = 0; n < i; n++) parts[i] -= cells[i][n] * parts[n];
    parts[i] /= cells[i][i];
  }
  for (let i = side - 1; i >= 0; i--) {
    for (let n = i + 1; n < side; n++) parts[i] -= cells[n][i] * parts[n];
    parts[i] /= cells[i][i];
  }
  return parts;
}

/** The fit, and the straight line through its rows, from 1/2 before them to 1/2 after them: its heights, its parts, and what these leave. */
function withLine(fit) {
  const count = fit.terms.length, heights = fit.terms.map((_, i) => (i + 0.5) / count - 0.5), sums = new Float64Array(fit.side);
  fit.terms.forEach((terms, i) => { for (let k = 0; k < fit.side; k++) sums[k] += heights[i] * terms[k]; });
  const line = solve(fit, sums);
  return { ...fit, heights, line, left: heights.reduce((rest, h) => rest + h * h, 0) - sums.reduce((rest, sum, i) => rest + sum * line[i], 0) };
}

/** Whether the dc part is taken as a line, since it decays and the rows show that clearly, by the rule of `comtrade measure`. */
function isLine(mean, fall, before, after, spare, peak) {
  const size = Math.abs(mean), drop = Math.abs(fall);
  const isStraight = 9 * after <= before && after * fall * fall <= 0.04 * 0.04 * before * mean * mean;
  return spare >= 12 && mean * fall > 0 && 0.001 * peak <= drop && drop <= 2 * size && 0.03 * peak <= size &&
    40 * after <= (before - after) * spare && (0.12 * peak <= size || isStraight);
}

/** The rms value of the last whole cycle that ends at a row and has one rate, and the rms value and angle of its fundamental, with the channel's
    skew; null where there is no such cycle, or a reading is missing. */
function cycleValues(channel, row) {
  const stretch = head.hertz > 0 ? stretches.find(({ to }) => row < to) : undefined;
  if (!stretch || stretch.count < 3 || row + 1 - stretch.count < stretch.from) return null;
  if (stretch.fit === undefined) stretch.fit = fitOf(stretch);
  const { fit, count } = stretch;
  if (!fit) return null;
  const sums = new Float64Array(fit.side);
  let squares = 0, peak = 0, product = 0;
  for (let i = 0; i < count; i++) {
    const value = valueAt(channel, row + 1 - count + i), terms = fit.terms[i];
    if (value === null) return null;
    for (let k = 0; k < fit.side; k++) sums[k] += value * terms[k];
    squares += value * value;
    product += value * fit.heights[i];
    peak = Math.max(peak, Math.abs(value));
  }
  const parts = solve(fit, sums);
  const before = Math.max(0, sums.reduce((rest, sum, i) => rest - sum * parts[i], squares));
  let square = parts[0] ** 2 + before / count;
  for (let k = 1; k < fit.side; k++) square += parts[k] ** 2 / 2;
  const part = sums.reduce((rest, sum, i) => rest - sum * fit.line[i], product) / fit.left;
  const after = Math.max(0, before - part * part * fit.left);
  if (isLine(parts[0] - part * fit.line[0], -part, before, after, count - fit.side - 1, peak))
    for (let k = 0; k < fit.side; k++) parts[k] -= part * fit.line[k];
  const size = Math.hypot(parts[1], parts[2]) / Math.SQRT2;
  const angle = (Math.atan2(-parts[2], parts[1]) * 180) / Math.PI - channel.skew * 1e-6 * head.hertz * 360;
  return { rms: Math.sqrt(square), size, angle, hasAngle: peak * 1e-9 < size };
}

// The picture

const canvas = document.getElementById("picture");
const pen = canvas.getContext("2d");
const LEFT = 74, EDGE = 10, TITLE = 20, BAR = 18;
let plot = { width: 100, panels: [], bars: 0, height: 0 };

const COLOURS = {
  light: { a: "#de0d49", b: "#d5820f", c: "#096ac2", n: "#20231f", u: "#0e9578", v: "#ac7fe3", w: "#785629", z: "#c28ab1",
    text: "#1c1f23", faint: "#55595f", grid: "#e2e2e2", edge: "#8a8f96", page: "#ffffff", gap: "#dcd6c8", on: "#2e6b38", normal: "#8fb79a" },
  dark: { a: "#ff4038", b: "#ffcc38", c: "#0089ff", n: "#f0f2ef", u: "#008c82", v: "#c0acff", w: "#a38d6a", z: "#f98abc",
    text: "#e8eaed", faint: "#a9b0b8", grid: "#2c323a", edge: "#7b838d", page: "#14171c", gap: "#3d3a33", on: "#7fd492", normal: "#4e7a5b" },
};
const colours = () => (dark.matches ? COLOURS.dark : COLOURS.light);

/** The x coordinate of a time. */
const across = (time) => LEFT + ((time - state.from) / (state.to - state.from)) * plot.width;
/** The time at an x coordinate. */
const timeAt = (x) => state.from + ((x - LEFT) / plot.width) * (state.to - state.from);

/** The smallest 1, 2 or 5 times a power of ten that is not below a value. */
function roundStep(least) {
  const power = 10 ** Math.floor(Math.log10(least));
  for (const digit of [1, 2, 5, 10]) if (power * digit >= least * 0.999999) return power * digit;
}
/** The multiples of a round step in a span, at most `most` of them. */
function ticks(from, to, most) {
  const step = roundStep((to - from) / most), list = [];
  for (let i = Math.ceil(from / step - 1e-6); i * step <= to + step * 1e-6 && list.length < 50; i++) list.push(i * step);
  return list;
}

/** Lays out the panels of the channels shown, and the contacts shown. */
function layOut() {
  const numbers = [...new Set(channels.filter((channel) => channel.isOn).map((channel) => channel.panel))].sort((a, b) => a - b);
  const height = Math.max(70, Math.min(190, 620 / Math.max(1, numbers.length)));
  let top = 24;
  const panels = numbers.map((number) => {
    const panel = { number, top: top + TITLE, height, channels: channels.filter((channel) => channel.isOn && channel.panel === number) };
    top += TITLE + height;
    return panel;
  });
  const bars = contacts.filter((contact) => contact.isOn);
  const width = Math.max(200, canvas.parentElement.clientWidth);
  plot = { width: width - LEFT - EDGE, panels, bars, barsTop: top + 12, height: top + 12 + bars.length * BAR + 44 };
  const scale = window.devicePixelRatio || 1;
  canvas.width = Math.round(width * scale);
  canvas.height = Math.round(plot.height * scale);
  canvas.style.height = plot.height + "px";
  pen.setTransform(scale, 0, 0, scale, 0, 0);
}

/** The values at a panel's edges: the extremes of the rows drawn, and a margin. */
function edgesOf(panel) {
  const from = Math.max(0, rowAt(state.from) - 1), to = Math.min(rows, rowAt(state.to) + 1);
  let low = Infinity, high = -Infinity;
  for (const channel of panel.channels) {
    const found = extremes(channel, from, to);
    if (!found) continue;
    for (const sample of found) {
      const value = (channel.a * sample + channel.b) * ratio(channel);
      low = Math.min(low, value), high = Math.max(high, value);
    }
  }
  if (low > high) return null;
  const size = Math.max(Math.abs(low), Math.abs(high));
  const edge = high - low > size * 1e-9 ? (high - low) * 0.05 : size * 0.05 || 1;
  return { low: low - edge, high: high + edge };
}

/** A channel's trace: a line through its samples, or a stroke from least to greatest for each column. */
function drawTrace(channel, panel, edges) {
  const factor = ratio(channel);
  const level = (sample) => panel.top + (panel.height * (edges.high - (channel.a * sample + channel.b) * factor)) / (edges.high - edges.low);
  const from = Math.max(0, rowAt(state.from) - 1), to = Math.min(rows, rowAt(state.to) + 1);
  pen.strokeStyle = colours()[channel.hue];
  pen.lineWidth = 1.2;
  pen.beginPath();
  let isDown = false;
  const isDense = to - from > plot.width * 3;
  const step = isDense ? (state.to - state.from) / plot.width : 0;
  if (!isDense) {
    for (let i = from; i < to; i++) {
      const sample = channel.samples[i];
      if (sample === channel.missing) { isDown = false; continue; }
      const x = across(times[i]), y = level(sample);
      if (isDown) pen.lineTo(x, y);
      else pen.moveTo(x, y), pen.lineTo(x + 0.01, y);
      isDown = true;
      if (to - from < plot.width / 12) pen.rect(x - 1.5, y - 1.5, 3, 3), pen.moveTo(x, y);
    }
  } else {
    for (let column = 0, row = from; column < plot.width; column++) {
      const end = Math.min(to, rowAt(state.from + (column + 1) * step));
      const found = end > row ? extremes(channel, row, end) : null;
      if (end > row && !found) isDown = false;
      if (found) {
        const x = LEFT + column + 0.5, one = level(found[0]), other = level(found[1]);
        if (isDown) pen.lineTo(x, one);
        else pen.moveTo(x, one);
        pen.lineTo(x, other === one ? one + 0.5 : other);
        isDown = true;
      }
      row = Math.max(row, end);
    }
  }
  pen.stroke();
}

function text(words, x, y, align = "left", colour = colours().text) {
  pen.fillStyle = colour;
  pen.textAlign = align;
  pen.fillText(words, x, y);
}
function line(x1, y1, x2, y2, colour, dash = []) {
  pen.strokeStyle = colour;
  pen.lineWidth = 1;
  pen.setLineDash(dash);
  pen.beginPath(), pen.moveTo(x1, y1), pen.lineTo(x2, y2), pen.stroke();
  pen.setLineDash([]);
}

/** The names of a panel's traces above it, each after a piece of its line, as far as there is room. */
function nameTraces(panel, x) {
  for (const channel of panel.channels) {
    const width = pen.measureText(channel.id).width;
    if (x + 22 + width > LEFT + plot.width) return;
    pen.fillStyle = colours()[channel.hue];
    pen.fillRect(x, panel.top - 11, 16, 3);
    text(channel.id, x + 20, panel.top - 6);
    x += 36 + width;
  }
}

function drawPanel(panel) {
  const first = panel.channels[0], edges = edgesOf(panel);
  const side = { P: ", primary", S: ", secondary" }[state.side === "file" ? first.side : state.side];
  const heading = first.unit + side + (first.component ? ", " + first.component : "");
  text(heading, LEFT, panel.top - 6, "left", colours().faint);
  nameTraces(panel, LEFT + pen.measureText(heading).width + 20);
  if (edges) {
    const least = roundStep((edges.high - edges.low) / 5);
    for (const value of ticks(edges.low, edges.high, 5)) {
      const y = panel.top + (panel.height * (edges.high - value)) / (edges.high - edges.low);
      line(LEFT, y, LEFT + plot.width, y, colours().grid);
      text(quantity(Math.abs(value) < least / 1e6 ? 0 : value, first.unit).replace(/ (?=\D*$)/, "\u2009"), LEFT - 5, y + 4, "right");
    }
    pen.save();
    pen.beginPath(), pen.rect(LEFT, panel.top, plot.width, panel.height), pen.clip();
    for (const channel of panel.channels) drawTrace(channel, panel, edges);
    pen.restore();
  } else text("no readings", LEFT + plot.width / 2, panel.top + panel.height / 2, "center", colours().faint);
  pen.strokeStyle = colours().edge;
  pen.strokeRect(LEFT, panel.top, plot.width, panel.height);
}

function drawGaps(bottom) {
  for (const [from, to] of gaps) {
    const x = Math.max(LEFT, across(times[from])), end = Math.min(LEFT + plot.width, across(times[to]));
    if (end < LEFT || x > LEFT + plot.width) continue;
    pen.fillStyle = colours().gap;
    for (const panel of plot.panels) pen.fillRect(x, panel.top, Math.max(1, end - x), panel.height);
    pen.fillRect(x, plot.barsTop, Math.max(1, end - x), bottom - plot.barsTop);
    if (end - x > 70) text("gap " + timeText(times[to] - times[from]), (x + end) / 2, plot.panels[0] ? plot.panels[0].top + 12 : 20, "center", colours().faint);
  }
}

/** The contacts' bars: a column is filled where the bit is 1 at its start or becomes 1 within it. */
function drawContacts() {
  const edges = [];
  for (let column = 0; column <= plot.width; column++) edges.push(rowAt(timeAt(LEFT + column)));
  plot.bars.forEach((contact, i) => {
    const y = plot.barsTop + i * BAR;
    line(LEFT, y + BAR - 3.5, LEFT + plot.width, y + BAR - 3.5, colours().grid);
    pen.fillStyle = contact.normal ? colours().normal : colours().on;
    let next = 0, begin = -1;
    const first = rows ? bitAt(contact, 0) : 0;
    for (let column = 0; column < plot.width; column++) {
      const from = edges[column], to = edges[column + 1];
      while (next < contact.changes.length && contact.changes[next] < from) next++;
      let isOn = (first ^ (next & 1)) === 1 && from > 0 && from <= rows;
      if (next < contact.changes.length && contact.changes[next] < to) isOn = true;
      if (from === 0 && to > 0) isOn = isOn || first === 1;
      if (isOn && begin < 0) begin = column;
      if (!isOn && begin >= 0) pen.fillRect(LEFT + begin, y + 3, column - begin, BAR - 7), (begin = -1);
    }
    if (begin >= 0) pen.fillRect(LEFT + begin, y + 3, plot.width - begin, BAR - 7);
  });
}

/** The contacts' names, with an edge in the colour of the page, so that they can be read on their bars. */
function nameContacts() {
  plot.bars.forEach((contact, i) => {
    const y = plot.barsTop + i * BAR + 12;
    pen.strokeStyle = colours().page;
    pen.lineWidth = 4;
    pen.lineJoin = "round";
    pen.textAlign = "left";
    pen.strokeText(contact.id, LEFT + 4, y);
    text(contact.id, LEFT + 4, y);
  });
}

function drawTimes(bottom) {
  const unit = timeUnit(state.to - state.from);
  for (const time of ticks(state.from, state.to, Math.max(2, plot.width / 90))) {
    const x = across(time), label = Number((time / unit.size).toPrecision(9)).toString().replace("-", "\u2212");
    for (const panel of plot.panels) line(x, panel.top, x, panel.top + panel.height, colours().grid);
    line(x, plot.barsTop, x, bottom, colours().grid);
    text(label, x, 16, "center");
    text(label, x, bottom + 16, "center");
  }
  text(head.isTimed ? unit.name + " since the trigger" : "row", LEFT + plot.width, bottom + 32, "right", colours().faint);
  text("whole record: " + timeText(whole.from) + " to " + timeText(whole.to), LEFT, bottom + 32, "left", colours().faint);
}

function drawUpright(time, colour, dash, label, bottom) {
  if (time < state.from || time > state.to) return;
  const x = across(time);
  for (const panel of plot.panels) line(x, panel.top, x, panel.top + panel.height, colour, dash);
  line(x, plot.barsTop, x, bottom, colour, dash);
  if (label) text(label, x + 3, plot.barsTop - 1, "left", colour);
}

function draw() {
  layOut();
  const bottom = plot.barsTop + plot.bars.length * BAR;
  pen.font = "12px sans-serif";
  pen.fillStyle = colours().page;
  pen.fillRect(0, 0, canvas.width, canvas.height);
  drawContacts();
  drawGaps(bottom);
  drawTimes(bottom);
  for (const panel of plot.panels) drawPanel(panel);
  nameContacts();
  if (head.isTimed) drawUpright(0, colours().text, [4, 3], "", bottom);
  state.cursors.forEach((row, i) => drawUpright(times[row], colours().text, [[], [7, 3]][i], "AB"[i], bottom));
}

// The tables

/** Adds an element with a text to a parent. */
function add(parent, tag, words = "", attributes = {}) {
  const element = document.createElement(tag);
  element.textContent = words;
  for (const [name, value] of Object.entries(attributes)) element.setAttribute(name, value);
  parent.append(element);
  return element;
}

/** Adds a box that shows or hides a channel or a contact. */
function addBox(row, item) {
  const box = add(add(row, "td"), "input", "", { type: "checkbox", "aria-label": item.id + " is drawn" });
  box.checked = item.isOn;
  box.addEventListener("change", () => { item.isOn = box.checked, update(); });
}

function buildTables() {
  const body = document.getElementById("channels");
  for (const channel of channels) {
    const row = add(body, "tr");
    addBox(row, channel);
    const words = channel.id + (channel.phase ? " (" + channel.phase + ")" : "");
    const name = add(row, "td", "", { title: words });
    channel.mark = add(name, "span", "\u25ac ", { "aria-hidden": "true" });
    add(name, "span", words);
    channel.cells = [0, 1, 2, 3, 4].map(() => add(row, "td"));
  }
  for (const contact of contacts) {
    const row = add(body, "tr");
    addBox(row, contact);
    add(row, "td", contact.id, { title: contact.id });
    contact.cells = [0, 1].map(() => add(row, "td"));
  }
}

/** The reference angle: that of the first channel shown that has one. */
function reference(row) {
  for (const channel of channels) {
    const found = channel.isOn ? cycleValues(channel, row) : null;
    if (found && found.hasAngle) return found.angle;
  }
  return 0;
}

function fillTables() {
  const [a, b] = state.cursors, zero = reference(state.cursors[state.active]);
  for (const channel of channels) {
    const one = valueAt(channel, a), other = valueAt(channel, b);
    const found = cycleValues(channel, state.cursors[state.active]);
    const hasAngle = found && found.hasAngle, angle = hasAngle ? (((found.angle - zero + 540) % 360) + 360) % 360 - 180 : 0;
    const words = [quantity(one, channel.unit), quantity(other, channel.unit),
      one === null || other === null ? "" : quantity(other - one, channel.unit), found ? quantity(found.rms, channel.unit) : "",
      hasAngle ? quantity(found.size, channel.unit) + " \u2220 " + digits(Math.round(angle * 10) / 10) + "\u00b0" : ""];
    channel.cells.forEach((cell, i) => { cell.textContent = words[i]; });
    channel.mark.style.color = colours()[channel.hue];
  }
  for (const contact of contacts) contact.cells.forEach((cell, i) => { cell.textContent = bitAt(contact, state.cursors[i]); });
  const gap = times[b] - times[a], cycles = digits(gap / cycle);
  document.getElementById("cursors").textContent = `A: ${timeText(times[a])} (row ${a + 1}) \u00b7 B: ${timeText(times[b])} (row ${b + 1})`
    + ` \u00b7 B \u2212 A: ${timeText(gap)}` + (cycle && head.isTimed ? ` (${cycles} ${/^\u2212?1$/.test(cycles) ? "cycle" : "cycles"})` : "")
    + ` \u00b7 arrow keys move ${"AB"[state.active]}`;
  document.getElementById("side").textContent = { file: "values as in the file", P: "primary values", S: "secondary values" }[state.side];
}

let isWaiting = false;
function update() {
  if (isWaiting) return;
  isWaiting = true;
  requestAnimationFrame(() => { isWaiting = false, draw(), fillTables(); });
}

// Navigation

/** Shows a span of times, not shorter than a few rows and within the record. */
function show(from, to) {
  const least = Math.max(((whole.to - whole.from) / rows) * 4, 1e-3);
  const span = Math.min(Math.max(to - from, least), whole.to - whole.from);
  state.from = Math.max(whole.from, Math.min((from + to - span) / 2, whole.to - span));
  state.to = state.from + span;
  update();
}
/** Scales the span by a factor; a time keeps its position. */
const zoom = (time, factor) => show(time - (time - state.from) * factor, time + (state.to - time) * factor);
/** Moves the picture by a part of its width. */
const pan = (part) => show(state.from + part * (state.to - state.from), state.to + part * (state.to - state.from));

function moveCursor(which, row) {
  state.cursors[which] = Math.max(0, Math.min(rows - 1, row));
  state.active = which;
  update();
}
function keepCursorInView() {
  const time = times[state.cursors[state.active]];
  if (time < state.from || time > state.to) show(time - (state.to - state.from) / 2, time + (state.to - state.from) / 2);
}

const around = () => show(-5 * (cycle || 2e7), 10 * (cycle || 2e7));
const sides = { file: "P", P: "S", S: "file" };
const KEYS = {
  ArrowLeft: (far) => { moveCursor(state.active, state.cursors[state.active] - (far ? 10 : 1)), keepCursorInView(); },
  ArrowRight: (far) => { moveCursor(state.active, state.cursors[state.active] + (far ? 10 : 1)), keepCursorInView(); },
  PageUp: () => pan(-0.5), PageDown: () => pan(0.5), Home: () => show(whole.from, whole.from + state.to - state.from),
  End: () => show(whole.to - (state.to - state.from), whole.to),
  "+": () => zoom((state.from + state.to) / 2, 0.5), "-": () => zoom((state.from + state.to) / 2, 2),
  0: () => show(whole.from, whole.to), t: around,
  a: () => moveCursor(0, state.cursors[0]), b: () => moveCursor(1, state.cursors[1]),
  p: () => { state.side = sides[state.side], update(); },
};

addEventListener("keydown", (event) => {
  const act = KEYS[event.key] || KEYS[event.key.toLowerCase()];
  if (!act || event.ctrlKey || event.metaKey || event.altKey) return;
  act(event.shiftKey);
  event.preventDefault();
});
canvas.addEventListener("wheel", (event) => {
  event.preventDefault();
  if (event.shiftKey || Math.abs(event.deltaX) > Math.abs(event.deltaY)) pan((event.deltaX + event.deltaY) / 1000);
  else zoom(timeAt(event.offsetX), Math.exp(event.deltaY / 400));
}, { passive: false });

const pointers = new Map();
let drag = null;
canvas.addEventListener("pointerdown", (event) => {
  canvas.setPointerCapture(event.pointerId);
  pointers.set(event.pointerId, event.offsetX);
  const near = state.cursors.findIndex((row) => Math.abs(across(times[row]) - event.offsetX) < 6);
  drag = { x: event.offsetX, from: state.from, to: state.to, cursor: near, isMoved: false };
});
canvas.addEventListener("pointermove", (event) => {
  if (!pointers.has(event.pointerId)) return;
  const before = [...pointers.values()];
  pointers.set(event.pointerId, event.offsetX);
  const now = [...pointers.values()];
  if (now.length === 2) {
    const factor = Math.max(10, Math.abs(before[0] - before[1])) / Math.max(10, Math.abs(now[0] - now[1]));
    drag.isMoved = true;
    return zoom(timeAt((now[0] + now[1]) / 2), factor);
  }
  if (Math.abs(event.offsetX - drag.x) > 3) drag.isMoved = true;
  if (!drag.isMoved) return;
  if (drag.cursor >= 0) return moveCursor(drag.cursor, nearestRow(timeAt(event.offsetX)));
  const shift = ((drag.x - event.offsetX) / plot.width) * (drag.to - drag.from);
  show(drag.from + shift, drag.to + shift);
});
for (const name of ["pointerup", "pointercancel"]) canvas.addEventListener(name, (event) => {
  pointers.delete(event.pointerId);
  if (name === "pointerup" && drag && !drag.isMoved) moveCursor(event.shiftKey ? 1 : 0, nearestRow(timeAt(event.offsetX)));
});
for (const button of document.querySelectorAll("button[data-key]")) button.addEventListener("click", () => KEYS[button.dataset.key](false));
addEventListener("resize", update);
dark.addEventListener("change", update);

buildTables();
draw();
fillTables();
