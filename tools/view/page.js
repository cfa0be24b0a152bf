"use strict";
// The page of tools/view.py. A place is an event or a park of the journal, counted from 1; a lane is a task or a core.

const data = JSON.parse(document.getElementById("data").textContent);
const PLACES = data.lineOf.length;
const KINDS = ["queued", "sleep", "task", "job", "other"];
const [MADE, RESET, PENDING, READY, ENDED, DROPPED] = [0, 1, 2, 3, 4, 5];
const [CLOCK, INBOX] = [-1, -2];
const SPAWN = 1;
const NAMES = 96, RULER = 20, CLOCK_ROW = 34, INBOX_ROW = 22, TOP = RULER + CLOCK_ROW + INBOX_ROW, STRIP = 34;
const LANE = 38, ROW = 14, BARS = 56, BOX = 46;
const PALETTES = {
  light: {
    ground: "#ffffff", band: "#f7f8f9", text: "#1c1f23", dim: "#5f6771", line: "#d5d9de", turn: "#f2d388", edge: "#7a6128",
    end: "#9bbf85", park: "#d3e0ea", cursor: "#0b5cad", wake: "#c2303a", spawn: "#1f8a4c", jobEnd: "#c46a1b",
    kinds: ["#9aa1a9", "#2b7bba", "#8a4fb3", "#c46a1b", "#c2303a"],
  },
  dark: {
    ground: "#16191d", band: "#1d2126", text: "#e6e8ea", dim: "#a0a8b2", line: "#39414a", turn: "#a8873a", edge: "#e0c27a",
    end: "#5f8a4a", park: "#33495a", cursor: "#7cb8ff", wake: "#ff7a7a", spawn: "#5fd08c", jobEnd: "#f0a050",
    kinds: ["#7d868f", "#4fa3e0", "#b98ae0", "#e0913f", "#ff7a7a"],
  },
};

const element = (name) => document.getElementById(name);
const canvas = element("chart"), pen = canvas.getContext("2d", { alpha: false });

// Returns the first index at which `list` is at least `value`; `key` reads an entry.
function lower(list, value, key = (entry) => entry, low = 0) {
  let high = list.length;
  while (low < high) {
    const middle = (low + high) >> 1;
    if (key(list[middle]) < value) low = middle + 1;
    else high = middle;
  }
  return low;
}

const first = (entry) => entry[0];
const second = (entry) => entry[1];
const limited = (value, least, most) => Math.min(Math.max(value, least), most);

// ---- what the journal says, by lane ----

const wakesTo = data.lanes.map(() => []), wakesOf = data.lanes.map(() => []);
data.wakes.forEach((wake) => {
  wakesTo[wake[2]].push(wake);
  if (wake[1] >= 0) wakesOf[wake[1]].push(wake);
});
const laneOfTask = new Map(data.lanes.map((lane, number) => [lane.task, number]));
const placeOfLine = (line) => limited(lower(data.lineOf, line), 1, Math.max(PLACES - 1, 1));
const lineOf = (place) => data.lineOf[limited(place, 0, PLACES - 1)];
const sourceName = (source) => `${source.kind} ${source.number}`;

// The turn that each place has, for the lane of a place.
const laneOfPlace = new Int32Array(PLACES + 1).fill(-1);
data.lanes.forEach((lane, number) => lane.turns.forEach((place) => { laneOfPlace[place] = number; }));

// Returns the wait of a lane that covers a place, if one does.
function waitAt(lane, place) {
  const waits = data.lanes[lane].waits;
  const wait = waits[lower(waits, place + 1, second)];
  return wait && wait[0] <= place ? wait : null;
}

// Returns what a source did after a place, up to another: polled by another task, dropped, or ended.
function lostAt(source, lane, from, place) {
  const tells = data.sources[source].tells;
  for (let i = lower(tells, from + 1, first); i < tells.length && tells[i][0] <= place; i++) {
    const [, what, by] = tells[i];
    if (what === DROPPED || what === ENDED || (what === PENDING && by !== lane)) return tells[i];
  }
  return null;
}

function wakeBetween(lane, from, place) {
  const wakes = wakesTo[lane];
  const wake = wakes[lower(wakes, from + 1, first)];
  return wake && wake[0] <= place ? wake : null;
}

// Returns the entry by which another thread listed a task, if no drain has followed.
function listedAt(lane, from, place) {
  const word = `remote ${data.lanes[lane].task}: listed`;
  let listed = null;
  for (let i = lower(data.inbox, from + 1, first); i < data.inbox.length && data.inbox[i][0] <= place; i++) {
    if (data.inbox[i][1] === word) listed = data.inbox[i];
    else if (data.inbox[i][1].startsWith("drained")) listed = null;
  }
  return listed;
}

// Says whether nothing in sight wakes a task at a place.
function isStuck(lane, place) {
  const wait = waitAt(lane, place);
  if (!wait || wait[2] === 0 || wakeBetween(lane, wait[0], place) || listedAt(lane, wait[0], place)) return false;
  return wait.slice(3).every((source) => lostAt(source, lane, wait[0], place));
}

// A task is stuck at the end by the runtime's own list, if there is one, else by the journal.
const stuckLanes = data.lanes.flatMap((lane, number) => {
  const isSo = lane.row ? lane.row.endsWith("stuck") : PLACES > 1 && isStuck(number, PLACES);
  return isSo ? [number] : [];
});

// ---- the view ----

const view = {
  at: new Float64Array(PLACES + 2), byClock: false, left: 0, scale: 1, top: 0, lanes: [], tops: [], kinds: new Set(KINDS.keys()),
  lane: -1, place: 1, width: 1, height: 1, palette: PALETTES.light, strip: null, isDirty: true, wakes: true, spawns: true, jobs: true,
};

// A place by line has its own number; by the clock its microsecond, and at least one after the place before.
function setAxis(byClock) {
  view.byClock = byClock;
  let last = -1;
  for (let place = 0; place < PLACES + 2; place++) {
    const nanos = data.nanos[Math.min(place, PLACES - 1)];
    last = byClock ? Math.max(last + 1, nanos / 1000) : place;
    view.at[place] = last;
  }
  view.strip = null;
  element("axis").textContent = byClock ? "by clock" : "by line";
}

const xOf = (place) => NAMES + (view.at[place] - view.left) * view.scale;
const coordinateAt = (x) => view.left + (x - NAMES) / view.scale;
const placeAt = (x) => limited(lower(view.at, coordinateAt(x) + 1e-9) - 1, 1, Math.max(PLACES - 1, 1));
const chartWidth = () => Math.max(view.width - NAMES, 10);
const widthOf = (place) => limited((view.at[place + 1] - view.at[place]) * view.scale * 0.7, 1, BOX);
const middleOf = (place) => xOf(place) + widthOf(place) / 2;

function dirty() {
  if (!view.isDirty) {
    view.isDirty = true;
    requestAnimationFrame(draw);
  }
}

function keepInside() {
  const whole = view.at[PLACES + 1] - view.at[0];
  view.scale = limited(view.scale, chartWidth() / (whole * 1.04), view.byClock ? 60 : 240);
  const room = chartWidth() / view.scale;
  view.left = limited(view.left, -0.02 * whole, Math.max(view.at[PLACES + 1] + 0.02 * whole - room, -0.02 * whole));
  view.top = limited(view.top, 0, Math.max(0, lanesHeight() - (view.height - TOP - STRIP)));
}

const lanesHeight = () => view.tops[view.lanes.length] || 0;

function zoom(factor, x = NAMES + chartWidth() / 2) {
  const fixed = coordinateAt(x);
  view.scale *= factor;
  keepInside();
  view.left = fixed - (x - NAMES) / view.scale;
  keepInside();
  dirty();
}

function fit() {
  view.scale = 0;
  keepInside();
  dirty();
}

function pan(pixels) {
  view.left += pixels / view.scale;
  keepInside();
  dirty();
}

function scroll(pixels) {
  view.top += pixels;
  keepInside();
  dirty();
}

const rowsOf = (lane) => (view.jobs ? data.lanes[lane].bars.reduce((most, bar) => Math.max(most, bar[2] + 1), 0) : 0);

// The bars of a lane are lower if there are more of them at one place.
const rowHeight = (lane) => limited(Math.floor(BARS / Math.max(rowsOf(lane), 1)), 2, ROW);

function showLanes(lanes) {
  view.lanes = lanes;
  view.tops = [0];
  lanes.forEach((lane) => view.tops.push(view.tops[view.tops.length - 1] + LANE + rowHeight(lane) * rowsOf(lane)));
  view.rowOf = new Map(lanes.map((lane, row) => [lane, row]));
  keepInside();
  dirty();
}

const allLanes = () => data.lanes.map((_, lane) => lane);

// Returns the lanes that words such as `0 3 5-9` name.
function lanesOfWords(words) {
  const ranges = [...words.matchAll(/(\d+)(?:\s*-\s*(\d+))?/g)].map(([, low, high]) => [Number(low), Number(high ?? low)]);
  if (!ranges.length) return allLanes();
  const number = (lane) => Number(data.lanes[lane].name.split(" ")[1]);
  return allLanes().filter((lane) => ranges.some(([low, high]) => number(lane) >= low && number(lane) <= high));
}

function lanesInView() {
  const low = placeAt(NAMES), high = placeAt(view.width);
  return allLanes().filter((lane) => {
    const { waits, turns, bars } = data.lanes[lane];
    const wait = waits[lower(waits, low, second)], turn = turns[lower(turns, low)];
    return (wait && wait[0] <= high) || turn <= high || bars.some((bar) => bar[0] <= high && bar[1] >= low);
  });
}

function partnersOf(lane) {
  const found = new Set([lane]);
  wakesTo[lane].forEach((wake) => wake[1] >= 0 && found.add(wake[1]));
  wakesOf[lane].forEach((wake) => found.add(wake[2]));
  return [...found].sort((a, b) => a - b);
}

// ---- drawing ----

function words(text, x, y, colour, room = Infinity, align = "left") {
  const most = Math.floor(room / 6.3);
  if (most < Math.min(text.length, 5)) return;
  pen.fillStyle = colour;
  pen.textAlign = align;
  pen.fillText(text.length > most ? `${text.slice(0, most - 1)}…` : text, x, y);
}

// Whole pixels are drawn faster.
function box(x, y, width, height, colour, edge) {
  const left = Math.round(x), top = Math.round(y), across = Math.max(Math.round(x + width) - left, 1);
  pen.fillStyle = colour;
  pen.fillRect(left, top, across, height);
  if (edge && across > 4) {
    pen.strokeStyle = edge;
    pen.strokeRect(left + 0.5, top + 0.5, across - 1, height - 1);
  }
}

// Draws boxes of one row from left to right; boxes of one colour that touch are one.
class Row {
  constructor(y, height) {
    Object.assign(this, { y, height, left: 0, right: -9, colour: null });
  }

  put(left, right, colour) {
    if (colour !== this.colour || left > this.right + 1) {
      this.end();
      Object.assign(this, { left, right, colour });
    }
    this.right = Math.max(this.right, right);
  }

  end() {
    if (this.colour) box(this.left, this.y, this.right - this.left, this.height, this.colour);
    this.colour = null;
  }
}

// Calls `put` with each entry in view, and once for each pixel where entries lie closer; `begin` and `end` give its places.
function eachInView(list, begin, end, put) {
  const low = placeAt(NAMES), high = placeAt(view.width);
  let i = lower(list, low, end);
  while (i < list.length && begin(list[i]) <= high) {
    const x = xOf(begin(list[i])), until = Math.max(xOf(end(list[i])), x + 1);
    put(list[i], Math.max(x, NAMES - 60), Math.min(until, view.width + 60), i);
    // Of those that end within this pixel, the last is drawn, too.
    i = until - x > 2 ? i + 1 : Math.max(i + 1, lower(list, placeAt(until + 0.5) + 1, end, i + 1) - 1);
  }
}

function drawRuler() {
  box(0, 0, view.width, RULER, view.palette.band);
  const apart = 10 ** Math.ceil(Math.log10(90 / view.scale));
  const step = [apart / 5, apart / 2, apart].find((size) => size * view.scale >= 70) || apart;
  for (let mark = Math.max(0, Math.ceil(coordinateAt(NAMES) / step) * step); mark <= coordinateAt(view.width); mark += step) {
    const x = NAMES + (mark - view.left) * view.scale;
    box(x, RULER - 5, 1, 5, view.palette.dim);
    if (view.byClock) words(`${+(mark / 1000).toPrecision(9)} ms`, x + 3, 13, view.palette.dim);
    else if (step >= 1 && mark >= 1 && mark < PLACES) words(`line ${lineOf(Math.max(1, Math.round(mark)))}`, x + 3, 13, view.palette.dim);
  }
}

function drawClock() {
  const y = RULER;
  box(0, y, view.width, CLOCK_ROW + INBOX_ROW, view.palette.band);
  const parks = new Row(y + 4, 14), steps = new Row(y + 3, 17), inbox = new Row(y + CLOCK_ROW + 9, 3);
  eachInView(data.parks, first, (park) => park[0] + 1, (park, x, until) => {
    const width = Math.max(until - x - 2, 1);
    parks.put(x, x + width, view.palette.park);
    if (width < 20) return;
    parks.end();
    words(park[1], x + 3, y + 15, view.palette.text, width - 4);
  });
  parks.end();
  let free = 0;
  eachInView(data.steps, first, first, (step) => {
    steps.put(middleOf(step[0]), middleOf(step[0]) + 1.5, view.palette.text);
    const left = middleOf(step[0]) - 3.2 * step[1].length;
    if (left > free) {
      words(step[1], left, y + 31, view.palette.dim);
      free = left + 7 * step[1].length + 8;
    }
  });
  steps.end();
  eachInView(data.inbox, first, first, (entry) => {
    const x = middleOf(entry[0]), isRemote = entry[1].startsWith("remote");
    if (entry[1] === "drained") return inbox.put(x - 1, x + 2, view.palette.dim);
    box(x - 2, y + CLOCK_ROW + 4, 5, 13, isRemote ? view.palette.spawn : view.palette.wake);
    words(entry[1], x + 6, y + CLOCK_ROW + 15, view.palette.dim, view.scale * 1.2);
  });
  inbox.end();
  box(0, TOP - 1, view.width, 1, view.palette.line);
}

function drawLane(lane, y, height) {
  const { turns, ends, waits, bars } = data.lanes[lane], palette = view.palette;
  if (lane === view.lane) box(NAMES, y, chartWidth(), height - 1, palette.band);
  box(NAMES, y + height - 1, chartWidth(), 1, palette.line);
  const thick = new Row(y + 20, 5), thin = new Row(y + 21, 2);
  eachInView(waits, first, second, (wait, x, until) => {
    if (!view.kinds.has(wait[2])) return;
    (wait[2] === 0 ? thin : thick).put(x, until, palette.kinds[wait[2]]);
    if (until - x < 24) return;
    const begin = Math.max(x + (x > NAMES ? widthOf(wait[0]) : 0), NAMES) + 4;
    words(waitName(wait), begin, y + 13, palette.kinds[wait[2]], until - begin - 2);
  });
  thin.end();
  thick.end();
  eachInView(turns, (place) => place, (place) => place, (place, x, _, i) => {
    const width = widthOf(place), isEnd = ends[i] === "done" || ends[i] === "gone";
    box(x, y + 13, width, 18, isEnd ? palette.end : palette.turn, palette.edge);
    if (width > 28) words(String(lineOf(place)), x + 3, y + 26, palette.text, width);
  });
  if (view.jobs) drawBars(bars, y + LANE - 4, rowHeight(lane));
}

// The bars of jobs overlap in places, so each row is looked at by itself.
function drawBars(bars, y, height) {
  const low = placeAt(NAMES), high = placeAt(view.width), until = [];
  for (const [begin, end, row, name] of bars) {
    if (begin > high) break;
    if (end < low) continue;
    const x = Math.max(xOf(begin), NAMES), right = Math.min(Math.max(xOf(end), xOf(begin) + widthOf(begin), x + 2), view.width);
    if (right <= (until[row] || 0)) continue;
    until[row] = right;
    box(x, y + height * row, right - x, Math.max(height - 3, 1), view.palette.kinds[3]);
    if (height > 11) words(name, x + 3, y + height * row + 9, view.palette.ground, right - x - 4);
  }
}

function waitName(wait) {
  if (wait[2] === 0) return "queued";
  return wait.slice(3).map((source) => sourceName(data.sources[source])).join(", ") || "no source";
}

const topOf = (lane) => {
  if (lane === CLOCK) return RULER + CLOCK_ROW - 10;
  if (lane < 0) return RULER + CLOCK_ROW + 10;
  const row = view.rowOf.get(lane);
  return row === undefined ? null : TOP + view.tops[row] - view.top + 22;
};

// Arrows appear once they are some pixels apart; those of the chosen lane always do.
function drawWakes() {
  const low = lower(data.wakes, placeAt(NAMES), first), high = lower(data.wakes, placeAt(view.width) + 1, first);
  const isSeen = (wake) => (wake[3] === SPAWN ? view.spawns : view.wakes);
  if ((high - low) * 5 <= chartWidth()) {
    data.wakes.slice(low, high).filter(isSeen).forEach((wake) => drawArrow(wake, middleOf(wake[0])));
  } else if (view.lane >= 0) {
    const draws = (wake) => isSeen(wake) && drawArrow(wake, middleOf(wake[0]));
    eachInView(wakesTo[view.lane], first, first, draws);
    eachInView(wakesOf[view.lane], first, first, draws);
  }
}

const isInView = (y) => y !== null && y > TOP && y < view.height - STRIP;

function drawArrow([, from, to, kind], x) {
  const begin = topOf(from), end = topOf(to);
  if (end === null || from === to || !(isInView(end) || (from >= 0 && isInView(begin)))) return;
  const colour = kind === SPAWN ? view.palette.spawn : kind === 4 ? view.palette.jobEnd : view.palette.wake;
  const start = begin === null ? end - 16 : begin, way = end > start ? 1 : -1;
  pen.strokeStyle = pen.fillStyle = colour;
  pen.setLineDash(kind === SPAWN ? [4, 3] : []);
  pen.beginPath();
  pen.moveTo(x, start + 9 * way);
  pen.lineTo(x, end - 10 * way);
  pen.stroke();
  pen.setLineDash([]);
  pen.beginPath();
  if (kind === SPAWN) pen.arc(x, end - 12 * way, 3, 0, 7);
  else [[0, -9], [-4, -16], [4, -16]].forEach(([dx, dy]) => pen.lineTo(x + dx, end + dy * way));
  pen.fill();
}

function drawNames(from, until) {
  box(0, TOP, NAMES, view.height - TOP, view.palette.band);
  for (let row = from; row < until; row++) {
    const lane = view.lanes[row], y = TOP + view.tops[row] - view.top, isStuckLane = stuckLanes.includes(lane);
    if (lane === view.lane) box(0, y, NAMES, view.tops[row + 1] - view.tops[row] - 1, view.palette.line);
    words(data.lanes[lane].name, 8, y + 20, isStuckLane ? view.palette.wake : view.palette.text, NAMES - 8);
    if (isStuckLane) words("stuck", 8, y + 33, view.palette.wake);
  }
  box(0, RULER, NAMES, CLOCK_ROW + INBOX_ROW, view.palette.band);
  words("clock", 8, RULER + 16, view.palette.text);
  words("inbox", 8, RULER + CLOCK_ROW + 15, view.palette.text);
  box(NAMES - 1, RULER, 1, view.height, view.palette.line);
}

// Returns a picture of how many turns each part of the journal has.
function stripOf(width, whole) {
  const counts = new Uint32Array(width), strip = document.createElement("canvas");
  laneOfPlace.forEach((lane, place) => {
    if (lane >= 0) counts[Math.min(Math.floor((view.at[place] / whole) * width), width - 1)]++;
  });
  const most = counts.reduce((a, b) => Math.max(a, b), 1), brush = Object.assign(strip, { width, height: STRIP }).getContext("2d");
  brush.fillStyle = view.palette.dim;
  counts.forEach((count, x) => brush.fillRect(x, STRIP - 2 - (count / most) * (STRIP - 8), 1, (count / most) * (STRIP - 8)));
  return strip;
}

// The strip shows the whole journal, and which part is in view.
function drawStrip() {
  const y = view.height - STRIP, width = Math.floor(chartWidth()), palette = view.palette;
  const whole = view.at[PLACES + 1] - view.at[0] || 1;
  if (!view.strip || view.strip.width !== width) view.strip = stripOf(width, whole);
  box(0, y, view.width, STRIP, palette.band);
  pen.drawImage(view.strip, NAMES, y);
  words("whole", 8, y + 21, palette.dim);
  const x = NAMES + (view.left / whole) * width, room = Math.max((chartWidth() / view.scale / whole) * width, 3);
  pen.strokeStyle = palette.cursor;
  pen.strokeRect(Math.max(x, NAMES) + 0.5, y + 1.5, Math.min(room, width - 1), STRIP - 4);
}

function drawCursor() {
  const x = middleOf(view.place);
  if (x < NAMES || x > view.width) return;
  box(x - 0.5, RULER, 1, view.height - RULER - STRIP, view.palette.cursor);
}

function draw() {
  view.isDirty = false;
  pen.font = "11px system-ui, sans-serif";
  box(0, 0, view.width, view.height, view.palette.ground);
  const from = Math.max(0, lower(view.tops, view.top + 1) - 1);
  const until = Math.min(view.lanes.length, lower(view.tops, view.top + view.height - TOP - STRIP));
  pen.save();
  pen.beginPath();
  pen.rect(NAMES, TOP, chartWidth(), view.height - TOP - STRIP);
  pen.clip();
  for (let row = from; row < until; row++) {
    drawLane(view.lanes[row], TOP + view.tops[row] - view.top, view.tops[row + 1] - view.tops[row]);
  }
  pen.restore();
  drawRuler();
  drawClock();
  pen.save();
  pen.beginPath();
  pen.rect(NAMES, RULER, chartWidth(), view.height - RULER - STRIP);
  pen.clip();
  drawWakes();
  drawCursor();
  pen.restore();
  drawNames(from, until);
  drawStrip();
}

// ---- why a task waits ----

const escaped = (text) => String(text).replace(/[&<>"]/g, (sign) => ({ "&": "&amp;", "<": "&lt;", ">": "&gt;", '"': "&quot;" })[sign]);
const lineLink = (place, lane = -1) => `<a data-place="${place}" data-lane="${lane}">line ${lineOf(place)}</a>`;
const laneLink = (lane, place) => (lane < 0 ? "no task" : `<a data-place="${place}" data-lane="${lane}">${escaped(data.lanes[lane].name)}</a>`);
const byWhom = ([place, from, , , text]) =>
  `${/(fires|ends)$/.test(text) ? "as" : "by"} ${text === "wake" ? "a wake" : escaped(text)}${from >= 0 ? ` (${laneLink(from, place)})` : ""}, ${lineLink(place, from)}`;

function deadlineAt(source, place) {
  const tells = source.tells.filter((tell) => tell[0] <= place && (tell[1] === MADE || tell[1] === RESET));
  const nanos = tells.length ? tells[tells.length - 1][3] : null;
  return nanos === null ? "" : `, until ${nanos} ns: the first clock step of at least ${Math.ceil(nanos / 1e6)} ms fires it`;
}

// Says what a source is for a task that waits since a place: its last poll, who holds it, and what would wake the task.
function aboutSource(number, lane, since, place) {
  const source = data.sources[number], name = sourceName(source);
  const polls = source.tells.filter((tell) => tell[0] <= place && tell[1] === PENDING && tell[2] === lane);
  const poll = polls.length ? `It polled <b>${name}</b> last in ${lineLink(polls[polls.length - 1][0], lane)}` : `It waits for <b>${name}</b>`;
  const lost = lostAt(number, lane, since, place);
  if (lost) return `${poll}. ${aboutLoss(lost, name)}`;
  if (source.kind === "sleep") return `${poll}${deadlineAt(source, place)}.`;
  if (source.kind === "task") return `${poll}: the end of ${laneLink(laneOfTask.get(source.number) ?? -1, place)} wakes it.`;
  const made = source.tells.find((tell) => tell[1] === MADE);
  return `${poll}: the end of the job wakes it${made ? `; ${laneLink(made[2], made[0])} made it in ${lineLink(made[0], made[2])}` : ""}.`;
}

function aboutLoss([place, what, by], name) {
  if (what === DROPPED) return `<span class="bad">${name} was dropped in ${lineLink(place, by)}: a drop wakes no task.</span>`;
  if (what === ENDED) return `${name} ended in ${lineLink(place, by)}.`;
  return `<span class="bad">${laneLink(by, place)} polled ${name} in ${lineLink(place, by)} and is woken in its place.</span>`;
}

// Says what happens to the task after a place.
function aboutNext(lane, wait, place) {
  const later = wakesTo[lane][lower(wakesTo[lane], place + 1, first)];
  if (later && later[0] <= wait[1]) return `In this journal it is woken ${byWhom(later)}.`;
  return wait[1] < PLACES ? `Its next turn is ${lineLink(wait[1], lane)}.` : "No later line of this journal wakes it.";
}

function aboutIdle(lane, wait, place) {
  const listed = listedAt(lane, wait[0], place);
  const parts = wait.slice(3).map((source) => aboutSource(source, lane, wait[0], place));
  if (listed) parts.push(`Another thread listed it in the inbox in ${lineLink(listed[0], lane)}; the next drain queues it.`);
  if (isStuck(lane, place)) {
    const turn = data.lanes[lane].turns[lower(data.lanes[lane].turns, place + 1) - 1];
    if (wait.length === 3) parts.push(`Its last turn, ${lineLink(turn, lane)}, left it at no source, and it did not wake itself.`);
    parts.push('<span class="bad">Nothing in sight wakes it</span>: only a wake by another task, which may find it in shared state, or by a thread that has its waker.');
  }
  return parts;
}

// Returns sentences on a task right after a place.
function why(lane, place) {
  const { turns, ends, waits, name, row } = data.lanes[lane];
  const i = lower(turns, place + 1) - 1, turn = turns[i], wait = waitAt(lane, place);
  const parts = [];
  if (data.isList) return [escaped(row)];
  if (turn === place) parts.push(`${name} has its turn here; the turn ends <b>${escaped(ends[i])}</b>.`);
  if (!wait) {
    if (turn === undefined) return [`${name} is not made yet.`];
    return turn === place ? parts : [`${name} ended in ${lineLink(turn, lane)}.`];
  }
  const woken = wait[2] === 0 ? null : wakeBetween(lane, wait[0], place);
  if (wait[2] === 0 || woken) {
    const cause = woken ? `woken ${byWhom(woken)}` : turn === undefined ? `made in ${lineLink(wait[0], lane)}` : `woken in its own turn, ${lineLink(wait[0], lane)}`;
    parts.push(`${name} is <b>queued</b>: ${cause}.`, wait[1] < PLACES ? `Its next turn is ${lineLink(wait[1], lane)}.` : "The journal ends before its next turn.");
  } else {
    parts.push(`${name} <b>waits</b> since ${lineLink(wait[0], lane)}.`, ...aboutIdle(lane, wait, place), aboutNext(lane, wait, place));
  }
  if (row && wait[1] >= PLACES) parts.push(`The runtime's list at the end: <i>${escaped(row)}</i>.`);
  return parts;
}

// Follows a wait for tasks to the task at its root.
function chain(lane, place) {
  const seen = [lane];
  for (let at = lane; ;) {
    const wait = waitAt(at, place);
    if (!wait || wakeBetween(at, wait[0], place)) return seen;
    const next = wait.slice(3).map((source) => data.sources[source]).filter((source) => source.kind === "task")
      .map((source) => laneOfTask.get(source.number)).find((other) => other !== undefined);
    if (next === undefined) return seen;
    seen.push(next);
    if (seen.indexOf(next) < seen.length - 1) return seen;
    at = next;
  }
}

// ---- the panel ----

function stepsTable(line) {
  const [event, report] = line.split(" -> ");
  const steps = event.split("; "), replies = (report || "").split("; ");
  if (steps[0] !== "turn" || steps.length !== replies.length) return `<code>${escaped(line)}</code>`;
  return `<table><tr><th>step</th><th>reply</th></tr>${steps.map((step, i) => `<tr><td>${escaped(step)}</td><td>${escaped(replies[i])}</td></tr>`).join("")}</table>`;
}

function nearLines(line) {
  const low = limited(line - 6, 1, Math.max(data.lines.length - 11, 1));
  return data.lines.slice(low - 1, low + 11).map((text, i) =>
    `<div data-line="${low + i}" class="${low + i === line ? "chosen" : ""}" title="${escaped(text)}"><span>${low + i}</span>${escaped(text)}</div>`).join("");
}

function aboutReply(line) {
  const [, number, core, arrived, tick] = data.lines[line - 1].match(/^(\d+) (\d+) (\d+) (\d+) /) || [];
  if (number === undefined) return "";
  return `<p>Core ${core} had request ${number} at tick ${arrived} and answered at tick ${tick}: it waited ${tick - arrived} ms.</p>`;
}

function showPanel() {
  const line = PLACES > 1 ? lineOf(view.place) : 1, lane = view.lane;
  const nanos = data.nanos[limited(view.place, 0, PLACES - 1)];
  let text = `<h2>Line ${line}, at ${nanos} ns</h2>${stepsTable(data.lines[line - 1] || "")}${aboutReply(line)}`;
  if (lane >= 0 && data.lanes[lane].task >= 0) {
    text += `<h2>Why does ${escaped(data.lanes[lane].name)} wait?</h2><div class="why">${why(lane, PLACES > 1 ? view.place : 1).map((part) => `<p>${part}</p>`).join("")}</div>`;
    const waits = chain(lane, view.place);
    if (waits.length > 1) {
      const root = waits[waits.length - 1];
      text += `<h2>Who waits for whom</h2><div class="why"><p>${waits.map((other) => laneLink(other, view.place)).join(" waits for ")}</p>${why(root, view.place).map((part) => `<p>${part}</p>`).join("")}</div>`;
    }
  }
  if (stuckLanes.length) {
    text += `<h2>Stuck at the end</h2><p>${stuckLanes.slice(0, 20).map((stuck) => laneLink(stuck, PLACES - 1)).join(", ")}${stuckLanes.length > 20 ? ` and ${stuckLanes.length - 20} more` : ""}</p>`;
  }
  element("panel").innerHTML = `${text}<h2>Lines</h2><div class="near">${nearLines(line)}</div>`;
}

// Chooses a place and a lane, and brings them into view.
function choose(place, lane, isShown = true) {
  view.place = limited(place, 1, Math.max(PLACES - 1, 1));
  if (lane >= 0) view.lane = lane;
  if (isShown) bringIntoView();
  showPanel();
  dirty();
}

function bringIntoView() {
  const x = middleOf(view.place);
  if (x < NAMES + 20 || x > view.width - 20) view.left = view.at[view.place] - chartWidth() / view.scale / 2;
  if (view.lane >= 0 && !view.rowOf.has(view.lane)) showLanes([...view.lanes, view.lane].sort((a, b) => a - b));
  const y = view.lane < 0 ? TOP : topOf(view.lane);
  if (y < TOP + 20 || y > view.height - STRIP - 30) view.top += y - view.height / 2;
  keepInside();
}

const chooseLine = (line) => {
  const place = lower(data.lineOf, line) < PLACES ? placeOfLine(line) : PLACES - 1;
  choose(place, laneOfPlace[place]);
};

// ---- what the user does ----

function laneAt(y) {
  if (y < TOP || y > view.height - STRIP) return -1;
  const row = lower(view.tops, y - TOP + view.top + 0.001) - 1;
  return row < view.lanes.length ? view.lanes[row] : -1;
}

function stuckNext() {
  if (!stuckLanes.length) return;
  const next = stuckLanes.find((lane) => lane > view.lane) ?? stuckLanes[0];
  choose(PLACES - 1, next);
}

function turnBeside(way) {
  if (view.lane < 0) return choose(view.place + way, -1);
  const turns = data.lanes[view.lane].turns, i = lower(turns, view.place + (way > 0 ? 1 : 0));
  const turn = turns[way > 0 ? i : i - 1];
  if (turn !== undefined) choose(turn, view.lane);
}

function wokenBy() {
  if (view.lane < 0) return;
  const wakes = wakesTo[view.lane], wake = wakes[lower(wakes, view.place + 1, first) - 1];
  if (wake) choose(wake[0], wake[1]);
}

function find(text) {
  const from = lineOf(view.place);
  for (let i = 0; i < data.lines.length; i++) {
    const line = (from + i) % data.lines.length;
    if (data.lines[line].includes(text)) return chooseLine(line + 1);
  }
  return undefined;
}

function partners() {
  if (view.lane >= 0) showLanes(partnersOf(view.lane));
}

function setTheme(name) {
  document.documentElement.dataset.theme = name;
  view.palette = PALETTES[name];
  view.strip = null;
  fillLegend();
  fillKinds();
  dirty();
}

const otherTheme = () => setTheme(document.documentElement.dataset.theme === "dark" ? "light" : "dark");

function switchAxis() {
  const middle = placeAt(NAMES + chartWidth() / 2);
  setAxis(!view.byClock);
  view.scale = view.byClock ? 0 : 8;
  keepInside();
  view.left = view.at[middle] - chartWidth() / view.scale / 2;
  keepInside();
  dirty();
}

const KEYS = [
  ["+ -", "zoom in, zoom out", { "+": () => zoom(1.6), "=": () => zoom(1.6), "-": () => zoom(1 / 1.6) }],
  ["← →", "move left, right", { ArrowLeft: () => pan(-120), ArrowRight: () => pan(120) }],
  ["↑ ↓", "scroll the lanes", { ArrowUp: () => scroll(-60), ArrowDown: () => scroll(60) }],
  ["f", "show the whole journal", { f: fit }],
  ["n p", "the next, the previous turn of the chosen task; without a task, line", { n: () => turnBeside(1), p: () => turnBeside(-1) }],
  ["w", "what woke the chosen task last", { w: wokenBy }],
  ["s", "the next task that is stuck at the end", { s: stuckNext }],
  ["k", "lanes of the chosen task and its partners", { k: partners }],
  ["l", "lanes that are alive in view", { l: () => showLanes(lanesInView()) }],
  ["a", "all lanes", { a: () => showLanes(allLanes()) }],
  ["c", "places by line, or by the clock", { c: switchAxis }],
  ["/", "find a line by its text; Enter finds the next", { "/": () => element("find").focus() }],
  ["t", "light or dark", { t: otherTheme }],
  ["?", "this legend", { "?": () => element("legend").showModal() }],
  ["Esc", "choose no task", { Escape: () => { view.lane = -1; showPanel(); dirty(); } }],
];
const keyActs = Object.assign({}, ...KEYS.map(([, , acts]) => acts));

function onKey(event) {
  if (event.target.tagName === "INPUT" || event.ctrlKey || event.metaKey || event.altKey || element("legend").open) return;
  const act = keyActs[event.key];
  if (act) {
    event.preventDefault();
    act();
  }
}

const drag = { is: "", x: 0, y: 0, moved: 0 };

function onDown(event) {
  canvas.setPointerCapture(event.pointerId);
  Object.assign(drag, { is: event.offsetY > view.height - STRIP ? "strip" : "chart", x: event.offsetX, y: event.offsetY, moved: 0 });
  if (drag.is === "strip") moveTo(event.offsetX);
}

// Moves the view to a part of the strip.
function moveTo(x) {
  const whole = view.at[PLACES + 1] - view.at[0];
  view.left = ((x - NAMES) / chartWidth()) * whole - chartWidth() / view.scale / 2;
  keepInside();
  dirty();
}

function onMove(event) {
  if (drag.is === "strip") moveTo(event.offsetX);
  if (drag.is !== "chart") return;
  drag.moved += Math.abs(event.offsetX - drag.x) + Math.abs(event.offsetY - drag.y);
  if (drag.moved > 4) {
    pan(drag.x - event.offsetX);
    scroll(drag.y - event.offsetY);
    [drag.x, drag.y] = [event.offsetX, event.offsetY];
  }
}

function onUp(event) {
  if (drag.is === "chart" && drag.moved <= 4) {
    const lane = laneAt(event.offsetY), place = event.offsetX < NAMES ? view.place : placeAt(event.offsetX);
    choose(place, lane, false);
  }
  drag.is = "";
}

function onWheel(event) {
  event.preventDefault();
  if (event.shiftKey || Math.abs(event.deltaX) > Math.abs(event.deltaY)) pan(event.deltaX || event.deltaY);
  else if (event.offsetX < NAMES) scroll(event.deltaY);
  else zoom(Math.exp(-event.deltaY * 0.002), event.offsetX);
}

function onPanel(event) {
  const link = event.target.closest("[data-place], [data-line]");
  if (!link) return;
  if (link.dataset.line) chooseLine(Number(link.dataset.line));
  else choose(Number(link.dataset.place), Number(link.dataset.lane));
}

function resize() {
  const ratio = window.devicePixelRatio || 1;
  view.width = canvas.clientWidth;
  view.height = canvas.clientHeight;
  canvas.width = Math.round(view.width * ratio);
  canvas.height = Math.round(view.height * ratio);
  pen.setTransform(ratio, 0, 0, ratio, 0, 0);
  keepInside();
  dirty();
}

// ---- the frame of the page ----

function toggle(label, colour, isOn, set) {
  const part = document.createElement("label");
  part.innerHTML = `<input type="checkbox" ${isOn ? "checked" : ""}><span class="swatch" style="background:${colour}"></span>${label}`;
  part.firstChild.addEventListener("change", (event) => set(event.target.checked));
  return part;
}

function fillKinds() {
  const palette = view.palette;
  const kinds = KINDS.map((kind, number) => toggle(kind, palette.kinds[number], view.kinds.has(number), (isOn) => {
    if (isOn) view.kinds.add(number);
    else view.kinds.delete(number);
    dirty();
  }));
  const set = (name) => (isOn) => {
    view[name] = isOn;
    showLanes(view.lanes);
  };
  element("kinds").replaceChildren(...kinds, toggle("wakes", palette.wake, view.wakes, set("wakes")),
    toggle("spawns", palette.spawn, view.spawns, set("spawns")), toggle("jobs' bars", palette.kinds[3], view.jobs, set("jobs")));
}

function fillLegend() {
  const palette = view.palette;
  const marks = [
    [palette.turn, "a turn, with its line; a task's last turn is green"],
    [palette.kinds[0], "queued: woken or made, before its turn"],
    [palette.kinds[1], "waits for a sleep"], [palette.kinds[2], "waits for a task's output"], [palette.kinds[3], "waits for a job; below a lane, a bar for each job that its task made, or for each request that waited"],
    [palette.kinds[4], "other: waits at no source"],
    [palette.wake, "an arrow: a wake, from a task, the clock or the inbox"], [palette.spawn, "a dashed line with a ball: a spawn; in the inbox, a wake by another thread"],
    [palette.jobEnd, "an arrow: the end of a job wakes the task"], [palette.park, "on the clock: a park; a tick is a clock step"],
  ];
  element("marks").innerHTML = marks.map(([colour, text]) => `<div><span class="swatch" style="background:${colour}"></span>${text}</div>`).join("")
    + "<p>Where more than one arrow comes on 5 pixels, only those of the chosen task are drawn.</p>";
  element("keys").innerHTML = KEYS.map(([key, text]) => `<dt>${key}</dt><dd>${text}</dd>`).join("");
}

const counted = (count, name) => `${count} ${name}${count === 1 ? "" : "s"}`;

function fillHead() {
  element("title").textContent = document.title = data.title;
  const nanos = data.nanos[PLACES - 1] || 0, cores = data.lanes.filter((lane) => lane.task < 0).length;
  element("facts").textContent = `${counted(data.lines.length, "line")}, ${counted(cores || data.lanes.length, cores ? "core" : "task")}, ${nanos / 1e6} ms`
    + (stuckLanes.length ? `, ${stuckLanes.length} stuck` : "");
}

// An address may end in #line=N&task=T&zoom=PIXELS&theme=dark&by=clock, or in a part of that.
function readAddress() {
  const wanted = new URLSearchParams(location.hash.slice(1));
  const lane = wanted.has("task") ? laneOfTask.get(Number(wanted.get("task"))) ?? -1 : -1;
  if (wanted.get("theme") in PALETTES) setTheme(wanted.get("theme"));
  if (wanted.get("by") === "clock") switchAxis();
  if (wanted.has("zoom")) view.scale = Number(wanted.get("zoom"));
  keepInside();
  if (wanted.has("line")) {
    const place = placeOfLine(Number(wanted.get("line")));
    view.left = view.at[place] - chartWidth() / view.scale / 2;
    choose(place, lane >= 0 ? lane : laneOfPlace[place]);
  } else choose(1, lane);
}

function connect() {
  const buttons = {
    fit, in: () => zoom(1.6), out: () => zoom(1 / 1.6), axis: switchAxis, all: () => showLanes(allLanes()), here: () => showLanes(lanesInView()),
    partners, stuck: stuckNext, theme: otherTheme, help: () => element("legend").showModal(),
  };
  Object.entries(buttons).forEach(([name, act]) => element(name).addEventListener("click", act));
  element("lanes").addEventListener("input", (event) => showLanes(lanesOfWords(event.target.value)));
  element("find").addEventListener("keydown", (event) => event.key === "Enter" && find(event.target.value));
  const onCanvas = { pointerdown: onDown, pointermove: onMove, pointerup: onUp };
  Object.entries(onCanvas).forEach(([name, act]) => canvas.addEventListener(name, act));
  canvas.addEventListener("wheel", onWheel, { passive: false });
  element("panel").addEventListener("click", onPanel);
  document.addEventListener("keydown", onKey);
  new ResizeObserver(resize).observe(canvas);
}

function start() {
  setAxis(false);
  setTheme(matchMedia("(prefers-color-scheme: dark)").matches ? "dark" : "light");
  fillHead();
  showLanes(allLanes());
  resize();
  view.scale = 0;
  readAddress();
  connect();
  draw();
}

start();
