"use strict";
// What tools/view_test.py adds to a page: it acts as a user does, and writes what it saw to /result.

const mark = (name) => fetch(`/mark/${name}`, { method: "POST", body: "" });
const wait = () => new Promise(requestAnimationFrame);
const panelText = () => element("panel").textContent;
const press = (key) => document.dispatchEvent(new KeyboardEvent("keydown", { key, bubbles: true }));
const isIn = (text) => panelText().includes(text);

// What is wrong with a page, by name.
class Checks {
  constructor() {
    this.wrong = [];
  }

  is(name, isSo) {
    if (!isSo) this.wrong.push(`${name}: ${panelText().slice(0, 300)}`);
  }
}

function at(type, x, y, more = {}) {
  const { left, top } = canvas.getBoundingClientRect();
  canvas.dispatchEvent(new (type === "wheel" ? WheelEvent : PointerEvent)(type, { clientX: left + x, clientY: top + y, bubbles: true, cancelable: true, ...more }));
}

function click(x, y) {
  canvas.setPointerCapture = () => {};
  at("pointerdown", x, y);
  at("pointerup", x, y);
}

const pixels = (x, y, width, height) => pen.getImageData(x, y, width, height).data.join();

// Returns how many pixels of a part of the picture have a colour such as "#c2303a".
function count(colour, x, y, width, height) {
  const [red, green, blue] = [1, 3, 5].map((from) => parseInt(colour.slice(from, from + 2), 16));
  const { data: seen } = pen.getImageData(x, y, width, height);
  let found = 0;
  for (let i = 0; i < seen.length; i += 4) found += seen[i] === red && seen[i + 1] === green && seen[i + 2] === blue;
  return found;
}

const inLanes = (colour) => count(colour, NAMES, TOP, chartWidth(), view.height - TOP - STRIP);
const onClock = (colour) => count(colour, NAMES, RULER, chartWidth(), CLOCK_ROW);

// Shows a place at a scale, and draws.
function show(place, scale, lane = -1) {
  view.lane = -1;
  choose(place, lane);
  view.scale = scale;
  view.left = view.at[place] - 300 / scale;
  keepInside();
  draw();
}

// Says which parts of a page of a lost wake are wrong.
function lostWake() {
  const checks = new Checks();
  press("s");
  checks.is("s chooses the stuck task", data.lanes[view.lane].name === "task 1" && isIn("Nothing in sight wakes it"));
  checks.is("its last turn is named", isIn("left it at no source"));
  checks.is("the runtime's list is shown", isIn("task 1 waits for nothing: stuck"));
  chooseLine(7);
  choose(view.place, 0);
  checks.is("task 0 waits for task 1", isIn("the end of task 1 wakes it") && isIn("Who waits for whom"));
  press("f");
  const row = view.rowOf.get(1);
  click(middleOf(2), TOP + view.tops[row] - view.top + 20);
  checks.is("a click chooses line and lane", view.lane === 1 && view.place === 2 && isIn("Line 3"));
  checks.is("a click shows the line's text", data.lines[2].split(/ -> |; /).every(isIn));
  find("join 1");
  checks.is("a line is found", data.lines[lineOf(view.place) - 1].includes("join 1"));
  switchAxis();
  checks.is("places by the clock", view.byClock && view.at[2] > view.at[1]);
  return checks.wrong;
}

function moves(checks) {
  press("f");
  for (let i = 0; i < 12; i++) press("+");
  draw();
  const names = pixels(0, TOP, NAMES, view.height - TOP), { scale, left } = view, fixed = coordinateAt(400);
  at("wheel", 400, 200, { deltaY: -300 });
  checks.is("the wheel zooms at the pointer", view.scale > scale * 1.5 && Math.abs(coordinateAt(400) - fixed) < 1);
  at("pointerdown", 500, 300);
  at("pointermove", 380, 300);
  at("pointerup", 380, 300);
  checks.is("a drag moves the view", view.left > left);
  press("ArrowLeft");
  draw();
  checks.is("the names stay", pixels(0, TOP, NAMES, view.height - TOP) === names);
  press("ArrowDown");
  draw();
  checks.is("the lanes scroll with their names", view.top > 0 && pixels(0, TOP, NAMES, view.height - TOP) !== names);
}

function lanes(checks) {
  element("lanes").value = "1 3-5";
  element("lanes").dispatchEvent(new Event("input"));
  checks.is("lanes are chosen by number", view.lanes.map((lane) => data.lanes[lane].task).join() === "1,3,4,5");
  choose(view.place, 1);
  press("k");
  checks.is("the partners of a task", view.lanes.includes(1) && view.lanes.length < data.lanes.length);
  press("l");
  checks.is("the lanes that are alive", view.lanes.length > 0);
  press("a");
  checks.is("all lanes", view.lanes.length === data.lanes.length);
}

function kinds(checks) {
  const lane = data.lanes.findIndex(({ waits }) => waits.some((wait) => wait[2] === 1)), wait = data.lanes[lane].waits.find((one) => one[2] === 1);
  const sleep = () => element("kinds").querySelectorAll("input")[1];
  showLanes([lane]);
  show(wait[0], 40, lane);
  checks.is("a wait for a sleep is drawn", inLanes(view.palette.kinds[1]) > 0);
  sleep().click();
  draw();
  checks.is("a kind of wait is left out", inLanes(view.palette.kinds[1]) === 0);
  sleep().click();
  press("a");
}

// Wakes and spawns have colours of their own, and each may be left out.
function arrows(checks) {
  view.jobs = false;
  [[4, 0, "wakes"], [5, 1, "spawns"]].forEach(([other, kind, name]) => {
    const wake = data.wakes.find((one) => one[1] >= 0 && (one[3] === SPAWN) === (kind === SPAWN) && one[0] > 200), colour = view.palette[["wake", "spawn"][kind]];
    showLanes([wake[1], wake[2]].sort((a, b) => a - b));
    show(wake[0] - 1, 200, wake[2]);
    checks.is(`${name} are drawn`, inLanes(colour) > 0);
    view[name] = false;
    draw();
    checks.is(`${name} are left out`, inLanes(colour) === 0);
    view[name] = true;
  });
  view.jobs = true;
  press("a");
}

function clock(checks) {
  const { palette } = view;
  show(data.parks[3][0], 120);
  checks.is("parks are on their lane", onClock(palette.park) > 0 && inLanes(palette.park) === 0);
  view.palette = { ...palette, park: palette.band };
  draw();
  checks.is("clock steps are on their lane", onClock(palette.text) > 0);
  view.palette = palette;
}

// The bars of one turn lie in rows of their own.
function jobs(checks) {
  const apart = data.lanes.every(({ bars }) => bars.every(([begin, end, row], i) =>
    bars.slice(0, i).every((other) => other[2] !== row || other[1] <= begin || (other[0] === other[1] && other[0] < begin))));
  checks.is("no two jobs lie on each other", apart);
  const made = (bars, bar) => bars.filter((other) => other[0] === bar[0]);
  const lane = data.lanes.findIndex(({ bars }) => bars.some((bar) => made(bars, bar).length === 3)), { bars } = data.lanes[lane];
  const three = made(bars, bars.find((bar) => made(bars, bar).length === 3));
  checks.is("three jobs of one turn have three rows", new Set(three.map((bar) => bar[2])).size === 3);
  showLanes([lane]);
  show(three[0][0], 60, lane);
  const y = TOP + LANE - 4, x = Math.round(middleOf(three[0][0]));
  const drawn = three.map((bar) => count(view.palette.kinds[3], x + 30, y + rowHeight(lane) * bar[2], 1, rowHeight(lane)));
  checks.is("each of them is drawn", drawn.every((one) => one > 0));
  press("a");
}

// From any moment the panel names the source of each wait, its last poll, and what would wake the task.
function reasons(checks) {
  const ends = { sleep: /until \d+ ns: the first clock step of at least \d+ ms fires it/, task: /the end of task \d+ wakes it/, job: /the end of the job wakes it/ };
  const seen = new Set();
  data.lanes.forEach((lane, number) => lane.waits.forEach((one, i) => {
    if (i % 5 || one[2] === 0) return;
    const place = Math.floor((one[0] + one[1]) / 2);
    choose(place, number, false);
    const wakes = wakeBetween(number, one[0], place);
    one.slice(3).map((source) => data.sources[source]).filter(() => !wakes).forEach((source) => {
      seen.add(source.kind);
      checks.is(`the wait of ${lane.name} at ${place}`, isIn(`It polled ${sourceName(source)} last in line ${lineOf(one[0])}`) && ends[source.kind].test(panelText()));
    });
  }));
  checks.is("waits of each kind", seen.size === 3);
}

function looks(checks) {
  press("?");
  checks.is("the legend opens", element("legend").open && KEYS.every(([key]) => element("keys").textContent.includes(key)) && element("marks").children.length > 8);
  element("legend").close();
  KEYS.forEach(([, , acts]) => Object.keys(acts).forEach((key) => key === "?" || press(key)));
  const theme = () => document.documentElement.dataset.theme, before = theme(), ground = getComputedStyle(document.body).backgroundColor;
  press("t");
  draw();
  checks.is("another theme", theme() !== before && view.palette === PALETTES[theme()] && getComputedStyle(document.body).backgroundColor !== ground);
  checks.is("the picture has the theme's ground", count(view.palette.ground, NAMES, TOP, chartWidth(), 400) > 1000);
}

// Says which parts of a page of a journal with all kinds of waits are wrong.
function parts() {
  const checks = new Checks();
  [moves, lanes, kinds, arrows, clock, jobs, reasons, looks].forEach((part) => part(checks));
  return checks.wrong;
}

function otherPage() {
  const checks = new Checks();
  checks.is("lanes", data.lanes.length > 0 && view.lanes.length === data.lanes.length);
  press("f");
  click(middleOf(1), TOP + 20);
  checks.is("a click shows the line's text", isIn(data.lines[lineOf(view.place) - 1]));
  return checks.wrong;
}

const FRAMES = 90;

function moveOn(frame) {
  if (frame === 30) zoom(40, 600);
  if (frame < 30) zoom(frame < 15 ? 1.5 : 1 / 1.5, 600);
  else if (frame < 60) pan(frame % 30 < 15 ? 23 : -31);
  else scroll(frame % 30 < 15 ? 40 : -40);
}

// Zooms, moves and scrolls for some frames.
async function frames() {
  press("a");
  press("f");
  await wait();
  await mark("first frame");
  const begin = performance.now();
  for (let frame = 0; frame < FRAMES; frame++) {
    moveOn(frame);
    await wait();
  }
  const took = performance.now() - begin;
  await mark("last frame");
  return { frames: FRAMES, took };
}

const TESTS = { lost: lostWake, parts };

async function test() {
  const wanted = location.hash.slice(1);
  const result = { opened: performance.now(), wrong: [] };
  await mark("opened");
  try {
    if (wanted === "frames") Object.assign(result, await frames());
    else result.wrong = (TESTS[wanted] || otherPage)();
  } catch (fault) {
    result.wrong.push(`${fault}\n${fault.stack}`);
  }
  await fetch("/result", { method: "POST", body: JSON.stringify(result) });
}

requestAnimationFrame(test);
