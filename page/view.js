// What the page shows of the session: the map, the timeline, the tables, and later ticks.
import { byId, say } from "./elements.js";
import { DARK, LIGHT, drawTimeline, tickAt } from "./out/drawing.js";
import { MapView } from "./out/map.js";
import { fillTable, showObject } from "./panels.js";
import { client, clock, scenery } from "./parts.js";

// for how many ticks the ways ahead are drawn
const WAYS = 20;
const LAST_TICK = 1_000_000_000;
// while the clock is behind, what stands beside the map may take a part of the time of one in so many
const BESIDE_PART = 8;

const darkColours = matchMedia("(prefers-color-scheme: dark)");
const lessMotion = matchMedia("(prefers-reduced-motion: reduce)");
const themeNow = () => (darkColours.matches ? DARK : LIGHT);

const map = new MapView(byId("map"), themeNow, (found) => choose(found?.className, found?.name));

/// Takes what the program says of now, and shows it.
export function take(seen) {
  if (seen !== null) scenery.take(seen);
  clock.moved();
  say("clock", `tick ${scenery.clock}`);
  showMarked();
  showLater();
  draw();
  showChosen();
  refreshWays();
}

/// Forgets what was shown of another session.
export function forget() {
  scenery.clear();
  choose();
  writtenSinceWays();
}

function draw() {
  map.show(scenery.scene(byId("marked").value), partOfTick);
  byId("map").setAttribute("aria-label", `Map at tick ${scenery.tick}: ${scenery.count} objects, ${scenery.regions.length} regions`);
  if (!clock.isRunning || !clock.isBehind || performance.now() >= besideFrom) drawBeside();
}

// when what stands beside the map may be drawn again while the clock is behind
let besideFrom = 0;

function drawBeside() {
  const begun = performance.now();
  const timeline = timelineNow();
  const isEmpty = timeline.groups.length === 0;
  byId("no-queries").hidden = !isEmpty;
  byId("timeline").style.display = isEmpty ? "none" : "";
  if (!isEmpty) drawTimeline(byId("timeline"), timeline, themeNow(), byId("timeline-frame").clientWidth);
  showTable();
  const now = performance.now();
  besideFrom = now + BESIDE_PART * (now - begun);
}

// while the clock runs in time, moving objects are drawn on their way from one tick to the next
function partOfTick() {
  return lessMotion.matches || scenery.tick !== scenery.clock ? 0 : clock.after();
}

function animate() {
  if (!clock.isRunning) return map.draw();
  if (!lessMotion.matches && !clock.isBehind) map.draw();
  requestAnimationFrame(animate);
}

/// Starts or stops the clock.
export function run(isOn) {
  if (isOn) {
    clock.start(Number(byId("pace").value));
  } else {
    clock.stop();
    draw();
  }
  byId("run").setAttribute("aria-pressed", String(isOn));
  byId("run").textContent = isOn ? "Pause" : "Run";
  animate();
}

function timelineNow() {
  return scenery.timeline(Number(byId("span").value) || null);
}

function showTable() {
  say("table-tick", `tick ${scenery.tick}`);
  fillTable(scenery.shown, choose);
}

// the queries whose objects can be ringed; the first one is until another is chosen
function showMarked() {
  const select = byId("marked");
  const names = scenery.answered.map((query) => query.name);
  const old = [...select.options].map((option) => option.value);
  if (JSON.stringify(old) === JSON.stringify(["", ...names])) return;
  const { value } = select;
  select.replaceChildren(new Option("nothing", ""), ...names.map((name) => new Option(`rows of ${name}`, name)));
  select.value = names.includes(value) || (value === "" && old.length > 1) ? value : (names[0] ?? "");
}

// ---- ways ahead, and later ticks

// the tick at which the ways were asked for, or null where something was written since
let waysAt = null;

export function writtenSinceWays() {
  waysAt = null;
}

// the ways are asked for anew where the clock has come past half of them, too
async function refreshWays() {
  const at = scenery.clock;
  if (waysAt !== null && at - waysAt < WAYS / 2) return;
  waysAt = at;
  if (!scenery.canLookAhead && !scenery.hasWays) return;
  const ticks = Array.from({ length: WAYS }, (_, number) => at + number + 1).filter((tick) => tick <= LAST_TICK);
  scenery.takeWays(await client.ask("ahead", ticks).catch(() => null));
  map.show(scenery.scene(byId("marked").value), partOfTick);
}

function showLater() {
  const by = scenery.tick - scenery.clock;
  const slider = byId("ahead");
  slider.disabled = !scenery.canLookAhead;
  slider.max = scenery.horizon - scenery.clock;
  slider.value = by;
  slider.setAttribute("aria-valuetext", by === 0 ? "now" : `tick ${scenery.tick}, ${by} ahead`);
  slider.title = scenery.canLookAhead ? "" : "Only with some hundred objects at most, and while the program runs";
  say("ahead-tick", by === 0 ? "now" : `tick ${scenery.tick}`);
  byId("as-it-will-be").hidden = by === 0;
  say("as-it-will-be", by === 0 ? "" : `tick ${scenery.tick}, if nothing is written before`);
}

let wanted = null;
let isLooking = false;

// looks at a later tick; of several that are wanted meanwhile only the last one is
async function lookAt(tick) {
  wanted = tick;
  if (isLooking) return;
  isLooking = true;
  while (wanted !== null) {
    const next = wanted;
    wanted = null;
    scenery.takeLater(next > scenery.clock ? await client.ask("ahead", [next]).catch(() => null) : null);
    showLater();
    draw();
  }
  isLooking = false;
}

function lookAtPixel(event) {
  const left = event.clientX - byId("timeline").getBoundingClientRect().left;
  const tick = tickAt(timelineNow(), byId("timeline").clientWidth, left);
  if (tick !== null && scenery.canLookAhead) lookAt(Math.max(tick, scenery.clock));
}

// ---- one object

let chosen = null;

function choose(className, name) {
  chosen = name === undefined ? null : { className, name };
  return showChosen();
}

async function showChosen() {
  if (chosen === null) return showObject("", null);
  const { className, name } = chosen;
  const found = await client.ask("object", className, name).catch(() => null);
  if (chosen?.name === name) showObject(name, found, () => choose());
}

/// Makes the controls of the view work.
export function wireView() {
  byId("run").onclick = () => run(!clock.isRunning);
  byId("pace").onchange = () => clock.isRunning && run(true);
  byId("marked").onchange = byId("span").onchange = draw;
  byId("ahead").oninput = () => lookAt(scenery.clock + Number(byId("ahead").value));
  byId("timeline").onclick = lookAtPixel;
  byId("closer").onclick = () => map.scale(1.3);
  byId("farther").onclick = () => map.scale(1 / 1.3);
  byId("fit").onclick = () => map.fit();
  byId("table").ontoggle = byId("table-filter").oninput = showTable;
  darkColours.onchange = draw;
  new ResizeObserver(draw).observe(byId("timeline-frame"));
}
