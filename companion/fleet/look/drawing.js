// Draws a scene on a canvas, and a timeline as SVG. It knows nothing of where they come from, and keeps nothing but the
// pictures and stamps of symbols.
//
// A scene is what is there at one tick:
//
//     { regions: [{ name, points: [[x, y], ..] }],
//       classes: [{ name, names, x, y, dx, dy, isMarked, trail, ways }],
//       reach }
//
// A class has columns, a number or name for each object: its name, its place (x, y) and how that moves in a tick (dx, dy).
// These may be left out: `isMarked`, whether the object is ringed; `trail`, where the objects were, oldest first, and `ways`,
// where they will be, each a list of columns { x, y } with NaN for an object that wasn't there. Without ways an object has a
// line for as many ticks as `reach`. The y axis points up.
//
// A view is the place in the middle of the map and how many pixels a unit has: { x, y, scale }.
//
// A timeline is what holds when:
//
//     { clock, from, to, at, groups: [{ name, note, rows: [{ label, spans: [[first, last], ..] }], more }] }
//
// where `from` and `to` are the ticks at its ends, `at` a tick that is looked at (or null), and `more` how many rows of the
// group aren't among them.

import { dotStamp, pictureStamp, pixelOf, sheetOf } from "./sheet.js";

export const LIGHT = {
  ground: "#fcfcfa", grid: "#e8eae6", axis: "#c9cec8", text: "#55616a", ink: "#1c2830", region: "rgba(20, 110, 120, 0.08)",
  regionLine: "#2f6f78", mark: "#b3261e", bar: "#2f7f8a", barNow: "#0d4f5c", barPast: "#a9bcc0", band: "#f1f3f0", clock: "#b3261e",
  thin: "#a8bfcc",
  classes: ["#0b62a3", "#a14a00", "#00735a", "#8f3f7d", "#6b5b00", "#44505a"],
};

export const DARK = {
  ground: "#14191d", grid: "#232b31", axis: "#3b464e", text: "#a3afb7", ink: "#e6ecef", region: "rgba(110, 200, 205, 0.10)",
  regionLine: "#5fa8ae", mark: "#ff9a8f", bar: "#5fb0b8", barNow: "#a5e3e6", barPast: "#4a5a61", band: "#1a2126", clock: "#ff9a8f",
  thin: "#3d5468",
  classes: ["#7fbdf2", "#f2a765", "#5fd0b0", "#e3a0d3", "#d9c95c", "#b4bfc7"],
};

const FONT = "12px system-ui, sans-serif";
const BOLD = "600 12px system-ui, sans-serif";
const SYMBOL = 16;
const SMALL_SYMBOL = 10;
// the radius of a ring around an object, and the size of a picture that holds it
const RING = 10;
const RING_PICTURE = 24;
// with more objects in view none has its name beside it
const MOST_IN_VIEW = 150;
// more objects than that have small symbols and plain thin lines, as pixels of a sheet
const FEW = 150;
// more objects than that are dots, without motions
const MANY = 1_500;

// ---- the map

/// The least rectangle with all that a scene has, or null where it is empty.
export function boundsOf(scene) {
  const bounds = { left: Infinity, right: -Infinity, bottom: Infinity, top: -Infinity };
  const add = (x, y) => {
    if (x < bounds.left) bounds.left = x;
    if (x > bounds.right) bounds.right = x;
    if (y < bounds.bottom) bounds.bottom = y;
    if (y > bounds.top) bounds.top = y;
  };
  for (const region of scene.regions) for (const [x, y] of region.points) add(x, y);
  for (const { x, y, ways = [] } of scene.classes) {
    for (const places of [{ x, y }, ...ways]) for (let at = 0; at < places.x.length; at++) add(places.x[at], places.y[at]);
  }
  return bounds.left <= bounds.right ? bounds : null;
}

/// The view in which the rectangle fills a map of this size, with a margin.
export function fitted(bounds, width, height, margin = 44) {
  if (bounds === null) return { x: 0, y: 0, scale: 10 };
  const [across, up] = [bounds.right - bounds.left, bounds.top - bounds.bottom];
  const room = (pixels) => Math.max(pixels - 2 * margin, 20);
  const scale = Math.min(room(width) / Math.max(across, 1), room(height) / Math.max(up, 1));
  return { x: (bounds.left + bounds.right) / 2, y: (bounds.bottom + bounds.top) / 2, scale };
}

/// Whether all corners of the rectangle can be seen.
export function isInView(bounds, view, width, height) {
  if (bounds === null) return true;
  const [half, tall] = [width / 2 / view.scale, height / 2 / view.scale];
  return bounds.left >= view.x - half && bounds.right <= view.x + half && bounds.bottom >= view.y - tall && bounds.top <= view.y + tall;
}

/// The place on the plane of a pixel.
export function placeOf(view, width, height, left, top) {
  return [view.x + (left - width / 2) / view.scale, view.y - (top - height / 2) / view.scale];
}

/// The object that is drawn nearest to a pixel and not far from it, as { className, name }, or null.
export function objectAt(scene, view, width, height, left, top, after = 0) {
  const [x, y] = placeOf(view, width, height, left, top);
  let best = null, least = (14 / view.scale) ** 2;
  for (const one of scene.classes) {
    for (let at = 0; at < one.x.length; at++) {
      const distance = (one.x[at] + after * one.dx[at] - x) ** 2 + (one.y[at] + after * one.dy[at] - y) ** 2;
      if (distance < least) [best, least] = [{ className: one.name, name: one.names[at] }, distance];
    }
  }
  return best;
}

/// Draws the scene as it is a part of a tick later, `after`, from 0 to 1.
export function drawMap(canvas, scene, view, theme, after = 0) {
  const { context, width, height } = prepared(canvas);
  const count = scene.classes.reduce((sum, one) => sum + one.x.length, 0);
  const map = {
    context, theme, view, width, height, after,
    left: (x) => width / 2 + (x - view.x) * view.scale,
    top: (y) => height / 2 - (y - view.y) * view.scale,
  };
  context.fillStyle = theme.ground;
  context.fillRect(0, 0, width, height);
  drawGrid(map);
  for (const region of scene.regions) drawRegion(map, region);
  if (count > MANY) {
    drawOnSheet(map, scene, putSteps, putDots);
  } else if (count > FEW) {
    drawOnSheet(map, scene, putWays, putSmallSymbols);
  } else {
    scene.classes.forEach((one, number) => drawWays(map, one, colourOf(theme, number), scene.reach));
    drawSymbols(map, scene);
    drawMarks(map, scene);
  }
  drawLabels(map, scene);
  drawLegend(map, scene);
}

function ratioOfPixels() {
  return globalThis.devicePixelRatio || 1;
}

function prepared(canvas) {
  const ratio = ratioOfPixels();
  const [width, height] = [canvas.clientWidth, canvas.clientHeight];
  if (canvas.width !== Math.round(width * ratio) || canvas.height !== Math.round(height * ratio)) {
    canvas.width = Math.round(width * ratio);
    canvas.height = Math.round(height * ratio);
  }
  const context = canvas.getContext("2d");
  context.setTransform(ratio, 0, 0, ratio, 0, 0);
  return { context, width, height };
}

function colourOf(theme, number) {
  return theme.classes[number % theme.classes.length];
}

/// The least of 1, 2, 5, 10, 20 .. that is not below the number.
export function niceStep(least) {
  const power = 10 ** Math.floor(Math.log10(least));
  return [1, 2, 5, 10].map((one) => one * power).find((step) => step >= least * 0.999);
}

function stepsIn(first, last, step) {
  const found = [];
  for (let at = Math.ceil(first / step); at * step <= last; at++) found.push(at * step);
  return found;
}

function shown(number) {
  return String(Number(number.toPrecision(9)));
}

function drawGrid(map) {
  const { context, theme, view, width, height, left, top } = map;
  const step = niceStep(70 / view.scale);
  const [x0, y0] = placeOf(view, width, height, 0, height);
  const [x1, y1] = placeOf(view, width, height, width, 0);
  const [xs, ys] = [stepsIn(x0, x1, step), stepsIn(y0, y1, step)];
  const isZero = (number) => number === 0;
  drawRules(map, xs, ys, theme.grid);
  drawRules(map, xs.filter(isZero), ys.filter(isZero), theme.axis);
  context.font = FONT;
  context.fillStyle = theme.text;
  context.textBaseline = "bottom";
  context.textAlign = "left";
  xs.forEach((x) => context.fillText(shown(x), left(x) + 3, height - 3));
  ys.filter((y) => top(y) < height - 22).forEach((y) => context.fillText(shown(y), 4, top(y) - 2));
}

// lines of one pixel up and across
function drawRules({ context, width, height, left, top }, xs, ys, colour) {
  context.strokeStyle = colour;
  context.lineWidth = 1;
  stroke(context, () => {
    for (const at of xs.map((x) => Math.round(left(x)) + 0.5)) {
      context.moveTo(at, 0);
      context.lineTo(at, height);
    }
    for (const at of ys.map((y) => Math.round(top(y)) + 0.5)) {
      context.moveTo(0, at);
      context.lineTo(width, at);
    }
  });
}

function drawRegion({ context, theme, left, top }, { name, points }) {
  context.beginPath();
  points.forEach(([x, y], at) => (at === 0 ? context.moveTo(left(x), top(y)) : context.lineTo(left(x), top(y))));
  context.closePath();
  context.fillStyle = theme.region;
  context.fill();
  context.strokeStyle = theme.regionLine;
  context.lineWidth = 1.25;
  context.stroke();
  context.font = FONT;
  context.fillStyle = theme.regionLine;
  context.textAlign = "left";
  context.textBaseline = "bottom";
  // the name stands over the highest corner, the left one of two
  const isHigher = ([x, y], best) => y > best[1] || (y === best[1] && x < best[0]);
  const [x, y] = points.reduce((best, point) => (isHigher(point, best) ? point : best));
  context.fillText(name, left(x), top(y) - 4);
}

function drawWays(map, one, colour, reach) {
  const { context } = map;
  const each = (draw) => stroke(context, () => one.names.forEach((_, at) => draw(at)));
  context.strokeStyle = colour;
  context.lineWidth = 1.5;
  context.globalAlpha = 0.5;
  const now = nowOf(map, one);
  const trail = [...(one.trail ?? []), now];
  if (one.trail) each((at) => drawLine(map, trail, at));
  context.globalAlpha = 0.85;
  context.setLineDash([1.5, 4]);
  context.lineCap = "round";
  const ways = [now, ...(one.ways ?? [])];
  if (one.ways) each((at) => drawLine(map, ways, at));
  context.setLineDash([]);
  context.lineCap = "butt";
  context.lineWidth = 1;
  if (!one.ways) each((at) => drawMotion(map, one, at, reach));
  context.globalAlpha = 1;
}

function stroke(context, draw) {
  context.beginPath();
  draw();
  context.stroke();
}

function nowOf({ after }, { x, y, dx, dy }) {
  return { x: x.map((place, at) => place + after * dx[at]), y: y.map((place, at) => place + after * dy[at]) };
}

function pixelNow({ after, left, top }, { x, y, dx, dy }, at) {
  return [left(x[at] + after * dx[at]), top(y[at] + after * dy[at])];
}

// a line through the places that an object has in columns, with gaps where there is none
function drawLine({ context, left, top }, columns, at) {
  let isOn = false;
  for (const { x, y } of columns) {
    const isThere = !Number.isNaN(x[at]);
    if (isThere && isOn) context.lineTo(left(x[at]), top(y[at]));
    else if (isThere) context.moveTo(left(x[at]), top(y[at]));
    isOn = isThere;
  }
}

function drawMotion(map, one, at, reach) {
  const { context, left, top } = map;
  if (one.dx[at] === 0 && one.dy[at] === 0) return;
  const [x, y] = pixelNow(map, one, at);
  const [toX, toY] = [left(one.x[at] + reach * one.dx[at]), top(one.y[at] + reach * one.dy[at])];
  context.moveTo(x, y);
  context.lineTo(toX, toY);
  if (Math.hypot(toX - x, toY - y) < 10) return;
  const along = Math.atan2(toY - y, toX - x);
  for (const turn of [2.6, -2.6]) {
    context.moveTo(toX, toY);
    context.lineTo(toX + 6 * Math.cos(along + turn), toY + 6 * Math.sin(along + turn));
  }
}

// the symbols of classes differ in form too, so that colour isn't needed to tell them apart
const FORMS = [
  (context, r) => context.arc(0, 0, r, 0, 2 * Math.PI),
  (context, r) => context.rect(-r * 0.9, -r * 0.9, r * 1.8, r * 1.8),
  (context, r) => polygon(context, [[0, -r * 1.15], [r * 1.1, r * 0.85], [-r * 1.1, r * 0.85]]),
  (context, r) => polygon(context, [[0, -r * 1.25], [r * 1.25, 0], [0, r * 1.25], [-r * 1.25, 0]]),
  (context, r) => polygon(context, [[0, r * 1.15], [r * 1.1, -r * 0.85], [-r * 1.1, -r * 0.85]]),
  (context, r) => [context.rect(-r * 1.2, -r * 0.45, r * 2.4, r * 0.9), context.rect(-r * 0.45, -r * 1.2, r * 0.9, r * 2.4)],
];

function polygon(context, points) {
  points.forEach(([x, y], at) => (at === 0 ? context.moveTo(x, y) : context.lineTo(x, y)));
  context.closePath();
}

function drawSymbol(context, number, theme, size) {
  context.translate(size / 2, size / 2);
  context.beginPath();
  FORMS[number % FORMS.length](context, size / 3);
  context.fillStyle = colourOf(theme, number);
  context.fill();
  context.strokeStyle = theme.ground;
  context.lineWidth = size / 12;
  context.stroke();
}

const pictures = new Map();

// a picture of so many units, drawn where there is none of this name yet
function pictureOf(name, size, draw) {
  const ratio = ratioOfPixels();
  const key = `${name} ${ratio} ${size}`;
  if (!pictures.has(key)) {
    const picture = document.createElement("canvas");
    picture.width = picture.height = Math.ceil(size * ratio);
    const context = picture.getContext("2d", { willReadFrequently: size !== SYMBOL });
    context.scale(ratio, ratio);
    draw(context);
    pictures.set(key, picture);
  }
  return pictures.get(key);
}

function symbolOf(number, theme, size) {
  return pictureOf(`${number} ${colourOf(theme, number)} ${theme.ground}`, size, (context) => drawSymbol(context, number, theme, size));
}

function ringOf(theme) {
  return pictureOf(`ring ${theme.mark}`, RING_PICTURE, (context) => {
    context.strokeStyle = theme.mark;
    context.lineWidth = 2;
    stroke(context, () => context.arc(RING_PICTURE / 2, RING_PICTURE / 2, RING, 0, 2 * Math.PI));
  });
}

const stamps = new WeakMap();

function stampOf(picture) {
  if (!stamps.has(picture)) stamps.set(picture, pictureStamp(picture));
  return stamps.get(picture);
}

// Visits the objects that can be seen: the class, the object's number in it, its pixel, and the number of the class.
function eachInView(map, { classes }, visit) {
  const { width, height } = map;
  classes.forEach((one, number) => {
    for (let at = 0; at < one.x.length; at++) {
      const [x, y] = pixelNow(map, one, at);
      if (x > -SYMBOL && y > -SYMBOL && x < width + SYMBOL && y < height + SYMBOL) visit(one, at, x, y, number);
    }
  });
}

function drawSymbols(map, scene) {
  const { context, theme } = map;
  const symbols = scene.classes.map((_, number) => symbolOf(number, theme, SYMBOL));
  eachInView(map, scene, (one, at, x, y, number) => {
    context.drawImage(symbols[number], x - SYMBOL / 2, y - SYMBOL / 2, SYMBOL, SYMBOL);
  });
}

// What doesn't move between two ticks is put on the sheet once for all frames between them.
function drawOnSheet(map, scene, putStill, putMoving) {
  const { context, theme, view, width, height } = map;
  const { width: across, height: down } = context.canvas;
  const sheet = sheetOf(across, down, across / width);
  sheet.begin([scene, theme, view.x, view.y, view.scale], () => putStill(map, sheet, scene));
  putMoving(map, sheet, scene);
  sheet.show(context, width, height);
}

// trails up to the last tick, and ways from the next one on
function putWays(map, sheet, { classes }) {
  for (const { trail } of classes) putLines(map, sheet, trail ?? [], pixelOf(map.theme.thin));
  classes.forEach(({ ways }, number) => putLines(map, sheet, ways ?? [], pixelOf(colourOf(map.theme, number))));
}

function putSmallSymbols(map, sheet, { classes, reach }) {
  const { theme, after } = map;
  classes.forEach((one, number) => putWayNow(map, sheet, one, colourOf(theme, number), reach));
  classes.forEach((one, number) => putStamps(map, sheet, one, after, stampOf(symbolOf(number, theme, SMALL_SYMBOL))));
  for (const one of classes) if (one.isMarked) putStamps(map, sheet, one, after, stampOf(ringOf(theme)), one.isMarked);
}

// where the objects come from since the last tick, and where they go up to the next one
function putWayNow(map, sheet, one, colour, reach) {
  const now = nowOf(map, one);
  const next = one.ways?.[0] ?? nowOf({ after: reach }, one);
  putLines(map, sheet, [...(one.trail ?? []).slice(-1), now], pixelOf(map.theme.thin));
  putLines(map, sheet, [now, next], pixelOf(colour));
}

// lines through the places that objects have in columns, with gaps where there is none
function putLines({ left, top }, sheet, columns, pixel) {
  for (let next = 1; next < columns.length; next++) {
    const [from, to] = [columns[next - 1], columns[next]];
    for (let at = 0; at < to.x.length; at++) sheet.line(left(from.x[at]), top(from.y[at]), left(to.x[at]), top(to.y[at]), pixel);
  }
}

// a stamp for each object as it is a part of a tick later, or for those that are chosen
function putStamps({ left, top }, sheet, { x, y, dx, dy }, after, stamp, chosen) {
  const put = sheet.stamper(stamp);
  for (let at = 0; at < x.length; at++) {
    if (!chosen || chosen[at]) put(left(x[at] + after * dx[at]), top(y[at] + after * dy[at]));
  }
}

// the forms of dots, as places around the middle: these differ by class too
const DOTS = [
  [[0, 0], [1, 0], [-1, 0], [0, 1], [0, -1], [1, 1], [1, -1], [-1, 1], [-1, -1]],
  [[-1, -1], [0, -1], [1, -1], [-1, 1], [0, 1], [1, 1], [-1, 0], [1, 0], [2, -1], [2, 0], [2, 1], [2, 2], [1, 2], [0, 2], [-1, 2]],
  [[0, -1], [-1, 0], [0, 0], [1, 0], [-2, 1], [-1, 1], [0, 1], [1, 1], [2, 1]],
  [[0, -2], [-1, -1], [1, -1], [-2, 0], [2, 0], [-1, 1], [1, 1], [0, 2]],
  [[-2, -2], [-1, -1], [0, 0], [1, 1], [2, 2], [2, -2], [1, -1], [-1, 1], [-2, 2]],
  [[0, -2], [0, -1], [0, 0], [0, 1], [0, 2], [-2, 0], [-1, 0], [1, 0], [2, 0]],
];

const DOTTED_RING = Array.from({ length: 16 }, (_, at) => [Math.cos, Math.sin].map((of) => Math.round(3.4 * of((at * Math.PI) / 8))));

// a point for each place of the trails
function putSteps(map, sheet, { classes }) {
  const step = dotStamp([[0, 0]], pixelOf(map.theme.text, 0x50));
  for (const one of classes) for (const place of one.trail ?? []) putStamps(map, sheet, { ...one, ...place }, 0, step);
}

function putDots(map, sheet, { classes }) {
  const { theme, after } = map;
  classes.forEach((one, number) => {
    putStamps(map, sheet, one, after, dotStamp(DOTS[number % DOTS.length], pixelOf(colourOf(theme, number))));
  });
  const ring = dotStamp(DOTTED_RING, pixelOf(theme.mark));
  for (const one of classes) if (one.isMarked) putStamps(map, sheet, one, after, ring, one.isMarked);
}

function drawMarks(map, scene) {
  const { context, theme } = map;
  context.strokeStyle = theme.mark;
  context.lineWidth = 2;
  stroke(context, () => eachInView(map, scene, (one, at, x, y) => {
    if (!one.isMarked?.[at]) return;
    context.moveTo(x + RING, y);
    context.arc(x, y, RING, 0, 2 * Math.PI);
  }));
}

// names stand beside their objects where there is room, first those of marked ones, and not where very many are in view
function drawLabels(map, scene) {
  const { context, theme } = map;
  let count = 0;
  eachInView(map, scene, () => count++);
  if (count > MOST_IN_VIEW) return;
  const labels = [];
  eachInView(map, scene, (one, at, x, y) => labels.push({ name: one.names[at], isMarked: Boolean(one.isMarked?.[at]), x, y }));
  context.textAlign = "left";
  context.textBaseline = "middle";
  context.fillStyle = theme.ink;
  const taken = new Set();
  for (const label of labels) if (label.isMarked) drawLabel(context, label, taken);
  for (const label of labels) if (!label.isMarked) drawLabel(context, label, taken);
}

function drawLabel(context, { name, isMarked, x, y }, taken) {
  context.font = isMarked ? BOLD : FONT;
  const [left, top] = [x + 9, y - (isMarked ? 12 : 10)];
  const cells = cellsOf(left, top, context.measureText(name).width);
  if (cells.some((cell) => taken.has(cell))) return;
  cells.forEach((cell) => taken.add(cell));
  context.fillText(name, left, top);
}

function cellsOf(x, y, wide) {
  const cells = [];
  for (let at = Math.floor(x / 20); at <= Math.floor((x + wide) / 20); at++) cells.push(`${at} ${Math.round(y / 16)}`);
  return cells;
}

function drawLegend({ context, theme }, { classes }) {
  context.font = FONT;
  context.textAlign = "left";
  context.textBaseline = "middle";
  classes.forEach(({ name, names }, number) => {
    const [x, y] = [10, 10 + 20 * number];
    const words = `${name} ${names.length}`;
    context.globalAlpha = 0.85;
    context.fillStyle = theme.ground;
    context.fillRect(x - 4, y - 2, 28 + context.measureText(words).width, 20);
    context.globalAlpha = 1;
    context.drawImage(symbolOf(number, theme, SYMBOL), x, y, SYMBOL, SYMBOL);
    context.fillStyle = theme.ink;
    context.fillText(words, x + SYMBOL + 4, y + SYMBOL / 2);
  });
}

// ---- the timeline

const LABELS = 132, RIGHT = 16, ROW = 20, HEAD = 26, AXIS = 24;
const MOST_LETTERS = 16;
const SVG = "http://www.w3.org/2000/svg";

// pixels that a timeline's ticks have for themselves, beside the labels of its rows
function roomOf(width) {
  return Math.max(width - LABELS - RIGHT, 1);
}

function ticksOf({ from, to }) {
  return Math.max(to - from, 1);
}

/// The tick at a pixel of a timeline that is so wide, or null beside its ticks.
export function tickAt(timeline, width, left) {
  const part = (left - LABELS) / roomOf(width);
  if (part < -0.02 || part > 1.02) return null;
  return Math.round(timeline.from + Math.min(Math.max(part, 0), 1) * ticksOf(timeline));
}

/// Draws the timeline into an svg element, so wide, in place of what is in it. What is there already stays as it is.
export function drawTimeline(svg, timeline, theme, width) {
  const rows = timeline.groups.flatMap((group, number) => [
    { group }, ...group.rows.map((row) => ({ ...row, number })), ...(group.more > 0 ? [{ more: group.more }] : []),
  ]);
  const height = AXIS + rows.reduce((sum, row) => sum + heightOf(row), 0) + 8;
  const left = (tick) => LABELS + ((tick - timeline.from) / ticksOf(timeline)) * roomOf(width);
  const frame = { timeline, theme, width, height, left };
  const parts = [pastOf(frame), ...axisOf(frame)];
  const heads = [];
  let top = AXIS;
  for (const row of rows) {
    if (row.group) heads.push(...headOf(row.group, frame, top));
    else if (row.more) parts.push(textOf(12, top + ROW / 2, `and ${row.more} more`, theme.text));
    else parts.push(rowOf(row, frame, top));
    top += heightOf(row);
  }
  const all = [...parts, ...linesOf(frame), ...heads];
  showPart(svg, { attributes: { viewBox: `0 0 ${width} ${height}`, width, height }, words: "", parts: all });
}

function heightOf(row) {
  return row.group ? HEAD : ROW;
}

// A part of a timeline is an element that is to be there, with its attributes, and words or parts in it. It has a key where
// it is to be the same element wherever it stands among the others.
function partOf(name, attributes, { words = "", parts = [], key = null } = {}) {
  return { name, attributes, words, parts, key };
}

// what each element shows: its part, and by their keys the elements of the parts in it
const shownParts = new WeakMap();
const NOTHING_SHOWN = { attributes: {}, words: "", elements: new Map() };

// Makes an element show a part. It costs a browser far more to make elements anew than to find what has changed.
function showPart(element, { attributes, words, parts }) {
  const before = shownParts.get(element) ?? NOTHING_SHOWN;
  for (const [key, value] of Object.entries(attributes)) if (before.attributes[key] !== value) element.setAttribute(key, value);
  for (const key of Object.keys(before.attributes)) if (!(key in attributes)) element.removeAttribute(key);
  if (words !== before.words) element.textContent = words;
  shownParts.set(element, { attributes, words, elements: showParts(element, parts, before.elements) });
}

function showParts(parent, parts, before) {
  const elements = new Map();
  parts.forEach((part, at) => {
    const key = part.key ?? `${part.name} ${at}`;
    elements.set(key, before.get(key) ?? document.createElementNS(SVG, part.name));
  });
  for (const [key, element] of before) if (!elements.has(key)) element.remove();
  let next = parent.firstChild;
  [...elements.values()].forEach((element, at) => {
    if (element === next) next = next.nextSibling;
    else parent.insertBefore(element, next);
    showPart(element, parts[at]);
  });
  return elements;
}

function textOf(x, y, words, fill, more = {}) {
  return partOf("text", { x, y, fill, "dominant-baseline": "central", "font-size": 12, ...more }, { words });
}

function isOnTimeline({ from, to }, tick) {
  return from <= tick && tick <= to;
}

// the ground of the ticks that are past
function pastOf({ timeline, theme, width, height, left }) {
  const end = Math.min(Math.max(left(timeline.clock), LABELS), width - RIGHT);
  return partOf("rect", { x: LABELS, y: AXIS, width: end - LABELS, height: height - AXIS, fill: theme.band });
}

function axisOf({ timeline, theme, width, height, left }) {
  const step = Math.max(niceStep((56 * ticksOf(timeline)) / roomOf(width)), 1);
  return stepsIn(timeline.from, timeline.to, step).flatMap((tick) => [
    partOf("line", { x1: left(tick), x2: left(tick), y1: AXIS, y2: height, stroke: theme.grid }),
    textOf(left(tick), AXIS / 2, shown(tick), theme.text, { "text-anchor": "middle" }),
  ]);
}

// the clock, and the tick that is looked at
function linesOf({ timeline, theme, height, left }) {
  const { clock, at } = timeline;
  const lines = [{ tick: clock, stroke: theme.clock }];
  if (at !== null && at !== clock) lines.push({ tick: at, stroke: theme.ink, "stroke-dasharray": "3 3" });
  return lines.filter(({ tick }) => isOnTimeline(timeline, tick)).map(({ tick, ...more }) =>
    partOf("line", { x1: left(tick), x2: left(tick), y1: AXIS - 3, y2: height, "stroke-width": 1.5, ...more }));
}

function headOf({ name, note }, { theme }, top) {
  const clear = { stroke: theme.ground, "stroke-width": 4, "paint-order": "stroke" };
  return [
    textOf(4, top + HEAD / 2, cut(name), theme.ink, { "font-weight": 600 }),
    textOf(LABELS + 4, top + HEAD / 2, note, theme.text, { "font-size": 11, ...clear }),
  ];
}

function cut(words) {
  return words.length > MOST_LETTERS ? words.slice(0, MOST_LETTERS - 1) + "…" : words;
}

function rowOf({ label, spans, number }, frame, top) {
  const { timeline, theme } = frame;
  const looked = timeline.at ?? timeline.clock;
  const isNow = spans.some(([first, last]) => first <= looked && looked <= last);
  const told = spans.map(([first, last]) => (first === last ? `${first}` : `${first} to ${last}`)).join(", ");
  const parts = [
    partOf("title", {}, { words: `${label} : ${told}` }),
    textOf(20, ROW / 2, cut(label), theme.ink, isNow ? { "font-weight": 600 } : {}),
    ...spans.flatMap((span) => barsOf(span, frame)),
  ];
  if (isNow) parts.push(partOf("circle", { cx: 11, cy: ROW / 2, r: 3.5, fill: theme.mark }));
  // a row that comes to another place is moved as a whole, so that a browser lays out nothing of it anew
  const attributes = {
    role: "listitem", "aria-label": `${label}: ${told}${isNow ? ", now" : ""}`, transform: `translate(0 ${top})`,
  };
  return partOf("g", attributes, { parts, key: `${number} ${label}` });
}

// a run of ticks goes from half a tick before its first to half a tick after its last one; what is past is paler and lower
function barsOf([first, last], { timeline, theme, width, left }) {
  const { clock } = timeline;
  const [from, to] = [first - 0.5, last + 0.5];
  const bars = [];
  if (first < clock) bars.push([from, Math.min(to, clock), 5, theme.barPast]);
  if (last >= clock) bars.push([first < clock ? clock : from, to, 11, first <= clock ? theme.barNow : theme.bar]);
  const within = (tick) => Math.min(Math.max(left(tick), LABELS), width - RIGHT);
  return bars.filter((bar) => bar[1] >= timeline.from && bar[0] <= timeline.to).map(([begin, end, tall, fill]) => {
    const wide = Math.max(within(end) - within(begin), 2);
    return partOf("rect", { x: within(begin), y: (ROW - tall) / 2, width: wide, height: tall, rx: 2, fill });
  });
}
