// Carries what was told at one tick on to later ones as the page does, and compares it with what the program told there:
// node carried.mjs, with [{ line, reply } or { clock, exported, answers }, ..] as JSON on its input, where `exported` has the
// text of the export of each class by its name, and `answers` the queries. It prints how many ticks were carried on to.
import { deepStrictEqual } from "node:assert";
import { readFileSync } from "node:fs";
import { objectsOf, valuesOf } from "../exports.js";
import { isKept } from "../replies.js";
import { Scenery } from "../scenery.js";
import { Turns } from "../turns.js";

function toldOf({ clock, exported, answers }) {
  const classes = Object.entries(exported).map(([name, text]) => ({ name, ...objectsOf(new TextEncoder().encode(text)) }));
  return { at: clock, classes, regions: [], queries: answers };
}

function shownBy(scenery, queries) {
  const marks = queries.map(({ name }) => scenery.scene(name).classes.map((one) => one.isMarked));
  const places = scenery.shown.map(({ name, names, places }) => ({ name, names, places }));
  return { places, marks, timelines: [null, 20].map((span) => scenery.timeline(span)) };
}

function compareValues(told, { clock, exported }) {
  for (const { name, names, bytes } of told.classes) {
    const now = new TextEncoder().encode(exported[name]);
    for (const object of names) deepStrictEqual(valuesOf(bytes, object, clock - told.at), valuesOf(now, object));
  }
}

const scenery = new Scenery();
const turns = new Turns();
let told = null, count = 0;
for (const step of JSON.parse(readFileSync(0, "utf8"))) {
  const { line, reply, clock, answers } = step;
  if (line !== undefined) {
    if (!isKept(line, reply)) continue;
    turns.take(line);
    if (!line.startsWith("tick")) told = null;
    continue;
  }
  const isCarried = told !== null && clock < turns.next;
  if (!isCarried) {
    told = toldOf(step);
    turns.toldAt(clock);
  }
  scenery.take({ clock, canLookAhead: false, told: isCarried ? null : told });
  if (!isCarried) continue;
  const fresh = new Scenery();
  fresh.take({ clock, canLookAhead: false, told: toldOf(step) });
  deepStrictEqual(shownBy(scenery, answers), shownBy(fresh, answers));
  compareValues(told, step);
  count++;
}
console.log(count);
