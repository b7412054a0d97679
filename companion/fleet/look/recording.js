// A session as it is drawn: what is there at each tick, and what its queries answer then. It works out places, and nothing
// of a query: the rows are those that the program told.
import { motionAt, placeBy } from "./motion.js";

const MOST_ROWS = 40;
// trails and ways are lines through so many places of an object, and of all objects together
const MOST_PLACES = 60;
const MOST_PLACES_OF_ALL = 4_000;

export class Recording {
  /// `data` is what `fleet look` writes; play.py tells its form.
  constructor(data) {
    Object.assign(this, data);
  }

  /// Takes what has changed: { clock, from, to, regions, classes, motions: [[class, object, motion], ..], queries,
  /// rows: [[query, targets, tick, spans], ..], dropped: [[query, tick], ..] }, with queries by their numbers.
  take({ clock, from, to, regions, classes, motions, queries, rows, dropped }) {
    Object.assign(this, { clock, from, to });
    this.regions.push(...regions);
    this.classes.push(...classes.map((name) => ({ name, objects: [] })));
    for (const [className, name, motion] of motions) {
      const { objects } = this.classes.find((one) => one.name === className);
      putLast(motionsOf(objects, name), motion);
    }
    this.queries.push(...queries);
    const byNumber = new Map(this.queries.map((query) => [query.number, query]));
    for (const [number, targets, tick, spans] of rows) putLast(versionsOf(byNumber.get(number), targets), [tick, spans]);
    for (const [number, tick] of dropped) byNumber.get(number).dropped = tick;
  }

  /// Forgets what was known before the first tick alone.
  forget() {
    const since = (known) => known.slice(Math.max(known.findLastIndex(([tick]) => tick <= this.from), 0));
    for (const { objects } of this.classes) for (const object of objects) object.motions = since(object.motions);
    for (const query of this.queries) for (const row of query.rows) row.versions = since(row.versions);
  }

  get count() {
    return this.classes.reduce((sum, { objects }) => sum + objects.length, 0);
  }

  /// Where all objects are at a tick, in thousandths: [{ className, name, x, y, dx, dy }].
  places(tick) {
    return this.classes.flatMap(({ name: className, objects }) =>
      thereAt(objects, tick).map(({ name, motion }) => ({ className, name, ...placeBy(motion, tick) })));
  }

  /// The scene at a tick as drawing.js has it. `back` is how many ticks a trail has, and `marked` a query or null.
  scene(tick, back, marked) {
    const targets = new Set(marked === null ? [] : this.holding(marked, tick).flat());
    const classes = this.classes.map(({ name, objects }) => {
      const there = thereAt(objects, tick);
      const before = this.#ticks(tick - back, tick - 1);
      const after = this.#ticks(tick + 1, tick + this.ahead);
      const trail = before.map((at) => columns(there, ({ motions }) => motionAt(motions, at), at));
      const ways = after.map((at) => columns(there, ({ motion }) => motion, at));
      return {
        name, names: there.map((object) => object.name), ...columns(there, ({ motion }) => motion, tick), trail, ways,
        isMarked: there.map((object) => targets.has(object.name)),
      };
    });
    return { regions: this.regions.filter((region) => region.tick <= tick), classes, reach: this.ahead };
  }

  // Ticks between two others, so many as can be drawn: the same ones while the clock goes on, and the last.
  #ticks(first, last) {
    const most = Math.min(Math.max(Math.floor(MOST_PLACES_OF_ALL / Math.max(this.count, 1)), 4), MOST_PLACES);
    const step = Math.max(Math.ceil((last - first + 1) / most), 1);
    const ticks = [];
    for (let at = Math.max(Math.ceil(first / step), 0) * step; at < last; at += step) ticks.push(at);
    return last < Math.max(first, 0) ? [] : [...ticks, last];
  }

  /// The queries that are registered at a tick.
  queriesAt(tick) {
    return this.queries.filter(({ entry, dropped }) => entry <= tick && (dropped === null || tick < dropped));
  }

  /// The target objects of the rows of a query that hold at a tick.
  holding(query, tick) {
    return query.rows.filter((row) => holds(spansAt(row, tick), tick)).map((row) => row.targets);
  }

  /// The timeline at a tick as drawing.js has it. Past the clock of the session that stays the present.
  timeline(tick) {
    const { from, to, clock } = this;
    const groups = this.queriesAt(tick).map((query) => {
      const rows = this.#rowsOf(query, tick);
      const note = `${query.kind} ${query.entry}..${query.expiry}`;
      return { name: query.name, note, rows: rows.slice(0, MOST_ROWS), more: Math.max(rows.length - MOST_ROWS, 0) };
    });
    return { clock: Math.min(tick, clock), from, to, at: tick > clock ? tick : null, groups };
  }

  // Few rows keep their places all along; of many, those are drawn that have something to show.
  #rowsOf(query, tick) {
    const rows = query.rows.map((row) => ({ label: row.targets.join(" "), spans: spansAt(row, tick) }));
    if (rows.length <= MOST_ROWS) return rows;
    return rows.filter(({ spans }) => spans.some(([first, last]) => first <= this.to && last >= this.from));
  }
}

// puts what is known from a tick on, which stands first in it, behind the others; of one tick the last stays
function putLast(known, next) {
  if (known.at(-1)?.[0] === next[0]) known.pop();
  known.push(next);
}

function motionsOf(objects, name) {
  let object = objects.find((one) => one.name === name);
  if (object === undefined) objects.push((object = { name, motions: [] }));
  return object.motions;
}

function versionsOf({ rows }, targets) {
  const label = targets.join(" ");
  let row = rows.find((one) => one.targets.join(" ") === label);
  if (row === undefined) rows.push((row = { targets, versions: [] }));
  return row.versions;
}

// the objects that are there at a tick, each with its motion
function thereAt(objects, tick) {
  const there = [];
  for (const { name, motions } of objects) {
    const motion = motionAt(motions, tick);
    if (motion !== null) there.push({ name, motions, motion });
  }
  return there;
}

// the places of objects at a tick, in units, by the motion that `motionOf` gives of each; NaN where it gives none
function columns(objects, motionOf, tick) {
  const column = () => new Float64Array(objects.length);
  const found = { x: column(), y: column(), dx: column(), dy: column() };
  for (let at = 0; at < objects.length; at++) {
    const motion = motionOf(objects[at]);
    const { x, y, dx, dy } = motion === null ? NOWHERE : placeBy(motion, tick);
    found.x[at] = x / 1000;
    found.y[at] = y / 1000;
    found.dx[at] = dx / 1000;
    found.dy[at] = dy / 1000;
  }
  return found;
}

const NOWHERE = { x: NaN, y: NaN, dx: 0, dy: 0 };

/// The spans of a row as they were known at a tick.
export function spansAt({ versions }, tick) {
  let spans = [];
  for (const [since, known] of versions) {
    if (since > tick) break;
    spans = known;
  }
  return spans;
}

/// Whether one of the spans has the tick.
export function holds(spans, tick) {
  return spans.some(([first, last]) => first <= tick && tick <= last);
}
