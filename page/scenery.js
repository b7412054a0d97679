// What the page draws, from what the program answered: a scene with trails and ways ahead, and the timeline of the queries.
// What it told at one tick is carried on to the clock: objects by the slopes that they had, and the answer of a watch by leaving
// out the ticks that have passed. It is told anew before any of that ends.
import { placesAfter } from "./exports.js";
import { rowsOf } from "./replies.js";

const MOST_TRAIL = 60;
// places of all trails together, so that many objects have short ones
const MOST_PLACES = 40_000;
const MOST_ROWS = 60;
// ticks that a motion is drawn for where no way is known
const REACH = 5;
// how far the page looks ahead where no query says
const FAR = 20;
const LAST_TICK = 1_000_000_000;
const WATCH = "watch";

export class Scenery {
  // what was told last, and the names of each class
  #told = { at: 0, classes: [], regions: [], queries: [] };
  #names = new Map();
  #ways = [];
  #later = null;

  constructor() {
    this.clear();
  }

  clear() {
    this.clock = 0;
    this.classes = [];
    this.regions = [];
    this.queries = [];
    this.asked = null;
    this.canLookAhead = false;
    this.#ways = [];
    this.#later = null;
  }

  /// Takes what there is now: the clock, and what the program told, or null where that was taken before. A class whose names
  /// are null has those of before.
  take({ clock, canLookAhead, told }) {
    if (clock < this.clock) this.clear();
    if (told !== null) this.#takeTold(told);
    const hasMoved = clock > this.clock;
    const { at, classes, regions, queries } = this.#told;
    const old = new Map(this.classes.map((one) => [one.name, one]));
    const count = classes.reduce((sum, one) => sum + (one.course?.x.length ?? 0), 0);
    const most = Math.max(2, Math.min(MOST_TRAIL, Math.floor(MOST_PLACES / Math.max(count, 1))));
    this.classes = classes.map(({ name, names, course }) => {
      const now = { name, names, places: course && placesAfter(course, clock - at) };
      return { ...now, trail: trailOf(old.get(name), now, hasMoved).slice(-most) };
    });
    this.#later = null;
    this.clock = clock;
    this.regions = regions;
    this.queries = queries;
    this.canLookAhead = canLookAhead;
  }

  #takeTold({ at, classes, regions, queries }) {
    for (const { name, names } of classes) if (names !== null) this.#names.set(name, names);
    this.#told = {
      at, regions,
      classes: classes.map((one) => ({ ...one, names: this.#names.get(one.name) })),
      queries: queries.map(withRows),
    };
  }

  /// Takes the answer of an `ask`, with its text, as that of a query.
  takeAsked(query) {
    this.asked = withRows(query);
  }

  get count() {
    return this.classes.reduce((sum, one) => sum + one.names.length, 0);
  }

  get isEmpty() {
    return this.clock === 0 && this.classes.length === 0 && this.regions.length === 0;
  }

  /// Takes what another run said of later ticks, each with its classes, or null.
  takeWays(ways) {
    this.#ways = ways ?? [];
  }

  get hasWays() {
    return this.#ways.length > 0;
  }

  /// Takes where all is at one later tick, or null for now.
  takeLater(later) {
    this.#later = later?.[0] ?? null;
  }

  /// The tick that is drawn.
  get tick() {
    return this.#later?.tick ?? this.clock;
  }

  /// The classes at the tick that is drawn.
  get shown() {
    return this.classes.map((one) => {
      const later = this.#later?.classes.find((other) => other.name === one.name);
      return later ? { ...one, ...later, trail: [] } : one;
    });
  }

  /// The scene as drawing.js has it. `marked` is the name of a query whose objects are ringed.
  scene(marked) {
    const targets = this.#targetsOf(marked);
    const classes = this.shown.filter((one) => one.places !== null).map(({ name, names, places, trail }) => ({
      name, names, ...places, trail,
      ways: this.#waysOf(name, names),
      isMarked: targets.size === 0 ? undefined : names.map((one) => targets.has(one)),
    }));
    return { regions: this.regions, classes, reach: REACH };
  }

  // the ways of a class's objects, in their order
  #waysOf(className, names) {
    const ways = [];
    for (const { tick, classes } of this.#ways) {
      const one = classes.find((other) => other.name === className);
      if (tick > this.tick && one) ways.push(inOrder(one.names, one.places, names));
    }
    return ways.length > 0 ? ways : undefined;
  }

  /// The queries with answers: those that are registered, and the one that was asked last.
  get answered() {
    return this.asked === null ? this.queries : [...this.queries, this.asked];
  }

  // the objects of the rows of a query that hold at the tick that is drawn
  #targetsOf(name) {
    const query = this.answered.find((one) => one.name === name);
    const holds = ({ spans }) => spans.some(([first, last]) => first <= this.tick && this.tick <= last);
    return new Set((query?.rows ?? []).filter(holds).flatMap((row) => row.targets));
  }

  /// The timeline as drawing.js has it: of so many ticks around the clock, or, where that is null, of all the queries.
  timeline(span) {
    const queries = this.answered;
    const from = span === null ? Math.min(this.clock, ...queries.map((query) => query.from)) : Math.max(this.clock - span / 5, 0);
    const to = span === null ? Math.max(this.clock, ...queries.map((query) => query.to)) : from + span;
    const groups = queries.map((query) => {
      const rows = this.#rowsNow(query);
      const shown = rows.slice(0, MOST_ROWS).map((row) => ({ label: row.targets.join(" "), spans: this.#spansNow(query, row) }));
      return { name: query.name, note: `${query.kind} ${query.from}..${query.to}`, rows: shown, more: rows.length - shown.length };
    });
    return { clock: this.clock, from, to, at: this.tick, groups };
  }

  // the answer of a watch has the ticks from the clock on alone
  #rowsNow({ kind, rows }) {
    return kind === WATCH ? rows.filter(({ spans }) => spans.at(-1)[1] >= this.clock) : rows;
  }

  #spansNow({ kind }, { spans }) {
    if (kind !== WATCH) return spans;
    return spans.filter(([, last]) => last >= this.clock).map(([first, last]) => [Math.max(first, this.clock), last]);
  }

  /// The last tick that may be looked at.
  get horizon() {
    const to = Math.max(...this.answered.map((query) => query.to), 0);
    return Math.min(to > this.clock ? to : this.clock + FAR, LAST_TICK);
  }
}

// a query with its rows in place of the text of its answer
function withRows({ answer, ...query }) {
  return { ...query, rows: rowsOf(answer) };
}

// The trail of a class goes on from the one before: by the places before where the clock moved. An object that was put
// elsewhere since then has no trail.
function trailOf(old, now, hasMoved) {
  if (!old?.places || now.places === null) return [];
  const isSame = old.names === now.names;
  const inNewOrder = (places) => (isSame ? places : inOrder(old.names, places, now.names));
  const before = [...old.trail, ...(hasMoved ? [old.places] : [])].map(inNewOrder);
  return hasMoved ? before : withoutMoved(before, inNewOrder(old.places), now.places);
}

function withoutMoved(trail, old, now) {
  const moved = [...now.x.keys()].filter((at) => old.x[at] !== now.x[at] || old.y[at] !== now.y[at]);
  if (moved.length === 0) return trail;
  return trail.map(({ x, y }) => {
    const places = { x: x.slice(), y: y.slice() };
    for (const at of moved) places.x[at] = places.y[at] = NaN;
    return places;
  });
}

// the places of some objects for a list of names, NaN for those that have none
function inOrder(names, { x, y }, wanted) {
  if (names === wanted || (names.length === wanted.length && names.every((name, at) => name === wanted[at]))) return { x, y };
  const at = new Map(names.map((name, number) => [name, number]));
  const column = (values) => Float64Array.from(wanted, (name) => values[at.get(name)] ?? NaN);
  return { x: column(x), y: column(y) };
}
