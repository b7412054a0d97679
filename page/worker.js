// The worker in which the program runs, so that the page stays awake beside it. It does what the page asks, one thing after
// the other.
import { RepeatedRun, SuspendedRun, canSuspend, hasWideMemory } from "./program.js";
import { Session, inWords, valuesSeen } from "./session.js";
import { openStore } from "./store.js";

const MODULE = new URL("out/domino.wasm", import.meta.url);
// (by which page/check has the module run in the second way)
const mayRepeat = new URL(self.location).searchParams.has("again");

let session = null;
let seen = null;
// the classes that were sent last, and the names of each class
let sentClasses = null;
let sentNames = new Map();

async function compiled() {
  const response = await fetch(MODULE);
  if (!response.ok) throw new Error("there is no program here: page/build makes it");
  return WebAssembly.compile(await response.arrayBuffer());
}

const calls = {
  async open() {
    if (!hasWideMemory()) return { lacks: "64-bit memory" };
    const [module, { store, why }] = await Promise.all([compiled(), openStore()]);
    session = new Session(module, canSuspend() && !mayRepeat ? SuspendedRun : RepeatedRun, store);
    const entries = await session.open();
    return { entries, notKept: why, ...(await state()) };
  },

  async answer(lines, isByClock) {
    const { kept } = await session.answer(lines, isByClock, (entries) => self.postMessage({ entries }));
    const now = await state();
    await kept;
    return now;
  },

  async goOn() {
    await session.goOn();
    return state();
  },

  async begin() {
    await session.begin();
    return state();
  },

  async load(bytes) {
    await session.load(bytes);
    return state();
  },

  text: () => session.text(),

  kept: () => session.kept(),

  ahead: (ticks) => session.ahead(ticks, seen),

  /// The values of an object as they are now.
  object: (className, name) => valuesSeen(seen, className, name),

  file: (name) => session.files.get(name) ?? null,

  async putFile(name, bytes) {
    await session.putFile(name, bytes);
    return state();
  },
};

function files() {
  return [...session.files].map(([name, bytes]) => ({ name, size: bytes.length })).sort((a, b) => (a.name < b.name ? -1 : 1));
}

// What the page shows of the session. What the program told is sent once: at most ticks the clock alone has changed.
async function state() {
  seen = (await session.look()) ?? seen;
  const end = session.end && { ...session.end, inWords: inWords(session.end) };
  return { seen: seen && { clock: seen.clock, canLookAhead: session.canLookAhead(seen), told: toldOf(seen) }, end, files: files() };
}

// what was told, or null where it was sent before
function toldOf({ toldAt, classes, regions, queries }) {
  if (classes === sentClasses) return null;
  sentClasses = classes;
  return { at: toldAt, classes: classes.map(lighter), regions, queries };
}

// (names that are the same are the same array: of ten thousand objects they are most of it)
function lighter({ name, used, capacity, names, course }) {
  const isSame = sentNames.get(name) === names;
  sentNames.set(name, names);
  return { name, used, capacity, names: isSame ? null : names, course };
}

// the columns of courses, which are given away: here nobody reads them
function givenAway({ seen }) {
  return (seen?.told?.classes ?? []).flatMap(({ course }) => Object.values(course ?? {}).map((column) => column.buffer));
}

let turn = Promise.resolve();

self.onmessage = ({ data: { id, call, given } }) => {
  turn = turn.then(async () => {
    try {
      const value = await calls[call](...given);
      self.postMessage({ id, value }, givenAway(value ?? {}));
    } catch (error) {
      self.postMessage({ id, error: { name: error.name, message: error.message } });
    }
  });
};
