// A session: what the program is told and what is kept of it, and what the page asks the program for itself.
import { objectsOf, placesAfter, valuesOf } from "./exports.js";
import { Ended, RepeatedRun, Shelf, askOwn } from "./program.js";
import { countReplies, firstWord, isAccepted, isKept, listOf, regionsOf, ticksOf } from "./replies.js";
import { Turns } from "./turns.js";

// After so many milliseconds, what was answered is kept and passed on.
const PATIENCE = 50;
// the page's own file by which it asks
const ASKED = "asked";
// past these sizes no ways ahead are told, which are asked for tick by tick
const MOST_AHEAD = { objects: 400, bytes: 1_000_000 };
const BAD_SESSION = 2;
const PLAIN = "ok\n";

/// A text that is no session, or lines that were accepted once and no longer are.
export class NotLoaded extends Error {
  name = "NotLoaded";
}

export class Session {
  #module;
  #Run;
  #store;
  #run;
  #shelf = new Shelf(new Map());
  #regions;
  // what each class's last export told
  #objects = new Map();
  // what the program told when it was last asked for all, or null where a line was written since; and when objects turn
  #told = null;
  #turns = new Turns();
  #clock = 0;
  // bytes of what another run would be told
  #size;

  /// `Run` is one of the kinds of runs of program.js.
  constructor(module, Run, store) {
    this.#module = module;
    this.#Run = Run;
    this.#store = store;
    this.end = null;
  }

  /// Goes on from what is kept, and returns what was said before.
  async open() {
    const { session, lines, files, entries } = await this.#store.read();
    this.#shelf.texts = files;
    await this.#start(session, lines);
    return entries;
  }

  get files() {
    return this.#shelf.texts;
  }

  async #start(session, lines) {
    const { run, text, end } = await this.#Run.start(this.#module, this.#shelf, session, lines);
    if (end) throw new NotLoaded(end.status === BAD_SESSION ? text.trim() : inWords(end));
    const { accepted, refused } = countReplies(text);
    if (accepted !== lines.length) throw new NotLoaded(`${refused} of ${lines.length} lines are no longer accepted`);
    this.#run = run;
    this.#regions = [];
    this.#told = null;
    this.#turns = Turns.of(session, lines);
    this.#size = (session?.length ?? 0) + sizeOf(lines);
    this.end = null;
  }

  /// Answers the lines in their order up to one by which the program ends, and calls `tell` with entries once they are kept.
  /// Of lines of the page's clock the lines are kept, and what was said only where something changed. It gives `kept`, a
  /// promise that all is: the program may be asked for more meanwhile.
  async answer(lines, isByClock, tell) {
    let keeping = Promise.resolve();
    for (let at = 0; at < lines.length && !this.end; ) {
      const group = await this.#run.talk(this.#group(lines, at, isByClock));
      at += group.entries.length;
      // the program goes on while a group is kept
      await keeping;
      keeping = this.#keep(group, isByClock).then(() => tell(group.entries));
    }
    // (it may fail before it is waited for)
    keeping.catch(() => {});
    return { kept: keeping };
  }

  async #keep({ entries, kept, session }, isByClock) {
    if (session !== undefined) this.#run.goOnFrom(session, []);
    this.#run.keep(kept);
    this.#size += sizeOf(kept);
    const files = new Map(this.#shelf.takeChanged().map((name) => [name, this.files.get(name) ?? null]));
    const said = entries.filter((entry) => !isByClock || entry.reply !== PLAIN);
    await this.#store.add({ entries: said, lines: kept, files, session });
  }

  // the lines from `at` on that are answered within the patience
  *#group(lines, at, isByClock) {
    const until = performance.now() + PATIENCE;
    const group = { entries: [], kept: [], session: undefined };
    while (at < lines.length && !this.end && (group.entries.length === 0 || performance.now() < until)) {
      const line = lines[at++];
      const { text, end } = yield line;
      this.end = end;
      if (isAccepted(text)) this.#clock += ticksOf(line);
      group.entries.push({ line, reply: text, clock: this.#clock, isByClock });
      if (!isKept(line, text)) continue;
      group.kept.push(line);
      this.#turns.take(line);
      if (firstWord(line) !== "tick") this.#told = null;
      // the file may be another one when the line is told again
      if (firstWord(line) === "import") Object.assign(group, { session: yield* this.#saved(), kept: [] });
    }
    return group;
  }

  *#saved() {
    yield* askOwn(this.#shelf, `save "${ASKED}"`);
    return this.#shelf.own.get(ASKED);
  }

  /// The text of the session.
  async text() {
    return (await this.#runNow()).talk(this.#saved());
  }

  /// Goes on from the text of another session. Where it is faulty the present one stays.
  async load(session) {
    await this.#start(session, []);
    await this.#store.add({ session, isNew: true });
  }

  /// Begins an empty session.
  async begin() {
    await this.#store.add({ isNew: true });
    await this.#start(null, []);
  }

  /// What is kept, as a text for a person: the session that was loaded, if one was, and the lines since.
  async kept() {
    const { session, lines } = await this.#store.read();
    return new TextDecoder().decode(session ?? new Uint8Array()) + lines.map((line) => line + "\n").join("");
  }

  /// Goes on from what is kept, after the program has ended.
  async goOn() {
    const { session, lines } = await this.#store.read();
    await this.#start(session, lines);
  }

  /// Puts a file of the user's, or with null removes it.
  async putFile(name, bytes) {
    if (bytes === null) this.files.delete(name);
    else this.files.set(name, bytes);
    await this.#store.add({ files: new Map([[name, bytes]]) });
  }

  /// What there is now, by the program's own word: the clock; and the classes with their objects, regions, and queries with
  /// their answers, as they were told at the tick `toldAt`. These are the same ones, and aren't asked for again, as long as
  /// nothing but the clock changes. Where the program has ended another run tells it, and null is given where that ends too.
  async look() {
    try {
      const seen = await (await this.#runNow()).talk(this.#look());
      this.#clock = seen.clock;
      return seen;
    } catch (error) {
      if (!(error instanceof Ended)) throw error;
      this.end ??= error.end;
      return null;
    }
  }

  // the run, or another one of what is kept where it has ended
  async #runNow() {
    if (this.end === null) return this.#run;
    const { session, lines } = await this.#store.read();
    return new RepeatedRun(this.#module, this.#shelf, session, lines);
  }

  // All is asked for again once a line was written, and where objects turn. Until then each goes on with the slope that was
  // told, and an answer changes by the ticks that pass alone.
  *#look() {
    const list = listOf(yield* askOwn(this.#shelf, "list"));
    if (this.#told === null || this.#turns.next <= list.clock) {
      this.#told = yield* this.#askAll(list);
      this.#turns.toldAt(list.clock);
    }
    return { clock: list.clock, ...this.#told };
  }

  *#askAll({ clock, classes, regions, queries }) {
    const shelf = this.#shelf;
    // regions stay as they were made
    if (regions.length !== this.#regions.length) {
      this.#regions = regionsOf(new TextDecoder().decode(yield* this.#saved()));
    }
    const objects = new Map();
    for (const { name } of classes) objects.set(name, yield* objectsNow(shelf, name, this.#objects.get(name)));
    this.#objects = objects;
    for (const query of queries) query.answer = yield* askOwn(shelf, `show ${query.name}`);
    return { toldAt: clock, classes: classes.map((one) => ({ ...one, ...objects.get(one.name) })), regions: this.#regions, queries };
  }

  /// Whether what lies ahead can be asked for in a short time, of what was seen.
  canLookAhead(seen) {
    const count = withPlaces(seen).reduce((sum, one) => sum + one.names.length, 0);
    return this.end === null && count > 0 && count <= MOST_AHEAD.objects && this.#size <= MOST_AHEAD.bytes;
  }

  /// Where the objects that were seen will be at later ticks, in their order, if nothing is written before: by another run
  /// of the program, which goes on from this session's text. Null where that would take long.
  async ahead(ticks, seen) {
    if (!this.canLookAhead(seen)) return null;
    const classes = withPlaces(seen).map((one) => one.name);
    return RepeatedRun.ask(this.#module, await this.text(), (shelf) => placesAt(shelf, seen.clock, ticks, classes));
  }
}

function sizeOf(lines) {
  return lines.reduce((sum, line) => sum + line.length + 1, 0);
}

function withPlaces(seen) {
  return seen.classes.filter((one) => one.course !== null);
}

function* objectsNow(shelf, name, before) {
  yield* askOwn(shelf, `export ${name} "${ASKED}"`);
  return objectsOf(shelf.own.get(ASKED), before);
}

function* placesAt(shelf, clock, ticks, classes) {
  const found = [];
  for (const tick of ticks) {
    if (tick > clock) yield `tick ${tick - clock}`;
    clock = tick;
    const at = [];
    for (const name of classes) {
      const { names, course } = yield* objectsNow(shelf, name);
      at.push({ name, names, places: placesAfter(course, 0) });
    }
    found.push({ tick, classes: at });
  }
  return found;
}

/// The values of an object that was seen, as they are at the clock.
export function valuesSeen({ clock, toldAt, classes }, className, name) {
  const found = classes.find((one) => one.name === className);
  return found ? valuesOf(found.bytes, name, clock - toldAt) : null;
}

/// How a program ended.
export function inWords(end) {
  if (end.fault === undefined) return `the program ended with status ${end.status}`;
  return end.isStackFull ? "the program was stopped: its stack is full" : `the program was stopped: ${end.fault}`;
}
