// The program at work: a run of its module that is told lines one after the other and keeps its state between them.
import { Host, joined } from "./host.js";

const NO_BYTES = new Uint8Array();
const SESSION = "session";
// a module that has a memory of 64 bits and nothing else
const WIDE_MEMORY = new Uint8Array([0, 0x61, 0x73, 0x6d, 1, 0, 0, 0, 5, 3, 1, 4, 1]);

/// Whether the browser has memories of 64 bits, without which the module can't be read.
export function hasWideMemory() {
  return WebAssembly.validate(WIDE_MEMORY);
}

/// Whether the browser can suspend a call of the module's until the page has an answer.
export function canSuspend() {
  return typeof WebAssembly.Suspending === "function" && typeof WebAssembly.promising === "function";
}

/// The files that the program sees: those of the user or, while the page asks for itself, the page's own.
export class Shelf {
  constructor(texts) {
    this.texts = texts;
    this.own = new Map();
    this.isOwn = false;
    this.changed = new Set();
  }

  get seen() {
    return this.isOwn ? this.own : this.texts;
  }

  has(name) {
    return this.seen.has(name);
  }

  get(name) {
    return this.seen.get(name);
  }

  set(name, bytes) {
    this.seen.set(name, bytes);
    if (!this.isOwn) this.changed.add(name);
  }

  delete(name) {
    this.seen.delete(name);
    if (!this.isOwn) this.changed.add(name);
  }

  /// The names of the user's files that were changed since the last call.
  takeChanged() {
    const names = [...this.changed];
    this.changed.clear();
    return names;
  }
}

/// The program ended where the page had asked for itself.
export class Ended extends Error {
  constructor(end) {
    super("the program has ended");
    this.end = end;
  }
}

/// A part of a conversation: a line by which the page asks for itself, over its own files. It gives the reply.
export function* askOwn(shelf, line) {
  shelf.isOwn = true;
  const { text, end } = yield line;
  shelf.isOwn = false;
  if (end) throw new Ended(end);
  return text;
}

// What a run begins with: the text of a session, if there is one, and lines that are told again.
function beginning(shelf, session) {
  if (session === null) return [];
  shelf.own.set(SESSION, session);
  return ["--session", SESSION];
}

function bytesOf(lines) {
  return new TextEncoder().encode(lines.map((line) => line + "\n").join(""));
}

function textOf(parts) {
  return new TextDecoder().decode(joined(parts));
}

function instantiate(module, host, wrapRead) {
  const { exports } = new WebAssembly.Instance(module, host.imports(wrapRead));
  host.memory = exports.memory;
  return exports;
}

// How a run ended that threw an error. The program's stack grows down to the start of the memory, and past it where it is
// full; the browser has one of its own.
function faultOf(error, exports) {
  const isStackFull = exports.__stack_pointer.value < 0n || /call stack/.test(error.message);
  return { fault: String(error.message ?? error), isStackFull };
}

/// A conversation is a generator that gives lines and is given what the program answers to each: `{ text, end }`, where
/// `end` is null or how the program has ended by the line, `{ status }` or `{ fault, isStackFull }`.
///
/// This run suspends the program where it wants more input, and so keeps it as it is.
export class SuspendedRun {
  #input = NO_BYTES;
  #output = [];
  #wake = null;
  #settle = null;

  /// Starts a run that goes on from a session, if there is one, and is told lines again: the run, and what it said to them.
  static async start(module, shelf, session, lines) {
    const run = new SuspendedRun();
    const said = run.#settled();
    run.#input = bytesOf(lines);
    shelf.isOwn = true;
    run.#begin(module, shelf, beginning(shelf, session));
    const answer = await said;
    shelf.isOwn = false;
    return { run, ...answer };
  }

  async talk(conversation) {
    let step = conversation.next();
    while (!step.done) {
      const answered = this.#settled();
      this.#tell(step.value);
      step = conversation.next(await answered);
    }
    return step.value;
  }

  // this run needs nothing told again
  goOnFrom() {}

  keep() {}

  #begin(module, shelf, words) {
    const host = new Host({ words, files: shelf, read: (room) => this.#read(room), write: (bytes) => this.#output.push(bytes) });
    const exports = instantiate(module, host, (read) => new WebAssembly.Suspending(read));
    this.end = null;
    WebAssembly.promising(exports.run)().then(
      (status) => this.#answer({ status }),
      (error) => this.#answer(faultOf(error, exports)),
    );
  }

  #settled() {
    return new Promise((resolve) => (this.#settle = resolve));
  }

  #answer(end) {
    const text = textOf(this.#output);
    this.#output = [];
    this.end = end;
    this.#settle({ text, end });
  }

  #tell(line) {
    if (this.end !== null) return this.#answer(this.end);
    this.#input = bytesOf([line]);
    this.#wake();
  }

  // all that was told has been answered once the program wants more
  async #read(room) {
    if (this.#input.length === 0) {
      const woken = new Promise((resolve) => (this.#wake = resolve));
      this.#answer(null);
      await woken;
    }
    const found = this.#input.subarray(0, room);
    this.#input = this.#input.subarray(found.length);
    return found;
  }
}

/// This run goes through its whole input at each conversation, in a new instance, where no call can be suspended.
export class RepeatedRun {
  #module;
  #shelf;
  #session;
  #lines;

  constructor(module, shelf, session, lines) {
    this.#module = module;
    this.#shelf = shelf;
    this.goOnFrom(session, lines);
  }

  static async start(module, shelf, session, lines) {
    const run = new RepeatedRun(module, shelf, session, lines);
    return { run, ...run.#repeat(nothing()).first };
  }

  /// The value of one conversation with a program of its own, which goes on from a session.
  static ask(module, session, conversation) {
    const shelf = new Shelf(new Map());
    return new RepeatedRun(module, shelf, session, []).#repeat(conversation(shelf)).value;
  }

  async talk(conversation) {
    return this.#repeat(conversation).value;
  }

  goOnFrom(session, lines) {
    this.#session = session;
    this.#lines = [...lines];
  }

  keep(lines) {
    this.#lines.push(...lines);
  }

  #repeat(conversation) {
    const shelf = this.#shelf;
    let output = [], first = null, step = null;
    let input = bytesOf(this.#lines);
    const answer = (end) => {
      const answered = { text: textOf(output), end };
      output = [];
      first ??= answered;
      step = step === null ? conversation.next() : conversation.next(answered);
    };
    const read = (room) => {
      if (input.length === 0 && !step?.done) {
        if (step === null) shelf.isOwn = false;
        answer(null);
        if (!step.done) input = bytesOf([step.value]);
      }
      const found = input.subarray(0, room);
      input = input.subarray(found.length);
      return found;
    };
    shelf.isOwn = true;
    const words = beginning(shelf, this.#session);
    const end = this.#runOnce({ words, files: shelf, read, write: (bytes) => output.push(bytes) });
    while (!step?.done) answer(end);
    shelf.isOwn = false;
    return { value: step.value, first };
  }

  #runOnce(outside) {
    const host = new Host(outside);
    const exports = instantiate(this.#module, host);
    try {
      return { status: exports.run() };
    } catch (error) {
      return faultOf(error, exports);
    }
  }
}

function* nothing() {}
