// The page's side of the worker in which the program runs.
import { HERE, NAME, WHO } from "./store.js";

/// What was asked of a worker that was stopped.
export class Stopped extends Error {}

export class Client {
  #worker;
  #waiting = new Map();
  #count = 0;
  /// Is called with what was answered, as it comes.
  onEntries = () => {};
  /// Whether this page has the session that is kept.
  hasKept = false;

  constructor() {
    const channel = new BroadcastChannel(NAME);
    channel.onmessage = ({ data }) => data === WHO && this.hasKept && channel.postMessage(HERE);
    this.#start();
  }

  #start() {
    this.#worker = new Worker(new URL(`worker.js${location.search}`, import.meta.url), { type: "module" });
    this.#worker.onmessage = ({ data }) => this.#receive(data);
    this.#worker.onerror = (event) => this.#fail(new Error(event.message || "the worker could not be read"));
  }

  #receive({ id, value, error, entries }) {
    if (entries) return this.onEntries(entries);
    const { resolve, reject } = this.#waiting.get(id);
    this.#waiting.delete(id);
    if (error === undefined) resolve(value);
    else reject(Object.assign(new Error(error.message), { name: error.name }));
  }

  #fail(error) {
    for (const { reject } of this.#waiting.values()) reject(error);
    this.#waiting.clear();
  }

  /// Has the worker do one of its calls.
  ask(call, ...given) {
    return new Promise((resolve, reject) => {
      const id = this.#count++;
      this.#waiting.set(id, { resolve, reject });
      this.#worker.postMessage({ id, call, given });
    });
  }

  /// Stops the worker whatever it does, and begins with another one.
  restart() {
    this.hasKept = false;
    this.#worker.terminate();
    this.#fail(new Stopped());
    this.#start();
  }
}
