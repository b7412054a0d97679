// The lines of an example, which wait in the input one after the other.
import { byId } from "./elements.js";

const PAUSE = 700;

export class Script {
  #lines = [];
  #at = 0;
  #playing = null;

  /// `send` is given lines, and `show` the line that waits, or "" where none does.
  constructor(send, show) {
    this.send = send;
    this.show = show;
    byId("script-next").onclick = () => this.next();
    byId("script-play").onclick = () => (this.#playing === null ? this.#play() : this.#pause());
    byId("script-rest").onclick = () => this.rest();
    byId("script-leave").onclick = () => this.leave();
  }

  begin(name, lines) {
    this.#pause();
    this.name = name;
    this.#lines = lines;
    this.#at = 0;
    this.#update();
  }

  /// The line that waits, or null.
  get waiting() {
    return this.#lines[this.#at] ?? null;
  }

  /// Whether this is the line that waits, as the input shows it.
  isWaiting(line) {
    return this.waiting?.replaceAll("\r", "") === line;
  }

  /// Sends the line that waits, and blank lines behind it.
  next() {
    if (byId("line").disabled) this.#pause();
    if (this.waiting === null || byId("line").disabled) return;
    const from = this.#at++;
    while (this.waiting !== null && this.waiting.trim() === "") this.#at++;
    const lines = this.#lines.slice(from, this.#at);
    this.#update();
    return this.send(lines);
  }

  rest() {
    this.#pause();
    if (byId("line").disabled) return;
    const lines = this.#lines.slice(this.#at);
    this.#at = this.#lines.length;
    this.#update();
    return this.send(lines);
  }

  leave() {
    this.begin("", []);
  }

  #play() {
    byId("script-play").setAttribute("aria-pressed", "true");
    this.#playing = setInterval(() => this.next(), PAUSE);
    this.next();
  }

  #pause() {
    byId("script-play").setAttribute("aria-pressed", "false");
    clearInterval(this.#playing);
    this.#playing = null;
  }

  #update() {
    const isDone = this.waiting === null;
    if (isDone) this.#pause();
    byId("script").hidden = isDone;
    byId("script-place").textContent = `${this.name}: line ${this.#at + 1} of ${this.#lines.length}`;
    this.show(this.waiting ?? "");
  }
}
