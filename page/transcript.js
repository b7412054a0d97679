// The transcript: lines, the program's replies under them, and notes of the page's.
import { button, made } from "./elements.js";
import { explain } from "./hints.js";
import { refusalOf } from "./replies.js";

const MOST_ENTRIES = 400;
const MOST_LINES = 200;

export class Transcript {
  #list;
  #ticks = null;

  constructor(list) {
    this.#list = list;
  }

  clear() {
    this.#list.replaceChildren();
    this.#ticks = null;
  }

  get isEmpty() {
    return this.#list.children.length === 0;
  }

  /// Adds what was said: the line, the reply, and the tick at which the clock stands then.
  add(entries) {
    const isAtEnd = this.#list.scrollHeight - this.#list.scrollTop - this.#list.clientHeight < 60;
    const items = entries.slice(-MOST_ENTRIES).map((entry) => this.#itemOf(entry)).filter((item) => item !== null);
    this.#list.append(...items);
    while (this.#list.children.length > MOST_ENTRIES) this.#list.firstChild.remove();
    if (isAtEnd) this.toEnd();
  }

  /// Adds a note of the page's.
  note(...parts) {
    const item = made("li", "note");
    item.append(...parts);
    this.#list.append(item);
    this.#ticks = null;
    this.toEnd();
    return item;
  }

  toEnd() {
    this.#list.scrollTop = this.#list.scrollHeight;
  }

  #itemOf(entry) {
    if (entry.isByClock && entry.reply === "ok\n") return this.#countTick(entry);
    if (entry.line.trim() === "" && entry.reply === "") return null;
    this.#ticks = null;
    const item = made("li");
    const refusal = refusalOf(entry.reply);
    const why = refusal && explain(entry.line, refusal);
    item.append(made("span", "tick", String(entry.clock)), lineOf(entry.line, why));
    if (entry.reply !== "") item.append(replyOf(entry.reply, refusal !== null));
    if (why?.words) item.append(made("div", "hint", hintOf(why)));
    return item;
  }

  // ticks of the running clock that change nothing stand in one line
  #countTick(entry) {
    const isNew = this.#ticks === null;
    if (isNew) {
      const item = made("li");
      this.#ticks = { count: 0, item, tick: made("span", "tick"), line: made("pre", "line") };
      item.append(this.#ticks.tick, this.#ticks.line, made("pre", "reply", "ok"));
    }
    const ticks = this.#ticks;
    ticks.count++;
    ticks.tick.textContent = String(entry.clock);
    ticks.line.textContent = ticks.count === 1 ? entry.line : `${entry.line}   (${ticks.count} times)`;
    return isNew ? ticks.item : null;
  }
}

// a line, with the place of its fault marked where that is known
function lineOf(line, why) {
  const pre = made("pre", /^[ \t]*#/.test(line) ? "line comment" : "line", line === "" ? " " : line);
  if (why && why.at !== null) {
    const { at, length } = why;
    // (a fault at the end of the line has no letter of its own)
    pre.replaceChildren(line.slice(0, at), made("mark", "", length > 0 ? line.slice(at, at + length) : " "), line.slice(at + length));
  }
  return pre;
}

function hintOf({ at, words }) {
  return at === null ? words : `column ${at + 1}: ${words}`;
}

function replyOf(reply, isRefused) {
  const lines = reply.trimEnd().split("\n");
  const pre = made("pre", isRefused ? "reply refused" : "reply", lines.slice(0, MOST_LINES).join("\n"));
  if (lines.length <= MOST_LINES) return pre;
  const whole = made("div");
  const all = button(`all ${lines.length} lines`, () => {
    pre.textContent = lines.join("\n");
    all.remove();
  });
  whole.append(pre, all);
  return whole;
}
