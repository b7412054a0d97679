// When objects turn: the ticks at which legs begin that were written before. Until then each attribute goes on with the slope
// that the last export told.
import { ticksOf } from "./replies.js";

// legs that follow one another, each a slope and a number of ticks
const LEGS = /(?:\[[^\]]*,[ \t]*\d+[ \t]*\][ \t]*)+/g;
const LENGTH = /(\d+)[ \t]*\]/g;
const QUOTED = /"[^"]*"/g;
// the lines of a session that move the clock or have legs
const WITH_TURNS = /^(?:[ \t]*tick[ \t]+\d+[ \t]*\r?|.*\[.*)$/gm;

export class Turns {
  #ticks = new Set();
  #clock = 0;
  /// The first tick at which an object may turn, after the one of which it was told last.
  next = Infinity;

  /// Those of the text of a session, and of lines that go on from it.
  static of(session, lines) {
    const turns = new Turns();
    const text = session === null ? "" : new TextDecoder().decode(session);
    for (const [line] of text.matchAll(WITH_TURNS)) turns.take(line);
    for (const line of lines) turns.take(line);
    return turns;
  }

  /// Takes a line that was accepted. Legs that a later line puts others in place of stay, and cost an export.
  take(line) {
    this.#clock += ticksOf(line);
    if (!line.includes("[")) return;
    for (const [legs] of line.replace(QUOTED, "").matchAll(LEGS)) {
      let tick = this.#clock;
      for (const [, length] of legs.matchAll(LENGTH)) this.#ticks.add((tick += Number(length)));
    }
  }

  /// Is told that all is known as it is at a tick.
  toldAt(clock) {
    this.next = Infinity;
    for (const tick of this.#ticks) {
      if (tick <= clock) this.#ticks.delete(tick);
      else if (tick < this.next) this.next = tick;
    }
  }
}
