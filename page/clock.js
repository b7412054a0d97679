// The clock by real time: calls a function so many times a second, and tells which part of a tick has passed.

// for so many seconds after a tick was late the clock counts as behind
const CALM = 2;
// ticks that are late by more seconds than these are left out, as where the page slept
const MOST_LATE = 1;

export class Clock {
  #timer = null;
  #pace = 1;
  // when the next tick is due, when the last one came, and until when the clock counts as behind
  #due = 0;
  #movedAt = 0;
  #behindUntil = 0;
  #isTicking = false;
  /// What is done at each tick; the next one waits until its promise is kept. A late one comes at once.
  onTick = async () => {};

  get isRunning() {
    return this.#timer !== null;
  }

  start(pace) {
    this.stop();
    this.#pace = pace;
    this.#due = performance.now() + this.#beat;
    this.#timer = setInterval(() => this.#tick(), this.#beat);
  }

  stop() {
    clearInterval(this.#timer);
    this.#timer = null;
  }

  // milliseconds from one tick to the next
  get #beat() {
    return 1000 / this.#pace;
  }

  // (a timer may be a little early)
  get #isDue() {
    return this.isRunning && performance.now() > this.#due - this.#beat / 10;
  }

  /// Whether a tick was late a short time ago, so that there is no time for more than them.
  get isBehind() {
    return performance.now() < this.#behindUntil;
  }

  async #tick() {
    if (this.#isTicking) return;
    this.#isTicking = true;
    try {
      while (this.#isDue) {
        this.#goOn();
        await this.onTick();
        if (performance.now() > this.#due) this.#behindUntil = performance.now() + CALM * 1000;
      }
    } finally {
      this.#isTicking = false;
    }
  }

  // the next tick is due a beat later, or so many beats that it isn't too late
  #goOn() {
    const tooLate = performance.now() - this.#due - MOST_LATE * 1000;
    this.#due += this.#beat * Math.max(Math.floor(tooLate / this.#beat), 1);
  }

  /// What is shown is of this moment.
  moved() {
    this.#movedAt = performance.now();
  }

  /// Which part of a tick has passed since, while the clock runs.
  after() {
    return this.isRunning ? Math.min((performance.now() - this.#movedAt) / this.#beat, 1) : 0;
  }
}
