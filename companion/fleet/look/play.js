// What moves the clock of a session and shows what is there: a slider, keys and buttons, a map, a timeline and a table.
import { DARK, LIGHT, drawTimeline, tickAt } from "./drawing.js";

const PACES = [1, 2, 5, 10, 20, 50, 100, 200, 500, 1000, 5000, 20_000, 100_000, 1_000_000];
// a session plays from one end to the other in about so many seconds, where no other pace is chosen
const WHOLE_SECONDS = 40;
const TABLE_ROWS = 200;
const NAMES = 8;
// while the session plays, what stands beside the map may take a part of the time of one in so many
const BESIDE_PART = 12;
const FRAMES_KEPT = 1_000;

const byId = (id) => document.getElementById(id);

export class Player {
  // the tick, and the part of the next one that has passed
  #tick;
  #after = 0;
  // the clock of the session when it was last looked at
  #present;
  #playing = null;
  // when what stands beside the map may be drawn again, the tick that it shows, and whether the last frame had a new tick
  #beside = 0;
  #besideTick = null;
  #wasNew = false;
  #back;
  // when the work for the last frame began, how long it took for each of some, and what comes when the browser has drawn
  #begun = 0;
  #frames = [];
  #drawn = new MessageChannel();
  #dark = matchMedia("(prefers-color-scheme: dark)");
  #still = matchMedia("(prefers-reduced-motion: reduce)");

  /// `Map` is a kind of map, such as MapView of map.js.
  constructor(recording, Map) {
    this.recording = recording;
    this.#back = recording.back;
    this.#tick = Math.min(Math.max(recording.clock, recording.from), recording.to);
    this.#present = recording.clock;
    this.map = new Map(byId("map"), () => this.#theme, (found) => this.#pick(found));
    byId("trails").checked = this.#back > 0;
    this.#drawn.port1.onmessage = ({ data }) => this.#count(performance.now() - data);
    this.#fillChoices();
    this.#listen();
    this.#fit();
    this.go(this.#tick);
  }

  get #theme() {
    return this.#dark.matches ? DARK : LIGHT;
  }

  get tick() {
    return this.#tick;
  }

  /// How many milliseconds each of the last frames took, by the page's own clock: the work for it and its drawing.
  get frames() {
    return this.#frames;
  }

  /// Shows what the recording has got: the present, where that was shown, or all anew.
  update(isNew = false) {
    const { clock } = this.recording;
    const wasPresent = this.#tick === this.#present || isNew;
    this.#present = clock;
    this.#fillChoices();
    if (isNew) this.#fit();
    if (!this.isPlaying) this.go(wasPresent ? clock : this.#tick);
  }

  /// Shows a tick, or the nearest one that the slider has.
  go(tick) {
    const { from, to } = this.recording;
    this.#tick = Math.min(Math.max(tick, from), to);
    this.#after = 0;
    this.#show();
    this.#showBeside();
  }

  // The view has all that is ever there, and stays as it is while objects move; where that isn't known the map sees to it
  // that it has what is there.
  #fit() {
    const { bounds } = this.recording;
    if (bounds === null) {
      this.map.fit();
      return;
    }
    const { left, right, bottom, top } = bounds;
    const all = { name: "", points: [[left, bottom], [right, bottom], [right, top], [left, top]] };
    this.map.show({ regions: [all], classes: [], reach: 0 });
    this.map.fit();
    this.map.scale(1);
  }

  #show() {
    const { recording } = this;
    const marked = recording.queriesAt(this.#tick).find(({ name }) => name === byId("marked").value) ?? null;
    this.map.show(recording.scene(this.#tick, this.#back, marked), () => this.#after);
    const slider = byId("slider");
    slider.value = this.#tick;
    slider.setAttribute("aria-valuetext", `tick ${this.#tick}, ${this.#when}`);
    say("tick", `tick ${this.#tick}`);
    say("when", this.#when);
  }

  get #when() {
    const { clock } = this.recording;
    return this.#tick < clock ? "recorded" : this.#tick === clock ? "now" : "as the motions imply";
  }

  #showBeside() {
    const begun = performance.now();
    const { recording } = this;
    const timeline = recording.timeline(this.#tick);
    byId("timeline").hidden = timeline.groups.length === 0;
    byId("no-queries").hidden = timeline.groups.length > 0;
    drawTimeline(byId("timeline"), timeline, this.#theme, byId("timeline-frame").clientWidth);
    const lines = recording.queriesAt(this.#tick).map((query) => inWords(query.name, recording.holding(query, this.#tick)));
    say("holding", lines.join("; "));
    byId("map").setAttribute("aria-label", `Map at tick ${this.#tick}`);
    if (byId("table").open) this.#fillTable();
    const now = performance.now();
    this.#besideTick = this.#tick;
    this.#beside = now + BESIDE_PART * (now - begun);
  }

  // ---- playing

  get isPlaying() {
    return this.#playing !== null;
  }

  play() {
    if (this.isPlaying) return;
    if (this.#tick >= this.recording.to) this.go(this.recording.from);
    this.#playing = { since: performance.now(), from: this.#tick };
    this.#sayPlaying();
    this.#nextFrame();
  }

  pause() {
    if (!this.isPlaying) return;
    this.#playing = null;
    this.#after = 0;
    this.#sayPlaying();
    this.#show();
    this.#showBeside();
  }

  #sayPlaying() {
    byId("play").textContent = this.isPlaying ? "Pause" : "Play";
    byId("play").setAttribute("aria-pressed", String(this.isPlaying));
    byId("holding").setAttribute("aria-live", this.isPlaying ? "off" : "polite");
  }

  #step(now) {
    if (!this.isPlaying) return;
    const position = this.#playing.from + (Math.max(now - this.#playing.since, 0) / 1000) * Number(byId("pace").value);
    if (position >= this.recording.to) {
      this.pause();
      this.go(this.recording.to);
      return;
    }
    const tick = Math.floor(position);
    this.#after = this.#still.matches ? 0 : position - tick;
    const isNew = tick !== this.#tick;
    this.#tick = tick;
    if (isNew) this.#show();
    // A new tick and what stands beside the map are much for one frame, and between two ticks there is most times another.
    if ((!isNew || this.#wasNew) && this.#besideTick !== tick && now > this.#beside) this.#showBeside();
    this.#wasNew = isNew;
    // a message that is sent now comes after the browser has drawn
    this.#drawn.port2.postMessage(this.#begun);
    this.#nextFrame();
  }

  #count(milliseconds) {
    this.#frames.push(milliseconds);
    if (this.#frames.length > FRAMES_KEPT) this.#frames.shift();
  }

  // At the next turn the map is drawn, and then comes the next step.
  #nextFrame() {
    requestAnimationFrame(() => (this.#begun = performance.now()));
    this.map.draw();
    requestAnimationFrame((now) => this.#step(now));
  }

  // ---- what is chosen

  #fillChoices() {
    const { from, to, queries } = this.recording;
    const slider = byId("slider");
    [slider.min, slider.max] = [from, to];
    const names = [...new Set(queries.map(({ name }) => name))];
    fill(byId("marked"), [["", "nothing"], ...names.map((name) => [name, name])], names.at(0) ?? "");
    const paces = PACES.filter((pace) => pace === 1 || pace <= to - from);
    const best = paces.findLast((pace) => pace <= Math.max((to - from) / WHOLE_SECONDS, 1));
    fill(byId("pace"), paces.map((pace) => [String(pace), `${pace.toLocaleString("en")} a second`]), String(best));
  }

  #pick(found) {
    byId("table").open = true;
    byId("table-filter").value = found === null ? "" : found.name;
    this.#fillTable();
  }

  #fillTable() {
    const begin = byId("table-filter").value;
    const found = this.recording.places(this.#tick).filter(({ name }) => name.startsWith(begin));
    const rows = found.slice(0, TABLE_ROWS).map((place) => {
      const row = document.createElement("tr");
      const numbers = [place.x, place.y, place.dx, place.dy].map(thousandths);
      for (const words of [place.name, place.className, ...numbers]) row.insertCell().textContent = words;
      return row;
    });
    byId("table-rows").replaceChildren(...rows);
    const more = found.length - rows.length;
    byId("table-more").textContent = more > 0 ? `and ${more} more` : "";
  }

  // ---- keys and buttons

  #listen() {
    const leap = () => Math.max(Math.round((this.recording.to - this.recording.from) / 10), 1);
    const acts = {
      first: () => this.#leave(this.recording.from),
      last: () => this.#leave(this.recording.to),
      back: () => this.#leave(this.#tick - 1),
      on: () => this.#leave(this.#tick + 1),
      present: () => this.#leave(this.recording.clock),
      play: () => (this.isPlaying ? this.pause() : this.play()),
    };
    for (const [id, act] of Object.entries(acts)) byId(id).onclick = act;
    const keys = {
      ArrowLeft: acts.back, ArrowDown: acts.back, ArrowRight: acts.on, ArrowUp: acts.on, Home: acts.first, End: acts.last,
      PageUp: () => this.#leave(this.#tick + leap()),
      PageDown: () => this.#leave(this.#tick - leap()),
      " ": acts.play,
      n: acts.present,
    };
    addEventListener("keydown", (event) => this.#key(event, keys));
    byId("slider").oninput = () => this.#leave(Number(byId("slider").value));
    byId("pace").onchange = () => this.isPlaying && (this.#playing = { since: performance.now(), from: this.#tick });
    byId("marked").onchange = () => this.#show();
    byId("trails").onchange = () => {
      this.#back = byId("trails").checked ? Math.max(this.recording.back, 1) : 0;
      this.#show();
    };
    byId("closer").onclick = () => this.map.scale(1.3);
    byId("farther").onclick = () => this.map.scale(1 / 1.3);
    byId("fit").onclick = () => [this.#fit(), this.#show()];
    byId("table").ontoggle = () => this.#fillTable();
    byId("table-filter").oninput = () => this.#fillTable();
    byId("timeline").onclick = (event) => this.#click(event);
    this.#dark.onchange = () => this.go(this.#tick);
    new ResizeObserver(() => this.#showBeside()).observe(byId("timeline-frame"));
    new ResizeObserver(() => [this.#fit(), this.#show()]).observe(byId("map-frame"));
  }

  // a tick that is chosen ends the playing
  #leave(tick) {
    this.pause();
    this.go(tick);
  }

  // Keys move the clock wherever the focus is, but where they have a meaning of their own: the arrows move the map while it
  // has the focus, and are taken then.
  #key(event, keys) {
    if (event.ctrlKey || event.metaKey || event.altKey || event.defaultPrevented || !(event.key in keys)) return;
    const { tagName, type } = event.target;
    if (tagName === "SELECT" || (tagName === "INPUT" && type !== "range" && type !== "checkbox")) return;
    if (event.key === " " && ["BUTTON", "SUMMARY", "INPUT"].includes(tagName) && type !== "range") return;
    event.preventDefault();
    keys[event.key]();
  }

  #click(event) {
    const frame = byId("timeline").getBoundingClientRect();
    const timeline = this.recording.timeline(this.#tick);
    const tick = tickAt(timeline, byId("timeline-frame").clientWidth, event.clientX - frame.left);
    if (tick !== null) this.#leave(tick);
  }
}

// puts words where others stand: the same words are left there, since new ones are laid out anew
function say(id, words) {
  if (byId(id).textContent !== words) byId(id).textContent = words;
}

// fills a choice, where it hasn't these already; what was chosen stays, where it can
function fill(choice, options, wanted) {
  if (choice.dataset.options === JSON.stringify(options)) return;
  const chosen = choice.dataset.options === undefined ? wanted : choice.value;
  choice.dataset.options = JSON.stringify(options);
  choice.replaceChildren(...options.map(([value, words]) => new Option(words, value)));
  choice.value = options.some(([value]) => value === chosen) ? chosen : wanted;
}

function inWords(name, rows) {
  const told = rows.slice(0, NAMES).map((targets) => targets.join(" "));
  const more = rows.length > NAMES ? ` and ${rows.length - NAMES} more` : "";
  return `${name}: ${told.length > 0 ? told.join(", ") + more : "none"}`;
}

// a number of thousandths as the program writes it
function thousandths(number) {
  const size = Math.abs(number);
  const part = String(size % 1000).padStart(3, "0").replace(/0+$/, "");
  return `${number < 0 ? "-" : ""}${Math.floor(size / 1000)}${part ? `.${part}` : ""}`;
}
