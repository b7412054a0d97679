// The map as it is handled: moved and scaled by pointer, wheel and keys, and drawn again when something changes.
import { boundsOf, drawMap, fitted, isInView, objectAt } from "./drawing.js";

const CLOSER = 1.3;
const FARTHEST = 1e-8, NEAREST = 2_000;

export class MapView {
  #canvas;
  #view = { x: 0, y: 0, scale: 10 };
  #scene = { regions: [], classes: [], reach: 1 };
  #isFitted = true;
  #isDrawn = true;
  #after = () => 0;

  /// `themeNow` gives the colours; `onPick` is called with the object that was chosen, or null.
  constructor(canvas, themeNow, onPick) {
    this.#canvas = canvas;
    this.themeNow = themeNow;
    this.onPick = onPick;
    canvas.addEventListener("wheel", (event) => this.#wheel(event), { passive: false });
    canvas.addEventListener("pointerdown", (event) => this.#drag(event));
    canvas.addEventListener("keydown", (event) => this.#key(event));
    new ResizeObserver(() => (this.#isFitted ? this.fit() : this.draw())).observe(canvas);
  }

  /// Shows a scene. `after` gives the part of a tick that has passed.
  show(scene, after = () => 0) {
    this.#scene = scene;
    this.#after = after;
    const { clientWidth: width, clientHeight: height } = this.#canvas;
    if (this.#isFitted && !isInView(boundsOf(scene), this.#view, width, height)) this.fit();
    else this.draw();
  }

  /// Chooses a view that shows all, and keeps to that until the map is moved.
  fit() {
    const { clientWidth: width, clientHeight: height } = this.#canvas;
    this.#view = fitted(boundsOf(this.#scene), width, height);
    this.#isFitted = true;
    this.draw();
  }

  /// Draws at the browser's next turn, once for all that changed until then.
  draw() {
    if (!this.#isDrawn) return;
    this.#isDrawn = false;
    requestAnimationFrame(() => {
      this.#isDrawn = true;
      drawMap(this.#canvas, this.#scene, this.#view, this.themeNow(), this.#after());
    });
  }

  scale(factor, left = this.#canvas.clientWidth / 2, top = this.#canvas.clientHeight / 2) {
    const { x, y, scale } = this.#view;
    const wanted = Math.min(Math.max(scale * factor, FARTHEST), NEAREST);
    const [across, up] = [left - this.#canvas.clientWidth / 2, top - this.#canvas.clientHeight / 2];
    // the place under the pointer stays where it is
    this.#view = { x: x + across / scale - across / wanted, y: y - up / scale + up / wanted, scale: wanted };
    this.#isFitted = false;
    this.draw();
  }

  move(left, top) {
    const { x, y, scale } = this.#view;
    this.#view = { x: x - left / scale, y: y + top / scale, scale };
    this.#isFitted = false;
    this.draw();
  }

  #wheel(event) {
    event.preventDefault();
    const { left, top } = this.#canvas.getBoundingClientRect();
    this.scale(event.deltaY < 0 ? CLOSER : 1 / CLOSER, event.clientX - left, event.clientY - top);
  }

  #drag(down) {
    let moved = 0;
    const move = (event) => {
      moved += Math.abs(event.movementX) + Math.abs(event.movementY);
      if (moved > 4) this.move(event.movementX, event.movementY);
    };
    const up = (event) => {
      this.#canvas.removeEventListener("pointermove", move);
      if (moved <= 4 && event.type === "pointerup") this.#pick(event);
    };
    this.#canvas.setPointerCapture(down.pointerId);
    this.#canvas.addEventListener("pointermove", move);
    this.#canvas.addEventListener("pointerup", up, { once: true });
    this.#canvas.addEventListener("pointercancel", up, { once: true });
  }

  #pick(event) {
    const { left, top } = this.#canvas.getBoundingClientRect();
    const { clientWidth: width, clientHeight: height } = this.#canvas;
    this.onPick(objectAt(this.#scene, this.#view, width, height, event.clientX - left, event.clientY - top, this.#after()));
  }

  #key(event) {
    const step = 60;
    const keys = {
      ArrowLeft: () => this.move(step, 0),
      ArrowRight: () => this.move(-step, 0),
      ArrowUp: () => this.move(0, step),
      ArrowDown: () => this.move(0, -step),
      "+": () => this.scale(CLOSER),
      "=": () => this.scale(CLOSER),
      "-": () => this.scale(1 / CLOSER),
      0: () => this.fit(),
    };
    if (event.ctrlKey || event.metaKey || event.altKey || !(event.key in keys)) return;
    event.preventDefault();
    keys[event.key]();
  }
}
