// A map over tiles: Leaflet shows these and is moved, and the scene is drawn above, by the same code as without tiles.
import { LIGHT, boundsOf, drawMap, objectAt } from "./drawing.js";

// the circumference of the earth in the metres of the tiles' projection, and the pixels of a tile
const AROUND = 2 * Math.PI * 6_378_137;
const TILE = 256;

// what lies under the scene shows through
const CLEAR = "rgba(255, 255, 255, 0)";
const THEME = { ...LIGHT, ground: CLEAR, grid: CLEAR, axis: CLEAR, text: CLEAR };

/// The kind of map with these tiles, as Player makes one. `base` is { tiles, attribution, grid }, see tiles.py.
export function tileMapOf(base) {
  return class extends TileMap {
    constructor(canvas, themeNow, onPick) {
      super(canvas, onPick, base);
    }
  };
}

class TileMap {
  #canvas;
  #map;
  #onGround;
  #scene = { regions: [], classes: [], reach: 1 };
  #after = () => 0;
  #isDrawn = true;

  constructor(canvas, onPick, { tiles, attribution, grid }) {
    this.#canvas = canvas;
    this.#onGround = groundOf(grid);
    const frame = document.createElement("div");
    frame.id = "tiles";
    canvas.before(frame);
    canvas.tabIndex = -1;
    const options = { zoomAnimation: false, fadeAnimation: false, inertia: false, zoomControl: false, zoomSnap: 0.25 };
    this.#map = globalThis.L.map(frame, options).setView([0, 0], 1);
    globalThis.L.tileLayer(tiles, { attribution, maxZoom: 19 }).addTo(this.#map);
    this.#map.on("move zoom resize", () => this.#drawNow());
    this.#map.on("click", ({ containerPoint: { x, y } }) => {
      onPick(objectAt(this.#scene, this.#view, canvas.clientWidth, canvas.clientHeight, x, y, this.#after()));
    });
    new ResizeObserver(() => this.#map.invalidateSize({ animate: false })).observe(frame);
  }

  /// The place in the tiles' projection of a place on the session's plane.
  onGround(x, y) {
    return this.#onGround(x, y);
  }

  /// Shows a scene. `after` gives the part of a tick that has passed.
  show(scene, after = () => 0) {
    this.#scene = onGround(scene, this.#onGround);
    this.#after = after;
    this.draw();
  }

  /// Chooses a view that shows all.
  fit() {
    const bounds = boundsOf(this.#scene);
    if (bounds === null) return;
    const { SphericalMercator } = globalThis.L.Projection;
    const corners = [[bounds.left, bounds.bottom], [bounds.right, bounds.top]];
    const points = corners.map(([x, y]) => SphericalMercator.unproject(globalThis.L.point(x, y)));
    this.#map.fitBounds(points, { padding: [44, 44] });
  }

  scale(factor) {
    this.#map.setZoom(this.#map.getZoom() + Math.log2(factor));
  }

  /// Draws at the browser's next turn, once for all that changed until then.
  draw() {
    if (!this.#isDrawn) return;
    this.#isDrawn = false;
    requestAnimationFrame(() => this.#drawNow());
  }

  get #view() {
    const { x, y } = globalThis.L.Projection.SphericalMercator.project(this.#map.getCenter());
    return { x, y, scale: (TILE * 2 ** this.#map.getZoom()) / AROUND };
  }

  #drawNow() {
    this.#isDrawn = true;
    this.#canvas.getContext("2d").clearRect(0, 0, this.#canvas.width, this.#canvas.height);
    drawMap(this.#canvas, this.#scene, this.#view, THEME, this.#after());
  }
}

/// From places of the session's plane to those of the tiles' projection, between the points of a grid that has both.
export function groundOf({ left, bottom, right, top, count, x: xs, y: ys }) {
  const [wide, tall] = [(right - left) / (count - 1), (top - bottom) / (count - 1)];
  return (x, y) => {
    if (Number.isNaN(x)) return [NaN, NaN];
    const [across, up] = [(x - left) / wide, (y - bottom) / tall];
    const column = Math.min(Math.max(Math.floor(across), 0), count - 2);
    const row = Math.min(Math.max(Math.floor(up), 0), count - 2);
    const [a, b] = [across - column, up - row];
    const at = row * count + column;
    const between = (of) =>
      (1 - b) * ((1 - a) * of[at] + a * of[at + 1]) + b * ((1 - a) * of[at + count] + a * of[at + count + 1]);
    return [between(xs), between(ys)];
  };
}

function onGround(scene, ground) {
  return {
    ...scene,
    regions: scene.regions.map(({ name, points }) => ({ name, points: points.map(([x, y]) => ground(x, y)) })),
    classes: scene.classes.map((one) => ({
      ...one, ...columns(one, ground),
      trail: one.trail?.map((places) => columns(places, ground)),
      ways: one.ways?.map((places) => columns(places, ground)),
    })),
  };
}

function columns({ x, y, dx, dy }, ground) {
  const found = { x: [], y: [], dx: [], dy: [] };
  for (let at = 0; at < x.length; at++) {
    const [x0, y0] = ground(x[at], y[at]);
    const [x1, y1] = ground(x[at] + dx[at], y[at] + dy[at]);
    found.x.push(x0);
    found.y.push(y0);
    found.dx.push(x1 - x0);
    found.dy.push(y1 - y0);
  }
  return found;
}
