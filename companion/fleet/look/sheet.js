// A sheet of pixels for what is drawn of many objects: stamps and thin lines, for which the calls of a canvas take far longer.
// It is put on the map as one picture. Places are in pixels of the page, of which a pixel of the sheet may be a part.

// how finely a line is led through the pixels
const PARTS = 1 << 16;

let kept = null;

/// The sheet with so many pixels, `ratio` to one of the page. There is one, which `begin` clears each time.
export function sheetOf(width, height, ratio) {
  if (kept?.width !== width || kept.height !== height) kept = new Sheet(width, height);
  kept.ratio = ratio;
  return kept;
}

// A stamp has the pixels of one object: where each lies from the object's own pixel, across and down, and what it is.

/// The stamp of pixels of one colour at such places.
export function dotStamp(places, colour) {
  return { places, colours: places.map(() => colour), reach: reachOf(places) };
}

/// The stamp of a picture, with its middle at the object.
export function pictureStamp(picture) {
  const { width, height } = picture;
  const all = new Uint32Array(picture.getContext("2d").getImageData(0, 0, width, height).data.buffer);
  const seen = [...all.keys()].filter((at) => all[at] >>> 24 > 0);
  const places = seen.map((at) => [(at % width) - (width >> 1), Math.floor(at / width) - (height >> 1)]);
  return { places, colours: seen.map((at) => all[at]), reach: reachOf(places) };
}

function reachOf(places) {
  return 1 + Math.max(...places.flat().map(Math.abs));
}

/// The pixel of a colour that is written as #rrggbb, seen as much as `alpha` says, up to 255. Red is its first byte, and the
/// highest one of the number of a colour.
export function pixelOf(colour, alpha = 255) {
  const number = parseInt(colour.slice(1), 16);
  return ((alpha << 24) | ((number & 0xff) << 16) | (number & 0xff00) | (number >> 16)) >>> 0;
}

class Sheet {
  #context;
  #image;
  #pixels;
  // what `begin` put there last, and of what that was
  #still;
  #stillOf = [];

  constructor(width, height) {
    [this.width, this.height] = [width, height];
    const canvas = document.createElement("canvas");
    [canvas.width, canvas.height] = [width, height];
    this.#context = canvas.getContext("2d", { willReadFrequently: true });
    this.#image = new ImageData(width, height);
    this.#pixels = new Uint32Array(this.#image.data.buffer);
    this.#still = new Uint32Array(this.#pixels.length);
    this.ratio = 1;
  }

  /// Begins anew, with what `put` puts on an empty sheet. That is kept, and isn't put again while `of` has the same values.
  begin(of, put) {
    const all = [this.ratio, ...of];
    if (all.length === this.#stillOf.length && all.every((value, at) => value === this.#stillOf[at])) {
      this.#pixels.set(this.#still);
      return;
    }
    this.#pixels.fill(0);
    put();
    this.#still.set(this.#pixels);
    this.#stillOf = all;
  }

  /// What puts a stamp where an object is, if it lies in the sheet whole.
  stamper({ places, colours, reach }) {
    const { width } = this;
    const [pixels, ratio, right, bottom] = [this.#pixels, this.ratio, width - 1 - reach, this.height - 1 - reach];
    const parts = Int32Array.from(places, ([across, down]) => down * width + across);
    const its = Uint32Array.from(colours);
    return (x, y) => {
      const across = Math.round(x * ratio), down = Math.round(y * ratio);
      if (!(across > reach && down > reach && across < right && down < bottom)) return;
      const middle = down * width + across;
      for (let part = 0; part < parts.length; part++) pixels[middle + parts[part]] = its[part];
    };
  }

  /// Puts a line of one pixel of the page between two places, of which one that isn't known has NaN.
  line(fromX, fromY, toX, toY, pixel) {
    const { ratio } = this;
    const x0 = fromX * ratio, y0 = fromY * ratio, x1 = toX * ratio, y1 = toY * ratio;
    if (Math.abs(x1 - x0) >= Math.abs(y1 - y0)) {
      if (x0 <= x1) this.#goRight(x0, y0, x1, y1, pixel);
      else this.#goRight(x1, y1, x0, y0, pixel);
    } else if (y0 <= y1) {
      this.#goDown(x0, y0, x1, y1, pixel);
    } else {
      this.#goDown(x1, y1, x0, y0, pixel);
    }
  }

  #goRight(x0, y0, x1, y1, pixel) {
    goAlong(this.#pixels, this.width, this.height, 1, this.width, this.#thick, x0, y0, x1, y1, pixel);
  }

  #goDown(x0, y0, x1, y1, pixel) {
    goAlong(this.#pixels, this.height, this.width, this.width, 1, this.#thick, y0, x0, y1, x1, pixel);
  }

  // how many pixels a line is wide
  get #thick() {
    return Math.max(Math.round(this.ratio), 1);
  }

  /// Puts the sheet on a map that is so large, in pixels of the page.
  show(context, width, height) {
    this.#context.putImageData(this.#image, 0, 0);
    context.drawImage(this.#context.canvas, 0, 0, width, height);
  }
}

// Goes along a line by the axis on which its ends are farther apart: of this there are `long` pixels, each `next` to the one
// before, and across it `wide`, each `beside` the other. The outer ones of those across that the line has are softened.
function goAlong(pixels, long, wide, next, beside, thick, from, fromAcross, to, toAcross, pixel) {
  const slope = to > from ? (toAcross - fromAcross) / (to - from) : 0;
  // where the line has its lower edge across at the axis' first pixel, and past which edge it has no room
  const atZero = fromAcross + slope * (0.5 - from) - thick / 2, room = wide - thick;
  let first = from > 0 ? Math.floor(from) : 0, last = to < long ? Math.floor(to) : long - 1;
  const isIn = (edge) => edge >= 0 && edge < room;
  if (!isIn(atZero + slope * first) || !isIn(atZero + slope * last)) {
    if (slope === 0) return;
    const ends = [-atZero / slope, (room - atZero) / slope];
    first = Math.max(first, Math.ceil(Math.min(...ends)));
    last = Math.min(last, Math.ceil(Math.max(...ends)) - 1);
  }
  const step = (slope * PARTS) | 0, colour = pixel & 0xffffff;
  let edge = ((atZero + slope * first) * PARTS) | 0;
  for (let at = first; at <= last; at++, edge += step) {
    const part = (edge >> 8) & 0xff;
    let place = at * next + (edge >> 16) * beside;
    put(pixels, place, colour, 0xff - part);
    for (let more = 1; more < thick; more++) put(pixels, (place += beside), colour, 0xff);
    put(pixels, place + beside, colour, part);
  }
}

// of two lines through a pixel the one is seen that has more of it
function put(pixels, place, colour, alpha) {
  if (alpha >= pixels[place] >>> 24) pixels[place] = (alpha << 24) | colour;
}
