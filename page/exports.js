// The objects of an export, read from its bytes: it may have one of all objects at each tick, so only what is drawn is made of
// it; and where these are at later ticks, as long as each goes on with the slope that it had.

const LINE_FEED = 10, COMMA = 44, MINUS = 45, POINT = 46, ZERO = 48, NINE = 57;
// how many thousandths the last digit of a number is worth, by how many decimals there are
const WORTHS = [1000, 100, 10, 1];

/// The objects of an export: their names, their courses where the class has places, its bytes and where the rows begin in them.
/// A course is a place and how it moves in a tick, all in whole thousandths. Where the names are those of `before`, the objects
/// of an export that came before, they are the same array.
export function objectsOf(bytes, before = null) {
  const begin = bytes.indexOf(LINE_FEED) + 1;
  // the columns of a place stand right after the name
  const isPoint = /^name,x,x\.rate,y,y\.rate[,\n]/.test(latin(bytes.subarray(0, begin)));
  const starts = startsOfRows(bytes, begin);
  const names = before !== null && haveSameNames(bytes, starts, before) ? before.names : namesOf(bytes, starts);
  return { names, course: isPoint ? courseOf(bytes, starts) : null, bytes, starts };
}

// a letter for each byte; the names have letters of ASCII alone
function latin(bytes) {
  return new TextDecoder("latin1").decode(bytes);
}

function startsOfRows(bytes, begin) {
  const starts = [];
  for (let at = begin; at < bytes.length; at++) {
    starts.push(at);
    at = endOfRow(bytes, at);
  }
  return Int32Array.from(starts);
}

function endOfRow(bytes, at) {
  while (bytes[at] !== LINE_FEED) at++;
  return at;
}

function endOfField(bytes, at) {
  while (bytes[at] !== COMMA && bytes[at] !== LINE_FEED) at++;
  return at;
}

function namesOf(bytes, starts) {
  const text = latin(bytes);
  return Array.from(starts, (start) => text.slice(start, endOfField(bytes, start)));
}

function haveSameNames(bytes, starts, before) {
  if (starts.length !== before.starts.length) return false;
  for (let row = 0; row < starts.length; row++) {
    if (!haveSameField(bytes, starts[row], before.bytes, before.starts[row])) return false;
  }
  return true;
}

function haveSameField(bytes, at, others, other) {
  const end = endOfField(bytes, at);
  while (at < end && bytes[at] === others[other]) {
    at++;
    other++;
  }
  return at === end && endOfField(others, other) === other;
}

function courseOf(bytes, starts) {
  const column = () => new Float64Array(starts.length);
  const course = { x: column(), y: column(), dx: column(), dy: column() };
  const reader = new Reader(bytes);
  for (let row = 0; row < starts.length; row++) {
    reader.at = endOfField(bytes, starts[row]);
    course.x[row] = reader.nextNumber();
    course.dx[row] = reader.nextNumber();
    course.y[row] = reader.nextNumber();
    course.dy[row] = reader.nextNumber();
  }
  return course;
}

/// The places so many ticks after an export, and how they move in a tick, in units. A number of JavaScript holds the
/// thousandths of each exactly, so a place is the one that is nearest to what the program would write then.
export function placesAfter({ x, y, dx, dy }, ticks) {
  const inUnits = (thousandths) => thousandths / 1000;
  const moved = (places, slopes) => places.map((place, at) => (place + ticks * slopes[at]) / 1000);
  return { x: moved(x, dx), y: moved(y, dy), dx: dx.map(inUnits), dy: dy.map(inUnits) };
}

// Reads the fields of a row, from the comma on that stands before the next one.
class Reader {
  constructor(bytes) {
    this.bytes = bytes;
    this.at = 0;
  }

  // The thousandths of the next field's number, which has three decimals at most.
  nextNumber() {
    const { bytes } = this;
    let at = this.at + 1;
    const isBelow = bytes[at] === MINUS;
    if (isBelow) at++;
    let digits = 0, decimals = 0;
    for (; isDigit(bytes[at]); at++) digits = digits * 10 + bytes[at] - ZERO;
    if (bytes[at] === POINT) {
      for (at++; isDigit(bytes[at]); at++, decimals++) digits = digits * 10 + bytes[at] - ZERO;
    }
    this.at = at;
    return (isBelow ? -digits : digits) * WORTHS[decimals];
  }
}

function isDigit(byte) {
  return byte >= ZERO && byte <= NINE;
}

// a line of csv as fields. No text of the program's has a line feed or a quote in it
function fieldsOf(line) {
  return line.includes('"') ? [...line.matchAll(/(?:^|,)(?:"([^"]*)"|([^,]*))/g)].map((field) => field[1] ?? field[2]) : line.split(",");
}

/// The values of one object so many ticks after an export, by their columns, or null.
export function valuesOf(bytes, name, ticks = 0) {
  const [head, ...lines] = new TextDecoder().decode(bytes).split("\n");
  const line = lines.find((one) => one.startsWith(`${name},`));
  if (line === undefined) return null;
  const columns = head.split(","), values = fieldsOf(line);
  const isDynamic = (at) => columns[at + 1] === `${columns[at]}.rate`;
  const now = values.map((value, at) => (isDynamic(at) ? textOf(thousandthsOf(value) + ticks * thousandthsOf(values[at + 1])) : value));
  return { columns, values: now };
}

function thousandthsOf(text) {
  // (the product is less than half a thousandth off)
  return Math.round(Number(text) * 1000);
}

// a number of thousandths as the program writes it
function textOf(thousandths) {
  const size = Math.abs(thousandths);
  const part = String(size % 1000).padStart(3, "0").replace(/0+$/, "");
  return `${thousandths < 0 ? "-" : ""}${Math.floor(size / 1000)}${part ? `.${part}` : ""}`;
}
