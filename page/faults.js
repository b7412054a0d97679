// Where a line is faulty, and what could stand there, by the companion's grammar, of which page/build makes a table. It
// tells of bytes, tokens, syntax, numbers and long names; of other sizes and of what is stored it says nothing.

const TOKEN = /([A-Za-z_]\w*)|(\d+(?:\.\d+)?)|("[^"]*")|(?:<-|<=|>=|!=|[()[\],.+\-*=<>])/y;
const KINDS = ["NAME", "NUMBER", "TEXT"];
const BLANKS = /[ \t]*/y;
const OTHER_BYTE = /[^\t -~]/;
const DECIMAL = /^(\d{1,10})(?:\.(\d{1,3}))?$/;
const WHOLE = /^0*\d{1,18}$/;
const END = "$END";

/// The states of the grammar after some tokens.
class States {
  constructor(table, stack = [table.start], begins = [0], count = 0) {
    Object.assign(this, { table, stack, begins, count });
  }

  copy() {
    return new States(this.table, [...this.stack], [...this.begins], this.count);
  }

  get last() {
    return this.table.states[this.stack.at(-1)];
  }

  /// Goes on by one more terminal, and gives whether it can follow. `onRule` is told of each rule that is complete, with its
  /// first token.
  take(terminal, onRule = () => {}) {
    for (;;) {
      const action = this.last[terminal];
      if (action === undefined) return false;
      if (action >= 0) {
        this.#push(action, this.count++);
        return true;
      }
      const [rule, length] = this.table.rules[-1 - action];
      const begin = length === 0 ? this.count : this.begins.at(-length);
      this.stack.splice(this.stack.length - length);
      this.begins.splice(this.begins.length - length);
      onRule(rule, begin);
      this.#push(this.last[rule], begin);
      if (terminal === END && this.stack.at(-1) === this.table.end) return true;
    }
  }

  #push(state, begin) {
    this.stack.push(state);
    this.begins.push(begin);
  }

  takes(terminal) {
    return this.copy().take(terminal);
  }

  /// The kinds of a name, text or number that can follow.
  kinds(terminal) {
    const after = this.copy();
    if (!after.take(terminal)) return [];
    const follow = this.table.states[after.stack.at(-2)];
    const found = Object.keys(this.table.kinds).filter((kind) => kind in follow);
    // after a sign the rule of the number has begun already
    return found.length > 0 ? found : ["literal"];
  }

  /// What can follow, in words, with many words of one sort by the name of the sort.
  get expected() {
    const { terminals, kinds, sorts, lineEnd } = this.table;
    const words = Object.keys(terminals).filter((word) => this.takes(terminals[word]));
    const possible = KINDS.flatMap((terminal) => this.kinds(terminal));
    const left = new Set([...words, ...possible]);
    const found = [];
    for (const [sort, parts] of Object.entries(sorts)) {
      if (!parts.every((part) => left.has(part))) continue;
      found.push(sort);
      for (const part of parts) left.delete(part);
    }
    const inOrder = (labels) => [...new Set(labels)].sort();
    const isLeft = (one) => left.has(one);
    const labels = inOrder(possible.filter(isLeft).map((kind) => kinds[kind]));
    return [...found, ...labels, ...inOrder(words.filter(isLeft)), ...(this.takes(END) ? [lineEnd] : [])];
  }
}

// the tokens of a line, each with its terminal, up to a place at which none begins
function tokensOf(line, { terminals, reserved, later }) {
  const tokens = [];
  let at = afterBlanks(line, 0);
  while (at < line.length) {
    TOKEN.lastIndex = at;
    const found = TOKEN.exec(line);
    if (found === null) return { tokens, badAt: at };
    const [text, ...kinds] = found;
    const kind = kinds.findIndex((part) => part !== undefined);
    const isWord = kind < 0 || reserved.includes(text) || (tokens.length === 0 && later.includes(text));
    tokens.push({ text, at, isName: !isWord && kind !== 1, terminal: isWord ? terminals[text] : KINDS[kind] });
    at = afterBlanks(line, at + text.length);
  }
  return { tokens, badAt: null };
}

function afterBlanks(line, at) {
  BLANKS.lastIndex = at;
  return at + BLANKS.exec(line)[0].length;
}

function listed(labels) {
  return labels.length === 1 ? labels[0] : `${labels.slice(0, -1).join(", ")} or ${labels.at(-1)}`;
}

// a number in the unit of its range: whole, or in thousandths; NaN where it isn't of the form
function sizeOf(text, isWhole) {
  if (isWhole) return WHOLE.test(text) ? Number(text) : NaN;
  const [, units, thousandths = ""] = DECIMAL.exec(text) ?? [];
  return Number(units) * 1000 + Number(thousandths.padEnd(3, "0"));
}

function isInRange(text, isNegative, { least, most, isWhole }) {
  const size = sizeOf(text, isWhole) * (isNegative ? -1 : 1);
  return least <= size && size <= most;
}

/// The first fault of a line that the grammar tells: the number of its refusal, its place and length, and words for it; or
/// null.
export function faultIn(text, table) {
  const line = text.replace(/\r$/, "");
  const otherAt = line.search(OTHER_BYTE);
  if (otherAt >= 0) return { number: 2, at: otherAt, length: 1, words: "neither printable ASCII nor a tab" };
  if (/^[ \t]*#/.test(line)) return null;
  const { tokens, badAt } = tokensOf(line, table);
  if (badAt !== null) {
    const more = table.badTokens[line[badAt]];
    return { number: 3, at: badAt, length: 1, words: `no token begins here${more ? `; ${more}` : ""}` };
  }
  return tokens.length === 0 ? null : (faultOfTokens(line, tokens, table) ?? longName(tokens, table));
}

function faultOfTokens(line, tokens, table) {
  const states = new States(table);
  let ofNumber = null;
  const judge = (rule, begin) => {
    const range = table.numbers[rule];
    if (range === undefined || ofNumber !== null) return;
    const [first, last] = [tokens[begin], tokens[states.count - 1]];
    if (isInRange(last.text, first !== last, range)) return;
    ofNumber = { number: 5, at: first.at, length: last.at + last.text.length - first.at, words: range.words };
  };
  for (const { terminal, at, text } of tokens) {
    const before = states.copy();
    if (!states.take(terminal, judge)) return { number: 4, at, length: text.length, words: `expected ${listed(before.expected)}` };
  }
  const before = states.copy();
  if (states.take(END, judge)) return ofNumber;
  return { number: 4, at: line.trimEnd().length, length: 0, words: `expected ${listed(before.expected)}` };
}

function longName(tokens, { nameLimit }) {
  for (const { text, at, isName } of tokens) {
    const kind = text.startsWith('"') ? "text" : "name";
    const length = text.length - (kind === "text" ? 2 : 0);
    if (!isName || length <= nameLimit) continue;
    return { number: 6, at, length: text.length, words: `this ${kind} has ${length} bytes, and at most ${nameLimit} are allowed` };
  }
  return null;
}
