// What the program calls from outside: its words, its input and output, and its files.

const ENOENT = 2, EBADF = 9, EEXIST = 17;
const IS_WRITING = 1, CREATES = 0o100, IS_NEW = 0o200, EMPTIES = 0o1000;
const OUTPUT = 1, ERRORS = 2, FIRST_FILE = 3;
// the folder of the files, which the program opens to sync it
const FOLDER = ".";

/// The imports of the module, over
///   words    the words of the command line, without the program's name
///   files    texts by name, with the calls of a Map: has, get, set and delete
///   read     called with the number of bytes wanted; answers that many or fewer, and none at the end of the input
///   write    called with the bytes that are written to the output
/// and `memory`, which the caller sets once the module is instantiated.
export class Host {
  constructor({ words = [], files = new Map(), read, write }) {
    this.words = ["domino", ...words].map((word) => new TextEncoder().encode(word));
    this.files = files;
    this.read = read;
    this.write = write;
    this.open = new Map();
    this.memory = null;
  }

  /// `wrapRead` makes of a function the one that the module is given to read by.
  imports(wrapRead = (read) => read) {
    const counted = (call) => (...given) => BigInt(call.apply(this, given));
    return {
      host: {
        word: counted(this.takeWord),
        open: counted(this.openFile),
        close: counted(this.closeFile),
        write: counted(this.writeBytes),
        size: counted(this.sizeOfOpen),
        size_of: counted(this.sizeOf),
        rename: counted(this.renameFile),
        remove: counted(this.removeFile),
        read: wrapRead((...given) => this.readBytes(...given)),
      },
    };
  }

  bytes(at, length) {
    return new Uint8Array(this.memory.buffer, Number(at), Number(length));
  }

  name(at, length) {
    return new TextDecoder().decode(this.bytes(at, length));
  }

  put(at, room, found) {
    this.bytes(at, room).set(found);
    return found.length;
  }

  takeWord(number, at, room) {
    const word = this.words[Number(number)];
    if (word === undefined) return -1;
    return word.length > Number(room) ? -2 : this.put(at, room, word);
  }

  openFile(at, length, flags) {
    const name = this.name(at, length);
    const isThere = name === FOLDER || this.files.has(name);
    if (!isThere && !(flags & CREATES)) return -ENOENT;
    if (isThere && flags & IS_NEW) return -EEXIST;
    let number = FIRST_FILE;
    while (this.open.has(number)) number++;
    if (flags & IS_WRITING) {
      this.open.set(number, { name, parts: [], isChanged: !isThere || (flags & EMPTIES) !== 0 });
    } else {
      this.open.set(number, { left: name === FOLDER ? new Uint8Array() : this.files.get(name) });
    }
    return number;
  }

  // a file's bytes are put where they belong once all are written
  closeFile(number) {
    const file = this.open.get(number);
    if (file === undefined) return -EBADF;
    this.open.delete(number);
    if (file.isChanged) this.files.set(file.name, joined(file.parts));
    return 0;
  }

  sizeOfOpen(number) {
    const file = this.open.get(number);
    return file?.left === undefined ? -EBADF : file.left.length;
  }

  sizeOf(at, length) {
    const name = this.name(at, length);
    return this.files.has(name) ? this.files.get(name).length : -ENOENT;
  }

  renameFile(fromAt, fromLength, toAt, toLength) {
    const [from, to] = [this.name(fromAt, fromLength), this.name(toAt, toLength)];
    if (!this.files.has(from)) return -ENOENT;
    this.files.set(to, this.files.get(from));
    this.files.delete(from);
    return 0;
  }

  removeFile(at, length) {
    const name = this.name(at, length);
    if (!this.files.has(name)) return -ENOENT;
    this.files.delete(name);
    return 0;
  }

  writeBytes(number, at, length) {
    const bytes = this.bytes(at, length).slice();
    if (number === OUTPUT) {
      this.write(bytes);
    } else if (number !== ERRORS) {
      const file = this.open.get(number);
      if (!file?.isChanged) return -EBADF;
      file.parts.push(bytes);
    }
    return bytes.length;
  }

  // answers a number, or a promise of one where `read` does
  readBytes(number, at, room) {
    if (number !== 0) return BigInt(this.readFile(number, at, room));
    const found = this.read(Number(room));
    if (found instanceof Promise) return found.then((bytes) => BigInt(this.put(at, room, bytes)));
    return BigInt(this.put(at, room, found));
  }

  readFile(number, at, room) {
    const file = this.open.get(number);
    if (file?.left === undefined) return -EBADF;
    const found = file.left.subarray(0, Number(room));
    file.left = file.left.subarray(found.length);
    return this.put(at, room, found);
  }
}

export function joined(parts) {
  const whole = new Uint8Array(parts.reduce((length, part) => length + part.length, 0));
  let at = 0;
  for (const part of parts) {
    whole.set(part, at);
    at += part.length;
  }
  return whole;
}
