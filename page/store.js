// What is kept of a session, of what was said, and of files: in a database of the browser between visits, or in memory.

export const NAME = "domino";
/// What tabs say to one another: who has the session that is kept, and that it is this one.
export const WHO = "who", HERE = "here";
const VERSION = 1;
// lines: what a session is told again; entries: what was said; files: texts by name; state: the session's text before `lines`
const STORES = ["lines", "entries", "files", "state"];
const SESSION = "session";
const MOST_ENTRIES = 2_000;
// milliseconds after which a tab that has the session and says nothing is left alone
const PATIENCE = 20_000;

function done(request) {
  return new Promise((resolve, reject) => {
    request.onsuccess = () => resolve(request.result);
    request.onerror = () => reject(request.error);
  });
}

function ended(transaction) {
  return new Promise((resolve, reject) => {
    transaction.oncomplete = () => resolve();
    transaction.onabort = () => reject(transaction.error);
  });
}

async function openDatabase() {
  const request = indexedDB.open(NAME, VERSION);
  request.onupgradeneeded = () => {
    for (const store of ["lines", "entries"]) request.result.createObjectStore(store, { autoIncrement: true });
    for (const store of ["files", "state"]) request.result.createObjectStore(store);
  };
  return done(request);
}

// Two tabs that kept one session would mix their lines: the first one has it until it is closed, and tells so where another
// one asks (client.js). The worker of a tab that was closed may have it for a moment still.
async function isAlone() {
  if (!navigator.locks) return true;
  const stop = new AbortController();
  const channel = new BroadcastChannel(NAME);
  channel.onmessage = ({ data }) => data === HERE && stop.abort();
  channel.postMessage(WHO);
  const timer = setTimeout(() => stop.abort(), PATIENCE);
  const isOurs = await new Promise((resolve) => {
    const keep = () => {
      resolve(true);
      return new Promise(() => {});
    };
    navigator.locks.request(NAME, { signal: stop.signal }, keep).catch(() => resolve(false));
  });
  clearTimeout(timer);
  channel.close();
  return isOurs;
}

/// The browser's store or, where there is none, one in memory, and why.
export async function openStore() {
  try {
    if (await isAlone()) return { store: new Store(await openDatabase()), why: null };
    return { store: new MemoryStore(), why: "another tab has the session that is kept" };
  } catch (error) {
    return { store: new MemoryStore(), why: `the browser stores nothing here (${error.name})` };
  }
}

export class Store {
  #database;

  constructor(database) {
    this.#database = database;
  }

  /// All that is kept.
  async read() {
    const transaction = this.#database.transaction(STORES);
    const all = (name) => done(transaction.objectStore(name).getAll());
    const [lines, entries, texts, names, session] = await Promise.all([
      all("lines"),
      all("entries"),
      all("files"),
      done(transaction.objectStore("files").getAllKeys()),
      done(transaction.objectStore("state").get(SESSION)),
    ]);
    return { lines, entries, files: new Map(names.map((name, at) => [name, texts[at]])), session: session ?? null };
  }

  /// Keeps entries, lines and changed files (bytes by name, or null for one that is gone), all or none. The text of a
  /// session takes the place of the lines before; with `isNew` all that was of the session before is forgotten.
  async add({ entries = [], lines = [], files = new Map(), session, isNew = false }) {
    const transaction = this.#database.transaction(STORES, "readwrite");
    const [ofLines, ofEntries, ofFiles, ofState] = STORES.map((name) => transaction.objectStore(name));
    if (isNew) [ofLines, ofEntries, ofState].forEach((store) => store.clear());
    if (session !== undefined) {
      ofLines.clear();
      ofState.put(session, SESSION);
    }
    for (const line of lines) ofLines.add(line);
    for (const entry of entries) ofEntries.add(entry);
    for (const [name, bytes] of files) bytes === null ? ofFiles.delete(name) : ofFiles.put(bytes, name);
    if (entries.length > 0) forgetOldest(ofEntries);
    return ended(transaction);
  }
}

// (the keys of entries follow one another)
function forgetOldest(entries) {
  entries.openKeyCursor(null, "prev").onsuccess = ({ target }) => {
    const oldest = target.result.key - MOST_ENTRIES;
    if (oldest > 0) entries.delete(IDBKeyRange.upperBound(oldest));
  };
}

export class MemoryStore {
  #kept = { lines: [], entries: [], files: new Map(), session: null };

  async read() {
    return { ...this.#kept, files: new Map(this.#kept.files) };
  }

  async add({ entries = [], lines = [], files = new Map(), session, isNew = false }) {
    const kept = this.#kept;
    if (isNew) this.#kept = { ...kept, lines: [], entries: [], session: null };
    if (session !== undefined) Object.assign(this.#kept, { lines: [], session });
    this.#kept.lines.push(...lines);
    this.#kept.entries = [...this.#kept.entries, ...entries].slice(-MOST_ENTRIES);
    for (const [name, bytes] of files) bytes === null ? kept.files.delete(name) : kept.files.set(name, bytes);
  }
}
