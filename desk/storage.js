// What the browser keeps: the desk after every step, in IndexedDB.

const NAME = "gulxinett-desk";
/** `desk` has the desk but for its recording, the choice, and the desk before it; `recording` its pieces, by where they begin. */
const STORES = ["desk", "recording"];

const answered = (request) =>
  new Promise((resolve, reject) => {
    request.onsuccess = () => resolve(request.result);
    request.onerror = () => reject(request.error);
  });

/** Ends a transaction, which then holds also where the tab is closed before it is done. */
const completed = (transaction) =>
  new Promise((resolve, reject) => {
    transaction.oncomplete = () => resolve();
    transaction.onabort = transaction.onerror = () => reject(transaction.error);
    transaction.commit?.();
  });

/** Waits until no other tab has the desk open; then none has, for as long as this one is. Where that takes a while, `told` is called. */
export async function alone(told) {
  if (!navigator.locks) return;
  const waiting = setTimeout(told, 1000);
  await new Promise((resolve) => {
    const kept = () => (resolve(), new Promise(() => {}));
    navigator.locks.request(NAME, kept).catch(resolve);
  });
  clearTimeout(waiting);
}

export class Storage {
  #database;
  /** Which recording is kept, and how much of it. */
  #begun = null;
  #length = 0;
  /** A desk that another took the place of, to be kept beside it. */
  #before = null;
  #wanted = null;
  #writing = null;

  static async open() {
    const storage = new Storage();
    const request = indexedDB.open(NAME, 1);
    request.onupgradeneeded = () => STORES.forEach((store) => request.result.createObjectStore(store));
    storage.#database = await answered(request);
    return storage;
  }

  /** The desk that was kept, the choice, and the desk before it; null for what there is none of. */
  async read() {
    const transaction = this.#database.transaction(STORES);
    const [desk, choice, before, pieces] = await Promise.all([
      answered(transaction.objectStore("desk").get("now")),
      answered(transaction.objectStore("desk").get("choice")),
      answered(transaction.objectStore("desk").get("before")),
      answered(transaction.objectStore("recording").getAll()),
    ]);
    const recording = new Uint8Array(await new Blob(pieces).arrayBuffer());
    this.#begun = desk?.begun;
    this.#length = recording.length;
    return { now: desk ? { ...desk, recording } : null, choice: choice ?? null, before: before ?? null };
  }

  /** Keeps a choice, where nothing else has changed. */
  keepChoice(choice) {
    const transaction = this.#database.transaction("desk", "readwrite");
    transaction.objectStore("desk").put(choice, "choice");
    return completed(transaction);
  }

  /** Keeps what `desk()` has at the moment of writing, and a desk that it took the place of. Calls meanwhile are one more write. */
  keep(desk, before = null) {
    this.#wanted = desk;
    this.#before = before ?? this.#before;
    this.#writing ??= this.#write().finally(() => (this.#writing = null));
    return this.#writing;
  }

  async #write() {
    while (this.#wanted) {
      const { recording, ...now } = this.#wanted();
      const before = this.#before;
      const from = now.begun === this.#begun ? this.#length : 0;
      const transaction = this.#database.transaction(STORES, "readwrite");
      const [desks, pieces] = STORES.map((store) => transaction.objectStore(store));
      desks.put(now, "now");
      desks.put(now.choice, "choice");
      if (before) desks.put(before, "before");
      if (from === 0) pieces.clear();
      if (recording.length > from) pieces.put(recording.slice(from), from);
      this.#wanted = null;
      await completed(transaction);
      if (this.#before === before) this.#before = null;
      this.#begun = now.begun;
      this.#length = recording.length;
    }
  }
}
