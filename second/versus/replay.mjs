// Replays the calls that 'versus answers' writes through the browser module's own functions, and compares every
// answer and every byte of what was lent with the second program's. src/answers.rs has the form of the steps.
// usage: node replay.mjs MODULE ANSWERS
import { openSync, readFileSync, readSync } from "node:fs";

// Kinds of steps.
const RESET = 0;
const WRITE = 2;
const TICK = 3;
const STEP = 21;
const LENT = 0xff;
const END = 0xfe;
const UNDRAWN = 0xa5;
/** Where the state record says whether a capture is held. */
const HELD = 4;
/** What stands between two memories, so that a byte written beside one is seen. */
const FENCE = 0xc3;
const FENCE_BYTES = 64;
/** The most bytes that each memory is lent, in the order of the steps. */
const ROOM = {
  state: 256, rom: 130 * 16384, ram: 34 * 8192, store: 32768, image: 32768, file: 10_000_000, picture: 3584, out: 163840, report: 49152,
  registers: 54, row: 256, plate: 3584, line: 131072,
};
const NAMES = Object.keys(ROOM);
/** Every so many calls all of the memory is compared, what was not lent too. */
const OFTEN = 1000;
const LEAST_CALLS = 100_000;
const LEAST_CAPTURES = 200;

/** Reads numbers and bytes from a file or a pipe as they come. */
class Steps {
  #piece = Buffer.alloc(1 << 20);
  #held = Buffer.alloc(0);

  constructor(path) {
    this.file = openSync(path, "r");
  }

  take(count) {
    while (this.#held.length < count) {
      const read = readSync(this.file, this.#piece, 0, this.#piece.length, null);
      if (read === 0) throw new Error("the answers end in the middle");
      this.#held = Buffer.concat([this.#held, this.#piece.subarray(0, read)]);
    }
    const taken = this.#held.subarray(0, count);
    this.#held = this.#held.subarray(count);
    return taken;
  }

  byte = () => this.take(1)[0];
  short = () => this.take(2).readUInt16LE();
  word = () => this.take(4).readUInt32LE();
  long = () => this.take(8).readBigUInt64LE();
}

/** The memories side by side: in the module's memory, and as the second program has them. */
class Memories {
  constructor(memory, base) {
    let place = FENCE_BYTES;
    this.parts = NAMES.map((name) => {
      const part = { name, place, length: 0, address: base + place };
      place += ROOM[name] + FENCE_BYTES;
      return part;
    });
    memory.grow(Math.ceil(place / 65536));
    this.here = new Uint8Array(memory.buffer, base, place).fill(FENCE);
    for (const { place, name } of this.parts) this.here.fill(0, place, place + ROOM[name]);
    this.second = this.here.slice();
    for (const name of ["picture", "registers", "plate"]) this.named(name).length = ROOM[name];
  }

  named = (name) => this.parts[NAMES.indexOf(name)];

  /** Puts bytes where both sides, or the second alone, have them. */
  put(part, offset, bytes, sides = [this.here, this.second]) {
    if (offset + bytes.length > ROOM[part.name]) throw new Error(`${part.name} has no room for ${bytes.length} bytes`);
    for (const side of sides) side.set(bytes, part.place + offset);
  }

  /** Says where the sides differ from one place to another. */
  difference(name, from, to) {
    const [here, second] = [this.here.subarray(from, to), this.second.subarray(from, to)];
    if (Buffer.compare(here, second) === 0) return undefined;
    const at = here.findIndex((byte, place) => byte !== second[place]);
    return `${name} at ${at}: module ${here[at]}, second program ${second[at]}`;
  }

  /** The ROM is never lent to be written, so it is compared with all the rest alone. */
  differenceInUse() {
    for (const { name, place, length } of this.parts) {
      const difference = name === "rom" ? undefined : this.difference(name, place, place + length);
      if (difference) return difference;
    }
    return undefined;
  }

  differenceAnywhere = () => this.difference("all memory", 0, this.here.length);
}

/** The calls by their kind: what they are lent, and how their words are read. */
function kinds(steps, memories, exports) {
  const lent = (...names) => names.map((name) => memories.named(name)).flatMap((part) => [part.address, BigInt(part.length)]);
  const undrawn = (length) => new Uint8Array(length).fill(UNDRAWN);
  /** Room for what a call gives out. */
  const makeRoom = (name = "out", length = steps.short()) => {
    const out = memories.named(name);
    out.length = length;
    memories.put(out, 0, undrawn(out.length));
  };
  const line = (kind, ...words) => {
    makeRoom();
    return [`line of ${kind} ${words}`, () => exports[`gulxinett_record_${kind}`](...words, ...lent("out"))];
  };
  return [
    () => ["reset", () => exports.gulxinett_reset(...lent("state"))],
    () => {
      const address = steps.short();
      return [`read ${address}`, () => exports.gulxinett_read(...lent("state", "rom", "ram"), address)];
    },
    () => {
      const [address, value] = [steps.short(), steps.byte()];
      const call = () => exports.gulxinett_write(...lent("state", "ram", "store", "image"), address, value);
      return [`write ${address} ${value}`, call];
    },
    () => {
      const cycles = steps.word();
      return [`tick ${cycles}`, () => exports.gulxinett_tick(...lent("state", "ram", "store"), cycles)];
    },
    () => ["inspect", () => exports.gulxinett_inspect(...lent("state"))],
    () => {
      const [frame, registers, picture] = [NAMES[steps.byte()], memories.named("registers"), memories.named("picture")];
      memories.put(registers, 0, steps.take(ROOM.registers));
      memories.put(picture, 0, undrawn(ROOM.picture));
      return [`picture of ${frame}`, () => exports.gulxinett_picture(...lent(frame), registers.address, picture.address)];
    },
    () => line("reset"),
    () => line("read", steps.short()),
    () => line("write", steps.short(), steps.byte()),
    () => line("tick", steps.word()),
    () => {
      const [number, row] = [steps.byte(), memories.named("row")];
      row.length = steps.short();
      memories.put(row, 0, steps.take(row.length));
      return line("row", number, ...lent("row"));
    },
    () => {
      makeRoom();
      return ["export", () => exports.gulxinett_export(...lent("ram", "out"))];
    },
    () => ["import", () => exports.gulxinett_import_photo(...lent("file", "image"))],
    () => {
      const words = [steps.byte(), steps.byte(), steps.byte(), steps.word()];
      return [`choose ${words}`, () => exports.gulxinett_choose(...lent("state"), ...words)];
    },
    () => ["place", () => exports.gulxinett_place(...lent("state", "ram", "file"))],
    () => {
      makeRoom();
      return ["shades", () => exports.gulxinett_shades(...lent("ram", "out"))];
    },
    () => {
      makeRoom();
      return ["readings", () => exports.gulxinett_readings(...lent("state", "store", "out"))];
    },
    () => {
      makeRoom();
      makeRoom("report");
      return ["salvage", () => exports.gulxinett_salvage(...lent("file", "out", "report"))];
    },
    () => {
      makeRoom("out", steps.word());
      return ["save", () => exports.gulxinett_save(...lent("state", "ram", "store", "out"))];
    },
    () => ["restore", () => exports.gulxinett_restore(...lent("file", "state", "ram", "store"))],
    () => {
      const [frame, plate, registers] = [NAMES[steps.byte()], memories.named("plate"), memories.named("registers")];
      memories.put(plate, 0, steps.take(ROOM.plate));
      memories.put(registers, 0, steps.take(ROOM.registers));
      makeRoom();
      const call = () => exports.gulxinett_judge(plate.address, ...lent(frame), registers.address, ...lent("out"));
      return [`judging beside ${frame}`, call];
    },
    () => {
      const words = memories.named("line");
      words.length = steps.word();
      memories.put(words, 0, steps.take(words.length));
      makeRoom();
      const call = () => exports.gulxinett_step(...lent("state", "rom", "ram", "store", "image", "line", "out"));
      return [`step of ${words.length} bytes`, call];
    },
  ];
}

function replay(modulePath, answersPath) {
  const { exports } = new WebAssembly.Instance(new WebAssembly.Module(readFileSync(modulePath)));
  const steps = new Steps(answersPath);
  const memories = new Memories(exports.memory, exports.memory.buffer.byteLength);
  const kind = kinds(steps, memories, exports);
  const held = () => memories.here[memories.parts[0].place + HELD] === 1;
  const patch = () => [steps.word(), steps.take(steps.word())];
  let [calls, refusals, captures, started] = [0, 0, 0, false];
  for (;;) {
    const step = steps.byte();
    if (step === END) break;
    if (step === LENT) {
      const part = memories.parts[steps.byte()];
      part.length = steps.word();
      memories.put(part, ...patch());
      if (part.name === "state") started = false;
      continue;
    }
    calls++;
    const [words, call] = kind[step]();
    const before = held();
    const answer = BigInt.asUintN(64, call());
    const due = steps.long();
    for (let changed = steps.byte(); changed > 0; changed--) {
      memories.put(memories.parts[steps.byte()], ...patch(), [memories.second]);
    }
    const difference =
      (answer === due ? undefined : `answer: module ${answer}, second program ${due}`) ??
      memories.differenceInUse() ??
      (calls % OFTEN === 0 ? memories.differenceAnywhere() : undefined);
    if (difference) throw new Error(`DIFFERENCE at call ${calls}, ${words}: ${difference}`);
    if (answer >> 32n) refusals++;
    if (step === RESET) started = false;
    if (step === WRITE && !before && held()) started = true;
    // what a line starts or ends is not counted
    if (step === STEP) started &&= held();
    if (step === TICK && before && !held()) {
      captures += Number(started);
      started = false;
    }
  }
  if (steps.long() !== BigInt(calls)) throw new Error("the answers have another number of calls than they say");
  const difference = memories.differenceAnywhere();
  if (difference) throw new Error(`DIFFERENCE at the end: ${difference}`);
  console.log(`replay: ${calls} calls on the browser module, ${captures} whole captures, ${refusals} refusals, 0 differences`);
  if (calls < LEAST_CALLS || captures < LEAST_CAPTURES) {
    throw new Error(`that is less than ${LEAST_CALLS} calls and ${LEAST_CAPTURES} captures`);
  }
}

const words = process.argv.slice(2);
if (words.length !== 2) {
  console.error("usage: node replay.mjs MODULE ANSWERS");
  process.exit(2);
}
try {
  replay(...words);
} catch (error) {
  console.error(`replay: ${error.message}`);
  process.exit(1);
}
