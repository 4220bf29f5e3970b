// The Game Boy Camera cartridge controller, in a browser and in node: the proved module, and a class that
// owns a cartridge's memory in it.

import { Memory } from "./memory.js";
import { LINE_BYTES, ROW_BYTES, Recorder } from "./recorder.js";

/** Bytes of the state record. */
export const STATE_BYTES = 121;
/** The layout of these bytes, which their first one says; bytes of another layout are refused as 1. */
export const LAYOUT = 3;
/** Camera registers. */
export const REGISTERS = 54;
/** Bytes in one ROM bank. */
export const ROM_BANK = 16_384;
/** Bytes in one RAM bank. */
export const RAM_BANK = 8_192;
/** Bytes in an image and in the frame store: 128 rows of 128. */
export const FRAME_BYTES = 16_384;
/** Bytes of a picture: two bits for each of 128 by 112 pixels. */
export const PICTURE_BYTES = 3_584;
/** Rows of a picture. */
export const PICTURE_ROWS = 112;
/** Where the picture lies in RAM bank 0. */
export const PICTURE_OFFSET = 0x100;

/** Bytes of a plate as a Netpbm P5 file: a header of 15, then one for each of 128 by 112 pixels. */
export const PLATE_BYTES = 14_351;
/** Bytes of a plate as shades: one for each of its pixels, 0 white to 3 black. */
export const SHADES_BYTES = 14_336;
/** Bytes of a save file besides its RAM. */
export const SAVE_BYTES = 16_516;
/** The most bytes of a script that is salvaged. */
export const SCRIPT_BYTES = 32_768;

/** The exposure that names none. */
const UNNAMED = 0x1_0000;
/** Bytes of the longest answer to a script line, that of a tick, with its LF. */
const ANSWER_BYTES = 11;
/** Numbers that are kept of a recording that is audited, eight bytes each, and room for the events of a line. */
const BOOK_WORDS = 13;
const EVENTS_BYTES = 512;

/** Where RAM write enable, select, the two counts of captures and the registers stand in the state record. */
const ENABLE_OFFSET = 1;
const SELECT_OFFSET = 3;
const STARTED_OFFSET = 9;
const ENDED_OFFSET = 11;
const REGISTERS_OFFSET = 13;
/** The lengths that a RAM can have. */
const RAM_LENGTHS = [1, 2, 4, 8, 16].map((banks) => banks * RAM_BANK);
/** Bytes of the state record of layout 1, which had no number and began with a flag. */
const FIRST_LAYOUT_BYTES = 116;

/** What each refusal number says. */
const SENTENCES = {
  1: "the state record can't exist",
  2: "the ROM length is not allowed",
  3: "the RAM length is not allowed",
  4: "the image or the frame store is not 16,384 bytes",
  5: "the address is outside 0000-7FFF and A000-BFFF",
  6: "the script line or image row is malformed",
  7: "the room lent for what is written is too short",
  8: "the file is not one that can be read",
  9: "the light set is above 1 or the level above 15",
  10: "a capture is held, running or stopped",
  11: "no capture is held, running or stopped",
  12: "the script is over 32,768 bytes",
};

/** A call that was refused, by its number; it changed nothing. */
export class Refusal extends Error {
  constructor(number, sentence = SENTENCES[number] ?? `refusal ${number}`) {
    super(sentence);
    this.name = "Refusal";
    this.number = number;
  }
}

/** The layout that a state record's bytes were saved in, whichever version saved them; null if they are no record's. */
export function layoutOf(state) {
  const bytes = bytesOf("the state", state);
  if (bytes[0] > 1) return bytes[0];
  return bytes.length === FIRST_LAYOUT_BYTES ? 1 : null;
}

/** A refusal of what a cartridge was given; where the state is of another layout, it says so. */
function ofItsLayout(refusal, state) {
  const layout = layoutOf(state);
  if (refusal.number !== 1 || layout === null || layout === LAYOUT) return refusal;
  return new Refusal(1, `the state is of layout ${layout}, and this program reads layout ${LAYOUT}: another version saved it`);
}

/** The module beside this file, where './build wasm' of the repository puts it. */
const BESIDE = new URL("gulxinett.wasm", import.meta.url);

/** Compiles the module, from bytes or from where it lies, and gives what is called on it. */
export async function load(source = BESIDE) {
  const module = source instanceof WebAssembly.Module ? source : await WebAssembly.compile(await fetched(source));
  const { exports } = await WebAssembly.instantiate(module);
  return bound(exports);
}

/** The module's bytes, as given or from a URL; in node also from a path. */
async function fetched(source) {
  if (typeof source !== "string" && !(source instanceof URL)) return bytesOf("the module", source);
  const inNode = globalThis.process?.versions?.node !== undefined;
  const isFile = inNode && !/^(https?|data|blob):/i.test(source);
  try {
    return isFile ? await readFile(source) : await download(source);
  } catch (reason) {
    const hint = source === BESIDE ? "; './build wasm' of the repository puts it there" : "";
    throw new Error(`the module can't be had from ${source}: ${reason.message}${hint}`);
  }
}

async function readFile(source) {
  const files = await import("node:fs/promises");
  return files.readFile(/^file:/i.test(source) ? new URL(source) : source);
}

async function download(source) {
  const answer = await fetch(source);
  if (!answer.ok) throw new Error(`${answer.status} ${answer.statusText}`);
  return answer.arrayBuffer();
}

/** What is called on a module, over its memory: the classes `Cartridge` and `Audit`, `picture`, `judge` and `salvage`. */
function bound(exports) {
  const memory = new Memory(exports.memory, exports.__heap_base.value);

  const resetRecord = withCopies({ state: new Uint8Array(STATE_BYTES) }, ({ state }) => {
    valueOf(exports.gulxinett_reset(...lent(state)));
    return state.bytes.slice();
  });

  /** Lends copies of the named bytes to some work, and takes them back. */
  function withCopies(named, work) {
    const kept = memory.keep(named);
    try {
      return work(kept);
    } finally {
      memory.release(kept);
    }
  }

  /** The whole picture of a frame under the registers taken. */
  function picture(frame, registers) {
    const named = {
      frame: bytesOf("the frame", frame),
      registers: exactly(REGISTERS, "the registers", registers),
      area: new Uint8Array(PICTURE_BYTES),
    };
    return withCopies(named, ({ frame, registers, area }) => {
      valueOf(exports.gulxinett_picture(...lent(frame), registers.address, area.address));
      return area.bytes.slice();
    });
  }

  /** Which rows of a picture area are those of the picture of a frame under the registers taken: 1 for each that is. */
  function judge(area, frame, registers) {
    const named = {
      area: exactly(PICTURE_BYTES, "the area", area),
      frame: bytesOf("the frame", frame),
      registers: exactly(REGISTERS, "the registers", registers),
      rows: new Uint8Array(PICTURE_ROWS),
    };
    return withCopies(named, ({ area, frame, registers, rows }) => {
      valueOf(exports.gulxinett_judge(area.address, ...lent(frame), registers.address, ...lent(rows)));
      return rows.bytes.slice();
    });
  }

  /** The accepted lines of a bus script, a repetition once, and a byte about each of its lines. */
  function salvage(script) {
    const lines = bytesOf("the script", script);
    const named = { script: lines, text: new Uint8Array(lines.length + 1), report: new Uint8Array(lines.length) };
    return withCopies(named, ({ script, text, report }) => {
      const value = valueOf(exports.gulxinett_salvage(...lent(script, text, report)));
      return { text: text.bytes.slice(0, value & 0xffff), report: report.bytes.slice(0, value >>> 16) };
    });
  }

  // The module writes each line of a recording to one place, a row of the image from another.
  const { room, lentRow } = memory.keep({ room: new Uint8Array(LINE_BYTES), lentRow: new Uint8Array(ROW_BYTES) });
  const line = (answer) => room.bytes.subarray(0, valueOf(answer));
  const lines = {
    reset: () => line(exports.gulxinett_record_reset(...lent(room))),
    read: (address) => line(exports.gulxinett_record_read(address, ...lent(room))),
    write: (address, value) => line(exports.gulxinett_record_write(address, value, ...lent(room))),
    tick: (cycles) => line(exports.gulxinett_record_tick(cycles, ...lent(room))),
    row: (number, bytes) => {
      lentRow.bytes.set(bytes);
      return line(exports.gulxinett_record_row(number, ...lent(lentRow, room)));
    },
  };

  class Cartridge {
    /** The pieces of memory that are this cartridge's; none once it is closed. */
    #kept;
    // What each call is lent.
    #reading;
    #writing;
    #ticking;
    #inspecting;
    /** The image is the one a script begins with: the job begins here, and none was lent yet. */
    #imageUntouched;
    #recorder;

    constructor({
      rom = filled(ROM_BANK, 0xff),
      ram = filled(RAM_BANK, 0xff),
      state = resetRecord,
      store = filled(FRAME_BYTES, 0),
    } = {}) {
      this.#kept = memory.keep({
        state: bytesOf("the state", state),
        rom: bytesOf("the ROM", rom),
        ram: bytesOf("the RAM", ram),
        store: bytesOf("the frame store", store),
        image: filled(FRAME_BYTES, 0),
      });
      const kept = this.#kept;
      this.#reading = lent(kept.state, kept.rom, kept.ram);
      this.#writing = lent(kept.state, kept.ram, kept.store, kept.image);
      this.#ticking = lent(kept.state, kept.ram, kept.store);
      this.#inspecting = lent(kept.state);
      this.#imageUntouched = state === resetRecord;
      this.#judge();
    }

    /** A cartridge that goes on from a save file; refused as 8 if it is not exactly one. */
    static restore(file, { rom } = {}) {
      const save = bytesOf("the save", file);
      const rest = save.length - SAVE_BYTES;
      const named = {
        save,
        state: new Uint8Array(STATE_BYTES),
        ram: new Uint8Array(RAM_LENGTHS.includes(rest) ? rest : RAM_BANK),
        store: new Uint8Array(FRAME_BYTES),
      };
      const parts = withCopies(named, ({ save, state, ram, store }) => {
        valueOf(exports.gulxinett_restore(...lent(save, state, ram, store)));
        return { state: state.bytes.slice(), ram: ram.bytes.slice(), store: store.bytes.slice() };
      });
      return new Cartridge({ rom, ...parts });
    }

    /** A cartridge as after reset over a battery save of another emulator, which is the RAM as it is. */
    static fromBattery(ram, { rom } = {}) {
      return new Cartridge({ rom, ram: bytesOf("the battery save", ram) });
    }

    /** A cartridge that goes on from loose pieces. */
    static fromParts(parts, { rom } = {}) {
      const { state, ram, store } = parts ?? {};
      for (const [part, bytes] of Object.entries({ state, ram, store })) bytesOf(`the save's ${part}`, bytes);
      return new Cartridge({ rom, state, ram, store });
    }

    /** Lets the module judge what was given: a read looks at state, ROM and RAM, no cycles at the store too. */
    #judge() {
      try {
        this.read(0);
        this.tick(0);
      } catch (refusal) {
        const said = ofItsLayout(refusal, this.#kept.state.bytes);
        this.close();
        throw said;
      }
    }

    #open() {
      if (!this.#kept) throw new Error("the cartridge is closed");
      return this.#kept;
    }

    /** A count of captures as it stands in the state. */
    #count(place) {
      const { bytes } = this.#open().state;
      return bytes[place] + 256 * bytes[place + 1];
    }

    /** Captures started since reset, 65,536 counting as 0; as a capture starts this becomes its plate's serial. */
    get started() {
      return this.#count(STARTED_OFFSET);
    }

    /** Captures that reached their end since reset, counted likewise. */
    get ended() {
      return this.#count(ENDED_OFFSET);
    }

    /** Resets the state; RAM, frame store and image stay. */
    reset() {
      this.#open();
      this.#recorder?.note("reset");
      valueOf(exports.gulxinett_reset(...this.#inspecting));
    }

    /** The byte at an address. */
    read(address) {
      this.#open();
      upTo(0xffff, "the address", address);
      this.#recorder?.note("read", address);
      return valueOf(exports.gulxinett_read(...this.#reading, address));
    }

    /** Writes a byte to an address; a start lights the image lent into the frame store. */
    write(address, value) {
      const { image } = this.#open();
      upTo(0xffff, "the address", address);
      upTo(0xff, "the value", value);
      this.#recorder?.write(image.bytes, address, value);
      valueOf(exports.gulxinett_write(...this.#writing, address, value));
    }

    /** Lets cycles pass; how many of them fell while a capture was running. */
    tick(cycles) {
      this.#open();
      upTo(0xffff_ffff, "the cycles", cycles);
      this.#recorder?.note("tick", cycles);
      return valueOf(exports.gulxinett_tick(...this.#ticking, cycles));
    }

    /** Carries out a line of a bus script, without its LF, as the program `bus` does; its answer, with the LF. */
    step(line) {
      const { state, rom, ram, store, image } = this.#open();
      const bytes = bytesOf("the line", line);
      this.#recorder?.beforeLine(image.bytes);
      const named = { line: bytes, out: new Uint8Array(ANSWER_BYTES) };
      const answer = withCopies(named, ({ line, out }) => {
        const length = valueOf(exports.gulxinett_step(...lent(state, rom, ram, store, image, line, out)));
        return out.bytes.slice(0, length);
      });
      if (textOf(answer) === MALFORMED) return answer;
      // a row is lent
      if (textOf(bytes.subarray(0, 2)) === "04") this.#imageUntouched = false;
      this.#recorder?.line(bytes);
      return answer;
    }

    /** Writes the matrix of a light set and a level, and the exposure; nothing else changes, and no capture held. */
    choose({ light, level, dithering = true, exposure } = {}) {
      const { image, state } = this.#open();
      upTo(0xff, "the light set", light);
      upTo(0xff, "the level", level);
      if (typeof dithering !== "boolean") throw new TypeError(`dithering must be true or false, not ${typeof dithering}`);
      if (exposure !== undefined) upTo(0xffff, "the exposure", exposure);
      valueOf(exports.gulxinett_choose(...lent(state), light, level, Number(!dithering), exposure ?? UNNAMED));
      this.#recorder?.choose(image.bytes, this.#registers(), state.bytes[SELECT_OFFSET]);
    }

    /** The first element of the matrix whose values don't rise or stay level; null if there is none. */
    inspect() {
      this.#open();
      const value = valueOf(exports.gulxinett_inspect(...this.#inspecting));
      return value === 0 ? null : { row: (value >> 4) & 15, column: value & 15 };
    }

    /** Lends an image to the writes that follow. */
    lend(image) {
      const { image: kept } = this.#open();
      const bytes = bytesOf("the image", image);
      if (bytes.length !== FRAME_BYTES) throw new Refusal(4);
      this.#recorder?.lend(kept.bytes, bytes);
      kept.bytes.set(bytes);
      this.#imageUntouched = false;
    }

    /** Lends the image of a colour photograph, a Netpbm P6 file of 128 by 128 pixels. */
    lendPhoto(file) {
      this.#open();
      const named = { file: bytesOf("the photograph", file), image: new Uint8Array(FRAME_BYTES) };
      const image = withCopies(named, ({ file, image }) => {
        valueOf(exports.gulxinett_import_photo(...lent(file, image)));
        return image.bytes.slice();
      });
      this.lend(image);
    }

    /** Switches the recorder on: every call from here on is a line of a script. Switched on again, it goes on. */
    record() {
      this.#open();
      this.#recorder ??= new Recorder(lines, this.#imageUntouched);
    }

    /** A copy of the script so far; empty if the recorder was never switched on. */
    recording() {
      this.#open();
      return this.#recorder?.script ?? new Uint8Array();
    }

    /** The picture afresh: by itself that of the image lent, under the registers as last written. */
    picture(frame = this.#open().image.bytes.slice(), registers = this.#registers()) {
      this.#open();
      return picture(frame, registers);
    }

    #registers() {
      return this.#open().state.bytes.slice(REGISTERS_OFFSET, REGISTERS_OFFSET + REGISTERS);
    }

    /** The picture area as it stands in RAM. */
    area() {
      return this.#open().ram.bytes.slice(PICTURE_OFFSET, PICTURE_OFFSET + PICTURE_BYTES);
    }

    /** The picture area as it stands, as a grey image: a Netpbm P5 file. */
    plate() {
      const { ram } = this.#open();
      return withCopies({ file: new Uint8Array(PLATE_BYTES) }, ({ file }) => {
        valueOf(exports.gulxinett_export(...lent(ram, file)));
        return file.bytes.slice();
      });
    }

    /** Places a grey image as `plate` makes it in the picture area; not while a capture is held. */
    place(file) {
      const { state, ram, image } = this.#open();
      withCopies({ file: bytesOf("the plate", file) }, ({ file }) => {
        valueOf(exports.gulxinett_place(...lent(state, ram, file)));
      });
      this.#recorder?.place(image.bytes, this.area(), state.bytes[SELECT_OFFSET], state.bytes[ENABLE_OFFSET]);
    }

    /** The picture area as it stands, one shade a byte, 0 white to 3 black. */
    shades() {
      const { ram } = this.#open();
      return withCopies({ shades: new Uint8Array(SHADES_BYTES) }, ({ shades }) => {
        valueOf(exports.gulxinett_shades(...lent(ram, shades)));
        return shades.bytes.slice();
      });
    }

    /** The reading of each pixel of the capture held, before the matrix, as a grey image: a Netpbm P5 file. */
    readings() {
      const { state, store } = this.#open();
      return withCopies({ file: new Uint8Array(PLATE_BYTES) }, ({ file }) => {
        valueOf(exports.gulxinett_readings(...lent(state, store, file)));
        return file.bytes.slice();
      });
    }

    /** State, RAM and frame store as one save file, with a checksum over all of it. */
    save() {
      const { state, ram, store } = this.#open();
      return withCopies({ file: new Uint8Array(SAVE_BYTES + ram.length) }, ({ file }) => {
        valueOf(exports.gulxinett_save(...lent(state, ram, store, file)));
        return file.bytes.slice();
      });
    }

    /** A copy of the RAM as it is, which is the battery save that other emulators read. */
    battery() {
      return this.#open().ram.bytes.slice();
    }

    /** Copies of state, RAM and frame store, in loose pieces. */
    parts() {
      const { state, ram, store } = this.#open();
      return { state: state.bytes.slice(), ram: ram.bytes.slice(), store: store.bytes.slice() };
    }

    /** Gives the memory back; every later call but this one is an error. */
    close() {
      if (this.#kept) memory.release(this.#kept);
      this.#kept = undefined;
      this.#recorder = undefined;
    }
  }

  class Audit {
    /** The pieces of memory that are this recording's; none once it has ended. */
    #kept;
    /** What a recording is played over. */
    #session;

    constructor({ ram } = {}) {
      const begun = new Cartridge({ ram });
      const parts = begun.parts();
      begun.close();
      this.#kept = memory.keep({
        book: new Uint8Array(8 * BOOK_WORDS),
        line: new Uint8Array(LINE_BYTES),
        state: parts.state,
        rom: filled(ROM_BANK, 0xff),
        ram: parts.ram,
        store: parts.store,
        image: filled(FRAME_BYTES, 0),
        first: parts.ram,
        out: new Uint8Array(EVENTS_BYTES),
      });
      const { book, line, state, rom, ram: played, store, image } = this.#kept;
      this.#session = [...lentBook(book), ...lent(line, state, rom, played, store, image)];
    }

    #open() {
      if (!this.#kept) throw new Error("the recording has ended");
      return this.#kept;
    }

    /** The events that a call has written. */
    #said() {
      const { book, out } = this.#kept;
      const length = new DataView(book.bytes.buffer, book.address).getUint32(0, true);
      return textOf(out.bytes.subarray(0, length)).match(/.*\n/g) ?? [];
    }

    /** Plays a piece of the recording, which may end anywhere; the events of the lines that ended in it. */
    feed(piece) {
      const { out } = this.#open();
      return withCopies({ piece: bytesOf("the piece", piece) }, ({ piece }) => {
        const events = [];
        for (let place = 0; place < piece.length; ) {
          const rest = { address: piece.address + place, length: piece.length - place };
          place += valueOf(exports.gulxinett_audit(...this.#session, ...lent(rest, out)));
          events.push(...this.#said());
        }
        return events;
      });
    }

    /** Ends the recording and gives the memory back; what is said of its end, the summary last. */
    finish() {
      const { book, state, ram, first, out } = this.#open();
      valueOf(exports.gulxinett_audit_end(...this.#session, ...lent(out)));
      const events = this.#said();
      for (let place = 0; place < ram.length; ) {
        place = valueOf(exports.gulxinett_audit_changed(...lentBook(book), ...lent(first, ram), place, ...lent(out)));
        events.push(...this.#said());
      }
      valueOf(exports.gulxinett_audit_summary(...lentBook(book), ...lent(state, out)));
      events.push(...this.#said());
      this.close();
      return events;
    }

    /** Gives the memory back; every later call but this one is an error. */
    close() {
      if (this.#kept) memory.release(this.#kept);
      this.#kept = undefined;
    }
  }

  return { Cartridge, Audit, picture, judge, salvage };
}

/** Pieces as the functions take them: address and length of each. */
const lent = (...pieces) => pieces.flatMap(({ address, length }) => [address, BigInt(length)]);

/** A book as the functions take it: its address, and how many numbers it has. */
const lentBook = ({ address, length }) => [address, BigInt(length / 8)];

/** Bytes that are letters, digits and LF, as text. */
const textOf = (bytes) => String.fromCharCode(...bytes);

/** The answer to a line that is malformed, and to no other. */
const MALFORMED = "06\n";

const filled = (length, value) => new Uint8Array(length).fill(value);

/** The value of an answer, which is refusal number * 2^32 + value; a refusal is thrown. */
function valueOf(answer) {
  const number = Number(BigInt.asUintN(32, answer >> 32n));
  if (number !== 0) throw new Refusal(number);
  return Number(BigInt.asUintN(32, answer));
}

/** The bytes of an array of bytes or a buffer, of this page or another. */
function bytesOf(what, value) {
  const kind = Object.prototype.toString.call(value).slice(8, -1);
  if (kind === "Uint8Array" || kind === "Uint8ClampedArray") return value;
  if (kind === "ArrayBuffer") return new Uint8Array(value);
  throw new TypeError(`${what} must be a Uint8Array or an ArrayBuffer, not ${kind}`);
}

/** Bytes of which there must be so many. */
function exactly(length, what, value) {
  const bytes = bytesOf(what, value);
  if (bytes.length !== length) throw new RangeError(`${what} must be ${length} bytes, not ${bytes.length}`);
  return bytes;
}

/** Sees that a value is a whole number from 0 to the most there is. */
function upTo(most, what, value) {
  if (typeof value !== "number") throw new TypeError(`${what} must be a number, not ${typeof value}`);
  if (Number.isInteger(value) && value >= 0 && value <= most) return;
  throw new RangeError(`${what} must be a whole number from 0 to ${most}, not ${value}`);
}
