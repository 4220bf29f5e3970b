// The desk's state: one cartridge, the specimen lent to it, the choice, and everything done to it as a recording.

import { PICTURE_OFFSET, RAM_BANK } from "../bindings/js/gulxinett.js";
import { auditOf } from "./audit.js";
import { crc32 } from "./files.js";

const SELECT = 0x4000;
const TRIGGER = 0xa000;
/** What select is written with, so that A000 to BFFF are the registers. */
const REGISTERS_SHOWN = 0x10;
/** Register 0 as a capture stands still and as it runs, both with the positive 1-D setting. */
const STANDING = 2;
const RUNNING = 3;
/** Registers that no choice writes: the edge mode, its strength, the voltage. */
const PLAIN = [1, 4, 5];
/** Where the state record has what is shown. */
const HELD = 4;
const ELAPSED = 5;
const CURRENT = 13;
const TAKEN = 67;

/** The lengths of battery saves, which no save file has. */
const BATTERIES = [1, 2, 4, 8, 16].map((banks) => banks * RAM_BANK);

/** The exposure is one under which a photograph of middling light has all four shades. */
const FIRST_CHOICE = { light: 0, level: 7, dithering: true, exposure: 0x180 };

/** The cycles of a capture under the registers that it took. */
export const totalOf = (registers) => 32_446 + (registers[1] & 0x80 ? 0 : 512) + 16 * (256 * registers[2] + registers[3]);

/** Some bytes, one after the other. */
function joined(pieces) {
  const all = new Uint8Array(pieces.reduce((length, piece) => length + piece.length, 0));
  pieces.reduce((at, piece) => (all.set(piece, at), at + piece.length), 0);
  return all;
}

/** A cartridge full of FF, as the program `bus` begins with it. */
export const emptyDesk = () => ({
  save: null, image: null, name: "", names: {}, choice: FIRST_CHOICE, readings: null,
  base: null, whole: true, begun: Math.random(), recording: new Uint8Array(),
});

export class Desk {
  #module;
  #cartridge;
  /** The recording from before this page was loaded. */
  #earlier;
  /** The specimen is the image that the cartridge was lent. */
  #lent = false;
  /** A cartridge that nothing is kept of, for the picture afresh. */
  #scratch;

  /** Goes on from what was kept, or from `emptyDesk()`. */
  constructor(module, kept) {
    this.#module = module;
    const { save, image, name, names, choice, readings, base, whole, begun, recording } = kept;
    this.#cartridge = save ? module.Cartridge.restore(save) : new module.Cartridge();
    this.#cartridge.record();
    this.#scratch = new module.Cartridge();
    this.#earlier = recording;
    this.image = image;
    this.name = name;
    /** Names of specimens, by the CRC-32 of their images. */
    this.names = names;
    this.choice = choice;
    /** The readings of the last capture, as a plate. */
    this.readings = readings;
    /** The RAM that the recording begins with; null if it is one bank of FF. */
    this.base = base;
    /** The recording begins at a reset, so that it says everything. */
    this.whole = whole;
    /** Tells this recording from every other. */
    this.begun = begun;
  }

  /** All that is kept; the constructor takes it. */
  kept() {
    const { image, name, names, choice, readings, base, whole, begun } = this;
    return { save: this.save(), image, name, names, choice, readings, base, whole, begun, recording: this.recording() };
  }

  close() {
    this.#cartridge.close();
    this.#scratch.close();
  }

  recording = () => joined([this.#earlier, this.#cartridge.recording()]);
  save = () => this.#cartridge.save();
  plate = () => this.#cartridge.plate();
  shades = () => this.#cartridge.shades();

  /** The capture as the state record has it. */
  capture() {
    const { state } = this.#cartridge.parts();
    const taken = state.subarray(TAKEN);
    return {
      held: state[HELD] === 1,
      running: (state[CURRENT] & 1) === 1,
      elapsed: new DataView(state.buffer, state.byteOffset).getUint32(ELAPSED, true),
      total: totalOf(taken),
      serial: this.#cartridge.started,
    };
  }

  /** The image that the proved import makes of a photograph: a recorder writes down its rows. */
  imageOf(photograph) {
    const reader = new this.#module.Cartridge();
    try {
      reader.record();
      reader.lendPhoto(photograph);
      const rows = new TextDecoder().decode(reader.recording()).trimEnd().split("\n");
      return Uint8Array.from(rows.flatMap((row) => row.slice(4).match(/../g)), (digits) => parseInt(digits, 16));
    } finally {
      reader.close();
    }
  }

  /** Lends a photograph, a P6 file. */
  lend(photograph, name) {
    this.image = this.imageOf(photograph);
    this.name = name;
    this.names = { ...this.names, [crc32(this.image)]: name };
    this.#lent = false;
    this.#lendAgain();
  }

  /** Lends the specimen, where this cartridge does not have it yet. */
  #lendAgain() {
    if (this.#lent || !this.image) return;
    this.#cartridge.lend(this.image);
    this.#lent = true;
  }

  /** The picture of the specimen as chosen, afresh, and its readings, both as plates. */
  preview() {
    const scratch = this.#scratch;
    scratch.reset();
    scratch.lend(this.image);
    scratch.write(SELECT, REGISTERS_SHOWN);
    scratch.write(TRIGGER, STANDING);
    scratch.choose(this.choice);
    const plate = this.#plateOf(scratch.picture());
    scratch.write(TRIGGER, RUNNING);
    return { plate, readings: scratch.readings() };
  }

  /** A picture as a plate. */
  #plateOf(picture) {
    const ram = new Uint8Array(RAM_BANK);
    ram.set(picture, PICTURE_OFFSET);
    const shown = new this.#module.Cartridge({ ram });
    try {
      return shown.plate();
    } finally {
      shown.close();
    }
  }

  /** The matrix registers of a choice. */
  matrixOf(choice) {
    this.#scratch.choose({ ...choice, exposure: 0 });
    return this.#scratch.parts().state.slice(CURRENT + 6, TAKEN);
  }

  /** Starts a capture of the specimen as chosen. */
  take() {
    if (!this.image) throw new Error("no specimen is lent yet");
    if (this.capture().held) throw new Error("a capture is held; resume it, or drop it");
    if (!this.whole) this.#begin();
    this.#lendAgain();
    this.#cartridge.write(SELECT, REGISTERS_SHOWN);
    this.#cartridge.write(TRIGGER, STANDING);
    for (const number of PLAIN) this.#cartridge.write(TRIGGER + number, 0);
    this.#cartridge.choose(this.choice);
    this.#cartridge.write(TRIGGER, RUNNING);
    this.readings = this.#cartridge.readings();
  }

  /** Begins a recording that says everything: at a reset, over the RAM as it is. */
  #begin() {
    const { ram, state, store } = this.#cartridge.parts();
    this.#cartridge.close();
    this.#cartridge = this.#module.Cartridge.fromParts({ state, ram, store });
    this.#cartridge.record();
    this.#cartridge.reset();
    this.#earlier = new Uint8Array();
    this.#lent = false;
    this.base = ram;
    this.whole = true;
    this.begun = Math.random();
  }

  /** Lets cycles pass, at most to the capture's end; how many fell while it ran. */
  tick(cycles) {
    const { held, elapsed, total } = this.capture();
    return held ? this.#cartridge.tick(Math.min(cycles, total - elapsed)) : 0;
  }

  stop() {
    this.#lendAgain();
    this.#cartridge.write(SELECT, REGISTERS_SHOWN);
    this.#cartridge.write(TRIGGER, STANDING);
  }

  /** Goes on with the capture held; specimen and choice of this moment are written, and are not its own. */
  resume() {
    this.#lendAgain();
    this.#cartridge.write(SELECT, REGISTERS_SHOWN);
    this.#cartridge.choose(this.choice);
    this.#cartridge.write(TRIGGER, RUNNING);
  }

  /** A reset: the capture held is dropped. */
  drop() {
    if (this.whole) this.#cartridge.reset();
    else this.#begin();
  }

  /** Puts a plate back. */
  place(file) {
    // what is no plate is refused before anything is lent
    this.#scratch.reset();
    this.#scratch.place(file);
    this.#lendAgain();
    this.#cartridge.place(file);
    this.readings = null;
  }

  /** A desk over a save file, or the battery save of another emulator; what was done before is not in its recording. */
  restored(file) {
    const { image, name, names, choice } = this;
    const save = BATTERIES.includes(file.length) ? this.#saveOf(file) : file;
    const desk = new Desk(this.#module, { ...emptyDesk(), save, image, name, names, choice, whole: false });
    if (desk.capture().held) desk.readings = desk.#cartridge.readings();
    return desk;
  }

  /** The save file of a cartridge as after reset over a battery save. */
  #saveOf(battery) {
    const cartridge = this.#module.Cartridge.fromBattery(battery);
    try {
      return cartridge.save();
    } finally {
      cartridge.close();
    }
  }

  /** A desk with a new cartridge. */
  renewed() {
    const { image, name, names, choice } = this;
    return new Desk(this.#module, { ...emptyDesk(), image, name, names, choice });
  }

  /** What the audit says of everything that was done here; the recording must be whole. */
  audit() {
    return auditOf(this.#module, this.recording(), this.base);
  }
}
