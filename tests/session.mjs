// A worker of a job: random calls on a recorded cartridge, the same ones in every language for the same seed.
// usage: node session.mjs SAVE OUT SEED STEPS [plate]
//
// The cartridge is restored from the file SAVE if that is there, else new; afterwards it is saved there. The recording
// goes to OUT.script, and what each call answered, as the program bus says it, to OUT.answers. With 'plate' the
// picture area is read out by calls at the end, and must be the plate.
import { existsSync, readFileSync, writeFileSync } from "node:fs";
import { FRAME_BYTES, PICTURE_BYTES, PLATE_BYTES, REGISTERS, Refusal, load } from "../bindings/js/gulxinett.js";
import { writeWhole } from "../bindings/js/files.js";

const TRIGGER = 0xa000;
const AREA = 0xa100;
const PLATE_HEADER = new TextEncoder().encode("P5\n128 112\n255\n");
/** A choice amounts to select, 2 registers of the exposure, 48 of the matrix, and select. */
const CHOICE_WRITES = 52;
/** A placing amounts to RAM writing, select, the bytes of the area, select, and RAM writing. */
const PLACE_WRITES = 3588;
const { Cartridge } = await load();

/** Numbers below a limit, by a seed. */
function randomBelow(seed) {
  let state = seed >>> 0;
  return (limit) => {
    state = (Math.imul(state, 1664525) + 1013904223) >>> 0;
    return Math.floor(((state >>> 8) * limit) / 2 ** 24);
  };
}

const hex = (number, digits) => number.toString(16).toUpperCase().padStart(digits, "0");

class Session {
  answers = [];
  image = new Uint8Array(FRAME_BYTES);

  constructor(cartridge, below) {
    this.cartridge = cartridge;
    this.below = below;
    cartridge.record();
  }

  /** Makes a call and notes what `bus` would answer. */
  call(digits, work) {
    try {
      this.answers.push("00" + (digits > 0 ? hex(work(), digits) : (work(), "")));
    } catch (error) {
      if (!(error instanceof Refusal)) throw error;
      this.answers.push(hex(error.number, 2));
    }
  }

  read = (address) => this.call(2, () => this.cartridge.read(address));
  write = (address, value) => this.call(0, () => this.cartridge.write(address, value));
  tick = (cycles) => this.call(8, () => this.cartridge.tick(cycles));

  step() {
    const kind = this.below(100);
    if (kind < 1) this.call(0, () => this.cartridge.reset());
    else if (kind < 5) this.lend();
    else if (kind < 8) this.capture();
    else if (kind < 10) this.choose();
    else if (kind < 40) this.read(this.address());
    else if (kind < 55) this.write(this.address(), this.below(256));
    else if (kind < 60) this.write(0, [0, 0x0a][this.below(2)]);
    else if (kind < 65) this.write(0x4000, [0, 0x10][this.below(2)]);
    else if (kind < 70) this.write(TRIGGER, this.below(8));
    else if (kind < 95) this.tick(this.cycles());
    else if (kind < 99) this.look();
    else this.place();
  }

  address() {
    const kind = this.below(4);
    if (kind === 0) return this.below(65536);
    return kind === 1 ? TRIGGER + this.below(128) : AREA + this.below(PICTURE_BYTES);
  }

  cycles() {
    if (this.below(4) > 0) return this.below(20_000);
    const high = this.below(65536);
    return high * 65536 + this.below(65536);
  }

  /** The same image again, one with a few other rows, or quite another. */
  lend() {
    const kind = this.below(3);
    const [light, slope] = [this.below(256), this.below(256)];
    const rows = kind === 0 ? 0 : kind === 1 ? 1 + this.below(5) : 128;
    const first = this.below(129 - rows);
    for (let place = 128 * first; place < 128 * (first + rows); place++) this.image[place] = light + slope * place + 7 * (place >> 7);
    this.cartridge.lend(this.image);
  }

  /** Stops what runs, writes the registers, and starts. */
  capture() {
    this.write(0x4000, 0x10);
    this.write(TRIGGER, 0);
    for (let n = REGISTERS - 1; n > 0; n--) this.write(TRIGGER + n, n === 2 ? this.below(4) : this.below(256));
    this.write(TRIGGER, 1 + 2 * this.below(4));
  }

  /** A choice, which may be none: it has no line of its own, and one that is refused has none at all. */
  choose() {
    const [light, level, dithering] = [this.below(3), this.below(17), this.below(2) === 0];
    const exposure = this.below(3) === 0 ? undefined : this.below(65536);
    try {
      this.cartridge.choose({ light, level, dithering, exposure });
    } catch (error) {
      if (!(error instanceof Refusal && error.number === 9)) throw error;
      return;
    }
    for (let write = 0; write < CHOICE_WRITES; write++) this.answers.push("00");
  }

  /** A plate, which may be none, placed: like a choice it has no line of its own. */
  place() {
    const [light, slope, strange] = [this.below(256), this.below(256), this.below(4) === 0];
    const file = new Uint8Array(PLATE_BYTES);
    file.set(PLATE_HEADER);
    const pixels = file.subarray(PLATE_HEADER.length);
    pixels.forEach((_, place) => (pixels[place] = [255, 170, 85, 0][((light + slope * place + 7 * (place >> 7)) >> 6) & 3]));
    if (strange) pixels[this.below(pixels.length)] = 1;
    try {
      this.cartridge.place(file);
    } catch (error) {
      if (!(error instanceof Refusal && [8, 10].includes(error.number))) throw error;
      return;
    }
    for (let write = 0; write < PLACE_WRITES; write++) this.answers.push("00");
  }

  /** What only looks is no call of a script. */
  look() {
    this.cartridge.inspect();
    this.cartridge.picture();
    this.cartridge.area();
    this.cartridge.plate();
    this.cartridge.shades();
    this.cartridge.save();
    try {
      this.cartridge.readings();
    } catch (error) {
      if (!(error instanceof Refusal && error.number === 11)) throw error;
    }
  }

  /** Stops what runs and reads the plate by calls. */
  readOut() {
    this.write(0x4000, 0x10);
    this.write(TRIGGER, 0);
    this.write(0x4000, 0);
    const before = this.answers.length;
    for (let place = 0; place < PICTURE_BYTES; place++) this.read(AREA + place);
    const area = Array.from(this.cartridge.area(), (byte) => hex(byte, 4));
    if (this.answers.slice(before).join() !== area.join()) throw new Error("the bytes read are not the plate");
  }
}

const words = process.argv.slice(2);
if (words.length < 4 || words.length > 5) {
  console.error("usage: node session.mjs SAVE OUT SEED STEPS [plate]");
  process.exit(2);
}
const [save, out, seed, steps, plate] = words;
const session = new Session(existsSync(save) ? Cartridge.restore(readFileSync(save)) : new Cartridge(), randomBelow(Number(seed)));
for (let step = 0; step < Number(steps); step++) session.step();
if (plate) session.readOut();
await writeWhole(save, session.cartridge.save());
writeFileSync(`${out}.script`, session.cartridge.recording());
writeFileSync(`${out}.answers`, session.answers.map((answer) => `${answer}\n`).join(""));
