// What was done to a cartridge, as the lines of a script that the program `bus` plays.

/** Bytes of a row of the image. */
export const ROW_BYTES = 128;
/** Bytes of the longest line, that of a row, with its LF. */
export const LINE_BYTES = 261;

/** What ends a line. */
const LF = Uint8Array.of(0x0a);

/** Whether a choice writes a register: the exposure's two and the matrix. */
const isChosen = (number) => number === 2 || number === 3 || number >= 6;

/** The rows of an image, in order. */
const rowsOf = (image) => Array.from({ length: image.length / ROW_BYTES }, (_, row) => image.subarray(row * ROW_BYTES, (row + 1) * ROW_BYTES));

const same = (row, other) => row.every((byte, place) => byte === other[place]);

/** The lines so far, and what they tell of the image. */
export class Recorder {
  #lines;
  #script = new Uint8Array(16 * LINE_BYTES);
  #length = 0;
  /** Every row of the image has a line. */
  #rowsWritten = false;
  /** Whoever plays the lines has the image that the cartridge has. */
  #imageKnown;

  /** Over what writes lines, by their kinds; the image is known if it is the one that a script begins with. */
  constructor(lines, imageKnown) {
    this.#lines = lines;
    this.#imageKnown = imageKnown;
  }

  /** A copy of the script. */
  get script() {
    return this.#script.slice(0, this.#length);
  }

  /** Notes a call. */
  note(kind, ...words) {
    this.#append(this.#lines[kind](...words));
  }

  /** A line is about to be carried out, which may be a write: the image may have to be told first. */
  beforeLine(image) {
    if (!this.#imageKnown) this.lend(image, image);
  }

  /** Notes a line that was carried out, without its LF. */
  line(bytes) {
    this.#append(bytes);
    this.#append(LF);
  }

  /** Notes a write; it is lent the image, which may have to be told first. */
  write(image, address, value) {
    this.beforeLine(image);
    this.note("write", address, value);
  }

  /** Notes a choice, which left these registers, as the writes it amounts to: to the registers, and select back. */
  choose(image, registers, select) {
    this.write(image, 0x4000, 0x10);
    registers.forEach((value, number) => {
      if (isChosen(number)) this.write(image, 0xa000 + number, value);
    });
    this.write(image, 0x4000, select);
  }

  /**
   * Notes a placing, which left this area, as the writes it amounts to: RAM writing on, select to bank 0, the bytes of the
   * area, select and RAM writing back.
   */
  place(image, area, select, enabled) {
    this.write(image, 0x0000, 0x0a);
    this.write(image, 0x4000, 0);
    area.forEach((value, place) => this.write(image, 0xa100 + place, value));
    this.write(image, 0x4000, select);
    this.write(image, 0x0000, enabled ? 0x0a : 0);
  }

  /** Another image is lent: the rows that changed, and the first time all. */
  lend(before, now) {
    const old = rowsOf(before);
    rowsOf(now).forEach((row, number) => {
      if (!this.#rowsWritten || !same(row, old[number])) this.note("row", number, row);
    });
    this.#rowsWritten = true;
    this.#imageKnown = true;
  }

  #append(line) {
    if (this.#length + line.length > this.#script.length) {
      const larger = new Uint8Array(2 * this.#script.length);
      larger.set(this.#script);
      this.#script = larger;
    }
    this.#script.set(line, this.#length);
    this.#length += line.length;
  }
}
