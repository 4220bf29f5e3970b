/** Bytes that are lent: they are copied, and never changed or kept. */
export type Bytes = Uint8Array | Uint8ClampedArray | ArrayBuffer;

/** Bytes of the state record. */
export const STATE_BYTES: 121;
/** The layout of these bytes, which their first one says; bytes of another layout are refused as 1. */
export const LAYOUT: 3;
/** The layout that a state record's bytes were saved in, whichever version saved them; null if they are no record's. */
export function layoutOf(state: Bytes): number | null;
/** Camera registers. */
export const REGISTERS: 54;
/** Bytes in one ROM bank. */
export const ROM_BANK: 16384;
/** Bytes in one RAM bank. */
export const RAM_BANK: 8192;
/** Bytes in an image and in the frame store: 128 rows of 128. */
export const FRAME_BYTES: 16384;
/** Bytes of a picture: two bits for each of 128 by 112 pixels. */
export const PICTURE_BYTES: 3584;
/** Rows of a picture. */
export const PICTURE_ROWS: 112;
/** Where the picture lies in RAM bank 0. */
export const PICTURE_OFFSET: 256;
/** Bytes of a plate as a Netpbm P5 file: a header of 15, then one for each of 128 by 112 pixels. */
export const PLATE_BYTES: 14351;
/** Bytes of a plate as shades: one for each of its pixels, 0 white to 3 black. */
export const SHADES_BYTES: 14336;
/** Bytes of a save file besides its RAM. */
export const SAVE_BYTES: 16516;
/** The most bytes of a script that is salvaged. */
export const SCRIPT_BYTES: 32768;

/**
 * A call that was refused; it changed nothing.
 *
 * 1 the state record can't exist, 2 the ROM length is not allowed, 3 the RAM length is not allowed, 4 the image
 * or the frame store is not 16,384 bytes, 5 the address is outside 0000-7FFF and A000-BFFF, 6 a script line or
 * image row is malformed, 7 the room lent for what is written is too short, 8 the file is not one
 * that can be read, 9 the light set of a choice is above 1 or its level above 15, 10 a capture is held, running
 * or stopped, 11 no capture is held, 12 a script is over 32,768 bytes.
 */
export class Refusal extends Error {
  constructor(number: number, sentence?: string);
  readonly name: "Refusal";
  readonly number: number;
}

/** What a save has, in loose pieces; the ROM is no part of it. */
export interface Parts {
  /** The state record, 121 bytes. */
  state: Uint8Array;
  /** The RAM, as long as it was given. */
  ram: Uint8Array;
  /** The frame store, 16,384 bytes: the image of the last start, lit under the registers it took. */
  store: Uint8Array;
}

/** An element of the 4 by 4 matrix, row and column from 0 to 3. */
export interface Element {
  row: number;
  column: number;
}

/** A bus script that was salvaged. */
export interface Salvaged {
  /** The lines that were kept, each with its LF. */
  text: Uint8Array;
  /** A byte for each line of the script: 0 kept, 1 malformed, 2 accepted but dropped as repeated. */
  report: Uint8Array;
}

/** What a new cartridge is given, all of it copied. */
export interface Given {
  /** 16,384 bytes times 1, 2, 4 .. 64; without it one bank of FF. */
  rom?: Bytes;
  /** 8,192 bytes times 1, 2, 4, 8 or 16; without it one bank of FF. */
  ram?: Bytes;
  /** 121 bytes; without it the record after reset. */
  state?: Bytes;
  /** 16,384 bytes, each read as the lit value of a pixel; without it all 00. */
  store?: Bytes;
}

/** A contrast level that people know, instead of 48 numbers. */
export interface Choice {
  /** 0 for high light, 1 for low light. */
  light: number;
  /** 0 is the lowest contrast, 7 the default, 15 the highest. */
  level: number;
  /** Off, the upper left three values of the matrix stand for all; without it on. */
  dithering?: boolean;
  /** Exposure steps up to 65,535; unnamed they are 1000h. */
  exposure?: number;
}

/**
 * A cartridge: state, ROM, RAM, frame store and the image lent, in the module's memory.
 *
 * Every method throws an `Error` once it is closed, a `TypeError` or `RangeError` for what is no number or
 * bytes of its kind, and a `Refusal` for what the controller refuses; then nothing has changed.
 */
export interface Cartridge {
  /** Captures started since reset, 65,536 counting as 0; as a capture starts this becomes its plate's serial. */
  readonly started: number;
  /** Captures that reached their end since reset, counted likewise. */
  readonly ended: number;
  /** Resets the state; RAM, frame store and image stay. */
  reset(): void;
  /** The byte at an address. */
  read(address: number): number;
  /** Writes a byte to an address; a start lights the image lent into the frame store. */
  write(address: number, value: number): void;
  /** Lets cycles pass; how many of them fell while a capture was running. */
  tick(cycles: number): number;
  /**
   * Carries out a line of a bus script, without its LF, as the program `bus` does; its answer, with the LF. A malformed line
   * is answered `06` and changes nothing; a recorder has every other as it is.
   */
  step(line: Bytes): Uint8Array;
  /**
   * Writes the matrix and the exposure registers as chosen, and nothing else: a capture held goes on with the registers
   * of its start. A recorder has it as the bus writes that it amounts to, unless it is refused.
   */
  choose(choice: Choice): void;
  /** The first element of the current matrix whose three values don't rise or stay level; null if there is none. */
  inspect(): Element | null;
  /** Lends an image of 16,384 bytes to the writes that follow; until then it is all 00. */
  lend(image: Bytes): void;
  /** Lends the image of a colour photograph, a Netpbm P6 file of 128 by 128 pixels with largest value 255, each (2R + 5G + B) / 8. */
  lendPhoto(file: Bytes): void;
  /**
   * Switches the recorder on: from here on every call, refused ones too, is a line of a script that the program
   * `bus` plays, and an image lent is its rows. Switched on again, it goes on.
   */
  record(): void;
  /** A copy of the script so far; empty if the recorder was never switched on. */
  recording(): Uint8Array;
  /** The picture afresh: by itself that of the image lent, under the registers as last written. */
  picture(frame?: Bytes, registers?: Bytes): Uint8Array;
  /** The picture area as it stands in RAM, 3,584 bytes. */
  area(): Uint8Array;
  /** The picture area as it stands, as a grey image: a Netpbm P5 file of 14,351 bytes, white 255 and black 0. */
  plate(): Uint8Array;
  /**
   * Places a grey image as `plate` makes it in the picture area, whether or not RAM writing is enabled; not while a
   * capture is held. A recorder has it as the bus writes that it amounts to, unless it is refused.
   */
  place(file: Bytes): void;
  /** The picture area as it stands, one shade a byte, 0 white to 3 black: 14,336 of them, row by row. */
  shades(): Uint8Array;
  /**
   * The reading of each pixel before the matrix makes a shade of it, from 0 to 255, as a grey image like `plate`'s: of the
   * capture held, the whole of it however far it has run.
   */
  readings(): Uint8Array;
  /** State, RAM and frame store as one save file, with a checksum over all of it; `writeWhole` of `gulxinett/files.js` puts it in its place. */
  save(): Uint8Array;
  /** Copies of state, RAM and frame store, in loose pieces. */
  parts(): Parts;
  /** A copy of the RAM as it is, which is the battery save that other emulators read. */
  battery(): Uint8Array;
  /** Gives the memory back to the next cartridge; closing twice is no error. */
  close(): void;
}

export interface CartridgeClass {
  new (given?: Given): Cartridge;
  /** A cartridge that goes on from a save file, made here or in another language; refused as 8 if it is not exactly one. */
  restore(file: Bytes, given?: { rom?: Bytes }): Cartridge;
  /** A cartridge that goes on from loose pieces. */
  fromParts(parts: { state: Bytes; ram: Bytes; store: Bytes }, given?: { rom?: Bytes }): Cartridge;
  /** A cartridge as after reset over a battery save of another emulator, which is the RAM as it is: 131,072 bytes of a real cartridge. */
  fromBattery(ram: Bytes, given?: { rom?: Bytes }): Cartridge;
}

/**
 * A recording, a bus script of any length, that is played in pieces, and what is said of it: events, each a line of keys and
 * values with its LF. docs/AUDIT.md of the repository has them. Memory does not grow with the recording.
 */
export interface Audit {
  /** Plays a piece of the recording, which may end anywhere; the events of the lines that ended in it. */
  feed(piece: Bytes): string[];
  /**
   * Ends the recording and gives the memory back; the events of a last line without LF, of the capture that is held, of what has
   * changed outside the picture area, and the summary.
   */
  finish(): string[];
  /** Gives the memory back of a recording that was not ended; closing twice is no error. */
  close(): void;
}

export interface AuditClass {
  /** Begins as the program `bus` does, with one bank of RAM full of FF, or with the RAM of a battery save. */
  new (given?: { ram?: Bytes }): Audit;
}

/** A loaded module. Its cartridges share one memory, which grows as they need it. */
export interface Gulxinett {
  Cartridge: CartridgeClass;
  Audit: AuditClass;
  /** The whole picture of a frame under 54 registers taken, as RAM bank 0 gets it from offset 100h on. */
  picture(frame: Bytes, registers: Bytes): Uint8Array;
  /**
   * Which rows of a picture area, 3,584 bytes, are those of the picture of a frame under 54 registers taken: a byte for each of
   * the 112 rows, 1 for the same and 0 for another.
   */
  judge(area: Bytes, frame: Bytes, registers: Bytes): Uint8Array;
  /**
   * Keeps the accepted lines of a bus script of at most 32,768 bytes, in order and unaltered; where they are a sequence that
   * starts with reset followed by itself, one half of them, again until they are not. A last line without LF gains one.
   */
  salvage(script: Bytes): Salvaged;
}

/**
 * Loads the module: from its bytes, from a compiled module, or from a URL (in node also a path). Without a
 * word it is `gulxinett.wasm` beside this file.
 */
export function load(source?: string | URL | Bytes | WebAssembly.Module): Promise<Gulxinett>;
