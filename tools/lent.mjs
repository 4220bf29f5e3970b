// The browser module with a cartridge's parts lent to it, for tests and the bench.
import { readFileSync } from "node:fs";

const SIZES = {
  state: 121, ram: 8192, store: 16384, image: 16384, registers: 54, picture: 3584, line: 261, plate: 14351, photograph: 15 + 3 * 16384,
};
/** What a script is salvaged from and into, and a save, which are no parts of a cartridge. */
const SCRIPT_SIZES = { script: 32768, text: 32769, report: 32768, save: 16516 + 8192 };
const PAGE = 65536;
const TRIGGER = 0xa000;
/** Where the registers stand in the state record. */
const REGISTERS_OFFSET = 13;

/** The value of an answer; nothing here is to be refused. */
function value(answer) {
  if (answer >> 32n) throw new Error(`refused by ${answer >> 32n}`);
  return Number(answer);
}

/** Loads a module and places what it is lent behind its own memory, one part after the other. */
export function lend(path) {
  const bytes = readFileSync(path);
  const call = new WebAssembly.Instance(new WebAssembly.Module(bytes)).exports;
  const own = call.__heap_base.value;
  const at = {};
  let end = own;
  for (const [name, size] of Object.entries(SIZES)) {
    at[name] = end;
    end += size;
  }
  let last = end;
  for (const [name, size] of Object.entries(SCRIPT_SIZES)) {
    at[name] = last;
    last += size;
  }
  call.memory.grow(Math.max(0, Math.ceil((last - call.memory.buffer.byteLength) / PAGE)));
  const sizes = { ...SIZES, ...SCRIPT_SIZES };
  const view = (name) => new Uint8Array(call.memory.buffer, at[name], sizes[name]);
  view("image").forEach((_, place, image) => {
    image[place] = (place % 128) * 3 + Math.floor(place / 128) * 5 + ((place * place) % 61);
  });

  view("photograph").set(new TextEncoder().encode("P6\n128 128\n255\n"));

  const lent = (...names) => names.flatMap((name) => [at[name], BigInt(sizes[name])]);
  const cartridge = {
    size: bytes.length,
    memory: call.memory,
    own,
    sizes: SIZES,
    end,
    write: (address, byte) =>
      value(call.gulxinett_write(...lent("state", "ram", "store", "image"), address, byte)),
    tick: (cycles) => value(call.gulxinett_tick(...lent("state", "ram", "store"), cycles)),
    choose: (level) => value(call.gulxinett_choose(...lent("state"), 1, level, 0, 0x10000)),
    inspect: () => value(call.gulxinett_inspect(...lent("state"))),
    /** The picture afresh of the image, under the registers as last written. */
    picture() {
      view("registers").set(view("state").subarray(REGISTERS_OFFSET, REGISTERS_OFFSET + SIZES.registers));
      return value(call.gulxinett_picture(...lent("image"), at.registers, at.picture));
    },
    /** Which rows of that picture are the image's: takes the room of a line. */
    judge: () => value(call.gulxinett_judge(at.picture, ...lent("image"), at.registers, ...lent("line"))),
    /** A session of a reset, a capture from its start to its end, and a read; takes the room of a script and of what is salvaged. */
    step() {
      for (const words of ["00", "02400010", "02A00003", "03FFFFFFFF", "01A000"]) {
        const line = new TextEncoder().encode(words);
        view("script").set(line);
        const session = [...lent("state"), at.text, 16384n, ...lent("ram", "store", "image")];
        value(call.gulxinett_step(...session, at.script, BigInt(line.length), ...lent("report")));
      }
    },
    export: () => value(call.gulxinett_export(...lent("ram", "plate"))),
    place: () => value(call.gulxinett_place(...lent("state", "ram", "plate"))),
    /** Takes the plate's room. */
    shades: () => value(call.gulxinett_shades(...lent("ram", "plate"))),
    /** Takes the plate's room too. */
    readings: () => value(call.gulxinett_readings(...lent("state", "store", "plate"))),
    importPhoto: () => value(call.gulxinett_import_photo(...lent("photograph", "image"))),
    save: () => value(call.gulxinett_save(...lent("state", "ram", "store", "save"))),
    restore: () => value(call.gulxinett_restore(...lent("save", "state", "ram", "store"))),
    /** A script of a reset and reads, eight times, and empty lines after it. */
    salvage() {
      view("script").fill(10).set(new TextEncoder().encode(("00\n" + "01A000\n".repeat(500)).repeat(8)));
      return value(call.gulxinett_salvage(...lent("script", "text", "report")));
    },
    /** A line of each kind. */
    record() {
      const room = lent("line");
      value(call.gulxinett_record_reset(...room));
      value(call.gulxinett_record_read(TRIGGER, ...room));
      value(call.gulxinett_record_write(TRIGGER, 3, ...room));
      value(call.gulxinett_record_tick(0xffffffff, ...room));
      value(call.gulxinett_record_row(0x7f, at.image, 128n, ...room));
    },
    /** Reset, then the registers of a mode, at 75 per cent and exposure 0100h, with a rising matrix. */
    prepare(mode) {
      value(call.gulxinett_reset(...lent("state")));
      cartridge.write(0x4000, 0x10);
      cartridge.write(TRIGGER + 1, (mode >> 1) << 5);
      cartridge.write(TRIGGER + 2, 0x01);
      cartridge.write(TRIGGER + 4, ((mode << 7) & 0xff) | 0x10);
      for (let place = 0; place < 48; place++) {
        cartridge.write(TRIGGER + 6 + place, 0x60 + 2 * Math.floor(place / 3) + 0x18 * (place % 3));
      }
    },
    start: () => cartridge.write(TRIGGER, 3),
    /** Lends another image. */
    see: (image) => view("image").set(image),
  };
  return cartridge;
}
