// A capture that is stopped half way, put in a file, and finished by another process.
//
// node preempted.mjs begin FILE   starts a capture, ticks half of it, stops it and saves everything
// node preempted.mjs finish FILE  loads it, lends another image, changes the registers and resumes
//
// The finished picture must be the one of the first image under the first registers.
import { readFileSync } from "node:fs";
import { writeWhole } from "../bindings/js/files.js";
import { FRAME_BYTES, PICTURE_BYTES, RAM_BANK, REGISTERS, load } from "../bindings/js/gulxinett.js";

const TRIGGER = 0xa000;
const TOTAL = 45_246;
const HALF = TOTAL / 2;

const { Cartridge, picture } = await load();

const image = (light) => Uint8Array.from({ length: FRAME_BYTES }, (_, i) => light(i % 128, i >> 7));

/** The first scene: rings of light around a corner. */
const firstImage = image((x, y) => (x * x + y * y) / 40);

/** The second scene: stripes. */
const secondImage = image((x) => ((x >> 3) % 2 ? 255 : 0));

/** Horizontal enhancement at 75 per cent, exposure 0300h, a rising matrix. */
const firstRegisters = Uint8Array.from({ length: REGISTERS }, (_, n) =>
  n < 6 ? [3, 0x20, 0x03, 0, 0x10, 0][n] : 0x88 + 3 * Math.floor((n - 6) / 3) + 0x18 * (n % 3),
);

const secondRegisters = new Uint8Array(REGISTERS).fill(0x55).fill(7, 0, 1);

/** Writes registers 1 to 53, then register 0. */
function writeRegisters(cartridge, registers) {
  for (let n = 1; n < REGISTERS; n++) cartridge.write(TRIGGER + n, registers[n]);
  cartridge.write(TRIGGER, registers[0]);
}

function ensure(holds, otherwise) {
  if (!holds) throw new Error(otherwise);
}

const same = (a, b) => Buffer.compare(a, b) === 0;

async function begin(path) {
  const cartridge = new Cartridge({ ram: new Uint8Array(RAM_BANK) });
  cartridge.lend(firstImage);
  cartridge.write(0x4000, 0x10);
  writeRegisters(cartridge, firstRegisters);
  ensure(cartridge.tick(HALF) === HALF, "the capture did not run half way");
  cartridge.write(TRIGGER, firstRegisters[0] & 6);
  ensure(cartridge.tick(1_000_000) === 0, "a stopped capture ran on");
  await writeWhole(path, cartridge.save());
  console.log(`begin: a capture ran ${HALF} of ${TOTAL} cycles and was stopped`);
  console.log("begin: state, RAM and frame store saved");
}

function finish(path) {
  const cartridge = Cartridge.restore(readFileSync(path));
  const wanted = picture(firstImage, firstRegisters);
  ensure(!same(cartridge.area(), wanted), "the picture was whole before the capture ended");
  cartridge.lend(secondImage);
  writeRegisters(cartridge, secondRegisters);
  console.log("finish: resumed with another image and other registers");
  const cycles = cartridge.tick(0xffff_ffff);
  console.log(`finish: the capture ended after ${cycles} more cycles`);
  ensure(cycles === TOTAL - HALF, "that is not the rest of the capture");
  ensure(same(cartridge.area(), wanted), "the picture is not that of the first image under the first registers");
  ensure(!same(cartridge.area(), picture(secondImage, secondRegisters)), "the picture is that of the second image");
  console.log(`finish: all ${PICTURE_BYTES} bytes are those of the first image under the first registers`);
}

const [word, path, ...more] = process.argv.slice(2);
const step = { begin, finish }[word];
if (!step || !path || more.length > 0) {
  console.error("usage: preempted.mjs begin FILE | preempted.mjs finish FILE");
  process.exit(2);
}
try {
  await step(path);
} catch (error) {
  console.error(`preempted.mjs: ${error.message}`);
  process.exitCode = 1;
}
