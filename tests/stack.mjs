// Looks how far down the browser module's calls write in its stack, which must stand first in its memory.
// usage: node stack.mjs MODULE STACK BYTES: STACK bytes are the module's stack, of which calls may use BYTES
import { lend } from "../tools/lent.mjs";

const words = process.argv.slice(2);
if (words.length !== 3) {
  console.error("usage: node stack.mjs MODULE STACK BYTES");
  process.exit(2);
}
const [path, stack, allowed] = [words[0], Number(words[1]), Number(words[2])];
const cartridge = lend(path);
if (cartridge.own < stack) throw new Error(`the module's own memory ends at ${cartridge.own}`);
if (lowest() < stack) throw new Error("the stack's place holds something before the first call");

/** The first byte of the stack's place that holds something. */
function lowest() {
  const place = new Uint8Array(cartridge.memory.buffer, 0, stack).findIndex((byte) => byte !== 0);
  return place < 0 ? stack : place;
}

for (let mode = 0; mode < 16; mode++) {
  cartridge.prepare(mode);
  cartridge.start();
  cartridge.readings();
  for (let few = 0; few < 100; few++) cartridge.tick(401);
  cartridge.tick(0xffffffff);
  cartridge.inspect();
  cartridge.choose(mode);
  cartridge.picture();
  cartridge.judge();
  cartridge.record();
  cartridge.export();
  cartridge.place();
  cartridge.shades();
  cartridge.importPhoto();
  cartridge.salvage();
  cartridge.save();
  cartridge.restore();
  cartridge.step();
}
const used = stack - lowest();
console.log(`stack: calls in every mode used ${used} bytes of the browser module's ${stack}; ${allowed} were worked out`);
if (used === 0 || used > allowed) throw new Error("that does not fit");
