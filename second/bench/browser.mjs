// The browser module under node, timed. It is driven over standard input, as mgba.c is:
//
//   mode NUMBER    the registers of a mode
//   image          and 16,384 bytes, the image from now on
//   run COUNT      captures so many times, each with its start; answers the nanoseconds that took
//
// usage: node browser.mjs MODULE [--sizes]; with --sizes it prints how large module and memory are instead
import { readSync, writeSync } from "node:fs";
import { lend } from "../../tools/lent.mjs";

const [path, word, ...more] = process.argv.slice(2);
if (path === undefined || ![undefined, "--sizes"].includes(word) || more.length > 0) {
  console.error("usage: node browser.mjs MODULE [--sizes]");
  process.exit(2);
}
const cartridge = lend(path);

function capture() {
  cartridge.start();
  if (cartridge.tick(0xffffffff) < 32446) throw new Error("a capture ended early");
}

let warm = false;

/** A second of captures, once: node compiles the module in passing first, and properly while it runs. */
function warmUp() {
  const end = process.hrtime.bigint() + 1_000_000_000n;
  while (!warm) {
    for (let run = 0; run < 100; run++) capture();
    warm = process.hrtime.bigint() > end;
  }
}

/** Nanoseconds of so many captures. */
function timed(count) {
  warmUp();
  const start = process.hrtime.bigint();
  for (let run = 0; run < count; run++) capture();
  return process.hrtime.bigint() - start;
}

/** The next bytes of standard input; fewer only at its end. */
function take(count) {
  const bytes = new Uint8Array(count);
  let length = 0;
  while (length < count) {
    const read = readSync(0, bytes, length, count - length, null);
    if (read === 0) break;
    length += read;
  }
  return bytes.subarray(0, length);
}

/** The next line of standard input without its LF; none at its end. */
function line() {
  let text = "";
  for (let [byte] = take(1); byte !== 10; [byte] = take(1)) {
    if (byte === undefined) return undefined;
    text += String.fromCharCode(byte);
  }
  return text;
}

function sizes() {
  const parts = Object.entries(cartridge.sizes).map(([name, size]) => `${name} ${size}`);
  console.log(
    `browser module: ${cartridge.size} bytes; a cartridge takes ${cartridge.end} bytes of memory: ` +
      `stack and constants ${cartridge.own}, ${parts.join(", ")}`,
  );
}

if (word === "--sizes") {
  sizes();
} else {
  for (let words = line(); words !== undefined; words = line()) {
    const [kind, number] = words.split(" ");
    if (kind === "mode") cartridge.prepare(Number(number));
    else if (kind === "image") cartridge.see(take(16384));
    else if (kind === "run") writeSync(1, `${timed(Number(number))}\n`);
    else throw new Error(`'${words}' is none of its words`);
  }
}
