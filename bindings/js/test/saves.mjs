// The save file over the browser module: its checksum, damages, and a kill while it is written.
// usage: node saves.mjs
import assert from "node:assert/strict";
import { execFileSync, spawn } from "node:child_process";
import { chmodSync, lstatSync, mkdirSync, mkdtempSync, readFileSync, readdirSync, rmSync, statSync, symlinkSync, writeFileSync } from "node:fs";
import { readFile } from "node:fs/promises";
import { tmpdir } from "node:os";
import { join } from "node:path";
import { pathToFileURL } from "node:url";
import * as zlib from "node:zlib";
import { writeWhole } from "../files.js";
import { FRAME_BYTES, LAYOUT, PICTURE_BYTES, RAM_BANK, REGISTERS, ROM_BANK, Refusal, SAVE_BYTES, load } from "../gulxinett.js";

const { Cartridge, picture } = await load();

const BANKS = [1, 2, 4, 8, 16];
const DAMAGES = 10_000;
const KILLS = 30;

const say = (...words) => console.log("saves.mjs:", ...words);

/** Numbers below a limit, by a seed. */
function randomBelow(seed) {
  let state = seed;
  return (limit) => {
    state = (Math.imul(state, 1_664_525) + 1_013_904_223) >>> 0;
    return Math.floor((state / 2 ** 32) * limit);
  };
}

const randomBytes = (below, length) => Uint8Array.from({ length }, () => below(256));

const frame = Uint8Array.from({ length: FRAME_BYTES }, (_, i) => i * 7 + (i >> 7));
const registers = Uint8Array.from({ length: REGISTERS }, (_, n) => (n < 6 ? [3, 0, 0, 0x80, 0, 0][n] : 0x40 + 0x20 * (n % 3) + n));

/** A cartridge with a capture half way over a RAM full of anything. */
function halfWay(banks, seed = 29) {
  const cartridge = Cartridge.fromBattery(randomBytes(randomBelow(seed), banks * RAM_BANK));
  cartridge.lend(frame);
  cartridge.write(0x4000, 0x10);
  for (let n = REGISTERS - 1; n >= 0; n--) cartridge.write(0xa000 + n, registers[n]);
  cartridge.tick(20_000);
  return cartridge;
}

/** CRC-32 bit by bit, for a node whose zlib has none to call. */
function crcSlow(bytes) {
  let register = 0xffff_ffff;
  for (const byte of bytes) {
    register ^= byte;
    for (let bit = 0; bit < 8; bit++) register = (register >>> 1) ^ (register & 1 ? 0xedb8_8320 : 0);
  }
  return ~register >>> 0;
}
const crc = zlib.crc32 ?? crcSlow;

/** Bytes and a right checksum of them. */
function sealed(...parts) {
  const body = Buffer.concat(parts);
  const checksum = Buffer.alloc(4);
  checksum.writeUInt32LE(crc(body));
  return new Uint8Array(Buffer.concat([body, checksum]));
}

const changed = (file, place, byte) => file.with?.(place, byte) ?? Uint8Array.from(file, (old, at) => (at === place ? byte : old));

/** The file must be refused by a number. */
function refused(number, file, given) {
  assert.throws(() => Cartridge.restore(file, given), (error) => error instanceof Refusal && error.number === number);
}

function elsewhere() {
  for (const banks of BANKS) {
    const one = halfWay(banks);
    const file = one.save();
    const other = Cartridge.restore(file);
    assert.deepEqual(other.parts(), one.parts());
    assert.deepEqual(other.save(), file);
    other.tick(0xffff_ffff);
    assert.deepEqual(other.area(), picture(frame, registers));
    assert.deepEqual(other.battery().subarray(0x100, 0x100 + PICTURE_BYTES), other.area());
    one.close();
    other.close();
  }
  const one = halfWay(1);
  const file = one.save();
  assert.equal(Cartridge.restore(file.buffer, { rom: new Uint8Array(ROM_BANK).fill(0xa5) }).read(0), 0xa5);
  refused(2, file, { rom: new Uint8Array(5) });
  for (const none of [undefined, null, 7, "save", one.parts()]) {
    assert.throws(() => Cartridge.restore(none), (error) => error instanceof TypeError && error.message.includes("the save must be"));
  }
  say("a save of each size: restored, saved as the same file, and ended elsewhere");
}

function eachByte() {
  for (const banks of BANKS) {
    const cartridge = halfWay(banks, banks);
    const { state, ram, store } = cartridge.parts();
    const file = cartridge.save();
    assert.equal(file.length, SAVE_BYTES + banks * RAM_BANK);
    assert.equal(file[7], LAYOUT);
    assert.deepEqual(file, sealed(Buffer.from("GXSAVE"), Buffer.from([banks]), state, ram, store));
    cartridge.close();
  }
  say(`each byte of a save where it is due, and its checksum ${zlib.crc32 ? "zlib's" : "as worked out bit by bit"}`);
}

/** Every bit of what is not memory, one bit of each other byte; the Rust binding's test has them all. */
function cutOrChanged() {
  const one = halfWay(1);
  const file = one.save();
  const below = randomBelow(1);
  let tried = 0;
  for (let length = 0; length < file.length; length += length < 200 ? 1 : 5) {
    refused(8, file.subarray(0, length));
    tried++;
  }
  refused(8, file.subarray(0, file.length - 1));
  refused(8, new Uint8Array([...file, 0]));
  for (let place = 0; place < file.length; place++) {
    const whole = place < 128 || place >= file.length - 4;
    for (const bit of whole ? [0, 1, 2, 3, 4, 5, 6, 7] : [below(8)]) {
      file[place] ^= 1 << bit;
      refused(8, file);
      file[place] ^= 1 << bit;
      tried++;
    }
  }
  assert.deepEqual(one.save(), file);
  say(`${tried + 2} saves cut, longer or with one bit changed: refused by 8`);
}

/** A hole, a tail never filled, a piece gone, one twice, one of another file, some bits. */
function damaged(file, below) {
  const start = below(file.length);
  const stop = Math.min(start + 1 + below(4_000), file.length);
  const some = file.slice();
  switch (below(6)) {
    case 0:
      return some.fill(0, start, stop);
    case 1:
      return some.fill(0, start);
    case 2:
      return new Uint8Array(Buffer.concat([file.subarray(0, start), file.subarray(stop)]));
    case 3:
      return new Uint8Array(Buffer.concat([file, file.subarray(start, stop)]));
    case 4:
      some.set(randomBytes(below, stop - start), start);
      return some;
    default:
      for (let times = below(9); times >= 0; times--) some[below(file.length)] ^= 1 << below(8);
      return some;
  }
}

function damages() {
  const one = halfWay(1);
  const [file, below] = [one.save(), randomBelow(2)];
  for (let tried = 0; tried < DAMAGES; ) {
    const other = damaged(file, below);
    if (Buffer.compare(other, file) === 0) continue;
    refused(8, other);
    tried++;
  }
  assert.deepEqual(one.save(), file);
  say(`${DAMAGES} damages: refused by 8`);
}

function sealedButNone() {
  const one = halfWay(1);
  const file = one.save();
  const { state, ram, store } = one.parts();
  const front = (banks) => Buffer.from([...Buffer.from("GXSAVE"), banks]);
  for (const [place, byte] of [[0, 0x67], [6, 0], [6, 2], [6, 3], [7, LAYOUT - 1], [7, LAYOUT + 1], [8, 2], [9, 64], [10, 32], [20, 8]]) {
    refused(8, sealed(changed(file, place, byte).subarray(0, -4)));
  }
  refused(8, sealed(front(3), state, ram, ram, ram, store));
  for (const layout of [1, 2]) {
    const old = readFileSync(new URL(`../../../tests/data/layout-${layout}.state`, import.meta.url));
    refused(8, new Uint8Array(Buffer.concat([old, ram, store])));
    refused(8, sealed(front(1), old, ram, store));
  }
  for (const none of [Buffer.concat([state, ram, store]), Buffer.from(""), Buffer.from("GXSAVE")]) refused(8, new Uint8Array(none));
  say("files with a right checksum that are no save, and saves of other layouts: refused by 8");
}

function batteries() {
  const ram = randomBytes(randomBelow(3), 131_072);
  const cartridge = Cartridge.fromBattery(ram);
  assert.deepEqual(cartridge.battery(), ram);
  assert.deepEqual(new Cartridge({ ram }).parts(), cartridge.parts());
  for (const length of [0, RAM_BANK + 1, 3 * RAM_BANK, 131_072 + 16]) {
    assert.throws(() => Cartridge.fromBattery(new Uint8Array(length)), { name: "Refusal", number: 3 });
  }
  assert.throws(() => Cartridge.fromBattery("ram"), TypeError);
  say("battery saves: the RAM as it is");
}

async function writtenWhole(folder) {
  const path = join(folder, "cartridge.save");
  for (const file of [halfWay(1).save(), halfWay(2).save(), new Uint8Array()]) {
    for (const name of [path, pathToFileURL(path)]) {
      await writeWhole(name, file);
      assert.deepEqual(new Uint8Array(readFileSync(path)), file);
      assert.deepEqual(readdirSync(folder), ["cartridge.save"]);
    }
  }
  mkdirSync(join(folder, "taken"));
  for (const wrong of [join(folder, "taken"), join(folder, "none", "file")]) await assert.rejects(writeWhole(wrong, frame));
  await assert.rejects(writeWhole(path, 7));
  assert.deepEqual(readdirSync(folder).sort(), ["cartridge.save", "taken"]);
  assert.equal(readFileSync(path).length, 0);
  say("a file is written whole, and nothing is left beside it");
}

/** Links stay, and what can't be replaced is written straight. */
async function writtenStraight(folder) {
  const [path, link, nowhere, pipe] = ["file", "link", "nowhere", "pipe"].map((name) => join(folder, name));
  writeFileSync(path, "old");
  chmodSync(path, 0o640);
  symlinkSync("file", link);
  symlinkSync("none", nowhere);
  await writeWhole(link, frame);
  assert.deepEqual(new Uint8Array(readFileSync(path)), frame);
  assert.deepEqual([statSync(path).mode & 0o777, lstatSync(link).isSymbolicLink()], [0o640, true]);
  await assert.rejects(writeWhole(nowhere, frame), { code: "ENOENT" });
  execFileSync("mkfifo", [pipe]);
  const [read] = await Promise.all([readFile(pipe), writeWhole(pipe, frame)]);
  assert.deepEqual([new Uint8Array(read), statSync(pipe).isFIFO()], [frame, true]);
  await writeWhole("/dev/null", frame);
  assert.deepEqual(readdirSync(folder).sort(), ["file", "link", "nowhere", "pipe"]);
  say("links stay, and pipes and devices are written straight");
}

/** A writer that never stops is killed at some moment. */
async function killed(folder) {
  const files = [1, 16].map((banks) => halfWay(banks).save());
  const names = files.map((_, number) => join(folder, `file-${number}`));
  files.forEach((file, number) => writeFileSync(names[number], file));
  const path = join(folder, "cartridge.save");
  await writeWhole(path, files[0]);
  const program = `
    import { readFileSync } from "node:fs";
    import { writeWhole } from ${JSON.stringify(new URL("../files.js", import.meta.url).href)};
    const [path, ...names] = ${JSON.stringify([path, ...names])};
    const files = names.map((name) => readFileSync(name));
    console.log("begun");
    for (;;) for (const file of files) await writeWhole(path, file);`;
  const below = randomBelow(4);
  for (let kill = 0; kill < KILLS; kill++) {
    const writer = spawn(process.execPath, ["--input-type=module", "-e", program], { stdio: ["ignore", "pipe", "inherit"] });
    await new Promise((done) => writer.stdout.once("data", done));
    await new Promise((done) => setTimeout(done, below(25)));
    const ended = new Promise((done) => writer.once("close", done));
    writer.kill("SIGKILL");
    await ended;
    const left = new Uint8Array(readFileSync(path));
    assert.ok(files.some((file) => Buffer.compare(file, left) === 0), "what a kill left is neither the old nor the new");
    Cartridge.restore(left).close();
  }
  say(`${KILLS} kills while a file was written: the old or the new is there`);
}

elsewhere();
eachByte();
cutOrChanged();
damages();
sealedButNone();
batteries();
const folder = mkdtempSync(join(tmpdir(), "gulxinett-"));
try {
  await writtenWhole(folder);
  await killed(folder);
  mkdirSync(join(folder, "straight"));
  await writtenStraight(join(folder, "straight"));
} finally {
  rmSync(folder, { recursive: true });
}
