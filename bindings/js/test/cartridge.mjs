// The module and the class over it: how it is loaded, what its cartridges do side by side, and what bad input gets.
// usage: node cartridge.mjs
import assert from "node:assert/strict";
import { readFileSync } from "node:fs";
import { createServer } from "node:http";
import { relative } from "node:path";
import { fileURLToPath } from "node:url";
import * as gulxinett from "../gulxinett.js";
import { Memory } from "../memory.js";

const { FRAME_BYTES, LAYOUT, PICTURE_BYTES, PICTURE_ROWS, PLATE_BYTES, RAM_BANK, REGISTERS, ROM_BANK, Refusal, SCRIPT_BYTES, SHADES_BYTES, STATE_BYTES, layoutOf, load } = gulxinett;
const place = new URL("../gulxinett.wasm", import.meta.url);
const bytes = readFileSync(place);
const { Audit, Cartridge, judge, picture, salvage } = await load();

const TOTAL = 32_958 + 16 * 0x80;
const registers = Uint8Array.from({ length: REGISTERS }, (_, n) => (n < 6 ? [3, 0, 0, 0x80, 0, 0][n] : 0x40 + 0x20 * (n % 3) + n));

/** A frame of its own for each number. */
const frame = (number) => Uint8Array.from({ length: FRAME_BYTES }, (_, i) => i * (7 + 2 * number) + (i >> 7));

const say = (...words) => console.log("cartridge.mjs:", ...words);

/** Starts a capture of a frame; register 0, written last, is the start. */
function begin(cartridge, number) {
  cartridge.lend(frame(number));
  cartridge.write(0x4000, 0x10);
  for (let n = REGISTERS - 1; n >= 0; n--) cartridge.write(0xa000 + n, registers[n]);
  return cartridge;
}

/** What a cartridge is, all of it. */
const whole = (cartridge) => ({ ...cartridge.parts(), image: cartridge.picture() });

/** The work must throw an error of a kind, with these words in it. */
function throws(kind, words, work) {
  assert.throws(work, (error) => error instanceof kind && error.message.includes(words), `${kind.name}: ${words}`);
}

/** The work must be refused by a number. */
function refused(number, work) {
  assert.throws(work, (error) => error instanceof Refusal && error.number === number && error.message.length > 20);
}

function theModule() {
  const module = new WebAssembly.Module(bytes);
  assert.deepEqual(WebAssembly.Module.imports(module), []);
  const names = WebAssembly.Module.exports(module).map(({ name }) => name);
  for (const name of ["memory", "__heap_base"]) assert.ok(names.includes(name), name);
  const functions = names.filter((name) => name.startsWith("gulxinett_"));
  assert.deepEqual(functions.length + 2, names.length);
  say(`the module: ${bytes.length} bytes, no imports, ${functions.length} functions`);
}

/** The types name what there is: the exported names, the methods and the counts, no more and no fewer. */
function types() {
  const text = readFileSync(new URL("../gulxinett.d.ts", import.meta.url), "utf8");
  const names = (pattern, within) => Array.from(within.matchAll(pattern), ([, name]) => name).sort();
  assert.deepEqual(names(/^export (?:const|class|function) (\w+)/gm, text), Object.keys(gulxinett).sort());
  const body = /^export interface Cartridge \{$(.*?)^\}$/ms.exec(text)[1];
  const members = Object.getOwnPropertyNames(Cartridge.prototype).filter((name) => name !== "constructor");
  assert.deepEqual(names(/^  (?:readonly )?(\w+)[(:]/gm, body), members.sort());
  const audit = /^export interface Audit \{$(.*?)^\}$/ms.exec(text)[1];
  const own = Object.getOwnPropertyNames(Audit.prototype).filter((name) => name !== "constructor");
  assert.deepEqual(names(/^  (\w+)\(/gm, audit), own.sort());
  say(`the types name the ${members.length} methods and counts and ${Object.keys(gulxinett).length} exports there are`);
}

async function loading() {
  const server = createServer((request, response) => {
    response.statusCode = request.url === "/gulxinett.wasm" ? 200 : 404;
    response.end(response.statusCode === 200 ? bytes : undefined);
  });
  await new Promise((ready) => server.listen(0, "127.0.0.1", ready));
  const site = `http://127.0.0.1:${server.address().port}`;
  const path = fileURLToPath(place);
  const sources = {
    bytes,
    "an ArrayBuffer": bytes.buffer.slice(bytes.byteOffset, bytes.byteOffset + bytes.length),
    "a file's URL": place,
    "the same as a string": place.href,
    "a path": path,
    "a relative path": relative(process.cwd(), path),
    "a site's URL": new URL("gulxinett.wasm", site),
    "the same as a string, too": `${site}/gulxinett.wasm`,
    "a data URL": `data:application/wasm;base64,${bytes.toString("base64")}`,
    "a compiled module": new WebAssembly.Module(bytes),
  };
  for (const [name, source] of Object.entries(sources)) {
    assert.equal(new (await load(source)).Cartridge().read(0), 0xff, name);
  }
  await assert.rejects(load(`${site}/other.wasm`), /other\.wasm: 404/);
  await assert.rejects(load("no/such/module.wasm"), /module can't be had from no\/such\/module.wasm: .*no such file/);
  await assert.rejects(load(7), /must be a Uint8Array or an ArrayBuffer, not Number/);
  await assert.rejects(load(new Uint8Array(8)), WebAssembly.CompileError);
  server.close();
  say(`loaded from ${Object.keys(sources).length} kinds of places; 4 that are none rejected`);
}

function calls() {
  const rom = new Uint8Array(2 * ROM_BANK).fill(0x5a).fill(0xa5, ROM_BANK);
  const cartridge = new Cartridge({ rom, ram: new Uint8Array(2 * RAM_BANK).fill(1) });
  assert.deepEqual([cartridge.read(0), cartridge.read(0x4000)], [0x5a, 0xa5]);
  assert.equal(cartridge.inspect(), null);
  cartridge.write(0x4000, 0x10);
  cartridge.write(0xa006 + 3 * 7, 1);
  assert.deepEqual(cartridge.inspect(), { row: 1, column: 3 });
  assert.equal(Cartridge.fromParts(cartridge.parts(), { rom }).read(0x4000), 0xa5);
  cartridge.reset();
  assert.equal(cartridge.inspect(), null);
  assert.deepEqual(cartridge.area(), new Uint8Array(PICTURE_BYTES).fill(1));
  begin(cartridge, 1);
  assert.deepEqual(cartridge.picture(), picture(frame(1), registers));
  assert.deepEqual(cartridge.picture(frame(2)), picture(frame(2), registers));
  assert.notDeepEqual(cartridge.picture(), cartridge.picture(frame(2)));
  assert.equal(cartridge.tick(0xffff_ffff), TOTAL);
  assert.deepEqual(cartridge.area(), picture(frame(1), registers));
  cartridge.close();
  say("each call, and a whole capture");
}

/** The file of a picture area, worked out here: each shade's low bit in one byte, its high bit in the next. */
function fileOf(area) {
  const grey = (_, i) => {
    const [x, y] = [i % 128, i >> 7];
    const at = 256 * (y >> 3) + 16 * (x >> 3) + 2 * (y & 7);
    const [low, high] = [area[at], area[at + 1]].map((byte) => (byte >> (7 - (x & 7))) & 1);
    return [255, 170, 85, 0][low + 2 * high];
  };
  return Buffer.concat([Buffer.from("P5\n128 112\n255\n"), Uint8Array.from({ length: 128 * 112 }, grey)]);
}

/** Plates as files: untouched RAM, half a picture, and a whole one in RAM of 16 banks. */
function plates() {
  const cartridge = new Cartridge({ ram: new Uint8Array(16 * RAM_BANK).fill(0x33) });
  for (const cycles of [0, 20_000, 0xffff_ffff]) {
    if (cycles === 20_000) begin(cartridge, 1);
    cartridge.tick(cycles);
    const plate = cartridge.plate();
    assert.equal(plate.length, PLATE_BYTES);
    assert.equal(Buffer.compare(plate, fileOf(cartridge.area())), 0);
    const shades = cartridge.shades();
    assert.equal(shades.length, SHADES_BYTES);
    assert.deepEqual(shades.map((shade) => 255 - 85 * shade), plate.subarray(15));
  }
  cartridge.close();
  say("plates as grey images and as shades: before a capture, half way and whole");
}

/** A plate of its own for each number, with the four greys and no other. */
const plateOf = (number) =>
  Buffer.concat([
    Buffer.from("P5\n128 112\n255\n"),
    Uint8Array.from({ length: 128 * 112 }, (_, i) => [255, 170, 85, 0][((i * (7 + 2 * number) + (i >> 7)) >> 6) & 3]),
  ]);

/** Plates placed: their bytes and nothing else, their writes in a recording, and what is turned away. */
function placings() {
  const cartridge = begin(new Cartridge(), 1);
  cartridge.tick(20_000);
  cartridge.record();
  const all = () => [whole(cartridge), cartridge.recording()];
  const good = plateOf(1);
  for (const trigger of [3, 2]) {
    cartridge.write(0xa000, trigger);
    const before = all();
    refused(10, () => cartridge.place(good));
    refused(8, () => cartridge.place(good.subarray(1)));
    assert.deepEqual(all(), before);
  }
  cartridge.write(0xa000, 3);
  cartridge.tick(0xffff_ffff);
  const before = all();
  for (const [place, byte] of [[1, 0x36], [2, 0x20], [15, 1], [16, 254], [14_350, 86]]) {
    refused(8, () => cartridge.place(Uint8Array.from(good, (old, at) => (at === place ? byte : old))));
  }
  for (const none of [[], good.subarray(0, 15), good.subarray(0, 14_350), [...good, 0]]) refused(8, () => cartridge.place(Uint8Array.from(none)));
  throws(TypeError, "the plate must be", () => cartridge.place("P5"));
  assert.deepEqual(all(), before);
  const [file, area] = [cartridge.plate(), cartridge.area()];
  cartridge.close();
  const line = (address, value) => `02${Buffer.from([address >> 8, address, value]).toString("hex").toUpperCase()}\n`;
  for (const [select, enable] of [[0x00, 0x00], [0x05, 0x0a], [0x13, 0x00], [0x1f, 0x0a]]) {
    const other = new Cartridge({ ram: new Uint8Array(16 * RAM_BANK).fill(0x33) });
    other.write(0x4000, select);
    other.write(0x0000, enable);
    other.record();
    const { state, ram, store } = other.parts();
    other.place(file);
    ram.set(area, 0x100);
    assert.deepEqual(other.parts(), { state, ram, store });
    assert.deepEqual(other.plate(), file);
    const bytes = Array.from(area, (byte, place) => line(0xa100 + place, byte)).join("");
    const due = line(0x0000, 0x0a) + line(0x4000, 0) + bytes + line(0x4000, select) + line(0x0000, enable);
    assert.equal(Buffer.from(other.recording()).toString(), due);
    for (const number of [1, 2, 3]) {
      other.place(plateOf(number));
      assert.equal(Buffer.compare(other.plate(), plateOf(number)), 0);
    }
    other.close();
  }
  say("plates placed, their 3,588 writes recorded; 14 turned away");
}

/** The file that the matrix makes of readings, worked out here. */
const dotted = (readings) =>
  readings.map((value, at) => {
    const [x, y] = [(at - 15) % 128, (at - 15) >> 7];
    const element = 6 + 3 * (4 * (y % 4) + (x % 4));
    return at < 15 ? value : 85 * registers.subarray(element, element + 3).filter((least) => value >= least).length;
  });

/** Readings: of captures that run and stand still, whatever is touched meanwhile, and of none. */
function readings() {
  const cartridge = begin(new Cartridge(), 1);
  cartridge.tick(20_000);
  cartridge.record();
  const before = whole(cartridge);
  const read = cartridge.readings();
  assert.deepEqual([whole(cartridge), cartridge.recording().length], [before, 0]);
  cartridge.write(0xa000, 2);
  cartridge.write(0xa006, 0xff);
  cartridge.lend(frame(2));
  assert.deepEqual(cartridge.readings(), read);
  cartridge.write(0xa000, 3);
  cartridge.tick(0xffff_ffff);
  assert.deepEqual(cartridge.plate(), dotted(read));
  refused(11, () => cartridge.readings());
  // at exposure 0100h the brightest light is stored and read as 207, and inverted as 48
  cartridge.reset();
  cartridge.lend(new Uint8Array(FRAME_BYTES).fill(0xff));
  for (const [inverted, value] of [[0, 207], [8, 48]]) {
    for (const [address, byte] of [[0x4000, 0x10], [0xa002, 1], [0xa004, inverted], [0xa000, 3]]) cartridge.write(address, byte);
    assert.ok(cartridge.parts().store.every((lit) => lit === value));
    assert.ok(cartridge.readings().subarray(15).every((reading) => reading === value));
    cartridge.tick(0xffff_ffff);
  }
  cartridge.close();
  say("readings before the dots: of captures that run and stand still; none once they have ended");
}

/** A colour photograph under a header, and its image, worked out here. */
function photograph(header, number) {
  const pixels = Uint8Array.from({ length: 3 * FRAME_BYTES }, (_, i) => (i * (5 + 2 * number) + (i >> 8)) & 255);
  const image = Uint8Array.from({ length: FRAME_BYTES }, (_, i) => (2 * pixels[3 * i] + 5 * pixels[3 * i + 1] + pixels[3 * i + 2]) >> 3);
  return [Buffer.concat([Buffer.from(header, "latin1"), pixels]), image];
}

/** Photographs lent: their images, their rows in a recording, and what are none. */
function photographs() {
  const cartridge = new Cartridge();
  cartridge.record();
  const [file, image] = photograph("P6\n# a scan\n128 128\n255\n", 1);
  cartridge.lendPhoto(file);
  assert.deepEqual(cartridge.picture(undefined, registers), picture(image, registers));
  assert.notDeepEqual(picture(image, registers), picture(frame(1), registers));
  let due = rowLines(image, everyRow);
  const recorded = () => Buffer.from(cartridge.recording()).toString();
  assert.equal(recorded(), due);
  file.fill(file[file.length - 1] ^ 255, file.length - 3);
  cartridge.lendPhoto(file);
  const other = image.slice();
  other[FRAME_BYTES - 1] = file[file.length - 1];
  assert.equal(recorded(), (due += rowLines(other, [127])));
  const before = whole(cartridge);
  const none = ["", "P6#\n128 128 255\n", "P6\n0128 128\n255\n", "P5\n128 128\n255\n", "P6\n128 128\n255\r\n"];
  for (const header of none) refused(8, () => cartridge.lendPhoto(photograph(header, 1)[0]));
  for (const length of [0, 1, 49_166, 10_000_000]) refused(8, () => cartridge.lendPhoto(Buffer.concat([file, new Uint8Array(length)]).subarray(0, length)));
  throws(TypeError, "the photograph must be", () => cartridge.lendPhoto("P6"));
  assert.deepEqual(whole(cartridge), before);
  assert.equal(recorded(), due);
  cartridge.close();
  say("photographs lent, recorded as the rows that changed; 10 that are none turned away");
}

/** The lines of some rows of an image. */
const rowLines = (image, rows) =>
  rows.map((row) => `${Buffer.from([4, row, ...image.subarray(128 * row, 128 * row + 128)]).toString("hex").toUpperCase()}\n`).join("");

const everyRow = Array.from({ length: 128 }, (_, row) => row);

/** Choices: the registers they write and nothing else, their writes in a recording, and what are none. */
function choices() {
  const cartridge = begin(new Cartridge(), 1);
  cartridge.write(0x4000, 0x05);
  cartridge.tick(20_000);
  const before = cartridge.parts();
  cartridge.record();
  cartridge.lend(frame(1));
  const start = cartridge.recording().length;
  cartridge.choose({ light: 1, level: 7 });
  const low = [0x8c, 0x98, 0xac];
  const { state } = cartridge.parts();
  assert.deepEqual([...state.subarray(15, 17), ...state.subarray(19, 22)], [0x10, 0, ...low]);
  const written = (place) => place === 15 || place === 16 || (place >= 19 && place < 67);
  state.forEach((byte, place) => assert.ok(written(place) || byte === before.state[place], `byte ${place}`));
  assert.deepEqual(cartridge.parts(), { ...before, state });
  const line = (address, value) => `02${address.toString(16).toUpperCase()}${Buffer.from([value]).toString("hex").toUpperCase()}\n`;
  const register = (number) => line(0xa000 + number, state[13 + number]);
  const matrix = Array.from({ length: 48 }, (_, place) => register(6 + place)).join("");
  const due = line(0x4000, 0x10) + register(2) + register(3) + matrix + line(0x4000, 0x05);
  const recorded = () => Buffer.from(cartridge.recording().subarray(start)).toString();
  assert.equal(recorded(), due);
  for (const choice of [{ light: 2, level: 7 }, { light: 0, level: 16 }, { light: 255, level: 255 }]) refused(9, () => cartridge.choose(choice));
  throws(TypeError, "the light set must be a number", () => cartridge.choose());
  throws(RangeError, "the level must be a whole number from 0 to 255", () => cartridge.choose({ light: 0, level: 256 }));
  throws(RangeError, "the exposure must be a whole number from 0 to 65535", () => cartridge.choose({ light: 0, level: 0, exposure: 65536 }));
  throws(TypeError, "dithering must be true or false", () => cartridge.choose({ light: 0, level: 0, dithering: 0 }));
  assert.deepEqual(cartridge.parts(), { ...before, state });
  assert.equal(recorded(), due);
  cartridge.choose({ light: 1, level: 7, dithering: false, exposure: 0x1234 });
  const plain = cartridge.parts().state;
  assert.deepEqual([...plain.subarray(15, 17)], [0x12, 0x34]);
  assert.deepEqual([...plain.subarray(19, 67)], Array.from({ length: 16 }, () => low).flat());
  assert.equal(cartridge.inspect(), null);
  assert.equal(cartridge.tick(0xffff_ffff), TOTAL - 20_000);
  assert.deepEqual(cartridge.area(), picture(frame(1), registers));
  cartridge.close();
  say("choices: the registers they write, their 52 writes recorded; 7 that are none turned away");
}

/** The recorder has every call made, refused ones too, and the rows of what is lent; nothing else. */
function recorder() {
  const cartridge = new Cartridge();
  let due = "";
  const has = (more) => assert.equal(Buffer.from(cartridge.recording()).toString(), (due += more));
  cartridge.read(0);
  has("");
  cartridge.record();
  cartridge.write(0x4000, 0x10);
  refused(5, () => cartridge.read(0x8abc));
  refused(5, () => cartridge.write(0xfedc, 0xba));
  cartridge.tick(0xdeadbeef);
  cartridge.record();
  cartridge.reset();
  has("02400010\n018ABC\n02FEDCBA\n03DEADBEEF\n00\n");
  throws(RangeError, "the value", () => cartridge.write(0xa000, 256));
  refused(4, () => cartridge.lend(new Uint8Array(5)));
  whole(cartridge);
  cartridge.inspect();
  cartridge.plate();
  has("");
  const image = new Uint8Array(FRAME_BYTES);
  cartridge.lend(image);
  has(rowLines(image, everyRow));
  cartridge.lend(image);
  has("");
  image[5 * 128 + 127] = 9;
  image[127 * 128] = 0xab;
  cartridge.lend(image);
  has(rowLines(image, [5, 127]));
  const copy = cartridge.recording();
  copy.fill(0);
  has("");
  recorderNotAtTheBeginning(image, Cartridge.fromParts(cartridge.parts()));
  say(`the recorder: ${due.length} bytes, each call made and each row that changed`);
}

/** An image that a script does not begin with is told before the first write, which may be a start. */
function recorderNotAtTheBeginning(image, restored) {
  const lent = new Cartridge();
  lent.lend(image);
  for (const [cartridge, shown] of [[restored, new Uint8Array(FRAME_BYTES)], [lent, image]]) {
    cartridge.record();
    cartridge.tick(1);
    cartridge.write(0, 0);
    cartridge.write(0, 1);
    cartridge.lend(shown);
    const due = `0300000001\n${rowLines(shown, everyRow)}02000000\n02000001\n`;
    assert.equal(Buffer.from(cartridge.recording()).toString(), due);
    cartridge.close();
  }
}

/** Scripts salvaged: broken lines and repetitions dropped, each line reported; a script too long, and what is none. */
function salvages() {
  const cleans = (script, text, report) => {
    const { text: kept, report: about } = salvage(script);
    assert.equal(Buffer.from(kept).toString(), text);
    assert.equal(about.join(""), report);
  };
  const some = [
    ["", "", ""],
    ["\n", "", "1"],
    ["00", "00\n", "0"],
    ["00\nxx\n01a000\n\n01A000", "00\n01A000\n", "01110"],
    ["00\n01A000\n00\n01A000", "00\n01A000\n", "0022"],
    // the later halves are dropped, until none is left
    ["00\n00\n00\n00\n", "00\n", "0222"],
    ["00\n00\n00\n", "00\n00\n00\n", "000"],
    // halves that don't start with reset are no copies of a script
    ["018000\n018000\n", "018000\n018000\n", "00"],
  ];
  for (const [script, ...due] of some) cleans(Buffer.from(script), ...due);
  const cartridge = new Cartridge();
  cartridge.record();
  cartridge.reset();
  cartridge.lend(frame(1));
  const recording = Buffer.from(cartridge.recording()).toString();
  cartridge.close();
  // a row that broke off, and a last LF that was lost
  const rows = recording.slice(0, 3 + 59 * 261);
  const twice = Uint8Array.from(Buffer.from(rows + recording.slice(-100) + rows.slice(0, -1)));
  for (const script of [twice, new Uint8ClampedArray(twice), twice.buffer]) cleans(script, rows, `${"0".repeat(60)}1${"2".repeat(60)}`);
  cleans(new Uint8Array(SCRIPT_BYTES).fill(10), "", "1".repeat(SCRIPT_BYTES));
  cleans(Buffer.from("00\n".repeat(8192)), "00\n", `0${"2".repeat(8191)}`);
  for (const length of [SCRIPT_BYTES + 1, 1_000_000]) refused(12, () => salvage(new Uint8Array(length).fill(10)));
  for (const none of [undefined, null, "00", 3, [48, 48]]) throws(TypeError, "the script must be a Uint8Array", () => salvage(none));
  say(`${some.length + 5} scripts salvaged, one of them a recording uploaded twice; 7 that are none turned away`);
}

/** The events of a recording, in pieces of any length, and over a battery save. */
function audits() {
  const data = (name) => readFileSync(new URL(`../../../crates/audit/${name}`, import.meta.url));
  const [script, due] = [data("stdin"), data("stdout").toString()];
  const lengths = [1, 2, 7, 260, 261, script.length];
  for (const length of lengths) {
    const [audit, events] = [new Audit(), []];
    for (let place = 0; place < script.length; place += length) events.push(...audit.feed(script.subarray(place, place + length)));
    events.push(...audit.finish());
    assert.equal(events.join(""), due);
    assert.ok(events.every((event) => event.indexOf("\n") === event.length - 1));
  }
  const audit = new Audit();
  assert.deepEqual(audit.feed(Buffer.from("02400010\n02A00003")), []);
  assert.match(audit.feed(Buffer.from("\n")).join(), /^line 2 event start serial 1 .*\n$/);
  throws(TypeError, "the piece must be a Uint8Array", () => audit.feed("00"));
  audit.close();
  audit.close();
  for (const work of [() => audit.feed(script), () => audit.finish()]) throws(Error, "the recording has ended", work);
  // RAM writing on, a byte in the last of sixteen banks, one in the first that is rewritten the same
  const banks = new Audit({ ram: new Uint8Array(16 * RAM_BANK) });
  assert.deepEqual(banks.feed(Buffer.from("0200000A\n0240000F\n02BFFF01\n02400000\n02A00000")), []);
  const [changed, ...more] = banks.finish();
  assert.deepEqual([changed, more.length], ["line 5 event changed bank F from 1FFF to 1FFF\n", 1]);
  for (const length of [0, RAM_BANK - 1, 3 * RAM_BANK]) refused(3, () => new Audit({ ram: new Uint8Array(length) }));
  say(`a recording audited in pieces of ${lengths.join(", ")} bytes, and one over a battery save`);
}

/** Lines carried out one by one: their answers, and what a recorder has of them. */
function steps() {
  const cartridge = new Cartridge();
  const some = [
    ["02400010", "00"], ["02A00003", "00"], ["01A000", "0003"], ["0300010000", "00000080BE"], ["018000", "05"], ["", "06"], ["01a000", "06"],
    ["00\n", "06"], ["0".repeat(1000), "06"], ["00", "00"],
  ];
  const step = (player, line) => Buffer.from(player.step(Buffer.from(line))).toString();
  for (const [line, answer] of some) assert.equal(step(cartridge, line), `${answer}\n`, line);
  throws(TypeError, "the line must be a Uint8Array", () => cartridge.step("00"));
  const [session, player] = [new Cartridge(), new Cartridge()];
  for (const one of [session, player]) one.record();
  begin(session, 3).write(0xa000, 2);
  const script = Buffer.from(session.recording()).toString();
  for (const line of script.trim().split("\n")) {
    assert.match(step(player, line), /^00/);
    step(player, "xx");
  }
  assert.equal(Buffer.from(player.recording()).toString(), script);
  assert.deepEqual(whole(player), whole(session));
  // a row that was stepped through is an image that a script does not begin with
  const image = new Uint8Array(FRAME_BYTES).fill(0x5a, 5 * 128, 6 * 128);
  const other = new Cartridge();
  step(other, rowLines(image, [5]).trim());
  other.record();
  step(other, "02400010");
  assert.equal(Buffer.from(other.recording()).toString(), `${rowLines(image, everyRow)}02400010\n`);
  for (const one of [cartridge, session, player, other]) one.close();
  say(`${some.length} lines carried out, and a recording of ${script.length} bytes stepped through`);
}

/** Which rows are whose: a plate of two frames, and what is no plate, frame or registers. */
function judgements() {
  // exposed so that no row is the same in both
  const taken = registers.map((value, n) => (n === 2 ? 2 : value));
  const [one, other] = [frame(1), frame(1).map((light) => 255 - light)];
  const [upper, lower] = [picture(one, taken), picture(other, taken)];
  const [same, differ] = ["1", "0"].map((row) => row.repeat(PICTURE_ROWS / 2));
  assert.equal(judge(upper, one, taken).join(""), same + same);
  // rows 0 to 55 are the first seven rows of tiles
  const area = Uint8Array.from(upper, (byte, place) => (place < 7 * 256 ? byte : lower[place]));
  assert.equal(judge(area, one, taken).join(""), same + differ);
  assert.equal(judge(area.buffer, other, taken).join(""), differ + same);
  for (const length of [0, FRAME_BYTES - 1, FRAME_BYTES + 1]) refused(4, () => judge(area, new Uint8Array(length), taken));
  throws(RangeError, "the area must be 3584 bytes, not 5", () => judge(area.subarray(0, 5), one, taken));
  throws(RangeError, "the registers must be 54 bytes, not 53", () => judge(area, one, taken.subarray(1)));
  throws(TypeError, "the frame must be a Uint8Array", () => judge(area, "frame", taken));
  say("a plate of two frames: rows 0 to 55 are the one's, rows 56 to 111 the other's");
}

/** Many cartridges in one module, so that its memory grows while captures run. */
function sideBySide() {
  const many = Array.from({ length: 40 }, (_, number) => {
    const cartridge = new Cartridge({ rom: new Uint8Array((1 << number % 7) * ROM_BANK).fill(number) });
    begin(cartridge, number).tick(number * 500);
    return cartridge;
  });
  many.filter((_, number) => number % 3 === 0).forEach((cartridge) => cartridge.close());
  for (let number = 0; number < 40; number += 3) {
    many[number] = new Cartridge({ rom: new Uint8Array(ROM_BANK).fill(number) });
    begin(many[number], number).tick(number * 500);
  }
  many.forEach((cartridge, number) => {
    const other = Cartridge.fromParts(cartridge.parts());
    for (const one of [cartridge, other]) {
      assert.equal(one.tick(0xffff_ffff), TOTAL - number * 500);
      assert.deepEqual(one.area(), picture(frame(number), registers));
    }
    assert.deepEqual([cartridge.read(0), other.read(0)], [number, 0xff]);
    other.close();
  });
  many.forEach((cartridge) => cartridge.close());
  say(`${many.length} cartridges side by side, every third closed and opened again, each its own plate`);
}

/** What was given back is dealt out again: keeping and releasing a hundred times needs no more memory. */
function memory() {
  const given = new WebAssembly.Memory({ initial: 1 });
  const memory = new Memory(given, 1000);
  const sizes = [0, 1, 15, 16, 17, 5000, 70_000, 200_000];
  const filled = (round) => Object.fromEntries(sizes.map((size, n) => [n, new Uint8Array(size).fill(round + n)]));
  const stays = memory.keep({ one: new Uint8Array(333).fill(7) });
  let held = [];
  let most = 0;
  for (let round = 0; round < 100; round++) {
    held.push([round, memory.keep(filled(round))]);
    if (round % 5 === 4) {
      for (const [round, kept] of held) {
        sizes.forEach((size, n) => assert.ok(kept[n].length === size && kept[n].bytes.every((byte) => byte === ((round + n) & 255))));
        memory.release(kept);
      }
      held = [];
    }
    if (round === 9) most = given.buffer.byteLength;
  }
  assert.equal(given.buffer.byteLength, most);
  assert.deepEqual(stays.one.bytes, new Uint8Array(333).fill(7));
  const small = new Memory(new WebAssembly.Memory({ initial: 1, maximum: 2 }), 0);
  throws(RangeError, "no room", () => small.keep({ fits: new Uint8Array(60_000), not: new Uint8Array(200_000) }));
  assert.equal(small.keep({ again: new Uint8Array(131_072) }).again.address, 0);
  say(`a hundred rounds of memory in ${most} bytes; what has no room takes none`);
}

/** Cartridges that were closed or refused, and pictures, leave no memory behind. */
async function nothingLost() {
  const { instantiate } = WebAssembly;
  let memory;
  WebAssembly.instantiate = async (module) => {
    const instance = await instantiate(module);
    memory = instance.exports.memory;
    return instance;
  };
  const { Audit, Cartridge, judge, picture, salvage } = await load();
  WebAssembly.instantiate = instantiate;
  const save = new Cartridge().parts();
  const [good, bad] = [new Uint8Array(2 * ROM_BANK), new Uint8Array(3 * ROM_BANK)];
  let most = 0;
  for (let round = 0; round < 200; round++) {
    new Cartridge({ rom: good }).close();
    refused(2, () => new Cartridge({ rom: bad }));
    refused(4, () => Cartridge.fromParts({ ...save, store: bad }));
    throws(TypeError, "the save's ram", () => Cartridge.fromParts({ ...save, ram: [] }));
    picture(save.store, registers);
    refused(4, () => picture(bad, registers));
    salvage(good);
    refused(12, () => salvage(bad));
    if (round === 0) most = memory.buffer.byteLength;
  }
  assert.equal(memory.buffer.byteLength, most);
  say(`200 rounds of cartridges closed or refused, and of pictures and salvages, in ${most} bytes of memory`);
}

function badCalls() {
  const cartridge = begin(new Cartridge(), 3);
  cartridge.tick(20_000);
  const before = whole(cartridge);
  refused(5, () => cartridge.read(0x8000));
  refused(5, () => cartridge.write(0xc000, 1));
  for (const length of [0, 1, FRAME_BYTES - 1, FRAME_BYTES + 1]) {
    refused(4, () => cartridge.lend(new Uint8Array(length)));
    refused(4, () => picture(new Uint8Array(length), registers));
    refused(4, () => cartridge.picture(new Uint8Array(length)));
  }
  for (const number of [-1, 0x1_0000, 1.5, NaN, Infinity, -Infinity, 2 ** 53]) {
    throws(RangeError, "the address must be a whole number from 0 to 65535", () => cartridge.read(number));
    throws(RangeError, "the address", () => cartridge.write(number, 1));
  }
  for (const number of [-1, 256, 0.5, NaN]) throws(RangeError, "the value", () => cartridge.write(0xa000, number));
  for (const number of [-1, 2 ** 32, 0.5]) throws(RangeError, "the cycles", () => cartridge.tick(number));
  for (const none of [undefined, null, "3", 3n, {}, [3], true]) {
    throws(TypeError, "the address must be a number", () => cartridge.read(none));
    throws(TypeError, "the value must be a number", () => cartridge.write(0xa000, none));
    throws(TypeError, "the cycles must be a number", () => cartridge.tick(none));
  }
  for (const none of [undefined, null, "bytes", 16384, Array(FRAME_BYTES).fill(0), new Uint16Array(FRAME_BYTES)]) {
    throws(TypeError, "the image must be a Uint8Array", () => cartridge.lend(none));
    throws(TypeError, "the frame must be a Uint8Array", () => picture(none, registers));
  }
  for (const length of [0, 53, 55]) {
    throws(RangeError, "the registers must be 54 bytes", () => picture(frame(1), new Uint8Array(length)));
  }
  assert.deepEqual(whole(cartridge), before);
  cartridge.close();
  say("calls with bad words: each a clear error, and nothing changed");
}

function badMemory() {
  for (const banks of [0, 3, 65, 128]) refused(2, () => new Cartridge({ rom: new Uint8Array(banks * ROM_BANK) }));
  for (const rest of [1, ROM_BANK - 1, ROM_BANK + 1]) refused(2, () => new Cartridge({ rom: new Uint8Array(rest) }));
  for (const banks of [0, 3, 17, 32]) refused(3, () => new Cartridge({ ram: new Uint8Array(banks * RAM_BANK) }));
  for (const rest of [1, RAM_BANK - 1, RAM_BANK + 1]) refused(3, () => new Cartridge({ ram: new Uint8Array(rest) }));
  throws(TypeError, "the ROM must be", () => new Cartridge({ rom: "rom" }));
  throws(TypeError, "the RAM must be", () => new Cartridge({ ram: 8192 }));
  const given = new Uint8Array(RAM_BANK).fill(9);
  const cartridge = new Cartridge({ ram: given });
  cartridge.write(0, 0x0a);
  cartridge.write(0xa000, 1);
  assert.equal(cartridge.read(0xa000), 1);
  assert.equal(given[0], 9);
  cartridge.close();
  say("ROM and RAM of wrong lengths refused by 2 and 3; what was given is copied");
}

function badParts() {
  const cartridge = begin(new Cartridge(), 4);
  cartridge.tick(20_000);
  const save = cartridge.parts();
  const before = structuredClone(save);
  const patched = (place, byte) => Uint8Array.from(save.state, (old, at) => (at === place ? byte : old));
  for (const length of [0, 1, STATE_BYTES - 1]) refused(1, () => Cartridge.fromParts({ ...save, state: save.state.slice(0, length) }));
  refused(1, () => Cartridge.fromParts({ ...save, state: new Uint8Array(STATE_BYTES + 1) }));
  for (const [place, byte] of [[0, 1], [1, 2], [2, 64], [3, 32], [4, 0], [4, 2], [8, 255], [13, 8]]) {
    refused(1, () => Cartridge.fromParts({ ...save, state: patched(place, byte) }));
  }
  for (const length of [0, RAM_BANK - 1, 3 * RAM_BANK]) refused(3, () => Cartridge.fromParts({ ...save, ram: new Uint8Array(length) }));
  for (const length of [0, FRAME_BYTES - 1, FRAME_BYTES + 1]) {
    refused(4, () => Cartridge.fromParts({ ...save, store: new Uint8Array(length) }));
  }
  refused(2, () => Cartridge.fromParts(save, { rom: new Uint8Array(5) }));
  for (const part of ["state", "ram", "store"]) {
    throws(TypeError, `the save's ${part} must be`, () => Cartridge.fromParts({ ...save, [part]: undefined }));
  }
  for (const none of [undefined, null, 7, "save"]) throws(TypeError, "the save's state must be", () => Cartridge.fromParts(none));
  assert.deepEqual(save, before);
  assert.deepEqual(cartridge.parts(), before);
  cartridge.close();
  say("parts cut short, of another size or impossible: refused by number, and nothing changed");
}

/** The two counts: one more at a start and at an end, none at a stop or a resume, and from 65,535 to 0. */
function counts() {
  const cartridge = new Cartridge();
  const both = ({ started, ended }) => [started, ended];
  cartridge.write(0x4000, 0x10);
  assert.deepEqual(both(cartridge), [0, 0]);
  for (const serial of [1, 2]) {
    cartridge.write(0xa000, 1);
    cartridge.tick(20_000);
    assert.deepEqual(both(cartridge), [serial, serial - 1]);
    cartridge.write(0xa000, 0);
    cartridge.write(0xa000, 1);
    cartridge.tick(1_000_000);
    assert.deepEqual(both(cartridge), [serial, serial]);
  }
  const save = cartridge.parts();
  save.state.set([0xff, 0xff, 0xfe, 0xff], 9);
  const worn = Cartridge.fromParts(save);
  assert.deepEqual(both(worn), [0xffff, 0xfffe]);
  worn.write(0xa000, 1);
  worn.tick(1_000_000);
  assert.deepEqual(both(worn), [0, 0xffff]);
  cartridge.reset();
  assert.deepEqual(both(cartridge), [0, 0]);
  cartridge.close();
  worn.close();
  say("captures started and ended: counted, not at a resume, and from 65,535 to 0");
}

/** A state that another version saved is refused, with a sentence that says so. */
function layouts() {
  const cartridge = begin(new Cartridge(), 4);
  cartridge.tick(20_000);
  const save = cartridge.parts();
  assert.deepEqual([LAYOUT, layoutOf(save.state)], [3, 3]);
  const kept = (layout) => new Uint8Array(readFileSync(new URL(`../../../tests/data/layout-${layout}.state`, import.meta.url)));
  const [first, second] = [kept(1), kept(2)];
  // each is of a capture half way
  assert.deepEqual([first[3], second[4]], [1, 1]);
  const later = Uint8Array.from(save.state, (byte, place) => (place === 0 ? 4 : byte));
  for (const [layout, state] of [[1, first], [2, second], [4, later]]) {
    assert.equal(layoutOf(state), layout);
    const sentence = `the state is of layout ${layout}, and this program reads layout ${LAYOUT}: another version saved it`;
    assert.throws(() => Cartridge.fromParts({ ...save, state }), { name: "Refusal", number: 1, message: sentence });
  }
  for (const none of [[], [0], new Array(STATE_BYTES).fill(1)]) {
    const state = Uint8Array.from(none);
    assert.equal(layoutOf(state), null);
    assert.throws(() => Cartridge.fromParts({ ...save, state }), { number: 1, message: "the state record can't exist" });
  }
  assert.deepEqual(cartridge.parts(), save);
  cartridge.close();
  say("a state of another layout refused by 1, and why");
}

function closed() {
  const [cartridge, other] = [begin(new Cartridge(), 5), begin(new Cartridge(), 6)];
  cartridge.close();
  const next = begin(new Cartridge(), 7);
  const before = [whole(other), whole(next)];
  cartridge.close();
  const uses = {
    reset: [], read: [0], write: [0xa000, 0], tick: [1], step: [frame(1)], inspect: [], choose: [{ light: 0, level: 0 }], lend: [frame(1)], lendPhoto: [frame(1)], picture: [], area: [], plate: [],
    place: [frame(1)], shades: [], readings: [], save: [], parts: [], battery: [], record: [], recording: [],
  };
  for (const [name, words] of Object.entries(uses)) throws(Error, "the cartridge is closed", () => cartridge[name](...words));
  throws(Error, "the cartridge is closed", () => cartridge.picture(frame(1), registers));
  const counts = ["started", "ended"];
  for (const name of counts) throws(Error, "the cartridge is closed", () => cartridge[name]);
  assert.deepEqual([whole(other), whole(next)], before);
  assert.deepEqual(Object.getOwnPropertyNames(Cartridge.prototype).sort(), ["close", "constructor", ...counts, ...Object.keys(uses)].sort());
  say("every method of a closed cartridge: a clear error, and other cartridges keep their bytes");
}

theModule();
types();
await loading();
calls();
plates();
placings();
readings();
photographs();
choices();
recorder();
salvages();
audits();
steps();
judgements();
sideBySide();
memory();
await nothingLost();
badCalls();
badMemory();
badParts();
counts();
layouts();
closed();
