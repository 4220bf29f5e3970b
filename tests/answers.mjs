// What the desk says of a plate, from the events of the module's audit. usage: node answers.mjs SECOND SCRIPT
import assert from "node:assert/strict";
import { execFileSync } from "node:child_process";
import { readFileSync } from "node:fs";
import { load } from "../bindings/js/gulxinett.js";
import { answersOf, fourAnswers, registersOf, summarySentence } from "../desk/answers.js";
import { auditOf } from "../desk/audit.js";

const [second, job] = process.argv.slice(2);
const module = await load();

/** What is read from the audit of a script, whose events the second program has too. */
function audited(script) {
  const events = auditOf(module, Buffer.from(script));
  assert.equal(events, execFileSync(second, ["audit"], { input: script }).toString());
  return answersOf(events);
}

const about = (capture, changed) => Object.fromEntries(fourAnswers(capture, changed, { name: "a beetle", words: "some words", total: 32_958 }));

// a job that is stopped half way, with another image and other registers before it is resumed
const whole = audited(readFileSync(job));
const [plate] = whole.captures;
assert.deepEqual([whole.captures.length, whole.changed, plate.state, plate.serial, plate.stops.length], [1, [], "ended", "1", 1]);
assert.equal(registersOf(plate).length, 54);
assert.deepEqual(about(plate, whole.changed), {
  Serial: "1",
  "Which frame": "a beetle, CRC-32 A9C463BB",
  "Which registers": "some words",
  "How many cycles": "36,542 of 32,958: ended; stopped at 18,271.",
  "What else changed": "Nothing in the save.",
  "The plate": "CRC-32 F4EF1B95: whole, the capture's own picture.",
});
assert.equal(summarySentence(whole.summary), "3,961 lines, 0 malformed, 0 refused. Captures started: 1; ended: 1, of these whole 1, touched 0; dropped: 0; held: 0.");

// an operator writes into the picture and beside it; then a capture is dropped, and one is held
const start = ["02400010", "02A00003", "0300001000"];
const touching = ["0200000A", ...start, "02A00002", "02400000", "02A10055", "02B00011", "02B00012", "02400010", "02A00003", "03FFFFFFFF"];
const some = audited([...touching, ...start, "00", "nothing", "018000", ...start, "02A00002"].join("\n"));
const [touched, dropped, held] = some.captures;
assert.deepEqual(some.captures.map(({ state }) => state), ["ended", "dropped", "stopped"]);
assert.deepEqual([touched.serial, dropped.serial, held.serial], ["1", "2", "1"]);
assert.equal(about(touched, some.changed)["What else changed"], "In the save bank 0, 1000 to 1000. While it was held 2 bus writes landed outside the picture.");
assert.match(about(touched, some.changed)["The plate"], /^CRC-32 [0-9A-F]{8}: touched, by 1 bus write, from line 7 to line 7 of the recording\.$/);
assert.equal(about(dropped, [])["How many cycles"], "4,096 of 32,958: dropped.");
assert.equal(about(held, [])["How many cycles"], "4,096 of 32,958: stopped; stopped at 4,096.");
assert.ok(!("The plate" in about(held, [])));
assert.deepEqual([some.summary.malformed, some.summary.refused, some.summary.held], ["1", "1", "1"]);

// nothing was done, and nothing is known
assert.deepEqual(audited("").captures, []);
assert.equal(summarySentence(audited("").summary), "0 lines, 0 malformed, 0 refused. Captures started: 0; ended: 0, of these whole 0, touched 0; dropped: 0; held: 0.");

// a recording longer than what the module is lent at once
const long = readFileSync(job, "latin1").repeat(3);
assert.deepEqual(audited(long).captures.map(({ state }) => state), ["ended", "ended", "ended"]);
console.log("answers: 7 captures, whole, touched, dropped and held, and a text without any; every event is the second program's too");
