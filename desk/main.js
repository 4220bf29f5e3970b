// The page: what the person does, and what is shown of it.

import { load } from "../bindings/js/gulxinett.js";
import { answersOf, fourAnswers, registersOf, summarySentence } from "./answers.js";
import { auditOf } from "./audit.js";
import { bytesOf, crc32, download } from "./files.js";
import { cleaned, photograph } from "./photo.js";
import { Desk, emptyDesk, totalOf } from "./state.js";
import { Storage, alone } from "./storage.js";
import { Run } from "./take.js";
import { SHADES, complain, drawGreys, drawPlate, element, fillAnswers, pointing, readingAt, say } from "./view.js";
import { exposureAt, exposureWords, levelWords, number, placeOf, registerWords } from "./words.js";

const NOT_LENT = "was not lent";
/** What is said as a capture runs, for those who do not see it grow. */
const QUARTERS = ["", "A quarter of the cycles have run.", "Half of the cycles have run.", "Three quarters of the cycles have run."];

let module;
let desk;
let storage = null;
/** The desk that this one took the place of, as it is kept. */
let before = null;
let run = null;
/** The pixel of the plate that the person has pointed at. */
let pointed = null;

// ---- what is shown

/** Shows the plate as chosen, as a slider moves. */
function showPreview() {
  const { plate, readings } = desk.image ? desk.preview() : {};
  drawPlate(element("preview"), plate);
  drawPlate(element("preview-readings"), readings);
}

function showChoice() {
  const { light, level, dithering, exposure } = desk.choice;
  element("choice").elements.light.value = light;
  element("level").value = level;
  element("dithering").checked = dithering;
  element("exposure").value = placeOf(exposure);
  element("steps").value = exposure;
  showWords();
}

function showWords() {
  const { level, exposure } = desk.choice;
  const words = exposureWords(exposure, totalOf([0, 0, exposure >> 8, exposure & 255]));
  element("level-words").textContent = levelWords(level);
  element("exposure-words").textContent = words;
  element("level").setAttribute("aria-valuetext", levelWords(level));
  element("exposure").setAttribute("aria-valuetext", words);
}

function showSpecimen() {
  element("specimen-name").textContent = desk.image ? desk.name : "No specimen yet";
  element("specimen").setAttribute("aria-label", desk.image ? `The specimen ${desk.name}` : "No specimen is lent yet");
  drawGreys(element("specimen"), desk.image ?? new Uint8Array(128 * 128).fill(255));
}

/** Shows how far the capture is: the plate as it stands, the cycles, and which buttons make sense. */
function showCapture() {
  const { held, elapsed, total } = desk.capture();
  drawPlate(element("plate"), desk.plate());
  drawPlate(element("readings"), desk.readings);
  element("readings-words").textContent = desk.readings ? "Its readings, before the dots" : "No readings: no capture made this plate here";
  showPoint();
  element("progress").max = held ? total : 1;
  element("progress").value = held ? elapsed : 0;
  element("cycles").textContent = held ? `${number(elapsed)} of ${number(total)}` : "none, no capture is held";
  element("take").disabled = held || !desk.image;
  element("stop").disabled = !run;
  element("resume").disabled = !held || run !== null;
  element("drop-capture").disabled = !held || run !== null;
  element("place").disabled = held;
  element("back").hidden = !before;
  element("base").hidden = !desk.base;
}

/** Shows the shade and the reading of the pixel pointed at. */
function showPoint() {
  if (!pointed) return;
  const { x, y } = pointed;
  const reading = desk.readings ? `, reading ${readingAt(desk.readings, x, y)}` : "";
  element("point").textContent = `Column ${x}, row ${y}: ${SHADES[desk.shades()[128 * y + x]]}${reading}`;
}

/** Shows the four answers about the plate, from the audit of everything done here. */
function showAnswers() {
  try {
    fillAnswers(element("answers"), plateAnswers());
  } catch (reason) {
    complain(`What was done here can't be audited: ${reason.message}. The recording has it all.`);
  }
}

function plateAnswers() {
  const from = (sentence) => [["Where it is from", sentence]];
  if (!desk.whole) return from("The cartridge was restored from a file, and what was done before is not recorded here. The next capture begins a recording.");
  const { captures, changed } = answersOf(desk.audit());
  const capture = captures.at(-1);
  if (!capture) return from("Nothing was taken yet.");
  const rows = answersFor(capture, changed);
  if (desk.base) rows.push(["Its recording", "Begins at a reset over the RAM that the cartridge had then: serials count from 1."]);
  const shown = crc32(desk.plate());
  if (!capture.end || capture.end.plate === shown) return rows;
  return [["This plate", `CRC-32 ${shown}: put back or written since the last capture, whose answers follow.`], ...rows];
}

function answersFor(capture, changed) {
  const registers = registersOf(capture);
  const words = registerWords(registers, (choice) => desk.matrixOf(choice));
  return fourAnswers(capture, changed, { name: desk.names[capture.image], words, total: totalOf(registers) });
}

function showAll() {
  showSpecimen();
  showChoice();
  showPreview();
  showCapture();
  showAnswers();
}

// ---- what is done

function notKept({ message }) {
  complain(`The browser did not keep the last step (${message}): save the cartridge as a file before you close this tab.`);
}

/** Keeps the desk in the browser. */
function keep(replaced = null) {
  storage?.keep(() => desk.kept(), replaced).catch(notKept);
}

/** Keeps what was chosen; no step was made. */
function keepChoice() {
  storage?.keepChoice(desk.choice).catch(notKept);
}

/** Does something; where it can't be done, says so in a sentence. */
async function attempt(failing, work) {
  complain("");
  try {
    await work();
    keep();
  } catch (reason) {
    complain(`${failing}: ${reason.message}. Nothing has changed.`);
  }
  showCapture();
  showAnswers();
}

/** Runs the capture at the chosen speed. */
function go(words) {
  const speed = Number(document.querySelector("[name=speed]:checked").value);
  const quarter = ({ elapsed, total }) => Math.floor((4 * elapsed) / total);
  let said = quarter(desk.capture());
  say(words);
  const shown = () => {
    const capture = desk.capture();
    if (!capture.held) ended();
    else {
      showCapture();
      if (quarter(capture) > said) say(QUARTERS[(said = quarter(capture))]);
    }
    keep();
  };
  // at once, it has ended before there is a run
  const begun = new Run(desk, speed, shown);
  run = desk.capture().held ? begun : null;
}

function ended() {
  run = null;
  showCapture();
  showAnswers();
  say(`Plate ${desk.capture().serial} is done.`);
}

function halt() {
  run?.halt();
  run = null;
}

async function lend(file) {
  desk.lend(await photograph(file), file.name);
  showSpecimen();
  showPreview();
  say(`${file.name} is lent.`);
}

/** Keeps the desk as it was, which can be gone back to. */
function putAside(kept) {
  before = kept;
  keep(before);
}

/** Puts another desk in this one's place. */
function replace(next, words) {
  halt();
  const old = desk.kept();
  desk.close();
  desk = next;
  putAside(old);
  showAll();
  say(words);
}

/** Does to the cartridge what can't be undone on it. */
function overwrite(work, words) {
  const old = desk.kept();
  work();
  putAside(old);
  say(words);
}

/** Opens a recording and, if a battery save came with it, the RAM that it begins with; shows its audit. */
async function open(...files) {
  const isRam = ({ name }) => /\.sav$/i.test(name);
  const [[script, another], [ram, more]] = [files.filter((file) => !isRam(file)), files.filter(isRam)];
  if (!script || another || more) throw new Error("one recording is opened at a time, with the RAM that it begins with (.sav) if it has one");
  showOpened(script.name, auditOf(module, await bytesOf(script), ram ? await bytesOf(ram) : null));
}

function showOpened(name, events) {
  const place = element("opened");
  const { captures, changed, summary } = answersOf(events);
  const made = (tag, text) => Object.assign(document.createElement(tag), { textContent: text });
  place.replaceChildren(made("h3", name), made("p", summarySentence(summary)));
  for (const capture of captures) {
    const list = document.createElement("dl");
    fillAnswers(list, answersFor(capture, changed));
    place.append(made("h3", `The capture that line ${capture.line} starts`), list);
  }
  place.hidden = false;
  place.focus();
  say(`${name} is audited.`);
}

// ---- what the person touches

/** Does some work with the file that an input was given, or files; then they may be given again. */
function onFile(id, failing, work) {
  element(id).addEventListener("change", async ({ target }) => {
    const files = [...target.files];
    if (files.length) await attempt(`${files.map(({ name }) => name).join(", ")} ${failing}`, () => work(...files));
    target.value = "";
  });
}

function onClick(id, failing, work) {
  element(id).addEventListener("click", () => attempt(failing, work));
}

function listen() {
  const zone = element("drop");
  onFile("photo", NOT_LENT, lend);
  for (const kind of ["dragover", "dragleave", "drop"]) {
    // a file that is let go beside the place for it must not take the page's place
    addEventListener(kind, (event) => {
      event.preventDefault();
      zone.classList.toggle("over", kind === "dragover");
      if (kind !== "drop") return;
      const [file] = event.dataTransfer.files;
      if (file) attempt(`${file.name} ${NOT_LENT}`, () => lend(file));
      else complain(`What was dropped ${NOT_LENT}: it is no file. Nothing has changed.`);
    });
  }

  element("choice").addEventListener("submit", (event) => event.preventDefault());
  element("choice").addEventListener("input", ({ target }) => {
    if (target.id === "exposure") element("steps").value = exposureAt(target.valueAsNumber);
    if (!element("steps").checkValidity()) return complain("Exposure steps are a whole number from 0 to 65,535. The last one stands.");
    complain("");
    if (target.id === "steps") element("exposure").value = placeOf(target.valueAsNumber);
    desk.choice = {
      light: Number(element("choice").elements.light.value),
      level: element("level").valueAsNumber,
      dithering: element("dithering").checked,
      exposure: element("steps").valueAsNumber,
    };
    showPreview();
    showWords();
    keepChoice();
  });

  onClick("take", "The capture was not started", () => {
    desk.take();
    // the browser is asked to keep what is here also where it needs room
    navigator.storage?.persist?.().catch(() => {});
    go("The capture runs.");
  });
  element("speed").addEventListener("change", () => {
    if (!run) return;
    halt();
    go("The capture runs on at another speed.");
  });
  onClick("stop", "The capture was not stopped", () => {
    halt();
    desk.stop();
    say(`Stopped after ${number(desk.capture().elapsed)} cycles.`);
  });
  onClick("resume", "The capture was not resumed", () => {
    desk.resume();
    go("The capture runs on, with its own frame and registers.");
  });
  onClick("drop-capture", "The capture was not dropped", () =>
    overwrite(() => desk.drop(), "The capture was dropped. The plate stays as it stands."));

  onClick("png", "The plate was not written", async () => {
    const blob = await new Promise((resolve) => element("plate").toBlob(resolve, "image/png"));
    download("plate.png", blob);
  });
  onClick("p5", "The plate was not written", () => download("plate.pgm", desk.plate(), "image/x-portable-graymap"));
  onFile("place", "was not put back", async (file) => {
    const plate = await cleaned(file);
    overwrite(() => desk.place(plate), `${file.name} is in the cartridge.`);
  });

  onClick("save", "The cartridge was not saved", () => download("cartridge.gxsave", desk.save()));
  onFile("restore", "was not restored", async (file) => replace(desk.restored(await bytesOf(file)), `${file.name} is restored.`));
  onClick("new", "There is no new cartridge", () => replace(desk.renewed(), "A new cartridge, full of FF."));
  onClick("back", "What was before is not back", () => replace(new Desk(module, before), "What was before is back."));
  onClick("recording", "The recording was not written", () => download("recording.script", desk.recording(), "text/plain"));
  onClick("base", "The RAM was not written", () => download("recording.sav", desk.base));
  onFile("open", "was not audited", open);

  pointing(element("plate"), (place) => {
    pointed = place;
    showPoint();
  });
}

// ---- from the beginning

/** What the browser kept; where it can't be had, a sentence says why. */
async function pickedUp() {
  try {
    storage = await Storage.open();
    return await storage.read();
  } catch (reason) {
    storage = null;
    complain(`This browser keeps nothing (${reason.message}): save the cartridge as a file before you close this tab.`);
    return { now: null, choice: null, before: null };
  }
}

/** The desk that was kept; where it can't be read it is put aside as the one before. */
function deskFrom({ now, before: older }) {
  before = older;
  try {
    return new Desk(module, now ?? emptyDesk());
  } catch (reason) {
    complain(`The cartridge that the browser kept can't be read (${reason.message}). It is put aside, and a new one is here.`);
    before = now;
    return new Desk(module, emptyDesk());
  }
}

async function main() {
  module = await load();
  await alone(() => complain("The desk is open in another tab. Close that one, and this one goes on."));
  complain("");
  const kept = await pickedUp();
  desk = deskFrom(kept);
  desk.choice = kept.choice ?? desk.choice;
  if (before && before !== kept.before) keep(before);
  listen();
  showAll();
  element("desk").inert = false;
  const { held, elapsed } = desk.capture();
  if (held) say(`Picked up: a capture stands after ${number(elapsed)} cycles. Resume it when you like.`);
  else say(kept.now ? "Picked up where you left it." : "Ready: lend a specimen.");
  navigator.serviceWorker?.register("offline.js").catch(() => {});
}

// what nothing above has caught is a sentence too
addEventListener("error", ({ message }) => complain(`Something went wrong: ${message}. What was kept is kept.`));
addEventListener("unhandledrejection", ({ reason }) => complain(`Something went wrong: ${reason?.message}. What was kept is kept.`));

main().catch((reason) => {
  say("");
  complain(`The desk can't begin: ${reason.message}.`);
});
