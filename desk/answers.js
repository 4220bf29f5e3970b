// The lines of an audit, read: what is said of each capture and of the save. Nothing is decided here.

/** A line as an object: its words are keys and values in turn. */
function parsed(line) {
  const words = line.split(" ");
  return Object.fromEntries(words.flatMap((word, at) => (at % 2 ? [[words[at - 1], word]] : [])));
}

/** What an event makes of a capture; one that is held at the end stays as it is. */
const STATES = { start: "running", stop: "stopped", resume: "running", end: "ended", dropped: "dropped" };

/** The captures of an audit in order, each with what was said of it; the places of the save that changed; the summary. */
export function answersOf(events) {
  const captures = [];
  const changed = [];
  let summary = null;
  for (const line of events.split("\n").filter(Boolean)) {
    const said = parsed(line);
    const capture = captures.at(-1);
    if (said.event === "start") captures.push({ ...said, cycles: "0", state: STATES.start, stops: [], writes: [], end: null });
    else if (said.event === "write") capture.writes.push(said);
    else if (said.event === "changed") changed.push(said);
    else if (said.event === "summary") summary = said;
    else if (said.event !== "unchanged") {
      capture.cycles = said.cycles;
      capture.state = STATES[said.event] ?? capture.state;
      if (said.event === "stop") capture.stops.push(said);
      if (said.event === "end") capture.end = said;
    }
  }
  return { captures, changed, summary };
}

/** The 54 registers that a capture took, as numbers. */
export const registersOf = ({ registers }) => Uint8Array.from(registers.match(/../g), (digits) => parseInt(digits, 16));

const figure = (digits) => Number(digits).toLocaleString("en");
const writesWords = (count) => `${figure(count)} bus write${Number(count) === 1 ? "" : "s"}`;

/** The serial and the four answers about a capture, as pairs of a question and a sentence; with digits after it where they belong to it. */
export function fourAnswers(capture, changed, { name, words, total }) {
  return [
    ["Serial", capture.serial],
    ["Which frame", `${name ?? "one without a name here"}, CRC-32 ${capture.image}`],
    ["Which registers", words, capture.registers],
    ["How many cycles", cyclesSentence(capture, total)],
    ["What else changed", `${placesSentence(changed)}${writesSentence(capture)}`],
    ...(capture.end ? [["The plate", plateSentence(capture.end)]] : []),
  ];
}

function cyclesSentence({ cycles, state, stops }, total) {
  const stood = stops.length ? `; stopped at ${stops.map((stop) => figure(stop.cycles)).join(", ")}` : "";
  return `${figure(cycles)} of ${figure(total)}: ${state}${stood}.`;
}

function placesSentence(changed) {
  if (changed.length === 0) return "Nothing in the save.";
  return `In the save ${changed.map(({ bank, from, to }) => `bank ${bank}, ${from} to ${to}`).join("; ")}.`;
}

function writesSentence({ writes }) {
  const outside = writes.filter(({ area }) => area === "outside").length;
  return outside ? ` While it was held ${writesWords(outside)} landed outside the picture.` : "";
}

function plateSentence({ plate, verdict, writes, first, last }) {
  const own = verdict === "whole" ? "the capture's own picture" : `by ${writesWords(writes)}, from line ${first} to line ${last} of the recording`;
  return `CRC-32 ${plate}: ${verdict}, ${own}.`;
}

/** The summary of a recording. */
export function summarySentence({ line, malformed, refused, captures, ended, whole, touched, dropped, held }) {
  const lines = `${figure(line)} lines, ${figure(malformed)} malformed, ${figure(refused)} refused`;
  return `${lines}. Captures started: ${captures}; ended: ${ended}, of these whole ${whole}, touched ${touched}; dropped: ${dropped}; held: ${held}.`;
}
