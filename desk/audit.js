// The audit of a recording, by the proved functions of the module.

/** Bytes of a recording that the module is lent at once. */
const PIECE = 65_536;

/** The events of a recording, one a line; `ram` is the RAM that it begins with, null for one bank of FF. */
export function auditOf({ Audit }, recording, ram = null) {
  const audit = new Audit(ram ? { ram } : {});
  const events = [];
  try {
    for (let at = 0; at < recording.length; at += PIECE) events.push(...audit.feed(recording.subarray(at, at + PIECE)));
    events.push(...audit.finish());
  } finally {
    audit.close();
  }
  return events.join("");
}
