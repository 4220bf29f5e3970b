// The desk's words for choices, cycles and registers.

const LIGHTS = ["high light", "low light"];
const CYCLES_A_SECOND = 1_048_576;

export const number = (value) => value.toLocaleString("en");
const hex = (value) => `${value.toString(16).toUpperCase().padStart(4, "0")}h`;

export const levelWords = (level) => ({ 0: "0 (the lowest)", 7: "7 (the default)", 15: "15 (the highest)" })[level] ?? `${level}`;

/** An exposure with how long a capture under it takes. */
export const exposureWords = (exposure, total) => `${hex(exposure)}: ${number(total)} cycles, ${(total / CYCLES_A_SECOND).toFixed(2)} s`;

/** The slider's places are none, and then sixteenths of a doubling. */
export const exposureAt = (place) => (place === 0 ? 0 : Math.min(0xffff, Math.round(2 ** ((place - 1) / 16))));
export const placeOf = (exposure) => (exposure === 0 ? 0 : 1 + Math.round(16 * Math.log2(exposure)));

/** What 54 registers are in the desk's words, by the matrices that `matrixOf(choice)` gives. */
export function registerWords(registers, matrixOf) {
  const mode = 8 * (registers[1] >> 7) + 2 * ((registers[1] >> 5) & 3) + (registers[4] >> 7);
  const edges = mode ? `, edge mode ${mode.toString(16).toUpperCase()}` : "";
  return `${matrixWords(registers.subarray(6).join(), matrixOf)}, exposure ${hex(256 * registers[2] + registers[3])}${edges}`;
}

function matrixWords(matrix, matrixOf) {
  for (const light of [0, 1])
    for (let level = 0; level < 16; level++)
      for (const dithering of [true, false])
        if (matrixOf({ light, level, dithering }).join() === matrix)
          return `${LIGHTS[light]}, contrast ${levelWords(level)}, dithering ${dithering ? "on" : "off"}`;
  return "a matrix of no level of the desk";
}
