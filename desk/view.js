// What is drawn and said.

const HEADER = 15;
const WIDTH = 128;
const HEIGHT = 112;
export const SHADES = ["white", "light grey", "dark grey", "black"];

export const element = (id) => document.getElementById(id);

/** Draws greys, one a byte, as wide as the canvas. */
export function drawGreys(canvas, greys) {
  const context = canvas.getContext("2d");
  const image = context.createImageData(canvas.width, canvas.height);
  const pixels = new Uint32Array(image.data.buffer);
  for (let place = 0; place < pixels.length; place++) pixels[place] = 0xff00_0000 | (greys[place] * 0x01_0101);
  context.putImageData(image, 0, 0);
}

/** Draws a plate, or readings, which are of the same kind; nothing if there is none. */
export function drawPlate(canvas, plate) {
  if (plate) drawGreys(canvas, plate.subarray(HEADER));
  else canvas.getContext("2d").clearRect(0, 0, canvas.width, canvas.height);
}

/** The reading at a place of readings. */
export const readingAt = (readings, x, y) => readings[HEADER + WIDTH * y + x];

export function say(sentence) {
  element("status").textContent = sentence;
}

export function complain(sentence) {
  element("error").textContent = sentence;
}

/** A list of questions and answers, with what is said in digits as code. */
export function fillAnswers(list, rows) {
  list.replaceChildren(
    ...rows.flatMap(([question, sentence, digits]) => {
      const asked = Object.assign(document.createElement("dt"), { textContent: question });
      const answer = Object.assign(document.createElement("dd"), { textContent: sentence });
      if (digits) answer.append(document.createElement("br"), Object.assign(document.createElement("code"), { textContent: digits }));
      return [asked, answer];
    }),
  );
}

/** Tells which pixel of a plate the person points at, by pointer or arrow keys. */
export function pointing(canvas, told) {
  const at = { x: 0, y: 0 };
  const held = (value, most) => Math.max(0, Math.min(most - 1, value));
  canvas.addEventListener("pointermove", (event) => {
    at.x = held(Math.floor((event.offsetX * WIDTH) / canvas.clientWidth), WIDTH);
    at.y = held(Math.floor((event.offsetY * HEIGHT) / canvas.clientHeight), HEIGHT);
    told(at);
  });
  canvas.addEventListener("keydown", (event) => {
    const [x, y] = { ArrowLeft: [-1, 0], ArrowRight: [1, 0], ArrowUp: [0, -1], ArrowDown: [0, 1] }[event.key] ?? [];
    if (x === undefined) return;
    event.preventDefault();
    at.x = held(at.x + x, WIDTH);
    at.y = held(at.y + y, HEIGHT);
    told(at);
  });
}
