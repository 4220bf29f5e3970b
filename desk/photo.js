// Pictures that the browser opens, as the files that the proved functions read.

import { bytesOf } from "./files.js";

const SIDE = 128;
const PLATE_HEIGHT = 112;

/** A photograph as P6: the file as it is if it is one, else the middle square of the picture, scaled. */
export async function photograph(file) {
  return (await begins(file, "P6")) ?? colours(await opened(file));
}

/** A plate as P5: the file as it is if it is one, else a picture of exactly its size, pixel for pixel. */
export async function cleaned(file) {
  return (await begins(file, "P5")) ?? greys(await opened(file));
}

/** The bytes of a file that begins with a word, else null. */
async function begins(file, word) {
  const bytes = await bytesOf(file);
  return String.fromCharCode(...bytes.subarray(0, word.length)) === word ? bytes : null;
}

/** A picture; drawings such as SVG are opened by an image element alone. */
async function opened(file) {
  try {
    return await createImageBitmap(file).catch(() => drawing(file));
  } catch {
    throw new Error("it is no picture that this browser opens");
  }
}

async function drawing(file) {
  const image = new Image();
  image.src = URL.createObjectURL(file);
  try {
    await image.decode();
    return await createImageBitmap(image, { resizeWidth: image.naturalWidth || SIDE, resizeHeight: image.naturalHeight || SIDE });
  } finally {
    URL.revokeObjectURL(image.src);
  }
}

async function colours(bitmap) {
  const side = Math.min(bitmap.width, bitmap.height);
  const [x, y] = [bitmap.width, bitmap.height].map((length) => Math.floor((length - side) / 2));
  // cut first, so that nothing beside the square is mixed in
  const square = await createImageBitmap(bitmap, x, y, side, side);
  bitmap.close();
  return written("P6", drawn(square, SIDE), SIDE, 3);
}

function greys(bitmap) {
  if (bitmap.width !== SIDE || bitmap.height !== PLATE_HEIGHT) throw new Error("a plate has 128 by 112 pixels");
  return written("P5", drawn(bitmap, PLATE_HEIGHT), PLATE_HEIGHT, 1);
}

/** A picture in 128 by some pixels, four bytes each, on white where it is transparent. */
function drawn(bitmap, height) {
  const canvas = Object.assign(document.createElement("canvas"), { width: SIDE, height });
  const context = canvas.getContext("2d", { willReadFrequently: true });
  context.imageSmoothingQuality = "high";
  context.fillStyle = "#fff";
  context.fillRect(0, 0, SIDE, height);
  context.drawImage(bitmap, 0, 0, SIDE, height);
  bitmap.close();
  return context.getImageData(0, 0, SIDE, height).data;
}

/** A Netpbm file of the first bytes of each pixel. */
function written(kind, pixels, height, each) {
  const header = new TextEncoder().encode(`${kind}\n${SIDE} ${height}\n255\n`);
  const file = new Uint8Array(header.length + each * SIDE * height);
  file.set(header);
  for (let pixel = 0; pixel < SIDE * height; pixel++) file.set(pixels.subarray(4 * pixel, 4 * pixel + each), header.length + each * pixel);
  return file;
}
