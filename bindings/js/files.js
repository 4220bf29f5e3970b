// Files that are there whole or not at all; for node, which has files.

import { lstat, open, realpath, rename, rm, stat } from "node:fs/promises";
import { dirname } from "node:path";
import { fileURLToPath } from "node:url";

/** Tells the writes of this process apart, which may overlap. */
let written = 0;

/**
 * Writes a file so that a kill at any moment leaves the old one or the new one, whole: beside it, flushed to the disk,
 * then renamed over it. What a kill leaves beside it, `.PROCESS-NUMBER.part` after its name, may be removed. A link
 * stays one, a file keeps its rights, and what is no file on a disk, as a pipe, is written straight.
 */
export async function writeWhole(path, bytes) {
  const named = path instanceof URL ? fileURLToPath(path) : path;
  const old = await oldAt(named);
  if (old && !old.isFile()) {
    // a folder can't be opened
    await closed(await open(named, "w"), (file) => file.writeFile(bytes));
    return;
  }
  // a file that may not be written is not replaced either
  if (old) await closed(await open(named, "r+"));
  // where a link leads, so that it stays one
  const place = old ? await realpath(named) : named;
  const beside = `${place}.${process.pid}-${written++}.part`;
  try {
    await flushed(await open(beside, "w"), async (file) => {
      if (old) await file.chmod(old.mode & 0o7777);
      await file.writeFile(bytes);
    });
    await rename(beside, place);
  } catch (error) {
    await rm(beside, { force: true });
    throw error;
  }
  // so that the disk knows the new name; there is no flushing of folders on Windows
  if (process.platform !== "win32") await flushed(await open(dirname(place), "r"));
}

/** What stands at a path, or where its link leads; a link that leads nowhere is an error, and undefined is nothing. */
async function oldAt(path) {
  const there = await lstat(path).catch((error) => {
    if (error.code !== "ENOENT") throw error;
  });
  return there && stat(path);
}

/** Does something with an open file, and closes it. */
async function closed(file, work = async () => {}) {
  try {
    await work(file);
  } finally {
    await file.close();
  }
}

/** Writes to an open file, if there is something to write, has the disk take it, and closes it. */
function flushed(file, write = async () => {}) {
  return closed(file, async () => {
    await write(file);
    await file.sync();
  });
}
