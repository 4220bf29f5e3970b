/**
 * Writes a file so that a kill at any moment leaves the old one or the new one, whole: beside it, flushed to the disk,
 * then renamed over it. What a kill leaves beside it, `.PROCESS-NUMBER.part` after its name, may be removed. A link
 * stays one, a file keeps its rights, and what is no file on a disk, as a pipe, is written straight. For node, which has files.
 */
export function writeWhole(path: string | URL, bytes: Uint8Array): Promise<void>;
