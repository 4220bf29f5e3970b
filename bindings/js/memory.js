// The module's memory, dealt out in pieces: what one cartridge gives back, the next one takes.

const ALIGN = 16;
const PAGE = 65_536;

const aligned = (address) => Math.ceil(address / ALIGN) * ALIGN;

/** The room that a piece takes; none has no place of its own. */
const roomFor = (length) => aligned(Math.max(length, 1));

/** A piece of the module's memory. */
class Piece {
  #memory;

  constructor(memory, address, length) {
    this.#memory = memory;
    this.address = address;
    this.length = length;
  }

  /** Its bytes, looked at anew each time: a view dies when the memory grows. */
  get bytes() {
    return new Uint8Array(this.#memory.buffer, this.address, this.length);
  }
}

/** Deals out the memory from `base` on, and lets it grow when there is no room. */
export class Memory {
  #memory;
  /** Free places, `{ start, length }`, by their start; no two of them touch. */
  #free = [];

  constructor(memory, base) {
    this.#memory = memory;
    const start = aligned(base);
    this.#insert(start, memory.buffer.byteLength - start);
  }

  /** Copies each of the named bytes into a piece of its own: all of them, or none. */
  keep(named) {
    const kept = {};
    try {
      for (const [name, bytes] of Object.entries(named)) kept[name] = this.#copy(bytes);
    } catch (error) {
      this.release(kept);
      throw error;
    }
    return kept;
  }

  /** Takes back the pieces that `keep` gave. */
  release(kept) {
    for (const { address, length } of Object.values(kept)) this.#insert(address, roomFor(length));
  }

  #copy(bytes) {
    const piece = new Piece(this.#memory, this.#take(roomFor(bytes.length)), bytes.length);
    piece.bytes.set(bytes);
    return piece;
  }

  /** The first free place with room enough. */
  #take(length) {
    const index = this.#free.findIndex((place) => place.length >= length);
    if (index < 0) {
      this.#grow(length);
      return this.#take(length);
    }
    const { start, length: room } = this.#free[index];
    const rest = room > length ? [{ start: start + length, length: room - length }] : [];
    this.#free.splice(index, 1, ...rest);
    return start;
  }

  /** Lets the memory grow until its end, with what is free there, has room enough. */
  #grow(length) {
    const end = this.#memory.buffer.byteLength;
    const last = this.#free.at(-1);
    const room = last && last.start + last.length === end ? last.length : 0;
    try {
      this.#memory.grow(Math.ceil((length - room) / PAGE));
    } catch {
      throw new RangeError(`the module's memory has no room for ${length} bytes more`);
    }
    this.#insert(end, this.#memory.buffer.byteLength - end);
  }

  /** Puts a place back among the free ones, as one with those that it touches. */
  #insert(start, length) {
    if (length <= 0) return;
    const index = this.#free.findIndex((place) => place.start > start);
    const at = index < 0 ? this.#free.length : index;
    this.#free.splice(at, 0, { start, length });
    this.#join(at);
    this.#join(at - 1);
  }

  /** Makes one place of a free place and the next, if they touch. */
  #join(at) {
    const [place, next] = [this.#free[at], this.#free[at + 1]];
    if (!place || !next || place.start + place.length !== next.start) return;
    place.length += next.length;
    this.#free.splice(at + 1, 1);
  }
}
