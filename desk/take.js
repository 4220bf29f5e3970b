// A capture as time goes by.

/** Cycles of one tick, to the end of any capture. */
const ALL = 0xffff_ffff;
/** The most milliseconds that pass in one frame: a page that was hidden or held up goes on where it was. */
const LATE = 250;

/** Runs the capture held, so many cycles a second; `shown` is called after each piece. */
export class Run {
  #desk;
  #speed;
  #shown;
  #before;
  #rest = 0;
  #frame;

  constructor(desk, speed, shown) {
    this.#desk = desk;
    this.#speed = speed;
    this.#shown = shown;
    if (speed === Infinity) this.#pass(ALL);
    else this.#frame = requestAnimationFrame((now) => this.#first(now));
  }

  /** No cycle passes after this. */
  halt() {
    cancelAnimationFrame(this.#frame);
  }

  #first(now) {
    this.#before = now;
    this.#frame = requestAnimationFrame((later) => this.#next(later));
  }

  #next(now) {
    this.#rest += (Math.min(now - this.#before, LATE) * this.#speed) / 1000;
    this.#before = now;
    const cycles = Math.min(ALL, Math.floor(this.#rest));
    this.#rest -= cycles;
    this.#frame = requestAnimationFrame((later) => this.#next(later));
    this.#pass(cycles);
  }

  #pass(cycles) {
    if (cycles > 0) this.#desk.tick(cycles);
    if (!this.#desk.capture().held) this.halt();
    this.#shown();
  }
}
