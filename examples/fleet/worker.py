"""A worker of the fleet, in Python: takes a job, ticks a piece of it, saves it, until no job waits.

usage: python3 worker.py URL SEED [--die POINT:COUNT] [--break HOW]

It tells by one byte each on standard output what it has just done: t took a job, k ticked it, s wrote the save, c
committed, a set a job aside, i found no job that is free. --die kills the worker with signal 9 as it comes to a point
(take, tick, save, commit) for the COUNTth time. --break is for trying the soak, which must see it: mixed finishes a job from
another one's frame store, cycles counts what was asked for and not what was answered, outside writes to the album, touched
writes a byte of a half picture back as it is, which the audit alone tells, lost marks the job as taken before it is worked
on, dies sets no job aside.
"""

import os
import random
import signal
import sys
import time
from pathlib import Path

sys.path[:0] = [str(Path(__file__).resolve().parents[2] / "bindings" / "python"), str(Path(__file__).resolve().parent)]
import database as jobs
from gulxinett import LAYOUT, PICTURE_BYTES, PICTURE_OFFSET, SAVE_BYTES, Cartridge, Parts, Refusal

# The bus: select, and the camera's registers.
SELECT = 0x4000
REGISTERS_SHOWN = 0x10
TRIGGER = 0xA000
# A piece of work, in cycles.
SHORTEST, LONGEST = 1_000, 15_000
# Where a save has its layout and its RAM.
SAVE_LAYOUT_OFFSET, SAVE_RAM_OFFSET = 7, 128
# What is lent where there is no other job: stripes.
STRIPES = jobs.Specimen(b"P6 128 128 255\n" + (bytes(24) + b"\xff" * 24) * 1024, 0, 3, 0, 0x0200, 3, 0x60, 0x90)


class Worker:
    def __init__(self, url, seed, die, broken):
        self.chance = random.Random(seed)
        self.die_at, _, count = die.partition(":")
        self.lives = int(count or 0)
        self.broken = broken
        self.database = jobs.connect(url)

    def told(self, letter, point=None):
        """Tells where the worker is, and dies there if it is to."""
        os.write(1, letter)
        if point and point == self.die_at:
            self.lives -= 1
            if self.lives == 0:
                os.kill(os.getpid(), signal.SIGKILL)

    def work(self):
        """Works until no job waits."""
        while True:
            job = jobs.take(self.database)
            if job is None:
                self.told(b"i")
                if jobs.waiting(self.database) == 0:
                    return
                # those that wait are in other workers' hands
                time.sleep(0.01)
                continue
            self.told(b"t", "take")
            if self.broken == "lost":
                self.taken_apart(job)
            try:
                self.piece(job)
                self.told(b"s", "save")
                self.database.commit()
                self.told(b"c", "commit")
            except Refusal as refusal:
                if self.broken == "dies":
                    raise
                jobs.set_aside(self.database, job, why(refusal, job))
                self.database.commit()
                self.told(b"a")

    def piece(self, job):
        """A piece of a job: picked up from its save, ticked, and its save written."""
        cartridge = Cartridge.restore(job.save)
        begun = cartridge.started != cartridge.ended
        if begun and self.broken == "mixed":
            cartridge = self.mixed(job, cartridge)
        cartridge.record()
        # the capture is begun with its own specimen; whoever goes on with it has another in hand, as in the incident
        specimen = (jobs.other_specimen(self.database, job) or STRIPES) if begun else job.specimen
        start(cartridge, specimen)
        asked = self.chance.randrange(SHORTEST, LONGEST)
        ran = cartridge.tick(asked)
        self.told(b"k", "tick")
        if self.broken == "cycles":
            ran = asked
        done = cartridge.started == cartridge.ended
        if not done and (self.chance.random() < 0.5 or self.broken == "touched"):
            cartridge.write(TRIGGER, specimen.a000 & 6)
        if self.broken == "outside" and done:
            overwritten(cartridge, 0xB000, 1)
        if self.broken == "touched" and not done:
            overwritten(cartridge, 0xA000 + PICTURE_OFFSET, 0)
        save = cartridge.save()
        jobs.keep(
            self.database, job, save, cartridge.recording().decode("ascii"), ran, cartridge.started, cartridge.ended,
            outside(job.first, save), "p", cartridge.plate() if done else None,
        )

    def mixed(self, job, cartridge):
        """The cartridge with the frame store of another job's save: what must never happen."""
        other = Cartridge.restore(self.database.run(jobs.STORE, job.id)[0][0])
        own = cartridge.parts()
        return Cartridge.from_parts(Parts(own.state, own.ram, other.parts().store))

    def taken_apart(self, job):
        """Marks the job as taken in a transaction of its own: what loses a job with its worker."""
        self.database.run("UPDATE gulxinett_job SET status = 'taken' WHERE id = ?", job.id)
        self.database.commit()
        self.database.begin()


def overwritten(cartridge, address, bits):
    """Writes a byte of the album or of the picture with some of its bits changed."""
    cartridge.write(SELECT, 0)
    cartridge.write(0x0000, 0x0A)
    cartridge.write(address, cartridge.read(address) ^ bits)


def start(cartridge, specimen):
    """Lends a specimen and writes its registers, the trigger last: a start, or where a capture is held a resume."""
    cartridge.lend_photo(specimen.photograph)
    cartridge.write(SELECT, REGISTERS_SHOWN)
    cartridge.choose(
        light=specimen.light, level=specimen.level, dithering=not specimen.plain, exposure=specimen.exposure
    )
    cartridge.write(TRIGGER + 1, specimen.a001)
    cartridge.write(TRIGGER + 4, specimen.a004)
    cartridge.write(TRIGGER, specimen.a000 | 1)


def outside(first, save):
    """How many bytes of the RAM outside the picture area differ between two saves."""
    if len(first) != len(save):
        return max(len(first), len(save))
    count = 0
    area, end = SAVE_RAM_OFFSET + PICTURE_OFFSET, len(save) - (SAVE_BYTES - SAVE_RAM_OFFSET)
    for start, stop in ((SAVE_RAM_OFFSET, area), (area + PICTURE_BYTES, end)):
        one, other = first[start:stop], save[start:stop]
        count += sum(a != b for a, b in zip(one, other)) if one != other else 0
    return count


def why(refusal, job):
    """Why a job is set aside, in a sentence."""
    try:
        Cartridge.restore(job.save).close()
    except Refusal as of_save:
        reason = "the save is refused as %d: %d bytes that are not a whole save" % (of_save.number, len(job.save))
        layout = job.save[SAVE_LAYOUT_OFFSET : SAVE_LAYOUT_OFFSET + 1]
        if layout and layout[0] != LAYOUT:
            reason += "; its byte 7 says layout %d, and this worker reads layout %d" % (layout[0], LAYOUT)
        return reason
    return "a call is refused as %d: %s" % (refusal.number, refusal)


def main(kind, words):
    """Reads the words of a worker, or of another kind of it, and has it work."""
    options = {"--die": "", "--break": ""}
    while len(words) > 2 and words[-2] in options:
        options[words[-2]] = words[-1]
        words = words[:-2]
    if len(words) != 2:
        sys.exit(sys.modules["__main__"].__doc__)
    kind(words[0], int(words[1]), options["--die"], options["--break"]).work()


if __name__ == "__main__":
    main(Worker, sys.argv[1:])
