"""A worker of a job: random calls on a recorded cartridge, the same ones in every language for the same seed.

usage: python3 session.py SAVE OUT SEED STEPS [plate]; session.mjs has what the words mean
"""

import sys
from pathlib import Path

sys.path.insert(0, str(Path(__file__).resolve().parents[1] / "bindings" / "python"))
from gulxinett import FRAME_BYTES, PICTURE_BYTES, PLATE_BYTES, REGISTERS, Cartridge, Refusal, write_whole

TRIGGER = 0xA000
AREA = 0xA100
PLATE_HEADER = b"P5\n128 112\n255\n"
# a choice amounts to select, 2 registers of the exposure, 48 of the matrix, and select
CHOICE_WRITES = 52
# a placing amounts to RAM writing, select, the bytes of the area, select, and RAM writing
PLACE_WRITES = 3588


class Session:
    def __init__(self, cartridge, seed):
        self.cartridge = cartridge
        self.state = seed & 0xFFFF_FFFF
        self.image = bytearray(FRAME_BYTES)
        self.answers = []
        cartridge.record()

    def below(self, limit):
        """A number below a limit."""
        self.state = (self.state * 1664525 + 1013904223) & 0xFFFF_FFFF
        return (self.state >> 8) * limit >> 24

    def call(self, digits, work, *words):
        """Makes a call and notes what `bus` would answer."""
        try:
            value = work(*words)
            self.answers.append("00" + ("%0*X" % (digits, value) if digits else ""))
        except Refusal as refusal:
            self.answers.append("%02X" % refusal.number)

    def read(self, address):
        self.call(2, self.cartridge.read, address)

    def write(self, address, value):
        self.call(0, self.cartridge.write, address, value)

    def tick(self, cycles):
        self.call(8, self.cartridge.tick, cycles)

    def step(self):
        kind = self.below(100)
        if kind < 1:
            self.call(0, self.cartridge.reset)
        elif kind < 5:
            self.lend()
        elif kind < 8:
            self.capture()
        elif kind < 10:
            self.choose()
        elif kind < 40:
            self.read(self.address())
        elif kind < 55:
            self.write(self.address(), self.below(256))
        elif kind < 60:
            self.write(0, (0, 0x0A)[self.below(2)])
        elif kind < 65:
            self.write(0x4000, (0, 0x10)[self.below(2)])
        elif kind < 70:
            self.write(TRIGGER, self.below(8))
        elif kind < 95:
            self.tick(self.cycles())
        elif kind < 99:
            self.look()
        else:
            self.place()

    def address(self):
        kind = self.below(4)
        if kind == 0:
            return self.below(65536)
        return TRIGGER + self.below(128) if kind == 1 else AREA + self.below(PICTURE_BYTES)

    def cycles(self):
        if self.below(4) > 0:
            return self.below(20_000)
        high = self.below(65536)
        return high * 65536 + self.below(65536)

    def lend(self):
        """The same image again, one with a few other rows, or quite another."""
        kind = self.below(3)
        light, slope = self.below(256), self.below(256)
        rows = 0 if kind == 0 else 1 + self.below(5) if kind == 1 else 128
        first = self.below(129 - rows)
        for place in range(128 * first, 128 * (first + rows)):
            self.image[place] = (light + slope * place + 7 * (place >> 7)) & 255
        self.cartridge.lend(self.image)

    def capture(self):
        """Stops what runs, writes the registers, and starts."""
        self.write(0x4000, 0x10)
        self.write(TRIGGER, 0)
        for n in reversed(range(1, REGISTERS)):
            self.write(TRIGGER + n, self.below(4 if n == 2 else 256))
        self.write(TRIGGER, 1 + 2 * self.below(4))

    def choose(self):
        """A choice, which may be none: it has no line of its own, and one that is refused has none at all."""
        light, level, dithering = self.below(3), self.below(17), self.below(2) == 0
        exposure = None if self.below(3) == 0 else self.below(65536)
        try:
            self.cartridge.choose(light=light, level=level, dithering=dithering, exposure=exposure)
        except Refusal as refusal:
            if refusal.number != 9:
                raise
            return
        self.answers += ["00"] * CHOICE_WRITES

    def place(self):
        """A plate, which may be none, placed: like a choice it has no line of its own."""
        light, slope, strange = self.below(256), self.below(256), self.below(4) == 0
        pixels = bytearray(
            (255, 170, 85, 0)[(light + slope * place + 7 * (place >> 7)) >> 6 & 3] for place in range(PLATE_BYTES - len(PLATE_HEADER))
        )
        if strange:
            pixels[self.below(len(pixels))] = 1
        try:
            self.cartridge.place(PLATE_HEADER + pixels)
        except Refusal as refusal:
            if refusal.number not in (8, 10):
                raise
            return
        self.answers += ["00"] * PLACE_WRITES

    def look(self):
        """What only looks is no call of a script."""
        self.cartridge.inspect()
        self.cartridge.picture()
        self.cartridge.area()
        self.cartridge.plate()
        self.cartridge.shades()
        self.cartridge.save()
        try:
            self.cartridge.readings()
        except Refusal as refusal:
            if refusal.number != 11:
                raise

    def read_out(self):
        """Stops what runs and reads the plate by calls."""
        self.write(0x4000, 0x10)
        self.write(TRIGGER, 0)
        self.write(0x4000, 0)
        before = len(self.answers)
        for place in range(PICTURE_BYTES):
            self.read(AREA + place)
        if self.answers[before:] != ["00%02X" % byte for byte in self.cartridge.area()]:
            sys.exit("session.py: the bytes read are not the plate")


def main(save, out, seed, steps, plate=None):
    save = Path(save)
    session = Session(Cartridge.restore(save.read_bytes()) if save.exists() else Cartridge(), int(seed))
    for _ in range(int(steps)):
        session.step()
    if plate:
        session.read_out()
    write_whole(save, session.cartridge.save())
    Path(out + ".script").write_bytes(session.cartridge.recording())
    Path(out + ".answers").write_text("".join(answer + "\n" for answer in session.answers))


if __name__ == "__main__":
    if not 4 <= len(sys.argv[1:]) <= 5:
        print("usage: python3 session.py SAVE OUT SEED STEPS [plate]", file=sys.stderr)
        sys.exit(2)
    main(*sys.argv[1:])
