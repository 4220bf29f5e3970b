"""Draws the two specimens of tests/data/incident, and writes the registers and what two workers recorded of one capture.

usage: python3 incident.py FOLDER

Each specimen has four lights that are far from the three thresholds, after the camera's arithmetic and after mGBA's: so both give every
pixel the same shade. The first worker starts a capture of the stag beetle and is preempted when it is half done; the second lends the
ladybird and lets it run to its end.
"""

import os
import sys

SIDE = 128
BLACK, DARK, LIGHT, WHITE = 24, 104, 152, 232
THRESHOLDS = bytes([88, 128, 168])
EXPOSURE = 0x0100
POSITIVE_START = 3
# 54 bytes: the positive image, no gain, the exposure, no edges, and the same thresholds sixteen times
REGISTERS = bytes([POSITIVE_START, 0]) + EXPOSURE.to_bytes(2, "big") + bytes(2) + 16 * THRESHOLDS
# the cycles of the whole, and those after which the upper 56 of the picture's 112 rows are there: the sensor's rows 0 to 63
TOTAL = 32_958 + 16 * EXPOSURE
HALF = 2 * (92 + 8 * EXPOSURE + 64 * SIDE)


class Drawing:
    """A frame of light, drawn in whole numbers."""

    def __init__(self, paper):
        self.rows = [bytearray([paper] * SIDE) for _ in range(SIDE)]

    def dot(self, x, y, light):
        if 0 <= x < SIDE and 0 <= y < SIDE:
            self.rows[y][x] = light

    def ellipse(self, x, y, wide, high, light):
        """Filled, by its middle and half its width and height."""
        for v in range(-high, high + 1):
            for u in range(-wide, wide + 1):
                if (u * high) ** 2 + (v * wide) ** 2 <= (wide * high) ** 2:
                    self.dot(x + u, y + v, light)

    def line(self, points, thick, light):
        """From point to point, as thick as a dot of that half width."""
        for (x, y), (to_x, to_y) in zip(points, points[1:]):
            steps = max(abs(to_x - x), abs(to_y - y))
            for step in range(steps + 1):
                self.ellipse(x + (to_x - x) * step // steps, y + (to_y - y) * step // steps, thick, thick, light)

    def twice(self, points, thick, light):
        """A line on the right side and its like on the left."""
        self.line(points, thick, light)
        self.line([(SIDE - 1 - x, y) for x, y in points], thick, light)

    def file(self):
        return b"P5\n128 128\n255\n" + b"".join(self.rows)


def stag():
    """A stag beetle on white paper, with a scale beside it."""
    drawing = Drawing(WHITE)
    for y in range(12, 117, 4):
        drawing.line([(4, y), (12 if y % 20 == 12 else 8, y)], 0, BLACK)
    for leg in ([(74, 52), (92, 44), (104, 32)], [(78, 70), (98, 70), (112, 80)], [(76, 92), (94, 102), (102, 117)]):
        drawing.twice(leg, 1, BLACK)
    drawing.twice([(72, 38), (84, 28), (82, 17), (72, 12)], 2, DARK)
    drawing.twice([(84, 27), (76, 23)], 1, DARK)
    drawing.twice([(76, 42), (94, 36), (100, 26)], 0, BLACK)
    drawing.ellipse(63, 86, 23, 32, BLACK)
    drawing.ellipse(64, 86, 23, 32, BLACK)
    drawing.ellipse(57, 82, 4, 22, DARK)
    drawing.ellipse(70, 82, 4, 22, DARK)
    drawing.line([(63, 58), (63, 117)], 0, LIGHT)
    drawing.ellipse(63, 56, 20, 10, BLACK)
    drawing.ellipse(64, 56, 20, 10, BLACK)
    drawing.ellipse(63, 54, 12, 4, DARK)
    drawing.ellipse(63, 41, 14, 8, BLACK)
    drawing.ellipse(64, 41, 14, 8, BLACK)
    drawing.twice([(74, 40), (75, 40)], 1, WHITE)
    return drawing.file()


def ladybird():
    """A seven-spot ladybird on grey paper, with a pin through it and its shadow."""
    drawing = Drawing(LIGHT)
    drawing.ellipse(70, 78, 44, 40, DARK)
    for leg in ([(88, 48), (106, 38), (116, 40)], [(98, 70), (116, 66), (124, 72)], [(94, 94), (110, 104), (118, 114)]):
        drawing.twice(leg, 1, BLACK)
    drawing.twice([(70, 26), (80, 14), (88, 12)], 1, BLACK)
    drawing.ellipse(63, 32, 20, 12, BLACK)
    drawing.ellipse(64, 32, 20, 12, BLACK)
    drawing.twice([(74, 29), (76, 30)], 3, WHITE)
    drawing.ellipse(63, 74, 42, 42, BLACK)
    drawing.ellipse(64, 74, 42, 42, BLACK)
    drawing.ellipse(63, 74, 40, 40, WHITE)
    drawing.ellipse(64, 74, 40, 40, WHITE)
    drawing.line([(63, 36), (63, 114)], 0, BLACK)
    drawing.line([(64, 36), (64, 114)], 0, BLACK)
    drawing.ellipse(63, 44, 9, 7, BLACK)
    drawing.ellipse(64, 44, 9, 7, BLACK)
    for x, y, size in ((84, 56, 7), (88, 80, 8), (76, 100, 6)):
        drawing.ellipse(x, y, size, size, BLACK)
        drawing.ellipse(SIDE - 1 - x, y, size, size, BLACK)
    drawing.line([(70, 68), (92, 34)], 0, DARK)
    drawing.ellipse(93, 33, 3, 3, DARK)
    return drawing.file()


def write(address, value):
    return f"02{address:04X}{value:02X}\n"


def lent(frame):
    """The rows of a frame, lent."""
    light = frame[-SIDE * SIDE :]
    return "".join(f"04{row:02X}{light[SIDE * row :][:SIDE].hex().upper()}\n" for row in range(SIDE))


def begun(frame):
    """What the first worker recorded: a capture that is stopped half way."""
    registers = "".join(write(0xA000 + number, REGISTERS[number]) for number in range(1, 54))
    start = write(0xA000, POSITIVE_START)
    return "00\n" + lent(frame) + write(0x4000, 0x10) + registers + start + f"03{HALF:08X}\n" + write(0xA000, 2)


def finished(frame):
    """What the second worker recorded: another frame lent, and the capture let run."""
    return lent(frame) + write(0xA000, POSITIVE_START) + f"03{TOTAL - HALF:08X}\n" + write(0x4000, 0)


def main():
    if len(sys.argv) != 2:
        sys.exit("usage: python3 incident.py FOLDER")
    frames = {"stag": stag(), "ladybird": ladybird()}
    files = {f"{name}.pgm": frame for name, frame in frames.items()}
    files["registers.hex"] = (REGISTERS.hex().upper() + "\n").encode()
    files["worker-1.script"] = begun(frames["stag"]).encode()
    files["worker-2.script"] = finished(frames["ladybird"]).encode()
    for name, file in files.items():
        with open(os.path.join(sys.argv[1], name), "wb") as out:
            out.write(file)


main()
