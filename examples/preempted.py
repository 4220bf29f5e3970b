"""A capture that is stopped half way, put in a file, and finished by another process.

python3 preempted.py begin FILE   starts a capture, ticks half of it, stops it and saves everything
python3 preempted.py finish FILE  loads it, lends another image, changes the registers and resumes

The finished picture must be the one of the first image under the first registers.
"""

import sys
from pathlib import Path

sys.path.insert(0, str(Path(__file__).resolve().parents[1] / "bindings" / "python"))
from gulxinett import PICTURE_BYTES, RAM_BANK, REGISTERS, Cartridge, Refusal, picture, write_whole

TRIGGER = 0xA000
TOTAL = 45_246
HALF = TOTAL // 2

# The first scene: rings of light around a corner. The second: stripes.
FIRST_IMAGE = bytes((x * x + y * y) // 40 % 256 for y in range(128) for x in range(128))
SECOND_IMAGE = bytes(255 if x // 8 % 2 else 0 for y in range(128) for x in range(128))

# Horizontal enhancement at 75 per cent, exposure 0300h, a rising matrix.
FIRST_REGISTERS = bytes([3, 0x20, 0x03, 0, 0x10, 0]) + bytes(
    0x88 + 3 * element + 0x18 * level for element in range(16) for level in range(3)
)
SECOND_REGISTERS = bytes([7]) + b"\x55" * (REGISTERS - 1)


class Failure(Exception):
    """Something is not as it must be."""


def ensure(holds, otherwise):
    if not holds:
        raise Failure(otherwise)


def write_registers(cartridge, registers):
    """Writes registers 1 to 53, then register 0."""
    for number in range(1, REGISTERS):
        cartridge.write(TRIGGER + number, registers[number])
    cartridge.write(TRIGGER, registers[0])


def begin(path):
    cartridge = Cartridge(ram=bytes(RAM_BANK))
    cartridge.lend(FIRST_IMAGE)
    cartridge.write(0x4000, 0x10)
    write_registers(cartridge, FIRST_REGISTERS)
    ensure(cartridge.tick(HALF) == HALF, "the capture did not run half way")
    cartridge.write(TRIGGER, FIRST_REGISTERS[0] & 6)
    ensure(cartridge.tick(1_000_000) == 0, "a stopped capture ran on")
    write_whole(path, cartridge.save())
    print("begin: a capture ran %d of %d cycles and was stopped" % (HALF, TOTAL))
    print("begin: state, RAM and frame store saved")


def finish(path):
    cartridge = Cartridge.restore(Path(path).read_bytes())
    wanted = picture(FIRST_IMAGE, FIRST_REGISTERS)
    ensure(cartridge.area() != wanted, "the picture was whole before the capture ended")
    cartridge.lend(SECOND_IMAGE)
    write_registers(cartridge, SECOND_REGISTERS)
    print("finish: resumed with another image and other registers")
    cycles = cartridge.tick(0xFFFF_FFFF)
    print("finish: the capture ended after %d more cycles" % cycles)
    ensure(cycles == TOTAL - HALF, "that is not the rest of the capture")
    ensure(cartridge.area() == wanted, "the picture is not that of the first image under the first registers")
    unwanted = picture(SECOND_IMAGE, SECOND_REGISTERS)
    ensure(cartridge.area() != unwanted, "the picture is that of the second image")
    print("finish: all %d bytes are those of the first image under the first registers" % PICTURE_BYTES)


def main(words):
    steps = {"begin": begin, "finish": finish}
    if len(words) != 2 or words[0] not in steps:
        print("usage: preempted.py begin FILE | preempted.py finish FILE", file=sys.stderr)
        sys.exit(2)
    try:
        steps[words[0]](words[1])
    except (Failure, OSError, Refusal) as reason:
        sys.exit("preempted.py: %s" % reason)


if __name__ == "__main__":
    main(sys.argv[1:])
