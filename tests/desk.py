"""What choices write, held to document 001's text, and the choices of examples/desk.json, which are the crate's, by their names.

usage: python3 desk.py BUS; BUS is the program that plays recordings
"""

import json
import re
import subprocess
import sys
from pathlib import Path

from gulxinett import FRAME_BYTES, PICTURE_BYTES, Cartridge, picture

ROOT = Path(__file__).resolve().parents[1]
TRIGGER, AREA = 0xA000, 0xA100
UNNAMED = b"\x10\x00"
IMAGE = bytes((3 * (i & 127) + 5 * (i >> 7)) & 255 for i in range(FRAME_BYTES))


def ensure(holds, why):
    if not holds:
        sys.exit("desk: FAILED: " + why)


def printed():
    """The printed matrices in their order, level by level and of each the high light one first: rows of twelve numbers."""
    words = (line.split() for line in Path(ROOT, "second/data/001-2.2.6.txt").read_text(encoding="utf-8").splitlines())
    rows = [row for row in words if len(row) == 12 and all(len(word) == 2 and set(word) <= set("0123456789ABCDEF") for word in row)]
    numbers = bytes(int(word, 16) for row in rows for word in row)
    ensure(len(numbers) == 1536, "document 001's text has %d numbers" % len(numbers))
    return [numbers[place : place + 48] for place in range(0, 1536, 48)]


def chosen(matrix, dithering):
    return matrix if dithering else matrix[:3] * 16


def registers_of(cartridge):
    return cartridge.parts().state[13:67]


def every_choice(matrices):
    """All light sets and levels, with and without dithering, on a cartridge whose other registers are not 0."""
    cartridge = Cartridge()
    cartridge.write(0x4000, 0x10)
    for n in range(1, 6):
        cartridge.write(TRIGGER + n, 0x11 * n)
    tried = 0
    for number, matrix in enumerate(matrices):
        level, light = divmod(number, 2)
        for dithering in (True, False):
            for exposure, steps in ((None, UNNAMED), (0xABCD, b"\xab\xcd")):
                cartridge.choose(light=light, level=level, dithering=dithering, exposure=exposure)
                due = b"\x00\x11" + steps + b"\x44\x55" + chosen(matrix, dithering)
                ensure(registers_of(cartridge) == due, "light set %d, level %d is another matrix than the printed one" % (light, level))
                ensure(cartridge.inspect() is None, "light set %d, level %d has a reversed element" % (light, level))
                tried += 1
    print("desk: %d choices write what document 001 prints for their level" % tried)


def photographed(choice):
    """A capture under a choice, recorded, and read out by calls at the end: its plate and the script."""
    cartridge = Cartridge()
    cartridge.record()
    cartridge.lend(IMAGE)
    cartridge.choose(**choice)
    registers = registers_of(cartridge)
    cartridge.write(0x4000, 0x10)
    cartridge.write(TRIGGER, 3)
    cartridge.tick(0xFFFF_FFFF)
    cartridge.write(0x4000, 0)
    area = bytes(cartridge.read(AREA + place) for place in range(PICTURE_BYTES))
    ensure(area == cartridge.area() == picture(IMAGE, b"\x03" + registers[1:]), "the plate is not the picture under the choice")
    return registers, area, cartridge.recording()


def defined():
    """The choices as the crate defines them: the exposure of bright tables, and of each choice a line that names it, and its level and
    whether it is plain below."""
    text = Path(ROOT, "crates/desk/specs/Stored.antt").read_text(encoding="utf-8")
    steps = [int(named, 16) for named in re.findall(r"exposure = Some 0x([0-9A-F]+) }", text)]
    ensure(len(steps) == 1, "bright tables name %d exposures" % len(steps))
    found = re.findall(r"^-- (.*, bright table):.*\n.*\n\w+ = bright_table (\d+) (true|false)$", text, re.MULTILINE)
    return {name: {"light": 0, "level": int(level), "dithering": plain == "false", "exposure": steps[0]} for name, level, plain in found}


def by_name(matrices, bus):
    plates = set()
    choices = json.loads(Path(ROOT, "examples/desk.json").read_text(encoding="utf-8"))
    ensure(choices == defined(), "examples/desk.json has other choices than crates/desk defines")
    for name, choice in choices.items():
        registers, area, script = photographed(choice)
        matrix = chosen(matrices[2 * choice["level"] + choice["light"]], choice["dithering"])
        steps = choice["exposure"].to_bytes(2, "big")
        ensure(registers == b"\0\0" + steps + b"\0\0" + matrix, "%s writes other registers than its choice" % name)
        answers = subprocess.run([bus], input=script, stdout=subprocess.PIPE, check=True).stdout.split()
        ensure(answers[-PICTURE_BYTES:] == [b"00%02X" % byte for byte in area], "%s is another plate when its recording is played" % name)
        print("desk: %s: %s" % (name, ", ".join("%d pixels of shade %d" % (count, shade) for shade, count in enumerate(shades(area)))))
        plates.add(area)
    ensure(len(plates) == 3, "there are not three names, or two of them give one plate")


def shades(area):
    """How many pixels of each shade a picture area has."""
    counts = [0] * 4
    for low, high in zip(area[::2], area[1::2]):
        for bit in range(8):
            counts[(low >> bit & 1) + 2 * (high >> bit & 1)] += 1
    return counts


def main(words):
    if len(words) != 1:
        print("usage: python3 desk.py BUS", file=sys.stderr)
        sys.exit(2)
    matrices = printed()
    every_choice(matrices)
    by_name(matrices, words[0])


main(sys.argv[1:])
