"""The command `gulxinett` beside the Python binding: what each of its commands writes, says and ends with, and what is left in the folder.

usage: python3 cli.py GULXINETT BUS; GULXINETT is the command, BUS the program that plays scripts
"""

import os
import pty
import re
import resource
import signal
import stat
import subprocess
import sys
import tempfile
import time
import unittest
from pathlib import Path

from gulxinett import FRAME_BYTES, PICTURE_OFFSET, RAM_BANK, REGISTERS, Audit, Cartridge, picture, salvage

ROOT = Path(__file__).resolve().parents[1]
COMMAND, BUS = Path(sys.argv[1]).resolve(), Path(sys.argv[2]).resolve()
COMMANDS = ("play", "audit", "judge", "salvage", "picture", "plate", "place", "photo", "inspect")

# What each refusal says, as the bindings have it.
REFUSED_RAM = "the RAM length is not allowed"
REFUSED_FILE = "the file is not one that can be read"
REFUSED_CHOICE = "the light set is above 1 or the level above 15"
REFUSED_HELD = "a capture is held, running or stopped"
REFUSED_SCRIPT = "the script is over 32,768 bytes"

REGISTERS_TAKEN = bytes([3, 0x20, 3, 0, 0x10, 0]) + bytes(0x80 + n + 0x18 * (n % 3) for n in range(6, REGISTERS))


def frame(number):
    """A frame of its own for each number."""
    return bytes(((i % 128) * (number + 1) + (i >> 7) * (3 * number + 2)) // 2 & 255 for i in range(FRAME_BYTES))


def chosen(**words):
    """The registers that a choice gives from reset on, with the start as the camera's own program makes it."""
    cartridge = Cartridge()
    cartridge.choose(**words)
    return b"\3" + cartridge.parts().state[14:67]


def plate_of(area):
    """The plate of a picture area."""
    ram = bytes(PICTURE_OFFSET) + area + bytes(RAM_BANK - PICTURE_OFFSET - len(area))
    return Cartridge.from_battery(ram).plate()


def begun(number, registers=REGISTERS_TAKEN, banks=1):
    """A cartridge with a capture of a frame begun."""
    cartridge = Cartridge(ram=bytes(i * 7 % 251 for i in range(banks * RAM_BANK)))
    cartridge.lend(frame(number))
    cartridge.write(0x4000, 0x10)
    for n in reversed(range(REGISTERS)):
        cartridge.write(0xA000 + n, registers[n])
    return cartridge


def ended(number, registers=REGISTERS_TAKEN, banks=1):
    """A cartridge with a capture of a frame ended."""
    cartridge = begun(number, registers, banks)
    cartridge.tick(0xFFFFFFFF)
    return cartridge


def photograph(light):
    """A colour photograph whose light this is."""
    return b"P6\n# a scan\n128 128\n255\n" + b"".join(bytes([value] * 3) for value in light)


class Folder(unittest.TestCase):
    """Each test has a folder of its own, which is looked at in the end."""

    def setUp(self):
        folder = tempfile.TemporaryDirectory()
        self.addCleanup(folder.cleanup)
        self.folder = Path(folder.name)
        self.given = set()

    def put(self, name, data):
        """A file that is there before."""
        self.given.add(name)
        (self.folder / name).write_bytes(data)
        return name

    def run_it(self, *words, stdin=b"", **more):
        """Calls the command in the folder; status, output and what it said."""
        done = subprocess.run([COMMAND, *words], cwd=self.folder, input=stdin, capture_output=True, timeout=120, **more)
        return done.returncode, done.stdout, done.stderr.decode()

    def gives(self, due, *words, stdin=b"", said=""):
        """The command must write these bytes to standard output, and to a file that is named."""
        self.assertEqual(self.run_it(*words, stdin=stdin), (0, due, said), words)
        for output in (["-o", "made"], ["--output", "made"], ["--output=made"]):
            self.assertEqual(self.run_it(*words, *output, stdin=stdin), (0, b"", said), words)
            self.assertEqual((self.folder / "made").read_bytes(), due, words)
            (self.folder / "made").unlink()
        self.nothing_left()

    def fails(self, status, name, sentence, *words, stdin=b"", **more):
        """The command must end with a status and one sentence that names a file, and write nothing."""
        ended, output, said = self.run_it(*words, stdin=stdin, **more)
        self.assertEqual((ended, output), (status, b""), (words, said))
        self.assertRegex(said, r"\Agulxinett \w+: " + re.escape(name) + r"\b.*" + re.escape(sentence), words)
        self.assertEqual(said.count("\n"), 1, said)
        self.nothing_left()

    def wrong(self, sentence, *words):
        """The words must be refused with status 2 and a hint."""
        ended, output, said = self.run_it(*words)
        self.assertEqual((ended, output), (2, b""), (words, said))
        self.assertIn(sentence, said, words)
        self.assertIn("--help", said, words)
        self.nothing_left()

    def nothing_left(self):
        self.assertEqual({path.name for path in self.folder.iterdir()}, self.given)


class Help(Folder):
    def test_every_command(self):
        status, general, said = self.run_it("--help")
        self.assertEqual((status, said), (0, ""))
        for words in (["help"], ["-h"]):
            self.assertEqual(self.run_it(*words), (0, general, ""))
        self.assertEqual(re.findall(rb"^  (\w+) +\S", general.split(b"example")[0], re.M), [name.encode() for name in COMMANDS])
        for name in COMMANDS:
            status, text, said = self.run_it(name, "--help")
            self.assertEqual((status, said), (0, ""), name)
            for words in (["help", name], [name, "-h"], [name, "--none", "-h"][:1] + ["-h", "--none"]):
                self.assertEqual(self.run_it(*words), (0, text, ""), words)
            self.assertTrue(text.startswith(b"usage: gulxinett %s " % name.encode()), text)
            self.assertIn(b"\nExit status: 0 ", text)
            self.assertRegex(text, rb"\nexample:\n.*gulxinett %s " % name.encode())
            self.assertTrue(all(len(line) <= 118 for line in text.splitlines()), name)
        self.assertRegex(self.run_it("--version")[1], rb"\Agulxinett \d+\.\d+\.\d+\n\Z")

    def test_words_that_are_none(self):
        for words in ([], ["nothing"], ["help", "nothing"], ["help", "plate", "place"], ["--plate"]):
            status, output, said = self.run_it(*words)
            self.assertEqual((status, output), (2, b""), words)
            self.assertTrue(said.startswith("gulxinett: "), said)
        for name in COMMANDS:
            self.wrong("there is no option '--nothing' here", name, "--nothing", "1")
            self.wrong("there is no option '-x' here", name, "-x")
        self.wrong("--output needs a value", "plate", "--output")
        self.wrong("--output is given twice", "plate", "-o", "one", "--output=two")
        for name in ("play", "plate", "photo", "salvage", "inspect"):
            self.wrong("one file is read here, and 'two' is one too many", name, "one", "two")
        self.wrong("--save must name the save", "place", "plate.pgm")
        self.wrong("only one of the files can be standard input", "place", "--save", "-")
        self.wrong("--registers must name the registers", "picture", "frame")
        self.wrong("a save or --registers is inspected, not both", "inspect", "--registers", "level=7", "save")
        self.wrong("only one of the files can be standard input", "audit", "--save", "-")
        self.wrong("only one of the files can be standard input", "audit", "-", "script", "-")
        self.wrong("--plate must name the plate", "judge", "frame")
        self.wrong("at least one frame must be named", "judge", "--plate", "plate.pgm")
        self.wrong("only one of the files can be standard input", "judge", "--plate", "-", "frame", "-")
        self.wrong("--mark needs a file of its own", "judge", "--plate", "plate.pgm", "frame", "--mark", "-")
        for option in ("--exposures=0100", "--others=r1=E4"):
            self.wrong("are for choices that are tried", "judge", "--plate", "plate.pgm", "--registers", "level=7", option, "frame")
        for word in ("", "x", "0100-", "0200-0100", "0100,,0200", "10000"):
            self.wrong("is no exposure", "judge", "--plate", "plate.pgm", "--exposures", word, "frame")
        self.wrong("--others names registers 0, 1, 4 and 5 alone", "judge", "--plate", "plate.pgm", "--others", "level=3", "frame")
        self.wrong("is no word of a choice", "judge", "--plate", "plate.pgm", "--others", "r2=00", "frame")


class Scripts(Folder):
    """Scripts played and audited."""

    def job(self):
        """The recordings of two workers of one job, the first of which is stopped half way."""
        first = Cartridge()
        first.record()
        first.lend(frame(1))
        first.write(0x4000, 0x10)
        for n in reversed(range(REGISTERS)):
            first.write(0xA000 + n, REGISTERS_TAKEN[n])
        first.tick(20_000)
        first.write(0xA000, 2)
        second = Cartridge.restore(first.save())
        second.record()
        second.lend(frame(2))
        second.write(0xA000, 3)
        second.tick(0xFFFFFFFF)
        return first.recording(), second.recording(), second

    def test_played(self):
        first, second, _ = self.job()
        scripts = [b"", b"\n", b"00", b"00\n", b"\n\n01A000", first + second, (ROOT / "examples/session.script").read_bytes()]
        scripts += [b"0" * length + b"\n01A000\n" for length in (260, 261, 65535, 65536, 200_000)]
        for script in scripts:
            due = subprocess.run([BUS], input=script, capture_output=True, check=True).stdout
            self.put("script", script)
            self.gives(due, "play", "script")
            self.gives(due, "play", stdin=script)
        self.given.discard("script")
        (self.folder / "script").unlink()

    def test_played_in_pieces(self):
        player = subprocess.Popen([COMMAND, "play"], stdin=subprocess.PIPE, stdout=subprocess.PIPE)
        for piece, due in ((b"01A000\n", b"00FF\n"), (b"0240", b""), (b"0010\n01A0", b"00\n"), (b"00\n", b"0000\n")):
            player.stdin.write(piece)
            player.stdin.flush()
            # answers don't wait for what comes next
            self.assertEqual(player.stdout.read1(100) if due else b"", due)
        self.assertEqual((player.communicate(b"xx", timeout=60)[0], player.returncode), (b"06\n", 0))

    def test_audited(self):
        script, due = ((ROOT / "crates/audit" / name).read_bytes() for name in ("stdin", "stdout"))
        self.put("script", script)
        self.gives(due, "audit", "script")
        self.gives(due, "audit", stdin=script)
        self.gives(due, "audit", "-", stdin=script)
        audit = Audit()
        self.gives("".join(audit.feed(script * 3) + audit.finish()).encode(), "audit", stdin=script * 3)

    def test_a_job_of_two_workers(self):
        first, second, cartridge = self.job()
        audit = Audit()
        due = "".join(audit.feed(first + second) + audit.finish())
        self.assertIn("event end serial 1 cycles 45246 ", due)
        self.assertIn(" verdict whole\n", due)
        self.assertEqual(cartridge.area(), picture(frame(1), REGISTERS_TAKEN))
        self.put("second", second)
        # with its last LF and without
        for recording in (first, first[:-1]):
            self.put("first", recording)
            self.gives(due.encode(), "audit", "first", "second")
            self.gives(due.encode(), "audit", "-", "second", stdin=recording)

    def test_audited_over_a_battery_save(self):
        script = b"0200000A\n02400003\n02A00701\n02A00802"
        for banks in (1, 2, 4, 8, 16):
            ram = bytes(banks * RAM_BANK)
            audit = Audit(ram)
            due = "".join(audit.feed(script) + audit.finish()).encode()
            self.assertIn(b"event changed bank %d from 0007 to 0008\n" % (3 % banks), due)
            self.put("save", ram)
            self.put("script", script)
            self.gives(due, "audit", "--save", "save", "script")
            self.gives(due, "audit", "--save=-", "script", stdin=ram)
        for name, file in (("empty", b""), ("three", bytes(3 * RAM_BANK)), ("own", Cartridge().save())):
            self.put(name, file)
            self.fails(1, name, REFUSED_RAM, "audit", "--save", name, "script", "-o", "made")


class Judgements(Folder):
    """Plates of one frame, of two, and of none that is named."""

    WORDS = "set=1,level=5,exposure=0100"

    def setUp(self):
        super().setUp()
        self.registers = chosen(light=1, level=5, exposure=0x100)
        self.lights = [frame(number) for number in (1, 2, 3)]
        for number, light in enumerate(self.lights, 1):
            self.put("frame%d" % number, light)
        self.areas = [picture(light, self.registers) for light in self.lights]

    def judged(self, status, lines, *words, **more):
        """The command must say these lines and end with a status."""
        ended, output, said = self.run_it("judge", *words, **more)
        self.assertEqual((ended, output.decode().splitlines(), said), (status, lines, ""), words)
        self.nothing_left()

    def mixed(self, tiles=7):
        """A plate whose first rows of tiles are of the first frame, the others of the second."""
        return self.areas[0][: 256 * tiles] + self.areas[1][256 * tiles :]

    def test_one_frame(self):
        self.put("plate.pgm", plate_of(self.areas[1]))
        lines = ["rows 0 to 111: frame2", "one frame: frame2"]
        for words in (self.WORDS, self.registers.hex()):
            self.judged(0, lines, "--plate", "plate.pgm", "--registers", words, "frame1", "frame2", "frame3")
        self.judged(0, lines, "--plate", "-", "--registers", self.WORDS, "frame2", stdin=plate_of(self.areas[1]))
        self.judged(0, [line.replace("frame2", "standard input") for line in lines], "--plate", "plate.pgm", "--registers", self.WORDS,
                    "frame1", "-", stdin=self.lights[1])

    def test_saves(self):
        for banks in (1, 16):
            cartridge = ended(2, self.registers, banks)
            for file in (cartridge.battery(), cartridge.save()):
                self.put("save", file)
                self.judged(0, ["rows 0 to 111: frame2", "one frame: frame2"], "--plate", "save", "--registers", self.WORDS, "frame1", "frame2")

    def test_kinds_of_frames(self):
        self.put("plate.pgm", plate_of(self.areas[0]))
        for file in (b"P5\n128 128\n255\n" + self.lights[0], photograph(self.lights[0])):
            self.put("frame", file)
            self.judged(0, ["rows 0 to 111: frame", "one frame: frame"], "--plate", "plate.pgm", "--registers", self.WORDS, "frame")

    def test_a_plate_of_two_frames(self):
        for tiles, meet in ((7, 56), (1, 8), (13, 104)):
            self.put("plate.pgm", plate_of(self.mixed(tiles)))
            rows = "rows 0 to %d" % (meet - 1), "rows %d to 111" % meet
            lines = ["%s: frame1" % rows[0], "%s: frame2" % rows[1], "WITHDRAW: %s frame1, %s frame2" % rows]
            for words in (["frame1", "frame2"], ["frame3", "frame2", "frame1"]):
                self.judged(1, lines, "--plate", "plate.pgm", "--registers", self.WORDS, *words)

    def test_rows_that_none_gives(self):
        area = bytearray(self.areas[0])
        # the first bytes of rows 3, 110 and 111
        for place in (2 * 3, 256 * 13 + 2 * 6, 256 * 13 + 2 * 7):
            area[place] ^= 0x80
        self.put("plate.pgm", plate_of(bytes(area)))
        none = "none of these frames"
        lines = ["rows 0 to 2: frame1", "row 3: " + none, "rows 4 to 109: frame1", "rows 110 to 111: " + none]
        lines.append("WITHDRAW: " + ", ".join(line.replace(":", "", 1) for line in lines))
        self.judged(1, lines, "--plate", "plate.pgm", "--registers", self.WORDS, "frame1", "frame2")
        self.judged(1, ["rows 0 to 111: " + none, "WITHDRAW: rows 0 to 111 " + none], "--plate", "plate.pgm", "--registers", self.WORDS, "frame3")

    def test_rows_that_several_give(self):
        self.put("plate.pgm", plate_of(self.areas[0]))
        # the same light but for its lower half, so that the first rows are the same: the picture's row 0 is the frame's row 8
        self.put("other", self.lights[0][: 128 * 64] + self.lights[1][128 * 64 :])
        status, output, _ = self.run_it("judge", "--plate", "plate.pgm", "--registers", self.WORDS, "other", "frame1")
        self.assertEqual(status, 0)
        self.assertRegex(output, rb"\Arows 0 to 111: frame1 \(given too: other rows 0 to 5\d\)\none frame: frame1\n\Z")
        self.put("copy", self.lights[0])
        lines = ["rows 0 to 111: frame1 (given too: copy rows 0 to 111)", "in doubt: copy gives every row too", "one frame: frame1"]
        self.judged(0, lines, "--plate", "plate.pgm", "--registers", self.WORDS, "frame1", "copy")

    def test_registers_that_are_not_known(self):
        self.put("plate.pgm", plate_of(self.mixed()))
        fit = "set=1,level=5,dither=on,exposure=0100"
        lines = ["1 of 1664 choices fit", "fits: %s: more than one frame" % fit, "judged under " + fit, "rows 0 to 55: frame1",
                 "rows 56 to 111: frame2", "WITHDRAW: rows 0 to 55 frame1, rows 56 to 111 frame2"]
        self.judged(1, lines, "--plate", "plate.pgm", "frame1", "frame2")
        lines[0] = "1 of 1088 choices fit"
        self.judged(1, lines, "--plate", "plate.pgm", "--exposures", "0300,00f1-0100", "frame1", "frame2")
        self.put("plate.pgm", plate_of(self.areas[2]))
        lines = ["1 of 1664 choices fit", "fits: %s: one frame: frame3" % fit, "judged under " + fit, "rows 0 to 111: frame3", "one frame: frame3"]
        self.judged(0, lines, "--plate", "plate.pgm", "frame1", "frame3")
        # an exposure that is not tried
        status, output, _ = self.run_it("judge", "--plate", "plate.pgm", "--exposures", "0200", "frame3")
        output = output.decode().splitlines()
        self.assertEqual((status, output[0]), (1, "0 of 64 choices fit"))
        self.assertRegex(output[1], r"\Abest: set=.*,exposure=0200 gives \d+ of 112 rows; under registers that were not tried it may be otherwise\Z")
        self.assertTrue(output[-1].startswith("WITHDRAW: "))

    def test_registers_that_the_desk_leaves_alone(self):
        registers = bytearray(self.registers)
        registers[1], registers[4] = 0xE4, 0x27
        self.put("plate.pgm", plate_of(picture(self.lights[0], registers)))
        fit = "set=1,level=5,dither=on,exposure=0100,r1=E4,r4=27"
        lines = ["1 of 1664 choices fit", "fits: %s: one frame: frame1" % fit, "judged under " + fit, "rows 0 to 111: frame1", "one frame: frame1"]
        self.judged(0, lines, "--plate", "plate.pgm", "--others", "r4=27,r1=E4", "frame1", "frame2")

    def test_a_plate_that_any_frame_gives(self):
        self.put("white.pgm", plate_of(bytes(3584)))
        status, output, _ = self.run_it("judge", "--plate", "white.pgm", "frame1", "frame2")
        output = output.decode().splitlines()
        self.assertEqual((status, output[-1], output[-2]), (0, "one frame: frame1", "in doubt: frame2 gives every row too"))
        self.assertEqual(len([line for line in output if line.startswith("fits: ")]), 11)
        self.assertRegex(output[11], r"\Afits: \d+ more\Z")

    def test_marked(self):
        area = bytearray(self.mixed())
        area[0] ^= 0x80
        plate = plate_of(bytes(area))
        self.put("plate.pgm", plate)
        words = ["--plate", "plate.pgm", "--registers", self.WORDS, "frame1", "frame2"]
        status, output, said = self.run_it("judge", *words, "--mark", "marked.ppm")
        self.assertEqual((status, said), (1, ""))
        self.assertIn(b"\nmarked in marked.ppm: frame1 orange, frame2 sky blue; red: none\nWITHDRAW: row 0 none of these frames, rows 1 to 55 frame1", output)
        file = (self.folder / "marked.ppm").read_bytes()
        (self.folder / "marked.ppm").unlink()
        self.nothing_left()
        wide = 128 + 4 + 2 * 12
        header = b"P6\n%d 112\n255\n" % wide
        self.assertEqual((file[: len(header)], len(file)), (header, len(header) + 3 * wide * 112))
        dark, orange, blue = bytes([48] * 3), bytes([230, 159, 0]), bytes([86, 180, 233])
        for y in range(112):
            row = file[len(header) + 3 * wide * y :][: 3 * wide]
            self.assertEqual(row[: 3 * 128], b"".join(bytes([grey] * 3) for grey in plate[15 + 128 * y :][:128]))
            self.assertEqual(row[3 * 128 : 3 * 132], (b"\xff\0\0" if y == 0 else b"\xff\xff\xff") * 4)
            strips = (dark if y == 0 or y > 55 else orange) * 12 + (blue if y > 55 else dark) * 12
            self.assertEqual(row[3 * 132 :], strips, y)
        self.fails(2, "none/marked", "can't be written: No such file or directory", "judge", *words, "--mark", "none/marked")

    def test_refused(self):
        plate, save = plate_of(self.areas[0]), Cartridge().save()
        for name, file in (("empty", b""), ("cut.pgm", plate[:-1]), ("grey.pgm", plate[:15] + b"\1" + plate[16:]), ("frame", self.lights[0][1:]), ("cut", save[:-1])):
            self.put(name, file)
            self.fails(2, name, REFUSED_FILE, "judge", "--plate", name, "--registers", self.WORDS, "frame1")
        self.put("plate.pgm", plate)
        for name in ("empty", "cut.pgm", "frame"):
            self.fails(2, name, REFUSED_FILE, "judge", "--plate", "plate.pgm", "--registers", self.WORDS, "frame1", name)
        self.fails(2, "missing", "can't be read: No such file or directory", "judge", "--plate", "missing", "frame1")
        self.fails(2, "missing", "can't be read: No such file or directory", "judge", "--plate", "plate.pgm", "frame1", "missing")
        self.wrong(REFUSED_CHOICE, "judge", "--plate", "plate.pgm", "--registers", "level=16", "frame1")


class Plates(Folder):
    def test_out_of_saves(self):
        for banks in (1, 2, 4, 8, 16):
            cartridge = ended(banks, banks=banks)
            for file in (cartridge.battery(), cartridge.save()):
                self.put("save", file)
                for words, stdin in ((["save"], b""), (["-"], file), ([], file)):
                    self.gives(cartridge.plate(), "plate", *words, stdin=stdin)
        # after -- a word is a file, whatever it begins with
        self.put("-o", cartridge.save())
        self.assertEqual(self.run_it("plate", "--", "-o"), (0, cartridge.plate(), ""))

    def test_into_saves(self):
        plate = ended(1).plate()
        self.put("plate.pgm", plate)
        for banks in (1, 16):
            cartridge = ended(2, banks=banks)
            kinds = (cartridge.battery(), Cartridge.battery), (cartridge.save(), Cartridge.save)
            cartridge.place(plate)
            for file, kind in kinds:
                self.put("save", file)
                self.gives(kind(cartridge), "place", "--save", "save", "plate.pgm")
                self.gives(kind(cartridge), "place", "--save", "save", stdin=plate)
                self.gives(kind(cartridge), "place", "plate.pgm", "--save=-", stdin=file)
                # into the save itself
                self.assertEqual(self.run_it("place", "--save", "save", "plate.pgm", "-o", "save"), (0, b"", ""))
                self.assertEqual((self.folder / "save").read_bytes(), kind(cartridge))
                self.nothing_left()

    def test_refused(self):
        cartridge = begun(1)
        cartridge.tick(100)
        plate, save, battery = ended(1).plate(), cartridge.save(), cartridge.battery()
        self.put("plate.pgm", plate)
        for name, file, sentence in (
            ("empty", b"", REFUSED_RAM),
            ("short", battery[1:], REFUSED_RAM),
            ("three", battery * 3, REFUSED_RAM),
            ("large", bytes(1_000_000), REFUSED_RAM),
            ("cut", save[:-1], REFUSED_FILE),
            ("longer", save + b"\0", REFUSED_FILE),
            ("changed", save[:200] + bytes([save[200] ^ 1]) + save[201:], REFUSED_FILE),
            ("magic", b"GXSAVE", REFUSED_FILE),
        ):
            self.put(name, file)
            self.fails(1, name, sentence, "plate", name)
            self.fails(1, name, sentence, "inspect", name)
            self.fails(1, name, sentence, "place", "--save", name, "plate.pgm")
            self.fails(1, name, sentence, "place", "--save", name, "plate.pgm", "-o", "made")
            self.fails(1, "standard input", sentence, "plate", stdin=file)
        self.put("held", save)
        self.fails(1, "held", REFUSED_HELD, "place", "--save", "held", "plate.pgm", "-o", "held")
        self.assertEqual((self.folder / "held").read_bytes(), save)
        self.put("battery", battery)
        for name, file in (
            ("none", b""),
            ("cut.pgm", plate[:-1]),
            ("more.pgm", plate + b"\0"),
            ("grey.pgm", plate[:15] + b"\x80" + plate[16:]),
            ("other.pgm", plate.replace(b"P5", b"P6", 1)),
        ):
            self.put(name, file)
            self.fails(1, name, REFUSED_FILE, "place", "--save", "battery", name, "-o", "battery")
            self.assertEqual((self.folder / "battery").read_bytes(), battery)


class Pictures(Folder):
    def test_registers(self):
        light = frame(1)
        self.put("frame", light)
        digits = REGISTERS_TAKEN.hex()
        for words, registers in (
            (digits, REGISTERS_TAKEN),
            (digits.upper(), REGISTERS_TAKEN),
            ("level=7", chosen(light=0, level=7)),
            ("set=1", chosen(light=1, level=7)),
            ("exposure=0300,level=15,set=1,dither=off", chosen(light=1, level=15, dithering=False, exposure=0x300)),
            ("level=0,dither=on,exposure=ff", chosen(light=0, level=0, exposure=0xFF)),
        ):
            self.gives(plate_of(picture(light, registers)), "picture", "--registers", words, "frame")
        registers = bytearray(chosen(light=0, level=7, exposure=0x300))
        registers[0], registers[1], registers[4], registers[5] = 2, 0xE4, 0x27, 0xBF
        words = "exposure=0300,r0=02,r1=E4,r4=27,r5=bf"
        self.gives(plate_of(picture(light, registers)), "picture", "--registers", words, "frame")

    def test_kinds_of_frames(self):
        light = frame(2)
        due = plate_of(picture(light, REGISTERS_TAKEN))
        for file in (light, b"P5\n128 128\n255\n" + light, b"P5 # grey\n128\t128 255 " + light, photograph(light)):
            self.put("frame", file)
            for words, stdin in ((["frame"], b""), (["-"], file), ([], file)):
                self.gives(due, "picture", "--registers", REGISTERS_TAKEN.hex(), *words, stdin=stdin)
        # a frame may begin as a file does
        self.put("frame", b"P5\n128 128\n255\n" + light[15:])
        due = plate_of(picture(b"P5\n128 128\n255\n" + light[15:], REGISTERS_TAKEN))
        self.gives(due, "picture", "--registers", REGISTERS_TAKEN.hex(), "frame")

    def test_refused(self):
        light = frame(3)
        self.put("frame", light)
        for words in ("", "7", "zz" * 54, "00" * 53, "00" * 55, "é" * 54, "level", "level=", "level=+7", "level=256", "light=1", "dither=yes",
                      "exposure=10000", "exposure=", "exposure=+1", "r2=00", "r6=00", "r1=0", "r1=100", "level=7,", "level=7 "):
            self.wrong("'%s'" % words if "=" not in words else "is no word of a choice", "picture", "--registers", words, "frame")
        self.wrong("level is named twice", "picture", "--registers", "level=7,level=7", "frame")
        for words in ("set=2", "level=16", "set=255,level=255"):
            self.wrong(REFUSED_CHOICE, "picture", "--registers", words, "frame")
        for name, file in (
            ("empty", b""),
            ("short", light[1:]),
            ("longer", light + b"\0"),
            ("p5", b"P5\n128 128\n254\n" + light),
            ("p5-only", b"P5"),
            ("p5-size", b"P5\n128 112\n255\n" + light),
            ("p6", b"P6\n128 128\n255\n" + light),
            ("p6-cut", photograph(light)[:-1]),
        ):
            self.put(name, file)
            self.fails(1, name, REFUSED_FILE, "picture", "--registers", "level=7", name)
            self.fails(1, name, REFUSED_FILE, "picture", "--registers", "level=7", name, "-o", "made")


class Photographs(Folder):
    def test_frames(self):
        light = frame(4)
        pixels = bytes(i * 5 + (i >> 9) & 255 for i in range(3 * FRAME_BYTES))
        due = bytes((2 * r + 5 * g + b) // 8 for r, g, b in zip(pixels[::3], pixels[1::3], pixels[2::3]))
        for file, image in ((photograph(light), light), (b"P6 128 128 255\n" + pixels, due)):
            self.put("photo.ppm", file)
            self.gives(image, "photo", "photo.ppm")
            self.gives(image, "photo", stdin=file)

    def test_refused(self):
        for name, file in (("empty", b""), ("grey", b"P5\n128 128\n255\n" + frame(1)), ("frame", frame(1)), ("cut", photograph(frame(1))[:-1])):
            self.put(name, file)
            self.fails(1, name, REFUSED_FILE, "photo", name, "-o", "made")
            self.fails(1, "standard input", REFUSED_FILE, "photo", "-", stdin=file)


class Salvages(Folder):
    def test_scripts(self):
        for script, kept, malformed, repeated in (
            (b"", 0, 0, 0),
            (b"00\n01A000\n0\n00\n01A000", 2, 1, 2),
            (b"xx\n" * 9, 0, 9, 0),
            (b"\n" * 32768, 0, 32768, 0),
        ):
            self.put("script", script)
            said = "gulxinett salvage: %d lines kept, %d malformed, %d repeated\n" % (kept, malformed, repeated)
            self.gives(salvage(script).text, "salvage", "script", said=said)
            self.gives(salvage(script).text, "salvage", stdin=script, said=said)

    def test_refused(self):
        self.put("long", b"00\n" * 11_000)
        self.fails(1, "long", REFUSED_SCRIPT, "salvage", "long", "-o", "made")
        self.fails(1, "standard input", REFUSED_SCRIPT, "salvage", stdin=b"\n" * 32769)


class Inspections(Folder):
    def said(self, *words, stdin=b""):
        status, output, said = self.run_it("inspect", *words, stdin=stdin)
        self.assertEqual((status, said), (0, ""), words)
        return dict(line.split(" ", 1) for line in output.decode().splitlines())

    def test_saves(self):
        self.put("battery", ended(1, banks=16).battery())
        self.assertEqual(self.said("battery"), {"kind": "battery", "banks": "16"})
        cartridge = begun(1, banks=4)
        cartridge.tick(1000)
        due = {
            "kind": "save", "banks": "4", "ram-writing": "off", "rom-bank": "1", "ram-select": "10", "started": "1", "ended": "0",
            "capture": "running after 1000 cycles", "registers": REGISTERS_TAKEN.hex().upper(), "taken": REGISTERS_TAKEN.hex().upper(),
            "matrix": "rises" if cartridge.inspect() is None else "reversed at row %d column %d" % cartridge.inspect(),
        }
        self.assertEqual(self.said(stdin=cartridge.save()), due)
        cartridge.write(0xA000, 2)
        cartridge.write(0xA006, 0xFF)
        registers = (b"\2" + REGISTERS_TAKEN[1:6] + b"\xff" + REGISTERS_TAKEN[7:]).hex().upper()
        due.update(capture="stopped after 1000 cycles", registers=registers, matrix="reversed at row 0 column 0")
        self.assertEqual(self.said("-", stdin=cartridge.save()), due)
        cartridge = ended(1)
        cartridge.write(0x0000, 0x0A)
        self.put("save", cartridge.save())
        said = self.said("save")
        self.assertEqual((said["capture"], said["ended"], said["ram-writing"]), ("none", "1", "on"))
        self.assertNotIn("taken", said)

    def test_registers(self):
        self.assertEqual(self.said("--registers", "level=15"), {"matrix": "rises"})
        reversed_at = "FF" * (6 + 3 * 11) + "010000" + "00" * 12
        self.assertEqual(self.said("--registers", reversed_at), {"matrix": "reversed at row 2 column 3"})
        self.wrong(REFUSED_CHOICE, "inspect", "--registers", "set=9")


class Files(Folder):
    """Files that can't be read or written, and that nothing is left where a run fails."""

    def commands(self):
        """Each command with files that are right, but for where it writes."""
        self.put("save", ended(1).save())
        self.put("plate.pgm", ended(1).plate())
        self.put("frame", frame(1))
        self.put("photo.ppm", photograph(frame(1)))
        self.put("script", b"00\n01A000\n")
        return (
            ["plate", "save"],
            ["place", "--save", "save", "plate.pgm"],
            ["picture", "--registers", "level=7", "frame"],
            ["photo", "photo.ppm"],
            ["salvage", "script"],
            ["play", "script"],
            ["audit", "script"],
        )

    def test_unread(self):
        self.given.add("folder")
        (self.folder / "folder").mkdir()
        for words in (["play"], ["audit"], ["audit", "script"], ["plate"], ["photo"], ["salvage"], ["inspect"], ["picture", "--registers", "level=7"], ["place", "--save", "save"]):
            self.commands()
            self.fails(1, "missing", "can't be read: No such file or directory", *words, "missing")
            self.fails(1, "folder", "can't be read: Is a directory", *words, "folder")
            self.fails(1, "save/below", "can't be read: Not a directory", *words, "save/below")
        self.fails(1, "missing", "can't be read: No such file or directory", "place", "--save", "missing", "plate.pgm", "-o", "made")

    def test_unwritten(self):
        commands = self.commands()
        self.given.add("folder")
        (self.folder / "folder").mkdir()
        for words in commands:
            self.fails(1, "none/made", "can't be written: No such file or directory", *words, "-o", "none/made")
            self.fails(1, "save/made", "can't be written: Not a directory", *words, "-o", "save/made")
            self.fails(1, "folder", "can't be written: ", *words, "-o", "folder")
            self.assertEqual(list((self.folder / "folder").iterdir()), [])
            with open("/dev/full", "wb") as full:
                done = subprocess.run([COMMAND, *words], cwd=self.folder, stdout=full, stderr=subprocess.PIPE, timeout=60)
            self.assertEqual(done.returncode, 1, words)
            self.assertIn(b"standard output can't be written: No space left on device", done.stderr)

    def test_a_disk_that_is_full(self):
        def limited():
            signal.signal(signal.SIGXFSZ, signal.SIG_IGN)
            resource.setrlimit(resource.RLIMIT_FSIZE, (1, 1))

        for words in self.commands():
            for name, before in (("made", None), ("old", b"as it was")):
                if before is not None:
                    self.put(name, before)
                self.fails(1, name, "can't be written: File too large", *words, "-o", name, preexec_fn=limited)
                if before is not None:
                    self.assertEqual((self.folder / name).read_bytes(), before)
            self.given.discard("old")
            (self.folder / "old").unlink()

    def test_what_is_no_file_is_not_replaced(self):
        # all in this folder: a device of the machine would be gone if this failed
        pipe, link = self.folder / "pipe", self.folder / "link"
        os.mkfifo(pipe)
        link.symlink_to("/proc/self/fd/1")
        (self.folder / "nowhere").symlink_to("none")
        self.given |= {"pipe", "link", "nowhere"}
        for words in self.commands():
            due = self.run_it(*words)[1]
            self.assertEqual(self.run_it(*words, "-o", "link")[:2], (0, due), words)
            self.assertTrue(link.is_symlink())
            self.fails(1, "nowhere", "can't be written: No such file or directory", *words, "-o", "nowhere")
            reader = subprocess.Popen(["cat", pipe], stdout=subprocess.PIPE)
            self.assertEqual(self.run_it(*words, "-o", "pipe")[:2], (0, b""), words)
            self.assertEqual(reader.communicate(timeout=60)[0], due)
            self.assertTrue(pipe.is_fifo())
            self.nothing_left()

    def test_links_and_rights_stay(self):
        for words in self.commands():
            due = self.run_it(*words)[1]
            old = self.folder / self.put("old", b"as it was")
            old.chmod(0o600)
            (self.folder / "link").symlink_to("old")
            self.given.add("link")
            self.assertEqual(self.run_it(*words, "-o", "link")[:2], (0, b""), words)
            self.assertTrue((self.folder / "link").is_symlink())
            self.assertEqual((old.read_bytes(), stat.S_IMODE(old.stat().st_mode)), (due, 0o600))
            (self.folder / "link").unlink()
            self.given.discard("link")
            self.nothing_left()

    def test_a_reader_that_goes_away(self):
        self.put("save", ended(1, banks=16).save())
        read, write = os.pipe()
        os.close(read)
        done = subprocess.run([COMMAND, "plate", "save"], cwd=self.folder, stdout=write, stderr=subprocess.PIPE, timeout=60)
        os.close(write)
        self.assertEqual((done.returncode, done.stderr), (1, b""))

    def on_terminal(self, words, pieces):
        """What a run says on a terminal, standard output being none, while its input comes in pieces with a pause after each."""
        ours, theirs = pty.openpty()
        run = subprocess.Popen([COMMAND, *words], stdin=subprocess.PIPE, stdout=subprocess.PIPE, stderr=theirs, cwd=self.folder)
        os.close(theirs)
        for piece, pause in pieces:
            run.stdin.write(piece)
            run.stdin.flush()
            time.sleep(pause)
        output = run.communicate(timeout=60)[0]
        said = b""
        try:
            while more := os.read(ours, 4096):
                said += more
        except OSError:
            # all has been read, and the other end is closed
            pass
        os.close(ours)
        return run.returncode, output, said

    def test_whoever_waits_is_told(self):
        for words in (["play"], ["audit"]):
            status, output, said = self.on_terminal(words, ((b"00\n" * 5, 1.6), (b"00\n" * 3, 0.5)))
            self.assertEqual((status, output), self.run_it(*words, stdin=b"00\n" * 8)[:2])
            self.assertIn(b"\rgulxinett: 5 lines so far", said)
            self.assertTrue(said.endswith(b"\r\x1b[K"), said)
            # not for a short wait, nor where nobody looks
            self.assertEqual(self.on_terminal(words, ((b"00\n", 0.3),))[2], b"")
            run = subprocess.Popen([COMMAND, *words], stdin=subprocess.PIPE, stdout=subprocess.PIPE, stderr=subprocess.PIPE)
            time.sleep(1.3)
            self.assertEqual(run.communicate(b"00\n", timeout=60)[1], b"")

    def test_pictures_are_not_put_on_a_terminal(self):
        ours, theirs = pty.openpty()
        for words in self.commands()[:4]:
            done = subprocess.run([COMMAND, *words], cwd=self.folder, stdout=theirs, stderr=subprocess.PIPE, timeout=60)
            self.assertEqual(done.returncode, 2, words)
            self.assertIn(b"name a file with --output", done.stderr)
        os.close(theirs)
        os.close(ours)


if __name__ == "__main__":
    unittest.main(argv=sys.argv[:1])
