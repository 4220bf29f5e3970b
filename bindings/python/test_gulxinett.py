"""The class over the shared library: its calls, what bad input gets, and how the library is found.

usage: python3 test_gulxinett.py
"""

import array
import os
import pickle
import subprocess
import sys
import tempfile
import unittest
from pathlib import Path

import gulxinett
from gulxinett import (
    FRAME_BYTES, LAYOUT, PICTURE_BYTES, PICTURE_ROWS, RAM_BANK, REGISTERS, ROM_BANK, SCRIPT_BYTES, SHADES_BYTES, STATE_BYTES, Audit,
    Cartridge, Refusal, Salvaged, judge, layout_of, picture, salvage,
)

ROOT = Path(__file__).resolve().parents[2]

TOTAL = 32_958 + 16 * 0x80
TAKEN = bytes([3, 0, 0, 0x80, 0, 0]) + bytes(0x40 + 0x20 * (n % 3) + n for n in range(6, REGISTERS))


def frame(number):
    """A frame of its own for each number."""
    return bytes((i * (7 + 2 * number) + (i >> 7)) & 255 for i in range(FRAME_BYTES))


def begun(number):
    """A cartridge with a capture of a frame begun; register 0, written last, is the start."""
    cartridge = Cartridge()
    cartridge.lend(frame(number))
    cartridge.write(0x4000, 0x10)
    for n in reversed(range(REGISTERS)):
        cartridge.write(0xA000 + n, TAKEN[n])
    return cartridge


def whole(cartridge):
    """What a cartridge is, all of it."""
    return cartridge.parts(), cartridge.picture()


def row_lines(image, rows):
    """The lines of some rows of an image."""
    return b"".join(b"04%02X%s\n" % (row, image[128 * row : 128 * row + 128].hex().upper().encode()) for row in rows)


def photograph(header):
    """A colour photograph under a header, and its image, worked out here."""
    pixels = bytes((i * 7 + (i >> 8)) & 255 for i in range(3 * FRAME_BYTES))
    image = bytes((2 * r + 5 * g + b) // 8 for r, g, b in zip(pixels[::3], pixels[1::3], pixels[2::3]))
    return header + pixels, image


def plate(number):
    """A plate of its own for each number, with the four greys and no other."""
    greys = ((255, 170, 85, 0)[(i * (7 + 2 * number) + (i >> 7)) >> 6 & 3] for i in range(128 * 112))
    return b"P5\n128 112\n255\n" + bytes(greys)


def place_lines(area, select, enable):
    """The lines of a placing: RAM writing on, select to bank 0, the area, and both back."""
    writes = [(0x0000, 0x0A), (0x4000, 0), *enumerate(area, 0xA100), (0x4000, select), (0x0000, enable)]
    return b"".join(b"02%04X%02X\n" % write for write in writes)


class Recording(unittest.TestCase):
    def test_every_call_made_and_every_row_that_changed(self):
        cartridge = Cartridge()
        cartridge.read(0)
        self.assertEqual(cartridge.recording(), b"")
        cartridge.record()
        cartridge.write(0x4000, 0x10)
        for refused in (lambda: cartridge.read(0x8ABC), lambda: cartridge.write(0xFEDC, 0xBA)):
            self.assertRaises(Refusal, refused)
        cartridge.tick(0xDEADBEEF)
        cartridge.record()
        cartridge.reset()
        due = b"02400010\n018ABC\n02FEDCBA\n03DEADBEEF\n00\n"
        self.assertEqual(cartridge.recording(), due)
        self.assertRaises(ValueError, cartridge.write, 0xA000, 256)
        self.assertRaises(Refusal, cartridge.lend, bytes(5))
        whole(cartridge), cartridge.inspect(), cartridge.area(), cartridge.plate()
        self.assertEqual(cartridge.recording(), due)
        image = bytearray(FRAME_BYTES)
        cartridge.lend(image)
        cartridge.lend(image)
        due += row_lines(image, range(128))
        self.assertEqual(cartridge.recording(), due)
        image[5 * 128 + 127], image[127 * 128] = 9, 0xAB
        cartridge.lend(image)
        self.assertEqual(cartridge.recording(), due + row_lines(image, (5, 127)))

    def test_photographs(self):
        cartridge = Cartridge()
        cartridge.record()
        file, image = photograph(b"P6\n# a scan\n128 128\n255\n")
        cartridge.lend_photo(file)
        self.assertEqual(cartridge.picture(registers=TAKEN), picture(image, TAKEN))
        self.assertNotEqual(picture(image, TAKEN), picture(frame(1), TAKEN))
        due = row_lines(image, range(128))
        self.assertEqual(cartridge.recording(), due)
        grey = image[-1] ^ 255
        cartridge.lend_photo(bytearray(file[:-3] + bytes([grey] * 3)))
        due += row_lines(image[:-1] + bytes([grey]), (127,))
        self.assertEqual(cartridge.recording(), due)
        before = whole(cartridge)
        none = [photograph(header)[0] for header in (b"", b"P6#\n128 128 255\n", b"P6\n0128 128\n255\n", b"P5\n128 128\n255\n")]
        for bad in none + [b"", file[:-1], file + b"\0", bytes(10_000_000)]:
            with self.assertRaisesRegex(Refusal, "the file is not one that can be read") as refused:
                cartridge.lend_photo(bad)
            self.assertEqual(refused.exception.number, 8)
        with self.assertRaisesRegex(TypeError, "the photograph must be bytes, not str"):
            cartridge.lend_photo("P6")
        self.assertEqual(whole(cartridge), before)
        self.assertEqual(cartridge.recording(), due)

    def test_choices(self):
        cartridge = begun(1)
        cartridge.write(0x4000, 0x05)
        cartridge.tick(20_000)
        before = cartridge.parts()
        cartridge.record()
        cartridge.lend(frame(1))
        start = len(cartridge.recording())
        cartridge.choose(light=1, level=7)
        low, state = b"\x8c\x98\xac", cartridge.parts().state
        self.assertEqual((state[15:17], state[19:22]), (b"\x10\x00", low))
        kept = [place for place in range(STATE_BYTES) if place not in (15, 16) and not 19 <= place < 67]
        self.assertEqual([state[place] for place in kept], [before.state[place] for place in kept])
        self.assertEqual(cartridge.parts(), before._replace(state=state))
        writes = [(0x4000, 0x10)] + [(0xA000 + n, state[13 + n]) for n in (2, 3, *range(6, 54))] + [(0x4000, 0x05)]
        due = b"".join(b"02%04X%02X\n" % write for write in writes)
        self.assertEqual(cartridge.recording()[start:], due)
        for light, level in ((2, 7), (0, 16), (255, 255)):
            with self.assertRaisesRegex(Refusal, "the light set is above 1 or the level above 15") as refused:
                cartridge.choose(light=light, level=level)
            self.assertEqual(refused.exception.number, 9)
        with self.assertRaisesRegex(TypeError, "the light set must be a whole number"):
            cartridge.choose(light=None, level=7)
        with self.assertRaisesRegex(ValueError, "the level must be a whole number from 0 to 255"):
            cartridge.choose(light=0, level=256)
        with self.assertRaisesRegex(ValueError, "the exposure must be a whole number from 0 to 65535"):
            cartridge.choose(light=0, level=0, exposure=65536)
        with self.assertRaisesRegex(TypeError, "dithering must be True or False"):
            cartridge.choose(light=0, level=0, dithering=0)
        self.assertEqual(cartridge.parts(), before._replace(state=state))
        self.assertEqual(cartridge.recording()[start:], due)
        cartridge.choose(light=1, level=7, dithering=False, exposure=0x1234)
        plain = cartridge.parts().state
        self.assertEqual((plain[15:17], plain[19:67]), (b"\x12\x34", low * 16))
        self.assertIsNone(cartridge.inspect())
        self.assertEqual(cartridge.tick(0xFFFF_FFFF), TOTAL - 20_000)
        self.assertEqual(cartridge.area(), picture(frame(1), TAKEN))

    def test_placings(self):
        for select, enable in ((0x00, 0x00), (0x05, 0x0A), (0x13, 0x00), (0x1F, 0x0A)):
            cartridge = Cartridge()
            cartridge.write(0x4000, select)
            cartridge.write(0x0000, enable)
            before = cartridge.parts()
            cartridge.record()
            cartridge.place(plate(1))
            self.assertRaises(Refusal, cartridge.place, plate(1)[1:])
            self.assertEqual(cartridge.recording(), place_lines(cartridge.area(), select, enable))
            self.assertEqual(cartridge.parts().state, before.state)

    def test_an_image_that_a_script_does_not_begin_with_is_told_before_a_write(self):
        restored, lent = Cartridge.from_parts(Cartridge().parts()), Cartridge()
        lent.lend(frame(1))
        for cartridge, image in ((restored, bytes(FRAME_BYTES)), (lent, frame(1))):
            cartridge.record()
            cartridge.tick(1)
            cartridge.write(0, 0)
            cartridge.write(0, 1)
            cartridge.lend(image)
            due = b"0300000001\n" + row_lines(image, range(128)) + b"02000000\n02000001\n"
            self.assertEqual(cartridge.recording(), due)


class Salvage(unittest.TestCase):
    def test_scripts_with_broken_lines_and_twice(self):
        for script, text, report in (
            (b"", b"", ()),
            (b"\n", b"", (1,)),
            (b"00", b"00\n", (0,)),
            (b"00\nxx\n01a000\n\n01A000", b"00\n01A000\n", (0, 1, 1, 1, 0)),
            (b"00\n01A000\n00\n01A000", b"00\n01A000\n", (0, 0, 2, 2)),
            # the later halves are dropped, until none is left
            (b"00\n00\n00\n00\n", b"00\n", (0, 2, 2, 2)),
            (b"00\n00\n00\n", b"00\n00\n00\n", (0, 0, 0)),
            # halves that don't start with reset are no copies of a script
            (b"018000\n018000\n", b"018000\n018000\n", (0, 0)),
        ):
            self.assertEqual(salvage(script), Salvaged(text, bytes(report)), script)

    def test_recordings_uploaded_twice(self):
        cartridge = Cartridge()
        cartridge.record()
        cartridge.reset()
        cartridge.lend(frame(1))
        recording = cartridge.recording()
        some = recording[: 3 + 59 * 261]
        # a row that broke off, and a last LF that was lost
        twice = some + recording[-100:] + some[:-1]
        report = b"\0" * 60 + b"\1" + b"\2" * 60
        for kind in (bytes, bytearray, memoryview):
            self.assertEqual(salvage(kind(twice)), Salvaged(some, report))
        self.assertEqual(salvage(some), Salvaged(some, bytes(60)))

    def test_scripts_of_the_most_bytes(self):
        self.assertEqual(salvage(b"\n" * SCRIPT_BYTES), Salvaged(b"", b"\1" * SCRIPT_BYTES))
        # 13 halvings
        self.assertEqual(salvage(b"00\n" * 8192), Salvaged(b"00\n", b"\0" + b"\2" * 8191))
        for length in (SCRIPT_BYTES + 1, 1_000_000):
            with self.assertRaisesRegex(Refusal, "the script is over 32,768 bytes") as refused:
                salvage(b"\n" * length)
            self.assertEqual(refused.exception.number, 12)
        for none in (None, "00", 3, [48, 48]):
            with self.assertRaisesRegex(TypeError, "the script must be bytes"):
                salvage(none)


class Audits(unittest.TestCase):
    SCRIPT = (ROOT / "crates/audit/stdin").read_bytes()
    EVENTS = (ROOT / "crates/audit/stdout").read_text().splitlines(keepends=True)

    def test_recordings_in_pieces(self):
        for length in (1, 2, 7, 260, 261, len(self.SCRIPT)):
            audit, events = Audit(), []
            for place in range(0, len(self.SCRIPT), length):
                events += audit.feed(self.SCRIPT[place : place + length])
            self.assertEqual(events + audit.finish(), self.EVENTS, length)
        summary = "line 0 event summary malformed 0 refused 0 captures 0 ended 0 whole 0 touched 0 dropped 0 held 0\n"
        self.assertEqual(Audit().finish(), ["line 0 event unchanged\n", summary])

    def test_events_come_with_their_lines(self):
        audit = Audit()
        self.assertEqual(audit.feed(b"02400010\n02A00003"), [])
        (event,) = audit.feed(bytearray(b"\n"))
        self.assertTrue(event.startswith("line 2 event start serial 1 "))
        with self.assertRaisesRegex(TypeError, "the piece must be bytes, not str"):
            audit.feed("00")
        audit.finish()
        for ended in (lambda: audit.feed(b"00\n"), audit.finish):
            with self.assertRaisesRegex(ValueError, "the recording has ended"):
                ended()

    def test_recordings_over_a_battery_save(self):
        # RAM writing on, a byte in the last of sixteen banks, one in the first that is rewritten the same
        audit = Audit(bytes(16 * RAM_BANK))
        self.assertEqual(audit.feed(b"0200000A\n0240000F\n02BFFF01\n02400000\n02A00000"), [])
        events = audit.finish()
        self.assertEqual((events[0], len(events)), ("line 5 event changed bank F from 1FFF to 1FFF\n", 2))
        for length in (0, RAM_BANK - 1, 3 * RAM_BANK):
            with self.assertRaises(Refusal) as caught:
                Audit(bytes(length))
            self.assertEqual(caught.exception.number, 3)

    def test_lines_are_carried_out(self):
        cartridge = Cartridge()
        for line, answer in (
            (b"02400010", b"00\n"), (b"02A00003", b"00\n"), (b"01A000", b"0003\n"), (b"0300010000", b"00000080BE\n"),
            (b"018000", b"05\n"), (b"", b"06\n"), (b"01a000", b"06\n"), (b"00\n", b"06\n"), (b"0" * 1000, b"06\n"), (bytearray(b"00"), b"00\n"),
        ):
            self.assertEqual(cartridge.step(line), answer, line)
        with self.assertRaisesRegex(TypeError, "the line must be bytes, not str"):
            cartridge.step("00")

    def test_recordings_are_stepped_through(self):
        session, player = begun(1), Cartridge()
        session.record()
        session.write(0xA000, 2)
        player.record()
        for line in session.recording().splitlines():
            self.assertEqual(player.step(line)[:2], b"00")
            player.step(b"xx")
        self.assertEqual(player.recording(), session.recording())
        # a row that was stepped through is an image that a script does not begin with
        image = bytes(5 * 128) + b"\x5a" * 128 + bytes(122 * 128)
        cartridge = Cartridge()
        self.assertEqual(cartridge.step(row_lines(image, [5])[:-1]), b"00\n")
        cartridge.record()
        cartridge.step(b"02400010")
        self.assertEqual(cartridge.recording(), row_lines(image, range(128)) + b"02400010\n")

    def test_rows_of_two_frames(self):
        # exposed so that no row is the same in both
        registers = TAKEN[:2] + b"\2" + TAKEN[3:]
        one, other = frame(1), bytes(255 - light for light in frame(1))
        upper, lower = picture(one, registers), picture(other, registers)
        self.assertEqual(judge(upper, one, registers), b"\1" * PICTURE_ROWS)
        # rows 0 to 55 are the first seven rows of tiles
        area = upper[: 7 * 256] + lower[7 * 256 :]
        self.assertEqual(judge(area, one, registers), b"\1" * 56 + bytes(56))
        self.assertEqual(judge(area, bytearray(other), bytearray(registers)), bytes(56) + b"\1" * 56)

    def test_judgements_that_are_refused(self):
        for length in (0, FRAME_BYTES - 1, FRAME_BYTES + 1):
            with self.assertRaises(Refusal) as caught:
                judge(bytes(PICTURE_BYTES), bytes(length), TAKEN)
            self.assertEqual(caught.exception.number, 4)
        for area, registers, what in ((bytes(5), TAKEN, "the area must be 3584 bytes, not 5"), (bytes(PICTURE_BYTES), TAKEN[1:], "the registers must be 54 bytes, not 53")):
            with self.assertRaisesRegex(ValueError, what):
                judge(area, frame(1), registers)
        with self.assertRaisesRegex(TypeError, "the frame must be bytes, not NoneType"):
            judge(bytes(PICTURE_BYTES), None, TAKEN)


class Calls(unittest.TestCase):
    def test_calls(self):
        rom = b"\x5a" * ROM_BANK + b"\xa5" * ROM_BANK
        with Cartridge(rom=rom, ram=b"\x01" * (2 * RAM_BANK)) as cartridge:
            self.assertEqual((cartridge.read(0), cartridge.read(0x4000)), (0x5A, 0xA5))
            self.assertIsNone(cartridge.inspect())
            cartridge.write(0x4000, 0x10)
            cartridge.write(0xA006 + 3 * 7, 1)
            self.assertEqual(cartridge.inspect(), gulxinett.Element(row=1, column=3))
            self.assertEqual(Cartridge.from_parts(cartridge.parts(), rom=rom).read(0x4000), 0xA5)
            cartridge.reset()
            self.assertIsNone(cartridge.inspect())
            self.assertEqual(cartridge.area(), b"\x01" * PICTURE_BYTES)

    def test_a_save_goes_on_elsewhere(self):
        one = begun(1)
        self.assertEqual(one.picture(), picture(frame(1), TAKEN))
        self.assertNotEqual(one.picture(), one.picture(frame(2)))
        self.assertEqual(one.tick(TOTAL // 2), TOTAL // 2)
        other = Cartridge.from_parts(one.parts())
        self.assertEqual(other.parts(), one.parts())
        for cartridge in (one, other):
            self.assertNotEqual(cartridge.area(), picture(frame(1), TAKEN))
            self.assertEqual(cartridge.tick(0xFFFF_FFFF), TOTAL - TOTAL // 2)
            self.assertEqual(cartridge.area(), picture(frame(1), TAKEN))

    def test_plates_as_grey_images(self):
        def grey(area, x, y):
            at = 256 * (y // 8) + 16 * (x // 8) + 2 * (y % 8)
            low, high = (area[at + place] >> 7 - x % 8 & 1 for place in (0, 1))
            return (255, 170, 85, 0)[low + 2 * high]

        cartridge = begun(1)
        for cycles in (0, 20_000, 0xFFFF_FFFF):
            cartridge.tick(cycles)
            area = cartridge.area()
            pixels = bytes(grey(area, x, y) for y in range(112) for x in range(128))
            self.assertEqual(cartridge.plate(), b"P5\n128 112\n255\n" + pixels)

    def test_plates_back_into_the_cartridge(self):
        cartridge = begun(1)
        cartridge.tick(0xFFFF_FFFF)
        file, area = cartridge.plate(), cartridge.area()
        other = Cartridge(ram=b"\x33" * (16 * RAM_BANK))
        due = other.parts()
        other.place(bytearray(file))
        self.assertEqual((other.area(), other.plate()), (area, file))
        # what is placed is all that has changed
        self.assertEqual(other.parts(), due._replace(ram=due.ram[:0x100] + area + due.ram[0xF00:]))
        for number in (1, 2, 3):
            other.place(plate(number))
            self.assertEqual(other.plate(), plate(number))

    def test_shades(self):
        cartridge = begun(1)
        for cycles in (0, 20_000, 0xFFFF_FFFF):
            cartridge.tick(cycles)
            shades = cartridge.shades()
            self.assertEqual(len(shades), SHADES_BYTES)
            self.assertEqual(bytes(255 - 85 * shade for shade in shades), cartridge.plate()[15:])

    def test_readings(self):
        def dotted(readings):
            """The file that the matrix makes of readings, worked out here."""
            def grey(place, value):
                element = 6 + 3 * (4 * (place // 128 % 4) + place % 4)
                return 85 * sum(value >= least for least in TAKEN[element : element + 3])

            return readings[:15] + bytes(grey(place, value) for place, value in enumerate(readings[15:]))

        cartridge = begun(1)
        cartridge.tick(20_000)
        cartridge.record()
        before = whole(cartridge)
        readings = cartridge.readings()
        self.assertEqual((whole(cartridge), cartridge.recording()), (before, b""))
        cartridge.write(0xA000, 2)
        cartridge.write(0xA006, 0xFF)
        cartridge.lend(frame(2))
        self.assertEqual(cartridge.readings(), readings, "stopped, and touched")
        cartridge.write(0xA000, 3)
        cartridge.tick(0xFFFF_FFFF)
        self.assertEqual(cartridge.plate(), dotted(readings))
        with self.assertRaisesRegex(Refusal, "no capture is held") as refused:
            cartridge.readings()
        self.assertEqual(refused.exception.number, 11)
        # at exposure 0100h the brightest light is stored and read as 207, and inverted as 48
        cartridge.reset()
        cartridge.lend(b"\xff" * FRAME_BYTES)
        for inverted, value in ((0, 207), (8, 48)):
            for address, byte in ((0x4000, 0x10), (0xA002, 1), (0xA004, inverted), (0xA000, 3)):
                cartridge.write(address, byte)
            self.assertEqual(cartridge.parts().store, bytes([value]) * FRAME_BYTES)
            self.assertEqual(cartridge.readings()[15:], bytes([value]) * SHADES_BYTES)
            cartridge.tick(0xFFFF_FFFF)

    def test_bytes_of_any_kind(self):
        kinds = bytes, bytearray, memoryview, lambda value: array.array("B", value)
        for kind in kinds:
            self.assertEqual(picture(kind(frame(1)), kind(TAKEN)), picture(frame(1), TAKEN))
        square = memoryview(frame(1)).cast("B", shape=(128, 128))
        self.assertEqual(picture(square, TAKEN), picture(frame(1), TAKEN))

    def test_what_is_given_is_copied(self):
        ram = bytearray(RAM_BANK)
        cartridge = Cartridge(ram=ram)
        cartridge.write(0, 0x0A)
        cartridge.write(0xA000, 7)
        self.assertEqual((cartridge.read(0xA000), ram[0]), (7, 0))


class BadInput(unittest.TestCase):
    def refused(self, number, work, *words, **named):
        with self.assertRaises(Refusal) as raised:
            work(*words, **named)
        self.assertEqual(raised.exception.number, number)
        self.assertGreater(len(str(raised.exception)), 20)

    def test_calls(self):
        cartridge = begun(3)
        cartridge.tick(20_000)
        before = whole(cartridge)
        self.refused(5, cartridge.read, 0x8000)
        self.refused(5, cartridge.write, 0xC000, 1)
        for length in (0, 1, FRAME_BYTES - 1, FRAME_BYTES + 1):
            self.refused(4, cartridge.lend, bytes(length))
            self.refused(4, picture, bytes(length), TAKEN)
            self.refused(4, cartridge.picture, bytes(length))
        for number in (-1, 0x1_0000, 1 << 70):
            with self.assertRaisesRegex(ValueError, "the address must be a whole number from 0 to 65535"):
                cartridge.read(number)
            with self.assertRaisesRegex(ValueError, "the address"):
                cartridge.write(number, 1)
        for number in (-1, 256):
            with self.assertRaisesRegex(ValueError, "the value"):
                cartridge.write(0xA000, number)
        for number in (-1, 1 << 32):
            with self.assertRaisesRegex(ValueError, "the cycles"):
                cartridge.tick(number)
        for none in (None, "3", 3.0, b"\x03", [3]):
            with self.assertRaisesRegex(TypeError, "the address must be a whole number"):
                cartridge.read(none)
            with self.assertRaisesRegex(TypeError, "the value must be a whole number"):
                cartridge.write(0xA000, none)
            with self.assertRaisesRegex(TypeError, "the cycles must be a whole number"):
                cartridge.tick(none)
        for none in (None, "bytes", FRAME_BYTES, [0] * FRAME_BYTES, array.array("H", bytes(FRAME_BYTES))):
            with self.assertRaisesRegex(TypeError, "the image must be bytes"):
                cartridge.lend(none)
            with self.assertRaisesRegex(TypeError, "the frame must be bytes"):
                picture(none, TAKEN)
        for length in (0, 53, 55):
            with self.assertRaisesRegex(ValueError, "the registers must be 54 bytes"):
                picture(frame(1), bytes(length))
        self.assertEqual(whole(cartridge), before)

    def test_placings(self):
        good = plate(1)
        cartridge = begun(1)
        cartridge.tick(20_000)
        cartridge.record()
        for trigger in (3, 2):
            cartridge.write(0xA000, trigger)
            before, recording = whole(cartridge), cartridge.recording()
            self.refused(10, cartridge.place, good)
            self.refused(8, cartridge.place, good[1:])
            self.assertEqual((whole(cartridge), cartridge.recording()), (before, recording))
        cartridge.write(0xA000, 3)
        cartridge.tick(0xFFFF_FFFF)
        before, recording = whole(cartridge), cartridge.recording()
        for place, byte in ((1, 0x36), (2, 0x20), (15, 1), (16, 254), (14_350, 86)):
            self.refused(8, cartridge.place, good[:place] + bytes([byte]) + good[place + 1 :])
        for none in (b"", good[:15], good[:-1], good + b"\0"):
            self.refused(8, cartridge.place, none)
        with self.assertRaisesRegex(TypeError, "the plate must be bytes, not str"):
            cartridge.place("P5")
        self.assertEqual((whole(cartridge), cartridge.recording()), (before, recording))
        cartridge.place(good)
        self.assertEqual(cartridge.plate(), good)

    def test_a_refusal_of_another_process(self):
        passed = pickle.loads(pickle.dumps(Refusal(3)))
        self.assertEqual((passed.number, str(passed)), (3, str(Refusal(3))))

    def test_memory(self):
        for length in (0, 1, ROM_BANK - 1, ROM_BANK + 1, 3 * ROM_BANK, 65 * ROM_BANK, 128 * ROM_BANK):
            self.refused(2, Cartridge, rom=bytes(length))
        for length in (0, 1, RAM_BANK - 1, RAM_BANK + 1, 3 * RAM_BANK, 17 * RAM_BANK, 32 * RAM_BANK):
            self.refused(3, Cartridge, ram=bytes(length))
        with self.assertRaisesRegex(TypeError, "the ROM must be bytes, not str"):
            Cartridge(rom="rom")
        with self.assertRaisesRegex(TypeError, "the RAM must be bytes, not int"):
            Cartridge(ram=8192)

    def test_parts(self):
        cartridge = begun(4)
        cartridge.tick(20_000)
        before = cartridge.parts()
        save = before
        for length in (0, 1, STATE_BYTES - 1):
            self.refused(1, Cartridge.from_parts, save._replace(state=save.state[:length]))
        self.refused(1, Cartridge.from_parts, save._replace(state=save.state + b"\0"))
        for place, byte in ((0, 1), (1, 2), (2, 64), (3, 32), (4, 0), (4, 2), (8, 255), (13, 8)):
            state = bytearray(save.state)
            state[place] = byte
            self.refused(1, Cartridge.from_parts, save._replace(state=state))
        for length in (0, RAM_BANK - 1, 3 * RAM_BANK):
            self.refused(3, Cartridge.from_parts, save._replace(ram=bytes(length)))
        for length in (0, FRAME_BYTES - 1, FRAME_BYTES + 1):
            self.refused(4, Cartridge.from_parts, save._replace(store=bytes(length)))
        self.refused(2, Cartridge.from_parts, save, rom=b"short")
        for part in save._fields:
            with self.assertRaisesRegex(TypeError, "the save's %s must be bytes, not NoneType" % part):
                Cartridge.from_parts(save._replace(**{part: None}))
        for none in (None, 7, save[:2], ()):
            with self.assertRaisesRegex(TypeError, "the parts must be state, ram and store"):
                Cartridge.from_parts(none)
        self.assertEqual((save, cartridge.parts()), (before, before))

    def test_counts(self):
        cartridge = Cartridge()
        cartridge.write(0x4000, 0x10)
        self.assertEqual((cartridge.started, cartridge.ended), (0, 0))
        for serial in (1, 2):
            cartridge.write(0xA000, 1)
            cartridge.tick(20_000)
            self.assertEqual((cartridge.started, cartridge.ended), (serial, serial - 1))
            # a stop and a resume count nothing
            cartridge.write(0xA000, 0)
            cartridge.write(0xA000, 1)
            cartridge.tick(1_000_000)
            self.assertEqual((cartridge.started, cartridge.ended), (serial, serial))
        save = cartridge.parts()
        state = bytearray(save.state)
        state[9:13] = b"\xff\xff\xfe\xff"
        worn = Cartridge.from_parts(save._replace(state=state))
        self.assertEqual((worn.started, worn.ended), (0xFFFF, 0xFFFE))
        worn.write(0xA000, 1)
        worn.tick(1_000_000)
        self.assertEqual((worn.started, worn.ended), (0, 0xFFFF))
        cartridge.reset()
        self.assertEqual((cartridge.started, cartridge.ended), (0, 0))

    def test_layouts(self):
        cartridge = begun(4)
        cartridge.tick(20_000)
        save = cartridge.parts()
        self.assertEqual((LAYOUT, layout_of(save.state)), (3, 3))
        first, second = ((ROOT / "tests/data" / name).read_bytes() for name in ("layout-1.state", "layout-2.state"))
        # each is of a capture half way
        self.assertEqual((first[3], second[4]), (1, 1))
        later = bytes([4]) + save.state[1:]
        for layout, state in ((1, first), (2, second), (4, later)):
            self.assertEqual(layout_of(state), layout)
            sentence = "the state is of layout %d, and this program reads layout %d: another version saved it"
            with self.assertRaisesRegex(Refusal, sentence % (layout, LAYOUT)) as caught:
                Cartridge.from_parts(save._replace(state=state))
            self.assertEqual(caught.exception.number, 1)
        for none in (b"", b"\0", b"\1" * STATE_BYTES):
            self.assertIsNone(layout_of(none))
            with self.assertRaisesRegex(Refusal, "the state record can't exist"):
                Cartridge.from_parts(save._replace(state=none))

    def test_closed(self):
        cartridge, other = begun(5), begun(6)
        before = whole(other)
        cartridge.close()
        cartridge.close()
        uses = {
            "reset": (), "read": (0,), "write": (0xA000, 0), "tick": (1,), "step": (b"00",), "inspect": (), "lend": (frame(1),), "lend_photo": (b"",),
            "choose": {"light": 0, "level": 0}, "picture": (), "area": (), "plate": (), "place": (b"",), "shades": (), "readings": (),
            "save": (), "parts": (), "battery": (), "record": (), "recording": (),
        }
        for name, words in uses.items():
            with self.assertRaisesRegex(ValueError, "the cartridge is closed"):
                getattr(cartridge, name)(**words) if isinstance(words, dict) else getattr(cartridge, name)(*words)
        for count in ("started", "ended"):
            with self.assertRaisesRegex(ValueError, "the cartridge is closed"):
                getattr(cartridge, count)
        with self.assertRaisesRegex(ValueError, "the cartridge is closed"):
            with cartridge:
                pass
        self.assertEqual(whole(other), before)
        methods = {name for name in vars(Cartridge) if not name.startswith("_")}
        self.assertEqual(methods, {"close", "restore", "from_parts", "from_battery", "started", "ended", *uses})


class Finding(unittest.TestCase):
    def run_apart(self, folder, **environment):
        """What a Python of its own says that imports the file from a folder and makes a cartridge."""
        program = "import gulxinett; gulxinett.Cartridge(); print('made')"
        kept = {name: value for name, value in os.environ.items() if name != "GULXINETT_LIB"}
        environment = {**kept, "PYTHONDONTWRITEBYTECODE": "1", **environment}
        return subprocess.run(
            [sys.executable, "-c", program],
            cwd=str(folder),
            env=environment,
            stdout=subprocess.PIPE,
            stderr=subprocess.STDOUT,
            text=True,
        )

    def test_the_repository_and_the_environment(self):
        here = Path(gulxinett.__file__).resolve()
        self.assertEqual(self.run_apart(here.parent).stdout, "made\n")
        wrong = self.run_apart(here.parent, GULXINETT_LIB="/no/such/libgulxinett.so")
        self.assertNotEqual(wrong.returncode, 0)
        self.assertRegex(wrong.stdout, "GULXINETT_LIB names can't be loaded.*/no/such/libgulxinett.so")
        (library,) = here.parents[2].glob("target/lib/%s/libgulxinett.so" % gulxinett._processor())
        with tempfile.TemporaryDirectory() as folder:
            alone = Path(folder, "a", "b", here.name)
            alone.parent.mkdir(parents=True)
            alone.write_bytes(here.read_bytes())
            none = self.run_apart(alone.parent)
            self.assertNotEqual(none.returncode, 0)
            self.assertRegex(none.stdout, "there is no libgulxinett.so: GULXINETT_LIB is not set.*'./build native'")
            self.assertEqual(self.run_apart(alone.parent, GULXINETT_LIB=str(library)).stdout, "made\n")


if __name__ == "__main__":
    unittest.main()
