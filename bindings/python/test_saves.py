"""The save file over the shared library: its checksum beside zlib's, damages, and a kill while it is written.

usage: python3 test_saves.py
"""

import os
import random
import signal
import subprocess
import sys
import tempfile
import time
import unittest
import zlib
from pathlib import Path

import gulxinett
from gulxinett import (
    FRAME_BYTES, LAYOUT, PICTURE_BYTES, RAM_BANK, REGISTERS, ROM_BANK, SAVE_BYTES, STATE_BYTES, Cartridge, Refusal, picture, write_whole,
)

ROOT = Path(__file__).resolve().parents[2]

BANKS = (1, 2, 4, 8, 16)
DAMAGES = 10_000
KILLS = 30

FRAME = bytes((i * 7 + (i >> 7)) & 255 for i in range(FRAME_BYTES))
TAKEN = bytes([3, 0, 0, 0x80, 0, 0]) + bytes(0x40 + 0x20 * (n % 3) + n for n in range(6, REGISTERS))


def random_bytes(chance, count):
    """So many bytes; `randbytes` does the same, but not before Python 3.9."""
    return chance.getrandbits(8 * count).to_bytes(count, "little")


def half_way(banks, seed=29):
    """A cartridge with a capture half way over a RAM full of anything."""
    cartridge = Cartridge.from_battery(random_bytes(random.Random(seed), banks * RAM_BANK))
    cartridge.lend(FRAME)
    cartridge.write(0x4000, 0x10)
    for n in reversed(range(REGISTERS)):
        cartridge.write(0xA000 + n, TAKEN[n])
    cartridge.tick(20_000)
    return cartridge


def sealed(body):
    """A file with a right checksum, whatever comes before it."""
    return body + zlib.crc32(body).to_bytes(4, "little")


def changed(file, place, byte):
    return file[:place] + bytes([byte]) + file[place + 1 :]


def damaged(file, chance):
    """A hole, a tail of a file that was laid out and never filled, a piece gone, one twice, one of another file, some bits."""
    start = chance.randrange(len(file))
    stop = min(start + 1 + chance.randrange(4_000), len(file))
    some = bytearray(file)
    kind = chance.randrange(6)
    if kind == 0:
        some[start:stop] = bytes(stop - start)
    elif kind == 1:
        some[start:] = bytes(len(file) - start)
    elif kind == 2:
        del some[start:stop]
    elif kind == 3:
        some += some[start:stop]
    elif kind == 4:
        some[start:stop] = random_bytes(chance, stop - start)
    else:
        for _ in range(1 + chance.randrange(9)):
            some[chance.randrange(len(file))] ^= 1 << chance.randrange(8)
    return bytes(some)


class Saves(unittest.TestCase):
    def refused(self, number, file, **given):
        with self.assertRaises(Refusal) as caught:
            Cartridge.restore(file, **given)
        self.assertEqual(caught.exception.number, number)

    def test_a_file_goes_on_elsewhere(self):
        for banks in BANKS:
            one = half_way(banks)
            file = one.save()
            other = Cartridge.restore(bytearray(file))
            self.assertEqual((other.parts(), other.save()), (one.parts(), file))
            other.tick(0xFFFF_FFFF)
            self.assertEqual(other.area(), picture(FRAME, TAKEN))
            self.assertEqual(other.battery()[0x100 : 0x100 + PICTURE_BYTES], other.area())
        rom = b"\xa5" * ROM_BANK
        self.assertEqual(Cartridge.restore(half_way(1).save(), rom=rom).read(0), 0xA5)
        self.refused(2, half_way(1).save(), rom=b"short")
        for none in (None, 7, "save", half_way(1).parts()):
            with self.assertRaisesRegex(TypeError, "the save must be bytes"):
                Cartridge.restore(none)

    def test_each_byte_and_the_checksum_of_zlib(self):
        for banks in BANKS:
            for seed in range(8):
                cartridge = half_way(banks, seed)
                state, ram, store = cartridge.parts()
                file = cartridge.save()
                self.assertEqual(len(file), SAVE_BYTES + banks * RAM_BANK)
                self.assertEqual((file[7], len(state)), (LAYOUT, STATE_BYTES))
                self.assertEqual(file, sealed(b"GXSAVE" + bytes([banks]) + state + ram + store))

    def test_truncations_and_changed_bits(self):
        """Every truncation by steps of 5, every bit of what is not memory, and one bit of each other byte; the Rust
        binding's test has them all."""
        one = half_way(1)
        file, before = one.save(), one.parts()
        for length in (*range(0, 200), *range(200, len(file), 5), len(file) - 1):
            self.refused(8, file[:length])
        self.refused(8, file + b"\0")
        chance = random.Random(1)
        for place in range(len(file)):
            whole = place < 128 or place >= len(file) - 4
            for bit in range(8) if whole else (chance.randrange(8),):
                self.refused(8, changed(file, place, file[place] ^ 1 << bit))
        self.assertEqual((one.save(), one.parts()), (file, before))

    def test_damages(self):
        one, chance = half_way(1), random.Random(2)
        file, tried = one.save(), 0
        while tried < DAMAGES:
            other = damaged(file, chance)
            if other != file:
                self.refused(8, other)
                tried += 1
        self.assertEqual(one.save(), file)

    def test_what_is_no_save_though_its_checksum_is_right(self):
        one = half_way(1)
        file, (state, ram, store) = one.save(), one.parts()
        for place, byte in ((0, 0x67), (6, 0), (6, 2), (6, 3), (7, LAYOUT - 1), (7, LAYOUT + 1), (8, 2), (9, 64), (10, 32), (20, 8)):
            self.refused(8, sealed(changed(file, place, byte)[:-4]))
        # RAM and frame store exchanged are other bytes of the same file, but not with 3 banks
        self.refused(8, sealed(b"GXSAVE\3" + state + 3 * ram + store))
        for layout in (1, 2):
            old = (ROOT / "tests/data" / ("layout-%d.state" % layout)).read_bytes()
            self.refused(8, old + ram + store)
            self.refused(8, sealed(b"GXSAVE\1" + old + ram + store))
        self.refused(8, state + ram + store)
        for none in (b"", b"GXSAVE"):
            self.refused(8, none)

    def test_battery_saves_are_the_ram(self):
        ram = random_bytes(random.Random(3), 131_072)
        cartridge = Cartridge.from_battery(ram)
        self.assertEqual(cartridge.battery(), ram)
        self.assertEqual(Cartridge(ram=ram).parts(), cartridge.parts())
        for length in (0, RAM_BANK + 1, 3 * RAM_BANK, 131_072 + 16):
            with self.assertRaises(Refusal) as caught:
                Cartridge.from_battery(bytes(length))
            self.assertEqual(caught.exception.number, 3)
        with self.assertRaisesRegex(TypeError, "the battery save must be bytes"):
            Cartridge.from_battery("ram")


class Writing(unittest.TestCase):
    def test_whole_and_nothing_beside(self):
        with tempfile.TemporaryDirectory() as folder:
            path = Path(folder, "cartridge.save")
            for file in (half_way(1).save(), half_way(2).save(), b""):
                for name in (path, str(path), os.fsencode(path)):
                    write_whole(name, file)
                    self.assertEqual((path.read_bytes(), os.listdir(folder)), (file, [path.name]))
            taken = Path(folder, "taken")
            taken.mkdir()
            for wrong in (taken, Path(folder, "none", "file")):
                with self.assertRaises(OSError):
                    write_whole(wrong, b"new")
            with self.assertRaises(TypeError):
                write_whole(path, "text")
            self.assertEqual((path.read_bytes(), sorted(os.listdir(folder))), (b"", ["cartridge.save", "taken"]))

    @unittest.skipUnless(hasattr(os, "mkfifo"), "there are no such pipes here")
    def test_links_stay_and_pipes_are_written_straight(self):
        with tempfile.TemporaryDirectory() as folder:
            path, link, nowhere, pipe = (Path(folder, name) for name in ("file", "link", "nowhere", "pipe"))
            path.write_bytes(b"old")
            path.chmod(0o640)
            link.symlink_to("file")
            nowhere.symlink_to("none")
            write_whole(link, b"new")
            self.assertEqual((path.read_bytes(), path.stat().st_mode & 0o777, link.is_symlink()), (b"new", 0o640, True))
            with self.assertRaises(FileNotFoundError):
                write_whole(nowhere, b"new")
            os.mkfifo(pipe)
            reader = subprocess.Popen(["cat", pipe], stdout=subprocess.PIPE)
            write_whole(pipe, bytes(100_000))
            self.assertEqual(reader.communicate(timeout=60)[0], bytes(100_000))
            self.assertTrue(pipe.is_fifo())
            write_whole("/dev/null", b"new")
            self.assertEqual(sorted(os.listdir(folder)), ["file", "link", "nowhere", "pipe"])

    @unittest.skipUnless(hasattr(signal, "SIGKILL"), "nothing is killed so here")
    def test_a_kill_leaves_the_old_or_the_new(self):
        files = [half_way(banks).save() for banks in (1, 16)]
        program = (
            "import sys; from pathlib import Path; from gulxinett import write_whole\n"
            "files = [Path(name).read_bytes() for name in sys.argv[2:]]\n"
            "print(flush=True)\n"
            "while True:\n    for file in files: write_whole(sys.argv[1], file)\n"
        )
        with tempfile.TemporaryDirectory() as folder:
            names = [str(Path(folder, "file-%d" % number)) for number in (1, 2)]
            for name, file in zip(names, files):
                Path(name).write_bytes(file)
            path = Path(folder, "cartridge.save")
            write_whole(path, files[0])
            environment = {**os.environ, "PYTHONPATH": str(Path(gulxinett.__file__).parent)}
            chance = random.Random(4)
            for _ in range(KILLS):
                words = [sys.executable, "-c", program, str(path), *names]
                with subprocess.Popen(words, stdout=subprocess.PIPE, env=environment) as writer:
                    writer.stdout.readline()
                    time.sleep(chance.random() / 50)
                    writer.kill()
                self.assertIn(path.read_bytes(), files)
                Cartridge.restore(path.read_bytes())


if __name__ == "__main__":
    unittest.main()
