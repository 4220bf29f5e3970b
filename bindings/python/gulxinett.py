"""The Game Boy Camera cartridge controller, over the C functions of its shared library.

A Cartridge owns state, ROM, RAM, frame store and the image lent. The library is the file that the environment's
GULXINETT_LIB names, or target/lib/ARCH/libgulxinett.so of the repository that this file stands in, or the system's.

What the controller refuses is raised as a Refusal with its number; what is no number or bytes of its kind as a
TypeError or ValueError. Either way nothing has changed.
"""

import ctypes
import itertools
import operator
import os
import platform
import stat
from pathlib import Path
from typing import NamedTuple, Optional

#: Bytes of the state record.
STATE_BYTES = 121
#: The layout of these bytes, which their first one says; bytes of another layout are refused as 1.
LAYOUT = 3
#: Camera registers.
REGISTERS = 54
#: Bytes in one ROM bank.
ROM_BANK = 16_384
#: Bytes in one RAM bank.
RAM_BANK = 8_192
#: Bytes in an image and in the frame store: 128 rows of 128.
FRAME_BYTES = 16_384
#: Bytes of a picture: two bits for each of 128 by 112 pixels.
PICTURE_BYTES = 3_584
#: Rows of a picture.
PICTURE_ROWS = 112
#: Where the picture lies in RAM bank 0.
PICTURE_OFFSET = 0x100

#: Bytes of a plate as a Netpbm P5 file: a header of 15, then one for each of 128 by 112 pixels.
PLATE_BYTES = 14_351
#: Bytes of a plate as shades: one for each of its pixels, 0 white to 3 black.
SHADES_BYTES = 14_336
#: Bytes of a save file besides its RAM.
SAVE_BYTES = 16_516
#: The most bytes of a script that is salvaged.
SCRIPT_BYTES = 32_768

# The exposure that names none.
_UNNAMED = 0x1_0000
# Where the registers that a choice writes stand among the 54: exposure, then the matrix.
_CHOSEN = (2, 3, *range(6, REGISTERS))
# Where RAM write enable, select, the two counts of captures and the registers stand in the state record.
_ENABLE_OFFSET = 1
_SELECT_OFFSET = 3
_STARTED_OFFSET = 9
_ENDED_OFFSET = 11
_REGISTERS_OFFSET = 13
# Bytes of the state record of layout 1, which had no number and began with a flag.
_FIRST_LAYOUT_BYTES = 116
# The lengths that a RAM can have.
_RAM_LENGTHS = tuple(RAM_BANK * banks for banks in (1, 2, 4, 8, 16))
# Bytes of a row of the image.
_ROW_BYTES = 128
# Bytes of the longest line of a script, that of a row, with its LF.
_LINE_BYTES = 261
# Bytes of the longest answer to a line, that of a tick, with its LF.
_ANSWER_BYTES = 11
# The answer to a line that is malformed, and to no other.
_MALFORMED = b"06\n"
# Numbers that are kept of a recording that is audited, and room for the events of a line.
_BOOK_WORDS = 13
_EVENTS_BYTES = 512

# What each refusal number says.
_SENTENCES = {
    1: "the state record can't exist",
    2: "the ROM length is not allowed",
    3: "the RAM length is not allowed",
    4: "the image or the frame store is not 16,384 bytes",
    5: "the address is outside 0000-7FFF and A000-BFFF",
    6: "the script line or image row is malformed",
    7: "the room lent for what is written is too short",
    8: "the file is not one that can be read",
    9: "the light set is above 1 or the level above 15",
    10: "a capture is held, running or stopped",
    11: "no capture is held, running or stopped",
    12: "the script is over 32,768 bytes",
}

# What each function is given: lent memory is a place and a length, a bare place has a length that is settled.
_PLACE = ctypes.POINTER(ctypes.c_ubyte)
_LENT = (_PLACE, ctypes.c_size_t)
_BOOK = (ctypes.POINTER(ctypes.c_uint64), ctypes.c_size_t)
_FUNCTIONS = {
    "reset": _LENT,
    "read": _LENT * 3 + (ctypes.c_uint16,),
    "write": _LENT * 4 + (ctypes.c_uint16, ctypes.c_uint8),
    "tick": _LENT * 3 + (ctypes.c_uint32,),
    "choose": _LENT + (ctypes.c_uint8,) * 3 + (ctypes.c_uint32,),
    "inspect": _LENT,
    "picture": _LENT + (_PLACE, _PLACE),
    "record_reset": _LENT,
    "record_read": (ctypes.c_uint16,) + _LENT,
    "record_write": (ctypes.c_uint16, ctypes.c_uint8) + _LENT,
    "record_tick": (ctypes.c_uint32,) + _LENT,
    "record_row": (ctypes.c_uint8,) + _LENT * 2,
    "export": _LENT * 2,
    "place": _LENT * 3,
    "shades": _LENT * 2,
    "readings": _LENT * 3,
    "import_photo": _LENT * 2,
    "salvage": _LENT * 3,
    "save": _LENT * 4,
    "restore": _LENT * 4,
    "judge": (_PLACE,) + _LENT + (_PLACE,) + _LENT,
    "step": _LENT * 7,
    "audit": _BOOK + _LENT * 8,
    "audit_end": _BOOK + _LENT * 7,
    "audit_changed": _BOOK + _LENT * 2 + (ctypes.c_uint32,) + _LENT,
    "audit_summary": _BOOK + _LENT * 2,
}


class Refusal(Exception):
    """A call that was refused, by its number; it changed nothing."""

    def __init__(self, number, sentence=None):
        super().__init__(sentence or _SENTENCES.get(number, "refusal %d" % number))
        self.number = number

    def __reduce__(self):
        # so that a worker's refusal reaches the process that started it
        return Refusal, (self.number, str(self))


class Parts(NamedTuple):
    """What a save has, in loose pieces; the ROM is no part of it.

    The frame store is the image of the last start, lit under the registers it took.
    """

    state: bytes
    ram: bytes
    store: bytes


class Element(NamedTuple):
    """An element of the 4 by 4 matrix, row and column from 0 to 3."""

    row: int
    column: int


class Salvaged(NamedTuple):
    """A bus script that was salvaged: the lines kept, each with its LF, and a byte for each line of the script: 0 kept,
    1 malformed, 2 accepted but dropped as repeated."""

    text: bytes
    report: bytes


# The functions of the library by their short names, once it is loaded.
_loaded = {}


def load(path=None):
    """Loads the shared library; without a path, where it is looked for. The first call does so by itself."""
    library = ctypes.CDLL(str(path)) if path is not None else _found()
    functions = {}
    for name, given in _FUNCTIONS.items():
        functions[name] = getattr(library, "gulxinett_" + name)
        functions[name].argtypes = given
        functions[name].restype = ctypes.c_uint64
    _loaded.update(functions)


def _found():
    """The library that the environment names, the repository's, or the system's."""
    named = os.environ.get("GULXINETT_LIB")
    if named:
        try:
            return ctypes.CDLL(named)
        except OSError as error:
            raise OSError("the library that GULXINETT_LIB names can't be loaded: %s" % error) from None
    built = Path(__file__).resolve().parents[2] / "target" / "lib" / _processor() / "libgulxinett.so"
    if built.exists():
        return ctypes.CDLL(str(built))
    try:
        return ctypes.CDLL("libgulxinett.so")
    except OSError:
        raise OSError(
            "there is no libgulxinett.so: GULXINETT_LIB is not set, %s is not there ('./build native' of the "
            "repository makes it), and the system has none" % built
        ) from None


def _processor():
    """This machine's processor, by the name its folder has."""
    machine = platform.machine().lower()
    return {"x86_64": "x86-64", "amd64": "x86-64", "arm64": "aarch64"}.get(machine, machine)


def _call(name, *words):
    """Calls a function with lent memory and numbers; its value, or its refusal raised."""
    if not _loaded:
        load()
    answer = _loaded[name](*words)
    if answer >> 32:
        raise Refusal(answer >> 32)
    return answer & 0xFFFF_FFFF


def _lent(*pieces):
    """Pieces of memory as the functions take them: place and length of each."""
    return [word for piece in pieces for word in (piece, len(piece))]


def _memory(what, value):
    """A copy of some bytes, as memory that can be lent."""
    try:
        view = memoryview(value)
    except TypeError:
        raise TypeError("%s must be bytes, not %s" % (what, type(value).__name__)) from None
    if view.itemsize != 1:
        raise TypeError("%s must be bytes, not items of %d bytes" % (what, view.itemsize))
    return (ctypes.c_ubyte * view.nbytes).from_buffer_copy(view.tobytes())


def _exactly(length, what, value):
    """A copy of bytes of which there must be so many."""
    memory = _memory(what, value)
    if len(memory) != length:
        raise ValueError("%s must be %d bytes, not %d" % (what, length, len(memory)))
    return memory


def _up_to(most, what, value):
    """A whole number from 0 to the most there is."""
    try:
        number = operator.index(value)
    except TypeError:
        raise TypeError("%s must be a whole number, not %s" % (what, type(value).__name__)) from None
    if not 0 <= number <= most:
        raise ValueError("%s must be a whole number from 0 to %d, not %d" % (what, most, number))
    return number


def layout_of(state):
    """The layout that a state record's bytes were saved in, whichever version saved them; None if they are no record's."""
    first = bytes(state[:1])
    if first > b"\1":
        return first[0]
    return 1 if len(state) == _FIRST_LAYOUT_BYTES else None


def _of_its_layout(refusal, state):
    """A refusal of what a cartridge was given; where the state is of another layout, it says so."""
    layout = layout_of(state)
    if refusal.number != 1 or layout in (None, LAYOUT):
        return refusal
    return Refusal(
        1, "the state is of layout %d, and this program reads layout %d: another version saved it" % (layout, LAYOUT)
    )


def picture(frame, registers):
    """The whole picture of a frame under 54 registers taken, as RAM bank 0 gets it from offset 100h on."""
    frame, registers = _memory("the frame", frame), _exactly(REGISTERS, "the registers", registers)
    area = (ctypes.c_ubyte * PICTURE_BYTES)()
    _call("picture", *_lent(frame), registers, area)
    return bytes(area)


def judge(area, frame, registers):
    """Which rows of a picture area, 3,584 bytes, are those of the picture of a frame under 54 registers taken: a byte for
    each of the 112 rows, 1 for the same and 0 for another."""
    area, registers = _exactly(PICTURE_BYTES, "the area", area), _exactly(REGISTERS, "the registers", registers)
    frame, rows = _memory("the frame", frame), (ctypes.c_ubyte * PICTURE_ROWS)()
    _call("judge", area, *_lent(frame), registers, *_lent(rows))
    return bytes(rows)


def salvage(script):
    """Keeps the accepted lines of a bus script of at most 32,768 bytes, in order and unaltered; where they are a sequence
    that starts with reset followed by itself, one half of them, again until they are not. A last line without LF gains
    one."""
    script = _memory("the script", script)
    text, report = (ctypes.c_ubyte * (len(script) + 1))(), (ctypes.c_ubyte * len(script))()
    lines, length = divmod(_call("salvage", *_lent(script, text, report)), 0x1_0000)
    return Salvaged(bytes(text[:length]), bytes(report[:lines]))


# Tells the writes of this process apart, which may overlap.
_written = itertools.count()


def write_whole(path, data):
    """Writes a file so that a kill at any moment leaves the old one or the new one, whole: beside it, flushed to the disk,
    then renamed over it. What a kill leaves beside it, `.PROCESS-NUMBER.part` after its name, may be removed. A link stays
    one, a file keeps its rights, and what is no file on a disk, as a pipe, is written straight."""
    path = os.fsdecode(path)
    mode = os.stat(path).st_mode if os.path.lexists(path) else None
    if mode is not None:
        # a file that may not be written is not replaced either, and a folder can't be opened
        with open(path, "ab" if stat.S_ISREG(mode) else "wb") as old:
            if not stat.S_ISREG(mode):
                old.write(data)
                return
        # where a link leads, so that it stays one
        path = os.path.realpath(path)
    beside = "%s.%d-%d.part" % (path, os.getpid(), next(_written))
    try:
        with open(beside, "wb") as file:
            if mode is not None:
                os.chmod(beside, stat.S_IMODE(mode))
            file.write(data)
            file.flush()
            os.fsync(file.fileno())
        os.replace(beside, path)
    except BaseException:
        if os.path.exists(beside):
            os.remove(beside)
        raise
    if os.name == "posix":
        # so that the disk knows the new name
        folder = os.open(os.path.dirname(path) or os.curdir, os.O_RDONLY)
        try:
            os.fsync(folder)
        finally:
            os.close(folder)


class _Recorder:
    """What was done to a cartridge, as the lines of a script, and what they tell of the image."""

    def __init__(self, image_known):
        """The image is known if it is the one that a script begins with."""
        self.script = bytearray()
        self._room = (ctypes.c_ubyte * _LINE_BYTES)()
        # every row of the image has a line
        self._rows_written = False
        # whoever plays the lines has the image that the cartridge has
        self._image_known = image_known

    def note(self, kind, *words):
        """Appends a line as the library writes it."""
        length = _call("record_" + kind, *words, *_lent(self._room))
        self.script += memoryview(self._room)[:length]

    def before_line(self, image):
        """A line is about to be carried out, which may be a write: the image may have to be told first."""
        if not self._image_known:
            self.lend(image, image)

    def line(self, line):
        """Notes a line that was carried out, without its LF."""
        self.script += bytes(line) + b"\n"

    def write(self, image, address, value):
        """Notes a write; it is lent the image, which may have to be told first."""
        self.before_line(image)
        self.note("write", address, value)

    def choose(self, image, state):
        """Notes a choice, which left this state, as the writes it amounts to: to the registers, and select back."""
        self.write(image, 0x4000, 0x10)
        for number in _CHOSEN:
            self.write(image, 0xA000 + number, state[_REGISTERS_OFFSET + number])
        self.write(image, 0x4000, state[_SELECT_OFFSET])

    def place(self, image, state, area):
        """Notes a placing, which left this area and kept this state, as the writes it amounts to: RAM writing on,
        select to bank 0, the bytes of the area, select and RAM writing back."""
        self.write(image, 0x0000, 0x0A)
        self.write(image, 0x4000, 0)
        for address, byte in enumerate(area, 0xA100):
            self.write(image, address, byte)
        self.write(image, 0x4000, state[_SELECT_OFFSET])
        self.write(image, 0x0000, 0x0A if state[_ENABLE_OFFSET] else 0)

    def lend(self, before, now):
        """Another image is lent: the rows that changed, and the first time all."""
        before, now = bytes(before), bytes(now)
        for row, place in enumerate(range(0, len(now), _ROW_BYTES)):
            there = slice(place, place + _ROW_BYTES)
            if not self._rows_written or before[there] != now[there]:
                self.note("row", row, *_lent(_memory("the row", now[there])))
        self._rows_written = self._image_known = True


class Cartridge:
    """A cartridge: state, ROM, RAM, frame store and the image lent.

    Without a word: one bank of ROM and of RAM full of FF, the state after reset, a frame store of 00.
    """

    def __init__(self, rom=None, ram=None, state=None, store=None):
        self._state = _memory("the state", bytes(STATE_BYTES) if state is None else state)
        self._rom = _memory("the ROM", b"\xff" * ROM_BANK if rom is None else rom)
        self._ram = _memory("the RAM", b"\xff" * RAM_BANK if ram is None else ram)
        self._store = _memory("the frame store", bytes(FRAME_BYTES) if store is None else store)
        self._image = _memory("the image", bytes(FRAME_BYTES))
        self._closed = False
        # the image is the one a script begins with: the job begins here, and none was lent yet
        self._image_untouched = state is None
        self._recorder = None
        if state is None:
            self.reset()
        # the library judges what was given: a read looks at state, ROM and RAM, no cycles at the store too
        try:
            self.read(0)
            self.tick(0)
        except Refusal as refusal:
            raise _of_its_layout(refusal, self._state) from None

    @classmethod
    def restore(cls, file, rom=None):
        """A cartridge that goes on from a save file, made here or in another language; refused as 8 if it is not exactly
        one."""
        file = _memory("the save", file)
        rest = len(file) - SAVE_BYTES
        ram = (ctypes.c_ubyte * (rest if rest in _RAM_LENGTHS else RAM_BANK))()
        state, store = (ctypes.c_ubyte * STATE_BYTES)(), (ctypes.c_ubyte * FRAME_BYTES)()
        _call("restore", *_lent(file, state, ram, store))
        return cls(rom=rom, state=state, ram=ram, store=store)

    @classmethod
    def from_parts(cls, parts, rom=None):
        """A cartridge that goes on from loose pieces."""
        try:
            parts = Parts(*parts)
        except TypeError:
            raise TypeError("the parts must be state, ram and store") from None
        for part, value in parts._asdict().items():
            _memory("the save's " + part, value)
        return cls(rom=rom, **parts._asdict())

    @classmethod
    def from_battery(cls, ram, rom=None):
        """A cartridge as after reset over a battery save of another emulator, which is the RAM as it is: 131,072 bytes of a
        real cartridge."""
        return cls(rom=rom, ram=_memory("the battery save", ram))

    def _open(self):
        if self._closed:
            raise ValueError("the cartridge is closed")

    def _count(self, place):
        """A count of captures as it stands in the state."""
        self._open()
        return int.from_bytes(bytes(self._state[place : place + 2]), "little")

    @property
    def started(self):
        """Captures started since reset, 65,536 counting as 0; as a capture starts this becomes its plate's serial."""
        return self._count(_STARTED_OFFSET)

    @property
    def ended(self):
        """Captures that reached their end since reset, counted likewise."""
        return self._count(_ENDED_OFFSET)

    def _note(self, kind, *words):
        """Lets the recorder note a call, if it is switched on."""
        if self._recorder:
            self._recorder.note(kind, *words)

    def reset(self):
        """Resets the state; RAM, frame store and image stay."""
        self._open()
        self._note("reset")
        _call("reset", *_lent(self._state))

    def read(self, address):
        """The byte at an address."""
        self._open()
        address = _up_to(0xFFFF, "the address", address)
        self._note("read", address)
        return _call("read", *_lent(self._state, self._rom, self._ram), address)

    def write(self, address, value):
        """Writes a byte to an address; a start lights the image lent into the frame store."""
        self._open()
        address, value = _up_to(0xFFFF, "the address", address), _up_to(0xFF, "the value", value)
        if self._recorder:
            self._recorder.write(self._image, address, value)
        _call("write", *_lent(self._state, self._ram, self._store, self._image), address, value)

    def tick(self, cycles):
        """Lets cycles pass; how many of them fell while a capture was running."""
        self._open()
        cycles = _up_to(0xFFFF_FFFF, "the cycles", cycles)
        self._note("tick", cycles)
        return _call("tick", *_lent(self._state, self._ram, self._store), cycles)

    def step(self, line):
        """Carries out a line of a bus script, without its LF, as the program `bus` does; its answer, with the LF. A
        malformed line is answered `06` and changes nothing; a recorder has every other as it is."""
        self._open()
        line, answer = _memory("the line", line), (ctypes.c_ubyte * _ANSWER_BYTES)()
        if self._recorder:
            self._recorder.before_line(self._image)
        length = _call("step", *_lent(self._state, self._rom, self._ram, self._store, self._image, line, answer))
        answer = bytes(answer[:length])
        if answer != _MALFORMED:
            if bytes(line[:2]) == b"04":
                self._image_untouched = False
            if self._recorder:
                self._recorder.line(line)
        return answer

    def choose(self, *, light, level, dithering=True, exposure=None):
        """Writes the matrix of a light set (0 high light, 1 low light) and a level (0 the lowest contrast, 7 the default,
        15 the highest) and the exposure, 1000h if none is named; nothing else changes, and no capture held."""
        self._open()
        light, level = _up_to(0xFF, "the light set", light), _up_to(0xFF, "the level", level)
        if not isinstance(dithering, bool):
            raise TypeError("dithering must be True or False, not %s" % type(dithering).__name__)
        exposure = _UNNAMED if exposure is None else _up_to(0xFFFF, "the exposure", exposure)
        _call("choose", *_lent(self._state), light, level, not dithering, exposure)
        if self._recorder:
            self._recorder.choose(self._image, self._state)

    def inspect(self) -> Optional[Element]:
        """The first element of the current matrix whose three values don't rise or stay level, if there is one."""
        self._open()
        value = _call("inspect", *_lent(self._state))
        return Element(value >> 4 & 15, value & 15) if value else None

    def lend(self, image):
        """Lends an image of 16,384 bytes to the writes that follow; until then it is all 00."""
        self._open()
        image = _memory("the image", image)
        if len(image) != FRAME_BYTES:
            raise Refusal(4)
        if self._recorder:
            self._recorder.lend(self._image, image)
        self._image = image
        self._image_untouched = False

    def lend_photo(self, file):
        """Lends the image of a colour photograph, a Netpbm P6 file of 128 by 128 pixels with largest value 255."""
        self._open()
        file, image = _memory("the photograph", file), (ctypes.c_ubyte * FRAME_BYTES)()
        _call("import_photo", *_lent(file, image))
        self.lend(image)

    def record(self):
        """Switches the recorder on: from here on every call, refused ones too, is a line of a script that the
        program `bus` plays, and an image lent is its rows. Switched on again, it goes on."""
        self._open()
        self._recorder = self._recorder or _Recorder(self._image_untouched)

    def recording(self):
        """The script so far; empty if the recorder was never switched on."""
        self._open()
        return bytes(self._recorder.script) if self._recorder else b""

    def picture(self, frame=None, registers=None):
        """The picture afresh: by itself that of the image lent, under the registers as last written."""
        self._open()
        written = bytes(self._state)[_REGISTERS_OFFSET : _REGISTERS_OFFSET + REGISTERS]
        return picture(self._image if frame is None else frame, written if registers is None else registers)

    def area(self):
        """The picture area as it stands in RAM, 3,584 bytes."""
        self._open()
        return bytes(self._ram[PICTURE_OFFSET : PICTURE_OFFSET + PICTURE_BYTES])

    def plate(self):
        """The picture area as it stands, as a grey image: a Netpbm P5 file of 14,351 bytes."""
        self._open()
        file = (ctypes.c_ubyte * PLATE_BYTES)()
        _call("export", *_lent(self._ram, file))
        return bytes(file)

    def place(self, file):
        """Places a grey image as `plate` makes it in the picture area, whether or not RAM writing is enabled; not while
        a capture is held."""
        self._open()
        file = _memory("the plate", file)
        _call("place", *_lent(self._state, self._ram, file))
        if self._recorder:
            self._recorder.place(self._image, self._state, self.area())

    def shades(self):
        """The picture area as it stands, one shade a byte, 0 white to 3 black: 14,336 of them, row by row."""
        self._open()
        shades = (ctypes.c_ubyte * SHADES_BYTES)()
        _call("shades", *_lent(self._ram, shades))
        return bytes(shades)

    def readings(self):
        """The reading of each pixel before the matrix makes a shade of it, from 0 to 255, as a grey image like `plate`'s:
        of the capture held, the whole of it however far it has run."""
        self._open()
        file = (ctypes.c_ubyte * PLATE_BYTES)()
        _call("readings", *_lent(self._state, self._store, file))
        return bytes(file)

    def save(self):
        """State, RAM and frame store as one save file, with a checksum over all of it; `write_whole` puts it in its place
        whole."""
        self._open()
        file = (ctypes.c_ubyte * (SAVE_BYTES + len(self._ram)))()
        _call("save", *_lent(self._state, self._ram, self._store, file))
        return bytes(file)

    def parts(self):
        """Copies of state, RAM and frame store, in loose pieces."""
        self._open()
        return Parts(bytes(self._state), bytes(self._ram), bytes(self._store))

    def battery(self):
        """A copy of the RAM as it is, which is the battery save that other emulators read."""
        self._open()
        return bytes(self._ram)

    def close(self):
        """Gives the memory back; every later call but this one is an error."""
        self._closed = True
        self._state = self._rom = self._ram = self._store = self._image = self._recorder = None

    def __enter__(self):
        self._open()
        return self

    def __exit__(self, *_):
        self.close()


class Audit:
    """A recording, a bus script of any length, that is played in pieces, and what is said of it: events, each a line of
    keys and values. docs/AUDIT.md has them. Memory does not grow with the recording.

    It begins as the program `bus` does, with one bank of RAM full of FF, or with the RAM of a battery save.
    """

    def __init__(self, ram=None):
        with Cartridge(ram=ram) as begun:
            parts = begun.parts()
        self._book = (ctypes.c_uint64 * _BOOK_WORDS)()
        self._line = (ctypes.c_ubyte * _LINE_BYTES)()
        self._out = (ctypes.c_ubyte * _EVENTS_BYTES)()
        self._state, self._ram, self._store = (_memory("the parts", part) for part in parts)
        self._rom, self._image = _memory("the ROM", b"\xff" * ROM_BANK), _memory("the image", bytes(FRAME_BYTES))
        # the RAM before the first line
        self._first = _memory("the RAM", parts.ram)
        self._finished = False

    def _played(self, name, *words):
        """Lends a call all that a recording is played over; its value."""
        if self._finished:
            raise ValueError("the recording has ended")
        session = _lent(self._state, self._rom, self._ram, self._store, self._image)
        return _call(name, *_lent(self._book, self._line), *session, *words, *_lent(self._out))

    def _said(self):
        """The events that a call has written."""
        return bytes(self._out[: self._book[0]]).decode("ascii").splitlines(keepends=True)

    def feed(self, piece):
        """Plays a piece of the recording, which may end anywhere; the events of the lines that ended in it, each a text
        with its LF."""
        piece = _memory("the piece", piece)
        events, place = [], 0
        while place < len(piece):
            rest = ctypes.cast(ctypes.addressof(piece) + place, _PLACE)
            place += self._played("audit", rest, len(piece) - place)
            events += self._said()
        return events

    def finish(self):
        """Ends the recording; the events of a last line without LF, of the capture that is held, of what has changed outside
        the picture area, and the summary."""
        self._played("audit_end")
        self._finished = True
        events, place = self._said(), 0
        while place < len(self._ram):
            place = _call("audit_changed", *_lent(self._book, self._first, self._ram), place, *_lent(self._out))
            events += self._said()
        _call("audit_summary", *_lent(self._book, self._state, self._out))
        return events + self._said()
