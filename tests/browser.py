"""The desk, as a person uses it, in a real browser. usage: browser.py DRIVER CHROMIUM WORK SCREENSHOTS

What is downloaded is compared with what the native library and the program `bus` give for the same specimen and choice.
"""

import base64
import http.client
import re
import signal
import socket
import struct
import subprocess
import sys
import threading
import zlib
from pathlib import Path
from urllib.parse import urlsplit

TOP = Path(__file__).resolve().parent.parent
sys.path.insert(0, str(TOP / "bindings" / "python"))
from gulxinett import PICTURE_OFFSET, RAM_BANK, Cartridge  # noqa: E402
from webdriver import ELEMENT, KEYS, PATIENCE, Browser, Failure, ensure, wait_for  # noqa: E402

FIRST = {"light": 0, "level": 7, "dithering": True, "exposure": 0x180}
FIRST_LOAD = 100_000
MOVES = 120
# how often a person tries to be in time, on a machine that may be too busy for that; then the page is held up
TRIES = 3
P6 = b"P6\n128 128\n255\n"


def pixels(colour, width=128, height=128):
    return bytes(value & 255 for y in range(height) for x in range(width) for value in colour(x, y))


def within(x, y, left, top, across, down):
    """How far from the middle of an ellipse a place is, in hundredths; 100 is its edge."""
    return (100 * (x - left) ** 2 * down ** 2 + 100 * (y - top) ** 2 * across ** 2) // (across * down) ** 2


def beetle(x, y):
    """A beetle on paper that lies in the light from the left."""
    wings, neck, head = within(x, y, 64, 76, 27, 37), within(x, y, 64, 40, 21, 13), within(x, y, 64, 24, 11, 9)
    shine = within(x, y, 54, 64, 14, 30)
    if wings < 100:
        return (30, 60, 40) if abs(x - 64) < 2 else (60 + max(0, 110 - shine), 80 + max(0, 120 - shine), 70) if wings < 88 else (20, 30, 25)
    if neck < 100:
        return (50 + max(0, 90 - 2 * abs(x - 56)), 60 + max(0, 60 - 2 * abs(x - 56)), 50)
    if head < 100:
        return (35, 40, 38)
    side = abs(x - 64)
    legs = side < 50 and any(abs(y - start - slope * (side - 20) // 8) < 2 for start, slope in ((40, -5), (70, 2), (90, 8)))
    feelers = y < 22 and abs(side - (24 - y)) < 2
    return (25, 25, 25) if legs or feelers else (235 - x // 2, 225 - x // 2, 200 - x // 2)


def leaf(x, y):
    """A pressed leaf, on a darker sheet."""
    along, off = (x + y) // 2, x - y
    blade = within(64 + off // 2, along, 64, 64, 20, 54)
    if blade < 100:
        vein = abs(off) < 3 or (along - abs(off) // 2) % 12 < 2
        return (190, 200, 120) if vein else (70 + blade // 2, 110 + blade // 2, 50)
    return (150 + y // 3, 140 + y // 3, 120 + y // 3)


BEETLE, LEAF = pixels(beetle), pixels(leaf)


def grey(colours):
    """The image of a photograph, by the rule of #104."""
    return bytes((2 * r + 5 * g + b) // 8 for r, g, b in zip(colours[::3], colours[1::3], colours[2::3]))


def png(colours, width=128, height=128):
    """A PNG file of three bytes a pixel."""
    def chunk(kind, data):
        return struct.pack(">I", len(data)) + kind + data + struct.pack(">I", zlib.crc32(kind + data))
    rows = b"".join(b"\0" + colours[3 * width * y:3 * width * (y + 1)] for y in range(height))
    return b"\x89PNG\r\n\x1a\n" + chunk(b"IHDR", struct.pack(">IIBBBBB", width, height, 8, 2, 0, 0, 0)) + chunk(b"IDAT", zlib.compress(rows)) + chunk(b"IEND", b"")


def bmp(colour, width, height):
    """A BMP file of one colour, its width a multiple of four."""
    body = bytes(reversed(colour)) * (width * height)
    return b"BM" + struct.pack("<IIIIiiHHIIiiII", 54 + len(body), 0, 54, 40, width, height, 1, 24, 0, len(body), 2835, 2835, 0, 0) + body


def reds(file):
    """The first byte of each pixel of a PNG file of 8 bits a value."""
    place, data = 8, b""
    while place < len(file):
        length, kind = struct.unpack(">I4s", file[place:place + 8])
        body = file[place + 8:place + 8 + length]
        if kind == b"IHDR":
            width, height, _, colour = struct.unpack(">IIBB", body[:10])
        if kind == b"IDAT":
            data += body
        place += length + 12
    each = {0: 1, 2: 3, 4: 2, 6: 4}[colour]
    data, before, found = zlib.decompress(data), bytearray(width * each), b""
    for y in range(height):
        kind, row = data[y * (width * each + 1)], bytearray(data[y * (width * each + 1) + 1:(y + 1) * (width * each + 1)])
        for at in range(len(row)):
            left, up, corner = (row[at - each] if at >= each else 0), before[at], (before[at - each] if at >= each else 0)
            near = min((abs(up - corner), 0, left), (abs(left - corner), 1, up), (abs(left + up - 2 * corner), 2, corner))[2]
            row[at] = (row[at] + (0, left, up, (left + up) // 2, near)[kind]) & 255
        found, before = found + bytes(row[::each]), row
    return width, height, found


def taken(colours, choice):
    """The plate and the readings of a specimen under a choice, by the native library."""
    with Cartridge() as cartridge:
        cartridge.lend_photo(P6 + colours)
        cartridge.write(0x4000, 0x10)
        cartridge.choose(**choice)
        cartridge.write(0xA000, 3)
        readings = cartridge.readings()
        cartridge.tick(0xFFFFFFFF)
        return cartridge.plate(), readings


def played(recording):
    """The plate that the program has after it played a recording."""
    reads = "".join("01%04X\n" % address for address in range(0xA100, 0xAF00))
    script = recording + ("02400000\n" + reads).encode()
    answers = subprocess.run([TOP / "target/native/bus"], input=script, stdout=subprocess.PIPE, check=True).stdout.split()
    area = bytes(int(answer[2:], 16) for answer in answers[-3584:])
    ram = bytes(PICTURE_OFFSET) + area + bytes(RAM_BANK - PICTURE_OFFSET - len(area))
    with Cartridge(ram=ram) as cartridge:
        return cartridge.plate()


def audited(recording, ram, work):
    """The events of a recording by the second program, each as its keys and values."""
    words = [TOP / "second/target/release/second", "audit"]
    if ram:
        (work / "battery").write_bytes(ram)
        words.append(work / "battery")
    lines = subprocess.run(words, input=recording, stdout=subprocess.PIPE, check=True).stdout.decode().splitlines()
    return [dict(zip(line.split()[::2], line.split()[1::2])) for line in lines]


class Counter:
    """A server before the server, which counts the bytes that a browser is sent."""

    def __init__(self, port):
        self.behind, self.sent, self.listening = port, 0, socket.create_server(("127.0.0.1", 0))
        self.port = self.listening.getsockname()[1]
        threading.Thread(target=self._serve, daemon=True).start()

    def _serve(self):
        while True:
            try:
                client, _ = self.listening.accept()
            except OSError:
                return
            server = socket.create_connection(("127.0.0.1", self.behind))
            for source, sink, counted in ((client, server, False), (server, client, True)):
                threading.Thread(target=self._pass_on, args=(source, sink, counted), daemon=True).start()

    def _pass_on(self, source, sink, counted):
        try:
            while data := source.recv(65536):
                self.sent += len(data) if counted else 0
                sink.sendall(data)
            sink.shutdown(socket.SHUT_WR)
        except OSError:
            # one of the two has hung up
            pass

    def close(self):
        self.listening.close()


class Person:
    """Somebody at the desk."""

    def __init__(self, start, url, work, screenshots):
        """`start` starts a browser, the same one each time."""
        self.start, self.url, self.work, self.screenshots = start, url, Path(work), Path(screenshots)
        self.browser, self.looks = start(), 0

    def sit_down(self):
        self.browser.open(self.url)
        self.ready()

    def ready(self):
        wait_for("the desk is ready", lambda: self.browser.run("return document.readyState === 'complete' && document.getElementById('desk')?.inert === false"))

    def kept_offline(self):
        """Waits until the page's files are kept for when there is no server."""
        wait_for("the page's files are kept", lambda: self.browser.run_async(
            "const done = arguments[0]; navigator.serviceWorker.ready.then(() => caches.open('gulxinett-desk')).then((c) => c.keys()).then((k) => done(k.length > 12))"))

    def look(self, name, at=None):
        """Keeps how the page looks: the whole of it, or what is seen from a part of it on."""
        self.looks += 1
        self.browser.run("scrollTo(0, 0); if (arguments[0]) document.querySelector(arguments[0]).scrollIntoView()", at)
        self.browser.screenshot(self.screenshots / ("%02d-%s.png" % (self.looks, name)), at is None)

    def look_at_failure(self):
        try:
            print("browser: it said %r %r" % (self.status(), self.error()), file=sys.stderr)
            self.browser.screenshot(self.screenshots / "failed.png", True)
        except (Failure, OSError):
            print("browser: there is no page to look at", file=sys.stderr)

    def status(self):
        return self.browser.text("#status")

    def error(self):
        return self.browser.text("#error")

    def file(self, name, content):
        path = self.work / name
        path.write_bytes(content)
        return str(path)

    def give(self, selector, names, contents):
        """Chooses a file in an input, or files; waits for what the page says of it."""
        names, contents = ([names], [contents]) if isinstance(names, str) else (names, contents)
        self.browser.run("for (const id of ['status', 'error']) document.getElementById(id).textContent = ''")
        self.browser.type(selector, "\n".join(self.file(name, content) for name, content in zip(names, contents)))
        wait_for("the page says something of %s" % ", ".join(names), lambda: self.status() or self.error())

    def drop(self, name, content):
        self.browser.drop("#drop", name, content)
        wait_for("%s is lent" % name, lambda: self.status() == "%s is lent." % name)

    def speed(self, value):
        self.browser.click("[name=speed][value='%s']" % value)

    def level(self, level):
        """Moves the slider by its keys."""
        self.browser.press("#level", "Home")
        if level:
            self.browser.press("#level", "ArrowRight", level)

    def plate(self):
        return self.browser.downloaded("#p5", "plate.pgm")

    def done(self):
        wait_for("the plate is done", lambda: "is done" in self.status())

    def elapsed(self):
        return self.browser.run("return document.getElementById('progress').value")

    def under_way(self, cycles, held_up=False):
        """Takes a plate slowly and waits until it has run so many cycles; a page that is held up draws no frame from then on."""
        self.speed("16384")
        if held_up:
            self.browser.run("""
              const [cycles] = arguments, bar = document.getElementById('progress'), frame = window.requestAnimationFrame.bind(window);
              window.goOn = () => { window.requestAnimationFrame = frame; };
              window.requestAnimationFrame = (work) => frame((now) => { if (bar.value < cycles) work(now); });
            """, cycles)
        self.browser.click("#take")
        wait_for("the capture has run %d cycles" % cycles, lambda: self.elapsed() >= cycles or "is done" in self.status())

    def half(self, cycles, before=lambda: None):
        """Takes a plate slowly and stops it after so many cycles; one that has ended meanwhile is taken again."""
        for tried in range(TRIES + 1):
            before()
            self.under_way(cycles, tried == TRIES)
            self.browser.click("#stop")
            wait_for("it is stopped", lambda: self.status().startswith("Stopped") or "is done" in self.status())
            if self.status().startswith("Stopped"):
                break
        self.browser.run("window.goOn?.()")
        ensure(self.browser.enabled("#resume"), "a capture can't be stopped half way and resumed: %s" % self.status())

    def listen(self):
        """Keeps what the page says from here on, as a screen reader hears it."""
        self.browser.run("""
          window.heard = [];
          new MutationObserver(() => window.heard.push(document.getElementById('status').textContent))
            .observe(document.getElementById('status'), { childList: true, characterData: true, subtree: true });
        """)

    def heard(self):
        return self.browser.run("return window.heard")

    def keys(self, *names):
        """Presses keys, wherever the focus is."""
        for name in names:
            key = KEYS.get(name, name)
            self.browser.call("POST", "/actions", {"actions": [{"type": "key", "id": "keys", "actions": [{"type": "keyDown", "value": key}, {"type": "keyUp", "value": key}]}]})

    def focus(self):
        """The control that has the focus, by its id or its name."""
        return self.browser.run("const e = document.activeElement; return e.id || e.name")

    def tab_to(self, control):
        for _ in range(60):
            if self.focus() == control:
                return
            self.keys("Tab")
        raise Failure("the Tab key does not lead to %s" % control)

    def answers(self, selector="#answers"):
        terms = self.browser.run("return [...document.querySelector(arguments[0]).children].map((e) => e.textContent)", selector)
        return dict(zip(terms[::2], terms[1::2]))

    def recording(self):
        return self.browser.downloaded("#recording", "recording.script")

    def audited(self, name, state, ram=None):
        """Sees that the four answers are what the second program says of the recording; the answers."""
        events = audited(self.recording(), ram, self.work)
        start = [event for event in events if event["event"] == "start"][-1]
        last = [event for event in events if "cycles" in event][-1]
        changed = ["bank %(bank)s, %(from)s to %(to)s" % event for event in events if event["event"] == "changed"]
        total = 32_958 + 16 * int(start["registers"][4:8], 16)
        answers = self.answers()
        wanted = {
            "Serial": start["serial"],
            "Which frame": "%s, CRC-32 %s" % (name, start["image"]),
            "Which registers": "exposure %sh%s" % (start["registers"][4:8], start["registers"]),
            "How many cycles": "{:,} of {:,}: {}".format(int(last["cycles"]), total, state),
            "What else changed": "In the save %s." % "; ".join(changed) if changed else "Nothing in the save.",
        }
        if last["event"] == "end":
            wanted["The plate"] = "CRC-32 %s: %s" % (last["plate"], last["verdict"])
        for question, answer in wanted.items():
            ensure(answer in answers.get(question, ""), "%s: not %r, but %r" % (question, answer, answers.get(question)))
        return answers


# ---- what a person does, one step after the other


def served(person):
    """The server gives the page's own files and nothing else, and its command says how it is called."""
    port = urlsplit(person.url).port
    given = {}
    for path in ("/", "/desk/", "/bindings/js/gulxinett.wasm", "/README.md", "/desk/../README.md", "/desk/serve", "/bindings/js/README.md", "/desk/%00", "/crates/"):
        connection = http.client.HTTPConnection("127.0.0.1", port, timeout=PATIENCE)
        connection.request("GET", path)
        answer = connection.getresponse()
        answer.read()
        given[path] = (answer.status, answer.getheader("Content-Type"))
        connection.close()
    html, wasm = given.pop("/desk/"), given.pop("/bindings/js/gulxinett.wasm")
    ensure(html == (200, "text/html; charset=utf-8") and wasm == (200, "application/wasm") and given.pop("/")[0] == 302, "the page is served as %s, %s" % (html, wasm))
    ensure(all(status == 404 for status, _ in given.values()), "the server gives more than the page: %s" % given)
    for words, status in ((["--help"], 0), (["--port"], 2), (["--port", "x"], 2), (["more"], 2), (["--port", str(port)], 1)):
        said = subprocess.run([TOP / "desk/serve", *words], stdout=subprocess.PIPE, stderr=subprocess.PIPE, text=True, timeout=PATIENCE)
        ensure(said.returncode == status and (said.stdout + said.stderr), "desk/serve %s ends with %d" % (" ".join(words), said.returncode))
    other = subprocess.Popen([TOP / "desk/serve"], stdout=subprocess.PIPE, stderr=subprocess.DEVNULL, text=True, preexec_fn=lambda: signal.signal(signal.SIGINT, signal.default_int_handler))
    ensure(other.stdout.readline().startswith("http://127.0.0.1:"), "desk/serve prints no address")
    other.send_signal(signal.SIGINT)
    ensure(other.wait(timeout=PATIENCE) == 0, "Ctrl-C ends desk/serve with %d" % other.returncode)
    return "the page's files and no other, until Ctrl-C"


def first_load(person):
    """Everything that the first load brings is counted, with its headers and what is kept for working offline."""
    browser, own = person.browser, person.url
    counter = Counter(urlsplit(own).port)
    person.url = "http://127.0.0.1:%d/desk/" % counter.port
    person.sit_down()
    person.kept_offline()
    loaded = browser.run(
        "return [...performance.getEntriesByType('navigation'), ...performance.getEntriesByType('resource')]"
        ".filter((e) => e.name.startsWith('http')).map((e) => [e.name, e.transferSize, e.decodedBodySize])")
    ensure(all(name.startswith(person.url.replace("desk/", "")) for name, _, _ in loaded), "something is loaded from elsewhere: %s" % loaded)
    packed, whole = sum(size for _, size, _ in loaded), sum(size for _, _, size in loaded)
    ensure(any(name.endswith(".wasm") for name, _, _ in loaded), "the module is not among what was loaded")
    ensure(packed < counter.sent < FIRST_LOAD, "the first load is %d bytes, of which the page itself has %d" % (counter.sent, packed))
    counter.close()
    person.url = own
    person.sit_down()
    person.look("first")
    return "%d bytes sent in all; %d files, %d bytes unpacked" % (counter.sent, len(loaded), whole)


def lend_and_choose(person):
    """A photograph is dropped; the plate is drawn afresh as the sliders move."""
    browser = person.browser
    ensure(not browser.enabled("#take"), "there is something to take before a specimen is lent")
    person.drop("beetle.ppm", P6 + BEETLE)
    ensure(browser.greys("#specimen") == grey(BEETLE), "the specimen is not the photograph's grey")
    plate, readings = taken(BEETLE, FIRST)
    ensure(browser.greys("#preview") == plate[15:], "the picture afresh is not the library's")
    ensure(browser.greys("#preview-readings") == readings[15:], "the readings are not the library's")
    person.look("specimen")
    choice = {**FIRST, "light": 1, "level": 11, "dithering": False, "exposure": 0x234}
    browser.click("[name=light][value='1']")
    person.level(11)
    browser.click("#dithering")
    browser.clear("#steps")
    browser.type("#steps", str(0x234))
    ensure(browser.greys("#preview") == taken(BEETLE, choice)[0][15:], "the picture afresh is not the library's once all is chosen")
    ensure("0234h" in browser.text("#exposure-words"), "the exposure's words are %s" % browser.text("#exposure-words"))
    browser.call("POST", "/refresh", {})
    person.ready()
    ensure(browser.greys("#preview") == taken(BEETLE, choice)[0][15:], "loaded again, the choice is another")
    person.look("chosen")
    for word, sentence in (("70000", "65,535"), ("", "65,535")):
        browser.run("const s = document.getElementById('steps'); s.value = arguments[0]; s.dispatchEvent(new Event('input', { bubbles: true }))", word)
        ensure(sentence in person.error(), "exposure %r has no sentence" % word)
    browser.clear("#steps")
    browser.type("#steps", str(0x180))
    browser.click("[name=light][value='0']")
    browser.click("#dithering")
    person.level(7)
    ensure(browser.greys("#preview") == plate[15:] and person.error() == "", "chosen back, the plate is another")
    return "the picture afresh and its readings are the library's"


def pictures(person):
    """A PNG of the same pixels is the same specimen; of a larger picture, whichever the browser opens, it is the middle square."""
    browser = person.browser
    person.give("#photo", "beetle.png", png(BEETLE))
    ensure(person.browser.greys("#specimen") == grey(BEETLE), "a PNG of 128 by 128 is not lent pixel for pixel")
    wide = pixels(lambda x, y: ((250, 250, 250) if x < 100 or x >= 300 else (16, 80, 48)), 400, 200)
    person.give("#photo", "wide.png", png(wide, 400, 200))
    seen = person.browser.greys("#specimen")
    ensure(all(value == (2 * 16 + 5 * 80 + 48) // 8 for value in seen), "a wide picture is not its middle square: %s" % sorted(set(seen)))
    ink = (2 * 200 + 5 * 120 + 40) // 8
    kinds = browser.run(
        "const c = Object.assign(document.createElement('canvas'), { width: 300, height: 200 }), x = c.getContext('2d');"
        "x.fillStyle = 'rgb(200, 120, 40)'; x.fillRect(0, 0, 300, 200);"
        "return ['jpeg', 'webp'].map((kind) => [kind, c.toDataURL('image/' + kind, 1).split(',')[1]])")
    drawing = b'<svg xmlns="http://www.w3.org/2000/svg" width="300" height="200"><rect width="300" height="200" fill="rgb(200,120,40)"/></svg>'
    for kind, content in [(kind, base64.b64decode(digits)) for kind, digits in kinds] + [("bmp", bmp((200, 120, 40), 300, 200)), ("svg", drawing)]:
        person.give("#photo", "picture." + kind, content)
        ensure(person.error() == "", "a picture of kind %s is not opened: %s" % (kind, person.error()))
        ensure(all(abs(value - ink) <= 2 for value in browser.greys("#specimen")), "a %s has another grey" % kind)
    person.give("#photo", "clear.svg", b'<svg xmlns="http://www.w3.org/2000/svg" width="300" height="200"/>')
    ensure(set(browser.greys("#specimen")) == {255}, "what is transparent does not stand on white")
    browser.run("dispatchEvent(new DragEvent('drop', { dataTransfer: new DataTransfer(), cancelable: true }))")
    wait_for("there is a sentence for a drop of no file", lambda: "it is no file" in person.error())
    person.drop("beetle.ppm", P6 + BEETLE)
    return "PNG pixel for pixel, a wide picture by its middle square; JPEG, WebP, BMP and SVG are opened"


def take_at_once(person):
    """A plate at once, downloaded in both kinds."""
    browser = person.browser
    plate, readings = taken(BEETLE, FIRST)
    person.speed("Infinity")
    browser.click("#take")
    person.done()
    ensure(person.plate() == plate, "the plate that was downloaded is not the library's")
    ensure(browser.greys("#plate") == plate[15:] and browser.greys("#readings") == readings[15:], "plate or readings are not shown")
    ensure(reds(browser.downloaded("#png", "plate.png")) == (128, 112, plate[15:]), "the PNG has other pixels than the plate")
    browser.press("#plate", "ArrowRight")
    browser.press("#plate", "ArrowDown")
    ensure(browser.text("#point").endswith("reading %d" % readings[15 + 129]) and "Column 1, row 1" in browser.text("#point"), "the reading at a pixel is not told")
    answers = person.audited("beetle.ppm", "ended.")
    ensure("CRC-32 %08X" % zlib.crc32(grey(BEETLE)) in answers["Which frame"], "the frame is another: %s" % answers["Which frame"])
    ensure("CRC-32 %08X: whole" % zlib.crc32(plate) in answers["The plate"], "the plate is another: %s" % answers["The plate"])
    ensure(answers["Which registers"].startswith("high light, contrast 7 (the default), dithering on, exposure 0180h"), "the desk has no words for %s" % answers["Which registers"])
    person.look("taken")
    return "P5 and PNG are the library's plate, the four answers the second program's"


def stop_and_resume(person):
    """Stopped half way, another specimen, other registers, resumed: the plate stays the first one's."""
    browser = person.browser
    plate, readings = taken(BEETLE, FIRST)
    person.listen()
    # the paper is white before each try, so that the half picture is seen
    person.half(15_000, lambda: person.give("#place", "white.pgm", b"P5\n128 112\n255\n" + b"\xff" * 14336))
    ensure("A quarter of the cycles have run." in person.heard(), "the progress is not told: %s" % person.heard())
    half = person.plate()
    drawn = sum(a == b for a, b in zip(half[15:], plate[15:]))
    ensure(half != plate and half[15:15 + 128 * 8] == plate[15:15 + 128 * 8] and half[-128:] == b"\xff" * 128, "the half picture is no half")
    ensure(browser.greys("#plate") == half[15:], "the half picture is not shown")
    ensure(not browser.enabled("#place"), "a plate can be put back while a capture is held")
    person.audited("beetle.ppm", "stopped; stopped at")
    person.look("stopped")
    person.give("#photo", "leaf.png", png(LEAF))
    person.level(2)
    ensure(browser.greys("#preview") == taken(LEAF, {**FIRST, "level": 2})[0][15:], "the second specimen's picture afresh is another")
    ensure(browser.greys("#readings") == readings[15:], "the readings are no longer the capture's")
    person.look("another-lent")
    person.speed("1048576")
    browser.click("#resume")
    person.done()
    ensure(person.plate() == plate, "the plate is not the first specimen's")
    person.look("resumed")
    ensure(played(person.recording()) == plate, "the program plays the recording to another plate")
    person.audited("beetle.ppm", "ended; stopped at")
    person.level(7)
    return "stopped with %d pixels alike, the plate is the first specimen's, and the program's from the recording" % drawn


def own_speed(person):
    """The longest capture, 1,081,518 cycles, takes a second at the cartridge's own speed, and is seen to grow."""
    browser = person.browser
    choice = {**FIRST, "exposure": 0xFFFF}
    browser.clear("#steps")
    browser.type("#steps", "65535")
    person.speed("1048576")
    # every frame's plate is looked at, from the click to the end
    browser.run("""
      window.seen = [];
      const [progress, canvas] = ['progress', 'plate'].map((id) => document.getElementById(id));
      const drawn = () => canvas.getContext('2d').getImageData(0, 0, 128, 112).data.reduce((sum, v, i) => (sum * 31 + v * (i & 255)) | 0, 7);
      const look = () => {
        window.seen.push([performance.now(), progress.value, drawn()]);
        if (!document.getElementById('status').textContent.includes('is done')) requestAnimationFrame(look);
      };
      document.getElementById('take').addEventListener('click', look, { once: true });
    """)
    browser.click("#take")
    person.done()
    seen = browser.run("return window.seen")
    took = (seen[-1][0] - seen[0][0]) / 1000
    cycles = sorted({elapsed for _, elapsed, _ in seen})
    ensure(took > 1.0, "a second's cycles took %.2f s" % took)
    ensure(len(cycles) > 2, "its cycles are not seen to grow: %s" % cycles)
    ensure(person.plate() == taken(LEAF, choice)[0], "its plate is another")
    # slowly it would take a minute
    person.under_way(1)
    person.speed("Infinity")
    person.done()
    ensure(person.plate() == taken(LEAF, choice)[0], "at two speeds its plate is another")
    browser.clear("#steps")
    browser.type("#steps", str(FIRST["exposure"]))
    return "%.2f s for 1.03 s of cycles, seen at %d moments" % (took, len(cycles))


def close_half_way(person):
    """The tab is closed as a capture runs, and picked up again."""
    browser = person.browser
    plate, _ = taken(LEAF, FIRST)
    for tried in range(TRIES + 1):
        # another tab waits until this one, in which a capture runs, is closed
        first = browser.call("GET", "/window")
        other = browser.new_tab()
        browser.open(person.url)
        wait_for("a second tab says that the desk is open", lambda: "another tab" in person.error())
        browser.tab(first)
        person.under_way(9_000, tried == TRIES)
        browser.close_tab()
        browser.tab(other)
        person.ready()
        ensure(person.status().startswith("Picked up") and person.error() == "", "nothing was picked up: %s" % person.status())
        if "a capture stands" in person.status():
            break
    ensure("Picked up: a capture stands" in person.status(), "half a capture was not picked up: %s" % person.status())
    elapsed = person.elapsed()
    ensure(0 < elapsed < 39_102, "it stands at %d cycles" % elapsed)
    ensure(browser.greys("#specimen") == grey(LEAF), "the specimen was not picked up")
    person.look("picked-up")
    person.speed("Infinity")
    browser.click("#resume")
    person.done()
    ensure(person.plate() == plate, "the plate that was picked up is another")
    recording = person.recording()
    ensure(played(recording) == plate, "the program plays the recording of both tabs to another plate")
    person.audited("leaf.png", "ended.")
    browser.call("POST", "/refresh", {})
    person.ready()
    ensure(person.plate() == plate and person.status() == "Picked up where you left it.", "the plate was not kept")
    ensure(person.recording() == recording, "the recording was not kept")
    person.audited("leaf.png", "ended.")
    return "picked up at %d cycles" % elapsed


def killed_half_way(person):
    """The browser is killed as a capture runs; another one picks it up."""
    plate, _ = taken(LEAF, FIRST)
    for tried in range(TRIES + 1):
        person.under_way(9_000, tried == TRIES)
        person.browser.kill()
        person.browser = person.start()
        person.sit_down()
        ensure(person.status().startswith("Picked up") and person.error() == "", "nothing was picked up: %s %s" % (person.status(), person.error()))
        if "a capture stands" in person.status():
            break
    elapsed = person.elapsed()
    ensure(0 < elapsed < 39_102, "it stands at %d cycles" % elapsed)
    person.speed("Infinity")
    person.browser.click("#resume")
    person.done()
    ensure(person.plate() == plate and played(person.recording()) == plate, "the plate of a browser that was killed is another")
    person.audited("leaf.png", "ended.")
    return "picked up at %d cycles" % elapsed


def damaged_files(person):
    """Files that are not what they should be: a sentence each, and nothing changes."""
    browser = person.browser
    plate, save = person.plate(), browser.downloaded("#save", "cartridge.gxsave")
    recording = person.recording()
    flipped = bytearray(save)
    flipped[5000] ^= 1
    bad = [
        ("#photo", "cut.ppm", (P6 + BEETLE)[:-1]), ("#photo", "large.ppm", b"P6\n256 256\n255\n" + BEETLE), ("#photo", "empty.png", b""),
        ("#photo", "text.jpg", b"not a picture"), ("#photo", "cut.png", png(BEETLE)[:60]),
        ("#place", "cut.pgm", plate[:-1]), ("#place", "fifth-grey.pgm", plate[:-1] + b"\x80"), ("#place", "large.png", png(BEETLE)),
        ("#restore", "cut.gxsave", save[:-1]), ("#restore", "flipped.gxsave", bytes(flipped)), ("#restore", "empty.gxsave", b""),
        ("#restore", "photo.gxsave", P6 + BEETLE),
    ]
    for selector, name, content in bad:
        person.give(selector, name, content)
        ensure(person.error().startswith(name) and person.error().endswith("Nothing has changed."), "%s: %s" % (name, person.error()))
    person.look("damaged")
    ensure(browser.greys("#specimen") == grey(LEAF), "the specimen changed")
    ensure(browser.downloaded("#save", "cartridge.gxsave") == save, "the save changed")
    ensure(person.recording() == recording, "the recording changed")
    return "%d files, a sentence for each" % len(bad)


def put_back(person):
    """A cleaned plate goes back, as P5 and as PNG."""
    browser = person.browser
    plate = person.plate()
    cleaned = plate[:15] + bytes(255 - value for value in plate[15:])
    person.give("#place", "cleaned.pgm", cleaned)
    ensure(person.plate() == cleaned, "the cleaned plate is not in the cartridge")
    ensure(played(person.recording()) == cleaned, "the recording does not have the placing")
    ensure("CRC-32 %08X: put back" % zlib.crc32(cleaned) in person.audited("leaf.png", "ended.")["This plate"], "a plate that was put back is not told from the capture's")
    ensure(browser.text("#readings-words").startswith("No readings") and set(browser.greys("#readings")) == {0}, "a plate that was put back has readings")
    person.look("put-back")
    browser.click("#back")
    wait_for("the plate before it is back", lambda: "before is back" in person.status())
    ensure(person.plate() == plate, "the plate before it is lost")
    browser.click("#back")
    wait_for("the cleaned plate is back", lambda: browser.greys("#plate") == cleaned[15:])
    person.give("#place", "again.png", png(bytes(value for value in plate[15:] for _ in range(3)), 128, 112))
    ensure(person.plate() == plate, "the PNG of a plate did not go back")
    ensure("This plate" not in person.audited("leaf.png", "ended."), "the capture's own plate is not known again")
    return "P5 and PNG"


def save_and_restore(person):
    """The cartridge as a file, a new one, the file again, and back."""
    browser = person.browser
    plate, save = person.plate(), browser.downloaded("#save", "cartridge.gxsave")
    with Cartridge.restore(save) as cartridge:
        ensure(cartridge.plate() == plate, "the library reads another plate in the save")
    browser.click("#new")
    wait_for("the cartridge is new", lambda: "new cartridge" in person.status())
    ensure(person.plate()[15:] == bytes(14336), "a new cartridge is not full of FF")
    ensure(person.recording() == b"" and "Nothing was taken" in person.answers()["Where it is from"], "a new cartridge has a recording")
    person.give("#restore", "mine.gxsave", save)
    ensure(person.plate() == plate and browser.downloaded("#save", "cartridge.gxsave") == save, "the save did not come back")
    ensure("restored from a file" in person.answers()["Where it is from"], "answers about what is not recorded: %s" % person.answers())
    person.look("restored")
    browser.click("#back")
    wait_for("the one before is back", lambda: "before is back" in person.status())
    ensure(person.plate()[15:] == bytes(14336), "the one before is another")
    browser.click("#back")
    ensure(wait_for("it is there again", lambda: person.plate()) == plate, "the restored one is gone")
    # half a capture, made by the library, goes on here
    with Cartridge() as cartridge:
        cartridge.lend_photo(P6 + BEETLE)
        cartridge.write(0x4000, 0x10)
        cartridge.choose(**FIRST)
        cartridge.write(0xA000, 3)
        cartridge.tick(20_000)
        half = cartridge.save()
    person.give("#restore", "half.gxsave", half)
    ensure(person.elapsed() == 20_000, "half a capture of the library stands elsewhere here")
    browser.click("#resume")
    person.done()
    ensure(person.plate() == taken(BEETLE, FIRST)[0], "the library's capture ended here as another plate")
    # and the next capture is a recording of its own, over the RAM as it is
    with Cartridge.restore(browser.downloaded("#save", "cartridge.gxsave")) as cartridge:
        ram = cartridge.battery()
    person.drop("beetle.ppm", P6 + BEETLE)
    browser.click("#take")
    person.done()
    ensure(person.plate() == taken(BEETLE, FIRST)[0], "a plate on a restored cartridge is another")
    ensure(played(person.recording()) == person.plate(), "its recording is another")
    answers = person.audited("beetle.ppm", "ended.", ram)
    ensure(answers["Serial"] == "1", "its serial is another")
    # the recording with the RAM that it begins with, opened again, has the same answers
    base, recording = browser.downloaded("#base", "recording.sav"), person.recording()
    ensure(base == ram, "the RAM that the recording begins with is another")
    person.give("#open", ("with-ram.script", "with-ram.sav"), (recording, base))
    ensure(person.error() == "" and person.status() == "with-ram.script is audited.", "with its RAM it is not audited: %s" % person.error())
    again = person.answers("#opened dl")
    ensure(again == {key: value for key, value in answers.items() if key != "Its recording"}, "opened again, its answers are %s" % again)
    for names in (("with-ram.sav",), ("one.script", "other.script"), ("one.sav", "one.script", "other.sav")):
        person.give("#open", names, [recording if name.endswith("script") else base for name in names])
        ensure(person.error().startswith(names[0]) and "one recording is opened at a time" in person.error(), "%s: %s" % (names, person.error()))
    person.give("#open", ("short.sav", "one.script"), (base[:-1], recording))
    ensure("the RAM length is not allowed" in person.error(), "a RAM cut short: %s" % person.error())
    return "to a file and back, also half a capture of the native library"


def batteries(person):
    """Battery saves of other emulators: a plate is seen, and the rest of the RAM stays."""
    browser = person.browser
    plate = taken(LEAF, FIRST)[0]
    with Cartridge(ram=bytes(range(256)) * 512) as cartridge:
        cartridge.place(plate)
        ram = cartridge.battery()
    person.give("#restore", "museum.sav", ram)
    ensure(person.error() == "" and person.plate() == plate, "the plate of a battery save is another: %s" % person.error())
    browser.click("#take")
    person.done()
    ensure(person.audited("beetle.ppm", "ended.", ram)["What else changed"] == "Nothing in the save.", "something else changed")
    with Cartridge.restore(browser.downloaded("#save", "cartridge.gxsave")) as cartridge:
        after = cartridge.battery()
    area = slice(PICTURE_OFFSET, PICTURE_OFFSET + 3584)
    ensure(after[:area.start] == ram[:area.start] and after[area.stop:] == ram[area.stop:], "the RAM beside the picture is another")
    return "%d bytes, of which a capture changes the picture alone" % len(ram)


def dropped(person):
    """A capture held is dropped by a reset."""
    browser = person.browser
    person.half(2_000)
    browser.click("#drop-capture")
    wait_for("it is dropped", lambda: "dropped" in person.status())
    ensure(browser.enabled("#take") and not browser.enabled("#resume"), "after a reset a capture is held")
    ensure("dropped" in person.answers()["How many cycles"], "the answers don't have it: %s" % person.answers())
    # a wrong click: back, and on with it
    browser.click("#back")
    wait_for("it is back", lambda: "before is back" in person.status())
    ensure(browser.enabled("#resume") and person.elapsed() > 0, "what was dropped is not back")
    person.speed("Infinity")
    browser.click("#resume")
    person.done()
    ensure(person.plate() == taken(BEETLE, FIRST)[0], "what was dropped and is back has another plate")
    return "by a reset, and back"


def open_recordings(person):
    """Recordings from elsewhere: whole, broken, and what is none."""
    browser = person.browser
    script = (TOP / "examples/preempted.script").read_bytes()
    for name, content in (("job.script", script), ("cut.script", script[:-7]), ("broken.script", script.replace(b"\n0240", b"\n0240x")), ("empty.script", b""), ("photo.script", P6 + BEETLE)):
        person.give("#open", name, content)
        ensure(person.status() == "%s is audited." % name and person.error() == "", "%s: %s" % (name, person.error()))
        *events, summary = audited(content, None, person.work)
        text = browser.text("#opened")
        ensure("{:,} lines, {:,} malformed, {:,} refused".format(*(int(summary[key]) for key in ("line", "malformed", "refused"))) in text, "the summary of %s is %s" % (name, text))
        for event in events:
            for key in ("image", "registers", "plate"):
                ensure(event.get(key, "") in text, "%s: no %s in %s" % (name, key, text))
        ensure(text.count("Serial") == int(summary["captures"]), "%s has other captures" % name)
        if name == "job.script":
            ensure("36,542 of 36,542: ended; stopped at 18,271." in text, "the job's cycles are %s" % text)
            person.look("opened")
    return "5 files, each with the second program's events"


def damaged_storage(person):
    """What the browser kept can't be read: a sentence, it is put aside, and a new cartridge is there."""
    browser = person.browser
    damaged = browser.run_async("""
      const done = arguments[0], request = indexedDB.open('gulxinett-desk');
      request.onsuccess = () => {
        const change = request.result.transaction('desk', 'readwrite'), desk = change.objectStore('desk');
        desk.get('now').onsuccess = ({ target }) => { target.result.save[3000] ^= 1; desk.put(target.result, 'now'); };
        change.oncomplete = () => done(true);
      };
    """)
    ensure(damaged, "nothing is kept")
    browser.call("POST", "/refresh", {})
    person.ready()
    ensure("can't be read" in person.error() and "put aside" in person.error(), "a damaged cartridge is not told of: %s" % person.error())
    person.look("damaged-storage")
    person.drop("beetle.ppm", P6 + BEETLE)
    person.speed("Infinity")
    browser.click("#take")
    person.done()
    ensure(person.plate() == taken(BEETLE, FIRST)[0], "the new cartridge's plate is another")
    return "put aside, and a new cartridge is there"


def everybody(person):
    """Names for screen readers, the keyboard, and every width and look."""
    browser = person.browser
    controls = browser.all("main button, main input, main canvas, main progress")
    for control in controls:
        if not browser.run("return arguments[0].hidden", {ELEMENT: control}):
            ensure(browser.label(control), "a control has no name: %s" % browser.run("return arguments[0].outerHTML", {ELEMENT: control}))
    ensure([browser.role(browser.find(live)) for live in ("#status", "#error")] == ["status", "alert"], "the live regions are none")
    browser.run("document.getElementById('photo').focus()")
    seen = ["photo"]
    for _ in range(40):
        person.keys("Tab")
        found = browser.run("const e = document.activeElement; const ring = getComputedStyle(e.closest('.button') ?? e); return [e.id || e.name, ring.outlineStyle]")
        if found[0] in seen or not found[0]:
            break
        ensure(found[1] != "none", "%s shows no focus" % found[0])
        seen.append(found[0])
    wanted = ["photo", "light", "level", "exposure", "steps", "dithering", "speed", "take", "plate", "png", "p5", "place", "save", "restore", "new", "back", "recording", "open"]
    ensure(seen == wanted, "the keyboard reaches %s" % seen)
    looks = [("light", "no-preference"), ("dark", "no-preference"), ("light", "more"), ("dark", "more")]
    browser.protocol("Emulation.setDeviceMetricsOverride", width=360, height=1240, deviceScaleFactor=1, mobile=False)
    browser.media(prefers_color_scheme="dark")
    person.look("narrow", "#plate-title")
    # with an answer of every kind on the page, the longest words too
    person.give("#open", "a-recording-with-a-rather-long-name-of-the-kind-that-archives-like.script", (TOP / "examples/preempted.script").read_bytes())
    for width in (360, 768, 1280, 1920):
        browser.protocol("Emulation.setDeviceMetricsOverride", width=width, height=900, deviceScaleFactor=1, mobile=False)
        over = browser.run("return [...document.querySelectorAll('body *')].filter((e) => e.getBoundingClientRect().right > innerWidth + 1).map((e) => e.id || e.tagName)")
        ensure(not over and browser.run("return document.documentElement.scrollWidth <= innerWidth"), "at %d pixels these reach over the edge: %s" % (width, over))
        for scheme, contrast in looks if width in (360, 1280) else looks[:1]:
            browser.media(prefers_color_scheme=scheme, prefers_contrast=contrast)
            worst = browser.run(CONTRAST)
            ensure(worst[0] >= (7 if contrast == "more" else 4.5), "%s, %s contrast: %s stands out by %.2f" % (scheme, contrast, worst[1], worst[0]))
            person.look("%d-%s%s" % (width, scheme, "-contrast" if contrast == "more" else ""))
    browser.protocol("Emulation.clearDeviceMetricsOverride")
    browser.media(forced_colors="active")
    person.look("forced-colours")
    browser.media(prefers_color_scheme="light", prefers_contrast="no-preference", forced_colors="none")
    return "%d controls with names, %d stops of the Tab key, 360 to 1,920 pixels, dark, light, high contrast" % (len(controls), len(seen))


# The smallest contrast of a text that can be read, as the WCAG has it, and whose it is.
CONTRAST = """
const numbers = (colour) => colour.match(/[\\d.]+/g).map(Number);
const light = (colour) => numbers(colour).slice(0, 3).map((v) => v / 255).map((v) => (v <= 0.03928 ? v / 12.92 : ((v + 0.055) / 1.055) ** 2.4))
  .reduce((sum, v, i) => sum + v * [0.2126, 0.7152, 0.0722][i], 0);
const clear = (colour) => numbers(colour)[3] === 0;
const ground = (e) => { while (e && clear(getComputedStyle(e).backgroundColor)) e = e.parentElement; return e ? getComputedStyle(e).backgroundColor : 'rgb(255,255,255)'; };
const texts = [...document.querySelectorAll('h1,h2,h3,p,label,legend,button,figcaption,dt,dd,output,code')].filter((e) => e.textContent.trim() && e.offsetParent && !e.disabled);
return texts.map((e) => { const [a, b] = [light(getComputedStyle(e).color), light(ground(e))].sort((x, y) => y - x); return [(a + 0.05) / (b + 0.05), e.id || e.textContent.slice(0, 40)]; })
  .sort((x, y) => x[0] - y[0])[0];
"""


def by_keyboard(person):
    """A plate from the choice to its end by keys alone."""
    browser = person.browser
    browser.run("document.getElementById('photo').focus()")
    person.tab_to("level")
    person.keys("Home", *["ArrowRight"] * 3)
    person.tab_to("dithering")
    person.keys(" ")
    person.tab_to("speed")
    person.keys("ArrowDown", "ArrowUp")
    person.tab_to("take")
    person.keys(" ")
    person.done()
    ensure(person.plate() == taken(BEETLE, {**FIRST, "level": 3, "dithering": False})[0], "by keys the plate is another")
    browser.click("#dithering")
    person.level(7)
    return "choice, speed and plate"


def late_moves(browser):
    """Of so many moves of a slider, those that took more than 16 ms from the key to the screen, as the browser itself measures it, in steps of 8."""
    browser.run("""
      window.late = 0;
      new PerformanceObserver((list) => { window.late += list.getEntries().filter((e) => e.name === 'keydown' && e.duration > 16).length; })
        .observe({ type: 'event', durationThreshold: 16 });
    """)
    browser.press("#exposure", "Home")
    for _ in range(MOVES):
        browser.press("#exposure", "ArrowRight")
    return browser.run_async("const done = arguments[0]; requestAnimationFrame(() => setTimeout(() => done(window.late), 100))")


def speed(person):
    """From a slider's move to its plate: the work, and that the next frame has it. The times are told, not judged: a machine may be busy."""
    browser = person.browser
    late = late_moves(browser)
    browser.run("""
      window.moves = [];
      const canvas = document.getElementById('preview');
      const drawn = () => canvas.getContext('2d').getImageData(0, 0, 128, 112).data.reduce((sum, v, i) => (sum * 31 + v * (i & 255)) | 0, 7);
      // the page's own listener is inside; at the window the event has been through it
      addEventListener('input', () => { window.began = performance.now(); }, { capture: true });
      addEventListener('input', () => {
        const work = performance.now() - window.began;
        const after = drawn();
        requestAnimationFrame(() => window.moves.push({ work, kept: drawn() === after }));
      });
    """)
    for _ in range(MOVES):
        browser.press("#exposure", "ArrowLeft")
    wait_for("every move is drawn", lambda: browser.run("return window.moves.length") == MOVES)
    moves = browser.run("return window.moves")
    ensure(all(move["kept"] for move in moves), "a frame has another plate than its move drew")
    times = sorted(move["work"] for move in moves)
    browser.run("const s = document.getElementById('steps'); s.value = 384; s.dispatchEvent(new Event('input', { bubbles: true }))")
    browser.open("data:text/html,<input id=exposure type=range min=0 max=257 value=0>")
    alone = late_moves(browser)
    person.sit_down()
    told = (MOVES, times[MOVES // 2], times[MOVES * 9 // 10], late, alone)
    return "%d moves of the slider, each drawn before the next frame: %.2f ms in the middle, 9 of 10 within %.2f ms; from the key to the screen %d took more than 16 ms, of a slider alone on a page %d" % told


def any_server(person):
    """Another server of files does as well."""
    other = subprocess.Popen([sys.executable, "-u", "-m", "http.server", "0", "--bind", "127.0.0.1", "--directory", TOP], stdout=subprocess.PIPE, stderr=subprocess.DEVNULL, text=True)
    try:
        port = re.search(r"port (\d+)", other.stdout.readline()).group(1)
        person.browser.open("http://127.0.0.1:%s/desk/" % port)
        person.ready()
        ensure(person.error() == "" and "Ready" in person.status(), "it says %s %s" % (person.status(), person.error()))
    finally:
        other.kill()
        other.wait()
    person.sit_down()
    return "Python's"


def offline(person, server):
    """The server is gone, and the page still opens."""
    browser = person.browser
    person.kept_offline()
    server.terminate()
    server.wait()
    browser.call("POST", "/refresh", {})
    person.ready()
    plate = taken(BEETLE, FIRST)[0]
    person.speed("Infinity")
    browser.click("#take")
    person.done()
    ensure(person.plate() == plate, "without a server the plate is another")
    person.look("offline")
    return "a plate without a server"


STEPS = [served, first_load, lend_and_choose, pictures, take_at_once, stop_and_resume, own_speed, close_half_way, killed_half_way, damaged_files, put_back, save_and_restore, batteries, dropped, open_recordings, damaged_storage, everybody, by_keyboard, speed, any_server]


def main(words):
    driver, chromium, work, screenshots = words
    server = subprocess.Popen([TOP / "desk/serve"], stdout=subprocess.PIPE, text=True)
    try:
        url = server.stdout.readline().strip()
        downloads, profile = Path(work) / "downloads", Path(work) / "profile"
        downloads.mkdir()
        person = Person(lambda: Browser(driver, chromium, downloads, profile), url, work, screenshots)
        try:
            for step in STEPS:
                print("browser: %s: %s" % (step.__name__.replace("_", " "), step(person)), flush=True)
            print("browser: offline: %s" % offline(person, server), flush=True)
        except BaseException:
            person.look_at_failure()
            raise
        finally:
            person.browser.close()
    except Failure as reason:
        print("browser: FAILED: %s" % reason, file=sys.stderr)
        return 1
    finally:
        server.terminate()
    return 0


if __name__ == "__main__":
    sys.exit(main(sys.argv[1:]))
