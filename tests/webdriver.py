"""A headless Chromium, driven as a person would, by the WebDriver protocol over Python's standard library."""

import base64
import http.client
import json
import os
import re
import signal
import subprocess
import time
from pathlib import Path

ELEMENT = "element-6066-11e4-a52e-4f735466cecf"
# seconds; a machine may be busy with much else
PATIENCE = 180
STARTS = 3
KEYS = {"Tab": "\ue004", "ArrowLeft": "\ue012", "ArrowUp": "\ue013", "ArrowRight": "\ue014", "ArrowDown": "\ue015", "Home": "\ue011", "End": "\ue010"}


class Failure(Exception):
    """Something is not as it must be."""


def ensure(holds, otherwise):
    if not holds:
        raise Failure(otherwise)


def wait_for(what, holds, patience=PATIENCE):
    """Waits until something holds; its value."""
    end = time.monotonic() + patience
    while time.monotonic() < end:
        value = holds()
        if value:
            return value
        time.sleep(0.02)
    raise Failure("it never came about that %s" % what)


class Browser:
    """One browser with one profile; downloads go to a folder."""

    def __init__(self, driver, chromium, downloads, profile):
        self.downloads = Path(downloads)
        self.process = subprocess.Popen([driver, "--port=0"], stdout=subprocess.PIPE, stderr=subprocess.DEVNULL, text=True)
        try:
            self.port = self._port()
            self.session = self._begin(chromium, profile)
        except BaseException:
            self.process.kill()
            self.process.wait()
            raise

    def _port(self):
        for line in self.process.stdout:
            found = re.search(r"started successfully on port (\d+)", line)
            if found:
                return int(found.group(1))
        raise Failure("chromedriver did not start")

    def _begin(self, chromium, profile):
        # no sandbox: root and many containers have none, and the page is the repository's own
        words = ["--headless=new", "--window-size=1280,1000", "--disable-gpu", "--disable-dev-shm-usage", "--hide-scrollbars", "--no-sandbox",
                 "--user-data-dir=%s" % profile]
        prefs = {"download.default_directory": str(self.downloads), "download.prompt_for_download": False}
        wanted = {"goog:chromeOptions": {"binary": chromium, "args": words, "prefs": prefs}, "timeouts": {"script": 1000 * PATIENCE, "pageLoad": 1000 * PATIENCE}}
        for left in reversed(range(STARTS)):
            try:
                session = self._call("POST", "/session", {"capabilities": {"alwaysMatch": wanted}})
                self.pid = session["capabilities"].get("goog:processID")
                return "/session/" + session["sessionId"]
            except Failure:
                # the driver waits a minute for the browser, which may not be enough
                if left == 0:
                    raise

    def _call(self, method, path, body=None):
        connection = http.client.HTTPConnection("127.0.0.1", self.port, timeout=2 * PATIENCE)
        try:
            connection.request(method, path, None if body is None else json.dumps(body), {"Content-Type": "application/json"})
            value = json.loads(connection.getresponse().read())["value"]
        finally:
            connection.close()
        if isinstance(value, dict) and "error" in value:
            raise Failure("%s: %s" % (value["error"], "; ".join(value["message"].splitlines()[:2])))
        return value

    def call(self, method, path, body=None):
        return self._call(method, self.session + path, body)

    def close(self):
        try:
            self.call("DELETE", "")
        except (Failure, OSError):
            # it is gone already
            pass
        finally:
            self.process.kill()
            self.process.wait()

    def kill(self):
        """Ends the browser as a crash does."""
        ensure(self.pid, "the driver does not tell which process the browser is")
        os.kill(self.pid, signal.SIGKILL)
        self.close()

    # ---- pages

    def open(self, url):
        self.call("POST", "/url", {"url": url})

    def new_tab(self):
        """Opens another tab and goes on there; its handle."""
        return self.tab(self.call("POST", "/window/new", {"type": "tab"})["handle"])

    def tab(self, handle):
        self.call("POST", "/window", {"handle": handle})
        return handle

    def close_tab(self):
        """Closes this tab and goes on in the last one that is left."""
        self.tab(self.call("DELETE", "/window")[-1])

    def size(self, width, height):
        self.call("POST", "/window/rect", {"width": width, "height": height})

    def protocol(self, command, **words):
        """A command of the browser's own protocol."""
        return self.call("POST", "/goog/cdp/execute", {"cmd": command, "params": words})

    def media(self, **features):
        """Lets the browser ask for a look, as its settings do: dark, more contrast."""
        self.protocol("Emulation.setEmulatedMedia", features=[{"name": name.replace("_", "-"), "value": value} for name, value in features.items()])

    def screenshot(self, path, whole=False):
        if whole:
            data = self.protocol("Page.captureScreenshot", captureBeyondViewport=True)["data"]
        else:
            data = self.call("GET", "/screenshot")
        Path(path).write_bytes(base64.b64decode(data))

    # ---- what is on the page

    def run(self, script, *words):
        return self.call("POST", "/execute/sync", {"script": script, "args": list(words)})

    def run_async(self, script, *words):
        return self.call("POST", "/execute/async", {"script": script, "args": list(words)})

    def find(self, selector):
        return self.call("POST", "/element", {"using": "css selector", "value": selector})[ELEMENT]

    def all(self, selector):
        return [found[ELEMENT] for found in self.call("POST", "/elements", {"using": "css selector", "value": selector})]

    def click(self, selector):
        """Scrolls to an element, as a person does, and clicks it."""
        element = self.find(selector)
        self.run("arguments[0].scrollIntoView({ block: 'center' })", {ELEMENT: element})
        self.call("POST", "/element/%s/click" % element, {})

    def type(self, selector, text):
        self.call("POST", "/element/%s/value" % self.find(selector), {"text": text})

    def clear(self, selector):
        self.call("POST", "/element/%s/clear" % self.find(selector), {})

    def press(self, selector, key, times=1):
        self.type(selector, KEYS[key] * times)

    def text(self, selector):
        return self.call("GET", "/element/%s/text" % self.find(selector))

    def enabled(self, selector):
        return self.call("GET", "/element/%s/enabled" % self.find(selector))

    def label(self, element):
        """What a screen reader calls an element."""
        return self.call("GET", "/element/%s/computedlabel" % element)

    def role(self, element):
        return self.call("GET", "/element/%s/computedrole" % element)

    def greys(self, selector):
        """The red of each pixel of a canvas."""
        return bytes(self.run(
            "const c = document.querySelector(arguments[0]);"
            "return [...c.getContext('2d').getImageData(0, 0, c.width, c.height).data].filter((_, i) => i % 4 === 0)", selector))

    def drop(self, selector, name, content):
        """Lets go of a file over an element."""
        self.run(
            "const bytes = Uint8Array.from(atob(arguments[2]), (c) => c.charCodeAt(0));"
            "const held = new DataTransfer(); held.items.add(new File([bytes], arguments[1]));"
            "const over = document.querySelector(arguments[0]);"
            "for (const kind of ['dragenter', 'dragover', 'drop'])"
            "  over.dispatchEvent(new DragEvent(kind, { dataTransfer: held, bubbles: true, cancelable: true }));",
            selector, name, base64.b64encode(content).decode())

    def downloaded(self, selector, name):
        """Clicks, and waits for the file that comes; its bytes."""
        file = self.downloads / name
        file.unlink(missing_ok=True)
        self.click(selector)
        wait_for("%s is downloaded" % name, lambda: file.exists() and not list(self.downloads.glob("*.crdownload")))
        # it is there with all its bytes, or has none, or an empty one keeps its place
        end = time.monotonic() + 2
        while file.stat().st_size == 0 and time.monotonic() < end:
            time.sleep(0.02)
        content = file.read_bytes()
        file.unlink()
        return content
