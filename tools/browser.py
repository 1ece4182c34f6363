"""Drives a headless Chromium through the pipe of its DevTools protocol: a page is opened, keys are pressed, and pictures taken.
tools/try-pages uses it. It needs the command chromium (Debian: apt-get install chromium), and nothing else."""
import base64
import itertools
import json
import os
import select
import shutil
import struct
import subprocess
import tempfile
import time
import zlib

NAMES = ("chromium", "chromium-browser", "google-chrome")
KEYS = {"ArrowLeft": 37, "ArrowRight": 39, "Home": 36, "End": 35, "Tab": 9, "Enter": 13}
MODIFIERS = {"Control": 2, "Shift": 8}
MOST_SECONDS = 60
# Reads a picture, and answers its size, 256 of its colours, and the nearest of them for each point. They are the 160 that are most
# frequent, and then each time the one that is farthest from all before.
FEW_COLOURS = """(async (data) => {
  const image = new Image();
  image.src = "data:image/png;base64," + data;
  await image.decode();
  const { width, height } = image, paint = new OffscreenCanvas(width, height).getContext("2d");
  paint.drawImage(image, 0, 0);
  const points = paint.getImageData(0, 0, width, height).data, colours = new Map();
  const at = (i) => points[4 * i] << 16 | points[4 * i + 1] << 8 | points[4 * i + 2];
  for (let i = 0; i < width * height; i++) colours.set(at(i), (colours.get(at(i)) ?? 0) + 1);
  const far = (one, other) => [16, 8, 0].reduce((sum, bits) => sum + ((one >> bits & 255) - (other >> bits & 255)) ** 2, 0);
  const all = [...colours.keys()].sort((one, other) => colours.get(other) - colours.get(one));
  const kept = all.slice(0, 160), nearest = new Map(all.map((colour) => [colour, { at: 0, far: Infinity }]));
  const look = (at) => { for (const [colour, one] of nearest) if (far(colour, kept[at]) < one.far) { one.far = far(colour, kept[at]); one.at = at; } };
  kept.forEach((_, at) => look(at));
  while (kept.length < 256) look(kept.push(all.reduce((best, colour) => (nearest.get(colour).far > nearest.get(best).far ? colour : best))) - 1);
  let text = "";
  for (let i = 0; i < width * height; i++) text += String.fromCharCode(nearest.get(at(i)).at);
  return { width, height, kept, points: btoa(text) };
})"""


class Failed(Exception):
    """The browser is not there, or says no."""


class Browser:
    def __init__(self):
        program = next(filter(None, map(shutil.which, NAMES)), None)
        if not program:
            raise Failed("no command chromium")
        self.folder = tempfile.TemporaryDirectory()
        to_it, self.out = os.pipe()
        self.back, from_it = os.pipe()
        # The browser reads its orders from the descriptor 3, and answers on 4.
        command = f'exec "$0" "$@" 3<&{to_it} 4>&{from_it}'
        words = ["--headless=new", "--no-sandbox", "--disable-gpu", "--hide-scrollbars", "--remote-debugging-pipe", f"--user-data-dir={self.folder.name}", "about:blank"]
        self.process = subprocess.Popen(["bash", "-c", command, program, *words], pass_fds=(to_it, from_it), stdout=subprocess.DEVNULL, stderr=subprocess.DEVNULL)
        os.close(to_it)
        os.close(from_it)
        self.numbers, self.rest, self.errors, self.session, self.loaded = itertools.count(1), b"", [], None, False
        target = self.ask("Target.createTarget", url="about:blank")["targetId"]
        self.session = self.ask("Target.attachToTarget", targetId=target, flatten=True)["sessionId"]
        for domain in ("Page", "Runtime", "Log"):
            self.ask(f"{domain}.enable")

    def __enter__(self):
        return self

    def __exit__(self, *_):
        os.close(self.out)
        try:
            self.process.wait(10)
        except subprocess.TimeoutExpired:
            self.process.kill()
            self.process.wait()
        os.close(self.back)
        self.folder.cleanup()

    def message(self, until):
        """The next message: they are parted by zeros."""
        while b"\0" not in self.rest:
            if not select.select([self.back], [], [], max(until - time.monotonic(), 0))[0]:
                raise Failed("the browser does not answer")
            part = os.read(self.back, 1 << 20)
            if not part:
                raise Failed("the browser has ended")
            self.rest += part
        one, self.rest = self.rest.split(b"\0", 1)
        return json.loads(one)

    def note(self, event):
        """What the page says unasked: faults are kept."""
        told = event.get("params", {})
        if event.get("method") == "Page.loadEventFired":
            self.loaded = True
        elif event.get("method") == "Runtime.exceptionThrown":
            self.errors.append(told["exceptionDetails"].get("exception", {}).get("description", told["exceptionDetails"]["text"]))
        elif event.get("method") == "Runtime.consoleAPICalled" and told["type"] in ("error", "warning", "assert"):
            self.errors.append(" ".join(str(one.get("value", one.get("description"))) for one in told["args"]))
        elif event.get("method") == "Log.entryAdded" and told["entry"]["level"] in ("error", "warning"):
            self.errors.append(told["entry"]["text"])

    def ask(self, method, **params):
        """Gives an order, and waits for its answer."""
        number, until = next(self.numbers), time.monotonic() + MOST_SECONDS
        order = {"id": number, "method": method, "params": params} | ({"sessionId": self.session} if self.session else {})
        os.write(self.out, json.dumps(order).encode() + b"\0")
        while True:
            answer = self.message(until)
            if answer.get("id") == number:
                if "error" in answer:
                    raise Failed(f"{method}: {answer['error']['message']}")
                return answer["result"]
            self.note(answer)

    def open(self, address):
        """Opens a page anew, and waits until it is loaded."""
        for one in ("about:blank", address):
            self.loaded = False
            self.ask("Page.navigate", url=one)
            until = time.monotonic() + MOST_SECONDS
            while not self.loaded:
                self.note(self.message(until))

    def size(self, wide, high, scale=1):
        self.ask("Emulation.setDeviceMetricsOverride", width=wide, height=high, deviceScaleFactor=scale, mobile=False)

    def scheme(self, name):
        """Light or dark."""
        self.ask("Emulation.setEmulatedMedia", features=[{"name": "prefers-color-scheme", "value": name}])

    def value(self, text):
        """The value of an expression of JavaScript, or of its promise."""
        answer = self.ask("Runtime.evaluate", expression=text, returnByValue=True, awaitPromise=True)
        if "exceptionDetails" in answer:
            raise Failed(f"{text}: {answer['exceptionDetails']['text']}")
        return answer["result"].get("value")

    def drawn(self):
        """Waits for the page's next picture but one."""
        self.value("new Promise((done) => requestAnimationFrame(() => requestAnimationFrame(() => done(1))))")

    def key(self, name, *held):
        told = {"key": name, "code": name, "windowsVirtualKeyCode": KEYS[name], "modifiers": sum(MODIFIERS[one] for one in held)}
        self.ask("Input.dispatchKeyEvent", type="keyDown", **told)
        self.ask("Input.dispatchKeyEvent", type="keyUp", **told)

    def press(self, x, y):
        """Presses the pointer at a place of the window."""
        for kind in ("mousePressed", "mouseReleased"):
            self.ask("Input.dispatchMouseEvent", type=kind, x=x, y=y, button="left", clickCount=1)

    def picture(self, file, small=False, whole=True):
        """Takes a picture of the whole page, or of what is seen; a small file has 256 colours."""
        data = self.ask("Page.captureScreenshot", format="png", captureBeyondViewport=whole)["data"]
        with open(file, "wb") as out:
            out.write(indexed(self.value(f'{FEW_COLOURS}("{data}")')) if small else base64.b64decode(data))


def indexed(told):
    """The bytes of a PNG file whose points name the colours of a list."""
    wide, points = told["width"], base64.b64decode(told["points"])
    rows = b"".join(b"\0" + points[at : at + wide] for at in range(0, len(points), wide))
    colours = b"".join(colour.to_bytes(3, "big") for colour in told["kept"])
    parts = ((b"IHDR", struct.pack(">IIBBBBB", wide, told["height"], 8, 3, 0, 0, 0)), (b"PLTE", colours), (b"IDAT", zlib.compress(rows, 9)), (b"IEND", b""))
    chunks = (struct.pack(">I", len(data)) + name + data + struct.pack(">I", zlib.crc32(name + data)) for name, data in parts)
    return b"\x89PNG\r\n\x1a\n" + b"".join(chunks)
