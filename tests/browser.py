"""A headless Chromium (Debian's package `chromium`) with one page, driven over a pipe: no port, no network, and no package besides."""
import base64
import json
import os
import select
import shutil
import subprocess

PROGRAMS = ("chromium", "chromium-browser", "google-chrome")
# After this many seconds without an answer a browser hangs.
TIMEOUT = 120
FLAGS = ["--headless=new", "--remote-debugging-pipe", "--no-first-run", "--disable-gpu", "--disable-background-networking", "--disable-component-update",
         "--disable-sync", "--host-resolver-rules=MAP * ~NOTFOUND", "--hide-scrollbars"]


def program():
    """The path of a browser, or nothing where there is none."""
    return next((path for path in map(shutil.which, PROGRAMS) if path), None)


class Browser:
    """A headless browser and its one page."""

    def __init__(self, path, profile):
        ours_in, theirs_out = os.pipe()
        theirs_in, ours_out = os.pipe()
        flags = FLAGS + [f"--user-data-dir={profile}"] + (["--no-sandbox"] if os.geteuid() == 0 else [])
        # the browser reads from 3 and writes to 4
        call = f'exec "$@" 3<&{theirs_in} 4>&{theirs_out}'
        self.process = subprocess.Popen(["bash", "-c", call, "bash", path, *flags, "about:blank"], pass_fds=(theirs_in, theirs_out), stderr=subprocess.DEVNULL)
        os.close(theirs_in)
        os.close(theirs_out)
        self.read, self.write = ours_in, ours_out
        self.waiting, self.number, self.events, self.session = b"", 0, [], None
        pages = [t for t in self.ask("Target.getTargets")["targetInfos"] if t["type"] == "page"]
        self.session = self.ask("Target.attachToTarget", targetId=pages[0]["targetId"], flatten=True)["sessionId"]
        for domain in ("Page", "Runtime", "Network", "DOM", "Log"):
            self.ask(domain + ".enable")

    def message(self):
        while b"\0" not in self.waiting:
            if not select.select([self.read], [], [], TIMEOUT)[0]:
                self.process.kill()
                raise SystemExit("the browser does not answer")
            piece = os.read(self.read, 65536)
            if not piece:
                raise SystemExit("the browser ended")
            self.waiting += piece
        text, _, self.waiting = self.waiting.partition(b"\0")
        return json.loads(text)

    def send(self, data):
        try:
            while data:
                data = data[os.write(self.write, data):]
        except BrokenPipeError:
            raise SystemExit("the browser ended") from None

    def ask(self, method, **fields):
        self.number += 1
        call = {"id": self.number, "method": method, "params": fields}
        if self.session:
            call["sessionId"] = self.session
        self.send(json.dumps(call).encode() + b"\0")
        while True:
            got = self.message()
            if got.get("id") == self.number:
                if "error" in got:
                    raise RuntimeError(f"{method}: {got['error']['message']}")
                return got["result"]
            self.events.append(got)

    def value(self, expression):
        """What a JavaScript expression, or a promise, comes to."""
        done = self.ask("Runtime.evaluate", expression=expression, returnByValue=True, awaitPromise=True)
        if "exceptionDetails" in done:
            raise RuntimeError(done["exceptionDetails"]["exception"].get("description", expression))
        return done["result"].get("value")

    def called(self, function, *arguments):
        """What a JavaScript function answers."""
        return self.value(f"({function})({', '.join(map(json.dumps, arguments))})")

    def open(self, address):
        self.ask("Page.navigate", url=address)
        self.value("new Promise(done => document.readyState === 'complete' ? done() : addEventListener('load', done))")

    def emulate(self, width=1280, dark=False, media=""):
        """A window so wide, in light or dark colours, on a screen or, as `print`, on paper."""
        self.ask("Emulation.setDeviceMetricsOverride", width=width, height=900, deviceScaleFactor=1, mobile=False)
        self.ask("Emulation.setEmulatedMedia", media=media, features=[{"name": "prefers-color-scheme", "value": "dark" if dark else "light"}])

    def key(self, name, code, text="", modifiers=0):
        for kind in ("keyDown", "keyUp"):
            more = {"text": text} if text and kind == "keyDown" else {}
            self.ask("Input.dispatchKeyEvent", type=kind, key=name, code=name, windowsVirtualKeyCode=code, modifiers=modifiers, **more)

    def typed(self, text):
        """Types letters and digits, one by one."""
        for letter in text:
            self.key(letter, ord(letter.upper()), letter)

    def picture(self, path):
        size = self.ask("Page.getLayoutMetrics")["cssContentSize"]
        clip = {"x": 0, "y": 0, "width": size["width"], "height": min(size["height"], 6000), "scale": 1}
        data = self.ask("Page.captureScreenshot", format="png", captureBeyondViewport=True, clip=clip)["data"]
        with open(path, "wb") as f:
            f.write(base64.b64decode(data))

    def paper(self):
        """The page as it is printed: the bytes of a PDF."""
        return base64.b64decode(self.ask("Page.printToPDF", printBackground=False)["data"])

    def close(self):
        try:
            self.session = None
            self.ask("Browser.close")
        except (SystemExit, OSError):
            pass
        try:
            self.process.wait(timeout=TIMEOUT)
        except subprocess.TimeoutExpired:
            self.process.kill()
            self.process.wait()
