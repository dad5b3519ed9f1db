"""A headless Chromium, driven through the pipe of its remote debugging, with Python's library alone:

    with Chromium() as browser:
        page = browser.open("file:///.../index.html")
        page.run("1 + 1")            what an expression comes to; a promise is waited for
        page.complaints              what the page threw, and what its policy refused
"""

import base64
import contextlib
import json
import os
import select
import shutil
import struct
import subprocess
import tempfile
import time
import zlib

PROGRAMS = ("chromium", "chromium-browser", "google-chrome")
CODES = {"Backspace": 8, "Tab": 9, "Enter": 13, "Home": 36, "ArrowLeft": 37, "ArrowUp": 38, "ArrowRight": 39, "ArrowDown": 40}
WORDS = (
    "--headless=new --remote-debugging-pipe --no-first-run --disable-gpu --disable-extensions --hide-scrollbars "
    "--disable-background-networking --force-color-profile=srgb"
).split()


def installed():
    """The browser's program, None where there is none."""
    return next(filter(None, map(shutil.which, PROGRAMS)), None)


def chunk(kind, body):
    return struct.pack(">I", len(body)) + kind + body + struct.pack(">I", zlib.crc32(kind + body))


def nearest(left, up, corner):
    return min((left, up, corner), key=lambda it: abs(left + up - corner - it))


def unfiltered(kind, line, above, step):
    """A line of a PNG as it is meant: each byte is told by those to its left and above."""
    if kind == 0:
        return line
    if kind == 2:
        return bytes((byte + up) & 255 for byte, up in zip(line, above))
    line = bytearray(line)
    for at, byte in enumerate(line):
        left, corner = (line[at - step], above[at - step]) if at >= step else (0, 0)
        by = left if kind == 1 else (left + above[at]) // 2 if kind == 3 else nearest(left, above[at], corner)
        line[at] = (byte + by) & 255
    return bytes(line)


def packed(png):
    """The same picture in fewer bytes: of flat areas and text, lines as they are pack better than their differences."""
    parts, at = [], 8
    while at < len(png):
        length = int.from_bytes(png[at : at + 4], "big")
        parts.append((png[at + 4 : at + 8], png[at + 8 : at + 8 + length]))
        at += 12 + length
    head = dict(parts)[b"IHDR"]
    width, height, step = *struct.unpack(">II", head[:8]), {2: 3, 6: 4}[head[9]]
    data = zlib.decompress(b"".join(body for kind, body in parts if kind == b"IDAT"))
    lines, line = [], bytes(width * step)
    for from_ in range(0, len(data), width * step + 1):
        line = unfiltered(data[from_], data[from_ + 1 : from_ + 1 + width * step], line, step)
        lines.append(b"\0" + line)
    body = zlib.compress(b"".join(lines), 9)
    return png[:8] + chunk(b"IHDR", head) + chunk(b"IDAT", body) + chunk(b"IEND", b"")


class Chromium:
    def __init__(self, seconds=180):
        self.seconds, self.left, self.number, self.pages = seconds, b"", 0, {}
        self.profile = tempfile.mkdtemp(prefix="page-test-")
        theirs, self.sink = os.pipe()
        self.source, ours = os.pipe()
        words = [installed(), *WORDS, f"--user-data-dir={self.profile}"]
        if os.geteuid() == 0:
            words.append("--no-sandbox")

        def wire():
            # The browser reads from 3 and writes to 4, which may be pipes of ours: they move away first.
            high, higher = os.dup2(theirs, 60), os.dup2(ours, 61)
            os.dup2(high, 3)
            os.dup2(higher, 4)

        quiet = {"stdin": subprocess.DEVNULL, "stdout": subprocess.DEVNULL, "stderr": subprocess.DEVNULL}
        self.process = subprocess.Popen(words, close_fds=False, preexec_fn=wire, **quiet)
        os.close(theirs)
        os.close(ours)

    def __enter__(self):
        return self

    def __exit__(self, *_):
        try:
            self.send("Browser.close")
            self.process.wait(10)
        except Exception:
            self.process.kill()
            self.process.wait()
        shutil.rmtree(self.profile, ignore_errors=True)

    def message(self, until):
        while b"\0" not in self.left:
            if not select.select([self.source], [], [], max(0, until - time.monotonic()))[0]:
                raise TimeoutError("the browser doesn't answer")
            part = os.read(self.source, 1 << 20)
            if not part:
                raise EOFError("the browser has ended")
            self.left += part
        one, _, self.left = self.left.partition(b"\0")
        return json.loads(one)

    def send(self, method, session=None, **given):
        self.number += 1
        said = {"id": self.number, "method": method, "params": given}
        if session:
            said["sessionId"] = session
        whole = memoryview(json.dumps(said).encode() + b"\0")
        while whole:
            whole = whole[os.write(self.sink, whole) :]
        until = time.monotonic() + self.seconds
        while True:
            came = self.message(until)
            if came.get("id") == said["id"]:
                if "error" in came:
                    raise RuntimeError(f"{method}: {came['error']['message']}")
                return came["result"]
            if page := self.pages.get(came.get("sessionId")):
                page.hear(came["method"], came["params"])

    def open(self, url, first=None, look=(1280, 800)):
        """Opens a page in a window of this look; the script `first` runs before those of the page."""
        target = self.send("Target.createTarget", url="about:blank")["targetId"]
        session = self.send("Target.attachToTarget", targetId=target, flatten=True)["sessionId"]
        page = self.pages[session] = Page(self, session, target)
        for domain in ("Page", "Runtime", "Log"):
            page.send(f"{domain}.enable")
        page.look(*look)
        if first:
            page.send("Page.addScriptToEvaluateOnNewDocument", source=first)
        page.is_loaded = False
        page.send("Page.navigate", url=url)
        while not page.is_loaded:
            page.run("0")
            time.sleep(0.02)
        return page


class Page:
    def __init__(self, browser, session, target):
        self.browser, self.session, self.target = browser, session, target
        self.complaints, self.is_loaded = [], False

    def send(self, method, **given):
        return self.browser.send(method, self.session, **given)

    def hear(self, method, said):
        if method == "Page.loadEventFired":
            self.is_loaded = True
        elif method == "Runtime.exceptionThrown":
            details = said["exceptionDetails"]
            self.complaints.append(details.get("exception", {}).get("description", details["text"]))
        elif method == "Log.entryAdded" and said["entry"]["level"] in ("error", "warning"):
            self.complaints.append(said["entry"]["text"])

    def close(self):
        with contextlib.suppress(RuntimeError):
            self.browser.send("Target.closeTarget", targetId=self.target)

    def look(self, width, height, dark=False, forced=False):
        """Sets the window's size and colours."""
        self.send(
            "Emulation.setDeviceMetricsOverride",
            width=width,
            height=height,
            deviceScaleFactor=1,
            mobile=width < 600,
        )
        features = {"prefers-color-scheme": "dark" if dark else "light", "forced-colors": "active" if forced else "none"}
        self.send("Emulation.setEmulatedMedia", features=[{"name": it, "value": features[it]} for it in features])

    def run(self, expression):
        came = self.send(
            "Runtime.evaluate", expression=expression, awaitPromise=True, returnByValue=True, userGesture=True
        )
        if "exceptionDetails" in came:
            details = came["exceptionDetails"]
            raise RuntimeError(details.get("exception", {}).get("description", details["text"]))
        return came["result"].get("value")

    def key(self, name):
        """Presses a key, as a user does."""
        said = {"key": name, "windowsVirtualKeyCode": CODES.get(name) or ord(name.upper())}
        if len(name) == 1 or name == "Enter":
            said["text"] = "\r" if name == "Enter" else name
        self.send("Input.dispatchKeyEvent", type="keyDown", **said)
        self.send("Input.dispatchKeyEvent", type="keyUp", **said)

    def click(self, where, times=1):
        """Clicks in the middle of what an expression comes to, once that is in sight."""
        x, y = self.run(
            f"(() => {{ const it = {where}; it.scrollIntoView({{ block: 'center', inline: 'center' }}); "
            "const box = it.getBoundingClientRect(); return [box.x + box.width / 2, box.y + box.height / 2]; })()"
        )
        for count in range(1, times + 1):
            for kind in ("mousePressed", "mouseReleased"):
                self.send("Input.dispatchMouseEvent", type=kind, x=x, y=y, button="left", clickCount=count)

    def picture(self, path):
        path.write_bytes(base64.b64decode(self.send("Page.captureScreenshot", format="png")["data"]))
