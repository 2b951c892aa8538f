"""A headless Chromium that is driven over its remote debugging port, by Python's standard library."""
import base64
import json
import os
import shutil
import socket
import struct
import subprocess
import time
import zlib

PATIENCE = 30
KEYS = {"Tab": (9, ""), "Enter": (13, "\r"), "Escape": (27, ""), "Space": (32, " "), "ArrowDown": (40, ""), "ArrowUp": (38, "")}
SHIFT = 8


class Socket:
    """A websocket client: texts out and in."""

    def __init__(self, port, path):
        self.stream = socket.create_connection(("127.0.0.1", port), timeout=PATIENCE)
        key = base64.b64encode(os.urandom(16)).decode()
        lines = (f"GET {path} HTTP/1.1", f"Host: 127.0.0.1:{port}", "Upgrade: websocket", "Connection: Upgrade", f"Sec-WebSocket-Key: {key}", "Sec-WebSocket-Version: 13")
        self.stream.sendall("".join(line + "\r\n" for line in (*lines, "")).encode())
        self.reads = self.stream.makefile("rb")
        if b" 101 " not in self.reads.readline():
            raise OSError("the browser opens no websocket")
        while self.reads.readline().strip():
            pass

    def send(self, text):
        data, mask = text.encode(), os.urandom(4)
        length = len(data)
        if length < 126:
            head = struct.pack("!BB", 0x81, 0x80 | length)
        elif length < 65_536:
            head = struct.pack("!BBH", 0x81, 0x80 | 126, length)
        else:
            head = struct.pack("!BBQ", 0x81, 0x80 | 127, length)
        many = (mask * (length // 4 + 1))[:length]
        self.stream.sendall(head + mask + (int.from_bytes(data, "big") ^ int.from_bytes(many, "big")).to_bytes(length, "big"))

    def receive(self):
        """The next text, of one frame or more."""
        text = b""
        while True:
            first, length = self.reads.read(2)
            length &= 0x7F
            if length > 125:
                length = int.from_bytes(self.reads.read(2 if length == 126 else 8), "big")
            data = self.reads.read(length)
            if first & 0x0F in (0, 1):
                text += data
                if first & 0x80:
                    return text.decode()


class Browser:
    """One Chromium, with its own folder. Its names of hosts all lead to this machine."""

    def __init__(self, folder):
        program = shutil.which("chromium") or shutil.which("chromium-browser") or shutil.which("google-chrome")
        if program is None:
            raise SystemExit("chromium is not there: not tried")
        words = ["--headless=new", "--remote-debugging-port=0", f"--user-data-dir={folder}", "--no-first-run", "--no-default-browser-check", "--disable-gpu",
                 "--disable-extensions", "--disable-background-networking", "--disable-component-update", "--disable-sync", "--mute-audio", "--disable-lcd-text",
                 "--ignore-certificate-errors", "--host-resolver-rules=MAP * 127.0.0.1", "--renderer-process-limit=4", "--lang=en", "about:blank"]
        if os.geteuid() == 0:
            words.insert(0, "--no-sandbox")
        self.process = subprocess.Popen([program, *words], stdout=subprocess.DEVNULL, stderr=subprocess.DEVNULL, env={**os.environ, "TZ": "UTC"})
        told = os.path.join(folder, "DevToolsActivePort")
        until(lambda: os.path.exists(told) and open(told, encoding="ascii").read().count("\n") > 0, "chromium starts")
        with open(told, encoding="ascii") as file:
            port, path = file.read().split("\n")[:2]
        self.socket = Socket(int(port), path)
        self.count, self.windows = 0, {}

    def tell(self, method, session=None, **words):
        """The number of a call, whose answer nobody waits for here."""
        self.count += 1
        value = {"id": self.count, "method": method, "params": words}
        if session is not None:
            value["sessionId"] = session
        self.socket.send(json.dumps(value))
        return self.count

    def call(self, method, session=None, **words):
        """What the browser answers; events that come before it go to their windows."""
        number = self.tell(method, session, **words)
        while True:
            told = json.loads(self.socket.receive())
            if told.get("id") == number:
                if "error" in told:
                    raise OSError(f"{method}: {told['error']['message']}")
                return told["result"]
            if "method" in told and told.get("sessionId") in self.windows:
                self.windows[told["sessionId"]].take(told["method"], told["params"])

    def person(self):
        """A place of its own for cookies, passwords and storage, as another person's browser has it."""
        return self.call("Target.createBrowserContext")["browserContextId"]

    def window(self, person):
        target = self.call("Target.createTarget", url="about:blank", browserContextId=person)["targetId"]
        session = self.call("Target.attachToTarget", targetId=target, flatten=True)["sessionId"]
        return Window(self, target, session)

    def end(self):
        self.process.terminate()
        self.process.wait()


def until(happens, what, seconds=PATIENCE):
    """Waits until it happens, and gives what it is then."""
    end = time.monotonic() + seconds
    while not (found := happens()):
        if time.monotonic() > end:
            raise TimeoutError(f"{what}: not so after {seconds} seconds")
        time.sleep(0.05)
    return found


class Window:
    """A window, with the requests that it sent and what its console was told."""

    def __init__(self, browser, target, session):
        self.browser, self.target, self.session = browser, target, session
        self.sent, self.complaints = [], []
        browser.windows[session] = self
        for domain in ("Page", "Runtime", "Log", "Network"):
            self.call(f"{domain}.enable")
        self.call("Emulation.setFocusEmulationEnabled", enabled=True)
        self.size(1000, 760)

    def call(self, method, **words):
        return self.browser.call(method, self.session, **words)

    def take(self, event, words):
        if event == "Network.requestWillBeSent":
            self.sent.append((words["request"]["method"], words["request"]["url"], words["request"].get("postData")))
        elif event == "Page.javascriptDialogOpening":
            # whether to leave the page: yes
            self.browser.tell("Page.handleJavaScriptDialog", self.session, accept=True)
        elif event == "Runtime.exceptionThrown":
            details = words["exceptionDetails"]
            self.complaints.append(details.get("exception", {}).get("description", details["text"]))
        elif event == "Log.entryAdded" and words["entry"]["source"] in ("security", "violation", "javascript"):
            self.complaints.append(words["entry"]["text"])

    def size(self, width, height):
        self.call("Emulation.setDeviceMetricsOverride", width=width, height=height, deviceScaleFactor=1, mobile=False)

    def go(self, url):
        self.call("Page.navigate", url=url)

    def js(self, code):
        """The value of an expression in the page."""
        told = self.call("Runtime.evaluate", expression=code, awaitPromise=True, returnByValue=True, userGesture=True)
        if "exceptionDetails" in told:
            raise ValueError(f"{code}: {told['exceptionDetails'].get('exception', {}).get('description')}")
        return told["result"].get("value")

    def wait(self, code, what=None, seconds=PATIENCE):
        def happens():
            try:
                return self.js(code)
            except (ValueError, OSError):
                # the page is being loaded
                return None

        return until(happens, what or code, seconds)

    def text(self, selector):
        return self.js(f"document.querySelector({json.dumps(selector)})?.innerText ?? ''")

    def click(self, selector):
        """A click of the mouse on an element that is there to be clicked."""
        found = f"document.querySelector({json.dumps(selector)})"
        self.wait(f"{found} !== null && !{found}.disabled && {found}.getClientRects().length > 0", f"{selector} can be clicked")
        box = self.js(f"(() => {{ const one = {found}; one.scrollIntoView({{ block: 'center' }}); const box = one.getClientRects()[0];"
                      " return [box.x + box.width / 2, box.y + box.height / 2]; })()")
        for kind in ("mousePressed", "mouseReleased"):
            self.call("Input.dispatchMouseEvent", type=kind, x=box[0], y=box[1], button="left", clickCount=1)

    def button(self, text, within="body"):
        """A click on the button that has this text."""
        self.wait(f"(() => {{ document.querySelector('[data-pressed]')?.removeAttribute('data-pressed'); const one = [...document.querySelectorAll({json.dumps(within)}"
                  f" + ' button')].find((one) => one.textContent === {json.dumps(text)} && one.getClientRects().length > 0 && !one.disabled);"
                  " one?.setAttribute('data-pressed', ''); return one !== undefined; })()", f"there is the button {text}")
        self.click("[data-pressed]")

    def key(self, name, shift=False):
        code, text = KEYS[name]
        words = {"key": " " if name == "Space" else name, "code": name, "windowsVirtualKeyCode": code, "modifiers": SHIFT if shift else 0}
        self.call("Input.dispatchKeyEvent", type="keyDown", text=text, **words) if text else self.call("Input.dispatchKeyEvent", type="rawKeyDown", **words)
        self.call("Input.dispatchKeyEvent", type="keyUp", **words)

    def type(self, text):
        self.call("Input.insertText", text=text)

    def write(self, selector, text):
        """Puts a text into a field, in place of what is there."""
        self.js(f"(() => {{ const one = document.querySelector({json.dumps(selector)}); one.focus(); one.select(); }})()")
        self.type(text)

    def choose(self, selector, value):
        found = f"document.querySelector({json.dumps(selector)})"
        self.wait(f"[...{found}.options].some((one) => one.value === {json.dumps(value)})", f"{selector} has {value}")
        self.js(f"{found}.value = {json.dumps(value)}; {found}.dispatchEvent(new Event('change', {{ bubbles: true }}))")

    def offline(self, is_so):
        self.call("Network.emulateNetworkConditions", offline=is_so, latency=0, downloadThroughput=-1, uploadThroughput=-1)

    def picture(self, path):
        data = base64.b64decode(self.call("Page.captureScreenshot", format="png")["data"])
        with open(path, "wb") as file:
            file.write(with_few_colours(data))

    def close(self):
        self.browser.call("Target.closeTarget", targetId=self.target)


def rows_of(png):
    """The width of a picture, and its rows of pixels, each a bytes of three or four for a pixel."""
    width, height, depth, kind = struct.unpack("!IIBB", png[16:26])
    wide = {2: 3, 6: 4}[kind]
    assert depth == 8
    data = zlib.decompress(idat(png))
    stride, before, rows = width * wide, bytes(width * wide), []
    for row in range(height):
        start = row * (stride + 1)
        before = unfiltered(data[start], data[start + 1:start + 1 + stride], before, wide)
        rows.append(before)
    return width, wide, rows


def idat(png):
    """The data of a PNG file, from all its parts."""
    at, parts = 8, []
    while at < len(png):
        length = int.from_bytes(png[at:at + 4], "big")
        if png[at + 4:at + 8] == b"IDAT":
            parts.append(png[at + 8:at + 8 + length])
        at += 12 + length
    return b"".join(parts)


def unfiltered(way, line, before, wide):
    """A row of pixels, from what is written of it and the row above."""
    if way == 0:
        return bytes(line)
    out = bytearray(line)
    for place in range(len(out)):
        left = out[place - wide] if place >= wide else 0
        above = before[place]
        if way == 1:
            guess = left
        elif way == 2:
            guess = above
        elif way == 3:
            guess = (left + above) // 2
        else:
            corner = before[place - wide] if place >= wide else 0
            guess = min((left, above, corner), key=lambda one: abs(left + above - corner - one))
        out[place] = (out[place] + guess) & 0xFF
    return bytes(out)


def with_few_colours(png, most=64):
    """A picture in its most frequent colours, one byte for a pixel."""
    width, wide, rows = rows_of(png)
    pixels = [[row[at:at + 3] for at in range(0, width * wide, wide)] for row in rows]
    count = {}
    for row in pixels:
        for pixel in row:
            count[pixel] = count.get(pixel, 0) + 1
    palette = sorted(count, key=count.get, reverse=True)[:most]
    nearest = {one: min(range(len(palette)), key=lambda at: sum((a - b) ** 2 for a, b in zip(palette[at], one))) for one in count}
    data = b"".join(b"\0" + bytes(nearest[pixel] for pixel in row) for row in pixels)
    head = struct.pack("!IIBBBBB", width, len(rows), 8, 3, 0, 0, 0)
    parts = ((b"IHDR", head), (b"PLTE", b"".join(palette)), (b"IDAT", zlib.compress(data, 9)), (b"IEND", b""))
    return b"\x89PNG\r\n\x1a\n" + b"".join(struct.pack("!I", len(part)) + name + part + struct.pack("!I", zlib.crc32(name + part)) for name, part in parts)
