"""Chromium without a screen, driven by its own protocol over a socket: no package is needed."""

import base64
import json
import os
import socket
import struct
import subprocess
import tempfile
import time
import urllib.request

KEYS = {"Tab": 9, "Enter": 13, " ": 32, "ArrowLeft": 37, "ArrowUp": 38, "ArrowRight": 39, "ArrowDown": 40}


class Browser:
    """A browser with one page. It has no network: every name of a host is unknown to it."""

    def __init__(self, width: int = 1400, height: int = 900) -> None:
        self.folder = tempfile.TemporaryDirectory()
        words = ["--headless=new", "--no-sandbox", "--disable-gpu", "--remote-debugging-port=0"]
        words += [f"--window-size={width},{height}", f"--user-data-dir={self.folder.name}"]
        words += ["--host-resolver-rules=MAP * ~NOTFOUND", "--force-device-scale-factor=1", "about:blank"]
        quiet = subprocess.DEVNULL
        self.process = subprocess.Popen(["chromium", *words], stdout=quiet, stderr=quiet)
        port, path = self._address()
        self.socket = socket.create_connection(("127.0.0.1", port))
        self.socket.settimeout(60)
        key = base64.b64encode(os.urandom(16)).decode()
        lines = [f"GET {path} HTTP/1.1", f"Host: 127.0.0.1:{port}", "Upgrade: websocket", "Connection: Upgrade"]
        lines += [f"Sec-WebSocket-Key: {key}", "Sec-WebSocket-Version: 13", "", ""]
        self.socket.sendall("\r\n".join(lines).encode())
        answer = b""
        while b"\r\n\r\n" not in answer:
            answer += self.socket.recv(1)
        self.sent = 0
        self.events: list = []
        for domain in ("Page", "Runtime", "Network", "Log", "Accessibility"):
            self.call(domain + ".enable")

    def _address(self) -> tuple:
        """The port that it has chosen, and the path of its page."""
        for _ in range(240):
            try:
                with open(os.path.join(self.folder.name, "DevToolsActivePort")) as file:
                    port = int(file.readline())
                with urllib.request.urlopen(f"http://127.0.0.1:{port}/json") as answer:
                    pages = [one for one in json.load(answer) if one["type"] == "page"]
                if pages:
                    return port, pages[0]["webSocketDebuggerUrl"].split(str(port), 1)[1]
            except (OSError, ValueError):
                pass
            time.sleep(0.25)
        raise SystemExit("chromium does not answer")

    def _bytes(self, count: int) -> bytes:
        got = b""
        while len(got) < count:
            more = self.socket.recv(count - len(got))
            if not more:
                raise EOFError("chromium is gone")
            got += more
        return got

    def _message(self) -> dict:
        text = b""
        while True:
            head = self._bytes(2)
            length = head[1] & 127
            if length == 126:
                length = struct.unpack(">H", self._bytes(2))[0]
            elif length == 127:
                length = struct.unpack(">Q", self._bytes(8))[0]
            text += self._bytes(length)
            if head[0] & 128:
                return json.loads(text)

    def call(self, method: str, **words):
        """Calls the browser, and keeps what it says of itself meanwhile."""
        self.sent += 1
        text = json.dumps({"id": self.sent, "method": method, "params": words}).encode()
        mask, size = os.urandom(4), len(text)
        if size < 126:
            head = bytes([128 | size])
        elif size < 65536:
            head = bytes([128 | 126]) + struct.pack(">H", size)
        else:
            head = bytes([128 | 127]) + struct.pack(">Q", size)
        masked = bytes(byte ^ mask[at % 4] for at, byte in enumerate(text))
        self.socket.sendall(b"\x81" + head + mask + masked)
        while True:
            answer = self._message()
            if answer.get("id") == self.sent:
                if "error" in answer:
                    raise RuntimeError(f"{method}: {answer['error']}")
                return answer["result"]
            self.events.append(answer)

    def open(self, path: str) -> None:
        self.call("Page.navigate", url="about:blank")
        file, _, part = path.partition("#")
        self.call("Page.navigate", url="file://" + os.path.abspath(file) + ("#" + part if part else ""))
        for _ in range(100):
            if self.js("document.readyState") == "complete" and self.js("location.protocol") == "file:":
                return
            time.sleep(0.1)
        raise SystemExit(f"{path} is not loaded")

    def js(self, expression: str):
        answer = self.call("Runtime.evaluate", expression=expression, returnByValue=True)
        if "exceptionDetails" in answer:
            raise RuntimeError(json.dumps(answer["exceptionDetails"])[:400])
        return answer["result"].get("value")

    def key(self, key: str) -> None:
        words = {"key": key, "code": key, "windowsVirtualKeyCode": KEYS.get(key, ord(key[0]))}
        text = {"Enter": "\r"}.get(key, key if len(key) == 1 else "")
        more = {"text": text} if text else {}
        self.call("Input.dispatchKeyEvent", type="keyDown", **words, **more)
        self.call("Input.dispatchKeyEvent", type="keyUp", **words)

    def mouse(self, kind: str, x: float, y: float, **more) -> None:
        self.call("Input.dispatchMouseEvent", type=kind, x=x, y=y, **more)

    def click(self, x: float, y: float) -> None:
        for kind in ("mousePressed", "mouseReleased"):
            self.mouse(kind, x, y, button="left", clickCount=1)

    def middle(self, selector: str) -> list:
        """The middle of an element on the screen."""
        rectangle = f"document.querySelector({json.dumps(selector)}).getBoundingClientRect()"
        return self.js(f"(r => [r.x + r.width / 2, r.y + r.height / 2])({rectangle})")

    def shot(self, path: str) -> None:
        answer = self.call("Page.captureScreenshot", format="png")
        with open(path, "wb") as file:
            file.write(base64.b64decode(answer["data"]))

    def close(self) -> None:
        try:
            self.call("Browser.close")
            self.process.wait(10)
        except (OSError, EOFError, subprocess.TimeoutExpired):
            self.process.kill()
        self.folder.cleanup()
