"""Headless browsers that a test of the page uses as a person would: Chromium, by messages on a pipe, and Firefox, by
those of its own driver, on a socket of the machine."""

import base64
import json
import os
import signal
import socket
import subprocess
import tempfile
import time

WAIT = 120
# The numbers of keys that are no letters.
KEYS = {"Tab": 9, "ArrowUp": 38, "ArrowDown": 40}


class Browser:
    """What both can: `value` and `go` are told apart below, and so is `insert`, which types."""

    def wait(self, text):
        """Waits until an expression is true."""
        start = time.monotonic()
        while not self.value(text):
            if time.monotonic() - start > WAIT:
                raise SystemExit(f"waited {WAIT} seconds: {text}")
            time.sleep(0.02)

    def open(self, url):
        self.go("about:blank")
        self.wait("location.href == 'about:blank'")
        self.go(url)
        self.settle()

    def settle(self):
        """Waits until the page has answered all that was asked."""
        states = "[document.body?.dataset.state, document.getElementById('library')?.dataset.state]"
        self.wait(f"document.readyState == 'complete' && ['answered,answered', 'failed,'].includes({states}.join())")

    def texts(self, selector):
        """Returns the texts of the elements that a selector finds."""
        return self.value(f"[...document.querySelectorAll({json.dumps(selector)})].map(it => it.textContent)")

    def markup(self, selector):
        """Returns the elements that a selector finds, as they are written."""
        return self.value(f"[...document.querySelectorAll({json.dumps(selector)})].map(it => it.outerHTML)")

    def do(self, text):
        """Does something that is answered, as the choice of a test."""
        self.value(f"void ({text})")
        self.settle()

    def select(self, area, start, end):
        """Selects a part of the text of an editor."""
        act = f"(it => (it.focus(), it.setSelectionRange({start}, {end})))"
        self.value(f"{act}(document.querySelector('{area} textarea'))")

    def type(self, area, at, text):
        self.select(area, at, at)
        self.insert(text)
        self.settle()

    def put(self, area, text):
        """Replaces the text of an editor, as one who pastes."""
        self.select(area, 0, 1 << 20)
        self.insert(text)
        self.settle()


class Chromium(Browser):
    """Messages are JSON, each ended by a zero byte."""

    programs = ("chromium", "chromium-browser", "google-chrome")

    def __init__(self, program):
        self.profile = tempfile.TemporaryDirectory()
        self.number, self.buffer, self.events, self.session = 0, b"", [], None
        told, self.told = os.pipe()
        self.heard, heard = os.pipe()
        words = ["--headless", "--disable-gpu", "--hide-scrollbars", "--no-first-run", "--remote-debugging-pipe"]
        words += ["--no-sandbox"] if os.geteuid() == 0 else []
        words = [program, *words, f"--user-data-dir={self.profile.name}", "about:blank"]
        # The browser listens on stream 3 and answers on stream 4.
        redirect = f'exec "$@" 3<&{told} 4>&{heard}'
        how = {"pass_fds": (told, heard), "stderr": subprocess.DEVNULL}
        self.process = subprocess.Popen(["bash", "-c", redirect, "bash", *words], **how)
        os.close(told)
        os.close(heard)
        target = next(it for it in self.call("Target.getTargets")["targetInfos"] if it["type"] == "page")
        self.session = self.call("Target.attachToTarget", targetId=target["targetId"], flatten=True)["sessionId"]
        for it in ("Page", "Runtime", "Log", "Network"):
            self.call(f"{it}.enable")

    def read(self):
        while b"\0" not in self.buffer:
            part = os.read(self.heard, 1 << 20)
            if not part:
                raise SystemExit("the browser has ended")
            self.buffer += part
        one, _, self.buffer = self.buffer.partition(b"\0")
        return json.loads(one)

    def call(self, method, **parameters):
        self.number += 1
        message = {"id": self.number, "method": method, "params": parameters}
        if self.session:
            message["sessionId"] = self.session
        data = json.dumps(message).encode() + b"\0"
        while data:
            data = data[os.write(self.told, data):]
        while True:
            answer = self.read()
            if answer.get("id") == self.number:
                if "error" in answer:
                    raise SystemExit(f"{method}: {answer['error']}")
                return answer["result"]
            self.events.append(answer)

    def value(self, text):
        """Returns the value of an expression of the page, awaited."""
        answer = self.call("Runtime.evaluate", expression=text, returnByValue=True, awaitPromise=True)
        if "exceptionDetails" in answer:
            raise SystemExit(f"{text}: {json.dumps(answer['exceptionDetails'])}")
        return answer["result"].get("value")

    def go(self, url):
        self.call("Page.navigate", url=url)

    def insert(self, text):
        self.call("Input.insertText", text=text)

    def press(self, key, code, modifiers=0):
        number = KEYS.get(key) or ord(key.upper())
        more = {"key": key, "code": code, "windowsVirtualKeyCode": number, "modifiers": modifiers}
        self.call("Input.dispatchKeyEvent", type="rawKeyDown", **more)
        if len(key) == 1:
            self.call("Input.dispatchKeyEvent", type="char", text=key, unmodifiedText=key, **more)
        self.call("Input.dispatchKeyEvent", type="keyUp", **more)

    def size(self, width, height):
        more = {"deviceScaleFactor": 1, "mobile": width < 600}
        self.call("Emulation.setDeviceMetricsOverride", width=width, height=height, **more)

    def colours(self, scheme):
        self.call("Emulation.setEmulatedMedia", features=[{"name": "prefers-color-scheme", "value": scheme}])

    def picture(self, path, whole=False):
        with open(path, "wb") as it:
            shot = self.call("Page.captureScreenshot", format="png", captureBeyondViewport=whole)
            it.write(base64.b64decode(shot["data"]))

    def close(self):
        self.call("Browser.close")
        self.process.wait(20)
        self.profile.cleanup()


class Firefox(Browser):
    """A message is its length, a colon, and JSON: what it is, its number, and a name or an error with the rest."""

    programs = ("firefox", "firefox-esr")

    def __init__(self, program):
        self.profile = tempfile.TemporaryDirectory(ignore_cleanup_errors=True)
        self.number, self.buffer = 0, b""
        with open(f"{self.profile.name}/user.js", "w", encoding="utf-8") as it:
            it.write('user_pref("marionette.port", 0);\n')
        words = [program, "--headless", "--marionette", "--no-remote", "--profile", self.profile.name]
        how = {"stdout": subprocess.DEVNULL, "stderr": subprocess.DEVNULL, "start_new_session": True}
        self.process = subprocess.Popen(words, env={**os.environ, "HOME": self.profile.name}, **how)
        self.socket = socket.create_connection(("127.0.0.1", self.port()))
        self.read()
        self.call("WebDriver:NewSession", capabilities={})
        self.call("WebDriver:SetTimeouts", script=600_000)

    def port(self):
        """Returns the port that the browser has chosen, as soon as it says so."""
        file, start = f"{self.profile.name}/MarionetteActivePort", time.monotonic()
        while not os.path.exists(file) or not os.path.getsize(file):
            if time.monotonic() - start > WAIT:
                self.close()
                raise SystemExit("Firefox does not answer")
            time.sleep(0.05)
        with open(file, encoding="utf-8") as it:
            return int(it.read())

    def more(self):
        part = self.socket.recv(1 << 20)
        if not part:
            raise SystemExit("Firefox has ended")
        self.buffer += part

    def read(self):
        while b":" not in self.buffer:
            self.more()
        length, _, self.buffer = self.buffer.partition(b":")
        while len(self.buffer) < int(length):
            self.more()
        one, self.buffer = self.buffer[:int(length)], self.buffer[int(length):]
        return json.loads(one)

    def call(self, name, **parameters):
        self.number += 1
        data = json.dumps([0, self.number, name, parameters]).encode()
        self.socket.sendall(b"%d:%s" % (len(data), data))
        _, _, error, result = self.read()
        if error:
            raise SystemExit(f"{name}: {error}")
        return result

    def value(self, text):
        return self.call("WebDriver:ExecuteScript", script=f"return ({text})", args=[], sandbox=None)["value"]

    def go(self, url):
        self.call("WebDriver:Navigate", url=url)

    def insert(self, text):
        put = f"it.setRangeText({json.dumps(text)}, it.selectionStart, it.selectionEnd, 'end')"
        self.value(f"(it => ({put}, it.dispatchEvent(new Event('input'))))(document.activeElement)")

    def close(self):
        os.killpg(self.process.pid, signal.SIGTERM)
        self.process.wait(20)
        self.profile.cleanup()
