"""A browser that the checks of pages drive: chromium without a window, by its protocol for tools over two pipes."""

import base64
import contextlib
import json
import os
import select
import shutil
import subprocess
import tempfile
import time

NAMES = ("chromium", "chromium-headless-shell", "google-chrome")
OPTIONS = (
    *("--headless", "--no-sandbox", "--disable-gpu", "--disable-dev-shm-usage"),
    *("--no-first-run", "--disable-background-networking"),
)
# The seconds that a browser may take to respond.
LIMIT = 120
# A page waits until something holds, or for half a minute; and until its worker has no question left.
WAITS = """
  const tick = () => new Promise(it => setTimeout(it, 10));
  globalThis.until = async holds => {
    for (const end = performance.now() + 30_000; !(await holds()) && performance.now() < end;) await tick();
  };
  globalThis.rested = async () => { await tick(); await until(() => waiting.size === 0); };
"""


def found():
    """The name of a browser that is here, or None."""
    return next(filter(shutil.which, NAMES), None)


def started():
    """A browser, or None where there is none. One that does not start is a fault."""
    name = found()
    return Browser(name) if name else contextlib.nullcontext()


class Browser:
    """A browser with one page, while this is entered. It notes what the page asked the network for, and its errors."""

    def __init__(self, name):
        self.name, self.number, self.held, self.events = name, 0, b"", []

    def __enter__(self):
        self.folder = tempfile.mkdtemp(prefix="norigully-")
        theirs, self.to = os.pipe()
        self.of, theirs_too = os.pipe()
        # The protocol is that of descriptors 3 and 4.
        command = f'exec "$@" 3<&{theirs} 4>&{theirs_too}'
        words = [*OPTIONS, f"--user-data-dir={self.folder}", "--remote-debugging-pipe", "about:blank"]
        how = {"stdin": subprocess.DEVNULL, "stdout": subprocess.DEVNULL, "stderr": subprocess.DEVNULL}
        self.ran = subprocess.Popen(
            ["bash", "-c", command, "browser", self.name, *words], pass_fds=(theirs, theirs_too), **how
        )
        os.close(theirs)
        os.close(theirs_too)
        self.session = None
        try:
            target = self.ask("Target.createTarget", url="about:blank")["targetId"]
            self.session = self.ask("Target.attachToTarget", targetId=target, flatten=True)["sessionId"]
            for domain in ("Page", "Network", "Runtime", "Log"):
                self.ask(f"{domain}.enable")
            self.ask("Performance.enable", timeDomain="threadTicks")
        except (OSError, EOFError):
            self.__exit__()
            raise
        return self

    def __exit__(self, *_):
        try:
            self.session = None
            self.ask("Browser.close")
            self.ran.wait(LIMIT)
        except (OSError, EOFError, subprocess.TimeoutExpired):
            self.ran.kill()
            self.ran.wait()
        os.close(self.to)
        os.close(self.of)
        shutil.rmtree(self.folder, ignore_errors=True)

    def read(self, until):
        """The next message."""
        while b"\0" not in self.held:
            if not select.select([self.of], [], [], max(0, until - time.monotonic()))[0]:
                raise TimeoutError(f"{self.name} did not respond")
            piece = os.read(self.of, 1 << 16)
            if not piece:
                raise EOFError(f"{self.name} ended")
            self.held += piece
        message, _, self.held = self.held.partition(b"\0")
        return json.loads(message)

    def ask(self, method, **words):
        """The response of the browser; events that come before are noted."""
        self.number += 1
        question = {"id": self.number, "method": method, "params": words}
        if self.session:
            question["sessionId"] = self.session
        data, until = json.dumps(question).encode() + b"\0", time.monotonic() + LIMIT
        while data:
            data = data[os.write(self.to, data) :]
        while True:
            message = self.read(until)
            if message.get("id") == self.number:
                if "error" in message:
                    raise OSError(f"{method}: {message['error']['message']}")
                return message["result"]
            self.events.append(message)

    def show(self, address, also="true"):
        """Opens a file, and waits until it is loaded and this script is true."""
        self.events.clear()
        self.ask("Page.navigate", url=address)
        until = time.monotonic() + LIMIT
        while not self.value(f"document.readyState === 'complete' && {also}"):
            if time.monotonic() > until:
                raise TimeoutError(f"{address} is not ready")
            time.sleep(0.02)

    def open(self, address):
        """Opens a page, and waits until it has read its run."""
        self.show(address, "typeof ready === 'object'")
        self.value(f"ready.then(() => {{ {WAITS} }})")

    def value(self, script):
        """The value of a script in the page, once it is there."""
        found = self.ask("Runtime.evaluate", expression=script, awaitPromise=True, returnByValue=True)
        if "exceptionDetails" in found:
            raise OSError(json.dumps(found["exceptionDetails"])[:400])
        return found["result"].get("value")

    def press(self, key, number):
        """Presses a key, which has this number, and waits until what it leads to is done."""
        text = {"text": key} if len(key) == 1 else {}
        for kind in ("keyDown" if text else "rawKeyDown", "keyUp"):
            of_kind = text if kind == "keyDown" else {}
            self.ask("Input.dispatchKeyEvent", type=kind, key=key, code=key, windowsVirtualKeyCode=number, **of_kind)
        self.value("rested()")

    def seconds(self):
        """The processor time that the page has had."""
        metrics = {it["name"]: it["value"] for it in self.ask("Performance.getMetrics")["metrics"]}
        return metrics["TaskDuration"]

    def allow_scripts(self, are_allowed):
        """Whether pages that are opened from here on may run scripts of their own."""
        self.ask("Emulation.setScriptExecutionDisabled", value=not are_allowed)

    def printed(self):
        """The page on paper, as a PDF."""
        return base64.b64decode(self.ask("Page.printToPDF", preferCSSPageSize=True)["data"])

    def resize(self, width, height, dark=False, scale=1, phone=False):
        size = {"width": width, "height": height, "deviceScaleFactor": scale, "mobile": phone}
        self.ask("Emulation.setDeviceMetricsOverride", **size)
        scheme = [{"name": "prefers-color-scheme", "value": "dark" if dark else "light"}]
        self.ask("Emulation.setEmulatedMedia", features=scheme)

    def picture(self):
        """What the page looks like, as a PNG."""
        return base64.b64decode(self.ask("Page.captureScreenshot", format="png")["data"])

    def requests(self):
        """The addresses that the page asked for."""
        return [it["params"]["request"]["url"] for it in self.events if it["method"] == "Network.requestWillBeSent"]

    def errors(self):
        """What the page said of errors, and of what its policy refused."""
        kinds = ("Runtime.exceptionThrown", "Log.entryAdded", "Page.javascriptDialogOpening")
        return [json.dumps(it["params"])[:300] for it in self.events if it["method"] in kinds]
