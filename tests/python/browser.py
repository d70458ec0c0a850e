"""A browser without a window (Debian's chromium), spoken to by its debugging pipe: for the page of a record book. No part of the gate, which has no browser."""
import base64
import json
import os
import shutil
import subprocess
import tempfile


class Browser:
    """One page of a browser. Whatever it says on its console is kept in `messages`."""

    def __init__(self):
        found = shutil.which("chromium")
        if found is None:
            raise FileNotFoundError("chromium is not on PATH (on Debian, as root: apt-get install chromium)")
        self.folder = tempfile.TemporaryDirectory(ignore_cleanup_errors=True)
        self.messages, self.count, self.rest, self.waiting = [], 0, b"", []
        to_read, self.to = os.pipe()
        self.answers, from_write = os.pipe()
        os.set_inheritable(to_read, True)
        os.set_inheritable(from_write, True)
        words = [found, "--headless=new", "--no-sandbox", "--disable-gpu", "--no-first-run", "--hide-scrollbars", f"--user-data-dir={self.folder.name}", "--remote-debugging-pipe"]
        # The browser reads from descriptor 3 and writes to 4.
        line = f'exec "$@" 3<&{to_read} 4>&{from_write}'
        self.process = subprocess.Popen(["bash", "-c", line, "bash", *words], stdout=subprocess.DEVNULL, stderr=subprocess.DEVNULL, pass_fds=(to_read, from_write))
        os.close(to_read)
        os.close(from_write)
        self.session = None
        target = self.ask("Target.createTarget", url="about:blank")["targetId"]
        self.session = self.ask("Target.attachToTarget", targetId=target, flatten=True)["sessionId"]
        for domain in ("Page", "Runtime", "Log", "Network"):
            self.ask(f"{domain}.enable")

    def close(self):
        self.process.kill()
        self.process.wait()
        self.folder.cleanup()

    def take(self):
        """The next message of the browser."""
        while b"\0" not in self.rest:
            more = os.read(self.answers, 1 << 20)
            if not more:
                raise EOFError("the browser has gone")
            self.rest += more
        text, self.rest = self.rest.split(b"\0", 1)
        said = json.loads(text)
        if said.get("method") in ("Runtime.consoleAPICalled", "Runtime.exceptionThrown", "Log.entryAdded"):
            self.messages.append(said)
        if said.get("method") == "Network.requestWillBeSent":
            self.waiting.append(said["params"]["request"]["url"])
        return said

    def ask(self, method, **words):
        self.count += 1
        asked = {"id": self.count, "method": method, "params": words, **({"sessionId": self.session} if self.session else {})}
        os.write(self.to, json.dumps(asked).encode() + b"\0")
        while True:
            said = self.take()
            if said.get("id") == asked["id"]:
                if "error" in said:
                    raise RuntimeError(f"{method}: {said['error']}")
                return said["result"]

    def look(self, width, height, scheme="light", media="", mobile=False):
        self.ask("Emulation.setDeviceMetricsOverride", width=width, height=height, deviceScaleFactor=2 if mobile else 1, mobile=mobile)
        self.ask("Emulation.setEmulatedMedia", media=media, features=[{"name": "prefers-color-scheme", "value": scheme}])

    def open(self, path):
        """Opens a file, and waits until it is loaded."""
        self.waiting.clear()
        self.ask("Page.navigate", url="file://" + path)
        while self.take().get("method") != "Page.loadEventFired":
            pass

    def value(self, expression):
        return self.ask("Runtime.evaluate", expression=expression, returnByValue=True, awaitPromise=True)["result"].get("value")

    def first_paint(self):
        """Milliseconds from the call of the page until something is seen of it."""
        return self.value("new Promise(done => { const seen = () => { const at = performance.getEntriesByName('first-contentful-paint')[0]; at ? done(at.startTime) : setTimeout(seen, 5); }; seen(); })")

    def shot(self, path, whole=False):
        with open(path, "wb") as handle:
            handle.write(base64.b64decode(self.ask("Page.captureScreenshot", format="png", captureBeyondViewport=whole)["data"]))

    def paper(self, path):
        with open(path, "wb") as handle:
            handle.write(base64.b64decode(self.ask("Page.printToPDF", printBackground=False)["data"]))
