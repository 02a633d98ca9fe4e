"""A headless Chromium for scripts: it loads pages, evaluates JavaScript in them, and tells what they asked the network for."""
import base64
import json
import os
import shutil
import subprocess
import tempfile

FLAGS = (
    "--headless --no-sandbox --disable-gpu --remote-debugging-pipe --no-first-run --disable-background-networking "
    "--disable-component-update --disable-default-apps --disable-extensions --disable-sync --metrics-recording-only --hide-scrollbars"
).split()


def install():
    """Whether Chromium is there; it is installed by apt where it is missing."""
    if not shutil.which("chromium"):
        environment = {**os.environ, "DEBIAN_FRONTEND": "noninteractive"}
        for words in (["apt-get", "update"], ["apt-get", "install", "-y", "--no-install-recommends", "chromium"]):
            subprocess.run(words, env=environment, stdout=subprocess.DEVNULL, stderr=subprocess.DEVNULL, check=False)
    return shutil.which("chromium") is not None


class Browser:
    """One Chromium, spoken to by its protocol over a pair of pipes."""

    def __init__(self, *flags):
        # Its helpers may still write there as it ends.
        self.folder = tempfile.TemporaryDirectory(ignore_cleanup_errors=True)
        theirs_in, self.out = os.pipe()
        self.back, theirs_out = os.pipe()
        words = ["chromium", *FLAGS, f"--user-data-dir={self.folder.name}", *flags]
        # The protocol's pipes are the descriptors 3 and 4.
        shell = ["bash", "-c", f'exec 3<&{theirs_in} 4>&{theirs_out}; exec "$@"', "browser", *words]
        self.process = subprocess.Popen(
            shell, pass_fds=(theirs_in, theirs_out), stdin=subprocess.DEVNULL, stdout=subprocess.DEVNULL, stderr=subprocess.DEVNULL
        )
        os.close(theirs_in)
        os.close(theirs_out)
        self.number, self.kept, self.events = 0, b"", []

    def close(self):
        try:
            self.ask("Browser.close")
            self.process.wait(timeout=10)
        except (RuntimeError, OSError, subprocess.TimeoutExpired):
            self.process.terminate()
            self.process.wait()
        os.close(self.out)
        os.close(self.back)
        self.folder.cleanup()

    def message(self):
        while b"\0" not in self.kept:
            came = os.read(self.back, 65536)
            if not came:
                raise RuntimeError("Chromium ended")
            self.kept += came
        text, _, self.kept = self.kept.partition(b"\0")
        return json.loads(text)

    def ask(self, method, session=None, **params):
        """Asks for something and waits for the answer; what else comes meanwhile is kept as events."""
        self.number += 1
        asked = {"id": self.number, "method": method, "params": params, **({"sessionId": session} if session else {})}
        data = json.dumps(asked).encode() + b"\0"
        while data:
            data = data[os.write(self.out, data) :]
        while True:
            found = self.message()
            if found.get("id") == self.number:
                if "error" in found:
                    raise RuntimeError(f"{method}: {found['error']['message']}")
                return found["result"]
            self.events.append(found)

    def page(self, width=1280, height=1000):
        return Page(self, width, height)


class Page:
    """A tab of the browser."""

    def __init__(self, browser, width, height):
        self.browser = browser
        self.target = browser.ask("Target.createTarget", url="about:blank")["targetId"]
        self.session = browser.ask("Target.attachToTarget", targetId=self.target, flatten=True)["sessionId"]
        for domain in ("Page", "Network", "Runtime", "Log"):
            self.ask(f"{domain}.enable")
        self.ask("Emulation.setDeviceMetricsOverride", width=width, height=height, deviceScaleFactor=1, mobile=False)

    def ask(self, method, **params):
        return self.browser.ask(method, self.session, **params)

    def load(self, file):
        """Loads a file; answers after how many milliseconds it was drawn."""
        self.browser.events.clear()
        self.ask("Page.navigate", url=f"file://{file}")
        while not any(it["method"] == "Page.loadEventFired" for it in self.browser.events):
            self.browser.events.append(self.browser.message())
        drawn = "new Promise((done) => requestAnimationFrame(() => requestAnimationFrame(() => done(performance.now()))))"
        return self.run(drawn)

    def run(self, code):
        found = self.ask("Runtime.evaluate", expression=code, returnByValue=True, awaitPromise=True)
        if "exceptionDetails" in found:
            raise RuntimeError(f"{code[:60]}: {found['exceptionDetails'].get('exception', {}).get('description', 'failed')}")
        return found["result"].get("value")

    def asked_for(self):
        """The addresses that the page asked for since it was loaded, and what its script or its policy complained of."""
        self.run("0")
        own = [it for it in self.browser.events if it.get("sessionId") == self.session]
        addresses = [it["params"]["request"]["url"] for it in own if it["method"] == "Network.requestWillBeSent"]
        complaints = [json.dumps(it["params"])[:300] for it in own if it["method"] in ("Runtime.exceptionThrown", "Log.entryAdded")]
        return addresses, complaints

    def picture(self, file, height=None):
        """Writes what is seen as a PNG."""
        clip = {"clip": {"x": 0, "y": 0, "width": 1280, "height": height, "scale": 1}} if height else {}
        with open(file, "wb") as out:
            out.write(base64.b64decode(self.ask("Page.captureScreenshot", format="png", captureBeyondViewport=True, **clip)["data"]))

    def close(self):
        self.browser.ask("Target.closeTarget", targetId=self.target)
