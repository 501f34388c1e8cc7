"""A headless Chromium, driven by chromedriver over its protocol. It needs chromium and chromium-driver, and no network."""

import base64
import json
import os
import pathlib
import signal
import subprocess
import urllib.error
import urllib.request

PAGE = (pathlib.Path(__file__).resolve().parent / "page.html").as_uri()
KEYS = {"Left": "\ue012", "Right": "\ue014", "Up": "\ue013", "Down": "\ue015", "Home": "\ue011", "End": "\ue010", "Enter": "\ue007", "Tab": "\ue004",
        "Escape": "\ue00c", "Control": "\ue009", "Shift": "\ue008", "PageDown": "\ue00f"}


class Browser:
    def __init__(self, page=PAGE):
        self.page = page
        pipe, null = subprocess.PIPE, subprocess.DEVNULL
        self.base = None
        # the free port that it finds may be taken before it listens there
        for _ in range(5):
            # a group of its own, with the browser in it, which ends with it
            self.driver = subprocess.Popen(["chromedriver", "--port=0"], stdout=pipe, stderr=null, text=True, start_new_session=True)
            self.base = next(("http://127.0.0.1:" + line.rstrip(".\n").split()[-1] for line in self.driver.stdout if "successfully on port" in line), None)
            if self.base:
                break
            self.driver.wait()
        assert self.base, "chromedriver does not start"
        flags = ["--headless=new", "--no-sandbox", "--disable-gpu", "--window-size=1100,1250"]
        new = {"capabilities": {"alwaysMatch": {"goog:chromeOptions": {"args": flags}, "goog:loggingPrefs": {"browser": "ALL"}, "timeouts": {"script": 90000}}}}
        try:
            self.base += "/session/" + self.call("/session", new)["sessionId"]
        except BaseException:
            os.killpg(self.driver.pid, signal.SIGKILL)
            raise

    def call(self, path, body=None, method="POST", timeout=100):
        data = None if method != "POST" else json.dumps(body or {}).encode()
        ask = urllib.request.Request(self.base + path, data, {"Content-Type": "application/json"}, method=method)
        try:
            with urllib.request.urlopen(ask, timeout=timeout) as found:
                return json.load(found)["value"]
        except TimeoutError:
            raise AssertionError(f"no answer in {timeout} s") from None
        except urllib.error.HTTPError as error:
            raise AssertionError(json.load(error)["value"]["message"]) from None

    def run(self, script, *args):
        """The value of a script, or what its promise becomes."""
        return self.call("/execute/sync", {"script": script, "args": list(args)})

    def command(self, name, **params):
        return self.call("/goog/cdp/execute", {"cmd": name, "params": params})

    def open(self, fragment="#t=voxel-game&p=4000"):
        """Opens the page, as it is at first where the fragment is empty."""
        self.call("/url", {"url": "about:blank"})
        self.call("/url", {"url": self.page + fragment})
        self.run("return new Promise(r => { const f = () => window.frameTime ? r(0) : setTimeout(f, 20); f(); })")

    def faults(self):
        """What the console has of faults, but that it asked nobody as no user was there."""
        found = [entry["message"] for entry in self.call("/se/log", {"type": "browser"}) if entry["level"] == "SEVERE"]
        return [message for message in found if "'beforeunload'" not in message]

    def size(self, width, height, scale=1, scheme="light"):
        self.command("Emulation.setEmulatedMedia", features=[{"name": "prefers-color-scheme", "value": scheme}])
        self.command("Emulation.setDeviceMetricsOverride", width=width, height=height, deviceScaleFactor=scale, mobile=False)

    def picture(self, whole=False):
        """A picture of what is seen, or of the whole page, as PNG."""
        found = self.command("Page.captureScreenshot", format="png", captureBeyondViewport=whole, **(
            {"clip": {"x": 0, "y": 0, **dict(zip(("width", "height"), self.run(
                "return [innerWidth, document.documentElement.scrollHeight]"))), "scale": 1}} if whole else {}))
        return base64.b64decode(found["data"])

    def element(self, selector):
        found = self.call("/element", {"using": "css selector", "value": selector})
        return "/element/" + next(iter(found.values()))

    def click(self, selector):
        self.run("document.querySelector(arguments[0]).scrollIntoView({ block: 'center' })", selector)
        self.call(self.element(selector) + "/click")

    def focus(self, selector):
        self.run("document.querySelector(arguments[0]).focus()", selector)

    def paste(self, text):
        """Pastes a text where the focus is."""
        self.command("Browser.grantPermissions", permissions=["clipboardReadWrite", "clipboardSanitizedWrite"])
        self.run("return navigator.clipboard.writeText(arguments[0])", text)
        self.keys("Control+v")

    def keys(self, *names):
        """Presses keys where the focus is, one after another; "Control+a" holds one down."""
        actions = []
        for name in names:
            held = name.split("+") if len(name) > 1 else [name]
            held = [KEYS.get(key, key) for key in held]
            actions += [{"type": "keyDown", "value": key} for key in held] + [{"type": "keyUp", "value": key} for key in reversed(held)]
        self.call("/actions", {"actions": [{"type": "key", "id": "keyboard", "actions": actions}]})

    def point(self, selector, x, y, press=False):
        """Moves the pointer to a part of an element, from 0 to 1 of its width and height, and clicks there."""
        left, top, width, height = self.run("const e = document.querySelector(arguments[0]); e.scrollIntoView({ block: 'center' }); "
                                            "const b = e.getBoundingClientRect(); return [b.left, b.top, b.width, b.height]", selector)
        actions = [{"type": "pointerMove", "duration": 0, "x": round(left + x * width), "y": round(top + y * height)}]
        if press:
            actions += [{"type": "pointerDown", "button": 0}, {"type": "pointerUp", "button": 0}]
        self.call("/actions", {"actions": [{"type": "pointer", "id": "mouse", "parameters": {"pointerType": "mouse"}, "actions": actions}]})

    def close(self):
        try:
            self.call("", method="DELETE", timeout=5)
        except AssertionError:
            pass
        finally:
            os.killpg(self.driver.pid, signal.SIGKILL)
            self.driver.wait()
