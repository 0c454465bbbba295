"""Chromium without a window, driven by chromedriver: pages, keys, pictures, and what the browser itself reports."""

import base64
import contextlib
import http.client
import json
import subprocess
import tempfile
import time

import debian
from serving import HOST, Differs, ended, free_port

WORDS = ["--headless=new", "--no-sandbox", "--disable-gpu", "--disable-dev-shm-usage", "--no-first-run", "--disable-sync",
         "--disable-background-networking", "--disable-component-update", "--disable-default-apps", "--hide-scrollbars"]
TAB, ENTER, SHIFT = "\ue004", "\ue007", "\ue008"


def install():
    """Installs Chromium and its driver from Debian if they are missing. It ends the check if it cannot."""
    debian.install(["chromium", "chromedriver"], ["chromium", "chromium-driver"], "the page was not looked at")


class Browser:
    """A session of a browser."""

    def __init__(self, port, folder):
        self.port, self.url = port, ""
        options = {"args": [*WORDS, f"--user-data-dir={folder}"]}
        wanted = {"browserName": "chrome", "goog:chromeOptions": options,
                  "goog:loggingPrefs": {"browser": "ALL", "performance": "ALL"}}
        self.url = "/session/" + self.call("POST", "/session", {"capabilities": {"alwaysMatch": wanted}})["sessionId"]

    def call(self, method, path, body=None):
        """One command to the driver, and its value."""
        link = http.client.HTTPConnection(HOST, self.port, timeout=60)
        with contextlib.closing(link):
            text = None if body is None else json.dumps(body)
            link.request(method, self.url + path, text, {"Content-Type": "application/json"})
            value = json.loads(link.getresponse().read())["value"]
        if isinstance(value, dict) and "error" in value:
            raise Differs(f"{method} {path}: {value['error']}: {value.get('message', '').splitlines()[:1]}")
        return value

    def open(self, url):
        """Opens a page."""
        self.call("POST", "/url", {"url": url})

    def back(self):
        """Goes back by one page of the history."""
        self.call("POST", "/back", {})

    def run(self, script, *words):
        """Runs a script in the page, and returns what it returns."""
        return self.call("POST", "/execute/sync", {"script": script, "args": list(words)})

    def until(self, what, script, *words, within, began=None):
        """Waits until a script returns something true. Returns the seconds that it took."""
        began = time.monotonic() if began is None else began
        while True:
            if self.run(script, *words):
                return time.monotonic() - began
            if time.monotonic() - began > within:
                seen = self.run("return document.body.innerText")
                raise Differs(f"{what}: not seen within {within} s; the page says {' '.join(seen.split())!r}")
            time.sleep(0.01)

    def press(self, *keys):
        """Presses keys, one after another."""
        self.move(*[(kind, key) for key in keys for kind in ("keyDown", "keyUp")])

    def press_with(self, held, key):
        """Presses a key while another one is held."""
        self.move(("keyDown", held), ("keyDown", key), ("keyUp", key), ("keyUp", held))

    def move(self, *moves):
        """Moves keys down and up."""
        moves = [{"type": kind, "value": key} for kind, key in moves]
        self.call("POST", "/actions", {"actions": [{"type": "key", "id": "keys", "actions": moves}]})

    def tool(self, command, **words):
        """A command to the browser's own tools for developers."""
        return self.call("POST", "/goog/cdp/execute", {"cmd": command, "params": words})

    def look(self, width, height, scheme, scale=1):
        """Shows the page at a width, and light or dark."""
        self.tool("Emulation.setDeviceMetricsOverride", width=width, height=height, deviceScaleFactor=scale, mobile=False)
        self.tool("Emulation.setEmulatedMedia", features=[{"name": "prefers-color-scheme", "value": scheme}])

    def cut_off(self, is_cut):
        """Lets all requests fail, or none."""
        speeds = {"latency": 0, "downloadThroughput": -1, "uploadThroughput": -1}
        self.tool("Network.emulateNetworkConditions", offline=is_cut, **speeds)

    def block(self, *urls):
        """Lets the requests to these addresses fail, and no others."""
        self.tool("Network.enable")
        self.tool("Network.setBlockedURLs", urls=list(urls))

    def picture(self):
        """The whole page as a PNG."""
        return base64.b64decode(self.tool("Page.captureScreenshot", format="png", captureBeyondViewport=True)["data"])

    def reports(self, kind):
        """What the browser has reported since the last call: `browser` is the console, `performance` has the requests."""
        return self.call("POST", "/se/log", {"type": kind})


@contextlib.contextmanager
def browser():
    """A browser that is ended with its check."""
    port = free_port()
    with tempfile.TemporaryDirectory(ignore_cleanup_errors=True) as folder:
        driver = subprocess.Popen(["chromedriver", f"--port={port}", "--allowed-ips=127.0.0.1"], stdin=subprocess.DEVNULL,
                                  stdout=subprocess.DEVNULL, stderr=subprocess.DEVNULL)
        with ended(driver):
            wait_for(port)
            one = Browser(port, folder)
            try:
                yield one
            finally:
                with contextlib.suppress(OSError, Differs):
                    one.call("DELETE", "")


def wait_for(port):
    """Waits until something answers at a port by HTTP."""
    for _ in range(400):
        link = http.client.HTTPConnection(HOST, port, timeout=5)
        with contextlib.suppress(OSError, http.client.HTTPException), contextlib.closing(link):
            link.request("GET", "/status")
            link.getresponse().read()
            return
        time.sleep(0.05)
    raise Differs(f"nothing answers at port {port}")
