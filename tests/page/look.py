"""A look at the page, in all sizes and schemes, and the requests that the page makes."""

import json
import pathlib
import statistics
import time

from page.scripts import FAINT, GROUND, LOOKS_SO, PALE, WIDER
from serving import PATIENCE, Differs, same

LOOKS = [(1280, 900, "light"), (1280, 900, "dark"), (380, 800, "light"), (380, 800, "dark")]
# A ground that is less light is dark: 0 is black, and 1 is white.
DARK = 0.2


class Look:
    """One look at the page: the service, the browser, and how long each change took to be seen."""

    def __init__(self, words, service, window):
        self.words, self.service, self.window, self.took = words, service, window, []

    def sees(self, what, began, script, *values):
        """The page shows something. All times are judged at the end, since a machine may be busy for a moment."""
        took = self.window.until(what, script, *values, within=PATIENCE, began=began)
        self.took.append((what, took))

    def times(self):
        """How soon the page showed each change."""
        return ", ".join(f"{what} {1000 * took:.0f} ms" for what, took in self.took)

    def is_late(self):
        """Whether the page showed a change too late."""
        return any(took > self.words.within for _, took in self.took)

    def judge(self):
        """Sees that the page shows changes soon enough. Returns how soon it showed each."""
        median = statistics.median(took for _, took in self.took)
        if median > self.words.within:
            raise Differs(f"the median of the times is {median:.2f} s: {self.times()}")
        return self.times()

    def shot(self, name):
        """Looks at the page in all sizes and schemes, checks it, and keeps pictures if they are wanted."""
        for width, height, scheme in LOOKS:
            self.window.look(width, height, scheme)
            self.window.until(f"{width} pixels, {scheme}", LOOKS_SO, width, scheme, within=PATIENCE)
            self.window.run("document.activeElement.blur()")
            time.sleep(0.3)
            wide, *names = self.window.run(WIDER)
            if wide > width or names:
                raise Differs(f"{name} at {width} pixels: {wide} pixels wide, by {names}")
            same(f"{name}, {scheme}: whether its ground is dark", self.window.run(GROUND) < DARK, scheme == "dark")
            same(f"{name} at {width} pixels, {scheme}: text without contrast", self.window.run(PALE), [])
            same(f"{name} at {width} pixels, {scheme}: faint shapes of the ring", self.window.run(FAINT), [])
            if self.words.shots:
                file = pathlib.Path(self.words.shots, f"{name}-{width}-{scheme}.png")
                file.write_bytes(self.window.picture())
        self.window.look(1280, 900, "light")


def requests(look):
    """The requests of the page since the last call. None may go elsewhere."""
    site, urls = look.service.site, []
    for line in look.window.reports("performance"):
        event = json.loads(line["message"])["message"]
        sent = event["params"] if event["method"] == "Network.requestWillBeSent" else {"documentURL": ""}
        # (the browser's own first tab asks for pages of the browser)
        if sent["documentURL"].startswith(site):
            urls.append(sent["request"]["url"])
            if not urls[-1].startswith(site):
                raise Differs(f"a request to {urls[-1]}")
    return urls
