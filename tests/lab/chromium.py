"""A browser without a window, asked over two pipes (Chrome's DevTools protocol): nothing but
chromium itself is needed."""
import json
import os
import shutil
import subprocess
import tempfile
from base64 import b64decode
from pathlib import Path

NAMES = ("chromium", "chromium-browser", "google-chrome", "google-chrome-stable")


def found():
    """Returns where a browser is, or None."""
    return next(filter(None, map(shutil.which, NAMES)), None)


def ancestors(number, parents):
    """Returns a process with those above it."""
    found = []
    while number in parents and number not in found:
        found.append(number)
        number = parents[number]
    return found


class Browser:
    """A browser with one page."""

    def __init__(self, wide=1400, high=900):
        self.room = tempfile.mkdtemp()
        to_read, self.to_write = os.pipe()
        self.to_read, to_write = os.pipe()
        words = [found(), "--headless", "--no-sandbox", "--disable-gpu", "--no-first-run"]
        words += ["--hide-scrollbars", "--remote-debugging-pipe", f"--user-data-dir={self.room}"]
        words += [f"--window-size={wide},{high}"]

        def wired():
            # It reads from 3 and writes to 4. (Both ends are moved out of the way first.)
            ends = [os.dup(it) for it in (to_read, to_write)]
            for number, end in zip((3, 4), ends):
                os.dup2(end, number)

        how = {"stdin": subprocess.DEVNULL, "stdout": subprocess.DEVNULL, "stderr": subprocess.DEVNULL}
        self.ran = subprocess.Popen(words, preexec_fn=wired, close_fds=False, **how)
        os.close(to_read)
        os.close(to_write)
        self.left, self.number, self.events, self.at = b"", 0, [], None
        made = self.ask("Target.createTarget", url="about:blank")
        self.at = self.ask("Target.attachToTarget", targetId=made["targetId"], flatten=True)["sessionId"]
        for name in ("Page", "Runtime", "Log", "Network"):
            self.ask(f"{name}.enable")

    def close(self):
        """Ends it."""
        self.ran.kill()
        self.ran.wait()
        os.close(self.to_read)
        os.close(self.to_write)
        shutil.rmtree(self.room, ignore_errors=True)

    def __enter__(self):
        return self

    def __exit__(self, *_):
        self.close()

    def message(self):
        """Returns the next message of the browser."""
        while b"\0" not in self.left:
            more = os.read(self.to_read, 1 << 20)
            if not more:
                raise RuntimeError("the browser ended")
            self.left += more
        said, _, self.left = self.left.partition(b"\0")
        return json.loads(said)

    def ask(self, what, **given):
        """Has the browser do something. Returns its answer."""
        self.number += 1
        said = {"id": self.number, "method": what, "params": given}
        if self.at:
            said["sessionId"] = self.at
        os.write(self.to_write, json.dumps(said).encode() + b"\0")
        while True:
            got = self.message()
            if got.get("id") == self.number:
                if "error" in got:
                    raise RuntimeError(f"{what}: {got['error']}")
                return got["result"]
            self.events.append(got)

    def wait_for(self, event):
        """Waits for an event, or finds it among those that came."""
        while not any(it.get("method") == event for it in self.events):
            self.events.append(self.message())

    def open(self, url):
        """Opens a page, and waits until it is there."""
        self.events.clear()
        self.ask("Page.navigate", url=url)
        self.wait_for("Page.loadEventFired")

    def value(self, text):
        """Returns the value of an expression in the page."""
        got = self.ask("Runtime.evaluate", expression=text, returnByValue=True, awaitPromise=True)
        if "exceptionDetails" in got:
            raise RuntimeError(got["exceptionDetails"])
        return got["result"].get("value")

    def click(self, x, y):
        """Clicks at a place."""
        for kind in ("mousePressed", "mouseReleased"):
            self.ask("Input.dispatchMouseEvent", type=kind, x=x, y=y, button="left", clickCount=1)

    def press(self, key, text=""):
        """Presses a key."""
        self.ask("Input.dispatchKeyEvent", type="keyDown", key=key, **({"text": text} if text else {}))
        self.ask("Input.dispatchKeyEvent", type="keyUp", key=key)

    def seconds(self):
        """Returns how long processors worked for it so far."""
        parents, used = {}, {}
        for stat in Path("/proc").glob("[0-9]*/stat"):
            try:
                number, rest = int(stat.parent.name), stat.read_text().rpartition(")")[2].split()
            except OSError:
                continue
            parents[number], used[number] = int(rest[1]), (int(rest[11]) + int(rest[12])) / os.sysconf("SC_CLK_TCK")
        return sum(it for number, it in used.items() if self.ran.pid in ancestors(number, parents))

    def faults(self):
        """Returns what went wrong in the page."""
        wrong = [it["params"] for it in self.events if it.get("method") == "Runtime.exceptionThrown"]
        said = [it["params"]["entry"] for it in self.events if it.get("method") == "Log.entryAdded"]
        return wrong + [it for it in said if it["level"] == "error"]

    def asked_for(self):
        """Returns the addresses that the page asked for."""
        sent = [it["params"] for it in self.events if it.get("method") == "Network.requestWillBeSent"]
        return [it["request"]["url"] for it in sent]

    def keep(self, path):
        """Keeps what is seen in a file."""
        Path(path).write_bytes(b64decode(self.ask("Page.captureScreenshot", format="png")["data"]))
