#!/usr/bin/env python3
"""Tests of the page that `scripts/lab draw` makes, in a browser without a window.

  python3 tests/lab/browser_test.py    takes half a minute; without chromium it says so, and passes

The bytes that a click has to show were worked out by hand, from the scripts and docs/RULES.md.
"""
import sys
import tempfile
import unittest
from pathlib import Path

sys.dont_write_bytecode = True
sys.path.insert(0, str(Path(__file__).resolve().parent))
import chromium
from test_drawing import EXAMPLES, drawing, example
from lab_parts.drawing import fold, page, reading

# A row by its operation or its words, and what is shown behind it: a key, and its text.
CLICKS = {
    "two-clients": [
        ("a9", "a/1/map/0", "0: 1"),
        ("a10", "a/1/data/0", "4094: 1122"),
        ("a14", "a/1/data/0", "4094: 1122"),
        ("a18", "a/1/data/1", "0: 3344"),
        ("a18", "a/1/map/0", "0–1: 1"),
    ],
    "stopped-owner": [
        ("a10", "a/1/data/0", "0: 11"),
        ("a14", "a/1/lock", "c1.0"),
        ("a21", "a/fenced", "c1.0"),
        ("a22", "a/1/lock", "free"),
        ("a27", "a/1/data/0", "0: 1133"),
        ("a27", "a/1/lock", "c2.0"),
        ("a33", "notice/1", "c1.1 → c2.0: asks for the lock: not heard yet"),
        ("a39", "a/1/data/0", "0: 113344"),
    ],
    "snapshots": [
        ("a52", "a/1/header", "8192 bytes: 2 objects of 4096"),
        ("a52", "a/1/data/0", "0: 736978, 4094: 6865"),
    ],
}
MANY, SECONDS, TRIES = 5_000, 2, 5


def many_operations(count):
    """Returns a script whose writes do so many operations, and its trace: by the way of a write."""
    header, lines = "rbd_header.1", ["client c1 a", "c1 create disk 65536 object 4096"]
    words = [("dir-add", "rbd_directory", "id"), ("map-resize", "rbd_object_map.1", "done")]
    plan = [(2, [*words, ("header-create", header, "done")])]
    while sum(len(it) for _, it in plan) < count:
        lines.append(f"c1 write disk {len(lines) * 4099 % 65536} {len(lines) % 256:02x}")
        number = len(lines) - 1
        lock = [("watch", header, "done"), ("lock-take", header, "done")] if number == 2 else []
        words = [("dir-find", "rbd_directory", "id"), ("header-get", header, "header"), *lock]
        words += [("header-get", header, "header"), ("map-set", "rbd_object_map.1", "done")]
        words.append(("data-write", f"rbd_data.1.{number * 4099 % 65536 // 4096:016x}", "done"))
        plan.append((number + 1, words))
    return "\n".join(lines).encode(), traced(plan)


def traced(plan):
    """Returns the trace of commands that one session does one after another."""
    history, log, replies = [], [], []
    for line, words in plan:
        history.append(f"start {line} c1.0")
        for word, on, answer in words:
            log.append(f"o a{len(log) + 1} c1.0 {word} {on} {answer}")
            history.append(f"look {line} a{len(log)}")
        history.append(f"reply {line}")
        replies.append(f"{line} c1 ok")
    numbered = [f"h {place} {it}" for place, it in enumerate(history, 1)]
    return "\n".join([*numbered, *log, *replies, ""]).encode()


class Pages(unittest.TestCase):
    @classmethod
    def setUpClass(cls):
        cls.room = tempfile.TemporaryDirectory()
        cls.browser = chromium.Browser()

    @classmethod
    def tearDownClass(cls):
        cls.browser.close()
        cls.room.cleanup()

    def open(self, name, text=None):
        """Opens the page of an example, or this one."""
        at = Path(self.room.name, f"{name}.html")
        at.write_text(text or drawing(name, page.Page).whole())
        self.browser.open(at.as_uri())
        self.settle()

    def settle(self):
        """Waits until what has to be drawn is drawn."""
        self.browser.value("new Promise((done) => requestAnimationFrame(() => requestAnimationFrame(() => done(0))))")

    def shown(self, key):
        """Returns what the page shows under a key, of what the chosen row left."""
        return self.browser.value(f"document.querySelector('aside [data-key=\"{key}\"]')?.textContent")

    def click(self, number):
        """Clicks the row of an operation."""
        found = f"[...document.querySelectorAll('#pieces .times text')].find((it) => it.textContent === '{number}')"
        self.browser.value("dispatchEvent(new Event('beforeprint'))")
        self.browser.value(f"{found}.scrollIntoView({{block: 'center'}})")
        self.settle()
        middle = "(({x, y, width, height}) => [x + width / 2, y + height / 2])"
        self.browser.click(*self.browser.value(f"{middle}({found}.getBoundingClientRect())"))
        self.settle()

    def said(self):
        """Returns the sentence of the chosen row."""
        return self.browser.value("document.getElementById('said').textContent")

    def test_examples_load_without_a_fault(self):
        for name in EXAMPLES:
            self.open(name)
            self.assertEqual(self.browser.faults(), [], name)
            self.assertEqual([it.rpartition("/")[2] for it in self.browser.asked_for()], [f"{name}.html"], name)

    def test_the_marks_are_the_traces(self):
        for name in EXAMPLES:
            self.open(name)
            self.browser.value("dispatchEvent(new Event('beforeprint'))")
            got = self.browser.value("document.querySelectorAll('#pieces .mark').length")
            self.assertEqual(got, example(name)[1].count(b"\no "), name)

    def test_a_click_shows_the_state(self):
        for name, rows in CLICKS.items():
            self.open(name)
            for number, key, wanted in rows:
                self.click(number)
                self.assertEqual(self.shown(key), wanted, f"{name}: {number}")
            self.assertEqual(self.browser.faults(), [], name)

    def test_keys_alone(self):
        self.open("stopped-owner")
        self.browser.press("End")
        self.assertEqual(self.said(), "c1 line 10 has no reply: lost")
        self.browser.press("ArrowUp")
        self.assertEqual(self.said(), "c2.0 has the reply to line 23: ok 113344")
        self.browser.press("Home")
        self.browser.press("ArrowDown")
        self.assertEqual(self.said(), "c1 write disk 0 11")

    def test_a_search(self):
        self.open("stopped-owner")
        self.browser.press("/")
        for letter in "fences":
            self.browser.press(letter, letter)
        self.browser.press("Enter", "\r")
        self.assertEqual(self.said(), "c2.0 fences c1.0: it is refused from now on")
        self.assertEqual(self.browser.value("document.getElementById('found').textContent"), "1 of 1")
        self.browser.press("Escape")
        self.browser.press("ArrowDown")
        self.assertEqual(self.said(), "c2.0 breaks c1.0's lock of disk")

    def test_dark_and_light(self):
        self.open("first")
        colour, seen = "getComputedStyle(document.body).backgroundColor", []
        for scheme in ("light", "dark"):
            self.browser.ask("Emulation.setEmulatedMedia", features=[{"name": "prefers-color-scheme", "value": scheme}])
            seen.append(self.browser.value(colour))
        self.browser.ask("Emulation.setEmulatedMedia", features=[])
        self.assertEqual(seen, ["rgb(255, 255, 255)", "rgb(20, 24, 29)"])

    def test_800_pixels(self):
        self.open("stopped-owner")
        how = {"deviceScaleFactor": 1, "mobile": False}
        self.browser.ask("Emulation.setDeviceMetricsOverride", width=800, height=900, **how)
        self.settle()
        self.assertLessEqual(self.browser.value("document.documentElement.scrollWidth"), 800)
        left = "document.querySelector('#pieces .times').getBoundingClientRect().x"
        before = self.browser.value(left)
        scrolled = "document.getElementById('rows').scrollLeft"
        self.browser.value(f"{scrolled} = 300")
        self.settle()
        self.assertEqual((self.browser.value(left), self.browser.value(scrolled)), (before, 300))
        self.assertEqual(self.browser.value("document.elementFromPoint(20, 300).closest('div').className"), "times")
        self.browser.ask("Emulation.clearDeviceMetricsOverride")

    def test_a_print_has_all_rows(self):
        self.open("stopped-owner")
        self.browser.ask("Page.printToPDF", preferCSSPageSize=True)
        self.assertEqual(self.browser.value("document.querySelectorAll('.piece:empty').length"), 0)

    def test_many_operations_open_in_two_seconds(self):
        # Counted in what the processors did, so that others on the machine don't count, and the
        # best of a few, since that too is more on a busy one.
        script, trace = many_operations(MANY)
        self.assertGreaterEqual(trace.count(b"\no "), MANY)
        text = page.Page(reading.script_of(script), fold.steps(script, trace), "many").whole()
        took = []
        while len(took) < TRIES and min(took, default=SECONDS) >= SECONDS:
            before = self.browser.seconds()
            self.open("many", text)
            took.append(self.browser.seconds() - before)
        print(f"\n{MANY} operations, a page of {len(text):,} bytes: open after", *(f"{it:.2f} s" for it in took))
        self.assertLess(min(took), SECONDS)
        self.browser.press("End")
        self.assertEqual(self.said(), f"c1.0 has the reply to line {script.count(10) + 1}: ok")
        self.assertEqual(self.browser.faults(), [])


if __name__ == "__main__":
    if not chromium.found():
        print("browser_test: left out, since there is no chromium here")
        sys.exit(0)
    unittest.main()
