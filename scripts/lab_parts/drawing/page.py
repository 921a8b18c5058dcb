"""The picture of a run as one page, which shows the state at each row."""
import json
import re
from html import escape
from pathlib import Path

from .marks import Legend
from .picture import HEAD, LOGGED, STYLE, TIMES, Picture, cut

HERE = Path(__file__).parent
# How many rows are drawn as one: what isn't on the screen isn't painted.
ROWS_TOGETHER = 24
# How many letters of a sentence: lines of a script may be long, and are kept once.
MOST_TOLD = 200
HELP = """Click a row, or use the keys: ↑ ↓ a row · PgUp PgDn many · Home End · ← → sideways · / search ·
Enter, or n and N: the next place found, and the one before · Esc back to the rows"""


def inner(svgs):
    """Returns SVG with other quotes: only attributes have them, and JSON would mark each."""
    return "".join(svgs).replace('"', "'")


class Page:
    """The page of a run."""

    def __init__(self, lines, steps, title):
        self.lines, self.steps = lines, steps
        self.picture = Picture(lines, steps, title)
        first = [it.y for it in self.picture.rows[::ROWS_TOGETHER]]
        self.breaks = first[1:]
        self.ends = [*self.breaks, self.picture.high]
        self.begins = [0, *self.breaks]

    def pieces(self, parts):
        """Returns the parts that each piece shows."""
        found, at = [[] for _ in self.begins], 0
        for part in parts:
            if not part.svg:
                continue
            at = 0 if part.begin < self.begins[at] else at
            while part.begin >= self.ends[at] and at + 1 < len(found):
                at += 1
            for place in range(at, len(found)):
                if self.begins[place] >= part.end:
                    break
                found[place].append(part.svg)
        return found

    def heads(self):
        """Returns the titles of the panels."""
        picture = self.picture
        line = f'<text x="28" y="{HEAD - 12}" class="small soft end">line</text>'
        panels = (("times", TIMES, line), ("words", picture.panel + LOGGED, picture.head_of_words(True)))
        panels += (("columns", picture.wide, picture.head_of_columns()),)
        size = 'width="{0}" height="{1}" viewBox="0 0 {0} {1}"'
        return "".join(
            f'<div class="{name}"><svg class="lab" {size.format(wide, HEAD)} aria-hidden="true">{svg}</svg></div>'
            for name, wide, svg in panels
        )

    def panels(self):
        """Returns the panels, each with its width and the inner SVG of its pieces."""
        picture = self.picture
        found = (("times", TIMES, picture.times()), ("words", picture.panel + LOGGED, picture.words(True)))
        found += (("columns", picture.wide, picture.parts(self.breaks)),)
        return [[name, wide, [inner(it) for it in self.pieces(parts)]] for name, wide, parts in found]

    def row(self, row, steps):
        """Returns what the script of the page knows of a row, in the order of its ROW."""
        last = steps[-1]
        operation = last.operation
        changes = {key: value for it in steps for key, value in it.changes.items()}
        logged = f"{operation.number} {operation.word} {operation.answer}" if operation else 0
        image = operation and self.picture.names.get((operation.site(), operation.part()[1])) or 0
        told = cut(self.picture.told[row.first], MOST_TOLD)
        return [row.high, last.who, told, last.by, last.line, last.place, last.slot, logged, image, changes or 0]

    def data(self):
        """Returns what the script of the page goes by, as JSON that may stand in a page."""
        steps_of = {}
        for step, row in zip(self.steps, self.picture.row_of):
            steps_of.setdefault(row.first, []).append(step)
        rows = [self.row(it, steps_of[it.first]) for it in self.picture.rows]
        replies = {it.line: it.told["reply"] for it in self.steps if it.kind in ("reply", "end")}
        names = {f"{site}/{image}": name for (site, image), name in self.picture.names.items()}
        said = {"rows": rows, "lines": {it.number: it.text for it in self.lines}, "replies": replies, "names": names}
        said |= {"breaks": [*self.begins, self.picture.high], "panels": self.panels()}
        return json.dumps(said, separators=(",", ":")).replace("<", "\\u003c")

    def style(self):
        """Returns the style sheets, with what rests on how wide the panels are."""
        wide, panel = self.picture.wide, self.picture.panel
        # What is in the log is seen where there is room.
        said = f".columns{{width:{wide + 14}px}}.words{{width:{panel - 4}px}}"
        said += f"@media print{{.piece,.heads{{grid-template-columns:{TIMES}fr {panel + LOGGED}fr {wide}fr}}}}"
        return STYLE + said + (HERE / "page.css").read_text()

    def legend(self):
        """Returns what the looks mean, as an image."""
        legend = Legend(1000)
        size = f'width="1010" height="{legend.high + 4}" viewBox="-4 0 1010 {legend.high + 4}"'
        return f'<svg class="lab" {size}>{legend.svg}</svg>'

    def whole(self):
        """Returns the page."""
        parts = {"title": escape(self.picture.title), "help": escape(HELP), "style": self.style()}
        parts |= {"legend": self.legend(), "heads": self.heads(), "data": self.data()}
        parts["script"] = (HERE / "page.js").read_text()
        return re.sub(r"\{\{(\w+)\}\}", lambda it: parts[it[1]], (HERE / "page.html").read_text())
