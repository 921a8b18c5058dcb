"""The picture of a run, as SVG: an operation a row, and a column for each session and object."""
from html import escape
from pathlib import Path
from typing import NamedTuple

from .marks import Legend, look_of, mark, text
from .words import Speaker

STYLE = (Path(__file__).parent / "picture.css").read_text()
ROW, LINE_ROW, HEAD = 20, 30, 62
# How wide the panel of times is, where in that of words they begin, and how wide what is in the log
# is, which pages show behind them.
TIMES, WHO, LOGGED = 72, 6, 152
# The room of sentences, a heavy letter's, and that of a letter of a script.
LEAST_WORDS, MOST_WORDS, LETTER, CODE = 200, 430, 6.9, 7.3
LANE, LANES, OWNER, STRIP = 26, 18, 66, 22
NARROW, USUAL, DATA = 40, 60, 104
MOST_WIDE_OBJECTS = 12
SUBTITLE = "Time goes down. A row is one operation: a session's, on one object, done whole or not at all."
def cut(said, most):
    """Returns a text, cut where it is longer than fits."""
    return said if len(said) <= most else said[: most - 1] + "…"


def wide_of(said, least, most):
    """Returns how wide a name's column is."""
    return min(most, max(least, round(7.6 * len(said)) + 8))


def fit(who, wide):
    """Returns an instance, or a session, cut where it is wider than fits; its life stays."""
    name, dot, life = who.partition(".")
    return cut(name, max(2, int(wide / 8.3) - len(dot + life))) + dot + life


class Column(NamedTuple):
    """A column of the right panel."""

    key: tuple
    title: str
    x: int
    wide: int


class Part(NamedTuple):
    """A piece of the picture: where it begins and ends, from the top, and its SVG."""

    begin: int
    end: int
    svg: str


class Row(NamedTuple):
    """A row: its first step, where it is, and how high."""

    first: int
    y: int
    high: int

    def middle(self):
        """Returns the middle of its text."""
        return self.y + self.high - ROW // 2

    def part(self, svg):
        """Returns a piece of the picture that lies in it."""
        return Part(self.y, self.y + self.high, svg)

    def rule(self, wide):
        """Returns the rule above it, where it begins something."""
        return f'<path class="rule" d="M0 {self.y + 4.5}H{wide}"/>' if self.high > ROW else ""


class Picture:
    """The parts of the picture of a run."""

    def __init__(self, lines, steps, title):
        self.title, self.steps = title, steps
        speaker = Speaker(lines)
        self.told = [speaker.tell(it) for it in steps]
        self.names = speaker.names
        clients = [it.words for it in lines if it.words[0] == "client"]
        self.places = {it[1]: place for place, it in enumerate(clients)}
        # Where the sentences begin, and how wide the panel of words is.
        longest = max([it.who for it in steps if "." in it.who], key=len, default="")
        self.words_at = wide_of(longest, 44, 120) + WHO
        self.rows = self.make_rows()
        self.panel = self.words_at + self.wide_of_words()
        self.high = self.rows[-1].y + self.rows[-1].high + 8 if self.rows else ROW
        # The steps that change a value, by its key, each with its row.
        self.changing = {}
        for step, row in zip(steps, self.row_of):
            for key in step.changes:
                self.changing.setdefault(key, []).append((step, row))
        self.columns = {}
        self.groups = []
        self.wide = 12
        self.make_columns()

    def color(self, who):
        """Returns the class of an instance's colour, or of a session's."""
        return f"s{self.places[who.partition('.')[0]] % 8}"

    def color_of(self, step):
        """Returns the class of the colour of who did a step."""
        return "store" if step.cause == "store" else self.color(step.who)

    def wide_of_words(self):
        """Returns the room of the longest sentence, where that isn't too much."""
        longest = max((len(told) for step, told in zip(self.steps, self.told) if step.kind != "line"), default=0)
        lines = max((len(told) for step, told in zip(self.steps, self.told) if step.kind == "line"), default=0)
        wanted = max(LETTER * longest, CODE * lines + WHO - self.words_at)
        return round(min(MOST_WORDS, max(LEAST_WORDS, wanted))) + 10

    # ---- rows and columns

    def make_rows(self):
        """Returns the rows: a start behind its own line is in the row of that line."""
        rows, y = [], 4
        self.row_of = []
        for index, step in enumerate(self.steps):
            if step.kind == "start" and step.by == step.line and self.steps[index - 1].kind == "line":
                self.row_of.append(rows[-1])
                continue
            is_behind_another = rows and self.steps[rows[-1].first].kind == "line"
            high = LINE_ROW if step.kind == "line" and not is_behind_another else ROW
            rows.append(Row(index, y, high))
            self.row_of.append(rows[-1])
            y += high
        return rows

    def add_group(self, title, columns):
        """Adds columns under a title, which has room above them."""
        begin = self.wide
        for key, name, wide in columns:
            self.columns[key] = Column(key, name, self.wide, wide)
            self.wide += wide
        if columns:
            self.wide = max(self.wide, begin + round(7.4 * len(title)))
            self.groups.append((title, begin, self.wide))
            self.wide += 16

    def make_columns(self):
        """Places the columns: locks, sessions, and what lies at each site."""
        parts = {(it.operation.site(), *it.operation.part()) for it in self.steps if it.operation}
        images = sorted({(site, image) for site, _, image, _ in parts if image})
        for site, image in images:
            self.add_lock(site, image, images)
        lanes = {name: 0 for name in self.places}
        for step in self.steps:
            if step.slot:
                name = step.who.rpartition(".")[0]
                lanes[name] = max(lanes[name], step.slot)
        least = {it: LANES + 16 + LANE * most for it, most in lanes.items()}
        sessions = [(("session", it), it, wide_of(it, wide, max(wide, 130))) for it, wide in least.items()]
        self.add_group("sessions", sessions)
        for site in sorted({it[0] for it in parts}):
            self.add_site(site, parts)

    def add_lock(self, site, image, images):
        """Adds the columns of an image's lock, where one was ever taken or watched."""
        locks = [step.changes[f"{site}/{image}/lock"] for step, _ in self.changing.get(f"{site}/{image}/lock", ())]
        watchers = {who.rpartition(".")[0] for it in locks if it for who in it["watchers"]}
        names = [self.names.get(it) for it in images]
        title = f"lock of {self.names.get((site, image), 'image')}"
        title += f" ({image})" if names.count(self.names.get((site, image))) > 1 else ""
        columns = [(("owner", site, image), "owner", OWNER)]
        ordered = sorted(watchers, key=self.places.get)
        columns += [(("watch", site, image, it), it, wide_of(it, STRIP, 80)) for it in ordered]
        if locks:
            self.add_group(title, columns)
            # (also where one session alone watches, as what is said above it is wider)
            self.wide += max(0, 60 - STRIP * len(watchers)) if watchers else 0

    def add_site(self, site, parts):
        """Adds the columns of what was touched at a site."""
        here = {it[1:] for it in parts if it[0] == site}
        columns = [((site, "names"), "names", USUAL)] if ("names", None, None) in here else []
        columns += [((site, "blocklist"), "blocklist", USUAL)] if ("blocklist", None, None) in here else []
        self.add_group(f"site {site}", columns)
        for image in sorted({it[1] for it in here if it[1]}):
            what = {it[0] for it in here if it[1] == image}
            columns = [((site, it, image), it, USUAL) for it in ("header", "map") if it in what]
            numbers = sorted(it[2] for it in here if it[:2] == ("data", image))
            wide = DATA if len(numbers) <= MOST_WIDE_OBJECTS else NARROW
            title = "object {}" if wide == DATA else "{}"
            columns += [((site, "data", image, it), title.format(it), wide) for it in numbers]
            self.add_group(f"{self.names.get((site, image), 'image')} (image {image})", columns)

    def lane(self, who, slot):
        """Returns where a slot's lane is."""
        return self.columns["session", who.partition(".")[0]].x + LANES + LANE * slot - 6

    def column_of(self, operation):
        """Returns the column of an operation's object."""
        what, image, number = operation.part()
        key = (operation.site(), what) if image is None else (operation.site(), what, image)
        return self.columns[(*key, number) if what == "data" else key]

    # ---- the panels of times and of words

    def times(self):
        """Yields the numbers of lines and operations."""
        for row in self.rows:
            step, y = self.steps[row.first], row.middle() + 4
            if step.kind == "line":
                yield row.part(row.rule(TIMES) + text(28, y, str(step.by or ""), "mono soft end"))
            elif step.operation:
                yield row.part(text(TIMES - 8, y, step.operation.number, "mono small soft end"))

    def words(self, with_log):
        """Yields the sentences of the rows, and behind them what is in the log."""
        for row in self.rows:
            step, y, told = self.steps[row.first], row.middle() + 4, self.told[row.first]
            if step.kind == "line":
                said = cut(told, int((self.panel - WHO) / CODE))
                yield row.part(row.rule(self.panel + LOGGED) + text(WHO, y, said, "mono strong"))
                continue
            svg = text(WHO, y, fit(step.who, self.words_at - WHO), f"who {self.color_of(step)}" if step.who else "")
            said = cut(told, int((self.panel - self.words_at) / (LETTER - 0.3)))
            svg += text(self.words_at, y, said, self.weight(step))
            if step.operation and with_log:
                logged = f"{step.operation.word} {step.operation.answer}"
                svg += text(self.panel, y, logged, "mono small soft")
            yield row.part(svg)

    def weight(self, step):
        """Returns the class of a step's sentence."""
        if step.kind in ("stop", "lost", "lose", "end") or (step.operation and step.operation.answer == "fenced"):
            return "bad strong"
        is_heavy = step.kind == "reply" or step.effect or (step.operation and look_of(step) == "fence")
        return "strong" if is_heavy else ""

    # ---- the panel of columns

    def parts(self, breaks=()):
        """Yields the parts of the panel of columns, from the back to the front. At each break what
        goes on is named once more."""
        yield from (row.part(row.rule(self.wide)) for row in self.rows)
        guides = [it.x + 14 for it in self.columns.values() if it.key[0] in ("a", "b")]
        for begin, end in zip([0, *breaks], [*breaks, self.high]):
            shape = "".join(f"M{x} {begin}V{end}" for x in guides)
            yield Part(begin, end, f'<path class="guide" d="{shape}"/>')
        yield from self.bands(breaks)
        yield from self.lives()
        yield from self.bars()
        for step, row in zip(self.steps, self.row_of):
            of = self.operation if step.operation else self.event
            yield row.part(of(step, row.middle()))

    def spans(self, key, of):
        """Yields each time that a part of a value lasts: what it is, where it begins and ends."""
        value, since = None, 0
        for step, row in self.changing.get(key, ()):
            now = of(step.changes[key])
            if now != value:
                if value is not None:
                    yield value, since, row.middle() - ROW // 2
                value, since = now, row.middle() - ROW // 2
        if value is not None:
            yield value, since, self.high

    def bands(self, breaks):
        """Yields who has each lock, who was asked for it, who watches, and who is fenced."""
        for column in self.columns.values():
            if column.key[0] == "owner":
                yield from self.owners(column, breaks)
            elif column.key[0] == "watch":
                yield from self.watchers(column)
            elif column.key[1] == "blocklist":
                yield from self.fenced(column)

    def watchers(self, column):
        """Yields when the lives of a session watch an image."""
        _, site, image, name = column.key
        for _, begin, end in self.spans(f"{site}/{image}/lock", lambda it: watches(it, name)):
            shape = f'x="{column.x + 2}" y="{begin + 1}" width="10" height="{end - begin - 2}" rx="3"'
            yield Part(begin, end, f'<rect class="strip {self.color(name)}" {shape}/>')

    def fenced(self, column):
        """Yields who is in a blocklist, each from when it came there."""
        for who, begin, _ in self.spans(f"{column.key[0]}/fenced", lambda it: it[-1]):
            yield Part(begin, self.high, f'<path class="fencing" d="M{column.x + 14} {begin + 16}V{self.high}"/>')
            yield Part(begin, begin + ROW, text(column.x + 24, begin + 14, fit(who, 56), "small bad strong"))

    def owners(self, column, breaks):
        """Yields the bands of an image's lock."""
        key, x = f"{column.key[1]}/{column.key[2]}/lock", column.x
        asked = list(self.spans(key, lambda it: bool(it and it["asked"]) or None))
        taken = {begin for _, begin, _ in asked}
        for who, begin, end in self.spans(key, lambda it: it and (it["owner"] or "free")):
            if who == "free":
                free = text(x + 28, begin + 14, "free", "small soft middle")
                yield Part(begin, end, f'<path class="free" d="M{x + 28} {begin + ROW}V{max(begin + ROW, end)}"/>')
                yield Part(begin, end, free)
                continue
            shape = f'x="{x}" y="{begin + 1}" width="56" height="{end - begin - 2}" rx="4"'
            yield Part(begin, end, f'<rect class="band {self.color(who)}" {shape}/>')
            for y in [begin, *(it for it in breaks if begin < it < end and it not in taken)]:
                yield Part(y, y + ROW, text(x + 7, y + 15, fit(who, 52), f"who {self.color(who)}"))
        for _, begin, end in asked:
            yield Part(begin, end, f'<path class="asked" d="M{x + 51} {begin + 2}V{end - 2}"/>')
            yield Part(begin, begin + ROW, text(x + 46, begin + 14, "asked", "small end"))

    def lives(self):
        """Yields the lives of the sessions; one that is fenced is dashed from then on."""
        fenced = {}
        for step, row in zip(self.steps, self.row_of):
            if step.operation and look_of(step) == "fence":
                fenced.setdefault(step.told["owner"], row.middle())
        for name in self.places:
            x = self.lane(name, 0)
            for life, begin, end in self.spans(f"session/{name}", lambda it: it["life"] if it["runs"] else None):
                begin, end = (begin if life else 0), (end + ROW // 2 if end < self.high else end)
                dashed = min(max(begin, fenced.get(f"{name}.{life}", end)), end)
                svg = f'<path class="life {self.color(name)}" d="M{x} {begin}V{dashed}"/>'
                yield Part(begin, dashed, svg)
                if dashed < end:
                    svg = f'<path class="life fenced {self.color(name)}" d="M{x} {dashed}V{end}"/>'
                    yield Part(dashed, end, svg)

    def bars(self):
        """Yields the commands in their slots, each from its start to its reply."""
        begun = {}
        for step, row in zip(self.steps, self.row_of):
            if step.kind == "start":
                begun[step.line] = (step, row)
            elif step.kind in ("reply", "lost") and step.line in begun:
                end, kind = row.middle() + 8, " lost" if step.kind == "lost" else ""
                yield from self.bar(*begun.pop(step.line), end, kind)
        for step, row in begun.values():
            yield from self.bar(step, row, self.high, " lost")

    def bar(self, step, row, end, kind):
        """Yields the bar of a command, with its line's number."""
        x, begin = self.lane(step.who, step.slot), row.middle() - 8
        shape = f'x="{x - 9}" y="{begin}" width="18" height="{end - begin}" rx="5"'
        yield Part(begin, end, f'<rect class="bar {self.color(step.who)}{kind}" {shape}/>')
        yield Part(begin, begin + ROW, text(x, begin + 12, str(step.line), "small middle"))

    def operation(self, step, y):
        """Returns the mark of an operation, and the line from its session."""
        column = self.column_of(step.operation)
        x, is_late, svg = column.x + 14, step.cause == "late", ""
        if step.cause != "store":
            begin = self.lane(step.who, step.slot)
            svg = f'<path class="line{" late" if is_late else ""}" d="M{begin} {y}H{x}"/>'
            late = f'<path class="dot" d="M{begin - 4} {y - 5}l9 5l-9 5z"/>'
            svg += late if is_late else f'<circle class="dot" cx="{begin}" cy="{y}" r="2.5"/>'
        svg += mark(look_of(step), x, y, " late" if is_late else "")
        late = text(begin + 9, y - 3, "late", "small bad strong") if is_late else ""
        beside = text(x + 12, y + 4, self.beside(step, column), "mono small")
        return f'<g class="{self.color_of(step)}">{svg}</g>{late}{beside}'

    def beside(self, step, column):
        """Returns the text beside a mark: bytes, or the numbers of notices."""
        if look_of(step) == "notice":
            return ",".join(map(str, step.told["posted"]))
        is_shown = column.wide == DATA and "bytes" in step.told
        return cut(step.told["bytes"], 12) if is_shown else ""

    def event(self, step, y):
        """Returns what an event shows in its session's column."""
        if step.kind in ("start", "end", "line"):
            return ""
        if step.kind in ("reply", "lost"):
            return f'<g class="{self.color(step.who)}">{self.ending(step, y)}</g>'
        x = self.lane(step.who, 0)
        shapes = {
            "stop": f"M{x - 5} {y - 5}l10 10M{x - 5} {y + 5}l10 -10",
            "restart": f"M{x - 6} {y - 5}h12l-6 10z",
            "heard": f"M{x - 6.5} {y - 4.5}h13v9h-13zl6.5 5.5l6.5 -5.5",
        }
        shapes["lose"] = shapes["heard"] + f"M{x - 8} {y - 7}l16 14M{x - 8} {y + 7}l16 -14"
        svg = f'<path class="event {step.kind}" d="{shapes[step.kind]}"/>'
        said = fit(step.who, 80) if step.kind == "restart" else str(step.told.get("notice", ""))
        return f'<g class="{self.color(step.who)}">{svg}</g>' + text(x + 10, y + 4, said, "small strong")

    def ending(self, step, y):
        """Returns the end of a command: a tick, or a cross where it is refused or lost."""
        x = self.lane(step.who, step.slot)
        is_ok = step.kind == "reply" and step.told["reply"].startswith("ok")
        shape = f"M{x - 4} {y + 1}l3 3l5 -6" if is_ok else f"M{x - 3} {y - 2}l6 6M{x - 3} {y + 4}l6 -6"
        return f'<path class="event open" d="{shape}"/>'

    # ---- heads, and the whole

    def head_of_words(self, with_log):
        """Returns the titles of the panel of words."""
        titles = [(WHO, "who"), (self.words_at, "what"), *([(self.panel, "in the log")] if with_log else [])]
        return "".join(text(x, HEAD - 12, said, "small soft") for x, said in titles)

    def head_of_columns(self):
        """Returns the titles of the columns."""
        found = []
        for title, begin, end in self.groups:
            found.append(text(begin, 18, title, "strong"))
            found.append(f'<path class="rule" d="M{begin} 24.5H{end - 6}"/>')
        watched = set()
        for column in self.columns.values():
            kind = "who " + self.color(column.key[1]) if column.key[0] == "session" else "small soft"
            if column.key[0] == "watch":
                kind = f"who small {self.color(column.key[3])}"
                if column.key[:3] not in watched:
                    found.append(text(column.x, 36, "watched by", "small soft"))
                watched.add(column.key[:3])
            title = fit(column.title, column.wide) if column.key[0] in ("session", "watch") else column.title
            found.append(text(column.x, HEAD - 12, title, kind))
        return "".join(found)

    def looks(self):
        """Returns the looks that the picture has."""
        found = {"life", *(it.kind for it in self.steps), *(it.cause for it in self.steps)}
        found |= {look_of(it) for it in self.steps if it.operation}
        found |= {"fenced life" for it in self.lives() if "life fenced" in it.svg}
        locks = [it for step in self.steps for key, it in step.changes.items() if key.endswith("/lock") and it]
        for look, part in (("owner", "owner"), ("asked", "asked"), ("watch", "watchers")):
            found |= {look for it in locks if it[part]}
        return found

    def whole(self):
        """Returns the picture as one SVG file."""
        wide = 8 + TIMES + self.panel + self.wide
        legend = Legend(wide - 32, self.looks())
        top = 76 + legend.high
        panels = [(8, ["".join(it.svg for it in self.times())], text(28, HEAD - 12, "line", "small soft end"))]
        panels.append((8 + TIMES, [it.svg for it in self.words(False)], self.head_of_words(False)))
        panels.append((8 + TIMES + self.panel, [it.svg for it in self.parts()], self.head_of_columns()))
        high = top + HEAD + self.high + 16
        said = [f'<rect class="paper" width="{wide}" height="{high}"/>', text(16, 34, self.title, "big")]
        said.append(text(16, 54, SUBTITLE, "soft"))
        said.append(f'<g transform="translate(16 70)">{legend.svg}</g>')
        for x, svg, head in panels:
            said.append(f'<g transform="translate({x} {top})">{head}</g>')
            said += [f'<g transform="translate({x} {top + HEAD})">', *filter(None, svg), "</g>"]
        size = f'width="{wide}" height="{high}" viewBox="0 0 {wide} {high}"'
        label = f'role="img" aria-label="{escape(self.title)}"'
        first = f'<svg xmlns="http://www.w3.org/2000/svg" class="lab" {size} {label}>'
        return "\n".join([first, f"<style>{STYLE}</style>", *said, "</svg>", ""])


def watches(lock, name):
    """Returns whether a life of a session is among the watchers of a lock's image, or nothing."""
    return True if lock and any(it.rpartition(".")[0] == name for it in lock["watchers"]) else None
