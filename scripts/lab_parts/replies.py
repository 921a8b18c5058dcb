"""What a person may want to know of replies: which commands were refused or have none, and what may
help there. For `scripts/lab`.

No trace is needed for that: a script's lines, and the order in which replies came, lead to it.
"""
import re
from collections import defaultdict
from itertools import islice
from typing import NamedTuple

from .marks import words_of_command

NO_REPLY = ("lost", "unfinished", "unsent")
# How many hints are given, and how many replies are looked at for them.
MOST, LOOKED_AT = 20, 10_000
# The limits of docs/RULES.md.
OBJECTS = 1 << 20
OBJECT, UNIT, COUNT = (4096, 33_554_432), 512, 16
OBJECT_IF_NOT_SAID = 4_194_304
# What gives a name to an image or a snapshot, and which of its words that is.
MAKES = {"create": 1, "rename": 2, "snap create": 2}
# What gives an image another size, or its name to another one.
RESHAPES = ("resize", "snap rollback", "rm", "rename")
# What a `quiesce` holds up.
CHANGES = ("write", "fill", "discard", "resize", "rm", "quiesce")
CHANGES_BEHIND_SNAP = ("create", "rm", "rollback")


class Reply(NamedTuple):
    """A line of what the program prints of commands."""

    line: int
    # How it begins.
    text: str

    def is_missing(self):
        """Returns whether the command has none."""
        return self.text.split(" ")[0] in NO_REPLY

    def is_bad(self):
        """Returns whether the command was refused or has none."""
        return self.text.startswith("error ") or self.is_missing()


class Command(NamedTuple):
    """A line of a script that gives a session a command."""

    number: int
    session: str
    # The command's word and what follows.
    words: list

    def word(self):
        """Returns what it is called: `snap rm` is one word."""
        return " ".join(self.words[: 1 + (self.words[0] == "snap")])

    def target(self):
        """Returns its first image, or snapshot of one, as it is named, or nothing."""
        at = 1 + (self.words[0] == "snap")
        return self.words[at] if len(self.words) > at else ""

    def image(self):
        """Returns the name of its first image, or nothing."""
        return self.target().partition("@")[0]

    def extent(self):
        """Returns where the bytes of a `write`, `fill`, `discard` or `read` begin, and how many they are."""
        bytes_given = len(self.words[3]) // 2 if self.word() == "write" else int(self.words[3])
        return int(self.words[2]), bytes_given

    def is_change(self):
        """Returns whether it changes its image, and so can be held up."""
        return self.word() in (*CHANGES, *(f"snap {it}" for it in CHANGES_BEHIND_SNAP))


def reply_of(line):
    """Returns the reply that a line of output begins with, or None where it is one of a history or a
    log."""
    found = re.match(rb"([0-9]+) [a-z][a-z0-9]* ([^\n]{0,60})", line)
    return Reply(int(found[1]), found[2].decode("latin-1")) if found else None


def is_power(number):
    return number > 0 and number & (number - 1) == 0


def of_shape(words):
    """Returns which number of a `create` is past its limits."""
    options = dict(zip(words[3::2], map(int, words[4::2])))
    object_size = options.get("object", OBJECT_IF_NOT_SAID)
    unit, count = options.get("unit", object_size), options.get("count", 1)
    if not (is_power(object_size) and OBJECT[0] <= object_size <= OBJECT[1]):
        return f"`object` is a power of two from {OBJECT[0]} to {OBJECT[1]}"
    if not (is_power(unit) and UNIT <= unit <= object_size):
        return f"`unit` is a power of two from {UNIT} to the object's size, here {object_size}"
    if not 1 <= count <= COUNT:
        return f"`count` is from 1 to {COUNT}"
    # (a set that isn't full has as many objects as units, up to its count)
    sets, left = divmod(OBJECTS, count)
    most = sets * count * object_size + left * unit
    if int(words[2]) > most:
        return f"an image has at most {OBJECTS:,} objects: of {object_size} bytes, that is a size of {most}"
    return "a site holds at most 4,096 names"


class Played:
    """A script that was played, with its replies in the order in which they came."""

    def __init__(self, script, replies):
        self.sites, self.commands, self.stops = {}, {}, defaultdict(int)
        # Of a session that is stopped: the line that did it. And the lines that lose a notice.
        self.stopped, self.losing = {}, []
        # The commands that give a name, by it and their site; those that reshape an image, by its name and
        # their site; and all of a session on an image.
        self.makers, self.reshapers, self.on_image = defaultdict(list), defaultdict(list), defaultdict(list)
        for number, line in enumerate(script.split(b"\n"), 1):
            if not line.startswith(b"#"):
                self.take(number, [it.text.decode("latin-1") for it in words_of_command(line)])
        # Where among the replies each came; those that are missing stand last.
        self.place, self.text = defaultdict(int), defaultdict(str)
        for place, it in enumerate(replies):
            self.place[it.line], self.text[it.line] = place, it.text

    def take(self, number, words):
        """Takes a line of the script."""
        if words[:1] == ["client"]:
            self.sites[words[1]] = words[2]
        elif words[:1] == ["@stop"] and words[1] not in self.stopped:
            self.stops[words[1]] += 1
            self.stopped[words[1]] = number
        elif words[:1] == ["@restart"]:
            self.stopped.pop(words[1], None)
        elif words[:1] == ["@lose"]:
            self.losing.append(number)
        elif words and not words[0].startswith("@"):
            self.take_command(Command(number, words[0], words[1:]))

    def take_command(self, command):
        """Takes a command."""
        self.commands[command.number] = command
        self.on_image[command.session, command.image()].append(command)
        site, word = self.sites[command.session], command.word()
        if word in MAKES:
            self.makers[command.words[MAKES[word]], site].append(command)
        if word in RESHAPES:
            self.reshapers[command.image(), site].append(command)

    def maker(self, name, site, number):
        """Returns the last command before a line that gave a name, if it wasn't refused, or None."""
        return self.last(self.makers[name, site], number)

    def last(self, commands, number):
        """Returns the last of some commands that stands before a line, if it wasn't refused, or None."""
        found = (it for it in reversed(commands) if it.number < number)
        return next((it for it in found if not self.text[it.number].startswith("error ")), None)

    def is_later(self, one, other):
        """Returns whether a command had no reply yet when another one had its own."""
        return self.place[one.number] > self.place[other.number]

    def of_no_snap(self, command):
        """Returns why a snapshot that an earlier line takes wasn't found, or nothing."""
        taker = self.maker(command.target(), self.sites[command.session], command.number)
        if taker and self.is_later(taker, command):
            return (
                f"line {taker.number} takes `{command.target()}`, and had no reply yet: an `@settle 1000` before "
                f"line {command.number} lets it be taken"
            )
        return ""

    def of_range(self, command):
        """Returns why an extent isn't the image's, where that is sure, or nothing."""
        begin, count = command.extent()
        at = command.image(), self.sites[command.session]
        if count == 0:
            return "this has no bytes, and 1 is the least"
        last = self.last(self.reshapers[at], command.number)
        if last and last.word() == "resize" and int(last.words[2]) >= begin + count and self.is_later(last, command):
            return (
                f"line {last.number} gives `{at[0]}` {last.words[2]} bytes, and had no reply yet: an `@settle 1000` "
                f"before line {command.number} lets that be done"
            )
        # (an image that nothing reshapes has the size that it was made with, and so have its snapshots)
        makers = [] if self.reshapers[at] else self.makers[at]
        size = int(makers[0].words[2]) if [it.word() for it in makers] == ["create"] else None
        is_past = size is not None and begin + count > size
        return f"`{at[0]}` has {size} bytes, and this ends at {begin + count}" if is_past else ""

    def of_no_image(self, command):
        """Returns why an image that an earlier line makes wasn't found, or nothing."""
        name, site = command.image(), self.sites[command.session]
        maker = self.maker(name, site, command.number)
        if maker and self.is_later(maker, command):
            return (
                f"line {maker.number} makes `{name}`, and had no reply yet: an `@settle 1000` before "
                f"line {command.number} lets it be made"
            )
        other = "b" if site == "a" else "a"
        if not maker and (maker := self.maker(name, other, command.number)):
            return (
                f"line {maker.number} makes `{name}` at site {other}, and {command.session} is at site {site}: "
                "each site has images of its own"
            )
        return ""

    def quiesce_of(self, session, image, before):
        """Returns the command by which a session still held an image quiesced at a line, or None."""
        for it in reversed(self.on_image[session, image]):
            if it.number < before and self.text[it.number] == "ok":
                if it.word() in ("resume", "close"):
                    return None
                if it.word() == "quiesce":
                    return it
        return None

    def of_resume(self, command):
        """Returns for which change that it holds up a `resume` waits, or nothing."""
        quiesce = self.quiesce_of(command.session, command.image(), command.number)
        for it in self.on_image[command.session, command.image()] if quiesce else ():
            is_between = quiesce.number < it.number < command.number
            if is_between and it.is_change() and self.text[it.number] == "unfinished":
                return (
                    f"this `resume` waits for line {it.number}, which the quiesce of line {quiesce.number} holds "
                    f"up: behind an `@settle 1000`, as `& {command.session} {' '.join(command.words)}`, it doesn't wait"
                )
        return ""

    def of_change(self, command):
        """Returns what holds up a change, where that is its own session, or nothing."""
        quiesce = self.quiesce_of(command.session, command.image(), command.number)
        return f"the quiesce of line {quiesce.number} holds it up, until a `resume`" if quiesce else ""

    def of_owner(self, command, instance):
        """Returns why the owner of a lock keeps it, or nothing."""
        session, _, life = instance.partition(".")
        if self.stops[session] > int(life):
            site = self.sites[session]
            return (
                f"{instance} was stopped with the lock, and the site takes it for alive while it watches the "
                f"image: `@expire {session} {site} ID` ends that; ID is 1 for the first image that the site made"
            )
        if quiesce := self.quiesce_of(session, command.image(), float("inf")):
            return f"line {quiesce.number} quiesced it, and a `resume` of {session} lets others go on"
        if self.losing:
            return (
                f"{instance} is asked for the lock by notices, and line {self.losing[-1]} may have lost one: "
                "`scripts/lab show --locks` has their numbers, and `@deliver N` lets one come"
            )
        return ""

    def of_stopped(self, session):
        """Returns how a session goes on that is stopped, or nothing."""
        number = self.stopped.get(session)
        return f"line {number} stopped {session}: it goes on behind an `@restart {session}`" if number else ""

    def hint(self, reply):
        """Returns what may help with a reply, or nothing."""
        command = self.commands.get(reply.line)
        if not command:
            return ""
        if reply.text == "error 2 NoImage":
            return self.of_no_image(command)
        if reply.text == "error 2 NoSnap":
            return self.of_no_snap(command)
        if reply.text == "error 22 BadRange":
            return self.of_range(command)
        if reply.text == "error 22 BadShape" and command.word() == "create":
            return of_shape(command.words)
        if reply.text == "unsent":
            return self.of_stopped(command.session) or command.word() == "resume" and self.of_resume(command) or ""
        if reply.text == "unfinished" and command.is_change():
            return self.of_change(command)
        if reply.text.startswith("unfinished waiting "):
            return self.of_owner(command, reply.text.split(" ")[2])
        return ""


def hints(script, output):
    """Returns what may help with the replies of a script that was played, each with its line. Of a
    line of the output its begin is enough."""
    replies = [it for it in map(reply_of, output.split(b"\n")) if it]
    bad = list(islice((it for it in replies if it.is_bad()), LOOKED_AT))
    played = Played(script, replies) if bad else None
    found = ((it.line, played.hint(it)) for it in bad)
    return list(islice((it for it in found if it[1]), MOST))
