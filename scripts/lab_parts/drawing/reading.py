"""A script and its trace, as lines: what is printed, and nothing that is worked out."""
import re
from typing import NamedTuple

from ..marks import tokens_of

OBJECT = re.compile(r"rbd_(header|object_map|data)\.([0-9a-f]+)(?:\.([0-9a-f]{16}))?")
OPERATIONS = ("effect", "fence", "look")
# What says that an operation wasn't done.
REFUSALS = ("none", "exists", "full", "held", "changed", "fenced")


class Line(NamedTuple):
    """A line of a script that says something."""

    number: int
    text: str
    # Its tokens, without `&`.
    words: list

    def is_command(self):
        """Returns whether a session is given a command."""
        return self.words[0] != "client" and not self.words[0].startswith("@")


class Entry(NamedTuple):
    """A line of the history."""

    place: int
    word: str
    # What stands behind the word.
    rest: list

    def is_operation(self):
        """Returns whether it is an operation at a site."""
        return self.word in OPERATIONS


class Operation(NamedTuple):
    """A line of a site's log."""

    number: str
    who: str
    word: str
    object: str
    answer: str

    def site(self):
        """Returns the site, which is a letter."""
        return self.number[0]

    def is_done(self):
        """Returns whether it wasn't refused."""
        return self.answer not in REFUSALS

    def part(self):
        """Returns what the object is, of which image, and its number there: an object of data by
        number, a map by its snapshot, and the head's is 0."""
        found = OBJECT.fullmatch(self.object)
        if not found:
            return ("blocklist" if self.object == "blocklist" else "names"), None, None
        what = {"header": "header", "object_map": "map", "data": "data"}[found[1]]
        return what, int(found[2], 16), int(found[3] or "0", 16)


class Reply(NamedTuple):
    """A line of what the program answered."""

    line: int
    session: str
    text: str


class Trace(NamedTuple):
    """What `run --trace` prints."""

    history: list
    # Each site's operations, in order.
    logs: dict
    replies: list


def script_of(script):
    """Returns the lines of a script, without comments and empty ones."""
    found = []
    for number, line in enumerate(script.split(b"\n"), 1):
        words = [] if line.startswith(b"#") else [it.text.decode() for it in tokens_of(line)]
        if words:
            found.append(Line(number, line.decode().strip(" "), words[words[0] == "&" :]))
    return found


def trace_of(output):
    """Returns the trace that the program printed."""
    history, logs, replies = [], {"a": [], "b": []}, []
    for line in output.decode().splitlines():
        first, *rest = line.split(" ")
        if first == "h":
            history.append(Entry(int(rest[0]), rest[1], rest[2:]))
        elif first == "o":
            logs[rest[0][0]].append(Operation(*rest))
        else:
            replies.append(Reply(int(first), rest[0], " ".join(rest[1:])))
    return Trace(history, logs, replies)
