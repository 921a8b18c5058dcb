"""Where in a line of a script a fault is, and what may help: for `scripts/lab`.

The program says which line doesn't fit, and why: it is the judge. Here the grammar of docs/RULES.md
is read once more, from left to right, only to find the token that the program means. Where this
reading and the program don't agree, no token is marked.
"""
import re
from typing import NamedTuple, Optional

LIMIT = 1 << 24
GREATEST = (1 << 63) - 1
BELOW_32_BITS = (1 << 32) - 1

IMAGE_WORDS = ("rm", "info", "du", "flatten", "quiesce", "resume", "close")
SNAP_WORDS = ("create", "rm", "protect", "unprotect", "rollback")
MIRROR_WORDS = ("enable", "demote", "resync", "status", "follow")
SHAPE = [("option", "object", GREATEST), ("option", "unit", GREATEST)]
SHAPE += [("option", "count", BELOW_32_BITS), ("flag", "journal")]

# What stands behind a command's word. Behind a number's bounds stands its name in the grammar, and
# where that doesn't tell it what the number is of.
COMMANDS = {
    "create": [("image",), ("number", 0, GREATEST, "SIZE"), *SHAPE],
    "clone": [("snap",), ("image",), *SHAPE],
    "write": [("image",), ("number", 0, GREATEST, "AT"), ("hex",)],
    "fill": [("image",), ("number", 0, GREATEST, "AT"), ("number", 0, 1 << 20, "LEN"), ("byte",)],
    "discard": [("image",), ("number", 0, GREATEST, "AT"), ("number", 0, GREATEST, "LEN")],
    "read": [("target",), ("number", 0, GREATEST, "AT"), ("number", 0, 1 << 16, "LEN")],
    "resize": [("image",), ("number", 0, GREATEST, "SIZE")],
    "rename": [("image",), ("image",)],
    "ls": [],
    "children": [("snap",)],
    "tell": [("image",), ("hex",)],
    **{word: [("image",)] for word in IMAGE_WORDS},
}
BEHIND_SNAP = {**{word: [("snap",)] for word in SNAP_WORDS}, "ls": [("image",)]}
BEHIND_MIRROR = {word: [("image",)] for word in MIRROR_WORDS}
BEHIND_MIRROR["promote"] = [("image",), ("flag", "force")]
SLOT, ID = ("number", 0, 64, "SLOT"), ("number", 0, BELOW_32_BITS, "ID", "image")
NOTICE = ("number", 0, GREATEST, "N", "notice")
SCHEDULE = {
    "@poll": [("session",), SLOT, ("times", 1, 1_000_000, "TIMES")],
    "@until": [("session",), SLOT, ("kind",)],
    "@settle": [("number", 0, GREATEST, "N", "rounds")],
    "@deliver": [NOTICE],
    "@lose": [NOTICE],
    "@expire": [("session",), ("site",), ID],
    "@stop": [("session",)],
    "@restart": [("session",)],
    "@late": [("session",), SLOT],
    "@trim": [("site",), ID, ("number", 0, GREATEST, "OBJECT")],
}
# The words of operations.
KINDS = {f"dir-{it}" for it in ("find", "add", "remove", "rename", "list")}
KINDS |= {f"child-{it}" for it in ("add", "remove", "list")} | {"block-add"}
KINDS |= {f"header-{it}" for it in ("create", "get", "set-size", "snap-add", "snap-remove", "snap-status")}
KINDS |= {f"header-{it}" for it in ("detach", "role", "mirror", "synced", "remove")}
KINDS |= {"lock-take", "lock-drop", "lock-break", "watch", "unwatch", "watchers-get", "notify"}
KINDS |= {f"data-{it}" for it in ("read", "write", "write-full", "zero", "empty", "remove", "copy-up")}
KINDS |= {f"map-{it}" for it in ("resize", "get", "put", "set", "remove")}
KINDS |= {f"journal-{it}" for it in ("create", "tag", "append", "read", "spans", "register", "commit", "remove")}
# What the grammar has and the program doesn't play.
UNBUILT = ("clone", "children", "flatten", "mirror", "protect", "unprotect", "journal")
UNBUILT_WORD = re.compile("|".join(UNBUILT).encode())
# How a part is written in the grammar.
WRITTEN = {"image": "IMAGE", "snap": "IMAGE@SNAP", "target": "IMAGE[@SNAP]", "hex": "HEX", "byte": "BYTE"}
WRITTEN |= {"site": "SITE", "kind": "WORD", "session": "NAME", "new session": "NAME"}


class Token(NamedTuple):
    at: int
    text: bytes


class Fault(NamedTuple):
    cause: str
    # The token that doesn't fit, or None where the line ends too early.
    token: Optional[Token]
    # The part that was wanted in its place, as `("number", 0, 64, "SLOT")`; `("end",)` where none
    # was.
    part: tuple
    # The form of the line from its word on, as in the grammar, or nothing.
    form: str = ""


TOKEN = re.compile(rb"[^ ]+")
NUMBER = re.compile(rb"0|[1-9][0-9]{0,18}")
NAME = re.compile(rb"[A-Za-z0-9_][A-Za-z0-9._-]{0,63}")
HEX = re.compile(rb"([0-9a-f]{2})+")


def tokens_of(line):
    return [Token(it.start(), it.group()) for it in TOKEN.finditer(line)]


def is_number(text, least, most):
    return bool(NUMBER.fullmatch(text)) and least <= int(text) <= most


def is_name(text):
    return bool(NAME.fullmatch(text))


def is_snap(text):
    image, _, snap = text.partition(b"@")
    return is_name(image) and is_name(snap)


def is_session_name(text):
    return bool(re.fullmatch(rb"[a-z][a-z0-9]{0,31}", text)) and text != b"client"


# Whether a token can stand in a part's place.
FITS = {
    "image": lambda part, text, sessions: is_name(text),
    "snap": lambda part, text, sessions: is_snap(text),
    "target": lambda part, text, sessions: is_snap(text) if b"@" in text else is_name(text),
    "number": lambda part, text, sessions: is_number(text, part[1], part[2]),
    "times": lambda part, text, sessions: is_number(text, part[1], part[2]),
    "hex": lambda part, text, sessions: len(text) <= 131_072 and HEX.fullmatch(text),
    "byte": lambda part, text, sessions: len(text) == 2 and HEX.fullmatch(text),
    "site": lambda part, text, sessions: text in (b"a", b"b"),
    "kind": lambda part, text, sessions: text.decode("latin-1") in KINDS,
    "session": lambda part, text, sessions: text in sessions,
    "new session": lambda part, text, sessions: is_session_name(text) and text not in sessions and len(sessions) < 32,
    "flag": lambda part, text, sessions: text.decode("latin-1") == part[1],
}
# What is wrong where it can't; elsewhere it is an unknown word.
CAUSES = {"image": "bad name", "snap": "bad name", "target": "bad name", "new session": "bad name"}
CAUSES |= {"number": "bad number", "times": "bad number", "hex": "bad number", "byte": "bad number"}


def cause_of(part, text, sessions):
    """Returns why a token can't stand in a part's place, or None where it can."""
    kind = part[0]
    return None if FITS[kind](part, text, sessions) else CAUSES.get(kind, "unknown word")


def form_of(word, parts):
    """Returns a form as the grammar writes it, or nothing where it isn't built."""
    if word in UNBUILT:
        return ""
    texts = [word]
    for part in parts:
        if part[0] == "option":
            texts.append(f"[{part[1]} N]")
        elif part[0] == "times":
            texts.append(f"[{part[3]}]")
        elif part[0] != "flag":
            texts.append(part[3] if part[0] == "number" else WRITTEN[part[0]])
    return " ".join(texts)


def faults_in(parts, tokens, sessions):
    """Returns the first fault of some parts in their order, if there is one, and where that is a
    number the other numbers behind it that don't fit."""
    left, found = list(tokens), []
    for part in parts:
        if part[0] in ("times", "option", "flag") and not left:
            continue
        if part[0] == "option":
            if left[0].text.decode("latin-1") != part[1]:
                continue
            left.pop(0)
            part = ("number", 0, part[2], "N", part[1])
        if not left:
            return found or [Fault("missing part", None, part)]
        cause = cause_of(part, left[0].text, sessions)
        if cause and (not found or cause == "bad number"):
            found.append(Fault(cause, left[0], part))
        if cause and (cause != "bad number" or left[0].text.startswith(b"--")):
            return found
        left.pop(0)
    return [Fault("extra part", left[0], ("end",))] if left and not found else found


def faults_by_word(table, tokens, sessions, part, before=""):
    """Returns the faults of a form that its first token names, as `faults_in`."""
    if not tokens:
        return [Fault("missing part", None, (part,))]
    word = tokens[0].text.decode("latin-1")
    if word not in table:
        return [Fault("unknown word", tokens[0], (part,))]
    faults = faults_in(table[word], tokens[1:], sessions)
    form = form_of(word, table[word]) if faults else ""
    return [it._replace(form=form and before + form) for it in faults]


def faults_of_command(tokens, sessions):
    first = tokens[0].text if tokens else b""
    if first == b"snap":
        return faults_by_word(BEHIND_SNAP, tokens[1:], sessions, "word behind snap", "NAME snap ")
    if first == b"mirror":
        # (none of it is built)
        found = faults_by_word(BEHIND_MIRROR, tokens[1:], sessions, "word behind mirror")
        return [it._replace(form="") for it in found]
    return faults_by_word(COMMANDS, tokens, sessions, "command", "NAME ")


def faults_of_line(line, sessions):
    """Returns the faults of a line, as `faults_in`. The sessions are those that were declared
    before it."""
    tokens = [] if line.startswith(b"#") else tokens_of(line)
    if not tokens:
        return []
    if tokens[0].text == b"client":
        return faults_by_word({"client": [("new session",), ("site",)]}, tokens, sessions, "client")
    if tokens[0].text.startswith(b"@"):
        return faults_by_word(SCHEDULE, tokens, sessions, "line of a schedule")
    if tokens[0].text == b"&":
        tokens = tokens[1:]
    missed, found = faults_in([("session",)], tokens[:1], sessions), faults_of_command(tokens[1:], sessions)
    # (numbers are read behind a session that isn't declared, too)
    return missed + [it for it in found if not missed or it.cause == "bad number"]


def session_declared_in(line):
    """Returns the name of the session that a line declares, or None."""
    words = [it.text for it in tokens_of(line)] if b"client" in line else []
    return words[1] if words[:1] == [b"client"] and len(words) > 1 else None


def declared_in(lines):
    """Returns the names of the sessions that some lines declare."""
    return [it for it in map(session_declared_in, lines) if it is not None]


def words_of_command(line):
    """Returns the tokens of a line behind `&`: the session's, the command's and what follows."""
    tokens = tokens_of(line)
    return tokens[1:] if tokens and tokens[0].text == b"&" else tokens


def unbuilt_token(line):
    """Returns the token by which a line of the grammar is one that isn't built, or None."""
    # (most lines have no such word anywhere)
    is_looked_at = UNBUILT_WORD.search(line) and not line.startswith(b"#")
    tokens = words_of_command(line) if is_looked_at else []
    if len(tokens) < 2 or tokens[0].text == b"client" or tokens[0].text.startswith(b"@"):
        return None
    is_journaled = tokens[1].text == b"create" and tokens[-1].text == b"journal"
    named = tokens[2] if tokens[1].text == b"snap" else tokens[-1 if is_journaled else 1]
    return named if named.text.decode("latin-1") in UNBUILT else None
