"""What may help where a line of a script doesn't fit: for `scripts/lab`."""
import codecs
import re
from difflib import get_close_matches
from typing import NamedTuple, Optional

from .marks import BEHIND_SNAP, BELOW_32_BITS, COMMANDS, GREATEST, KINDS, LIMIT, SCHEDULE, UNBUILT, Token
from .marks import declared_in, faults_of_line, is_session_name, session_declared_in, unbuilt_token

# How the program names the first line that doesn't fit.
FAULT = re.compile(rb"line ([0-9]+): ([a-z ]+)\n")
SUFFIXED = re.compile(r"([0-9]+)([kmgtp]i?b?|b)", re.I)
POWERS = {"b": 0, "k": 10, "m": 20, "g": 30, "t": 40, "p": 50}
# How much two words have in common, of 1, where one is guessed for the other; `@wait` is no `@late`.
NEAR = 0.65
# What `rbd` calls a command, or calls it too, and what it is called here.
ALIASES = {"list": "ls", "remove": "rm", "mv": "rename", "disk-usage": "du"}
ALIASES_BEHIND_SNAP = {"list": "ls", "remove": "rm", "add": "create", "revert": "rollback"}


def one_of(words):
    """Returns words as a text: `a, b or c`."""
    *some, last = words
    return f"{', '.join(some)} or {last}" if some else last


def built(table):
    return [it for it in table if it not in UNBUILT]


def guess(text, words):
    """Returns the question whether the nearest of some words is meant, or nothing. Of a word as
    `data-write` its end may be near too, where no other one has it."""
    ends = [it.rpartition("-")[2] for it in words]
    whole = {end: it for end, it in zip(ends, words) if ends.count(end) == 1}
    near = get_close_matches(text, words, 1, NEAR) or get_close_matches(text, whole, 1, NEAR)
    return f"did you mean `{whole.get(near[0], near[0])}`?" if near else ""


WANTED = {
    "image": "an image's name",
    "snap": "IMAGE@SNAP, the name of an image and of its snapshot",
    "target": "IMAGE or IMAGE@SNAP",
    "hex": "1 to 65,536 bytes, each as two hexadecimal digits",
    "byte": "one byte, as two hexadecimal digits",
    "site": "a site, which is a or b",
    "kind": "the word of an operation, as data-write; docs/RULES.md lists them",
    "session": "the name of a declared session",
    "new session": "a session's name: 1 to 32 lower-case letters and digits, a letter first",
    "command": f"a command: {one_of([*built(COMMANDS), 'snap ..'])}",
    "word behind snap": one_of(built(BEHIND_SNAP)),
    "word behind mirror": "a form of mirror; none is built yet",
    "line of a schedule": one_of(SCHEDULE),
}
# Which words may stand where one does.
WORDS = {
    "command": [*built(COMMANDS), "snap"],
    "word behind snap": built(BEHIND_SNAP),
    "line of a schedule": [*SCHEDULE],
    "kind": sorted(KINDS),
    "flag": ["object", "unit", "count"],
}
# Which numbers are of bytes, by their names in the grammar or by what they are of.
OF_BYTES = ("SIZE", "AT", "LEN", "object", "unit")
# What others are, where their names don't tell it.
NUMBERS = {
    "image": "the image's number, 1 for the first that its site made",
    "notice": "a notice's number, which `scripts/lab show --locks` prints",
    "rounds": "how many rounds",
}
NOT_BUILT = "the grammar has this form, but it isn't built yet: docs/RULES.md has those that are"


class Shown(NamedTuple):
    line: bytes
    # What is marked, or None.
    token: Optional[Token]
    hint: str
    # The form of such a line, or nothing.
    form: str = ""
    # Other numbers of the line that don't fit, each with what may help.
    more: tuple = ()


def upper(part):
    """Returns how large a number may be in a part's place."""
    powers = {GREATEST: "below 2^63", BELOW_32_BITS: "below 2^32"}
    return powers.get(part[2], f"at most {part[2]:,}")


def limits(part):
    """Returns which numbers may stand in a part's place."""
    return upper(part) if part[2] >= BELOW_32_BITS else f"from {part[1]} to {part[2]:,}"


def number_wanted(part):
    """Returns which number is wanted in a part's place."""
    what = NUMBERS.get(part[-1])
    return f"{part[3]}, {f'{what}: ' if what else ''}a decimal number {limits(part)}"


def short(text):
    """Returns a word, cut where it is long."""
    return text if len(text) <= 24 else f"{text[:20]}.."


def of_number(text, part):
    """Returns what helps where a number is wanted."""
    if len(text) > 40:
        return f"wanted here: {part[3]}, a number {limits(part)}"
    found = SUFFIXED.fullmatch(text)
    if found and part[-1] not in OF_BYTES:
        return f"no letters stand behind a number; wanted here: {number_wanted(part)}"
    if found:
        meant = int(found[1]) << POWERS[found[2][0].lower()]
        return f"a size is a plain number of bytes: {meant}{f', and {upper(part)}' * (meant > part[2])}"
    if text.startswith("--"):
        return f"there are no words with dashes; wanted here: {part[3]}, a number"
    if re.fullmatch(r"0[xX][0-9a-fA-F]+", text):
        return f"a number is decimal: {int(text, 16)}"
    if re.fullmatch(r"0[0-9]+", text):
        return f"a number has no leading zeros: {int(text)}"
    if re.fullmatch(r"[+-][0-9]+", text):
        return "a number has no sign"
    if re.fullmatch(r"[0-9]+", text):
        return f"{part[3]} is {upper(part) if int(text) > part[2] else f'at least {part[1]}'}"
    return f"wanted here: {number_wanted(part)}"


def of_hex(text, part):
    """Returns what helps where bytes in hexadecimal digits are wanted."""
    if text.startswith(("0x", "0X")):
        return "the digits stand alone, without 0x"
    if re.fullmatch(r"[0-9a-fA-F]+", text) and text != text.lower():
        return "hexadecimal digits are lower-case"
    if re.fullmatch(r"[0-9a-f]+", text) and len(text) % 2:
        return "each byte is two digits, and here is an odd number of them"
    if part[0] == "hex" and re.fullmatch(r"[0-9a-f]+", text):
        return f"at most 65,536 bytes, and here are {len(text) // 2:,}"
    if part[0] == "hex" and len(text) <= 40 and re.search("[g-zG-Z]", text):
        return f"wanted here: {WANTED[part[0]]}; the text `{text}` is {text.encode('latin-1').hex()}"
    return f"wanted here: {WANTED[part[0]]}"


def of_name(text, part):
    """Returns what helps where the name of an image or snapshot is wanted."""
    if text.startswith("--"):
        return f"there are no words with dashes; wanted here: {WANTED[part[0]]}"
    if "/" in text:
        return "there are no pools here: the image's name stands alone"
    if part[0] in ("snap", "target") and text.endswith("@"):
        return "behind `@` stands the name of a snapshot"
    if part[0] == "snap" and "@" not in text:
        return "a snapshot is named together with its image: IMAGE@SNAP"
    if part[0] == "image" and "@" in text:
        return "here stands an image, and no snapshot"
    return "a name has 1 to 64 of A-Z a-z 0-9 . _ - and begins with neither . nor -"


def of_session(text, lines, number):
    """Returns what helps where a session is wanted."""
    if text == "rbd":
        return "a session's name stands in place of rbd: `client c1 a`, and then `c1 ls`"
    if text.startswith("&"):
        return "`&` is a word of its own, with a space behind it"
    if text.startswith("#"):
        return "a comment's `#` is the first byte of its line"
    if number == 1 and text.encode("latin-1").startswith(codecs.BOM_UTF8):
        return "the script begins with a byte order mark, and may not"
    if near := guess(text, ["client"]):
        return f"{near} That declares a session: `client c1 a`"
    if text.encode() in declared_in(lines[number:]):
        return f"the line `client {text} ..` has to stand before this one"
    if text in COMMANDS or text in ("snap", "mirror"):
        return f"a command begins with its session's name, as in `c1 {text} ..`"
    if is_session_name(text.encode()):
        return f"no session has this name; an earlier line has to declare it: `client {text} a`"
    return f"wanted here: {WANTED['session']}"


def of_new_session(text, sessions):
    if text.encode() in sessions:
        return "this session was declared before; one line declares it"
    if len(sessions) >= 32 and is_session_name(text.encode()):
        return "a script has 32 sessions at most"
    return f"wanted here: {WANTED['new session']}, and not `client`"


def of_word(text, part):
    """Returns what helps where one of some words is wanted."""
    if text.startswith("#"):
        return "a comment is a line of its own"
    if part[0] == "flag" and text.lstrip("-") in ("size", "object-size", "stripe-unit", "stripe-count"):
        return "options are words without dashes, behind the size: object N, unit N, count N"
    if part[0] == "flag" and text in ("object", "unit", "count"):
        return "options stand in the order object, unit, count, each once"
    if part[0] == "command" and text.lower() in COMMANDS and text != text.lower():
        return "commands are lower-case"
    aliases = {"command": ALIASES, "word behind snap": ALIASES_BEHIND_SNAP}.get(part[0], {})
    if text in aliases:
        return f"that is `{aliases[text]}` here"
    if near := guess(text, WORDS.get(part[0], ())):
        return near
    if part[0] == "flag":
        return "no such option stands here"
    return f"wanted here: {WANTED[part[0]]}"


def of_fault(fault, lines, number, sessions):
    """Returns what may help with a fault."""
    part = fault.part
    if fault.token is None:
        wanted = number_wanted(part) if part[0] in ("number", "times") else WANTED[part[0]]
        return f"wanted behind the last word: {wanted}"
    text = fault.token.text.decode("latin-1")
    if text.endswith("\r"):
        return "this line ends with a carriage return; lines end with a line feed alone"
    if "\t" in text:
        return "words are separated by spaces, and here is a tab"
    if part[0] == "end":
        return "a comment is a line of its own" if text.startswith("#") else "nothing may stand behind the last part"
    if part[0] in ("number", "times"):
        return of_number(text, part)
    if part[0] in ("hex", "byte"):
        return of_hex(text, part)
    if part[0] in ("image", "snap", "target"):
        return of_name(text, part)
    if part[0] == "session":
        return of_session(text, lines, number)
    return of_new_session(text, sessions) if part[0] == "new session" else of_word(text, part)


def of_faults(line, faults, lines, number, sessions):
    """Returns a line with its faults, and what may help."""
    first, *others = faults
    token = first.token or Token(len(line.rstrip(b" ")) + 1, b" ")
    # Who has one word wrong doesn't need the whole form.
    form = "" if first.cause in ("bad number", "bad name") and not token.text.startswith(b"--") else first.form
    hint = of_fault(first, lines, number, sessions)
    more = tuple((it.token, of_fault(it, lines, number, sessions)) for it in others)
    return Shown(line, token, hint, form, more)


def explained(script, number, cause):
    """Returns the line of this number, its token that doesn't fit, and what may help.

    The program said of the script that this line doesn't fit, with this cause.
    """
    lines = script[:LIMIT].split(b"\n")
    line = lines[number - 1]
    if len(script) > LIMIT and number == len(lines):
        return Shown(line, None, f"a script has {LIMIT:,} bytes at most; the first one too many is in this line")
    sessions = declared_in(lines[: number - 1])
    faults = faults_of_line(line, sessions)
    if faults and faults[0].cause == cause:
        return of_faults(line, faults, lines, number, sessions)
    if not faults and cause == "unknown word" and line.split():
        return Shown(line, unbuilt_token(line), NOT_BUILT)
    return Shown(line, None, "")


def found_in(lines):
    """Yields each line that doesn't fit, by its number and with what may help, as this reading finds
    them. A session that isn't declared is missed once."""
    sessions = []
    for number, line in enumerate(lines, 1):
        if faults := faults_of_line(line, sessions):
            yield number, of_faults(line, faults, lines, number, sessions)
            if faults[0].part[0] == "session" and faults[0].token:
                sessions.append(faults[0].token.text)
        elif token := unbuilt_token(line):
            yield number, Shown(line, token, NOT_BUILT)
        if (name := session_declared_in(line)) is not None:
            sessions.append(name)


def faulty_lines(script, number, cause):
    """Yields each line that doesn't fit, by its number and with what may help: first the one that
    the program named, with its cause, and the others where this reading finds that one too."""
    first = explained(script, number, cause)
    yield number, first
    if first.token:
        yield from (it for it in found_in(script[:LIMIT].split(b"\n")) if it[0] != number)


def marks(tokens, begin, end):
    """Returns a text that marks some tokens of what is seen of a line."""
    text = ""
    for token in tokens:
        if begin <= token.at < end:
            wide = min(len(token.text), end - token.at)
            text = text.ljust(token.at - begin) + "^" * wide
    return text


def drawn(number, shown, wide=100):
    """Returns the texts that show a line, the marks under it, and the hints."""
    line, token = shown.line, shown.token
    begin = 0
    if token and token.at + min(len(token.text), 20) > wide:
        begin = token.at - wide // 2
    end = begin + wide
    # Each byte takes one column, so that the marks stand where they belong.
    seen = "".join(chr(it) if 32 <= it < 127 else "?" for it in line[begin:end])
    texts = [f"{number} | {'..' if begin else ''}{seen}{'..' if len(line) > end else ''}"]
    margin = f"{' ' * len(str(number))} | "
    if token:
        under = marks([token, *(it for it, _ in shown.more)], begin, max(end, token.at + 1))
        texts.append(f"{margin}{'  ' * bool(begin)}{under}")
    hints = [shown.hint] if shown.hint else []
    if shown.more:
        pairs = [(token, shown.hint), *shown.more]
        hints = [f"{short(it.text.decode('latin-1'))}: {hint}" for it, hint in pairs]
    texts += [margin + it for it in hints]
    return texts + ([f"{margin}the form is: {shown.form}"] if shown.form else [])
