"""The imports of definitions and lemmas that their file doesn't use.

It goes by words: an import counts as used where each word of its name stands in the file outside
all imports, be it as another thing's name. So it may miss one, and blames none that is used.
"""
import json
import re
import subprocess
from collections import namedtuple
from pathlib import Path

from . import TOP

Token = namedtuple("Token", "line start end kind text")
# An item `use PATH.{..}`: all its tokens, and of each name that it brings the tokens.
Import = namedtuple("Import", "tokens names")


def rattle():
    """Returns the kit's compiler."""
    doc = subprocess.run(["rt", "doc"], stdout=subprocess.PIPE, text=True, check=True).stdout.strip()
    return Path(doc).parent / "bin/rattle"


def tracked():
    """Returns the files of the crates."""
    words = ["git", "ls-files", "crates/*.rt", "crates/*.antt"]
    ran = subprocess.run(words, cwd=TOP, stdout=subprocess.PIPE, text=True, check=True)
    return [it for it in ran.stdout.splitlines() if (TOP / it).exists()]


def logic(files):
    """Yields each file with its tokens that are antt's: all of an .antt file, the clauses and ghost
    items of an .rt file."""
    words = [rattle(), "fmt", "--tokens", *files]
    ran = subprocess.run(words, cwd=TOP, stdout=subprocess.PIPE, text=True, check=True)
    for number, part in re.findall(r"^file (\d+)\n((?:\d.*\n)*)", ran.stdout, re.M):
        tokens = []
        for line in part.splitlines():
            at, start, end, kind, text = line.split(" ", 4)
            if kind in ("Antt", "Head", "Text"):
                tokens.append(Token(int(at), int(start), int(end), kind, json.loads(text)))
        yield files[int(number)], tokens


def split(tokens, mark):
    """Splits a list of tokens at each that is the mark."""
    parts = [[]]
    for it in tokens:
        if it.text == mark:
            parts.append([])
        else:
            parts[-1].append(it)
    return [it for it in parts if it]


def imports(tokens):
    """Yields the imports of a file."""
    at = 0
    while at < len(tokens):
        first, at = at, at + 1
        # (what is passed on by `pub use` is for other files)
        if tokens[first].text != "use" or first and tokens[first - 1].text == "pub":
            continue
        after = [it.text for it in tokens[first + 2 : first + 4]]
        if after == [".", "{"]:
            at = next(it for it in range(first, len(tokens)) if tokens[it].text == "}") + 1
            yield Import(tokens[first:at], split(tokens[first + 4 : at - 1], ","))
        elif after[:1] == ["as"]:
            at = first + 4
            yield Import(tokens[first:at], [tokens[first + 2 : at]])


def unused(tokens):
    """Yields each import with those of its names that the file doesn't use."""
    found = list(imports(tokens))
    within = {token.start for item in found for token in item.tokens}
    outside = [it.text for it in tokens if it.start not in within and it.kind != "Head"]
    words = {word for text in outside for word in [text, *text.split(".")]}
    for item in found:
        idle = [it for it in item.names if not all(part in words for part in it[-1].text.split("◌") if part)]
        if idle:
            yield item, idle


def without(text, item, idle):
    """Returns a file's bytes without the names of an import, or without the import where they are
    all of its names."""
    first, last = item.tokens[0].start, item.tokens[-1].end
    kept = [text[it[0].start : it[-1].end] for it in item.names if it not in idle]
    if kept:
        path = text[first : item.tokens[1].end]
        return text[:first] + path + b".{" + b", ".join(kept) + b"}" + text[last:]
    start, end = text.rfind(b"\n", 0, first) + 1, text.index(b"\n", last) + 1
    return text[:start] + text[end:]


def found_in(files):
    """Yields each of these files, or of all, that has such imports, with them: each with its idle names."""
    for name, tokens in logic(files or tracked()):
        if found := list(unused(tokens)):
            yield name, found


def said_of(files=()):
    """Yields the lines to print of these files, or of all: a line for each name that isn't used."""
    for name, found in found_in(files):
        for _, idle in found:
            yield from (f"{name}:{it[0].line}: {it[-1].text} isn't used" for it in idle)


def mend(files=()):
    """Takes the imports that aren't used out of these files, or of all, and lays the files out. Yields
    what it took out, as lines to print."""
    for name, found in found_in(files):
        text = (TOP / name).read_bytes()
        for item, idle in reversed(found):
            text = without(text, item, idle)
            yield from (f"{name}:{it[0].line}: {it[-1].text} wasn't used" for it in idle)
        (TOP / name).write_bytes(text)
        subprocess.run([rattle(), "fmt", "--write", name], cwd=TOP, check=True)
