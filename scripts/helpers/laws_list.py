"""The page of the laws: each law of the crates with its comment as a sentence.

A law is a public function without parameters and with an empty body: its contract is the claim. The
crates come from the program down, as crates.txt has them from its end on.
"""
import re
import textwrap
from typing import NamedTuple

from . import TOP
from .crate_list import uses_in

PAGE = "docs/LAWS.md"
LAW = re.compile(
    r"(?P<comment>(?:^///.*\n)*)(?:^#\[.*\]\n)*^pub fn (?P<name>\w+)(?:<[^>\n]*>)?\(\)\n(?:^ .*\n|^\n)*?^\{\}\n", re.M
)
HEAD = """\
# The laws

`scripts/docs` makes this page of the crates' comments: don't edit it. {laws} laws of {crates}
crates stand here, from the program down. A law is a public function with an empty body: its
contract is a fact about the definitions, for every value. Here stands its comment, which is prose:
what is proved is the contract, in the file that is named. [PROVED.md](PROVED.md) says what the
program promises, and the words are those of [RULES.md](RULES.md).
"""


class Law(NamedTuple):
    name: str
    comment: str


def laws_in(path):
    """Returns the laws of a file."""
    found = LAW.finditer(path.read_text())
    return [Law(it["name"], " ".join(line[3:].strip() for line in it["comment"].splitlines())) for it in found]


def crates():
    """Returns the names of all crates, from the program down."""
    return [*uses_in(TOP / "crates.txt")][::-1]


def files_of(crate):
    """Returns each file of a crate that has laws, with them: `laws.rt` first."""
    paths = sorted((TOP / "crates" / crate / "src").rglob("*.rt"), key=lambda it: (it.name != "laws.rt", it))
    return [(path, laws) for path in paths if (laws := laws_in(path))]


def item(law):
    """Returns a law as an item of the page. Links of rustdoc lead nowhere here, so they are words."""
    text = re.sub(r"\[(`[^`]*`)\](?!\()", r"\1", f"- {law.comment} (`{law.name}`)")
    return textwrap.fill(text, 100, subsequent_indent="  ", break_long_words=False, break_on_hyphens=False)


def section(crate, files):
    """Returns what the page says of a crate."""
    parts = [f"## {crate}"]
    for path, laws in files:
        parts.append(f"[{path.name}](../{path.relative_to(TOP)}):\n\n" + "\n".join(map(item, laws)))
    return "\n\n".join(parts)


def made():
    """Returns the page as it should be."""
    all_files = {crate: files for crate in crates() if (files := files_of(crate))}
    many = sum(len(laws) for files in all_files.values() for _, laws in files)
    head = HEAD.format(laws=many, crates=len(all_files))
    return "\n".join([head, *(section(*it) + "\n" for it in all_files.items())])


def faults():
    """Yields the laws without a comment."""
    for crate in crates():
        for path, laws in files_of(crate):
            yield from (f"{path.relative_to(TOP)}: {it.name} has no comment" for it in laws if not it.comment)
