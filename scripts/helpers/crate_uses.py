"""Whether crates.txt lists the crates that are there: each behind those that it depends on, and these are
all that its files name."""
import re

from . import TOP
from .crate_list import uses_in

LIST = "crates.txt"
# How code names a crate, and how definitions and lemmas do.
NAMED = re.compile(r"\b(rbd_\w+)::|\bRattle\.(rbd_\w+)")
COMMENT = re.compile(r"(?://|--).*$", re.M)


def named_by(crate):
    """Returns the other crates of ours that a crate's code, definitions and lemmas name, but for their
    comments."""
    named = set()
    for kind in ("src/**/*.rt", "specs/**/*.antt", "proofs/**/*.antt"):
        for path in (TOP / "crates" / crate).glob(kind):
            named |= {it for pair in NAMED.findall(COMMENT.sub("", path.read_text())) for it in pair}
    return named - {crate, ""}


def faults():
    """Yields what the list has too much or too little. A crate may depend on one that it doesn't name."""
    uses = uses_in(TOP / LIST)
    there = {it.parent.name for it in (TOP / "crates").glob("*/src")}
    yield from (f"{LIST}: there is no crate {it}" for it in uses if it not in there)
    yield from (f"{LIST}: it lacks {it}" for it in sorted(there - uses.keys()))
    seen = set()
    for crate, listed in uses.items():
        ours = [it for it in listed if it in uses]
        yield from (f"{LIST}: {crate} stands before {it}, on which it depends" for it in ours if it not in seen)
        named = named_by(crate) & uses.keys()
        yield from (f"{LIST}: {crate} names {it}, and doesn't depend on it" for it in sorted(named - {*listed}))
        seen.add(crate)
