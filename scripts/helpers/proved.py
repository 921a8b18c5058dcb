"""The proved program: the rbd_lab that `rt ci` built of exactly the files that stand here.

`rt ci` leaves the program that it proved and ran in the crate's out/: NAME as LLVM builds it, and
NAME.by-rattle as Rattle's own compiler does. The note beside them has the checksums of the
sources and of both. It stops to hold with any edit of a crate's file, another kit, or another
build of the program; an edit that is taken back makes it hold again.
"""
import hashlib
import os
import subprocess
from pathlib import Path

from . import TOP

PROGRAM = "crates/rbd_lab/out/rbd_lab"
NOTE = TOP / f"{PROGRAM}.proved"


class NotProved(Exception):
    """Why no program counts as proved."""


def files():
    """Yields every file of every crate but those that rt makes, and what lists the crates, by its path
    below the repository."""
    yield from ("HANDLES", "crates.txt")
    for folder, folders, names in os.walk(TOP / "crates"):
        here = Path(folder).relative_to(TOP)
        if len(here.parts) == 2 and "out" in folders:
            folders.remove("out")
        yield from (f"{here}/{name}" for name in names if not (TOP / here / name).is_symlink())


def sum_of(path):
    """Returns the line of a file, by its path below the repository: its checksum and its path."""
    return f"{hashlib.sha256((TOP / path).read_bytes()).hexdigest()}  {path}\n"


def sources():
    """Returns a checksum of all that a proof reads, and of the kit's name."""
    ran = subprocess.run(["rt", "version"], stdout=subprocess.PIPE, text=True)
    if ran.returncode:
        raise NotProved("rt does not say which kit this is")
    sums = [sum_of(it) for it in sorted(files(), key=os.fsencode)]
    return hashlib.sha256("".join([ran.stdout.rstrip("\n"), "\n", *sums]).encode()).hexdigest()


def noted(now):
    """Returns what a note says: the sources, and what was built of them."""
    built = [it for it in (PROGRAM, f"{PROGRAM}.by-rattle") if (TOP / it).is_file()]
    return "".join([f"{now}  sources\n", *map(sum_of, built)])


def note(sources_before):
    """Notes that `rt ci` has just passed on the sources with this checksum."""
    now = sources()
    if now != sources_before:
        raise NotProved("sources changed while rt ci ran: run .ci/run again")
    if not (TOP / PROGRAM).is_file():
        raise NotProved(f"rt ci left no {PROGRAM}")
    NOTE.write_text(noted(now))


def path():
    """Returns where the program is. It raises where none counts as proved."""
    if not (TOP / PROGRAM).is_file() or not NOTE.is_file():
        raise NotProved("there is no proved program yet: .ci/run makes it")
    if noted(sources()) != NOTE.read_text():
        raise NotProved("the program or its sources changed since they were proved: .ci/run proves them again")
    return TOP / PROGRAM
