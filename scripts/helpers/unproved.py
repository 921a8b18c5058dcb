"""The unproved program: rbd_lab, built without proof of the sources that stand here.

It is no substitute for the proved one: nothing of it is proved. It stops at an index out of bounds,
an overflow or a failed unwrap, and the checked one, which is what `rt try` runs, at a bad access too,
which takes a hundred times as long. It stays in ~/.cache/rbd_lab under the checksum of its sources and
of the kit's name, so that it is built once; those of the last few states are kept.
"""
import os
import subprocess
import sys
import tempfile
from pathlib import Path

from . import TOP
from .crate_list import checksum, uses_in, with_below
from .kit_copy import CLANG, FAST, NotBuilt, copy_of_kit, fast_program, kit

CACHE = Path.home() / ".cache/rbd_lab"
NAME = "rbd_lab"
KEPT = 4
# The linker of the kit's copy: it links, and keeps what it linked.
LINKER = """\
#!/bin/sh
"{tool}" "$@" || exit
while [ $# -gt 1 ]; do
    [ "$1" != -o ] || cp "$2" "MADE"
    shift
done
"""


def sources(*how):
    """Returns a checksum of the kit's name, of the code of the program's crates, and of how it is
    built."""
    names = with_below([NAME], uses_in(TOP / "crates.txt"))
    return checksum([path for name in names for path in (TOP / "crates" / name / "src").rglob("*.rt")], *how)


def checked_program(room, crate, program):
    """Has `rt try` build the program and play nothing, and keeps what it built."""
    made = Path(room, "made")
    rt = copy_of_kit(room, "ld.lld", LINKER.replace("MADE", str(made)))
    how = {"stdin": subprocess.DEVNULL, "capture_output": True, "text": True}
    ran = subprocess.run([rt, "try", "--steps", "1"], cwd=crate, **how)
    if not made.exists():
        raise NotBuilt(f"rt try did not build it\n{ran.stderr.rstrip()}")
    # Another call may build the same: none sees half of a program.
    made.replace(program)


def build(program, made):
    """Builds the program."""
    print("program: building it without proof, in a minute or two, more on a busy machine; it is kept", file=sys.stderr)
    try:
        CACHE.mkdir(parents=True, exist_ok=True)
    except OSError as why:
        raise NotBuilt(f"the folder for what is built can't be made: {why}") from why
    with tempfile.TemporaryDirectory(dir=CACHE) as room:
        made(room, TOP / "crates" / NAME, program)


def forget_old(name):
    """Removes all but the programs of this name that were used last."""
    kept = sorted(CACHE.glob(f"{name}-*"), key=lambda it: it.stat().st_mtime, reverse=True)
    for path in kept[KEPT:]:
        path.unlink(missing_ok=True)


def path(is_checked=False):
    """Returns where the program is, once it is built. It raises where it can't be."""
    if not kit():
        raise NotBuilt("there is no rt: put the folder bin/ of the kit on PATH")
    if is_checked:
        name, how, made = "checked", [LINKER], checked_program
    else:
        name, how, made = "unproved", [CLANG, *FAST], fast_program
    program = CACHE / f"{name}-{sources(*how)}"
    if not program.exists():
        build(program, made)
    os.utime(program)
    forget_old(name)
    return program
