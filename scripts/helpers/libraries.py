"""Gives this checkout the libraries that `rt ci` kept on this machine, so that `rt check`, `rt test`
and `rt plant` need not prove the crates below once more.

A library is taken where its definitions and lemmas are this checkout's, the newest first. Code isn't
compared: a library keeps none as it was written. So run it in a clone that is what `rt ci` passed,
and clean: libraries of `rt check` and kept ones don't fit together. No verdict rests on it: `.ci/run`
reads nothing from an out/ folder.
"""
import functools
import json
import os
import shutil
import subprocess
import sys
from pathlib import Path

from . import TOP
from .crate_list import uses_in, with_below

KIT = Path(subprocess.run(["rt", "doc"], stdout=subprocess.PIPE, text=True, check=True).stdout.strip()).parent
KEPT = Path("/opt/rattle-kept")

sys.path.insert(0, str(KIT / "bin"))
import rtlib  # noqa: E402  (the kit's own: it knows what a library's stamp is made of)


def has_text_of(library, folder):
    """Tells whether a library has the definitions and lemmas of a crate's folder."""
    for file in [*folder.glob("specs/**/*.antt"), *folder.glob("proofs/**/*.antt")]:
        there = library / "lang/antt" / file.relative_to(folder)
        if there.name == "Lib.antt":
            there = there.parent.with_suffix(".antt")
        # (what only the crate's own proofs cite isn't in its library)
        if there.exists() and there.read_bytes() != file.read_bytes():
            return False
        if not there.exists() and "specs" in file.parts:
            return False
    return True


def copy(entry, out):
    """Copies what an entry keeps. Returns whether it has a library."""
    files = [name for name, _ in json.loads((entry / "made.json").read_text())["files"]]
    for number, name in enumerate(files):
        (out / name).parent.mkdir(parents=True, exist_ok=True)
        shutil.copyfile(entry / str(number), out / name)
    return any(name.startswith("rlib/") for name in files)


def take(name, crate):
    """Gives a crate its library. Returns whether one is kept."""
    folder = TOP / "crates" / name
    if crate.is_built():
        return True
    entries = sorted(KEPT.glob(f"proof-{name}-*"), key=lambda it: it.stat().st_mtime, reverse=True)
    for entry in entries:
        shutil.rmtree(folder / "out/rlib", ignore_errors=True)
        if copy(entry, folder / "out") and has_text_of(folder / f"out/rlib/{name}.rlib", folder):
            (folder / "out/rlib/stamp").write_text(crate.stamp())
            return True
    shutil.rmtree(folder / "out/rlib", ignore_errors=True)
    return False


def take_all(names):
    """Gives these crates, with all below them, or all, the libraries that are kept. Returns those of
    which none is."""
    os.chdir(TOP)
    uses = uses_in(TOP / "crates.txt")
    # (a stamp is made of those of all crates below, each of them anew: minutes for a crate at the top)
    rtlib.Crate.stamp = functools.lru_cache(maxsize=None)(rtlib.Crate.stamp)
    crates = {it.name: it for it in rtlib.crates_below(str(TOP))}
    libraries = [name for name in with_below(names or uses, uses) if (TOP / "crates" / name / "src/lib.rt").exists()]
    return [name for name in libraries if not take(name, crates[name])]
