"""The kit for scripts: where it is, its `rt` as a module, and a copy of it with another tool.

`rt try` builds a program without proof, runs it and keeps nothing. In a copy of the kit, made of
links, in which one tool of the toolchain is a script of ours, what it builds can be kept: the
script takes it on its way.
"""
import functools
import importlib.machinery
import importlib.util
import shutil
import subprocess
import sys
from pathlib import Path

TARGET = "x86_64-unknown-linux-gnu"
# How a module is compiled, so that it runs fast.
FAST = (f"--target={TARGET}", "--no-default-config", "-march=x86-64")
FAST += ("-ffunction-sections", "-fdata-sections", "-fPIE", "-O2")
# The clang of the kit's copy: it keeps the module of which `rt try` makes its program with the
# search for bad addresses, and ends `rt try` there.
CLANG = """\
#!/bin/sh
case "$*" in
*-fsanitize=address*) cp module.bc "MADE"; exit 1 ;;
esac
exec "{tool}" "$@"
"""
# How much of the memory that the kit guesses a check takes: the most that was seen, of any crate.
TAKEN = 0.75


def kit():
    """Returns the folder of the kit, or None where there is no `rt` on PATH."""
    found = shutil.which("rt")
    return Path(found).resolve().parent.parent if found else None


def load_rt(top):
    """Returns the kit's `rt` as a module, for the repository of this folder: it knows how a crate is
    checked, in which order, and how an edit is read."""
    loader = importlib.machinery.SourceFileLoader("rt_of_kit", str(kit() / "bin/rt"))
    spec = importlib.util.spec_from_loader("rt_of_kit", loader)
    rt = importlib.util.module_from_spec(spec)
    sys.modules["rt_of_kit"] = rt
    loader.exec_module(rt)
    # (its own answers are computed anew at each call, which takes minutes for a crate at the top)
    crate = rt.rtlib.Crate
    crate.below = functools.lru_cache(maxsize=None)(crate.below)
    rt.rtlib.guarded()
    rt.rtlib.Crate = rt.Crate
    rt.Crate.allowed = rt.handles_of(str(top))
    # (by its own guess the crates at the top wait for memory, and then get one processor)
    guess = rt.need
    rt.need = lambda crate: int(TAKEN * guess(crate))
    return rt


def link_all(old, new, but=()):
    """Makes a folder with links to all that is in another, but for these."""
    new.mkdir()
    for path in old.iterdir():
        if path.name not in but:
            (new / path.name).symlink_to(path)


def copy_of_kit(room, tool, script):
    """Makes the copy below a folder, and returns its `rt`.

    The script is one of `sh`. `{tool}` in it is the path of the tool that it stands for. It is
    given no environment, so each path in it has to be whole.
    """
    old, new = kit(), Path(room, "kit")
    link_all(old, new, ["bin", "toolchain"])
    link_all(old / "bin", new / "bin", ["rt", "rtlib.py"])
    for name in "rt", "rtlib.py":
        shutil.copy(old / "bin" / name, new / "bin" / name)
    link_all(old / "toolchain", new / "toolchain", ["bin"])
    link_all(old / "toolchain/bin", new / "toolchain/bin", [tool])
    ours = new / "toolchain/bin" / tool
    ours.write_text(script.replace("{tool}", str(old / "toolchain/bin" / tool)))
    ours.chmod(0o755)
    return new / "bin/rt"


class NotBuilt(Exception):
    """Why there is no program."""


def run(words, why, **more):
    """Runs a command; raises with what it says where it fails."""
    ran = subprocess.run(words, stdin=subprocess.DEVNULL, capture_output=True, text=True, **more)
    if ran.returncode:
        raise NotBuilt(f"{why}\n{ran.stderr.rstrip()}")


def fast_program(room, crate, program):
    """Builds the program of a crate without proof, below a folder of the same disk: the module of
    `rt try`, which has a test at each index and sum, compiled with -O2 and without the search for
    bad addresses."""
    module, code, linked = (Path(room, it) for it in ("module.bc", "module.o", "linked"))
    rt = copy_of_kit(room, "clang", CLANG.replace("MADE", str(module)))
    ran = subprocess.run([rt, "try"], cwd=crate, stdin=subprocess.DEVNULL, capture_output=True, text=True)
    if not module.exists():
        raise NotBuilt(f"rt try did not build it\n{ran.stderr.rstrip()}")
    chain = kit() / "toolchain"
    run([chain / "bin/clang", *FAST, "-c", "-x", "ir", module, "-o", code], "its module is not compiled")
    words = [kit() / "bin/rattle-link", "--target", TARGET, "--toolchain", chain, "-o", linked, code]
    run([*words, kit() / "c/libos_c.a", kit() / "c/liblibc_c.a"], "it is not linked")
    # Another call may build the same: none sees half of a program.
    linked.replace(program)
