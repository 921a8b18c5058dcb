"""Proves all libraries and the program by the kit's `rt ci`, and tries the must-fail edits beside it:
`scripts/prove --gate`.

It works on a copy of HANDLES, crates.txt and crates/; what was built comes back into each crate's out/.
Each crate's edits are tried once it is proved, many at once (scripts/edits): those of two crates at a
time, on what proofs leave of the processors, since near the end one crate after another waits for the
one below. (`rt ci` alone tries each edit by a check of its own, which takes longer than all proofs.) It
prints what `rt ci` does, 'N passed, M failed' of the crates, and behind that the same of the edits. The
kit guesses how much memory a check takes, and guesses too much: the crates at the top would wait until
nothing else runs, and get one processor then. So it goes by what was measured (kit_copy.py).
"""
import contextlib
import os
import queue
import shutil
import tempfile
import threading
from concurrent.futures import ThreadPoolExecutor
from pathlib import Path

from . import TOP
from .edit_tries import LANES, Work, found_in, measure, verdict
from .kit_copy import kit, load_rt

# How many crates have their edits tried beside proofs, and by which words: proofs come first.
BESIDE = 2
LAST = ["nice", "-n", "19"]


def copied(room, with_edits):
    """Copies what `rt ci` reads into a folder."""
    without = shutil.ignore_patterns("out", *([] if with_edits else ["must-fail"]))
    shutil.copytree(TOP / "crates", room / "crates", ignore=without)
    for name in "HANDLES", "crates.txt":
        shutil.copy(TOP / name, room)


def brought_back(room):
    """Gives each crate here the out/ folder of its copy."""
    for built in room.glob("crates/*/out"):
        here = TOP / "crates" / built.parent.name / "out"
        shutil.rmtree(here, ignore_errors=True)
        shutil.move(built, here)


def without_tests(in_lanes):
    """Returns what runs tasks in lanes as this does, but for the tests of crates that have none: the kit
    counts them among the checks that share the processors."""

    def run(tasks):
        idle = {key for key, (_, lines, *_) in tasks.items() if key[1] == "tests" and not lines}
        awaited = {it for waits, *_ in tasks.values() for it in waits}
        given = in_lanes({key: task for key, task in tasks.items() if key not in idle - awaited})
        return {**dict.fromkeys(idle, True), **given}

    return run


class Edits:
    """The edits of all crates. Those of a crate wait until it is proved, in a copy."""

    def __init__(self, copy, room, anew, rt):
        # (an edit is read where it stands, and tried on the copy's crate)
        here = {it.name: it for it in rt.rtlib.crates_below(str(TOP))}
        crates = rt.rtlib.crates_below(str(copy))
        found = {it.name: found_in(here[it.name], rt) for it in crates}
        self.works = {it.name: Work(it, found[it.name][0], room, anew) for it in crates}
        self.wrong, self.rt = sum(wrong for _, wrong in found.values()), rt
        self.proved, self.over = queue.SimpleQueue(), threading.Event()
        measure(rt, LAST)

    def beside(self, in_lanes):
        """Returns what runs tasks in lanes as this does, and the edits of two crates at a time beside
        them. What is left of the edits then comes behind, in lanes too."""

        def run(tasks):
            tasks = {key: self.told_of(key, task) for key, task in tasks.items()}
            with ThreadPoolExecutor(BESIDE) as pool:
                beside = [pool.submit(self.try_proved) for _ in range(BESIDE)]
                try:
                    given = in_lanes(tasks)
                finally:
                    self.over.set()
                measure(self.rt)
                in_lanes(self.left())
                for it in beside:
                    it.result()
            return given

        return run

    def told_of(self, key, task):
        """Returns the task, where it is a proof as one that tells of its end."""
        waits, lines, needs, call = task
        work = self.works[key[0]]

        def called(given, jobs):
            is_well = call(given, jobs)
            work.why = None if is_well else "it isn't proved"
            self.proved.put(work)
            return is_well

        return (waits, lines, needs, called) if key[1] == "proof" else task

    def next(self):
        """Returns the edits of a crate that is proved, or None where there are none yet."""
        with contextlib.suppress(queue.Empty):
            work = self.proved.get(timeout=1)
            if not work.why:
                work.look_up((kit() / "KIT-ID").read_text())
            return work
        return None

    def try_proved(self):
        """Tries the edits of one crate after another, as long as crates are proved."""
        while not self.over.is_set():
            if work := self.next():
                work.try_first(True, self.rt)
                for lane in range(LANES):
                    work.try_lane(lane, self.rt)

    def left(self):
        """Returns the tasks that try the edits of the crates whose turn didn't come."""
        tasks = {}
        while work := self.next():
            tasks |= work.tasks([], lambda given, jobs, it=work: it.try_first(True, self.rt), self.rt)
        return tasks

    def tell(self):
        """Prints how many passed, and returns the status."""
        works = self.works.values()
        kept = sum(len(it.edits) - len(it.left) for it in works)
        print(f"edits: {kept} were refused on this machine before, by the same files")
        return verdict(works, self.wrong)


def proved(room, anew, rt):
    """Runs `rt ci` in a copy. Returns its status."""
    rt.in_lanes = without_tests(rt.in_lanes)
    os.chdir(room)
    # (a kit that keeps nothing proves anew in any case, and doesn't know the word)
    words = ["--anew"] if anew and "--anew" in rt.__doc__ else []
    try:
        return rt.main(["ci", *words])
    finally:
        os.chdir(TOP)


def prove_all(anew=False, plain=False):
    """Proves all and tries all edits, prints what `rt ci` does and how many edits passed, and returns the
    status. With `anew` nothing is taken that earlier runs kept; with `plain` the kit tries each edit by a
    check of its own."""
    rt = load_rt(TOP)
    with tempfile.TemporaryDirectory(prefix="rbd-gate-") as copy, tempfile.TemporaryDirectory(prefix="rbd-edits-") as room:
        copied(Path(copy), plain)
        edits = None if plain else Edits(copy, room, anew, rt)
        if edits:
            rt.in_lanes = edits.beside(rt.in_lanes)
        status = proved(copy, anew, rt)
        brought_back(Path(copy))
    return (edits.tell() if edits else 0) or status
