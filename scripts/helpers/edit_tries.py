"""How must-fail edits are tried: as many of a crate at once as change different functions, each of the
others by a check of what refuses it. What was refused is kept for the machine."""
import contextlib
import functools
import hashlib
import os
import re
import shutil
import subprocess
import tempfile
import types
from collections import defaultdict
from pathlib import Path

from .edit_changes import calls_in, calls_one_of, changes_of, module_of, without_bodies

CACHE = Path.home() / ".cache/rbd_lab/edits"
FLAGS = ["--jobs", "1"]
LANES = 4
# What stands in the place of a proof, and the one hole that all of them cite: a hole's goal is printed.
TAKEN = """\
use Rattle.{crate}.proofs.{path}.Statement.{{statement}}
use Rattle.{crate}.proofs.TakenByContract.{{taken}}

pub {name}_spec : {{M : Type 1}} → statement M
{name}_spec = taken
"""
HOLE = """\
pub taken : {A : Type 2} → A
taken = ?
"""
REFUSED_BY = re.compile(r"^# refused by: (\S+)$", re.M)
# By crate, the processor seconds of each check.
COSTS = defaultdict(list)

# ---- what a check costs


def run(words, before=(), **how):
    """Does as `subprocess.run`, and notes what a check took on processors, with all that it began."""
    if "--crate-name" not in words or how.get("stdout") != subprocess.PIPE:
        return subprocess.run(words, **how)
    with subprocess.Popen([*before, *words], **how) as ran:
        printed = ran.stdout.read()
        _, status, usage = os.wait4(ran.pid, 0)
        ran.returncode = os.waitstatus_to_exitcode(status)
    COSTS[words[words.index("--crate-name") + 1]].append(usage.ru_utime + usage.ru_stime)
    return subprocess.CompletedProcess(words, ran.returncode, printed)


def measure(rt, before=()):
    """Has each check that `rt` starts note what it takes, and come behind these words."""
    noted = functools.partial(run, before=before)
    rt.subprocess = types.SimpleNamespace(**{**vars(subprocess), "run": noted})


# ---- edits that are tried at once


def first_group(edits, crate, rt):
    """Returns the first of these edits and what can be tried with it: each changes other functions, none
    of which calls one that another changes, and they can be applied one after another."""
    group = {"edits": [], "functions": set(), "calls": set(), "text": ""}
    for edit, functions in edits:
        own = Path(edit).read_text().rstrip("\n") + "\n"
        calls = set().union(*(calls_in(crate.folder).get(it, ()) for it in functions))
        is_apart = not functions & group["functions"] and not calls_one_of(calls, group["functions"])
        if not is_apart or calls_one_of(group["calls"], functions):
            continue
        texts, why = rt.edited(group["text"] + own, crate.folder)
        if not (why and group["edits"]):
            group["edits"].append((edit, functions))
            group["functions"] |= functions
            group["calls"] |= calls
            group["text"] += own
            group["texts"] = texts
    return group


def is_own(said, path, crate):
    """Whether what is said of a function is that a goal of its own isn't shown. One that calls what
    isn't proved may just lack that, and one that the borrow checker doesn't cover says nothing."""
    reasons = re.sub(r"^(no proof: |not proved(; )?)", "", said).split("; ")
    if named := [it for it in reasons if it.startswith("it stands on ")]:
        return stands_on_own(named[0], path, crate)
    of_calls = [it for it in reasons if it.startswith("it calls ") or "is not made yet: a call of" in it]
    if said.startswith("not proved"):
        return not of_calls and "waits for" not in said
    is_covered = "does not cover this" not in said
    return said.startswith("no proof") and len(of_calls) < len(reasons) and is_covered


def is_lemma(name, crate):
    """Whether a declaration of a crate's specs/ is a lemma: a definition has one of antt's words for
    these in front of it."""
    module, _, word = name.rpartition(".")
    file = Path(crate.folder, "specs", *module.split(".")).with_suffix(".antt")
    return file.is_file() and bool(re.search(rf"^ *(?:pub )?{re.escape(word)} :", file.read_text(), re.M))


def stands_on_own(said, path, crate):
    """Whether one of the declarations that aren't admitted, on which a function is said to stand, is
    its own or a lemma's."""
    if any(is_lemma(it, crate) for it in re.findall(rf"`Rattle\.{crate.name}\.specs\.([^`]+)`", said)):
        return True
    named = [f"{it}." for it in re.findall(r"`Rattle\.\w+\.proofs\.([^`]+)`", said)]
    own = path.replace("fn::", "").replace("::", ".") + "."
    others = tuple(it.replace("::", ".") + "." for it in calls_in(crate.folder))
    return any(it.startswith(own) or not it.startswith(others) for it in named)


def refused_in(printed, crate):
    """Returns the functions that a check refuses by goals of their own, each with what is said."""
    lines = re.findall(rf"^fn {crate.name}::(\S+): (.*)$", printed, re.M)
    return {name: said for name, said in lines if is_own(said, name, crate)}


def why_refused(functions, refused):
    """Returns what is said of one of the functions, or of a closure of it."""
    for function in sorted(functions):
        for path, said in refused.items():
            plain = path.replace("fn::", "")
            if plain == function or plain.startswith((f"{function}::", f"{function}+")):
                return f"{path}: {said}"
    return None


def only(functions):
    """Returns the words by which a check looks at these functions and what they call, and at nothing
    else where there are some."""
    return [word for it in sorted(functions) for word in ("--only", it)]


def check_only(crate, texts, functions, kept, rt):
    """Checks these functions of a crate and what they call, or all of it where there are none, or where
    rattle has another name for one of them."""
    ran = rt.checked(crate, texts, [*FLAGS, *only(functions)], kept)
    return rt.checked(crate, texts, FLAGS, kept) if ran.returncode == 2 and functions else ran


def checked(crate, texts, functions, kept, rt):
    """Checks these functions of an edited crate over the contracts of those that they call: each other
    one has no body, and a hole in the place of its proof, and rattle takes it by its contract. It checks
    all of the crate where there are none."""
    if not functions:
        return rt.checked(crate, texts, FLAGS, kept)
    words = crate.words([*FLAGS, "--allow-holes", *only(functions)], keeps=False)
    words = [*rt.rtlib.guarded(), rt.rtlib.RATTLE, "check", *words, "--incremental", kept]
    with tempfile.TemporaryDirectory(prefix="rbd-edit-") as room:
        for part in rt.rtlib.PARTS:
            if os.path.isdir(f"{crate.folder}/{part}"):
                shutil.copytree(f"{crate.folder}/{part}", f"{room}/{part}")
        take_by_contract(calls_in(crate.folder).keys() - set(functions), crate, room)
        whole = {path: path.read_text() for path in Path(room, "src").rglob("*.rt")}
        whole |= {Path(room, path): text for path, text in texts.items()}
        for path, text in whole.items():
            module = module_of(path.relative_to(room))
            path.write_text(without_bodies(text, module, crate.folder, functions))
        how = {"cwd": room, "stdin": subprocess.DEVNULL, "stderr": subprocess.STDOUT}
        how |= {"stdout": subprocess.PIPE, "errors": "replace"}
        ran = rt.subprocess.run(words, **how)
        if ran.returncode and not re.search(r"^fn ", ran.stdout, re.M):
            # (there may be a body without which it doesn't compile)
            for path, text in whole.items():
                path.write_text(text)
            ran = rt.subprocess.run(words, **how)
    return ran


def take_by_contract(functions, crate, room):
    """Puts a hole in the place of the proof of each of these functions. No other proof cites what stands
    in its files."""
    for function in functions:
        folder = Path(room, "proofs", *function.split("::"))
        folder.mkdir(parents=True, exist_ok=True)
        for name in "Answers.antt", "Invariants.antt":
            (folder / name).unlink(missing_ok=True)
        text = TAKEN.format(crate=crate.name, path=function.replace("::", "."), name=folder.name)
        (folder / "Proof.antt").write_text(text)
    own = Path(room, "proofs")
    own.mkdir(exist_ok=True)
    (own / "TakenByContract.antt").write_text(HOLE)
    with (own / "Lib.antt").open("a") as lib:
        lib.write("\npub mod TakenByContract\n")


def try_code(crate, code, kept, rt):
    """Tries edits of code, as many at once as change different functions. Yields, of some at a time,
    whether each is refused, and what to say of it."""
    alone = []
    while code:
        group = first_group(code, crate, rt)
        ran = checked(crate, group["texts"], group["functions"], kept, rt)
        if ran.returncode == 2:
            # (rattle has another name for one of them)
            ran = checked(crate, group["texts"], (), kept, rt)
        refused = refused_in(ran.stdout, crate)
        why = {edit: why_refused(functions, refused) for edit, functions in group["edits"]}
        yield {edit: answer(crate, edit, True, said) for edit, said in why.items() if said}
        code = [it for it in code if it not in group["edits"]]
        rest = [it for it in group["edits"] if not why[it[0]]]
        # (who calls what another edit changes is tried again without it)
        (code if any(why.values()) else alone).extend(rest)
    for edit, _ in alone:
        yield try_alone(crate, edit, (), kept, rt)


# ---- edits that are tried alone


def is_unread(line, texts):
    """Whether a line says that a text could not be read, where an edit that only makes a statement
    false reads well."""
    found = re.match(r"(?:\./)?(\S+?):\d+:\d+: error: (?:(`[^`]*`): )?(.*)", line)
    if not found or found[1] not in texts and not found[1].startswith(("src/", "specs/")):
        return False
    unread = r"is not in scope|has no field|is no name|operand is missing|expected the end|cannot continue"
    return not found[2] or bool(re.search(unread, re.sub(r"`[^`]*`", "", found[3])))


def try_alone(crate, edit, functions, kept, rt):
    """Tries an edit by a check of the functions that it names, or of the whole crate where it names
    none. Returns, of the edit, whether it is refused, and what to say of it."""
    texts, why = rt.edited(Path(edit).read_text(), crate.folder)
    if why:
        return {edit: answer(crate, edit, False, f"BAD EDIT: {why}")}
    with linked(kept) as over:
        ran = checked(crate, texts, functions, over, rt)
    refused = refused_in(ran.stdout, crate)
    unread = [it for it in ran.stdout.split("\n") if is_unread(it, texts)]
    if unread or ran.returncode == 2:
        said = (unread or ran.stdout.strip().split("\n"))[-1]
        return {edit: answer(crate, edit, False, f"BAD EDIT: {said}")}
    if why := why_refused(functions or refused, refused):
        advice = "" if functions else f" (write into it: # refused by: {why.partition(': ')[0]})"
        return {edit: answer(crate, edit, True, why, advice)}
    if functions:
        others = f", but {min(refused)} is" if refused else ""
        return {edit: answer(crate, edit, False, f"NOT REFUSED in {', '.join(sorted(functions))}{others}")}
    # (what is refused may be a type or an impl, of which rt knows)
    with linked(kept) as over:
        kind, text = rt.must_fail(crate, edit, FLAGS, over)
    return {edit: (kind is True or kind in ("refused", "limit"), text)}


def answer(crate, edit, is_refused, said, advice=""):
    """Returns whether an edit is refused, and the line to print of it."""
    how = "refused, as it must be: " if is_refused else ""
    return is_refused, f"must-fail {crate.name}/{os.path.basename(edit)}: {how}{said[:160]}{advice}"


@contextlib.contextmanager
def linked(kept):
    """Gives a copy of what a check kept, by links: a check replaces such a file and changes none."""
    with tempfile.TemporaryDirectory(dir=os.path.dirname(kept)) as room:
        yield shutil.copytree(kept, f"{room}/kept", copy_function=link_or_copy)


def link_or_copy(old, new):
    """Gives a checked module a second name where the disk can. Other files are small, and may be
    written in place."""
    if old.endswith(".oantt"):
        with contextlib.suppress(OSError):
            return os.link(old, new)
    return shutil.copy2(old, new)


# ---- what is kept


@functools.cache
def own_sum(crate):
    """Returns a checksum of what a check of a crate reads of it."""
    sums = hashlib.sha256(repr(crate.said).encode())
    for part in ("src", "specs", "proofs"):
        for path in sorted(Path(crate.folder, part).rglob("*")):
            if path.is_file():
                sums.update(f"{path.relative_to(crate.folder)}\n".encode() + path.read_bytes())
    return sums.hexdigest()


@functools.cache
def library_sum(crate):
    """Returns a checksum of a library as it was built: its file `format` has those of all others."""
    path = Path(crate.rlib, "format")
    return hashlib.sha256(path.read_bytes()).hexdigest() if path.exists() else ""


def keys_of(crate, edits, version):
    """Returns for each edit the two names under which its refusal is kept: by the files of the crates
    below, whoever built them, and by their libraries, which another comment may leave as they are."""
    keys = {edit: [] for edit in edits}
    for sum_of in own_sum, library_sum:
        below = sorted(f"{it.name} {sum_of(it)}" for it in crate.below())
        whole = "\n".join([version, *below, own_sum(crate)])
        for edit in edits:
            key = hashlib.sha256(f"{whole}\n{Path(edit).read_text()}".encode()).hexdigest()[:32]
            keys[edit].append(CACHE / f"{crate.name}-{Path(edit).stem}-{key}")
    return keys


def keep(results, keys, rt):
    """Prints what is said of edits, keeps those that are refused, and returns whether each is."""
    for edit, (refused, text) in results.items():
        rt.say(text)
        if refused:
            CACHE.mkdir(parents=True, exist_ok=True)
            for path in keys[edit]:
                path.write_text(f"{text}\n")
    return [refused for refused, _ in results.values()]


# ---- the edits of a crate


class Work:
    """The edits of a crate, and what its checks keep. Counts of them are told once it has ended."""

    def __init__(self, crate, edits, room, is_anew):
        self.crate, self.edits, self.is_anew = crate, edits, is_anew
        self.named = {edit: REFUSED_BY.findall(Path(edit).read_text()) for edit in edits}
        self.changed = {edit: changes_of(edit, crate.folder, self.named[edit]) for edit in edits}
        self.over, self.left, self.passed = f"{room}/{crate.name}/kept", edits, []
        # (why they can't be tried, if so)
        self.why = None

    def is_code(self, edit):
        """Whether an edit is tried together with others: it changes code and names nothing, or it changes
        a clause of the very function that it names, which only callers read. No others are: what one
        of them makes false may be what another one names."""
        named = set(self.named[edit])
        return bool(self.changed[edit]) and named in (set(), self.changed[edit])

    def code(self):
        """Returns the edits of code that are to be tried, each with the functions that it changes."""
        return [(it, self.changed[it]) for it in self.left if self.is_code(it)]

    def others(self, lane=0, lanes=1):
        """Returns some of the other edits that are to be tried, each with the functions that it names."""
        others = [it for it in self.edits if not self.is_code(it)][lane::lanes]
        return [(it, self.named[it]) for it in others if it in self.left]

    def look_up(self, version):
        """Finds out which were refused on this machine before. The libraries below have to be there."""
        self.keys = keys_of(self.crate, self.edits, version)
        is_kept = lambda it: not self.is_anew and any(path.exists() for path in self.keys[it])
        self.left = [it for it in self.edits if not is_kept(it)]

    def looked_at_first(self, is_proved, has_kept):
        """Returns the functions that a check of the crate as it stands looks at before the edits: all,
        by an empty set, where it isn't known to be proved and an edit names nothing. It returns None
        where no check comes first."""
        named = [it for _, it in self.others() if it]
        if is_proved:
            # (several laws share their lemmas, which this check proves once)
            return set().union(*named) if len(named) > 2 and not has_kept else None
        asked = [it for _, it in self.code() + self.others()]
        return set().union(*asked) if all(asked) else set()

    def begin(self, is_proved, rt):
        """Makes the folder of what is kept, and sees whether the edits can be tried."""
        lacking = [it.name for it in self.crate.below() if not os.path.isdir(it.rlib)]
        if lacking:
            self.why = f"the library of {lacking[0]} isn't built"
            return
        own = f"{self.crate.folder}/out/incremental"
        if has_kept := os.path.isdir(own):
            shutil.copytree(own, self.over, copy_function=link_or_copy)
        else:
            os.makedirs(self.over)
        is_proved = is_proved or not self.crate.is_program and self.crate.is_built()
        functions = self.looked_at_first(is_proved, has_kept)
        if functions is not None and check_only(self.crate, {}, functions, self.over, rt).returncode:
            self.why = "it isn't proved as it stands"

    def try_first(self, is_proved, rt):
        """Tries the edits of code."""
        if self.left and not self.why:
            self.begin(is_proved, rt)
        if self.why:
            rt.say(f"{self.crate.name}: its edits aren't tried, since {self.why}")
            return
        for found in try_code(self.crate, self.code(), self.over, rt):
            self.passed += keep(found, self.keys, rt)

    def try_lane(self, lane, rt):
        """Tries every fourth of the other edits."""
        for edit, functions in [] if self.why else self.others(lane, LANES):
            self.passed += keep(try_alone(self.crate, edit, functions, self.over, rt), self.keys, rt)

    def tasks(self, waits, first, rt):
        """Returns the tasks that try the edits, behind those that they wait for: first those of code,
        and then up to four lanes of the others, side by side."""
        at, lines, needs = (self.crate.name, "edits"), self.crate.count(rb"\n"), rt.need(self.crate)
        tasks = {at: (waits, lines, needs, first)}
        for lane in range(min(LANES, len(self.edits))):
            call = lambda given, jobs, lane=lane: self.try_lane(lane, rt)
            tasks[(*at, lane)] = ([at], lines, needs, call)
        return tasks


def found_in(crate, rt):
    """Returns the edits of a crate, and says which files in their folder are none, and how many."""
    edits, wrong = rt.edits_of(crate)
    for it in wrong:
        rt.say(f"{crate.name}/{os.path.basename(it)}: BAD EDIT: an edit stands right in must-fail/, as NAME.edit")
    return sorted(edits), len(wrong)


def verdict(works, wrong):
    """Prints how many edits passed, of how many, and returns the status."""
    tried = sum(len(it.left) for it in works)
    passed = sum(len(it.edits) - len(it.left) + sum(it.passed) for it in works)
    seconds, checks = sum(map(sum, COSTS.values())), sum(map(len, COSTS.values()))
    print(f"edits: {tried} tried in {checks} checks, {seconds:,.0f} processor seconds")
    failed = wrong + sum(len(it.edits) for it in works) - passed
    print(f"{passed} passed, {failed} failed")
    return 1 if failed else 0
