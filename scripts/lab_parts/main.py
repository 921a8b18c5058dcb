"""What `scripts/lab` does. Its words, and what it promises, are in the text that it prints for
`--help`."""
import contextlib
import errno
import os
import re
import signal
import subprocess
import sys
import tempfile
import time
from itertools import islice
from pathlib import Path
from typing import NamedTuple

from .hints import FAULT, drawn, faulty_lines, guess
from .marks import LIMIT
from .words import OPTIONS, USAGES, faults, is_option, meant

TOP = Path(__file__).resolve().parents[2]
HELP = """\
Plays a script on rbd_lab, on a fresh machine too: what is missing is built.

  scripts/lab run [FILE..]           prints the replies, of several scripts one after another; of
                                     standard input where there is no FILE, or it is -
    --trace                          prints the history and the logs before them
    --strict                         ends with status 6 where a command was refused or has no reply
  scripts/lab gen --seed N --clients C --commands K
                                     plays a script that these numbers draw, and sums it up
  scripts/lab show [FILE]            prints each line of a script, or of standard input, with its
                                     reply under it; where replies came in another order than their
                                     lines stand, `(reply 3)` is the third that came; and under a
                                     line that did nothing why, as an @poll of a free slot
    --trace                          prints under each line too what it made happen: the lines of
                                     the history, and behind an operation's that of its site's log
    --locks                          prints under each line too what it changed of the images' locks:
                                     who has one, who asked for it, who watches; notices by number
  scripts/lab draw [FILE] [-o OUT]   draws what the script did, an operation a row, as one page that
                                     a browser opens: a row that is chosen shows the state there;
                                     where OUT ends with .svg, as a picture; without -o on standard
                                     output
  scripts/lab help | -h | --help     prints this, whatever stands behind it
  scripts/lab version | -V           prints which sources these are

All other words go to the program as they are. Standard output is the program's alone, and so is the
exit status, but for 6 and 70. Standard error has what is meant for a person. It says which build
ran: the proved one, or else one that was built without proof (scripts/program has both; a build
takes a minute or two, once, and more on a busy machine). It shows the lines of a script that don't
fit, with marks under the words that are meant, and what may help there and with replies; which
lines of a schedule did nothing, where that is sure, of a script that takes at most 2 seconds; on a
terminal, of a run that takes long, how long it is.

Not built yet: the program's word `threads`, which its usage line names; and in a script clones
(clone, flatten, children, snap protect, snap unprotect), journals (create .. journal) and mirror.

Exit status: that of the program, of several scripts that of the first one that isn't 0
  0   the script was played            4   the output couldn't be written
  1   the words aren't understood      5   there was no memory
  2   a line of the script doesn't fit 6   with --strict: it was played, and not all was done
  3   the script couldn't be read      70  there is no program, or it gave no answer"""
# Where the script comes from: scripts/lab puts its standard input there.
SCRIPT = 3
# How `show` is asked for it.
STANDARD_INPUT = ("-", "/dev/stdin", "/dev/fd/0")
NOT_UNDERSTOOD, BAD_LINE, UNREADABLE, UNWRITABLE, NOT_ALL_DONE, NO_ANSWER = 1, 2, 3, 4, 6, 70
# A command that was refused or has no reply.
BAD_REPLY = re.compile(rb"^[0-9]+ [a-z][a-z0-9]* (error|lost|unfinished|unsent)\b", re.M)
# How many lines that don't fit are shown.
SHOWN = 20
# How much of a line is kept for hints: a session's name has 32 bytes at most.
KEPT_OF_LINE = 120
# The words that are the wrapper's, and what asks for help alone.
OURS = (["run"], ["show"], ["draw"], ["-h"], ["--help"])
# A line that may do nothing: one of a schedule, but for rounds.
MAY_BE_IDLE = re.compile(rb"^ *@(?!settle +[1-9])", re.M)
# Lines that did nothing are looked for where a script took this many seconds at most, and its trace has
# this many bytes.
SHORT, MOST_TRACE = 2, 1 << 20
# What no picture is drawn as.
OTHER_PICTURES = (".png", ".jpg", ".jpeg", ".gif", ".webp", ".pdf")
# What a user or a closed pipe does to a program is no fault of it.
FROM_OUTSIDE = (signal.SIGPIPE, signal.SIGINT, signal.SIGTERM, signal.SIGHUP, signal.SIGQUIT)


class Build(NamedTuple):
    program: str
    proved: bool


def say(*texts):
    """Prints on standard error what can be printed there: what can't is no fault of a run."""
    with contextlib.suppress(OSError):
        for text in texts:
            os.write(2, os.fsencode(f"lab: {text}\n"))


def fail(why, status=NO_ANSWER):
    say(why)
    sys.exit(status)


def put(texts):
    """Prints lines."""
    try:
        sys.stdout.buffer.write(b"".join(it + b"\n" for it in texts))
        sys.stdout.flush()
    except OSError as error:
        # (what is left in the buffer goes nowhere)
        os.dup2(os.open(os.devnull, os.O_WRONLY), 1)
        if not isinstance(error, BrokenPipeError):
            say(f"the output cannot be written: {error.strerror}")
        sys.exit(UNWRITABLE)


def build():
    """Returns the proved program, or else the unproved one, and says which it is."""
    how = {"stdin": subprocess.DEVNULL, "stdout": subprocess.PIPE, "text": True}
    ran = subprocess.run([TOP / "scripts/program", "proved"], stderr=subprocess.PIPE, **how)
    if ran.returncode == 0:
        say("this is the proved build")
        return Build(ran.stdout.rstrip("\n"), True)
    why = ran.stderr.strip().removeprefix("program: ") or "scripts/program does not run"
    ran = subprocess.run([TOP / "scripts/program", "unproved"], **how)
    if ran.returncode:
        fail("there is no program to run")
    say(f"this is NOT the proved build ({why})")
    return Build(ran.stdout.rstrip("\n"), False)


def script_in(descriptor):
    """Returns a script, to one byte past the longest."""
    got = b""
    while len(got) <= LIMIT and (more := os.read(descriptor, LIMIT + 1 - len(got))):
        got += more
    return got


def script_at(path):
    """Returns the script of a file, or of standard input; it raises where that can't be read."""
    if path in STANDARD_INPUT:
        if os.isatty(SCRIPT):
            say("type the script, and end it with control-D")
        return script_in(SCRIPT)
    with open(path, "rb") as file:
        return script_in(file.fileno())


def script_or_end(path):
    """Returns the script of a file, or of standard input, or ends where it can't be read."""
    try:
        return script_at(path)
    except OSError as error:
        fail(unreadable(path, error), UNREADABLE)


def unreadable(path, error):
    return f"{'the script' if path in STANDARD_INPUT else path} cannot be read: {error.strerror}"


class Unwritable(Exception):
    """Standard output can't be written."""


class PassedOn:
    """Passes on what the program prints to standard output, as it is, and keeps how each line
    begins, but for those of a history and of logs: a bad reply is found by that."""

    def __init__(self):
        self.begins, self.line = [], b""

    def take(self, more):
        """Takes what was printed next. It raises where that can't be written."""
        left = memoryview(more)
        try:
            while left:
                left = left[os.write(1, left) :]
        except OSError as error:
            raise Unwritable(error) from error
        *lines, self.line = (self.line + more).split(b"\n")
        self.begins += [it[:KEPT_OF_LINE] for it in lines if not it.startswith((b"h ", b"o "))]

    def output(self):
        """Returns the lines as they begin."""
        return b"".join(it + b"\n" for it in self.begins)


class TooMuch(Exception):
    """A program prints more than is looked at."""


class Kept:
    """Keeps what the program prints, up to a limit."""

    def __init__(self, most):
        self.parts, self.left = [], most

    def take(self, more):
        """Takes what was printed next. It raises where that is too much."""
        self.left -= len(more)
        if self.left < 0:
            raise TooMuch
        self.parts.append(more)


def started(build, words, script, taken):
    """Runs the program on a script, gives each part of what it prints to `taken`, and returns its
    status."""
    with tempfile.TemporaryFile() as given:
        given.write(script)
        given.seek(0)
        came = []
        for number in (signal.SIGTERM, signal.SIGHUP):
            # (one that comes while the program starts is kept for it)
            signal.signal(number, lambda number, _: came.append(number))
        with subprocess.Popen([build.program, *words], stdin=given, stdout=subprocess.PIPE) as ran:
            try:
                for number in (signal.SIGTERM, signal.SIGHUP):
                    # What stops this stops the program, and then this ends as that did.
                    signal.signal(number, lambda number, _: ran.send_signal(number))
                for number in came:
                    ran.send_signal(number)
                if os.isatty(2):
                    from .progress import until_it_prints

                    until_it_prints(ran)
                while more := os.read(ran.stdout.fileno(), 1 << 16):
                    taken(more)
            except BaseException:
                ran.kill()
                raise
        return ran.returncode


def played(build, words, script):
    """Runs the program on a script, and returns its status and what it printed."""
    parts = []
    status = started(build, words, script, parts.append)
    return status, b"".join(parts)


def end(build, status):
    """Ends as the program did."""
    if status >= 0:
        sys.exit(status)
    if not build.proved and -status not in FROM_OUTSIDE:
        fail("the program gave no answer")
    with contextlib.suppress(OSError):
        # (some signals can't be handled, so they already do what they do)
        signal.signal(-status, signal.SIG_DFL)
    os.kill(os.getpid(), -status)


def explain(script, output):
    """Shows the lines of a script that don't fit, where the program printed which one is the
    first."""
    said = FAULT.fullmatch(output)
    found = faulty_lines(script, int(said[1]), said[2].decode()) if said else ()
    for place, (number, shown) in enumerate(found):
        if place == SHOWN:
            say("and there are more lines that don't fit")
            return
        say(*drawn(number, shown))


def advise(script, output):
    """Says what may help with replies, and returns whether there are bad ones: refusals, or commands
    without a reply."""
    if not BAD_REPLY.search(output):
        return False
    # (whoever's script went well needs none of this)
    from .replies import hints

    say(*(f"line {number}: {hint}" for number, hint in hints(script, output)))
    return True


def passed_on(build, words, script):
    """Runs the program on a script, passes on what it prints, and returns its status, and the lines
    that it printed as they begin."""
    printed = PassedOn()
    try:
        status = started(build, words, script, printed.take)
    except Unwritable as error:
        # (where nobody reads it any more, as behind `| head`, nobody has to know)
        if error.args[0].errno != errno.EPIPE:
            say(f"the output cannot be written: {error.args[0].strerror}")
        sys.exit(UNWRITABLE)
    return status, printed.output()


def run_one(build, words, script, strict):
    """Plays a script, says what may help, and returns the status."""
    began = time.monotonic()
    status, output = passed_on(build, words, script)
    if status == BAD_LINE:
        explain(script, output)
    if status == 0:
        idle = idle_facts(build, script, began)
        say(*islice((f"line {number}: {text}" for number, texts in idle.items() for text in texts), SHOWN))
    if status == 0 and advise(script, output) and strict:
        ends = BAD_REPLY.findall(output)
        refused = ends.count(b"error")
        say(f"{refused} refused, {len(ends) - refused} without a reply")
        return NOT_ALL_DONE
    return status


def run(words, strict, files):
    """Plays scripts, one after another, and ends as the first one did that didn't end well."""
    ours, ended = build(), 0
    for place, path in enumerate(files, 1):
        if len(files) > 1:
            say(f"{path} ({place} of {len(files)})")
        try:
            script = script_at(path)
        except OSError as error:
            say(unreadable(path, error), *filter(None, [guess(path, OPTIONS["run"])]))
            ended = ended or UNREADABLE
            continue
        status = run_one(ours, words, script, strict)
        if status < 0:
            end(ours, status)
        ended = ended or status
    end(ours, ended)


def folded(script, output, is_needed=True):
    """Returns the lines of a script, and what happened, step by step. Where the trace isn't understood
    this ends, or returns no lines where it isn't needed."""
    # (whoever only plays a script needs none of this)
    from .drawing.fold import NotOfThisScript, steps
    from .drawing.reading import script_of

    try:
        return script_of(script), steps(script, output)
    except NotOfThisScript as error:
        if is_needed:
            fail(f"the trace is not understood: {error}")
        return [], []


def facts_of(script, output, options):
    """Returns what stands under each line, as texts by the line's number: why it did nothing, and what
    these options of `show` ask for."""
    from .drawing import history, idle, locks

    lines, happened = folded(script, output, bool(options))
    found = idle.facts(lines, happened)
    asked = [history.facts(output, happened)] if "--trace" in options else []
    asked += [locks.facts(lines, happened)] if "--locks" in options else []
    for facts in asked:
        for number, texts in facts.items():
            found.setdefault(number, []).extend(texts)
    return found


def idle_facts(build, script, began):
    """Returns why lines of a script did nothing, as texts by the line's number. It was played well, from
    this moment on, and is played once more, with its trace; but not where that is long."""
    if not MAY_BE_IDLE.search(script) or time.monotonic() - began > SHORT:
        return {}
    kept = Kept(MOST_TRACE)
    try:
        status = started(build, ["run", "--trace"], script, kept.take)
    except TooMuch:
        return {}
    return facts_of(script, b"".join(kept.parts), ()) if status == 0 else {}


def show(path, options):
    """Prints a script, each line with its reply under it, why it did nothing where it did, and by options
    what it made happen and what it changed of locks."""
    from .show import shown

    script, ours = script_or_end(path), build()
    began = time.monotonic()
    status, output = played(ours, ["run", "--trace"] if options else ["run"], script)
    facts = {}
    if status == 0:
        facts = facts_of(script, output, options) if options else idle_facts(ours, script, began)
    if status in (0, BAD_LINE):
        put(shown(script, output, status == 0, facts))
    if status == 0:
        advise(script, output)
    end(ours, status)


def draw(path, out):
    """Draws what a script did."""
    from .drawing.page import Page
    from .drawing.picture import Picture

    script, ours = script_or_end(path), build()
    status, output = played(ours, ["run", "--trace"], script)
    if status == BAD_LINE:
        explain(script, output)
    if status:
        end(ours, status)
    title = "a script" if path in STANDARD_INPUT else Path(path).name
    of = Picture if out and out.endswith(".svg") else Page
    drawn_as = of(*folded(script, output), title).whole().encode()
    if not out:
        put([drawn_as.removesuffix(b"\n")])
        return
    try:
        Path(out).write_bytes(drawn_as)
    except OSError as error:
        fail(f"{out} cannot be written: {error.strerror}", UNWRITABLE)


def version():
    """Returns which sources these are."""
    words = ["git", "-C", TOP, "describe", "--always", "--dirty=, changed since"]
    try:
        ran = subprocess.run(words, capture_output=True, text=True)
    except FileNotFoundError:
        return "rbd_lab; which commit, git would say, and it isn't here"
    return f"rbd_lab, commit {ran.stdout.strip()}" if ran.returncode == 0 else "rbd_lab, from no git checkout"


def drawing_asked(words):
    """Returns the script and the file that `draw` is asked for by its words."""
    out = None
    if "-o" in words[:-1]:
        place = words.index("-o")
        out, words = words[place + 1], words[:place] + words[place + 2 :]
    found = ["behind `-o` stands one file, and it stands once"] if "-o" in words else faults("draw", words)
    if out and out.lower().endswith(OTHER_PICTURES):
        found.append(f"{out}: a picture is an .svg, and whatever has another name is a page of HTML")
    if found:
        not_understood("draw", found)
    return (words or ["-"])[0], out


def show_asked(words):
    """Returns the script and the options that `show` is asked for by its words."""
    if found := faults("show", words):
        not_understood("show", found)
    options = [it for it in words if is_option(it)]
    files = [it for it in words if it not in options]
    return (files or ["-"])[0], options


def not_understood(command, found):
    """Says what is wrong with the words behind a command, and how it is asked for, and ends."""
    say(*found)
    fail(USAGES[command], NOT_UNDERSTOOD)


def run_asked(words):
    """Returns what `run` is asked for by its words: the program's words, whether each command has to
    be done, and the scripts; or None where one isn't understood."""
    options = [it for it in words if is_option(it)]
    files = [it for it in words if it not in options]
    if len({*options}) < len(options) or not {*options} <= {*OPTIONS["run"]}:
        return None
    return ["run", *(["--trace"] if "--trace" in options else [])], "--strict" in options, files or ["-"]


def other(words):
    """Has the program answer words that aren't the wrapper's."""
    ours = build()
    status, _ = passed_on(ours, words, b"")
    if status == NOT_UNDERSTOOD:
        say(*meant(words))
    end(ours, status)


def main():
    words = sys.argv[1:]
    if words[:1] == ["help"] or words[:1] in OURS and {"-h", "--help"} & {*words}:
        put([HELP.encode()])
    elif words in (["-V"], ["--version"], ["version"]):
        put([version().encode()])
    elif words[:1] == ["show"]:
        show(*show_asked(words[1:]))
    elif words[:1] == ["draw"]:
        draw(*drawing_asked(words[1:]))
    elif words[:1] == ["run"] and (asked := run_asked(words[1:])):
        run(*asked)
    else:
        other(words)


def begin():
    """Does what is asked for, and ends as its help says whatever goes wrong."""
    try:
        main()
    except KeyboardInterrupt:
        sys.exit(130)
    except OSError as error:
        fail(error)
