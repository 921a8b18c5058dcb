#!/usr/bin/env python3
"""Tests of scripts/lab, without the program: `scripts/quick` runs them, in seconds.

The marks are tried on each row of tests/rows that wants a fault, so they know the grammar as the
program does. The rest plays small programs of `sh` in place of rbd_lab.
"""
import os
import re
import shutil
import signal
import subprocess
import sys
import tempfile
import time
import unittest
from importlib.machinery import SourceFileLoader
from importlib.util import module_from_spec, spec_from_loader
from pathlib import Path
from unittest import mock

sys.dont_write_bytecode = True
TOP = Path(__file__).resolve().parent.parent.parent
SCRIPTS = TOP / "scripts"
sys.path.insert(0, str(SCRIPTS))
from lab_parts import hints as lab_hints
from lab_parts import marks as lab_marks
from lab_parts import progress as lab_progress
from lab_parts import replies as lab_replies

# What a script's last line is, the word that is marked in it, and words of the hint.
HINTS = """\
c1 create d 8K | 8K | bytes: 8192
c1 create d 4MiB | 4MiB | bytes: 4194304
c1 create d 8192B | 8192B | bytes: 8192
c1 read d 0 1M | 1M | 1048576, and at most 65,536
c1 create d 0x1000 | 0x1000 | decimal: 4096
c1 create d 04096 | 04096 | leading zeros: 4096
c1 create d -1 | -1 | no sign
c1 read d 0 65537 | 65537 | LEN is at most 65,536
c1 create d 8192 --object-size 4096 | --object-size | object N, unit N, count N
c1 create --size 8192 d | --size | no words with dashes
c1 create d --size 8192 | --size | no words with dashes
c1 create d 8192 count 2 object 4096 | object | in the order
c1 create d 8192 journal | journal | isn't built
c1 clone d@s e | clone | isn't built
c1 snap protect d@s | protect | isn't built
c1 flatten d | flatten | isn't built
c1 snap foo d@s | foo | create, rm, rollback or ls
@until c1 1 write | write | did you mean `data-write`?
@until c1 1 wriet | wriet | did you mean `data-write`?
@until c1 1 xyz | xyz | of an operation
@until c1 1 gett | gett | of an operation
@settl 4 | @settl | did you mean `@settle`?
@wait 4 | @wait | @settle, @deliver, @lose, @expire, @stop, @restart, @late or @trim
c1 craete d 8192 | craete | did you mean `create`?
c1 reed d 0 1 | reed | did you mean `read`?
c1 snapp ls d | snapp | did you mean `snap`?
c1 snap creat d@s | creat | did you mean `create`?
c1 create d 8192 objct 4096 | objct | did you mean `object`?
c1 create d 8192 object 4096 units 512 | units | did you mean `unit`?
c1 create d 9223372036854775808 | 9223372036854775808 | SIZE is below 2^63
c1 create d 9999999999G | 9999999999G | and below 2^63
c1 create d 8192 count 4294967296 | 4294967296 | below 2^32
c1 fill d 0 1048577 aa | 1048577 | LEN is at most 1,048,576
c1 read d 0 70000 | 70000 | LEN is at most 65,536
@settle 1K | 1K | no letters stand behind a number; wanted here: N, how many rounds: a decimal number below 2^63
@poll c1 1 2K | 2K | wanted here: TIMES, a decimal number from 1 to 1,000,000
c1 create d 8192 count 2K | 2K | wanted here: N, a decimal number below 2^32
c1 create d 8192 object 4096 unit 1K | 1K | bytes: 1024
@lose c1 1 | c1 | N, a notice's number, which `scripts/lab show --locks` prints: a decimal number below 2^63
@deliver one | one | N, a notice's number
@expire c1 a disk | disk | ID, the image's number, 1 for the first that its site made: a decimal number below 2^32
@poll c1 65 | 65 | SLOT is at most 64
@poll c1 1 0 | 0 | TIMES is at least 1
@poll c1 one | one | SLOT, a decimal number from 0 to 64
c2 ls | c2 | declare it: `client c2 a`
create d 8192 | create | begins with its session's name
rbd ls | rbd | in place of rbd
&c1 ls | &c1 | a word of its own
c1 LS | LS | lower-case
c1 write d 0 AA | AA | lower-case
c1 write d 0 aab | aab | an odd number
c1 write d 0 0xaa | 0xaa | without 0x
c1 write d 0 hello | hello | the text `hello` is 68656c6c6f
c1 info rbd/d | rbd/d | no pools
c1 snap create d | d | IMAGE@SNAP
c1 snap list d | list | `ls`
c1 snap add d@s | add | `create`
c1 snap take d@s | take | create, rm, rollback or ls
c1 mv d e | mv | `rename`
c1 snap create d@ | d@ | behind `@`
c1 read d@ 0 1 | d@ | behind `@`
clint c2 a | clint | did you mean `client`?
@until c1 1 xyz zzz | xyz | docs/RULES.md lists them
c1 export d | export | read, resize
@stopp c1 | @stopp | did you mean `@stop`?
c1 ls # all | # | a line of its own
client c1 b | c1 | declared before
client b c | c | a or b
"""


def ends(pid, seconds=20):
    """Whether a process, which may be nobody's child any more, ends within this time. Who reaps it then may
    be late."""
    for _ in range(seconds * 50):
        try:
            state = Path(f"/proc/{pid}/stat").read_text().rpartition(")")[2].split()[0]
        except (FileNotFoundError, ProcessLookupError):
            return True
        if state in "ZX":
            return True
        time.sleep(0.02)
    return False


def module_of(path):
    """Loads a script that has no `.py` in its name."""
    loader = SourceFileLoader(path.name, str(path))
    module = module_from_spec(spec_from_loader(path.name, loader))
    loader.exec_module(module)
    return module


def rows():
    """Returns the rows that are scripts to run, without those that are too long."""
    found = module_of(SCRIPTS / "rows").rows_of((TOP / "tests/rows").rglob("*.row"))[0]
    return [it for it in found if it.words[:1] == [b"run"] and len(it.script) <= lab_marks.LIMIT]


def first_fault(script):
    """Returns the number of the first line with a fault, and the fault."""
    lines = script.split(b"\n")
    for number, line in enumerate(lines, 1):
        if faults := lab_marks.faults_of_line(line, lab_marks.declared_in(lines[: number - 1])):
            return number, faults[0]
    return None


class Marks(unittest.TestCase):
    def test_rows_that_are_played_have_no_fault(self):
        for row in rows():
            if row.status == 0:
                self.assertIsNone(first_fault(row.script), row.name)

    def test_each_fault_of_a_row_is_found(self):
        for row in rows():
            if row.status != 2:
                continue
            number, cause = re.fullmatch(r"line (\d+): (.*)\n", row.output.decode()).groups()
            found = first_fault(row.script)
            self.assertTrue(found or cause == "unknown word", row.name)
            if found:
                self.assertEqual((found[0], found[1].cause), (int(number), cause), row.name)
            shown = lab_hints.explained(row.script, int(number), cause)
            self.assertTrue(shown.token and shown.hint, row.name)

    def test_hints(self):
        for row in HINTS.splitlines():
            line, word, hint = row.split(" | ")
            script = f"client c1 a\n{line}\n".encode()
            found = first_fault(script)
            shown = lab_hints.explained(script, 2, found[1].cause if found else "unknown word")
            self.assertEqual(shown.token.text.decode(), word, line)
            self.assertIn(hint, shown.hint, line)

    def test_a_part_too_few_or_too_many_shows_the_form(self):
        rows = {
            b"c1 create d": "NAME create IMAGE SIZE [object N] [unit N] [count N]",
            b"c1 ls d": "NAME ls",
            b"& c1 snap rm": "NAME snap rm IMAGE@SNAP",
            b"@poll c1": "@poll NAME SLOT [TIMES]",
            b"client c2": "client NAME SITE",
            b"c1 clone d@s": "",
            b"c1 mirror enable": "",
        }
        for line, form in rows.items():
            number, fault = first_fault(b"client c1 a\n" + line)
            shown = lab_hints.explained(b"client c1 a\n" + line, number, fault.cause)
            self.assertEqual(shown.form, form, line)

    def test_a_number_of_any_length_is_marked(self):
        for number in ("9" * 5000, "9" * 5000 + "K", "0x" + "f" * 5000):
            script = f"client c1 a\n@settle {number}\n".encode()
            self.assertIn("below 2^63", lab_hints.explained(script, 2, "bad number").hint)

    def test_each_number_of_a_line_is_named(self):
        script = b"client c1 a\nc1 create d 8K object 4K unit x"
        texts = lab_hints.drawn(2, lab_hints.explained(script, 2, "bad number"))
        wanted = """\
2 | c1 create d 8K object 4K unit x
  |             ^^        ^^      ^
  | 8K: a size is a plain number of bytes: 8192
  | 4K: a size is a plain number of bytes: 4096
  | x: wanted here: N, a decimal number below 2^63"""
        self.assertEqual(texts, wanted.splitlines())

    def test_numbers_behind_a_session_that_is_not_declared_are_named(self):
        shown = lab_hints.explained(b"client c1 a\n& c2 read d 5x 70000", 2, "unknown word")
        self.assertEqual([it.text for it in (shown.token, *(token for token, _ in shown.more))], [b"c2", b"5x", b"70000"])
        shown = lab_hints.explained(b"client c1 a\ncreate d 8K", 2, "unknown word")
        self.assertEqual((shown.token.text, shown.more), (b"create", ()))

    def test_each_line_that_does_not_fit_is_shown(self):
        script = b"client c1 a\n# x\nc1 craete d 1\nc1 clone d@s e\nclient c2 x\nc2 ls\nc2 read d 0 70000"
        self.assertEqual([it for it, _ in lab_hints.faulty_lines(script, 3, "unknown word")], [3, 4, 5, 7])

    def test_a_session_that_is_not_declared_is_missed_once(self):
        found = lab_hints.faulty_lines(b"c1 ls\nc1 lss\n@poll c1 1\n@stop c2\nc2 ls", 1, "unknown word")
        self.assertEqual([it for it, _ in found], [1, 2, 4])

    def test_the_line_that_the_program_named_comes_first(self):
        found = lab_hints.faulty_lines(b"client c1 a\nc1 flatten d\nc1 ls x", 3, "extra part")
        self.assertEqual([it for it, _ in found], [3, 2])

    def test_no_other_line_is_shown_where_the_program_finds_what_this_does_not(self):
        found = lab_hints.faulty_lines(b"client c1 a\nc1 ls\nc1 lss", 2, "bad name")
        self.assertEqual([it for it, _ in found], [2])

    def test_a_session_may_have_the_name_of_a_form_that_is_not_built(self):
        script = b"client clone a\nclone ls\n& clone ls\n#\nclone"
        self.assertEqual([it for it, _ in lab_hints.faulty_lines(script, 5, "missing part")], [5])

    def test_what_the_program_does_not_say_is_not_marked(self):
        self.assertIsNone(lab_hints.explained(b"client c1 a\nc1 ls\n", 2, "bad number").token)

    def test_the_mark_stands_under_its_word(self):
        line = "c1 write d 0 " + "aa" * 200 + " x"
        texts = lab_hints.drawn(2, lab_hints.explained(f"client c1 a\n{line}".encode(), 2, "extra part"))
        self.assertEqual(texts[0][texts[1].index("^")], "x")
        self.assertLess(max(map(len, texts)), 120)


# Scripts, each behind the clients c1 and c2 at site a and c3 at site b, so that the first line here is
# line 4; below each what the program answers by docs/RULES.md, and how a hint begins, if one is given.
ADVICE = """\
c1 create d 8192;c2 read d 0 1
    5 c2 error 2 NoImage;4 c1 ok
    5: line 4 makes `d`, and had no reply yet: an `@settle 1000` before line 5 lets it be made
c1 create d 8192;c2 snap rm d@s
    5 c2 error 2 NoImage;4 c1 ok
    5: line 4 makes `d`
c1 create e 8192;@settle 9;c2 rename e d;c1 info d
    4 c1 ok;7 c1 error 2 NoImage;6 c2 ok
    7: line 6 makes `d`
c1 create d 8192;@stop c1;c2 info d
    6 c2 error 2 NoImage;4 c1 lost
    6: line 4 makes `d`
c1 create d 8192;@settle 9;c2 read e 0 1
    4 c1 ok;6 c2 error 2 NoImage
c1 create d 8192;@settle 9;c1 rm d;@settle 9;c1 info d
    4 c1 ok;6 c1 ok;8 c1 error 2 NoImage
c1 create d 8192;@settle 9;c3 read d 0 1
    4 c1 ok;6 c3 error 2 NoImage
    6: line 4 makes `d` at site a, and c3 is at site b
c1 create d 8192 object 1;c1 read d 0 1
    4 c1 error 22 BadShape;5 c1 error 2 NoImage
    4: `object` is a power of two
c1 create d 8192;c1 read d 0 0
    4 c1 ok;5 c1 error 22 BadRange
    5: this has no bytes, and 1 is the least
c1 create d 8192;c1 read d 8190 4
    4 c1 ok;5 c1 error 22 BadRange
    5: `d` has 8192 bytes, and this ends at 8194
c1 create d 8192;c1 write d 8190 112233
    4 c1 ok;5 c1 error 22 BadRange
    5: `d` has 8192 bytes, and this ends at 8193
c1 create d 8192;c1 snap create d@s;c1 read d@s 8190 4
    4 c1 ok;5 c1 ok;6 c1 error 22 BadRange
    6: `d` has 8192 bytes, and this ends at 8194
c1 create d 8192;@settle 9;c1 resize d 16384;c2 read d 8190 4
    4 c1 ok;7 c2 error 22 BadRange;6 c1 ok
    7: line 6 gives `d` 16384 bytes, and had no reply yet: an `@settle 1000` before line 7 lets that be done
c1 create d 8192;@settle 9;c1 resize d 8193;c2 read d 8190 4
    4 c1 ok;7 c2 error 22 BadRange;6 c1 ok
c1 create d 8192;@settle 9;c1 resize d 4096;@settle 9;c2 read d 4096 1
    4 c1 ok;6 c1 ok;8 c2 error 22 BadRange
c1 create d 8192;@settle 9;c1 rm d;@settle 9;c1 create d 4096;c1 read d 4096 1
    4 c1 ok;6 c1 ok;8 c1 ok;9 c1 error 22 BadRange
c1 create e 8192;c1 rename e d;c1 read d 8192 1
    4 c1 ok;5 c1 ok;6 c1 error 22 BadRange
c1 create d 8192;c3 create d 4096;c1 discard d 8191 2
    4 c1 ok;5 c3 ok;6 c1 error 22 BadRange
    6: `d` has 8192 bytes, and this ends at 8193
c1 create d 8192;@settle 9;c1 snap create d@s;c2 read d@s 0 1
    4 c1 ok;7 c2 error 2 NoSnap;6 c1 ok
    7: line 6 takes `d@s`, and had no reply yet: an `@settle 1000` before line 7 lets it be taken
c1 create d 8192;@settle 9;c1 snap create d@s;c2 snap rm d@s
    4 c1 ok;7 c2 error 2 NoSnap;6 c1 ok
    7: line 6 takes `d@s`
c1 create d 8192;@settle 9;c1 snap create d@s;c2 read d@r 0 1
    4 c1 ok;7 c2 error 2 NoSnap;6 c1 ok
c1 create d 8192;@settle 9;c1 snap create d@s;c1 snap rm d@s;c1 read d@s 0 1
    4 c1 ok;6 c1 ok;7 c1 ok;8 c1 error 2 NoSnap
c1 create d 8192;@stop c1;c1 info d
    4 c1 lost;6 c1 unsent
    6: line 5 stopped c1: it goes on behind an `@restart c1`
c1 create d 8192;@stop c1;@restart c1;c1 quiesce d;c1 write d 0 11;c1 info d
    4 c1 lost;7 c1 ok;8 c1 unfinished;9 c1 unsent
    8: the quiesce of line 7 holds it up
c1 create d 8192;c1 write d 0 11;@settle 99;c2 write d 0 11;@lose 1;@lose 2
    4 c1 ok;5 c1 ok;7 c2 unfinished waiting c1.0
    7: c1.0 is asked for the lock by notices, and line 9 may have lost one
c1 create d 8192;@stop c1;@stop c1;@restart c1;c1 write d 0 11;@settle 99;c2 write d 0 11;@lose 1
    4 c1 lost;8 c1 ok;10 c2 unfinished waiting c1.1
    10: c1.1 is asked for the lock by notices, and line 11 may have lost one
c1 create d 8192;c1 quiesce d;c1 write d 0 11
    4 c1 ok;5 c1 ok;6 c1 unfinished
    6: the quiesce of line 5 holds it up, until a `resume`
c1 create d 8192;c1 quiesce d;c1 write d 0 11;c1 resume d
    4 c1 ok;5 c1 ok;6 c1 unfinished;7 c1 unsent
    7: this `resume` waits for line 6, which the quiesce of line 5 holds up: behind an `@settle 1000`, as `& c1 resume
c1 create d 8192;c1 quiesce d;c1 snap create d@s;c1 resume d
    4 c1 ok;5 c1 ok;6 c1 unfinished;7 c1 unsent
    7: this `resume` waits for line 6
c1 create d 8192;c1 quiesce d;c1 write d 0 11;@settle 99;& c1 resume d
    4 c1 ok;5 c1 ok;8 c1 ok;6 c1 ok
c1 create d 8192;c1 quiesce d;@settle 99;c1 resume d;@settle 9;@stop c1;c1 resume d
    4 c1 ok;5 c1 ok;7 c1 ok;10 c1 unsent
    10: line 9 stopped c1
c1 create d 8192;c1 quiesce d;@settle 99;c2 write d 0 11
    4 c1 ok;5 c1 ok;7 c2 unfinished waiting c1.0
    7: line 5 quiesced it, and a `resume` of c1
c1 create d 8192;c1 write d 0 11;@settle 99;@stop c1;c2 write d 0 11
    4 c1 ok;5 c1 ok;8 c2 unfinished waiting c1.0
    8: c1.0 was stopped with the lock
c1 create d 8192;c1 write d 0 11;@settle 99;@stop c1;@expire c1 a 1;c2 write d 0 11
    4 c1 ok;5 c1 ok;9 c2 ok
"""
# The numbers of a `create` that is refused with BadShape, and what is said.
SHAPES = """\
8192 object 5000 | `object` is a power of two from 4096 to 33554432
8192 object 67108864 | `object` is a power of two from 4096 to 33554432
8192 object 4096 unit 8192 | `unit` is a power of two from 512 to the object's size, here 4096
8192 unit 256 | `unit` is a power of two from 512 to the object's size, here 4194304
8192 count 17 | `count` is from 1 to 16
8192 count 0 | `count` is from 1 to 16
4294967297 object 4096 | of 4096 bytes, that is a size of 4294967296
4294966785 object 4096 unit 512 count 3 | of 4096 bytes, that is a size of 4294963712
4294963712 object 4096 unit 512 count 3 | a site holds at most 4,096 names
"""


class Replies(unittest.TestCase):
    def test_advice(self):
        for row in re.findall(r"^(\S.*)\n    (.*)\n(?:    (.*)\n)?", ADVICE, re.M):
            lines, replies, hint = row
            script = "\n".join(["client c1 a", "client c2 a", "client c3 b", *lines.split(";")]).encode()
            output = "".join(f"{it}\n" for it in replies.split(";")).encode()
            found = [f"{number}: {text}" for number, text in lab_replies.hints(script, output)]
            self.assertTrue(any(it.startswith(hint) for it in found) if hint else not found, (row, found))

    def test_shapes(self):
        for row in SHAPES.splitlines():
            words, hint = row.split(" | ")
            script = f"client c1 a\nc1 create d {words}\n".encode()
            (found,) = lab_replies.hints(script, b"2 c1 error 22 BadShape\n")
            self.assertEqual(found[0], 2)
            self.assertTrue(found[1].endswith(hint), (row, found))

    def test_a_history_and_logs_are_no_replies(self):
        output = b"h 1 start 2 c1.0\no a1 c1.0 dir-find rbd_directory none\n2 c1 ok\n"
        self.assertEqual(lab_replies.hints(b"client c1 a\nc1 info d\n", output), [])


class Wrapper(unittest.TestCase):
    """scripts/lab over a program of `sh`, in a copy of its files."""

    def setUp(self):
        self.room = Path(tempfile.mkdtemp())
        self.addCleanup(shutil.rmtree, self.room)
        (self.room / "scripts").mkdir()
        shutil.copy(SCRIPTS / "lab", self.room / "scripts/lab")
        shutil.copytree(SCRIPTS / "lab_parts", self.room / "scripts/lab_parts")

    def tool(self, path, text):
        (self.room / path).write_text(f"#!/bin/sh\n{text}\n")
        (self.room / path).chmod(0o755)

    def program(self, text, proved=True):
        self.tool("program", text)
        told = f"echo {self.room}/program"
        if not proved:
            told = f"[ $1 = unproved ] && exec echo {self.room}/program; echo 'program: it changed' >&2; exit 1"
        self.tool("scripts/program", told)

    def lab(self, *words, script=b""):
        how = {"input": script, "capture_output": True, "timeout": 60}
        return subprocess.run([self.room / "scripts/lab", *words], **how)

    def test_output_and_status_are_the_programs(self):
        self.program("cat; echo \"$@\"; exit 5")
        ran = self.lab("run", "--trace", script=b"\xff\0 x")
        self.assertEqual((ran.stdout, ran.returncode), (b"\xff\0 xrun --trace\n", 5))
        self.assertEqual(ran.stderr, b"lab: this is the proved build\n")

    def test_it_says_that_the_build_is_unproved(self):
        self.program("exit 0", proved=False)
        ran = self.lab("run")
        self.assertEqual(ran.stderr.count(b"\n"), 1)
        self.assertIn(b"NOT the proved build", ran.stderr)

    def test_a_fault_is_shown_on_standard_error(self):
        self.program("echo 'line 2: bad number'; exit 2")
        ran = self.lab("run", script=b"client c1 a\nc1 create d 8K\n")
        self.assertEqual((ran.stdout, ran.returncode), (b"line 2: bad number\n", 2))
        self.assertIn(b"lab:   |             ^^\n", ran.stderr)

    def test_files_are_played_one_after_another(self):
        self.program("cat; [ \"$*\" = 'run --trace' ] || echo $*")
        for name in ("one", "two"):
            (self.room / name).write_text(f"{name}\n")
        files = [str(self.room / it) for it in ("one", "two")]
        ran = self.lab("run", *files, "-", script=b"three\n")
        self.assertEqual((ran.stdout, ran.returncode), (b"one\nrun\ntwo\nrun\nthree\nrun\n", 0))
        self.assertIn(f"lab: {files[1]} (2 of 3)\n".encode(), ran.stderr)
        ran = self.lab("run", files[0], "--trace")
        self.assertEqual((ran.stdout, ran.stderr), (b"one\n", b"lab: this is the proved build\n"))

    def test_the_status_is_that_of_the_first_file_that_does_not_end_well(self):
        self.program("exit $(cat)")
        for name in ("0", "2", "5"):
            (self.room / name).write_text(name)
        for names, status in (("00", 0), ("052", 5), ("0x2", 3), ("2x", 2)):
            self.assertEqual(self.lab("run", *(str(self.room / it) for it in names)).returncode, status, names)

    def test_a_file_that_can_not_be_read_is_named(self):
        self.program("cat")
        ran = self.lab("run", str(self.room))
        self.assertEqual((ran.stdout, ran.returncode), (b"", 3))
        self.assertIn(f"lab: {self.room} cannot be read: Is a directory\n".encode(), ran.stderr)
        said = b"lab: trace cannot be read: No such file or directory\nlab: did you mean `--trace`?\n"
        self.assertIn(said, self.lab("run", "trace").stderr)

    def test_strict(self):
        rows = (("2 c1 ok", 0), ("2 c1 ok;3 c1 error 22 BadRange", 6), ("2 c1 lost", 6), ("2 c1 unsent", 6))
        rows += (("2 c1 unfinished waiting c2.0", 6), ("h 1 lost 2", 0), ("o a1 error error", 0))
        for printed, status in rows:
            self.program(f"echo '{printed}' | tr ';' '\\n'")
            self.assertEqual(self.lab("run", "--strict").returncode, status, printed)
            self.assertEqual(self.lab("run").returncode, 0, printed)
        self.program("printf '2 c1 error 2 NoImage\\n3 c1 unsent\\n4 c1 lost\\n'")
        self.assertIn(b"lab: 1 refused, 2 without a reply\n", self.lab("run", "--strict").stderr)

    def test_advice_stands_on_standard_error(self):
        self.program("printf '3 c1 error 2 NoImage\\n2 c1 ok\\n'")
        for words in (("run",), ("show",)):
            ran = self.lab(*words, script=b"client c1 a\nc1 create d 1\n& c1 info d\n")
            self.assertEqual(ran.returncode, 0)
            self.assertIn(b"\nlab: line 3: line 2 makes `d`", ran.stderr)
            self.assertNotIn(b"makes", ran.stdout)

    def test_words_are_guessed(self):
        self.program("echo usage; exit 1")
        (self.room / "script").write_text("")
        rows = ((["rum"], b"did you mean `run`?"), (["hlep"], b"did you mean `help`?"))
        rows += ((["run", "--trase"], b"did you mean `--trace`?"),)
        rows += ((["run", "--strcit", "x"], b"did you mean `--strict`?"),)
        rows += ((["run", "--locks", "x"], b"`--locks` is no option of `run`; it is one of `show`"),)
        rows += (([str(self.room / "script")], b"did you mean `scripts/lab run "), ([], b"lab: scripts/lab --help"))
        rows += ((["--strict", "run"], b"`--strict` stands behind `run`"), (["run", "--trace", "--trace"], b"twice"))
        rows += ((["gen", "--sed=1", "--clients", "1", "--commands", "1"], b"`--sed` is no option of `gen`; did you mean `--seed`?"),)
        rows += ((["gen", "--turns", "1"], b"`--turns` is no option of `gen`; scripts/lab --help has all"),)
        for words, said in rows:
            ran = self.lab(*words)
            self.assertEqual((ran.stdout, ran.returncode), (b"usage\n", 1), words)
            self.assertIn(said, ran.stderr, words)

    def test_twenty_lines_that_do_not_fit_are_shown(self):
        self.program("echo 'line 1: unknown word'; exit 2")
        for lines, more in ((20, False), (21, True)):
            said = self.lab("run", script=b"@setl 4\n" * lines).stderr
            self.assertEqual((said.count(b"| @setl 4\n"), b"there are more" in said), (20, more))

    def test_a_program_that_does_not_start_is_status_70(self):
        self.program("")
        (self.room / "program").write_bytes(b"\0")
        ran = self.lab("run")
        self.assertEqual((ran.stdout, ran.returncode), (b"", 70))

    def test_a_long_run_says_how_long_it_is(self):
        told = []
        with mock.patch.multiple(lab_progress, LONG=0, tell=told.append):
            with subprocess.Popen(["sh", "-c", "sleep 1.5; echo x"], stdout=subprocess.PIPE) as ran:
                lab_progress.until_it_prints(ran)
                self.assertEqual(ran.stdout.read(), b"x\n")
        self.assertRegex(told[0], r"^lab: it plays: 1 s, [0-9]+ MiB in memory")
        self.assertEqual(told[-1], "")

    def test_no_answer_of_an_unproved_program_is_status_70(self):
        self.program("kill -ABRT $$", proved=False)
        self.assertEqual(self.lab("run").returncode, 70)

    def test_a_stopped_program_stops_the_wrapper(self):
        self.program("kill -KILL $$")
        self.assertEqual(self.lab("run").returncode, -9)

    def test_a_signal_to_the_wrapper_stops_the_program_too(self):
        self.program(f"echo $$ >{self.room}/pid; exec sleep 60")
        with subprocess.Popen([self.room / "scripts/lab", "run"], stdin=subprocess.DEVNULL, stderr=subprocess.DEVNULL) as ran:
            pid = self.room / "pid"
            while not (pid.exists() and pid.read_text().endswith("\n")):
                time.sleep(0.02)
            ran.terminate()
            self.assertEqual(ran.wait(20), -signal.SIGTERM)
        self.assertTrue(ends(int(pid.read_text())))

    def test_a_script_that_can_not_be_read_is_status_3(self):
        self.program("cat >/dev/null 2>&1 || exit 3")
        with open(os.devnull, "wb") as none:
            ran = subprocess.run([self.room / "scripts/lab", "run"], stdin=none, stderr=subprocess.PIPE)
        self.assertEqual(ran.returncode, 3)
        self.assertIn(b"lab: the script cannot be read: Bad file descriptor\n", ran.stderr)

    def test_it_says_that_an_output_can_not_be_written(self):
        self.program("echo x")
        said = b"lab: the output cannot be written: No space left on device\n"
        for to, is_said in ((">/dev/full", True), ("| true", False)):
            whole = f"{{ sleep 0.3; {self.room}/scripts/lab run </dev/null; echo $? >{self.room}/status; }} {to}"
            self.assertEqual(said in subprocess.run(whole, shell=True, stderr=subprocess.PIPE).stderr, is_said, to)
            self.assertEqual((self.room / "status").read_text(), "4\n", to)

    def test_other_words_go_to_the_program(self):
        self.program("cat; echo \"usage, $*\"; exit 1")
        ran = self.lab("walk", "x", script=b"this isn't read")
        self.assertEqual((ran.stdout, ran.returncode), (b"usage, walk x\n", 1))

    def test_show(self):
        self.program("printf '3 c1 ok\\n2 c2 ok 00 01\\n'")
        (self.room / "script").write_bytes(b"client c1 a\nc2 read\nc1 ls\n")
        ran = self.lab("show", str(self.room / "script"))
        wanted = "1  client c1 a|2  c2 read|   => ok 00 01   (reply 2)|3  c1 ls|   => ok   (reply 1)|"
        self.assertEqual(ran.stdout.decode().replace("\n", "|"), wanted)

    def test_show_numbers_no_command_without_a_reply(self):
        script = b"client c1 a\nc1 ls\nc1 info d\nc1 ls\n"
        rows = {
            "3 c1 ok\n4 c1 ok\n2 c1 lost\n": (b"lost", b"ok", b"ok"),
            "4 c1 ok\n2 c1 ok\n3 c1 unfinished\n": (b"ok   (reply 2)", b"unfinished", b"ok   (reply 1)"),
            "4 c1 ok\n3 c1 unfinished waiting c2.0\n2 c1 unsent\n": (b"unsent", b"unfinished waiting c2.0", b"ok"),
        }
        for output, wanted in rows.items():
            self.program(f"printf '{output}'")
            found = re.findall(rb"^ +=> (.*)$", self.lab("show", script=script).stdout, re.M)
            self.assertEqual(tuple(found), wanted, output)

    def test_show_asked_wrongly(self):
        self.program("exit 0")
        rows = {
            "--trace --trace": b"`--trace` stands twice",
            "--strict": b"`--strict` is no option of `show`; it is one of `run`",
            "--lokcs x": b"`--lokcs` is no option of `show`; did you mean `--locks`?",
            "-x": b"`-x` is no option of `show`; scripts/lab --help has all",
            "--": b"`--` is no option of `show`",
            "a b": b"`show` takes one script, and here are 2: a, b",
            "--locks a --trace b": b"`show` takes one script, and here are 2: a, b",
        }
        for words, said in rows.items():
            ran = self.lab("show", *words.split())
            self.assertEqual((ran.returncode, ran.stdout), (1, b""), words)
            usage = b"\nlab: usage: scripts/lab show [--trace] [--locks] [FILE]\n"
            self.assertTrue(ran.stderr.startswith(b"lab: " + said) and ran.stderr.endswith(usage), (words, ran.stderr))

    def test_show_of_standard_input(self):
        self.program("printf '2 c1 ok\\n'")
        for words in ((), ("-",), ("/dev/stdin",)):
            ran = self.lab("show", *words, script=b"client c1 a\nc1 ls\n")
            self.assertEqual(ran.stdout, b"1  client c1 a\n2  c1 ls\n   => ok\n", words)

    def test_show_of_a_fault(self):
        self.program("echo 'line 2: missing part'; exit 2")
        (self.room / "script").write_bytes(b"client c1 a\nc1")
        ran = self.lab("show", str(self.room / "script"))
        self.assertEqual(ran.returncode, 2)
        self.assertIn(b"  |    ^\n", ran.stdout)
        self.assertIn(b"missing part: nothing is played\n", ran.stdout)

    def test_show_of_several_faults(self):
        self.program("echo 'line 2: missing part'; exit 2")
        wanted = """\
1  client c1 a
2  c1
  |    ^
  | wanted behind the last word: a command: create, write, fill, discard, read, resize, rename, ls, tell, rm, info, \
du, quiesce, resume, close or snap ..
  => missing part: nothing is played
3  @settel 4
  | ^^^^^^^
  | did you mean `@settle`?
"""
        self.assertEqual(self.lab("show", script=b"client c1 a\nc1\n@settel 4\n").stdout.decode(), wanted)

    def test_show_of_an_empty_file(self):
        self.program("exit 0")
        (self.room / "script").write_bytes(b"")
        ran = self.lab("show", str(self.room / "script"))
        self.assertEqual((ran.stdout, ran.returncode), (b"", 0))

    def test_an_output_that_can_not_be_written_is_status_4(self):
        self.program("exit 0")
        (self.room / "script").write_bytes(b"client c1 a\n")
        for words in ("--help", f"show {self.room}/script"):
            for to in (">&-", ">/dev/full", "2>&- >/dev/full"):
                ran = subprocess.run(f"{self.room}/scripts/lab {words} {to}", shell=True, capture_output=True)
                self.assertEqual(ran.returncode, 4, (words, to))
                self.assertNotIn(b"Traceback", ran.stderr)

    def test_standard_error_may_be_closed(self):
        self.program("echo 2 c1 ok")
        for to in ("2>&-", "2>/dev/full"):
            ran = subprocess.run(f"{self.room}/scripts/lab run {to} </dev/null", shell=True, capture_output=True)
            self.assertEqual((ran.stdout, ran.returncode), (b"2 c1 ok\n", 0), to)

    def test_words_to_come_are_not_built(self):
        self.program("exit 1")
        self.assertIn(b"`threads` isn't built yet", self.lab("threads", "--turns", "1").stderr)

    def test_words_of_gen_have_their_limits(self):
        self.program("exit 1")
        self.assertIn(b"`--clients` from 1 to 16", self.lab("gen", "--seed", "1", "--clients", "17").stderr)

    def test_help_and_version_need_no_program(self):
        for words in ("-h", "--help", "help", "help run", "run --help", "--version", "version", "-V"):
            ran = self.lab(*words.split())
            self.assertEqual((ran.returncode, ran.stderr), (0, b""), words)
            self.assertIn(b"rbd_lab", ran.stdout)

    def test_help_says_what_is_not_built(self):
        self.assertIn(b"Not built yet: the program's word `threads`", self.lab("--help").stdout)

    def test_version_needs_no_git(self):
        tools = self.room / "tools"
        tools.mkdir()
        (tools / "python3").symlink_to(sys.executable)
        for tool in ("sh", "dirname", "readlink"):
            (tools / tool).symlink_to(shutil.which(tool))
        ran = subprocess.run([self.room / "scripts/lab", "--version"], env={"PATH": str(tools)}, capture_output=True)
        self.assertEqual((ran.returncode, ran.stderr), (0, b""))
        self.assertIn(b"git would say", ran.stdout)


if __name__ == "__main__":
    unittest.main()
