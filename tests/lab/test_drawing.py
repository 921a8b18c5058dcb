#!/usr/bin/env python3
"""Tests of what `scripts/lab draw` and `show --locks` work out and draw, without the program:
`scripts/quick` runs them, in seconds.

What is wanted of the examples was worked out by hand, from docs/RULES.md, the scripts and their
traces. The traces that the tests begin with are in examples/, and else in traces/, beside a script
more, where they are as the program printed them (tests/lab/fold_test.py plays them again).
"""
import random
import re
import shutil
import subprocess
import sys
import tempfile
import unittest
import xml.etree.ElementTree as xml
from functools import cache
from pathlib import Path

sys.dont_write_bytecode = True
TOP = Path(__file__).resolve().parent.parent.parent
sys.path[:0] = [str(TOP / "scripts"), str(TOP / "tests")]
import striping
from lab_parts import marks as lab_marks
from lab_parts.drawing import fold, history, idle, locks, marks, page, picture, reading, records, words

TRACES = Path(__file__).parent / "traces"
EXAMPLES = sorted(it.stem for it in (TOP / "examples").glob("*.script"))
# The scripts beside the examples.
OTHERS = sorted(it.stem for it in TRACES.glob("*.script"))
# Behind an operation: what is so. `by` is the line that made it happen.
WANTED = {
    "first": """\
a1 | names | disk 1
a3 | size | 8192
a6 | by | end
a11 | owner | c1.0
a14 | object 0 | 0: 68656c6c6f
a14 | state 0 | 1
a19 | names | disk 1, other 2
a21 | size of 2 | 4096
a25 | object 0 | 0: 68656c6c6f
""",
    "pieces": """\
a10 | object 0 | 4094: 6865
a10 | object 1 | -
a11 | state 1 | 1
a12 | object 1 | 0: 6c6c6f
a30 | object 0 | 4094: 6841
a32 | object 1 | 0: 426c6f
a42 | object 2 | -
a47 | object 2 | 4094: 0102
a53 | object 2 | 4094: 0102
""",
    "refusals": """\
a2 | names | -
a3 | names | disk 1
a12 | object 0 | 0: aa
a13 | names | disk 1
a29 | object 0 | 0: aa
a29 | object 1 | -
a29 | size | 8192
""",
    "snapshots": """\
a10 | object 0 | 0: 6f6e65
a16 | snaps | monday 1 8192
a15 | state 0 at 1 | 1
a16 | object 0 at 1 | -
a21 | object 0 | 0: 74776f
a21 | object 0 at 1 | 0: 6f6e65
a34 | object 0 | 0: 74776f, 4094: 6865
a36 | object 1 | 0: 6c6c6f
a36 | object 1 at 1 | -
a46 | state 1 at 1 | -
a46 | state 1 at 2 | 1
a47 | snaps | monday 1 8192, tuesday 2 8192
a52 | object 0 | 0: 736978, 4094: 6865
a52 | object 0 at 1 | 0: 6f6e65
a52 | object 0 at 2 | 0: 74776f, 4094: 6865
a68 | snaps | tuesday 2 8192
a69 | state 0 at 1 | -
a69 | state 0 at 2 | 1
a85 | snaps | tuesday 2 8192, monday 3 8192
a90 | object 0 at 1 | 0: 6f6e65
a90 | object 0 at 3 | -
""",
    "changes": """\
a3 | size | 10000
a6 | state 0 | -
a13 | object 0 | 0: 4096 × aa
a15 | object 1 | 0: 4096 × aa
a17 | object 2 | 0: 1808 × aa
a26 | snaps | full 1 10000
a30 | object 0 | 0: 4000 × aa
a30 | object 0 at 1 | 0: 4096 × aa
a31 | state 1 | 2
a32 | object 1 | -
a32 | object 1 at 1 | 0: 4096 × aa
a33 | state 1 | -
a33 | state 1 at 1 | 1
a57 | object 0 | 0: 4096 × aa
a59 | state 1 | 1
a60 | object 1 | 0: 4096 × aa
a63 | object 2 at 1 | 0: 1808 × aa
a75 | object 1 | 0: 904 × aa
a76 | state 2 | 2
a77 | object 2 | -
a78 | state 2 | -
a79 | size | 5000
a87 | size | 10000
a87 | object 1 | 0: 904 × aa
a106 | object 0 | -
a111 | size | 0
a116 | object 1 at 1 | 0: 4096 × aa
a116 | size | 0
""",
    "in-use": """\
a10 | by | 8
a16 | snaps | monday 1 8192
a20 | by | 12
a22 | snaps | -
a23 | state 0 at 1 | -
a26 | watched | c1.0
a27 | names | disc 1
a32 | object 0 | 0: 1122
a32 | object 0 at 1 | -
a36 | owner | c1.0
a37 | owner | -
a37 | watched | c1.0
a39 | watched | -
a43 | watched | c2.0
a44 | owner | c2.0
a48 | names | -
a49 | size | -
a49 | owner | -
a49 | watched | -
a49 | object 0 | 0: 1122
a50 | object 0 | -
a50 | state 0 | 1
a51 | state 0 | -
a54 | names | disc 2
a60 | size of 2 | 8192
a60 | object 0 of 2 | -
""",
    "two-clients": """\
a1 | by | 8
a3 | by | 8
a4 | by | 13
a4 | slot | 1
a6 | watched | c1.0
a6 | owner | -
a7 | owner | c1.0
a9 | by | 13
a9 | state 0 | 1
a9 | object 0 | -
a10 | by | 14
a10 | object 0 | 4094: 1122
a11 | by | 16
a15 | by | 16
a15 | object 1 | -
a16 | by | end
a16 | state 1 | 1
a18 | object 1 | 0: 3344
a22 | owner | c1.0
a22 | by | end
""",
    "handover": """\
a7 | owner | c1.0
a10 | object 0 | 0: 11
a11 | by | 10
a15 | by | 10
a15 | watched | c1.0 c2.0
a15 | asked | -
a16 | by | 11
a16 | asked | 1
a17 | by | 14
a17 | slot | 0
a17 | owner | -
a17 | asked | -
a18 | by | 14
a19 | owner | c2.0
a19 | by | 16
a22 | object 0 | 0: 1122
a22 | by | 16
a23 | by | end
a26 | owner | c2.0
""",
    "lost-notice": """\
a14 | owner | c1.0
a15 | by | 9
a16 | by | 10
a16 | asked | 1
a17 | by | 15
a18 | by | 15
a19 | by | 16
a19 | asked | 1 2
a20 | by | 20
a20 | owner | -
a21 | by | 20
a21 | slot | 0
a22 | by | 21
a22 | owner | c2.0
a25 | object 0 | 0: 1122
a25 | by | 21
a26 | by | end
""",
    "stopped-owner": """\
a6 | owner | -
a7 | owner | c1.0
a10 | by | 8
a10 | object 0 | 0: 11
a11 | by | 11
a14 | by | 11
a14 | watched | c1.0
a15 | by | 14
a15 | watched | -
a15 | owner | c1.0
a16 | by | 16
a18 | watched | c2.0
a20 | fenced | -
a21 | fenced | c1.0
a21 | owner | c1.0
a22 | owner | -
a23 | owner | c2.0
a26 | by | 16
a26 | object 0 | 0: 1133
a27 | by | 18
a27 | slot | 1
a27 | object 0 | 0: 1133
a28 | by | 22
a30 | watched | c2.0 c1.1
a33 | asked | 1
a34 | owner | -
a34 | slot | 0
a35 | owner | c1.1
a36 | slot | 0
a39 | object 0 | 0: 113344
a40 | by | end
a43 | owner | c1.1
a43 | fenced | c1.0
""",
    # The `@until` ends before the notify, and the watch expires before that: so nobody hears it, and
    # the owner is taken for dead.
    "until-and-expire": """\
a15 | by | 8
a15 | watched | c1.0 c2.0
a16 | by | 9
a16 | watched | c2.0
a16 | owner | c1.0
a17 | by | 10
a17 | asked | -
a20 | by | 10
a20 | fenced | c1.0
a21 | by | 11
a21 | owner | -
a22 | owner | c2.0
a25 | object 0 | 0: 1122
a26 | by | end
""",
    "idle": """\
a16 | by | 15
a16 | asked | 1
a17 | by | 17
a17 | slot | 0
a17 | owner | -
a18 | owner | c2.0
a19 | slot | 0
a22 | object 0 | 0: 1122
a23 | by | 23
a26 | by | 23
a26 | watched | c1.0 c2.0
a27 | by | 26
a27 | watched | c2.0
a31 | by | 32
a32 | by | 32
a33 | by | 46
a33 | slot | 1
a33 | object 0 | 0: 1122
""",
}
# Each notice: its number, from whom, to whom, what it says, the operation that posted it, and behind
# which operation it was heard or lost.
NOTICES = {
    "handover": [(1, "c2.0", "c1.0", "ask", "a16", "heard a16"), (2, "c1.0", "c2.0", "released", "a18", "heard a23")],
    "lost-notice": [
        (1, "c2.0", "c1.0", "ask", "a16", "lose a16"),
        (2, "c2.0", "c1.0", "ask", "a19", "heard a19, heard a19"),
        (3, "c1.0", "c2.0", "released", "a21", "heard a26"),
    ],
    "stopped-owner": [
        (1, "c1.1", "c2.0", "ask", "a33", "heard a33"),
        (2, "c2.0", "c1.1", "released", "a36", "heard a36"),
    ],
    "idle": [
        (1, "c2.0", "c1.0", "ask", "a16", "heard a16, lose a22"),
        (2, "c1.0", "c2.0", "released", "a19", "heard a19"),
    ],
}
# The lines of traces/idle.script that did nothing, or didn't come to what they wait for.
IDLE = """\
9 did nothing: nobody is in slot 2 of c2; line 7 is in slot 1
10 did nothing: c1 has no lock to let go
11 did nothing: c1 was never stopped
12 did nothing: c1 runs
13 did nothing: notice 1 isn't posted yet
18 did nothing: c1.0 heard notice 1 before
19 did nothing: no notice ever has the number 3; the last one is notice 2
20 did nothing: it plays no round
23 came to no data-write: line 22 came to its reply without one
24 did nothing: image 1 of site a has no object 1
25 did nothing: site a has no image 2
27 did nothing: c1 doesn't watch image 1 of site a; watched by c2.0
33 did nothing: line 31, which is in slot 1 of c2, waits
34 did nothing, and came to no data-write: line 31, which is in slot 1 of c2, waits
36 did nothing: c2 is stopped already
37 did nothing: c2 is stopped
38 did nothing, and came to no data-write: c2 is stopped
39 did nothing: notice 2 is for c2.0, which is stopped
41 did nothing: what was in slot 1 when c2.0 stopped wanted no operation
42 did nothing: nobody was in slot 2 when c2.0 stopped; line 31 was in slot 1
47 did nothing: what c1.0 had sent from slot 1 arrived before, and does so once
"""
LOCKS = {
    7: ["disk: c1.0 has the lock; watched by c1.0"],
    10: ["disk: c1.0 has the lock; watched by c1.0 and c2.0"],
    11: [
        "notice 1 to c1.0: c2.0 wants the lock of disk",
        "disk: c1.0 has the lock, which is asked for by c2.0 (notice 1); watched by c1.0 and c2.0",
    ],
    13: ["c1.0 hears notice 1"],
    14: ["notice 2 to c2.0: the lock of disk is free", "disk: the lock is free; watched by c1.0 and c2.0"],
    16: ["disk: c2.0 has the lock; watched by c1.0 and c2.0"],
    fold.END: ["c2.0 hears notice 2"],
}
# How operations are answered that aren't answered `done`.
ANSWERS = {"dir-add": "id", "dir-find": "id", "header-get": "header", "watchers-get": "instances"}
# What `show --trace` prints of line 14 of examples/handover.script.
TRACED = """\
14  @poll c1 0 2
    -- h 22 look house:c1.0 a17    o a17 c1.0 lock-drop rbd_header.1 done
    -- h 23 look house:c1.0 a18    o a18 c1.0 notify rbd_header.1 done
"""


@cache
def example(name):
    """Returns a script, which is an example or stands in traces/, and its trace."""
    found = ((folder / f"{name}.{kind}" for folder in (TOP / "examples", TRACES)) for kind in ("script", "trace"))
    return tuple(next(it for it in paths if it.exists()).read_bytes() for paths in found)


@cache
def steps_of(name):
    """Returns the steps of an example."""
    return fold.steps(*example(name))


def drawing(name, of):
    """Returns an example's picture, or its page."""
    return of(reading.script_of(example(name)[0]), steps_of(name), f"{name}.script")


def behind(steps):
    """Returns the state behind each operation, with the operation's step."""
    state, found = {}, {}
    for step in steps:
        state = state | step.changes
        if step.operation:
            found[step.operation.number] = (step, state)
    return found


def fact(what, step, state):
    """Returns a fact of a state, in the words of WANTED."""
    what, _, image = what.partition(" of ")
    what, _, snap = what.partition(" at ")
    at = f"a/{image or 1}"
    lock, header = state.get(f"{at}/lock") or {}, state.get(f"{at}/header") or {}
    kind, _, number = what.partition(" ")
    there = state.get(f"{at}/data/{number}") or {"head": None, "kept": {}}
    return {
        "by": lambda: step.by or "end",
        "slot": lambda: step.slot,
        "owner": lambda: lock.get("owner"),
        "asked": lambda: " ".join(map(str, lock.get("asked", []))),
        "watched": lambda: " ".join(lock.get("watchers", [])),
        "fenced": lambda: " ".join(state.get("a/fenced", [])),
        "names": lambda: ", ".join(f"{name} {id}" for name, id in state.get("a/names", {}).items()),
        "size": lambda: header.get("size"),
        "snaps": lambda: ", ".join(f"{name} {id} {size}" for id, name, size in header.get("snaps", [])),
        "state": lambda: state.get(f"{at}/map/{snap or 0}/{number}"),
        "object": lambda: there["kept"].get(int(snap)) if snap else there["head"],
    }[kind]()


class Fold(unittest.TestCase):
    def test_each_example_is_there(self):
        self.assertEqual(sorted(WANTED), sorted(EXAMPLES + OTHERS))

    def test_states(self):
        for name, rows in WANTED.items():
            found = behind(steps_of(name))
            for row in rows.splitlines():
                number, what, wanted = row.split(" | ")
                got = fact(what, *found[number])
                self.assertEqual("-" if got in (None, "") else str(got), wanted, f"{name}: {row}")

    def test_notices(self):
        for name in WANTED:
            posted, came, last = {}, {}, None
            steps = steps_of(name)
            for step in steps:
                last = step.operation.number if step.operation else last
                for number in step.told.get("posted", []):
                    posted[number] = last
                if step.kind in ("heard", "lose"):
                    came.setdefault(step.told["notice"], []).append(f"{step.kind} {last}")
            state = {key: value for step in steps for key, value in step.changes.items()}
            got = []
            for number, operation in posted.items():
                it = state[f"notice/{number}"]
                got.append((number, it["from"], it["to"], it["kind"], operation, ", ".join(came.get(number, []))))
            self.assertEqual(got, NOTICES.get(name, []), name)

    def test_what_is_read_is_what_is_replied(self):
        for name in WANTED:
            trace, shown = example(name)[1], {}
            for step in steps_of(name):
                if "shown" in step.told:
                    shown.setdefault(step.line, []).extend(step.told["shown"])
            for reply in reading.trace_of(trace).replies:
                if reply.line in shown:
                    got = b"".join(data for _, data in sorted(shown[reply.line])).hex()
                    self.assertEqual(reply.text, f"ok {got}", f"{name}, line {reply.line}")

    def test_each_line_of_the_trace_is_one_step(self):
        for name in WANTED:
            trace, steps = reading.trace_of(example(name)[1]), steps_of(name)
            places = [it.place for it in steps if it.place]
            self.assertEqual(places, list(range(1, len(trace.history) + 1)), name)
            logged = [it.operation.number for it in steps if it.operation]
            self.assertEqual(logged, [it.number for site in "ab" for it in trace.logs[site]], name)

    def test_the_trace_of_another_script(self):
        one, other = example("handover"), example("lost-notice")
        self.assertRaises(fold.NotOfThisScript, fold.steps, one[0], other[1])
        self.assertRaises(fold.NotOfThisScript, fold.steps, other[0], one[1])

    def test_a_session_that_nobody_polls_keeps_its_lock(self):
        # The notice is posted and heard, and no slot 0 was polled: so it is asked, and has it still.
        found = behind(steps_of("handover"))
        self.assertEqual(found["a16"][1]["a/1/lock"], {"owner": "c1.0", "asked": [1], "watchers": ["c1.0", "c2.0"]})


    def test_each_command_that_is_built_has_its_plan(self):
        built = [it for it in lab_marks.COMMANDS if it not in lab_marks.UNBUILT]
        built += [f"snap {it}" for it in lab_marks.BEHIND_SNAP if it not in lab_marks.UNBUILT]
        self.assertEqual(sorted(fold.PLANS), sorted(built))


class Idle(unittest.TestCase):
    def facts(self, name):
        """Returns what is told of a script's lines, as IDLE has it."""
        found = idle.facts(reading.script_of(example(name)[0]), steps_of(name))
        return "".join(f"{number} {text}\n" for number, texts in found.items() for text in texts)

    def test_lines_that_did_nothing(self):
        self.assertEqual(self.facts("idle"), IDLE)

    def test_lines_that_did_something(self):
        for name in [*EXAMPLES, "until-and-expire"]:
            # (line 13 polls who was asked for no lock, since the notice is lost: the example is about that)
            wanted = "13 did nothing: c1 has no lock to let go\n" if name == "lost-notice" else ""
            self.assertEqual(self.facts(name), wanted, name)

    def test_an_until_whose_request_may_want_its_word_is_not_told(self):
        # Nobody polls the write any more, so no trace says that it wants its `data-write`.
        script = b"client c1 a\nc1 create d 4096\n@settle 9\nc1 write d 0 11\n@until c1 1 data-write\n@stop c1\n"
        log = "dir-add map-resize header-create dir-find header-get watch lock-take header-get map-set".split()
        objects = {"dir": "rbd_directory", "map": "rbd_object_map.1"}
        logged = [f"{word} {objects.get(word[:3], 'rbd_header.1')} done" for word in log]
        looks = [f"look {2 if place <= 3 else 4} a{place}" for place in range(1, 10)]
        history = ["start 2 c1.0", *looks[:3], "reply 2", "start 4 c1.0", *looks[3:], "stop c1", "lost 4"]
        trace = [f"h {place} {it}" for place, it in enumerate(history, 1)]
        trace += [f"o a{place} c1.0 {it}" for place, it in enumerate(logged, 1)]
        trace = "\n".join([*trace, "2 c1 ok", "4 c1 lost"]).encode()
        rows = {b"data-write": {}, b"data-zero": {5: ["came to no data-zero: line 4 is still in slot 1 of c1"]}}
        for word, wanted in rows.items():
            asked = script.replace(b"data-write", word)
            self.assertEqual(idle.facts(reading.script_of(asked), fold.steps(asked, trace)), wanted)

    def test_an_until_that_asks_for_a_lock_names_its_owner(self):
        script = b"client c1 a\nclient c2 a\nc1 create d 4096\n@settle 9\nc1 write d 0 11\n@settle 9\nc2 write d 1 22\n"
        words = {
            (3, "c1.0"): "dir-add map-resize header-create",
            (5, "c1.0"): "dir-find header-get watch lock-take header-get map-set data-write",
            (7, "c2.0"): "dir-find header-get watch lock-take watchers-get notify lock-take",
        }
        objects = {"dir": "rbd_directory", "map": "rbd_object_map.1", "dat": "rbd_data.1.0000000000000000"}
        history, log = [], []
        for (line, who), asked in words.items():
            history.append(f"start {line} {who}")
            for word in asked.split():
                answer = "held" if (word, who) == ("lock-take", "c2.0") else ANSWERS.get(word, "done")
                log.append(f"o a{len(log) + 1} {who} {word} {objects.get(word[:3], 'rbd_header.1')} {answer}")
                history.append(f"look {line} a{len(log)}")
            history += [f"reply {line}"] if who == "c1.0" else []
        log += ["3 c1 ok", "5 c1 ok", "7 c2 unfinished waiting c1.0"]
        stopped = [part for it in history for part in ([it, "stop c1"] if it == "start 7 c2.0" else [it])]
        still = "came to no data-write: line 7 is still in slot 1 of c2, and asks for a lock that c1.0 has"
        rows = [(b"", history, f"{still}, which hears so by an `@deliver` or in a round")]
        rows += [(b"@until c2 1 notify\n@poll c2 1\n@deliver 1\n", history, still)]
        rows += [(b"@stop c1\n", stopped, still), (b"@stop c1\n@restart c1\n", stopped, still)]
        for lines, happened, wanted in rows:
            asked = script + lines + b"@until c2 1 data-write\n"
            trace = "\n".join([*(f"h {place} {it}" for place, it in enumerate(happened, 1)), *log]).encode()
            found = idle.facts(reading.script_of(asked), fold.steps(asked, trace))
            self.assertEqual([*found.values()], [[wanted]], lines)


class Records(unittest.TestCase):
    def test_runs_are_bytes(self):
        given = random.Random(50)
        for _ in range(300):
            runs, plain = (), bytearray(64)
            for _ in range(8):
                at, length = given.randrange(56), given.randrange(1, 8)
                data = bytes(given.randrange(1, 256) for _ in range(length))
                if given.random() < 0.6:
                    runs, plain[at : at + length] = records.written(runs, at, data), data
                else:
                    runs, plain[at : at + length] = records.without(runs, at, length), bytes(length)
                self.assertEqual(records.seen(runs, 0, 64), bytes(plain))
                ends = [0, *(begin + len(data) for begin, data in runs)]
                self.assertTrue(all(begin > end or not end for end, (begin, _) in zip(ends, runs)))

    def test_an_object_keeps_what_snapshots_want(self):
        it = records.DataObject()
        it.change((1, [1]), ((0, b"\1"),))
        self.assertEqual((it.view(1), it.view(None)), (None, ((0, b"\1"),)))
        it.change((3, [3, 2]), ((0, b"\2"),))
        self.assertEqual((it.view(2), it.view(3)), (((0, b"\1"),), ((0, b"\1"),)))
        self.assertEqual(it.view(4), ((0, b"\2"),))
        it.trim([3])
        self.assertEqual((it.view(2), it.view(3)), (None, ((0, b"\1"),)))

    def test_pieces_are_those_of_the_formulas(self):
        given = random.Random(50)
        for _ in range(200):
            layout = (512 << given.randrange(4), 512, given.randrange(1, 5))
            at, length = given.randrange(30_000), given.randrange(1, 9_000)
            got = [(number, it) for number, parts in records.Layout(*layout).pieces(at, at + length) for it in parts]
            wanted = {}
            for number, offset, place, size in striping.parts(striping.Layout(*layout), at, length):
                wanted |= {(number, offset + it, place + it): 1 for it in range(size)}
            most = max(striping.place(striping.Layout(*layout), it)[0] for it in range(0, at + length, 512))
            self.assertEqual(records.Layout(*layout).objects(at + length), most + 1)
            bytes_got = {(number, o + it, p + it): 1 for number, (o, p, size) in got for it in range(size)}
            self.assertEqual(bytes_got, wanted)

    def test_bytes_in_short(self):
        self.assertEqual(records.short(None), None)
        self.assertEqual(records.short(()), "")
        self.assertEqual(records.short(((3, b"\xaa" * 17),)), "3: 17 × aa")
        self.assertEqual(records.short_bytes(bytes(range(17))), bytes(range(16)).hex() + ".. (17 bytes)")


class Drawing(unittest.TestCase):
    def test_a_mark_for_each_operation(self):
        for name in EXAMPLES:
            _, trace = example(name)
            whole = xml.fromstring(drawing(name, picture.Picture).whole())
            drawn = [it for it in whole.iter() if it.get("class", "").startswith("mark ")]
            looks = {marks.look_of(it) for it in steps_of(name) if it.operation}
            self.assertEqual(len(drawn) - len(looks), trace.count(b"\no "), name)

    def test_looks(self):
        steps = {it.operation.number: it for it in steps_of("stopped-owner") if it.operation}
        looks = "a1 change, a5 look, a7 record, a10 change, a19 refused, a21 fence, a27 fenced, a33 notice"
        for row in looks.split(", "):
            number, look = row.split(" ")
            self.assertEqual(marks.look_of(steps[number]), look, row)
        causes = [it.cause for it in steps.values() if it.cause != "command"]
        self.assertEqual(causes, ["store", "late", "house", "house"])

    def test_the_legend_has_what_is_drawn(self):
        for name, wanted in (("two-clients", ["a look that finds nothing"]), ("stopped-owner", ["fences an instance"])):
            whole = drawing(name, picture.Picture).whole()
            for said in ("a look that finds nothing", "fences an instance"):
                self.assertEqual(f">{said}<" in whole, said in wanted, f"{name}: {said}")

    def test_bands_say_who_has_the_lock(self):
        whole = drawing("stopped-owner", picture.Picture)
        spans = [who for who, _, _ in whole.spans("a/1/lock", lambda it: it and (it["owner"] or "free"))]
        self.assertEqual(spans, ["free", "c1.0", "free", "c2.0", "free", "c1.1"])

    def test_the_pictures_of_the_documents_are_those_of_today(self):
        for name in EXAMPLES:
            kept = (TOP / f"docs/pictures/{name}.svg").read_text()
            self.assertTrue(kept == drawing(name, picture.Picture).whole(), f"draw docs/pictures/{name}.svg again")

    def test_a_page_asks_for_nothing(self):
        whole = drawing("stopped-owner", page.Page).whole()
        for word in ("http:", "https:", "src=", "@import", "url("):
            self.assertNotIn(word, whole.replace("http://www.w3.org/2000/svg", ""), word)

    def test_names_may_not_end_the_script_of_a_page(self):
        self.assertNotIn("</", drawing("first", page.Page).data())

    def test_the_trace_by_lines_has_each_of_its_lines_once(self):
        for name in [*EXAMPLES, *OTHERS]:
            trace = example(name)[1].decode()
            facts = history.facts(trace.encode(), steps_of(name))
            # (the rounds at the end, which are line 0, come last)
            texts = [it for line in sorted(facts, key=lambda it: it or float("inf")) for it in facts[line]]
            found = [it for text in texts for it in re.split(r" +(?=o )", text)]
            for first in "ho":
                wanted = [it for it in trace.splitlines() if it.startswith(f"{first} ")]
                got = [it for it in found if it.startswith(f"{first} ")]
                # (a site's log is behind that of another one)
                self.assertEqual(sorted(got, key=lambda it: it[2] if first == "o" else ""), wanted, name)

    def test_locks(self):
        facts = locks.facts(reading.script_of(example("handover")[0]), steps_of("handover"))
        self.assertEqual({line: texts for line, texts in facts.items() if texts}, LOCKS)

    def test_a_notice_that_was_heard_is_not_lost_any_more(self):
        facts = locks.facts(reading.script_of(example("idle")[0]), steps_of("idle"))
        self.assertEqual(facts[18], [])

    def test_what_several_notices_tell_stands_once(self):
        told = [("posted", "{} to c1.0: x", 1), ("posted", "{} to c3.0: x", 2), ("posted", "{} to c1.0: x", 3)]
        told += [("heard", "c1.0 hears {}", 1), ("fenced", "c1.0 is fenced", 0)]
        told += [("posted", "{} to c1.0: x", number) for number in range(4, 9)]
        wanted = ["notices 1 and 3 to c1.0: x", "notice 2 to c3.0: x", "c1.0 hears notice 1", "c1.0 is fenced"]
        wanted += ["notices 4, .. and 8 to c1.0: x"]
        self.assertEqual([*locks.in_words(locks.Told(*it) for it in told)], wanted)

    def test_who_asked_for_a_lock_is_named_once(self):
        speaker = words.Speaker([])
        senders = {1: "c2.0", 2: "c3.0", 3: "c2.0", 5: "c2.0", 6: "c2.0"}
        speaker.notices = {number: {"from": who, "lost": number in (2, 5)} for number, who in senders.items()}
        rows = {
            (1,): "c2.0 (notice 1)",
            (2,): "c3.0 (notice 2, lost)",
            (1, 2, 3): "c2.0 (notices 1 and 3) and c3.0 (notice 2, lost)",
            (1, 3, 5): "c2.0 (notices 1, 3 and 5; lost: 5)",
            (1, 3, 5, 6): "c2.0 (notices 1, .. and 6; lost: 5)",
        }
        for numbers, said in rows.items():
            text = locks.of_lock("a/1/lock", {"owner": "c1.0", "asked": numbers, "watchers": []}, speaker)
            wanted = f"image 1: c1.0 has the lock, which is asked for by {said}; watched by nobody"
            self.assertEqual(text, wanted)


class Wrapper(unittest.TestCase):
    """scripts/lab over a program of `sh`, in a copy of its files."""

    def setUp(self):
        self.room = Path(tempfile.mkdtemp())
        self.addCleanup(shutil.rmtree, self.room)
        (self.room / "scripts").mkdir()
        shutil.copy(TOP / "scripts/lab", self.room / "scripts/lab")
        shutil.copytree(TOP / "scripts/lab_parts", self.room / "scripts/lab_parts")
        self.script, trace = example("handover")
        (self.room / "trace").write_bytes(trace)
        (self.room / "script").write_bytes(self.script)
        self.program(f"cat >/dev/null; [ \"$*\" = 'run --trace' ] && cat {self.room}/trace")

    def program(self, text):
        """Has this program of `sh` stand for the proved one."""
        for path, said in (("program", text), ("scripts/program", f"echo {self.room}/program")):
            (self.room / path).write_text(f"#!/bin/sh\n{said}\n")
            (self.room / path).chmod(0o755)

    def lab(self, *words, script=b""):
        """Runs scripts/lab."""
        how = {"input": script, "capture_output": True, "timeout": 60, "cwd": self.room}
        return subprocess.run([self.room / "scripts/lab", *words], **how)

    def test_draw_prints_a_page(self):
        ran = self.lab("draw", "script")
        self.assertEqual((ran.returncode, ran.stdout[:15]), (0, b"<!DOCTYPE html>"))
        given = self.lab("draw", script=self.script)
        self.assertEqual(ran.stdout, given.stdout.replace(b">a script<", b">script<"))

    def test_draw_makes_a_file(self):
        for name, first in (("out.html", b"<!DOCTYPE html>"), ("out.svg", b"<svg ")):
            ran = self.lab("draw", *(("script", "-o", name) if name == "out.svg" else ("-o", name, "script")))
            self.assertEqual((ran.returncode, ran.stdout), (0, b""))
            self.assertTrue((self.room / name).read_bytes().startswith(first))

    def test_draw_into_no_folder(self):
        ran = self.lab("draw", "script", "-o", "none/out.html")
        self.assertEqual(ran.returncode, 4)
        self.assertIn(b"none/out.html cannot be written", ran.stderr)

    def test_draw_of_a_fault(self):
        self.program("echo 'line 2: missing part'; exit 2")
        ran = self.lab("draw", script=b"client c1 a\nc1\n")
        self.assertEqual((ran.returncode, ran.stdout), (2, b""))
        self.assertIn(b"lab: 2 | c1\n", ran.stderr)

    def test_draw_of_another_trace(self):
        ran = self.lab("draw", script=b"client c1 a\nc1 ls\n")
        self.assertEqual((ran.returncode, ran.stdout), (70, b""))
        self.assertIn(b"the trace is not understood", ran.stderr)

    def test_draw_asked_wrongly(self):
        rows = {
            "a b": b"`draw` takes one script, and here are 2: a, b",
            "-o": b"behind `-o` stands one file, and it stands once",
            "-o a.svg -o b.svg": b"behind `-o` stands one file, and it stands once",
            "script --out y": b"`--out` is no option of `draw`",
            "--locks": b"`--locks` is no option of `draw`; it is one of `show`",
            "script -o late.PNG": b"late.PNG: a picture is an .svg",
        }
        for words, said in rows.items():
            ran = self.lab("draw", *words.split())
            self.assertEqual((ran.returncode, ran.stdout), (1, b""), words)
            self.assertIn(said, ran.stderr)
            self.assertTrue(ran.stderr.endswith(b"lab: usage: scripts/lab draw [FILE] [-o OUT]\n"), words)
        self.assertFalse((self.room / "late.PNG").exists())

    def test_show_with_locks(self):
        ran = self.lab("show", "--locks", "script")
        self.assertEqual(ran.returncode, 0)
        said = ran.stdout.decode()
        self.assertIn("13  @deliver 1\n    -- c1.0 hears notice 1\n", said)
        self.assertIn("18  c1 read disk 0 2\n    => ok 1122\n", said)
        self.assertTrue(said.endswith("    (the rounds at the end)\n    -- c2.0 hears notice 2\n"))

    def test_show_with_the_trace(self):
        for words in ("--trace script", "script --trace", "--trace --locks script"):
            ran = self.lab("show", *words.split())
            self.assertEqual(ran.returncode, 0)
            said = ran.stdout.decode()
            self.assertIn(" 9  c2 write disk 1 22\n    => ok\n    -- h 15 start 9 c2.0\n", said)
            self.assertIn(TRACED, said)
            self.assertEqual("    -- c1.0 hears notice 1\n" in said, "--locks" in words)

    def played_idly(self):
        """Has the program print the run of traces/idle.script, and returns the script. Each of its runs
        leaves a line in the file `runs`."""
        script, trace = example("idle")
        (self.room / "trace").write_bytes(trace)
        (self.room / "output").write_bytes(re.sub(rb"(?m)^[ho] .*\n", b"", trace))
        text = f"cat >/dev/null; echo $* >>{self.room}/runs; [ \"$*\" = 'run --trace' ] && exec cat {self.room}/trace"
        self.program(f"{text}; exec cat {self.room}/output")
        return script

    def test_run_says_which_lines_did_nothing(self):
        script = self.played_idly()
        ran = self.lab("run", script=script)
        self.assertEqual((ran.returncode, ran.stdout), (0, (self.room / "output").read_bytes()))
        said = re.findall(r"^lab: line (\d+: .*)", ran.stderr.decode(), re.M)
        self.assertEqual([it.replace(":", "", 1) for it in said], IDLE.splitlines()[:20])

    def test_show_says_which_lines_did_nothing(self):
        script = self.played_idly()
        for words in (("show",), ("show", "--locks")):
            ran = self.lab(*words, script=script)
            self.assertEqual(ran.returncode, 0)
            found = re.findall(r"^ *(\d+)  @.*\n    -- (.*)", ran.stdout.decode(), re.M)
            told = [f"{number} {text}" for number, text in found if "did nothing" in text or "came to no" in text]
            self.assertEqual(told, IDLE.splitlines())
            self.assertNotIn(b"did nothing", ran.stderr)

    def test_a_script_is_played_once_where_nothing_can_be_idle(self):
        self.played_idly()
        for script, runs in ((b"client c1 a\n@settle 1000\n#@poll c1 1\n", 1), (b"client c1 a\n @settle 0\n", 2)):
            self.lab("run", script=script)
            self.assertEqual((self.room / "runs").read_text().count("\n"), runs)
            (self.room / "runs").unlink()

    def test_what_is_long_is_not_looked_at(self):
        script = self.played_idly()
        main = self.room / "scripts/lab_parts/main.py"
        text = main.read_text()
        for said, runs in (("SHORT, MOST_TRACE = 0, 1 << 20", 1), ("SHORT, MOST_TRACE = 2, 1000", 2)):
            main.write_text(text.replace("SHORT, MOST_TRACE = 2, 1 << 20", said))
            ran = self.lab("run", script=script)
            self.assertEqual((ran.returncode, ran.stdout), (0, (self.room / "output").read_bytes()), said)
            self.assertNotIn(b"did nothing", ran.stderr)
            self.assertEqual((self.room / "runs").read_text().count("\n"), runs, said)
            (self.room / "runs").unlink()

    def test_a_trace_that_is_not_understood_tells_of_no_line(self):
        self.played_idly()
        for words in (("run",), ("show",)):
            ran = self.lab(*words, script=b"client c1 a\nclient c2 a\n@poll c1 1\nc1 ls\n")
            self.assertEqual(ran.returncode, 0)
            self.assertNotIn(b"nobody is in slot", ran.stdout + ran.stderr)


if __name__ == "__main__":
    unittest.main()
