#!/usr/bin/env python3
"""Plays rows and examples on the program, and compares what the fold works out with the replies.

  python3 tests/lab/fold_test.py [--program FILE] [NAME..]

Each row and example that is played to its end is: its whole trace has to be what its script leads
to, and what was worked out has to be what the replies say: the bytes of each `read`, the names of
`ls`, the size, snapshots and owner of `info`, the snapshots of `snap ls`, the objects of `du`. Who
is answered `fenced` has to be in the blocklist, and nobody else. Without a line that is said to have
done nothing the trace is the same; and an `@until` that is said to have come to no such operation
does what 4,096 polls do. The traces of tests/lab/traces have
to be what the program prints. They are played on FILE, or on the program that is built without proof. The
last line is 'N passed, M failed': scripts, and what doesn't agree.
"""
import argparse
import subprocess
import sys
from pathlib import Path

sys.dont_write_bytecode = True
sys.path.insert(0, str(Path(__file__).resolve().parent))
from test_drawing import TOP, example
from lab_parts.drawing import fold, idle, reading
from test_lab import module_of

class Compared:
    """The state behind each step, and what it doesn't agree with."""

    def __init__(self, script, output):
        self.lines = {it.number: it for it in reading.script_of(script)}
        self.homes = {it.words[1]: it.words[2] for it in self.lines.values() if it.words[0] == "client"}
        self.replies = {it.line: it.text for it in reading.trace_of(output).replies}
        self.steps = fold.steps(script, output)
        # Of a line: what was read, and the state at its last look at a header, and at a map.
        self.state, self.shown, self.looked, self.mapped = {}, {}, {}, {}

    def faults(self):
        """Yields what doesn't agree."""
        for step in self.steps:
            self.state |= step.changes
            if step.operation:
                yield from self.of_operation(step)
            elif step.kind == "reply":
                yield from self.of_reply(step)

    def of_operation(self, step):
        """Compares an operation with who is fenced, and keeps what a reply may be made of."""
        operation = step.operation
        listed = operation.who in self.state.get(f"{operation.site()}/fenced", ())
        if listed != (operation.answer == "fenced"):
            yield f"{operation.number}: {operation.who} is {'' if listed else 'not '}fenced"
        if operation.word == "dir-find":
            self.shown[step.line] = []
        self.shown.setdefault(step.line, []).extend(step.told.get("shown", ()))
        kept = {"header": self.looked, "bits": self.mapped}.get(operation.answer, {})
        kept[step.line] = (f"{operation.site()}/{operation.part()[1]}", dict(self.state))

    def of_reply(self, step):
        """Compares a reply that is no refusal with what was looked at."""
        got, words = self.replies[step.line], self.lines[step.line].words
        command = " ".join(words[1:3]) if words[1] == "snap" else words[1]
        tell = {"read": self.bytes_of, "ls": self.names_of, "info": self.info_of, "snap ls": self.snaps_of}
        tell["du"] = self.used_of
        if got.startswith("ok") and command in tell:
            wanted = tell[command](step.line, words)
            if got != wanted:
                yield f"line {step.line}: {got[:80]}, and worked out was {wanted[:80]}"

    def bytes_of(self, line, words):
        data = bytearray(int(words[4]))
        for place, some in self.shown[line]:
            data[place : place + len(some)] = some
        return f"ok {data.hex()}"

    def names_of(self, line, words):
        return " ".join(["ok", *sorted(self.state.get(f"{self.homes[words[0]]}/names", {}))])

    def info_of(self, line, words):
        at, state = self.looked[line]
        header, lock = state[f"{at}/header"], state[f"{at}/lock"]
        layout, owner = "/".join(map(str, header["layout"])), lock["owner"] or "none"
        size = f"size {header['size']} objects {header['objects']} layout {layout} snaps {len(header['snaps'])}"
        return f"ok {size} parent none lock {owner} role none"

    def snaps_of(self, line, words):
        at, state = self.looked[line]
        return " ".join(["ok", *(f"{name}:{size}:unprotected" for _, name, size in state[f"{at}/header"]["snaps"])])

    def used_of(self, line, words):
        at, state = self.mapped[line]
        used = sum(1 for key, value in state.items() if key.startswith(f"{at}/map/0/") and value)
        return f"ok used {used} of {self.looked[line][1][f'{at}/header']['objects']}"


def program_asked(given):
    """Returns the program to play on."""
    if given:
        return given
    ran = subprocess.run([TOP / "scripts/program", "unproved"], stdout=subprocess.PIPE, text=True)
    return ran.stdout.rstrip("\n") or sys.exit("fold_test: there is no program")


def traced(program, script):
    """Returns the trace of a script, or None where it isn't played."""
    ran = subprocess.run([program, "run", "--trace"], input=script, capture_output=True)
    return None if ran.returncode else ran.stdout


def with_line(script, number, text):
    """Returns a script with another text as one of its lines."""
    lines = script.split(b"\n")
    lines[number - 1] = text
    return b"\n".join(lines)


def idle_faults(program, script, output):
    """Yields the lines that are said to have done nothing, or not what they wait for, and did."""
    lines = reading.script_of(script)
    words = {it.number: it.words for it in lines}
    for number, (text,) in idle.facts(lines, fold.steps(script, output)).items():
        is_until = words[number][0] == "@until"
        instead = f"@poll {words[number][1]} {words[number][2]} 4096" if is_until else "#"
        if traced(program, with_line(script, number, instead.encode())) != output:
            yield f"line {number}: {text}"
        if text.startswith("did nothing") and traced(program, with_line(script, number, b"#")) != output:
            yield f"line {number}: {text}"


def faults_of(program, script):
    """Returns what doesn't agree where a script is played, or None where it isn't."""
    output = traced(program, script)
    if output is None:
        return None
    try:
        return [*Compared(script, output).faults(), *idle_faults(program, script, output)]
    except fold.NotOfThisScript as error:
        return [str(error)]


def kept_traces(program):
    """Yields the kept traces that aren't what the program prints."""
    for path in sorted((Path(__file__).parent / "traces").glob("*.trace")):
        script, trace = example(path.stem)
        if traced(program, script) != trace:
            yield f"{path.name} isn't what the program prints"


def main():
    parser = argparse.ArgumentParser(usage="python3 tests/lab/fold_test.py [--program FILE] [NAME..]")
    parser.add_argument("--program")
    parser.add_argument("names", nargs="*")
    given = parser.parse_args()
    program = program_asked(given.program)
    rows = module_of(TOP / "scripts/rows")
    files = rows.files_in(TOP / "tests/rows") + list((TOP / "examples").glob("*.script"))
    found = [it for it in rows.rows_of(files)[0] if it.words[:1] == [b"run"] and it.status == 0]
    played, wrong = 0, list(kept_traces(program))
    for row in found:
        if given.names and row.name not in given.names:
            continue
        faults = faults_of(program, row.script)
        played += faults is not None
        wrong += [f"{row.name}: {it}" for it in faults or ()]
    print(*wrong, f"{played} passed, {len(wrong)} failed", sep="\n")
    return 1 if wrong or not played else 0


if __name__ == "__main__":
    sys.exit(main())
