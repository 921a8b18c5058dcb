#!/usr/bin/env python3
"""Works out where the bytes of striped images lie, by the formulas of Ceph's striping alone.

  tests/striping.py                             compares the tables of the tests of `rbd_layout`
                                                (tests/crates/record_tests/src/objects/striped.rt),
                                                and prints what differs; its status is 1 where any
                                                does
  tests/striping.py OBJECT UNIT COUNT AT        prints the place of a byte: object, offset
  tests/striping.py OBJECT UNIT COUNT AT LEN    prints the parts of an extent: object, offset there,
                                                byte of the image, length

It shares nothing with the crates, so that the tables say what striping is, and not what the code
does.
"""
import ast
import re
import sys
from pathlib import Path
from typing import NamedTuple

TOP = Path(__file__).resolve().parent.parent
TABLES = "tests/crates/record_tests/src/objects/striped.rt"
USES = "tests/crates/record_tests/src/objects/layout.rt"
ARRAY = re.compile(r"^pub const (\w+)_(PLACES|EXTENTS): [^=]*= (\[.*?^\]);$", re.M | re.S)
USED = re.compile(r"(?:places|pieces)_are\(&rt, &layout\(([^)]*)\), &(\w+)_(?:PLACES|EXTENTS)\)")


class Layout(NamedTuple):
    object: int
    unit: int
    count: int


def place(layout, at):
    """Returns the object that has a byte of the image, and its offset there.

    Units go round the objects of a set, a unit to each; a set is full when each object is.
    """
    unit, inside = divmod(at, layout.unit)
    stripe, of_set = divmod(unit, layout.count)
    object_set, row = divmod(stripe, layout.object // layout.unit)
    return object_set * layout.count + of_set, row * layout.unit + inside


def parts(layout, at, length):
    """Returns the parts of an extent by object and offset; where two touch, they are one."""
    found, end = [], at + length
    while at < end:
        size = min(end, at - at % layout.unit + layout.unit) - at
        found.append([*place(layout, at), at, size])
        at += size
    joined = []
    for part in sorted(found):
        last = joined[-1] if joined else None
        if last and last[0] == part[0] and all(last[i] + last[3] == part[i] for i in (1, 2)):
            last[3] += part[3]
        else:
            joined.append(part)
    return [tuple(it) for it in joined]


def differing(tables, uses):
    """Yields the rows of the tables that the formulas don't give."""
    shapes = {name: ast.literal_eval(f"({shape})") for shape, name in USED.findall(uses)}
    layouts = {name: Layout(*shape) for name, shape in shapes.items()}
    if not layouts or 2 * len(layouts) != len(ARRAY.findall(tables)):
        yield f"{TABLES}: it lacks a table of places or one of extents, or {USES} doesn't use one"
        return
    for name, kind, rows in ARRAY.findall(tables):
        for row in ast.literal_eval(rows.replace("&", "")):
            if kind == "PLACES":
                wanted = (row[0], *place(layouts[name], row[0]))
            else:
                wanted = (row[0], row[1], parts(layouts[name], row[0], row[1]))
            if row != wanted:
                yield f"{TABLES}: {name}_{kind} has {row}, and the formulas give {wanted}"


def main():
    if len(sys.argv) == 1:
        found = list(differing((TOP / TABLES).read_text(), (TOP / USES).read_text()))
        print(*found, sep="\n", end="\n" if found else "")
        return 1 if found else 0
    if len(sys.argv) not in (5, 6) or not all(it.isdecimal() for it in sys.argv[1:]):
        sys.exit("usage: tests/striping.py [OBJECT UNIT COUNT AT [LEN]]")
    numbers = [int(it) for it in sys.argv[1:]]
    layout, at = Layout(*numbers[:3]), numbers[3]
    for row in parts(layout, at, numbers[4]) if len(numbers) == 5 else [place(layout, at)]:
        print(*row)
    return 0


if __name__ == "__main__":
    sys.exit(main())
