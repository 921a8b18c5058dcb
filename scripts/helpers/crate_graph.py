"""Whether docs/ARCHITECTURE.md draws the crates as crates.txt has them, and names files that are there.

The graph there is drawn by hand: a crate stands below one that depends on it, and behind `+` stand the
other crates that this one needs and that are drawn elsewhere. What these need in turn isn't repeated,
and neither are the base crates, at the end, over which all others are.
"""
import re

from . import TOP
from .crate_list import uses_in

PAGE = "docs/ARCHITECTURE.md"
# A line of the graph: what stands before a crate's name, the name, and what is said of it.
DRAWN = re.compile(r"^    ([ │├└─]*)(rbd_\w+)(.*)$", re.M)
BASE = "    all base crates\n"
LONGEST = re.compile(r"The longest path has (\d+) crates, each on the one before it:([^.]*)\.")
# The crates of the kit, each with those of ours that need it.
OF_KIT = re.compile(r"`(\w+)`\s(?:in|by\slemmas\sin)\s(`rbd_\w+`(?:(?:,|\sand)\s`rbd_\w+`)*)")
TABLE = re.compile(r"^\| `(rbd_\w+)` \| (.*) \|$", re.M)
COUNTED = re.compile(r"\((\d+), each in the\s`src/` of its crate\)")


def drawn(page):
    """Returns each crate of the graph, with those that are drawn below it or named behind it, and the base
    crates."""
    graph, stack = page[: page.index("The longest path")], []
    below, base = {}, set()
    for found in DRAWN.finditer(graph):
        name, said = found[2], found[3]
        while stack and stack[-1][0] >= len(found[1]):
            stack.pop()
        if stack:
            below[stack[-1][1]].add(name)
        named = said.partition(" + ")[2].split(",")
        below[name] = {f"rbd_{it.strip()}" for it in named if it.strip()}
        if BASE in graph[: found.start()]:
            base.add(name)
        stack.append((len(found[1]), name))
    return below, base


def all_below(uses):
    """Returns each crate with all that are below it. (The list has each behind those that it needs.)"""
    found = {}
    for name, needs in uses.items():
        found[name] = {it for need in needs for it in (need, *found[need])}
    return found


def of_graph(page, uses):
    """Yields how the graph differs from the list."""
    graph, base = drawn(page)
    deep = all_below(uses)
    yield from (f"{PAGE}: the graph lacks {it}" for it in uses if it not in graph)
    for name, listed in graph.items():
        needs = set(uses.get(name, ()))
        if not listed and name not in base and "rbd_kinds" not in needs:
            yield f"{PAGE}: {name} isn't over rbd_kinds, and nothing is named that it is over"
        yield from (f"{PAGE}: {name} isn't over {it}" for it in sorted(listed - needs))
        told = {it for below in listed & deep.keys() for it in (below, *deep[below])} | (base - {name})
        yield from (f"{PAGE}: {name} is over {it}" for it in sorted(needs - told))
        twice = {it for it in listed if any(it in deep.get(other, ()) for other in listed)}
        yield from (f"{PAGE}: {name} is over {it} anyway, by another one" for it in sorted(twice))


def of_path(page, uses):
    """Yields what is wrong with the longest path."""
    steps = {}
    for name, needs in uses.items():
        steps[name] = 1 + max((steps[it] for it in needs), default=0)
    found = LONGEST.search(page)
    path = re.findall(r"rbd_\w+", found[2]) if found else []
    if not found or len(path) != int(found[1]) or len(path) != max(steps.values()):
        yield f"{PAGE}: the longest path has {max(steps.values())} crates"
    yield from (f"{PAGE}: {b} isn't over {a}" for a, b in zip(path, path[1:]) if a not in uses.get(b, ()))


def of_kit(page, listed):
    """Yields what is wrong with the crates of the kit."""
    told = {it[1]: set(re.findall(r"rbd_\w+", it[2])) for it in OF_KIT.finditer(page)}
    there = {}
    for name, needs in listed.items():
        for it in needs:
            if it not in listed:
                there.setdefault(it, set()).add(name)
    yield from (f"{PAGE}: {it} is in {', '.join(sorted(there[it]))}" for it in there if told.get(it) != there[it])


def of_files(page):
    """Yields the files of the table that aren't there, and whether they are as many as is said."""
    many = 0
    for crate, said in TABLE.findall(page):
        for it in re.findall(r"`(\w+\.rt)`", said):
            many += 1
            if not (TOP / "crates" / crate / "src" / it).is_file():
                yield f"{PAGE}: there is no {it} in {crate}"
    if COUNTED.findall(page) != [str(many)]:
        yield f"{PAGE}: its table has {many} files"


def faults():
    """Yields what isn't so in the page."""
    page, listed = (TOP / PAGE).read_text(), uses_in(TOP / "crates.txt")
    uses = {name: [it for it in needs if it in listed] for name, needs in listed.items()}
    yield from of_graph(page, uses)
    yield from of_path(page, uses)
    yield from of_kit(page, listed)
    yield from of_files(page)
