"""Which definitions say what the program promises: all that its top contract's clauses name, at any
depth.

They are listed for docs/DEFINITIONS.md, in the order in which they can be read: a definition uses
those of the crates above it in the list, and those before it in its own. A crate's line has its
files of specs/, and behind `types` the modules of its src/ that declare the types in them. Words of
the kit's std aren't listed.
"""
import re
import textwrap
from typing import NamedTuple

from . import TOP
from .crate_list import uses_in, with_below

# Where the clauses stand: the top calls, `main`'s helpers, and the devices whose words the clauses
# use.
BEGIN = ("rbd_lab/src/run.rt", "rbd_lab/src/main.rt", "rbd_edge/src/source.rt", "rbd_edge/src/sink.rt")
USE = re.compile(r"^ *(?:ghost |pub )?use (Rattle\.\S+?)(?:\.\{([^}]*)\})?(?: as (\S+?))?;?$", re.M)
# (what is indented and has `pub` alone is a field; `record x {` is a changed value)
HEAD = re.compile(
    r"^(?! +pub (?!(?:record|data) )| *record [a-z]\w* \{|pub use )"
    r"( *)(?:(?:pub|abbrev|unfoldable|record|data) )+([^\s:({]+)"
)
EQUATION = re.compile(r"^( *)([^\s:({]+) ")
# A constructor or a field, which stands in the definition of its type.
PART = re.compile(r"^ +(?:pub )?([^\s:({]+) :")
TOKEN = re.compile(r"[A-Za-z_][\w'-]*(?:\.[A-Za-z_][\w'-]*)*|[^\s\w(){};,.]+")


class Place(NamedTuple):
    crate: str
    module: str
    # `specs`, or `types` where it declares a type of the crate's src/.
    kind: str


class File(NamedTuple):
    # A name here: the place and the name that it has there.
    names: dict
    # A name here that stands for a whole place.
    modules: dict
    # The text of each definition.
    texts: dict
    # The type in which a constructor or a field stands.
    types: dict


def file_of(crate, module):
    return TOP / "crates" / crate / "specs" / f"{module}.antt"


def place_of(path):
    """Returns the place that an import names, or None where it is none of ours."""
    words = path.split(".")
    if not words[1].startswith("rbd_") or words[2] != "specs":
        return None
    if words[3] == "declared":
        return Place(words[1], words[4], "types")
    while not file_of(words[1], "/".join(words[3:])).is_file():
        # (the last word is a type, whose constructors are imported)
        words.pop()
    return Place(words[1], "/".join(words[3:]), "specs")


def imports_of(text):
    """Returns the names that a text imports, and the whole modules."""
    names, modules = {}, {}
    for path, listed, alias in USE.findall(text):
        place = place_of(path)
        if place and listed:
            pairs = (it.strip().partition(" as ") for it in listed.split(","))
            names |= {(here or there).strip(): (place, there.strip()) for there, _, here in pairs}
        elif place and alias:
            modules[alias] = place
    return names, modules


def definitions_of(text):
    """Returns the text of each definition, by its name."""
    texts, indents, current = {}, {}, None
    for line in re.sub(r"--.*$", "", text, flags=re.M).splitlines():
        if head := HEAD.match(line):
            current = head[2]
            indents[current] = head[1]
        # (an equation stands as far in as its head; what stands further in goes on with a line)
        elif (equation := EQUATION.match(line)) and indents.get(equation[2]) == equation[1]:
            current = equation[2]
        if current and line.strip():
            texts[current] = f"{texts.get(current, '')}{line}\n"
    return texts


def parts_of(texts):
    """Returns the type of each constructor and field."""
    types = {name: text for name, text in texts.items() if re.match(r" *(?:pub )?(?:data|record) ", text)}
    return {part[1]: name for name, text in types.items() for part in map(PART.match, text.splitlines()) if part}


class Walk:
    def __init__(self):
        self.files, self.seen, self.order = {}, set(), []

    def file(self, place):
        if place not in self.files:
            text = file_of(place.crate, place.module).read_text()
            texts = definitions_of(text)
            self.files[place] = File(*imports_of(text), texts, parts_of(texts))
        return self.files[place]

    def visit(self, place, name):
        """Takes a definition, behind all that it names."""
        if place.kind == "types":
            self.note(place)
        elif (place, name) not in self.seen:
            self.seen.add((place, name))
            file = self.file(place)
            if name in file.texts:
                self.visit_all(place, file, set(TOKEN.findall(file.texts[name])))
                self.note(place)
            elif name in file.types:
                self.visit(place, file.types[name])
            else:
                # (the file passes on a word of another)
                self.visit(*file.names[name])

    def visit_all(self, place, file, tokens):
        for token in sorted(tokens | {it.split(".")[0] for it in tokens}):
            first, _, rest = token.partition(".")
            shown = next((it for it in (token, f"◌{token}◌") if it in file.names), None)
            if shown:
                self.visit(*file.names[shown])
            elif token in file.texts:
                self.visit(place, token)
            elif rest and first in file.modules:
                self.visit(file.modules[first], rest)

    def note(self, place):
        if place not in self.order:
            self.order.append(place)

    def taken(self):
        """Returns the text of each definition that was taken."""
        found = ((self.file(place).texts, name) for place, name in self.seen)
        return [texts[name] for texts, name in found if name in texts]


def walked():
    """Returns the walk over all that the clauses name."""
    walk = Walk()
    for path in BEGIN:
        for place, name in imports_of((TOP / "crates" / path).read_text())[0].values():
            walk.visit(place, name)
    return walk


def listed(walk):
    """Returns the list of definitions, crate by crate."""
    uses, items = uses_in(TOP / "crates.txt"), []
    for crate in with_below(uses, uses):
        ours = [it for it in walk.order if it.crate == crate]
        specs = ", ".join(it.module for it in ours if it.kind == "specs")
        types = ", ".join(sorted(it.module for it in ours if it.kind == "types"))
        parts = [specs] * bool(specs) + [f"types: {types}"] * bool(types)
        if parts:
            text = f"- `{crate}`: {'; '.join(parts)}"
            items.append(textwrap.fill(text, 100, subsequent_indent="  ", break_on_hyphens=False))
    return "".join(f"{it}\n" for it in items)


def counted(walk):
    """Returns how many definitions these are, and how many lines: all that a reader of the promise has
    to trust."""
    taken = walk.taken()
    return len(taken), sum(it.count("\n") for it in taken)
