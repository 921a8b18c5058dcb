"""What is wrong in documents: links that lead nowhere, lines that are too wide, names that nothing in the
code has, excerpts of examples that aren't theirs, and what a list of files lacks.

Names are looked for in comments of crates and tests too, since nothing compiles those.
"""
import re
import subprocess

from . import TOP

WIDE = 100
# A document that tells what was.
OF_THE_PAST = "CHANGELOG.md"
# A name as code has them: `with_below`, `IsLawful`; none that is cut by dots, as `rest_of_..`.
NAME = re.compile(r"(?<![\w.-])(?:[A-Za-z]\w*_\w+|[A-Z]\w*[a-z]\w*[A-Z]\w*)(?![\w-]|\.\.)")
QUOTED = re.compile(r"`([^`\n]+)`")
COMMENT = re.compile(r"(?:^|\s)(?://[/!]?|--)(.*)$", re.M)
# What comments name of Ceph's code.
OF_CEPH = {"AcquireRequest", "BreakRequest", "ReleaseRequest", "ExclusiveLock"}
OF_CEPH |= {"OBJECT_NONEXISTENT", "OBJECT_EXISTS", "OBJECT_PENDING", "OBJECT_EXISTS_CLEAN"}
# A line of an example with its number in front, and a line below it that `scripts/lab show` adds.
NUMBERED = re.compile(r"^ +(\d+)  (\S.*)$")
EXAMPLE = re.compile(r"\]\(((?:\w+/)?[\w-]+\.script)\)")
# Documents that list what stands in a folder.
LISTS = {
    "examples/README.md": "examples/*.script",
    "tests/README.md": "tests/crates/*",
    "tests/rows/README.md": "tests/rows/*/",
}


def tracked(*patterns):
    """Returns the files of the repository that match."""
    ran = subprocess.run(["git", "ls-files", *patterns], cwd=TOP, stdout=subprocess.PIPE, text=True, check=True)
    return [it for it in ran.stdout.splitlines() if (TOP / it).exists()]


def heads(text):
    """Returns what a link may name in a document behind `#`: its headings, as words joined by
    dashes."""
    found = re.findall(r"^#+ (.*)$", text, re.M)
    return {re.sub(r"[^\w\- ]", "", it.lower()).replace(" ", "-") for it in found}


def links():
    """Yields the links of documents that lead nowhere, and lines that are too wide and no
    table's."""
    for name in tracked("*.md"):
        text = (TOP / name).read_text()
        for to, head in re.findall(r"\]\(([^)#:\s]*)(?:#([^)]*))?\)", text):
            at = (TOP / name).parent / to if to else TOP / name
            if not at.exists():
                yield f"{name}: its link {to} leads nowhere"
            elif head and head not in heads(at.read_text()):
                yield f"{name}: its link {to}#{head} leads to no heading"
        for number, line in enumerate(text.splitlines(), 1):
            if len(line) > WIDE and not line.startswith("|") and not line.startswith("    "):
                yield f"{name}:{number}: {len(line)} columns, and {WIDE} are the most"


def words_of_code():
    """Returns each word of the code, of definitions, lemmas and scripts, without their comments, and of the
    names of files."""
    words = set()
    for name in tracked("crates", "tests", "scripts", "bench", ".ci"):
        words.update(re.findall(r"\w+", name))
        text = (TOP / name).read_text(errors="replace")
        is_commented = name.endswith((".rt", ".antt"))
        words.update(re.findall(r"[\w-]+|\w+", COMMENT.sub("", text) if is_commented else text))
    return {part for it in words for part in (it, *it.split("-"))}


def texts():
    """Yields each document, and each file with comments, with its lines of prose by their numbers."""
    for name in tracked("*.md"):
        if name != OF_THE_PAST:
            lines = enumerate((TOP / name).read_text().splitlines(), 1)
            yield name, [(number, it) for number, it in lines if not it.startswith("    ")]
    for name in tracked("crates/*.rt", "crates/*.antt", "tests/*.rt"):
        lines = enumerate((TOP / name).read_text().splitlines(), 1)
        yield name, [(number, found[1]) for number, it in lines if (found := COMMENT.search(it))]


def names():
    """Yields the names that stand in documents and comments, in backticks, and nowhere else."""
    known = words_of_code() | OF_CEPH
    for name, lines in texts():
        for number, line in lines:
            for quoted in QUOTED.findall(line):
                yield from (f"{name}:{number}: nothing is called {it}" for it in NAME.findall(quoted) if it not in known)


def excerpts():
    """Yields the numbered lines of documents that aren't those of the example that is named before them."""
    for name in tracked("*.md"):
        script = []
        for number, line in enumerate((TOP / name).read_text().splitlines(), 1):
            for to in EXAMPLE.findall(line):
                script = ((TOP / name).parent / to).read_text().splitlines()
            found = NUMBERED.match(line) if script else None
            if found and script[int(found[1]) - 1 : int(found[1])] != [found[2]]:
                yield f"{name}:{number}: that isn't line {found[1]} of the example"


def unlisted():
    """Yields what stands in a folder and isn't in the document that lists it."""
    for document, pattern in LISTS.items():
        text = (TOP / document).read_text()
        for path in sorted(TOP.glob(pattern)):
            if not re.search(rf"(?<![\w-]){re.escape(path.name)}(?![\w-])", text):
                yield f"{document}: it lacks {path.name}"
