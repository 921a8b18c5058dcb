"""Which functions of a crate a must-fail edit changes, by the paths that rattle prints, and which of
them call each other."""
import functools
import re
from pathlib import Path

CALL = re.compile(r"(\.|\b\w+::)?(?:<[^()]*>::)?\b([a-z_]\w*)(?:::<[^()]*>)?\(")
IN_CLAUSE = re.compile(r"\s*(requires|ensures|ghost)\b")
FN = re.compile(r"(\s*)(?:pub(?:\([^)]*\))? )?(?:const )?(?:unsafe )?fn (\w+)")
IMPL = re.compile(r"(\s*)impl\b")


def owner_of(line):
    """Returns the name that rattle gives to the functions of an `impl`: the type's, with the trait's
    behind it."""
    text = re.sub(r"^\s*impl\s*", "", line)
    if text.startswith("<"):
        depth = 0
        for at, letter in enumerate(text):
            depth += (letter == "<") - (letter == ">")
            if not depth:
                text = text[at + 1 :].strip()
                break
    head, _, rest = text.partition(" for ")
    named = lambda it: re.match(r"[\w:]+", it.strip())[0].split("::")[-1]
    paths = paths_in(rest or head)
    if not rest:
        return "+".join([named(head), *(it.replace("::", "+") for it in paths)])
    given = re.match(r"[\w:]+<([\w:]+)>", head.strip())
    parts = "".join(it.split("::")[-1] for it in paths if "::" in it)
    return named(rest) + parts + named(head) + (given[1].split("::")[-1] if given else "")


def paths_in(named):
    """Returns the parameters of a type, where a path such as `C::Part` is among them: these are in
    the name that rattle gives. It returns none where all are plain names."""
    found = re.match(r"[\w:]+<([\w:, ]+)>", named.strip())
    paths = [it.strip() for it in found[1].split(",")] if found else []
    return paths if any("::" in it for it in paths) else []


@functools.cache
def home_of(owner, module, folder):
    """Returns the module that rattle gives to the functions of an `impl`: a method stands in that of
    its type, wherever its `impl` does. Of two types of one name it's that beside the `impl`."""
    name = owner.split("+")[0]
    own_first = lambda it: (module_of(it.relative_to(folder)) != module, it)
    for path in sorted(Path(folder, "src").rglob("*.rt"), key=own_first):
        if re.search(rf"^(?:pub(?:\([^)]*\))? )?(?:struct|enum) {name}\b", path.read_text(), re.M):
            return module_of(path.relative_to(folder))
    return module


def path_of(module, owner, name, folder):
    """Returns the path that rattle gives to a function, or to the method of an owner."""
    home = home_of(owner, module, folder) if owner else module
    return "::".join(it for it in (home, owner, name) if it)


def module_of(path):
    """Returns the path of a file's module below the crate."""
    module = str(path).removeprefix("src/").removesuffix(".rt").replace("/", "::")
    return "" if module in ("lib", "main") else module


def function_at(text, at, with_clauses):
    """Returns the owner, where there is one, and the name of the function whose code is at a place of
    a file, or whose head or clause, and None where what stands there is none."""
    before = text[:at].split("\n")
    line = (before[-1] + text[at:].split("\n", 1)[0]) or " "
    depth = len(line) - len(line.lstrip())
    if IN_CLAUSE.match(line) and not with_clauses:
        return None
    if with_clauses and FN.match(line):
        # (the head belongs to it as what stands deeper does)
        before, depth = [*before[:-1], line, ""], depth + 1
    for above in reversed(before[:-1]):
        found = FN.match(above)
        if not found or len(found[1]) >= depth:
            continue
        if not found[1]:
            return None, found[2]
        for it in reversed(before[: before.index(above) + 1]):
            impl = IMPL.match(it)
            if impl and len(impl[1]) < len(found[1]):
                return owner_of(it), found[2]
        return None
    return None


def changes_of(edit, folder, named):
    """Returns the functions that an edit changes, by their paths below the crate, and None where it
    changes anything but code. Of one that names what refuses it the functions' heads and clauses count
    too: who is refused by a clause of its own is refused whoever calls it."""
    path, old, texts, found = "", None, {}, set()
    for line in Path(edit).read_text().split("\n"):
        if line.startswith("file: "):
            path = line.removeprefix("file: ").strip()
            if not path.startswith("src/"):
                return None
            texts.setdefault(path, Path(folder, path).read_text())
        elif line.startswith("old: "):
            old = line.removeprefix("old: ")
        elif line.startswith("new:") and old:
            new = line.removeprefix("new:").removeprefix(" ")
            if texts[path].count(old) != 1 or new == old:
                return None
            # (an old text begins with the layout's spaces)
            at = texts[path].index(old) + len(old) - len(old.lstrip())
            function = function_at(texts[path], at, bool(named))
            if not function:
                return None
            found.add(path_of(module_of(path), *function, folder))
            texts[path] = texts[path].replace(old, new)
            old = None
    return found or None


# ---- which call each other


@functools.cache
def calls_in(folder):
    """Returns what the body of each function of a crate calls, by the function's path: each call as what
    stands before the name, and the name."""
    calls = {}
    for path in Path(folder, "src").rglob("*.rt"):
        module, owner, own, depth = module_of(path.relative_to(folder)), "", None, 0
        for line in path.read_text().split("\n"):
            if impl := IMPL.match(line):
                owner = owner if impl[1] else owner_of(line)
            elif line == "}":
                owner = ""
            if head := FN.match(line):
                own = calls.setdefault(path_of(module, owner, head[2], folder), set())
                depth = len(head[1])
            elif own is not None and not IN_CLAUSE.match(line):
                own.update((before or "", called) for before, called in CALL.findall(line))
            if line == " " * depth + "}":
                own = None
    return calls


def calls_one_of(calls, functions):
    """Whether one of these functions is called, going by its name, and by the type's where it is one's."""
    for owner, name in (it.split("::")[-2:] if "::" in it else ("", it) for it in functions):
        is_method = owner[:1].isupper()
        for before, called in calls:
            of_type = before == "." or before == "Self::" or owner.startswith(before.removesuffix("::"))
            if called == name and (of_type and before if is_method else before != "."):
                return True
    return False


def without_bodies(text, module, folder, functions):
    """Returns the text of a module in which no function but these has a body of its own."""
    lines, owner, path, end = [], "", None, None
    for line in text.split("\n"):
        if end not in (None, line):
            continue
        end = None
        if impl := IMPL.match(line):
            owner = owner if impl[1] else owner_of(line)
        elif line == "}":
            owner = ""
        if head := FN.match(line):
            path = path_of(module, owner, head[2], folder)
            indent = head[1]
        lines.append(line)
        if path and (line == indent + "{" or head and line.endswith("{")):
            if path not in functions:
                lines.append(f"{indent}    unreachable!()")
                end = indent + "}"
            path = None
    return "\n".join(lines)
