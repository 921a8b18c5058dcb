"""What may be meant by words that neither `scripts/lab` nor the program understands."""
import os

from .hints import guess, one_of

WORDS = ("run", "gen", "show", "draw", "help", "version", "--help", "--version")
TO_COME = ("threads",)
# The options of each word.
OPTIONS = {
    "run": ("--trace", "--strict"),
    "show": ("--trace", "--locks"),
    "draw": ("-o",),
    "gen": ("--seed", "--clients", "--commands"),
}
# How these are asked for; the program has a usage line of its own.
USAGES = {
    "show": "usage: scripts/lab show [--trace] [--locks] [FILE]",
    "draw": "usage: scripts/lab draw [FILE] [-o OUT]",
}


def is_option(word):
    """Returns whether a word is no file: `-` alone is standard input."""
    return word.startswith("-") and word != "-"


def option_fault(command, option):
    """Returns what is meant by an option that a command hasn't."""
    others = [f"`{it}`" for it, options in OPTIONS.items() if option in options]
    home = f"it is one of {one_of(others)}" if others else ""
    help = home or guess(option, OPTIONS[command]) or "scripts/lab --help has all"
    return f"`{option}` is no option of `{command}`; {help}"


def option_faults(command, words):
    """Yields what is wrong with the options behind a command."""
    for word in dict.fromkeys(filter(is_option, words)):
        if words.count(word) > 1:
            yield f"`{word}` stands twice"
        elif word not in OPTIONS[command]:
            yield option_fault(command, word)


def faults(command, words):
    """Returns what is wrong with the words behind a command that takes one script. (Behind an option
    that isn't one of its own a value may stand, which is no script.)"""
    found = [*option_faults(command, words)]
    files = [it for it in words if not is_option(it)]
    if not found and len(files) > 1:
        found = [f"`{command}` takes one script, and here are {len(files)}: {', '.join(files)}"]
    return found


def meant(words):
    """Yields texts on what may be meant by these words."""
    first, *others = words or [""]
    if first in TO_COME:
        yield f"`{first}` isn't built yet"
    elif first == "gen":
        given = {it.partition("=")[0] for it in others if it.startswith("--")}
        yield from (option_fault(first, it) for it in sorted(given) if it not in OPTIONS[first])
        yield "`gen` wants `--seed` below 2^32, `--clients` from 1 to 16 and `--commands` to 10,000, each once"
    elif first == "run":
        yield from option_faults(first, others)
    elif first in OPTIONS["run"]:
        yield f"`{first}` stands behind `run`"
    elif os.path.isfile(first):
        yield f"did you mean `scripts/lab run {first}`?"
    else:
        yield f"{guess(first, WORDS)} scripts/lab --help has all words".lstrip()
