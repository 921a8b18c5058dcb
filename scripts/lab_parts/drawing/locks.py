"""Who has each lock behind each line of a script, as text: `facts`."""
from itertools import groupby
from typing import NamedTuple

from .words import Speaker, some

# How many numbers of notices are shown.
SHOWN = 3


class Told(NamedTuple):
    """What a notice tells, or who is fenced, as a text with `{}` in the place of the notice."""

    kind: str
    text: str
    number: int = 0


def facts(lines, steps):
    """Returns what each line changed of locks, watchers, notices and blocklists, as texts by the
    line's number: notices and fences as they came, and then what it left of each image's lock."""
    speaker, told, locks, behind = Speaker(lines), {}, {}, {}
    for step in steps:
        speaker.learn(step)
        told.setdefault(step.by, []).extend(of_step(step, speaker))
        behind.setdefault(step.by, {}).update({key: it for key, it in step.changes.items() if key.endswith("/lock")})
    found = {number: [*in_words(it)] for number, it in told.items()}
    for number, left in behind.items():
        found[number] += [of_lock(key, it, speaker) for key, it in left.items() if locks.get(key) != it]
        locks |= left
    return found


def of_step(step, speaker):
    """Yields the notices that a step posted, delivered or lost, and whom it fenced."""
    for number in step.told.get("posted", ()):
        notice = speaker.notices[number]
        yield Told("posted", f"{{}} to {notice['to']}: {speaker.said(notice)}", number)
    if step.kind == "heard":
        yield Told("heard", f"{step.who} hears {{}}", step.told["notice"])
    if step.kind == "lose" and not speaker.notices[step.told["notice"]]["heard"]:
        yield Told("lost", f"{{}} to {step.who} is lost", step.told["notice"])
    if step.operation and step.operation.word == "block-add" and step.operation.is_done():
        yield Told("fenced", f"{step.told['owner']} is fenced: site {step.operation.site()} refuses it from now on")


def in_words(told):
    """Yields texts: what several notices tell one after another stands once."""
    for _, several in groupby(told, key=lambda it: it.kind):
        numbers = {}
        for it in several:
            numbers.setdefault(it.text, []).append(it.number)
        yield from (text.format(named(them)) for text, them in numbers.items())


def of_lock(key, lock, speaker):
    """Returns who has a lock, who asked for it, and who watches the image."""
    site, image, _ = key.split("/")
    name = speaker.name(site, int(image))
    if not lock:
        return f"{name}: its header is gone, and with it the lock and all who watch"
    asked = [f"{who} ({numbers_of(them, speaker)})" for who, them in askers(lock["asked"], speaker).items()]
    owner = f"{lock['owner']} has the lock" if lock["owner"] else "the lock is free"
    wanted = f", which is asked for by {some(asked)}" if asked else ""
    return f"{name}: {owner}{wanted}; watched by {some(lock['watchers'])}"


def askers(numbers, speaker):
    """Returns who asked by some notices, each with the numbers of its own."""
    found = {}
    for number in numbers:
        found.setdefault(speaker.notices[number]["from"], []).append(number)
    return found


def numbers_of(numbers, speaker):
    """Returns the numbers of notices as a text, of many the first one and the last, and which of them are
    lost."""
    lost = [it for it in numbers if speaker.notices[it]["lost"]]
    said = named(numbers)
    if lost == numbers:
        return f"{said}, lost"
    return f"{said}; lost: {in_short(lost)}" if lost else said


def named(numbers):
    """Returns notices by their numbers, as a text."""
    return f"notice{'s' * (len(numbers) > 1)} {in_short(numbers)}"


def in_short(numbers):
    """Returns ascending numbers as a text: of many the first one and the last."""
    return some(numbers) if len(numbers) <= SHOWN else f"{numbers[0]}, .. and {numbers[-1]}"
