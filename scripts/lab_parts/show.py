"""A script with what the program answered under each of its lines: for `scripts/lab show`."""
from .hints import FAULT, drawn, faulty_lines
from .replies import NO_REPLY


def is_missing(reply):
    """Returns whether what the program printed of a command says that it has no reply."""
    return reply.split(b" ")[0].decode("latin-1") in NO_REPLY


def replies_in(output):
    """Returns what the program printed of each command, by its line, in the order in which it came."""
    found = {}
    for line in output.splitlines():
        # (a history and logs stand in front of the replies)
        if not line.startswith((b"h ", b"o ")):
            number, _, rest = line.partition(b" ")
            found[int(number)] = rest.partition(b" ")[2]
    return found


def places_in(replies):
    """Returns the place of each reply among all replies by its line, where they came in another order
    than their lines stand, and else nothing. Who has no reply has no place."""
    came = [number for number, it in replies.items() if not is_missing(it)]
    return {number: place for place, number in enumerate(came, 1)} if came != sorted(came) else {}


def answers(output):
    """Returns the text to show under each line that has a reply, or is said to have none."""
    replies = replies_in(output)
    places = places_in(replies)
    behind = {number: b"   (reply %d)" % place for number, place in places.items()}
    return {number: it + behind.get(number, b"") for number, it in replies.items()}


def shown(script, output, is_played, facts):
    """Yields the texts that show a script with what the program printed, and the facts of each line. One
    that wasn't played has a line that doesn't fit."""
    lines = script.removesuffix(b"\n").split(b"\n") if script else []
    wide = len(str(len(lines)))
    said = None if is_played else FAULT.fullmatch(output)
    faults = dict(faulty_lines(script, int(said[1]), said[2].decode())) if said else {}
    replies = answers(output) if is_played else {}
    for number, line in enumerate(lines, 1):
        yield (b"%*d  %s" % (wide, number, line)).rstrip(b" ")
        if number in replies:
            yield b"%*s  => %s" % (wide, b"", replies[number])
        if number in faults:
            yield from (it.encode() for it in drawn(number, faults[number])[1:])
        if said and number == int(said[1]):
            yield b"%*s => %s: nothing is played" % (wide, b"", said[2])
        yield from (b"%*s  -- %s" % (wide, b"", it.encode()) for it in facts.get(number, ()))
    # (0 stands for the rounds that close a script)
    if facts.get(0):
        yield b"%*s  (the rounds at the end)" % (wide, b"")
        yield from (b"%*s  -- %s" % (wide, b"", it.encode()) for it in facts[0])
