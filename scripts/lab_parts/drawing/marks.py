"""The looks of operations and events, told apart without colour too."""
from html import escape

# The looks of marks, in the order of the legend, with what they mean.
MARKS = {
    "change": "changes what users see",
    "record": "changes a record: map, lock, watch",
    "look": "a look",
    "nothing": "a look that finds nothing",
    "refused": "refused",
    "fenced": "refused, since the sender is fenced",
    "fence": "fences an instance",
    "notice": "posts notices, by number",
}


def look_of(step):
    """Returns the look of an operation's mark."""
    operation = step.operation
    if operation.answer == "fenced":
        return "fenced"
    if operation.word == "block-add" and operation.is_done():
        return "fence"
    if operation.word == "notify" and operation.is_done():
        return "notice"
    if operation.word in ("dir-find", "header-get", "data-read", "map-get", "watchers-get", "dir-list"):
        return "look" if operation.is_done() else "nothing"
    if not operation.is_done():
        return "refused"
    return "change" if step.effect else "record"


def mark(look, x, y, more=""):
    """Returns the shape of a look at a place."""
    shapes = {
        "change": f"M{x - 5.5} {y}a5.5 5.5 0 1 0 11 0a5.5 5.5 0 1 0 -11 0",
        "record": f"M{x - 4} {y - 4}h8v8h-8z",
        "look": f"M{x - 4.5} {y}a4.5 4.5 0 1 0 9 0a4.5 4.5 0 1 0 -9 0",
        "nothing": f"M{x - 4.5} {y}a4.5 4.5 0 1 0 9 0a4.5 4.5 0 1 0 -9 0",
        "refused": f"M{x - 5} {y - 5}h10v10h-10zM{x - 5} {y - 5}l10 10M{x - 5} {y + 5}l10 -10",
        "fenced": f"M{x - 6} {y}a6 6 0 1 0 12 0a6 6 0 1 0 -12 0M{x - 4.2} {y + 4.2}l8.4 -8.4",
        "fence": f"M{x - 2.7} {y - 6.5}h5.4l3.8 3.8v5.4l-3.8 3.8h-5.4l-3.8 -3.8v-5.4z",
        "notice": f"M{x - 6.5} {y - 4.5}h13v9h-13zl6.5 5.5l6.5 -5.5",
    }
    return f'<path class="mark {look}{more}" d="{shapes[look]}"/>'


def text(x, y, said, kind=""):
    """Returns a text at a place."""
    of_kind = f' class="{kind}"' if kind else ""
    return f'<text x="{x}" y="{y}"{of_kind}>{escape(said, quote=False)}</text>' if said else ""


class Legend:
    """What the looks mean, row by row: all, or those of a run."""

    def __init__(self, wide, looks=None):
        x, y, found = 0, 10, []
        for look, svg, said in entries():
            step = 34 + round(6.9 * len(said))
            if looks is not None and look not in looks:
                continue
            if x and x + step > wide:
                x, y = 0, y + 22
            found.append(f'<g transform="translate({x} {y})"><g class="s7">{svg}</g>{text(22, 4, said, "soft")}</g>')
            x += step
        self.svg, self.high = "".join(found), y + 12


def entries():
    """Yields the looks, each with its shape and what it means."""
    yield "owner", '<rect class="band" x="0" y="-7" width="16" height="14" rx="3"/>', "has the lock"
    yield "asked", '<path class="asked" d="M8 -7V7"/>', "was asked for it"
    yield "watch", '<rect class="strip" x="3" y="-7" width="10" height="14" rx="3"/>', "watches the image"
    yield "life", '<path class="life" d="M8 -7V7"/>', "a session's life"
    yield "fenced life", '<path class="life fenced" d="M8 -7V7"/>', "of one that is fenced"
    yield "start", '<rect class="bar" x="0" y="-7" width="16" height="14" rx="5"/>', "a command, by its line's number"
    for look, said in MARKS.items():
        yield look, mark(look, 8, 0), said
    late = '<path class="line late" d="M2 0H18"/><path class="dot" d="M-2 -5l9 5l-9 5z"/>'
    yield "late", late, "arrives late, from a stopped session"
    envelope = "M1.5 -4.5h13v9h-13zl6.5 5.5l6.5 -5.5"
    yield "heard", f'<path class="event heard" d="{envelope}"/>', "a notice is heard, in its session's column"
    yield "lose", f'<path class="event lose" d="{envelope}M0 -7l16 14M0 7l16 -14"/>', "a notice is lost"
    yield "stop", '<path class="event stop" d="M3 -5l10 10M3 5l10 -10"/>', "a session stops"
    yield "restart", '<path class="event restart" d="M2 -5h12l-6 10z"/>', "begins its next life"
