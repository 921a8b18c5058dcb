"""What each line of a script made happen, as the trace's own lines: `facts`."""
from .reading import trace_of

# How wide an entry of the history is; behind it stands its operation.
WIDE = 26


def facts(output, steps):
    """Returns the lines of a trace by the script's line that made them happen, in order: of an operation
    the history's and its site's log's as one text. What the store does stands in the log alone."""
    entries = {it.place: it for it in trace_of(output).history}
    found = {}
    for step in steps:
        if step.place is not None or step.operation:
            found.setdefault(step.by, []).append(text_of(entries.get(step.place), step.operation))
    return found


def text_of(entry, operation):
    """Returns an entry of the history and an operation, where there are, as `run --trace` prints them."""
    happened = " ".join(["h", str(entry.place), entry.word, *entry.rest]) if entry else ""
    logged = " ".join(["o", *operation]) if operation else ""
    return f"{happened:{WIDE}}  {logged}" if happened and logged else happened + logged
