"""How far a long run is, on a terminal's standard error: for `scripts/lab`."""
import contextlib
import os
import re
import select
import time
from pathlib import Path

# After how many seconds a run is long.
LONG = 2


def memory_of(process):
    """Returns how many bytes a process has in memory, as a text, or nothing where that isn't known."""
    try:
        found = re.search(r"VmRSS:\s*([0-9]+) kB", Path(f"/proc/{process}/status").read_text())
    except OSError:
        return ""
    return f", {int(found[1]) / 1024:,.0f} MiB in memory" if found else ""


def tell(text):
    """Writes over the line that stands there."""
    with contextlib.suppress(OSError):
        os.write(2, f"\r\x1b[K{text}".encode())


def until_it_prints(ran):
    """Waits until a program prints something, which it does when all is played, and says how long
    that takes."""
    began, told = time.monotonic(), False
    while not select.select([ran.stdout], [], [], 1)[0]:
        took = time.monotonic() - began
        if took >= LONG:
            tell(f"lab: it plays: {took:.0f} s{memory_of(ran.pid)}; replies are printed at the end")
            told = True
    if told:
        tell("")
