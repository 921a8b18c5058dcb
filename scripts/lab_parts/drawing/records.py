"""What a site keeps: names, headers, object maps, objects with their snapshots, and the blocklist.

Bytes are runs, `((at, bytes), ..)`: ascending, none empty, none touching the next. Where no run is,
zeros are. So a write at the end of a large object takes no room for what lies before it.
"""
from dataclasses import dataclass, field
from typing import NamedTuple

# How many bytes of a run are shown, and how many runs.
SHOWN_BYTES, SHOWN_RUNS = 16, 4


class Layout(NamedTuple):
    """How an image's bytes lie in objects."""

    object: int
    unit: int
    count: int

    def objects(self, size):
        """Returns how many objects an image of a size has."""
        if not size:
            return 0
        stripe = self.unit * self.count
        rows = self.object // self.unit
        last_set, left = divmod((size - 1) // stripe, rows)
        # In the last set only the first stripe says how many objects begin.
        touched = self.count if left else min(self.count, (size - 1) % stripe // self.unit + 1)
        return last_set * self.count + touched

    def parts(self, number, at, end):
        """Returns the parts of an extent in one object: offset there, byte of the image, length."""
        stripe, rows = self.unit * self.count, self.object // self.unit
        of_set, place = divmod(number, self.count)
        first, last = at // stripe - of_set * rows, (end - 1) // stripe - of_set * rows
        found = []
        for row in range(max(0, first), min(rows - 1, last) + 1):
            begin = (of_set * rows + row) * stripe + place * self.unit
            low, high = max(begin, at), min(begin + self.unit, end)
            if low < high:
                found.append((row * self.unit + low - begin, low, high - low))
        return found

    def pieces(self, at, end):
        """Yields the objects that an extent touches, by number, each with its parts."""
        whole = self.object * self.count
        first, last = (at // whole, (end - 1) // whole) if at < end else (0, -1)
        for number in range(first * self.count, (last + 1) * self.count):
            if parts := self.parts(number, at, end):
                yield number, parts


def without(runs, at, length):
    """Returns runs without the bytes from a place on: zeros are there."""
    kept = []
    for begin, data in runs:
        end = begin + len(data)
        if begin < at:
            kept.append((begin, data[: at - begin]))
        if end > at + length:
            kept.append((max(begin, at + length), data[max(0, at + length - begin) :]))
    return tuple(kept)


def written(runs, at, data):
    """Returns runs with some bytes at a place."""
    joined = []
    for begin, part in sorted([*without(runs, at, len(data)), (at, data)]):
        if joined and joined[-1][0] + len(joined[-1][1]) == begin:
            joined[-1] = (joined[-1][0], joined[-1][1] + part)
        else:
            joined.append((begin, part))
    return tuple(joined)


def seen(runs, at, length):
    """Returns the bytes of runs from a place on."""
    found = bytearray(length)
    for begin, data in runs or ():
        low, high = max(begin, at), min(begin + len(data), at + length)
        if low < high:
            found[low - at : high - at] = data[low - begin : high - begin]
    return bytes(found)


def short_bytes(data, most=SHOWN_BYTES):
    """Returns bytes in short: their first ones, or the one that they all are."""
    if len(data) > most and len(set(data)) == 1:
        return f"{len(data)} × {data[:1].hex()}"
    return data.hex() if len(data) <= most else f"{data[:most].hex()}.. ({len(data)} bytes)"


def short(runs):
    """Returns what an object has, in short: `AT: BYTES` for each run; `None` where it isn't there."""
    if runs is None:
        return None
    shown = [f"{at}: {short_bytes(data)}" for at, data in runs[:SHOWN_RUNS]]
    return ", ".join(shown + ([f"and {len(runs) - SHOWN_RUNS} more"] if len(runs) > SHOWN_RUNS else []))


class Snap(NamedTuple):
    """A snapshot that a header lists."""

    id: int
    name: str
    size: int


@dataclass
class Header:
    """The header of an image, with its lock."""

    size: int
    layout: Layout
    snaps: list = field(default_factory=list)
    # The id of the snapshot that was taken last.
    taken: int = 0
    owner: str = None

    def look(self):
        """Returns the header as a look at it tells."""
        return Header(self.size, self.layout, list(self.snaps), self.taken, self.owner)

    def context(self):
        """Returns the snapshot context that a change carries by this look."""
        return self.taken, [it.id for it in self.snaps]

    def snap(self, name):
        """Returns the snapshot of a name, or None."""
        return next((it for it in self.snaps if it.name == name), None)


@dataclass
class DataObject:
    """An object of an image's data, with what it keeps for snapshots."""

    # Runs, or None where it isn't there.
    head: tuple = None
    seq: int = 0
    kept: dict = field(default_factory=dict)

    def change(self, context, head):
        """Changes the head; what it was is kept for the snapshots that want it."""
        number, listed = context
        if self.head is not None:
            self.kept |= {it: self.head for it in listed if self.seq < it <= number}
        self.seq = max(self.seq, number)
        self.head = head

    def view(self, snap):
        """Returns the runs that a snapshot shows, or, where none is asked for, those of the head."""
        return self.head if snap is None or snap > self.seq else self.kept.get(snap)

    def trim(self, listed):
        """Drops what is kept for snapshots that aren't listed."""
        self.kept = {snap: runs for snap, runs in self.kept.items() if snap in listed}


@dataclass
class Site:
    """What a site keeps."""

    names: dict = field(default_factory=dict)
    # The last id that was drawn.
    drawn: int = 0
    headers: dict = field(default_factory=dict)
    # Of an image: the instances that watch it, in order.
    watchers: dict = field(default_factory=dict)
    # Of an image: the notices by which its lock's owner was asked for it.
    asked: dict = field(default_factory=dict)
    # Of an image and a snapshot, or 0 for the head: the states that aren't 0, by object.
    maps: dict = field(default_factory=dict)
    # Of an image and a number.
    objects: dict = field(default_factory=dict)
    fenced: list = field(default_factory=list)
