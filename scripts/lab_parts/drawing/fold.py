"""What a trace doesn't say, worked out from the script and the trace: `steps`.

The history says in which order things happened, and the logs on which object. Here the script is
gone through once more, line by line, and each line takes from the history what it made happen. So
these are known too, by docs/RULES.md:

- the line by which something happened, and the slot;
- a notice's number, sender and receiver, and when it was heard, in a round too;
- who has a lock, who was asked for it, who watches, and who is fenced;
- the bytes, states and snapshots: the words of a command and the header that it looked at say what
  each of its operations does.

So the program needn't print them, and its formats stay as they are. Nothing is judged: the trace says
what was answered. What a session waits for isn't worked out either. A poll took the next operation of
the history where that is of its slot, and else waited. It is so since a request that waits goes on only
behind something that stands in the history, but for slot 0, which goes on behind a notice. A late
operation is that of the slot, where that wanted one of its word.
"""
from dataclasses import dataclass, field

from .reading import OPERATIONS, Operation, script_of, trace_of
from .records import DataObject, Header, Layout, Site, Snap, seen, short, short_bytes, without, written

MOST_IDLE, MOST_POLLS = 8, 4096
USUAL_OBJECT = 1 << 22
# The operations on the way to a lock, and those that only ask again for it.
WAY = ("watch", "lock-take", "watchers-get", "notify", "block-add", "lock-break")
ASKS_AGAIN = {("lock-take", "held"), ("watchers-get", "instances"), ("notify", "done")}
END = 0


class NotOfThisScript(Exception):
    """The trace isn't what the script leads to."""


class Refused(Exception):
    """A plan ends here: the program refuses the command by what it looked at."""


@dataclass
class Step:
    """Something that happened: an operation, or another event."""

    # line, start, operation, reply, stop, lost, restart, heard, lose or end
    kind: str
    # The script's line that made it happen, or END for the rounds that close a script.
    by: int
    # The instance, or `store`.
    who: str = ""
    slot: int = None
    # The line of the command that it belongs to.
    line: int = None
    # Its place in the history, or None for what stands there not.
    place: int = None
    operation: Operation = None
    # Of an operation: command, house, late or store.
    cause: str = ""
    # What it changed of what users see, by the history's word.
    effect: str = ""
    # What was worked out of it.
    told: dict = field(default_factory=dict)
    # What it changed of the state: values by their keys; None where something is no more.
    changes: dict = field(default_factory=dict)


@dataclass
class Notice:
    """A notice in the mail of both sites."""

    number: int
    sender: str
    to: str
    site: str
    image: int
    # ask, released or told
    kind: str
    said: str = ""
    heard: int = 0
    is_lost: bool = False


class House:
    """What a session does of itself, in slot 0: it lets locks go that it was asked for."""

    line = None

    def __init__(self, fold, who):
        self.fold, self.who = fold, who
        # The images whose lock it was asked for, and that it has.
        self.asked = set()
        # It has let a lock go, and not said so yet.
        self.is_telling = False

    @property
    def wanted(self):
        """The words of which the next operation is one."""
        return ("notify",) if self.is_telling else ("lock-drop",) if self.asked else ()

    def feed(self, operation):
        """Goes on with an operation."""
        self.is_telling = operation.word == "lock-drop" and operation.is_done()
        return self.fold.post(operation, "released") if operation.word == "notify" else {}


class Session:
    """A session with its lives."""

    def __init__(self, fold, name, site):
        self.fold, self.name, self.site, self.life = fold, name, site, 0
        # What each slot of the life that was stopped last may still send.
        self.late = {}
        # The notices that it has yet to hear.
        self.due = []
        self.begin()

    def begin(self):
        """Begins a life, which knows nothing."""
        self.is_running, self.slots = True, {}
        # The images whose lock counts as its own.
        self.owned = set()
        self.house = House(self.fold, self.instance())

    def instance(self):
        """Returns its latest life."""
        return f"{self.name}.{self.life}"

    def free(self):
        """Returns its lowest free slot."""
        return next(it for it in range(1, 66) if it not in self.slots)

    def count(self, operation):
        """Counts what an operation of its own says of its locks."""
        at = (operation.site(), operation.part()[1])
        word, answer = operation.word, operation.answer
        if (word, answer) == ("lock-take", "done"):
            self.owned.add(at)
            self.house.asked.discard(at)
        if word == "lock-drop" or (word, answer) == ("header-remove", "done"):
            self.owned.discard(at)
            self.house.asked.discard(at)

    def hear(self, notice):
        """Hears a notice: one that asks for a lock that it has is noted."""
        at = (notice.site, notice.image)
        if notice.kind == "ask" and at in self.owned:
            self.house.asked.add(at)


class Request:
    """A command in a slot. Its plan yields the words of which its next operation is one, is sent
    that operation, and does to the records what it did."""

    def __init__(self, fold, session, slot, line):
        self.fold, self.site, self.who = fold, session.site, session.instance()
        self.slot, self.line = slot, line.number
        self.command, self.words = line.words[1], line.words[2:]
        if self.command == "snap":
            self.command, self.words = f"snap {self.words[0]}", self.words[1:]
        # The image and its header, once they were looked at.
        self.name = self.words[0].partition("@")[0] if self.words else ""
        self.image = self.look = self.owner = None
        self.is_on_way = False
        self.told = {}
        self.plan = PLANS[self.command](self)
        self.wanted = next(self.plan)

    def feed(self, operation):
        """Goes on with an operation: what was worked out of it."""
        if operation.word not in self.wanted:
            raise NotOfThisScript(f"{operation.number}: line {self.line} doesn't want a {operation.word}")
        self.told = {}
        try:
            self.wanted = self.plan.send(operation)
        except (StopIteration, Refused):
            self.wanted = ()
        return self.told

    def records(self):
        """Returns what its site keeps."""
        return self.fold.sites[self.site]

    def look_at_header(self):
        """Goes by the image's header as it is now, from here on."""
        found = self.records().headers.get(self.image)
        if not found:
            raise Refused
        self.look = found.look()

    def snap(self):
        """Returns the snapshot that the words name, by the header that was looked at."""
        found = self.look.snap(self.words[0].partition("@")[2])
        if not found:
            raise Refused
        return found

    # ---- parts of plans

    def find(self):
        """Looks the name up."""
        operation = yield ("dir-find",)
        self.image = self.records().names.get(self.name) if operation.is_done() else None
        self.told["name"] = self.name

    def approach(self, *looks):
        """Goes the way of a change, with these looks behind each of its two at the header."""
        yield from self.find()
        yield ("header-get",)
        for word in looks:
            yield (word,)
        while True:
            operation = yield ("header-get", *WAY)
            self.is_on_way = operation.word in WAY
            if not self.is_on_way:
                break
            self.go_on_way(operation)
        self.look_at_header()
        self.told["is under the lock"] = True
        for word in looks:
            yield (word,)

    def go_on_way(self, operation):
        """Does a step on the way to the lock."""
        if operation.word == "lock-take":
            self.owner = self.fold.owner(self.site, self.image) if operation.answer == "held" else None
        if operation.word in ("block-add", "lock-break"):
            self.told["owner"] = self.owner
        if operation.word == "notify":
            self.told |= self.fold.post(operation, "ask")

    def extent(self):
        """Returns where the bytes of a write, discard or read begin and end."""
        at = int(self.words[1])
        return at, at + (len(self.words[2]) // 2 if self.command == "write" else int(self.words[2]))

    def note_state(self, operation, number, state):
        """Notes that an object has a state in the head's map."""
        self.told |= {"object": number, "state": state}
        if operation.is_done():
            self.fold.set_state(self.site, self.image, number, state)

    def change(self, operation, number, head):
        """Changes an object's head to what a function makes of it."""
        self.told["object"] = number
        if operation.is_done():
            there = self.records().objects.setdefault((self.image, number), DataObject())
            there.change(self.look.context(), head(there.head))
            self.fold.show_data(self.site, self.image, number)

    def write_piece(self, number, head, said):
        """Changes an object behind its state in the map."""
        self.note_state((yield ("map-set",)), number, 1)
        operation = yield ("data-write", "data-write-full")
        self.told |= said
        self.change(operation, number, head)

    def make_zero(self, number, parts):
        """Makes parts of an object zero, or takes it away with its states before and behind: as
        the first operation says."""
        operation = yield ("map-set", "data-zero")
        if operation.word == "data-zero":
            self.told |= {"at": parts[0][0], "length": sum(length for _, _, length in parts)}
            self.change(operation, number, lambda head: zeroed(head, parts))
            return
        self.note_state(operation, number, 2)
        self.change((yield ("data-remove",)), number, lambda head: None)
        self.note_state((yield ("map-set",)), number, 0)

    def read_piece(self, operation, snap):
        """Reads an object: the bytes that it shows, of its parts one after another."""
        number = operation.part()[2]
        there = self.records().objects.get((self.image, number), DataObject())
        self.told["object"] = number
        return there.view(snap)

    def set_size(self, size):
        """Sets the size: a larger one behind its room in the map, a smaller one behind zeros."""
        if size >= self.look.size:
            yield ("map-resize",)
        else:
            yield ("map-get",)
            states = dict(self.records().maps.get((self.image, 0), {}))
            for number in sorted(states):
                if parts := self.look.layout.parts(number, size, self.look.size):
                    yield from self.make_zero(number, parts)
        operation = yield ("header-set-size",)
        self.told["size"] = size
        if operation.is_done():
            self.records().headers[self.image].size = size
            self.fold.show_header(self.site, self.image)


def zeroed(head, parts):
    """Returns an object's head with zeros in some parts, or None where it isn't there."""
    for offset, _, length in parts:
        head = head and without(head, offset, length)
    return head


def with_parts(head, parts):
    """Returns an object's head with some parts, each its offset and its bytes."""
    head = head or ()
    for offset, data in parts:
        head = written(head, offset, data)
    return head


# ---- the plans of commands


def create(request):
    """The image's name, its map and its header."""
    size, *options = request.words[1:]
    given = dict(zip(options[::2], map(int, options[1::2])))
    whole = given.get("object", USUAL_OBJECT)
    layout = Layout(whole, given.get("unit", whole), given.get("count", 1))
    site = request.records()
    operation = yield ("dir-add",)
    request.told["name"] = request.name
    if operation.is_done():
        site.drawn += 1
        site.names[request.name] = request.image = site.drawn
        request.fold.show_names(request.site)
    yield ("map-resize",)
    operation = yield ("header-create",)
    if operation.is_done():
        site.headers[request.image] = Header(int(size), layout)
        request.fold.show_header(request.site, request.image)
        request.fold.show_lock(request.site, request.image)


def change_bytes(request):
    """`write` and `fill`: each object behind its state."""
    yield from request.approach()
    at, end = request.extent()
    data = bytes.fromhex(request.words[-1]) * (end - at if request.command == "fill" else 1)
    for number, parts in request.look.layout.pieces(at, end):
        cut = [(offset, data[place - at : place - at + length]) for offset, place, length in parts]
        said = {"bytes": short_bytes(b"".join(some for _, some in cut)), "at": parts[0][0]}
        yield from request.write_piece(number, lambda head, cut=cut: with_parts(head, cut), said)


def discard(request):
    """Each object is made zero, or goes."""
    yield from request.approach()
    for number, parts in request.look.layout.pieces(*request.extent()):
        yield from request.make_zero(number, parts)


def read(request):
    """A look, each object, and a look; and from the beginning where these differ."""
    yield from request.find()
    while True:
        operation = yield ("dir-find", "header-get", "data-read")
        if operation.word == "dir-find":
            request.look = None
            request.told["name"] = request.name
        elif operation.word == "header-get" and not request.look:
            request.look_at_header()
        elif operation.word == "data-read":
            snap = request.snap() if "@" in request.words[0] else None
            runs = request.read_piece(operation, snap and snap.id)
            number, (at, end) = operation.part()[2], request.extent()
            parts = request.look.layout.parts(number, at, end)
            shown = b"".join(seen(runs, offset, length) for offset, _, length in parts)
            request.told |= {"bytes": short_bytes(shown), "at": parts[0][0], "snap": snap and snap.name}
            # By the place in the reply, for whoever puts it together.
            request.told["shown"] = [(place - at, seen(runs, offset, length)) for offset, place, length in parts]


def resize(request):
    """The size, behind what it needs."""
    yield from request.approach()
    yield from request.set_size(int(request.words[1]))


def roll_back(request):
    """The snapshot's size, and then each object as the snapshot shows it."""
    yield from request.approach()
    snap = request.snap()
    yield from request.set_size(snap.size)
    for number, parts in request.look.layout.pieces(0, snap.size):
        runs = request.read_piece((yield ("data-read",)), snap.id)
        shown = b"".join(seen(runs, offset, length) for offset, _, length in parts)
        request.told |= {"bytes": short_bytes(shown), "at": 0, "snap": snap.name}
        if any(shown):
            said = {"bytes": short_bytes(shown), "at": 0}
            yield from request.write_piece(number, lambda head, runs=runs: runs, said)
        else:
            yield from request.make_zero(number, parts)


def take_snap(request):
    """The head's states as the snapshot's map, and then the snapshot."""
    yield from request.approach()
    yield ("map-get",)
    states = dict(request.records().maps.get((request.image, 0), {}))
    operation = yield ("map-put",)
    if operation.is_done():
        request.fold.put_map(request.site, request.image, operation.part()[2], states)
    operation = yield ("header-snap-add",)
    header = request.records().headers.get(request.image)
    request.told["name"] = name = request.words[0].partition("@")[2]
    if operation.is_done():
        header.taken += 1
        header.snaps.append(Snap(header.taken, name, header.size))
        request.fold.show_header(request.site, request.image)


def remove_snap(request):
    """The snapshot, and its map behind it."""
    yield from request.approach()
    operation = yield ("header-snap-remove",)
    header = request.records().headers.get(request.image)
    snap = request.snap()
    request.told["name"] = snap.name
    if operation.is_done():
        header.snaps.remove(snap)
        request.fold.show_header(request.site, request.image)
    operation = yield ("map-remove",)
    if operation.is_done():
        request.fold.put_map(request.site, request.image, operation.part()[2], {})


def remove_image(request):
    """The name, the header, and what nobody finds from then on."""
    yield from request.approach("watchers-get")
    yield ("map-get",)
    operation = yield ("dir-remove",)
    request.told["name"] = request.name
    if operation.is_done():
        site = request.records()
        site.names = {name: image for name, image in site.names.items() if image != request.image}
        request.fold.show_names(request.site)
    yield ("header-remove",)
    while (operation := (yield ("data-remove", "map-remove"))).word == "data-remove":
        request.change(operation, operation.part()[2], lambda head: None)
    if operation.is_done():
        request.fold.put_map(request.site, request.image, 0, {})


def rename(request):
    """One operation."""
    operation = yield ("dir-rename",)
    names = request.records().names
    request.told |= {"name": request.name, "to": request.words[1]}
    if operation.is_done():
        names[request.words[1]] = names.pop(request.name)
        request.fold.show_names(request.site)


def list_names(request):
    """One look."""
    yield ("dir-list",)


def look(request):
    """`info`, `snap ls` and `du`: the header, and for the last the map."""
    yield from request.find()
    yield ("header-get",)
    yield ("map-get",)


def close(request):
    """The lock, that it was released, and the watch."""
    yield from request.find()
    yield ("lock-drop",)
    operation = yield ("notify", "unwatch")
    if operation.word == "notify":
        request.told |= request.fold.post(operation, "released")
        yield ("unwatch",)


def quiesce(request):
    """The way of a change, and no more."""
    yield from request.approach()


def resume(request):
    """One look at the name."""
    yield from request.find()


def tell(request):
    """The bytes, to all who watch."""
    yield from request.find()
    operation = yield ("notify",)
    request.told |= request.fold.post(operation, "told", request.words[1])


PLANS = {"create": create, "write": change_bytes, "fill": change_bytes, "discard": discard, "read": read}
PLANS |= {"resize": resize, "snap rollback": roll_back, "snap create": take_snap, "snap rm": remove_snap}
PLANS |= {"rm": remove_image, "rename": rename, "ls": list_names, "info": look, "snap ls": look, "du": look}
PLANS |= {"close": close, "quiesce": quiesce, "resume": resume, "tell": tell}


class Fold:
    """The script, gone through line by line."""

    def __init__(self, lines, trace):
        self.lines, self.trace = lines, trace
        self.sites = {"a": Site(), "b": Site()}
        clients = [it.words for it in lines if it.words[0] == "client"]
        self.sessions = {name: Session(self, name, site) for _, name, site in clients}
        self.by_number = {it.number: it for it in lines}
        self.replies = {it.line: it.text for it in trace.replies}
        self.notices, self.lost = [], set()
        self.steps = []
        # What the step that is made changes.
        self.changes = {}
        self.place, self.done = 0, {"a": 0, "b": 0}
        # The line that is played, and the last one that was reached.
        self.by = self.reached = 0
        for session in self.sessions.values():
            self.show_session(session)

    # ---- what happened next

    def entry(self):
        """Returns the next line of the history, or None."""
        return self.trace.history[self.place] if self.place < len(self.trace.history) else None

    def is_next(self, word, *rest):
        """Returns whether this is the next line of the history."""
        entry = self.entry()
        return bool(entry) and entry.word == word and entry.rest[: len(rest)] == [*rest]

    def is_operation_next(self, cause):
        """Returns whether the next line of the history is an operation of this cause."""
        entry = self.entry()
        return bool(entry) and entry.word in OPERATIONS and entry.rest[0] == cause

    def next_word(self):
        """Returns the word of the operation that is the next line of the history. (The store may do
        steps before it, which the history hasn't.)"""
        number = self.entry().rest[1]
        log, place = self.trace.logs[number[0]], int(number[1:]) - 1
        return log[place].word if place < len(log) else ""

    def logged(self, site):
        """Returns the next line of a site's log, or None."""
        log = self.trace.logs[site]
        return log[self.done[site]] if self.done[site] < len(log) else None

    def take_operation(self):
        """Takes the next operation of the history: its line there, and that of its site's log."""
        entry = self.entry()
        operation = self.logged(entry.rest[1][0])
        if not operation or operation.number != entry.rest[1]:
            raise NotOfThisScript(f"h {entry.place}: {entry.rest[1]} isn't the next of its site's log")
        self.done[operation.site()] += 1
        self.place += 1
        return entry, operation

    # ---- what is noted

    def step(self, kind, **said):
        """Notes a step, with all that was changed since the last one."""
        made = Step(kind, self.by, changes=self.changes, **said)
        self.changes = {}
        self.steps.append(made)
        return made

    def put(self, key, value):
        """Notes that the state has this value from now on."""
        self.changes[key] = value

    def show_session(self, session):
        """Notes a session's life, whether it runs, and what is in its slots."""
        slots = {slot: it.line for slot, it in sorted(session.slots.items())}
        self.put(f"session/{session.name}", {"life": session.life, "runs": session.is_running, "slots": slots})

    def show_names(self, site):
        """Notes the names of a site."""
        self.put(f"{site}/names", dict(sorted(self.sites[site].names.items())))

    def show_header(self, site, image):
        """Notes an image's header, or that it is gone."""
        header = self.sites[site].headers.get(image)
        if not header:
            self.put(f"{site}/{image}/header", None)
            return
        objects = header.layout.objects(header.size)
        shown = {"size": header.size, "objects": objects, "layout": list(header.layout)}
        self.put(f"{site}/{image}/header", shown | {"snaps": [list(it) for it in header.snaps]})

    def show_lock(self, site, image):
        """Notes who has an image's lock, by which notices it was asked for, and who watches."""
        records = self.sites[site]
        shown = {"owner": self.owner(site, image), "asked": list(records.asked.get(image, []))}
        shown["watchers"] = list(records.watchers.get(image, []))
        self.put(f"{site}/{image}/lock", shown if image in records.headers else None)

    def show_notice(self, notice):
        """Notes a notice, and whether it was heard or lost."""
        shown = {"from": notice.sender, "to": notice.to, "site": notice.site, "image": notice.image}
        shown |= {"kind": notice.kind, "said": notice.said, "heard": notice.heard, "lost": notice.is_lost}
        self.put(f"notice/{notice.number}", shown)

    def set_state(self, site, image, number, state):
        """Sets an object's state in the map of an image's head."""
        states = self.sites[site].maps.setdefault((image, 0), {})
        states.pop(number, None)
        if state:
            states[number] = state
        self.put(f"{site}/{image}/map/0/{number}", state or None)

    def put_map(self, site, image, snap, states):
        """Puts a map in the place of a snapshot's, or of the head's."""
        maps = self.sites[site].maps
        for number in {**maps.get((image, snap), {}), **states}:
            self.put(f"{site}/{image}/map/{snap}/{number}", states.get(number))
        maps[image, snap] = states

    def show_data(self, site, image, number):
        """Notes what an object has, and what it keeps for snapshots."""
        there = self.sites[site].objects[image, number]
        kept = {snap: short(runs) for snap, runs in sorted(there.kept.items())}
        self.put(f"{site}/{image}/data/{number}", {"head": short(there.head), "seq": there.seq, "kept": kept})

    # ---- locks and notices

    def owner(self, site, image):
        """Returns who has an image's lock, or None."""
        header = self.sites[site].headers.get(image)
        return header and header.owner

    def set_owner(self, site, image, owner):
        """Notes that an image's lock has another owner, or none: whoever was asked is no more."""
        self.sites[site].headers[image].owner = owner
        self.sites[site].asked.pop(image, None)

    def post(self, operation, kind, said=""):
        """Posts a notice to each watcher but the sender, where the operation was done. Returns what
        was worked out."""
        told = {"kind": kind, "posted": []}
        if not operation.is_done():
            return told
        site, image = operation.site(), operation.part()[1]
        for watcher in self.sites[site].watchers.get(image, []):
            if watcher != operation.who:
                number = len(self.notices) + 1
                notice = Notice(number, operation.who, watcher, site, image, kind, said)
                notice.is_lost = number in self.lost
                self.notices.append(notice)
                self.sessions[watcher.rpartition(".")[0]].due.append(number)
                self.show_notice(notice)
                told["posted"].append(number)
                if kind == "ask" and self.owner(site, image) == watcher:
                    self.sites[site].asked.setdefault(image, []).append(number)
        self.show_lock(site, image)
        return told

    def deliver(self, number):
        """Delivers a notice: whom it is for hears it, if it runs."""
        if not 0 < number <= len(self.notices):
            return
        notice = self.notices[number - 1]
        session = self.sessions[notice.to.rpartition(".")[0]]
        if not session.is_running or session.instance() != notice.to:
            return
        notice.heard += 1
        session.hear(notice)
        self.show_notice(notice)
        self.step("heard", who=notice.to, told={"notice": number, "times": notice.heard})

    def lose(self, number):
        """Notes that no round delivers a notice."""
        self.lost.add(number)
        if 0 < number <= len(self.notices):
            notice = self.notices[number - 1]
            notice.is_lost = True
            self.show_notice(notice)
            self.step("lose", who=notice.to, told={"notice": number})

    # ---- operations

    def apply(self, operation, fenced):
        """Does what an operation does to a header's lock and watchers, or to the blocklist, and
        returns what was worked out of it."""
        site, image, word = self.sites[operation.site()], operation.part()[1], operation.word
        if word == "lock-take" and operation.answer == "held":
            return {"owner": self.owner(operation.site(), image)}
        if word == "watchers-get" and operation.is_done():
            return {"watchers": list(site.watchers.get(image, []))}
        if not operation.is_done():
            return {}
        if word in ("lock-take", "lock-drop", "lock-break"):
            self.set_owner(operation.site(), image, operation.who if word == "lock-take" else None)
        elif word == "watch" and operation.who not in site.watchers.setdefault(image, []):
            site.watchers[image].append(operation.who)
        elif word == "unwatch" and operation.who in site.watchers.get(image, []):
            site.watchers[image].remove(operation.who)
        elif word == "header-remove":
            self.remove_header(operation.site(), image)
        elif word == "block-add":
            site.fenced.append(fenced)
            self.put(f"{operation.site()}/fenced", list(site.fenced))
            return {"owner": fenced}
        else:
            return {}
        self.show_lock(operation.site(), image)
        return {}

    def remove_header(self, site, image):
        """Removes a header, and with it its lock and all who watch."""
        for of_image in (self.sites[site].headers, self.sites[site].watchers, self.sites[site].asked):
            of_image.pop(image, None)
        self.show_header(site, image)

    def operate(self, session, request, cause, slot):
        """Takes the next operation, which is a request's, and notes it. Returns the operation."""
        entry, operation = self.take_operation()
        fenced = entry.rest[2] if entry.word == "fence" else None
        told = self.apply(operation, fenced)
        told |= request.feed(operation)
        if cause != "late":
            session.count(operation)
        effect = entry.rest[2] if entry.word == "effect" else ""
        said = {"operation": operation, "cause": cause, "effect": effect, "told": told}
        self.step("operation", who=operation.who, slot=slot, line=request.line, place=entry.place, **said)
        return operation

    # ---- events

    def start_all(self):
        """Starts each command that the history starts now."""
        while self.is_next("start") and int(self.entry().rest[0]) <= self.reached:
            number, instance = int(self.entry().rest[0]), self.entry().rest[1]
            session = self.sessions[instance.rpartition(".")[0]]
            if not session.is_running or session.instance() != instance:
                return
            if number not in self.by_number or not self.by_number[number].is_command():
                raise NotOfThisScript(f"h {self.place + 1}: line {number} gives no command")
            slot = session.free()
            session.slots[slot] = Request(self, session, slot, self.by_number[number])
            self.place += 1
            self.show_session(session)
            self.step("start", who=instance, slot=slot, line=number, place=self.place)

    def poll(self, session, slot):
        """Polls a slot. Returns `went on`, `asked again`, or nothing where it waits."""
        if not session.is_running:
            return ""
        if slot == 0:
            return self.poll_house(session)
        request = session.slots.get(slot)
        if request and self.is_next("reply", str(request.line)):
            self.reply(session, request)
            return "went on"
        if not request or not self.is_operation_next(str(request.line)):
            return ""
        operation = self.operate(session, request, "command", slot)
        is_again = request.is_on_way and (operation.word, operation.answer) in ASKS_AGAIN
        if self.is_next("reply", str(request.line)):
            self.reply(session, request)
        return "asked again" if is_again else "went on"

    def poll_house(self, session):
        """Polls slot 0: a lock is let go that was asked for."""
        if not session.house.wanted or not self.is_operation_next(f"house:{session.instance()}"):
            return ""
        self.operate(session, session.house, "house", 0)
        return "went on"

    def reply(self, session, request):
        """Takes a command's reply."""
        del session.slots[request.slot]
        self.place += 1
        self.show_session(session)
        told = {"reply": self.replies[request.line]}
        self.step("reply", who=request.who, slot=request.slot, line=request.line, place=self.place, told=told)
        self.start_all()

    def stop(self, session):
        """Stops a session; its commands without a reply are lost."""
        if not session.is_running:
            return
        session.is_running, session.late = False, {0: session.house, **session.slots}
        slots, session.slots = session.slots, {}
        self.place += 1
        self.show_session(session)
        self.step("stop", who=session.instance(), place=self.place)
        while self.is_next("lost"):
            line = int(self.entry().rest[0])
            slot = next(slot for slot, it in slots.items() if it.line == line)
            self.place += 1
            self.step("lost", who=session.instance(), slot=slot, line=line, place=self.place)

    def restart(self, session):
        """Begins a session's next life."""
        if session.is_running:
            return
        session.life += 1
        session.begin()
        self.show_session(session)
        self.step("restart", who=session.instance())

    def late(self, session, slot):
        """Lets come what a slot of the life that was stopped last wanted."""
        sender = session.late.get(slot)
        if not sender or not self.is_operation_next(f"late:{sender.who}"):
            return
        if self.next_word() in sender.wanted:
            del session.late[slot]
            self.operate(session, sender, "late", slot)

    def store(self, site, word, image, told):
        """Takes a step of the store, where its site's log has it next."""
        operation = self.logged(site)
        if not operation or (operation.who, operation.word) != ("store", word):
            raise NotOfThisScript(f"site {site}: the log has no {word} of image {image}")
        self.done[site] += 1
        self.step("operation", who="store", operation=operation, cause="store", told=told)

    def expire(self, session, site, image):
        """Ends the watch of the oldest life of a session that watches an image."""
        watchers = self.sites[site].watchers.get(image, [])
        lives = [it for it in watchers if it.rpartition(".")[0] == session.name]
        if lives:
            oldest = min(lives, key=lambda it: int(it.rpartition(".")[2]))
            watchers.remove(oldest)
            self.show_lock(site, image)
            self.store(site, "expire", image, {"owner": oldest})

    def trim(self, site, image, number):
        """Drops what an object keeps for snapshots that aren't listed, if it is there."""
        there = self.sites[site].objects.get((image, number))
        if there:
            header = self.sites[site].headers.get(image)
            there.trim([it.id for it in header.snaps] if header else [])
            self.show_data(site, image, number)
            self.store(site, "trim", image, {"object": number})

    # ---- the lines of a script

    def settle(self, rounds):
        """Plays rounds, until as many as may be were idle in a row."""
        idle = 0
        while rounds and idle < MOST_IDLE:
            outcomes = {it for session in self.sessions.values() for it in self.turn(session)}
            if not any(outcomes):
                # Nothing happened, and so it is in each round from here on.
                return
            idle = 0 if "went on" in outcomes else idle + 1
            rounds -= 1

    def turn(self, session):
        """Plays the turn of a session in a round. Returns what came of its polls."""
        if not session.is_running:
            return []
        due, session.due = session.due, []
        for number in due:
            if not self.notices[number - 1].heard and number not in self.lost:
                self.deliver(number)
        outcomes = [self.poll(session, 0)]
        return outcomes + [self.poll(session, slot) for slot in sorted(session.slots)]

    def poll_times(self, session, slot, times):
        """Polls a slot so many times."""
        while times and self.poll(session, slot):
            times -= 1

    def poll_until(self, session, slot, word):
        """Polls a slot until it wants an operation of this word. Returns whether it surely came to none."""
        for _ in range(MOST_POLLS):
            request = session.slots.get(slot)
            cause = f"house:{session.instance()}" if slot == 0 else str(request and request.line)
            if self.is_operation_next(cause) and self.next_word() == word:
                return False
            if not self.poll(session, slot):
                break
        return word not in self.may_want(session, slot)

    def may_want(self, session, slot):
        """Returns the words of all operations that a slot may want now."""
        if slot == 0:
            # (which of the two it wants rests on what was answered)
            return ("lock-drop", "notify") if session.is_running and session.house.wanted else ()
        request = session.slots.get(slot)
        return request.wanted if request else ()

    def play(self, line):
        """Plays a line."""
        self.by = self.reached = line.number
        made = self.step("line", line=line.number if line.is_command() else None)
        word, rest = line.words[0], line.words[1:]
        session = self.sessions.get(rest[0]) if rest else None
        if line.is_command():
            self.start_all()
        elif word == "@poll":
            self.poll_times(session, int(rest[1]), int(rest[2]) if rest[2:] else 1)
        elif word == "@until":
            made.told["is missed"] = self.poll_until(session, int(rest[1]), rest[2])
        elif word == "@settle":
            self.settle(int(rest[0]))
        elif word in ("@deliver", "@lose"):
            (self.deliver if word == "@deliver" else self.lose)(int(rest[0]))
        elif word == "@expire":
            self.expire(session, rest[1], int(rest[2]))
        elif word == "@late":
            self.late(session, int(rest[1]))
        elif word == "@trim":
            self.trim(rest[0], int(rest[1]), int(rest[2]))
        elif word in ("@stop", "@restart"):
            (self.stop if word == "@stop" else self.restart)(session)
            self.start_all()

    def play_all(self):
        """Plays all lines, and the rounds that close a script. Returns the steps."""
        for line in self.lines:
            if line.words[0] != "client":
                self.play(line)
        self.by = END
        self.step("line")
        self.settle(float("inf"))
        left = [it[self.done[site] :] for site, it in self.trace.logs.items()]
        if self.entry() or any(left):
            raise NotOfThisScript(f"the trace goes on behind h {self.place}, and the script doesn't")
        replied = {it.line for it in self.steps if it.kind == "reply"}
        for reply in self.trace.replies:
            if reply.line not in replied:
                self.step("end", who=reply.session, line=reply.line, told={"reply": reply.text})
        return self.steps


def steps(script, output):
    """Returns what happened, step by step: of a script, and what `run --trace` prints of it."""
    return Fold(script_of(script), trace_of(output)).play_all()
