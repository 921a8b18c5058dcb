"""Which lines of a schedule did nothing, or never came to what they wait for: `facts`.

Told is only what is sure. So nothing is told of an `@until` whose request may want an operation of the
word and didn't do it later, nor of an `@late` that may be another slot's.
"""
from .words import some


def facts(lines, steps):
    """Returns why lines did nothing, as texts by the line's number, in order."""
    of = Lines(lines, steps)
    found = {}
    for number, did in by_line(steps):
        of.begin(did)
        if text := of.text(number, did):
            found[number] = [text]
    return found


def by_line(steps):
    """Yields the lines of a script that was played, each with its steps."""
    did = []
    for step in steps:
        if step.kind == "line":
            if did:
                yield did[0].by, did
            did = []
        did.append(step)


def did_any(did, *kinds):
    """Returns whether there is a step of these kinds."""
    return any(it.kind in kinds for it in did)


def name_of(instance):
    """Returns the session of an instance."""
    return instance.rpartition(".")[0]


class Lines:
    """The lines of a script, each with the state before it and behind it."""

    def __init__(self, lines, steps):
        self.lines = {it.number: it for it in lines}
        self.before, self.state = {}, {}
        # Of a session: the instance that was stopped last, and what was in its slots.
        self.stopped = {}
        # Of such an instance: the slots whose operation arrived late; and all of whom one did.
        self.arrived = set()
        self.are_late = {it.who for it in steps if it.cause == "late"}
        notices = {key for step in steps for key in step.changes if key.startswith("notice/")}
        self.notices = len(notices)

    def begin(self, did):
        """Takes the steps of the next line."""
        # (what the first one of them changes was so before)
        self.before = self.state | did[0].changes
        self.state = dict(self.before)
        for step in did[1:]:
            if step.kind == "stop":
                self.stopped[name_of(step.who)] = step.who, self.session(name_of(step.who), self.state)["slots"]
            self.state |= step.changes

    def session(self, name, state):
        """Returns a session's life, whether it runs, and its slots."""
        return state[f"session/{name}"]

    def text(self, number, did):
        """Returns why a line did nothing, or never came to what it waits for; or nothing."""
        line = self.lines.get(number)
        tell = TELL.get(line.words[0]) if line else None
        return tell(self, line.words, did) if tell else ""

    def of_poll(self, words, did):
        """Tells of an `@poll` that nobody acted on."""
        if did_any(did, "operation", "reply"):
            return ""
        return f"did nothing: {self.why_not_polled(words[1], int(words[2]))}"

    def why_not_polled(self, name, slot):
        """Returns why a poll of a slot does nothing."""
        session = self.session(name, self.before)
        if not session["runs"]:
            return f"{name} is stopped"
        if slot == 0:
            return f"{name} has no lock to let go"
        if slot in session["slots"]:
            return f"line {session['slots'][slot]}, which is in slot {slot} of {name}, waits"
        return f"nobody is in slot {slot} of {name}{others(session['slots'], 'is')}"

    def of_until(self, words, did):
        """Tells of an `@until` that surely never came to an operation of its word."""
        if not did[0].told.get("is missed"):
            return ""
        name, slot, word = words[1], int(words[2]), words[3]
        if not did_any(did, "operation", "reply"):
            return f"did nothing, and came to no {word}: {self.why_not_polled(name, slot)}"
        held = self.session(name, self.state)["slots"].get(slot)
        if slot and held:
            return f"came to no {word}: line {held} is still in slot {slot} of {name}{self.asking(held, did)}"
        ended = [it.line for it in did if it.kind == "reply" and it.slot == slot]
        why = f": line {ended[-1]} came to its reply without one" if ended else ""
        return f"came to no {word}{why}"

    def asking(self, line, did):
        """Returns that a command asked for a lock to the last, and by what its owner would hear so, as a text
        to stand behind another one."""
        takes = [it for it in did if it.line == line and it.operation and it.operation.word == "lock-take"]
        if not takes or takes[-1].operation.answer != "held":
            return ""
        who, owner = takes[-1].who, takes[-1].told["owner"]
        asked = [it for key, it in self.state.items() if key.startswith("notice/") and is_asked(it, who, owner)]
        is_deaf = asked and not any(it["heard"] for it in asked)
        how = ", which hears so by an `@deliver` or in a round" if is_deaf and self.does_run(owner) else ""
        return f", and asks for a lock that {owner} has{how}"

    def does_run(self, instance):
        """Returns whether an instance runs: its session, in this life."""
        name = name_of(instance)
        session = self.session(name, self.state)
        return session["runs"] and instance == f"{name}.{session['life']}"

    def of_settle(self, words, did):
        """Tells of an `@settle` without rounds."""
        return "did nothing: it plays no round" if int(words[1]) == 0 else ""

    def of_late(self, words, did):
        """Tells of an `@late` where nothing can have arrived."""
        name, slot = words[1], int(words[2])
        if name not in self.stopped:
            return f"did nothing: {name} was never stopped"
        who, slots = self.stopped[name]
        if did_any(did, "operation"):
            self.arrived.add((who, slot))
            return ""
        if (who, slot) in self.arrived:
            return f"did nothing: what {who} had sent from slot {slot} arrived before, and does so once"
        if slot and slot not in slots:
            return f"did nothing: nobody was in slot {slot} when {who} stopped{others(slots, 'was')}"
        if who not in self.are_late:
            return f"did nothing: what was in slot {slot} when {who} stopped wanted no operation"
        return ""

    def of_stop(self, words, did):
        """Tells of an `@stop` of a session that is stopped."""
        return "" if did_any(did, "stop") else f"did nothing: {words[1]} is stopped already"

    def of_restart(self, words, did):
        """Tells of an `@restart` of a session that runs."""
        return "" if did_any(did, "restart") else f"did nothing: {words[1]} runs"

    def of_deliver(self, words, did):
        """Tells of an `@deliver` that nobody heard."""
        notice = self.before.get(f"notice/{words[1]}")
        if did_any(did, "heard"):
            return ""
        if not notice:
            return f"did nothing: notice {words[1]} isn't posted yet"
        return f"did nothing: notice {words[1]} is for {notice['to']}, which is stopped"

    def of_lose(self, words, did):
        """Tells of an `@lose` of a notice that never came, or that was heard before."""
        number, notice = int(words[1]), self.before.get(f"notice/{words[1]}")
        if notice and notice["heard"]:
            return f"did nothing: {notice['to']} heard notice {number} before"
        if 0 < number <= self.notices:
            return ""
        last = f"the last one is notice {self.notices}" if self.notices else "there was none at all"
        return f"did nothing: no notice ever has the number {number}; {last}"

    def of_expire(self, words, did):
        """Tells of an `@expire` of a watch that isn't there."""
        if did_any(did, "operation"):
            return ""
        name, site, image = words[1:]
        if not self.before.get(f"{site}/{image}/header"):
            return f"did nothing: site {site} has no image {image}"
        watchers = self.before[f"{site}/{image}/lock"]["watchers"]
        return f"did nothing: {name} doesn't watch image {image} of site {site}; watched by {some(watchers)}"

    def of_trim(self, words, did):
        """Tells of an `@trim` of an object that isn't there."""
        if did_any(did, "operation"):
            return ""
        return f"did nothing: image {words[2]} of site {words[1]} has no object {words[3]}"


def is_asked(notice, who, owner):
    """Returns whether a notice asks an instance for a lock, and is by this one."""
    return (notice["kind"], notice["from"], notice["to"]) == ("ask", who, owner)


def others(slots, verb):
    """Returns which commands are in other slots, as a text to stand behind another one."""
    found = [f"line {line} {verb} in slot {slot}" for slot, line in sorted(slots.items())]
    return f"; {some(found)}" if found else ""


# What tells of each line of a schedule.
TELL = {f"@{it.removeprefix('of_')}": getattr(Lines, it) for it in vars(Lines) if it.startswith("of_")}
