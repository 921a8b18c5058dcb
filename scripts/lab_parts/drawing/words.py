"""A sentence for each step."""

STATES = {0: "doesn't exist", 1: "may exist", 2: "is about to go"}
WHY = {"none": "it isn't there", "exists": "it is there already", "full": "there is no room"}
WHY |= {"changed": "the lock isn't its own", "held": "another one has the lock"}
# How much of a reply a sentence has.
MOST_REPLY = 64


def some(words):
    """Returns words as a text: `a, b and c`."""
    *first, last = [str(it) for it in words] or ["nobody"]
    return f"{', '.join(first)} and {last}" if first else last


class Speaker:
    """Tells steps, one after another: it knows the names of images and whom notices are for."""

    def __init__(self, lines):
        self.texts = {it.number: it.text for it in lines}
        self.names, self.notices = {}, {}

    def name(self, site, image):
        """Returns the name of an image, the last one where it has none any more."""
        return self.names.get((site, image), f"image {image}")

    def learn(self, step):
        """Keeps what a step changes that later ones are told by."""
        for key, value in step.changes.items():
            first, _, rest = key.partition("/")
            if rest == "names":
                self.names |= {(first, image): name for name, image in value.items()}
            elif first == "notice":
                self.notices[int(rest)] = value

    def tell(self, step):
        """Returns what a step was, as a sentence without who did it."""
        self.learn(step)
        return getattr(self, f"tell_{step.kind}")(step)

    def tell_line(self, step):
        """Returns the line, as it stands in the script."""
        return self.texts.get(step.by, "(the end: rounds, until nothing is left to do)")

    def tell_start(self, step):
        """Returns which command begins."""
        return f"begins line {step.line}: {self.texts[step.line]}"

    def tell_reply(self, step):
        """Returns the reply, its first letters where it is long."""
        reply = step.told["reply"]
        return f"has the reply to line {step.line}: {reply[:MOST_REPLY]}{'..' if reply[MOST_REPLY:] else ''}"

    def tell_end(self, step):
        """Returns what stands for a reply at the end."""
        return f"line {step.line} has no reply: {step.told['reply']}"

    def tell_stop(self, step):
        """Returns that a session stops."""
        return "stops"

    def tell_lost(self, step):
        """Returns that a command is lost."""
        return f"line {step.line} is lost: it gets no reply"

    def tell_restart(self, step):
        """Returns that a life begins."""
        return "begins: the session's next life"

    def tell_heard(self, step):
        """Returns which notice is heard."""
        number = step.told["notice"]
        again = " again" if step.told["times"] > 1 else ""
        return f"hears notice {number}{again}: {self.said(self.notices[number])}"

    def tell_lose(self, step):
        """Returns which notice is lost."""
        return f"won't hear notice {step.told['notice']}: it is lost"

    def said(self, notice):
        """Returns what a notice says."""
        image = self.name(notice["site"], notice["image"])
        if notice["kind"] == "told":
            return f"{notice['from']} says {notice['said']}"
        if notice["kind"] == "ask":
            return f"{notice['from']} wants the lock of {image}"
        return f"the lock of {image} is free"

    def tell_operation(self, step):
        """Returns what an operation does, and why it is refused."""
        operation = step.operation
        image = self.name(operation.site(), operation.part()[1])
        text = self.deed(step, operation.word, step.told, image)
        if step.cause == "late":
            text = f"late: {text}"
        if operation.answer == "fenced":
            return f"{text}: refused, {step.who} is fenced"
        if operation.answer in WHY and operation.word not in ("lock-take", "dir-find", "data-read"):
            return f"{text}: refused, {WHY[operation.answer]}"
        return text

    def deed(self, step, word, told, image):
        """Returns what an operation does."""
        kind = word.partition("-")[0]
        if kind == "data":
            return self.of_data(step, word, told)
        if kind == "map":
            return self.of_map(step, word, told, image)
        if kind in ("dir", "header"):
            return self.of_names(step, word, told, image)
        return self.of_lock(step, word, told, image)

    def of_names(self, step, word, told, image):
        """Returns what an operation on names or a header does."""
        name = told.get("name")
        texts = {
            "dir-find": f"looks up {name}",
            "dir-add": f"adds the name {name}",
            "dir-rename": f"renames {name} to {told.get('to')}",
            "dir-remove": f"takes the name {name} away",
            "dir-list": "lists the names",
            "header-create": f"makes the header of {image}",
            "header-get": f"looks at the header of {image}",
            "header-set-size": f"sets the size of {image} to {told.get('size')}",
            "header-snap-add": f"takes the snapshot {image}@{name}",
            "header-snap-remove": f"removes the snapshot {image}@{name}",
            "header-remove": f"removes the header of {image}: lock and watchers go",
        }
        text = texts[word]
        if word == "dir-find" and step.operation.answer == "none":
            return f"{text}: there is none"
        return f"{text} under the lock" if told.get("is under the lock") else text

    def of_map(self, step, word, told, image):
        """Returns what an operation on a map does."""
        snap = step.operation.part()[2]
        texts = {
            "map-resize": f"makes room in the map of {image}",
            "map-get": f"looks at the map of {image}",
            "map-put": f"copies the map of {image} for its next snapshot",
            "map-remove": f"removes the map of {f'a snapshot of {image}' if snap else image}",
        }
        if word == "map-set":
            return f"notes in the map that object {told.get('object')} {STATES.get(told.get('state'))}"
        return texts[word]

    def of_data(self, step, word, told):
        """Returns what an operation on an object does."""
        number = told.get("object", step.operation.part()[2])
        snap = f" at {told['snap']}" if told.get("snap") else ""
        if word == "data-read":
            shown = "it isn't there: zeros" if step.operation.answer == "none" else told.get("bytes")
            return f"reads object {number}{snap}" + ("" if step.operation.answer == "fenced" else f": {shown}")
        texts = {
            "data-write": f"writes {told.get('bytes')} at byte {told.get('at')} of object {number}",
            "data-write-full": f"replaces object {number} by {told.get('bytes')}",
            "data-zero": f"makes {told.get('length')} bytes from {told.get('at')} on of object {number} zero",
            "data-remove": f"removes object {number}",
        }
        return texts[word]

    def of_lock(self, step, word, told, image):
        """Returns what an operation on a lock, on watchers or on the blocklist does, and what the store
        does."""
        if word == "lock-take" and step.operation.answer == "held":
            return f"wants the lock of {image}: {told['owner']} has it"
        if word == "watchers-get":
            shown = f": {some(told['watchers'])}" if "watchers" in told else ""
            return f"looks who watches {image}{shown}"
        if word == "notify":
            return self.of_notify(told, image)
        return {
            "lock-take": f"takes the lock of {image}",
            "lock-drop": f"lets the lock of {image} go",
            "lock-break": f"breaks {told.get('owner')}'s lock of {image}",
            "watch": f"watches {image}",
            "unwatch": f"ends its watch of {image}",
            "block-add": f"fences {told.get('owner')}: it is refused from now on",
            "expire": f"ends {told.get('owner')}'s watch of {image}",
            "trim": f"trims object {told.get('object')} of {image}",
        }[word]

    def of_notify(self, told, image):
        """Returns what a notification says, and by which notices."""
        kinds = {"ask": f"asks for the lock of {image}", "released": f"says that the lock of {image} is free"}
        posted = [f"notice {it} to {self.notices[it]['to']}" for it in told["posted"]]
        text = kinds.get(told["kind"], f"tells the watchers of {image}")
        return f"{text}: {some(posted)}" if posted else f"{text}: nobody else watches"
