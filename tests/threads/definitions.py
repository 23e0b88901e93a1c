"""Whether a list of events is a legal interleaving of a program's threads, straight from the definitions of docs/INITIALIZATION.md:
each thread's events are matched against the words of its main class in every way there is, and each class's against its labels and
the values of its fields (JLS SE 8 12.4.2, JVMS SE 8 5.5). Slow, and for short lists."""
from classes import MACHINE_ERRORS, NO_CLASS, NO_MEMORY, is_error

NORMAL = ("normal",)


class Words:
    """The ways in which one thread's events are words. An event is a tuple: its kind, its class, and what else it has."""

    def __init__(self, program, needs, events):
        self.program, self.needs, self.events = program, needs, events
        # Whether the events end where a word goes on: each place in a word has an end after it, since the machine may end a thread.
        self.is_front = False

    def at(self, place):
        if place == len(self.events):
            self.is_front = True
            return (None, None)
        return self.events[place]

    def request(self, name, start):
        """The procedure for a class: all places at which it may be over, each with its result."""
        starts = [start, start + 1] if self.at(start)[:2] == ("step2", name) else [start]
        for place in starts:
            for error in MACHINE_ERRORS:
                yield place, ("ended", error)
            kind, of, *_ = self.at(place)
            if of != name:
                continue
            if kind in ("step3", "step4"):
                yield place + 1, NORMAL
            elif kind == "step5":
                yield place + 1, ("abrupt", NO_CLASS)
            elif kind == "step6":
                yield from self.begun(name, place + 1)

    def begun(self, name, start):
        """After its step 6."""
        places = {start}
        for needed in [*self.needs[name], None]:
            after = set()
            for place in places:
                if self.at(place) == ("step7", name, NO_MEMORY):
                    yield place + 1, ("ended", NO_MEMORY)
                if needed is None:
                    if self.at(place) == ("step9", name):
                        yield from self.closed(name, place + 1)
                    continue
                for end, result in self.request(needed, place):
                    if result == NORMAL:
                        after.add(end)
                    elif self.at(end) == ("step7", name, result[1]):
                        yield end + 1, result
            places = after

    def closed(self, name, start):
        """After its step 9."""
        for end, result in self.body(start):
            kind, of, *rest = self.at(end)
            if of != name:
                continue
            if kind == "step10" and result == NORMAL:
                yield end + 1, NORMAL
            elif kind == "step12" and result == ("abrupt",) and is_error(self.program, rest[0]):
                yield end + 1, ("abrupt", rest[0])
            elif kind == "step12" and result == ("ended", rest[0]):
                yield end + 1, result

    def body(self, start):
        """A body: it may be over after each of its items."""
        seen, places = set(), [start]
        while places:
            place = places.pop()
            if place in seen:
                continue
            seen.add(place)
            yield place, NORMAL
            yield place, ("abrupt",)
            for error in MACHINE_ERRORS:
                yield place, ("ended", error)
            if self.at(place)[0] == "print":
                places.append(place + 1)
            for name in self.program:
                for end, result in self.request(name, place):
                    if result[0] == "ended":
                        yield end, result
                        continue
                    places.append(end)
                    if result == NORMAL and self.at(end)[0] in ("get", "put") and self.at(end)[1] == name:
                        places.append(end + 1)

    def are_whole(self, main):
        """Whether they are a word of the main class; sets whether they are the front of one."""
        ends = set()
        for place, result in self.request(main, 0):
            ends.add(place)
            if result == NORMAL:
                ends |= {end for end, _ in self.body(place)}
        return len(self.events) in ends


def label_of(history):
    """The label of a class after these events of it, each with its thread."""
    kinds = {event[0]: thread for thread, event in history}
    if "step7" in kinds or "step12" in kinds:
        return "erroneous"
    if "step10" in kinds:
        return "initialized"
    return ("in progress", kinds["step6"]) if "step6" in kinds else "prepared"


def is_allowed(history, thread, event):
    label, kind, mine = label_of(history), event[0], ("in progress", thread)
    if kind == "step6":
        return label == "prepared"
    if kind == "step2":
        return label[0] == "in progress" and label != mine
    if kind in ("step3", "step7", "step9", "step10", "step12"):
        return label == mine
    if kind in ("step4", "step5"):
        return label == ("initialized" if kind == "step4" else "erroneous")
    return label in ("initialized", mine)


def is_held(program, history, event):
    """Whether a read gives what was written last, or the field's constant once step 6 is made, or its default."""
    kind, name, *rest = event
    if kind != "get":
        return True
    field, value = rest
    written = [it[3] for _, it in history if it[0] == "put" and it[2] == field]
    if written:
        return value == written[-1]
    constant = program[name].fields[field]
    begun = any(it[0] == "step6" for _, it in history)
    default = "0" if field.endswith(":I") else "null"
    return value == (str(constant) if begun and constant is not None else default)


def part_of(program, needs, events, thread):
    return Words(program, needs, [event for of, event in events if of == thread])


def history_of(events, event):
    """The events before this one that have its class."""
    return [it for it in events if it[1][1] == event[1] and it[1][0] != "print"]


def agrees(program, events):
    """Which rule of its class the last event breaks, or None."""
    *before, (thread, event) = events
    if event[0] == "print":
        return None
    history = history_of(before, event)
    if not is_allowed(history, thread, event):
        return "label"
    return None if is_held(program, history, event) else "value"


def broken_by(program, needs, mains, events):
    """Which rule the last event breaks, or None, where those before it are a beginning."""
    thread, _ = events[-1]
    words = part_of(program, needs, events, thread)
    fits = words.are_whole(mains[thread]) or words.is_front
    return agrees(program, events) if fits else "word"


def verdict_on(program, needs, mains, events):
    """What `jinit check` must say of these events, each with its thread."""
    for number in range(len(events)):
        rule = broken_by(program, needs, mains, events[:number + 1])
        if rule:
            return f"illegal at {number}: {rule}"
    whole = all(part_of(program, needs, events, thread).are_whole(main) for thread, main in enumerate(mains))
    return "legal" if whole else f"illegal at {len(events)}: end"
