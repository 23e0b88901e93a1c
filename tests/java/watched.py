"""Runs Jasmin files on the plain machine of tests/code, and says why HotSpot can't be asked of them, or is known to answer otherwise."""

import sys
from collections import Counter
from pathlib import Path

sys.path.append(str(Path(__file__).resolve().parents[1] / "code"))
import assemble
import calls
import instructions
from arithmetic import JUMPS, SWITCHES, narrowed
from hierarchy import Program
from machine import Machine, Thrown
from objects import NO_CLASS, NULL, OUT, Reference
from program import INTS, LIBRARY, STREAM, Class, Field, Method, Refused, signature

sys.setrecursionlimit(100_000)

OTHER_WORDS = {"goto_w": "goto", "invokenonvirtual": "invokespecial", "int2byte": "i2b", "int2char": "i2c", "int2short": "i2s"}
OTHER_WORDS |= {"ldc_w": "ldc", "bipush": "ldc", "sipush": "ldc"}


def class_of(spelled):
    made = Class(spelled.name, spelled.is_interface, spelled.superclass, spelled.interfaces, is_abstract="abstract" in spelled.words)
    for words in spelled.fields:
        name, descriptor, is_static, value = assemble.field_parts(words)
        constant = None if value is None else str(value) if isinstance(value, assemble.Text) else assemble.integer(value)
        made.fields.append(Field(name, descriptor, is_static, constant))
    for each in spelled.methods:
        made.methods.append(method_of(each))
    return made


def method_of(spelled):
    words = spelled.words
    made = Method(spelled.name, spelled.descriptor, *(each in words for each in ("static", "abstract", "private", "synchronized")))
    made.stack, made.locals = spelled.stack, spelled.locals
    labels = {}
    lines = iter(spelled.lines)
    for words in lines:
        if words[1:2] == [":"]:
            labels[words[0]] = len(made.code)
            words = words[2:]
        if words:
            made.code.append(instruction(lines, *words))
    made.code = [placed(labels, *each) for each in made.code]
    made.handlers = [(name, labels[first], labels[last], labels[to]) for name, first, last, to in spelled.catches]
    return made


def instruction(lines, word, *operands):
    word = OTHER_WORDS.get(word, word)
    name, _, number = word.rpartition("_")
    if name in assemble.LOCALS:
        return name, int(number)
    if name == "iconst":
        return "ldc", -1 if number == "m1" else int(number)
    if word == "ldc":
        return word, str(operands[0]) if isinstance(operands[0], assemble.Text) else assemble.integer(operands[0])
    if word in assemble.LOCALS or word == "iinc":
        return word, *map(assemble.integer, operands)
    if word in assemble.FIELDS:
        owner, _, name = operands[0].rpartition("/")
        return word, owner, name, operands[1]
    if word in assemble.CALLS:
        named, _, rest = operands[0].partition("(")
        owner, _, name = named.rpartition("/")
        return word, owner, name, "(" + rest
    if word in SWITCHES:
        rows, default = assemble.switch_rows(lines, word)
        first = assemble.integer(operands[0]) if word == "tableswitch" else 0
        keys = range(first, first + len(rows)) if word == "tableswitch" else [assemble.integer(each[0]) for each in rows]
        return word, dict(zip(keys, (each[-1] for each in rows))), default
    return word, *operands


def placed(labels, word, *operands):
    if word in JUMPS:
        return word, labels[operands[0]]
    if word in SWITCHES:
        return word, {key: labels[to] for key, to in operands[0].items()}, labels[operands[1]]
    return word, *operands


# What is noted while a program runs: in a later edition of Java, without verification or with structured locking another answer is right,
# or HotSpot gives another one than JVMS SE 8 says.

THROWN = {
    "VerifyError": "an instruction that verification would refuse",
    "OutOfMemoryError": "a full heap",
    "StackOverflowError": "512 frames",
}
THROWN_BY = {
    ("invokeinterface", "IncompatibleClassChangeError", "several selected"): "invokeinterface with several default methods",
    ("invokeinterface", "IncompatibleClassChangeError", "private method"): "invokeinterface of a private method",
}
OF_OBJECT = set("clone equals finalize getClass hashCode notify notifyAll toString wait".split())


class Named(Program):
    """Notes what is looked for and isn't there, and may be in Java's library."""

    def __init__(self, classes):
        super().__init__(classes)
        self.notes = set()

    def class_named(self, name):
        if name not in self.known and name.startswith("java/"):
            self.notes.add("a class of Java's library that isn't built in")
        return super().class_named(name)

    def look(self, find, name, key):
        found = find(name, key) if name in self.known else None
        if name in LIBRARY and (found is None or found[0] != name) or found is None and key[0] in OF_OBJECT:
            self.notes.add("a member of Java's library that isn't built in")

    def resolved_field(self, name, field_name, type, is_static):
        self.look(self.find_field, name, (field_name, type))
        return super().resolved_field(name, field_name, type, is_static)

    def resolved_method(self, word, name, key):
        self.look(self.find_method, name, key)
        return super().resolved_method(word, name, key)


class Watched(Machine):
    """Notes what is met; `held` are the monitors that each frame entered."""

    def __init__(self, program, steps):
        super().__init__(program, steps)
        self.notes, self.held = program.notes, [Counter()]
        enter, leave = self.heap.enter, self.heap.exit

        def count_enter(monitor):
            self.held[-1][monitor] += 1
            enter(monitor)

        def count_exit(monitor):
            is_held = leave(monitor)
            self.heap.was_left = not is_held
            if is_held and not self.held[-1][monitor]:
                self.notes.add("structured locking")
            self.held[-1][monitor] -= is_held
            return is_held

        self.heap.enter, self.heap.exit = count_enter, count_exit

    def step(self, frame):
        word = frame.method.code[frame.place][0] if frame.place < len(frame.method.code) else ""
        if word.startswith("if_acmp") and frame.stack[-2:] == [NO_CLASS, NO_CLASS]:
            self.notes.add("two NoClassDefFoundErrors that are compared")
        return super().step(frame)

    def catch(self, frame, error):
        for class_name, first, last, _ in frame.method.handlers:
            if first <= frame.place < last and class_name not in self.program.known and class_name != "all":
                self.notes.add("a handler of a class that isn't there")
        super().catch(frame, error)

    def enter(self, owner, method, arguments, caller, monitor):
        self.held.append(Counter())
        try:
            super().enter(owner, method, arguments, caller, monitor)
        except Thrown:
            if monitor is not None and self.heap.was_left:
                self.notes.add("a throw out of a synchronized method whose monitor was left")
            raise
        finally:
            if any(self.held.pop().values()):
                self.notes.add("structured locking")

    def reasons(self):
        """Why HotSpot isn't asked, if there are reasons."""
        thrown = {key for key in self.reached if len(key) == 3}
        found = {reason for error, reason in THROWN.items() if error in {key[1] for key in thrown}}
        found |= {reason for key, reason in THROWN_BY.items() if key in thrown}
        return sorted(self.notes | found | ({"the limit of instructions"} if self.left == 0 else set()))


def watched_invoke(machine, frame, word, name, method_name, descriptor):
    known, notes = machine.program.known, machine.notes
    at = len(frame.stack) - 1 - len(signature(descriptor)[0])
    receiver = frame.stack[at] if at >= 0 and word != "invokestatic" else None
    if method_name == "<clinit>" or (method_name == "<init>" and word != "invokespecial"):
        notes.add(f"{word} of {method_name}")
    if word == "invokespecial" and name in known:
        watch_special(machine, frame, name, (method_name, descriptor), receiver)
    if name == STREAM and word == "invokevirtual" and isinstance(receiver, Reference) and receiver not in (NULL, OUT):
        notes.add("a stream that was never initialized")
    invoke(machine, frame, word, name, method_name, descriptor)


def watch_special(machine, frame, name, key, receiver):
    program, notes = machine.program, machine.notes
    own, found = program.known[frame.owner], program.find_method(name, key)
    if receiver == NULL:
        try:
            program.selected_method(program.special_start(frame.owner, name), key, with_private=True)
        except Refused:
            notes.add("invokespecial of an abstract method on null")
    if key[0] == "<init>":
        return
    if name not in {*program.superclasses(frame.owner), *own.interfaces}:
        notes.add("invokespecial of a class that is none of the superclasses and direct superinterfaces")
    if own.is_interface and receiver not in (None, NULL) and not machine.heap.is_instance(receiver, f"L{frame.owner};"):
        notes.add("invokespecial in an interface, on an object that doesn't implement it")
    if found and found[1].is_private and name != frame.owner:
        notes.add("invokespecial of another class's private method")


def watched_print(machine, owner, method, values):
    if owner == STREAM and method.descriptor == "(C)V" and 0xD800 <= values[-1] & 0xFFFF < 0xE000:
        machine.notes.add("a surrogate that is printed")
    run_of_library(machine, owner, method, values)


def watched_leave(machine, frame, word):
    result = signature(frame.method.descriptor)[1]
    if word == "ireturn" and frame.stack and isinstance(frame.stack[-1], int) and result in INTS:
        if narrowed(result, frame.stack[-1]) != frame.stack[-1]:
            machine.notes.add("ireturn of what its type doesn't hold")
    leave(machine, frame, word)


invoke, leave, run_of_library = instructions.invoke, instructions.leave, calls.run_of_library
calls.run_of_library = watched_print
instructions.invoke, instructions.leave = watched_invoke, watched_leave


def run(texts, main, steps):
    """The machine when the program of these files has run, and the class of what ended it, or none."""
    machine = Watched(Named([class_of(assemble.Class(each)) for each in texts]), steps)
    return machine, machine.run(main)
