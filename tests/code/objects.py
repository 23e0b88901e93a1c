"""What references name while a program runs: objects, arrays, texts, and their monitors (JVMS SE 8 2.4, 2.5.3)."""

from dataclasses import dataclass, field

from program import INTS, LANG, STREAM, TEXT, Refused, type_named

CELLS = 1_000_000


@dataclass(frozen=True)
class Reference:
    number: int | None


NULL = Reference(None)
# The objects that are there from the start.
OUT, OUT_OF_MEMORY, NO_CLASS = Reference(0), Reference(1), Reference(2)


def default(type):
    return 0 if type in INTS else NULL


@dataclass
class Object:
    """A field is kept by the class that declares it, its name and its type."""

    class_name: str
    fields: dict = field(default_factory=dict)

    @property
    def type(self):
        return type_named(self.class_name)


@dataclass
class Array:
    """The elements that were never written aren't kept."""

    element_type: str
    length: int
    elements: dict = field(default_factory=dict)

    @property
    def type(self):
        return "[" + self.element_type

    def get(self, index):
        return self.elements.get(index, default(self.element_type))


class Heap:
    def __init__(self, program):
        self.program = program
        ready = (STREAM, LANG + "OutOfMemoryError", LANG + "NoClassDefFoundError")
        self.objects = [Object(name) for name in ready]
        self.texts, self.monitors = {}, {}
        for text in quoted(program.classes.values()):
            if text not in self.texts:
                self.texts[text] = Reference(len(self.objects))
                self.objects.append(Object(TEXT))
        self.taken = len(self.objects)

    def at(self, reference):
        return self.objects[reference.number]

    def make(self, made, cells):
        if self.taken + cells > CELLS:
            raise Refused("OutOfMemoryError", "full heap")
        self.taken += cells
        self.objects.append(made)
        return Reference(len(self.objects) - 1)

    def new_object(self, class_name):
        fields = {(owner, *each.key): default(each.type) for owner, each in self.program.instance_fields(class_name)}
        return self.make(Object(class_name, fields), 1 + len(fields))

    def new_array(self, element_type, length):
        return self.make(Array(element_type, length), 1 + length)

    def text_at(self, reference):
        """The text that a reference names, if it names one."""
        return next((text for text, each in self.texts.items() if each == reference), None)

    def class_at(self, reference):
        """The class where the selection of a method begins: an array has the methods of java/lang/Object."""
        found = self.at(reference)
        return found.class_name if isinstance(found, Object) else LANG + "Object"

    def is_instance(self, reference, type):
        return self.program.is_subtype(self.at(reference).type, type)

    def fits(self, value, type):
        """Whether a value may stand where this type is asked for (docs/JASMIN.md, "What each instruction does")."""
        if isinstance(value, int) or type in INTS:
            return isinstance(value, int) and type in INTS
        return value == NULL or self.program.takes_all(type) or self.is_instance(value, type)

    # Monitors, of objects by their references and of classes by their names; there is one thread

    def enter(self, monitor):
        self.monitors[monitor] = self.monitors.get(monitor, 0) + 1

    def exit(self, monitor):
        """Leaves a monitor once. Answers whether the thread held it."""
        held = self.monitors.get(monitor, 0)
        self.monitors[monitor] = max(held - 1, 0)
        return held > 0


def quoted(classes):
    """The quoted texts of the files in order: in each those of its static fields, then those of its code."""
    for each in classes:
        for one in each.fields:
            if one.is_static and isinstance(one.constant, str):
                yield one.constant
        for word, *operands in (one for method in each.methods for one in method.code):
            if word == "ldc" and isinstance(operands[0], str):
                yield operands[0]
