"""Makes code at random that gives one value."""

from arithmetic import COMPUTED, CONVERTED
from instructions import ELEMENTS, NEW_TYPES
from program import INIT, INTS, LANG, OBJECT, OBJECT_TYPE, STREAM, SYSTEM, TEXT, TEXT_TYPE, THROWABLE
from program import innermost, signature, type_named

NUMBERS = [0, 1, -1, 2, 3, 7, 31, 32, 33, 255, 256, -129, 32768, 65535, 65536, 2147483647, -2147483648, 0xD800, 0x20AC]
STRINGS = ["a", "b", "", "text", "é", 'tab\t"quoted"\\', "\n"]
MADE = [OBJECT, OBJECT, TEXT, STREAM, THROWABLE]
MADE += [LANG + name for name in ("Error", "Exception", "ArithmeticException", "LinkageError")]
LETTERS = {type: letter for letter, types in ELEMENTS.items() for type in types}
NEW_WORDS = {type: word for word, type in NEW_TYPES.items()}
OUT = ("getstatic", SYSTEM, "out", f"L{STREAM};")
DEEP = 2


class Expressions:
    """What it makes finds its operands, fields and methods mostly. `typed` are the references among the locals of the method at
    hand with their types, `ints` the numbers of its ints; `owner` is the class that declares it."""

    def chance(self, share):
        return self.random.random() < share

    def named(self, owner):
        """The class that declares a member, or a subclass, or another that may not have it."""
        if self.chance(0.06):
            return self.random.choice([each.name for each in self.classes] + ["Gone", OBJECT])
        below = [each.name for each in self.classes if self.program.is_subclass(each.name, owner)]
        return self.random.choice(below) if below and self.chance(0.2) else owner

    def suits(self, type, wanted):
        if type in INTS or wanted in INTS:
            return type in INTS and wanted in INTS
        known = [each is None or each in self.program.known for each in (innermost(type), innermost(wanted))]
        return not known[1] or (known[0] and self.program.is_subtype(type, wanted))

    def read(self, wanted, depth):
        """A read of a field whose type suits, perhaps."""
        found = [(each.name, one) for each in self.classes for one in each.fields if self.suits(one.type, wanted)]
        if not self.with_objects:
            found = [each for each in found if each[1].is_static or self.chance(0.3)]
        if not found:
            return None
        owner, field = self.random.choice(found)
        is_static = field.is_static != self.chance(0.02)
        if is_static or not self.with_objects:
            return [("getstatic", self.named(owner), field.name, field.type)]
        name = self.named(owner)
        return self.value(f"L{name};", depth + 1) + [("getfield", name, field.name, field.type)]

    def call(self, wanted, depth):
        """A call of a method whose result suits, where one is wanted, perhaps."""
        found = [(each, one) for each in self.classes for one in each.methods if self.may_call(one, wanted)]
        if not found:
            return None
        owner, method = self.random.choice(found)
        return self.call_of(owner, method, depth)

    def rank(self, method):
        """Calls go mostly to methods of a higher rank, so that most programs end by themselves."""
        if method.name in ("main", "<clinit>"):
            return 0
        is_first = method.key not in self.method_keys
        return len(self.method_keys) if method.name == "<init>" else 1 if is_first else 1 + self.method_keys.index(method.key)

    def may_call(self, method, wanted):
        result = signature(method.descriptor)[1]
        is_rare = method.name.startswith("<") or method.name == "main"
        suits = wanted is None or (result == wanted if "V" in (result, wanted) else self.suits(result, wanted))
        if self.with_objects and self.rank(method) <= self.rank(self.method) and not self.chance(0.03):
            return False
        return suits and (not is_rare or self.chance(0.01)) and (self.with_objects or method.is_static or self.chance(0.2))

    def call_of(self, owner, method, depth):
        name = self.named(owner.name)
        arguments = [each for type in signature(method.descriptor)[0] for each in self.value(type, depth + 1)]
        if not self.with_objects or method.is_static != self.chance(0.02):
            return arguments + [("invokestatic", name, method.name, method.descriptor)]
        word = "invokeinterface" if name in self.program.classes and self.program.classes[name].is_interface else "invokevirtual"
        above = [each for each in self.program.superclasses(self.owner.name)] + self.program.all_superinterfaces(self.owner.name)
        if self.chance(0.4 if owner.name in above else 0.02):
            word = "invokespecial"
        elif self.chance(0.03):
            word = self.random.choice(["invokevirtual", "invokeinterface", "invokespecial"])
        return self.value(f"L{name};", depth + 1) + arguments + [(word, name, method.name, method.descriptor)]

    # Ints

    def int(self, depth=0):
        random = self.random
        if depth > DEEP or self.chance(0.35):
            return [("ldc", random.choice(NUMBERS))]
        if self.chance(0.2):
            return [("iload", random.choice(self.ints))]
        made = self.read("I", depth) if self.chance(0.2) else self.call("I", depth) if self.chance(0.3) else None
        if made is None and self.with_objects and self.chance(0.35):
            made = self.int_of_object(depth)
        if made:
            return made
        if self.chance(0.25):
            return self.int(depth + 1) + [(random.choice(list(CONVERTED)),)]
        second = [("ldc", random.choice(NUMBERS))] if self.chance(0.5) else self.int(depth + 1)
        return self.int(depth + 1) + second + [(random.choice(list(COMPUTED)),)]

    def int_of_object(self, depth):
        random = self.random
        if self.chance(0.4):
            type = "[" + random.choice(sorted(INTS))
            return self.value(type, depth + 1) + self.index(depth) + [(self.letter(type[1]) + "aload",)]
        if self.chance(0.3):
            return self.value(random.choice([each for each in self.types if each[0] == "["]), depth + 1) + [("arraylength",)]
        return self.value(random.choice(self.reference_types), depth + 1) + [("instanceof", self.cast())]

    def letter(self, element_type):
        """That of the loads and stores of an array, or another."""
        return self.random.choice("ibcsa") if self.chance(0.05) else LETTERS.get(element_type, "a")

    def index(self, depth):
        return [("ldc", self.random.choice([0, 0, 0, 1, 1, 2, 3, -1]))] if self.chance(0.8) else self.int(depth + 1)

    # References

    def text(self, depth=0):
        if depth > DEEP or self.chance(0.5):
            return [("ldc", self.random.choice(STRINGS))]
        made = self.read(TEXT_TYPE, depth) if self.chance(0.4) else self.call(TEXT_TYPE, depth) if self.chance(0.5) else None
        return made or self.local(TEXT_TYPE) or [("aconst_null",)]

    def value(self, type, depth=0):
        if type in INTS:
            return self.int(depth)
        if type == TEXT_TYPE and not self.chance(0.05 if self.with_objects else 0):
            return self.text(depth)
        if not self.with_objects:
            return self.text(depth) if self.chance(0.3) else self.random.choice([[("aconst_null",)], self.some_local(), [OUT]])
        if self.chance(0.05):
            return [("aconst_null",)]
        if self.chance(0.04):
            return self.some_local()
        makers = [self.local(type)] * 3 if depth <= DEEP or self.chance(0.7) else []
        if depth <= DEEP:
            makers += [self.read(type, depth), self.call(type, depth), self.element(type, depth), self.casted(type, depth)]
            makers += [self.made(type, depth)] * 2
        found = [each for each in makers if each]
        return self.random.choice(found) if found else [("aconst_null",)]

    def local(self, type):
        """A local of a type, perhaps."""
        found = [number for number, each in self.typed.items() if self.suits(each, type)]
        return [("aload", self.random.choice(found))] if found else None

    def some_local(self):
        return [("aload", self.random.choice([0, *self.typed]))]

    def element(self, type, depth):
        """An element of an array."""
        if not self.chance(0.2):
            return None
        return self.value("[" + type, depth + 2) + self.index(depth) + [(self.letter(type) + "aload",)]

    def cast(self):
        """What a cast names."""
        names = [each.name for each in self.classes] + [each for each in self.types if each[0] == "["]
        names = [*names, *names, OBJECT, TEXT, THROWABLE, LANG + "Error", "[" + OBJECT_TYPE, "[[Z", "Gone", "[LGone;"]
        return self.random.choice(names)

    def casted(self, type, depth):
        if not self.chance(0.3):
            return None
        name = type if type[0] == "[" else type[1:-1]
        above = self.random.choice([OBJECT_TYPE, type, self.random.choice(self.reference_types)])
        return self.value(above, depth + 1) + [("checkcast", name if self.chance(0.9) else self.cast())]

    def made(self, type, depth):
        """A new object or array of a type, perhaps."""
        if type[0] == "[":
            return self.made_array(type, depth)
        if type == OBJECT_TYPE and self.chance(0.3):
            return self.made_array(self.random.choice([each for each in self.types if each[0] == "["]), depth)
        names = [each.name for each in self.classes if not each.is_interface] * 2 + MADE
        is_any = innermost(type) not in self.program.known or (self.program.takes_all(type) and self.chance(0.1))
        names = [each for each in names if is_any or self.program.is_subclass(each, innermost(type))]
        names = [each for each in names if not self.program.known[each].is_abstract or self.chance(0.1)]
        if self.chance(0.03):
            names = ["Gone", *(each.name for each in self.classes if each.is_interface or each.is_abstract)]
        return self.made_object(self.random.choice(names), depth) if names else None

    def made_object(self, name, depth):
        made = [("new", name)]
        found = [each for each in self.program.known[name].methods if each.name == "<init>"] if name in self.program.known else []
        is_nested = self.method.name == "<init>" and self.chance(0.9)
        if is_nested or self.chance(0.1) or (not found and self.chance(0.8)):
            return made
        descriptor = self.random.choice(found).descriptor if found else INIT[1]
        arguments = [each for each_type in signature(descriptor)[0] for each in self.value(each_type, depth + 2)]
        return [*made, ("dup",), *arguments, ("invokespecial", name, "<init>", descriptor)]

    def made_array(self, type, depth):
        random, element = self.random, type[1:]
        length = [("ldc", random.choice([0, 1, 2, 2, 3, 3, 4, -1]))] if self.chance(0.85) else self.int(depth + 2)
        if element in INTS:
            made = [*length, ("newarray", NEW_WORDS[element])]
        else:
            below = [type_named(each.name) for each in self.classes]
            below = [each for each in below if self.program.is_subtype(each, element)]
            one = random.choice(below) if below and self.chance(0.4) else element
            made = [*length, ("anewarray", one if one[0] == "[" else one[1:-1])]
        if depth < DEEP and self.chance(0.5):
            made += [("dup",), *self.index(depth), *self.value(element, depth + 2), (self.letter(element) + "astore",)]
        return made
