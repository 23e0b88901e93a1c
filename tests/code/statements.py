"""Makes statements at random: lists of instructions with no operands before and after. A jump has None, or HERE for the start of
its own statement, in place of where it goes until all statements are there."""

from arithmetic import COMPUTED, CONVERTED, JUMPS, MOVED, SWITCHES
from expressions import NEW_WORDS, NUMBERS, OUT, STRINGS, Expressions
from instructions import ARRAY_LOADS, ARRAY_STORES
from program import INIT, INTS, LANG, LIBRARY_THROWABLES, MAIN, OBJECT, OBJECT_TYPE, STREAM, TEXT, TEXT_TYPE, THROWABLE
from program import innermost, signature

COMPARING = [word for word in JUMPS if word != "goto"]
HERE = "here"
LOCALS = ["iload", "aload", "istore", "astore"]
RETURNS = ["return", "ireturn", "areturn"]
STATIC_MEMBERS = ["getstatic", "putstatic", "invokestatic"]
MEMBERS = ["getfield", "putfield", "invokevirtual", "invokespecial", "invokeinterface"]
TYPED = ["new", "anewarray", "checkcast", "instanceof"]
JUNK = [*MOVED, *MOVED, *COMPUTED, *CONVERTED, *COMPARING, *SWITCHES, *LOCALS, *RETURNS, *STATIC_MEMBERS]
MOVED_WORDS = [*MOVED] * 5
JUNK += ["aconst_null", "ldc", "iinc"]
OBJECT_JUNK = [*ARRAY_LOADS, *ARRAY_STORES, *MEMBERS, *TYPED, "newarray", "arraylength", "athrow", "monitorenter", "monitorexit"]


def new_array(element_type):
    return ("newarray", NEW_WORDS[element_type]) if element_type in INTS else ("anewarray", innermost(element_type))


class Statements(Expressions):
    def statement(self):
        kinds = [self.print, self.print, self.write, self.write, self.store, self.store, self.drop, self.jump, self.throw]
        kinds += [self.wrong] * (self.wrongs if self.method.stack > 4 else 10)
        if self.with_objects:
            kinds += [self.drop, self.drop, self.write, self.store, self.store_element, self.store_element, self.throw_object]
            kinds += [self.print, self.show_element, self.show_element, self.show_field, self.show_field]
            kinds += [self.super_call, self.construct, self.create, self.check, self.lock]
        return self.random.choice(kinds)() or [("nop",)]

    def print(self):
        type = self.random.choice(["I", "I", "C", "Z", TEXT_TYPE, None])
        word = "invokespecial" if self.with_objects and self.chance(0.03) else "invokevirtual"
        stream = self.value(f"L{STREAM};") if self.with_objects and self.chance(0.1) else [OUT]
        if type is None:
            return [*stream, (word, STREAM, "println", "()V")]
        return [*stream, *self.value(type), (word, STREAM, self.random.choice(["print", "println"]), f"({type})V")]

    def write(self):
        found = [(each.name, one) for each in self.classes for one in each.fields]
        if not found:
            return None
        owner, field = self.random.choice(found)
        name = self.named(owner)
        if not self.with_objects or field.is_static != self.chance(0.02):
            return self.value(field.type) + [("putstatic", name, field.name, field.type)]
        return self.value(f"L{name};") + self.value(field.type) + [("putfield", name, field.name, field.type)]

    def store(self):
        if self.chance(0.4 if self.with_objects else 0.3):
            number = self.random.choice(sorted(self.kept))
            self.typed[number] = self.kept[number]
            return self.value(self.kept[number]) + [("astore", number)]
        if self.chance(0.3):
            return [("iinc", self.random.choice(self.ints), self.random.randint(-3, 3))]
        return self.int() + [("istore", self.random.choice(self.ints))]

    def call_any(self):
        """A call of any method, whose result is dropped."""
        made = self.call(None, 0)
        return made and made + ([] if signature(made[-1][-1])[1] == "V" else [("pop",)])

    def super_call(self):
        """A call of a method of a class or interface above on the object of the method at hand."""
        above = [*list(self.program.superclasses(self.owner.name))[1:], *self.program.all_superinterfaces(self.owner.name)]
        found = [(each, one) for each in above for one in self.program.known[each].methods if not one.is_static]
        found = [each for each in found if each[1].key in self.method_keys]
        if self.method.is_static or not found:
            return None
        name, method = self.random.choice(found)
        types, result = signature(method.descriptor)
        arguments = [each for type in types for each in self.value(type, 1)]
        return [("aload", 0), *arguments, ("invokespecial", name, *method.key), *([] if result == "V" else [("pop",)])]

    def drop(self):
        if self.with_objects and self.chance(0.6):
            return self.call_any()
        return self.call("V", 0) if self.chance(0.8) else self.int() + [("pop",)]

    def throw(self):
        null_stream = [("aconst_null",), ("invokevirtual", STREAM, "println", "()V")]
        division = [("ldc", 1), *self.int(), ("idiv",), ("pop",)]
        gone = [("getstatic", "Gone", "x", "I"), ("pop",)]
        return self.random.choice([division, division, self.print(), self.print(), null_stream, gone])

    def jump(self):
        word = self.random.choice(COMPARING + ["goto", "tableswitch", "lookupswitch"])
        if word == "tableswitch":
            low = self.random.randint(-2, 3)
            return self.int() + [(word, dict.fromkeys(range(low, low + self.random.randint(0, 4))), None)]
        if word == "lookupswitch":
            return self.int() + [(word, dict.fromkeys(sorted(self.random.sample(NUMBERS, self.random.randint(0, 4)))), None)]
        kinds = JUMPS[word][0]
        return [each for kind in kinds for each in (self.int() if kind is int else self.some_reference())] + [(word, None)]

    def some_reference(self):
        return self.value(self.random.choice(self.reference_types)) if self.with_objects and self.chance(0.5) else self.text()

    # Of objects

    def store_element(self):
        type = self.random.choice([each for each in self.types if each[0] == "["])
        element = type[1:]
        value = self.value(element)
        if element not in INTS and self.chance(0.3):
            value = self.some_reference()
        return self.value(type) + self.index(0) + value + [(self.letter(element) + "astore",)]

    def show_element(self):
        """An element is written, read again and printed."""
        type = self.random.choice([*"IZBCS", TEXT_TYPE])
        array = self.made_array("[" + type, 2) if self.chance(0.2) else [("ldc", 2), new_array(type)]
        index, letter = [("ldc", self.random.choice([0, 1]))], self.letter(type)
        return self.shown([*array, ("dup",), *index, *self.value(type), (letter + "astore",), *index, (letter + "aload",)], type)

    def show_field(self):
        """A field of an object is written, read again and printed."""
        found = [(each.name, one) for each in self.classes for one in each.fields if one.type in [*INTS, TEXT_TYPE]]
        found = [each for each in found if not each[1].is_static]
        if not found:
            return None
        owner, field = self.random.choice(found)
        member = (self.named(owner), field.name, field.type)
        write = [] if self.chance(0.1) else [("dup",), *self.value(field.type), ("putfield", *member)]
        return self.shown([*self.value(f"L{owner};", 1), *write, ("getfield", *member)], field.type)

    def shown(self, value, type):
        return [OUT, *value, ("invokevirtual", STREAM, "println", f"({TEXT_TYPE if type == TEXT_TYPE else 'I'})V")]

    def throw_object(self):
        if self.chance(0.1):
            return self.value(OBJECT_TYPE) + [("athrow",)]
        own = [each.name for each in self.classes if self.program.is_subclass(each.name, THROWABLE)]
        name = self.random.choice(own * 3 + LIBRARY_THROWABLES)
        return (self.made_object(name, 1) if self.chance(0.8) else self.value(f"L{THROWABLE};")) + [("athrow",)]

    def lock(self):
        """Something done while a monitor is held, or with it left once too often or not at all."""
        numbers = [number for number in self.typed if number not in self.kept] or [*self.kept]
        load = ("aload", self.random.choice(numbers))
        within = self.random.choice([[], self.print(), self.drop() or [], self.write() or []])
        enter, leave = [load, ("monitorenter",)], [load, ("monitorexit",)]
        return self.random.choice([[*enter, *within, *leave]] * 3 + [[*enter, *enter, *leave, *within, *leave], leave, enter])

    def create(self):
        """An object or array that is dropped: a class or length that isn't right, or right but for room."""
        random = self.random
        names = [each.name for each in self.classes] + ["Gone", TEXT, "[LGone;", "[I"]
        word = random.choice(["new", "new", "anewarray", "newarray"])
        if word == "new":
            return [("new", random.choice([each for each in names if each[0] != "["])), ("pop",)]
        lengths = [-1, -2147483648, 0, 1, 999_000, 1_000_000, 2147483647]
        length = [("ldc", random.choice(lengths))] if self.chance(0.15) else self.int()
        name = random.choice(names) if word == "anewarray" else random.choice(["boolean", "char", "byte", "short", "int"])
        return [*length, (word, name), ("pop",)]

    def check(self):
        return self.some_reference() + [("checkcast", self.cast()), self.random.choice([("pop",), ("astore", min(self.kept))])]

    def construct(self):
        """A call of a constructor of the library on any object, or a print of a String that is no text."""
        if self.chance(0.1):
            stream = self.random.choice([OUT, ("aconst_null",)])
            return [stream, ("new", TEXT), ("invokevirtual", STREAM, "println", f"({TEXT_TYPE})V")]
        name = self.random.choice([OBJECT, OBJECT, THROWABLE, TEXT, LANG + "Error"])
        type = OBJECT_TYPE if name == OBJECT or self.chance(0.2) else f"L{name};"
        return self.value(type) + [(self.random.choice(["invokespecial", "invokespecial", "invokevirtual"]), name, *INIT)]

    def filling(self, to_none=False):
        """Statements that take the heap's cells, down to a few or to none; each goes on until the heap refuses it."""
        sizes = [990_000, 1000, 30, 0][: 4 if to_none else self.random.choice([1, 2, 3, 4, 4])]
        return [[("ldc", size), ("newarray", "int"), ("pop",), ("goto", HERE)] for size in sizes]

    def plain_call(self, owner, method, receiver, is_special=False):
        """A call of just this method, with plain arguments, and its result dropped."""
        types, result = signature(method.descriptor)
        arguments = [("ldc", 1) if type in INTS else ("aconst_null",) for type in types]
        word = "invokestatic" if method.is_static else "invokespecial"
        if word == "invokespecial" and not is_special and self.chance(0.7):
            word = "invokeinterface" if owner.is_interface else "invokevirtual"
        dropped = [] if result == "V" else [("pop",)]
        return [*([] if method.is_static else receiver), *arguments, (word, owner.name, *method.key), *dropped]

    # Junk

    def wrong(self):
        """A word behind operands that it may not take, or behind too few."""
        limit = self.method.stack
        count = self.random.choice([0, 0, 1, 1, 2, 2, 3, 4] + [limit] * 8 * (limit <= 4))
        return [self.operand() for _ in range(count)] + [self.junk_word()]

    def operand(self):
        constants = [self.random.choice(NUMBERS), self.random.choice([0, 1]), self.random.choice(STRINGS)]
        return self.random.choice([*(("ldc", each) for each in constants), ("aconst_null",), *self.some_local(), OUT])

    def junk_word(self):
        random = self.random
        word = random.choice(JUNK + (OBJECT_JUNK * 2 if self.with_objects else []) + MOVED_WORDS * (self.method.stack <= 4))
        if word in JUMPS:
            return word, None
        if word in SWITCHES:
            return word, {0: None, 1: None}, None
        if word == "ldc":
            return word, random.choice(NUMBERS)
        if word == "iinc":
            return word, random.choice([0, 4, 8, 1024]), 1
        if word in LOCALS:
            return word, random.choice([0, 1, 4, 8, 15, 1023, 1024, 65535])
        if word == "newarray":
            return word, random.choice(["int", "char"])
        if word in TYPED:
            return word, random.choice([each.name for each in self.classes] + [LANG + "Object", "Gone"])
        return (word, *self.junk_member(word)) if word in MEMBERS + STATIC_MEMBERS else (word,)

    def junk_member(self, word):
        is_field = word in ("getfield", "putfield", "getstatic", "putstatic")
        found = [(each.name, *one.key) for each in self.classes for one in (each.fields if is_field else each.methods)]
        found = [each for each in found if each[1:] != MAIN]
        gone = ("Gone", "x", "I") if is_field else ("Gone", "f", "()V")
        return gone if self.chance(0.1) else self.random.choice(found or [gone])
