"""Makes programs at random, most of whose instructions find what they want."""

from arithmetic import JUMPS, SWITCHES
from expressions import NUMBERS, OUT, STRINGS
from hierarchy import Program
from program import CLINIT, INIT, INTS, LANG, LIBRARY_THROWABLES, MAIN, OBJECT, OBJECT_TYPE, STREAM, TEXT_TYPE, TEXTS, THROWABLE
from program import Class, Field, Method, signature
from statements import HERE, Statements

CAUGHT = (
    "ArithmeticException RuntimeException Exception Throwable Error LinkageError NoClassDefFoundError VerifyError "
    "ExceptionInInitializerError NullPointerException StackOverflowError IncompatibleClassChangeError Object String"
).split()
TYPES = ["I", "I", "I", "Z", "B", "C", "S", TEXT_TYPE, TEXT_TYPE, f"L{THROWABLE};", "LI;", "LA;", "LGone;", "[I", TEXTS]
DESCRIPTORS = ["()V", "()V", "(I)V", "()I", "(I)I", "(II)I"]
DESCRIPTORS += [f"({TEXT_TYPE}){TEXT_TYPE}", f"({TEXT_TYPE})V", f"(I{TEXT_TYPE})I", "()Z"]
INIT_DESCRIPTORS = ["()V", "()V", "()V", "(I)V", f"({TEXT_TYPE})V"]
INT_LOCALS, TEXT_LOCALS, OTHER_LOCALS = range(4, 8), range(8, 11), range(11, 15)
OFTEN, SELDOM = 0.1, 0.02
STARTS = (MAIN, CLINIT)
TELL = ("invokestatic", "Teller", "tell", f"(L{THROWABLE};)V")
LOCALS = 15


class Maker(Statements):
    """Makes one program: with objects, or with static members, arithmetic and prints alone. `junk` is the share of statements
    among whose instructions a further one is put."""

    def __init__(self, random, junk, with_objects):
        self.random, self.junk, self.with_objects = random, junk, with_objects
        self.classes = []
        for names, is_interface in (("IJKL"[: random.randint(0, 4)], True), ("ABCDE"[: random.randint(2, 5)], False)):
            for name in names:
                self.classes.append(self.declared(name, is_interface))
        self.program = Program(self.classes)
        self.set_types()
        for each in self.classes:
            self.add_members(each)
        own = [each for each in self.classes if not each.is_interface or self.chance(0.05)]
        self.main = random.choice(own)
        if self.chance(0.93):
            is_static = not self.with_objects or not self.chance(0.02)
            self.main.methods.append(Method(*MAIN, is_static, is_synchronized=self.with_objects and self.chance(0.05)))
        self.rare, self.wrongs = random.choice([OFTEN, SELDOM]), random.choice([0, 1, 4])
        self.plan()
        for each in self.classes:
            for method in each.methods:
                if not method.is_abstract:
                    self.fill(each, method)
        if with_objects:
            self.classes.append(self.teller())
        random.shuffle(self.classes)
        self.program = Program(self.classes)

    # Declarations

    def declared(self, name, is_interface):
        random = self.random
        interfaces = [each.name for each in self.classes if each.is_interface]
        earlier = [each.name for each in self.classes if not each.is_interface and not is_interface]
        above = [OBJECT, *earlier]
        if self.with_objects and not is_interface:
            throwable = random.choice(LIBRARY_THROWABLES + [LANG + "Error", LANG + "Exception"] * 5)
            above = [*above, *above, *earlier[-1:] * 4, throwable]
        some = random.sample(interfaces, random.randint(0, len(interfaces)))
        is_abstract = self.with_objects and not is_interface and self.chance(0.12)
        return Class(name, is_interface, random.choice(above), some, is_abstract=is_abstract)

    def set_types(self):
        """The types of fields, parameters and locals, and the names and descriptors that methods may have."""
        random = self.random
        names = [each.name for each in self.classes]
        self.types, self.descriptors = TYPES, DESCRIPTORS
        if self.with_objects:
            arrays = [f"[{type}" for type in "IZBCS"] + [f"[L{name};" for name in names] + ["[[I", "[" + OBJECT_TYPE, "[[LA;"]
            self.types = [*TYPES[:8], OBJECT_TYPE, *(f"L{name};" for name in names * 2), "LGone;", *arrays, f"L{THROWABLE};"]
            some = lambda: random.choice(self.types)
            more = [f"({some()})V", f"(){some()}", f"({some()}){some()}", f"(I{some()})V", f"()L{random.choice(names)};"]
            self.descriptors = random.sample([*DESCRIPTORS[:6], *more], 5)
        self.reference_types = [each for each in self.types if each not in INTS]
        self.method_keys = [(name, each) for name in "fgh" for each in self.descriptors]
        self.field_keys = [(name, each) for name in "xy" for each in self.types]
        if self.with_objects:
            self.method_keys = random.sample(self.method_keys, 5)
            self.field_keys = random.sample(self.field_keys, 9)

    def some(self, keys):
        """Some of these, each once."""
        return dict.fromkeys(self.random.choice(keys) for _ in range(self.random.randint(0, 4)))

    def add_members(self, each):
        random = self.random
        each.fields = [self.field(*key) for key in self.some(self.field_keys)]
        static_share = 0.3 if self.with_objects else 0.85
        for key in self.some(self.method_keys):
            is_static = self.chance(static_share)
            is_abstract = not is_static and self.chance(0.4 if each.is_interface or not self.with_objects else 0.12)
            is_private = self.chance(0.02 if is_abstract else 0.12)
            is_synchronized = self.with_objects and self.chance(0.2)
            each.methods.append(Method(*key, is_static, is_abstract, is_private, is_synchronized))
        if self.with_objects and self.chance(0.03 if each.is_interface else 0.85):
            for _, descriptor in self.some([("<init>", one) for one in INIT_DESCRIPTORS]) or [INIT]:
                is_static = self.chance(0.04)
                each.methods.append(Method("<init>", descriptor, is_static, not is_static and self.chance(0.03)))
        if self.chance(0.5 if self.with_objects else 0.75):
            each.methods.append(Method(*CLINIT, True, is_synchronized=self.with_objects and self.chance(0.1)))
        random.shuffle(each.methods)

    def field(self, name, type):
        constant = None
        if self.chance(0.4) and (type in INTS or type == TEXT_TYPE):
            constant = self.random.choice(NUMBERS if type in INTS else STRINGS)
        return Field(name, type, self.chance(0.5 if self.with_objects else 0.92), constant)

    # Rare cases that are arranged

    def plan(self):
        """Arranges methods for rare cases. `planned` are the calls of them in `main`: the class that is named, the method, and
        the class of the object; `deep` is a method that calls itself as often as it can, `up` one that calls another above,
        `held` a synchronized one that ends by a throw."""
        self.planned, self.deep, self.up, self.held = [], None, (None, None, None), None
        for each in (self.plan_twins, self.plan_shadow, self.plan_up, self.plan_deep, self.plan_held):
            if self.with_objects and self.chance(0.15):
                each()

    def without(self, key, classes):
        for each in classes:
            each.methods = [one for one in each.methods if one.key != key]

    def plan_twins(self):
        """Several interfaces give a method, and no class."""
        interfaces, key = [each for each in self.classes if each.is_interface], self.random.choice(self.method_keys)
        if len(interfaces) < 2:
            return
        self.without(key, self.classes)
        for each in self.random.sample(interfaces, self.random.randint(2, len(interfaces))):
            each.methods.append(Method(*key, False, self.chance(0.15)))
        for _ in range(3):
            owner = self.random.choice([each for each in self.classes if self.program.find_method(each.name, key)])
            below = [each.name for each in self.classes if self.program.is_subclass(each.name, owner.name)]
            below = [name for name in below if not self.program.classes[name].is_interface]
            if below:
                self.planned.append((owner, self.program.find_method(owner.name, key)[1], self.random.choice(below)))

    def plan_shadow(self):
        """A class has a private method of the name and descriptor of one above."""
        found = [each for each in self.classes if each.superclass in self.program.classes]
        if found:
            below, key = self.random.choice(found), self.random.choice(self.method_keys)
            above = self.program.classes[below.superclass]
            self.without(key, [below, above])
            above.methods.append(Method(*key, False))
            below.methods.append(Method(*key, False, is_private=True))
            self.planned += [(each, each.methods[-1], below.name) for each in (above, below)]

    def plan_up(self):
        """A class calls the method of its superclass's superclass, which the superclass overrides."""
        known = self.program.classes
        found = [each for each in self.classes if each.superclass in known and known[each.superclass].superclass in known]
        if found:
            own, key = self.random.choice(found), self.random.choice(self.method_keys)
            middle = known[own.superclass]
            above = known[middle.superclass]
            self.without(key, [own, middle, above])
            for each in (middle, above):
                each.methods.append(Method(*key, False))
            own.methods.append(Method("up", "()V", False))
            self.up = (own.methods[-1], above, above.methods[-1])
            self.planned.append((own, own.methods[-1], own.name))

    def plan_deep(self):
        found = [(each, one) for each in self.classes for one in each.methods if not one.is_abstract]
        found = [each for each in found if each[1].key in self.method_keys]
        if found:
            owner, self.deep = self.random.choice(found)
            self.deep.is_synchronized |= self.chance(0.4)
            self.planned.append((owner, self.deep, owner.name))

    def plan_held(self):
        found = [(each, one) for each in self.classes for one in each.methods if one.is_inherited and not one.is_abstract]
        found = [each for each in found if each[1].key in self.method_keys and not each[0].is_interface]
        if found:
            owner, self.held = self.random.choice(found)
            self.held.is_synchronized = True
            self.planned.append((owner, self.held, owner.name))

    # Bodies

    def fill(self, owner, method):
        random = self.random
        self.owner, self.method, self.ints, self.typed = owner, method, list(INT_LOCALS), {}
        self.kept = {number: TEXT_TYPE for number in TEXT_LOCALS}
        types = ([] if method.is_static else [f"L{owner.name};"]) + signature(method.descriptor)[0]
        self.ints += [number for number, type in enumerate(types) if type in INTS]
        self.typed |= {number: type for number, type in enumerate(types) if type not in INTS}
        self.set_limits(method)
        statements = self.first_statements(owner, method)
        statements += [self.statement() for _ in range(random.randint(*self.length(method)))]
        if method.is_synchronized and not method.is_static and self.chance(0.5):
            statements.append([("aload", 0), ("monitorexit",)])
        if self.with_objects and method.key == CLINIT and self.chance(0.04):
            statements += self.end_on_full_heap()
        elif method is self.held:
            statements.append([("aconst_null",), ("athrow",)])
        elif self.chance(0.97) or not statements:
            result = signature(method.descriptor)[1]
            end = {"V": "return"}.get(result, "ireturn" if result in INTS else "areturn")
            if end == "areturn" and self.chance(0.1):
                result = random.choice(self.reference_types)
            statements.append(([] if result == "V" else self.value(result)) + [(end,)])
        self.lay(method, statements)

    def set_limits(self, method):
        rare = self.rare / 5 if method.key in STARTS else self.rare
        if self.chance(self.rare if self.with_objects else rare):
            method.stack = self.random.randint(0, 4)
        if self.chance(rare):
            method.locals = self.random.choice([0, 1, 2, LOCALS, LOCALS])

    def first_statements(self, owner, method):
        statements = []
        if method is self.deep:
            statements.append(self.plain_call(owner, method, [("aload", 0)]))
            found = [each.name for each in self.classes if each.method(CLINIT) and not each.is_interface]
            statements += [[("new", name), ("pop",)] for name in found]
        elif self.chance(0.2 if self.with_objects and method.name == "<init>" else 0.95):
            statements.append(self.start())
            statements += self.start_of_objects()
        if method.name == "<init>" and self.chance(0.9):
            statements.insert(0, self.constructor_above(owner.superclass))
        share = 0.01 if method.key not in STARTS else 0.3 if self.deep else 0.05
        if self.with_objects and self.chance(share):
            statements += self.filling()
        if method is self.up[0]:
            statements.append(self.plain_call(*self.up[1:], [("aload", 0)], is_special=True))
        for each in self.planned if method.key == MAIN else []:
            statements += self.planned_call(*each)
        return statements

    def constructor_above(self, name):
        """A call of a constructor of the superclass on the object at hand, if it has one."""
        found = [each for each in self.program.known[name].methods if each.name == "<init>" and not each.is_static]
        if not found and self.chance(0.9):
            return [("nop",)]
        descriptor = self.random.choice(found).descriptor if found else INIT[1]
        arguments = [("ldc", 1) if each in INTS else ("aconst_null",) for each in signature(descriptor)[0]]
        return [("aload", 0), *arguments, ("invokespecial", name, "<init>", descriptor)]

    def planned_call(self, named, method, name):
        """A call on a new object, whose monitor is then left though it isn't held."""
        local = min(self.kept)
        made = ([("new", name)] if self.chance(0.7) else self.made_object(name, 1)) + [("astore", local)]
        call = self.plain_call(named, method, [("aload", local)])
        return [made, call, [("aload", local), ("monitorexit",)]]

    def end_on_full_heap(self):
        """An object is thrown that was made before the heap was full."""
        local = min(self.kept)
        keep = self.made_object(self.random.choice([LANG + "Exception", LANG + "Error"]), 2) + [("astore", local)]
        return [keep, *self.filling(to_none=True), [("aload", local), ("athrow",)]]

    def length(self, method):
        """The least and the most number of statements."""
        if self.with_objects and method.name == "<init>":
            return (0, 1)
        if self.with_objects:
            return (8, 40) if method.name == "main" else (1, 6) if method.name == "<clinit>" else (1, 5)
        return (1, 12) if method.name == "main" else (1, 6)

    def start(self):
        """Gives the locals their first values."""
        random = self.random
        made = [each for at in INT_LOCALS for each in (("ldc", random.randint(-2, 6)), ("istore", at))]
        made += [each for at in TEXT_LOCALS for each in (("ldc", random.choice(STRINGS)), ("astore", at))]
        self.typed |= self.kept
        return made[:4] + made[8:12] if self.with_objects else made

    def start_of_objects(self):
        """A statement for each of some further locals."""
        numbers = self.random.sample(OTHER_LOCALS, self.random.randint(0, 3)) if self.with_objects else []
        made = []
        for at in numbers:
            type = self.random.choice(self.reference_types)
            made.append(self.value(type, 1) + [("astore", at)])
            self.kept[at] = self.typed[at] = type
        return made

    def lay(self, method, statements):
        """Puts the statements behind one another, junk among them, and gives jumps and handlers their places."""
        random, places = self.random, []
        for each in statements:
            is_spared = self.with_objects and method.key in STARTS and each is statements[-1]
            while not is_spared and self.chance(self.junk):
                each.insert(random.randint(0, len(each)), self.junk_word())
            places.append(len(method.code))
            method.code += each
        places.append(len(method.code))
        method.code = [self.placed(each, at, places) for at, each in enumerate(method.code)]
        for _ in range(random.randint(0, 2)):
            first, last = sorted(random.choices(places, k=2))
            self.handle(method, first, last, self.target(places, last))
        if self.chance(0.85 if not self.with_objects else 0.99 if method.key in STARTS else 0.95):
            for first, last in zip(places[:-2], places[1:-1]):
                self.handle(method, first, last, last)

    def placed(self, instruction, at, places):
        """A jump with its places, more of them forward."""
        word, *operands = instruction
        if operands and operands[0] == HERE:
            return word, max(each for each in places if each <= at)
        if word in JUMPS:
            return word, self.target(places, at)
        if word in SWITCHES:
            return word, {key: self.target(places, at) for key in operands[0]}, self.target(places, at)
        return instruction

    def target(self, places, at):
        """One of these places, rarely one that is no more ahead, or lies behind the last statement."""
        ahead = [each for each in places if each > at]
        if not self.with_objects:
            return self.random.choice(ahead if ahead and not self.chance(0.15) else places)
        ahead = [each for each in ahead if each < places[-1]]
        return self.random.choice(places if self.chance(0.02) else ahead[:3] or places[-2:-1])

    def handle(self, method, first, last, next):
        """A handler behind the last instruction, which drops or keeps the object and goes on there."""
        random = self.random
        own = [each.name for each in self.classes if self.program.is_subclass(each.name, THROWABLE)]
        is_start = self.with_objects and method.key in STARTS
        caught = random.choice(["all"] * (1000 if is_start else 40) + [*(LANG + each for each in CAUGHT), "Gone", "A", *own])
        if method is self.deep:
            caught = random.choice(["all", *(LANG + each for each in ("StackOverflowError", "VirtualMachineError", "Exception"))])
        method.handlers.append((caught, first, last, len(method.code)))
        keep = [random.choice([("pop",), ("pop",), ("astore", random.choice(TEXT_LOCALS))])]
        if self.with_objects and self.chance(0.3 if method is self.deep else 0.7):
            keep = [TELL]
        elif self.chance(0.3):
            keep = [("pop",), *said(caught)]
        method.code += [*keep, ("goto", next)]

    def teller(self):
        """A class whose method prints the class of a throwable: it throws the object, and has a handler for each class."""
        names = [each for each in self.program.known if self.program.is_subclass(each, THROWABLE)]
        names.sort(key=lambda name: -len(list(self.program.superclasses(name))))
        method = Method(TELL[2], TELL[3], True, code=[("aload", 0), ("athrow",)])
        for name in names:
            method.handlers.append((name, 0, 2, len(method.code)))
            method.code += [("pop",), *said(name), ("return",)]
        return Class(TELL[1], False, OBJECT, [], methods=[method])


def said(text):
    return [OUT, ("ldc", text), ("invokevirtual", STREAM, "println", f"({TEXT_TYPE})V")]
