"""Makes programs at random about which class is initialized when (JLS SE 8 12.4, JVMS SE 8 5.5). All their code is verifiable."""

import random

LANG, OUT, TEXT = "java/lang/", "getstatic java/lang/System/out Ljava/io/PrintStream;", "Ljava/lang/String;"
PRINT = "invokevirtual java/io/PrintStream/println"
LIBRARY = {
    "Throwable": "Object", "Exception": "Throwable", "Error": "Throwable", "RuntimeException": "Exception", "LinkageError": "Error",
    "ArithmeticException": "RuntimeException", "IllegalStateException": "RuntimeException", "NullPointerException": "RuntimeException",
    "ExceptionInInitializerError": "LinkageError", "NoClassDefFoundError": "LinkageError", "StackOverflowError": "VirtualMachineError",
    "VirtualMachineError": "Error", "IncompatibleClassChangeError": "LinkageError", "NoSuchFieldError": "IncompatibleClassChangeError",
    "NoSuchMethodError": "IncompatibleClassChangeError", "AbstractMethodError": "IncompatibleClassChangeError",
    "InstantiationError": "IncompatibleClassChangeError", "ClassCastException": "RuntimeException",
    "NegativeArraySizeException": "RuntimeException", "ArrayStoreException": "RuntimeException",
    "IndexOutOfBoundsException": "RuntimeException", "ArrayIndexOutOfBoundsException": "IndexOutOfBoundsException",
}
THROWN = ["Throwable", "Exception", "RuntimeException", "Error", "LinkageError", "ExceptionInInitializerError", "NoClassDefFoundError"]
CAUGHT = [*THROWN, "IncompatibleClassChangeError", "ArithmeticException", "NoSuchFieldError"]


class Type:
    """A class or interface that is being made. Methods are `f` (static), `g` (static, no result), `m` (of an instance)."""

    def __init__(self, name, is_interface, superclass, interfaces, is_abstract):
        self.name, self.is_interface, self.superclass, self.interfaces = name, is_interface, superclass, interfaces
        self.is_abstract, self.fields, self.methods, self.lines = is_abstract, [], [], []


class Maker:
    def __init__(self, seed):
        self.random = random.Random(seed)
        self.types, self.number, self.lines, self.is_careful = [], 0, [], False
        for at in range(self.random.choice([0, 1, 2, 3, 4, 5])):
            some = [each.name for each in self.types if self.chance(0.4)]
            self.types.append(Type(f"I{at}", True, LANG + "Object", some, False))
        interfaces = [each.name for each in self.types]
        for at in range(self.random.randint(2, 7)):
            above = [each.name for each in self.types if not each.is_interface]
            library = LANG + self.random.choice(["Object", "Object", "Object", "Exception", "Error", "RuntimeException"])
            superclass = self.random.choice(above) if above and self.chance(0.65) else library
            some = self.random.sample(interfaces, self.random.randint(0, min(3, len(interfaces))))
            self.types.append(Type(f"C{at}", False, superclass, some, self.chance(0.12)))
        self.known = {each.name: each for each in self.types}
        for each in self.types:
            self.declare(each)
        for each in self.types:
            self.fill(each)

    def chance(self, share):
        return self.random.random() < share

    def pick(self, found):
        return self.random.choice(found)

    def label(self):
        self.number += 1
        return f"L{self.number}"

    # Types

    def above(self, name):
        """The class and its superclasses, down from it."""
        while name in self.known:
            yield self.known[name]
            name = self.known[name].superclass

    def is_throwable(self, each):
        top = list(self.above(each.name))[-1].superclass
        return top != LANG + "Object"

    def below(self, each):
        """A name by which the members of a type may be asked for."""
        found = [one.name for one in self.types if each in self.above(one.name)]
        found += [one.name for one in self.types if each.name in one.interfaces] if self.chance(0.3) else []
        return self.pick(found) if self.chance(0.4) else each.name

    def declare(self, each):
        for name, type in (("a", "I"), ("b", "I"), ("s", TEXT), ("o", "Ljava/lang/Object;"), ("c", "B"), ("z", "Z")):
            if self.chance(0.4):
                value = None
                if self.chance(0.4) and type[0] != "L":
                    value = str(self.pick([0, 1, 7, -1, 130, 257]))
                if self.chance(0.4) and type == TEXT:
                    value = self.pick(['"x"', '"y"', '""', f'"{each.name}"'])
                each.fields.append((name, type, value))
        names = [name for name, share in (("f", 0.5), ("g", 0.3), ("m", 0.4), ("n", 0.2), ("p", 0.03)) if self.chance(share)]
        for name in names:
            is_abstract = name in "mn" and self.chance(0.5 if each.is_interface else 0.1)
            each.methods.append((name, is_abstract))

    def fill(self, each):
        lines = each.lines
        words = "public abstract" if each.is_abstract else "public"
        lines.append(f".interface public {each.name}" if each.is_interface else f".class {words} {each.name}")
        lines += [f".super {each.superclass}", *(f".implements {name}" for name in each.interfaces)]
        for name, type, value in each.fields:
            lines.append(f".field public static {name} {type}" + (f" = {value}" if value is not None else ""))
        if not each.is_interface:
            lines.append(".field public i I")
        if self.chance(0.75):
            self.method(each, "static <clinit>()V", 0, 5)
        if not each.is_interface:
            self.constructor(each)
        descriptors = {"f": "static f(I)I", "g": "static g()V", "m": "m()I", "n": "n()I", "p": "private p()I"}
        for name, is_abstract in each.methods:
            if is_abstract:
                lines += [f".method public abstract {descriptors[name]}", ".end method"]
            else:
                words = "synchronized " if self.chance(0.1) and not each.is_interface else ""
                self.method(each, words + descriptors[name], 0, 3)

    def constructor(self, each):
        self.lines = each.lines
        self.lines += [".method public <init>()V", ".limit stack 8", ".limit locals 12", "aload_0"]
        self.lines.append(f"invokespecial {each.superclass}/<init>()V")
        if self.chance(0.4):
            self.say(f"{each.name}.<init>")
        if self.chance(0.15):
            self.statement(each)
        self.lines += ["return", ".end method"]

    def method(self, each, words, least, most):
        self.lines = each.lines
        is_start = words.startswith("static <clinit>") or "main" in words
        self.lines += [f".method public {words}", ".limit stack 8", ".limit locals 12"]
        end = self.label()
        if not is_start:
            self.lines += ["invokestatic Fuel/take()I", f"ifeq {end}"]
        if self.chance(0.8):
            self.say(f"{each.name}.{words.split('(')[0].split()[-1]}")
        for _ in range(self.random.randint(least, most)):
            self.statement(each)
        self.lines.append(f"{end}:")
        self.lines += [f"bipush {self.random.randint(-9, 99)}", "ireturn"] if words.endswith("I") else ["return"]
        self.lines.append(".end method")

    # Statements

    def say(self, text):
        self.lines += [OUT, f'ldc "{text}"', f"{PRINT}({TEXT})V"]

    def statement(self, own):
        """A statement, mostly with a handler that tells what it caught, and perhaps throws it again."""
        first, last, handler, after = (self.label() for _ in range(4))
        self.lines.append(f"{first}:")
        self.pick(STATEMENTS)(self, own)
        self.lines += ["nop", f"{last}:"]
        if not self.is_careful and not self.chance(0.65):
            return
        throwables = [each.name for each in self.types if not each.is_interface and self.is_throwable(each)]
        caught = "all" if self.is_careful or self.chance(0.6) else self.pick([LANG + each for each in CAUGHT] + throwables)
        self.lines += [f"goto {after}", f"{handler}:", "astore 9", "aload 9", "invokestatic Teller/tell(Ljava/lang/Throwable;)V"]
        if not self.is_careful and self.chance(0.15):
            self.lines += ["aload 9", "athrow"]
        elif self.chance(0.15):
            self.lines += ["aload 9", "putstatic Teller/last Ljava/lang/Throwable;"]
        self.lines += [f"{after}:", f".catch {caught} from {first} to {last} using {handler}"]

    def some_field(self, type):
        found = [(each, field) for each in self.types for field in each.fields if field[1] == type]
        return self.pick(found) if found else None

    def some_class(self):
        return self.pick([each for each in self.types if not each.is_interface])

    def read(self, own):
        type = self.pick(["I", "I", TEXT, "B", "Z"])
        found = self.some_field(type)
        if found:
            each, field = found
            shown = {"I": "I", "B": "I", "Z": "Z", TEXT: TEXT}[type]
            self.lines += [OUT, f"getstatic {self.below(each)}/{field[0]} {type}", f"{PRINT}({shown})V"]

    def write(self, own):
        found = self.some_field(self.pick(["I", "B", "Z"]))
        if found:
            each, field = found
            self.lines += [f"sipush {self.pick([0, 1, 5, 200, -129, 300])}", f"putstatic {self.below(each)}/{field[0]} {field[1]}"]

    def call(self, own):
        found = [each for each in self.types if any(name == "f" for name, _ in each.methods)]
        if found:
            self.lines += [OUT, "iconst_2", f"invokestatic {self.below(self.pick(found))}/f(I)I", f"{PRINT}(I)V"]

    def call_plain(self, own):
        found = [each for each in self.types if any(name == "g" for name, _ in each.methods)]
        if found:
            self.lines.append(f"invokestatic {self.below(self.pick(found))}/g()V")

    def create(self, own):
        name = self.pick([each.name for each in self.types]) if self.chance(0.1) else self.some_class().name
        if self.known[name].is_interface:
            self.lines += [f"new {name}", "pop"]
            return
        self.lines += [f"new {name}", "dup", f"invokespecial {name}/<init>()V"]
        found = self.some_field("Ljava/lang/Object;")
        self.lines.append(f"putstatic {self.below(found[0])}/o Ljava/lang/Object;" if found and self.chance(0.5) else "pop")

    def call_instance(self, own):
        """A call by a class or interface that has the method, on an object of a class."""
        each, name = self.some_class(), self.pick("mn")
        found = [one for one in self.above(each.name)]
        classes = [one for one in found if any(method == name for method, _ in one.methods)]
        interfaces = [self.known[two] for one in found for two in one.interfaces]
        interfaces = [one for one in interfaces if any(method == name for method, _ in one.methods)]
        self.lines += [OUT, f"new {each.name}", "dup", f"invokespecial {each.name}/<init>()V"]
        if interfaces and self.chance(0.5):
            self.lines.append(f"invokeinterface {self.pick(interfaces).name}/{name}()I 1")
        else:
            self.lines.append(f"invokevirtual {self.pick(classes or [each]).name}/{name}()I")
        self.lines.append(f"{PRINT}(I)V")

    def array(self, own):
        name = self.pick([each.name for each in self.types] + ["[LC0;", "Gone"] * self.chance(0.1))
        self.lines += [OUT, self.pick(["iconst_2", "iconst_0", "iconst_m1"]), f"anewarray {name}", "arraylength", f"{PRINT}(I)V"]

    def cast(self, own):
        found, name = self.some_field("Ljava/lang/Object;"), self.pick(self.types).name
        if self.chance(0.1):
            name = self.pick(["Gone", "[LC0;"])
        value = f"getstatic {found[0].name}/o Ljava/lang/Object;" if found and self.chance(0.7) else self.pick(["aconst_null", 'ldc "t"'])
        if self.chance(0.6):
            self.lines += [OUT, value, f"instanceof {name}", f"{PRINT}(I)V"]
        else:
            self.lines += [value, f"checkcast {name}", "pop"]

    def throw(self, own):
        own_ones = [each.name for each in self.types if not each.is_interface and self.is_throwable(each)]
        name = self.pick(own_ones) if own_ones and self.chance(0.5) else LANG + self.pick(THROWN)
        after = self.label()
        self.lines += ["invokestatic Fuel/take()I", f"ifeq {after}"]
        self.lines += [f"new {name}", "dup", f"invokespecial {name}/<init>()V", "athrow", f"{after}:"]

    def throw_last(self, own):
        """What was kept before, if anything was."""
        after = self.label()
        self.lines += ["getstatic Teller/last Ljava/lang/Throwable;", "astore 8", "aload 8", f"ifnull {after}", "aload 8", "athrow"]
        self.lines.append(f"{after}:")

    def divide(self, own):
        found = self.some_field("I")
        value = f"getstatic {self.below(found[0])}/{found[1][0]} I" if found else "iconst_0"
        self.lines += [OUT, "bipush 100", value, self.pick(["idiv", "irem"]), f"{PRINT}(I)V"]

    def missing(self, own):
        each = self.pick(self.types).name
        self.lines += self.pick([
            ["getstatic Gone/a I", "pop"], ["invokestatic Gone/f()V"], ["new Gone", "pop"], [f"invokestatic {each}/m()I", "pop"],
            [f"getstatic {each}/none I", "pop"], [f"invokestatic {each}/none()V"], [f"getstatic {each}/i I", "pop"],
            ["iconst_1", f"putstatic {each}/a Z"],
        ])

    def object_field(self, own):
        each = self.some_class().name
        self.lines += [f"new {each}", "dup", f"invokespecial {each}/<init>()V", "astore 8", "aload 8", "sipush 300"]
        self.lines += [f"putfield {each}/i I", OUT, "aload 8", f"getfield {each}/i I", f"{PRINT}(I)V"]

    def null_field(self, own):
        each = self.some_class().name
        self.lines += self.pick([["aconst_null", f"getfield {each}/i I", "pop"], ["aconst_null", f"invokevirtual {each}/m()I", "pop"]])

    def same_text(self, own):
        found = self.some_field(TEXT)
        if found:
            after, end = self.label(), self.label()
            self.lines += [f"getstatic {found[0].name}/s {TEXT}", 'ldc "x"', f"if_acmpeq {after}", OUT, 'ldc "other"', f"goto {end}"]
            self.lines += [f"{after}:", OUT, 'ldc "same"', f"{end}:", f"{PRINT}({TEXT})V"]

    def lock(self, own):
        """A block that is held, with a call within."""
        found = self.some_field("Ljava/lang/Object;")
        if found and self.chance(0.4):
            self.lines += [f"getstatic {found[0].name}/o Ljava/lang/Object;", "dup", "astore 8", "monitorenter", "aload 8", "monitorexit"]

    def again(self, own):
        self.statement(own)
        self.statement(own)

    # The program

    def texts(self):
        main = self.pick(self.types)
        if self.chance(0.7):
            main = Type("Main", False, LANG + "Object", [], False)
            main.lines += [".class public Main", ".super java/lang/Object"]
        self.is_careful = main.name == "Main"
        self.method(main, "static main([Ljava/lang/String;)V", 4, 16)
        made = ["\n".join(each.lines) + "\n" for each in self.types + [main] * self.is_careful]
        made += [FUEL.replace("FUEL", str(self.pick([20, 60, 150]))), self.teller()]
        return made, main.name

    def teller(self):
        """A class whose method prints the class of a throwable."""
        supers = {LANG + name: LANG + above for name, above in LIBRARY.items()}
        supers |= {each.name: each.superclass for each in self.types if not each.is_interface and self.is_throwable(each)}

        def depth(name):
            return 1 + depth(supers[name]) if name in supers else 0

        lines = [".class Teller", ".field public static last Ljava/lang/Throwable;"]
        lines += [".method public static tell(Ljava/lang/Throwable;)V", ".limit stack 3", ".limit locals 1"]
        for at, name in enumerate(sorted(supers, key=lambda each: -depth(each))):
            lines += ["aload_0", f"instanceof {name}", f"ifeq N{at}", OUT, f'ldc "{name}"', f"{PRINT}({TEXT})V", "return", f"N{at}:"]
        return "\n".join([*lines, "return", ".end method"]) + "\n"


FUEL = """.class Fuel
.field public static left I = FUEL
.method public static take()I
.limit stack 2
.limit locals 0
getstatic Fuel/left I
ifgt Some
iconst_0
ireturn
Some: getstatic Fuel/left I
iconst_1
isub
putstatic Fuel/left I
iconst_1
ireturn
.end method
"""
STATEMENTS = [
    *[Maker.read] * 5, *[Maker.write] * 2, *[Maker.call] * 4, *[Maker.call_plain] * 2, *[Maker.create] * 4, *[Maker.call_instance] * 3,
    Maker.array, *[Maker.cast] * 2, *[Maker.throw] * 2, Maker.throw_last, Maker.divide, Maker.missing, Maker.object_field,
    Maker.null_field, Maker.same_text, Maker.lock, Maker.again,
]


def made(seed):
    """The texts of the files, and the main class."""
    return Maker(seed).texts()
