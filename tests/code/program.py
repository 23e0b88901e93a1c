"""Classes of a program and of the library."""

from dataclasses import dataclass, field

LANG = "java/lang/"
OBJECT, TEXT, STREAM, SYSTEM = LANG + "Object", LANG + "String", "java/io/PrintStream", LANG + "System"
THROWABLE, ERROR = LANG + "Throwable", LANG + "Error"
TEXTS, TEXT_TYPE, OBJECT_TYPE = f"[L{TEXT};", f"L{TEXT};", f"L{OBJECT};"
INTS = set("IZBCS")
INIT, CLINIT, MAIN = ("<init>", "()V"), ("<clinit>", "()V"), ("main", f"({TEXTS})V")
PRINTED = ("(I)V", "(C)V", "(Z)V", f"({TEXT_TYPE})V")

THROWABLES = {
    "Throwable": "Exception Error",
    "Exception": "RuntimeException",
    "RuntimeException": "ArithmeticException NullPointerException IndexOutOfBoundsException NegativeArraySizeException "
    "ClassCastException ArrayStoreException IllegalMonitorStateException IllegalArgumentException IllegalStateException "
    "UnsupportedOperationException",
    "IndexOutOfBoundsException": "ArrayIndexOutOfBoundsException",
    "Error": "LinkageError VirtualMachineError",
    "LinkageError": "NoClassDefFoundError ExceptionInInitializerError IncompatibleClassChangeError VerifyError",
    "IncompatibleClassChangeError": "NoSuchFieldError NoSuchMethodError AbstractMethodError InstantiationError",
    "VirtualMachineError": "OutOfMemoryError StackOverflowError InternalError",
}


class Refused(Exception):
    """What an instruction throws: the simple name of a throwable, and for which reason."""

    def __init__(self, error, reason):
        super().__init__(f"{error}: {reason}")
        self.error, self.reason = error, reason


@dataclass
class Field:
    name: str
    type: str
    is_static: bool
    constant: int | str | None = None

    @property
    def key(self):
        return self.name, self.type


@dataclass
class Method:
    """A method; one of the library's has no code of its own."""

    name: str
    descriptor: str
    is_static: bool
    is_abstract: bool = False
    is_private: bool = False
    is_synchronized: bool = False
    is_of_library: bool = False
    code: list = field(default_factory=list)
    handlers: list = field(default_factory=list)
    stack: int = 1024
    locals: int = 1024

    @property
    def key(self):
        return self.name, self.descriptor

    @property
    def is_inherited(self):
        """Whether it is selected for objects of subclasses."""
        return not self.is_static and not self.is_private


@dataclass
class Class:
    name: str
    is_interface: bool
    superclass: str | None
    interfaces: list
    fields: list = field(default_factory=list)
    methods: list = field(default_factory=list)
    is_abstract: bool = False

    def field(self, key):
        return next((each for each in self.fields if each.key == key), None)

    def method(self, key):
        return next((each for each in self.methods if each.key == key), None)

    def has_default(self):
        return any(not method.is_static and not method.is_abstract for method in self.methods)


def library():
    """The classes that a program may name without a file of its own. All their methods are public instance methods."""
    made = {OBJECT: Class(OBJECT, False, None, [])}
    for name in (TEXT, SYSTEM, STREAM, THROWABLE):
        made[name] = Class(name, False, OBJECT, [])
    for above, names in THROWABLES.items():
        for name in names.split():
            made[LANG + name] = Class(LANG + name, False, LANG + above, [], is_abstract=name == "VirtualMachineError")
    made[SYSTEM].fields.append(Field("out", f"L{STREAM};", True))
    printing = [("println", "()V"), *((name, each) for name in ("print", "println") for each in PRINTED)]
    made[STREAM].methods = [Method(*key, False, is_of_library=True) for key in printing]
    made[OBJECT].methods = [Method(*INIT, False, is_of_library=True)]
    for name in made:
        if name not in (OBJECT, TEXT, SYSTEM, STREAM):
            made[name].methods = [Method("<init>", each, False, is_of_library=True) for each in ("()V", f"({TEXT_TYPE})V")]
    return made


LIBRARY = library()
LIBRARY_THROWABLES = [name for name in LIBRARY if name not in (OBJECT, TEXT, SYSTEM, STREAM)]


def signature(descriptor):
    """The types of a method's parameters, and that of its result."""
    types, at = [], 1
    while descriptor[at] != ")":
        end = at
        while descriptor[end] == "[":
            end += 1
        end = descriptor.index(";", end) + 1 if descriptor[end] == "L" else end + 1
        types.append(descriptor[at:end])
        at = end
    return types, descriptor[at + 1 :]


def type_named(name):
    """The type that a class of this name is, or an array that is spelled in its place."""
    return name if name.startswith("[") else f"L{name};"


def innermost(type):
    """The name of the class that an array's elements are of at last, or that the type is; none where that is no class."""
    base = type.lstrip("[")
    return base[1:-1] if base.startswith("L") else None
