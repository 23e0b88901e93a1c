"""What a trace is judged by: of each Jasmin file the class, its superclass and superinterfaces, its static fields, and what it
needs before its own initializer runs (docs/JASMIN.md, docs/INITIALIZATION.md)."""
import re

ERRORS = {f"java/lang/{name}" for name in (
    "Error LinkageError NoClassDefFoundError ExceptionInInitializerError IncompatibleClassChangeError VerifyError "
    "NoSuchFieldError NoSuchMethodError AbstractMethodError InstantiationError VirtualMachineError OutOfMemoryError "
    "StackOverflowError InternalError").split()}
NO_CLASS = "java/lang/NoClassDefFoundError"
NO_MEMORY = "java/lang/OutOfMemoryError"
# What the machine ends a thread with.
MACHINE_ERRORS = {NO_MEMORY, "java/lang/InternalError"}

# A string, `=` or `:`, or a word; a comment begins at the line's start or behind a space.
WORD = re.compile(r'"(?:[^"\\]|\\.)*"|[=:]|[^\s"=:]+')
RANGES = {"I": (-2**31, 2**31 - 1), "B": (-128, 127), "C": (0, 65535), "S": (-2**15, 2**15 - 1), "Z": (0, 1)}


class Class:
    """One class or interface of a file. A static field goes by name and descriptor, with its value in the file, or None."""
    def __init__(self, name, is_interface):
        self.name, self.is_interface = name, is_interface
        self.superclass, self.interfaces, self.fields = "java/lang/Object", [], {}
        self.has_default = False


def words_of(line):
    """The words of a line without its comment."""
    words, place = [], 0
    while place < len(line):
        if line[place] in " \t\r":
            place += 1
        elif line[place] == ";" and (not place or line[place - 1] in " \t\r"):
            break
        else:
            found = WORD.match(line, place)
            words.append(found[0])
            place = found.end()
    return words


def number_of(word):
    """The int that a word spells; hexadecimal digits are a pattern of 32 bits."""
    number = int(word, 16) if word.startswith("0x") else int(word)
    return number - 2**32 if number >= 2**31 else number


def kept(number, descriptor):
    """What a field keeps of an int: its low bits (JVMS SE 8 2.3, 2.11.1)."""
    if descriptor == "Z":
        return number & 1
    least, most = RANGES[descriptor]
    return (number - least) % (most - least + 1) + least


def class_of(text):
    """The class of a file's text."""
    told = None
    for line in text.split("\n"):
        if not line.lstrip(" \t\r").startswith("."):
            continue
        words = words_of(line)
        if words[0] in (".class", ".interface"):
            told = Class(words[-1], words[0] == ".interface" or "interface" in words[1:-1])
        elif words[0] == ".super":
            told.superclass = words[1]
        elif words[0] == ".implements":
            told.interfaces.append(words[1])
        elif words[0] == ".field" and "static" in words:
            value = words[words.index("=") + 1] if "=" in words else None
            end = min(words.index(word) if word in words[3:] else len(words) for word in ("signature", "="))
            name, descriptor = words[end - 2:end]
            if value and not value.startswith('"'):
                value = kept(number_of(value), descriptor)
            told.fields[f"{name}:{descriptor}"] = value
        elif words[0] == ".method" and not {"abstract", "static"} & set(words[1:-1]):
            told.has_default = True
    return told


def program_of(texts):
    """The classes of the files' texts, by their names."""
    return {it.name: it for it in map(class_of, texts)}


def enumeration(program, name):
    """The superinterfaces of an interface in order, and then itself (JVMS SE 8 5.5 step 7)."""
    return [it for each in program[name].interfaces for it in enumeration(program, each)] + [name]


def needs_of(program, name):
    """What is initialized before a class's own initializer runs, in order."""
    if program[name].is_interface:
        return []
    listed = [it for each in program[name].interfaces for it in enumeration(program, each) if program[it].has_default]
    return [it for it in dict.fromkeys([program[name].superclass, *listed]) if it in program]


def is_error(program, name):
    """Whether a class is Error or a subclass."""
    while name in program:
        name = program[name].superclass
    return name in ERRORS
