"""Writes classes as Jasmin files, each instruction in one of its spellings."""

from arithmetic import JUMPS, SWITCHES
from instructions import CALLS

SHORT_LOCALS = ("iload", "aload", "istore", "astore")
OTHER_WORDS = {"goto": "goto_w", "invokespecial": "invokenonvirtual", "i2b": "int2byte", "i2c": "int2char", "i2s": "int2short"}


def file_of(each, random):
    kind = ".interface" if each.is_interface else ".class"
    words = some_word(random, "public", "final") + "abstract " * each.is_abstract
    lines = [f"{kind} {words}{each.name}", f".super {each.superclass}", *(f".implements {name}" for name in each.interfaces)]
    for field in each.fields:
        constant = "" if field.constant is None else f" = {spelled(field.constant)}"
        words = some_word(random, "public", "private", "protected", "final", "volatile") + "static " * field.is_static
        lines.append(f".field {words}{field.name} {field.type}{constant}")
    for method in each.methods:
        lines += method_lines(method, random)
    return "\n".join(lines) + "\n"


def some_word(random, *words):
    """One of these access words, which have no effect where they stand, or none."""
    return random.choice(["", "", *(f"{each} " for each in words)])


def method_lines(method, random):
    words = "private " if method.is_private else some_word(random, "public", "protected", "final")
    words += "static " * method.is_static + "abstract " * method.is_abstract + "synchronized " * method.is_synchronized
    lines = [f".method {words}{method.name}{method.descriptor}"]
    if not method.is_abstract:
        lines += [f".limit stack {method.stack}", f".limit locals {method.locals}"]
        lines += [f".catch {name} from L{first} to L{last} using L{to}" for name, first, last, to in method.handlers]
        for place, instruction in enumerate(method.code):
            lines += [f"L{place}:", *instruction_lines(random, *instruction)]
        lines.append(f"L{len(method.code)}:")
    return [*lines, ".end method"]


def instruction_lines(random, word, *operands):
    if word in SWITCHES:
        targets, default = operands
        if word == "tableswitch":
            return [f"{word} {min(targets, default=0)}", *(f"L{to}" for to in targets.values()), f"default : L{default}"]
        return [word, *(f"{key} : L{to}" for key, to in targets.items()), f"default : L{default}"]
    if word in OTHER_WORDS and random.random() < 0.1:
        return instruction_lines(random, OTHER_WORDS[word], *operands)
    if word in JUMPS or word == "goto_w":
        return [f"{word} L{operands[0]}"]
    if word in ("getstatic", "putstatic", "getfield", "putfield"):
        return [f"{word} {operands[0]}/{operands[1]} {operands[2]}"]
    if word in CALLS or word == "invokenonvirtual":
        count = f" {random.randint(1, 255)}" if word == "invokeinterface" and random.random() < 0.5 else ""
        return [f"{word} {operands[0]}/{operands[1]}{operands[2]}{count}"]
    if word in SHORT_LOCALS and operands[0] < 4 and random.random() < 0.5:
        return [f"{word}_{operands[0]}"]
    if word == "ldc":
        return [constant_line(random, operands[0])]
    return [" ".join([word, *(each if word in TAKE_NAMES else spelled(each) for each in operands)])]


TAKE_NAMES = ("new", "newarray", "anewarray", "checkcast", "instanceof")


def constant_line(random, value):
    forms = ["ldc", "ldc", "ldc_w"]
    if isinstance(value, int):
        forms += ["bipush"] * (-128 <= value <= 127) + ["sipush"] * (-32768 <= value <= 32767)
        if -1 <= value <= 5 and random.random() < 0.5:
            return "iconst_m1" if value == -1 else f"iconst_{value}"
    return f"{random.choice(forms)} {spelled(value)}"


def spelled(value):
    if isinstance(value, int):
        return str(value)
    escapes = {'"': '\\"', "\\": "\\\\", "\n": "\\n", "\t": "\\t"}
    return '"' + value.translate(str.maketrans(escapes)) + '"'
