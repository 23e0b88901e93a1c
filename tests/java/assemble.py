"""Assembles Jasmin files of the form of docs/JASMIN.md to Java class files.

The files are taken for right ones: no fault is looked for. What is emitted so that the virtual machine refuses nothing that Jinit takes:
- all classes, fields and methods are public, and no one is final, as Jinit makes no access checks; a private method stays
  private, since that acts on selection, but for `main`. Where there is one, the classes of a package are a nest, so that all
  may call it: then the version is 55 (Java 11), else 52 (Java 8).
- a frame has room for its arguments, and for one operand more than `.limit stack` says: what a handler is given.
There are no stack maps: the virtual machine must run without verification.
"""

import struct
from pathlib import Path

PUBLIC, PRIVATE, STATIC, SUPER, SYNCHRONIZED, INTERFACE, ABSTRACT = 0x1, 0x2, 0x8, 0x20, 0x20, 0x200, 0x400
NEST_HOST = "Nest$"
MAIN = ("main", "([Ljava/lang/String;)V")
ACCESS = set(
    "public private protected static final synchronized volatile transient abstract super strict strictfp fpstrict varargs bridge "
    "synthetic enum annotation interface".split()
)
SKIPPED = {".bytecode", ".source", ".signature", ".deprecated", ".debug", ".line", ".var", ".throws"}
ESCAPES = {"n": "\n", "t": "\t", "r": "\r", "b": "\b", "f": "\f"}
PLAIN = {
    "nop": 0, "aconst_null": 1, "iaload": 46, "aaload": 50, "baload": 51, "caload": 52, "saload": 53, "iastore": 79, "aastore": 83,
    "bastore": 84, "castore": 85, "sastore": 86, "pop": 87, "pop2": 88, "dup": 89, "dup_x1": 90, "dup_x2": 91, "dup2": 92, "dup2_x1": 93,
    "dup2_x2": 94, "swap": 95, "iadd": 96, "isub": 100, "imul": 104, "idiv": 108, "irem": 112, "ineg": 116, "ishl": 120, "ishr": 122,
    "iushr": 124, "iand": 126, "ior": 128, "ixor": 130, "i2b": 145, "i2c": 146, "i2s": 147, "int2byte": 145, "int2char": 146,
    "int2short": 147, "ireturn": 172, "areturn": 176, "return": 177, "arraylength": 190, "athrow": 191, "monitorenter": 194,
    "monitorexit": 195, "iconst_m1": 2,
}
PLAIN |= {f"iconst_{number}": 3 + number for number in range(6)}
LOCALS = {"iload": 21, "aload": 25, "istore": 54, "astore": 58}
SHORT_LOCALS = {"iload": 26, "aload": 42, "istore": 59, "astore": 75}
PLAIN |= {f"{word}_{number}": code + number for word, code in SHORT_LOCALS.items() for number in range(4)}
JUMPS = {word: 153 + at for at, word in enumerate(
    "ifeq ifne iflt ifge ifgt ifle if_icmpeq if_icmpne if_icmplt if_icmpge if_icmpgt if_icmple if_acmpeq if_acmpne goto".split()
)}
JUMPS |= {"goto_w": 200, "ifnull": 198, "ifnonnull": 199}
FIELDS = {"getstatic": 178, "putstatic": 179, "getfield": 180, "putfield": 181}
CALLS = {"invokevirtual": 182, "invokespecial": 183, "invokenonvirtual": 183, "invokestatic": 184, "invokeinterface": 185}
CLASSES = {"new": 187, "anewarray": 189, "checkcast": 192, "instanceof": 193}
NEW_ARRAYS = {"boolean": 4, "char": 5, "byte": 8, "short": 9, "int": 10}


class Text(str):
    """A string of a line, without its quotes."""


def words_of(line):
    """The words, marks and strings of a line, without its comment."""
    words, at, word = [], 0, ""

    def end():
        nonlocal word
        if word:
            words.append(word)
        word = ""

    while at < len(line):
        each = line[at]
        if each in " \t\r":
            end()
        elif each == ";" and (at == 0 or line[at - 1] in " \t\r"):
            break
        elif each in "=:":
            end()
            words.append(each)
        elif each == '"':
            end()
            text, at = string_at(line, at + 1)
            words.append(text)
        else:
            word += each
        at += 1
    end()
    return words


def string_at(line, at):
    """The string that begins here, and where its closing quote stands."""
    text = ""
    while line[at] != '"':
        if line[at] != "\\":
            text += line[at]
        elif line[at + 1] == "u":
            text += chr(int(line[at + 2 : at + 6], 16))
            at += 5
        else:
            text += ESCAPES.get(line[at + 1], line[at + 1])
            at += 1
        at += 1
    return Text(text.encode("utf-16-be", "surrogatepass").decode("utf-16-be")), at


def integer(word):
    number = int(word, 16) if word.startswith("0x") else int(word)
    return number - 2**32 if number >= 2**31 else number


def is_integer(word):
    return word[:1].isdigit() or word[:1] == "-"


def modified_utf8(text):
    """JVMS SE 8 4.4.7."""
    made = bytearray()
    units = text.encode("utf-16-be", "surrogatepass")
    for (unit,) in struct.iter_unpack(">H", units):
        if 0 < unit < 0x80:
            made.append(unit)
        elif unit < 0x800:
            made += bytes([0xC0 | unit >> 6, 0x80 | unit & 63])
        else:
            made += bytes([0xE0 | unit >> 12, 0x80 | unit >> 6 & 63, 0x80 | unit & 63])
    return bytes(made)


def parameters(descriptor):
    """How many locals the arguments take."""
    count, at = 0, 1
    while descriptor[at] != ")":
        at += len(descriptor[at:]) - len(descriptor[at:].lstrip("["))
        at = descriptor.index(";", at) + 1 if descriptor[at] == "L" else at + 1
        count += 1
    return count


class Pool:
    """A constant pool."""

    def __init__(self):
        self.entries, self.numbers = [], {}

    def number(self, entry):
        if entry not in self.numbers:
            self.entries.append(entry)
            self.numbers[entry] = len(self.entries)
        return self.numbers[entry]

    def text(self, text):
        data = modified_utf8(text)
        return self.number(b"\1" + struct.pack(">H", len(data)) + data)

    def integer(self, value):
        return self.number(b"\3" + struct.pack(">i", value))

    def of_text(self, tag, text):
        """A class (7) or a string (8)."""
        return self.number(struct.pack(">BH", tag, self.text(text)))

    def member(self, tag, owner, name, descriptor):
        """A field (9), a method (10) or an interface's method (11)."""
        both = self.number(struct.pack(">BHH", 12, self.text(name), self.text(descriptor)))
        return self.number(struct.pack(">BHH", tag, self.of_text(7, owner), both))

    def written(self):
        return struct.pack(">H", len(self.entries) + 1) + b"".join(self.entries)


class Method:
    def __init__(self, words):
        self.name, _, rest = words[-1].partition("(")
        self.descriptor = "(" + rest
        self.words = set(words[1:-1])
        self.stack = self.locals = 1024
        self.catches, self.lines = [], []

    @property
    def is_private(self):
        return "private" in self.words and (self.name, self.descriptor) != MAIN


class Class:
    """A class as its file spells it."""

    def __init__(self, text):
        self.superclass, self.interfaces, self.fields, self.methods = "java/lang/Object", [], [], []
        method = None
        for line in text.split("\n"):
            words = words_of(line)
            if not words or words[0] in SKIPPED:
                continue
            match words[0]:
                case ".class" | ".interface":
                    self.name, self.words = words[-1], set(words[1:-1])
                    self.is_interface = words[0] == ".interface" or "interface" in self.words
                case ".super":
                    self.superclass = words[1]
                case ".implements":
                    self.interfaces.append(words[1])
                case ".field":
                    self.fields.append(words[1:])
                case ".method":
                    method = Method(words)
                    self.methods.append(method)
                case ".end":
                    method = None
                case ".limit":
                    setattr(method, words[1], integer(words[2]))
                case ".catch":
                    method.catches.append((words[1], words[3], words[5], words[7]))
                case _:
                    method.lines.append(words)

    @property
    def package(self):
        return self.name.rpartition("/")[0]

    def has_own_main(self):
        return any((each.name, each.descriptor) == MAIN and "static" in each.words for each in self.methods)


class Code:
    """The bytes of a method's code. Jumps are written when all labels are known."""

    def __init__(self, pool, interfaces, lines):
        self.pool, self.interfaces = pool, interfaces
        self.bytes, self.labels, self.jumps = bytearray(), {}, []
        lines = iter(lines)
        for words in lines:
            if words[1:2] == [":"]:
                self.labels[words[0]] = len(self.bytes)
                words = words[2:]
            if words:
                self.instruction(lines, *words)
        for at, start, form, label in self.jumps:
            struct.pack_into(form, self.bytes, at, self.labels[label] - start)

    def put(self, form, *values):
        self.bytes += struct.pack(">" + form, *values)

    def jump(self, start, form, label):
        self.jumps.append((len(self.bytes), start, ">" + form, label))
        self.put(form, 0)

    def instruction(self, lines, word, *operands):
        start = len(self.bytes)
        if word in PLAIN:
            self.put("B", PLAIN[word])
        elif word in LOCALS:
            number = integer(operands[0])
            self.put("BB", LOCALS[word], number) if number < 256 else self.put("BBH", 196, LOCALS[word], number)
        elif word in JUMPS:
            self.put("B", JUMPS[word])
            self.jump(start, "i" if word == "goto_w" else "h", operands[0])
        elif word in FIELDS:
            owner, _, name = operands[0].rpartition("/")
            self.put("BH", FIELDS[word], self.pool.member(9, owner, name, operands[1]))
        elif word in CALLS:
            self.call(word, operands[0])
        elif word in CLASSES:
            self.put("BH", CLASSES[word], self.pool.of_text(7, operands[0]))
        elif word == "newarray":
            self.put("BB", 188, NEW_ARRAYS[operands[0]])
        elif word == "iinc":
            number, more = map(integer, operands)
            is_short = number < 256 and -128 <= more < 128
            self.put("BBb", 132, number, more) if is_short else self.put("BBHh", 196, 132, number, more)
        elif word == "bipush":
            self.put("Bb", 16, integer(operands[0]))
        elif word == "sipush":
            self.put("Bh", 17, integer(operands[0]))
        elif word in ("ldc", "ldc_w"):
            value = operands[0]
            number = self.pool.of_text(8, value) if isinstance(value, Text) else self.pool.integer(integer(value))
            self.put("BB", 18, number) if word == "ldc" and number < 256 else self.put("BH", 19, number)
        elif word in ("tableswitch", "lookupswitch"):
            self.switch(lines, word, operands)
        else:
            raise ValueError(f"unknown instruction {word}")

    def call(self, word, operand):
        named, _, rest = operand.partition("(")
        owner, _, name = named.rpartition("/")
        is_method_of_interface = word == "invokeinterface" or (word != "invokevirtual" and owner in self.interfaces)
        self.put("BH", CALLS[word], self.pool.member(11 if is_method_of_interface else 10, owner, name, "(" + rest))
        if word == "invokeinterface":
            self.put("BB", min(parameters("(" + rest) + 1, 255), 0)

    def switch(self, lines, word, operands):
        start = len(self.bytes)
        rows, default = switch_rows(lines, word)
        self.put("B", 170 if word == "tableswitch" else 171)
        self.bytes += bytes(-len(self.bytes) % 4)
        self.jump(start, "i", default)
        if word == "tableswitch":
            first = integer(operands[0])
            # (labels whose keys are beyond the ints are never taken)
            rows = rows[: 2**31 - first]
            rows = rows or [[default]]
            self.put("ii", first, first + len(rows) - 1)
            for row in rows:
                self.jump(start, "i", row[0])
        else:
            self.put("i", len(rows))
            for row in sorted(rows, key=lambda each: integer(each[0])):
                self.put("i", integer(row[0]))
                self.jump(start, "i", row[2])


def switch_rows(lines, word):
    """The words of a switch's lines, and the label of the last one."""
    rows = []
    for words in lines:
        if words[0] == "default" and (words[1:2] == [":"] or word == "lookupswitch"):
            return rows, words[2]
        rows.append(words)


def attribute(pool, name, data):
    return struct.pack(">HI", pool.text(name), len(data)) + data


def attributes(*each):
    return struct.pack(">H", len(each)) + b"".join(each)


def field_parts(words):
    """Of a field's line: the name, the descriptor, whether it is static, the value or none."""
    ends = [at for at, each in enumerate(words) if at > 1 and (each in ("signature", "=") or isinstance(each, Text))]
    end = ends[0] if ends else len(words)
    return words[end - 2], words[end - 1], "static" in words[: end - 2], words[words.index("=") + 1] if "=" in words else None


def field_of(pool, words):
    """A field, public, and not final."""
    name, descriptor, is_static, value = field_parts(words)
    constant = []
    if value is not None:
        number = pool.of_text(8, value) if isinstance(value, Text) else pool.integer(integer(value))
        constant.append(attribute(pool, "ConstantValue", struct.pack(">H", number)))
    flags = PUBLIC | STATIC * is_static
    return struct.pack(">HHH", flags, pool.text(name), pool.text(descriptor)) + attributes(*constant)


def method_of(pool, interfaces, method):
    is_static, is_abstract = "static" in method.words, "abstract" in method.words
    flags = PRIVATE if method.is_private else PUBLIC
    flags |= STATIC * is_static | ABSTRACT * is_abstract | SYNCHRONIZED * ("synchronized" in method.words)
    code = [] if is_abstract else [attribute(pool, "Code", code_of(pool, interfaces, method, is_static))]
    return struct.pack(">HHH", flags, pool.text(method.name), pool.text(method.descriptor)) + attributes(*code)


def code_of(pool, interfaces, method, is_static):
    code = Code(pool, interfaces, method.lines)
    if not 0 < len(code.bytes) < 65536:
        raise ValueError(f"{len(code.bytes)} bytes of code")
    rows = b""
    for name, first, last, to in method.catches:
        places = [code.labels[each] for each in (first, last, to)]
        rows += struct.pack(">HHHH", *places, 0 if name == "all" else pool.of_text(7, name))
    room = max(method.locals, parameters(method.descriptor) + (not is_static))
    data = struct.pack(">HHI", method.stack + 1, room, len(code.bytes)) + code.bytes
    return data + struct.pack(">H", len(method.catches)) + rows + attributes()


def class_file(each, interfaces, nest=None):
    """The bytes of a class; the nest is the attribute's name and the classes that it names, or none."""
    pool = Pool()
    flags = PUBLIC | (INTERFACE | ABSTRACT if each.is_interface else SUPER | ABSTRACT * ("abstract" in each.words))
    head = struct.pack(">HHH", flags, pool.of_text(7, each.name), pool.of_text(7, each.superclass))
    head += struct.pack(">H", len(each.interfaces)) + b"".join(struct.pack(">H", pool.of_text(7, one)) for one in each.interfaces)
    fields = [field_of(pool, one) for one in each.fields]
    methods = [method_of(pool, interfaces, one) for one in each.methods]
    extra = []
    if nest:
        name, names = nest
        data = b"".join(struct.pack(">H", pool.of_text(7, one)) for one in names)
        extra = [attribute(pool, name, data if name == "NestHost" else struct.pack(">H", len(names)) + data)]
    body = attributes(*fields) + attributes(*methods) + attributes(*extra)
    return struct.pack(">IHH", 0xCAFEBABE, 0, 55 if nest else 52) + pool.written() + head + body


def assembled(texts):
    """The class files of a program by the names of their classes, from the texts of its files."""
    classes = [Class(each) for each in texts]
    interfaces = {each.name for each in classes if each.is_interface}
    if not any(one.is_private for each in classes for one in each.methods):
        return {each.name: class_file(each, interfaces) for each in classes}
    made = {}
    for package in {each.package for each in classes}:
        members, prefix = [each for each in classes if each.package == package], package + "/" if package else ""
        for each in members:
            made[each.name] = class_file(each, interfaces, ("NestHost", [prefix + NEST_HOST]))
        host = Class(f".class {prefix}{NEST_HOST}")
        made[host.name] = class_file(host, interfaces, ("NestMembers", [each.name for each in members]))
    return made


def write(folder, files):
    for name, data in files.items():
        path = Path(folder) / f"{name}.class"
        path.parent.mkdir(parents=True, exist_ok=True)
        path.write_bytes(data)
