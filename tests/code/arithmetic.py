"""Ints of 32 bits, and words that do nothing but with operands (JVMS SE 8 2.11, 6.5)."""

from objects import NULL, Reference


def wrapped(number):
    return (number + 2**31) % 2**32 - 2**31


def quotient(a, b):
    return abs(a) // abs(b) * (1 if (a < 0) == (b < 0) else -1)


COMPUTED = {
    "iadd": lambda a, b: a + b,
    "isub": lambda a, b: a - b,
    "imul": lambda a, b: a * b,
    "idiv": quotient,
    "irem": lambda a, b: a - b * quotient(a, b),
    "iand": lambda a, b: a & b,
    "ior": lambda a, b: a | b,
    "ixor": lambda a, b: a ^ b,
    "ishl": lambda a, b: a << (b & 31),
    "ishr": lambda a, b: a >> (b & 31),
    "iushr": lambda a, b: (a & 0xFFFFFFFF) >> (b & 31),
}
CONVERTED = {
    "ineg": lambda a: wrapped(-a),
    "i2b": lambda a: narrowed("B", a),
    "i2c": lambda a: narrowed("C", a),
    "i2s": lambda a: narrowed("S", a),
}
# How many operands a word takes, and which of them come in their place, 0 the lowest.
MOVED = {
    "pop": (1, []),
    "pop2": (2, []),
    "dup": (1, [0, 0]),
    "dup_x1": (2, [1, 0, 1]),
    "dup_x2": (3, [2, 0, 1, 2]),
    "dup2": (2, [0, 1, 0, 1]),
    "dup2_x1": (3, [1, 2, 0, 1, 2]),
    "dup2_x2": (4, [2, 3, 0, 1, 2, 3]),
    "swap": (2, [1, 0]),
}
HOLDS = {
    "eq": lambda a, b: a == b,
    "ne": lambda a, b: a != b,
    "lt": lambda a, b: a < b,
    "ge": lambda a, b: a >= b,
    "gt": lambda a, b: a > b,
    "le": lambda a, b: a <= b,
}
# The kinds of the operands of each jump, and whether it jumps.
JUMPS = {"goto": ([], lambda: True)}
JUMPS |= {f"if{word}": ([int], lambda a, holds=holds: holds(a, 0)) for word, holds in HOLDS.items()}
JUMPS |= {f"if_icmp{word}": ([int, int], holds) for word, holds in HOLDS.items()}
JUMPS |= {f"if_acmp{word}": ([Reference, Reference], HOLDS[word]) for word in ("eq", "ne")}
JUMPS |= {"ifnull": ([Reference], lambda a: a == NULL), "ifnonnull": ([Reference], lambda a: a != NULL)}
SWITCHES = ("tableswitch", "lookupswitch")


def narrowed(type, number):
    """What a field or an element of a type keeps of an int."""
    if type == "Z":
        return number & 1
    if type == "C":
        return number & 0xFFFF
    bits = {"B": 8, "S": 16}.get(type, 32)
    return (number + 2 ** (bits - 1)) % 2**bits - 2 ** (bits - 1)
