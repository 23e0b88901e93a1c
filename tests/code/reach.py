"""How often programs reached each instruction, and each error of each instruction with its reason."""

from collections import Counter

from arithmetic import COMPUTED, CONVERTED, JUMPS, MOVED, SWITCHES
from instructions import ARRAY_LOADS, ARRAY_STORES, WORDS

STATIC = ["nop", "aconst_null", "ldc", "iload", "aload", "istore", "astore", "iinc"]
STATIC += [*MOVED, *COMPUTED, *CONVERTED, *JUMPS, *SWITCHES, "return", "ireturn", "areturn"]
STATIC += ["getstatic", "putstatic", "invokestatic", "invokevirtual"]
MISSING, OTHER, FULL = "VerifyError: missing operand", "VerifyError: operand of the other kind", "VerifyError: full stack"
UNFIT, NO_CLASS = "VerifyError: value that does not fit", "NoClassDefFoundError: no such class"
NULL = "NullPointerException: null"
NO_LOCAL, UNSET, UNKIND = (f"VerifyError: {each}" for each in ("no such local", "local never set", "local of the other kind"))
NO_METHOD, NO_FIELD = "NoSuchMethodError: no such method", "NoSuchFieldError: no such field"
CHANGED, ABSTRACT = "IncompatibleClassChangeError: ", "AbstractMethodError: "
DEPTH, HEAP = "StackOverflowError: 512 frames", "OutOfMemoryError: full heap"
ARGUMENT, LOCALS = "VerifyError: argument that does not fit", "VerifyError: locals of the callee"
RECEIVER, NO_TEXT = "VerifyError: receiver that does not fit", "VerifyError: String that is no text"
NO_ARRAY, OTHER_ARRAY = "VerifyError: no array", "VerifyError: array of another type"
INDEX = ["ArrayIndexOutOfBoundsException: below", "ArrayIndexOutOfBoundsException: beyond"]
RETURN, NOT_HELD = "VerifyError: return of another kind", "IllegalMonitorStateException: not held"
SELECTED = [ABSTRACT + "abstract method", ABSTRACT + "none selected", CHANGED + "several selected"]
CALL = [MISSING, OTHER, NO_CLASS, NO_METHOD, ARGUMENT, LOCALS, DEPTH]
VIRTUAL = [*CALL, NULL, CHANGED + "static method", *SELECTED]
FIELD = [MISSING, NO_CLASS, NO_FIELD]
INSTANCE_FIELD = [*FIELD, OTHER, CHANGED + "static field", UNFIT, NULL, "VerifyError: object without the field"]


def errors():
    """For each word the errors that it can throw, as the rules have them, but those of an active use."""
    found = {word: [MISSING, OTHER] for word in [*COMPUTED, *CONVERTED, *JUMPS, *SWITCHES]}
    found |= {word: [MISSING, FULL] for word in MOVED}
    found |= {"pop": [MISSING], "pop2": [MISSING], "swap": [MISSING], "goto": [], "nop": [], "aconst_null": [FULL], "ldc": [FULL]}
    found |= {word: [MISSING, OTHER, "ArithmeticException: zero divisor"] for word in ("idiv", "irem")}
    found |= {word: [FULL, NO_LOCAL, UNSET, UNKIND] for word in ("iload", "aload")}
    found |= {word: [MISSING, OTHER, NO_LOCAL] for word in ("istore", "astore")}
    found |= {"iinc": [NO_LOCAL, UNSET, UNKIND], "return": [RETURN, NOT_HELD]}
    found |= {"ireturn": [MISSING, OTHER, RETURN, FULL, NOT_HELD], "areturn": [MISSING, OTHER, RETURN, FULL, UNFIT, NOT_HELD]}
    found |= {"getstatic": [NO_CLASS, NO_FIELD, CHANGED + "instance field", FULL]}
    found |= {"putstatic": [*FIELD, CHANGED + "instance field", UNFIT]}
    found |= {"getfield": INSTANCE_FIELD, "putfield": INSTANCE_FIELD}
    found |= {"invokestatic": [*CALL, CHANGED + "instance method"]}
    found |= {"invokevirtual": [*VIRTUAL, CHANGED + "names an interface", RECEIVER, NO_TEXT]}
    found |= {"invokespecial": [*VIRTUAL, "NoSuchMethodError: <init> of another class", RECEIVER]}
    more = [CHANGED + each for each in ("names a class", "private method", "interface not implemented")]
    found |= {"invokeinterface": [*VIRTUAL, *more]}
    found |= {"new": [NO_CLASS, FULL, HEAP, "InstantiationError: abstract class", "InstantiationError: interface"]}
    found |= {"newarray": [MISSING, OTHER, "NegativeArraySizeException: negative length", HEAP]}
    found |= {"anewarray": [*found["newarray"], NO_CLASS], "arraylength": [MISSING, OTHER, NULL, NO_ARRAY]}
    found |= {word: [MISSING, OTHER, NULL, NO_ARRAY, OTHER_ARRAY, *INDEX] for word in [*ARRAY_LOADS, *ARRAY_STORES]}
    found["aastore"] = [*found["aastore"], "ArrayStoreException: no instance"]
    found |= {"checkcast": [MISSING, OTHER, NO_CLASS, "ClassCastException: no instance"]}
    found |= {"instanceof": [MISSING, OTHER, NO_CLASS]}
    found |= {"athrow": [MISSING, OTHER, NULL, "VerifyError: no Throwable"], "monitorenter": [MISSING, OTHER, NULL]}
    found |= {"monitorexit": [MISSING, OTHER, NULL, NOT_HELD]}
    return found


BESIDE = {
    "end of code": ["VerifyError: no instruction"],
    "start of main": ["VerifyError: locals of the callee", HEAP],
    "step 5": ["NoClassDefFoundError: erroneous class"],
    "step 9": [DEPTH],
    "step 11": ["ExceptionInInitializerError: no Error"],
    "throwing": ["OutOfMemoryError: for ExceptionInInitializerError", "OutOfMemoryError: for StackOverflowError"],
    "step7": ["Thrown: ", "Ended: "],
    "step12": ["Thrown: ", "Ended: "],
}


def show(counts, of):
    total = Counter()
    for each in counts:
        total += each
    wanted = errors()
    wanted = {word: wanted[word] for word in (WORDS if of == "all" else STATIC)}
    missed = 0
    for word, ones in {**wanted, **BESIDE}.items():
        found = {f"{key[1]}: {key[2]}": count for key, count in total.items() if isinstance(key, tuple) and key[0] == word}
        for one in ones if of == "all" else []:
            found.setdefault(one, 0)
        print(f"{total[word]:9} {word}" if word in wanted else f"          {word}")
        missed += (word in wanted and total[word] == 0) + sum(count == 0 for count in found.values())
        for one, count in sorted(found.items()):
            print(f"{count:9}     {one}" + "   (not reached)" * (count == 0))
    for key, count in sorted((key, count) for key, count in total.items() if isinstance(key, tuple) and key[0] == "runs"):
        print(f"{count:9} runs ended by {key[2]}")
    print(f"{missed} not reached")
    return 0 if missed == 0 else 1
