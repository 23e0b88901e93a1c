"""Shows that the judge isn't blind: good traces stay good, and each of them with one thing made wrong is at fault."""
import classes
import judge

TEXTS = [
    '.interface I\n.method f()V\nreturn\n.end method\n',
    '.class A\n.implements I\n.field static b B = 300\n.field static s Ljava/lang/String; = "x"\n',
    '.class B\n.super A\n.field static r LA;\n',
    '.class Bad\n.field static x I\n',
    '.class Worse\n.super Bad\n',
    '.class M\n',
]
MAINS = ["B", "M", "M"]
GOOD = """\
t0 step6 B
t0 step6 A
t1 step6 M
t0 step6 I
t2 step2 M
t0 step9 I
t0 step10 I
t0 step9 A
t1 step9 M
t0 step3 A
t0 get A b:B 44
t0 step3 A
t0 put A b:B 7
t0 print "a\\n"
t1 step10 M
t2 step4 M
t2 step2 A
t0 step10 A
t0 step9 B
t0 step10 B
t2 step4 A
t2 get A b:B 7
t1 step6 Worse
t1 step6 Bad
t1 step9 Bad
t1 step12 Bad java/lang/ExceptionInInitializerError
t1 step7 Worse java/lang/ExceptionInInitializerError
t2 step5 Worse
t1 step5 Bad
t1 step4 A
t1 get A s:Ljava/lang/String; #4
t1 step4 B
t1 get B r:LA; null
""".splitlines()


def numbered(lines):
    return "".join(f"{number} {line}\n" for number, line in enumerate(lines))


def at(line):
    return GOOD.index(line)


def changed(line, new):
    lines = list(GOOD)
    lines[at(line)] = new
    return lines


def dropped(line):
    return [it for it in GOOD if it != line]


def doubled(line):
    place = at(line)
    return GOOD[:place] + [line] + GOOD[place:]


def swapped(first, second):
    lines = list(GOOD)
    one, other = at(first), at(second)
    lines[one], lines[other] = lines[other], lines[one]
    return lines


def bad_traces():
    """By what was made wrong: the trace, and the line at which it is at fault, or None where that is its end."""
    yield "step 6 is step 4", changed("t0 step6 A", "t0 step4 A"), 1
    yield "step 2 is step 3", changed("t2 step2 M", "t2 step3 M"), 4
    yield "step 3 is step 4", changed("t0 step3 A", "t0 step4 A"), 9
    yield "step 4 is step 6", changed("t2 step4 M", "t2 step6 M"), 15
    yield "step 5 is step 4", changed("t2 step5 Worse", "t2 step4 Worse"), 27
    yield "step 10 is step 12", changed("t0 step10 I", "t0 step12 I java/lang/InternalError"), 7
    yield "step 9 of another class", changed("t0 step9 I", "t0 step9 A"), 5
    yield "a step of another thread", changed("t0 step10 A", "t1 step10 A"), 17
    yield "no such thread", changed("t2 step2 A", "t3 step2 A"), 16
    yield "no such class", changed("t2 step5 Worse", "t2 step5 Worst"), 27
    yield "step 7 by another throwable", changed(GOOD[26], "t1 step7 Worse java/lang/NoClassDefFoundError"), 26
    yield "step 12 by no Error", changed(GOOD[25], "t1 step12 Bad java/lang/Exception"), 25
    yield "a constant isn't cut", changed("t0 get A b:B 44", "t0 get A b:B 300"), 10
    yield "a get gives an older value", changed("t2 get A b:B 7", "t2 get A b:B 44"), 21
    yield "a default isn't null", changed("t1 get B r:LA; null", "t1 get B r:LA; #1"), 32
    yield "a text is null", changed(GOOD[30], "t1 get A s:Ljava/lang/String; null"), 30
    yield "a put beyond the type", changed("t0 put A b:B 7", "t0 put A b:B 128"), 12
    yield "no such field", changed("t0 put A b:B 7", "t0 put A c:B 7"), 12
    yield "a text isn't canonical", changed('t0 print "a\\n"', 't0 print "a\\q"'), 13
    yield "a need is left out", [it for it in GOOD if not it.endswith("I")], 4
    yield "step 6 is dropped", dropped("t0 step6 I"), 4
    yield "step 9 is dropped", dropped("t0 step9 B"), 18
    yield "step 10 is dropped", dropped("t0 step10 I"), 6
    yield "the request before a get is dropped", dropped("t2 step4 A"), 20
    yield "the request before a put is dropped", GOOD[:11] + GOOD[12:], 11
    yield "step 12 is dropped", dropped(GOOD[25]), 25
    yield "step 7 is dropped", dropped(GOOD[26]), 26
    yield "step 6 is doubled", doubled("t0 step6 A"), 2
    yield "step 2 is doubled", doubled("t2 step2 M"), 5
    yield "step 9 is doubled", doubled("t0 step9 A"), 8
    yield "step 10 is doubled", doubled("t0 step10 A"), 18
    yield "a get is doubled", doubled("t0 get A b:B 44"), 11
    yield "a print in no body", GOOD[:4] + ['t2 print "a"'] + GOOD[4:], 4
    yield "step 9 and step 10 are swapped", swapped("t0 step9 I", "t0 step10 I"), 5
    yield "step 6 of two needs are swapped", swapped("t0 step6 A", "t0 step6 B"), 0
    yield "step 10 and a later step 4 are swapped", swapped("t1 step10 M", "t2 step4 M"), 14
    yield "a get and its request are swapped", swapped("t2 step4 A", "t2 get A b:B 7"), 20
    yield "step 12 and step 7 are swapped", swapped(GOOD[25], GOOD[26]), 25
    yield "a wait isn't over at the end", GOOD + ["t0 step6 Late", "t1 step2 Late"], len(GOOD)
    yield "a class is open at the end", GOOD[:24], None
    yield "a thread waits at the end", GOOD[:14], None


def good_traces():
    """By what they show: a trace, and which threads the machine may have ended."""
    yield "all steps", GOOD, ()
    yield "a request is given up", GOOD[:22] + ["t1 step6 Worse", "t1 step7 Worse java/lang/InternalError"], (1,)
    yield "a wait is given up", GOOD[:14] + GOOD[14:15] + [it for it in GOOD[15:22] if "t2" not in it], (2,)


def results():
    """For each trace its name, and what was found wrong with the judge, or None."""
    program = classes.program_of(TEXTS)
    for what, lines, ended in good_traces():
        yield f"good, {what}", judge.fault_in(program, MAINS, numbered(lines), ended)
        if ended:
            found = judge.fault_in(program, MAINS, numbered(lines), ())
            yield f"bad, {what}, where the machine ended no thread", None if found else "isn't at fault"
    for what, lines, place in bad_traces():
        found = judge.fault_in(program, MAINS, numbered(lines), ())
        wanted = f"line {len(lines) if place is None else place}"
        yield f"bad, {what}", None if found and found.split(":")[0].split(",")[0] == wanted else f"{found}, and not {wanted}"
    shifted = numbered(GOOD).replace("7 t0", "8 t0", 1)
    yield "bad, a number", None if judge.fault_in(program, MAINS, shifted, ()) else "isn't at fault"
    yield "bad, no last line feed", None if judge.fault_in(program, MAINS, numbered(GOOD)[:-1], ()) else "isn't at fault"
