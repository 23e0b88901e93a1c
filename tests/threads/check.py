#!/usr/bin/env python3
"""Compares `jinit check` with the definitions (definitions.py) on lists of events over three small programs: made at random, or all of
up to so many events whose events but the last are a beginning.

   tests/threads/check.py [LISTS [SEED]]
   tests/threads/check.py --all LENGTH

A list goes on by events that leave it a beginning; sometimes it ends with any event, or with one that fits what its thread does and
not its class. The lists are parted among the processors. The last line is 'N passed, M failed'."""
import os
import random
import subprocess
import sys
import tempfile
from collections import Counter
from concurrent.futures import ProcessPoolExecutor
from itertools import product
from pathlib import Path

HERE = os.path.dirname(os.path.realpath(__file__))
sys.dont_write_bytecode = True
sys.path.insert(0, HERE)
import classes
import definitions

PROGRAM = f"{os.path.dirname(os.path.dirname(HERE))}/crates/jinit/out/jinit"
ERRORS = ["java/lang/NoClassDefFoundError", *sorted(classes.MACHINE_ERRORS), "java/lang/VerifyError", "java/lang/Exception", "java/lang/String"]
# The texts of the classes, and the main classes.
PROGRAMS = [
    ([".class A\n", ".class B\n.super A\n"], ["B", "A"]),
    ([".interface I\n.method f()V\nreturn\n.end method\n", ".class C\n.implements I\n.field static x I = 5\n"], ["C", "C"]),
    ([".class E\n.super java/lang/Error\n", ".class F\n.field static y Ljava/lang/Object;\n.field static z I\n"], ["F", "E"]),
]
LENGTH = 14
# Into so many parts are the lists parted, however many processors there are, so that a seed gives the same lists everywhere.
PARTS = 16


def events_of(program):
    """All events that a thread may be said to make."""
    made = [("print", '"a"')]
    for name, of in program.items():
        made += [(f"step{step}", name) for step in (2, 3, 4, 5, 6, 9, 10)]
        made += [(f"step{step}", name, error) for step in (7, 12) for error in [*ERRORS, *(it for it in program if it == "E")]]
        for field in of.fields:
            values = ("0", "5", "7") if field.endswith(":I") else ("null", "#3")
            made += [(kind, name, field, value) for kind in ("get", "put") for value in values]
    return made


def trace_of(events):
    return "".join(f"{number} t{thread} {' '.join(event)}\n" for number, (thread, event) in enumerate(events))


class Set:
    """A program in files, and what it is checked with."""

    def __init__(self, number, folder):
        texts, self.mains = PROGRAMS[number]
        self.program = classes.program_of(texts)
        self.needs = {name: classes.needs_of(self.program, name) for name in self.program}
        self.events = events_of(self.program)
        self.trace = f"{folder}/{number}.trace"
        files = [f"{folder}/{number}.{at}.j" for at in range(len(texts))]
        for file, text in zip(files, texts):
            Path(file).write_text(text, encoding="utf-8")
        self.words = [PROGRAM, "check", "--mains", ",".join(self.mains), "--trace", self.trace, *files]

    def breaks(self, events):
        """Which rule the last event breaks, or None; the cheap test comes first."""
        return definitions.agrees(self.program, events) or definitions.broken_by(self.program, self.needs, self.mains, events)

    def made(self, choices):
        """A list of events at random."""
        events = []
        for _ in range(choices.randrange(LENGTH)):
            wanted = choices.choices(("fits", "any", "breaks"), (18, 1, 1))[0]
            for _ in range(1000):
                more = [*events, (choices.randrange(len(self.mains)), choices.choice(self.events))]
                # (the cheap test first)
                fits = not definitions.agrees(self.program, more)
                if wanted == "any" or fits == (wanted == "fits") and definitions.broken_by(self.program, self.needs, self.mains, more) != "word":
                    events = more
                    break
            if wanted != "fits":
                break
        return events

    def said(self, events):
        Path(self.trace).write_text(trace_of(events), encoding="utf-8")
        ran = subprocess.run(self.words, capture_output=True, text=True)
        right = ran.returncode == (0 if ran.stdout == "legal\n" else 1) and not ran.stderr
        return ran.stdout.removesuffix("\n") if right else f"{ran.stdout}{ran.stderr}status {ran.returncode}"


def at_random(sets, part, parts, count, seed):
    """One part of so many lists, each with its program."""
    choices = random.Random(f"{seed} {part} {parts}")
    for _ in range(part, count, parts):
        of = choices.choice(sets)
        yield of, of.made(choices)


def all_up_to(sets, part, parts, length):
    """One part, by the second event, of all lists of up to so many events whose events but the last are a beginning, each with its
    program."""
    for of in sets:
        fronts = [[]]
        for count in range(length):
            longer = []
            for front in fronts:
                for at, last in enumerate(product(range(len(of.mains)), of.events)):
                    if count == 1 and at % parts != part:
                        continue
                    events = [*front, last]
                    if count or not part:
                        yield of, events
                    if not of.breaks(events):
                        longer.append(events)
            fronts = longer


def part_compared(lists, part, *given):
    """Compares one part of the lists of events that a call makes for the programs: what differed, and how many had which verdict."""
    wrong, verdicts = [], Counter()
    with tempfile.TemporaryDirectory() as folder:
        for of, events in lists([Set(number, folder) for number in range(len(PROGRAMS))], part, PARTS, *given):
            said, wanted = of.said(events), definitions.verdict_on(of.program, of.needs, of.mains, events)
            verdicts[wanted.split()[-1]] += 1
            if said != wanted:
                wrong.append(f"{','.join(of.mains)}:\n{trace_of(events)}wanted: {wanted}\ncame: {said}")
    return wrong, verdicts


def compared(lists, *given):
    """Compares all lists that a call makes so."""
    wrong, verdicts = [], Counter()
    with ProcessPoolExecutor() as pool:
        for differed, found in pool.map(part_compared, *zip(*[(lists, part, *given) for part in range(PARTS)])):
            wrong += differed
            verdicts += found
    return wrong, verdicts


def counts_of(verdicts):
    return ", ".join(f"{number} {what}" for what, number in sorted(verdicts.items()))


def main(words):
    is_all = words[:1] == ["--all"]
    numbers = words[1:] if is_all else words
    if len(numbers) > 2 - is_all or len(numbers) < is_all or not all(word.isdigit() for word in numbers):
        sys.exit(__doc__)
    if is_all:
        wrong, verdicts = compared(all_up_to, int(numbers[0]))
    else:
        wrong, verdicts = compared(at_random, *map(int, numbers), *(1000, 1)[len(numbers):])
    for it in wrong[:10]:
        print(it)
    print(f"check: {counts_of(verdicts)}", flush=True)
    print(f"{verdicts.total() - len(wrong)} passed, {len(wrong)} failed")
    return 1 if wrong else 0


if __name__ == "__main__":
    sys.exit(main(sys.argv[1:]))
