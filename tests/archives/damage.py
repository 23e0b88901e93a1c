#!/usr/bin/env python3
"""Damages files byte by byte, and runs the built program on each: it reads a file, or answers with the line of a fault and status 2.

tests/archives/damage.py [--program PATH] [--seed SEED] [RUNS]     so many damages, 3,000 where no number is given, drawn by a seed
tests/archives/damage.py [--program PATH] --all                    all of them

The files are those of examples/, of the archives that ARCHIVES names and of those beside this script, with the traces that they leave. Each byte is changed to 0, to 34 and to
255, and the file is cut at each byte. --program is the built program, crates/jinit/out/jinit where it isn't given. The
seed is the clock's where it isn't given; it is printed. In any case the trace of two threads that use one class is cut at each byte: of
whole lines the verdict must be the one that JLS SE 8 12.4.2 asks for, and where a line is broken off, the fault must be of that line.

The last line is 'N passed, M failed'.
"""

import argparse
import os
import random
import re
import subprocess
import sys
import tempfile
import time
from concurrent.futures import ProcessPoolExecutor
from functools import partial
from pathlib import Path

sys.dont_write_bytecode = True
import archive

BUILT = archive.TOP / "crates/jinit/out/jinit"
RUNS = 3000
# How many damages a process does one after the other.
IN_A_ROW = 100
CHANGES = (0, 34, 255)
# What a program may answer: the exit status, standard output, and standard error, with the line of a fault where it names one.
CLASS_ANSWERS = (
    (0, rb"(?s:.+)", rb""),
    (2, rb"", rb"damaged:(\d+): J(?:[1-9]|1[0-3])\n"),
    (2, rb"", rb"link: H[1-8] .*\n"),
)
TRACE_ANSWERS = (
    (0, rb"legal\n", rb""),
    (1, rb"illegal at \d+: (?:word|label|value|end)\n", rb""),
    (2, rb"", rb"damaged:(\d+): L[1-6]\n"),
)
# The archives of crates/cases/data/programs whose programs are small ones, each of one way to initialize classes.
ARCHIVES = (
    "arrays_and_monitors",
    "constants_before_supers",
    "cyclic_initialization",
    "cyclic_superclasses",
    "deep_recursion",
    "default_interfaces",
    "default_seen_twice",
    "diamond_defaults",
    "edition_7",
    "error_not_wrapped",
    "failed_initializer",
    "failed_superclass",
    "inherited_static",
    "integer_arithmetic",
    "missing_class_used",
    "narrowing",
    "orders",
    "shifts",
    "step_limit",
    "superinterfaces_again",
    "unfinished_method",
)
# A trace of two threads that use one class, and what is to be said of so many lines of it. It is legal where t1 has given up before step 4.
CLASS = b".class public A\n.super java/lang/Object\n"
TRACE = b"0 t0 step6 A\n1 t0 step9 A\n2 t1 step2 A\n3 t0 step10 A\n4 t1 step4 A\n"
VERDICTS = (b"legal\n", b"illegal at 1: end\n", b"illegal at 2: end\n", b"illegal at 3: end\n", b"legal\n", b"legal\n")


class Damaged:
    """A file, the words that the program is given for it, the files beside it, and what may be answered."""

    def __init__(self, name, content, words, beside, answers):
        self.name, self.content, self.words, self.beside, self.answers = name, content, words, beside, answers

    def count(self):
        return len(self.content) * (len(CHANGES) + 1)

    def damage(self, number):
        """What is done to the file in the damage of this number, what it holds then, and what may be answered."""
        at, way = divmod(number, len(CHANGES) + 1)
        if way == len(CHANGES):
            return f"cut at byte {at}", self.content[:at], self.answers
        byte = CHANGES[way]
        return f"byte {at} is {byte}", self.content[:at] + bytes([byte]) + self.content[at + 1 :], self.answers


class Cut(Damaged):
    """The trace of two threads, cut at each byte, of which it is known what must be answered."""

    def __init__(self):
        words = [b"jinit", b"check", b"--mains", b"A,A", b"--trace", b"damaged", b"A.j"]
        super().__init__("two threads at one class", TRACE, words, {"A.j": CLASS}, ())

    def count(self):
        return len(TRACE) + 1

    def damage(self, number):
        front = TRACE[:number]
        whole = front.count(b"\n")
        if front.endswith(b"\n") or not front:
            verdict = VERDICTS[whole]
            answer = (0 if verdict == b"legal\n" else 1, re.escape(verdict), rb"")
        else:
            answer = (2, rb"", rb"damaged:%d: L[1-6]\n" % (whole + 1))
        return f"cut at byte {number}", front, (answer,)


def fits(answer, came, content):
    status, out, err = answer
    found = re.fullmatch(err, came["stderr"])
    if came["status"] != b"%d\n" % status or not found or not re.fullmatch(out, came["stdout"]):
        return False
    return not found.groups() or 1 <= int(found[1]) <= content.count(b"\n") + 1


def of_class(name, content):
    return Damaged(name, content, [b"jinit", b"needs", b"damaged"], {}, CLASS_ANSWERS)


def of_trace(name, content, mains, beside):
    words = [b"jinit", b"check", b"--mains", mains, b"--trace", b"damaged", *(os.fsencode(it) for it in beside)]
    return Damaged(name, content, words, beside, TRACE_ANSWERS)


def of_case(where, words, files, made, others):
    """The files that a case makes, and the trace that it leaves."""
    for file in made:
        if file.endswith(".j"):
            yield of_class(f"{where} {file}", made[file])
    traces = [it for it in others if it.endswith(".trace")]
    if traces and b"--mains" in words:
        beside = {it: files[it] for it in map(os.fsdecode, words) if it.endswith(".j")}
        mains = words[words.index(b"--mains") + 1]
        yield from (of_trace(f"{where} {it}", others[it], mains, beside) for it in traces)


def all_files():
    """Each file once."""
    programs = archive.TOP / "crates/cases/data/programs"
    paths = [*archive.example_folders(), *(programs / f"{name}.txtar" for name in ARCHIVES), *archive.paths_of_program()]
    seen, files = set(), [Cut()]
    for path in paths:
        so_far = {}
        for number, words, made, others in archive.cases_of(archive.text_of(path)):
            so_far |= made
            for it in of_case(f"{path.name}:{number}", words, so_far, made, others):
                if it.content not in seen:
                    seen.add(it.content)
                    files.append(it)
    return files


FILES = all_files()


def came_of(program, file, content, folder):
    """What comes of the program where the file holds this, as the parts of a case say it."""
    for name, text in {**file.beside, "damaged": content}.items():
        (folder / name).parent.mkdir(parents=True, exist_ok=True)
        (folder / name).write_bytes(text)
    how = {"executable": program, "cwd": folder, "stdin": subprocess.DEVNULL, "capture_output": True, "timeout": archive.SECONDS}
    try:
        ran = subprocess.run(file.words, **how)
    except subprocess.TimeoutExpired:
        return {"status": b"none after %d seconds\n" % archive.SECONDS, "stdout": b"", "stderr": b""}
    return {"status": b"%d\n" % ran.returncode, "stdout": ran.stdout, "stderr": ran.stderr}


def wrong_of(program, share):
    """Of these damages, each the number of a file and its own, those that the program answers otherwise than it may, in words."""
    wrong = []
    with tempfile.TemporaryDirectory() as folder:
        for number, damage in share:
            file = FILES[number]
            said, content, answers = file.damage(damage)
            came = came_of(program, file, content, Path(folder))
            if not any(fits(it, came, content) for it in answers):
                wrong.append(f"{file.name}: {said}: {came}")
    return wrong


def damages_of(options):
    """The damages that are asked for: the cuts of the trace of two threads, and others in an order that the seed makes."""
    cuts = [(0, damage) for damage in range(FILES[0].count())]
    others = [(number, damage) for number, file in enumerate(FILES) if number for damage in range(file.count())]
    print(f"damage: {len(FILES)} files, {len(others)} damages", end="")
    if not options.all:
        print(f", of which {options.runs} by seed {options.seed}", end="")
        others = random.Random(options.seed).sample(others, min(options.runs, len(others)))
    print(flush=True)
    return cuts + others


def main():
    words = argparse.ArgumentParser(description=__doc__, formatter_class=argparse.RawDescriptionHelpFormatter)
    words.add_argument("--program", default=BUILT, type=lambda word: Path(word).resolve())
    words.add_argument("--all", action="store_true")
    words.add_argument("--seed", type=int, default=int(time.time()))
    words.add_argument("runs", nargs="?", type=int, default=RUNS)
    options = words.parse_args()
    damages = damages_of(options)
    shares = [damages[at : at + IN_A_ROW] for at in range(0, len(damages), IN_A_ROW)]
    wrong = []
    with ProcessPoolExecutor() as pool:
        for number, found in enumerate(pool.map(partial(wrong_of, options.program), shares), 1):
            wrong += found
            if number % 100 == 0:
                print(f"damage: {number * IN_A_ROW} tried, {len(wrong)} answered otherwise", flush=True)
    for it in wrong[:20]:
        print(f"damage: {it}")
    print(f"{len(damages) - len(wrong)} passed, {len(wrong)} failed")
    return 1 if wrong else 0


if __name__ == "__main__":
    sys.exit(main())
