#!/usr/bin/env python3
"""Proves everything, tries the edits that must fail, and runs all tests, programs and cases.

   gate/run.py [--from-nothing]

What an earlier run in this checkout passed is taken where its contents are the same; with --from-nothing it is forgotten
first. The last line is 'N passed, M failed'."""
import os
import re
import shutil
import subprocess
import sys
import time

sys.dont_write_bytecode = True

import build
import kit
from proving import Gate
from store import Store
from tally import Tally, say

ROOT = os.path.dirname(os.path.dirname(os.path.realpath(__file__)))
PROGRAM = f"{ROOT}/crates/jinit/out/jinit"
CASES = f"{ROOT}/crates/cases/out/cases"
# How many programs made at random are run, and how many more are compared with HotSpot.
RANDOM_RUNS, COMPARED_RUNS = "1000", "100"
# A harmless edit, and the crate beside whose edits it is tried: it changes a function that calls edited ones.
HARMLESS = f"{ROOT}/gate/harmless.edit", "descriptors"


def counted(tally, kind, words):
    """Runs a script of tests, shows what it says but for its last line, and counts that line."""
    start = time.time()
    ran = subprocess.run(words, stdout=subprocess.PIPE, stderr=subprocess.STDOUT, errors="replace")
    *shown, last = ran.stdout.rstrip("\n").split("\n")
    found = re.fullmatch(r"(\d+) passed, (\d+) failed", last)
    passed, failed = map(int, found.groups()) if found else (0, 1)
    if failed or ran.returncode:
        print("\n".join(shown if found else [*shown, last]))
    tally.add(kind, passed, failed or int(ran.returncode != 0), time.time() - start)
    say(f"{kind}: {passed} passed, {failed} failed")


def cases_of(tally):
    """Counts the cases by what their program wrote, and shows those that failed."""
    try:
        with open(f"{ROOT}/crates/cases/out/stdout", encoding="utf-8", errors="replace") as it:
            wrote = it.read()
    except OSError:
        wrote = ""
    found = re.findall(r"^(\d+) passed, (\d+) failed$", wrote, re.M)
    passed, failed = map(int, found[-1]) if found else (0, 1)
    if failed:
        print(wrote or "cases: it wrote nothing")
    tally.add("cases", passed, failed)


def by_the_kit(tally):
    """The kit's own gate: the same, but slower."""
    say(f"this kit is '{kit.version()}', and none of those whose inner names the gate leans on ({', '.join(kit.KNOWN)}): it runs 'rt ci' in its place")
    ran = subprocess.run(["rt", "ci"], stdout=subprocess.PIPE, stderr=subprocess.STDOUT, errors="replace")
    print(ran.stdout)
    found = re.findall(r"^(\d+) passed, (\d+) failed$", ran.stdout, re.M)
    passed, failed = map(int, found[-1]) if found else (0, 1)
    tally.add("proofs", passed, failed or int(ran.returncode != 0))


def main(words):
    if words not in ([], ["--from-nothing"]):
        sys.exit(__doc__)
    os.chdir(ROOT)
    tally = Tally()
    built = f"{ROOT}/crates/jinit/out/build.stamp"
    about = build.about()
    if kit.version() in kit.KNOWN:
        rt = kit.load()
        store = Store(ROOT, rt.rtlib.files_of)
        if words:
            store.forget()
        began = time.time()
        status = Gate(rt, tally, store, HARMLESS).judge()
        if os.path.isfile(PROGRAM) and not status:
            # (so that ./jinit takes the program that was proved here)
            open(built, "w").close()
            os.utime(built, (began, began))
            build.write_about(about)
        tally.add("proofs", failed=int(status != 0 and not any(it[1] for it in tally.rows.values())))
    else:
        by_the_kit(tally)
    cases_of(tally)
    if os.path.isfile(CASES):
        counted(tally, "cases", ["tests/archives/run", "--cases", CASES])
        if shutil.which("cc"):
            counted(tally, "calls", ["tests/refuse_memory/calls"])
    if os.path.isfile(PROGRAM):
        counted(tally, "archives", ["tests/archives/run", PROGRAM])
        counted(tally, "archives", ["tests/explanations/run", PROGRAM])
        counted(tally, "archives", ["tests/instructions/run"])
        if kit.version() in kit.KNOWN:
            counted(tally, "package", ["package/test", PROGRAM])
        seed = str(int(time.time()))
        say(f"damages: seed {seed}")
        counted(tally, "damages", ["tests/archives/damage.py", "--seed", seed])
        counted(tally, "threads", ["tests/threads/run"])
        counted(tally, "random", ["tests/code/run", RANDOM_RUNS])
        if shutil.which("cc"):
            counted(tally, "memory", ["tests/refuse_memory/run"])
            counted(tally, "traces", ["tests/refuse_memory/traces"])
        if shutil.which("java") and shutil.which("javac"):
            counted(tally, "HotSpot", ["tests/java/run", COMPARED_RUNS])
    return tally.show()


if __name__ == "__main__":
    sys.exit(main(sys.argv[1:]))
