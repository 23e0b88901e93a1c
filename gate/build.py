#!/usr/bin/env python3
"""Builds the program jinit, after the crates that it stands on: along their graph, side by side on the processors there
are, first those with the longest path of others after them.

What was built before is kept in the crates' folders out/. Each crate has a line on standard error with its own time and the time so far. A
crate that fails stops the build: its own last lines follow, and the exit status is 70."""
import copy
import os
import shutil
import subprocess
import sys
import time

sys.dont_write_bytecode = True

import kit
import lanes

ROOT = os.path.dirname(os.path.dirname(os.path.realpath(__file__)))
FAILED = 70
# What the program's sources are.
SOURCES = "crates", "crates.txt", "HANDLES"
# How many jobs the proof of a crate has where nothing is built, if not one, and which proofs run at the lower priority. It is nearly what
# served best in a model of the build that was given measured times: the longest path goes first, and there each processor has work until all
# that cli waits for ends, at about the same time; only what would leave one idle has several jobs, with which a proof takes more of them in all.
JOBS = {"jasmin_words": 2, "jasmin_text": 2, "jasmin_reader": 2, "hierarchy": 3, "code": 2, "statics": 3, "init_core": 2, "heap": 3, "interpreter": 2, "cli": 4, "jinit": 4}
LATER = {"texts", "command_line", "init_lock", "jasmin_reader", "trace", "trace_reader", "judge", "replayer"}
began = time.time()


def git(*words):
    """What a command of git says of the checkout, or nothing where it is none."""
    if not os.path.exists(f"{ROOT}/.git"):
        return ""
    try:
        ran = subprocess.run(["git", "-C", ROOT, *words], stdout=subprocess.PIPE, stderr=subprocess.DEVNULL, text=True)
    except OSError:
        return ""
    return ran.stdout.strip() if not ran.returncode else ""


def about():
    """From which commit a program is that is built of the sources as they are, and by which toolchain: lines of its file PROVED."""
    commit = git("rev-parse", "HEAD") or "not known"
    changes = " and changes" if git("status", "--porcelain", "--", *SOURCES) else ""
    return f"Commit     {commit}{changes}\nToolchain  {kit.version() or 'not known'}\n"


def write_about(lines):
    """Puts these lines beside the built program, whose version ends with them."""
    with open(f"{ROOT}/crates/jinit/out/PROVED", "w", encoding="utf-8") as it:
        it.write(lines)


def say(text):
    print(f"jinit: {text}", file=sys.stderr, flush=True)


def stop(name, log):
    say(f"{name} was not built; the end of {os.path.relpath(log, ROOT)}:")
    with open(log, errors="replace") as it:
        print("".join(it.readlines()[-20:]), end="", file=sys.stderr, flush=True)
    # (what the kit's commands still do ends with this process)
    os._exit(FAILED)


def by_the_kit():
    """One crate after the other, as the kit builds them."""
    log = f"{ROOT}/crates/jinit/out/build.log"
    os.makedirs(os.path.dirname(log), exist_ok=True)
    with open(log, "w") as out:
        how = {"cwd": f"{ROOT}/crates/jinit", "stdin": subprocess.DEVNULL, "stdout": out, "stderr": subprocess.STDOUT}
        if subprocess.run(["rt", "run", "--", "--version"], **how).returncode:
            stop("jinit", log)


def along_the_graph():
    rt = kit.load()
    rtlib = rt.rtlib
    rtlib.guarded()
    rtlib.Crate = rt.Crate
    rt.Crate.allowed = rt.handles_of(ROOT)
    program = next(it for it in rtlib.crates_below(ROOT) if it.name == "jinit")
    crates = [*program.below(), program]
    held = rtlib.lock(crates)
    done = []
    is_new = not any(it.has_kept() for it in crates)
    stamps = kit.stamps(crates)
    made = {it.name: os.path.getmtime(kit.stamp_file(it)) for it in crates if kit.is_built(rt, it, stamps[it.name])}
    # What is built, and after all that it stands on, which is kept too: statements fit no later build of the crates below.
    kept = set()
    for it in crates:
        below = {one.name for one in it.below()}
        if it.name in made and below <= kept and made[it.name] >= max((made[one] for one in below), default=0):
            kept.add(it.name)

    def prove(crate, flags):
        if not crate.is_program:
            return crate.build_rlib(flags, anew=False)
        program = f"out/{crate.name}"
        status = crate.compile(flags, f"{program}.o") or crate.link(f"{program}.o", program)
        if not status and kit.stamps(crates) == stamps:
            with open(kit.stamp_file(crate), "w", encoding="utf-8") as it:
                it.write(kit.stamp_of_program(rt, crate, stamps[crate.name]))
        return status

    def build(crate, jobs):
        crate = copy.copy(crate)
        start = time.time()
        log = f"{crate.folder}/out/build.log"
        if crate.name not in kept:
            if not crate.is_program:
                shutil.rmtree(f"{crate.folder}/out/rlib", ignore_errors=True)
            if is_new:
                # (of a library only its statements are built, which are loaded sooner than its proofs. With several jobs a proof from nothing
                # takes up to a quarter less time where nothing is kept of its parts. The program comes last, when no library is built any more)
                rtlib.KEPT = [] if crate.is_program else ["--statements"]
            os.makedirs(os.path.dirname(log), exist_ok=True)
            with open(log, "w", errors="replace") as crate.out:
                status = prove(crate, ["--jobs", str(jobs)])
            if status:
                stop(crate.name, log)
        done.append(crate.name)
        how = "was built before" if crate.name in kept else f"is proved and built in {time.time() - start:.0f} s"
        say(f"{len(done)} of {len(crates)}: {crate.name} {how}, {time.time() - began:.0f} s so far")

    tasks, planned = {}, {}
    for it in crates:
        key = it.name, "proof"
        waits = [(below.name, "proof") for below in it.below()]
        work = 0 if it.name in kept else kit.weight(rt, it)
        tasks[key] = waits, work, lambda given, jobs, it=it: build(it, jobs)
        planned[key] = JOBS.get(it.name, 1), it.name not in LATER
    lanes.run(tasks, {}, *kit.lanes(rt), kit.memory_for, planned=planned if is_new else None)
    return held


def main():
    os.chdir(ROOT)
    if not kit.version():
        say("the program isn't built from these sources, and the command 'rt' of the Rattle toolchain, which builds it, is not on the PATH")
        say("put the folder bin of the Rattle kit on the PATH and call again")
        sys.exit(FAILED)
    say("the program isn't built yet, or its sources changed: the crates that it stands on are proved and built first")
    lines = about()
    if kit.version() in kit.KNOWN:
        along_the_graph()
    else:
        by_the_kit()
    write_about(lines)
    say(f"built, {time.time() - began:.0f} s")


if __name__ == "__main__":
    main()
