"""The kit's own script `rt`, as a module."""
import functools
import importlib.machinery
import importlib.util
import os
import shutil
import subprocess
import sys

# The kits whose inner names the gate and the build lean on. With any other they fall back to the kit's own commands.
KNOWN = "rattle-kit-13b logic dac8208d650f15bf", "rattle-kit-13f logic dac8208d650f15bf"


@functools.cache
def version():
    """The one line by which the kit on the PATH names itself, or nothing where there is none."""
    try:
        return subprocess.run(["rt", "version"], capture_output=True, text=True).stdout.strip()
    except OSError:
        return ""


def load():
    """The script `rt` of the kit on the PATH."""
    loader = importlib.machinery.SourceFileLoader("rt", os.path.realpath(shutil.which("rt")))
    made = importlib.util.module_from_spec(importlib.util.spec_from_loader("rt", loader))
    sys.modules["rt"] = made
    loader.exec_module(made)
    return made


def weight(rt, crate):
    """The lines of a crate, those of code three times, and some of those that it stands on: its proof takes about so long."""
    below = sum(lines_of(rt, it) for it in crate.below())
    return lines_of(rt, crate) + below // 20


def lines_of(rt, crate):
    files = [*rt.rtlib.files_of(crate.folder)]
    return sum(times * rt.rtlib.text_of(it).count("\n") for times, end in ((3, ".rt"), (1, ".antt")) for it in files if it.endswith(end))


def memory_for(jobs):
    """The bytes that a check with so many jobs takes; measured: nearly all take less, and none much more."""
    return 1_000_000_000 + jobs * 1_300_000_000


def lanes(rt):
    """How many processors there are to use, and how much memory."""
    fixed = os.environ.get("RT_JOBS", "")
    return int(fixed) if fixed.isdigit() and int(fixed) else rt.processors(), 0.85 * rt.free()


def stamps(crates):
    """By name what `stamp()` answers for each of these crates, which come after those that they stand on. (The kit's own takes the stamps of
    all crates below anew for each crate, which here takes many seconds.)"""
    found = {}
    for it in crates:
        found[it.name] = it.stamp()
        it.stamp = functools.partial(str, found[it.name])
    for it in crates:
        del it.stamp
    return found


def is_built(rt, crate, stamp):
    """Whether the crate was proved and built from the sources that have this stamp; of the program, whether the file is the one that was."""
    if not crate.is_program:
        return os.path.isdir(crate.rlib) and rt.rtlib.text_of(stamp_file(crate)) == stamp
    return rt.rtlib.text_of(stamp_file(crate)) == stamp_of_program(rt, crate, stamp)


def stamp_file(crate):
    """The file that says from what the crate was built, which the kit's script reads too."""
    return f"{crate.folder}/out/{crate.name}.stamp" if crate.is_program else f"{crate.folder}/out/rlib/stamp"


def stamp_of_program(rt, crate, stamp):
    return stamp + rt.rtlib.sum_of(f"{crate.folder}/out/{crate.name}")
