"""Runs a program with one allocation refused, over the library that refuse.c is preloaded as."""

import os
import subprocess
import tempfile
from dataclasses import dataclass, field
from pathlib import Path

HERE = Path(__file__).resolve().parent
TOP = HERE.parents[1]
PROGRAM = TOP / "crates/jinit/out/jinit"
SECONDS = 60
# The status of a run that took longer.
NO_END = -1


@dataclass
class Answer:
    """What comes of a run, and, which plays no part in a comparison, whether an allocation was refused in it. The trace is None where there is no such file."""

    status: int
    out: bytes
    err: bytes
    trace: bytes | None
    is_refused: bool = field(default=False, compare=False)


def build(folder):
    """Builds the library that refuses, in the folder that runs take it from."""
    subprocess.run(["cc", "-shared", "-fPIC", "-O1", "-o", Path(folder) / "refuse.so", HERE / "refuse.c"], check=True)


def run(words, folder, number, program=PROGRAM, **settings):
    """Runs the program with the allocation of this number refused, none where it is 0. The word TRACE is the file of the trace."""
    with tempfile.TemporaryDirectory(dir=folder) as own:
        trace, refused = Path(own) / "trace", Path(own) / "refused"
        environment = os.environ | settings | {"REFUSE": str(number), "REFUSED": str(refused)}
        environment["LD_PRELOAD"] = str(Path(folder) / "refuse.so")
        words = [str(trace) if word == "TRACE" else word for word in words]
        how = {"env": environment, "stdin": subprocess.DEVNULL, "capture_output": True, "timeout": SECONDS}
        try:
            came = subprocess.run([program, *words], **how)
        except subprocess.TimeoutExpired as late:
            return Answer(NO_END, late.stdout or b"", late.stderr or b"", None, refused.exists())
        written = trace.read_bytes() if trace.exists() else None
        return Answer(came.returncode, came.stdout, came.stderr, written, refused.exists())


def is_told(came, whole):
    """Whether the run told that memory was refused, and wrote nothing else, or wrote what comes earlier whole."""
    is_line = came.err in (b"memory\n", b"threads\n")
    return came.status == 3 and is_line and came.out in (b"", whole.out) and came.trace in (None, whole.trace)


def refused_runs(run_of, pool, spare=1):
    """The runs with the first, second, .. allocation refused, up to the first so many in a row that meet no refusal, each with its number.

    `run_of` makes the run of a number. Threads don't always make as many allocations, so runs of theirs ask for more to spare."""
    first, count, idle = 1, 8, 0
    while True:
        numbers = range(first, first + count)
        for number, came in zip(numbers, pool.map(run_of, numbers)):
            yield number, came
            idle = 0 if came.is_refused else idle + 1
            if idle == spare:
                return
        first, count = first + count, min(2 * count, 64)
