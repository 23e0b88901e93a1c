"""Runs of the built program whose output, standard error or trace file can't be written: a full device, and a pipe that nobody reads."""

import os
import subprocess
import tempfile
from pathlib import Path

SECONDS = 60

# a class whose `main` prints 1, and then ends by a throwable
THROWING = b"""\
.class Solo
.method static main([Ljava/lang/String;)V
.limit stack 2
getstatic java/lang/System/out Ljava/io/PrintStream;
iconst_1
invokevirtual java/io/PrintStream/println(I)V
aconst_null
athrow
.end method
"""
RUN = ["run", "--mains", "Solo", "--trace", "trace", "Solo.j"]
LINE = b"t0: java/lang/NullPointerException\n"
FULL = b"io: output\n"

# the words, which stream goes where, and what is then on the two streams, where they are read, and whether there is a trace
RUNS = [
    (RUN, {}, b"1\n", LINE, True, 1),
    (RUN, {"stdout": "full"}, None, FULL, False, 3),
    (RUN, {"stdout": "closed"}, None, FULL, False, 3),
    (RUN, {"stderr": "full"}, b"1\n", None, True, 3),
    (RUN, {"stderr": "closed"}, b"1\n", None, True, 3),
    (["run", "--mains", "Solo", "--trace", "/dev/full", "Solo.j"], {}, b"1\n", b"io: /dev/full\n", False, 3),
    (["run", "Solo.j"], {"stderr": "full"}, b"", None, False, 3),
    (["needs", "Solo.j"], {"stdout": "full"}, None, FULL, False, 3),
    (["needs", "Solo.j"], {"stdout": "closed"}, None, FULL, False, 3),
    (["--help"], {"stdout": "full"}, None, FULL, False, 3),
    (["run", "--unknown"], {"stderr": "full"}, b"", None, False, 3),
]


def end_of(kind):
    """A stream that can't be written."""
    if kind == "full":
        return os.open("/dev/full", os.O_WRONLY)
    read, write = os.pipe()
    os.close(read)
    return write


def came_of(program, words, streams):
    """What is on the streams, whether there is a trace, and the exit status. A write to a pipe that nobody reads fails, and sends no
    signal, since Python ignores it and hands that on."""
    with tempfile.TemporaryDirectory() as name:
        (Path(name) / "Solo.j").write_bytes(THROWING)
        ends = {stream: end_of(kind) for stream, kind in streams.items()}
        try:
            ran = subprocess.run(
                [program, *words], cwd=name, restore_signals=False, timeout=SECONDS,
                **{"stdout": subprocess.PIPE, "stderr": subprocess.PIPE, **ends},
            )
        finally:
            for end in ends.values():
                os.close(end)
        return ran.stdout, ran.stderr, (Path(name) / "trace").exists(), ran.returncode


def judged(program):
    """The words and streams of each run, what is wanted, and what came."""
    for words, streams, *wanted in RUNS:
        yield " ".join([*words, *(f"({stream} {kind})" for stream, kind in streams.items())]), tuple(wanted), came_of(program, words, streams)
