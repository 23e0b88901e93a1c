"""Runs of the built program on what real files alone have: standard input as a file, the trace among the output, streams that go into files, a file
of two names, and what the program knows of itself. What is wanted comes from the pages of examples/."""

import os
import shutil
import subprocess
import tempfile
import threading
from contextlib import ExitStack
from dataclasses import dataclass, field
from pathlib import Path

import archive

SECONDS = 60
EXAMPLES = archive.TOP / "examples"
PAGE = archive.page_of(EXAMPLES / "hello")
HELLO = (EXAMPLES / "hello/Hello.j").read_bytes()
TRACE = (EXAMPLES / "hello/Hello.trace").read_bytes()
PRINTED = PAGE.printed.encode()
RUN = ["run", "--mains", "Hello", "--trace"]
CHECK = ["check", "--mains", "Hello", "--trace"]

# a class that prints, and whose thread is then ended: a line comes on standard error after the trace
FAILED = archive.page_of(EXAMPLES / "uncaught_failure")
FAILED_TRACE = (EXAMPLES / "uncaught_failure/Shop.trace").read_bytes()
FAILING = ["run", "--mains", "Shop", "--trace"]

# a Jasmin file with a fault in its second line, and a trace of a class that there isn't
WRONG = b".class public Wrong\n.klass of no such directive\n"
WRONG_TRACE = b"0 t0 step6 Nowhere\n"

# a class whose main makes three events, and then two for each of 500,000 reads: three more than a trace that is read may have
MANY = b""".class Many
.field static x I
.method static main([Ljava/lang/String;)V
.limit stack 1
.limit locals 2
ldc 500000
istore_1
L: getstatic Many/x I
pop
iinc 1 -1
iload_1
ifne L
return
.end method
"""
MANY_EVENTS = ["run", "--mains", "Many", "--steps", "10000000", "--trace", "trace", "Many.j"]
NOTE = b"the trace has more than check and --replay read: 1000000 lines or 64 MiB\n"

WORDS = b"cli: words\n"
OLD = b"what was there\n"


@dataclass
class Holding:
    """A text that has this one in it."""

    part: bytes

    def __eq__(self, other):
        return self.part in other


@dataclass
class Run:
    """A command, and what is wanted of it. A stream of `into` goes into a file that is opened so; where text is added to it, it holds OLD before."""

    words: list
    out: object = b""
    said: object = b""
    status: int = 0
    # What is on standard input: bytes, the name of a file, or none where it is a folder.
    given: object = b""
    into: dict = field(default_factory=dict)
    # What files hold afterwards, by their names.
    left: dict = field(default_factory=dict)

    def title(self):
        return " ".join([*self.words, *(f"({it} into a file, {how})" for it, how in self.into.items()), *(["(with an input)"] if self.given else [])])


UNCHANGED = {"Hello.j": HELLO}
INPUT = [
    Run(["run", "--mains", "Hello", "-"], PRINTED, given=HELLO),
    Run([*RUN, "trace", "-"], PRINTED, given=HELLO, left={"trace": TRACE}),
    Run(["needs", "-"], b"Hello:\n", given=HELLO),
    Run([*CHECK, "Hello.trace", "-"], b"legal\n", given=HELLO),
    Run([*CHECK, "-", "Hello.j"], b"legal\n", given=TRACE),
    Run(["needs", "-"], b"", b"-:2: J2\n", 2, given=WRONG),
    Run([*CHECK, "-", "Hello.j"], b"", b"-:1: L4\n", 2, given=WRONG_TRACE),
    Run(["needs", "--explain", "-"], b"", Holding(b".klass of no such directive"), 2, given=WRONG),
    Run(["run", "--explain", "--mains", "Wrong", "-"], b"", Holding(b".klass of no such directive"), 2, given=WRONG),
    Run([*CHECK, "-", "--explain", "Hello.j"], b"", Holding(b"0 t0 step6 Nowhere"), 2, given=WRONG_TRACE),
    Run([*RUN, "again", "--replay", "-", "Hello.j"], PRINTED, given=TRACE, left={"again": TRACE}),
    # one command takes one `-` at most
    Run(["needs", "-", "-"], b"", WORDS, 2, given=HELLO),
    Run([*CHECK, "-", "-"], b"", WORDS, 2, given=HELLO),
    # a file of that name
    Run(["needs", "./-"], b"Hello:\n", given=WRONG),
    Run([*RUN, "./-", "Hello.j"], PRINTED, left={"-": TRACE}),
    # an input that is a folder can't be read
    Run(["needs", "-"], b"", b"io: -\n", 3, given=None),
]
OUTPUT = [
    Run([*RUN, "-", "Hello.j"], PRINTED + TRACE, left={"-": HELLO}),
    Run([*RUN, "-", "-"], b"", WORDS, 2, given=HELLO),
    *(Run([*RUN, name, "Hello.j"], PRINTED + TRACE, into={"stdout": how}) for name in ("-", "/dev/stdout", "/dev/fd/1") for how in ("wb", "ab")),
    *(Run([*RUN, name, "Hello.j"], PRINTED, TRACE, into={"stderr": how}) for name in ("/dev/stderr", "/dev/fd/2") for how in ("wb", "ab")),
    # nothing is lost of the line that follows either
    Run([*FAILING, "/dev/stderr", "Rates.j", "Shop.j"], FAILED.printed.encode(), FAILED_TRACE + FAILED.said.encode(), 1, into={"stderr": "wb"}),
    # a file that a stream of a further number goes into
    *(Run([*RUN, f"/{name}/fd/9", "Hello.j"], PRINTED, left={"ninth": OLD + TRACE}) for name in ("dev", "proc/self")),
    Run([*RUN, "pipe", "Hello.j"], PRINTED, left={"read": TRACE}),
]
LARGE = [
    Run([*MANY_EVENTS, "--explain"], b"", NOTE),
    Run(MANY_EVENTS),
    Run(["run", "--explain", *RUN[1:], "trace", "Hello.j"], PRINTED),
]
ONE_FILE = [
    *(Run([*RUN, name, "Hello.j"], b"", WORDS, 2, left=UNCHANGED) for name in ("Hello.j", "./Hello.j", "hard_link", "soft_link")),
    Run([*RUN, "/dev/stdin", "Hello.j"], b"", WORDS, 2, given="Hello.j", left=UNCHANGED),
    Run([*RUN, "Hello.j", "hard_link"], b"", WORDS, 2, left=UNCHANGED),
    Run([*RUN, "Hello.j", "-"], b"", WORDS, 2, given="Hello.j", left=UNCHANGED),
    Run([*RUN, "Hello.trace", "-"], PRINTED, given="Hello.j", left={**UNCHANGED, "Hello.trace": TRACE}),
    Run([*RUN, "-", "-"], b"", WORDS, 2, given="Hello.j", left=UNCHANGED),
    Run([*RUN, "./Hello.trace", "--replay", "Hello.trace", "Hello.j"], b"", WORDS, 2, left={"Hello.trace": TRACE}),
    Run([*RUN, "Hello.trace", "Hello.j"], PRINTED, left={**UNCHANGED, "Hello.trace": TRACE}),
    # an empty device is no file that could be lost
    Run([*RUN, "/dev/null", "Hello.j"], PRINTED, left=UNCHANGED),
]


def prepare(folder):
    for name in ("Hello.j", "Hello.trace"):
        shutil.copy(EXAMPLES / "hello" / name, folder)
    for name in ("Rates.j", "Shop.j"):
        shutil.copy(EXAMPLES / "uncaught_failure" / name, folder)
    (folder / "Many.j").write_bytes(MANY)
    shutil.copy(folder / "Hello.j", folder / "-")
    os.link(folder / "Hello.j", folder / "hard_link")
    os.symlink("Hello.j", folder / "soft_link")
    (folder / "ninth").write_bytes(OLD)
    os.mkfifo(folder / "pipe")


def opened(stack, path, how):
    """A file that a stream goes into, and what it holds before."""
    before = OLD if how == "ab" else b""
    path.write_bytes(before)
    return stack.enter_context(open(path, how)), before


def input_of(stack, run, folder):
    """Standard input: a file that may also be named, a folder, or a pipe."""
    if isinstance(run.given, str):
        return {"stdin": stack.enter_context(open(folder / run.given, "rb"))}
    if run.given is None:
        found = os.open(folder, os.O_RDONLY)
        stack.callback(os.close, found)
        return {"stdin": found}
    return {"input": run.given}


def copied(source, target):
    target.write_bytes(source.read_bytes())


def came_of(program, run, folder):
    """What is on the two streams, the exit status, and what the files hold that the run names."""
    prepare(folder)
    with ExitStack() as stack:
        streams = {it: opened(stack, folder / f"{it}.txt", how) for it, how in run.into.items()}
        ninth = stack.enter_context(open(folder / "ninth", "ab"))
        if "pipe" in run.words:
            reader = threading.Thread(target=copied, args=(folder / "pipe", folder / "read"), daemon=True)
            reader.start()
        how = {"stdout": subprocess.PIPE, "stderr": subprocess.PIPE, **{it: file for it, (file, _) in streams.items()}}
        # (the shell gives the program the ninth stream by that number)
        words = ["sh", "-c", f'exec "$0" "$@" 9>&{ninth.fileno()}', program, *run.words]
        ran = subprocess.run(words, cwd=folder, pass_fds=[ninth.fileno()], timeout=SECONDS, **how, **input_of(stack, run, folder))
        if "pipe" in run.words:
            reader.join(SECONDS)
    texts = {"stdout": ran.stdout, "stderr": ran.stderr}
    for it, (_, before) in streams.items():
        text = (folder / f"{it}.txt").read_bytes()
        texts[it] = text.removeprefix(before) if text.startswith(before) else b"what was there is lost: " + text
    left = {name: (folder / name).read_bytes() if (folder / name).exists() else None for name in run.left}
    return texts["stdout"], texts["stderr"], ran.returncode, left


def known_of(text):
    """The lines of a text of PROVED that the version ends with."""
    return b"".join(it for it in text.splitlines(keepends=True) if it.startswith((b"Commit", b"Toolchain")))


def versions(program):
    """The version of a program without a file PROVED, with one in each place where it may be, and of the one that was built here, where it has one."""
    first = b"jinit 0.1.0\n"
    with tempfile.TemporaryDirectory() as name:
        installed, beside = Path(name) / "share/doc/jinit/PROVED", Path(name) / "bin/PROVED"
        installed.parent.mkdir(parents=True)
        beside.parent.mkdir()
        copy = shutil.copy2(program, beside.parent)

        def said():
            return subprocess.run([copy, "--version"], stdin=subprocess.DEVNULL, stdout=subprocess.PIPE, timeout=SECONDS).stdout

        yield "--version (without PROVED)", first, said()
        beside.write_bytes(b"Commit     0123\nToolchain  some kit\n")
        yield "--version (PROVED beside the program)", first + beside.read_bytes(), said()
        installed.write_bytes(b"What was proved.\n\nCommit     4567\nToolchain  other kit\nProgram    89\n" + b"crate\n" * 1000)
        yield "--version (PROVED of a package)", first + known_of(installed.read_bytes()), said()
        installed.write_bytes(b"Commit     " + b"9" * 2000 + b"\nToolchain  other kit\n")
        yield "--version (too long a line)", first + b"Toolchain  other kit\n", said()
    built = Path(program).parent / "PROVED"
    if built.exists():
        ran = subprocess.run([program, "--version"], stdin=subprocess.DEVNULL, stdout=subprocess.PIPE, timeout=SECONDS)
        yield "--version (as built here)", first + known_of(built.read_bytes()), ran.stdout


def judged(program):
    """Each run, what is wanted, and what came."""
    for run in [*INPUT, *OUTPUT, *LARGE, *ONE_FILE]:
        with tempfile.TemporaryDirectory() as name:
            came = came_of(program, run, Path(name))
        yield run.title(), (run.out, run.said, run.status, run.left), came
    yield from versions(program)
