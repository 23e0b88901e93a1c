"""What the prover makes of a library while it proves it, for the library's must-fail edits to start from.

A check writes each module that it checks into a folder of that check alone, below TMPDIR, and a library that is built of its statements has
none of them. Here they get a second name as they appear, in a folder as `--incremental` reads it. One that is missed would only be checked
again."""
import contextlib
import os
import re
import shutil
import threading

# How often they are looked for, in seconds: once all are written, a check takes some seconds for the library itself.
OFTEN = 1


@contextlib.contextmanager
def below(folder):
    """Has what is started meanwhile write what it needs for a while only into this folder, which is made."""
    os.mkdir(folder)
    before = os.environ.get("TMPDIR")
    os.environ["TMPDIR"] = folder
    try:
        yield
    finally:
        os.environ.pop("TMPDIR")
        if before is not None:
            os.environ["TMPDIR"] = before


@contextlib.contextmanager
def linked(crate, to):
    """Links what is made of the crate meanwhile to a new folder, within one of the name that this build of the prover looks for."""
    # (there is one where a check before was killed)
    shutil.rmtree(f"{to}/new", ignore_errors=True)
    os.makedirs(f"{to}/new")
    is_over = threading.Event()
    looking = threading.Thread(target=link, args=(os.environ["TMPDIR"], crate.name, f"{to}/new", is_over))
    looking.start()
    try:
        yield
    finally:
        is_over.set()
        looking.join()
    with contextlib.suppress(FileNotFoundError), open(f"{crate.rlib}/format", encoding="utf-8") as it:
        name = re.search(r"^rattle-build (\S+)$", it.read(), re.M)[1]
        os.rename(f"{to}/new", f"{to}/{name.replace('/', '_')}")


def link(room, crate, to, is_over):
    """Links the modules in each folder below the room that has the crate's own."""
    own, seen = re.compile(rf"Rattle-{crate}[-.].*\.oantt"), set()
    while not is_over.wait(OFTEN):
        for folder in os.listdir(room):
            # (it is gone with its check)
            with contextlib.suppress(FileNotFoundError, NotADirectoryError):
                names = os.listdir(f"{room}/{folder}")
                if any(own.fullmatch(it) for it in names):
                    for name in [it for it in names if it.endswith(".oantt") and it not in seen]:
                        os.link(f"{room}/{folder}/{name}", f"{to}/{name}")
                        seen.add(name)
