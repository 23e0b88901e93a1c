"""What is known of the checkout: its commit, its crates, and what was proved of each of them here."""
import hashlib
import os
import re
import sys

ROOT = os.path.dirname(os.path.dirname(os.path.realpath(__file__)))
sys.path.append(f"{ROOT}/gate")

import kit
from build import git
from run import HARMLESS
from store import Store

PROGRAM = f"{ROOT}/crates/jinit/out/jinit"


def date():
    """The time that all files of a package have: SOURCE_DATE_EPOCH, else that of the commit."""
    return int(os.environ.get("SOURCE_DATE_EPOCH") or git("log", "-1", "--format=%ct") or 0)


def sum_of_bytes(content):
    return hashlib.sha256(content).hexdigest()


def read(path):
    with open(path, "rb") as it:
        return it.read()


class Checkout:
    """The crates with what the kit and the gate say of them."""

    def __init__(self):
        if kit.version() not in kit.KNOWN:
            sys.exit(f"package: the kit on the PATH is '{kit.version()}', and none of those that the gate knows: {', '.join(kit.KNOWN)}")
        self.root = ROOT
        os.chdir(ROOT)
        self.rt = kit.load()
        self.rt.rtlib.Crate = self.rt.Crate
        self.rt.Crate.allowed = self.rt.handles_of(ROOT)
        self.kit = self.rt.KIT
        self.program = next(it for it in self.rt.rtlib.crates_below(ROOT) if it.name == "jinit")
        # The program's crates, each after those that it stands on; the program comes last.
        self.crates = [*self.program.below(), self.program]
        self.stamps = kit.stamps(self.crates)
        self.store = Store(ROOT, self.rt.rtlib.files_of)

    def edits_of(self, crate):
        return self.rt.edits_of(crate)[0]

    def is_judged(self, crate):
        """Whether the gate here has judged the crate as it is now."""
        own = [HARMLESS[0]] if crate.name == HARMLESS[1] else []
        return self.store.is_kept(crate, self.store.key(crate, [*self.edits_of(crate), *own]))

    def is_built(self, crate):
        """Whether the first build here has proved and built the crate as it is now."""
        return kit.is_built(self.rt, crate, self.stamps[crate.name])

    def made_here(self, program):
        """Whether these bytes are the program that was proved and built here, from the sources as they are."""
        places = [(self.is_judged, f"{self.store.folder}/jinit/out/jinit"), (self.is_built, f"{self.program.folder}/out/jinit")]
        return any(os.path.isfile(path) and read(path) == program and is_so(self.program) for is_so, path in places)

    def verdict(self, crate):
        """The prover's last line on the crate as it is now, or nothing where none is kept."""
        log = None
        if self.is_judged(crate):
            log = f"{self.store.folder}/{crate.name}/out/verdict"
        elif self.is_built(crate):
            log = f"{crate.folder}/out/build.log"
        said = read(log).decode(errors="replace") if log and os.path.isfile(log) else ""
        found = re.findall(r"^logic=proved .*$", said, re.M)
        return found[-1] if found else None

    def built(self):
        """Where each crate's folder out/ is, by name: all as the gate judged them, or all as the first build left them. Nothing where some crate is neither."""
        if all(map(self.is_judged, self.crates)):
            return {it.name: f"{self.store.folder}/{it.name}/out" for it in self.crates}
        if all(map(self.is_built, self.crates)):
            return {it.name: f"{it.folder}/out" for it in self.crates}
        return None

    def sum_of_sources(self, crate):
        """What `find src specs proofs -type f | LC_ALL=C sort | xargs sha256sum | sha256sum` prints in the crate's folder."""
        files = [f"{at}/{it}" for part in ("src", "specs", "proofs") for at, _, its in os.walk(f"{crate.folder}/{part}") for it in its]
        names = sorted((os.path.relpath(it, crate.folder) for it in files), key=os.fsencode)
        lines = "".join(f"{sum_of_bytes(read(f'{crate.folder}/{it}'))}  {it}\n" for it in names)
        return sum_of_bytes(lines.encode())
