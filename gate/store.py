"""The crates that an earlier run of the gate in this checkout passed whole, taken again where the contents are the same: those
of the crate and of all crates below it, of its must-fail edits, of HANDLES, of the gate itself and of the kit."""
import hashlib
import os
import shutil
import subprocess

import kit

HERE = os.path.dirname(os.path.realpath(__file__))
# What proves nothing here: the first build, the order of the tests, and how results are counted.
NO_PROOFS = "build.py", "run.py", "tally.py"


class Store:
    """A folder with one folder a crate; none where the checkout has no folder .git."""

    def __init__(self, root, files_of):
        """`files_of` answers the files of a crate's folder."""
        self.root, self.files_of = root, files_of
        # By a crate's name: a sum of its own sources.
        self.sums = {}
        self.folder = f"{root}/.git/gate" if os.path.isdir(f"{root}/.git") else None

    def key(self, crate, edits):
        """A sum of all that the crate's results rest on."""
        found = hashlib.sha256(f"{kit.version()} {[self.sum_of(it) for it in [*crate.below(), crate]]}".encode())
        own = sorted(it for it in os.listdir(HERE) if it.endswith(".py") and it not in NO_PROOFS)
        files = [*edits, f"{self.root}/HANDLES", *(f"{HERE}/{it}" for it in own)]
        for file in files:
            with open(file, "rb") as it:
                found.update(repr((os.path.basename(file), it.read())).encode())
        return found.hexdigest()

    def sum_of(self, crate):
        """A sum of what crates.txt says of the crate, and of its own files (each read once, as many crates may stand on it)."""
        if crate.name not in self.sums:
            found = hashlib.sha256(repr((crate.said, crate.has_c)).encode())
            for file in self.files_of(crate.folder):
                with open(file, "rb") as it:
                    found.update(repr((os.path.relpath(file, crate.folder), it.read())).encode())
            self.sums[crate.name] = found.hexdigest()
        return self.sums[crate.name]

    def forget(self):
        """Forgets all that earlier runs found."""
        if self.folder:
            shutil.rmtree(self.folder, ignore_errors=True)

    def is_kept(self, crate, key):
        """Whether an earlier run judged these contents, and all passed."""
        try:
            with open(f"{self.folder}/{crate.name}/key", encoding="utf-8") as it:
                return it.read() == key
        except OSError:
            return False

    def bring_back(self, crate):
        """Puts what was built of the crate into its out/ again."""
        shutil.rmtree(f"{crate.folder}/out", ignore_errors=True)
        subprocess.run(["cp", "-a", f"{self.folder}/{crate.name}/out", f"{crate.folder}/out"], check=True)

    def keep(self, crate, key):
        """Keeps that the crate has passed whole, and what was built of it."""
        if not self.folder:
            return
        to = f"{self.folder}/{crate.name}"
        shutil.rmtree(to, ignore_errors=True)
        os.makedirs(to)
        subprocess.run(["cp", "-a", f"{crate.folder}/out", f"{to}/out"], check=True)
        with open(f"{to}/key", "w", encoding="utf-8") as it:
            it.write(key)
