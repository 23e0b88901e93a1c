"""Must-fail edits tried in batches, over the work that this run's proof of the crate made.

A batch has at most one edit of a function, and the crate with all of its edits is checked once. An edit counts as refused only where the prover refuses its function for a goal of that function's own: not
where it says that the function calls another that isn't proved. What a batch leaves open is tried alone, as `rt ci` does it."""
import os
import re
import shutil
import subprocess
import tempfile
from collections import deque

import calls
import places
from tally import say

# How many edits a batch has at most: with more, an edit that is refused slowly holds up many others.
MOST = 28
# How many functions that no edit changes a batch may have the prover look at again: each takes a second, a batch more some fifteen.
BETWEEN = 12
# An edit that takes more processor seconds than these to be refused is shown: another one of the same meaning may take less.
SLOW = 10


class Edits:
    """The edits of a crate: those that are still to be tried, and what came of the others."""

    def __init__(self, rt, crate, kept, names, edits, harmless=None):
        self.rt, self.crate, self.kept = rt, crate, kept
        self.found, self.named = {}, set()
        groups, alone = plan(crate, names, [*edits, *([harmless] if harmless else [])])
        self.left = deque([*groups, *[[(it, None)] for it in alone]])
        self.harmless = harmless
        self.others = 0

    def try_one(self):
        """Tries one batch, if one is left, and answers whether there are more. Several threads may call it."""
        try:
            batch = self.left.popleft()
        except IndexError:
            return False
        refused = self.refused_in(batch) if batch[0][1] else {}
        if any(edit == self.harmless for edit, _ in batch):
            self.others = 0 if self.harmless in refused else len(refused)
        for edit, function in batch:
            label = f"must-fail {self.crate.name}/{os.path.basename(edit)}"
            if edit in refused:
                self.found[edit] = True, f"{label}: refused, as it must be: fn {function}: not proved"
            elif edit in self.named:
                self.found[edit] = False, f"{label}: NOT REFUSED for a goal: an answer or an invariant of {function} names what isn't there any more, and that is all"
            else:
                self.found[edit] = self.alone(edit)
        return bool(self.left)

    def beside_harmless(self):
        """How many edits were refused beside the harmless one, where that one came out as not refused; else 0."""
        refused, text = self.found[self.harmless]
        return self.others if not refused and "NOT REFUSED" in text else 0

    def refused_in(self, batch):
        """Those of the batch's edits that the prover refuses, each for its own function's goals."""
        texts = places.texts_with(self.crate.folder, [edit for edit, _ in batch])
        with copied(self.kept) as room:
            said, left = self.judged(texts, [function for _, function in batch], f"{room}/kept")
        if left or self.rt.rtlib.STALE.search(said) or any(self.rt.unread(it, texts) for it in said.split("\n")):
            return {}
        own, named = refused_by_own(said)
        self.named.update(edit for edit, function in batch if function in named)
        return {edit: function for edit, function in batch if function in own}

    def judged(self, texts, functions, kept):
        """What the prover says of these functions over the kept work, and those of which it says nothing.

        It isn't asked further than its line on the last of them: behind that it looks for proofs to advise."""
        with tempfile.TemporaryDirectory(prefix="rt-edit-") as room:
            for part in self.rt.rtlib.PARTS:
                if os.path.isdir(f"{self.crate.folder}/{part}"):
                    shutil.copytree(f"{self.crate.folder}/{part}", f"{room}/{part}")
            for path, text in texts.items():
                with open(f"{room}/{path}", "w", encoding="utf-8") as it:
                    it.write(text)
            flags = ["--jobs", "1", "--progress", *[word for it in functions for word in ("--only", it)], "--incremental", kept]
            words = [*self.rt.rtlib.guarded(), self.rt.rtlib.RATTLE, "check", *self.crate.words(flags, keeps=False)]
            how = {"cwd": room, "stdin": subprocess.DEVNULL, "stdout": subprocess.PIPE, "stderr": subprocess.STDOUT, "errors": "replace"}
            with subprocess.Popen(words, **how) as ran:
                judged = self.lines_up_to(functions, ran)
                ran.kill()
        return judged

    def lines_up_to(self, functions, ran):
        """The lines of a check up to that on the last of these functions, and those functions that have none."""
        left, said, before = {*functions}, [], None
        for line in ran.stdout:
            said.append(line)
            found = re.match(r"(fn|checked) ([^\s,]+)[:,] ", line)
            if found and found[1] == "checked":
                used = seconds_of(ran.pid)
                if before and used - before > SLOW and found[2] in functions:
                    say(f"the edit of {found[2]}: {used - before:.0f} processor seconds")
                before = used
            elif found:
                left.discard(found[2])
            if not left:
                break
        return "".join(said), left

    def alone(self, edit):
        """Whether the prover refuses the crate with this edit alone, and what to say; over the kept work, and where that
        doesn't refuse it, and should, from nothing."""
        with copied(self.kept) as room:
            tried = self.tried(edit, f"{room}/kept")
        return tried if tried[0] or edit == self.harmless else self.tried(edit)

    def tried(self, edit, *kept):
        kind, text = self.rt.must_fail(self.crate, edit, ["--jobs", "1"], *kept)
        # (13b answers whether it is refused, 13f one of several kinds)
        return kind in [getattr(self.rt, it, True) for it in ("REFUSED", "AT_LIMIT")], text


def seconds_of(pid):
    """The processor seconds that a process that was started here has used so far."""
    with open(f"/proc/{pid}/stat", encoding="utf-8") as it:
        fields = it.read().rpartition(")")[2].split()
    return sum(map(int, fields[11:13])) / os.sysconf("SC_CLK_TCK")


class copied:
    """A folder of its own with a copy of the kept work, as links: the prover writes new files and changes none."""

    def __init__(self, kept):
        self.kept = kept

    def __enter__(self):
        self.room = tempfile.mkdtemp(prefix="edit-", dir=os.path.dirname(self.kept))
        subprocess.run(["cp", "-al", self.kept, f"{self.room}/kept"], check=True)
        return self.room

    def __exit__(self, *_):
        shutil.rmtree(self.room, ignore_errors=True)


def plan(crate, names, edits):
    """Batches, each a list of edits with their functions, and the edits that go alone: an edit of a constant, of
    specs/ or proofs/, or of more than one body."""
    called = calls.calls_of(crate.rlib) if crate.makes_rlib() else {}
    placed, alone = [], []
    for edit in edits:
        function = places.function_of(crate, edit, names)
        if function is None or places.texts_with(crate.folder, [edit]) is None:
            alone.append(edit)
        else:
            placed.append((edit, function))

    def between(functions):
        """The functions that are called by one of these and call another: they are looked at again."""
        above = {it for function in functions for it in called.get(function, ())}
        return {it for it in above.difference(functions) if not called[it].isdisjoint(functions)}

    def fits(function, batch):
        there = {it for _, it in batch}
        return function not in there and len(between({*there, function})) <= BETWEEN

    # (a function after those that it calls: the first batch that an edit fits into then makes few)
    placed.sort(key=lambda it: len(called.get(it[1], ())))
    rounds = []
    for edit, function in placed:
        chosen = next((it for it in rounds if fits(function, it)), None)
        if chosen is None:
            chosen = []
            rounds.append(chosen)
        chosen.append((edit, function))
    batches = []
    for it in rounds:
        parts = -(-len(it) // MOST)
        batches += [it[at::parts] for at in range(parts)]
    return batches, alone


def refused_by_own(said):
    """The functions that the prover refuses for a goal of their own, and those of which it only says that their answers or invariants name
    what isn't there any more: that says nothing of their contracts."""
    errors = {}
    for line in said.split("\n"):
        found = re.match(r"(?:\./)?proofs/(\S+)/[^/ ]+\.antt:\d+:\d+: error: (.*)", line)
        if found and "was not admitted" not in found[2]:
            errors.setdefault(found[1], []).append(found[2])
    own, named = set(), set()
    for name, rest in re.findall(r"^fn (\S+): (?:not proved|no proof)(.*)$", said, re.M):
        told = errors.get("/".join(name.split("::")[1:]), [])
        if "`search` did not prove" in rest or not all(re.search(r"has no (field )?`", it) for it in told):
            own.add(name)
        elif told:
            named.add(name)
    return own, named
