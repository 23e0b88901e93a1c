"""The kit's own gate, `rt ci`, with each function proved once and the must-fail edits tried in batches.

The kit's script is loaded, so that all that it refuses is refused here. It differs in three things:
- A library's must-fail edits start from what its proof in this run made (modules.py). `rt ci` proves the crate again for them.
- Edits are tried in batches, and a crate's batches side by side (batches.py). One harmless edit stands beside those of
  its crate, and must come out as not refused.
- What an earlier run in this checkout found of a crate is taken where all contents are the same (store.py)."""
import os
import re
import shutil
import sys
import tempfile
import time

import batches
import kit
import lanes
import modules
from tally import say


class Lines:
    """Takes what the kit's script prints, and shows what tells of a failure, with the crate's own lines before it."""

    FAILING = re.compile(r"NOT PROVED|NOT REFUSED|BAD EDIT|FAILED|had not ended|was not run|was stopped|ended with|is not |rt fmt")
    # What tells of what went as it must: an edit that was refused, a test that passed.
    WELL = re.compile(r": refused|^test .* ok$")

    def __init__(self):
        self.section, self.buffer, self.all = "", self, []

    def write(self, text):
        text = text.decode(errors="replace") if isinstance(text, bytes) else text
        self.all.append(text)
        if text.startswith("rt: "):
            if self.FAILING.search(text) and not self.WELL.search(text):
                print(f"{self.section}{text}", file=sys.__stdout__)
            self.section = ""
        elif text.startswith("== "):
            self.section = text
        elif text.strip():
            shown = [it for it in text.split("\n") if not self.WELL.search(it)]
            self.section += "\n".join(shown)
        return len(text)

    def flush(self):
        sys.__stdout__.flush()


class Gate:
    def __init__(self, rt, tally, store, harmless):
        """`harmless` is the file of the harmless edit, and the crate that it stands in."""
        self.rt, self.tally, self.store = rt, tally, store
        self.harmless, self.beside = harmless
        self.work = tempfile.mkdtemp(prefix="gate-")
        # By a crate's name: the crate, the sum of its contents, whether an earlier run judged them, the names of its functions,
        # its edits, whether all that was asked of it passed.
        self.crates, self.keys, self.known = {}, {}, {}
        self.functions, self.edits, self.passes = {}, {}, {}

    def kept(self, crate):
        """The folder of what this run proved of the crate."""
        return f"{self.work}/{crate.name}"

    def leaves_modules(self, crate):
        """Whether the crate's proof shall leave modules for its edits. (A program's edits are few, and start from nothing.)"""
        return bool(crate.makes_rlib() and self.rt.edits_of(crate)[0])

    def judge(self):
        """Runs the kit's gate so, and answers its exit status."""
        # (13f keeps what it proved in a store of its own, and adds tasks for edits by a call of their own; 13b does neither)
        keeps = hasattr(self.rt, "Kept")
        names = "crates_of", "in_lanes", "run", "put_back", *(["add_edits"] if keeps else [])
        self.original = {it: getattr(self.rt, it) for it in names}
        for name in names:
            setattr(self.rt, name, getattr(self, name))
        self.rt.Crate = self.crate_class()
        if keeps:
            self.rt.Kept = self.kept_class()
        sys.stdout = Lines()
        try:
            return self.rt.ci(**({"anew": True} if keeps else {}))
        finally:
            said, sys.stdout = "".join(sys.stdout.all), sys.__stdout__
            if not self.crates:
                print(said, end="")
            shutil.rmtree(self.work, ignore_errors=True)

    def crate_class(gate):
        rt = gate.rt

        class Crate(rt.Crate):
            """A crate whose proof and edits share the work of this run."""

            def prove(self, *commands):
                status = super().prove(*commands)
                if self.out is not sys.stdout:
                    self.out.flush()
                    self.out.seek(0)
                    said = self.out.read()
                    found = re.findall(rf"^fn ({self.name}::\S+):", said, re.M)
                    gate.functions.setdefault(self.name, set()).update(found)
                    if not status and "--test" not in commands[0]:
                        # (what a package says of the crate; the store keeps it with what was built)
                        with open(f"{self.folder}/out/verdict", "w", encoding="utf-8") as it:
                            it.write("".join(f"{line}\n" for line in re.findall(r"^logic=proved .*$", said, re.M)[-1:]))
                return status

            def ci(self, flags, tests):
                if gate.known[self.name]:
                    if not tests:
                        gate.store.bring_back(self)
                    return 0
                os.makedirs(gate.kept(self), exist_ok=True)
                if tests or not gate.leaves_modules(self):
                    return super().ci(flags, tests)
                with modules.linked(self, gate.kept(self)):
                    return super().ci(flags, tests)

        return Crate

    def kept_class(gate):
        class Kept(gate.rt.Kept):
            """In the place of what the kit's script keeps of each run on this machine: nothing, as the gate has its own store."""

            def __init__(self, *given):
                super().__init__(*given)
                self.at = None

            def is_built(self, crate):
                pass

        return Kept

    def crates_of(self, *given):
        found = self.original["crates_of"](*given)
        for it in found:
            self.crates[it.name] = it
            self.keys[it.name] = self.store.key(it, [*self.rt.edits_of(it)[0], *([self.harmless] if it.name == self.beside else [])])
            self.known[it.name] = self.store.is_kept(it, self.keys[it.name])
            self.passes[it.name] = True
        known = [it.name for it in found if self.known[it.name]]
        if known:
            say(f"unchanged since an earlier run in this checkout, and taken from it: {' '.join(known)}")
        return found

    def add_edits(self, tasks, crate, edits, below, waits, *_):
        """Adds one task in place of a crate's edits, and returns what gives their results as the kit's script has them."""
        tasks[crate.name, "edits"] = waits, crate.count(rb"\n"), 0, None
        kinds = {True: self.rt.REFUSED, False: self.rt.MISSED}
        return lambda given: [(kinds[bool(it)], text) for it, text in given[crate.name, "edits"][2]], dict

    def in_lanes(self, tasks):
        """Has a crate's edits wait for its proof, whose work they take, and tries them by several tasks."""
        own = {}
        for key, (waits, lines, _, call) in tasks.items():
            crate = self.crates[key[0]]
            proof = crate.name, "proof"
            # (what is taken from an earlier run is no work)
            work = 0 if self.known[crate.name] else kit.weight(self.rt, crate)
            if key == proof:
                own[key] = waits, work, self.timed("proofs", key, call)
            elif key[1] == "tests":
                own[key] = waits, work if lines else 0, self.timed("tests", key, call)
            else:
                own.update(self.edit_tasks(crate, waits))
        given = self.taken_at_once(own)
        with modules.below(f"{self.work}/made"):
            lanes.run(own, given, *kit.lanes(self.rt), kit.memory_for)
        for crate in self.crates.values():
            self.count(crate, given)
        return given

    def taken_at_once(self, tasks):
        """Takes the tasks of known crates out of these, and returns what they give: what was built is put back, and no lane is
        needed, nor what the kit's script looks at before it proves a crate, since the earlier run did."""
        given = {}
        for key in [it for it in tasks if self.known[it[0]]]:
            if all(it in given for it in tasks[key][0]):
                call = tasks.pop(key)[2]
                if key[1] == "proof":
                    self.store.bring_back(self.crates[key[0]])
                given[key] = key[1] in ("proof", "tests") or call(given, 1)
        return given

    def timed(self, kind, key, call):
        def called(given, jobs):
            start = time.time()
            try:
                return call(given, jobs)
            finally:
                took = time.time() - start
                self.tally.add(kind, seconds=took * jobs)
                if took > 1 and kind != "edits":
                    say(f"{' '.join(map(str, key))}: {took:.0f} s{f', {jobs} jobs' if jobs > 1 else ''}")
        return called

    def edit_tasks(self, crate, waits):
        good, bad = self.rt.edits_of(crate)
        # (all shares together take some half of what the proof takes)
        work = kit.weight(self.rt, crate) // (2 * self.rt.processors())
        shares, made = [], {}
        proof = crate.name, "proof"

        def share(given, jobs):
            return lanes.AGAIN if given[proof] and self.edits_to_try(crate).try_one() else lanes.NO_MORE

        for at in range(self.rt.processors() if good and not self.known[crate.name] else 0):
            key = crate.name, "edits", at
            made[key] = [proof], work, self.timed("edits", key, share)
            shares.append(key)

        def gather(given, jobs):
            if not good or not given[proof] or not given[crate.name, "tests"]:
                return bad, good, []
            if self.known[crate.name]:
                return bad, good, [(True, f"must-fail {crate.name}/{os.path.basename(it)}: refused in an earlier run") for it in good]
            found = [self.edits[crate.name].found[it] for it in good]
            if all(it for it, _ in found) and not bad and self.is_judged_now(crate):
                self.store.keep(crate, self.keys[crate.name])
            return bad, good, found

        made[crate.name, "edits"] = [*waits, *shares], 0, gather
        return made

    def is_judged_now(self, crate):
        """Whether nothing more is asked of the crate once its edits are tried, so that it may be kept though this run is stopped."""
        return not (crate.is_program or crate.has_tests() or crate.name == self.beside)

    def edits_to_try(self, crate):
        """The crate's edits, which the first of the tasks that try them lays out."""
        with self.tally.lock:
            if crate.name not in self.edits:
                harmless = self.harmless if crate.name == self.beside else None
                given = self.kept(crate), self.functions.get(crate.name, set()), self.rt.edits_of(crate)[0]
                self.edits[crate.name] = batches.Edits(self.rt, crate, *given, harmless)
        return self.edits[crate.name]

    def count(self, crate, given):
        """Counts what came of the crate's proof, of that of its tests, and of its edits."""
        is_proved = bool(given[crate.name, "proof"])
        tests_are = bool(given[crate.name, "tests"])
        bad, _, tried = given[crate.name, "edits"]
        refused = sum(bool(it) for it, _ in tried)
        self.tally.add("proofs", is_proved, not is_proved)
        self.tally.add("tests", 0, is_proved and not tests_are)
        self.tally.add("edits", refused, len(tried) - refused + len(bad))
        self.passes[crate.name] = is_proved and tests_are and refused == len(tried) and not bad
        if crate.name == self.beside and is_proved and tests_are and not self.known[crate.name]:
            others = self.edits[crate.name].beside_harmless()
            say(f"the harmless edit: {f'not refused beside {others} others, as it must be' if others else 'FAILED: the gate takes it for refused, or it is not tried beside others'}")
            self.tally.add("edits", bool(others), not others)
            self.passes[crate.name] = self.passes[crate.name] and bool(others)

    def run(self, crate, tests, ending=""):
        start, before = time.time(), len(sys.stdout.all)
        passes = self.original["run"](crate, tests, ending)
        found = re.findall(r"(\d+) passed; (\d+) failed", "".join(sys.stdout.all[before:]))
        if tests and found:
            passed, failed = map(int, found[-1])
            self.tally.add("tests", passed, failed or int(not passes), time.time() - start)
        else:
            self.tally.add("tests" if tests else "programs", int(passes), int(not passes), time.time() - start)
        self.passes[crate.name] = self.passes[crate.name] and passes
        return passes

    def put_back(self, root, aside, was_killed=False):
        """Keeps what this run found of each crate that passed whole, before the kit's script clears its folder; nothing where the
        run was stopped on its way."""
        is_stopped = sys.exc_info()[0] is not None
        for name, crate in self.crates.items():
            is_kept = self.known[name] or self.is_judged_now(crate)
            if not is_stopped and self.passes[name] and not is_kept and os.path.isdir(f"{crate.folder}/out"):
                self.store.keep(crate, self.keys[name])
        self.original["put_back"](root, aside, was_killed)
