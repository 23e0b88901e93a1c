"""How many of each kind passed and failed, and the seconds of work that each kind took."""
import resource
import sys
import threading
import time

KINDS = "proofs tests edits programs cases calls archives package damages threads random memory traces HotSpot".split()
BEGAN = time.time()


def say(text):
    """A line about how far the run is, with the seconds so far."""
    print(f"gate: {time.time() - BEGAN:5.0f} s: {text}", file=sys.__stdout__, flush=True)


class Tally:
    def __init__(self):
        self.rows = {it: [0, 0, 0.0] for it in KINDS}
        self.lock = threading.Lock()

    def add(self, kind, passed=0, failed=0, seconds=0.0):
        with self.lock:
            for at, number in enumerate((passed, failed, seconds)):
                self.rows[kind][at] += number

    def show(self):
        """Prints the table and, last, all that passed and failed; answers the exit status."""
        print(f"{'':10}{'passed':>8}{'failed':>8}{'seconds of work':>18}")
        for kind, (passed, failed, seconds) in self.rows.items():
            print(f"{kind:10}{passed:8}{failed:8}{seconds:18.0f}")
        used = [resource.getrusage(it) for it in (resource.RUSAGE_SELF, resource.RUSAGE_CHILDREN)]
        minutes = sum(it.ru_utime + it.ru_stime for it in used) / 60
        print(f"{(time.time() - BEGAN) / 60:.1f} minutes, {minutes:.1f} processor minutes")
        passed, failed = (sum(it[at] for it in self.rows.values()) for at in (0, 1))
        print(f"{passed} passed, {failed} failed", flush=True)
        return 1 if failed or not passed else 0
