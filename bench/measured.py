"""What the scripts of bench/ share: commands with their least times, the program of crates/cases, and a loop in Jasmin."""
import os
import shutil
import subprocess
import sys
import time

TOP = os.path.dirname(os.path.dirname(os.path.realpath(__file__)))
JINIT = f"{TOP}/crates/jinit/out/jinit"

MAIN = """.method public static main([Ljava/lang/String;)V
.limit stack 4
.limit locals 5
{made}ldc 0
istore 1
ldc 0
istore 2
ldc {turns}
istore 3
Loop:
{body}iinc 2 1
iload 2
iload 3
if_icmplt Loop
return
.end method
"""
NEXT = """.method static next(I)I
.limit stack 2
.limit locals 1
iload 0
ldc 1
iadd
ireturn
.end method
"""


def loop(body, made=""):
    """A method `main` with this body in a loop of `{turns}` turns, after what is made once."""
    return MAIN.replace("{body}", body).replace("{made}", made)


class Program:
    """One command, its least times over all rounds, what each took from start to end, the most memory that it took, and what it wrote last."""

    def __init__(self, words):
        self.words = words
        self.processor = self.system = self.elapsed = float("inf")
        self.times = []
        self.memory = 0
        self.output = b""

    def run(self):
        reading, writing = os.pipe()
        began = time.perf_counter()
        number = os.posix_spawn(self.words[0], self.words, os.environ, file_actions=[(os.POSIX_SPAWN_DUP2, writing, 1)])
        os.close(writing)
        with open(reading, "rb") as it:
            self.output = it.read()
        _, status, used = os.wait4(number, 0)
        elapsed = time.perf_counter() - began
        if status:
            sys.exit(f"{' '.join(self.words)} ended with status {os.waitstatus_to_exitcode(status)}")
        self.processor, self.system = min((self.processor, self.system), (used.ru_utime + used.ru_stime, used.ru_stime))
        self.elapsed = min(self.elapsed, elapsed)
        self.times.append(elapsed)
        self.memory = max(self.memory, used.ru_maxrss * 1024)


CASES = f"{TOP}/crates/cases/out/cases"


def is_built():
    """Whether crates/cases is built, and no source changed since."""
    if not os.path.isfile(CASES):
        return False
    built = os.path.getmtime(CASES)
    parts = (f"{TOP}/crates/{crate}/{part}" for crate in os.listdir(f"{TOP}/crates") for part in ("src", "specs", "proofs"))
    return all(os.path.getmtime(f"{folder}/{it}") <= built for part in parts for folder, _, files in os.walk(part) for it in files)


def bench(*words):
    """The program of crates/cases, built where it isn't, and run once with the name of a benchmark."""
    if not is_built() and subprocess.run(["rt", "run", "--", "bench"], cwd=f"{TOP}/crates/cases", stdout=subprocess.DEVNULL).returncode:
        sys.exit("crates/cases was not built")
    program = Program([CASES, "bench", *words])
    program.run()
    return program


def show(*words):
    """Prints what a benchmark prints, and the most memory that it took, files and programs included."""
    ran = bench(*words)
    print(ran.output.decode(), end="")
    print(f"most memory: {ran.memory / 1e6:.0f} MB")


def java(folder, files, name):
    """The words that run the class of this name of Java files, by HotSpot's interpreter; nothing where there is no java or javac."""
    if not shutil.which("java") or not shutil.which("javac"):
        return None
    subprocess.run([shutil.which("javac"), "-d", folder, *files], check=True)
    return [shutil.which("java"), "-Xint", "-XX:+UseSerialGC", "-cp", folder, name]
