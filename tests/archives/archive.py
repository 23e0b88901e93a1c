"""Cases of the program as text: reads them, and runs them on a program with real files.

crates/cases/src/archive.rt has the form of the text, crates/cases/src/programs.rt the parts of a case. The proved
program `cases` judges the same texts, over files in memory.
"""

import os
import re
import subprocess
import tempfile
from dataclasses import dataclass
from pathlib import Path

TOP = Path(__file__).resolve().parents[2]
SECONDS = 60

HEAD = re.compile("-- (.*) --")
ESCAPE = re.compile("«([^»]*)»(\n?)")
REPEAT = re.compile("([0-9]+) times (.*)")
FILE = re.compile("(?:([0-9]+) times )?file (.*)")


def meant(escape):
    """What an escape spells, with the line feed after it. A byte that isn't UTF-8 becomes a surrogate."""
    inner, line_feed = escape.groups()
    if not inner:
        return ""
    repeat = REPEAT.fullmatch(inner)
    if repeat:
        text = repeat[2].replace("¶", "\n")
        return "".join(text.replace("#", str(number)) for number in range(int(repeat[1]))) + line_feed
    return bytes.fromhex(inner).decode(errors="surrogateescape") + line_feed


def parts_of(text):
    """The parts of an archive: the number of the head's line, the head, and the bytes of the body."""
    parts = []
    for number, line in enumerate(text.decode().removesuffix("\n").split("\n"), 1):
        head = HEAD.fullmatch(line)
        if head:
            parts.append((number, head[1], ""))
        elif parts:
            parts[-1] = (*parts[-1][:2], parts[-1][2] + line + "\n")
    return [(number, head, ESCAPE.sub(meant, body).encode(errors="surrogateescape")) for number, head, body in parts]


def cases_of(text):
    """The cases of an archive: the number of the command's line, its words, the files to be made, the other parts."""
    cases = []
    for number, head, body in parts_of(text):
        if head == "command":
            words = [b"" if word == b"''" else word for word in body.split()]
            cases.append((number, words, {}, {}))
            continue
        if not cases:
            raise ValueError(f"line {number}: '{head}' comes before the first command")
        _, _, files, others = cases[-1]
        file = FILE.fullmatch(head)
        if not file:
            others[head] = body
        elif file[1]:
            for each in range(int(file[1])):
                files[file[2].replace("#", str(each))] = body.replace(b"#", b"%d" % each)
        else:
            files[file[2]] = body
    return cases


def quoted(content):
    """A body that spells these bytes."""
    text = content.decode().translate({ord("«"): "«c2 ab»", ord("»"): "«c2 bb»"})
    text = re.sub("^(?=(?:--|==) )", "«»", text, flags=re.MULTILINE)
    return text if not text or text.endswith("\n") else text + "«»\n"


@dataclass
class Page:
    """What the README.md of an example shows: its first command, and what comes of it."""

    words: list
    printed: str
    said: str
    status: int


def page_of(folder):
    """The page of a folder of examples/: the first block has the command and what it prints; a block after the line 'Standard error has:' has
    that, and where there is none it is empty; the first 'its status is' has the exit status."""
    text = (folder / "README.md").read_text()
    command, printed = re.search(r"^```\n\./(jinit .*)\n((?:.*\n)*?)```$", text, re.MULTILINE).groups()
    said = re.search(r"^Standard error has:\n\n```\n((?:.*\n)*?)```$", text, re.MULTILINE)
    status = re.search(r"\b[Ii]ts status is ([0-9]+)\b", text)
    return Page(command.split(), printed, said[1] if said else "", int(status[1]))


def example_text(folder):
    """The archive of a folder of examples/: the command of its page with what comes of it, the files that it names and the trace that it writes."""
    page = page_of(folder)
    named = [word for word in page.words if word.startswith("examples/")]
    written = [trace for trace in sorted(folder.glob("*.trace")) if f"examples/{folder.name}/{trace.name}" not in named]
    parts = [
        ("command", f"{' '.join(page.words)}\n".encode()),
        *((f"file {word}", (TOP / word).read_bytes()) for word in named),
        ("stdout", page.printed.encode()),
        ("stderr", page.said.encode()),
        ("status", f"{page.status}\n".encode()),
        *((f"left {trace.name}", trace.read_bytes()) for trace in written),
    ]
    bodies = [f"-- {head} --\n{quoted(content)}" for head, content in parts]
    return "".join([f"examples/{folder.name}/README.md says what this case shows.\n", *bodies]).encode()


def text_of(path):
    """The archive at a path: a file, or a folder of examples/."""
    return example_text(path) if path.is_dir() else path.read_bytes()


def example_folders():
    return sorted(page.parent for page in (TOP / "examples").glob("*/README.md"))


def all_paths():
    return sorted((TOP / "crates/cases/data/programs").glob("*.txtar")) + example_folders()


def paths_of_program():
    """The archives that the built program alone runs."""
    return sorted(Path(__file__).resolve().parent.glob("*.txtar"))


def keep_to(count):
    """Has this process, and those that it starts from now on, run on so many processors, or on all that there are where these are fewer."""
    os.sched_setaffinity(0, sorted(os.sched_getaffinity(0))[:count])


def left_in(folder):
    """What the files of a folder hold, as the parts of a case say it."""
    files = [path for path in folder.rglob("*") if path.is_file()]
    return {f"left {path.relative_to(folder)}": path.read_bytes() for path in files}


def run(program, words, folder, given=b""):
    """What comes of a program in a folder, with this on standard input, as the parts of a case say it."""
    try:
        came = subprocess.run(
            words, executable=program, cwd=folder, input=given, capture_output=True, timeout=SECONDS
        )
    except subprocess.TimeoutExpired:
        return {"status": b"none after %d seconds\n" % SECONDS}
    status = b"%d\n" % came.returncode
    return {"stdout": came.stdout, "stderr": came.stderr, "status": status} | left_in(folder)


def judged(program, text):
    """For each case of an archive the number of its command's line, and what differs: part, what it says, what came."""
    with tempfile.TemporaryDirectory() as name:
        folder, given = Path(name), b""
        for number, words, files, others in cases_of(text):
            given = files.pop("-", given)
            for file, content in files.items():
                (folder / file).parent.mkdir(parents=True, exist_ok=True)
                (folder / file).write_bytes(content)
            wanted = {"stdout": b"", "stderr": b"", "status": b"0\n"} | left_in(folder) | others
            came = run(program, words, folder, given)
            answers = [(part, wanted.get(part), came.get(part)) for part in sorted(wanted.keys() | came.keys())]
            yield number, [answer for answer in answers if answer[1] != answer[2]]
