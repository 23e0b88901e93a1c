"""What the program says of itself: its version, its help and that of each subcommand, and the codes that it explains."""
import re
import subprocess
from dataclasses import dataclass, field

ROW = re.compile(r" {2,6}(\S.*?)(?: {2,}(\S.*))?")
# The lists that `clap` gives a help.
LISTS = "Commands", "Arguments", "Options"
# How a fault of the command line has its code on its line: `explain` takes it without that.
OF_WORDS = "cli: "
# What the options' values are called that are names of files.
FILES = "FILE", "TRACE"


@dataclass
class Row:
    """A line of a list: what is written, as `--trace <FILE>`, and what it means."""

    written: str
    text: str

    def flags(self):
        return re.findall(r"(?<!\S)--?[\w-]+", self.written)

    def value(self):
        found = re.search(r"<(.*)>", self.written)
        return found[1] if found else None

    def is_file(self):
        return self.value() in FILES


@dataclass
class Help:
    """The help of the program, or of one subcommand: what it is, how it is used, its lists by their headings, and the lines after these."""

    name: str
    about: str = ""
    usage: str = ""
    lists: dict = field(default_factory=dict)
    after: list = field(default_factory=list)

    def rows(self, heading):
        return self.lists.get(heading, [])

    def blocks(self):
        """The lines after the lists, a list of them for each block between empty lines."""
        return [it.split("\n") for it in re.split(r"\n{2,}", "\n".join(self.after).strip("\n")) if it]

    def examples(self):
        """The blocks with a heading: the heading, and the lines below it."""
        return [(first.removesuffix(":"), lines) for first, *lines in self.blocks() if first.endswith(":")]

    def remarks(self):
        """The sentences of the other blocks."""
        texts = [" ".join(it) for it in self.blocks() if not it[0].endswith(":")]
        return [sentence for text in texts for sentence in re.split(r"(?<=\.) +(?=[A-Z])", text)]


def said_by(program, *words):
    ran = subprocess.run([program, *words], stdin=subprocess.DEVNULL, stdout=subprocess.PIPE, text=True, check=True)
    return ran.stdout


def help_of(program, *words):
    """The help of the subcommand of these words, or of the program. What has another form than `clap` gives it is an error."""
    found, rows = Help(" ".join(["jinit", *words])), None
    for line in said_by(program, *words, "--help").splitlines():
        row = ROW.fullmatch(line)
        if found.after:
            found.after.append(line)
        elif not line.strip():
            rows = None
        elif line.startswith("Usage: "):
            found.usage = line.removeprefix("Usage: ")
        elif line.removesuffix(":") in LISTS:
            rows = found.lists.setdefault(line.removesuffix(":"), [])
        elif row and rows is not None:
            rows.append(Row(row[1], row[2] or ""))
        elif line.startswith("          ") and rows:
            rows[-1].text = f"{rows[-1].text} {line.strip()}".strip()
        elif not found.usage:
            found.about = f"{found.about} {line.strip()}".strip()
        elif rows is None:
            found.after.append(line)
        else:
            raise ValueError(f"{found.name} --help: {line}")
    return found


def version_of(program):
    return said_by(program, "--version").split()[1]


def codes_of(program):
    """The codes that `jinit explain` lists, a line each with what it means."""
    lines = said_by(program, "explain").splitlines()
    found = [re.fullmatch(rf"({OF_WORDS}\w+|\w+)  +\S.*", line) for line in lines]
    return [it[1].removeprefix(OF_WORDS) for it in found if it]


def all_help(program):
    """The help of the program, and of each subcommand but `help`."""
    top = help_of(program)
    return top, [help_of(program, row.written) for row in top.rows("Commands") if row.written != "help"]
