"""Manual pages, made from what the program says of itself and from the table of exit statuses in docs/MESSAGES.md."""
import re
import time


def plain(text):
    """Text as roff spells it."""
    text = text.replace("\\", "\\e").replace("-", "\\-")
    return re.sub(r"^(?=[.'])", r"\\&", text, flags=re.MULTILINE)


def statuses(messages):
    """The rows of the first table: a status of the program, and what it means."""
    rows = re.findall(r"^\| (\d+) \| (.*) \|$", messages, re.MULTILINE)
    return [(status, text.replace("`", "")) for status, text in rows if "./jinit" not in text]


def item(written, text):
    return f".TP\n\\fB{plain(written)}\\fR\n{plain(text)}\n"


def page(help, others, version, date, messages):
    """The page of one command: `others` are the names of the other pages."""
    name = help.name.replace(" ", "-")
    day = time.strftime("%Y-%m-%d", time.gmtime(date))
    parts = [f'.TH {name.upper()} 1 "{day}" "jinit {version}" "User Commands"\n']
    parts.append(f".SH NAME\n{plain(name)} \\- {plain(help.about)}\n")
    parts.append(f".SH SYNOPSIS\n\\fB{plain(help.usage)}\\fR\n")
    for heading, rows in help.lists.items():
        parts.append(f".SH {heading.upper()}\n" + "".join(item(row.written, row.text) for row in rows))
    for heading, lines in help.examples():
        parts.append(f".SH {heading.upper()}\n.nf\n" + "".join(f"{plain(it.strip())}\n" for it in lines) + ".fi\n")
    parts.append(".SH EXIT STATUS\n" + "".join(item(*row) for row in statuses(messages)))
    parts.append(".SH SEE ALSO\n" + ",\n".join(f"\\fB{plain(it)}\\fR(1)" for it in others) + "\n.PP\n")
    # (the table above says more of the exit statuses than the help)
    parts += [f"{plain(it)}\n" for it in help.remarks() if not it.startswith("Exit status:")]
    parts.append("The folder share/doc/jinit beside the program's has the documents, as docs/TUTORIAL.md, and the examples.\n")
    return "".join(parts)


def all_pages(top, subcommands, version, date, messages):
    """The text of each page by its name, as `jinit-run.1`."""
    all_help = [top, *subcommands]
    names = [it.name.replace(" ", "-") for it in all_help]
    others = [[it for it in names if it != name] for name in names]
    return {f"{name}.1": page(it, rest, version, date, messages) for name, it, rest in zip(names, all_help, others)}
