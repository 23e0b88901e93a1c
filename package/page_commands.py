"""The commands of a page for readers as a script: what they write must be what the page shows.

A block after a line that is only a file's name, as `A.j`:, is that file. In another block each line that begins with "$ " is a command, and the
lines up to the next one are what it writes. A block without such a line is only looked at."""
import re
import shutil
import subprocess

BLOCK = re.compile(r"^(?:`(\S+)`:\n\n)?```\n((?:.*\n)*?)```$", re.MULTILINE)
END = "== the end of a command =="


def parts_of(page):
    """The files of the page, a text by name, and its commands, each with what it writes."""
    files, commands = {}, []
    for name, body in BLOCK.findall(page):
        if name:
            files[name] = body
        elif body.startswith("$ "):
            commands += [it.split("\n", 1) for it in re.split(r"^\$ ", body, flags=re.MULTILINE)[1:]]
    return files, commands


def runs(package, page, folder, path):
    """Runs the page's commands, one after the other in one shell and in a folder with the examples, over the package alone; each with what the page
    shows and what came."""
    files, commands = parts_of((package / "share/doc/jinit/docs" / page).read_text())
    shutil.copytree(package / "share/doc/jinit/examples", folder / "examples")
    for name, text in files.items():
        (folder / name).write_text(text)
    # (each command finds the status of the one before it)
    lines = [f"(exit $status)\n{command}\nstatus=$?\necho '{END}'\n" for command, _ in commands]
    how = {"cwd": folder, "env": {"PATH": f"{package}/bin:{path}"}, "stdin": subprocess.DEVNULL, "timeout": 60}
    came = subprocess.run(["sh", "-c", "status=0\n" + "".join(lines)], stdout=subprocess.PIPE, stderr=subprocess.STDOUT, **how)
    wrote = came.stdout.decode().split(f"{END}\n")[:-1]
    wrote += ["nothing: it was not come to"] * (len(commands) - len(wrote))
    return [(command, shown, it) for (command, shown), it in zip(commands, wrote)]


def same(command, shown, came):
    assert came == shown, f"{command}: the page shows {shown!r}, and {came!r} came"
