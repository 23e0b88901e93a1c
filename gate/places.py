"""Where a must-fail edit stands: the one function whose body it changes.

The texts are in rt fmt's layout, which tells where a body begins and ends."""
import re

FUNCTION = re.compile(r"^( *)(?:pub(?:\([^)]*\))? )?(?:const )?(?:unsafe )?(?:extern \"C\" )?fn (\w+)")
IMPL = re.compile(r"^impl(?:<[^{]*?>)? (?:(.+?) for )?([^{]+?)(?: \{| where)?$")
TRAIT = re.compile(r"^(?:pub(?:\([^)]*\))? )?trait (\w+)")


def pairs_of(edit):
    """The edit's pairs: a file, the text that stands there, the text that takes its place."""
    path, old, found = "", None, []
    with open(edit, encoding="utf-8") as it:
        for line in it.read().split("\n"):
            if line.startswith("file: "):
                path = line[6:].strip()
            elif line.startswith("old: "):
                old = line[5:]
            elif line.startswith("new:"):
                found.append((path, old, line[4:].removeprefix(" ")))
    return found


def texts_with(folder, edits):
    """The texts of the files that these edits change, each pair found in the text as it is, or None where two of
    them meet or one is not found once."""
    texts, cuts = {}, {}
    for path, old, new in (pair for edit in edits for pair in pairs_of(edit)):
        if path not in texts:
            with open(f"{folder}/{path}", encoding="utf-8") as it:
                texts[path] = it.read()
        if texts[path].count(old) != 1:
            return None
        at = texts[path].index(old)
        cuts.setdefault(path, []).append((at, at + len(old), new))
    for path, found in cuts.items():
        found.sort(reverse=True)
        if any(end > start for (start, _, _), (_, end, _) in zip(found, found[1:])):
            return None
        for start, end, new in found:
            texts[path] = texts[path][:start] + new + texts[path][end:]
    return texts


def head_above(lines, row):
    """The row of the head of the function in whose body the row stands, or None."""
    for up in range(row - 1, -1, -1):
        found = FUNCTION.match(lines[up])
        if found:
            closed = found[1] + "}"
            ends = [at for at in range(up, row) if lines[at] == closed]
            opens = [at for at in range(up, row) if lines[at] == found[1] + "{" or re.fullmatch(re.escape(found[1]) + r"\S.*\{", lines[at])]
            return up if opens and not ends else None
    return None


def bare(name):
    """A type's or a trait's name as the prover has it, without its path and parameters, and with a capital: `U16` for `u16`."""
    name = re.sub(r"<.*", "", name).split("::")[-1].strip("& ") if name else ""
    return name[:1].upper() + name[1:]


def owner_of(lines, row):
    """The type and the trait of the impl block round the row, each as a bare name; None where no impl is round it."""
    for up in range(row, -1, -1):
        if lines[up] == "}" or TRAIT.match(lines[up]):
            return None
        found = IMPL.match(lines[up])
        if found:
            return bare(found[2]), bare(found[1])
    return None


def module_of(crate, path):
    """The path of the module that a file of src/ is."""
    parts = path.removeprefix("src/").removesuffix(".rt").split("/")
    if parts[-1] in ("lib", "main", "mod"):
        parts.pop()
    return "::".join([crate, *parts])


def name_at(crate, path, text, at, names):
    """The name, as the prover prints it, of the one function in whose body the place stands, or None."""
    lines, row = text.split("\n"), text.count("\n", 0, at)
    head = head_above(lines, row)
    if head is None:
        return None
    indent, name = FUNCTION.match(lines[head]).groups()
    module = module_of(crate, path)
    if not indent:
        return only(names, re.escape(module) + "::" + re.escape(name))
    owner = owner_of(lines, head) if len(indent) == 4 else None
    if owner is None:
        return None
    of, trait = map(re.escape, owner)
    # (an inherent method is named after its type's module, wherever the impl stands)
    start = re.escape(module) + "::" if trait else re.escape(crate) + "::(?:.*::)?"
    return only(names, rf"{start}{of}(?:\+[^:]*)?{trait}::{re.escape(name)}") or only(names, f"{start}[^:]*{of}[^:]*{trait}[^:]*::{re.escape(name)}")


def only(names, wanted):
    """The one of these names that is so written, or None."""
    fits = [it for it in names if re.fullmatch(wanted, it)]
    return fits[0] if len(fits) == 1 else None


def function_of(crate, edit, names):
    """The one function of the crate whose body the edit changes, by its name among these, or None."""
    found = set()
    for path, old, _ in pairs_of(edit):
        if not path.startswith("src/"):
            return None
        try:
            with open(f"{crate.folder}/{path}", encoding="utf-8") as it:
                text = it.read()
        except OSError:
            return None
        if text.count(old) != 1:
            return None
        at = text.index(old) + len(old) - len(old.lstrip())
        found.add(name_at(crate.name, path, text, at, names))
    return found.pop() if len(found) == 1 else None
