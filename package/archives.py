"""Archives whose bytes depend on nothing but the files: names are sorted, and times, owners and modes are fixed."""
import gzip
import io
import tarfile
from pathlib import PurePosixPath


def entry(name, kind, mode, date):
    found = tarfile.TarInfo(name)
    found.type, found.mode, found.mtime = kind, mode, date
    found.uname = found.gname = "root"
    return found


def folders_of(names):
    """Each folder above one of these files, those above first."""
    found = {str(above) for name in names for above in PurePosixPath(name).parents if str(above) != "."}
    return sorted(found)


def packed(content):
    """The bytes as `gzip -n` packs them, without a name and a time."""
    out = io.BytesIO()
    with gzip.GzipFile(filename="", mode="wb", compresslevel=6, fileobj=out, mtime=0) as it:
        it.write(content)
    return out.getvalue()


def tar(files, date, before=""):
    """A tar of the files, which are their bytes and mode by name, with a text before each name."""
    out = io.BytesIO()
    with tarfile.open(fileobj=out, mode="w", format=tarfile.GNU_FORMAT) as it:
        for name in folders_of(files):
            it.addfile(entry(before + name, tarfile.DIRTYPE, 0o755, date))
        for name, (content, mode) in sorted(files.items()):
            found = entry(before + name, tarfile.REGTYPE, mode, date)
            found.size = len(content)
            it.addfile(found, io.BytesIO(content))
    return out.getvalue()


def tar_gz(files, date, before=""):
    return packed(tar(files, date, before))


def ar(members, date):
    """The archive in the form of `ar`, which a Debian package is."""
    out = b"!<arch>\n"
    for name, content in members:
        out += f"{name:16}{date:<12}{0:<6}{0:<6}{100644:<8}{len(content):<10}`\n".encode() + content + b"\n" * (len(content) % 2)
    return out


def deb(control, files, date):
    """A Debian package: `control` is its control file, and the files are named from the root."""
    control = tar_gz({"control": (control.encode(), 0o644)}, date, "./")
    return ar([("debian-binary", b"2.0\n"), ("control.tar.gz", control), ("data.tar.gz", tar_gz(files, date, "./"))], date)
