"""The archive of what the first build makes: the crates' built libraries and the program, each with its stamp, for a fresh clone."""
import io
import os
import shutil
import subprocess
import tarfile

import kit
from archives import entry
from checkout import read

PACKERS = {"zstd": ["-q", "-T0", "-9"], "xz": ["-T0", "-3"]}
ENDINGS = {"zstd": "zst", "xz": "xz"}


def packer():
    """The program that packs, the one of these two that is there; nothing where there is none."""
    return next((it for it in PACKERS if shutil.which(it)), None)


def files_of(checkout, built):
    """What the archive has, sorted by name: a name, and a path or bytes."""
    found = {}
    for crate in checkout.crates:
        out = f"crates/{crate.name}/out"
        stamp = checkout.stamps[crate.name]
        if crate.is_program:
            found[f"{out}/{crate.name}"] = f"{built[crate.name]}/{crate.name}"
            stamp += checkout.rt.rtlib.sum_of(f"{built[crate.name]}/{crate.name}")
        else:
            top = f"{built[crate.name]}/rlib/{crate.name}.rlib"
            for at, _, names in os.walk(top):
                found.update({f"{out}/rlib/{os.path.relpath(f'{at}/{it}', os.path.dirname(top))}": f"{at}/{it}" for it in names})
        found[os.path.relpath(kit.stamp_file(crate), checkout.root)] = stamp.encode()
    return sorted(found.items())


def write(checkout, built, date, path):
    """Writes the archive, where `path` ends without the packer's ending, and answers its whole path."""
    name = packer()
    path = f"{path}.{ENDINGS[name]}"
    with open(path, "wb") as out, subprocess.Popen([name, *PACKERS[name], "-c"], stdin=subprocess.PIPE, stdout=out) as ran:
        with tarfile.open(fileobj=ran.stdin, mode="w|", format=tarfile.GNU_FORMAT) as it:
            for name, given in files_of(checkout, built):
                content = given if isinstance(given, bytes) else read(given)
                one = entry(name, tarfile.REGTYPE, 0o755 if name == "crates/jinit/out/jinit" else 0o644, date)
                one.size = len(content)
                it.addfile(one, io.BytesIO(content))
        ran.stdin.close()
    if ran.returncode:
        os.remove(path)
        raise OSError(f"{ran.args[0]} ended with status {ran.returncode}")
    return path
