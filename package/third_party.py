"""The file THIRD-PARTY: which libraries of the kit the program is built from, and their licences."""
import os

from checkout import read


def libraries_of(checkout):
    """The kit's libraries that the program's crates name, and those that these are built over."""
    named = {it for crate in checkout.crates for it in crate.of_kit}
    folders = [f"{checkout.kit}/rlibs/{name}.rlib/below" for name in named]
    # (a library of macros alone stands on no other)
    below = {it for folder in folders if os.path.isdir(folder) for it in os.listdir(folder)}
    return sorted(named | below | {"core"})


def licences_of(checkout, library):
    """The names and texts of the library's licences, as the kit has them."""
    folder = f"{checkout.kit}/rattle/{library}"
    names = sorted(it for it in os.listdir(folder) if it.startswith(("LICENSE", "LICENCE", "COPYING", "NOTICE"))) if os.path.isdir(folder) else []
    return [(it, read(f"{folder}/{it}").decode()) for it in names if os.path.isfile(f"{folder}/{it}")]


def third_party(checkout):
    found = {it: licences_of(checkout, it) for it in libraries_of(checkout)}
    without = ", ".join(it for it in found if not found[it])
    with_text = ", ".join(it for it in found if found[it])
    parts = [
        "Jinit is built from its own crates and from libraries of the Rattle kit, of the toolchain's line in PROVED.\n\n"
        "What a crate of Jinit names is counted here, and what that is built over in the kit, whether or not code of it ends up in the program.\n\n"
        f"With a licence's text in the kit, which follows: {with_text}.\n\n"
        f"Without one, so that nothing is said here of their licences: {without}.\n\n"
        "The program also holds the kit's small C library for system calls (libos_c.a, liblibc_c.a), for which the kit has no text either.\n"
    ]
    for library, texts in found.items():
        for name, text in texts:
            parts.append(f"{'=' * 100}\n{library}: {name}\n{'=' * 100}\n\n{text.rstrip()}\n")
    return "\n".join(parts)
