"""Which functions of a crate call which, as the built library tells.

A must-fail edit makes the prover look again at each function that calls the edited one, where it is asked for one above that too. So
edits that go together are best of functions that don't call one another, at any remove."""
import json
import os


def strings_in(node):
    """The names of functions in a body, and those of the impl blocks that it uses, each block with '::' behind it."""
    if isinstance(node, str):
        yield node
    elif isinstance(node, list):
        for it in node:
            yield from strings_in(it)
    elif isinstance(node, dict):
        for key, it in node.items():
            if key == "Impl" and isinstance(it, list) and it and isinstance(it[0], str):
                yield f"{it[0]}::"
            yield from strings_in(it)


def direct_calls(rlib):
    """By a function's name the names of those of its crate that its body calls; nothing where the crate is no built library."""
    try:
        with open(os.path.join(rlib, "toolchain", "mir.json"), encoding="utf-8") as it:
            bodies = {name: set(strings_in(function.get("body"))) for name, function in json.load(it)}
    except OSError:
        return {}
    members = {}
    for name in bodies:
        members.setdefault(name.rpartition("::")[0] + "::", []).append(name)
    found = {}
    for name, said in bodies.items():
        called = {it for it in said if it in bodies}
        for block in said & members.keys():
            called.update(members[block])
        found[name] = called - {name}
    return found


def calls_of(rlib):
    """By a function's name the names of all those of its crate that it calls, at any remove."""
    direct = direct_calls(rlib)
    found = {}
    for name in direct:
        reached, left = set(), [name]
        while left:
            for it in direct.get(left.pop(), ()):
                if it not in reached:
                    reached.add(it)
                    left.append(it)
        found[name] = reached
    return found
