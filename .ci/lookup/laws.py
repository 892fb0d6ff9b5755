"""The crates and their texts, which of them state laws, and which definitions have none."""

import os

from lookup.clauses import Definition

SKIPPED = {"out", "proofs", "must-fail", "data"}


def read_texts(root):
    """The code and the definitions of the crates, by their paths."""
    texts = {}
    for folder, below, files in os.walk(os.path.join(root, "crates")):
        below[:] = sorted(set(below) - SKIPPED)
        for name in sorted(files):
            if name.endswith((".rt", ".antt")):
                with open(os.path.join(folder, name), encoding="utf-8") as it:
                    texts[os.path.relpath(os.path.join(folder, name), root)] = it.read()
    return texts


def read_crates(root):
    """Each crate of crates.txt with the libraries that it uses."""
    with open(os.path.join(root, "crates.txt"), encoding="utf-8") as it:
        rows = [line.split(":") for line in it if line.strip() and not line.startswith("#")]
    return {head.split()[0]: uses.split() for head, uses in rows}


def is_law(crate):
    return crate.endswith("_laws")


def states_a_law(one):
    return not isinstance(one, Definition) and (is_law(one.crate) or one.owner == "laws")


def is_for_tests(crate):
    return crate.endswith(("_tests", "_bench")) or crate.startswith("test_")


def is_public_call(one):
    """Whether callers in other crates see its clauses: a view or an invariant of a type is none."""
    return not isinstance(one, Definition) and one.is_public and one.name not in ("view", "invariant")


def without_laws(crates):
    """Each definition that a clause of a public call cites, and that no law and no computed example names, with these calls."""
    for one in crates.definitions():
        if is_law(one.crate) or is_for_tests(one.crate) or any(states_a_law(by) for by, _ in one.cited):
            continue
        calls = list(dict.fromkeys(str(by) for by, _ in one.cited if is_public_call(by) and not is_for_tests(by.crate)))
        if calls:
            yield one, calls
