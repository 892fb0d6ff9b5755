"""What a line of the repository is: the part that it belongs to, the function that it is in, its contract."""

import functools
import re

from .clauses import contract_end
from .definitions import FUNCTION

CLAUSE = re.compile(r"^\s*(requires|ensures|ghost)\b|[≡≢→×λ∀∃≤ℕ↔∷⊥]")
IMPL = re.compile(r"^(?:pub(?:\(\w+\))? )?trait (\w+)|^impl\b(?:<.*?>)? ?(?:[\w:<>, ]+ for )?(\w+)")
TESTS = re.compile(
    r"(^|/)tests?/|_test\.go$|^bindings/examples/|^evidence/|/bench|^crates/\w+_tests/|^crates/test_|/data/|/std(in|out)$"
    r"|^\.ci/(tests|refused|shell|installed|must-not-compile)/|/fuzz/|^\w+/test(-check)?$|^\.ci/state/"
)
RECORDED = re.compile(r"^evidence/linux[^/]*/")
ENDINGS = {
    **{".md": "documents", ".svg": "documents", ".edit": "edits", ".edits": "edits"},
    **{".mutants": "mutants", ".recorded": "recordings"},
}


def part_of(path, line):
    """The part of the screen that a line belongs to."""
    for ending, part in ENDINGS.items():
        if path.endswith(ending):
            return part
    if path.startswith(("man/", "docs/")):
        return "documents"
    if RECORDED.match(path):
        return "recordings"
    if TESTS.search(path) and not path.startswith("crates/word_tables/"):
        return "tests"
    if not path.startswith("crates/"):
        return "code"
    _, crate, folder, *_ = path.split("/")
    if folder == "proofs":
        return "proofs"
    if crate.endswith("_laws") or path.endswith("/laws.rt"):
        return "laws"
    if folder == "specs":
        return "specs"
    return "clauses" if path.endswith(".rt") and CLAUSE.search(line) else "code"


@functools.lru_cache(maxsize=None)
def functions_of(text):
    """For each line of a .rt file, counted from 1, the function that it is in, with the type of its impl, or its trait."""
    found, owner, inside = [None], None, None
    for line in text.split("\n"):
        of = IMPL.match(line)
        if of:
            owner, inside = of[1] or of[2], None
        elif line == "}":
            owner = inside = None
        name = FUNCTION.match(line)
        if name:
            inside = f"{owner}::{name[1]}" if owner and line.startswith(" ") else name[1]
        found.append(inside)
    return found


def contract_of(lines, number):
    """The clauses of the function whose definition is that line, counted from 1, and the words that they have."""
    contract = map(str.strip, lines[number - 1 : contract_end(lines, number - 1)])
    clauses = [line.removesuffix(";") for line in contract if line.startswith(("requires", "ensures"))]
    cited = set(re.findall(r"\w+", " ".join(clauses)))
    for place, items in re.findall(r"^ghost use Rattle\.(\w+\.specs\.\w+)\.\{(.*?)\};", "\n".join(lines), re.M):
        names = [item for item in re.findall(r"\w+", items) if item in cited]
        if names and not place.startswith("std."):
            clauses.append(f"cites {', '.join(names)} of {place.replace('.', '/')}.antt")
    return clauses
