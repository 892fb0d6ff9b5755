"""What documents cite in code type is there: a definition `File.name`, a call with the clauses in parentheses after it, and a word with
an underscore, which something defines or which is a name of a file."""

import os
import re

from .comments import CODE
from .definitions import definition_of, has_class

WITH_CLAUSES = re.compile(r"`(\w+::\w+)` \(((?:`\w+`(?:, | and )?)+)\)")
WORD = re.compile(r"[a-z][a-z0-9]*(?:_[a-z0-9]+)+")
ITEM = re.compile(r"([A-Z]\w*)\.([a-z]\w*)")
# what only the other engine of the benchmark has
APART = "evidence/bench/plain/"


def faults_of_held(document, lines, crates):
    """`File.name` with a file of definitions, `Owner::name` with a type, a trait or a module of a crate."""
    definitions, functions = {}, {}
    for one in crates.definitions():
        definitions.setdefault(one.file, set()).update([one.name])
    for of in crates.functions.values():
        for one, _ in of:
            words = functions.setdefault(one.owner, {}).setdefault(one.name, set())
            words.update(word for _, name, text in one.clauses for word in (name, *re.findall(r"\w+", text)))
    for number, line in lines:
        for token in CODE.findall(line):
            file, point, name = token.partition(".")
            if (
                point
                and file in definitions
                and name not in definitions[file] | {"antt"}
                and re.fullmatch(r"\w+", name)
            ):
                yield f"{document}:{number}: {file} defines no {name}"
            owner, colons, name = token.partition("::")
            if colons and owner in functions and re.fullmatch(r"[a-z]\w+", name) and name not in functions[owner]:
                yield f"{document}:{number}: {owner} has no {name}"
        for call, clauses in WITH_CLAUSES.findall(line):
            owner, _, name = call.partition("::")
            words = functions.get(owner, {}).get(name)
            for clause in re.findall(r"\w+", clauses.replace(" and ", " ")):
                if words and clause not in words and clause not in crates.crates:
                    yield f"{document}:{number}: the contract of {call} has no {clause}"


def named_in(lines):
    """The tokens of these forms, each with the numbers of its lines."""
    found = {}
    for number, line in lines:
        for token in CODE.findall(line):
            if WORD.fullmatch(token) or ITEM.fullmatch(token):
                found.setdefault(token, []).append(number)
    return found


def defined_in(names, texts):
    """Those of the names that a line of some file defines."""
    found = set()
    for path, text in texts.items():
        here = {name for name in names - found if name in text}
        pattern = None if path.startswith(APART) or not here else definition_of(path, sorted(here))
        for line in text.split("\n") if pattern else ():
            match = pattern.search(line)
            found.update(here.intersection(filter(None, match.groups())) if match else ())
    return found


def faults_of_gone(document, lines, texts, crates):
    """A word that is defined nowhere and names no file or folder, and a definition that its file doesn't have."""
    tokens = named_in(lines)
    steps = {step for path in texts for part in path.split("/") for step in (part, os.path.splitext(part)[0])}
    words = {token for token in tokens if "." not in token} - steps
    gone = words - defined_in(words, texts)
    definitions = {f"{one.file}.{one.name}" for one in crates.definitions()}
    for token in tokens:
        item = ITEM.fullmatch(token)
        if item and token not in definitions | steps and not has_class(item[1], texts):
            gone.add(token)
    for token in sorted(gone):
        for number in tokens[token]:
            yield f"{document}:{number}: nothing defines {token}"
