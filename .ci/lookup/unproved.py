"""Names in comments of unproved code: a comment in C, Go, Python, shell, JavaScript or Rust that names what is nowhere."""

import ast
import io
import re
import tokenize

C_LIKE = re.compile(r'"(?:\\.|[^"\\\n])*"|\'(?:\\.|[^\'\\\n])\'|`[^`]*`|(?P<comment>/\*.*?\*/|//[^\n]*)', re.S)
SHELL = re.compile(r"(?P<comment>(?:^|(?<=\s))#(?!!)[^\n]*)")
# A name with an underscore: a crate, a function, a file. One that follows `def` is an example's own.
NAME = re.compile(r"(?<![\w'-])(?<!def )[a-z][a-z0-9]*(?:_[a-z0-9]+)+\b")
# Names of the kernel's settings.
ELSEWHERE = {"io_uring_disabled"}
PATH = re.compile(r"(?<![\w./-])(?:[\w.-]+/)*(?:specs|src|proofs|data)/[\w/]+\.\w+\b")


def language(path, text):
    """How comments are found in a file, or None for a file that isn't read."""
    if path.startswith("crates/"):
        return None
    if path.endswith(".py") or re.match(r"#!.*python3", text):
        return in_python
    if path.endswith(".sh") or re.match(r"#!.*(bash|/bin/sh)", text):
        return lambda text: by_pattern(SHELL, text)
    if path.endswith((".c", ".h", ".go", ".mjs", ".rs")):
        return lambda text: by_pattern(C_LIKE, text)
    return None


def by_pattern(pattern, text):
    return [(m.start("comment"), m.end("comment")) for m in pattern.finditer(text) if m["comment"]]


def in_python(text):
    """The places of comments and docstrings."""
    starts = [0]
    for line in text.splitlines(keepends=True):
        starts.append(starts[-1] + len(line))
    places = []
    for token in tokenize.generate_tokens(io.StringIO(text).readline):
        if token.type == tokenize.COMMENT and not token.string.startswith("#!"):
            places.append((starts[token.start[0] - 1] + token.start[1], starts[token.end[0] - 1] + token.end[1]))
    for node in ast.walk(ast.parse(text)):
        if isinstance(node, (ast.Module, ast.ClassDef, ast.FunctionDef)) and ast.get_docstring(node, clean=False):
            docstring = node.body[0].value
            places.append((starts[docstring.lineno - 1] + docstring.col_offset, starts[docstring.end_lineno]))
    return sorted(places)


def split(text, places):
    """The comments, each with the number of its line, and the rest."""
    comments, rest, last = [], [], 0
    for start, end in places:
        comments.append((text.count("\n", 0, start) + 1, text[start:end]))
        rest.append(text[last:start])
        last = max(last, end)
    return comments, "".join(rest) + text[last:]


def faults_of_unproved(texts):
    """Comments that name a file of a crate, or a name with an underscore, that is nowhere but in comments."""
    comments, words = {}, set(ELSEWHERE)
    for path, text in texts.items():
        words.update(step.split(".")[0] for step in path.split("/"))
        find = language(path, text)
        if "\0" in text:
            continue
        if find:
            comments[path], text = split(text, find(text))
        elif path.endswith((".rt", ".antt")):
            text = re.sub(r"(?m)^\s*(//|--).*", "", text)
        elif path.endswith((".md", ".mutants", ".edit", ".edits")):
            continue
        if not path.startswith(".ci/tests/"):  # whose texts have made-up names
            words.update(re.findall(r"\w+", text))
    for path, found in comments.items():
        for number, comment in found:
            for name in NAME.findall(comment):
                if name not in words:
                    yield f"{path}:{number}: {name} is nowhere but in comments"
            for name in PATH.findall(comment):
                if not any(at == name or at.endswith("/" + name) for at in texts):
                    yield f"{path}:{number}: there is no {name}"
