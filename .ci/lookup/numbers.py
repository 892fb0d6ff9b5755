"""The constants of a value: each that has a name, in every language here."""

import ast
import operator
import re

from .definitions import ending

CONSTANT = {
    ".rt": r"\b(?:const|static) (\w+): [^=;]+ = ([^;]+);",
    ".rs": r"\b(?:const|static) (\w+): [^=;]+ = ([^;]+);",
    ".antt": r"^(?:abbrev |unfoldable |pub )*([A-Z][A-Z0-9_]*|[a-z]\w*(?= = \d+$)) = (.+)$",
    ".go": r"^[ \t]*const (\w+)(?: \w+)? = ([^=\n]+?)(?:\s*//.*)?$",
    ".h": r"^[ \t]*#[ \t]*define (\w+) +(.+?)(?:\s*/[*/].*)?$|\b(?:const|constexpr)\b[\w ]* (\w+) = ([^;]+);",
    ".py": r"^[ \t]*([A-Z][A-Z0-9_]*)(?:: [^=\n]+)? = ([^#\n]+)",
    ".sh": r"^[ \t]*(?:readonly |declare -r |local )?([A-Z][A-Z0-9_]*)=(\d\w*)\b",
}
CONSTANT[".c"] = CONSTANT[".h"]
ENUM = re.compile(r"\benum\b[\w ]*\{([^{}]*)\}")
GO_BLOCK = re.compile(r"^const \((.*?)^\)", re.M | re.S)
IN_BLOCK = re.compile(r"^\t(\w+)(?: \w+)? += ([^=\n]+?)(?:\s*//.*)?$", re.M)
PAGE_CONST = re.compile(r"\bconst ([^;]*);")
ONE_OF_PAGE = re.compile(r"(?:^|, )(\w+) = ([\w .*+<|()-]+)(?=,|$)")
# What holds several constants, and one of them there.
BLOCKS = {".go": (GO_BLOCK, IN_BLOCK), ".mjs": (PAGE_CONST, ONE_OF_PAGE)}
# Several constants of one line, by position.
SEVERAL = {
    ".py": re.compile(r"^[ \t]*([A-Z][A-Z0-9_]*(?:, [A-Z][A-Z0-9_]*)+) = ([^#\n]+)$", re.M),
    ".go": re.compile(r"^[ \t]*const (\w+(?:, \w+)+) = ([^\n]+)$", re.M),
}
COMMENT = re.compile(r"/\*.*?\*/|//[^\n]*", re.S)
CALCULATIONS = {
    ast.Add: operator.add,
    ast.Sub: operator.sub,
    ast.Mult: operator.mul,
    ast.LShift: operator.lshift,
    ast.BitOr: operator.or_,
}


def value_of(text):
    """A number as a reader writes it: 1024, 1,024, 1_024, 0x400; None for what is none."""
    plain = re.sub(r"(?<=\d)[,_](?=[\da-fA-F])", "", text)
    return int(plain, 0) if re.fullmatch(r"0|[1-9]\d*|0[xX][\da-fA-F]+", plain) else None


BLANKS = re.compile(r"\s*")
EXPRESSION = re.compile(r"[\w\s()<|*+.-]+")


def calculated(text, known):
    """The value of an expression of numbers and known names; None if it has anything else."""
    text = re.sub(r"\bas \w+", "", text).strip()
    if text.isdecimal():
        return int(text)
    if text.isidentifier():
        return known.get(text)
    if not EXPRESSION.fullmatch(text) or not re.search(r"\d|[A-Z]", text):
        return None
    text = re.sub(r"\b(0[xX][\da-fA-F_]+|\d[\d_]*)(?:_?[ui](?:8|16|32|64|128|size)|[uUlL]+|n)?\b", r"\1", text)
    try:
        return of_tree(ast.parse(text, mode="eval").body, known)
    except (SyntaxError, ValueError, MemoryError):
        return None


def of_tree(tree, known):
    if isinstance(tree, ast.Constant):
        return tree.value if type(tree.value) is int else None
    if isinstance(tree, ast.Name):
        return known.get(tree.id)
    if isinstance(tree, ast.Attribute):
        return known.get(tree.attr)
    if isinstance(tree, ast.BinOp) and type(tree.op) in CALCULATIONS:
        left, right = of_tree(tree.left, known), of_tree(tree.right, known)
        if left is None or right is None or (isinstance(tree.op, ast.LShift) and not 0 <= right < 128):
            return None
        return CALCULATIONS[type(tree.op)](left, right)
    return None


def is_script(path, text):
    return not ending(path) and text.startswith("#!")


def language(path, text):
    """The ending whose rules a file follows: a script's is that of what runs it."""
    if is_script(path, text):
        return ".py" if "python" in text.split("\n", 1)[0] else ".sh"
    return ending(path)


def constants(path, text):
    """Each constant of a file, with its place and its expression. An enumerator without one is one more than the last."""
    of = language(path, text)
    if of == ".antt" and "/specs/" not in path:
        return
    for found in re.finditer(CONSTANT[of], text, re.M) if of in CONSTANT else ():
        name, value = [one for one in found.groups() if one is not None]
        yield found.start(), name, value
    outer, inner = BLOCKS.get(of, (None, None))
    for block in outer.finditer(text) if outer else ():
        yield from ((block.start(1) + one.start(1), one[1], one[2]) for one in inner.finditer(block[1]))
    for found in SEVERAL[of].finditer(text) if of in SEVERAL else ():
        names, values = found[1].split(", "), found[2].split(", ")
        if len(names) == len(values):
            yield from ((found.start(), *pair) for pair in zip(names, values))
    for found in ENUM.finditer(text) if of in (".c", ".h") else ():
        inside = COMMENT.sub(lambda comment: " " * len(comment[0]), found[1])
        at, first, more = found.start(1), "0", 0
        for part in inside.split(","):
            one = re.match(r"\s*(\w+)(?:\s*=\s*(.+?))?\s*$", part, re.S)
            if one:
                first, more = (one[2], 0) if one[2] else (first, more)
                yield at + one.start(1), one[1], first if one[2] else f"({first}) + {more}"
                more += 1
            at += len(part) + 1


def owners(value, texts):
    """Each constant of that value: path, line and what it says. A name means what its own file says, else what its language does, else C."""
    found = [(path, *one) for path, text in texts.items() for one in constants(path, text)]
    known, left = {}, found
    for _ in range(3):
        unknown = []
        for path, at, name, expression in left:
            family = language(path, texts[path]).replace(".h", ".c")
            result = calculated(expression, Names(known, path, family))
            if result is None:
                unknown.append((path, at, name, expression))
            else:
                known[path, name] = result
                known.setdefault((family, name), result)
        left = unknown
    for path, at, name, expression in found:
        if known.get((path, name)) == value:
            begin = BLANKS.match(texts[path], at).end()
            said = value if re.fullmatch(r"\(.*\) \+ \d+", expression, re.S) else " ".join(expression.split())
            yield path, texts[path].count("\n", 0, begin) + 1, f"{name} = {said}"


class Names:
    """What a name is worth in a file."""

    def __init__(self, known, path, family):
        self.known, self.places = known, (path, family, ".c")

    def get(self, name):
        return next((self.known[of, name] for of in self.places if (of, name) in self.known), None)
