"""The definitions and functions of the crates, with their comments, and which clause cites which definition."""

import re

DEFINITION = re.compile(r"\s*(?:(?:abbrev|unfoldable) pub (\S+) :|pub (?:record|data|rel) (\S+))")
FIELD = re.compile(r"\s+pub (\w+) : |\s+(\w+) : ")
STRUCT = re.compile(r"(?:pub(?:\(\w+\))? )?struct (\w+)")
GHOST = re.compile(r"    ghost (\w+): \{(.*)\}[,;]$")
FUNCTION = re.compile(r"(\s*)(pub(?:\(\w+\))? )?(?:final )?(?:const )?(?:unsafe )?(extern \"C\" )?fn (\w+)")
OWNER = re.compile(r"(?:unsafe )?impl\b(?:<.*?>)? ?(?:([\w:<>', ]+) for )?&?(?:mut )?(\w+)|pub (trait) (\w+)")
# A clause with a star holds an assertion of separation logic.
CLAUSE = re.compile(r"\b(requires|ensures)\*?(?: (\w+))? \{")
USE = re.compile(r"use Rattle\.(\w+)\.specs\.([\w.]+)(?:\.\{([^}]*)\}| as (\w+))")
WORD = re.compile(r"[\w']+(?:\.\w+)?")


class Definition:
    def __init__(self, crate, file, name, says):
        self.crate, self.file, self.name, self.says = crate, file, name, says
        self.type = None  # of an abbreviation
        self.fields = []  # of a record, or the constructors of data, each with its comment
        self.cited = []  # by which functions, views and definitions

    def __str__(self):
        return f"{self.file}.{self.name}"


class Function:
    """A function, or what an impl of Model says of a type (then the name is `view` or `invariant`)."""

    def __init__(self, crate, owner, name, is_public, says):
        self.crate, self.owner, self.name, self.is_public, self.says = crate, owner, name, is_public, says
        self.clauses = []  # requires or ensures, the name or None, the text

    def __str__(self):
        return f"{self.owner}::{self.name}" if self.owner else self.name


def comment_above(lines, at, mark):
    """The text of the comment that ends above that line."""
    said = []
    while at > 0 and re.match(rf"\s*({mark}( |$)|#\[)", lines[at - 1]):
        at -= 1
        if not lines[at].lstrip().startswith("#["):
            said.insert(0, lines[at].strip().removeprefix(mark).strip())
    return "\n".join(said)


def imports(text, crate, file=None):
    """What each word, or each first part of a word with a point, means: a file of definitions and a name there."""
    names, files = {}, {}
    for of, where, items, alias in USE.findall(text):
        if alias:
            files[alias] = (of, where)
        for item in items.split(","):
            name, _, other = item.strip().partition(" as ")
            names[other or name] = (of, where, name)
    if file:
        names.update({name: (crate, file, name) for name in defined_in(text)})
    return names, files


def defined_in(text):
    return [found[1] or found[2] for found in map(DEFINITION.match, text.split("\n")) if found]


def cited_in(text, known):
    names, files = known
    for word in WORD.findall(text):
        first, point, last = word.partition(".")
        if first in names:
            yield names[first]
        elif point and first in files:
            yield (*files[first], last)


def order_of(texts, crate):
    """The files of definitions of a crate, in the order of its list."""
    listed = re.findall(r"^pub mod (\w+)", texts.get(f"crates/{crate}/specs/Lib.antt", ""), re.M)
    there = [
        path.rsplit("/", 1)[1][:-5] for path in sorted(texts) if re.match(rf"crates/{crate}/specs/\w+\.antt$", path)
    ]
    return [file for file in listed if file in there] + [file for file in there if file not in (*listed, "Lib")]


def definitions_of(texts, crate):
    """For each file of definitions its name, what its head says, and its definitions with their texts."""
    for file in order_of(texts, crate):
        lines = texts[f"crates/{crate}/specs/{file}.antt"].split("\n")
        head, at = [], 0
        while lines[at].startswith("--"):
            head.append(lines[at].removeprefix("--").strip())
            at += 1
        if DEFINITION.match(lines[at]):  # no head: the comment is the definition's
            head = []
        found, texts_of = [], {}
        for at, line in enumerate(lines):
            is_one = DEFINITION.match(line)
            if is_one:
                one = Definition(crate, file, is_one[1] or is_one[2], comment_above(lines, at, "--"))
                one.type = line[is_one.end() :].strip() if is_one[1] else None
                found.append(one)
                texts_of[one.name] = []
            elif FIELD.match(line) and found and found[-1].type is None:
                field = FIELD.match(line)
                found[-1].fields.append((field[1] or field[2], comment_above(lines, at, "--")))
            if found and not line.lstrip().startswith("--"):
                texts_of[found[-1].name].append(line)
        yield file, " ".join(head), found, {name: "\n".join(text) for name, text in texts_of.items()}


def contract_end(lines, at):
    """Behind which line, counted from 0, the contract ends of the function that begins there: at its body, whose brace begins or ends
    a line outside clauses, or with the semicolon of a trait's function."""
    if lines[at].rstrip().endswith((";", "{", "}")):
        return at + 1
    depth = 0
    for end in range(at + 1, len(lines)):
        text = lines[end].strip()
        if text.startswith("//"):
            continue
        if depth == 0 and (text.startswith(("{", "}")) or (text.endswith("{") and not CLAUSE.search(text))):
            return end
        depth += text.count("{") - text.count("}")
        if depth == 0 and text.endswith(";"):
            return end + 1
    return len(lines)


def clauses_in(contract):
    """Each clause with its name and its text, up to the brace that closes it."""
    for start in CLAUSE.finditer(contract):
        depth, at = 1, start.end()
        while depth and at < len(contract):
            depth += {"{": 1, "}": -1}.get(contract[at], 0)
            at += 1
        yield start[1], start[2], " ".join(contract[start.end() : at - 1].split())


def functions_of(texts, crate):
    """The functions of a crate with their contracts, and what contracts see of its types; each with the imports of its file."""
    for path in sorted(texts):
        if not re.match(rf"crates/{crate}/src/.*\.rt$", path):
            continue
        lines, owner, is_trait = texts[path].split("\n"), None, False
        module = path.removeprefix(f"crates/{crate}/src/").removesuffix(".rt").replace("/", "::")
        known = imports(texts[path], crate)
        for at, line in enumerate(lines):
            head, start = OWNER.match(line), FUNCTION.match(line)
            struct, ghost = STRUCT.match(line), GHOST.match(line)
            if struct:
                owner = struct[1]
            if ghost and owner:
                yield view_of(crate, owner, "invariant" if not is_trait else "view", ghost[2]), known
            if head:
                owner, is_trait = head[4] or head[2], bool(head[3])
                if head[1] == "Model":
                    yield from views_of(crate, owner, lines, at, known)
            elif line == "}":
                owner, is_trait = None, False
            if start:
                contract = [more for more in lines[at : contract_end(lines, at)] if not more.lstrip().startswith("//")]
                is_public = (start[2] or "").strip() == "pub" or is_trait
                one = Function(
                    crate,
                    owner if start[1] else None if start[3] else module,
                    start[4],
                    is_public,
                    comment_above(lines, at, "///"),
                )
                one.clauses = list(clauses_in("\n".join(contract)))
                yield one, known


def views_of(crate, owner, lines, at, known):
    """What contracts see of a type, and its invariant."""
    end = next((last for last in range(at, len(lines)) if lines[last] == "}"), len(lines))
    for what, text in re.findall(r"ghost (view|invariant|Value) = \{(.*?)\};", "\n".join(lines[at:end]), re.S):
        yield view_of(crate, owner, "invariant" if what == "invariant" else "view", text), known


def view_of(crate, owner, what, text):
    one = Function(crate, owner, what, True, "")
    one.clauses = [(what, None, text)]
    return one


class Crates:
    """Every definition and function, with who cites what."""

    def __init__(self, texts, crates):
        self.texts, self.crates = texts, crates
        self.files = {crate: list(definitions_of(texts, crate)) for crate in crates}
        self.functions = {crate: list(functions_of(texts, crate)) for crate in crates}
        self.by_name = {(one.crate, one.file, one.name): one for one in self.definitions()}
        for crate in crates:
            for function, known in self.functions[crate]:
                for _, clause, text in function.clauses:
                    self.note(text, known, function, clause)
            for file, _, _, inside in self.files[crate]:
                known = imports(texts[f"crates/{crate}/specs/{file}.antt"], crate, file)
                for name, text in inside.items():
                    self.note(text, known, self.by_name[crate, file, name], None)

    def definitions(self):
        return (one for files in self.files.values() for _, _, found, _ in files for one in found)

    def note(self, text, known, by, clause):
        for key in dict.fromkeys(cited_in(text, known)):
            one = self.by_name.get(key)
            if one and one is not by and (by, clause) not in one.cited:
                one.cited.append((by, clause))
