"""The names of one thing, as the table of words has them, and how they are found in a line."""

import functools
import re

from .screen import short

TABLE = "crates/word_tables/stdout"
FILES = "crates/interface_files/src/file.rt"
MEANINGS = "crates/undo_journal/specs/CommandMeaning.antt"
# A number of that many digits is looked for with its constant.
LONG = 4
# The words of answers that mean nothing else in English.
OWN_WORDS = (
    "nogroup",
    "noslot",
    "rootfixed",
    "haschildren",
    "hasprocesses",
    "noprocess",
    "pidinuse",
    "pidsmax",
    "nofile",
)


def with_separators(number):
    commas = f"{int(number):,}"
    return [number, commas, commas.replace(",", "_")]


def of_file(name, row, texts):
    path, on_root, read, written, _, text = row
    if name != path:
        return [], ""
    variants = re.findall(r'File::(\w+) => (?:\{\s*)?Row::new\(\s*b"([\w.]+)"', texts.get(FILES, ""))
    said = ["on the root" if on_root == "yes" else "not on the root", "read" if read == "yes" else "not read"]
    said.append("not written" if written == "-" else f"written: {written}")
    return [variant for variant, of in variants if of == name], f"file: {', '.join(said)}" + (
        f"; {text}" if text != "-" else ""
    )


def of_code(name, row, texts):
    """A refusal, or a fault of a line: an errno names all that have it, and has no other name."""
    code, python, c, answer, errno, _, meaning = row
    word = answer.split()[2]
    in_model = re.findall(rf"^refusal_of \(?(?:\w+\.)?{python}\b.* = \w+\.(\w+)", texts.get(MEANINGS, ""), re.M)
    if name not in (python, c, word, errno, *in_model):
        return [], ""
    others = [] if name == errno else [python, c, word if word in OWN_WORDS else f"refused {word}", *in_model]
    return others, f"code {code}: {python}, {c}, `{answer[2:]}`, {errno}: {meaning}"


def of_path(name, row):
    number, python, c, _, errno, _, meaning = row
    if name not in (python, c, errno):
        return [], ""
    return (
        [] if name == errno else [python, c],
        f"fault {number} of a path: {python}, {c}, {errno} of a mkdir: {meaning}",
    )


def of_status(name, row):
    number, c, errno, _, meaning = row
    if name not in (c, errno):
        return [], ""
    return [], f"status {number}: {c}{'' if errno == '-' else ', ' + errno}: {meaning}"


def of_number(name, row):
    constant, value, meaning = row
    if name.replace(",", "").replace("_", "") not in (constant, value) and name != constant:
        return [], ""
    said = f"number: {constant} is {int(value):,}: {meaning}"
    # A small number means other things too.
    if name == constant and len(value) < LONG:
        return [], f"{said}; ./where {value} finds the number itself"
    return [constant, *with_separators(value)], said


def of_command(name, row):
    example, arguments, meaning = row
    return [], f"command: {name} {arguments}: {meaning}" if name == example.split()[0] else ""


def of_system_call(name, texts):
    """How C's headers name the number of a system call, if a file here has that."""
    numbers = (f"SYS_{name}", f"__NR_{name}") if re.fullmatch(r"[a-z]\w*", name) else ()
    return [it for it in numbers if any(it in text and pattern_of([it]).search(text) for text in texts.values())]


def same_things(name, texts):
    """The other names of the same thing, and what the table of words says of it."""
    kinds = {"path": of_path, "status": of_status, "number": of_number, "command": of_command}
    with_texts = {"file": of_file, "refusal": of_code, "fault": of_code}
    others = with_separators(name) if re.fullmatch(r"\d{4,}", name) else of_system_call(name, texts)
    said = []
    for kind, *row in (line.split("\t") for line in texts.get(TABLE, "").splitlines() if not line.startswith("#")):
        more, sentence = with_texts[kind](name, row, texts) if kind in with_texts else kinds[kind](name, row)
        others += more
        said += [sentence] if sentence else []
    return sorted(set(others) - {name}), said


# A checksum has any number in it.
SUM = re.compile(r"[0-9a-f]{20,}")
# What an escape in a string, or a change of the font, ends: a name may begin behind it.
ESCAPE = r"\\[0abefnrtv]"


def boundaries(name):
    """A name of a file isn't part of a longer one, a number not part of another, an option or a name with hyphens not of another."""
    if name[0].isdigit():
        return rf"(?:(?<![\w.,])|(?<={ESCAPE}))", r"(?![\d_]|[.,]\d)"
    if name[0] == "-":
        return r"(?<![\w-])", r"(?![\w-])"
    more = "-" if "-" in name else ""
    before, behind = rf"(?<![\w{more}])", rf"(?![\w{more}])"
    if "." in name:
        before, behind = rf"(?<![\w.{more}])", rf"(?![\w{more}]|\.\w)"
    return f"(?:{before}|(?<={ESCAPE}))", behind


def pattern_of(names):
    """Finds one of the names as a word."""
    return compiled(tuple(names))


@functools.lru_cache(maxsize=None)
def compiled(names):
    longest_first = sorted(names, key=len, reverse=True)
    return re.compile("|".join(re.escape(name).join(boundaries(name)) for name in longest_first))


def longer_words(names, line):
    """The words of a line that have one of the names in them, and are not one."""
    more = ("." if any("." in name for name in names) else "") + ("-" if any("-" in name for name in names) else "")
    found = re.findall(rf"(?:{ESCAPE})?([\w{more}]+)", line)
    # A point before a word belongs to it if a name begins with one.
    before = str.rstrip if any(name[0] == "." for name in names) else str.strip
    words = {before(word, ".") for word in found if not SUM.fullmatch(word)}
    return {word for word in words if any(is_in(name, word) for name in names) and not pattern_of(names).search(word)}


def is_in(name, word):
    """Whether the word has the name in it. A number isn't in a longer one."""
    return bool(re.search(rf"(?<!\d){name}(?!\d)", word)) if name[0].isdigit() else name in word


def files_named(name, texts):
    """The files of that name, with or without their ending, and the folders, as a screen lists them."""
    found = {}
    for path in texts:
        *folders, last = path.split("/")
        if name in (last, last.rsplit(".", 1)[0], path) or ("/" in name and path.endswith(f"/{name}")):
            found.setdefault(short(path), 0)
        for depth, folder in enumerate(folders):
            at = "/".join(folders[: depth + 1])
            if folder == name or at == name.rstrip("/"):
                found[at] = found.get(at, 0) + 1
    return [f"{short(at)}/ {count} file{'s' * (count > 1)}" if count else at for at, count in sorted(found.items())]
