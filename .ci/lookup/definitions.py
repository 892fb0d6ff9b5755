"""Whether a line defines a name: what a definition looks like in each language, and whose method a function is."""

import functools
import re

NAME = r"(\w+)"
FUNCTION = re.compile(r"^\s*(?:pub(?:\([a-z ]+\))? )?(?:const |unsafe |extern \"C\" )*fn " + NAME)
CLASS = re.compile(r"^class (\w+)|^type (\w+) ")
GO_METHOD = re.compile(r"^func \((?:\w+ )?\*?(\w+)\) (\w+)")

RUST = (
    rf"{FUNCTION.pattern.removesuffix(NAME)}(NAME)\b",
    r"^\s*(pub(\(\w+\))? )?(struct|enum|trait|type|const|mod|static) (NAME)\b",
    r"^    (NAME)(\(.*\)| \{)?,?$",
)
PYTHON = (r"^\s*(class|(async )?def) (NAME)\b", r"^(NAME)(: [^=]+)? = ")
SHELL = (r"^(NAME)\(\)", r"^(NAME)=")
C = (
    r"^\s*#\s*define (NAME)\b",
    r"^(?!typedef|return)[A-Za-z_][\w *]*[ *](NAME)\(",
    r"^(typedef )?(static )?(const )?(struct|union|enum) (NAME) \{",
    r"^\} (NAME);",
    r"^((static|extern|const|_Thread_local) )+[\w *]*[ *](NAME)( =|\[|;)",
    r"^\s*(NAME) = \d",
    r"\benum\b.*[{,] (NAME)( =|,| \})",
)
GO = (
    r"^func (\([^)]*\) )?(NAME)\b",
    r"^\s*(type|const|var) (NAME)\b",
    r"^\s*(NAME)\s.*= C\.",
    r"^\t(NAME)( \w+)? += ",
)
PAGE = (
    r"^\s*(export )?(default )?(async )?(function\*?|class) (NAME)\b",
    r"^(export )?(const|let) (.*, )?(NAME) = ",
    r"^  (async |static )*(NAME)\(.*\) \{",
)
LANGUAGES = {".rt": RUST, ".rs": RUST, ".py": PYTHON, ".sh": SHELL, ".c": C, ".h": C, ".go": GO, ".mjs": PAGE}


def ending(path):
    """The last part of a file's name from its last point; nothing for a script."""
    name = path.rsplit("/", 1)[-1]
    return name[name.rindex(".") :] if "." in name[1:] else ""


def definition_of(path, names):
    """What a line of that file matches if it defines one of the names; None if the file can't define one."""
    either = "|".join(map(re.escape, names))
    if path.endswith((".mutants", ".edits")):
        return re.compile(rf"^== ({either})\s*$")
    if path.endswith(".antt") and "/specs/" in path:
        return re.compile(rf"^\s*((abbrev|unfoldable|pub|record|data|rel) )+({either})\b|^  (pub )?({either}) : ")
    of = ending(path)
    patterns = [*LANGUAGES.get(of, ())] if of else [*PYTHON, *SHELL]
    if not patterns:
        return None
    return re.compile("|".join(patterns).replace("(NAME)", f"({either})"))


def has_class(name, texts):
    """Whether Python, Go or the page has a class or a type of that name."""
    return any(
        found and name in found.groups()
        for path, text in texts.items()
        if path.endswith((".py", ".go", ".mjs")) and name in text
        for found in map(CLASS.match, text.replace("export class", "class").split("\n"))
    )


@functools.lru_cache(maxsize=None)
def methods_of(text):
    """For each line of Python, Go or the page, counted from 1, the class or type whose method begins there."""
    found, owner = [None], None
    for line in text.split("\n"):
        of_go, begins = GO_METHOD.match(line), re.match(r"(?:export )?class (\w+)", line)
        if begins:
            owner = begins[1]
        elif line and not line[0].isspace() and line[0] not in ")}#":
            owner = None
        found.append(of_go[1] if of_go else owner if line[:1].isspace() else None)
    return found
