"""What comments name exists: what an edit breaks, what cases show, files of definitions, items of a crate."""

import re

from .definitions import definition_of
from .edits import edits_of

COMMENT = re.compile(r"^\s*(//[/!]?|--) ?(.*)$")
CODE = re.compile(r"`([^`]+)`")
# A name with an underscore: a crate, a function, a file.
SNAKE = re.compile(r"(?<![\w'.-])[a-z][a-z0-9]*(?:_[a-z0-9]+)+\b")
# Names from outside that comments compare with, or that the kit has.
ELSEWHERE = {"LongAdder"}


def is_there(name, texts):
    """Whether there is that definition (File.name), method (Type::name) or function."""
    if "::" in name or "." not in name:
        item = re.escape(name.split("::")[-1])
        return any(
            path.endswith(".rt") and re.search(rf"\bfn {item}\b|\bghost {item} =", text) for path, text in texts.items()
        )
    file, item = name.split(".")
    pattern = definition_of("crates/x/specs/x.antt", [item])
    return any(
        path.endswith(f"/specs/{file}.antt") and any(map(pattern.search, text.split("\n")))
        for path, text in texts.items()
    )


def faults_of_subjects(texts):
    """Edits without a line `# breaks:` and case files without `# shows:`, or whose line names nothing that is there."""
    for path, text in texts.items():
        if path.endswith(".cases"):
            yield from faults_of_subject(path, "shows", text, texts)
        for edit in edits_of(path, text):
            at = path if path.endswith(".edit") else f"{path}: {edit.name}"
            yield from faults_of_subject(at, "breaks", edit.text, texts)


def faults_of_subject(at, verb, text, texts):
    said = re.findall(rf"^# {verb}: (.+)$", text, re.M)
    names = [name for line in said for name in line.split(", ")]
    if not names:
        yield f"{at}: no line `# {verb}: NAME`"
    for name in names:
        if not is_there(name, texts):
            yield f"{at}: {verb} {name}, which is not there"


def crates_with_those_below(listing):
    """Each crate of crates.txt with all that it uses."""
    uses = {}
    for line in listing.split("\n"):
        if line and not line.startswith("#"):
            head, _, names = line.partition(":")
            uses[head.split()[0]] = names.split()

    def below(crate):
        return {crate}.union(*map(below, uses.get(crate, ())))

    return {crate: below(crate) for crate in uses}


def split(text):
    """The comments with the numbers of their lines, and the rest."""
    comments, rest = [], []
    for number, line in enumerate(text.split("\n"), 1):
        comment = COMMENT.match(line)
        if comment:
            comments.append((number, comment[2]))
        else:
            rest.append(line)
    return comments, "\n".join(rest)


def faults_of_comments(texts, listing):
    """Names in comments of crates: a file of specs/, proofs/ or src/, there or in a crate below; a word with a capital in code
    type; a name with an underscore, which may also be a crate or a file of another kind."""
    parts = {path: split(text) for path, text in texts.items() if re.match(r"crates/.*\.(rt|antt)$", path)}
    words = {path.rsplit("/", 1)[1].split(".")[0] for path in texts} | ELSEWHERE
    for _, rest in parts.values():
        words.update(re.findall(r"\w+", rest))
    below = crates_with_those_below(listing)
    words.update(below)
    for path, (comments, _) in parts.items():
        for number, comment in comments:
            found = faults_in(comment, below.get(path.split("/")[1], ()), words, texts)
            yield from (f"{path}:{number}: {fault}" for fault in found)
        if path.endswith("/lib.rt"):
            yield from faults_of_head(path, comments, texts)


def faults_in(comment, below, words, texts):
    for token in CODE.findall(comment):
        file = re.fullmatch(r"(?:(\w+)/)?((?:specs|proofs|src)/[\w/+-]+?)(\.antt|\.rt)?", token)
        if file:
            places = [f"crates/{crate}/{file[2]}" for crate in ([file[1]] if file[1] else below)]
            if not any(path.startswith((at + ".", at + "/")) for path in texts for at in places):
                yield f"there is no {token}"
        for word in re.findall(r"(?<![\w'.])[A-Z][a-z]\w*", "" if file else token):
            if word not in words:
                yield f"{word} of `{token}` is in no crate"
    for word in SNAKE.findall(comment):
        if word not in words:
            yield f"{word} is in no crate"


def faults_of_head(path, comments, texts):
    """Behind the first mention of `specs/`, a word with a capital is a file there if it begins an item, or if it is alone in
    parentheses in the same paragraph."""
    behind = "\n".join(comment for _, comment in comments).partition("`specs/`")[2]
    files = {name.rsplit("/", 1)[1][:-5] for name in texts if name.startswith(path.replace("src/lib.rt", "specs/"))}
    names = r"`[A-Z]\w*`(?:,? (?:and )?`[A-Z]\w*`)*"
    listed = re.findall(rf"^- ({names}):", behind, re.M)
    listed += re.findall(rf"\(({names})\)", behind.partition("\n\n")[0])
    for name in CODE.findall(" ".join(listed)):
        if name not in files:
            yield f"{path}: there is no specs/{name}.antt"
