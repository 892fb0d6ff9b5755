"""Which definition a word means, where two files of definitions have it: a file of a crate means what it imports under that word."""

import re

from .clauses import imports
from .definitions import definition_of
from .edits import edit_at

FIELD = re.compile(r"  (pub )?\S+ : ")
COMMENTS = {".rt": "//", ".antt": "--", ".edit": "# ", ".edits": "# "}
OF_A_CRATE = re.compile(r"crates/\w+/((src|specs|proofs|must-fail)/|must-fail-more\.edits$)")


class Meaning:
    """A definition of a file of specs/, given as File.name. It knows no other names of the thing."""

    def __init__(self, owner, name, texts):
        self.owner, self.name, self.texts = owner, name, texts
        self.known, self.crates, self.is_field = {}, set(), False
        for path, text in texts.items():
            place = re.fullmatch(rf"crates/(\w+)/specs/{re.escape(owner)}\.antt", path)
            lines = [line for line in text.split("\n") if definition_of(path, [name]).search(line)] if place else ()
            if lines:
                self.crates.add(place[1])
                self.is_field |= bool(FIELD.match(lines[0]))
        self.word = re.compile(rf"(?:(?<![\w'])([\w']+)(\.|::)|([.:]))?(?<![\w'-]){re.escape(name)}(?![\w'-])")
        self.others = {
            path.rsplit("/", 1)[1][:-5] for path in texts if re.fullmatch(r"crates/\w+/specs/\w+\.antt", path)
        } - {owner}

    def __bool__(self):
        """Whether there is such a definition."""
        return bool(self.crates)

    def is_in(self, path, number, line):
        """Whether a line that has the word means the definition: True, False, or None if the text doesn't tell."""
        answers = [self.is_meant(path, number, line, found) for found in self.word.finditer(line)]
        return True if True in answers else None if None in answers else False

    def is_ours(self, key):
        return key[0] in self.crates and key[1:] == (self.owner, self.name)

    def is_meant(self, path, number, line, found):
        first, mark, _ = found.groups()
        if first == self.owner and mark == ".":
            return True
        if first in self.others and mark == ".":
            return False
        if OF_A_CRATE.match(path):
            return self.is_meant_in_crate(path, number, line, found)
        page = re.fullmatch(r"docs/reference/(\w+)\.md", path)
        if page:
            return not first and page[1] in self.crates
        # another language: what it defines itself is another thing, and a document defines nothing
        return False if self.defines(path) else None

    def is_meant_in_crate(self, path, number, line, found):
        first, mark, behind = found.groups()
        names, files = self.imported(path, number)
        comment = COMMENTS.get(path[path.rindex(".") :] if "." in path else "", "//")
        is_comment = -1 < line.find(comment) < found.start()
        if first and mark == ".":
            told = files.get(first) and self.is_ours((*files[first], self.name))
            return told if told is not None else self.unsaid(path)
        if mark or behind:
            return self.unsaid(path)
        use = re.match(r"\s*(?:pub |ghost )*use Rattle\.(\w+)\.specs\.(\w+)\b", line)
        if use:
            return self.is_ours((use[1], use[2], self.name))
        if self.name in names:
            return self.is_ours(names[self.name])
        return None if is_comment else self.unsaid(path)

    def unsaid(self, path):
        """Where nothing says what a word of a crate is: any field may be meant, and what is in the file of definitions itself."""
        return True if self.is_own(path) else None if self.is_field else False

    def is_own(self, path):
        return any(path == f"crates/{crate}/specs/{self.owner}.antt" for crate in self.crates)

    def imported(self, path, number):
        """What the words of a file mean; of a line of an edit, those of the files that the edit changes."""
        edit = edit_at(path, self.texts[path], number)
        key = (path, edit and edit.name)
        if key not in self.known:
            own = re.fullmatch(r"crates/\w+/specs/(\w+)\.antt", path)
            texts = [self.texts.get(name, "") for name in edit.sources] if edit else [self.texts[path]]
            self.known[key] = imports("\n".join(texts), path.split("/")[1], own and own[1])
        return self.known[key]

    def defines(self, path):
        pattern = definition_of(path, [self.name])
        return bool(pattern) and any(map(pattern.search, self.texts[path].split("\n")))
