"""Whose method a call in Python, Go or the page calls: the class of its object, as far as the text tells it.

The text tells it of `self` and `this`, of a class's own name, and of a name that is last bound to a new object, to the result of a
function with a declared type, or to a parameter with one.
"""

import functools
import re

from .definitions import ending, methods_of

FUNCTION = re.compile(r"^\s*(?:async )?def \w+|^func |^\s*(?:export )?(?:async )?function\b", re.M)
BINDINGS = (
    r"\bNAME(?:, \w+)? :?= (?:await |new )?[&*]?(?:\w+\.)*(\w+)[({]",  # x = Class(..), x, err := Open(..)
    r"\b(?:with|async with) (?:.*, )?(?:\w+\.)*(\w+)\([^\n]*\) as NAME\b",
    r"\bNAME(?:: | )\*?[\"']?(?:\w+\.)*([A-Z]\w*)[\"',)= \]]",  # x: Class, and Go's x *Class
)


class Objects:
    def __init__(self, texts):
        self.texts = texts

    @functools.cached_property
    def declared(self):
        """The types in the results of functions, for each language."""
        found = {}
        for path, text in self.texts.items():
            if ending(path) == ".py":
                declared = re.findall(r"\bdef (\w+)\([^()]*(?:\([^()]*\)[^()]*)*\) -> (.+):$", text, re.M)
            elif ending(path) == ".go":
                declared = re.findall(r"^func (?:\([^()]*\) )?(\w+)\([^()]*\) (.*)\{$", text, re.M)
            else:
                continue
            for name, result in declared:
                found.setdefault((ending(path), name), set()).update(re.findall(r"\b[A-Z]\w*", result))
        return found

    @functools.cached_property
    def classes(self):
        """The methods of each class."""
        found = {}
        for path, text in self.texts.items():
            if ending(path) in (".py", ".go", ".mjs"):
                for owner, line in zip(methods_of(text)[1:], text.split("\n")):
                    name = re.match(r"\s*(?:(?:async )?def |func \([^)]*\) |(?:async |static )*)(\w+)\(", line)
                    if owner and name:
                        found.setdefault(owner, set()).add(name[1])
        return found

    @functools.cached_property
    def bases(self):
        """The classes that each class of Python inherits from, in their order."""
        found = {}
        for path, text in self.texts.items():
            if ending(path) == ".py":
                for name, bases in re.findall(r"^\s*class (\w+)\(([\w., ]+)\):", text, re.M):
                    found.setdefault(name, []).extend(re.findall(r"(\w+)(?:,|$)", bases))
        return found

    def definer(self, owner, name, seen=()):
        """The class that defines the method of an owner: itself, or the first of those that it inherits from; None if none does."""
        if name in self.classes.get(owner, ()):
            return owner
        above = (self.definer(base, name, (*seen, owner)) for base in self.bases.get(owner, ()) if base not in seen)
        return next(filter(None, above), None)

    def is_owner(self, owner, name, found):
        """Whether the owner is one of these classes, or of the results of these functions, or one of them has the method from the owner;
        None if the text doesn't tell."""
        definers = {self.definer(one, name) for one in found}
        if owner in found or owner in definers:
            return True
        return False if definers - {None} else None

    def calls(self, path, name, owner):
        """For each line of a file that calls a method of that name, whether it is the owner's: True, False or None."""
        text, answers = self.texts[path], {}
        inside = methods_of(text)
        for call in re.finditer(rf"([\w.]*\w|[)\]])\.{re.escape(name)}\(", text):
            line = text.count("\n", 0, call.start()) + 1
            begin = max((at.start() for at in FUNCTION.finditer(text, 0, call.start())), default=0)
            of = call[1]
            if of in ("self", "this"):
                found = [inside[line]]
            elif of[-1] in ")]" or "." in of:
                new = re.search(r"\b(\w+)\([^()]*\)$", text[: call.start(1) + 1])
                found = self.made_by(ending(path), new[1]) if new else [of.split(".")[-1]]
            else:
                found = [of, *self.bound(ending(path), of, text[begin : call.start()])]
            answer = self.is_owner(owner, name, found)
            answers[line] = max(answers.get(line, False), answer, key=[False, None, True].index)
        return answers

    def made_by(self, language, name):
        return [name, *self.declared.get((language, name), ())]

    def bound(self, language, name, before):
        """What the name is last bound to in the function."""
        found = [
            (one.start(), one[1]) for pattern in BINDINGS for one in re.finditer(pattern.replace("NAME", name), before)
        ]
        return self.made_by(language, max(found)[1]) if found else []
