"""evidence/model.py with texts in place of bytes: a line shows a text or raises No, as a line of a Hierarchy does."""

from __future__ import annotations

import os
import sys

HERE = os.path.dirname(os.path.abspath(__file__))
sys.path.append(os.path.join(HERE, "..", "..", "..", "evidence"))
import model  # noqa: E402

# The files of limits with the greatest number of each, and the files that the root has.
LIMITS = {name: model.HIERARCHY_LIMIT_MAX for name in ("cgroup.max.depth", "cgroup.max.descendants")}
LIMITS["pids.max"] = model.PIDS_LIMIT_MAX
ON_ROOT = [name for name, (on_root, _, _) in model.FILES.items() if on_root]


class No(Exception):
    """A refusal, with the words of its reply."""


def path_of(text):
    return tuple(text[1:].encode().split(b"/")) if text != "/" else model.ROOT


def text_of(path):
    return model.path_text(path).decode()


def shown(lines):
    return "".join(line.decode() + "\n" for line in lines)


class Model:
    def __init__(self):
        self.state = model.Model()

    def line(self, line):
        """The text that the line shows, or No."""
        first, *text = self.state.answer(line.encode().split())
        if first != b"ok":
            raise No(first.decode().partition(" ")[2])
        return shown(line[2:] for line in text)

    def cat(self, path, file):
        return shown(self.state.cat(path_of(path), file))

    def current(self, path):
        return self.state.current[path_of(path)]

    def listed(self):
        """All groups, each before those below it, child by child in the order of the names' bytes."""
        return list(map(text_of, sorted(self.state.groups)))

    @property
    def groups(self):
        return {text_of(path): attributes for path, attributes in self.state.groups.items()}

    @property
    def home(self):
        return {pid: text_of(path) for pid, path in self.state.home.items()}

    @property
    def journal(self):
        return self.state.journal
