#!/usr/bin/env python3
"""A model of the program in Python: evidence/model.py < TRACE > ANSWERS

It was written from the rules of the hierarchy and the formats (docs/FORMATS.md) alone and shares no code with the program. It
keeps two maps, one from paths to attributes and one from processes to paths, and undoes a command by the entries that the
command changed. evidence/sizes, bindings/models and the tests in Python with random commands take expected
answers from it.

A path is a tuple of names; the root is ().
"""
import sys

INPUT_MAX, LINE_MAX = 16_777_216, 8_192
NAMES_MAX, NAME_MAX, PATH_MAX = 32, 255, 4_095
GROUPS_MAX = 1_024
PID_MAX = 4_194_303
PIDS_LIMIT_MAX, HIERARCHY_LIMIT_MAX = 4_194_304, 2_147_483_647
ROOT = ()

# Each file: whether the root has it, whether it is read, whether it is written.
FILES = {
    "cgroup.procs": (True, True, True),
    "cgroup.events": (False, True, False),
    "cgroup.stat": (True, True, False),
    "cgroup.max.descendants": (True, True, True),
    "cgroup.max.depth": (True, True, True),
    "cgroup.kill": (False, False, True),
    "pids.max": (False, True, True),
    "pids.current": (False, True, False),
    "pids.peak": (False, True, False),
    "pids.events": (False, True, False),
    "pids.events.local": (False, True, False),
}
# How many words a command has.
WORDS = {b"mkdir": 2, b"rmdir": 2, b"fork": 3, b"exit": 2, b"write": 4, b"cat": 3, b"where": 2, b"undo": 1}
NEW_GROUP = {
    "pids.max": None,
    "cgroup.max.descendants": None,
    "cgroup.max.depth": None,
    "local": 0,
    "total": 0,
    "peak": 0,
}


class Fault(Exception):
    """A word of a line that means nothing."""


def read_path(text):
    if text == b"/":
        return ROOT
    names = text[1:].split(b"/")
    is_path = text[:1] == b"/" and len(text) <= PATH_MAX and len(names) <= NAMES_MAX
    if not is_path or not all(is_name(name) for name in names):
        raise Fault("path")
    return tuple(names)


def is_name(name):
    is_plain = 1 <= len(name) <= NAME_MAX and all(0x21 <= byte <= 0x7E for byte in name)
    return is_plain and name not in (b".", b"..") and not name.startswith((b"cgroup.", b"pids."))


def path_text(path):
    return b"/" + b"/".join(path)


def read_number(text, least, most):
    if (
        not text.isdigit()
        or (text[:1] == b"0" and len(text) > 1)
        or not least <= int(text[:20]) <= most
        or len(text) > 10
    ):
        raise Fault("value")
    return int(text)


def read_limit(name, text):
    """The limit, or None for no limit."""
    if text == b"max":
        return None
    if name == "pids.max":
        return read_number(text, 0, PIDS_LIMIT_MAX)
    limit = read_number(text, 0, HIERARCHY_LIMIT_MAX)
    return None if limit == HIERARCHY_LIMIT_MAX else limit


def upward(path):
    """The group and those above it, the root last."""
    return [path[:n] for n in range(len(path), -1, -1)]


class Refused(Exception):
    """A refusal, as the words of its reply."""


class Model:
    def __init__(self):
        self.groups = {ROOT: dict(NEW_GROUP)}
        self.home = {1: ROOT}
        self.current = {ROOT: 1}  # the processes in a group and below it
        self.below = {ROOT: 0}  # the groups below a group
        self.own = {ROOT: 1}  # the processes of the group itself
        self.changed = []  # what undoes the command that runs now, in the order of its changes
        self.journal = []  # of each recorded command, newest last, its text and `changed`

    # ---- changes of the two maps, each with what undoes it

    def set_group(self, path, attributes):
        old = self.groups.get(path)
        self.changed.append((self.set_group, path, old))
        if attributes is None:
            del self.groups[path]
        else:
            self.groups[path] = attributes
        more = (attributes is not None) - (old is not None)
        for group in upward(path)[1:] if more else ():
            self.below[group] += more
        if more > 0:
            self.current[path] = self.below[path] = self.own[path] = 0

    def set_home(self, pid, path):
        old = self.home.pop(pid, None)
        self.changed.append((self.set_home, pid, old))
        for home, more in ((old, -1), (path, 1)):
            if home is not None:
                self.own[home] += more
                for group in upward(home):
                    self.current[group] += more
        if path is not None:
            self.home[pid] = path

    def set_attribute(self, path, **values):
        self.set_group(path, {**self.groups[path], **values})

    def enter(self, pid, path):
        self.set_home(pid, path)
        for group in upward(path)[:-1]:
            if self.current[group] > self.groups[group]["peak"]:
                self.set_attribute(group, peak=self.current[group])

    # ---- tests

    def need_group(self, path):
        if path not in self.groups:
            raise Refused(b"nogroup " + path_text(path))

    def need_process(self, pid):
        if pid not in self.home:
            raise Refused(b"noprocess %d" % pid)

    # ---- commands

    def mkdir(self, path):
        if path in self.groups:
            raise Refused(b"exists")
        self.need_group(path[:-1])
        for depth, group in enumerate(upward(path[:-1])):
            limits = self.groups[group]
            for limit, reached in (("descendants", self.below[group]), ("depth", depth)):
                most = limits["cgroup.max." + limit]
                if most is not None and reached >= most:
                    raise Refused(limit.encode() + b" " + path_text(group))
        if len(self.groups) > GROUPS_MAX:
            raise Refused(b"noslot")
        self.set_group(path, dict(NEW_GROUP))

    def rmdir(self, path):
        if path == ROOT:
            raise Refused(b"rootfixed")
        self.need_group(path)
        if self.below[path]:
            raise Refused(b"haschildren")
        if self.own[path]:
            raise Refused(b"hasprocesses")
        self.set_group(path, None)

    def fork(self, parent, child):
        self.need_process(parent)
        if child in self.home:
            raise Refused(b"pidinuse %d" % child)
        home = self.home[parent]
        for group in upward(home)[:-1]:
            most = self.groups[group]["pids.max"]
            if most is not None and self.current[group] + 1 > most:
                self.set_attribute(group, local=self.groups[group]["local"] + 1)
                for above in upward(group)[:-1]:
                    self.set_attribute(above, total=self.groups[above]["total"] + 1)
                raise Refused(b"pidsmax " + path_text(group))
        self.enter(child, home)

    def exit(self, pid):
        self.need_process(pid)
        self.set_home(pid, None)

    def write(self, path, name, value):
        if path == ROOT and not FILES[name][0]:
            raise Refused(b"nofile")
        self.need_group(path)
        if name == "cgroup.procs":
            self.need_process(value)
            self.enter(value, path)
        elif name == "cgroup.kill":
            for pid in [pid for pid, home in self.home.items() if home[: len(path)] == path]:
                self.set_home(pid, None)
        else:
            self.set_attribute(path, **{name: value})

    def cat(self, path, name):
        if not FILES[name][1]:
            raise Refused(b"direction")
        self.need_group(path)
        if path == ROOT and not FILES[name][0]:
            raise Refused(b"nofile")
        attributes = self.groups[path]
        if name == "cgroup.procs":
            return [b"%d" % pid for pid in sorted(pid for pid, home in self.home.items() if home == path)]
        if name == "cgroup.events":
            return [b"populated %d" % (self.current[path] > 0), b"frozen 0"]
        if name == "cgroup.stat":
            return [b"nr_descendants %d" % self.below[path], b"nr_dying_descendants 0"]
        if name in attributes:
            limit = attributes[name]
            return [b"max" if limit is None else b"%d" % limit]
        if name in ("pids.current", "pids.peak"):
            return [b"%d" % (self.current[path] if name == "pids.current" else attributes["peak"])]
        return [b"max %d" % attributes["local" if name == "pids.events.local" else "total"]]

    def where(self, pid):
        self.need_process(pid)
        return [b"0::" + path_text(self.home[pid])]

    def undo(self):
        if not self.journal:
            raise Refused(b"nothing")
        text, changes = self.journal.pop()
        for change, key, old in reversed(changes):
            change(key, old)
        return [text]

    def answer(self, words):
        """The lines of the answer without its number."""
        try:
            call, arguments, text = read_command(words)
        except Fault as fault:
            return [b"refused " + str(fault).encode()]
        self.changed = []
        try:
            shown = getattr(self, call)(*arguments)
        except Refused as refusal:
            lines = [b"refused " + refusal.args[0]]
        else:
            lines = [b"ok"] + [b"| " + line for line in shown or []]
        if call != "undo" and self.changed or call in ("write", "exit") and lines == [b"ok"]:
            self.journal.append((text, self.changed))
        return lines


def read_command(words):
    """The name of the call, its arguments, and the text of the command."""
    name = words[0]
    if WORDS.get(name) != len(words):
        raise Fault("syntax")
    call = name.decode()
    if call in ("exit", "where"):
        arguments = (read_number(words[1], 1, PID_MAX),)
    elif call == "fork":
        arguments = (read_number(words[1], 1, PID_MAX), read_number(words[2], 1, PID_MAX))
    elif call == "undo":
        arguments = ()
    elif call in ("mkdir", "rmdir"):
        arguments = (read_path(words[1]),)
    else:
        arguments = read_access(words)
    text = b" ".join(words)
    if call == "write" and arguments[2] is None:
        text = b" ".join(words[:3]) + b" max"
    return call, arguments, text


def read_access(words):
    path, name = read_path(words[1]), words[2].decode("latin1")
    if name not in FILES:
        raise Fault("file")
    if not FILES[name][2 if words[0] == b"write" else 1]:
        raise Fault("direction")
    if words[0] == b"cat":
        return path, name
    if name == "cgroup.procs":
        return path, name, read_number(words[3], 1, PID_MAX)
    if name == "cgroup.kill":
        return path, name, read_number(words[3], 1, 1)
    return path, name, read_limit(name, words[3])


def answers(trace):
    """The answer to each numbered line of a trace, as bytes."""
    model = Model()
    found = []
    for line in trace.split(b"\n"):
        words = [word for word in line.replace(b"\t", b" ").replace(b"\r", b" ").split(b" ") if word]
        if not words or words[0].startswith(b"#"):
            continue
        lines = [b"refused syntax"] if len(line) > LINE_MAX else model.answer(words)
        found.append(b"%d " % (len(found) + 1) + b"\n".join(lines) + b"\n")
    return found


if __name__ == "__main__":
    given = sys.stdin.buffer.read(INPUT_MAX + 1)
    if len(given) > INPUT_MAX:
        sys.exit("model: input too long")
    sys.stdout.buffer.writelines(answers(given))
