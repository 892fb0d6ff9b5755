"""A long walk of operations, chosen at random but always the same. After each, and after each undo of it: whoever polls or watches a
file is told if its text has changed, and only then; and an undo brings back all texts that were there before."""
import os
import random
import select
import struct
import sys

sys.path.insert(0, os.path.dirname(os.path.dirname(os.path.realpath(__file__))))
from support import Mount, error_of, finish, libc, read, same, step, until, write

IN_MODIFY, WATCHED = 0x2, 0x40E  # and other changes of the file; not opens and reads, which are of this test
NOTIFIED = ("cgroup.events", "pids.events", "pids.events.local")
GROUPS = ("a", "a/b", "a/b/c", "d")
PIDS = range(2, 8)


class Watched:
    """A file that stays: its text, an open file that is polled, and a second one."""

    def __init__(self, path):
        self.path = path
        self.fds = [os.open(path, os.O_RDONLY) for _ in range(2)]
        self.polls = [select.poll() for _ in self.fds]
        for poll, fd in zip(self.polls, self.fds):
            poll.register(fd, select.POLLPRI)
        self.text = self.take()

    def take(self):
        texts = {os.pread(fd, 100, 0) for fd in self.fds}
        assert len(texts) == 1, texts
        return texts.pop()

    def told(self):
        """Whether each open file was told of a change; the text of now; and whether it is another one."""
        told = [bool(poll.poll(0)) for poll in self.polls]
        before, self.text = self.text, self.take()
        return told, self.text != before


class Inotify:
    """What inotify told. The mark is a file that is changed last: what the mount tells comes in the order of the changes."""

    def __init__(self, m, paths):
        self.m, self.fd = m, libc.inotify_init1(os.O_NONBLOCK)
        self.mark = libc.inotify_add_watch(self.fd, m.path("mark/cgroup.events").encode(), WATCHED)
        self.names = {libc.inotify_add_watch(self.fd, p.encode(), WATCHED): p for p in paths}
        self.flips = False

    def take(self):
        told, marked = set(), []
        self.flips = not self.flips
        write(self.m.path("mark/cgroup.freeze"), b"%d" % self.flips)

        def came():
            try:
                data = os.read(self.fd, 65536)
            except BlockingIOError:
                return bool(marked)
            while data:
                number, mask, _, size = struct.unpack("iIII", data[:16])
                if number == self.mark:
                    marked.append(mask)
                else:
                    told.add((self.names[number], mask & ~IN_MODIFY))
                data = data[16 + size :]
            return bool(marked)

        return told if until(came) else None


def commands(dice, m):
    """The next operation."""
    group, other, pid, child = dice.choice(GROUPS), dice.choice(GROUPS + (".",)), dice.choice(PIDS), dice.choice(PIDS)
    return dice.choice(
        (
            *[("fork", write, m.control("fork"), b"1 %d" % child)] * 4,
            *[("fork", write, m.control("fork"), b"%d %d" % (pid, child))] * 4,
            ("exit", write, m.control("exit"), b"%d" % pid),
            ("move", write, m.path(other, "cgroup.procs"), b"%d" % pid),
            *[("move", write, m.path(group, "cgroup.procs"), b"%d" % pid)] * 4,
            ("kill", write, m.path(group, "cgroup.kill"), b"1"),
            *[("limit", write, m.path(group, "pids.max"), dice.choice((b"0", b"1", b"2", b"max")))] * 2,
            ("depth", write, m.path(group, "cgroup.max.depth"), dice.choice((b"0", b"1", b"max"))),
            *[("mkdir", os.mkdir, m.path("d", "t"))] * 2,
            ("rmdir", os.rmdir, m.path("d", "t")),
            *[("into", write, m.path("d", "t", "cgroup.procs"), b"%d" % pid)] * 2,
            *[("undo", write, m.control("undo"), b"%d" % dice.randrange(1, 4))] * 2,
        )
    )


def texts(m):
    """All texts of all groups, without the freezer's, which no undo knows."""
    found = {}
    for folder, below, files in os.walk(m.at):
        below[:] = [b for b in below if b not in (".makhloeum", "mark")]
        for name in files:
            if name not in ("cgroup.kill", "cgroup.freeze"):
                text = read(os.path.join(folder, name))
                found[os.path.relpath(os.path.join(folder, name), m.at)] = text.partition(b"\nfrozen")[0]
    return found


def walk(seed, rounds):
    m = Mount("--extra")
    os.makedirs(m.path("a/b/c"))
    os.mkdir(m.path("d"))
    os.mkdir(m.path("mark"))
    dice = random.Random(seed)
    files = [Watched(m.path(g, name)) for g in GROUPS for name in NOTIFIED]
    inotify = Inotify(m, [f.path for f in files])
    inotify.take()
    first = int(read(m.control("depth")))
    history = {first: texts(m)}
    wrong, done = [], {}

    def look(what, at_once=True):
        """`at_once`: it was one operation. Of several the last may take back what the first has changed."""
        changed = set()
        for f in files:
            told, is_other = f.told()
            if told != [is_other] * 2 and (is_other or at_once or told[0] != told[1]):
                wrong.append(("poll", what, f.path, told, is_other))
            if is_other:
                changed.add((f.path, 0))
        seen = inotify.take()
        if seen != changed and (at_once or seen is None or not changed <= seen):
            wrong.append(("inotify", what, seen, changed))

    for _ in range(rounds):
        if wrong:  # a mark that does not come takes long
            break
        what, call, *args = commands(dice, m)
        depth = int(read(m.control("depth")))
        if what == "undo" and depth - int(args[1]) < first:
            continue
        error = error_of(call, *args)
        done[what, error] = done.get((what, error), 0) + 1
        look((what, args, error), what != "undo" or args[1] == b"1")
        now = int(read(m.control("depth")))
        if what == "undo":
            got = texts(m)
            if got != history[now]:
                wrong.append(("undo", args, {k: (got.get(k), v) for k, v in history[now].items() if got.get(k) != v}))
        elif now != depth:
            history[now] = texts(m)
        if dice.randrange(6) == 0:
            write(m.path(dice.choice(GROUPS), "cgroup.freeze"), b"%d" % dice.randrange(2))
            look("freezer")
    same("after each of %d operations who waits is told, and undos bring back all texts" % rounds, wrong[:3], [])
    write(m.control("undo"), b"%d" % (int(read(m.control("depth"))) - first))
    same("all undone", texts(m), history[first])
    for f in files:
        for fd in f.fds:
            os.close(fd)
    os.close(inotify.fd)
    m.end()
    return done


def joined():
    """Operations of several commands, more than there is room for at first, among operations of one."""
    m = Mount("--keep", "memory")
    write(m.path("cgroup.subtree_control"), b"+pids")
    for name in "xyz":
        os.mkdir(m.path(name))
    marks = []
    for i in range(150):
        marks.append((int(read(m.control("depth"))), [read(m.path(g, "pids.max")) for g in "xyz"]))
        for k, g in enumerate("xyz"):
            write(m.path(g, "pids.max"), b"%d" % (i + k + 1))
        before = int(read(m.control("depth")))
        write(m.path("cgroup.subtree_control"), b"-pids")
        if int(read(m.control("depth"))) != before + 1 or read(m.control("newest")).count(b"\n") != 3:
            marks.append(("not one", i))
        write(m.path("cgroup.subtree_control"), b"+pids")
    wrong = [mark for mark in marks if mark[0] == "not one"]
    for depth, limits in reversed([mark for mark in marks if mark[0] != "not one"]):
        write(m.control("undo"), b"%d" % (int(read(m.control("depth"))) - depth))
        got = int(read(m.control("depth"))), [read(m.path(g, "pids.max")) for g in "xyz"]
        if got != (depth, limits):
            wrong.append((got, (depth, limits)))
    same("150 operations of three commands, and 450 of one, are undone", wrong[:3], [])
    m.end()


def crowd():
    """Very many files are changed at once, with long names: each watch and each poll is told, also while groups are removed."""
    m = Mount("--extra")
    os.mkdir(m.path("mark"))
    os.mkdir(m.path("top"))
    names = ["top/%03d%s" % (i, "n" * 200) for i in range(150)]
    for i, name in enumerate(names):
        os.mkdir(m.path(name))
        write(m.control("fork"), b"1 %d" % (i + 100))
    files = [Watched(m.path(name, "cgroup.events")) for name in (*names, "top")]
    inotify = Inotify(m, [f.path for f in files])
    inotify.take()
    every = {(f.path, 0) for f in files}
    for i, name in enumerate(names):
        write(m.path(name, "cgroup.procs"), b"%d" % (i + 100))
    told = inotify.take() == every
    step("each is told of a process", told)
    same("so is who polls", {f.path for f in files if f.told() != ([True] * 2, True)}, set())
    for what, call in (
        ("a kill", lambda: write(m.path("top/cgroup.kill"), b"1")),
        ("its undo", lambda: write(m.control("undo"), b"1")),
        ("a freeze", lambda: write(m.path("top/cgroup.freeze"), b"1")),
        ("a thaw", lambda: write(m.path("top/cgroup.freeze"), b"0")),
        ("another kill", lambda: write(m.path("top/cgroup.kill"), b"1")),
    ):
        if not told:  # what does not come takes long
            break
        call()
        same("%s: who polls" % what, {f.path for f in files if f.told() != ([True] * 2, True)}, set())
        told = inotify.take() == every
        step("%s: who watches" % what, told)
    for value in (b"1", b"0") * 20:
        write(m.path("top/cgroup.freeze"), value)
    for name in names[::2]:
        os.rmdir(m.path(name))
    for f in files:
        for fd in f.fds:
            os.close(fd)
    step("the mount answers", inotify.fd >= 0 and read(m.path("top/cgroup.stat")).startswith(b"nr_descendants 75\n"))
    os.close(inotify.fd)
    m.end()


done = [walk(seed, 200) for seed in (1, 2)]
kinds = {kind for each in done for kind, error in each if error == "ok"}
step("each kind of operation was done", len(kinds) == 10, sorted(kinds))
refused = sum(each.get(("fork", "EAGAIN"), 0) for each in done)
step("refused forks were among them", refused > 5, refused)
joined()
crowd()
finish()
