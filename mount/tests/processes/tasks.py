"""Threads are counted, as the kernel's pids controller counts them: tasks.c under `makhloeum run`, and, as the superuser, in groups
of this machine's kernel (tasks.py kernel). This file is also the program (tasks.py inside NAME)."""
import contextlib
import os
import random
import re
import resource
import shutil
import signal
import subprocess
import sys
import tempfile
import threading
from concurrent.futures import ThreadPoolExecutor

sys.path.insert(0, os.path.dirname(os.path.dirname(os.path.realpath(__file__))))
from on_kernel import left_out
from support import AT, BUILT, CGREPLAY, PATIENCE, PROGRAM
from support import error_of, finish, in_parallel, read, same, step, tracer, until, write

ME = os.path.realpath(__file__)
TASKS = os.path.join(BUILT, "tasks")


class Place:
    """A group and those below it: `pids` has the files of the pids controller, `top` the others, in a folder of the same name."""

    def __init__(self, top, pids):
        self.top, self.pids = top, pids

    def __truediv__(self, name):
        return Place(os.path.join(self.top, name), os.path.join(self.pids, name))

    def file(self, name):
        return os.path.join(self.pids if name.startswith("pids.") else self.top, name)

    def folders(self):
        return sorted({self.top, self.pids})

    def make(self):
        for at in self.folders():
            os.mkdir(at)
        return self

    def read(self, name):
        return read(self.file(name)).decode()

    def write(self, name, value):
        write(self.file(name), b"%s\n" % str(value).encode())

    def take(self, pid):
        for at in self.folders():
            write(os.path.join(at, "cgroup.procs"), b"%d\n" % pid)

    def current(self):
        return int(self.read("pids.current"))

    def procs(self):
        return sorted(map(int, self.read("cgroup.procs").split()))

    def threads(self):
        return sorted(map(int, self.read("cgroup.threads").split()))

    def refused(self):
        """How many forks its limit has refused."""
        return int(self.read("pids.events").split()[1])


top = Place(AT, AT)


class Tasks:
    """tasks.c in a group, obeying. `others` are its threads beside the first."""

    def __init__(self, group, reader="first"):
        self.process = subprocess.Popen(
            [TASKS, reader], stdin=subprocess.PIPE, stdout=subprocess.PIPE, preexec_fn=lambda: group.take(os.getpid())
        )
        self.pid = self.process.pid
        self.reader = int(self.process.stdout.readline())

    def ask(self, *words):
        """A number, or the name of an errno."""
        self.process.stdin.write(" ".join(words).encode() + b"\n")
        self.process.stdin.flush()
        said = self.process.stdout.readline().decode().strip()
        return int(said) if said.isdigit() else said

    def make(self, count):
        return [self.ask("thread") for _ in range(count)]

    def state(self):
        return open("/proc/%d/stat" % self.pid).read().rpartition(")")[2].split()[0]

    def end(self):
        self.process.kill()
        self.process.wait(PATIENCE)
        self.process.stdin.close()
        self.process.stdout.close()


def becomes(name, call, wanted):
    """What is so soon: a thread that is joined is gone a moment later."""
    until(lambda: call() == wanted)
    same(name, call(), wanted)


def finally_empty(group):
    becomes("then nobody is left", group.current, 0)


# ---------------------------------------------------------------- as in the kernel


def five():
    a = (top / "a").make()
    t = Tasks(a)
    same("a process with one thread", (a.current(), a.threads()), (1, [t.pid]))
    others = []
    for n in range(2, 6):
        others += t.make(1)
        same("with %d, as soon as pthread_create returns" % n, a.current(), n)
    same("cgroup.procs has processes", a.procs(), [t.pid])
    same("cgroup.threads has all", a.threads(), sorted([t.pid, *others]))
    step("of the group alone", top.procs() != a.procs() and t.pid not in top.threads())
    t.ask("end")
    t.ask("end")
    becomes("two threads end", a.current, 3)
    same("the others are listed", a.threads(), sorted([t.pid, *others[:2]]))
    same("the peak has all five", a.read("pids.peak"), "5\n")
    same("the group is populated", a.read("cgroup.events").splitlines()[0], "populated 1")
    t.process.stdin.close()
    t.process.wait(PATIENCE)
    becomes("the process ends with all its threads", a.current, 0)
    same("it is not listed", (a.procs(), a.threads()), ([], []))


def limited():
    a = (top / "a").make()
    b = (a / "b").make()
    t = Tasks(b)
    a.write("pids.max", 3)
    same("threads within the limit above", [type(n) for n in t.make(2)], [int, int])
    same("pthread_create beyond it", t.ask("thread"), "EAGAIN")
    same("fork beyond it", t.ask("fork"), "EAGAIN")
    same("spawn beyond it", t.ask("spawn"), "EAGAIN")
    # version 1 counts it where the fork was tried, not where the limit is
    same("each is counted", (b if b.top != b.pids else a).refused(), 3)
    if b.top == b.pids:
        same("clone3 beyond it", t.ask("into", b.top), "EAGAIN")
    same("nobody more is there", a.current(), 3)
    t.ask("end")
    becomes("a thread ends", a.current, 2)
    same("another takes its place", type(t.ask("thread")), int)
    a.write("pids.max", 1)
    same("a limit that is lowered ends nobody", a.current(), 3)
    t.end()
    finally_empty(a)


def limited_later():
    """A limit holds for the next thread, however many were made before."""
    a, b = (top / "a").make(), (top / "b").make()
    t = Tasks(a)
    t.make(2)
    a.write("pids.max", 3)
    same("a limit that is set between two threads", t.ask("thread"), "EAGAIN")
    a.write("pids.max", "max")
    t.make(2)
    b.write("pids.max", 5)
    b.take(t.pid)
    same("a move to a group that is full then", (b.current(), t.ask("thread")), (5, "EAGAIN"))
    same("nobody more is there", (a.current(), b.current()), (0, 5))
    t.end()
    finally_empty(b)


def next_to(first, group):
    """A process whose number is that of the first and a multiple of 64: a run has places for threads that are allowed in advance,
    and these two share theirs."""
    while True:
        pid = os.fork()
        if pid == 0:
            os._exit(0)
        os.waitpid(pid, 0)
        if (pid + 1 - first.pid) % 64 == 0:
            t = Tasks(group)
            if (t.pid - first.pid) % 64 == 0:
                return t
            t.end()


def sharing():
    a = (top / "a").make()
    one = Tasks(a)
    one.make(1)
    other = next_to(one, a)
    other.make(3)
    one.make(3)
    same("two processes make threads in turn", a.current(), 9)
    a.write("pids.max", 11)
    same("there is room for two more, and not for three", [type(n) for n in other.make(3)], [int, int, str])
    same("all count", a.current(), 11)
    b = (top / "b").make()
    b.take(other.pid)
    same("each moves with its own threads", (a.current(), b.current(), len(b.threads())), (5, 6, 6))
    one.end()
    other.end()
    finally_empty(a)
    finally_empty(b)


def last_place():
    """What one process may make without a question takes no place from another that asks."""
    a = (top / "a").make()
    one, other = Tasks(a), Tasks(a)
    a.write("pids.max", 5)
    same(
        "one makes a thread, another all that fit then", [type(t.ask("thread")) for t in (one, other, other)], [int] * 3
    )
    same("then none fits", (one.ask("thread"), other.ask("thread"), a.current()), ("EAGAIN", "EAGAIN", 5))
    one.end()
    other.end()
    finally_empty(a)


def leaderless():
    a = (top / "a").make()
    b = (top / "b").make()
    t = Tasks(a, "other")
    same("two threads", (a.current(), a.threads()), (2, sorted([t.pid, t.reader])))
    t.ask("leave")
    step("the first ends", until(lambda: t.state() == "Z"))
    same("it keeps its place", a.current(), 2)
    same("the process is listed", a.procs(), [t.pid])
    same("the thread is not", a.threads(), [t.reader])
    other = t.ask("thread")
    same("another thread", (a.current(), a.threads()), (3, sorted([t.reader, other])))
    same("it forks", (type(t.ask("fork")), a.current()), (int, 4))
    same("and becomes another program", t.ask("exec"), t.pid)
    becomes("that is its first thread again", a.current, 2)
    step("it is listed", t.pid in a.procs() and t.pid in a.threads())
    same("it makes threads", (type(t.ask("thread")), a.current()), (int, 3))
    b.take(t.pid)
    same("and moves", (a.current(), b.current()), (1, 2))
    a.write("cgroup.kill", 1) if a.top == a.pids else os.kill(a.procs()[0], signal.SIGKILL)
    t.end()
    finally_empty(b)


def execs():
    a = (top / "a").make()
    for reader, more in (("first", 4), ("other", 3)):
        t = Tasks(a, reader)
        t.make(more)
        same("five threads (%s)" % reader, a.current(), 5)
        same("one becomes another program", t.ask("exec"), t.pid)
        becomes("it is alone", a.current, 1)
        same("by its process's number", (a.procs(), a.threads()), ([t.pid], [t.pid]))
        made = t.make(2)
        same("it makes threads again", (a.current(), a.threads()), (3, sorted([t.pid, *made])))
        t.end()
        finally_empty(a)
    t = Tasks(a, "other")
    times = 0
    while times < 20:
        t.make(3)
        if t.ask("exec") != t.pid or not until(lambda: a.current() == 1):
            break
        times += 1
    same("an exec with four threads, again and again", (times, a.threads()), (20, [t.pid]))
    t.end()


def forks():
    a = (top / "a").make()
    t = Tasks(a, "other")
    t.make(2)
    child = t.ask("fork")
    same("a fork by a thread makes one process of one thread", a.current(), 5)
    same("it is listed", a.procs(), sorted([t.pid, child]))
    spawned = t.ask("spawn")
    becomes("so does posix_spawn", a.procs, sorted([t.pid, child, spawned]))
    same("all are counted", a.current(), 6)
    for pid in (child, spawned):
        os.kill(pid, signal.SIGKILL)
    t.end()
    finally_empty(a)


def moves():
    a, b = (top / "a").make(), (top / "b").make()
    below = (b / "below").make()
    t = Tasks(a, "other")
    others = t.make(3)
    every = sorted([t.pid, t.reader, *others])
    b.take(t.pid)
    same("a process moves with all its threads", (a.current(), b.current()), (0, 5))
    same("they are there", (b.procs(), b.threads()), ([t.pid], every))
    same("and nobody is left", (a.procs(), a.threads()), ([], []))
    below.take(others[1])
    same("the number of a thread moves its process", (below.procs(), below.threads()), ([t.pid], every))
    same("the group above counts them", b.current(), 5)
    if a.top == a.pids:
        same("a thread that writes 0 moves its process", t.ask("move", a.top), 1)
        same("it has moved", (a.current(), a.threads(), b.current()), (5, every, 0))
    else:
        a.take(t.pid)
    other = t.ask("thread")
    same("a new thread is where its process is", (a.current(), a.threads()), (6, sorted([*every, other])))
    a.write("pids.max", 2)
    b.take(t.pid)
    b.write("pids.max", 1)
    a.take(t.pid)
    same("no limit refuses a move", (a.current(), b.current()), (6, 0))
    same("of a group", read("/proc/%d/task/%d/cgroup" % (t.pid, other)).decode().splitlines()[-1], group_line(a))
    ended = t.ask("end")
    becomes("a thread ends", a.current, 5)
    same("its number is nobody's", error_of(b.take, ended), "ESRCH")
    same("and moves nobody", (a.current(), a.procs(), b.current()), (5, [t.pid], 0))
    a.write("pids.max", "max")
    every.append(t.ask("thread"))
    b.take(t.pid)
    same("another, made after it, moves with all", (a.current(), b.threads()), (0, sorted(every)))
    t.end()
    finally_empty(b)


def group_line(group):
    mounted = max((m.split()[1] for m in open("/proc/self/mounts") if group.top.startswith(m.split()[1])), key=len)
    return "0::" + group.top[len(mounted) :]


def killed():
    a = (top / "a").make()
    b = (a / "b").make()
    t = Tasks(b)
    t.make(4)
    u = Tasks(a, "other")
    same("two processes with seven threads", a.current(), 7)
    child = t.ask("fork")
    os.kill(child, signal.SIGKILL)
    step("and a zombie", until(lambda: open("/proc/%d/stat" % child).read().rpartition(")")[2].split()[0] == "Z"))
    same("all count", a.current(), 8)
    a.write("cgroup.kill", 1)
    same("both are killed", (t.process.wait(PATIENCE), u.process.wait(PATIENCE)), (-9, -9))
    becomes("nobody is left", a.current, 0)
    same("the group is empty", (a.read("cgroup.events").splitlines()[0], a.threads()), ("populated 0", []))
    t.end()
    u.end()
    t = Tasks(b)
    t.make(2)
    same("another starts there", b.current(), 3)
    t.end()
    finally_empty(a)


def frozen():
    a, b = (top / "a").make(), (top / "b").make()
    older = Tasks(b)
    t = Tasks(a)
    others = t.make(4)
    older.end()
    becomes("an older process ends", b.current, 0)
    a.write("cgroup.freeze", 1)
    becomes("a process with five threads is frozen", lambda: a.read("cgroup.events"), "populated 1\nfrozen 1\n")
    same("all count", (a.current(), a.threads()), (5, sorted([t.pid, *others])))
    b.take(others[0])
    becomes("moved out it is gone", lambda: a.read("cgroup.events"), "populated 0\nfrozen 1\n")
    same("and runs", type(t.ask("thread")), int)
    same("all have moved", b.current(), 6)
    a.take(t.pid)
    becomes("moved in it is frozen", lambda: a.read("cgroup.events"), "populated 1\nfrozen 1\n")
    a.write("cgroup.freeze", 0)
    same("thawed it obeys", type(t.ask("thread")), int)
    same("and all count", a.current(), 7)
    t.end()
    finally_empty(a)


def born_elsewhere():
    a, b = (top / "a").make(), (top / "b").make()
    t = Tasks(a, "other")
    t.make(3)
    child = t.ask("into", b.top)
    same("a child that is born in another group", (b.procs(), b.threads()), ([child], [child]))
    same("its parent's threads are where they were", a.threads(), sorted(set(a.threads()) | {t.pid, t.reader}))
    if a.top == a.pids:
        same("the counts", (a.current(), b.current()), (5, 1))
    same("a thread cannot be born in another group", t.ask("thread-into", b.top), "EOPNOTSUPP")
    thread = t.ask("thread-into", a.top)
    same("but in its own", (type(thread), thread in a.threads()), (int, True))
    same("it counts", a.current(), 6 if a.top == a.pids else 7)
    if a.top == a.pids:
        a.write("pids.max", 6)
        same("one that its limit refuses is counted", (t.ask("thread-into", a.top), a.refused()), ("EAGAIN", 1))
    os.kill(child, signal.SIGKILL)
    t.end()
    finally_empty(a)


def races():
    a = (top / "a").make()
    b = (a / "b").make()
    refuses = a if b.top == b.pids else b  # see limited
    for _ in range(3):
        t = Tasks(b)
        a.write("pids.max", 100)
        before = refuses.refused()
        made = t.ask("race", "8")
        same("eight threads that make sixteen each reach the limit above, and not more", a.read("pids.peak"), "100\n")
        becomes("all that were made count", a.current, 1 + made)
        same("cgroup.threads has them", len(b.threads()), 1 + made)
        same("each that was refused is counted", refuses.refused() - before, 8 * 16 - made)
        t.end()
        finally_empty(a)


AS_THE_KERNEL = (
    five,
    limited,
    limited_later,
    sharing,
    last_place,
    leaderless,
    execs,
    forks,
    moves,
    killed,
    frozen,
    born_elsewhere,
    races,
)

# ---------------------------------------------------------------- what only a run has


def left_behind():
    """A first thread that has ended moves with the others. (The kernel leaves it behind.)"""
    a, b = (top / "a").make(), (top / "b").make()
    t = Tasks(a, "other")
    t.ask("leave")
    step("the first thread ends", until(lambda: t.state() == "Z"))
    b.take(t.pid)
    same("it moves with the other", (a.current(), b.current(), b.procs(), b.threads()), (0, 2, [t.pid], [t.reader]))
    same("its group can go", error_of(os.rmdir, a.top), "ok")
    t.end()
    finally_empty(b)


def brought_back():
    """An undo brings back the number of a thread that has ended. Its group isn't empty, whoever has died elsewhere."""
    a, b = (top / "a").make(), (top / "b").make()
    t = Tasks(a)
    [other] = t.make(1)
    t.ask("end")
    becomes("a thread ends", a.current, 1)
    b.take(t.pid)
    top.write(".makhloeum/undo", 2)
    same("two undos bring it back", (a.current(), b.current()), (2, 0))
    b.take(t.pid)
    same("its process moves without it", (a.current(), b.current()), (1, 1))
    same("its group can't go", error_of(os.rmdir, a.top), "EBUSY")
    zombie = os.fork()
    if zombie == 0:
        os._exit(0)
    os.waitid(os.P_PID, zombie, os.WEXITED | os.WNOWAIT)
    same("nor beside a zombie elsewhere", error_of(os.rmdir, a.top), "EBUSY")
    os.waitpid(zombie, 0)
    top.write(".makhloeum/exit", other)
    same("without it it can", error_of(os.rmdir, a.top), "ok")
    t.end()
    finally_empty(b)


def undone():
    a, b = (top / "a").make(), (top / "b").make()
    t = Tasks(a)
    others = t.make(4)
    depth = lambda: int(top.read(".makhloeum/depth"))
    newest = lambda: top.read(".makhloeum/newest").splitlines()
    before = depth()
    b.take(t.pid)
    same("a move is one operation", depth(), before + 1)
    same("of a line for each thread", newest(), ["write /b cgroup.procs %d" % n for n in (t.pid, *others)])
    same("depth + 1 undos", error_of(write, AT + "/.makhloeum/undo", b"%d\n" % (depth() + 1)), "ENODATA")
    top.write(".makhloeum/undo", "")
    same("one undo moves all back", (a.threads(), b.threads()), (sorted([t.pid, *others]), []))
    same("the counts", (a.current(), b.current(), depth()), (5, 0, before))
    top.write(".makhloeum/undo", "")
    same("another undoes the birth of a thread", (a.current(), a.threads()), (4, sorted([t.pid, *others[:3]])))
    before = depth()
    b.take(t.pid)
    same("the others still move together", (a.current(), b.threads()), (0, sorted([t.pid, *others[:3]])))
    a.take(t.pid)
    same("two moves are two operations", depth(), before + 2)
    top.write(".makhloeum/undo", 2)
    same("two undos of moves", (a.current(), b.current()), (4, 0))
    child = t.ask("into", b.top)
    same(
        "a birth in another group is one operation", newest(), ["fork 1 %d" % child, "write /b cgroup.procs %d" % child]
    )
    top.write(".makhloeum/undo", "")
    same("and is undone as one", (b.procs(), child in top.procs()), ([], False))
    other = t.ask("into", top.top)
    same("a birth in the root is one line", (newest(), other in top.procs()), (["fork 1 %d" % other], True))
    os.kill(other, signal.SIGKILL)
    os.kill(child, signal.SIGKILL)
    t.end()
    becomes("and all end", lambda: (a.current(), b.current()), (0, 0))


def without_number():
    """A process whose birth is undone makes children in the root."""
    a = (top / "a").make()
    t = Tasks(a)
    top.write(".makhloeum/undo", 2)
    same("its move and its birth are undone", (a.current(), t.pid in top.procs()), (0, False))
    child = t.ask("fork")
    same("its child is in the root", (a.current(), child in top.procs()), (0, True))
    os.kill(child, signal.SIGKILL)
    t.end()
    becomes("and then nowhere", lambda: child in top.procs(), False)


def forgotten():
    """A forget drops whole operations, whatever the newest is, and leaves groups and processes as they are."""
    a, b = (top / "a").make(), (top / "b").make()
    t = Tasks(a)
    all_threads = [t.pid, *t.make(3)]
    depth = lambda: int(top.read(".makhloeum/depth"))
    texts = lambda: [top.read(".makhloeum/" + name) for name in ("newest", "trace")]
    undo = lambda: error_of(write, AT + "/.makhloeum/undo", b"\n")
    moves = lambda: (b.take(t.pid), a.take(t.pid))
    for what, calls, count in (
        ("several lines", moves, 2),
        ("one line", lambda: (moves(), a.write("pids.max", 100)), 3),
    ):
        before = depth()
        calls()
        same("operations, the newest of %s" % what, depth(), before + count)
        top.write(".makhloeum/forget", "")
        same("a forget leaves none", (depth(), texts()), (0, ["", ""]))
        same("none can be undone", undo(), "ENODATA")
        same("all threads stay", (a.threads(), b.current()), (sorted(all_threads), 0))
        b.take(t.pid)
        moved = "".join("write /b cgroup.procs %d\n" % n for n in all_threads)
        same("a later move is one operation", (depth(), texts()), (1, [moved, moved]))
        same("one undo moves all threads back", (undo(), a.threads(), b.current()), ("ok", sorted(all_threads), 0))
        same("and there is none before it", (depth(), undo()), (0, "ENODATA"))
    same("a limit stays too", a.read("pids.max"), "100\n")
    t.end()
    becomes("and all end", lambda: (a.current(), b.current()), (0, 0))


def taken_back():
    """The life of a program with threads, undone to its start."""
    a, b = (top / "a").make(), (top / "b").make()
    for reader in ("first", "other"):
        t = Tasks(a, reader)
        t.make(3)
        b.take(t.pid)
        t.ask("fork")
        same("it executes", t.ask("exec"), t.pid)
        t.make(2)
        b.write("cgroup.kill", 1)
        t.end()
    depth = int(top.read(".makhloeum/depth"))
    top.write(".makhloeum/undo", depth)
    same("%d undos" % depth, (os.path.exists(a.top), top.read(".makhloeum/depth"), top.procs()), (False, "0\n", [1]))


def joined():
    """A thread that was joined makes room for the next: at the limit, a hundred times."""
    a = (top / "a").make()
    t = Tasks(a)
    a.write("pids.max", 2)
    times = 0
    while times < 100 and until(lambda: a.current() == 1) and isinstance(t.ask("thread"), int):
        t.ask("end")
        times += 1
    same("a hundred threads at the limit, one after the other", times, 100)
    t.end()


def stopped_server():
    """The server is stopped again and again while threads are made: each is counted all the same."""
    a = (top / "a").make()
    supervisor = int(next(x for x in open("/proc/self/status") if x.startswith("TracerPid")).split()[1])
    own = {int(p) for p in open("/proc/%d/task/%d/children" % (supervisor, supervisor)).read().split()}
    mine = [p for p in own if open("/proc/%d/comm" % p).read() == "makhloeum\n"]
    step("there are such processes", len(mine) > 2, mine)
    stop = threading.Event()

    def stops():
        while not stop.wait(0.002):
            for pid in mine:
                os.kill(pid, signal.SIGSTOP)

    thread = threading.Thread(target=stops)
    t = Tasks(a)
    thread.start()
    made = [t.ask("thread") for _ in range(50)]
    stop.set()
    thread.join()
    same("each is there", (a.current(), a.threads()), (51, sorted([t.pid, *made])))
    t.end()
    finally_empty(a)


def mixed():
    """Programs make and end threads and processes at random, become others and move, all at once."""
    groups = [(top / name).make() for name in "ab"]

    def play(n):
        dice, idle = random.Random(n), 0
        t = Tasks(groups[n % 2], ("first", "other")[n // 2 % 2])
        for _ in range(80):
            what = dice.choice(("thread", "thread", "thread", "end", "fork", "spawn", "exec", "move"))
            if what == "end" and idle == 0:
                continue
            idle = 0 if what == "exec" else idle + (what == "thread") - (what == "end")
            t.ask(*((what, dice.choice(groups).top) if what == "move" else (what,)))
        return t

    def real():
        return sorted(int(task) for g in groups for pid in g.procs() for task in os.listdir("/proc/%d/task" % pid))

    with ThreadPoolExecutor(6) as pool:
        all_of = list(pool.map(play, range(6)))
    until(lambda: sorted(a for g in groups for a in g.threads()) == real())
    same("cgroup.threads has all that are there", sorted(a for g in groups for a in g.threads()), real())
    same("pids.current counts them", sum(g.current() for g in groups), len(real()))
    for g in groups:
        g.write("cgroup.kill", 1)
    for t in all_of:
        t.end()
    for g in groups:
        finally_empty(g)


def uncounted():
    """With --threads=no."""
    a, b = (top / "a").make(), (top / "b").make()
    t = Tasks(a, "other")
    numbers = t.make(3)
    same("a process with five threads counts one", (a.current(), a.procs(), a.threads()), (1, [t.pid], [t.pid]))
    for number, here, there in ((numbers[0], b, a), (numbers[2], a, b)):
        same("the number of a thread moves its process", error_of(here.take, number), "ok")
        same("alone", (here.procs(), here.threads(), there.procs()), ([t.pid], [t.pid], []))
    same("a number of nobody moves none", (error_of(b.take, 4194302), b.procs()), ("ESRCH", []))
    same("nor does one outside", (error_of(b.take, tracer()), b.procs()), ("ESRCH", []))
    a.write("pids.max", 1)
    same("no limit refuses a thread", type(t.ask("thread")), int)
    same("but a fork", t.ask("fork"), "EAGAIN")
    same("a thread that writes 0 moves its process", t.ask("move", b.top), 1)
    same("it has moved", (a.current(), b.current()), (0, 1))
    same("it executes", (t.ask("exec"), b.current()), (t.pid, 1))
    same("a thread is born in no group by itself", t.ask("thread-into", b.top), "EOPNOTSUPP")
    t.make(2)
    b.write("cgroup.freeze", 1)
    becomes("it is frozen with all its threads", lambda: b.read("cgroup.events"), "populated 1\nfrozen 1\n")
    b.write("cgroup.freeze", 0)
    same("thawed it obeys", type(t.ask("thread")), int)
    b.write("cgroup.kill", 1)
    same("a kill ends it", t.process.wait(PATIENCE), -signal.SIGKILL)
    t.end()
    finally_empty(b)


def many():
    """More births than those that have the table's last places: the next ones take the first places."""
    a = (top / "a").make()
    t = Tasks(a)
    same("100 threads", type(t.ask("churn", "100")), int)
    step("one is left", until(lambda: a.current() == 1), a.current())
    same("another thread and a child", [type(t.ask(what)) for what in ("thread", "fork")], [int, int])
    same("they are counted", a.current(), 3)
    a.write("cgroup.kill", 1)
    same("a kill ends it", t.process.wait(PATIENCE), -signal.SIGKILL)
    t.end()
    finally_empty(a)


def full():
    """A process with five threads moves until the trace is full. The last move fails at one of its five lines."""
    a, b = (top / "a").make(), (top / "b").make()
    t = Tasks(a)
    every = sorted([t.pid, *t.make(4)])
    here, there, error = a, b, "ok"
    for _ in range(1000):
        error = error_of(there.take, t.pid)
        if error != "ok":
            break
        here, there = there, here
    same("a move fails", error, "EFBIG")
    same("all threads are where they were", (here.threads(), there.threads()), (every, []))
    made, forked = [], []
    while len(made) < 40 and "EAGAIN" not in made:
        made.append(t.ask("thread"))
        forked.append(t.ask("fork"))
    step("soon no thread is made", "EAGAIN" in made, made)
    counted, uncounted = set(here.threads()), lambda all_of: set(all_of) - counted - {"EAGAIN"}
    step(
        "at most one of them, before a fork that finds the trace full, is not counted", len(uncounted(made)) <= 1, made
    )
    same("each child is counted", uncounted(forked), set())
    t.end()


INSIDE = (
    *AS_THE_KERNEL,
    left_behind,
    brought_back,
    undone,
    without_number,
    forgotten,
    taken_back,
    joined,
    stopped_server,
    mixed,
    uncounted,
    many,
    full,
)

# ---------------------------------------------------------------- outside


def run(test, room=None):
    """`room`: for how many bytes the trace has room."""
    home = tempfile.mkdtemp()
    trace, answers = os.path.join(home, "trace"), os.path.join(home, "answers")
    option = ["--threads=no"] if test is uncounted else []
    ran = subprocess.run(
        [PROGRAM, "run", "--control", *option, "--trace", trace, "--answers", answers]
        + [sys.executable, ME, "inside", test.__name__],
        timeout=6 * PATIENCE,
        stdout=subprocess.PIPE,  # a file would have no more room than the trace
        stderr=subprocess.PIPE,
        preexec_fn=(lambda: resource.setrlimit(resource.RLIMIT_FSIZE, (room, room))) if room else None,
    )
    print(ran.stdout.decode(), end="", flush=True)
    same("%s: its status" % test.__name__, (ran.returncode, ran.stderr), (0, b""))
    with open(trace) as lines, open(answers, "rb") as wanted:
        got = subprocess.run(CGREPLAY, stdin=lines, stdout=subprocess.PIPE).stdout
        step("%s: cgreplay gives the same answers" % test.__name__, got == wanted.read())
    text = open(trace).read()
    if test is five:
        step("the trace has a fork of each thread", text.count("\nfork ") >= 6, text)
    if test is limited:
        of_nobody = re.findall(r"^.* 41943\d\d$", text, re.M)
        step("a refused fork is one line", of_nobody and all(x.startswith("fork ") for x in of_nobody), of_nobody)
    if test is killed:
        after = text.split("cgroup.kill 1\n")[1].split("\nfork ")[0]
        step("whom a kill has reached does not end once more", "\nexit " not in after, after)
    shutil.rmtree(home)


@contextlib.contextmanager
def of_kernel():
    """Groups of this machine: of cgroup2, and if that has no pids controller, of version 1 for its files."""
    mounts = [line.split() for line in open("/proc/self/mounts")]
    at = next((m[1] for m in mounts if m[2] == "cgroup2"), None)
    pids = next((m[1] for m in mounts if m[2] == "cgroup" and "pids" in m[3].split(",")), None)
    if at and "pids" in read(at + "/cgroup.subtree_control").decode().split():
        pids = at
    if os.getuid() != 0 or not at or not pids:
        left_out("only the superuser can ask the kernel, and there has to be a pids controller on the machine")
        yield None
        return
    name = "makhloeum-test-%d" % os.getpid()
    place = Place(os.path.join(at, name), os.path.join(pids, name))
    try:
        place.make()
    except OSError as e:
        left_out("no group can be made here: %s" % e.strerror)
        yield None
        return
    if pids == at:
        place.write("cgroup.subtree_control", "+pids")
    try:
        yield place
    finally:
        remove(place)


def remove(place):
    """With whom a test that failed has left there."""
    for at in place.folders():
        for folder, _, _ in os.walk(at):
            for pid in read(folder + "/cgroup.procs").split():
                os.kill(int(pid), signal.SIGKILL)
    for at in place.folders():
        for folder, below, _ in os.walk(at, topdown=False):
            for name in below:
                until(lambda: error_of(os.rmdir, os.path.join(folder, name)) == "ok")
        until(lambda: error_of(os.rmdir, at) == "ok")


if sys.argv[1:2] == ["inside"]:
    {t.__name__: t for t in INSIDE}[sys.argv[2]]()
    finish()
if sys.argv[1:2] == ["kernel"]:
    for test in AS_THE_KERNEL:
        with of_kernel() as top:
            if top and (not sys.argv[2:] or test.__name__ in sys.argv[2:]):
                test()
    finish()
every = [(test, None) for test in INSIDE if test is not full] + [(full, room) for room in range(4000, 4200, 40)]
in_parallel(
    lambda one: run(*one), [one for one in every if not sys.argv[1:] or one[0].__name__ in sys.argv[1:]], lanes=4
)
finish()
