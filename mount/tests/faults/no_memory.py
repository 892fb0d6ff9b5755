"""Each allocation of makhloeum refused in turn, alone or with all after it in the call: the call gives the right answer, or
fails with ENOMEM (a fork also with EAGAIN) and nothing has changed. This file is also the program (no_memory.py inside
NAME)."""
import ctypes
import errno
import mmap
import os
import re
import resource
import select
import signal
import struct
import subprocess
import sys
import tempfile
import time

sys.path.insert(0, os.path.dirname(os.path.dirname(os.path.realpath(__file__))))
from support import AT, PATIENCE, PROGRAM, Mount, finish, in_parallel, is_alive, libc, limit_of, read, same, step, until
from support import write

ME = os.path.realpath(__file__)
MOST = 400  # allocations of one call
GOOD = ("ENOMEM",)
FORKS = ("ENOMEM", "EAGAIN")


class Memory:
    """What refuses the allocations of all processes that were started with its environment."""

    def __init__(self, file=None):
        if file is None:
            handle, file = tempfile.mkstemp()
            os.write(handle, bytes(32))
            os.close(handle)
            os.chmod(file, 0o666)
        self.file = file
        with open(file, "r+b") as shared:
            self.shared = mmap.mmap(shared.fileno(), 32)

    def refuse(self, nth, rest=False, size=0):
        """The nth, and with `rest` all after it; with `size` of those of so many bytes."""
        struct.pack_into("<qqqq", self.shared, 0, 0, 0, rest, size)
        struct.pack_into("<q", self.shared, 0, nth)

    def refused(self):
        """Ends it. How many were refused."""
        struct.pack_into("<q", self.shared, 0, 0)
        return struct.unpack_from("<q", self.shared, 8)[0]


LIBRARY = os.path.join(os.path.dirname(os.path.realpath(PROGRAM)), "no_memory.so")
memory = Memory(os.environ["NO_MEMORY"]) if "NO_MEMORY" in os.environ else None


def places(rests=(True, False)):
    """Where to refuse: the caller ends once nothing was refused without all the rest."""
    return ((nth, rest) for nth in range(1, MOST) for rest in rests)


def outcome(call):
    """What it returns, or the name of the errno with which it fails."""
    try:
        return call()
    except OSError as e:
        return errno.errorcode[e.errno]


def each(name, call, state=lambda: None, again=lambda: None, faults=GOOD, rests=(True, False)):
    """Makes a call with each of its allocations refused in turn, with and without all after it. `state` shows what it changes,
    and `again` brings back the state before it."""
    again()
    before = state()
    wanted = outcome(call)
    after = state()
    again()
    wrong, failed, nth = [], 0, 0
    for nth, rest in places(rests):
        memory.refuse(nth, rest)
        got = outcome(call)
        refused = memory.refused()
        now = state()
        right = got == wanted and now == after or refused and got in faults and now == before
        failed += got != wanted
        if not right:
            wrong.append(
                (nth, rest, got, now if now not in (before, after) else "before" if now == before else "after")
            )
        if now != before or got == wanted:
            again()
        if not refused and not rest:
            break
    same("%s: %d refused, %d failed" % (name, nth - 1, failed), wrong[:2], [])
    step("%s: they were refused" % name, 1 < nth < MOST - 1, nth)


def texts(at, groups, files):
    return [read(os.path.join(at, group, file)) for group in groups for file in files]


# ---------------------------------------------------------------- a mount of numbers

FILES = (
    "cgroup.procs",
    "cgroup.events",
    "cgroup.freeze",
    "cgroup.subtree_control",
    "cgroup.type",
    "pids.max",
    "pids.current",
    "pids.events",
)


def numbers():
    m = Mount("--keep", "memory,cpu", preload=LIBRARY)
    a, b = m.path("a"), m.path("a", "b")
    write(m.path("cgroup.subtree_control"), b"+pids +cpu")
    os.makedirs(b)
    os.mkdir(m.path("a", "d"))
    write(m.path("a", "cgroup.subtree_control"), b"+pids +cpu")
    write(m.path("a", "d", "pids.max"), b"6")
    for pid in (2, 3, 4):
        write(m.control("fork"), b"1 %d" % pid)
    write(b + "/cgroup.procs", b"2")
    write(b + "/cgroup.procs", b"3")
    write(b + "/pids.max", b"5")
    write(b + "/cpu.weight", b"200")

    def state():
        return (
            sorted(os.listdir(m.at)),
            texts(m.at, ("a", "a/b"), FILES[:5]),
            read(m.path("cgroup.procs")),
            outcome(lambda: texts(m.at, ("a/b",), FILES[5:])),
            outcome(lambda: read(m.path("a", "d", "pids.max"))),
            outcome(lambda: read(b + "/cpu.weight")),
        )

    def put(file, value):
        return lambda: write(file, value)

    def back(*writes):
        """Writes these, also if some of them are refused."""
        return lambda: [outcome(lambda f=file, v=value: write(f, v)) for file, value in writes]

    for file in (*FILES, "cpu.weight", "cpu.weight.nice", "pids.peak"):
        each("a read of " + file, lambda: read(b + "/" + file))
    each("a stat of a group", lambda: os.stat(b).st_nlink)
    each("a stat of no group", lambda: os.stat(m.path("a", "x")))
    e = m.path("a", "e")
    os.mkdir(e)
    each(
        "a stat of a group that an undo has brought back",
        lambda: os.stat(e).st_nlink,
        again=lambda: (os.rmdir(e), write(m.control("undo"), b"1")),
    )
    each(
        "a listing with such a group",
        lambda: sorted((entry.name, entry.is_dir()) for entry in os.scandir(a)),
        again=lambda: (os.rmdir(e), write(m.control("undo"), b"1")),
    )
    each(
        "the first mode that a file gets",
        lambda: os.chmod(e + "/pids.max", 0o600),
        lambda: os.stat(e + "/pids.max").st_mode,
        lambda: (os.rmdir(e), os.mkdir(e)),
    )
    os.rmdir(e)
    each("a stat of a file", lambda: os.stat(b + "/cgroup.procs").st_size)
    each("a listing", lambda: sorted(os.listdir(b)))
    each("an attribute of no name", lambda: os.getxattr(b, "user.x"))
    os.setxattr(b, "user.z", b"value")
    each("the value of an attribute", lambda: os.getxattr(b, "user.z"))
    each("the names of all", lambda: os.listxattr(b))
    os.removexattr(b, "user.z")
    each(
        "an attribute",
        lambda: os.setxattr(b, "user.y", b"1"),
        lambda: outcome(lambda: os.getxattr(b, "user.y")),
        lambda: outcome(lambda: os.removexattr(b, "user.y")),
    )
    other = b + "/cgroup.procs"
    os.setxattr(other, "user.z", b"old")
    each(
        "another value of an attribute",
        lambda: os.setxattr(other, "user.z", b"new"),
        lambda: os.getxattr(other, "user.z"),
        lambda: os.setxattr(other, "user.z", b"old"),
    )
    begun_again(b + "/pids.max")
    each("a mkdir", lambda: os.mkdir(m.path("c")), state, lambda: outcome(lambda: os.rmdir(m.path("c"))))
    long = m.path("c" * 200)
    each("a mkdir of a long name", lambda: os.mkdir(long), state, lambda: outcome(lambda: os.rmdir(long)))
    write(m.control("forget"), b"\n")
    folders = [m.path(*["d" * 240] * depth) for depth in range(1, 13)]
    for folder in folders:
        os.mkdir(folder)
    sizes = set()
    for nth in range(1, MOST):  # a text of few and long lines, for which the first stat that succeeds makes room
        memory.refuse(nth)
        sizes.add(outcome(lambda: os.stat(m.control("trace")).st_size))
        if not memory.refused():
            break
    same("stats of a long text", sizes, {"ENOMEM", len(read(m.control("trace")))})
    each("a read of a long text", lambda: read(m.control("trace")))
    for folder in reversed(folders):
        os.rmdir(folder)
    each("a rmdir", lambda: os.rmdir(m.path("c")), state, lambda: outcome(lambda: os.mkdir(m.path("c"))))
    os.rmdir(m.path("c"))
    each("a rmdir of a group with processes", lambda: os.rmdir(b), state)
    each("a fork", put(m.control("fork"), b"2 9"), state, back((m.control("exit"), b"9")))
    each("an exit", put(m.control("exit"), b"3"), state, back((m.control("fork"), b"2 3")))
    each("a move", put(b + "/cgroup.procs", b"4"), state, back((m.path("cgroup.procs"), b"4")))
    each("a move of none", put(b + "/cgroup.procs", b"77"), state)
    each(
        "a move that enabled controllers refuse",
        put(a + "/cgroup.procs", b"4"),
        state,
        back((m.path("cgroup.procs"), b"4")),
    )
    each("a limit", put(b + "/pids.max", b"7"), state, back((b + "/pids.max", b"5")))
    each("a weight", put(b + "/cpu.weight.nice", b"3"), state, back((b + "/cpu.weight", b"200")))
    each("a freeze", put(b + "/cgroup.freeze", b"1"), state, back((b + "/cgroup.freeze", b"0")))
    each("an undo", put(m.control("undo"), b"1"), state, back((b + "/pids.max", b"6"), (b + "/pids.max", b"5")))
    # a populated child: then memory may not be enabled, and a group with processes is no inner group
    write(m.path("cgroup.subtree_control"), b"+memory")
    new = m.path("n")
    each(
        "enabling in a new group",
        put(new + "/cgroup.subtree_control", b"+pids"),
        lambda: read(new + "/cgroup.subtree_control"),
        lambda: (outcome(lambda: os.rmdir(new)), os.mkdir(new)),
    )
    os.rmdir(new)
    each("enabling with processes below", put(b + "/cgroup.subtree_control", b"+memory"), state)
    each(
        "enabling cpu in a group with processes",
        put(b + "/cgroup.subtree_control", b"+cpu"),
        state,
        back((b + "/cgroup.subtree_control", b"-cpu")),
    )
    each(
        "disabling pids with a limit",
        put(a + "/cgroup.subtree_control", b"-pids -cpu"),
        state,
        back(
            (a + "/cgroup.subtree_control", b"+pids +cpu"),
            (b + "/pids.max", b"5"),
            (m.path("a", "d", "pids.max"), b"6"),
            (b + "/cpu.weight", b"200"),
        ),
        rests=(False,),
    )
    each(
        "a kill",
        put(b + "/cgroup.kill", b"1"),
        state,
        back(
            (m.control("fork"), b"1 2"),
            (m.control("fork"), b"1 3"),
            (b + "/cgroup.procs", b"2"),
            (b + "/cgroup.procs", b"3"),
        ),
    )
    wakes(m, b)
    counted(m, b)
    step("it is unmounted", m.unmounted())
    same("the process ends with the mount", m.ended(), 0)
    step("cgreplay gives the same answers", m.replay())


def begun_again(file):
    """A text of which a part was read. Without memory for a new one it can still be read to its end."""
    fd = os.open(file, os.O_RDONLY)

    def again():
        write(file, b"56")
        os.pread(fd, 1, 0)
        write(file, b"78")

    def rest():
        text = os.pread(fd, 9, 1)
        again()
        return text

    again()
    each("a read from the start", lambda: os.pread(fd, 1, 0), rest, again)
    os.close(fd)
    write(file, b"5")


def counted(m, group):
    """Whoever polls is told of a refused fork that was counted, whatever memory was refused in it."""
    outcome(lambda: write(m.control("fork"), b"1 8"))
    write(group + "/cgroup.procs", b"8")
    write(group + "/pids.max", b"1")
    fd = os.open(group + "/pids.events", os.O_RDONLY)
    poller = select.poll()
    poller.register(fd, select.POLLPRI)
    wrong, told = [], 0
    for nth, rest in places():
        os.pread(fd, 100, 0)
        memory.refuse(nth, rest)
        got = outcome(lambda: write(m.control("fork"), b"8 9"))
        refused = memory.refused()
        told += got == "EAGAIN"
        if got not in FORKS or (poller.poll(0) != []) != (got == "EAGAIN"):
            wrong.append((nth, rest, got))
        if not refused and not rest:
            break
    os.close(fd)
    same("refused forks of which nobody is told", wrong[:3], [])
    step("they were refused", told > 1 and 1 < nth < MOST - 1, (told, nth))


def wakes(m, group):
    """Whoever polls is woken by a change, whatever was refused when it began to wait, or in the change."""
    write(group + "/cgroup.kill", b"1")
    fd = os.open(group + "/cgroup.events", os.O_RDONLY)
    poller = select.poll()
    poller.register(fd, select.POLLPRI)
    missed = []

    def poll(patience):
        return [mask for _, mask in poller.poll(patience)] != []

    def change(name, value):
        memory.refuse(nth if of == name else 0)
        changed = outcome(lambda: write(m.control(name), value)) is None
        refused.append(memory.refused())
        return changed

    for of in ("poll", "exit"):
        for nth in range(1, MOST):
            refused = []
            outcome(lambda: write(m.control("fork"), b"1 8"))
            outcome(lambda: write(group + "/cgroup.procs", b"8"))
            os.pread(fd, 100, 0)
            memory.refuse(nth if of == "poll" else 0)
            woken = poll(0)
            refused.append(memory.refused())
            gone = change("exit", b"8")
            if gone and not woken and not poll(1000 * PATIENCE):
                missed.append((of, nth))
            if not any(refused):
                break
    os.close(fd)
    same("whoever polls is woken", missed, [])


def grown():
    """Texts that are longer than there was room for at first. Without memory for more the room is as it was."""
    m, processes = Mount(preload=LIBRARY), 3600
    forks = ["fork 1 %d\n" % pid for pid in range(2, processes + 1)]
    for line in forks:
        write(m.control("fork"), line[len("fork ") :].encode())
    listed = "".join("%d\n" % pid for pid in range(1, processes + 1))

    def whole(path):
        fd = os.open(path, os.O_RDONLY)
        try:
            return b"".join(iter(lambda: os.read(fd, 1 << 16), b"")).decode()
        finally:
            os.close(fd)

    got = []
    for path, text, rooms, size in (
        (m.path("cgroup.procs"), listed, 2, 1 << 15),
        (m.control("trace"), "".join(forks), 1, 1 << 16),
    ):
        for nth in range(1, rooms + 1):
            memory.refuse(nth, size=size)
            said = outcome(lambda: whole(path))
            got.append((memory.refused() > 0, said[:9]))
        got.append(whole(path) == text)
    ended = m.unmounted(), m.ended(), m.replay()
    refused = (True, "ENOMEM")
    same("rooms that are refused, and the texts after that", got, [refused, refused, True, refused, True])
    same("it is unmounted, its process ends, and cgreplay gives the same answers", ended, (True, 0, True))


def ahead(name, options, begin, room, call, look):
    """A call for which a file has no room is undone. Where there is no memory for that, nothing is done from then on: so the trace and
    the answers fit."""
    m, wrong, stopped = None, [], 0
    for nth, rest in places():
        if not m:
            m = Mount(*options, preload=LIBRARY)
            begin(m)
        limit_of(m, room(m))
        memory.refuse(nth, rest)
        got = outcome(lambda: call(m))
        refused = memory.refused()
        limit_of(m, None)
        goes_on = outcome(lambda: look(m)) != "EIO"
        stopped += not goes_on
        is_last = not refused and not rest
        if not goes_on or is_last:
            ended = m.unmounted(), m.ended(), m.replay()
            m = None
        if got not in ("EFBIG", "ENOMEM") or (m is None and ended != (True, 0, True)):
            wrong.append((nth, rest, got, goes_on, m is None and ended))
        if is_last:
            break
    same("%s, with %d refused" % (name, nth - 1), wrong[:3], [])
    step("%s: it was not undone" % name, stopped > 0)


def unkept():
    size = os.path.getsize

    def long_answers(m):
        for _ in range(100):
            read(m.path("cgroup.stat"))

    def limits(m):
        write(m.path("cgroup.subtree_control"), b"+pids")
        for group in "xyz":
            os.mkdir(m.path(group))
            write(m.path(group, "pids.max"), b"7")

    ahead(
        "a group without room for its answer",
        (),
        long_answers,
        lambda m: max(size(m.trace) + 60, size(m.answers)),
        lambda m: os.mkdir(m.path("a")),
        lambda m: read(m.path("cgroup.stat")),
    )
    ahead(
        "three limits with room for one line",
        ("--keep", "memory"),
        limits,
        lambda m: size(m.trace) + 60,
        lambda m: write(m.path("cgroup.subtree_control"), b"-pids"),
        lambda m: read(m.path("x/pids.max")),
    )


# ---------------------------------------------------------------- starts

SENTENCE = rb"makhloeum: [^\n]+\n"


def started(*words):
    """What a start of makhloeum comes to: its status, its output, and what it says beside libfuse."""
    p = subprocess.Popen(
        [PROGRAM, *words],
        stdout=subprocess.PIPE,
        stderr=subprocess.PIPE,
        env=dict(os.environ, LD_PRELOAD=LIBRARY),
        start_new_session=True,
    )
    try:
        out, said = p.communicate(timeout=PATIENCE)
    except subprocess.TimeoutExpired:
        os.killpg(p.pid, signal.SIGKILL)
        out, said = p.communicate()
    return p.returncode, out, re.sub(rb"fuse: .*\n", b"", said)  # libfuse's lines, also within one of another process


def each_start(name, is_right, *words):
    """A start with each allocation refused is right, or has status 2 and says why in its last sentence. Where the C library has no memory
    to end a thread, it ends the server of a mount."""
    wrong, failed = [], 0
    for nth, rest in places():
        memory.refuse(nth, rest)
        status, out, said = got = started(*words)
        refused = memory.refused()
        fails = refused and (status == 2 or (status == 1 and b"pthread_cancel" in said)) and out == b""
        failed += fails
        if not is_right(refused, *got) and not (fails and re.fullmatch(SENTENCE, said[said.find(b"makhloeum: ") :])):
            wrong.append((nth, rest, *got))
        if not refused and not rest:
            break
    same("%s: %d refused, %d failed" % (name, nth - 1, failed), wrong[:3], [])
    step("%s: they were refused" % name, 1 < nth < MOST - 1, nth)


def starts():
    """A run and a mount. Once the program of a run has begun, it hears of what is refused later."""
    keep, at, odd = ("--control", "--keep", "memory,cpu,io,cpuset"), tempfile.mkdtemp(), []

    def of_run(refused, *got):
        heard = refused and got[0] == 1 and b"cat: /proc/self/cgroup: Cannot allocate memory" in got[2]
        return heard or got == (0, b"0::/\n", b"")

    def of_mount(_, *got):
        """A mount that is there works."""
        names = got[0] == 0 and outcome(lambda: (os.mkdir(at + "/a"), sorted(os.listdir(at + "/a")))[1][:1])
        if names not in (False, ["cgroup.controllers"]):
            odd.append(names)
        while " %s " % at in open("/proc/self/mounts").read():
            subprocess.run(["fusermount3", "-u", at], stderr=subprocess.DEVNULL)
        return (*got, names) == (0, b"", b"", ["cgroup.controllers"])

    each_start("a run", of_run, "run", *keep, "cat", "/proc/self/cgroup")
    each_start("a mount", of_mount, "mount", *keep, at)
    same("what mounts that began answered else", odd, [])
    os.rmdir(at)


def beginnings():
    """A mount that cannot get its signal handlers, and so ends before its threads begin, whose allocations are libfuse's. One that is
    refused before libfuse begins ends it at once; but for the first, which the C library doesn't need."""
    at, wrong, whys = tempfile.mkdtemp(), [], []
    words = [PROGRAM, "mount", at, "--keep", "memory,cpu,io,cpuset"]
    preload = {"LD_PRELOAD": "%s %s" % (LIBRARY, os.path.join(os.path.dirname(LIBRARY), "no_signals.so"))}
    for nth in range(1, MOST):
        memory.refuse(nth)
        ran = subprocess.run(words, stderr=subprocess.PIPE, timeout=PATIENCE, env=dict(os.environ, **preload))
        refused = memory.refused()
        said = [line for line in ran.stderr.decode().splitlines() if not line.startswith("fuse: ")]
        if (ran.returncode, len(said), os.path.ismount(at)) != (2, 1, False):
            wrong.append((nth, ran.returncode, said))
        whys.append(said[-1] if said else "")
        if not refused:
            break
    same("a beginning with each of %d refused" % (nth - 1), wrong[:3], [])
    own = whys[1 : next((i for i, why in enumerate(whys) if "no file system can be mounted" in why), 0)]
    same("before libfuse begins", set(own), {"makhloeum: out of memory"})
    os.rmdir(at)


# ---------------------------------------------------------------- real processes of a mount

CHILDREN = "read x; sleep 600 & sleep 600 & echo; wait"


class Family:
    """A process with two children that come after it was moved to a group."""

    def __init__(self, procs=None):
        # it has none of this test's pipes: else who reads one would wait for it where this test is broken off
        pipes = dict(stdin=subprocess.PIPE, stdout=subprocess.PIPE, stderr=subprocess.DEVNULL)
        self.process = subprocess.Popen(["sh", "-c", CHILDREN], **pipes)
        self.all = [self.process.pid]
        if procs:
            write(procs, b"%d" % self.process.pid)
            self.grow()

    def grow(self):
        self.process.stdin.write(b"\n")
        self.process.stdin.flush()
        self.process.stdout.readline()
        self.all += map(int, open("/proc/%d/task/%d/children" % (self.process.pid, self.process.pid)).read().split())

    def alive(self):
        return sum(map(is_alive, self.all))

    def end(self):
        for pid in self.all:
            if is_alive(pid):
                os.kill(pid, signal.SIGKILL)
        self.process.wait(PATIENCE)
        self.process.stdin.close()
        self.process.stdout.close()


def kills(name, group, faults=GOOD):
    """A kill with each allocation refused: all are dead and gone, or all are alive and listed."""
    wrong, failed = [], 0
    for nth, rest in places():
        family = Family(group + "/cgroup.procs")
        memory.refuse(nth, rest)
        got = outcome(lambda: write(group + "/cgroup.kill", b"1"))
        refused = memory.refused()
        failed += got is not None
        wanted = (0, b"0\n") if got is None else (3, b"3\n")
        if (
            got is None
            and not until(lambda: family.alive() == 0)
            or (family.alive(), read(group + "/pids.current")) != wanted
            or got not in (None, *faults)
        ):
            wrong.append((nth, got, family.alive(), read(group + "/pids.current")))
        family.end()
        until(lambda: read(group + "/pids.current") == b"0\n")
        if not refused and not rest:
            break
    same("%s: %d refused, %d failed" % (name, nth - 1, failed), wrong[:2], [])
    step("%s: they were refused" % name, 1 < nth < MOST - 1, nth)


def adopted():
    m = Mount("--adopt", preload=LIBRARY)
    group = m.path("a")
    os.mkdir(group)
    kills("a kill of adopted processes", group)
    family = Family()

    def state():
        return (
            b"%d" % family.process.pid in read(group + "/cgroup.procs").split(),
            b"%d" % family.process.pid in read(m.path("cgroup.procs")).split(),
        )

    def again():
        nonlocal family
        family.end()
        family = Family()

    each("an adoption", lambda: write(group + "/cgroup.procs", b"%d" % family.process.pid), state, again)
    os.mkdir(m.path("b"))

    def moves(*names):
        write(m.path(*names, "cgroup.procs"), b"%d" % family.process.pid)

    def where():
        return [b"%d" % family.process.pid in read(m.path(*at, "cgroup.procs")).split() for at in ((), "a", "b")]

    each("a move of who was adopted before", lambda: moves("b"), where, lambda: moves("a"))
    wrong = []
    for nth, rest in places():
        family.end()
        until(lambda: read(group + "/pids.current") == b"0\n")
        family = Family(group + "/cgroup.procs")
        memory.refuse(nth, rest)
        got = outcome(lambda: read(group + "/pids.current"))
        refused = memory.refused()
        if got not in (b"3\n", "ENOMEM") or read(group + "/pids.current") != b"3\n":
            wrong.append((nth, rest, got))
        if not refused and not rest:
            break
    same("a read that finds new children", wrong, [])
    wrong = []
    for nth, rest in places():
        family.end()
        until(lambda: family.alive() == 0)
        memory.refuse(nth, rest)
        got = outcome(lambda: read(group + "/pids.current"))
        refused = memory.refused()
        if got not in (b"0\n", "ENOMEM") or not until(lambda: read(group + "/pids.current") == b"0\n"):
            wrong.append((nth, rest, got))
        family = Family(group + "/cgroup.procs")
        until(lambda: read(group + "/pids.current") == b"3\n")
        if not refused and not rest:
            break
    same("a read that finds deaths", wrong, [])
    step("they were refused", 1 < nth < MOST - 1, nth)
    family.end()
    step("it is unmounted", m.unmounted())
    same("the process ends with the mount", m.ended(), 0)
    step("cgreplay gives the same answers", m.replay())


# ---------------------------------------------------------------- a run


def statfs():
    about = (ctypes.c_long * 64)()
    if libc.statfs(AT.encode(), about):
        raise OSError(ctypes.get_errno(), "statfs")
    return about[0]


def inside_texts():
    os.makedirs(AT + "/a/b")
    write(AT + "/a/b/cgroup.procs", b"0")
    each("/proc/self/cgroup", lambda: read("/proc/self/cgroup"))
    each("/proc/self/mountinfo", lambda: read("/proc/self/mountinfo"))
    each("the status of another", lambda: read("/proc/%d/cgroup" % os.getppid()))
    same("what it is", read("/proc/self/cgroup"), b"0::/a/b\n")
    each("a stat of a group", lambda: os.stat(AT + "/a/b").st_nlink)
    each("a statfs", statfs)
    same("it is a cgroup2", statfs(), 0x63677270)
    each("an open", lambda: os.close(os.open(AT + "/a/b/cgroup.procs", os.O_RDONLY)))


def inside_tables():
    """The server has room for 32 tables of mounts. One that could not be opened takes none of it, or only until 1,024 others came."""

    def fails(nth):
        memory.refuse(nth)
        got = outcome(lambda: os.close(os.open("/proc/self/mountinfo", os.O_RDONLY)))
        return memory.refused() and got == "ENOMEM"

    for nth in reversed([n for n in range(1, 30) if fails(n)]):  # the last first, after which nothing stays
        for _ in range(40):
            fails(nth)
    for _ in range(1100):
        outcome(lambda: read("/proc/self/mountinfo"))
    held = []
    got = {outcome(lambda: held.append(os.open("/proc/self/mountinfo", os.O_RDONLY))) for _ in range(28)}
    same("then there is room for 28 that are open", got, {None})


def fork():
    """The status of a child that ends at once."""
    pid = os.fork()
    if pid == 0:
        os._exit(0)
    return os.waitpid(pid, 0)[1]


def clone_into(fd):
    args = (ctypes.c_uint64 * 11)(0x200000000, 0, 0, 0, signal.SIGCHLD, 0, 0, 0, 0, 0, fd)
    pid = libc.syscall(435, args, 88)
    if pid == 0:
        libc._exit(0)
    if pid < 0:
        raise OSError(ctypes.get_errno(), "clone3")
    return os.waitpid(pid, 0)[1]


def inside_forks():
    os.mkdir(AT + "/a")
    write(AT + "/a/cgroup.procs", b"0")
    write(AT + "/a/pids.max", b"3")
    fd = os.open(AT + "/a", os.O_RDONLY)

    def state():
        until(lambda: read(AT + "/a/pids.current") == b"1\n")
        return texts(AT, ("a",), ("pids.current", "pids.events", "cgroup.procs"))

    each("a fork", fork, state, faults=FORKS)
    each("a clone3 into a group", lambda: clone_into(fd), state, faults=FORKS)
    os.close(fd)
    many_forks()


def paused():
    pid = os.fork()
    while pid == 0:
        libc.pause()
    return pid


ZOMBIES, ZOMBIE = 64, 12  # for how many zombies there is room at first, and the bytes of one


def many_forks():
    """There is room for each process to become a zombie, or it isn't made."""
    write(AT + "/a/pids.max", b"max")
    made, failed = set(), []
    while len(made) < 2 * ZOMBIES:
        memory.refuse(1, True, 2 * ZOMBIES * ZOMBIE)
        got = outcome(paused)
        memory.refused()
        failed += [got] if got in FORKS else []
        made.add(paused() if got in FORKS else got)
    same("forks without room for a zombie", failed, ["ENOMEM"])
    children = set(map(int, read("/proc/thread-self/children").split()))
    same("what returned and is no child", made - children, set())
    for pid in children:
        os.kill(pid, signal.SIGKILL)
        os.waitpid(pid, 0)


STEPS, STEP = 64, 24  # how many steps of several commands have room at first, and the bytes of one


def inside_steps():
    """A child in another group is two commands, which are undone as one. Without room for such a step there is no child."""
    os.mkdir(AT + "/a")
    fd = os.open(AT + "/a", os.O_RDONLY)

    def state():
        until(lambda: read(AT + "/a/pids.current") == b"0\n")
        return int(read(AT + "/.makhloeum/depth"))

    before = state()
    for _ in range(STEPS):
        clone_into(fd)
    same("a birth and an exit of each", state(), before + 2 * STEPS)
    memory.refuse(1, True, 2 * STEPS * STEP)
    got = outcome(lambda: clone_into(fd))
    step("room for more is refused", memory.refused() > 0)
    same("one more", (got in FORKS, state()), (True, before + 2 * STEPS))
    same("once there is room", (clone_into(fd), state()), (0, before + 2 * STEPS + 2))
    os.close(fd)


def inside_spaces():
    """The root of a new namespace is the group of its maker, or there is no new namespace."""
    os.makedirs(AT + "/a/b")

    def unshare():
        """In a child, which reports what it sees."""
        ends = os.pipe()
        pid = os.fork()
        if pid == 0:
            write(AT + "/a/b/cgroup.procs", b"0")
            memory.refuse(nth, rest)
            failed = libc.unshare(0x12000000)  # with a user namespace, in which it may
            refused = memory.refused()
            os.write(ends[1], b"%d %d %s" % (refused, failed and ctypes.get_errno(), read("/proc/self/cgroup")))
            os._exit(0)
        os.waitpid(pid, 0)
        os.close(ends[1])
        told = os.read(ends[0], 4096).split()
        os.close(ends[0])
        return int(told[0]), (int(told[1]), told[2])

    wrong = []
    for nth, rest in places():
        refused, told = unshare()
        if told not in ((0, b"0::/"), (errno.ENOMEM, b"0::/a/b")):
            wrong.append((nth, rest, told))
        if not refused and not rest:
            break
    same("namespaces with %d refused" % (nth - 1), wrong, [])
    step("they were refused", 1 < nth < MOST - 1, nth)


def inside_kills():
    os.mkdir(AT + "/a")
    kills("a kill under run", AT + "/a")


def inside_zombies():
    """A zombie is not listed, does not populate its group, and does not keep it from being removed."""
    os.mkdir(AT + "/a")
    dead = []

    def again():
        while dead:
            os.waitpid(dead.pop(), 0)
        if not os.path.isdir(AT + "/a"):
            os.mkdir(AT + "/a")
        pid = os.fork()
        if pid == 0:
            write(AT + "/a/cgroup.procs", b"0")
            os._exit(0)
        dead.append(pid)
        os.waitid(os.P_PID, pid, os.WEXITED | os.WNOWAIT)

    again()
    same(
        "a zombie",
        (read(AT + "/a/cgroup.procs"), read(AT + "/a/cgroup.events"), read(AT + "/a/pids.current")),
        (b"", b"populated 0\nfrozen 0\n", b"1\n"),
    )
    each("a read of cgroup.procs with a zombie", lambda: read(AT + "/a/cgroup.procs"))
    each("a read of cgroup.events with a zombie", lambda: read(AT + "/a/cgroup.events"))
    each("a rmdir with a zombie", lambda: os.rmdir(AT + "/a"), lambda: os.path.isdir(AT + "/a"), again)
    os.waitpid(dead.pop(), 0)


def inside_domains():
    """Zombies are no processes of a group, for the rules of controllers. Without memory to tell a zombie a call fails by that."""
    write(AT + "/cgroup.subtree_control", b"+pids +cpu +memory")
    for g in ("/a/b", "/c/d", "/e/f"):
        os.makedirs(AT + g)
    write(AT + "/a/cgroup.subtree_control", b"+pids +cpu")
    dead = []
    for g in ("/a", "/c/d", "/e"):
        dead.append(os.fork())
        if dead[-1] == 0:
            write(AT + g + "/cgroup.procs", b"0")
            os._exit(0)
        os.waitid(os.P_PID, dead[-1], os.WEXITED | os.WNOWAIT)
    where = lambda: read("/proc/self/cgroup")
    back = lambda: write(AT + "/cgroup.procs", b"0")
    enabled = lambda: texts(AT, ("a", "c", "e"), ("cgroup.subtree_control",))
    enable = lambda group, words: lambda: write(AT + group + "/cgroup.subtree_control", words)
    each("a move below a zombie", lambda: write(AT + "/a/b/cgroup.procs", b"0"), where, back)
    each("the type of a zombie's group", lambda: read(AT + "/a/cgroup.type"))
    each("the type below it", lambda: read(AT + "/a/b/cgroup.type"))
    each("memory beside a zombie", enable("/a", b"+memory"), enabled, enable("/a", b"-memory"))
    each("cpu beside a zombie", enable("/e", b"+cpu"), enabled, enable("/e", b"-cpu"))
    write(AT + "/c/cgroup.subtree_control", b"+cpu")
    each("a move above a zombie", lambda: write(AT + "/c/cgroup.procs", b"0"), where, back)
    write(AT + "/c/cgroup.subtree_control", b"-cpu")
    lives = [subprocess.Popen(["sleep", "600"]) for _ in range(2)]
    for group, process in zip(("/c", "/c/d"), lives):
        write(AT + group + "/cgroup.procs", b"%d" % process.pid)
    each("cpu in a group with a process, above another", enable("/c", b"+cpu"), enabled)
    for process in lives:
        process.kill()
        process.wait()
    for pid in dead:
        os.waitpid(pid, 0)


COUNTS = """
import os, time
while True:
    os.write(1, b"x")
    time.sleep(0.001)
"""


def inside_freezer():
    """Whatever is refused, `frozen 1` is never said while the process runs; a freeze stops it, or fails and does not."""
    os.mkdir(AT + "/a")
    process = subprocess.Popen([sys.executable, "-S", "-c", COUNTS], stdout=subprocess.PIPE)
    os.set_blocking(process.stdout.fileno(), False)
    write(AT + "/a/cgroup.procs", b"%d" % process.pid)

    def counts():
        try:
            return os.read(process.stdout.fileno(), 1 << 20) != b""
        except BlockingIOError:
            return False

    def is_frozen():
        return read(AT + "/a/cgroup.events").split()[3] == b"1"

    def freeze(value):
        write(AT + "/a/cgroup.freeze", value)

    wrong, failed, reads = [], 0, 0
    for nth, rest in places():
        until(counts)
        memory.refuse(nth, rest)
        got = outcome(lambda: freeze(b"1"))
        refused = memory.refused()
        failed += got is not None
        if got is None:
            right = until(is_frozen) and (counts(), time.sleep(0.01), counts())[2] is False
        else:
            right = got == "ENOMEM" and read(AT + "/a/cgroup.freeze") == b"0\n" and not is_frozen()
        memory.refuse(nth, rest)
        told = outcome(is_frozen)
        refused += memory.refused()
        reads += told == "ENOMEM"
        if not right or told not in (got is None, "ENOMEM"):
            wrong.append((nth, rest, got, told))
        freeze(b"0")
        if not until(counts):
            wrong.append((nth, rest, got, "it does not run again"))
        memory.refuse(nth, rest)
        told = outcome(lambda: freeze(b"1"))
        refused += memory.refused()
        memory.refuse(nth, rest)
        said = outcome(is_frozen)  # at once, while it may be running
        refused += memory.refused()
        counts()
        time.sleep(0.005)
        if said is True and counts():
            wrong.append((nth, rest, told, "frozen 1 of a process that runs"))
        freeze(b"0")
        if not refused and not rest:
            break
    same("a freezer with %d refused, %d failed, %d reads failed" % (nth - 1, failed, reads), wrong[:3], [])
    step("they were refused", 1 < nth < MOST - 1, nth)
    process.kill()
    process.wait(PATIENCE)
    process.stdout.close()


def inside_undone():
    """An undo brings a process back into a frozen group. Without memory to stop it then, the next operation stops it."""
    for group in ("/cold", "/warm"):
        os.mkdir(AT + group)
    process = subprocess.Popen([sys.executable, "-S", "-c", COUNTS], stdout=subprocess.DEVNULL)
    pid = b"%d" % process.pid
    write(AT + "/cold/cgroup.freeze", b"1")
    is_frozen = lambda: read(AT + "/cold/cgroup.events") == b"populated 1\nfrozen 1\n"
    wrong = []
    for nth, rest in places():
        write(AT + "/cold/cgroup.procs", pid)
        moved = until(is_frozen)
        write(AT + "/warm/cgroup.procs", pid)
        memory.refuse(nth, rest)
        got = outcome(lambda: write(AT + "/.makhloeum/undo", b"1"))
        refused = memory.refused()
        right = until(is_frozen) if got is None else got == "ENOMEM" and read(AT + "/warm/cgroup.procs") == pid + b"\n"
        if not moved or not right:
            wrong.append((nth, rest, got, moved))
            break
        if not refused and not rest:
            break
    same("undos with memory refused", wrong, [])
    step("they were refused", 1 < nth < MOST - 1, nth)
    process.kill()
    process.wait(PATIENCE)


OF_MOUNT = (starts, numbers, grown, unkept, adopted, beginnings)
INSIDE = (
    inside_freezer,
    inside_undone,
    inside_forks,
    inside_steps,
    inside_spaces,
    inside_kills,
    inside_texts,
    inside_tables,
    inside_zombies,
    inside_domains,
)
OPTIONS = {inside_domains: ("--keep", "cpu,memory"), inside_steps: ("--control",), inside_undone: ("--control",)}
if sys.argv[1:2] == ["inside"]:
    {t.__name__: t for t in OF_MOUNT + INSIDE}[sys.argv[2]]()
    finish()


def few_descriptors():
    resource.setrlimit(resource.RLIMIT_NOFILE, (256, 256))


def part(name, *start, before=None, **words):
    own = Memory()
    ran = subprocess.run(
        [*start, sys.executable, ME, "inside", name],
        timeout=6 * PATIENCE,
        stdout=subprocess.PIPE,
        stderr=subprocess.PIPE,
        preexec_fn=before,
        env=dict(os.environ, NO_MEMORY=own.file, **words),
    )
    os.unlink(own.file)
    said = ran.stdout.decode() + "".join(
        line for line in ran.stderr.decode().splitlines(True) if not line.startswith("fuse: ")
    )
    print(said.rstrip("\n"), flush=True)
    same("the status of %s" % name, ran.returncode, 0)


wanted = [t for t in (*OF_MOUNT, *INSIDE) if t.__name__ in sys.argv[1:] or not sys.argv[1:]]
in_parallel(part, [t.__name__ for t in wanted if t in OF_MOUNT])
# not beside a mount, which would live on in their namespaces
in_parallel(
    lambda t: part(
        t.__name__,
        PROGRAM,
        "run",
        *OPTIONS.get(t, ()),
        before=few_descriptors if t is inside_tables else None,
        LD_PRELOAD=LIBRARY,
    ),
    [t for t in wanted if t in INSIDE],
)
finish()
