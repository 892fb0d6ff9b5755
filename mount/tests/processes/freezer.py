"""The freezer. Without real processes a group is frozen immediately; under `makhloeum run` processes really stop. This file is also
the program (freezer.py inside NAME)."""
import ctypes
import os
import re
import select
import shutil
import signal
import subprocess
import sys
import tempfile

sys.path.insert(0, os.path.dirname(os.path.dirname(os.path.realpath(__file__))))
from support import AT, PATIENCE, PROGRAM, Beside, Mount
from support import error_of, finish, in_parallel, libc, line_of, read, rests, same, step, tracer, until, write

ME = os.path.realpath(__file__)
THAWED, FROZEN = b"frozen 0\n", b"frozen 1\n"


def frozen(group):
    return read(group + "/cgroup.events").splitlines(True)[1]


# ---------------------------------------------------------------- a mount of numbers


def numbers():
    m = Mount("--extra")
    os.makedirs(m.path("a", "b"))
    os.mkdir(m.path("c"))
    a, b, c = m.path("a"), m.path("a", "b"), m.path("c")
    same("thawed at first", (frozen(a), read(a + "/cgroup.freeze")), (THAWED, b"0\n"))
    same("the root has no such file", error_of(read, m.path("cgroup.freeze")), "ENOENT")
    for value, error in (
        (b"2\n", "ERANGE"),
        (b"-1\n", "ERANGE"),
        (b"x\n", "EINVAL"),
        (b"\n", "EINVAL"),
        (b"99999999999999999999\n", "ERANGE"),
        (b" 0x0 \n", "ok"),
        (b"1" * 5000, "E2BIG"),
    ):
        same("writing %r" % value[:9], error_of(write, a + "/cgroup.freeze", value), error)
        same("it is as it was", read(a + "/cgroup.freeze"), b"0\n")
    write(a + "/cgroup.freeze", b"1\n")
    same("a frozen group", (frozen(a), read(a + "/cgroup.freeze")), (FROZEN, b"1\n"))
    write(m.control("fork"), b"1 2")
    for group in (a, b):
        write(group + "/cgroup.procs", b"2")
        same("at once with a process", read(group + "/cgroup.events"), b"populated 1\n" + FROZEN)
    write(m.control("exit"), b"2")
    same("the group below", (frozen(b), read(b + "/cgroup.freeze")), (FROZEN, b"0\n"))
    same("the other group", frozen(c), THAWED)
    write(b + "/cgroup.freeze", b"1\n")
    write(a + "/cgroup.freeze", b"0\n")
    same("thawed above, frozen itself", (frozen(a), frozen(b)), (THAWED, FROZEN))
    os.mkdir(m.path("a", "b", "d"))
    same("a new group below", frozen(m.path("a", "b", "d")), FROZEN)
    os.rmdir(m.path("a", "b", "d"))
    os.rmdir(b)
    os.mkdir(b)
    same("a new group of that name", (frozen(b), read(b + "/cgroup.freeze")), (THAWED, b"0\n"))
    for at in (b, c):
        write(at + "/cgroup.freeze", b"1\n")
    os.rmdir(b)
    same("one of two frozen groups is removed", frozen(c), FROZEN)
    os.mkdir(b)
    write(c + "/cgroup.freeze", b"1\n")
    write(b + "/cgroup.freeze", b"1\n")
    write(m.control("undo"), b"\n")
    same("or its mkdir is undone", (error_of(os.stat, b), frozen(c)), ("ENOENT", FROZEN))
    write(c + "/cgroup.freeze", b"0\n")
    same("then no group is frozen", [frozen(g) for g in (a, c)], [THAWED] * 2)
    step("the engine has none of it", "freeze" not in open(m.trace).read())
    m.end()


def notified():
    m = Mount("--extra")
    os.makedirs(m.path("a", "b"))
    fd = os.open(m.path("a", "b", "cgroup.events"), os.O_RDONLY)
    os.pread(fd, 100, 0)
    poller = select.poll()
    poller.register(fd, select.POLLPRI)
    same("nothing has changed", poller.poll(50), [])
    write(m.path("a", "cgroup.freeze"), b"1\n")
    same("a freeze above wakes", [mask & select.POLLPRI for _, mask in poller.poll(1000 * PATIENCE)], [select.POLLPRI])
    same("it reads", os.pread(fd, 100, 0), b"populated 0\nfrozen 1\n")
    write(m.path("a", "cgroup.freeze"), b"1\n")
    same("the same again does not", poller.poll(100), [])
    write(m.path("a", "cgroup.freeze"), b"0\n")
    same("a thaw wakes", [mask & select.POLLPRI for _, mask in poller.poll(1000 * PATIENCE)], [select.POLLPRI])
    os.close(fd)
    m.end()


# ---------------------------------------------------------------- inside

COUNTER = """
import sys, time
n = 0
while True:
    n += 1
    sys.stdout.write("%d\\n" % n)
    sys.stdout.flush()
    time.sleep(0.005)
"""


class Counter:
    """A process in a group that counts in a pipe as long as it runs."""

    def __init__(self, group, program=COUNTER):
        self.process = subprocess.Popen([sys.executable, "-c", program], stdout=subprocess.PIPE)
        write(AT + group + "/cgroup.procs", b"%d\n" % self.process.pid)
        os.set_blocking(self.process.stdout.fileno(), False)
        self.counts()

    def read(self):
        try:
            return os.read(self.process.stdout.fileno(), 1 << 20)
        except BlockingIOError:
            return b""

    def counts(self):
        """Whether it runs again within the patience of these tests."""
        self.read()
        return until(lambda: self.read() != b"")

    def rests(self, times=40):
        """Whether it writes nothing while a process that nobody freezes writes this number of times."""
        self.read()
        while_others_run(times)
        return self.read() == b""

    def end(self):
        self.process.kill()
        self.process.wait(PATIENCE)
        self.process.stdout.close()


def while_others_run(times):
    """Returns when a process that nobody freezes has written this number of times from now on."""
    if not runner:
        runner.append(Counter(""))
    for _ in range(times):
        if not runner[0].counts():
            step("a process that nobody freezes runs", False)
            return


runner = []


def freeze(group, value):
    write(AT + group + "/cgroup.freeze", b"%d\n" % value)


def becomes(name, group, wanted):
    step(name, until(lambda: frozen(AT + group) == wanted), frozen(AT + group))


def stops():
    os.makedirs(AT + "/a/b")
    one, two = Counter("/a"), Counter("/a/b")
    freeze("/a", 1)
    becomes("both have stopped", "/a", FROZEN)
    same("so has the group below", frozen(AT + "/a/b"), FROZEN)
    step("they rest", one.rests() and two.rests())
    freeze("/a/b", 1)
    freeze("/a", 0)
    step("the one above runs", one.counts())
    step("the one below rests", two.rests())
    same("what the files say", (frozen(AT + "/a"), frozen(AT + "/a/b")), (THAWED, FROZEN))
    freeze("/a/b", 0)
    step("it runs again", two.counts())
    for _ in range(100):
        freeze("/a", 1)
        freeze("/a", 0)
    step("after a hundred changes both run", one.counts() and two.counts())
    freeze("/a", 1)
    freeze("/a", 0)
    freeze("/a", 1)
    becomes("frozen again", "/a", FROZEN)
    one.end()
    same("a frozen process can be killed", one.process.returncode, -signal.SIGKILL)
    write(AT + "/a/cgroup.kill", b"1\n")
    same("cgroup.kill ends a frozen one", two.process.wait(PATIENCE), -signal.SIGKILL)
    same("an empty frozen group", read(AT + "/a/cgroup.events"), b"populated 0\nfrozen 1\n")


def moves():
    os.mkdir(AT + "/cold")
    os.mkdir(AT + "/warm")
    freeze("/cold", 1)
    one = Counter("/warm")
    write(AT + "/cold/cgroup.procs", b"%d\n" % one.process.pid)
    becomes("a process that moves in stops", "/cold", FROZEN)
    step("it rests", one.rests())
    write(AT + "/warm/cgroup.procs", b"%d\n" % one.process.pid)
    step("moved out it runs again", one.counts())
    one.end()
    fd = os.open(AT + "/cold", os.O_RDONLY)
    mark = os.path.join(os.environ["TMPDIR"], "mark%d" % os.getpid())
    path = ctypes.create_string_buffer(mark.encode())
    args = (ctypes.c_uint64 * 11)(0x200000000, 0, 0, 0, signal.SIGCHLD, 0, 0, 0, 0, 0, fd)
    pid = libc.syscall(435, args, 88)
    if pid == 0:
        libc.mkdir(path, 0o755)
        libc._exit(0)
    becomes("a child that is born there stops", "/cold", FROZEN)
    while_others_run(40)
    same("before its first instruction", os.path.exists(mark), False)
    freeze("/cold", 0)
    same("it runs again", os.waitpid(pid, 0)[1], 0)
    same("and did what it was made for", os.path.exists(mark), True)
    os.rmdir(mark)


def left():
    """A process that has left a frozen group runs on when another group is frozen."""
    for group in ("/cold", "/warm", "/other"):
        os.mkdir(AT + group)
    one, two = Counter("/cold"), Counter("/other")
    freeze("/cold", 1)
    becomes("it stops", "/cold", FROZEN)
    write(AT + "/warm/cgroup.procs", b"%d\n" % one.process.pid)
    step("moved out it runs again", one.counts())
    freeze("/other", 1)
    becomes("another group stops", "/other", FROZEN)
    step("it still runs", one.counts())
    step("the other one rests", two.rests())
    one.end()
    two.end()


def reordered():
    """Two processes are frozen in one order, and then in the other."""
    for group in ("/a", "/a/first", "/a/last"):
        os.mkdir(AT + group)
    low, high = sorted((Counter("/a"), Counter("/a")), key=lambda counter: counter.process.pid)
    for value, wanted in ((1, FROZEN), (0, THAWED)):
        freeze("/a", value)
        becomes("both of a group", "/a", wanted)
    write(AT + "/a/first/cgroup.procs", b"%d\n" % high.process.pid)
    write(AT + "/a/last/cgroup.procs", b"%d\n" % low.process.pid)
    freeze("/a", 1)
    becomes("each in a group of its own", "/a", FROZEN)
    step("the supervisor rests", rests())
    freeze("/a", 0)
    step("both run again", low.counts() and high.counts())
    low.end()
    high.end()


FORKS = """
import os, sys, time
while True:
    pid = os.fork()
    if pid == 0:
        os._exit(0)
    os.waitpid(pid, 0)
    os.write(1, b"x")
"""
THREADS = """
import os, threading, time
def count():
    while True:
        os.write(1, b"x")
        time.sleep(0.002)
def make():
    while True:
        t = threading.Thread(target=int)
        t.start()
        t.join()
for call in [count] * 6 + [make] * 3:
    threading.Thread(target=call, daemon=True).start()
make()
"""
VFORKS = """
import subprocess, os
while True:
    subprocess.run(["/bin/true"])
    os.write(1, b"x")
"""
LEADERLESS = """
import ctypes, os, threading, time
def count():
    while True:
        os.write(1, b"x")
        time.sleep(0.002)
threading.Thread(target=count, daemon=True).start()
ctypes.CDLL(None).syscall(60 if os.uname().machine == "x86_64" else 93, 0)
"""
MAKER = """
import os, threading, time
threading.Thread(target=time.sleep, args=(600,), daemon=True).start()
while True:
    os.write(1, b"x")
    time.sleep(0.002)
"""


def kinds():
    """Processes that fork, make threads, vfork, have lost their first thread, or made one thread. Another stays frozen meanwhile."""
    os.mkdir(AT + "/still")
    still = Counter("/still")
    freeze("/still", 1)
    becomes("one that stays frozen", "/still", FROZEN)
    for name, program, rounds in (
        ("forks", FORKS, 40),
        ("threads", THREADS, 10),
        ("vforks", VFORKS, 10),
        ("no first thread", LEADERLESS, 10),
        ("maker of a thread", MAKER, 3),
    ):
        group = "/" + name.split()[0]
        os.mkdir(AT + group)
        one = Counter(group, program)
        for _ in range(rounds):
            freeze(group, 1)
            if not until(lambda: frozen(AT + group) == FROZEN):
                break
            if not one.rests(10):  # each of them writes much more often
                break
            freeze(group, 0)
            if not one.counts():
                break
        else:
            step("%d freezes of one with %s" % (rounds, name), True)
            one.end()
            step("the supervisor rests after them", rests())
            continue
        step("freezes of one with " + name, False, read(AT + group + "/cgroup.events"))
        write(AT + group + "/cgroup.kill", b"1\n")
    step("the one that stays frozen rests", still.rests())
    still.end()


def state(task):
    return open("/proc/%s/stat" % task).read().rpartition(")")[2].split()[0]


VFORK = """
import os, sys, threading, time
if sys.argv[2:]:
    threading.Thread(target=time.sleep, args=(600,), daemon=True).start()
os.posix_spawn("/bin/sleep", ["sleep", "600"], {}, file_actions=[(os.POSIX_SPAWN_OPEN, 9, sys.argv[1], os.O_WRONLY, 0)])
os.write(1, b"x")
"""


def vforking(*words):
    """A process in /a that waits for its child's exec; the child, in /b; and the fifo that the child opens before the exec."""
    os.mkdir(AT + "/a")
    os.mkdir(AT + "/b")
    fifo = tempfile.mkdtemp() + "/fifo"
    os.mkfifo(fifo)
    parent = subprocess.Popen(
        [sys.executable, "-c", VFORK, fifo, *words],
        stdout=subprocess.PIPE,
        preexec_fn=lambda: write(AT + "/a/cgroup.procs", b"0\n"),
    )
    there = lambda: [int(p) for p in read(AT + "/a/cgroup.procs").split() if int(p) != parent.pid]
    step("it has a child", until(there))
    child = there()[0]
    step(
        "which waits before the exec, and the parent for it",
        until(lambda: (state(parent.pid), state(child)) == ("D", "S")),
    )
    write(AT + "/b/cgroup.procs", b"%d\n" % child)
    return parent, child, fifo


def thaws(parent, fifo):
    """The end of such a process."""
    freeze("/a", 0)
    same("and goes on once it is thawed", (parent.wait(PATIENCE), parent.stdout.read(1)), (0, b"x"))
    parent.stdout.close()
    write(AT + "/b/cgroup.kill", b"1")
    shutil.rmtree(os.path.dirname(fifo))


def vforked():
    """A process waits for its child's exec while it is frozen. The child, in another group, goes on."""
    parent, child, fifo = vforking()
    freeze("/a", 1)
    becomes("the parent is frozen", "/a", FROZEN)
    os.close(os.open(fifo, os.O_RDONLY))
    step("the child is another program", until(lambda: line_of(child).startswith(b"sleep")))
    while_others_run(40)
    same("the parent rests", select.select([parent.stdout], [], [], 0)[0], [])
    thaws(parent, fifo)


def at_once():
    """The same with another thread, which a signal has stopped and another signal continues. The supervisor hears of that, of the exec,
    and of the stop of the first thread at once: nobody is told that the process runs."""
    signal.pthread_sigmask(signal.SIG_BLOCK, [signal.SIGCHLD])  # at a signal this process waits for the supervisor
    parent, child, fifo = vforking("beside")
    supervisor = tracer()
    other = next(int(n) for n in os.listdir("/proc/%d/task" % parent.pid) if int(n) != parent.pid)
    beside = "%d/task/%d" % (parent.pid, other)

    def others_run():
        """A child is made and ends: so the supervisor has answered each stop that there was."""
        pid = os.fork()
        if pid == 0:
            os._exit(0)
        os.waitpid(pid, 0)

    def switches():
        line = next(x for x in open("/proc/%s/status" % beside) if x.startswith("voluntary_ctxt_switches"))
        return int(line.split()[1])

    same("a signal to the other thread", libc.tgkill(parent.pid, other, signal.SIGSTOP), 0)
    for what in ("at the signal", "and is stopped by it"):
        step("it stops " + what, until(lambda: state(beside) == "t"))
        others_run()
    freeze("/a", 1)
    becomes("the parent is frozen", "/a", FROZEN)
    fd = os.open(AT + "/a/cgroup.events", os.O_RDONLY)
    same("the file reads", os.pread(fd, 100, 0), b"populated 1\n" + FROZEN)
    poller = select.poll()
    poller.register(fd, select.POLLPRI)
    same("nothing has changed", poller.poll(0), [])
    os.kill(supervisor, signal.SIGSTOP)
    is_alone, before = until(lambda: state(supervisor) == "T"), switches()
    os.kill(parent.pid, signal.SIGCONT)
    is_continued = until(lambda: switches() > before and state(beside) == "t")
    os.close(os.open(fifo, os.O_RDONLY))
    parent_stops = until(lambda: state(parent.pid) == "t" and line_of(child).startswith(b"sleep"))
    os.kill(supervisor, signal.SIGCONT)
    same(
        "while the supervisor is stopped, the other thread stops again, and so does the first after the exec",
        (is_alone, is_continued, parent_stops),
        (True, True, True),
    )
    step("the child runs", until(lambda: state(child) == "S"))
    others_run()
    same("nobody is told", (poller.poll(0), os.pread(fd, 100, 0)), ([], b"populated 1\n" + FROZEN))
    os.close(fd)
    thaws(parent, fifo)


EXECS = """
import ctypes, os, sys, threading
libc = ctypes.CDLL(None)
actions, pid, words = ctypes.create_string_buffer(256), ctypes.c_int(), (ctypes.c_char_p * 3)(b"sleep", b"600", None)
libc.posix_spawn_file_actions_init(actions)
libc.posix_spawn_file_actions_addopen(actions, 9, sys.argv[1].encode(), os.O_WRONLY, 0)
spawn = lambda: libc.posix_spawn(ctypes.byref(pid), b"/bin/sleep", actions, None, words, None)
threading.Thread(target=spawn).start()
sys.stdin.readline()
os.execv("/bin/sleep", ["sleep", "600"])
"""


def executed():
    """A thread that waits for its child's exec is killed by the exec of another thread. The new program can be frozen."""
    os.mkdir(AT + "/a")
    os.mkdir(AT + "/b")
    home = tempfile.mkdtemp()
    os.mkfifo(home + "/fifo")
    parent = subprocess.Popen(
        [sys.executable, "-c", EXECS, home + "/fifo"],
        stdin=subprocess.PIPE,
        preexec_fn=lambda: write(AT + "/a/cgroup.procs", b"0\n"),
    )
    there = lambda: [int(p) for p in read(AT + "/a/cgroup.procs").split() if int(p) != parent.pid]
    step("it has a child", until(there))
    write(AT + "/b/cgroup.procs", b"%d\n" % there()[0])
    parent.stdin.write(b"\n")
    parent.stdin.close()
    step("it is another program", until(lambda: line_of(parent.pid).startswith(b"sleep")))
    freeze("/a", 1)
    becomes("which is frozen", "/a", FROZEN)
    for group in ("/a", "/b"):
        write(AT + group + "/cgroup.kill", b"1")
    same("it is killed", parent.wait(PATIENCE), -signal.SIGKILL)
    shutil.rmtree(home)


def again():
    """A process that is thawed and frozen again before its supervisor looks stays frozen."""
    os.mkdir(AT + "/a")
    one, supervisor = Counter("/a"), tracer()
    while_others_run(1)  # the process that nobody freezes is there from now on
    freeze("/a", 1)
    becomes("it is frozen", "/a", FROZEN)
    os.kill(supervisor, signal.SIGSTOP)
    until(lambda: state(supervisor) == "T")
    freeze("/a", 0)
    freeze("/a", 1)
    os.kill(supervisor, signal.SIGCONT)
    becomes("and frozen again", "/a", FROZEN)
    step("it rests", one.rests())
    freeze("/a", 0)
    step("it runs again", one.counts())
    one.end()


def partly():
    """A group is frozen once each process has stopped, in whichever group below: one more comes while the supervisor is stopped."""
    for g in ("/q", "/p", "/p/a", "/p/b", "/p/c"):
        os.mkdir(AT + g)
    one, supervisor = Counter("/q"), tracer()
    others = [Counter("/p/" + g) for g in "ac"]
    freeze("/p", 1)
    becomes("all are frozen", "/p", FROZEN)
    for g in "abc":
        os.kill(supervisor, signal.SIGSTOP)
        until(lambda: state(supervisor) == "T")
        write(AT + "/p/%s/cgroup.procs" % g, b"%d\n" % one.process.pid)
        same("one more is in /p/%s, and has not stopped" % g, frozen(AT + "/p"), THAWED)
        os.kill(supervisor, signal.SIGCONT)
        becomes("then it has", "/p", FROZEN)
        write(AT + "/q/cgroup.procs", b"%d\n" % one.process.pid)
    freeze("/p", 0)
    for each in (one, *others):
        each.end()


def signals():
    """The program's job control works together with the freezer."""
    os.mkdir(AT + "/a")
    one = Counter("/a")
    one.process.send_signal(signal.SIGSTOP)
    same("a stop", os.waitpid(one.process.pid, os.WUNTRACED)[1] & 0xFF, 0x7F)
    freeze("/a", 1)
    becomes("a stopped process is frozen", "/a", FROZEN)
    step("and the supervisor rests", rests())
    one.process.send_signal(signal.SIGCONT)
    step("continued it still rests", one.rests())
    freeze("/a", 0)
    step("thawed it runs again", one.counts())
    freeze("/a", 1)
    becomes("frozen", "/a", FROZEN)
    one.process.send_signal(signal.SIGSTOP)
    freeze("/a", 0)
    same("a stop that was sent meanwhile", os.waitpid(one.process.pid, os.WUNTRACED)[1] & 0xFF, 0x7F)
    step("it rests", one.rests())
    one.process.send_signal(signal.SIGCONT)
    step("continued it runs again", one.counts())
    freeze("/a", 1)
    becomes("frozen", "/a", FROZEN)
    one.process.send_signal(signal.SIGTERM)
    while_others_run(20)
    same("a signal waits", one.process.poll(), None)
    freeze("/a", 0)
    same("it comes after the thaw", one.process.wait(PATIENCE), -signal.SIGTERM)
    one.process.stdout.close()


def itself():
    """A process that freezes its own group stops soon after the write; another lets it go."""
    os.mkdir(AT + "/a")
    one = subprocess.Popen(
        ["sh", "-c", "echo 0 > %s/a/cgroup.procs; echo 1 > %s/a/cgroup.freeze; read x; exit 5" % (AT, AT)],
        stdin=subprocess.PIPE,
    )
    becomes("it stops", "/a", FROZEN)
    one.stdin.write(b"\n")
    one.stdin.close()
    while_others_run(40)
    same("it has not ended", one.poll(), None)
    freeze("/a", 0)
    same("it ends", one.wait(PATIENCE), 5)


def first():
    """The first process of the run is frozen: its child sees that, and lets it go on."""
    os.mkdir(AT + "/a")
    freeze("/a", 1)
    pid = os.fork()
    if pid == 0:
        seen = until(lambda: read(AT + "/a/cgroup.events") == b"populated 1\nfrozen 1\n")
        freeze("/a", 0)
        os._exit(0 if seen else 1)
    write(AT + "/a/cgroup.procs", b"0")
    same("a child sees it", os.waitpid(pid, 0)[1], 0)
    same("and it goes on", read("/proc/self/cgroup"), b"0::/a\n")


def told():
    os.mkdir(AT + "/a")
    one = Counter("/a")
    fd = os.open(AT + "/a/cgroup.events", os.O_RDONLY)
    os.pread(fd, 100, 0)
    poller = select.poll()
    poller.register(fd, select.POLLPRI)
    for value, text in ((1, FROZEN), (0, THAWED)) * 3:
        freeze("/a", value)
        same(
            "freeze %d wakes" % value,
            [mask & select.POLLPRI for _, mask in poller.poll(1000 * PATIENCE)],
            [select.POLLPRI],
        )
        same("it reads", os.pread(fd, 100, 0), b"populated 1\n" + text)
    one.end()
    os.close(fd)


def many():
    """A hundred processes."""
    os.mkdir(AT + "/a")
    all_of = [subprocess.Popen(["sleep", "600"]) for _ in range(100)]
    for p in all_of:
        write(AT + "/a/cgroup.procs", b"%d\n" % p.pid)
    for _ in range(3):
        freeze("/a", 1)
        becomes("a hundred stop", "/a", FROZEN)
        freeze("/a", 0)
        same("and run again", frozen(AT + "/a"), THAWED)
    freeze("/a", 1)
    write(AT + "/a/cgroup.kill", b"1\n")
    same("all are killed", {p.wait(PATIENCE) for p in all_of}, {-signal.SIGKILL})


def wide():
    """Groups whose paths have more than 64 KiB together: a freeze and a kill above them reach the processes of all."""
    os.mkdir(AT + "/a")
    groups = ["/a/%03d%s" % (i, "n" * 252) for i in range(300)]
    for each in groups:
        os.mkdir(AT + each)
    first, last = Counter(groups[0]), Counter(groups[-1])

    def ends(name, file):
        """A write of 1 ends. If it does not, the run can't end by itself."""
        got = Beside(lambda: write(AT + "/a/" + file, b"1\n") or "done").result()
        same(name, got, "done")
        if got is None:
            os.kill(tracer(), signal.SIGKILL)
            signal.pause()

    ends("a freeze", "cgroup.freeze")
    becomes("all have stopped", "/a", FROZEN)
    same("each group is frozen", [frozen(AT + each) for each in groups], [FROZEN] * len(groups))
    step("they rest", first.rests() and last.rests())
    freeze("/a", 0)
    step("they run again", first.counts() and last.counts())
    ends("a kill", "cgroup.kill")
    same("both are killed", [one.process.wait(PATIENCE) for one in (first, last)], [-signal.SIGKILL] * 2)
    same("nobody is left", read(AT + "/a/cgroup.events"), b"populated 0\nfrozen 0\n")


def undone():
    """An undo that moves a process into a frozen group stops it, and one that moves it out lets it go on."""
    os.mkdir(AT + "/cold")
    os.mkdir(AT + "/warm")
    one = Counter("/warm")
    while_others_run(1)  # this process is made before, since an undo takes the newest operation back
    freeze("/cold", 1)
    write(AT + "/cold/cgroup.procs", b"%d\n" % one.process.pid)
    becomes("it stops", "/cold", FROZEN)
    step("it rests", one.rests())
    write(AT + "/.makhloeum/undo", b"\n")
    same("where it was", read(AT + "/warm/cgroup.procs"), b"%d\n" % one.process.pid)
    step("it runs again", one.counts())
    write(AT + "/cold/cgroup.procs", b"%d\n" % one.process.pid)
    becomes("it stops", "/cold", FROZEN)
    write(AT + "/warm/cgroup.procs", b"%d\n" % one.process.pid)
    step("it runs", one.counts())
    write(AT + "/.makhloeum/undo", b"\n")
    step("an undo moves it back", read(AT + "/cold/cgroup.procs") == b"%d\n" % one.process.pid)
    becomes("and stops it", "/cold", FROZEN)
    step("it rests then", one.rests())
    freeze("/cold", 0)
    step("and runs once it is thawed", one.counts())
    one.end()


INSIDE = (
    stops,
    moves,
    left,
    reordered,
    kinds,
    vforked,
    at_once,
    executed,
    again,
    partly,
    signals,
    itself,
    first,
    told,
    many,
    wide,
    undone,
)
if sys.argv[1:2] == ["inside"]:
    {t.__name__: t for t in INSIDE}[sys.argv[2]]()
    for one in runner:
        one.end()
    finish()
numbers()
notified()


def run(test):
    words = [PROGRAM, "run", *(["--control"] if test == "undone" else []), sys.executable, ME, "inside", test]
    ran = subprocess.run(words, timeout=6 * PATIENCE, stderr=subprocess.PIPE)
    # LeakSanitizer says this if one of its process's threads is just ending
    said = re.sub(rb"(?m)^==\d+==Running thread \d+ was not suspended.*\n", b"", ran.stderr)
    same("the status of %s" % test, (ran.returncode, said), (0, b""))


in_parallel(run, [t.__name__ for t in INSIDE], lanes=len(INSIDE))
left = subprocess.run(
    [
        PROGRAM,
        "run",
        "sh",
        "-c",
        "mkdir %s/a; sleep 666 & echo $! > %s/a/cgroup.procs; echo 1 > %s/a/cgroup.freeze" % (AT, AT, AT),
    ],
    timeout=6 * PATIENCE,
).returncode
same("a run ends with what it left frozen", left, 0)
finish()
