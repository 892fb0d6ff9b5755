"""What a program can hold back or cover stops nobody else of its run, and files of the user keep their content. This file is
also the program (blocking.py inside NAME)."""
import ast
import contextlib
import ctypes
import glob
import os
import re
import select
import shutil
import signal
import socket
import struct
import subprocess
import sys
import tempfile
import time

sys.path.insert(0, os.path.dirname(os.path.dirname(os.path.realpath(__file__))))
from support import AT, BUILT, PATIENCE, PROGRAM, Beside, Mount, companions_of
from support import clone_into, error_of, finish, in_parallel, into, is_alive, libc, line_of, own_of, read, rests
from support import run_beside_stalled, same, server_and_helper, status_within, step, tracer, until, write

ME = os.path.realpath(__file__)
BLOCKING = os.path.join(BUILT, "blocking")
PAGE = os.environ.get("PAGE", "")
SLOW_KILL = os.path.join(os.path.dirname(PROGRAM), "slow_kill.so")  # only with the plain build
PF_EXITING = 4
CLONE_NEWNS, CLONE_NEWCGROUP, MS_BIND = 0x20000, 0x2000000, 4096


def mount(source, target, kind, flags=0):
    if libc.mount(source.encode(), target.encode(), kind.encode() if kind else None, flags, None):
        raise OSError(ctypes.get_errno(), "mount on " + target)


def forks(times=20):
    """Whether this number of forks ends in time."""

    def all_of():
        for _ in range(times):
            pid = os.fork()
            if pid == 0:
                os._exit(0)
            os.waitpid(pid, 0)
        return True

    return Beside(all_of).result() is True


def stat_of(pid):
    """The words of /proc/PID/stat after the name: the state first, and the flags of the thread as the seventh."""
    return open("/proc/%s/stat" % pid, "rb").read().rpartition(b")")[2].split()


def other_thread(pid):
    return next(int(n) for n in os.listdir("/proc/%d/task" % pid) if int(n) != pid)


def holder(*words):
    p = subprocess.Popen([BLOCKING, *words], stdout=subprocess.PIPE)
    return p, Beside(p.stdout.readline).result() == b"held\n"


# ---------------------------------------------------------------- inside: files of the user


def covered():
    """A file that covers one of the mount keeps its content, and a watch of the file below is told all the same."""
    os.mkdir(AT + "/a")
    home = tempfile.mkdtemp()
    mine = os.path.join(home, "mine")
    with open(mine, "w") as f:
        f.write("precious\n")
    watch = libc.inotify_init1(os.O_NONBLOCK)
    same("a watch", libc.inotify_add_watch(watch, (AT + "/a/cgroup.events").encode(), 2) > 0, True)  # IN_MODIFY
    procs, back = os.open(AT + "/a/cgroup.procs", os.O_WRONLY), os.open(AT + "/cgroup.procs", os.O_WRONLY)
    mount(mine, AT + "/a/cgroup.events", None, MS_BIND)
    os.write(procs, b"0")
    step("the watch is told", until(lambda: error_of(os.read, watch, 4096) == "ok"))
    os.write(back, b"0")
    step("and told again", until(lambda: error_of(os.read, watch, 4096) == "ok"))
    same("the file that covers it", read(mine), b"precious\n")
    mount("none", AT, "tmpfs")
    os.mkdir(AT + "/a")
    with open(AT + "/a/cgroup.events", "w") as f:
        f.write("precious\n")
    os.write(procs, b"0")
    step("the watch is told below a tmpfs", until(lambda: error_of(os.read, watch, 4096) == "ok"))
    os.write(back, b"0")
    step("and told again", until(lambda: error_of(os.read, watch, 4096) == "ok"))
    same("the file of the tmpfs", read(AT + "/a/cgroup.events"), b"precious\n")


def machine():
    """The values of the machine do not depend on what the program mounts."""
    write(AT + "/cgroup.subtree_control", b"+cpuset +io")
    os.mkdir(AT + "/a")
    names = ("cpuset.cpus.effective", "cpuset.mems.effective")
    before = [read(AT + "/a/" + n) for n in names]
    disks = [d for d in os.listdir("/sys/dev/block") if not os.path.exists("/sys/dev/block/%s/partition" % d)][:1]
    mount(PAGE, "/sys/devices/system/cpu/online", None, MS_BIND)
    same("a read beside a file that does not answer", Beside(read, AT + "/a/" + names[0]).result(), before[0])
    step("others still run", forks())
    for cover in ("/sys/devices/system", "/sys/dev/block"):
        mount("none", cover, "tmpfs")
    same("under a tmpfs", [read(AT + "/a/" + n) for n in names], before)
    for disk in disks:
        same("a limit for a disk", error_of(write, AT + "/a/io.max", b"%s rbps=1000" % disk.encode()), "ok")
    same("a limit for no disk", error_of(write, AT + "/a/io.max", b"4095:1 rbps=1000"), "ENODEV")


# ---------------------------------------------------------------- inside: locks and memory


def listing():
    """A listing into memory that is held back, a mkdir behind it, and a clone3 into a removed group."""
    os.mkdir(AT + "/gone")
    os.mkdir(AT + "/stays")
    gone, stays = os.open(AT + "/gone", os.O_RDONLY), os.open(AT + "/stays", os.O_RDONLY)
    os.rmdir(AT + "/gone")
    p, held = holder("hold", PAGE, AT)
    step("a directory is held", held)
    asking = Beside(clone_into, gone)
    step("others still run", forks())
    same("and read their group", Beside(read, "/proc/self/cgroup").result(), b"0::/\n")
    step("and the mounts", b" cgroup2 " in (Beside(read, "/proc/self/mounts").result() or b""))
    same("a call that began before", asking.result(), "ENOENT")
    same("a call into a removed group", clone_into(gone), "ENOENT")
    same("a call into another group", clone_into(stays), 0)
    other = os.open(os.path.dirname(PAGE), os.O_RDONLY)
    same("a call into another file system, which says that it is a group", clone_into(other), "EBADF")
    p.kill()


def spaces():
    """A new cgroup namespace while the directory of the process's namespaces is held."""
    p, held = holder("unshare", PAGE)
    step("others still run", forks())
    step("the call returns", held)
    p.kill()


WRITES = """
import os, sys
fd = os.open("%s/a/cgroup.procs", os.O_WRONLY)
os.write(1, b"x")
os.read(0, 1)
os.write(fd, b"0")
"""


def meaning():
    """A process whose directory in /proc is held moves itself, so the server asks whose thread it is."""
    os.mkdir(AT + "/a")
    writer = subprocess.Popen([sys.executable, "-S", "-c", WRITES % AT], stdin=subprocess.PIPE, stdout=subprocess.PIPE)
    writer.stdout.read(1)
    p, held = holder("hold", PAGE, "/proc/%d" % writer.pid)
    step("its directory is held", held)
    writer.stdin.write(b"x")
    writer.stdin.flush()
    time.sleep(0.1)
    step("others still run", forks())
    p.kill()
    writer.kill()


LEADERLESS = (
    "import ctypes, threading, time\nthreading.Thread(target=time.sleep, args=(600,)).start()\nctypes.CDLL(None).syscall(%d, 0)"
    % (60 if os.uname().machine == "x86_64" else 93)
)


def leaderless():
    """A process whose first thread has ended is frozen while its directory in /proc is held."""
    os.mkdir(AT + "/a")
    left = subprocess.Popen([sys.executable, "-c", LEADERLESS], preexec_fn=lambda: into("/a"))
    step("its first thread has ended", until(lambda: stat_of(left.pid)[0] == b"Z"))
    p, held = holder("hold", PAGE, "/proc/%d" % left.pid)
    step("its directory is held", held)
    write(AT + "/a/cgroup.freeze", b"1")
    step("others still run", forks())
    step("it is frozen", until(lambda: read(AT + "/a/cgroup.events") == b"populated 1\nfrozen 1\n"))
    p.kill()
    left.kill()


def leader(*words):
    """A process in /a whose first thread ends, and another stays."""
    os.mkdir(AT + "/a")
    p = subprocess.Popen(words, stdin=subprocess.PIPE, stdout=subprocess.PIPE, preexec_fn=lambda: into("/a"))
    p.stdout.read(1)
    p.stdin.write(b"x")
    p.stdin.flush()
    step("the thread is ending", until(lambda: int(stat_of(p.pid)[6]) & PF_EXITING))
    return p


def ending():
    """The first thread of a process is just ending when the process is frozen."""
    p = leader(BLOCKING, "leader", os.path.dirname(PAGE) + "/slow")
    write(AT + "/a/cgroup.freeze", b"1")
    step("it is frozen", until(lambda: read(AT + "/a/cgroup.events") == b"populated 1\nfrozen 1\n"))
    write(AT + "/a/cgroup.freeze", b"0")
    same("and thawed", read(AT + "/a/cgroup.events"), b"populated 1\nfrozen 0\n")
    p.kill()


def clearing():
    """The same, and its end is held up while it still has memory. Nobody else does anything that the supervisor hears of."""

    def freeze(p):
        write(AT + "/a/cgroup.freeze", b"1")
        other = "%d/task/%d" % (p.pid, other_thread(p.pid))
        step("its other thread has stopped", until(lambda: stat_of(other)[0] == b"t"))
        step("others run, so the supervisor has looked at it", forks(1))
        same("it is not frozen", read(AT + "/a/cgroup.events"), b"populated 1\nfrozen 0\n")

    p = leader(BLOCKING, "cleared", PAGE)
    freeze(p)
    write(AT + "/a/cgroup.freeze", b"0")
    step("once it is thawed, the supervisor rests", rests())
    freeze(p)
    p.kill()
    same("it is killed", p.wait(PATIENCE), -signal.SIGKILL)
    step("then the supervisor rests", rests())
    os.rmdir(AT + "/a")
    stalled = os.path.dirname(PAGE)
    p = leader(BLOCKING, "cleared", stalled + "/late", stalled + "/kept")
    freeze(p)
    time.sleep(0.2)  # what the supervisor heard of the fork is over
    same("its end goes on", os.path.exists(stalled + "/go"), False)
    step("it is frozen", until(lambda: read(AT + "/a/cgroup.events") == b"populated 1\nfrozen 1\n"))
    same("while a file of its first thread is closed", stat_of(p.pid)[0] in (b"S", b"D"), True)
    step("the supervisor rests", rests())
    same("that ends", os.path.exists(stalled + "/close"), False)
    p.kill()


def ended():
    """The first thread has ended, of a program that its user may not read."""
    p = leader(BLOCKING + "-unread", "leader", PAGE)
    step("it has ended", until(lambda: stat_of(p.pid)[0] == b"Z"))
    same("the other one is listed", read(AT + "/a/cgroup.threads"), b"%d\n" % other_thread(p.pid))
    write(AT + "/a/cgroup.freeze", b"1")
    step("it is frozen", until(lambda: read(AT + "/a/cgroup.events") == b"populated 1\nfrozen 1\n"))
    p.kill()


def reading(program=BLOCKING, *words, then=b"populated 1\nfrozen 1\n"):
    """A process that was frozen and thawed has made a child by vfork, and waits in a read that no stop ends. It is not frozen again,
    though its other thread and its child are."""
    os.mkdir(AT + "/a")
    p = subprocess.Popen(
        [program, "reader", PAGE, *words], stdin=subprocess.PIPE, stdout=subprocess.PIPE, preexec_fn=lambda: into("/a")
    )
    p.stdout.read(1)
    events = lambda: read(AT + "/a/cgroup.events")
    write(AT + "/a/cgroup.freeze", b"1")
    step("it is frozen", until(lambda: events() == b"populated 1\nfrozen 1\n"))
    write(AT + "/a/cgroup.freeze", b"0")
    p.stdin.write(b"x")
    p.stdin.flush()
    step("it reads", until(lambda: os.path.exists(os.path.dirname(PAGE) + "/asked")))
    write(AT + "/a/cgroup.freeze", b"1")
    same("it does not stop", events(), b"populated 1\nfrozen 0\n")
    other = "%d/task/%d" % (p.pid, other_thread(p.pid))
    step("its other thread has stopped", until(lambda: stat_of(other)[0] == b"t"))
    step("others still run", forks())
    same("nor later", events(), b"populated 1\nfrozen 0\n")
    p.kill()
    same("it is killed", p.wait(PATIENCE), -signal.SIGKILL)
    step("whoever is left is frozen", until(lambda: events() == then))
    write(AT + "/a/cgroup.kill", b"1")
    step("the supervisor rests", rests())


def childless():
    """The same once the child has ended, and not become another program."""
    reading(BLOCKING, "ends", then=b"populated 0\nfrozen 1\n")


def unread():
    """The same of a program that its user may not read: the kernel does not say whether its first thread has memory."""
    reading(BLOCKING + "-unread")


READS = """
import os, sys, time
os.read(os.open(sys.argv[1], os.O_RDONLY), 1)
while True:
    os.write(1, b"x")
    time.sleep(0.01)
"""


def overtaken():
    """A process stops after its group was thawed, and before the supervisor hears of that. At the next freeze it has not stopped yet."""
    os.mkdir(AT + "/a")
    stalled, supervisor = os.path.dirname(PAGE), tracer()
    p = subprocess.Popen(
        [sys.executable, "-c", READS, stalled + "/late"], stdout=subprocess.PIPE, preexec_fn=lambda: into("/a")
    )
    events = lambda: read(AT + "/a/cgroup.events")

    def runs():
        """Whether it writes more than it has written."""
        if select.select([p.stdout], [], [], 0)[0]:
            os.read(p.stdout.fileno(), 1 << 20)
        return select.select([p.stdout], [], [], PATIENCE)[0] != []

    def alone(call):
        """What a call returns while the supervisor is stopped."""
        os.kill(supervisor, signal.SIGSTOP)
        got = call() if until(lambda: stat_of(supervisor)[0] == b"T") else "the supervisor does not stop"
        os.kill(supervisor, signal.SIGCONT)
        return got

    def thaw():
        """Lets the read end, and thaws the process once it has stopped."""
        os.path.exists(stalled + "/go")
        stops = until(lambda: stat_of(p.pid)[0] == b"t")
        write(AT + "/a/cgroup.freeze", b"0")
        return stops

    def freeze():
        write(AT + "/a/cgroup.freeze", b"1")
        return runs(), events()

    step("it reads", until(lambda: os.path.exists(stalled + "/asked")))
    write(AT + "/a/cgroup.freeze", b"1")
    step("others run, so the supervisor has told it to stop", forks(1))
    same("it does not stop", events(), b"populated 1\nfrozen 0\n")
    same("it stops", alone(thaw), True)
    step("and runs again", runs())
    same("frozen by nobody", alone(freeze), (True, b"populated 1\nfrozen 0\n"))
    step("and by the supervisor", until(lambda: events() == b"populated 1\nfrozen 1\n"))
    p.kill()


def waiting():
    """More clone3 calls wait for memory than the helper has threads at first."""
    same(
        "another clone3",
        subprocess.run([BLOCKING, "sixteen", PAGE], stdout=subprocess.PIPE, timeout=PATIENCE).stdout,
        b"ok\n",
    )
    step("others still run", forks())


def crowded():
    """So many clone3 calls wait for memory that no more may: then C libraries use clone."""
    ran = subprocess.run([BLOCKING, "full", PAGE], stdout=subprocess.PIPE, timeout=4 * PATIENCE)
    same("the 512th clone3, the 513th, a fork, a filter and the strict mode", ran.stdout, b"ok ENOSYS ok 0 0\n")
    statuses = []
    for path in glob.glob("/proc/%d/task/*/status" % helper_of(tracer())):
        with contextlib.suppress(FileNotFoundError):  # one that is left over ends
            statuses.append(os.open(path, os.O_RDONLY))

    def wakes():
        """How often the helper has waited so far; no open is part of this question."""
        found = 0
        for fd in statuses:
            with contextlib.suppress(ProcessLookupError):
                found += int(re.search(rb"(?m)^voluntary_ctxt_switches:\s*(\d+)", os.pread(fd, 1 << 16, 0))[1])
        return found

    step("the helper rests", until(lambda: (wakes(), time.sleep(0.05))[0] == wakes()))
    root, before = os.open(AT, os.O_RDONLY), wakes()
    same("two hundred more", {clone_into(root) for _ in range(200)}, {"ENOSYS"})
    step("the helper does not hear of them", wakes() - before < 100, wakes() - before)
    step("others still run", forks())


def helper_of(supervisor):
    """The one of its processes that has the most threads."""
    return max(own_of(supervisor), key=lambda pid: len(os.listdir("/proc/%d/task" % pid)))


def opening():
    """Many opens wait for memory: another one shows the hierarchy all the same. More than may wait: they take no thread, and nobody
    limits the supervisor. Once all have ended, as many may wait as before."""
    os.mkdir(AT + "/a")
    into("/a")
    stalled, helper = os.path.dirname(PAGE), server_and_helper(tracer())[1]
    size = lambda: int(re.search(r"(?m)^VmData:\s*(\d+) kB", open("/proc/%d/status" % helper).read())[1])
    before = size()
    words = [BLOCKING, "opens", stalled + "/late", str(tracer())]
    p = subprocess.Popen(words, stdin=subprocess.PIPE, stdout=subprocess.PIPE)
    said = Beside(lambda: [p.stdout.readline() for _ in range(2)]).result()
    same("the text of the 501st, and a limit", said, [b"0::/a\n", b"EPERM\n"])
    count = lambda: len(os.listdir("/proc/%d/task" % helper))
    # the one that opened the 501st rests for a moment before it ends
    step("the threads of the helper", until(lambda: count() == 512 + 3), count())
    os.path.exists(stalled + "/go")
    step("those that waited end", until(lambda: count() == 3), count())
    if os.path.exists(SLOW_KILL):  # a sanitizer has memory of its own for each thread
        # libc keeps forty mebibytes of stacks, and has memory for some of the threads that allocated
        step("and some of their stacks, of a quarter of a mebibyte each", size() - before < 100 << 10, (before, size()))
    same("the text of another one", read("/proc/self/cgroup"), b"0::/a\n")
    p.communicate()
    into("")
    step("others still run", forks())


def left():
    """A clone3 waits for its arguments, while nothing else asks the helper. Once they have come, it has no more threads than before."""
    stalled, helper = os.path.dirname(PAGE), server_and_helper(tracer())[1]
    count = lambda: len(os.listdir("/proc/%d/task" % helper))  # the filter passes an open of a directory
    same("the threads of the helper", count(), 3)
    p = subprocess.Popen([BLOCKING, "late", stalled + "/late"], stdout=subprocess.PIPE)
    step("a thread is kept waiting", until(lambda: count() == 4), count())
    time.sleep(0.5)  # the one that watches rests
    same("its arguments come", (os.path.exists(stalled + "/go"), p.stdout.readline()), (False, b"0\n"))
    step("the thread that is left over ends", until(lambda: count() == 3, 5), count())
    p.kill()


def storming():
    """An open waits for memory while clone3 calls come all the time: another one is answered before they end."""
    ran = subprocess.run([BLOCKING, "beside", PAGE], stdout=subprocess.PIPE, timeout=PATIENCE)
    same("its text", ran.stdout, b"0::/\nmeanwhile\n")
    step("others still run", forks())


def waits_of(statuses):
    """How often each of these threads has waited so far. One that has ended meanwhile is left out."""
    found = []
    for path in statuses:
        with contextlib.suppress(FileNotFoundError, ProcessLookupError), open(path) as status:
            found.append(int(re.search(r"^voluntary_ctxt_switches:\s*(\d+)", status.read(), re.M)[1]))
    return found


def states_of(pids):
    """The states of the threads of these processes. One that ends meanwhile is left out."""
    found = set()
    for path in (path for pid in pids for path in glob.glob("/proc/%d/task/*" % pid)):
        with contextlib.suppress(FileNotFoundError, ProcessLookupError):
            found.add(stat_of(path[len("/proc/") :])[0])
    return found


def resting():
    """An open waits for a second, and before it there was none: others are answered meanwhile. Afterwards each call still wakes one
    thread; a thread that looks every millisecond wakes too."""
    helper = helper_of(tracer())

    def wakes():
        return sum(waits_of(glob.glob("/proc/%d/task/*/status" % helper)))

    def each():
        """How often the helper wakes for an open."""
        opens, began, before = 2000, time.monotonic(), wakes()
        for _ in range(opens):
            os.close(os.open("/", os.O_RDONLY))
        return (wakes() - before - 2000 * (time.monotonic() - began)) / opens

    before_it = 0
    for i in range(3):
        time.sleep(0.05)
        late = Beside(lambda: error_of(os.open, os.path.dirname(PAGE) + "/hidden%d" % i, os.O_RDONLY))
        time.sleep(0.1)
        same("another open", Beside(lambda: read("/proc/self/cgroup")).result(), b"0::/\n")
        before_it += late.thread.is_alive()
        same("the open that waits", late.result(), "ENOENT")
    step("another open is answered while one waits", before_it > 0)
    same("the threads that an open wakes", round(max(each(), 1)), 1)

    def cost(path):
        """The least processor time that the helper uses for a hundred opens, which other work on the machine hardly changes."""
        costs = []
        for _ in range(10):
            before = time.clock_gettime(~helper << 3 | 2)  # the clock of a process, as the kernel numbers it
            for _ in range(100):
                os.close(os.open(path, os.O_RDONLY))
            costs.append(time.clock_gettime(~helper << 3 | 2) - before)
        return min(costs)

    def here():
        """Of a hundred opens how many the helper answers on the processor of their caller, which changes its own; -1: its thread has ended."""
        tasks = (name.removeprefix("/proc/") for name in glob.glob("/proc/%d/task/*" % helper))
        busiest = max(tasks, key=lambda task: sum(waits_of(["/proc/%s/status" % task])))
        all_of_it, found = sorted(os.sched_getaffinity(0)), 0
        try:
            for i in range(100):
                os.sched_setaffinity(0, all_of_it[i % len(all_of_it) :][:1])
                found += int(stat_of(busiest)[36]) == all_of_it[i % len(all_of_it)]
        except FileNotFoundError:
            found = -1
        os.sched_setaffinity(0, all_of_it)
        return found

    if tuple(map(int, re.findall(r"\d+", os.uname().release)[:2])) >= (6, 6):
        # of several hundreds, since a thread that is kept waiting by a busy machine leaves the calls to another
        step("most opens are answered on the processor of their caller", until(lambda: here() >= 80), here())
    costs = []
    while len(costs) < 4 and not any(one < 0.55 * of_proc for one, of_proc in costs):
        costs.append((cost("/"), cost("/proc")))
    step(
        "a file on the way to which nothing is mounted takes less of its time than one of /proc",
        costs[-1][0] < 0.55 * costs[-1][1] or not os.path.exists(SLOW_KILL),  # a sanitizer makes both take longer
        costs,
    )


def stopped():
    """The server is stopped again and again while children are made in a group."""
    os.mkdir(AT + "/a")
    fd, others, wrong = os.open(AT + "/a", os.O_RDONLY), own_of(tracer()), []
    for _ in range(100):
        for pid in others:
            os.kill(pid, signal.SIGSTOP)
        got = clone_into(
            fd
        )  # not beside: a child that is made while another thread has the lock of Python waits for it
        if got != 0:
            wrong.append(got)
            break
    same("children that could not be made", wrong, [])
    step("others still run", forks())


def stopping():
    """The processes of makhloeum are stopped again while they are continued."""
    os.mkdir(AT + "/a")
    fd, supervisor = os.open(AT + "/a", os.O_RDONLY), tracer()
    others = own_of(supervisor)
    for i in range(20):
        for pause in (i % 4 * 0.005, 0):
            for pid in others:
                os.kill(pid, signal.SIGSTOP)
            time.sleep(pause)
        got = clone_into(
            fd
        )  # not beside: a child that is made while another thread has the lock of Python waits for it
        if got != 0:
            step("a child is made", False, (i, got))
            os.kill(supervisor, signal.SIGKILL)  # else each open waits for one that is stopped
    step("nobody stays stopped", until(lambda: not any(stat_of(pid)[0] == b"T" for pid in others)))


def cost_of_clones(fd, others):
    """What came of sixty children, and the least processor time that makhloeum used for twenty of them, which other work on the
    machine hardly changes."""

    def used():
        return sum(
            time.clock_gettime(~pid << 3 | 2) for pid in others
        )  # the clock of a process, as the kernel numbers it

    got, costs = set(), []
    for _ in range(3):
        before = used()
        got |= {clone_into(fd) for _ in range(20)}
        costs.append(used() - before)
    return got, min(costs)


def elsewhere():
    """Children by a descriptor of another mount namespace's mount, beside many groups."""
    for i in range(20):
        os.makedirs(AT + "/g%d" % i)
        for k in range(20):
            os.mkdir(AT + "/g%d/h%d" % (i, k))
    os.makedirs(AT + "/z/y")
    others = [tracer(), *own_of(tracer())]
    r, w = os.pipe()
    pid = os.fork()
    if pid == 0:
        into("/z")
        home = tempfile.mkdtemp()
        failed = libc.unshare(CLONE_NEWNS | CLONE_NEWCGROUP)
        mount("none", home, "cgroup2")
        fd = os.open(home + "/y", os.O_RDONLY)
        os.write(w, repr((failed, cost_of_clones(fd, others))).encode())
        os._exit(0)
    os.waitpid(pid, 0)
    failed, (got, cost) = ast.literal_eval(os.read(r, 200).decode())
    same("sixty children", (failed, got), (0, {0}))
    usual = cost_of_clones(os.open(AT + "/z/y", os.O_RDONLY), others)[1]
    step("they take at most five times the processor time of others", cost <= 5 * usual, (cost, usual))


def signal_mounting(which, others):
    """Sends it to each process that mounts for the program and is seen: how many these were."""
    seen, end = 0, time.monotonic() + PATIENCE
    while time.monotonic() < end and seen < 50:
        for name in [t + "/children" for p in others for t in glob.glob("/proc/%d/task/*" % p)]:
            try:
                for child in open(name).read().split():
                    os.kill(int(child), which)
                    seen += 1
            except (OSError, ProcessLookupError):
                pass
    return seen


def mounting():
    """The process that mounts for the program is stopped whenever it is seen."""
    home = tempfile.mkdtemp()
    others = own_of(tracer())
    count = os.path.join(home, "count")
    os.mkdir(home + "/at")
    pid = os.fork()
    while pid == 0:
        mount("none", home + "/at", "cgroup2")
        libc.umount2((home + "/at").encode(), 2)
        with open(count, "a") as f:
            f.write("x")
    seen = signal_mounting(signal.SIGSTOP, others)
    step("some were stopped", seen > 0, seen)
    # the first mount may not have ended yet
    mounted = lambda: os.path.getsize(count) if os.path.exists(count) else 0
    size = mounted()
    step("the program still mounts", until(lambda: mounted() > size + 10))
    os.kill(pid, signal.SIGKILL)
    os.waitpid(pid, 0)


def unmade():
    """The process that mounts for the program is killed whenever it is seen: no mount that is not there is said to be."""
    at = tempfile.mkdtemp()
    others = own_of(tracer())
    r, w = os.pipe()
    pid = os.fork()
    while pid == 0:
        made = libc.mount(b"none", at.encode(), b"cgroup2", 0, None)
        there = libc.umount2(at.encode(), 2)
        if made == 0 and there != 0:
            os.write(w, b"x")
            os._exit(0)
    os.close(w)
    seen = signal_mounting(signal.SIGKILL, others)
    step("some were killed", seen > 0, seen)
    os.kill(pid, signal.SIGKILL)
    os.waitpid(pid, 0)
    same("mounts that are not there", os.read(r, 1), b"")


INSIDE = {
    covered: ["--root"],
    machine: ["--root", "--keep", "cpuset,io"],
    listing: [],
    spaces: ["--root"],
    meaning: [],
    leaderless: [],
    ending: [],
    clearing: [],
    ended: [],
    reading: [],
    childless: [],
    unread: [],
    overtaken: [],
    waiting: [],
    crowded: [],
    opening: [],
    left: [],
    storming: [],
    resting: ["--root"],
    stopped: [],
    stopping: [],
    elsewhere: ["--root"],
    mounting: ["--root"],
    unmade: ["--root"],
}
if sys.argv[1:2] == ["inside"]:
    {t.__name__: t for t in INSIDE}[sys.argv[2]]()
    sys.stdout.flush()
    print("  %d steps" % len(__import__("support").steps), flush=True)
    os._exit(1 if __import__("support").failed else 0)


# ---------------------------------------------------------------- outside


def run(test):
    words = [PROGRAM, "run", *INSIDE[test], sys.executable, ME, "inside", test.__name__]
    slow = {"LD_PRELOAD": SLOW_KILL} if test is stopping and os.path.exists(SLOW_KILL) else {}
    run_beside_stalled(test.__name__, words, **slow)


def unmounted():
    """A file where a mount was, which was unmounted while files of it were open."""
    m = Mount()
    line, companions = line_of(m.process.pid), companions_of(m.process.pid)
    os.mkdir(m.path("a"))
    os.stat(m.path("a", "cgroup.events"))
    procs = os.open(m.path("a", "cgroup.procs"), os.O_WRONLY)
    same("a lazy unmount", m.unmount("-z"), 0)
    os.mkdir(m.path("a"))
    with open(m.path("a", "cgroup.events"), "w") as f:
        f.write("precious\n")
    os.write(procs, b"1")
    os.close(procs)
    same("the process ends", m.ended(), 0)
    step("and its companion", len(companions) == 1 and until(lambda: line_of(companions[0]) != line), companions)
    same("the file keeps its content", read(m.path("a", "cgroup.events")), b"precious\n")
    shutil.rmtree(m.home)


def stuck():
    """A companion that is stopped does not keep the server from ending."""
    m = Mount("--extra")
    name = "n" * 200
    os.mkdir(m.path(name))
    os.stat(m.path(name, "cgroup.events"))
    companions = companions_of(m.process.pid)
    for pid in companions:
        os.kill(pid, signal.SIGSTOP)
    for value in (b"1", b"0") * 1000:
        write(m.path(name, "cgroup.freeze"), value)
    step("it can be unmounted", m.unmounted())
    same("the server ends", m.ended(), 0)
    for pid in companions:
        os.kill(pid, signal.SIGKILL)
    shutil.rmtree(m.home)


def queued():
    """The changes that wait while the companion is stopped are all reported in the end, although the group whose change came last
    is removed meanwhile. They are more than the socket to the companion has room for."""
    m = Mount("--extra")
    above = "/".join(["n" * 255] * 7)
    with socket.socket(socket.AF_UNIX, socket.SOCK_SEQPACKET) as one:
        room = one.getsockopt(socket.SOL_SOCKET, socket.SO_SNDBUF)
    leaves = ["%s/%03d%s" % (above, i, "n" * 250) for i in range(room // len(above) + 10)]
    for name in ("mark", "last", "next", "other"):
        os.mkdir(m.path(name))
    os.makedirs(m.path(above))
    watch, names = libc.inotify_init(), {}
    for name in leaves:
        os.mkdir(m.path(name))
    for name in (*leaves, "next", "other", "mark"):
        names[libc.inotify_add_watch(watch, m.path(name, "cgroup.events").encode(), 2)] = name  # IN_MODIFY
    os.stat(m.path("last", "cgroup.events"))
    companions = companions_of(m.process.pid)

    def stop():
        for pid in companions:
            os.kill(pid, signal.SIGSTOP)
        are_stopped = companions and until(lambda: all(stat_of(pid)[0] == b"T" for pid in companions))
        step("a companion is stopped", are_stopped, companions)

    def go_on():
        for pid in companions:
            os.kill(pid, signal.SIGCONT)

    def told(*wanted):
        """What is told until all of these were."""
        names_of = []
        while not set(wanted) <= set(names_of):
            events = Beside(os.read, watch, 65536).result() or b""
            if not events:
                break
            names_of += [names[number] for number, *_ in struct.iter_unpack("iIII", events)]
        return names_of

    stop()
    write(m.path(above, "cgroup.freeze"), b"1")
    write(m.path("last", "cgroup.freeze"), b"1")
    os.rmdir(m.path("last"))
    for name, value in (("next", b"1"), ("other", b"1"), ("next", b"0")):
        write(m.path(name, "cgroup.freeze"), value)
    go_on()
    write(m.path("mark", "cgroup.freeze"), b"1")
    got, in_order = told("mark"), ["next", "other", "mark"]
    same("reported once, in order", ([x for x in got if x not in leaves], got[-3:]), (in_order, in_order))
    same("not reported", [x[-253:-247] for x in leaves if x not in got], [])
    stop()
    write(m.path(above, "cgroup.freeze"), b"0")
    go_on()
    got = told(*leaves)
    write(m.path("mark", "cgroup.freeze"), b"0")
    same("then only what has changed again", set(got + told("mark")) - set(leaves), {"mark"})
    os.close(watch)
    m.end()


def busy():
    """The companion is stopped and continued again and again. Each time a thread waits for it, which leaves no memory behind."""
    m = Mount("--extra")
    watch, companions, threads = libc.inotify_init(), companions_of(m.process.pid), []
    for name in ("often", "mark"):
        os.mkdir(m.path(name))
        mark = libc.inotify_add_watch(watch, m.path(name, "cgroup.events").encode(), 2)  # IN_MODIFY

    def unused_stacks():
        """How many stacks of threads it keeps beyond those of its threads."""
        with open("/proc/%d/maps" % m.process.pid) as maps:
            places = re.findall(r"(?m)^(\w+)-(\w+) rw-p .* 0 *$", maps.read())
        stacks = sum(int(end, 16) - int(start, 16) == 8192 << 10 for start, end in places)
        return stacks - len(os.listdir("/proc/%d/task" % m.process.pid))

    def turn(value):
        """Whether the last of many changes is told, which fill the socket of the companion."""
        for pid in companions:
            os.kill(pid, signal.SIGSTOP)
        for each in (b"1", b"0") * 300:
            write(m.path("often", "cgroup.freeze"), each)
        threads.append(len(os.listdir("/proc/%d/task" % m.process.pid)))
        for pid in companions:
            os.kill(pid, signal.SIGCONT)
        write(m.path("mark", "cgroup.freeze"), value)
        told = [None]
        while told[-1] != mark:
            told = [
                number for number, *_ in struct.iter_unpack("iIII", Beside(os.read, watch, 1 << 16).result() or b"")
            ]
            if not told:
                return False
        return True

    step("the last change is told", turn(b"1"))
    before = unused_stacks()
    step("each time", all(turn(b"%d" % (i % 2)) for i in range(20)))
    step("it keeps no stacks of threads that ended", unused_stacks() - before < 10, (before, unused_stacks()))
    step("at most one thread waits, beside those of requests", max(threads) < 30, threads)
    os.close(watch)
    m.end()


def killed():
    """makhloeum is killed while its other processes are stopped."""
    p = subprocess.Popen([PROGRAM, "run", "sh", "-c", "echo x; exec sleep 600"], stdout=subprocess.PIPE)
    same("it runs", p.stdout.read(1), b"x")  # before that the program is one of its processes too
    others = own_of(p.pid)
    same("its other processes", len(others), 3)
    line = line_of(p.pid)
    for pid in (p.pid, *others):  # while makhloeum runs, it continues the others
        os.kill(pid, signal.SIGSTOP)
    step("they are stopped", until(lambda: all(stat_of(pid)[0] == b"T" for pid in others)))
    p.kill()
    p.wait()
    step("nothing is left", until(lambda: all(line_of(pid) != line for pid in others)))
    for pid in others:
        if line_of(pid) == line:
            os.kill(pid, signal.SIGKILL)


def callers():
    """A caller that ignores SIGCHLD or blocks every signal; and what the program inherits."""
    ways = (
        ("ignores SIGCHLD", lambda: signal.signal(signal.SIGCHLD, signal.SIG_IGN)),
        ("blocks all signals", lambda: signal.pthread_sigmask(signal.SIG_BLOCK, signal.valid_signals())),
    )
    for name, way in ways:
        p = subprocess.Popen([PROGRAM, "run", "sh", "-c", "/bin/true; exit 7"], preexec_fn=way)
        same("its caller " + name, status_within(p), 7)
    for names in (("SIGCHLD", "SIGPIPE", "SIGQUIT", "SIGXFSZ"), ("SIGHUP", "SIGUSR1", "SIGRTMAX"), ()):

        def ignore():
            for n in names:
                signal.signal(getattr(signal, n), signal.SIG_IGN)
            signal.pthread_sigmask(signal.SIG_BLOCK, [signal.SIGUSR2])

        wanted = sum(1 << (getattr(signal, n) - 1) for n in names)
        said = subprocess.run(
            [PROGRAM, "run", "grep", "^Sig[IB]", "/proc/self/status"],
            stdout=subprocess.PIPE,
            preexec_fn=ignore,
            timeout=PATIENCE,
        ).stdout
        same(
            "ignored and blocked: %s" % (names,),
            [int(x.split()[1], 16) for x in said.splitlines()],
            [1 << (signal.SIGUSR2 - 1), wanted],
        )


def idle():
    """A program that waits leaves no thread of makhloeum at work: each waits for an event, and none for a time."""
    p = subprocess.Popen([PROGRAM, "run", "sh", "-c", "cat /proc/self/cgroup; exec sleep 600"], stdout=subprocess.PIPE)
    same("it runs", p.stdout.readline(), b"0::/\n")

    def wakes():
        """How often each thread has waited so far."""
        status = glob.glob("/proc/%d/task/*/status" % p.pid)
        status += [path for pid in own_of(p.pid) for path in glob.glob("/proc/%d/task/*/status" % pid)]
        return waits_of(status)

    def rest():
        before, states = wakes(), set()
        for _ in range(20):  # a thread that works without an end is hardly ever seen asleep
            time.sleep(0.0125)
            states |= states_of(all_of)
        return (wakes(), states) == (before, {b"S"})

    all_of = [p.pid, *own_of(p.pid)]
    step("its %d threads rest" % len(wakes()), until(rest), (wakes(), states_of(all_of)))
    p.send_signal(signal.SIGTERM)
    same("its status", status_within(p), 128 + signal.SIGTERM)


def flooded():
    """More clone3 calls at once than the socket to the helper has room for, while the helper is stopped again and again."""
    p = subprocess.Popen([PROGRAM, "run", BLOCKING, "flood", ""], stdin=subprocess.PIPE, stdout=subprocess.PIPE)
    same("its threads are there", p.stdout.readline(), b"ready\n")
    helper, stopped = server_and_helper(p.pid)[1], lambda pid: stat_of(pid)[0] in (b"T", b"t")
    (program,) = (
        int(n) for n in read("/proc/%d/task/%d/children" % (p.pid, p.pid)).split() if int(n) not in own_of(p.pid)
    )
    os.kill(p.pid, signal.SIGSTOP)
    step("the supervisor is stopped", until(lambda: stopped(p.pid)))
    p.stdin.write(b"x")
    p.stdin.flush()
    threads = ["%d/task/%s" % (program, n) for n in os.listdir("/proc/%d/task" % program)]
    step("all of them wait for it", until(lambda: sum(map(stopped, threads)) >= len(threads) - 1))
    os.kill(helper, signal.SIGSTOP)
    step("the helper is stopped", until(lambda: stopped(helper)))
    os.kill(p.pid, signal.SIGCONT)
    ended, end = Beside(p.stdout.readline), time.monotonic() + PATIENCE
    with contextlib.suppress(ProcessLookupError):  # the run may end before it is read that they have
        while not ended.got and time.monotonic() < end:
            os.kill(helper, signal.SIGSTOP)
            time.sleep(0.0001)
    status = status_within(p)
    same("they end, and its status", (ended.result(), status), (b"ended\n", 0))


WAITS = """import os
pid = os.fork()
if pid == 0:
    os.read(0, 1)
    os.open("/", os.O_RDONLY)
    os._exit(0)
print(pid, flush=True)
os.waitpid(pid, 0)
print(open("/proc/self/cgroup").read(), end="", flush=True)
"""


def withdrawn():
    """Who has made a call is killed before the helper has taken it: others are answered."""
    words = [PROGRAM, "run", sys.executable, "-S", "-c", WAITS]
    p = subprocess.Popen(words, stdin=subprocess.PIPE, stdout=subprocess.PIPE)
    caller, helper = int(p.stdout.readline()), server_and_helper(p.pid)[1]
    step("it reads", until(lambda: stat_of(caller)[0] == b"S"))
    for pid in (p.pid, helper):
        os.kill(pid, signal.SIGSTOP)
        step("the supervisor and the helper are stopped", until(lambda: stat_of(pid)[0] == b"T"))
    before = waits_of(["/proc/%d/status" % caller])
    p.stdin.write(b"x")
    p.stdin.flush()
    step("it opens", until(lambda: waits_of(["/proc/%d/status" % caller]) > before and stat_of(caller)[0] == b"S"))
    os.kill(caller, signal.SIGKILL)
    step("it is killed", until(lambda: stat_of(caller)[0] == b"Z"))
    for pid in (helper, p.pid):
        os.kill(pid, signal.SIGCONT)
    status = status_within(p)
    same("another open, and the status", (p.stdout.readline(), status), (b"0::/\n", 0))


def left():
    """The helper is killed while a process mounts for the program, which waits for a file system that is stopped: it ends too."""
    home, at = tempfile.mkdtemp(), tempfile.mkdtemp()
    system = subprocess.Popen([os.path.join(BUILT, "stalled"), home], stderr=subprocess.DEVNULL)
    if not until(lambda: os.path.ismount(home)):
        step("a file system that does not answer can be mounted", False)
        return
    os.kill(system.pid, signal.SIGSTOP)  # what it has not read yet ends with who waits for it
    code = "import ctypes, sys\nctypes.CDLL(None).mount(b'x', b'%s', b'overlay', 0, b'lowerdir=%s/new:/')" % (at, home)
    for before in ([], ["unshare", "--pid", "--fork"]):
        words = [PROGRAM, "run", "--root", *before, sys.executable, "-S", "-c", code]
        p = subprocess.Popen(words, stderr=subprocess.DEVNULL)
        step("it runs", until(lambda: len(own_of(p.pid)) == 3 and len(server_and_helper(p.pid)) == 2))
        helper = server_and_helper(p.pid)[1]
        made = lambda: below(helper)
        step("a process mounts %s" % before[:1], until(lambda: len(made()) == 1 + bool(before)), made())
        pids = made()
        os.kill(helper, signal.SIGKILL)
        same("the status", status_within(p), 128 + signal.SIGKILL)
        ended = until(lambda: not any(map(is_alive, pids)))
        for pid in filter(is_alive, pids):
            os.kill(pid, signal.SIGKILL)
        step("it has ended", ended)
    system.kill()
    subprocess.run(["fusermount3", "-u", "-q", "-z", home])
    system.wait()


def below(pid):
    """The children of a process's threads, and theirs."""
    found = []
    for name in glob.glob("/proc/%d/task/*/children" % pid):
        with contextlib.suppress(FileNotFoundError, ProcessLookupError):
            for child in map(int, read(name).split()):
                found += [child, *below(child)]
    return found


STOPS = """
import os, signal, sys, threading, time
threading.Thread(target=lambda: os.read(os.open(sys.argv[1], os.O_RDONLY), 1)).start()
while not os.path.exists(os.path.dirname(sys.argv[1]) + "/asked"):
    time.sleep(0.01)
os.write(1, b"it reads\\n")
os.kill(os.getpid(), signal.SIGSTOP)
os.write(1, b"it goes on")
"""


def whole():
    """A signal stops the program, of which one thread waits in a read that no stop ends. It has stopped once that has, and so has
    makhloeum."""
    if PAGE:
        p = subprocess.Popen(
            [PROGRAM, "run", sys.executable, "-c", STOPS, os.path.dirname(PAGE) + "/late"],
            stdout=subprocess.PIPE,
            start_new_session=True,
        )
        same("one of its threads reads", p.stdout.readline(), b"it reads\n")
        (program,) = set(children_of(p.pid)) - set(own_of(p.pid))
        # not only for a moment, as at a call that the supervisor looks at
        step("its first thread stops", until(lambda: all(stat_of(program)[0] == b"t" for _ in range(20))))
        reader = "%d/task/%d" % (program, other_thread(program))
        step("the other one still reads", until(lambda: stat_of(reader)[0] == b"D"))
        same("makhloeum runs", until(lambda: stat_of(p.pid)[0] == b"T", 0.5), False)
        same("the read ends", os.path.exists(os.path.dirname(PAGE) + "/go"), False)
        same("then makhloeum stops", os.WIFSTOPPED(os.waitpid(p.pid, os.WUNTRACED)[1]), True)
        p.send_signal(signal.SIGCONT)
        same("and goes on", (p.communicate()[0], p.returncode), (b"it goes on", 0))
    else:
        run_beside_stalled("whole", [sys.executable, ME, "whole"])


def children_of(pid):
    return [int(n) for n in read("/proc/%d/task/%d/children" % (pid, pid)).split()]


OUTSIDE = (unmounted, stuck, queued, busy, killed, callers, idle, flooded, withdrawn, left, whole)
wanted = [t for t in (*INSIDE, *OUTSIDE) if t.__name__ in sys.argv[1:] or not sys.argv[1:]]
in_parallel(lambda t: run(t) if t in INSIDE else t(), wanted)
finish()
