"""What a mount uses for an operation it gives back: memory of the server and descriptors, over many rounds of each kind of operation."""
import ctypes
import fcntl
import itertools
import os
import select
import signal
import struct
import subprocess
import sys
import threading

sys.path.insert(0, os.path.dirname(os.path.dirname(os.path.realpath(__file__))))
from support import AT, PATIENCE, PROGRAM, Mount, companions_of, descriptor_places, error_of, finish, libc, read, same
from support import status_within, step, tracer, until, write

ME = os.path.realpath(__file__)
# With an arena for each thread the memory grows until each has had its turn with the most records.
os.environ["MALLOC_ARENA_MAX"] = "1"
ROUNDS, LEAST = 300, 24  # bytes: what is allocated takes more
FEWEST, MOST = 5, 16  # how many sizes are compared, each after that many rounds
CLONE = 56 if os.uname().machine == "x86_64" else 220
PAGE = os.sysconf("SC_PAGE_SIZE")


def resident(pid):
    return int(open("/proc/%d/statm" % pid).read().split()[1]) * PAGE


def open_of(pid):
    return len(os.listdir("/proc/%d/fd" % pid))


def opened(path, flags, then=lambda fd: None):
    fd = os.open(path, flags)
    try:
        return then(fd)
    finally:
        os.close(fd)


def polled(fd):
    """It waits: for a poll that doesn't, the kernel asks for no message."""
    p = select.poll()
    p.register(fd, select.POLLPRI)
    return p.poll(1)


def watched(path):
    fd = libc.inotify_init()
    libc.inotify_add_watch(fd, path.encode(), 2)
    os.close(fd)


def of_mount():
    """Operations on a mount without a history, which all keep the state as it is."""
    m = Mount("--keep", "memory,cpu,io,cpuset", control=False)
    write(m.path("cgroup.subtree_control"), b"+memory +cpu +io +cpuset +pids")
    g, h, k = m.path("g"), m.path("h"), m.path("k")
    for at in (g, h, k, g + "/in"):
        os.mkdir(at)
    write(k + "/cgroup.subtree_control", b"+memory +cpu")
    write(m.control("fork"), b"1 2")
    write(g + "/pids.max", b"1")
    os.setxattr(g, "user.x", b"x")
    held = [os.open(g + "/cgroup.events", os.O_RDONLY) for _ in range(2)]
    many = [os.open(g + "/cgroup.events", os.O_RDONLY) for _ in range(16)]  # more than memory that was free before
    write(g + "/in/cgroup.max.depth", b"0")
    new = itertools.count()

    def twice(name, *values):
        for value in values:
            write(g + "/" + name, value)

    def moved():
        write(g + "/cgroup.procs", b"2")
        error_of(write, m.control("fork"), b"2 3")
        write(m.path("cgroup.procs"), b"2")

    def killed():
        write(m.control("fork"), b"1 5")
        write(h + "/cgroup.procs", b"5")
        write(h + "/cgroup.kill", b"1")

    def removed():
        os.mkdir(h + "/r")
        for name in ("user.x", "user.y"):
            os.setxattr(h + "/r", name, b"x" * 500)
        for name in ("procs", "events", "stat", "type", "freeze", "max.depth"):  # more than memory that was free before
            os.chmod(h + "/r/cgroup." + name, 0o600)
        fd = os.open(h + "/r/cgroup.events", os.O_RDONLY)
        polled(fd)
        os.close(fd)  # of one that is open the kernel remembers the inodes
        os.rmdir(h + "/r")

    def watched_and_removed():
        for _ in range(5):  # more than memory that was free before
            os.mkdir(m.path("r"))
            for name in ("cgroup.events", "pids.events", "pids.events.local"):
                os.stat(m.path("r", name))
            os.rmdir(m.path("r"))

    def values_of_a_removed_group():
        os.mkdir(k + "/r")
        # so many that they are more than memory that was free before
        for name in ("memory.min", "memory.low", "memory.high", "memory.max", "memory.swap.high", "memory.swap.max"):
            write(k + "/r/" + name, b"1m")
        for name, value in (("cpu.weight", b"7"), ("cpu.max", b"5000"), ("cpu.max.burst", b"5"), ("cpu.idle", b"1")):
            write(k + "/r/" + name, value)
        write(k + "/r/cgroup.freeze", b"1")
        os.rmdir(k + "/r")

    def switched():
        write(g + "/cgroup.subtree_control", b"+memory")
        write(g + "/in/memory.max", b"1m")
        fd = os.open(g + "/in/memory.max", os.O_RDONLY)
        os.read(fd, 9)
        write(g + "/cgroup.subtree_control", b"-memory")
        error_of(os.pread, fd, 9, 0)
        os.close(fd)

    def again(fd):
        for _ in range(3):
            os.pread(fd, 9, 0)

    def woken():
        p = select.poll()
        for fd in many:
            os.pread(fd, 99, 0)
            p.register(fd, select.POLLPRI)
        p.poll(1)
        twice("cgroup.freeze", b"1", b"0")

    operations = (
        ("a fork and an exit", lambda: (write(m.control("fork"), b"1 3"), write(m.control("exit"), b"3"))),
        ("moves and a refused fork", moved),
        ("a kill", killed),
        ("an open, a read and a close", lambda: read(g + "/cgroup.procs")),
        # so many that they are more than memory that was free before
        ("polls", lambda: [opened(g + "/cgroup.events", os.O_RDONLY, polled) for _ in range(10)]),
        ("polls of an open file", lambda: [polled(fd) for fd in held * 10]),
        ("polls that are woken", woken),
        ("reads from the start", lambda: opened(g + "/memory.stat", os.O_RDONLY, again)),
        ("a watch", lambda: watched(g + "/cgroup.events")),
        ("a listing", lambda: os.listdir(m.at)),
        ("stats", lambda: (os.stat(g), os.stat(g + "/memory.stat"), error_of(os.stat, g + "/none"))),
        ("a mode and an owner", lambda: (os.chmod(g + "/cpu.max", 0o600), os.chown(g, -1, os.getgid()), os.utime(g))),
        ("an attribute", lambda: (os.setxattr(g, "user.x", b"y" * 50), os.getxattr(g, "user.x"), os.listxattr(g))),
        ("a new attribute", lambda: (os.setxattr(g, "user.y", b"y" * 50), os.removexattr(g, "user.y"))),
        (
            "attributes that are refused",
            lambda: (error_of(os.setxattr, g, "trusted.x", b"1"), error_of(os.getxattr, g, "user.no")),
        ),
        ("values of memory", lambda: twice("memory.max", b"1m", b"max")),
        ("values of cpu", lambda: (twice("cpu.idle", b"1", b"0"), twice("cpu.max", b"5000", b"max"))),
        ("values of io", lambda: twice("io.weight", b"5", b"100")),
        ("lists", lambda: twice("cpuset.cpus", b"0", b"\n")),
        (
            "values that are refused",
            lambda: [error_of(write, g + "/memory.max", b"x"), error_of(write, g + "/cpu.max", b"1")],
        ),
        ("a freeze", lambda: twice("cgroup.freeze", b"1", b"0")),
        ("a group", lambda: (os.mkdir(h + "/r"), os.rmdir(h + "/r"))),
        (
            "groups that are refused",
            lambda: (error_of(os.mkdir, g), error_of(os.mkdir, g + "/a b"), error_of(os.rmdir, m.path("none"))),
        ),
        ("groups beyond a limit", lambda: error_of(os.mkdir, "%s/in/%d" % (g, next(new)))),
        ("what is left of a group", removed),
        ("what is told of a group", watched_and_removed),
        ("values of a group", values_of_a_removed_group),
        ("a controller", switched),
        (
            "calls that are refused",
            lambda: (error_of(os.rename, g, h), error_of(os.unlink, g + "/cpu.max"), error_of(os.mkfifo, g + "/x")),
        ),
        (
            "refused opens",
            lambda: (error_of(os.open, g + "/cpu.max", os.O_DIRECT), error_of(os.open, g + "/none", os.O_RDONLY)),
        ),
    )
    for _ in range(2000):  # the engine forgets its records, each 1,024 commands
        operations[0][1]()
    before = open_of(m.process.pid)
    told = libc.inotify_init()
    libc.inotify_add_watch(told, (g + "/cgroup.events").encode(), 2)  # IN_MODIFY
    companion = companions_of(m.process.pid)[0]
    at_rest = open_of(companion)
    for name, operation in operations:
        for _ in range(ROUNDS // 2):
            operation()
        sizes, grows = [resident(m.process.pid)], True
        while len(sizes) < FEWEST or grows and len(sizes) < MOST:
            for _ in range(ROUNDS):
                operation()
            sizes.append(resident(m.process.pid))
            # a thread may begin in some of them, on a busy machine in several one after another
            grows = min(after - was for was, after in zip(sizes, sizes[1:])) >= LEAST * ROUNDS
        step("%s: no memory is kept" % name, not grows, sizes)
        same("%s: no descriptor is kept" % name, open_of(m.process.pid), before)
    twice("cgroup.freeze", *(b"1", b"0") * 20)
    step("the companion keeps no descriptor", until(lambda: open_of(companion) == at_rest), open_of(companion))
    for fd in (*held, *many, told):
        os.close(fd)
    m.end()


# ---------------------------------------------------------------- a run

TIMES = 200


def own():
    """For each process of makhloeum how many places for descriptors it has."""
    top, found = tracer(), {}
    for pid in (top, *map(int, open("/proc/%d/task/%d/children" % (top, top)).read().split())):
        if open("/proc/%d/comm" % pid).read() == "makhloeum\n":
            found[pid] = descriptor_places(pid)
    return found


def elsewhere(procs):
    """A process in another PID namespace, which reads and writes this file whenever it is asked: what asks it, and what ends it."""
    (heard, orders), (answers, tells) = os.pipe(), os.pipe()
    outer = os.fork()
    if outer == 0:
        os.close(orders)
        libc.unshare(0x20000000)  # CLONE_NEWPID
        if os.fork() == 0:
            for _ in range(40):  # a long list: more than memory that was free before
                if os.fork() == 0:
                    signal.pause()
            while os.read(heard, 1):
                read(procs)
                write(procs, b"1")
                os.write(tells, b"x")
            os._exit(0)
        os._exit(os.waitpid(-1, 0)[1])
    os.close(heard)
    os.close(tells)

    def end():
        os.close(orders)
        os.close(answers)
        same("the process in another PID namespace: its status", os.waitpid(outer, 0)[1], 0)

    return lambda: (os.write(orders, b"x"), os.read(answers, 1)), end


def inside():
    """Operations of a program with all privileges of its namespace: after each kind no process of makhloeum has more descriptors."""
    os.mkdir(AT + "/frozen")
    told = libc.inotify_init()
    libc.inotify_add_watch(told, (AT + "/frozen/cgroup.events").encode(), 2)  # IN_MODIFY
    group = AT
    for _ in range(15):  # what is kept with a path is more than memory that was free before
        write(group + "/cgroup.subtree_control", b"+cpuset +pids")
        group += "/" + "a" * 200
        os.mkdir(group)
    write(group + "/cgroup.procs", b"0")
    home = os.path.join(os.environ.get("TMPDIR", "/tmp"), "leaks%d" % os.getpid())
    os.mkdir(home)
    buffer, gone = ctypes.create_string_buffer(256), os.open(group, os.O_RDONLY)
    args = (ctypes.c_uint64 * 11)(0x200000000, 0, 0, 0, signal.SIGCHLD, 0, 0, 0, 0, 0, gone)

    def forked(call=lambda: None, number=None):
        pid = os.fork() if number is None else libc.syscall(number, args, 88)
        if pid == 0:
            call()
            libc._exit(0)
        os.waitpid(pid, 0)

    def mounted():
        libc.mount(b"none", home.encode(), b"cgroup2", 0, None)
        libc.umount2(home.encode(), 2)

    def stepwise():
        context = libc.syscall(430, b"cgroup2", 0)
        libc.syscall(431, context, 6, None, None, 0)  # FSCONFIG_CMD_CREATE
        top = libc.syscall(432, context, 0, 0)
        libc.syscall(429, top, b"", -100, home.encode(), 4)
        libc.umount2(home.encode(), 2)
        for fd in (context, top):
            os.close(fd)

    def of_another():
        libc.mount(b"none", home.encode(), b"tmpfs", 0, None)
        libc.umount2(home.encode(), 2)
        device = os.open("/dev/fuse", os.O_RDWR)
        libc.mount(b"x", home.encode(), b"fuse", 0, b"fd=%d,rootmode=40000,user_id=0,group_id=0" % device)
        libc.umount2(home.encode(), 2)
        os.close(device)

    others = subprocess.Popen(
        ["unshare", "-mpf", "--mount-proc", "sh", "-c", "echo; exec sleep 600"], stdout=subprocess.PIPE
    )
    others.stdout.readline()
    inner = int(read("/proc/%d/task/%d/children" % (others.pid, others.pid)))
    proc = "/proc/%d/root/proc/" % inner

    def frozen():
        for value in (b"1", b"0"):
            write(AT + "/frozen/cgroup.freeze", value)
            os.read(told, 99)

    def turned():
        fd = os.open("/proc/self/mountinfo", os.O_RDONLY)
        polled(fd)
        os.read(fd, 99)
        os.close(fd)

    def beneath():
        how = (ctypes.c_uint64 * 3)(0, 0, 8)  # RESOLVE_BENEATH
        os.close(libc.syscall(437, top, b"self/cgroup", how, 24))

    def set_option():
        context = libc.syscall(430, b"cgroup2", 0)
        libc.syscall(431, context, 5, b"rw", None, 0)  # FSCONFIG_SET_FD
        os.close(context)

    def filtered():
        libc.prctl(38, 1, 0, 0, 0)  # PR_SET_NO_NEW_PRIVS
        libc.prctl(22, 2, program, 0, 0)  # PR_SET_SECCOMP, SECCOMP_MODE_FILTER

    top, etc = os.open("/proc", os.O_RDONLY), os.open("/etc", os.O_RDONLY)
    code = ctypes.create_string_buffer(struct.pack("HBBI", 6, 0, 0, 0x7FFF0000))  # it allows all
    program = ctypes.create_string_buffer(struct.pack("HxxxxxxP", 1, ctypes.addressof(code)))

    def numbers():
        """The number of a new process: tables have a place for each."""
        pid = os.fork()
        if pid == 0:
            libc._exit(0)
        return os.waitpid(pid, 0)[0]

    numbered, end = elsewhere(group + "/cgroup.procs")
    operations = (
        ("forks", forked),
        ("births in a group", lambda: forked(number=435)),
        ("new cgroup namespaces", lambda: forked(lambda: libc.unshare(0x02000000))),
        ("cgroup namespaces that are not made", lambda: libc.unshare(0x02000001)),
        ("forks that fail", lambda: libc.syscall(CLONE, 0x02000800 | signal.SIGCHLD, 0, 0, 0, 0)),
        ("births that fail", lambda: libc.syscall(435, args, 8)),
        ("threads", lambda: (thread := threading.Thread(target=int), thread.start(), thread.join())),
        ("opens of cgroup", lambda: read("/proc/self/cgroup")),
        ("opens of cpuset", lambda: read("/proc/self/cpuset")),
        ("opens of cgroups", lambda: read("/proc/cgroups")),
        ("opens of a text of another namespace", lambda: read(proc + "1/cgroup")),
        ("opens of oneself in another namespace", lambda: error_of(read, proc + "self/cgroup")),
        ("opens of a text of another file system", lambda: read("/etc/hostname")),
        ("opens from a directory", lambda: os.close(os.open("hostname", os.O_RDONLY, dir_fd=etc))),
        ("opens beneath a directory", beneath),
        ("opens of a table of mounts", lambda: read("/proc/self/mounts")),
        ("polls of a table of mounts", turned),
        ("opens of what is not there", lambda: error_of(os.open, "/proc/self/nothing", os.O_RDONLY)),
        ("statfs", lambda: (libc.statfs(AT.encode(), buffer), libc.fstatfs(gone, buffer), libc.statfs(b"/", buffer))),
        ("mounts of cgroup2", mounted),
        ("mounts of tmpfs and FUSE", of_another),
        ("mounts that are refused", lambda: libc.mount(b"none", b"/nowhere", b"cgroup2", 0, None)),
        ("mounts of version 1", lambda: libc.mount(b"none", home.encode(), b"cgroup", 0, None)),
        ("fsopen that is refused", lambda: libc.syscall(430, b"cgroup", 0)),
        ("options of a mount", set_option),
        ("fspick", lambda: os.close(libc.syscall(433, -100, AT.encode(), 0))),
        ("filters", lambda: forked(filtered)),
        ("fsopen of cgroup2", stepwise),
        ("fsopen", lambda: os.close(libc.syscall(430, b"tmpfs", 0))),
        ("ptrace that is refused", lambda: libc.ptrace(0x4206, 1, 0, 0)),
        ("a read and a write in another PID namespace", numbered),
        ("groups", lambda: (os.mkdir(group + "/b"), os.rmdir(group + "/b"))),
        ("lists of processes", lambda: read(group + "/cgroup.procs")),
        ("changes of a watched file", frozen),
        ("locks", lambda: opened(group + "/pids.max", os.O_RDWR, lambda fd: fcntl.flock(fd, fcntl.LOCK_EX))),
    )
    for _, operation in operations:
        for _ in range(8):
            operation()
    before = own()
    same("the processes of makhloeum", len(before), 4)
    for name, operation in operations:
        grown, least = [], dict.fromkeys(before, 0)
        while (
            max(least.values()) >= 0 and len(grown) < 12
        ):  # a thread or a larger buffer may begin in some of them, a leak in all
            sizes, first = {pid: resident(pid) for pid in before}, numbers()
            for _ in range(max(TIMES, max(before.values()))):
                operation()
            new = LEAST * TIMES + 64 * max(0, numbers() - first)
            grown.append({pid: resident(pid) - size - new for pid, size in sizes.items()})
            least = {pid: min(each[pid] for each in grown) for pid in before}
        now = own()
        step("%s: no descriptor is kept" % name, now == before, (before, now))
        step("%s: no memory is kept" % name, max(least.values()) < 0, grown)
        before = now
    os.kill(inner, signal.SIGKILL)
    others.communicate()
    end()
    os.rmdir(home)


def hidden():
    """Descriptors of a program that is not dumpable. The superuser owns what it has in /proc, who is nobody in this run."""
    libc.prctl(4, 0, 0, 0, 0)  # PR_SET_DUMPABLE
    buffer, fd, before = ctypes.create_string_buffer(256), os.open(AT, os.O_RDONLY), own()
    for _ in range(max(TIMES, *before.values())):
        libc.fstatfs(fd, buffer)
    same("a descriptor of a program that hides: it is a cgroup2", buffer.raw[:4], b"prgc")
    same("no descriptor is kept", own(), before)


if sys.argv[1:2] == ["inside"]:
    {"operations": inside, "hidden": hidden}[sys.argv[2]]()
    finish()
of_mount()
for what, options in (("operations", ("--root", "--keep", "cpuset")), ("hidden", ())):
    p = subprocess.Popen([PROGRAM, "run", *options, sys.executable, ME, "inside", what])
    same("a run, %s: its status" % what, status_within(p, 6 * PATIENCE), 0)
finish()
