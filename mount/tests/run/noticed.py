"""Small differences by which a program could notice that `makhloeum run` is no kernel. This file is also the program
(noticed.py inside NAME)."""
import ctypes
import errno
import fcntl
import glob
import mmap
import os
import resource
import select
import shutil
import signal
import subprocess
import sys
import tempfile

sys.path.insert(0, os.path.dirname(os.path.dirname(os.path.realpath(__file__))))
from support import AT, BUILT, PATIENCE, PROGRAM, Beside, Mount
from support import error_of, finish, in_parallel, inside, libc, own_of, read, same, server_and_helper, step, tracer
from support import until, write

ME = os.path.realpath(__file__)
NOTICED, INTERRUPTS = os.path.join(BUILT, "noticed"), os.path.join(BUILT, "interrupts")


def said(*words, before=None, program=NOTICED):
    ran = subprocess.run([program, *map(str, words)], stdout=subprocess.PIPE, timeout=4 * PATIENCE, preexec_fn=before)
    return ran.stdout.split() if ran.returncode == 0 else ["status %d" % ran.returncode]


def makhloeum():
    """The supervisor and its processes."""
    return [os.getppid(), *own_of(os.getppid())]


# ---------------------------------------------------------------- inside


def interrupted():
    """A signal that a process ignores ends none of its calls, and one that it handles ends them."""
    for which in (signal.SIGUSR1, signal.SIGCHLD, signal.SIGWINCH):
        got = said("ignored", int(which), program=INTERRUPTS)
        same("calls that an ignored %s ends" % which.name, got, [])
    got = said("handled", int(signal.SIGUSR1), program=INTERRUPTS)
    same("calls that a handled signal does not end", got, [])
    got = said("stops", program=INTERRUPTS)
    same("a stop ends epoll_wait; then an ignored signal does not", got, [b"1", b"1"])


def children():
    at_end = ctypes.c_int(-1)
    libc.prctl(2, ctypes.byref(at_end))  # PR_GET_PDEATHSIG
    same("the signal that it gets when its parent ends", at_end.value, 0)
    same("calls that change a register of the creator or of the child", said("registers"), [])
    same("children without a status though their pidfd can be read", said("pidfds"), [b"0"] * 4)


def zombies():
    """2,000 zombies beside a server that may have 1,024 descriptors."""
    os.mkdir(AT + "/a")
    got = said("zombies", 2000, *makhloeum(), before=lambda: write(AT + "/a/cgroup.procs", b"0"))
    same("counted beside them, after them, wrongly refused forks; tables", got[:4], [b"2001", b"1", b"0", b"1"])
    step("a fork beside them takes at most 3 times as much processor time", float(got[-1]) <= 3, got)


def filters():
    same("calls that a filter traces, and do not fail with ENOSYS", said("traces"), [])
    same(
        "strict mode: exit, calls that it forbids, and a handler; then calls that do not ask for it",
        said("strict"),
        [b"5", b"1009", b"1009", b"1009", b"1009", b"6"] * 4 + [b"22", b"22", b"22", b"14"],
    )


NO_XDEV, NO_MAGICLINKS, NO_SYMLINKS, BENEATH, IN_ROOT, CACHED = 1, 2, 4, 8, 16, 32


def opened(directory, path, flags=0, mode=0, resolve=0, size=24, tail=0, last=0):
    """The text that openat2 opens, or the name of its errno."""
    how = (ctypes.c_uint64 * 512)(flags, mode, resolve, tail)
    how[511] = last
    fd = libc.syscall(437, directory, path.encode(), how, size)
    if fd < 0:
        return errno.errorcode[ctypes.get_errno()]
    with os.fdopen(fd) as f:
        return f.read()


def opens():
    """Texts of /proc by openat2: its rules are kept, and what it refuses is refused."""
    os.mkdir(AT + "/a")
    write(AT + "/a/cgroup.procs", b"0")
    proc, here, me, cwd = os.open("/proc", os.O_RDONLY), os.open("/proc/self", os.O_RDONLY), os.getpid(), -100
    link = "/proc/self/fd/%d" % os.open("/proc/self/cgroup", os.O_PATH)
    top, absolute = os.open("/", os.O_RDONLY), os.path.join(tempfile.mkdtemp(), "absolute")
    os.symlink("/proc/self/cgroup", absolute)
    text = "0::/a\n"
    for wanted, directory, path, more in (
        (text, cwd, "/proc/self/cgroup", {}),
        (text, proc, "/self/cgroup", {"resolve": IN_ROOT}),
        (text, proc, "/../self/cgroup", {"resolve": IN_ROOT}),
        ("ENOENT", here, "/self/cgroup", {"resolve": IN_ROOT}),
        (text, here, "/../cgroup", {"resolve": IN_ROOT}),
        (text, proc, "self/cgroup", {"resolve": BENEATH}),
        ("EXDEV", proc, "/self/cgroup", {"resolve": BENEATH}),
        ("EXDEV", here, "../self/cgroup", {"resolve": BENEATH}),
        (text, here, "task/../cgroup", {"resolve": BENEATH}),
        ("ELOOP", cwd, "/proc/self/cgroup", {"resolve": NO_SYMLINKS}),
        (text, cwd, "/proc/%d/cgroup" % me, {"resolve": NO_SYMLINKS}),
        ("EXDEV", cwd, "/proc/%d/cgroup" % me, {"resolve": NO_XDEV}),
        (text, proc, "%d/cgroup" % me, {"resolve": NO_XDEV}),
        ("ELOOP", cwd, link, {"resolve": NO_MAGICLINKS}),
        ("EXDEV", proc, link[6:], {"resolve": BENEATH}),
        ("EXDEV", proc, link[5:], {"resolve": IN_ROOT}),
        (text, proc, link[6:], {"resolve": NO_XDEV}),
        (text, cwd, link, {}),
        ("EXDEV", top, absolute[1:], {"resolve": BENEATH}),
        (text, top, absolute[1:], {"resolve": IN_ROOT}),
        ("EINVAL", cwd, "/proc/self/cgroup", {"resolve": IN_ROOT | BENEATH}),
        ("EINVAL", cwd, "/proc/self/cgroup", {"resolve": 64}),
        ("EINVAL", cwd, "/proc/self/cgroup", {"mode": 0o644}),
        ("EINVAL", cwd, "/proc/self/cgroup", {"flags": 1 << 40}),
        (text, cwd, "/proc/self/cgroup", {"flags": os.O_CREAT, "mode": 0o7777}),
        ("EINVAL", cwd, "/proc/self/cgroup", {"flags": os.O_CREAT, "mode": 0o10000}),
        ("EAGAIN", cwd, "/proc/self/cgroup", {"flags": os.O_CREAT, "resolve": CACHED}),
        ("EAGAIN", cwd, "/proc/self/cgroup", {"flags": os.O_TRUNC, "resolve": CACHED}),
        ("EACCES", cwd, "/proc/self/cgroup", {"flags": os.O_RDWR}),
        ("EACCES", cwd, "/proc/self/cgroup", {"flags": os.O_TRUNC}),
        ("ELOOP", cwd, absolute, {"flags": os.O_NOFOLLOW}),
        (text, cwd, absolute, {}),
        ("ELOOP", cwd, absolute, {"resolve": NO_SYMLINKS}),
        ("EINVAL", cwd, "/proc/self/cgroup", {"size": 23}),
        ("EINVAL", cwd, "/proc/self/cgroup", {"size": 0}),
        (text, cwd, "/proc/self/cgroup", {"size": 25}),
        ("EBADF", 999, "self/cgroup", {}),
        (text, 999, "/proc/self/cgroup", {}),
        ("ENOENT", cwd, "", {}),
        ("EINVAL", cwd, "/proc/self/cgroup", {"size": 16}),
        (text, cwd, "/proc/self/cgroup", {"size": 32}),
        ("E2BIG", cwd, "/proc/self/cgroup", {"size": 32, "tail": 1}),
        (text, cwd, "/proc/self/cgroup", {"size": 4096}),
        ("E2BIG", cwd, "/proc/self/cgroup", {"size": 4096, "last": 1 << 56}),
    ):
        same("%s %s" % (path.replace(str(me), "PID"), more), opened(directory, path, **more), wanted)
    step("what is not known without a look-up", opened(cwd, "/proc/self/cgroup", resolve=CACHED) in ("EAGAIN", text))
    edge = mmap.mmap(-1, 3 * mmap.PAGESIZE)
    at = ctypes.addressof(ctypes.c_char.from_buffer(edge)) + 2 * mmap.PAGESIZE
    libc.mprotect(ctypes.c_void_p(at), mmap.PAGESIZE, 0)
    path = b"/proc/self/cgroup\0"
    ctypes.memmove(at - len(path), path, len(path))
    fd = libc.open(ctypes.c_void_p(at - len(path)), os.O_RDONLY)
    same("a path at the end of what can be read", os.read(fd, 99).decode(), text)
    write(AT + "/cgroup.subtree_control", b"+cpuset")
    os.mkdir(AT + "/a/b")
    write(AT + "/a/b/cgroup.procs", b"0")
    write(AT + "/cgroup.subtree_control", b"+cpu")
    write(AT + "/a/cgroup.subtree_control", b"+cpu")
    same("a group has another controller", read(AT + "/a/b/cgroup.controllers"), b"cpu\n")
    same("/proc/self/cpuset is of the nearest group that has one", read("/proc/self/cpuset"), b"/a\n")
    write(AT + "/a/cgroup.subtree_control", b"+cpuset")
    write(AT + "/cgroup.procs", b"0")
    same("of the root", read("/proc/self/cpuset"), b"/\n")
    same(
        "/proc/cgroups",
        [x.split()[0] for x in open("/proc/cgroups") if x.split()[3] in ("enabled", "1")],
        ["#subsys_name", "cpuset", "cpu", "cpuacct", "blkio", "memory", "pids"],
    )


def contained():
    """A Java machine takes its limits from its group only if /proc/cgroups has each controller that it asks for, cpuacct too."""
    if not shutil.which("java"):
        print("  left out: there is no java")
        return
    write(AT + "/cgroup.subtree_control", b"+cpu +cpuset +memory")
    os.mkdir(AT + "/j")
    write(AT + "/j/cpu.max", b"100000 100000")
    write(AT + "/j/memory.max", b"256M")
    write(AT + "/j/cgroup.procs", b"0")
    words = ["java", "-Xlog:os+container=trace", "-XX:-UsePerfData", "-version"]
    ran = subprocess.run(words, stdout=subprocess.PIPE, stderr=subprocess.STDOUT, timeout=4 * PATIENCE)
    lines = {line.partition("] ")[2] for line in ran.stdout.decode().splitlines()}
    found = [
        x for x in lines if x.startswith("OSContainer::active_processor_count") or x == "Memory Limit is: 268435456"
    ]
    same("java: its limits", sorted(found), ["Memory Limit is: 268435456", "OSContainer::active_processor_count: 1"])


CHANGED = select.EPOLLPRI | select.EPOLLERR
DETACH = 2


def tables():
    """A table of mounts can be polled: it tells of each change once, and shows it when it is read again."""
    fd, ready = os.open("/proc/self/mountstats", os.O_RDONLY), select.poll()
    ready.register(fd, select.POLLIN)
    same("mountstats tells of no change", ready.poll(0), [(fd, select.POLLIN)])
    os.close(fd)
    home = tempfile.mkdtemp().encode()
    for name in ("mounts", "mountinfo"):
        fd = os.open("/proc/self/" + name, os.O_RDONLY)
        by_link = os.open("/proc/self/fd/%d" % fd, os.O_RDONLY)

        def text(of, at_once=1 << 20):
            os.lseek(of, 0, os.SEEK_SET)
            return b"".join(iter(lambda: os.read(of, at_once), b""))

        same("%s: its size" % name, os.fstat(fd).st_size, len(text(fd)))
        same("in small pieces", text(fd, 7), text(fd))
        same("by a link to it", text(by_link), text(fd))
        ready, also = select.epoll(), select.poll()
        ready.register(fd, select.EPOLLPRI)
        same("nothing has changed", ready.poll(0), [])
        also.register(fd, 0x1FF)
        same("all that it reports", also.poll(0), [(fd, select.POLLIN | select.POLLRDNORM)])
        also.unregister(fd)
        for change, args, is_seen in (
            (libc.mount, (b"x", home, b"tmpfs", 0, None), True),
            (libc.umount2, (home, DETACH), False),
        ):
            waiting = Beside(ready.poll, PATIENCE)
            same("a change", change(*args), 0)
            same("is told to who waits", waiting.result(), [(fd, CHANGED)])
            same("once", ready.poll(0), [])
            same("and seen", home in text(fd), is_seen)
            same("by a link too", home in text(by_link), is_seen)
        ready.unregister(fd)
        also.register(fd, select.POLLPRI)
        same("nothing more", also.poll(0), [])
        libc.mount(b"x", home, b"tmpfs", 0, None)
        same("it is told at once", also.poll(0), [(fd, CHANGED)])
        same("once", also.poll(0), [])
        libc.umount2(home, DETACH)
        same("again", also.poll(0), [(fd, CHANGED)])
        subprocess.run(["unshare", "-m", "mount", "-t", "tmpfs", "x", home], check=True)
        same("not what happens in another namespace", also.poll(0), [])
        many = [os.path.join(home, b"%d" % i) for i in range(90)]
        for each in many:
            os.mkdir(each)
            libc.mount(b"x", each, b"tmpfs", 0, None)
        whole = text(by_link)
        same("a table of several pages", [each for each in many if b" %s " % each not in whole], [])
        for each in many:
            libc.umount2(each, DETACH)
            os.rmdir(each)
        deep = home + 6 * (b"/" + 200 * b" ")  # a blank takes four bytes in a table
        os.makedirs(deep)
        same("a mount at a long place", libc.mount(b"x", deep, b"tmpfs", 0, None), 0)
        step("it is in the table", b" %s " % deep.replace(b" ", rb"\040") in text(by_link))
        libc.umount2(deep, DETACH)
        shutil.rmtree(home + b"/" + 200 * b" ")
        device = os.open("/dev/fuse", os.O_RDWR)
        data = b"fd=%d,rootmode=40000,user_id=0,group_id=0" % device
        same("another's mount of this type", libc.mount(b"x", home, b"fuse.cgroup2", 0, data), 0)
        line = next(line.split() for line in text(by_link).splitlines() if home in line.split())
        step("it is shown as it is", b"x" in line and b"fuse.cgroup2" in line, line)
        libc.umount2(home, DETACH)
        os.close(device)
        os.close(fd)
        same("the link is still open", text(by_link) != b"", True)
        os.close(by_link)


def untold():
    """What isn't a table of mounts can always be read, and tells of no change, as every other text of /proc."""
    for name in ("status", "cgroup", "cpuset"):
        fd, ready = os.open("/proc/self/" + name, os.O_RDONLY), select.poll()
        ready.register(fd, 0x1FF)
        always = select.POLLIN | select.POLLOUT | select.POLLRDNORM | select.POLLWRNORM
        same("a poll of %s" % name, ready.poll(0), [(fd, always)])
        os.close(fd)
    for name in ("self/cgroup", "self/cpuset", "self/mounts", "cgroups"):
        fd = os.open("/proc/" + name, os.O_RDONLY)
        got = fcntl.fcntl(fd, fcntl.F_GETFL) & os.O_ACCMODE, error_of(os.write, fd, b"x")
        same("a write to %s" % name, got, (os.O_RDONLY, "EBADF"))
        os.close(fd)


def kept():
    """Tables that are open stay what they are, however many others are opened after them."""
    held = {name: os.open("/proc/self/" + name, os.O_RDONLY) for name in ("mounts", "mountinfo", "mountstats")}
    polled = select.poll()
    polled.register(held["mounts"], select.POLLPRI)
    first = {name: read("/proc/self/" + name) for name in held}
    for _ in range(1100):
        os.close(os.open("/proc/self/mounts", os.O_RDONLY))
    same("tables of before", {name: os.pread(fd, 1 << 20, 0) for name, fd in held.items()}, first)
    same("nothing has changed", polled.poll(0), [])
    server = glob.glob("/proc/%d/task/*/stat" % server_and_helper(tracer())[0])
    states = lambda: {open(name).read().rpartition(")")[2].split()[0] for name in server}
    step("the server rests", until(lambda: all(states() == {"S"} for _ in range(20))), states())
    home = tempfile.mkdtemp().encode()
    libc.mount(b"x", home, b"tmpfs", 0, None)
    same("they show what is new", [home in os.pread(fd, 1 << 20, 0) for fd in held.values()], [True] * 3)
    same("and tell of it", polled.poll(1000 * PATIENCE), [(held["mounts"], select.POLLPRI | select.POLLERR)])
    libc.umount2(home, DETACH)
    for fd in held.values():
        os.close(fd)


def several():
    """A change is told to all who wait, each by an open table of its own."""
    home, ready = tempfile.mkdtemp().encode(), {}
    for _ in range(8):
        fd = os.open("/proc/self/mounts", os.O_RDONLY)
        ready[fd] = select.epoll()
        ready[fd].register(fd, select.EPOLLPRI)
    for change, args in ((libc.mount, (b"x", home, b"tmpfs", 0, None)), (libc.umount2, (home, DETACH))) * 3:
        waiting = {fd: Beside(each.poll, PATIENCE) for fd, each in ready.items()}
        same("a change", change(*args), 0)
        got = {fd: each.result() for fd, each in waiting.items()}
        same("is told to each", got, {fd: [(fd, CHANGED)] for fd in ready})
    for fd, each in ready.items():
        each.close()
        os.close(fd)


INSIDE = (interrupted, children, zombies, filters, opens, tables, untold, kept, several, contained)
inside(*INSIDE)


# ---------------------------------------------------------------- outside


def run(test):
    def limit():
        if test is zombies:
            resource.setrlimit(resource.RLIMIT_NOFILE, (1024, 1024))

    more = {opens: ["--keep", "memory,cpu,io,cpuset"], contained: ["--keep", "cpu,cpuset,memory"]}.get(test, [])
    more += ["--root"] if test in (tables, kept, several) else []
    ran = subprocess.run(
        [PROGRAM, "run", *more, sys.executable, ME, "inside", test.__name__], timeout=6 * PATIENCE, preexec_fn=limit
    )
    same("%s: its status" % test.__name__, ran.returncode, 0)


def enabled():
    """The controllers that /proc/cgroups has, with each one that is kept."""
    for keep, names in (("cpuset", ["cpuset"]), ("cpu", ["cpu", "cpuacct"]), ("io", ["blkio"]), ("memory", ["memory"])):
        words = [PROGRAM, "run", "--keep", keep, "cat", "/proc/cgroups"]
        lines = subprocess.run(words, stdout=subprocess.PIPE, timeout=PATIENCE).stdout.decode().splitlines()[1:]
        same("kept is %s" % keep, [x.split()[0] for x in lines if x.split()[3] == "1"], [*names, "pids"])


def reopened():
    """A file of a controller that was disabled stays without one, also if the controller is enabled again."""
    m = Mount("--keep", "memory")
    write(m.path("cgroup.subtree_control"), b"+memory +pids")
    os.mkdir(m.path("a"))
    for controller, name in (("memory", "memory.max"), ("pids", "pids.max"), ("pids", "pids.current")):
        file = m.path("a", name)
        fd, other = os.open(file, os.O_RDONLY), os.open(m.path("a", "cgroup.procs"), os.O_RDONLY)
        same("%s can be read" % name, error_of(os.pread, fd, 99, 0), "ok")
        write(m.path("cgroup.subtree_control"), b"-%s" % controller.encode())
        same("disabled", error_of(os.pread, fd, 99, 0), "ENODEV")
        write(m.path("cgroup.subtree_control"), b"+%s" % controller.encode())
        same("enabled again", error_of(os.pread, fd, 99, 0), "ENODEV")
        same("a new one", error_of(read, file), "ok")
        same("a file of no controller", error_of(os.pread, other, 99, 0), "ok")
        os.close(fd)
        os.close(other)
    m.end()


wanted = [t for t in (*INSIDE, enabled, reopened) if t.__name__ in sys.argv[1:] or not sys.argv[1:]]
in_parallel(lambda t: run(t) if t in INSIDE else t(), wanted)
finish()
