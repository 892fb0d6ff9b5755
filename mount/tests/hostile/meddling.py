"""Programs under `makhloeum run` that meddle with the processes of makhloeum, and readers for whom something is short: the run
still runs, and a reader sees the hierarchy."""
import ctypes
import errno
import os
import resource
import select
import signal
import struct
import subprocess
import sys
import threading
import time

sys.path.insert(0, os.path.dirname(os.path.dirname(os.path.realpath(__file__))))
from support import AT, BUILT, PATIENCE, PROGRAM, descriptor_places
from support import error_of, finish, in_parallel, into, libc, line_of, own_of, read, same, server_and_helper
from support import status_within, step, tracer, until, write

ME = os.path.realpath(__file__)
READERS = os.path.join(BUILT, "readers")
CLONE_NEWCGROUP = 0x02000000


def said(*words, program=READERS):
    """What a program in /a prints, as numbers. It may have as many descriptors as it wants."""

    def before():
        into("/a")
        most = resource.getrlimit(resource.RLIMIT_NOFILE)[1]
        resource.setrlimit(resource.RLIMIT_NOFILE, (most, most))

    ran = subprocess.run([program, *words], stdout=subprocess.PIPE, timeout=4 * PATIENCE, preexec_fn=before)
    return [int(n) for n in ran.stdout.split()] or ran.returncode


def own():
    """The processes of makhloeum besides its supervisor: the server, the helper, and the companion."""
    return own_of(tracer())


def forks(times=20):
    """Whether this number of forks and reads ends, each in time."""
    for _ in range(times):
        end = time.monotonic() + PATIENCE
        pid = os.fork()
        if pid == 0:
            os._exit(read("/proc/self/cgroup") != b"0::/\n")
        if os.waitpid(pid, 0)[1] or time.monotonic() > end:
            return False
    return True


# ---------------------------------------------------------------- readers


def unshares():
    """A namespace that is not made changes the root of none."""
    into("/a")
    reader = subprocess.Popen(
        ["sh", "-c", "read x; cat /proc/self/cgroup"], stdin=subprocess.PIPE, stdout=subprocess.PIPE
    )
    same("unshare without privileges", (libc.unshare(CLONE_NEWCGROUP), ctypes.get_errno()), (-1, errno.EPERM))
    same("another sees its group", reader.communicate(b"\n")[0], b"0::/a\n")
    # the program's own filter sends unshare(0) to a tracer, which the program does not have
    code = ctypes.create_string_buffer(
        struct.pack(
            "HBBI" * 4,
            0x20,
            0,
            0,
            0,
            0x15,
            0,
            1,
            272 if os.uname().machine == "x86_64" else 97,
            6,
            0,
            0,
            0x7FF00000,
            6,
            0,
            0,
            0x7FFF0000,
        )
    )
    program = ctypes.create_string_buffer(struct.pack("HxxxxxxP", 4, ctypes.addressof(code)))
    libc.prctl(38, 1, 0, 0, 0)
    same("the program's own filter", libc.prctl(22, 2, program, 0, 0), 0)
    same("its call fails, as without a tracer", (libc.unshare(0), ctypes.get_errno()), (-1, errno.ENOSYS))
    same("it sees its group", read("/proc/self/cgroup"), b"0::/a\n")


def crowds():
    same("two hundred readers in parallel", said("crowd", "200"), [0, 1])
    same("readers that use up their descriptors", said("descriptors"), [0, 1])
    # the server too may have more than the forty of the program
    held = [error_of(os.open, "/proc/self/mounts", os.O_RDONLY) for _ in range(20)]
    same("twenty tables that are open", held, ["ok"] * 20)


def unread():
    """A program that nobody may read: the supervisor cannot read its memory either."""
    same("it makes threads and children", said("threads", program=READERS + "-unread"), [0, 1])


def writers():
    """A thread writes 0: it is its process that moves."""
    thread = threading.Thread(target=into, args=("/a",))
    thread.start()
    thread.join()
    same("the process has moved", read(AT + "/a/cgroup.procs"), b"%d\n" % os.getpid())
    os.mkdir(AT + "/a/b")
    left = subprocess.Popen(
        [
            sys.executable,
            "-c",
            "import ctypes, threading, time\nthreading.Thread(target=time.sleep, args=(600,)).start()\n"
            "ctypes.CDLL(None).syscall(%d, 0)" % (60 if os.uname().machine == "x86_64" else 93),
        ]
    )
    step("one whose first thread has ended", until(lambda: open("/proc/%d/stat" % left.pid).read().split()[2] == "Z"))
    same("is listed", b"%d\n" % left.pid in read(AT + "/a/cgroup.procs"), True)
    same("and moves", error_of(write, AT + "/a/b/cgroup.procs", b"%d\n" % left.pid), "ok")
    same("it is there", read(AT + "/a/b/cgroup.procs"), b"%d\n" % left.pid)
    write(AT + "/a/b/cgroup.kill", b"1\n")
    same("a kill ends it", left.wait(PATIENCE), -signal.SIGKILL)


# ---------------------------------------------------------------- the processes of makhloeum


def stopped():
    """All but the supervisor are stopped, again and again."""
    end = time.monotonic() + 1
    while time.monotonic() < end:
        for pid in own():
            os.kill(pid, signal.SIGSTOP)
        if not forks(2):
            break
    step("the others still run", forks())
    for pid in own():
        os.kill(pid, signal.SIGSTOP)


def limited():
    """Limits for the processes of makhloeum are not the program's to give."""
    for pid in (*own(), tracer()):
        for which in (resource.RLIMIT_NOFILE, resource.RLIMIT_NPROC, resource.RLIMIT_AS, resource.RLIMIT_CPU):
            same("a limit %d" % which, error_of(resource.prlimit, pid, which, (0, 0)), "EPERM")
    step("its limits can be read", len(resource.prlimit(tracer(), resource.RLIMIT_NOFILE)) == 2)
    for pid in (*own(), tracer()):
        tasks = [int(t) for t in os.listdir("/proc/%d/task" % pid)]
        wrong = [t for t in tasks if error_of(resource.prlimit, t, resource.RLIMIT_NOFILE, (0, 0)) != "EPERM"]
        wrong = [t for t in wrong if os.path.exists("/proc/%d/task/%d" % (pid, t))]  # one that is idle may end
        same("nor for any of its %d threads" % len(tasks), wrong, [])
    same("this process is a child of the supervisor", os.getppid(), tracer())
    orphan = subprocess.run(["sh", "-c", "sleep 600 >&- & echo $!"], stdout=subprocess.PIPE).stdout
    orphan = int(orphan)
    parent = lambda: int(next(x for x in open("/proc/%d/status" % orphan) if x.startswith("PPid:")).split()[1])
    step("so is an orphan", until(lambda: parent() == tracer()))
    waits = threading.Event()
    thread = threading.Thread(target=waits.wait)
    thread.start()
    for what, number in (("itself", os.getpid()), ("the orphan", orphan), ("a thread", thread.native_id)):
        limit = resource.getrlimit(resource.RLIMIT_CORE)
        got = error_of(resource.prlimit, number, resource.RLIMIT_CORE, (0, limit[1]))
        same("a limit for %s" % what, (got, resource.prlimit(number, resource.RLIMIT_CORE)), ("ok", (0, limit[1])))
    waits.set()
    thread.join()
    os.kill(orphan, signal.SIGKILL)
    same("a number of nobody", error_of(resource.prlimit, 4194303, resource.RLIMIT_CORE, (0, 0)), "ESRCH")
    child = subprocess.Popen(["sleep", "600"])
    resource.prlimit(child.pid, resource.RLIMIT_NOFILE, (20, 20))
    same("a limit for another process", resource.prlimit(child.pid, resource.RLIMIT_NOFILE), (20, 20))
    child.kill()
    child.wait()
    step("the others still run", forks())


def flooded():
    """Signals for the supervisor, as fast as they can be sent."""
    signal.signal(signal.SIGHUP, signal.SIG_IGN)
    supervisor = tracer()
    floods = [os.fork() for _ in range(4)]
    while 0 in floods:
        os.kill(supervisor, signal.SIGHUP)
        os.kill(supervisor, signal.SIGCHLD)
    step("the others still run", forks())
    for pid in floods:
        os.kill(pid, signal.SIGKILL)
        os.waitpid(pid, 0)
    for pid in own() * 20:
        os.kill(pid, signal.SIGRTMIN + 5)
    waits = lambda: [x.split()[1] for pid in own() for x in open("/proc/%d/status" % pid) if x.startswith("ShdPnd:")]
    same("those of real time that the other three keep waiting", waits(), ["0" * 16] * 3)


def untold():
    """The one that tells inotify is killed: nothing else depends on it."""
    fd = os.open(AT + "/a/cgroup.events", os.O_RDONLY)
    os.read(fd, 99)
    poller = select.poll()
    poller.register(fd, select.POLLPRI)
    for pid in own():
        if len(os.listdir("/proc/%d/task" % pid)) == 1:
            os.kill(pid, signal.SIGKILL)
    child = subprocess.Popen(["sleep", "600"], preexec_fn=lambda: into("/a"))
    for value in (b"1\n", b"0\n") * 20:
        write(AT + "/a/cgroup.freeze", value)
    same("who polls is woken", [mask & select.POLLPRI for _, mask in poller.poll(1000 * PATIENCE)], [select.POLLPRI])
    child.kill()
    child.wait()
    step("the others still run", forks())


# ---------------------------------------------------------------- files


def calls():
    """Calls that these files have no answer for: each fails, and changes nothing."""
    name = AT + "/a/pids.max"
    write(name, b"7\n")
    same("O_DIRECT", error_of(os.open, name, os.O_RDWR | os.O_DIRECT), "EINVAL")
    fd = os.open(name, os.O_RDWR)
    same("at the end of all files", os.pread(fd, 9, (1 << 63) - 10), b"")
    same("in pieces", (os.writev(fd, [b"1", b"2", b"\n"]), os.pread(fd, 9, 0)), (3, b"12\n"))
    same("appended", (os.pwrite(fd, b"8\n", 1 << 40), os.pread(fd, 9, 0)), (2, b"8\n"))
    libc.mmap.restype = ctypes.c_void_p
    same(
        "a shared map",
        (libc.mmap(None, 4096, 3, 1, fd, 0), ctypes.get_errno()),
        (ctypes.c_void_p(-1).value, errno.ENODEV),
    )
    temp = os.memfd_create("x")
    same("sendfile", (os.sendfile(temp, fd, 0, 99), os.pread(temp, 99, 0)), (2, b"8\n"))
    step("copy_file_range", error_of(os.copy_file_range, fd, temp, 9, 0, 0) in ("ok", "EXDEV", "EOPNOTSUPP", "EINVAL"))
    for what, call, wanted in (
        ("link", lambda: os.link(name, AT + "/a/x"), ("EPERM", "ENOSYS", "EOPNOTSUPP")),
        ("symlink", lambda: os.symlink("x", AT + "/a/x"), ("EPERM", "ENOSYS", "EOPNOTSUPP")),
        ("mknod", lambda: os.mkfifo(AT + "/a/x"), ("EPERM", "ENOSYS", "EACCES")),
        ("create", lambda: os.open(AT + "/a/x", os.O_CREAT | os.O_RDWR), ("EPERM", "ENOSYS", "EOPNOTSUPP", "EACCES")),
        ("rename", lambda: os.rename(name, AT + "/a/x"), ("EPERM", "ENOSYS", "EOPNOTSUPP")),
        ("rename a group", lambda: os.rename(AT + "/a", AT + "/b"), ("EPERM", "ENOSYS", "EOPNOTSUPP")),
        ("unlink", lambda: os.unlink(name), ("EPERM", "ENOSYS")),
        ("fallocate", lambda: os.posix_fallocate(fd, 0, 99), ("EOPNOTSUPP", "ENOSYS", "EINVAL")),
        (
            "a temporary file",
            lambda: os.open(AT + "/a", os.O_TMPFILE | os.O_RDWR),
            ("ENOTSUP", "EOPNOTSUPP", "EPERM", "ENOSYS"),
        ),
        ("a name of 300", lambda: os.mkdir(AT + "/a/" + "n" * 300), ("ENAMETOOLONG",)),
        ("a path of 5000", lambda: os.mkdir(AT + "/a" * 2500), ("ENAMETOOLONG",)),
        ("a group of a process", lambda: os.mkdir(AT + "/.makhloeum.%d.1" % os.getpid()), ("EPERM", "EEXIST")),
    ):
        got = error_of(call)
        step("%s: %s" % (what, got), got in wanted, got)
    import fcntl

    same("flock", error_of(fcntl.flock, fd, fcntl.LOCK_EX | fcntl.LOCK_NB), "ok")
    same(
        "all is as before",
        (os.pread(fd, 9, 0), sorted(n for n in os.listdir(AT + "/a") if os.path.isdir(AT + "/a/" + n))),
        (b"8\n", []),
    )
    other = os.open(name, os.O_WRONLY)
    r, w = os.pipe()
    os.write(w, b"9\n")
    same("splice into a file", (libc.splice(r, None, other, None, 2, 0), os.pread(fd, 9, 0)), (2, b"9\n"))


def lists():
    """A directory is read while groups come and go: each that stays is listed once."""
    for i in range(300):
        os.mkdir(AT + "/a/stays%d" % i)
    churn = os.fork()
    while churn == 0:
        for i in range(20):
            error_of(os.mkdir, AT + "/a/goes%d" % i)
        for i in range(20):
            error_of(os.rmdir, AT + "/a/goes%d" % i)
    wrong, end = [], time.monotonic() + 1
    while time.monotonic() < end:
        names = [n for n in os.listdir(AT + "/a") if n.startswith("stays")]
        if len(names) != 300 or len(set(names)) != 300:
            wrong.append(len(names))
    os.kill(churn, signal.SIGKILL)
    os.waitpid(churn, 0)
    same("lists that lack one, or have one twice", wrong[:3], [])


def tables():
    """More tables of mounts are open than the server has descriptors for."""
    held, got = [], []
    for _ in range(4):
        r, w = os.pipe()
        pid = os.fork()
        if pid == 0:
            os.write(w, " ".join(error_of(os.open, "/proc/self/mounts", os.O_RDONLY) for _ in range(20)).encode())
            signal.pause()
        held.append(pid)
        got += os.read(r, 999).split()
    # each takes two descriptors of the server, and all of them a quarter of its 256
    same("too many are refused", got, [b"ok"] * 32 + [b"ENFILE"] * 48)
    errors = {error_of(os.open, "/proc/self/mounts", os.O_RDONLY) for _ in range(200)}
    places = descriptor_places(server_and_helper(tracer())[0])
    same("two hundred more, which take no descriptors", (errors, places <= 128), ({"ENFILE"}, True))
    step("others still run", forks())
    same("a group can be made", error_of(os.mkdir, AT + "/g"), "ok")
    for pid in held:
        os.kill(pid, signal.SIGKILL)
        os.waitpid(pid, 0)
    step("then there is room again", until(lambda: error_of(read, "/proc/self/mounts") == "ok"))


INSIDE = (unshares, crowds, unread, writers, stopped, limited, flooded, untold, calls, lists, tables)
LIMITS = {
    tables: ((resource.RLIMIT_NOFILE, (256, 256)),),
    crowds: ((resource.RLIMIT_NOFILE, (40, 4096)),),  # of its processes makhloeum raises it
}
if sys.argv[1:2] == ["inside"]:
    os.mkdir(AT + "/a")
    {t.__name__: t for t in INSIDE}[sys.argv[2]]()
    finish()


def all_of(line):
    return [p for p in os.listdir("/proc") if p.isdigit() and line_of(int(p)) == line]


def run(test):
    limits = LIMITS.get(test, ())
    # the last word tells this run from another of the same test, as older.py makes one
    words = [PROGRAM, "run", sys.executable, ME, "inside", test.__name__, str(os.getpid())]
    p = subprocess.Popen(
        words, start_new_session=True, preexec_fn=lambda: [resource.setrlimit(*limit) for limit in limits]
    )
    same("%s: its status" % test.__name__, status_within(p, 6 * PATIENCE), 0)
    line = b"".join(w.encode() + b"\0" for w in words)
    step("%s: nothing is left behind" % test.__name__, until(lambda: not all_of(line)), all_of(line))
    for pid in all_of(line):
        os.kill(int(pid), signal.SIGKILL)


def beginnings():
    """With few descriptors, processes or bytes it works, or says in one sentence why not."""

    def limited_to(limit):
        which, value = limit
        try:
            ran = subprocess.run(
                [PROGRAM, "run", "cat", "/proc/self/cgroup"],
                stdout=subprocess.PIPE,
                stderr=subprocess.PIPE,
                timeout=PATIENCE,
                preexec_fn=lambda: resource.setrlimit(which, (value, value)),
            )
            got = (ran.returncode, ran.stdout, ran.stderr)
        except (subprocess.TimeoutExpired, subprocess.SubprocessError) as e:
            got = (type(e).__name__, b"", b"")
        right = got == (0, b"0::/\n", b"") or (got[0] not in (0, "TimeoutExpired") and got[1] == b"" and got[2])
        step("limit %d is %d" % (which, value), right, got)

    limits = (
        (resource.RLIMIT_NOFILE, (3, 4, 5, 6, 8, 10, 12, 14, 16, 20, 24, 32)),
        (resource.RLIMIT_FSIZE, (0, 1)),
        (resource.RLIMIT_NPROC, (1,)),
        (resource.RLIMIT_SIGPENDING, (0,)),
        (resource.RLIMIT_MEMLOCK, (0,)),
        (resource.RLIMIT_CORE, (0,)),
    )
    in_parallel(limited_to, [(which, value) for which, values in limits for value in values], lanes=4)
    words = [PROGRAM, "run", "sleep", "600.%d" % os.getpid()]

    def killed_after(i):
        p = subprocess.Popen(words, stderr=subprocess.DEVNULL)
        time.sleep(i * 0.0005)
        p.kill()
        p.wait()

    in_parallel(killed_after, range(60), lanes=4)
    line = b"".join(w.encode() + b"\0" for w in words)
    step("killed while it starts it leaves nothing behind", until(lambda: not all_of(line)), all_of(line))
    for pid in all_of(line):
        os.kill(int(pid), signal.SIGKILL)
    script = '"$0" run sh -c "cat /proc/self/cgroup >&9" 9>&1 <&- >&- 2>&-'
    ran = subprocess.run(["sh", "-c", script, PROGRAM], stdout=subprocess.PIPE, timeout=PATIENCE)
    same("without standard streams", (ran.returncode, ran.stdout), (0, b"0::/\n"))


in_parallel(run, [t for t in INSIDE if t.__name__ in sys.argv[1:] or not sys.argv[1:]])
if "beginnings" in sys.argv[1:] or not sys.argv[1:]:
    beginnings()
finish()
