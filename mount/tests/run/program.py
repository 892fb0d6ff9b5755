"""What a program under `makhloeum run` sees; this file is also that program (program.py inside NAME)."""
import ctypes
import errno
import fcntl
import os
import pty
import re
import select
import shutil
import signal
import struct
import subprocess
import sys
import tempfile
import threading
import time

sys.path.insert(0, os.path.dirname(os.path.dirname(os.path.realpath(__file__))))
from support import AT, CGREPLAY, PATIENCE, PROGRAM, Mount
from support import beginnings, error_of, finish, libc, read, same, server_and_helper, status_within, step, until
from support import write

ME = os.path.realpath(__file__)


def into(group, pid=0):
    write(AT + group + "/cgroup.procs", b"%d\n" % pid)


def fork_error():
    """Forks a child that ends at once; the name of the errno, or its wait status."""
    try:
        pid = os.fork()
    except OSError as e:
        return errno.errorcode[e.errno]
    if pid == 0:
        os._exit(0)
    return os.waitpid(pid, 0)[1]


# ---------------------------------------------------------------- inside


def looks():
    buffer = ctypes.create_string_buffer(256)
    libc.statfs(AT.encode(), buffer)
    same("statfs tells a cgroup2 file system", struct.unpack("l", buffer.raw[:8])[0], 0x63677270)
    fd = os.open(AT, os.O_RDONLY)
    libc.fstatfs(fd, buffer)
    same("so does fstatfs", struct.unpack("l", buffer.raw[:8])[0], 0x63677270)
    home = tempfile.mkdtemp()
    os.symlink(AT, home + "/link")
    os.chdir(home)
    for path in ("link", "link/", "link/cgroup.procs", "../%s/link" % os.path.basename(home)):
        libc.statfs(path.encode(), buffer)
        same("so does one of %s" % path, struct.unpack("l", buffer.raw[:8])[0], 0x63677270)
        buffer = ctypes.create_string_buffer(256)
    os.chdir("/")
    libc.statfs(b"/proc", buffer)
    same("another file system is what it is", struct.unpack("l", buffer.raw[:8])[0], 0x9FA0)
    lines = [x.split() for x in open("/proc/self/mounts") if AT in x.split()]
    same("the mount table has one there", [x[:3] for x in lines], [["cgroup2", AT, "cgroup2"]])
    lines = [x for x in open("/proc/self/mountinfo") if AT in x.split()]
    step("so has mountinfo", len(lines) == 1 and lines[0].endswith(" - cgroup2 cgroup2 rw\n"))
    same("/proc/self/cgroup", open("/proc/self/cgroup").read(), "0::/\n")
    os.mkdir(AT + "/a")
    into("/a")
    same("in another group", open("/proc/self/cgroup").read(), "0::/a\n")
    same("by number", open("/proc/%d/cgroup" % os.getpid()).read(), "0::/a\n")
    directory = os.open("/proc/%d" % os.getpid(), os.O_RDONLY)
    same("from its directory", os.read(os.open("cgroup", os.O_RDONLY, dir_fd=directory), 99), b"0::/a\n")
    same("by its thread", open("/proc/thread-self/cgroup").read(), "0::/a\n")
    step("of another process", open("/proc/1/cgroup").read() == "0::/\n")
    child = subprocess.Popen(["sleep", "600"])
    text = os.open("/proc/%d/cgroup" % child.pid, os.O_RDONLY)
    child.kill()
    os.waitid(os.P_PID, child.pid, os.WEXITED | os.WNOWAIT)
    same("of one that has ended", os.pread(text, 99, 0), b"0::/a\n")
    child.wait()
    same("and was waited for", error_of(os.pread, text, 99, 0), "ESRCH")
    same("also after an operation", (read(AT + "/a/pids.current"), error_of(os.pread, text, 99, 0)), (b"1\n", "ESRCH"))
    same("a file of that name elsewhere", error_of(open, "/proc/self/net/cgroup"), "ENOENT")
    step("the constants are there", read(AT + "/cgroup.controllers") == b"pids\n")


def forks():
    os.mkdir(AT + "/a")
    into("/a")
    me = b"%d\n" % os.getpid()
    same("the writer of 0", read(AT + "/a/cgroup.procs"), me)
    child = os.fork()
    if child == 0:
        time.sleep(600)
        os._exit(0)
    same("a child is there when fork returns", read(AT + "/a/pids.current"), b"2\n")
    os.kill(child, signal.SIGKILL)
    os.waitpid(child, 0)
    same("and gone when wait returns", read(AT + "/a/cgroup.procs"), me)
    may_end = threading.Event()
    thread = threading.Thread(target=may_end.wait)
    thread.start()
    same(
        "a thread counts, and is not a process",
        (read(AT + "/a/pids.current"), read(AT + "/a/cgroup.procs")),
        (b"2\n", me),
    )
    may_end.set()
    thread.join()
    step("until it has ended", until(lambda: read(AT + "/a/pids.current") == b"1\n"))
    write(AT + "/a/pids.max", b"1\n")
    same("fork beyond pids.max", fork_error(), "EAGAIN")
    same("spawn beyond pids.max", error_of(os.posix_spawn, "/bin/true", ["true"], {}), "EAGAIN")
    same("vfork beyond pids.max", error_of(subprocess.Popen, ["true"]), "EAGAIN")  # Popen calls vfork, and then fork
    same("each was counted", read(AT + "/a/pids.events"), b"max 4\n")
    write(AT + "/a/pids.max", b"2\n")
    same("fork within it", fork_error(), 0)
    wrong = []
    for _ in range(200):
        if fork_error() != 0 or read(AT + "/a/pids.current") != b"1\n":
            wrong.append(1)
    same("two hundred forks, each gone when waited for", wrong, [])
    os.mkdir(AT + "/a/b")
    write(AT + "/a/pids.max", b"max\n")
    into("/a/b")
    write(AT + "/a/pids.max", b"17\n")
    got = [fork_in_thread() for _ in range(3)]
    same("threads that fork in parallel reach the limit, and not more", got, [17] * 3)


def fits():
    """A child that fills its group is its parent's, also if the hierarchy was used while it was made."""
    user = os.fork()
    while user == 0:
        os.stat(AT + "/cgroup.procs")
    os.mkdir(AT + "/a")
    into("/a")
    write(AT + "/a/pids.max", b"2\n")
    same("two hundred forks", {fork_error() for _ in range(200)}, {0})
    os.kill(user, signal.SIGKILL)
    os.waitpid(user, 0)
    made = [line.split()[1] for line in read(AT + "/.makhloeum/trace").splitlines() if line.startswith(b"fork ")]
    same("the parent of each", set(made[-200:]), {b"%d" % os.getpid()})


def fork_in_thread():
    """pids.current once twelve threads have tried to fork at the same time, and before any thread or child ends."""
    all_there, all_tried, looked = threading.Barrier(12), threading.Barrier(13), threading.Barrier(13)
    made = []

    def one():
        all_there.wait()
        try:
            made.append(subprocess.Popen(["sleep", "600"]))
        except OSError:
            pass
        all_tried.wait()
        looked.wait()

    threads = [threading.Thread(target=one) for _ in range(12)]
    for t in threads:
        t.start()
    all_tried.wait(4 * PATIENCE)
    count = int(read(AT + "/a/pids.current"))
    looked.wait()
    for t in threads:
        t.join()
    for p in made:
        p.kill()
        p.wait()
    until(lambda: read(AT + "/a/pids.current") == b"1\n")
    return count


def kills():
    os.makedirs(AT + "/a/b")
    child = os.fork()
    if child == 0:
        into("/a/b")
        while True:  # forks as fast as it can while it is killed
            if os.fork() == 0:
                time.sleep(600)
                os._exit(0)
            time.sleep(0.001)
    until(lambda: int(read(AT + "/a/pids.current")) > 5)
    lived = beginnings(map(int, read(AT + "/a/b/cgroup.procs").split()))
    write(AT + "/a/cgroup.kill", b"1\n")
    same("a kill ends the parent", os.waitpid(child, 0)[1], signal.SIGKILL)
    step("and its %d children" % (len(lived) - 1), until(lambda: not beginnings(lived).items() & lived.items()))
    same(
        "nobody is left",
        (read(AT + "/a/pids.current"), read(AT + "/a/cgroup.events")),
        (b"0\n", b"populated 0\nfrozen 0\n"),
    )
    same("the groups can go", (error_of(os.rmdir, AT + "/a/b"), error_of(os.rmdir, AT + "/a")), ("ok", "ok"))


def clones():
    """clone3 into a group, as new service managers and Go do it."""
    os.mkdir(AT + "/c")
    fd = os.open(AT + "/c", os.O_RDONLY)
    args = (ctypes.c_uint64 * 11)(0x200000000, 0, 0, 0, signal.SIGCHLD, 0, 0, 0, 0, 0, fd)
    pid = libc.syscall(435, args, 88)
    if pid == 0:
        libc.sleep(600)
        libc._exit(0)
    same("the child is born in the group", read(AT + "/c/cgroup.procs"), b"%d\n" % pid)
    same("the arguments are as they were", args[0], 0x200000000)
    write(AT + "/c/pids.max", b"1\n")
    os.mkdir(AT + "/own")
    into("/own")
    same("another beyond its pids.max", (libc.syscall(435, args, 88), ctypes.get_errno()), (-1, errno.EAGAIN))
    counts = [read(AT + "/own/" + file) for file in ("pids.current", "pids.peak", "pids.events.local")]
    same("nothing is counted in the caller's group", counts, [b"1\n", b"1\n", b"max 0\n"])
    into("")
    unread = {(libc.syscall(435, 8, 88), ctypes.get_errno()) for _ in range(600)}  # more than may wait at once
    same("arguments that can't be read", unread, {(-1, errno.EFAULT)})
    same("one of them later", (libc.syscall(435, args, 88), ctypes.get_errno()), (-1, errno.EAGAIN))
    os.kill(pid, signal.SIGKILL)
    os.waitpid(pid, 0)
    same("the group is empty", read(AT + "/c/pids.current"), b"0\n")
    for group in ("/longer", "/long"):
        os.mkdir(AT + group)
        args[10] = os.open(AT + group, os.O_RDONLY)
        pid = libc.syscall(435, args, 88)
        if pid == 0:
            libc._exit(0)
        os.waitpid(pid, 0)
        same("a child in %s" % group, read(AT + group + "/pids.peak"), b"1\n")
        os.close(args[10])
    numbers = (ctypes.c_int * 3)(-1, -1, -1)
    at = [ctypes.addressof(numbers) + 4 * i for i in range(3)]
    for name, flags, fields in (
        ("a descriptor", 0x1000, {1: at[0]}),
        ("its number, here and there", 0x01100000, {2: at[2], 3: at[1]}),
    ):
        args = (ctypes.c_uint64 * 11)(flags, 0, 0, 0, signal.SIGCHLD)
        for field, value in fields.items():
            args[field] = value
        pid = libc.syscall(435, args, 88)
        if pid == 0:
            libc._exit(numbers[2] != -1 and numbers[2] == libc.getpid())
        same(
            "clone3 gives %s: what the child has" % name, os.waitstatus_to_exitcode(os.waitpid(pid, 0)[1]), flags >> 24
        )
        if flags & 0x1000:
            line = next(x for x in open("/proc/self/fdinfo/%d" % numbers[0]) if x.startswith("Pid:"))
            same("the descriptor is of the child, which has ended", line.split()[1], "-1")
            os.close(numbers[0])
        else:
            same("the number here", numbers[1], pid)
    for name, flags, fields in (
        ("a stack without a size", 0, {5: at[0]}),
        ("a size without a stack", 0, {6: 4096}),
        ("a stack that wraps around", 0, {5: 4096, 6: (1 << 64) - 4096}),
        ("signal 65", 0, {4: 65}),
        ("a signal beyond all", 0, {4: 256}),
        ("a signal in the flags", signal.SIGCHLD, {}),
        ("a signal of a thread", 0x00010900, {}),
        ("a signal of a sibling", 0x00008000, {}),
        ("an unknown flag", 1 << 40, {}),
        ("CLONE_DETACHED", 0x00400000, {}),
        ("CLONE_SIGHAND and CLONE_CLEAR_SIGHAND", 0x100000900, {}),
        ("a descriptor of a group beyond all", 0x200000000, {10: 1 << 31}),
    ):
        args = (ctypes.c_uint64 * 11)(flags, 0, 0, 0, signal.SIGCHLD)
        for field, value in fields.items():
            args[field] = value
        pid = libc.syscall(435, args, 88)
        if pid == 0:
            libc._exit(0)
        same("clone3 with %s" % name, (pid, ctypes.get_errno()), (-1, errno.EINVAL))
    args = (ctypes.c_uint64 * 11)(0, 0, 0, 0, signal.SIGCHLD)
    for _ in range(600):  # more than may wait at once
        pid = libc.syscall(435, args, 88)
        if pid == 0:
            libc._exit(0)
        if pid < 0 or os.waitpid(pid, 0)[1]:
            break
    same("600 clone3 calls, one after the other", pid > 0, True)
    for size, wanted in ((4097, errno.E2BIG), (56, errno.EINVAL), (64, 0)):
        pid = libc.syscall(435, (ctypes.c_uint64 * 600)(0, 0, 0, 0, signal.SIGCHLD), size)
        if pid == 0:
            libc._exit(0)
        same("clone3 with %d bytes" % size, (pid > 0, ctypes.get_errno() if pid < 0 else 0), (not wanted, wanted))
        if pid > 0:
            os.waitpid(pid, 0)


def quiet():
    """The end of the last process of a group wakes who polls, also if nothing else happens: nobody gets a signal, makes a thread or a
    process, or asks the hierarchy."""
    os.mkdir(AT + "/q")
    clone, polls = (56, ("7",)) if os.uname().machine == "x86_64" else (220, ("73",))
    told, took, texts, may_end = [], [], [], os.pipe()
    file = os.open(AT + "/q/cgroup.events", os.O_RDONLY)
    os.pread(file, 99, 0)
    poll = select.poll()
    poll.register(file, select.POLLPRI)

    def look():
        """Polls and reads until nobody is there. It has no end in time: then it would look once more."""
        while not texts or texts[-1] != b"populated 0\nfrozen 0\n":
            poll.poll()
            texts.append(os.pread(file, 99, 0))

    for _ in range(6):
        texts.clear()
        looks = threading.Thread(target=look, daemon=True)
        looks.start()
        pid = libc.syscall(clone, 0, 0, 0, 0, 0, 0)  # without a signal to its parent
        if pid == 0:
            into("/q")
            os.read(may_end[0], 1)
            libc._exit(0)
        call = "/proc/self/task/%d/syscall" % looks.native_id
        until(lambda: texts and open(call).read().split()[0] in polls)
        begun = time.monotonic()
        os.write(may_end[1], b"x")
        looks.join(PATIENCE)
        took.append(time.monotonic() - begun)
        told.append(not looks.is_alive() and list(texts))
        os.waitpid(pid, 0x40000000)  # __WALL
        if not told[-1]:
            break
    same("the end of each of six wakes a poll", told, [[b"populated 1\nfrozen 0\n", b"populated 0\nfrozen 0\n"]] * 6)
    step("at least one of them soon, however busy the machine is", min(took) < 0.5, took)


def of_thread():
    """A child of a thread is in the group of the thread's process."""
    os.mkdir(AT + "/t")
    into("/t")
    seen = []

    def fork():
        pid = os.fork()
        if pid == 0:
            os._exit(read("/proc/self/cgroup") != b"0::/t\n")
        seen.append(os.waitpid(pid, 0)[1])

    thread = threading.Thread(target=fork)
    thread.start()
    thread.join()
    same("a child of a thread is in its group", seen, [0])
    into("")
    child = subprocess.Popen(["sleep", "600"], preexec_fn=lambda: into("/t"))
    fd = os.open(AT + "/t/cgroup.events", os.O_RDONLY)
    poller = select.poll()
    poller.register(fd, select.POLLPRI)
    same("populated", os.pread(fd, 99, 0)[:11], b"populated 1")
    child.kill()
    same("a death is told", [event for _, event in poller.poll(1000 * PATIENCE)], [select.POLLPRI | select.POLLERR])
    same("not populated", os.pread(fd, 99, 0)[:11], b"populated 0")
    child.wait()
    os.close(fd)


def stops():
    """Job control works under the supervisor."""
    child = subprocess.Popen(["sleep", "600"])
    child.send_signal(signal.SIGSTOP)
    same("a stop is seen by the parent", os.waitpid(child.pid, os.WUNTRACED)[1] & 0xFF, 0x7F)
    child.send_signal(signal.SIGCONT)
    child.send_signal(signal.SIGTERM)
    same("then a signal", child.wait(), -signal.SIGTERM)


def taken_back():
    """All that this process and the hierarchy did is undone, one by one, under its feet."""
    os.mkdir(AT + "/a")
    into("/a")
    for _ in range(20):
        fork_error()
    trace = read(AT + "/.makhloeum/trace").splitlines(True)
    wrong = []
    while trace:
        if read(AT + "/.makhloeum/newest") != trace.pop():
            wrong.append(len(trace))
        write(AT + "/.makhloeum/undo", b"\n")
    same("each undo takes the newest back", wrong, [])
    same(
        "the start",
        (read(AT + "/cgroup.procs"), read(AT + "/.makhloeum/depth"), os.path.exists(AT + "/a")),
        (b"1\n", b"0\n", False),
    )
    same("a program still runs", fork_error(), 0)


# ---------------------------------------------------------------- outside


def run(*words, **more):
    return subprocess.run(
        [PROGRAM, "run", *words],
        stdout=subprocess.PIPE,
        stderr=subprocess.PIPE,
        timeout=5 * PATIENCE,
        close_fds=False,
        **more
    )


def statuses():
    same("a status", run("sh", "-c", "exit 7").returncode, 7)
    same("a signal", run("sh", "-c", "kill -9 $$").returncode, 137)
    same("a signal of the terminal", run("sh", "-c", "kill -QUIT $$").returncode, 131)
    same("a program that is not there", run("/nowhere").returncode, 127)
    same("one that cannot be executed", run("/etc/passwd").returncode, 126)
    same("what it says", run("--", "echo", "x").stdout, b"x\n")
    same("who it is", run("id", "-u").stdout, b"%d\n" % os.getuid())
    same("with --root", run("--root", "id", "-u").stdout, b"0\n")
    left = run("sh", "-c", "%s & exec setsid %s & true" % (SLEEPS[0], SLEEPS[1]))
    same("what it leaves behind", left.returncode, 0)
    step("ends with it", until(lambda: not any(map(running, SLEEPS))))


COUNTS = """import os, signal
r, w = os.pipe()
os.set_blocking(w, False)
signal.signal(signal.SIGINT, lambda *_: None)
signal.set_wakeup_fd(w)  # gets a byte for each signal
count = 0
for _ in range(40):
    os.write(1, b"ready ")
    os.set_blocking(r, True)
    count += len(os.read(r, 1))
    for _ in range(5):
        pid = os.fork()
        if pid == 0:
            os._exit(0)
        os.waitpid(pid, 0)
    os.set_blocking(r, False)
    try:
        count += len(os.read(r, 99))
    except BlockingIOError:
        pass
os.write(1, b"%d times" % count)
"""


def terminal():
    """An interrupt by the terminal reaches the program once: from the terminal, and not by makhloeum too. (Two that wait are one: so
    there are forty.)"""
    pid, fd = pty.fork()
    if pid == 0:
        os.execv(PROGRAM, [PROGRAM, "run", sys.executable, "-c", COUNTS])
    said = b""

    def has(word, times):
        nonlocal said
        if select.select([fd], [], [], PATIENCE)[0]:
            try:
                said += os.read(fd, 99)
            except OSError:  # nobody has the terminal open any more
                return True
        return said.count(word) == times

    for i in range(40):
        until(lambda: has(b"ready", i + 1))
        os.write(fd, b"\3")
    until(lambda: has(b"times", 1))
    step("each of forty interrupts by the terminal comes once", b"40 times" in said, said)
    same("the status", os.waitstatus_to_exitcode(os.waitpid(pid, 0)[1]), 0)
    os.close(fd)


def at_terminal():
    """A program at a terminal has its three streams, and no descriptor of makhloeum."""
    pid, fd = pty.fork()
    if pid == 0:
        os.closerange(3, 1024)  # what the caller of this test left open
        code = "import os; print(*sorted(os.listdir('/proc/self/fd')))"  # one is that of the listing
        os.execv(PROGRAM, [PROGRAM, "run", sys.executable, "-I", "-S", "-c", code])
    said = b""
    while select.select([fd], [], [], PATIENCE)[0]:
        try:
            said += os.read(fd, 99)
        except OSError:  # nobody has the terminal open any more
            break
    same("descriptors of a program at a terminal", said.split(), [b"0", b"1", b"2", b"3"])
    os.waitpid(pid, 0)
    os.close(fd)


SLEEPS = [
    "sleep %d.%d" % (seconds, os.getpid()) for seconds in (601, 602, 603, 604, 605)
]  # no other test has these, and none waits for their end


def running(command):
    """Whether a command line begins so, and not with a longer number."""
    words = ["pgrep", "-u", str(os.getuid()), "-f", "^" + command + "([^0-9]|$)"]
    return subprocess.run(words, stdout=-3).returncode == 0


def soon():
    """A run ends with its program, since it kills what that left, and its server ends with the mount. Without that it would wait for
    seconds."""
    took = []
    while len(took) < 20 and (not took or took[-1] >= 0.9):  # a busy machine takes long
        words = [PROGRAM, "run", "sh", "-c", "sleep 600 & exec date +%s.%N"]
        p = subprocess.Popen(words, stdout=subprocess.PIPE, text=True)
        told = p.communicate(timeout=PATIENCE)[0]
        took.append(time.time() - float(told))
    step("a run ends soon after its program", took[-1] < 0.9, took)


def beside():
    """A mount of another program is what it is, and no part of the run."""
    m = Mount()
    lines = [
        x.split()[1:3] for x in run("cat", "/proc/mounts").stdout.decode().splitlines() if x.split()[1] in (AT, m.at)
    ]
    same("two mounts", sorted(lines), sorted([[AT, "cgroup2"], [m.at, "fuse.cgroup2"]]))
    lines = run("cat", "/proc/self/mountinfo").stdout.decode().splitlines()
    same("one is of type cgroup2", [x.split()[4] for x in lines if " - cgroup2 " in x], [AT])
    m.end()


def ends():
    """The supervisor, the server or the helper dies: nothing is left."""
    for which, why in (
        ("supervisor", ""),
        ("server", "makhloeum: the mount has ended\n"),
        ("helper", "makhloeum: a process of the supervisor has ended\n"),
    ):
        p = subprocess.Popen(
            [PROGRAM, "run", "sh", "-c", "%s; %s" % (SLEEPS[2], SLEEPS[3])], stderr=subprocess.PIPE, text=True
        )
        until(lambda: running(SLEEPS[2]))
        pids = server_and_helper(p.pid)
        same("there are both", len(pids), 2)
        os.kill(p.pid if which == "supervisor" else pids[which == "helper"], signal.SIGKILL)
        said = p.communicate(timeout=PATIENCE)[1]  # it has an end once nothing of the run has that pipe
        same("the %s is killed" % which, p.returncode, -9 if which == "supervisor" else 137)
        same("what is said", said, why)
        step("its program goes with it", until(lambda: not running(SLEEPS[2])))
        step(
            "and so does every other process",
            until(lambda: not running(re.escape(PROGRAM + " run sh -c " + SLEEPS[2]))),
        )
    for what, call in CALLS.items():
        said = {failures_without_helper(CALLED + call) for _ in range(4)}
        same("the helper is killed: what fails in a program that %s" % what, said, {("", why)})
    p = subprocess.Popen([PROGRAM, "run", *SLEEPS[4].split()])
    until(lambda: running(SLEEPS[4]))
    p.terminate()
    same("SIGTERM is passed on", p.wait(PATIENCE), 143)


def unheard():
    """The server or the helper dies while nobody reads standard error, a full pipe: the program is killed, and then that is said."""
    for which, why in enumerate(
        (b"makhloeum: the mount has ended\n", b"makhloeum: a process of the supervisor has ended\n")
    ):
        r, w = os.pipe()
        filler = fcntl.fcntl(w, fcntl.F_SETPIPE_SZ, 4096) * b"x"
        os.write(w, filler)
        p = subprocess.Popen([PROGRAM, "run", "sh", "-c", "%s & %s; true" % (SLEEPS[2], SLEEPS[3])], stderr=w)
        os.close(w)
        until(lambda: running(SLEEPS[2]) and running(SLEEPS[3]))
        os.kill(server_and_helper(p.pid)[which], signal.SIGKILL)
        step("its processes go", until(lambda: not running(SLEEPS[2]) and not running(SLEEPS[3])))
        with open(r, "rb") as pipe:
            same("what is said after that", pipe.read(), filler + why)
        same("the status", status_within(p), 137)


def failures_without_helper(code):
    """What fails before the program is killed, and what the run says."""
    p = subprocess.Popen([PROGRAM, "run", sys.executable, "-c", code], stdout=-1, stderr=-1, text=True)
    same("eight children run", [p.stdout.readline() for _ in range(8)], ["it runs\n"] * 8)
    helper = server_and_helper(p.pid)[1]
    os.kill(p.pid, signal.SIGSTOP)
    os.kill(helper, signal.SIGKILL)
    time.sleep(0.1)  # the next calls are made now
    os.kill(p.pid, signal.SIGCONT)
    return p.communicate(timeout=PATIENCE)


# Eight children make the calls: the first process is killed before all others.
CALLED = """
import ctypes, os, signal
libc = ctypes.CDLL(None, use_errno=True)
args = (ctypes.c_uint64 * 11)(0, 0, 0, 0, signal.SIGCHLD)
def worked(result):
    if result < 0: os.write(1, b"errno %d\\n" % ctypes.get_errno())
    return result
if os.fork(): os.wait()
for _ in range(3): os.fork()
os.write(1, b"it runs\\n")
"""
CALLS = {
    "opens files": "while True: libc.close(worked(libc.open(b'/dev/null', 0)))",
    "forks": """
while True:
    pid = worked(libc.syscall(435, args, 88))
    libc.waitpid(pid, None, 0) if pid else libc._exit(0)
""",
}

TRACED = """
import ctypes, os
libc = ctypes.CDLL(None, use_errno=True)
print(*(libc.ptrace(request, os.getppid(), 0, 0) == -1 and ctypes.get_errno() for request in (0, 16, 0x4206)))
"""


def listen():
    """Installs a seccomp listener that gets no call: a process has at most one."""
    allow = struct.pack("HBBI", 6, 0, 0, 0x7FFF0000)
    code = ctypes.create_string_buffer(allow)
    program = ctypes.create_string_buffer(struct.pack("HxxxxxxP", 1, ctypes.addressof(code)))
    libc.prctl(38, 1, 0, 0, 0)
    listener = libc.syscall({"x86_64": 317, "aarch64": 277}[os.uname().machine], 1, 8, program)
    os.set_inheritable(listener, True)


def refused_here():
    """Machines that do not allow it: one sentence, and status 2."""
    deny = {
        "user namespaces": "echo 0 > /proc/sys/user/max_user_namespaces",
        "FUSE": "mount --bind /dev/null /dev/fuse",
    }
    nested = ("a user namespace in another", "echo 1 > /proc/sys/user/max_user_namespaces")
    several = [("user namespaces", deny["user namespaces"], "--users"), (*nested, "--root"), (*nested, "--users")]
    for what, how, *options in [*deny.items(), *several]:
        ran = subprocess.run(
            ["unshare", "-Urm", "sh", "-c", how + ' && exec "$0" run "$@" true', PROGRAM, *options],
            stderr=subprocess.PIPE,
            timeout=PATIENCE,
        )
        same("without %s %s" % (what, options), (ran.returncode, ran.stderr.count(b"\n")), (2, 1))
        step("it is named", ("does not allow " + what).encode() in ran.stderr, ran.stderr)
    ran = run("true", preexec_fn=listen)
    same("without seccomp notification", (ran.returncode, ran.stderr.count(b"\n")), (2, 1))
    step("it is named", b"does not allow seccomp notification" in ran.stderr, ran.stderr)
    # the leak sanitizer needs ptrace, which does not work here
    ran = run("--", PROGRAM, "run", "true", env=dict(os.environ, ASAN_OPTIONS="detect_leaks=0"))
    why = b"run does not work inside run, strace or gdb: this process already has a tracer, and can have only one"
    same("run inside run", (ran.returncode, ran.stderr), (2, b"makhloeum: %s\n" % why))
    ran = run("--", sys.executable, "-c", TRACED)
    why = b"run traces every process itself: strace, gdb and other tracers do not work inside it"
    same("a program that traces", (ran.returncode, ran.stdout, ran.stderr), (0, b"1 1 1\n", b"makhloeum: %s\n" % why))
    for request in (0, 16, 0x4206):  # TRACEME, ATTACH, SEIZE
        ran = run("--", sys.executable, "-c", TRACED.replace("(0, 16, 0x4206)", "(%d,)" % request))
        got = ran.returncode, ran.stdout, ran.stderr.count(b"run traces every process itself")
        same("by request %d alone" % request, got, (0, b"1\n", 1))
    if shutil.which("strace"):
        ran = run("strace", "true")
        step(
            "strace fails, and one sentence says why",
            ran.returncode != 0 and ran.stderr.count(b"run traces every process itself") == 1,
            ran.stderr,
        )


INSIDE = (looks, forks, fits, quiet, of_thread, kills, clones, stops, taken_back)
if sys.argv[1:2] == ["inside"]:
    {t.__name__: t for t in INSIDE}[sys.argv[2]]()
    finish()
for test in INSIDE:
    trace, answers = (os.path.join(tempfile.mkdtemp(), n) for n in ("trace", "answers"))
    ran = subprocess.run(
        [
            PROGRAM,
            "run",
            "--control",
            "--trace",
            trace,
            "--answers",
            answers,
            sys.executable,
            ME,
            "inside",
            test.__name__,
        ],
        timeout=6 * PATIENCE,
        stderr=subprocess.PIPE,
    )
    same("its status", (ran.returncode, ran.stderr), (0, b""))
    with open(trace) as lines, open(answers, "rb") as wanted:
        step(
            "cgreplay gives the same answers (%d lines)" % sum(1 for _ in open(trace)),
            subprocess.run(CGREPLAY, stdin=lines, stdout=subprocess.PIPE).stdout == wanted.read(),
        )
for test in (statuses, terminal, at_terminal, soon, beside, ends, unheard, refused_here):
    test()
finish()
