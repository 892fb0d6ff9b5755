"""Births that fail under `makhloeum run`, whoever refuses them: none takes a place in its group, counts an event that the kernel would
not count, or stays with makhloeum. This file is also the program (refused.py inside NAME)."""
import ctypes
import errno
import mmap
import os
import resource
import select
import signal
import subprocess
import sys
import threading
import time

sys.path.insert(0, os.path.dirname(os.path.dirname(os.path.realpath(__file__))))
from support import AT, BUILT, PATIENCE, error_of, finish, inside, into, libc, read, rests, run_each, same, step
from support import tracer, until, write

TASKS = os.path.join(BUILT, "tasks")
CLONE = 56 if os.uname().machine == "x86_64" else 220
THREAD, SIGHAND, VM, FS = 0x10000, 0x800, 0x100, 0x200
NEWNS, NEWCGROUP, NEWUSER, NEWPID = 0x20000, 0x2000000, 0x10000000, 0x20000000
INTO, TIMES, ROOM = 0x200000000, 50, 4
PARENT, PAGES = 0x8000, (1 << 64) - 4096
NORESERVE, POPULATE_READ = 0x4000, 22


def clone(flags, *more):
    """The name of the errno. A child that is made all the same ends at once."""
    pid = libc.syscall(CLONE, flags | signal.SIGCHLD, *(more or (0, 0, 0, 0)))
    return ended(pid)


def clone3(flags, size=88, **fields):
    names = (
        "flags pidfd child_tid parent_tid exit_signal stack stack_size tls set_tid set_tid_size cgroup after".split()
    )
    at = {name: i for i, name in enumerate(names)}
    args = (ctypes.c_uint64 * 600)(flags, 0, 0, 0, signal.SIGCHLD)
    for name, value in fields.items():
        args[at[name]] = value
    return ended(libc.syscall(435, args, size))


def thread_into(fd):
    """It makes none, so the stack is nobody's."""
    return clone3(INTO | THREAD | SIGHAND | VM, exit_signal=0, stack=4096, stack_size=4096, cgroup=fd)


def ended(pid):
    if pid == 0:
        libc._exit(0)
    if pid < 0:
        return errno.errorcode[ctypes.get_errno()]
    os.waitpid(pid, 0)
    return "ok"


def beyond_processes(call):
    """A call that the kernel refuses because of a limit of the user."""
    soft, hard = resource.getrlimit(resource.RLIMIT_NPROC)
    resource.setrlimit(resource.RLIMIT_NPROC, (0, hard))
    try:
        return call()
    finally:
        resource.setrlimit(resource.RLIMIT_NPROC, (soft, hard))


def fork():
    try:
        pid = os.fork()
    except OSError as e:
        return errno.errorcode[e.errno]
    return ended(pid)


def thread():
    t = threading.Thread(target=lambda: None)
    try:
        t.start()
    except RuntimeError:
        return "EAGAIN"
    t.join()
    return "ok"


def spawn(program):
    return error_of(lambda: os.waitpid(os.posix_spawn(program, [program], {}), 0))


def group(name, flags=os.O_RDONLY):
    return os.open(AT + name, flags)


def ways():
    """The name of each way, its errno, and a call that fails by it. Without one group the others are as they were."""
    os.mkdir(AT + "/gone")
    gone = group("/gone")
    os.rmdir(AT + "/gone")
    file, full, other = group("/a/cgroup.procs"), group("/full"), os.open("/", os.O_RDONLY)
    write(AT + "/full/pids.max", b"0")
    return [
        ("clone, CLONE_SIGHAND", "EINVAL", lambda: clone(SIGHAND)),
        ("clone, CLONE_THREAD", "EINVAL", lambda: clone(THREAD)),
        ("clone, CLONE_THREAD and CLONE_SIGHAND", "EINVAL", lambda: clone(THREAD | SIGHAND)),
        ("clone, CLONE_NEWNS and CLONE_FS", "EINVAL", lambda: clone(NEWNS | FS)),
        ("clone, CLONE_NEWNS", "EPERM", lambda: clone(NEWNS)),
        ("clone, CLONE_NEWCGROUP", "EPERM", lambda: clone(NEWCGROUP)),
        ("clone3, CLONE_NEWCGROUP", "EPERM", lambda: clone3(NEWCGROUP)),
        ("clone3, CLONE_SIGHAND", "EINVAL", lambda: clone3(SIGHAND)),
        ("clone3, a stack without a size", "EINVAL", lambda: clone3(0, stack=4096)),
        ("clone3, a size without a stack", "EINVAL", lambda: clone3(0, stack_size=4096)),
        ("clone3, a stack beyond all memory", "EINVAL", lambda: clone3(0, stack=PAGES, stack_size=4096)),
        ("clone3, a stack that is the kernel's", "EINVAL", lambda: clone3(0, stack=1 << 63, stack_size=4096)),
        ("clone3, an unknown flag", "EINVAL", lambda: " ".join({clone3(1 << bit) for bit in range(34, 64)})),
        ("clone3, CLONE_DETACHED", "EINVAL", lambda: clone3(0x400000)),
        ("clone3, a signal in the flags", "EINVAL", lambda: clone3(signal.SIGCHLD)),
        ("clone3, both rules for handlers", "EINVAL", lambda: clone3(1 << 32 | SIGHAND | VM)),
        ("clone3, a thread with a signal", "EINVAL", lambda: clone3(THREAD | SIGHAND | VM)),
        ("clone3, a sibling with a signal", "EINVAL", lambda: clone3(PARENT)),
        ("clone3, a signal", "EINVAL", lambda: clone3(0, exit_signal=65)),
        ("clone3, a long signal", "EINVAL", lambda: clone3(0, exit_signal=1 << 32 | signal.SIGCHLD)),
        ("clone3, a set_tid of none", "EINVAL", lambda: clone3(0, set_tid=8)),
        ("clone3, no set_tid of one", "EINVAL", lambda: clone3(0, set_tid_size=1)),
        ("clone3, a set_tid of 33", "EINVAL", lambda: clone3(0, set_tid=8, set_tid_size=33)),
        ("clone3, 63 bytes", "EINVAL", lambda: clone3(0, 63)),
        ("clone3, 4,097 bytes", "E2BIG", lambda: clone3(0, 4097)),
        ("clone3, 96 bytes", "ENOSYS", lambda: clone3(0, 96)),
        ("clone3, 4,096 bytes", "ENOSYS", lambda: clone3(0, 4096)),
        ("clone3, CLONE_CLEAR_SIGHAND", "ENOSYS", lambda: clone3(1 << 32)),
        ("clone3, CLONE_NEWTIME", "ENOSYS", lambda: clone3(0x80)),
        ("clone3, set_tid", "ENOSYS", lambda: clone3(0, set_tid=8, set_tid_size=1)),
        ("clone3, a set_tid of 32", "ENOSYS", lambda: clone3(0, set_tid=8, set_tid_size=32)),
        ("clone3, CLONE_PIDFD and CLONE_PARENT_SETTID", "ENOSYS", lambda: clone3(0x101000, pidfd=8, parent_tid=16)),
        ("clone3 of nothing", "EFAULT", lambda: ended(libc.syscall(435, None, 88))),
        ("clone3 into a removed group", "ENOENT", lambda: clone3(INTO, cgroup=gone)),
        ("clone3 into a file", "EBADF", lambda: clone3(INTO, cgroup=file)),
        ("clone3 into another file system", "EBADF", lambda: clone3(INTO, cgroup=other)),
        ("clone3 into no descriptor", "EBADF", lambda: clone3(INTO, cgroup=999)),
        ("clone3 into no number of one", "EINVAL", lambda: clone3(INTO, cgroup=1 << 31)),
        ("clone3 into a group, a thread", "ENOTSUP", lambda: thread_into(group_b)),
        ("clone3 into a group, 80 bytes", "EINVAL", lambda: clone3(INTO, 80, cgroup=group_b)),
        ("clone3 into a full group", "EAGAIN", lambda: clone3(INTO, cgroup=full)),
        ("clone3 with namespaces", "EAGAIN", lambda: clone3(INTO | NEWUSER | NEWCGROUP, cgroup=full)),
        ("clone3 into a group, and wrong flags", "EINVAL", lambda: clone3(INTO | SIGHAND, cgroup=group_b)),
        ("fork beyond a limit of the user", "EAGAIN", lambda: beyond_processes(fork)),
        ("a thread beyond it", "EAGAIN", lambda: beyond_processes(thread)),
        ("clone3 into a group beyond it", "EAGAIN", lambda: beyond_processes(lambda: clone3(INTO, cgroup=group_b))),
        ("vfork beyond it", "EAGAIN", lambda: beyond_processes(lambda: spawn("/bin/true"))),
        ("a program that is not there", "ENOENT", lambda: spawn("/nowhere")),
    ]


group_b = -1


def places(name):
    """How many children this process can make in its group, as its limit is; they are ended."""
    made = []
    while len(made) < 20:
        try:
            pid = os.fork()
        except OSError:
            break
        if pid == 0:
            signal.pause()
        made.append(pid)
    for pid in made:
        os.kill(pid, signal.SIGKILL)
        os.waitpid(pid, 0)
    return len(made)


def births():
    global group_b
    for g in ("/a", "/b", "/full"):
        os.mkdir(AT + g)
    group_b = group("/b")
    into("/a")
    write(AT + "/b/pids.max", b"%d" % ROOM)
    before = status_of_own()
    for name, wanted, call in ways():
        write(AT + "/a/pids.max", b"max")
        events = read(AT + "/a/pids.events"), read(AT + "/b/pids.events"), read(AT + "/full/pids.events")
        got = {call() for _ in range(TIMES)}
        same("%s: it fails" % name, got, {wanted})
        after = read(AT + "/a/pids.events"), read(AT + "/b/pids.events"), read(AT + "/full/pids.events")
        same("%s: no event" % name, after, events)
        write(AT + "/a/pids.max", b"%d" % ROOM)
        room = places(name), read(AT + "/a/pids.current"), read(AT + "/b/pids.current")
        if room != (ROOM - 1, b"1\n", b"0\n"):
            same("%s: it takes no place" % name, room, (ROOM - 1, b"1\n", b"0\n"))
    same("children of calls that failed", error_of(os.waitpid, -1, os.WNOHANG), "ECHILD")
    born = [clone3(INTO, cgroup=group_b) for _ in range(3 * ROOM)]
    same("children in the other group, one after the other", born, ["ok"] * 3 * ROOM)
    for _ in range(300):
        into("/a")  # the server looks at who writes
    for (name, was), (_, now) in zip(before, status_of_own()):
        step("the descriptors of %s" % name, now <= 2 * was, (was, now))


def status_of_own():
    """For each process of makhloeum how many places for descriptors it has: they are never fewer, and double when they are used up."""
    top = tracer()
    found = []
    for pid in (top, *sorted(int(p) for p in open("/proc/%d/task/%d/children" % (top, top)).read().split())):
        status = dict(line.split(":\t", 1) for line in open("/proc/%d/status" % pid) if ":\t" in line)
        if status["Name"] == "makhloeum\n":
            found.append((pid, int(status["FDSize"])))
    return found


X32, TRACE = 0x40000000, {"TRACEME": 0, "ATTACH": 16, "SEIZE": 0x4206}


def others():
    """Calls of other kinds that are refused, whatever their arguments."""
    machine, own = os.uname().machine == "x86_64", os.fork()
    if own == 0:
        signal.pause()
    call = lambda *words: "ok" if libc.syscall(*words) >= 0 else errno.errorcode[ctypes.get_errno()]
    nothing = (ctypes.c_uint64 * 32)()
    for name, wanted, words in (
        ("io_uring_setup", "EPERM", (425, 8, nothing)),
        ("statmount", "ENOSYS", (457, nothing, nothing, 256, 0)),
        ("listmount", "ENOSYS", (458, nothing, nothing, 1, 0)),
        *(("ptrace " + n, "EPERM", (101 if machine else 117, k, own, 0, 0)) for n, k in TRACE.items()),
        ("prlimit of makhloeum", "EPERM", (302 if machine else 261, tracer(), 7, nothing, None)),
        *((("getpid of x32", "ENOSYS", (X32 + 39,)), ("fork of x32", "ENOSYS", (X32 + 57,))) if machine else ()),
        ("mount of version 1", "EPERM", (165 if machine else 40, b"none", b"/", b"cgroup", 0, None)),
    ):
        same(name, call(*words), wanted)
    same("prlimit of another", call(302 if machine else 261, own, 7, None, nothing), "ok")
    os.kill(own, signal.SIGKILL)
    os.waitpid(own, 0)


def crowd():
    """A process with two thousand threads, which all end at once."""
    os.mkdir(AT + "/t")
    count = 2000
    p = subprocess.Popen([TASKS, "first"], stdin=subprocess.PIPE, stdout=subprocess.PIPE, preexec_fn=lambda: into("/t"))
    p.stdout.readline()
    p.stdin.write(b"thread\n" * count)
    p.stdin.flush()
    made = {p.stdout.readline() for _ in range(count)}
    same("all are made, and count", (len(made), read(AT + "/t/pids.current")), (count, b"%d\n" % (count + 1)))
    same("all are listed", len(read_all("/t/cgroup.threads").split()), count + 1)
    supervisor, all_tasks = tracer(), os.listdir("/proc/%d/task" % p.pid)

    def all_become(state):
        """Each stays so once it is: so none is read again."""
        others = list(all_tasks)

        def are():
            others[:] = [task for task in others if stat_of("%d/task/%s" % (p.pid, task))[0] != state]
            return not others

        return until(are)

    os.kill(supervisor, signal.SIGSTOP)
    step("the supervisor is stopped", until(lambda: stat_of(supervisor)[0] == b"T"))
    for task in all_tasks:
        libc.tgkill(p.pid, int(task), signal.SIGWINCH)  # which they ignore
    step("each of them stops", all_become(b"t"))
    os.kill(supervisor, signal.SIGCONT)
    step("each goes on", all_become(b"S"))
    p.kill()
    same("it is killed", p.wait(PATIENCE), -signal.SIGKILL)
    step("none counts once they have ended", until(lambda: read(AT + "/t/pids.current") == b"0\n"))
    same("nor is one listed", (read(AT + "/t/cgroup.threads"), read(AT + "/t/cgroup.procs")), (b"", b""))
    into("/t")
    write(AT + "/t/pids.max", b"3")
    same("there is room for two threads", (thread(), thread()), ("ok", "ok"))
    step("which end", until(lambda: read(AT + "/t/pids.current") == b"1\n"))
    same("and for two children", places(""), 2)


def stat_of(task):
    """The words of /proc/TASK/stat after the name: the state first."""
    return read("/proc/%s/stat" % task).rpartition(b")")[2].split()


def read_all(name):
    with open(AT + name, "rb") as f:
        return f.read()


def orphaned():
    """Processes that are killed while they make children take no place in their group."""
    os.mkdir(AT + "/a")
    into("/a")
    fd = group("/a")
    ways = (os.fork, lambda: libc.syscall(CLONE, signal.SIGCHLD, 0, 0, 0, 0), lambda: clone3(INTO, cgroup=fd))
    for turn in range(120):
        way, pid = ways[turn % 3], os.fork()
        while pid == 0:
            if way() == 0:
                libc._exit(0)
        until(lambda: read(AT + "/a/pids.current") != b"1\n")
        time.sleep(turn % 7 * 0.0003)
        os.kill(pid, signal.SIGKILL)
        os.waitpid(pid, 0)
    step("all of them end", until(lambda: read(AT + "/a/pids.current") == b"1\n"))
    write(AT + "/a/pids.max", b"%d" % ROOM)
    step("they take no place", until(lambda: places("") == ROOM - 1))
    step("and nobody waits for them any more", rests())


def unused():
    """The line of a fork that a limit refuses has a number that no process has: the greatest that is free."""
    os.mkdir(AT + "/a")
    into("/a")
    write(AT + "/a/pids.max", b"1")
    other = group("/")
    for times in (1, 2):
        got = clone3(INTO, cgroup=other), fork()
        same("a child for another group, which allows none in this one, and a fork", got, ("ok", "EAGAIN"))
        newest = read(AT + "/.makhloeum/newest")
        same("its line", newest, b"fork %d 4194303\n" % os.getpid())
        same("an event", read(AT + "/a/pids.events"), b"max %d\n" % times)
    same("a thread's", (thread(), read(AT + "/.makhloeum/newest")), ("EAGAIN", newest))
    write(AT + "/.makhloeum/undo", b"1")
    same("is undone alone", read(AT + "/a/pids.events"), b"max 2\n")
    write(AT + "/.makhloeum/fork", b"1 4194303")
    same("a fork, while that number is in use", fork(), "EAGAIN")
    same("has the next one", read(AT + "/.makhloeum/newest"), b"fork %d 4194302\n" % os.getpid())


def told():
    """Who polls is told of a refused fork or thread, in the group and above it, and of a birth in another group."""
    for g in ("/a", "/a/b", "/c"):
        os.mkdir(AT + g)
    into("/a/b")
    write(AT + "/a/b/pids.max", b"1")
    names = [AT + g + "/" + name for g in ("/a", "/a/b", "/c") for name in ("pids.events", "pids.events.local")]
    names += [AT + g + "/cgroup.events" for g in ("/a", "/a/b", "/c")]
    fds = {os.open(name, os.O_RDONLY): name.replace(AT, "") for name in names}
    poller = select.poll()
    for fd in fds:
        poller.register(fd, select.POLLPRI)

    def changed(patience=0):
        """Which of the files tell of a change; they are read."""
        found = [fd for fd, _ in poller.poll(patience)]
        for fd in found:
            os.pread(fd, 99, 0)
        return sorted(fds[fd] for fd in found)

    same("at first", len(changed()), len(names))
    wanted = ["/a/b/pids.events", "/a/b/pids.events.local", "/a/pids.events"]
    for name, call in (("fork", fork), ("thread", thread), ("vfork", lambda: spawn("/bin/true"))):
        same("a refused %s" % name, (call(), changed()), ("EAGAIN", wanted))
    write(AT + "/a/b/pids.max", b"2")
    same("one that fails otherwise", (clone(SIGHAND), changed()), ("EINVAL", []))
    fd = group("/c")
    args = (ctypes.c_uint64 * 11)(INTO, 0, 0, 0, signal.SIGCHLD, 0, 0, 0, 0, 0, fd)
    pid = libc.syscall(435, args, 88)
    if pid == 0:
        libc.pause()
    same("a birth in another group", changed(), ["/c/cgroup.events"])
    pid_of_second = libc.syscall(435, args, 88)
    if pid_of_second == 0:
        libc.pause()
    same("a second one", changed(), [])
    for each, wanted in ((pid, []), (pid_of_second, ["/c/cgroup.events"])):
        os.kill(each, signal.SIGKILL)
        os.waitpid(each, 0)
        same("an end", changed(), wanted)


def forks_slowly(starts, told):
    """At each start it says so and forks. A fork copies all tables of its pages, which takes long, and are no memory."""
    pages = mmap.mmap(-1, 16 << 30, mmap.MAP_PRIVATE | mmap.MAP_ANONYMOUS | NORESERVE)
    pages.madvise(mmap.MADV_NOHUGEPAGE)
    pages[0] = 1  # the kernel copies no table of pages that were only read
    pages.madvise(POPULATE_READ)
    while os.read(starts, 1):
        os.write(told, b"%20s" % b"begins")
        try:
            pid = os.fork()
        except OSError as e:
            os.write(told, b"%20s" % errno.errorcode[e.errno].encode())
            continue
        if pid == 0:
            signal.pause()
        os.write(told, b"%20s" % b"ok")
        os.read(starts, 1)
        os.kill(pid, signal.SIGKILL)
        os.waitpid(pid, 0)


class Slow:
    """A process whose forks take long."""

    def __init__(self, at):
        (r, self.starts), (self.told, w) = os.pipe(), os.pipe()
        self.pid = os.fork()
        if self.pid == 0:
            into(at)
            forks_slowly(r, w)

    def goes_on(self):
        os.write(self.starts, b"x")

    def says(self):
        return os.read(self.told, 20).strip().decode()

    def ends(self):
        os.kill(self.pid, signal.SIGKILL)
        os.waitpid(self.pid, 0)


def crossed():
    """A fork that only two children that are being made in another group refuse, by the limit of a group above: it is an event there."""
    for g in ("/p", "/p/a", "/p/b"):
        os.mkdir(AT + g)
    both = Slow("/p/a"), Slow("/p/a")
    into("/p/b")
    write(AT + "/p/pids.max", b"5")
    reached, turn, refused, lines = 0, 0, 0, set()
    while reached < 3 and turn < 600:
        for slow in both:
            slow.goes_on()
        for slow in both:
            slow.says()
        time.sleep(turn % 20 * 0.002)
        own, newest = fork(), read(AT + "/.makhloeum/newest")
        are_being_made = len(read(AT + "/p/a/cgroup.procs").split()) == 2
        others = [slow.says() for slow in both]
        refused += [own, *others].count("EAGAIN")
        turn += 1
        if (own, are_being_made, others) == ("EAGAIN", True, ["ok", "ok"]):
            reached += 1
            lines.add(newest)
        for slow, other in zip(both, others):
            if other == "ok":
                slow.goes_on()
    step("there were such forks, in %d turns" % turn, reached == 3, reached)
    wanted = b"".join(b"fork %d %d\n" % (os.getpid(), number) for number in (4194303, 4194302, 4194301))
    wanted += b"exit 4194302\nexit 4194303\n"
    same("its lines are one operation: two processes take the places of the children, and leave", lines, {wanted})
    step("and take no place", until(lambda: read(AT + "/p/pids.current") == b"3\n"))
    for slow in both:
        slow.ends()
    same("each is one event", read(AT + "/p/pids.events"), b"max %d\n" % refused)
    same("of the limit's group alone", read(AT + "/p/b/pids.events"), b"max 0\n")
    same("then there is room for four", places(""), 4)


INSIDE = {births: [], others: [], crowd: [], orphaned: [], unused: ["--control"], told: [], crossed: ["--control"]}
inside(*INSIDE)
run_each(INSIDE)
finish()
