"""Zombies under `makhloeum run`: what counts them, what lists them, and when they are gone, by each way in which a process ends. This
file is also the program (zombies.py inside NAME)."""
import ctypes
import errno
import mmap
import os
import select
import signal
import subprocess
import sys
import tempfile
import threading
import time

sys.path.insert(0, os.path.dirname(os.path.dirname(os.path.realpath(__file__))))
from support import AT, PATIENCE, clone_into, error_of, finish, inside, into, is_alive, libc, own_of, read, run_each
from support import same, spared, step, ticks, until, write

MADV_POPULATE_READ = 22  # Linux 5.14
TRACE = os.path.join(tempfile.gettempdir(), "trace-of-%s")


def count(group):
    return int(read(AT + group + "/pids.current"))


def seen(group):
    """What the files of a group show: who is listed, how many are counted, and whether it is populated."""
    procs, threads = (
        [int(p) for p in read(AT + group + "/" + name).split()] for name in ("cgroup.procs", "cgroup.threads")
    )
    return procs, threads, count(group), int(read(AT + group + "/cgroup.events").split()[1])


EMPTY, ONE_DEAD = ([], [], 0, 0), ([], [], 1, 0)


def child(group, call=lambda: os._exit(0)):
    """A child that is in a group before it does what it is for."""
    pid = os.fork()
    if pid == 0:
        into(group)
        call()
        os._exit(0)
    return pid


def zombie(group, call=lambda: os._exit(0)):
    """A child that has ended there, and was not waited for."""
    pid = child(group, call)
    os.waitid(os.P_PID, pid, os.WEXITED | os.WNOWAIT)
    return pid


def sleeper(group):
    """A child that waits until it is killed, and is in the group."""
    r, w = os.pipe()
    pid = child(group, lambda: (os.write(w, b"x"), signal.pause()))
    os.read(r, 1)
    os.close(r)
    os.close(w)
    return pid


def end(pid):
    os.kill(pid, signal.SIGKILL)
    os.waitpid(pid, 0)


def with_threads():
    """Ends a process with threads: by the first, with the others."""
    for _ in range(5):
        threading.Thread(target=signal.pause, daemon=True).start()
    os._exit(3)


def without_first():
    """Ends the first thread, and then the others."""
    threading.Thread(target=lambda: (until(lambda: b"Z" in read("/proc/self/stat").split()[:3]), os._exit(4))).start()
    libc.syscall(60 if os.uname().machine == "x86_64" else 93, 0)


def ways():
    """However it ends: it is not listed, counts until it is waited for, and then no more."""
    os.makedirs(AT + "/p/b")
    for name, call, status in (
        ("exit", lambda: os._exit(7), 7 << 8),
        ("a signal", lambda: os.kill(os.getpid(), signal.SIGTERM), signal.SIGTERM),
        ("SIGKILL", lambda: os.kill(os.getpid(), signal.SIGKILL), signal.SIGKILL),
        ("another program", lambda: os.execv("/bin/false", ["false"]), 1 << 8),
        ("threads", with_threads, 3 << 8),
        ("no first thread", without_first, 4 << 8),
        ("a child of its own", lambda: os.waitpid(os.fork() or os._exit(0), 0), 0),
    ):
        pid = zombie("/p/b", call)
        same("by %s: in its group" % name, seen("/p/b"), ONE_DEAD)
        same("by %s: above" % name, seen("/p"), ONE_DEAD)
        os.waitid(os.P_PID, pid, os.WEXITED | os.WNOWAIT)
        same("by %s: after a look" % name, count("/p/b"), 1)
        same("by %s: its status" % name, os.waitpid(pid, 0)[1], status)
        same("by %s: then nobody is there" % name, (seen("/p/b"), seen("/p")), (EMPTY, EMPTY))


def beside():
    """Beside somebody who lives, and in several groups."""
    os.makedirs(AT + "/p/b")
    os.mkdir(AT + "/p/c")
    lives = sleeper("/p")
    dead = [zombie(g) for g in ("/p/b", "/p/c", "/p/b", "/p")]
    same("a group of the dead", seen("/p/b"), ([], [], 2, 0))
    same("another", seen("/p/c"), ONE_DEAD)
    same("the group above has one who lives", seen("/p"), ([lives], [lives], 5, 1))
    write(AT + "/p/pids.max", b"5")
    same("they fill it", clone_into(os.open(AT + "/p", os.O_RDONLY)), "EAGAIN")
    os.waitpid(dead[2], 0)
    same("one is waited for: there is room", clone_into(os.open(AT + "/p", os.O_RDONLY)), 0)
    same("the counts", [count(g) for g in ("/p", "/p/b", "/p/c")], [4, 1, 1])
    same("the dead are moved nowhere", error_of(write, AT + "/p/c/cgroup.procs", b"%d" % dead[0]), "ok")
    same("they are where they were", [count(g) for g in ("/p/b", "/p/c")], [1, 1])
    for pid in (dead[3], dead[0], dead[1]):
        os.waitpid(pid, 0)
    same("all are waited for", (seen("/p/b"), seen("/p/c"), seen("/p")), (EMPTY, EMPTY, ([lives], [lives], 1, 1)))
    write(AT + "/p/c/cgroup.procs", b"%d" % lives)
    later = zombie("/p/c")
    same("a group of one who lives and of a later zombie stays", error_of(os.rmdir, AT + "/p/c"), "EBUSY")
    same("with both", seen("/p/c"), ([lives], [lives], 2, 1))
    os.waitpid(later, 0)
    end(lives)
    same("and who lived", seen("/p"), EMPTY)


def removed():
    """A group of the dead can be removed; they count above until they are waited for."""
    os.makedirs(AT + "/p/b/c")
    dead = zombie("/p/b/c"), zombie("/p/b"), zombie("/p/b/c")
    same("a group with another", error_of(os.rmdir, AT + "/p/b"), "EBUSY")
    same("nobody has moved", [count(g) for g in ("/p", "/p/b", "/p/b/c")], [3, 3, 2])
    trace = read(TRACE % "removed")
    step("the refusal is in the trace, as nothing was to be undone", b"\nrmdir /p/b\n" in trace, trace)
    depth = int(read(AT + "/.makhloeum/depth"))
    same("the innermost goes", error_of(os.rmdir, AT + "/p/b/c"), "ok")
    moved = [b"write /p/b cgroup.procs %d\n" % pid for pid in sorted((dead[0], dead[2]))]
    wanted = depth + 1, b"".join(moved) + b"rmdir /p/b/c\n"
    same("in one operation", (int(read(AT + "/.makhloeum/depth")), read(AT + "/.makhloeum/newest")), wanted)
    write(AT + "/.makhloeum/undo", b"1")
    same("one undo brings all back", [count(g) for g in ("/p", "/p/b", "/p/b/c")], [3, 3, 2])
    same("and it goes again", error_of(os.rmdir, AT + "/p/b/c"), "ok")
    same("its dead count above", [seen("/p/b"), seen("/p")], [([], [], 3, 0)] * 2)
    lives = sleeper("/p/b")
    same("a group with one who lives stays", error_of(os.rmdir, AT + "/p/b"), "EBUSY")
    same("with all of them", seen("/p/b"), ([lives], [lives], 4, 1))
    end(lives)
    same("then it goes", error_of(os.rmdir, AT + "/p/b"), "ok")
    same("the dead count above", seen("/p"), ([], [], 3, 0))
    os.mkdir(AT + "/p/b")
    same("a new group has none of them", seen("/p/b"), EMPTY)
    write(AT + "/p/pids.max", b"3")
    same("they fill the group above", clone_into(os.open(AT + "/p/b", os.O_RDONLY)), "EAGAIN")
    for left, pid in zip((2, 1, 0), dead):
        os.waitpid(pid, 0)
        same("one is waited for", count("/p"), left)
    same("it can go too", (error_of(os.rmdir, AT + "/p/b"), error_of(os.rmdir, AT + "/p")), ("ok", "ok"))


def unwaited():
    """Children for whom nobody has to wait, and those whose parent ends first."""
    os.mkdir(AT + "/p")
    signal.signal(signal.SIGCHLD, signal.SIG_IGN)
    pid = child("/p")
    step("with SIGCHLD ignored", until(lambda: seen("/p") == EMPTY and not os.path.exists("/proc/%d" % pid)))
    signal.signal(signal.SIGCHLD, signal.SIG_DFL)
    r, w = os.pipe()

    def leaves():
        if os.fork() == 0:
            os.setsid()
            os.read(r, 1)
            os._exit(0)

    pid = zombie("/p", leaves)
    left = seen("/p")
    same("its child stays when it ends", (len(left[0]), left[2:]), (1, (2, 1)))
    os.waitpid(pid, 0)
    same("once it is waited for", seen("/p")[2:], (1, 1))
    os.write(w, b"x")
    step("the orphan ends, and makhloeum waits for it", until(lambda: seen("/p") == EMPTY))

    def leaves_dead():
        made = os.fork()
        if made:
            os.waitid(os.P_PID, made, os.WEXITED | os.WNOWAIT)

    pid = zombie("/p", leaves_dead)
    step("the dead of the dead", until(lambda: seen("/p") == ONE_DEAD), seen("/p"))
    os.waitpid(pid, 0)
    same("and then nobody", seen("/p"), EMPTY)


def told():
    """A death is told to who polls, and a wait is not; a kill and a freezer of the dead."""
    os.mkdir(AT + "/p")
    fd = os.open(AT + "/p/cgroup.events", os.O_RDONLY)
    poller = select.poll()
    poller.register(fd, select.POLLPRI)
    os.pread(fd, 99, 0)
    pid = sleeper("/p")
    same("a process comes", bool(poller.poll(1000 * PATIENCE)), True)
    os.pread(fd, 99, 0)
    os.kill(pid, signal.SIGKILL)
    same("it dies", bool(poller.poll(1000 * PATIENCE)), True)
    same("the text", os.pread(fd, 99, 0), b"populated 0\nfrozen 0\n")
    os.waitpid(pid, 0)
    count("/p")
    same("it is waited for", poller.poll(0), [])
    pid = zombie("/p")
    os.pread(fd, 99, 0)
    write(AT + "/p/cgroup.freeze", b"1")
    same("a group of the dead is frozen at once", read(AT + "/p/cgroup.events"), b"populated 0\nfrozen 1\n")
    write(AT + "/p/cgroup.freeze", b"0")
    write(AT + "/p/cgroup.kill", b"1")
    same("a kill takes the dead out of the counts", seen("/p"), EMPTY)
    same("its status is its own", os.waitpid(pid, 0)[1], 0)
    os.close(fd)


def waited():
    """Many are waited for in any order, with a fork between: each makes room for one."""
    os.mkdir(AT + "/p")
    into("/p")
    write(AT + "/p/pids.max", b"101")
    dead = []
    for _ in range(100):
        pid = os.fork()
        if pid == 0:
            os._exit(0)
        os.waitid(os.P_PID, pid, os.WEXITED | os.WNOWAIT)
        dead.append(pid)
    same("a hundred fill the group", (error_of(os.fork), count("/p")), ("EAGAIN", 101))
    wrong = []
    for i in (*range(0, 100, 3), *range(1, 100, 3), *range(2, 100, 3)):
        os.waitpid(dead[i], 0)
        pid = os.fork()
        if pid == 0:
            os._exit(0)
        os.waitid(os.P_PID, pid, os.WEXITED | os.WNOWAIT)
        dead[i] = pid
        if count("/p") != 101:
            wrong.append((i, count("/p")))
    same("each that is waited for makes room for one", wrong, [])
    current = os.open(AT + "/p/pids.current", os.O_RDONLY)
    for pid in reversed(dead):
        os.waitpid(pid, 0)
    same("the next read finds all gone", os.pread(current, 99, 0), b"1\n")
    os.close(current)
    same("nobody else is listed", seen("/p"), ([os.getpid()], [os.getpid()], 1, 1))
    same("one event for the fork that was refused", read(AT + "/p/pids.events"), b"max 1\n")


def undone():
    """The birth of one is undone: it counts no more, and once it is waited for it does not keep others from leaving."""
    os.mkdir(AT + "/p")
    stays, leaves = zombie("/p"), zombie("/p")
    same("two are counted", count("/p"), 2)
    write(AT + "/.makhloeum/undo", b"2")
    same("one is not any more", count("/p"), 1)
    os.waitpid(leaves, 0)
    same("its end changes nothing", count("/p"), 1)
    os.waitpid(stays, 0)
    same("the end of the other one does", seen("/p"), EMPTY)
    lives = sleeper("/p")
    write(AT + "/.makhloeum/undo", b"2")
    same("nor does one count that lives", (seen("/p"), spared(lives)), (EMPTY, [True]))
    end(lives)
    same("its end is no line", (count("/p"), b"\nexit %d\n" % lives in read(TRACE % "undone")), (0, False))


def unkilled():
    """The kill of one is undone, before makhloeum hears of its end or afterwards: its number counts until it ends in the hierarchy alone.
    Nobody has the number, so it does not stop for a freezer."""
    os.mkdir(AT + "/p")
    supervisor, events = os.getppid(), lambda: read(AT + "/p/cgroup.events")
    for is_heard in (True, False):
        write(AT + "/p/cgroup.freeze", b"0")
        pid = sleeper("/p")
        write(AT + "/p/cgroup.freeze", b"1")
        step("it is frozen", until(lambda: events() == b"populated 1\nfrozen 1\n"), events())
        if not is_heard:
            os.kill(supervisor, signal.SIGSTOP)
            step("it stops", until(lambda: b"T" in read("/proc/%d/stat" % supervisor).split()[:3]))
        write(AT + "/p/cgroup.kill", b"1")
        if is_heard:
            os.waitpid(pid, 0)
        write(AT + "/.makhloeum/undo", b"1")
        if not is_heard:
            os.kill(supervisor, signal.SIGCONT)
            os.waitpid(pid, 0)
        got = [(count("/p"), events()) for _ in range(5)]
        same("it counts, heard %s" % is_heard, got, [(1, b"populated 1\nfrozen 0\n")] * 5)
        write(AT + "/.makhloeum/exit", b"%d" % pid)
        same("and then not", seen("/p"), EMPTY)


def unheard():
    """More processes end than the server can be told of, while it is stopped."""
    os.mkdir(AT + "/many")
    into("/many")
    own, children = own_of(os.getppid()), []
    for _ in range(600):
        pid = os.fork()
        if pid == 0:
            signal.pause()
            os._exit(0)
        children.append(pid)
    same("six hundred children", count("/many"), 601)
    for pid in own:
        os.kill(pid, signal.SIGSTOP)
    for pid in children:
        os.kill(pid, signal.SIGKILL)
    for pid in children:
        os.waitpid(pid, 0)
    for pid in own:
        os.kill(pid, signal.SIGCONT)
    step("none of them counts any more", until(lambda: count("/many") == 1), count("/many"))


def work(forks=500):
    before = ticks()
    for _ in range(forks):
        pid = os.fork()
        if pid == 0:
            os._exit(0)
        os.waitpid(pid, 0)
    return ticks() - before


def reads(fd, times=2000):
    before = ticks()
    for _ in range(times):
        os.pread(fd, 99, 0)
    return ticks() - before


def most(first):
    return 2 * first + 15


def least(call, before):
    """Of a few tries: on a busy machine one may cost more. A try that is cheap enough, beside the first of those before, is the last."""
    got = call()
    for _ in range(4):
        if not before or got <= most(before[0]):
            break
        got = min(got, call())
    return got


def many():
    """Beside two thousand zombies, of its own group or of another, a fork is as much work as before, also in a watched group. So is a
    read, since Linux 6.9, which tells which of them was waited for."""
    found, looked = [], []
    for group in ("/a", "/b"):
        os.mkdir(AT + group)
        into(group)
        same("it is populated", read(AT + group + "/cgroup.events"), b"populated 1\nfrozen 0\n")
    fd = os.open(AT + "/a/pids.current", os.O_RDONLY)
    for group in ("/b", "/a", "/b"):
        into(group)
        found.append(least(work, found))
        looked.append(least(lambda: reads(fd), looked))
        if len(found) == 1:
            into("/a")
            for _ in range(2000):
                if os.fork() == 0:
                    os._exit(0)
    step("in the group of the zombies", found[1] <= most(found[0]), found)
    step("in another one", found[2] <= most(found[0]), found)
    kernel = os.environ.get("OLD_KERNEL", os.uname().release).split(".")
    if (int(kernel[0]), int(kernel[1].partition("-")[0])) >= (6, 9):
        step("and each read", looked[2] <= most(looked[0]), looked)


class Maker:
    """A process outside of /p that makes a child there at each turn, or one inside that forks. The child waits until it is killed. The
    supervisor is stopped while it makes one, so the child is there and is not listed yet: the process has a table of many pages, which
    takes milliseconds to copy."""

    def __init__(self, is_inside=False):
        os.mkdir(AT + "/p")
        self.supervisor, self.turn, (r, self.starts), (self.told, w) = os.getppid(), 0, os.pipe(), os.pipe()
        fd, self.pid = os.open(AT + "/p", os.O_RDONLY), os.fork()
        if self.pid:
            return
        if is_inside:
            into("/p")
        pages = mmap.mmap(-1, 1 << 30, mmap.MAP_PRIVATE | mmap.MAP_ANONYMOUS)
        pages.madvise(mmap.MADV_NOHUGEPAGE)
        pages[0] = 1  # the kernel copies no table of pages that were only read
        pages.madvise(MADV_POPULATE_READ)
        flags = 0 if is_inside else 0x200000000  # CLONE_INTO_CGROUP
        args = (ctypes.c_uint64 * 11)(flags, 0, 0, 0, signal.SIGCHLD, 0, 0, 0, 0, 0, fd)
        while os.read(r, 1):
            pid = libc.syscall(435, args, 88)
            while pid == 0:
                libc.pause()
            os.write(w, b"%20s" % (b"ok" if pid > 0 else errno.errorcode[ctypes.get_errno()].encode()))
            if pid > 0:
                os.waitpid(pid, 0)

    def children(self):
        return [int(pid) for pid in read("/proc/%d/task/%d/children" % (self.pid, self.pid)).split()]

    def listed(self):
        return {int(pid) for pid in read(AT + "/p/cgroup.procs").split()} - {self.pid}

    def begins(self):
        """Whether there is a child now that is not listed. The supervisor is stopped in any case."""
        os.write(self.starts, b"x")
        time.sleep(self.turn % 60 * 0.0001)
        self.turn += 1
        os.kill(self.supervisor, signal.SIGSTOP)
        until(lambda: b"T" in read("/proc/%d/stat" % self.supervisor).split()[:3])
        return until(lambda: self.children() != [], 0.1) and not self.listed()

    def goes_on(self):
        os.kill(self.supervisor, signal.SIGCONT)

    def came_to(self):
        """What the call has come to."""
        return os.read(self.told, 20).strip().decode()

    def ends_child(self):
        """Whether its child, if it has one, can be killed."""
        for pid in self.children():
            os.kill(pid, signal.SIGKILL)
        return until(lambda: self.children() == [])

    def ends(self):
        os.kill(self.pid, signal.SIGKILL)
        os.waitpid(self.pid, 0)


def being_made(ends):
    """A child is ended by `ends` when it has just been made."""
    maker = Maker()
    reached, lives, calls = 0, False, set()
    while maker.turn < 600 and reached < 3 and not lives:
        is_between = maker.begins()
        if is_between:
            ends(maker.children()[0])
        maker.goes_on()
        calls.add(maker.came_to())
        if not is_between:
            until(maker.listed)
            maker.ends_child()
        lives = not until(lambda: maker.children() == [])
        reached += is_between
    print("  %d reached a child that was being made, in %d turns" % (reached, maker.turn))
    same("such a child lives", lives, False)
    same("what the calls of its parent come to", calls, {"ok"})
    step("there were such children", reached > 0)
    step("and nobody counts", until(lambda: count("/p") == 0), count("/p"))
    maker.ends()


def born():
    """A kill of its group reaches a child that is just being made."""
    being_made(lambda pid: write(AT + "/p/cgroup.kill", b"1"))


def unborn():
    """A child that is just being made is killed: the supervisor finds its death before it hears of its birth."""

    def ends(pid):
        os.kill(pid, signal.SIGKILL)
        step("it has ended", until(lambda: b"Z" in read("/proc/%d/stat" % pid).split()[:3]))

    being_made(ends)


def outlived():
    """A parent is killed when its child has just been made: the supervisor finds its death before it hears of the birth. The child lives."""
    maker, child = Maker(), None
    while not child and maker.turn < 600:
        if maker.begins():
            (child,) = maker.children()
            os.kill(maker.pid, signal.SIGKILL)
            step("its parent has ended", until(lambda: b"Z" in read("/proc/%d/stat" % maker.pid).split()[:3]))
            maker.goes_on()
        else:
            maker.goes_on()
            maker.came_to()
            maker.ends_child()
    step("there was such a child, in %d turns" % maker.turn, child)
    same("the end of its parent", os.waitpid(maker.pid, 0)[1], signal.SIGKILL)
    step("it is listed", until(lambda: maker.listed() == {child}), maker.listed())
    same("and lives", (is_alive(child), count("/p")), (True, 1))
    os.kill(child, signal.SIGKILL)
    step("then nobody counts", until(lambda: count("/p") == 0), count("/p"))


def meanwhile(maker, change, back, wanted, counted):
    """What becomes of a child whose group is changed while it is being made: what the call comes to, and who counts."""
    is_between = False
    while not is_between and maker.turn < 600:
        is_between = maker.begins()
        if is_between:
            change()
        maker.goes_on()
        got = maker.came_to()
        if not is_between:
            maker.ends_child()
    step("there was such a child, in %d turns" % maker.turn, is_between)
    back()
    same("its call, and how many count", (got, count("/p")), (wanted, counted))
    if got == "ok":
        step("it ends", maker.ends_child())
    else:
        step("it does not live", until(lambda: not any(map(is_alive, maker.children()))))
    maker.ends()
    step("and nobody counts", until(lambda: count("/p") == 0), count("/p"))


def limit(value):
    return lambda: write(AT + "/p/pids.max", value)


def lowered():
    """A limit that is lowered while a child is being made refuses the next one only."""
    meanwhile(Maker(), limit(b"0"), limit(b"max"), "ok", 1)


def lowered_inside():
    """The same for a fork."""
    meanwhile(Maker(is_inside=True), limit(b"1"), limit(b"max"), "ok", 2)
    same("no fork was refused", read(AT + "/p/pids.events"), b"max 0\n")


def kept():
    """A limit that a child just keeps, and that is set while it is being made: the child is its parent's in the trace too."""
    maker, lines = Maker(is_inside=True), []
    child = lambda: lines.append((read(AT + "/.makhloeum/newest"), (maker.pid, *maker.children())))
    meanwhile(maker, limit(b"2"), child, "ok", 2)
    same("its line", [line for line, _ in lines], [b"fork %d %d\n" % pids for _, pids in lines])


def killed_elsewhere():
    """A kill of the group that a process was moved to, while it makes a child, reaches the child too. If the process has ended before the
    supervisor reads of the child, the child is one that was made before the move, and lives: then it is tried again."""
    os.mkdir(AT + "/q")
    lives, tries = True, 0
    while lives and tries < 20:
        maker, children = Maker(is_inside=True), []
        while not children and maker.turn < 600:
            if maker.begins():
                children = maker.children()
                write(AT + "/q/cgroup.procs", b"%d" % maker.pid)
                write(AT + "/q/cgroup.kill", b"1")
            maker.goes_on()
            if not children:
                maker.came_to()
                maker.ends_child()
        step("there was such a child, in %d turns" % maker.turn, children)
        same("its parent is killed", os.waitpid(maker.pid, 0)[1], signal.SIGKILL)
        step("it is listed or ends", until(lambda: maker.listed() or not any(map(is_alive, children))))
        lives, tries = any(map(is_alive, children)), tries + 1
        for pid in filter(is_alive, children):
            os.kill(pid, signal.SIGKILL)
        step("in the end nobody counts", until(lambda: (count("/p"), count("/q")) == (0, 0)))
        step("the group can be removed", until(lambda: error_of(os.rmdir, AT + "/p") == "ok"))
    step("it does not live, in %d tries" % tries, not lives)


def stranger():
    """A number that is forked in the hierarchy alone is no process of the run, whoever else has it: no kill reaches that."""
    number = int(os.environ["STRANGER"])
    os.mkdir(AT + "/p")
    write(AT + "/.makhloeum/fork", b"1 %d" % number)
    write(AT + "/p/cgroup.procs", b"%d" % number)
    same("it counts", count("/p"), 1)
    write(AT + "/p/cgroup.kill", b"1")
    same("the kill takes it out, and ends nobody", (count("/p"), spared(number)), (0, [True]))


def gone():
    """A child for a group that is removed while it is being made has no place."""
    meanwhile(Maker(), lambda: os.rmdir(AT + "/p"), lambda: os.mkdir(AT + "/p"), "ENOENT", 0)


INSIDE = (
    ways,
    beside,
    removed,
    unwaited,
    told,
    waited,
    undone,
    unkilled,
    unheard,
    many,
    born,
    unborn,
    outlived,
    lowered,
    lowered_inside,
    kept,
    killed_elsewhere,
    stranger,
    gone,
)
inside(*INSIDE)
with subprocess.Popen(["sleep", "6000"], preexec_fn=lambda: libc.prctl(1, 9)) as other:  # it ends with this process
    os.environ["STRANGER"] = str(other.pid)
    run_each({t: ["--control", "--trace", TRACE % t.__name__] for t in INSIDE}, lanes=3)
    other.kill()
finish()
