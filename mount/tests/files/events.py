"""poll and inotify tell that `populated`, and the counts of refused forks, have changed."""
import os
import select
import signal
import struct
import sys
import time

sys.path.insert(0, os.path.dirname(os.path.dirname(os.path.realpath(__file__))))
from support import PATIENCE, Beside, Mount, companions_of, error_of, finish, libc, read, same, step, until, write

IN_MODIFY = 0x2


class Watch:
    """`mark` is a watched file of a group that has nothing to do with the others. What the mount tells comes in the order of the
    changes: once it has told that this file was changed last, nothing else is on its way."""

    def __init__(self, *paths):
        self.fd = libc.inotify_init1(os.O_NONBLOCK)
        self.mark = libc.inotify_add_watch(self.fd, mark.encode(), 0xFFF)
        self.names = {libc.inotify_add_watch(self.fd, p.encode(), 0xFFF): p for p in paths}
        self.take()

    def read(self):
        """The files that were modified, and every other kind of event that came."""
        try:
            data = os.read(self.fd, 65536)
        except BlockingIOError:
            return
        while data:
            number, mask, _, size = struct.unpack("iIII", data[:16])
            if number == self.mark:
                self.marked |= mask & IN_MODIFY
            elif mask & IN_MODIFY:
                self.modified.add(self.names[number])
            if number != self.mark and mask & ~IN_MODIFY:
                self.others.add(hex(mask))
            data = data[16 + size :]

    def take(self, wanted=()):
        """What came since the last time. On a busy machine the mark may be told once more before these files are."""
        self.modified, self.others, self.marked = set(), set(), 0
        write(
            m.path("cgroup.procs") if b"9" in read(m.path("mark", "cgroup.procs")) else m.path("mark", "cgroup.procs"),
            b"9\n",
        )

        def came():
            self.read()
            return self.marked and self.modified >= set(wanted)

        step("the last change is told", until(came))
        return self.modified, self.others


def tells(what, watch, *wanted):
    """These files were modified, and nothing else came."""
    same(what, watch.take(wanted), (set(wanted), set()))


def told(poller):
    return [mask & (select.POLLPRI | select.POLLERR) for _, mask in poller.poll(1000 * PATIENCE)]


m = Mount()
os.makedirs(m.path("a", "b"))
os.mkdir(m.path("mark"))
mark = m.path("mark", "cgroup.events")
write(m.control("fork"), b"1 9\n")
a, b = m.path("a", "cgroup.events"), m.path("a", "b", "cgroup.events")
write(m.control("fork"), b"1 2\n")

fd = os.open(b, os.O_RDONLY)
poller = select.poll()
poller.register(fd, select.POLLPRI)
same("before the first read", told(poller), [select.POLLPRI | select.POLLERR])
every, usual = 0x1FF, select.POLLIN | select.POLLOUT | select.POLLRDNORM | select.POLLWRNORM
poller.modify(fd, every)
same("all that it reports then", poller.poll(0), [(fd, usual | select.POLLPRI | select.POLLERR)])
os.pread(fd, 100, 0)
same("and once it was read", poller.poll(0), [(fd, usual)])
poller.modify(fd, select.POLLPRI)
limit = os.open(m.path("a", "pids.max"), os.O_RDWR)
other = select.poll()
other.register(limit, every)
same("a file that tells of no change", other.poll(0), [(limit, usual | select.POLLPRI | select.POLLERR)])
os.pread(limit, 100, 0)
same("once it was read", other.poll(0), [(limit, usual)])
os.write(limit, b"max")
same("nor after a write", other.poll(0), [(limit, usual)])
os.close(limit)
same("after it", [mask for _, mask in poller.poll(50)], [])
write(m.path("a", "b", "cgroup.procs"), b"2\n")
same("a process comes", told(poller), [select.POLLPRI | select.POLLERR])
same("populated", os.pread(fd, 100, 0), b"populated 1\nfrozen 0\n")
write(m.control("fork"), b"2 3\n")
same("another changes nothing", [mask for _, mask in poller.poll(100)], [])
write(m.path("a", "b", "cgroup.kill"), b"1\n")
same("both are killed", told(poller), [select.POLLPRI | select.POLLERR])
os.pread(fd, 100, 0)
write(m.control("undo"), b"1\n")
same("the kill is undone", told(poller), [select.POLLPRI | select.POLLERR])
write(m.control("exit"), b"2\n")
write(m.control("exit"), b"3\n")
same("both exit", (told(poller), os.pread(fd, 11, 0)), ([select.POLLPRI | select.POLLERR], b"populated 0"))
write(m.control("undo"), b"1\n")
same("an exit is undone", (told(poller), os.pread(fd, 11, 0)), ([select.POLLPRI | select.POLLERR], b"populated 1"))
write(m.control("undo"), b"1\n")
os.close(fd)

for name in ("depth", "newest", "trace", "undo"):
    fd = os.open(m.control(name), os.O_RDONLY if name != "undo" else os.O_WRONLY)
    poller = select.poll()
    poller.register(fd, every)
    same("a file of the control directory: " + name, poller.poll(0), [(fd, usual | select.POLLPRI | select.POLLERR)])
    if name != "undo":
        os.pread(fd, 100, 0)
        write(m.control("fork"), b"1 8")
        same("once it was read", poller.poll(0), [(fd, usual)])
        write(m.control("exit"), b"8")
    os.close(fd)
watch = Watch(a, b)
tells("nothing at first", watch)
untold = Watch(*(m.path("a", name) for name in ("cgroup.stat", "pids.current", "pids.peak")))
write(m.control("exit"), b"2\n")
tells("one of two exits", watch)
write(m.control("exit"), b"3\n")
tells("the last exits: the group and the one above", watch, a, b)
write(m.control("fork"), b"1 4\n")
write(m.path("a", "cgroup.procs"), b"4\n")
tells("one only reaches the group above", watch, a)
write(m.path("a", "b", "cgroup.procs"), b"4\n")
tells("it moves below", watch, b)
write(m.path("cgroup.procs"), b"4\n")
tells("it leaves", watch, a, b)
write(m.path("a", "b", "cgroup.procs"), b"4\n")
watch.take()
write(m.path("a", "cgroup.kill"), b"1\n")
tells("a kill above kills it", watch, a, b)
below, poller = {}, select.poll()
for name in "dfgbhce":  # among their names some are leaves of a search tree, and some are not
    os.mkdir(m.path("a", "below" + name))
    write(m.control("fork"), b"1 %d\n" % (100 + len(below)))
    write(m.path("a", "below" + name, "cgroup.procs"), b"%d\n" % (100 + len(below)))
    below[name] = os.open(m.path("a", "below" + name, "cgroup.events"), os.O_RDONLY)
    os.pread(below[name], 100, 0)
    poller.register(below[name], select.POLLPRI)
watch.take()
write(m.path("a", "cgroup.kill"), b"1\n")
step("and every group below hears of it", until(lambda: len(poller.poll(0)) == len(below)), poller.poll(0))
watch.take()
for name, file in below.items():
    os.close(file)
    os.rmdir(m.path("a", "below" + name))
watch.take()
write(m.control("fork"), b"1 4\n")
write(m.path("a", "cgroup.procs"), b"4\n")
watch.take()
write(m.path("a", "pids.max"), b"1\n")
both = m.path("a", "pids.events"), m.path("a", "pids.events.local")
tells("files that tell of no change", untold)
events = Watch(*both)
same("a refused fork", error_of(write, m.control("fork"), b"4 5\n"), "EAGAIN")
tells("both files report it", events, *both)
for _ in range(200):
    write(m.path("a", "b", "cgroup.procs"), b"4\n")
    write(m.path("a", "cgroup.procs"), b"4\n")
step("after four hundred changes the mount answers", until(lambda: read(b) == b"populated 0\nfrozen 0\n"))
os.mkdir(m.path("r"))
fd = os.open(m.path("r", "cgroup.events"), os.O_RDONLY)
poller = select.poll()
poller.register(fd, select.POLLPRI)
os.pread(fd, 100, 0)
same("before a removal", [mask for _, mask in poller.poll(0)], [])
waiting = Beside(told, poller)
os.rmdir(m.path("r"))
same("who waits is told of a removal", waiting.result(), [select.POLLPRI | select.POLLERR])
os.close(fd)

# changes that wait since the companion is stopped, some of them again
groups = ["q%d" % i for i in range(40)]
for group in groups:
    os.mkdir(m.path(group))
files = [m.path(group, "cgroup.events") for group in groups]
late = Watch(*files)
companions = companions_of(m.process.pid)
for pid in companions:
    os.kill(pid, signal.SIGSTOP)
for _ in range(1000):
    write(m.path("q0", "cgroup.procs"), b"4\n")
    write(m.path("cgroup.procs"), b"4\n")
for group in (*groups, "q0"):
    write(m.path(group, "cgroup.procs"), b"4\n")
threads = len(os.listdir("/proc/%d/task" % m.process.pid))
step("one thread waits for it, whatever changes", threads < len(groups), threads)
for pid in companions:
    os.kill(pid, signal.SIGCONT)
tells("all that changed while the companion was stopped", late, *files)
for pid in companions:
    os.kill(pid, signal.SIGSTOP)
for i in range(40):
    os.mkdir(m.path("gone"))
    os.stat(m.path("gone", "cgroup.events"))
    write(m.path("gone", "cgroup.procs"), b"4\n")
    write(m.path("cgroup.procs"), b"4\n")
    os.rmdir(m.path("gone"))
began = time.monotonic()
for pid in companions:
    os.kill(pid, signal.SIGCONT)
watch.take()
step("groups that are gone by then hold up no other change", time.monotonic() - began < 20, time.monotonic() - began)
for w in (watch, untold, events, late):
    os.close(w.fd)
m.end()
finish()
