"""mount --adopt: real processes in the hierarchy, without a supervisor."""
import os
import re
import resource
import select
import signal
import subprocess
import sys

sys.path.insert(0, os.path.dirname(os.path.dirname(os.path.realpath(__file__))))
from support import PATIENCE, PROGRAM, Beside, Mount
from support import beginnings, error_of, finish, is_alive, libc, parent_of, read, same, spared, step, until, write


def state_of(pid):
    return open("/proc/%d/stat" % pid).read().rpartition(")")[2].split()[0]


m = Mount("--adopt")
os.mkdir(m.path("a"))
child = subprocess.Popen(["sh", "-c", "sleep 600 & sleep 600 & wait"])
write(m.path("a", "cgroup.procs"), b"%d\n" % child.pid)
step("a process is adopted, and its children", until(lambda: read(m.path("a", "pids.current")) == b"3\n"))
step("it is listed", b"%d" % child.pid in read(m.path("a", "cgroup.procs")).split())
same("rmdir", error_of(os.rmdir, m.path("a")), "EBUSY")
same("one that is not there", error_of(write, m.path("a", "cgroup.procs"), b"4194303\n"), "ESRCH")
pids = [int(p) for p in read(m.path("a", "cgroup.procs")).split()]
size = os.stat(m.path("a", "cgroup.procs")).st_size
os.kill(pids[1] if pids[1] != child.pid else pids[0], signal.SIGKILL)
step("a stat sees a death", until(lambda: os.stat(m.path("a", "cgroup.procs")).st_size < size))
step("a death is seen", until(lambda: read(m.path("a", "pids.current")) == b"2\n"))
write(m.path("a", "cgroup.kill"), b"1\n")
same("a kill is real", child.wait(PATIENCE), -signal.SIGKILL)
same("nobody is left", read(m.path("a", "cgroup.events")), b"populated 0\nfrozen 0\n")
same("rmdir then", error_of(os.rmdir, m.path("a")), "ok")
os.mkdir(m.path("b"))
write(m.path("b", "cgroup.procs"), b"0\n")
same("0 is the writer", read(m.path("b", "cgroup.procs")), b"%d\n" % os.getpid())
os.mkdir(m.path("c"))
for group in ("c", "b"):
    wrote = Beside(error_of, write, m.path(group, "cgroup.procs"), b"0\n").result()
    same(
        "or its process, if it is another thread",
        (wrote, read(m.path(group, "cgroup.procs"))),
        ("ok", b"%d\n" % os.getpid()),
    )
size = lambda: int(re.search(r"(?m)^VmData:\s*(\d+) kB", open("/proc/%d/status" % m.process.pid).read())[1])
sizes = [size()]
listed = os.open(m.path("b", "cgroup.procs"), os.O_RDONLY)
for _ in range(5):
    for _ in range(2000):
        os.pread(listed, 9, 0)
    sizes.append(size())
os.close(listed)
if os.path.exists(os.path.join(os.path.dirname(PROGRAM), "gone.so")):  # sanitizers keep what was freed for a while
    # more threads of the server have as much, but not each time; a directory that stays has 32 kB
    least = min(after - before for before, after in zip(sizes, sizes[1:]))
    step("a look at its threads keeps no memory", least < 32 << 10, sizes)
write(m.path("b", "pids.max"), b"1\n")
child = subprocess.Popen(["sleep", "600"])
same("a child beyond the limit is counted once", [read(m.path("b", "pids.events")) for _ in range(3)], [b"max 1\n"] * 3)
child.kill()
child.wait()
m.end()

# a child of a thread that is not the first
THREAD = """import os, threading, time
def fork():
    if os.fork() and os.write(1, b"x"):
        pass
    time.sleep(600)
t = threading.Thread(target=fork)
t.start()
t.join()
"""
m = Mount("--adopt")
os.mkdir(m.path("t"))
parent = subprocess.Popen([sys.executable, "-c", THREAD], stdout=subprocess.PIPE)
parent.stdout.read(1)
write(m.path("t", "cgroup.procs"), b"%d\n" % parent.pid)
same("a thread's child is adopted", read(m.path("t", "pids.current")), b"2\n")
write(m.path("t", "cgroup.kill"), b"1\n")
same("and killed", parent.wait(PATIENCE), -signal.SIGKILL)
m.end()

# a list of children that is longer than a page, so a read ends within a number
CHILDREN = 2000
FORKS = (
    """import ctypes, os, signal
libc = ctypes.CDLL(None)
for _ in range(%d):
    if os.fork() == 0:
        libc.prctl(1, 9)  # it ends with its parent, also where a test is broken off
        signal.pause()
print(flush=True)
signal.pause()
"""
    % CHILDREN
)
soft, hard = resource.getrlimit(resource.RLIMIT_NOFILE)
resource.setrlimit(resource.RLIMIT_NOFILE, (200, hard))  # each has a descriptor: the mount raises what it may
m = Mount("--adopt")
resource.setrlimit(resource.RLIMIT_NOFILE, (soft, hard))
os.mkdir(m.path("many"))
parent = subprocess.Popen([sys.executable, "-c", FORKS], close_fds=True, stdout=subprocess.PIPE)
parent.stdout.readline()
write(m.path("many", "cgroup.procs"), b"%d\n" % parent.pid)
same("all its children are adopted", read(m.path("many", "pids.current")), b"%d\n" % (CHILDREN + 1))
mine = {parent.pid, *map(int, open("/proc/%d/task/%d/children" % (parent.pid, parent.pid)).read().split())}
same("and no stranger", {int(p) for p in read(m.path("many", "cgroup.procs")).split()} - mine, set())
same("nor anybody twice", len(read(m.path("many", "cgroup.procs")).split()), CHILDREN + 1)
lived = beginnings(mine)
write(m.path("many", "cgroup.kill"), b"1\n")
same("a kill reaches them all", parent.wait(PATIENCE), -signal.SIGKILL)
step("and their children", until(lambda: not beginnings(mine).items() & lived.items()))
m.end()


def family():
    """A process with a child, and a grandchild; each waits, and a line ends the first. Their numbers."""
    script = "sh -c 'sleep 600 & echo $! $$; wait' & echo $$; read x"
    top = subprocess.Popen(["sh", "-c", script], stdin=subprocess.PIPE, stdout=subprocess.PIPE, text=True)
    numbers = [int(n) for _ in range(2) for n in top.stdout.readline().split()]
    child = next(n for n in numbers if n != top.pid and parent_of(n) == top.pid)
    return top, top.pid, child, next(n for n in numbers if n not in (top.pid, child))


# each is where it was moved, and a kill reaches those of its group alone
m = Mount("--adopt", "--extra")
for g in "abc":
    os.mkdir(m.path(g))
stranger = subprocess.Popen(["sleep", "600"])
top, first, second, third = family()
write(m.path("a", "cgroup.procs"), b"%d\n" % first)
same(
    "three are adopted",
    read(m.path("a", "cgroup.procs")),
    b"".join(b"%d\n" % p for p in sorted((first, second, third))),
)
same("the root has no other", read(m.path("cgroup.procs")), b"1\n")
write(m.path("b", "cgroup.procs"), b"%d\n" % second)
same("a child moves alone", [read(m.path(g, "pids.current")) for g in "abc"], [b"2\n", b"1\n", b"0\n"])
write(m.path("b", "cgroup.procs"), b"%d\n" % second)
same("to where it is", [read(m.path(g, "pids.current")) for g in "abc"], [b"2\n", b"1\n", b"0\n"])
write(m.path("c", "cgroup.kill"), b"1\n")
same("a kill of an empty group", spared(first, second, third, stranger.pid), [True] * 4)
write(m.path("b", "cgroup.kill"), b"1\n")
step("a kill of one", until(lambda: not is_alive(second)))
same("reaches no other", spared(first, third, stranger.pid), [True] * 3)
same("who is left", [read(m.path(g, "pids.current")) for g in "abc"], [b"2\n", b"0\n", b"0\n"])
same("whom a kill has reached does not exit once more", "exit %d\n" % second in open(m.trace).read(), False)
top.stdin.write("x\n")
top.stdin.close()
top.wait(PATIENCE)
step("the parent ends", until(lambda: read(m.path("a", "pids.current")) == b"1\n"))
same("a grandchild stays", read(m.path("a", "cgroup.procs")), b"%d\n" % third)
same("one that has ended is nobody", error_of(write, m.path("a", "cgroup.procs"), b"%d\n" % first), "ESRCH")
write(m.path("cgroup.procs"), b"%d\n" % third)
same(
    "it moves to the root",
    (read(m.path("a", "pids.current")), b"%d" % third in read(m.path("cgroup.procs")).split()),
    (b"0\n", True),
)
write(m.path("a", "cgroup.kill"), b"1\n")
same("where no kill reaches it", spared(third), [True])
write(m.path("c", "cgroup.procs"), b"%d\n" % third)
write(m.path("c", "cgroup.freeze"), b"1\n")
same(
    "the freezer stops nobody",
    (read(m.path("c", "cgroup.events")), until(lambda: state_of(third) == "S")),
    (b"populated 1\nfrozen 1\n", True),
)
os.kill(third, signal.SIGKILL)
step("a death empties a group", until(lambda: read(m.path("c", "cgroup.events")) == b"populated 0\nfrozen 1\n"))
child = subprocess.Popen(["sleep", "600"])
write(m.path("a", "cgroup.procs"), b"%d\n" % child.pid)
child.send_signal(signal.SIGKILL)
os.waitid(os.P_PID, child.pid, os.WEXITED | os.WNOWAIT)
step("a zombie is gone", until(lambda: read(m.path("a", "pids.current")) == b"0\n"))
child.wait()
write(m.path("a", "cgroup.procs"), b"1\n")
same(
    "process 1 is only a number", (read(m.path("a", "cgroup.procs")), read(m.path("a", "pids.current"))), (b"1\n",) * 2
)
write(m.path("cgroup.procs"), b"1\n")
child = subprocess.Popen(["sleep", "600"])
write(m.path("b", "cgroup.procs"), b"%d\n" % child.pid)
for what, command in (("exit", b"%d\n" % child.pid), ("undo", b"1\n"), ("exit", b"%d\n" % child.pid)):
    write(m.control(what), command)
    same("a real process that %s" % what, spared(child.pid), [True])
    same("the count", read(m.path("b", "pids.current")), b"1\n" if what == "undo" else b"0\n")
for what, command in (("exit", b"%d\n" % child.pid), ("undo", b"2\n")):
    same("after that it is adopted again", error_of(write, m.path("b", "cgroup.procs"), b"%d\n" % child.pid), "ok")
    same("and counts", read(m.path("b", "pids.current")), b"1\n")
    write(m.control(what), command)
    same("%s: it is nowhere" % what, (read(m.path("b", "cgroup.procs")), read(m.path("cgroup.procs"))), (b"", b"1\n"))
same("a number of nobody real", error_of(write, m.control("fork"), b"1 4194300\n"), "ok")
write(m.path("b", "cgroup.procs"), b"4194300\n")
same("it stays", read(m.path("b", "cgroup.procs")), b"4194300\n")
write(m.path("b", "cgroup.kill"), b"1\n")
same("a kill ends it, and nobody real", (read(m.path("b", "cgroup.procs")), spared(child.pid)), (b"", [True]))
child.kill()
child.wait()
same("who has left does not exit once more", read(m.path("b", "pids.current")), b"0\n")
child = subprocess.Popen(["sleep", "600"])
write(m.control("fork"), b"1 %d\n" % child.pid)
write(m.path("b", "cgroup.procs"), b"%d\n" % child.pid)
write(m.path("b", "cgroup.kill"), b"1\n")
same("a kill of a number does not reach whose number it is", spared(child.pid), [True])
write(m.path("b", "cgroup.procs"), b"%d\n" % child.pid)
same("who is adopted later", read(m.path("b", "cgroup.procs")), b"%d\n" % child.pid)
write(m.path("b", "cgroup.kill"), b"1\n")
same("and killed then", child.wait(PATIENCE), -signal.SIGKILL)
descriptors = lambda: len(os.listdir("/proc/%d/fd" % m.process.pid))
read(m.path("cgroup.stat"))
before = descriptors()
several = []
for _ in range(200):  # more than sixteen for each look: a read is an open and some reads, which look several times
    pid = os.fork()
    if pid == 0:
        libc.prctl(1, 9)  # it ends with its parent
        signal.pause()
        os._exit(0)
    several.append(pid)
    write(m.path("a", "cgroup.procs"), b"%d\n" % pid)
same("two hundred processes", read(m.path("a", "pids.current")), b"200\n")
for pid in several:
    os.kill(pid, signal.SIGKILL)
for pid in several:
    os.waitid(os.P_PID, pid, os.WEXITED | os.WNOWAIT)
same("all their deaths are seen at once", read(m.path("a", "pids.current")), b"0\n")
for pid in several:
    os.waitpid(pid, 0)
read(m.path("cgroup.stat"))
step("of those that were waited for no descriptor is kept", descriptors() <= before, (before, descriptors()))
child = subprocess.Popen(["sleep", "600"])
write(m.path("a", "cgroup.procs"), b"%d\n" % child.pid)
child.kill()
os.waitid(os.P_PID, child.pid, os.WEXITED | os.WNOWAIT)
same("a zombie has left", read(m.path("a", "pids.current")), b"0\n")
write(m.control("undo"), b"1\n")
same("an undo brings its number back", read(m.path("a", "pids.current")), b"1\n")
write(m.path("a", "cgroup.kill"), b"1\n")
child.wait()
same("after a kill of it", (read(m.path("a", "pids.current")), descriptors() <= before), (b"0\n", True))
os.mkdir(m.path("last"))
last = subprocess.Popen(["sleep", "600"])
write(m.path("last", "cgroup.procs"), b"%d\n" % last.pid)
last.kill()
last.wait()
same("rmdir just after the last has died", error_of(os.rmdir, m.path("last")), "ok")
same("who was never there lives", spared(stranger.pid), [True])
stranger.kill()
stranger.wait()
m.end()

# what has happened since the last look, by files that are open: to open one is a look
m = Mount("--adopt")
for g in "abc":
    os.mkdir(m.path(g))
kill_b, to_b = (os.open(m.path("b", name), os.O_WRONLY) for name in ("cgroup.kill", "cgroup.procs"))
forks = "while read x; do sleep 600 >&- & echo $!; done"
parent = subprocess.Popen(["sh", "-c", forks], stdin=subprocess.PIPE, stdout=subprocess.PIPE, text=True)


def forked():
    parent.stdin.write("\n")
    parent.stdin.flush()
    return int(parent.stdout.readline())


write(m.path("a", "cgroup.procs"), b"%d\n" % parent.pid)
first = forked()
os.write(to_b, b"%d\n" % parent.pid)
same(
    "who was born before a move is where it was born",
    [read(m.path(g, "cgroup.procs")) for g in "ab"],
    [b"%d\n" % first, b"%d\n" % parent.pid],
)
second = forked()
os.write(kill_b, b"1")
same("a kill reaches the parent", parent.wait(PATIENCE), -signal.SIGKILL)
step("and whom it has just made", until(lambda: not is_alive(second)))
same("but no other", (spared(first), read(m.path("a", "cgroup.procs"))), ([True], b"%d\n" % first))
for fd in (kill_b, to_b):
    os.close(fd)
parent.stdin.close()
parent.stdout.close()

# a kill whose line can't be kept reaches nobody, also not at the next kill
one, other = (subprocess.Popen(["sleep", "600"]) for _ in range(2))
write(m.path("a", "cgroup.procs"), b"%d\n" % one.pid)
write(m.path("b", "cgroup.procs"), b"%d\n" % other.pid)
kill_a = os.open(m.path("a", "cgroup.kill"), os.O_WRONLY)


def without_room(call, *args):
    """The errno of a call while the trace can't grow."""
    soft, hard = resource.prlimit(m.process.pid, resource.RLIMIT_FSIZE)
    resource.prlimit(m.process.pid, resource.RLIMIT_FSIZE, (1, hard))
    error = error_of(call, *args)
    resource.prlimit(m.process.pid, resource.RLIMIT_FSIZE, (soft, hard))
    return error


child = subprocess.Popen(["sleep", "600"])
to_c = os.open(m.path("c", "cgroup.procs"), os.O_WRONLY)
same("an adoption without room in the trace", without_room(os.write, to_c, b"%d" % child.pid), "EFBIG")
os.write(to_c, b"%d" % child.pid)
same("is made later", read(m.path("c", "cgroup.procs")), b"%d\n" % child.pid)
os.close(to_c)
child.kill()
child.wait()
same("a kill without room in the trace", without_room(os.write, kill_a, b"1"), "EFBIG")
write(m.path("b", "cgroup.kill"), b"1")
same("a kill of another group", other.wait(PATIENCE), -signal.SIGKILL)
same("reaches no one else", spared(one.pid), [True])
os.close(kill_a)
one.kill()
one.wait()

# who polls is told of what a look finds
parent = subprocess.Popen(["sh", "-c", forks], stdin=subprocess.PIPE, stdout=subprocess.PIPE, text=True)
write(m.path("c", "cgroup.procs"), b"%d\n" % parent.pid)
write(m.path("c", "pids.max"), b"1\n")
names = ("cgroup.events", "pids.events", "pids.events.local")
fds = {os.open(m.path("c", name), os.O_RDONLY): name for name in names}
poller = select.poll()
for fd in fds:
    poller.register(fd, select.POLLPRI)
    os.pread(fd, 99, 0)


def told():
    """Which of the files tell of a change, after a look; they are read."""
    read(m.path("cgroup.stat"))
    found = [fd for fd, _ in poller.poll(0)]
    return sorted((fds[fd], os.pread(fd, 99, 0)) for fd in found)


same("nothing has changed", told(), [])
third = forked()
same("a child beyond the limit", told(), [("pids.events", b"max 1\n"), ("pids.events.local", b"max 1\n")])
same("is told once", told(), [])
parent.kill()
os.waitid(os.P_PID, parent.pid, os.WEXITED | os.WNOWAIT)
same("the last one dies", told(), [("cgroup.events", b"populated 0\nfrozen 0\n")])
parent.wait()
for pid in (first, third):
    os.kill(pid, signal.SIGKILL)
for fd in fds:
    os.close(fd)
parent.stdin.close()
parent.stdout.close()

# a child whose fork the hierarchy refuses is real all the same
parent = subprocess.Popen(["sh", "-c", forks], stdin=subprocess.PIPE, stdout=subprocess.PIPE, text=True)
write(m.path("b", "cgroup.procs"), b"%d\n" % parent.pid)
fork = os.open(m.control("fork"), os.O_WRONLY)
first = forked()
for _ in range(100):
    if error_of(os.write, fork, b"1 %d\n" % first) == "ok":
        break
    # it is there already: something looked, and adopted it
    os.kill(first, signal.SIGKILL)
    until(lambda: not is_alive(first))
    first = forked()
else:
    step("a number comes before its process is adopted", False)
write(m.path("a", "cgroup.procs"), b"%d\n" % first)
write(m.path("a", "cgroup.kill"), b"1\n")
step("a kill reaches one whose number was there before", until(lambda: not is_alive(first)))
count = os.open(m.path("b", "pids.current"), os.O_RDONLY)
look = lambda: os.pread(count, 99, 0)
stat = lambda: os.stat(m.path("b", "pids.current"))  # a look, and no line of its own
second = forked()
same("a birth without room in the trace", (without_room(stat), without_room(look), look()), ("ok", "EFBIG", b"2\n"))
os.kill(second, signal.SIGKILL)
step("it dies", until(lambda: not is_alive(second)))
same("a death without room in the trace", (without_room(stat), without_room(look), look()), ("ok", "EFBIG", b"1\n"))
os.close(count)
write(m.control("exit"), b"%d\n" % parent.pid)
second = forked()
same("a child of one that has left is nowhere", [read(m.path("b", "cgroup.procs")) for _ in range(3)], [b""] * 3)
lines = [x for x in open(m.trace).read().splitlines() if x.endswith(" %d" % second)]
same("and is tried once", lines, ["fork %d %d" % (parent.pid, second)])
os.kill(second, signal.SIGKILL)
os.close(fork)
parent.kill()
parent.wait()
parent.stdin.close()
parent.stdout.close()

# a look that has no descriptor for a child does not fail, and a later one adopts it
parent = subprocess.Popen(["sh", "-c", forks], stdin=subprocess.PIPE, stdout=subprocess.PIPE, text=True)
os.mkdir(m.path("d"))
write(m.path("d", "cgroup.procs"), b"%d\n" % parent.pid)
look = lambda: read(m.path("d", "pids.current"))
same("one is adopted", look(), b"1\n")
taken = {int(n) for n in os.listdir("/proc/%d/fd" % m.process.pid)}
free = [n for n in range(len(taken) + 3) if n not in taken]
soft, hard = resource.prlimit(m.process.pid, resource.RLIMIT_NOFILE)
resource.prlimit(
    m.process.pid, resource.RLIMIT_NOFILE, (free[2], hard)
)  # for the folder of its threads, and the list of its children
child = forked()
same("its child is not", look(), b"1\n")
resource.prlimit(m.process.pid, resource.RLIMIT_NOFILE, (soft, hard))
same("until there is a descriptor", look(), b"2\n")
to_d = os.open(m.path("d", "cgroup.procs"), os.O_WRONLY)
lives = subprocess.Popen(["sleep", "600"])
resource.prlimit(m.process.pid, resource.RLIMIT_NOFILE, (free[0], hard))
same("one that is written, without a descriptor", error_of(os.write, to_d, b"%d" % lives.pid), "EMFILE")
resource.prlimit(m.process.pid, resource.RLIMIT_NOFILE, (soft, hard))
same("and with one", (error_of(os.write, to_d, b"%d" % lives.pid), look()), ("ok", b"3\n"))
os.close(to_d)
lives.kill()
lives.wait()
write(m.path("d", "cgroup.kill"), b"1")
same("a kill reaches both", (parent.wait(PATIENCE), until(lambda: not is_alive(child))), (-signal.SIGKILL, True))
parent.stdin.close()
parent.stdout.close()

# a child that has ended is made once, however long nobody waits for it
UNWAITED = """import os, signal
pid = os.fork()
while pid == 0:
    signal.pause()
print(pid, flush=True)
signal.pause()
"""
parent = subprocess.Popen([sys.executable, "-c", UNWAITED], stdout=subprocess.PIPE, text=True)
child = int(parent.stdout.readline())
write(m.path("c", "pids.max"), b"max\n")
write(m.path("c", "cgroup.procs"), b"%d\n" % parent.pid)
same("two are adopted", read(m.path("c", "pids.current")), b"2\n")
os.kill(child, signal.SIGKILL)
step("the child is a zombie", until(lambda: state_of(child) == "Z"))
same("it is gone", [read(m.path("c", "pids.current")) for _ in range(3)], [b"1\n"] * 3)
write(m.path("c", "pids.max"), b"1\n")
same(
    "a zombie is no child that a limit refuses", [read(m.path("c", "pids.events")) for _ in range(3)], [b"max 1\n"] * 3
)
same("nor moves", error_of(write, m.path("a", "cgroup.procs"), b"%d\n" % child), "ok")
same("it is nowhere", (read(m.path("a", "cgroup.procs")), read(m.path("c", "pids.current"))), (b"", b"1\n"))
lines = open(m.trace).read().splitlines()
same(
    "its lines",
    [x for x in lines if x.endswith(" %d" % child)],
    ["fork %d %d" % (parent.pid, child), "exit %d" % child],
)
parent.kill()
parent.wait()
parent.stdout.close()
m.end()

# a move that the group refuses has adopted its process all the same
m = Mount("--adopt", "--keep", "memory")
os.mkdir(m.path("a"))
for at in ((), ("a",)):
    write(m.path(*at, "cgroup.subtree_control"), b"+memory")
child = subprocess.Popen(["sleep", "600"])
same("a group without room for processes", error_of(write, m.path("a", "cgroup.procs"), b"%d" % child.pid), "EBUSY")
same("who was to move is in the root", read(m.path("cgroup.procs")), b"1\n%d\n" % child.pid)
child.kill()
child.wait()
m.end()
finish()
