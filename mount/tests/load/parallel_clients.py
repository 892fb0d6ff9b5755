"""Eight writers and two readers in parallel, in threads of libfuse: the trace is one order of what they did."""
import os
import random
import sys
import threading

sys.path.insert(0, os.path.dirname(os.path.dirname(os.path.realpath(__file__))))
from support import PATIENCE, Mount, error_of, finish, read, same, step, write

ROUNDS = 300


def writer(m, n, wrong):
    """Makes, fills, empties and removes its own groups, and one that all threads share."""
    dice = random.Random(n)
    own = m.path("w%d" % n)
    pid = 100 + n
    for i in range(ROUNDS):
        try:
            os.mkdir(own)
            write(m.control("fork"), b"1 %d\n" % pid)
            write(os.path.join(own, "cgroup.procs"), b"%d\n" % pid)
            limit = dice.randrange(1, 5)
            write(os.path.join(own, "pids.max"), b"%d\n" % limit)
            got = (
                read(os.path.join(own, "pids.max")),
                read(os.path.join(own, "pids.current")),
                read(os.path.join(own, "cgroup.procs")),
            )
            if got != (b"%d\n" % limit, b"1\n", b"%d\n" % pid):
                wrong.append((n, i, got))
            error_of(write, m.path("shared", "cgroup.procs"), b"%d\n" % pid)
            error_of(os.mkdir, m.path("shared", "x%d" % dice.randrange(3)))
            error_of(os.rmdir, m.path("shared", "x%d" % dice.randrange(3)))
            write(m.control("exit"), b"%d\n" % pid)
            os.rmdir(own)
        except OSError as e:
            wrong.append((n, i, e))


def reader(m, stop, wrong):
    while not stop.is_set():
        try:
            current = int(read(m.path("shared", "pids.current")))
            names = os.listdir(m.at)
            if not 0 <= current <= 8 or len(names) != len(set(names)):
                wrong.append((current, names))
        except OSError as e:
            wrong.append(e)


m = Mount()
os.mkdir(m.path("shared"))
wrong, stop = [], threading.Event()
writers = [threading.Thread(target=writer, args=(m, n, wrong)) for n in range(8)]
readers = [threading.Thread(target=reader, args=(m, stop, wrong)) for n in range(2)]
for t in writers + readers:
    t.start()
for t in writers:
    t.join(8 * PATIENCE)
stop.set()
for t in readers:
    t.join(PATIENCE)
step("nothing hangs", not any(t.is_alive() for t in writers + readers))
same("each writer finds its own group as it left it", wrong[:3], [])
same("nobody is left", read(m.path("cgroup.procs")), b"1\n")
depth = int(read(m.control("depth")))
write(m.control("undo"), b"%d\n" % depth)
same("%d undos lead back to the start" % depth, (os.listdir(m.at).count("shared"), read(m.control("trace"))), (0, b""))
m.end()
finish()
