"""A change looks only at the groups on its path: files of other groups that were looked up before cost nothing.

Two mounts take the same forks and exits in turn, and only in one of them such files were read. What is compared is the processor
time of the servers, the least of ten turns, which other programs on the machine hardly change. A change that looked at all these
files would cost some hundred times as much."""
import os
import sys
import time

sys.path.insert(0, os.path.dirname(os.path.dirname(os.path.realpath(__file__))))
from support import Mount, finish, read, step

PAIRS, GROUPS, TURNS = 500, 1000, 10


class Server:
    def __init__(self):
        self.mount = Mount(control=False)
        self.clock = ~self.mount.process.pid << 3 | 2  # the clock of a process, as the kernel numbers it
        self.fork, self.leave = (os.open(self.mount.control(name), os.O_WRONLY) for name in ("fork", "exit"))
        self.least = float("inf")

    def turn(self):
        began = time.clock_gettime(self.clock)
        for _ in range(PAIRS):
            os.write(self.fork, b"1 2")
            os.write(self.leave, b"2")
        self.least = min(self.least, time.clock_gettime(self.clock) - began)

    def end(self):
        os.close(self.fork)
        os.close(self.leave)
        self.mount.end()


bare, full = Server(), Server()
opened = []
for i in range(GROUPS):
    os.mkdir(full.mount.path("g%d" % i))
    for name in ("cgroup.events", "pids.events", "pids.events.local"):
        read(full.mount.path("g%d" % i, name))
    if i % 4 == 0:
        opened.append(os.open(full.mount.path("g%d" % i, "cgroup.events"), os.O_RDONLY))
for _ in range(TURNS):
    bare.turn()
    full.turn()
print(
    "  %.1f microseconds of the server for a fork and an exit; %.1f after the event files of %d groups were read"
    % (1e6 * bare.least / PAIRS, 1e6 * full.least / PAIRS, GROUPS)
)
step("that costs forks nothing", full.least < 4 * bare.least, "%.4f s, then %.4f s" % (bare.least, full.least))
for fd in opened:
    os.close(fd)
bare.end()
full.end()
finish()
