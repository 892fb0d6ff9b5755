"""A read at an offset gives the text from there, as seq files of the kernel do."""
import os
import subprocess
import sys

sys.path.insert(0, os.path.dirname(os.path.dirname(os.path.realpath(__file__))))
from support import Mount, finish, read, same, step, write

m = Mount()
os.mkdir(m.path("a"))
for pid in range(2, 40):
    write(m.control("fork"), b"1 %d\n" % pid)
    write(m.path("a", "cgroup.procs"), b"%d\n" % pid)
write(m.path("a", "pids.max"), b"1234567\n")
FILES = ("a/cgroup.procs", "a/cgroup.events", "a/cgroup.stat", "a/pids.max", ".makhloeum/trace", ".makhloeum/depth")
for name in FILES:
    path = m.path(name)
    text = read(path)
    wrong = []
    for at in (0, 1, 3, 5, len(text) - 1, len(text), len(text) + 9):
        for size in (1, 5, 4096):
            fd = os.open(path, os.O_RDONLY)
            wanted = text[at : at + size]
            if os.pread(fd, size, at) != wanted or os.pread(fd, size, at) != wanted:
                wrong.append((at, size))
            os.close(fd)
    same("pread of %s, first and again" % name, wrong, [])
    ran = subprocess.run(["dd", "if=" + path, "bs=1", "skip=3", "status=none"], stdout=subprocess.PIPE)
    same("dd skip=3 of %s" % name, ran.stdout, text[3:])
    ran = subprocess.run(["tail", "-c", "4", path], stdout=subprocess.PIPE)
    same("tail -c 4 of %s" % name, ran.stdout, text[-4:])

fd = os.open(m.path("a", "pids.max"), os.O_RDONLY)
same("a piece", os.read(fd, 3), b"123")
write(m.path("a", "pids.max"), b"4193210\n")
same("a continued read has the same text", os.read(fd, 3), b"456")
same("another offset is of today's", os.pread(fd, 9, 3), b"3210\n")
os.lseek(fd, 1, os.SEEK_SET)
same("after a seek too", os.read(fd, 9), b"193210\n")
same("at its end there is nothing", os.read(fd, 9), b"")
for first in (b"419", b"123"):
    os.lseek(fd, 0, os.SEEK_SET)
    same("a piece from the start", os.read(fd, 3), first)
    write(m.path("a", "pids.max"), b"1234567\n")
same("a read that began again continues its own text", os.read(fd, 3), b"456")
write(m.path("a", "pids.max"), b"4193210\n")
same("up to its end", (os.read(fd, 9), os.read(fd, 9)), (b"7\n", b""))
os.close(fd)
os.mkdir(m.path("e"))
fd = os.open(m.path("e", "cgroup.procs"), os.O_RDONLY)
same("an empty text", os.read(fd, 9), b"")
write(m.path("e", "cgroup.procs"), b"39\n")
same("it ends at 0, from where a read has today's", os.read(fd, 9), b"39\n")
os.close(fd)
lines = sum(1 for line in open(m.trace) if not line.startswith("#"))
fd = os.open(m.path("a", "pids.max"), os.O_RDONLY)
for _ in range(9):
    os.read(fd, 1)
step(
    "a text that is read in nine pieces is one line",
    sum(1 for line in open(m.trace) if not line.startswith("#")) == lines + 1,
)
os.close(fd)
m.end()

# texts that are longer than the room for an answer is at first
m = Mount()
PIDS = range(2, 7000)
fork = os.open(m.control("fork"), os.O_WRONLY)
for pid in PIDS:
    os.write(fork, b"1 %d" % pid)
os.close(fork)
for name, wanted in (
    ("cgroup.procs", b"".join(b"%d\n" % pid for pid in (1, *PIDS))),
    (".makhloeum/trace", b"".join(b"fork 1 %d\n" % pid for pid in PIDS)),
):
    same("%s: all of %d bytes" % (name, len(wanted)), read(m.path(name)) == wanted, True)
    fd = os.open(m.path(name), os.O_RDONLY)
    same("in pieces", b"".join(iter(lambda: os.read(fd, 999), b"")) == wanted, True)
    same("its size", os.fstat(fd).st_size, len(wanted))
    os.close(fd)
m.end()
finish()
