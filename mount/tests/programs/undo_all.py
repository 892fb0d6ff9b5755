"""Undoes, newest first and one by one, all operations of a run, and compares the result with the start."""
import os
import sys

AT = "/sys/fs/cgroup/"


def read(name):
    fd = os.open(AT + name, os.O_RDONLY)
    text = os.read(fd, 1 << 22)
    os.close(fd)
    return text


trace = read(".makhloeum/trace").splitlines(True)
undo = os.open(AT + ".makhloeum/undo", os.O_WRONLY)
while trace:
    newest = read(".makhloeum/newest").splitlines(True)
    if not newest or trace[-len(newest) :] != newest:
        sys.exit("the newest is another")
    del trace[-len(newest) :]
    os.write(undo, b"1\n")
groups = [e.name for e in os.scandir(AT) if e.is_dir() and e.name != ".makhloeum"]
if (groups, read("cgroup.procs"), read(".makhloeum/depth")) != ([], b"1\n", b"0\n"):
    sys.exit("this is not the start: %r" % ((groups, read("cgroup.procs"), read(".makhloeum/depth")),))
