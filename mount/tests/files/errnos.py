"""Calls on groups and their files, in one table with the errno of each in the kernel, for the superuser and for the owner without
privileges. `errnos.py` tries the table on a mount and under `run --root`, `errnos.py kernel` on the cgroup2 of this machine, in
groups that it makes and removes."""
import ctypes
import fcntl
import json
import mmap
import os
import select
import socket
import stat
import subprocess
import sys

sys.path.insert(0, os.path.dirname(os.path.dirname(os.path.realpath(__file__))))
from on_kernel import new_group
from support import PROGRAM, Mount, error_of, finish, libc, same, step

NOBODY = 65534
NOREPLACE, EXCHANGE, WHITEOUT = 1, 2, 4
RW, RO, WO = "cgroup.max.depth", "cgroup.stat", "cgroup.kill"  # a file that may be read and written; read; written


def raises(result):
    if result < 0:
        raise OSError(ctypes.get_errno(), "")


def renameat2(old, new, flags):
    raises(libc.renameat2(-100, old.encode(), -100, new.encode(), flags))


def bind(path):
    with socket.socket(socket.AF_UNIX) as s:
        os.chdir(os.path.dirname(path))  # a socket's path is short
        s.bind(os.path.basename(path))


def opened(path, flags, then=lambda fd: None):
    fd = os.open(path, flags)
    try:
        then(fd)
    finally:
        os.close(fd)


def maps(flags):
    """By libc, since Python's mmap looks at the size first."""

    def call(fd):
        at = libc.mmap(None, ctypes.c_size_t(4096), mmap.PROT_READ, flags, fd, ctypes.c_long(0))
        raises(-1 if at == ctypes.c_void_p(-1).value else 0)
        libc.munmap(ctypes.c_void_p(at), ctypes.c_size_t(4096))

    libc.mmap.restype = ctypes.c_void_p
    return call


def polls(fd):
    with select.epoll() as p:
        p.register(fd)


def nowait(fd):
    os.preadv(fd, [bytearray(9)], 0, os.RWF_NOWAIT)


def executed(path):
    ran = os.fork()
    if ran == 0:
        try:
            os.execv(path, [path])
        except OSError as e:
            os._exit(e.errno)
    raise OSError(os.waitstatus_to_exitcode(os.waitpid(ran, 0)[1]), "")


def watched(path):
    fd = libc.inotify_init()
    raises(libc.inotify_add_watch(fd, path.encode(), 2))
    os.close(fd)


def allowed(path, mode):
    raises(libc.access(path.encode(), mode))


def made_and_removed(path):
    os.mkdir(path)
    os.rmdir(path)


RD, WR, RDWR = os.O_RDONLY, os.O_WRONLY, os.O_RDWR
# The name of a call; the call in a group g, which has a group `in` with a group `deep`; the errno for the superuser, and for the owner.
CALLS = [
    ("mkfifo", lambda g: os.mkfifo(g + "/new"), "EPERM", "EPERM"),
    ("mkfifo of a name that is there", lambda g: os.mkfifo(g + "/" + RW), "EEXIST", "EEXIST"),
    ("mknod, a regular file", lambda g: os.mknod(g + "/new", stat.S_IFREG | 0o600), "EACCES", "EACCES"),
    ("mknod, a socket", lambda g: os.mknod(g + "/new", stat.S_IFSOCK | 0o600), "EPERM", "EPERM"),
    ("mknod, a device", lambda g: os.mknod(g + "/new", stat.S_IFCHR | 0o600, os.makedev(1, 3)), "EPERM", "EPERM"),
    ("bind", lambda g: bind(g + "/new"), "EPERM", "EPERM"),
    ("bind to a name that is there", lambda g: bind(g + "/" + RW), "EADDRINUSE", "EADDRINUSE"),
    ("symlink", lambda g: os.symlink("x", g + "/new"), "EPERM", "EPERM"),
    ("symlink of a name that is there", lambda g: os.symlink("x", g + "/" + RW), "EEXIST", "EEXIST"),
    ("link of a file", lambda g: os.link(g + "/" + RW, g + "/new"), "EPERM", "EPERM"),
    ("link of a group", lambda g: os.link(g + "/in", g + "/new"), "EPERM", "EPERM"),
    ("open, O_CREAT", lambda g: opened(g + "/new", os.O_CREAT | RDWR), "EACCES", "EACCES"),
    ("open, O_CREAT of a file that is there", lambda g: opened(g + "/" + RO, os.O_CREAT | RD), "ok", "ok"),
    ("open, O_CREAT and O_EXCL of it", lambda g: opened(g + "/" + RO, os.O_CREAT | os.O_EXCL | RD), "EEXIST", "EEXIST"),
    ("open, O_CREAT of a group", lambda g: opened(g + "/in", os.O_CREAT | RD), "EISDIR", "EISDIR"),
    ("open, O_TMPFILE", lambda g: opened(g, os.O_TMPFILE | RDWR), "EOPNOTSUPP", "EOPNOTSUPP"),
    ("mkdir and rmdir", lambda g: made_and_removed(g + "/new"), "ok", "ok"),
    ("mkdir of a group", lambda g: os.mkdir(g + "/in"), "EEXIST", "EEXIST"),
    ("mkdir of a file", lambda g: os.mkdir(g + "/" + RW), "EEXIST", "EEXIST"),
    ("mkdir with a line feed", lambda g: os.mkdir(g + "/a\nb"), "EINVAL", "EINVAL"),
    ("mkdir below a file", lambda g: os.mkdir(g + "/" + RW + "/new"), "ENOTDIR", "ENOTDIR"),
    ("mkdir below nothing", lambda g: os.mkdir(g + "/none/new"), "ENOENT", "ENOENT"),
    ("unlink of a file", lambda g: os.unlink(g + "/" + RW), "EPERM", "EPERM"),
    ("unlink of a group", lambda g: os.unlink(g + "/in"), "EISDIR", "EISDIR"),
    ("rmdir of a file", lambda g: os.rmdir(g + "/" + RW), "ENOTDIR", "ENOTDIR"),
    ("rmdir of a group with a group", lambda g: os.rmdir(g + "/in"), "EBUSY", "EBUSY"),
    ("rmdir of nothing", lambda g: os.rmdir(g + "/none"), "ENOENT", "ENOENT"),
    ("rmdir of .", lambda g: os.rmdir(g + "/in/."), "EINVAL", "EINVAL"),
    ("rmdir of ..", lambda g: os.rmdir(g + "/in/.."), "ENOTEMPTY", "ENOTEMPTY"),
    ("rename of a file", lambda g: os.rename(g + "/" + RW, g + "/new"), "EPERM", "EPERM"),
    ("rename of a group", lambda g: os.rename(g + "/in", g + "/new"), "EPERM", "EPERM"),
    ("rename of a file to a file", lambda g: os.rename(g + "/" + RW, g + "/" + RO), "EPERM", "EPERM"),
    ("rename of a group to a file", lambda g: os.rename(g + "/in", g + "/" + RW), "ENOTDIR", "ENOTDIR"),
    ("rename of a file to a group", lambda g: os.rename(g + "/" + RW, g + "/in"), "EISDIR", "EISDIR"),
    ("rename of a group into itself", lambda g: os.rename(g + "/in", g + "/in/deep/new"), "EINVAL", "EINVAL"),
    ("renameat2, RENAME_NOREPLACE", lambda g: renameat2(g + "/" + RW, g + "/new", NOREPLACE), "EINVAL", "EINVAL"),
    (
        "renameat2, RENAME_NOREPLACE to a name that is there",
        lambda g: renameat2(g + "/" + RW, g + "/" + RO, NOREPLACE),
        "EEXIST",
        "EEXIST",
    ),
    ("renameat2, RENAME_EXCHANGE", lambda g: renameat2(g + "/" + RW, g + "/" + RO, EXCHANGE), "EINVAL", "EINVAL"),
    (
        "renameat2, RENAME_EXCHANGE with nothing",
        lambda g: renameat2(g + "/" + RW, g + "/new", EXCHANGE),
        "ENOENT",
        "ENOENT",
    ),
    ("renameat2, RENAME_WHITEOUT", lambda g: renameat2(g + "/" + RW, g + "/new", WHITEOUT), "EINVAL", "EINVAL"),
    ("open to write, of a file that is read", lambda g: opened(g + "/" + RO, WR), "ok", "EACCES"),
    ("open with O_TRUNC, of a file that is read", lambda g: opened(g + "/" + RO, RD | os.O_TRUNC), "ok", "EACCES"),
    ("open to read, of a file that is written", lambda g: opened(g + "/" + WO, RD), "ok", "EACCES"),
    ("open to read and write, of a file that is read", lambda g: opened(g + "/" + RO, RDWR), "ok", "EACCES"),
    ("open to read and write, of a file that is written", lambda g: opened(g + "/" + WO, RDWR), "ok", "EACCES"),
    ("open with O_DIRECT", lambda g: opened(g + "/" + RW, RD | os.O_DIRECT), "EINVAL", "EINVAL"),
    ("open with O_DIRECT, of a group", lambda g: opened(g, RD | os.O_DIRECT), "EINVAL", "EINVAL"),
    (
        "open with O_DIRECT to write, of a file that is read",
        lambda g: opened(g + "/" + RO, WR | os.O_DIRECT),
        "EINVAL",
        "EACCES",
    ),
    (
        "open with O_DIRECT to read, of a file that is written",
        lambda g: opened(g + "/" + WO, RD | os.O_DIRECT),
        "EINVAL",
        "EACCES",
    ),
    ("open to write, of a group", lambda g: opened(g, WR), "EISDIR", "EISDIR"),
    ("open with O_DIRECTORY, of a file", lambda g: opened(g + "/" + RW, RD | os.O_DIRECTORY), "ENOTDIR", "ENOTDIR"),
    (
        "write to a file that is read",
        lambda g: opened(g + "/" + RO, WR, lambda fd: os.write(fd, b"1")),
        "EINVAL",
        "EACCES",
    ),
    (
        "read of a file that is written",
        lambda g: opened(g + "/" + WO, RD, lambda fd: os.read(fd, 9)),
        "EINVAL",
        "EACCES",
    ),
    ("read of a group", lambda g: opened(g, RD, lambda fd: os.read(fd, 9)), "EISDIR", "EISDIR"),
    ("preadv2, RWF_NOWAIT", lambda g: opened(g + "/" + RW, RD, nowait), "EOPNOTSUPP", "EOPNOTSUPP"),
    ("truncate", lambda g: os.truncate(g + "/" + RW, 0), "ok", "ok"),
    ("truncate of a file that is written", lambda g: os.truncate(g + "/" + WO, 5), "ok", "ok"),
    ("truncate of a file that is read", lambda g: os.truncate(g + "/" + RO, 0), "ok", "EACCES"),
    ("truncate of a group", lambda g: os.truncate(g, 0), "EISDIR", "EISDIR"),
    ("ftruncate", lambda g: opened(g + "/" + RW, WR, lambda fd: os.ftruncate(fd, 0)), "ok", "ok"),
    (
        "ftruncate of a file that is open to be read",
        lambda g: opened(g + "/" + RW, RD, lambda fd: os.ftruncate(fd, 0)),
        "EINVAL",
        "EINVAL",
    ),
    (
        "fallocate",
        lambda g: opened(
            g + "/" + RW, WR, lambda fd: raises(libc.fallocate(fd, 0, ctypes.c_long(0), ctypes.c_long(9)))
        ),
        "EOPNOTSUPP",
        "EOPNOTSUPP",
    ),
    ("mmap, MAP_SHARED", lambda g: opened(g + "/" + RW, RD, maps(mmap.MAP_SHARED)), "ENODEV", "ENODEV"),
    ("mmap, MAP_PRIVATE", lambda g: opened(g + "/" + RW, RD, maps(mmap.MAP_PRIVATE)), "ENODEV", "ENODEV"),
    (
        "mmap of a file that is open to be written",
        lambda g: opened(g + "/" + RW, WR, maps(mmap.MAP_SHARED)),
        "EACCES",
        "EACCES",
    ),
    ("fsync", lambda g: opened(g + "/" + RW, RD, os.fsync), "ok", "ok"),
    ("fsync of a group", lambda g: opened(g, RD, os.fsync), "EINVAL", "EINVAL"),
    ("ioctl", lambda g: opened(g + "/" + RW, RD, lambda fd: fcntl.ioctl(fd, 0x1234)), "ENOTTY", "ENOTTY"),
    ("ioctl of a group", lambda g: opened(g, RD, lambda fd: fcntl.ioctl(fd, 0x1234)), "ENOTTY", "ENOTTY"),
    ("epoll_ctl", lambda g: opened(g + "/" + RW, RD, polls), "ok", "ok"),
    ("epoll_ctl of a group", lambda g: opened(g, RD, polls), "EPERM", "EPERM"),
    ("flock", lambda g: opened(g + "/" + RW, RD, lambda fd: fcntl.flock(fd, fcntl.LOCK_EX)), "ok", "ok"),
    ("lockf", lambda g: opened(g + "/" + RW, RDWR, lambda fd: fcntl.lockf(fd, fcntl.LOCK_EX)), "ok", "ok"),
    ("inotify_add_watch", lambda g: watched(g + "/" + RW), "ok", "ok"),
    ("execve", lambda g: executed(g + "/" + RW), "EACCES", "EACCES"),
    ("chdir to a file", lambda g: os.chdir(g + "/" + RW), "ENOTDIR", "ENOTDIR"),
    ("readlink", lambda g: os.readlink(g + "/" + RW), "EINVAL", "EINVAL"),
    ("setxattr, user", lambda g: os.setxattr(g + "/" + RW, "user.x", b"1"), "ok", "ok"),
    ("setxattr, system", lambda g: os.setxattr(g + "/" + RW, "system.x", b"1"), "EOPNOTSUPP", "EOPNOTSUPP"),
    ("getxattr of none", lambda g: os.getxattr(g + "/" + RW, "user.none"), "ENODATA", "ENODATA"),
    ("access, R_OK", lambda g: allowed(g + "/" + RO, os.R_OK), "ok", "ok"),
    ("access, W_OK", lambda g: allowed(g + "/" + RW, os.W_OK), "ok", "ok"),
    ("access, W_OK of a file that is read", lambda g: allowed(g + "/" + RO, os.W_OK), "ok", "EACCES"),
    ("access, R_OK of a file that is written", lambda g: allowed(g + "/" + WO, os.R_OK), "ok", "EACCES"),
    ("access, X_OK", lambda g: allowed(g + "/" + RW, os.X_OK), "EACCES", "EACCES"),
    ("access of a group, all", lambda g: allowed(g, os.R_OK | os.W_OK | os.X_OK), "ok", "ok"),
    ("chmod", lambda g: os.chmod(g + "/" + RW, 0o644), "ok", "ok"),
    ("chown to its owner", lambda g: os.chown(g + "/in", os.geteuid(), os.getegid()), "ok", "ok"),
    ("utimensat", lambda g: os.utime(g + "/" + RW, (1, 2)), "ok", "ok"),
]
# What docs/LIMITS.md lists as another answer.
OTHERWISE = {"mmap, MAP_PRIVATE": "ok"}


def results(group):
    """The errno of each call."""
    return {name: error_of(call, group).replace("ENOTSUP", "EOPNOTSUPP") for name, call, _, _ in CALLS}


def prepare(group):
    os.makedirs(group + "/in/deep")


def compare(where, got, column, otherwise):
    """Each call is a step."""
    for row in CALLS:
        same("%s: %s" % (where, row[0]), got[row[0]], otherwise.get(row[0], row[column]))


def as_owner(group):
    """The results for a process without privileges that owns the group and its files."""
    for top, _, files in os.walk(group):
        for at in (top, *(os.path.join(top, f) for f in files)):
            os.chown(at, NOBODY, NOBODY)
    out, into = os.pipe()
    pid = os.fork()
    if pid == 0:
        os.setgroups([])
        os.setgid(NOBODY)
        os.setuid(NOBODY)
        os.write(into, json.dumps(results(group)).encode())
        os._exit(0)
    os.close(into)
    with open(out) as text:
        got = json.load(text)
    os.waitpid(pid, 0)
    return got


def of_kernel():
    """On the cgroup2 of the machine, if a group can be made there."""
    with new_group() as group:
        if group:
            prepare(group)
            compare("the kernel, superuser", results(group), 2, {})
            compare("the kernel, owner", as_owner(group), 3, {})


def of_mount():
    m = Mount("--extra")
    prepare(m.path("t"))
    compare("mount", results(m.path("t")), 2 if os.geteuid() == 0 else 3, OTHERWISE)
    same("nothing was made", (sorted(d for d in os.listdir(m.path("t")) if "." not in d)), ["in"])
    os.chdir("/")
    m.end()


def inside():
    """Under `run --root`."""
    os.umask(0o022)
    group = "/sys/fs/cgroup/t"
    prepare(group)
    print(json.dumps(results(group)))


def of_run():
    ran = subprocess.run(
        [PROGRAM, "run", "--root", "--", sys.executable, os.path.realpath(__file__), "inside"], stdout=subprocess.PIPE
    )
    same("a program under run ends", ran.returncode, 0)
    compare("run --root", json.loads(ran.stdout), 2, OTHERWISE)


if __name__ == "__main__":
    if sys.argv[1:] == ["inside"]:
        inside()
        sys.exit()
    for test in (of_kernel,) if sys.argv[1:] == ["kernel"] else (of_mount, of_run):
        test()
    step("there are sixty calls", len(CALLS) >= 60, len(CALLS))
    finish()
