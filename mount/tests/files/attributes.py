"""Extended attributes of the user's are kept with a group and its files; and what is left of a group that was removed."""
import ctypes
import errno
import os
import stat
import sys

sys.path.insert(0, os.path.dirname(os.path.dirname(os.path.realpath(__file__))))
from support import AT, Mount, error_of, finish, inside, libc, run_each, same, step, write


def kept():
    m = Mount()
    os.mkdir(m.path("a"))
    for where in (m.path("a"), m.path("a", "pids.max"), m.at):
        name = os.path.basename(where)
        same("%s: none at first" % name, os.listxattr(where), [])
        same("%s: one that is not there" % name, error_of(os.getxattr, where, "user.x"), "ENODATA")
        same("%s: removing it" % name, error_of(os.removexattr, where, "user.x"), "ENODATA")
        same("%s: replacing it" % name, error_of(os.setxattr, where, "user.x", b"1", os.XATTR_REPLACE), "ENODATA")
        same("%s: setting it" % name, error_of(os.setxattr, where, "user.x", b"1"), "ok")
        same("%s: creating it" % name, error_of(os.setxattr, where, "user.x", b"1", os.XATTR_CREATE), "EEXIST")
        same("%s: its value" % name, os.getxattr(where, "user.x"), b"1")
        same("%s: another value" % name, error_of(os.setxattr, where, "user.x", b"two\0three"), "ok")
        same("%s: its value then" % name, os.getxattr(where, "user.x"), b"two\0three")
        same("%s: an empty one" % name, error_of(os.setxattr, where, "user.delegate", b""), "ok")
        same("%s: both are listed" % name, sorted(os.listxattr(where)), ["user.delegate", "user.x"])
        same("%s: the empty value" % name, os.getxattr(where, "user.delegate"), b"")
        same("%s: removing one" % name, error_of(os.removexattr, where, "user.delegate"), "ok")
        same("%s: the other is left" % name, os.listxattr(where), ["user.x"])
        for flags, there, absent in ((os.XATTR_CREATE | os.XATTR_REPLACE, "EEXIST", "ENODATA"), (0, "ok", "ok")):
            got = [error_of(os.setxattr, where, n, b"3", flags) for n in ("user.x", "user.new")]
            same("%s: flags %d" % (name, flags), got, [there, absent])
        os.removexattr(where, "user.new")
        for room, wanted in ((1, b"3"), (65536, b"3")):
            buffer = ctypes.create_string_buffer(room)
            size = libc.getxattr(where.encode(), b"user.x", buffer, room)
            same("%s: into %d bytes" % (name, room), (size, buffer.raw[:1]), (1, wanted))
        step("%s: another name space" % name, error_of(os.setxattr, where, "security.x", b"1") in ("ENOTSUP", "EPERM"))
    # of files as nobody's kernfs: who may not write a file may not change its attributes, who may not read it sees none
    for name, sets, gets in (
        ("cgroup.procs", "ok", "ok"),
        ("cgroup.events", "EACCES", "ok"),
        ("cgroup.kill", "ok", "EACCES"),
    ):
        if os.geteuid() == 0:
            sets = gets = "ok"
        where = m.path("a", name)
        got = [error_of(os.setxattr, where, "user.y", b"1"), error_of(os.removexattr, where, "user.y")]
        same("%s: setting and removing" % name, got, [sets] * 2)
        absent = gets if gets != "ok" else "ENODATA"
        same("%s: getting" % name, error_of(os.getxattr, where, "user.y"), absent)
        same("%s: the list" % name, os.listxattr(where), [])
    same("an attribute of a group sends no line", "user" in open(m.trace).read(), False)
    for name in ("use", "users.x", "system.x", "system.makhloeum.group", "makhloeum"):
        for call, *value in ((os.setxattr, b"1"), (os.getxattr,), (os.removexattr,)):
            same("%s of %s" % (call.__name__, name), error_of(call, m.path("a"), name, *value), "ENOTSUP")
    fd = os.open(m.path("a"), os.O_RDONLY)
    os.setxattr(fd, "user.fd", b"by descriptor")
    same("by an open directory", os.getxattr(m.path("a"), "user.fd"), b"by descriptor")
    os.close(fd)
    m.end()


def sized(what, wanted, call):
    """A call into a buffer of the right size, and into one that is a byte too small."""
    room = ctypes.create_string_buffer(len(wanted))
    same("%s: its size" % what, call(None, 0), len(wanted))
    same("into as many bytes", (call(room, len(wanted)), room.raw), (len(wanted), wanted))
    same("into one byte fewer", (call(room, len(wanted) - 1), ctypes.get_errno()), (-1, errno.ERANGE))


def bounds():
    """The kernel's: 128 attributes and 128 KiB of values for a group or file."""
    m = Mount()
    os.mkdir(m.path("a"))
    same("65,536 bytes", error_of(os.setxattr, m.path("a"), "user.large", b"x" * 65536), "ok")
    same("another 65,536", error_of(os.setxattr, m.path("a"), "user.large2", b"x" * 65536), "ok")
    same("one byte more", error_of(os.setxattr, m.path("a"), "user.more", b"x"), "ENOSPC")
    same("one in place of another", error_of(os.setxattr, m.path("a"), "user.large", b"y" * 65536), "ok")
    os.removexattr(m.path("a"), "user.large")
    same("after one is removed", error_of(os.setxattr, m.path("a"), "user.more", b"x"), "ok")
    os.mkdir(m.path("b"))
    got = [error_of(os.setxattr, m.path("b"), "user.n%d" % i, b"v") for i in range(129)]
    same("128 names", (got[:128], got[128]), (["ok"] * 128, "ENOSPC"))
    same("they are listed", len(os.listxattr(m.path("b"))), 128)
    same("one of 128 gets another value", error_of(os.setxattr, m.path("b"), "user.n0", b"w"), "ok")
    same("a file of the group has its own", error_of(os.setxattr, m.path("b", "pids.max"), "user.n", b"v"), "ok")
    same("in a group that is full of bytes too", error_of(os.setxattr, m.path("a", "pids.max"), "user.n", b"v"), "ok")
    got = [error_of(os.setxattr, m.path("b", "cgroup.procs"), "user.n%d" % i, b"v") for i in range(129)]
    same("128 names of a file", (got[:128], got[128]), (["ok"] * 128, "ENOSPC"))
    same("another file", error_of(os.setxattr, m.path("b", "cgroup.max.depth"), "user.n", b"v"), "ok")
    sized("a value", b"x" * 65536, lambda to, size: libc.getxattr(m.path("a").encode(), b"user.large2", to, size))
    os.mkdir(m.path("c"))
    os.setxattr(m.path("c"), "user.x", b"1")
    sized("a list", b"user.x\0", lambda to, size: libc.listxattr(m.path("c").encode(), to, size))
    m.end()


def removed():
    """What was set for a group goes with it; inodes.py has what is still open."""
    m = Mount()
    os.mkdir(m.path("a"))
    os.setxattr(m.path("a"), "user.x", b"1")
    os.setxattr(m.path("a", "pids.max"), "user.x", b"1")
    os.chmod(m.path("a", "pids.max"), 0o600)
    directory = os.open(m.path("a"), os.O_RDONLY)
    os.rmdir(m.path("a"))
    os.mkdir(m.path("a"))
    same(
        "a group of that name is another: attributes",
        (os.listxattr(m.path("a")), os.listxattr(m.path("a", "pids.max"))),
        ([], []),
    )
    same("its modes", stat.S_IMODE(os.stat(m.path("a", "pids.max")).st_mode), 0o644)
    os.setxattr(directory, "user.z", b"1")
    same(
        "the open directory is not of it",
        (os.listxattr(directory), os.listxattr(m.path("a"))),
        (["user.z", "user.x"], []),
    )
    os.setxattr(m.path("a"), "user.y", b"1")
    write(m.control("undo"), b"1\n")
    same("a group whose mkdir was undone", error_of(os.stat, m.path("a")), "ENOENT")
    os.mkdir(m.path("a"))
    same("nothing of it is left", os.listxattr(m.path("a")), [])
    os.close(directory)
    m.end()


def hidden():
    """Inside a run: the path of a group is an attribute of it, for a clone3 by a descriptor. No list shows it."""
    name = "system.makhloeum.group"
    os.makedirs(AT + "/a/b")
    for path in ("/", "/a", "/a/b"):
        same("of %s" % path, (os.getxattr(AT + path, name), os.listxattr(AT + path)), (path.encode(), []))
    for file in ("pids.max", "cgroup.kill"):  # the second may not be read
        same("of %s" % file, error_of(os.getxattr, AT + "/a/" + file, name), "ENOTSUP")
    same("nobody sets it", error_of(os.setxattr, AT + "/a", name, b"/"), "ENOTSUP")
    same("nor removes it", error_of(os.removexattr, AT + "/a", name), "ENOTSUP")
    sized("it", b"/a/b", lambda to, size: libc.getxattr((AT + "/a/b").encode(), name.encode(), to, size))
    fd = os.open(AT + "/a/b", os.O_RDONLY)
    os.rmdir(AT + "/a/b")
    same("of a removed group", error_of(os.getxattr, fd, name), "ENOENT")
    os.mkdir(AT + "/a/b")
    same("also if its path is another's", error_of(os.getxattr, fd, name), "ENOENT")


inside(hidden)
for test in (kept, bounds, removed):
    test()
run_each({hidden: []})
finish()
