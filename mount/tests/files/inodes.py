"""What a stat and a listing show of groups and files: types, inode numbers, modes, owners and times; and what an open group still
answers once it was removed. `inodes.py` tries it on a mount, `inodes.py kernel` on the cgroup2 of this machine."""
import ctypes
import errno
import os
import stat
import sys
import time

sys.path.insert(0, os.path.dirname(os.path.dirname(os.path.realpath(__file__))))
from on_kernel import left_out, new_group
from support import AT, Mount, error_of, finish, inside, libc, run_each, same, step, write, until

DIRECTORY, FILE = 4, 8  # DT_DIR, DT_REG
MARK = -0x6D6B6872  # the time by which the companion marks a change (companion.h)
libc.opendir.restype = libc.readdir.restype = ctypes.c_void_p


# The kernel's clock for the times of files, CLOCK_REALTIME_COARSE, which goes on by ticks: on a busy machine one may take long.
TICKS = 5


def until_after(time_of_file):
    """Returns once a change has a later time than this one, in nanoseconds."""
    step("the clock for files goes on", until(lambda: time.clock_gettime_ns(TICKS) > time_of_file))


class Entry(ctypes.Structure):
    _fields_ = [
        ("number", ctypes.c_uint64),
        ("offset", ctypes.c_int64),
        ("length", ctypes.c_uint16),
        ("type", ctypes.c_ubyte),
        ("name", ctypes.c_char * 256),
    ]


def entries(path):
    """Of a listing: the inode number and the type for each name."""
    stream = ctypes.c_void_p(libc.opendir(path.encode()))
    if not stream:
        raise OSError(ctypes.get_errno(), path)
    found = {}
    while at := libc.readdir(stream):
        e = Entry.from_address(at)
        found[e.name.decode()] = e.number, e.type
    libc.closedir(stream)
    return found


def shown(path):
    st = os.lstat(path)
    return st.st_ino, stat.S_IFMT(st.st_mode) >> 12


def listed(at):
    """A listing has the type and the number of each name that a stat has."""
    os.makedirs(at + "/l/below")
    for where in (at + "/l", at + "/l/below"):
        found = entries(where)
        same(
            "%s: numbers and types" % os.path.basename(where),
            found,
            {name: shown(where + "/" + name) for name in found},
        )
    same(
        "types of a group and of a file",
        (entries(at + "/l")["below"][1], entries(at + "/l")["cgroup.stat"][1]),
        (DIRECTORY, FILE),
    )
    numbers = [
        number
        for where in (at + "/l", at + "/l/below")
        for name, (number, _) in entries(where).items()
        if name not in (".", "..")
    ]
    same("no number comes twice", len(set(numbers)), len(numbers))
    os.rmdir(at + "/l/below")
    os.rmdir(at + "/l")


def numbered(at):
    """A number stays as long as the group does."""
    group, file = at + "/n", at + "/n/cgroup.procs"
    os.mkdir(group)
    before = os.stat(group).st_ino, os.stat(file).st_ino
    fds = [os.open(path, os.O_RDONLY) for path in (group, file)]
    for i in range(9):
        os.mkdir("%s/%d" % (group, i))
    same("after other groups were made", (os.stat(group).st_ino, os.stat(file).st_ino), before)
    same("by descriptors", tuple(os.fstat(fd).st_ino for fd in fds), before)
    for i in range(9):
        os.rmdir("%s/%d" % (group, i))
    os.rmdir(group)
    os.mkdir(group)
    step("a new group has another number", os.stat(group).st_ino != before[0] and os.stat(file).st_ino != before[1])
    same("the removed one keeps its own", tuple(os.fstat(fd).st_ino for fd in fds), before)
    for fd in fds:
        os.close(fd)
    os.rmdir(group)


def modes(at):
    for umask, mode, wanted in (
        (0o022, 0o777, 0o755),
        (0o027, 0o777, 0o750),
        (0, 0o700, 0o700),
        (0o077, 0o1777, 0o1700),
        (0o022, 0o2711, 0o711),
    ):
        before = os.umask(umask)
        os.mkdir(at + "/m", mode)
        os.umask(before)
        same("mode %o less %o" % (mode, umask), stat.S_IMODE(os.stat(at + "/m").st_mode), wanted)
        same("its files have their own", stat.S_IMODE(os.stat(at + "/m/cgroup.procs").st_mode), 0o644)
        os.rmdir(at + "/m")


def owner(st):
    return st.st_uid, st.st_gid


def owned(at):
    maker = os.geteuid(), os.getegid()
    os.mkdir(at + "/o")
    same(
        "its maker owns a group and its files",
        (owner(os.stat(at + "/o")), owner(os.stat(at + "/o/cgroup.procs"))),
        (maker, maker),
    )
    if error_of(os.chown, at + "/o", 7, 8) == "ok":  # on the kernel's only a superuser may
        same("another owner", (owner(os.stat(at + "/o")), owner(os.stat(at + "/o/cgroup.procs"))), ((7, 8), maker))
    os.rmdir(at + "/o")


OMIT, NOW = (1 << 30) - 2, (1 << 30) - 1
libc.utimensat.argtypes = [ctypes.c_int, ctypes.c_char_p, ctypes.c_void_p, ctypes.c_int]


def cached(fd):
    """The mode and the owners that the kernel remembers."""
    about = (ctypes.c_uint32 * 64)()
    libc.statx(fd, b"", 0x1000 | 0x4000, 0x7FF, about)  # AT_EMPTY_PATH, AT_STATX_DONT_SYNC
    return about[7] & 0o7777, about[5], about[6]


def set_times(fd, accessed, modified):
    """Each is seconds and nanoseconds."""
    times = (ctypes.c_long * 4)(*accessed, *modified)
    if libc.futimens(fd, times):
        raise OSError(ctypes.get_errno(), "")


def all_of(st):
    return {
        "mode": stat.S_IMODE(st.st_mode),
        "owner": st.st_uid,
        "group": st.st_gid,
        "accessed": st.st_atime_ns,
        "modified": st.st_mtime_ns,
        "number": st.st_ino,
        "links": st.st_nlink,
    }


def settings(at):
    """Each call sets what it names, and nothing else, by a path and by a descriptor."""
    group = at + "/s"
    os.mkdir(group)
    os.mkdir(group + "/in")
    others = group + "/in", group + "/cgroup.stat"
    for path in (group, group + "/cgroup.procs"):
        fd = os.open(path, os.O_RDONLY)
        untouched = [all_of(os.stat(other)) for other in others]
        for what, call, sets in (
            ("chmod", lambda: os.chmod(path, 0o612), {"mode": 0o612}),
            ("fchmod", lambda: os.fchmod(fd, 0o751), {"mode": 0o751}),
            ("chown of the owner", lambda: os.chown(path, 7, -1), {"owner": 7}),
            ("chown of the group", lambda: os.chown(path, -1, 8), {"group": 8}),
            ("fchown of both", lambda: os.fchown(fd, 9, 10), {"owner": 9, "group": 10}),
            ("fchown of the group", lambda: os.fchown(fd, -1, 11), {"group": 11}),
            ("lchown", lambda: os.lchown(path, 12, 13), {"owner": 12, "group": 13}),
            ("chown of neither", lambda: os.chown(path, -1, -1), {}),
            (
                "times",
                lambda: set_times(fd, (3, 4), (5, 6)),
                {"accessed": 3 * 10**9 + 4, "modified": 5 * 10**9 + 6},
            ),
            ("one time", lambda: set_times(fd, (8, 9), (0, OMIT)), {"accessed": 8 * 10**9 + 9}),
            ("the other", lambda: set_times(fd, (0, OMIT), (10, 11)), {"modified": 10**10 + 11}),
            ("neither", lambda: set_times(fd, (0, OMIT), (0, OMIT)), {}),
            ("one time, now", lambda: set_times(fd, (0, NOW), (0, OMIT)), {"accessed": None}),
            ("the other, now", lambda: set_times(fd, (0, OMIT), (0, NOW)), {"modified": None}),
            (
                "one time now, the other given",
                lambda: set_times(fd, (0, NOW), (12, 13)),
                {"accessed": None, "modified": 12 * 10**9 + 13},
            ),
            (
                "one time given, the other now",
                lambda: set_times(fd, (14, 15), (0, NOW)),
                {"accessed": 14 * 10**9 + 15, "modified": None},
            ),
            ("chmod to nothing", lambda: os.chmod(path, 0), {"mode": 0}),
            ("chmod to all", lambda: os.chmod(path, 0o7777), {"mode": 0o7777}),
        ):
            if error_of(call) == "EPERM" and "chown" in what:  # on the kernel's only a superuser may
                continue
            before = all_of(os.stat(path))
            os.utime(path, ns=(before["accessed"], before["modified"]))
            os.chmod(path, 0o640)
            if "chown" in what:
                error_of(os.chown, path, 20, 21)
            before = all_of(os.stat(path))
            changed = os.stat(path).st_ctime_ns
            until_after(changed)
            begun = time.clock_gettime_ns(TICKS)
            call()
            remembered = cached(fd)  # before a look-up of the path
            st = os.stat(path)
            same("%s: what the kernel remembers" % what, remembered, (stat.S_IMODE(st.st_mode), st.st_uid, st.st_gid))
            after = all_of(st)
            wanted = {**before, **{k: after[k] if v is None else v for k, v in sets.items()}}
            same("%s of a %s" % (what, "group" if path == group else "file"), after, wanted)
            for k in (k for k, v in sets.items() if v is None):
                step("now", begun <= after[k] <= time.time_ns(), (begun, after[k]))
            later = st.st_ctime_ns > changed if sets else st.st_ctime_ns >= changed
            step("the time of the change", later, (changed, st.st_ctime_ns))
            same("by the descriptor", all_of(os.fstat(fd)), after)
        same("others are as they were", [all_of(os.stat(other)) for other in others], untouched)
        os.close(fd)
    os.rmdir(group + "/in")
    os.rmdir(group)


def first(at):
    """The first change of a file sets what it names. The file keeps its own mode and owner, which aren't those of its group. (In the
    kernel its other times are then those of the change.)"""
    of_file = lambda f: {k: v for k, v in all_of(os.stat(f)).items() if k not in ("accessed", "modified")}
    for what, call, sets in (
        ("an owner", lambda f: os.chown(f, os.geteuid(), -1), {}),
        ("a group", lambda f: os.chown(f, -1, os.getegid()), {}),
        ("times", lambda f: os.utime(f, (7, 9)), {}),
        ("a mode", lambda f: os.chmod(f, 0o604), {"mode": 0o604}),
    ):
        group, file = at + "/f", at + "/f/cgroup.procs"
        os.mkdir(group, 0o710)
        os.utime(group, (3, 4))
        before = of_file(file)
        same("the mode of a file", before["mode"], 0o644)
        call(file)
        same("%s is the first change of a file" % what, of_file(file), {**before, **sets})
        step(
            "its times are not those of its group", times_of(file) == (7, 9) or min(times_of(file)) > 9, times_of(file)
        )
        same("its group is as it was", (stat.S_IMODE(os.stat(group).st_mode), times_of(group)), (0o710, (3, 4)))
        os.rmdir(group)


def times_of(path):
    st = os.stat(path)
    return st.st_atime, st.st_mtime


def timed(at):
    group, file = at + "/t", at + "/t/cgroup.procs"
    until_after(os.stat(at).st_ctime_ns)  # so that the time is not that of the mount
    before = time.clock_gettime(TICKS)
    os.mkdir(group)
    made = [*times_of(group), *times_of(file), os.stat(group).st_ctime]
    step("the times of a new group", all(before <= t <= time.time() for t in made), (before, made))
    for path in (group, file):
        os.utime(path, (7, 9.5))
        same("times that were set", times_of(path), (7, 9.5))
        step("the time of the change is now", before <= os.stat(path).st_ctime <= time.time(), os.stat(path).st_ctime)
        changed = os.stat(path).st_ctime_ns
        os.chmod(path, 0o700)
        same("a mode changes no other time", times_of(path), (7, 9.5))
        step("but that of the change", until(lambda: (os.chmod(path, 0o700), os.stat(path).st_ctime_ns)[1] > changed))
        os.utime(path, ns=(10**9 + 1, 2 * 10**9 + 2))
        same("in nanoseconds", (os.stat(path).st_atime_ns, os.stat(path).st_mtime_ns), (10**9 + 1, 2 * 10**9 + 2))
        os.utime(path, None)
        step("now", all(before <= t <= time.time() for t in times_of(path)), times_of(path))
    for what, call in (("made", os.mkdir), ("removed", os.rmdir)):
        os.utime(group, (7, 9))
        changed = os.stat(group).st_ctime_ns
        until_after(changed)
        call(group + "/below")
        step(
            "a group is %s in it" % what,
            os.stat(group).st_atime == 7 and before <= os.stat(group).st_mtime <= time.time(),
            times_of(group),
        )
        step("%s: the time of the change" % what, os.stat(group).st_ctime_ns > changed, os.stat(group).st_ctime_ns)
    os.rmdir(group)


def truncated(at):
    """A truncation by a path changes no time."""
    os.mkdir(at + "/t")
    file = at + "/t/cgroup.procs"
    os.utime(file, (7, 9))
    changed = os.stat(file).st_ctime_ns
    until_after(changed)
    os.truncate(file, 0)
    same("the times after a truncation", (times_of(file), os.stat(file).st_ctime_ns), ((7, 9), changed))
    os.rmdir(at + "/t")


def removed(at):
    """A group and a file that are open when the group is removed."""
    group = at + "/r"
    os.mkdir(group, 0o711)
    os.setxattr(group, "user.x", b"1")
    os.chmod(group + "/cgroup.procs", 0o600)
    d, f = os.open(group, os.O_RDONLY), os.open(group + "/cgroup.procs", os.O_RDWR)
    before = os.fstat(d), os.fstat(f)
    os.chdir(group)
    os.rmdir(group)
    for name, st, was in (
        ("group", os.fstat(d), before[0]),
        ("file", os.fstat(f), before[1]),
        ("working directory", os.stat("."), before[0]),
    ):
        same(
            "stat of the %s" % name,
            (st.st_ino, st.st_mode, st.st_nlink, owner(st)),
            (was.st_ino, was.st_mode, was.st_nlink, owner(was)),
        )
    same("an attribute", os.getxattr(d, "user.x"), b"1")
    os.setxattr(d, "user.y", b"2")
    same("a new one", sorted(os.listxattr(d)), ["user.x", "user.y"])
    os.fchmod(d, 0o700)
    os.utime(d, (5, 6))
    same(
        "a mode and times",
        (stat.S_IMODE(os.fstat(d).st_mode), os.fstat(d).st_atime, os.fstat(d).st_mtime),
        (0o700, 5, 6),
    )
    same("a listing of it is empty", os.listdir(d), [])
    same("its group above", os.stat("..").st_ino, os.stat(at).st_ino)
    for name, call, wanted in (
        ("read", lambda: os.pread(f, 9, 0), "ENODEV"),
        ("write", lambda: os.write(f, b"1"), "ENODEV"),
        ("ftruncate", lambda: os.ftruncate(f, 0), "ok"),
        ("an open of the file again", lambda: os.open("/proc/self/fd/%d" % f, os.O_RDONLY), "ENODEV"),
        ("an open of the group again", lambda: os.close(os.open("/proc/self/fd/%d" % d, os.O_RDONLY)), "ok"),
        ("an open of .", lambda: os.close(os.open(".", os.O_RDONLY)), "ok"),
        ("access of .", lambda: os.access(".", os.W_OK) or 1 / 0, "ok"),
        ("an open in it", lambda: os.open("cgroup.procs", os.O_RDONLY), "ENOENT"),
        ("a stat in it", lambda: os.stat("cgroup.procs"), "ENOENT"),
        ("mkdir in it", lambda: os.mkdir("x"), "ENOENT"),
        ("rmdir of .", lambda: os.rmdir("."), "EINVAL"),
        ("its name", os.getcwd, "ENOENT"),
        ("stat by its path", lambda: os.stat(group), "ENOENT"),
    ):
        same("%s of a removed group" % name, error_of(call), wanted)
    os.mkdir(group)
    same(
        "a group of that name is another",
        (os.listxattr(group), stat.S_IMODE(os.stat(group + "/cgroup.procs").st_mode)),
        ([], 0o644),
    )
    same(
        "the open one is not of it",
        (os.fstat(d).st_ino, error_of(os.pread, f, 9, 0), error_of(os.stat, "cgroup.procs")),
        (before[0].st_ino, "ENODEV", "ENOENT"),
    )
    os.chdir("/")
    for fd in (d, f):
        os.close(fd)
    os.rmdir(group)


def continued(at):
    """A listing in many pieces; its offsets; and a seek to any."""
    group = at + "/c"
    os.mkdir(group)
    names = ["%s-%d" % ("x" * (1 + i), i) for i in range(100)]  # more than a page
    for name in names:
        os.mkdir(group + "/" + name)
    found = entries(group)
    same("all names, once", sorted(n for n in found if "-" in n), sorted(names))
    stream = ctypes.c_void_p(libc.opendir(group.encode()))
    libc.telldir.restype = ctypes.c_long
    order, offsets = [], []
    while True:
        offsets.append(libc.telldir(stream))
        at_entry = libc.readdir(stream)
        if not at_entry:
            break
        order.append(Entry.from_address(at_entry).name)
    for i in (0, 1, 50, 99, len(order) - 1):
        libc.seekdir(stream, ctypes.c_long(offsets[i]))
        same("after a seek to entry %d" % i, Entry.from_address(libc.readdir(stream)).name, order[i])
    libc.seekdir(stream, ctypes.c_long(1 << 40))
    same("after a seek beyond all entries", libc.readdir(stream), None)
    libc.rewinddir(stream)
    same("from the start", Entry.from_address(libc.readdir(stream)).name, order[0])
    os.mkdir(group + "/later")
    libc.rewinddir(stream)
    again = []
    while found := libc.readdir(stream):
        again.append(Entry.from_address(found).name)
    same("the rest, with what was made meanwhile", sorted(again), sorted([*order, b"later"]))
    os.rmdir(group + "/later")
    libc.closedir(stream)
    for name in names:
        os.rmdir(group + "/" + name)
    os.rmdir(group)


def handled(at):
    """A file handle is of the group as long as that exists. Only the superuser of the machine may open one."""
    group = at + "/h"
    os.mkdir(group)
    above = os.open(at, os.O_RDONLY)
    for path in (group, group + "/cgroup.procs"):
        handle, mount_id = ctypes.create_string_buffer(136), ctypes.c_int()
        ctypes.memmove(handle, ctypes.byref(ctypes.c_uint(128)), 4)
        same("a handle", libc.name_to_handle_at(-100, path.encode(), handle, ctypes.byref(mount_id), 0), 0)
        fd = libc.open_by_handle_at(above, handle, os.O_RDONLY)
        if fd < 0 and ctypes.get_errno() == errno.EPERM:
            continue
        same(
            "what it is of",
            os.fstat(fd).st_ino if fd >= 0 else errno.errorcode[ctypes.get_errno()],
            os.stat(path).st_ino,
        )
        os.close(fd)
    os.close(above)
    os.rmdir(group)


def by_handle(above, number, flags=os.O_RDONLY):
    """A descriptor of the directory with this number, by a file handle; the name of the errno."""
    # the length, the type, the halves of the number and its generation, as the kernel writes them
    handle = (ctypes.c_uint32 * 5)(12, 0x81, number >> 32, number & 0xFFFFFFFF, 0)
    fd = libc.open_by_handle_at(above, handle, flags | os.O_DIRECTORY)
    return fd if fd >= 0 else errno.errorcode[ctypes.get_errno()]


def look_up_handles(at):
    """Handles of groups that the kernel has not looked up: an undone rmdir has made them, and their numbers are those of a listing.
    It is left out for those who may not open a handle."""
    os.makedirs(at + "/h/i")
    os.rmdir(at + "/h/i")
    os.rmdir(at + "/h")
    write(at + "/.makhloeum/undo", b"2\n")
    above, path = os.open(at, os.O_RDONLY), at
    opened = [above]
    for name in ("h", "i"):
        path = os.path.join(path, name)
        number = next(entry.inode() for entry in os.scandir(opened[-1]) if entry.name == name)
        fd = by_handle(above, number)
        if fd == "EPERM":
            left_out("a handle may not be opened here")
            break
        step("%s: a group that the kernel does not know is opened" % name, isinstance(fd, int), fd)
        if not isinstance(fd, int):
            break
        opened.append(fd)
        same("its number, and its path", (os.fstat(fd).st_ino, os.readlink("/proc/self/fd/%d" % fd)), (number, path))
        os.mkdir("new", dir_fd=fd)
        same("it is the group", os.path.isdir(path + "/new"), True)
        os.rmdir(path + "/new")
    same("a number that nobody has", by_handle(above, 1 << 40) in ("ESTALE", "EPERM"), True)
    HIDDEN = (1 << 62) + 8  # the directory that only the helper of a run finds
    told = by_handle(above, HIDDEN)  # ESTALE: outside a run nobody has found it
    step("nobody lists what a run hides", told in ("EACCES", "EPERM", "ESTALE"), told)
    fd = by_handle(above, HIDDEN, os.O_PATH)
    if isinstance(fd, int):
        got = error_of(lambda: os.mkdir("new", dir_fd=fd)), os.path.exists(at + "/new")
        same("nor makes a group there", got, ("EPERM", False))
        os.close(fd)
    for fd in opened:
        os.close(fd)


def unknown():
    m = Mount()
    look_up_handles(m.at)
    m.end()


def unknown_in_a_run():
    """Newer kernels let the superuser of the namespace that has mounted a file system open handles of its directories."""
    look_up_handles(AT)


def undone():
    """A group whose mkdir is undone is gone like one that was removed, and one whose rmdir is undone is another group."""
    m = Mount()
    os.mkdir(m.path("u"))
    d = os.open(m.path("u"), os.O_RDONLY)
    number = os.fstat(d).st_ino
    write(m.control("undo"), b"1\n")
    same("a stat of the open group", os.fstat(d).st_ino, number)
    same("a name in it", error_of(lambda: os.open("cgroup.procs", os.O_RDONLY, dir_fd=d)), "ENOENT")
    same("a new group in it", error_of(lambda: os.mkdir("x", dir_fd=d)), "ENOENT")
    same("a listing", os.listdir(d), [])
    os.mkdir(m.path("u"))
    os.rmdir(m.path("u"))
    write(m.control("undo"), b"1\n")
    step("it has another number", os.stat(m.path("u")).st_ino != number)
    same("a listing of the old one", os.listdir(d), [])
    same("it is owned by the mount's user", owner(os.stat(m.path("u"))), (os.geteuid(), os.getegid()))
    same("and has the usual mode", stat.S_IMODE(os.stat(m.path("u")).st_mode), 0o755)
    os.close(d)
    m.end()


def notified():
    """A watcher is told, and no time that a stat shows has changed."""
    m = Mount()
    os.mkdir(m.path("e"))
    before = times_of(m.path("e/cgroup.events"))
    fd = libc.inotify_init()
    libc.inotify_add_watch(fd, m.path("e/cgroup.events").encode(), 2)  # IN_MODIFY
    write(m.path("e/cgroup.procs"), b"1\n")
    same("it is told", os.read(fd, 100)[4:8], b"\2\0\0\0")
    same("the times of the file", times_of(m.path("e/cgroup.events")), before)
    os.utime(m.path("e/cgroup.events"), (7, MARK))
    same("the mark as one of two times", times_of(m.path("e/cgroup.events")), (7, MARK))
    os.close(fd)
    m.end()


def control():
    """The control directory has numbers, types and times too."""
    before = time.time_ns()
    m = Mount()
    after = time.time_ns()
    for path in (m.path(".makhloeum"), m.control("undo")):
        st = os.stat(path)
        times = {st.st_atime_ns, st.st_mtime_ns, st.st_ctime_ns}
        step("one time, at which it was mounted", len(times) == 1 and before <= min(times) <= after, times)
        same("whose it is", owner(st), (os.geteuid(), os.getegid()))
    found = entries(m.path(".makhloeum"))
    same("numbers and types", found, {name: shown(m.path(".makhloeum", name)) for name in found})
    same("of the directory", entries(m.at)[".makhloeum"], shown(m.path(".makhloeum")))
    same("the root's number", (os.stat(m.at).st_ino, entries(m.at)["."][0]), (1, 1))
    m.end()


inside(unknown_in_a_run)
ON_BOTH = (listed, numbered, modes, owned, settings, first, timed, truncated, removed, continued, handled)
if sys.argv[1:] == ["kernel"]:
    with new_group() as group:
        for test in ON_BOTH if group else ():
            test(group)
else:
    m = Mount("--extra")
    for test in ON_BOTH:
        test(m.at)
    m.end()
    unknown()
    run_each({unknown_in_a_run: ["--root", "--control"]})
    undone()
    notified()
    control()
finish()
