"""What there is to see of the mount and of a run: every file with its mode, the control directory's calls, the file system's own
numbers, and the tables of /proc, which are those of the machine but for cgroups."""
import ctypes
import os
import re
import select
import stat
import subprocess
import sys
import tempfile
import time

sys.path.insert(0, os.path.dirname(os.path.dirname(os.path.realpath(__file__))))
from on_kernel import new_group
from support import AT, PATIENCE, PROGRAM, Beside, Mount, error_of, finish, libc, read, same, step, write

ME = os.path.realpath(__file__)
READ, WRITTEN, BOTH = 0o444, 0o200, 0o644
OF_ROOT = {"cgroup.procs": BOTH, "cgroup.stat": READ, "cgroup.max.descendants": BOTH, "cgroup.max.depth": BOTH}
OF_GROUPS = {**OF_ROOT, "cgroup.events": READ, "cgroup.kill": WRITTEN}
OF_PIDS = {"pids.max": BOTH, "pids.current": READ, "pids.peak": READ, "pids.events": READ, "pids.events.local": READ}
EXTRA_OF_ROOT = {"cgroup.controllers": READ, "cgroup.subtree_control": BOTH, "cgroup.threads": READ, "cpu.stat": READ}
EXTRA = {**EXTRA_OF_ROOT, "cgroup.type": BOTH, "cgroup.freeze": BOTH}
KEPT = {
    "memory": {
        **dict.fromkeys(
            ("memory." + n for n in ("min", "low", "high", "max", "swap.high", "swap.max", "oom.group")), BOTH
        ),
        **dict.fromkeys(
            (
                "memory." + n
                for n in (
                    "current",
                    "peak",
                    "swap.current",
                    "swap.peak",
                    "events",
                    "events.local",
                    "swap.events",
                    "stat",
                )
            ),
            READ,
        ),
    },
    "cpu": dict.fromkeys(("cpu." + n for n in ("weight", "weight.nice", "idle", "max", "max.burst")), BOTH),
    "io": {"io.max": BOTH, "io.weight": BOTH, "io.stat": READ},
    "cpuset": {
        **dict.fromkeys(("cpuset.cpus", "cpuset.mems", "cpuset.cpus.partition"), BOTH),
        **dict.fromkeys(("cpuset.cpus.effective", "cpuset.mems.effective"), READ),
    },
}
KEPT_OF_ROOT = {
    "memory": {"memory.stat": READ},
    "cpu": {},
    "io": {"io.stat": READ},
    "cpuset": {"cpuset.cpus.effective": READ, "cpuset.mems.effective": READ},
}
# Of /proc/cgroups, in the kernel's order.
CONTROLLERS = (
    "cpuset cpu cpuacct blkio memory devices freezer net_cls perf_event net_prio hugetlb pids rdma misc".split()
)
CONTROL = {"fork": WRITTEN, "exit": WRITTEN}
HISTORY = {**CONTROL, "undo": WRITTEN, "forget": WRITTEN, "depth": READ, "newest": READ, "trace": READ}


def modes(folder):
    """The mode of each file that a listing has, by a stat; of a directory, that it is one."""
    found = {}
    for name in os.listdir(folder):
        st = os.lstat(os.path.join(folder, name))
        found[name] = stat.S_IMODE(st.st_mode) if stat.S_ISREG(st.st_mode) else "directory"
    return found


def files(options, of_root, of_group, controllers=""):
    m = Mount(*options, control=False)
    if controllers:
        write(m.path("cgroup.subtree_control"), controllers.encode())
    os.mkdir(m.path("g"))
    name = " ".join(options) or "no option"
    same("%s: the root" % name, modes(m.at), {**of_root, "g": "directory"})
    same("%s: a group" % name, modes(m.path("g")), of_group)
    for at in (m.at, m.path("g")):
        for file in sorted(of_root if at == m.at else of_group):
            path = os.path.join(at, file)
            got = error_of(read, path), error_of(lambda: os.close(os.open(path, os.O_WRONLY)))
            mode = (of_root if at == m.at else of_group)[file]
            wanted = "ok" if mode & READ else "EACCES", "ok" if mode & WRITTEN else "EACCES"
            if os.getuid() and got != wanted:
                same("%s: open of %s to read and to write" % (name, os.path.relpath(path, m.at)), got, wanted)
    known = {*OF_GROUPS, *OF_PIDS, *EXTRA, *(f for of in KEPT.values() for f in of)}
    absent = [(error_of(os.stat, m.path(f)), error_of(os.stat, m.path("g", f))) for f in sorted(known)]
    wanted = [("ok" if f in of_root else "ENOENT", "ok" if f in of_group else "ENOENT") for f in sorted(known)]
    same("%s: what there is by name" % name, absent, wanted)
    m.end()


def every_file():
    files((), OF_ROOT, {**OF_GROUPS, **OF_PIDS})
    files(("--extra",), {**OF_ROOT, **EXTRA_OF_ROOT}, {**OF_GROUPS, **OF_PIDS, **EXTRA})
    with_pids = {**OF_GROUPS, **OF_PIDS, **EXTRA}
    for controller, of in KEPT.items():
        of_root = {**OF_ROOT, **EXTRA_OF_ROOT, **KEPT_OF_ROOT[controller]}
        files(("--keep", controller), of_root, {**OF_GROUPS, **EXTRA})
        files(("--keep", controller), of_root, {**OF_GROUPS, **EXTRA, **of}, "+" + controller)
        files(("--keep", controller), of_root, {**with_pids, **of}, "+pids +" + controller)


def control():
    """Calls in the control directory, whose files nobody makes, removes or changes."""
    began = time.time_ns()
    m = Mount()
    at = m.path(".makhloeum")
    same("its files", modes(at), HISTORY)
    me = (os.geteuid(), os.getegid())
    for name in (*HISTORY, "."):
        st = os.stat(os.path.join(at, name))
        same("the owner of " + name, (st.st_uid, st.st_gid), me)
        times = {st.st_atime_ns, st.st_mtime_ns, st.st_ctime_ns}
        step("its times are that of the mount", len(times) == 1 and began <= max(times) <= time.time_ns(), times)
        size = {"depth": len("0\n")}.get(name, 0)
        same("links and size of " + name, (st.st_nlink, st.st_size), (2 if name == "." else 1, size))
    owners, denied = "EACCES" if os.getuid() else "ok", "EACCES" if os.getuid() else "EINVAL"
    for what, wanted, call in (
        ("mkdir of it", "EEXIST", lambda: os.mkdir(at)),
        ("mkdir in it", "EPERM", lambda: os.mkdir(at + "/x")),
        ("mkdir of a file", "EEXIST", lambda: os.mkdir(at + "/undo")),
        ("rmdir of it", "EPERM", lambda: os.rmdir(at)),
        ("rmdir in it", "ENOENT", lambda: os.rmdir(at + "/x")),
        ("rmdir of a file", "ENOTDIR", lambda: os.rmdir(at + "/undo")),
        ("unlink", "EPERM", lambda: os.unlink(at + "/undo")),
        ("rename", "EPERM", lambda: os.rename(at, m.path("x"))),
        ("a new file", "EACCES", lambda: os.open(at + "/x", os.O_CREAT | os.O_WRONLY)),
        ("a name that is not there", "ENOENT", lambda: os.stat(at + "/x")),
        ("a name that begins as a file's", "ENOENT", lambda: os.stat(at + "/undox")),
        ("a file below a file", "ENOTDIR", lambda: os.stat(at + "/undo/x")),
        ("chmod", "EPERM", lambda: os.chmod(at + "/undo", 0o777)),
        ("chmod of it", "EPERM", lambda: os.chmod(at, 0o777)),
        ("chown", "EPERM", lambda: os.chown(at + "/undo", *me)),
        ("utime", "ok", lambda: os.utime(at + "/undo", (1, 2))),
        ("setxattr", "ENOTSUP", lambda: os.setxattr(at + "/undo", "user.x", b"1")),
        ("setxattr of it", "ENOTSUP", lambda: os.setxattr(at, "user.x", b"1")),
        ("getxattr", "ENOTSUP", lambda: os.getxattr(at + "/undo", "user.x")),
        ("listxattr", "ENOTSUP", lambda: os.listxattr(at)),
        ("removexattr", "ENOTSUP", lambda: os.removexattr(at, "user.x")),
        ("truncate of what is written", "ok", lambda: os.truncate(at + "/undo", 0)),
        ("truncate of what is read", owners, lambda: os.truncate(at + "/depth", 0)),
        ("read of what is written", denied, lambda: read(at + "/undo")),
        ("write of what is read", denied, lambda: write(at + "/depth", b"1")),
        ("its hidden files of a run", "ENOENT", lambda: os.stat(m.path(".makhloeum.1.0"))),
        ("its tables of a run", "ENOENT", lambda: os.stat(m.path(".makhloeum.t.1"))),
    ):
        same(what, error_of(call), wanted)
    same("it is as it was", (modes(at), read(at + "/depth")), (HISTORY, b"0\n"))
    of_runs = (".makhloeum.d", ".makhloeum.f", ".makhloeum.t.1", ".makhloeum.1", ".makhloeum.1.0")
    for name in (".makhloeum2", ".makhloeu", ".makhloeum.x", "makhloeum", "..makhloeum", *of_runs):
        same("a group %s" % name, error_of(os.mkdir, m.path(name)), "ok")
        same("its file", read(m.path(name, "pids.current")), b"0\n")
    os.mkdir(m.path("g"))
    same("a group of that name below", error_of(os.mkdir, m.path("g", ".makhloeum")), "ok")
    same("is a group", read(m.path("g", ".makhloeum", "cgroup.procs")), b"")
    m.end()


def without_history():
    """Without --control the directory is not listed, and has the files that send a fork and an exit."""
    m = Mount(control=False)
    at = m.path(".makhloeum")
    step("it is not listed", ".makhloeum" not in os.listdir(m.at))
    same("its files without a history", modes(at), CONTROL)
    for name in HISTORY:
        same("its %s by name" % name, error_of(os.stat, at + "/" + name), "ok" if name in CONTROL else "ENOENT")
    m.end()


def names():
    """Which bytes and words a name may have: what is made is listed, found and removed by the same bytes."""
    m = Mount()
    at = m.at.encode() + b"/"
    wrong = []
    for byte in range(1, 256):
        for name in (b"x%cy" % byte, b"%cx" % byte, b"x%c" % byte):
            if byte == ord("/"):
                continue
            got = error_of(os.mkdir, at + name)
            if got != ("ok" if 0x21 <= byte <= 0x7E else "EINVAL"):
                wrong.append((name, got))
            if got != "ok":
                continue
            seen = (
                name in os.listdir(at),
                read(at + name + b"/pids.current"),
                error_of(write, at + name + b"/pids.max", b"7"),
            )
            if seen != (True, b"0\n", "ok") or error_of(os.rmdir, at + name) != "ok" or name in os.listdir(at):
                wrong.append((name, seen))
    same("bytes of names", wrong[:5], [])
    for name, wanted in (
        ("cgroup.x", "EINVAL"),
        ("cgroup.", "EINVAL"),
        ("pids.", "EINVAL"),
        ("cgroup.procs", "EEXIST"),
        ("pids.max", "EINVAL"),
        ("cgroup", "ok"),
        ("cgroupx", "ok"),
        ("pidsx", "ok"),
        ("Pids.x", "ok"),
        ("memory.max", "ok"),
        ("cpu.x", "ok"),
        ("...", "ok"),
        (".x", "ok"),
        ("x" * 254, "ok"),
        ("y" * 255, "ok"),
        ("z" * 256, "ENAMETOOLONG"),
    ):
        same("mkdir %.20s" % name, error_of(os.mkdir, m.path(name)), wanted)
        if wanted == "ok":
            same("it is listed", name in os.listdir(m.at), True)
    os.mkdir(m.path("g"))
    same("a file of a group, in a group", error_of(os.mkdir, m.path("g", "pids.max")), "EEXIST")
    os.chdir(m.at)
    for depth in range(16):  # names of 255 bytes, up to the bound of a path
        wanted = "ok" if (depth + 1) * 256 <= 4095 else "ENAMETOOLONG"
        same("a path of %d bytes" % ((depth + 1) * 256), error_of(os.mkdir, "p" * 255), wanted)
        if wanted == "ok":
            os.chdir("p" * 255)
    rest = 4095 - 15 * 256 - 1
    same("of 4,096", error_of(os.mkdir, "q" * (rest + 1)), "ENAMETOOLONG")
    same("of 4,095", error_of(os.mkdir, "q" * rest), "ok")
    os.chdir("q" * rest)
    same("which works", (error_of(write, "pids.max", b"5"), read("pids.max")), ("ok", b"5\n"))
    watch = libc.inotify_init()
    libc.inotify_add_watch(watch, b"cgroup.events", 2)  # IN_MODIFY
    write(m.control("fork"), b"1 2")
    write("cgroup.procs", b"2")
    same("and a watch there is told", (Beside(os.read, watch, 100).result() or b"")[4:8], b"\2\0\0\0")
    above = os.open("..", os.O_RDONLY)
    write(m.control("undo"), b"1")
    same("also of an undo", (Beside(os.read, watch, 100).result() or b"")[4:8], b"\2\0\0\0")
    os.close(watch)
    os.chdir("/")
    write(m.control("undo"), b"3")
    same("its mkdir is undone", error_of(lambda: os.stat("q" * rest, dir_fd=above)), "ENOENT")
    os.close(above)
    m.end()


def most():
    """As many groups as there may be, with the longest names: the root and 1,024 others."""
    m = Mount("--extra")
    names = ["%04d%s" % (i, "n" * 251) for i in range(1024)]
    wrong = [name[:4] for name in names if error_of(os.mkdir, m.path(name)) != "ok"]
    same("groups that could not be made", wrong, [])
    same("one more", error_of(os.mkdir, m.path("more")), "ENOSPC")
    same("nor below another", error_of(os.mkdir, m.path(names[7], "more")), "ENOSPC")
    same("all are listed", sorted(n for n in os.listdir(m.at) if len(n) == 255) == names, True)
    same("and counted", read(m.path("cgroup.stat")), b"nr_descendants 1024\nnr_dying_descendants 0\n")
    same("each is there", [n[:4] for n in names if read(m.path(n, "cgroup.freeze")) != b"0\n"], [])
    os.rmdir(m.path(names[500]))
    same("one for another", error_of(os.mkdir, m.path("more")), "ok")
    m.end()


# ---------------------------------------------------------------- the file system


FIELDS = "f_bsize f_frsize f_blocks f_bfree f_bavail f_files f_ffree f_favail f_namemax".split()


def numbers(path):
    st = os.statvfs(path)
    return {name: getattr(st, name) for name in FIELDS}


def as_in_a_kernel(where, path):
    page = os.sysconf("SC_PAGE_SIZE")
    wanted = {**dict.fromkeys(FIELDS, 0), "f_bsize": page, "f_frsize": page, "f_namemax": 255}
    same("%s: statfs" % where, numbers(path), wanted)
    same("%s: of a file" % where, numbers(path + "/cgroup.procs"), wanted)
    for at, links in ((path, 2), (path + "/cgroup.procs", 1)):
        st = os.stat(at)
        same("%s: links and device of %s" % (where, os.path.basename(at)), (st.st_nlink, st.st_rdev), (links, 0))


def no_empty_line(where, path):
    """A list of controllers has a line feed only if there is one."""
    for name in ("cgroup.controllers", "cgroup.subtree_control"):
        text = read(os.path.join(path, name))
        step("%s: %s" % (where, name), text == b"" or re.fullmatch(rb"\w+( \w+)*\n", text), text)


def of_system():
    m = Mount("--keep", "cpu")
    os.mkdir(m.path("g"))
    no_empty_line("mount", m.path("g"))
    m.end()
    m = Mount()
    os.mkdir(m.path("g"))
    as_in_a_kernel("mount", m.path("g"))
    line = next(x.split() for x in open("/proc/self/mounts") if x.split()[1] == m.at)
    same("its source and type", (line[0], line[2]), ("makhloeum", "fuse.cgroup2"))
    has = set(line[3].split(","))
    step("its options", {"rw", "nosuid", "nodev", "noexec"} <= has, has)
    same("by statvfs", os.statvfs(m.at).f_flag & 14, os.ST_NOSUID | os.ST_NODEV | os.ST_NOEXEC)
    st = os.stat(m.at)
    same(
        "its root's owner and mode",
        (st.st_uid, st.st_gid, st.st_mode),
        (os.geteuid(), os.getegid(), stat.S_IFDIR | 0o755),
    )
    m.end()


# ---------------------------------------------------------------- a run


def inside(user, group, space):
    """`user` and `group` are the numbers that the caller expects here, and `space` is its own cgroup namespace."""
    os.umask(0o022)
    step("a cgroup namespace of its own", os.readlink("/proc/self/ns/cgroup") not in ("", space), space)
    same("by statvfs", os.statvfs(AT).f_flag & 14, os.ST_NOSUID | os.ST_NODEV | os.ST_NOEXEC)
    me = int(user), int(group)
    same("who this is", (os.getuid(), os.geteuid(), os.getgid(), os.getegid()), (me[0],) * 2 + (me[1],) * 2)
    os.mkdir(AT + "/g")
    for path in (AT, AT + "/cgroup.procs", AT + "/g", AT + "/g/pids.max"):
        st = os.stat(path)
        kind = stat.S_IFREG | 0o644 if "." in path else stat.S_IFDIR | 0o755
        same("owner and mode of " + path, (st.st_uid, st.st_gid, st.st_mode), (*me, kind))
    as_in_a_kernel("run", AT + "/g")
    no_empty_line("run", AT + "/g")
    same("every file of the root", modes(AT), {**OF_ROOT, **EXTRA_OF_ROOT, "g": "directory"})
    same("of a group", modes(AT + "/g"), {**OF_GROUPS, **OF_PIDS, **EXTRA})
    same("no control directory", error_of(os.stat, AT + "/.makhloeum"), "ENOENT")
    same("a group of that name", error_of(os.mkdir, AT + "/.makhloeum"), "ok")
    os.rmdir(AT + "/.makhloeum")
    lines = [x for x in open("/proc/self/mounts").read().splitlines() if AT in x]
    same("in mounts", lines, ["cgroup2 %s cgroup2 rw,nosuid,nodev,noexec,relatime 0 0" % AT])
    lines = [x for x in open("/proc/self/mountstats").read().splitlines() if AT in x]
    same("in mountstats", lines, ["device cgroup2 mounted on %s with fstype cgroup2" % AT])
    lines = [x for x in open("/proc/self/mountinfo").read().splitlines() if AT in x]
    form = r"\d+ \d+ 0:\d+ / %s rw,nosuid,nodev,noexec,relatime( \S+:\d+)* - cgroup2 cgroup2 rw" % AT
    step("in mountinfo", len(lines) == 1 and re.fullmatch(form, lines[0]), lines)
    same(
        "/proc/cgroups",
        open("/proc/cgroups").read(),
        "#subsys_name\thierarchy\tnum_cgroups\tenabled\n"
        + "".join("%s\t0\t1\t%d\n" % (name, name == "pids") for name in CONTROLLERS),
    )
    hidden()
    me = os.getpid()
    supervisor = int(re.search(r"TracerPid:\t(\d+)", open("/proc/self/status").read())[1])
    os.mkdir(AT + "/h")
    for what, wanted, value in (
        ("the first process, which is nobody's", "EPERM", b"1"),
        ("the supervisor", "ESRCH", b"%d" % supervisor),
        ("a number that nobody has", "ESRCH", b"4194303"),
        ("itself, in hexadecimal", "ok", b" 0x%x\n" % me),
        ("itself by 0", "ok", b"+0"),
    ):
        same("a move of " + what, error_of(write, AT + "/h/cgroup.procs", value), wanted)
    same("who is there", read(AT + "/h/cgroup.procs"), b"%d\n" % me)
    same("of the supervisor", open("/proc/%d/cgroup" % supervisor).read(), "0::/\n")
    with tempfile.TemporaryDirectory() as home:
        os.mkdir("%s/%d" % (home, me))
        for name in ("cgroup", "cpuset", "mounts"):
            with open("%s/%d/%s" % (home, me, name), "w") as f:
                f.write("mine\n")
            same("a file of another system, PID/" + name, read("%s/%d/%s" % (home, me, name)), b"mine\n")
        script = 'mount -t tmpfs x "$1" && mkdir "$1/$2" && cd "$1/$2" && for f in cgroup cpuset mounts; do echo mine >$f; cat $f; done'
        words = ["unshare", "-Urm", "sh", "-c", script, "sh", home, str(me)]
        same("and of a mount of its own", subprocess.run(words, stdout=-1).stdout, b"mine\n" * 3)
    for name, text in (("cgroup", "0::/h\n"), ("cpuset", "/\n")):
        fd = os.open("/proc/self/" + name, os.O_RDONLY)
        polled = select.poll()
        polled.register(fd, 0x1FF)
        always = select.POLLIN | select.POLLOUT | select.POLLRDNORM | select.POLLWRNORM
        same(name + ": all that a poll reports", polled.poll(0), [(fd, always)])
        same(
            name + " in pieces",
            (os.read(fd, 3), os.read(fd, 99), os.read(fd, 9)),
            (text.encode()[:3], text.encode()[3:], b""),
        )
        same("a write to it", error_of(os.write, fd, b"x"), "EBADF")
        os.close(fd)


def hidden():
    """The files of a run that no listing has: by their exact names, in the root alone."""
    me = os.getpid()
    wrong = []
    for name, text in (
        ("1.0", "0::/\n"),
        ("%d.0" % me, "0::/\n"),
        ("%d" % me, "0::/\n"),
        ("0.0", "0::/\n"),
        ("%d.4294967295" % me, "0::/\n"),
        ("4194303.4294967295", "ESRCH"),
        ("4194304.0", None),
        ("99999999999999999999.0", None),
        ("1.4294967296", None),
        ("1.", None),
        ("1.x", None),
        ("1.0x", None),
        ("1.0.0", None),
        ("1.-1", None),
        ("1x", None),
        ("-1.0", None),
        (" 1.0", None),
        ("x", None),
        ("", None),
        ("t.1", None),
        ("t.", None),
        ("t.x", None),
    ):
        path = AT + "/.makhloeum." + name
        fault = error_of(read, path)
        got = None if fault == "ENOENT" else read(path).decode() if fault == "ok" else fault
        if got != text or os.path.exists(AT + "/g/.makhloeum." + name):
            wrong.append((name, got, text))
    same("which there are by name", wrong, [])
    for name in ("1.0", "%d" % me, "4194303.4294967295"):
        path = AT + "/.makhloeum." + name
        st = os.stat(path)
        same("the mode of " + name, (stat.S_ISREG(st.st_mode), stat.S_IMODE(st.st_mode)), (True, READ))
        made = (error_of(os.mkdir, path), error_of(os.rmdir, path), error_of(os.unlink, path))
        same("nobody makes or removes it", made, ("EEXIST", "ENOTDIR", "EPERM"))
    hidden = AT + "/.makhloeum.d"
    found = (error_of(os.stat, hidden), error_of(os.mkdir, hidden), error_of(os.listdir, hidden))
    same("the directory of the helper is not found", found, ("ENOENT", "EPERM", "ENOENT"))
    same("it has it all the same", read("/proc/self/cgroup"), b"0::/\n")
    made = [error_of(os.mkdir, "%s/.makhloeum.t.%d" % (AT, n)) for n in (0, 1, 10**18 - 1)]
    same("no group has the name of a table", made, ["EPERM"] * 3)
    pid = os.fork()
    if pid == 0:
        write(AT + "/g/cgroup.procs", b"0")
        os._exit(libc.unshare(0x02000001) == 0)  # CLONE_NEWCGROUP, and a flag that there is not
    same("a namespace that is not made", os.waitpid(pid, 0)[1], 0)
    same("is not that without a number", read(AT + "/.makhloeum.0.0"), b"0::/\n")
    names = (".makhloeum.x", ".makhloeum.1.x", ".makhloeum.4194304.0", ".makhloeum.", ".makhloeumx", ".makhloeum.t.1x")
    for name in (*names, ".makhloeum.t." + 20 * "9"):
        same(
            "a group %s" % name,
            (error_of(os.mkdir, AT + "/" + name), read(AT + "/%s/pids.peak" % name)),
            ("ok", b"0\n"),
        )
        os.rmdir(AT + "/" + name)


def superuser():
    """Inside, as the superuser, whom no mode keeps from an open: what a file of the control directory can't do is refused afterwards."""
    for name, mode in HISTORY.items():
        path = AT + "/.makhloeum/" + name
        got = error_of(read, path), error_of(write, path, b"1 1 1")
        same("a read of %s, and a write of three numbers" % name, got, ("ok" if mode & READ else "EINVAL", "EINVAL"))
    for name in ("depth", "newest", "trace"):
        for value in (b"\n", b"1", b"1 2"):
            same("a write of %r to %s" % (value, name), error_of(write, AT + "/.makhloeum/" + name, value), "EINVAL")
    write(AT + "/.makhloeum/fork", b"1 4194303")
    same("a number of no process is listed", b"4194303" in read(AT + "/cgroup.procs").split(), True)
    write(AT + "/.makhloeum/exit", b"4194303")


def table(text, what):
    """The lines of a table of mounts, but for cgroups and what differs from one mount namespace to another."""
    lines = []
    for line in text.splitlines():
        place = line.split()[4 if what != "mounts" else 1]
        if place.startswith(AT):
            continue
        if what == "mountinfo":
            before, after = line.split(" - ")
            line = " ".join(before.split()[3:6]) + " - " + after
        lines.append(line)
    return lines


def tables():
    """What the tables show of other file systems is what the kernel shows in another namespace of mounts. A name with blanks too."""
    home = os.path.join(os.environ.get("TMPDIR", "/tmp"), "a b\tc\\d\n%d" % os.getpid())
    os.mkdir(home)
    script = 'mount -t tmpfs -o size=8k "x y" "$1" && mount --bind "$1" "$1" && cat /proc/self/$2'
    for what in ("mounts", "mountinfo", "mountstats"):
        words = ["sh", "-c", script, "sh", home, what]
        before, run, after = (
            subprocess.run([*how, *words], stdout=subprocess.PIPE, timeout=4 * PATIENCE)
            for how in (["unshare", "-Urm"], [PROGRAM, "run", "--root", "--"], ["unshare", "-Urm"])
        )
        same("%s: all end" % what, (before.returncode, run.returncode, after.returncode), (0, 0, 0))
        # others mount and unmount meanwhile on the machine, whose mounts all three have
        ours = lambda lines: [x for x in lines if "/at" not in x and "/tmp" not in x.replace(home.split("/a b")[0], "")]
        one, other, again = (ours(table(ran.stdout.decode(), what)) for ran in (before, run, after))
        same("%s: as the kernel shows it" % what, [x for x in other if x not in one and x not in again], [])
        same("%s: all of it" % what, [x for x in one if x in again and x not in other], [])
        step(
            "%s: the new one twice" % what,
            sum("a\\040b\\011c\\134d\\012" in x for x in run.stdout.decode().splitlines()) == 2,
        )
    os.rmdir(home)


def under_run():
    for options, numbers in (((), (os.geteuid(), os.getegid())), (("--root",), (0, 0))):
        words = [sys.executable, ME, "inside", *map(str, numbers), os.readlink("/proc/self/ns/cgroup")]
        ran = subprocess.run([PROGRAM, "run", *options, *words], timeout=2 * PATIENCE)
        same("run %s: its status" % " ".join(options), ran.returncode, 0)
    words = [PROGRAM, "run", "--root", "--control", sys.executable, ME, "superuser"]
    same("run --root --control: its status", subprocess.run(words, timeout=2 * PATIENCE).returncode, 0)


def longest():
    """A group with the longest path, and all that goes by a path."""
    name = "n" * 126  # 32 names and as many slashes are 4,064 bytes
    path = ""
    for _ in range(32):
        path += "/" + name
        os.chdir(AT if path.count("/") == 1 else ".")
        os.mkdir(name)
        os.chdir(name)
    same("one deeper", error_of(os.mkdir, "x"), "EAGAIN")
    write("cgroup.procs", b"0")
    text = ("0::%s\n" % path).encode()
    same("its text", b"".join(iter(lambda fd=os.open("/proc/self/cgroup", os.O_RDONLY): os.read(fd, 9999), b"")), text)
    same("it has this process", read("cgroup.procs"), b"%d\n" % os.getpid())
    here = os.open(".", os.O_RDONLY)
    args = (ctypes.c_uint64 * 11)(0x200000000, 0, 0, 0, 17, 0, 0, 0, 0, 0, here)
    pid = libc.syscall(435, args, 88)
    if pid == 0:
        libc.pause()
    same("a child that is born there", sorted(map(int, read("cgroup.procs").split())), sorted((os.getpid(), pid)))
    watch = libc.inotify_init()
    libc.inotify_add_watch(watch, b"cgroup.events", 2)
    os.chdir("..")
    write("cgroup.procs", b"0")
    events = os.open(name + "/cgroup.events", os.O_RDONLY)
    os.chdir(name)
    write("cgroup.kill", b"1")
    same("a kill there", os.waitpid(pid, 0)[1], 9)
    same("a watch is told", os.read(watch, 100)[4:8], b"\2\0\0\0")
    same("it is empty", os.read(events, 99), b"populated 0\nfrozen 0\n")
    os.chdir("..")
    same("it can go", error_of(os.rmdir, name), "ok")
    last = "m" * (4095 - 31 * 127 - 1)  # the longest path has 4,095 bytes
    os.mkdir(last)
    watch = libc.inotify_init()
    libc.inotify_add_watch(watch, last.encode() + b"/pids.events.local", 2)
    write(last + "/pids.max", b"0")
    write(last + "/cgroup.procs", b"0")
    same("a fork that its limit refuses", error_of(os.fork), "EAGAIN")
    write(last + "/pids.max", b"max")
    same("is told to a watch", (Beside(os.read, watch, 100).result() or b"")[4:8], b"\2\0\0\0")
    text = ("0::%s/%s\n" % (path[: 31 * 127], last)).encode()
    same("the text of the longest path", read("/proc/self/cgroup"), text)
    args[10] = os.open(last, os.O_RDONLY)
    pid = libc.syscall(435, args, 88)
    if pid == 0:
        libc.pause()
    born = sorted(map(int, read(last + "/cgroup.procs").split()))
    same("a child that is born there", born, sorted((os.getpid(), pid)))
    ran = subprocess.run(["unshare", "-C", "cat", "/proc/self/cgroup"], stdout=subprocess.PIPE, timeout=PATIENCE)
    same("as the root of a namespace", (ran.returncode, ran.stdout), (0, b"0::/\n"))
    write("cgroup.procs", b"0")
    write(last + "/cgroup.kill", b"1")
    same("a kill there", os.waitpid(pid, 0)[1], 9)
    same("it can go", error_of(os.rmdir, last), "ok")
    ran = subprocess.run(["unshare", "-C", "cat", "/proc/self/cgroup"], stdout=subprocess.PIPE, timeout=PATIENCE)
    same("the root of a cgroup namespace", (ran.returncode, ran.stdout), (0, b"0::/\n"))


MANY = """import ctypes, os, sys, tempfile
at = tempfile.mkdtemp(prefix=200 * "a").encode()
wrong = [ctypes.CDLL(None).mount(at, at, None, 4096, None) for _ in range(300)]  # MS_BIND
print(open("/proc/self/mountinfo", "rb").read().count(b"/" + os.path.basename(at) + b" "), any(wrong), flush=True)
while ctypes.CDLL(None).umount(at) == 0:
    pass
os.rmdir(at)
"""


def long_table():
    """A table of mounts that is longer than what is read at once is there as a whole, and its memory too."""
    words = [PROGRAM, "run", "--root", "--", "unshare", "-m", sys.executable, "-c", MANY]
    ran = subprocess.run(words, stdout=subprocess.PIPE, timeout=4 * PATIENCE)
    same("many mounts: each twice on its line", (ran.returncode, ran.stdout), (0, b"600 False\n"))


ROOT_OF_ITS_OWN = """n=$(mktemp -d)
mount -t tmpfs root $n
for d in bin lib lib64 usr; do [ ! -d /$d ] || { mkdir $n/$d; mount --bind /$d $n/$d; }; done
mkdir -p $n/proc $n/old $n%(at)s
mount --rbind /proc $n/proc
mount -t tmpfs mine $n%(at)s
mount -t cgroup2 x $n%(at)s
cd $n
pivot_root . old
umount -l /old
""" % {
    "at": AT
}


def over():
    """The tables list what the program mounts over the hierarchy, and the tmpfs below it only if that is a container's own."""
    mounts = ("tmpfs mine", "cgroup2 x", "tmpfs again")
    script = "".join("mount -t %s %s\n" % (each, AT) for each in mounts)
    wanted = ["cgroup2 cgroup2", "mine tmpfs", "cgroup2 cgroup2", "again tmpfs"]
    lays = "mount -t tmpfs below %s && mkdir %s/a && mount -t tmpfs beside %s/a" % (AT, AT, AT)
    below = ["unshare", "-Urm", "sh", "-c", lays + ' && exec "$@"', "sh"]
    if not re.search("^[^ ]+ [^ ]+ cgroup2? ", open("/proc/mounts").read(), re.M):
        wanted.insert(0, "below tmpfs")  # a machine without a hierarchy of its own
    for what, form in (
        ("mounts", r"(\S+) %s (\S+) .*"),
        ("mountinfo", r".* %s \S+ - (\S+) (\S+) .*"),
        ("mountstats", r"device (\S+) mounted on %s with fstype (\S+)"),
    ):
        for how, makes, listed in (
            ("mounts over the hierarchy", script, wanted),
            ("a container's", ROOT_OF_ITS_OWN, ["mine tmpfs", "cgroup2 cgroup2"]),
        ):
            whole = ["sh", "-ec", makes + "cat /proc/self/$1", "sh", what]
            words = [*below, PROGRAM, "run", "--root", "--", "unshare", "-m", *whole]
            ran = subprocess.run(words, stdout=subprocess.PIPE, timeout=4 * PATIENCE)
            found = [" ".join(sorted(each)) for each in re.findall("^" + form % AT + "$", ran.stdout.decode(), re.M)]
            same("%s: %s" % (what, how), (ran.returncode, found), (0, listed))
            same("a tmpfs in that below", ran.stdout.count(b"beside"), int(makes is script))


def sources():
    """A cgroup2 of the machine is in no table, whatever the name of its source is."""
    script = 'mount -t cgroup2 "$1" "$2" && shift 2 && exec "$@"'
    shows = [PROGRAM, "run", "--root", "--", "cat", *("/proc/self/mount" + name for name in ("s", "info", "stats"))]
    for source in ("s" * 64, ""):
        with tempfile.TemporaryDirectory() as at:
            words = ["unshare", "-UrmC", "sh", "-c", script, "sh", source, at, *shows]
            ran = subprocess.run(words, stdout=subprocess.PIPE, timeout=2 * PATIENCE)
        same("a source of %d bytes" % len(source), (ran.returncode, at.encode() in ran.stdout), (0, False))


def other():
    """A user whose group has another number."""
    words = ["unshare", "-Um", "--map-user=3", "--map-group=4", "--keep-caps", sys.executable, ME, "other"]
    same("as user 3 of group 4: the status", subprocess.run(words, timeout=6 * PATIENCE).returncode, 0)


def made():
    """Who owns what is made."""
    m = Mount("--extra")
    os.mkdir(m.path("g"))
    write(m.control("undo"), b"1")
    os.mkdir(m.path("g"))
    os.rmdir(m.path("g"))
    write(m.control("undo"), b"1")
    for name in ("g", "g/pids.max", "cgroup.procs"):
        st = os.stat(m.path(name))
        same("the owner of " + name, (st.st_uid, st.st_gid), (os.geteuid(), os.getegid()))
    m.end()


if sys.argv[1:2] == ["inside"]:
    inside(*sys.argv[2:])
    finish()
if sys.argv[1:] == ["superuser"]:
    superuser()
    finish()
if sys.argv[1:] == ["other"]:
    same("who this is", (os.geteuid(), os.getegid()), (3, 4))
    for test in (control, of_system, made, under_run):
        test()
    finish()
if sys.argv[1:] == ["longest"]:
    longest()
    finish()
if sys.argv[1:] == ["kernel"]:
    with new_group() as group:
        if group:
            as_in_a_kernel("the kernel", group)
            no_empty_line("the kernel", group)
    finish()
for test in (
    every_file,
    control,
    without_history,
    names,
    most,
    of_system,
    made,
    under_run,
    tables,
    long_table,
    over,
    sources,
    other,
):
    test()
ran = subprocess.run([PROGRAM, "run", "--root", sys.executable, ME, "longest"], timeout=2 * PATIENCE)
same("the longest path: its status", ran.returncode, 0)
finish()
