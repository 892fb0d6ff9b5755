"""`makhloeum run --users`: several users in a run. Started by a superuser: of the machine, or of a namespace that
`unshare --map-root-user --map-auto` makes. This file is also the program."""
import contextlib
import ctypes
import errno
import glob
import os
import shutil
import subprocess
import sys

sys.path.insert(0, os.path.dirname(os.path.dirname(os.path.realpath(__file__))))
from support import PATIENCE, PROGRAM, error_of, finish, libc, own_of, read, same, server_and_helper, step, until, write

ME = os.path.realpath(__file__)
OTHER, GROUP = 1, 2
AT = "/sys/fs/cgroup"


def numbers(which):
    return [tuple(map(int, line.split())) for line in read("/proc/self/" + which).splitlines()]


def said(*command, **how):
    ran = subprocess.run(command, stdout=subprocess.PIPE, stderr=subprocess.PIPE, timeout=PATIENCE, **how)
    return ran.returncode, ran.stdout.decode(), ran.stderr.decode()


def inside(outside):
    """`outside` has what the caller had of both maps."""
    for which, had in zip(("uid_map", "gid_map"), outside.split(";")):
        has = numbers(which)
        same("each number of %s is itself" % which, [n for n, outer, _ in has if n != outer], [])
        first, count = has[0][0], sum(c for _, _, c in has)
        same("as many as outside", (first, count), tuple(map(int, had.split(","))))
        step("it does not look like the machine's first namespace", len(has) > 1, has)
    same("setgroups", read("/proc/self/setgroups"), b"allow\n")
    at = os.path.join(os.environ["TMPDIR"], "users%d" % os.getpid())
    os.mkdir(at)
    os.chmod(at, 0o755)
    os.chown(at, OTHER, GROUP)
    same("a file of another user", (os.stat(at).st_uid, os.stat(at).st_gid), (OTHER, GROUP))
    as_other = ["setpriv", "--reuid", str(OTHER), "--regid", str(GROUP), "--clear-groups"]
    same("a process of another user", said(*as_other, "id", "-u"), (0, "%d\n" % OTHER, ""))
    tool = os.path.join(at, "id")
    shutil.copy(shutil.which("id"), tool)
    same("who reads a program of the superuser", said(*as_other, tool, "-u"), (0, "%d\n" % OTHER, ""))
    os.chmod(tool, 0o4755)
    same("a setuid program is the superuser", said(*as_other, tool, "-u"), (0, "0\n", ""))
    shutil.rmtree(at)
    same("another user is in the hierarchy", said(*as_other, "cat", "/proc/self/cgroup"), (0, "0::/\n", ""))
    same(
        "who owns the group that it makes",
        said(*as_other, "sh", "-c", "cd /sys/fs/cgroup && mkdir o && stat -c %u:%g o o/pids.max"),
        (0, "%d:%d\n" % (OTHER, GROUP) * 2, ""),
    )
    file, pid = os.open(AT + "/cgroup.stat", os.O_WRONLY), os.fork()
    if pid == 0:
        os.setgid(GROUP)
        os.setuid(OTHER)
        got = error_of(os.ftruncate, file, 0), error_of(os.truncate, AT + "/cgroup.stat", 0)
        os._exit(0 if got == ("ok", "EACCES") else 1)
    same("another user truncates by an open file, and not by its path", os.waitpid(pid, 0)[1], 0)
    os.close(file)
    place = os.path.join(os.environ["TMPDIR"], "at%d" % os.getpid())
    os.mkdir(place)
    script = "mount -t tmpfs x %s && stat -c %%u:%%g %s" % (place, place)
    same(
        "who owns what another user mounts in namespaces of its own",
        said(*as_other, "unshare", "-UrCm", "sh", "-c", script),
        (0, "0:0\n", ""),
    )
    os.rmdir(place)
    same("the hierarchy cannot be unmounted", (libc.umount2(AT.encode(), 2), ctypes.get_errno()), (-1, errno.EINVAL))
    supervisor = os.getppid()
    for name in ("mem", "ns/user", "fd/0"):
        same("the supervisor's %s" % name, error_of(os.open, "/proc/%d/%s" % (supervisor, name), os.O_RDONLY), "EACCES")
    finish()


def alone():
    """The superuser of the namespace in which makhloeum is too."""
    makhloeum = [os.getppid(), *own_of(os.getppid())]
    same("makhloeum's processes", len(makhloeum), 4)
    for name in ("mem", "ns/user", "fd/0"):
        got = [error_of(os.open, "/proc/%d/%s" % (pid, name), os.O_RDONLY) for pid in makhloeum]
        same("their %s" % name, got, ["EACCES"] * 4)
    finish()


def mapped(count):
    """The status of a run with all users of a namespace that has the superuser and as many others."""
    text = b"".join(b"%d %d 1\n" % (number, n) for n, number in enumerate((0, *range(4000000000, 4000000000 + count))))
    told, go = os.pipe(), os.pipe()
    pid = os.fork()
    if pid == 0:
        libc.unshare(0x10000000)  # CLONE_NEWUSER
        os.write(told[1], b"x")
        os.read(go[0], 1)
        os.dup2(os.open(os.devnull, os.O_WRONLY), 2)
        os.execv(PROGRAM, [PROGRAM, "run", "--users", "true"])
    os.read(told[0], 1)
    for which in ("uid_map", "gid_map"):
        write("/proc/%d/%s" % (pid, which), text)
    os.write(go[1], b"x")
    for fd in (*told, *go):
        os.close(fd)
    return os.waitstatus_to_exitcode(os.waitpid(pid, 0)[1])


def kept(*options):
    """What the processes of a run have open: none that only its beginning used, the helper and the companion no descriptor of the caller,
    and no two of them the same socket, but for the one by which the supervisor's helper passes tables."""
    passed = sum((os.pipe() for _ in range(9)), ())
    passed += tuple(os.dup2(passed[0], fd) for fd in range(31, 91, 2))  # so that its own have others between them
    trace, answers = (os.path.join(os.environ["TMPDIR"], "%s%d" % (name, os.getpid())) for name in ("trace", "answers"))
    words = [PROGRAM, "run", "--keep", "io", "--trace", trace, "--answers", answers, *options]
    words += ["sh", "-c", "echo; exec cat"]
    p = subprocess.Popen(words, stdin=subprocess.PIPE, stdout=subprocess.PIPE, pass_fds=passed)
    same("it runs", p.stdout.readline(), b"\n")
    server, helper = server_and_helper(p.pid)
    (companion,) = set(own_of(p.pid)) - {server, helper}
    of_caller = {os.readlink("/proc/self/fd/%d" % fd) for fd in passed}

    def links(pid):
        numbers = (int(os.path.basename(name)) for name in glob.glob("/proc/%d/fd/*" % pid))
        found = []
        for fd in sorted(fd for fd in numbers if fd > 2):
            with contextlib.suppress(FileNotFoundError):  # it was closed meanwhile
                found.append(os.readlink("/proc/%d/fd/%d" % (pid, fd)))
        return found

    def shared():
        sockets = [
            {link for link in links(pid) if link.startswith("socket:")} for pid in (p.pid, server, helper, companion)
        ]
        return [len(sockets[a] & sockets[b]) for a in range(4) for b in range(a)]

    def kinds(pid):
        return sorted("socket" if link.startswith("socket:") else link for link in links(pid))

    freezer, signals, listener = ("anon_inode:" + name for name in ("[eventfd]", "[signalfd]", "seccomp notify"))
    for name, pid, wanted in (
        # sockets to the first process, to the server, to the helper, and that of the tables
        ("supervisor", p.pid, [AT, freezer, signals, listener, *["socket"] * 4]),
        # sockets to the supervisor and to the companion, and that of the tables; and the set in which it waits for questions
        ("server", server, [trace, answers, "/dev/fuse", freezer, "anon_inode:[eventpoll]", *["socket"] * 3]),
        # its root, those of the mount, and a listener
        ("helper", helper, ["/", AT, AT + "/.makhloeum.d", listener, "socket", "socket"]),
        # a copy of the mount, which begins at its root
        ("companion", companion, ["/", "socket"]),
    ):
        others = of_caller if name in ("supervisor", "server") else ()
        has = lambda pid=pid, others=others: [link for link in kinds(pid) if link not in others]
        step("what the %s has" % name, until(lambda has=has, wanted=wanted: has() == sorted(wanted)), has())
    same("sockets that two of the four have", shared(), [0, 1, 0, 0, 0, 0])
    in_proc = lambda: [os.path.exists("/proc/%d/cwd/filesystems" % pid) for pid in (p.pid, server, helper, companion)]
    step("each works in /proc, and keeps no folder of the caller in use", until(lambda: all(in_proc())), in_proc())
    p.communicate()
    for fd in passed:
        os.close(fd)


if sys.argv[1:] == ["alone"]:
    alone()
if sys.argv[1:2] == ["inside"]:
    inside(sys.argv[2])
if sys.argv[1:2] == ["refused"]:
    same(
        "for another than the superuser",
        said(PROGRAM, "run", "--users", "true"),
        (
            2,
            "",
            "makhloeum: --users needs root on this machine or in a user namespace: "
            "unshare --map-root-user --map-auto makes one\n",
        ),
    )
    same("with mount", said(PROGRAM, "mount", os.environ["TMPDIR"], "--users")[0], 2)
    finish()
maps = ";".join(
    "%d,%d" % (numbers(which)[0][0], sum(c for _, _, c in numbers(which))) for which in ("uid_map", "gid_map")
)
ran = subprocess.run([PROGRAM, "run", "--users", sys.executable, ME, "inside", maps], timeout=6 * PATIENCE)
same("a run with all users: its status", ran.returncode, 0)
ran = subprocess.run([PROGRAM, "run", sys.executable, ME, "alone"], timeout=6 * PATIENCE)
same("a run of the superuser: its status", ran.returncode, 0)
same("a map of 101 lines", mapped(100), 0)
same("one that is longer than a page where each number is itself", mapped(200), 2)
for options in ((), ("--root",), ("--users",)):
    kept(*options)
# another group than that of the user's number
script = """id -u; id -g; cat /proc/self/uid_map /proc/self/gid_map /proc/self/setgroups; cd /sys/fs/cgroup; mkdir g
stat -c %u:%g . .makhloeum .makhloeum/fork g g/pids.max; echo 0 >g/cgroup.procs; cat /proc/self/cgroup"""
for user, group in ((3, 4), (5, 2)):
    as_user = ["setpriv", "--reuid", str(user), "--regid", str(group), "--clear-groups", PROGRAM, "run", "--control"]
    for options, own in (([], (user, group)), (["--root"], (0, 0))):
        status, text, said_too = said(*as_user, *options, "--", "sh", "-c", script, cwd="/")
        lines = [line.split() for line in text.splitlines()]
        maps = ([str(n), str(n) if not options else "0", "1"] for n in own)
        wanted = [[str(own[0])], [str(own[1])], *maps, ["deny"], *[["%d:%d" % own]] * 5, ["0::/g"]]
        same("user %d, group %d %s" % (user, group, options), (status, lines, said_too), (0, wanted, ""))
finish()
