"""Cgroup namespaces, and programs that mount cgroup2 themselves, under `makhloeum run`; this file is also the program."""
import ctypes
import errno
import fcntl
import os
import re
import signal
import subprocess
import sys
import tempfile
import threading
import time

sys.path.insert(0, os.path.dirname(os.path.dirname(os.path.realpath(__file__))))
from on_kernel import new_group
from support import (
    AT,
    PATIENCE,
    PROGRAM,
    clone_into,
    error_of,
    finish,
    inside,
    into,
    libc,
    line_of,
    read,
    same,
    step,
    ticks,
    tracer,
    until,
    write,
)

ME = os.path.realpath(__file__)
CLONE_NEWNS, CLONE_NEWCGROUP, CLONE_NEWUSER = 0x20000, 0x02000000, 0x10000000
INTO = 0x200000000  # CLONE_INTO_CGROUP
CGROUP2, PROCFS = 0x63677270, 0x9FA0


def shell(script, *before):
    ran = subprocess.run(
        [*before, "sh", "-ec", script], stdout=subprocess.PIPE, stderr=subprocess.PIPE, timeout=PATIENCE
    )
    return ran.returncode, ran.stdout.decode(), ran.stderr.decode()


def namespaces():
    for g in ("/a", "/a/b", "/a/b/c", "/d"):
        os.mkdir(AT + g)
    into("/a/b")
    outside = os.getpid()
    script = "cat /proc/self/cgroup /proc/%d/cgroup; echo 0 > %s/a/b/c/cgroup.procs; cat /proc/self/cgroup; echo 0 > %s/d/cgroup.procs; cat /proc/self/cgroup"
    wanted = "0::/\n0::/\n0::/c\n0::/../../d\n"
    same("unshare -C: its own group is /", shell(script % (outside, AT, AT), "unshare", "-C"), (0, wanted, ""))
    same("outside it all is as before", read("/proc/self/cgroup"), b"0::/a/b\n")
    same("another is of the root", shell("cat /proc/%d/cgroup" % os.getppid(), "unshare", "-C")[1], "0::/../..\n")
    r, w = os.pipe()
    pid = libc.syscall(56 if os.uname().machine == "x86_64" else 220, CLONE_NEWCGROUP | signal.SIGCHLD, 0, 0, 0, 0)
    if pid == 0:
        os.write(w, read("/proc/self/cgroup"))
        os._exit(0)
    os.waitpid(pid, 0)
    same("a clone into a new namespace", os.read(r, 99), b"0::/\n")
    same(
        "of a process inside, seen from outside",
        shell("cat /proc/self/cgroup; exec nsenter -t %d -C cat /proc/self/cgroup" % outside, "unshare", "-C"),
        (0, "0::/\n0::/a/b\n", ""),
    )
    os.mkdir(AT + "/aa")
    script = "echo 0 > %s/aa/cgroup.procs; cat /proc/self/cgroup"
    into("/a")
    same("a name with the same beginning", shell(script % AT, "unshare", "-C")[1], "0::/../aa\n")
    into("")
    same("in the root", shell("cat /proc/self/cgroup", "unshare", "-C")[1], "0::/\n")
    same("the next one's root", shell("echo 0 > %s/d/cgroup.procs; unshare -C cat /proc/self/cgroup" % AT)[1], "0::/\n")


MOVES = """import sys
for group in sys.argv[1:]:
    with open("/sys/fs/cgroup%s/cgroup.procs" % group, "w") as f:
        f.write("0")
    print(open("/proc/self/cgroup").read(), end="")
"""


def seen_from(root, group):
    """The path of a group in a namespace with this root, as the kernel makes it: up to what both have in common, and down again."""
    from_names, to_names = root.split("/")[1:], group.split("/")[1:]
    common = len(os.path.commonprefix((from_names, to_names)))
    return "/.." * (len(from_names) - common) + "".join("/" + n for n in to_names[common:]) or "/"


def pairs():
    """Each of these groups, as it is seen in a namespace that begins at each of them."""
    groups = ("", "/a", "/a/b", "/a/b/c", "/a/bc", "/ab", "/ab/b", "/b")
    for g in groups[1:]:
        os.mkdir(AT + g)
    for root in groups:
        words = ["unshare", "-C", sys.executable, "-c", MOVES, *groups]
        ran = subprocess.run(words, stdout=subprocess.PIPE, timeout=PATIENCE, preexec_fn=lambda: into(root))
        same("from %s" % (root or "/"), ran.stdout.decode().split(), ["0::" + seen_from(root, g) for g in groups])


def put_into_effect(those):
    """From now on no other capabilities are in effect."""
    head, data = (ctypes.c_uint32 * 2)(0x20080522, 0), (ctypes.c_uint32 * 6)()
    libc.capget(head, data)
    data[0], data[3] = those, 0
    libc.capset(head, data)


def without_effect(call, but=0):
    """What a call returns in a child that has all its capabilities, but none in effect except these."""
    r, w = os.pipe()
    pid = os.fork()
    if pid == 0:
        put_into_effect(but)
        os.write(w, call().encode())
        os._exit(0)
    os.waitpid(pid, 0)
    got = os.read(r, 99).decode()
    os.close(r)
    os.close(w)
    return got


def mounts():
    where = os.path.join(os.environ["TMPDIR"], "at%d" % os.getpid())
    os.mkdir(where)
    for g in ("/a", "/a/b"):
        os.mkdir(AT + g)
    script = (
        "mount -t cgroup2 none %s; cd %s; stat -f -c %%t .; ls -d a/b; grep -c ' - cgroup2 ' /proc/self/mountinfo"
        % (where, where)
    )
    same("a mount of cgroup2", shell(script, "unshare", "-m"), (0, "63677270\na/b\n2\n", ""))
    same("it is gone with its namespace", os.listdir(where), [])
    script = "mount -t cgroup2 none %s; echo; read x" % where
    other = subprocess.Popen(["unshare", "-m", "sh", "-ec", script], stdin=subprocess.PIPE, stdout=subprocess.PIPE)
    other.stdout.readline()
    for who, wanted in (("self", 1), ("%d" % other.pid, 2), ("%d/task/%d" % (other.pid, other.pid), 2)):
        lines = read("/proc/%s/mountinfo" % who).decode().splitlines()
        same(
            "cgroup2 in the table of " + who.replace(str(other.pid), "PID"),
            sum(" - cgroup2 " in x for x in lines),
            wanted,
        )
    other.communicate(b"\n")
    into("/a")
    script = """mount -t cgroup2 none %s
cd %s
ls -d b; cat cgroup.procs | grep -cx $$; cat cgroup.events | head -n 1
mkdir b/new; rmdir b/new
grep " %s " /proc/self/mountinfo | cut -d ' ' -f 4-5""" % (
        where,
        where,
        where,
    )
    wanted = "b\n1\npopulated 1\n/ %s\n" % where
    same("in a namespace it starts at its group", shell(script, "unshare", "-Cm"), (0, wanted, ""))
    same("in a user namespace below", shell(script, "unshare", "-UrCm"), (0, wanted, ""))
    escaped = r"/a/x\x2dy"  # as systemd names a slice; tables escape the backslash
    os.makedirs(AT + escaped + "/b")
    into(escaped)
    same("at one with a backslash in its name", shell(script, "unshare", "-Cm"), (0, wanted, ""))
    into("/a")
    for name in ("/b", ""):
        os.rmdir(AT + escaped + name)
    script = """mount -t cgroup2 none %s
echo 0 > %s/b/cgroup.procs
look() { grep -e " %s " -e " %s " /proc/self/mountinfo | cut -d ' ' -f 4-5; }
look; exec unshare -C sh -c 'grep -e " %s " -e " %s " /proc/self/mountinfo' | cut -d ' ' -f 4-5""" % (
        (where, where) + (AT, where) * 2
    )
    wanted = "/.. %s\n/ %s\n/../.. %s\n/.. %s\n" % ((AT, where) * 2)
    same("as others see it, who begin elsewhere", shell(script, "unshare", "-Cm"), (0, wanted, ""))
    other = subprocess.Popen(["unshare", "-C", "sleep", "600"])
    step("another process has a namespace", until(lambda: line_of(other.pid).startswith(b"sleep")))
    for how, root in (("", "/"), ("unshare -C ", "/..")):
        got = shell("exec %sgrep ' - cgroup2 ' /proc/%d/mountinfo" % (how, other.pid))[1].split()[3:5]
        same("its table, seen %s" % (how + "from /a" if how else "from here"), got, [root, AT])
    other.kill()
    other.wait()
    script = "mount -t cgroup2 -o ro none %s; grep ' %s ' /proc/self/mounts; mkdir %s/x" % ((where,) * 3)
    status, out, _ = shell(script, "unshare", "-m")
    wanted = "cgroup2 %s cgroup2 ro,nosuid,nodev,noexec,relatime 0 0\n" % where
    same("read-only", (status != 0, out), (True, wanted))
    for kind in ("cgroup2", "cgroup", "tmpfs"):
        got = without_effect(lambda: error_of(mount, where, kind))
        same("of %s with a capability that is not in effect" % kind, got, "EPERM")
    nowhere("cgroup2", "cgroup")
    same("a file", error_of(mount, "/etc/passwd"), "ENOTDIR")
    same(
        "another type is the kernel's matter",
        shell("mount -t tmpfs none %s; stat -f -c %%T %s" % (where, where), "unshare", "-m"),
        (0, "tmpfs\n", ""),
    )
    for data in (b"none,name=x", b"pids"):
        same(
            "version 1, %s" % data.decode(),
            (libc.mount(b"none", where.encode(), b"cgroup", 0, data), ctypes.get_errno()),
            (-1, errno.EBUSY),
        )
    os.rmdir(where)
    number = 430
    same("fsopen of version 1", (libc.syscall(number, b"cgroup", 0), ctypes.get_errno()), (-1, errno.ENOSYS))
    for call in ("statmount", "listmount"):
        same(
            call,
            (libc.syscall(457 if call == "statmount" else 458, None, None, 0, 0), ctypes.get_errno()),
            (-1, errno.ENOSYS),
        )
    for flags, closes in ((0, 0), (1, fcntl.FD_CLOEXEC)):
        fd = libc.syscall(number, b"tmpfs", flags)
        same("of another, flags %d" % flags, (fd >= 0, fcntl.fcntl(fd, fcntl.F_GETFD)), (True, closes))
        os.close(fd)
    for name, kind, flags, wanted in (
        ("unknown flags", b"tmpfs", 2, errno.EINVAL),
        ("no such type", b"nosuch", 0, errno.ENODEV),
        ("a name that cannot be read", 8, 0, errno.EFAULT),
    ):
        same("fsopen, %s" % name, (libc.syscall(number, kind, flags), ctypes.get_errno()), (-1, wanted))


def covered():
    """Something else is mounted over /proc: a process with its own mount namespace sees the hierarchy as before."""
    if b"__asan_init" in open(PROGRAM, "rb").read():
        return  # a sanitizer reads /proc
    os.mkdir(AT + "/a")
    same("the superuser opens a text to write too", error_of(os.open, "/proc/self/cgroup", os.O_RDWR), "EACCES")
    same("and with a truncation", error_of(os.open, "/proc/self/cgroup", os.O_TRUNC), "ok")
    script = (
        "echo 0 > %s/a/cgroup.procs; echo; read x; cat /proc/self/cgroup; grep -c ' - cgroup2 ' /proc/self/mountinfo"
        % AT
    )
    other = subprocess.Popen(["unshare", "-m", "sh", "-ec", script], stdin=subprocess.PIPE, stdout=subprocess.PIPE)
    other.stdout.readline()
    same("a mount over /proc", libc.mount(b"none", b"/proc", b"tmpfs", 0, None), 0)
    same("another sees its group", other.communicate(b"\n")[0], b"0::/a\n1\n")
    same(
        "a thread that writes 0 moves its process",
        shell(
            "python3 -c 'import threading; t = threading.Thread(target=lambda: "
            'open("%s/a/cgroup.procs", "w").write("0")); t.start(); t.join()\'' % AT
        ),
        (0, "", ""),
    )


def rooted():
    """A process whose root is another directory: in /proc, or above a mount of it."""
    os.mkdir(AT + "/a")
    into("/a")
    home = tempfile.mkdtemp()
    os.mkdir(home + "/proc")
    same("a mount of /proc", libc.mount(b"/proc", (home + "/proc").encode(), None, 4096 | 16384, None), 0)
    for root, name in (
        ("/proc", "/self/cgroup"),
        ("/proc", "self/cgroup"),
        ("/proc/self", "/cgroup"),
        (home, "/proc/self/cgroup"),
        (home, "proc/self/cgroup"),
        ("/", "/proc/self/cgroup"),
    ):
        r, w = os.pipe()
        pid = os.fork()
        if pid == 0:
            os.chroot(root)
            os.chdir("/")
            os.write(w, read(name))
            os._exit(0)
        os.waitpid(pid, 0)
        os.close(w)
        same("%s below %s" % (name, root.replace(home, "HOME")), os.read(r, 99), b"0::/a\n")
        os.close(r)
    into("")


def end_of_memory():
    """The address after a page that can be read and written. There is no memory there."""
    page = os.sysconf("SC_PAGE_SIZE")
    libc.mmap.restype = ctypes.c_void_p
    memory = libc.mmap(None, 2 * page, 3, 0x22, -1, 0)  # to read and write, of no file
    libc.munmap(ctypes.c_void_p(memory + page), page)
    return memory + page


def others():
    """Other file systems are mounted as the kernel mounts them for their caller."""
    home = tempfile.mkdtemp()
    for name in ("low", "up", "work", "at"):
        os.mkdir(os.path.join(home, name))
    with open(home + "/low/here", "w") as f:
        f.write("low\n")
    at = home + "/at"
    for name, how, script, wanted in (
        ("proc", "-mpf", "mount -t proc proc %s; cat %s/1/comm" % (at, at), "sh\n"),
        (
            "an option that it does not have, in a PID namespace",
            "-mpf",
            "mount -t tmpfs -o nosuch=1 x %s 2>/dev/null || echo refused" % at,
            "refused\n",
        ),
        (
            "its options",
            "-m",
            "mount -t tmpfs -o mode=711,size=8k,nodev x %s; stat -c %%a:%%u %s; grep -o 'rw,nodev.*size=8k' /proc/self/mounts"
            % (at, at),
            "711:0\nrw,nodev,relatime,size=8k\n",
        ),
        (
            "relative paths",
            "-m",
            "cd %s; mount -t overlay -o lowerdir=low,upperdir=up,workdir=work o at; cat at/here; echo x >at/new; ls up"
            % home,
            "low\nnew\n",
        ),
        ("devpts", "-m", "mount -t devpts -o newinstance d %s; ls %s" % (at, at), "ptmx\n"),
        ("mqueue", "-mi", "mount -t mqueue m %s; touch %s/q; ls %s" % (at, at, at), "q\n"),
        ("sysfs", "-mn", "mount -t sysfs s %s; ls %s/class/net" % (at, at), "lo\n"),
        (
            "a link below /proc/self",
            "-m",
            "exec 7<%s; mount -t tmpfs x /proc/self/fd/7; stat -f -c %%T %s" % (at, at),
            "tmpfs\n",
        ),
        (
            "without capabilities",
            "-m",
            "setpriv --bounding-set -all --inh-caps -all mount -t tmpfs x %s 2>&1 | grep -c denied" % at,
            "1\n",
        ),
    ):
        same(name, shell(script, "unshare", how), (0, wanted, ""))
    for name, source, target, kind, data, wanted in (
        ("no such type", b"none", at.encode(), b"nosuch", None, errno.ENODEV),
        ("no type", b"none", at.encode(), None, None, errno.EINVAL),
        ("a type that cannot be read", b"none", at.encode(), 1, None, errno.EFAULT),
        ("a source that cannot be read", 8, at.encode(), b"tmpfs", None, errno.EFAULT),
        ("a place that cannot be read", b"none", 8, b"tmpfs", None, errno.EFAULT),
        ("data that cannot be read", b"none", at.encode(), b"tmpfs", 8, errno.EFAULT),
        ("no place", b"none", b"", b"tmpfs", None, errno.ENOENT),
        ("an option that it does not have", b"none", at.encode(), b"tmpfs", b"nosuch=1", errno.EINVAL),
    ):
        same(name, (libc.mount(source, target, kind, 0, data), ctypes.get_errno()), (-1, wanted))
    os.makedirs(home + "/closed/low")
    os.chmod(home + "/closed", 0)
    layers = ("lowerdir=%s/closed/low,upperdir=%s/up,workdir=%s/work" % (home, home, home)).encode()
    overlay = lambda: error_of(mount, at, "overlay", layers)
    same("a layer that its caller can't reach", without_effect(overlay, SYS_ADMIN), "EACCES")
    same("one with a capability for it", (overlay(), libc.umount2(at.encode(), DETACH)), ("ok", 0))
    os.chmod(home + "/closed", 0o700)  # else its owner can't remove what is in it
    nowhere("tmpfs")
    same("with one", (libc.mount(b"other", at.encode(), b"tmpfs", 0, None), libc.umount2(at.encode(), DETACH)), (0, 0))
    same("without a source", libc.mount(None, at.encode(), b"tmpfs", 0, None), 0)
    source = next(x.split()[0] for x in open("/proc/self/mounts") if x.split()[1] == at)
    same("it has none", (source, libc.umount2(at.encode(), DETACH)), ("none", 0))
    for flags, words in (
        (0, ["rw"]),
        (1, ["ro"]),
        (2 | 4 | 8, ["rw", "nosuid", "nodev", "noexec"]),
        (1024, ["rw", "noatime"]),
        (1 << 24, ["rw", "size=8k"]),  # MS_STRICTATIME
    ):
        libc.mount(b"none", at.encode(), b"tmpfs", flags, b"size=8k")
        has = next(x.split()[3].split(",") for x in open("/proc/self/mounts") if x.split()[1] == at)
        same("flags %d" % flags, has[: len(words)], words)
        libc.umount2(at.encode(), DETACH)
    page, options = os.sysconf("SC_PAGE_SIZE"), b"mode=750\0"
    memory = end_of_memory() - page
    for before in (len(options), page - 3 * len(options)):  # at the end of the last page, and near its start
        ctypes.memmove(memory + page - before, options, len(options))
        libc.mount(b"none", at.encode(), b"tmpfs", 0, ctypes.c_void_p(memory + page - before))
        same("options %d bytes before the end of memory" % before, os.stat(at).st_mode & 0o777, 0o750)
        libc.umount2(at.encode(), DETACH)
    for options, wanted in ((b"mode=711,nosuch=1", -1), (b"mode=750", 0)):
        ctypes.memmove(memory + page - len(options), options, len(options))
        for _ in range(6):  # the helper has several threads, each with what it read before
            got = libc.mount(b"none", at.encode(), b"tmpfs", 0, ctypes.c_void_p(memory + page - len(options)))
            same("options up to the end of memory: %s" % options.decode(), got, wanted)
            libc.umount2(at.encode(), DETACH)
    for source, kind, flags in ((b"x", b"tmpfs", 0), ((home + "/low").encode(), None, BIND)):
        got = libc.mount(source, at.encode(), kind, 0xC0ED0000 | flags, None), os.listdir(at)
        same("an old mark in the flags, and %#x" % flags, got, (0, ["here"] if flags else []))
        libc.umount2(at.encode(), DETACH)
    changed_mounts(at, home + "/up")
    for kind, data in (
        (b"fuse", b"fd=%d,rootmode=40000,user_id=0,group_id=0"),
        (b"fuse", b"rootmode=40000,user_id=0,group_id=0,fd=%d"),
        (b"fuse.x", b"fd=%d,rootmode=40000,user_id=0,group_id=0"),
    ):
        device = os.open("/dev/fuse", os.O_RDWR)
        same("%s, by %s" % (kind.decode(), data.decode()), libc.mount(b"x", at.encode(), kind, 0, data % device), 0)
        libc.umount2(at.encode(), DETACH)
        os.close(device)
    same("a process whose first thread has other namespaces", mounted_by_thread(at), "tmpfs")
    r, w = os.pipe()
    pid = os.fork()
    if pid == 0:
        made = libc.unshare(CLONE_NEWNS), libc.unshare(CLONE_NEWUSER)
        os.write(w, repr((made, error_of(mount, "/nowhere"), error_of(mount, "/"))).encode())
        os._exit(0)
    os.waitpid(pid, 0)
    wanted = ((0, 0), "ENOENT", "EPERM")
    same("a mount namespace of above one's users", os.read(r, 999), repr(wanted).encode())
    r, w = os.pipe()
    pid = os.fork()
    if pid == 0:
        os.chroot(home)
        os.chdir("/")
        got = [
            libc.mount(b"o", place, b"overlay", 0, b"lowerdir=%slow,upperdir=%sup,workdir=%swork" % ((top,) * 3))
            or (sorted(os.listdir("/at")), libc.umount2(b"/at", DETACH))
            for place, top in ((b"/at", b"/"), (b"at", b""), (b"/../at", b"/../"))
        ]
        for kind in (b"tmpfs", b"cgroup2"):
            got.append((libc.mount(b"x", b"/at", kind, 0, None), os.path.exists("/at/cgroup.procs")))
            libc.umount2(b"/at", DETACH)
        os.write(w, repr(got).encode())
        os._exit(0)
    os.waitpid(pid, 0)
    wanted = [(["here", "new"], 0)] * 3 + [(0, False), (0, True)]
    same("paths in a root of its own", os.read(r, 999), repr(wanted).encode())


def changed_mounts(at, elsewhere):
    """Changes of a mount, which name no type: the kernel makes them."""
    libc.mount(b"none", at.encode(), b"tmpfs", 0, None)
    for name, flags, wanted in (
        ("shared", SHARED, "shared:"),
        ("a slave of nobody", SLAVE, ""),
        ("private", PRIVATE, ""),
        ("unbindable", UNBINDABLE, "unbindable"),
        ("read-only", REMOUNT | 1, "unbindable"),
        ("read-only, by an old mark", 0xC0ED0000 | REMOUNT | 1, "unbindable"),
    ):
        got = libc.mount(None, at.encode(), None, flags, None)
        words = next(x.split() for x in open("/proc/self/mountinfo") if x.split()[4] == at)
        said = (words[5].split(",")[0], " ".join(words[6 : words.index("-")])[: len(wanted or "x")])
        same("a mount becomes %s" % name, (got, said), (0, ("ro" if flags & 1 else "rw", wanted)))
    for source, target, mark in ((at, elsewhere, 0), (elsewhere, at, 0xC0ED0000)):
        same("it is moved, %#x" % mark, libc.mount(source.encode(), target.encode(), None, mark | MOVE, None), 0)
    same("and is there", libc.umount2(at.encode(), DETACH), 0)


def mounted_by_thread(at):
    """The type of what a thread mounts in a namespace of its own."""
    got = []

    def thread():
        libc.unshare(0x00000200 | 0x00020000)  # CLONE_FS, CLONE_NEWNS
        libc.mount(b"x", at.encode(), b"tmpfs", 0, None)
        got.append(next((x.split()[2] for x in open("/proc/thread-self/mounts") if x.split()[1] == at), None))

    t = threading.Thread(target=thread)
    t.start()
    t.join()
    same("the first thread does not see it", [x for x in open("/proc/self/mounts") if x.split()[1] == at], [])
    return got[0]


def rewritten():
    """A second thread rewrites the type of a mount while it is looked at. Both have only the capability that a mount needs."""
    put_into_effect(SYS_ADMIN)
    home, there = tempfile.mkdtemp(), os.stat(AT).st_dev
    kind, seen, done = ctypes.create_string_buffer(16), [], []

    def rewrite():
        while not done:
            kind.value = b"cgroup2"
            kind.value = b"tmpfs"

    def is_machines(fd):
        return os.fstat(fd).st_dev != there and error_of(lambda: os.stat("cgroup.controllers", dir_fd=fd)) == "ok"

    thread = threading.Thread(target=rewrite, daemon=True)
    thread.start()
    for _ in range(300):
        if libc.mount(b"none", home.encode(), kind, 0, None) == 0:
            fd = os.open(home, os.O_RDONLY)
            seen.append(("mount", is_machines(fd)))
            os.close(fd)
            libc.umount2(home.encode(), DETACH)
        context = libc.syscall(430, kind, 0)
        if context >= 0:
            fd = libc.syscall(432, context, 0, 0) if configure(context, CREATE) == 0 else -1
            seen.append(("fsopen", fd >= 0 and is_machines(fd)))
            for each in (context, fd):
                libc.close(each)
    done.append(True)
    thread.join()
    step("both calls were made", {"mount", "fsopen"} == {name for name, _ in seen}, seen[:10])
    same("mounts of the machine's cgroups", [x for x in seen if x[1]], [])
    same(
        "an old mark in the flags",
        (libc.mount(b"none", home.encode(), b"cgroup2", 0xC0ED0000, None), os.stat(home).st_dev),
        (0, there),
    )
    same(
        "with version 1",
        (libc.mount(b"none", home.encode(), b"cgroup", 0xC0ED0000, b"none,name=x"), ctypes.get_errno()),
        (-1, errno.EBUSY),
    )


DETACH, REMOUNT, BIND, MOVE, REC = 2, 0x20, 0x1000, 0x2000, 0x4000
UNBINDABLE, PRIVATE, SLAVE, SHARED = 1 << 17, 1 << 18, 1 << 19, 1 << 20
SYS_ADMIN = 1 << 21  # the capability


def beneath():
    """What the machine has at /sys/fs/cgroup stays covered: nobody takes the hierarchy away from there."""
    home = tempfile.mkdtemp()
    os.mkdir(AT + "/a")
    there = os.stat(AT).st_dev
    for how in (0, DETACH):
        same("umount2 with %d" % how, (libc.umount2(AT.encode(), how), ctypes.get_errno()), (-1, errno.EINVAL))
    same(
        "in a mount namespace below", shell("umount -l %s || echo refused" % AT, "unshare", "-m")[:2], (0, "refused\n")
    )
    same(
        "of what is above it", (libc.umount2(b"/sys", DETACH), ctypes.get_errno(), os.stat(AT).st_dev), (-1, 22, there)
    )
    for source, flags, at in (
        (AT, MOVE, home),
        ("/sys", BIND, home + "/fs/cgroup"),
        ("/sys/fs", BIND, home + "/cgroup"),
    ):
        step(
            "%s, %#x: nothing of the machine is seen" % (source, flags),
            libc.mount(source.encode(), home.encode(), None, flags, None) != 0 or os.listdir(at) == [],
        )
    same("a copy of /sys", libc.mount(b"/sys", home.encode(), None, BIND | REC, None), 0)
    same("the hierarchy in the copy", os.stat(home + "/fs/cgroup").st_dev, there)
    libc.umount2((home + "/fs/cgroup").encode(), DETACH)
    same("it cannot be taken away there", os.stat(home + "/fs/cgroup").st_dev, there)
    same("it is where it was", (os.stat(AT).st_dev, os.listdir(AT + "/a") != []), (there, True))
    libc.umount2(home.encode(), DETACH)


def crossed():
    """A mount of a directory of /proc over another one is not crossed by an openat2 that crosses none."""
    proc, other = os.open("/proc", os.O_RDONLY), subprocess.Popen(["sleep", "600"])
    how = (ctypes.c_uint64 * 3)(0, 0, 1)  # RESOLVE_NO_XDEV
    at = b"/proc/%d" % other.pid
    file = at[len("/proc/") :] + b"/cgroup"
    opens = (
        lambda: error_of(os.close, fd) if (fd := libc.syscall(437, proc, file, how, 24)) >= 0 else ctypes.get_errno()
    )
    same("without it", opens(), "ok")
    same("it is made", libc.mount(b"/proc/self/task/%d" % os.getpid(), at, None, BIND, None), 0)
    same("with it", opens(), errno.EXDEV)
    libc.umount2(at, DETACH)
    same("without it again", opens(), "ok")
    other.kill()
    other.wait()


THREAD = """
import ctypes, sys, threading
libc, home = ctypes.CDLL(None), sys.argv[1]
def own():
    libc.unshare(0x20000)  # CLONE_NEWNS
    libc.mount(b"x", home.encode(), b"tmpfs", 0, None)
    print(*(home in open("/proc/%s/mounts" % name).read() for name in ("thread-self", "self")))
def look():
    own = "/proc/self/task/%d/" % threading.get_native_id()
    print(open("/proc/thread-self/cgroup").read(), open(own + "cgroup").read())
    for name in "/proc/thread-self/mounts", own + "mounts":
        print(sum(line.split()[1:3] == ["/sys/fs/cgroup", "cgroup2"] for line in open(name)))
for call in look, look, own:
    t = threading.Thread(target=call)
    t.start()
    t.join()
"""


def threads():
    """Texts of a thread, also where processes have other numbers."""
    os.mkdir(AT + "/a")
    into("/a")
    home = tempfile.mkdtemp()
    for how in ("-m", "-mpf"):
        ran = subprocess.run(
            ["unshare", how, *(["--mount-proc"] if "p" in how else []), sys.executable, "-c", THREAD, home],
            stdout=subprocess.PIPE,
            timeout=PATIENCE,
        )
        lines = [b"0::/a", b"0::/a", b"1", b"1"] * 2
        same(
            "unshare %s, the last thread with mounts of its own" % how, ran.stdout.split(), lines + [b"True", b"False"]
        )
    found = []

    def look():
        libc.unshare(CLONE_NEWNS)
        mount(home, "tmpfs")
        names = "thread-self", "self", "self/task/%d" % threading.get_native_id()
        found.extend(home.encode() in read("/proc/%s/mounts" % name) for name in names)

    t = threading.Thread(target=look)
    t.start()
    t.join()
    same("a thread with mounts of its own", found, [True, False, True])
    os.rmdir(home)


def confined():
    """In a root of its own a process finds its text by a path that goes up from there."""
    os.mkdir(AT + "/a")
    into("/a")
    home = tempfile.mkdtemp()
    os.mkdir(home + "/proc")
    same("a second /proc", libc.mount(b"/proc", (home + "/proc").encode(), None, BIND | REC, None), 0)
    os.mkdir(home + "/again")
    same("a second mount of the root", libc.mount(home.encode(), (home + "/again").encode(), None, BIND, None), 0)
    names = "/proc/self/cgroup", "/../proc/self/cgroup", "/proc/../../proc/self/cgroup", "/again/../proc/self/cgroup"
    r, w = os.pipe()
    pid = os.fork()
    if pid == 0:
        os.chroot(home)
        for name in names:
            os.write(w, read(name))
        os._exit(0)
    os.waitpid(pid, 0)
    same("each has its group", os.read(r, 999), b"0::/a\n" * len(names))


def magic_of(call, where):
    """The file system's magic number, which is the first of its description; or the name of the errno."""
    described = (ctypes.c_long * 32)()
    return described[0] if call(where, described) == 0 else errno.errorcode[ctypes.get_errno()]


READS = "i=0; while [ $i -lt 200 ]; do read x </proc/self/cgroup; read y </proc/self/mountinfo; i=$((i + 1)); done"


def crowded():
    """In a PID namespace, with its own /proc or without, an open is as much work beside seven hundred processes as beside ten."""
    release = os.environ.get("OLD_KERNEL") or os.uname().release
    if tuple(map(int, re.findall(r"\d+", release)[:2])) < (6, 11):
        return  # the kernel translates no numbers
    works, others = {}, []
    for count in (10, 700):
        while len(others) < count:
            others.append(os.fork())
            if others[-1] == 0:
                signal.pause()
        for how in ("", "--mount-proc"):
            before = ticks()
            got = shell(READS, "unshare", "--pid", "--fork", *how.split())
            works[how, count] = ticks() - before
            same("it reads beside %d %s" % (count, how), got, (0, "", ""))
    for how in ("", "--mount-proc"):
        step("the work %s" % how, works[how, 700] <= 1.5 * works[how, 10] + 20, works)
    for pid in others:
        os.kill(pid, signal.SIGKILL)
        os.waitpid(pid, 0)


def described():
    """What is said of an open text of /proc: it is of procfs, also by a path that leads to it, and groups beside it are not."""
    os.mkdir(AT + "/.makhloeum.new")
    for name in ("self/cgroup", "self/mounts", "self/mountinfo", "thread-self/cgroup", "1/cgroup"):
        fd = os.open("/proc/" + name, os.O_RDONLY)
        by_path = magic_of(libc.statfs, b"/proc/self/fd/%d" % fd)
        same(name, (magic_of(libc.fstatfs, fd), by_path), (PROCFS, PROCFS))
        os.close(fd)
    for name in ("", "/.makhloeum.new", "/.makhloeum.new/cgroup.procs", "/cgroup.procs"):
        fd = os.open(AT + name, os.O_RDONLY)
        both = magic_of(libc.fstatfs, fd), magic_of(libc.statfs, (AT + name).encode())
        same("a file of the hierarchy: %r" % name, both, (CGROUP2, CGROUP2))
        os.close(fd)


def closed():
    """A process that others may not look at, such as one that its user may run and not read: texts by its descriptors."""
    os.mkdir(AT + "/a")
    into("/a")
    home = tempfile.mkdtemp()
    os.symlink("/proc/self/cgroup", home + "/link")
    held = os.open("/proc/self/cgroup", os.O_PATH)
    folder = os.open("/proc/self", os.O_PATH)
    other, top = os.open("/etc/hostname", os.O_PATH), os.open(home, os.O_PATH)
    group = os.open(AT + "/a", os.O_RDONLY)
    for dumpable in (1, 0):
        libc.prctl(4, dumpable, 0, 0, 0)  # PR_SET_DUMPABLE
        for name in (
            "/proc/self/fd/%d" % held,
            "/dev/fd/%d" % held,
            "/proc/self/fd/%d/cgroup" % folder,
            "/proc/self/fd/%d/link" % top,
            "/proc/thread-self/fd/%d" % held,
            "/proc/self/cgroup",
            "/proc/self/root/proc/self/cgroup",
        ):
            what = "%s, dumpable %d" % (name.rpartition("/fd/")[0] or name, dumpable)
            same(what, read(name) if error_of(read, name) == "ok" else error_of(read, name), b"0::/a\n")
        same("another file, dumpable %d" % dumpable, read("/proc/self/fd/%d" % other), read("/etc/hostname"))
        got = error_of(os.open, "/proc/self/fd/%d" % held, os.O_RDONLY | os.O_NOFOLLOW)
        same("a link that is not followed, dumpable %d" % dumpable, got, "ELOOP")
        how, name = (ctypes.c_uint64 * 3)(0, 0, 2), b"/proc/self/fd/%d/cgroup" % folder  # RESOLVE_NO_MAGICLINKS
        got = libc.syscall(437, -100, name, how, 24), errno.errorcode[ctypes.get_errno()]
        same("openat2 that follows no link of /proc, dumpable %d" % dumpable, got, (-1, "ELOOP"))
        got = os.read(os.open("cgroup", os.O_RDONLY, dir_fd=folder), 99)
        same("from a descriptor of /proc/self, dumpable %d" % dumpable, got, b"0::/a\n")
        kinds = [magic_of(libc.statfs, AT.encode()), magic_of(libc.fstatfs, group)]
        same("both calls of statfs, dumpable %d" % dumpable, kinds, [CGROUP2] * 2)
        same("a child in a group, dumpable %d" % dumpable, clone_into(group), 0)
        same("a child elsewhere, dumpable %d" % dumpable, [clone_into(fd) for fd in (top, 999)], ["EBADF"] * 2)
        for name in ("999", "x", "%dx" % held, "0%d" % held, "+%d" % held, " %d" % held, "-1"):
            got = error_of(os.open, "/proc/self/fd/" + name, os.O_RDONLY)
            same("a descriptor %r, dumpable %d" % (name.replace(str(held), "N"), dumpable), got, "ENOENT")


def changed(change, name, gains=True):
    """What is read by a path that leads to a text only after a call that changes the root or its mounts, the first of its run."""
    os.mkdir(AT + "/a")
    into("/a")
    r, w = os.pipe()
    pid = os.fork()
    if pid == 0:
        if gains:
            libc.unshare(CLONE_NEWUSER)
        change()
        os.write(w, read(name) if error_of(read, name) == "ok" else error_of(read, name).encode())
        os._exit(0)
    os.waitpid(pid, 0)
    same("what is read", os.read(r, 99), b"0::/a\n")


def bind_proc(at):
    if libc.mount(b"/proc", at.encode(), None, BIND | REC, None):
        raise OSError(ctypes.get_errno(), "mount")


def by_chroot():
    changed(lambda: os.chroot("/proc"), "/self/cgroup")


def by_unshare():
    home = tempfile.mkdtemp()
    changed(lambda: (libc.unshare(CLONE_NEWNS), bind_proc(home)), home + "/self/cgroup")


def by_clone():
    """The child has the namespace. Its creator waits for it, and ends as it did."""
    home = tempfile.mkdtemp()

    def clone():
        pid = libc.syscall(56 if os.uname().machine == "x86_64" else 220, CLONE_NEWNS | signal.SIGCHLD, 0, 0, 0, 0)
        if pid:
            os._exit(os.waitpid(pid, 0)[1])
        bind_proc(home)

    changed(clone, home + "/self/cgroup")


def by_setns():
    """Into a namespace of a process outside, which entered the user namespace of this one."""
    print(os.getpid(), flush=True)
    other, home = sys.stdin.readline().split()
    space = os.open("/proc/%s/ns/mnt" % other, os.O_RDONLY)
    changed(lambda: libc.setns(space, 0), home + "/self/cgroup", gains=False)


def by_pivot_root():
    home = tempfile.mkdtemp()

    def pivot():
        libc.mount(home.encode(), home.encode(), None, BIND, None)
        os.mkdir(home + "/p")
        os.mkdir(home + "/old")
        bind_proc(home + "/p")
        os.chdir(home)
        libc.syscall(155 if os.uname().machine == "x86_64" else 41, b".", b"old")

    changed(pivot, "/p/self/cgroup", gains=False)


def mount(where, kind="cgroup2", data=None):
    if libc.mount(b"none", where.encode(), kind.encode(), 0, data):
        raise OSError(ctypes.get_errno(), "mount")


def nowhere(*kinds):
    """A path that leads nowhere: its fault comes before that of a mount without privileges."""
    at = tempfile.mkdtemp()
    os.symlink("loop", at + "/loop")
    for kind in kinds:
        for path, wanted in (
            ("/nowhere", "ENOENT"),
            ("", "ENOENT"),
            ("/etc/passwd/", "ENOTDIR"),
            ("/etc/passwd/x", "ENOTDIR"),
            (at + "/loop", "ELOOP"),
            ("/" + "n" * 256, "ENAMETOOLONG"),
        ):
            same("%s at %s" % (kind, path[:40]), error_of(mount, path, kind), wanted)
    os.unlink(at + "/loop")
    os.rmdir(at)


def uncounted():
    """With --threads=no a thread has no number in the hierarchy. Its namespace begins at the group of its process."""
    os.mkdir(AT + "/a")
    into("/a")
    got = []

    def unshare():
        got.append((libc.unshare(CLONE_NEWCGROUP), read("/proc/thread-self/cgroup")))

    t = threading.Thread(target=unshare)
    t.start()
    t.join()
    same("a thread unshares", got, [(0, b"0::/\n")])
    same("its process does not", read("/proc/self/cgroup"), b"0::/a\n")


def cpusets():
    """The text has the nearest group with the controller, as a reader in this cgroup namespace sees it."""
    write(AT + "/cgroup.subtree_control", b"+cpuset")
    for g in ("/a", "/a/b", "/a/b/c", "/d"):
        os.mkdir(AT + g)
    me = os.getpid()
    for group, nearest, inside_of in (
        ("", "/", "/"),
        ("/a", "/a", "/"),
        ("/a/b", "/a", "/.."),
        ("/a/b/c", "/a", "/../.."),
    ):
        into(group)
        for name in ("self", "thread-self", "%d" % me, "self/task/%d" % me):
            same("/proc/%s/cpuset in %s" % (name, group), read("/proc/%s/cpuset" % name).decode(), nearest + "\n")
        got = shell("cat /proc/self/cpuset /proc/self/cgroup", "unshare", "-C")
        same("in a namespace that begins at %s" % group, got, (0, inside_of + "\n0::/\n", ""))
    write(AT + "/a/cgroup.subtree_control", b"+cpuset")
    into("/a/b/c")
    same("once a group below has it", read("/proc/self/cpuset"), b"/a/b\n")
    got = shell("echo 0 > %s/d/cgroup.procs; cat /proc/self/cpuset" % AT, "unshare", "-C")
    same("of a group outside the namespace", got, (0, "/../../../d\n", ""))
    other = subprocess.Popen(["unshare", "-C", "sleep", "600"], preexec_fn=lambda: into("/a/b/c"))
    step("another process has a namespace", until(lambda: line_of(other.pid).startswith(b"sleep")))
    into("/d")
    same("its own", read("/proc/self/cpuset"), b"/d\n")
    same("that of another process", read("/proc/%d/cpuset" % other.pid), b"/a/b\n")
    got = shell("cat /proc/%d/cpuset" % other.pid, "unshare", "-C")
    same("in a namespace that begins at /d", got, (0, "/../a/b\n", ""))
    other.kill()
    other.wait()


# ---------------------------------------------------------------- also of the kernel, in a group of its cgroup2


def top_of(at):
    """The path of a group at the machine's mount, as /proc/PID/cgroup shows it; a run's hierarchy begins at its own root."""
    return "" if at == AT else "/" + os.path.basename(at)


def own_line(*files):
    """What these files of /proc show of version 2."""
    ran = subprocess.run(["grep", "-h", "^0::", *files], stdout=subprocess.PIPE, timeout=PATIENCE)
    return ran.stdout.decode().split()


def keeps_inside(at):
    """Whether no process may leave the root of its namespace: the machine's cgroup2 has nsdelegate, as systemd mounts it."""
    mounts = [line.split() for line in open("/proc/self/mounts")]
    return any(at.startswith(m[1] + "/") and m[2] == "cgroup2" and "nsdelegate" in m[3].split(",") for m in mounts)


def born(at=AT):
    """A clone3 into a group and a new namespace: the namespace begins at that group, not at its creator's."""
    leaves = not keeps_inside(at)
    for g in ("/a", "/b", "/b/c"):
        os.mkdir(at + g)
    write(at + "/a/cgroup.procs", b"0")
    (r, w), (may_end, end) = os.pipe(), os.pipe()
    args = (ctypes.c_uint64 * 11)(INTO | CLONE_NEWCGROUP, 0, 0, 0, signal.SIGCHLD)
    args[10] = os.open(at + "/b", os.O_RDONLY)
    pid = libc.syscall(435, args, 88)
    if pid == 0:
        for group in (None, "/b/c", "/a", "/b"):
            if group:
                os.write(w, error_of(write, at + group + "/cgroup.procs", b"0").encode() + b" ")
            os.write(w, next(x for x in read("/proc/self/cgroup").splitlines(True) if x.startswith(b"0::")))
        os.close(w)
        os.read(may_end, 1)
        os._exit(0)
    os.close(w)
    said = b"".join(iter(lambda: os.read(r, 999), b""))
    to_outside = b"ok 0::/../a" if leaves else b"ENOENT 0::/c"
    wanted = [b"0::/", b"ok 0::/c", to_outside, b"ok 0::/"]
    same("what it sees, also once it has moved", said.splitlines(), wanted)
    same("what is seen from outside", own_line("/proc/%d/cgroup" % pid), ["0::%s/b" % top_of(at)])
    same("the creator's own", own_line("/proc/self/cgroup"), ["0::%s/a" % top_of(at)])
    os.write(end, b"x")
    os.waitpid(pid, 0)


def container(script, *words):
    """A process in PID and mount namespaces of its own, with a /proc of these; once its script has said a line it is returned, with its
    number and the line."""
    p = subprocess.Popen(
        ["unshare", "-mpf", "--mount-proc", "sh", "-ec", script, "sh", *words],
        stdout=subprocess.PIPE,
        stderr=subprocess.DEVNULL,
        text=True,
    )
    line = p.stdout.readline()
    return p, int(read("/proc/%d/task/%d/children" % (p.pid, p.pid))), line.strip()


def translates():
    """Whether the kernel that makhloeum sees translates numbers of processes (Linux 6.11)."""
    if os.environ.get("OLD_KERNEL"):
        return False
    with open("/proc/self/ns/pid") as space:
        return error_of(fcntl.ioctl, space, 0x8004B706, os.getpid()) == "ok"  # NS_GET_PID_FROM_PIDNS


LIMITS = """import os, resource, signal, sys
for _ in range(50):
    with open("/proc/sys/kernel/ns_last_pid", "w") as f:
        f.write(str(int(sys.argv[1]) - 1))
    pid = os.fork()
    if pid == 0:
        signal.pause()
    if pid == int(sys.argv[1]):
        break
resource.prlimit(pid, resource.RLIMIT_CORE, (0, 0))
print(pid)
"""


def numbered(at=AT):
    """The number in a path of /proc is of the PID namespace in which that /proc was mounted, whoever asks."""
    for g in ("/a", "/b", "/c"):
        os.mkdir(at + g)
    write(at + "/a/cgroup.procs", b"0")
    here, there, below = ("0::%s/%s" % (top_of(at), g) for g in "abc")
    other = subprocess.Popen(["sleep", "600"], preexec_fn=lambda: write(at + "/b/cgroup.procs", b"0"))
    numbers = (os.getpid(), other.pid)
    own = ("/proc/self/cgroup", "/proc/thread-self/cgroup")
    paths = "%s %s /proc/%d/cgroup /proc/%d/task/%d/cgroup" % (*own, numbers[0], numbers[1], numbers[1])
    got = shell("grep -h ^0:: " + paths, "unshare", "-pf")
    same("a namespace without a /proc of its own", got[1].split(), [here, here, here, there])
    if at == AT:
        script = "grep -c ' %s cgroup2 ' /proc/self/mounts /proc/thread-self/mounts /proc/%d/mounts" % (at, numbers[0])
        wanted = ["/proc/self/mounts:1", "/proc/thread-self/mounts:1", "/proc/%d/mounts:1" % numbers[0]]
        same("its table of mounts", shell(script, "unshare", "-pf")[1].split(), wanted)
        same("its cpuset", shell("cat /proc/self/cpuset", "unshare", "-pf")[1], "/\n")
        words = ["unshare", "-pf", sys.executable, "-c", LIMITS, "%d" % tracer()]
        got = subprocess.run(words, stdout=subprocess.PIPE, text=True, timeout=PATIENCE)
        same("one with a number of makhloeum gets a limit", (got.returncode, got.stdout), (0, "%d\n" % tracer()))
    if at != AT or translates():
        others_of(at, here, there, below)
    other.kill()
    other.wait()


HOLDS = "import os, time; os.dup2(os.open('/proc/self/cgroup', os.O_PATH), 9); time.sleep(600)"


def others_of(at, here, there, below):
    """A /proc of a namespace seen from one below it, and from outside."""
    script = """exec unshare -pf sh -c 'echo 0 >"$1/c/cgroup.procs"; exec grep -h ^0:: /proc/self/cgroup /proc/thread-self/cgroup' sh %s"""
    got = shell(script % at, "unshare", "-mpf", "--mount-proc")
    same("a namespace in one that has a /proc", got[1].split(), [below, below])
    # the first process of a namespace, and of one below it, which has another number there
    script = """for n in 1 2 3 4 5; do sh -c : & done; wait
echo 0 >"$1/b/cgroup.procs"
exec unshare -pf sh -c 'echo 0 >"$1/c/cgroup.procs"; read n rest </proc/self/stat; echo $n; exec "$2" -c "$3"' sh "$@" """
    p, first, deepest = container(script, at, sys.executable, HOLDS)
    root = "/proc/%d/root/proc" % first
    names = ["%s/%s/cgroup" % (root, who) for who in ("1", "1/task/1", deepest, "%s/task/%s" % (deepest, deepest))]
    same("a /proc of others", [own_line(name) for name in names], [[there], [there], [below], [below]])
    held = ["%s/%s/fd/9" % (root, who) for who in (deepest, "%s/task/%s" % (deepest, deepest))]
    step("one of them holds a text", until(lambda: os.path.islink(held[0])))
    same("by its descriptor", [own_line(name) for name in held], [[below], [below]])
    for name in ("self", "thread-self"):
        same("who isn't there has no %s" % name, error_of(read, "%s/%s/cgroup" % (root, name)), "ENOENT")
    script = "exec nsenter -t %d -p -m grep -h ^0:: /proc/self/cgroup /proc/1/cgroup /proc/%s/cgroup" % (first, deepest)
    same("from inside", shell(script)[1].split(), [here, there, below])
    folder = os.open("%s/%s" % (root, deepest), os.O_RDONLY)
    same("by a descriptor", own_line("/proc/%d/fd/%d/cgroup" % (os.getpid(), folder)), [below])
    os.close(folder)
    os.kill(first, signal.SIGKILL)
    p.communicate()


FSOPEN, FSCONFIG, FSMOUNT, FSPICK, MOVE_MOUNT = 430, 431, 432, 433, 429
SET_FLAG, SET_STRING, SET_BINARY, SET_PATH, SET_PATH_EMPTY, SET_FD, CREATE, RECONFIGURE, CREATE_ALONE = range(9)


def called(number, *words):
    """What a call returns, or the name of the errno."""
    got = libc.syscall(number, *(ctypes.c_long(w) if isinstance(w, int) else w for w in words))
    return got if got >= 0 else errno.errorcode[ctypes.get_errno()]


def configure(fd, command, key=None, value=None, number=0):
    return called(FSCONFIG, fd, command, key, value, number)


KNOWN = b"""ro rw sync async dirsync lazytime nolazytime mand nomand nsdelegate favordynmods memory_localevents memory_recursiveprot
memory_hugetlb_accounting pids_localevents""".split()


# Values that are neither flags nor texts.
OF_OTHER_KINDS = (
    (SET_BINARY, b"yy", 2),
    (SET_PATH, b"/", -100),
    (SET_PATH_EMPTY, b"", -100),
    (SET_FD, None, 0),
)


def attributes(path):
    """Mounts with the attributes that fsmount takes: what the tables of mounts say of them."""
    times, above = {"noatime", "relatime", "nodiratime"}, os.open(os.path.dirname(path), os.O_PATH)
    for attribute, some, others in (
        (0, {"rw", "relatime"}, {"ro", "nodiratime", "nosymfollow"}),
        (0x1, {"ro", "relatime"}, {"rw"}),
        (0x2, {"rw", "nosuid"}, {"ro"}),
        (0x4, {"rw", "nodev"}, {"ro"}),
        (0x8, {"rw", "noexec"}, {"ro"}),
        (0x10, {"noatime"}, times - {"noatime"}),
        (0x20, {"rw"}, times),
        (0x80, {"nodiratime", "relatime"}, {"noatime"}),
        (0x80 | 0x20, {"nodiratime"}, {"noatime", "relatime"}),
        (0x200000, {"nosymfollow", "relatime"}, {"ro"}),
    ):
        fd = called(FSOPEN, b"cgroup2", 0)
        configure(fd, CREATE)
        top = called(FSMOUNT, fd, 0, attribute)
        same("attribute %#x: it stays open at an exec" % attribute, fcntl.fcntl(top, fcntl.F_GETFD), 0)
        moved = called(MOVE_MOUNT, top, b"", above, os.path.basename(path).encode(), 4)
        same("attribute %#x: moved" % attribute, moved, 0)
        for name, place, column in (("mountinfo", 4, 5), ("mounts", 1, 3)):
            lines = [x.split() for x in open("/proc/self/" + name)]
            has = set(next(x[column] for x in lines if x[place] == path).split(","))
            same("attribute %#x in %s" % (attribute, name), (some - has, others & has), (set(), set()))
        libc.umount2(path.encode(), DETACH)
        os.close(top)
        os.close(fd)
    os.close(above)


def configured(at=AT):
    """A mount of cgroup2 that is made by the new calls, as libmount and LXC do it."""
    place, path = AT if at == AT else os.path.dirname(at), tempfile.mkdtemp()
    where, nowhere_to_read, without_end = path.encode(), ctypes.c_void_p(8), ctypes.c_void_p(end_of_memory() - 3)
    ctypes.memmove(without_end, b"abc", 3)
    os.mkdir(at + "/known")
    for name, wanted, words in (
        ("unknown flags", "EINVAL", (b"cgroup2", 2)),
        ("no name", "EFAULT", (None, 0)),
        ("an empty name", "ENODEV", (b"", 0)),
        ("a name that no file system has", "ENODEV", (b"nosuch" * 20, 0)),
    ):
        same("fsopen, %s" % name, called(FSOPEN, *words), wanted)
    for flags in (0, 1, 1 << 32):  # the kernel takes 32 bits
        fd = called(FSOPEN, b"cgroup2", flags)
        same("fsopen, flags %d" % flags, fcntl.fcntl(fd, fcntl.F_GETFD), flags & 1)
        os.close(fd)
    fd = called(FSOPEN, b"cgroup2", 1)
    got = [error_of(os.read, fd, 9), error_of(os.write, fd, b"x"), error_of(os.lseek, fd, 0, 0)]
    same("read, write and lseek", got, ["ENODATA", "EINVAL", "ESPIPE"])
    same("its permissions", os.fstat(fd).st_mode & 0o777, 0o600)
    same("writes of any size", {error_of(os.write, fd, bytes(size)) for size in range(1, 99)}, {"EINVAL"})
    messages = [b"makhloeum: step" + more for more in (b"", b"\0x", b"\0" * 99, b"\7", b"\xff")]
    same("messages of another size, or of no step", {error_of(os.write, fd, each) for each in messages}, {"EINVAL"})
    same("not made yet", (called(FSMOUNT, fd, 0, 0), configure(fd, RECONFIGURE)), ("EINVAL", "EBUSY"))
    wrong = [called(FSMOUNT, fd, *words) for words in ((2, 0), (0, 1 << 30), (0, 0x100000), (0, 0x30), (0, 0x60))]
    same("wrong flags and attributes", wrong, ["EINVAL"] * 5)
    for words, wanted in (
        ((99,), "ENOTSUP"),
        ((CREATE, b"x"), "EINVAL"),
        ((CREATE, None, b"x"), "EINVAL"),
        ((CREATE, None, None, 1), "EINVAL"),
        ((RECONFIGURE, b"x"), "EINVAL"),
        ((SET_FLAG,), "EINVAL"),
        ((SET_FLAG, b"ro", b"x"), "EINVAL"),
        ((SET_FLAG, b"ro", None, 1), "EINVAL"),
        ((SET_FLAG, b"rw"), 0),
        # the machine's superuser would change its groups by these
        *(((SET_FLAG, name), 0) for name in (KNOWN if at == AT else ())),
        *(((SET_STRING, name, b"1"), "EINVAL") for name in (KNOWN[9:] if at == AT else ())),
        ((SET_FLAG, b"nosuch"), "EINVAL"),
        ((SET_FLAG, b"source"), "EINVAL"),
        ((SET_FLAG, b"nodev"), "EINVAL"),
        ((SET_FLAG, b"k" * 256), "EINVAL"),
        ((SET_STRING, b"source", b"none"), 0),
        ((SET_STRING, b"source", b"none"), "EINVAL"),
        ((SET_STRING, b"source"), "EINVAL"),
        ((SET_STRING, b"nsdelegate", b"1"), "EINVAL"),
        ((SET_STRING, b"rw", b"1"), 0),
        ((SET_STRING, b"source", b"other"), "EINVAL"),
        ((SET_STRING, b"rw", b"1" * 255), 0),
        ((SET_STRING, b"rw", b"1" * 256), "EINVAL"),
        ((SET_STRING, b"rw", b"1", 1), "EINVAL"),
        ((SET_STRING, None, b"1"), "EINVAL"),
        ((SET_STRING, nowhere_to_read, b"x"), "EFAULT"),
        ((SET_STRING, without_end, b"x"), "EFAULT"),
        ((SET_STRING, b"source", nowhere_to_read), "EFAULT"),
        ((SET_STRING, b"k" * 256, nowhere_to_read), "EINVAL"),
        *(((command, b"rw", *words), 0) for command, *words in OF_OTHER_KINDS),
        *(((command, b"nsdelegate", *words), "EINVAL") for command, *words in OF_OTHER_KINDS),
        ((SET_BINARY, b"x", b"yy", 2), "EINVAL"),
        ((SET_BINARY, b"x", b"", 0), "EINVAL"),
        ((SET_PATH, b"source", b"/", -100), "EINVAL"),
        ((SET_PATH_EMPTY, b"source", b"", -100), "EINVAL"),
        ((SET_FD, b"source", None, 0), "EINVAL"),
        ((SET_FD, b"source", None, 999), "EBADF"),
        ((SET_FD, b"source", None, -1), "EINVAL"),
    ):
        same("fsconfig %s" % (words,), configure(fd, *words), wanted)
    text = os.open("/proc/self/cgroup", os.O_RDONLY)
    same(
        "of other descriptors", [configure(n, CREATE) for n in (0, 999, -1, text)], ["EINVAL", "EBADF", *["EINVAL"] * 2]
    )
    with tempfile.TemporaryDirectory() as folder, open(folder + "/.makhloeum.f", "w+b", buffering=0) as own:
        got = configure(own.fileno(), SET_FLAG, b"ro"), called(FSMOUNT, own.fileno(), 0, 0), own.seek(0, os.SEEK_END)
        same("of an own file with the name of one of the mount's", got, ("EINVAL", "EINVAL", 0))
    same("nor mounts", [called(FSMOUNT, n, 0, 0) for n in (0, 999)], ["EINVAL", "EBADF"])
    got = [configure(fd, CREATE), configure(fd, CREATE), configure(fd, SET_FLAG, b"rw"), configure(fd, RECONFIGURE)]
    same("made once", got, [0, "EBUSY", "EBUSY", "EBUSY"])
    wrong = [called(FSMOUNT, fd, *words) for words in ((2, 0), (0, 1 << 30), (0, 0x100000), (0, 0x30), (0, 0x60))]
    same("wrong flags and attributes of what is made", wrong, ["EINVAL"] * 5)
    got = [configure(fd, SET_BINARY, b"x", bytes(1 << 20), size) for size in (2, 0, -1, 1 << 20, (1 << 20) + 1)]
    same("the size of a value is checked before that", got, ["EBUSY", "EINVAL", "EINVAL", "EBUSY", "EINVAL"])
    for command, value, number, wanted in (
        (SET_PATH, b"/", -100, "EBUSY"),
        (SET_PATH, b"/", 0, "EBUSY"),
        (SET_PATH, b"/", -1, "EINVAL"),
        (SET_PATH, None, 0, "EINVAL"),
        (SET_PATH_EMPTY, b"", -100, "EBUSY"),
        (SET_PATH_EMPTY, b"", -2, "EINVAL"),
        (SET_FD, None, 0, "EBUSY"),
        (SET_FD, None, -1, "EINVAL"),
        (SET_FD, b"x", 0, "EINVAL"),
        (SET_FLAG, b"x", 0, "EINVAL"),
        (SET_FLAG, None, 0, "EBUSY"),
        (SET_STRING, b"x", 0, "EBUSY"),
    ):
        got = configure(fd, command, b"x", value, number)
        same("command %d, %s, %d: checked before that" % (command, value, number), got, wanted)
    top = called(FSMOUNT, fd, 1, 0x2 | 0x10)  # MOUNT_ATTR_NOSUID, MOUNT_ATTR_NOATIME
    same("mounted, and closed at an exec", fcntl.fcntl(top, fcntl.F_GETFD), 1)
    step("its root by the descriptor", os.stat("cgroup.procs", dir_fd=top))
    same("not twice", (called(FSMOUNT, fd, 1, 0), configure(fd, CREATE)), ("EBUSY", "EBUSY"))
    same("options after it", (configure(fd, SET_FLAG, b"rw"), configure(fd, SET_FLAG, b"nosuch")), (0, "EINVAL"))
    got = [configure(fd, SET_STRING, b"source", b"none") for _ in range(2)]
    same("a source again, and a second one", got, [0, "EINVAL"])
    if at == AT:
        same("and a change is the machine's superuser's", configure(fd, RECONFIGURE), "EPERM")
        same("then all is over", (configure(fd, SET_FLAG, b"rw"), called(FSMOUNT, fd, 0, 0)), ("EBUSY", "EBUSY"))
    os.close(fd)
    link = where + b".link"
    os.symlink(where, link)
    for to, flags, wanted in (
        (b"/nowhere", 4, "ENOENT"),
        (b"/etc/passwd", 4, "EINVAL"),
        (where, 1 << 12, "EINVAL"),
        (where, 4 | 1 << 12, "EINVAL"),
        (where, 0, "ENOENT"),
        (b"", 4, "ENOENT"),
        (link, 4, "EINVAL"),
    ):
        same("moved to %s, flags %d" % (to.decode(), flags), called(MOVE_MOUNT, top, b"", -100, to, flags), wanted)
    same("moved from a name", called(MOVE_MOUNT, top, b"x", -100, where, 4), "ENOENT")
    same("moved, by a link", called(MOVE_MOUNT, top, b"", -100, link, 0x1 | 0x2 | 0x4 | 0x10 | 0x20), 0)
    os.close(top)
    same("it is of the hierarchy", os.stat(path).st_ino == os.stat(place).st_ino, True)
    line = [x.split() for x in open("/proc/self/mountinfo") if " %s " % path in x]
    got = [(x[3], x[x.index("-") + 1], {"nosuid", "noatime"} <= set(x[5].split(","))) for x in line]
    same("its line", got, [("/", "cgroup2", True)])
    fd = called(FSPICK, -100, where, 1)
    same("picked", fcntl.fcntl(fd, fcntl.F_GETFD), 1)
    if at == AT:  # FUSE has no such option
        same("it is of cgroup2", configure(fd, SET_FLAG, b"nsdelegate"), 0)
    got = [configure(fd, SET_FLAG, b"rw"), configure(fd, CREATE), called(FSMOUNT, fd, 0, 0)]
    same("it is mounted already", got, [0, "EBUSY", "EBUSY"])
    os.close(fd)
    fd = os.open(path, os.O_PATH)
    for to, flags in ((b"", 8), (b".", 0), (where, 0), (where, 2 | 4), (link, 0)):
        picked = called(FSPICK, fd, to, flags)
        same("picked as %s, %d: stays at an exec" % (to.decode(), flags), fcntl.fcntl(picked, fcntl.F_GETFD), 0)
        if at == AT:
            same("and is of cgroup2", configure(picked, SET_FLAG, b"nsdelegate"), 0)
        os.close(picked)
    for to, flags, wanted in (
        (where, 16, "EINVAL"),
        (where + b"/cgroup.procs", 0, "EINVAL"),
        ((path + at[len(place) :] + "/known").encode(), 0, "EINVAL"),
        (b"/nowhere", 0, "ENOENT"),
        (b"", 0, "ENOENT"),
        (link, 2, "EINVAL"),
    ):
        same("fspick of %s, flags %d" % (to.decode(), flags), called(FSPICK, fd, to, flags), wanted)
    os.unlink(link)
    other = tempfile.mkdtemp()
    same("what has its place is moved on", called(MOVE_MOUNT, fd, b"", -100, other.encode(), 4), 0)
    there = [os.path.exists(place + "/cgroup.procs") for place in (path, other)]
    same("and has left the former one", there, [False, True])
    os.close(fd)
    libc.umount2(other.encode(), DETACH)
    os.rmdir(other)
    attributes(path)
    fd = called(FSOPEN, b"cgroup2", 0)
    got = [configure(fd, CREATE_ALONE), configure(fd, CREATE), called(FSMOUNT, fd, 0, 0)]
    same("one that nobody else has", got, ["EBUSY", "EBUSY", "EINVAL"])
    os.close(fd)
    os.rmdir(path)


def kept_apart():
    """A mount that is read-only, in a cgroup namespace that begins at a group, by a descriptor of the place."""
    path = tempfile.mkdtemp()
    os.mkdir(AT + "/a")
    os.mkdir(AT + "/a/below")
    pid = os.fork()
    if pid == 0:
        into("/a")
        libc.unshare(CLONE_NEWCGROUP)
        fd, to = called(FSOPEN, b"cgroup2", 0), os.open(path, os.O_PATH)
        configure(fd, CREATE)
        top = called(FSMOUNT, fd, 0, 1)
        moved = called(MOVE_MOUNT, top, b"", to, b"", 4 | 0x40)
        right = moved == 0 and os.path.exists(path + "/below")
        os._exit(0 if right and error_of(os.mkdir, path + "/new") == "EROFS" else 1)
    same("it is right", os.waitpid(pid, 0)[1], 0)
    libc.umount2(path.encode(), DETACH)
    fd = called(FSOPEN, b"cgroup2", 0)
    configure(fd, CREATE)
    top, fresh = called(FSMOUNT, fd, 0, 0), called(FSOPEN, b"cgroup2", 0)
    if os.fork() == 0:
        time_of_capabilities = (ctypes.c_uint32 * 2)(0x20080522, 0), (ctypes.c_uint32 * 6)()
        libc.capset(*time_of_capabilities)
        got = [
            called(MOVE_MOUNT, top, b"", -100, path.encode(), 4),
            called(FSMOUNT, fd, 0, 0),
            called(FSOPEN, b"cgroup2", 2),
            configure(fresh, CREATE),
            called(FSPICK, -100, AT.encode(), 0),
        ]
        os._exit(0 if got == ["EPERM"] * 5 else 1)
    same("without privileges", os.wait()[1], 0)
    os.rmdir(path)


def over(at=AT):
    """The same file system is mounted at a place only once; below its own root it may be."""
    home, place = tempfile.mkdtemp(), AT if at == AT else os.path.dirname(at)
    os.mkdir(at + "/g")
    file = home + "/file"
    open(file, "w").close()
    same("over the hierarchy", error_of(mount, place), "EBUSY")
    same("read-only", (libc.mount(b"x", place.encode(), b"cgroup2", 1, None), ctypes.get_errno()), (-1, errno.EBUSY))
    for where in (at + "/g", home):
        same("at another place, twice", (error_of(mount, where), error_of(mount, where)), ("ok", "EBUSY"))
        step("its root is there", os.path.exists(where + "/cgroup.procs"))
        same("it goes", libc.umount2(where.encode(), DETACH), 0)
    libc.mount((at + "/g").encode(), home.encode(), None, BIND, None)
    same("over a group that is mounted", error_of(mount, home), "EBUSY")
    libc.umount2(home.encode(), DETACH)
    same("over a file of a group", error_of(mount, at + "/g/cgroup.procs"), "ENOTDIR")
    libc.mount((at + "/g/cgroup.procs").encode(), file.encode(), None, BIND, None)
    same("over one that is mounted", error_of(mount, file), "EBUSY")
    libc.umount2(file.encode(), DETACH)
    os.unlink(file)
    os.rmdir(home)
    if at == AT:
        libc.mount(b"own", AT.encode(), b"tmpfs", 0, None)
        same("over something else at its usual place", error_of(mount, AT), "ok")
        there = [line.split()[2] for line in open("/proc/self/mounts") if line.split()[1] == AT]
        same("all three are listed, in their order", there, ["cgroup2", "tmpfs", "cgroup2"])
        for kind in ("cgroup2", "tmpfs"):
            same("%s goes again" % kind, libc.umount2(AT.encode(), DETACH), 0)
        same("and the hierarchy is there", os.path.isdir(AT + "/g"), True)


def unprivileged():
    same("a mount without privileges", error_of(mount, "/tmp"), "EPERM")
    same("over the hierarchy", error_of(mount, AT), "EPERM")
    nowhere("cgroup2", "cgroup", "tmpfs")
    closed_to = os.path.join(tempfile.mkdtemp(), "closed")
    os.mkdir(closed_to, 0)
    for kind in ("cgroup2", "cgroup", "tmpfs"):
        same("of %s in a folder that it may not search" % kind, error_of(mount, closed_to + "/x", kind), "EACCES")
    os.rmdir(closed_to)
    for kind in (b"cgroup", b"tmpfs"):
        got = libc.mount(b"none", b"/tmp", kind, 0, None), ctypes.get_errno()
        same("of %s" % kind.decode(), got, (-1, errno.EPERM))
    for kind, wanted in ((b"cgroup2", errno.EPERM), (b"tmpfs", errno.EPERM)):
        same("fsopen of %s" % kind.decode(), (libc.syscall(430, kind, 0), ctypes.get_errno()), (-1, wanted))
    same("nor a namespace", (libc.unshare(CLONE_NEWCGROUP), ctypes.get_errno()), (-1, errno.EPERM))
    same("then all is as before", read("/proc/self/cgroup"), b"0::/\n")


ALLOWS_ALL = """import ctypes, struct
libc = ctypes.CDLL(None)
code = ctypes.create_string_buffer(struct.pack("HBBI", 6, 0, 0, 0x7FFF0000))
libc.prctl(38, 1, 0, 0, 0)
libc.prctl(22, 2, ctypes.create_string_buffer(struct.pack("HxxxxxxP", 1, ctypes.addressof(code))), 0, 0)
print(open("/proc/self/cgroup").read(), end="")
"""


def replaced():
    """A thread's exec ends the first one in its unshare, which takes long beside many mounts. The namespace is lost with it, and the next
    program, which adds a filter of seccomp, has none."""
    os.mkdir(AT + "/a")
    into("/a")
    home = tempfile.mkdtemp()
    same("its own mounts", libc.unshare(CLONE_NEWNS), 0)
    libc.mount(b"many", home.encode(), b"tmpfs", 0, None)
    for i in range(14):
        os.mkdir("%s/%d" % (home, i))
        libc.mount(home.encode(), b"%s/%d" % (home.encode(), i), None, BIND | REC, None)

    def execute(first):
        time.sleep(0.01)
        until(lambda: read("/proc/self/task/%d/stat" % first).rpartition(b")")[2].split()[0] == b"R")
        os.execv(sys.executable, [sys.executable, "-c", ALLOWS_ALL])

    for _ in range(5):
        r, w = os.pipe()
        pid = os.fork()
        if pid == 0:
            os.dup2(w, 1)
            threading.Thread(target=execute, args=(os.getpid(),)).start()
            libc.unshare(CLONE_NEWNS | CLONE_NEWCGROUP)
            time.sleep(600)
        os.waitpid(pid, 0)
        same("its group after the exec", os.read(r, 99), b"0::/a\n")
        os.close(r)
        os.close(w)


class Rooted:
    """A process whose cgroup namespace begins at its group, and the number of that namespace."""

    def __init__(self, group):
        (orders, self.asks), (self.told, answers) = os.pipe(), os.pipe()
        os.makedirs(AT + group, exist_ok=True)
        self.pid = os.fork()
        if self.pid == 0:
            into(group)
            libc.unshare(CLONE_NEWCGROUP)
            os.write(answers, b"%20d" % os.stat("/proc/self/ns/cgroup").st_ino)
            while os.read(orders, 1):
                os.write(answers, b"%20s" % read("/proc/self/cgroup").strip())
        self.number = int(os.read(self.told, 20))

    def group(self):
        os.write(self.asks, b"x")
        return os.read(self.told, 20).strip()

    def end(self):
        os.kill(self.pid, signal.SIGKILL)
        os.waitpid(self.pid, 0)


def numbered_again():
    """The kernel gives the number of a namespace that ended to a new one: the others keep their roots."""
    later = [Rooted("/a")]
    while len(later) < 60 and later[-1].number >= later[-2:][0].number:
        low, high = sorted((Rooted("/a"), Rooted("/b")), key=lambda it: it.number)
        low.end()
        later += [high, Rooted("/c")]
    step("a new one has a lower number than one before it", later[-1].number < later[-2].number, len(later))
    same("each is where its namespace begins", {it.group() for it in later}, {b"0::/"})
    for it in later:
        it.end()


def apart():
    """Outside: mounts that are made on the machine later are not seen in a run, also where mounts are shared."""
    home = tempfile.mkdtemp()
    os.mkdir(home + "/at")
    os.mkfifo(home + "/go")
    script = """mkdir sub && mount -t tmpfs none sub && mkdir sub/at && mount --make-rshared /
"$0" run sh -c 'echo; read x < go; grep -c " $1 " /proc/self/mounts; ls $1 sub/at' sh "$1" >out &
until [ -s out ]; do sleep 0.05; done
for at in "$1" sub/at; do mount -t tmpfs none $at && echo x >$at/later; done; echo >go && wait $! ; cat out"""
    ran = subprocess.run(
        ["unshare", "-Urm", "sh", "-c", script, PROGRAM, home + "/at"],
        cwd=home,
        stdout=subprocess.PIPE,
        timeout=4 * PATIENCE,
    )
    same("mounts of the machine that came later", ran.stdout, b"\n0\n%s/at:\n\nsub/at:\n" % home.encode())


INSIDE = (
    namespaces,
    pairs,
    mounts,
    rooted,
    others,
    rewritten,
    covered,
    beneath,
    crossed,
    threads,
    confined,
    closed,
    described,
    crowded,
    cpusets,
    uncounted,
    unprivileged,
    born,
    numbered,
    over,
    configured,
    kept_apart,
    replaced,
    numbered_again,
)
KERNEL = (born, numbered, over, configured)
OPTIONS = {
    unprivileged: [],
    closed: [],
    described: [],
    uncounted: ["--root", "--threads=no"],
    cpusets: ["--root", "--keep", "cpuset"],
}
FIRST = (by_chroot, by_unshare, by_clone, by_setns, by_pivot_root)
inside(*INSIDE, *FIRST)
if sys.argv[1:] == ["kernel"]:
    for test in KERNEL:
        with new_group() as group:
            words = ["unshare", "-m", sys.executable, ME, "inside", test.__name__, group]
            if group:
                same("the status of %s" % test.__name__, subprocess.run(words, timeout=6 * PATIENCE).returncode, 0)
    finish()
wanted = [test for test in INSIDE if test.__name__ in sys.argv[1:]]
for test in wanted or (INSIDE if sys.argv[1:] != ["roots"] else ()):
    how = OPTIONS.get(test, ["--root"])
    ran = subprocess.run(
        [PROGRAM, "run", *how, sys.executable, ME, "inside", test.__name__],
        timeout=6 * PATIENCE,
        stderr=subprocess.PIPE,
    )
    same("the status of %s" % test.__name__, (ran.returncode, ran.stderr), (0, b""))
if sys.argv[1:] != ["roots"] and not wanted:
    apart()
for test in FIRST if not wanted else ():
    if test in (by_setns, by_pivot_root) and os.geteuid():
        step("%s is left out: only the superuser may" % test.__name__, True)
        continue
    words = [PROGRAM, "run", sys.executable, ME, "inside", test.__name__]
    ran = subprocess.Popen(words, stdin=subprocess.PIPE, stdout=subprocess.PIPE, text=True)
    there = None
    if test is by_setns:
        home, pid = tempfile.mkdtemp(), ran.stdout.readline().strip()
        script = 'mount --rbind /proc "$1"; echo; exec sleep 600'
        words = ["nsenter", "-t", pid, "-U", "-m", "--preserve-credentials", "unshare", "-m", "sh", "-ec", script, "sh"]
        there = subprocess.Popen([*words, home], stdout=subprocess.PIPE)
        there.stdout.readline()
        ran.stdin.write("%d %s\n" % (there.pid, home))
        ran.stdin.flush()
    print(ran.communicate(timeout=6 * PATIENCE)[0], end="")
    same("the status of %s" % test.__name__, ran.returncode, 0)
    if there:
        there.kill()
        there.wait()
finish()
