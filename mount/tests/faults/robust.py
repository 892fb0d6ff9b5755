"""Clients that die, full devices, and mounts that go while they are used."""
import contextlib
import ctypes
import errno
import fcntl
import glob
import os
import random
import shutil
import signal
import subprocess
import sys
import tempfile
import threading
import time

sys.path.insert(0, os.path.dirname(os.path.dirname(os.path.realpath(__file__))))
from support import AT, PATIENCE, PROGRAM, Beside, Mount, companions_of, in_parallel
from support import error_of, finish, is_alive, libc, line_of, own_of, parent_of, read, same, server_and_helper
from support import status_within, step, until, write

ME = os.path.realpath(__file__)
CLIENT = """import os, sys
at = sys.argv[1]
while True:
    for f, v in (("a/pids.max", b"5"), ("a/pids.max", b"max"), ("a/cgroup.procs", b"1"), ("cgroup.procs", b"1")):
        fd = os.open(at + "/" + f, os.O_WRONLY | os.O_TRUNC)
        os.write(fd, v)
        os.read(os.open(at + "/a/cgroup.events", 0), 99)
        os.close(fd)
"""


def dying_clients():
    m = Mount()
    os.mkdir(m.path("a"))
    dice = random.Random(1)
    clients = [subprocess.Popen([sys.executable, "-c", CLIENT, m.at]) for _ in range(10)]
    for _ in range(40):
        time.sleep(0.02)
        i = dice.randrange(10)
        clients[i].kill()
        clients[i].wait()
        clients[i] = subprocess.Popen([sys.executable, "-c", CLIENT, m.at])
    threads = lambda: len(os.listdir("/proc/%d/task" % m.process.pid))  # the first waits for the others
    step("several threads answer them", until(lambda: threads() > 3), threads())
    for c in clients:
        c.kill()
        c.wait()
    step(
        "forty clients were killed, and the mount answers",
        read(m.path("a", "cgroup.stat")).startswith(b"nr_descendants 0\n"),
    )
    step("the threads that answered them stay", threads() > 3, threads())
    m.end()


def full_device():
    m = Mount(trace="/dev/full")
    same("a mkdir whose line cannot be kept", error_of(os.mkdir, m.path("a")), "ENOSPC")
    same("nor a read's", error_of(read, m.path("cgroup.procs")), "ENOSPC")
    step("neither was done", not os.path.exists(m.path("a")) and read(m.control("depth")) == b"0\n")
    m.end(replayed=False)


def full_in_between():
    m = Mount(limit=(600, 600))
    errors = [error_of(os.mkdir, m.path("group%d" % i)) for i in range(100)]
    made = errors.count("ok")
    step("of 100 groups %d had room in the trace" % made, 5 < made < 100 and set(errors) == {"ok", "EFBIG"})
    same("that number of groups exists", sum(n.startswith("group") for n in os.listdir(m.at)), made)
    same("the trace ends with a whole line", open(m.trace).read()[-1:], "\n")
    m.end()


def unmounted_while_open():
    m = Mount()
    os.mkdir(m.path("a"))
    fd = os.open(m.path("a", "pids.max"), os.O_RDWR)
    step("an unmount while a file is open is refused", m.unmount() != 0)
    same("a lazy one is not", m.unmount("-z"), 0)
    same("the file still works", (os.write(fd, b"5\n"), os.pread(fd, 9, 0)), (2, b"5\n"))
    os.close(fd)
    same("its close ends the process", m.ended(), 0)
    step("cgreplay gives the same answers", m.replay())


def refused_at_first(slow):
    """A call that is refused while the thread that has answered the first request has not gone on yet."""
    m = Mount(preload=slow)
    same("a name that is missing", [error_of(os.stat, m.path("none%d" % i)) for i in range(5)], ["ENOENT"] * 5)
    same("a group", error_of(os.mkdir, m.path("a")), "ok")
    m.end()


def unmounted_with_a_request_pending(preload):
    """The server's read fails with ECONNABORTED in place of ENODEV; the mount ends as ever."""
    m = Mount(preload=preload)
    os.mkdir(m.path("a"))
    m.end()


def broken_at_last(preload):
    """The server's read fails with EIO. The status is not that of a mount which could not begin, and only libfuse says why."""
    m = Mount(preload=preload)
    os.mkdir(m.path("a"))
    step("a mount whose device breaks is unmounted", m.unmounted())
    same("its status", m.ended(), 1)
    said = m.words()
    step("libfuse says why", said.endswith(": Input/output error\n") and "makhloeum" not in said, said)


def without_threads(preload):
    """No thread can be made beside the first that answers. That one goes on, and libfuse's words about each attempt are left out."""
    m = Mount(preload=preload)
    os.mkdir(m.path("a"))
    texts = []
    in_parallel(lambda _: texts.append(read(m.path("a", "pids.max"))), range(50), lanes=5)
    same("one thread answers five clients", texts, [b"max\n"] * 50)
    m.end()
    at = tempfile.mkdtemp()
    words, preload = [PROGRAM, "mount", "--foreground", at], {"LD_PRELOAD": preload, "NO_THREAD": "1"}
    ran = subprocess.run(words, stderr=subprocess.PIPE, timeout=PATIENCE, env=dict(os.environ, **preload))
    said = b"makhloeum: the file system cannot be served: Resource temporarily unavailable\n"
    same("without that one it does not begin", (ran.returncode, ran.stderr), (2, said))
    os.rmdir(at)


def ended_alone():
    """A server that a signal ends unmounts by itself: its companion was killed before."""
    m = Mount()
    companions = companions_of(m.process.pid)
    for companion in companions:
        os.kill(companion, signal.SIGKILL)
    step("its companion is gone", len(companions) == 1 and until(lambda: not is_alive(companions[0])))
    m.process.send_signal(signal.SIGTERM)
    same("its status, and what it says", (m.ended(), m.words()), (0, ""))
    same("the mount is gone with it", " %s " % m.at in open("/proc/self/mounts").read(), False)
    shutil.rmtree(m.home)


def ended_while_open(how, name):
    m = Mount()
    os.mkdir(m.path("a"))
    fd = os.open(m.path("a", "pids.max"), os.O_RDWR)
    for companion in companions_of(m.process.pid):
        os.kill(companion, signal.SIGTERM)  # as all processes of a session get them
        os.kill(companion, signal.SIGINT)
    watch = libc.inotify_init()
    libc.inotify_add_watch(watch, m.path("a", "cgroup.events").encode(), 2)  # IN_MODIFY
    write(m.path("a", "cgroup.procs"), b"1")
    same("a signal ends no companion: a watch is told", (Beside(os.read, watch, 100).result() or b"")[4:8], b"\2\0\0\0")
    os.close(watch)
    m.process.send_signal(how)
    m.ended()
    step(
        "%s ends it, and the mount is gone" % name,
        until(lambda: error_of(os.listdir, m.at) == "ok" and not os.path.ismount(m.at)),
    )
    step("an open file tells an error", error_of(os.pread, fd, 9, 0) in ("ENOTCONN", "ECONNABORTED"))
    error_of(os.close, fd)


def moved():
    """A folder above the mount has another name: a watch is told all the same, and a killed server leaves no mount."""
    m = Mount()
    os.mkdir(m.path("a"))
    home = m.home + " \\\t\n#"  # a table of mounts shows these by their numbers
    os.rename(m.home, home)
    at = home + "/at"
    watch = libc.inotify_init()
    libc.inotify_add_watch(watch, (at + "/a/cgroup.events").encode(), 2)  # IN_MODIFY
    write(at + "/a/cgroup.procs", b"1")
    same("a watch is told", (Beside(os.read, watch, 100).result() or b"")[4:8], b"\2\0\0\0")
    os.close(watch)
    m.process.kill()
    m.process.wait()
    step("the mount is gone", until(lambda: error_of(os.listdir, at) == "ok" and not os.path.ismount(at)))
    shutil.rmtree(home)


def killed_under_load():
    m = Mount()
    errors = []

    def client(n):
        try:
            while True:
                os.mkdir(m.path("c%d" % n))
                read(m.path("c%d" % n, "pids.current"))
                os.rmdir(m.path("c%d" % n))
        except OSError as e:
            errors.append(e)

    clients = [threading.Thread(target=client, args=(n,), daemon=True) for n in range(10)]
    for c in clients:
        c.start()
    time.sleep(0.3)
    m.process.kill()
    for c in clients:
        c.join(PATIENCE)
    step("ten clients of a killed mount all come back with an error", len(errors) == 10)
    # of a dead one that is still there Python's ismount is False too
    step("and the mount is gone", until(lambda: error_of(os.listdir, m.at) == "ok" and not os.path.ismount(m.at)))


def bad_lines():
    for words in (
        [],
        ["mount"],
        ["run"],
        ["mount", "--bogus", "/tmp"],
        ["mount", "/nowhere/at/all"],
        ["mount", "/tmp", "x"],
        ["run", "--adopt", "true"],
        ["run", "--foreground", "true"],
        ["run", "--trace"],
        ["run", "--root", "--keep"],
        ["mount", "--users", "/tmp"],
    ):
        ran = subprocess.run([PROGRAM, *words], stderr=subprocess.PIPE, timeout=PATIENCE)
        same("makhloeum %s" % " ".join(words), (ran.returncode, ran.stderr.count(b"\n")), (2, 1))
    same("--help", subprocess.run([PROGRAM, "--help"], stdout=subprocess.PIPE).returncode, 0)


def subcommands():
    """A program makhloeum-NAME is started with its words; what can't be such a name is no command."""
    folder = tempfile.mkdtemp()
    program = os.path.join(folder, "makhloeum-hello")
    with open(program, "w") as f:
        f.write('#!/bin/sh\necho "$0 $@"\nexit 7\n')
    os.chmod(program, 0o755)
    path = dict(os.environ, PATH="%s:%s" % (folder, os.environ["PATH"]))

    def said(*words):
        ran = subprocess.run([PROGRAM, *words], env=path, stdout=subprocess.PIPE, stderr=subprocess.PIPE)
        return ran.returncode, ran.stdout.decode(), ran.stderr.decode()

    same("one on PATH", said("hello", "a", "b c"), (7, program + " a b c\n", ""))
    absent = "makhloeum: 'nosuch' is not a command, and there is no makhloeum-nosuch on PATH; makhloeum --help lists the commands\n"
    same("one that is not there", said("nosuch"), (2, "", absent))
    for word in ("hello/", "../hello", "Hello", "h" * 65, ""):
        told = "makhloeum: '%s' is not a command; makhloeum --help lists them\n" % word
        same("no name: %.9s" % word, said(word), (2, "", told))
    shutil.rmtree(folder)


def session_of(pid):
    """The session of a process, None if the process has just ended, as one that the start left."""
    try:
        return os.getsid(pid)
    except ProcessLookupError:
        return None


def link_of(pid, name):
    """Where a link in a process's folder of /proc leads. Once a process is ending, its descriptors belong to root."""
    try:
        return os.readlink("/proc/%d/%s" % (pid, name))
    except (FileNotFoundError, PermissionError, ProcessLookupError) as e:
        return "unreadable: %s" % e.strerror


def background(closed=""):
    """Without --foreground; `closed` are the shell's words for standard streams that are not there."""
    at = tempfile.mkdtemp()
    ran = subprocess.run(
        ["sh", "-c", '"$0" mount "$1" ' + closed, PROGRAM, at],
        stdin=subprocess.PIPE,
        stdout=subprocess.PIPE,
        stderr=subprocess.PIPE,
        timeout=PATIENCE,
    )
    got = ran.returncode, ran.stdout, ran.stderr, os.path.ismount(at)
    same("mount %sreturns once it is there" % closed, got, (0, b"", b"", True))
    os.mkdir(at + "/a")
    same("and stays", (read(at + "/a/pids.current"), os.path.ismount(at)), (b"0\n", True))
    line = b"".join(word.encode() + b"\0" for word in (PROGRAM, "mount", at))
    ours = [int(n) for n in os.listdir("/proc") if n.isdigit() and line_of(int(n)) == line]
    sessions = {session_of(pid) for pid in ours} - {None}
    step("out of reach of the caller's terminal", sessions and os.getsid(0) not in sessions, ours)
    streams = lambda: {link_of(pid, "fd/%d" % fd) for pid in ours if is_alive(pid) for fd in range(3)}
    step("with no stream of the caller's", until(lambda: streams() == {"/dev/null"}), streams())
    # of each process, beside its streams
    links = lambda: [sorted(links_of(pid)) for pid in ours if is_alive(pid)]
    kept = lambda: [link for each in links() for link in each if link.startswith(("/dev/null", "pipe:"))]
    step("and nothing else of its start", until(lambda: kept() == ["/dev/null"] * 3 * len(links())), links())
    step(
        "fusermount3 -u unmounts it",
        until(lambda: subprocess.run(["fusermount3", "-u", at], stderr=-3).returncode == 0),
    )
    os.rmdir(at)


def relative():
    """A directory that is named from the working directory; the mount keeps neither that nor the one above in use."""
    home = tempfile.mkdtemp()
    os.mkdir(home + "/at")
    os.symlink("at", home + "/link")
    for name in ("at", "./at/", "../%s/at" % os.path.basename(home), "link"):
        ran = subprocess.run([PROGRAM, "mount", name, "--extra"], cwd=home, timeout=PATIENCE)
        same("mount of %s" % name, (ran.returncode, os.path.ismount(home + "/at")), (0, True))
        line = b"".join(word.encode() + b"\0" for word in (PROGRAM, "mount", name, "--extra"))
        ours = [int(n) for n in os.listdir("/proc") if n.isdigit() and line_of(int(n)) == line]
        folders = lambda: {link_of(pid, "cwd") for pid in ours if is_alive(pid)}
        step("where its processes work", len(ours) >= 2 and until(lambda: folders() == {"/proc"}), folders())
        os.mkdir(home + "/at/a")
        watch = libc.inotify_init()
        libc.inotify_add_watch(watch, (home + "/at/a/cgroup.events").encode(), 2)  # IN_MODIFY
        write(home + "/at/a/cgroup.freeze", b"1")
        same("a watch is told", (Beside(os.read, watch, 100).result() or b"")[4:8], b"\2\0\0\0")
        os.close(watch)
        if name == "link":
            server = max(filter(is_alive, ours), key=lambda pid: len(glob.glob("/proc/%d/task/*" % pid)))
            os.kill(server, signal.SIGKILL)
        else:
            step(
                "unmounted",
                until(lambda: subprocess.run(["fusermount3", "-u", home + "/at"], stderr=-3).returncode == 0),
            )
        step("it goes", until(lambda: not any(line_of(pid) == line for pid in ours)))
        step("and the mount with it", until(lambda: error_of(os.listdir, home + "/at") == "ok"))
        same("nothing is mounted", (os.path.ismount(home + "/at"), os.listdir(home + "/at")), (False, []))
    shutil.rmtree(home)


def over():
    """Something else is mounted over a mount whose server is killed: that stays. It needs a namespace, in which one may mount."""
    ran = subprocess.run(["unshare", "-Urm", sys.executable, ME, "over"], timeout=4 * PATIENCE)
    same("in a namespace: its status", ran.returncode, 0)


def covered():
    at = tempfile.mkdtemp()
    server = subprocess.Popen([PROGRAM, "mount", at, "--foreground"])
    step("it is mounted", until(lambda: os.path.ismount(at)))
    companions = companions_of(server.pid)
    os.mkdir(at + "/g")
    events, procs = (
        os.open(at + "/g/cgroup." + name, how) for name, how in (("events", os.O_RDONLY), ("procs", os.O_WRONLY))
    )
    same("a mount over it", libc.mount(b"none", at.encode(), b"tmpfs", 0, None), 0)
    os.mkdir(at + "/g")
    mine = at + "/g/cgroup.events"
    with open(mine, "w") as f:
        f.write("x")
    os.utime(mine, (7, 7))
    os.write(procs, b"1\n")
    same("a change below it", os.pread(events, 99, 0), b"populated 1\nfrozen 0\n")
    server.kill()
    server.wait()
    step("its companion ends", len(companions) == 1 and until(lambda: not is_alive(companions[0])))
    same("what is over it stays", (os.listdir(at), os.listdir(at + "/g")), (["g"], ["cgroup.events"]))
    same("and has its time", os.stat(mine).st_mtime, 7)


def unaided():
    """The companion unmounts what a killed server leaves, without fusermount3 where it may, also while it is used."""
    at = tempfile.mkdtemp()
    server = subprocess.Popen([PROGRAM, "mount", at, "--foreground"], env=dict(os.environ, PATH="/nowhere"))
    step("it is mounted", until(lambda: os.path.ismount(at)))
    fd = os.open(at, os.O_RDONLY)
    server.kill()
    server.wait()
    step("it goes", until(lambda: error_of(os.listdir, at) == "ok" and not os.path.ismount(at)))
    os.close(fd)


def unheard():
    """Nobody reads what makhloeum says: that ends no run, and a mount that is refused has its own status."""
    r, w = os.pipe()
    os.close(r)
    at = tempfile.mkdtemp()
    os.chmod(at, 0o555)
    p = subprocess.Popen([PROGRAM, "mount", at, "--foreground"], stderr=w)
    same("a mount on what may not be written", status_within(p), 2)
    os.rmdir(at)
    code = "import ctypes, os\nctypes.CDLL(None).ptrace(0, 0, 0, 0)\nprint(open('/proc/self/cgroup').read(), end='')"
    ran = subprocess.run(
        [PROGRAM, "run", sys.executable, "-c", code], stdout=subprocess.PIPE, stderr=w, timeout=2 * PATIENCE
    )
    same("a run", (ran.returncode, ran.stdout), (0, b"0::/\n"))
    os.close(w)


def parts():
    """If the server or the helper of a run is killed, so is the program, and one sentence says it, also to nobody."""
    for part, why in (("server", "the mount has ended"), ("helper", "a process of the supervisor has ended")):
        for is_heard in (True, False):
            r, w = os.pipe()
            p = subprocess.Popen([PROGRAM, "run", "sleep", "600"], stderr=w)
            os.close(w)
            numbers = lambda: [int(n) for n in os.listdir("/proc") if n.isdigit() and parent_of(int(n)) == p.pid]
            step("it runs", until(lambda: any(line_of(n).startswith(b"sleep") for n in numbers())))
            found = lambda: server_and_helper(p.pid)
            step("all its parts", until(lambda: len(own_of(p.pid)) == 3 and len(found()) == 2), own_of(p.pid))
            # where the kernel shares processors out among sessions, the program's processes don't leave them less
            # (the program may begin before the companion leads one)
            lead = lambda: [session_of(n) == n for n in own_of(p.pid)]
            step("each leads a session", until(lambda: lead() == [True] * 3), lead())
            if not is_heard:
                os.close(r)
            os.kill(found()[part == "helper"], signal.SIGKILL)
            same("the %s is killed: the status of the run" % part, status_within(p), 128 + signal.SIGKILL)
            if is_heard:
                same("what is said", os.read(r, 999), ("makhloeum: %s\n" % why).encode())
                os.close(r)


def stopped():
    """The supervisor of a run is killed: each of its parts ends, also one that is stopped, which hears of nothing."""
    p = subprocess.Popen([PROGRAM, "run", "sleep", "600"])
    step("all parts are there", until(lambda: len(own_of(p.pid)) == 3 and len(server_and_helper(p.pid)) == 2))
    own = own_of(p.pid)
    for pid in own:
        os.kill(pid, signal.SIGSTOP)
    p.kill()
    p.wait()
    step("all of them end", until(lambda: not any(map(is_alive, own))))


def errors_of(*calls):
    """The name of the errno of each of these calls of the C library, or "ok"."""
    return ["ok" if call() >= 0 else errno.errorcode[ctypes.get_errno()] for call in calls]


def mounts_at(place):
    """Calls of a program that would mount, or begin a mount."""
    return [lambda kind=kind: libc.mount(b"x", place, kind, 0, None) for kind in (b"cgroup2", b"cgroup", b"tmpfs")]


def gone():
    """Inside: whoever called is said to have ended meanwhile. Nothing is written or mounted in its place, which another may have by now."""
    described, place = (ctypes.c_long * 32)(), tempfile.mkdtemp().encode()
    fd = os.open(AT, os.O_RDONLY)
    got = errors_of(lambda: libc.statfs(AT.encode(), described), lambda: libc.fstatfs(fd, described))
    same("both calls of statfs, and what is written", (got, set(described)), (["EFAULT"] * 2, {0}))
    begin, _, other = mounts_at(place)
    same("mounts", errors_of(begin, other, lambda: libc.syscall(430, b"tmpfs", 0)), ["EPERM"] * 3)  # fsopen
    same("none is there", os.path.ismount(place), False)
    os.rmdir(place)


def not_found():
    """Inside: without memory to find what a call is about the call fails, and shows or mounts nothing of the machine's."""
    short, place = os.environ["NOT_FOUND"], tempfile.mkdtemp().encode()
    described, group = (ctypes.c_long * 32)(), os.open(AT, os.O_RDONLY)
    args = (ctypes.c_uint64 * 11)(0x200000000, 0, 0, 0, signal.SIGCHLD, 0, 0, 0, 0, 0, group)  # CLONE_INTO_CGROUP
    text = lambda name: lambda: libc.open(name, os.O_RDONLY)
    os.chdir("/proc/self")
    for what, *calls in (
        ("root", text(b"/proc/self/cgroup"), lambda: libc.statfs(AT.encode(), described), *mounts_at(place)),
        ("fd", lambda: libc.fstatfs(group, described), lambda: libc.syscall(435, args, 88)),
        ("cwd", text(b"cgroup"), mounts_at(place)[0], mounts_at(place)[2]),
        ("mounts", text(b"/proc/self/mounts")),
        ("ns", mounts_at(place)[0], mounts_at(place)[2]),
    ):
        os.mkdir("%s/%s" % (short, what))
        got = errors_of(*calls)
        os.rmdir("%s/%s" % (short, what))
        same("without memory for N/%s" % what, got, ["ENOMEM"] * len(calls))
    same("none is mounted", os.path.ismount(place), False)
    same("then there is a text", read("/proc/self/cgroup"), b"0::/\n")
    os.rmdir(place)


def preloaded(test):
    """A run of this test, in which makhloeum has the library of its name."""
    library = os.path.join(os.path.dirname(PROGRAM), test.__name__ + ".so")
    words = [PROGRAM, "run", "--root", sys.executable, ME, test.__name__]
    env = dict(os.environ, LD_PRELOAD=library, NOT_FOUND=tempfile.mkdtemp())
    same("%s: its status" % test.__name__, subprocess.run(words, timeout=4 * PATIENCE, env=env).returncode, 0)


def links_of(pid):
    """Where its descriptors lead; it may close some of them meanwhile."""
    found = []
    for name in glob.glob("/proc/%d/fd/*" % pid):
        with contextlib.suppress(FileNotFoundError, PermissionError, ProcessLookupError):
            found.append(os.readlink(name))
    return found


def let_go():
    """The companion of a mount keeps none of the caller's descriptors, whatever their numbers, and no other. It is in another session,
    where no terminal ends it."""
    at = tempfile.mkdtemp()
    r, w = os.pipe()
    high = fcntl.fcntl(w, fcntl.F_DUPFD, 300)
    own = [os.pipe() for _ in range(3)]
    streams = {"stdin": own[0][0], "stdout": own[1][1], "stderr": own[2][1]}
    script = 'exec "$0" mount "$1" --foreground 3>&1 4>&1'
    p = subprocess.Popen(["sh", "-c", script, PROGRAM, at], pass_fds=(w, high), **streams)
    step("it is mounted", until(lambda: os.path.ismount(at)))
    companions = companions_of(p.pid)
    pipes = {os.readlink("/proc/self/fd/%d" % fd) for fd in (w, *streams.values())}
    same("there is one companion", len(companions), 1)
    links = lambda: set(links_of(companions[0]))
    step("it has none of the pipes", until(lambda: links() and not pipes & links()), pipes & links())
    kinds = lambda: sorted(link.partition(":")[0] for link in links_of(companions[0]))
    step("what it has", until(lambda: kinds() == ["/dev/null"] * 3 + ["socket"]), kinds())
    same("it leads its session", session_of(companions[0]), companions[0])
    same("it is nobody's child that waits for it", read("/proc/%d/task/%d/children" % (p.pid, p.pid)), b"")
    step("it can be unmounted", until(lambda: subprocess.run(["fusermount3", "-u", at], stderr=-3).returncode == 0))
    same("its process ends", p.wait(10 * PATIENCE), 0)
    for fd in (r, w, high, *sum(own, ())):
        os.close(fd)
    os.rmdir(at)


if sys.argv[1:] == ["over"]:
    covered()
    unaided()
    finish()
for test in (gone, not_found):
    if sys.argv[1:] == [test.__name__]:
        test()
        finish()
for test, args in (
    (dying_clients, ()),
    (full_device, ()),
    (full_in_between, ()),
    (unmounted_while_open, ()),
    (ended_while_open, (signal.SIGTERM, "SIGTERM")),
    (ended_while_open, (signal.SIGKILL, "SIGKILL")),
    (ended_alone, ()),
    (moved, ()),
    (killed_under_load, ()),
    (bad_lines, ()),
    (subcommands, ()),
    (background, ()),
    (background, ("<&- ",)),
    (background, (">&- ",)),
    (background, ("<&- >&- 2>&- ",)),
    (relative, ()),
    (over, ()),
    (unheard, ()),
    (parts, ()),
    (stopped, ()),
    (let_go, ()),
):
    test(*args)
# only with the plain build: the sanitizers' library has to be loaded first
for test, name in (
    (unmounted_with_a_request_pending, "aborted"),
    (broken_at_last, "broken"),
    (without_threads, "no_threads"),
    (refused_at_first, "slow_answer"),
):
    preload = os.path.join(os.path.dirname(PROGRAM), name + ".so")
    if os.path.exists(preload):
        test(preload)
if os.path.exists(os.path.join(os.path.dirname(PROGRAM), "gone.so")):
    preloaded(gone)
    preloaded(not_found)
finish()
