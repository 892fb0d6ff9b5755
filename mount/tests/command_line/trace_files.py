"""The files that a mount keeps, --trace and --answers: which may be given, and what happens when they cannot grow."""
import fcntl
import os
import pty
import re
import shutil
import signal
import socket
import stat
import subprocess
import sys
import tempfile
import time
import tty

sys.path.insert(0, os.path.dirname(os.path.dirname(os.path.realpath(__file__))))
from support import CGREPLAY, CGSHELL, PATIENCE, PROGRAM, Beside, Mount, error_of, finish, limit_of, read, same
from support import TRACE_MAX, status_within, step, until, write

ME = os.path.realpath(__file__)
PATIENT = os.path.join(os.path.dirname(PROGRAM), "patient.so")  # only with the plain build


def refused(words, fds=()):
    """What the program says and its status; and whether it mounted."""
    how = {"stderr": subprocess.PIPE, "stdin": subprocess.DEVNULL, "timeout": PATIENCE, "pass_fds": fds}
    try:
        ran = subprocess.run([PROGRAM, "mount", *words], **how)
    except subprocess.TimeoutExpired:
        return "hangs", ""
    return ran.returncode, ran.stderr.decode()


def leave(at):
    if os.path.ismount(at):
        until(lambda: subprocess.run(["fusermount3", "-u", at], stderr=-3).returncode == 0)


def targets():
    home = tempfile.mkdtemp()
    at = os.path.join(home, "at")
    os.mkdir(at)
    file, fifo, sock, loop = (os.path.join(home, n) for n in ("file", "fifo", "socket", "link"))
    open(file, "w").write("precious")
    os.mkfifo(fifo)
    os.chdir(home)  # a socket's path is short
    socket.socket(socket.AF_UNIX).bind("socket")
    os.chdir("/")
    os.symlink(file, loop)
    for where in (file, fifo, sock, loop, "/dev/null"):
        status, words = refused([where])
        same("mount on %s" % os.path.basename(where), (status, words.count("\n")), (2, 1))
        step("it says why", "not a directory" in words.lower(), words)
        leave(where)
    same("the file is as it was", open(file).read(), "precious")
    for option in ("--trace", "--answers"):
        for where in (fifo, sock, at, os.path.join(home, "nowhere", "x")):
            status, words = refused([at, option, where])
            same("%s %s" % (option, os.path.basename(where)), (status, words.count("\n")), (2, 1))
            leave(at)
    same("a refused mount leaves the directory", os.listdir(at), [])
    status, words = refused([at, "--trace", "/nowhere/x", "--answers", "/nowhere/y"])
    same("neither can be made: one sentence", (status, words.count("\n")), (2, 1))
    sealed = os.memfd_create("sealed", os.MFD_ALLOW_SEALING)
    os.write(sealed, b"precious")
    fcntl.fcntl(sealed, 1033, 2)  # F_ADD_SEALS, F_SEAL_SHRINK
    new = os.path.join(home, "made")
    for option, other in (("--trace", "--answers"), ("--answers", "--trace")):
        status, words = refused([at, option, "/proc/self/fd/%d" % sealed, other, new], (sealed,))
        told = "makhloeum: /proc/self/fd/%d cannot be emptied: Operation not permitted\n" % sealed
        same("%s in a file that cannot be emptied" % option, (status, words), (2, told))
        same("the file of %s was not there, and is not there" % other, os.path.exists(new), False)
        leave(at)
    same("it is as it was", os.pread(sealed, 99, 0), b"precious")
    os.close(sealed)
    for one, other in ((file, file), (file, loop), (os.path.join(home, "new"), os.path.join(home, "./new"))):
        status, words = refused([at, "--trace", one, "--answers", other])
        same("one file as both", (status, words.count("\n")), (2, 1))
        leave(at)
    same("it was not emptied", open(file).read(), "precious")
    step("a file that was not there is not there", not os.path.exists(os.path.join(home, "new")))
    for to in ("unmade", "none/unmade"):
        nothing = os.path.join(home, "to-" + to.replace("/", "-"))
        os.symlink(to, nothing)
        for words in (["--trace", nothing, "--answers", "/nowhere/y"], ["--answers", nothing, "--trace", "/nowhere/x"]):
            got = refused([at, *words])[0], os.path.islink(nothing)
            same("a link to %s, which was not there: it stays" % to, got, (2, True))
    same("what is made by it", stat.S_IMODE(os.stat(os.path.join(home, "unmade")).st_mode), 0o600)


def modes():
    os.umask(0o022)
    m = Mount()
    same("the mode of a trace", stat.S_IMODE(os.stat(m.trace).st_mode), 0o600)
    same("of answers", stat.S_IMODE(os.stat(m.answers).st_mode), 0o600)
    m.end()
    trace = os.path.join(tempfile.mkdtemp(), "trace")
    os.close(os.open(trace, os.O_CREAT, 0o222))
    m = Mount(trace=trace)
    same("one that may only be written takes a line", error_of(os.mkdir, m.path("a")), "ok")
    m.end(replayed=False)


def times():
    """Before each line of a trace is a comment with the time since the start."""
    clock = [time.monotonic()]
    m = Mount()
    clock.append(time.monotonic())
    os.mkdir(m.path("a"))
    clock.append(time.monotonic())
    time.sleep(1.1)  # so that its second is another one too
    clock.append(time.monotonic())
    write(m.control("fork"), b"1 2\n")
    clock.append(time.monotonic())
    lines = open(m.trace).read().split("\n")
    at = [re.fullmatch(r"# at ([0-9]+\.[0-9]{6})", line) for line in lines[:-1:2]]
    same("the lines between the comments", lines[1::2], ["mkdir /a", "fork 1 2"])
    step("each comment is a time", all(at), lines)
    first, second = (float(found[1]) for found in at)
    step("the first since the start", 0 <= first <= clock[2] - clock[0], (first, clock))
    least, most = clock[3] - clock[2] - 1e-5, clock[4] - clock[1] + 1e-5  # they are cut to microseconds
    step("the second by as much later as it was written", least <= second - first <= most, (first, second, clock))
    m.end()


def full_trace_of_a_run():
    """Its first process has no line, so the server does not take it."""
    ran = subprocess.run([PROGRAM, "run", "--trace", "/dev/full", "true"], stderr=subprocess.PIPE, timeout=PATIENCE)
    why = b"makhloeum: the line of the first process cannot be kept: No space left on device\n"
    same("a run whose first line cannot be kept", (ran.returncode, ran.stderr), (2, why))


def full_answers():
    m = Mount(answers="/dev/full")
    same("a mkdir whose answer cannot be kept", error_of(os.mkdir, m.path("a")), "ENOSPC")
    same("again", error_of(os.mkdir, m.path("a")), "ENOSPC")
    same("nor a read's", error_of(read, m.path("cgroup.procs")), "ENOSPC")
    same("nor a fork's", error_of(write, m.control("fork"), b"1 2\n"), "ENOSPC")
    same("nor an undo's", error_of(write, m.control("undo"), b"1\n"), "ENODATA")
    step("neither was done", not os.path.exists(m.path("a")))
    same("no line was kept", open(m.trace).read(), "")
    m.end(replayed=False)


def snapshot(m):
    """What can be seen of the hierarchy without sending a line: groups, sizes of texts, history."""
    sizes = {}
    for folder, _, files in os.walk(m.at):
        for f in files:
            sizes[os.path.join(folder, f)] = os.stat(os.path.join(folder, f)).st_size
    return sizes


def recovers(what, m, stop, go_on):
    """Every kind of command is refused while nothing can be kept, changes nothing, and is done afterwards."""
    os.mkdir(m.path("a"))
    os.mkdir(m.path("gone"))
    for pid in (2, 3, 4):
        write(m.control("fork"), b"1 %d\n" % pid)
        write(m.path("a", "cgroup.procs"), b"%d\n" % pid)
    write(m.path("a", "pids.max"), b"3\n")
    commands = [
        (os.mkdir, m.path("b")),
        (os.rmdir, m.path("gone")),
        (write, m.control("fork"), b"1 9\n"),
        (write, m.control("exit"), b"4\n"),
        (write, m.path("cgroup.procs"), b"3\n"),
        (write, m.path("a", "pids.max"), b"max\n"),
        (write, m.path("a", "cgroup.kill"), b"1\n"),
        (write, m.control("undo"), b"1\n"),
        (read, m.path("a", "pids.max")),
    ]
    for command in commands:
        before = snapshot(m), open(m.trace).read(), os.path.getsize(m.answers)
        stop()
        step(
            "%s: %s of %s is refused" % (what, command[0].__name__, os.path.basename(command[1])),
            error_of(*command) in ("ENOSPC", "EFBIG"),
            error_of(*command),
        )
        go_on()
        same("nothing has changed", (snapshot(m), open(m.trace).read(), os.path.getsize(m.answers)), before)
        same("then it is done", error_of(*command), "ok")
    os.mkdir(m.path("full"))
    write(m.control("fork"), b"1 5\n")
    write(m.path("full", "cgroup.procs"), b"5\n")
    write(m.path("full", "pids.max"), b"1\n")
    shown = lambda: (read(m.path("full", "pids.events")), read(m.control("depth")))
    for name, command, error, event in (
        ("a fork that a limit refuses", (write, m.control("fork"), b"5 6\n"), "EAGAIN", b"max 1\n"),
        ("its undo", (write, m.control("undo"), b"1\n"), "ok", b"max 0\n"),
    ):
        before = shown()
        stop()
        got = error_of(*command)
        go_on()
        same("%s: %s is not counted" % (what, name), (got in ("ENOSPC", "EFBIG"), shown()), (True, before))
        same("then it is", (error_of(*command), shown()[0]), (error, event))
    m.end()


def limited():
    """A file that cannot grow because of a limit of the process, which is lifted again."""
    m = Mount()
    recovers("both files", m, lambda: limit_of(m, 1), lambda: limit_of(m, None))
    m = Mount()
    trace = m.trace

    def stop():  # what is left is enough for a trace's line and not for its answer
        limit_of(m, max(os.path.getsize(trace) + 60, os.path.getsize(m.answers)))

    for i in range(40):  # the answers get longer than the trace
        os.mkdir(m.path("d%d" % i))
        for _ in range(8):
            read(m.path("cgroup.stat"))
    step("the answers are longer than the trace", os.path.getsize(m.answers) > os.path.getsize(trace) + 100)
    recovers("only the answers", m, stop, lambda: limit_of(m, None))


def without_history():
    """Without a history records are dropped, but not in the middle of an operation: it fails as a whole, however many there were
    before. Each try begins with one record more."""
    m = Mount("--keep", "memory", control=False)
    write(m.path("cgroup.subtree_control"), b"+pids")
    limits = [m.path(g, "pids.max") for g in "xyz"]
    for g in "xyz":
        os.mkdir(m.path(g))
    for limit in limits:
        write(limit, b"7")
    recorded, wrong = 6, []
    while recorded < 1020:
        write(m.control("fork"), b"1 2")
        write(m.control("exit"), b"2")
        recorded += 2
    for room in range(60, 180, 10):  # for one line, two, or all three, of some fifty bytes
        limit_of(m, os.path.getsize(m.trace) + room)
        error = error_of(write, m.path("cgroup.subtree_control"), b"-pids")
        limit_of(m, None)
        if error == "ok":
            write(m.path("cgroup.subtree_control"), b"+pids")
            for limit in limits:
                write(limit, b"7")
        elif error not in ("EFBIG", "ENOSPC") or [read(limit) for limit in limits] != [b"7\n"] * 3:
            wrong.append((room, error, [read(limit) for limit in limits]))
        write(limits[0], b"7")  # a record, so that the next try begins after one more
    same("limits that were changed by halves", wrong, [])
    m.end()
    m, wrong = Mount(trace="/dev/null", control=False), []
    for _ in range(1016):
        write(m.path("cgroup.max.depth"), b"9")
    for _ in range(16):  # before one of them records are dropped
        limit_of(m, os.path.getsize(m.answers))
        got = error_of(os.mkdir, m.path("a")), os.path.exists(m.path("a"))
        limit_of(m, None)
        wrong += [got] if got != ("EFBIG", False) else []
        write(m.path("cgroup.max.depth"), b"9")
    same("groups without an answer", wrong, [])
    m.end(replayed=False)


def undone_by_halves():
    """An undo of an operation of three commands for which the trace has room for some: what is left of it is one operation."""
    for room in (0, 10, 20, 30, 40, 50, 60, 80):
        m = Mount("--keep", "memory")
        write(m.path("cgroup.subtree_control"), b"+pids")
        limits = [m.path(g, "pids.max") for g in "xyz"]
        for g, limit in zip("xyz", limits):
            os.mkdir(m.path(g))
            write(limit, b"7")
        write(m.path("cgroup.subtree_control"), b"-pids")
        write(m.path("cgroup.subtree_control"), b"+pids")
        depth = int(read(m.control("depth")))
        limit_of(m, os.path.getsize(m.trace) + room)
        error = error_of(write, m.control("undo"), b"1")
        limit_of(m, None)
        left = read(m.control("newest")).count(b"\n") if error != "ok" else 0
        now = [read(limit) for limit in limits]
        wanted = [b"max\n"] * left + [b"7\n"] * (3 - left)
        same("with %d bytes: what is undone" % room, now, wanted)
        got = error in ("ok", "EFBIG", "ENOSPC"), int(read(m.control("depth")))
        same("how many operations are left", got, (True, depth if left else depth - 1))
        write(m.control("undo"), b"1")
        wanted = [b"7\n"] * 3 if left else [b"7\n", b"7\n", b"max\n"]
        got = [read(limit) for limit in limits], int(read(m.control("depth")))
        same("one more undo", got, (wanted, depth - (1 if left else 2)))
        same("all others", error_of(write, m.control("undo"), b"%d" % got[1]), "ok")
        same("nothing is left", (read(m.control("depth")), os.path.exists(m.path("x"))), (b"0\n", False))
        m.end()


def terminal():
    """A trace on a terminal that takes no more. If it took a part of a line, nothing is kept from then on; else it goes on."""
    ours, theirs = pty.openpty()
    tty.setraw(theirs)
    m = Mount(trace=os.ttyname(theirs))
    name, made, error = "n" * 240, 0, "ok"
    deep = m.at
    while error == "ok" and made < 2000:
        error = error_of(os.mkdir, "%s/%04d%s" % (deep, made, name))
        made += error == "ok"
    same("it is full", (error, made > 3), ("EAGAIN", True))
    same("the last group was not made", os.path.exists("%s/%04d%s" % (deep, made, name)), False)
    os.set_blocking(ours, False)
    text = b""

    def has(ends):
        """Whether what has come ends like this. It comes a moment later than it was taken."""
        nonlocal text
        try:
            text += os.read(ours, 65536)
        except BlockingIOError:
            pass
        return ends(text)

    step("all lines come", until(lambda: has(lambda t: t.count(name.encode() + b"\n") >= made)))
    got = [error_of(os.mkdir, m.path("after%d" % i)) for i in range(2)]
    if "ok" in got:
        same("then it goes on", (got, until(lambda: has(lambda t: t.endswith(b"/after1\n")))), (["ok"] * 2, True))
        made = ["%04d%s" % (i, name) for i in range(made)] + ["after0", "after1"]
    else:
        same("nothing goes on", (got, until(lambda: has(lambda t: not t.endswith(b"\n")))), (["EAGAIN"] * 2, True))
        made = ["%04d%s" % (i, name) for i in range(made)]
    lines = [line for line in text.decode().split("\n")[:-1] if not line.startswith("#")]
    same("each line is whole", lines, ["mkdir /" + g for g in made])
    m.end(replayed=False)
    os.close(ours)
    os.close(theirs)


def small_device():
    """In new namespaces: a file system of 16 pages, filled and emptied."""
    twins = [tempfile.mkdtemp() for _ in range(2)]
    for at in twins:
        subprocess.run(["mount", "-t", "tmpfs", "none", at], check=True)
        open(at + "/kept", "w").close()
    same("files of two systems have one number", len({os.stat(at + "/kept").st_ino for at in twins}), 1)
    m = Mount(trace=twins[0] + "/kept", answers=twins[1] + "/kept")
    same("they are two files", error_of(os.mkdir, m.path("a")), "ok")
    m.end()
    for at in twins:
        subprocess.run(["umount", at], check=True)
    disk = tempfile.mkdtemp()
    subprocess.run(["mount", "-t", "tmpfs", "-o", "size=64k", "none", disk], check=True)
    ballast = os.path.join(disk, "ballast")
    m = Mount(answers=os.path.join(disk, "answers"))

    def stop():
        with open(ballast, "ab", buffering=0) as it:
            try:
                while True:
                    it.write(b"x" * 4096)
            except OSError:
                pass
        size = os.path.getsize(m.answers)  # no room is left in its last page either
        with open(m.answers, "r+b") as it:
            it.truncate(size)

    os.mkdir(m.path("before"))
    errors = []
    stop()
    for i in range(2000):  # one page of answers at most
        errors.append(error_of(os.mkdir, m.path("g%d" % i)))
        if errors[-1] != "ok":
            break
    same("a full device is reported", errors[-1], "ENOSPC")
    made = errors.count("ok")
    same(
        "as many groups as answers",
        (sum(n.startswith("g") for n in os.listdir(m.at)), sum(1 for _ in open(m.answers))),
        (made, made + 1),
    )
    same("a kill", error_of(write, m.control("fork"), b"1 2\n"), "ENOSPC")
    same("an undo", error_of(write, m.control("undo"), b"1\n"), "ENOSPC")
    os.unlink(ballast)
    same("it recovers", error_of(os.mkdir, m.path("after")), "ok")
    m.end()
    subprocess.run(["umount", disk], check=True)


def long_trace():
    """cgreplay accepts up to TRACE_MAX bytes; a longer trace is reported once, and cgshell replays it."""
    m = Mount()
    deep = m.at
    for _ in range(16):
        deep += "/" + "d" * 240
    os.makedirs(deep)
    os.chdir(deep)
    fd = os.open("pids.max", os.O_RDONLY)
    while os.path.getsize(m.trace) <= TRACE_MAX - 5000:
        os.pread(fd, 1, 0)
    same("nothing is said of a trace that it accepts", m.words(), "")
    for _ in range(20):
        os.pread(fd, 1, 0)
    step("the trace is longer", os.path.getsize(m.trace) > TRACE_MAX)
    step("that is said", until(lambda: m.words().endswith("\n")))
    said = "makhloeum: %s is longer than 16,777,216 bytes, which cgreplay refuses: replay it by cgshell < %s\n"
    mark = "# This trace is longer than 16,777,216 bytes: use cgshell, not cgreplay.\n"
    same("and marked in the trace", open(m.trace).read().count(mark), 1)
    os.close(fd)
    os.chdir("/")
    step("it can be unmounted", m.unmounted())
    same("the process ends", m.ended(), 0)
    same("it was said once, with the program that takes it", m.words(), said % (m.trace, m.trace))
    with open(m.trace) as trace:
        same("cgreplay refuses it", subprocess.run(CGREPLAY, stdin=trace, stdout=-3, stderr=-3).returncode, 1)
    if not os.path.exists(CGSHELL):
        print("  no cgshell here: its answers to the long trace are left out")
        return
    with open(m.trace) as trace, open(m.answers, "rb") as answers:
        step(
            "cgshell gives the same answers",
            subprocess.run([CGSHELL], stdin=trace, stdout=subprocess.PIPE).stdout == answers.read(),
        )


def beyond(trace):
    """In a run: sends lines until the trace is too long for cgreplay, then looks whether others still read the hierarchy."""
    os.makedirs("/sys/fs/cgroup" + 15 * ("/" + 240 * "d"))
    os.chdir("/sys/fs/cgroup" + 15 * ("/" + 240 * "d"))
    fd = os.open("pids.max", os.O_RDONLY)
    send = lambda: os.pread(fd, 1, 0)
    while os.path.getsize(trace) <= TRACE_MAX and Beside(send).result():
        pass
    print(Beside(subprocess.getoutput, "cat /sys/fs/cgroup/cgroup.controllers").result(), flush=True)
    input()
    for _ in range(20):
        send()


def nobody_listens():
    """The warning about a long trace waits for who reads standard error, and nobody else waits for it."""
    home = tempfile.mkdtemp()
    trace = os.path.join(home, "trace")
    open(trace, "w").close()
    r, w = os.pipe()
    filler = fcntl.fcntl(w, fcntl.F_SETPIPE_SZ, 4096) * b"x"
    os.write(w, filler)
    words = [PROGRAM, "run", "--trace", trace, sys.executable, ME, "beyond", trace]
    p = subprocess.Popen(words, stdin=subprocess.PIPE, stdout=subprocess.PIPE, stderr=w, text=True)
    os.close(w)
    line, size = Beside(p.stdout.readline), -1
    while line.thread.is_alive() and size != (
        size := os.path.getsize(trace)
    ):  # a busy machine takes long for so many lines
        line.thread.join(PATIENCE)
    same("while standard error is full, another process reads", line.got, ["pids\n"])
    step("the trace is longer", os.path.getsize(trace) > TRACE_MAX)
    said = b""
    while len(said) < len(filler) or not said.endswith(b"\n"):
        said += Beside(os.read, r, 4096).result() or b"nothing\n"
    p.communicate("\n")
    same("the status of the run", status_within(p), 0)
    said += os.read(r, 4096)
    same("it is said once", (said.count(b"\n"), said.count(b"cgshell < %s" % trace.encode())), (1, 1))
    shutil.rmtree(home)


def ends_unheard(sent=None):
    """A mount that ends before the warning could be read waits a while for who reads it, and here for an hour. A signal ends it then."""
    home, (r, w) = tempfile.mkdtemp(), os.pipe()
    at, trace = os.path.join(home, "at"), os.path.join(home, "trace")
    filler = fcntl.fcntl(w, fcntl.F_SETPIPE_SZ, 4096) * b"x"
    os.write(w, filler)
    os.mkdir(at)
    words = [PROGRAM, "mount", "--foreground", "--trace", trace, at]
    p = subprocess.Popen(words, stderr=w, env=dict(os.environ, LD_PRELOAD=PATIENT))
    os.close(w)
    step("it is mounted", until(lambda: os.path.ismount(at)))
    deep = at + 16 * ("/" + 240 * "d")
    os.makedirs(deep)
    fd = os.open(deep + "/pids.max", os.O_RDONLY)
    while os.path.getsize(trace) <= TRACE_MAX:
        os.pread(fd, 1, 0)
    os.close(fd)
    step("it can be unmounted", until(lambda: subprocess.run(["fusermount3", "-u", at], stderr=-3).returncode == 0))
    step("it does not end", not until(lambda: p.poll() is not None, 0.5))
    if sent:
        # one that comes before the warning ends the mount, as the unmount does
        until(lambda: p.poll() is not None or p.send_signal(sent))
        same("a signal ends it", status_within(p), -sent)
    else:
        said = b""
        while not said.endswith(b"\n"):
            said += Beside(os.read, r, 8192).result() or b"nothing\n"
        same("it is said", said[len(filler) :].count(b"cgshell < %s" % trace.encode()), 1)
        same("then it ends", status_within(p), 0)
    os.close(r)
    shutil.rmtree(home)


def ended_unheard():
    ends_unheard(signal.SIGTERM)


if sys.argv[1:] == ["small"]:
    small_device()
    finish()
if sys.argv[1:2] == ["beyond"]:
    beyond(sys.argv[2])
    sys.exit()
for test in (
    targets,
    modes,
    times,
    full_trace_of_a_run,
    full_answers,
    limited,
    without_history,
    undone_by_halves,
    terminal,
    long_trace,
    nobody_listens,
    *((ends_unheard, ended_unheard) if os.path.exists(PATIENT) else ()),
):
    if test.__name__ in sys.argv[1:] or not sys.argv[1:]:
        test()
ran = subprocess.run(["unshare", "-Urm", sys.executable, ME, "small"], timeout=6 * PATIENCE)
same("on a small device", ran.returncode, 0)
finish()
