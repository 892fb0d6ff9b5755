"""Programs under `makhloeum run` that mean harm: none of their processes is uncounted, and none stops the others."""
import ctypes
import errno
import os
import re
import resource
import signal
import subprocess
import sys
import tempfile

sys.path.insert(0, os.path.dirname(os.path.dirname(os.path.realpath(__file__))))
from support import AT, BUILT, CGREPLAY, PATIENCE, PROGRAM, TRACE_MAX
from support import error_of, finish, into, libc, own_of, read, same, status_within, step, tracer, until, write

ME = os.path.realpath(__file__)
HOSTILE, HANGS, STALLED = (os.path.join(BUILT, n) for n in ("hostile", "hangs", "stalled"))


def started(*words, group="/", program=HOSTILE):
    return subprocess.Popen(
        [program, *words], stdin=subprocess.PIPE, stdout=subprocess.PIPE, preexec_fn=lambda: into(group)
    )


def said(*words, seconds=4 * PATIENCE, program=HOSTILE):
    """What it prints, as words; a description of the fault if it does not end."""
    p = started(*words, program=program)
    try:
        return p.communicate(timeout=seconds)[0].decode().split()
    except subprocess.TimeoutExpired:
        p.kill()
        return ["it hangs"]


def count(group):
    return int(read(AT + group + "/pids.current"))


def processes(group):
    return [int(p) for p in read(AT + group + "/cgroup.procs").split()]


# ---------------------------------------------------------------- inside: nothing escapes


def forks():
    os.mkdir(AT + "/a")
    write(AT + "/a/pids.max", b"5\n")
    for way in ("clone", "clone3", "parent", "no-signal") + (
        ("fork", "int80", "x32") if os.uname().machine == "x86_64" else ()
    ):
        p = started("forks", way, group="/a")
        made = int(p.stdout.readline())
        expected = 0 if way in ("int80", "x32") else 4
        same(
            "forty forks by %s under pids.max 5" % way,
            (made, count("/a"), len(processes("/a"))),
            (expected, expected + 1, expected + 1),
        )
        write(AT + "/a/cgroup.kill", b"1\n")
        p.wait()
        same("then none is left", (count("/a"), read(AT + "/a/cgroup.procs")), (0, b""))


def thread():
    os.mkdir(AT + "/a")
    p = started("thread", group="/a")
    until(lambda: "sleep" in open("/proc/%d/comm" % p.pid).read())
    # it has this name a moment before the supervisor hears of the execve
    seen = lambda: (count("/a"), processes("/a"))
    step("an untraced thread that calls execve is its process", until(lambda: seen() == (1, [p.pid])), seen())
    p.kill()
    p.wait()
    same("and is gone when it was waited for", count("/a"), 0)


def arguments():
    os.mkdir(AT + "/one")
    os.mkdir(AT + "/two")
    wrong = said("rewritten")
    step("arguments that are rewritten: each child is in one group", wrong[0] == "0" and int(wrong[1]) > 50, wrong)
    same("arguments that threads share, in constant memory", said("shared"), ["0"])
    same(
        "a clone3 into what is not a group",
        said("into"),
        ["ENOENT", "ENOENT", "EBADF", "EBADF", "EBADF", "EBADF", "ok"],
    )
    same("nobody is left", (read(AT + "/one/cgroup.procs"), read(AT + "/two/cgroup.procs")), (b"", b""))


def falling():
    os.mkdir(AT + "/one")
    same("no child is killed that fork had made", said("falling"), ["0", "1"])


# ---------------------------------------------------------------- inside: nothing hangs


def races():
    os.mkdir(AT + "/one")
    racing = [started("exec-race", program=HANGS) for _ in range(4)]
    step("execve in one thread while another forks", until(lambda: all(p.poll() is not None for p in racing)))
    same("the others fork", subprocess.run(["true"], timeout=PATIENCE).returncode, 0)
    same("parents that are killed while they fork leave no child stopped", said("killed-parents", program=HANGS), ["0"])
    step("and nobody is left", until(lambda: len(processes("")) == 2), processes(""))


def fair():
    os.mkdir(AT + "/one")
    write(AT + "/one/pids.max", b"12\n")
    for what in ("fork", "statfs"):
        got = said("starve", what, program=HANGS)
        step("twelve that only call %s leave room for others" % what, got == ["40", "40"], got)


def zombie_in(group):
    """A child that has ended in this group; nobody has waited for it."""
    child = os.fork()
    if child == 0:
        into(group)
        os._exit(0)
    os.waitid(os.P_PID, child, os.WEXITED | os.WNOWAIT)
    return child


def zombies():
    os.mkdir(AT + "/a")
    p = started("zombies", group="/a")
    p.stdout.readline()
    same("zombies count and are not listed", (count("/a"), processes("/a")), (4, [p.pid]))
    write(AT + "/a/pids.max", b"4\n")
    same("they count against pids.max", error_of(lambda: subprocess.run(["true"], preexec_fn=lambda: into("/a"))), "ok")
    p.stdin.write(b"\n")
    p.stdin.flush()
    p.stdout.readline()
    same("once they are waited for they are gone", count("/a"), 1)
    p.communicate(b"\n")
    os.mkdir(AT + "/b")
    child = zombie_in("/b")
    same("a group with only zombies", (read(AT + "/b/cgroup.events"), count("/b")), (b"populated 0\nfrozen 0\n", 1))
    same("it has no threads", read(AT + "/b/cgroup.threads"), b"")
    same("one moves nowhere", error_of(write, AT + "/a/cgroup.procs", b"%d\n" % child), "ok")
    same("and does not hold its group", error_of(os.rmdir, AT + "/b"), "ok")
    os.waitpid(child, 0)
    of_three = ["/c%d" % i for i in range(3)]
    for group in of_three:
        os.mkdir(AT + group)
    three = [zombie_in(group) for group in of_three]
    for what, waited, left in (("the first", 0, [0, 1, 1]), ("the last", 2, [0, 1, 0]), ("the other", 1, [0, 0, 0])):
        os.waitpid(three[waited], 0)
        same("of three, %s was waited for" % what, [count(group) for group in of_three], left)
        same("none is listed", [processes(group) for group in of_three], [[], [], []])
    os.mkdir(AT + "/d")
    os.mkdir(AT + "/de")
    alive = subprocess.Popen(["sleep", "600"], preexec_fn=lambda: into("/d"))
    elsewhere = zombie_in("/de")
    same("a zombie of /de is none of /d", read(AT + "/d/cgroup.events"), b"populated 1\nfrozen 0\n")
    os.waitpid(elsewhere, 0)
    alive.kill()
    alive.wait()
    orphan = subprocess.run(["sh", "-c", "sleep 0.2 & echo $!"], stdout=subprocess.PIPE).stdout
    step("an orphan is waited for", until(lambda: not os.path.exists("/proc/%d" % int(orphan))))
    r, w = os.pipe()
    child = os.fork()
    if child == 0:
        above = os.getpid()
        if os.fork() == 0:
            until(lambda: os.getppid() != above)
            os.write(w, b"%d" % os.getppid())
        os._exit(0)
    os.waitpid(child, 0)
    same("by the supervisor, which is its parent then", int(os.read(r, 20)), tracer())


# ---------------------------------------------------------------- inside: what is read


def texts():
    os.mkdir(AT + "/a")
    into("/a")
    home = tempfile.mkdtemp()
    os.symlink("/proc/self/cgroup", home + "/link")
    os.symlink("self", home + "/self")
    os.symlink("/proc", home + "/proc")
    me = os.getpid()
    held = os.open("/proc/self/cgroup", os.O_PATH)
    names = [
        "/proc/self/cgroup",
        "/proc//self/./cgroup",
        "/proc/self/root/proc/self/cgroup",
        "/proc/self/../self/cgroup",
        "/proc/%d/task/%d/cgroup" % (me, me),
        home + "/link",
        home + "/proc/self/cgroup",
        "/proc/self/fd/%d" % held,
        "/dev/fd/%d" % held,
        "/proc/thread-self/cgroup",
        "/proc/self/cwd/../../../../../../../../proc/self/cgroup",
    ]
    for name in names:
        same(name.replace(home, "HOME"), error_text(name), "0::/a\n")
    stays = os.open("/proc/self/cgroup", os.O_RDONLY)
    same("one that stays open", os.pread(stays, 99, 0), b"0::/a\n")
    into("/")
    same("shows the group of now", os.pread(stays, 99, 0), b"0::/\n")
    into("/a")
    same(
        "it ends where its text ends",
        (os.lseek(stays, 0, 0), os.read(stays, 99), os.read(stays, 99)),
        (0, b"0::/a\n", b""),
    )
    same("opened as if to create it", os.read(os.open("/proc/self/cgroup", os.O_RDONLY | os.O_CREAT), 99), b"0::/a\n")
    same("opened to write too", error_of(os.open, "/proc/self/cgroup", os.O_RDWR), "EACCES")
    for directory, name in (
        ("/proc/self", "cgroup"),
        ("/proc/self", "../self/cgroup"),
        ("/proc", "self/cgroup"),
        (home, "link"),
        (home, "proc/self/cgroup"),
        (home, "../" * 20 + "proc/self/cgroup"),
        ("/", "proc/self/cgroup"),
    ):
        os.chdir(directory)
        same("%s from %s" % (name, directory.replace(home, "HOME")), error_text(name), "0::/a\n")
        os.chdir("/")
        at = os.open(directory, os.O_PATH | os.O_DIRECTORY)
        same("by a descriptor of it", os.read(os.open(name, os.O_RDONLY, dir_fd=at), 99), b"0::/a\n")
    for name in (
        "/etc/mtab",
        "/proc/mounts",
        "/proc/self/mountinfo",
        "/proc/self/mountstats",
        "/proc/self/root/proc/mounts",
    ):
        lines = [x for x in error_text(name).splitlines() if AT in x.split()]
        step("%s shows one mount there, of type cgroup2" % name, len(lines) == 1 and "fuse" not in lines[0], lines)
    lines = [x.split() for x in error_text("/proc/cgroups").splitlines()]
    same("/proc/cgroups", [x[0] for x in lines if x[3] in ("enabled", "1")], ["#subsys_name", "pids"])
    same(
        "no io_uring, which opens unseen",
        (libc.syscall(425, 1, ctypes.create_string_buffer(120)), ctypes.get_errno()),
        (-1, errno.EPERM),
    )
    same("/proc/self/cpuset", error_text("/proc/self/cpuset"), "/\n")


def error_text(name):
    try:
        return open(name).read()
    except OSError as e:
        return str(e)


# ---------------------------------------------------------------- outside


def full_trace():
    """The trace can't be written any more: no fork is made that is not in it."""
    for size in range(900, 948, 12):  # one of them has room for a fork, and not for its exit
        fill("os.fork()", size)
    fill("os.posix_spawn('/bin/true', ['true'], {})", 900)  # that is a vfork


def fill(call, size):
    trace = os.path.join(tempfile.mkdtemp(), "trace")
    code = (
        "import os\nmade = 0\nfor i in range(200):\n try: pid = %s\n except BlockingIOError: continue\n"
        " if pid == 0: os._exit(0)\n made += 1\n os.waitpid(pid, 0)\nstrangers = 0\n"
        "try:\n while os.waitpid(-1, 0): strangers += 1\nexcept ChildProcessError: print(made, strangers)" % call
    )
    ran = subprocess.run(
        [PROGRAM, "run", "--trace", trace, sys.executable, "-c", code],
        stdout=subprocess.PIPE,
        timeout=4 * PATIENCE,
        preexec_fn=lambda: resource.setrlimit(resource.RLIMIT_FSIZE, (size, size)),
    )
    told = len(re.findall(r"^fork ", open(trace).read(), re.M)) - 1
    made, strangers = map(int, ran.stdout.split())
    step("of 200 forks as many are made as the trace has room for", 5 < made <= told < 100, (made, told))
    step("the others fail before there is a child, but the first", strangers <= 1, strangers)


REFUSED = """import errno, os
os.mkdir("/sys/fs/cgroup/a")
for name, value in (("pids.max", "1"), ("cgroup.procs", "0")):
    with open("/sys/fs/cgroup/a/" + name, "w") as f:
        f.write(value)
found = set()
for _ in range(100):
    try:
        os.fork() or os._exit(0)
        found.add("ok")
    except OSError as e:
        found.add(errno.errorcode[e.errno])
print(*found)
"""


def full_of_refusals():
    """A fork that a limit refuses has the same errno when its line has no room in the trace."""
    trace = os.path.join(tempfile.mkdtemp(), "trace")
    ran = subprocess.run(
        [PROGRAM, "run", "--trace", trace, sys.executable, "-c", REFUSED],
        stdout=subprocess.PIPE,
        timeout=4 * PATIENCE,
        preexec_fn=lambda: resource.setrlimit(resource.RLIMIT_FSIZE, (900, 900)),
    )
    same("the errnos of a hundred refused forks", (ran.returncode, ran.stdout), (0, b"EAGAIN\n"))
    step("some have room in the trace", 5 < read(trace).count(b"\nfork ") < 100)


FORKS = """import os, sys
print(os.getpid(), flush=True)
sys.stdin.readline()
made = strangers = 0
for _ in range(5):
    try:
        pid = os.fork()
    except OSError:
        continue
    if pid == 0:
        os._exit(0)
    made += 1
try:
    while os.waitpid(-1, 0):
        strangers += 1
except ChildProcessError:
    print(made, strangers)
"""


def almost_full():
    """The trace has room for a line that changes nothing, and not for that of a fork: this is noticed once there is a child, and only
    once."""
    trace = os.path.join(tempfile.mkdtemp(), "trace")
    words = [PROGRAM, "run", "--trace", trace, sys.executable, "-c", FORKS]
    p = subprocess.Popen(words, stdin=subprocess.PIPE, stdout=subprocess.PIPE)
    number = int(p.stdout.readline())
    most = os.path.getsize(trace) + len("# at 10.000000\nwhere %d\n" % number)
    hard = resource.getrlimit(resource.RLIMIT_FSIZE)[1]
    for pid in own_of(p.pid):
        resource.prlimit(pid, resource.RLIMIT_FSIZE, (most, hard))
    same("forks, and children that nobody made", (p.communicate(b"\n")[0], p.returncode), (b"0 1\n", 0))


FILLED = """import os, sys, threading, time
at = "/sys/fs/cgroup/a"
os.mkdir(at)
r, w = os.pipe()
pid = os.fork()
if pid == 0:
    open(at + "/cgroup.procs", "w").write("0")
    threading.Thread(target=time.sleep, args=(600,), daemon=True).start()
    os.write(w, b"x")
    time.sleep(600)
os.read(r, 1)
print("ready", open(at + "/pids.current").read(), end="", flush=True)
sys.stdin.readline()
os.kill(pid, 9)
os.waitpid(pid, 0)
for _ in range(3):
    time.sleep(0.05)
    try:
        print(open(at + "/pids.current").read())
    except OSError:
        pass
print("ended", flush=True)
sys.stdin.readline()
for _ in range(1000):
    if open(at + "/pids.current").read() == "0\\n":
        break
    time.sleep(0.01)
print(repr((open(at + "/pids.current").read(), open(at + "/cgroup.procs").read())))
os.rmdir(at)
"""


def full_for_a_while():
    """A process with two threads ends while the trace can't be written. Once there is room, their exits are in the trace, and they count no
    more."""
    home = tempfile.mkdtemp()
    trace, errors = home + "/trace", home + "/errors"
    p = subprocess.Popen(
        [PROGRAM, "run", "--trace", trace, sys.executable, "-c", FILLED],
        stdin=subprocess.PIPE,
        stdout=subprocess.PIPE,
        stderr=open(errors, "w"),
    )
    same("its child is in a group, with a thread", p.stdout.readline(), b"ready 2\n")
    hard = resource.getrlimit(resource.RLIMIT_FSIZE)[1]
    for limit, said in ((os.path.getsize(trace), b"ended\n"), (hard, None)):
        for pid in own_of(p.pid):
            resource.prlimit(pid, resource.RLIMIT_FSIZE, (limit, hard))
        p.stdin.write(b"\n")
        p.stdin.flush()
        if said:
            same("it ends without a line", (p.stdout.readline(), b"exit" in read(trace)), (said, False))
    same("then it is gone", (p.communicate()[0], p.returncode), (b"('0\\n', '')\n", 0))
    same("in the trace too", len(re.findall(r"^exit ", open(trace).read(), re.M)), 2)


HOLD = """import ctypes, errno, os
libc = ctypes.CDLL(None, use_errno=True)
above = os.getppid()
for pid in [above] + [int(p) for p in open("/proc/%d/task/%d/children" % (above, above)).read().split()]:
    if pid != os.getpid():
        libc.ptrace(0x4206, pid, None, None)
        print(errno.errorcode[ctypes.get_errno()])
        try:
            os.open("/proc/%d/mem" % pid, os.O_RDWR)
            print("open")
        except OSError as e:
            print(errno.errorcode[e.errno])
"""


def taken_hold():
    """With --root the program has every capability in its namespace, and none over those who count it."""
    if b"__asan_init" in open(PROGRAM, "rb").read():
        return  # a sanitizer needs ptrace
    ran = subprocess.run(
        [PROGRAM, "run", "--root", sys.executable, "-c", HOLD], stdout=subprocess.PIPE, timeout=PATIENCE
    )
    same(
        "neither supervisor, server, helper nor companion is taken hold of",
        ran.stdout.split(),
        [b"EPERM", b"EACCES"] * 4,
    )


def stalled():
    home = tempfile.mkdtemp()
    system = subprocess.Popen([STALLED, home], stderr=subprocess.DEVNULL)
    if not until(lambda: os.path.ismount(home)):
        step("a file system that does not answer is left out: it can't be mounted", True)
        return
    p = subprocess.Popen([PROGRAM, "run", HANGS, "stalled", home], stdout=subprocess.PIPE)
    line = []
    thread = __import__("threading").Thread(target=lambda: line.append(p.stdout.readline()), daemon=True)
    thread.start()
    thread.join(2 * PATIENCE)
    numbers = [int(n) for n in line[0].split()] if line else []
    step("memory that can't be read stops nobody else", bool(numbers) and numbers[0] > 2, line)
    same("and no signal ends an open that waits for it", numbers[1:], [0])
    p.send_signal(signal.SIGTERM)
    try:
        p.wait(PATIENCE)
    except subprocess.TimeoutExpired:
        pass
    step("and SIGTERM ends the run", p.poll() is not None)
    system.kill()
    subprocess.run(["fusermount3", "-u", "-q", "-z", home])
    system.wait()
    p.kill()
    p.wait()


INSIDE = (forks, thread, arguments, falling, races, fair, zombies, texts)
if sys.argv[1:2] == ["inside"]:
    {t.__name__: t for t in INSIDE}[sys.argv[2]]()
    finish()
for test in INSIDE:
    if sys.argv[1:] and test.__name__ not in sys.argv[1:]:
        continue
    home = tempfile.mkdtemp()
    trace, answers = os.path.join(home, "trace"), os.path.join(home, "answers")
    p = subprocess.Popen(
        [PROGRAM, "run", "--trace", trace, "--answers", answers, sys.executable, ME, "inside", test.__name__],
        start_new_session=True,
    )
    same("%s: its status" % test.__name__, status_within(p, 8 * PATIENCE), 0)
    with open(trace) as lines, open(answers, "rb") as wanted:
        if os.path.getsize(trace) <= TRACE_MAX:
            step(
                "cgreplay gives the same answers",
                subprocess.run(CGREPLAY, stdin=lines, stdout=subprocess.PIPE).stdout == wanted.read(),
            )
for test in (full_trace, full_of_refusals, almost_full, full_for_a_while, taken_hold, stalled):
    if not sys.argv[1:] or test.__name__ in sys.argv[1:]:
        test()
finish()
