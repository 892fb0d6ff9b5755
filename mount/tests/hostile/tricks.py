"""Programs that would pass for their supervisor or its helper, or are in another PID namespace, and what a run leaves as it was. This
file is also the program (tricks.py inside NAME)."""
import json
import os
import resource
import signal
import subprocess
import sys
import tempfile
import threading

sys.path.insert(0, os.path.dirname(os.path.dirname(os.path.realpath(__file__))))
from support import AT, BUILT, PATIENCE, PROGRAM, clone_into, error_of, finish, inside, into, read, run_each, same
from support import step, until, write

ME = os.path.realpath(__file__)
TRICKS = os.path.join(BUILT, "tricks")


def said(*words):
    ran = subprocess.run([TRICKS, *words], stdout=subprocess.PIPE, timeout=4 * PATIENCE)
    return ran.stdout.split() if ran.returncode == 0 else ["status %d" % ran.returncode]


# ---------------------------------------------------------------- inside


def marks():
    """A filter of the program tells a tracer the word of the supervisor's own filter."""
    os.mkdir(AT + "/a")
    reader = subprocess.Popen(
        ["sh", "-c", "read x; cat /proc/self/cgroup"], stdin=subprocess.PIPE, stdout=subprocess.PIPE
    )
    into("/a")
    same("calls that the supervisor does not stop, and do not fail with ENOSYS", said("marks"), [])
    same("no clone passes the program's filter for what the supervisor makes of a clone3", said("passes"), [b"77"] * 3)
    same("the root of a namespace is where it was", reader.communicate(b"\n")[0], b"0::/\n")
    same("seen from the group too", read("/proc/self/cgroup"), b"0::/a\n")


def signals():
    """Signals that look like stops, and what comes with a signal."""
    same("forged stops: sent, delivered, changed, children lost", said("forged"), [b"36", b"36", b"0", b"0"])
    same("queued signals that came otherwise", said("queued"), [b"0"])
    child = subprocess.Popen(["sleep", "600"])
    for _ in range(3):
        child.send_signal(signal.SIGSTOP)
        step("a parent sees a stop", os.WIFSTOPPED(os.waitpid(child.pid, os.WUNTRACED)[1]))
        child.send_signal(signal.SIGCONT)
        step("and that it goes on", os.WIFCONTINUED(os.waitpid(child.pid, os.WCONTINUED)[1]))
    child.kill()
    child.wait()


def tables():
    """A program opens and closes every table of mounts that it could guess, while another reads its own."""
    stolen = os.fork()
    if stolen == 0:
        found, last = 0, 0
        while True:
            for number in range(last + 1, last + 6):
                try:
                    os.close(os.open("%s/.makhloeum.t.%d" % (AT, number), os.O_RDONLY))
                    found, last = found + 1, number
                except OSError:
                    pass
    wrong = [e for e in (error_of(read, "/proc/self/mounts") for _ in range(2000)) if e != "ok"]
    os.kill(stolen, signal.SIGKILL)
    os.waitpid(stolen, 0)
    same("tables that could not be opened", wrong[:1], [])
    held = [os.open("/proc/self/mountinfo", os.O_RDONLY) for _ in range(3)]
    seen = [n for n in range(1, 5000) if os.path.exists("%s/.makhloeum.t.%d" % (AT, n))]
    same("of these, found by number", (len(held), seen), (3, []))


def peaks():
    """A child that was waited for has left before the next one is made."""
    os.mkdir(AT + "/a")
    into("/a")
    for _ in range(50):
        os.waitpid(os.posix_spawn("/bin/true", ["true"], {}), 0)
    same("the peak of fifty children, one after the other", read(AT + "/a/pids.peak"), b"2\n")
    write(AT + "/a/pids.max", b"2")
    same("one fits", error_of(os.posix_spawn, "/bin/true", ["true"], {}), "ok")
    same("and no more", error_of(os.posix_spawn, "/bin/true", ["true"], {}), "EAGAIN")
    os.wait()
    wrong = [i for i in range(50) if error_of(lambda: os.waitpid(os.posix_spawn("/bin/true", ["true"], {}), 0)) != "ok"]
    same("of fifty, one after the other at the limit, those that could not be made", wrong, [])
    os.mkdir(AT + "/b")
    fd = os.open(AT + "/b", os.O_RDONLY)
    same("fifty that are born in another group", {clone_into(fd) for _ in range(50)}, {0})
    same("their peak", read(AT + "/b/pids.peak"), b"1\n")


STORM = (
    """
import os
with open("%s/a/b/cgroup.procs", "w") as f:
    f.write("0")
os.write(1, b"x")
os.read(0, 1)
while True:
    try:
        pid = os.fork()
    except BlockingIOError:
        continue
    if pid == 0:
        os._exit(0)
    os.waitpid(pid, 0)
"""
    % AT
)


def storms():
    """Eight programs fork at a limit above their group: the count is never beyond it."""
    os.makedirs(AT + "/a/b")
    write(AT + "/a/pids.max", b"12")
    programs = [
        subprocess.Popen([sys.executable, "-c", STORM], stdin=subprocess.PIPE, stdout=subprocess.PIPE) for _ in range(8)
    ]
    same("all are there", b"".join(p.stdout.read(1) for p in programs), b"x" * 8)  # no limit stops a move
    for p in programs:
        p.stdin.close()
    step("the limit refuses some", until(lambda: int(read(AT + "/a/pids.events").split()[1]) > 50))
    counts = [int(read(AT + "/a/pids.current")) for _ in range(500)]
    step("500 counts, none beyond the limit", max(counts) <= 12, max(counts))
    same("the peak", read(AT + "/a/pids.peak"), b"12\n")
    write(AT + "/a/cgroup.kill", b"1")
    for p in programs:
        same("each is killed", p.wait(PATIENCE), -signal.SIGKILL)
    same("nobody is left", (read(AT + "/a/pids.current"), error_of(os.rmdir, AT + "/a/b")), (b"0\n", "ok"))


INNER = "unshare --pid --fork --mount-proc --kill-child".split()


def numbers():
    """A process in another PID namespace reads and writes the numbers of that namespace."""
    for name in "ab":
        os.mkdir(AT + "/" + name)
    other = subprocess.Popen(["sleep", "600"], preexec_fn=lambda: into("/b"))
    inner = subprocess.Popen(
        [*INNER, sys.executable, ME, "inside", "numbered", str(other.pid)], stdout=subprocess.PIPE, text=True
    )
    told = inner.stdout.read()
    print(told, end="")
    same("its status", inner.wait(PATIENCE), 0)
    same("whom it could not name stays", read(AT + "/b/cgroup.procs"), b"%d\n" % other.pid)
    other.kill()
    other.wait()


def numbered(other):
    """In the namespace, as its process 1."""
    same("its own number", os.getpid(), 1)
    write(AT + "/a/cgroup.procs", b"1\n")
    same("it moves itself", read("/proc/self/cgroup"), b"0::/a\n")
    same("it reads its own number", read(AT + "/a/cgroup.procs"), b"1\n")
    child = os.fork()
    if child == 0:
        signal.pause()
    same("a child's", sorted(read(AT + "/a/cgroup.procs").split()), sorted([b"1", b"%d" % child]))
    same("others are 0", set(read(AT + "/b/cgroup.procs").split()), {b"0"})
    same("and cannot be named", error_of(write, AT + "/a/cgroup.procs", b"%d" % int(other)), "ESRCH")
    same("nor a number of nobody", error_of(write, AT + "/a/cgroup.procs", b"4000"), "ESRCH")
    write(AT + "/b/cgroup.procs", b"%d" % child)
    same("it moves its child", (read("/proc/%d/cgroup" % child), read(AT + "/a/cgroup.procs")), (b"0::/b\n", b"1\n"))
    same("it reads both there", sorted(read(AT + "/b/cgroup.procs").split()), sorted([b"0", b"%d" % child]))
    ends, here = threading.Event(), []
    thread = threading.Thread(target=lambda: (here.append(threading.get_native_id()), ends.wait()))
    thread.start()
    until(lambda: here)
    same("threads too", sorted(read(AT + "/a/cgroup.threads").split()), sorted([b"1", b"%d" % here[0]]))
    write(AT + "/b/cgroup.procs", b"%d" % here[0])
    same("the number of a thread moves its process", read("/proc/self/cgroup"), b"0::/b\n")
    write(AT + "/a/cgroup.procs", b"0")
    same("0 is itself", read(AT + "/a/cgroup.procs"), b"1\n")
    ends.set()
    thread.join()
    fd = os.open(AT + "/b/cgroup.procs", os.O_RDONLY)
    whole = os.pread(fd, 99, 0)
    same("in pieces", b"".join(os.pread(fd, 1, i) for i in range(len(whole))), whole)
    os.kill(child, signal.SIGKILL)
    os.waitpid(child, 0)


# What a program gets from its caller.
KEPT = """import json, os, resource, signal, sys
status = dict(x.split(":", 1) for x in open("/proc/self/status"))
print(json.dumps({
    **{k: status[k].strip() for k in ("Umask", "Uid", "Gid", "SigBlk", "SigIgn", "SigPnd", "Cpus_allowed", "Threads")},
    "limits": [resource.getrlimit(n) for n in range(16)],
    "nice": os.nice(0), "folder": os.getcwd(), "group": os.getpgrp(), "session": os.getsid(0),
    "words": sys.argv[1:], "environment": dict(os.environ),
    "files": sorted(int(n) for n in os.listdir("/proc/self/fd") if os.path.exists("/proc/self/fd/" + n)),
    "scheduler": os.sched_getscheduler(0), "file": os.fstat(7).st_ino,
}))"""

INSIDE = {marks: [], signals: [], tables: [], peaks: [], storms: [], numbers: ["--root"]}
inside(*INSIDE, numbered)


# ---------------------------------------------------------------- outside


def inherited():
    """A program has from its caller what it would have without a run."""
    home = tempfile.mkdtemp()
    fd = os.open(home, os.O_RDONLY)

    def prepare():
        os.umask(0o35)
        os.chdir(home)
        os.nice(3)
        os.dup2(fd, 7)
        resource.setrlimit(resource.RLIMIT_NOFILE, (300, 400))
        resource.setrlimit(resource.RLIMIT_CORE, (0, 0))
        os.sched_setaffinity(0, list(os.sched_getaffinity(0))[:1])
        signal.pthread_sigmask(signal.SIG_BLOCK, [signal.SIGUSR1, signal.SIGRTMIN + 4])
        signal.signal(signal.SIGUSR2, signal.SIG_IGN)

    def got(*words):
        ran = subprocess.run(
            [*words, sys.executable, "-c", KEPT, "a b", ""],
            stdout=subprocess.PIPE,
            stdin=subprocess.DEVNULL,
            preexec_fn=prepare,
            timeout=PATIENCE,
            close_fds=False,
            env=dict(os.environ, ONE="1", EMPTY=""),
        )
        return json.loads(ran.stdout or "{}")

    options = ("--control", "--keep", "cpu", "--trace", home + "/trace", "--answers", home + "/answers")
    wanted, runs = got(), (got(PROGRAM, "run", "--"), got(PROGRAM, "run", *options, "--"))
    for key in wanted:
        same("inherited: %s" % key, [there.get(key) for there in runs], [wanted[key]] * 2)


run_each(INSIDE)
if "inherited" in sys.argv[1:] or not sys.argv[1:]:
    inherited()
finish()
