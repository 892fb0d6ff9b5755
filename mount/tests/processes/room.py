"""How many processes and threads a program may have under `makhloeum run` where the user's are limited (RLIMIT_NPROC): all but a few, and
at each limit a run either works or says why not. This file is also the program (room.py inside NAME).

A limit that is set in a user namespace of its own counts only what is there, whatever else the user has."""
import contextlib
import ctypes
import errno
import glob
import mmap
import os
import re
import signal
import struct
import subprocess
import sys
import threading

sys.path.insert(0, os.path.dirname(os.path.dirname(os.path.realpath(__file__))))
from support import AT, BUILT, PATIENCE, PROGRAM, Beside, clone_into, finish, in_parallel, libc, own_of, read
from support import run_beside_stalled, same, server_and_helper, step, tracer, until

ME = os.path.realpath(__file__)
BLOCKING = os.path.join(BUILT, "blocking")
PAGE = os.environ.get("PAGE", "")
HELD_KILL = os.path.join(os.path.dirname(PROGRAM), "held_kill.so")  # only with the plain build
MOST, BURST, FEW = 60, 64, 6
CLONES = 40  # how many clone3 calls `blocking sixteen` keeps waiting
SHARE = 8  # what makhloeum may take of the limit
LOOKS = 100  # how often it looks for a thread before it does without one
AT_REST = [1, 1, 2, 3]  # the threads of supervisor, companion, server and helper


def threads_of_makhloeum():
    own = (tracer(), *own_of(tracer()))
    return sorted(len(os.listdir("/proc/%d/task" % pid)) for pid in own)


def sum_of(key, paths):
    """The sum of a number in these files of /proc. That of a thread that has ended meanwhile is left out."""
    found = 0
    for path in paths:
        with contextlib.suppress(FileNotFoundError, ProcessLookupError), open(path) as status:
            found += int(re.search(r"^%s:\s*(\d+)" % key, status.read(), re.M)[1])
    return found


class Children:
    """As many children as there may be, until they are left to end."""

    def __init__(self):
        self.pids = []
        r, self.keeps = os.pipe()
        while len(self.pids) < 2 * MOST:
            try:
                pid = os.fork()
            except OSError as e:
                self.fault = errno.errorcode[e.errno]
                break
            if pid == 0:
                os.close(self.keeps)
                os.read(r, 1)
                os._exit(0)
            self.pids.append(pid)
        os.close(r)

    def end(self):
        os.close(self.keeps)
        for pid in self.pids:
            os.waitpid(pid, 0)


libc.mmap.restype = ctypes.c_void_p


def text_of(path):
    """The address of a path whose text does not come before the file system answers."""
    fd = os.open(path, os.O_RDONLY)
    return ctypes.c_void_p(libc.mmap(None, 4096, mmap.PROT_READ, mmap.MAP_PRIVATE, fd, ctypes.c_long(0)))


# ---------------------------------------------------------------- inside


def burst():
    """Calls that wait take a thread each, and leave none behind."""
    late = os.path.dirname(PAGE) + "/late"
    step("threads of its processes at rest", until(lambda: threads_of_makhloeum() == AT_REST), threads_of_makhloeum())
    helper = server_and_helper(tracer())[1]
    size = lambda: sum_of("VmData", ["/proc/%d/status" % helper])
    before = size()
    path = text_of(late)  # before somebody waits for it: then an open waits too
    subprocess.run([BLOCKING, "sixteen", late], stdout=subprocess.DEVNULL, timeout=PATIENCE)
    opens = [Beside(libc.open, path, os.O_RDONLY) for _ in range(BURST)]
    taken = lambda: sum(threads_of_makhloeum()) - sum(AT_REST)
    step("each that waits takes one", until(lambda: taken() == BURST + CLONES), taken())
    same("another open meanwhile", Beside(read, "/proc/self/cgroup").result(), b"0::/\n")
    if os.path.exists(HELD_KILL):  # a sanitizer has memory of its own for each thread
        step("and a mebibyte at most", size() - before < 1024 * taken(), (before, size()))
    os.path.exists(os.path.dirname(PAGE) + "/go")
    same("what the opens come to", {o.result() for o in opens}, {-1})
    step("all threads that waited end", until(lambda: threads_of_makhloeum() == AT_REST), threads_of_makhloeum())
    same("an open afterwards", read("/proc/self/cgroup"), b"0::/\n")
    Beside(libc.open, text_of(PAGE), os.O_RDONLY)
    taken_again = until(lambda: sum(threads_of_makhloeum()) > sum(AT_REST))
    step("one that waits takes one again", taken_again, threads_of_makhloeum())
    same("another open beside it", Beside(read, "/proc/self/cgroup").result(), b"0::/\n")


def full():
    """No thread can be made for opens that wait: other calls are answered in time, by whom or how ever. The first of them is kept waiting
    for a while, and again once one was answered."""
    stalled, helper = os.path.dirname(PAGE), server_and_helper(tracer())[1]
    for name in ("late", "page"):
        path, begin = text_of("%s/%s" % (stalled, name)), threading.Event()
        same("the hierarchy", read("/proc/self/cgroup"), b"0::/\n")
        opens = [Beside(lambda at, go: go.wait() and libc.open(at, os.O_RDONLY), path, begin) for _ in range(FEW)]
        children = Children()
        same("beyond the limit", children.fault, "EAGAIN")
        same("the hierarchy, once no thread can be made", read("/proc/self/cgroup"), b"0::/\n")
        waits = lambda: sum_of("voluntary_ctxt_switches", glob.glob("/proc/%d/task/*/status" % helper))
        before = waits()
        signal.alarm(int(2 * PATIENCE))  # no thread can wait for a call beside this one
        begin.set()
        until(lambda: os.path.exists(stalled + "/asked"))
        for _ in range(20):
            step("an open ends", read("/proc/self/cgroup") != b"")
        looks = waits() - before
        step("of opens for which there is no thread only the first one waits", LOOKS <= looks < 10 * LOOKS, looks)
        root = os.open(AT, os.O_RDONLY)
        same("clone3, of which C libraries then make a clone", clone_into(root), "ENOSYS")
        code = ctypes.create_string_buffer(struct.pack("HBBI", 6, 0, 0, 0x7FFF0000))  # it allows all
        words = ctypes.create_string_buffer(struct.pack("HxxxxxxP", 1, ctypes.addressof(code)))
        libc.prctl(38, 1, 0, 0, 0)  # PR_SET_NO_NEW_PRIVS
        same("a filter is added", libc.prctl(22, 2, words, 0, 0), 0)  # PR_SET_SECCOMP, SECCOMP_MODE_FILTER
        os.path.exists(stalled + "/go")
        children.end()
        signal.alarm(0)
        if name == "late":
            same("what the opens come to", {o.result() for o in opens}, {-1})
            step("then an open shows the hierarchy", until(lambda: read("/proc/self/cgroup") == b"0::/\n"))
            same("and clone3 works", until(lambda: clone_into(root) == 0), True)


# Whether it sees the hierarchy, before there are as many children as there may be and then, and how many there are.
CHILDREN = """
import os
def seen():
    return open("/proc/self/cgroup").read() == "0::/\\n"
before, pids = seen(), []
r, w = os.pipe()
try:
    while len(pids) < 200:
        pids.append(os.fork())
        if pids[-1] == 0:
            os.close(w)
            os.read(r, 1)
            os._exit(0)
except BlockingIOError:
    pass
print(before and seen(), len(pids))
"""

INSIDE = (burst, full)
if sys.argv[1:2] == ["inside"]:
    {t.__name__: t for t in INSIDE}[sys.argv[2]]()
    sys.stdout.flush()
    os._exit(1 if __import__("support").failed else 0)


# ---------------------------------------------------------------- outside


def run(test):
    words = [PROGRAM, "run", sys.executable, ME, "inside", test.__name__]
    run_beside_stalled(test.__name__, [*under(MOST), *words] if test is full else words)


def under(most):
    """What runs a program under this limit."""
    return ("unshare", "--map-current-user", "prlimit", "--nproc=%d" % most)


def limited(most, *words):
    """The status of a program under this limit, its output and what is said."""
    # leaks are looked for by a thread more
    env = dict(os.environ, ASAN_OPTIONS="detect_leaks=0")
    program = (sys.executable, "-I", "-S", "-c", CHILDREN)
    ran = subprocess.run([*under(most), *words, *program], stdout=-1, stderr=-1, timeout=2 * PATIENCE, env=env)
    return ran.returncode, ran.stdout.decode().split(), ran.stderr.decode()


def limits():
    for most in (1, 10, MOST):
        status, out, said = limited(most)
        same("alone, with %d" % most, (status, out[1:], said), (0, [str(most - 1)], ""))

    def is_right(most, status, out, said):
        if status == 0:
            return said == "" and out[0] == "True" and most - 1 - SHARE <= int(out[1]) < most - 1
        one = said.startswith("makhloeum: this machine does not allow ") and said.count("\n") == 1
        return status == 2 and not out and one and most <= SHARE

    def within(most):
        """While a call is answered, a thread more may live for a moment: then there is less room, and it is tried again."""
        for _ in range(3):
            try:
                got = limited(most, PROGRAM, "run")
            except subprocess.TimeoutExpired:
                got = ("it hangs", [], "")
            if is_right(most, *got) or got[0] or "False" in got[1]:
                break
        step("with %d" % most, is_right(most, *got), got)

    in_parallel(within, range(1, MOST + 1), lanes=4)


wanted = [t for t in (*INSIDE, limits) if t.__name__ in sys.argv[1:] or not sys.argv[1:]]
in_parallel(lambda t: run(t) if t in INSIDE else t(), wanted)
finish()
