"""Signals that a program or a manager sends to a whole group, or to all processes: no process of makhloeum ends by one, and the program's
first process gets each once."""
import collections
import os
import signal
import subprocess
import sys
import time

sys.path.insert(0, os.path.dirname(os.path.dirname(os.path.realpath(__file__))))
from support import PROGRAM, Beside, Mount, error_of, finish, libc, line_of
from support import is_alive, own_of, same, status_within, step, until

# What the first process of a run does. It says a line when it has handled a signal.
BEGINS = """import collections, ctypes, os, signal, sys, time
heard, told = os.pipe()
os.set_blocking(told, False)
signal.set_wakeup_fd(told, warn_on_full_buffer=False)  # gets a byte for each signal: python itself calls a handler once for several
def count(*_):
    pass
def rest():
    while True:
        time.sleep(0.05)  # a signal that comes just before signal.pause() would be handled after it
def say(text):
    os.write(1, (text + "\\n").encode())
def passed():
    "What was sent before is delivered before the supervisor lets a fork return."
    pid = os.fork()
    if pid == 0:
        os._exit(0)
    os.waitpid(pid, 0)
def last(*_):
    passed()
    counts = collections.Counter(os.read(heard, 65536))
    del counts[signal.SIGUSR2]
    say(repr(sorted(counts.items())))
    os._exit(7)
signal.signal(signal.SIGUSR2, last)
"""

# Two signals that the C library keeps for itself can only be ignored, by the kernel's own call.
GROUP = """
libc = ctypes.CDLL(None, use_errno=True)
LIBRARYS = (32, 33)
for number in range(1, 65):
    if number in (signal.SIGKILL, signal.SIGSTOP, signal.SIGUSR2):
        continue
    if number in LIBRARYS:
        call = 13 if os.uname().machine == "x86_64" else 134
        libc.syscall(call, number, (ctypes.c_ulong * 4)(1, 0, 0, 0), None, 8)
        os.kill(0, number)
    else:
        signal.signal(number, signal.SIG_IGN)
        os.kill(0, number)
        signal.signal(number, count)
        os.kill(0, number)
    passed()
    say("%d" % number)
rest()
"""

ALL = """
for number in range(1, 65):
    if number not in (9, 19, 32, 33, signal.SIGUSR2, signal.SIGCHLD):
        signal.signal(number, lambda number, _: (passed(), say(str(number))))
say("ready")
rest()
"""


class Run:
    """A run with a first process that says lines, in a session of its own."""

    def __init__(self, code, *words):
        self.p = subprocess.Popen(
            [*words, PROGRAM, "run", sys.executable, "-c", BEGINS + code],
            stdout=subprocess.PIPE,
            text=True,
            start_new_session=True,
        )
        self.settled = 0

    def line(self):
        return Beside(self.p.stdout.readline).result()

    def program(self):
        """Its first process: the child of the supervisor that no other of its children is like."""
        own = own_of(self.p.pid)
        children = open("/proc/%d/task/%d/children" % (self.p.pid, self.p.pid)).read().split()
        return next(int(pid) for pid in children if int(pid) not in own)

    def settle(self):
        """Returns once the program has got what was sent to it or to makhloeum before: of signals that wait, the lowest comes first."""
        for pid, last in ((self.p.pid, signal.SIGWINCH), (self.program(), signal.SIGRTMAX)):
            os.kill(pid, last)
            same("the program has got what was sent", self.line(), "%d\n" % last)
        self.settled += 1

    def ends(self, name, wanted):
        """A last signal to makhloeum, which reaches the program after all that came before."""
        os.kill(self.p.pid, signal.SIGUSR2)
        line = self.line()
        counts = collections.Counter(dict(eval(line or "[]")))
        counts.subtract({signal.SIGRTMAX: self.settled, signal.SIGWINCH: self.settled})
        got = [(n, count) for n, count in sorted(counts.items()) if count]
        same("%s: how often each came" % name, got, wanted)
        same("%s: the status" % name, status_within(self.p), 7)
        self.p.stdout.close()


def group():
    """The program sends each signal to its group: first it ignores it, then it handles it."""
    run = Run(GROUP)
    numbers = [n for n in range(1, 65) if n not in (signal.SIGKILL, signal.SIGSTOP, signal.SIGUSR2)]
    for number in numbers:
        line = run.line()
        same("signal %d to the group" % number, line, "%d\n" % number)
        if not line:
            return
    died = [pid for pid in own_of(run.p.pid) if not is_alive(pid)]
    same("no process of makhloeum has ended", (died, len(own_of(run.p.pid))), ([], 3))
    # each fork of the program ends, so there are more of these
    handled = [n for n in numbers if n not in (32, 33, signal.SIGCHLD)]
    os.kill(run.p.pid, signal.SIGUSR2)
    got = dict(eval(run.line() or "[]"))
    got.pop(signal.SIGCHLD, None)
    same("each came once", got, {n: 1 for n in handled})
    same("the status", status_within(run.p), 7)
    run.p.stdout.close()


def members(run):
    """All processes of a run; the program is the last."""
    until(lambda: len(own_of(run.p.pid)) == 3)
    return [run.p.pid, *own_of(run.p.pid), run.program()]


def manager():
    """A manager sends a signal to each process of the run, one by one: makhloeum's own before the program, after it, and at once. The
    program says at once that one has come, since two that come some seconds apart are not one signal to all."""
    run = Run(ALL.replace("(passed(), say(str(number)))", "say(str(number))"))
    same("it runs", run.line(), "ready\n")
    everyone = members(run)
    wanted = {}
    which = [
        signal.SIGTERM,
        signal.SIGHUP,
        signal.SIGINT,
        signal.SIGQUIT,
        signal.SIGUSR1,
        signal.SIGALRM,
        signal.SIGCONT,
    ]
    for each in which:
        for name, first, then in (
            ("makhloeum first", everyone[:-1], everyone[-1:]),
            ("the program first", everyone[-1:], everyone[:-1]),
            ("all at once", everyone, []),
            ("all at once, from the last", everyone[::-1], []),
        ):
            for pid in first:
                os.kill(pid, each)
            same("%s, %s: it comes" % (each.name, name), run.line(), "%d\n" % each)
            for pid in then:
                os.kill(pid, each)
            run.settle()
            wanted[each] = wanted.get(each, 0) + 1
    run.ends("a manager", sorted((int(n), count) for n, count in wanted.items()))


def every():
    """Every signal to every process but the program: none ends, and the run goes on."""
    run = Run(ALL)
    same("it runs", run.line(), "ready\n")
    own = members(run)[1:-1]
    for number in range(1, 65):
        if number not in (signal.SIGKILL, signal.SIGSTOP):
            for pid in own:
                error_of(os.kill, pid, number)
    for pid in own:
        error_of(os.kill, pid, signal.SIGCONT)
    same("all live", [is_alive(pid) and not is_ending(pid) for pid in own], [True] * 3)
    run.ends("each own process has got every signal", [])


def alone():
    """Signals to makhloeum alone: those of faults and of real time have no effect."""
    run = Run(ALL)
    same("it runs", run.line(), "ready\n")
    faults = {
        signal.SIGILL,
        signal.SIGTRAP,
        signal.SIGABRT,
        signal.SIGBUS,
        signal.SIGFPE,
        signal.SIGSEGV,
        signal.SIGSYS,
    }
    own = {signal.SIGKILL, signal.SIGSTOP, signal.SIGCHLD, signal.SIGPIPE, signal.SIGXFSZ, signal.SIGUSR2}
    passed = [n for n in range(1, 31) if n not in faults | own]
    for number in sorted(faults | {signal.SIGPIPE, signal.SIGXFSZ, 32, 33, 34, 64}):
        os.kill(run.p.pid, number)
    for number in passed:
        os.kill(run.p.pid, number)
        same("signal %d is passed on" % number, run.line(), "%d\n" % number)
    run.ends("signals to makhloeum alone", [(n, 1) for n in passed])


def asynchronous():
    """The program makes the kernel send makhloeum each signal, as what it can read from a socket. None reaches the program."""
    code = (
        ALL.replace('say("ready")', "")
        + """
import fcntl, socket
F_SETSIG = 10
for number in range(1, 65):
    if number in (9, 19):
        continue
    ours, theirs = socket.socketpair()
    fcntl.fcntl(ours, fcntl.F_SETOWN, os.getppid())
    fcntl.fcntl(ours, F_SETSIG, number)
    fcntl.fcntl(ours, fcntl.F_SETFL, os.O_ASYNC)
    theirs.send(b"x")
passed()  # one that still waits would be one with that of the same number which the test sends
say("ready")
rest()
"""
    )
    run = Run(code.replace("rest()\n", "", 1))
    same("it runs", run.line(), "ready\n")
    run.settle()
    run.ends("signals of the kernel", [])


def outside():
    """A signal that makhloeum gets since another process of the run sends it to all: the first process, which is not in that group, gets
    none."""
    code = """
signal.signal(signal.SIGTERM, count)
child = os.fork()
if child == 0:
    signal.signal(signal.SIGTERM, signal.SIG_IGN)
    os.read(0, 1)
    os.kill(0, signal.SIGTERM)
    say("sent")
    os._exit(0)
os.setpgid(0, 0)
say("ready")
rest()
"""
    read, write = os.pipe()
    p = subprocess.Popen(
        [PROGRAM, "run", sys.executable, "-c", BEGINS + code],
        stdin=read,
        stdout=subprocess.PIPE,
        text=True,
        start_new_session=True,
    )
    same("it runs", p.stdout.readline(), "ready\n")
    os.write(write, b"x")
    same("the other sends it", Beside(p.stdout.readline).result(), "sent\n")
    os.kill(p.pid, signal.SIGUSR2)
    same("the first process did not get it", Beside(p.stdout.readline).result(), "[]\n")
    same("its status", status_within(p), 7)
    p.stdout.close()
    os.close(read)
    os.close(write)


def another():
    """A signal to another process of the run is none to the first: one that the same sender sends to makhloeum then is passed on."""
    code = """
pid = os.fork()
if pid == 0:
    signal.set_wakeup_fd(-1)
    signal.signal(signal.SIGTERM, lambda *_: (say("another has it"), os._exit(0)))
    say(str(os.getpid()))
    rest()
"""
    run = Run(code + ALL)
    child = next(int(line) for line in sorted(run.line() for _ in range(2)) if line != "ready\n")
    os.kill(child, signal.SIGTERM)
    same("a signal to another process", run.line(), "another has it\n")
    os.kill(run.p.pid, signal.SIGTERM)
    same("then to makhloeum", run.line(), "15\n")
    run.ends("another process", [(signal.SIGTERM, 1)])


def often():
    """The program gets the signals that are sent to makhloeum, and runs in between however often they come."""
    begin = time.monotonic()
    run = Run(ALL)
    same("it runs", run.line(), "ready\n")
    for count in (1, 2, 3):
        os.kill(run.p.pid, signal.SIGHUP)
        same("signal %d comes" % count, run.line(), "1\n")
    flood = os.fork()
    while flood == 0:
        os.kill(run.p.pid, signal.SIGHUP)
    same("they still come", [run.line() for _ in range(10)], ["1\n"] * 10)
    os.kill(flood, signal.SIGKILL)
    os.waitpid(flood, 0)
    took = time.monotonic() - begin
    step("at most ten in a second", took > 1.1, took)
    run.p.kill()
    run.p.wait()
    run.p.stdout.close()


def merged():
    """A signal that the program has blocked, or gets while makhloeum is stopped, comes once too, whichever of the two is there first."""
    code = """
signal.signal(signal.SIGTERM, lambda *_: say("TERM"))
signal.signal(signal.SIGUSR1, lambda *_: (signal.pthread_sigmask(signal.SIG_UNBLOCK, [signal.SIGTERM]), say("unblocked")))
signal.pthread_sigmask(signal.SIG_BLOCK, [signal.SIGTERM])
say("ready")
rest()
"""
    for name in ("makhloeum first", "the program first"):
        run = Run(code)
        same("it runs", run.line(), "ready\n")
        pids = [run.p.pid, run.program()]
        for pid in pids if name == "makhloeum first" else pids[::-1]:
            os.kill(pid, signal.SIGTERM)
        os.kill(run.p.pid, signal.SIGUSR1)
        same("blocked, %s: both come" % name, {run.line() for _ in range(2)}, {"TERM\n", "unblocked\n"})
        run.ends("blocked, %s" % name, [(signal.SIGUSR1, 1), (signal.SIGTERM, 1)])
    run = Run(ALL)
    same("it runs", run.line(), "ready\n")
    program = run.program()
    os.kill(run.p.pid, signal.SIGSTOP)
    step("makhloeum is stopped", until(lambda: state_of(run.p.pid) == "T"))
    os.kill(program, signal.SIGTERM)
    step("the program is about to get it", until(lambda: state_of(program) == "t"))
    os.kill(run.p.pid, signal.SIGTERM)
    os.kill(run.p.pid, signal.SIGCONT)
    same("makhloeum was stopped: it comes", {run.line() for _ in range(2)}, {"15\n", "18\n"})
    run.ends("makhloeum was stopped", [(signal.SIGTERM, 1), (signal.SIGCONT, 1)])


def is_ending(pid):
    """The kernel ends a process by a SIGKILL for each thread, which may take a while to run."""
    pending = next(x for x in open("/proc/%d/status" % pid) if x.startswith("SigPnd:")).split()[1]
    return bool(int(pending, 16) & 1 << signal.SIGKILL - 1)


def state_of(pid):
    return open("/proc/%d/stat" % pid).read().rpartition(")")[2].split()[0]


def mounts():
    """makhloeum mount still ends by these."""
    for each in (signal.SIGTERM, signal.SIGINT, signal.SIGHUP):
        m = Mount()
        m.process.send_signal(each)
        same("%s ends a mount" % each.name, m.ended(), 0)
        step("%s: it is unmounted" % each.name, not os.path.ismount(m.at))


def faults():
    """A fault of makhloeum itself ends it, by the signal of the fault."""
    library = os.path.join(os.path.dirname(PROGRAM), "faulty.so")
    if not os.path.exists(library):  # the program with sanitizers reports its faults itself
        return
    for name, wanted in (("abort", signal.SIGABRT), ("segment", signal.SIGSEGV)):
        env = dict(os.environ, LD_PRELOAD=library, FAULT=name)
        p = subprocess.Popen([PROGRAM, "run", "env", "-u", "LD_PRELOAD", "true"], env=env, start_new_session=True)
        same("%s: the status" % name, status_within(p), -wanted)


def deaf():
    """A program that ignores what can be ignored, with a process in another session: `timeout -k` ends both."""
    words = ["sleep", "600.%d" % os.getpid()]
    script = "trap '' TERM INT HUP QUIT; setsid %s & echo ready; exec %s" % (" ".join(words), " ".join(words))
    p = subprocess.Popen(
        ["timeout", "-k", "1", "600", PROGRAM, "run", "sh", "-c", script],
        stdout=subprocess.PIPE,
        start_new_session=True,
    )
    same("it runs", p.stdout.readline(), b"ready\n")
    p.terminate()  # what the end of its time does, and -k counts from then on
    same("it is killed with its caller's group", status_within(p), -signal.SIGKILL)
    line = b"".join(w.encode() + b"\0" for w in words)
    left = lambda: [n for n in os.listdir("/proc") if n.isdigit() and line_of(int(n)) == line]
    step("nothing is left", until(lambda: not left()), left())
    p.stdout.close()


def timers():
    """A caller sets a timer, and becomes makhloeum: the program gets the signal, as it would have. The caller blocks it, so it may come
    at any time."""
    block = "signal.pthread_sigmask(signal.SIG_%s, [signal.SIGALRM])"
    caller = "import os, signal, sys; %s; signal.alarm(1); os.execv(sys.argv[1], sys.argv[1:])" % (block % "BLOCK")
    program = "import signal; %s; signal.pause()" % (block % "UNBLOCK")
    words = [sys.executable, "-c", caller, PROGRAM, "run", sys.executable, "-c", program]
    p = subprocess.Popen(words, start_new_session=True)
    same("a timer of its caller", status_within(p), 128 + signal.SIGALRM)


def pending():
    """Signals that a caller blocks and has got already when it becomes makhloeum: the program, which lets them through, gets them."""
    block = "signal.pthread_sigmask(signal.SIG_%s, [signal.SIGTERM])"
    caller = "import os, signal, sys; %s; os.kill(os.getpid(), signal.SIGTERM); os.execv(sys.argv[1], sys.argv[1:])"
    program = "import os, signal; os.write(1, b'it runs'); %s; signal.pause()" % (block % "UNBLOCK")
    words = [sys.executable, "-c", caller % (block % "BLOCK"), PROGRAM, "run", sys.executable, "-c", program]
    p = subprocess.Popen(words, stdout=subprocess.PIPE, start_new_session=True)
    same("what the program says", Beside(p.stdout.read).result(), b"it runs")
    same("the program's end", status_within(p), 128 + signal.SIGTERM)
    p.stdout.close()
    stops = {signal.SIGTSTP, signal.SIGTTIN, signal.SIGTTOU}  # one of these ends a SIGCONT that waits
    others = {
        signal.SIGHUP,
        signal.SIGINT,
        signal.SIGQUIT,
        signal.SIGUSR1,
        signal.SIGUSR2,
        signal.SIGALRM,
        signal.SIGTERM,
    }
    others |= {signal.SIGURG, signal.SIGVTALRM, signal.SIGPROF, signal.SIGWINCH, signal.SIGIO, signal.SIGPWR}
    caller = "import os, signal, sys; all = {%s}; signal.pthread_sigmask(signal.SIG_BLOCK, all)\n"
    caller += "for each in all: os.kill(os.getpid(), each)\nos.execv(sys.argv[1], sys.argv[1:])"
    program = "import signal; all = {%s}\nwhile all: all.remove(int(signal.sigwait(all)))"
    one = sorted(os.sched_getaffinity(0))[:1]  # there makhloeum often goes on before the program's process does
    for which in (others | stops, others | {signal.SIGCONT}) * 3:
        numbers = ", ".join(str(int(each)) for each in which)
        words = [sys.executable, "-c", caller % numbers, PROGRAM, "run", sys.executable, "-c", program % numbers]
        p = subprocess.Popen(words, start_new_session=True, preexec_fn=lambda: os.sched_setaffinity(0, one))
        same("%d signals, each of which the program waits for: its status" % len(which), status_within(p), 0)


def of_children():
    """SIGCHLD is the supervisor's own, also if another process sends it."""
    code = """
signal.pthread_sigmask(signal.SIG_BLOCK, [signal.SIGCHLD, signal.SIGWINCH])
say("ready")
signal.sigwait([signal.SIGWINCH])
say(repr(signal.SIGCHLD in signal.sigpending()))
"""
    run = Run(code)
    same("it runs", run.line(), "ready\n")
    for each in (signal.SIGCHLD, signal.SIGWINCH):  # of signals that are passed on together, the lowest comes first
        os.kill(run.p.pid, each)
    same("whether the program gets it", run.line(), "False\n")
    same("SIGCHLD to makhloeum: the status", status_within(run.p), 0)
    run.p.stdout.close()


def kinds():
    """One by kill and one by sigqueue are two signals, although the sender is the same. So are those of two senders."""
    run = Run(ALL)
    same("it runs", run.line(), "ready\n")
    program = run.program()
    calls = lambda: os.kill(run.p.pid, signal.SIGTERM), lambda: libc.sigqueue(program, signal.SIGTERM, None)
    for call in (*calls, *calls[::-1]):
        call()
        same("each comes", run.line(), "15\n")
    for each, first, then in ((signal.SIGHUP, run.p.pid, program), (signal.SIGINT, program, run.p.pid)):
        os.kill(first, each)
        same("of one sender", run.line(), "%d\n" % each)
        subprocess.run(["sh", "-c", "kill -%d %d" % (each, then)])
        same("of another", run.line(), "%d\n" % each)
    run.ends("kill, sigqueue and two senders", [(signal.SIGHUP, 2), (signal.SIGINT, 2), (signal.SIGTERM, 4)])


def replaced():
    """Of a SIGCONT and a signal that stops, which wait together to be passed on, only the later one comes."""
    run = Run(ALL.replace("(passed(), say(str(number)))", "say(str(number))"))
    same("it runs", run.line(), "ready\n")

    def send(number):
        """Returns once makhloeum has taken it."""
        os.kill(run.p.pid, number)
        shared = lambda: next(x for x in open("/proc/%d/status" % run.p.pid) if x.startswith("ShdPnd:")).split()[1]
        until(lambda: not int(shared(), 16) & 1 << number - 1)

    def until_last():
        send(signal.SIGWINCH)
        return {int(line) for line in iter(run.line, "%d\n" % signal.SIGWINCH)}

    def got(first, then):
        """Both wait, if they come soon after another one."""
        send(signal.SIGHUP)
        same("SIGHUP comes", run.line(), "1\n")
        send(first)
        send(then)
        return until_last() | until_last()  # a handler that the first SIGWINCH interrupts says its number after it

    for stop in (signal.SIGTSTP, signal.SIGTTIN, signal.SIGTTOU):
        for first, then in ((stop, signal.SIGCONT), (signal.SIGCONT, stop)):
            found = any(got(first, then) == {then} for _ in range(30))  # on a busy machine the first has gone before
            step("%s before %s is replaced" % (first.name, then.name), found)
    run.p.kill()
    run.p.wait()
    run.p.stdout.close()


def continued():
    """A SIGCONT waits to be passed on while something else stops the program: makhloeum does not stop with it, and the program goes on."""

    def goes_on():
        """Not if the SIGCONT is passed on before the stop, as it may be on a busy machine: then both are stopped."""
        run = Run(ALL)
        same("it runs", run.line(), "ready\n")
        program = run.program()
        os.kill(run.p.pid, signal.SIGHUP)
        same("SIGHUP comes", run.line(), "1\n")
        for pid, number in ((run.p.pid, signal.SIGCONT), (program, signal.SIGSTOP), (run.p.pid, signal.SIGWINCH)):
            os.kill(pid, number)
        both = Beside(lambda: {run.line(), run.line()})
        until(lambda: both.got or state_of(run.p.pid) == "T")
        goes = both.got == [{"18\n", "28\n"}]
        run.p.kill()
        run.p.wait()
        both.result()
        run.p.stdout.close()
        return goes

    step("the program goes on", any(goes_on() for _ in range(20)))


def far_apart():
    """Two signals of one sender are two if more than five seconds are between them. The other tests are made meanwhile."""
    runs = [Run(ALL) for _ in range(2)]
    for run, pid in zip(runs, (lambda run: run.p.pid, Run.program)):
        same("it runs", run.line(), "ready\n")
        os.kill(pid(run), signal.SIGTERM)
        same("the first comes", run.line(), "15\n")
    end = time.monotonic() + 5.5
    yield
    time.sleep(max(0, end - time.monotonic()))
    for run, pid in zip(runs, (Run.program, lambda run: run.p.pid)):
        os.kill(pid(run), signal.SIGTERM)
        same("and the second", run.line(), "15\n")
        run.ends("far apart", [(signal.SIGTERM, 2)])


tests = [
    group,
    manager,
    every,
    alone,
    asynchronous,
    outside,
    another,
    often,
    merged,
    mounts,
    faults,
    deaf,
    timers,
    pending,
]
tests += [of_children, kinds, replaced, continued]
lasting = far_apart() if "far_apart" in sys.argv[1:] or not sys.argv[1:] else iter(())
next(lasting, None)
for test in [t for t in tests if t.__name__ in sys.argv[1:] or not sys.argv[1:]]:
    test()
next(lasting, None)
finish()
