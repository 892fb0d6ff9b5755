"""Numbers of processes and threads that are used again at once. In a PID namespace of its own this test says which number comes next
(ns_last_pid), so it does not wait for the numbers to wrap around. This file is also the program (reused.py inside NAME)."""
import os
import resource
import select
import signal
import socket
import subprocess
import sys
import tempfile
import threading
import time

sys.path.insert(0, os.path.dirname(os.path.dirname(os.path.realpath(__file__))))
from support import AT, PATIENCE, PROGRAM, Beside, Mount, descriptor_places
from support import error_of, finish, inside, into, own_of, read, same, server_and_helper, spared, status_within, step
from support import tracer, until, write

ME = os.path.realpath(__file__)
TRIES = 50  # another process of the namespace may take the number
FEW = 100  # descriptors, of which the server leaves 64 to itself
HELD_KILL = os.path.join(os.path.dirname(PROGRAM), "held_kill.so")  # only with the plain build
asks = socket.socket(fileno=int(os.environ["ASKS"])) if "ASKS" in os.environ else None


def next_is(number):
    """The next process or thread of this namespace has this number, if it is free."""
    if asks:
        asks.send(b"%d" % number)
        asks.recv(1)
    else:
        write("/proc/sys/kernel/ns_last_pid", b"%d" % (number - 1))


def reused(name, before, after, undo):
    """Whose number `before` returns has ended. `after` makes another and returns its number: they are the same, or it is undone."""
    for _ in range(TRIES):
        number = before()
        next_is(number)
        again = after()
        if again == number:
            return number
        undo(again)
    step("%s: the number is used again" % name, False)
    return None


# ---------------------------------------------------------------- inside


def child(group, call=signal.pause):
    """A child in a group, once it is there."""
    r, w = os.pipe()
    pid = os.fork()
    if pid == 0:
        into(group)
        os.write(w, b"x")
        call()
        os._exit(0)
    os.close(w)
    os.read(r, 1)
    os.close(r)
    return pid


def born(call=signal.pause):
    """A child in the group of this process."""
    pid = os.fork()
    if pid == 0:
        call()
        os._exit(0)
    return pid


def end(pid):
    os.kill(pid, signal.SIGKILL)
    os.waitpid(pid, 0)
    return pid


class Thread:
    """A thread that waits for its end."""

    newest = None

    def __init__(self):
        begun, self.ends = threading.Event(), threading.Event()
        self.thread = threading.Thread(target=lambda: (begun.set(), self.ends.wait()))
        self.thread.start()
        begun.wait()
        self.number = self.thread.native_id
        Thread.newest = self

    def end(self):
        self.ends.set()
        self.thread.join()
        until(lambda: not os.path.exists("/proc/self/task/%d" % self.number))
        return self.number


def numbers(group, name="cgroup.procs"):
    return sorted(map(int, read(AT + group + "/" + name).split()))


def count(group):
    return int(read(AT + group + "/pids.current"))


def processes():
    """A process has the number of another that was in another group, or was killed there."""
    for g in ("/a", "/b", "/c"):
        os.mkdir(AT + g)
    me = os.getpid()
    into("/b")

    def killed():
        pid = child("/a")
        write(AT + "/a/cgroup.kill", b"1")
        os.waitpid(pid, 0)
        return pid

    def frozen():
        pid = child("/c")
        write(AT + "/c/cgroup.freeze", b"1")
        until(lambda: read(AT + "/c/cgroup.events") == b"populated 1\nfrozen 1\n")
        end(pid)
        write(AT + "/c/cgroup.freeze", b"0")
        return pid

    for name, before in (("ended", lambda: end(child("/a"))), ("killed", killed), ("frozen", frozen)):
        pid = reused(name, before, born, end)
        same("%s: it is where it was born" % name, (numbers("/b"), count("/b")), (sorted((me, pid)), 2))
        same("%s: and not there" % name, [(numbers(g), count(g)) for g in ("/a", "/c")], [([], 0)] * 2)
        same("%s: its own group" % name, read("/proc/%d/cgroup" % pid), b"0::/b\n")
        write(AT + "/a/cgroup.procs", b"%d" % pid)
        same("%s: it moves" % name, (numbers("/a"), count("/a"), count("/b")), ([pid], 1, 1))
        write(AT + "/a/cgroup.freeze", b"1")
        is_frozen = until(lambda: read(AT + "/a/cgroup.events") == b"populated 1\nfrozen 1\n")
        stat = open("/proc/%d/stat" % pid).read()
        same("%s: it is frozen, and has stopped" % name, (is_frozen, stat.rpartition(")")[2].split()[0]), (True, "t"))
        write(AT + "/a/cgroup.freeze", b"0")
        write(AT + "/a/cgroup.kill", b"1")
        same("%s: a kill ends it" % name, os.waitpid(pid, 0)[1], signal.SIGKILL)
        pid = reused(name, before, lambda: born(lambda: os._exit(os.waitpid(os.fork() or os._exit(3), 0)[1] >> 8)), end)
        same("%s: another forks, and ends" % name, os.waitpid(pid, 0)[1], 3 << 8)
        same("%s: it is gone" % name, (numbers("/b"), count("/b")), ([me], 1))
        write(AT + "/b/pids.max", b"3")
        same(
            "%s: two fit" % name, [error_of(lambda: made.append(born())) for made in ([],) * 3], ["ok", "ok", "EAGAIN"]
        )
        write(AT + "/b/pids.max", b"max")
        for pid in numbers("/b"):
            if pid != me:
                end(pid)


def threads():
    """A process has the number of a thread, and a thread that of a process."""
    for g in ("/a", "/b"):
        os.mkdir(AT + g)
    me = os.getpid()
    into("/a")
    pid = reused("a process", lambda: Thread().end(), born, end)
    same("a process with the number of a thread", (numbers("/a"), count("/a")), (sorted((me, pid)), 2))
    same("it is a thread too, its own", numbers("/a", "cgroup.threads"), sorted((me, pid)))
    write(AT + "/b/cgroup.procs", b"%d" % pid)
    same("it moves alone", (numbers("/a"), numbers("/b"), count("/a"), count("/b")), ([me], [pid], 1, 1))
    end(pid)
    same("and ends alone", (count("/a"), count("/b")), (1, 0))
    number = reused("a thread", lambda: end(child("/b")), lambda: Thread().number, lambda _: Thread.newest.end())
    same("a thread with the number of a process", (numbers("/a"), count("/a")), ([me], 2))
    same("is listed as one", numbers("/a", "cgroup.threads"), sorted((me, number)))
    same("and is nowhere else", (numbers("/b"), numbers("/b", "cgroup.threads"), count("/b")), ([], [], 0))
    write(AT + "/b/cgroup.procs", b"%d" % number)
    same("its number moves its process", (numbers("/b"), numbers("/b", "cgroup.threads")), ([me], sorted((me, number))))
    Thread.newest.end()
    step("it ends", until(lambda: count("/b") == 1))
    number = reused("another", lambda: Thread().end(), lambda: Thread().number, lambda _: Thread.newest.end())
    same("a thread with the number of another", numbers("/b", "cgroup.threads"), sorted((me, number)))
    Thread.newest.end()
    pid = reused("a last", lambda: Thread().end(), lambda: born(lambda: os._exit(5)), end)
    same("a process with its number ends", os.waitpid(pid, 0)[1], 5 << 8)
    step("and nobody is left", until(lambda: (numbers("/b"), count("/b")) == ([me], 1)))


def again():
    """Numbers that are used again many times."""
    os.mkdir(AT + "/a")
    into("/a")
    for _ in range(40):
        reused("a thread", lambda: Thread().end(), lambda: Thread().number, lambda _: Thread.newest.end())
        Thread.newest.end()
        end(reused("a process", lambda: end(born()), born, end))
    step("nobody is left", until(lambda: (numbers("/a"), count("/a")) == ([os.getpid()], 1)))


def allowed():
    """What a process was allowed in advance ends with it: the next one of its number makes no thread and no child in a group that is
    full. Between the two no call reaches the hierarchy, which would withdraw it."""
    for g in ("/a", "/b"):
        os.mkdir(AT + g)
    into("/b")
    write(AT + "/b/pids.max", b"2")
    events, poller = os.open(AT + "/b/pids.events", os.O_RDONLY), select.poll()
    poller.register(events, select.POLLPRI)

    def makes():
        os.waitpid(os.fork() or os._exit(0), 0)
        Thread()
        os._exit(0)

    def ended():
        os.pread(events, 99, 0)
        pid = child("/a", makes)
        os.waitpid(pid, 0)
        return pid

    r, w = os.pipe()

    def tries():
        try:
            make()
            os.write(w, b"made")
        except (OSError, RuntimeError):
            os.write(w, b"refused")
        signal.pause()

    for name, make in (("a thread", Thread), ("a child", os.fork)):
        got = []
        pid = reused(name, ended, lambda: (born(tries), got.append(os.read(r, 9)))[0], end)
        same("%s of the next one" % name, got[-1], b"refused")
        same("%s: who polls is told" % name, len(poller.poll(0)), 1)
        end(pid)
    os.close(events)


def unseen():
    """A zombie for which the server has no descriptor is waited for, and the next child has its number, without a question before."""
    os.mkdir(AT + "/a")
    into("/a")

    def ended():
        made = [born(lambda: os._exit(0)) for _ in range(FEW)]
        for pid in made:
            os.waitid(os.P_PID, pid, os.WEXITED | os.WNOWAIT)
        return made

    zombies = ended()
    same("all are zombies", (numbers("/a"), count("/a")), ([os.getpid()], FEW + 1))
    for each in zombies:
        os.waitpid(each, 0)
    same("then none", count("/a"), 1)
    zombies = ended()

    def waited():
        pid = born(lambda: os._exit(0))
        os.waitpid(pid, 0)
        return pid

    pid = reused("a zombie", waited, born, end)
    same("it is there", (numbers("/a"), count("/a")), (sorted((os.getpid(), pid)), FEW + 2))
    for each in zombies:
        os.waitpid(each, 0)
    end(pid)
    same("all are waited for", (numbers("/a"), count("/a")), ([os.getpid()], 1))


def killing():
    """A process that a kill is about to reach ends meanwhile. Whoever has its number next is not reached. The server that kills is stopped."""
    held, server = os.environ["HELD_KILL"], server_and_helper(tracer())[0]
    os.mkdir(AT + "/a")
    r, w = os.pipe()
    first, second = child("/a"), child("/a", lambda: os.read(r, 1))  # a kill reaches the lower number first
    step("the second has the greater number", first < second, (first, second))

    def follows():
        """A process that is none of the run: for one of its own the supervisor would ask the server first."""
        os.waitpid(second, 0)
        asks.send(b"stranger %d" % second)
        return int(asks.recv(16))

    follower = Beside(follows)
    open(held + ".hold", "w").close()
    kill = Beside(lambda: write(AT + "/a/cgroup.kill", b"1") or "done")
    step("the kill has come to the first", until(lambda: os.path.exists(held + ".began")))
    waits_of = lambda: next(int(x.split()[1]) for x in open("/proc/%d/status" % tracer()) if x.startswith("voluntary"))
    before = waits_of()
    os.write(w, b"x")
    # As long as the server kills, the supervisor waits for it, and asks again and again whether it runs. If it didn't, the follower
    # would come soon. Until the file is gone this process makes no thread and no child: they would wait for the supervisor.
    soon = time.monotonic() + 1
    step("the second ends", until(lambda: follower.got or (time.monotonic() > soon and waits_of() > before + 20)))
    os.kill(tracer(), signal.SIGSTOP)  # it ends the wait of the supervisor, which begins again
    step("the supervisor is stopped", until(lambda: b"T" in read("/proc/%d/stat" % tracer()).split()[:3]))
    os.kill(tracer(), signal.SIGCONT)
    os.kill(server, signal.SIGSTOP)  # the supervisor that waits for it has to continue it
    os.unlink(held + ".hold")
    same("the kill ends", kill.result(), "done")
    os.kill(server, signal.SIGCONT)  # else nothing else ends
    same("and the first by it", os.waitpid(first, 0)[1], signal.SIGKILL)
    same("another has the number of the second", follower.result(), second)
    same("and lives", (spared(second), numbers(""), count("/a")), ([True], sorted((1, os.getpid())), 0))
    os.kill(second, signal.SIGKILL)


def unheard():
    """While the server kills, more threads end than it can be told of. Their numbers are free after it."""
    held, many, room = os.environ["HELD_KILL"], 400, 256
    for g in ("/a", "/b"):
        os.mkdir(AT + g)
    killed = child("/a")
    into("/b")
    all_threads = [Thread() for _ in range(many)]
    same("all count", count("/b"), many + 1)
    open(held + ".hold", "w").close()
    kill = Beside(lambda: write(AT + "/a/cgroup.kill", b"1") or "done")
    step("the server kills", until(lambda: os.path.exists(held + ".began")))
    for t in all_threads:
        t.ends.set()
    # the others wait for the supervisor, which waits for the server
    until(lambda: len(os.listdir("/proc/self/task")) <= many + 2 - room, PATIENCE / 4)
    os.unlink(held + ".hold")
    same("the kill ends", kill.result(), "done")
    for t in all_threads:
        t.thread.join()
    os.waitpid(killed, 0)
    step("no thread counts any more", until(lambda: count("/b") == 1, PATIENCE / 4), count("/b"))


def companion():
    """A process of makhloeum is killed, and one that is none of the run gets its number: the end of the run does not reach that."""
    found = [pid for pid in own_of(tracer()) if len(os.listdir("/proc/%d/task" % pid)) == 1]
    same("the companion", len(found), 1)
    os.kill(found[0], signal.SIGKILL)
    step("it is gone", until(lambda: not os.path.exists("/proc/%d" % found[0])))
    asks.send(b"stranger %d" % found[0])
    same("another has its number", int(asks.recv(16)), found[0])


def taken():
    """A process ends, and one that is none of the run has its number before the server hears of the end: then nobody counts."""
    server = server_and_helper(tracer())[0]
    os.mkdir(AT + "/a")
    before, wrong = descriptor_places(server), []
    for _ in range(before + 10):
        pid = child("/a")
        os.kill(server, signal.SIGSTOP)
        end(pid)
        asks.send(b"stranger %d" % pid)
        other = int(asks.recv(16))
        os.kill(server, signal.SIGCONT)
        if (other, count("/a")) != (pid, 0):
            wrong.append((other, pid, count("/a")))
    same("another has the number of each, and nobody counts", wrong, [])
    same("the server keeps no descriptor of the others", descriptor_places(server), before)


INSIDE = (processes, threads, again, allowed, unseen, killing, unheard, taken, companion)
WITH_HELD_KILL = (killing, unheard)
inside(*INSIDE)


# ---------------------------------------------------------------- outside, in the namespace


def stranger(number):
    """A process with this number that waits until it is killed."""
    for _ in range(TRIES):
        pid = os.fork()
        if pid == 0:
            signal.pause()
            os._exit(0)
        if pid == number:
            break
        end(pid)
        next_is(number)
    return pid


def run(test):
    own, theirs = socket.socketpair(socket.AF_UNIX, socket.SOCK_SEQPACKET)
    words = [PROGRAM, "run", sys.executable, ME, "inside", test.__name__]
    env = dict(os.environ, ASKS=str(theirs.fileno()))
    if test in WITH_HELD_KILL:
        env.update(LD_PRELOAD=HELD_KILL, HELD_KILL=os.path.join(tempfile.mkdtemp(), "kill"))
    few = (lambda: resource.setrlimit(resource.RLIMIT_NOFILE, (FEW, FEW))) if test is unseen else None
    p = subprocess.Popen(words, pass_fds=(theirs.fileno(),), env=env, preexec_fn=few)
    theirs.close()
    strangers = []
    while word := own.recv(32):
        number = int(word.split()[-1])
        next_is(number)
        if b"stranger" in word:
            strangers.append(stranger(number))
        own.send(b"%d" % strangers[-1] if b"stranger" in word else b"x")
    same("%s: its status" % test.__name__, status_within(p, 6 * PATIENCE), 0)
    if test is companion:
        same("who had a number of makhloeum lives", spared(*strangers), [True])
    for pid in strangers:
        end(pid)


def adopted():
    """With --adopt a number that another process has by now is nobody of the hierarchy."""
    m = Mount("--adopt")
    os.mkdir(m.path("a"))

    def sleeper():
        return subprocess.Popen(["sleep", "600"]).pid

    def adopt_and_end():
        pid = sleeper()
        write(m.path("a", "cgroup.procs"), b"%d" % pid)
        return end(pid)

    def other():
        pid = os.fork()
        if pid == 0:
            signal.pause()
        return pid

    pid = reused("a stranger", adopt_and_end, other, end)
    write(m.path("a", "cgroup.kill"), b"1")
    same("a kill does not reach the stranger", (spared(pid), read(m.path("a", "pids.current"))), ([True], b"0\n"))
    write(m.path("a", "cgroup.procs"), b"%d" % pid)
    same("until it is adopted", read(m.path("a", "cgroup.procs")), b"%d\n" % pid)
    write(m.path("a", "cgroup.kill"), b"1")
    same("then it does", os.waitpid(pid, 0)[1], signal.SIGKILL)
    m.end()


if sys.argv[1:] == ["outside"]:
    for test in INSIDE:
        if test not in WITH_HELD_KILL or os.path.exists(HELD_KILL):
            run(test)
    adopted()
    finish()
space = ["unshare", "--user", "--map-root-user", "--mount", "--pid", "--fork", "--mount-proc", "--kill-child"]
asked = subprocess.run([*space, "sh", "-c", "echo 100 >/proc/sys/kernel/ns_last_pid"], stderr=subprocess.PIPE)
if asked.returncode:
    step("this kernel does not let a namespace say which number is next: left out", True)
    finish()
ran = subprocess.run([*space, sys.executable, ME, "outside"], timeout=12 * PATIENCE)
same("in a namespace of numbers: its status", ran.returncode, 0)
finish()
