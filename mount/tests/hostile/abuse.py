"""Programs under `makhloeum run` that fork, become others, end, stop, freeze and kill each other as fast as they can (abuse.c,
meddle.c), or meddle with the processes of makhloeum itself. Meanwhile the others go on, and afterwards the counts are those of
the real processes; and no end of the run leaves a process behind."""
import os
import signal
import subprocess
import sys
import tempfile
import time
import uuid

sys.path.insert(0, os.path.dirname(os.path.dirname(os.path.realpath(__file__))))
from support import AT, BUILT, CGREPLAY, PATIENCE, PROGRAM, TRACE_MAX
from support import finish, in_parallel, into, line_of, read, same, status_within, step, until, write

ME = os.path.realpath(__file__)
ABUSE, MEDDLE = (
    [os.path.join(BUILT, "abuse"), n]
    for n in ("vforks", "flags", "daemons", "namespaces", "execs", "memories", "filters", "tracers", "limits")
), ([os.path.join(BUILT, "meddle"), n] for n in ("stops", "intos", "kills", "mixes", "toggles"))
WAYS = {words[1]: words for words in (*ABUSE, *MEDDLE)}
SECONDS = float(os.environ.get("ABUSE_SECONDS") or 0.5)


def status_of(pid):
    try:
        return dict(line.rstrip("\n").split(":\t", 1) for line in open("/proc/%s/status" % pid) if ":\t" in line)
    except (OSError, ValueError):
        return {}


def supervisor():
    return int(status_of("self")["TracerPid"])


def real():
    """The processes of this run that have not ended, by what the kernel has."""
    found, tracer = set(), str(supervisor())
    for name in os.listdir("/proc"):
        status = status_of(name) if name.isdigit() else {}
        # of a process whose first thread has ended, that thread is no longer traced
        if status.get("TracerPid") == tracer or any(
            status_of(name + "/task/" + t).get("TracerPid") == tracer for t in tasks(name)
        ):
            found.add(int(name))
    return found


def tasks(name):
    try:
        return os.listdir("/proc/%s/task" % name) if name.isdigit() else []
    except OSError:
        return []


def groups(at=AT):
    return [at] + [g for e in os.scandir(at) if e.is_dir() for g in groups(e.path)]


def told():
    """The processes of the run, by what the hierarchy has."""
    return {int(p) for g in groups() for p in read(g + "/cgroup.procs").split()} - {1}


def reap():
    try:
        while os.waitpid(-1, os.WNOHANG)[0]:
            pass
    except ChildProcessError:
        pass


# ---------------------------------------------------------------- inside


def others_go_on(name):
    """Another process forks and reads, forty times each, and each ends in time."""
    wrong, times, end = [], 0, time.monotonic() + PATIENCE
    while times < 40 and time.monotonic() < end:
        end = time.monotonic() + PATIENCE
        pid = os.fork()
        if pid == 0:
            os._exit(0)
        os.waitpid(pid, 0)
        text = read("/proc/self/cgroup")
        if text != b"0::/\n":
            wrong.append(text)
        times += 1
    same("%s: the others still run" % name, (times, wrong[:1]), (40, []))


def quiet(name):
    """All that it made is killed: nobody is left, and nothing is counted that is not there."""
    write(AT + "/abuse/cgroup.kill", b"1\n")

    def gone():
        reap()
        return read(AT + "/abuse/pids.current") == b"0\n" and real() == told()

    step(
        "%s: the counts are those of the real processes" % name,
        until(gone),
        (read(AT + "/abuse/pids.current"), real() ^ told()),
    )
    below = groups(AT + "/abuse")[1:]
    step("%s: its groups can be removed" % name, all(not os.rmdir(g) for g in reversed(below)))
    same("%s: nobody is below" % name, read(AT + "/abuse/cgroup.events").split()[1], b"0")


def way(name):
    os.mkdir(AT + "/abuse")
    write(AT + "/abuse/pids.max", b"400\n")
    attack = subprocess.Popen([*WAYS[name], "inside"], preexec_fn=lambda: into("/abuse"), stdout=subprocess.PIPE)
    time.sleep(SECONDS)
    others_go_on(name)
    same("%s: it went on" % name, attack.poll(), None)
    quiet(name)
    attack.wait()
    same("%s: it has found nothing" % name, attack.stdout.read(), b"")


# ---------------------------------------------------------------- outside


def left(mark):
    """The processes that have the mark in their arguments."""
    found = []
    for name in os.listdir("/proc"):
        try:
            if (
                name.isdigit()
                and mark in open("/proc/%s/cmdline" % name, "rb").read()
                and status_of(name).get("State", "Z")[0] not in "ZX"
            ):
                found.append(int(name))
        except OSError:
            pass
    return found


def ends(name, how):
    """The run gets a signal in the middle of it."""
    mark = uuid.uuid4().hex
    script = 'mkdir %s/abuse && echo 0 > %s/abuse/cgroup.procs && exec "$@"' % (AT, AT)
    p = subprocess.Popen(
        [PROGRAM, "run", "sh", "-c", script, "sh", *WAYS[name], mark], start_new_session=True, stdout=subprocess.DEVNULL
    )
    until(lambda: any(line.startswith(WAYS[name][0].encode() + b"\0") for line in map(line_of, left(mark.encode()))))
    time.sleep(0.1)
    p.send_signal(how)
    try:
        p.wait(PATIENCE)
    except subprocess.TimeoutExpired:
        pass
    same("%s: %s ends the run" % (name, how.name), p.poll(), 128 + how if how != signal.SIGKILL else -how)
    step("%s: and nothing is left behind" % name, until(lambda: not left(mark.encode())), left(mark.encode()))
    for pid in left(mark.encode()):
        os.kill(pid, signal.SIGKILL)


def run(name):
    home = tempfile.mkdtemp()
    trace, answers = os.path.join(home, "trace"), os.path.join(home, "answers")
    p = subprocess.Popen(
        [PROGRAM, "run", "--trace", trace, "--answers", answers, sys.executable, ME, "inside", name],
        start_new_session=True,
    )
    same("%s: its status" % name, status_within(p, 6 * PATIENCE), 0)
    with open(trace) as lines, open(answers, "rb") as wanted:
        if os.path.getsize(trace) <= TRACE_MAX:
            step(
                "%s: cgreplay gives the same answers" % name,
                subprocess.run(CGREPLAY, stdin=lines, stdout=subprocess.PIPE).stdout == wanted.read(),
            )
    for how in (signal.SIGTERM, signal.SIGKILL):
        ends(name, how)


if sys.argv[1:2] == ["inside"]:
    way(sys.argv[2])
    finish()
in_parallel(run, [n for n in WAYS if n in sys.argv[1:] or not sys.argv[1:]])
finish()
