"""How makhloeum begins: options and their order, the folders of its commands, and the files of --trace and --answers, which are as they
were if it does not begin."""
import ctypes
import glob
import os
import re
import resource
import select
import shutil
import signal
import stat
import subprocess
import sys
import tempfile

sys.path.insert(0, os.path.dirname(os.path.dirname(os.path.realpath(__file__))))
from support import AT, CGREPLAY, CGSHELL, PATIENCE, PROGRAM, Beside, Mount, error_of, finish, libc, parent_of, read
from support import same, status_within, step, until

HOME = tempfile.mkdtemp()
UNPROVED = " without proofs"  # what a program adds to its version if ./try made it


def ran(*words, program=PROGRAM, **how):
    """The status, and what is said."""
    got = subprocess.run(
        [program, *words],
        stdin=subprocess.DEVNULL,
        stdout=subprocess.PIPE,
        stderr=subprocess.PIPE,
        timeout=PATIENCE,
        **how,
    )
    return got.returncode, got.stdout.decode(), got.stderr.decode()


def unmounted(at):
    return until(lambda: subprocess.run(["fusermount3", "-u", at], stderr=-3).returncode == 0)


def folder(name):
    at = os.path.join(HOME, name)
    os.mkdir(at)
    return at


# ---------------------------------------------------------------- options


def unread(is_ignored, *words):
    """The status and the message of makhloeum if nobody reads its standard output. SIGPIPE ends it, unless it is ignored."""
    ours, theirs = os.pipe()
    os.close(ours)
    p = subprocess.run([PROGRAM, *words], stdout=theirs, stderr=subprocess.PIPE, restore_signals=not is_ignored)
    os.close(theirs)
    return p.returncode, p.stderr


BAD = "makhloeum: bad command line; see makhloeum --help\n"
OF_BOTH = ["--trace FILE", "--answers FILE", "--keep LIST", "--control"]
OPTIONS = {
    "mount": sorted([*OF_BOTH, "--extra", "--adopt", "--foreground"]),
    "run": sorted([*OF_BOTH, "--root", "--users", "--threads=no", "--"]),
}


def helped(text):
    """The help names the options of each command, and says once what each does."""
    lines = text.splitlines()
    usages = {line.split()[1]: line for line in lines[: lines.index("")]}
    same("the commands", list(usages), ["mount", "run", "view", "tree", "check", "--version"])
    for command, options in OPTIONS.items():
        same("the options of %s" % command, sorted(re.findall(r"\[(--[^\]]*)\]", usages[command])), options)
    about = {}
    for line in lines[lines.index("") :]:
        if named := re.match(r"  (--\S+(?: [A-Z]+)?)(  +|$)", line):
            about[named[1]] = ""
        if about and line.startswith("  "):
            about[list(about)[-1]] += line[len(named[0]) if named else 0 :] + " "
    same("what is said of each", sorted(about), sorted({*OPTIONS["mount"], *OPTIONS["run"]} - {"--"}))
    for option, words in (
        ("--trace FILE", "line time cgreplay same answers"),
        ("--answers FILE", "write answers"),
        ("--extra", "cgroup.freeze cgroup.threads cgroup.controllers cgroup.subtree_control cgroup.type cpu.stat"),
        ("--extra", "pids domain +pids EOPNOTSUPP"),
        ("--keep LIST", "memory, cpu, io, cpuset cgroup.subtree_control store pids"),
        ("--adopt", "cgroup.procs children exit cgroup.kill"),
        ("--control", ".makhloeum: undo forget depth newest trace fork (PARENT CHILD) exit (PID) N"),
        ("--foreground", "mount foreground"),
        ("--root", "PROGRAM root namespace"),
        ("--users", "users groups caller root machine namespace"),
        ("--threads=no", "counted 1 pids.current"),
    ):
        lacks = [word for word in words.split() if word not in about.get(option, "")]
        same("%s says what it is about" % option, lacks, [])
    end = " ".join(lines[max(i for i, line in enumerate(lines) if line.startswith("The status")) :])
    same("the status of run", re.findall(r"\d+", end), ["128", "127", "126", "2"])
    whole = " ".join(text.split())
    for phrase in (
        "makhloeum mount DIR [",
        "[--] PROGRAM ARGS.. makhloeum view TRACE [-o PAGE.html] makhloeum tree DIR [--watch] makhloeum check DIR makhloeum --version",
        "on the directory DIR, as a cgroup2 file system. A process is only a number",
        "returns once the mount is in place. fusermount3 -u DIR unmounts it; so does killing the server.",
        "run mounts a hierarchy on /sys/fs/cgroup in its own namespaces",
        "When it ends, the processes that it left behind are killed. No privileges are needed.",
        "view makes a page of a run from its trace. tree shows the groups of a directory. check compares a directory with the engine.",
        "These three are separate programs: makhloeum NAME starts makhloeum-NAME.",
        "write each line that the engine gets to FILE, with its time: `cgreplay < FILE` gives the same answers",
        "write these answers to FILE",
        "files that clients look for and the engine does not have (run always has them). cgroup.freeze freezes, cgroup.threads lists;",
        "the others are constant: cgroup.controllers and cgroup.subtree_control `pids`, cgroup.type `domain`, cpu.stat all 0.",
        "cgroup.subtree_control accepts +pids, and cgroup.type domain; any other value is EOPNOTSUPP",
        "the files of these controllers (memory, cpu, io, cpuset, with commas between), and of --extra.",
        "check a value as the kernel does, store it and return it, but limit nothing; their counters are 0.",
        "cgroup.subtree_control then turns controllers on and off, pids too",
        "written to cgroup.procs is a real one: the hierarchy follows its exit and its children, and cgroup.kill kills it",
        "undo (an empty line undoes the newest command, N the newest N), forget, depth, newest, trace, fork (PARENT CHILD), exit (PID).",
        "Without this option a mount has only fork and exit, a run has no such directory, and neither keeps a history",
        "mount stays in the foreground",
        "PROGRAM is root in its user namespace",
        "all users and groups of the caller, who must be root on the machine or in a user namespace",
        "threads are not counted: a process is 1 in pids.current, whatever threads it has",
        "that of PROGRAM, or 128 plus the signal that ended it. It is 127 if PROGRAM is not found, 126 if it cannot be executed,",
        "and 2 for a bad command line, or if the machine does not allow what is needed; one sentence then names it.",
    ):
        step("the help says: %.40s.." % phrase, phrase in whole, whole)


def options():
    at = folder("options")
    for words in (
        (),
        ("-x",),
        ("-",),
        ("--",),
        ("--helpx",),
        ("--help", "x"),
        ("run",),
        ("run", "--"),
        ("run", "--root"),
        ("run", "--rootx", "true"),
        ("run", "-x", "true"),
        ("run", "--threads", "true"),
        ("run", "--threads=yes", "true"),
        ("run", "--adopt", "true"),
        ("run", "--foreground", "true"),
        ("run", "--trace"),
        ("run", "--answers"),
        ("run", "--keep"),
        ("mount",),
        ("mount", "--extra"),
        ("mount", "--"),
        ("mount", at, "x"),
        ("mount", at, "--extra", "x"),
        ("mount", at, "-x"),
        ("mount", at, "--trace"),
        ("mount", at, "--root"),
        ("mount", "--root", at),
        ("mount", at, "--users"),
        ("mount", "--users", at),
        ("mount", at, "--threads=no"),
        ("mount", "--threads=no", at),
    ):
        same("makhloeum %s" % " ".join(words), ran(*words), (2, "", BAD))
    for words in (("--version",), ("-V",), ("--version", "x"), ("-V", "run")):
        status, text, said = ran(*words)
        step(
            "makhloeum %s" % " ".join(words),
            re.fullmatch(r"makhloeum \d+\.\d+\.\d+(%s)?\n" % UNPROVED, text) and (status, said) == (0, ""),
        )
        if os.path.exists(CGSHELL):
            other = ran(*words, program=CGSHELL)
            wanted = (status, text.replace("makhloeum", "cgshell").replace(UNPROVED, ""), said)
            same("as cgshell", (other[0], other[1].replace(UNPROVED, ""), other[2]), wanted)
    for words in (("--versio",), ("--version=1",), ("-V1",), ("-v",), ("-hV",)):
        same("makhloeum %s" % " ".join(words), ran(*words), (2, "", BAD))
    status, text, said = ran("--help")
    same("--help", (status, said, ran("-h")), (0, "", (0, text, "")))
    of_options = [line for line in text.split("\n") if line.startswith("  ")]
    same("lines that leave their columns", [it for it in of_options if it[17] != " " or "  " in it[18:] + it[18]], [])
    same("lines that are too long", [line for line in text.split("\n") if len(line) > 140], [])
    helped(text)
    for (
        option
    ) in "--trace --answers --extra --keep --adopt --control --foreground --root --users --threads=no --version view tree check".split():
        step("it has %s" % option, option in text)
    with open("/dev/full", "w") as full:
        got = subprocess.run([PROGRAM, "--version"], stdout=full, stderr=subprocess.PIPE, timeout=PATIENCE)
    same(
        "--version that cannot be written",
        (got.returncode, got.stderr),
        (1, b"makhloeum: write failed: No space left on device\n"),
    )
    for words in ("--help", "-h", "mount --help", "mount -h", "run --help", "run -h"):
        same("makhloeum %s" % words, ran(*words.split()), (0, text, ""))
        for to, wanted in (
            (">/dev/full", (1, "makhloeum: write failed: No space left on device\n")),
            (">&-", (1, "makhloeum: write failed: Bad file descriptor\n")),
            ("<&- >&-", (1, "makhloeum: write failed: Bad file descriptor\n")),
            (">&- 2>&-", (1, "")),
            (">/dev/full 2>/dev/full", (1, "")),
        ):
            status, _, said = ran("-c", '"$0" %s %s' % (words, to), PROGRAM, program="sh")
            same("makhloeum %s %s" % (words, to), (status, said), wanted)
        for is_ignored, wanted in ((True, (141, b"")), (False, (-signal.SIGPIPE, b""))):
            same("makhloeum %s that nobody reads" % words, unread(is_ignored, *words.split()), wanted)
    for words, has in (
        (("--extra", at), {"extra"}),
        ((at, "--extra"), {"extra"}),
        (("--extra", at, "--control"), {"extra", "control"}),
        (("--control", "--", at, "--extra"), {"extra", "control"}),
        ((at, "--keep", "io,cpu"), {"extra", "io", "cpu"}),
        ((at, "--keep", "memory", "--keep", "cpuset"), {"extra", "cpuset"}),
        ((at,), set()),
        ((at, "--"), set()),
        (("--", at), set()),
    ):
        same("mount %s" % " ".join(words), ran("mount", *words)[0], 0)
        names = os.listdir(at)
        found = {
            n
            for n in ("io", "cpu", "cpuset", "memory")
            if "cgroup.controllers" in names and n in read(at + "/cgroup.controllers").decode().split()
        }
        found |= {"extra"} & ({"extra"} if "cgroup.controllers" in names else set()) | (
            {"control"} if ".makhloeum" in names else set()
        )
        same("what it has", found, has)
        step("it can be unmounted", unmounted(at))
    script = "cat %s/cgroup.controllers; ls -d %s/.makhloeum; id -u" % (AT, AT)
    for words, lines in (
        (("--", "sh"), ["pids", str(os.getuid())]),
        (("--control", "sh"), ["pids", AT + "/.makhloeum", str(os.getuid())]),
        (("--keep", "cpuset,cpu,io,memory", "--root", "--", "sh"), ["cpuset cpu io memory pids", "0"]),
        (("--keep=x", "sh"), None),
    ):
        status, text, _ = ran("run", *words, "-c", script)
        same(
            "run %s" % " ".join(words), (status, text.split("\n")[:-1]) if lines else status, (0, lines) if lines else 2
        )
    same("what follows a program is its own", ran("run", "echo", "--root", "--", "-x")[:2], (0, "--root -- -x\n"))
    same("a program whose name begins with a dash", ran("run", "--", "-x")[0], 127)
    same("a word for --keep", ran("run", "--keep", "memory,", "true")[0], 2)


def statuses():
    """The status of a run is that of the program, as a shell would give it."""
    for number in (0, 1, 2, 63, 125, 126, 127, 128, 200, 255):
        same("exit %d" % number, ran("run", "sh", "-c", "exit %d" % number)[0], number)
    for name, number in (
        ("HUP", 1),
        ("INT", 2),
        ("QUIT", 3),
        ("ABRT", 6),
        ("KILL", 9),
        ("USR1", 10),
        ("SEGV", 11),
        ("PIPE", 13),
        ("TERM", 15),
    ):
        same("ended by %s" % name, ran("run", "sh", "-c", "ulimit -c 0; kill -%s $$" % name)[0], 128 + number)
    script = os.path.join(HOME, "script")
    for text, mode, status in (
        ("#!/bin/sh\nexit 9\n", 0o755, 9),
        ("exit 8\n", 0o755, 8),
        ("#!/nowhere\n", 0o755, 127),
        ("#!/bin/sh\nexit 9\n", 0o644, 126),
    ):
        with open(script, "w") as f:
            f.write(text)
        os.chmod(script, mode)
        status_of, _, said = ran("run", script)
        same("a file of mode %o that begins with %r" % (mode, text[:4]), status_of, status)
        if status in (126, 127):
            step("it is named", said.startswith("makhloeum: %s: " % script) and said.count("\n") == 1, said)
    same("a folder", ran("run", HOME)[0], 126)
    same("an empty name", ran("run", "")[0], 127)
    same("a name on PATH", ran("run", "script", env={"PATH": HOME, "TMPDIR": HOME})[0], 126)
    said = (127, "", "makhloeum: nosuch: No such file or directory\n")
    same("a name that a PATH with a file lacks", ran("run", "nosuch", env={"PATH": HOME + ":" + script}), said)
    sizes = lambda: resource.setrlimit(resource.RLIMIT_FSIZE, (0, resource.getrlimit(resource.RLIMIT_FSIZE)[1]))
    table = ran("run", "cat", "/proc/cgroups")
    same("a text of /proc where files may have no bytes", ran("run", "cat", "/proc/cgroups", preexec_fn=sizes), table)
    script = "ulimit -f 1; mkdir %s/a && echo 5 >%s/a/pids.max && cat %s/a/pids.max" % (AT, AT, AT)
    same("a value where they may have a block", ran("run", "sh", "-c", script), (0, "5\n", ""))
    # the program with sanitizers is one that looks for leaks by ptrace
    leaks = dict(os.environ, ASAN_OPTIONS="detect_leaks=0")
    same("one that would trace itself", ran("run", PROGRAM, "--version", env=leaks), ran("--version"))
    space = ("--user", "--map-current-user", "--mount", "--pid", "--fork", "--kill-child", "--mount-proc", PROGRAM)
    got = ran(*space, "run", "sh", "-c", "echo $PPID; exit 3", program="unshare")
    same("of the first process of a namespace", got, (3, "1\n", ""))
    same("its words", ran("run", "sh", "-c", 'echo "$0|$@|$#"', "a", "b c", "", "*")[1], "a|b c  *|3\n")


def without_fuse():
    """What is said where there is no /dev/fuse, or none that may be used, and by mount of its directory."""
    at = folder("no-fuse")
    script = """mkdir "$1/dev" && touch "$1/dev/null" && mount --bind /dev/null "$1/dev/null" && %s && mount --rbind "$1/dev" /dev
shift; exec "$@" """
    closed = 'touch "$1/dev/fuse" && chmod %s "$1/dev/fuse"'
    without_rights = ("setpriv", "--bounding-set", "-all", "--inh-caps", "-all")
    for makes, before, start, why in (
        ("true", (), ("mount", at), "No such file or directory"),
        ("true", (), ("run", "true"), "No such file or directory"),
        (closed % "0444", without_rights, ("mount", at), "Permission denied"),
        (closed % "0222", without_rights, ("mount", at), "Permission denied"),
    ):
        words = ["unshare", "-Urm", "sh", "-c", script % makes, "sh", HOME]
        got = ran(*words[1:], *before, PROGRAM, *start, program=words[0])
        said = "makhloeum: this machine does not allow FUSE: /dev/fuse: %s\n" % why
        same("%s, /dev/fuse made by %s" % (start[0], makes), got, (2, "", said))
        shutil.rmtree(os.path.join(HOME, "dev"))
    for start in (("mount", at), ("run", "true")):
        script = 'mount -t tmpfs none /dev && exec "$@"'
        got = ran("-Urm", "sh", "-c", script, "sh", PROGRAM, *start, program="unshare")
        same(
            "%s without /dev/null" % start[0],
            got,
            (2, "", "makhloeum: /dev/null cannot be opened: No such file or directory\n"),
        )
    file = os.path.join(HOME, "file")
    open(file, "w").close()
    missing = "%s: No such file or directory"
    for where, why in ((file, "%s is not a directory"), (at + "/none", missing), ("nosuch/below", missing)):
        same("mount on %s" % os.path.basename(where), ran("mount", where), (2, "", "makhloeum: " + why % where + "\n"))
    same("nothing is mounted", (os.path.ismount(at), os.listdir(at)), (False, []))
    if os.geteuid():  # fusermount3 says why before
        said = ran("mount", "/usr")
        why = "no file system can be mounted on /usr: /dev/fuse, fusermount3 or the directory does not allow it"
        same("mount on what is another user's", (said[0], said[2].splitlines()[-1]), (2, "makhloeum: " + why))


# A signal that comes just before signal.pause would wait for the next one: so each is read.
SAYS = """import os, signal
heard, told = os.pipe()
os.set_blocking(told, False)
signal.set_wakeup_fd(told)
for each in (signal.SIGHUP, signal.SIGINT, signal.SIGTERM, signal.SIGQUIT, signal.SIGUSR1):
    signal.signal(each, lambda *_: None)
os.write(1, b"ready\\n")
while True:
    for number in os.read(heard, 99):
        os.write(1, b"%d\\n" % number)
"""


def by_handle(pid, number):
    handle = os.pidfd_open(pid)
    signal.pidfd_send_signal(handle, number)
    os.close(handle)
    return 0


# The calls by which a process sends a signal to another. The receiver's si_code tells the first three apart.
SENDERS = (
    ("kill", libc.kill),
    ("sigqueue", lambda pid, number: libc.sigqueue(pid, number, ctypes.c_void_p(1))),
    ("tgkill", lambda pid, number: libc.tgkill(pid, pid, number)),
    ("pidfd_send_signal", by_handle),
)


def passed():
    """Which signals to makhloeum reach the program: each of these once, also if they come together."""
    p = subprocess.Popen([PROGRAM, "run", sys.executable, "-c", SAYS], stdout=subprocess.PIPE, text=True)
    same("it runs", p.stdout.readline(), "ready\n")
    ways = [(how, send, each) for how, send in SENDERS for each in (signal.SIGHUP, signal.SIGINT, signal.SIGTERM)]
    for how, send, each in ways:
        same("%s is sent by %s" % (each.name, how), send(p.pid, each), 0)
        heard = Beside(p.stdout.readline).result()
        same("and comes", heard, "%d\n" % each)
        if heard is None:
            p.kill()
            return
    together = (signal.SIGINT, signal.SIGHUP, signal.SIGQUIT, signal.SIGTERM, signal.SIGUSR1)
    for each in together:
        p.send_signal(each)
    got = {int(p.stdout.readline()) for _ in together}
    same("several that come together", got, set(together))
    p.send_signal(signal.SIGHUP)
    same("none twice, and no other", p.stdout.readline(), "%d\n" % signal.SIGHUP)
    p.kill()
    same("SIGKILL ends the run", status_within(p), -signal.SIGKILL)
    p.stdout.close()


def streams():
    """The program has the descriptors of the caller, and no other. A standard stream that is closed at the start: no other file of
    makhloeum gets what is written to it."""
    for before, wanted in (("", "0 1 2"), ("exec 5</dev/null;", "0 1 2 5")):
        script = before + """"$0" run sh -c 'ls /proc/$$/fd; :'"""
        status, text, said = ran("-c", script, PROGRAM, program="sh")
        same("the program's descriptors", (status, text.split(), said), (0, wanted.split(), ""))
    trace, answers = (os.path.join(HOME, "stream-" + n) for n in ("trace", "answers"))
    for closed in ("<&-", ">&-", "2>&-", "<&- >&-", "<&- 2>&-", ">&- 2>&-", "<&- >&- 2>&-"):
        script = '"$0" run --trace "$1" --answers "$2" nosuch ' + closed
        status, _, said = ran("-c", script, PROGRAM, trace, answers, program="sh")
        wanted = "" if "2>&-" in closed else "makhloeum: nosuch: No such file or directory\n"
        same("with %s: what is said of a program that is not there" % closed, (status, said), (127, wanted))
        texts = [open(name, errors="replace").read() for name in (trace, answers)]
        same("with %s: and in no file" % closed, [text for text in texts if "makhloeum" in text], [])
        step(
            "with %s: the trace has lines" % closed, texts[0].startswith("# at ") and "\nfork 1 " in texts[0], texts[0]
        )
        script = """"$0" run sh -c 'cd /proc/$$/fd; all=$(readlink 0 1 2); echo "$all" >&9' 9>"$1" """ + closed
        status, _, said = ran("-c", script, PROGRAM, answers, program="sh")
        found = open(answers).read().split()
        wanted = ["/dev/null" if word in closed.split() else at for word, at in zip(("<&-", ">&-", "2>&-"), found)]
        same("with %s: the program's streams" % closed, (status, said, found, len(found)), (0, "", wanted, 3))


def inherited():
    """A mount in the background has no descriptor of its caller: whoever waits for the end of one, or for a lock, goes on. A trace may
    be one of them."""
    at, trace = folder("inherited"), os.path.join(HOME, "inherited-trace")
    script = '"$0" mount "$1" --trace /dev/fd/7 7>>"$2" 8<"$1" 9>&1'
    p = subprocess.Popen(["sh", "-c", script, PROGRAM, at, trace], stdout=subprocess.PIPE)
    same("its status", status_within(p), 0)
    step("its caller's pipe has ended", select.select([p.stdout], [], [], PATIENCE)[0] and p.stdout.read() == b"")
    same("it works", (error_of(os.mkdir, at + "/a"), open(trace).read().splitlines()[1:]), ("ok", ["mkdir /a"]))
    step("it can be unmounted", unmounted(at))


def other_proc():
    """In a PID namespace whose /proc is not mounted, numbers there are those of other processes."""
    why = "makhloeum: /proc is that of another PID namespace\n"
    at = folder("other-proc")
    for words in (("run", "true"), ("mount", at, "--adopt")):
        same(words[0] + " with the /proc of others", ran("-Urpf", PROGRAM, *words, program="unshare"), (2, "", why))
    same("nothing is mounted", os.path.ismount(at), False)
    own = ("-Urpf", "--mount-proc", PROGRAM, "run", "cat", "/proc/self/cgroup")
    same("run with its own", ran(*own, program="unshare"), (0, "0::/\n", ""))


def waited_for():
    """No process of makhloeum is left to the machine's init, which in a container may wait for none. With leak checks, on a busy machine,
    9 of 318 runs left a killed process; without them, none of 1,864."""
    script = """import ctypes, os, subprocess, sys
ctypes.CDLL(None).prctl(36, 1, 0, 0, 0)  # PR_SET_CHILD_SUBREAPER
for i in range(5):
    subprocess.run(sys.argv[1:], env=dict(os.environ, ASAN_OPTIONS="detect_leaks=0"))
try:
    print(os.waitpid(-1, os.WNOHANG))
except ChildProcessError:
    print("none")
"""
    for words in (["true"], ["--root", "true"], [AT + "/nosuch"]):
        got = ran("-c", script, PROGRAM, "run", *words, program=sys.executable)
        same("run %s: whom it leaves" % " ".join(words), got[1], "none\n")


def states_of(pid):
    """The states of a process's threads; none if one of them is just ending."""
    try:
        return {open(name).read().rpartition(")")[2].split()[0] for name in glob.glob("/proc/%d/task/*/stat" % pid)}
    except OSError:
        return set()


def killed():
    """Who waits for the mount is told if its server was killed: it opens its trace in a mount that does not answer."""
    m, at = Mount(), folder("killed")
    m.process.send_signal(signal.SIGSTOP)
    # a thread that still ran could take the open and then stop: nothing would end that open, not even SIGKILL
    step("all threads of the other mount's server have stopped", until(lambda: states_of(m.process.pid) == {"T"}))
    p = subprocess.Popen([PROGRAM, "mount", at, "--trace", m.path("trace")], stderr=subprocess.PIPE, text=True)
    children = lambda: [int(n) for n in os.listdir("/proc") if n.isdigit() and parent_of(int(n)) == p.pid]
    step("there is a server", until(children))
    for pid in children():
        os.kill(pid, signal.SIGKILL)
    same("its status", status_within(p), 1)
    same(
        "what it says", p.stderr.read(), "makhloeum: the server of the mount has ended before the mount was in place\n"
    )
    p.stderr.close()
    m.process.send_signal(signal.SIGCONT)
    m.end()


# ---------------------------------------------------------------- commands


def commands():
    """A command is looked for beside the program, in libexec first, and then on PATH."""
    top = folder("installed")
    bin_of, libexec, path = (os.path.join(top, n) for n in ("bin", "libexec/makhloeum", "path"))
    for at in (bin_of, libexec, path):
        os.makedirs(at)
    program = os.path.join(bin_of, "makhloeum")
    shutil.copy(PROGRAM, program)
    environment = dict(os.environ, PATH="%s:%s" % (path, os.environ["PATH"]))

    def put(where, text, mode=0o755):
        file = os.path.join(where, "makhloeum-hello")
        with open(file, "w") as f:
            f.write(text)
        os.chmod(file, mode)

    def says(word, status):
        return '#!/bin/sh\necho "%s $@"\nexit %d\n' % (word, status)

    for where, status in ((path, 3), (bin_of, 4), (libexec, 5)):
        put(where, says(os.path.basename(where), status))
        got = ran("hello", "a b", "c", program=program, env=environment)
        same("the one in %s" % os.path.basename(where), got, (status, "%s a b c\n" % os.path.basename(where), ""))
    put(libexec, says("libexec", 5), 0o644)
    same("one that cannot be executed is left out", ran("hello", program=program, env=environment)[0], 4)
    link = os.path.join(top, "link")
    os.symlink(program, link)
    same("by a link", ran("hello", program=link, env=environment)[0], 4)
    prefix = os.path.join(top, "prefix")
    beside = os.path.join(prefix, "libexec", "makhloeum")
    os.makedirs(beside)
    put(beside, says("beside", 6))
    os.symlink(bin_of, os.path.join(prefix, "bin"))
    by_link = os.path.join(prefix, "bin", "makhloeum")
    same("its own folder comes before that of a linked bin", ran("hello", program=by_link, env=environment)[0], 4)
    os.unlink(os.path.join(bin_of, "makhloeum-hello"))
    for at, program_of in (
        (prefix, by_link),
        (prefix, "bin/makhloeum"),
        (prefix, "./bin/makhloeum"),
        (beside, "../../bin/makhloeum"),
    ):
        got = ran("hello", "a b", program=program_of, env=environment, cwd=at)
        same("bin is a link: %s" % program_of, got, (6, "beside a b\n", ""))
    for below in ("libexec/makhloeum", "x/libexec/makhloeum"):
        os.makedirs(os.path.join(bin_of, below))
        put(os.path.join(bin_of, below), says("below", 7))
    for at, program_of in (
        (bin_of, program),
        (bin_of, "./makhloeum"),
        (bin_of, "x/../makhloeum"),
        (prefix, "bin//makhloeum"),
    ):
        same("no name of bin: %s" % program_of, ran("hello", program=program_of, env=environment, cwd=at)[0], 3)
    put(path, says("path", 3), 0o644)
    status, _, said = ran("hello", program=program, env=environment)
    same(
        "only files that cannot be executed",
        (status, said),
        (2, "makhloeum: makhloeum-hello cannot be started: Permission denied\n"),
    )
    same("a name of 64 letters", ran("h" * 64)[2].count("there is no makhloeum-"), 1)
    for name in ("view", "tree", "check", "a-b2"):
        put(path, says("x", 0))
        os.rename(os.path.join(path, "makhloeum-hello"), os.path.join(path, "makhloeum-" + name))
        same("the command %s" % name, ran(name, program=program, env=environment)[:2], (0, "x \n"))


# ---------------------------------------------------------------- kept files


def kept():
    at, old = folder("at"), "old\n" * 5000
    trace, answers, hard = (os.path.join(HOME, n) for n in ("trace", "answers", "hard"))
    for name in (trace, answers):
        with open(name, "w") as f:
            f.write(old)
        os.chmod(name, 0o640)
    os.link(trace, hard)
    sealed = os.path.join(HOME, "sealed")
    with open(sealed, "w") as f:
        f.write(old)
    os.chmod(sealed, 0)
    new, fifo = os.path.join(HOME, "new"), os.path.join(HOME, "fifo")
    os.mkfifo(fifo)
    nowhere, twice = (
        "/nowhere/x cannot be written: No such file or directory",
        "--trace and --answers are the same file",
    )
    is_neither = " cannot keep lines: it is neither a regular file nor a character device"
    for what, words, why in (
        ("answers that cannot be made", ("--trace", new, "--answers", "/nowhere/x"), nowhere),
        ("a trace that cannot be made", ("--trace", "/nowhere/x", "--answers", new), nowhere),
        ("an empty name", ("--trace", "", "--answers", new), " cannot be written: No such file or directory"),
        ("a folder", ("--trace", new, "--answers", HOME), HOME + " cannot be written: Is a directory"),
        ("a FIFO without a reader", ("--trace", fifo), fifo + " cannot be written: No such device or address"),
        ("a hard link to the other", ("--trace", trace, "--answers", hard), twice),
        ("one new file twice", ("--trace", new, "--answers", new), twice),
        (
            "a file that may not be written",
            ("--trace", trace, "--answers", sealed),
            sealed + " cannot be written: Permission denied" if os.getuid() else None,
        ),
        (
            "a wrong controller",
            ("--trace", new, "--answers", answers, "--keep", "x"),
            "--keep takes memory, cpu, io and cpuset, with commas between",
        ),
    ):
        for start in (("mount", at), ("run", "true")) if why else ():
            words_of = (start[0], *words, start[1])
            got = ran(*words_of, preexec_fn=lambda: signal.signal(signal.SIGCHLD, signal.SIG_IGN))
            same("%s: %s" % (start[0], what), got, (2, "", "makhloeum: %s\n" % why))
            same(
                "files are as they were",
                ([open(n).read() == old for n in (trace, answers)], os.path.exists(new)),
                ([True] * 2, False),
            )
    same("nothing is mounted", os.path.ismount(at), False)
    reader = os.open(fifo, os.O_RDONLY | os.O_NONBLOCK)
    for start in (("mount", at), ("run", "true")):
        got = ran(start[0], "--trace", fifo, start[1])
        same("%s: a FIFO with a reader" % start[0], got, (2, "", "makhloeum: %s%s\n" % (fifo, is_neither)))
    os.close(reader)
    m = Mount(trace=trace, answers=answers)
    os.mkdir(m.path("a"))
    same("a file that was there has the new lines alone", open(trace).read().count("\n"), 2)
    same("and keeps its mode", [stat.S_IMODE(os.stat(n).st_mode) for n in (trace, answers)], [0o640] * 2)
    m.end()
    for start in (("mount", at), ("run", "--", "true")):
        words = ("--trace", "/dev/null", "--answers", "/dev/null")
        same("%s: both are /dev/null" % start[0], ran(start[0], *words, *start[1:])[0], 0)
        if start[0] == "mount":
            same("it works", (error_of(os.mkdir, at + "/a"), read(at + "/a/pids.max")), ("ok", b"max\n"))
            step("it can be unmounted", unmounted(at))
    for name in (trace, answers):
        with open(name, "w") as f:
            f.write(old)
    script = "mkdir %s/a && echo 5 >%s/a/pids.max && cat %s/a/pids.max" % (AT, AT, AT)
    same("run: what it says", ran("run", "--trace", trace, "--answers", answers, "sh", "-c", script), (0, "5\n", ""))
    with open(trace) as lines, open(answers, "rb") as wanted:
        same(
            "cgreplay gives the same answers",
            subprocess.run(CGREPLAY, stdin=lines, stdout=subprocess.PIPE).stdout,
            wanted.read(),
        )
    step("the lines are there", "mkdir /a\n" in open(trace).read() and "old" not in open(trace).read())


for test in (
    options,
    statuses,
    without_fuse,
    passed,
    streams,
    inherited,
    other_proc,
    waited_for,
    killed,
    commands,
    kept,
):
    test()
shutil.rmtree(HOME)
finish()
