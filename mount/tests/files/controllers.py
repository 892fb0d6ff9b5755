"""--keep: which controllers a group has, and that groups which enable them for their children have no processes."""
import itertools
import os
import select
import subprocess
import sys

sys.path.insert(0, os.path.dirname(os.path.dirname(os.path.realpath(__file__))))
from support import AT, PATIENCE, PROGRAM, Mount, clone_into, error_of, finish, into, read, same, write

ME = os.path.realpath(__file__)
KEPT = "memory,cpu,io,cpuset"


def text_of(m, *names):
    return read(m.path(*names)).decode().strip()


def change(m, group, words):
    return error_of(write, m.path(group, "cgroup.subtree_control"), words.encode() + b"\n")


def enabling():
    m = Mount("--keep", KEPT)
    same("the root has all", text_of(m, "cgroup.controllers"), "cpuset cpu io memory pids")
    same("its children none", text_of(m, "cgroup.subtree_control"), "")
    os.mkdir(m.path("a"))
    same("a child then", (text_of(m, "a", "cgroup.controllers"), text_of(m, "a", "cgroup.subtree_control")), ("", ""))
    for name in ("cgroup.controllers", "cgroup.subtree_control"):
        path = m.path("a", name)
        same("%s without one has no byte" % name, (read(path), os.stat(path).st_size), (b"", 0))
    same("no file of pids", error_of(read, m.path("a", "pids.max")), "ENOENT")
    same("nor is one listed", [n for n in os.listdir(m.path("a")) if not n.startswith("cgroup.")], ["cpu.stat"])
    same("cpu.stat without cpu", text_of(m, "a", "cpu.stat"), "usage_usec 0\nuser_usec 0\nsystem_usec 0")
    tries = [
        (".", "+pids -memory", "ok", "pids"),
        (".", "+memory", "ok", "memory pids"),
        (".", "", "ok", "memory pids"),
        (".", "+cpu -cpu", "ok", "memory pids"),
        (".", "-cpu +cpu", "ok", "cpu memory pids"),
        (".", "  +io   +cpuset ", "ok", "cpuset cpu io memory pids"),
        (".", "memory", "EINVAL", "cpuset cpu io memory pids"),
        (".", "+hugetlb", "EINVAL", "cpuset cpu io memory pids"),
        (".", "+", "EINVAL", "cpuset cpu io memory pids"),
        (".", "*memory", "EINVAL", "cpuset cpu io memory pids"),
        (".", "-memory\t-io", "EINVAL", "cpuset cpu io memory pids"),
        (".", "-memory\n-io", "EINVAL", "cpuset cpu io memory pids"),
        (".", "-memory x", "EINVAL", "cpuset cpu io memory pids"),
        (".", "-memory + io", "EINVAL", "cpuset cpu io memory pids"),
        (".", "-memoryx", "EINVAL", "cpuset cpu io memory pids"),
        (".", "-memor", "EINVAL", "cpuset cpu io memory pids"),
        (".", "-Memory", "EINVAL", "cpuset cpu io memory pids"),
        (".", "\t +memory\v", "ok", "cpuset cpu io memory pids"),
        (".", "-io +rdma", "EINVAL", "cpuset cpu io memory pids"),
        (".", "-io -cpuset", "ok", "cpu memory pids"),
        (".", "-cpu +cpu", "ok", "cpu memory pids"),
        (".", "+cpu -cpu", "ok", "memory pids"),
        (".", "+cpu", "ok", "cpu memory pids"),
        ("a", "+io", "ENOENT", ""),
        ("a", "+memory +io", "ENOENT", ""),
        ("a", "-io", "ok", ""),
        ("a", "+memory", "ok", "memory"),
        (".", "-memory", "EBUSY", "cpu memory pids"),
        (".", "-memory -pids", "EBUSY", "cpu memory pids"),
        (".", "-pids", "ok", "cpu memory"),
        ("a", "-memory", "ok", ""),
        (".", "-memory", "ok", "cpu"),
        (".", "-cpu", "ok", ""),
    ]
    for group, words, error, text in tries:
        same("%s: %r" % (group, words), change(m, group, words), error)
        same("%s then" % group, text_of(m, group, "cgroup.subtree_control"), text)
        if group == ".":
            same("the child's", text_of(m, "a", "cgroup.controllers"), text)
    same("more than a page", error_of(write, m.path("cgroup.subtree_control"), b" " * 5000), "E2BIG")
    m.end()


def order():
    """The first controller, in the kernel's order, that cannot be changed decides the errno, however they are written."""
    m = Mount("--keep", KEPT)
    change(m, ".", "+cpu +memory")
    os.makedirs(m.path("a", "b", "c"))
    for group in ("a", "a/b"):
        change(m, group, "+cpu +memory")
    for words, wanted in (
        ("+cpuset -cpu", "ENOENT"),
        ("+io -cpu", "EBUSY"),
        ("+io -memory", "ENOENT"),
        ("+pids -memory", "EBUSY"),
        ("+cpuset +pids -memory", "ENOENT"),
    ):
        for said in (words, " ".join(reversed(words.split()))):
            same("%r where neither may be" % said, change(m, "a", said), wanted)
    same("nothing has changed", text_of(m, "a", "cgroup.subtree_control"), "cpu memory")
    m.end()


def lost_pids():
    """If pids is disabled, its limit becomes `max`, and its open files fail."""
    m = Mount("--keep", "memory")
    change(m, ".", "+pids")
    os.mkdir(m.path("a"))
    write(m.path("a", "pids.max"), b"0\n")
    write(m.path("a", "cgroup.procs"), b"1\n")
    same("a limit", error_of(write, m.control("fork"), b"1 2\n"), "EAGAIN")
    fd = os.open(m.path("a", "pids.max"), os.O_RDONLY)
    change(m, ".", "-pids")
    same("its open file, and its size", (error_of(os.read, fd, 9), os.fstat(fd).st_size), ("ENODEV", 0))
    os.close(fd)
    same("no limit", error_of(write, m.control("fork"), b"1 2\n"), "ok")
    change(m, ".", "+pids")
    same("the new one", text_of(m, "a", "pids.max"), "max")
    os.mkdir(m.path("b"))
    write(m.path("a", "pids.max"), b"3\n")
    write(m.path("b", "pids.max"), b"4\n")
    depth = text_of(m, ".makhloeum", "depth")
    change(m, ".", "-pids")
    same("two limits are one operation", text_of(m, ".makhloeum", "depth"), str(int(depth) + 1))
    same("a line for each", read(m.control("newest")), b"write /a pids.max max\nwrite /b pids.max max\n")
    write(m.control("undo"), b"\n")
    depth = text_of(m, ".makhloeum", "depth")
    change(m, ".", "-pids")
    same("disabled once more, it is no operation", text_of(m, ".makhloeum", "depth"), depth)
    change(m, ".", "+pids")
    same("one undo sets both again", (text_of(m, "a", "pids.max"), text_of(m, "b", "pids.max")), ("3", "4"))
    write(m.path("b", "pids.max"), b"max\n")
    os.mkdir(m.path("a", "in"))
    change(m, ".", "-pids")
    same("a child without a limit has no line", read(m.control("newest")), b"write /a pids.max max\n")
    change(m, ".", "+pids")
    depth = text_of(m, ".makhloeum", "depth")
    change(m, ".", "-pids")
    same("without any limit there is no operation", text_of(m, ".makhloeum", "depth"), depth)
    same("a directory of a file's name", error_of(os.mkdir, m.path("a", "memory.max")), "EEXIST")
    m.end()


def with_a_process():
    """Groups a and a/b of a mount with all controllers, and process 2 in a."""
    m = Mount("--keep", KEPT)
    change(m, ".", "+memory +cpu +pids")
    os.makedirs(m.path("a", "b"))
    write(m.control("fork"), b"1 2\n")
    write(m.path("a", "cgroup.procs"), b"2\n")
    return m


def lost_between():
    """Of three open files of a group the one between loses its controller and is closed: the others still hear of changes."""
    m = Mount("--keep", "memory")
    write(m.path("cgroup.subtree_control"), b"+pids")
    os.mkdir(m.path("g"))
    write(m.control("fork"), b"1 2")
    first, lost, last = (os.open(m.path("g", f), os.O_RDONLY) for f in ("cgroup.events", "pids.current", "cgroup.stat"))
    write(m.path("cgroup.subtree_control"), b"-pids")
    same("it is lost", error_of(os.pread, lost, 100, 0), "ENODEV")
    os.close(lost)
    poller = select.poll()
    poller.register(first, select.POLLPRI)
    for where in ("g", "", "g", ""):  # the kernel may say a little later that a file is closed
        os.pread(first, 100, 0)
        write(m.path(where, "cgroup.procs"), b"2")
        same("a change is heard, to /%s" % where, [fd for fd, _ in poller.poll(1000 * PATIENCE)], [first])
    os.close(first)
    os.close(last)
    m.end()


def internal():
    m = with_a_process()
    same("memory in a group with a process", change(m, "a", "+memory"), "EBUSY")
    same("with others", change(m, "a", "+memory +cpu"), "EBUSY")
    same("nothing was enabled", text_of(m, "a", "cgroup.subtree_control"), "")
    same("the type", (text_of(m, "a", "cgroup.type"), text_of(m, "a", "b", "cgroup.type")), ("domain", "domain"))
    write(m.path("a", "b", "cgroup.procs"), b"2\n")
    same("once it has left", change(m, "a", "+memory"), "ok")
    same("a process comes back", error_of(write, m.path("a", "cgroup.procs"), b"2\n"), "EBUSY")
    same("it stays", text_of(m, "a", "b", "cgroup.procs"), "2")
    same("one that is not there", error_of(write, m.path("a", "cgroup.procs"), b"9\n"), "ESRCH")
    same("to the root, which may have both", error_of(write, m.path("cgroup.procs"), b"2\n"), "ok")
    same("into the group that shares", error_of(write, m.path("a", "cgroup.procs"), b"2\n"), "EBUSY")
    write(m.path("a", "b", "cgroup.procs"), b"2\n")
    same("memory below is disabled", change(m, "a", "-memory"), "ok")
    same("then it may be entered", error_of(write, m.path("a", "cgroup.procs"), b"2\n"), "ok")
    m.end()


def threaded():
    """Controllers of threads may be enabled in a group with processes; then groups below are not domains. There are no threaded
    groups."""
    m = with_a_process()
    same("pids in a group with a process", change(m, "a", "+pids"), "ok")
    same(
        "the type",
        (text_of(m, "a", "cgroup.type"), text_of(m, "a", "b", "cgroup.type")),
        ("domain threaded", "domain invalid"),
    )
    same("memory in the same group", change(m, "a", "+memory"), "ENOTSUP")
    same("a move below", error_of(write, m.path("a", "b", "cgroup.procs"), b"2\n"), "ENOTSUP")
    same("enabling below", change(m, "a/b", "+pids"), "ENOTSUP")
    write(m.path("cgroup.procs"), b"2\n")
    same(
        "without processes they are domains",
        (text_of(m, "a", "cgroup.type"), text_of(m, "a", "b", "cgroup.type")),
        ("domain", "domain"),
    )
    same("a move below", error_of(write, m.path("a", "b", "cgroup.procs"), b"2\n"), "ok")
    same("below a group with processes", error_of(write, m.path("a", "cgroup.procs"), b"2\n"), "EBUSY")
    same("to be threaded", error_of(write, m.path("a", "cgroup.type"), b"threaded\n"), "ENOTSUP")
    same("to be a domain", error_of(write, m.path("a", "cgroup.type"), b"domain\n"), "ok")
    m.end()


def again():
    """A group that is no domain may be told what is so already, and nothing else."""
    m = Mount("--keep", KEPT)
    change(m, ".", "+memory +cpu +pids")
    os.makedirs(m.path("a", "b", "c"))
    same(
        "two controllers, and one of them below",
        (change(m, "a", "+cpu +pids"), change(m, "a/b", "+pids")),
        ("ok", "ok"),
    )
    write(m.control("fork"), b"1 2\n")
    write(m.path("a", "cgroup.procs"), b"2\n")
    same("the type", text_of(m, "a/b", "cgroup.type"), "domain invalid")
    for words, wanted in (
        ("+pids", "ok"),
        ("-cpu", "ok"),
        ("+pids -cpu", "ok"),
        ("+cpu", "ENOTSUP"),
        ("+pids +cpu", "ENOTSUP"),
    ):
        same(
            "%s again" % words, (change(m, "a/b", words), text_of(m, "a/b", "cgroup.subtree_control")), (wanted, "pids")
        )
    same("what is enabled may be disabled", (change(m, "a/b", "-pids"), change(m, "a/b", "+pids")), ("ok", "ENOTSUP"))
    m.end()


def each_one():
    """By the kernel's rules for each controller: enabled in a group with a process, and entered by one where it is enabled. Those of
    threads may be shared out in a group with processes, as long as nobody is below."""
    of_threads = ("cpuset", "cpu", "pids")
    for name in ("cpuset", "cpu", "io", "memory", "pids"):
        m = Mount("--keep", KEPT)
        change(m, ".", "+cpuset +cpu +io +memory +pids")
        os.makedirs(m.path("a", "b", "c", "d"))
        for pid in (2, 3):
            write(m.control("fork"), b"1 %d\n" % pid)
        write(m.path("a", "cgroup.procs"), b"2\n")
        write(m.path("a", "b", "cgroup.procs"), b"3\n")
        same("%s beside a process, and somebody below" % name, change(m, "a", "+" + name), "EBUSY")
        write(m.path("cgroup.procs"), b"3\n")
        same("%s beside a process" % name, change(m, "a", "+" + name), "ok" if name in of_threads else "EBUSY")
        types = [text_of(m, at, "cgroup.type") for at in ("a", "a/b", "a/b/c", "a/b/c/d")]
        same(
            "%s: the types" % name,
            types,
            ["domain threaded", *["domain invalid"] * 3] if name in of_threads else ["domain"] * 4,
        )
        below = [error_of(write, m.path(at, "cgroup.procs"), b"3\n") for at in ("a/b", "a/b/c/d")]
        same("%s: moves below" % name, below, ["ENOTSUP" if name in of_threads else "ok"] * 2)
        same(
            "%s below what is no domain" % name,
            change(m, "a/b", "+" + name),
            "ENOTSUP" if name in of_threads else "ENOENT",
        )
        same("%s: another process comes" % name, error_of(write, m.path("a", "cgroup.procs"), b"3\n"), "ok")
        for pid in (2, 3):
            write(m.path("cgroup.procs"), b"%d\n" % pid)
        same("%s without processes" % name, change(m, "a", "+" + name), "ok")
        same("%s: the type" % name, text_of(m, "a/b", "cgroup.type"), "domain")
        entered = error_of(write, m.path("a", "cgroup.procs"), b"2\n")
        same("%s: a process comes, and nobody is below" % name, entered, "ok" if name in of_threads else "EBUSY")
        write(m.path("cgroup.procs"), b"2\n")
        same("%s: one below" % name, error_of(write, m.path("a", "b", "cgroup.procs"), b"3\n"), "ok")
        same("%s: then none comes" % name, error_of(write, m.path("a", "cgroup.procs"), b"2\n"), "EBUSY")
        write(m.path("a", "b", "c", "d", "cgroup.procs"), b"3\n")
        same("%s: nor if it is far below" % name, error_of(write, m.path("a", "cgroup.procs"), b"2\n"), "EBUSY")
        same("%s is shared out below" % name, change(m, "a/b", "+" + name), "ok")
        same("%s cannot be taken back" % name, change(m, "a", "-" + name), "EBUSY")
        same(
            "%s: it is as it was" % name,
            [text_of(m, at, "cgroup.subtree_control") for at in ("a", "a/b", "a/b/c")],
            [name, name, ""],
        )
        same("%s from the last" % name, (change(m, "a/b", "-" + name), change(m, "a", "-" + name)), ("ok", "ok"))
        m.end()
    m = Mount("--keep", KEPT)
    change(m, ".", "+cpuset +cpu +io +memory +pids")
    os.mkdir(m.path("a"))
    files = ("cpuset.cpus", "cpu.max", "io.weight", "memory.max", "pids.max")
    values = (b"0\n", b"5000 100000\n", b"default 7\n", b"1048576\n", b"9\n")
    fresh = [read(m.path("a", f)) for f in files]
    for lost, name in enumerate(("cpuset", "cpu", "io", "memory", "pids")):
        for f, value in zip(files, values):
            write(m.path("a", f), value)
        held = [os.open(m.path("a", f), os.O_RDWR) for f in files]
        events, poller = os.open(m.path("a", "pids.events"), os.O_RDONLY), select.poll()
        poller.register(events, select.POLLPRI)
        os.read(events, 99)
        change(m, ".", "-" + name)
        woken = bool(poller.poll(1000 * PATIENCE if name == "pids" else 0))
        same("%s is disabled: whether a poll of pids.events ends" % name, woken, name == "pids")
        os.close(events)
        there = [error_of(read, m.path("a", f)) for f in files]
        same("%s is disabled: which files are there" % name, there, ["ENOENT" if i == lost else "ok" for i in range(5)])
        for call in (lambda fd: os.pread(fd, 99, 0), lambda fd: os.write(fd, b"x")):
            got = [error_of(call, fd) == "ENODEV" for fd in held]
            same("%s: which open files are gone" % name, got, [i == lost for i in range(5)])
        again = [error_of(lambda: os.close(os.open("/proc/self/fd/%d" % fd, os.O_RDONLY))) for fd in held]
        same("%s: which can be opened again" % name, again, ["ENODEV" if i == lost else "ok" for i in range(5)])
        change(m, ".", "+" + name)
        got = [error_of(os.pread, fd, 99, 0) == "ENODEV" for fd in held]
        same("%s is enabled: which open files are gone" % name, got, [i == lost for i in range(5)])
        now = [read(m.path("a", f)) for f in files]
        same("%s is enabled: the values" % name, now, [fresh[i] if i == lost else values[i] for i in range(5)])
        for fd in held:
            os.close(fd)
    m.end()


def beside():
    """One of two children decides, whichever it is: one that is populated, and one that shares a controller out."""
    m = Mount("--keep", KEPT)
    change(m, ".", "+pids")
    os.makedirs(m.path("a", "x", "in"))
    os.makedirs(m.path("a", "y", "in"))
    change(m, "a", "+pids")
    write(m.control("fork"), b"1 2\n")
    enter = lambda: error_of(write, m.path("a", "cgroup.procs"), b"1\n")
    for name in ("x", "y"):
        write(m.path("a", name, "cgroup.procs"), b"2\n")
        same("%s is populated: a process comes above" % name, enter(), "EBUSY")
        write(m.path("cgroup.procs"), b"2\n")
        same("%s shares pids out" % name, change(m, "a/" + name, "+pids"), "ok")
        same("and so it cannot be taken back", change(m, "a", "-pids"), "EBUSY")
        same("until it does not", change(m, "a/" + name, "-pids"), "ok")
    same("neither is populated, and neither shares", (enter(), change(m, "a", "-pids")), ("ok", "ok"))
    m.end()


def several():
    """Two controllers that one write disables: both lose what they have and their open files, and the others nothing."""
    m = Mount("--keep", KEPT)
    every = "+cpuset +cpu +io +memory +pids"
    change(m, ".", every)
    os.mkdir(m.path("a"))
    files = {"cpuset": "cpuset.cpus", "cpu": "cpu.max", "io": "io.weight", "memory": "memory.max", "pids": "pids.max"}
    values = {"cpuset": "0", "cpu": "5000 100000", "io": "default 7", "memory": "1048576", "pids": "9"}
    fresh = {name: text_of(m, "a", file) for name, file in files.items()}
    for one, other in itertools.permutations(files, 2):
        for name, file in files.items():
            write(m.path("a", file), values[name].encode())
        held = {name: os.open(m.path("a", file), os.O_RDONLY) for name, file in files.items()}
        words = "-%s -%s" % (one, other)
        same(words, change(m, ".", words), "ok")
        there = {name for name, file in files.items() if os.path.exists(m.path("a", file))}
        same("%s: whose files are there" % words, there, files.keys() - {one, other})
        change(m, ".", every)
        now = {name: text_of(m, "a", file) for name, file in files.items()}
        same("%s: the values then" % words, now, {**values, one: fresh[one], other: fresh[other]})
        gone = {name for name, fd in held.items() if error_of(os.pread, fd, 99, 0) == "ENODEV"}
        same("%s: whose open files are gone for good" % words, gone, {one, other})
        for fd in held.values():
            os.close(fd)
    m.end()


def undone():
    """A group whose only process ends is a domain, and none once the exit is undone."""
    m = with_a_process()
    change(m, "a", "+pids")
    write(m.path("a", "cgroup.procs"), b"1\n")
    types = lambda: (text_of(m, "a", "cgroup.type"), text_of(m, "a", "b", "cgroup.type"))
    for what, call, wanted in (
        ("one of two moves", lambda: write(m.path("cgroup.procs"), b"1\n"), ("domain threaded", "domain invalid")),
        ("the other ends", lambda: write(m.control("exit"), b"2\n"), ("domain", "domain")),
        ("its end is undone", lambda: write(m.control("undo"), b"\n"), ("domain threaded", "domain invalid")),
        ("it ends again", lambda: write(m.control("exit"), b"2\n"), ("domain", "domain")),
    ):
        call()
        same("the type after %s" % what, types(), wanted)
    same("and then memory may be enabled", change(m, "a", "-pids +memory"), "ok")
    write(m.control("undo"), b"\n")
    same("beside a process that came back, no more are enabled", change(m, "a", "+cpu"), "EBUSY")
    m.end()


def without():
    """Without --keep none of this exists."""
    m = Mount("--extra")
    os.mkdir(m.path("a"))
    same(
        "controllers",
        (text_of(m, "a", "cgroup.controllers"), text_of(m, "a", "cgroup.subtree_control")),
        ("pids", "pids"),
    )
    write(m.path("a", "cgroup.procs"), b"1\n")
    os.mkdir(m.path("a", "b"))
    same("a group with a process has children with pids", text_of(m, "a", "b", "pids.max"), "max")
    same("no file of memory", error_of(read, m.path("a", "memory.max")), "ENOENT")
    m.end()


def refused():
    m = Mount("--keep", "cpu")
    same("a controller that is not kept", change(m, ".", "+memory"), "EINVAL")
    m.end()
    for words in ("", "pids", "memory,", "memory,hugetlb", "memory cpu"):
        ran = subprocess.run([PROGRAM, "mount", "/tmp", "--keep", words], stderr=subprocess.PIPE)
        same("--keep %r" % words, (ran.returncode, ran.stderr.count(b"\n")), (2, 1))


def under_run():
    """clone3 into a group that shares out its controllers; and the files of a run."""
    script = """
set -e
cd /sys/fs/cgroup
echo '+memory +pids' > cgroup.subtree_control
mkdir -p a/b
echo 1m > a/memory.max
cat a/memory.max a/cgroup.controllers
echo +memory > a/cgroup.subtree_control
if echo 0 > a/cgroup.procs; then echo in; else echo refused; fi
echo 0 > a/b/cgroup.procs
cat /proc/self/cgroup
"""
    ran = subprocess.run(
        [PROGRAM, "run", "--keep", "memory", "--", "sh", "-c", script],
        stdout=subprocess.PIPE,
        stderr=subprocess.PIPE,
        timeout=PATIENCE,
    )
    same("under run", ran.stdout, b"1048576\nmemory pids\nrefused\n0::/a/b\n")
    ran = subprocess.run([PROGRAM, "run", "--keep", KEPT, sys.executable, ME, "inside"], timeout=4 * PATIENCE)
    same("births under run", ran.returncode, 0)


def born():
    """Inside: a child is born only where a process may be."""
    write(AT + "/cgroup.subtree_control", b"+memory +pids")
    os.makedirs(AT + "/a/b")
    os.makedirs(AT + "/c/d")
    write(AT + "/a/cgroup.subtree_control", b"+memory")
    child = subprocess.Popen(["sleep", "600"], preexec_fn=lambda: into("/c"))
    write(AT + "/c/cgroup.subtree_control", b"+pids")
    for name, group, wanted in (
        ("a group that shares out memory", "/a", "EBUSY"),
        ("a group below it", "/a/b", 0),
        ("the root of a threaded subtree", "/c", 0),
        ("a group below it, which is no domain", "/c/d", "ENOTSUP"),
    ):
        same("a clone3 into " + name, clone_into(os.open(AT + group, os.O_RDONLY)), wanted)
    child.kill()
    child.wait()
    os.makedirs(AT + "/z/y")
    dead = []
    for group in ("/z", "/z/y"):
        dead.append(os.fork())
        if dead[-1] == 0:
            into(group)
            os._exit(0)
        os.waitid(os.P_PID, dead[-1], os.WEXITED | os.WNOWAIT)
    same("the dead are counted", read(AT + "/z/pids.current"), b"2\n")
    shares = [error_of(write, AT + "/z/cgroup.subtree_control", words) for words in (b"+memory", b"-memory", b"+pids")]
    same("but their group has no processes", shares, ["ok"] * 3)
    same(
        "nor has one below",
        (read(AT + "/z/y/cgroup.type"), clone_into(os.open(AT + "/z", os.O_RDONLY))),
        (b"domain\n", 0),
    )
    for pid in dead:
        os.waitpid(pid, 0)


if sys.argv[1:] == ["inside"]:
    born()
    finish()
for test in (
    enabling,
    order,
    lost_pids,
    lost_between,
    internal,
    threaded,
    again,
    each_one,
    beside,
    several,
    undone,
    without,
    refused,
    under_run,
):
    test()
finish()
