"""A run that begins in the machine's own cgroups, wherever they are mounted, works in its hierarchy, and inherits no descriptor of them."""
import ctypes
import fcntl
import os
import subprocess
import sys
import tempfile

sys.path.insert(0, os.path.dirname(os.path.dirname(os.path.realpath(__file__))))
from support import AT, PATIENCE, PROGRAM, finish, libc, same, step

ME = os.path.realpath(__file__)
WORKS = """pwd -P; stat -f -c %T .; mkdir own; echo 0 > own/cgroup.procs; grep -cx $$ own/cgroup.procs; cat /proc/self/cgroup"""
HAS = """import os
for fd in sorted(int(name) for name in os.listdir("/proc/self/fd")):
    try:
        print(fd, os.readlink("/proc/self/fd/%d" % fd))
    except OSError:
        pass  # that of the listing
"""


def ran(*words, **how):
    got = subprocess.run(words, stdout=subprocess.PIPE, stderr=subprocess.PIPE, timeout=PATIENCE, **how)
    return got.returncode, got.stdout.decode(), got.stderr.decode()


def works(name, at, *options):
    """A run that is started in this folder works in its own hierarchy."""
    status, text, said = ran(PROGRAM, "run", *options, "--", "sh", "-c", WORKS, cwd=at)
    lines = text.split("\n")
    same("%s: its status" % name, (status, said), (0, ""))
    same("%s: the working folder" % name, lines[:2], [AT, "cgroup2fs"])
    same("%s: a group that it makes there" % name, lines[2:], ["1", "0::/own", ""])


def closes(name, at):
    """Descriptors of this folder and of a file there, by any number."""
    file = next(os.path.join(at, n) for n in sorted(os.listdir(at)) if os.path.isfile(os.path.join(at, n)))
    opened = {
        "a directory": os.open(at, os.O_RDONLY | os.O_DIRECTORY),
        "a path": os.open(at, os.O_PATH),
        "a path of a file": os.open(file, os.O_PATH),
        "a file": os.open(file, os.O_RDONLY),
    }
    other = os.open("/", os.O_RDONLY | os.O_DIRECTORY)
    high = 300
    os.dup2(opened["a file"], high)
    inherited = (*opened.values(), other, high)
    status, text, said = ran(PROGRAM, "run", sys.executable, "-c", HAS, pass_fds=inherited)
    found = {int(line.split()[0]) for line in text.splitlines()}
    same("%s: its status" % name, (status, said), (0, ""))
    left = [what for what, fd in (*opened.items(), ("a high number", high)) if fd in found]
    same("%s: descriptors of the machine's groups" % name, left, [])
    step("%s: another one stays" % name, other in found, text)
    for number, stream in enumerate(("input", "output", "error")):
        status, text, said = ran(
            "sh", "-c", 'exec 9>&1; { "$0" run true %d<"$1"; echo $? >&9; }' % number, PROGRAM, file
        )
        wanted = "makhloeum: standard %s is in the machine's own cgroups, which a run does not have\n" % stream
        same("%s: standard %s" % (name, stream), (text, said), ("2\n", wanted if number != 2 else ""))
    for fd in inherited:
        os.close(fd)


CLIMBS = """import fcntl, os, sys
own = os.stat("/sys/fs/cgroup").st_dev
for fd in map(int, sys.argv[1:]):
    try:
        st = os.fstat(fd)
    except OSError:
        print("closed")
        continue
    found = set()
    for path in ("sys/fs/cgroup", "fs/cgroup", *("../" * up + "sys/fs/cgroup" for up in range(1, 12))):
        try:
            found.add(os.stat(path, dir_fd=fd).st_dev == own)
        except OSError:
            pass  # nothing is there
    print(st.st_dev, st.st_ino, bool(fcntl.fcntl(fd, fcntl.F_GETFL) & os.O_PATH), found)
"""


# Whether the mounts of these directories are of the program's own namespace.
OF_NAMESPACE = """import sys
own = {line.split()[0] for line in open("/proc/self/mountinfo")}
lines = [line.split() for fd in sys.argv[1:] for line in open("/proc/self/fdinfo/" + fd)]
print([number in own for name, number in lines if name == "mnt_id:"])
"""


def climbs():
    """A directory that is inherited leads to the hierarchy, up and down, and to no other groups."""
    home, gone = tempfile.mkdtemp(), tempfile.mkdtemp()
    places = ("/", "/sys", "/sys/fs", "/proc", "/proc/self/fd", home, gone)
    opened = [os.open(at, flags | os.O_DIRECTORY) for at in places for flags in (os.O_RDONLY, os.O_PATH)]
    wanted = []
    for fd, at in zip(opened, sorted(places * 2, key=places.index)):
        st = os.fstat(fd)
        is_path = bool(fcntl.fcntl(fd, fcntl.F_GETFL) & os.O_PATH)
        wanted.append("%d %d %s {True}" % (st.st_dev, st.st_ino, is_path) if at != gone else "closed")
    os.rmdir(gone)
    status, text, said = ran(PROGRAM, "run", sys.executable, "-c", CLIMBS, *map(str, opened), pass_fds=opened)
    same("inherited directories", (status, text.splitlines(), said), (0, wanted, ""))
    for options in ((), ("--root",)):
        words = [PROGRAM, "run", *options, sys.executable, "-c", CLIMBS, str(opened[0])]
        status, text, said = ran(*words, pass_fds=opened[:1])
        same("run %s" % " ".join(options), (status, text.split()[-1:], said), (0, ["{True}"], ""))
        words = [PROGRAM, "run", *options, sys.executable, "-c", OF_NAMESPACE, *map(str, opened[:2])]
        same("whose mounts they are of", ran(*words, pass_fds=opened[:2]), (0, "[True, True]\n", ""))
    script = 'exec "$0" run sh -c \'exec 9<&0 </dev/null; exec "$0" -c "$1" 9\' "$1" "$2"'
    status, text, said = ran("sh", "-c", script, PROGRAM, sys.executable, CLIMBS, stdin=opened[0])
    same("as standard input", (status, text, said), (0, wanted[0] + "\n", ""))
    status, text, said = ran(PROGRAM, "run", "true", stdin=opened[-2])
    wanted = "makhloeum: standard input is a directory that is not found by its path\n"
    same("a removed one as standard input", (status, text, said), (2, "", wanted))
    many = [os.path.join(home, str(n)) for n in range(9)]
    for at in many:
        os.mkdir(at)
    fd = os.open(home, os.O_RDONLY)
    buffer = ctypes.create_string_buffer(100)
    before = libc.syscall(217, fd, buffer, 100)  # getdents64
    status, text, said = ran(
        PROGRAM, "run", sys.executable, "-c", "import os; print(os.lseek(%d, 0, 1))" % fd, pass_fds=[fd]
    )
    same("its place in a listing", (before > 0, status, text, said), (True, 0, "%d\n" % os.lseek(fd, 0, 1), ""))
    for each in (*opened, fd):
        os.close(each)
    for at in (*many, home):
        os.rmdir(at)


def below():
    """In a namespace of this test's own: a new mount of the machine's cgroup2, and a part of it that is mounted elsewhere."""
    home = tempfile.mkdtemp()
    covered = tempfile.mkdtemp()
    fd = os.open(covered, os.O_RDONLY | os.O_DIRECTORY)
    subprocess.run(["mount", "--bind", home, covered], check=True)
    got = ran(PROGRAM, "run", sys.executable, "-c", CLIMBS, str(fd), pass_fds=[fd])
    same("a directory that is covered by one of its own file system", got, (0, "closed\n", ""))
    subprocess.run(["umount", covered], check=True)
    subprocess.run(["mount", "-t", "tmpfs", "none", covered], check=True)
    got = ran(PROGRAM, "run", sys.executable, "-c", CLIMBS, str(fd), pass_fds=[fd])
    same("a directory that is covered by another", got, (0, "closed\n", ""))
    os.close(fd)
    # the roots of both have the same inode number
    fd = os.open(covered, os.O_RDONLY | os.O_DIRECTORY)
    subprocess.run(["mount", "-t", "tmpfs", "none", covered], check=True)
    same("two file systems, one number", os.stat(covered).st_ino, os.fstat(fd).st_ino)
    got = ran(PROGRAM, "run", sys.executable, "-c", CLIMBS, str(fd), pass_fds=[fd])
    same("a file system that is covered by another", got, (0, "closed\n", ""))
    os.close(fd)
    places = [os.path.join(home, name) for name in ("new", "elsewhere", "first")]
    for place in places:
        os.mkdir(place)
    subprocess.run(["mount", "-t", "cgroup2", "none", places[0]], check=True)
    for of, place in zip((places[0], *sys.argv[2:3]), places[1:]):
        subprocess.run(["mount", "--bind", of, place], check=True)
    for place in places if sys.argv[2:3] else places[:2]:
        works("a mount on %s" % os.path.basename(place), place)
        works("a mount on %s, with --root" % os.path.basename(place), place, "--root")
        closes("a mount on %s" % os.path.basename(place), place)
    finish()


if sys.argv[1:2] == ["below"]:
    below()
mounts = [line.split()[1:3] for line in open("/proc/mounts")]
own = [at for at, kind in mounts if kind in ("cgroup", "cgroup2") and os.access(at, os.X_OK)]
step("the machine has cgroups", own)
for at in [AT] * (AT not in own) + own[:1] + own[-1:]:
    works(at, at)
for at in own[:1] + own[-1:]:
    closes(at, at)
inner = next(
    (os.path.join(at, name) for at in own for name in os.listdir(at) if os.path.isdir(os.path.join(at, name))), None
)
if inner and os.access(inner, os.X_OK):
    works("a group below", inner)
climbs()
home = os.environ.get("TMPDIR", "/tmp")
status, text, said = ran(PROGRAM, "run", "pwd", cwd=home)
same("a usual folder stays", (status, text, said), (0, os.path.realpath(home) + "\n", ""))
ran_below = subprocess.run(
    ["unshare", "--user", "--map-root-user", "--mount", "--cgroup", sys.executable, ME, "below", *own[:1]],
    timeout=6 * PATIENCE,
)
same("mounts elsewhere: their status", ran_below.returncode, 0)
finish()
