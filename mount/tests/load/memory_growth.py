"""Without --control neither a mount nor a run keeps a history: hours of forks and exits do not increase the memory."""
import os
import statistics
import subprocess
import sys

sys.path.insert(0, os.path.dirname(os.path.dirname(os.path.realpath(__file__))))
from support import PROGRAM, Mount, finish, in_parallel, own_of, same, server_and_helper, status_within, step, write

# With an arena for each thread the memory grows until each has had its turn with the most records.
os.environ["MALLOC_ARENA_MAX"] = "1"
PAIRS, CLIENTS, GROUPS = 16000, 20, 2000
FORKS, ROUNDS, FIRST = 2000, 6, 1000
# Bytes of a leak that is found, for each fork. The engine's list of pages of numbers grows with the highest number.
LEAST, LEAST_WITH_NEW_NUMBERS = 2, 10


def resident(pid):
    """Bytes of memory."""
    return int(open("/proc/%d/statm" % pid).read().split()[1]) * os.sysconf("SC_PAGE_SIZE")


def of_mount():
    m = Mount(control=False)
    fork, leave = os.open(m.control("fork"), os.O_WRONLY), os.open(m.control("exit"), os.O_WRONLY)

    def pairs(count, pid=2):
        for _ in range(count):
            os.write(fork, b"1 %d" % pid)
            os.write(leave, b"%d" % pid)

    # the mount makes its threads when calls come in parallel, and each takes memory
    in_parallel(lambda pid: pairs(PAIRS // 40, pid), range(3, 3 + CLIENTS), lanes=CLIENTS)
    sizes, part = [], PAIRS // 4
    for count in (PAIRS // 6, part, part, part, part):
        pairs(count)
        sizes.append(resident(m.process.pid))
    grown = min(after - before for before, after in zip(sizes, sizes[1:]))  # a thread may still begin in some of them
    print("  mount: %.1f bytes for each of %d forks and exits" % (grown / part, part))
    step("a mount does not grow", grown < 12 * part, sizes)
    os.close(fork)
    os.close(leave)
    m.end()


def of_groups():
    """A group that was removed is forgotten, however often it was looked up."""
    m = Mount(control=False)

    def groups(count):
        for _ in range(count):
            os.mkdir(m.path("g"))
            for _ in range(3):
                os.stat(m.path("g", "pids.max"))
            os.rmdir(m.path("g"))
        return resident(m.process.pid)

    groups(GROUPS // 4)
    sizes = [groups(GROUPS) for _ in range(3)]
    grown = min(after - before for before, after in zip(sizes, sizes[1:]))
    print("  mount: %.1f bytes for each of %d groups made and removed" % (grown / GROUPS, GROUPS))
    step("a mount does not grow by groups that are gone", grown < 100 * GROUPS, sizes)
    m.end()


PROGRAM_INSIDE = """import ctypes, os, sys
libc, clone = ctypes.CDLL(None), 56 if os.uname().machine == "x86_64" else 220
def rounds(n):
    for _ in range(n):
        pid = os.fork()
        if pid == 0:
            os._exit(0)
        os.waitpid(pid, 0)
        libc.syscall(clone, 0x2000800, 0, 0, 0, 0) == -1 or os._exit(1)  # a cgroup namespace, and CLONE_SIGHAND alone
        os.close(os.open("/proc/self/cgroup", os.O_RDONLY))
for count in (%d, *[%d] * %d):
    rounds(count)
    print(flush=True)
    sys.stdin.readline()
""" % (
    FORKS // 4,
    FORKS,
    ROUNDS,
)


def allocated(pid):
    """Bytes of a process that are in no file, without the program's static arrays. Those grow too, but not beyond their size: each page
    takes memory once a number or a birth has its place there, until the numbers wrap around."""
    total, end, counts = 0, None, True
    for line in open("/proc/%d/smaps" % pid):
        words = line.split()
        if not words[0].endswith(":"):  # the head of a mapping; static arrays begin where the program's file ends
            begin, last = words[0].split("-")
            is_program = words[5:6] == [os.path.realpath(PROGRAM)]
            counts = not is_program and not (begin == end and len(words) == 5)
            end = last if is_program else None
        elif counts and words[0] in ("Anonymous:", "Swap:"):
            total += 1024 * int(words[1])
    return total


def of_run(chooses_numbers):
    words = [PROGRAM, "run", sys.executable, "-c", PROGRAM_INSIDE]
    p = subprocess.Popen(words, stdin=subprocess.PIPE, stdout=subprocess.PIPE, text=True)
    p.stdout.readline()
    server, helper = server_and_helper(p.pid)
    (companion,) = set(own_of(p.pid)) - {server, helper}
    ours = {"supervisor": p.pid, "server": server, "helper": helper, "companion": companion}
    sizes = {name: [] for name in ours}
    for _ in range(ROUNDS):
        if chooses_numbers:  # each round has the same ones
            write("/proc/sys/kernel/ns_last_pid", b"%d" % FIRST)
        p.stdin.write("\n")
        p.stdin.flush()
        p.stdout.readline()
        for name, pid in ours.items():
            sizes[name].append(allocated(pid))
    p.stdin.close()
    same("its status", status_within(p), 0)
    most = FORKS * (LEAST if chooses_numbers else LEAST_WITH_NEW_NUMBERS)
    for name, of in sizes.items():
        # A thread may still begin in some rounds: they don't move the median. In others a page comes and goes: it doesn't stay in the mean.
        each = [after - before for before, after in zip(of, of[1:])]
        grown = min(statistics.median(each), statistics.mean(each))
        print("  run: the %s grows by %.1f bytes for each of %d forks and opens" % (name, grown / FORKS, FORKS))
        step("the %s of a run does not grow" % name, 0 < of[0] and grown < most, of)


if sys.argv[1:2] == ["run"]:
    of_run(sys.argv[2:] == ["numbers"])
    finish()
of_mount()
of_groups()
# The processes of a run let only a superuser of the namespace that they began in look at their memory. In a namespace of numbers nobody
# else uses any, and its superuser may say which number is next.
space = ["unshare", "--user", "--map-root-user"]
of_numbers = [*space, "--mount", "--pid", "--fork", "--mount-proc", "--kill-child"]
asked = subprocess.run([*of_numbers, "sh", "-c", "echo 100 >/proc/sys/kernel/ns_last_pid"], stderr=subprocess.DEVNULL)
again = [sys.executable, os.path.realpath(__file__), "run"]
ran = subprocess.run([*space, *again] if asked.returncode else [*of_numbers, *again, "numbers"])
same("a run: its status", ran.returncode, 0)
finish()
