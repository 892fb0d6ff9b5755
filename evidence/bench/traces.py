"""The workloads of evidence/bench: each makes a trace of about LINES lines, the same one each time.

    python3 traces.py NAME LINES     writes one trace to standard output
"""
import random
import sys

# Further traces beyond these would measure the same costs again: a path, a walk, a table, a journal, a text.
DEPTH = 32
MANY = 1000


def shallow(lines):
    """forks and exits in one group below the root"""
    yield from ("mkdir /a", "write /a cgroup.procs 1")
    yield from forks_then_exits(lines)


def deep(lines):
    """forks and exits 32 groups deep"""
    yield from nested([f"d{i}" for i in range(DEPTH)])
    yield from forks_then_exits(lines)


def long_names(lines):
    """forks and exits below four names of 200 letters"""
    yield from nested([letter * 200 for letter in "abcd"])
    yield from forks_then_exits(lines)


def refused(lines):
    """forks refused by a limit 31 groups above"""
    yield from nested([f"d{i}" for i in range(DEPTH)])
    yield "write /d0 pids.max 1"
    for i in range(lines):
        yield f"fork 1 {2 + i % MANY}"


def moves(lines):
    """moves among 256 groups, and reads"""
    dice = random.Random(1)
    yield from (f"mkdir /g{g}" for g in range(256))
    yield from (f"fork 1 {pid}" for pid in range(2, MANY + 2))
    for _ in range(lines):
        group, pid = dice.randrange(256), dice.randrange(2, MANY + 2)
        yield dice.choice(
            (
                f"write /g{group} cgroup.procs {pid}",
                f"cat /g{group} pids.current",
                f"cat /g{group} cgroup.events",
                f"where {pid}",
            )
        )


def undone(lines):
    """runs of 500 forks, then undone"""
    yield from ("mkdir /a", "write /a cgroup.procs 1")
    for _ in range(lines // 1000):
        yield from (f"fork 1 {pid}" for pid in range(2, 502))
        yield from ["undo"] * 500


def kills(lines):
    """kills of 200 processes, then undone"""
    yield from ("mkdir /k", "mkdir /k/a", "mkdir /k/b")
    for _ in range(lines // 403):
        for pid in range(2, 202):
            yield f"fork 1 {pid}"
            yield f"write /k/{'ab'[pid % 2]} cgroup.procs {pid}"
        yield from ("write /k cgroup.kill 1", "undo", "write /k cgroup.kill 1")


def crowd(lines):
    """many live processes, and moves"""
    dice = random.Random(2)
    last = 1 + lines // 2
    yield from (f"fork 1 {pid}" for pid in range(2, last + 1))
    yield "mkdir /a"
    for _ in range(lines // 4):
        yield f"write /a cgroup.procs {dice.randint(2, last)}"
        yield f"where {dice.randint(2, last)}"


def small_kills(lines):
    """kills of five processes, undone, among many others"""
    dice = random.Random(3)
    yield from small_groups(lines)
    for _ in range(lines // 200):
        yield from (f"write /g{dice.randrange(200)} cgroup.kill 1", "undo")


def members(lines):
    """lists of five processes, among many others"""
    dice = random.Random(4)
    yield from small_groups(lines)
    for _ in range(lines // 100):
        yield f"cat /g{dice.randrange(200)} cgroup.procs"


def siblings(lines):
    """a thousand groups made and removed"""
    for _ in range(max(1, lines // (2 * MANY))):
        yield from (f"mkdir /user-{i}.slice" for i in range(MANY))
        yield from (f"rmdir /user-{i}.slice" for i in range(MANY))


def monitor(lines):
    """five files of a thousand groups, read in turn"""
    files = ("pids.current", "pids.max", "pids.events", "cgroup.events", "cgroup.stat")
    for g in range(MANY):
        yield from (f"mkdir /g{g}", f"fork 1 {2 + g}", f"write /g{g} cgroup.procs {2 + g}")
    for i in range(lines):
        yield f"cat /g{i // len(files) % MANY} {files[i % len(files)]}"


def nested(names):
    """Groups one below another, with process 1 in the last."""
    path = ""
    for name in names:
        path += f"/{name}"
        yield f"mkdir {path}"
    yield f"write {path} cgroup.procs 1"


def forks_then_exits(lines):
    pids = range(2, 2 + lines // 2)
    yield from (f"fork 1 {pid}" for pid in pids)
    yield from (f"exit {pid}" for pid in pids)


def small_groups(lines):
    """Many processes in the root, and 200 groups of five."""
    yield from (f"fork 1 {2 + i}" for i in range(max(MANY, lines // 4)))
    for g in range(200):
        yield f"mkdir /g{g}"
        yield from (f"write /g{g} cgroup.procs {2 + 5 * g + i}" for i in range(5))


ALL = (shallow, deep, moves, undone, kills, crowd, members, small_kills, siblings, long_names, refused, monitor)
NAMED = {make.__name__: make for make in ALL}


def main():
    if len(sys.argv) != 3 or sys.argv[1] not in NAMED:
        print(f"traces.py NAME LINES, with NAME one of {', '.join(NAMED)}", file=sys.stderr)
        return 2
    for line in NAMED[sys.argv[1]](int(sys.argv[2])):
        sys.stdout.write(line + "\n")
    return 0


if __name__ == "__main__":
    sys.exit(main())
