"""Calls per second from Python, best of ten rounds, in processor time: figures.py [CGSHELL]. With the program cgshell also by
pipes to it, in real time."""

import subprocess
import sys
import time

from makhloeum import Hierarchy
from makhloeum._table import SLOTS

ROUNDS, CALLS, PIPED = 10, 20_000, 2_000
PROCESSES = 100_000


def best_of(call, times, clock=time.process_time):
    """Seconds for this number of calls."""
    best = float("inf")
    for _ in range(ROUNDS):
        start = clock()
        for _ in range(times):
            call()
        best = min(best, clock() - start)
    return best


def say(what, seconds, calls):
    print(f"{'Python, ' + what:58} {calls / seconds:11.0f} a second", flush=True)


def in_memory():
    def fork_and_undo():
        h.fork(2, 3)
        h.undo()

    with Hierarchy() as h:
        for line in ("mkdir /a", "fork 1 2", "write /a cgroup.procs 2"):
            h.line(line)
        say("cats", best_of(lambda: h.read("/a", "pids.current"), CALLS), CALLS)
        say("numbers (current)", best_of(lambda: h.current("/a"), CALLS), CALLS)
        say("forks with their undos", best_of(fork_and_undo, CALLS), CALLS)


def by_pipes(program):
    def ask(line, lines):
        shell.stdin.write(line)
        shell.stdin.flush()
        for _ in range(lines):
            shell.stdout.readline()

    def fork_and_undo():
        ask(b"fork 2 3\n", 1)
        ask(b"undo\n", 2)

    with subprocess.Popen([program], stdin=subprocess.PIPE, stdout=subprocess.PIPE) as shell:
        for line in (b"mkdir /a\n", b"fork 1 2\n", b"write /a cgroup.procs 2\n"):
            ask(line, 1)
        cat = best_of(lambda: ask(b"cat /a pids.current\n", 2), PIPED, time.perf_counter)
        say("cats by pipes to cgshell", cat, PIPED)
        say("forks with their undos by pipes", best_of(fork_and_undo, PIPED, time.perf_counter), PIPED)


def sweeps():
    with Hierarchy() as h:
        paths = [f"/g{number}" for number in range(SLOTS)]
        for path in paths:
            h.mkdir(path)
        for pid in range(2, PROCESSES + 2):
            h.fork(1, pid)
            h.write(paths[pid % SLOTS], "cgroup.procs", pid)
        pairs = [(path, "pids.current") for path in paths]
        assert sum(map(int, h.read_many(pairs))) == sum(map(h.current, paths)) == PROCESSES
        for what, call in {
            "read for each": lambda: [h.read(path, "pids.current") for path in paths],
            "current for each": lambda: [h.current(path) for path in paths],
            "one read_many": lambda: h.read_many(pairs),
        }.items():
            print(f"{f'Python, a sweep over 1,024 groups, {what}':58} {1e3 * best_of(call, 1):11.3f} ms", flush=True)


in_memory()
for program in sys.argv[1:]:
    by_pipes(program)
sweeps()
