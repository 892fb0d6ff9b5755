"""Measures calls: python3 bench.py"""

import time

from makhloeum import Hierarchy

COUNT = 200_000


def seconds(call):
    start = time.perf_counter()
    for _ in range(COUNT):
        call()
    return time.perf_counter() - start


def fork_and_undo(h):
    h.fork(2, 3)
    h.undo()


with Hierarchy() as h:
    h.mkdir("/a")
    h.fork(1, 2)
    h.write("/a", "cgroup.procs", 2)
    for _ in range(3):
        cat = seconds(lambda: h.read("/a", "pids.current"))
        pair = seconds(lambda: fork_and_undo(h))
        print(
            f"Python: {COUNT / cat / 1e6:.3f} million cats a second; {COUNT / pair / 1e6:.3f} million forks with their undos a second"
        )
