"""Traces for the tests, and the page of a trace. Random ones are made without asking whether a command will be accepted."""

from __future__ import annotations

import os
import random
import sys
from typing import List

HERE = os.path.dirname(os.path.abspath(__file__))
PYTHON = os.path.join(HERE, "..", "..", "..", "bindings", "python")
sys.path.insert(0, PYTHON)
sys.path.append(os.path.join(PYTHON, "tests"))  # for what its own tests have besides

from makhloeum import Hierarchy  # noqa: E402
from makhloeum.page.history import History  # noqa: E402
from makhloeum.page.page import page  # noqa: E402
from open_files import open_files  # noqa: E402, F401

PATHS = ["/a", "/b", "/a/x", "/a/y", "/a/x/deep", "/a/x/deep/er", "/b/x"]
FILES = ["cgroup.procs", "cgroup.stat", "cgroup.events", "pids.current", "pids.peak", "pids.events", "pids.max"]
KINDS = {
    "mkdir": 8,
    "rmdir": 3,
    "fork": 14,
    "exit": 3,
    "move": 9,
    "limit": 5,
    "kill": 1,
    "cat": 5,
    "where": 2,
    "undo": 6,
    "bad": 1,
}


def command(choice: random.Random, pids: int = 14) -> str:
    path, pid, other = choice.choice(PATHS), choice.randint(1, pids), choice.randint(1, pids)
    kind = choice.choices(list(KINDS), list(KINDS.values()))[0]
    file = choice.choice(["pids.max", "pids.max", "cgroup.max.depth", "cgroup.max.descendants"])
    return {
        "fork": f"fork {pid} {other}",
        "exit": f"exit {pid}",
        "where": f"where {pid}",
        "move": f"write {choice.choice(['/', path])} cgroup.procs {pid}",
        "limit": f"write {path} {file} {choice.choice([0, 1, 2, 3, 5, 'max'])}",
        "kill": f"write {path} cgroup.kill 1",
        "cat": f"cat {path} {choice.choice(FILES)}",
        "undo": "undo",
        "bad": choice.choice(
            ["nonsense", "write /a pids.max -1", "mkdir a", "cat /a pids.mox", "\x01\x02", "mkdir /a/<b>"]
        ),
    }.get(kind, f"{kind} {path}")


def random_trace(seed: int, length: int, pids: int = 14) -> List[str]:
    """It begins with groups and processes, so that commands have something to work on."""
    choice = random.Random(seed)
    start = [f"mkdir {path}" for path in PATHS] + [f"fork 1 {pid}" for pid in range(2, pids // 2)]
    return (start + [command(choice, pids) for _ in range(length)])[:length]


def long_trace(lines: int) -> str:
    """A service that forks and ends workers in 60 groups, with limits that refuse some, a kill now and then, and times."""
    choice, told, now = random.Random(1), [], 0
    alive: List[List[int]] = []
    for group in range(60):
        told += [
            f"mkdir /s{group}",
            f"write /s{group} pids.max 40",
            f"fork 1 {group + 2}",
            f"write /s{group} cgroup.procs {group + 2}",
        ]
        alive.append([])
    pid = 100
    while len(told) < lines:
        group = choice.randrange(60)
        if choice.random() < 0.0003:
            told.append(f"write /s{group} cgroup.kill 1")
            told += [f"fork 1 {pid + 1}", f"write /s{group} cgroup.procs {pid + 1}"]
            alive[group] = [pid + 1]
            pid += 1
        elif choice.random() < 0.55 or not alive[group]:
            parent = alive[group][-1] if alive[group] else group + 2
            told.append(f"fork {parent} {pid + 1}")
            if len(alive[group]) < 39:
                alive[group].append(pid + 1)
            pid += 1
        else:
            told.append(f"exit {alive[group].pop(choice.randrange(len(alive[group])))}")
    lines_with_times = []
    for line in told[:lines]:
        now += choice.randrange(2000)
        lines_with_times.append(f"# at {now // 1000000}.{now % 1000000:06d}\n{line}\n")
    return "".join(lines_with_times)


def wide_trace(groups: int = 1000) -> str:
    """Many groups side by side, and a process in one of those that are folded away."""
    told = [f"mkdir /g{number:04d}" for number in range(groups)]
    return "\n".join([*told, "fork 1 2", "write /g0777 cgroup.procs 2"]) + "\n"


def pods_trace() -> str:
    """Pods as Kubernetes has them: long names that differ at their ends, eight levels deep, with limits that refuse forks."""
    told = ["mkdir /kubepods.slice", "mkdir /system.slice", "mkdir /system.slice/containerd.service"]
    told += ["fork 1 100", "write /system.slice/containerd.service cgroup.procs 100"]
    pid = 1000
    for kind in ("besteffort", "burstable"):
        told.append(f"mkdir /kubepods.slice/kubepods-{kind}.slice")
        for number in range(3):
            pod = f"/kubepods.slice/kubepods-{kind}.slice/kubepods-{kind}-pod7b2f4c1d_4a0e_4f0c_9d1a_c0ffee00000{number}.slice"
            container = f"{pod}/cri-containerd-{pid * 0x9E3779B97F4A7C15 % (1 << 256):064x}.scope"
            pool = f"{container}/init.scope/workers/pool-of-the-greatest-importance-{number}"
            told += [
                f"mkdir {pod}",
                f"write {pod} pids.max {8 + number}",
                f"mkdir {container}",
                f"mkdir {container}/init.scope",
            ]
            told += [
                f"mkdir {container}/init.scope/workers",
                f"mkdir {pool}",
                f"fork 100 {pid}",
                f"write {container} cgroup.procs {pid}",
            ]
            told += [f"fork {pid} {pid + 1 + child}" for child in range(10)] + [f"write {pool} cgroup.procs {pid + 2}"]
            pid += 20
    return "\n".join(told) + "\n"


def deep_trace() -> str:
    """Groups of all levels, with long names."""
    name, path, told = "a-name-of-many-letters-that-ends-in-{}", "", []
    for level in range(1, 33):
        path += "/" + name.format(level)
        told.append(f"mkdir {path}")
    return "\n".join([*told, f"write {path} cgroup.procs 1"]) + "\n"


HOSTILE = (
    "# </script><script>window.hacked = 1</script> <!-- <script>\n"
    "# \x1b[31m \u202e text from the right\n"
    'mkdir /<script>\nmkdir /<script>/&quot;\nmkdir /<img\nmkdir /"onload=hacked=1\nmkdir /@DATA@\nmkdir /$&\nmkdir /__proto__\n'
    "mkdir /constructor\nfork 1 2\nwrite /__proto__ cgroup.procs 2\n</script><script>window.hacked = 1</script>\ncat /<script> pids.max\n"
    "write /<script>/&quot; pids.max 0\nfork 1 3\nwrite /<script>/&quot; cgroup.procs 3\nfork 3 4\n\\u003cb\\u003e \\\" ' ` ${hacked}\n"
)


def history_of(trace: str | bytes) -> History:
    with Hierarchy() as h:
        history = History(h)
        history.read(trace if isinstance(trace, bytes) else trace.encode("utf-8", "surrogateescape"))
    return history


def page_of(trace: str | bytes, title: str = "run") -> str:
    return page(history_of(trace), title)
