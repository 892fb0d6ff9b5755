"""The run that the pictures of docs/LOOK.md show: a web service with workers and a batch job whose limit is reached, as
`makhloeum run --trace` keeps it."""

from __future__ import annotations

from typing import List


def demo() -> str:
    """A trace with times."""
    lines: List[str] = []
    now = 0.0

    def do(line: str, after: float = 0.012) -> None:
        nonlocal now
        now += after
        lines.append(f"# at {now:.6f}\n{line}\n")

    for path in ("/system", "/system/web", "/system/db", "/batch", "/batch/job"):
        do(f"mkdir {path}")
    do("write /batch pids.max 8")
    do("write /system/web pids.max 16")
    for pid, path in ((2, "/system/web"), (3, "/system/db"), (4, "/batch/job")):
        do(f"fork 1 {pid}", 0.05)
        do(f"write {path} cgroup.procs {pid}")
    for pid in range(10, 19):
        do(f"fork 2 {pid}", 0.03)
    for pid in (20, 21):
        do(f"fork 3 {pid}", 0.04)
    for pid in range(30, 37):
        do(f"fork 4 {pid}", 0.02)
    for pid in (37, 38, 39):
        do(f"fork 4 {pid}", 0.03)
    do("cat /batch pids.events")
    for pid in (12, 13, 14):
        do(f"exit {pid}", 0.06)
    for pid in (30, 31):
        do(f"exit {pid}", 0.04)
    do("fork 4 40", 0.03)
    do("write /batch cgroup.kill 1", 0.1)
    do("rmdir /batch/job", 0.05)
    do("rmdir /batch")
    do("fork 2 50", 0.04)
    do("rmdir /system/web", 0.05)
    do("cat /system cgroup.events")
    return "".join(lines)
