"""A monitor that polls in a thread while the program under test changes the hierarchy. Needs nothing but the package.

The monitor reads files through a function. In a service it opens files below /sys/fs/cgroup; here it asks a hierarchy in
memory, which both threads share.
"""

from __future__ import annotations

import queue
import threading
from typing import Callable

from makhloeum import Hierarchy, NoGroup, PidsMax

Read = Callable[[str, str], str]


class Monitor(threading.Thread):
    """Reports a group when its pids.current reaches its pids.max, and again when it falls below it."""

    def __init__(self, groups: Callable[[], list[str]], read: Read) -> None:
        super().__init__(daemon=True)
        self.groups, self.read = groups, read
        self.reports: queue.Queue[str] = queue.Queue()
        self.stopped = threading.Event()
        self._full: set[str] = set()

    def run(self) -> None:
        while not self.stopped.wait(0.001):
            for group in self.groups()[1:]:
                try:
                    self._look(group)
                except NoGroup:  # removed since it was listed
                    self._full.discard(group)

    def _look(self, group: str) -> None:
        limit = self.read(group, "pids.max").strip()
        current = self.read(group, "pids.current").strip()
        is_full = limit != "max" and int(current) >= int(limit)
        if is_full and group not in self._full:
            self._full.add(group)
            self.reports.put(f"{group} is full: {current} of {limit}")
        elif not is_full and group in self._full:
            self._full.remove(group)
            self.reports.put(f"{group} has room again: {current} of {limit}")


def main() -> None:
    with Hierarchy() as h:
        h.mkdir("/service")
        h.mkdir("/service/worker")
        h.write("/service", "pids.max", 3)
        monitor = Monitor(h.groups, h.read)
        monitor.start()
        for pid in (2, 3, 4):
            h.fork(1, pid)
            h.write("/service/worker", "cgroup.procs", pid)
        print(monitor.reports.get(timeout=10))
        try:
            h.fork(4, 5)
        except PidsMax as refused:
            print(refused)
        h.exit(4)
        print(monitor.reports.get(timeout=10))
        monitor.stopped.set()
        monitor.join()


if __name__ == "__main__":
    main()
