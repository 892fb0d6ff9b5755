"""A monitor that polls pids.events, tested without a mount by a fork that a limit refuses. Needs nothing but the package.

In a service the monitor watches files below /sys/fs/cgroup; here mounted_at serves a hierarchy in memory there.
"""

from __future__ import annotations

import os
import select
import threading

from makhloeum import PidsMax, mounted_at

TOP = "/sys/fs/cgroup"


class Monitor:
    """Reports the forks that were refused in a group since the last report."""

    def __init__(self, group: str) -> None:
        self._fd = os.open(os.path.join(group, "pids.events"), os.O_RDONLY | os.O_CLOEXEC)
        self._poll = select.poll()
        self._poll.register(self._fd, select.POLLPRI)
        self._refused = self._read()

    def _read(self) -> int:
        return int(os.pread(self._fd, 100, 0).split()[1])

    def wait(self, seconds: float) -> int:
        """How many were refused; 0 when the time is over."""
        if not self._poll.poll(seconds * 1000):
            return 0
        before, self._refused = self._refused, self._read()
        return self._refused - before

    def close(self) -> None:
        os.close(self._fd)


def main() -> None:
    with mounted_at(TOP) as h:
        service = os.path.join(TOP, "service")
        os.mkdir(service)
        for file, value in (("pids.max", "2"), ("cgroup.procs", "1")):
            with open(os.path.join(service, file), "w") as it:
                it.write(value)
        monitor = Monitor(service)
        print("refused at first:", monitor.wait(0.01))

        def forks() -> None:
            h.fork(1, 2)
            try:
                h.fork(1, 3)
            except PidsMax as refused:
                print(refused)

        program = threading.Thread(target=forks)
        program.start()
        told = monitor.wait(10)
        program.join()
        print("refused now:", told)
        monitor.close()


if __name__ == "__main__":
    main()
