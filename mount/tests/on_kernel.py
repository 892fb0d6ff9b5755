"""Tests that are made on a mount and on the cgroup2 of this machine."""
import contextlib
import os


def left_out(why):
    print("  left out: " + why)


def remove_all(group):
    for top, below, _ in os.walk(group, topdown=False):
        for name in below:
            os.rmdir(os.path.join(top, name))
    os.rmdir(group)


@contextlib.contextmanager
def new_group():
    """A group of the machine's cgroup2, or None after a sentence that says why there is none. It is removed at the end."""
    mounts = [line.split() for line in open("/proc/self/mounts")]
    at = next((m[1] for m in mounts if m[2] == "cgroup2" and m[0] != "makhloeum"), None)
    if os.getuid() != 0 or not at:
        left_out("only the superuser can ask the kernel, and there has to be a cgroup2 on the machine")
        yield None
        return
    group = "%s/makhloeum-test-%d" % (at, os.getpid())
    try:
        os.mkdir(group)
    except OSError as e:
        left_out("no group can be made in this machine's cgroup2: %s" % e.strerror)
        yield None
        return
    try:
        yield group
    finally:
        os.chdir("/")
        remove_all(group)
