"""`mounted_at` answers as a real mount: random calls on both, side by side. MAKHLOEUM_RANDOM_CALLS says how many.

A sequence whose calls differ is shortened and printed; once it is mended it is kept below.
"""

import os
import sys
from pprint import pformat

import pytest
from random_calls import MAY_DIFFER, MOUNT, Drawing, RealMount, may_differ, results, shortened

pytestmark = pytest.mark.skipif(sys.version_info < (3, 11), reason="mounted_at needs Python 3.11")

SEED, SEQUENCES, LENGTH = 79, 400, 50
KEPT = [
    [("mkdir", "a", 0o755), ("truncate", "a", 0)],
    [("exists", "nowhere/../a")],
    [("exists", "nowhere/" + "x" * 256)],
    [("stat", "pids.max/b"), ("read", "a/pids.max/b"), ("listdir", "cpu.stat/b/..")],
    [("mkdir", "a", 0o755), ("unlink", "a"), ("unlink", "a/"), ("unlink", "a/pids.max"), ("unlink", "a/b/pids.max")],
    [
        ("mkdir", "a", 0o755),
        ("mkdir", "a/b", 0o755),
        ("rename", "a", "a/b/c"),
        ("rename", "a/b/c", "a"),
        ("rename", "a", "a"),
    ],
    [("rename", "nowhere/a", "cpu.stat/b"), ("rename", "", "b"), ("rename", "", ""), ("link", "", "b")],
    [("mkdir", "cpu.stat/", 0o755), ("mknod", "b/"), ("mkfifo", "b"), ("symlink", "b/"), ("symlink", "x" * 256)],
    [("makedirs", "a/b"), ("hold", 0, "a/b", os.O_RDONLY), ("rmdir", "a/b"), ("by", 0, "listdir"), ("by", 0, "fstat")],
    [
        ("makedirs", "a"),
        ("hold", 0, "a/cpu.stat", os.O_RDWR),
        ("rmdir", "a"),
        ("by", 0, "write", b"1"),
        ("by", 0, "fstat"),
    ],
    [
        ("makedirs", "a"),
        ("hold", 0, "a/cgroup.kill", os.O_RDWR),
        ("rmdir", "a"),
        ("by", 0, "read", 5),
        ("by", 0, "write", b"1"),
    ],
    [
        ("makedirs", "a"),
        ("hold", 0, "a/pids.max", os.O_RDWR),
        ("rmdir", "a"),
        ("by", 0, "listdir"),
        ("below", 0, "stat", ""),
    ],
    [
        ("makedirs", "a"),
        ("hold", 0, "a", os.O_RDONLY),
        ("by", 0, "write", b"1"),
        ("by", 0, "fsync"),
        ("by", 0, "fdatasync"),
    ],
    [
        ("makedirs", "a"),
        ("hold", 0, "a/pids.max", os.O_RDONLY),
        ("by", 0, "lseek", 0, 2),
        ("by", 0, "fsync"),
        ("by", 0, "fdatasync"),
    ],
    [
        ("makedirs", "a/b"),
        ("write", "a/cgroup.freeze", b"1"),
        ("read", "a/b/cgroup.events"),
        ("read", "a/b/cgroup.freeze"),
    ],
    [
        ("makedirs", "a"),
        ("write", "a/cgroup.freeze", b"2"),
        ("write", "a/cgroup.threads", b"1"),
        ("read", "cgroup.threads"),
    ],
    [
        ("flags", "cpu.stat", os.O_RDONLY | os.O_DIRECT),
        ("flags", "b/cpu.stat", os.O_RDWR | os.O_TMPFILE),
        ("flags", "", os.O_CREAT),
    ],
    [
        ("flags", "nowhere/../a", os.O_CREAT | os.O_DIRECTORY),
        ("flags", "nowhere/../a", os.O_TMPFILE),
        ("flags", "cpu.stat", os.O_TMPFILE & ~os.O_DIRECTORY | os.O_RDWR),
        ("flags", "", os.O_TMPFILE | os.O_ACCMODE),
    ],
    [
        ("hold", 0, "cpu.stat", os.O_ACCMODE),
        ("by", 0, "read", 5),
        ("by", 0, "write", b"1"),
        ("by", 0, "lseek", 0, os.SEEK_END),
        ("by", 0, "ftruncate", 0),
    ],
    [
        ("hold", 0, "", os.O_PATH),
        ("by", 0, "read", 5),
        ("by", 0, "lseek", 0, 0),
        ("by", 0, "listdir"),
        ("by", 0, "fsync"),
        ("by", 0, "utime"),
        ("below", 0, "stat", "cpu.stat"),
    ],
    [
        ("hold", 0, "cpu.stat", os.O_RDONLY),
        *(("by", 0, "lseek", offset, whence) for offset in (0, 1, 4096, -1) for whence in (os.SEEK_DATA, os.SEEK_HOLE)),
        ("hold", 1, "", os.O_RDONLY),
        *(("by", 1, "lseek", offset, whence) for offset in (0, 1, 4096, -1) for whence in (os.SEEK_DATA, os.SEEK_HOLE)),
    ],
    [
        ("makedirs", "a"),
        ("hold", 0, "a/pids.max", os.O_RDWR),
        ("by", 0, "read", 2),
        ("by", 0, "pwritev", [b"5", b"7"], -1),
        ("by", 0, "lseek", 0, 1),
        ("by", 0, "preadv", [bytearray(2)], -1),
        ("by", 0, "preadv", [bytearray(2)], -2),
        ("by", 0, "readv", [bytearray(1)] * 1025),
        ("by", 0, "pwritev", [b"5"] + [b""] * 1024, 0),
    ],
    [("hold", 0, "", os.O_RDONLY), ("by", 0, "readv", []), ("by", 0, "readv", [bytearray(1)] * 1025)],
    [("truncate", "a/b", -1), ("touch", "a/"), ("touch", "a/pids.max"), ("rmdir", "a/."), ("rmdir", "cpu.stat/..")],
    [
        ("makedirs", "a"),
        ("rmdir", "a/."),
        ("rmdir", "a/.."),
        ("mkdir", "a/.", 0o755),
        ("unlink", "a/.."),
        ("rename", "a/.", "b"),
    ],
]
# for each row of what may differ
DIFFER = [
    [("mkdir", "a", 0o700), ("stat", "a")],
    [("hold", 0, "", os.O_RDONLY), ("by", 0, "lseek", 2, 0), ("by", 0, "listdir")],
    [("hold", 0, "", os.O_RDONLY), ("below", 0, "stat", "..")],
    [("entries", "")],
]


@pytest.fixture(scope="module", autouse=True)
def a_mount():
    if not MOUNT.exists():
        pytest.skip("mount/build made no mount")
    try:
        with RealMount():
            pass
    except OSError:
        pytest.skip("this machine allows no mount")


def played(calls):
    """What is wrong with the first call whose results differ and may not, and the calls up to it."""
    for number, (real, memory) in enumerate(results(calls), 1):
        if real != memory and not may_differ(calls[:number], real, memory):
            return calls[:number], f"{real!r} on a mount, {memory!r} by mounted_at"
    return None


def differs(calls):
    found = played(calls)
    return found is not None and len(found[0]) == len(calls)


@pytest.mark.parametrize("calls", KEPT)
def test_calls_that_differed(calls):
    assert played(calls) is None


@pytest.mark.parametrize("row", range(len(MAY_DIFFER)))
def test_what_may_differ(row):
    calls = DIFFER[row]
    *_, (real, memory) = results(calls)
    assert real != memory and [rule(calls, real, memory) for rule in MAY_DIFFER.values()].index(True) == row


def test_random_calls():
    for number in range(int(os.environ.get("MAKHLOEUM_RANDOM_CALLS", SEQUENCES * LENGTH)) // LENGTH):
        drawing = Drawing(SEED * 100000 + number)
        calls = [drawing.call() for _ in range(LENGTH)]
        for count, (real, memory) in enumerate(results(calls), 1):
            if real != memory and not may_differ(calls[:count], real, memory):
                short = shortened(calls[:count], differs)
                pytest.fail(f"{pformat(short)}\n{played(short)[1]}")
