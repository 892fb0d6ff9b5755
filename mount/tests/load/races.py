"""Races between clients: what is checked and what is changed then stay under one lock. And a mount that cannot begin is not left in place.
Each needs a library that is loaded before libc, so only the plain build runs it."""
import ctypes
import os
import stat
import subprocess
import sys
import tempfile
import threading
import time

sys.path.insert(0, os.path.dirname(os.path.dirname(os.path.realpath(__file__))))
from support import PATIENCE, PROGRAM, Mount, error_of, finish, libc, same, step, write

HERE = os.path.dirname(PROGRAM)


def owners():
    """A mode that is given while an undo takes the group back does not come to the next group of that name."""
    m = Mount(preload=os.path.join(HERE, "slow_unlock.so"))
    file, wrong = m.path("a", "pids.max"), 0
    for turn in range(150):
        os.mkdir(m.path("a"))
        giver = threading.Thread(target=error_of, args=(os.chmod, file, 0o600))
        giver.start()
        time.sleep(turn % 50 * 0.0002)
        write(m.control("undo"), b"1")
        giver.join()
        os.mkdir(m.path("a"))
        wrong += stat.S_IMODE(os.stat(file).st_mode) != 0o644
        os.rmdir(m.path("a"))
    same("modes that came to another group", wrong, 0)
    m.end()


ATTRIBUTE = b"user.x"
VALUES = [letter * (20000 + 5000 * i) for i, letter in enumerate((b"a", b"b", b"c", b"d"))]
NAMES = [b"user." + letter * (100 + 20 * i) for i, letter in enumerate((b"a", b"b", b"c", b"d"))]


def first_torn(call, is_whole, makers):
    """The first answer that is not whole, while each maker runs again and again in a thread of its own; None if all are whole. There
    are 300, and more until two differ."""
    done, seen, count = threading.Event(), set(), 0

    def again(maker):
        while not done.is_set():
            maker()

    threads = [threading.Thread(target=again, args=(maker,)) for maker in makers]
    for thread in threads:
        thread.start()
    try:
        while count < 300 or len(seen) < 2:
            got = call()
            if not is_whole(got):
                return got[:40]
            seen.add(got)
            count += 1
    except OSError as e:
        return e.strerror
    finally:
        done.set()
        for thread in threads:
            thread.join()
    return None


def attributes():
    """A value or a list that is read while others replace it is a whole one: it is copied before the lock is released."""
    os.environ["MALLOC_PERTURB_"] = "90"  # what is freed has other bytes at once
    m = Mount(preload=os.path.join(HERE, "slow_unlock.so"))
    del os.environ["MALLOC_PERTURB_"]
    os.mkdir(m.path("a"))
    group, room = m.path("a").encode(), ctypes.create_string_buffer(65536)

    def bytes_of(call, *words):
        size = call(group, *words, room, len(room))
        if size < 0:
            raise OSError(ctypes.get_errno(), os.strerror(ctypes.get_errno()))
        return room.raw[:size]

    def sets(name, value):
        return lambda: libc.setxattr(group, name, value, len(value), 0)

    os.setxattr(group, ATTRIBUTE, VALUES[0])
    torn = first_torn(
        lambda: bytes_of(libc.getxattr, ATTRIBUTE), VALUES.__contains__, [sets(ATTRIBUTE, value) for value in VALUES]
    )
    same("a value that nobody set", torn, None)
    torn = first_torn(
        lambda: bytes_of(libc.listxattr),
        lambda text: set(text.split(b"\0")) <= {b"", ATTRIBUTE, *NAMES} and text.endswith(b"\0"),
        [lambda name=name: (sets(name, b"1")(), libc.removexattr(group, name)) for name in NAMES],
    )
    same("a list with a name that nobody set", torn, None)
    m.end()


def beginnings():
    at = tempfile.mkdtemp()
    env = dict(os.environ, LD_PRELOAD=os.path.join(HERE, "no_signals.so"))
    ran = subprocess.run([PROGRAM, "mount", at], env=env, stderr=subprocess.PIPE, timeout=PATIENCE)
    step("without signal handlers it does not begin", ran.returncode != 0, ran.returncode)
    same("it says so", ran.stderr.count(b"makhloeum:"), 1)
    step("and no mount is left", not os.path.ismount(at))
    same("the directory is as it was", error_of(os.rmdir, at), "ok")
    subprocess.run(["fusermount3", "-u", "-q", "-z", at], stderr=subprocess.DEVNULL)


owners()
attributes()
beginnings()
finish()
