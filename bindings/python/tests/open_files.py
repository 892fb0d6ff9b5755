"""The open files of this process, for tests that nothing stays open."""

import contextlib
import gc
import os


def open_files():
    """Each descriptor with what it names. Files that nobody refers to any more are closed first, so that none of an earlier test is
    closed in between."""
    gc.collect()
    found = set()
    for fd in os.listdir("/proc/self/fd"):
        with contextlib.suppress(FileNotFoundError):  # that of the listing itself
            found.add((fd, os.readlink(f"/proc/self/fd/{fd}")))
    return found
