"""What `rt try` compiles: the LLVM module of a program, which it leaves in its folder for temporary files until it ends."""
import contextlib
import glob
import os
import signal
import subprocess
import threading
import time

PAUSE = 0.02
LEAST = 10_000  # bytes of a program's module; there are modules of single functions too


stopping = threading.Event()  # set once ./try has to end


class NoModule(Exception):
    """`rt try` ended well, but left no module."""


class Failed(Exception):
    """`rt try` ended with a fault; what it said."""


class Stopped(Exception):
    """./try was ended before."""


def is_program(module):
    return os.path.getsize(module) >= LEAST


def is_compiled(folder):
    """Whether a process works in the folder of a module: the compiler, so the module is complete."""
    for pid in filter(str.isdigit, os.listdir("/proc")):
        with contextlib.suppress(OSError):  # it ended, or is another user's
            if os.readlink(f"/proc/{pid}/cwd") == folder:
                return True
    return False


def take(crate, work):
    """Runs `rt try` in the folder of a crate until the compiler has its module, and returns the path of the module, in `work`."""
    temporary, taken = f"{work}/temporary", f"{work}/module.bc"
    os.makedirs(temporary)
    with open(f"{work}/said", "w+", encoding="utf-8", errors="replace") as said:
        tried = subprocess.Popen(
            ["rt", "try"],
            cwd=crate,
            env=dict(os.environ, TMPDIR=temporary),
            stdin=subprocess.DEVNULL,
            stdout=said,
            stderr=said,
            process_group=0,
        )
        try:
            while tried.poll() is None and not stopping.is_set():
                with contextlib.suppress(FileNotFoundError):  # one is removed meanwhile
                    for module in glob.glob(f"{temporary}/**/module.bc", recursive=True):
                        if is_program(module):
                            link(module, taken)
                            if is_compiled(os.path.realpath(os.path.dirname(module))):
                                return taken
                time.sleep(PAUSE)
        finally:
            # what it started may outlive it
            with contextlib.suppress(ProcessLookupError):
                os.killpg(tried.pid, signal.SIGKILL)
            tried.wait()
        if stopping.is_set():
            raise Stopped
        if tried.returncode != 0:
            said.seek(0)
            raise Failed(said.read()[-3000:])
    if not os.path.exists(taken):
        raise NoModule
    return taken


def link(module, taken):
    """Keeps a file that its program will remove: by a link, which has what is still written into it."""
    if os.path.exists(taken) and os.path.samefile(module, taken):
        return
    os.link(module, f"{taken}.new")
    os.replace(f"{taken}.new", taken)
