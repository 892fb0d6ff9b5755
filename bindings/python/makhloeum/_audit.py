"""What mounted_at can't serve raises, where the interpreter tells of it: calls that reach the real function for a path below a
mounted one (by a name that was imported before, by io.FileIO, or as the working directory of a new process), and inotify, which is
called by ctypes."""

from __future__ import annotations

import errno
import os
import sys
from typing import Any, Callable

_PATHS = {
    **dict.fromkeys(("open", "os.listdir", "os.scandir", "os.mkdir", "os.rmdir", "os.remove", "os.truncate"), 1),
    **dict.fromkeys(("os.chmod", "os.chown", "os.utime", "os.chdir"), 1),
    **dict.fromkeys(("os.rename", "os.link", "os.symlink"), 2),
}
_INSTEAD = "mounted_at serves open and the functions of os by the names that they have in their modules; `makhloeum run` serves all"
_INOTIFY = "mounted_at has no inotify: poll the file, or use `makhloeum run`"

_is_below: Callable[[str], bool] | None = None
_added = False


def _hook(event: str, arguments: tuple[Any, ...]) -> None:
    if _is_below is None:
        return
    paths = arguments[: _PATHS.get(event, 0)] if event != "subprocess.Popen" else arguments[2:3]
    for path in paths:
        if isinstance(path, (str, bytes)) and _is_below(os.fsdecode(path)):
            raise OSError(errno.EOPNOTSUPP, f"{event}: {_INSTEAD}", path)
    if event == "ctypes.dlsym" and str(arguments[1]).startswith("inotify_"):
        raise OSError(errno.EOPNOTSUPP, f"{arguments[1]}: {_INOTIFY}")


def watch(is_below: Callable[[str], bool] | None) -> None:
    """Refuses these calls from now on for the paths that are below a mounted one, or no longer. A hook can't be removed."""
    global _is_below, _added
    _is_below = is_below
    if is_below is not None and not _added:
        sys.addaudithook(_hook)
        _added = True
