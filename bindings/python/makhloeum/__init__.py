"""Makhloeum from Python: a cgroup hierarchy in memory, for tests of what reads and writes cgroup files.

    from makhloeum import Busy, Hierarchy

    with Hierarchy() as h:
        h.mkdir("/a")
        h.fork(1, 2)
        h.write("/a", "cgroup.procs", 2)
        h.read("/a", "pids.current")          # '1\\n'
        h.children("/")                       # ['a']
        try:
            h.rmdir("/a")
        except Busy as refused:
            refused.errno                     # errno.EBUSY
            str(refused)                      # 'rmdir /a: Device or resource busy (hasprocesses)'
        h.undo()                              # 'write /a cgroup.procs 2'

mounted_at serves a hierarchy to code that opens files itself, pytest_plugin has a fixture, and strategies has what Hypothesis
needs. It calls libmakhloeum.so by ctypes. The library is looked for at MAKHLOEUM_LIBRARY, in this package, where bindings/build
leaves it, and then where the system keeps libraries.
"""

from os import path as _path

from . import _interrupts, errors  # noqa: F401
from ._library import library as _c
from .errors import *  # noqa: F401, F403
from .hierarchy import Hierarchy
from .mounted import mounted_at

# In a checkout the packages page and check are beside their tests, in look. Installed, they are in this package.
_HERE = _path.dirname(_path.realpath(__file__))
_LOOK = _path.normpath(_path.join(_HERE, "..", "..", "..", "look"))
if not _path.isdir(_path.join(_HERE, "check")) and _path.isfile(_path.join(_LOOK, "check", "__init__.py")):
    __path__.append(_LOOK)  # noqa: F405

# the library's, which a wheel brings along
__version__: str = _c.mk_version().decode()
# in this form, since type checkers read it
__all__ = ["Hierarchy", "mounted_at"]
__all__ += errors.__all__
