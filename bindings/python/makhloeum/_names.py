"""Calls that make, remove or rename a name below a mount: what the kernel looks at before it asks the file system, in its order, and
what a mount then refuses. A node is what a path names, or None for what is elsewhere. Each call names the path once, for the faults of
`fail` and `vanish`.
"""

from __future__ import annotations

import errno
import os
import stat

from ._tree import Node, Tree, error

# Last names of a path that name what is there anyway; the empty one is the place of the mount.
_DOTS = ("", ".", "..")


def enter_parent(node: Node) -> None:
    """Raises what a look-up of the path raises before its last name."""
    if node.gone:
        return
    node.tree.enter(node.path if node.last in _DOTS else node.path.rpartition("/")[0], node.shown)


def check_new(node: Node) -> None:
    """Raises what is wrong with a name that is to be made."""
    enter_parent(node)
    if node.last in _DOTS or node.exists():
        raise error(errno.EEXIST, node.shown)
    if node.is_folder:
        raise error(errno.ENOENT, node.shown)


def mkdir(node: Node) -> None:
    if node.last in _DOTS:
        check_new(node)
    node.tree.mkdir(node)


def rmdir(node: Node) -> None:
    if node.last in (".", ".."):
        enter_parent(node)
        raise error(errno.EINVAL if node.last == "." else errno.ENOTEMPTY, node.shown)
    node.tree.rmdir(node)


def unlink(node: Node) -> None:
    enter_parent(node)
    if node.last not in _DOTS:
        if not node.exists():
            raise error(errno.ENOENT, node.shown)
        if node.file is not None:
            raise error(errno.ENOTDIR if node.is_folder else errno.EPERM, node.shown)
    raise error(errno.EISDIR, node.shown)


def _tree_of_name(node: Node | None) -> Tree | None:
    """Where the last name of a path is made or removed. The place of a mount is a name elsewhere."""
    return None if node is None or node.last == "" else node.tree


def _above(group: str, other: str) -> bool:
    """Whether the other path is at or below the first."""
    return (other + "/").startswith(group + "/")


def rename(node: Node | None, to: Node | None) -> None:
    if to is not None:
        enter_parent(to)
    if node is not None and to is not None and node.last == to.last == "":
        return
    if node is None or to is None or _tree_of_name(node) is not _tree_of_name(to):
        raise error(errno.EXDEV, (node or to).shown)  # type: ignore[union-attr]
    if node.last in _DOTS or to.last in _DOTS:
        raise error(errno.EBUSY, node.shown)
    if not node.exists():
        raise error(errno.ENOENT, node.shown)
    is_there = to.exists()
    if node.file is not None and (node.is_folder or to.is_folder):
        raise error(errno.ENOTDIR, node.shown)
    if node.file is None and _above(node.group, to.path.rpartition("/")[0]):
        raise error(errno.EINVAL, node.shown)
    if to.file is None and _above(to.group, node.path.rpartition("/")[0]):
        raise error(errno.ENOTEMPTY, node.shown)
    if node.path == to.path:
        return
    if is_there and (node.file is None) != (to.file is None):
        raise error(errno.ENOTDIR if node.file is None else errno.EISDIR, node.shown)
    raise error(errno.EPERM, node.shown)


def link(node: Node | None, to: Node | None) -> None:
    if to is not None:
        check_new(to)
    is_other = (None if node is None else node.tree) is not _tree_of_name(to)
    raise error(errno.EXDEV if is_other else errno.EPERM, (node or to).shown)  # type: ignore[union-attr]


def symlink(node: Node) -> None:
    check_new(node)
    raise error(errno.EPERM, node.shown)


def mknod(node: Node, mode: int = stat.S_IFREG | 0o600) -> None:
    check_new(node)
    raise error(errno.EACCES if stat.S_IFMT(mode) in (0, stat.S_IFREG) else errno.EPERM, node.shown)


def mkfifo(node: Node) -> None:
    mknod(node, stat.S_IFIFO)


def open_node(node: Node, flags: int) -> Node:
    """What an open with these flags names, which is there: a group, or a file with its mode. As in the kernel, the superuser can open a
    file against its mode, and then gets an error from the read or write."""
    if flags & os.O_PATH:
        flags &= os.O_PATH | os.O_DIRECTORY
    way = flags & os.O_ACCMODE
    writes = way != os.O_RDONLY or flags & os.O_TRUNC
    if node.gone and node.file is not None and not flags & os.O_PATH:
        raise error(errno.ENODEV, node.shown)
    if flags & os.O_CREAT and not node.gone:
        _open_new(node, flags)
    else:
        node.check()
    if flags & os.O_DIRECTORY and node.file is not None:
        raise error(errno.ENOTDIR, node.shown)
    if flags & os.O_TMPFILE == os.O_TMPFILE:
        raise error(errno.EOPNOTSUPP, node.shown)
    if node.file is None and writes:
        raise error(errno.EISDIR, node.shown)
    if node.file is not None and os.geteuid() != 0 and not flags & os.O_PATH:
        if (way != os.O_WRONLY and not node.file.readable) or (writes and not node.file.writable):
            raise error(errno.EACCES, node.shown)
    if flags & os.O_DIRECT:
        raise error(errno.EINVAL, node.shown)
    return node


def _open_new(node: Node, flags: int) -> None:
    """Raises what an open with O_CREAT raises: nothing can be made."""
    enter_parent(node)
    if node.last not in (".", "..") and node.is_folder:
        raise error(errno.EISDIR, node.shown)
    if node.last not in _DOTS and not node.exists():
        raise error(errno.EACCES, node.shown)
    if flags & os.O_EXCL:
        raise error(errno.EEXIST, node.shown)
    if node.file is None:
        raise error(errno.EISDIR, node.shown)
