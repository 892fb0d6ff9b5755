"""Several blocks of mounted_at at a time, what they leave behind, and calls that reach files by descriptors."""

import builtins
import contextlib
import copy
import ctypes
import errno
import gc
import glob
import inspect
import io
import multiprocessing
import os
import pathlib
import pickle
import shutil
import stat
import subprocess
import sys
import threading
import unittest.mock
import warnings
from os import listdir as early_listdir
from os import open as early_open

import pytest

from makhloeum import Hierarchy, _descriptors, _library, mounted_at
from makhloeum._calls import _OF_A_NAME, _OF_TWO_NAMES, _REFUSED, _SERVED, _SYNCS, _WITHOUT_EFFECT, CALLS

REAL_STAT = os.stat
AT = "/sys/fs/cgroup"
REPLACED = [
    (builtins, "open"),
    (io, "open"),
    *((os, name) for name in ("open", *_SERVED, *_REFUSED, *_WITHOUT_EFFECT, *_SYNCS) if hasattr(os, name)),
    *((os, name) for name in (*_OF_A_NAME, *_OF_TWO_NAMES)),
]


def functions():
    return [getattr(module, name) for module, name in REPLACED] + [
        value for kind in vars(glob).values() if isinstance(kind, type) for value in vars(kind).values()
    ]


BEFORE = functions()
SETS = [set(it) for it in (os.supports_fd, os.supports_dir_fd, os.supports_effective_ids, os.supports_follow_symlinks)]


@pytest.fixture(autouse=True)
def everything_is_put_back():
    yield
    assert all(now is was for now, was in zip(functions(), BEFORE))
    assert SETS == [
        set(it) for it in (os.supports_fd, os.supports_dir_fd, os.supports_effective_ids, os.supports_follow_symlinks)
    ]


@pytest.fixture
def h(at_cgroup):
    return at_cgroup


def code(call, *arguments, **more):
    try:
        call(*arguments, **more)
    except OSError as error:
        return (
            errno.errorcode[error.errno].replace("ENOTSUP", "EOPNOTSUPP")
            if error.errno == errno.EOPNOTSUPP
            else errno.errorcode[error.errno]
        )
    return "ok"


# ---- several at a time


def test_two_blocks_may_end_crosswise(tmp_path):
    first, second = mounted_at(tmp_path / "one"), mounted_at(tmp_path / "two")
    one, two = first.__enter__(), second.__enter__()
    os.mkdir(tmp_path / "one" / "a")
    os.mkdir(tmp_path / "two" / "b")
    first.__exit__(None, None, None)
    assert not os.path.exists(tmp_path / "one") and os.listdir(tmp_path / "two")[-1] == "b" and one.closed
    os.mkdir(tmp_path / "two" / "c")
    assert two.groups() == ["/", "/b", "/c"]
    second.__exit__(None, None, None)
    assert not os.path.exists(tmp_path / "two")


def test_a_block_ends_although_its_hierarchy_cannot_be_closed(monkeypatch):
    block = mounted_at(AT)
    h = block.__enter__()
    with monkeypatch.context() as patched:
        patched.setattr(_library.library, "mk_close", lambda *words: _library.BUSY)
        with pytest.raises(RuntimeError, match="^close: a call of this thread is running$"):
            block.__exit__(None, None, None)
    assert CALLS._mounts == [] and not h.closed
    h.close()


@pytest.mark.parametrize("order", [(0, 1, 2), (1, 0, 2), (1, 2, 0), (2, 0, 1), (0, 2, 1), (2, 1, 0)])
def test_three_blocks_may_end_in_any_order(order, tmp_path):
    blocks = [mounted_at(tmp_path / f"m{number}") for number in range(3)]
    for number, block in enumerate(blocks):
        block.__enter__()
        os.mkdir(tmp_path / f"m{number}" / "x")
    left = {0, 1, 2}
    for number in order:
        blocks[number].__exit__(None, None, None)
        left.remove(number)
        assert {it for it in range(3) if os.path.isdir(tmp_path / f"m{it}" / "x")} == left


def test_blocks_in_threads(tmp_path):
    failures = []

    def use(number):
        at = f"{tmp_path}/t{number}"
        try:
            for round_ in range(60):
                with mounted_at(at) as h:
                    os.mkdir(f"{at}/a")
                    with open(f"{at}/a/pids.max", "w") as file:
                        file.write(str(number))
                    assert h.limit("/a") == number and os.path.isdir(f"{at}/a")
        except BaseException as failure:  # to be raised by the test
            failures.append(failure)

    threads = [threading.Thread(target=use, args=(number,)) for number in range(4)]
    for thread in threads:
        thread.start()
    for thread in threads:
        thread.join(300)
    assert not failures and not any(thread.is_alive() for thread in threads)


@pytest.mark.parametrize("ends", [False, True])
def test_a_block_begins_while_another_begins_or_ends(tmp_path, monkeypatch, ends):
    """In another thread: it waits until all functions are in their places, or are taken away."""
    name = "take_away" if ends else "put"
    real, calls, begun, other = getattr(CALLS._replacement, name), [], threading.Event(), threading.Event()

    def slowly():
        calls.append(name)
        begun.set()
        other.wait(0.3)  # nobody may come meanwhile
        real()

    first, second = mounted_at(tmp_path / "one"), mounted_at(tmp_path / "two")
    if ends:
        first.__enter__()
    with monkeypatch.context() as patched:
        patched.setattr(CALLS._replacement, name, slowly)
        thread = threading.Thread(target=lambda: first.__exit__(None, None, None) if ends else first.__enter__())
        thread.start()
        assert begun.wait(300)
        second.__enter__()
        other.set()
        thread.join(300)
    assert calls == [name] and os.path.isdir(tmp_path / "two") and os.path.isdir(tmp_path / "one") == (not ends)
    for block in [second] if ends else [first, second]:
        block.__exit__(None, None, None)


def test_files_are_closed_while_a_block_ends(hierarchy):
    failures = []

    def close_all(fds):
        try:
            for fd in fds:
                os.close(fd)
        except BaseException as failure:  # to be raised by the test
            failures.append(failure)

    before = sys.getswitchinterval()
    sys.setswitchinterval(1e-6)  # so that one thread runs in the middle of what the other does
    try:
        for _ in range(20):
            with mounted_at(AT, hierarchy):
                fds = [os.open(f"{AT}/cgroup.procs", os.O_RDONLY) for _ in range(400)]
                thread = threading.Thread(target=close_all, args=(fds,))
                thread.start()
            thread.join(300)
    finally:
        sys.setswitchinterval(before)
    assert not failures and not thread.is_alive() and code(os.read, fds[0], 1) == "EBADF"


def test_a_file_is_closed_just_as_a_block_ends(hierarchy, monkeypatch):
    class Closing(dict):
        """Another thread closes a file when the end of a block has listed it."""

        def items(self):
            listed = list(super().items())
            os.close(listed[0][0])
            return listed

    monkeypatch.setattr(CALLS.descriptors, "_opened", Closing())
    with mounted_at(AT, hierarchy):
        fds = [os.open(f"{AT}/cgroup.procs", os.O_RDONLY) for _ in range(2)]
    assert code(os.close, fds[0]) == "EBADF" and code(os.close, fds[1]) == "ok"


def test_a_file_is_opened_just_as_a_group_is_removed(h):
    opened = []
    (_, tree), *_ = CALLS._mounts
    tree._opened.add(lambda: opened.append(os.open(f"{AT}/cgroup.procs", os.O_RDONLY)))  # by another thread
    os.rmdir(f"{AT}/a")
    assert len(opened) == 1
    os.close(opened[0])


def test_files_of_two_hierarchies_are_not_the_same(hierarchy, tmp_path):
    with mounted_at(tmp_path / "one") as one, mounted_at(tmp_path / "two") as two:
        with mounted_at(tmp_path / "again", one), mounted_at(tmp_path / "one" / "inner", hierarchy):
            for h in (one, two):
                h.mkdir("/a")
            one.write("/a", "pids.max", 5)
            for name in (".", "a", "a/pids.max"):
                assert not os.path.samefile(tmp_path / "one" / name, tmp_path / "two" / name)
                assert os.path.samefile(tmp_path / "one" / name, tmp_path / "again" / name)
            assert os.path.ismount(tmp_path / "one" / "inner") and not os.path.ismount(tmp_path / "one" / "a")
        shutil.copyfile(tmp_path / "one" / "a" / "pids.max", tmp_path / "two" / "a" / "pids.max")
        assert two.limit("/a") == 5


def test_one_over_another_and_below_it(hierarchy):
    hierarchy.mkdir("/lower")
    with mounted_at(AT, hierarchy), mounted_at(AT) as upper:
        os.mkdir(f"{AT}/upper")
        assert upper.groups() == ["/", "/upper"] and not os.path.exists(f"{AT}/lower")
        with mounted_at(f"{AT}/upper/deeper") as deeper:
            os.mkdir(f"{AT}/upper/deeper/x")
            assert deeper.groups() == ["/", "/x"] and upper.groups() == ["/", "/upper"]
    with mounted_at(AT, hierarchy):
        assert os.path.isdir(f"{AT}/lower")


def test_a_patch_that_ends_later_leaves_nothing():
    block = mounted_at(AT)
    block.__enter__()
    patch = unittest.mock.patch("os.listdir", wraps=os.listdir)
    mock = patch.__enter__()
    assert os.listdir(AT)
    block.__exit__(None, None, None)
    assert os.listdir is mock and os.listdir("/") and code(os.listdir, f"{AT}/none") == "ENOENT"
    with mounted_at(AT):
        assert "cgroup.procs" in os.listdir(AT)
    patch.__exit__(None, None, None)
    with mounted_at(AT):
        assert "cgroup.procs" in os.listdir(AT)


def test_a_patch_that_comes_again_is_below():
    """First over ours, where it stays when the block ends, and then below."""
    block = mounted_at(AT)
    block.__enter__()
    with unittest.mock.patch("os.listdir", lambda path: ["patched"]) as patched:
        block.__exit__(None, None, None)
    with mounted_at(AT):
        pass
    with unittest.mock.patch("os.listdir", patched), mounted_at(AT):
        assert "cgroup.procs" in os.listdir(AT) and os.listdir("/") == ["patched"]


def test_a_patch_that_comes_again_is_called_by_each_thread():
    """Also while another thread is within it."""
    inside, ends, called = threading.Event(), threading.Event(), []

    def patched(path):
        called.append(path)
        if path == "/first":
            inside.set()
            ends.wait(60)
        return ["patched"]

    block = mounted_at(AT)
    block.__enter__()
    with unittest.mock.patch("os.listdir", lambda path: []):
        block.__exit__(None, None, None)
        with unittest.mock.patch("os.listdir", patched), mounted_at(AT):
            first = threading.Thread(target=os.listdir, args=("/first",))
            first.start()
            assert inside.wait(60)
            told = os.listdir("/second")
            ends.set()
            first.join()
    assert told == ["patched"] and called == ["/first", "/second"]
    with mounted_at(AT):
        pass


@pytest.mark.parametrize("wraps", [True, False])
def test_patches_over_os_stat_in_two_blocks(tmp_path, wraps):
    """The first one is over ours when its block ends, so ours stays below; the second is over the first, or calls nobody."""
    (tmp_path / "f").write_text("real")
    at = tmp_path / "cgroup"  # a place where the machine has nothing, not even a cgroup2
    stack = contextlib.ExitStack()
    with mounted_at(at):
        first = stack.enter_context(unittest.mock.patch("os.stat", wraps=os.stat))
        assert os.stat(at / "cgroup.procs").st_size == 2 and first.call_count == 1
    with mounted_at(at):
        assert os.stat(at / "cgroup.procs").st_size == 2 and os.stat(tmp_path / "f").st_size == 4
    more = {"wraps": os.stat} if wraps else {"return_value": "patched"}
    second = stack.enter_context(unittest.mock.patch("os.stat", **more))
    for _ in range(2):
        with mounted_at(at):
            assert os.stat(at / "cgroup.procs").st_size == 2 and code(os.stat, at / "none") == "ENOENT"
            for told in (os.stat(tmp_path / "f"), os.stat(tmp_path / "f")):
                assert told.st_size == 4 if wraps else told == "patched"
        assert second.called and (os.stat("/") == "patched" or stat.S_ISDIR(os.stat("/").st_mode))
    stack.close()
    assert os.stat(tmp_path / "f").st_size == 4 and code(os.stat, at / "cgroup.procs") == "ENOENT"
    with mounted_at(at):
        assert os.stat(at / "cgroup.procs").st_size == 2
    assert os.stat is REAL_STAT


def test_looking_up_a_path_counts_once_for_faults(h):
    """Names that lead through a group don't count: only the call that the path is for."""
    os.mkdir(f"{AT}/a/b")
    calls = (
        lambda: os.stat(f"{AT}/a/b/.."),
        lambda: os.listdir(f"{AT}/a/../a/b/../../a"),
        lambda: os.unlink(f"{AT}/a/b/../pids.max"),
        lambda: os.rename(f"{AT}/a/pids.max", f"{AT}/none"),
        lambda: os.mkfifo(f"{AT}/a/f"),
    )
    for call in calls:
        h.fail("/a", error=errno.EIO, nth=1)
        group = code(call)
        left = h.clear_faults()
        assert (group, left) in (("EIO", 0), ("EPERM", 1)), (group, left)
        for nth in (2, 3):
            h.fail("/a", error=errno.EIO, nth=nth)
            assert code(call) != "EIO" and h.clear_faults() == 1
    for path in ("none", "none/x", "a/none"):
        h.fail("/a", error=errno.EIO, nth=1)
        assert code(os.stat, f"{AT}/{path}") == "ENOENT" and h.clear_faults() == 1, path


def test_a_descriptor_of_the_older_mount(tmp_path):
    """A name beside it is one in its own mount, whichever is the newest."""
    places = [str(tmp_path / name) for name in ("older", "newer", "newest")]
    with contextlib.ExitStack() as blocks:
        fds = []
        for place in places:
            blocks.enter_context(mounted_at(place)).mkdir(f"/{os.path.basename(place)}")
            fds.append(os.open(place, os.O_RDONLY))
        for place, fd in zip(places, fds):
            own = os.path.basename(place)
            assert os.stat(own, dir_fd=fd).st_ino == os.stat(f"{place}/{own}").st_ino
            os.mkdir("more", dir_fd=fd)
            assert os.path.isdir(f"{place}/more") and os.listdir(fd)[-2:] == sorted((own, "more"))
            os.rmdir("more", dir_fd=fd)
            for other in {"older", "newer", "newest"} - {own}:
                assert code(os.stat, other, dir_fd=fd) == "ENOENT"
            os.close(fd)


def test_a_patch_below_is_used_for_other_paths(tmp_path):
    with unittest.mock.patch("os.listdir", lambda path: ["patched"]), mounted_at(AT):
        assert os.listdir(tmp_path) == ["patched"] and "cgroup.procs" in os.listdir(AT)


# ---- descriptors


def test_a_copy_of_a_descriptor_is_the_same_open_file(h):
    fd = os.open(f"{AT}/a/pids.max", os.O_RDWR)
    copy = os.dup(fd)
    assert os.read(fd, 2) == b"ma" and os.read(copy, 9) == b"x\n" and not os.get_inheritable(copy)
    os.close(fd)
    assert os.write(copy, b"5") == 1 and h.limit("/a") == 5 and os.pread(copy, 9, 0) == b"5\n"
    other = os.open(f"{AT}/a/pids.current", os.O_RDONLY)
    assert os.dup2(copy, other) == other and os.pread(other, 9, 0) == b"5\n" and os.dup2(other, other) == other
    os.close(copy)
    with os.fdopen(other, "r+") as file:
        file.seek(0)
        assert file.read() == "5\n"
    for closed in (fd, copy, other):
        assert code(os.read, closed, 1) == "EBADF" and code(os.dup, closed) == "EBADF"


def test_a_real_descriptor_over_a_served_one_and_the_reverse(h, tmp_path):
    (tmp_path / "f").write_text("real")
    real, served = os.open(tmp_path / "f", os.O_RDONLY), os.open(f"{AT}/a/pids.max", os.O_RDONLY)
    os.dup2(real, served)
    assert os.read(served, 9) == b"real"
    again = os.open(f"{AT}/a/pids.max", os.O_RDONLY)
    os.dup2(again, real, inheritable=False)
    assert os.read(real, 9) == b"max\n" and not os.get_inheritable(real)
    os.closerange(again, again + 1)
    assert code(os.read, again, 1) == "EBADF" and os.pread(real, 1, 0) == b"m"
    for fd in (real, served):
        os.close(fd)


def test_vectors(h):
    fd = os.open(f"{AT}/a/pids.max", os.O_RDWR)
    first, second, third = bytearray(1), bytearray(2), bytearray(b"....")
    assert os.readv(fd, [first, second, third]) == 4 and (first, second, third) == (b"m", b"ax", b"\n...")
    assert os.readv(fd, [first]) == 0
    assert os.preadv(fd, [memoryview(second), third], 1) == 3 and (second, third) == (b"ax", b"\n...")
    assert os.lseek(fd, 0, os.SEEK_CUR) == 4
    assert os.writev(fd, [b"1", b"2\n"]) == 3 and h.limit("/a") == 12 and h.changes() == 2
    os.lseek(fd, 0, os.SEEK_SET)
    assert (
        os.pwritev(fd, [b"3", b"", memoryview(b"4")], 7) == 2
        and h.limit("/a") == 34
        and os.lseek(fd, 0, os.SEEK_CUR) == 0
    )
    assert (
        os.pwrite(fd, b"56", 0) == 2
        and h.limit("/a") == 56
        and os.lseek(fd, 0, os.SEEK_CUR) == 0
        and os.read(fd, 9) == b"56\n"
    )
    assert code(os.writev, fd, [b"x", b"y"]) == "EINVAL" and code(os.preadv, fd, [first], -2) == "EINVAL"
    os.close(fd)
    reading, writing = os.open(f"{AT}/a/pids.max", os.O_RDONLY), os.open(f"{AT}/a/pids.max", os.O_WRONLY)
    assert code(os.writev, reading, [b"1"]) == "EBADF" and code(os.readv, writing, [first]) == "EBADF"
    for fd in (reading, writing):
        os.close(fd)


def test_vectors_of_other_files_are_as_before(h, tmp_path):
    fd = os.open(tmp_path / "f", os.O_RDWR | os.O_CREAT)
    part = bytearray(2)
    assert os.writev(fd, [b"ab", b"c"]) == 3 and os.preadv(fd, [part], 1) == 2 and part == b"bc"
    assert os.pwritev(fd, [b"X"], 0) == 1 and os.pread(fd, 9, 0) == b"Xbc" and os.lseek(fd, 0, os.SEEK_SET) == 0
    assert os.readv(fd, [part]) == 2 and os.pwrite(fd, b"Y", 0) == 1
    no_flag = 1 << 20
    assert code(os.preadv, fd, [part], 0, no_flag) == code(os.pwritev, fd, [b"Z"], 0, no_flag) == "EOPNOTSUPP"
    copy = os.dup(fd)
    assert os.fstat(copy).st_size == 3
    os.closerange(copy, copy + 1)
    os.ftruncate(fd, 1)
    assert os.fstat(fd).st_size == 1
    os.close(fd)


def test_files_share_a_descriptor_or_not(h):
    fd = os.open(f"{AT}/a/pids.max", os.O_RDWR)
    with open(fd, "rb", buffering=0, closefd=False) as file:
        assert file.read(2) == b"ma" and file.fileno() == fd and file.name == fd
    assert os.read(fd, 9) == b"x\n"
    copy = os.dup(fd)
    with open(copy, opener=lambda path, flags: 1 / 0) as file:  # which opens only what has a path
        pass
    assert code(os.read, copy, 1) == "EBADF" and os.pread(fd, 9, 0) == b"max\n"
    os.close(fd)
    with open(f"{AT}/a/pids.max") as file:
        assert (
            os.fstat(file.fileno()).st_size == 4
            and os.pread(file.fileno(), 3, 0) == b"max"
            and file.name == f"{AT}/a/pids.max"
        )
    with open(f"{AT}/a/pids.max", opener=lambda path, flags: os.open(path, flags, 0o600)) as file:
        assert file.read() == "max\n"
    with open(f"{AT}/a/pids.max", "w", opener=os.open) as file:
        file.write("8")
    assert h.limit("/a") == 8
    with open(f"{AT}/a/pids.max", "rb", 0, opener=os.open) as file:
        assert isinstance(file, io.RawIOBase)
    with open(f"{AT}/a/pids.max", "r", 1, "ascii", "ignore", "", opener=os.open) as file:
        assert (file.line_buffering, file.encoding, file.errors, file.read()) == (True, "ascii", "ignore", "8\n")


@pytest.mark.parametrize(
    "mode, more",
    [
        ("q", {}),
        ("", {}),
        ("rw", {}),
        ("rbt", {}),
        ("rr", {}),
        ("rb", {"encoding": "utf-8"}),
        ("r", {"buffering": 0}),
        ("r", {"closefd": False}),
    ],
)
def test_a_wrong_mode_is_a_value_error_as_of_a_real_file(h, tmp_path, mode, more):
    (tmp_path / "f").write_text("")
    for path in (f"{AT}/a/pids.max", tmp_path / "f"):
        with pytest.raises(ValueError):
            open(path, mode, **more)


def test_all_fields_of_a_stat(h, tmp_path):
    for path in (AT, f"{AT}/a", f"{AT}/a/pids.max", f"{AT}/a/cgroup.kill"):
        it, real = os.stat(path), os.stat(tmp_path)
        names = [name for name in dir(real) if name.startswith("st_")]
        assert all(isinstance(getattr(it, name), type(getattr(real, name))) for name in names)
        assert it.st_mtime_ns // 10**9 == int(it.st_mtime) == it[8] and it.st_blocks == 0 and it.st_blksize == 4096
        assert (it.st_atime_ns, it.st_ctime_ns) == (it.st_mtime_ns,) * 2


# ---- listings


def test_scandir_and_listdir_by_path_bytes_and_descriptor(h):
    os.mkdir(f"{AT}/a/b")
    fd = os.open(f"{AT}/a", os.O_RDONLY | os.O_DIRECTORY)
    names = os.listdir(f"{AT}/a")
    assert os.listdir(fd) == names and os.listdir(os.fsencode(f"{AT}/a")) == list(map(os.fsencode, names))
    for given, above in ((fd, ""), (f"{AT}/a", f"{AT}/a/"), (pathlib.Path(AT, "a"), f"{AT}/a/")):
        with os.scandir(given) as entries:
            found = {entry.name: entry for entry in entries}
        assert (
            list(found) == names
            and found["b"].path == f"{above}b"
            and found["b"].is_dir()
            and found["pids.max"].is_file()
        )
        assert (
            found["pids.max"].stat().st_size == 4
            and os.fspath(found["b"]) == f"{above}b"
            and found["b"].inode() == os.stat(f"{AT}/a/b").st_ino
        )
    with os.scandir(os.fsencode(f"{AT}/a")) as entries:
        assert os.fsencode(f"{AT}/a/b") in [entry.path for entry in entries]
    with os.scandir(AT) as entries:
        for entry in entries:
            assert entry.stat() == os.stat(entry.path) == os.stat(f"{AT}/{entry.name}"), entry.name
    assert [it[2][-1] for it in os.fwalk(f"{AT}/a/b")] == [os.listdir(f"{AT}/a/b")[-1]]
    os.close(fd)


GLOBBING = """
import glob, os, pathlib, sys
from makhloeum import mounted_at

def bound():
    return [value for kind in vars(glob).values() if isinstance(kind, type) for value in vars(kind).values()]

before = bound()
with mounted_at("/sys/fs/cgroup") as h:
    os.makedirs("/sys/fs/cgroup/a/b")
    top = pathlib.Path("/sys/fs/cgroup")
    assert sorted(map(str, top.rglob("pids.max"))) == ["/sys/fs/cgroup/a/b/pids.max", "/sys/fs/cgroup/a/pids.max"], list(top.rglob("*"))
    assert [str(path) for path in top.glob("*/b")] == ["/sys/fs/cgroup/a/b"] and len(list(top.glob("a/*.procs"))) == 1
    assert sorted(path.name for path in top.iterdir() if path.is_dir()) == ["a"]
    assert [str(it[0]) for it in os.walk(top)] == ["/sys/fs/cgroup", "/sys/fs/cgroup/a", "/sys/fs/cgroup/a/b"]
    if hasattr(top, "walk"):
        assert [str(it[0]) for it in top.walk()] == ["/sys/fs/cgroup", "/sys/fs/cgroup/a", "/sys/fs/cgroup/a/b"]
assert not list(pathlib.Path("/sys/fs/cgroup").glob("a/b/pids.max")) and all(now is was for now, was in zip(bound(), before))
"""


@pytest.mark.parametrize("version", ["3.11", "3.12", "3.13", "3.14"])
def test_pathlib_of_each_python_finds_files(version):
    """What pathlib calls differs; where an interpreter isn't at hand, the test above has the calls of os that it makes."""
    python = shutil.which(f"python{version}")
    words = dict(os.environ, PYTHONPATH=str(pathlib.Path(__file__).parents[1]), PYENV_VERSION="")
    root = os.environ.get("PYENV_ROOT") or os.path.expanduser("~/.pyenv")
    words["PYENV_VERSION"] = next(map(os.path.basename, glob.glob(f"{root}/versions/{version}.*")), "system")
    if python is None or subprocess.run([python, "-c", ""], env=words, capture_output=True).returncode != 0:
        pytest.skip(f"there is no Python {version}")
    ran = subprocess.run([python, "-c", GLOBBING], env=words, capture_output=True, text=True)
    assert ran.returncode == 0, ran.stderr


# ---- what isn't supported raises


def test_real_files_are_not_moved_into_a_mount(h, tmp_path):
    (tmp_path / "f").write_text("real")
    for call in (os.rename, os.replace, os.link):
        assert (
            code(call, tmp_path / "f", f"{AT}/a/f") == "EXDEV"
            and code(call, f"{AT}/a/pids.max", tmp_path / "g") == "EXDEV"
        )
        # as in the kernel, the first path is looked at first
        assert (
            code(call, tmp_path / "none" / "f", f"{AT}/none/f")
            == code(call, tmp_path / "f", f"{AT}/none/f")
            == "ENOENT"
        )
        assert code(call, f"{AT}/none/f", tmp_path / "none" / "g") == "ENOENT"
        # and both parents before it is seen that they are of two file systems
        assert (
            code(call, tmp_path / "none" / "f", f"{AT}/a/f")
            == code(call, f"{AT}/a/pids.max", tmp_path / "none" / "g")
            == "ENOENT"
        )
        assert code(call, tmp_path / "none", f"{AT}/a/f") == ("ENOENT" if call is os.link else "EXDEV")
    # the text of a link is looked up only if it is a whole path
    os.symlink(f"{AT}/a"[1:], tmp_path / "text")
    os.unlink(tmp_path / "text")
    assert (
        code(os.symlink, tmp_path / "f", f"{AT}/a/f") == code(os.symlink, f"{AT}/a/pids.max", tmp_path / "g") == "EPERM"
    )
    assert os.listdir(tmp_path) == ["f"] and (tmp_path / "f").read_text() == "real"


def test_arguments_may_have_their_names(h, tmp_path):
    (tmp_path / "f").write_text("real")
    for call in (os.rename, os.replace, os.link, os.symlink):
        told = "EPERM" if call is os.symlink else "EXDEV"
        assert code(call, src=tmp_path / "f", dst=f"{AT}/a/f") == code(call, tmp_path / "f", dst=f"{AT}/a/f") == told
        assert code(call, src=f"{AT}/a/pids.max", dst=tmp_path / "g") == told
    assert code(os.unlink, path=f"{AT}/a/pids.max") == "EPERM" and code(os.mkfifo, path=f"{AT}/a/f") == "EPERM"
    assert (
        code(os.mknod, path=f"{AT}/a/f") == "EACCES" and code(os.mknod, path=f"{AT}/a/f", mode=stat.S_IFIFO) == "EPERM"
    )
    assert (
        code(os.statvfs, path=AT)
        == code(os.getxattr, path=AT, attribute="user.x")
        == code(os.chdir, path=AT)
        == "EOPNOTSUPP"
    )
    assert os.chmod(path=f"{AT}/a", mode=0o700) is None and code(os.chmod, path=f"{AT}/none", mode=0o700) == "ENOENT"
    assert os.listdir(tmp_path) == ["f"]


def test_no_other_kind_of_file_is_made(h):
    for call, told in ((os.mkfifo, "EPERM"), (os.mknod, "EACCES")):
        assert [code(call, f"{AT}/{path}") for path in ("a/f", "f", "a/pids.max", "a", "none/f")] == [
            told,
            told,
            "EEXIST",
            "EEXIST",
            "ENOENT",
        ]


def test_a_seek_from_elsewhere_is_refused(h):
    fd = os.open(f"{AT}/a/pids.max", os.O_RDONLY)
    assert code(os.lseek, fd, 0, -1) == code(os.lseek, fd, 0, 9) == code(os.lseek, fd, -1, os.SEEK_SET) == "EINVAL"
    assert os.read(fd, 9) == b"max\n"
    os.close(fd)


def test_what_reaches_the_real_functions_raises(h, tmp_path):
    for call, arguments in (
        (early_listdir, (f"{AT}/a",)),
        (early_open, (f"{AT}/a/pids.max", os.O_RDONLY)),
        (io.FileIO, (f"{AT}/a/pids.max",)),
        (io.FileIO, (os.fsencode(f"{AT}/../cgroup/a/pids.max"),)),
    ):
        with pytest.raises(
            OSError, match="mounted_at serves open and the functions of os .* `makhloeum run`"
        ) as failed:
            call(*arguments)
        assert failed.value.errno == errno.EOPNOTSUPP
    with pytest.raises(OSError, match="makhloeum run"):
        subprocess.run([sys.executable, "-c", ""], cwd=f"{AT}/a")
    assert early_listdir(tmp_path) == []
    with io.FileIO("/dev/null") as file:
        assert file.read() == b""


def test_inotify_raises(h):
    for name in ("inotify_init1", "inotify_add_watch"):
        with pytest.raises(OSError, match=f"{name}: mounted_at has no inotify: .*`makhloeum run`"):
            getattr(ctypes.CDLL(None), name)


def test_after_the_block_there_is_inotify():
    assert ctypes.CDLL(None).inotify_add_watch


def test_calls_on_a_descriptor_that_are_not_served_raise(h):
    fd, group = os.open(f"{AT}/a/pids.max", os.O_RDWR), os.open(f"{AT}/a", os.O_RDONLY)
    real = os.open("/dev/null", os.O_RDWR)
    for it in (fd, group):
        for call in (
            lambda: os.sendfile(real, it, 0, 4),
            lambda: os.fchdir(it),
            lambda: os.fstatvfs(it),
            lambda: os.lockf(it, os.F_LOCK, 0),
            lambda: os.posix_fallocate(it, 0, 1),
            lambda: os.copy_file_range(it, real, 1),
            lambda: os.fpathconf(it, "PC_NAME_MAX"),
            lambda: os.listxattr(it),
        ):
            with pytest.raises(OSError):
                call()
    assert code(os.pathconf, f"{AT}/a", "PC_NAME_MAX") == code(os.statvfs, AT) == code(os.chdir, AT) == "EOPNOTSUPP"
    for it in (fd, group):
        assert code(os.fchdir, it) == code(os.fstatvfs, it) == code(os.fpathconf, it, "PC_NAME_MAX") == "EOPNOTSUPP"
    assert (
        code(os.open, f"{AT}/a", os.O_TMPFILE | os.O_RDWR) == "EOPNOTSUPP"
        and os.fchmod(fd, 0o600) is None
        and os.ftruncate(fd, 0) is None
    )
    assert code(os.open, "x", os.O_RDONLY, dir_fd=fd) == "ENOTDIR" and code(os.readv, group, [bytearray(1)]) == "EISDIR"
    ran = subprocess.run(
        [sys.executable, "-c", f"import os\nos.read({fd}, 9)"], pass_fds=[fd], capture_output=True, text=True
    )
    assert ran.returncode == 1 and "Bad file descriptor" in ran.stderr
    for it in (fd, group, real):
        os.close(it)


def test_after_the_block_a_descriptor_reads_nothing(hierarchy):
    with mounted_at(AT, hierarchy):
        fd, top = os.open(f"{AT}/cgroup.procs", os.O_RDONLY), os.open(AT, os.O_RDONLY)
        file = open(f"{AT}/cgroup.procs")
    assert code(os.read, fd, 9) == "EBADF" and code(os.listdir, top) == "ENOTDIR"
    assert file.read() == "1\n"  # the hierarchy is open still
    file.close()
    os.close(fd)
    os.close(top)
    with mounted_at("/elsewhere"):
        with mounted_at(AT, hierarchy):
            fd = os.open(f"{AT}/cgroup.procs", os.O_RDONLY)
        assert code(os.read, fd, 9) == "EBADF", "also while another block goes on"
        os.close(fd)


def test_a_removed_group_ends_its_own_files_alone(h):
    os.mkdir(f"{AT}/ab")
    os.makedirs(f"{AT}/a/b")
    with open(f"{AT}/ab/pids.max") as near, open(f"{AT}/a/b/pids.max") as below, open(f"{AT}/a/pids.max") as gone:
        os.rmdir(f"{AT}/a/b")
        os.rmdir(f"{AT}/a")
        os.mkdir(f"{AT}/a")
        assert near.read() == "max\n" and code(below.read) == "ENODEV" and code(gone.read) == "ENODEV"


def test_a_file_of_a_removed_group_is_not_that_of_a_new_one(h):
    fd = os.open(f"{AT}/a/pids.max", os.O_RDWR)
    os.rmdir(f"{AT}/a")
    os.mkdir(f"{AT}/a")
    assert code(os.write, fd, b"5") == code(os.read, fd, 9) == "ENODEV" and h.limit("/a") is None
    os.close(fd)


def test_a_write_to_a_group_that_was_removed_by_a_call(h):
    """It is told by the write alone, and a new group is another one."""
    fd, other = (os.open(f"{AT}/a/pids.max", os.O_RDWR) for _ in range(2))
    h.rmdir("/a")
    assert code(os.write, fd, b"5") == "ENODEV"
    h.mkdir("/a")
    assert code(os.write, fd, b"5") == code(os.pread, fd, 9, 0) == "ENODEV" and h.limit("/a") is None
    for it in (fd, other):
        os.close(it)


def test_a_write_to_a_closed_hierarchy(hierarchy):
    hierarchy.mkdir("/a")
    with mounted_at(AT, hierarchy):
        fd = os.open(f"{AT}/a/pids.max", os.O_WRONLY)
        hierarchy.close()
        with pytest.raises(ValueError, match=f"^write {AT}/a/pids.max: the hierarchy is closed$"):
            os.write(fd, b"5")
        os.close(fd)


def test_os_tells_of_the_served_functions_what_it_tells_of_the_real_ones(h):
    """Which take a descriptor, a name beside one, and the like."""
    sets = (os.supports_fd, os.supports_dir_fd, os.supports_effective_ids, os.supports_follow_symlinks)
    for names, before in zip(sets, SETS):
        for (module, name), was in zip(REPLACED, BEFORE):
            assert (getattr(module, name) in names) == (was in before), name


def test_a_served_function_is_copied_and_pickled_by_its_name(h):
    for (module, name), real in zip(REPLACED, BEFORE):
        served = getattr(module, name)
        assert served is not real and served.__name__ == real.__name__ and served.__doc__ == real.__doc__, name
        assert copy.deepcopy({name: served}) == {name: served} and pickle.loads(pickle.dumps(served)) is served, name
    assert inspect.signature(os.stat) == inspect.signature(REAL_STAT) and shutil.rmtree.avoids_symlink_attacks
    told = []
    shutil.rmtree(f"{AT}/a", onerror=lambda function, path, failure: told.append(function.__name__))
    assert set(told) == {"unlink"}


def test_a_served_function_of_a_pool(h, tmp_path):
    with multiprocessing.get_context("fork").Pool(1) as pool:
        assert pool.map(os.listdir, [tmp_path, f"{AT}/a"]) == [[], os.listdir(f"{AT}/a")]


@pytest.mark.parametrize("name", ["pids.max", "cgroup.procs", "cgroup.freeze", "cgroup.kill"])
def test_what_is_appended_begins_at_the_end(h, name):
    h.write("/a", "cgroup.procs", 1)
    for pid in range(2, 40):
        h.fork(1, pid)
    path, value = f"{AT}/a/{name}", b"0" if name == "cgroup.freeze" else b"1"
    size = os.stat(path).st_size
    with open(path, "a+b" if name != "cgroup.kill" else "ab") as file:
        assert file.tell() == size and (name == "cgroup.kill" or file.read() == b"")
    fd = os.open(path, os.O_WRONLY | os.O_APPEND)
    assert os.lseek(fd, 0, os.SEEK_CUR) == 0 and os.write(fd, value) == 1
    assert os.lseek(fd, 0, os.SEEK_CUR) == size + 1
    with pytest.raises(OSError):
        os.write(fd, b"x")
    assert os.lseek(fd, 0, os.SEEK_CUR) == size + 1
    os.close(fd)


def test_an_open_to_append_counts_once_for_faults(h):
    h.fail("/a", error=errno.EIO, nth=2)
    with open(f"{AT}/a/pids.max", "a+") as file:
        assert file.tell() == 4 and code(os.read, file.fileno(), 9) == "EIO"


def test_a_buffered_line_is_a_write(h):
    with open(f"{AT}/a/pids.max", "w", buffering=1) as file:
        file.write("5\n")
        assert h.limit("/a") == 5
        file.write("7")
        assert h.limit("/a") == 5
    assert h.limit("/a") == 7


def test_a_text_is_written_with_the_words_that_are_given(h):
    with open(f"{AT}/a/pids.max", "w", encoding="ascii", errors="ignore", newline="\r\n") as file:
        assert (file.encoding, file.errors, file.write("\xe45\n")) == ("ascii", "ignore", 3)
        file.flush()
        assert os.lseek(file.fileno(), 0, os.SEEK_CUR) == 3, "a digit, and the two bytes that end a line"
    assert h.limit("/a") == 5


@pytest.mark.parametrize("mode, buffering", [("r", -1), ("w", -1), ("rb", -1), ("wb", 0), ("r+b", -1)])
def test_a_file_that_nobody_closes_is_warned_of(h, tmp_path, mode, buffering):
    (tmp_path / "f").write_text("max\n")
    told = []
    for path in (f"{AT}/a/pids.max", str(tmp_path / "f")):
        with warnings.catch_warnings(record=True) as warned:
            warnings.simplefilter("always")
            open(path, mode, buffering)
            gc.collect()
            file = open(path, mode, buffering)
            file.close()
            del file
            fd = os.open(path, os.O_RDWR)
            open(fd, mode, buffering, closefd=False)
            os.close(fd)
            gc.collect()
        told.append(
            [(it.category, str(it.message).startswith("unclosed file <"), path in str(it.message)) for it in warned]
        )
        assert [it.filename for it in warned] == [__file__]
    assert told[0] == told[1] == [(ResourceWarning, True, True)]


def test_what_could_not_be_opened_is_closed_in_silence(h):
    fd = os.open(f"{AT}/a", os.O_RDONLY)
    with pytest.raises(IsADirectoryError):
        open(fd)
    os.close(fd)
    _descriptors.Shared.__new__(_descriptors.Shared).close()  # as the interpreter does with what __init__ left


@pytest.mark.parametrize("buffering", [-1, 0])
def test_a_file_is_closed_where_the_warning_is_an_error(h, monkeypatch, buffering):
    told, before = [], os.listdir("/proc/self/fd")
    monkeypatch.setattr(sys, "unraisablehook", lambda failure: told.append(failure.exc_type))
    with warnings.catch_warnings():
        warnings.simplefilter("error")
        open(f"{AT}/a/pids.max", "rb", buffering)
        gc.collect()
    assert told == [ResourceWarning] and os.listdir("/proc/self/fd") == before


def test_a_buffer_has_the_size_that_is_given(h):
    with open(f"{AT}/a/pids.max", "wb", buffering=2) as file:
        file.write(b"1")
        file.write(b"23")
        assert h.limit("/a") in (1, 23)  # by the Python
    assert h.limit("/a") == 23
    with open(f"{AT}/a/pids.max", "rb", buffering=1 << 20) as file:
        assert file.read1() == b"23\n"
    for wrong, kind in (("x", TypeError), (1.0, TypeError), (1 << 70, OverflowError)):
        for mode in ("r", "wb"):
            with pytest.raises(kind):
                open(f"{AT}/a/pids.max", mode, wrong)


def test_a_text_has_the_encoding_of_a_real_file(h, tmp_path):
    with open(tmp_path / "f", "w") as real, open(f"{AT}/a/pids.max", "w") as file:
        assert (file.encoding, file.errors, repr(file.newlines)) == (real.encoding, real.errors, repr(real.newlines))


def test_a_hierarchy_is_mounted_only_once_it_is_one():
    with pytest.raises(ValueError):
        mounted_at(AT, Hierarchy.__new__(Hierarchy), pid=-1).__enter__()
