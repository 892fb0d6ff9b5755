"""What mounted_at serves and what not, by the spelling of a path, by the function that was imported before, and by what a file object
tells of itself."""

import errno
import io
import os
import pathlib
import re
import stat
import sys

import pytest

from makhloeum import _audit, mounted_at

AT = "/sys/fs/cgroup"
# bound before anything is mounted, as by `from os import ..` in a client
EARLY = {
    name: getattr(os, name)
    for name in (
        *("open", "listdir", "scandir", "mkdir", "rmdir", "remove", "unlink", "truncate", "chmod", "chown", "utime"),
        *("chdir", "rename", "replace", "link", "symlink"),
    )
}
EARLY_OPEN = open


@pytest.fixture
def h(at_cgroup):
    return at_cgroup


# ---- spellings of a path

SPELLINGS = [
    f"{AT}/a",
    f"{AT}/a/",
    f"{AT}//a",
    "//sys/fs/cgroup/a",
    "///sys/fs//cgroup/a",
    f"{AT}/./a/.",
    f"{AT}/b/../a",
    f"{AT}/b/.//../a",
    "/sys/fs/../fs/cgroup/a",
    "/proc/../sys/fs/cgroup/a",
]


class Named:
    """A path of a type of its own."""

    def __init__(self, path):
        self.path = path

    def __fspath__(self):
        return self.path


KINDS = [str, os.fsencode, pathlib.Path, Named]


@pytest.mark.parametrize("spelling", SPELLINGS)
@pytest.mark.parametrize("kind", KINDS)
def test_a_path_may_be_spelled_in_each_way(h, spelling, kind):
    path = kind(spelling)
    os.mkdir(f"{AT}/b")
    assert stat.S_ISDIR(os.stat(path).st_mode) and os.access(path, os.R_OK)
    assert [os.fsdecode(name) for name in os.listdir(path)] == os.listdir(f"{AT}/a")
    with open(os.path.join(os.fspath(path), *([b"pids.max"] if kind is os.fsencode else ["pids.max"]))) as file:
        assert file.read() == "max\n"


@pytest.mark.parametrize("other", ["/sys/fs", "/sys/fs/cgroup2", "/sys/fs/cgrou", "/", "/sys/fs/cgroup/..", "cgroup"])
def test_what_is_elsewhere_is_real(other):
    def found():
        try:
            return os.stat(other).st_ino
        except OSError as failure:
            return failure.errno

    before = found()
    with mounted_at(AT):
        assert found() == before


@pytest.mark.parametrize(
    "place", [f"{AT}/", "//sys/fs/cgroup", b"/sys/fs/cgroup", pathlib.Path(AT), "/sys/fs/x/../cgroup/."]
)
def test_a_place_may_be_spelled_in_each_way(place):
    with mounted_at(place) as h:
        os.mkdir(f"{AT}/a")
        assert h.groups() == ["/", "/a"] and os.path.isdir(AT)


@pytest.mark.parametrize("place", ["/", "//", "/..", "/sys/.."])
def test_the_root_is_no_place(place):
    with pytest.raises(ValueError, match="can't be mounted at /"):
        mounted_at(place).__enter__()


# ---- functions that were bound before


@pytest.mark.parametrize("name", EARLY)
def test_an_early_name_is_refused_below_the_place_alone(h, tmp_path, name):
    """It would read or write the machine's own files."""
    (tmp_path / "f").write_text("real")
    more = {
        "open": (os.O_RDONLY,),
        "truncate": (0,),
        "chmod": (0o600,),
        "chown": (-1, -1),
    }.get(name, ())
    two = name in ("rename", "replace", "link", "symlink")
    below = f"{AT}/a/f"
    tries = [(below, *more)] if not two else [(below, f"{tmp_path}/g"), (f"{tmp_path}/f", below)]
    for words in [*tries, *(tuple(os.fsencode(it) if isinstance(it, str) else it for it in words) for words in tries)]:
        with pytest.raises(OSError, match=r"mounted_at serves open and .* `makhloeum run`") as refused:
            EARLY[name](*words)
        assert refused.value.errno == errno.EOPNOTSUPP and os.fsdecode(refused.value.filename) == below
        assert re.match(r"(open|os\.\w+): mounted_at ", refused.value.strerror)
    assert os.listdir(tmp_path) == ["f"] and (tmp_path / "f").read_text() == "real"
    # elsewhere it is as before
    assert EARLY["listdir"](tmp_path) == ["f"]
    EARLY["chmod"](tmp_path / "f", 0o600)
    EARLY["mkdir"](tmp_path / "d")
    EARLY["rename"](tmp_path / "f", tmp_path / "d" / "f")
    EARLY["remove"](tmp_path / "d" / "f")
    EARLY["rmdir"](tmp_path / "d")


def test_an_early_name_works_again_after_the_block(hierarchy, tmp_path):
    place = tmp_path / "place"
    place.mkdir()
    with mounted_at(place, hierarchy):
        with pytest.raises(OSError, match="makhloeum run"):
            EARLY["mkdir"](f"{place}/a")
    EARLY["mkdir"](f"{place}/a")
    assert os.listdir(place) == ["a"]


def test_one_hook_is_enough_for_all_blocks(hierarchy, monkeypatch):
    """It can't be removed, and each call of the interpreter that it tells of takes time."""
    hooks = []
    monkeypatch.setattr(sys, "addaudithook", hooks.append)
    monkeypatch.setattr(_audit, "_added", False)
    for _ in range(3):
        with mounted_at(AT, hierarchy):
            pass
    assert hooks == [_audit._hook]


# ---- what a file and a file object tell


def test_each_file_has_an_inode_of_its_own(h):
    os.makedirs(f"{AT}/a/b")
    paths = [AT, f"{AT}/a", f"{AT}/a/b"]
    paths += [f"{group}/{name}" for group in list(paths) for name in os.listdir(group) if "." in name]
    stats = {path: os.stat(path) for path in paths}
    assert len(paths) > 30 and len({it.st_ino for it in stats.values()}) == len(paths)
    assert len({it.st_dev for it in stats.values()}) == 1 and stats[AT].st_ino == 1
    assert stats[AT].st_dev != os.stat("/").st_dev and os.stat(f"{AT}/a").st_ino == stats[f"{AT}/a"].st_ino
    assert {(it.st_uid, it.st_gid) for it in stats.values()} == {(os.getuid(), os.getgid())}
    assert [stats[path].st_nlink for path in paths[:3]] == [3, 3, 2]
    assert {stats[path].st_nlink for path in paths[3:]} == {1} and min(it.st_ino for it in stats.values()) == 1
    assert os.path.samefile(f"{AT}/a", f"{AT}/a/b/..") and not os.path.samefile(f"{AT}/a", f"{AT}/a/b")


@pytest.mark.parametrize("mode", ["r", "w", "a", "r+", "w+", "rt", "rb", "wb", "ab", "r+b", "rb+"])
@pytest.mark.parametrize("buffering", [-1, 0])
def test_a_file_object_tells_what_that_of_a_real_file_does(h, tmp_path, mode, buffering):
    if buffering == 0 and "b" not in mode:
        return
    (tmp_path / "f").write_text("max\n")
    with EARLY_OPEN(tmp_path / "f", mode, buffering) as real, open(f"{AT}/a/pids.max", mode, buffering) as file:
        for name in ("readable", "writable", "seekable", "isatty"):
            assert getattr(file, name)() == getattr(real, name)(), name
        assert file.mode.replace("a", "w") == real.mode.replace("a", "w") and not file.closed
        assert file.name == f"{AT}/a/pids.max" and file.fileno() > 2
        if isinstance(real, io.TextIOWrapper):
            assert isinstance(file, io.TextIOWrapper) and file.line_buffering == real.line_buffering
            assert isinstance(file.buffer, real.buffer.__class__)
        elif buffering:
            assert isinstance(file, real.__class__)
        assert repr(file)
    assert file.closed and real.closed


def test_entries_of_a_listing_are_as_those_of_a_real_one(h, tmp_path):
    os.mkdir(f"{AT}/a/b")
    (tmp_path / "b").mkdir()
    (tmp_path / "pids.max").write_text("")
    listed = {}
    for folder in (f"{AT}/a", tmp_path):
        with os.scandir(folder) as entries:
            for entry in entries:
                if entry.name in ("b", "pids.max"):
                    told = [entry.is_dir(), entry.is_file(), entry.is_symlink()]
                    told += [entry.is_dir(follow_symlinks=False), entry.is_file(follow_symlinks=False), repr(entry)]
                    told.append(stat.S_IFMT(entry.stat(follow_symlinks=False).st_mode))
                    listed.setdefault(entry.name, []).append(told)
    for name, (served, real) in listed.items():
        assert served == real, name
    assert len(listed) == 2
    scan = os.scandir(f"{AT}/a")
    first = next(scan)
    scan.close()
    assert first.name == os.listdir(f"{AT}/a")[0] and list(scan) == []
    if sys.version_info >= (3, 12):
        assert not first.is_junction()


def test_an_entry_keeps_what_it_knows(h, tmp_path):
    os.mkdir(f"{AT}/a/b")
    (tmp_path / "b").mkdir()
    (tmp_path / "pids.max").write_text("")
    for folder in (f"{AT}/a", str(tmp_path)):
        with os.scandir(folder) as listed:
            entries = {entry.name: entry for entry in listed}
        group, file, number = entries["b"], entries["pids.max"], os.stat(f"{folder}/pids.max").st_ino
        before = group.stat()
        os.rmdir(f"{folder}/b")
        os.rmdir(folder) if folder != str(tmp_path) else os.unlink(file)
        assert group.stat() == before and group.inode() == before.st_ino and file.inode() == number
        assert group.is_dir() and file.is_file()
        with pytest.raises(FileNotFoundError):
            file.stat()


def test_owners_and_times_are_those_of_the_engine(h):
    before = os.stat(f"{AT}/a")
    os.chown(f"{AT}/a", 1, 1)
    os.utime(f"{AT}/a", (1, 2))
    assert os.stat(f"{AT}/a") == before
