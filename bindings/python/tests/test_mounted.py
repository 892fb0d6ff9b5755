"""A hierarchy in the place of a cgroup directory. What is expected of files and values is what the mount's own tests expect."""

import ast
import errno
import glob
import io
import os
import pathlib
import shutil
import stat
import subprocess
import sys
import threading

import pytest

from makhloeum import Hierarchy, mounted_at
from makhloeum._table import DEPTH_MAX, NAME_MAX

AT = "/sys/fs/cgroup"
THE_MOUNT = pathlib.Path(__file__).parents[3] / "mount" / "tests" / "files" / "files.py"
REPLACED = [
    (io, "open"),
    *(
        (os, name)
        for name in (
            "open",
            "read",
            "write",
            "close",
            "stat",
            "lstat",
            "listdir",
            "scandir",
            "mkdir",
            "rmdir",
            "rename",
            "chmod",
        )
    ),
]


def expectations():
    """The tables of the mount's test: its files, their first texts, and what is written with which errno."""
    tables = {}
    for node in ast.parse(THE_MOUNT.read_text(encoding="utf-8")).body:
        if isinstance(node, ast.Assign) and node.targets[0].id in (
            "ROOT",
            "GROUP",
            "NUMBERS",
            "CONSTANTS",
            "FRESH",
            "VALUES",
        ):
            tables[node.targets[0].id] = eval(
                compile(ast.Expression(node.value), "files.py", "eval"), {"sorted": sorted}, tables
            )  # noqa: S307
    return tables


OF_THE_MOUNT = expectations()


@pytest.fixture
def h():
    with mounted_at(AT) as hierarchy:
        yield hierarchy


@pytest.fixture
def as_user(monkeypatch):
    monkeypatch.setattr(os, "geteuid", lambda: 1000)


def code(call, *arguments, **more):
    """The name of the errno with which a call fails, or "ok"."""
    try:
        call(*arguments, **more)
    except OSError as error:
        return "EOPNOTSUPP" if error.errno == errno.EOPNOTSUPP else errno.errorcode[error.errno]
    return "ok"


def write(path, data):
    with open(path, "wb", buffering=0) as file:
        file.write(data)


def read(path):
    with open(path, "rb") as file:
        return file.read()


def at(*names):
    return "/".join((AT, *names))


# ---- as the mount


def test_the_files_are_those_of_the_mount(h):
    os.mkdir(at("a"))
    constants = OF_THE_MOUNT["CONSTANTS"]
    on_root = [name for name in constants if name not in ("cgroup.type", "cgroup.freeze")]
    assert sorted(os.listdir(AT)) == sorted([*OF_THE_MOUNT["ROOT"], *on_root, "cgroup.threads", "a"])
    assert sorted(os.listdir(at("a"))) == sorted([*OF_THE_MOUNT["GROUP"], *constants, "cgroup.threads"])
    for name, text in {**OF_THE_MOUNT["FRESH"], **constants}.items():
        assert read(at("a", name)) == text, name
        assert os.stat(at("a", name)).st_size == len(text)
    modes = {name: stat.S_IMODE(os.stat(at("a", name)).st_mode) for name in ("pids.max", "pids.current", "cgroup.kill")}
    assert modes == {"pids.max": 0o644, "pids.current": 0o444, "cgroup.kill": 0o200}
    assert (
        read(at("cgroup.procs")) == b"1\n"
        and code(read, at("pids.max")) == "ENOENT"
        and code(read, at("cgroup.type")) == "ENOENT"
    )
    assert os.stat(AT).st_nlink == 3 and stat.S_ISDIR(os.stat(AT).st_mode)


@pytest.mark.parametrize("number, row", enumerate(OF_THE_MOUNT["VALUES"]))
def test_a_value_is_read_as_by_the_mount(h, number, row):
    os.mkdir(at("v"))
    for name, value, error, text in OF_THE_MOUNT["VALUES"][: number + 1]:
        told = code(write, at("v", name), value)
    assert told == error
    if text is not None:
        assert read(at("v", name)) == text


def test_the_errno_of_groups_are_those_of_the_mount(h, as_user):
    steps = [
        ("ok", os.mkdir, at("a")),
        ("EEXIST", os.mkdir, at("a")),
        ("ENOENT", os.mkdir, at("n", "b")),
        ("EEXIST", os.mkdir, at("a", "pids.max")),
        ("EINVAL", os.mkdir, at("pids.x")),
        ("EINVAL", os.mkdir, at("a b")),
        ("EINVAL", os.mkdir, at("a\nb")),
        ("ENAMETOOLONG", os.mkdir, at("x" * (NAME_MAX + 1))),
        ("ok", os.mkdir, at("x" * NAME_MAX)),
        ("ok", os.makedirs, at(*["d"] * DEPTH_MAX)),
        ("EAGAIN", os.mkdir, at(*["d"] * (DEPTH_MAX + 1))),
        ("ok", write, at("a", "cgroup.max.depth"), b"1\n"),
        ("ok", os.mkdir, at("a", "b")),
        ("EAGAIN", os.mkdir, at("a", "b", "c")),
        ("ok", write, at("a", "cgroup.max.descendants"), b"1\n"),
        ("EAGAIN", os.mkdir, at("a", "c")),
        ("EBUSY", os.rmdir, at("a")),
        ("ENOTDIR", os.rmdir, at("a", "pids.max")),
        ("ok", os.rmdir, at("a", "b")),
        ("ENOENT", os.rmdir, at("a", "b")),
        ("ok", write, at("a", "cgroup.procs"), b"1\n"),
        ("EBUSY", os.rmdir, at("a")),
        ("EPERM", os.unlink, at("a", "pids.max")),
        ("EACCES", lambda: open(at("a", "new"), "w")),
        ("EPERM", os.rename, at("a"), at("z")),
        ("EACCES", open, at("a", "pids.current"), "w"),
        ("EACCES", open, at("a", "cgroup.kill")),
        ("EINVAL", write, at("a", "cgroup.kill"), b"x"),
        ("EBUSY", os.rmdir, AT),
        ("ERANGE", write, at("a", "cgroup.freeze"), b"2"),
        ("ok", write, at("a", "cgroup.freeze"), b"1\n"),
        ("ok", write, at("cgroup.subtree_control"), b"+pids"),
        ("EOPNOTSUPP", write, at("cgroup.subtree_control"), b"+memory"),
        ("ENOTDIR", read, at("a", "pids.max", "x")),
        ("ENOTDIR", os.mkdir, at("a", "pids.max", "x")),
        ("ENOENT", os.mkdir, at(*["e"] * (DEPTH_MAX + 1))),
        ("EISDIR", read, at("a")),
        ("ENOTDIR", os.listdir, at("a", "pids.max")),
        ("ENOENT", os.listdir, at("n")),
        ("ENOENT", os.stat, at("a b")),
        ("ENOENT", os.stat, at("x" * (NAME_MAX + 1))),
        ("EEXIST", open, at("a", "pids.max"), "x"),
    ]
    assert [code(*step[1:]) for step in steps] == [step[0] for step in steps]


def test_the_superuser_is_refused_when_he_writes(h, monkeypatch):
    monkeypatch.setattr(os, "geteuid", lambda: 0)
    os.mkdir(at("a"))
    assert code(write, at("a", "pids.current"), b"1") == "EINVAL" and code(read, at("a", "cgroup.kill")) == "EINVAL"


def test_zero_is_the_caller(hierarchy):
    hierarchy.mkdir("/a")
    hierarchy.fork(1, 2)
    with mounted_at(AT, hierarchy):
        write(at("a", "cgroup.procs"), b"0\n")
        assert read(at("a", "cgroup.procs")) == b"1\n"
    with mounted_at(AT, hierarchy, pid=2):
        write(at("a", "cgroup.procs"), b"0")
        assert read(at("a", "cgroup.procs")) == b"1\n2\n"
    with mounted_at(AT, hierarchy, pid=9):
        assert code(write, at("a", "cgroup.procs"), b"0") == "ESRCH"
    assert hierarchy.read("/a", "cgroup.procs") == "1\n2\n"  # it is open still


# ---- ways to read and write


def test_open_files(h):
    os.mkdir(at("a"))
    with open(at("a", "pids.max"), "r+") as file:
        assert file.read() == "max\n" and file.read() == ""
        file.seek(0)
        file.write("5\n")
        file.flush()
        file.seek(0)
        assert file.read() == "5\n" and h.limit("/a") == 5
    with open(at("a", "cgroup.procs")) as file:
        assert file.read() == ""
        h.write("/a", "cgroup.procs", 1)
        file.seek(0)
        assert file.read() == "1\n"
        h.write("/", "cgroup.procs", 1)
        os.rmdir(at("a"))
        file.seek(0)
        assert code(file.read) == "ENODEV"
        os.mkdir(at("a"))
        file.seek(0)
        assert code(file.read) == "ENODEV"  # a new group is another
    with open(at("a", "pids.max"), "a") as file:
        print(7, file=file)
    with open(at("a", "pids.max"), "rb", buffering=0) as file:
        assert file.read() == b"7\n"
    with pytest.raises(io.UnsupportedOperation):
        with open(at("a", "pids.max")) as file:
            file.write("5")
    file = open(at("a", "pids.max"), "w")
    file.write("x")
    assert code(file.close) == "EINVAL"  # as a real file, when the buffer is written


def test_descriptors(h):
    os.mkdir(at("a"))
    fd = os.open(at("a", "pids.max"), os.O_RDWR | os.O_CLOEXEC)
    assert os.read(fd, 100) == b"max\n" and os.read(fd, 100) == b"" and os.write(fd, b"5\n") == 2
    assert (
        os.pread(fd, 100, 0) == b"5\n"
        and os.pread(fd, 1, 0) + os.pread(fd, 9, 1) == b"5\n"
        and os.lseek(fd, 0, os.SEEK_SET) == 0
    )
    assert os.read(fd, 100) == b"5\n" and os.fstat(fd).st_size == 2 and stat.S_ISREG(os.stat(fd).st_mode)
    with pytest.raises(TypeError):
        os.fstat(at("a"))
    os.close(fd)
    assert code(os.read, fd, 1) == "EBADF" and code(os.close, fd) == "EBADF"
    with os.fdopen(os.open(at("a", "pids.max"), os.O_WRONLY), "w") as file:
        file.write("6")
    assert h.limit("/a") == 6 and h.changes() == 3
    top = os.open(AT, os.O_RDONLY | os.O_DIRECTORY)
    inner = os.open("a/pids.max", os.O_RDONLY, dir_fd=top)
    assert os.read(inner, 9) == b"6\n" and "a" in os.listdir(top) and code(os.read, top, 1) == "EISDIR"
    os.mkdir("b", dir_fd=top)
    assert h.groups() == ["/", "/a", "/b"] and stat.S_ISDIR(os.stat("b", dir_fd=top).st_mode)
    os.rmdir("b", dir_fd=top)
    os.close(inner)
    os.close(top)
    assert (
        code(os.open, at("a", "pids.max"), os.O_RDONLY | os.O_DIRECTORY) == "ENOTDIR"
        and code(os.open, at("x"), os.O_RDONLY) == "ENOENT"
    )
    assert (
        code(os.open, at("a"), os.O_WRONLY) == "EISDIR"
        and code(os.open, at("a", "x"), os.O_WRONLY | os.O_CREAT) == "EACCES"
    )


def test_pathlib(h):
    top = pathlib.Path(AT)
    (top / "a" / "b").mkdir(parents=True)
    (top / "a").mkdir(exist_ok=True)
    (top / "a" / "pids.max").write_text("5\n")
    assert (top / "a" / "pids.max").read_text() == "5\n" and (top / "a" / "pids.max").read_bytes() == b"5\n"
    assert (
        (top / "a").is_dir()
        and (top / "a" / "pids.max").is_file()
        and not (top / "x").exists()
        and not (top / "a").is_symlink()
    )
    assert "b" in [path.name for path in (top / "a").iterdir()]
    assert sorted(str(path) for path in top.rglob("pids.max")) == [at("a", "b", "pids.max"), at("a", "pids.max")]
    assert (top / "a").resolve() == top / "a" and (top / "a" / ".." / "a").samefile(top / "a")
    (top / "a" / "b").rmdir()
    assert h.groups() == ["/", "/a"]


def test_os_path_glob_walk_and_scandir(h):
    os.makedirs(at("a", "b"))
    assert (
        os.path.exists(at("a"))
        and os.path.isdir(at("a"))
        and os.path.isfile(at("a", "pids.max"))
        and not os.path.exists(at("x"))
    )
    assert (
        os.path.ismount(AT)
        and os.path.realpath(at("a", "..", "a")) == at("a")
        and os.path.getsize(at("a", "pids.max")) == 4
    )
    assert sorted(glob.glob(at("**", "pids.current"), recursive=True)) == [
        at("a", "b", "pids.current"),
        at("a", "pids.current"),
    ]
    assert [folder for folder, _, _ in os.walk(AT)] == [AT, at("a"), at("a", "b")]
    with os.scandir(at("a")) as entries:
        kinds = {entry.name: (entry.is_dir(), entry.is_file(), entry.path, entry.stat().st_size) for entry in entries}
    assert kinds["b"] == (True, False, at("a", "b"), 0) and kinds["pids.max"] == (False, True, at("a", "pids.max"), 4)
    assert (
        os.access(at("a", "pids.max"), os.R_OK | os.W_OK)
        and not os.access(at("x"), os.F_OK)
        and os.listdir(os.fsencode(at("a", "b")))[0].startswith(b"cgroup")
    )
    before = os.getcwd()
    assert code(os.chdir, at("a")) == "EOPNOTSUPP" and os.getcwd() == before and os.path.lexists(at("a", "pids.max"))
    assert code(shutil.rmtree, at("a")) == "EPERM"  # as in the kernel: files can't be unlinked


# ---- elsewhere, before and after


def test_other_files_are_as_before(h, tmp_path):
    (tmp_path / "x").mkdir()
    (tmp_path / "x" / "f").write_text("real")
    os.rename(tmp_path / "x" / "f", tmp_path / "g")
    os.chmod(tmp_path / "g", 0o600)
    fd = os.open(tmp_path / "g", os.O_RDONLY)
    assert os.read(fd, 9) == b"real" and os.fstat(fd).st_size == 4
    with os.fdopen(fd) as file:
        assert file.read() == ""
    assert (
        os.listdir(tmp_path)
        and subprocess.run([sys.executable, "-c", "print(1)"], capture_output=True, check=True).stdout == b"1\n"
    )
    assert (
        os.path.exists("/proc/self/stat")
        and code(os.stat, tmp_path / "none") == "ENOENT"
        and code(os.rmdir, tmp_path) == "ENOTEMPTY"
    )
    assert code(open, "/sys/fs/cgroup-x/pids.max") == "ENOENT"
    with os.scandir(tmp_path) as entries:
        assert sorted(entry.name for entry in entries) == ["g", "x"]
    shutil.rmtree(tmp_path / "x")


def test_everything_is_put_back(tmp_path):
    place = str(tmp_path / "cgroup")
    before = [getattr(module, name) for module, name in REPLACED]
    with pytest.raises(KeyError):
        with mounted_at(place) as h:
            os.mkdir(f"{place}/a")
            assert h.groups() == ["/", "/a"] and os.listdir(f"{place}/a")
            raise KeyError
    assert h.closed and [getattr(module, name) for module, name in REPLACED] == before and open is io.open
    assert not os.path.exists(place)


def test_two_hierarchies_at_two_places(tmp_path):
    first, second = str(tmp_path / "one"), str(tmp_path / "two")
    with mounted_at(first) as one, mounted_at(second) as two:
        os.mkdir(f"{first}/a")
        os.mkdir(f"{second}/b")
        assert (
            one.groups() == ["/", "/a"]
            and two.groups() == ["/", "/b"]
            and code(os.rename, f"{first}/a", f"{second}/a") == "EXDEV"
        )
    with pytest.raises(ValueError):
        mounted_at("/").__enter__()


def test_a_relative_path_is_found(monkeypatch, tmp_path):
    monkeypatch.chdir(tmp_path)
    with mounted_at("groups") as h:
        os.mkdir("groups/a")
        assert (
            h.groups() == ["/", "/a"] and os.path.exists(tmp_path / "groups" / "a") and not list(os.scandir(tmp_path))
        )


def test_faults_reach_who_opens_files(hierarchy):
    hierarchy.mkdir("/a")
    with mounted_at(AT, hierarchy):
        hierarchy.vanish("/a", nth=2)
        assert os.path.isdir(at("a"))
        assert code(read, at("a", "pids.max")) == "ENOENT"
        os.mkdir(at("a"))
        hierarchy.vanish("/a", nth=2)
        with open(at("a", "pids.max"), "r") as file:
            assert code(file.read) == "ENODEV"
        os.mkdir(at("b"))
        hierarchy.fail("/b", error=errno.ENOSPC, nth=2)
        assert code(write, at("b", "pids.max"), b"5") == "ENOSPC" and hierarchy.limit("/b") is None
        for call in (os.stat, os.listdir, os.scandir, os.rmdir, os.mkdir):
            hierarchy.fail("/b", error=errno.EIO)
            assert code(call, at("b")) == "EIO" and hierarchy.clear_faults() == 0
        hierarchy.fail("/b", error=errno.EIO)
        assert code(read, at("b", "pids.max")) == "EIO" and read(at("b", "pids.max")) == b"max\n"


@pytest.mark.parametrize("version", [(3, 8, 0), (3, 10, 99)])
def test_an_older_python_is_refused(monkeypatch, version):
    monkeypatch.setattr(sys, "version_info", version)
    with pytest.raises(RuntimeError, match="^mounted_at needs Python 3.11$"):
        mounted_at(AT).__enter__()


def test_threads_see_it_too(h):
    os.mkdir(at("a"))
    told = []
    thread = threading.Thread(target=lambda: told.append(read(at("a", "pids.max"))))
    thread.start()
    thread.join()
    assert told == [b"max\n"]


def test_it_is_closed_at_the_end():
    with mounted_at(AT) as h:
        file = open(at("cgroup.procs"))
    with pytest.raises(ValueError):
        file.read()
    file.close()
    assert h.closed and isinstance(h, Hierarchy)
