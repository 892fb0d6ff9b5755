"""What served files and descriptors answer at the edges: names that begin alike, positions, modes, groups that are gone."""

import errno
import fcntl
import os

import pytest

from makhloeum import mounted_at

AT = "/sys/fs/cgroup"


@pytest.fixture
def h(at_cgroup):
    return at_cgroup


def code(call, *arguments, **more):
    with pytest.raises(OSError) as failed:
        call(*arguments, **more)
    return errno.errorcode[failed.value.errno]


def test_a_path_that_only_begins_alike_is_another(tmp_path):
    (tmp_path / "cgroup2").mkdir()
    (tmp_path / "cgroup2" / "pids.max").write_text("real")
    with mounted_at(tmp_path / "cgroup"):
        assert (
            os.listdir(tmp_path / "cgroup2") == ["pids.max"]
            and (tmp_path / "cgroup2" / "pids.max").read_text() == "real"
        )
        os.mkdir(tmp_path / "cgroup2" / "a")
    assert os.path.isdir(tmp_path / "cgroup2" / "a")


CALLS = ["stat", "lstat", "listdir", "scandir", "mkdir", "rmdir", "readlink", "open", "chmod", "truncate"]


@pytest.mark.parametrize("call", CALLS)
@pytest.mark.parametrize(
    "name",
    ["a/pids.max", "b/pids.max", "b/c/pids.max", "a/pids.max/x", "a/pids.max/pids.max", "b/c", "a b/cgroup.kill"],
)
def test_what_is_missing_comes_before_what_is_wrong(h, tmp_path, call, name):
    """As with a real file: one that isn't there is missing, whatever its name is."""
    (tmp_path / "a").mkdir()
    (tmp_path / "a" / "pids.max").write_text("max\n")
    more = {"open": (os.O_RDONLY,), "chmod": (0o644,), "truncate": (0,)}.get(call, ())
    found = []
    for top in (AT, tmp_path):
        try:
            it = getattr(os, call)(f"{top}/{name}", *more)
            os.close(it) if call == "open" else None
            found.append("ok")
        except OSError as failure:
            found.append((errno.errorcode[failure.errno], str(failure.filename).replace(str(top), "")))
    assert found[0] == found[1]


@pytest.mark.parametrize("mode", ["w", "r+", "wb"])
def test_a_constant_takes_its_own_text_and_no_other(h, mode):
    def write(name, text):
        with open(f"{AT}/{name}", mode) as file:
            file.write(text.encode() if mode == "wb" else text)

    refused = errno.errorcode[errno.EOPNOTSUPP]  # it has two names
    for name, text in (("cgroup.subtree_control", "+pids"), ("a/cgroup.type", "domain")):
        write(name, text)
        write(name, f"{text}\n")
        assert code(write, name, f"-{text}") == code(write, name, "\u00e9") == refused


def test_a_range_of_descriptors_is_closed_without_its_end(h):
    first = os.open(f"{AT}/a/pids.max", os.O_RDONLY)
    second = os.dup(first)
    low, high = sorted((first, second))
    os.closerange(low, high)
    assert code(os.read, low, 9) == "EBADF" and os.read(high, 9) == b"max\n"
    real = os.open(os.devnull, os.O_RDONLY)
    for fd in (high, real):
        os.closerange(fd, fd + 1)
        assert code(os.fstat, fd) == code(fcntl.fcntl, fd, fcntl.F_GETFD) == "EBADF", "also the number itself"


def test_a_file_is_made_nowhere(h):
    for mode in ("x", "xb", "w", "a"):
        assert code(open, f"{AT}/none/pids.max", mode) == "ENOENT"
    assert code(open, f"{AT}/a/pids.max", "x") == "EEXIST" and code(open, f"{AT}/a/f", "x") == "EACCES"
    assert code(os.open, f"{AT}/none/pids.max", os.O_WRONLY | os.O_CREAT | os.O_EXCL) == "ENOENT"


def test_access_is_that_of_the_owner(h, monkeypatch):
    monkeypatch.setattr(os, "geteuid", lambda: 1000)
    modes = {"pids.max": "rw", "pids.current": "r", "cgroup.kill": "w", "": "rwx"}
    for name, allowed in modes.items():
        found = "".join(
            letter
            for letter in "rwx"
            if os.access(f"{AT}/a/{name}", {"r": os.R_OK, "w": os.W_OK, "x": os.X_OK}[letter])
        )
        assert found == allowed, name


def test_a_file_is_opened_by_its_mode_alone(h, monkeypatch):
    monkeypatch.setattr(os, "geteuid", lambda: 1000)
    for name, flags, wanted in (
        ("cgroup.kill", os.O_RDONLY, "EACCES"),
        ("cgroup.kill", os.O_RDWR, "EACCES"),
        ("cgroup.kill", os.O_WRONLY, None),
        ("cgroup.kill", os.O_PATH, None),
        ("pids.current", os.O_WRONLY, "EACCES"),
        ("pids.current", os.O_RDWR, "EACCES"),
        ("pids.current", os.O_RDONLY | os.O_TRUNC, "EACCES"),
        ("pids.current", os.O_RDONLY, None),
        ("pids.max", os.O_RDWR | os.O_TRUNC, None),
    ):
        if wanted is None:
            os.close(os.open(f"{AT}/a/{name}", flags))
        else:
            assert code(os.open, f"{AT}/a/{name}", flags) == wanted, (name, flags)


def test_files_are_not_programs(h):
    assert not os.access(f"{AT}/a/pids.max", os.X_OK) and not os.access(f"{AT}/a/pids.max", os.R_OK | os.X_OK)
    assert os.access(f"{AT}/a", os.R_OK | os.X_OK) and os.access(f"{AT}/a/pids.max", os.R_OK)


def test_a_call_that_fails_leaves_the_position(h):
    fd = os.open(f"{AT}/a/pids.max", os.O_RDWR)
    assert os.read(fd, 2) == b"ma"
    h.fail("/a", error=errno.EIO)
    assert code(os.pread, fd, 9, 0) == "EIO" and code(os.pwrite, fd, b"x", 0) == "EINVAL"
    assert os.lseek(fd, 0, os.SEEK_CUR) == 2
    os.close(fd)


def test_a_read_elsewhere_sees_the_text_of_now(h):
    fd = os.open(f"{AT}/a/pids.max", os.O_RDONLY)
    assert os.read(fd, 1) == b"m"
    h.write("/a", "pids.max", 1234)
    assert os.read(fd, 9) == b"ax\n"  # the rest of the text that was begun
    os.lseek(fd, 2, os.SEEK_SET)
    assert os.read(fd, 9) == b"34\n"
    os.close(fd)


def test_an_empty_text_is_read_anew(h):
    fd = os.open(f"{AT}/a/cgroup.procs", os.O_RDONLY)
    assert os.read(fd, 99) == os.read(fd, 99) == b""
    h.fork(1, 9)
    h.write("/a", "cgroup.procs", 9)
    assert os.read(fd, 99) == b"9\n" and os.read(fd, 99) == b""
    h.exit(9)
    os.lseek(fd, 0, os.SEEK_SET)
    assert os.read(fd, 99) == b""
    os.close(fd)


def test_no_file_of_a_removed_group_has_a_text(h):
    fds = [os.open(f"{AT}/a/{name}", os.O_RDONLY) for name in ("cgroup.type", "cpu.stat", "pids.max", "cgroup.events")]
    h.rmdir("/a")
    for fd in fds:
        assert code(os.read, fd, 99) == "ENODEV"
        os.close(fd)
    assert code(os.stat, f"{AT}/a/cgroup.type") == code(open, f"{AT}/a/cgroup.type") == "ENOENT"


def test_no_file_of_a_removed_group_becomes_one_of_its_successor(h):
    fd = os.open(f"{AT}/a/pids.max", os.O_RDONLY)
    os.rmdir(f"{AT}/a")
    os.mkdir(f"{AT}/other")
    os.rmdir(f"{AT}/other")
    os.mkdir(f"{AT}/a")
    assert code(os.read, fd, 99) == "ENODEV"
    os.close(fd)


def test_the_link_of_a_descriptor_leads_to_the_open_file(h):
    fds = [os.open(f"{AT}/a/pids.max", os.O_RDWR), os.open(f"{AT}/a", os.O_RDONLY)]
    file, group = (f"/proc/self/fd/{fd}" for fd in fds)
    for number, mode in enumerate(("w", "a", "r+"), 5):
        with open(file, mode) as other:
            other.write(str(number))
        assert h.limit("/a") == number
    os.rmdir(f"{AT}/a")
    for _ in "removed", "made again":
        assert os.stat(file).st_size == 0 and os.stat(group).st_nlink == 2 and os.listdir(group) == []
        for flags in (os.O_RDONLY, os.O_WRONLY, os.O_RDWR | os.O_CREAT):
            assert code(os.open, file, flags) == "ENODEV"
        assert code(open, group, "w") == "EISDIR" and code(os.listdir, file) == "ENOTDIR"
        os.close(os.open(group, os.O_RDONLY))
        os.makedirs(f"{AT}/a", exist_ok=True)
    for fd in fds:
        os.close(fd)


def test_a_user_truncates_what_he_may_write(h, monkeypatch):
    monkeypatch.setattr(os, "geteuid", lambda: 1000)
    assert os.truncate(f"{AT}/a/pids.max", 0) is os.truncate(f"{AT}/a/cgroup.kill", 0) is None
    for name in ("pids.current", "cgroup.events", "cgroup.threads", "cpu.stat"):
        assert code(os.truncate, f"{AT}/a/{name}", 0) == "EACCES", name
    assert code(os.truncate, f"{AT}/a", 0) == "EISDIR" and code(os.truncate, f"{AT}/b/cpu.stat", 0) == "ENOENT"


def test_the_working_directory_may_be_gone(h, tmp_path, monkeypatch):
    (tmp_path / "gone").mkdir()
    monkeypatch.chdir(tmp_path / "gone")
    os.rmdir(tmp_path / "gone")
    assert os.stat(".").st_nlink == 0 and os.listdir() == os.listdir(".") == [] and os.path.exists(".")
    for call in (open, os.stat, os.mkdir):
        with pytest.raises(FileNotFoundError, match="'x'"):
            call("x")
    assert os.path.isdir(f"{AT}/a")


def test_a_file_opens_with_o_excl_alone(h):
    os.close(os.open(f"{AT}/cgroup.procs", os.O_RDONLY | os.O_EXCL))


@pytest.mark.parametrize("name", ["cgroup.kill", "cgroup.procs", "pids.current", ""])
def test_access_is_that_of_a_real_file_with_this_mode(h, tmp_path, name):
    """For the superuser, whom a mode stops only from execution, and for everybody else."""
    served = f"{AT}/a/{name}".rstrip("/")
    real = tmp_path / "real"
    real.write_text("") if name else real.mkdir()
    real.chmod(os.stat(served).st_mode & 0o777)
    for mode in range(8):
        assert os.access(served, mode) == os.access(real, mode), mode
    assert not os.access(f"{AT}/b/{name}", os.F_OK)
