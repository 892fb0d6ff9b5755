"""Served files beside real ones: each call is made on both, and answers alike. What a cgroup file does otherwise is in tables."""

import array
import errno
import io
import os
import pathlib
import stat
import tempfile

import pytest

from makhloeum import mounted_at
from makhloeum._table import NAME_MAX, TEXT_MAX

AT = "/sys/fs/cgroup"
NAMES = {errno.EOPNOTSUPP: "EOPNOTSUPP"}  # it has two


@pytest.fixture
def h(at_cgroup):
    return at_cgroup


@pytest.fixture
def real(tmp_path):
    """A real folder with a file of the same name, length and text."""
    (tmp_path / "a").mkdir()
    (tmp_path / "a" / "pids.max").write_text("max\n")
    return str(tmp_path)


def told(call, *words, **more):
    """What a call returns, or the errno and the path of its error."""
    try:
        return call(*words, **more)
    except OSError as failure:
        return NAMES.get(failure.errno, errno.errorcode[failure.errno]), failure.filename


def code(call, *words, **more):
    it = told(call, *words, **more)
    return it[0] if isinstance(it, tuple) else "ok"


# ---- ways to open


@pytest.mark.parametrize(
    "mode",
    [
        "r",
        "w",
        "a",
        "x",
        "r+",
        "w+",
        "a+",
        "x+",
        "rb",
        "wb",
        "ab",
        "xb",
        "r+b",
        "wb+",
        "at",
    ],
)
def test_an_opener_is_given_the_flags_that_a_real_file_has(h, tmp_path, mode):
    given = []

    def opener(path, flags):
        given.append((path, flags))
        raise KeyError

    for path in (f"{AT}/a/pids.max", f"{tmp_path}/f"):
        with pytest.raises(KeyError):
            open(path, mode, opener=opener)
    (served, flags), (_, wanted) = given
    assert served == f"{AT}/a/pids.max" and flags == wanted


@pytest.mark.parametrize("mode, buffering", [("r", -1), ("rb", -1), ("rb", 0)])
def test_an_opener_finds_the_file(h, real, mode, buffering):
    """Beside a descriptor, or another file than the one that is named; the file object has the name that was given."""
    for top in (AT, real):
        folder = os.open(f"{top}/a", os.O_RDONLY)

        def beside(path, flags):
            assert type(path) in (str, bytes)
            return os.open(os.path.basename(path), flags, dir_fd=folder)

        for given in ("pids.max", b"pids.max", pathlib.Path("elsewhere", "pids.max"), f"{top}/a/pids.max"):
            with open(given, mode, buffering, opener=beside) as file:
                assert file.name == os.fspath(given) and file.mode == mode
                assert file.read() in ("max\n", b"max\n")
        os.close(folder)
    with open(os.fsencode(f"{AT}/a/pids.max")) as file:
        assert file.name == os.fsencode(f"{AT}/a/pids.max")


@pytest.mark.parametrize(
    "found, kind", [(None, TypeError), ("/dev/null", TypeError), (1.5, TypeError), (-1, ValueError)]
)
def test_an_opener_returns_a_descriptor(h, real, found, kind):
    for given in (f"{AT}/a/pids.max", f"{real}/a/pids.max"):
        with pytest.raises(kind):
            open(given, opener=lambda path, flags: found)


@pytest.mark.parametrize(
    "mode, buffering", [*((mode, -1) for mode in ("r", "w", "a", "x", "r+", "rb", "wb", "a+b")), ("rb", 0), ("ab", 0)]
)
def test_an_opener_of_a_served_name_may_find_a_real_file(h, real, mode, buffering):
    """The file object has the name that was given; so has the error."""

    def elsewhere(path, flags):
        return os.open(f"{real}/a/pids.max", flags & ~(os.O_EXCL | os.O_TRUNC))

    found = []
    for given in (f"{AT}/a/pids.max", f"{AT}/none", f"{real}/a/pids.max", os.fsencode(f"{AT}/a")):
        with open(given, mode, buffering, opener=elsewhere) as file:
            raw = file if buffering == 0 else file.buffer.raw if "b" not in mode else file.raw
            assert isinstance(raw, io.FileIO) and raw.closefd and file.name == raw.name == given
            found.append((type(file), file.mode, file.tell(), file.readable() and file.read()))
            number = file.fileno()
        assert file.closed and code(os.fstat, number) == "EBADF"
    assert found == found[:1] * len(found)


def test_an_opener_may_find_no_file(h, real):
    for given in (f"{AT}/a/pids.max", f"{AT}/none", os.fsencode(f"{AT}/a"), f"{real}/a/pids.max", f"{real}/none"):
        for folder in (real, f"{AT}/a"):
            for found in (os.O_RDONLY, os.O_PATH):
                fds = []

                def opener(path, flags):
                    fds.append(os.open(folder, found))
                    return fds[-1]

                assert told(open, given, opener=opener) == ("EISDIR", given), folder
                assert code(os.fstat, fds[0]) == "EBADF"  # it was closed
                assert told(open, given, opener=lambda path, flags: fds[0]) == ("EBADF", None)
        with pytest.raises(ValueError, match="^opener returned -5$"):
            open(given, opener=lambda path, flags: -5)


def outcome(call, *words):
    """What a call returns, or the class and the errno of its error."""
    try:
        it = call(*words)
        return it.__name__ if isinstance(it, type) else it
    except (OSError, ValueError, TypeError, OverflowError) as failure:
        return type(failure).__name__, getattr(failure, "errno", None)


# what a file object refuses by its mode, whatever its descriptor could do
BY_MODE = [
    ("read", 1),
    ("read", 0),
    ("readline",),
    ("readinto", bytearray(2)),
    ("write", b""),
    ("truncate",),
    ("truncate", 1),
    ("truncate", -1),
    ("readable",),
    ("writable",),
    ("seek", 1.5),
    ("tell",),
]


@pytest.mark.parametrize("mode", ["rb", "wb", "ab", "r+b", "a+b"])
@pytest.mark.parametrize("buffering", [-1, 0])
@pytest.mark.parametrize("flags", [None, os.O_RDONLY, os.O_WRONLY, os.O_RDWR])
def test_a_file_object_does_what_its_mode_allows(h, real, mode, buffering, flags):
    found = []
    for top in (AT, real):
        path, told = f"{top}/a/pids.max", []
        with open(path if flags is None else os.open(path, flags), mode, buffering) as file:
            told += [type(file).__name__ if buffering else None, file.mode]
            if not buffering:
                told.append(file.closefd)
            for name, *words in BY_MODE:
                if buffering == 0 or name not in ("read", "readline", "readinto", "truncate"):
                    told.append((name, *words, outcome(getattr(file, name), *words)))
        found.append(told)
    assert found[0] == found[1]


@pytest.mark.parametrize(
    "mode, call", [("rb", "read"), ("rb", "readall"), ("wb", "write"), ("rb", "seek"), ("rb", "tell")]
)
def test_a_file_object_whose_descriptor_was_closed(h, real, mode, call):
    for top in (AT, real):
        file = open(f"{top}/a/pids.max", mode, 0)
        os.close(file.fileno())
        words = {"write": [b"5"], "seek": [0]}.get(call, [])
        assert outcome(getattr(file, call), *words) == ("OSError", errno.EBADF)
        assert not file.closed and outcome(file.close) == ("OSError", errno.EBADF)
    assert h.limit("/a") is None


WRONG = [
    ("read", -1),
    ("read", 1.0),
    ("read", "1"),
    ("pread", -1, 0),
    ("pread", 1, 0.5),
    ("pread", 1, -1),
    ("lseek", 0.5, 0),
    ("lseek", "0", 0),
    ("write", 5),
    ("write", [53]),
    ("write", "5"),
    ("write", None),
    ("writev", b"5"),
    ("writev", ["5"]),
    ("pwrite", [53], 0),
]


@pytest.mark.parametrize("name, words", [(name, words) for name, *words in WRONG])
def test_wrong_arguments_are_refused_as_by_a_real_file(h, real, name, words):
    found = []
    for top in (AT, real):
        fd = os.open(f"{top}/a/pids.max", os.O_RDWR)
        found.append((outcome(getattr(os, name), fd, *words), os.lseek(fd, 0, os.SEEK_CUR), os.pread(fd, 9, 0)))
        os.close(fd)
    assert found[0] == found[1] and isinstance(found[0][0], tuple)


def test_what_is_written_may_be_any_bytes(h):
    fd = os.open(f"{AT}/a/pids.max", os.O_RDWR)
    for number, data in enumerate((b"1", bytearray(b"2"), memoryview(b"3"), array.array("b", [52])), 1):
        assert os.write(fd, data) == 1 and h.limit("/a") == number
    with open(f"{AT}/a/pids.max", "wb", 0) as file:
        assert file.write(array.array("b", [55])) == 1 and h.limit("/a") == 7
        for wrong in (5, [53], "5", None):
            with pytest.raises(TypeError):
                file.write(wrong)
    assert h.limit("/a") == 7
    os.close(fd)


FLAGS = [
    os.O_RDONLY,
    os.O_WRONLY,
    os.O_RDWR,
    os.O_RDONLY | os.O_CREAT,
    os.O_WRONLY | os.O_CREAT,
    os.O_RDWR | os.O_CREAT | os.O_EXCL,
    os.O_RDONLY | os.O_CREAT | os.O_EXCL,
    os.O_WRONLY | os.O_EXCL,
    os.O_WRONLY | os.O_TRUNC,
    os.O_RDONLY | os.O_DIRECTORY,
    os.O_WRONLY | os.O_DIRECTORY,
    os.O_RDWR | os.O_APPEND,
    os.O_RDONLY | os.O_NOFOLLOW | os.O_CLOEXEC,
    os.O_RDONLY | os.O_TRUNC,
    *(os.O_ACCMODE | more for more in (0, os.O_TRUNC, os.O_CREAT, os.O_DIRECTORY, os.O_APPEND, os.O_PATH)),
    *(os.O_TMPFILE, os.O_TMPFILE & ~os.O_DIRECTORY | os.O_RDWR, os.O_TMPFILE | os.O_PATH),
    *(os.O_PATH | more for more in (0, os.O_WRONLY, os.O_RDWR | os.O_TRUNC, os.O_CREAT | os.O_EXCL, os.O_DIRECTORY)),
]


@pytest.mark.parametrize("flags", FLAGS)
@pytest.mark.parametrize("name", ["a/pids.max", "a", "a/pids.max/x", "b/pids.max", "none/../a"])
def test_a_file_or_group_is_opened_as_a_real_one(h, real, name, flags):
    found = []
    for top in (AT, real):
        try:
            fd = os.open(f"{top}/{name}", flags)
        except OSError as failure:
            found.append((errno.errorcode[failure.errno], failure.filename.replace(real, AT)))
            continue
        found.append((stat.S_IFMT(os.fstat(fd).st_mode), os.get_inheritable(fd)))
        os.close(fd)
    assert found[0] == found[1]


@pytest.mark.parametrize("flags", [os.O_PATH, os.O_PATH | os.O_RDWR])
def test_a_descriptor_that_only_names_a_file(h, real, flags):
    for top in (AT, real):
        fd = os.open(f"{top}/a/pids.max", flags)
        for call, *words in (
            (os.read, 9),
            (os.readv, [bytearray(1)]),
            (os.pread, 9, 0),
            (os.write, b"1"),
            (os.pwrite, b"1", 0),
            (os.lseek, 0, os.SEEK_SET),
        ):
            assert code(call, fd, *words) == "EBADF", call
        assert stat.S_ISREG(os.fstat(fd).st_mode)
        for call in (os.stat, os.mkdir, os.rmdir, os.unlink):
            assert code(call, "x", dir_fd=fd) == code(call, "pids.max", dir_fd=fd) == "ENOTDIR", call
        os.close(fd)
    assert h.groups() == ["/", "/a"]


# what is done by a descriptor; a mount refuses what only names a file, or is neither for reading nor for writing
BY_DESCRIPTOR = [
    *(("read", 9), ("pread", 9, 0), ("pread", 9, -1), ("write", b"1"), ("pwrite", b"1", 0), ("pwrite", b"1", -1)),
    *(("readv", [bytearray(1)]), ("preadv", [bytearray(1)], 0), ("preadv", [bytearray(1)], -1), ("readv", [])),
    *(("writev", [b"1"]), ("pwritev", [b"1"], 0), ("pwritev", [b"1"], -1), ("writev", [])),
    *(("preadv", [bytearray(1)], -2), ("pwritev", [b"1"], -2), ("pwrite", b"1", -2), ("pread", 0, -1)),
    *(("lseek", 0, os.SEEK_SET), ("lseek", 0, os.SEEK_CUR), ("lseek", -1, os.SEEK_SET), ("lseek", 0, os.SEEK_END)),
    *(("ftruncate", 0), ("ftruncate", -1), ("truncate", 0), ("truncate", -1), ("fsync",), ("fdatasync",)),
    *(("fchmod", 0o644), ("fchown", -1, -1), ("chmod", 0o644), ("chown", -1, -1), ("utime",), ("listdir",)),
    *(("fstat",), ("stat",)),
]


@pytest.mark.parametrize("name, flags", [("a", os.O_PATH), ("a/pids.max", os.O_PATH), ("a/pids.max", os.O_ACCMODE)])
@pytest.mark.parametrize("call, words", [(name, words) for name, *words in BY_DESCRIPTOR])
def test_a_descriptor_for_neither_reading_nor_writing(h, real, call, words, name, flags):
    found = []
    for top in (AT, real):
        fd = os.open(f"{top}/{name}", flags)
        found.append(outcome(getattr(os, call), fd, *words))
        os.close(fd)
    assert found[0] == found[1] or isinstance(found[0], os.stat_result)
    assert h.read("/a", "pids.max") == "max\n"


def test_a_file_object_of_such_a_descriptor(h, real):
    for top in (AT, real):
        fd = os.open(f"{top}/a/pids.max", os.O_ACCMODE)
        for mode in ("rb", "wb", "ab", "r+b"):
            with open(fd, mode, buffering=0, closefd=False) as file:
                call = file.read if file.readable() else lambda: file.write(b"1")
                assert outcome(call) == ("OSError", errno.EBADF) and file.seek(1) == file.tell() == 1, top
        os.close(fd)
        for flags in (os.O_RDONLY, os.O_PATH):
            fd = os.open(f"{top}/a", flags)
            for mode in ("rb", "wb"):
                assert told(open, fd, mode) == ("EISDIR", fd), top
            os.close(fd)
    assert h.limit("/a") is None


@pytest.mark.parametrize("flags", [1 << 31, 1 << 70, "r", 0.5, None])
@pytest.mark.parametrize("name", ["a", "none", "none/../a"])
def test_flags_are_a_number(h, real, name, flags):
    for top in (AT, real):
        with pytest.raises((TypeError, OverflowError)):
            os.open(f"{top}/{name}", flags)


def test_only_the_kernels_own_files_can_be_made(h):
    for flags in (
        os.O_WRONLY | os.O_CREAT,
        os.O_RDONLY | os.O_CREAT,
        os.O_RDWR | os.O_CREAT | os.O_EXCL,
    ):
        assert told(os.open, f"{AT}/a/new", flags) == ("EACCES", f"{AT}/a/new")
        assert told(os.open, f"{AT}/none/new", flags) == ("ENOENT", f"{AT}/none/new")
    assert told(os.open, f"{AT}/a", os.O_RDWR | os.O_TMPFILE) == (
        "EOPNOTSUPP",
        f"{AT}/a",
    )
    assert told(os.open, f"{AT}/a/new", os.O_RDONLY) == ("ENOENT", f"{AT}/a/new")
    assert told(os.open, f"{AT}/a/pids.max", os.O_RDONLY | os.O_DIRECT) == ("EINVAL", f"{AT}/a/pids.max")


def test_descriptors_are_inherited_as_those_of_real_files(h, real):
    for top in (AT, real):
        fd = os.open(f"{top}/a/pids.max", os.O_RDONLY)
        copy, over, apart = (
            os.dup(fd),
            os.open("/dev/null", os.O_RDONLY),
            os.open("/dev/null", os.O_RDONLY),
        )
        assert [os.dup2(fd, over), os.dup2(fd, apart, False)] == [over, apart]
        assert [os.get_inheritable(it) for it in (fd, copy, over, apart)] == [
            False,
            False,
            True,
            False,
        ]
        assert os.dup2(over, over) == over and os.pread(over, 9, 0) == os.pread(apart, 9, 1).rjust(4, b"m") == b"max\n"
        for it in (fd, copy, over, apart):
            os.close(it)
    assert code(os.dup2, fd, over) == code(os.dup, fd) == "EBADF"


# ---- reading and writing


def test_bytes_from_each_place(h, real):
    for top in (AT, real):
        fd = os.open(f"{top}/a/pids.max", os.O_RDWR)
        assert [os.pread(fd, size, at) for size, at in ((0, 0), (2, 0), (2, 1), (99, 3), (9, 4), (9, 99))] == [
            b"",
            b"ma",
            b"ax",
            b"\n",
            b"",
            b"",
        ]
        assert [os.read(fd, size) for size in (0, 1, 2, 99, 99)] == [
            b"",
            b"m",
            b"ax",
            b"\n",
            b"",
        ]
        assert [
            os.lseek(fd, 2, os.SEEK_SET),
            os.lseek(fd, -1, os.SEEK_CUR),
            os.lseek(fd, 0, os.SEEK_CUR),
        ] == [2, 1, 1]
        assert code(os.lseek, fd, -2, os.SEEK_CUR) == code(os.pread, fd, 1, -1) == "EINVAL"
        assert os.lseek(fd, 0, os.SEEK_CUR) == 1 and os.write(fd, b"") == 0 and os.lseek(fd, 0, os.SEEK_CUR) == 1
        assert os.lseek(fd, 0, os.SEEK_SET) == 0 and os.write(fd, b"12\n") == 3 and os.lseek(fd, 0, os.SEEK_CUR) == 3
        assert os.pwrite(fd, b"", 1) == 0 and os.lseek(fd, 0, os.SEEK_CUR) == 3
        os.close(fd)


@pytest.mark.parametrize("name, flags", [("a/pids.max", os.O_RDWR), ("a", os.O_RDONLY), ("a", os.O_PATH)])
@pytest.mark.parametrize("call", ["readv", "preadv", "writev", "pwritev"])
def test_a_call_takes_1024_buffers(h, real, call, name, flags):
    found = []
    for top in (AT, real):
        fd, results = os.open(f"{top}/{name}", flags), []
        for count in (0, 1, 1023, 1024, 1025, 5000):
            buffers = [bytearray(1) for _ in range(count)]
            if "write" in call:
                buffers = [b"5"][:count] + [b""] * (count - 1)
            results.append((count, outcome(getattr(os, call), fd, buffers, *([0] if call[0] == "p" else []))))
        found.append(results)
        os.close(fd)
    assert found[0] == found[1]


@pytest.mark.parametrize("name", ["a/pids.max", "a"])
@pytest.mark.parametrize("buffers", [None, b"5", ["5"], iter([b"5"]), {b"5"}, [b"5"], [None]])
def test_buffers_are_a_sequence(h, real, buffers, name):
    for call in ("readv", "preadv", "writev", "pwritev"):
        found = []
        for top in (AT, real):
            fd = os.open(f"{top}/{name}", os.O_RDWR if name != "a" else os.O_RDONLY)
            try:
                found.append(outcome(getattr(os, call), fd, buffers, *([0] if call[0] == "p" else [])))
            except BufferError:
                found.append("BufferError")
            os.close(fd)
        assert found[0] == found[1], call


def test_an_offset_of_minus_one_is_the_position_of_the_file(h, real):
    for top in (AT, real):
        fd, part = os.open(f"{top}/a/pids.max", os.O_RDWR), bytearray(2)
        assert (os.preadv(fd, [part], -1), part, os.lseek(fd, 0, os.SEEK_CUR)) == (2, b"ma", 2)
        assert (os.preadv(fd, [part], -1), part, os.lseek(fd, 0, os.SEEK_CUR)) == (2, b"x\n", 4)
        assert os.lseek(fd, 0, os.SEEK_SET) == 0
        assert (os.pwritev(fd, [b"1", b"2"], -1), os.lseek(fd, 0, os.SEEK_CUR)) == (2, 2)
        for call, words in ((os.preadv, [[part]]), (os.pwritev, [[b"1"]]), (os.pread, [1]), (os.pwrite, [b"1"])):
            for offset in (-2, -1 << 63, *([-1] if call in (os.pread, os.pwrite) else [])):
                assert outcome(call, fd, *words, offset) == ("OSError", errno.EINVAL), (call, offset)
            for offset in (1 << 63, -1 << 70, 0.5, "0", None):
                assert outcome(call, fd, *words, offset)[0] in ("OverflowError", "TypeError"), (call, offset)
        for call, words in ((os.preadv, [[part]]), (os.pwritev, [[b"11"]]), (os.pread, [2]), (os.pwrite, [b"11"])):
            assert outcome(call, fd, *words, (1 << 63) - 1) == ("OSError", errno.EINVAL), call
        assert os.lseek(fd, 0, os.SEEK_CUR) == 2
        os.close(fd)
    assert h.limit("/a") == 12


@pytest.mark.parametrize("flags, errors", [(1 << 20, "OSError"), (1 << 70, "OverflowError"), ("x", "TypeError")])
def test_flags_of_a_read_or_write(h, real, flags, errors):
    for top in (AT, real):
        fd = os.open(f"{top}/a/pids.max", os.O_RDWR)
        for call, buffers in ((os.preadv, [bytearray(2)]), (os.pwritev, [b"5"])):
            number = errno.EOPNOTSUPP if errors == "OSError" else None
            assert outcome(call, fd, buffers, 0, flags) == (errors, number), (top, call)
        os.close(fd)
    assert h.limit("/a") is None


@pytest.mark.parametrize("whence", [os.SEEK_SET, os.SEEK_CUR, os.SEEK_END, os.SEEK_DATA, os.SEEK_HOLE, 5, -1, 1 << 40])
@pytest.mark.parametrize("offset", [0, 1, 3, 4, 5, 4096, -1, -5, 1 << 63, 1 << 70, -1 << 70, 0.5])
def test_a_file_is_data_to_its_end(h, real, offset, whence):
    found = []
    for top in (AT, real):
        fd = os.open(f"{top}/a/pids.max", os.O_RDWR)
        os.lseek(fd, 1, os.SEEK_SET)
        found.append((outcome(os.lseek, fd, offset, whence), os.lseek(fd, 0, os.SEEK_CUR)))
        os.close(fd)
    assert found[0] == found[1]


@pytest.mark.parametrize("whence", [os.SEEK_CUR, os.SEEK_END])
def test_a_position_does_not_overflow(h, real, whence):
    for top in (AT, real):
        with open(f"{top}/a/pids.max", "rb", buffering=0) as file:
            assert file.seek(1) == 1 and outcome(file.seek, (1 << 63) - 1, whence) == ("OSError", errno.EINVAL)
            assert file.tell() == 1


def test_a_group_has_no_data(h):
    """Measured on a mount."""
    group = os.open(f"{AT}/a", os.O_RDONLY)
    for offset in (0, 1, -1, 4096):
        assert code(os.lseek, group, offset, os.SEEK_DATA) == code(os.lseek, group, offset, os.SEEK_HOLE) == "ENXIO"
    assert os.lseek(group, 0, os.SEEK_CUR) == 0
    os.close(group)


def test_a_file_object_has_a_position(h, real):
    for top in (AT, real):
        with open(f"{top}/a/pids.max", "r+b", buffering=0) as file:
            assert (
                file.tell(),
                file.read(1),
                file.tell(),
                file.seek(3),
                file.read(),
                file.tell(),
            ) == (0, b"m", 1, 3, b"\n", 4)
            assert (
                file.seek(-2, os.SEEK_CUR),
                file.tell(),
                file.seek(0, os.SEEK_END),
            ) == (2, 2, 4)
            assert file.seek(1) == 1 and file.readall() == b"ax\n" and file.readall() == b""
            assert file.fileno() > 2 and file.closed is False
            file.close()
            file.close()
            assert file.closed
            calls = [
                file.read,
                file.readall,
                file.tell,
                file.truncate,
                file.fileno,
                file.readable,
                file.writable,
                file.seekable,
            ]
            for call in (*calls, lambda: file.write(b"1"), lambda: file.seek(0), lambda: file.readinto(bytearray(1))):
                with pytest.raises(ValueError):
                    call()


def test_a_cgroup_file_is_not_truncated(h):
    with open(f"{AT}/a/pids.max", "r+b", buffering=0) as file:
        assert file.truncate(2) == 2 and file.read(3) == b"max" and file.truncate() == 3
        assert file.seek(0) == 0 and file.read() == b"max\n"
    assert os.truncate(f"{AT}/a/pids.max", 1) is None and h.read("/a", "pids.max") == "max\n"
    with open(f"{AT}/a/pids.max", "w"):
        pass
    assert h.limit("/a") is None and h.changes() == 1


@pytest.mark.parametrize("flags, call", [(os.O_RDONLY, "write"), (os.O_WRONLY, "read")])
def test_a_file_that_is_open_in_one_way(h, real, flags, call):
    words = {"write": (b"1",), "read": (9,)}[call]
    for top in (AT, real):
        fd = os.open(f"{top}/a/pids.max", flags)
        assert code(getattr(os, call), fd, *words) == "EBADF"
        assert code(getattr(os, "p" + call), fd, *words, 0) == "EBADF"
        os.close(fd)


@pytest.mark.parametrize(
    "mode, more",
    [
        *((mode, {}) for mode in ("", "rw", "x+a", "rr", "rbt", "z", "+", "b", "U")),
        *(("rb", {name: word}) for name, word in (("encoding", "utf-8"), ("errors", "strict"), ("newline", ""))),
        ("r", {"buffering": 0}),
        ("r", {"newline": "x"}),
        ("r", {"encoding": "none"}),
        ("r", {"closefd": False}),
        ("r", {"closefd": False, "opener": os.open}),
    ],
)
def test_words_that_open_does_not_take(h, real, mode, more):
    kinds = []
    for top in (AT, real):
        with pytest.raises((ValueError, LookupError)) as refused:
            open(f"{top}/a/pids.max", mode, **more)
        kinds.append(refused.type)
    assert kinds[0] == kinds[1]


# ---- paths beside a descriptor of a folder


def test_names_beside_a_descriptor(h, real):
    for top in (AT, real):
        fd = os.open(top, os.O_RDONLY | os.O_DIRECTORY)
        assert os.stat("a", dir_fd=fd).st_ino == os.stat(f"{top}/a").st_ino == os.lstat("a", dir_fd=fd).st_ino
        assert os.stat("./a/../a/pids.max", dir_fd=fd).st_size == 4 and os.access("a/pids.max", os.R_OK, dir_fd=fd)
        with pytest.raises(FileNotFoundError):
            os.stat("none/../a", dir_fd=fd)
        assert not os.access("b", os.F_OK, dir_fd=fd) and code(os.stat, "b", dir_fd=fd) == "ENOENT"
        assert told(os.stat, "", dir_fd=fd) == told(os.rmdir, "", dir_fd=fd) == ("ENOENT", "")
        assert os.lseek(fd, 0, os.SEEK_SET) == os.lseek(fd, 0, os.SEEK_CUR) == 0
        assert code(os.lseek, fd, -1, os.SEEK_SET) == "EINVAL"
        assert (
            os.mkdir("b", dir_fd=fd) is None
            and os.path.isdir(f"{top}/b")
            and code(os.mkdir, "b", dir_fd=fd) == "EEXIST"
        )
        inner = os.open("b", os.O_RDONLY, dir_fd=fd)
        assert os.mkdir("c", 0o700, dir_fd=inner) is None and os.path.isdir(f"{top}/b/c")
        assert code(os.readlink, "c", dir_fd=inner) == "EINVAL" and code(os.readlink, "d", dir_fd=inner) == "ENOENT"
        assert os.chmod("c", 0o700, dir_fd=inner) is None and code(os.chmod, "d", 0o700, dir_fd=inner) == "ENOENT"
        assert os.utime("c", dir_fd=inner) is None and code(os.rmdir, "b", dir_fd=fd) in ("EBUSY", "ENOTEMPTY")
        assert (
            os.rmdir("c", dir_fd=inner) is None and os.rmdir("b", dir_fd=fd) is None and not os.path.exists(f"{top}/b")
        )
        # an absolute path doesn't look at the descriptor
        assert os.stat(f"{AT}/a", dir_fd=fd).st_ino == os.stat(f"{AT}/a").st_ino
        assert os.stat(f"{real}/a", dir_fd=fd).st_ino == os.stat(f"{real}/a").st_ino
        os.close(inner)
        os.close(fd)
    assert code(os.stat, "a", dir_fd=fd) == "EBADF"


def test_a_removed_folder_is_still_the_one_of_its_descriptor(h, real):
    for top in (AT, real):
        os.mkdir(f"{top}/b")
        fd = os.open(f"{top}/b", os.O_RDONLY)
        number = os.fstat(fd).st_ino
        os.rmdir(f"{top}/b")
        assert os.fstat(fd).st_ino == os.stat(".", dir_fd=fd).st_ino == os.lstat("./", dir_fd=fd).st_ino == number
        assert number != os.stat(top).st_ino and os.access(".", os.R_OK, dir_fd=fd)
        assert code(os.stat, "b", dir_fd=fd) == code(os.mkdir, "b", dir_fd=fd) == "ENOENT"
        assert (code(os.unlink, ".", dir_fd=fd), code(os.rmdir, ".", dir_fd=fd)) == ("EISDIR", "EINVAL")
        os.close(fd)


def test_a_file_is_no_folder(h, real):
    for top in (AT, real):
        fd = os.open(f"{top}/a/pids.max", os.O_RDONLY)
        for call in (os.stat, os.lstat, os.mkdir, os.rmdir, os.readlink):
            assert code(call, "x", dir_fd=fd) == "ENOTDIR", call
        assert code(os.listdir, fd) == code(os.scandir, fd) == code(os.listdir, f"{top}/a/pids.max") == "ENOTDIR"
        assert code(os.listdir, f"{top}/b/pids.max") == code(os.scandir, f"{top}/b/cgroup.type") == "ENOENT"
        assert not os.access("x", os.F_OK, dir_fd=fd)
        os.close(fd)


def test_a_slash_after_a_file(h, real):
    """It says that a folder is meant."""
    for top in (AT, real):
        for path in (f"{top}/a/pids.max/", f"{top}/a/pids.max/.", f"{top}/a/pids.max//./"):
            for call in (os.stat, os.lstat, os.listdir, os.rmdir, os.unlink, os.readlink, open):
                assert told(call, path) == ("ENOTDIR", path), call
            assert told(os.chmod, path, 0o600) == told(os.truncate, path, 0) == ("ENOTDIR", path)
            assert not os.path.exists(path) and not os.access(path, os.F_OK)
        assert told(os.stat, f"{top}/none/pids.max/") == ("ENOENT", f"{top}/none/pids.max/")
        assert stat.S_ISDIR(os.stat(f"{top}/a/").st_mode) and stat.S_ISDIR(os.lstat(f"{top}/a/").st_mode)


@pytest.mark.parametrize(
    "name, of_unlink, of_rmdir, of_mkdir",
    [
        ("a/.", "EISDIR", "EINVAL", "EEXIST"),
        ("a/..", "EISDIR", "ENOTEMPTY", "EEXIST"),
        ("none/.", "ENOENT", "ENOENT", "ENOENT"),
        ("none/..", "ENOENT", "ENOENT", "ENOENT"),
        ("a/pids.max/.", "ENOTDIR", "ENOTDIR", "ENOTDIR"),
        ("none/pids.max/.", "ENOENT", "ENOENT", "ENOENT"),
    ],
)
def test_what_is_above_a_point_comes_first(h, real, name, of_unlink, of_rmdir, of_mkdir):
    for top in (AT, real):
        path = f"{top}/{name}"
        assert (told(os.unlink, path), told(os.rmdir, path)) == ((of_unlink, path), (of_rmdir, path)), top
        assert told(os.mkdir, path) == (of_mkdir, path), top
    assert h.groups() == ["/", "/a"]


@pytest.mark.parametrize("name", ["a\0", "\0", "a\0/pids.max", "a/pids.max\0x", "none/../\0"])
def test_a_name_with_a_null_byte(h, real, name):
    for top in (AT, real):
        path = f"{top}/{name}"
        for call in (os.stat, os.listdir, os.mkdir, os.rmdir, os.unlink, os.readlink, open, os.scandir):
            for word in (path, os.fsencode(path)):
                with pytest.raises(ValueError, match="^embedded null byte$"):
                    call(word)
        for words in ((path, f"{top}/a"), (f"{top}/a", path)):
            with pytest.raises(ValueError, match="^embedded null byte$"):
                os.rename(*words)
        assert not os.path.exists(path) and not pathlib.Path(path).exists()


def test_two_paths_beside_descriptors(h, real):
    served, folder = os.open(f"{AT}/a", os.O_RDONLY), os.open(real, os.O_RDONLY)
    for call in (os.rename, os.replace, os.link):
        assert code(call, "pids.max", "x", src_dir_fd=served, dst_dir_fd=folder) == "EXDEV"
        assert code(call, "a/pids.max", "x", src_dir_fd=folder, dst_dir_fd=served) == "EXDEV"
    assert code(os.symlink, "elsewhere", "x", dir_fd=served) == code(os.unlink, "pids.max", dir_fd=served) == "EPERM"
    assert code(os.symlink, f"{AT}/none/none", "x", dir_fd=served) == "EPERM"  # nobody looks its text up
    assert code(os.unlink, "none", dir_fd=served) == "ENOENT" and code(os.mkfifo, "x", dir_fd=served) == "EPERM"
    os.rename("a/pids.max", "moved", src_dir_fd=folder, dst_dir_fd=folder)
    os.symlink("moved", "link", dir_fd=folder)
    os.link("link", "same", src_dir_fd=folder, dst_dir_fd=folder, follow_symlinks=False)
    assert os.readlink("link", dir_fd=folder) == os.readlink("same", dir_fd=folder) == "moved"
    assert sorted(os.listdir(real)) == ["a", "link", "moved", "same"]
    for fd in (served, folder):
        os.close(fd)


@pytest.mark.parametrize(
    "name, to, wanted",
    [
        ("a", "a", "ok"),
        ("a/pids.max", "a/pids.max", "ok"),
        ("none", "x", "ENOENT"),
        ("a/none", "none", "ENOENT"),
        ("none/x", "x", "ENOENT"),
        ("a", "none/x", "ENOENT"),
        ("a", "a/pids.max/x", "ENOTDIR"),
        ("a/.", "x", "EBUSY"),
        ("a", "b/..", "EBUSY"),
        ("none/.", "x", "ENOENT"),
        ("a", "a/x", "EINVAL"),
        ("b", "b/c/x", "EINVAL"),
        ("b/c", "b", "ENOTEMPTY"),
        ("a/pids.max", "a", "ENOTEMPTY"),
        ("a/pids.max", "b", "EISDIR"),
        ("b", "a/pids.max", "ENOTDIR"),
        ("a/pids.max/", "a/x", "ENOTDIR"),
        ("a/pids.max", "a/x/", "ENOTDIR"),
        ("a/none/", "a/pids.max", "ENOENT"),
    ],
)
def test_a_rename_that_changes_nothing(h, real, name, to, wanted):
    for top in (AT, real):
        os.makedirs(f"{top}/b/c")
        for call in (os.rename, os.replace):
            assert code(call, f"{top}/{name}", f"{top}/{to}") == wanted, top
        assert os.path.isdir(f"{top}/b/c") and os.path.isfile(f"{top}/a/pids.max")
    assert h.groups() == ["/", "/a", "/b", "/b/c"]


def test_a_real_directory_has_the_mode_that_is_asked_for(h, real):
    os.mkdir(f"{real}/private", 0o700)
    os.mkdir("beside", 0o500, dir_fd=(folder := os.open(real, os.O_RDONLY)))
    os.close(folder)
    modes = [stat.S_IMODE(os.stat(f"{real}/{name}").st_mode) for name in ("private", "beside")]
    assert modes == [0o700, 0o500]
    assert stat.S_IMODE(os.stat(tempfile.mkdtemp(dir=real)).st_mode) == 0o700


def test_a_real_file_is_opened_with_the_words_that_are_given(h, real):
    path = f"{real}/text"
    with open(path, "w", 1, "utf-16-le", "strict", "\r\n") as file:
        assert file.line_buffering and file.write("\xe4\n") == 2
    with open(path, "rb", buffering=0) as file:
        assert isinstance(file, io.FileIO) and file.read() == b"\xe4\0\r\0\n\0"
    with open(path, encoding="ascii", errors="ignore", newline="") as file:
        assert file.read() == "\0\r\0\n\0"
    with open(f"{real}/made", "w", opener=lambda path, flags: os.open(path, flags, 0o600)) as file:
        assert stat.S_IMODE(os.fstat(file.fileno()).st_mode) == 0o600
    folder = os.open(real, os.O_RDONLY)
    fd = os.open("beside", os.O_WRONLY | os.O_CREAT, 0o400, dir_fd=folder)
    with open(fd, "w", closefd=False) as file:
        file.write("x")
    assert os.write(fd, b"y") == 1 and os.stat("beside", dir_fd=folder).st_size == 2
    assert stat.S_IMODE(os.stat(f"{real}/beside").st_mode) == 0o400
    for it in (fd, folder):
        os.close(it)


# ---- what is refused, and what does nothing

REFUSED = [
    ("EPERM", os.unlink, ()),
    ("EPERM", os.remove, ()),
    ("EXDEV", os.rename, ("/tmp/x",)),
    ("EXDEV", os.replace, ("/tmp/x",)),
    ("EXDEV", os.link, ("/tmp/x",)),
    ("EOPNOTSUPP", os.getxattr, ("user.x",)),
    ("EOPNOTSUPP", os.setxattr, ("user.x", b"1")),
    ("EOPNOTSUPP", os.listxattr, ()),
    ("EOPNOTSUPP", os.removexattr, ("user.x",)),
    ("EOPNOTSUPP", os.chdir, ()),
    ("EOPNOTSUPP", os.chroot, ()),
    ("EOPNOTSUPP", os.statvfs, ()),
    ("EOPNOTSUPP", os.pathconf, ("PC_NAME_MAX",)),
]


@pytest.mark.parametrize("number, early, more", REFUSED)
def test_what_is_refused(h, number, early, more):
    call = getattr(os, early.__name__)
    for kind in (str, os.fsencode, pathlib.Path):
        file, group = kind(f"{AT}/a/pids.max"), kind(f"{AT}/a")
        assert told(call, file, *more) == (number, os.fspath(file))
        of_group = "EISDIR" if early.__name__ in ("unlink", "remove") else number
        assert told(call, group, *more) == (of_group, os.fspath(group))
        # of what is renamed to elsewhere only the parent is looked up
        missing = "none/none" if number == "EXDEV" else "none"
        assert code(call, kind(f"{AT}/{missing}"), *more) == "ENOENT"
    assert h.groups() == ["/", "/a"] and h.changes() == 1


WITHOUT_EFFECT = [
    (os.chmod, (0o600,)),
    (os.chown, (0, 0)),
    (os.lchown, (0, 0)),
    (os.utime, ()),
]


@pytest.mark.parametrize("early, more", WITHOUT_EFFECT)
def test_what_does_nothing(h, early, more):
    call = getattr(os, early.__name__)
    before = [os.stat(f"{AT}/a/pids.max"), os.stat(f"{AT}/a")]
    assert call(f"{AT}/a/pids.max", *more) is None and call(os.fsencode(f"{AT}/a"), *more) is None
    assert [os.stat(f"{AT}/a/pids.max"), os.stat(f"{AT}/a")] == before
    for missing in (f"{AT}/none/pids.max", "/none/x"):
        assert told(call, missing, *more) == ("ENOENT", None if early.__name__ == "utime" else missing)


# Measured on a mount: the errno of a truncation by a path, and by a descriptor that was opened for reading, or for writing.
TRUNCATED = {0: ("ok", "EINVAL", "ok"), 5: ("ok", "EINVAL", "ok"), -1: ("EINVAL", "EINVAL", "EINVAL")}


@pytest.mark.parametrize("size", TRUNCATED)
@pytest.mark.parametrize("name", ["pids.max", "pids.current", "cgroup.procs", "cgroup.kill"])
def test_a_truncation_changes_nothing_and_has_the_errno_of_a_mount(h, name, size):
    if os.geteuid() != 0:
        pytest.skip("only the superuser opens each file for reading and writing")
    path = f"{AT}/a/{name}"
    by_path, for_reading, for_writing = TRUNCATED[size]
    assert code(os.truncate, path, size) == code(os.truncate, os.fsencode(path), size) == by_path
    for flags, wanted in ((os.O_RDONLY, for_reading), (os.O_WRONLY, for_writing), (os.O_RDWR, for_writing)):
        fd = os.open(path, flags)
        assert code(os.truncate, fd, size) == code(os.ftruncate, fd, size) == wanted
        os.close(fd)
    assert h.read("/a", "pids.max") == "max\n" and h.changes() == 1


def test_a_group_is_not_truncated(h):
    group = os.open(f"{AT}/a", os.O_RDONLY)
    assert code(os.truncate, group, 0) == code(os.ftruncate, group, 0) == "EINVAL"
    assert told(os.truncate, f"{AT}/a", 0) == ("EISDIR", f"{AT}/a")
    assert told(os.truncate, f"{AT}/a", -1) == ("EINVAL", f"{AT}/a")
    for name in ("none", "none/pids.max", "a/none"):
        assert told(os.truncate, f"{AT}/{name}", 0) == ("ENOENT", f"{AT}/{name}")
        assert code(os.truncate, f"{AT}/{name}", -1) == "EINVAL"
    os.close(group)


def test_a_file_of_a_removed_group_is_truncated(h):
    reading, writing = os.open(f"{AT}/a/pids.max", os.O_RDONLY), os.open(f"{AT}/a/pids.max", os.O_RDWR)
    os.rmdir(f"{AT}/a")
    assert code(os.truncate, reading, 0) == "EINVAL" and code(os.truncate, writing, 0) == "ok"
    os.close(reading)
    os.close(writing)
    assert code(os.truncate, writing, 0) == "EBADF"


@pytest.mark.parametrize(
    "link",
    [*(f"/proc/{it}/fd" for it in ("self", "thread-self", os.getpid(), f"self/task/{os.getpid()}")), "/dev/fd"],
)
@pytest.mark.parametrize("name", ["a", "a/pids.max", "a/cgroup.procs", "a/pids.current"])
def test_the_link_of_a_descriptor_names_its_file(h, link, name):
    path = f"{AT}/{name}"
    fd = os.open(path, os.O_RDONLY)
    at = f"{link}/{fd}"
    assert os.stat(at) == os.stat(path) == os.stat(os.fsencode(at)) and os.path.samefile(at, path)
    assert os.access(at, os.R_OK) and os.path.isdir(at) == (name == "a")
    assert stat.S_ISLNK(os.lstat(at).st_mode) and stat.S_ISLNK(os.stat(at, follow_symlinks=False).st_mode)
    assert os.readlink(at) == os.path.realpath(at) == path and os.readlink(os.fsencode(at)) == os.fsencode(path)
    if name == "a":
        assert os.listdir(at) == os.listdir(path) and code(open, at) == "EISDIR"
    else:
        assert pathlib.Path(at).read_text() == pathlib.Path(path).read_text()
        assert told(os.listdir, at) == ("ENOTDIR", at)
    for call in (os.unlink, os.rmdir):
        assert code(call, at) != "ok" and os.path.exists(path)
    os.close(fd)
    assert code(os.stat, at) == "ENOENT" and code(open, at) == "ENOENT"


def test_links_of_other_files_are_as_before(h, real):
    fd = os.open(f"{real}/a/pids.max", os.O_RDONLY)
    for at in (f"/proc/self/fd/{fd}", f"/dev/fd/{fd}"):
        assert os.path.samefile(at, f"{real}/a/pids.max") and pathlib.Path(at).read_text() == "max\n"
    served = os.open(f"{AT}/a/pids.max", os.O_RDONLY)
    for at in (f"/proc/1/fd/{served}", f"/proc/self/fd/{served}/x", f"/proc/self/fdinfo/{served}", "/proc/self/fd/x"):
        assert not os.path.exists(at) or not os.path.samefile(at, f"{AT}/a/pids.max")
    os.close(served)
    os.close(fd)


def test_the_link_of_a_descriptor_of_the_root_names_it(h):
    fd = os.open(AT, os.O_RDONLY)
    assert os.readlink(f"/proc/self/fd/{fd}") == AT and code(os.readlink, AT) == "EINVAL"
    os.close(fd)


@pytest.mark.parametrize("name", ["a", "a/pids.max", "a/pids.current", "a/cgroup.kill"])
def test_a_touch_of_what_is_there(h, name):
    """As on a mount: it is there already, and nothing is made."""
    before = os.stat(f"{AT}/{name}")
    assert pathlib.Path(f"{AT}/{name}").touch() is None and os.stat(f"{AT}/{name}") == before
    assert code(pathlib.Path(f"{AT}/{name}").touch, exist_ok=False) == "EEXIST" and h.changes() == 1


@pytest.mark.parametrize(
    "name, wanted", [("b", "EACCES"), ("a/x", "EACCES"), ("b/x", "ENOENT"), ("a/pids.max/x", "ENOTDIR")]
)
def test_a_touch_makes_no_file(h, name, wanted):
    for exist_ok in (True, False):
        assert code(pathlib.Path(f"{AT}/{name}").touch, exist_ok=exist_ok) == wanted
    assert h.groups() == ["/", "/a"]


def test_a_file_is_synced_and_a_group_is_not(h):
    file, group = os.open(f"{AT}/a/pids.max", os.O_RDONLY), os.open(f"{AT}/a", os.O_RDONLY)
    for sync in (os.fsync, os.fdatasync):
        assert sync(file) is None and code(sync, group) == "EINVAL", sync
    for fd in (file, group):
        os.close(fd)


@pytest.mark.parametrize("name", ["fsync", "fdatasync", "fchdir"])
def test_a_file_object_stands_for_its_descriptor(h, real, name):
    call, results = getattr(os, name), []
    for top in (AT, real):
        for open_as in ("r", "rb", "r+"):
            with open(f"{top}/a/pids.max", open_as) as file:
                results.append((code(call, file), code(call, fd=file)))
        with pytest.raises(ValueError):  # the file is closed
            call(file)
    refused = "EOPNOTSUPP" if name == "fchdir" else "ok"
    assert results == [(refused, refused)] * 3 + [("ENOTDIR", "ENOTDIR") if name == "fchdir" else ("ok", "ok")] * 3


class Number:
    """Of another class than int, as those of arrays."""

    def __init__(self, number):
        self.number = number

    def __index__(self):
        return self.number


def test_what_is_no_path_reaches_the_real_function(h, real):
    with open(f"{real}/a/pids.max") as file:
        number = Number(file.fileno())
        assert os.stat(number).st_size == os.fstat(number).st_size == 4 and os.access(real, os.R_OK)
        assert open(number, closefd=False).read() == "max\n"
    for call in (os.stat, os.listdir, os.chmod, os.unlink, os.mkdir, os.getxattr, os.fsync):
        for words in ((1.5,), (object(),), ()):
            if (call, words) != (os.listdir, ()):
                with pytest.raises(TypeError):
                    call(*words)
    assert code(os.listxattr) in ("ok", "EOPNOTSUPP")  # of the working directory


# what a call of the name refuses by its arguments alone
MISTAKEN = [
    ("chmod",),
    ("chmod", "x"),
    ("chmod", 0o600, 1),
    ("lchown", 0),
    ("chown", 0),
    ("chown", "root", "root"),
    ("chown", 1 << 40, 0),
    ("utime", (1,)),
    ("utime", "now"),
    ("mkdir", "x"),
    ("mknod", "x"),
    ("mkfifo", "x"),
    ("unlink", 1),
    ("getxattr",),
    ("setxattr", "user.x"),
    ("pathconf", "PC_NOTHING"),
    ("statvfs", 1),
    ("chdir", 1),
]


@pytest.mark.parametrize("name, words", [(name, words) for name, *words in MISTAKEN])
def test_mistaken_arguments_are_refused_as_by_a_real_file(h, real, name, words):
    found = [outcome(getattr(os, name), f"{top}/a/pids.max", *words) for top in (AT, real)]
    assert found[0] == found[1] and found[0][0] in ("TypeError", "ValueError", "OverflowError")


def test_mistaken_arguments_by_name_are_refused(h):
    path, fd = f"{AT}/a/pids.max", os.open(f"{AT}/a/pids.max", os.O_RDONLY)
    for call, words, more in (
        (os.utime, (path, (1, 2)), {"ns": (1, 2)}),
        (os.utime, (), {"path": path, "times": "x"}),
        (os.chmod, (path, 0o600), {"nothing": 1}),
        (os.fchmod, (fd,), {}),
        (os.fchmod, (path, 0o600), {}),
        (os.fchown, (fd, "root", 0), {}),
        (os.fsync, (path,), {}),
    ):
        with pytest.raises((TypeError, ValueError)):
            call(*words, **more)
    assert os.chmod(mode=0o600, path=path) is os.utime(path, ns=(1, 2), follow_symlinks=False) is None
    folder = os.open(f"{AT}/a", os.O_RDONLY)
    assert os.chmod("pids.max", 0o600, dir_fd=folder) is os.fchown(fd, -1, -1) is os.utime(fd) is None
    os.close(folder)
    os.close(fd)


# functions that take a name and no descriptor, with their other arguments
OF_NAMES = [
    *(
        ("lstat",),
        ("access", 0),
        ("mkdir",),
        ("rmdir",),
        ("readlink",),
        ("unlink",),
        ("remove",),
        ("open", os.O_RDONLY),
    ),
    *(("mkfifo",), ("mknod",), ("lchown", -1, -1), ("chroot",), ("rename", "x"), ("replace", "x"), ("link", "x")),
    ("symlink", "x"),
]


@pytest.mark.parametrize("name", ["a/pids.max", "a"])
@pytest.mark.parametrize("call, words", [(name, words) for name, *words in OF_NAMES])
def test_a_descriptor_is_no_name(h, real, call, words, name):
    for top in (AT, real):
        fd = os.open(f"{top}/{name}", os.O_RDONLY)
        assert outcome(getattr(os, call), fd, *words) == ("TypeError", None), top
        if words == ["x"]:
            assert outcome(getattr(os, call), f"{top}/a", fd) == ("TypeError", None), top
        os.close(fd)
    assert h.groups() == ["/", "/a"]


BESIDE_A_DESCRIPTOR = [
    ("stat", [], {"follow_symlinks": False}),
    ("stat", [], {"dir_fd": 0}),
    ("stat", [], {"dir_fd": 0, "follow_symlinks": False}),
    ("utime", [], {"follow_symlinks": False}),
    ("utime", [], {"dir_fd": 0}),
    ("chown", [-1, -1], {"dir_fd": 0}),
    ("getxattr", ["user.x"], {"follow_symlinks": False}),
    ("listxattr", [], {"follow_symlinks": False}),
]


@pytest.mark.parametrize("call, words, more", BESIDE_A_DESCRIPTOR)
def test_words_that_do_not_go_with_a_descriptor(h, real, call, words, more):
    for top in (AT, real):
        for name in ("a/pids.max", "a"):
            fd = os.open(f"{top}/{name}", os.O_RDONLY)
            with pytest.raises(ValueError, match=f"^{call}: .*fd"):
                getattr(os, call)(fd, *words, **more)
            os.close(fd)


@pytest.mark.parametrize("size", [1 << 63, 1 << 70, -1 << 70, 0.5, "1", None, b""])
def test_a_length_is_a_number_of_the_kernel(h, real, size):
    for top in (AT, real):
        for name in ("a/pids.max", "a", "none"):
            assert outcome(os.truncate, f"{top}/{name}", size)[0] in ("OverflowError", "TypeError"), top
        fd = os.open(f"{top}/a/pids.max", os.O_RDWR)
        assert outcome(os.truncate, fd, size)[0] in ("OverflowError", "TypeError"), top
        assert outcome(os.ftruncate, fd, size)[0] in ("OverflowError", "TypeError"), top
        os.close(fd)
    assert h.read("/a", "pids.max") == "max\n"


@pytest.mark.parametrize("name", ["a/pids.max", "a", "none", "none/../a", "x" * 300])
@pytest.mark.parametrize(
    "mode, more",
    [(1 << 40, {}), (4.0, {}), ("r", {}), (None, {}), (0, {"nothing": 1}), (0, {"dir_fd": "x"}), (0, {"dir_fd": 1.5})],
)
def test_mistaken_arguments_of_access(h, real, name, mode, more):
    for top in (AT, real):
        with pytest.raises((TypeError, OverflowError)):
            os.access(f"{top}/{name}", mode, **more)
    found = [os.access(f"{top}/{name}", Number(os.F_OK), effective_ids=True, dir_fd=None) for top in (AT, real)]
    assert found[0] == found[1]


@pytest.mark.parametrize("call", ["stat", "lstat", "mkdir", "rmdir", "readlink", "unlink"])
def test_a_descriptor_beside_a_path_is_a_number(h, real, call):
    for top in (AT, real):
        for name in (f"{top}/a", "a"):
            with pytest.raises(TypeError):
                getattr(os, call)(name, dir_fd="x")
    fd = os.open(AT, os.O_RDONLY)
    assert os.path.samestat(os.stat("a", dir_fd=fd), os.stat(f"{AT}/a", dir_fd=Number(fd)))
    os.close(fd)


def test_calls_of_a_descriptor_that_do_nothing(h):
    fd = os.open(f"{AT}/a/pids.max", os.O_RDWR)
    assert [
        os.fchmod(fd, 0o600),
        os.fchown(fd, 0, 0),
        os.ftruncate(fd, 0),
        os.utime(fd),
    ] == [None] * 4
    assert os.pread(fd, 9, 0) == b"max\n" and stat.S_IMODE(os.fstat(fd).st_mode) == 0o644
    os.close(fd)
    assert code(os.fchmod, fd, 0o600) == code(os.ftruncate, fd, 0) == "EBADF"


def test_real_files_change_meanwhile(h, real):
    file = f"{real}/a/pids.max"
    os.chmod(file, 0o640)
    os.truncate(file, 2)
    os.utime(file, (1, 2))
    os.setxattr(file, "user.x", b"1") if code(os.setxattr, file, "user.x", b"0") == "ok" else None
    it = os.stat(file)
    assert (stat.S_IMODE(it.st_mode), it.st_mtime, it.st_size) == (
        0o640,
        2,
        2,
    ) and os.statvfs(real).f_bsize > 0
    os.mkfifo(f"{real}/fifo")
    os.link(file, f"{real}/linked")
    os.symlink(file, f"{real}/link")
    assert os.readlink(f"{real}/link") == file and stat.S_ISFIFO(os.lstat(f"{real}/fifo").st_mode)
    os.symlink("nowhere", f"{real}/broken")
    assert [os.access(f"{real}/broken", os.F_OK, follow_symlinks=it) for it in (True, False)] == [False, True]
    for name in ("fifo", "linked", "link", "broken", "a/pids.max"):
        os.unlink(f"{real}/{name}")
    os.rmdir(f"{real}/a")
    assert os.listdir(real) == []
    with tempfile.TemporaryFile(dir=real) as temporary:
        assert temporary.write(b"x") == 1


# ---- listings


def test_a_listing_ends_once(h, real):
    for top in (AT, real):
        scan = os.scandir(f"{top}/a")
        names = [entry.name for entry in scan]
        assert names == os.listdir(f"{top}/a") and list(scan) == []
        with pytest.raises(StopIteration):
            next(scan)
        scan.close()
        scan.close()
        with os.scandir(f"{top}/a") as scan:
            next(scan)
        assert list(scan) == []


def test_a_relative_name_is_that_of_the_working_directory(h, real, monkeypatch):
    monkeypatch.chdir(real)
    assert os.listdir() == os.listdir(".") == ["a"] and os.listdir(b".") == [b"a"] and os.listdir(None) == ["a"]
    assert [entry.path for entry in os.scandir()] == ["./a"] and os.path.isdir("a") and not os.path.exists("b")
    with open("a/pids.max") as file:
        assert file.read() == "max\n"


def test_a_place_in_the_working_directory(tmp_path, monkeypatch):
    (tmp_path / "top").mkdir()
    monkeypatch.chdir(tmp_path / "top")
    with mounted_at(tmp_path / "top") as h:
        os.mkdir("a")
        assert (
            h.groups() == ["/", "/a"] and "a" in os.listdir() and "a" in os.listdir(None) and b"a" in os.listdir(b".")
        )
        assert "./a" in [entry.path for entry in os.scandir()] and os.path.isdir("a/../a")
        with open("a/pids.max", "w") as file:
            file.write("7")
        assert h.limit("/a") == 7 and os.stat("a/pids.max").st_size == 2


def test_a_name_beside_a_real_folder_is_not_one_of_the_working_directory(real, tmp_path, monkeypatch):
    """The working directory is a place of served files, and the descriptor is that of a real folder."""
    (tmp_path / "top").mkdir()
    monkeypatch.chdir(tmp_path / "top")
    with mounted_at(tmp_path / "top") as h:
        h.mkdir("/served")
        fd = os.open(real, os.O_RDONLY | os.O_DIRECTORY)
        assert os.stat("a", dir_fd=fd).st_ino == os.stat(f"{real}/a").st_ino and os.access("a", os.F_OK, dir_fd=fd)
        assert told(os.stat, "served", dir_fd=fd) == told(os.rmdir, "served", dir_fd=fd) == ("ENOENT", "served")
        os.mkdir("b", dir_fd=fd)
        assert os.path.isdir(f"{real}/b") and h.groups() == ["/", "/served"]
        os.rmdir("b", dir_fd=fd)
        assert not os.path.exists(f"{real}/b")
        inner = os.open("a/pids.max", os.O_RDONLY, dir_fd=fd)
        assert os.read(inner, 9) == b"max\n"
        os.close(inner)
        os.close(fd)


# ---- errors name the path as it was given


@pytest.mark.parametrize("spelling", [f"{AT}/none", f"{AT}//none/", f"{AT}/./a/../none"])
def test_an_error_has_the_path_that_was_given(h, spelling):
    for call in (
        os.stat,
        os.lstat,
        os.listdir,
        os.scandir,
        os.rmdir,
        os.readlink,
        open,
    ):
        assert told(call, spelling) == ("ENOENT", spelling), call
    assert told(os.mkdir, f"{spelling}/x") == ("ENOENT", f"{spelling}/x")
    with pytest.raises(FileNotFoundError) as failed:
        os.stat(spelling)
    assert failed.value.strerror == os.strerror(errno.ENOENT) and failed.value.filename2 is None


def names_in(failure):
    return [failure.errno, failure.filename, failure.filename2, str(failure)]


@pytest.mark.parametrize("name", ["rename", "replace", "link", "symlink"])
def test_an_error_of_two_paths_has_both(h, real, name):
    """`given` has the paths as the caller gave them, and whether they are bytes."""
    for spelled in (os.fspath, os.fsencode, pathlib.Path):
        for src, dst in ((f"{AT}/a/pids.max", f"{AT}/a"), (f"{real}/none", f"{AT}/none/x"), (f"{AT}/a", "/none/x/y")):
            with pytest.raises(OSError) as failed:
                getattr(os, name)(spelled(src), spelled(dst))
            given = [os.fspath(spelled(path)) for path in (src, dst)]
            assert names_in(failed.value)[1:3] == given
            assert str(failed.value).endswith(f": {given[0]!r} -> {given[1]!r}")


@pytest.mark.parametrize("name", ["rename", "link"])
def test_the_first_of_two_paths_is_refused_first(h, real, name):
    """It is elsewhere and missing, and the second is beside what is no group."""
    call, found = getattr(os, name), []
    for top in (AT, real):
        fd = os.open(f"{top}/a/pids.max", os.O_RDONLY)
        found.append(code(call, f"{real}/none/x", "y", dst_dir_fd=fd))
        found.append(code(call, f"{real}/a/pids.max", "y", dst_dir_fd=fd))
        found.append(code(call, "x", "y", src_dir_fd=999999, dst_dir_fd=fd))
        os.close(fd)
    assert found == ["ENOENT", "ENOTDIR", "EBADF"] * 2


def test_an_error_names_bytes_as_bytes_and_a_descriptor_by_its_number(h, real):
    found = []
    for top in (AT, real):
        fd = os.open(f"{top}/a/pids.max", os.O_RDONLY)
        for call in (os.stat, os.listdir, os.scandir, os.mkdir, os.rmdir, os.unlink, os.chdir, open):
            for path in (os.fsencode(f"{top}/none/x"), fd):
                if path != fd or call in (os.listdir, os.scandir):
                    with pytest.raises(OSError) as failed:
                        call(path)
                    found.append((call.__name__, failed.value.errno, failed.value.filename))
        os.close(fd)
    served, wanted = found[: len(found) // 2], found[len(found) // 2 :]
    as_served = [
        (*it[:2], it[2].replace(os.fsencode(real), AT.encode()) if isinstance(it[2], bytes) else it[2]) for it in wanted
    ]
    assert served == as_served


def test_an_error_of_a_descriptor_names_nothing(h, real):
    found = []
    for top in (AT, real):
        fd = os.open(f"{top}/a/pids.max", os.O_RDONLY)
        for call, *words in (
            (os.write, b"5"),
            (os.pwrite, b"5", 0),
            (os.writev, [b"5"]),
            (os.ftruncate, 1),
            (os.truncate, 1),
            (os.truncate, -1),
            (os.lseek, -1, 0),
            (os.lseek, 0, 99),
            (os.pread, 1, -1),
            (os.fchdir,),
        ):
            with pytest.raises(OSError) as failed:
                call(fd, *words)
            found.append((call.__name__, *names_in(failed.value)[1:3], str(failed.value).endswith("'")))
        os.close(fd)
        with open(f"{top}/a/pids.max", "wb", buffering=0) as file, pytest.raises(OSError) as failed:
            file.seek(-1)
        found.append(names_in(failed.value))
        with pytest.raises(OSError) as failed:
            os.mkfifo(f"{top}/a/pids.max")
        found.append(names_in(failed.value))
    assert found[: len(found) // 2] == found[len(found) // 2 :]
    with open(f"{AT}/a/pids.max", "wb", buffering=0) as file, pytest.raises(OSError) as failed:
        file.write(b"x")
    assert names_in(failed.value) == [errno.EINVAL, None, None, f"[Errno {errno.EINVAL}] Invalid argument"]


# on a mount and elsewhere an error has the path that the caller gave, not what it is joined to
RELATIVE = ["none", "./a/../none", "a/none"]


@pytest.mark.parametrize("call", ["stat", "lstat", "rmdir", "readlink", "unlink", "chmod", "open"])
@pytest.mark.parametrize("name", RELATIVE)
def test_an_error_has_the_name_beside_a_descriptor(h, real, call, name):
    more = {"chmod": (0o700,), "open": (os.O_RDONLY,)}.get(call, ())
    for top in (AT, real):
        fd = os.open(top, os.O_RDONLY | os.O_DIRECTORY)
        assert told(getattr(os, call), name, *more, dir_fd=fd) == ("ENOENT", name)
        os.close(fd)


@pytest.mark.parametrize("name", RELATIVE)
def test_an_error_has_the_name_in_the_working_directory(tmp_path, monkeypatch, name):
    for place in ("served", "real"):
        (tmp_path / place / "a").mkdir(parents=True)
    for place in ("served", "real"):
        monkeypatch.chdir(tmp_path / place)
        with mounted_at(tmp_path / "served") as h:
            h.mkdir("/a")
            for call in (os.stat, os.lstat, os.listdir, os.scandir, os.rmdir, os.readlink, os.unlink, open):
                assert told(call, name) == ("ENOENT", name), (place, call)
            assert told(os.mkdir, f"{name}/x") == ("ENOENT", f"{name}/x")


# ---- paths of more than 4,095 bytes, all of whose names are short

OF_A_PATH = ["stat", "lstat", "listdir", "scandir", "mkdir", "rmdir", "readlink", "unlink", "chmod", "open"]


@pytest.mark.parametrize("call", OF_A_PATH)
@pytest.mark.parametrize("name", ["a", "b", ".", "x" * 250])
def test_a_long_path_of_short_names(h, real, call, name):
    more = {"chmod": (0o700,), "open": (os.O_RDONLY,)}.get(call, ())
    for top in (AT, real):
        path = f"{top}/{name}" + f"/{name}" * ((TEXT_MAX + 1) // (len(name) + 1))
        for long in (path, f"{path}/pids.max", f"{top}/".ljust(TEXT_MAX + 1, "/")):
            assert told(getattr(os, call), long, *more) == ("ENAMETOOLONG", long)
            assert told(open, long) == told(open, long, "w") == ("ENAMETOOLONG", long)
            assert not os.access(long, os.F_OK) and not os.path.exists(long)
        odd = f"{top}/" + "\u00e9/" * (TEXT_MAX // 3)  # its letters are fewer than its bytes
        assert told(getattr(os, call), odd, *more) == ("ENAMETOOLONG", odd)
        # one byte less
        assert os.path.isdir(f"{top}/".ljust(TEXT_MAX, "/"))
    assert h.groups() == ["/", "/a"]


def test_a_name_that_makes_the_path_of_a_group_too_long(h):
    """A path in the hierarchy has at most 4,095 bytes, also if the caller gives its last name alone."""
    fd = os.open(AT, os.O_RDONLY)
    for _ in range(15):
        os.mkdir("x" * NAME_MAX, dir_fd=fd)
        above, fd = fd, os.open("x" * NAME_MAX, os.O_RDONLY, dir_fd=fd)
        os.close(above)
    name = "y" * (TEXT_MAX - 15 * (NAME_MAX + 1) - 1)
    for call in (os.stat, os.lstat, os.mkdir, os.rmdir, os.readlink, os.unlink):
        assert told(call, name + "y", dir_fd=fd) == ("ENAMETOOLONG", name + "y"), call
    assert told(os.open, name + "y", os.O_RDONLY, dir_fd=fd) == ("ENAMETOOLONG", name + "y")
    assert told(os.stat, name, dir_fd=fd) == ("ENOENT", name)
    assert os.mkdir(name, dir_fd=fd) is None and stat.S_ISDIR(os.stat(name, dir_fd=fd).st_mode)
    assert len(h.groups()[-1]) == TEXT_MAX
    os.close(fd)
