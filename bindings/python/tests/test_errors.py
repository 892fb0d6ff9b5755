"""What an error says, that it can be sent between processes, and that words never leak into other words of a command."""

import ast
import copy
import errno
import itertools
import multiprocessing
import pathlib
import pickle

import pytest

import makhloeum
from makhloeum import BadByte, BadFile, BadPath, BadValue, Hierarchy, NoGroup, Refused
from makhloeum._library import BUSY, CLOSED, OUT_OF_MEMORY, TIMED_OUT, TOO_SMALL, library
from makhloeum._table import DEPTH_MAX, NAME_MAX, PID_MAX, TEXT_MAX


def test_type_checkers_find_every_error():
    # they don't run the module: the list of its names has to be written out
    path = pathlib.Path(makhloeum.errors.__file__)
    lists = [
        node.value
        for node in ast.parse(path.read_text()).body
        if isinstance(node, ast.Assign) and node.targets[0].id == "__all__"
    ]
    classes = {
        name for name, kind in vars(makhloeum.errors).items() if isinstance(kind, type) and issubclass(kind, Refused)
    }
    assert [set(ast.literal_eval(names)) for names in lists] == [classes]
    assert classes < set(makhloeum.__all__)


@pytest.fixture
def h():
    with Hierarchy() as hierarchy:
        hierarchy.mkdir("/a")
        hierarchy.mkdir("/b")
        yield hierarchy


def refusal(call):
    with pytest.raises(Refused) as refused:
        call()
    return refused.value


TEXTS = [
    (lambda h: h.mkdir("/a"), "mkdir /a: File exists (exists)"),
    (lambda h: h.mkdir("/x/y"), "mkdir /x/y: No such file or directory (nogroup /x)"),
    (lambda h: h.rmdir("/"), "rmdir /: Device or resource busy (rootfixed)"),
    (lambda h: h.fork(1, 1), "fork 1 1: File exists (pidinuse 1)"),
    (lambda h: h.exit(9), "exit 9: No such process (noprocess 9)"),
    (lambda h: h.read("/a", "x"), "read /a x: No such file or directory (file: there is no file of that name)"),
    (
        lambda h: h.write("/a", "pids.max", -1),
        "write /a pids.max -1: Invalid argument (value: the value is not a number, or out of range)",
    ),
    (
        lambda h: h.mkdir("/my service"),
        "mkdir /my service: Invalid argument (path: a name cannot have this byte, at 3)",
    ),
    (lambda h: h.children("/x"), "children /x: No such file or directory (nogroup /x)"),
    (lambda h: h.groups("/x"), "groups /x: No such file or directory (nogroup /x)"),
    (lambda h: h.undo() and h.undo() and h.undo(), "undo: No data available (nothing)"),
]


@pytest.mark.parametrize("call, text", TEXTS)
def test_the_text_names_command_errno_and_reply(h, call, text):
    assert str(refusal(lambda: call(h))) == text


@pytest.mark.parametrize("call, text", TEXTS)
@pytest.mark.parametrize("again", [copy.copy, copy.deepcopy, lambda it: pickle.loads(pickle.dumps(it))])
def test_an_error_can_be_copied_and_pickled(h, call, text, again):
    first = refusal(lambda: call(h))
    second = again(first)
    assert type(second) is type(first) and str(second) == text and second.__dict__ == first.__dict__
    assert (second.errno, second.strerror, second.filename) == (first.errno, first.strerror, first.filename)


def in_a_worker(path):
    with Hierarchy() as h:
        h.mkdir(path)


def test_an_error_comes_out_of_a_worker_pool():
    with multiprocessing.get_context("fork").Pool(2) as pool:
        with pytest.raises(NoGroup) as refused:
            pool.apply_async(in_a_worker, ("/x/y",)).get(timeout=600)
    assert refused.value.reply == "nogroup /x" and refused.value.filename == "/x/y"


def test_limits_of_the_hierarchy_block_as_a_real_mkdir_does(h):
    h.write("/a", "cgroup.max.descendants", 0)
    h.write("/b", "cgroup.max.depth", 0)
    for path in ("/a/x", "/b/x"):
        refused = refusal(lambda: h.mkdir(path))
        assert isinstance(refused, BlockingIOError) and refused.errno == errno.EAGAIN and refused.filename == path


@pytest.mark.parametrize(
    "path, kind, position",
    [
        ("a", makhloeum.NotRooted, 0),
        ("", makhloeum.NotRooted, 0),
        ("/a ", BadByte, 2),
        ("/b/\t", BadByte, 3),
        ("/a\n", BadByte, 2),
        ("/a\0", BadByte, 2),
        ("/é", BadByte, 1),
        (b"/\xff", BadByte, 1),
        ("/a\udcff", BadByte, 2),
        ("/" + "\udcff" * (TEXT_MAX // 2), BadByte, 1),
        ("/a\ud800", BadByte, 2),
        ("/a\udcff\udfff", BadByte, 2),
        ("\ud800", makhloeum.NotRooted, 0),
        ("/a/", makhloeum.EmptyName, 3),
        ("/.", makhloeum.DotName, 1),
        ("/a/pids.x", makhloeum.ReservedName, 3),
        ("/" + "x" * (NAME_MAX + 1), makhloeum.NameTooLong, 1),
        ("/x" * (DEPTH_MAX + 1), makhloeum.TooDeep, 2 * DEPTH_MAX + 1),
        ("/" + "x" * TEXT_MAX, makhloeum.PathTooLong, TEXT_MAX),
    ],
)
def test_the_fault_of_a_path_and_its_place(h, path, kind, position):
    calls = (
        h.mkdir,
        h.rmdir,
        h.children,
        h.groups,
        h.has_group,
        lambda it: h.read(it, "x y"),
        lambda it: h.write(it, "x", "y"),
    )
    for call in calls:
        refused = refusal(lambda: call(path))
        assert type(refused) is kind and isinstance(refused, BadPath) and refused.position == position
        assert f"at {position}" in str(refused)


def test_faults_are_explained_as_by_the_library(h):
    for kind in (makhloeum.BadSyntax, BadFile, makhloeum.BadDirection, BadValue):
        assert library.mk_message(kind.code).decode() == kind.explained
    assert str(refusal(lambda: h.read("/a", "cgroup.kill"))) == (
        "read /a cgroup.kill: Invalid argument (direction: the file cannot be read or written in this way)"
    )


WORDS = [
    "",
    " ",
    "/b ",
    " /b",
    "/b\t",
    "/b\n",
    "/b\r",
    "/b pids.max",
    "/b pids.max 5",
    "#",
    "x y",
    "pids.max ",
    "pids.max 5",
    "\n",
    "/c\nmkdir /d",
    "1 2",
    "cgroup.procs 1",
    "max\x0b",
    "5 #",
    "\x0b5",
]


def test_no_word_leaks_into_another(h):
    """Texts that are not one word are refused wherever they are put, and change nothing."""
    h.fork(1, 2)
    before = (h.depth(), h.groups(), h.read("/a", "pids.max"), h.read("/b", "pids.max"), h.where(2))
    for word in WORDS:
        for call in (h.mkdir, h.rmdir, h.children, h.groups, h.has_group):
            assert isinstance(refusal(lambda: call(word)), BadPath)
        assert isinstance(refusal(lambda: h.read(word, "pids.max")), BadPath)
        assert isinstance(refusal(lambda: h.read(word, "")), BadPath)
        assert isinstance(refusal(lambda: h.write(word, "pids.max", 5)), BadPath)
        assert isinstance(refusal(lambda: h.read("/b", word)), BadFile)
        assert isinstance(refusal(lambda: h.write("/b", word, "5")), BadFile)
        assert isinstance(refusal(lambda: h.write("/b", "pids.max", word)), BadValue)
        for call in (h.exit, h.where, lambda it: h.fork(it, 5), lambda it: h.fork(1, it)):
            with pytest.raises(TypeError):
                call(word)
    for path, file in itertools.product(WORDS, WORDS):
        assert isinstance(refusal(lambda: h.read(path, file)), BadPath)
    assert before == (h.depth(), h.groups(), h.read("/a", "pids.max"), h.read("/b", "pids.max"), h.where(2))


@pytest.mark.parametrize("pid", [0, -1, PID_MAX + 1, 2**31, 2**64, 2**64 + 1, -(2**64)])
def test_numbers_that_are_no_pid(h, pid):
    for call in (
        h.exit,
        h.where,
        lambda it: h.fork(it, 5),
        lambda it: h.fork(1, it),
        lambda it: h.write("/a", "cgroup.procs", it),
    ):
        assert isinstance(refusal(lambda: call(pid)), BadValue)


def test_blanks_around_a_value_are_dropped_as_in_a_file(h):
    for value in ("5\n", " 5", b"\t5\r\n", 5):
        h.write("/a", "pids.max", value)
        assert h.read("/a", "pids.max") == "5\n"


def test_what_is_no_text_is_a_type_error_as_for_os(h):
    """None, numbers and other objects are no paths: they don't become texts like 'None'."""
    for wrong in (None, 5, 5.0, ["/a"], object()):
        for call in (
            h.mkdir,
            h.rmdir,
            h.children,
            h.groups,
            h.has_group,
            h.current,
            h.processes,
            lambda it: h.read(it, "pids.max"),
            lambda it: h.read("/a", it),
            lambda it: h.write(it, "pids.max", 5),
            lambda it: h.write("/a", it, 5),
            h.line,
            h.vanish,
            lambda it: h.fail(it, error=errno.EIO),
            lambda it: h.read_many([(it, "pids.max")]),
        ):
            with pytest.raises(TypeError):
                call(wrong)
    for wrong in (None, 5.0, ["5"], object()):
        with pytest.raises(TypeError, match="no limit is 'max'"):
            h.write("/a", "pids.max", wrong)
    assert h.depth() == 2


def test_paths_may_be_of_pathlib_and_bytes(h):
    h.mkdir(pathlib.PurePosixPath("/a") / "x")
    h.mkdir(b"/a/y")
    assert h.children(pathlib.PurePosixPath("/a")) == h.children(b"/a") == ["x", "y"]
    refused = refusal(lambda: h.mkdir(pathlib.PurePosixPath("/a")))
    assert str(refused) == "mkdir /a: File exists (exists)" and refused.filename == "/a"


def test_a_closed_hierarchy_names_the_call():
    h = Hierarchy()
    h.close()
    for call, text in (
        (lambda: h.mkdir("/a"), "mkdir /a"),
        (lambda: h.current("/a"), "current /a"),
        (h.undo, "undo"),
        (h.groups, "groups /"),
        (lambda: h.read_many([("/a", "pids.max")]), "read_many"),
        (h.changes, "changes"),
        (lambda: h.wait(0), "wait"),
    ):
        with pytest.raises(ValueError, match=f"^{text}: the hierarchy is closed$"):
            call()


@pytest.mark.parametrize("given", ["/elsewhere", "else where", "/a/", b"/x\xff", pathlib.PurePosixPath("/a")])
@pytest.mark.parametrize(
    "line, kind, position",
    [
        ("mkdir a", makhloeum.NotRooted, 0),
        ("write /a/. x y", makhloeum.DotName, 3),
        (b" cat\t/a\xff  pids.max\r", BadByte, 2),
        ("rmdir /pids.x", makhloeum.ReservedName, 1),
    ],
)
def test_the_path_of_a_line_is_at_fault_and_the_given_one_is_named(h, line, kind, position, given):
    refused = refusal(lambda: h.line(line, path=given))
    assert type(refused) is kind and refused.fault == kind.fault and refused.position == position
    assert refused.filename == makhloeum._words._text(given) and f"at {position}" in refused.reply
    for line, kind in (
        ("mkdir /a", makhloeum.Exists),
        ("mkdir", makhloeum.BadSyntax),
        ("mkdir /a\n", makhloeum.BadSyntax),
        ("exit 9", makhloeum.NoProcess),
    ):
        refused = refusal(lambda: h.line(line, path=given))
        assert type(refused) is kind and refused.filename == makhloeum._words._text(given)


def test_without_a_path_a_line_has_the_words_of_the_answer(h):
    refused = refusal(lambda: h.line("mkdir a"))
    assert (type(refused), refused.reply, refused.fault, refused.position, refused.filename) == (
        BadPath,
        "path",
        0,
        None,
        None,
    )


CALLS = {
    "mk_open": (lambda h: Hierarchy(), "open"),
    "mk_copy": (lambda h: h.copy(), "copy"),
    "mk_line": (lambda h: h.line("mkdir /c"), "mkdir /c"),
    "mk_words": (lambda h: h.mkdir("/c"), "mkdir /c"),
    "mk_undo": (lambda h: h.undo(), "undo"),
    "mk_undo_to": (lambda h: h.undo_to(1), "undo to 1"),
    "mk_depth": (lambda h: h.depth(), "depth"),
    "mk_forget": (lambda h: h.forget(), "forget"),
    "mk_children": (lambda h: h.children("/a"), "children /a"),
    "mk_subtree": (lambda h: h.groups("/a"), "groups /a"),
    "mk_has_group": (lambda h: h.has_group("/a"), "has_group /a"),
    # generated by ./generate: calls of numbers of a group
    "mk_current": (lambda h: h.current("/a"), "current /a"),
    "mk_peak": (lambda h: h.peak("/a"), "peak /a"),
    "mk_limit": (lambda h: h.limit("/a"), "limit /a"),
    "mk_populated": (lambda h: h.populated("/a"), "populated /a"),
    # end of what is generated
    "mk_processes": (lambda h: h.processes("/a"), "processes /a"),
    "mk_read_many": (lambda h: h.read_many([("/a", "pids.max")]), "read_many"),
    "mk_changes": (lambda h: h.changes(), "changes"),
    "mk_fail": (lambda h: h.fail("/a", error=errno.EIO), "fail /a"),
    "mk_vanish": (lambda h: h.vanish("/a"), "vanish /a"),
    "mk_clear_faults": (lambda h: h.clear_faults(), "clear_faults"),
    "waiting": (lambda h: h.wait(2), "wait"),
}
STATUSES = {
    OUT_OF_MEMORY: (MemoryError, "out of memory"),
    CLOSED: (ValueError, "the hierarchy is closed"),
    BUSY: (RuntimeError, "a call of this thread is running"),
    TIMED_OUT: (RuntimeError, "unexpected status 8 of the library: nothing has changed in that time"),
    77: (RuntimeError, "unexpected status 77 of the library"),
}


@pytest.mark.parametrize(
    "name, status", [it for it in itertools.product(CALLS, STATUSES) if it != ("waiting", TIMED_OUT)]
)
def test_each_status_has_its_own_error(h, monkeypatch, name, status):
    """Python can't interrupt a call by a handler of C, and most statuses can't come: so they are given."""
    call, command = CALLS[name]
    kind, text = STATUSES[status]
    monkeypatch.setattr(makhloeum._changes if name == "waiting" else library, name, lambda *words: status)
    with pytest.raises(kind) as error:
        call(h)
    assert type(error.value) is kind and str(error.value) == f"{command}: {text}"
    monkeypatch.undo()
    assert h.children("/") == ["a", "b"] and h.depth() == 2


@pytest.mark.parametrize("status", [OUT_OF_MEMORY, BUSY, 77])
def test_a_hierarchy_that_could_not_be_closed_is_open(h, monkeypatch, status):
    kind, text = STATUSES[status]
    monkeypatch.setattr(library, "mk_close", lambda *words: status)
    with pytest.raises(kind, match=f"^close: {text}$"):
        h.close()
    monkeypatch.undo()
    assert not h.closed and h.children("/") == ["a", "b"]


@pytest.mark.parametrize("name", ["mk_line", "mk_words", "mk_undo", "mk_children", "mk_subtree"])
def test_a_buffer_does_not_grow_beyond_the_longest_answer(h, monkeypatch, name):
    """That is a first line, and a line for each of 4,194,303 pids."""
    call, command = CALLS[name]
    sizes = []

    def too_small(*words):
        sizes.append(words[-2])
        return TOO_SMALL

    monkeypatch.setattr(library, name, too_small)
    with pytest.raises(RuntimeError, match=f"^{command}: unexpected status 3 of the library: the buffer is too small$"):
        call(h)
    assert sizes == sorted(set(sizes)) and len(sizes) < 30
    assert sizes[-2] <= 32 + 10 * PID_MAX <= sizes[-1] < 2 * (32 + 10 * PID_MAX)
