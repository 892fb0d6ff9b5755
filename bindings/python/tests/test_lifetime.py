"""How a hierarchy begins and ends."""

import gc
import os
import pickle
import subprocess
import sys
import warnings

import pytest

import makhloeum
from makhloeum import Hierarchy


def memory():
    """The memory of this process that is resident, in bytes."""
    with open("/proc/self/statm", encoding="ascii") as file:
        return int(file.read().split()[1]) * os.sysconf("SC_PAGE_SIZE")


def grown(rounds, call):
    for _ in range(rounds // 10):
        call()
    before = memory()
    for _ in range(rounds):
        call()
    return memory() - before


def test_a_closed_hierarchy_leaves_no_memory():
    def use():
        with Hierarchy() as h:
            h.mkdir("/a")

    # an engine takes more than 100,000 bytes
    assert grown(1000, use) < 20_000_000


def test_a_hierarchy_is_initialized_once():
    with Hierarchy() as h:
        h.mkdir("/a")

        def again():
            with pytest.raises(RuntimeError):
                h.__init__()

        assert grown(1000, again) < 20_000_000
        assert h.has_group("/a")
    with pytest.raises(RuntimeError):
        h.__init__()


def test_a_hierarchy_is_not_pickled():
    with Hierarchy() as h:
        with pytest.raises(TypeError):
            pickle.dumps(h)
        gc.collect()
        h.mkdir("/a")


def test_a_closed_copy_leaves_no_memory():
    with Hierarchy() as h:
        h.mkdir("/a")
        assert grown(1000, lambda: h.copy().close()) < 20_000_000


@pytest.mark.parametrize("is_copy", [False, True])
@pytest.mark.filterwarnings("ignore:unclosed")
def test_a_hierarchy_that_nobody_closes_leaves_no_memory(is_copy):
    with Hierarchy() as first:
        make = first.copy if is_copy else Hierarchy
        assert grown(1000, lambda: make().mkdir("/b")) < 20_000_000


def test_a_hierarchy_is_entered_once():
    with Hierarchy() as h:
        with pytest.raises(RuntimeError):
            h.__enter__()
        h.mkdir("/a")
    assert h.closed
    with pytest.raises(ValueError):
        h.__enter__()


def test_an_unclosed_hierarchy_is_freed_where_the_warning_is_an_error():
    h, at = Hierarchy(), []

    def warn(*words, **more):
        raise ResourceWarning

    with pytest.raises(ResourceWarning):
        h.__del__(warn, at.append)
    assert at == [h._at]
    h.close()


def test_an_unclosed_hierarchy_gives_a_warning():
    with pytest.warns(ResourceWarning, match="unclosed"):
        h = Hierarchy()
        del h
        gc.collect()
    with warnings.catch_warnings():
        warnings.simplefilter("error")
        h = Hierarchy()
        h.close()
        del h
        gc.collect()


@pytest.mark.parametrize(
    "keep",
    [
        "h = Hierarchy()",
        "class A: pass\na = A(); a.a = a; a.h = Hierarchy()",
        "import builtins; builtins.h = Hierarchy()",
    ],
)
def test_no_error_is_printed_when_the_interpreter_ends(keep):
    words = [sys.executable, "-W", "ignore", "-c", f"from makhloeum import Hierarchy\n{keep}"]
    folder = os.path.dirname(os.path.dirname(makhloeum.__file__))
    ran = subprocess.run(words, capture_output=True, text=True, env=dict(os.environ, PYTHONPATH=folder), timeout=600)
    assert (ran.returncode, ran.stdout, ran.stderr) == (0, "", "")


# Python itself may be the first that gets no memory: its error has no text
OUT_OF_MEMORY = """
import os, resource
from makhloeum import Hierarchy
made, room = [Hierarchy()], 1 << 25
while True:
    with open("/proc/self/statm") as file:
        used = int(file.read().split()[0]) * os.sysconf("SC_PAGE_SIZE")
    resource.setrlimit(resource.RLIMIT_AS, (used + room, resource.RLIM_INFINITY))
    try:
        while True:
            made.append({call})
    except MemoryError as error:
        text = str(error)
    resource.setrlimit(resource.RLIMIT_AS, (resource.RLIM_INFINITY, resource.RLIM_INFINITY))
    if text:
        break
print(text, len(made) > 10, made[0].groups(), made[-1].groups())
"""


@pytest.mark.parametrize("call, command", [("Hierarchy()", "open"), ("made[0].copy()", "copy")])
def test_a_hierarchy_for_which_there_is_no_memory(call, command):
    words = [sys.executable, "-W", "ignore", "-c", OUT_OF_MEMORY.replace("{call}", call)]
    folder = os.path.dirname(os.path.dirname(makhloeum.__file__))
    ran = subprocess.run(words, capture_output=True, text=True, env=dict(os.environ, PYTHONPATH=folder), timeout=600)
    assert (ran.returncode, ran.stdout, ran.stderr) == (0, f"{command}: out of memory True ['/'] ['/']\n", "")


def test_a_missing_library_is_said_in_one_sentence():
    folder = os.path.dirname(os.path.dirname(makhloeum.__file__))
    words = [sys.executable, "-c", "import makhloeum"]
    ran = subprocess.run(
        words,
        capture_output=True,
        text=True,
        timeout=600,
        env=dict(os.environ, PYTHONPATH=folder, MAKHLOEUM_LIBRARY="/nowhere/libmakhloeum.so"),
    )
    assert ran.returncode == 1
    assert (
        ran.stderr.strip()
        .split("\n")[-1]
        .startswith("ImportError: makhloeum needs libmakhloeum.so.1: run bindings/build,")
    )


def test_the_version_is_that_of_the_library_and_the_header():
    from makhloeum import _library

    program = os.path.join(os.path.dirname(makhloeum.__file__), "..", "..", "version")
    version = subprocess.run([program], capture_output=True, text=True, check=True).stdout.strip()
    assert makhloeum.__version__ in (version, f"{version} without proofs")
    # the calls are declared for this soname
    assert _library._NAME == f"libmakhloeum.so.{version.split('.')[0]}"


def test_what_a_hierarchy_says_of_its_misuse():
    with Hierarchy() as h:
        for call, kind, text in (
            (h.__enter__, RuntimeError, "a hierarchy is entered once"),
            (h.__init__, RuntimeError, "a hierarchy is initialized once"),
            (lambda: pickle.dumps(h), TypeError, "a hierarchy cannot be pickled"),
        ):
            with pytest.raises(kind, match=f"^{text}$"):
                call()
        assert h.mkdir("/a") is None and not h.closed
    with pytest.raises(ValueError, match="^the hierarchy is closed$"):
        h.__enter__()
    assert h.closed
