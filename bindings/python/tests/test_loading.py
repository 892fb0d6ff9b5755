"""Where the package looks for the library, which library it refuses, and when Ctrl-C ends a process while modules are loaded."""

import os
import pathlib
import re
import shutil
import signal
import subprocess
import sys

import pytest

from makhloeum import _interrupts, _library

NAME = "libmakhloeum.so.1"
PYTHON = pathlib.Path(__file__).parents[1]


@pytest.fixture
def installed(tmp_path, monkeypatch):
    """The places of a package at prefix/share/makhloeum/python/makhloeum, in the order in which they are looked at."""
    monkeypatch.delenv("MAKHLOEUM_LIBRARY", raising=False)
    here = tmp_path / "prefix" / "share" / "makhloeum" / "python" / "makhloeum"
    places = [
        here / NAME,
        tmp_path / "prefix" / "share" / "makhloeum" / "out" / NAME,
        tmp_path / "prefix" / "lib" / NAME,
    ]
    for place in (here / "_library.py", *places):
        place.parent.mkdir(parents=True, exist_ok=True)
    monkeypatch.setattr(_library, "__file__", str(here / "_library.py"))
    return places


def looked_at():
    return [os.path.normpath(place) for place in _library._places()]


def test_the_places_in_their_order(installed):
    assert looked_at() == [NAME], "without a file the system is asked"
    for there in ([0], [1], [2], [0, 1], [0, 2], [1, 2], [0, 1, 2]):
        for at, place in enumerate(installed):
            place.unlink(missing_ok=True)
            if at in there:
                place.write_text("")
        assert looked_at() == [*(str(installed[at]) for at in there), NAME]


def test_the_share_of_a_prefix_may_be_a_link(installed, tmp_path):
    share, elsewhere = tmp_path / "prefix" / "share", tmp_path / "some" / "where" / "else"
    elsewhere.parent.mkdir(parents=True)
    share.rename(elsewhere)
    share.symlink_to(elsewhere)
    installed[2].write_text("")
    assert looked_at() == [str(installed[2]), NAME]
    assert all(os.path.exists(place) for place in list(_library._places())[:-1])


def test_the_environment_names_the_only_place(installed, monkeypatch):
    for place in installed:
        place.write_text("")
    monkeypatch.setenv("MAKHLOEUM_LIBRARY", "/nowhere/lib.so")
    assert looked_at() == ["/nowhere/lib.so"]
    with pytest.raises(ImportError) as failed:
        _library._find()
    assert re.fullmatch(
        rf"makhloeum needs {NAME}: run bindings/build, install it, or set MAKHLOEUM_LIBRARY to its path \(/nowhere/lib.so: .*\)",
        str(failed.value),
    )
    monkeypatch.setenv("MAKHLOEUM_LIBRARY", "")
    assert looked_at() == [*map(str, installed), NAME], "an empty word is none"


def test_a_file_that_is_no_library_is_passed_over(installed):
    installed[0].write_text("no library")
    shutil.copy(_library._PLACE, installed[2])
    assert os.path.normpath(_library._find()) == str(installed[2])
    shutil.copy(_library._PLACE, installed[1])
    assert os.path.normpath(_library._find()) == str(installed[1]), "the first that is one"


def test_a_library_of_another_version_is_refused():
    class Older:
        _name = "/lib/old.so"

        def __getattr__(self, name):
            if name == "mk_wait_file":
                raise AttributeError(name)
            return type("Call", (), {})()

    with pytest.raises(ImportError, match="^makhloeum: /lib/old.so has no mk_wait_file: it is of another version$"):
        _library._declare(Older())


# ---- Ctrl-C


@pytest.mark.parametrize(
    "words, given, wanted",
    [
        ([], ["python3"], False),
        (["tests.py"], ["python3", "tests.py"], False),
        (["-c"], ["python3", "-c", "import makhloeum"], False),
        (["-m"], ["python3", "-m", "makhloeum"], True),
        (["-m", "--help"], ["python3", "-W", "error", "-m", "makhloeum", "--help"], True),
        (["-m", "/x"], ["python3", "-m", "makhloeum.check", "/x"], True),
        (["-m"], ["python3", "-m", "makhloeum_pytest"], False),
        (["-m"], ["python3", "-m", "pytest", "-m", "makhloeum"], False),
        (["-m"], ["python3", "-m"], False),
        (["tests.py", "-m", "makhloeum"], ["python3", "tests.py", "-m", "makhloeum"], False),
        (["/usr/bin/makhloeum-view", "x"], ["python3", "/usr/bin/makhloeum-view", "x"], True),
        (["makhloeum-tree"], ["makhloeum-tree"], True),
        (["/opt/makhloeum-check"], ["python3"], True),
        (["makhloeum"], ["python3"], False),
        (["makhloeum-views"], ["python3"], False),
    ],
)
def test_which_programs_are_the_packages(monkeypatch, words, given, wanted):
    monkeypatch.setattr(sys, "argv", words)
    monkeypatch.setattr(sys, "orig_argv", given)
    assert _interrupts._is_started_by_name() is wanted


@pytest.fixture
def handler():
    """Sets the handler of SIGINT, which is as before in the end."""
    before = signal.getsignal(signal.SIGINT)
    yield lambda it: signal.signal(signal.SIGINT, it)
    signal.signal(signal.SIGINT, before)


def own(number, frame):
    raise RuntimeError


def test_while_modules_are_loaded_the_signal_has_its_default_action(handler):
    for was, wanted in ((signal.default_int_handler, signal.SIG_DFL), (signal.SIG_IGN,) * 2, (own, own)):
        handler(was)
        _interrupts.end_at_once()
        assert signal.getsignal(signal.SIGINT) == wanted


def test_a_main_is_interrupted_by_an_exception(handler):
    for was, wanted in ((signal.SIG_DFL, signal.default_int_handler), (signal.SIG_IGN,) * 2, (own, own)):
        handler(was)
        told = []
        status = _interrupts.ended_by_interrupt(
            lambda words: told.append((words, signal.getsignal(signal.SIGINT))) or 7, ["x"]
        )
        assert (status, told) == (7, [(["x"], wanted)])


def test_after_an_interrupt_the_process_ends_by_the_signal():
    script = (
        "import os, signal\nfrom makhloeum._interrupts import ended_by_interrupt\n"
        "def main(words):\n    try:\n        os.kill(os.getpid(), signal.SIGINT)\n    finally:\n        print('cleaned up', flush=True)\n"
        "ended_by_interrupt(main, [])\nprint('went on')\n"
    )
    # a shell's background ignores the interrupt
    words = ["env", "--default-signal=INT", sys.executable, "-c", script]
    ran = subprocess.run(words, env=dict(os.environ, PYTHONPATH=str(PYTHON)), capture_output=True, text=True)
    assert (ran.returncode, ran.stdout, ran.stderr) == (-signal.SIGINT, "cleaned up\n", "")
    # a process that can't end by it has the status that a shell tells then
    blocked = (
        "def main(words):\n    signal.pthread_sigmask(signal.SIG_BLOCK, [signal.SIGINT])\n    raise KeyboardInterrupt\n"
    )
    script = f"import signal, sys\nfrom makhloeum._interrupts import ended_by_interrupt\n{blocked}sys.exit(ended_by_interrupt(main, []))\n"
    words[-1] = script
    ran = subprocess.run(words, env=dict(os.environ, PYTHONPATH=str(PYTHON)), capture_output=True, text=True)
    assert (ran.returncode, ran.stdout, ran.stderr) == (130, "", "")
