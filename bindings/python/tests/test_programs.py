"""The commands of the package and the shell's, one by one: what each line shows, and which program a name starts."""

import io
import os
import shlex
import signal
import subprocess
import sys

import pytest

import makhloeum.__main__ as program
from makhloeum.__main__ import Shell

SYNTAX = "Invalid argument (syntax: an unknown command, a wrong number of words, or a line that is too long)\n"
FILES = ["cgroup.procs", "cgroup.stat", "cgroup.max.descendants", "cgroup.max.depth"]
MORE = ["cgroup.kill", "cgroup.events", "pids.max", "pids.current", "pids.peak", "pids.events", "pids.events.local"]


# ---- names of programs


@pytest.mark.parametrize("name", ["view", "tree", "check"])
def test_each_program_of_a_wheel_is_its_own_command(monkeypatch, name):
    started = []
    monkeypatch.setattr(program, "command", lambda *words: started.append(words) or 7)
    monkeypatch.setattr(sys, "argv", [f"/bin/makhloeum-{name}", "x", "--y"])
    assert getattr(program, name)() == 7 and started == [(name, ["x", "--y"])]


@pytest.mark.parametrize(
    "name, begins", [("view", "makhloeum view "), ("tree", "makhloeum tree "), ("check", "usage: makhloeum check ")]
)
@pytest.mark.parametrize("words", [["-m", "makhloeum", None, "--help"], ["-m", "makhloeum", None, "-h"]])
def test_each_command_has_its_own_help(name, begins, words):
    wide = dict(os.environ, COLUMNS="80")
    ran = subprocess.run(
        [sys.executable, *(it or name for it in words)], capture_output=True, text=True, env=wide, timeout=600
    )
    assert (ran.returncode, ran.stderr) == (0, "") and ran.stdout.startswith(begins)


def test_a_command_that_is_not_installed(monkeypatch, capsys):
    monkeypatch.setitem(program.COMMANDS, "view", "makhloeum.no_such_module")
    assert program.main(["view", "x"]) == 2
    assert capsys.readouterr() == ("", "makhloeum: view is not part of this installation\n")


@pytest.mark.parametrize("word", ["--help", "-h"])
def test_the_help_of_the_shell(capsys, word):
    assert program.main([word]) == 0
    told = capsys.readouterr()
    assert told.out.startswith("An interactive shell: python3 -m makhloeum [SCRIPT ...]\n") and told.err == ""


@pytest.mark.parametrize(
    "name, ends",
    [
        ("makhloeum-view", True),
        ("makhloeum-tree", True),
        ("makhloeum-check", True),
        ("makhloeum-mine", False),
        ("client", False),
    ],
)
def test_an_interrupt_ends_a_program_of_a_wheel_while_it_loads(tmp_path, name, ends):
    """Without a traceback; in a client's program it stays what it was."""
    (tmp_path / name).write_text("import makhloeum, signal\nprint(signal.getsignal(signal.SIGINT) == signal.SIG_DFL)\n")
    folder = os.path.dirname(os.path.dirname(program.__file__))
    default = lambda: signal.signal(signal.SIGINT, signal.SIG_DFL)  # noqa: E731: a background ignores SIGINT
    words = [sys.executable, str(tmp_path / name)]
    ran = subprocess.run(
        words, capture_output=True, text=True, env=dict(os.environ, PYTHONPATH=folder), preexec_fn=default, timeout=600
    )
    assert (ran.returncode, ran.stdout, ran.stderr) == (0, f"{ends}\n", "")


# ---- lines of the shell


@pytest.fixture
def shell(hierarchy):
    for line in ("mkdir /a", "mkdir /a/b", "fork 1 2", "write /a/b cgroup.procs 2", "write /a pids.max 3"):
        hierarchy.line(line)
    return Shell(hierarchy, io.StringIO())


@pytest.mark.parametrize(
    "line, shown, fails",
    [
        ("", "", False),
        ("   ", "", False),
        ("  # mkdir /x", "", False),
        ("where 2", "0::/a/b\n", False),
        ("where\t2", "0::/a/b\n", False),
        ("  cat /a/b\tpids.current ", "1\n", False),
        ("cat /a", f"cat /a: {SYNTAX}", True),
        ("mkdir", f"mkdir : {SYNTAX}", True),
        ("mkdir /c", "", False),
        ("mkdir /a", "mkdir /a: File exists (exists)\n", True),
        ("rmdir /a", "rmdir /a: Device or resource busy (haschildren)\n", True),
        ("fork 2 3", "", False),
        ("fork 7 8", "fork 7 8: No such process (noprocess 7)\n", True),
        ("exit 2", "", False),
        ("exit 5", "exit 5: No such process (noprocess 5)\n", True),
        ("write /a pids.max 5", "", False),
        ("write /a/b cgroup.kill 1", "", False),
        (
            "write /a pids.max x",
            "write /a pids.max x: Invalid argument (value: the value is not a number, or out of range)\n",
            True,
        ),
        ("undo", "write /a pids.max 3\n", False),
        ("undo 2", "write /a pids.max 3\nwrite /a/b cgroup.procs 2\n", False),
        ("undo 0", "", False),
        ("undo ²", "undo ²: not a number of commands\n", True),
        ("forget", "", False),
        ("ls", "".join(f"{it}\n" for it in ["a/", *FILES]), False),
        ("ls /a/b", None, False),
        ("ls /x", "children /x: No such file or directory (nogroup /x)\n", True),
        ("tree /a/b", "b                1/max  peak 1  populated  2\n", False),
        ("tree /x", "processes /x: No such file or directory (nogroup /x)\n", True),
        ("source /no/such/script", "[Errno 2] No such file or directory: '/no/such/script'\n", True),
        ("source 'a", "No closing quotation\n", True),
        ("nothing /a", f"nothing /a: {SYNTAX}", True),
        ("help undo", "undo [NUMBER]: undo the newest recorded command, or as many as the number\n", False),
        ("?undo", f"?undo: {SYNTAX}", True),
        ("? undo", f"? undo: {SYNTAX}", True),
        ("help nothing", "*** No help on nothing\n", False),
    ],
)
def test_a_line_of_the_shell(shell, line, shown, fails):
    assert shell.onecmd(line) is False and shell.failed == fails
    told = shell.stdout.getvalue()
    if shown is not None:
        assert told == shown
    else:
        assert sorted(told.split()) == sorted([*FILES, *MORE])


def test_what_a_line_of_the_shell_changes(shell):
    h = shell.h
    for line, seen in (
        ("mkdir /c", lambda: h.has_group("/c")),
        ("rmdir /c", lambda: not h.has_group("/c")),
        ("fork 2 3", lambda: h.processes("/a/b") == [2, 3]),
        ("write / cgroup.procs 3", lambda: h.processes("/") == [1, 3]),
        ("exit 3", lambda: h.processes("/") == [1]),
        ("write /a pids.max 9", lambda: h.limit("/a") == 9),
        ("undo", lambda: h.limit("/a") == 3),
        ("undo 2", lambda: h.processes("/") == [1] and h.processes("/a/b") == [2, 3]),
        ("write /a cgroup.kill 1", lambda: h.current("/a") == 0),
        ("forget", lambda: h.depth() == 0 and h.has_group("/a/b")),
    ):
        shell.onecmd(line)
        assert seen() and not shell.failed, line
    assert shell.onecmd("quit") is True and h.depth() == 0


def test_the_help_names_each_command(shell):
    shell.onecmd("help")
    told = shell.stdout.getvalue()
    assert told.startswith("\nCommands (help COMMAND says more):\n==")
    names = sorted(told.split("=\n")[1].split())
    assert names == sorted(
        [
            "cat",
            "exit",
            "forget",
            "fork",
            "help",
            "ls",
            "mkdir",
            "quit",
            "rmdir",
            "source",
            "tree",
            "undo",
            "where",
            "write",
        ]
    )
    for name in names:
        shell.stdout = io.StringIO()
        shell.onecmd(f"help {name}")
        # the help of `help` itself is that of cmd
        assert name == "help" or shell.stdout.getvalue().startswith((f"{name} ", f"{name}:")), name


def test_several_scripts(shell, tmp_path):
    first, second = tmp_path / "a script", tmp_path / "other"
    first.write_text("mkdir /x\nwhere 1\n")
    second.write_text(f"mkdir /y\nsource {shlex.quote(str(first))}\nwhere 2")
    shell.onecmd(f"source {shlex.quote(str(first))} {shlex.quote(str(second))}")
    assert shell.stdout.getvalue() == "0::/\nmkdir /x: File exists (exists)\n0::/\n0::/a/b\n" and shell.failed
    assert shell.h.children("/") == ["a", "x", "y"]
    words = [sys.executable, "-m", "makhloeum", str(first), "-", str(second)]
    ran = subprocess.run(words, input="mkdir /z\nls\n", capture_output=True, text=True, timeout=600)
    assert (ran.returncode, ran.stderr) == (1, "")
    assert ran.stdout.split("\n")[:4] == ["0::/", "x/", "z/", "cgroup.procs"] and ran.stdout.count("File exists") == 1


@pytest.mark.parametrize("encoding, shown", [("utf-8:strict", "\xfc\\udcff"), ("ascii:strict", "\\xfc\\udcff")])
def test_a_word_that_the_encoding_of_the_output_lacks(tmp_path, encoding, shown):
    script = tmp_path / "a"
    script.write_bytes("rmdir /\xfc".encode() + b"\xff\n")
    words = [sys.executable, "-m", "makhloeum", str(script)]
    ran = subprocess.run(words, capture_output=True, timeout=600, env=dict(os.environ, PYTHONIOENCODING=encoding))
    assert (ran.returncode, ran.stderr.decode()) == (1, "")
    assert ran.stdout.decode() == f"rmdir /{shown}: Invalid argument (path)\n"
