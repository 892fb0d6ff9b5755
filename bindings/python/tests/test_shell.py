"""The interactive shell: python3 -m makhloeum"""

import errno
import fcntl
import io
import os
import pty
import select
import shlex
import signal
import subprocess
import sys
import termios

import makhloeum
import pytest
from makhloeum.__main__ import Shell
from makhloeum.page.tree import draw, of_hierarchy

FOLDER = os.path.dirname(os.path.dirname(makhloeum.__file__))
WORDS = dict(os.environ, PYTHONPATH=FOLDER, TERM="dumb")


def run(*arguments, text=""):
    command = [sys.executable, "-m", "makhloeum", *arguments]
    return subprocess.run(command, input=text, capture_output=True, text=True, env=WORDS, timeout=600)


def test_standard_input_and_scripts(tmp_path):
    script = tmp_path / "script"
    script.write_text(
        "# a comment\nmkdir /a\n\nfork 1 2\nwrite /a cgroup.procs 2\ncat /a pids.current\nwhere 2\nundo\n"
    )
    for ran in (run(text=script.read_text()), run(str(script))):
        assert (ran.returncode, ran.stdout, ran.stderr) == (0, "1\n0::/a\nwrite /a cgroup.procs 2\n", "")
    ran = run(text=f"source {shlex.quote(str(script))}\nls /a/\nmkdir /a\nnonsense\n")
    assert ran.returncode == 1
    assert ran.stdout.endswith(
        "children /a/: Invalid argument (path: a name is empty, at 3)\nmkdir /a: File exists (exists)\n"
        "nonsense: Invalid argument (syntax: an unknown command, a wrong number of words, or a line that is too long)\n"
    )
    ran = run(str(tmp_path / "missing"))
    assert ran.returncode == 1 and "No such file" in ran.stderr
    assert run("--version").stdout == f"makhloeum {makhloeum.__version__}\n"


def test_undo_and_forget():
    ran = run(
        text="mkdir /a\nmkdir /b\nundo 3\nundo x\nundo -1\nundo 2\nls\nundo\nmkdir /c\nforget x\nforget\nundo\nls\n"
    )
    files = "cgroup.procs\ncgroup.stat\ncgroup.max.descendants\ncgroup.max.depth\n"
    syntax = "Invalid argument (syntax: an unknown command, a wrong number of words, or a line that is too long)"
    assert ran.stdout == (
        "undo 3: No data available (nothing)\nundo x: not a number of commands\nundo -1: not a number of commands\n"
        f"mkdir /b\nmkdir /a\n{files}undo: No data available (nothing)\nforget x: {syntax}\n"
        f"undo: No data available (nothing)\nc/\n{files}"
    )


def test_quit_ends_all_scripts(tmp_path):
    first, second = tmp_path / "first", tmp_path / "second"
    first.write_text("where 1\nquit\nwhere 1\n")
    second.write_text("where 1\n")
    assert run(str(first), str(second)).stdout == "0::/\n"
    assert run(text="quit\nwhere 1\n").stdout == ""


def test_a_closed_pipe_is_no_message():
    shell = subprocess.Popen(
        [sys.executable, "-m", "makhloeum"],
        stdin=subprocess.PIPE,
        stdout=subprocess.PIPE,
        stderr=subprocess.PIPE,
        env=WORDS,
    )
    assert shell.stdout is not None
    shell.stdout.close()
    told = shell.communicate(b"where 1\n" * 10000, timeout=600)
    assert (shell.returncode, told[1]) == (141, b"")


def test_a_tree_has_counts_and_limits(hierarchy):
    h = hierarchy
    for line in (
        "mkdir /a",
        "mkdir /a/b",
        "mkdir /a/c",
        "mkdir /d",
        "write /a pids.max 10",
        "fork 1 2",
        "write /a/b cgroup.procs 2",
    ):
        h.line(line)
    assert draw(of_hierarchy(h)) == (
        "/                                                1\n"
        "├─ a     [█|        ]   1/10  peak 1  populated\n"
        "│  ├─ b                1/max  peak 1  populated  2\n"
        "│  └─ c                0/max  peak 0  empty\n"
        "└─ d                   0/max  peak 0  empty\n"
    )
    out = io.StringIO()
    Shell(h, out).onecmd("tree /a/b")
    assert out.getvalue() == "b                1/max  peak 1  populated  2\n"


def test_completion(hierarchy):
    h = hierarchy
    for line in ("mkdir /alpha", "mkdir /alpha/x", "mkdir /beta"):
        h.line(line)
    shell = Shell(h, io.StringIO())
    complete = shell.completedefault
    assert complete("", "rmdir ", 6, 6) == ["/alpha", "/beta"]
    assert complete("/al", "rmdir /al", 6, 9) == ["/alpha"]
    assert complete("al", "rmdir /al", 7, 9) == ["alpha"]
    assert complete("", "rmdir /alpha/", 13, 13) == ["x"]
    assert complete("pids.c", "cat /alpha pids.c", 11, 17) == ["pids.current"]
    assert complete("pids.m", "write /alpha pids.m", 13, 19) == ["pids.max"]
    assert complete("", "mkdir /alpha ", 13, 13) == [] == complete("", "rmdir /none/", 12, 12)
    assert shell.completenames("m") == ["mkdir"]
    assert shell.completenames("E") == []


class Terminal:
    """The shell at a terminal."""

    def __init__(self):
        self.ours, theirs = pty.openpty()
        command = [sys.executable, "-m", "makhloeum"]

        def at_a_terminal():
            fcntl.ioctl(theirs, termios.TIOCSCTTY, 0)
            # a script in the background ignores SIGINT, and so do its children
            signal.signal(signal.SIGINT, signal.SIG_DFL)

        self.shell = subprocess.Popen(
            command,
            stdin=theirs,
            stdout=theirs,
            stderr=theirs,
            env=WORDS,
            start_new_session=True,
            preexec_fn=at_a_terminal,
        )
        os.close(theirs)
        self.told = b""

    def wait_for(self, text):
        """What comes until the text; all that is left if it is None."""
        while text is None or text not in self.told:
            assert select.select([self.ours], [], [], 600)[0], self.told
            try:
                more = os.read(self.ours, 4096)
            except OSError:
                more = b""
            if not more:
                assert text is None, self.told
                break
            self.told += more
        told = self.told
        self.told = b""
        return told

    def type(self, keys):
        os.write(self.ours, keys)

    def interrupt(self):
        """Types Ctrl-C until a prompt comes: Python notices a signal just before it waits for a key only at the next one. Then
        waits until nothing more comes, since two signals give two prompts, and the second drops what was typed before it.
        """
        for _ in range(12):
            self.type(b"\x03")
            told = b""
            while select.select([self.ours], [], [], 3 if b"makhloeum> " in told else 20)[0]:
                told += os.read(self.ours, 4096)
            if b"makhloeum> " in told:
                return told
        raise AssertionError("no prompt within a minute")

    def end(self):
        told = self.wait_for(None)
        os.close(self.ours)
        assert self.shell.wait(600) == 0
        return told


def test_a_terminal_has_a_prompt():
    terminal = Terminal()
    terminal.type(b"mkdir /a\nmkdir /a\nquit\n")
    told = terminal.end()
    assert b"makhloeum> " in told and b"mkdir /a: File exists (exists)" in told


def test_a_tab_completes_a_path():
    pytest.importorskip("readline")
    terminal = Terminal()
    terminal.wait_for(b"makhloeum> ")
    terminal.type(b"mkdir /alpha\n")
    terminal.wait_for(b"makhloeum> ")
    terminal.type(b"rmdir /al\t\n")
    terminal.wait_for(b"makhloeum> ")
    terminal.type(b"ls\nquit\n")
    told = terminal.end()
    assert b"cgroup.procs\r\n" in told and b"alpha/" not in told


def test_an_interrupt_drops_the_line():
    terminal = Terminal()
    assert b"help lists the commands" in terminal.wait_for(b"makhloeum> ")
    terminal.type(b"mkdir /a\n")
    terminal.wait_for(b"makhloeum> ")
    terminal.type(b"mkdir /b")
    terminal.wait_for(b"mkdir /b")
    assert b"help lists" not in terminal.interrupt()
    terminal.type(b"ls\nquit\n")
    told = terminal.end()
    assert b"a/\r\n" in told and b"b/" not in told and b"Traceback" not in told


@pytest.mark.parametrize("line", ["?", "??", "? mkdir", "?mkdir", "?mkdir /a", " \t? help", "!", "!ls", "! ls"])
def test_what_the_language_refuses_is_no_help(line):
    """cmd has words of its own. The program cgshell refuses these lines too."""
    ran = run(text=f"{line}\nls\n")
    refused = (
        f"{line}: Invalid argument (syntax: an unknown command, a wrong number of words, or a line that is too long)\n"
    )
    assert ran.returncode == 1 and ran.stdout.startswith(refused + "cgroup."), ran.stdout
    assert "help COMMAND" not in ran.stdout


def test_a_command_is_a_whole_word():
    ran = run(text="mkdir/q\nEOF\nmkdir /a\nls\n")
    syntax = "Invalid argument (syntax: an unknown command, a wrong number of words, or a line that is too long)"
    assert ran.returncode == 1
    assert ran.stdout.startswith(f"mkdir/q: {syntax}\nEOF: {syntax}\na/\n"), ran.stdout


def test_a_script_that_reads_itself(tmp_path):
    script, other = tmp_path / "script", tmp_path / "other"
    script.write_text(f"source {shlex.quote(str(other))}\nwhere 1\n")
    other.write_text(f"source {shlex.quote(str(script))}\n")
    ran = run(str(script))
    assert (ran.returncode, ran.stderr) == (1, "")
    assert ran.stdout == f"[Errno {errno.ELOOP}] the script reads itself: {str(script)!r}\n0::/\n"


def test_what_the_locale_lacks_is_escaped(tmp_path):
    """In the C locale bytes that are no text are written as they came."""
    script = tmp_path / "script"
    script.write_bytes("mkdir /é\n".encode() + b"mkdir /\xff\nmkdir /\xc3\xa9\xff\n")
    words = dict(WORDS, LC_ALL="C", PYTHONUTF8="0", PYTHONCOERCECLOCALE="0")
    ran = subprocess.run([sys.executable, "-m", "makhloeum", str(script)], capture_output=True, env=words, timeout=600)
    refused = b": Invalid argument (path)\n"
    names = (rb"mkdir /\xe9", b"mkdir /\xff", rb"mkdir /\xe9\udcff")
    assert (ran.returncode, ran.stdout, ran.stderr) == (1, b"".join(name + refused for name in names), b"")


def test_a_script_that_was_interrupted_can_be_read_again(hierarchy, tmp_path, monkeypatch):
    (tmp_path / "script").write_text("mkdir /a\nmkdir /b\n")
    out = io.StringIO()
    shell = Shell(hierarchy, out)

    def interrupted(line):
        raise KeyboardInterrupt

    with monkeypatch.context() as patched:
        patched.setattr(shell, "onecmd", interrupted)
        with pytest.raises(KeyboardInterrupt):
            shell.answer_file(str(tmp_path / "script"))
    shell.onecmd(f"source {shlex.quote(str(tmp_path / 'script'))}")
    assert hierarchy.groups() == ["/", "/a", "/b"] and out.getvalue() == ""


def test_little_is_loaded_before_an_interrupt_ends_a_command():
    """Until then it is a traceback."""
    words = [sys.executable, "-S", "-X", "importtime", "-m", "makhloeum", "--version"]
    told = subprocess.run(words, capture_output=True, text=True, env=WORDS).stderr
    loaded = [line.rsplit("|", 1)[1].strip() for line in told.splitlines() if line.startswith("import time:")]
    before = loaded[: loaded.index("makhloeum._interrupts")]
    assert "signal" in before and not {"typing", "ctypes", "makhloeum.errors"} & set(before)


def test_an_interrupt_ends_a_script_without_a_traceback(tmp_path):
    pipe = tmp_path / "pipe"
    os.mkfifo(pipe)
    command = [sys.executable, "-m", "makhloeum", str(pipe)]
    default = lambda: signal.signal(signal.SIGINT, signal.SIG_DFL)  # noqa: E731: a background ignores SIGINT
    shell = subprocess.Popen(command, stdout=subprocess.PIPE, stderr=subprocess.PIPE, env=WORDS, preexec_fn=default)
    with open(pipe, "w") as script:
        script.write("where 1\n")
        script.flush()
        shell.send_signal(signal.SIGINT)
        told = shell.communicate(timeout=600)
    assert (shell.returncode, told[1]) == (-signal.SIGINT, b"")


def test_the_end_of_the_input_at_a_terminal_leaves_the_shell():
    terminal = Terminal()
    terminal.wait_for(b"makhloeum> ")
    terminal.type(b"EOF\n")
    assert b"syntax" in terminal.wait_for(b"makhloeum> ")
    terminal.type(b"\x04")
    terminal.end()
