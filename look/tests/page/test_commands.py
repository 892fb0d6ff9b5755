"""The command lines: python3 -m makhloeum view, tree; makhloeum NAME."""

import fcntl
import os
import pty
import re
import shutil
import signal
import struct
import subprocess
import sys
import termios
import time

import pytest
from support import HERE, PYTHON

import makhloeum
from makhloeum import Hierarchy
from makhloeum._library import library
from makhloeum.page.tree import draw, of_directory, of_hierarchy

# what would change how a tree is drawn
OTHERS = {name: word for name, word in os.environ.items() if name not in ("COLUMNS", "LINES", "NO_COLOR")}
WORDS = dict(OTHERS, PYTHONPATH=os.path.realpath(PYTHON), PYTHONDONTWRITEBYTECODE="1")
PROGRAM = os.environ.get("MAKHLOEUM") or os.path.join(HERE, "..", "..", "..", "mount", "out", "makhloeum")


def run(*words, text=b"", **how):
    ran = subprocess.run(
        [sys.executable, "-m", "makhloeum", *words], input=text, capture_output=True, env=WORDS, timeout=600, **how
    )
    return ran.returncode, ran.stdout.decode(), ran.stderr.decode()


# ---- view


def test_view_makes_a_page(tmp_path):
    trace = tmp_path / "run.trace"
    trace.write_text("mkdir /a\nmkdir /a\n")
    assert run("view", "run.trace", cwd=tmp_path) == (0, "run.trace.html: 2 commands, 1 refused\n", "")
    whole = (tmp_path / "run.trace.html").read_text()
    assert "<title>run.trace</title>" in whole
    assert run("view", "-o", "x.html", "run.trace", cwd=tmp_path)[0] == 0 and (tmp_path / "x.html").read_text() == whole
    status, said, _ = run("view", "-", text=b"mkdir /a\nmkdir /a\n")
    assert status == 0 and said == whole.replace("run.trace", "standard input")
    assert run("view", "--help")[0] == 0
    trace.rename(tmp_path / "-o")
    assert run("view", "--", "-o", cwd=tmp_path) == (0, "-o.html: 2 commands, 1 refused\n", "")
    (tmp_path / "one.trace").write_text("mkdir /a\n")
    for name, make in (("symbolic", os.symlink), ("hard", os.link)):
        make(tmp_path / "one.trace", tmp_path / name)
        assert run("view", "one.trace", "-o", name, cwd=tmp_path)[0] == 2
    assert (tmp_path / "one.trace").read_text() == "mkdir /a\n"


def test_a_command_finds_its_package_through_a_link(tmp_path):
    command, link = (
        tmp_path / "lib" / "makhloeum" / "makhloeum-view",
        tmp_path / "home" / "me" / "bin" / "makhloeum-view",
    )
    for folder in (command.parent, link.parent, tmp_path / "share" / "makhloeum"):
        folder.mkdir(parents=True)
    shutil.copy(os.path.join(HERE, "..", "..", "makhloeum-command"), command)
    (tmp_path / "share" / "makhloeum" / "python").symlink_to(os.path.realpath(PYTHON))
    link.symlink_to(command)
    without = {name: value for name, value in WORDS.items() if name != "PYTHONPATH"}
    for path in (command, link):
        ran = subprocess.run([path, "--help"], capture_output=True, env=without, timeout=600)
        assert (ran.returncode, ran.stderr) == (0, b"") and ran.stdout, path


@pytest.mark.parametrize(
    "words, name",
    [
        ("- -o {0}", "on standard input"),
        ("- -o {1}", "on standard input"),
        ("{0} -o -", "{0}"),
        ("-", "on standard input"),
    ],
)
def test_a_page_does_not_replace_its_trace(tmp_path, words, name):
    """Not through a stream either."""
    trace, link = tmp_path / "trace", tmp_path / "link"
    trace.write_text("mkdir /a\n")
    link.symlink_to(trace)
    view = [sys.executable, "-m", "makhloeum", "view", *words.format(trace, link).split()]
    with open(trace) as read, open(trace, "a") as written:
        ran = subprocess.run(view, stdin=read, stdout=written, stderr=subprocess.PIPE, env=WORDS, timeout=600)
    said = f"makhloeum view: the page would replace the trace {name.format(trace)}\n"
    assert (ran.returncode, ran.stderr.decode(), trace.read_text()) == (2, said, "mkdir /a\n")
    if "{0}" in words:
        assert run("view", str(trace), "-o", "-", text=b"")[0] == 0 and run("view", "-", text=b"mkdir /a\n")[0] == 0


def test_view_says_in_one_sentence_what_is_wrong(tmp_path):
    trace = tmp_path / "trace"
    trace.write_text("mkdir /a\n")
    bad = tmp_path / "bad"
    bad.write_bytes(os.urandom(3000))
    for words, status, said in (
        ([], 2, "bad command line"),
        ([trace, trace], 2, "bad command line"),
        ([trace, "-x"], 2, "bad command line"),
        ([trace, "-o"], 2, "bad command line"),
        ([tmp_path / "none"], 1, f"makhloeum view: {tmp_path}/none: No such file or directory\n"),
        ([tmp_path], 1, f"makhloeum view: {tmp_path}: Is a directory\n"),
        ([trace, "-o", trace], 2, "would replace the trace"),
        (
            [trace, "-o", tmp_path / "no" / "page"],
            1,
            f"makhloeum view: {tmp_path}/no/page: No such file or directory\n",
        ),
        ([trace, "-o", "/dev/full"], 1, "makhloeum view: /dev/full: No space left on device\n"),
        ([bad], 1, "no line of"),
    ):
        got, out, error = run("view", *map(str, words))
        assert (got, out) == (status, "") and said in error and error.count("\n") == 1, (words, got, error)
    assert trace.read_text() == "mkdir /a\n"
    assert run("view", "-", text=b"hello\n") == (1, "", "makhloeum view: no line of standard input is a command\n")
    with open(tmp_path / "written", "wb") as unreadable:
        view = [sys.executable, "-m", "makhloeum", "view", "-"]
        ran = subprocess.run(view, stdin=unreadable, capture_output=True, env=WORDS, timeout=600)
    assert (ran.returncode, ran.stderr) == (1, b"makhloeum view: standard input: Bad file descriptor\n")


def test_the_packages_are_found_in_a_checkout_and_in_an_installation(tmp_path):
    subprocess.run([os.path.join(PYTHON, "..", "package"), tmp_path], check=True)
    says = "import makhloeum, makhloeum.page, makhloeum.check as it; print(*makhloeum.__path__, makhloeum.page.__path__[0], it.__path__[0])"
    checkout, look = os.path.realpath(PYTHON), os.path.realpath(os.path.join(HERE, "..", ".."))
    package = str(tmp_path / "makhloeum")
    for folder, expected in (
        (checkout, [f"{checkout}/makhloeum", look, f"{look}/page", f"{look}/check"]),
        (str(tmp_path), [package, f"{package}/page", f"{package}/check"]),
    ):
        words = dict(WORDS, PYTHONPATH=folder, MAKHLOEUM_LIBRARY=library._name)
        ran = subprocess.run([sys.executable, "-c", says], capture_output=True, text=True, env=words, timeout=600)
        assert (ran.stdout.split(), ran.stderr) == (expected, "")


def test_commands_that_are_missing(tmp_path):
    subprocess.run([os.path.join(PYTHON, "..", "package"), tmp_path], check=True)
    shutil.rmtree(tmp_path / "makhloeum" / "check")
    words = dict(WORDS, PYTHONPATH=str(tmp_path), MAKHLOEUM_LIBRARY=library._name)
    ran = subprocess.run(
        [sys.executable, "-m", "makhloeum", "check", "x"], capture_output=True, text=True, env=words, timeout=600
    )
    said = (ran.returncode, ran.stdout, ran.stderr)
    assert said == (2, "", "makhloeum: check is not part of this installation\n")


# ---- tree


def groups(tmp_path, files):
    """A directory that looks like a hierarchy."""
    for path, content in files.items():
        folder = tmp_path / path
        folder.mkdir(parents=True, exist_ok=True)
        for name, text in content.items():
            (folder / name).write_text(text)


SMALL = {
    "": {"cgroup.procs": "1\n"},
    "a": {"cgroup.procs": "2\n3\n", "pids.max": "4\n", "pids.current": "3\n", "pids.peak": "4\n", "cgroup.events": "populated 1\nfrozen 0\n",
          "pids.events": "max 5\n", "pids.events.local": "max 2\n"},
    "a/b": {"cgroup.procs": "9\n", "pids.max": "max\n", "pids.current": "1\n", "pids.peak": "1\n", "cgroup.events": "populated 1\nfrozen 0\n",
            "pids.events": "max 0\n", "pids.events.local": "max 0\n"},
    "c": {"cgroup.procs": "", "cgroup.events": "populated 0\nfrozen 0\n"},
    ".makhloeum": {"undo": ""},
    "no-group": {"x": ""},
}  # fmt: skip


def test_a_directory_as_text(tmp_path):
    groups(tmp_path, SMALL)
    status, said, error = run("tree", str(tmp_path))
    assert (status, error) == (0, "")
    lines = said.split("\n")
    assert [line.split()[:2] for line in lines[1:4]] == [["├─", "a"], ["│", "└─"], ["└─", "c"]] and len(lines) == 5
    assert lines[0].startswith(str(tmp_path)) and lines[0].endswith("  1")
    assert "[███████▌  ]    3/4  peak 4  populated  refused 2 here, 5 in all  2 3" in lines[1]
    assert "1/max  peak 1  populated" in lines[2] and lines[2].endswith("  9")
    assert lines[3].split() == ["└─", "c", "empty"]
    assert "\x1b" not in said


def test_the_tree_of_an_engine_is_that_of_its_directory(tmp_path):
    """The shell's tree and that of a directory with the same files are the same text."""
    with Hierarchy() as h:
        for line in (
            "mkdir /a",
            "mkdir /a/b",
            "write /a pids.max 2",
            "fork 1 2",
            "write /a/b cgroup.procs 2",
            "fork 2 3",
        ):
            h.line(line)
        with pytest.raises(makhloeum.PidsMax):
            h.fork(2, 4)
        for path in h.groups():
            folder = tmp_path / path[1:]
            folder.mkdir(exist_ok=True)
            for file in ("cgroup.procs",) + (() if path == "/" else tuple(SMALL["a"])):
                (folder / file).write_text(h.read(path, file))
        node = of_directory(str(tmp_path))
        node.name = "/"
        assert draw(node) == draw(of_hierarchy(h))
    assert "refused 1 here, 1 in all" in draw(node) and "refused 0 here" not in draw(node)


def test_names_do_not_move_the_cursor(tmp_path):
    groups(tmp_path, {"": {"cgroup.procs": ""}, "\x1b[31mred\n": {"cgroup.procs": ""}})
    status, said, _ = run("tree", str(tmp_path))
    assert status == 0 and "\\x1b[31mred\\n" in said and said.count("\n") == 2
    trace, shown = tmp_path / "\x1b[31mred\r", f"{tmp_path}/\\x1b[31mred\\r"
    trace.write_text("mkdir /a\n")
    assert run("view", str(trace)) == (0, f"{shown}.html: 1 commands, 0 refused\n", "")
    said = f"makhloeum view: the page would replace the trace {shown}\n"
    assert run("view", str(trace), "-o", str(trace)) == (2, "", said)
    assert run("view", f"{trace}\xfc") == (1, "", f"makhloeum view: {shown}\xfc: No such file or directory\n")
    trace.write_text("none\n")
    assert run("view", str(trace)) == (1, "", f"makhloeum view: no line of {shown} is a command\n")
    assert run("check", str(trace)) == (2, "", f"makhloeum check: {shown}: it is not a directory\n")
    why = "is not a cgroup2 directory: Not a directory"
    assert run("tree", str(trace)) == (2, "", f"makhloeum tree: {shown} {why}\n")


@pytest.mark.parametrize("name, said", [("view", ":"), ("tree", " is not a cgroup2 directory:"), ("check", ":")])
def test_an_empty_path_is_not_the_current_directory(tmp_path, name, said):
    groups(tmp_path, SMALL)
    ran = subprocess.run(
        [sys.executable, "-m", "makhloeum", name, ""], capture_output=True, text=True, cwd=tmp_path, env=WORDS
    )
    wanted = (1 if name == "view" else 2, "", f"makhloeum {name}: {said} No such file or directory\n")
    assert (ran.returncode, ran.stdout, ran.stderr) == wanted


def test_colour_is_for_a_terminal(tmp_path):
    groups(tmp_path, SMALL)
    for more, coloured in (
        ({"TERM": "xterm"}, True),
        ({"TERM": "dumb"}, False),
        ({"TERM": "xterm", "NO_COLOR": "1"}, False),
    ):
        ours, theirs = pty.openpty()
        command = [sys.executable, "-m", "makhloeum", "tree", str(tmp_path)]
        process = subprocess.Popen(command, stdout=theirs, stderr=theirs, env={**WORDS, **more}, close_fds=True)
        os.close(theirs)
        told = b""
        try:
            while True:
                told += os.read(ours, 4096)
        except OSError:
            pass
        os.close(ours)
        assert process.wait(600) == 0 and (b"\x1b[" in told) == coloured, (more, told)


def test_a_closed_pipe_is_no_message(tmp_path):
    groups(tmp_path, {f"g{number}": {"cgroup.procs": "1\n"} for number in range(2000)} | {".": {"cgroup.procs": ""}})
    command = [sys.executable, "-m", "makhloeum", "tree", str(tmp_path)]
    tree = subprocess.Popen(command, stdout=subprocess.PIPE, stderr=subprocess.PIPE, env=WORDS)
    tree.stdout.close()
    assert (tree.communicate(timeout=600)[1], tree.returncode) == (b"", 141)


def test_an_output_without_lines_and_blocks(tmp_path):
    groups(
        tmp_path,
        {".": {"cgroup.procs": ""}, "a/\u00fc": {"cgroup.procs": "7\n", "pids.current": "1\n", "pids.max": "2\n"}},
    )
    groups(tmp_path, {"a": {"cgroup.procs": "", "pids.current": "1\n", "pids.max": "2\n", "pids.peak": "2\n"}})
    words = dict(WORDS, PYTHONIOENCODING="ascii")
    ran = subprocess.run(
        [sys.executable, "-m", "makhloeum", "tree", "."], capture_output=True, env=words, cwd=tmp_path, timeout=600
    )
    assert (ran.returncode, ran.stderr) == (0, b"")
    assert ran.stdout.decode("ascii").split("\n") == [
        ".",
        "`- a        [#####     ]  1/2  peak 2",
        "   `- \\xfc  [#####     ]  1/2            7",
        "",
    ]


def test_lines_are_cut_to_a_terminal(tmp_path):
    groups(
        tmp_path,
        {".": {"cgroup.procs": ""}, "a": {"cgroup.procs": "".join(f"{pid}\n" for pid in range(100000, 100016))}},
    )
    ours, theirs = pty.openpty()
    fcntl.ioctl(theirs, termios.TIOCSWINSZ, struct.pack("HHHH", 24, 40, 0, 0))
    for more in ({"NO_COLOR": "1"}, {}):
        tree = subprocess.Popen(
            [sys.executable, "-m", "makhloeum", "tree", "."],
            stdout=theirs,
            env=dict(WORDS, TERM="xterm", **more),
            cwd=tmp_path,
        )
        assert tree.wait(600) == 0
        lines = re.sub(r"\x1b\[[0-9;]*m", "", os.read(ours, 65536).decode()).split("\r\n")
        # 40 columns, the last of which is a blank between two pids
        assert lines == [".", "└─ a" + " " * 22 + "100000 100001", ""], lines
    os.close(theirs)
    os.close(ours)


def test_an_interrupt_is_no_traceback(tmp_path):
    """Of `view` and of a command that has just begun."""
    pipe = tmp_path / "pipe"
    os.mkfifo(pipe)
    default = lambda: signal.signal(signal.SIGINT, signal.SIG_DFL)  # noqa: E731: a background ignores SIGINT
    for words, begun in ((["view", str(pipe), "-o", "-"], True), (["check", str(tmp_path)], False)):
        command = [sys.executable, "-m", "makhloeum", *words]
        running = subprocess.Popen(
            command, stdout=subprocess.PIPE, stderr=subprocess.PIPE, env=WORDS, preexec_fn=default
        )
        if begun:
            with open(pipe, "w"):
                running.send_signal(signal.SIGINT)
        for _ in () if begun else range(100):
            time.sleep(0.002)
            running.send_signal(signal.SIGINT)
            if running.poll() is not None:
                break
        out, error = running.communicate(timeout=600)
        assert b"Traceback" not in error and running.returncode in (
            (-signal.SIGINT,) if begun else (-signal.SIGINT, 2)
        ), (words, error)


def test_what_is_no_hierarchy(tmp_path):
    for words, said in (
        ([str(tmp_path)], "it has no cgroup.procs"),
        ([str(tmp_path / "none")], "No such file"),
        ([], "bad command line"),
        ([str(tmp_path), "--wotch"], "bad command line"),
        ([str(tmp_path), str(tmp_path)], "bad command line"),
    ):
        status, out, error = run("tree", *words)
        assert (status, out) == (2, "") and said in error and error.count("\n") == 1, (words, error)


def watching(command):
    """A command that SIGINT ends. A script in the background ignores SIGINT, and so do its children."""
    return subprocess.Popen(
        command,
        stdout=subprocess.PIPE,
        text=True,
        env=WORDS,
        preexec_fn=lambda: signal.signal(signal.SIGINT, signal.SIG_DFL),
    )


def test_watch_draws_again_on_a_change_and_ends(tmp_path):
    groups(tmp_path, SMALL)
    command = [sys.executable, "-u", "-m", "makhloeum", "tree", str(tmp_path), "--watch", "0.1"]
    process = watching(command)
    assert process.stdout is not None
    first = [process.stdout.readline() for _ in range(4)]
    assert "3/4" in first[1]
    # in one step, so that the file is never read while it is empty
    (tmp_path / "current").write_text("4\n")
    (tmp_path / "current").replace(tmp_path / "a" / "pids.current")
    again = [process.stdout.readline() for _ in range(5)]
    assert again[0] == "\n" and "[██████████]    4/4" in again[2]
    time.sleep(0.5)
    process.send_signal(signal.SIGINT)
    rest, _ = process.communicate(timeout=600)
    assert (process.returncode, rest) == (0, ""), "nothing is drawn without a change"


@pytest.mark.skipif(
    not os.path.exists(PROGRAM) or not os.path.exists("/dev/fuse"), reason="there is no mount/out/makhloeum or no FUSE"
)
def test_watch_follows_a_mount_by_poll(tmp_path):
    at = tmp_path / "groups"
    at.mkdir()
    mount = subprocess.run([PROGRAM, "mount", str(at), "--control"], capture_output=True, text=True)
    if mount.returncode == 2 and "does not allow" in mount.stderr:
        pytest.skip(mount.stderr)
    assert mount.returncode == 0, mount.stderr
    try:
        (at / "a").mkdir()
        (at / ".makhloeum" / "fork").write_text("1 2\n")
        command = [sys.executable, "-u", "-m", "makhloeum", "tree", str(at), "--watch", "300"]
        process = watching(command)
        try:
            assert process.stdout is not None
            assert [process.stdout.readline().split()[-1] for _ in range(2)] == ["2", "empty"]
            (at / "a" / "cgroup.procs").write_text("2\n")
            # what is drawn while the process moves may have it twice; it is drawn again after the notification
            for again in ([process.stdout.readline() for _ in range(3)] for _ in range(3)):
                if again[1].rstrip().endswith("  1"):
                    break
            assert again[1].rstrip().endswith("  1"), again
            assert again[2].split()[2:] == ["1/max", "peak", "1", "populated", "2"]
        finally:
            process.send_signal(signal.SIGINT)
            process.communicate(timeout=600)
        assert process.returncode == 0
    finally:
        end = time.monotonic() + 300
        while subprocess.run(["fusermount3", "-u", str(at)], stderr=subprocess.DEVNULL).returncode != 0:
            if time.monotonic() > end:
                break
            time.sleep(0.1)


# ---- makhloeum NAME


@pytest.mark.skipif(not os.path.exists(PROGRAM), reason="mount/out/makhloeum has not been built")
def test_the_program_starts_programs(tmp_path):
    program = shutil.copy(PROGRAM, tmp_path / "makhloeum")
    for name, text in (("hello", '#!/bin/sh\necho "$0" "$@"\nexit 7\n'), ("broken", "#!/no/such/interpreter\n")):
        (tmp_path / f"makhloeum-{name}").write_text(text)
    (tmp_path / "makhloeum-hello").chmod(0o755)
    elsewhere = tmp_path / "path"
    elsewhere.mkdir()
    shutil.copy(tmp_path / "makhloeum-hello", elsewhere / "makhloeum-away")

    def start(*words):
        ran = subprocess.run(
            [program, *words], capture_output=True, text=True, env={"PATH": f"{elsewhere}:/usr/bin:/bin"}
        )
        return ran.returncode, ran.stdout, ran.stderr

    assert start("hello", "a b", "--help") == (7, f"{tmp_path}/makhloeum-hello a b --help\n", "")
    assert start("away", "x") == (7, f"{elsewhere}/makhloeum-away x\n", "")
    installed = tmp_path / "bin"
    installed.mkdir()
    shutil.move(program, installed / "makhloeum")
    program = str(installed / "makhloeum")
    (tmp_path / "libexec" / "makhloeum").mkdir(parents=True)
    shutil.copy(tmp_path / "makhloeum-hello", tmp_path / "libexec" / "makhloeum" / "makhloeum-hello")
    assert start("hello")[1].endswith("/libexec/makhloeum/makhloeum-hello\n")
    for words in (["nothing"], ["broken"], ["../hello", "x"], [""], ["a/b"], ["x" * 5000], ["--wrong"], [], ["mount"]):
        status, out, error = start(*words)
        assert (status, out, error.count("\n")) == (2, "", 1) and len(error) < 5200, (words, status, error)
    assert "'nothing' is not a command" in start("nothing")[2]
