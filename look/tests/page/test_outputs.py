"""Each program with an output that can't be written: one sentence, the status of a failed write, and never a traceback.

An output is full (/dev/full), closed, or a pipe that nobody reads. Without a buffer the first write fails, else the last flush."""

import errno
import os
import pty
import select
import shutil
import subprocess
import sys
import time

import pytest
from support import HERE, PYTHON
from test_commands import PROGRAM, SMALL, WORDS, groups

CRATES = os.path.join(HERE, "..", "..", "..", "crates")
MODULE = [sys.executable, "-m", "makhloeum"]
TEXTS = {"full": os.strerror(errno.ENOSPC), "closed": os.strerror(errno.EBADF), "unread": ""}
FULL_OR_CLOSED = {"check": 2}  # 1 is the status of a found difference
HAS_MOUNT = os.path.exists(PROGRAM) and os.path.exists("/dev/fuse")
mounts = pytest.mark.skipif(not HAS_MOUNT, reason="there is no mount/out/makhloeum or no FUSE")
builds = pytest.mark.skipif(not os.path.exists(PROGRAM), reason="mount/out/makhloeum has not been built")


@pytest.fixture(scope="module")
def home(tmp_path_factory):
    """A folder with what the programs read, and with an installation of them."""
    at = tmp_path_factory.mktemp("outputs")
    groups(at / "groups", SMALL)
    (at / "trace").write_text("mkdir /a\ncat /a pids.max\n")
    for folder in ("bin", "libexec/makhloeum", "share/makhloeum"):
        (at / folder).mkdir(parents=True)
    (at / "share" / "makhloeum" / "python").symlink_to(os.path.realpath(PYTHON))
    for name in ("view", "tree", "check"):
        command = at / "libexec" / "makhloeum" / f"makhloeum-{name}"
        shutil.copy(os.path.join(HERE, "..", "..", "makhloeum-command"), command)
    if os.path.exists(PROGRAM):
        shutil.copy(PROGRAM, at / "bin" / "makhloeum")
    return at


@pytest.fixture(scope="module")
def mounted(tmp_path_factory):
    """A mount that a check can use."""
    at = tmp_path_factory.mktemp("mounted")
    ran = subprocess.run([PROGRAM, "mount", str(at), "--adopt"], capture_output=True, text=True)
    if ran.returncode == 2 and "does not allow" in ran.stderr:
        pytest.skip(ran.stderr)
    assert ran.returncode == 0, ran.stderr
    yield at
    end = time.monotonic() + 300
    while (
        subprocess.run(["fusermount3", "-u", str(at)], stderr=subprocess.DEVNULL).returncode and time.monotonic() < end
    ):
        time.sleep(0.1)


def unread():
    """A pipe without a reader."""
    ours, theirs = os.pipe()
    os.close(ours)
    return theirs


def run(command, output, error="piped", text=b"", **how):
    """The status as a shell tells it, and standard error. Where that can't be read, it is None."""
    outputs = {"full": ">/dev/full", "closed": ">&-", "unread": ">&9", "read": ">/dev/null"}
    errors = {"full": "2>/dev/full", "closed": "2>&-", "unread": "2>&9", "piped": ""}
    pipe = unread()
    try:
        ran = subprocess.run(
            ["bash", "-c", f'exec 9>&{pipe} {pipe}>&-; "$@" {outputs[output]} {errors[error]} 9>&-; exit $?', "bash", *command],
            input=text, stderr=subprocess.PIPE, pass_fds=[pipe], timeout=600, **{"env": WORDS, **how},
        )  # fmt: skip
    finally:
        os.close(pipe)
    return ran.returncode, ran.stderr.decode() if error == "piped" else None


def wanted(name, output):
    if output == "unread":
        return 141, ""
    program = "makhloeum" + (f" {name}" if name else "")
    return FULL_OR_CLOSED.get(name, 1), f"{program}: write failed: {TEXTS[output]}\n"


@pytest.fixture(params=["", "1"], ids=["the last flush", "the first write"])
def how(request, home):
    return {"cwd": home, "env": dict(WORDS, PYTHONUNBUFFERED=request.param)}


PROGRAMS = [
    ("view", "view trace -o page.html", b""),
    ("view", "view trace -o -", b""),
    ("view", "view --help", b""),
    ("tree", "tree groups", b""),
    ("tree", "tree groups --watch 0.1", b""),
    ("tree", "tree -h", b""),
    ("check", "check --help", b""),
    ("", "--help", b""),
    ("", "--version", b""),
    ("", "trace", b""),
    ("", "trace trace", b""),
    ("", "-", b"mkdir /a\nmkdir /a\n"),
    ("", "-", b"help\n"),
    ("", "-", b"help mkdir\n"),
    ("", "-", b"source trace\nquit\n"),
]


@pytest.mark.parametrize("output", TEXTS)
@pytest.mark.parametrize("name, words, text", PROGRAMS, ids=lambda it: it if isinstance(it, str) else "")
def test_an_output_that_fails(how, name, words, text, output):
    assert run([*MODULE, *words.split()], output, text=text, **how) == wanted(name, output)


@pytest.mark.parametrize(
    "output, error", [("full", "full"), ("full", "unread"), ("closed", "closed"), ("unread", "unread")]
)
@pytest.mark.parametrize(
    "name, words, text", [PROGRAMS[at] for at in (0, 3, 6, 9)], ids=lambda it: it if isinstance(it, str) else ""
)
def test_the_status_where_no_sentence_can_be_written(home, name, words, text, output, error):
    assert run([*MODULE, *words.split()], output, error, text, cwd=home)[0] == wanted(name, output)[0]


@mounts
@pytest.mark.parametrize("output", TEXTS)
def test_a_check_that_cannot_print_leaves_nothing(how, mounted, output):
    command = [*MODULE, "check", str(mounted), "--no-worked", "--count", "40", "--quiet"]
    assert run(command, output, **how) == wanted("check", output)
    assert [entry.name for entry in os.scandir(mounted) if entry.is_dir()] == []


@mounts
@pytest.mark.parametrize("error", ["full", "closed", "unread"])
def test_a_check_whose_messages_cannot_be_written(how, mounted, error):
    command = [*MODULE, "check", str(mounted), "--no-worked", "--count", "40"]
    assert run(command, "read", error, **how)[0] == 0
    assert run([*MODULE, "check", str(how["cwd"])], "read", error, **how)[0] == 2


@pytest.mark.parametrize("output", TEXTS)
def test_messages_do_not_get_into_an_output(home, tmp_path, output):
    """A closed standard error is not replaced by standard output, nor either by a file that is opened next."""
    page = tmp_path / "page.html"
    script = '"$@" >out 2>&-; echo $?'
    told = subprocess.run(
        ["sh", "-c", script, "sh", *MODULE, "view", "missing"],
        cwd=tmp_path,
        env=WORDS,
        capture_output=True,
        timeout=600,
    )
    assert (told.stdout, (tmp_path / "out").read_text()) == (b"1\n", "")
    assert (
        run([*MODULE, "view", str(home / "trace"), "-o", str(page)], output, "closed")[0] == wanted("view", output)[0]
    )
    assert page.read_text().endswith("</html>\n") and "write failed" not in page.read_text()


@pytest.mark.parametrize("output", TEXTS)
def test_a_shell_that_a_person_uses(home, output):
    """Its input is a terminal, so it shows a prompt."""
    ours, theirs = pty.openpty()
    os.write(ours, b"mkdir /a\nls\nquit\n")
    pipe = unread()
    to = {"full": ">/dev/full", "closed": ">&-", "unread": f">&{pipe}"}[output]
    try:
        ran = subprocess.run(
            ["bash", "-c", f'"$@" {to}; exit $?', "bash", *MODULE],
            stdin=theirs, stderr=subprocess.PIPE, env=WORDS, pass_fds=[pipe], timeout=600,
        )  # fmt: skip
    finally:
        for file in (ours, theirs, pipe):
            os.close(file)
    assert (ran.returncode, ran.stderr.decode()) == wanted("", output)


@pytest.mark.parametrize("words", ["view - -o -", "-"])
def test_an_input_that_is_closed(how, words):
    script = '"$@" <&-; exit $?'
    ran = subprocess.run(
        ["sh", "-c", script, "sh", *MODULE, *words.split()], capture_output=True, text=True, timeout=600, **how
    )
    assert (ran.returncode, ran.stdout, ran.stderr.count("\n")) == (1, "", 1) and os.strerror(errno.EBADF) in ran.stderr


def test_a_pipe_that_is_full_and_does_not_wait(home):
    ours, theirs = os.pipe()
    os.set_blocking(theirs, False)
    try:
        while os.write(theirs, b"x" * 4096):
            pass
    except BlockingIOError:
        pass
    ran = subprocess.run(
        [*MODULE, "tree", "groups"], stdout=theirs, stderr=subprocess.PIPE, cwd=home, env=WORDS, timeout=600
    )
    os.close(ours)
    os.close(theirs)
    assert (ran.returncode, ran.stderr.decode()) == (1, f"makhloeum tree: write failed: {os.strerror(errno.EAGAIN)}\n")


RECOVERS = """
import resource, signal, sys
from makhloeum._output import writes

@writes("drops")
def main(words):
    hard = resource.getrlimit(resource.RLIMIT_FSIZE)[1]
    resource.setrlimit(resource.RLIMIT_FSIZE, (0, hard))
    try:
        print("x" * 100_000, flush=True)
    except Exception:
        pass
    resource.setrlimit(resource.RLIMIT_FSIZE, (hard, hard))
    return 0

signal.signal(signal.SIGXFSZ, signal.SIG_IGN)
sys.exit(main([]))
"""


def test_a_failure_is_reported_although_the_last_flush_succeeds(tmp_path):
    """The command drops it, and there is room again."""
    with open(tmp_path / "output", "wb") as output:
        ran = subprocess.run(
            [sys.executable, "-c", RECOVERS], stdout=output, stderr=subprocess.PIPE, env=WORDS, timeout=600
        )
    assert (ran.returncode, ran.stderr.decode()) == (1, f"drops: write failed: {os.strerror(errno.EFBIG)}\n")


# ---- the installed programs


@builds
@pytest.mark.parametrize("output", TEXTS)
@pytest.mark.parametrize("name, words", [("view", "view trace"), ("tree", "tree groups"), ("check", "check --help")])
def test_an_installed_program(home, name, words, output):
    environment = {it: value for it, value in WORDS.items() if it != "PYTHONPATH"}
    command = [str(home / "bin" / "makhloeum"), *words.split()]
    assert run(command, output, cwd=home, env=environment) == wanted(name, output)


@builds
@pytest.mark.parametrize("output", TEXTS)
@pytest.mark.parametrize("words", ["--help", "-h", "mount --help", "run -h"])
def test_the_help_of_the_mount(home, words, output):
    assert run([PROGRAM, *words.split()], output) == wanted("", output)
    assert run([PROGRAM, *words.split()], output, "closed")[0] == wanted("", output)[0]


@pytest.mark.parametrize("output", TEXTS)
@pytest.mark.parametrize("words", ["", "--help"])
@pytest.mark.parametrize("name", ["cgreplay", "cgshell"])
def test_the_replay_and_the_shell(name, words, output):
    program = os.path.join(CRATES, name, "out", name)
    if not os.path.exists(program):
        pytest.skip(f"{program} has not been built")
    ends_quietly = name == "cgshell" and output == "unread"
    text = b"mkdir /a\n"
    assert run([program, *words.split()], output, text=text) == (
        (141, "") if ends_quietly else (1, f"{name}: write failed\n")
    )


# ---- what is around each program

COMMAND = """import sys
from makhloeum._output import writes

@writes("prog", 3)
def main(words):
    {}
    return 0

sys.exit(main([]))
"""
DROPS = "try: print('x', flush=True)\n    except Exception: pass"
PRINTS = "print('first'); sys.stdin.readline()"


@pytest.mark.parametrize("output, status, said", [
    ("full", 3, f"prog: write failed: {TEXTS['full']}\n"), ("closed", 3, f"prog: write failed: {TEXTS['closed']}\n"),
    ("unread", 141, ""), ("read", 0, ""),
])  # fmt: skip
def test_a_failure_that_the_program_drops_is_reported(output, status, said):
    assert run([sys.executable, "-c", COMMAND.format(DROPS)], output) == (status, said)


@pytest.mark.parametrize("is_terminal, unbuffered", [(True, ""), (True, "1"), (False, "1")])
def test_a_line_is_shown_at_once_on_a_terminal_and_without_a_buffer(is_terminal, unbuffered):
    ours, theirs = pty.openpty() if is_terminal else os.pipe()
    command, env = [sys.executable, "-c", COMMAND.format(PRINTS)], dict(WORDS, PYTHONUNBUFFERED=unbuffered)
    with subprocess.Popen(command, stdin=subprocess.PIPE, stdout=theirs, env=env) as ran:
        shown = select.select([ours], [], [], 60)[0]
        ran.communicate(b"\n")
    assert shown and os.read(ours, 99).split() == [b"first"] and ran.returncode == 0
    os.close(ours)
    os.close(theirs)
