"""What `makhloeum check` prints of a difference, line by line, and what the engine's side asks of the directory."""

import os
import subprocess
import threading
import time

import pytest

from makhloeum.check.engine import Answer, Engine, listing
from makhloeum.check.playing import NO_ANSWER, Difference
from makhloeum.check.script import explained, said, shell_script

DONE, BUSY = Answer("ok"), Answer("EBUSY", "", "hasprocesses")
STARTS = 'sleep 99 & p{0}=$!; k="$k $!"'
FORKER = 'mkfifo "$d"/{0}; p {0} & p{0}=$!; k="$k $!"'
REREAD = "python3 -c 'import os; print(os.pread(0, 65536, 0).decode(), end=\"\")'"


def body(*lines, way="free", control=False, ours=BUSY, theirs=DONE):
    """The lines after those that every script has, and after the two functions of a script whose processes fork."""
    commands = [line.split(" ") for line in lines]
    script = shell_script(Difference(way, commands, ours, theirs), "/dir", control)
    assert (
        script[0] == "#!/bin/sh"
        and script[1]
        == f"# the last line shows it: the engine: {said(ours)}"
        + (f", {ours.reply}" if ours.reply and ours.error != "ok" else "")
        + f"; the directory: {said(theirs)}"
    )
    own = "makhloeum-check-$$"
    on = f"; echo +pids >{own}/cgroup.subtree_control" if control else ""
    assert script[2] == f"cd /dir && mkdir {own}{on} && mkdir {own}/home {own}/top && cd {own}/top || exit 2"
    gone = f"cd ../..; find {own} -depth -type d -exec rmdir {{}} +"
    trap = f'kill -9 $k 2>/dev/null; sleep 0.5; rm -r "$d"; {gone}'
    assert script[3] == f"k= d=$(mktemp -d); trap '{trap}' EXIT", "nothing is left"
    rest = script[4:]
    forks = [line for line in rest if line.startswith(("p()", "f()"))]
    assert [line[:3] for line in forks] in ([], ["p()", "f()"]) and rest[: len(forks)] == forks
    needs = any("$d/" in line.replace('"', "") for line in rest[len(forks) :])
    assert needs == bool(forks), "only a script whose processes fork has their functions"
    return rest[len(forks) :]


MOVED = ["mkdir /a", "fork 1 2", "write /a cgroup.procs 2"]
MOVES = ["mkdir a", STARTS.format(2) + "; echo $p2 >a/cgroup.procs"]


@pytest.mark.parametrize(
    "commands, wanted",
    [
        (["mkdir /a", "mkdir /a/b", "rmdir /a/b", "rmdir /a"], ["mkdir a; mkdir a/b", "rmdir a/b", "rmdir a"]),
        (["mkdir /a", "rmdir /a", "rmdir /a", "cat / cgroup.stat"], ["mkdir a", "rmdir a; rmdir a", "cat cgroup.stat"]),
        (["mkdir /a", "write /a pids.max 1", "cat /a pids.max"], ["mkdir a; echo 1 >a/pids.max", "cat a/pids.max"]),
        (["mkdir /a", "mkdir /b", "write /a pids.max 1", "list /"], ["mkdir a; mkdir b", "echo 1 >a/pids.max", "ls ."]),
        (["mkdir /a", "list /a"], ["mkdir a", "ls a"]),
        (["mkdir /a", "write /a pids.max 1"], ["mkdir a", "/bin/echo 1 >a/pids.max"]),
        (["write / cgroup.max.depth x", "mkdir /a"], ["echo x >cgroup.max.depth", "mkdir a"]),
        (["write / pids.max $x*", "mkdir /-a", "mkdir /a"], ["echo '$x*' >pids.max", "mkdir ./-a", "mkdir a"]),
        ([*MOVED, "rmdir /a"], [*MOVES, "rmdir a"]),
        ([*MOVED, "where 2"], [*MOVES, "cat /proc/$p2/cgroup"]),
        ([*MOVED, "write / cgroup.procs 2"], [*MOVES, "/bin/echo $p2 >../home/cgroup.procs"]),
        ([*MOVED, "write /a cgroup.procs 9"], [*MOVES, "/bin/echo 4194303 >a/cgroup.procs"]),
        ([*MOVED, "exit 2", "rmdir /a"], [*MOVES, "kill -9 $p2; wait $p2", "rmdir a"]),
        (
            [*MOVED, "exit 2", "write /a cgroup.procs 2"],
            [*MOVES, "kill -9 $p2; wait $p2", "/bin/echo 4194303 >a/cgroup.procs"],
        ),
        ([*MOVED, "write /a cgroup.kill 1", "rmdir /a"], [*MOVES, "echo 1 >a/cgroup.kill; wait $p2", "rmdir a"]),
        ([*MOVED, "write /b cgroup.kill 1", "rmdir /a"], [*MOVES, "echo 1 >b/cgroup.kill; sleep 0.2", "rmdir a"]),
        (["mkdir /a", "cat /a cgroup.procs"], ["mkdir a", "cat a/cgroup.procs"]),
    ],
)
def test_the_lines_of_a_script(commands, wanted):
    assert body(*commands) == wanted


def test_processes_that_fork():
    start = ["mkdir /a", "fork 1 2", "write /a cgroup.procs 2", "fork 2 3"]
    lines = ["mkdir a", FORKER.format(2) + "; echo $p2 >a/cgroup.procs", "f 2 3"]
    assert body(*start, "cat /a cgroup.procs") == [*lines, "cat a/cgroup.procs"]
    assert body(*start, "exit 3", "rmdir /a") == [*lines, "kill -9 $p3; echo wait $p3 >$d/2; sleep 0.2", "rmdir a"]
    # nobody is there any more who could wait for it
    assert body(*start, "exit 2", "exit 3", "rmdir /a")[3:] == [
        "kill -9 $p2; wait $p2",
        "kill -9 $p3; sleep 0.2",
        "rmdir a",
    ]
    assert body(*start, "write /a cgroup.kill 1", "rmdir /a")[3:] == ["echo 1 >a/cgroup.kill; wait $p2", "rmdir a"]
    # a fork that is the last command and succeeds on both sides is shown by the group's processes
    assert body(*start, ours=DONE) == [*lines[:2], "f 2 3; cat a/cgroup.procs"]
    assert body(*start) == [*lines[:2], "f 2 3"]
    assert body(*start, "exit 3", ours=DONE)[-1] == "kill -9 $p3; echo wait $p3 >$d/2; sleep 0.2; cat a/cgroup.procs"
    # a process that nobody moves starts where it is needed
    assert body("mkdir /a", "fork 1 2", "exit 2", "fork 1 3", "write /a cgroup.procs 3", "rmdir /a") == [
        "mkdir a",
        STARTS.format(2),
        "kill -9 $p2; wait $p2",
        STARTS.format(3) + "; echo $p3 >a/cgroup.procs",
        "rmdir a",
    ]
    # one whose group is asked for before its move is there by then
    assert body("mkdir /a", "fork 1 2", "where 2", "write /a cgroup.procs 2", "rmdir /a") == [
        "mkdir a",
        STARTS.format(2),
        "cat /proc/$p2/cgroup",
        "echo $p2 >a/cgroup.procs",
        "rmdir a",
    ]


@pytest.mark.parametrize(
    "commands, ours, wanted",
    [
        (["fork 1 2"], DONE, ["f 1 2; cat ../home/cgroup.procs"]),
        (
            ["fork 1 2", "exit 2"],
            DONE,
            ["f 1 2", "kill -9 $p2; echo wait $p2 >$d/1; sleep 0.2; cat ../home/cgroup.procs"],
        ),
        (["fork 1 2", "cat / cgroup.procs"], BUSY, ["f 1 2", "cat ../home/cgroup.procs"]),
        (["mkdir /a", "exit 1", "rmdir /a"], BUSY, ["mkdir a", "kill -9 $p1; wait $p1", "rmdir a"]),
    ],
)
def test_a_script_about_process_1_has_one_of_its_own(commands, ours, wanted):
    assert body(*commands, ours=ours) == [FORKER.format(1) + "; echo $p1 >../home/cgroup.procs", *wanted]


def test_process_1_starts_where_it_is_moved():
    assert body("mkdir /a", "write /a cgroup.procs 1", "rmdir /a") == [
        "mkdir a",
        FORKER.format(1) + "; echo $p1 >a/cgroup.procs",
        "rmdir a",
    ]
    assert body("mkdir /a", "write /a cgroup.procs 1") == [
        "mkdir a",
        FORKER.format(1) + "; /bin/echo $p1 >a/cgroup.procs",
    ]
    # the script's shell is process 1 where nothing is said of it, so only a fork that is refused is a shell's
    assert body("fork 1 2") == [STARTS.format(2)]


def test_files_that_stay_open_and_watched_ones():
    lines = body("mkdir /a", "reread /a pids.max", "reread / cgroup.stat", "reread /a pids.max", "watch /a", "told /a")
    watched = lines.pop(4)
    assert lines == [
        "mkdir a",
        "exec 4<a/pids.max; cat <&4",
        "exec 5<cgroup.stat; cat <&5",
        f"{REREAD} <&4",
        "wait $w $v",
    ]
    assert watched.count(" a/cgroup.events & ") == 2 and "POLLPRI" in watched and watched.endswith("& v=$!; sleep 0.5")
    many = body(*(f"reread /a file{number}" for number in range(7)), "list /")
    assert [line[5] for line in many[:7]] == list("4567894"), "a shell has one digit for an open file"


def test_a_script_waits_for_a_change_that_comes_late(tmp_path):
    """A pipe stands for the watched file: it wakes a poll when its writer closes it."""
    os.mkfifo(tmp_path / "cgroup.events")
    written = []

    def change():
        with open(tmp_path / "cgroup.events", "w", encoding="ascii") as file:  # once the script has opened it
            written.append(time.monotonic())
            print("populated 0", file=file, flush=True)
            time.sleep(0.5)

    threading.Thread(target=change, daemon=True).start()
    script = "\n".join(["inotifywait() { :; }", *body("watch /", "told /")]) + "\n"
    ran = subprocess.run(["sh"], input=script, text=True, capture_output=True, timeout=600, cwd=tmp_path)
    assert written, ran.stderr
    took = time.monotonic() - written[0]
    # on a busy machine the change may come after the two seconds that the script waits
    assert ran.stdout == "poll came\n" or ran.stdout == "poll nothing\n" and took > 2, (took, ran.stderr)


@pytest.mark.parametrize("processes", [1, 2])
def test_a_script_of_a_kill_names_the_processes_that_a_plain_directory_leaves_alive(tmp_path, processes):
    commands = [["mkdir", "/a"]]
    for pid in range(2, 2 + processes):
        commands += [["fork", "1", str(pid)], ["write", "/a", "cgroup.procs", str(pid)]]
    commands.append(["write", "/a", "cgroup.kill", "1"])
    ours, theirs = Answer("ok", "alive: 1"), Answer("ok", "alive: 1 2")
    script = shell_script(Difference("free", commands, ours, theirs), str(tmp_path))
    ran = subprocess.run(["sh", "-c", "\n".join(script)], capture_output=True, text=True, timeout=600)
    assert [line.split()[1][0] for line in ran.stdout.splitlines()] == ["S"] * processes, ran
    # the files of a plain directory stay
    assert {line.split(":")[0] for line in ran.stderr.splitlines()} == {"rmdir"}


def test_a_script_without_processes_says_nothing_else(tmp_path):
    commands = [["mkdir", "/a"], ["mkdir", "/a"]]
    script = shell_script(Difference("free", commands, Answer("EPERM"), Answer("EEXIST")), str(tmp_path))
    words = dict(os.environ, LC_ALL="C")
    ran = subprocess.run(["sh", "-c", "\n".join(script)], capture_output=True, text=True, timeout=600, env=words)
    assert ran.stdout == "" and ran.stderr.count("\n") == 1 and "File exists" in ran.stderr
    assert os.listdir(tmp_path) == []


def test_a_kill_that_differs_shows_who_is_alive():
    lines = body(*MOVED, "write /a cgroup.kill 1", ours=Answer("ok", "alive: "), theirs=Answer("ok", "alive: 2"))
    assert lines == [*MOVES, '/bin/echo 1 >a/cgroup.kill; sleep 0.5; ps -o pid=,stat= -p "${k# }"']
    same = body(*MOVED, "write /a cgroup.kill 1", ours=Answer("EINVAL", "", "value"), theirs=DONE)
    assert same == [*MOVES, "/bin/echo 1 >a/cgroup.kill; wait $p2"]
    more = body(
        "mkdir /a", "write /a cgroup.kill 2", ours=Answer("EINVAL", "", "value"), theirs=Answer("ok", "alive: 1")
    )
    assert more == ["mkdir a", "/bin/echo 2 >a/cgroup.kill; sleep 0.2"], "it differs whoever is alive"
    less = body("mkdir /a", "write /a cgroup.kill 1", ours=Answer("ok", "alive: 1"), theirs=Answer("EACCES"))
    assert less == ["mkdir a", "/bin/echo 1 >a/cgroup.kill; sleep 0.2"]


@pytest.mark.parametrize(
    "way, control, wanted",
    [
        ("free", False, ["mkdir a; mkdir a/b; mkdir a/c; mkdir d", "cat a/b/cgroup.procs"]),
        ("free", True, ["mkdir a; mkdir a/b; mkdir a/c; mkdir d", "cat a/b/cgroup.procs"]),
        ("N", True, ["mkdir a; mkdir a/b; mkdir a/c; mkdir d", "cat a/b/cgroup.procs"]),
        ("D", False, ["mkdir a; mkdir a/b; mkdir a/c; mkdir d", "cat a/b/cgroup.procs"]),
        (
            "D",
            True,
            [
                "echo +pids >cgroup.subtree_control; mkdir a; echo +pids >a/cgroup.subtree_control; mkdir a/b; mkdir a/c; mkdir d",
                "cat a/b/cgroup.procs",
            ],
        ),
        (
            "T",
            True,
            [
                "echo +pids >cgroup.subtree_control; mkdir a; echo threaded >a/cgroup.type; "
                "echo +pids >a/cgroup.subtree_control; mkdir a/b; echo threaded >a/b/cgroup.type; "
                "mkdir a/c; echo threaded >a/c/cgroup.type; mkdir d; echo threaded >d/cgroup.type",
                "cat a/b/cgroup.threads",
            ],
        ),
    ],
)
def test_the_ways_of_a_directory(way, control, wanted):
    assert (
        body("mkdir /a", "mkdir /a/b", "mkdir /a/c", "mkdir /d", "cat /a/b cgroup.procs", way=way, control=control)
        == wanted
    )
    moved = body(*MOVED, "rmdir /a", way=way, control=control)
    assert moved[1] == MOVES[1], "a process is moved by cgroup.procs in each way"


@pytest.mark.parametrize(
    "answer, wanted",
    [
        (Answer("ok"), "ok"),
        (Answer("ok", "1\n"), "'1\\n'"),
        (Answer("EBUSY", "", "hasprocesses"), "EBUSY (Device or resource busy)"),
        (Answer("EINVAL", "text"), "EINVAL (Invalid argument)"),
        (Answer("errno 999"), "errno 999"),
        (Answer(NO_ANSWER), "nothing, it hangs"),
    ],
)
def test_an_answer_as_a_user_reads_it(answer, wanted):
    assert said(answer) == wanted
    told = explained(Difference("free", [["list", "/"]], answer, BUSY))
    reply = f", {answer.reply}" if answer.reply else ""
    assert told == [f"the engine: {wanted}{reply}", "the directory: EBUSY (Device or resource busy)"]


# ---- the engine's side


@pytest.fixture
def engine():
    it = Engine("free", [], False)
    for line in ("mkdir /a", "mkdir /a/b", "fork 1 2", "write /a/b cgroup.procs 2", "fork 2 3"):
        assert it.play(line.split(" ")).error == "ok"
    yield it
    it.close()


@pytest.mark.parametrize(
    "line, request_",
    [
        ("fork 2 4", ["fork", 2, 4, "/a/b"]),
        ("fork 1 4", ["fork", 1, 4, "/"]),
        ("exit 3", ["exit", 3, "/a/b"]),
        ("exit 9", ["exit", 9, None]),
        ("where 2", ["where", 2]),
        ("mkdir /c", ["mkdir", "/c"]),
        ("cat /a pids.max", ["cat", "/a", "pids.max"]),
        ("write /a pids.max 1", ["write", "/a", "pids.max", "1", []]),
        ("write /a cgroup.kill 1", ["write", "/a", "cgroup.kill", "1", [2, 3]]),
        ("write /a cgroup.kill 0", ["write", "/a", "cgroup.kill", "0", []]),
        ("write /n cgroup.kill 1", ["write", "/n", "cgroup.kill", "1", []]),
        ("list /", ["list", "/"]),
    ],
)
def test_what_the_worker_is_asked(engine, line, request_):
    assert engine.request(line.split(" ")) == request_


@pytest.mark.parametrize(
    "line, wanted",
    [
        ("fork 2 4", Answer("ok", "2\n3\n4\n")),
        ("fork 1 4", Answer("ok", "1\n4\n")),
        ("fork 1 2", Answer("EEXIST", "", "pidinuse 2")),
        ("exit 3", Answer("ok", "2\n")),
        ("exit 9", Answer("ESRCH", "", "noprocess 9")),
        ("write /a cgroup.kill 1", Answer("ok", "alive: 1")),
        ("write /a/b pids.max 2", Answer("ok")),
        ("write /a pids.max x", Answer("EINVAL", "", "value")),
        ("cat /a pids.current", Answer("ok", "2\n")),
        ("reread /a pids.current", Answer("ok", "2\n")),
        ("cat /n pids.current", Answer("ENOENT", "", "nogroup /n")),
        ("where 2", Answer("ok", "0::/a/b\n")),
        ("watch /a", Answer("ok")),
        ("list /n", Answer("ENOENT", "", "nogroup /n")),
        ("rmdir /a", Answer("EBUSY", "", "haschildren")),
    ],
)
def test_what_the_engine_answers(engine, line, wanted):
    assert engine.play(line.split(" ")) == wanted


READABLE = (
    "cgroup.events cgroup.max.depth cgroup.max.descendants cgroup.procs cgroup.stat pids.current pids.events pids.events.local pids.max "
    "pids.peak"
).split()


@pytest.mark.parametrize("way, missing", [("free", []), ("N", []), ("free", ["pids.peak", "cgroup.kill"])])
def test_a_listing_has_groups_and_the_files_that_are_there(way, missing):
    it = Engine(way, missing, False)
    try:
        for line in ("mkdir /b", "mkdir /a", "mkdir /a/x"):
            it.play(line.split(" "))
        names = sorted({*READABLE, "cgroup.kill"} - set(missing))
        below = [name for name in names if way != "N" or not name.startswith("pids.")]
        assert it.play(["list", "/"]) == Answer("ok", "a b\n" + " ".join(names) + "\n"), "no root in the directory"
        assert it.play(["list", "/a"]) == Answer("ok", "x\n" + " ".join(below) + "\n")
        assert it.play(["list", "/b"]) == Answer("ok", "\n" + " ".join(below) + "\n")
    finally:
        it.close()


def test_every_file_of_every_group_is_read_at_the_end(engine):
    on_root = ["cgroup.procs", "cgroup.stat", "cgroup.max.descendants", "cgroup.max.depth"]
    wanted = [["cat", group, name] for group in ("/", "/a", "/a/b") for name in (on_root if group == "/" else READABLE)]
    dump = engine.dump()
    assert sorted(dump[:-3]) == sorted(wanted) and dump[-3:] == [["list", "/"], ["list", "/a"], ["list", "/a/b"]]


def test_the_state_of_the_engine(engine):
    assert (engine.alive(), engine.alive("/a"), engine.alive("/a/b"), engine.new_pid()) == (
        [1, 2, 3],
        [2, 3],
        [2, 3],
        "4",
    )
    engine.play(["exit", "2"])
    assert (engine.new_pid(), engine.group_of(2), engine.group_of(3), engine.group_of(1)) == ("2", None, "/a/b", "/")
    assert [engine.is_group(path) for path in ("/", "/a", "/n", "a", "/a/")] == [True, True, False, False, False]
    assert engine.taken(["write", "/a", "pids.max", "0x10"]) == ["write", "/a", "pids.max", "16"]
    assert engine.taken(["write", "/a", "pids.max", "x"]) is None and engine.taken(["cat", "/a", "pids.max"]) is None
    assert (
        str(Answer("EBUSY", "text", "hasprocesses")) == "EBUSY (hasprocesses)"
        and str(Answer("ok", "1\n")) == "ok '1\\n'"
    )


def test_a_listing_is_in_the_order_of_names():
    """A directory gives its names in an order of its own."""
    assert listing(["b", "a", "c"], ["pids.max", "cgroup.kill"]) == "a b c\ncgroup.kill pids.max\n"
    assert listing([], []) == "\n\n"
