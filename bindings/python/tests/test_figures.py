"""figures.py, which measures calls: what it counts and which of several rounds it takes, by a clock that the test moves."""

import pathlib
import re
import runpy
import sys
import time

from makhloeum import Hierarchy

SOURCE = pathlib.Path(__file__).parents[1] / "figures.py"
SMALL = {"ROUNDS, CALLS, PIPED": "3, 8, 4", "PROCESSES": "2050"}
# It notes each line, and answers a `cat` and an `undo` with two lines.
SHELL = """#!{python}
import sys
for line in sys.stdin:
    print(line, end="", file=open("{noted}", "a"))
    print("1 ok\\n| 1" if line[:3] in ("cat", "und") else "1 ok", flush=True)
"""


def run(monkeypatch, tmp_path, capsys, *programs):
    """What it prints with small numbers, if a round takes 4, 2 and then 3 seconds."""
    text = SOURCE.read_text()
    for line, small in SMALL.items():
        text, count = re.subn(rf"^{line} = .*$", f"{line} = {small}", text, flags=re.M)
        assert count == 1, line
    (tmp_path / "small.py").write_text(text)
    ticks, clocks = {}, []

    def clock(name):
        def tick():
            count = ticks[name] = ticks.get(name, -1) + 1
            clocks.append(name)
            return 100.0 * (count // 2) + (4.0, 2.0, 3.0)[count // 2 % 3] * (count % 2)

        return tick

    for name in ("process_time", "perf_counter"):
        monkeypatch.setattr(time, name, clock(name))
    monkeypatch.setattr(sys, "argv", ["figures.py", *programs])
    runpy.run_path(str(tmp_path / "small.py"))
    return capsys.readouterr().out.splitlines(), clocks


IN_MEMORY = ["cats", "numbers (current)", "forks with their undos"]
SWEEPS = ["read for each", "current for each", "one read_many"]


def counted(monkeypatch, *names):
    """How often these methods are called."""
    calls = dict.fromkeys(names, 0)

    def counting(name, method):
        def call(*words, **more):
            calls[name] += 1
            return method(*words, **more)

        return call

    for name in names:
        monkeypatch.setattr(Hierarchy, name, counting(name, getattr(Hierarchy, name)))
    return calls


def test_the_best_of_some_rounds_counts(monkeypatch, tmp_path, capsys):
    calls = counted(monkeypatch, "read", "current", "read_many", "fork", "undo", "peak")
    lines, clocks = run(monkeypatch, tmp_path, capsys)
    # three rounds of eight calls, and sweeps over 1,024 groups, one of which is the first look at the numbers
    sweeps = {"read": 3 * 1024, "current": 4 * 1024, "read_many": 4, "fork": 2050, "undo": 0, "peak": 0}
    assert calls == {name: sweeps[name] + 24 * (name not in ("read_many", "peak")) for name in sweeps}
    wanted = [f"Python, {what:50} {4:11} a second" for what in IN_MEMORY]  # 8 calls in 2 seconds
    wanted += [f"Python, a sweep over 1,024 groups, {what:23} {2000:11}.000 ms" for what in SWEEPS]
    assert [re.sub(" +", " ", line) for line in lines] == [re.sub(" +", " ", line) for line in wanted]
    assert len({line.rindex(" a second") for line in lines[:3]}) == 1, "the numbers are below one another"
    assert clocks == ["process_time"] * 2 * 3 * 6


def test_pipes_are_measured_in_real_time(monkeypatch, tmp_path, capsys):
    shell = tmp_path / "shell"
    shell.write_text(SHELL.format(python=sys.executable, noted=tmp_path / "noted"))
    shell.chmod(0o755)
    lines, clocks = run(monkeypatch, tmp_path, capsys, str(shell))
    assert [re.sub(" +", " ", line) for line in lines[3:5]] == [
        "Python, cats by pipes to cgshell 2 a second",  # 4 calls in 2 seconds
        "Python, forks with their undos by pipes 2 a second",
    ]
    assert clocks.count("perf_counter") == 2 * 3 * 2 and len(lines) == 8
    noted = (tmp_path / "noted").read_text().splitlines()
    setup = ["mkdir /a", "fork 1 2", "write /a cgroup.procs 2"]
    assert noted == [*setup, *["cat /a pids.current"] * 12, *["fork 2 3", "undo"] * 12]
