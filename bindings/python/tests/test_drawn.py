"""What each Hypothesis strategy draws, and what it never draws."""

import pytest

hypothesis = pytest.importorskip("hypothesis")

from hypothesis import HealthCheck, settings  # noqa: E402
from hypothesis import strategies as st  # noqa: E402
from hypothesis.stateful import run_state_machine_as_test  # noqa: E402

from makhloeum._table import PID_MAX, PIDS_LIMIT_MAX  # noqa: E402
from makhloeum.strategies import HierarchyMachine, commands, limits, names, paths, pids  # noqa: E402

MANY = settings(
    max_examples=3000, deadline=None, database=None, derandomize=True, suppress_health_check=list(HealthCheck)
)
FEW = settings(MANY, max_examples=60, stateful_step_count=40)


def is_drawn(strategy, wanted):
    try:
        hypothesis.find(strategy, wanted, settings=MANY)
    except hypothesis.errors.NoSuchExample:
        return False
    return True


@pytest.mark.parametrize(
    "strategy, drawn, never",
    [
        (pids(5), [lambda it: it == 1, lambda it: it == 5], [lambda it: it < 1, lambda it: it > 5]),
        (pids(), [lambda it: it > 100000], [lambda it: not 1 <= it <= PID_MAX]),
        (
            limits(3),
            [lambda it: it == "0", lambda it: it == "3", lambda it: it == "max"],
            [lambda it: it not in ("max", "0", "1", "2", "3")],
        ),
        (limits(), [lambda it: len(it) > 5], [lambda it: it != "max" and not 0 <= int(it) <= PIDS_LIMIT_MAX]),
        (names(3), [lambda it: len(it) == 1, lambda it: len(it) == 3], [lambda it: not 1 <= len(it) <= 3]),
        (
            names(),
            [lambda it: len(it) > 5],
            [lambda it: len(it) > 12, lambda it: "/" in it or not it.isascii() or " " in it],
        ),
        (names(1), [lambda it: it == "!", lambda it: it == "~"], [lambda it: not "!" <= it <= "~"]),
        (
            paths(2, st.just("x")),
            [lambda it: it == "/", lambda it: it == "/x", lambda it: it == "/x/x"],
            [lambda it: it.count("x") > 2],
        ),
        (
            paths(),
            [lambda it: it.count("/") == 4],
            [lambda it: not it.startswith("/") or it.endswith("/") and it != "/"],
        ),
    ],
)
def test_bounds(strategy, drawn, never):
    for wanted in drawn:
        assert is_drawn(strategy, wanted)
    for wanted in never:
        assert not is_drawn(strategy, wanted)


@pytest.mark.parametrize(
    "line",
    [
        *(
            "mkdir /a",
            "rmdir /a",
            "rmdir /",
            "fork 1 2",
            "fork 2 1",
            "exit 2",
            "write /a cgroup.procs 1",
            "write / cgroup.procs 2",
        ),
        *("write /a pids.max 0", "write /a pids.max 6", "write /a pids.max max", "write /a cgroup.max.depth 1"),
        *("write /a cgroup.max.descendants 0", "write /a cgroup.kill 1", "undo"),
    ],
)
def test_each_command_is_drawn(line):
    assert is_drawn(commands(paths(1, st.just("a")), pids(2)), lambda it: it == line)


@pytest.mark.parametrize("line", ["write /a pids.max 7", "fork 3 1", "mkdir /b", "mkdir /a/a", "cat /a pids.max", ""])
def test_no_other_command_is_drawn(line):
    assert not is_drawn(commands(paths(1, st.just("a")), pids(2)), lambda it: it == line)


def test_a_machine_keeps_to_its_names_and_pids():
    seen = set()

    class Narrow(HierarchyMachine):
        names = ("only",)
        pids = 3

        def do(self, line):
            seen.add(line)
            return super().do(line)

    run_state_machine_as_test(Narrow, settings=FEW)
    words = [line.split() for line in seen]
    assert {name for it in words for word in it[1:2] if word[0] == "/" for name in word.split("/")} == {"", "only"}
    pids_seen = {
        word
        for it in words
        for word in (it[1:] if it[0] in ("fork", "exit") else it[3:] if "cgroup.procs" in it else [])
    }
    assert pids_seen == {"1", "2", "3"}
    files = {it[2] for it in words if it[0] == "write"}
    assert files == {"cgroup.procs", "pids.max", "cgroup.max.depth", "cgroup.max.descendants", "cgroup.kill"}


def test_a_machine_closes_its_hierarchy_after_each_run():
    all_of_them = []

    class Kept(HierarchyMachine):
        def __init__(self):
            super().__init__()
            all_of_them.append(self.h)

    run_state_machine_as_test(Kept, settings=settings(FEW, max_examples=10))
    assert len(all_of_them) >= 10 and all(h.closed for h in all_of_them)
