"""The Hypothesis strategies, and the state machine beside the plain model."""

import collections
import itertools
import re

import pytest

hypothesis = pytest.importorskip("hypothesis")

from flat_model import Model, No  # noqa: E402
from hypothesis import HealthCheck, given, settings  # noqa: E402
from hypothesis import strategies as st  # noqa: E402
from hypothesis.stateful import invariant, run_state_machine_as_test  # noqa: E402

from makhloeum import BadPath, Depth, Descendants, Hierarchy, NoProcess, PidsMax, Refused  # noqa: E402
from makhloeum._table import DEPTH_MAX, NAME_MAX, PID_MAX, PIDS_LIMIT_MAX, TEXT_MAX  # noqa: E402
from makhloeum.strategies import HierarchyMachine, _blocking, _is_full, _is_name  # noqa: E402
from makhloeum.strategies import commands, limits, names, paths, pids  # noqa: E402

FEW = settings(
    max_examples=200, deadline=None, database=None, derandomize=True, suppress_health_check=list(HealthCheck)
)


@FEW
@given(names(), names())
def test_names_are_names(first, second):
    with Hierarchy() as h:
        h.mkdir(f"/{first}")
        h.mkdir(f"/{first}/{second}")
        assert h.children("/") == [first]


@pytest.mark.parametrize("drawn", ["max", "0", "1", "4"])
def test_each_limit_is_drawn(drawn):
    assert hypothesis.find(limits(4), lambda limit: limit == drawn, settings=FEW) == drawn


DEEP = settings(FEW, max_examples=1000)


def bounds_of(strategy):
    """Long lists and texts are hardly ever drawn, so their bound is read from what Hypothesis says of the strategy."""
    return [int(most) for most in re.findall(r"max_size=(\d+)", repr(strategy))]


@pytest.mark.parametrize("most", [1, DEPTH_MAX - 1, DEPTH_MAX, DEPTH_MAX + 1, 40, 1000])
def test_a_path_has_at_most_as_many_names_as_a_group_can_have(most):
    assert bounds_of(paths(most, st.just("a"))) == [min(most, DEPTH_MAX)]


@pytest.mark.parametrize("most", [0, 1, 3])
def test_paths_of_up_to_so_many_names(most):
    drawn = paths(most, st.just("a"))
    for count in range(most + 1):
        path = "/" + "/".join(["a"] * count)
        assert hypothesis.find(drawn, lambda it, wanted=path: it == wanted, settings=FEW) == path
    with pytest.raises(hypothesis.errors.NoSuchExample):
        hypothesis.find(drawn, lambda it: it.count("a") > most, settings=FEW)


@pytest.mark.parametrize("given", [1, 12, NAME_MAX, NAME_MAX + 1, 1000])
def test_a_name_has_at_most_255_letters(given):
    assert bounds_of(names(given)) == [min(given, NAME_MAX)]


@pytest.mark.parametrize("most", [1, 4])
def test_bounds_of_numbers(most):
    for drawn, least in ((pids(most), 1), (limits(most).filter(lambda it: it != "max").map(int), 0)):
        for number in (least, most):
            assert hypothesis.find(drawn, lambda it, n=number: it == n, settings=FEW) == number
        with pytest.raises(hypothesis.errors.NoSuchExample):
            hypothesis.find(drawn, lambda it, n=least: it < n or it > most, settings=FEW)


def test_what_is_drawn_without_bounds():
    for drawn, number in ((pids(), PID_MAX), (limits().filter(lambda it: it != "max").map(int), PIDS_LIMIT_MAX)):
        assert hypothesis.find(drawn, lambda it, n=number: it == n, settings=DEEP) == number
        with pytest.raises(hypothesis.errors.NoSuchExample):
            hypothesis.find(drawn, lambda it, n=number: it > n, settings=FEW)
    assert bounds_of(names()) == [12]
    assert hypothesis.find(paths(name=st.just("a")), lambda it: it.count("a") == 4, settings=FEW) == "/a/a/a/a"
    with pytest.raises(hypothesis.errors.NoSuchExample):
        hypothesis.find(paths(name=st.just("a")), lambda it: it.count("a") > 4, settings=FEW)


FORMS = [
    r"mkdir /\S*",
    r"rmdir /\S*",
    r"fork [0-9]+ [0-9]+",
    r"exit [0-9]+",
    r"write /\S* cgroup.procs [0-9]+",
    r"write /\S* pids.max (max|[0-6])",
    r"write /\S* cgroup.max.depth (max|[0-6])",
    r"write /\S* cgroup.max.descendants (max|[0-6])",
    r"write /\S* cgroup.kill 1",
    "undo",
]


@pytest.mark.parametrize("drawn", [commands(), commands(paths(3, st.sampled_from("ab")), pids(8))])
def test_each_kind_of_command_is_drawn(drawn):
    kinds = collections.Counter()

    @settings(FEW, max_examples=60)
    @given(st.lists(drawn, min_size=10, max_size=15))
    def count(lines):
        for line in lines:
            [form] = [form for form in FORMS if re.fullmatch(form, line)]
            kinds[form] += 1

    count()
    assert sorted(kinds) == sorted(FORMS)


@FEW
@given(paths(DEPTH_MAX, names(NAME_MAX)), pids(), limits())
def test_paths_pids_and_limits_are_accepted(path, pid, limit):
    with Hierarchy() as h:
        if len(path) <= TEXT_MAX:
            assert h.has_group(path) == (path == "/")
        h.mkdir("/a")
        h.write("/a", "pids.max", limit)
        if pid != 1:
            h.fork(1, pid)
            assert h.processes("/") == [1, pid]


@FEW
@given(st.lists(commands(paths(3, st.sampled_from("ab")), pids(6)), max_size=40))
def test_commands_are_answered_as_by_the_model(lines):
    model = Model()
    with Hierarchy() as h:
        for line in lines:
            try:
                assert h.line(line) == model.line(line)
            except Refused as refused:
                with pytest.raises(No) as no:
                    model.line(line)
                assert str(no.value) == refused.reply
            except No as no:
                pytest.fail(f"{line}: the model refuses it: {no}")


class BesideTheModel(HierarchyMachine):
    def __init__(self):
        super().__init__()
        self.model = Model()
        self.kinds = KINDS

    def do(self, line):
        told = super().do(line)
        try:
            want = self.model.line(line)
        except No as no:
            assert isinstance(told, Refused) and told.reply == str(no)
        else:
            assert told == want
        self.kinds.add(line.split()[0] + (" refused" if isinstance(told, Refused) else ""))
        return told

    @invariant()
    def groups_and_counts_are_the_models(self):
        assert self.h.groups() == self.model.listed() and self.h.depth() == len(self.model.journal)
        for group in self.h.groups()[1:]:
            assert (self.h.current(group), self.h.peak(group)) == (
                self.model.current(group),
                self.model.groups[group]["peak"],
            )


KINDS = set()


def test_the_state_machine_reaches_everything():
    run_state_machine_as_test(BesideTheModel, settings=settings(FEW, max_examples=60, stateful_step_count=40))
    assert KINDS >= {
        word + end for word in ("mkdir", "rmdir", "fork", "exit", "write", "undo") for end in ("", " refused")
    }


class Counting(HierarchyMachine):
    """Counts the commands, and those that each kind of limit refused."""

    def do(self, line):
        told = super().do(line)
        COUNTS["all"] += 1
        COUNTS[type(told).__name__] += 1
        return told


COUNTS = collections.Counter()


@pytest.mark.parametrize("examples, steps", [(40, 40), (100, 10)])
def test_each_kind_of_limit_refuses_one_command_in_twenty(examples, steps):
    COUNTS.clear()
    run_state_machine_as_test(Counting, settings=settings(FEW, max_examples=examples, stateful_step_count=steps))
    for kind in ("PidsMax", "Descendants", "Depth"):
        assert COUNTS[kind] >= COUNTS["all"] / 20, COUNTS
    assert COUNTS["str"] >= COUNTS["all"] / 3, COUNTS


class Recorded(HierarchyMachine):
    """Keeps its commands, each with the error if it was refused."""

    def __init__(self):
        super().__init__()
        self.done = []

    def do(self, line):
        told = super().do(line)
        self.done.append((line, told if isinstance(told, Refused) else None))
        return told


@FEW
@given(st.data(), st.sampled_from((("fork", "fork"), ("exit", "exit"), ("move", "write"))))
def test_a_rule_for_a_process_undoes_a_command_where_there_is_none(data, names_of_rule):
    rule, verb = names_of_rule
    machine = Recorded()
    with machine.h as h:
        h.line("exit 1")
        getattr(machine, rule)(data=data)
        assert machine.done == [("undo", None)] and h.processes("/") == [1]
        machine.done.clear()
        getattr(machine, rule)(data=data)
        assert [line.split(" ")[0] for line, _ in machine.done] == [verb]


@FEW
@given(st.data())
def test_a_group_for_limits_is_made_only_if_there_is_none(data):
    machine = Recorded()
    with machine.h as h:
        made = machine._below_root(data)
        assert h.groups() == ["/", made]
        assert machine._below_root(data) == made
        assert machine.done == [(f"mkdir {made}", None)]


@FEW
@given(st.data(), st.sampled_from((("cgroup.max.depth", Depth), ("cgroup.max.descendants", Descendants))))
def test_a_limit_is_set_on_the_group_that_it_then_blocks(data, limit):
    file, refused = limit
    machine = Recorded()
    with machine.h as h:
        for path in ("/a", "/b", "/b/a"):
            h.mkdir(path)
        machine._mkdir_at(data, file)
    (written, _), (first, error), (second, again) = machine.done
    group = written.split(" ")[1]
    assert written.startswith(f"write {group} {file} ") and first == second and first.startswith(f"mkdir {group}/")
    assert isinstance(error, refused) and isinstance(again, refused)


@FEW
@given(st.data())
def test_a_limit_that_would_refuse_first_is_taken_away(data):
    machine = Recorded()
    with machine.h as h:
        machine.mkdir_at_a_descendants_limit(data=data)
        [(made, error)] = machine.done
        assert made.startswith("mkdir /") and error is None
        group = made.split(" ")[1]
        h.write(group, "cgroup.max.depth", 0)
        machine.mkdir_at_a_descendants_limit(data=data)
        assert machine.done[1:] == [(f"write {group} cgroup.max.depth max", None)]
        machine.mkdir_at_a_descendants_limit(data=data)
        (written, _), (_, error), (_, again) = machine.done[2:]
        assert written == f"write {group} cgroup.max.descendants 0"
        assert isinstance(error, Descendants) and isinstance(again, Descendants)


# What there is before a fork at a limit, how many pids there may be, and the first command that is made.
AT_A_LIMIT = [
    ((), 3, "mkdir"),
    (("mkdir /a", "write /a cgroup.procs 1"), 3, "write"),
    (("mkdir /a", "write /a cgroup.procs 1", "write /a pids.max 1"), 3, "fork"),
    (("mkdir /a", "fork 1 2", "write /a cgroup.procs 2"), 2, "exit"),
    (("mkdir /a", "fork 1 2", "write /a cgroup.procs 2", "fork 2 3", "mkdir /a/b", "write /a pids.max 2"), 3, "exit"),
]


@FEW
@given(st.data(), st.sampled_from(AT_A_LIMIT))
def test_a_fork_is_tried_where_a_limit_refuses_it(data, row):
    before, most, first = row
    machine = Recorded()
    machine.pids = most
    with machine.h as h:
        for line in before:
            h.line(line)
        machine.fork_at_a_limit(data=data)
    assert machine.done[0][0].split(" ")[0] == first
    line, why = machine.done[-1]
    if " cgroup.procs " in line:
        assert isinstance(why, NoProcess), "a group without a process, and a pid that has none"
    else:
        assert line.startswith("fork ") and [it[0] for it in machine.done[-2:]] == [line] * 2
        assert all(isinstance(it, PidsMax) for _, it in machine.done[-2:])


def test_a_new_group_is_blocked_exactly_by_the_limit_that_refuses_it():
    files, groups = ("cgroup.max.descendants", "cgroup.max.depth"), ("/", "/a", "/a/b")
    seen = collections.Counter()
    for values in itertools.product(("max", "0", "1", "2", "3"), repeat=4):
        with Hierarchy() as h:
            h.mkdir("/a")
            h.mkdir("/a/b")
            for (group, file), value in zip(itertools.product(groups[:2], files), values):
                h.write(group, file, value)
            for group in groups:
                try:
                    h.mkdir(f"{group.rstrip('/')}/new")
                    h.undo()
                    wanted = "", ""
                except Refused as no:
                    word, at = no.reply.split(" ")
                    wanted = at, f"cgroup.max.{word}"
                assert _blocking(h, group) == wanted, (values, group)
                seen[wanted] += 1
    assert len(seen) == 5


def test_a_group_is_full_exactly_where_a_fork_is_refused():
    with Hierarchy() as h:
        for group in ("/a", "/a/b", "/c", "/d"):
            h.mkdir(group)
        for pid, group in ((2, "/a/b"), (3, "/a/b"), (4, "/c"), (5, "/d")):
            h.fork(1, pid)
            h.write(group, "cgroup.procs", pid)
        for limit_of_a in ("max", 3, 2, 1, 0):
            h.write("/a", "pids.max", limit_of_a)
            h.write("/c", "pids.max", limit_of_a)
            for pid, group in ((1, "/"), (2, "/a/b"), (4, "/c"), (5, "/d")):
                try:
                    h.fork(pid, 9)
                    h.undo()
                    is_refused = False
                except PidsMax:
                    is_refused = True
                assert _is_full(h, group) == is_refused, (limit_of_a, group)


def test_a_name_that_no_group_can_have_is_not_drawn():
    with Hierarchy() as h:
        for name in (
            ".",
            "..",
            "cgroup.",
            "cgroup.x",
            "pids.",
            "pids.max",
            "cgroup",
            "pids",
            "...",
            ".a",
            "xpids.",
            "cgroup-x",
        ):
            assert _is_name(name) == (not isinstance(refusal(h, f"mkdir /{name}"), BadPath)), name
    with pytest.raises(hypothesis.errors.NoSuchExample):
        hypothesis.find(names(1), lambda name: name in "./", settings=settings(FEW, max_examples=3000))


def refusal(h, line):
    try:
        h.line(line, path="/")
    except Refused as refused:
        return refused
    return None


def test_a_wrong_monitor_is_found():
    """An invariant of a subclass that doesn't hold is found, and the hierarchy is closed."""

    class Wrong(HierarchyMachine):
        @invariant()
        def no_process_ever_joins_a_group(self):
            assert not any(self.h.populated(group) for group in self.h.groups()[1:])

    with pytest.raises(AssertionError):
        run_state_machine_as_test(
            Wrong, settings=settings(FEW, max_examples=100, stateful_step_count=30, print_blob=False)
        )
