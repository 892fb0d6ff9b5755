"""Hypothesis strategies for hierarchies, and a state machine that changes one:

    from makhloeum.strategies import HierarchyMachine

    class Monitored(HierarchyMachine):
        def __init__(self):
            super().__init__()
            self.monitor = Monitor(self.h)

        @invariant()
        def the_monitor_knows_every_group(self):
            assert self.monitor.known() == self.h.groups()

    TestMonitored = Monitored.TestCase

It needs Hypothesis (python3-hypothesis in Debian).
"""

from __future__ import annotations

from hypothesis import strategies as st
from hypothesis.stateful import RuleBasedStateMachine, rule

from ._table import DEPTH_MAX, NAME_MAX, PID_MAX, PIDS_LIMIT_MAX
from .errors import Refused
from .hierarchy import Hierarchy

_LIMITS = ("pids.max", "cgroup.max.depth", "cgroup.max.descendants")
_RESERVED = ("cgroup.", "pids.")


def names(max_size: int = 12) -> st.SearchStrategy[str]:
    """Names of groups, of at most `max_size` characters: printable ASCII without a slash, and not reserved."""
    letters = st.characters(min_codepoint=0x21, max_codepoint=0x7E, blacklist_characters="/")
    texts = st.text(letters, min_size=1, max_size=min(max_size, NAME_MAX))
    return texts.filter(_is_name)


def _is_name(name: str) -> bool:
    return name not in (".", "..") and not name.startswith(_RESERVED)


def paths(max_names: int = 4, name: st.SearchStrategy[str] | None = None) -> st.SearchStrategy[str]:
    """Paths of groups, including the root's, of at most `max_names` names, each drawn from `name` if it is given."""
    return st.lists(names() if name is None else name, max_size=min(max_names, DEPTH_MAX)).map(
        lambda parts: "/" + "/".join(parts)
    )


def pids(most: int = PID_MAX) -> st.SearchStrategy[int]:
    """Process numbers from 1 to `most`."""
    return st.integers(1, most)


def limits(most: int = PIDS_LIMIT_MAX) -> st.SearchStrategy[str]:
    """What can be written to pids.max: 'max', or a number of processes up to `most`."""
    return st.one_of(st.just("max"), st.integers(0, most).map(str))


def commands(
    path: st.SearchStrategy[str] | None = None, pid: st.SearchStrategy[int] | None = None
) -> st.SearchStrategy[str]:
    """Lines of the trace language that change a hierarchy, with paths drawn from `path` and pids from `pid`. Few of them make commands
    that meet each other: commands(paths(3, sampled_from("ab")), pids(8))."""
    path, pid = paths() if path is None else path, pids() if pid is None else pid
    return st.one_of(
        st.builds("mkdir {}".format, path),
        st.builds("rmdir {}".format, path),
        st.builds("fork {} {}".format, pid, pid),
        st.builds("exit {}".format, pid),
        st.builds("write {} cgroup.procs {}".format, path, pid),
        st.builds("write {} {} {}".format, path, st.sampled_from(_LIMITS), limits(6)),
        st.builds("write {} cgroup.kill 1".format, path),
        st.just("undo"),
    )


class HierarchyMachine(RuleBasedStateMachine):
    """Changes the hierarchy `h` by commands that are aimed at its state. Commands that are refused are part of it: each kind of limit
    (pids.max, cgroup.max.depth, cgroup.max.descendants) refuses more than one in twenty. A subclass adds invariants and rules, and may
    override `do`."""

    names = ("a", "b", "c")
    pids = 8

    def __init__(self) -> None:
        super().__init__()
        self.h = Hierarchy()

    def teardown(self) -> None:
        """Closes the hierarchy at the end of each run. A subclass that overrides it calls it."""
        self.h.close()

    def do(self, line: str) -> str | Refused:
        """Answers the command `line`, and returns what it shows, or why it was refused. Raises what `Hierarchy.line` does when out of
        memory or closed."""
        try:
            return self.h.line(line)
        except Refused as refused:
            return refused

    def _group(self, data: st.DataObject) -> str:
        return data.draw(st.sampled_from(self.h.groups()))

    def _pid(self, data: st.DataObject) -> int:
        """Most often an existing one."""
        there = [pid for group in self.h.groups() for pid in self.h.processes(group)]
        return int(data.draw(st.one_of(*([st.sampled_from(there)] * 3 if there else []), pids(self.pids))))

    def _has_ended(self) -> bool:
        """Without a process there is nothing to fork: then a command is undone instead."""
        if any(self.h.processes(group) for group in self.h.groups()):
            return False
        self.do("undo")
        return True

    @rule(data=st.data())
    def mkdir(self, data: st.DataObject) -> None:
        """Makes a group below an existing one."""
        self.do(f"mkdir {self._group(data).rstrip('/')}/{data.draw(st.sampled_from(self.names))}")

    @rule(data=st.data())
    def rmdir(self, data: st.DataObject) -> None:
        """Removes a group, or tries to."""
        self.do(f"rmdir {self._group(data)}")

    @rule(data=st.data())
    def fork(self, data: st.DataObject) -> None:
        """Forks a process, most often an existing one."""
        if self._has_ended():
            return
        self.do(f"fork {self._pid(data)} {data.draw(pids(self.pids))}")

    @rule(data=st.data())
    def exit(self, data: st.DataObject) -> None:
        """Ends a process."""
        if self._has_ended():
            return
        self.do(f"exit {self._pid(data)}")

    @rule(data=st.data())
    def move(self, data: st.DataObject) -> None:
        """Moves a process to a group."""
        if self._has_ended():
            return
        self.do(f"write {self._group(data)} cgroup.procs {self._pid(data)}")

    @rule(data=st.data())
    def limit(self, data: st.DataObject) -> None:
        """Sets one of the three limits of a group."""
        self.do(f"write {self._group(data)} {data.draw(st.sampled_from(_LIMITS))} {data.draw(limits(4))}")

    @rule(data=st.data())
    def kill(self, data: st.DataObject) -> None:
        """Kills the processes of a group and below it."""
        self.do(f"write {self._group(data)} cgroup.kill 1")

    @rule()
    def undo(self) -> None:
        """Undoes the newest command."""
        self.do("undo")

    # ---- limits, which commands that are drawn without regard to them hardly ever meet

    def _try_again(self, line: str) -> None:
        """Makes a command that a limit refuses, and once more, as a program does that doesn't give up."""
        for _ in range(2):
            self.do(line)

    def _below_root(self, data: st.DataObject) -> str:
        """A group with limits of its own, which is made if there is none; "" if none can be made."""
        groups = self.h.groups()[1:]
        if groups:
            return data.draw(st.sampled_from(groups))
        name = f"/{data.draw(st.sampled_from(self.names))}"
        return "" if isinstance(self.do(f"mkdir {name}"), Refused) else name

    @rule(data=st.data())
    def fork_at_a_limit(self, data: st.DataObject) -> None:
        """Forks in a group whose pids.max, or an ancestor's, is reached; if there is none, limits one that has a process."""
        if self._has_ended():
            return
        processes = {group: self.h.processes(group) for group in self.h.groups()}
        there = [pid for pids_there in processes.values() for pid in pids_there]
        unused = sorted(set(range(1, self.pids + 1)) - set(there))
        if not unused:
            unused = [data.draw(st.sampled_from(there))]
            self.do(f"exit {unused[0]}")
            processes = {group: self.h.processes(group) for group in processes}
        full = [pid for group in processes if _is_full(self.h, group) for pid in processes[group]]
        if not full:
            full = self._fill(data, [group for group in processes if group != "/" and processes[group]])
        if full:
            self._try_again(f"fork {data.draw(st.sampled_from(full))} {data.draw(st.sampled_from(unused))}")

    def _fill(self, data: st.DataObject, groups: list[str]) -> list[int]:
        """Limits one of the groups, or another into which a process is moved, to what it has; the processes of the group."""
        group = data.draw(st.sampled_from(groups)) if groups else self._below_root(data)
        if not group:
            return []
        if not groups:
            self.do(f"write {group} cgroup.procs {self._pid(data)}")
        if self.h.current(group):
            self.do(f"write {group} pids.max {self.h.current(group)}")
        return self.h.processes(group)

    @rule(data=st.data())
    def mkdir_at_a_descendants_limit(self, data: st.DataObject) -> None:
        """Makes a group where cgroup.max.descendants refuses it."""
        self._mkdir_at(data, "cgroup.max.descendants")

    @rule(data=st.data())
    def mkdir_at_a_depth_limit(self, data: st.DataObject) -> None:
        """Makes a group where cgroup.max.depth refuses it."""
        self._mkdir_at(data, "cgroup.max.depth")

    def _mkdir_at(self, data: st.DataObject, file: str) -> None:
        """Makes a group where the limit blocks. Where it blocks nothing, it is set first, or another that would block before it is
        taken away."""
        new = {group: sorted(set(self.names) - set(self.h.children(group))) for group in self.h.groups()}
        why = {group: _blocking(self.h, group) for group in new if new[group]}
        blocked = [group for group in why if why[group][1] == file]
        if not blocked:
            free = [group for group in why if group != "/" and not why[group][1]]
            if not free:
                self._make_free(data, [why[group] for group in why if why[group][1]])
                return
            group = data.draw(st.sampled_from(free))
            count = len(self.h.groups(group)) - 1 if file == "cgroup.max.descendants" else 0
            self.do(f"write {group} {file} {count}")
            blocked = [group]
        group = data.draw(st.sampled_from(blocked))
        self._try_again(f"mkdir {group.rstrip('/')}/{data.draw(st.sampled_from(new[group]))}")

    def _make_free(self, data: st.DataObject, limits: list[tuple[str, str]]) -> None:
        if limits:
            group, file = data.draw(st.sampled_from(limits))
            self.do(f"write {group} {file} max")
        else:
            self._below_root(data)


def _upward(group: str) -> list[str]:
    """The group and those above it, the root last."""
    names = group.split("/")[1:] if group != "/" else []
    return ["/" + "/".join(names[:count]) for count in range(len(names), -1, -1)]


def _is_full(h: Hierarchy, group: str) -> bool:
    limits_here = [(h.limit(above), above) for above in _upward(group)[:-1]]
    return any(limit is not None and h.current(above) >= limit for limit, above in limits_here)


def _blocking(h: Hierarchy, group: str) -> tuple[str, str]:
    """Which limit refuses a new group here, by its group and file: the first from this group upward, and the descendants' before the
    depth's. Two empty texts if none does."""
    for depth, above in enumerate(_upward(group)):
        most, deepest = (h.read(above, file).strip() for file in ("cgroup.max.descendants", "cgroup.max.depth"))
        if most != "max" and len(h.groups(above)) - 1 >= int(most):
            return above, "cgroup.max.descendants"
        if deepest != "max" and depth + 1 > int(deepest):
            return above, "cgroup.max.depth"
    return "", ""


__all__ = ["HierarchyMachine", "commands", "limits", "names", "paths", "pids"]
