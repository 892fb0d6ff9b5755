"""Random commands, answered by the library as by a plain model. MAKHLOEUM_MODEL_SECONDS says for how long: 30."""

import os
import random
import time

from flat_model import LIMITS, ON_ROOT, Model, No

from makhloeum import Hierarchy, Refused
from makhloeum._table import FILES

SECONDS = float(os.environ.get("MAKHLOEUM_MODEL_SECONDS", "30"))
PATHS = [
    "/",
    "/a",
    "/b",
    "/a/x",
    "/a/y",
    "/a/x-z",
    "/a/x/deep",
    "/a/x/deep/deeper",
    "/b/x",
    "/b/long-name-of-a-group-that-needs-memory",
]
READ = [file.name for file in FILES if file.readable]


def command(choice):
    path, pid = choice.choice(PATHS), choice.randint(1, 12)
    kind = choice.choices(
        ["mkdir", "rmdir", "fork", "exit", "move", "limit", "kill", "cat", "where", "undo"],
        [8, 3, 12, 3, 8, 4, 1, 8, 2, 5],
    )[0]
    if kind == "fork":
        return f"fork {pid} {choice.randint(1, 12)}"
    if kind in ("exit", "where"):
        return f"{kind} {pid}"
    if kind == "move":
        return f"write {path} cgroup.procs {pid}"
    if kind == "limit":
        file = choice.choice(list(LIMITS))
        return f"write {path} {file} {choice.choice([0, 1, 2, 3, 5, 'max', LIMITS[file]])}"
    if kind == "kill":
        return f"write {path} cgroup.kill 1"
    return {"cat": f"cat {path} {choice.choice(READ)}", "undo": "undo"}.get(kind, f"{kind} {path}")


def answer(of, line, refusal):
    try:
        return of.line(line)
    except refusal as no:
        return no


def compare_all(h, model):
    """Every file of every group, the groups, and the depth."""
    assert h.groups() == model.listed() and h.depth() == len(model.journal)
    for group in model.groups:
        for file in READ:
            if group != "/" or file in ON_ROOT:
                assert h.read(group, file) == model.cat(group, file), (group, file)
        if group != "/":
            limit = model.groups[group]["pids.max"]
            assert (h.current(group), h.peak(group), h.limit(group)) == (
                model.current(group),
                model.groups[group]["peak"],
                limit,
            )
            assert h.populated(group) == (model.current(group) > 0)
        assert h.processes(group) == sorted(pid for pid, home in model.home.items() if home == group)


def one_run(seed):
    choice, model, lines = random.Random(seed), Model(), []
    with Hierarchy() as h:
        for _ in range(choice.randint(1, 300)):
            lines.append(command(choice))
            want, got = answer(model, lines[-1], No), answer(h, lines[-1], Refused)
            if isinstance(want, No):
                assert isinstance(got, Refused) and got.reply == str(want), (seed, lines, want, got)
            else:
                assert got == want, (seed, lines, want, got)
        compare_all(h, model)
        mark = choice.randint(0, len(model.journal))
        h.undo_to(mark)
        while len(model.journal) > mark:
            model.line("undo")
        compare_all(h, model)
    return len(lines)


def test_the_library_answers_as_the_model():
    end, seed, steps = time.monotonic() + SECONDS, 0, 0
    while time.monotonic() < end:
        steps += one_run(seed)
        seed += 1
    assert steps > 0
    print(f"{steps} commands")
