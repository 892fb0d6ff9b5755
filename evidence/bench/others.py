"""The figures of the mount, and of C, Python and Go, as tables for docs/MEASUREMENTS.md."""
import os
import re
import shutil
import subprocess
import sys
import tempfile
import time

PIPE_ROUNDS = {"cats": 20_000, "pairs": 10_000}


def ran(command, **how):
    """What a command printed; its own message and None if it failed."""
    done = subprocess.run(command, stdout=subprocess.PIPE, text=True, check=False, **how)
    if done.returncode:
        print(f"evidence/bench: {' '.join(command[:2])} failed", file=sys.stderr)
        return None
    return done.stdout


def table(columns, rows, first):
    """rows: a dict of dicts, by the name of a row and of a column."""
    print(f"| {first} | {' | '.join(columns)} |")
    print("|---" * (len(columns) + 1) + "|")
    for name, cells in rows.items():
        print(f"| {name} | {' | '.join(cells.get(column, '') for column in columns)} |")
    print()


# ---- the mount


def sections(said):
    """The lines of mount/cost: each heading with the figures after it."""
    found = []
    for line in said.splitlines():
        figure = re.match(r" *(.*\S) +([\d.]+)$", line) or re.match(
            r" *(\d+ clients): (\d+) operations a second$", line
        )
        if figure:
            found[-1][1][figure[1]] = figure[2]
        else:
            found.append((line, {}))
    return found


def transposed(columns):
    rows = {}
    for heading, figures in columns:
        for name, figure in figures.items():
            rows.setdefault(name, {})[heading] = figure
    return rows


def mount(top, load):
    if not os.path.exists(os.path.join(top, "mount/out/makhloeum")):
        print("evidence/bench: there is no mount/out/makhloeum: mount/build makes it", file=sys.stderr)
        return 1
    before = load()
    said = ran([os.path.join(top, "mount/cost")])
    if said is None:
        return 1
    found = sections(said)
    clients = [(heading, figures) for heading, figures in found if any(name.endswith("clients") for name in figures)]
    under = [(heading, figures) for heading, figures in found if heading.startswith("a program")]
    calls = [part for part in found if part not in clients and part not in under]
    for parts, first in ((calls, "Microseconds"), (clients, "Operations a second"), (under, "Microseconds")):
        table([heading for heading, _ in parts], transposed(parts), first)
    print(f"mount/cost; load {before} before, {load()} after")
    return 0


# ---- the bindings


def best(said, form):
    """The greatest figure of each kind over the rounds that were printed."""
    rounds = re.findall(form, said)
    return [max(float(found[at]) for found in rounds) for at in (0, 1)] if rounds else None


def c(top, folder):
    at, program = os.path.join(top, "bindings"), os.path.join(folder, "drive")
    words = [
        "-O2",
        "-D_POSIX_C_SOURCE=200809L",
        "-I",
        f"{at}/c",
        f"{at}/c/tests/drive.c",
        f"{at}/out/libmakhloeum.a",
        "-pthread",
    ]
    if ran([os.environ.get("CC", "cc"), *words, "-o", program]) is None:
        return None
    said = ran([program, "bench"])
    return said and [million * 1e6 for million in best(said, r"([\d.]+) million cats a second; ([\d.]+) million")]


def python(top, _):
    words = dict(os.environ, PYTHONPATH=os.path.join(top, "bindings/python"), PYTHONDONTWRITEBYTECODE="1")
    said = ran([sys.executable, os.path.join(top, "bindings/python/bench.py")], env=words)
    return said and [million * 1e6 for million in best(said, r"([\d.]+) million cats a second; ([\d.]+) million")]


def go(top, folder):
    words = dict(os.environ, GOFLAGS="-mod=mod", GOPROXY="off", GO111MODULE="on", GOCACHE=os.path.join(folder, "go"))
    command = ["go", "test", "-run", "^$", "-bench", ".", "-benchtime", "200000x", "-count", "3"]
    said = ran(command, cwd=os.path.join(top, "bindings/go"), env=words)
    if said is None:
        return None
    return [
        1e9 / min(map(float, re.findall(rf"{name}\S*\s+\d+\s+([\d.]+) ns/op", said))) for name in ("Cat", "ForkAndUndo")
    ]


def pipes(top, _):
    """cgshell, a line and its answer at a time."""
    program = os.path.join(top, "crates/cgshell/out/cgshell")
    shell = subprocess.Popen([program], stdin=subprocess.PIPE, stdout=subprocess.PIPE, bufsize=0)
    answers = os.fdopen(os.dup(shell.stdout.fileno()), "rb")

    def ask(line, lines):
        shell.stdin.write(line)
        for _ in range(lines):
            answers.readline()

    for line in (b"mkdir /a\n", b"fork 1 2\n", b"write /a cgroup.procs 2\n"):
        ask(line, 1)
    rates = []
    for kind, asked in (("cats", [(b"cat /a pids.current\n", 2)]), ("pairs", [(b"fork 2 3\n", 1), (b"undo\n", 2)])):
        took = float("inf")
        for _ in range(3):
            start = time.perf_counter()
            for _ in range(PIPE_ROUNDS[kind]):
                for line, lines in asked:
                    ask(line, lines)
            took = min(took, time.perf_counter() - start)
        rates.append(PIPE_ROUNDS[kind] / took)
    shell.stdin.close()
    answers.close()
    shell.wait()
    return rates


def bindings(top, load):
    if not os.path.exists(os.path.join(top, "bindings/out/libmakhloeum.a")):
        print("evidence/bench: there is no bindings/out/libmakhloeum.a: bindings/build makes it", file=sys.stderr)
        return 1
    before, rows, failed = load(), {}, 0
    version = f"{sys.version_info[0]}.{sys.version_info[1]}"
    parts = [
        ("C", c, os.environ.get("CC", "cc")),
        (f"Python {version}, `ctypes`", python, sys.executable),
        ("Go, cgo", go, "go"),
    ]
    parts.append(
        (f"Python {version}, pipes to and from `cgshell`", pipes, os.path.join(top, "crates/cgshell/out/cgshell"))
    )
    with tempfile.TemporaryDirectory() as folder:
        for name, measure, needs in parts:
            if not shutil.which(needs):
                print(f"evidence/bench: {name}: skipped, {os.path.basename(needs)} is missing", file=sys.stderr)
                continue
            rates = measure(top, folder)
            if rates:
                rows[name] = dict(
                    zip(("Cats a second", "Pairs a second"), (f"{round(rate, -3):,.0f}" for rate in rates))
                )
            failed = failed or not rates
    table(["Cats a second", "Pairs a second"], rows, "From")
    print(f"best of three rounds each; load {before} before, {load()} after")
    return 1 if failed else 0
