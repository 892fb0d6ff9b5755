"""The example loop.c, whose input stays open."""

from __future__ import annotations

import os
import shutil
import subprocess
import time
from pathlib import Path

import pytest

BINDINGS = Path(__file__).resolve().parents[2]
GIVEN = b"mkdir /a\nwrite /a pids.max 1\nwrite /a cgroup.procs 1\n"
FULL = b"/a is full: 1 of 1\n"
TICKS = 20


@pytest.fixture
def loop(tmp_path: Path) -> str:
    compiler = shutil.which(os.environ.get("CC", "cc"))
    if not compiler:
        pytest.skip("there is no C compiler")
    program, library = str(tmp_path / "loop"), str(BINDINGS / "out" / "libmakhloeum.a")
    source = str(BINDINGS / "examples" / "loop.c")
    subprocess.run([compiler, "-I", str(BINDINGS / "c"), "-o", program, source, library, "-pthread"], check=True)
    return program


def test_a_group_that_stays_full_is_named_once(loop: str) -> None:
    """However many ticks come before the next command, or before the end of the input."""
    with subprocess.Popen([loop], stdin=subprocess.PIPE, stdout=subprocess.PIPE) as program:
        assert program.stdin and program.stdout
        program.stdin.write(GIVEN)
        program.stdin.flush()
        assert [program.stdout.readline() for _ in range(4)] == [b"1 ok\n", b"2 ok\n", b"3 ok\n", FULL]
        time.sleep(TICKS / 100)  # nothing may be said; on a busy machine fewer ticks come
        program.stdin.write(b"write /a pids.max 1\n")
        program.stdin.flush()
        assert [program.stdout.readline() for _ in range(2)] == [b"4 ok\n", FULL]
        program.stdin.close()
        assert program.stdout.read() == b""
        assert program.wait() == 0
