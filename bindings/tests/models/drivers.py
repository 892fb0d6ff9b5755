"""The drivers in C, Go and Python: how they are built, and how they play sequences."""

from __future__ import annotations

import os
import subprocess
import sys
from pathlib import Path

HERE = Path(__file__).resolve().parent
BINDINGS = HERE.parent.parent
LANGUAGES = ("c", "go", "python")
FLAGS = ("-std=c11", "-O2", "-Wall", "-Wextra", "-Wpedantic", "-Wconversion", "-Wshadow", "-Wformat=2", "-Werror")
PATIENCE = 600  # seconds for some hundred sequences, also on a machine with much other work

Sequence = tuple[str, list[str]]


def built_in_c(folder: str) -> list[str]:
    program = os.path.join(folder, "driver-in-c")
    words = [*FLAGS, "-D_POSIX_C_SOURCE=200809L", "-I", str(BINDINGS / "c"), "-o", program, str(HERE / "driver.c")]
    library = str(BINDINGS / "out" / "libmakhloeum.a")
    subprocess.run([os.environ.get("CC", "cc"), *words, library, "-pthread"], check=True)
    return [program]


def built_in_go(folder: str) -> list[str]:
    program = os.path.join(folder, "driver-in-go")
    cache = os.environ.get("GOCACHE") or os.path.join(folder, "go")
    words = dict(os.environ, GOFLAGS="-mod=mod", GOCACHE=cache, GOPROXY="off", GO111MODULE="on")
    subprocess.run(["go", "build", "-o", program, "."], cwd=HERE / "go", env=words, check=True)
    return [program]


def built_in_python(folder: str) -> list[str]:
    return [sys.executable, "-W", "error", str(HERE / "driver.py")]


BUILT = {"c": built_in_c, "go": built_in_go, "python": built_in_python}


class Driver:
    def __init__(self, language: str, folder: str) -> None:
        self.language, self.program = language, BUILT[language](folder)
        self.said = ""  # on standard error, the last time

    def play(self, sequences: list[Sequence]) -> list[list[str] | None]:
        """The results of each sequence; None from the one on at which the driver ended."""
        text = "".join(f"{how}\n" + "".join(f"{line}\n" for line in lines) for how, lines in sequences)
        words = dict(os.environ, PYTHONPATH=str(BINDINGS / "python"), PYTHONDONTWRITEBYTECODE="1")
        try:
            ran = subprocess.run(self.program, input=text.encode(), capture_output=True, env=words, timeout=PATIENCE)
            told, self.said = ran.stdout, ran.stderr.decode()
        except subprocess.TimeoutExpired as late:
            told, self.said = late.stdout or b"", f"no end within {PATIENCE} seconds\n"
        results, at = told.decode().split("\n")[:-1], 0
        found: list[list[str] | None] = []
        for _, lines in sequences:
            part = results[at : at + len(lines)]
            found.append(part if len(part) == len(lines) else None)
            at += len(lines)
        return found
