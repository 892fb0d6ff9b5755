"""An interactive shell: python3 -m makhloeum [SCRIPT ...]
Commands of their own: python3 -m makhloeum view|tree|check ... (--help after each says more)

The shell answers the commands of the trace language, and: ls [PATH], tree [PATH], undo [NUMBER], forget, source SCRIPT, help,
quit. Scripts are answered in order, and then the shell ends; `-` is standard input. The status is 1 if a script's command failed.
"""

from __future__ import annotations

import cmd
import errno
import importlib
import importlib.util
import os
import shlex
import sys
from typing import Any, Callable, TextIO

from . import __version__
from ._interrupts import ended_by_interrupt
from ._output import writes
from ._table import FILES
from .errors import NothingToUndo, Refused
from .hierarchy import Hierarchy
from .page.tree import drawn_for, of_hierarchy

COMMANDS = {"view": "makhloeum.page.view", "tree": "makhloeum.page.tree", "check": "makhloeum.check"}


class Shell(cmd.Cmd):
    """The loop is cmd's: it reads by readline, with history and completion."""

    prompt = "makhloeum> "
    doc_header = "Commands (help COMMAND says more):"

    def __init__(self, hierarchy: Hierarchy, out: TextIO = sys.stdout) -> None:
        super().__init__(stdout=out)
        self.h = hierarchy
        self.failed = False
        self._sources: list[tuple[int, int]] = []  # the scripts that are being answered, by device and inode

    def _try(self, call: Callable[[], str | None]) -> None:
        try:
            text = call()
        except (Refused, ValueError, OSError) as failure:
            self.failed = True
            self.stdout.write(f"{failure}\n")
            return
        if text:
            self.stdout.write(text)

    def loop(self, intro: str) -> None:
        """Reads commands until `quit`. Ctrl-C drops the line that is being typed."""
        while True:
            try:
                return self.read_lines(intro)
            except KeyboardInterrupt:
                self.stdout.write("\n")
                intro = ""

    def parseline(self, line: str) -> tuple[str | None, str | None, str]:
        """The command, its words, and the line. A command is the first word between blanks, not the first letters: cmd would take a `?`
        there for help, which the trace language refuses."""
        line = line.strip()
        name, _, words = line.replace("\t", " ").partition(" ")
        return (name, words.strip(), line) if line else (None, None, line)

    def onecmd(self, line: str) -> bool:
        # cmd would take a line EOF as the end of the input
        name = self.parseline(line)[0]
        if name and not hasattr(self, "do_" + name):
            self.default(line)
            return False
        return bool(super().onecmd(line))

    def read_lines(self, intro: str) -> None:
        """Reads lines until `quit` or the end of the input. cmd's own loop would take a line EOF for the end."""
        try:
            import readline
        except ImportError:
            pass
        else:
            readline.set_completer(self.complete)  # type: ignore[arg-type]
            readline.parse_and_bind("tab: complete")
        self.stdout.write(f"{intro}\n" if intro else "")
        while True:
            self.stdout.flush()  # input() would drop a failure
            try:
                line = input(self.prompt)
            except EOFError:
                self.stdout.write("\n")
                return
            if self.onecmd(line):
                return

    def emptyline(self) -> bool:
        return False

    def default(self, line: str) -> None:
        self._try(lambda: self.h.line(line))

    def _line(self, operation: str, words: str) -> None:
        self._try(lambda: self.h.line(f"{operation} {words}"))

    def do_mkdir(self, words: str) -> None:
        """mkdir PATH: make a group"""
        self._line("mkdir", words)

    def do_rmdir(self, words: str) -> None:
        """rmdir PATH: remove a group that has neither children nor processes"""
        self._line("rmdir", words)

    def do_fork(self, words: str) -> None:
        """fork PARENT CHILD: the process PARENT forks CHILD"""
        self._line("fork", words)

    def do_exit(self, words: str) -> None:
        """exit PID: the process exits (quit leaves the shell)"""
        self._line("exit", words)

    def do_write(self, words: str) -> None:
        """write PATH FILE VALUE: write a file; cgroup.procs moves a process, cgroup.kill kills"""
        self._line("write", words)

    def do_cat(self, words: str) -> None:
        """cat PATH FILE: show a file"""
        self._line("cat", words)

    def do_where(self, words: str) -> None:
        """where PID: show /proc/PID/cgroup"""
        self._line("where", words)

    def do_undo(self, words: str) -> None:
        """undo [NUMBER]: undo the newest recorded command, or as many as the number"""

        def undo() -> str:
            if words and not (words.isascii() and words.isdigit()):
                raise ValueError(f"undo {words}: not a number of commands")
            count = int(words or 1)
            if count > self.h.depth():
                raise NothingToUndo("nothing", None, f"undo {words}".rstrip())
            return "".join(self.h.undo() + "\n" for _ in range(count))

        self._try(undo)

    def do_forget(self, words: str) -> None:
        """forget: keep groups, processes and counts, and free the history, so that nothing earlier can be undone"""
        if words:
            self._line("forget", words)
        else:
            self._try(self.h.forget)

    def do_ls(self, words: str) -> None:
        """ls [PATH]: the groups below a group, and its files"""
        path = words or "/"
        files = [file.name for file in FILES if path != "/" or file.on_root]
        self._try(lambda: "".join(f"{name}\n" for name in [child + "/" for child in self.h.children(path)] + files))

    def do_tree(self, words: str) -> None:
        """tree [PATH]: the groups with pids.current/pids.max, peak, refused forks and processes"""
        self._try(lambda: drawn_for(of_hierarchy(self.h, words or "/"), self.stdout))

    def do_source(self, words: str) -> None:
        """source SCRIPT: answer the commands of a file"""

        def source() -> None:
            for file in shlex.split(words):
                self.answer_file(file)

        self._try(source)

    def answer_file(self, file: str) -> bool:
        """Answers the lines of a script; whether it ended by `quit`. A script that reads itself is a fault."""
        with open(file, encoding="utf-8", errors="surrogateescape") as script:
            at = os.fstat(script.fileno())
            if (at.st_dev, at.st_ino) in self._sources:
                raise OSError(errno.ELOOP, "the script reads itself", file)
            self._sources.append((at.st_dev, at.st_ino))
            try:
                return any(self.onecmd(line.rstrip("\n")) for line in script)
            finally:
                self._sources.pop()

    def do_quit(self, words: str) -> bool:
        """quit: leave the shell"""
        return True

    # ---- completion

    def completedefault(self, *given: Any) -> list[str]:
        """Paths for the second word, files for the third; given the text to complete, its line, and where it begins and ends."""
        text, line, begin, end = given
        words = line[:end].split(" ")
        if len(words) == 2:
            return self._paths(words[1], begin, line)
        if len(words) == 3 and words[0] in ("cat", "write"):
            return [file.name for file in FILES if file.name.startswith(text)]
        return []

    def _paths(self, word: str, begin: int, line: str) -> list[str]:
        parent = word[: word.rfind("/") + 1] or "/"
        try:
            names = self.h.children(parent.rstrip("/") or "/")
        except Refused:
            return []
        # readline replaces what follows the last delimiter
        given = len(line[:begin].split(" ")[-1])
        return [(parent + name)[given:] for name in names if (parent + name).startswith(word)]


def run_script(shell: Shell, file: str) -> bool:
    """Answers the lines of a script; whether it ended by `quit`."""
    if file == "-":
        return any(shell.onecmd(line.rstrip("\n")) for line in sys.stdin)
    return shell.answer_file(file)


def command(name: str, words: list[str]) -> int:
    """A separate command: the `main` of its module."""
    module = COMMANDS[name]
    if importlib.util.find_spec(module) is None:
        print(f"makhloeum: {name} is not part of this installation", file=sys.stderr)
        return 2
    return int(importlib.import_module(module).main(words))


def view() -> int:
    """makhloeum-view of a wheel."""
    return ended_by_interrupt(lambda words: command("view", words), sys.argv[1:])


def tree() -> int:
    """makhloeum-tree of a wheel."""
    return ended_by_interrupt(lambda words: command("tree", words), sys.argv[1:])


def check() -> int:
    """makhloeum-check of a wheel."""
    return ended_by_interrupt(lambda words: command("check", words), sys.argv[1:])


def main(arguments: list[str]) -> int:
    if arguments and arguments[0] in COMMANDS:
        return command(arguments[0], arguments[1:])
    return _shell(arguments)


@writes("makhloeum")
def _shell(arguments: list[str]) -> int:
    if arguments[:1] in (["-h"], ["--help"]):
        print((__doc__ or "").strip())
        return 0
    if arguments == ["--version"]:
        print(f"makhloeum {__version__}")
        return 0
    with Hierarchy() as h:
        shell = Shell(h, sys.stdout)
        if not arguments and sys.stdin.isatty():
            shell.loop(f"Makhloeum {__version__}. help lists the commands.")
            return 0
        try:
            any(run_script(shell, file) for file in arguments or ["-"])
        except OSError as failure:
            print(f"makhloeum: {failure}", file=sys.stderr)
            return 1
        return 1 if shell.failed else 0


if __name__ == "__main__":
    sys.exit(ended_by_interrupt(main, sys.argv[1:]))
