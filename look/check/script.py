"""A difference as a shell script that shows it."""

from __future__ import annotations

import errno
import os
import shlex
from typing import Optional

from .._table import PID_MAX
from .engine import Answer, Words
from .playing import NO_ANSWER, Difference

_POLL = (
    "python3 -c 'import os,select as s,sys; f=os.open(sys.argv[1],0); os.read(f,99); p=s.poll(); p.register(f,s.POLLPRI); "
    'print("poll", p.poll(2000) and "came" or "nothing")\' {file} & w=$!; inotifywait -q -t 2 -e modify {file} & v=$!; sleep 0.5'
)

_REREAD = "python3 -c 'import os; print(os.pread(0, 65536, 0).decode(), end=\"\")'"


def said(answer: Answer) -> str:
    """An answer as a user reads it."""
    if answer.error == NO_ANSWER:
        return "nothing, it hangs"
    if answer.error != "ok":
        number = getattr(errno, answer.error, 0)
        return f"{answer.error} ({os.strerror(number)})" if number else answer.error
    return repr(answer.text) if answer.text else "ok"


def explained(difference: Difference) -> list[str]:
    """What the two say to the last command."""
    ours, theirs = difference.ours, difference.theirs
    reason = f", {ours.reply}" if ours.reply and ours.error != "ok" else ""
    return [f"the engine: {said(ours)}{reason}", f"the directory: {said(theirs)}"]


class _Script:
    _FIRST = 'mkfifo "$d"/1; p 1 & p1=$!; k="$k $!"'

    def __init__(self, difference: Difference, directory: str, has_control: bool) -> None:
        self._difference, self._directory = difference, directory
        self._controls = has_control and difference.way in ("D", "T")
        self._has_control = has_control
        commands = difference.played
        self._forkers = {words[1] for words in commands if words[0] == "fork"}
        self._own_first = any(self._is_about_first(words) for words in commands) or self._ends_in_root(commands)
        self._parent: dict[str, str] = {}
        self._group = {"1": "/"}
        self._children: dict[str, int] = {}
        self._lines: list[str] = []
        self._at = 0
        self._open: dict[str, int] = {}
        self._starting: dict[str, str] = {}  # what starts a process, until it is moved

    @staticmethod
    def _is_about_first(words: Words) -> bool:
        return (
            words[:2] == ["exit", "1"]
            or words[2:] == ["cgroup.procs", "1"]
            or words[:3] == ["cat", "/", "cgroup.procs"]
        )

    def _ends_in_root(self, commands: list[Words]) -> bool:
        """Whether the processes of the root are compared last."""
        last = commands[-1]
        group = [words[1] for words in commands if words[0] == "write" and words[2:] == ["cgroup.procs", last[1]]]
        return last[0] in ("fork", "exit") and self._difference.ours.error == "ok" and group[-1:] in ([], ["/"])

    def _use(self, pid: str, at: int) -> str:
        """The kind of the next command that is about the process, "write" for its move."""
        for words in self._difference.played[at:]:
            if words[2:] == ["cgroup.procs", pid]:
                return "write"
            if (
                words[0] in ("fork", "exit", "where")
                and pid in words[1:]
                or words[:1] + words[2:] == ["cat", "cgroup.procs"]
            ):
                return words[0]
        return ""

    # ---- words of the shell

    def _place(self, path: str) -> str:
        """The path in the script's folder. A name that begins with a dash is no option."""
        return shlex.quote("./" + path[1:] if path.startswith("/-") else path[1:] or ".")

    def _file(self, path: str, name: str, writes: bool = False) -> str:
        if name == "cgroup.procs" and path == "/":
            return "../home/cgroup.procs"
        if name == "cgroup.procs" and self._difference.way == "T" and not writes:
            name = "cgroup.threads"
        return name if path == "/" else self._place(f"{path}/{name}")

    def _is_shell(self, pid: str) -> bool:
        return pid == "1" and not self._own_first

    def _tell(self, pid: str, what: str) -> str:
        return f"echo {what} >$d/{pid}"

    def _born(self, pid: str) -> str:
        """Starts a process of the script's shell."""
        if pid in self._forkers:
            return f'mkfifo "$d"/{pid}; p {pid} & p{pid}=$!; k="$k $!"'
        return f'sleep 99 & p{pid}=$!; k="$k $!"'

    # ---- commands

    def _mkdir(self, words: Words) -> str:
        path, parent = words[1], words[1].rsplit("/", 1)[0] or "/"
        before = ""
        if self._controls and not self._children.get(parent):
            before = f"echo +pids >{self._file(parent, 'cgroup.subtree_control')}; "
        self._children[parent] = self._children.get(parent, 0) + 1
        after = f"; echo threaded >{self._file(path, 'cgroup.type')}" if self._difference.way == "T" else ""
        return f"{before}mkdir {self._place(path)}{after}"

    def _rmdir(self, words: Words) -> str:
        return f"rmdir {self._place(words[1])}"

    def _fork(self, words: Words) -> str:
        parent, child = words[1:3]
        self._parent[child] = parent
        self._group[child] = self._group.get(parent, "/")
        if not self._is_shell(parent):
            return f"f {parent} {child}"
        if self._use(child, self._at + 1) == "write":
            self._starting[child] = self._born(child)
            return ""
        return self._born(child)

    def _exit(self, words: Words) -> str:
        pid = words[1]
        parent = self._parent.get(pid)
        self._group.pop(pid, None)
        if parent is None or self._is_shell(parent):
            return f"kill -9 $p{pid}; wait $p{pid}"
        reaped = f"{self._tell(parent, f'wait $p{pid}')}; " if parent in self._group else ""
        return f"kill -9 $p{pid}; {reaped}sleep 0.2"

    def _write(self, words: Words) -> str:
        path, name, value = words[1:4]
        if name == "cgroup.procs" and value.isdecimal():
            value = f"$p{value}" if value in self._group else str(PID_MAX)
        else:
            value = shlex.quote(value)
        line = f"echo {value} >{self._file(path, name, writes=True)}"
        if name == "cgroup.procs" and words[3] in self._starting:
            line = f"{self._starting.pop(words[3])}; {line}"
        if name == "cgroup.procs" and words[3] in self._group:
            self._group[words[3]] = path
        return line + (self._reap(path) if name == "cgroup.kill" else "")

    def _reap(self, path: str) -> str:
        dead = [pid for pid, group in self._group.items() if group == path or group.startswith(path + "/")]
        for pid in dead:
            del self._group[pid]
        waited = " ".join(f"$p{pid}" for pid in dead if self._is_shell(self._parent.get(pid, "1")))
        return f"; wait {waited}" if waited else "; sleep 0.2"

    def _cat(self, words: Words) -> str:
        return f"cat {self._file(words[1], words[2])}"

    def _reread(self, words: Words) -> str:
        """The first time the file is opened; its number stays open."""
        file = self._file(words[1], words[2])
        if file not in self._open:
            # a shell has one digit for an open file
            self._open[file] = 4 + len(self._open) % 6
            return f"exec {self._open[file]}<{file}; cat <&{self._open[file]}"
        return f"{_REREAD} <&{self._open[file]}"

    def _list(self, words: Words) -> str:
        return f"ls {self._place(words[1])}"

    def _where(self, words: Words) -> str:
        return f"cat /proc/$p{words[1]}/cgroup"

    def _watch(self, words: Words) -> str:
        return _POLL.format(file=self._file(words[1], "cgroup.events"))

    def _told(self, words: Words) -> str:
        return "wait $w $v"

    # ---- the whole

    def _command(self, words: Words) -> str:
        line: str = getattr(self, "_" + words[0])(words)
        return line

    def _last(self, words: Words) -> str:
        """The last command so that it shows what is answered: a shell's own echo prints no errno."""
        group = self._group.get(words[1], "/")
        line = self._command(words)
        if words[0] == "write":
            line = "/bin/echo ".join(line.rsplit("echo ", 1))
        theirs, ours = self._difference.theirs, self._difference.ours
        are_done = theirs.error == ours.error == "ok"
        if are_done and words[0] in ("fork", "exit"):
            line += f"; cat {self._file(group, 'cgroup.procs')}"
        if are_done and words[0] == "write" and words[2] == "cgroup.kill" and ours.text != theirs.text:
            # not waited for, since it may be alive
            line = line.split("; ")[0] + '; sleep 0.5; ps -o pid=,stat= -p "${k# }"'
        return line

    def _body(self) -> None:
        """Puts commands that belong together on one line."""
        commands = self._difference.played
        if self._own_first and self._use("1", 0) == "write":
            self._starting["1"] = self._FIRST
        elif self._own_first:
            self._lines.append(self._FIRST + "; echo $p1 >../home/cgroup.procs")
        before: Optional[Words] = None
        for self._at, words in enumerate(commands):
            is_last = self._at == len(commands) - 1
            line = self._last(words) if is_last else self._command(words)
            if not line:
                continue
            if before and not is_last and self._belongs(before, words):
                self._lines[-1] += "; " + line
            else:
                self._lines.append(line)
            before = words

    def _belongs(self, before: Words, words: Words) -> bool:
        is_one_place = (
            before[0] == "mkdir" and words[0] == "write" and words[1] == before[1] and words[2] != "cgroup.procs"
        )
        return is_one_place or (before[0], words[0]) in (("mkdir", "mkdir"), ("rmdir", "rmdir"))

    def lines(self) -> list[str]:
        self._body()
        own = "makhloeum-check-$$"
        control = f"; echo +pids >{own}/cgroup.subtree_control" if self._has_control else ""
        needs_fifo = any(not self._is_shell(pid) for pid in self._forkers) or self._own_first
        lines = [
            "#!/bin/sh",
            "# the last line shows it: " + "; ".join(explained(self._difference)),
            f"cd {shlex.quote(self._directory)} && mkdir {own}{control} && mkdir {own}/home {own}/top && cd {own}/top || exit 2",
            f"k= d=$(mktemp -d); trap 'kill -9 $k 2>/dev/null; sleep 0.5; rm -r \"$d\"; cd ../..; find {own} -depth -type d -exec rmdir {{}} +' EXIT",
        ]
        if needs_fifo:
            lines.append('p() { exec 3<>$d/$1; while read c <&3; do command eval "$c"; done; }')
            lines.append(
                'f() { mkfifo "$d"/$2; echo "p $2 & echo \\$! >\\$d/$2.p" >$d/$1; sleep 0.3; read p$2 <$d/$2.p && eval k=\\"$k \\$p$2\\"; }'
            )
        return [*lines, *self._lines]


def shell_script(difference: Difference, directory: str, has_control: bool = False) -> list[str]:
    """The lines of the script. `has_control` says whether groups have a cgroup.subtree_control."""
    return _Script(difference, directory, has_control).lines()
