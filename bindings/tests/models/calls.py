"""What a call on hierarchies should return, by evidence/model.py.

A line is a handle, a call and its arguments: `0 mkdir /a`. The arguments are encoded as in a URL, and an empty one is `%`. World has
what the handles name, and says of each line whether a driver's result is right. Results are

  ok VALUE              a text, a number, or encoded texts with commas between them
  no CODE ERRNO REPLY   a refusal or a fault; the reply is compared only if the driver prints it
  failed ERRNO          by a fault that `fail` asked for
  closed, timeout
  waits, none           of a join, if the thread waits for a change that hasn't come, and if there is none
  taken                 of an await, if there is a thread of that name
"""

from __future__ import annotations

import errno
import os
import sys
from urllib.parse import quote, unquote_to_bytes

sys.path.append(os.path.join(os.path.dirname(os.path.abspath(__file__)), "..", "..", "..", "evidence"))
import model  # noqa: E402

# From docs/FORMATS.md: the code and the errno of each word of a reply.
CODES = {
    "exists": (1, errno.EEXIST),
    "nogroup": (2, errno.ENOENT),
    "descendants": (3, errno.EAGAIN),
    "depth": (4, errno.EAGAIN),
    "noslot": (5, errno.ENOSPC),
    "rootfixed": (6, errno.EBUSY),
    "haschildren": (7, errno.EBUSY),
    "hasprocesses": (8, errno.EBUSY),
    "noprocess": (9, errno.ESRCH),
    "pidinuse": (10, errno.EEXIST),
    "pidsmax": (11, errno.EAGAIN),
    "nofile": (12, errno.ENOENT),
    "nothing": (14, errno.ENODATA),
    "syntax": (32, errno.EINVAL),
    "path": (33, errno.EINVAL),
    "file": (34, errno.ENOENT),
    "direction": (35, errno.EINVAL),
    "value": (36, errno.EINVAL),
}
HANDLES = 4
BLANKS = b" \t\r\n"


def encoded(text: bytes) -> str:
    return quote(text, safe="/._-").replace("~", "%7E")


def word(text: bytes) -> str:
    """The text as an argument of a line."""
    return encoded(text) or "%"


def decoded(argument: str) -> bytes:
    return b"" if argument == "%" else unquote_to_bytes(argument)


def listed(texts) -> str:
    return "ok " + ",".join(map(encoded, texts))


class Failed(Exception):
    """A call that a fault of `fail` hits."""


def copied(of: model.Model) -> model.Model:
    """Attributes and recorded changes are never written to, so the copy shares them. What undoes a change is a method of its model."""
    new = model.Model()
    for name in ("groups", "home", "current", "below", "own"):
        setattr(new, name, dict(getattr(of, name)))
    new.journal = [
        (text, [(getattr(new, change.__name__), key, old) for change, key, old in changes])
        for text, changes in of.journal
    ]
    return new


class Fault:
    def __init__(self, path: bytes, nth: int, number: int) -> None:
        self.path, self.left, self.number = path, nth, number


class Modelled:
    """A model, the number of its changes, and the faults that were asked for."""

    def __init__(self, state: model.Model) -> None:
        self.state, self.changes = state, 0
        self.faults: list[Fault] = []  # newest first

    # ---- faults

    def named(self, path: bytes) -> None:
        """Before each call that names the path."""
        hit = None
        for fault in list(self.faults):
            if fault.path == path:
                fault.left -= 1
                if fault.left == 0:
                    self.faults.remove(fault)
                    hit = hit or fault
        if hit is not None and hit.number:
            raise Failed(hit.number)
        if hit is not None:
            self.vanished(path)

    def vanished(self, path: bytes) -> None:
        if self.state.answer([b"write", path, b"cgroup.kill", b"1"]) != [b"ok"]:
            return
        group = model.read_path(path)
        for below in sorted((it for it in self.state.groups if it[: len(group)] == group), reverse=True):
            self.state.answer([b"rmdir", model.path_text(below)])

    # ---- calls

    def asked(self, *words: bytes) -> list[bytes]:
        """The lines that a command shows, or a refusal."""
        first, *lines = self.state.answer(list(words))
        if first != b"ok":
            raise model.Refused(first.partition(b" ")[2])
        return [line[2:] for line in lines]

    def text(self, *words: bytes) -> bytes:
        return b"".join(line + b"\n" for line in self.asked(*words))

    def path(self, text: bytes) -> tuple:
        try:
            return model.read_path(text)
        except model.Fault as fault:
            raise model.Refused(str(fault).encode())

    def group(self, text: bytes) -> tuple:
        path = self.path(text)
        self.state.need_group(path)
        return path

    def command(self, *words: bytes) -> str:
        """A call that shows nothing."""
        if words[0] not in (b"fork", b"exit"):
            self.named(words[1])
        self.asked(*words)
        return "ok"

    def call_mkdir(self, path):
        return self.command(b"mkdir", path)

    def call_rmdir(self, path):
        return self.command(b"rmdir", path)

    def call_fork(self, parent, child):
        return self.command(b"fork", parent, child)

    def call_exit(self, pid):
        return self.command(b"exit", pid)

    def call_attach(self, path, pid):
        return self.command(b"write", path, b"cgroup.procs", pid)

    def call_write(self, path, file, value):
        return self.command(b"write", path, file, value.strip(BLANKS))

    def call_kill(self, path):
        return self.command(b"write", path, b"cgroup.kill", b"1")

    def call_read(self, path, file):
        self.named(path)
        return "ok " + encoded(self.text(b"cat", path, file))

    def call_where(self, pid):
        return "ok " + encoded(self.text(b"where", pid))

    def call_line(self, line):
        words = line.split()
        if len(words) > 1 and words[1].startswith(b"/"):
            self.named(words[1])
        return "ok " + encoded(self.text(*words))

    def number(self, path, file):
        self.named(path)
        (line,) = self.asked(b"cat", path, file)
        return "ok " + line.decode()

    def call_current(self, path):
        return self.number(path, b"pids.current")

    def call_peak(self, path):
        return self.number(path, b"pids.peak")

    def call_limit(self, path):
        return self.number(path, b"pids.max")

    def call_populated(self, path):
        self.named(path)
        return "ok " + self.asked(b"cat", path, b"cgroup.events")[0].decode().split()[1]

    def call_processes(self, path):
        self.named(path)
        return "ok " + ",".join(line.decode() for line in self.asked(b"cat", path, b"cgroup.procs"))

    def call_children(self, path):
        self.named(path)
        group = self.group(path)
        depth = len(group)
        return listed(sorted(it[-1] for it in self.state.groups if len(it) == depth + 1 and it[:depth] == group))

    def call_groups(self, path):
        self.named(path)
        group = self.group(path)
        found = sorted(it for it in self.state.groups if it[: len(group)] == group)
        return listed(map(model.path_text, found))

    def call_has(self, path):
        self.named(path)
        return f"ok {int(self.path(path) in self.state.groups)}"

    def call_many(self, *pairs):
        told = [self.told("read", pair) for pair in zip(pairs[::2], pairs[1::2])]
        return "ok " + ";".join(without_reply(it) for it in told)

    def call_undo(self):
        return "ok " + encoded(self.text(b"undo").removesuffix(b"\n"))

    def call_undoto(self, mark):
        count = len(self.state.journal) - int(mark)
        if count < 0:
            raise model.Refused(b"nothing")
        for _ in range(count):
            self.state.answer([b"undo"])
        return f"ok {count}"

    def call_depth(self):
        return f"ok {len(self.state.journal)}"

    def history(self) -> list[bytes]:
        return [text for text, _ in self.state.journal]

    def call_history(self, place):
        return listed(self.history()[int(place) :])

    def call_forget(self):
        self.state.journal.clear()
        return "ok"

    def call_changes(self):
        return f"ok {self.changes}"

    def call_wait(self, seen):
        return "timeout" if int(seen) == self.changes else f"ok {self.changes}"

    def call_waitfile(self, path, file, seen):
        text = self.text(b"cat", path, file)
        return "timeout" if text == seen else "ok " + encoded(text)

    def call_fail(self, path, nth, number):
        self.path(path)
        self.faults.insert(0, Fault(path, int(nth), int(number)))
        return "ok"

    def call_vanish(self, path, nth):
        return self.call_fail(path, nth, 0)

    def call_clear(self):
        count = len(self.faults)
        self.faults.clear()
        return f"ok {count}"

    def told(self, call: str, arguments) -> str:
        try:
            return getattr(self, f"call_{call}")(*arguments)
        except model.Refused as refusal:
            reply = refusal.args[0].decode()
            return "no {} {} ".format(*CODES[reply.split()[0]]) + encoded(reply.encode())
        except Failed as failed:
            return f"failed {failed.args[0]}"

    def result(self, call: str, arguments) -> str:
        before = len(self.state.journal)
        told = self.told(call, arguments)
        if len(self.state.journal) != before and call != "forget":
            self.changes += 1
        return told


def without_reply(told: str) -> str:
    return " ".join(told.split(" ")[:3]) if told.startswith("no ") else told


def is_as(wanted: str, got: str) -> bool:
    """Whether a driver's result is the wanted one. That of C has a reply only for a line."""
    return got in (wanted, without_reply(wanted))


class Waiter:
    def __init__(self, of: Modelled) -> None:
        self.of, self.seen, self.is_closed = of, of.changes, False

    def still_waits(self) -> bool:
        return not self.is_closed and self.of.changes == self.seen


class World:
    """What the handles name. A handle that was closed is None."""

    def __init__(self) -> None:
        self.handles: dict[int, Modelled | None] = {0: Modelled(model.Model())}
        self.waiters: dict[str, Waiter] = {}

    def can(self, line: str) -> bool:
        """Whether each language can make the call."""
        handle, call, *arguments = line.split(" ")
        at = int(handle)
        if call == "open":
            return self.handles.get(at) is None
        if at not in self.handles:
            return False
        it = self.handles[at]
        if call == "copy":
            return self.handles.get(int(arguments[0])) is None and int(arguments[0]) != at
        if call == "close":
            return it is not None
        if call == "together":
            return it is not None and not it.faults
        return True

    def play(self, line: str) -> str:
        """The result, if the calls of `together` come one thread after the other."""
        handle, call, *arguments = line.split(" ")
        at = int(handle)
        it = self.handles.get(at)
        if call == "open":
            self.handles[at] = Modelled(model.Model())
            return "ok"
        if call == "join":
            if arguments[0] not in self.waiters:
                return "none"
            if self.waiters[arguments[0]].still_waits():
                return "waits"
            waiter = self.waiters.pop(arguments[0])
            return "closed" if waiter.is_closed else f"ok {waiter.of.changes}"
        if it is None:
            return "closed"
        if call == "close":
            for waiter in self.waiters.values():
                waiter.is_closed = waiter.is_closed or waiter.of is it
            self.handles[at] = None
            return "ok"
        if call == "copy":
            self.handles[int(arguments[0])] = Modelled(copied(it.state))
            return "ok"
        if call == "await" and arguments[0] in self.waiters:
            return "taken"
        if call == "await":
            self.waiters[arguments[0]] = Waiter(it)
            return "ok"
        if call == "together":
            return " || ".join(
                " | ".join(it.result(call, list(map(decoded, words))) for call, *words in calls)
                for calls in threads_of(arguments)
            )
        return it.result(call, list(map(decoded, arguments)))

    def fault(self, line: str, got: str) -> str | None:
        """What the result should have been, if it is wrong."""
        handle, call, *arguments = line.split(" ")
        if call == "together":
            return self.fault_together(self.handles[int(handle)], threads_of(arguments), got)
        if call == "join" and arguments[0] in self.waiters:
            waiter = self.waiters[arguments[0]]
            wanted = [f"ok {number}" for number in range(waiter.seen + 1, waiter.of.changes + 1)]
            wanted += ["closed"] * waiter.is_closed or ["waits"] * waiter.still_waits()
            self.play(line)
            return None if got in wanted else " or ".join(wanted)
        wanted = self.play(line)
        return None if is_as(wanted, got) else wanted

    def fault_together(self, it: Modelled, threads, got: str) -> str | None:
        """Calls of several threads are right if they can have come one after the other, each thread's in its order, so that those that
        were recorded came in the order of the history."""
        told, _, history = got.partition(" ## ")
        results = [part.split(" | ") for part in told.split(" || ")]
        if list(map(len, results)) != list(map(len, threads)):
            return "a result of each call"
        recorded = [decoded(text) for text in history.split(",") if text]
        states = [it]
        for text in recorded:
            after = Modelled(copied(states[-1].state))
            after.changes = states[-1].changes
            after.result("line", [text])
            if len(after.state.journal) != len(states[-1].state.journal) + 1 or after.history()[-1] != text:
                return f"another history: {text.decode()} isn't recorded there"
            states.append(after)
        if not Order(states, recorded, threads, results).exists([0] * len(threads), 0):
            return "results of an order in which the calls can have come"
        it.state, it.changes = states[-1].state, states[-1].changes
        return None


class Order:
    """Looks for an order of the calls of threads that explains their results."""

    def __init__(self, states, recorded, threads, results) -> None:
        self.states, self.recorded, self.threads, self.results = states, recorded, threads, results
        self.seen: set[tuple[int, ...]] = set()

    def exists(self, places: list[int], at: int) -> bool:
        """With so many calls of each thread done, of which `at` were recorded."""
        if tuple(places) in self.seen:
            return False
        self.seen.add(tuple(places))
        if all(place == len(calls) for place, calls in zip(places, self.threads)):
            return at == len(self.recorded)
        for thread, place in enumerate(places):
            if place == len(self.threads[thread]):
                continue
            more = self.step(self.threads[thread][place], self.results[thread][place], at)
            if more is not None and self.exists([it + (n == thread) for n, it in enumerate(places)], at + more):
                return True
        return False

    def step(self, call, got: str, at: int) -> int | None:
        """How many commands the call records in that state; None if its result would be another one."""
        before = self.states[at]
        it = Modelled(copied(before.state))
        it.changes = before.changes
        if not is_as(it.result(call[0], list(map(decoded, call[1:]))), got):
            return None
        if len(it.state.journal) == len(before.state.journal):
            return 0
        return 1 if at < len(self.recorded) and it.history()[-1] == self.recorded[at] else None


def threads_of(words: list[str]) -> list[list[list[str]]]:
    """The calls of each thread of `together`: words with | between calls and || between threads."""
    return [[call.split(" ") for call in thread.split(" | ")] for thread in " ".join(words).split(" || ")]


def playable(lines: list[str]) -> list[str]:
    """The lines without those that can't be played after the others."""
    world, found = World(), []
    for line in lines:
        if world.can(line):
            world.play(line)
            found.append(line)
    return found
