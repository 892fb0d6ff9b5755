"""makhloeum check DIR: whether a directory answers as a cgroup2 hierarchy does."""

from __future__ import annotations

import argparse
import os
import signal
import sys
import time
from typing import Iterator, Optional

from .._output import writes
from ..page.tree import printable
from .engine import Words
from .opening import Unusable
from .playing import Counts, Difference, Next, Player, listed
from .script import explained, shell_script
from .sequences import Random, worked
from .shorten import shorten

HELP = """\
DIR claims to be a cgroup2 hierarchy. Worked and random sequences of operations are done with real sleeping processes below a
new group in DIR, and by the proved engine. Each errno and each text is compared. A difference is made short
and printed as a shell script that shows it. Nothing is left behind in DIR.
"""
END = (
    "The status is 0 if there is no difference, 1 if there is one, and 2 if DIR cannot be checked, if the check was interrupted, "
    "if something in DIR could not be removed, or if standard output cannot be written."
)
SECONDS_MOST = 1_000_000  # of an option, so that each wait can take them
_SHOWN_EVERY = 5.0  # seconds, where standard error is no terminal
_ENDING = (signal.SIGINT, signal.SIGTERM, signal.SIGHUP)


class Interrupted(BaseException):
    """SIGINT, SIGTERM or SIGHUP."""


class _Progress:
    """Operations, differences and rate, on standard error: one line that changes, or a line every few seconds."""

    def __init__(self, counts: Counts, is_quiet: bool) -> None:
        self._counts, self._is_quiet = counts, is_quiet
        self._is_terminal = sys.stderr.isatty()
        self._next = time.monotonic() + (0.2 if self._is_terminal else _SHOWN_EVERY)

    def __call__(self) -> None:
        now = time.monotonic()
        if self._is_quiet or now < self._next:
            return
        self._next = now + (0.2 if self._is_terminal else _SHOWN_EVERY)
        sys.stderr.write(("\r" if self._is_terminal else "") + self._words() + ("" if self._is_terminal else "\n"))
        sys.stderr.flush()

    def clear(self) -> None:
        if self._is_terminal and not self._is_quiet:
            sys.stderr.write("\r" + " " * 78 + "\r")
            sys.stderr.flush()

    def _words(self) -> str:
        counts = self._counts
        return f"{counts.operations} operations, {counts.differences} differences, {counts.rate():.0f} a second"


def seconds(word: str) -> float:
    """A number of seconds of the command line."""
    number = float(word)
    if not 0 <= number <= SECONDS_MOST:
        raise argparse.ArgumentTypeError(f"{word} is not from 0 to {SECONDS_MOST}")
    return number


def _arguments(words: list[str]) -> argparse.Namespace:
    parser = argparse.ArgumentParser(prog="makhloeum check", description=HELP, epilog=END, allow_abbrev=False)
    parser.add_argument("directory", metavar="DIR")
    parser.add_argument(
        "--seed", type=int, default=1, metavar="N", help="the random sequences are those of this number (1)"
    )
    parser.add_argument("--count", type=int, default=1000, metavar="N", help="play at least N operations in all (1000)")
    parser.add_argument(
        "--time", type=seconds, metavar="SECONDS", help="end after this number of seconds, whatever the count"
    )
    parser.add_argument("--most", type=int, default=3, metavar="N", help="end after N kinds of differences (3)")
    parser.add_argument(
        "--limit", type=seconds, default=10, metavar="SECONDS", help="an operation that takes longer hangs (10)"
    )
    parser.add_argument(
        "--shorten", type=seconds, default=30, metavar="SECONDS", help="time for making a difference short (30)"
    )
    parser.add_argument("--no-worked", action="store_true", help="only random sequences")
    parser.add_argument(
        "--quiet", action="store_true", help="no progress on standard error, and not which files are missing"
    )
    return parser.parse_args(words)


class _Check:
    def __init__(self, options: argparse.Namespace, player: Player) -> None:
        self._options, self._player, self.counts = options, player, player.counts
        self._kinds: set[tuple[str, ...]] = set()
        self._end = None if options.time is None else time.monotonic() + options.time
        self._has_control = os.path.exists(os.path.join(options.directory, "cgroup.subtree_control"))
        self.progress = _Progress(self.counts, options.quiet)
        player.on_operation = self.progress

    def _is_over(self) -> bool:
        late = self._end is not None and time.monotonic() > self._end
        return late or len(self._kinds) >= int(self._options.most)

    def _sequences(self) -> Iterator[tuple[str, str, Next]]:
        ways = self._player.found["ways"]
        if not self._options.no_worked:
            for name, way, commands in worked(ways):
                yield f"worked sequence {name}", way, listed(commands)
        number = 0
        while self._end is not None and self._options.count <= 0 or self.counts.operations < self._options.count:
            number += 1
            way = ways[number % len(ways)]
            yield f"random sequence {number} of seed {self._options.seed}", way, Random(self._options.seed, number)

    def run(self) -> None:
        for name, way, following in self._sequences():
            if self._is_over():
                return
            found = self._player.play(way, self._timed(following), self.counts)
            if found:
                self._count(name, found)
            if found and (found.hangs or found.is_beginning):
                return

    def _count(self, name: str, found: Difference) -> None:
        self.counts.differences += 1
        try:
            self._show(name, found)
        except Unusable:
            self.counts.differences -= 1  # the directory was gone
            raise

    def _timed(self, following: Next) -> Next:
        """Ends the sequence when the time is over."""
        return lambda engine: None if self._end is not None and time.monotonic() > self._end else following(engine)

    def _retry(self, way: str, commands: list[Words]) -> Optional[Difference]:
        return self._player.play(way, listed(commands))

    def _show(self, name: str, found: Difference) -> None:
        if found.kind() in self._kinds:
            return
        self._kinds.add(found.kind())
        self.progress.clear()
        self._player.on_operation = lambda: None
        began = time.monotonic()
        if found.hangs:
            short = found._replace(
                played=[words for words in found.played[:-1] if words[0] not in ("cat", "reread", "list")]
                + found.played[-1:]
            )
        else:
            short = shorten(found, lambda commands: self._retry(found.way, commands), self._options.shorten)
        self._player.on_operation = self.progress
        self.counts.began += time.monotonic() - began  # the rate is that of what is counted
        self._kinds.add(short.kind())
        print(f"difference: {' '.join(short.played[-1])}: {'; '.join(explained(short))}")
        made = f"made {len(short.played)}"
        if short is found:
            made = "it did not show again" if self._options.shorten else "not made short"
        print(f"({name}; {len(found.played)} operations, {made})")
        print(
            "\n".join(shell_script(short, os.path.abspath(self._options.directory), self._has_control)) + "\n",
            flush=True,
        )

    def told(self) -> str:
        counts = self.counts
        seconds = time.monotonic() - counts.began
        lines = [
            f"{counts.operations} operations in {seconds:.1f} s ({counts.rate():.0f} a second), {counts.differences} differences"
        ]
        for name, count in sorted(counts.known.items(), key=lambda it: -it[1]):
            lines.append(f"{count:8} known: {name}")
        return "\n".join(lines)


def _ignore_ending() -> None:
    """From now on no signal interrupts what cleans up."""
    for number in _ENDING:
        signal.signal(number, signal.SIG_IGN)


def _handle_ending() -> None:
    """These signals interrupt the check, unless its caller ignores them, as nohup does."""
    for number in _ENDING:
        if signal.getsignal(number) != signal.SIG_IGN:
            signal.signal(number, _interrupt)


def _interrupt(number: int, frame: object) -> None:
    _ignore_ending()
    raise Interrupted


def _say(directory: str, what: str) -> None:
    print(f"makhloeum check: {printable(f'{directory}: {what}')}", file=sys.stderr)


def _checked(options: argparse.Namespace, player: Player) -> int:
    check, fault = _Check(options, player), ""
    try:
        check.run()
    except Interrupted:
        fault = "interrupted"
    except Unusable as no:
        fault = str(no)
    finally:
        _ignore_ending()
        player.close()
        check.progress.clear()
        for path in player.left:
            _say(options.directory, f"{path} could not be removed")
    print(check.told())
    if fault:
        _say(options.directory, fault)
    return 1 if check.counts.differences else 2 if fault or player.left else 0


@writes("makhloeum check", failed=2)
def main(words: list[str]) -> int:
    options = _arguments(words)
    try:
        _handle_ending()
        player = Player(options.directory, options.limit)
        missing = player.found["missing"]
        if missing and not options.quiet:
            _say(options.directory, f"not there, and so not compared: {', '.join(missing)}")
        return _checked(options, player)
    except Unusable as no:
        _say(options.directory, str(no))
    # also just before and after it plays: then the worker removes what it made once this process ends
    except Interrupted:
        _say(options.directory, "interrupted")
    return 2
