"""What the programs of this folder make of their words: the help, and the refusal of a bad command line."""

from __future__ import annotations

import sys
from typing import Callable, List, Optional, TypeVar

from .._output import writes

_Wanted = TypeVar("_Wanted")


def of_words(
    program: str, text: Optional[str], parsed: Callable[[List[str]], Optional[_Wanted]]
) -> Callable[[Callable[[_Wanted], int]], Callable[[List[str]], int]]:
    """Of the `main` of a program, which gets what its words ask for. `text` is the help; None of `parsed` is a bad command line."""

    def decorated(main: Callable[[_Wanted], int]) -> Callable[[List[str]], int]:
        @writes(program)
        def whole(words: List[str]) -> int:
            if words in (["--help"], ["-h"]):
                print((text or "").strip())
                return 0
            wanted = parsed(words)
            if wanted is None:
                print(f"{program}: bad command line; {program} --help shows it", file=sys.stderr)
                return 2
            return main(wanted)

        return whole

    return decorated
