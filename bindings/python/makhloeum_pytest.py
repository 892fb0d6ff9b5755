"""What an installed package of makhloeum brings to pytest: the fixture `hierarchy`.

It is a module of its own, since pytest imports it at the start of each session: without the library the package can't be imported,
and then only the tests that use the fixture fail.
"""

from __future__ import annotations

from typing import TYPE_CHECKING, Iterator

import pytest

if TYPE_CHECKING:
    from makhloeum import Hierarchy


@pytest.fixture
def hierarchy() -> Iterator[Hierarchy]:
    """A new hierarchy for each test, with only the root and process 1 in it; it is closed after the test."""
    from makhloeum import Hierarchy

    h = Hierarchy()
    try:
        yield h
    finally:
        h.close()
