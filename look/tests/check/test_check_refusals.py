"""When the random sequences of `makhloeum check` meet each kind of refusal by a limit, without a directory: the engine alone
answers."""

import pytest

from makhloeum.check.engine import Engine
from makhloeum.check.sequences import Random

SOON = 2000  # operations: some 20 seconds on a busy machine
DEEPEST = 4
SEEDS = (1, 2, 3, 7, 4711, 2**40)
# The word of each limit with the depths that its group may have. Groups lie at depth 1 to 4, and the root, which has no
# pids.max, at 0. A process lies at most at depth 4, the parent of a new group at 3.
LIMITS = {"pidsmax": range(1, DEEPEST + 1), "descendants": range(DEEPEST), "depth": range(DEEPEST)}
# The word, how deep the limit's group lies, and how many levels below it the process that forks or the parent of the new group is.
EACH = {(word, top, below) for word, tops in LIMITS.items() for top in tops for below in range(tops[-1] - top + 1)}


def depth(path):
    return 0 if path == "/" else path.count("/")


def refusal(words, home, reply):
    """What is refused, as in EACH; None if no limit refuses it. `home` is the group of the process that forks."""
    word, _, at = reply.partition(" ")
    if words[0] not in ("mkdir", "fork") or word not in LIMITS:
        return None
    asked = home if words[0] == "fork" else words[1].rpartition("/")[0] or "/"
    assert asked == at or at == "/" or asked.startswith(at + "/")
    return word, depth(at), depth(asked) - depth(at)


def play(way, following):
    """Each operation of a sequence: its refusal or None."""
    engine = Engine(way, [], False)
    try:
        for words in iter(lambda: following(engine), None):
            if engine.can_do(words):
                home = engine.group_of(int(words[1])) if words[0] == "fork" else None
                yield refusal(words, home, engine.play(words).reply)
    finally:
        engine.close()


def met(seed, ways):
    """The refusals among the first operations of a check, by way, with how many operations came before each."""
    first, operations, number = {}, 0, 0
    while operations < SOON:
        number += 1
        way = ways[number % len(ways)]
        for found in play(way, Random(seed, number)):
            operations += 1
            if found:
                first.setdefault((way, *found), operations)
    return {kind for kind, operation in first.items() if operation <= SOON}


@pytest.mark.parametrize("seed", SEEDS)
def test_each_refusal_comes_soon(seed):
    """Of each limit at each depth, and from each level below it."""
    assert len(EACH) == 30
    assert EACH - {kind[1:] for kind in met(seed, ["free"])} == set()


@pytest.mark.parametrize("seed", SEEDS)
def test_each_refusal_comes_soon_where_three_ways_alternate(seed):
    """As in a kernel's directory: each limit, from each level below it, and forks in both ways that have limits."""
    found = {(way, word, below) for way, word, _, below in met(seed, ["D", "N", "T"])}
    assert {(word, below) for word, _, below in EACH} - {kind[1:] for kind in found} == set()
    assert {way for way, word, _ in found if word == "pidsmax"} == {"D", "T"}
