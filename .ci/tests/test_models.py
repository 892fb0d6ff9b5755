"""Tests of bindings/models: what it takes for a wrong result, and how it makes a sequence short."""
import contextlib
import io
import os
import sys
import unittest
from unittest import mock

from scripts import TOP, load

models = load("bindings/models")
sys.path.append(os.path.join(TOP, "bindings", "tests", "models"))
import model  # noqa: E402
from calls import World, playable  # noqa: E402
from draw import WEIGHTS, Draw  # noqa: E402
from shorten import ENDED, Wrong, shortened, wrong  # noqa: E402


class Planted:
    """A driver that answers as the model, but the last call of a sequence wrongly once these calls have come in this order."""

    language = "c"

    def __init__(self, *planted, wrongly="ok 7"):
        self.planted, self.wrongly, self.played = planted, wrongly, 0

    def results(self, lines):
        world, calls, told = World(), iter(self.planted), []
        due = next(calls)
        for line in lines:
            told.append(world.play(line) + " ## " * (" together " in line))
            if due is not None and line.split(" ")[1] == due:
                due = next(calls, None)
                if due is None:
                    told[-1] = self.wrongly
        return told

    def play(self, sequences):
        self.played += 1
        return [self.results(lines) for _, lines in sequences]


def fault(lines, got):
    """What the last result should have been, if it is wrong."""
    world = World()
    for line in lines[:-1]:
        world.play(line)
    return world.fault(lines[-1], got)


class Results(unittest.TestCase):
    def test_a_result_is_compared(self):
        for lines, right, other in (
            (["0 mkdir /a"], "ok", "no 1 17 exists"),
            (["0 mkdir /a", "0 mkdir /a"], "no 1 17 exists", "no 1 17 nogroup"),
            (["0 mkdir /a", "0 copy 1", "0 forget", "1 undo"], "ok mkdir%20/a", "no 14 61 nothing"),
            (["0 mkdir /a", "0 forget", "0 copy 1", "1 undo"], "no 14 61 nothing", "ok mkdir%20/a"),
            (["0 mkdir /a", "0 copy 1", "1 changes"], "ok 0", "ok 1"),
            (["0 mkdir /a", "0 forget", "0 changes"], "ok 1", "ok 2"),
            (["0 mkdir /a", "0 mkdir /b", "0 undoto 0", "0 changes"], "ok 3", "ok 4"),
            (["0 copy 1", "0 close", "0 groups /"], "closed", "ok /"),
            (["0 copy 1", "0 close", "1 groups /"], "ok /", "closed"),
            (["0 fail /a 2 5", "0 has /a", "0 mkdir /a"], "failed 5", "ok"),
            (["0 mkdir /a", "0 fork 1 2", "0 vanish / 1", "0 vanish /a 1", "0 has /a"], "ok 0", "ok 1"),
            (["0 mkdir /a", "0 wait 1"], "timeout", "ok 1"),
            (["0 await 0", "0 join 0"], "waits", "ok 1"),
            (["0 await 0", "0 mkdir /a", "0 mkdir /b", "0 join 0"], "ok 1", "ok 3"),
            (["0 await 0", "0 mkdir /a", "0 mkdir /b", "0 join 0"], "ok 2", "ok 0"),
            (["0 await 0", "0 close", "0 join 0"], "closed", "waits"),
        ):
            self.assertIsNone(fault(lines, right), lines)
            self.assertIsNotNone(fault(lines, other), lines)

    def test_a_reply_may_be_left_out(self):
        self.assertIsNone(fault(["0 mkdir /a/b"], "no 2 2"))
        self.assertEqual(fault(["0 mkdir /a/b"], "no 2 2 nogroup%20/b"), "no 2 2 nogroup%20/a")

    def test_threads_have_the_results_of_some_order(self):
        line = "0 together fork 1 2 | depth || fork 1 2 | mkdir /a | changes"
        for right in (
            "ok | ok 1 || no 10 17 | ok | ok 2 ## fork%201%202,mkdir%20/a",
            "ok | ok 2 || no 10 17 | ok | ok 2 ## fork%201%202,mkdir%20/a",
            "no 10 17 | ok 1 || ok | ok | ok 2 ## fork%201%202,mkdir%20/a",
        ):
            self.assertIsNone(fault([line], right), right)
        for other in (
            "ok | ok 1 || ok | ok | ok 2 ## fork%201%202,mkdir%20/a",  # both forks
            "ok | ok 0 || no 10 17 | ok | ok 2 ## fork%201%202,mkdir%20/a",  # its own fork isn't counted
            "ok | ok 1 || no 10 17 | ok | ok 1 ## fork%201%202,mkdir%20/a",  # neither is its mkdir
            "ok | ok 2 || no 10 17 | ok | ok 2 ## mkdir%20/a,fork%201%202",  # a later fork refused an earlier one
            "ok | ok 2 || no 10 17 | ok | ok 2 ## fork%201%202",  # a command is missing
            "ok | ok 2 || no 10 17 | ok | ok 2 ## fork%201%202,mkdir%20/a,mkdir%20/b",
            "ok | ok 2 || no 10 17 | ok ## fork%201%202,mkdir%20/a",  # a result is missing
            "closed",
        ):
            self.assertIsNotNone(fault([line], other), other)

    def test_what_threads_did_counts_afterwards(self):
        lines = ["0 together mkdir /a || mkdir /b", "0 undo"]
        for history, undone in (("mkdir%20/a,mkdir%20/b", "mkdir%20/b"), ("mkdir%20/b,mkdir%20/a", "mkdir%20/a")):
            self.assertIsNone(wrong("c", lines, [f"ok || ok ## {history}", f"ok {undone}"]))
        self.assertEqual(wrong("c", lines, ["ok || ok ## mkdir%20/a,mkdir%20/b", "ok mkdir%20/a"]).line, 1)

    def test_a_driver_that_ended_is_wrong(self):
        self.assertEqual(wrong("go", ["0 depth"], None).got, ENDED)

    def test_only_c_has_a_wait_for_a_file(self):
        self.assertIsNone(wrong("go", ["0 waitfile / cgroup.procs x"], ["-"]))
        self.assertIsNotNone(wrong("c", ["0 waitfile / cgroup.procs x"], ["-"]))
        self.assertIsNotNone(wrong("go", ["0 depth"], ["-"]))


class Drawn(unittest.TestCase):
    def test_a_sequence_is_drawn_from_its_number(self):
        first, again, other = (Draw(number).sequence() for number in (3, 3, 4))
        self.assertEqual(first, again)
        self.assertNotEqual(first, other)

    def test_each_call_is_drawn_and_can_be_played(self):
        sequences = [Draw(number).sequence() for number in range(60)]
        calls = {line.split(" ")[1] for _, lines in sequences for line in lines}
        self.assertEqual(calls, set(WEIGHTS))
        self.assertEqual({how for how, _ in sequences}, {"new", "new threads"})
        self.assertGreater(max(len(lines) for _, lines in sequences), 150)
        for _, lines in sequences:
            self.assertEqual(playable(lines), lines)


class Short(unittest.TestCase):
    def short(self, driver, sequence):
        it = wrong(driver.language, sequence[1], driver.results(sequence[1]))
        return shortened(driver, sequence, it, lambda: True)

    def test_only_what_shows_it_is_left(self):
        driver = Planted("fork", "forget", "peak")
        more = [f"0 mkdir /g{number}" for number in range(20)]
        for how in "new", "new threads":
            lines = [*more, "0 fork 1 2", *more, "0 forget", "0 copy 1", "0 peak /g1", *more]
            (short_how, short), it = self.short(driver, (how, lines))
            self.assertEqual((short_how, [line.split(" ")[1] for line in short]), ("new", ["fork", "forget", "peak"]))
            self.assertEqual((it.line, it.got), (2, "ok 7"))

    def test_a_mark_becomes_smaller_with_what_was_before_it(self):
        lines = [*(f"0 fork 1 {pid}" for pid in range(2, 40)), "0 undoto 30"]
        (_, short), it = self.short(Planted("undoto", wrongly="ok 77"), ("new", lines))
        self.assertEqual(len(short), 1)
        self.assertEqual(it.got, "ok 77")

    def test_calls_of_threads_are_left_out(self):
        lines = ["0 mkdir /a", "0 together depth | changes || mkdir /b | depth || has /a", "0 close"]
        (_, short), _ = self.short(Planted("together"), ("new", lines))
        self.assertEqual(len(short), 1)
        self.assertNotIn("|", short[0])

    def test_without_time_it_stays_as_it_is(self):
        driver = Planted("peak")
        lines = ["0 mkdir /a", "0 peak /a"]
        short = shortened(driver, ("new", lines), Wrong(1, "ok 7", "ok 0"), lambda: False)
        self.assertEqual((short[0][1], driver.played), (lines, 0))


class Played:
    """A driver in a language, whose result of each sequence is the language and its number."""

    said, folders = "before" * 400 + "the last words", []

    def __init__(self, language, folder):
        self.language, self.played = language, []
        self.folders.append(folder)

    def play(self, sequences):
        self.played += sequences
        return [(self.language, lines[0]) for _, lines in sequences]


class Whole(unittest.TestCase):
    """Sequences of two calls, the first of which is the number of the sequence; three are played together."""

    def said(self, *words, wrong_at=None, how="new", got="ok 7"):
        def is_wrong(language, lines, results):
            self.assertEqual(results, (language, lines[0]))
            return Wrong(1, got, "ok 8") if results == wrong_at else None

        def short(driver, sequence, it, has_time):
            self.assertEqual((driver.language, sequence[1][0], has_time()), (*wrong_at, True))
            return (how, ["one", "another"]), it

        drawing = mock.Mock(side_effect=lambda number: mock.Mock(sequence=lambda: (how, [number, "call"])))
        timed = models.timed
        parts = {"Draw": drawing, "Driver": Played, "wrong": is_wrong, "shortened": short, "BATCH": 3}
        parts["timed"] = lambda *words: (timed(*words)[0], 0.5)
        out, err = io.StringIO(), io.StringIO()
        with mock.patch.multiple(models, **parts), contextlib.redirect_stdout(out), contextlib.redirect_stderr(err):
            status = models.main([*words])
        return status, out.getvalue().splitlines(), err.getvalue()

    def test_sequences_that_are_right(self):
        status, lines, _ = self.said("0", "30", "c", "python")
        self.assertEqual((status, lines[0], lines[-1]), (0, "models: the first sequence is 30", "6 passed, 0 failed"))
        for language, line in zip(("c", "python"), lines[1:3]):
            self.assertEqual(line, f"models: {language}: 6 calls, 12 a second")
        self.assertEqual(len(lines), 4)
        self.assertFalse(os.path.exists(Played.folders[-1]))

    def test_a_wrong_result_ends_it(self):
        status, lines, _ = self.said("1000", "30", "c", "go", wrong_at=("go", 34))
        told = ["models: go, sequence 34: a wrong result of the last call of", "  one", "  another"]
        self.assertEqual((status, lines[1:6]), (1, [*told, "  its result:  ok 7", "  it should be ok 8"]))
        # the first three of both, then three of C and one of Go
        self.assertEqual(lines[-1], "10 passed, 1 failed")
        self.assertEqual([line.split(",")[0] for line in lines[6:8]], ["models: c: 12 calls", "models: go: 8 calls"])

    def test_a_program_that_ended_shows_what_it_said(self):
        _, lines, _ = self.said("1000", "c", wrong_at=("c", 0), how="threads", got=ENDED)
        self.assertEqual(lines[1], "models: c, sequence 0 with threads: a wrong result of the last call of")
        self.assertEqual(lines[6].split("models: ")[0], Played.said[-2000:])

    def test_other_words_are_refused(self):
        self.assertEqual(self.said("1", "2", "3"), (2, [], f"{models.__doc__}\n"))


# A trace, with the answer to each numbered line as docs/FORMATS.md has it.
ANSWERED = (
    (b"# a comment", None),
    (b" \t\r", None),
    (b"mkdir /a", b"ok"),
    (b"\tmkdir  /a\r", b"refused exists"),
    (b"mkdir /b/c", b"refused nogroup /b"),
    (b"mkdir a", b"refused path"),
    (b"mkdir", b"refused syntax"),
    (b"mkdir /" + b"n" * 8200, b"refused syntax"),
    (b"fork 1 2", b"ok"),
    (b"fork 1 2", b"refused pidinuse 2"),
    (b"fork 9 3", b"refused noprocess 9"),
    (b"write /a pids.max 1", b"ok"),
    (b"write /a cgroup.procs 2", b"ok"),
    (b"fork 2 3", b"refused pidsmax /a"),
    (b"cat /a pids.events", b"ok\n| max 1"),
    (b"cat /a pids.events.local", b"ok\n| max 1"),
    (b"cat /a pids.peak", b"ok\n| 1"),
    (b"cat / \xff", b"refused file"),
    (b"write /a pids.events 1", b"refused direction"),
    (b"cat /a cgroup.kill", b"refused direction"),
    (b"write / pids.max 1", b"refused nofile"),
    (b"cat / cgroup.events", b"refused nofile"),
    (b"write /a pids.max 01", b"refused value"),
    (b"write /a cgroup.procs 0", b"refused value"),
    (b"write /a cgroup.procs 4194304", b"refused value"),
    (b"rmdir /a", b"refused hasprocesses"),
    (b"rmdir /", b"refused rootfixed"),
    (b"where 2", b"ok\n| 0::/a"),
    (b"where 7", b"refused noprocess 7"),
    (b"exit 7", b"refused noprocess 7"),
    (b"undo", b"ok\n| fork 2 3"),
    (b"undo", b"ok\n| write /a cgroup.procs 2"),
    (b"cat / cgroup.procs", b"ok\n| 1\n| 2"),
    (b"mkdir /a/b", b"ok"),
    (b"rmdir /a", b"refused haschildren"),
    (b"cat / cgroup.stat", b"ok\n| nr_descendants 2\n| nr_dying_descendants 0"),
    (b"write /a/b cgroup.procs 2", b"ok"),
    (b"write /a cgroup.max.depth 1", b"ok"),
    (b"mkdir /a/b/c", b"refused depth /a"),
    (b"write / cgroup.max.descendants 2", b"ok"),
    (b"mkdir /c", b"refused descendants /"),
    (b"write /a cgroup.kill 1", b"ok"),
    (b"cat /a cgroup.events", b"ok\n| populated 0\n| frozen 0"),
    (b"undo", b"ok\n| write /a cgroup.kill 1"),
    (b"cat /a cgroup.events", b"ok\n| populated 1\n| frozen 0"),
    (b"write /a pids.max 2", b"ok"),
    (b"fork 2 5", b"ok"),
    (b"fork 2 6", b"refused pidsmax /a"),
    (b"cat /a pids.current", b"ok\n| 2"),
    (b"exit 5", b"ok"),
    (b"exit 2", b"ok"),
    (b"cat /a pids.current", b"ok\n| 0"),
    (b"cat / pids.max", b"refused nofile"),
    (b"cat /a cgroup.max.descendants", b"ok\n| max"),
)


class Answers(unittest.TestCase):
    def test_the_model_answers_as_the_page_of_formats_says(self):
        trace = b"".join(line + b"\n" for line, _ in ANSWERED)
        wanted = [answer for _, answer in ANSWERED if answer is not None]
        found = model.answers(trace)
        self.assertEqual(found, [b"%d %s\n" % (number, answer) for number, answer in enumerate(wanted, 1)])


class Words(unittest.TestCase):
    def test_arguments(self):
        self.assertEqual(models.arguments([]), (20.0, 0, ["c", "go", "python"]))
        self.assertEqual(models.arguments(["3", "c"]), (3.0, 0, ["c"]))
        self.assertEqual(models.arguments(["go", "0.5", "12"]), (0.5, 12, ["go"]))
        self.assertGreaterEqual(models.arguments(["1", "random"])[1], 0)
        for words in (["x"], ["1", "x"], ["1", "2", "3"], ["--help"]):
            self.assertIsNone(models.arguments(words))


if __name__ == "__main__":
    unittest.main()
