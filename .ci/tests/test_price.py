"""Tests of .ci/price: which part a process of the prover works on, what its seconds are, and the table."""
import contextlib
import io
import os
import shutil
import subprocess
import sys
import tempfile
import time
import unittest
from unittest import mock

from scripts import MadeUp, load

price = load(".ci/price")
# A process that takes a second of processor time, and ends once the file is there that its last word names.
BUSY = "import os, sys, time\nwhile time.process_time() < 1: pass\nwhile not os.path.exists(sys.argv[-1]): time.sleep(0.01)"


class Price(MadeUp):
    program = price

    def setUp(self):
        self.top = tempfile.mkdtemp()
        self.addCleanup(shutil.rmtree, self.top)

    def test_the_part_that_a_process_works_on(self):
        clone, edit = "/tmp/price-x/clone/crates/a", "/tmp/rt-edit-1/crates/a"
        for words, folder, part in (
            (["rattle", "build", "--crate-name", "a"], clone, ("a", "proof")),
            (["rattle", "check", "--crate-name", "a", "--test"], clone, ("a", "tests")),
            (["rattle", "build", "--crate-name", "a", "--crate-checked"], clone, ("a", "built")),
            (["rattle", "check", "--crate-name", "a", "--test"], edit, ("a", "edit")),
            (["rattle", "check", "--crate-name", "a"], "/tmp/elsewhere", ("what must not compile", "proof")),
            (["rattle", "--version"], clone, price.OTHER),
        ):
            self.assertEqual(price.part_of(words, folder), part, words)

    def test_nothing_is_measured_without_a_clone(self):
        with contextlib.redirect_stderr(io.StringIO()):
            self.assertRaises(subprocess.CalledProcessError, price.clone, f"{self.top}/none", self.top)
        self.assertFalse(os.path.exists(f"{self.top}/clone"))

    def test_the_seconds_of_each_crate(self):
        parts = [
            (("low", "proof"), 10.0, 15.0, 4.0),
            (("high", "proof"), 11.0, 21.0, 20.0),
            (("low", "edit"), 30.0, 32.0, 1.0),
            (("low", "edit"), 32.0, 36.0, 3.0),
            (("low", "edit"), 36.0, 37.0, 0.0),
            (("low", "tests"), 40.0, 41.0, 2.0),
        ]
        rows = price.table_of(parts)
        low = {
            "proof": (4.0, 5.0, 1),
            "edits": (4.0, 7.0, 3),
            "first": (1.0, 2.0, 1),
            "others": (3.0, 5.0, 2),
            "tests": (2.0, 1.0, 1),
        }
        self.assertEqual(rows, {"low": low, "high": {"proof": (20.0, 10.0, 1)}})
        # one of the edits is the check without one; the first and the others are those of `edits`
        self.assertEqual(
            price.shown(rows).split("\n"),
            [
                "| Crate | proof | tests | edits | first | others | built | all |",
                "|---|---|---|---|---|---|---|---|",
                "| `high` | 20 (10) |  |  |  |  |  | 20 |",
                "| `low` | 4 (5) | 2 (1) | 2: 4 (7) | 1 (2) | 3 (5) |  | 10 |",
                "| all | 24 (15) | 2 (1) | 4 (7) | 1 (2) | 3 (5) | 0 (0) | 30 |",
            ],
        )

    def test_processes_of_the_prover_are_watched(self):
        """Each by its name; one that another of them started counts with that one."""
        folder = os.path.join(self.top, "clone", "crates", "a")
        os.makedirs(folder)
        prover = os.path.join(self.top, "rattle")
        os.symlink(sys.executable, prover)
        inner = f"import subprocess, sys; subprocess.run([{prover!r}, '-c', {BUSY!r}, 'below it', sys.argv[-1]])"
        gate = f'cd {folder}; {prover} -c "$1" --crate-name made_up_one {self.top}/one; '
        gate += f'{prover} -c "$2" --crate-name made_up_two --test {self.top}/two'
        processes, often = price.processes, {}

        def seen():
            """Each process ends once it was seen twice after its second, however seldom a busy machine lets this one look."""
            found = processes()
            for _, used, _, at_work, _ in found.values():
                last = at_work[-2:-1]
                if used >= 1 and last in ([f"{self.top}/one"], [f"{self.top}/two"]):
                    often[last[0]] = often.get(last[0], 0) + 1
                    if often[last[0]] == 2:
                        self.write(last[0], "")
            return found

        self.patch("processes", seen)
        words = ["bash", "-c", f"{gate}; echo 'an error' >&2; echo 'the last line'; exit 3", "gate", BUSY, inner]
        said = io.StringIO()
        with contextlib.redirect_stderr(said):
            status, lines, _, parts = price.watched(words, self.top, dict(os.environ))
        self.assertEqual(
            (status, lines, said.getvalue()), (3, ["an error", "the last line"], "an error\nthe last line\n")
        )
        # provers of other sessions on this machine are seen too
        ours = [it for it in parts if it[0][0].startswith("made_up")]
        self.assertEqual([part for part, *_ in ours], [("made_up_one", "proof"), ("made_up_two", "tests")])
        for _, began, ended, used in ours:
            self.assertLess(began, ended)
            self.assertTrue(1 <= used < 3, used)

    def test_a_process_keeps_its_part_and_the_most_seconds_that_were_seen(self):
        """When it ends it has no words any more, and no children whose seconds count."""
        at, words = "/tmp/price-x/clone/crates/a", ["rattle", "check", "--crate-name", "a"]
        below = (10, 3.0, 6, words, at)
        seen = iter(({10: (1, 2.0, 5, words, at), 11: below}, {10: (1, 2.5, 5, [""], at)}, {}))

        def processes():
            found = next(seen, None)
            if found is None:
                self.write("ended", "")
            return found or {}

        self.patch("processes", processes)
        waits = ["sh", "-c", f"while [ ! -e {self.top}/ended ]; do sleep 0.01; done"]
        with contextlib.redirect_stderr(io.StringIO()):
            *_, parts = price.watched(waits, self.top, dict(os.environ))
        self.assertEqual([(part, used) for part, _, _, used in parts], [(("a", "proof"), 5.0)])

    def test_what_is_run_and_what_is_said(self):
        """The clone of what is committed, with one job unless parts shall run in parallel."""
        ran = []

        def watched(command, folder, environment):
            self.assertTrue(os.path.isfile(f"{folder.split('/clone')[0]}/clone/committed"))
            ran.append((command, folder.split("/clone")[1], environment.get("RT_JOBS")))
            return 3, ["first", "2 passed, 1 failed"], 120.0, [(("low", "proof"), 0.0, 5.0, 4.0)]

        git = ["git", "-C", f"{self.top}/origin", "-c", "user.name=A", "-c", "user.email=a@example.org"]
        os.makedirs(f"{self.top}/origin/.ci")
        for name in ("committed", ".ci/price"):
            self.write(f"origin/{name}", "")
        for words in (["init", "--quiet"], ["add", "-A"], ["commit", "--quiet", "--message", "a"]):
            subprocess.run([*git, *words], check=True)
        self.write("origin/other", "")
        self.patch("__file__", f"{self.top}/origin/.ci/price")
        self.patch("watched", watched)
        self.patch("resource", mock.Mock(getrusage=lambda of: mock.Mock(ru_utime=150.0, ru_stime=30.0)))
        jobs = os.environ.get("RT_JOBS")
        for words, command, folder, number in (
            ([], [".ci/run"], "", "1"),
            (["--side"], [".ci/run"], "", jobs),
            (["--first-run"], ["rt", "run"], "/crates/cgreplay", jobs),
        ):
            lines = self.run_with(*words, status=3)
            self.assertEqual(ran.pop(), (command, folder, number), words)
            self.assertEqual(lines[0].split(",")[0], "Processor seconds of each part")
            self.assertEqual(lines[1:5], ["", *price.shown({"low": {"proof": (4.0, 5.0, 1)}}).split("\n")[:3]])
            count = len(os.sched_getaffinity(0))
            told = [f"{' '.join(command)}: 2 passed, 1 failed", f"2 minutes, 3 processor minutes, {count} processors"]
            self.assertEqual(lines[-2:], told)

    def test_what_is_known_of_a_process_of_the_prover(self):
        prover = os.path.join(self.top, "rattle")
        os.symlink(sys.executable, prover)
        ran = subprocess.Popen([prover, "-c", "input()", "a word"], cwd=self.top, stdin=subprocess.PIPE)
        try:
            end = time.monotonic() + 300
            # a child may have its words only after Popen returned
            while "a word" not in price.processes().get(ran.pid, [[]] * 4)[3] and time.monotonic() < end:
                time.sleep(0.01)
            parent, used, start, words, folder = price.processes()[ran.pid]
            with open(f"/proc/{ran.pid}/stat", encoding="utf-8") as it:
                fields = it.read().rpartition(")")[2].split()
        finally:
            ran.communicate(b"\n")
        self.assertEqual(
            (parent, words, folder), (os.getpid(), [prover, "-c", "input()", "a word", ""], os.path.realpath(self.top))
        )
        # the 22nd field of proc(5)
        self.assertEqual(start, int(fields[22 - 3]))
        self.assertTrue(0 <= used < 60)
        self.assertNotIn(os.getpid(), price.processes(), "this is no prover")

    def test_other_words_are_refused(self):
        for words in (["--slow"], ["--side", "--side"]):
            self.assertIn(".ci/price --side", self.said(*words, status=2))


if __name__ == "__main__":
    unittest.main()
