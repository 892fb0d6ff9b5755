"""Tests of .ci/parts and .ci/installed/checks: what a part or a check that failed counts as, whatever it said, and what is said of it."""
import os
import re
import shutil
import stat
import subprocess
import tempfile
import unittest

TOP = os.path.dirname(os.path.dirname(os.path.dirname(os.path.realpath(__file__))))
GATE = """set -u
work=$1
. "$2/.ci/parts"
trap stop_parts EXIT
passes() { echo "more"; echo "3 passed, 0 failed"; }
fails() { echo "2 passed, 1 failed"; return 1; }
fails_without_counts() { echo "it can't begin"; return 1; }
fails_with_no_test() { echo "0 passed, 0 failed"; return 1; }
fails_after_its_counts() { echo "4 passed, 0 failed"; return 7; }
is_killed() { kill -KILL "$BASHPID"; }
says_nothing() { :; }
skips() { echo "skips: skipped, it is missing"; echo "0 passed, 0 failed"; }
says_why() { echo "why: a file is missing"; seq 2000; echo "of a check: FAILED"; echo "because: no room"; seq 2000; return 1; }
says_why_first() { echo "why: another check: FAILED"; says_why; }
says_why_last() { seq 2000; echo "its last words"; return 1; }
passes_after_others() { echo "1 passed, 0 failed"; echo "2 passed, 0 failed"; }
says_errors() { echo "an error" >&2; return 1; }
says_much() { yes "long: FAILED $(printf '%%0900d' 0)" | head -n 300; return 1; }
%s
say_end
"""
CHECKS = """set -u
work=$1 name_of_checks=made-up
. "$2/.ci/installed/checks"
%s
end_checks
"""


class Parts(unittest.TestCase):
    def gate(self, *parts):
        """The status of a gate with these parts, and its lines."""
        lines = "\n".join(f'part "{it}" {it}' for it in parts)
        return self.played(f"{lines}\nend_parts")[:2]

    def played(self, lines, **environment):
        """The status and the lines of a gate of these lines, and the folder that it worked in."""
        work = tempfile.mkdtemp()
        self.addCleanup(shutil.rmtree, work)
        ran = subprocess.run(
            ["bash", "-c", GATE % lines, "gate", work, TOP],
            env=dict(os.environ, **environment),
            stdin=subprocess.DEVNULL,
            stdout=subprocess.PIPE,
            stderr=subprocess.STDOUT,
            text=True,
            timeout=600,
            umask=0o077,
            check=False,
        )
        return ran.returncode, ran.stdout.rstrip("\n").split("\n"), work

    def ends(self, parts, status, failures, counts):
        got, lines = self.gate(*parts)
        self.assertEqual((got, lines[-1]), (status, counts), lines)
        named = [line for line in lines if line.startswith("what failed: ")]
        self.assertEqual(named, [f"what failed: {failures}"] if failures else [])
        return lines

    def test_all_that_a_gate_says(self):
        head, end = "the time of each part, in minutes:", "nothing was skipped"
        self.assertEqual(self.gate(), (0, [head, end, "0 passed, 0 failed"]))
        status, lines = self.gate("passes")
        lines[4] = re.sub(r"^   0:\d\d", "TIME", lines[4])
        counts = "3 passed, 0 failed"
        self.assertEqual((status, lines), (0, ["== passes", "more", counts, head, "TIME  passes", end, counts]))

    def test_what_passes_is_added_up(self):
        self.ends(["passes", "passes", "says_nothing"], 0, "", "6 passed, 0 failed")
        self.ends(["passes_after_others"], 0, "", "2 passed, 0 failed")

    def test_one_part_can_be_waited_for_while_others_run(self):
        """The slow part ends only once the file is there, which is made after the wait for the other one."""
        _, lines, _ = self.played(
            """slow() { for _ in {1..100}; do [ ! -e "$work/go" ] || break; sleep 0.05; done; passes; }
part slow slow
part passes passes
end_parts passes
echo waited
touch "$work/go"
end_parts"""
        )
        self.assertEqual([line for line in lines if line[:2] in ("==", "wa")], ["== passes", "waited", "== slow"])
        self.assertEqual(lines[-1], "6 passed, 0 failed")

    def test_what_a_part_says_follows_its_name(self):
        lines = self.ends(["says_errors"], 1, "says_errors", "0 passed, 1 failed")
        self.assertEqual(lines[:2], ["== says_errors", "an error"])

    def test_a_part_is_a_command_with_its_words(self):
        status, lines, _ = self.played(
            """part "some words" printf '%s\\n' 'a b' c\nend_parts\npart "no input" cat\nend_parts"""
        )
        self.assertEqual((status, lines[:4]), (0, ["== some words", "a b", "c", "== no input"]))

    def test_a_command_does_not_ignore_the_signals_of_a_keyboard(self):
        for name, wanted in (("INT", 130), ("TERM", 143), ("QUIT", 1)):
            lines = f"""part "it is sent one" sh -c 'ulimit -c 0; kill -{name} $$; echo it goes on'\nend_parts"""
            status, said, _ = self.played(lines)
            self.assertEqual((status, "it goes on" in said), (wanted, False), said)
            self.assertEqual("it is sent one: ended by a signal, and so ends all" in said, wanted != 1, said)

    def test_a_part_is_ended_with_its_gate(self):
        """The gate waits for it, so that it leaves nothing."""
        ends = "sleep 0.5; echo ended >>$1/log; exit"
        part = f"""part "waits" bash -c 'trap "{ends}" TERM; echo began >>$1/log; while :; do sleep 0.01; done' part "$work" """
        wait = 'until [ -e "$work/log" ]; do sleep 0.01; done\nexit 5'
        status, _, work = self.played(f"{part}\n{wait}")
        with open(f"{work}/log", encoding="ascii") as it:
            self.assertEqual((status, it.read()), (5, "began\nended\n"))

    def test_what_a_function_runs_is_ended_with_its_gate(self):
        """The gate waits for it too, and nothing else of the function runs."""
        ends = "sleep 0.5; echo ended >>$1/log; exit"
        runs = f"""bash -c 'trap "{ends}" TERM; echo began >>$1/log; while :; do sleep 0.01; done' part "$work" """
        wait = 'until [ -e "$work/log" ]; do sleep 0.01; done\nexit 5'
        _, _, work = self.played(f"runs() {{ {runs}; echo went on >>$work/log; }}\npart waits runs\n{wait}")
        with open(f"{work}/log", encoding="ascii") as it:
            self.assertEqual(it.read(), "began\nended\n")

    def test_one_part_at_a_time_installs_packages(self):
        with tempfile.TemporaryDirectory() as tools:
            at = f"{tools}/apt-get"
            with open(at, "w", encoding="ascii") as it:
                it.write(f"#!/bin/sh\nmkdir {tools}/busy || exit 100\nsleep 0.2\nrmdir {tools}/busy\necho $0: $#: $*\n")
            os.chmod(at, 0o755)
            parts = "\n".join(f'part "{it}" apt-get install "{it} it"' for it in "abc")
            status, lines, work = self.played(f"{parts}\nend_parts", PATH=f"{tools}:{os.environ['PATH']}")
        self.assertEqual(status, 0, lines)
        for path in (work, f"{work}/bin", f"{work}/bin/apt-get"):
            self.assertEqual(stat.S_IMODE(os.stat(path).st_mode), 0o755, "others may call it")
        self.assertEqual(
            sorted(line for line in lines if line.startswith(at)), [f"{at}: 2: install {it} it" for it in "abc"]
        )

    def test_nobody_waits_without_apt_or_flock(self):
        with tempfile.TemporaryDirectory() as tools:
            for name in "awk bash cat chmod env flock grep mkdir mkfifo sed sh tail".split():
                os.symlink(shutil.which(name), f"{tools}/{name}")
            none = self.played('part "none" sh -c "! command -v apt-get"\nend_parts', PATH=tools)[:2]
            os.unlink(f"{tools}/flock")
            with open(f"{tools}/apt-get", "w", encoding="ascii") as it:
                it.write("#!/bin/sh\necho called $*\n")
            os.chmod(it.name, 0o755)
            called = self.played('part "a" apt-get update\nend_parts', PATH=tools)[:2]
        self.assertEqual((none[0], none[1][:2]), (0, ["== none", "the time of each part, in minutes:"]))
        self.assertEqual((called[0], called[1][:2]), (0, ["== a", "called update"]))

    def test_what_failed_is_added_up_and_named(self):
        self.ends(["fails"], 1, "fails", "2 passed, 1 failed")

    def test_a_part_that_fails_counts_also_if_it_says_that_none_failed(self):
        for part, counts in (
            ("fails_without_counts", "0 passed, 1 failed"),
            ("fails_with_no_test", "0 passed, 1 failed"),
            ("fails_after_its_counts", "4 passed, 1 failed"),
            ("is_killed", "0 passed, 1 failed"),
        ):
            lines = self.ends([part], 1, part, counts)
            self.assertTrue(any(line.endswith(f"{part}, which failed") for line in lines), lines)

    def test_a_part_that_fails_among_others_that_pass(self):
        self.ends(["passes", "fails_with_no_test"], 1, "fails_with_no_test", "3 passed, 1 failed")

    def told(self, *parts):
        """What the last 8,000 characters of a gate with these parts have."""
        return "\n".join(self.gate(*parts)[1])[-8000:]

    def test_the_end_says_what_a_part_said_of_its_failures(self):
        told = self.told("says_why_first", "says_much", "says_why_last", "passes")
        for words in ("why: another check: FAILED", "of a check: FAILED\n", "because: no room\n", "its last words\n"):
            self.assertIn(words, told)
        self.assertIn("said by says_why_last:\n", told)
        much = re.search("said by says_much:\n(.*?)\n(said by|what failed)", told, re.S)[1]
        self.assertLessEqual(len(much), 1500, "it leaves room for the others")
        # in the order of the parts' ends, and before the names and the counts
        self.assertLess(told.index("because: no room"), told.index("what failed: "))
        self.assertEqual(told[-18:], "3 passed, 3 failed")
        self.assertNotIn("said by passes", told)

    def test_what_is_skipped_is_named(self):
        lines = self.ends(["skips", "passes"], 0, "", "3 passed, 0 failed")
        at = lines.index("skipped on this machine:")
        self.assertEqual(lines[at + 1], "  skips: skipped, it is missing")
        self.assertIn("nothing was skipped", self.ends(["passes"], 0, "", "3 passed, 0 failed"))


class Checks(unittest.TestCase):
    def played(self, script):
        """The status and the lines of a script with these checks."""
        with tempfile.TemporaryDirectory() as work:
            ran = subprocess.run(
                ["bash", "-c", CHECKS % script, "script", work, TOP],
                stdin=subprocess.DEVNULL,
                stdout=subprocess.PIPE,
                stderr=subprocess.STDOUT,
                text=True,
                timeout=600,
                check=False,
            )
        return ran.returncode, ran.stdout.rstrip("\n").split("\n")

    def test_what_passes_says_nothing(self):
        script = 'echo said >"$work/said"\ncheck one\ntrue\ncheck two'
        self.assertEqual(self.played(script), (0, ["2 passed, 0 failed"]))

    def test_what_fails_is_named_with_its_last_lines(self):
        script = 'true\ncheck one\nseq 100 >"$work/said"\nfalse\ncheck two\n(exit 7)\ncheck three\ntrue\ncheck four'
        told = ["made-up: two: FAILED", *map(str, range(93, 101)), "made-up: three: FAILED", "2 passed, 2 failed"]
        self.assertEqual(self.played(script), (1, told))

    def test_what_an_earlier_check_said_is_not_told(self):
        script = 'echo earlier >"$work/said"\ncheck one\nfalse\ncheck two'
        self.assertEqual(self.played(script), (1, ["made-up: two: FAILED", "1 passed, 1 failed"]))

    def test_no_name_of_a_check_runs_a_command(self):
        """It would be the last command, whose result the check counts."""
        self.assertEqual(self.played('false\ncheck "one $(true)"'), (0, ["1 passed, 0 failed"]))
        for script in ("run", "packages", "reproducible", "version"):
            with open(f"{TOP}/.ci/installed/{script}", encoding="utf-8") as it:
                names = [line.split("check ", 1)[1] for line in it if line.lstrip().startswith("check ")]
            self.assertGreater(len(names), 0, script)
            self.assertEqual([name for name in names if "$(" in name or "`" in name], [], script)

    def test_another_text_than_the_wanted_one_fails(self):
        script = 'echo a >"$work/wanted"\necho a >"$work/said"\nsame one "$work/wanted"\necho b >"$work/said"\nsame two "$work/wanted"'
        told = ["1c1", "< a", "---", "> b", "made-up: two: FAILED", "b", "1 passed, 1 failed"]
        self.assertEqual(self.played(script), (1, told))

    def test_silence_is_that_nothing_was_said(self):
        script = ': >"$work/said"\nsilence\ncheck one\necho >"$work/said"\nsilence\ncheck two'
        self.assertEqual(self.played(script), (1, ["made-up: two: FAILED", "", "1 passed, 1 failed"]))


if __name__ == "__main__":
    unittest.main()
