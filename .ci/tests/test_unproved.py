"""Tests of .ci/unproved in a made-up repository, with a script in place of rt."""
import os
import subprocess
from unittest import main, mock

from scripts import MadeUp, load

unproved = load(".ci/unproved")
# It logs its crate and its words. In a crate, `fails` makes a test fail, `says` is the output of the program.
RT = """#!/bin/sh
echo "$(basename "$PWD") $*" >>%s/calls
cat >given
case $* in
*--test*) [ ! -e fails ] || { echo "a test fails"; exit 1; } ;;
*) cat says ;;
esac
"""
CRATES = "# A head: not a crate\nlow:\nmiddle with-words: low std\nhigh: middle\nbeside: std\nprogram: beside\n"
TEST = "#[test]\nfn a() {}\n"


class Unproved(MadeUp):
    program = unproved

    def setUp(self):
        super().setUp()
        self.write("tools/rt", RT % self.top, 0o755)
        patcher = mock.patch.dict(os.environ, PATH=f"{self.top}/tools:{os.environ['PATH']}")
        patcher.start()
        self.addCleanup(patcher.stop)
        self.write("crates.txt", CRATES)
        for name in ("low", "high", "beside"):
            self.write(f"crates/{name}/src/lib.rt", TEST)
        self.write("crates/middle/src/lib.rt", "fn without_a_test() {}\n")
        for name, text in {
            "src/main.rt": "fn main() {}\n",
            "stdin": "in\n",
            "stdout": "out\n",
            "says": "out\n",
        }.items():
            self.write(f"crates/program/{name}", text)
        self.write(".gitignore", "calls\ngiven\ntools/\n")
        self.git("init", "--quiet", "--initial-branch", "main")
        self.git("add", "-A")
        self.git("commit", "--quiet", "--message", "a")

    def git(self, *words):
        who = ["-c", "user.name=A", "-c", "user.email=a@example.org"]
        subprocess.run(["git", *who, *words], cwd=self.top, stdout=subprocess.DEVNULL, check=True)

    def tried(self, *words, status=0):
        """The calls of rt, sorted, and the lines that are printed."""
        lines = self.run_with(*words, status=status)
        calls = sorted(self.read("calls").splitlines()) if os.path.exists(f"{self.top}/calls") else []
        return calls, lines

    def test_the_highest_crates_begin_first(self):
        """They take longest."""
        with mock.patch.object(os, "sched_getaffinity", lambda _: {0}):
            self.tried("--crates")
        begun = [call.split()[0] for call in self.read("calls").splitlines()]
        self.assertEqual(begun, ["program", "beside", "high", "low"])

    def test_a_crate_that_changed_is_tried_with_those_above(self):
        self.write("crates/low/src/lib.rt", f"{TEST}// more\n")
        calls, lines = self.tried()
        self.assertEqual(calls, [f"{name} try --test --seconds 1800" for name in ("high", "low")])
        self.assertEqual(lines[-1], "2 passed, 0 failed")

    def test_a_test_may_be_in_any_source_of_its_crate(self):
        for name in ("low", "high", "beside"):
            self.write(f"crates/{name}/src/lib.rt", "mod more;\n")
        self.write("crates/low/src/more.rt", TEST)
        self.write("crates/high/src/more/deep.rt", TEST)
        self.write("crates/beside/src/notes.md", TEST)
        calls, lines = self.tried("--crates")
        self.assertEqual(
            calls,
            [*(f"{name} try --test --seconds 1800" for name in ("high", "low")), "program try --seconds 1800"],
        )
        self.assertEqual(lines[-1], "3 passed, 0 failed")

    def test_what_is_committed_counts_since_the_commit(self):
        self.git("checkout", "--quiet", "-b", "mine")
        self.write("crates/high/src/more.rt", "")
        self.git("add", "-A")
        self.git("commit", "--quiet", "--message", "b")
        self.assertEqual(self.tried()[0], ["high try --test --seconds 1800"], "since the main branch")
        os.remove(f"{self.top}/calls")
        self.assertEqual(self.tried("HEAD"), ([], [self.tried("HEAD")[1][0], "0 passed, 0 failed"]))

    def test_definitions_proofs_and_edits_change_no_test(self):
        for name in ("specs/a.antt", "proofs/a.antt", "must-fail-more.edits"):
            self.write(f"crates/low/{name}", "")
        self.assertEqual(self.tried()[0], [])
        self.write("crates/high/src/new.rt", "")
        self.assertEqual(self.tried()[0], ["high try --test --seconds 1800"], "a file that git doesn't have yet")

    def test_a_program_has_its_stored_run(self):
        self.write("crates/beside/src/lib.rt", "// no test any more\n")
        calls, lines = self.tried()
        self.assertEqual((calls, lines[-1]), (["program try --seconds 1800"], "1 passed, 0 failed"))
        self.assertEqual(self.read("crates/program/given"), "in\n")
        self.write("crates/program/args", "--one\ntwo words\n")
        self.write("crates/program/data/b", "")
        self.write("crates/program/data/a", "")
        os.remove(f"{self.top}/calls")
        self.assertEqual(
            self.tried()[0], ["program try --seconds 1800 --data a=data/a --data b=data/b -- --one two words"]
        )
        self.write("crates/program/says", "another\n")
        lines = self.tried(status=1)[1]
        self.assertEqual((lines[-1], "another" in lines), ("0 passed, 1 failed", True))

    def test_a_program_with_tests_has_its_stored_run_too(self):
        self.write("crates/program/src/more.rt", TEST)
        self.write("crates/program/says", "another\n")
        calls, lines = self.tried(status=1)
        self.assertEqual(calls, ["program try --seconds 1800", "program try --test --seconds 1800"])
        self.assertEqual((lines[-1], "another" in lines), ("0 passed, 1 failed", True))

    def test_a_change_of_a_stored_run_is_tried(self):
        self.write("crates/beside/src/lib.rt", "// no test any more\n")
        self.git("add", "-A")
        self.git("commit", "--quiet", "--message", "b")
        self.assertEqual(self.tried()[0], [])
        self.write("crates/program/says", "another\n")
        for name in ("stdout", "args", "data/a", "stdin", "status"):
            self.write(f"crates/program/{name}", "another\n")
            self.assertEqual([call.split()[0] for call in self.tried()[0]], ["program"], name)
            self.git("add", "-A")
            self.git("commit", "--quiet", "--message", name)
            os.remove(f"{self.top}/calls")

    def test_a_program_that_fails_or_does_not_end_is_told(self):
        self.write("tools/rt", '#!/bin/sh\necho "out"\necho why >&2\nexit 1\n', 0o755)
        lines = self.tried("--crates", status=1)[1]
        self.assertEqual((lines[-1], lines.count("why")), ("0 passed, 4 failed", 4))
        self.patch("SECONDS", 1)
        self.write("tools/rt", "#!/bin/sh\nexec sleep 100\n", 0o755)
        lines = self.tried("--crates", status=1)[1]
        self.assertEqual((lines[-1], lines.count("no end within 1 seconds")), ("0 passed, 4 failed", 4))

    def test_it_compares_with_the_main_branch_of_the_origin_if_there_is_one(self):
        self.git("branch", "mine")
        self.write("crates/low/src/lib.rt", f"{TEST}// more\n")
        self.git("add", "-A")
        self.git("commit", "--quiet", "--message", "b")
        self.git("update-ref", "refs/remotes/origin/main", "mine")
        self.assertEqual([call.split()[0] for call in self.tried()[0]], ["high", "low"])
        self.git("update-ref", "refs/remotes/origin/main", "main")
        os.remove(f"{self.top}/calls")
        self.assertEqual(self.tried()[0], [])

    def test_each_crate_is_tried_if_asked(self):
        calls, lines = self.tried("--crates")
        self.assertEqual(
            calls,
            [f"{name} try --test --seconds 1800" for name in ("beside", "high", "low")]
            + ["program try --seconds 1800"],
        )
        self.assertEqual(lines[-1], "4 passed, 0 failed")

    def test_all_is_what_needs_no_proof(self):
        with mock.patch.object(os, "execv", side_effect=SystemExit) as called:
            self.assertRaises(SystemExit, unproved.main, ["--all", "--install"])
        called.assert_called_once_with(f"{self.top}/.ci/all-unproved", ["all-unproved", "--install"])

    def test_a_test_that_fails_is_told(self):
        self.write("crates/low/fails", "")
        self.write("crates/low/src/lib.rt", f"{TEST}// more\n")
        lines = self.tried(status=1)[1]
        self.assertEqual((lines[-1], "a test fails" in lines), ("1 passed, 1 failed", True))
        self.assertTrue([line for line in lines if line.startswith("unproved: low: FAILED, ")], lines)

    def test_other_words_are_refused(self):
        self.assertEqual(self.said("no-such-commit", status=2), "unproved: no-such-commit is no commit\n")
        for words in (["main", "main"], ["--help"], ["--crates", "main"]):
            self.assertIn(".ci/unproved [COMMIT | ", self.said(*words, status=2))


if __name__ == "__main__":
    main()
