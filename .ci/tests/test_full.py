"""Tests of .ci/full in a made-up repository, with a function in place of the programs that it runs."""
import contextlib
import io
import os
import subprocess
import unittest
from unittest import mock

from scripts import MadeUp, load

full = load(".ci/full")
RUN = full.run


class Full(MadeUp):
    program = full
    places = {"PASSED": ".ci/state/full-passed", "STATE": "out/full"}

    def setUp(self):
        super().setUp()
        self.patch("run", self.runs)
        patcher = mock.patch.dict(os.environ, MINUTES="15")
        patcher.start()
        self.addCleanup(patcher.stop)
        self.calls, self.fails_at = [], None
        for name, text in {
            ".gitignore": "out/\n",
            "mount/a.c": "a\n",
            "bindings/c/b.c": "b\n",
            "bindings/go/c.go": "c\n",
            "evidence/model.py": "d\n",
            ".ci/state/full-passed": "",
        }.items():
            self.write(name, text)
        self.git("init", "--quiet")
        self.commit()

    def git(self, *words):
        who = ["-c", "user.name=A", "-c", "user.email=a@example.org"]
        return subprocess.run(["git", *who, *words], cwd=self.top, stdout=subprocess.PIPE, text=True, check=True).stdout

    def commit(self):
        self.git("add", "-A")
        self.git("commit", "--quiet", "--message", "a change")
        return self.git("rev-parse", "HEAD").strip()

    def runs(self, command, **_):
        self.calls.append(" ".join(command))
        return len(self.calls) != self.fails_at

    def noted(self):
        return {line.split()[0]: line.split()[1] for line in full.passed().values()}

    def test_how_a_program_is_run(self):
        """At the top, with these settings besides the caller's and without an input; it is said before, and its status counts."""
        said = io.StringIO()
        script = 'echo "$PWD $FUZZ_SECONDS $OTHER" >said; read it || echo nothing >>said'
        with contextlib.redirect_stdout(said), mock.patch.dict(os.environ, OTHER="mine"):
            got = [RUN(["sh", "-c", script], FUZZ_SECONDS="7"), RUN(["false"]), RUN(["sh", "-c", "exit 3"])]
        self.assertEqual((got, self.read("said")), ([True, False, False], f"{self.top} 7 mine\nnothing\n"))
        self.assertEqual(said.getvalue(), f"full: FUZZ_SECONDS=7 sh -c {script}\nfull: false\nfull: sh -c exit 3\n")

    def test_a_part_takes_ten_minutes_if_nothing_is_said(self):
        for text, minutes in (("", 10), ("7", 7)):
            with mock.patch.dict(os.environ, MINUTES=text):
                self.assertEqual(full.minutes(), minutes)

    def test_the_first_note_and_each_part(self):
        self.write(".ci/state/promised", "")
        os.remove(f"{self.top}/.ci/state/full-passed")
        self.commit()
        self.said("recipes", "edits", "mutants")
        self.assertEqual(self.calls, [".ci/recipes", ".ci/edits --full", ".ci/mutants"])
        head, *lines = self.read(".ci/state/full-passed").splitlines()
        self.assertTrue(head.startswith("# Written by .ci/full: "))
        self.assertEqual([line.split()[0] for line in lines], ["edits", "mutants", "recipes"])
        for words in ([], ["edits", "none"]):
            self.assertIn(".ci/full PART ..", self.said(*words, status=2))

    def test_a_step_with_changes_that_are_not_committed_does_not_count(self):
        self.write("mount/a.c", "changed\n")
        self.assertIn("fuzz passed, and is not noted", self.said("fuzz"))
        self.calls, self.fails_at = [], 2
        self.said("fuzz", status=1)
        self.git("checkout", "--", ".")
        self.calls, self.fails_at = [], None
        self.said("fuzz")
        self.assertEqual(len(self.calls), 3)

    def test_what_passed_is_noted_with_its_commit(self):
        first = self.commit_of("x")
        self.said("edits", "mutants")
        self.assertEqual(
            (self.calls, self.noted()), ([".ci/edits --full", ".ci/mutants"], {"edits": first, "mutants": first})
        )
        second = self.commit_of("y")
        self.said("mutants")
        self.assertEqual(self.noted(), {"edits": first, "mutants": second})

    def commit_of(self, text):
        self.write("file", text)
        return self.commit()

    def test_what_failed_is_not_noted(self):
        self.fails_at = 1
        self.assertIn("full: 1 parts passed; failed: edits", self.said("edits", "mutants", status=1))
        self.assertEqual(list(self.noted()), ["mutants"])

    def test_with_uncommitted_changes_nothing_is_noted(self):
        self.write("mount/a.c", "changed\n")
        self.assertIn("edits passed, and is not noted", self.said("edits"))
        self.assertEqual(self.noted(), {})

    def test_what_the_parts_themselves_write_is_no_change(self):
        for path in (".ci/state/edits-passed", ".ci/state/mutants-caught"):
            self.write(path, "as it was\n")
        self.commit()
        for path in (".ci/state/edits-passed", ".ci/state/mutants-caught"):
            self.write(path, "noted\n")
        self.said("edits", "mutants")
        self.assertEqual(list(self.noted()), ["edits", "mutants"])

    def test_a_commit_during_a_part_is_not_noted(self):
        def commits(_):
            self.commit_of("meanwhile")
            return True

        self.patch("run", commits)
        self.assertIn("edits passed, and is not noted", self.said("edits"))
        self.assertEqual(self.noted(), {})

    def test_a_part_that_was_stopped_continues(self):
        self.fails_at = 3
        self.said("soak", status=1)
        self.said("soak")
        self.assertEqual(len(self.calls), 4)
        self.assertEqual(list(self.noted()), ["soak"])
        self.said("soak")
        self.assertEqual(len(self.calls), 7)

    def test_how_long_a_part_took_is_noted_if_it_can_be_chosen(self):
        for minutes, runs in ("1", 1), ("5", 1), ("6", 2), ("60", 12):
            self.calls.clear()
            with mock.patch.dict(os.environ, MINUTES=minutes):
                self.said("fuzz", "edits")
            self.assertEqual(len(self.calls), runs + 1)
            noted = full.passed()
            self.assertEqual((noted["fuzz"].split()[3:], noted["edits"].split()[3:]), ([minutes, "minutes"], []))

    def test_each_step_takes_five_minutes(self):
        told = []
        self.patch("run", lambda command, **more: told.append((command, more)) or True)
        self.said("fuzz", "soak", "models")
        corpus = os.path.join(full.STATE, "corpus")
        each = [
            (["mount/fuzz/run"], {"FUZZ_SECONDS": "300", "FUZZ_CORPUS": corpus}),
            (["mount/test", "soak"], {"SOAK": "300"}),
            (["bindings/models", "300", "random"], {}),
        ]
        self.assertEqual(told, [step for step in each for _ in range(3)])
        self.assertTrue(os.path.isdir(corpus))

    def test_a_part_begins_anew_on_other_code_of_the_mount(self):
        self.fails_at = 3
        self.said("soak", status=1)
        self.commit_of("no code of the mount")
        self.write("bindings/c/b.c", "changed\n")
        self.commit()
        self.said("soak")
        self.assertEqual(len(self.calls), 3 + 3)

    def test_models_begin_anew_on_another_model_and_other_bindings(self):
        for path in "evidence/model.py", "bindings/go/c.go":
            self.calls.clear()
            self.fails_at = 2
            self.said("models", status=1)
            self.write("mount/a.c", f"changed before {path}\n")
            self.commit()
            self.said("models")
            self.assertEqual(self.calls, ["bindings/models 300 random"] * (2 + 2))
            self.calls.clear()
            self.said("models", status=1)
            self.write(path, "changed\n")
            self.commit()
            self.said("models")
            self.assertEqual(len(self.calls), 2 + 3)
            self.assertEqual(full.passed()["models"].split()[3:], ["15", "minutes"])

    def test_wrong_words(self):
        self.said(status=2)
        self.said("edits", "everything", status=2)


if __name__ == "__main__":
    unittest.main()
