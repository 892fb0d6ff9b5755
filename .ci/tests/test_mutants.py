"""Tests of .ci/mutants in a made-up repository whose builder and tests are two lines of shell."""
import os
import pathlib
import shutil
import subprocess
import unittest
from unittest import mock

from scripts import TOP, MadeUp, load

mutants = load(".ci/mutants")

BUILD = "#!/bin/sh\n! grep -q broken mount/src/*.c\n"
# The test `one` looks at the first line, `none` runs nothing, `bad` always fails, `alone` fails if it sees the process whose
# word is in the file `sleeper`, and leaves a process behind, `fast` runs nothing unless it may end at its first failure, `link` looks at
# the first line by a link to its folder, `apt-N` passes if apt-get succeeds, `quiet` runs
# nothing unless the first line is right.
TEST = """#!/bin/sh
case $1 in
quiet) if grep -q 'first right' mount/src/a.c; then echo '1 passed, 0 failed'; else echo '0 passed, 0 failed'; fi ;;
apt-*) if apt-get install; then echo '1 passed, 0 failed'; else echo '0 passed, 1 failed'; fi ;;
fast) echo "${FAIL_FAST:-0} passed, 0 failed" ;;
link) if grep -q right mount/link/a.c && [ -L mount/link ]; then echo '1 passed, 0 failed'; else echo '0 passed, 1 failed'; fi ;;
alone) sleep "1000.$(cat pid)" &
  if grep -qsaF -f sleeper /proc/[0-9]*/cmdline; then echo '0 passed, 1 failed'; else echo '1 passed, 0 failed'; fi ;;
one) if grep -q 'first right' mount/src/a.c; then echo '1 passed, 0 failed'; else echo '0 passed, 1 failed'; exit 1; fi ;;
bad) echo '0 passed, 1 failed'; exit 1 ;;
hangs) grep -q 'first right' mount/src/a.c || sleep 600; echo '1 passed, 0 failed' ;;
built) if [ -e bindings/out/it ] && [ -e bindings/go/libmakhloeum.a ] && [ -e crates/low/out/it ] && [ "$(find crates -type f)" = crates/low/src/lib.rt ]; then echo '1 passed, 0 failed'; else echo '0 passed, 1 failed'; fi ;;
*) echo '0 passed, 0 failed' ;;
esac
"""


class Mutants(MadeUp):
    program = mutants
    places = {"CAUGHT": "caught"}

    def setUp(self):
        super().setUp()
        self.patch("FOLDERS", {"mount": ["mount/build"]})
        self.blocks = {}
        subprocess.run(["git", "init", "--quiet"], cwd=self.top, check=True)
        os.mkdir(f"{self.top}/crates")
        self.write("mount/src/a.c", "first right;\nsecond right;\n")
        self.write("mount/src/b.c", "third right;\n")
        self.write("mount/build", BUILD, 0o755)
        self.write("mount/test", TEST, 0o755)
        self.write("mount/tests/one.py", "a test\n")

    def mutant(self, name, old="first right;", new="first wrong;", test="one", file="mount/src/a.c"):
        self.block(file, name, f"old: {old}\nnew: {new}\ntest: {test}\n")

    def block(self, file, name, lines):
        """Adds a mutant to those of a source, or replaces it."""
        self.blocks.setdefault(file, {})[name] = f"\n== {name}\n{lines}"
        blocks = (text for _, text in sorted(self.blocks[file].items()))
        self.write(f"mount/mutants/{file.removeprefix('mount/src/')}.mutants", "".join([f"file: {file}\n", *blocks]))

    def due(self):
        return [line for line in self.run_with("--due") if line]

    def test_one_that_is_caught_is_noted_and_due_again_after_a_change(self):
        self.mutant("a")
        self.assertEqual(self.due(), ["mount/a"])
        self.assertEqual(self.run_with(), ["mutants: mount/a: caught by one", "1 passed, 0 failed"])
        self.assertEqual((self.due(), self.run_with()), ([], ["0 passed, 0 failed"]))
        for path in ("mount/src/a.c", "mount/tests/one.py"):
            with open(f"{self.top}/{path}", "a", encoding="utf-8") as it:
                it.write("more\n")
            self.assertEqual(self.due(), ["mount/a"])
            self.run_with()
        self.mutant("another", new="first other;")
        self.assertEqual(self.due(), ["mount/a", "mount/another"])

    def test_one_that_is_not_caught_keeps_its_file_due(self):
        self.mutant("a")
        self.mutant("missed", "second right;", "second wrong;")
        self.mutant("elsewhere", "third right;", "third wrong;", file="mount/src/b.c")
        said = self.run_with(status=1)
        self.assertIn("mutants: mount/missed: NOT CAUGHT by one", said)
        self.assertEqual(said[-1], "1 passed, 2 failed")
        self.assertEqual(self.due(), ["mount/a", "mount/elsewhere", "mount/missed"])

    def test_one_is_due_after_a_change_of_another_one_of_its_source_only(self):
        self.mutant("a")
        self.mutant("elsewhere", "third right;", "first", file="mount/src/b.c")
        self.write("caught", "")
        sums = {path: mutants.sum_of(path, it) for path, it in mutants.by_source(mutants.mutants()[0]).items()}
        self.mutant("another", new="first other;")
        now = {path: mutants.sum_of(path, it) for path, it in mutants.by_source(mutants.mutants()[0]).items()}
        self.assertNotEqual(now["mount/src/a.c"], sums["mount/src/a.c"])
        self.assertEqual(now["mount/src/b.c"], sums["mount/src/b.c"])

    def test_words_choose_mutants(self):
        self.mutant("a")
        self.mutant("b", new="first other;")
        self.mutant("elsewhere", "third right;", "third wrong;", file="mount/src/b.c")
        for word, count in (
            ("a", 1),
            ("mount/b", 1),
            ("mount/src/a.c", 2),
            ("mount/mutants/a.c.mutants", 2),
        ):
            self.assertEqual(self.run_with(word)[-1], f"{count} passed, 0 failed")
        self.assertEqual(self.run_with("a", "mount/b")[-1], "2 passed, 0 failed")
        self.assertNotIn("mutants: mount/a: caught by one", self.run_with("a", "nobody", status=2))

    def test_one_that_changes_two_files(self):
        lines = (
            "old: second right;\nnew: second wrong;\nfile: mount/src/b.c\nold: third right;\nnew: first\ntest: one\n"
        )
        self.block("mount/src/a.c", "both", lines)
        self.mutant("elsewhere", "third right;", "third wrong;", file="mount/src/b.c")
        self.run_with("--check")
        (both, elsewhere), _ = mutants.mutants()
        self.assertEqual(
            both.texts,
            {"mount/src/a.c": "first right;\nsecond wrong;\n", "mount/src/b.c": "first\n"},
        )
        self.assertEqual(
            mutants.by_source([both, elsewhere]), {"mount/src/a.c": [both], "mount/src/b.c": [both, elsewhere]}
        )

    def test_texts_are_taken_as_they_are(self):
        self.write("mount/src/a.c", "first right; \n\tsecond \\n right;\n")
        self.block(
            "mount/src/a.c",
            "a",
            "why: its blanks count\nold: first right; \nnew: \nold: \tsecond \\n right;\nnew:  x: \ntest: one\n",
        )
        self.assertEqual(mutants.mutants()[0][0].texts, {"mount/src/a.c": "\n x: \n"})
        self.run_with("--check")

    def test_a_test_is_found_by_its_file_its_function_or_its_program(self):
        self.write("mount/go/a_test.go", "package a\n\nfunc TestA(t *testing.T) {\n}\n")
        self.write("mount/tests/users.py", "a test\n")
        self.write("mount/test", TEST + 'try "several users" unshare python3 "$tests/users.py"\n', 0o755)
        found = mutants.Tests("mount")
        for test, file in (
            ("one", "mount/tests/one.py"),
            ("one::a", "mount/tests/one.py"),
            ("one of all", "mount/tests/one.py"),
            ("TestA", "mount/go/a_test.go"),
            ("several users", "mount/tests/users.py"),
        ):
            self.assertEqual(found.of(test), [file])
        self.assertEqual(found.of("two"), [])

    def test_the_form_of_the_files_is_checked(self):
        good = "file: mount/src/a.c\n\n== a\nold: first\nnew: x\ntest: one\n"
        place = "mount/mutants/a.c.mutants"
        self.write(place, good)
        self.assertEqual(self.run_with("--check"), [])
        second = "\n== b\nold: second\nnew: x\ntest: one\n"
        for text, fault in (
            (good.replace("test: one\n", ""), "mount/a: BAD MUTANT: it has no test"),
            (good.replace("test: one", "test: two"), "mount/a: BAD MUTANT: no file has the test two"),
            (good.replace("old: first\nnew: x\n", ""), "mount/a: BAD MUTANT: it has no pair of old and new text"),
            (good.replace("new: x\n", ""), "mount/a: BAD MUTANT: an old text has no new one after it"),
            (good.replace("old: first\n", ""), "mount/a: BAD MUTANT: a new text has no old one before it"),
            (good.replace("old: first", "old: "), "mount/a: BAD MUTANT: an old text is empty"),
            (good.replace("old: ", "old: first\nold: "), "mount/a: BAD MUTANT: an old text has no new one after it"),
            (good + "why: late\n", "mount/a: BAD MUTANT: it has a line after its test"),
            (
                good.replace("test:", "tset: x\ntest:"),
                "mount/a: BAD MUTANT: it has a line that is none of why, file, old, new and test: tset: x",
            ),
            (
                good.replace("== a", "== a-b"),
                "mount/a-b: BAD MUTANT: its name is not made of lower-case words and underscores",
            ),
            ("file: mount/src/a.c\n", f"{place}: it has no mutant"),
            (
                good.replace("src/a.c", "src/b.c").replace("first", "third"),
                f"{place}: the mutants of mount/src/b.c belong in mount/mutants/b.c.mutants",
            ),
            (good.replace("== a", "== c") + second, f"{place}: its mutants are not sorted by their names"),
            (good.removesuffix("\n") + second, f"{place}: its mutants are not separated by one blank line"),
            (good + "\n" + second, f"{place}: its mutants are not separated by one blank line"),
            (good + "\n", f"{place}: it does not end with one line feed"),
            (
                good.replace("\n\n", "\nword\n\n", 1),
                f"{place}: something is between its first line and its first mutant",
            ),
        ):
            with self.subTest(fault):
                self.write(place, text)
                self.assertIn(f"mutants: {fault}", self.run_with("--check", status=1))

    def test_a_name_is_given_once_in_a_folder(self):
        self.mutant("a")
        self.mutant("a", "third right;", "x", file="mount/src/b.c")
        self.assertEqual(
            self.run_with("--check", status=1),
            ["mutants: mount/mutants/b.c.mutants:3: a is in mount/mutants/a.c.mutants too"],
        )

    def test_a_fault_is_planted_once_for_a_test(self):
        self.mutant("a", "first", "x")
        self.mutant("b", "first", "x")
        self.assertEqual(self.run_with("--check", status=1), ["mutants: mount/b is the same as mount/a"])
        self.write("mount/tests/two.py", "a test\n")
        self.mutant("b", "first", "x", test="two")
        self.assertEqual(self.run_with("--check"), [])

    def test_a_source_elsewhere_has_its_path_from_the_top(self):
        self.write("mount/helper.c", "right\n")
        self.mutant("a", "right", "wrong", file="mount/helper.c")
        self.assertTrue(os.path.exists(f"{self.top}/mount/mutants/mount/helper.c.mutants"))
        self.assertEqual(self.run_with("--check"), [])

    def test_a_folder_without_mutants_and_another_file_among_them_are_refused(self):
        self.write("mount/mutants/a.mutant", "file: mount/src/a.c\nold: first\nnew: x\ntest: one\n")
        self.assertEqual(
            self.run_with("--check", status=1),
            [
                "mutants: mount/mutants/a.mutant: its name does not end in .mutants",
                "mutants: mount/mutants: it has no mutants",
            ],
        )

    def test_bad_ones_fail(self):
        self.mutant("stale", old="no such text")
        self.assertEqual(
            self.run_with("--check", status=1),
            ["mutants: mount/stale: BAD MUTANT: an old text is in mount/src/a.c 0 times, not once"],
        )
        self.mutant("stale", new="broken")
        said = self.run_with(status=1)
        self.assertEqual(
            (said[0].strip(), said[-1]), ("mutants: mount/stale: BAD MUTANT: it can't be built:", "0 passed, 1 failed")
        )

    def test_a_test_that_fails_without_a_mutant_or_runs_nothing_says_nothing(self):
        self.write("mount/tests/bad.py", "a test\n")
        self.write("mount/tests/none.py", "a test\n")
        self.mutant("a", test="bad")
        self.mutant("b", test="none")
        said = self.run_with(status=1)
        self.assertIn("mutants: mount/a: NOT TRIED: bad doesn't pass without it", said)
        self.assertIn("mutants: mount/b: NOT TRIED: none doesn't pass without it", said)

    @unittest.skipUnless(os.geteuid() == 0, "only the superuser may make a process namespace")
    def test_a_test_reaches_no_process_but_its_own_and_leaves_none(self):
        self.write("pid", str(os.getpid()))
        self.write("sleeper", f"2000.{os.getpid()}\n")
        self.write("mount/tests/alone.py", "a test\n")
        self.mutant("a", test="alone")
        # not by its number: the namespace of the test may have another process with it
        with subprocess.Popen(["sleep", f"2000.{os.getpid()}"]) as other:
            try:
                self.assertIn("mutants: mount/a: NOT CAUGHT by alone", self.run_with(status=1))
            finally:
                other.kill()
        sleeper = f"sleep\x001000.{os.getpid()}\x00".encode()
        left = [it for it in pathlib.Path("/proc").glob("[0-9]*/cmdline") if it.read_bytes() == sleeper]
        self.assertEqual(left, [])

    def test_one_that_lets_no_test_run_is_not_caught(self):
        self.write("mount/tests/quiet.py", "a test\n")
        self.mutant("a", test="quiet")
        said = self.run_with(status=1)
        self.assertIn("mutants: mount/a: NOT TRIED: quiet ran no test: 0 passed, 0 failed", said)
        self.assertEqual(said[-1], "0 passed, 1 failed")

    def test_an_old_text_is_in_its_file_once(self):
        for old, count in (("right;", 2), ("nothing", 0)):
            self.mutant("a", old, "wrong;")
            why = f"mutants: mount/a: BAD MUTANT: an old text is in mount/src/a.c {count} times, not once"
            self.assertEqual(self.run_with("--check", status=1), [why])
            self.assertEqual(self.run_with(status=1), [why, "0 passed, 1 failed"])

    @unittest.skipUnless(shutil.which("flock"), "flock is missing")
    def test_tests_install_packages_one_after_the_other(self):
        """apt-get fails if another one runs."""
        self.write("tools/apt-get", f"#!/bin/sh\nmkdir {self.top}/runs && sleep 0.3 && rmdir {self.top}/runs\n", 0o755)
        with mock.patch.dict(os.environ, PATH=f"{self.top}/tools:{os.environ['PATH']}", LANES="3"):
            for number in range(3):
                self.write(f"mount/tests/apt-{number}.py", "a test\n")
                self.mutant(f"a{number}", test=f"apt-{number}")
            said = self.run_with(status=1)
        self.assertEqual(
            sorted(said)[1:], [f"mutants: mount/a{number}: NOT CAUGHT by apt-{number}" for number in range(3)]
        )

    def test_a_test_may_end_at_its_first_failure(self):
        self.mutant("a", test="fast")
        self.write("mount/tests/fast.py", "a test\n")
        self.assertIn("mutants: mount/a: NOT CAUGHT by fast", self.run_with(status=1))

    def test_a_copy_has_links_to_folders(self):
        os.symlink("src", f"{self.top}/mount/link")
        self.write("mount/tests/link.py", "a test\n")
        self.write("mount/src/a.c", "right\n")
        self.mutant("a", "right", "wrong", test="link")
        self.assertEqual(self.run_with(), ["mutants: mount/a: caught by link", "1 passed, 0 failed"])

    def test_at_most_some_whole_files(self):
        self.mutant("a")
        self.mutant("a2", new="first other;")
        self.mutant("b", "third right;", "first", test="one", file="mount/src/b.c")
        self.assertEqual(
            self.run_with("--most", "2")[-2:], ["mutants: 1 more are due: .ci/full mutants", "2 passed, 0 failed"]
        )
        self.assertEqual(self.due(), ["mount/b"])
        self.assertEqual(self.run_with("--most", "0")[-1], "0 passed, 0 failed")

    def test_the_tree_stays_as_it_is(self):
        self.mutant("a")
        before = self.files()
        self.run_with("a")
        self.assertEqual(self.files(), before)

    def files(self):
        return {path: path.read_bytes() for path in pathlib.Path(self.top, "mount").rglob("*") if path.is_file()}

    def test_a_test_that_does_not_end_has_failed(self):
        self.patch("SECONDS", 3)
        self.write("mount/tests/hangs.py", "a test\n")
        self.mutant("a", test="hangs")
        self.assertEqual(self.run_with("a"), ["mutants: mount/a: caught by hangs", "1 passed, 0 failed"])

    def test_a_mutant_is_taken_back_before_the_next_one(self):
        self.mutant("a")
        self.mutant("b", "second right;", "second other;")
        self.mutant("c", "third right;", "third other;", file="mount/src/b.c")
        with mock.patch.dict(os.environ, LANES="1"):
            said = self.run_with(status=1)
        told = ["a: caught by one", "b: NOT CAUGHT by one", "c: NOT CAUGHT by one"]
        self.assertEqual(said, [*(f"mutants: mount/{it}" for it in told), "1 passed, 2 failed"])

    def test_a_test_has_what_was_built_and_the_crates(self):
        self.write(".gitignore", "out/\n*.a\n")
        self.write("bindings/go/a.go", "package a\n")
        for path in ("bindings/out/it", "bindings/go/libmakhloeum.a", "crates/low/out/it", "crates/low/src/lib.rt"):
            self.write(path, "")
        self.write("mount/tests/built.py", "")
        self.mutant("a", test="built")
        self.assertIn("mutants: mount/a: NOT CAUGHT by built", self.run_with(status=1))

    def test_it_says_that_its_output_is_full(self):
        for unbuffered in ("", "1"):
            words = dict(os.environ, PYTHONUNBUFFERED=unbuffered)
            with open("/dev/full", "wb") as full:
                ran = subprocess.run([f"{TOP}/.ci/mutants", "--due"], stdout=full, stderr=subprocess.PIPE, env=words)
            self.assertEqual((ran.returncode, ran.stderr), (1, b"mutants: write failed: No space left on device\n"))

    def test_wrong_words(self):
        for words in (["--no-such"], ["nobody"], ["--most"], ["--most", "x"], ["--check", "x"]):
            self.run_with(*words, status=2)


if __name__ == "__main__":
    unittest.main()
