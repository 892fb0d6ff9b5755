"""Tests of .ci/edits on a made-up repository, with a function in place of `rt`."""
import glob
import os
import subprocess
import unittest
from unittest import mock

from scripts import MadeUp, load

edits = load(".ci/edits")
from lookup.edits import HEAD  # noqa: E402

lines_of, version = edits.lines_of, edits.version


class Edits(MadeUp):
    """low has no crate below it; snzi_tree is above low; sessions is above snzi_tree, and so above low."""

    program = edits
    places = {"PASSED": "passed", "BEGUN": "out/begun"}

    def setUp(self):
        super().setUp()
        self.patch("version", lambda: self.kit)
        self.patch("lines_of", lambda command: self.rt(command).stdout.splitlines(True))
        self.kit, self.calls, self.takes_names = "kit-1", [], True
        self.second = {}
        self.write(
            "crates.txt",
            "# Crates.\nlow: smallvec\nsnzi_tree: low\nsessions may_wait=2: snzi_tree std_io\ndocs_only: low\n",
        )
        for crate in ("low", "snzi_tree", "sessions", "docs_only"):
            self.write(f"crates/{crate}/src/lib.rt", f"fn {crate}() {{ right }}\n")
            self.write(f"crates/{crate}/specs/Lib.antt", "spec\n")
            self.write(f"crates/{crate}/proofs/Lib.antt", "proof\n")
        self.edit("low", "must-fail-more", "a")
        self.edit("snzi_tree", "must-fail", "b")
        self.edit("snzi_tree", "must-fail-more", "c")
        self.edit("sessions", "must-fail-more", "d")

    def rt(self, command, **_):
        """In place of `rt ci` and `rt must-fail`: it refuses each edit whose new text has the word wrong, and says so as they do."""
        self.calls.append(" ".join(command))
        if command[1] == "ci" and command[2:] and not self.takes_names:
            return subprocess.CompletedProcess(command, 2, "usage: rt new FOLDER\n       rt check\n")
        lines = []
        for crate in command[2:] or sorted(os.listdir(f"{self.top}/crates")):
            for edit in sorted(glob.glob(f"{self.top}/crates/{crate}/must-fail/*.edit")):
                good = "wrong" in self.read(edit)
                label = f"rt: must-fail {crate}/{os.path.basename(edit)}: "
                lines.append(
                    label
                    + (
                        "refused, as it must be: 3:4: error"
                        if good
                        else "NOT REFUSED: the crate is still proved with this edit"
                    )
                )
        return subprocess.CompletedProcess(command, 0, "\n".join([*lines, "1 passed, 0 failed\n"]))

    def edit(self, crate, folder, name, old="right", new="wrong"):
        """Writes an edit of the first or the second set."""
        text = f"file: src/lib.rt\nold: {old}\nnew: {new}\n"
        if folder == "must-fail":
            self.write(f"crates/{crate}/must-fail/{name}.edit", text)
        else:
            self.more(crate, name, text)

    def more(self, crate, name, text):
        """Writes an edit of the second set, in the place of one of that name; without a text it is removed."""
        of_crate = self.second.setdefault(crate, {})
        of_crate[name] = text
        blocks = (f"\n== {name}\n{text}" for name, text in sorted(of_crate.items()) if text)
        self.write(f"crates/{crate}/must-fail-more.edits", "".join((f"{HEAD}\n", *blocks)))

    def names(self, *words):
        return [line for line in self.run_with(*words) if line]

    def land(self, status=0, meanwhile=lambda: None):
        """What .ci/run does: lays what is due, lets `rt ci` try it, and stores what passed."""
        self.run_with("--lay")
        self.write("log", self.rt(["rt", "ci"]).stdout)
        meanwhile()
        self.run_with("--take-back")
        return self.run_with("--note", f"{self.top}/log", status=status)

    def change(self, path):
        with open(os.path.join(self.top, path), "a", encoding="utf-8") as it:
            it.write("more\n")

    def test_all_are_due_at_first_and_none_once_they_passed(self):
        self.assertEqual(self.names("--due"), ["low", "snzi_tree", "sessions"])
        self.assertEqual(self.names("--due-below"), [])
        self.assertIn("edits: 4 refused", self.run_with())
        self.assertEqual(self.names("--due") + self.names("--due-below"), [])

    def test_a_changed_crate_is_due_itself_and_those_above_it_only_below(self):
        self.run_with()
        for part in ("src/lib.rt", "specs/Lib.antt"):
            self.change(f"crates/low/{part}")
            self.assertEqual(self.names("--due"), ["low"])
            self.assertEqual(self.names("--due-below"), ["snzi_tree", "sessions"])
            self.run_with()
        self.change("crates/snzi_tree/specs/Lib.antt")
        self.assertEqual((self.names("--due"), self.names("--due-below")), (["snzi_tree"], ["sessions"]))

    def test_a_proof_below_makes_nothing_above_due(self):
        self.run_with()
        self.change("crates/low/proofs/Lib.antt")
        self.assertEqual((self.names("--due"), self.names("--due-below")), (["low"], []))

    def test_a_changed_edit_is_due_and_a_moved_one_is_not(self):
        self.run_with()
        self.more("snzi_tree", "b", self.read("crates/snzi_tree/must-fail/b.edit"))
        os.remove(f"{self.top}/crates/snzi_tree/must-fail/b.edit")
        self.assertEqual(self.names("--due"), [])
        self.edit("sessions", "must-fail-more", "d", new="also wrong")
        self.assertEqual(self.names("--due"), ["sessions"])

    def laid(self):
        self.run_with("--lay")
        return sorted(
            path[len(f"{self.top}/crates/") :] for path in glob.glob(f"{self.top}/crates/*/must-fail/second-set-*")
        )

    def test_a_new_edit_is_tried_alone(self):
        self.land()
        self.edit("low", "must-fail-more", "new")
        self.assertEqual(self.laid(), ["low/must-fail/second-set-new.edit"])
        said = self.land()
        self.assertIn("edits of low: 1 of 1 refused", said)
        self.assertEqual(self.names("--due") + self.names("--due-below"), [])
        self.change("crates/low/src/lib.rt")
        self.assertEqual(self.laid(), ["low/must-fail/second-set-a.edit", "low/must-fail/second-set-new.edit"])

    def test_a_new_edit_of_a_crate_that_is_due_below_leaves_it_due(self):
        self.land()
        self.change("crates/low/src/lib.rt")
        self.edit("sessions", "must-fail-more", "new")
        self.land()
        self.assertEqual((self.names("--due"), self.names("--due-below")), ([], ["snzi_tree", "sessions"]))

    def test_a_comment_in_an_edit_makes_nothing_due(self):
        self.land()
        self.more("low", "a", "# breaks: a clause\n" + self.second["low"]["a"])
        self.assertEqual(self.names("--due"), [])

    def test_a_comment_in_a_source_makes_nothing_due(self):
        self.land()
        self.write("crates/low/src/lib.rt", "//! Low.\n\nfn low() { right }\n    // The end.\n")
        self.write("crates/low/specs/Lib.antt", "-- Definitions.\nspec\n")
        self.assertEqual((self.names("--due"), self.names("--due-below")), ([], []))
        self.write("crates/low/src/lib.rt", "//! Low.\nfn low() { right; // The end.\n}\n")
        self.assertEqual(self.names("--due"), ["low"])

    def test_a_removed_edit_is_no_longer_noted(self):
        self.edit("low", "must-fail-more", "old")
        self.land()
        self.assertIn("low/old.edit", self.read("passed"))
        self.more("low", "old", None)
        self.land()
        self.assertNotIn("low/old.edit", self.read("passed"))

    def test_another_kit_makes_all_due_below(self):
        self.run_with()
        self.kit = "kit-2"
        self.assertEqual((self.names("--due"), self.names("--due-below")), ([], ["low", "snzi_tree", "sessions"]))

    def test_a_landing_tries_what_changed_itself_and_leaves_the_rest_due(self):
        self.land()
        self.assertEqual(self.names("--due") + self.names("--due-below"), [])
        self.change("crates/low/src/lib.rt")
        said = self.land()
        self.assertIn("edits of low: 1 of 1 refused", said)
        self.assertIn("edits of snzi_tree: 1 of 1 refused", said)
        self.assertIn("edits of snzi_tree, sessions are due, since something below changed: .ci/full edits", said)
        self.assertEqual((self.names("--due"), self.names("--due-below")), ([], ["snzi_tree", "sessions"]))

    def test_full_tries_what_is_due_for_either_reason_and_nothing_else(self):
        self.land()
        self.change("crates/snzi_tree/src/lib.rt")
        self.calls.clear()
        self.assertIn("edits: 3 refused", self.run_with("--full"))
        self.assertEqual(self.calls, ["rt ci snzi_tree sessions"])
        self.assertEqual(self.names("--due") + self.names("--due-below"), [])
        self.calls.clear()
        self.assertEqual(self.run_with("--full"), ["edits: none is due"])
        self.assertEqual(self.calls, [])

    def test_crates_that_are_named_are_tried_and_no_others(self):
        said = self.run_with("low", "sessions")
        self.assertEqual(self.calls, ["rt must-fail low sessions"])
        self.assertIn("edits of low: 1 of 1 refused", said)
        self.assertEqual(self.names("--due"), ["snzi_tree"])

    def test_what_is_laid_is_counted_and_named(self):
        self.assertEqual(
            self.run_with("--lay"),
            ["edits: 1 in the first set; 3 of the second set are due, of low, snzi_tree, sessions"],
        )
        self.run_with()
        self.assertEqual(self.run_with("--lay"), ["edits: 1 in the first set; 0 of the second set are due"])

    def test_full_proves_all_with_a_kit_whose_rt_ci_takes_no_names(self):
        self.takes_names = False
        self.land()
        self.change("crates/snzi_tree/src/lib.rt")
        self.calls.clear()
        self.assertIn("edits: 3 refused", self.run_with("--full"))
        self.assertEqual(self.calls, ["rt ci snzi_tree sessions", "rt ci"])
        self.assertEqual(self.names("--due") + self.names("--due-below"), [])

    def test_a_change_during_the_run_stays_due(self):
        self.land(meanwhile=lambda: self.change("crates/low/src/lib.rt"))
        self.assertEqual(self.names("--due"), ["low"])

    def test_an_edit_that_is_not_refused_fails_and_its_crate_stays_due(self):
        self.edit("low", "must-fail-more", "harmless", new="the same")
        said = self.land(status=1)
        self.assertIn("edits: low/harmless.edit was NOT REFUSED, or not tried", said)
        self.assertEqual(self.names("--due"), ["low"])
        self.assertIn("edits: 4 refused; not all of low", self.run_with(status=1))
        self.assertEqual(self.names("--due"), ["low"])
        self.assertIn("edits: 1 refused; not all of low", self.run_with("--full", status=1))

    def test_a_new_edit_that_is_not_refused_is_not_noted_with_its_crate(self):
        self.land()
        self.edit("low", "must-fail-more", "harmless", new="the same")
        for _ in range(2):
            self.assertIn("edits: low/harmless.edit was NOT REFUSED, or not tried", self.land(status=1))
            self.assertEqual(self.names("--due"), ["low"])

    def test_a_run_that_is_stopped_has_noted_the_crates_that_ended(self):
        def stopped(command):
            lines = self.rt(command).stdout.splitlines(True)
            yield from (line for line in lines if " low/" in line or " snzi_tree/" in line)
            raise KeyboardInterrupt

        self.patch("lines_of", stopped)
        self.assertRaises(KeyboardInterrupt, edits.main, ["--full"])
        self.assertEqual(self.names("--due") + self.names("--due-below"), ["sessions"])

    def test_an_edit_without_a_file_or_an_old_text_fails(self):
        for text in ("old: right\nnew: wrong\n", "file: src/lib.rt\nnew: wrong\n"):
            self.more("low", "e", text)
            why = "edits: low/e.edit can't be applied: a new: line before file: and old:"
            self.assertEqual(self.run_with("--check", status=1), [why])
        for text, why in (
            ("file: src/lib.rt\n", "no pair of old: and new:"),
            ("file: src/none.rt \nold: right\nnew: wrong\n", "there is no src/none.rt"),
            ("file: src/gone.rt\nold: right\nnew: wrong\n", "there is no src/gone.rt"),
            ("file: src/lib.rt\nold: right\nnew: a\nnew: b\n", "a new: line before file: and old:"),
        ):
            self.more("low", "e", text)
            self.assertEqual(self.run_with("--check", status=1), [f"edits: low/e.edit can't be applied: {why}"])

    def test_an_edit_is_laid_as_it_is_in_the_second_set(self):
        text = "# breaks: One.two\nfile: src/lib.rt\nold: right\nnew:  wrong: == \n"
        self.more("low", "b", text)
        self.run_with("--lay")
        self.assertEqual(self.read("crates/low/must-fail/second-set-b.edit"), text)

    def test_a_second_set_in_another_form_fails(self):
        place, block = "crates/low/must-fail-more.edits", "\n== {}\nfile: src/lib.rt\nold: right\nnew: wrong\n"
        a, b = block.format("a"), block.format("b")
        sorted_names = "its edits are not sorted by their names, each of which is there once"
        blank_line = "there is a blank line in an edit, or not one before its name"
        for text, fault in (
            (f"# Edits.\n{a}", f"its first line is not: {HEAD}"),
            (f"{HEAD}\n", "it has no edit"),
            (f"{HEAD}\n# more\n{a}", "something is between its first line and its first edit"),
            *(
                (f"{HEAD}\n{block.format(name)}", f"the name {name} is not made of lower-case words and underscores")
                for name in ("A", "a-b", "a_", "a b")
            ),
            (f"{HEAD}\n{b}{a}", sorted_names),
            (f"{HEAD}\n{a}{a}", sorted_names),
            (f"{HEAD}\n{a}{b[1:]}", blank_line),
            (f"{HEAD}\n{a}\n", blank_line),
            (f"{HEAD}\n{a[:-1]}", "it does not end with a line feed"),
        ):
            self.write(place, text)
            self.assertEqual(self.run_with("--check", status=1), [f"edits: {place}: {fault}"])
        self.write(place, f"{HEAD}\n{a}{b}")
        self.assertEqual(self.run_with("--check"), [])

    def test_a_folder_in_the_place_of_a_second_set_fails(self):
        self.write("crates/low/must-fail-more/new.edit", "file: src/lib.rt\nold: right\nnew: wrong\n")
        said = "edits: crates/low/must-fail-more/ is not read: write its edits into crates/low/must-fail-more.edits"
        self.assertEqual(self.run_with("--check", status=1), [said])

    def test_an_edit_of_both_sets_fails(self):
        self.edit("snzi_tree", "must-fail", "c")
        self.assertEqual(self.run_with("--check", status=1), ["edits: snzi_tree/c.edit is in both sets"])

    def test_each_line_of_an_edit_that_rt_reads_makes_it_due(self):
        self.write("crates/low/src/two.rt", "fn two() { right }\n")
        self.run_with("low")
        for path, old, new in (
            ("src/two.rt", "right", "wrong"),
            ("src/two.rt", "{ right", "wrong"),
            ("src/two.rt", "{ right", "wrong too"),
        ):
            self.more("low", "a", f"file: {path}\nold: {old}\nnew: {new}\n")
            self.assertEqual(self.names("--due")[:1], ["low"], (path, old, new))
            self.run_with("low")
            self.assertNotIn("low", self.names("--due"))

    def test_a_sum_is_that_of_names_and_texts_in_any_order(self):
        self.write("a", "one\n")
        self.write("b", "two\n")
        a, b = f"{self.top}/a", f"{self.top}/b"
        whole = edits.sum_of({"x": a, "y": b})
        self.assertEqual(edits.sum_of({"y": b, "x": a}), whole)
        for other in ({"x": b, "y": a}, {"x": a}, {"x": a, "z": b}):
            self.assertNotEqual(edits.sum_of(other), whole)

    def test_the_kit_is_asked_once_for_its_version(self):
        self.patch("version", version)
        self.addCleanup(version.__dict__.pop, "known", None)
        self.write("tools/rt", f'#!/bin/sh\necho "$*" >>{self.top}/asked\necho kit-3\n', 0o755)
        with mock.patch.dict(os.environ, PATH=f"{self.top}/tools:{os.environ['PATH']}"):
            self.assertEqual([version(), version()], ["kit-3\n"] * 2)
            self.assertEqual(self.read("asked"), "version\n")
            version.__dict__.pop("known")
            self.write("tools/rt", "#!/bin/sh\nexit 1\n", 0o755)
            with self.assertRaises(SystemExit) as no:
                version()
        self.assertTrue(str(no.exception).startswith("edits: rt version: "))
        with mock.patch.dict(os.environ, PATH=f"{self.top}/none"), self.assertRaises(SystemExit) as no:
            version()
        self.assertTrue(str(no.exception).startswith("edits: rt version: "), "there is no kit")

    def test_a_command_runs_at_the_top_and_its_errors_are_read_too(self):
        said = [*lines_of(["sh", "-c", "pwd; echo why >&2"])]
        self.assertEqual(said, [f"{os.path.realpath(self.top)}\n", "why\n"])

    def test_an_edit_whose_old_text_is_gone_fails(self):
        self.edit("sessions", "must-fail-more", "stale", old="no such text")
        why = "edits: sessions/stale.edit can't be applied: an old: text is in src/lib.rt 0 times, not once"
        for words in (["--check"], ["--lay"], ["--full"], ["sessions"]):
            self.assertEqual(self.run_with(*words, status=1), [why])

    def test_what_a_killed_gate_laid_is_laid_no_more(self):
        self.write("crates/low/must-fail/second-set-old.edit", "file: src/lib.rt\nold: right\nnew: wrong\n")
        self.run_with("--lay")
        self.assertFalse(os.path.exists(f"{self.top}/crates/low/must-fail/second-set-old.edit"))

    def test_what_the_prover_says_is_shown_and_what_is_stored_says_by_whom(self):
        lines = self.run_with("--full")
        self.assertTrue(
            [line for line in lines if line.startswith("rt: must-fail sessions/second-set-d.edit: ")], lines
        )
        self.assertTrue(self.read("passed").startswith("# Written by .ci/edits: "))

    def test_what_is_below_a_crate(self):
        """What each of its libraries uses too, lowest first."""
        self.write("crates.txt", "# A head\na:\nb: std\nc: a\nd: b\ne with-words: c d\nf: e\n")
        for crate, wanted in (("a", ""), ("c", "a"), ("e", "abcd"), ("f", "abcde")):
            self.assertEqual(edits.below(crate), [*wanted], crate)

    def test_an_edit_whose_old_text_is_there_twice_fails(self):
        self.write("crates/low/src/lib.rt", "right, and right\n")
        self.more("low", "e", "file: src/lib.rt\nold: right\nnew: wrong\n")
        why = "edits: low/e.edit can't be applied: an old: text is in src/lib.rt 2 times, not once"
        self.assertIn(why, self.run_with("--check", status=1))

    def test_only_the_first_line_says_that_no_names_are_taken(self):
        said = ["rt: low\n", "usage: of a test\n", "rt: high\n"]
        self.patch("lines_of", lambda command: iter(said))
        self.assertEqual([*edits.lines_of_rt(["rt", "ci"], ["low"])], said)

    def test_an_edit_may_change_what_it_wrote(self):
        """One blank after `new:` is not of the text, as `rt` reads it."""
        for new, old in (
            ("new: wrong", "{ wrong }"),
            ("new:wrong", "{ wrong }"),
            ("new:  wrong", "{  wrong }"),
            ("new:", "{  }"),
        ):
            self.more("low", "e", f"file: src/lib.rt\nold: right\n{new}\nold: {old}\nnew: more wrong\n")
            self.assertEqual(self.run_with("--check"), [], new)

    def test_an_edit_that_the_kit_calls_bad_is_not_noted(self):
        self.run_with("--lay")
        self.write("log", "rt: must-fail low/second-set-a.edit: BAD EDIT: the prover cannot read the edited text\n")
        self.run_with("--take-back")
        self.run_with("--note", f"{self.top}/log", status=1)
        self.assertEqual(self.names("--due"), ["low", "snzi_tree", "sessions"])

    def test_a_missing_edit_of_the_first_set_fails_also_if_its_crate_is_not_due(self):
        self.land()
        self.run_with("--lay")
        self.write("log", "")
        self.run_with("--take-back")
        self.assertIn(
            "edits: snzi_tree/b.edit was NOT REFUSED, or not tried",
            self.run_with("--note", f"{self.top}/log", status=1),
        )

    def test_the_bounds_of_the_first_set(self):
        self.edit("docs_only", "must-fail", "e")
        self.assertIn("docs_only has a first set", self.run_with("--check", status=1)[0])
        os.remove(f"{self.top}/crates/docs_only/must-fail/e.edit")
        for number in range(8):
            self.edit("sessions", "must-fail", f"n{number}")
        self.run_with("--check")
        self.edit("sessions", "must-fail", "n8")
        self.assertIn("sessions has 9 edits in must-fail/, more than 8", self.run_with("--check", status=1)[0])

    def test_nothing_that_was_laid_is_left(self):
        before = sorted(os.walk(f"{self.top}/crates"))
        self.run_with("--lay")
        self.assertTrue(os.path.exists(f"{self.top}/crates/low/must-fail/second-set-a.edit"))
        self.run_with("--take-back")
        self.assertEqual(sorted(os.walk(f"{self.top}/crates")), before)

    def test_nothing_is_left_if_the_kit_is_interrupted(self):
        def interrupted(command):
            self.assertTrue(os.path.exists(f"{self.top}/crates/low/must-fail/second-set-a.edit"))
            raise KeyboardInterrupt

        before = sorted(os.walk(f"{self.top}/crates"))
        self.patch("lines_of", interrupted)
        self.assertRaises(KeyboardInterrupt, edits.main, ["low"])
        self.assertEqual(sorted(os.walk(f"{self.top}/crates")), before)

    def test_wrong_words(self):
        for words in (["--no-such"], ["no_such_crate"], ["docs_only"], ["--note"], ["low", "--due"]):
            self.run_with(*words, status=2)


if __name__ == "__main__":
    unittest.main()
