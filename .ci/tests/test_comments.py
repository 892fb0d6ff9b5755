"""Tests of what .ci/documents looks for in comments, in edits, and in names that documents cite, on made-up repositories."""
import os
import sys
import unittest

sys.path.insert(0, os.path.join(os.path.dirname(os.path.realpath(__file__)), ".."))
from lookup.cited import faults_of_gone, faults_of_held  # noqa: E402
from lookup.clauses import Crates  # noqa: E402
from lookup.comments import faults_of_comments, faults_of_subjects  # noqa: E402
from lookup.unproved import faults_of_unproved, in_python, split  # noqa: E402

CRATES = "# Crates.\nlow: memchr\nhigh staticlib: low\n"
TEXTS = {
    "crates/low/specs/Sum.antt": "-- A sum.\nabbrev pub Adds : Type 0\nAdds = Few\n",
    "crates/low/src/lib.rt": "//! Sums.\n//!\n//! The definitions are in `specs/` (`Sum`).\n//!\n//! - `Sum`: sums.\n",
    "crates/low/src/sum.rt": "impl Sum {\n    fn add(self) {}\n}\n",
    "crates/high/src/lib.rt": "//! Uses `Sum` by `specs/Sum.antt`, and `low/src/sum.rt`.\n",
    "crates/low/must-fail/one.edit": "# breaks: Sum.Adds, Sum::add\nfile: src/sum.rt\nold: {}\nnew: {1}\n",
    "crates/low/must-fail-more.edits": "# Edits.\n\n== two\n# breaks: Sum::add\nfile: src/sum.rt\nold: {}\nnew: {2}\n",
}


class Comments(unittest.TestCase):
    def faults(self, path=None, text=""):
        texts = {**TEXTS, path: text} if path else TEXTS
        return [*faults_of_subjects(texts), *faults_of_comments(texts, CRATES)]

    def test_names_that_are_there(self):
        self.assertEqual(self.faults(), [])

    def test_a_file_that_is_not_there(self):
        path = "crates/high/src/lib.rt"
        self.assertEqual(self.faults(path, "// See `specs/Total.antt`.\n"), [f"{path}:1: there is no specs/Total.antt"])

    def test_a_file_of_a_crate_above(self):
        path = "crates/low/src/sum.rt"
        texts = {**TEXTS, "crates/high/specs/Top.antt": "Top\n"}
        texts[path] += "// See `specs/Top.antt`.\n"
        self.assertEqual(list(faults_of_comments(texts, CRATES)), [f"{path}:4: there is no specs/Top.antt"])

    def test_a_file_of_a_crate_two_below(self):
        listing = "low:\nmiddle: low\nhigh staticlib: middle\n"
        self.assertEqual(list(faults_of_comments(TEXTS, listing)), [])

    def test_a_crate_that_only_the_list_names(self):
        texts = {**TEXTS, "crates/low/src/sum.rt": "// As low_more has it.\n"}
        self.assertEqual(list(faults_of_comments(texts, CRATES)), ["crates/low/src/sum.rt:1: low_more is in no crate"])
        self.assertEqual(list(faults_of_comments(texts, CRATES + "low_more: low\n")), [])

    def test_a_file_of_another_crate_than_it_says(self):
        path = "crates/high/src/lib.rt"
        said = "// In `high/src/sum.rt`, and in `specs/Su`.\n"
        missing = [f"{path}:1: there is no {file}" for file in ("high/src/sum.rt", "specs/Su")]
        self.assertEqual(self.faults(path, said), missing)

    def test_a_name_in_parentheses_in_another_paragraph_is_no_file(self):
        path = "crates/low/src/lib.rt"
        self.assertEqual(self.faults(path, TEXTS[path] + "//!\n//! It adds (`Adds`).\n"), [])

    def test_a_name_above_the_first_comment_is_there(self):
        path = "crates/low/src/sum.rt"
        self.assertEqual(self.faults(path, "fn add() {}\nfn above_it() {}\n// As above_it has it.\n"), [])

    def test_an_item_that_only_a_comment_has(self):
        path = "crates/low/src/sum.rt"
        self.assertEqual(
            self.faults(path, TEXTS[path] + "// A `Total`.\n"), [f"{path}:4: Total of `Total` is in no crate"]
        )

    def test_a_crate_that_is_not_there(self):
        path = "crates/low/src/sum.rt"
        self.assertEqual(
            self.faults(path, TEXTS[path] + "// As in `low`.\n// As high_one, or `low_two`.\n")[0],
            f"{path}:5: high_one is in no crate",
        )
        self.assertEqual(
            self.faults(path, TEXTS[path] + "// As the proof_kit.\n"), [f"{path}:4: proof_kit is in no crate"]
        )

    def test_a_head_that_lists_another_file_than_there_is(self):
        path = "crates/low/src/lib.rt"
        one = ["crates/low/src/lib.rt: there is no specs/Adds.antt"]
        again = TEXTS[path] + "//!\n//! More of `specs/` follows.\n"
        self.assertEqual(self.faults(path, again.replace("- `Sum`", "- `Adds`")), one, "behind the first mention")
        self.assertEqual(self.faults(path, TEXTS[path].replace("- `Sum`", "- `Adds`")), one)
        self.assertEqual(self.faults(path, TEXTS[path].replace("(`Sum`)", "(`Adds`)")), one)

    def test_each_file_that_a_head_lists_is_there(self):
        path = "crates/low/src/lib.rt"
        head = "//! Sums, by `specs/`.\n//!\n//! - `Adds`, `Sum`, `Few` and `Total`: sums.\n"
        missing = [f"{path}: there is no specs/{name}.antt" for name in ("Adds", "Few", "Total")]
        found = self.faults(path, head + "//! - `Other` of `Another`: no list.\n")
        self.assertEqual([it for it in found if "there is no" in it], missing)

    def test_an_edit_without_a_name(self):
        path = "crates/low/must-fail/one.edit"
        self.assertEqual(self.faults(path, "file: src/sum.rt\n"), [f"{path}: no line `# breaks: NAME`"])
        for name in ("Sum.Few", "Total.Adds", "um.Adds", "Sum::take", "take"):
            with self.subTest(name):
                self.assertEqual(
                    self.faults(path, f"# breaks: {name}\n"), [f"{path}: breaks {name}, which is not there"]
                )

    def test_an_edit_of_the_second_set_without_a_name(self):
        """The line `# breaks:` of one is not that of another."""
        path = "crates/low/must-fail-more.edits"
        two = "\n== two\n# breaks: Sum.Few\nfile: src/sum.rt\n"
        for text, fault in (("file: src/sum.rt\n", "no line `# breaks: NAME`"), ("# breaks: take\n", "breaks take")):
            faults = self.faults(path, f"# Edits.\n\n== one\n{text}{two}")
            self.assertEqual(
                [fault.split(", which")[0] for fault in faults],
                [f"{path}: one: {fault}", f"{path}: two: breaks Sum.Few"],
            )

    def test_only_sources_have_comments_and_items(self):
        path = "crates/low_tests/data/sums.cases"
        self.assertEqual(self.faults(path, "# shows: Sum.Adds\n// As gone_word has it.\n"), [])
        texts = {**TEXTS, path: "# shows: Sum.Adds\nof_cases\n"}
        texts["crates/low/src/sum.rt"] += "// Not of_cases.\n"
        self.assertEqual([*faults_of_comments(texts, CRATES)], ["crates/low/src/sum.rt:4: of_cases is in no crate"])

    def test_cases_without_a_name(self):
        path = "crates/low_tests/data/sums.cases"
        self.assertEqual(self.faults(path, "# shows: Sum.Adds\n== a sum\n"), [])
        self.assertEqual(self.faults(path, "== a sum\n"), [f"{path}: no line `# shows: NAME`"])
        self.assertEqual(self.faults(path, "# shows: take\n"), [f"{path}: shows take, which is not there"])


class Unproved(unittest.TestCase):
    """Comments of each language that name a crate and a file of it, once as they are and once as they are not."""

    CODE = {
        "c/one.c": '/* %s */\nchar c[] = "// old_name";\n',
        "go/two.go": "// %s\npackage two\n",
        "three.mjs": "// %s\n",
        "four.rs": "// %s\n",
        "five.sh": "#!/bin/sh\n# %s\n",
        "six.py": "def six():  # %s\n    pass\n",
        "seven": '#!/usr/bin/env python3\n"""A script.\n\n%s\n"""\n',
    }

    def faults(self, said):
        texts = {"crates/low_one/specs/Sum.antt": "-- old_crate\nAdds = Few\n"}
        return [fault.split(": ") for fault in faults_of_unproved(texts | {p: t % said for p, t in self.CODE.items()})]

    def test_names_that_are_there(self):
        self.assertEqual(self.faults("As `low_one` has it in low_one/specs/Sum.antt, or specs/Sum.antt."), [])

    def test_names_that_are_only_in_comments(self):
        for said in ("As old_crate has it.", "It is in specs/Total.antt."):
            with self.subTest(said):
                self.assertEqual({at.split(":")[0] for at, _ in self.faults(said)}, set(self.CODE))

    def test_where_a_name_has_to_be(self):
        """In code of any kind, in a file that isn't a document, a mutant or an edit, or as the name of a file or a folder."""
        texts = {
            "crates/low_one/src/sum_file.rt": "fn of_code() {}\n    // of_rattle\n",
            "crates/low_one/must-fail/one_edit.edit": "old: of_edit\n",
            "crates/low_one/must-fail-more.edits": "\n== of_more_edits\nold: of_more_edits\n",
            "a_folder/a_page.md": "of_page\n",
            "a_folder/b.mutants": "old: of_mutant\n",
            "a_folder/c.txt": "of_text\n",
            "a_folder/d.png": "\0 of_picture\n",
            ".ci/tests/test_made_up.py": "of_test = 1\n",
            "e.py": "of_python = 1  # of_comment\n",
        }
        there = [
            "low_one",
            "sum_file",
            "of_code",
            "one_edit",
            "a_folder",
            "a_page",
            "of_text",
            "test_made_up",
            "of_python",
        ]
        nowhere = [
            "of_rattle",
            "of_edit",
            "of_more_edits",
            "of_page",
            "of_mutant",
            "of_picture",
            "of_test",
            "of_comment",
        ]
        said = f"# {' '.join([*there, 'io_uring_disabled', 'def of_example', *nowhere])} a-of_part b.of_part Of_word\n"
        found = [*faults_of_unproved({**texts, "f.py": f"\n{said}"})]
        wanted = [f"f.py:2: {name} is nowhere but in comments" for name in (*nowhere, "of_part")]
        self.assertEqual(sorted(found), sorted([*wanted, "e.py:1: of_comment is nowhere but in comments"]))

    def test_comments_and_the_rest_of_python(self):
        text = '#!/bin/python3\n"""of_module"""\nclass A:\n    """of_class"""\n\n    def f(self):  # of_line\n        """of_method\n'
        text += '        more."""\n        return "of_text"  # last'
        comments, rest = split(text, in_python(text))
        of_method = '"""of_method\n        more."""\n'
        wanted = [(2, '"""of_module"""\n'), (4, '"""of_class"""\n'), (6, "# of_line"), (7, of_method), (9, "# last")]
        self.assertEqual(comments, wanted)
        self.assertEqual(rest, '#!/bin/python3\nclass A:\n    \n    def f(self):  \n                return "of_text"  ')

    def test_comments_of_crates_are_looked_at_elsewhere(self):
        texts = {
            "crates/low_one/tool.py": "# As old_thing has it.\n",
            "crates/low_one/src/a.c": "// In specs/Old.antt.\n",
        }
        self.assertEqual([*faults_of_unproved(texts)], [])

    def test_a_name_in_a_string_is_no_comment(self):
        self.assertEqual(self.faults("As old_name has it."), [])


CITED = {
    "crates/low/specs/Sum.antt": "-- Sums.\nuse Rattle.std.specs.Prelude.{Few}\n\n-- it adds\nabbrev pub Adds : Type 0\nAdds = Few\n",
    "crates/low/src/sum.rt": "impl<A> Sum<A> {\n    /// Not Total.\n    pub fn add(self)\n        ensures kept { Adds }\n    {\n"
    "        body\n    }\n\n    pub fn take(self) {}\n\n    fn own(self) {}\n}\n",
    "crates/low_laws/src/sums.rt": "pub fn sums_add_up()\n    ensures { Adds }\n{}\n",
}


class Held(unittest.TestCase):
    def faults_of(self, line):
        crates = Crates(CITED, ["low", "low_laws"])
        return [fault.removeprefix("D:7: ") for fault in faults_of_held("D", [(7, line)], crates)]

    def test_what_is_there(self):
        for line in (
            "`Sum.Adds` in `Sum.antt`, by `Sum::add` (`kept`) and `sums::sums_add_up`",
            "`Sum::add` (`low`), `Sum::Variant`, `Other::add`, `Other.add`",
            "`Sum::add` (`kept` and `Adds`), `Sum::take` (`body`), which has no contract",
            "`Sum::own`, which is private",
        ):
            with self.subTest(line):
                self.assertEqual(self.faults_of(line), [])

    def test_what_is_not_there(self):
        for line, fault in (
            ("`Sum.Total`", "Sum defines no Total"),
            ("`Sum::count`", "Sum has no count"),
            ("`sums::sums_are_few`", "sums has no sums_are_few"),
            ("`Sum::add` (`kept`, `lost`)", "the contract of Sum::add has no lost"),
            ("`Sum::add` (`body`)", "the contract of Sum::add has no body"),
        ):
            with self.subTest(line):
                self.assertEqual(self.faults_of(line), [fault])


OTHERS = {
    "mount/src/tables.c": "static int find_row(int at)\n{\n\treturn old_row(at);\n}\n",
    "bindings/python/client.py": "class Client:\n    def read_all(self):\n        pass\n",
    "crates/low/proofs/first_steps/Answers.antt": "",
    "evidence/bench/plain/engine.rs": "fn count_rows() {}\n",
}


class Gone(unittest.TestCase):
    def faults_of(self, line):
        crates = Crates(CITED, ["low", "low_laws"])
        return [fault.removeprefix("D:7: ") for fault in faults_of_gone("D", [(7, line)], {**CITED, **OTHERS}, crates)]

    def test_what_is_there(self):
        for line in (
            "`sums_add_up`, `find_row`, `read_all`, `first_steps`, `low_laws`, `Sum.Adds`, `Client.read_all`",
            "other words: `gone`, `OLD_ROW`, `mk_..`, `old_row(1)`, count_rows, `Gone::name`, `low.Gone`, `sum.rt`",
        ):
            with self.subTest(line):
                self.assertEqual(self.faults_of(line), [])

    def test_what_is_gone(self):
        for name in ("old_row", "count_rows", "lost_step", "Sum.add", "Refusals.counted", "Table.find_row"):
            with self.subTest(name):
                self.assertEqual(self.faults_of(f"`find_row` and `{name}`"), [f"nothing defines {name}"])
        names = ("a_lost_step", "lost_step", "old_row", "the_lost_step")
        said = " ".join(f"`{name}`" for name in reversed(names))
        self.assertEqual(self.faults_of(said), [f"nothing defines {name}" for name in names], "in their order")


if __name__ == "__main__":
    unittest.main()
