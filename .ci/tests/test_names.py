"""Tests of what ./where knows of a name and of a number (constants, the table of words, where a name begins and ends in a line), and of
its lists at the bounds of a line, of a screen and of a short list."""
import os
import sys
import unittest

TOP = os.path.dirname(os.path.dirname(os.path.dirname(os.path.realpath(__file__))))
sys.dont_write_bytecode = True
sys.path.insert(0, os.path.join(TOP, ".ci"))
from lookup import names, numbers  # noqa: E402
from lookup.screen import FEW, ROOM, by_folder, filled, fitting, of_numbers, only_names  # noqa: E402


class Constants(unittest.TestCase):
    TEXTS = {
        "a.rt": "pub const SLOTS: usize = 1024;\nconst ROWS: u16 = SLOTS as u16;\nconst NEAR: u64 = 1023;\n",
        "a.rs": "static MOST: u64 = 1_024u64;\n",
        "a.h": "#define GROUPS 0x400 /* all */\nenum { FIRST, SECOND = 1023, THIRD, /* x */ FOURTH = THIRD };\n",
        "a.c": "static const int shifted = 1 << 10;\n\nenum {\n\tHALF = 512,\n\tWHOLE = 2 * HALF,\n};\n",
        "a.go": "const slots, other = 1024, 3\nconst (\n\tOne = Code(1)\n\tFromC Code = C.GROUPS // a comment\n)\n",
        "a.py": "A, B = 1024, 5\nclass C:\n    ROOM: int = 4 * 256  # enough\nname = 1024\nROOM_2 = 1024\n",
        "a.mjs": "export const WIDTH = 1024, HEIGHT = 3;\n",
        "a.sh": "MOST=1024\n",
        "script": "#!/usr/bin/env bash\nROOM=1024\n",
        "other": "#!/usr/bin/env python3\nROOM = 1024\n",
        "crates/x/specs/A.antt": "SLOTS = 1024\nabbrev pub slots_max : ℕ\nslots_max = 1024\nunfoldable pub WIDTH = 1024\nparts 3 = 1024\nmore = 1024 + n\n",
    }

    def test_each_language_names_its_owners(self):
        found = [(path, line, said) for path, line, said in numbers.owners(1024, self.TEXTS)]
        self.assertEqual(
            found,
            [
                *(("a.rt", 1, "SLOTS = 1024"), ("a.rt", 2, "ROWS = SLOTS as u16"), ("a.rs", 1, "MOST = 1_024u64")),
                *(("a.h", 1, "GROUPS = 0x400"), ("a.h", 2, "THIRD = 1024"), ("a.h", 2, "FOURTH = THIRD")),
                *(("a.c", 1, "shifted = 1 << 10"), ("a.c", 5, "WHOLE = 2 * HALF")),
                *(("a.go", 4, "FromC = C.GROUPS"), ("a.go", 1, "slots = 1024")),
                *(("a.py", 3, "ROOM = 4 * 256"), ("a.py", 5, "ROOM_2 = 1024"), ("a.py", 1, "A = 1024")),
                ("a.mjs", 1, "WIDTH = 1024"),
                *(("a.sh", 1, "MOST = 1024"), ("script", 2, "ROOM = 1024"), ("other", 2, "ROOM = 1024")),
                *(("crates/x/specs/A.antt", 1, "SLOTS = 1024"), ("crates/x/specs/A.antt", 3, "slots_max = 1024")),
                ("crates/x/specs/A.antt", 4, "WIDTH = 1024"),
            ],
        )

    def owners(self, value, **texts):
        """The constants of that value in files of Python with these names and texts."""
        return [(path[0], said) for path, _, said in numbers.owners(value, {f"{it}.py": texts[it] for it in texts})]

    def test_a_name_is_first_that_of_its_own_file(self):
        texts = {"a": "A = 1\n", "b": "A = 2\nB = A\n"}
        self.assertEqual(self.owners(1, **texts), [("a", "A = 1")])
        self.assertEqual(self.owners(2, **texts), [("b", "A = 2"), ("b", "B = A")])

    def test_a_name_may_be_known_later(self):
        texts = {"a": "A = B\n", "b": "B = C\n", "c": "C = 7\n"}
        self.assertEqual(self.owners(7, **texts), [("a", "A = B"), ("b", "B = C"), ("c", "C = 7")])

    def test_each_constant_of_a_line_of_go_has_its_own_value(self):
        """Also with a semicolon below, by which the page's lists of constants end."""
        text = "const slots = 1024\n\tconst groups, processes = slots, 100_000\n\tfor i := 0; i < 9; i++ {\n\t}\n"
        for value, said in (
            (1024, [(1, "slots = 1024"), (2, "groups = slots")]),
            (100_000, [(2, "processes = 100_000")]),
        ):
            self.assertEqual([it[1:] for it in numbers.owners(value, {"a.go": text})], said)

    def test_each_constant_of_a_line_of_python_has_its_own_value(self):
        text = "WIDTH, LABEL, NUMBERS_SHOWN, FEW = 150, 12, 4, 40\n"
        for value, said in ((150, "WIDTH = 150"), (12, "LABEL = 12"), (4, "NUMBERS_SHOWN = 4"), (40, "FEW = 40")):
            self.assertEqual(self.owners(value, a=text), [("a", said)])

    def test_what_is_not_known_is_no_number(self):
        self.assertEqual(self.owners(0, a="A = OTHER + 1\n"), [])
        self.assertEqual(self.owners(1024, a="A, B = call(X, 1024, Y), 3\n"), [])

    def test_what_can_be_calculated(self):
        text = "A = 1025 - 1\nB = 0 | 1024\nC = 0 + (512 << 1)\nD = 2**10\nE = names.A\nF = 1024.0\nG = '1024'\nH = 1024 +\n"
        calculated = [("a", f"{it}") for it in ("A = 1025 - 1", "B = 0 | 1024", "C = 0 + (512 << 1)", "E = names.A")]
        self.assertEqual(self.owners(1024, a=text), calculated)
        self.assertEqual(self.owners(1 << 127, b="A = 1 << 127\n"), [("b", "A = 1 << 127")])
        self.assertEqual(self.owners(1 << 128, b="A = 1 << 128\n"), [])
        self.assertEqual(self.owners(0, b="A = 1 << -1\nB = C + 0\n"), [])
        text = "#define A 1024UL\n#define B 0x400u\n#define C 1024x\n#define D (uint32_t) 1024\n"
        found = [said for _, _, said in numbers.owners(1024, {"a.h": text})]
        self.assertEqual(found, ["A = 1024UL", "B = 0x400u"])

    def test_where_a_constant_is_one(self):
        """Each enumerator of a long list has its line; a proof, a text and a comment of another script have no constant."""
        lines = "".join(f"\t{name},\n" for name in "ABCDEFGH")
        found = [*numbers.owners(1024, {"a.c": f"enum {{\n{lines}\tLAST = 1024,\n}};\n"})]
        self.assertEqual(found, [("a.c", 10, "LAST = 1024")])
        self.assertEqual([*numbers.owners(7, {"a.c": f"enum {{\n{lines}}};\n"})], [("a.c", 9, "H = 7")])
        texts = {
            "crates/x/proofs/A.antt": "SLOTS = 1024\n",
            "LICENSE": "ROOM=1024\n",
            "a.sh": "readonly A=1024\ndeclare -r B=1024\n  local C=1024\nexport D=1024\nE=10240\n",
            "script": "#!/bin/sh\nROOM=1024 # python\n",
        }
        found = [*(("a.sh", at, f"{name} = 1024") for at, name in enumerate("ABC", 1)), ("script", 2, "ROOM = 1024")]
        self.assertEqual([*numbers.owners(1024, texts)], found)

    def test_a_comment_in_an_enumeration_is_no_enumerator(self):
        for comment in ("// one, two", "/* one, two */", "/* one,\n\ttwo */"):
            text = f"enum {{\n\tA, {comment}\n\tB = A + 7, {comment}\n\tC,\n}};\n"
            self.assertEqual([said for _, _, said in numbers.owners(8, {"a.c": text})], ["C = 8"], comment)

    def test_the_first_enumerator_is_zero(self):
        self.assertEqual([*numbers.owners(0, self.TEXTS)], [("a.h", 2, "FIRST = 0")])

    def test_numbers_as_they_are_asked_for(self):
        for text in ("1024", "1,024", "1_024", "0x400"):
            self.assertEqual(numbers.value_of(text), 1024)
        for text in ("0xabc", "0XABC", "0xAbC", "2748", "2,748"):
            self.assertEqual(numbers.value_of(text), 2748, text)
        for text in ("1024k", "mkdir", "1.5", "-1", "010"):
            self.assertIsNone(numbers.value_of(text), text)


class Table(unittest.TestCase):
    ROWS = (
        ("file", "pids.max", "no", "yes", "number", "-", "text"),
        ("file", "cgroup.kill", "yes", "no", "-", "-", "-"),
        ("refusal", "2", "NoGroup", "MK_NO_GROUP", "1 refused nogroup /a", "ENOENT", "no group", "a meaning"),
        ("path", "4", "EmptyName", "MK_EMPTY_NAME", "of the name", "EINVAL", "a name is empty", "an empty name"),
        ("status", "3", "MK_TOO_SMALL", "ERANGE", "too small", "the buffer is too small"),
        ("status", "0", "MK_DONE", "-", "done", "answered"),
        ("number", "SLOTS", "1024", "groups"),
        ("number", "LEAVES", "8", "leaves"),
        ("number", "HALF", "512", "half"),
        ("command", "mkdir /a", "PATH", "makes a group"),
    )
    TEXTS = {
        names.TABLE: "# a comment\n" + "".join("\t".join(row) + "\n" for row in ROWS),
        names.FILES: 'File::Limit => Row::new(b"pids.max"),\nFile::Kill => {\n    Row::new(\n        b"cgroup.kill"),\n',
        names.MEANINGS: "refusal_of (model.NoGroup p) = refused.NoGroup p\n",
    }

    def test_the_names_of_one_thing_and_what_it_is(self):
        for name, others, said in (
            ("pids.max", ["Limit"], "file: not on the root, read, written: number; text"),
            ("cgroup.kill", ["Kill"], "file: on the root, not read, not written"),
            (
                "NoGroup",
                ["MK_NO_GROUP", "nogroup"],
                "code 2: NoGroup, MK_NO_GROUP, `refused nogroup /a`, ENOENT: a meaning",
            ),
            (
                "nogroup",
                ["MK_NO_GROUP", "NoGroup"],
                "code 2: NoGroup, MK_NO_GROUP, `refused nogroup /a`, ENOENT: a meaning",
            ),
            ("ENOENT", [], "code 2: NoGroup, MK_NO_GROUP, `refused nogroup /a`, ENOENT: a meaning"),
            (
                "EmptyName",
                ["MK_EMPTY_NAME"],
                "fault 4 of a path: EmptyName, MK_EMPTY_NAME, EINVAL of a mkdir: an empty name",
            ),
            ("EINVAL", [], "fault 4 of a path: EmptyName, MK_EMPTY_NAME, EINVAL of a mkdir: an empty name"),
            ("ERANGE", [], "status 3: MK_TOO_SMALL, ERANGE: the buffer is too small"),
            ("MK_DONE", [], "status 0: MK_DONE: answered"),
            ("mkdir", [], "command: mkdir PATH: makes a group"),
        ):
            self.assertEqual(names.same_things(name, self.TEXTS), (others, [said]), name)
        for name in ("SLOTS", "1024", "1,024", "1_024"):
            others, said = names.same_things(name, self.TEXTS)
            self.assertEqual(said, ["number: SLOTS is 1,024: groups"], name)
            self.assertEqual(sorted({"SLOTS", "1024", "1,024", "1_024"} - {name}), others, name)
        self.assertEqual(names.same_things("rmdir", self.TEXTS), ([], []))

    def test_a_name_with_a_point_before_it_is_in_longer_ones(self):
        self.assertEqual(names.longer_words([".tool"], 'see "/.tool.x.1", .tool and a.tool.'), {".tool.x.1", "a.tool"})
        self.assertEqual(names.longer_words([".tool", "no"], 'see "/.tool.x.1"'), {".tool.x.1"})
        self.assertEqual(names.longer_words(["tool"], '"/.tools.", ..tool.'), {"tools"})
        self.assertEqual(names.longer_words(["pids.max"], "see .pids.max_2."), {"pids.max_2"})

    def test_a_number_in_a_checksum_is_in_no_longer_word(self):
        self.assertEqual(names.longer_words(["64"], "a64 " + "0f64" * 5), {"a64"})
        self.assertEqual(names.longer_words(["64"], "0f64" * 4), {"0f64" * 4})

    def test_a_small_number_is_not_looked_for_with_its_constant(self):
        said = "number: LEAVES is 8: leaves"
        self.assertEqual(names.same_things("LEAVES", self.TEXTS), ([], [said + "; ./where 8 finds the number itself"]))
        said_of_half = "number: HALF is 512: half; ./where 512 finds the number itself"
        self.assertEqual(names.same_things("HALF", self.TEXTS), ([], [said_of_half]))
        self.assertEqual(names.same_things("8", self.TEXTS), (["LEAVES"], [said]))

    def test_a_variant_is_that_of_the_whole_name(self):
        rows = [("file", name, "no", "yes", "-", "-", "-") for name in ("pids.events", "pids.events.local")]
        variants = 'File::Events => Row::new(b"pids.events"),\nFile::Local => Row::new(b"pids.events.local"),\n'
        texts = {names.TABLE: "".join("\t".join(row) + "\n" for row in rows), names.FILES: variants}
        self.assertEqual(names.same_things("pids.events", texts)[0], ["Events"])
        self.assertEqual(names.same_things("pids.events.local", texts)[0], ["Local"])

    def test_the_number_of_a_system_call(self):
        texts = {
            "a.c": "case SYS_openat:\ncase __NR_openat2:\n",
            "b.c": "X_SYS_open(SYS_open_by)\n",
            "c.c": "__NR_close\n",
        }
        for name, found in (
            ("openat", ["SYS_openat"]),
            ("openat2", ["__NR_openat2"]),
            ("open", []),
            ("close", ["__NR_close"]),
        ):
            self.assertEqual(names.same_things(name, texts)[0], found, name)
        self.assertEqual(names.same_things("Openat", {"a.c": "SYS_Openat\n"})[0], [])

    def test_a_number_that_no_table_has(self):
        self.assertEqual(names.same_things("2048", {})[0], ["2,048", "2_048"])
        self.assertEqual(names.same_things("999", {})[0], [])


class Names(unittest.TestCase):
    def test_a_name_of_a_file_is_no_part_of_a_longer_one(self):
        for text in ("pids.events.local", "x.pids.events", "pids.events_2"):
            self.assertFalse(names.pattern_of(["pids.events"]).search(text), text)
        for text in ("It is in pids.events.", "a/pids.events", "(pids.events)", "pids.events, pids.max"):
            self.assertTrue(names.pattern_of(["pids.events"]).search(text), text)

    def test_no_letter_of_a_name_stands_for_others(self):
        self.assertFalse(names.pattern_of(["pids.events"]).search("pids_events"))
        self.assertTrue(names.pattern_of(["fork(1"]).search("a fork(1, 2)"))

    def test_files_and_folders_of_a_name(self):
        texts = dict.fromkeys(("a/tests/one.py", "a/tests/two.py", "b/tests/x/three.py", "c/tests.py"), "")
        self.assertEqual(names.files_named("tests", texts), ["a/tests/ 2 files", "b/tests/ 1 file", "c/tests.py"])
        for name in ("a/tests", "a/tests/"):
            self.assertEqual(names.files_named(name, texts), ["a/tests/ 2 files"])
        for name in ("one", "one.py", "tests/one.py", "a/tests/one.py"):
            self.assertEqual(names.files_named(name, texts), ["a/tests/one.py"], name)
        self.assertEqual(names.files_named("ne.py", texts), [])

    def test_a_name_with_hyphens_is_no_part_of_a_longer_one(self):
        for name, longer in (
            ("limit-of-zero", "limit-of-zero-is-none"),
            ("of-zero", "limit-of-zero"),
            ("a-b.c", "x-a-b.c"),
        ):
            self.assertFalse(names.pattern_of([name]).search(f"== {longer}"), name)
            self.assertEqual(names.longer_words([name], f"== {longer}"), {longer})
            self.assertTrue(names.pattern_of([name]).search(f"mount/{name}:"))
        self.assertTrue(names.pattern_of(["zero"]).search("limit-of-zero"))
        self.assertEqual(names.longer_words(["zero"], "limit-of-zeros"), {"zeros"})
        for text in ("is.zero", "zero.is", "zero.", "(zero)"):
            self.assertTrue(names.pattern_of(["zero"]).search(text), text)

    def test_an_option_is_no_part_of_a_longer_one(self):
        for text, is_there in (
            *((it, True) for it in ("--keep", "[--keep]", "--keep=1", "-x,--keep.")),
            *((it, False) for it in ("--keeps", "--keep-all", "a--keep", "---keep", "keep")),
        ):
            self.assertEqual(bool(names.pattern_of(["--keep"]).search(text)), is_there, text)

    def test_a_number_is_no_part_of_another(self):
        for text in ("4096", "a 4096.", "(4096, 1)", "4096;", "\\n4096"):
            self.assertTrue(names.pattern_of(["4096"]).search(text), text)
        for text in ("4096.5", "4096,000", "14096", "1,4096", "1.4096", "4096_000", "x4096", "40960"):
            self.assertFalse(names.pattern_of(["4096"]).search(text), text)
        self.assertEqual(
            [bool(names.pattern_of(["8"]).search(text)) for text in ("8", "18", "a8")], [True, False, False]
        )
        self.assertEqual(names.longer_words(["8"], "a8 a18 8x 81"), {"a8"})

    def test_a_word_of_an_answer_is_a_name_unless_it_is_english(self):
        own = (
            "nogroup",
            "noslot",
            "rootfixed",
            "haschildren",
            "hasprocesses",
            "noprocess",
            "pidinuse",
            "pidsmax",
            "nofile",
        )
        english = ("exists", "descendants", "depth", "direction", "nothing", "syntax", "path", "file", "value")
        for word, name in (*((it, it) for it in own), *((it, f"refused {it}") for it in english)):
            row = ("1", "InPython", "MK_IN_C", f"1 refused {word} /a", "ENOENT", "a message", "a meaning")
            self.assertEqual(names.of_code("MK_IN_C", row, {})[0], ["InPython", "MK_IN_C", name])


class Bounds(unittest.TestCase):
    def test_a_line_is_full_with_the_semicolons_between_its_entries(self):
        half = "x" * ((ROOM - 2) // 2)
        rest = "y" * (ROOM - 2 - len(half))
        self.assertEqual(filled([half, rest]), [f"{half}; {rest}"])
        self.assertEqual(filled([half, rest + "y"]), [half, rest + "y"])

    def test_a_file_that_fills_a_line_stands_behind_its_folder(self):
        long, short = "long" * (ROOM // 4), "short"
        self.assertEqual([*by_folder({f"a/{long}": [1], f"a/{short}": [1]}, only_names)], [f"a/ {long}", f"a/ {short}"])

    def test_a_list_of_fewer_than_forty_lines_is_whole(self):
        self.assertEqual(FEW, 40)
        whole = ":" + ",".join(map(str, range(1, 40)))
        self.assertEqual(fitting({"a": [*range(1, 40)]}, 1, of_numbers), [f"a{whole}"])
        self.assertEqual(fitting({"a": [*range(1, 41)]}, 1, of_numbers), ["a:1,2,3,4+36"])

    def test_fewer_than_forty_files_are_named(self):
        def listed(count):
            return fitting({f"a/b{at}/{'x' * 30}": [1, 2] for at in range(count)}, 1, of_numbers)

        self.assertEqual("".join(listed(39)).count("x" * 30), 39)
        self.assertEqual(listed(40), ["40 files in a"])

    def test_files_are_counted_by_the_deepest_folders_that_fit(self):
        hits = {f"a{at % 2}/b{at % 4}/c{at}/{name * 20}": [1] for at in range(40) for name in "xy"}
        self.assertEqual(
            fitting(hits, 1, of_numbers), ["a0/b0/ 20 files; a0/b2/ 20 files; a1/b1/ 20 files; a1/b3/ 20 files"]
        )
        hits = {f"a/b/c{at % 2}/d{at % 4}/e{at}/{name * 20}": [1] for at in range(40) for name in "xy"}
        deepest = "; ".join(f"a/b/c{at % 2}/d{at}/ 20 files" for at in (0, 2, 1, 3))
        self.assertEqual(fitting(hits, 1, of_numbers), [deepest])


if __name__ == "__main__":
    unittest.main()
