"""Tests of ./where: on this repository that nothing is left out and all fits on a screen, on a made-up one what it says."""
import contextlib
import importlib.machinery
import importlib.util
import io
import os
import re
import signal
import subprocess
import sys
import tempfile
import unittest
from unittest import mock

TOP = os.path.dirname(os.path.dirname(os.path.dirname(os.path.realpath(__file__))))
loader = importlib.machinery.SourceFileLoader("where", os.path.join(TOP, "where"))
where = importlib.util.module_from_spec(importlib.util.spec_from_loader("where", loader))
sys.dont_write_bytecode = True
loader.exec_module(where)
from lookup import edits, mutants, names, receivers, screen, words  # noqa: E402

NAMES = (
    "pids.peak",
    "PidsMax",
    "KeepsHistory",
    "Engine::fork",
    "1024",
    "cgroup.kill",
    "EAGAIN",
    "Step.limit_met",
    "mkdir",
    "group",
    "mk_wait_file",
    "MK_WOULD_BLOCK",
    "--keep",
    "64",
    "the child's pid is in use",
    "missing_group_before_direction",
)


def listed_in(screen):
    """The files and the folders that a screen lists, with the folder crates/ left out."""
    files, folders = set(), set()
    for entry in (entry for line in screen for entry in line[where.LABEL :].split("; ")):
        counted = re.fullmatch(r"(\S+)/ \d+ (?:files|mutants|edits?)", entry)
        of_mutant = re.fullmatch(r"(\w+)/.* \((\S+):[\d,]+\)", entry)
        if counted:
            folders.add(os.path.normpath(counted[1]))
        elif re.match(r"\d+ (files|edits) in ", entry):
            folders.update(re.split(" (?:files|edits) in ", entry)[1].split(", "))
        elif of_mutant:
            files.add(f"{of_mutant[1]}/mutants/{of_mutant[2]}")
        elif "/ " in entry:
            folder, names = entry.split("/ ", 1)
            files.update(os.path.normpath(f"{folder}/{re.split('[:(]', name)[0]}") for name in names.split())
        else:
            files.add(re.split(r"[:( ]", entry)[0])
    return files, folders


def above(path):
    """The folders that the file is in, as a screen may list them."""
    short = path.removeprefix("crates/")
    return {short.rsplit("/", depth)[0] for depth in range(1, short.count("/") + 1)} | {
        path.split("/")[0] if "/" in path else "."
    }


class OfThisRepository(unittest.TestCase):
    @classmethod
    def setUpClass(cls):
        cls.texts = where.repository()
        cls.searches = {name: where.Search(name, cls.texts) for name in NAMES}

    def test_a_contract_is_whole_if_there_is_room(self):
        search = where.Search("Board::split", self.texts)
        self.assertGreater(len(search.contract), 10)
        screen = "\n".join(search.screen())
        self.assertEqual([clause for clause in search.contract if clause[:100] not in screen], [])

    def test_every_file_with_the_name_is_listed(self):
        for name, search in self.searches.items():
            screen = search.screen()
            (files, folders), whole = listed_in(screen), "\n".join(screen)
            word = name.removeprefix("Step.")
            pattern = where.pattern_of([word])
            for path, text in self.texts.items():
                if word not in text or not pattern.search(text):
                    continue
                short = path.removeprefix("crates/")
                of_path = [it for it in edits.edits_of(path, text) if pattern.search(f"== {it.name}\n{it.text}")]
                is_edit = of_path and all(f"{it.crate}/{it.name} (" in whole for it in of_path)
                is_mutant = any(f"{path.split('/')[0]}/{it.name}" in files for it in mutants.blocks(text))
                with self.subTest(name, path=path):
                    is_listed = short in files or above(path) & folders or is_edit or is_mutant
                    self.assertTrue(is_listed, whole)

    def test_every_line_that_a_search_by_hand_finds_has_the_name_or_a_longer_word(self):
        for name in NAMES[:3] + NAMES[4:7] + NAMES[8:]:
            for path, text in self.texts.items():
                for line in names.SUM.sub("", text).split("\n") if name in text else ():
                    found = (
                        name not in line or where.pattern_of([name]).search(line) or where.longer_words([name], line)
                    )
                    # a digit, a comma or a point beside a number makes another number of it
                    other_number = name.isdigit() and not re.search(rf"(?<![\d.,]){name}(?![\d.,_])", line)
                    self.assertTrue(found or other_number, f"{name}: {path}: {line}")

    def test_longer_words_are_counted(self):
        longer = self.searches["pids.peak"].longer
        self.assertEqual(longer["pids.peaks"], sum("pids.peaks" in text for text in self.texts.values()))

    def test_a_refusal_of_the_model(self):
        self.assertIn("OverPidsMax", self.searches["PidsMax"].names)
        self.assertIn("PidsMax", where.Search("OverPidsMax", self.texts).names)

    def test_a_word_behind_an_escape(self):
        for name, line in (
            ("cgroup.kill", '"a\\0cgroup.kill\\0/b"'),
            ("mkdir", 'b"undo\\nmkdir /a"'),
            ("SLOTS", '"number\\tSLOTS"'),
        ):
            self.assertTrue(where.pattern_of([name]).search(line), line)
            self.assertEqual(where.longer_words([name], line), set())

    def test_all_fits_on_a_screen_but_short_lists(self):
        for name, search in self.searches.items():
            lines = search.screen()
            with self.subTest(name):
                self.assertLessEqual(max(map(len, lines)), 150)
                if len(lines) > 50:
                    # what isn't whole has few lines
                    long = [
                        part
                        for part, count in ((part, self.lines_of(part, lines)) for part in where.PARTS)
                        if count and where.LEAST <= len(search.lines_of(part, count - 1)) < count
                    ]
                    self.assertEqual(long, [], "\n".join(lines))
                    self.assertGreater(sum(self.is_whole(search, part, lines) for part in where.PARTS), 15 + 1)

    def is_whole(self, search, part, lines):
        """How many lines a part has that can't have fewer."""
        count = self.lines_of(part, lines)
        return count if count and len(search.lines_of(part, 1)) == count else 0

    @staticmethod
    def lines_of(part, lines):
        """How many lines of a screen belong to the part."""
        labels = [line[: where.LABEL].strip() for line in lines]
        if part not in labels:
            return 0
        first = labels.index(part)
        return next((at for at in range(1, len(lines) - first) if labels[first + at]), len(lines) - first)

    def test_no_list_of_fewer_than_forty_files_is_folded(self):
        folded = 0
        for name, search in self.searches.items():
            lines = search.screen()
            for part in where.PARTS:
                first = [line[: where.LABEL].strip() for line in lines].index(part) if search.hits[part] else 0
                own = "\n".join(line[where.LABEL :] for line in lines[first : first + self.lines_of(part, lines)])
                is_folded = bool(re.search(r"(?:/ |^)\d+ (?:files|mutants)(?:;|$| in )", own, re.M)) and part not in (
                    "files",
                    "longer",
                )
                with self.subTest(name, part=part):
                    folded += is_folded
                    count = len([*search.mutants()]) if part == "mutants" else len(search.hits[part])
                    self.assertFalse(is_folded and 0 < count < 40, own)
        self.assertGreater(folded, 0)

    def test_all_lists_every_line(self):
        search = self.searches["1024"]
        lines = search.screen(is_whole=True)
        self.assertFalse([line for line in lines if re.search(r"/ \d+ (files|mutants)(;|$)|\+\d+$", line)])
        for part in set(where.PARTS) - {"mutants"}:
            for path, numbers in search.hits[part].items():
                place = screen.short(path) + ":" + ",".join(map(str, sorted(numbers)))
                if part == "recordings" and len(numbers) >= screen.FEW:
                    place = f"{screen.short(path)}({len(numbers)})"
                self.assertTrue(any(line.endswith(place) for line in lines), place)
        for path, numbers in search.hits["mutants"].items():
            places = re.findall(rf"\({re.escape(path.partition('/mutants/')[2])}:([\d,]+)\)$", "\n".join(lines), re.M)
            self.assertLessEqual(numbers, {int(number) for place in places for number in place.split(",")}, path)

    def test_a_number_has_the_constants_of_each_language(self):
        defined = {f"{path} {said}" for path, _, said in self.searches["1024"].defined}
        for said in (
            "crates/pids_charge/src/plain.rt SLOTS = 1024",
            "bindings/python/makhloeum/_table.py SLOTS = 1024",
            "evidence/bench/plain/engine.rs SLOTS = 1_024",
            "evidence/model.py GROUPS_MAX = 1_024",
            "bindings/c/tests/check.h SLOTS = 1024",
        ):
            self.assertIn(said, defined)

    def test_calls_are_those_of_the_type(self):
        search = where.Search("Engine::copy", self.texts)
        calls = {path for part in ("code", "tests") for path in search.hits[part]}
        self.assertLessEqual({"crates/line_engine/src/engine.rt", "crates/undo_journal/src/rehearse.rt"}, calls)
        self.assertFalse(calls & {"crates/group_tree/src/copy.rt", "crates/undo_journal/src/command.rt"})

    def test_what_the_text_tells_of_a_type_is_seldom_nothing(self):
        rattle = receivers.Rattle(self.texts)
        answers = [
            answer
            for path in rattle.texts
            for name, owner in (("copy", "GroupPath"), ("fork", "Charges"), ("depth", "Engine"), ("lock", "DeskState"))
            for answer in rattle.calls(path, name, owner).values()
        ]
        self.assertGreater(answers.count(True), 40)
        self.assertLess(answers.count(None), answers.count(True) / 4)

    def test_pictures_are_not_read(self):
        pictures = [path for path in self.texts if path.endswith((".png", ".svg"))]
        self.assertTrue(pictures)
        self.assertEqual([path for path in pictures if self.texts[path]], [])
        self.assertTrue(where.files_named(os.path.basename(pictures[0]), self.texts))

    def test_a_drawing_that_no_program_draws_is_read(self):
        names = {"docs/a.svg", "docs/b.svg", "docs/draw-a", "docs/c.png"}
        self.assertEqual(
            [name for name in sorted(names) if where.is_picture(name, names)], ["docs/a.svg", "docs/c.png"]
        )

    def test_a_word_of_newcomers(self):
        for name in ("user notification", "stays proved", "Fedora", "race", "kill -9", "fork bomb", "seccomp"):
            said = where.Search(name, self.texts).screen()
            self.assertTrue([line for line in said if line.startswith("  here this is called: ")], name)

    def test_a_message_of_a_check_that_fails_leads_to_what_to_do(self):
        for message in (
            *(
                "NOT REFUSED",
                "BAD EDIT",
                "NOT TRIED",
                "NOT CAUGHT",
                "BAD MUTANT",
                "was made without proofs",
                "skipped, ",
            ),
            *("is not what ./generate writes", "is not what docs/draw-tables writes", "no law names it"),
            *("what it names is not in its form", "documents: 19 read, 2 faults"),
        ):
            screen = where.Search(message, self.texts).screen()
            found = [line for line in screen if line.startswith("documents ") and "FAILURES.md" in line]
            self.assertTrue(found, f"{message}: {screen}")

    def test_it_ends_quietly_when_nobody_reads(self):
        ran = subprocess.Popen([os.path.join(TOP, "where"), "mkdir"], stdout=subprocess.PIPE, stderr=subprocess.PIPE)
        ran.stdout.close()
        said = ran.stderr.read()
        ran.stderr.close()
        self.assertIn(ran.wait(), (0, -signal.SIGPIPE))
        self.assertEqual(said, b"")

    def test_it_says_that_its_output_is_full(self):
        with open("/dev/full", "wb") as full:
            ran = subprocess.run(
                [os.path.join(TOP, "where"), "mkdir"], stdout=full, stderr=subprocess.PIPE, check=False
            )
        self.assertEqual((ran.returncode, ran.stderr), (2, b"where: write failed: No space left on device\n"))

    def test_a_file_and_its_variant(self):
        screen = "\n".join(self.searches["pids.peak"].screen())
        self.assertIn("pids.peak = PidsPeak\n  file: not on the root, read, not written; the number", screen)
        self.assertRegex(screen, r"defined     flat_model/specs/File\.antt:\d+ PidsPeak : File\n")
        self.assertRegex(
            screen, r"\nedits       undo_journal/peak_rendered_as_the_current_count \(Shown\.Shows, FileText"
        )

    def test_an_errno_names_its_refusals(self):
        said = self.searches["EAGAIN"].said
        self.assertEqual(
            [line.split(",")[0] for line in said],
            [
                *("code 3: Descendants", "code 4: Depth", "code 11: PidsMax"),
                *("fault 3 of a path: TooDeep", "status 64: MK_WOULD_BLOCK"),
            ],
        )

    def test_the_first_line_of_edits_is_in_no_crate(self):
        """It is the same in each."""
        listed = where.Search("edits.py", self.texts).hits["edits"]
        self.assertEqual(listed, {})

    def test_a_number_with_separators(self):
        self.assertEqual(self.searches["1024"].names, ["1024", "1,024", "1_024", "SLOTS"])

    def test_a_function(self):
        search = self.searches["Engine::fork"]
        both = ["crates/undo_journal/src/fork.rt", "evidence/bench/plain/engine.rs"]
        self.assertEqual([path for path, _, _ in search.defined], both)
        self.assertIn("cites Answers of undo_journal/specs/Answer.antt", search.contract)


class OfAMadeUpRepository(unittest.TestCase):
    TEXTS = {
        "crates/low/specs/Sum.antt": "-- A sum.\nabbrev pub Adds : Type 0\nAdds = IsFew\n",
        "crates/low/src/sum.rt": "ghost use Rattle.low.specs.Sum.{Adds};\n\nimpl Sum {\n    pub fn add(self)\n"
        "        ensures { Adds }\n    {\n        wrong\n    }\n\n    fn other(self) {\n        self.add()\n    }\n}\n",
        "crates/low/must-fail/one.edit": "file: src/sum.rt\nold: wrong\nnew: right\n",
        "crates/low/must-fail-more.edits": "\n\n== three\n# breaks: Adds.Adds\nfile: src/sum.rt\nold: wrong\nnew: tree\n\n"
        "== two\n# breaks: Adds.IsFew\nfile: src/sum.rt\nold: self.add()\nnew: self\n",
        "crates/low_tests/data/sums.cases": "# shows: Sum::add\nadd 1 => 1\nadded\n",
        "crates/low_tests/data/others.cases": "# shows: Other::add\nadd 1 => 1\n",
        "crates/low/proofs/sum/Sum/add/Answers.antt": "proof\n",
        "python/tree.py": "class Tree:\n    def peak(self):\nMOST = 9\nclass Other:\n    def peak(self):\n",
        "python/oak.py": "class Wood:\n    def cut(self):\nclass Oak(Wood):\n    def grow(self):\n        self.cut()\n",
        "python/tests/test_tree.py": "assert h.peak() == 1 and peak == 2\n",
        "go/tree.go": "package tree\ntype Limit uint32\n\tNoLimit Limit = 5\nfunc (t *Tree) peak() int { return 0 }\nvar x = 32\n",
        "c/peaks.h": "uint32_t mk_peak(mk_handle *h);\ntypedef struct mk_info {\nenum { TWO = 2, THREE };\n"
        "static int peaks[4];\n\treturn done(1);\n",
        "page.mjs": "export const HEIGHT = 1, WIDTH = 2;\nexport function rows(run) {\n",
        "run": "#!/bin/bash\nstep() {\n  tool --keep=a --keep-all\n",
        "README.md": "`Tree.peak` is a number.\n",
        "mount/mutants/run/births.c.mutants": "file: mount/src/run/births.c\n\n== a_birth_is_late\nwhy: the child waits\n"
        "old: now();\nnew: later();\ntest: births\n\n== a_birth_is_late_again\nold: again();\nnew: later();\ntest: births\n",
        "evidence/linux-6.1/rows.recorded": "births\n" * 5000,
        "man/tool.1": where.plain("man/tool.1", ".B \\-\\-keep\\fR\n"),
    }

    def screen(self, name):
        return where.Search(name, self.TEXTS).screen()

    def test_a_definition(self):
        self.assertEqual(
            self.screen("Adds"),
            [
                "Adds",
                "defined     low/specs/Sum.antt:2 abbrev pub Adds : Type 0",
                "clauses     low/src/sum.rt (add):1",
                "specs       low/specs/Sum.antt:2,3",
                "edits       low/three (Adds.Adds); low/two (Adds.IsFew); low/one (Sum::add)",
            ],
        )

    def test_a_function_with_its_calls_proofs_and_cases(self):
        self.assertEqual(
            self.screen("Sum::add"),
            [
                "Sum::add",
                "defined     low/src/sum.rt:4 pub fn add(self)",
                "contract    ensures { Adds }",
                "            cites Adds of low/specs/Sum.antt",
                "code        low/src/sum.rt:11",
                "proofs      low/proofs/sum/Sum/add/Answers.antt:1",
                "edits       low/three (Adds.Adds); low/one (Sum::add)",
                "tests       low_tests/data/sums.cases:1,2",
            ],
        )

    def test_functions_of_one_name_have_the_clauses_of_each(self):
        other = "pub fn add(of: Pair)\n    requires { IsFew }\n    ensures { Adds }\n{\n}\n"
        search = where.Search("add", {**self.TEXTS, "crates/low/src/pair.rt": other})
        self.assertEqual({path for path, _, _ in search.defined}, {"crates/low/src/pair.rt", "crates/low/src/sum.rt"})
        clauses = ["cites Adds of low/specs/Sum.antt", "ensures { Adds }", "requires { IsFew }"]
        self.assertEqual(sorted(search.contract), clauses, "each clause once")

    def test_proofs_of_a_function_without_a_type(self):
        texts = {"crates/low/src/sum.rt": "fn total() {\n}\n", "crates/low/proofs/sum/total/Answers.antt": "proof\n"}
        texts |= {
            "crates/low/proofs/sum/subtotal/Answers.antt": "proof\n",
            "crates/high/proofs/sum/total/A.antt": "x\n",
        }
        self.assertIn("proofs      low/proofs/sum/total/Answers.antt:1", where.Search("total", texts).screen())

    def test_what_only_the_title_says(self):
        said = ["no such process", "  here this is called: ESRCH"]
        self.assertEqual(where.Search("no such process", {"a.py": "b\n"}).screen(), said)

    def test_a_method_of_python_or_go(self):
        self.assertEqual(
            self.screen("Tree.peak"),
            [
                "Tree.peak",
                "defined     go/tree.go:4 func (t *Tree) peak() int { return 0 }",
                "            python/tree.py:2 def peak(self):",
                "code        go/tree.go:4; python/tree.py:2",
                "perhaps     python/tests/test_tree.py:1",
                "documents   README.md:1",
            ],
        )

    def test_a_call_in_another_language_is_not_that_of_a_method(self):
        found = where.Search("Tree.peak", {**self.TEXTS, "web/other.mjs": "h.peak();\n"}).hits
        self.assertEqual(found["perhaps"], {"python/tests/test_tree.py": {1}})

    def test_a_method_that_a_class_inherits(self):
        wanted = ["defined     python/oak.py:2 def cut(self):", "code        python/oak.py:2,5"]
        self.assertEqual(self.screen("Oak.cut"), ["Oak.cut", *wanted])

    def test_definitions_of_each_language(self):
        for name, line in (
            ("mk_peak", "c/peaks.h:1 uint32_t mk_peak(mk_handle *h);"),
            ("mk_info", "c/peaks.h:2 typedef struct mk_info {"),
            ("THREE", "c/peaks.h:3 enum { TWO = 2, THREE };"),
            ("peaks", "c/peaks.h:4 static int peaks[4];"),
            ("WIDTH", "page.mjs:1 export const HEIGHT = 1, WIDTH = 2;"),
            ("rows", "page.mjs:2 export function rows(run) {"),
            ("Limit", "go/tree.go:2 type Limit uint32"),
            ("NoLimit", "go/tree.go:3 NoLimit Limit = 5"),
            ("step", "run:2 step() {"),
            ("MOST", "python/tree.py:3 MOST = 9"),
        ):
            self.assertIn(f"defined     {line}", self.screen(name), name)

    def test_a_call_is_no_definition(self):
        self.assertEqual(self.screen("done"), ["done", "code        c/peaks.h:5"])

    def test_an_option(self):
        self.assertEqual(
            self.screen("--keep"),
            ["--keep", "code        run:3", "documents   man/tool.1:1", "longer      --keep-all (1)"],
        )

    def test_a_number_in_a_word_is_no_number(self):
        self.assertEqual(self.screen("32"), ["32", "code        go/tree.go:5", "longer      uint32 (1); uint32_t (1)"])

    def test_the_name_of_a_file_or_a_folder(self):
        self.assertEqual(self.screen("sums"), ["sums", "files       low_tests/data/sums.cases"])
        self.assertEqual(self.screen("low_tests"), ["low_tests", "files       low_tests/ 2 files"])
        whole = where.Search("sums", self.TEXTS).screen(is_whole=True)
        self.assertEqual(whole, self.screen("sums"))

    def test_an_edit_by_its_name(self):
        found = ["defined     low/must-fail-more.edits:9 == two", "edits       low/two (Adds.IsFew)"]
        for name in ("two", "two.edit", "low/two", "low/two.edit"):
            self.assertEqual(self.screen(name), [name, *found])
        whole = where.Search("low/two.edit", self.TEXTS).screen(is_whole=True)
        self.assertEqual(whole[2:], ["edits       low/must-fail-more.edits:9"])
        for name in ("high/two", "lo/two", "low/sums", "low/absent"):
            self.assertEqual(self.screen(name), [], name)

    def test_a_mutant_by_its_name_and_by_its_text(self):
        at = "mount/a_birth_is_late (run/births.c.mutants"
        found = [
            "a_birth_is_late",
            "  mutant of mount/src/run/births.c: mount/test births has to fail",
            "defined     mount/mutants/run/births.c.mutants:3 == a_birth_is_late",
            f"mutants     {at}:3)",
            "longer      a_birth_is_late_again (1)",
        ]
        self.assertEqual(self.screen("a_birth_is_late"), found)
        self.assertEqual(self.screen("mount/a_birth_is_late"), ["mount/a_birth_is_late", *found[1:]])
        again = "mount/a_birth_is_late_again (run/births.c.mutants:11)"
        self.assertEqual(self.screen("later"), ["later", f"mutants     {at}:6); {again}"])
        of_all = "mount/ all 2 of run/births.c.mutants (run/births.c.mutants:1)"
        self.assertEqual(self.screen("mount/src/run/births.c")[1:], [f"mutants     {of_all}"])

    def test_the_lines_of_a_mutant_are_those_from_its_name_to_its_test(self):
        path = "mount/mutants/run/births.c.mutants"
        found = [*mutants.named(path, self.TEXTS[path], [1, 3, 7, 9, 12])]
        of_all = ("mount/ all 2 of run/births.c.mutants", [1])
        late = [("mount/a_birth_is_late", [3, 7]), ("mount/a_birth_is_late_again", [9, 12])]
        self.assertEqual(found, [of_all, *late])

    def test_recordings_fill_no_screen(self):
        self.assertIn("recordings  evidence/linux-6.1/rows.recorded(5000)", self.screen("births"))
        whole = where.Search("births", self.TEXTS).screen(is_whole=True)
        self.assertIn("recordings  evidence/linux-6.1/rows.recorded(5000)", whole)
        few = {"evidence/linux-6.1/rows.recorded": "births\n" * 39}
        said = where.Search("births", few).screen(is_whole=True)[1]
        self.assertTrue(said.endswith("rows.recorded:" + ",".join(map(str, range(1, 40)))))

    def test_lines_with_their_texts(self):
        said = [
            "peak",
            "code",
            "  python/tree.py:2: def peak(self):",
            "  python/tree.py:5: def peak(self):",
            "  go/tree.go:4: func (t *Tree) peak() int { return 0 }",
            "tests",
            "  python/tests/test_tree.py:1: assert h.peak() == 1 and peak == 2",
            "documents",
            "  README.md:1: `Tree.peak` is a number.",
            "longer",
            "  mk_peak (1); peaks (1)",
        ]
        for given in (["--lines", "peak"], ["peak", "--lines"]):
            status, out, _ = self.said_by(*given)
            self.assertEqual((status, sorted(out.split("\n")[:-1])), (0, sorted(said)))
        self.assertEqual(self.said_by("--lines", "absent")[0], 1)
        self.assertIn("\n  evidence/linux-6.1/rows.recorded(5000)\n", self.said_by("--lines", "births")[1])
        self.assertTrue(
            self.said_by("--lines", "a_birth_is_late")[1].endswith("\nlonger\n  a_birth_is_late_again (1)\n")
        )
        long = {"a.py": f"x = 'far {'y' * 200}'\n"}
        self.assertEqual([*where.Search("far", long).with_texts()][2], f"  a.py:1: x = 'far {'y' * 151}")

    def test_a_system_call_has_its_numbers(self):
        texts = {"a.c": "syscall(SYS_openat2);\nx = __NR_openat2;\nSYS_openat29\n", "a.py": "openat2()\nSYS_open\n"}
        said = ["openat2 = SYS_openat2 = __NR_openat2", "code        ./ a.c:1,2 a.py:1", "longer      SYS_openat29 (1)"]
        self.assertEqual(where.Search("openat2", texts).screen(), said)
        self.assertEqual([*where.Search("openat2", texts).with_texts()][:2], [said[0], "code"])
        self.assertEqual(where.Search("open", texts).names, ["open", "SYS_open"])

    def test_several_words_are_one_name(self):
        self.assertEqual(self.said_by("is", "a", "number"), (0, "is a number\ndocuments   README.md:1\n", ""))
        self.assertEqual(self.said_by("--all"), (1, "--all: no file of the repository has it\n", ""))

    def said_by(self, *words):
        """The status of the program, and what it says on its output and as an error."""
        out, error = io.StringIO(), io.StringIO()
        with mock.patch.object(where, "repository", lambda: self.TEXTS):
            with contextlib.redirect_stdout(out), contextlib.redirect_stderr(error):
                return where.main([*words]), out.getvalue(), error.getvalue()

    def test_its_own_words(self):
        for given, status, out, error in (
            ([], 2, "", f"{where.__doc__}\n"),
            (["--"], 2, "", f"{where.__doc__}\n"),
            (["--help"], 0, f"{where.__doc__}\n", ""),
            (["--", "--help"], 1, "--help: no file of the repository has it\n", ""),
            (["--", "--keep"], 0, "\n".join(self.screen("--keep")) + "\n", ""),
            (["--all", "--", "absent", "here"], 1, "absent here: no file of the repository has it\n", ""),
            (["absent", "here", "--all"], 1, "absent here: no file of the repository has it\n", ""),
            (["--", "--keep", "--all"], 1, "--keep --all: no file of the repository has it\n", ""),
        ):
            self.assertEqual(self.said_by(*given), (status, out, error), given)

    def test_definitions_of_the_model_are_first_and_those_of_crates_next(self):
        texts = {
            "bindings/a.py": "def Sum():\n",
            "crates/low/specs/Sum.antt": "-- A sum.\nabbrev pub Sum : Type 0\n",
            "crates/low/src/a.rt": "pub struct Sum {\n",
            "crates/high/src/b.rt": "\n\npub struct Sum {\n",
        }
        found = [
            "defined     low/specs/Sum.antt:2 abbrev pub Sum : Type 0",
            "            high/src/b.rt:3 pub struct Sum {",
            "            low/src/a.rt:1 pub struct Sum {",
            "            bindings/a.py:1 def Sum():",
        ]
        self.assertEqual([line for line in where.Search("Sum", texts).screen() if ":" in line][:4], found)

    def test_a_file_that_can_not_be_read_has_no_text(self):
        with tempfile.TemporaryDirectory() as top:
            self.assertEqual(where.readable(top), "")
            with open(f"{top}/a", "wb") as it:
                it.write(b"a\xff\n")
            self.assertEqual(where.readable(f"{top}/a"), "a\ufffd\n")

    def test_the_signature_of_a_private_function_is_looked_for_in_its_crate(self):
        texts = {
            "crates/low/src/sum.rt": "impl Sum {\n    fn add(self) {\n    }\n    fn twice(self) {\n        self.add()\n    }\n}\n",
            "crates/high/src/top.rt": "fn top(a: Sum) {\n    a.add()\n}\n",
        }
        self.assertIn("code        low/src/sum.rt:5", where.Search("Sum::add", texts).screen())
        texts["crates/low/src/sum.rt"] = texts["crates/low/src/sum.rt"].replace("    fn add", "    pub fn add")
        self.assertIn("code        high/src/top.rt:2; low/src/sum.rt:5", where.Search("Sum::add", texts).screen())

    def test_words_that_are_in_one_line_but_not_one_after_the_other(self):
        apart = "  no line has these words one after the other; these lines have each of them"
        self.assertEqual(
            where.Search("number is", self.TEXTS).screen(), ["number is", apart, "documents   README.md:1"]
        )
        self.assertEqual(where.Search("Numb IS", self.TEXTS).screen()[1:], [apart, "documents   README.md:1"])
        self.assertEqual(where.Search("umber is", self.TEXTS).screen(), [])
        self.assertEqual(where.Search("number absent", self.TEXTS).screen(), [])
        self.assertNotIn(apart, where.Search("is a number", self.TEXTS).screen())
        self.assertEqual(where.Search("NUMBER", self.TEXTS).screen(), [])

    def test_names_without_a_letter(self):
        said = io.StringIO()
        with mock.patch.object(where, "repository", lambda: self.TEXTS), contextlib.redirect_stderr(said):
            self.assertEqual([where.main([name]) for name in ("", " ")], [2, 2])
        self.assertTrue(said.getvalue().startswith("Where something is: "))
        self.assertEqual(where.Search("Absent::", self.TEXTS).screen(), [])

    def test_a_name_that_is_only_in_longer_words(self):
        within = "  no line has this as a word; these lines have it within longer words"
        texts = {"a.py": "unpacked(one.tar.gz)\n*.tar.gz\nhalf\n", "b.md": "10244\n"}
        self.assertEqual(where.Search("tar.gz", texts).screen()[:3], ["tar.gz", within, "code        a.py:1,2"])
        self.assertEqual(where.Search("alf", texts).hits["code"], {"a.py": {3}})
        self.assertEqual(where.Search("1024", texts).screen(), [])
        self.assertNotIn(within, where.Search("half", texts).said)

    def test_a_file_of_python_or_c_has_what_imports_it(self):
        texts = {
            **{"a/trees.py": "", "b.py": "from a.trees import x\n", "c.py": "import os\nfrom a import oaks, trees\n"},
            **{"program": "    import trees\n", "other.py": "import trees_of\ntrees = 1\n", "e.md": "import trees\n"},
            **{
                "m/paths.c": "",
                "m/x.c": '#include "m/paths.h"\n#include "paths.h"\n',
                "m/y.h": '#include "m/longpaths.h"\n',
            },
        }
        self.assertEqual(where.Search("trees.py", texts).hits["code"], {"b.py": {1}, "c.py": {2}, "program": {1}})
        self.assertEqual(where.Search("paths.c", texts).hits["code"], {"m/x.c": {1, 2}})
        self.assertEqual(where.Search("oaks.py", texts).hits["code"], {})
        self.assertEqual(where.Search("e.md", texts).hits["code"], {})

    def test_words_of_a_document_are_found_across_the_marks_of_code_type(self):
        text = "a `0` in `cgroup.procs` is its writer\n"
        texts = {path: where.plain(path, text) for path in ("docs/a.md", "b.py")}
        self.assertEqual(where.Search("0 in cgroup.procs", texts).screen()[1:], ["documents   docs/a.md:1"])

    def test_a_name_that_is_nowhere(self):
        said = io.StringIO()
        with mock.patch.object(where, "repository", lambda: self.TEXTS), contextlib.redirect_stdout(said):
            self.assertEqual(where.main(["absent"]), 1)
        self.assertEqual(said.getvalue(), "absent: no file of the repository has it\n")


class OfWords(unittest.TestCase):
    def test_a_word_of_newcomers(self):
        for name in ("deb", "rpm", "install", "FEDORA"):
            self.assertTrue(words.called_here(name), name)
        self.assertEqual(words.called_here("fedoras"), [])
        for name in ("install", "make install", "prefix"):
            self.assertIn("./install", words.called_here(name), name)

    def test_a_message_of_an_errno(self):
        self.assertEqual(words.called_here("Transport endpoint is not connected"), ["ENOTCONN"])
        self.assertEqual(words.called_here("no such process"), ["ESRCH"])


class WithoutGit(unittest.TestCase):
    def test_every_file_but_built_ones_is_read(self):
        with tempfile.TemporaryDirectory() as top, mock.patch.object(where, "ROOT", top):
            for path in ("a", "b/c.py", "b/out/built", ".git/config", "b/__pycache__/c.pyc"):
                os.makedirs(os.path.dirname(f"{top}/{path}"), exist_ok=True)
                with open(f"{top}/{path}", "w", encoding="utf-8") as it:
                    it.write(f"text of {path}")
            self.assertEqual(where.repository(), {path: f"text of {path}" for path in ("a", "b/c.py")})


class WithGit(unittest.TestCase):
    def test_what_is_committed_or_will_be_is_read(self):
        """Of a picture, and of the table of newcomers' words, only the name; of a link nothing."""
        texts = {".gitignore": "built\n", "a": "a\n", "b/c.py": "c\n", "gone": "d\n", "built": "e\n"}
        texts |= {"f.png": "g\n", ".ci/lookup/words.py": "h\n"}
        with tempfile.TemporaryDirectory() as top, mock.patch.object(where, "ROOT", top):
            for path, text in texts.items():
                os.makedirs(os.path.dirname(f"{top}/{path}"), exist_ok=True)
                with open(f"{top}/{path}", "w", encoding="utf-8") as it:
                    it.write(text)
            os.symlink("a", f"{top}/link")
            for command in (["init", "-q"], ["add", "a", "gone", "link"]):
                subprocess.run(["git", "-C", top, *command], check=True)
            os.remove(f"{top}/gone")
            wanted = {**texts, "f.png": "", ".ci/lookup/words.py": ""}
            self.assertEqual(
                where.repository(), {path: wanted[path] for path in sorted(wanted) if path not in ("gone", "built")}
            )


class OfFewAndOfMany(unittest.TestCase):
    @staticmethod
    def search_of(files, lines):
        texts = {f"part{at % 9}/tests/t{at}.py": "seldom\n" * lines for at in range(files)}
        return where.Search("seldom", texts)

    def test_few_lines_are_whole(self):
        said = "\n".join(self.search_of(3, 13).screen())
        self.assertIn("t0.py:1,2,3,4,5,6,7,8,9,10,11,12,13", said)

    def test_few_lines_of_one_file_are_whole(self):
        for files in (1, 2):
            path = "part/tests/a_very_long_name_of_a_test.py"
            texts = {path: "x\n" * 1000 + "seldom\n" * 37, "part/tests/b.py": "seldom\n" * (files - 1)}
            said = where.Search("seldom", texts).screen()
            numbers = [int(number) for line in said for number in re.findall(r"[:,](\d+)", line)]
            self.assertEqual([number for number in numbers if number > 1000], [*range(1001, 1038)])
            self.assertLessEqual(max(map(len, said)), 150)

    def test_few_files_are_named(self):
        for files in (39, 40):
            said = self.search_of(files, 60).screen()
            named = {name for line in said for name in re.findall(r"\bt\d+\.py", line)}
            self.assertEqual(len(named), files)

    def test_many_files_are_counted(self):
        said = "\n".join(self.search_of(400, 2).screen())
        self.assertIn("part0/tests/ 45 files", said)
        self.assertLess(said.count("\n"), 10)

    def test_few_mutants_are_named_and_many_are_counted(self):
        block = "old: seldom();\nnew: often();\ntest: t\n"
        for count in (39, 400):
            text = "file: mount/src/a.c\n" + "".join(
                f"\n== a_mutant_of_that_source_{at}\n{block}" for at in range(count)
            )
            said = "\n".join(where.Search("seldom", {"mount/mutants/a.c.mutants": text}).screen())
            places = re.findall(r"mount/a_mutant_of_that_source_(\d+) \(a\.c\.mutants:(\d+)\)", said)
            if count == 39:
                self.assertEqual(places, [(str(at), str(5 * at + 4)) for at in range(count)])
            else:
                self.assertIn("mutants     mount/mutants/a.c.mutants 400 mutants", said)

    def test_a_mutant_that_has_the_name_twice_is_counted_once(self):
        block = "old: seldom();\nnew: seldom(1);\ntest: t\n"
        text = "file: mount/src/a.c\n" + "".join(f"\n== a_mutant_of_that_source_{at}\n{block}" for at in range(400))
        said = "\n".join(where.Search("seldom", {"mount/mutants/a.c.mutants": text}).screen())
        self.assertIn("mutants     mount/mutants/a.c.mutants 400 mutants", said)

    def test_many_mutants_of_many_files_are_named_or_counted_by_folder(self):
        block = "file: {}\n\n== {}\nold: seldom();\nnew: often();\ntest: t\n"
        names = [*"abcdefghijklmnopqrstuvwxyz0123456789", "aa", "ab", "ac", "ad"]
        texts = {f"look/mutants/of/a_source_{at}.py.mutants": block.format("x", at) for at in names}
        said = "\n".join(line for line in where.Search("seldom", texts).screen()[1:])
        self.assertEqual(re.findall(r"look/(\w+)", said), sorted(names, key=lambda it: f"{it}.py"))
        self.assertNotIn("mutants:", said, "there is no room for their places")
        folders = ("look", "mount")
        texts = {f"{of}/mutants/a_{at}.c.mutants": block.format("x", at) for of in folders for at in range(100, 300)}
        said = where.Search("seldom", texts).screen()
        self.assertEqual(said[1:], ["mutants     look/mutants/ 200 mutants; mount/mutants/ 200 mutants"])

    def test_many_longer_words_are_counted_and_the_option_lists_all(self):
        texts = {"a.py": "seldom\n" + "".join(f"seldom_{at}\n" for at in range(400))}
        said = where.Search("seldom", texts).screen()
        self.assertTrue(said[-1].startswith("longer      seldom_0 (1); ") and said[-1].endswith(" .. 400 words"), said)
        whole = "\n".join(where.Search("seldom", texts).screen(is_whole=True))
        self.assertEqual(len(set(re.findall(r"seldom_\d+ \(1\)", whole))), 400)
        few = {"a.py": "seldom\n" + "".join(f"seldom_{at}\n" for at in range(39))}
        said = "\n".join(where.Search("seldom", few).screen())
        self.assertEqual(len(set(re.findall(r"seldom_\d+ \(1\)", said))), 39)

    def test_many_edits_of_many_crates_are_counted(self):
        block = "\n== {}\nfile: src/a.rt\nold: seldom\nnew: often\n"
        for crates, each, counted in (
            (13, 3, None),
            (20, 2, "some_crate_0/ 2 edits; some_crate_1/ 2 edits"),
            (150, 2, "300 edits in crates"),
        ):
            text = "".join(block.format(f"one_edit_{at}") for at in range(each))
            texts = {f"crates/some_crate_{at}/must-fail-more.edits": text for at in range(crates)}
            said = "\n".join(where.Search("seldom", texts).screen())
            named = re.findall(r"some_crate_\d+/one_edit_\d \(no function\)", said)
            self.assertEqual(len(named), 0 if counted else 39)
            self.assertIn(counted or "", said)

    def test_the_option_lists_all(self):
        texts = self.search_of(400, 2).texts
        for arguments, files in ((["seldom"], 0), (["--all", "seldom"], 400), (["seldom", "--all"], 400)):
            said = io.StringIO()
            with mock.patch.object(where, "repository", lambda: texts), contextlib.redirect_stdout(said):
                self.assertEqual(where.main(arguments), 0)
            self.assertEqual(len(re.findall(r"\bt\d+\.py:1,2$", said.getvalue(), re.M)), files)

    def test_a_long_folder_takes_several_lines(self):
        texts = {f"part/tests/a_very_long_name_of_a_test_{at}.py": "seldom\n" for at in range(30)}
        said = where.Search("seldom", texts).screen()
        self.assertEqual(sum(line.count("_test_") for line in said), 30)
        self.assertLessEqual(max(map(len, said)), 150)
        self.assertTrue(all(line[12:].startswith("part/tests/ ") for line in said[1:]))

    def test_many_definitions_are_cut(self):
        texts = {f"p{at}.py": "def seldom():\n" for at in range(40)}
        self.assertIn("            and 32 more lines", where.Search("seldom", texts).screen())
        del texts["p7.py"]
        said = where.Search("seldom", texts).screen()
        self.assertEqual(sum("def seldom" in line for line in said), 39)


if __name__ == "__main__":
    unittest.main()
