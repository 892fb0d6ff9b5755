"""Tests of what ./where says of a contract, a file of definitions, a definition with its file, a mutant's test and a folder that
can't be read."""
import contextlib
import importlib.machinery
import importlib.util
import io
import os
import re
import subprocess
import sys
import tempfile
import unittest
from unittest import mock

TOP = os.path.dirname(os.path.dirname(os.path.dirname(os.path.realpath(__file__))))
loader = importlib.machinery.SourceFileLoader("where", os.path.join(TOP, "where"))
where = importlib.util.module_from_spec(importlib.util.spec_from_loader("where", loader))
sys.dont_write_bytecode = True
loader.exec_module(where)
from lookup import clauses  # noqa: E402


class Contracts(unittest.TestCase):
    def contract(self, name, text):
        return where.Search(name, {"crates/low_laws/src/states.rt": text}).contract

    def test_a_law_ends_with_its_empty_body(self):
        for body in ("{}", "{ }", "{\n}"):
            text = f"pub fn whole()\n    ensures one {{ A }}\n    ensures two {{ B\n        → C }}\n{body}\n\n"
            text += f"pub fn other()\n    ensures three {{ D }}\n{body}\n"
            self.assertEqual(self.contract("states::whole", text), ["ensures one { A }", "ensures two { B"], repr(body))
            self.assertEqual(self.contract("states::other", text), ["ensures three { D }"], repr(body))

    def test_a_function_in_one_line_or_without_clauses_has_no_contract(self):
        after = "\n\npub fn other()\n    ensures one { A }\n{}\n"
        for text in ("pub fn short() -> u64 { 0 }", "pub fn short() -> u64 {\n    0\n}", "pub fn short()\n{\n    0\n}"):
            self.assertEqual(self.contract("states::short", text + after), [], text)
            self.assertEqual(self.of_pages(text + after), {"short": [], "other": ["one"]}, text)

    def test_lines_within_a_clause_end_no_contract(self):
        inside = "    ensures one { x\n        ≡ record {\n          a = 1;\n          b = 2;\n        } }\n"
        text = f"pub fn whole(\n    &self,\n)\n{inside}    // why\n    ensures two {{ A }}\n{{\n    body\n}}\n"
        self.assertEqual(self.contract("states::whole", text), ["ensures one { x", "ensures two { A }"])
        self.assertEqual(self.of_pages(text), {"whole": ["one", "two"]})

    def test_the_last_clause_of_a_trait_s_function_counts(self):
        text = "pub trait Gate {\n    fn pass(&self)\n        requires one { A }\n        ensures two { B };\n\n"
        text += "    fn wait(&self)\n        ensures three { C };\n}\n"
        self.assertEqual(self.contract("Gate::pass", text), ["requires one { A }", "ensures two { B }"])
        self.assertEqual(self.of_pages(text), {"pass": ["one", "two"], "wait": ["three"]})

    def test_a_contract_ends_with_its_own_function(self):
        text = "pub trait One {\n    fn one();\n    fn two()\n        ensures kept { true };\n}\n\n"
        text += "pub fn three() ensures told { true } {}\n\npub fn four()\n    ensures few { true }\n    // not {\n"
        text += "    ensures more { true }\n{\n    // ensures none { true }\n}\n"
        wanted = {"one": [], "two": ["kept"], "three": ["told"], "four": ["few", "more"]}
        self.assertEqual(self.of_pages(text), wanted)

    @staticmethod
    def of_pages(text):
        """The names of the clauses of each function, as docs/reference has them."""
        found = clauses.functions_of({"crates/low_laws/src/states.rt": text}, "low_laws")
        return {one.name: [name for _, name, _ in one.clauses] for one, _ in found}


class Citations(unittest.TestCase):
    TEXTS = {
        "crates/low/specs/Lib.antt": "pub mod Two\npub mod One\n",
        "crates/low/specs/One.antt": "abbrev pub told : ℕ\ntold = 1\n",
        "crates/low/specs/Two.antt": "-- Twos.\n-- More.\nuse Rattle.low.specs.One.{told}\n\n-- it is more\nabbrev pub more : ℕ\n"
        "more = told.x.y\n",
        "crates/low/specs/Three.antt": "use Rattle.low.specs.One as one\nuse Rattle.low.specs.Two.{more as other}\n"
        "abbrev pub most : ℕ\nmost = one.told + other\n-- more, two.more, told\nabbrev pub last : ℕ\nlast = most last\n",
        "crates/low/src/a.rt": "ghost use Rattle.low.specs.One.{told};\n\n/// It keeps.\n#[inline]\npub fn f()\n"
        "    ensures kept { told.x.y }\n    ensures { told told }\n    requires no { one.told, more }\n{}\n",
    }

    def test_who_cites_a_definition(self):
        """By the imports of the file, whatever follows the name behind a point; comments cite nothing."""
        crates = clauses.Crates(self.TEXTS, ["low"])
        cited = {one.name: sorted((by.name, clause or "") for by, clause in one.cited) for one in crates.definitions()}
        of_told = [("f", ""), ("f", "kept"), ("more", ""), ("most", "")]
        self.assertEqual(cited, {"told": of_told, "more": [("most", "")], "most": [("last", "")], "last": []})

    def test_files_of_definitions_are_in_the_order_of_their_list(self):
        found = [*clauses.definitions_of(self.TEXTS, "low")]
        self.assertEqual(
            [(file, head) for file, head, _, _ in found], [("Two", "Twos. More."), ("One", ""), ("Three", "")]
        )
        more = found[0][2][0]
        self.assertEqual((more.name, more.type, more.says), ("more", "ℕ", "it is more"))
        ((function, _),) = clauses.functions_of(self.TEXTS, "low")
        self.assertEqual(
            (function.name, function.owner, function.is_public, function.says), ("f", "a", True, "It keeps.")
        )
        told = [("ensures", "kept", "told.x.y"), ("ensures", None, "told told"), ("requires", "no", "one.told, more")]
        self.assertEqual(function.clauses, told)


class Files(unittest.TestCase):
    TEXTS = {
        "crates/low/specs/State.antt": "-- A state.\nabbrev pub State : Type 0\n",
        "crates/low/proofs/more/State.antt": "",
        "docs/A.md": "`State.antt` has it.\n",
    }

    def test_a_file_of_definitions_by_its_name(self):
        said = where.Search("State.antt", self.TEXTS).screen()
        files = "files       low/proofs/more/State.antt; low/specs/State.antt"
        self.assertEqual(said, ["State.antt", files, "documents   docs/A.md:1"])


class Meanings(unittest.TestCase):
    """Two files of definitions have the name `told`; each file of a crate means one of them by its import, another thing, or none."""

    TEXTS = {
        "crates/low/specs/One.antt": "abbrev pub told : ℕ\ntold = 1\nrecord Row : Type 0 where\n  pub most : ℕ\n",
        "crates/low/specs/Two.antt": "abbrev pub told : ℕ\ntold = 2\n",
        "crates/low/src/one.rt": "ghost use Rattle.low.specs.One.{told};\n\nfn first()\n    ensures { told }\n{}\n",
        "crates/low/src/two.rt": "ghost use Rattle.low.specs.Two.{told};\n\nfn second()\n    ensures { told }\n{}\n",
        "crates/low/src/none.rt": "fn third() {\n    told();\n    // as told\n    x.told = Two.told;\n    // told // twice\n}\n",
        "crates/low/src/high.rt": "ghost use Rattle.high.specs.One.{told};\n\nfn other()\n    ensures { told }\n{}\n",
        "crates/low/src/rows.rt": "fn fourth() {\n    x.most;\n}\n",
        "crates/low/src/calls.rt": "ghost use Rattle.low.specs.One.{told};\n\nfn fifth() {\n    f().told = 1;\n    x::told();\n    x.told;\n"
        "    One::told();\n    // as told\n}\n",
        "crates/low/proofs/None.antt": "-- as told\nx = told\n",
        "crates/low/proofs/Ones.antt": "use Rattle.low.specs.One as one\nuse Rattle.low.specs.Two as two\nx = one.told\ny = two.told\n",
        "crates/low/proofs/Named.antt": "use Rattle.low.specs.One.{told as other}\nuse Rattle.low.specs.Two.{told}\nx = told\n",
        "crates/low/proofs/Whole.antt": "use Rattle.low.specs.One\nx = One.told\ny = Two.told\n",
        "crates/low/must-fail/a.edit": "# breaks: One.told\nfile: src/one.rt\nold: told\nnew: tell\n",
        "crates/low/must-fail/n.edit": "# as told\nfile: src/none.rt\nold: told\nnew: tell\n",
        "crates/low/must-fail-more.edits": "\n== b\n# breaks: Two.told\nfile: src/two.rt\nold: told\nnew: tell\n\n"
        "== c\n# breaks: One.told\nfile: src/one.rt\nold: told\nnew: tells\n",
        "crates/low_tests/data/a.cases": "# shows: One.told\ntold 1\n",
        "docs/reference/low.md": "| `told` | one |\n| `Tree::told` | a function |\n",
        "docs/A.md": "`One.told`, `Two.told`\n`Two.told`\nAs told.\n",
        "man/a.1": "As told.\n",
        "python/a.py": "def told():\n    return told()\n",
        "python/b.py": "a.told()\n",
    }

    def hits(self, name):
        """The numbers of the lines of each file, by part."""
        found = where.Search(name, self.TEXTS).hits
        return {part: {path: sorted(at) for path, at in paths.items()} for part, paths in found.items() if paths}

    def test_a_definition_with_its_file_has_its_own_uses(self):
        self.assertEqual(
            self.hits("One.told"),
            {
                "code": {"crates/low/src/calls.rt": [8]},
                "clauses": {"crates/low/src/one.rt": [1, 4], "crates/low/src/calls.rt": [1]},
                "specs": {"crates/low/specs/One.antt": [1, 2]},
                "proofs": {
                    "crates/low/proofs/Ones.antt": [3],
                    "crates/low/proofs/Named.antt": [1],
                    "crates/low/proofs/Whole.antt": [2],
                },
                "edits": {"crates/low/must-fail/a.edit": [1, 3], "crates/low/must-fail-more.edits": [9, 11]},
                "tests": {"crates/low_tests/data/a.cases": [1]},
                "documents": {"docs/A.md": [1], "docs/reference/low.md": [1]},
                "perhaps": {
                    "crates/low/src/none.rt": [3, 5],
                    "crates/low/proofs/None.antt": [1],
                    "crates/low/must-fail/n.edit": [1],
                    "crates/low_tests/data/a.cases": [2],
                    "docs/A.md": [3],
                    "man/a.1": [1],
                    "python/b.py": [1],
                },
            },
        )

    def test_the_other_of_that_name_has_the_others(self):
        found = self.hits("Two.told")
        self.assertEqual(found["clauses"], {"crates/low/src/two.rt": [1, 4]})
        self.assertEqual(found["code"], {"crates/low/src/none.rt": [4]})
        self.assertEqual(found["edits"], {"crates/low/must-fail-more.edits": [3, 5]})
        self.assertEqual(found["documents"]["docs/A.md"], [1, 2])
        proofs = {"Ones.antt": [4], "Named.antt": [2, 3], "Whole.antt": [3]}
        self.assertEqual(found["proofs"], {f"crates/low/proofs/{name}": lines for name, lines in proofs.items()})

    def test_a_field_may_be_meant_by_any_of_its_name(self):
        found = self.hits("One.most")
        self.assertEqual(
            found, {"specs": {"crates/low/specs/One.antt": [4]}, "perhaps": {"crates/low/src/rows.rt": [2]}}
        )

    def test_the_bare_name_has_all_uses(self):
        lines = sum(len(at) for paths in self.hits("told").values() for at in paths.values())
        words = sum(len(re.findall(r".*\btold\b", text)) for text in self.TEXTS.values())
        self.assertEqual(lines, words)


class OfThisRepository(unittest.TestCase):
    @classmethod
    def setUpClass(cls):
        cls.texts = where.repository()

    def test_each_clause_of_the_crates_is_of_one_contract(self):
        """A clause of a function stands four columns right of it; one of a closure, in a body, stands further right."""
        seen = 0
        for path in (path for path in self.texts if re.match(r"crates/\w+/src/.*\.rt$", path)):
            lines, found, wanted, column = self.texts[path].split("\n"), [], [], None
            for at, line in enumerate(lines):
                if clauses.FUNCTION.match(line):
                    column = len(line) - len(line.lstrip()) + 4
                    found += [it for it in range(at, clauses.contract_end(lines, at)) if self.is_clause(lines[it])]
                elif self.is_clause(line) and len(line) - len(line.lstrip()) == column:
                    wanted.append(at)
            self.assertEqual(found, wanted, path)
            seen += len(found)
        self.assertGreater(seen, 2000)

    @staticmethod
    def is_clause(line):
        return line.lstrip().startswith(("requires", "ensures"))

    def test_the_shell_s_status_is_not_the_replay_s(self):
        hits = where.Search("Program.status_of", self.texts).hits
        crates = {
            path.split("/")[1]
            for part in ("code", "clauses", "specs", "laws", "proofs", "edits")
            for path in hits[part]
        }
        self.assertEqual(crates, {"shell_laws", "shell_main"})


class Mutants(unittest.TestCase):
    TEXTS = {
        "mount/mutants/a.c.mutants": "file: mount/src/a.c\n\n== a_b_is_late\nold: x\nnew: y\ntest: events\n",
        "look/mutants/b.py.mutants": "file: look/b.py\n\n== a_b_is_late\nold: x\nnew: y\ntest: test_b::test_c\n",
    }

    def test_a_mutant_names_its_test(self):
        said = [
            f"  mutant of {it} has to fail"
            for it in ("look/b.py: look/test test_b::test_c", "mount/src/a.c: mount/test events")
        ]
        self.assertEqual(where.Search("a_b_is_late", self.TEXTS).screen()[1:3], said)
        self.assertEqual(where.Search("mount/a_b_is_late", self.TEXTS).screen()[1], said[1])
        self.assertFalse([line for line in where.Search("x", self.TEXTS).screen() if "has to fail" in line])


class Words(unittest.TestCase):
    def said(self, *words):
        said = io.StringIO()
        texts = {"a.py": "tool --keep\n# -- told\n# --help, -- and --all\n"}
        with mock.patch.object(where, "repository", lambda: texts), contextlib.redirect_stdout(said):
            with contextlib.redirect_stderr(said):
                return where.main([*words]), said.getvalue().split("\n")

    def test_two_hyphens_end_the_options(self):
        for words, title in (
            (["--", "told"], "told"),
            (["--", "--keep"], "--keep"),
            (["--", "--help"], "--help"),
            (["--all", "--", "--all"], "--all"),
        ):
            status, said = self.said(*words)
            self.assertEqual((status, said[0], said[1][:17]), (0, title, "code        a.py:"), words)

    def test_two_hyphens_alone_ask_for_nothing(self):
        status, said = self.said("--")
        self.assertEqual((status, said[0]), (2, where.__doc__.split("\n", maxsplit=1)[0]))


class Unreadable(unittest.TestCase):
    """Not even root may read a file system that another user has mounted."""

    def test_what_cannot_be_read_is_passed_over(self):
        with tempfile.TemporaryDirectory() as top:
            for name in ("a.py", "b.py", "c/d.py"):
                os.makedirs(os.path.dirname(f"{top}/{name}"), exist_ok=True)
                with open(f"{top}/{name}", "w", encoding="utf-8") as it:
                    it.write("told\n")
            subprocess.run(["git", "init", "-q", top], check=True)
            opened = open

            def refusing(path, *words, **more):
                if path in (f"{top}/b.py", f"{top}/c/d.py"):
                    raise PermissionError(13, "Permission denied", path)
                return opened(path, *words, **more)

            with mock.patch.object(where, "ROOT", top), mock.patch("builtins.open", refusing):
                self.assertEqual(where.repository()["a.py"], "told\n")
                self.assertEqual(where.Search("told", where.repository()).screen()[1:], ["code        a.py:1"])


if __name__ == "__main__":
    unittest.main()
