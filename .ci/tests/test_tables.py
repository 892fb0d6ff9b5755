"""Tests of docs/draw-tables: what it finds in definitions and contracts, and which pages it writes, on a made-up repository."""
import os
import unittest

from scripts import MadeUp, load

tables = load("docs/draw-tables")
from lookup.clauses import clauses_in  # noqa: E402, after the script has set the path

TEXTS = {
    "crates/flat_model/specs/Lib.antt": "pub mod Step\npub mod Count\n",
    "crates/flat_model/specs/Count.antt": """-- What is counted.
use Rattle.std.specs.Prelude.{ℕ}

-- how many there are
abbrev pub count : State → ℕ
count s = counted s

abbrev pub counted : State → ℕ

-- what an answer
-- promises
pub record Keeps (s : State) : Type 0 where
  -- the count is right
  pub counts : count s ≡ 1
  pub exact : count s ≡ 1
  -- nothing else
  pub only : Unit
""",
    "crates/flat_model/specs/Step.antt": """-- one step
abbrev pub step : State → State
""",
    "crates/low/src/lib.rt": "//! Counts groups.\n//!\n//! More.\n",
    "crates/low/src/desk.rt": """ghost use Rattle.flat_model.specs.Count.{
    Keeps,
    count as number,
};
ghost use Rattle.flat_model.specs.Step as model;

impl<A> Model for Desk<A> {
    ghost view = { λ d. number d.state };
}

struct Book {
    ghost sound: { number state },
}

impl<A> Desk<A> {
    /// Counts. It is
    /// fast.
    ///
    /// # Errors
    pub fn count(&self) -> u64
        requires room { 0 < 1 }
        // a comment with requires { Keeps }
        ensures told { result ≡ number self.now }
        ensures { Keeps self.now }
    {
        let requires = number;
    }

    fn step(&self)
        ensures stepped { model.step self }
    {
    }
}
""",
    "crates/low_laws/src/counts.rt": """ghost use Rattle.flat_model.specs.Count.{count};

/// A count is one.
pub fn counts_are_one()
    ensures one { (s : State)
        → count s ≡ 1 }
{}
""",
}
USES = {"flat_model": [], "low": ["flat_model", "memchr"], "low_laws": ["flat_model"]}


class Tables(unittest.TestCase):
    def setUp(self):
        self.crates = tables.Crates(TEXTS, list(USES))

    def test_definitions_with_who_cites_them(self):
        lines = list(tables.definitions_of(self.crates, "flat_model"))
        self.assertEqual(lines[:2], ["", "## Definitions"])
        self.assertEqual(
            [line for line in lines if line.startswith("| ")][1:],
            [
                "| **`Step`** |  |  | |",
                "| `step` | one step | `Desk::step` (`stepped`) |  |",
                "| **`Count`** | What is counted. | Also `counted` | |",
                "| `count` | how many there are | the view of `Desk`, the invariant of `Book`, `Desk::count` (`told`) "
                "| `counts::counts_are_one` |",
                "| `Keeps` | what an answer promises | `Desk::count` |  |",
            ],
        )

    def test_calls_with_their_clauses(self):
        self.assertEqual(
            list(tables.calls_of(self.crates, "low")),
            [
                "",
                "## Calls",
                "",
                "| Call | What it does | Requires | Proved |",
                "|---|---|---|---|",
                "| `Desk::count` | Counts. It is fast. | `room` | `told`, `Keeps self.now` |",
            ],
        )

    def test_each_form_of_a_clause(self):
        contract = """pub fn run(&mut self, rt: &R)
        requires { a }
        requires room { b < 1 }
        requires* { emp }
        requires* held { sem (c self) }
        ensures { d }
        ensures told { { n : N } → n ≡ e }
        ensures* { f
            ∗ g }
        ensures* after { sem (h {A = B} self.new) }
"""
        self.assertEqual(
            list(clauses_in(contract)),
            [
                ("requires", None, "a"),
                ("requires", "room", "b < 1"),
                ("requires", None, "emp"),
                ("requires", "held", "sem (c self)"),
                ("ensures", None, "d"),
                ("ensures", "told", "{ n : N } → n ≡ e"),
                ("ensures", None, "f ∗ g"),
                ("ensures", "after", "sem (h {A = B} self.new)"),
            ],
        )

    def test_a_clause_after_a_record_on_several_lines(self):
        text = TEXTS["crates/low_laws/src/counts.rt"].replace(
            "    ensures one {", "    ensures first { Some (record {\n          a = 0;\n        }) }\n    ensures one {"
        )
        crates = tables.Crates(TEXTS | {"crates/low_laws/src/counts.rt": text}, list(USES))
        (law, _), *others = crates.functions["low_laws"]
        self.assertEqual(
            (str(law), [name for _, name, _ in law.clauses], others), ("counts::counts_are_one", ["first", "one"], [])
        )

    def test_a_page_has_what_the_crate_has(self):
        self.assertEqual(
            tables.page_of(self.crates, USES, "low_laws"),
            ["# `low_laws`", "", "## Laws", "", "| Law | What it says |", "|---|---|"]
            + ["| `counts::counts_are_one` | A count is one. |"],
        )
        low = tables.page_of(self.crates, USES, "low")
        self.assertEqual(low[:5], ["# `low`", "", "Counts groups. It trusts `memchr`.", "", "## Calls"])
        self.assertEqual(
            [line for line in tables.page_of(self.crates, USES, "flat_model") if line[:2] == "##"], ["## Definitions"]
        )

    def test_a_law_beside_calls_is_only_a_law(self):
        law = TEXTS["crates/low_laws/src/counts.rt"]
        crates = tables.Crates(TEXTS | {"crates/low/src/laws.rt": law}, list(USES))
        page = tables.page_of(crates, USES, "low")
        self.assertEqual([line for line in page if "counts_are_one" in line], [page[-1]])
        self.assertEqual(page[-5:-4], ["## Laws"])

    def test_the_list_leads_to_the_pages(self):
        crates = tables.Crates(TEXTS, [*USES, "empty"])
        rows = [line for line in tables.index(crates, {**USES, "empty": []}) if line.startswith("| ")]
        self.assertEqual(
            rows[1:],
            [
                "| [`flat_model`](flat_model.md) |  |",
                "| [`low`](low.md) | Counts groups. |",
                "| [`low_laws`](low_laws.md) |  |",
                "| `empty` |  |",
            ],
        )

    def test_a_comment_is_for_the_fields_up_to_the_next_one(self):
        one = self.crates.by_name["flat_model", "Count", "Keeps"]
        self.crates.by_name["undo_journal", "Headline", "KeepsHistory"] = one
        self.assertEqual(
            list(tables.table_of_headline(self.crates))[3:],
            ["| `counts`, `exact` | the count is right |", "| `only` | nothing else |"],
        )

    def test_fields_above_the_first_comment(self):
        text = (
            "pub record KeepsHistory : Type 0 where\n  pub first : A\n  pub again : A\n  -- the rest\n  pub rest : A\n"
        )
        found = tables.Crates({"crates/undo_journal/specs/Headline.antt": text}, ["undo_journal"])
        rows = list(tables.table_of_headline(found))[3:]
        self.assertEqual(rows, ["| `first`, `again` |  |", "| `rest` | the rest |"])

    def test_a_definition_without_a_comment_shows_what_it_is(self):
        text = (
            "-- Limits.\nuse Rattle.std.specs.Prelude.{ℕ}\n\npub data Limit : Type 0 where\n  -- none\n  Unlimited : Limit\n"
            "  At : ℕ → Limit\n\npub record Limits : Type 0 where\n  pub pids : Limit\n\nabbrev pub is_at : Limit → Bool\n"
            "is_at l = true\n"
        )
        found = tables.Crates({"crates/low/specs/Limit.antt": text}, ["low"]).by_name
        meanings = [tables.meaning_of(found["low", "Limit", name]) for name in ("Limit", "Limits", "is_at")]
        self.assertEqual(meanings, ["`Unlimited`, `At`", "`pids`", "`Limit → Bool`"])

    def test_what_is_too_long_is_cut(self):
        self.assertEqual(tables.cut("One. Two three.", 12), "One.")
        self.assertEqual(tables.cut("one `two three` four", 14), "one `two` ..")
        self.assertEqual(tables.cut("a | b\n\nnext"), "a \\| b")
        self.assertEqual(tables.listed(["one", "two", "three"], 8), "one, two and 1 more")
        self.assertEqual(tables.listed([], 8), "")


class Pages(MadeUp):
    program = tables
    PROVED = (
        "# Proved\n\n<!-- generated by docs/draw-tables: headline -->\n%s<!-- end of what is generated -->\nby hand\n"
    )

    def setUp(self):
        super().setUp()
        for path, text in TEXTS.items():
            self.write(path, text)
        headline = "pub record KeepsHistory (s : State) : Type 0 where\n  -- it is right\n  pub counts : s ≡ s\n"
        self.write("crates/undo_journal/specs/Headline.antt", f"-- The headline.\n{headline}")
        self.write(
            "crates.txt", "flat_model:\nlow: flat_model memchr\nlow_laws: flat_model\nundo_journal: flat_model\n"
        )
        self.write("docs/PROVED.md", self.PROVED % "")
        os.makedirs(f"{self.top}/docs/reference")

    def test_pages_are_written_and_then_current(self):
        names = sorted(["PROVED.md", *(f"reference/{it}.md" for it in ("README", *USES, "undo_journal"))])
        lines = self.run_with("--check", status=1)
        self.assertEqual(sorted(lines), [f"docs/{name} is not what docs/draw-tables writes" for name in names])
        self.assertFalse(os.listdir(f"{self.top}/docs/reference"))
        self.assertEqual(sorted(self.run_with()), [f"wrote docs/{name}" for name in names])
        self.assertEqual(self.run_with("--check"), [])
        text = self.read("docs/reference/low.md")
        self.assertTrue(text.startswith("<!-- generated by docs/draw-tables: low -->\n\n# `low`\n"), text)
        self.assertTrue(text.endswith("\n\n<!-- end of what is generated -->\n"), text)
        proved = self.read("docs/PROVED.md")
        self.assertIn("\n| `counts` | it is right |\n", proved)
        self.assertTrue(proved.endswith("-->\nby hand\n"))

    def test_a_page_of_no_crate_is_found_and_removed(self):
        self.run_with()
        self.write("docs/reference/gone.md", "# gone\n")
        self.assertEqual(
            self.run_with("--check", status=1), ["docs/reference/gone.md is not what docs/draw-tables writes"]
        )
        self.assertEqual(self.run_with(), ["removed docs/reference/gone.md"])
        self.assertFalse(os.path.exists(f"{self.top}/docs/reference/gone.md"))

    def test_a_page_has_each_part_once(self):
        part = self.PROVED % ""
        for text in ("# Proved\n", part + part, part.replace("headline", "another")):
            self.write("docs/PROVED.md", text)
            with self.assertRaisesRegex(SystemExit, "^docs/PROVED.md: not the parts headline$"):
                self.run_with()

    def test_a_page_that_was_edited_is_found(self):
        self.run_with()
        self.write("docs/reference/low.md", self.read("docs/reference/low.md").replace("fast", "slow"))
        self.assertEqual(
            self.run_with("--check", status=1), ["docs/reference/low.md is not what docs/draw-tables writes"]
        )


if __name__ == "__main__":
    unittest.main()
