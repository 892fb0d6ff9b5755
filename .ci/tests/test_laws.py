"""Tests of .ci/laws: which definitions have no law, in a made-up repository."""
import unittest

from scripts import MadeUp, load

laws = load(".ci/laws")

SPECS = """-- What is counted.
abbrev pub count : State → ℕ
count s = counted s

abbrev pub counted : State → ℕ
counted s = 0
"""
DESK = """ghost use Rattle.low.specs.Count.{count, counted};

impl<A> Model for Desk<A> {
    ghost view = { λ d. counted d.state };
}

impl<A> Desk<A> {
    pub fn count(&self) -> u64
        ensures told { result ≡ count self.now }
    {
    }

    fn step(&self)
        ensures { counted self.now ≡ 1 }
    {
    }
}
"""
LAW = """ghost use Rattle.low.specs.Count.{count};

/// A count is small.
pub fn counts_are_small()
    ensures { (s : State) → count s ≤ 1 }
{}
"""


class Laws(MadeUp):
    program = laws

    def setUp(self):
        super().setUp()
        self.write("crates.txt", "# lowest first\n\nlow:\nlow_laws: low\nlow_tests: low\ntest_desk: low\n")
        self.write("crates/low/specs/Lib.antt", "pub mod Count\n")
        self.write("crates/low/specs/Count.antt", SPECS)
        self.write("crates/low/src/desk.rt", DESK)

    def test_a_cited_definition_without_a_law_is_named(self):
        self.assertEqual(self.run_with(status=1), ["low Count.count: no law names it, and Desk::count cites it"])

    def test_a_law_that_names_it_is_enough(self):
        self.write("crates/low_laws/src/counts.rt", LAW)
        self.assertEqual(self.run_with(), [])

    def test_a_module_of_laws_in_its_own_crate_is_enough(self):
        self.write("crates/low/src/laws.rt", LAW)
        self.assertEqual(self.run_with(), [])

    def test_a_definition_that_another_law_needs_is_not_named_by_it(self):
        self.write("crates/low_laws/src/counts.rt", LAW)
        self.write("crates/low/src/desk.rt", DESK.replace("    fn step", "    pub fn step"))
        self.assertEqual(
            self.run_with(status=1),
            ["low Count.counted: no law names it, and Desk::step cites it"],
        )

    def test_each_call_is_named_once(self):
        more = "    ensures room { count self.now ≤ 9 }\n    {"
        self.write("crates/low/src/desk.rt", DESK.replace("self.now }\n    {", "self.now }\n    " + more, 1))
        self.assertEqual(len(self.run_with(status=1)), 1)

    def test_every_call_is_named(self):
        more = "    pub fn again(&self)\n        ensures { count self.now ≡ 1 }\n    {\n    }\n"
        self.write("crates/low/src/desk.rt", DESK.replace("    fn step", more + "\n    fn step"))
        fault = "low Count.count: no law names it, and Desk::count, Desk::again cites it"
        self.assertEqual(self.run_with(status=1), [fault])

    def test_a_clause_of_a_test_needs_no_law(self):
        self.write("crates/low/src/desk.rt", "//! Empty.\n")
        for crate in ("low_tests", "test_desk"):
            self.write(f"crates/{crate}/src/desk.rt", DESK)
        self.assertEqual(self.run_with(), [])

    def test_an_argument_is_refused(self):
        self.said("low", status=2)


if __name__ == "__main__":
    unittest.main()
