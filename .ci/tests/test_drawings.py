"""Tests of docs/draw-architecture and docs/draw-measurements: what they read, what is where in the pictures, and their words."""
import contextlib
import io
import itertools
import os
import re
import shutil
import tempfile
import unittest
from unittest import mock
from xml.etree import ElementTree

from scripts import TOP, load

architecture = load("docs/draw-architecture")
measurements = load("docs/draw-measurements")
SVG = "{http://www.w3.org/2000/svg}"


class Made(unittest.TestCase):
    def setUp(self):
        self.top = tempfile.mkdtemp()
        self.addCleanup(shutil.rmtree, self.top)

    def write(self, name, text):
        with open(f"{self.top}/{name}", "w", encoding="utf-8") as it:
            it.write(text)
        return f"{self.top}/{name}"

    def read(self, name):
        with open(f"{self.top}/{name}", encoding="utf-8") as it:
            return it.read()


class Crates(Made):
    TEXT = "# é: a comment\n\nlow: std\n  mid kind: low std \nhigh:low mid\nlow_tests: low\n"
    USES = {"low": [], "mid": ["low"], "high": ["low", "mid"], "low_tests": ["low"]}

    def test_each_crate_has_those_of_the_repository_that_it_uses(self):
        with mock.patch.object(architecture, "CRATES", self.write("crates.txt", self.TEXT)):
            self.assertEqual(architecture.read_crates(), self.USES)

    def test_an_arrow_that_a_longer_way_says_is_left_out(self):
        uses = {"a": ["d", "b"], "b": ["c"], "c": ["d"], "d": [], "e": ["a", "c"]}
        self.assertEqual(architecture.below(uses, "a"), {"b", "c", "d"})
        wanted = {"a": ["b"], "b": ["c"], "c": ["d"], "d": [], "e": ["a"]}
        self.assertEqual(architecture.without_shortcuts(uses), wanted)
        self.assertEqual(architecture.levels_of(uses), {"d": 0, "c": 1, "b": 2, "a": 3, "e": 4})

    def test_crates_at_the_side(self):
        for name, is_aside in (
            ("a_laws", True),
            ("a_tests", True),
            ("test_support", True),
            ("laws", False),
            ("tests_a", False),
        ):
            self.assertIs(architecture.is_aside(name), is_aside, name)

    def test_a_step_of_the_line_has_to_be_a_use(self):
        uses = architecture.read_crates()
        uses["trace_lines"].remove("undo_journal")
        with self.assertRaises(SystemExit) as failed:
            architecture.drawn(uses)
        said = "docs/draw-architecture: crates.txt no longer says that trace_lines uses undo_journal"
        self.assertEqual(str(failed.exception), said)


class Picture(unittest.TestCase):
    """That of the crates as they are."""

    @classmethod
    def setUpClass(cls):
        cls.uses = architecture.read_crates()
        cls.root = ElementTree.fromstring(architecture.drawn(cls.uses))
        cls.boxes = {}
        parts = list(cls.root)
        for at, part in enumerate(parts):
            if part.tag == f"{SVG}rect" and part.get("rx") == "5" and part.get("class") != "ground":
                cls.boxes[parts[at + 1].text] = [float(part.get(it)) for it in ("x", "y", "width", "height")]
                cls.boxes[parts[at + 1].text].append(part.get("class"))
        cls.shown = {
            **{
                name: lows
                for name, lows in cls.uses.items()
                if name != "flat_model" and not re.search("_(laws|tests)$", name)
            },
            **architecture.ABOVE,
        }
        for name in ("test_support", "test_devices"):
            del cls.shown[name]

    def test_each_crate_that_a_program_needs_is_drawn_above_those_that_it_uses(self):
        self.assertEqual(sorted(self.boxes), sorted(self.shown))
        for name, lows in self.shown.items():
            for low in set(lows) & set(self.boxes):
                self.assertLess(self.boxes[name][1] + self.boxes[name][3], self.boxes[low][1], (name, low))

    def test_no_box_covers_another_one_or_leaves_the_picture(self):
        _, _, width, height = map(float, self.root.get("viewBox").split())
        for x, y, wide, tall, _ in self.boxes.values():
            self.assertTrue(0 <= x and 0 <= y and x + wide <= width - architecture.SIDE and y + tall <= height)
        for (one, a), (other, b) in itertools.combinations(self.boxes.items(), 2):
            apart = a[0] + a[2] <= b[0] or b[0] + b[2] <= a[0] or a[1] + a[3] <= b[1] or b[1] + b[3] <= a[1]
            self.assertTrue(apart, (one, other))
        for name, box in self.boxes.items():
            self.assertGreater(box[2], 7 * len(name), "its name has room")

    def test_an_arrow_leads_from_each_box_to_one_that_it_uses(self):
        ends = {}
        for part in self.root.iter(f"{SVG}path"):
            if "marker-end" in part.attrib:
                numbers = re.findall(r"-?\d+", part.get("d"))
                places = [tuple(map(int, it)) for it in (numbers[:2], numbers[-2:])]
                names = []
                for (x, y), side in zip(places, (1, 0)):
                    at = [
                        name
                        for name, (left, top, wide, tall, _) in self.boxes.items()
                        if y == top + side * tall and abs(left + wide / 2 - x) <= 1
                    ]
                    self.assertEqual(len(at), 1, part.get("d"))
                    names += at
                ends[tuple(names)] = (part.get("class"), part.get("marker-end"))
        for name, lows in self.shown.items():
            lows = [low for low in lows if low in self.boxes]
            far = {low for low in lows for other in lows if low in self.reached(other)}
            self.assertEqual({low for high, low in ends if high == name}, set(lows) - far, name)
        line = {(high, low) for low, high, _ in architecture.STEPS if high}
        marked = {pair for pair, kind in ends.items() if kind == ("edge path", "url(#marked)")}
        self.assertEqual(marked, line & set(ends))
        self.assertEqual({kind for pair, kind in ends.items() if pair not in marked}, {("edge", "url(#head)")})

    def reached(self, name):
        return {low for it in self.shown.get(name, ()) for low in (it, *self.reached(it))}

    def test_the_kind_of_each_box(self):
        programs = {name for name in self.uses if os.path.exists(f"{TOP}/crates/{name}/src/main.rt")}
        steps = {name for name, _, _ in architecture.STEPS}
        for name, (*_, kind) in self.boxes.items():
            wanted = "tested" if name in architecture.ABOVE else "program" if name in programs else "box"
            self.assertEqual(kind, wanted + " path" * (name in steps), name)

    def test_the_side_has_the_steps_and_the_other_crates(self):
        said = [part.text for part in self.root.iter(f"{SVG}text")]
        for number, (name, _, what) in enumerate(architecture.STEPS, 1):
            self.assertEqual(said.count(f"{number}. {name}: {what}"), 1)
            self.assertEqual(said.count(str(number)), 1)
        listed = [name for text in said for name in text.split(", ") if name in self.uses and name not in self.boxes]
        self.assertEqual(sorted(listed), sorted(set(self.uses) - set(self.boxes) - {"flat_model"}))
        places = [float(part.get("y")) for part in self.root.iter(f"{SVG}text") if part.get("x") == "850"]
        self.assertEqual(places, sorted(set(places)), "no line is over another one")
        self.assertLess(places[-1], float(self.root.get("viewBox").split()[3]))


TABLE = """# Figures

| Trace | Plain Rust | 1 worker |
|---|---|---|
| not this | 9 s | 9 s |

## The program

Some words.

| Trace | Plain Rust | 1 worker | 8 workers | Memory |
|---|---|---|---|---|
| forks & <more> | 2.0 s, 3 MB | 3.0 s, 5 MB | 1.0 s | 7 |
| kills | 0.5 s | 2 s | 0.25 s | 8 |

| Another | Table |
"""


class Measurements(unittest.TestCase):
    ROWS = [
        ("forks & <more>", {"Plain Rust": 2.0, "1 worker": 3.0, "8 workers": 1.0}),
        ("kills", {"Plain Rust": 0.5, "1 worker": 2.0, "8 workers": 0.25}),
    ]

    def test_the_table_of_the_program(self):
        self.assertEqual(measurements.rows_of(TABLE), self.ROWS)

    def test_each_bar_is_a_multiple_of_plain_rust(self):
        root = ElementTree.fromstring(measurements.draw(self.ROWS))
        bars = [
            [float(it.get(of)) for of in ("x", "y", "width", "height")]
            for it in root.iter(f"{SVG}rect")
            if it.get("class") == "bar"
        ]
        ones = [
            [float(it.get(of)) for of in ("x1", "x2", "y1", "y2")]
            for it in root.iter(f"{SVG}line")
            if it.get("class") == "one"
        ]
        zeros = [
            [float(it.get(of)) for of in ("x1", "x2", "y1", "y2")]
            for it in root.iter(f"{SVG}line")
            if it.get("class") == "grid"
        ]
        self.assertEqual((len(bars), len(ones), len(zeros)), (4, 2, 2))
        ratios = (1.5, 4.0, 0.5, 0.5)
        for at, ((x, _, width, tall), ratio) in enumerate(zip(bars, ratios)):
            one, zero = ones[at // 2], zeros[at // 2]
            self.assertEqual((one[0], zero[0], x), (one[1], zero[1], zero[0]))
            self.assertAlmostEqual(width, ratio * (one[0] - x), delta=0.2)
            self.assertLessEqual(x + width, zero[0] + measurements.PANEL)
        texts = [
            (it.text, float(it.get("x")), float(it.get("y")), it.get("text-anchor")) for it in root.iter(f"{SVG}text")
        ]
        for row, (label, _) in enumerate(self.ROWS):
            (place,) = [it for it in texts if it[0] == label]
            self.assertEqual(place[3], "end")
            for x, y, _, tall in bars[row::2]:
                self.assertTrue(y < place[2] <= y + tall and place[1] < x, "a label is beside its bars")
        for (x, y, width, tall), ratio in zip(bars, ratios):
            at = [
                it
                for it in texts
                if it[0] == f"{ratio:.1f}" and x + width < it[1] < x + width + 10 and y < it[2] < y + tall
            ]
            self.assertEqual(len(at), 1, ratio)
        self.assertEqual([it[0] for it in texts if it[0] in ("1 worker", "8 workers")], ["1 worker", "8 workers"])
        width, height = float(root.get("width")), float(root.get("height"))
        self.assertEqual(root.get("viewBox"), f"0 0 {width:.0f} {height:.0f}")
        self.assertTrue(all(x + wide <= width and y + tall <= height for x, y, wide, tall in bars))


class Words(Made):
    def said(self, program, *words):
        said = io.StringIO()
        with contextlib.redirect_stdout(said), mock.patch("sys.argv", ["it", *words]):
            status = program.main([*words]) if program is architecture else program.main()
        return status, said.getvalue()

    def test_a_picture_is_drawn_and_compared(self):
        """The picture that is compared is that of the repository; a check writes nothing."""
        for program, name in ((architecture, "docs/draw-architecture"), (measurements, "docs/draw-measurements")):
            self.assertEqual(self.said(program, "--check"), (0, ""))
            with mock.patch.object(program, "PICTURE", self.write("picture", "another")):
                status, said = self.said(program, "--check")
                self.assertEqual((status, self.read("picture")), (1, "another"))
                self.assertIn(f"is not what {name} draws", said)
                self.assertEqual(self.said(program), (0, ""))
                self.assertEqual(self.said(program, "--check"), (0, ""))
                with open(f"{TOP}/docs/{name.split('-')[1]}.svg", encoding="utf-8") as it:
                    self.assertEqual(self.read("picture"), it.read())
        with mock.patch.object(architecture, "PICTURE", f"{self.top}/none"):
            self.assertEqual(self.said(architecture, "--wrong"), (2, f"{architecture.__doc__}\n"))
        self.assertFalse(os.path.exists(f"{self.top}/none"))


if __name__ == "__main__":
    unittest.main()
