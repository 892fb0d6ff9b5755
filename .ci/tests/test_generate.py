"""Tests of ./generate on a copy of the files that it writes."""
import os
import re
import shutil
import subprocess
import sys
import tempfile
import unittest

TOP = os.path.dirname(os.path.dirname(os.path.dirname(os.path.realpath(__file__))))
HEADER = "bindings/c/makhloeum.h"
LIBRARY, SONAME = "bindings/python/makhloeum/_library.py", "bindings/c/tests/soname.c"
TRACE = ".ci/refused/traces/every_file.trace"


class Generate(unittest.TestCase):
    def setUp(self):
        self.top = tempfile.mkdtemp()
        self.addCleanup(shutil.rmtree, self.top)
        named = re.search(r"TARGETS = \((.*?)\n\)", self.read("generate", TOP), re.S)[1] + f'"{TRACE}"'
        generating = [f"generating/{name}" for name in os.listdir(os.path.join(TOP, "generating"))]
        sources = [path for path in generating if path.endswith(".py")]
        read = ("generate", "crates/word_tables/stdout", ".ci/state/promised")
        for path in (*read, *sources, *re.findall(r'"(.+?)"', named)):
            os.makedirs(os.path.dirname(os.path.join(self.top, path)), exist_ok=True)
            shutil.copy(os.path.join(TOP, path), os.path.join(self.top, path))

    def read(self, path, top=None):
        with open(os.path.join(top or self.top, path), encoding="utf-8") as it:
            return it.read()

    def replace(self, path, old, new):
        text = self.read(path)
        self.assertIn(old, text)
        with open(os.path.join(self.top, path), "w", encoding="utf-8") as it:
            it.write(text.replace(old, new))

    def run_generate(self, *words):
        ran = subprocess.run(
            [sys.executable, os.path.join(self.top, "generate"), *words],
            capture_output=True,
            text=True,
            check=False,
        )
        return ran.returncode, (ran.stdout + ran.stderr).strip()

    def test_current(self):
        self.assertEqual(self.run_generate("--check"), (0, ""))
        self.assertEqual(self.run_generate(), (0, ""))

    def test_a_changed_part_is_reported_and_written_again(self):
        whole = self.read(HEADER)
        self.replace(HEADER, "\tMK_EXISTS = 1,\n", "\tMK_EXISTS = 7,\n")
        self.assertEqual(self.run_generate("--check"), (1, f"{HEADER} is not what ./generate writes"))
        self.assertEqual(self.run_generate(), (0, f"wrote {HEADER}"))
        self.assertEqual(self.read(HEADER), whole)

    def test_a_changed_table_reaches_the_header(self):
        self.replace("crates/word_tables/stdout", "fault\t36\t", "fault\t40\t")
        self.assertEqual(self.run_generate("--check")[0], 1)
        self.run_generate()
        self.assertIn("\tMK_VALUE = 40\n", self.read(HEADER))

    def test_a_new_file_reaches_the_lists_of_tests(self):
        peak = "file\tpids.peak\t"
        self.replace("crates/word_tables/stdout", peak, "file\tpids.new\tno\tyes\t-\tno\tthe number\n" + peak)
        self.run_generate()
        self.assertEqual(self.read(TRACE).count("cat /k/a pids.new\n"), 3)
        self.assertIn('    "pids.new": b"0\\n",\n', self.read("mount/tests/files/files.py"))
        self.assertIn('\t{ "pids.new", false, 0444 },\n', self.read("look/tests/check/faulty.c"))
        self.assertIn('    (File::PidsNew, "pids.new", false),\n', self.read("evidence/bench/plain/lines.rs"))
        self.assertIn("`.current`, `.new`, `.peak`", self.read("README.md"))

    def add_call(self, declared, page="man/mk_current.3"):
        """Declares a call in the header, and names it on the page."""
        self.replace(HEADER, "uint32_t mk_limit(", f"{declared}\nuint32_t mk_limit(")
        name = re.search(r"mk_\w+", declared)[0]
        self.replace(page, "\nmk_current, mk_peak,", f"\nmk_current, {name}, mk_peak,")

    def test_a_new_call_of_c_reaches_python_and_its_page(self):
        self.add_call("uint32_t mk_level(mk_handle *h,\n\tconst char *path, uint64_t *value, mk_info *info);")
        status, said = self.run_generate()
        self.assertEqual((status, said), (0, f"wrote {LIBRARY}\nwrote man/mk_current.3"))
        self.assertIn('        "mk_level": (number, [handle, text, count, info]),\n', self.read(LIBRARY))
        wanted = '.BI "uint32_t mk_level(mk_handle *" h ", const char *" path ", uint64_t *" value ","\n.BI "    mk_info *" info );\n'
        self.assertIn(wanted, self.read("man/mk_current.3"))

    def test_a_call_without_parameters_and_a_pointer_that_is_returned(self):
        self.add_call("const char *mk_level(void);")
        self.run_generate()
        self.assertIn('        "mk_level": (text, []),\n', self.read(LIBRARY))
        self.assertIn(".B const char *mk_level(void);\n", self.read("man/mk_current.3"))

    def test_a_type_without_one_in_python_is_an_error(self):
        self.add_call("uint32_t mk_level(mk_handle *h, double *value);")
        said = f"{HEADER}: mk_level has a `double *`, for which generating/calls.py has no type of Python"
        self.assertEqual(self.run_generate("--check"), (1, said))

    def test_a_page_that_names_no_call_is_an_error(self):
        self.replace("man/mk_current.3", "\nmk_current, mk_peak,", "\nmk_current, mk_level, mk_peak,")
        said = "man/mk_current.3 names mk_level, which bindings/c/makhloeum.h doesn't declare"
        self.assertEqual(self.run_generate("--check"), (1, said))

    def test_the_soname_stands_for_what_is_stored(self):
        declared = "uint32_t mk_peak(mk_handle *h, const char *path, uint64_t *value, mk_info *info)"
        self.replace(HEADER, declared, declared.replace("uint64_t", "uint32_t"))
        self.assertEqual(self.run_generate()[1], f"wrote {LIBRARY}\nwrote man/mk_current.3")
        self.replace(".ci/state/promised", declared, declared.replace("uint64_t", "uint32_t"))
        self.assertEqual(self.run_generate()[1], f"wrote {SONAME}")
        self.assertIn(
            "\tCALL(mk_peak, uint32_t, mk_handle *, const char *, uint32_t *, mk_info *);\n", self.read(SONAME)
        )

    def test_a_new_number_of_a_group_reaches_the_lists_of_tests(self):
        calls, row = "generating/calls.py", '    ("peak", "count", "pids.peak", 2),\n'
        self.replace(calls, row, row + row.replace("peak", "level").replace("count", "limit"))
        self.run_generate()
        for path, line in (
            ("bindings/c/tests/check.h", '\t{ "level", .count = mk_level }, /* pids.level */\n'),
            ("bindings/tests/models/driver.c", '\t{ "level", .count = mk_level }, /* pids.level */\n'),
            ("bindings/tests/models/driver.py", '    "level": lambda h, path: limit(h.level(path)),\n'),
            ("bindings/tests/models/draw.py", '    "level": 2,\n'),
            ("bindings/tests/models/draw.py", '    *("current", "peak", "level", "limit", "populated"),\n'),
            ("bindings/tests/models/go/main.go", '\tcase "level":\n\t\treturn limit(h.Level(w[0]))\n'),
            ("bindings/python/tests/test_errors.py", '    "mk_level": (lambda h: h.level("/a"), "level /a"),\n'),
            ("bindings/python/tests/test_documented.py", '    "level": [(("/c",), "NoGroup"), (("/",), "NoFile")],\n'),
            (
                "bindings/go/tables_test.go",
                '\t"level":     func(h *Hierarchy, path string) error { _, _, err := h.Level(path); return err },\n',
            ),
        ):
            self.assertIn(line, self.read(path))

    def test_a_file_without_parts_is_written_whole(self):
        whole = self.read(TRACE)
        self.replace(TRACE, "fork 1 9\n", "")
        self.assertEqual(self.run_generate("--check"), (1, f"{TRACE} is not what ./generate writes"))
        self.run_generate()
        self.assertEqual(self.read(TRACE), whole)

    def test_what_is_written_by_hand_stays(self):
        self.replace(HEADER, "#ifndef MAKHLOEUM_H", "/* by hand */\n#ifndef MAKHLOEUM_H")
        self.assertEqual(self.run_generate("--check"), (0, ""))

    def test_a_part_with_the_mark_of_crates_is_an_error_elsewhere(self):
        self.replace(HEADER, "generated by ./generate: statuses", "generated by bindings/generate: statuses")
        said = f"{HEADER}: a part is marked `generated by bindings/generate: NAME`, not `generated by ./generate: NAME`"
        self.assertEqual(self.run_generate("--check"), (1, said))

    def test_a_part_without_its_end_is_an_error(self):
        self.replace(HEADER, "/* end of what is generated */", "")
        status, said = self.run_generate()
        self.assertEqual((status, said), (1, f"{HEADER}: a part without its end, or none"))


if __name__ == "__main__":
    unittest.main()
