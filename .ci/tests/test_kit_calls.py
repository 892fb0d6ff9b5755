"""Tests of .ci/over-libraries, .ci/static-library and .ci/slowest, with scripts in place of the kit."""
import os
import shutil
import subprocess
from unittest import main, mock

from scripts import TOP, MadeUp, load

slowest = load(".ci/slowest")
assumed = load(".ci/assumed")
# It logs its words, and proves three functions: one at once, one that takes processor time, one at once.
RATTLE = """#!/bin/bash
printf '%%s\\n' "$PWD" "$@" >%s/calls
[ ! -e %s/fails ] || { echo "not proved: a hole" >&2; exit 1; }
while [ $# -gt 0 ]; do
  case $1 in -o) echo built >"$2" ;; --progress) steps=yes ;; esac
  shift
done
if [ -n "${steps:-}" ]; then
  echo "checked high::quick, 1 of 3"
  for ((i = 0; i < 200000; i++)); do :; done
  echo "checked high::slow, 2 of 3"
  echo "checked high::last, 3 of 3"
fi
echo "logic=proved functions=3"
"""


class OverLibraries(MadeUp):
    program = slowest

    def setUp(self):
        super().setUp()
        for name in ("over-libraries", "static-library"):
            os.makedirs(f"{self.top}/.ci", exist_ok=True)
            shutil.copy(f"{TOP}/.ci/{name}", f"{self.top}/.ci/{name}")
        self.write("tools/rt", f'#!/bin/sh\n[ "$1" = doc ] && echo {self.top}/kit/START-HERE.md\n', 0o755)
        self.write("kit/bin/rattle", RATTLE % (self.top, self.top), 0o755)
        self.write(".ci/assumed", f'#!/bin/sh\necho "$1 $(cat "$2")" >{self.top}/compared\n', 0o755)
        self.write(
            "crates.txt", "# A head\nlow:\nlower: low\nhigh with-words: low memchr\nc_library: high\nprogram: high\n"
        )
        for name in ("low", "high", "c_library"):
            self.write(f"crates/{name}/src/lib.rt", "")
            os.makedirs(f"{self.top}/crates/{name}/out/rlib")
        self.write("crates/program/src/main.rt", "")
        patcher = mock.patch.dict(os.environ, PATH=f"{self.top}/tools:{os.environ['PATH']}")
        patcher.start()
        self.addCleanup(patcher.stop)

    def words(self, crate):
        """The words with which the crate is read, in the order in which they are printed."""
        top, libraries = self.top, {"low": [], "high": ["low", "memchr"], "c_library": ["high"], "program": ["high"]}
        found = ["--crate-name", crate, "src/main.rt" if crate == "program" else "src/lib.rt"]
        for name in ["std", *libraries[crate]]:
            is_ours = name in libraries
            found += [
                "--extern",
                f"{name}={top}/crates/{name}/out/rlib/{name}.rlib"
                if is_ours
                else f"{name}={top}/kit/rlibs/{name}.rlib",
            ]
        for folder in (f"{top}/kit/rlibs", *(f"{top}/crates/{name}/out/rlib" for name in ("c_library", "high", "low"))):
            found += ["-L", f"dependency={folder}"]
        return [
            *found,
            "--antt-project",
            f"{top}/kit/rattle/logic/antt-project.json",
            "--logic-built",
            f"{top}/kit/logic_built",
        ]

    def run_it(self, *words):
        ran = subprocess.run(words, cwd=self.top, capture_output=True, text=True, timeout=600)
        return ran.returncode, ran.stdout

    def test_a_crate_is_read_over_its_libraries(self):
        for crate in ("low", "high", "c_library", "program"):
            status, said = self.run_it(f"{self.top}/.ci/over-libraries", crate)
            self.assertEqual((status, said.splitlines()), (0, self.words(crate)), crate)
        self.assertEqual(self.run_it(f"{self.top}/.ci/over-libraries"), (1, ""), "it needs a crate")

    def test_the_library_for_c_is_built_over_them(self):
        self.assertEqual(self.run_it(f"{self.top}/.ci/static-library"), (0, "logic=proved functions=3\n"))
        folder, build, *words = self.read("calls").splitlines()
        self.assertEqual((folder, build), (f"{self.top}/crates/c_library", "build"))
        more = [
            "--crate-type",
            "staticlib",
            "--toolchain",
            f"{self.top}/kit/toolchain",
            "--backend",
            "llvm",
            "--jobs",
            "1",
            "--list-axioms",
        ]
        self.assertEqual(words, [*self.words("c_library"), *more, "-o", "out/libc_library.a"])
        self.assertEqual(self.read("compared"), "c_library logic=proved functions=3\n")
        self.assertEqual(self.read("crates/c_library/out/libc_library.a"), "built\n")

    def test_what_is_assumed_is_asked_of_a_program_and_of_the_library(self):
        for crate, kind in (("program", []), ("c_library", ["--crate-type", "staticlib"])):
            with mock.patch.object(assumed, "ROOT", self.top):
                self.assertEqual(assumed.check(crate), "logic=proved functions=3\n")
            called = [f"{self.top}/crates/{crate}", "check", *self.words(crate), *kind, "--list-axioms", "--jobs", "1"]
            self.assertEqual(self.read("calls").splitlines(), called)
        self.write("fails", "")
        with mock.patch.object(assumed, "ROOT", self.top):
            self.assertEqual(assumed.check("program"), "not proved: a hole\n")

    def test_a_library_that_is_not_proved_is_no_library(self):
        self.write("fails", "")
        self.assertEqual(self.run_it(f"{self.top}/.ci/static-library"), (1, "not proved: a hole\n"))
        self.assertFalse(os.path.exists(f"{self.top}/crates/c_library/out/libc_library.a"))

    # ---- .ci/slowest

    def test_the_functions_are_in_the_order_of_their_seconds(self):
        lines = self.run_with("high")
        names = [line.split()[-1] for line in lines[1:]]
        self.assertEqual(
            (lines[0].endswith(" s, 3 functions"), names[0], sorted(names)),
            (True, "high::slow", ["high::last", "high::quick", "high::slow"]),
        )
        called = self.read("calls").splitlines()
        self.assertEqual(called, [f"{self.top}/crates/high", "check", *self.words("high"), "--jobs", "1", "--progress"])
        self.assertEqual(len(self.run_with("--most", "1", "high")), 2)
        self.run_with("--tests", "--most", "2", "high")
        self.assertEqual(self.read("calls").splitlines()[-2:], ["--progress", "--test"])

    def test_the_seconds_of_a_function_are_those_since_the_last_one(self):
        seconds = iter((1.0, 5.0, 5.5, 8.0))
        self.patch("used", lambda pid: next(seconds))
        lines = ["high: 8 s, 3 functions", "     4.0 s  50.0 %  high::slow", "     1.0 s  12.5 %  high::quick"]
        self.assertEqual(self.run_with("high"), [*lines, "     0.5 s   6.2 %  high::last"])

    def test_a_crate_that_is_not_proved_is_told(self):
        self.write("fails", "")
        self.assertEqual(self.run_with("high", "low", status=1), ["high: not proved", "low: not proved"])

    def test_ten_functions_are_named(self):
        self.patch("proved", lambda crate, flags: (True, 50.0, [(float(at), f"high::f{at}") for at in range(1, 13)]))
        lines = self.run_with("high")
        self.assertEqual([line.split()[-1] for line in lines[1:]], [f"high::f{at}" for at in range(12, 2, -1)])
        self.assertEqual(lines[:2], ["high: 50 s, 12 functions", "    12.0 s  24.0 %  high::f12"])

    def test_seconds_are_those_of_a_process_and_its_children(self):
        subprocess.run(["bash", "-c", "for ((i = 0; i < 50000; i++)); do :; done"], check=True)
        before, found, after = sum(os.times()[:4]), slowest.used(os.getpid()), sum(os.times()[:4])
        self.assertTrue(before - 0.1 <= found <= after + 0.1, (before, found, after))

    def test_a_function_alone_of_a_crate_that_is_not_proved(self):
        self.assertIn("high: rt check has kept nothing in out/", self.said("--alone", "high", "high::at", status=2))
        self.write("crates/high/out/incremental/one/high-proofs.at.Answers", "")
        self.write("fails", "")
        self.assertEqual(self.run_with("--alone", "high", "high::at", status=1), ["high: not proved"])
        self.assertEqual(sorted(os.listdir(f"{self.top}/crates/high/out")), ["incremental", "rlib"])

    def test_other_words_are_refused(self):
        for words in ([], ["no-such-crate"], ["--most", "x", "high"], ["--alone", "high"]):
            self.assertIn(".ci/slowest [--tests]", self.said(*words, status=2))

    def test_the_seconds_of_a_function_alone_are_those_above_a_check_that_loses_nothing(self):
        os.makedirs(f"{self.top}/crates/high/out/incremental")
        self.patch("again", lambda crate, pattern: (2.0, 0) if pattern == "(?!)" else (5.5, 1))
        self.assertEqual(self.run_with("--alone", "high", "high::at"), ["     3.5 s  high::at"])

    def test_a_function_alone_is_that_of_its_modules(self):
        """Its modules are checked again, and nothing is taken from what is kept."""
        kept = ("high-proofs.board.at.Answers", "high-proofs.board.at.TheLinks", "high-proofs.board.attach.Answers")
        for name in kept:
            self.write(f"crates/high/out/incremental/one/{name}", "")
        seen = []

        def check(crate, flags):
            folder = flags[1]
            seen.append(sorted(name for _, _, names in os.walk(folder) for name in names))
            return ["true"]

        self.patch("check", check)
        self.assertEqual(self.run_with("--alone", "high", "high::board::at")[0].split()[1:], ["s", "high::board::at"])
        self.assertEqual(seen, [sorted(kept), sorted(kept[1:])])
        self.assertEqual(sorted(os.listdir(f"{self.top}/crates/high/out/incremental/one")), sorted(kept))
        self.assertEqual(self.run_with("--alone", "high", "none", status=1), ["none: there is no such function"])


if __name__ == "__main__":
    main()
