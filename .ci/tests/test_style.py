"""Tests of .ci/style in a made-up repository, with scripts in place of the tools; and that the Python programs of .ci end with a status."""
import ast
import os
import re
import shutil
import subprocess
import sys
import tempfile
import unittest

TOP = os.path.dirname(os.path.dirname(os.path.dirname(os.path.realpath(__file__))))
# It logs its name and words. A file of its name in `says` has what it says, and one in `status` its status.
TOOL = """#!/bin/sh
name=$(basename "$0")
echo "$name $*" >>{top}/calls
[ ! -e "{top}/says/$name" ] || cat "{top}/says/$name"
[ ! -e "{top}/status/$name" ] || exit 1
"""
NEEDED = ("bash", "git", "sort", "dirname", "basename", "cat", "sh", "env")
FILES = {
    "a.c": "int a;\n",
    "a.h": "int a;\n",
    "b.py": "B = 1\n",
    "program": "#!/usr/bin/env python3\nB = 1\n",
    "script": "#!/usr/bin/env bash\n:\n",
    "plain": "#!/bin/sh\n:\n",
    "d.go": "package d\n",
    "text.md": "# !/bin/sh\n",
}
ALL = [
    "clang-format --dry-run -Werror a.c a.h",
    "black -q --check b.py program",
    "flake8 b.py program",
    "shellcheck -x -P SCRIPTDIR -S warning .ci/parts .ci/style plain script",
    "gofmt -l d.go",
]


class Style(unittest.TestCase):
    def setUp(self):
        self.top = os.path.realpath(tempfile.mkdtemp())
        self.addCleanup(shutil.rmtree, self.top)
        for name, text in FILES.items():
            self.write(f"clone/{name}", text)
        os.mkdir(f"{self.top}/clone/.ci")
        for name in ("style", "parts"):
            shutil.copy(f"{TOP}/.ci/{name}", f"{self.top}/clone/.ci/{name}")
        for name in ("clang-format", "black", "flake8", "shellcheck", "gofmt"):
            self.tool(f"tools/{name}")
        # what is on the caller's PATH, which may let apt-get wait, and what the tools' folder has too
        self.tool("path/apt-get")
        self.write("tools/apt-get", "#!/bin/sh\nexit 1\n", 0o755)
        self.write("path/id", "#!/bin/sh\necho 0\n", 0o755)
        for name in NEEDED:
            os.symlink(shutil.which(name), f"{self.top}/path/{name}")
        for words in (["init", "-q"], ["add", "-A"]):
            subprocess.run(["git", "-C", f"{self.top}/clone", *words], check=True)

    def write(self, path, text, mode=0o644):
        at = os.path.join(self.top, path)
        os.makedirs(os.path.dirname(at), exist_ok=True)
        with open(at, "w", encoding="utf-8") as it:
            it.write(text)
        os.chmod(at, mode)

    def tool(self, path):
        self.write(path, TOOL.format(top=self.top), 0o755)

    def style(self, *words):
        """The status, the lines, and the calls of tools."""
        environment = {"PATH": f"{self.top}/path", "TOOLS": f"{self.top}/tools", "HOME": self.top, "LC_ALL": "C"}
        ran = subprocess.run(
            [f"{self.top}/clone/.ci/style", *words],
            env=environment,
            stdin=subprocess.DEVNULL,
            stdout=subprocess.PIPE,
            stderr=subprocess.STDOUT,
            text=True,
            timeout=600,
        )
        calls = []
        if os.path.exists(f"{self.top}/calls"):
            with open(f"{self.top}/calls", encoding="utf-8") as it:
                calls = it.read().splitlines()
            os.remove(f"{self.top}/calls")
        return ran.returncode, ran.stdout.splitlines(), calls

    def test_each_tool_has_its_files(self):
        self.assertEqual(self.style(), (0, ["5 passed, 0 failed"], ALL))

    def test_what_is_not_in_its_form_fails(self):
        for name in ("clang-format", "black", "flake8", "shellcheck", "gofmt"):
            self.write(f"status/{name}", "")
            told = [f"{name}: what it names is not in its form", "4 passed, 1 failed"]
            self.assertEqual(self.style(), (1, told, ALL), name)
            os.remove(f"{self.top}/status/{name}")
        for name in ("black", "shellcheck"):
            self.write(f"status/{name}", "")
        told = [f"{name}: what it names is not in its form" for name in ("black", "shellcheck")]
        self.assertEqual(self.style(), (1, [*told, "3 passed, 2 failed"], ALL))
        for name in ("black", "shellcheck"):
            os.remove(f"{self.top}/status/{name}")
        self.write("says/gofmt", "d.go\n")
        self.assertEqual(
            self.style()[:2], (1, ["d.go", "gofmt: what it names is not in its form", "4 passed, 1 failed"])
        )

    def test_a_missing_tool_is_installed_by_the_callers_apt_get(self):
        os.remove(f"{self.top}/tools/gofmt")
        status, lines, calls = self.style()
        skipped = "gofmt: skipped, it is not installed: on Debian apt-get install golang-go"
        self.assertEqual((status, lines), (0, [skipped, "4 passed, 0 failed"]))
        install = "apt-get install -y -qq --no-install-recommends golang-go"
        self.assertEqual(calls, ["apt-get update -qq", install, *ALL[:4]])

    def test_it_writes_the_forms(self):
        calls = ["clang-format -i a.c a.h", "black -q b.py program", "gofmt -w d.go"]
        self.assertEqual(self.style("--write"), (0, [], calls))


class Programs(unittest.TestCase):
    def test_the_status_is_that_of_main(self):
        """What a program does as such is its last statement; a function stands in for its main."""
        names = [os.path.join(folder, name) for folder, _, files in os.walk(f"{TOP}/.ci") for name in sorted(files)]
        tried = []
        for name in names:
            with open(name, encoding="utf-8", errors="replace") as it:
                text = it.read()
            if not text.startswith("#!/usr/bin/env python3") or "\ndef main(" not in text:
                continue
            tried.append(name)
            program = ast.Module([ast.parse(text).body[-1]], [])
            for status in (0, 7):
                with self.assertRaises(SystemExit, msg=name) as ended:
                    exec(
                        compile(program, name, "exec"), {"__name__": "__main__", "sys": sys, "main": lambda *_: status}
                    )
                self.assertEqual(ended.exception.code, status, name)
        self.assertIn(f"{TOP}/.ci/documents", tried)
        self.assertGreaterEqual(len(tried), 8)


class Texts(unittest.TestCase):
    def test_a_text_of_several_literals_of_c_has_blanks_between_words(self):
        joined, tried = re.compile(r'[^\s\\"](?<!\\n)"\s*\n\s*"\w'), 0
        self.assertEqual(
            [bool(joined.search(it)) for it in ('"a"\n\t"b"', '"a "\n"b"', '"a\\n"\n"b"')], [True, False, False]
        )
        for folder, _, files in (*os.walk(f"{TOP}/mount/src"), *os.walk(f"{TOP}/bindings/c")):
            for name in [os.path.join(folder, it) for it in files if it.endswith((".c", ".h"))]:
                with open(name, encoding="utf-8") as it:
                    text = it.read()
                tried += text.count('"\n')
                self.assertIsNone(joined.search(text), name)
        self.assertGreater(tried, 50)

    def test_no_script_looks_for_its_folder_along_cdpath(self):
        """There `cd` looks for a relative folder first, and prints what it finds."""
        tried = 0
        for folder in ("", ".ci", ".ci/installed", "bindings", "evidence", "look", "mount", "mount/fuzz"):
            for name in filter(os.path.isfile, (f"{TOP}/{folder}/{it}" for it in os.listdir(f"{TOP}/{folder}"))):
                with open(name, encoding="utf-8", errors="replace") as it:
                    before, found, _ = it.read().partition('cd "$(dirname "$0")')
                if before.startswith(("#!/bin/sh", "#!/usr/bin/env bash")) and found:
                    tried += 1
                    self.assertIn("\nunset CDPATH", before, name)
        self.assertGreater(tried, 20)


if __name__ == "__main__":
    unittest.main()
