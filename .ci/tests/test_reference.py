"""Tests of the manual pages of C's calls: man/mk_*.3 and man/makhloeum.3."""
import collections
import glob
import os
import re
import shlex
import shutil
import subprocess
import tempfile
import unittest

from scripts import TOP

PAGES = sorted(glob.glob(os.path.join(TOP, "man", "mk_*.3")))
SECTIONS = ["NAME", "SYNOPSIS", "DESCRIPTION", "RETURN VALUE", "COST", "EXAMPLES", "SEE ALSO"]


def read(path):
    with open(path, encoding="utf-8") as it:
        return it.read()


def one_line(text):
    return re.sub(r"\s+", " ", text).strip()


def declared():
    """Each call of the header, with its prototype."""
    header = read(os.path.join(TOP, "bindings", "c", "makhloeum.h"))
    found = re.findall(r"^(?:static inline )?([a-z]\w*(?: \w+)* \*?(mk_\w+)\([^;{)]*\))\s*[;{]", header, re.M)
    return {name: one_line(prototype) + ";" for prototype, name in found}


def sections(page):
    """The sections of a page, with their lines."""
    parts = re.split(r"^\.SH (.*)\n", read(page), flags=re.M)[1:]
    return {title: body.split("\n") for title, body in zip(parts[::2], parts[1::2])}


def described(page):
    """Each call of the page's SYNOPSIS, with its prototype."""
    text = ""
    for line in sections(page)["SYNOPSIS"]:
        if line.startswith(".BI "):
            text += " " + "".join(shlex.split(line[4:])).replace("\\-", "-")
        elif line.startswith(".B ") and "(" in line:
            text += " " + line[3:]
    prototypes = [one_line(part) + ";" for part in text.split(";") if part.strip()]
    return {re.search(r"(mk_\w+)\(", prototype).group(1): prototype for prototype in prototypes}


class Reference(unittest.TestCase):
    def test_each_call_is_on_one_page_with_its_prototype(self):
        wanted, found, pages = declared(), {}, collections.Counter()
        self.assertGreater(len(wanted), 45)
        for page in PAGES:
            found.update(described(page))
            pages.update(list(described(page)))
        self.assertEqual([name for name in pages if pages[name] > 1], [])
        self.assertEqual(found, wanted)

    def test_the_parts_of_a_page(self):
        for page in PAGES:
            with self.subTest(os.path.basename(page)):
                parts, calls = sections(page), described(page)
                self.assertEqual(list(parts), SECTIONS)
                names = " ".join(parts["NAME"]).split(" \\- ")[0].strip()
                self.assertEqual(names.split(", "), list(calls))
                self.assertEqual(os.path.basename(page), f"{list(calls)[0]}.3")
                text = "\n".join(parts["DESCRIPTION"])
                for name, prototype in calls.items():
                    self.assertIn(f"\\fB{name}\\fR()", text, "what the call does")
                    for parameter in re.findall(r"(\w+)[,)]", prototype):
                        if parameter not in ("h", "info", "void"):
                            self.assertIn(f"\\fI{parameter}\\fR", text, f"{name}: what the argument is")

    def test_no_underscore_stands_for_a_font(self):
        for page in glob.glob(os.path.join(TOP, "man", "*.[1-9]")):
            with self.subTest(os.path.basename(page)):
                text = re.sub(r"\\f[BIRP]", "", read(page))
                self.assertEqual(re.findall(r"(?<!\w)_\w+_(?!\w)", text), [])

    def test_the_overview_has_each_page(self):
        text = read(os.path.join(TOP, "man", "makhloeum.3"))
        listed = re.findall(r"^\.TP\n\.BR (mk_\w+) \(3\)$", text, re.M)
        self.assertEqual(sorted(listed), [os.path.basename(page)[:-2] for page in PAGES])

    def test_the_pages_have_no_findings(self):
        if not shutil.which("mandoc"):
            self.skipTest("mandoc is not here; .ci/installed/run asks man")
        folder = tempfile.mkdtemp()
        self.addCleanup(shutil.rmtree, folder)
        pages = []
        for page in glob.glob(os.path.join(TOP, "man", "*.[1-9]")):
            pages.append(os.path.join(folder, os.path.basename(page)))
            with open(pages[-1], "w", encoding="utf-8") as it:
                it.write(read(page).replace("@DATE@", "2026-01-02", 1))  # as .ci/tree does
        ran = subprocess.run(
            ["mandoc", "-T", "lint", "-W", "warning", *pages],
            stdout=subprocess.PIPE,
            stderr=subprocess.STDOUT,
            text=True,
            check=False,
        )
        self.assertEqual(ran.stdout, "")


if __name__ == "__main__":
    unittest.main()
