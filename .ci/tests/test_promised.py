"""Tests of .ci/promised in a made-up repository: which sections a list has, and what is said once something is gone, new or changed."""
import os
import shutil
import subprocess
from unittest import main, mock

from scripts import TOP, MadeUp, load

promised = load(".ci/promised")
HEADER = """/* MK_GONE = 3 is only a comment. */
#define MK_VERSION_MAJOR 1
#define MK_FOREVER UINT32_MAX
#define MK_READ_MAX(processes) (64 + 8 * (size_t)(processes))
#include <stdint.h>
typedef struct {
\tuint8_t first, second; /* two in a line */
\tvoid *pointer;
} mk_pair;
typedef struct {
\tuint32_t count;
} mk_count;
enum {
\tMK_DONE = 0, /* it was done */
\tMK_REFUSED = 64
};
/* uint32_t mk_comment(void); */
/* Of lines:
uint32_t mk_of_lines(void);
*/
uint32_t mk_open(mk_pair *pair, const char *path,
\tuint32_t more);
const char *mk_name(uint32_t code);
static inline int mk_errno(uint32_t code)
{
\treturn (int)code;
}
"""
LIBRARY = 'const char *mk_name(void) { return 0; }\nvoid mk_open(void) {}\n__attribute__((visibility("hidden"))) void own(void) {}\n'
GO = """package makhloeum

// Version returns it.
func Version() string { return "" }

func (h *Hierarchy) Mkdir(path string) error {
\treturn nil
}

func (h *hidden) Mkdir(path string) error {
\treturn nil
}

func private() {}

type Text struct {
\tPath   string // a comment
\tlength int
}

type Source interface {
\t// Read returns it.
\tRead(path string) (string, error)
\tclose()
}

const (
\t// One is one.
\tOne Code = 1
\ttwo      = 2
)

var ErrClosed = errors.New("closed")

var (
\t// ErrMore is another.
\tErrMore = errors.New("more")
)

var names = map[Code]string{
\tOne: "One",
}
"""
PYTHON = """
__all__ = ["Pair", "Made", "join", "LIMIT"]
LIMIT = 3
class Made:
    def __init__(self, path, more=1): ...
class Base:
    def kept(self, path): ...
    def _private(self): ...
class Pair(Base, dict):
    def split(self, at, *, more=1): ...
    @property
    def first(self): ...
def join(*pairs, **names): ...
def unlisted(): ...
"""


class Promised(MadeUp):
    program = promised

    def setUp(self):
        super().setUp()
        for tool in ("cc", "nm", "objdump"):
            if not shutil.which(tool):
                self.skipTest(f"there is no {tool}")
        self.write("bindings/c/makhloeum.h", HEADER)
        self.write("library.c", LIBRARY)
        os.makedirs(f"{self.top}/bindings/out")
        words = [
            "cc",
            "-shared",
            "-fPIC",
            "-Wl,-soname,libmakhloeum.so.1",
            "-o",
            "bindings/out/libmakhloeum.so",
            "library.c",
        ]
        subprocess.run(words, cwd=self.top, check=True)
        self.write("bindings/go/makhloeum.go", GO)
        self.write("bindings/go/makhloeum_test.go", "func TestIt(t *testing.T) {\n")
        self.write("bindings/go/makhloeumtest/it.go", "func New(t testing.TB) {\n}\n")
        self.write("bindings/python/makhloeum/__init__.py", PYTHON)
        self.write("bindings/python/makhloeum/__main__.py", "import sys\nprint('usage:', *sys.argv[1:])\n")
        for path in promised.PROGRAMS.values():
            self.write(
                path, "#!/bin/sh\necho 'Made without proofs'\necho\necho 'usage: tool'\necho '  --trace FILE'\n", 0o755
            )
        os.makedirs(f"{self.top}/.ci/state")
        self.said("--write")

    def sections(self):
        return promised.stored(self.read(promised.LIST))

    def test_the_list_has_what_users_see(self):
        sections = self.sections()
        self.assertTrue(self.read(promised.LIST).startswith(f"{promised.HEAD}\n== soname of the library\n"))
        self.assertEqual(list(sections), list(promised.SECTIONS))
        self.assertEqual(sections["soname of the library"], ["libmakhloeum.so.1"])
        self.assertEqual([it for it in sections["symbols of the library"] if "mk_" in it], ["mk_name", "mk_open"])
        self.assertNotIn("own", sections["symbols of the library"])
        layout = ["mk_pair: 16 bytes", "mk_pair.first: 1 bytes at 0", "mk_pair.second: 1 bytes at 1"]
        layout += ["mk_count: 4 bytes", "mk_count.count: 4 bytes at 0"]
        layout += ["mk_pair.pointer: 8 bytes at 8", "MK_DONE = 0", "MK_REFUSED = 64", "MK_FOREVER = 4294967295"]
        self.assertEqual(sections["structs and numbers of C"], sorted(layout))
        self.assertEqual(
            sections["calls of C"],
            [
                "MK_READ_MAX(processes)",
                "const char *mk_name(uint32_t code)",
                "static inline int mk_errno(uint32_t code)",
                "uint32_t mk_open(mk_pair *pair, const char *path, uint32_t more)",
            ],
        )
        self.assertEqual(
            sections["names of Python"],
            [
                "LIMIT",
                "Made(path, more=..)",
                "Pair",
                "Pair.first",
                "Pair.kept(self, path)",
                "Pair.split(self, at, keyword more=..)",
            ]
            + ["join(*pairs, **names)"],
        )
        self.assertEqual(
            sections["names of Go"],
            [
                "makhloeum: const: One Code = 1",
                "makhloeum: func (h *Hierarchy) Mkdir(path string) error",
                "makhloeum: func Version() string",
                "makhloeum: type Source interface",
                "makhloeum: type Source: Read(path string) (string, error)",
                "makhloeum: type Text struct",
                "makhloeum: type Text: Path string",
                "makhloeum: var ErrClosed",
                'makhloeum: var: ErrMore = errors.New("more")',
                "makhloeumtest: func New(t testing.TB)",
            ],
        )
        self.assertEqual(sections["help of cgreplay"], ["usage: tool", "  --trace FILE"])
        self.assertEqual(sections["help of makhloeum tree"], ["usage: tree --help"])

    def test_what_is_as_it_was_passes(self):
        self.assertEqual(self.run_with(), [f"{len(promised.SECTIONS)} passed, 0 failed"])

    def test_a_call_that_is_gone_is_named(self):
        self.write("bindings/c/makhloeum.h", HEADER.replace("const char *mk_name(uint32_t code);\n", ""))
        lines = self.run_with(status=1)
        self.assertEqual(
            lines,
            [f"promised: calls of C: gone: const char *mk_name(uint32_t code): {promised.KEEP}", "11 passed, 1 failed"],
        )

    def test_a_symbol_a_layout_and_a_text_that_change_are_named(self):
        self.write("library.c", LIBRARY.replace("mk_open", "mk_begin"))
        words = [
            "cc",
            "-shared",
            "-fPIC",
            "-Wl,-soname,libmakhloeum.so.2",
            "-o",
            "bindings/out/libmakhloeum.so",
            "library.c",
        ]
        subprocess.run(words, cwd=self.top, check=True)
        self.write("bindings/c/makhloeum.h", HEADER.replace("uint8_t first, second", "uint64_t first, second"))
        self.write("mount/out/makhloeum", "#!/bin/sh\necho 'usage: tool'\necho '  --traces FILE'\n", 0o755)
        lines = self.run_with(status=1)
        for line in (
            f"soname of the library: gone: libmakhloeum.so.1: {promised.KEEP}",
            f"symbols of the library: gone: mk_open: {promised.KEEP}",
            f"symbols of the library: new: mk_begin: {promised.ADD}",
            f"structs and numbers of C: gone: mk_pair.pointer: 8 bytes at 8: {promised.KEEP}",
            f"structs and numbers of C: new: mk_pair.pointer: 8 bytes at 16: {promised.ADD}",
            "help of makhloeum:   -   --trace FILE".replace("help of makhloeum: ", ""),
        ):
            self.assertIn(f"promised: {line}", lines)
        self.assertEqual(lines[-1], "8 passed, 4 failed")

    def test_an_order_counts_only_in_a_text(self):
        self.write(
            "bindings/c/makhloeum.h",
            HEADER.replace("const char *mk_name(uint32_t code);\n", "") + "const char *mk_name(uint32_t code);\n",
        )
        self.assertEqual(self.run_with()[-1], "12 passed, 0 failed")
        self.write("mount/out/makhloeum", "#!/bin/sh\necho '  --trace FILE'\necho 'usage: tool'\n", 0o755)
        lines = self.run_with(status=1)
        self.assertIn("promised: help of makhloeum: the text has changed.", lines[0])

    def test_what_is_not_built_is_skipped_and_not_written(self):
        before = self.read(promised.LIST)
        os.remove(f"{self.top}/crates/cgshell/out/cgshell")
        skipped = "promised: help of cgshell: skipped, crates/cgshell/out/cgshell isn't built"
        self.assertEqual(self.run_with(), [skipped, "11 passed, 0 failed"])
        self.assertEqual(self.run_with("--write", status=1)[0], skipped)
        self.assertEqual(self.read(promised.LIST), before)
        os.remove(f"{self.top}/{promised.LIBRARY}")
        of = ["soname of the library", "symbols of the library", "names of Python"]
        of += [f"help of makhloeum {it}" for it in promised.COMMANDS]
        lacks = [f"promised: {name}: skipped, {promised.LIBRARY} isn't built" for name in of]
        self.assertEqual(self.run_with(), [*lacks[:3], skipped, *lacks[3:], "5 passed, 0 failed"])

    def test_what_needs_a_missing_tool_is_skipped(self):
        with mock.patch.dict(os.environ, PATH=f"{self.top}/none", CC="cc"):
            lines = self.run_with()
        of = ("soname", "objdump"), ("symbols", "nm")
        skipped = [f"promised: {name} of the library: skipped, {tool} is missing" for name, tool in of]
        skipped.append("promised: structs and numbers of C: skipped, cc is missing")
        self.assertEqual(lines, [*skipped, "9 passed, 0 failed"])

    def test_a_text_is_the_same_for_each_caller(self):
        self.write(promised.PROGRAMS["cgreplay"], '#!/bin/sh\necho "$LC_ALL $COLUMNS"\n', 0o755)
        with mock.patch.dict(os.environ, LC_ALL="C.UTF-8", COLUMNS="20"):
            self.assertEqual(promised.help_of("cgreplay"), ["C 80"])

    def test_a_header_that_can_not_be_compiled_is_named(self):
        self.write("bindings/c/makhloeum.h", HEADER.replace("uint8_t first", "unknown first"))
        lines = self.run_with(status=1)
        self.assertTrue(lines[0].startswith("promised: structs and numbers of C: it can't be read: "), lines)
        self.assertEqual(lines[-1], "11 passed, 1 failed")

    def test_words_are_refused(self):
        for words in (["--wrong"], ["--write", "more"], ["--write", "--write"]):
            self.assertIn(".ci/promised [--write]", self.said(*words, status=2))


class OfThisRepository(MadeUp):
    """What needs no build, compared with the stored list: the gate compares the rest."""

    program = promised

    def test_the_sources_are_as_promised(self):
        self.patch("ROOT", TOP)
        stored = promised.stored(self.program.read(promised.LIST))
        for name in ("calls of C", "names of Go"):
            self.assertEqual(list(promised.differences(name, stored[name], sorted(set(promised.SECTIONS[name]())))), [])


if __name__ == "__main__":
    main()
