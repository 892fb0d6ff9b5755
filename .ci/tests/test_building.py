"""Tests of bindings/build with the tools of this machine, and of it, of bindings/wheel, bindings/bench, mount/build, mount/analyze and
mount/cost with made-up ones: what they make, what they say is missing, and what they leave."""
import os
import re
import shutil
import stat
import subprocess
import tempfile
import time
import unittest

TOP = os.path.dirname(os.path.dirname(os.path.dirname(os.path.realpath(__file__))))
PROVED = "crates/c_library/out/libc_library.a"
HAS_TOOLS = all(map(shutil.which, ("rt", "ar", "objcopy", "cc", "readelf")))
builds = unittest.skipUnless(
    HAS_TOOLS and os.path.exists(f"{TOP}/{PROVED}"), "there is no static library, or a tool is missing"
)


class MadeUp(unittest.TestCase):
    """A folder with tools of its own, which are found first."""

    others = ":" + os.environ["PATH"]

    def setUp(self):
        self.top = tempfile.mkdtemp()
        self.addCleanup(shutil.rmtree, self.top)
        os.mkdir(f"{self.top}/tmp")

    def write(self, path, text, mode=0o644):
        os.makedirs(os.path.dirname(f"{self.top}/{path}"), exist_ok=True)
        with open(f"{self.top}/{path}", "w", encoding="utf-8") as it:
            it.write(text)
        os.chmod(it.name, mode)

    def run_it(self, *words, umask=0o022, **more):
        """The status and the two outputs of a program, which has to leave nothing in the folder for temporary files."""
        environment = {
            **os.environ,
            "PATH": f"{self.top}/tools{self.others}",
            "TMPDIR": f"{self.top}/tmp",
            **more,
        }
        environment.pop("CC", None) if "CC" not in more else None
        how = {"stdin": subprocess.DEVNULL, "capture_output": True, "text": True, "timeout": 600, "umask": umask}
        ran = subprocess.run(words, cwd=self.top, env=environment, check=False, **how)
        self.assertEqual(os.listdir(f"{self.top}/tmp"), [])
        return ran.returncode, ran.stdout, ran.stderr


class Building(MadeUp):
    def setUp(self):
        super().setUp()
        unwanted = shutil.ignore_patterns("out", "python", "mutants", "libmakhloeum.a")
        shutil.copytree(f"{TOP}/bindings", f"{self.top}/bindings", ignore=unwanted)
        os.makedirs(os.path.dirname(f"{self.top}/{PROVED}"))
        os.symlink(f"{TOP}/{PROVED}", f"{self.top}/{PROVED}")

    def left(self):
        """What is there of a build."""
        made = ("out", "go/libmakhloeum.a", "go/makhloeum.h")
        return [name for name in made if os.path.lexists(f"{self.top}/bindings/{name}")]

    @builds
    def test_a_build_is_for_everybody_and_hardened(self):
        status, said, errors = self.run_it("bindings/build", umask=0o077)
        version = self.run_it("bindings/version")[1].strip()
        library = f"libmakhloeum.so.{version}"
        wanted = f"bindings/build: out/libmakhloeum.a and out/{library}\n"
        self.assertEqual((status, said, errors), (0, wanted, ""))
        out = f"{self.top}/bindings/out"
        links = {name: os.readlink(f"{out}/{name}") for name in os.listdir(out) if os.path.islink(f"{out}/{name}")}
        self.assertEqual(links, {"libmakhloeum.so.1": library, "libmakhloeum.so": "libmakhloeum.so.1"})
        self.assertEqual(set(os.listdir(out)) - set(links), {"proved.a", "libmakhloeum.a", library})
        go = f"{self.top}/bindings/go"
        for path in (out, *(f"{out}/{name}" for name in os.listdir(out)), f"{go}/libmakhloeum.a", f"{go}/makhloeum.h"):
            mode = stat.S_IMODE(os.stat(path).st_mode)
            self.assertEqual(mode, 0o755 if os.path.isdir(path) or ".so" in path else 0o644, path)
        told = self.run_it("readelf", "-dlW", f"{out}/{library}")[1]
        for words in ("Library soname: [libmakhloeum.so.1]", "BIND_NOW", "GNU_RELRO"):
            self.assertIn(words, told)
        [stack] = [line.split() for line in told.split("\n") if "GNU_STACK" in line]
        self.assertEqual(stack[-2], "RW")

    @builds
    def test_a_source_that_cannot_be_compiled_leaves_no_library(self):
        self.write("bindings/c/wait.c", "#error no\n")
        self.write("bindings/out/libmakhloeum.a", "older")
        self.write("bindings/go/libmakhloeum.a", "older")
        status, said, errors = self.run_it("bindings/build")
        self.assertEqual((status, said, "#error no" in errors, self.left()), (1, "", True, []))

    def test_what_a_build_lacks_is_said(self):
        os.unlink(f"{self.top}/{PROVED}")
        for name in ("cc", "ar", "objcopy"):
            self.write(f"tools/{name}", "#!/bin/sh\n", 0o755)
        lacks = f"bindings/build: ../{PROVED} is missing: run rt lib in crates/c_library first, or ./try for one without proofs\n"
        self.assertEqual((self.run_it("bindings/build"), self.left()), ((1, "", lacks), []))
        for name in ("CC", "AR", "OBJCOPY"):
            told = self.run_it("bindings/build", **{"CC": "cc", name: "no-such-tool"})
            lacks = "bindings/build: there is no no-such-tool; on Debian: apt-get install gcc libc6-dev binutils\n"
            self.assertEqual(told, (1, "", lacks), name)

    def test_missing_tools_are_installed_for_root(self):
        few, asked = f"{self.top}/few", f"{self.top}/asked"
        os.mkdir(few)
        for name in ("bash", "dirname"):
            os.symlink(shutil.which(name), f"{few}/{name}")
        self.write("few/id", '#!/bin/sh\n[ "$1" = -u ] && echo "$NUMBER"\n', 0o755)
        tools = "for it in cc ar objcopy; do echo '#!/bin/sh' >$it; chmod 755 $it; done"
        self.write(
            "few/apt-get",
            '#!/bin/sh\nPATH=/usr/bin:/bin\necho "$DEBIAN_FRONTEND:$*" >>' + asked + "\n"
            'echo said\n[ "$1" = update ] || [ "$WORKS" = yes ] || exit 1\n[ "$1" = update ] || { cd '
            + f"{few} && {tools}; }}\n",
            0o755,
        )

        def told(**more):
            """The status and the message, and what apt-get was asked for."""
            status, said, errors = self.run_it("bindings/build", "--tools", PATH=few, **more)
            words = []
            if os.path.exists(asked):
                with open(asked, encoding="utf-8") as it:
                    words = it.read().splitlines()
                os.unlink(asked)
            return status, said + errors, words

        install = "noninteractive:install -y -qq --no-install-recommends gcc libc6-dev binutils"
        lacks = "bindings/build: there is no %s; on Debian: apt-get install gcc libc6-dev binutils\n"
        self.assertEqual(told(NUMBER="1000", WORKS="yes"), (1, lacks % "cc", []))
        self.assertEqual(told(NUMBER="0", WORKS="yes", CC="mine"), (1, lacks % "mine", []))
        status, said, words = told(NUMBER="0", WORKS="no")
        self.assertEqual((status, said, words[0].split(":")[1], words[1:]), (1, lacks % "cc", "update -qq", [install]))
        for gone in ("cc", "ar", "objcopy"):
            if os.path.exists(f"{few}/{gone}"):
                os.unlink(f"{few}/{gone}")
            status, said, words = told(NUMBER="0", WORKS="yes")
            self.assertEqual((status, said, len(words), words[-1]), (0, "", 2, install), gone)
            self.assertEqual(told(NUMBER="0", WORKS="yes"), (0, "", []), "nothing is missing now")

    def bench(self, shell):
        """What bindings/bench prints with made-up tools, and the words of Go and the files that were looked at."""
        self.write(".ci/proved", '#!/bin/sh\necho "$@" >proved\n', 0o755)
        self.write("tools/nproc", "#!/bin/sh\necho 7\n", 0o755)
        compiled = 'while [ "$1" != -o ]; do shift; done; { echo "#!/bin/sh"; echo "echo ${2##*/} of ${3##*/}"; } >"$2"; chmod 755 "$2"'
        self.write("tools/cc", f"#!/bin/sh\n{compiled}\n", 0o755)
        self.write(
            "tools/python3", '#!/bin/sh\necho "${PYTHONPATH##*/} $PYTHONDONTWRITEBYTECODE ${1##*/} ${2##*/}"\n', 0o755
        )
        rounds = "".join(
            f"Benchmark{it} ns/op\\n" for it in ("Fork-8 1000 80", "Cat-8 1000 500", "Cat-8 1000 400", "Cat-8 9 600")
        )
        made = f"case \"$*\" in *Sweep*) echo 'BenchmarkSweep-16 3 2500000 ns/op' ;; *) printf '{rounds}ok\\n' ;; esac"
        kept = 'echo "$MAKHLOEUM_SWEEP $GOFLAGS $GOPROXY ${GOCACHE##*/} ${PWD##*/} $*"'
        self.write("tools/go", f"#!/bin/sh\n{kept} >>{self.top}/asked\n{made}\n", 0o755)
        told = self.run_it("bindings/bench", CGSHELL=shell)
        words = []
        for name in ("asked", "proved"):
            with open(f"{self.top}/{name}", encoding="utf-8") as it:
                words.append(it.read().replace(self.top, "").splitlines())
            os.unlink(it.name)
        return told, *words

    def test_each_language_is_measured_and_its_best_round_counts(self):
        shell = f"{self.top}/tools/nproc"
        for given, missing in ((shell, ""), (f"{self.top}/none", "bindings/bench: without pipes: %s is missing\n")):
            (status, said, errors), asked, looked_at = self.bench(given)
            self.assertEqual((status, errors), (0, missing.replace("%s", given)))
            lines = said.splitlines()
            self.assertRegex(lines[0], r"^load: [\d.]+ [\d.]+ [\d.]+, 7 processors$")
            self.assertRegex(lines[-1], r"^load: [\d.]+ [\d.]+ [\d.]+$")
            wanted = ["bench of bench.c", "forks of forks.c", f"python 1 figures.py {'' if missing else 'nproc'}"]
            # a thousand million nanoseconds, divided by those of the best round
            for name, each, milliseconds in (
                ("Cat", 2500000, "0.000"),
                ("Fork", 12500000, "0.000"),
                ("Sweep", 400, "2.500"),
            ):
                wanted.append(f"Go, Benchmark{name} {each} a second ({milliseconds} ms)")
            self.assertEqual([re.sub(" +", " ", line) for line in lines[1:-1]], wanted)
            self.assertEqual(len({line.index(" a second") for line in lines[4:-1]}), 1, "one below the other")
            go = "1 -mod=mod off go go test -run ^$ -bench %s -benchtime %s -count %s ."
            self.assertEqual(asked, [go % ("Cat|Current|Fork", "1000x", 30), go % ("Sweep", "3x", 10)])
            self.assertEqual(looked_at, [f"/bindings/out/proved.a {given.replace(self.top, '')}"])

    def wheel(self, *words, python="python", **more):
        """What bindings/wheel comes to, and the words and files that it gives to pip, by a Python of that name."""
        for path in ("LICENSE-MIT", "LICENSE-APACHE"):
            shutil.copy(f"{TOP}/{path}", f"{self.top}/{path}")
        for name in ("pyproject.toml", "setup.py", "README.md", "makhloeum_pytest.py", "makhloeum/__init__.py"):
            self.write(f"bindings/python/{name}", "")
        for path in ("look/page/__init__.py", "look/check/__init__.py", "evidence/linux-6.12/rows.recorded"):
            self.write(path, "")
        self.write("tools/objdump", "#!/bin/sh\necho GLIBC_2.4\n", 0o755)
        self.write("tools/strip", '#!/bin/sh\necho "$1 $2" >how\nfor last; do :; done\ncp "$last" "$4"\n', 0o755)
        pip = 'echo "$9" >said; for last; do :; done; (cd "$last" && find . -type f) >packed; >"$9/makhloeum-1.whl"'
        self.write(f"tools/{python}", f'#!/bin/sh\n{pip}\necho "$SOURCE_DATE_EPOCH $LC_ALL $TZ" >>how\n', 0o755)
        more = {"PYTHON": f"{self.top}/tools/{python}", "SOURCE_DATE_EPOCH": "", **more}
        status, said, errors = self.run_it("bindings/wheel", *words, umask=0o077, **more)
        given = []
        for name in ("said", "packed"):
            if os.path.exists(f"{self.top}/{name}"):
                with open(f"{self.top}/{name}", encoding="utf-8") as it:
                    given.append(sorted(it.read().split()))
        return status, said, errors, given

    def test_a_wheel_has_all_that_it_is_made_of(self):
        self.write("bindings/out/libmakhloeum.so", "a library")
        files = ["pyproject.toml", "setup.py", "README.md", "makhloeum_pytest.py", "LICENSE-MIT", "LICENSE-APACHE"]
        files += [f"makhloeum/{name}" for name in ("__init__.py", "page/__init__.py", "check/__init__.py")]
        files += ["makhloeum/libmakhloeum.so.1", "makhloeum/check/worked/rows.recorded"]
        os.mkdir(f"{self.top}/to")
        for words, to in (((), f"{self.top}/bindings/out"), (("to",), "to")):
            packed = sorted(f"./{name}" for name in files)
            self.assertEqual(self.wheel(*words), (0, f"{to}/makhloeum-1.whl\n", "", [[to], packed]))
            made = os.path.join(self.top, to, "makhloeum-1.whl")
            self.assertEqual(stat.S_IMODE(os.stat(made).st_mode), 0o644, "everybody can read it")

    def test_how_a_wheel_is_made(self):
        """By the Python that is given, or the usual one; with the version's date, or the one that is given, whatever the caller's words."""
        self.write("bindings/out/libmakhloeum.so", "a library")
        seconds = self.run_it("bindings/version", "seconds")[1].strip()
        for python, more, date in (
            ("python", {"TZ": "Pacific/Kiritimati", "LC_ALL": "C.UTF-8"}, seconds),
            ("python3", {"PYTHON": "", "SOURCE_DATE_EPOCH": "7"}, "7"),
        ):
            self.assertEqual(self.wheel(python=python, **more)[0::2], (0, ""))
            with open(f"{self.top}/how", encoding="utf-8") as it:
                self.assertEqual(it.read(), f"--strip-unneeded --remove-section=.comment\n{date} C UTC\n")

    def test_a_wheel_needs_a_library(self):
        lacks = "bindings/wheel: bindings/out has no library: run bindings/build first\n"
        self.assertEqual(self.wheel(), (1, "", lacks, []))


# Of this machine; all other tools are made up, and log their words.
REAL = """awk basename bash cat chmod cp cut dirname find grep ln ls mkdir mktemp mv nproc realpath rm sed seq sh sleep sort tail touch wc
xargs""".split()
LOGS = '#!/bin/sh\necho "${0##*/} $*" >>"$TOP/calls"\n'
# It makes an empty file, or the made-up program of this name.
COMPILER = """for word; do [ "$last" != -o ] || out=$word; last=$word; done
sed -n "s/^gcc //p" "$TOP/finds" >&2
if [ -e "$TOP/made/${out##*/}" ]; then cp "$TOP/made/${out##*/}" "$out"; else : >"$out"; fi
"""
TOOLS = {
    "cc": COMPILER,
    "gcc": COMPILER,
    "clang-tidy": 'sed -n "s/^clang-tidy //p" "$TOP/finds"\n',
    "cppcheck": 'sed -n "s/^cppcheck //p" "$TOP/finds" >&2\n',
    "pkg-config": 'case $1 in --exists) exit "${NO_FUSE:-0}" ;; --cflags) echo -I/fuse ;; *) echo -lfuse ;; esac\n',
    "fusermount3": '[ -e "$TOP/tried" ] || { : >"$TOP/tried"; exit 1; }\n',
    "apt-get": '[ "$1" = update ] || mv "$TOP"/absent/* "$TOP/tools/" 2>&-\n',
    "env": 'sleep 0.005\n[ "$1" = sh ] || exec "$@"\n',
    "make": """cd "$4" || exit
echo "of $(ls *.c | wc -l) sources and $(ls *.o 2>&- | wc -l) objects" >>"$TOP/calls"
cp Makefile "$TOP/${4##*/}.make"
[ ! -e f60.c ] || cp f60.c "$TOP/"
touch one.o
""",
}
SOURCES = ("mount/src/a/tree.c", "mount/src/b/tree.c", "mount/src/main.c")
HEADERS = ("mount/src/a/tree.h", "bindings/c/makhloeum.h", "bindings/c/number_parser.h")
PARSER = "bindings/c/number_parser.c"
PACKAGES = "gcc libc6-dev pkg-config"
# What mount/cost compiles and measures. Each has another number in each of three turns.
TURN = """turn() {
  n=$(($(cat "$TOP/$1.turn" 2>&- || echo 0) % 3 + 1))
  echo $n >"$TOP/$1.turn"
  shift $n
  echo $1
}
"""
MADE = {
    "null_filesystem": "",
    "file_calls": 'echo "  read    1.5"\n',
    "load": TURN + 'echo "  $2 clients: $(turn load 7 9 5) operations a second"\n',
    "traced_calls": TURN
    + 'n=$(turn "traced$MORE" 7 5 9)\nprintf "%-28s%d.0\\n" "a call" $((MORE + n)) other $((MORE + 2 * n))\n',
    "makhloeum": """[ "$1" = run ] || exit 0
shift
export MORE=10
[ "$1" != --threads=no ] || { shift; MORE=20; }
sleep 0.0$MORE
[ "$1" = sh ] || exec "$@"
""",
}
COSTS = [
    *("a file system that does nothing", "  read    1.5"),
    *("makhloeum mount", "  read    1.5", "makhloeum mount --trace", "  read    1.5"),
    *("makhloeum mount", *(f"  {clients} clients: 9 operations a second" for clients in (1, 4, 16))),
    *("makhloeum mount --trace", *(f"  {clients} clients: 9 operations a second" for clients in (1, 4, 16))),
    "a program                     alone  under makhloeum run, and with --threads=no",
    f"{'a call':28} {5:6.1f} {15:6.1f} {25:6.1f}",
    f"{'other':28} {10:6.1f} {20:6.1f} {30:6.1f}",
]


class OfMount(MadeUp):
    others = ""

    def setUp(self):
        super().setUp()
        for at in ("tools", "absent", ".ci", "mount"):
            os.mkdir(f"{self.top}/{at}")
        for name in REAL:
            os.symlink(shutil.which(name), f"{self.top}/tools/{name}")
        for name, text in TOOLS.items():
            self.write(f"tools/{name}", LOGS + text, 0o755)
        self.write("tools/id", '#!/bin/sh\necho "${WHO:-1000}"\n', 0o755)
        for name in ("mount/build", "mount/analyze", "mount/cost", ".ci/proved"):
            shutil.copy(f"{TOP}/{name}", f"{self.top}/{name}")
        for path in (*SOURCES, *HEADERS, PARSER, "bindings/out/libmakhloeum.a", "finds"):
            self.write(path, "")

    def read(self, path):
        with open(f"{self.top}/{path}", encoding="utf-8") as it:
            return it.read()

    def called(self, *words, **more):
        """What a program comes to, and the words of the tools that it called. A temporary folder is called WORK there."""
        self.write("calls", "")
        unset = dict.fromkeys(("CFLAGS_MORE", "MAKHLOEUM", "MAKHLOEUM_HEADER", "MAKHLOEUM_LIB", "OBJECTS", "OUT"), "")
        got = self.run_it(*words, **{**unset, "TOP": self.top, **more})
        calls = re.sub(rf"{self.top}/tmp/[^/ \n]*", "WORK", self.read("calls"))
        return got, calls.replace(self.top, "TOP").splitlines()

    def compiled(self, **more):
        """The words by which mount/build compiles each source, and those of its other calls of the compiler."""
        got, calls = self.called("mount/build", **more)
        self.assertEqual(got, (0, "", ""))
        calls = [line.split() for line in calls if line.startswith("cc ")]
        return {words[-3]: words for words in calls if "-c" in words}, [words for words in calls if "-c" not in words]

    def test_a_mount_is_made_of_all_sources(self):
        flags = """-std=c11 -D_GNU_SOURCE -DFUSE_USE_VERSION=32 -O2 -g -Wall -Wextra -Wshadow -Wformat=2 -Wstrict-prototypes -Werror -DMORE
        -I/fuse -ffile-prefix-map=TOP=. -ITOP/bindings/c -ITOP/mount/../bindings/c -ITOP/mount/src""".split()
        self.write("made/makhloeum", "the program", 0o755)
        self.write("mount/out/makhloeum", "older")
        sort = os.readlink(f"{self.top}/tools/sort")
        os.unlink(f"{self.top}/tools/sort")
        self.write("tools/sort", f'#!/bin/sh\necho "$LC_ALL" >>"$TOP/languages"\nexec {sort} "$@"\n', 0o755)
        compiled, linked = self.compiled(CFLAGS_MORE="-DMORE", LC_ALL="C.UTF-8")
        self.assertEqual(self.read("languages"), "C\nC\n")
        objects = ("a-tree.o", "b-tree.o", "main.o", "number_parser.o")
        wanted = dict(zip((*(f"TOP/{source}" for source in SOURCES), f"TOP/mount/../{PARSER}"), objects))
        self.assertEqual(compiled, {each: ["cc", *flags, "-c", each, "-o", f"WORK/{wanted[each]}"] for each in wanted})
        ends = ["TOP/bindings/out/libmakhloeum.a", "-lfuse", "-pthread", "-o", "WORK/makhloeum"]
        self.assertEqual(linked, [["cc", *flags, *(f"WORK/{name}" for name in objects), *ends]])
        self.assertEqual(self.read("mount/out/makhloeum"), "the program")

    def test_objects_are_used_again_until_a_source_or_a_header_changes(self):
        os.mkdir(f"{self.top}/other")
        os.rename(f"{self.top}/{HEADERS[1]}", f"{self.top}/other/makhloeum.h")
        os.rename(f"{self.top}/bindings/out/libmakhloeum.a", f"{self.top}/other/its.a")
        paths = (*SOURCES, PARSER, HEADERS[0], "other/makhloeum.h", HEADERS[2])
        more = {"OBJECTS": "objects", "MAKHLOEUM_HEADER": "other", "MAKHLOEUM_LIB": "other/its.a", "OUT": "out"}
        every = {*(f"TOP/{source}" for source in SOURCES), f"TOP/mount/../{PARSER}"}
        self.assertEqual(set(self.compiled(**more)[0]), every)
        self.assertEqual(os.listdir(f"{self.top}/out"), ["makhloeum"])
        for changed in ("nothing", *paths):
            for path in paths:
                os.utime(f"{self.top}/{path}", (3000, 3000) if path == changed else (1000, 1000))
            for name in os.listdir(f"{self.top}/objects"):
                os.utime(f"{self.top}/objects/{name}", (2000, 2000))
            compiled, linked = self.compiled(**more)
            wanted = every if changed.endswith(".h") else {each for each in every if each.endswith(changed)}
            self.assertEqual(set(compiled), wanted, changed)
            self.assertEqual([sum(word.endswith(".o") for word in words) for words in linked], [4])
            self.assertIn("TOP/other/its.a", linked[0])
        os.unlink(f"{self.top}/objects/b-tree.o")
        os.utime(f"{self.top}/{HEADERS[2]}", (1000, 1000))
        self.assertEqual(list(self.compiled(**more)[0]), [f"TOP/{SOURCES[1]}"])

    def test_a_mount_lacks_the_library(self):
        for lost in ("bindings/out/libmakhloeum.a", "bindings/c/makhloeum.h"):
            os.rename(f"{self.top}/{lost}", f"{self.top}/lost")
            self.write("mount/out/makhloeum", "older")
            (status, said, errors), calls = self.called("mount/build")
            self.assertEqual((status, said, os.listdir(f"{self.top}/mount/out")), (1, "", []))
            self.assertIn("the engine's library is not there", errors)
            self.assertEqual([line for line in calls if line.startswith("cc")], [])
            os.rename(f"{self.top}/lost", f"{self.top}/{lost}")

    def lacking(self, tools, packages, *words):
        """A program without each of these tools says so to a user, and the superuser gets it. Without NO_FUSE pkg-config finds no
        package, also then."""
        for name in (*tools, "NO_FUSE"):
            more = {"NO_FUSE": "1"} if name == "NO_FUSE" else {}
            if not more:
                os.rename(f"{self.top}/tools/{name}", f"{self.top}/absent/{name}")
            for who in ("1000", "0"):
                (status, said, errors), calls = self.called(*words, WHO=who, **more)
                if who == "1000" or more:
                    self.assertEqual((status, said, errors.count("\n")), (3, "", 1), (name, errors))
                    self.assertRegex(errors, f"^{words[0]}: needs ")
                else:
                    self.assertEqual(status, 0, name)
                install = ["apt-get update -qq", f"apt-get install -y -qq --no-install-recommends {packages}"]
                asked = [line for line in calls if line.startswith("apt-get")]
                self.assertEqual(asked, install if who == "0" else [], name)

    def test_a_mount_lacks_a_tool(self):
        self.write("mount/out/makhloeum", "older")
        for words in (("--tools",), ()):
            tools = ("cc", "pkg-config", "fusermount3")
            self.lacking(tools, f"{PACKAGES} fuse3 libfuse3-dev", "mount/build", *words)
            self.assertEqual(os.path.exists(f"{self.top}/mount/out/makhloeum"), bool(words))
        os.unlink(f"{self.top}/tools/cc")
        os.unlink(f"{self.top}/tools/apt-get")
        self.assertEqual(self.called("mount/build", WHO="0")[0][0], 3)

    def test_a_question_for_tools_builds_nothing(self):
        self.write("mount/out/makhloeum", "older")
        got, calls = self.called("mount/build", "--tools")
        self.assertEqual((got, [line for line in calls if line.startswith("cc")]), ((0, "", ""), []))
        self.assertEqual(self.read("mount/out/makhloeum"), "older")

    def test_each_analyzer_gets_each_source(self):
        got, calls = self.called("mount/analyze")
        self.assertEqual(got, (0, "mount/analyze: 4 files, 0 findings\n", ""))
        every = [*(f"TOP/{source}" for source in SOURCES), f"TOP/mount/../{PARSER}"]
        flags = "-std=c11 -D_GNU_SOURCE -DFUSE_USE_VERSION=32 -DCHECK_LOCK -ITOP/mount/../bindings/c -ITOP/mount/src -I/fuse"
        gcc = [f"gcc -O2 -Wall -Wextra -fanalyzer {flags} -c {source} -o /dev/null" for source in every]
        tidy = [f"clang-tidy --quiet --config-file=TOP/mount/.clang-tidy {source} -- {flags}" for source in every]
        made = [line for line in calls if line.startswith(("gcc", "clang-tidy"))]
        self.assertEqual(sorted(made), sorted([*gcc, *tidy]))
        [words] = [line.split() for line in calls if line.startswith("cppcheck")]
        self.assertEqual(words[-4:], every)
        for word in ("--enable=warning,performance,portability", "--inline-suppr", "--std=c11", "-ITOP/mount/src"):
            self.assertIn(word, words)

    def test_each_finding_of_an_analyzer_counts(self):
        of_all = []
        for tool in ("gcc", "clang-tidy", "cppcheck"):
            for kind in ("warning", "error", *(("performance", "portability") if tool == "cppcheck" else ())):
                found = f"a.c:1:2: {kind}: of {tool}"
                of_all.append(f"{tool} {found}\n")
                self.write("finds", f"{tool} {found}\n{tool} no finding\n")
                (status, said, _), _ = self.called("mount/analyze")
                self.assertEqual((status, said.splitlines()[-1]), (1, "mount/analyze: 4 files, 1 findings"), found)
                self.assertEqual(said.count(found), 1)
        self.write("finds", "".join(of_all))
        (status, said, _), _ = self.called("mount/analyze")
        self.assertEqual((status, said.splitlines()[-1]), (1, "mount/analyze: 4 files, 8 findings"))

    def test_findings_in_files_of_the_same_name(self):
        for tool, to in (("gcc", ">&2"), ("clang-tidy", ">&1")):
            each = " ".join(f'*src/{it}/tree.c*) echo "{it}: warning: of {tool}" {to} ;;' for it in "ab")
            self.write(f"tools/{tool}", f'#!/bin/sh\ncase "$*" in {each} esac\n', 0o755)
        (status, said, _), _ = self.called("mount/analyze")
        self.assertEqual((status, said.splitlines()[-1]), (1, "mount/analyze: 4 files, 4 findings"))

    def test_an_analyzer_is_missing(self):
        tools = ("gcc", "clang-tidy", "cppcheck", "pkg-config")
        self.lacking(tools, f"{PACKAGES} libfuse3-dev clang-tidy cppcheck", "mount/analyze")

    def test_what_is_measured(self):
        os.unlink(f"{self.top}/{SOURCES[1]}")
        for name, text in MADE.items():
            self.write(f"made/{name}", LOGS + text, 0o755)
        began = time.monotonic()
        (status, said, errors), calls = self.called("mount/cost", TURNS="1")
        passed, lines = 1000 * (time.monotonic() - began), said.splitlines()
        self.assertEqual((status, errors, lines[1:-5]), (0, "", COSTS))
        for line in (lines[0], lines[-1]):
            self.assertRegex(line, r"^the machine's load: [\d.]+ [\d.]+ [\d.]+, on \d+ processors$")
        self.assertRegex(lines[-5], "^milliseconds of a job, best of 1 turns; ")
        for name, line in zip(("truths", "short", "mount"), lines[-4:-1]):
            found = re.fullmatch(r"(\w+) +(\d+) +(\d+) +([\d.]+) +(\d+)", line)
            alone, run, uncounted = (int(found[i]) for i in (2, 3, 5))
            self.assertEqual((found[1], alone >= 5, run >= 10, uncounted >= 20), (name, True, True, True), line)
            self.assertAlmostEqual(float(found[4]), run / alone, delta=0.006, msg=line)
            passed -= alone + run + uncounted
        self.assertGreaterEqual(passed, 0, said)
        beginning = lambda *names: [line for line in calls if line.startswith(names)]
        of_mount, with_trace = "makhloeum mount WORK/at", "makhloeum mount WORK/at --trace WORK/trace"
        mounts = ["null_filesystem WORK/at", of_mount, with_trace, of_mount, with_trace]
        self.assertEqual(beginning("null_filesystem", "makhloeum mount"), mounts)
        of_files = "file_calls WORK/at cgroup.stat cgroup.max.depth max group"
        self.assertEqual(beginning("file_calls"), ["file_calls WORK/at file file max", of_files, of_files])
        loads = [f"load WORK/at {clients} 2" for clients in (1, 4, 16) for _ in range(3)]
        self.assertEqual(beginning("load"), loads * 2)
        # the first fails, since a mount may be busy
        self.assertEqual(beginning("fusermount3"), [*["fusermount3 -u -q WORK/at"] * 6, "fusermount3 -u -q -z WORK/at"])
        hows = ("env", "makhloeum run", "makhloeum run --threads=no")
        truths = "sh -c i=0; while [ $i -lt 1500 ]; do /bin/true; i=$((i + 1)); done"
        self.assertEqual([line for line in calls if " sh -c " in line], [f"{how} {truths}" for how in hows])
        for job, count, flags in (("short", 60, "-O2 "), ("mount", 2, "-O2 -D_GNU_SOURCE -DFUSE_USE_VERSION=32")):
            built = f"make -s -j4 -C WORK/{job}"
            wanted = [f"{how} {built}" for how in hows]
            self.assertEqual([line for line in calls if line.endswith(f" {built}")], wanted)
            self.assertEqual(calls.count(f"of {count} sources and 0 objects"), 3)
            text = self.read(f"{job}.make")
            self.assertIn("all: $(patsubst %.c,%.o,$(wordlist 1,60,$(sort $(wildcard *.c))))\n%.o: %.c\n\tcc ", text)
            self.assertRegex(text, re.escape(f"\tcc {flags}") + r".* -c \$< -o \$@\n")
        text = self.read("f60.c")
        self.assertEqual((text.count("#include <"), text.count("int f60_"), "return printf" in text), (3, 20, True))


if __name__ == "__main__":
    unittest.main()
