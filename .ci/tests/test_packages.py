"""Tests of what makes packages, some with made-up tools: the Python package, which glibc a wheel's library may need, the version and
the date of all files, and which files a tree has."""
import hashlib
import os
import re
import runpy
import shutil
import stat
import subprocess
import sys
import tempfile
import types
import unittest
from unittest import mock

TOP = os.path.dirname(os.path.dirname(os.path.dirname(os.path.realpath(__file__))))


class Packages(unittest.TestCase):
    def setUp(self):
        self.top = tempfile.mkdtemp()
        self.addCleanup(shutil.rmtree, self.top)

    def write(self, path, text, mode=0o644):
        at = os.path.join(self.top, path)
        os.makedirs(os.path.dirname(at), exist_ok=True)
        with open(at, "w", encoding="utf-8") as it:
            it.write(text)
        os.chmod(at, mode)

    def read(self, path):
        with open(os.path.join(self.top, path), encoding="utf-8") as it:
            return it.read()

    def copy(self, *paths):
        for path in paths:
            os.makedirs(os.path.dirname(os.path.join(self.top, path)), exist_ok=True)
            shutil.copy(os.path.join(TOP, path), os.path.join(self.top, path))

    def run_it(self, *words, **more):
        environment = dict(os.environ, PATH=f"{self.top}/tools:{os.environ['PATH']}", LC_ALL="C", **more)
        ran = subprocess.run(
            words, cwd=self.top, env=environment, stdin=subprocess.DEVNULL, capture_output=True, text=True, timeout=600
        )
        return ran.returncode, ran.stdout, ran.stderr

    def wheel(self, *versions):
        """What bindings/wheel does of a library that needs these versions of glibc: its status and message."""
        self.copy("bindings/wheel", "bindings/package", "bindings/version", "bindings/c/makhloeum.h")
        self.copy("LICENSE-MIT", "LICENSE-APACHE")
        for name in ("pyproject.toml", "setup.py", "README.md", "makhloeum_pytest.py", "makhloeum/__init__.py"):
            self.write(f"bindings/python/{name}", "")
        for name in ("page", "check"):
            self.write(f"look/{name}/__init__.py", "")
        for name in ("rows", "text"):
            self.write(f"evidence/linux-6.12/{name}.recorded", "")
        self.write("bindings/out/libmakhloeum.so", "a library")
        symbols = "".join(f"0000 DF *UND* 0000 (GLIBC_{version}) a_call\n" for version in versions)
        self.write("tools/objdump", f"#!/bin/sh\nprintf %s '{symbols}'\n", 0o755)
        self.write("tools/strip", '#!/bin/sh\nfor last; do :; done\ncp "$last" "$4"\n', 0o755)
        self.write("tools/python", "#!/bin/sh\n>makhloeum-1.whl\n", 0o755)
        status, _, said = self.run_it("bindings/wheel", self.top, PYTHON=f"{self.top}/tools/python")
        self.assertEqual(os.path.exists(f"{self.top}/makhloeum-1.whl"), status == 0)
        return status, said

    def test_a_library_that_needs_an_older_glibc_gives_a_wheel(self):
        self.assertEqual(self.wheel("2.2.5", "2.4", "2.36", "2.34"), (0, ""))

    def test_the_newest_glibc_is_found_by_its_number(self):
        refused = "bindings/wheel: the library needs glibc %s, newer than the 2.36 of the wheel's tag\n"
        # as texts, 2.4 and 2.9 come after 2.38
        for versions in (("2.38",), ("2.4", "2.38"), ("2.38", "2.4", "2.9"), ("2.37", "2.38", "2.36")):
            self.assertEqual(self.wheel(*versions), (1, refused % "2.38"), versions)
        self.assertEqual(self.wheel("2.100", "2.4"), (1, refused % "2.100"))

    def test_the_python_package_has_each_source_for_everybody(self):
        before = os.umask(0o077)
        self.addCleanup(os.umask, before)
        self.copy("bindings/package")
        for folder in ("bindings/python/makhloeum", "look/page", "look/check", "evidence/linux-6.12"):
            shutil.copytree(f"{TOP}/{folder}", f"{self.top}/{folder}")
            for name in os.listdir(f"{self.top}/{folder}"):
                os.chmod(f"{self.top}/{folder}/{name}", 0o700)
            for name in (".hidden.py", "below/more.py", "folder.py/more.py"):  # what is none of its sources
                self.write(f"{folder}/{name}", "")
        self.assertEqual(self.run_it("bindings/package", f"{self.top}/to", CDPATH="."), (0, "", ""))
        wanted = {}
        for source, place in (("bindings/python/makhloeum", ""), ("look/page", "page/"), ("look/check", "check/")):
            names = (it.name for it in os.scandir(f"{TOP}/{source}") if it.is_file() and it.name[0] != ".")
            wanted.update({place + name: f"{source}/{name}" for name in names})
        for name in ("rows.recorded", "text.recorded"):
            wanted[f"check/worked/{name}"] = f"evidence/linux-6.12/{name}"
        self.assertGreater(len(wanted), 40)
        at = f"{self.top}/to/makhloeum"
        found = {os.path.relpath(f"{folder}/{name}", at) for folder, _, names in os.walk(at) for name in names}
        self.assertEqual(found, set(wanted))
        for name, source in wanted.items():
            with open(f"{at}/{name}", "rb") as packed, open(f"{TOP}/{source}", "rb") as own:
                self.assertEqual(packed.read(), own.read(), name)
        for folder, below, names in os.walk(at):
            for name in (*below, *names):
                mode = stat.S_IMODE(os.stat(os.path.join(folder, name)).st_mode)
                self.assertEqual(mode, 0o755 if name in below else 0o644, name)

    def set_up(self, look, version="1.2.3", kinds=(object, object), **environment):
        """What is found in the names and the words of setup.py, with made-up setuptools and a library of that version; or its message."""
        self.copy("bindings/python/setup.py", "bindings/python/makhloeum/_library.py")
        made_up = {name: types.ModuleType(name) for name in ("setuptools", "setuptools.command", "wheel", "ctypes")}
        given = {}
        made_up["setuptools"].setup = lambda **words: given.update(words)
        made_up["ctypes"].CDLL, made_up["ctypes"].c_char_p = mock.MagicMock(), None
        made_up["ctypes"].CDLL.return_value.mk_version.return_value = version.encode()
        for name, kind in zip(("setuptools.command.build_py", "wheel.bdist_wheel"), kinds):
            made_up[name] = types.ModuleType(name)
            setattr(made_up[name], name.rpartition(".")[2], kind)
        with mock.patch.dict(sys.modules, made_up), mock.patch.dict(os.environ, environment):
            try:
                return look(runpy.run_path(f"{self.top}/bindings/python/setup.py"), given)
            except SystemExit as no:
                return str(no).replace(self.top, "")

    def library(self, **environment):
        """The library that setup.py takes: its path here, or why there is none."""
        return self.set_up(
            lambda names, _: str(names["library"]()).replace(os.path.realpath(self.top), ""), **environment
        )

    def test_which_library_a_wheel_has(self):
        name = "libmakhloeum.so.1"
        given = {"MAKHLOEUM_LIBRARY": f"{self.top}/given.so"}
        missing = "makhloeum: %s is missing: run bindings/build first, or set MAKHLOEUM_LIBRARY to the path of " + name
        self.assertEqual(self.library(MAKHLOEUM_LIBRARY=""), missing % f"/bindings/out/{name}")
        self.assertEqual(self.library(**given), missing % "/given.so")
        self.write(f"bindings/out/{name}", "")
        self.assertEqual(self.library(MAKHLOEUM_LIBRARY=""), f"/bindings/out/{name}")
        self.assertEqual(self.library(**given), missing % "/given.so")
        self.write("given.so", "")
        self.assertEqual(self.library(**given), "/given.so")
        self.write(f"bindings/python/makhloeum/{name}", "")
        self.assertEqual(self.library(**given), f"/bindings/python/makhloeum/{name}")

    def test_the_version_of_a_wheel_says_how_its_library_was_made(self):
        self.write("bindings/out/libmakhloeum.so.1", "")
        for version, wanted in (("1.2.3", "1.2.3"), ("1.2.3 without proofs", "1.2.3+without.proofs")):
            self.assertEqual(self.set_up(lambda _, words: words["version"], version, MAKHLOEUM_LIBRARY=""), wanted)

    def test_what_setup_adds_to_the_modules(self):
        """The library and the recordings, unless the modules stay where they are; and a tag for each Python 3 on one platform."""
        done = []

        class BuildPy:
            build_lib = f"{self.top}/made"

            def run(self):
                done.append("run")

        class BdistWheel:
            def finalize_options(self):
                self.root_is_pure = True

            def get_tag(self):
                return "cp311", "cp311", "linux_x86_64_linux_"

        def look(_, words):
            kinds = words["cmdclass"]
            build, wheel = kinds["build_py"](), kinds["bdist_wheel"]()
            build.editable_mode = is_editable
            build.run()
            wheel.finalize_options()
            return words["package_dir"], wheel.root_is_pure, wheel.get_tag()

        self.write("bindings/out/libmakhloeum.so.1", "a library")
        self.write("evidence/linux-6.12/text.recorded", "a text")
        self.write("evidence/linux-6.12/other.recorded", "another")
        for is_editable, wanted in ((True, []), (False, ["check/worked/text.recorded", "libmakhloeum.so.1"])):
            os.makedirs(f"{self.top}/made/makhloeum", exist_ok=True)
            folders, is_pure, tag = self.set_up(look, kinds=(BuildPy, BdistWheel), MAKHLOEUM_LIBRARY="")
            self.assertEqual(folders, {f"makhloeum.{name}": f"../../look/{name}" for name in ("page", "check")})
            self.assertEqual((is_pure, tag), (False, ("py3", "none", "manylinux_2_36_x86_64_linux_")))
            at = f"{self.top}/made/makhloeum"
            made = [os.path.relpath(f"{folder}/{name}", at) for folder, _, names in os.walk(at) for name in names]
            self.assertEqual(sorted(made), wanted)
        self.assertEqual(done, ["run"] * 2)
        self.assertEqual(self.read("made/makhloeum/check/worked/text.recorded"), "a text")
        self.assertEqual(self.read("made/makhloeum/libmakhloeum.so.1"), "a library")
        self.write("bindings/python/makhloeum/page/__init__.py", "")
        folders, _, _ = self.set_up(look, kinds=(BuildPy, BdistWheel), MAKHLOEUM_LIBRARY="")
        self.assertEqual(folders, {"makhloeum.check": "../../look/check"}, "beside the modules, as in a source archive")

    def test_the_version_is_that_of_the_header(self):
        self.copy("bindings/version")
        numbers = "".join(
            f"#define MK_VERSION_{name} {n}\n" for name, n in (("MAJOR", 12), ("MINOR", 0), ("PATCH", 345))
        )
        self.write(
            "bindings/c/makhloeum.h",
            f"/* #define MK_VERSION_MAJOR 9 */\n   Its date is 2026-03-04.\n{numbers}#define MK_VERSION_MAJOR_2 7\n",
        )
        self.assertEqual(self.run_it("bindings/version"), (0, "12.0.345\n", ""))
        self.assertEqual(self.run_it("bindings/version", "soname"), (0, "libmakhloeum.so.12\n", ""))
        self.assertEqual(self.run_it("bindings/version", "date"), (0, "2026-03-04\n", ""))
        self.assertEqual(
            self.run_it("bindings/version", "x"), (2, "", "usage: bindings/version [soname | date | seconds]\n")
        )

    def test_the_changelog_has_the_version_and_its_date_first(self):
        version, date = (self.run_it(f"{TOP}/bindings/version", *words)[1].strip() for words in ((), ("date",)))
        with open(f"{TOP}/CHANGELOG.md", encoding="utf-8") as it:
            first = next(line for line in it if line.startswith("## "))
        self.assertEqual(first, f"## {version}, {date}\n")

    def test_each_program_and_each_call_is_found_in_a_tree(self):
        """Shells find a completion by the name of its program, `man` a page by that of a call."""
        if not os.path.exists(f"{TOP}/bindings/out/libmakhloeum.a") or not shutil.which("objcopy"):
            self.skipTest("there is no library, or no objcopy")
        self.assertEqual(self.run_it(f"{TOP}/.ci/tree", f"{self.top}/tree")[0], 0)
        at = f"{self.top}/tree/share"
        for program in ("cgreplay", "cgshell", "makhloeum"):
            with open(f"{at}/bash-completion/completions/{program}", encoding="ascii") as it:
                self.assertIn(program, it.read())
            with open(f"{at}/fish/vendor_completions.d/{program}.fish", encoding="ascii") as it:
                self.assertIn(f"complete -c {program} ", it.read())
        with open(f"{at}/zsh/site-functions/_makhloeum", encoding="ascii") as it:
            self.assertEqual(it.readline(), "#compdef cgreplay cgshell makhloeum\n")
        with open(f"{TOP}/bindings/c/makhloeum.h", encoding="ascii") as it:
            calls = sorted(
                {
                    line.split("(")[0].split()[-1].lstrip("*")
                    for line in it
                    if line.startswith(("uint32_t mk_", "const mk_file *mk_"))
                }
            )
        self.assertGreaterEqual(len(calls), 40)
        for call in calls:
            with open(f"{at}/man/man3/{call}.3", encoding="ascii") as it:
                self.assertIn(f"fB{call}", it.read(), call)
        date = self.run_it(f"{TOP}/bindings/version", "date")[1].strip()
        for page in ("man1/cgshell.1", "man3/mk_open.3", "man5/cgroup-trace.5"):
            with open(f"{at}/man/{page}", encoding="ascii") as it:
                self.assertEqual(it.readline().split()[3], f'"{date}"')
        for command in ("view", "tree", "check"):
            self.assertTrue(os.access(f"{self.top}/tree/libexec/makhloeum/makhloeum-{command}", os.X_OK), command)
        self.assertFalse([name for name in os.listdir(f"{at}/makhloeum/go") if name.endswith("_test.go")])

    def linked(self, at, *without):
        """A clone whose parts are links to those of this one, without some: programs, or the library."""
        for folder in sorted({"", *(os.path.dirname(path) for path in without)}):
            os.makedirs(f"{self.top}/{at}/{folder}", exist_ok=True)
            for name in os.listdir(f"{TOP}/{folder}"):
                path = os.path.join(folder, name)
                if not any(it == path or it.startswith(f"{path}/") for it in without):
                    os.symlink(f"{TOP}/{path}", f"{self.top}/{at}/{path}")

    def test_a_tree_has_what_is_installed_for_everybody(self):
        if not os.path.exists(f"{TOP}/bindings/out/libmakhloeum.a") or not shutil.which("objcopy"):
            self.skipTest("there is no library, or no objcopy")
        self.linked("clone", "crates", "mount/out")
        before = os.umask(0o077)
        self.addCleanup(os.umask, before)
        programs = {f"crates/{name}/out/{name}" for name in ("cgreplay", "cgshell")} | {"mount/out/makhloeum"}
        status, out, said = self.run_it("clone/.ci/tree", f"{self.top}/tree")
        missing = {f"install: without {path.split('/')[-1]}: {path} has not been built" for path in programs}
        self.assertEqual((status, out, set(said.splitlines())), (0, "", missing))
        version, date = (self.run_it(f"{TOP}/bindings/version", *words)[1].strip() for words in ((), ("date",)))
        wanted = {"include/makhloeum.h": f"{TOP}/bindings/c/makhloeum.h"}
        for source, pattern, place in (
            ("man", r".*\.(\d)", r"share/man/man\1"),
            ("docs", r".*\.(md|svg|png)|Containerfile", "share/doc/makhloeum/docs"),
            ("docs/reference", r".*\.md", "share/doc/makhloeum/docs/reference"),
            ("evidence", r"README\.md", "share/doc/makhloeum/evidence"),
            ("evidence/bench", r"NOTES\.md", "share/doc/makhloeum/evidence/bench"),
            ("mount", r"README\.md", "share/doc/makhloeum/mount"),
            ("", r"(README|CONTRIBUTING|CHANGELOG|RELEASE)\.md|LICENSE-(MIT|APACHE)", "share/doc/makhloeum"),
            ("bindings/go", r"(?!\.|.*_test\.go|libmakhloeum\.a).*", "share/makhloeum/go"),
            ("bindings/go/makhloeumtest", r"(?!\.|.*_test\.go).*", "share/makhloeum/go/makhloeumtest"),
            ("bindings/examples", r".*\.(c|py)", "share/makhloeum/examples"),
            *(
                (f"bindings/examples/{it}", r"main\.go|go\.mod", f"share/makhloeum/examples/{it}")
                for it in ("manager", "watcher")
            ),
            ("bindings/python", r"makhloeum_pytest\.py", "share/makhloeum/python"),
            ("completion", "makhloeum", "share/bash-completion/completions"),
            ("completion", "_makhloeum", "share/zsh/site-functions"),
            ("completion", r"makhloeum\.fish", "share/fish/vendor_completions.d"),
        ):
            names = [it.name for it in os.scandir(f"{TOP}/{source}") if it.is_file() and re.fullmatch(pattern, it.name)]
            self.assertGreater(len(names), 0, source)
            for name in names:
                wanted[f"{re.fullmatch(pattern, name).expand(place)}/{name}"] = os.path.join(TOP, source, name)
        at, made = f"{self.top}/tree", {}
        for folder, below, names in os.walk(at):
            for name in (*below, *names):
                path = os.path.relpath(f"{folder}/{name}", at)
                if not os.path.islink(f"{at}/{path}"):
                    runs = name in below or path.startswith("libexec/") or re.fullmatch(r"lib/lib.*\.so\..*", path)
                    self.assertEqual(stat.S_IMODE(os.stat(f"{at}/{path}").st_mode), 0o755 if runs else 0o644, path)
                made[path] = os.readlink(f"{at}/{path}") if os.path.islink(f"{at}/{path}") else name in below
        for path, source in wanted.items():
            with open(f"{at}/{path}", "rb") as it, open(source, "rb") as own:
                self.assertEqual(it.read(), own.read().replace(b"@DATE@", date.encode(), 1), path)
        links = {path: target for path, target in made.items() if isinstance(target, str) and not path.endswith(".3")}
        bash, fish = "share/bash-completion/completions/", "share/fish/vendor_completions.d/"
        library = f"libmakhloeum.so.{version}"
        self.assertEqual(
            links,
            {
                **{f"{bash}{it}": "makhloeum" for it in ("cgreplay", "cgshell")},
                **{f"{fish}{it}.fish": "makhloeum.fish" for it in ("cgreplay", "cgshell")},
                "lib/libmakhloeum.so": "libmakhloeum.so.1",
                "lib/libmakhloeum.so.1": library,
            },
        )
        python = f"share/makhloeum/python/makhloeum-{version}.dist-info"
        others = {path for path, kind in made.items() if kind is False and path not in wanted}
        others = {path for path in others if not path.startswith("share/makhloeum/python/makhloeum/")}
        self.assertEqual(
            others,
            {
                *(f"libexec/makhloeum/makhloeum-{command}" for command in ("view", "tree", "check")),
                *("lib/libmakhloeum.a", "lib/pkgconfig/makhloeum.pc", f"lib/{library}", f"lib/.debug/{library}.debug"),
                *("share/makhloeum/go/libmakhloeum.a", f"{python}/METADATA", f"{python}/entry_points.txt"),
            },
        )
        for path, text in (
            (f"{python}/METADATA", f"Metadata-Version: 2.1\nName: makhloeum\nVersion: {version}\n"),
            (f"{python}/entry_points.txt", "[pytest11]\nmakhloeum.pytest_plugin = makhloeum_pytest\n"),
        ):
            self.assertEqual(self.read(f"tree/{path}"), text)
        with open(f"{TOP}/bindings/makhloeum.pc.in", encoding="ascii") as it:
            self.assertEqual(self.read("tree/lib/pkgconfig/makhloeum.pc"), it.read().replace("@VERSION@", version))
        for path in ("lib/libmakhloeum.a", f"lib/{library}", "share/makhloeum/go/libmakhloeum.a"):
            self.assertNotIn("debug_info", self.run_it("readelf", "-SW", f"{at}/{path}")[1], path)
        sections = self.run_it("readelf", "-SW", f"{at}/lib/{library}")[1]
        self.assertIn(" .gnu_debuglink ", sections)
        self.assertNotIn(" .comment ", sections)
        self.assertIn(" .debug_info ", self.run_it("readelf", "-SW", f"{at}/lib/.debug/{library}.debug")[1])

    def test_there_is_no_tree_without_the_library(self):
        self.linked("clone", "bindings/out")
        name = f"libmakhloeum.so.{self.run_it(f'{TOP}/bindings/version')[1].strip()}"
        fault = f"install: bindings/out has no {name}: run bindings/build first\n"
        self.assertEqual(self.run_it("clone/.ci/tree", f"{self.top}/tree"), (1, "", fault))
        self.assertFalse(os.path.exists(f"{self.top}/tree"))

    def test_a_library_says_how_it_was_made(self):
        """Its version is that of the header; after that of ./try's library come two words."""
        made, tools = f"{TOP}/crates/c_library/out/libc_library.a", ("rt", "ar", "objcopy", "cc")
        if not os.path.exists(made) or not all(map(shutil.which, tools)):
            self.skipTest("there is no library, or a tool is missing")
        shutil.copytree(
            f"{TOP}/bindings", f"{self.top}/bindings", ignore=shutil.ignore_patterns("out", "python", "mutants")
        )
        self.write("mark.c", 'const char mk0_without_proofs[] = "without proofs";\n')
        subprocess.run(["cc", "-c", "mark.c", "-o", "without_proofs.o"], cwd=self.top, check=True)
        at = f"{self.top}/crates/c_library/out/libc_library.a"
        os.makedirs(os.path.dirname(at))
        for change, more in (("d", ""), ("r", " without proofs")):
            shutil.copy(made, at)
            subprocess.run(["ar", change, at, f"{self.top}/without_proofs.o"], check=True)
            self.assertEqual(self.run_it("bindings/build")[0], 0)
            program = "import ctypes, sys; call = ctypes.CDLL(sys.argv[1]).mk_version; call.restype = ctypes.c_char_p"
            program += "; print(call().decode())"
            library = f"{self.top}/bindings/out/libmakhloeum.so.1"
            version = self.run_it("bindings/version")[1].strip()
            self.assertEqual(self.run_it("python3", "-c", program, library)[1], f"{version}{more}\n")

    def dist(self, *words):
        """What .ci/dist does of a tree whose program has the words of its version: its status, message and archives."""
        self.copy(
            ".ci/dist",
            ".ci/proved",
            "LICENSE-MIT",
            "LICENSE-APACHE",
            "install",
            "uninstall",
        )
        self.write("CHANGELOG.md", "# Changelog\n\n## 1.2.3, 2026-03-04\n\n- a\n\n## 1.2.2, 2026-03-01\n\n- b\n")
        self.write("bindings/version", '#!/bin/sh\n[ "${1:-}" = seconds ] && echo 1772582400 || echo 1.2.3\n', 0o755)
        tree = 'for it in bin lib share/doc/makhloeum share/makhloeum/go; do mkdir -p "$1/$it"; done; cp said "$1/bin/tool"'
        documents = '[ ! -d documents ] || cp -R documents/. "$1/share/doc/makhloeum"'
        self.write(".ci/tree", f"#!/bin/sh\n{tree}\n{documents}\n", 0o755)
        self.write(".ci/debs", '#!/bin/sh\necho a package >"$2/a.deb"\n', 0o755)
        self.write("tools/python3", "#!/bin/sh\nexit 1\n", 0o755)
        self.write("bindings/wheel", "#!/bin/sh\n", 0o755)
        shutil.rmtree(f"{self.top}/out", ignore_errors=True)
        status, _, said = self.run_it(".ci/dist", *words)
        return status, said, sorted(os.listdir(f"{self.top}/out")) if os.path.isdir(f"{self.top}/out") else []

    def test_an_archive_has_what_was_made_without_proofs_only_if_asked(self):
        self.write("said", "tool 1.2.3\n")
        names = self.dist()[2]
        self.assertEqual(self.dist()[0], 0)
        self.assertTrue([name for name in names if name.startswith("makhloeum-1.2.3-")], names)
        self.write("said", "\0tool 1.2.3 without proofs\0\n")
        status, said, made = self.dist()
        self.assertEqual((status, made), (1, []))
        self.assertIn("/bin/tool was made without proofs, by ./try\n", said)
        self.assertEqual(self.dist("--unproved")[::2], (0, names))

    def test_the_documents_are_at_the_top_of_an_archive(self):
        self.write("said", "tool 1.2.3\n")
        self.write("documents/README.md", "text\n")
        self.write("documents/docs/FORMATS.md", "more\n")
        self.assertEqual(self.dist()[0], 0)
        name = f"makhloeum-1.2.3-{os.uname().machine}"
        os.mkdir(f"{self.top}/unpacked")
        self.assertEqual(self.run_it("tar", "-C", "unpacked", "-xzf", f"out/{name}.tar.gz"), (0, "", ""))
        at = f"{self.top}/unpacked/{name}"
        self.assertEqual(sorted(os.listdir(at)), ["README.md", "docs", "install", "tree", "uninstall"])
        for place in (at, f"{at}/tree/share/doc/makhloeum"):
            for path, text in (("README.md", "text\n"), ("docs/FORMATS.md", "more\n")):
                with open(f"{place}/{path}", encoding="utf-8") as it:
                    self.assertEqual(it.read(), text, path)

    def test_a_release_has_checksums_and_notes(self):
        self.write("said", "tool 1.2.3\n")
        status, _, names = self.dist()
        machine = os.uname().machine
        archives = [f"{it}makhloeum-1.2.3-{machine}.tar.gz" for it in ("", "go-")]
        self.assertEqual((status, names), (0, sorted([*archives, "a.deb", "SHA256SUMS", "release-notes.md"])))
        sums = dict(reversed(line.split()) for line in self.read("out/SHA256SUMS").splitlines())
        self.assertEqual(sorted(sums), sorted(set(names) - {"SHA256SUMS"}))
        for name, noted in sums.items():
            with open(f"{self.top}/out/{name}", "rb") as it:
                self.assertEqual(hashlib.sha256(it.read()).hexdigest(), noted, name)
        self.assertEqual(self.read("out/release-notes.md"), "## 1.2.3, 2026-03-04\n\n- a\n\n")

    def test_the_date_is_that_of_the_version(self):
        self.copy("bindings/version")
        self.write(
            "bindings/c/makhloeum.h", "/* The version.\n   Its date is 2026-03-04. */\n   Its date is 2026-03-04.\n"
        )
        for zone in ("UTC", "Pacific/Kiritimati", "America/Anchorage"):
            self.assertEqual(self.run_it("bindings/version", "seconds", TZ=zone), (0, "1772582400\n", ""))


if __name__ == "__main__":
    unittest.main()
