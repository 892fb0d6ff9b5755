"""Tests of .ci/debs with a made-up tree, and with scripts in place of the tools that look at programs: what each package has, what it
says of itself, and what it depends on. dpkg-deb is one that keeps the folder of a package beside it."""
import email
import gzip
import hashlib
import os
import re
import shutil
import stat
import subprocess
import tempfile
import unittest

TOP = os.path.dirname(os.path.dirname(os.path.dirname(os.path.realpath(__file__))))
WHO = "Makhloeum maintainers <maintainers@users.noreply.makhloeum.example>"
IDS = {"tool": "ab12cd", "bare": "", "libmakhloeum.so.7.8.9": "ef3456", "plain": "778899"}
TREE = {
    **{f"bin/{name}": f"id {IDS[name]}\n" for name in ("tool", "bare", "plain")},
    "bin/.debug/tool.debug": "with .debug_info of tool\n",
    "bin/.debug/bare.debug": "with .debug_info\n",
    "bin/.debug/plain.debug": "without it, but .debug_line\n",
    "lib/libmakhloeum.so.7.8.9": f"id {IDS['libmakhloeum.so.7.8.9']}\n",
    "lib/.debug/libmakhloeum.so.7.8.9.debug": "with .debug_info of the library\n",
    "lib/libmakhloeum.a": "archive\n",
    "lib/pkgconfig/makhloeum.pc": "prefix=@PREFIX@\nlibdir=${prefix}/lib\nincludedir=${prefix}/include\nat=@PREFIX@/x\n",
    "libexec/makhloeum/makhloeum-view": "#!/usr/bin/env python3\nview\n",
    "include/makhloeum.h": "header\n",
    **{
        f"share/man/man{section}/{name}.{section}": f"{name}\n"
        for section, name in ((1, "tool"), (3, "mk_a"), (5, "trace"))
    },
    "share/makhloeum/examples/loop.c": "loop\n",
    "share/makhloeum/examples/manager/go.mod": "module\n",
    "share/makhloeum/go/words.go": "package\n",
    "share/makhloeum/python/makhloeum/__init__.py": "\n" * 1025,
    "share/makhloeum/python/makhloeum/__pycache__/x.pyc": "compiled\n",
    "share/makhloeum/python/makhloeum/libmakhloeum.so.7": "library\n",
    "share/makhloeum/python/makhloeum_pytest.py": "plugin\n",
    "share/bash-completion/completions/tool": "bash\n",
    "share/zsh/site-functions/_tool": "zsh\n",
    "share/fish/vendor_completions.d/tool.fish": "fish\n",
    "share/doc/makhloeum/README.md": "readme\n",
    "share/doc/makhloeum/docs/LOOK.md": "look\n",
    "share/doc/makhloeum/LICENSE-MIT": "license\n",
}
LINKS = {"lib/libmakhloeum.so.7": "libmakhloeum.so.7.8.9", "share/man/man3/mk_b.3": "mk_a.3"}
TOOLS = {
    "dpkg": '[ "$*" = --print-architecture ] && echo amd64',
    "cc": '[ "$*" = -print-multiarch ] && echo a-b-c',
    "dpkg-query": "[ \"$*\" = '-W -f ${Version} libc6' ] && echo 2.36-9+deb12u7",
    "readelf": 'case $1 in -n) sed -n "s/^id \\(..*\\)/    Build ID: \\1/p" "$2" ;; -SW) echo no interpreter >&2; sed "s/with / [1] /" "$2" ;; esac',
    "dpkg-deb": '[ "$1 $2 $3" = "--root-owner-group -Zxz --build" ] && cp -a "$4" "$5.folder" && : >"$5" && echo said',
}
ALL = "7.8.9_amd64.deb", "7.8.9_all.deb"
NAMES = [f"{name}_{ALL[0]}" for name in ("libmakhloeum7", "libmakhloeum7-dbgsym", "libmakhloeum-dev", "makhloeum")]
NAMES += [f"makhloeum-dbgsym_{ALL[0]}", f"python3-makhloeum_{ALL[1]}"]
# What each package has besides usr/share/doc/PACKAGE/copyright and changelog.gz.
DOC, DEBUG = "usr/share/doc", "usr/lib/debug/.build-id"
HAS = {
    "libmakhloeum7": {"usr/lib/a-b-c/libmakhloeum.so.7", "usr/lib/a-b-c/libmakhloeum.so.7.8.9"},
    "libmakhloeum7-dbgsym": {f"{DEBUG}/ef/3456.debug", f"{DOC}/libmakhloeum7-dbgsym"},
    "libmakhloeum-dev": {
        *("usr/include/makhloeum.h", "usr/lib/a-b-c/libmakhloeum.a", "usr/lib/a-b-c/libmakhloeum.so"),
        *("usr/lib/a-b-c/pkgconfig/makhloeum.pc", "usr/share/man/man3/mk_a.3.gz", "usr/share/man/man3/mk_b.3.gz"),
        *(f"{DOC}/libmakhloeum-dev/examples/{name}" for name in ("loop.c", "manager/go.mod")),
    },
    "makhloeum": {
        *(f"usr/bin/{name}" for name in ("tool", "bare", "plain")),
        *("usr/share/man/man1/tool.1.gz", "usr/share/man/man5/trace.5.gz"),
        *("usr/share/bash-completion/completions/tool", "usr/share/zsh/vendor-completions/_tool"),
        *(
            "usr/share/fish/vendor_completions.d/tool.fish",
            f"{DOC}/makhloeum/README.md",
            f"{DOC}/makhloeum/docs/LOOK.md",
        ),
    },
    "makhloeum-dbgsym": {f"{DEBUG}/ab/12cd.debug", f"{DOC}/makhloeum-dbgsym"},
    "python3-makhloeum": {
        "usr/libexec/makhloeum/makhloeum-view",
        *(f"usr/lib/python3/dist-packages/{name}" for name in ("makhloeum/__init__.py", "makhloeum_pytest.py")),
    },
}
FUSE = "libfuse3-3 (>= 3.14), fuse3 (>= 3.14)"
SAYS = {
    "libmakhloeum7": {"Depends": "libc6 (>= 2.36)", "Multi-Arch": "same", "Section": "libs"},
    "libmakhloeum7-dbgsym": {
        **{"Depends": "libmakhloeum7 (= 7.8.9)", "Section": "debug", "Build-Ids": "ef3456"},
        "Auto-Built-Package": "debug-symbols",
    },
    "libmakhloeum-dev": {
        **{"Depends": "libmakhloeum7 (= 7.8.9)", "Multi-Arch": "same", "Suggests": "makhloeum"},
        "Section": "libdevel",
    },
    "makhloeum": {
        **{"Depends": f"libc6 (>= 2.36), {FUSE}", "Recommends": "python3-makhloeum (= 7.8.9)"},
        **{"Suggests": "libmakhloeum-dev", "Section": "utils"},
    },
    "makhloeum-dbgsym": {
        **{"Depends": "makhloeum (= 7.8.9)", "Section": "debug", "Build-Ids": "ab12cd"},
        "Auto-Built-Package": "debug-symbols",
    },
    "python3-makhloeum": {
        **{"Depends": "python3:any, libmakhloeum7 (>= 7.8.9)", "Section": "python"},
        "Suggests": "makhloeum, python3-pytest, python3-hypothesis",
    },
}
WHAT = {
    "libmakhloeum7": "cgroup v2 hierarchy in memory - shared library",
    "libmakhloeum7-dbgsym": "debug symbols for libmakhloeum7",
    "libmakhloeum-dev": "cgroup v2 hierarchy in memory - development files",
    "makhloeum": "cgroup v2 process accounting in user space",
    "makhloeum-dbgsym": "debug symbols for makhloeum",
    "python3-makhloeum": "cgroup v2 hierarchy in memory for Python tests",
}


class Debs(unittest.TestCase):
    def setUp(self):
        self.top = tempfile.mkdtemp()
        self.addCleanup(shutil.rmtree, self.top)
        for path in (".ci/debs", "LICENSE-MIT"):
            self.write(path, self.text(f"{TOP}/{path}"), 0o755)
        says = 'case "$*" in soname) echo libmakhloeum.so.7 ;; seconds) echo 1772582400 ;; "") echo 7.8.9 ;; esac'
        self.write("bindings/version", f"#!/bin/sh\n{says}\n", 0o755)
        for name, script in TOOLS.items():
            self.write(f"tools/{name}", f"#!/bin/sh\n{script}\n", 0o755)
        for path, text in TREE.items():
            self.write(f"tree/{path}", text, 0o700 if path.startswith(("bin/", "lib/")) else 0o644)
        for path, target in LINKS.items():
            os.symlink(target, f"{self.top}/tree/{path}")
        os.makedirs(f"{self.top}/to")

    def write(self, path, text, mode=0o644):
        at = f"{self.top}/{path}"
        os.makedirs(os.path.dirname(at), exist_ok=True)
        with open(at, "w", encoding="utf-8") as it:
            it.write(text)
        os.chmod(at, mode)

    def text(self, path):
        with open(path, encoding="utf-8") as it:
            return it.read()

    def made(self, **environment):
        """The folder of each package, by its name."""
        path = f"{self.top}/tools:{os.environ['PATH']}"
        kept = {name: value for name, value in os.environ.items() if name != "SOURCE_DATE_EPOCH"}
        words = [f"{self.top}/.ci/debs", "tree", "to"]
        how = {"cwd": self.top, "env": {**kept, "PATH": path, **environment}, "capture_output": True, "text": True}
        ran = subprocess.run(words, check=False, umask=0o077, **how)
        self.assertEqual((ran.returncode, ran.stderr), (0, ""))
        names = [os.path.relpath(line, self.top) for line in ran.stdout.splitlines()]
        self.assertEqual(
            sorted(f"to/{name}.folder" for name in os.listdir(f"{self.top}/to") if name.endswith(".deb")),
            sorted(f"{name}.folder" for name in names),
        )
        return {os.path.basename(name).split("_")[0]: f"{self.top}/{name}.folder" for name in names}, names

    @staticmethod
    def files(at):
        found = [os.path.join(folder, name) for folder, _, names in os.walk(at) for name in names]
        found += [os.path.join(folder, name) for folder, below, _ in os.walk(at) for name in below]
        return {os.path.relpath(path, at) for path in found if os.path.islink(path) or os.path.isfile(path)}

    def test_each_package_has_its_files_for_everybody(self):
        folders, names = self.made()
        self.assertEqual(sorted(names), sorted(f"to/{name}" for name in NAMES))
        for package, at in folders.items():
            doc = (
                set()
                if package.endswith("dbgsym")
                else {f"{DOC}/{package}/{it}" for it in ("copyright", "changelog.gz")}
            )
            found = {path for path in self.files(at) if not path.startswith("DEBIAN/")}
            self.assertEqual(found, HAS[package] | doc, package)
            for path in (*found, *(it for it in ("usr", "usr/share", DOC) if os.path.isdir(f"{at}/{it}"))):
                mode = os.lstat(f"{at}/{path}")
                self.assertEqual(int(mode.st_mtime), 1772582400, path)  # 2026-03-04, 00:00 UTC
                if stat.S_ISDIR(mode.st_mode):
                    self.assertEqual(stat.S_IMODE(mode.st_mode), 0o755, path)
        library = f"{folders['libmakhloeum7']}/usr/lib/a-b-c"
        self.assertEqual(os.readlink(f"{library}/libmakhloeum.so.7"), "libmakhloeum.so.7.8.9")
        self.assertEqual(stat.S_IMODE(os.stat(f"{library}/libmakhloeum.so.7.8.9").st_mode), 0o644)
        two = f"{folders['libmakhloeum-dev']}/usr"
        self.assertEqual(os.readlink(f"{two}/lib/a-b-c/libmakhloeum.so"), "libmakhloeum.so.7")
        self.assertEqual(os.readlink(f"{two}/share/man/man3/mk_b.3.gz"), "mk_a.3.gz")
        described = "prefix=/usr\nlibdir=${prefix}/lib/a-b-c\nincludedir=${prefix}/include\nat=/usr/x\n"
        self.assertEqual(self.text(f"{two}/lib/a-b-c/pkgconfig/makhloeum.pc"), described)
        view = f"{folders['python3-makhloeum']}/usr/libexec/makhloeum/makhloeum-view"
        self.assertEqual(self.text(view), "#!/usr/bin/python3\nview\n", "the Python that has the package")
        for page in (f"{two}/share/man/man3/mk_a.3.gz", f"{folders['makhloeum']}/usr/share/man/man1/tool.1.gz"):
            with open(page, "rb") as it:
                packed = it.read()
            # neither a name nor a time, and the best compression
            self.assertEqual((packed[3], packed[4:8], packed[8]), (0, b"\0\0\0\0", 2))
            self.assertEqual(gzip.decompress(packed), os.path.basename(page).split(".")[0].encode() + b"\n")
        for package, path, text in (
            ("libmakhloeum7-dbgsym", f"{DEBUG}/ef/3456.debug", "with .debug_info of the library\n"),
            ("makhloeum-dbgsym", f"{DEBUG}/ab/12cd.debug", "with .debug_info of tool\n"),
        ):
            self.assertEqual(self.text(f"{folders[package]}/{path}"), text)
            self.assertEqual(os.readlink(f"{folders[package]}/{DOC}/{package}"), package.removesuffix("-dbgsym"))

    def test_what_each_package_says_of_itself(self):
        folders, _ = self.made()
        for package, at in folders.items():
            text = self.text(f"{at}/DEBIAN/control")
            said = dict(email.message_from_string(text))
            head, *more = said.pop("Description").split("\n")
            self.assertEqual((head, len(more) > 0), (WHAT[package], True), package)
            self.assertEqual([line for line in more if not re.fullmatch(r" \S.*[a-z,\"'.]", line)], [], package)
            size = sum(
                (os.path.getsize(f"{folder}/{name}") + 1023) // 1024 if not os.path.islink(f"{folder}/{name}") else 1
                for folder, below, names in os.walk(f"{at}/usr")
                for name in (*names, *(it for it in below if os.path.islink(f"{folder}/{it}")))
            )
            size += sum(not os.path.islink(folder) for folder, _, _ in os.walk(f"{at}/usr"))
            self.assertEqual(int(said.pop("Installed-Size")), size, package)
            arch = "all" if package.startswith("python3") else "amd64"
            own = {"Package": package, "Source": "makhloeum", "Version": "7.8.9", "Architecture": arch}
            self.assertEqual(said, {**own, "Maintainer": WHO, "Priority": "optional", **SAYS[package]}, package)
            sums = dict(reversed(line.split("  ")) for line in self.text(f"{at}/DEBIAN/md5sums").splitlines())
            plain = [path for path in self.files(f"{at}/usr") if not os.path.islink(f"{at}/usr/{path}")]
            self.assertEqual(list(sums), sorted(f"usr/{path}" for path in plain))
            for path, noted in sums.items():
                with open(f"{at}/{path}", "rb") as it:
                    self.assertEqual(hashlib.md5(it.read()).hexdigest(), noted, path)
        library = folders["libmakhloeum7"]
        self.assertEqual(self.text(f"{library}/DEBIAN/shlibs"), "libmakhloeum 7 libmakhloeum7 (>= 7.8.9)\n")
        self.assertEqual(self.text(f"{library}/DEBIAN/triggers"), "activate-noawait ldconfig\n")

    def test_only_what_was_proved_is_called_verified(self):
        for path in ("", "bin/plain", "lib/libmakhloeum.so.7.8.9"):
            if path:
                self.write(f"tree/{path}", f"{TREE[path]}\0without proofs\0", 0o755)
            folders, _ = self.made()
            for package in ("libmakhloeum7", "makhloeum"):
                said = self.text(f"{folders[package]}/DEBIAN/control").partition("Description: ")[2]
                self.assertEqual("Its engine is verified." in said, not path, said)
                self.assertEqual("It was made without proofs." in said, path != "", said)
            if path:
                self.write(f"tree/{path}", TREE[path], 0o755)
            shutil.rmtree(f"{self.top}/to")
            os.mkdir(f"{self.top}/to")

    def test_the_license_and_the_changes(self):
        folders, _ = self.made()
        of_mit = self.text(f"{TOP}/LICENSE-MIT").split("\n", 4)[4]
        for package in ("libmakhloeum7", "libmakhloeum-dev", "makhloeum", "python3-makhloeum"):
            text = self.text(f"{folders[package]}/{DOC}/{package}/copyright")
            form, files, mit, apache = text.rstrip("\n").split("\n\n")
            self.assertEqual(
                form.split("\n"),
                [
                    "Format: https://www.debian.org/doc/packaging-manuals/copyright-format/1.0/",
                    "Upstream-Name: Makhloeum",
                ],
            )
            self.assertEqual(
                dict(email.message_from_string(files)),
                {"Files": "*", "Copyright": "2026 the Makhloeum contributors", "License": "MIT or Apache-2.0"},
            )
            name, *lines = mit.split("\n")
            self.assertEqual(name, "License: MIT")
            self.assertEqual([line[1:] if line != " ." else "" for line in lines], of_mit.rstrip("\n").split("\n"))
            self.assertEqual([line for line in lines if not re.match(r" \S|  +\S", line)], [])
            self.assertEqual(apache.split("\n")[0], "License: Apache-2.0")
            self.assertIn(" /usr/share/common-licenses/Apache-2.0.", apache)
            with gzip.open(f"{folders[package]}/{DOC}/{package}/changelog.gz", "rt") as it:
                head, change, end = it.read().split("\n\n")
            self.assertEqual(head, "makhloeum (7.8.9) unstable; urgency=medium")
            self.assertRegex(change, r"^  \* \S")
            self.assertEqual(end, f" -- {WHO}  Wed, 04 Mar 2026 00:00:00 +0000\n")

    def test_what_python_compiled_goes_with_its_package(self):
        folders, _ = self.made()
        script = f"{folders['python3-makhloeum']}/DEBIAN/prerm"
        self.assertEqual(stat.S_IMODE(os.stat(script).st_mode), 0o755)
        root = f"{self.top}/root"
        at = f"{root}/usr/lib/python3/dist-packages"
        own = ("makhloeum/__pycache__/x.pyc", "makhloeum/page/__pycache__/y.pyc", "__pycache__/makhloeum_pytest.z.pyc")
        others = ("makhloeum/__init__.py", "__pycache__/other.z.pyc")
        for written, kept in (((*own, *others), others), (own, others), ((), others)):
            for name in written:
                self.write(os.path.relpath(f"{at}/{name}", self.top), "")
            how = {"env": dict(os.environ, DPKG_ROOT=root), "capture_output": True, "text": True, "check": False}
            ran = subprocess.run([script, "remove"], **how)
            self.assertEqual((ran.returncode, ran.stdout, ran.stderr), (0, "", ""))
            self.assertEqual(self.files(at), set(kept))
            self.assertEqual(os.listdir(f"{at}/makhloeum/page"), [])
        os.remove(f"{at}/{others[1]}")
        subprocess.run([script, "upgrade", "7.8.10"], env=dict(os.environ, DPKG_ROOT=root), check=True)
        self.assertFalse(os.path.exists(f"{at}/__pycache__"), "no empty folder stays")

    def test_the_date_that_the_caller_wants(self):
        folders, _ = self.made(SOURCE_DATE_EPOCH="86400", LC_ALL="C", TZ="America/Anchorage")
        library = f"{folders['libmakhloeum7']}/usr/lib/a-b-c/libmakhloeum.so.7"
        self.assertEqual(int(os.lstat(library).st_mtime), 86400)

    def test_a_tool_that_fails_ends_it(self):
        environment = dict(os.environ, PATH=f"{self.top}/tools:{os.environ['PATH']}")
        for name in ("cc", "dpkg", "dpkg-deb"):
            self.write(f"tools/{name}", "#!/bin/sh\nexit 1\n", 0o755)
            words = [f"{self.top}/.ci/debs", "tree", "to"]
            ran = subprocess.run(words, cwd=self.top, env=environment, check=False, capture_output=True)
            self.assertEqual((ran.returncode, ran.stdout, os.listdir(f"{self.top}/to")), (1, b"", []), name)
            self.write(f"tools/{name}", f"#!/bin/sh\n{TOOLS[name]}\n", 0o755)

    def test_a_tree_without_programs(self):
        shutil.rmtree(f"{self.top}/tree/bin")
        folders, names = self.made()
        self.assertEqual(sorted(names), sorted(f"to/{name}" for name in NAMES if "makhloeum-dbgsym" not in name))
        self.assertFalse(os.path.exists(f"{folders['makhloeum']}/usr/bin"))

    def test_programs_without_debug_information(self):
        os.remove(f"{self.top}/tree/bin/tool")
        folders, names = self.made()
        self.assertEqual(sorted(names), sorted(f"to/{name}" for name in NAMES if "makhloeum-dbgsym" not in name))
        self.assertEqual(sorted(os.listdir(f"{folders['makhloeum']}/usr/bin")), ["bare", "plain"])


if __name__ == "__main__":
    unittest.main()
