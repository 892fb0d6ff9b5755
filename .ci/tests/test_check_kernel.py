"""Tests of evidence/check-kernel with a made-up package, and with scripts in place of qemu, cpio and dpkg-deb."""
import filecmp
import gzip
import os
import re
import shutil
import subprocess
import sys
import tempfile
from unittest import TestCase, main, mock

from scripts import TOP

SCRIPT = "evidence/check-kernel"
# What a program of the machine is here: each logs its words. cpio keeps the files that it is given.
PROGRAMS = {
    "busybox": "#!/bin/sh\n",
    "cpio": '#!/bin/sh\ntar -cf - --no-recursion -T - | tar -C "$PLACE/initramfs" -xf -\necho an initramfs\n',
    "dpkg-deb": '#!/bin/sh\necho "$@" >"$PLACE/dpkg-deb"\nmkdir -p "$3/boot"\necho a kernel >"$3/boot/vmlinuz-6"\n',
    "qemu-system-x86_64": '#!/bin/sh\necho "$@" >"$PLACE/qemu"\nwhile [ "$1" != -initrd ]; do shift; done\ncp "$2" "$PLACE/.."\ncat "$PLACE/says"\n',
}
# It needs a library that Python doesn't.
LIBRARY = shutil.which("tar")
# A check that loads a module of Python with a library only when it is called.
CHECK = "def main(words):\n    import _ctypes, wave\n    print(words)\n"
PACKAGE = '#!/bin/sh\nmkdir -p "$1/makhloeum/check/worked"\necho package >"$1/makhloeum/__init__.py"\n'


class Kernel(TestCase):
    def setUp(self):
        self.top = tempfile.mkdtemp()
        self.addCleanup(shutil.rmtree, self.top)
        self.place = f"{self.top}/place"
        for path in (SCRIPT, "docs/LOOK.md"):
            self.write(path, self.text(f"{TOP}/{path}"), 0o755)
        self.write("bindings/python/makhloeum/__init__.py", "")
        self.write("bindings/python/makhloeum/check.py", CHECK)
        self.write("bindings/package", PACKAGE, 0o755)
        self.write("bindings/version", "#!/bin/sh\necho lib$1.so.7\n", 0o755)
        os.makedirs(f"{self.top}/bindings/out")
        shutil.copy(LIBRARY, f"{self.top}/bindings/out/libsoname.so.7")
        self.write("evidence/linux-6.12/rows.recorded", "a recording")
        for name, text in PROGRAMS.items():
            self.write(f"programs/{name}", text, 0o755)
        os.makedirs(f"{self.place}/initramfs")
        self.says("kernel: 6", "7 operations in 1 s", "status: 0")

    def write(self, path, text, mode=0o644):
        at = f"{self.top}/{path}"
        os.makedirs(os.path.dirname(at), exist_ok=True)
        with open(at, "w", encoding="utf-8") as it:
            it.write(text)
        os.chmod(at, mode)

    def text(self, path):
        with open(path, encoding="utf-8") as it:
            return it.read()

    def says(self, *lines):
        self.write("place/says", "".join(f"{line}\n" for line in lines))

    def ran(self, *words, **environment):
        """The status of the script, and what it said."""
        path = f"{self.top}/programs:{os.environ['PATH']}"
        kept = {"PATH": path, "PLACE": self.place, "IMAGE": "/an/image.deb", **environment}
        with mock.patch.dict(os.environ, kept):
            ran = subprocess.run([f"{self.top}/{SCRIPT}", *words], capture_output=True, text=True, check=False)
        return ran.returncode, ran.stdout + ran.stderr

    def initramfs(self, path):
        return os.path.join(self.place, "initramfs", path.lstrip("/"))

    def libraries_of(self, file):
        said = subprocess.run(["ldd", file], capture_output=True, text=True, check=False).stdout
        return re.findall(r"(/\S+) \(0x", said)

    def test_the_machine_has_what_the_check_needs(self):
        self.assertEqual(self.ran()[0], 0)
        python = f"{sys.base_prefix}/bin/python{sys.version_info[0]}.{sys.version_info[1]}"
        needed = [
            os.__file__,
            __import__("encodings.idna").idna.__file__,
            __import__("wave").__file__,
            *self.libraries_of(python),
        ]
        late = __import__("_ctypes").__file__
        needed += [late, *self.libraries_of(late), *self.libraries_of(LIBRARY)]
        self.assertGreater(len(needed), 5)
        self.assertEqual([path for path in needed if not os.path.isfile(self.initramfs(path))], [])
        self.assertTrue(
            os.access(self.initramfs("usr/bin/python3"), os.X_OK) and os.access(self.initramfs("init"), os.X_OK)
        )
        self.assertTrue(os.access(self.initramfs("bin/busybox"), os.X_OK))
        package = self.initramfs("makhloeum/makhloeum")
        self.assertEqual(self.text(f"{package}/__init__.py"), "package\n")
        self.assertTrue(filecmp.cmp(f"{package}/libsoname.so.7", LIBRARY, shallow=False))
        self.assertEqual(self.text(f"{package}/check/worked/rows.recorded"), "a recording")
        if os.geteuid() == 0:
            home = re.search(r"PYTHONHOME=(\S+)", self.text(self.initramfs("init")))[1]
            words = ["chroot", self.initramfs("/"), "/usr/bin/python3", "-c", "import _ctypes, wave"]
            with mock.patch.dict(os.environ, {"PYTHONHOME": home}):
                ran = subprocess.run(words, capture_output=True, text=True, check=False)
            self.assertEqual((ran.returncode, ran.stderr), (0, ""))

    def test_the_words_are_those_of_the_check(self):
        self.assertEqual(self.ran("--count", "3")[0], 0)
        self.assertRegex(self.text(self.initramfs("init")), r"python3 -m makhloeum.check \$DIR --count 3\n")
        self.assertEqual(self.ran()[0], 0)
        self.assertRegex(self.text(self.initramfs("init")), r"python3 -m makhloeum.check \$DIR --count 10000\n")
        self.assertEqual(self.text(f"{self.place}/dpkg-deb").split()[:2], ["-x", "/an/image.deb"])

    def test_the_set_up_is_that_of_the_page(self):
        self.assertEqual(self.ran()[0], 0)
        setup = self.text(self.initramfs("init")).split("ifconfig lo up 2>/dev/null\n")[1].split('\necho "kernel')[0]
        self.assertEqual(setup.count("\n"), 2)
        self.assertIn("chown", setup)
        self.assertNotIn("su ", setup)
        self.assertNotIn(" me", setup)
        page = self.text(f"{self.top}/docs/LOOK.md")
        self.write("docs/LOOK.md", page.replace("\nIt needs permission", "\nIt needs permission:\n\n    true\n\nIt", 1))
        status, said = self.ran()
        self.assertEqual((status, "docs/LOOK.md has other commands" in said), (2, True))

    def test_the_status_is_that_of_the_check(self):
        self.says("status: 7", "7 operations in 1 s", "status: 1")
        self.assertEqual(self.ran()[0], 1)
        self.says("7 operations in 1 s")
        self.assertEqual(self.ran()[0], 2)
        self.says("status: 0")
        status, said = self.ran()
        self.assertEqual((status, said.splitlines()[-1]), (2, f"{SCRIPT}: the check did not come to its end there"))

    def machine(self, **environment):
        """The words of the machine, and of what stops it."""
        self.write("programs/timeout", '#!/bin/sh\necho "$@" >"$PLACE/timeout"\nshift 3\nexec "$@"\n', 0o755)
        self.assertEqual(self.ran(**environment)[0], 0)
        return self.text(f"{self.place}/qemu").split(), self.text(f"{self.place}/timeout").split()[:4]

    def test_the_machine(self):
        words, stopping = self.machine(MEMORY="3M", ACCELERATOR="tcg", SECONDS_AT_MOST="77")
        self.assertEqual([words[words.index(of) + 1] for of in ("-accel", "-m")], ["tcg", "3M"])
        self.assertEqual(stopping, ["-k", "10", "77", "qemu-system-x86_64"])
        self.assertTrue(words[words.index("-kernel") + 1].endswith("/boot/vmlinuz-6"))
        self.assertTrue(words[words.index("-initrd") + 1].endswith("/initramfs"))
        words, stopping = self.machine()
        wanted = ["kvm" if os.access("/dev/kvm", os.W_OK) else "tcg", "512M", "1", "none", "max"]
        self.assertEqual([words[words.index(of) + 1] for of in ("-accel", "-m", "-smp", "-nic", "-cpu")], wanted)
        self.assertEqual(stopping[2], "1200")
        self.assertTrue({"-nographic", "-no-reboot", "console=ttyS0", "panic=-1", "cgroup_no_v1=all"} <= {*words})
        with gzip.open(f"{self.top}/initramfs", "rt") as it:
            self.assertEqual(it.read(), "an initramfs\n")

    def test_what_the_machine_does(self):
        """Its first program mounts what Linux has, gives up root for the check, and ends the machine."""
        self.assertEqual(self.ran("--seed", "4")[0], 0)
        lines = self.text(self.initramfs("init")).split("\n")
        self.assertEqual(lines[:2], ["#!/bin/busybox sh", "/bin/busybox --install -s /bin"])
        text = "\n".join(lines).replace("; ", "\n")
        for kind, place in (
            ("proc", "/proc"),
            ("sysfs", "/sys"),
            ("devtmpfs", "/dev"),
            ("tmpfs", "/tmp"),
            ("cgroup2", "/sys/fs/cgroup"),
        ):
            self.assertRegex(text, rf"\nmount -t {kind} \w+ {place}\n")
        self.assertLess(text.index(" /sys\n"), text.index(" /sys/fs/cgroup\n"))
        self.assertIn("\nchmod 1777 /tmp\n", text)
        exported = next(line for line in lines if line.startswith("export "))
        for word in ("PATH=/bin:/usr/bin", "HOME=/tmp", "PYTHONPATH=/makhloeum", "PYTHONDONTWRITEBYTECODE=1"):
            self.assertIn(word, exported.split(" "))
        check, status, left, end, last = lines[-5:]
        calls = re.findall(r"os\.(set\w+)\(([^)]*)\)", check)
        self.assertEqual(calls, [("setgroups", "[]"), ("setgid", "1000"), ("setuid", "1000")])
        self.assertRegex(check, r"' +python3 -m makhloeum\.check \$DIR --seed 4$")
        self.assertEqual((status, left.split(" ")[0], end, last), ('echo "status: $?"', "echo", "poweroff -f", ""))
        said = subprocess.run(
            ["sh", "-c", f"DIR={self.top}/bindings; {left}"], capture_output=True, text=True, check=True
        ).stdout
        folders = " ".join(f"{self.top}/bindings/{name}/" for name in ("out", "python"))
        self.assertEqual(said, f"left: {folders} \n")

    def test_which_kernel_of_debian(self):
        """The newest of the version that is asked for, from Debian's archive."""
        lists = "".join(
            f'echo "  Depends: linux-image-{it}-cloud-amd64 (= 1)"\n' for it in ("6.1.0-9", "6.12.5", "6.12.4")
        )
        self.write("programs/apt-cache", f'#!/bin/sh\necho "$@" >"$PLACE/asked"\necho "$2"\n{lists}', 0o755)
        self.write("programs/apt-get", '#!/bin/sh\necho "$@" >"$PLACE/got"\n: >"$3_1_amd64.deb"\n', 0o755)
        for kernel, newest, package in (
            ("", "linux-image-6.12-cloud-amd64", "linux-image-6.12.5-cloud-amd64"),
            ("6.12", "linux-image-6.12-cloud-amd64", "linux-image-6.12.5-cloud-amd64"),
            ("6.1", "linux-image-cloud-amd64", "linux-image-6.1.0-9-cloud-amd64"),
        ):
            status, said = self.ran(IMAGE="", **({"KERNEL": kernel} if kernel else {}))
            self.assertEqual(status, 0, said)
            self.assertEqual(self.text(f"{self.place}/asked"), f"depends {newest}\n")
            self.assertEqual(self.text(f"{self.place}/got"), f"download -qq {package}\n")
            self.assertTrue(self.text(f"{self.place}/dpkg-deb").split()[1].endswith(f"/{package}_1_amd64.deb"))
        self.write("programs/apt-get", "#!/bin/sh\nexit 1\n", 0o755)
        fault = f"{SCRIPT}: linux-image-6.12.5-cloud-amd64 cannot be downloaded\n"
        self.assertEqual(self.ran(IMAGE=""), (2, fault))
        self.write("programs/apt-cache", "#!/bin/sh\n", 0o755)
        fault = f"{SCRIPT}: Debian's linux-image-6.12-cloud-amd64 is no kernel 6.12 here\n"
        self.assertEqual(self.ran(IMAGE=""), (2, fault))

    def test_what_root_installs(self):
        """Only what is missing; without root, or without a success, the sentence says what is missing."""
        tools = "apt-get bash cat cpio cut dirname env grep gzip head id ldd mkdir mktemp python3 qemu-system-x86_64 rm sed sort tail"
        os.mkdir(f"{self.top}/few")
        for name in tools.split():
            own = f"{self.top}/programs/{name}"
            if not os.path.exists(own) and shutil.which(name):
                os.symlink(shutil.which(name), f"{self.top}/few/{name}")
        os.remove(f"{self.top}/programs/busybox")
        os.remove(f"{self.top}/few/apt-get")
        os.remove(f"{self.top}/few/id")
        self.write("few/apt-get", '#!/bin/bash\necho "$@" >>"$PLACE/got"\n', 0o755)
        fault = (
            f"{SCRIPT}: there is no busybox; on Debian: apt-get install qemu-system-x86 busybox-static cpio python3\n"
        )
        for number, wanted in (
            ("0", ["update -qq", "install -y -qq --no-install-recommends busybox-static"]),
            ("7", []),
        ):
            self.write("few/id", f"#!/bin/bash\necho {number}\n", 0o755)
            self.write("place/got", "")
            path = f"{self.top}/programs:{self.top}/few"
            with mock.patch.dict(os.environ, {"PLACE": self.place, "PATH": path}):
                ran = subprocess.run([f"{self.top}/{SCRIPT}"], capture_output=True, text=True, check=False)
            self.assertEqual((ran.returncode, ran.stdout, ran.stderr), (2, "", fault))
            self.assertEqual(self.text(f"{self.place}/got").splitlines(), wanted)

    def test_a_step_that_fails_ends_it(self):
        self.write("programs/dpkg-deb", "#!/bin/sh\nexit 1\n", 0o755)
        self.assertNotEqual(self.ran()[0], 0)
        self.assertFalse(os.path.exists(f"{self.place}/qemu"), "no machine is started")

    def test_what_is_missing_is_named(self):
        status, said = self.ran(IMAGE="", KERNEL="5.10")
        self.assertEqual((status, said), (2, f"{SCRIPT}: KERNEL is 6.12 or 6.1, not 5.10\n"))
        os.remove(f"{self.top}/bindings/out/libsoname.so.7")
        status, said = self.ran()
        self.assertEqual((status, "run bindings/build first" in said), (2, True))


if __name__ == "__main__":
    main()
