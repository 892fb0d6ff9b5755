"""The tests of runc's and containerd's Go packages for cgroup2, as Debian ships them, without the lines by which Debian skips them.

go_packages.py build FOLDER  compiles them into the folder; the status is 3 if the packages are not installed.
go_packages.py run FOLDER    runs them, under `makhloeum run --root --keep memory,cpu,io,cpuset`, together with the user's own systemd."""
import glob
import json
import os
import re
import subprocess
import sys
import tempfile

sys.path.insert(0, os.path.dirname(os.path.dirname(os.path.realpath(__file__))))
from support import PATIENCE, finish, same, status_within, step, until, write

SOURCES = "/usr/share/gocode/src/"
RUNC = "github.com/opencontainers/runc/libcontainer/cgroups"
CONTAINERD = "github.com/containerd/cgroups/v2"
PACKAGES = (
    RUNC,
    RUNC + "/fs2",
    RUNC + "/fscommon",
    RUNC + "/manager",
    RUNC + "/devices",
    RUNC + "/systemd",
    CONTAINERD,
)
SKIPPED_BY_DEBIAN = (
    't.Skip("need to mount cgroupfs")',
    't.Skip("cgroupv2 support in LXC container on ci.debian.net is broken")',
)
# What does not pass here, and why.
KNOWN = {
    "TestSkipDevicesTrue": ("FAIL", "the mount has no limits for devices, which the kernel has in BPF"),
    "TestSkipDevicesFalse": ("FAIL", "the mount has no limits for devices, which the kernel has in BPF"),
    "TestWriteCgroupFileHandlesInterrupt": ("SKIP", "is of cgroup v1"),
    "TestFreezeBeforeSet": ("SKIP", "is of cgroup v1"),
    "TestCgroupv2HugetlbStats": ("SKIP", "the mount has no hugetlb controller"),
    "TestCgroupv2IOController": ("SKIP", "its authors skip it everywhere"),
}
CGROUPS = "/sys/fs/cgroup/"


def program(folder, package):
    return os.path.join(folder, package.replace("/", "_"))


def overlay(folder):
    """A file that tells the compiler to read these tests without those lines."""
    replaced = {}
    for package in PACKAGES:
        for path in glob.glob(os.path.join(SOURCES, package, "*_test.go")):
            with open(path) as f:
                lines = f.readlines()
            kept = [x for x in lines if not any(s in x for s in SKIPPED_BY_DEBIAN)]
            if kept != lines:
                replaced[path] = program(folder, path[len(SOURCES) :])
                with open(replaced[path], "w") as f:
                    f.writelines(kept)
    with open(os.path.join(folder, "overlay.json"), "w") as f:
        json.dump({"Replace": replaced}, f)
    return f.name


def build(folder):
    wanted = PACKAGES + ("github.com/stretchr/testify/assert",)
    if any(not os.path.isdir(SOURCES + p) for p in wanted):
        return 3
    how = dict(
        os.environ,
        GO111MODULE="off",
        GOPATH=SOURCES[: -len("/src/")],
        GOCACHE=os.path.join(folder, "cache"),
        GOFLAGS="-trimpath",
    )
    how.setdefault("HOME", folder)
    changed = overlay(folder)
    for package in PACKAGES:
        if subprocess.run(
            ["go", "test", "-overlay", changed, "-c", "-o", program(folder, package), package], env=how
        ).returncode:
            return 1
    return 0


def start_manager():
    """These packages look for the machine's systemd and find the user's, which makes its groups in the root."""
    home = tempfile.mkdtemp(dir=os.environ["TMPDIR"])
    if not os.path.isdir("/run/systemd/system"):
        subprocess.run(["mount", "-t", "tmpfs", "tmpfs", "/run"], check=True)
        os.makedirs("/run/systemd/system")
    os.environ.update(XDG_RUNTIME_DIR=home, XDG_CONFIG_HOME=home)
    for group in ("user.slice", "init.scope"):
        os.mkdir(CGROUPS + group)
    write(CGROUPS + "init.scope/cgroup.procs", b"0\n")
    write(CGROUPS + "cgroup.subtree_control", b"+pids +memory +cpu +io +cpuset\n")
    log = open(os.path.join(home, "log"), "w")
    manager = subprocess.Popen(["/usr/lib/systemd/systemd", "--user", "--unit=basic.target"], stdout=log, stderr=log)
    os.symlink(os.path.join(home, "systemd/private"), "/run/systemd/private")
    runs = ["systemctl", "--user", "is-system-running"]
    step(
        "systemd runs",
        until(lambda: subprocess.run(runs, stdout=subprocess.PIPE, stderr=subprocess.DEVNULL).stdout == b"running\n"),
    )
    return manager


def run_package(folder, package):
    ran = subprocess.run(
        [program(folder, package), "-test.v"],
        cwd=SOURCES + package,
        stdout=subprocess.PIPE,
        stderr=subprocess.STDOUT,
        timeout=6 * PATIENCE,
    )
    text = ran.stdout.decode(errors="replace")
    became = re.findall(r"^--- (PASS|FAIL|SKIP): (\w+) ", text, re.M)
    for how, name in became:
        wanted, why = KNOWN.get(name, ("PASS", ""))
        same(name, how, wanted)
        if wanted != "PASS":
            print("  %s %s: %s" % (name, {"FAIL": "fails", "SKIP": "is skipped"}[how], why))
    started = re.findall(r"^=== RUN +(\w+)$", text, re.M)
    same("each test of %s ended" % package, [name for _, name in became], started)
    passed = sum(how == "PASS" for how, _ in became)
    step("some passed", passed > 0, text[-2000:])
    print("  %-58s %d of %d tests pass" % (package[len("github.com/") :], passed, len(started)), flush=True)


def run(folder):
    manager = start_manager()
    for package in PACKAGES:
        run_package(folder, package)
    subprocess.run(["systemctl", "--user", "exit"], check=True)
    same("systemd ends", status_within(manager), 0)
    finish()


if sys.argv[1] == "build":
    sys.exit(build(sys.argv[2]))
run(sys.argv[2])
