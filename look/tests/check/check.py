"""makhloeum check, on a mount of ours and on a small file system with planted faults."""
import concurrent.futures
import os
import re
import shutil
import signal
import subprocess
import sys
import tempfile
import time

CHECK = [sys.executable, "-W", "error", "-m", "makhloeum.check"]
MAKHLOEUM, FAULTY = os.environ["MAKHLOEUM"], os.environ["FAULTY"]
OPERATIONS = 3000
LINES_AT_MOST = 12
PATIENCE = 600  # seconds, for what takes some on an idle machine
LIMIT = ["--limit", "40"]  # where something has to be missed, and is waited for in vain
# Each planted fault, and what the directory does.
FAULTS = {
    "one_too_few": "pids.current above a killed group is one too few",
    "peak": "pids.peak is forgotten after a kill",
    "einval": "rmdir of a busy group is EINVAL",
    "silent": "no notification",
    "poll_only": "inotify does not notify",
    "inotify_only": "poll does not notify",
    "twice": "each change is notified twice",
    "chatter": "a fork is notified, though nothing changed",
    "local_deep": "pids.events.local counts the refused forks below",
    "events_flat": "pids.events does not count those below",
    "populated_flat": "populated does not look below",
    "kill_flat": "cgroup.kill leaves the groups below alone",
    "stat_flat": "nr_descendants counts children only",
    "depth": "cgroup.max.depth admits one more",
    "max_kept": "max is accepted and keeps the limit",
    "limit_errno": "mkdir at a limit is ENOSPC",
    "procs_short": "cgroup.procs leaves out the last process",
    "move_limited": "pids.max refuses a move",
    "no_feed": "pids.current has no line feed",
    "removes": "rmdir removes a group with processes",
    "child_in_root": "a child begins in the root",
    "exit_late": "an exit is counted late",
    "esrch": "a process that is not there is EINVAL",
    "range": "pids.max accepts 4194305",
    "kill_two": "cgroup.kill accepts 2",
    "list_empty": "a listing has no groups",
    "old_text": "an open file keeps its first text",
}
# What a script cannot show by its text alone, since it depends on how long it waits.
NOT_REPLAYED = {"twice", "chatter", "silent", "poll_only", "inotify_only", "exit_late"}
passed, failed = 0, 0


def step(name, right, told=""):
    global passed, failed
    passed, failed = passed + bool(right), failed + (not right)
    if os.environ.get("STEPS") or not right:
        print(f"  {name:<62} {'ok' if right else f'FAILED {told}'}", flush=True)


def until(what, seconds=PATIENCE):
    end = time.monotonic() + seconds
    while time.monotonic() < end:
        if what():
            return True
        time.sleep(0.02)
    return False


class Mount:
    def __init__(self, *command, **environment):
        self.home = tempfile.mkdtemp()
        self.at = os.path.join(self.home, "at")
        os.mkdir(self.at)
        command = [self.at if word == "AT" else word for word in command]
        self.process = subprocess.Popen(command, stderr=subprocess.PIPE, env=dict(os.environ, **environment))
        if not until(lambda: self.process.poll() is not None or os.path.ismount(self.at)) or not os.path.ismount(
            self.at
        ):
            raise SystemExit(f"no mount: {self.process.stderr.read().decode()}")

    def groups(self):
        return [entry.name for entry in os.scandir(self.at) if entry.is_dir() and entry.name != ".makhloeum"]

    def is_played(self):
        """Whether a check plays a sequence in it, and not its first one."""
        try:
            found = [name for group in self.groups() for name in os.listdir(os.path.join(self.at, group))]
        except FileNotFoundError:  # a group that is removed meanwhile
            return False
        return any(re.fullmatch(r"top\d+", name) and name != "top1" for name in found)

    def __enter__(self):
        return self

    def __exit__(self, *failure):
        subprocess.run(["fusermount3", "-u", "-z", self.at], stderr=subprocess.DEVNULL)
        try:
            self.process.wait(5)
        except subprocess.TimeoutExpired:
            self.process.kill()
        shutil.rmtree(self.home, ignore_errors=True)


def adopting(*more):
    return Mount(MAKHLOEUM, "mount", "AT", "--foreground", "--adopt", *more)


def faulty(name, *more):
    return Mount(FAULTY, "-s", "-f", *more, "AT", FAULT=name)


def check(directory, *words):
    """An operation may take as long as a busy machine lets it, if the words don't say otherwise."""
    words = [*words] if "--limit" in words else [*words, "--limit", str(PATIENCE)]
    ran = subprocess.run([*CHECK, directory, *words], capture_output=True, text=True, timeout=6 * PATIENCE)
    return ran.returncode, ran.stdout, ran.stderr


def contents(pid, name):
    try:
        with open(f"/proc/{pid}/{name}", "rb") as it:
            return it.read()
    except OSError:
        return b""


def workers():
    """The processes of a check of these tests that are still there. look/test-check gives the tests a TMPDIR of their own."""
    ours = os.fsencode(f"TMPDIR={os.environ['TMPDIR']}")
    return [
        int(pid)
        for pid in filter(str.isdecimal, os.listdir("/proc"))
        if b"makhloeum.check" in contents(pid, "cmdline") and ours in contents(pid, "environ").split(b"\0")
    ]


# ---- no difference


def same_on(name, mount, count, *words):
    with mount as m:
        status, out, said = check(m.at, "--count", str(count), "--seed", "7", *words)
        told = re.search(r"^(\d+) operations in .*, (\d+) differences$", out, re.M)
        step(f"{name}: no difference", status == 0 and told and told[2] == "0", out + said)
        step(f"{name}: {told and told[1]} operations", told and int(told[1]) >= count, out)
        step(f"{name}: nothing is left", m.groups() == [], m.groups())


def same_under_run():
    """There limits refuse real forks, and /proc/PID/cgroup shows the group."""
    command = [
        MAKHLOEUM,
        "run",
        "--",
        *CHECK,
        "/sys/fs/cgroup",
        "--count",
        "1500",
        "--no-worked",
        "--limit",
        str(PATIENCE),
    ]
    ran = subprocess.run(command, capture_output=True, text=True, timeout=6 * PATIENCE)
    if ran.returncode == 2 and "does not allow" in ran.stderr:
        print("look/test-check: makhloeum run: skipped, " + ran.stderr.strip())
        return
    told = re.search(r"^(\d+) operations in .*, 0 differences$", ran.stdout, re.M)
    step("makhloeum run: no difference", ran.returncode == 0 and told and int(told[1]) >= 1500, ran.stdout + ran.stderr)
    step("makhloeum run: forks are stopped", "cannot stop it" not in ran.stdout, ran.stdout)


# ---- planted faults


def script_of(out):
    lines = out.split("\n")
    if "#!/bin/sh" not in lines:
        return []
    script = lines[lines.index("#!/bin/sh") :]
    return script[: script.index("")]


def shows(script):
    """What the last line of the script prints is what the directory said; its pids are other numbers."""
    said = re.search(r"; the directory: (.*)$", script[1])[1]
    parted = [*script[:-1], "echo --", script[-1]]
    ran = subprocess.run(["sh", "-c", "\n".join(parted)], capture_output=True, text=True, timeout=600)
    wanted = re.search(r"\((.*)\)$", said)
    if said == "ok":
        return ran.returncode == 0, ran
    if wanted:
        return wanted[1] in ran.stderr, ran
    text, printed = eval(said), ran.stdout.rpartition("--\n")[2]
    if "alive: " in text:
        return "error" not in ran.stderr, ran
    return printed == text or len(printed.split()) == len(text.split()), ran


def caught(name):
    """What went wrong, or ''; and how long it took."""
    began = time.monotonic()
    with faulty(name) as m:
        status, out, said = check(
            *(m.at, "--no-worked", "--most", "1", "--shorten", str(PATIENCE), "--time", str(PATIENCE)),
            *("--count", "100000", *LIMIT),
        )
        seconds, script = time.monotonic() - began, script_of(out)
        if status != 1 or not script:
            return f"status {status}: {out}{said}", seconds
        if len(script) > LINES_AT_MOST:
            return f"{len(script)} lines: " + "\n".join(script), seconds
        if m.groups():
            return f"left: {m.groups()}", seconds
        if name not in NOT_REPLAYED:
            right, ran = shows(script)
            if not right:
                return "the script shows something else:\n" + "\n".join(script) + f"\n{ran.stdout}{ran.stderr}", seconds
        return "", seconds


def catch_all():
    """Two at a time. FAULTS names those that are tried: all."""
    names = os.environ.get("FAULTS", "").split() or list(FAULTS)
    with concurrent.futures.ThreadPoolExecutor(2) as pool:
        slowest = 0.0
        for name, (wrong, seconds) in zip(names, pool.map(caught, names)):
            step(f"caught in {seconds:.0f} s: {FAULTS[name]}", not wrong, wrong)
            slowest = max(slowest, seconds)
    print(f"  {len(names)} planted faults, the slowest in {slowest:.0f} s")


# ---- what ends it


def others_are_not_ours():
    """Of two processes with the name of a check, only the one of these tests is counted."""
    sleeping = [sys.executable, "-c", "import time; time.sleep(60)", "makhloeum.check"]
    with subprocess.Popen(sleeping) as ours, subprocess.Popen(sleeping, env=dict(os.environ, TMPDIR="/tmp")) as other:
        # a process may have its words only after Popen returned
        until(lambda: all(contents(it.pid, "environ") and contents(it.pid, "cmdline") for it in (ours, other)))
        found = workers()
        ours.kill()
        other.kill()
    step("a process of another run is not counted", found == [ours.pid], f"{found}: {ours.pid}, and not {other.pid}")


def hanging():
    with faulty("hang") as m:
        status, out, said = check(m.at, "--limit", "2")
        step(
            "a directory that hangs at first: one sentence",
            status == 2 and "does not answer" in said and said.count("\n") == 1,
            out + said,
        )
    with faulty("hang_kill") as m:
        status, out, said = check(m.at, "--limit", "2", "--no-worked")
        step(
            "a directory that hangs",
            status == 1 and "it hangs" in out and "cgroup.kill" in script_of(out)[-1],
            out + said,
        )
        step("what could not be removed is named", "could not be removed" in said, said)
    step("no process is left once the directory is gone", until(lambda: not workers()), workers())


def not_removed():
    with faulty("stays") as m:
        status, out, said = check(m.at, "--no-worked", "--count", "50", *LIMIT)
        step(
            "groups that cannot be removed: the status",
            status == 2 and ", 0 differences" in out,
            f"{status}: {out}{said}",
        )
        step("groups that cannot be removed are named", re.search(r"/top\d+ could not be removed$", said, re.M), said)


def signalled(number, status):
    with adopting() as m:
        running = subprocess.Popen(
            [*CHECK, m.at, "--count", "1000000", "--limit", str(PATIENCE)],
            stdout=subprocess.PIPE,
            stderr=subprocess.PIPE,
            text=True,
        )
        step("it runs", until(m.is_played))
        running.send_signal(number)
        out, said = running.communicate(timeout=600)
        name = signal.Signals(number).name
        step(f"{name}: its status", running.returncode == status, running.returncode)
        step(f"{name}: nothing is left", until(lambda: m.groups() == []), m.groups())
        if status == 2:
            step(
                f"{name}: one sentence, and the counts",
                said.endswith("interrupted\n") and "operations in" in out,
                out + said,
            )
        step(f"{name}: no process is left", until(lambda: not workers()), workers())


# ---- what cannot be checked


def refused(name, directory, *wanted):
    status, out, said = check(directory)
    right = status == 2 and out == "" and said.count("\n") == 1 and all(word in said for word in wanted)
    step(f"{name}: one sentence", right, f"{status}: {out}{said}")


def unusable():
    home = tempfile.mkdtemp()

    def folder(name, **files):
        at = os.path.join(home, name)
        os.mkdir(at)
        for file, text in files.items():
            with open(os.path.join(at, file.replace("__", ".")), "w") as it:
                it.write(text)
        return at

    refused("a path that is not there", os.path.join(home, "none"), "No such file")
    refused("a file", os.path.join(folder("f", x=""), "x"), "not a directory")
    refused("a plain directory", folder("plain"), "not a cgroup2 directory")
    refused(
        "another controller",
        folder("other", cgroup__procs="", cgroup__controllers="cpu memory\n"),
        "pids",
        "cgroup.controllers",
    )
    off = folder("off", cgroup__procs="", cgroup__controllers="pids\n", cgroup__subtree_control="\n")
    refused("the controller is off", off, "+pids")
    refused("no files of the controller", folder("bare", cgroup__procs=""), "pids.")
    step("nothing is left in it", os.listdir(os.path.join(home, "bare")) == ["cgroup.procs"])
    locked = folder("locked", cgroup__procs="")
    os.chmod(locked, 0o555)
    refused("a directory that is not writable", locked, "not writable")
    with faulty("none", "-o", "ro") as m:
        refused("a mount that is read-only", m.at, "not writable")
    with Mount(MAKHLOEUM, "mount", "AT", "--foreground") as m:
        refused("a mount that takes no real process", m.at, "cannot be moved")
        step("nothing is left in it either", m.groups() == [], m.groups())
    os.chmod(locked, 0o755)
    shutil.rmtree(home)


def progress():
    with adopting() as m:
        _, out, said = check(m.at, "--no-worked", "--time", "12", "--count", "1000000", *LIMIT)
        step("progress", re.search(r"^\d+ operations, 0 differences, \d+ a second$", said, re.M), said)
        told = re.search(r"operations in (\d+\.\d) s", out)
        step("--time ends it, and not before", told and float(told[1]) >= 12, out)


unusable()
same_on("mount --adopt", adopting(), OPERATIONS)
same_on("mount --adopt --extra", adopting("--extra"), 300, "--no-worked")
same_on("the small file system", faulty("none"), 800, "--no-worked")
same_under_run()
progress()
catch_all()
others_are_not_ours()
hanging()
not_removed()
signalled(signal.SIGINT, 2)
signalled(signal.SIGTERM, 2)
signalled(signal.SIGKILL, -signal.SIGKILL)
print(f"{passed} passed, {failed} failed")
sys.exit(1 if failed else 0)
