"""Tests of .ci/run, .ci/quick and .ci/all-unproved in a made-up repository, whose parts are scripts that log their calls and pass or fail as told."""
import os
import re
import shutil
import signal
import subprocess
import tempfile
import time
import unittest

TOP = os.path.dirname(os.path.dirname(os.path.dirname(os.path.realpath(__file__))))
FIRST = (".ci/documents", ".ci/laws", "completion/generate --check", ".ci/mutants --check", ".ci/edits --lay")
BEFORE = (
    ".ci/style",
    ".ci/assumed",
    ".ci/must-not-compile/run",
    ".ci/refused/run",
    "evidence/compare",
    "evidence/bench/bench --quick",
)
BEFORE += (".ci/shell/run", ".ci/static-library", "bindings/build", "mount/build")
AFTER = ("bindings/test", "evidence/sizes", ".ci/promised", "look/test", "look/test-check")
AFTER += (".ci/installed/run", ".ci/installed/packages", ".ci/installed/reproducible", "mount/test")
LAST = ".ci/mutants --most 10"
PARTS = {call.split()[0] for call in (*FIRST, *BEFORE, *AFTER, ".ci/unproved", "try")}
# A part: its name and words go into `calls`. In `status` a file of its name, with / as +, has its status; `waits` waits for a signal.
STUB = """#!/bin/bash
top=%s
name=${0#"$top"/}
name=${name#./}
echo "$name${*:+ $*}" >>"$top/calls"
status=0
file=$top/status/${name//\\//+}
[ ! -e "$file" ] || status=$(cat "$file")
if [ "$status" = waits ]; then echo waits >"$top/waits"; exec sleep 600; fi
[ "$*" = --take-back ] || echo "told by $name${*:+ $*}"
[ "$*" = --take-back ] || if [ "$status" = 0 ]; then echo "1 passed, 0 failed"; else echo "0 passed, 1 failed"; fi
exit "$status"
"""
PATIENCE = 600


class Gates(unittest.TestCase):
    def setUp(self):
        self.top = os.path.realpath(tempfile.mkdtemp())
        self.addCleanup(self.remove)
        for name in PARTS:
            self.write(name, STUB % self.top, 0o755)
        self.write("tools/rt", STUB % self.top, 0o755)
        for name in ("run", "quick", "all-unproved", "parts"):
            shutil.copy(f"{TOP}/.ci/{name}", f"{self.top}/.ci/{name}")
        self.write(
            ".ci/tests/test_one.py",
            "import unittest\n\n\nclass One(unittest.TestCase):\n    def test(self):\n        pass\n",
        )
        for name in ("edits-passed", "mutants-caught"):
            self.write(f".ci/state/{name}", "as it was\n")
        os.makedirs(f"{self.top}/status")
        os.makedirs(f"{self.top}/tmp")
        git = ["git", "-c", "user.name=a", "-c", "user.email=a@b"]
        subprocess.run([*git, "init", "-q", self.top], check=True)
        subprocess.run([*git, "-C", self.top, "add", ".ci/state"], check=True)
        subprocess.run([*git, "-C", self.top, "commit", "-q", "-m", "a"], check=True)

    def remove(self):
        """What was just starting when its gate was stopped may still log its call."""
        end = time.monotonic() + PATIENCE
        while os.path.exists(self.top):
            shutil.rmtree(self.top, ignore_errors=time.monotonic() < end)

    def write(self, path, text, mode=0o644):
        at = os.path.join(self.top, path)
        os.makedirs(os.path.dirname(at), exist_ok=True)
        with open(at, "w", encoding="utf-8") as it:
            it.write(text)
        os.chmod(at, mode)

    def comes_to(self, name, status):
        self.write(f"status/{name.replace('/', '+')}", f"{status}\n")

    def calls(self):
        if not os.path.exists(f"{self.top}/calls"):
            return []
        with open(f"{self.top}/calls", encoding="utf-8") as it:
            return it.read().splitlines()

    def start(self, *words, tools="tools:"):
        environment = dict(os.environ, PATH=f"{self.top}/{tools}{os.environ['PATH']}" if tools else "/usr/bin:/bin")
        environment["TMPDIR"] = f"{self.top}/tmp"
        return subprocess.Popen(
            # what these tests run in may ignore some, as nohup does
            ["env", "--default-signal", f"{self.top}/{words[0]}", *words[1:]],
            cwd=f"{self.top}/status",  # a gate works in its clone, wherever it is called
            env=environment,
            stdin=subprocess.DEVNULL,
            stdout=subprocess.PIPE,
            stderr=subprocess.STDOUT,
            text=True,
            start_new_session=True,
        )

    def played(self, *words, **more):
        """The status of a gate and its lines. What it calls is forgotten first."""
        if os.path.exists(f"{self.top}/calls"):
            os.remove(f"{self.top}/calls")
        with self.start(*words, **more) as ran:
            said = ran.communicate(timeout=PATIENCE)[0]
        self.assertEqual(os.listdir(f"{self.top}/tmp"), [], "nothing is left")
        return ran.returncode, said.rstrip("\n").split("\n")

    @staticmethod
    def rest(session):
        """Until all that a gate has started sleeps. A signal that comes just as bash 5.2 begins to wait may be lost. An interrupt that it
        ignores then comes again without end: a backtrace showed its handler before the earlier one was known."""
        looks, end = [], time.monotonic() + PATIENCE
        while not looks[-5:] == 5 * looks[-1:] != [] and time.monotonic() < end:
            time.sleep(0.05)
            states = {}
            for pid in filter(str.isdigit, os.listdir("/proc")):
                try:
                    with open(f"/proc/{pid}/stat", encoding="utf-8", errors="replace") as it:
                        state, _, _, of = it.read().rpartition(")")[2].split()[:4]
                except OSError:
                    continue
                if int(of) == session:
                    states[pid] = state
            looks.append(sorted(states) if set(states.values()) <= {"S", "Z"} else [str(len(looks))])

    def stopped(self, gate, name, number):
        """The status of a gate that is sent a signal while the part of that name waits."""
        self.comes_to(name, "waits")
        if os.path.exists(f"{self.top}/calls"):
            os.remove(f"{self.top}/calls")
        with self.start(gate) as ran:
            end = time.monotonic() + PATIENCE
            while not os.path.exists(f"{self.top}/waits") and time.monotonic() < end:
                time.sleep(0.01)
            self.rest(ran.pid)
            os.killpg(ran.pid, number)  # as a session ends all that the gate started
            try:
                ran.communicate(timeout=PATIENCE)
            except subprocess.TimeoutExpired:
                os.killpg(ran.pid, signal.SIGKILL)
                raise
        os.remove(f"{self.top}/waits")
        self.comes_to(name, 0)
        return ran.returncode

    def script_that_fails(self):
        text = "import unittest\n\n\nclass One(unittest.TestCase):\n    def test(self):\n        self.fail()\n"
        self.write(".ci/tests/test_one.py", text)

    def assert_what_needs_the_library_runs(self, gate, builder):
        """Two tests of scripts have no library before this part has ended; one of them lacks a tool too."""
        text = """import os
import unittest


class One(unittest.TestCase):
    def test(self):
        if not os.path.exists("%s/library"):
            os.makedirs("%s", exist_ok=True)
            self.skipTest("there is no static library, or a tool is missing")
        %s
"""
        asked, ran = f"{self.top}/asked", f"{self.top}/ran"
        # these run in this order
        self.write(".ci/tests/test_building.py", text % (self.top, self.top, "self.skipTest('fish is missing')"))
        self.write(".ci/tests/test_packages.py", text % (self.top, asked, f"os.mkdir('{ran}')"))
        making = f"until [ -e {asked} ]; do sleep 0.1; done\n>$top/library\nexit"
        self.write(builder, f"{STUB % self.top}\n".replace("\nexit", f"\n{making}"), 0o755)
        status, lines = self.played(gate)
        self.assertEqual(status, 0, lines)
        self.assertTrue(os.path.exists(ran))
        self.assertEqual(
            [line for line in lines if "tests of scripts: skipped" in line and line.startswith("  ")],
            ["  the tests of scripts: skipped, fish is missing"],
        )

    @staticmethod
    def names_of(lines):
        """The name of each part, with the first command of it that told something."""
        told = [(line[3:], lines[at + 1]) for at, line in enumerate(lines[:-1]) if line.startswith("== ")]
        return {name: first.removeprefix("told by ") for name, first in told if first.startswith("told by ")}

    def parts_with_a_time(self, gate):
        """The commands that the gate ends after a time, each with it."""
        self.write("tools/timeout", f'#!/bin/sh\necho "$*" >>{self.top}/times\nshift 3\nexec "$@"\n', 0o755)
        self.assertEqual(self.played(gate)[0], 0)
        with open(f"{self.top}/times", encoding="utf-8") as it:
            return {line.split(" ", 3)[3]: line.split()[:3] for line in it.read().splitlines()}


# The name of each part that more than one gate has, and its command.
NAMES = {
    "the style of C, Python and scripts": ".ci/style",
    "the answers of Linux": "evidence/compare",
    "what a release promises": ".ci/promised",
}
OF_TWO = {
    "refused allocations and calls": ".ci/refused/run",
    "the shell": ".ci/shell/run",
    "the greatest sizes": "evidence/sizes",
    "C, Python and Go": "bindings/test",
    "the pages": "look/test",
    "makhloeum check": "look/test-check",
    "the mount": "mount/test",
}
CHECKED = {
    "the documents": ".ci/documents",
    "each definition has a law": ".ci/laws",
    "edits can be applied": ".ci/edits --check",
    "mutants can be applied": ".ci/mutants --check",
}
ENDS = ((signal.SIGTERM, 143), (signal.SIGINT, 130), (signal.SIGHUP, 129))


class Run(Gates):
    def test_all_parts_run_after_the_proofs(self):
        status, lines = self.played(".ci/run")
        calls = self.calls()
        self.assertEqual(status, 0, lines)
        self.assertEqual(calls[: len(FIRST) + 2], [*FIRST, "tools/rt ci", ".ci/edits --take-back"])
        self.assertEqual(calls[len(FIRST) + 2].split()[:2], [".ci/edits", "--note"])
        rest = calls[len(FIRST) + 3 :]
        self.assertEqual(sorted(rest[: len(BEFORE)]), sorted(BEFORE))
        self.assertEqual(sorted(rest[len(BEFORE) : len(BEFORE) + len(AFTER)]), sorted(AFTER))
        self.assertEqual(rest[len(BEFORE) + len(AFTER) - 1], "mount/test", "it runs alone, and so do mutants")
        # the last call takes edits back once more
        self.assertEqual(rest[len(BEFORE) + len(AFTER) :], [LAST, ".ci/edits --take-back"])
        # rt, the edits, and each part; the libraries are one, whose last line counts
        self.assertEqual(lines[-1], f"{2 + len(BEFORE) - 2 + len(AFTER) + 1} passed, 0 failed")
        self.assertFalse([line for line in lines if line.startswith("commit ")])
        more = {
            "what must not compile": ".ci/must-not-compile/run",
            "the functions of C that proofs assume": ".ci/assumed",
            "the benchmark": "evidence/bench/bench --quick",
            "the libraries for C": ".ci/static-library",
            "the installation": ".ci/installed/run",
            "the packages": ".ci/installed/packages",
            "the packages, made twice": ".ci/installed/reproducible",
            "mutants": LAST,
        }
        self.assertEqual(self.names_of(lines), {**NAMES, **OF_TWO, **more})

    def test_tests_of_scripts_that_need_the_library_run_once_it_is_built(self):
        self.assert_what_needs_the_library_runs(".ci/run", "bindings/build")

    def test_the_proofs_begin_only_if_documents_and_mutants_are_right(self):
        for name in (".ci/documents", ".ci/laws", "completion/generate", ".ci/mutants"):
            self.comes_to(name, 1)
            self.assertEqual(self.played(".ci/run")[0], 1, name)
            self.assertNotIn("tools/rt ci", self.calls())
            self.comes_to(name, 0)
        self.script_that_fails()
        self.assertEqual(self.played(".ci/run")[0], 1)
        self.assertNotIn("tools/rt ci", self.calls())

    def test_nothing_is_tested_after_proofs_that_failed(self):
        self.comes_to("tools/rt", 1)
        status, lines = self.played(".ci/run")
        self.assertEqual((status, lines[-2:]), (1, ["what failed: rt ci", "0 passed, 1 failed"]))
        self.assertEqual(self.calls(), [*FIRST, "tools/rt ci", *[".ci/edits --take-back"] * 2])
        self.assertTrue([line for line in lines if line.endswith(" were not tested: skipped, since rt ci failed")])

    def test_a_part_that_fails_is_named(self):
        for name, part in (
            (".ci/shell/run", "the shell"),
            ("look/test-check", "makhloeum check"),
            (".ci/installed/packages", "the packages"),
            ("mount/test", "the mount"),
        ):
            self.comes_to(name, 1)
            status, lines = self.played(".ci/run")
            self.assertEqual((status, lines[-2]), (1, f"what failed: {part}"))
            self.assertIn(LAST, self.calls(), "the others run")
            self.comes_to(name, 0)

    def test_without_libraries_what_uses_them_does_not_run(self):
        self.comes_to("bindings/build", 1)
        status, lines = self.played(".ci/run")
        self.assertEqual((status, lines[-2]), (1, "what failed: the libraries for C"))
        self.assertFalse({*AFTER, "mount/build", LAST} & set(self.calls()))
        self.comes_to("bindings/build", 0)
        self.comes_to("mount/build", 3)  # what it needs is missing
        status, lines = self.played(".ci/run")
        self.assertEqual(status, 0, lines)
        self.assertIn("bindings/test", self.calls())
        self.comes_to("mount/build", 1)
        self.assertEqual(self.played(".ci/run")[0], 1)
        self.assertNotIn("bindings/test", self.calls())

    def test_what_is_noted_has_to_be_committed(self):
        self.write(".ci/state/edits-passed", "more\n")
        self.write(".ci/state/mutants-caught", "more\n")
        lines = self.played(".ci/run")[1]
        told = [line for line in lines if line.startswith("commit ")]
        self.assertEqual(
            told, [f"commit .ci/state/{it}, which has changed" for it in ("edits-passed", "mutants-caught")]
        )

    def test_a_gate_that_is_stopped_takes_the_edits_back(self):
        for name, times, (number, status) in (
            ("tools/rt", 1, ENDS[0]),
            ("look/test", 2, ENDS[0]),
            ("tools/rt", 1, ENDS[1]),
            ("tools/rt", 1, ENDS[2]),
        ):
            self.assertEqual(self.stopped(".ci/run", name, number), status)
            # once at the end, and once after proofs that ended; a part that was just starting may do so too, or log its call
            self.assertGreaterEqual(self.calls().count(".ci/edits --take-back"), times)

    def test_parts_that_may_hang_have_an_end(self):
        """After twenty or thirty minutes, a minute later they are killed."""
        long = {"mount/test", ".ci/installed/packages", ".ci/installed/reproducible"}
        wanted = {"look/test-check": ["-k", "60", "1200"], **{name: ["-k", "60", "1800"] for name in long}}
        self.assertEqual(self.parts_with_a_time(".ci/run"), wanted)

    def test_the_time_is_said_after_the_proofs_and_at_the_end(self):
        lines = self.played(".ci/run")[1]
        form = r"(.+): \d+ minutes on \d+ processors, processor time \d+m[\d.]+s \d+m[\d.]+s \(user, system\)"
        found = [match[1] for match in (re.fullmatch(form, line) for line in lines) if match]
        self.assertEqual(found, ["proofs, edits and programs", "the whole gate"])

    def test_what_the_prover_says_is_shown_and_what_the_edits_say(self):
        self.write("tools/rt", "#!/bin/sh\necho proved one; echo '7 passed, 0 failed'\n", 0o755)
        self.write(".ci/edits", "#!/bin/sh\n[ $1 != --note ] || { echo told by edits >&2; [ -s $2 ]; }\n", 0o755)
        status, lines = self.played(".ci/run")
        self.assertEqual(status, 0, lines)
        self.assertIn("proved one", lines)
        self.assertIn("told by edits", lines)
        self.write(".ci/edits", "#!/bin/sh\n[ $1 != --note ] || { echo one was not refused; exit 1; }\n", 0o755)
        status, lines = self.played(".ci/run")
        self.assertEqual((status, "one was not refused" in lines, lines[-2]), (1, True, "what failed: the edits"))
        self.assertIn(LAST, self.calls(), "the others run")
        self.write(".ci/edits", "#!/bin/sh\n[ $1 != --lay ] || exit 1\n", 0o755)
        os.remove(f"{self.top}/calls")
        self.assertEqual(self.played(".ci/run")[0], 1)
        self.assertNotIn(".ci/style", self.calls(), "nothing begins if edits can't be laid")

    def test_without_the_kit_nothing_begins(self):
        status, lines = self.played(".ci/run", tools="")
        self.assertEqual((status, self.calls(), len(lines)), (1, [], 1))
        self.assertTrue(lines[0].startswith("rt is not on this machine"))


class Quick(Gates):
    def setUp(self):
        super().setUp()
        for name in ("crates/cgreplay/out/cgreplay", "crates/c_library/out/libc_library.a"):
            self.write(name, "")
        os.makedirs(f"{self.top}/crates/a/src")
        shutil.rmtree(f"{self.top}/.ci/state")

    def quick(self, *words):
        status, lines = self.played(".ci/quick", *words)
        at = lines.index("skipped on this machine:") if "skipped on this machine:" in lines else len(lines)
        return status, lines, [line.strip() for line in lines[at + 1 :] if line.startswith("  ")]

    def test_all_parts_run(self):
        status, lines, skipped = self.quick("main")
        calls = self.calls()
        self.assertEqual((status, skipped), (0, []), lines)
        first = {".ci/documents", ".ci/laws", ".ci/style", ".ci/edits --check", ".ci/mutants --check"}
        self.assertEqual(set(calls[:5]), first)
        self.assertEqual(set(calls[5:7]), {".ci/unproved main", "evidence/compare"})
        self.assertEqual(calls[7], "bindings/build")
        self.assertEqual(
            {call.split()[0] for call in calls[8:]}, {".ci/promised", "bindings/test", "look/test", "mount/test"}
        )
        self.assertEqual(lines[-1], "12 passed, 0 failed")
        more = {
            "crates without proofs": ".ci/unproved main",
            "the libraries for C": "bindings/build",
            "C and Python": "bindings/test checks typed clients mounted test_calls test_errors test_mounted",
            "the page": "look/test state test_history",
            "the mount": "mount/test files values controllers events attributes",
        }
        self.assertEqual(self.names_of(lines), {**NAMES, **CHECKED, **more})

    def test_it_ends_by_a_signal(self):
        for number, status in ENDS:
            self.assertEqual(self.stopped(".ci/quick", ".ci/unproved", number), status)
            self.assertNotIn("bindings/build", self.calls())

    def test_it_ends_if_a_part_ends_by_a_signal(self):
        """A gate in bash was seen to go on after an interrupt, once in 200 tries; why is not known. The parts get it too."""
        for name, status in (("INT", 130), ("TERM", 143)):
            self.write(".ci/unproved", f"#!/bin/sh\nkill -{name} $$\n", 0o755)
            self.assertEqual(self.quick()[0], status)
            self.assertNotIn("bindings/build", self.calls())

    def test_short_runs_are_of_these_tests(self):
        self.quick()
        calls = {call.split()[0]: call.split()[1:] for call in self.calls()}
        self.assertEqual(calls["look/test"], ["state", "test_history"])
        self.assertEqual(calls["mount/test"], ["files", "values", "controllers", "events", "attributes"])
        of_python = ["checks", "typed", "clients", "mounted", "test_calls", "test_errors", "test_mounted"]
        self.assertEqual(calls["bindings/test"], of_python)

    def test_what_is_not_built_is_made_without_proofs(self):
        for name in ("crates/cgreplay/out/cgreplay", "crates/c_library/out/libc_library.a"):
            os.remove(f"{self.top}/{name}")
            making = f"{STUB % self.top}\n".replace(
                "exit", f"mkdir -p $top/{os.path.dirname(name)}; >$top/{name}\nexit"
            )
            self.write("try", making, 0o755)
            status, _, skipped = self.quick()
            self.assertEqual((status, skipped, self.calls().count("try")), (0, [], 1))
            self.assertTrue({"evidence/compare", "bindings/build"} <= set(self.calls()))
        self.quick()
        self.assertNotIn("try", self.calls())
        os.remove(f"{self.top}/crates/cgreplay/out/cgreplay")
        self.comes_to("try", 1)
        status, lines, _ = self.quick()
        self.assertEqual((status, lines[-2]), (1, "what failed: what isn't built, without proofs"))

    def test_what_can_not_be_made_is_skipped(self):
        self.write("try", "#!/bin/sh\necho there is no kit, or another one\nexit 3\n", 0o755)
        os.remove(f"{self.top}/crates/cgreplay/out/cgreplay")
        status, _, skipped = self.quick()
        names = {call.split()[0] for call in self.calls()}
        self.assertEqual((status, names & {"evidence/compare", "mount/test"}), (0, set()))
        self.assertIn("bindings/test", names)
        self.assertEqual(
            skipped, ["crates/cgreplay/out/cgreplay: skipped, it isn't built: rt run in crates/cgreplay, or ./try"]
        )
        os.remove(f"{self.top}/crates/c_library/out/libc_library.a")
        status, lines, skipped = self.quick()
        self.assertEqual((status, lines[-1]), (0, "6 passed, 0 failed"))
        self.assertNotIn("bindings/build", self.calls())
        self.assertEqual(len(skipped), 2)

    def test_what_is_older_than_the_crates_is_named(self):
        self.write("crates/a/src/lib.rt", "")
        os.utime(f"{self.top}/crates/a/src/lib.rt", (2**32, 2**32))
        status, _, skipped = self.quick()
        self.assertEqual(status, 0)
        self.assertIn("bindings/build", self.calls())
        self.assertEqual(
            len([line for line in skipped if "the newest code of the crates is skipped, it is older" in line]), 2
        )

    def test_a_part_that_fails_is_named(self):
        for name, part in (
            (".ci/edits", "edits can be applied"),
            (".ci/unproved", "crates without proofs"),
            ("look/test", "the page"),
        ):
            self.comes_to(name, 1)
            status, lines, _ = self.quick()
            self.assertEqual((status, lines[-2]), (1, f"what failed: {part}"))
            self.comes_to(name, 0)
        self.script_that_fails()
        status, lines, _ = self.quick()
        self.assertEqual((status, lines[-2]), (1, "what failed: the tests of these scripts"))
        self.comes_to("bindings/build", 1)
        self.assertEqual(self.quick()[0], 1)
        self.assertNotIn("bindings/test", [call.split()[0] for call in self.calls()])


class AllUnproved(Gates):
    FIRST = (
        "try --tests",
        ".ci/unproved --crates",
        ".ci/documents",
        ".ci/laws",
        "completion/generate --check",
        ".ci/edits --check",
        ".ci/mutants --check",
        ".ci/style",
    )
    BUILT = (
        *(".ci/promised", "bindings/test", "look/test", "look/test-check", "evidence/compare", "mount/test"),
        *("evidence/bench/bench --quick", ".ci/shell/run", ".ci/refused/run", "evidence/sizes"),
    )

    def test_all_parts_run(self):
        status, lines = self.played(".ci/all-unproved")
        calls = self.calls()
        self.assertEqual(status, 0, lines)
        self.assertEqual(sorted(calls), sorted([*self.FIRST, *self.BUILT]))
        for call in self.BUILT:
            self.assertGreater(calls.index(call), calls.index("try --tests"), "it needs what ./try makes")
        self.assertEqual(lines[-1], f"{len(calls)} passed, 0 failed")
        self.assertIn("  the proofs, and the edits that the prover refuses: skipped, .ci/run has them", lines)
        more = {
            "all that is tested, built without proofs": "try --tests",
            "the completions": "completion/generate --check",
            "each crate": ".ci/unproved --crates",
            "the benchmark's answers": "evidence/bench/bench --quick",
        }
        self.assertEqual(self.names_of(lines), {**NAMES, **OF_TWO, **CHECKED, **more})

    def test_it_ends_by_a_signal(self):
        for number, status in ENDS:
            self.assertEqual(self.stopped(".ci/all-unproved", "try", number), status)
            self.assertNotIn("bindings/test", self.calls())

    def test_parts_that_may_hang_have_an_end(self):
        wanted = {"look/test-check": ["-k", "60", "1200"], "mount/test": ["-k", "60", "1800"]}
        self.assertEqual(self.parts_with_a_time(".ci/all-unproved"), wanted)

    def test_tests_of_scripts_that_need_the_library_run_once_it_is_built(self):
        self.assert_what_needs_the_library_runs(".ci/all-unproved", "try")

    def test_without_what_try_makes_the_other_tests_run(self):
        self.comes_to("try", 1)
        status, lines = self.played(".ci/all-unproved")
        self.assertEqual((status, lines[-2]), (1, "what failed: all that is tested, built without proofs"))
        self.assertEqual(sorted(self.calls()), sorted(self.FIRST))
        self.assertIn("  the programs, the library and the mount: skipped, ./try failed", lines)

    def test_packages_are_installed_only_if_asked(self):
        """The first apt-get on the path of a part."""
        self.write("tools/apt-get", f"#!/bin/sh\necho installed >{self.top}/installed\n", 0o755)
        self.write("mount/test", "#!/bin/sh\napt-get install it || echo refused\n", 0o755)
        self.assertIn("refused", self.played(".ci/all-unproved")[1])
        self.assertFalse(os.path.exists(f"{self.top}/installed"))
        self.assertNotIn("refused", self.played(".ci/all-unproved", "--install")[1])
        self.assertTrue(os.path.exists(f"{self.top}/installed"))

    def test_a_part_that_fails_is_named(self):
        for name, part in ((".ci/unproved", "each crate"), ("mount/test", "the mount")):
            self.comes_to(name, 1)
            status, lines = self.played(".ci/all-unproved")
            self.assertEqual((status, lines[-2]), (1, f"what failed: {part}"))
            self.comes_to(name, 0)
        self.script_that_fails()
        status, lines = self.played(".ci/all-unproved")
        self.assertEqual((status, lines[-2]), (1, "what failed: the tests of these scripts"))

    def test_other_words_are_refused(self):
        for words in (["--wrong"], ["--install", "x"]):
            self.assertEqual(
                self.played(".ci/all-unproved", *words), (2, ["usage: .ci/unproved --all [--install]"]), words
            )
        self.assertEqual(self.calls(), [])


if __name__ == "__main__":
    unittest.main()
