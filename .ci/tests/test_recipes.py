"""Tests of .ci/recipes with a made-up page, whose programs are those of every machine."""
import os
import shutil
import signal
import subprocess
import time
import unittest
from unittest import mock

from scripts import MadeUp, load

recipes = load(".ci/recipes")

PAGE = """# A page

Text.

    mkdir here
    cd here

## First

Packages: some, more.

    echo a; echo b    # a b
    cat > file << END
    x # no comment
    END
    cat file    # x # no comment

## Second

Packages: some.

    %s

## No recipe

    false
"""


class Recipes(MadeUp):
    program = recipes
    places = {"PAGE": "docs/RUNNING.md"}

    def setUp(self):
        super().setUp()
        self.patch("lacks", lambda packages: "")
        self.write("docs/RUNNING.md", PAGE % "true")

    def second(self, commands, status=1):
        """What is said of a recipe with these commands."""
        self.write("docs/RUNNING.md", PAGE % commands.replace("\n", "\n    "))
        return self.said("Second", status=status)

    def test_commands_of_a_page(self):
        first, second = recipes.recipes(recipes.read(recipes.PAGE))
        head = [("mkdir here", None), ("cd here", None)]
        shown = [
            ("echo a; echo b", ["a", "b"]),
            ("cat > file << END\nx # no comment\nEND", None),
            ("cat file", ["x", "#", "no", "comment"]),
        ]
        self.assertEqual(first, ("First", ["some", "more"], head + shown))
        self.assertEqual(second, ("Second", ["some"], [*head, ("true", None)]))

    def test_a_here_document_keeps_its_indented_and_blank_lines(self):
        text = "    cat > file << END\n    a:\n      - b\n    \n    c: d\n    END\n"
        self.assertEqual(recipes.block(text), [("cat > file << END\na:\n  - b\n\nc: d\nEND", None)])

    def test_all_recipes_pass(self):
        self.assertIn("2 passed, 0 failed", self.said())

    def test_another_text_fails(self):
        self.assertIn("it printed 'b', not 'a'", self.second("echo b    # a"))

    def test_a_status_fails_and_nothing_follows(self):
        self.assertIn("(exit 3): status 3", self.second(f"(exit 3)\ntouch {self.top}/late"))
        self.assertFalse(os.path.exists(f"{self.top}/late"))

    def test_what_a_shell_should_do_is_not_done_outside_it(self):
        self.assertIn("no end", self.second(f"sh -c 'exit 3' bash\ntouch {self.top}/late"))
        self.assertFalse(os.path.exists(f"{self.top}/late"))

    def test_a_shell_inside_gets_what_follows(self):
        self.second("env INNER=1 bash\necho $INNER    # 1", status=0)

    def test_no_end_fails(self):
        self.patch("SECONDS", 0.5)
        said = self.second("sleep 1000")
        self.assertIn("sleep 1000: no end", said)
        self.assertIn("\n  no end within 0.5 seconds\n", said)
        self.assertNotIn("left behind", said, "what it started was killed")

    def test_a_command_that_fails_is_shown_with_what_it_said(self):
        self.assertIn(
            "exit 4): status 4: an output\nan error\n", self.second("(echo an output; echo an error >&2; exit 4)")
        )
        self.assertIn("it printed 'b', not 'a': an error\n", self.second("echo b; echo an error >&2    # a"))

    def test_the_programs_of_this_build_come_first(self):
        self.second(f"echo ${{PATH%%:*}}    # {self.top}/mount/out", status=0)

    def test_a_signal_that_the_caller_ignores_is_not_ignored(self):
        before = signal.signal(signal.SIGINT, signal.SIG_IGN)
        self.addCleanup(signal.signal, signal.SIGINT, before)
        self.second("sh -c 'kill -INT $$; echo it lives' || echo it ended    # it ended", status=0)

    def test_what_is_about_to_go_is_waited_for(self):
        for left in ((["7"], []), ([], ["a mount"])):
            seen = iter((left, left, ([], []), ([], [])))
            self.patch("left_by", lambda folder, seen=seen: next(seen))
            self.second("true", status=0)

    def test_a_process_that_is_left_fails(self):
        with mock.patch.object(recipes.time, "monotonic", side_effect=[0, 1, 99, 99, 99, 99]):
            said = self.second("sleep 3 > /dev/null 2>&1 &")
        self.assertIn("left behind", said)

    def test_all_that_is_wrong_is_told(self):
        self.patch("left_by", lambda folder: (["7"], []))
        with mock.patch.object(recipes.time, "monotonic", side_effect=[0, 1, 99, 99, 99, 99]):
            said = self.second("false")
        self.assertIn("  false: status 1", said)
        self.assertIn("  left behind: (['7'], [])", said)

    def test_what_a_machine_lacks_is_named(self):
        self.patch("lacks", lambda packages: "no such package" if "more" in packages else "")
        said = self.said()
        self.assertIn("First: skipped: no such package", said)
        self.assertIn("1 passed, 0 failed", said)

    def test_an_unknown_name(self):
        self.assertIn("no recipe Third", self.said("Third", status=2))
        self.write("docs/RUNNING.md", "# A page\n")
        self.said(status=2)


class Packages(MadeUp):
    """What is there, what is installed, and what a machine lacks."""

    program = recipes
    places = {"POLICY": "policy"}

    def setUp(self):
        super().setUp()
        self.there, self.calls, self.installs = {"here"}, [], True
        self.answer = subprocess.CompletedProcess([], 0, "", "")
        self.patch("subprocess", mock.Mock(run=self.ran, DEVNULL=-3, PIPE=-1, STDOUT=-2))
        self.patch("os", mock.Mock(wraps=os, path=os.path, environ={"HOME": "/home"}, geteuid=lambda: 0))
        self.patch("shutil", mock.Mock(which=lambda name: f"/bin/{name}"))

    def ran(self, words, **how):
        policy = self.read("policy") if os.path.exists(f"{self.top}/policy") else ""
        self.calls.append((words, how, policy))
        if words[:2] == ["apt-get", "install"]:
            self.assertTrue(os.access(f"{self.top}/policy", os.X_OK))
            self.there |= set(words[5:]) if self.installs else set()
        if words[0] == "dpkg-query":
            said = "install ok installed" if words[-1] in self.there else "deinstall ok config-files"
            return subprocess.CompletedProcess(words, 0, said)
        return self.answer

    def test_missing_packages_are_installed_without_their_services(self):
        self.assertTrue(recipes.install(["here", "one", "two"]))
        (update, how, policy), (install, also, same) = [it for it in self.calls if it[0][0] == "apt-get"]
        self.assertEqual(update, ["apt-get", "update", "-qq"])
        self.assertEqual(install, ["apt-get", "install", "-y", "-qq", "--no-install-recommends", "one", "two"])
        self.assertEqual((policy, same), ("#!/bin/sh\nexit 101\n",) * 2)
        self.assertEqual(how, also)
        wanted = {"env": {"HOME": "/home", "DEBIAN_FRONTEND": "noninteractive"}, "check": False}
        self.assertEqual(how, {**wanted, "stdin": -3, "stdout": -3})
        self.assertFalse(os.path.exists(f"{self.top}/policy"))

    def test_nothing_is_installed_if_all_is_there(self):
        self.assertTrue(recipes.install(["here"]))
        words = ["dpkg-query", "--show", "--showformat", "${Status}", "here"]
        self.assertEqual([it[0] for it in self.calls], [words])

    def test_what_a_machine_says_of_services_stays(self):
        self.write("policy", "own\n", 0o755)
        self.installs = False
        self.assertFalse(recipes.install(["one"]))
        self.assertEqual(self.read("policy"), "own\n")

    def test_what_a_machine_lacks(self):
        self.assertEqual(recipes.lacks(["one"]), "")
        started = self.calls[-1][0]
        self.assertEqual(started, [f"{self.top}/mount/out/makhloeum", "run", "--users", "true"])
        for status, said in ((2, "no user namespaces"), (1, ""), (0, "")):
            self.answer = subprocess.CompletedProcess([], status, "no user namespaces\n")
            self.assertEqual(recipes.lacks(["one"]), said, status)
        self.installs = False
        self.assertEqual(recipes.lacks(["here", "no"]), "not all of these can be installed: here, no")
        self.patch("shutil", mock.Mock(which=lambda name: None))
        self.assertEqual(recipes.lacks(["here"]), "it needs Debian's packages")
        self.patch("os", mock.Mock(geteuid=lambda: 1000))
        self.assertEqual(recipes.lacks(["here"]), "it needs root")

    def test_root_is_known_by_its_user_and_not_by_its_group(self):
        for user, group, said in ((1000, 0, "it needs root"), (0, 1000, "")):
            recipes.os.geteuid = mock.Mock(return_value=user)
            recipes.os.getegid = mock.Mock(return_value=group)
            self.assertEqual(recipes.lacks(["here"]), said, (user, group))


class Left(MadeUp):
    program = recipes

    def test_processes_and_mounts_that_are_left(self):
        os.mkdir(f"{self.top}/a")
        os.mkdir(f"{self.top}/ab")
        shutil.copy(shutil.which("sleep"), f"{self.top}/a/sleep")
        self.patch(
            "read",
            lambda path: f"x {self.top}/a fuse\ny {self.top}/a/b fuse\nz /{self.top}/a\n"
            * (path == "/proc/self/mounts"),
        )
        folder, there = f"{self.top}/a", []
        for words, at in (
            ([f"{folder}/sleep", "600"], "/"),
            (["sleep", "600"], folder),
            (["sleep", "600"], f"{folder}b"),
        ):
            there.append(subprocess.Popen(words, cwd=at))
            self.addCleanup(there[-1].wait)
            self.addCleanup(there[-1].kill)
        end = time.monotonic() + 300
        # a child may have its program and its folder only after Popen returned
        while len(recipes.left_by(folder)[0]) < 2 and time.monotonic() < end:
            time.sleep(0.01)
        processes, mounts = recipes.left_by(folder)
        self.assertEqual(sorted(map(int, processes)), sorted(it.pid for it in there[:2]))
        self.assertEqual(mounts, [f"x {folder} fuse", f"y {folder}/b fuse"])


if __name__ == "__main__":
    unittest.main()
