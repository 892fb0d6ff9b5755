"""Tests of the completions that completion/generate writes: what bash, zsh and fish offer for a line, where the machine has them."""
import os
import shutil
import subprocess
import tempfile
import unittest

TOP = os.path.dirname(os.path.dirname(os.path.dirname(os.path.realpath(__file__))))
BASH = """source "$1"; shift
compopt() { echo "and: $2"; }
COMP_WORDS=("$@") COMP_CWORD=$(($# - 1))
_makhloeum "$1"
printf '%s\\n' "${COMPREPLY[@]}"
"""
FISH = 'source $argv[1]; complete -C "$argv[2..]"'
# what zsh makes of a line of which one completion is left
ZSH = """zmodload zsh/zpty
zpty shell zsh -f -i
zpty -w shell "PS1= PS2= RPS1=; unsetopt beep zle_bracketed_paste; fpath=($1); autoload -Uz compinit; compinit -u -D"
zpty -w shell "show() { print -r -- \\"[[\\$BUFFER]]\\"; }; zle -N show; bindkey '^X' show; echo rea''dy"
zpty -r shell said '*ready*'
zpty -w -n shell "$2"$'\\t\\x18'
zpty -r shell said '*]]*'
print -r -- "${${said##*\\[\\[}%%\\]\\]*}"
zpty -d shell
"""
# a line, and what is offered of the options that it begins
LINES = (
    ("makhloeum run --ke", "--keep"),
    ("makhloeum run --trace x --ke", "--keep"),
    ("makhloeum run --root --ke", "--keep"),
    ("makhloeum run -- --ke", ""),
    ("makhloeum run --root -- --ke", ""),
    ("makhloeum run -- cat --ke", ""),
    ("makhloeum run cat --ke", ""),
    ("makhloeum run --trace x cat --ke", ""),
    ("makhloeum run view --he", ""),
    ("makhloeum run -- view --he", ""),
    ("makhloeum mount --ex", "--extra"),
    ("makhloeum mount x --ex", "--extra"),
    ("makhloeum view --he", "--help"),
    ("makhloeum view x --he", "--help"),
    ("makhloeum view -- --he", ""),
    ("makhloeum tree -- --wa", ""),
    ("makhloeum check x --se", "--seed"),
    ("makhloeum check -- --se", ""),
    ("makhloeum --ve", "--version"),
    ("cgshell --ve", "--version"),
    ("cgshell --strict --ve", "--version"),
    ("cgshell -- --ve", ""),
    ("cgreplay --rehearse --wo", "--workers"),
    ("cgreplay -- --wo", ""),
)


class Completion(unittest.TestCase):
    def run_it(self, *words):
        with tempfile.TemporaryDirectory() as empty:
            clean = {"PATH": os.environ["PATH"], "HOME": empty, "LC_ALL": "C", "TERM": "dumb"}
            ran = subprocess.run(
                words, cwd=empty, env=clean, stdin=subprocess.DEVNULL, capture_output=True, text=True, timeout=600
            )
        self.assertEqual(ran.stderr, "", words)
        return ran.stdout

    def bash(self, *words):
        """The words that bash offers for the last one, and which kinds of names besides."""
        return self.run_it("bash", "--norc", "-c", BASH, "bash", f"{TOP}/completion/makhloeum", *words).split("\n")[:-1]

    def test_the_options_that_bash_offers(self):
        for line, option in LINES:
            found = [it for it in self.bash(*line.split(" ")) if it.startswith("-")]
            self.assertEqual(found, [option] if option else [], line)

    def test_what_bash_offers_where_no_option_can_follow(self):
        for line, kind in (
            ("makhloeum run -- ", "default"),
            ("makhloeum run cat ", "default"),
            ("cgshell -- ", "default"),
            ("makhloeum tree -- ", "dirnames"),
            ("makhloeum check -- ", "dirnames"),
        ):
            self.assertEqual([it for it in self.bash(*line.split(" ")) if it], [f"and: {kind}"], line)
        self.assertEqual([it for it in self.bash("cgreplay", "--", "") if it], [])
        # options may follow the directory of a mount, after -- too
        self.assertIn("--extra", self.bash("makhloeum", "mount", "--", "x", "--ex"))

    def test_a_word_that_belongs_to_an_option_is_no_program(self):
        self.assertIn("--keep", self.bash("makhloeum", "run", "--trace", "cat", "--answers", "--", "--ke"))
        # bash takes = for a word of its own
        self.assertIn("--keep", self.bash("makhloeum", "run", "--threads", "=", "no", "--ke"))
        self.assertEqual([it for it in self.bash("makhloeum", "run", "--trace", "") if it], ["and: default"])
        self.assertEqual(self.bash("makhloeum", "run", "--keep", ""), ["memory,cpu,io,cpuset"])

    def test_bash_zsh_and_fish_complete_each_program(self):
        programs = ("cgreplay", "cgshell", "makhloeum")
        for program in programs:
            said = self.run_it(
                "bash", "--norc", "-c", 'source "$1"; complete -p "$2"', "bash", f"{TOP}/completion/makhloeum", program
            )
            self.assertEqual(said, f"complete -F _makhloeum {program}\n")
        with open(f"{TOP}/completion/_makhloeum", encoding="ascii") as it:
            self.assertEqual(it.readline(), f"#compdef {' '.join(programs)}\n")
        with open(f"{TOP}/completion/makhloeum.fish", encoding="ascii") as it:
            lines = it.read().split("\n")
        self.assertEqual({line.split(" ")[2] for line in lines if line.startswith("complete ")}, set(programs))

    def test_a_completion_that_is_not_the_present_one_is_named_and_written_again(self):
        names = ("makhloeum", "_makhloeum", "makhloeum.fish")
        with tempfile.TemporaryDirectory() as top:
            shutil.copytree(f"{TOP}/completion", f"{top}/completion")
            os.symlink(f"{TOP}/generating", f"{top}/generating")
            os.symlink(f"{TOP}/crates", f"{top}/crates")
            generate = [f"{top}/completion/generate"]
            for name in names:
                with open(f"{top}/completion/{name}", "a", encoding="ascii") as it:
                    it.write("# another line\n")
                ran = subprocess.run([*generate, "--check"], capture_output=True, text=True)
                self.assertEqual((ran.returncode, ran.stderr), (1, ""))
                self.assertEqual(ran.stdout, f"completion/{name} is not what completion/generate writes\n")
                self.assertEqual(subprocess.run(generate, capture_output=True).returncode, 0)
                ran = subprocess.run([*generate, "--check"], capture_output=True, text=True)
                self.assertEqual((ran.returncode, ran.stdout, ran.stderr), (0, "", ""))

    def test_what_root_means(self):
        for name, line in (
            ("_makhloeum", "'--root[as root of a user namespace]' "),
            ("makhloeum.fish", "-l root -d 'as root of a user namespace'\n"),
        ):
            with open(f"{TOP}/completion/{name}", encoding="ascii") as it:
                self.assertIn(line, it.read())

    @unittest.skipUnless(shutil.which("fish"), "fish is missing")
    def test_the_options_that_fish_offers(self):
        for line, option in LINES:
            said = self.run_it("fish", "--no-config", "-c", FISH, f"{TOP}/completion/makhloeum.fish", line)
            found = [it.split("\t")[0] for it in said.split("\n") if it.startswith("-")]
            self.assertEqual(found, [option] if option else [], line)

    @unittest.skipUnless(shutil.which("zsh"), "zsh is missing")
    def test_the_options_that_zsh_offers(self):
        folders = self.run_it("zsh", "-f", "-c", "print -r -- $fpath").strip()
        for line, option in LINES:
            said = (
                self.run_it("zsh", "-f", "-c", ZSH, "zsh", f"{TOP}/completion {folders}", line).split("\n")[0].strip()
            )
            wanted = line.rpartition(" ")[0] + " " + option if option else line
            self.assertEqual(said, wanted, line)


if __name__ == "__main__":
    unittest.main()
