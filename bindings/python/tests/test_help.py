"""What the help of the shell and of its commands says, and the shell at an end, an interrupt and an empty line."""

import builtins
import inspect
import io
import re
import sys

import pytest

import makhloeum.__main__ as program
from makhloeum.__main__ import Shell
from makhloeum.page import tree, view

# by hand: the words of each command, and what it does
COMMANDS = {
    "mkdir": "mkdir PATH: make a group",
    "rmdir": "rmdir PATH: remove a group that has neither children nor processes",
    "fork": "fork PARENT CHILD: the process PARENT forks CHILD",
    "exit": "exit PID: the process exits (quit leaves the shell)",
    "write": "write PATH FILE VALUE: write a file; cgroup.procs moves a process, cgroup.kill kills",
    "cat": "cat PATH FILE: show a file",
    "where": "where PID: show /proc/PID/cgroup",
    "undo": "undo [NUMBER]: undo the newest recorded command, or as many as the number",
    "forget": "forget: keep groups, processes and counts, and free the history, so that nothing earlier can be undone",
    "ls": "ls [PATH]: the groups below a group, and its files",
    "tree": "tree [PATH]: the groups with pids.current/pids.max, peak, refused forks and processes",
    "source": "source SCRIPT: answer the commands of a file",
    "quit": "quit: leave the shell",
}
OF_THE_LANGUAGE = {"mkdir", "rmdir", "fork", "exit", "write", "cat", "where"}


@pytest.fixture
def shell(hierarchy):
    return Shell(hierarchy, io.StringIO())


@pytest.mark.parametrize("name", COMMANDS)
def test_the_help_of_a_command(shell, name):
    shell.onecmd(f"help {name}")
    assert shell.stdout.getvalue() == f"{COMMANDS[name]}\n"


def test_the_list_of_commands_says_how_one_learns_more(shell):
    shell.onecmd("help")
    assert shell.stdout.getvalue().startswith("\nCommands (help COMMAND says more):\n=====")


def test_the_help_of_the_shell_names_the_commands_that_the_language_has_not(capsys):
    assert program.main(["--help"]) == 0
    told = " ".join(capsys.readouterr().out.split())
    listed = re.search(r"trace language, and: (.*?)\. Scripts", told)[1]
    own = {name: text.split(":")[0] for name, text in COMMANDS.items() if name not in OF_THE_LANGUAGE}
    assert {*listed.split(", ")} == {*own.values(), "help"}
    assert "python3 -m makhloeum view|tree|check" in told and set(program.COMMANDS) == {
        "view",
        "tree",
        "check",
    }
    assert "`-` is standard input" in told and "The status is 1 if a script's command failed" in told


def test_options_are_the_first_word_alone(capsys, tmp_path, monkeypatch):
    """What comes after a script is another script."""
    monkeypatch.chdir(tmp_path)
    (tmp_path / "script").write_text("where 1\n")
    for word in ("--help", "-h", "--version"):
        assert program.main(["script", word]) == 1
        assert capsys.readouterr().err == f"makhloeum: [Errno 2] No such file or directory: '{word}'\n"
    assert program.main(["--version", "script"]) == 1
    assert capsys.readouterr().err == "makhloeum: [Errno 2] No such file or directory: '--version'\n"


def test_a_script_is_answered_at_a_terminal_too(capsys, tmp_path, monkeypatch):
    """Whatever bytes its comments have."""

    class Terminal(io.StringIO):
        def isatty(self):
            return True

    (tmp_path / "script").write_bytes(b"# caf\xe9\nwhere 1\n")
    monkeypatch.setattr(sys, "stdin", Terminal())
    assert program.main([str(tmp_path / "script")]) == 0
    assert capsys.readouterr() == ("0::/\n", "")


# ---- lines


def test_an_empty_line_repeats_nothing(shell):
    for line in ("mkdir /a", "", "  ", "\t"):
        assert shell.onecmd(line) is False
    assert shell.stdout.getvalue() == "" and not shell.failed and shell.h.depth() == 1


def test_a_failure_is_kept_until_the_end(shell):
    for line in ("undo x", "mkdir /a"):
        shell.onecmd(line)
    assert shell.failed and shell.h.has_group("/a")


def test_a_script_that_quits_ends_itself_alone(shell, tmp_path):
    inner, outer = tmp_path / "inner", tmp_path / "outer"
    inner.write_text("mkdir /a\nquit\nmkdir /b\n")
    outer.write_text(f"source {inner}\nmkdir /c\n")
    assert shell.answer_file(str(outer)) is False and shell.h.children("/") == [
        "a",
        "c",
    ]
    assert shell.answer_file(str(inner)) is True and shell.h.children("/") == ["a", "c"] and shell.failed


def test_the_reading_of_lines(shell, monkeypatch):
    """The prompt, the greeting, and what an interrupt and the end of the input show."""
    lines, prompts = iter(["mkdir /a", KeyboardInterrupt, "mkdir /b", EOFError]), []

    def typed(prompt):
        prompts.append(prompt)
        line = next(lines)
        if not isinstance(line, str):
            raise line
        return line

    monkeypatch.setattr(builtins, "input", typed)
    shell.loop("Welcome.")
    assert prompts == ["makhloeum> "] * 4 and shell.stdout.getvalue() == "Welcome.\n\n\n"
    assert shell.h.children("/") == ["a", "b"]


def test_a_terminal_ends_by_quit(shell, monkeypatch):
    lines = iter(["quit", "mkdir /a"])
    monkeypatch.setattr(builtins, "input", lambda prompt: next(lines))
    shell.loop("")
    assert shell.stdout.getvalue() == "" and shell.h.children("/") == []


def test_groups_come_before_files_in_a_listing(shell):
    shell.onecmd("mkdir /b")
    shell.onecmd("mkdir /a")
    shell.onecmd("ls")
    assert shell.stdout.getvalue().split()[:3] == ["a/", "b/", "cgroup.procs"]


# ---- the other programs


def help_of(module, capsys, word):
    assert module.main([word]) == 0
    told = capsys.readouterr()
    assert told.err == "" and told.out == inspect.cleandoc(module.__doc__) + "\n"
    return " ".join(told.out.split())


@pytest.mark.parametrize("word", ["--help", "-h"])
def test_the_help_of_tree(capsys, word):
    told = help_of(tree, capsys, word)
    assert told.startswith("makhloeum tree DIR [--watch [SECONDS]] Shows the groups below DIR")
    assert f"looks every SECONDS ({tree._words(['d', '--watch'])[1]}) for the others" in told
    # in the order of the columns
    assert (
        "pids.current of pids.max as a bar with the peak, refused forks here and with those below, and its processes"
        in told
    )
    assert "poll on cgroup.events and pids.events" in told and "until Ctrl-C" in told


@pytest.mark.parametrize("word", ["--help", "-h"])
def test_the_help_of_view(capsys, word):
    told = help_of(view, capsys, word)
    assert told.startswith("makhloeum view TRACE [-o PAGE.html] Makes one page of a run")
    assert view._words(["TRACE"])[1] == "TRACE.html" and "The page is TRACE.html unless -o names another" in told
    assert view._words(["-"]) == ("-", "-") and "`-` is standard input" in told
    assert view._words(["TRACE", "-o", "-"])[1] == "-" and "`-o -` is standard output" in told


@pytest.mark.parametrize("module", [tree, view])
def test_help_is_the_only_word(capsys, module):
    for words in (["--help", "x"], ["x", "--help"], ["-h", "-h"]):
        assert module.main(words) == 2
        name = module.__name__.rpartition(".")[2]
        assert capsys.readouterr() == (
            "",
            f"makhloeum {name}: bad command line; makhloeum {name} --help shows it\n",
        )
