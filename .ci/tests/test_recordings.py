"""Tests of the reader of recorded answers, of the files' heads, and of the check that the kernels were given the same commands."""
import contextlib
import io
import os
import random
import re
import shutil
import tempfile
import unittest
from unittest import mock

from scripts import TOP, load

recordings = load("look/check/recordings.py")
compare = load("evidence/compare")
SIZE_AT_MOST = 1_500_000
ODD = (
    b"mkdir /a",
    b"",
    b"#",
    b"# mode D",
    b" ",
    b"\t",
    b" mkdir /a \t\r",
    b"cat / cgroup.procs ",
    b"\\",
    b"\\x41\\n\\\\",
    b"mkdir /\xc3\xa9\xff\x00\x7f",
    bytes(byte for byte in range(256) if byte != 10),
    b"> fork 1 2",
    b"< 1 ok",
    b"== name",
    b"-- undo",
    b"\\ no line feed",
    b"mkdir /" + b"a" * 20_000,
)


class Made(unittest.TestCase):
    """Tests of files in a made-up folder."""

    def setUp(self):
        self.top = tempfile.mkdtemp()
        self.addCleanup(shutil.rmtree, self.top)

    def write(self, path, text):
        at = os.path.join(self.top, path)
        os.makedirs(os.path.dirname(at), exist_ok=True)
        with open(at, "wb") as it:
            it.write(text)
        return at


def is_command(line):
    return not line.lstrip(b" \t\r").startswith(b"#") and line.strip(b" \t\r") != b""


def shown(mark, lines, is_ended=True):
    """The lines of a file for lines of a text, of which the last can be without its line feed."""
    text = b"".join((mark + b" " + recordings.escaped(line)).rstrip(b" ") + b"\n" for line in lines)
    return text if is_ended else text + b"\\ no line feed\n"


def joined(lines, is_ended=True):
    text = b"".join(line + b"\n" for line in lines)
    return text if is_ended else text[:-1]


class RoundTrip(Made):
    def recorded(self, lines, texts, undo, ended):
        """A file with one recording of these lines, each answered with the texts, and the recording. `ended`: whether each text ends
        in a line feed."""
        of_trace, of_answers, of_undo = ended
        commands = [line for line in lines if is_command(line)]
        block, answers = [], []
        for number, line in enumerate(lines, 1):
            block.append(shown(b">", [line], of_trace or number < len(lines)))
            if is_command(line):
                answer = [b"%d ok" % (len(answers) + 1), *(b"| " + text for text in texts)]
                block.append(shown(b"<", answer, of_answers or len(answers) + 1 < len(commands)))
                answers.append(answer)
        if undo is not None:
            block += [b"-- undo\n", shown(b">", undo, of_undo)]
        head = b"# Linux 6.12, rows: 1 traces, %d commands. More.\n# x\n\n" % len(commands)
        answers = [line for answer in answers for line in answer]
        wanted = ("name-1.x", joined(lines, of_trace), joined(answers, of_answers))
        return head + b"== name-1.x\n" + b"".join(block), (*wanted, None if undo is None else joined(undo, of_undo))

    def test_odd_bytes_come_back(self):
        choice = random.Random(1)
        for number in range(40):
            lines = [b"rmdir /a", *choice.choices(ODD, k=choice.randint(0, 20)), *ODD[number : number + 1], b"exit 1"]
            undo = choice.choice([None, choice.choices(ODD, k=8) + [b"undo"]])
            texts = choice.choices(ODD, k=2)
            with self.subTest(number):
                file, wanted = self.recorded(lines, texts, undo, choice.choices([True, False], k=3))
                self.assertEqual(recordings.read(self.write("rows.recorded", file)), [wanted])
                file.decode("ascii")
                self.assertIsNone(re.search(rb"[ \t\r]$", file, re.MULTILINE))

    def test_texts_without_a_line(self):
        for undo, shown_undo in ((None, b""), (b"", b"-- undo\n")):
            with self.subTest(undo):
                file = b"# Linux 6.1, rows: 1 traces, 0 commands. More.\n\n== a\n" + shown_undo
                self.assertEqual(recordings.read(self.write("rows.recorded", file)), [("a", b"", b"", undo)])

    def test_a_set_in_several_files(self):
        for part in ("", "-A", "-B"):
            file = b"# Linux 6.1, random: 1 traces, 0 commands. More.\n\n== name%s\n" % part.encode()
            self.write(f"random{part}.recorded", file)
        self.write("random.trace", b"")
        self.write("randomly.recorded", b"")
        names = [it.name for it in recordings.of_set(self.top, "random")]
        self.assertEqual(names, ["name-A", "name-B", "name"])
        with self.assertRaisesRegex(FileNotFoundError, "no recordings of the set rows"):
            recordings.of_set(self.top, "rows")


class Malformed(Made):
    GOOD = (
        b"# Linux 6.12, rows: 2 traces, 3 commands. More.\n# More.\n\n== a\n> # mode D\n> cat / cgroup.procs\n< 1 ok\n< | 1\n"
        b"> mkdir /a\n< 2 ok\n\n== b\n> exit 1\n< 1 ok\n-- undo\n> undo\n"
    )

    def test_the_good_one(self):
        found = recordings.read(self.write("rows.recorded", self.GOOD))
        self.assertEqual(
            found,
            [
                ("a", b"# mode D\ncat / cgroup.procs\nmkdir /a\n", b"1 ok\n| 1\n2 ok\n", None),
                ("b", b"exit 1\n", b"1 ok\n", b"undo\n"),
            ],
        )

    def test_each_fault_is_named_with_its_file_and_line(self):
        for old, new, line, fault in (
            (b"# Linux 6.12, rows: 2 ", b"# Linux 6.12, rows: ", 1, "the head does not say"),
            (self.GOOD, b"", 1, "the head does not say"),
            (b"2 traces", b"3 traces", 1, "the file has 2 traces and 3 commands"),
            (b"3 commands", b"2 commands", 1, "the file has 2 traces and 3 commands"),
            (b"# More.\n\n", b"# More.\nMore\n\n", 3, "the line belongs to no trace"),
            (b"== a\n", b"> exit 1\n", 4, "the line belongs to no trace"),
            (b"== a\n", b"== a b\n", 4, "the line belongs to no trace"),
            (b"== b\n", b"# more\n\n== b\n", 12, "the line belongs to no trace"),
            (b"\n== b", b"== b", 11, "the line has no mark that is known here"),
            (b"== b", b"== a", 12, "there are two traces of this name"),
            (b"> mkdir", b"mkdir", 9, "the line has no mark that is known here"),
            (b"> mkdir", b">mkdir", 9, "the line has no mark that is known here"),
            (b"> mkdir", b">\n> mkdir", None, None),
            (b"> mkdir", b"> \n> mkdir", 9, "the line has no mark that is known here"),
            (b"> mkdir /a", b"> mkdir /a ", 9, "a byte is not written as it must be"),
            (b"> mkdir /a", b"> mkdir\t/a", 9, "a byte is not written as it must be"),
            (b"> mkdir /a", b"> mkdir /\xe9", 9, "a byte is not written as it must be"),
            (b"> mkdir /a", b"> mkdir /\\x41", 9, "a byte is not written as it must be"),
            (b"> mkdir /a", b"> mkdir /\\xFF", 9, "a byte is not written as it must be"),
            (b"> mkdir /a", b"> mkdir /\\n", 9, "a byte is not written as it must be"),
            (b"> mkdir /a", b"> mkdir /\\x0aexit 1", 9, "a byte is not written as it must be"),
            (b"> mkdir /a", b"> mkdir /\\xff", None, None),
            (b"< 2 ok\n", b"", 10, "there is no answer to command 2"),
            (b"< 2 ok\n", b"> exit 1\n", 10, "there is no answer to command 2"),
            (b"< 2 ok\n", b"< 3 ok\n", 10, "the answer is not that of command 2"),
            (b"< 2 ok\n", b"< 22 ok\n", 10, "the answer is not that of command 2"),
            (b"< 2 ok\n", b"< | 2\n", 10, "the answer is not that of command 2"),
            (b"< 2 ok\n", b"< 2 ok\n< 3 ok\n", 11, "there is no command above the answer"),
            (b"> # mode D\n", b"> # mode D\n< | 1\n", 6, "there is no command above the answer"),
            (b"> mkdir /a\n", b"> #\n< | 1\n> mkdir /a\n", 10, "there is no command above the answer"),
            (b"< 1 ok\n-- undo\n", b"-- undo\n", 14, "there is no answer to command 1"),
            (b"-- undo\n", b"-- undo\n-- undo\n", 16, "the line has no mark that is known here"),
            (b"> undo\n", b"> undo\n< 1 ok\n", 17, "there is no command above the answer"),
            (b"> undo\n", b"> undo", 16, "the line has no line feed"),
            (b"> undo\n", b"> undo\n ", 17, "the line has no line feed"),
            (b"== a\n", b"== a\n\\ no line feed\n", 5, "there is no line above whose line feed can be missing"),
            (b"> # mode D\n", b">\n\\ no line feed\n", 6, "there is no line above whose line feed can be missing"),
            (
                b"< 2 ok\n",
                b"< 2 ok\n" + b"\\ no line feed\n" * 2,
                12,
                "there is no line above whose line feed can be missing",
            ),
            (b"> # mode D\n", b"> # mode D\n\\ no line feed\n", 7, "a line is below the last one"),
            (b"< 1 ok\n< | 1\n", b"< 1 ok\n\\ no line feed\n< | 1\n", 9, "a line is below the last one"),
        ):
            with self.subTest(new):
                self.assertEqual(self.GOOD.count(old), 1)
                path = self.write("rows.recorded", self.GOOD.replace(old, new))
                if fault:
                    with self.assertRaisesRegex(recordings.Malformed, f"^{re.escape(path)}:{line}: {fault}"):
                        recordings.read(path)
                else:
                    recordings.read(path)


class Files(unittest.TestCase):
    """The files of the repository."""

    def test_each_head(self):
        with open(f"{TOP}/evidence/README.md", encoding="utf-8") as it:
            described = it.read()
        forms = set()
        for version in compare.KERNELS:
            folder = f"{TOP}/evidence/linux-{version}"
            for file in os.listdir(folder):
                with self.subTest(version=version, file=file), open(f"{folder}/{file}", encoding="ascii") as it:
                    head = it.read().split("\n\n")[0].split("\n")
                    self.assertTrue(
                        head[0].startswith(f"# Linux {version}, {file.removesuffix('.recorded')}: "), head[0]
                    )
                    image = re.fullmatch(r"# The kernel was Debian's ([\w.+-]+)\.", head[1])
                    self.assertIn(f"linux-image-{version}.", image[1])
                    self.assertIn(f"`{image[1]}`", described)
                    self.assertLess(os.path.getsize(f"{folder}/{file}"), SIZE_AT_MOST)
                    forms.add("\n".join(head[2:]))
        self.assertEqual(len(forms), 1)

    def test_all_are_of_a_set_and_none_is_missing(self):
        for version in compare.KERNELS:
            folder = f"{TOP}/evidence/linux-{version}"
            traces = {kind: recordings.of_set(folder, kind) for kind in compare.SETS}
            counts = {kind: len(them) for kind, them in traces.items()}
            self.assertEqual(counts, {"rows": 34, "text": 6, "random": 132, "undone": 40})
            self.assertEqual({kind for kind, them in traces.items() if any(it.undo for it in them)}, {"undone"})
            self.assertTrue(all(it.undo for it in traces["undone"]))
            kinds = {file.removesuffix(".recorded").split("-")[0] for file in os.listdir(folder)}
            self.assertEqual(kinds, set(compare.SETS))


class Compared(Made):
    """evidence/compare on made-up recordings, with a program whose answer is always `ok`."""

    def setUp(self):
        super().setUp()
        patcher = mock.patch.object(compare, "HERE", self.top)
        patcher.start()
        self.addCleanup(patcher.stop)
        for version in compare.KERNELS:
            for kind in compare.SETS:
                self.record(version, kind, b"== a\n> mkdir /a\n< 1 ok\n")
        self.program = self.write("program", b"#!/bin/sh\nawk '/^[a-z]/ { print ++n, \"ok\" }'\n")
        os.chmod(self.program, 0o755)

    def record(self, version, kind, blocks):
        counts = len(re.findall(rb"^== ", blocks, re.M)), len(re.findall(rb"^< [0-9]", blocks, re.M))
        head = b"# Linux 6.12, rows: %d traces, %d commands. More.\n\n" % counts
        self.write(f"linux-{version}/{kind}.recorded", head + blocks)

    def said(self, status):
        said = io.StringIO()
        with contextlib.redirect_stdout(said):
            self.assertEqual(compare.main([self.program]), status, said.getvalue())
        return said.getvalue()

    def test_the_same_commands(self):
        same = "4 traces of Linux {}, 4 replies:\n       4 the same bytes\n"
        self.assertEqual(self.said(0), same.format("6.12") + same.format("6.1"))

    def test_different_commands(self):
        for blocks, name in (
            (b"== a\n> mkdir /b\n< 1 ok\n", "a"),
            (b"== a\n> # mode D\n> mkdir /a\n< 1 ok\n", "a"),
            (b"== a\n> mkdir /a\n< 1 ok\n-- undo\n> # dump 1\n> mkdir /a\n", "a"),
            (b"== a\n> mkdir /a\n< 1 ok\n\n== b\n> mkdir /a\n< 1 ok\n", "b"),
        ):
            with self.subTest(blocks):
                self.record("6.1", "text", blocks)
                said = self.said(1)
                self.assertEqual(
                    re.findall("contradiction.*", said),
                    [f"contradiction: text/{name}: the kernels were given different commands"],
                )

    def test_another_answer(self):
        for version in compare.KERNELS:
            self.record(version, "text", b"== a\n> mkdir /a\n< 1 refused exists\n")
        self.assertEqual(self.said(1).count("contradiction: a: mkdir /a: Linux 6.1"), 2)


if __name__ == "__main__":
    unittest.main()
