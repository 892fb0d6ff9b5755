"""What Linux answered (evidence/linux-6.12), and what the mount answers: each line of the traces is one operation on a file or a
directory, and its errno and its text are Linux's."""
import os
import re
import shutil
import sys

sys.path.insert(0, os.path.dirname(os.path.dirname(os.path.realpath(__file__))))
from support import Mount, error_of, finish, read, same, step, write

HERE = os.path.join(os.path.dirname(os.path.realpath(__file__)), "..", "..", "..", "evidence", "linux-6.12")
# mount/test copies the reader beside the recordings
sys.path.append(os.path.dirname(HERE))
import recordings  # noqa: E402

# What the record says, and the errno for it.
ERRNO = {
    "ok": {"ok"},
    "limit": {"EAGAIN"},
    "busy": {"EBUSY"},
    "exists": {"EEXIST"},
    "nogroup": {"ENOENT"},
    "noprocess": {"ESRCH"},
    "pidinuse": {"EEXIST"},
    "pidsmax": {"EAGAIN"},
    "value": {"EINVAL", "ERANGE"},
    "file": {"ENOENT"},
    "nofile": {"ENOENT"},
    "direction": {"EACCES", "EINVAL"},
    "rootfixed": {"EBUSY"},
}
# Linux has no such bounds of names and groups.
BOUNDS = {"EINVAL", "ENAMETOOLONG", "EAGAIN", "ENOENT", "ENOSPC"}


def commands(trace):
    lines = (re.findall(r"[^ \t\r]+", line) for line in trace.decode("latin1").split("\n"))
    return [words for words in lines if words and not words[0].startswith("#")]


def replies(answers):
    found = []
    for line in answers.decode("latin1").split("\n"):
        if line.startswith("| "):
            found[-1][1].append(line[2:])
        elif line:
            words = line.split(" ")
            found.append((words[1] if words[1] == "ok" else words[2], []))
    return found


def play(m, words):
    """The errno, and the lines that were read."""
    path = m.path(*[n for n in words[1].split("/") if n])
    if words[0] == "mkdir":
        return error_of(os.mkdir, path), []
    if words[0] == "rmdir":
        return error_of(os.rmdir, path), []
    if words[0] in ("fork", "exit"):
        return error_of(write, m.control(words[0]), " ".join(words[1:]).encode()), []
    file = os.path.join(path, words[2])
    if words[0] == "write":
        return error_of(write, file, words[3].encode("latin1") + b"\n"), []
    lines = []
    error = error_of(lambda: lines.extend(read(file).decode().splitlines()))
    return error, lines


def is_left_out(words):
    """`where` is not a file of the mount; the peaks differ; 0 is the writer, which is not a process of this hierarchy."""
    return words[0] == "where" or "pids.peak" in words[2:3] or words[2:] == ["cgroup.procs", "0"]


def settled(lines):
    return [line for line in lines if not line.startswith("nr_dying_descendants ")]


def agrees(words, got, wanted):
    if words[0] == "mkdir" and wanted[0] == "ok" and got[0] in BOUNDS:
        return len(words[1]) > 60 or words[1].startswith(("/cgroup.", "/pids.")) or got[0] in ("EINVAL", "ENOSPC")
    return got[0] in ERRNO.get(wanted[0], ()) and settled(got[1]) == settled(wanted[1])


played = bounded = 0
recorded = [(kind, it) for kind in ("random", "rows", "text", "undone") for it in recordings.of_set(HERE, kind)]
for kind, recording in recorded:
    name = "%s/%s" % (kind, recording.name)
    lines, wanted = commands(recording.trace), replies(recording.answers)
    if len(lines) != len(wanted):
        step("%s has an answer for each line" % name, False)
        continue
    m, wrong = Mount(), []
    for words, reply in zip(lines, wanted):
        if is_left_out(words):
            continue
        got = play(m, words)
        played += 1
        bounded += words[0] == "mkdir" and reply[0] == "ok" and got[0] != "ok"
        if not agrees(words, got, reply):
            wrong.append((words, got, reply))
    same(name, wrong[:3], [])
    same("%s: its mount is unmounted" % name, (m.unmounted(), m.ended(), m.words()), (True, 0, ""))
    step("%s is replayed" % name, m.replay())
    shutil.rmtree(m.home)
print("  %d operations are Linux's, %d but for the bounds of names and groups" % (played, bounded))
finish()
