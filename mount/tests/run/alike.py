"""What a program sees of processes, signals and opens is the same alone and under `makhloeum run` (alike.c, cgroup_opens.c): each line that it says
without makhloeum is expected of it in a run."""
import difflib
import os
import subprocess
import sys
import tempfile

sys.path.insert(0, os.path.dirname(os.path.dirname(os.path.realpath(__file__))))
from support import AT, BUILT, PATIENCE, PROGRAM, finish, in_parallel, same, step

ALIKE, OPENS = os.path.join(BUILT, "alike"), os.path.join(BUILT, "cgroup_opens")
TEXT = "0::/a\n"
WHAT = ("actions", "news", "infos", "waits", "clones", "modes", "judged", "filtered", "inherits", "opens")
# The same calls in a group of a run, whose path /proc/self/cgroup has to show.
INSIDE = "mkdir -p %s/a && echo 0 >%s/a/cgroup.procs && exec " % (AT, AT)


def said(*words):
    """The lines of a program in a new folder, and its status."""
    with tempfile.TemporaryDirectory() as home:
        ran = subprocess.run(
            words,
            cwd=home,
            stdin=subprocess.DEVNULL,
            stdout=subprocess.PIPE,
            stderr=subprocess.PIPE,
            timeout=4 * PATIENCE,
        )
    text = ran.stdout.decode(errors="replace").replace(home, "HOME")
    return [*text.splitlines(), "status %d" % ran.returncode, ran.stderr.decode()]


def compare(what):
    if what == "opens":
        alone = said(OPENS)
    elif what == "filtered":
        alone = said(ALIKE, "under", ALIKE, "modes")
    else:
        alone = said(ALIKE, what)
    step("%s: it says something" % what, len(alone) > 12 and alone[-2:] == ["status 0", ""], alone[-2:])
    if what == "opens":
        run = said(PROGRAM, "run", "sh", "-c", INSIDE + '"$0" "$1"', OPENS, TEXT)
    elif what == "filtered":  # by its caller
        run = said(ALIKE, "under", PROGRAM, "run", ALIKE, "modes")
    elif what == "inherits":  # of its caller, so no shell is in between
        run = said(PROGRAM, "run", ALIKE, what)
    else:
        run = said(PROGRAM, "run", "sh", "-c", INSIDE + '"$0" %s' % what, ALIKE)
    if b"__asan_init" in open(PROGRAM, "rb").read():  # it allows no core
        alone, run = ([x for x in lines if not x.startswith("limit 4:")] for lines in (alone, run))
    differ = [
        x for x in difflib.unified_diff(alone, run, "alone", "run", n=0, lineterm="") if x[:2] not in ("--", "++", "@@")
    ]
    same("%s: lines that differ under run" % what, differ[:12], [])


in_parallel(compare, [w for w in WHAT if w in sys.argv[1:] or not sys.argv[1:]], lanes=4)
finish()
