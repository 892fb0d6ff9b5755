"""What a run does on older kernels, which do not translate numbers of processes, name no zombies and tell no namespaces by a pidfd: other
tests, with a library that answers as these kernels do (older.c). Only the plain build can load it."""
import os
import subprocess
import sys

sys.path.insert(0, os.path.dirname(os.path.dirname(os.path.realpath(__file__))))
from support import PATIENCE, PROGRAM, finish, in_parallel, same, step

FOLDER = os.path.dirname(os.path.dirname(os.path.realpath(__file__)))
LIBRARY = os.path.join(os.path.dirname(PROGRAM), "older.so")
TESTS = (
    ("processes/zombies",),
    ("run/namespaces",),
    ("processes/adopted",),
    ("processes/tasks", "leaderless", "moves", "killed", "born_elsewhere", "undone"),
    ("hostile/meddling", "unshares", "writers", "limited", "calls"),
    ("hostile/hostile", "zombies", "texts", "arguments"),
    ("run/noticed", "children", "opens", "tables"),
    ("processes/refused", "births"),
    ("run/alike", "waits", "opens"),
    (
        "hostile/blocking",
        "leaderless",
        "meaning",
    ),  # a namespace's directory that is held back holds up a run before Linux 6.11
)


def run(one):
    kernel, (test, *names) = one
    env = dict(os.environ, LD_PRELOAD=LIBRARY, OLD_KERNEL=kernel)
    words = [sys.executable, os.path.join(FOLDER, test + ".py"), *names]
    ran = subprocess.run(words, env=env, stdout=subprocess.PIPE, stderr=subprocess.STDOUT, timeout=20 * PATIENCE)
    same("%s on %s" % (test, kernel), ran.returncode, 0)
    if ran.returncode:
        print(ran.stdout.decode(errors="replace")[-2000:])


step("its library is there", os.path.exists(LIBRARY), LIBRARY)
wanted = [(kernel, test) for kernel in ("5.15", "6.10") for test in TESTS]
in_parallel(run, [one for one in wanted if one[1][0] in sys.argv[1:] or not sys.argv[1:]])
finish()
