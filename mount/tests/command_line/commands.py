"""What `makhloeum run PROGRAM` and `makhloeum NAME` say about a program that cannot be started: as a shell, whatever folders PATH has."""
import os
import shutil
import subprocess
import sys
import tempfile

sys.path.insert(0, os.path.dirname(os.path.dirname(os.path.realpath(__file__))))
from support import PATIENCE, PROGRAM, finish, in_parallel, same, step, without_notes


def said(path, *words):
    ran = subprocess.run(
        [PROGRAM, *words],
        env=dict(os.environ, PATH=path) if path is not None else {k: v for k, v in os.environ.items() if k != "PATH"},
        stdout=subprocess.PIPE,
        stderr=subprocess.PIPE,
        timeout=4 * PATIENCE,  # sixteen begin at the same time
    )
    return without_notes((ran.returncode, ran.stderr.decode()))


def missing(name):
    return 127, "makhloeum: %s: No such file or directory\n" % name


def denied(name):
    return 126, "makhloeum: %s: Permission denied\n" % name


home = tempfile.mkdtemp()
os.chdir(home)
closed, plain, folders = (os.path.join(home, name) for name in ("closed", "plain", "folders"))
# one of another user
others = next(
    (f for f in ("/root", "/etc/ssl/private", "/lost+found") if os.path.isdir(f) and not os.access(f, os.X_OK)), closed
)
for folder in (closed, plain, folders):
    os.mkdir(folder)
for name in (os.path.join(plain, "found"), os.path.join(closed, "found"), "found-here"):
    with open(name, "w") as f:
        f.write("exit 0\n")
    os.chmod(name, 0o644)
os.mkdir(os.path.join(folders, "found"))
shutil.copy("/bin/true", os.path.join(closed, "true"))
shutil.copy("/bin/true", "for-others")
os.chmod("for-others", 0o055)
os.chmod(closed, 0)
usual = "/usr/bin:/bin"
if os.getuid() == 0:
    step("the superuser may search every folder", True)
else:
    absent = "makhloeum: 'nosuch' is not a command, and there is no makhloeum-nosuch on PATH; makhloeum --help lists the commands\n"
    for path in (closed + ":" + usual, others + ":" + usual, usual + ":" + others, others, usual + "::" + others):
        told = path.replace(home, "HOME")
        same("run, nothing found: %s" % told, said(path, "run", "nosuch"), missing("nosuch"))
        same("a command: %s" % told, said(path, "nosuch"), (2, absent))
    for name in ("found", "true"):
        same(
            "by its path: %s" % name, said(usual, "run", os.path.join(closed, name)), denied(os.path.join(closed, name))
        )
    same("only for others", said(usual, "run", "./for-others"), denied("./for-others"))
    same("as the superuser of a namespace", said(usual, "run", "--root", "./for-others"), (0, ""))
    same("only in a folder that is closed", said(closed, "run", "true"), missing("true"))
    same("behind it", said(others + ":" + usual, "run", "true"), (0, ""))
    same("and not executable", said(others + ":" + plain, "run", "found"), denied("found"))
    same("before it", said(plain + ":" + others, "run", "found"), denied("found"))
    same("in the working directory", said(others + ":", "run", "found-here"), denied("found-here"))
same("not executable", said(plain + ":" + usual, "run", "found"), denied("found"))
told = []
in_parallel(lambda _: told.append(said(plain + ":" + usual, "run", "found")), range(100), lanes=16)
same("a hundred at the same time", [t for t in told if t != denied("found")], [])
same("a folder of that name", said(folders, "run", "found"), missing("found"))
same("found elsewhere too", said(plain + ":" + usual, "run", "true"), (0, ""))
same("an empty PATH", said("", "run", "found-here"), denied("found-here"))
same("without PATH", said(None, "run", "nosuch"), missing("nosuch"))
same("without PATH, found", said(None, "run", "true"), (0, ""))
script = 'mount --bind "$1" /usr/bin; unset PATH; exec "$0" run found'
ran = subprocess.run(
    ["unshare", "-Urm", "sh", "-ec", script, PROGRAM, plain], stderr=subprocess.PIPE, text=True, timeout=PATIENCE
)
same("without PATH, not executable", without_notes((ran.returncode, ran.stderr)), denied("found"))
same("without a name", said(usual, "run", ""), missing(""))
r, w = os.pipe2(os.O_DIRECT)  # a read takes what one write gave
subprocess.run([PROGRAM, "run", "/nowhere/found"], stderr=w, timeout=PATIENCE)
os.close(w)
same("a message is one write", os.read(r, 4096).decode(), missing("/nowhere/found")[1])
long = 9000 * "n"
same("however long", said(usual, "run", long), (126, "makhloeum: %s: File name too long\n" % long))
os.chmod(closed, 0o700)
os.chdir("/")
shutil.rmtree(home)
finish()
