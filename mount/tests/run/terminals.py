"""Job control: a shell at a real terminal starts runs, stops them and continues them."""
import fcntl
import os
import pty
import re
import select
import shutil
import signal
import struct
import subprocess
import sys
import tempfile
import termios
import time

sys.path.insert(0, os.path.dirname(os.path.dirname(os.path.realpath(__file__))))
from support import PATIENCE, PROGRAM, finish, in_parallel, same, status_within, step, until

PROMPT = "outer> "
RUN = PROGRAM + " run "
# not `wait -n`, which waits for the next change: the shell may have seen the stop before
UNTIL_STOPPED = "until jobs | grep '^.1.* Stopped'; do sleep 0.1; done\n"


class Terminal:
    """A pseudo-terminal, and what runs there: a shell, unless it is told another program."""

    def __init__(self, name, *words):
        self.name, self.shown, self.seen = name, "", 0
        self.home = tempfile.mkdtemp()
        self.pid, self.fd = pty.fork()
        if self.pid == 0:
            os.chdir(self.home)
            os.environ.update(TERM="vt100", PS1=PROMPT, LESS="", VIMINIT="", HISTFILE="", INPUTRC="/dev/null")
            os.execvp(
                *((words[0], words) if words else ("bash", ["bash", "--norc", "--noprofile", "--noediting", "-i"]))
            )
        self.size(30, 100)
        if not words:
            self.waits_for(PROMPT, "the shell")

    def size(self, lines, columns):
        fcntl.ioctl(self.fd, termios.TIOCSWINSZ, struct.pack("HHHH", lines, columns, 0, 0))

    def type(self, text):
        os.write(self.fd, text.encode())

    def waits_for(self, pattern, what):
        """Until the terminal shows this, after what was waited for before."""
        end = time.monotonic() + PATIENCE
        found = None
        while not found and time.monotonic() < end:
            found = re.search(pattern, self.shown[self.seen :])
            if found or not select.select([self.fd], [], [], max(0, end - time.monotonic()))[0]:
                break
            try:
                self.shown += os.read(self.fd, 4096).decode(errors="replace")
            except OSError:  # nobody has it open any more
                found = re.search(pattern, self.shown[self.seen :])
                break
        step("%s: %s" % (self.name, what), found is not None, repr(self.shown[self.seen :][-300:]))
        if found is None:
            raise EOFError("%s: %s is missing" % (self.name, what))
        self.seen += found.end()
        return found

    def tell(self, line, pattern, what):
        """A line for the shell, and what it says then, before its next prompt."""
        self.type(line + "\n")
        self.waits_for(re.escape(line[-20:]) + "\r\n", "it shows what is typed: " + line[:30])
        found = self.waits_for(pattern, what)
        return found

    def asks(self, line, pattern, what):
        found = self.tell(line, pattern, what)
        self.waits_for(re.escape(PROMPT), "a prompt after: " + what)
        return found

    def is_sane(self, what):
        """The shell has the terminal, which shows what is typed and has lines."""
        self.asks("stty -a | tr ' ' '\\n' | grep -cx 'echo;*\\|icanon;*\\|isig;*'", "\\b3\r\n", what)

    def stopped(self, how, what):
        """The run becomes a stopped job, and then the shell takes a line."""
        self.waits_for(how, "it is a stopped job: " + what)
        self.waits_for(re.escape(PROMPT), "the shell has the terminal: " + what)
        self.is_sane("the terminal is as it was: " + what)

    def ends(self, status=0):
        """The last command had this status; the shell ends, and so does whatever it has started."""
        self.asks("echo status=$?", "status=%d\r\n" % status, "the status of the run")
        self.type("exit\n")
        step("%s: the shell ends" % self.name, until(lambda: os.waitpid(self.pid, os.WNOHANG)[0] == self.pid))
        self.close()

    def close(self):
        os.close(self.fd)
        shutil.rmtree(self.home)

    def foreground(self):
        return os.tcgetpgrp(self.fd)

    def has_stopped(self, group):
        """Whether a process of the group is stopped."""
        states = subprocess.run(["ps", "-eo", "pgid=,stat="], stdout=subprocess.PIPE, text=True, check=True).stdout
        return any(int(of) == group and state[0] == "T" for of, state in map(str.split, states.splitlines()))


HANDLES = """import os, select, signal, sys
def stops(*_):
    pid = os.fork()  # as an editor that starts stty
    if pid == 0:
        os._exit(0)
    os.waitpid(pid, 0)
    os.write(1, b"it restores the terminal\\n")
    signal.signal(signal.SIGTSTP, signal.SIG_DFL)
    os.kill(%s, signal.SIGTSTP)
    signal.signal(signal.SIGTSTP, stops)
    os.write(1, b"it goes on\\n")
continued = []
signal.signal(signal.SIGTSTP, stops)
signal.signal(signal.SIGCONT, lambda *_: continued.append(1))
print("ready", flush=True)
while True:
    while not select.select([0], [], [], 0.05)[0]:
        pass  # python would call the handler of a signal that comes just before a read after the read
    line = os.read(0, 100).decode()
    if not line:
        sys.exit(9)
    print("got", line.strip(), "continued", len(continued), flush=True)
"""


def handler(whom, name):
    """A handler runs before the stop, and again after it; the program gets one SIGCONT for each fg."""
    t = Terminal(name)
    open(os.path.join(t.home, "program.py"), "w").write(HANDLES % whom)
    t.tell(RUN + sys.executable + " program.py", "ready\r\n", "it runs")
    for times in (1, 2):
        t.type("\x1a")
        t.waits_for("it restores the terminal\r\n", "its handler runs first")
        t.stopped("Stopped ", "time %d" % times)
        t.tell("fg", "it goes on\r\n", "fg continues it")
        t.type("hello\n")
        t.waits_for("got hello continued %d\r\n" % times, "it has the terminal again, and has one SIGCONT for each fg")
    t.type("\x04")
    t.waits_for(PROMPT, "it ends")
    t.ends(9)


def handler_of_itself():
    handler("os.getpid()", "a handler that stops the process")


def handler_of_group():
    handler("0", "a handler that stops the group")


def second():
    """The handler is of another process than the first one, which stops at once."""
    t = Terminal("a handler of a second process")
    open(os.path.join(t.home, "program.py"), "w").write(HANDLES % "os.getpid()")
    t.tell(RUN + "sh -c '%s program.py; exit 8'" % sys.executable, "ready\r\n", "it runs")
    for times in (1, 2):
        time.sleep(0.4)  # longer than a handler may take: each stop has a time of its own
        t.type("\x1a")
        t.waits_for("it restores the terminal\r\n", "its handler runs first")
        t.stopped("Stopped ", "a second process, time %d" % times)
        t.tell("fg", "it goes on\r\n", "fg continues it")
        t.type("hello\n")
        t.waits_for("got hello continued %d\r\n" % times, "it has the terminal again")
    t.type("\x04")
    t.waits_for(PROMPT, "it ends")
    t.ends(8)


def default():
    """A program without a handler: ^Z, bg, a stop by the shell, ^C."""
    t = Terminal("sleep")
    t.asks("set -o posix; echo $((40 + 2))", "42\r\n", "a shell that names the signal by which a job is stopped")
    t.type(RUN + "sh -c 'echo ready; exec sleep 600'\n")
    t.waits_for("\nready\r\n", "it runs")
    group = t.foreground()
    t.type("\x1a")
    t.stopped(r"Stopped\(SIGTSTP\) ", "^Z")
    t.asks("bg", "sleep 600' &\r\n", "bg continues it")
    t.asks("jobs", "Running ", "it runs in the background")
    t.type("kill -STOP %1; " + UNTIL_STOPPED)
    t.stopped(r"Stopped\(SIGSTOP\) ", "the shell stops it")
    t.type("fg\n")
    step("sleep: it has the terminal", until(lambda: t.foreground() == group))
    t.type("\x03")
    t.waits_for(r"\^C[^$]*" + re.escape(PROMPT), "^C ends it")
    t.ends(130)


def deaf():
    """A second process that ignores the stop keeps no shell waiting."""
    t = Terminal("a second process that ignores the stop")
    ignores = "(trap '' TSTP; exec sleep 600)"
    t.type(RUN + 'sh -c "%s & echo ready; exec sleep 600"\n' % ignores)
    t.waits_for("\nready\r\n", "it runs")
    group, took = t.foreground(), []
    while len(took) < 2 or (min(took) >= 2.5 and len(took) < 12):  # a busy machine takes long
        began = time.monotonic()
        t.type("\x1a")
        t.stopped("Stopped ", "^Z, time %d" % (len(took) + 1))
        took.append(time.monotonic() - began)
        t.type("fg\n")
        # the shell continues it after it gave it the terminal, and a stop that comes between them is lost
        step("it has the terminal", until(lambda: t.foreground() == group and not t.has_stopped(group)))
    step("at least once the shell had it soon, however busy the machine is", min(took) < 2.5, took)
    t.type("\x03")
    t.waits_for(re.escape(PROMPT), "^C ends it")
    t.ends(130)


def stops_itself():
    """kill -STOP of itself, and of its group."""
    for whom in ("$$", "0"):
        t = Terminal("kill -STOP %s" % whom)
        t.type(RUN + "sh -c 'kill -STOP %s; echo it goes on; exit 5'\n" % whom)
        t.stopped("Stopped ", "it stops itself")
        t.tell("fg", "it goes on\r\n", "fg continues it")
        t.waits_for(PROMPT, "it ends")
        t.ends(5)


def shell(name, words, suspends, prompt):
    """A shell under run: it has jobs of its own, it suspends itself, and has the terminal after fg."""
    t = Terminal(name)
    t.type("PS1='%s' %s%s\n" % (prompt, RUN, words))
    t.waits_for("\n" + re.escape(prompt), "the inner shell has the terminal")
    t.type("sh -c 'echo job; exec sleep 600'\n")
    t.waits_for("\njob\r\n", "a job of the inner shell")  # before that it may still ignore the terminal's signals
    t.type("\x1a")
    t.waits_for("Stopped", "^Z stops it")
    t.waits_for(re.escape(prompt), "the inner shell has the terminal again")
    # not by `wait`: bash loses the death of a stopped job that ends meanwhile, and then counts it as stopped forever
    t.type("kill -9 %1; while kill -0 %1 2>/dev/null; do sleep 0.1; done\n")
    t.waits_for("done\r\n", "the shell kills its job")
    t.waits_for("Killed", "the job has ended")
    t.waits_for(re.escape(prompt), "and the inner shell goes on")
    for times in ("first", "second"):
        t.type(suspends + "\n")
        t.stopped("Stopped ", "the inner shell suspends itself, the %s time" % times)
        t.type("fg\n")
        t.waits_for("fg\r\n", "fg")
        t.type("echo sum=$((20 + 3))\n")
        t.waits_for("sum=23\r\n", "the inner shell has the terminal after fg")
    t.type("exit 4\n")
    t.waits_for(PROMPT, "the inner shell ends")
    t.ends(4)


def bash():
    shell("bash", "bash --norc --noprofile --noediting -i", "suspend", "inner> ")


def dash():
    shell("dash", "dash -i", "kill -STOP $$", "inner> ")


def in_background():
    """A shell under run that the outer one continues in the background takes no terminal: it stops once it reads."""
    t = Terminal("an inner shell in the background")
    t.type("PS1='inner> ' " + RUN + "dash -i\n")
    t.waits_for("\ninner> ", "the inner shell has the terminal")
    t.type("kill -STOP $$\n")
    t.stopped("Stopped ", "it suspends itself")
    t.asks("bg", "dash -i &\r\n", "bg continues it")
    t.type(UNTIL_STOPPED)
    t.waits_for("done\r\n", "the outer shell waits")
    t.waits_for(re.escape(PROMPT), "the inner one is stopped since it reads")
    t.type("kill -9 %1; while kill -0 %1 2>/dev/null; do sleep 0.1; done\n")
    t.waits_for("done\r\n", "the outer shell kills it")
    t.waits_for(re.escape(PROMPT), "and goes on")
    t.ends()


def by_its_own():
    """A process of the run continues makhloeum, which has stopped with its program: the program goes on."""
    t = Terminal("a process of the run continues it")
    open(os.path.join(t.home, "program.sh"), "w").write(
        """
(until read -r pid name state rest </proc/$PPID/stat && [ "$state" = T ]; do :; done; kill -CONT $PPID) &
kill -STOP $$
wait
echo it goes on
"""
    )
    t.tell(RUN + "sh program.sh", "it goes on\r\n", "it stops and is continued")
    t.asks("echo sum=$((20 + 3))", "sum=23\r\n", "the shell goes on too")
    t.type("exit\n")
    step("the shell ends", until(lambda: os.waitpid(t.pid, os.WNOHANG)[0] == t.pid))
    t.close()


def vim():
    t = Terminal("vim")
    editor = shutil.which("vim.tiny") or shutil.which("vim")
    t.type(RUN + editor + " -u NONE -N file\n")
    t.waits_for("~", "it shows an empty file")
    t.type("ihello\x1b")
    t.waits_for("hello", "it takes a line")
    t.type("\x1a")
    t.stopped("Stopped ", "^Z in vim")
    t.type("fg\n")
    t.waits_for("hello", "fg shows the file again")
    t.type(":wq\r")
    t.waits_for(re.escape(PROMPT), "it ends")
    same("vim: the file", open(os.path.join(t.home, "file")).read(), "hello\n")
    t.ends()


def less():
    t = Terminal("less")
    open(os.path.join(t.home, "file"), "w").write("".join("line %d\n" % n for n in range(1, 500)))
    for words in ("less file", "cat file | " + RUN + "less"):
        t.type((words if "|" in words else RUN + words) + "\n")
        t.waits_for("line 20", "it shows a page of: " + words[:10])
        t.type("\x1a")
        t.stopped("Stopped ", "^Z in less")
        t.type("fg\n")
        t.waits_for("line 20", "fg shows the page again")
        t.type("G")
        t.waits_for("line 499", "it goes on to the end")
        t.type("q")
        t.waits_for(re.escape(PROMPT), "it ends")
    t.ends()


def python():
    t = Terminal("python3 -i")
    t.type(RUN + sys.executable + " -i -q\n")
    t.waits_for(">>> ", "it shows its prompt")
    t.type("\x1a")
    t.stopped("Stopped ", "^Z in python")
    t.type("fg\n")
    t.waits_for("fg\r\n", "fg")
    t.type("print(6 * 7)\n")
    t.waits_for("\n42\r\n", "it calculates after fg")
    t.type("exit(3)\n")
    t.waits_for(re.escape(PROMPT), "it ends")
    t.ends(3)


def background():
    """A run in the background that reads from the terminal is stopped, and continues in the foreground."""
    t = Terminal("in the background")
    t.type(RUN + "cat &\n")
    t.waits_for(re.escape(PROMPT), "a prompt")
    t.type(UNTIL_STOPPED)
    t.waits_for("done\r\n", "the shell waits")
    t.waits_for(re.escape(PROMPT), "the shell has waited")
    t.asks("jobs", "Stopped ", "it is stopped since it reads")
    t.type("fg\n")
    t.waits_for("cat\r\n", "fg")
    t.type("some words\n")
    t.waits_for("some words\r\nsome words\r\n", "it reads after fg")
    t.type("\x04")
    t.waits_for(re.escape(PROMPT), "it ends")
    t.ends()


def pipeline():
    """Runs in a pipeline are one job: ^C ends all, ^Z stops all."""
    t = Terminal("a pipeline")
    t.tell("%ssh -c 'echo one; exec sleep 600' | %scat" % (RUN, RUN), "one\r\n", "it runs")
    t.type("\x1a")
    t.stopped("Stopped ", "^Z")
    t.type("fg\n")
    t.waits_for("fg\r\n", "fg")
    group = None

    def has():
        nonlocal group
        group = t.foreground()
        return group != os.getpgid(t.pid)

    step("a pipeline: it has the terminal", until(has))
    t.type("\x03")
    t.waits_for(re.escape(PROMPT), "^C ends it")
    step("a pipeline: nothing of it is left", until(lambda: not lives(group)))
    t.ends(130)


def lives(group):
    try:
        os.killpg(group, 0)
    except OSError:
        return False
    return True


SIZES = """import os, signal, time
signal.signal(signal.SIGWINCH, lambda *_: os.write(1, b"size %d %d\\n" % os.get_terminal_size()))
os.write(1, b"ready\\n")
while True:
    time.sleep(0.05)
"""


def window():
    """A new size of the window reaches the program."""
    t = Terminal("a window")
    open(os.path.join(t.home, "program.py"), "w").write(SIZES)
    t.tell(RUN + sys.executable + " program.py", "ready\r\n", "it runs")
    for columns in (77, 78):
        t.size(20, columns)
        t.waits_for("size %d 20\r\n" % columns, "it hears of each size once")
    t.type("\x1c")
    t.waits_for(PROMPT, "^\\ ends it")
    t.ends(131)


WAITS = """import signal
both = [signal.SIGINT, signal.SIGUSR2]
signal.pthread_sigmask(signal.SIG_BLOCK, both)
print("ready", flush=True)
while True:
    print("got", signal.sigwait(both).name, flush=True)
"""


def waits():
    """A program that waits for the terminal's signals gets each once: makhloeum passes none of them on."""
    t = Terminal("a program that waits for signals")
    open(os.path.join(t.home, "program.py"), "w").write(WAITS)
    t.tell(RUN + sys.executable + " program.py", "ready\r\n", "it runs")
    for _ in range(3):
        t.type("\x03")
        t.waits_for("got SIGINT\r\n", "an interrupt")
        os.kill(t.foreground(), signal.SIGUSR2)  # what comes to makhloeum later, the program gets later
        found = t.waits_for("got (SIG\\w+)\r\n", "another signal")
        same("the next one", found and found[1], "SIGUSR2")
    t.type("\x1c")
    t.waits_for(PROMPT, "^\\ ends it")
    t.ends(131)


def hung_up():
    """The terminal goes: the program of a session's leader gets SIGHUP, and nothing is left. One that is stopped gets SIGCONT too."""
    code = """import os, signal, time
signal.signal(signal.SIGHUP, lambda *_: (open("heard", "a").write("x"), os._exit(0)))
print("ready", flush=True)
while True:
    %s
"""
    for waits in ("time.sleep(0.05)", "os.kill(os.getpid(), signal.SIGSTOP)"):
        t = Terminal("a terminal that goes", PROGRAM, "run", sys.executable, "-c", code % waits)
        t.waits_for("ready\r\n", "it runs")
        if "STOP" in waits:
            same("it is stopped", os.WIFSTOPPED(os.waitpid(t.pid, os.WUNTRACED)[1]), True)
        os.close(t.fd)
        step("the run ends", until(lambda: os.waitpid(t.pid, os.WNOHANG)[0] == t.pid))
        same("its program heard it", open(os.path.join(t.home, "heard")).read(), "x")
        shutil.rmtree(t.home)
    # the shell of the terminal passes it on
    t = Terminal("a terminal of a shell that goes")
    t.tell(RUN + "sh -c 'echo ready; sleep 600; :'", "ready\r\n", "it runs")
    group = t.foreground()
    os.close(t.fd)
    os.waitpid(t.pid, 0)
    step("the run ends with its shell", until(lambda: not lives(group)))
    shutil.rmtree(t.home)


def without():
    """Without a terminal, and started by others."""

    def status(*words, **more):
        return status_within(subprocess.Popen(words, stdin=subprocess.DEVNULL, **more))

    own = ("sh", "-c", "exit 6")
    for words in (("setsid", "-w"), ("nohup",), ("timeout", "60"), ("timeout", "--foreground", "60")):
        if shutil.which(words[0]):
            same("%s: the status" % " ".join(words), status(*words, PROGRAM, "run", *own, stderr=-3), 6)
    tidies = "trap 'echo tidied; exit 3' TERM; echo ready; while :; do sleep 0.1; done"
    for words in (("timeout", "--preserve-status", "5"), ("timeout", "--preserve-status", "--foreground", "5")):
        p = subprocess.Popen([*words, PROGRAM, "run", "sh", "-c", tidies], stdout=subprocess.PIPE, text=True)
        said, _ = p.communicate(timeout=PATIENCE)
        same("%s: the program tidies up" % words[-2], (p.returncode, said), (3, "ready\ntidied\n"))
    p = subprocess.Popen(
        [PROGRAM, "run", "sh", "-c", "kill -STOP $$; echo it goes on"],
        stdout=subprocess.PIPE,
        start_new_session=True,
    )
    same("without a terminal its parent hears of the stop", os.WIFSTOPPED(os.waitpid(p.pid, os.WUNTRACED)[1]), True)
    os.kill(p.pid, signal.SIGCONT)
    same("and continues it", (p.communicate()[0], p.returncode), (b"it goes on\n", 0))
    # another process of the run continues the first, while nobody outside would
    code = "while :; do sleep 1; kill -CONT $$; done & kill -STOP $$; kill $!; echo it goes on"
    words = (PROGRAM, "run", "sh", "-c", code)
    script = ("sh", "-c", '"$@"; exit $?', "sh")  # a shell without job control, in whose group the run is
    for before in ((), script):
        p = subprocess.Popen([*before, *words], stdout=subprocess.PIPE, start_new_session=True)
        same("another process continues the first", p.communicate(timeout=PATIENCE)[0], b"it goes on\n")


needs = {vim: ("vim.tiny", "vim"), less: ("less",), dash: ("dash",), in_background: ("dash",)}
tests = [
    handler_of_itself,
    handler_of_group,
    second,
    default,
    deaf,
    stops_itself,
    bash,
    dash,
    in_background,
    by_its_own,
]
tests += [vim, less, python]
tests += [background, pipeline, window, waits, hung_up, without]
asked = [t for t in tests if t.__name__ in sys.argv[1:] or not sys.argv[1:]]
for test in [t for t in asked if t in needs and not any(map(shutil.which, needs[t]))]:
    print("  left out: there is no %s" % " or ".join(needs[test]))
    asked.remove(test)
in_parallel(lambda test: test(), asked)
finish()
