"""Machines and callers that do not allow what is needed: each call of the kernel refused by a filter, as a sandbox does (sandbox.c), and
small limits. Then `run` and `mount` say one sentence and end with status 2, or work as usual."""
import errno
import os
import re
import signal
import socket
import subprocess
import sys
import tempfile

sys.path.insert(0, os.path.dirname(os.path.dirname(os.path.realpath(__file__))))
from support import BUILT, PATIENCE, PROGRAM, finish, in_parallel, same, status_within, step, until

SANDBOX = os.path.join(BUILT, "sandbox")
ERRORS = (errno.EPERM, errno.EACCES, errno.ENOSYS)
SHOWS = ("run", "cat", "/proc/self/cgroup")

# Calls with a sentence of their own, and the calls without which a run works, or has no use of in this program.
OTHERS = {
    "clone": "another process",
    "eventfd2": "another descriptor",
    "mount": "user namespaces",
    "ptrace": "a process to be traced",
    "seccomp": "seccomp notification",
    "socketpair": "another descriptor",
    "unshare": "user namespaces",
}
NEEDED = """chroot close_range epoll_create1 epoll_ctl fchdir fcntl fstatfs getdents64 getpid getppid getrandom getxattr kill memfd_create
open_tree openat2 pidfd_getfd pidfd_open pidfd_send_signal poll prctl prlimit64 process_vm_readv pwrite64 readlink readlinkat recvfrom
recvmsg rt_sigaction rt_sigprocmask sendmsg sendto setfsgid setfsuid setsockopt signalfd4 statx umount2 utimensat wait4 waitid
writev""".split()
UNNEEDED = "capset chdir dup2 move_mount move_pages pipe2 ppoll setns setpgid setsid".split()
# Without these `mount` says why it does not begin; without all others it is there.
NEEDED_BY_MOUNT = "chdir clone clone3 mount pipe2 readlink rt_sigaction socketpair writev".split()
# Of those whose errno it says. Threads, mounts and handlers of signals are libfuse's, which keeps no errno.
NAMED_BY_MOUNT = set(NEEDED_BY_MOUNT) - {"clone3", "mount", "rt_sigaction"}


def ran(*words, **how):
    try:
        got = subprocess.run(words, stdout=subprocess.PIPE, stderr=subprocess.PIPE, timeout=PATIENCE, **how)
    except subprocess.TimeoutExpired:
        return "it does not end", "", ""
    return got.returncode, got.stdout.decode(), got.stderr.decode()


def is_one_sentence(said):
    return re.fullmatch(r"makhloeum: [^\n]+\n", said) is not None


def refused_to_run(one):
    call, number = one
    got = ran(SANDBOX, call, str(number), PROGRAM, *SHOWS)
    what = "the call %s" % call if call in NEEDED or call == "clone3" else OTHERS.get(call)
    why = "" if call == "seccomp" else ": " + os.strerror(number)
    if call in UNNEEDED or (call == "clone3" and number == errno.ENOSYS):
        wanted = (0, "0::/\n", "")
    else:
        wanted = (2, "", "makhloeum: this machine does not allow %s%s\n" % (what, why))
    same("run without %s, %s" % (call, errno.errorcode[number]), got, wanted)


def refused_stream(number):
    """The socket by which the program begins is another kind than those that are made before."""
    got = ran(SANDBOX, "socketpair:%d" % (socket.SOCK_STREAM | socket.SOCK_CLOEXEC), str(number), PROGRAM, *SHOWS)
    wanted = (2, "", "makhloeum: this machine does not allow a socket: %s\n" % os.strerror(number))
    same("run without a pair of streams, %s" % errno.errorcode[number], got, wanted)


# As the superuser of a namespace, who needs no fusermount3: a filter keeps that from gaining its privileges.
MOUNTS = """at=$1; shift; "$@" "$at"; status=$?; [ -e "$at/cgroup.procs" ] && echo is there
until umount "$at" 2>/dev/null || ! mountpoint -q "$at"; do sleep 0.1; done; exit $status"""


def mounts(name, before, is_refused=None, options=(), why=""):
    """`mount` is there when it returns 0, and else says why as its last sentence, which ends in `why`."""
    at = tempfile.mkdtemp()
    namespace = ("unshare", "--user", "--map-root-user", "--mount", "sh", "-c", MOUNTS, "sh", at)
    status, text, said = ran(*namespace, *before, PROGRAM, "mount", *options)
    is_there = status == 0 and text == "is there\n" and said == ""
    is_not = status in (1, 2) and text == "" and is_one_sentence(said[said.find("makhloeum: ") :])
    is_not = is_not and said.endswith(why + "\n")
    step(name, is_there if is_refused is False else is_not if is_refused else is_there or is_not, (status, text, said))
    os.rmdir(at)


def why_of(call, number):
    return ": " + os.strerror(number) if call in NAMED_BY_MOUNT else ""


def refused_to_mount(one):
    call, number = one
    refused = call in NEEDED_BY_MOUNT and (call, number) != ("clone3", errno.ENOSYS)
    name = "mount without %s, %s" % (call, errno.errorcode[number])
    mounts(name, (SANDBOX, call, str(number)), refused, why=why_of(call, number))


def refused_in_the_foreground(call):
    before, why = (SANDBOX, call, str(errno.EPERM)), why_of(call, errno.EPERM)
    mounts("mount --foreground without %s" % call, before, True, ("--foreground",), why)


def limited(one):
    """In a namespace of its own, since a user's processes elsewhere count too."""
    which, value = one
    namespace = ("unshare", "--user", "--map-root-user", "--mount")
    limit = ("prlimit", "--%s=%d" % (which, value))
    status, text, said = ran(*namespace, *limit, PROGRAM, *SHOWS)
    works = (status, text, said) == (0, "0::/\n", "")
    refuses = status == 2 and text == "" and is_one_sentence(said)
    is_right = works or (refuses and not (which == "nofile" and value >= 32))
    if which == "nofile" and 16 <= value < 32:  # with fewer something else is missing first
        is_right = refuses and said == "makhloeum: a run needs 32 descriptors, and their hard limit is %d\n" % value
    step("run with %s=%d" % one, is_right, (status, text, said))


def mounts_limited(one):
    mounts("mount with %s=%d" % one, ("prlimit", "--%s=%d" % one))


def untouched():
    """A run that cannot begin leaves the file of its trace as it was: without /proc it isn't known what the program would inherit."""
    covered = (
        "unshare",
        "--user",
        "--map-root-user",
        "--mount",
        "sh",
        "-c",
        'mount -t tmpfs none /proc && exec "$@"',
        "sh",
    )
    with tempfile.NamedTemporaryFile("w+") as trace:
        trace.write("old\n")
        trace.flush()
        for before, why in (
            (covered, "/proc cannot be read: No such file or directory"),
            ((SANDBOX, "kill", str(errno.EPERM)), "this machine does not allow the call kill: Operation not permitted"),
        ):
            got = ran(*before, PROGRAM, "run", "--trace", trace.name, "true")
            same("why no run begins", got, (2, "", "makhloeum: %s\n" % why))
            same("and its trace then", open(trace.name).read(), "old\n")


def blocked():
    """A server whose caller had blocked its signals ends when it is sent one."""
    for each in (signal.SIGTERM, signal.SIGINT, signal.SIGHUP):
        at = tempfile.mkdtemp()
        p = subprocess.Popen(
            [PROGRAM, "mount", "--foreground", at],
            preexec_fn=lambda: signal.pthread_sigmask(signal.SIG_BLOCK, signal.valid_signals()),
        )
        step("it is mounted", until(lambda: os.path.ismount(at)))
        p.send_signal(each)
        same("%s that the caller had blocked ends the server" % each.name, status_within(p), 0)
        is_gone = until(lambda: not os.path.ismount(at))
        step("and nothing is mounted", is_gone)
        if is_gone:
            os.rmdir(at)


every = sorted([*OTHERS, *NEEDED, *UNNEEDED, "clone3"])
for each in ERRORS:
    refused_stream(each)
in_parallel(refused_to_run, [(call, number) for call in every for number in ERRORS], lanes=4)
# Nothing of a mount is left to be seen without these: the calls by which it is mounted and unmounted here. Without getpid the C library
# can't cancel the threads of libfuse, and the server may wait for one.
without = [call for call in every if call not in ("umount2", "poll", "wait4", "getpid")]
in_parallel(refused_to_mount, [(call, number) for call in without for number in ERRORS], lanes=4)
in_parallel(refused_in_the_foreground, [call for call in NEEDED_BY_MOUNT if call != "pipe2"], lanes=4)
for each in ERRORS:
    before, why = (SANDBOX, "epoll_create1", str(each)), ": " + os.strerror(each)
    mounts("mount --adopt without epoll_create1", before, True, ("--adopt",), why)
in_parallel(limited, [("nproc", n) for n in range(1, 41)] + [("nofile", n) for n in range(4, 41)], lanes=4)
in_parallel(mounts_limited, [("nproc", n) for n in range(3, 15)] + [("nofile", n) for n in range(4, 21)], lanes=4)
untouched()
blocked()
finish()
