"""What newcomers look for, and what it is called here: words with the names by which ./where finds it."""
import errno
import os

WORDS = (
    (("user notification", "seccomp notify", "notif"), ("SECCOMP_RET_USER_NOTIF", "seccomp_notif")),
    (("seccomp", "bpf", "system call filter", "syscall filter"), ("filter.c", "seccomp_data", "older.py")),
    (("stays proved", "still proved", "wrong body", "vacuous", "negative test"), ("must-fail", ".ci/edits", "edit")),
    (("mutation testing", "fault injection", "planted fault"), (".ci/mutants", "mutant")),
    (("Fedora", "rpm", "dnf", "Arch", "Alpine", "distribution"), ("docs/ELSEWHERE.md", "Containerfile")),
    (("deb", "package", "apt", "dpkg"), (".ci/debs", ".ci/installed/packages")),
    (("install", "make install", "prefix"), ("./install", ".ci/installed/run", "uninstall")),
    (("release", "abi", "compatibility", "semver"), ("docs/RELEASES.md", "RELEASE.md", ".ci/promised")),
    (("exit status", "exit code", "return code"), ("docs/FORMATS.md", "EXIT STATUS", "does not allow", "run.c")),
    (("try it", "without proofs", "unproved"), ("./try", ".ci/unproved", "trying")),
    (("pip", "pypi", "wheel"), ("bindings/wheel", "bindings/python/setup.py")),
    (("docker", "container", "github actions"), ("docs/ELSEWHERE.md", "Containerfile", "podman.sh")),
    (("race", "data race", "race condition"), ("races.cases", "takes_turns", "tricks.py", "abuse.py")),
    (("deadlock", "lock order", "hang"), ("WANTS_LOCK", "rule.py", "hangs.c")),
    (("kill -9", "sigkill", "crash"), ("cgroup.kill", "zombies.py", "PTRACE_O_EXITKILL")),
    (("fork bomb", "rlimit", "nproc"), ("pids.max", "PidsMax", "refused.py")),
    (("quota", "limit"), ("pids.max", "cgroup.max.depth", "cgroup.max.descendants")),
    (("memory limit", "cpu limit", "memory.max", "cpu.max"), ("--keep", "values.c")),
    (("oom", "out of memory", "allocation failure"), ("AllocError", "MK_OUT_OF_MEMORY", "no_memory.py")),
    (("ptrace", "debugger", "intercept"), ("tracer.c", "supervisor")),
    (("fuse", "filesystem", "file system"), ("operations.c", "fuse_lowlevel_ops")),
    (("inotify", "epoll", "event loop", "notification"), ("watch.c", "companion", "mk_wait_file")),
    (("cgroup namespace", "clone_newcgroup", "unshare"), ("CLONE_NEWCGROUP", "namespaces.py")),
    (("pid namespace", "clone_newpid"), ("CLONE_NEWPID", "NSpid")),
    (("freeze", "pause", "suspend"), ("cgroup.freeze", "freezer.py")),
    (("rollback", "transaction", "revert"), ("undo_journal", "mk_undo", "undo")),
    (("snapshot", "clone the engine", "fork the engine"), ("Engine::copy", "mk_copy")),
    (("log", "journal", "recording"), ("cgroup-trace", "undo_journal", "--trace")),
    (("dry run", "simulate", "what if"), ("Engine::rehearse", "rehearsal")),
    (("specification", "spec", "model"), ("flat_model", "specs", "evidence/model.py")),
    (("new law", "lemma", "prove a property"), ("flat_model_laws", "proofs/Lib.antt", "docs/draw-tables")),
    (("theorem", "main theorem", "correctness"), ("KeepsHistory", "docs/PROVED.md")),
    (("error code", "error", "errno", "new refusal"), ("Refusal", "word_tables", "docs/FORMATS.md", "docs/RECIPES.md")),
    (
        ("group name", "file name", "valid name", "naming"),
        ("PathText", "strategies.py", "DotName", "evidence/model.py"),
    ),
    (("benchmark", "performance", "speed"), ("evidence/bench", "docs/MEASUREMENTS.md")),
    (("linux", "kernel behaviour", "real kernel"), ("evidence/README.md", "evidence/compare", "evidence/check-kernel")),
    (("ci", "pipeline", "presubmit"), (".ci/run", ".ci/quick", ".ci/full")),
    (("failing check", "check fails", "red"), ("docs/FAILURES.md",)),
    (("lint", "linter", "format", "formatter"), (".ci/style", "test_style.py")),
    (("gui", "web", "html", "dashboard", "browser"), ("docs/LOOK.md", "makhloeum view", "page.py")),
    (("cli", "command line", "usage"), ("main.c", "makhloeum.1", "completion")),
    (("option", "flag", "add an option"), ("docs/RECIPES.md", "read_options", "wishes", "completion/generate")),
    (("draw the tree", "row of the tree", "bar"), ("groups.mjs", "page.css", "tree.py")),
    (("button", "keyboard shortcut", "hotkey"), ("docs/LOOK.md", "page.html", "page.mjs", "test_keys.py")),
    (("rename a refusal", "word of a refusal"), ("docs/RECIPES.md", "refusals.rt", "errors_test.go")),
    (("read-only file", "write to a read-only file"), ("errnos.py", "MK_DIRECTION", "content.c")),
    (("count allocations", "needs no memory"), ("frugal.c", "needs_no_memory", "memory.cases")),
    (("manual page", "man page", "manpage"), ("man/", ".ci/tree", ".ci/debs")),
    (("slow gate", "costs most", "gate takes too long"), (".ci/price", "evidence/bench/NOTES.md", "must-fail-more")),
    (("timeout", "deadline", "main loop"), ("watch_over", "PATIENCE", "mk_wait")),
    (("ctypes", "prototype", "declaration"), ("makhloeum.h", "generating/calls.py", "_library.py", "synopsis")),
    (("asyncio", "await", "callback"), ("_changes.py", "mk_wait_file", "_notify.py")),
    (("recorder", "record a kernel", "golden file"), ("evidence/README.md", "recordings.py", "SETS")),
    (("version", "version number", "bump"), ("RELEASE.md", "bindings/version", "MK_VERSION_MINOR")),
    (("new page", "word limit", "documentation"), (".ci/documents", "WORDS_AT_MOST")),
    (("counter", "sharded counter", "scalable counter"), ("striped_adder", "snzi_core", "PlainMeter")),
    (("thread pool", "parallel", "concurrency"), ("replay_main", "sessions", "desk")),
    (("arm", "arm64", "another processor"), ("filter.c", "registers.c", "kernel.h")),
    (("gil", "interpreter lock"), ("test_lock.py", "_LONG", "mk_nonblocking")),
    (("reentrant", "thread safety", "thread-safe"), ("MK_BUSY", "threads.c", "second.c", "docs/FORMATS.md")),
    (("valgrind", "asan", "sanitizer"), ("-fsanitize", "mount/analyze", "leaks.c", "leaks.py")),
    (("property test", "property-based", "random test"), ("strategies.py", "bindings/models", "mount/fuzz/run")),
    (("flaky", "flaky test"), ("docs/FAILURES.md", "PATIENCE")),
    (("coverage", "code coverage"), (".ci/mutants", ".ci/draw-places")),
    (("tcb", "trusted base", "assumption"), ("docs/PROVED.md", ".ci/assumed")),
    (("lock-free", "memory ordering"), ("snzi_tree", "View.BoardRule", "board_bench")),
    (("struct layout", "alignment", "padding"), ("soname.c", "docs/RELEASES.md")),
    (("environment variable", "env"), ("mount/test", "bindings/test", "MAKHLOEUM_SECONDS")),
    (("another language", "wrapper", "ffi"), ("makhloeum.h", "driver.c", "docs/FORMATS.md")),
    (("unicode", "encoding"), ("PathText", "_words.py", "surrogateescape")),
    (("accessibility", "screen reader"), ("spoken", "test_media.py", "docs/LOOK.md")),
    (("dark mode", "theme", "colours"), ("page.css", "test_media.py", "docs/draw-look")),
    (("search box", "search the page"), ("search.mjs", "page.html", "state.test.mjs", "tooltips.test.mjs")),
    (("stat", "file size", "mtime"), ("tree.c", "owner.c", "inodes.py", "files.py")),
    (("new check", "part of the gate", "ci step"), (".ci/run", ".ci/quick", ".ci/all-unproved", "test_gate.py")),
    (("archive", "tarball", "installed file"), (".ci/dist", ".ci/tree", ".ci/debs", "test_packages.py")),
    (("who forks", "sends a line", "sender of a command"), ("engine_line", "fault_injection.c", "strategies.py")),
)


def called_here(name):
    """The names here of what the words mean, and the errno whose message they are; none if they aren't known."""
    asked = name.lower()
    errnos = [it for number, it in sorted(errno.errorcode.items()) if os.strerror(number).lower() == asked]
    return errnos + [target for words, targets in WORDS if asked in map(str.lower, words) for target in targets]


def faults_of_words(is_there):
    """Names of the table that are no file and no word of the repository, and words that are there twice."""
    seen = set()
    for words, targets in WORDS:
        for word in map(str.lower, words):
            if word in seen:
                yield f".ci/lookup/words.py: {word} is there twice"
            seen.add(word)
        for target in targets:
            if not is_there(target.removeprefix("./")):
                yield f".ci/lookup/words.py: {target} of {words[0]} is nowhere"
