"""rule.py FOLDER OF THE SOURCES: which processes may block on what (the heads of the main headers of the folders say the rule). The
supervisor of a run, and a thread of the server that holds the engine's lock, look up no path and touch no memory of the program. Here
the calls that would do so are looked for in the sources of their folders; blocking.py tries it. A folder also includes only headers of
the folders that its line names: so code that may block is not called from a folder that may not. Then each of these rules is broken in
a copy of the sources, which has to be refused. Each header is read once in a source, whatever includes it, and no two files have the
same name."""
import collections
import functools
import os
import re
import sys

# From the lowest to the highest: which folders each may include besides itself, and whether its code may block on the program.
FOLDERS = {
    "common": ((), False),
    "channels": (("common",), False),
    "engine": (("common",), False),
    "values": (("common", "engine"), False),
    "processes": (("common", "channels", "engine", "values"), False),
    "companion": (("common",), True),
    "server": (("common", "channels", "engine", "values", "processes", "companion"), False),
    "helper": (("common", "channels"), True),
    "supervisor": (("common", "channels"), False),
    "run": (("common", "channels", "engine", "processes", "companion", "server", "helper", "supervisor"), True),
    "": (("common", "server", "run"), True),
}
# Single headers that a file may include besides, with the reason.
INCLUDES = {
    ("values/files.c", "server/freezer.h"): "the table of a group's files has the functions that read and write each",
    ("values/values.h", "server/group_state.h"): "the values of a group are remembered with it",
    ("values/controllers.c", "server/open_files.h"): "open files of a controller that was disabled lose their group",
    ("values/controllers.c", "processes/visible_processes.h"): "a group with only zombies is not populated",
    ("processes/host_processes.c", "server/watch.h"): "a birth or an end may change a watched file",
    ("processes/run_processes.c", "server/watch.h"): "a birth or an end may change a watched file",
    ("processes/run_processes.c", "server/freezer.h"): "a process is born in a frozen group, or leaves it",
    (
        "supervisor/births.h",
        "helper/helper.h",
    ): "the supervisor's side of the helper: it sends and receives, and never waits",
    (
        "supervisor/calls.c",
        "helper/helper.h",
    ): "the supervisor's side of the helper: it sends and receives, and never waits",
    ("helper/procfiles.c", "values/controllers.h"): "which controllers are kept: it was read before the helper began",
}
MOST_INCLUDES, MOST_FILES, MOST_COMMON = 12, 40, 20

# Calls that look up a path, go to a file system, or touch the memory of another process.
CALLS = """open openat openat2 creat fopen freopen opendir readdir stat lstat fstatat statx statfs fstatfs access faccessat readlink
readlinkat realpath truncate mkdir rmdir unlink rename link symlink chmod chown chdir fchdir mount umount2 getxattr setxattr listxattr
inotify_add_watch execve execvp execlp process_vm_readv process_vm_writev program_memory_read program_memory_text program_memory_write
proc_status_is_ours proc_status_line proc_status_number proc_status_text proc_status_enter beneath_open mount_root_open
mount_root_group_of path_lookup_find path_lookup_process_of path_lookup_is_own path_lookup_seen_from machine_read own_processes_wait
usleep sleep nanosleep""".split()
SYSCALLS = "SYS_open SYS_openat SYS_openat2 SYS_open_tree SYS_move_mount SYS_statx"
PTRACES = "PTRACE_PEEKTEXT PTRACE_PEEKDATA PTRACE_POKETEXT PTRACE_POKEDATA"
WORDS = (SYSCALLS + " " + PTRACES).split()
# What may stay, with the reason.
ALLOWED = {
    "common/beneath.c": ("SYS_openat2", "calls of beneath_open are refused"),
    "common/kernel.h": ("statx", "of a descriptor: it sends no request to a file system"),
    "common/namespaces.c": ("stat", "in /proc, and only before Linux 6.11"),
    "common/own_processes.c": ("usleep", "calls of own_processes_wait are refused"),
    "common/proc_status.c": ("open readlink chdir fchdir SYS_open_tree", "calls of its functions are refused"),
    "engine/trace_file.c": ("open unlink", "before the mount"),
    "values/machine.c": (
        "opendir readdir faccessat proc_status_text",
        "before the mount: a call of machine_read is refused",
    ),
    "processes/host_processes.c": (
        "open opendir readdir proc_status_number",
        "/proc, with --adopt: then no supervisor waits for the server",
    ),
    "server/supervisor_questions.c": ("sleep", "the mount is being unmounted"),
    "server/serve.c": (
        "open opendir readdir realpath stat access chdir machine_read proc_status_is_ours",
        "before the mount",
    ),
    "server/watch.c": ("open", "without a run, once it is mounted"),
    "supervisor/tracer.c": ("usleep", "at the end of the run, when all are killed"),
}

# Calls whose result is checked, or a comment at the call says why it is not.
CHECKED = """ptrace fill dup dup2 fcntl pipe pipe2 ioctl syscall epoll_ctl kill waitpid waitid sigprocmask sigaction prctl setrlimit setsockopt send
recv sendmsg shutdown umount2 setsid pthread_create pthread_join sem_post registers_read registers_restore registers_return
registers_set_call registers_set_ticket registers_set_result""".split()


@functools.lru_cache(maxsize=None)
def faults_of(name, text):
    """What is against the rules in one file."""
    found = [*unchecked(name, text), *(guarded(name, text) if name.endswith(".h") else ())]
    folder = os.path.dirname(name)
    if folder in FOLDERS:
        found += includes(name, text)
        if not FOLDERS[folder][1]:
            found += blocking(name, text)
    return found


def without_comments(text):
    text = re.sub(r"/\*.*?\*/", lambda m: "\n" * m.group(0).count("\n"), text, flags=re.S)
    return re.sub(r'"(\\.|[^"\\])*"', '""', text)


def unchecked(name, text):
    """Calls whose result is dropped without a word."""
    lines = text.splitlines()
    for number, line in enumerate(lines):
        call = re.match(r"\s*(?:\(void\))?(%s)\(" % "|".join(CHECKED), line)
        goes_on = number > 0 and lines[number - 1].rstrip().endswith(("||", "&&"))
        if call and not goes_on and not any("/*" in x for x in lines[max(0, number - 7) : number + 1]):
            yield f"{name}:{number + 1}: the result of {call[1]} is not checked, and no comment says why"


def blocking(name, text):
    """Calls that may block on the program. A file may call its own functions: what they call is looked at there."""
    own = os.path.splitext(os.path.basename(name))[0] + "_"
    allowed = ALLOWED.get(name, ("", ""))[0].split()
    for number, line in enumerate(without_comments(text).splitlines(), 1):
        found = [c for c in re.findall(r"(?<![\w.>])(\w+)\s*\(", line) if c in CALLS and not c.startswith(own)]
        found += [w for w in re.findall(r"\w+", line) if w in WORDS]
        yield from (f"{name}:{number}: {c}" for c in found if c not in allowed)


def guarded(name, text):
    """A header is read once in each source, by a name that ends in its own."""
    own = re.sub(r"\W", "_", os.path.basename(name)).upper()
    if not re.search(rf"(?m)^#ifndef (\w*{own})\n#define \1\n", text) or not text.endswith("\n#endif\n"):
        yield f"{name}: it is not between #ifndef {own}, #define {own} and #endif"


def includes(name, text):
    """Headers of folders that this one may not include."""
    folder = os.path.dirname(name)
    for header in re.findall(r'(?m)^\s*#\s*include "(.*)"', text):
        to = os.path.dirname(header)
        if to != folder and to not in FOLDERS[folder][0] and (name, header) not in INCLUDES:
            yield f"{name}: {folder or 'the top'} may not include {header}"


def against(sources):
    """What is against the rules in sources: a text for each path."""
    inside = {name: [] for name in FOLDERS}
    for name in sorted(sources):
        inside.setdefault(os.path.dirname(name), []).append(name)
    for folder, names in inside.items():
        if folder not in FOLDERS:
            yield f"{folder}: a folder without a line in FOLDERS"
        elif len(names) > (MOST_COMMON if folder == "common" else MOST_FILES):
            yield f"{folder}: {len(names)} files"
    places = list(FOLDERS)
    for number, folder in enumerate(places):
        yield from (f"{folder} includes {x}, which is above it" for x in FOLDERS[folder][0] if x not in places[:number])
    for file, count in collections.Counter(map(os.path.basename, sources)).items():
        if count > 1:
            yield f"{count} files named {file}"
    if len(INCLUDES) > MOST_INCLUDES:
        yield f"{len(INCLUDES)} single headers"
    for name, (words, _) in ALLOWED.items():
        code = set(re.findall(r"\w+", without_comments(sources.get(name, ""))))
        yield from (f"{name} has no {x}, which it may call" for x in words.split() if x not in code)
    yield from (f"{a} does not include {b}" for a, b in INCLUDES if f'#include "{b}"\n' not in sources.get(a, ""))
    for name, text in sorted(sources.items()):
        yield from faults_of(name, text)


def planted(sources):
    """Copies of the sources with one fault each, and what it is."""
    excepted = {*ALLOWED, *(name for name, _ in INCLUDES)}
    headers = {os.path.dirname(name): name for name in sorted(sources) if name.endswith(".h")}
    for folder, (may_include, may_block) in FOLDERS.items():
        of_folder = [name for name in sorted(sources) if os.path.dirname(name) == folder and name.endswith(".c")]
        name = next(name for name in of_folder if name not in excepted)
        for words in (
            () if may_block else ("usleep(1);", 'open("x", 0);', "syscall(SYS_openat2);", "program_memory_read(1);")
        ):
            yield f"{words} in {name}", {**sources, name: sources[name] + f"\n/* no result */\n{words}\n"}
        for to, header in headers.items():
            if to not in (folder, *may_include):
                yield f"{header} in {name}", {**sources, name: f'#include "{header}"\n' + sources[name]}
    yield "an unchecked ptrace", {**sources, "run/new.c": "\tptrace(1);\n"}
    for name, old, new in (
        ("common/beneath.h", "#define BENEATH_H", "#define BENEATHS_H"),
        ("common/beneath.h", "#ifndef BENEATH_H", "#ifndef BENEATHS_H"),
        ("common/beneath.h", "\n#endif\n", "\n"),
    ):
        yield f"{new} in {name}", {**sources, name: sources[name].replace(old, new)}
    yield "a second file of the same name", {**sources, "server/beneath.c": ""}
    yield "a new folder", {**sources, "new/new.c": ""}
    yield "a full folder", {**sources, **{f"common/new{n}.c": "" for n in range(MOST_COMMON)}}


def read(top):
    found = {}
    for at, _, files in os.walk(top):
        for file in files:
            path = os.path.join(at, file)
            with open(path, encoding="utf-8") as it:
                found[os.path.relpath(path, top)] = it.read()
    return found


def main():
    sources = read(sys.argv[1])
    wrong = sorted(against(sources))
    faults = list(planted(sources))
    passed = [what for what, copy in faults if not set(against(copy)) - set(wrong)]
    for line in wrong:
        print("  " + line)
    for what in passed:
        print("  not refused: " + what)
    print(
        f"  {len(sources)} files, {len(wrong)} faults; {len(faults) - len(passed)} of {len(faults)} planted faults refused"
    )
    sys.exit(1 if wrong or passed else 0)


main()
