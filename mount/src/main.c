/* The command line: makhloeum mount, makhloeum run, and the commands that are separate programs. */
#include "common/message.h"
#include "run/run.h"
#include "server/serve.h"
#include <errno.h>
#include <fcntl.h>
#include <limits.h>
#include <makhloeum.h>
#include <stdio.h>
#include <string.h>
#include <sys/auxv.h>
#include <unistd.h>

static const char help[] =
	"makhloeum mount DIR [--trace FILE] [--answers FILE] [--extra] [--keep LIST] [--adopt] [--control] [--foreground]\n"
	"makhloeum run [--trace FILE] [--answers FILE] [--keep LIST] [--control] [--root] [--users] [--threads=no] [--] "
	"PROGRAM ARGS..\n"
	"makhloeum view TRACE [-o PAGE.html]\n"
	"makhloeum tree DIR [--watch]\n"
	"makhloeum check DIR\n"
	"makhloeum --version\n"
	"\n"
	"mount shows a cgroup hierarchy on the directory DIR, as a cgroup2 file system. A process is only a number\n"
	"there. It returns once the mount is in place. fusermount3 -u DIR unmounts it; so does killing the server.\n"
	"run mounts a hierarchy on /sys/fs/cgroup in its own namespaces and runs PROGRAM there. PROGRAM sees a cgroup2 "
	"file\n"
	"system with its own processes. When it ends, the processes that it left behind are killed. No privileges are "
	"needed.\n"
	"view makes a page of a run from its trace. tree shows the groups of a directory. check compares a directory with "
	"the\n"
	"engine. These three are separate programs: makhloeum NAME starts makhloeum-NAME.\n"
	"\n"
	"  --trace FILE    write each line that the engine gets to FILE, with its time: `cgreplay < FILE` gives the same "
	"answers\n"
	"  --answers FILE  write these answers to FILE\n"
	"  --extra         add files that clients look for and the engine does not have (run always has them). "
	"cgroup.freeze\n"
	"                  freezes, cgroup.threads lists; the others are constant: cgroup.controllers and "
	"cgroup.subtree_control `pids`, cgroup.type\n"
	"                  `domain`, cpu.stat all 0. cgroup.subtree_control accepts +pids, and cgroup.type domain; any "
	"other value\n"
	"                  is EOPNOTSUPP\n"
	"  --keep LIST     add the files of these controllers (memory, cpu, io, cpuset, with commas between), and of "
	"--extra.\n"
	"                  They check a value as the kernel does, store it and return it, but limit nothing; their "
	"counters\n"
	"                  are 0. cgroup.subtree_control then turns controllers on and off, pids too\n"
	"  --adopt         each process that is written to cgroup.procs is a real one: the hierarchy follows its exit and "
	"its\n"
	"                  children, and cgroup.kill kills it\n"
	"  --control       keep a history, and list the directory .makhloeum: undo (an empty line undoes the newest "
	"command, N the\n"
	"                  newest N), forget, depth, newest, trace, fork (PARENT CHILD), exit (PID). Without this "
	"option\n"
	"                  a mount has only fork and exit, a run has no such directory, and neither keeps a history\n"
	"  --foreground    mount stays in the foreground\n"
	"  --root          PROGRAM is root in its user namespace\n"
	"  --users         PROGRAM has all users and groups of the caller, who must be root on the machine or in a user "
	"namespace\n"
	"  --threads=no    threads are not counted: a process is 1 in pids.current, whatever threads it has\n"
	"\n"
	"The status of run is that of PROGRAM, or 128 plus the signal that ended it. It is 127 if PROGRAM is not found, "
	"126 if\n"
	"it cannot be executed, and 2 for a bad command line, or if the machine does not allow what is needed; one "
	"sentence\n"
	"then names it.\n";

/* A closed standard stream becomes /dev/null; else the next opened file would get its number. */
/* Before any other file is opened: a trace or a socket must not become standard output. */
static bool have_streams(void)
{
	int fd;
	do
		fd = open("/dev/null", O_RDWR);
	while (fd >= 0 && fd <= STDERR_FILENO);
	if (fd >= 0)
		close(fd);
	return fd >= 0;
}

/* Whether a word asks for a text. */
static bool asks(const char *word, const char *option, const char *letter)
{
	return strcmp(word, option) == 0 || strcmp(word, letter) == 0;
}

/* The status of a command line that asked for this text only. A standard output that nobody reads has no message, and the status
   that a shell reports of SIGPIPE: who ignores that signal gets the same. */
static int show(const char *text)
{
	enum { FAILED = 1, NOBODY_READS = 141 };
	if (fputs(text, stdout) >= 0 && fflush(stdout) == 0)
		return 0;
	/* EPIPE comes instead of SIGPIPE only where the caller ignores that. */
	int fault = errno;
	if (fault == EPIPE)
		return NOBODY_READS;
	say("write failed: %s", strerror(fault));
	return FAILED;
}

enum { REFUSED = 2 }; /* the status of all that is refused before it begins */

static int bad(void)
{
	fprintf(stderr, "makhloeum: bad command line; see makhloeum --help\n");
	return REFUSED;
}

/* Reads the options from argv[at] on. Returns the index after them, or -1. */
/* Each option is stored in place: the words stay the caller's. */
static int read_options(int argc, char **argv, int at, struct wishes *w)
{
	struct {
		const char *name;
		bool *flag;
		const char **word;
	} options[] = {
		{ "--trace", NULL, &w->trace },
		{ "--answers", NULL, &w->answers },
		{ "--extra", &w->extra, NULL },
		{ "--adopt", &w->adopt, NULL },
		{ "--control", &w->control, NULL },
		{ "--foreground", &w->foreground, NULL },
		{ "--root", &w->as_root, NULL },
		{ "--keep", NULL, &w->keep },
		{ "--users", &w->users, NULL },
		{ "--threads=no", &w->no_threads, NULL },
	};
	size_t i, count = sizeof options / sizeof *options;
	for (; at < argc && argv[at][0] == '-'; at++) {
		if (strcmp(argv[at], "--") == 0)
			return at + 1;
		for (i = 0; i < count && strcmp(argv[at], options[i].name); i++)
			;
		/* An unknown option, or one whose word is missing. */
		if (i == count || (options[i].word && at + 1 == argc))
			return -1;
		if (options[i].word)
			*options[i].word = argv[++at];
		else if (options[i].flag)
			*options[i].flag = true;
	}
	return at;
}

/* ---------------------------------------------------------------- commands that are separate programs */

enum { NAME_MOST = 64 };

/* A name has no slash, so that makhloeum-NAME is a file in the folders that are searched. */
static int is_name(const char *word)
{
	size_t size = strlen(word);
	return size > 0 && size <= NAME_MOST && strspn(word, "abcdefghijklmnopqrstuvwxyz0123456789-") == size;
}

/* The folder of this program, or "" if the system doesn't say. */
static void find_folder(char *folder, size_t size)
{
	ssize_t n = readlink("/proc/self/exe", folder, size - 1);
	folder[n > 0 ? n : 0] = 0;
	char *slash = strrchr(folder, '/');
	if (slash)
		*slash = 0;
}

/* Removes the last name of a path. Returns whether it had one: "." and ".." name another folder. */
static bool cut_name(char *path)
{
	char *slash = strrchr(path, '/');
	if (!slash || strcmp(slash, "/") == 0 || strcmp(slash, "/.") == 0 || strcmp(slash, "/..") == 0)
		return false;
	*slash = 0;
	return true;
}

/* The prefix by the path that started this program: its bin may be a link to a folder elsewhere. Returns whether the path names it. */
static bool find_prefix(char *prefix, size_t size)
{
	const char *path = (const char *)getauxval(AT_EXECFN);
	if (!path)
		return false;
	snprintf(prefix, size, "%s%s", path[0] == '/' ? "" : "./", path);
	return cut_name(prefix) && cut_name(prefix);
}

/* Replaces this process by makhloeum-NAME; words[0] is NAME and the others are its arguments. It looks in the folders of
   this installation (libexec/makhloeum beside the folder of this program, that folder, and libexec/makhloeum beside a link to it),
   then on PATH. It returns only if there is no such program, with the status, after an error message. */
static int subcommand_start(char **words)
{
	static const char *const places[] = { "/../libexec/makhloeum/", "/" };
	char folder[PATH_MAX], prefix[PATH_MAX + 2], file[PATH_MAX + 4 * NAME_MOST], program[2 * NAME_MOST];
	const char *name = words[0];
	if (!is_name(name)) {
		say("'%s' is not a command; makhloeum --help lists them", name);
		return REFUSED;
	}
	snprintf(program, sizeof program, "makhloeum-%s", name);
	find_folder(folder, sizeof folder);
	words[0] = program;
	/* execv returns only if it fails: then the next place is tried. */
	for (size_t i = 0; i < sizeof places / sizeof *places && folder[0]; i++) {
		snprintf(file, sizeof file, "%s%s%s", folder, places[i], program);
		execv(file, words);
	}
	if (find_prefix(prefix, sizeof prefix)) {
		snprintf(file, sizeof file, "%s/libexec/makhloeum/%s", prefix, program);
		execv(file, words);
	}
	int fault = execute(program, words);
	if (fault == ENOENT)
		say("'%s' is not a command, and there is no %s on PATH; makhloeum --help lists the commands", name, program);
	else
		say("%s cannot be started: %s", program, strerror(fault));
	return REFUSED;
}

/* Help, version and the separate programs come before have_streams: they open nothing. */
int main(int argc, char **argv)
{
	struct wishes w = { 0 };
	bool has_command = argc >= 2 && (strcmp(argv[1], "run") == 0 || strcmp(argv[1], "mount") == 0);
	if ((argc == 2 && asks(argv[1], "--help", "-h")) || (argc == 3 && has_command && asks(argv[2], "--help", "-h")))
		return show(help);
	/* as in cgshell, words behind it are ignored */
	if (argc >= 2 && asks(argv[1], "--version", "-V")) {
		char version[64];
		snprintf(version, sizeof version, "makhloeum %s\n", mk_version());
		return show(version);
	}
	if (argc >= 2 && !has_command)
		return argv[1][0] == '-' ? bad() : subcommand_start(argv + 1);
	/* only now: a command that is a separate program is told which of its streams are closed, and help says it */
	if (!have_streams()) {
		say("/dev/null cannot be opened: %s", strerror(errno));
		return REFUSED;
	}
	if (argc < 3)
		return bad();
	int at = read_options(argc, argv, 2, &w);
	if (strcmp(argv[1], "run") == 0)
		return at < 0 || at == argc || w.adopt || w.foreground ? bad() : run_program(argv + at, &w);
	if (at < 0 || at == argc || w.as_root || w.users || w.no_threads)
		return bad();
	const char *directory = argv[at];
	/* `mount` takes options before and behind the directory, `run` none behind the program, whose
	   options these are. */
	at = read_options(argc, argv, at + 1, &w);
	return at != argc || w.as_root || w.users || w.no_threads ? bad() : mount_directory(directory, &w);
}
