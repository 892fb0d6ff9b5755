#include "server/control.h"
#include "common/bounds.h"
#include "engine/engine.h"
#include "engine/undo_steps.h"
#include "server/cgroup_namespaces.h"
#include "server/freezer.h"
#include "server/mount_tables.h"
#include "server/operations.h"
#include "server/watch.h"
#include <errno.h>
#include <limits.h>
#include <number_parser.h>
#include <signal.h>
#include <stdio.h>
#include <stdlib.h>
#include <string.h>

const char control_directory[] = ".makhloeum";

/* Their numbers are also their places in `files`. */
enum { UNDO, FORGET, DEPTH, NEWEST, TRACE, FORK, EXIT };

static const struct {
	const char *name;
	mode_t mode;
	/* Without a history the file does not exist. */
	bool of_history;
} files[CONTROL_FILES] = {
	[UNDO] = { "undo", 0200, true },
	[FORGET] = { "forget", 0200, true },
	[DEPTH] = { "depth", 0444, true },
	[NEWEST] = { "newest", 0444, true },
	[TRACE] = { "trace", 0444, true },
	[FORK] = { "fork", 0200, false },
	[EXIT] = { "exit", 0200, false },
};

/* A file /.makhloeum.PID.SPACE, which exists under `run` and is not listed. It has the text of /proc/PID/cgroup as a reader in that
   cgroup namespace sees it; for process 0, the root of that namespace. */
struct where {
	pid_t process;
	unsigned space;
};

/* Only digits: a sign or a blank would be other spellings of one number. */
static bool find_where(const char *path, struct where *out)
{
	size_t n = sizeof control_directory - 1;
	if (!look.marked || strncmp(path + 1, control_directory, n) || path[n + 1] != '.')
		return false;
	char *end;
	const char *digits = "0123456789";
	if (!strchr(digits, path[n + 2]) || !path[n + 2])
		return false;
	unsigned long pid = strtoul(path + n + 2, &end, 10), space = 0;
	if (*end == '.' && end[1] && strchr(digits, end[1]))
		space = strtoul(end + 1, &end, 10);
	if (*end || pid >= PIDS || space > UINT_MAX)
		return false;
	*out = (struct where){ (pid_t)pid, (unsigned)space };
	return true;
}

/* The kernel knows a file by one number, and here by nothing else. The pid and the space fit:
   CONTROL_TABLE is above all of these numbers. */
static long number_of_where(struct where w)
{
	return CONTROL_WHERE + (long)w.space * PIDS + w.process;
}

static struct where where_of_number(long file)
{
	long number = file - CONTROL_WHERE;
	return (struct where){ (pid_t)(number % PIDS), (unsigned)(number / PIDS) };
}

/* The number of a mount table; -1. */
/* 18 digits: such a number fits into a `long`. */
static long table_of(const char *path)
{
	long number;
	int end = 0;
	return look.marked && sscanf(path, "/.makhloeum.t.%18ld%n", &number, &end) == 1 && !path[end] ? number : -1;
}

static bool is_context(const char *path)
{
	return look.marked && strcmp(path, "/.makhloeum.f") == 0;
}

static bool is_hidden(const char *path)
{
	return look.marked && strcmp(path, "/.makhloeum.d") == 0;
}

/* Such a path is never a group's: a mkdir there fails, and a look-up asks control_find. */
bool control_has(const char *path)
{
	struct where unused;
	size_t n = sizeof control_directory - 1;
	if (find_where(path, &unused) || table_of(path) >= 0 || is_context(path) || is_hidden(path))
		return true;
	/* A run without --control has no such directory: its program must not write exits. */
	if (look.marked && !look.history)
		return false;
	return strncmp(path + 1, control_directory, n) == 0 && (path[n + 1] == 0 || path[n + 1] == '/');
}

/* The path begins with the directory's name, or is that of a hidden file. */
long control_find(const char *path)
{
	const char *name = path + sizeof control_directory;
	long table = table_of(path);
	if (table >= 0) {
		int fault = mount_tables_find(table);
		return fault ? fault : CONTROL_TABLE + table;
	}
	struct where where;
	if (find_where(path, &where))
		return number_of_where(where);
	if (is_context(path))
		return CONTROL_CONTEXT;
	if (is_hidden(path)) { /* the helper finds it before the program runs, and nobody after that */
		static bool was_found;
		bool is_first = !was_found;
		was_found = true;
		return is_first ? CONTROL_HIDDEN : -ENOENT;
	}
	if (*name == 0)
		return CONTROL_ITSELF;
	for (int i = 0; i < CONTROL_FILES; i++)
		if (control_is_there(i) && strcmp(name + 1, files[i].name) == 0)
			return i;
	return -ENOENT;
}

const char *control_name(long file)
{
	return files[file].name;
}

bool control_is_there(long file)
{
	return look.history || !files[file].of_history;
}

mode_t control_mode(long file)
{
	if (file < CONTROL_FILES)
		return files[file].mode;
	return file == CONTROL_CONTEXT ? 0600 : 0444;
}

/* A process that no supervisor knows is in the root, like all others of the machine. */
/* The two texts differ: that of a process is as in /proc, and that of a namespace is its root in
   the hierarchy. */
static int read_where(struct where w, int (*keep)(void *, const char *, size_t), void *to)
{
	char group[PATH_MAX_SAID] = "/", seen[PATH_MAX_SAID], text[PATH_MAX_SAID + 8];
	const char *root = cgroup_namespaces_root(w.space);
	/* -ESRCH leaves "/". */
	int fault = w.process ? engine_where(w.process, group, sizeof group) : 0;
	if (fault == -ENOMEM)
		return fault;
	/* The engine has one that was waited for until the next operation, and has none of the machine's others. */
	if (w.process && kill(w.process, 0) && errno == ESRCH)
		return -ESRCH;
	seen_from(root, group, seen);
	int size = snprintf(text, sizeof text, "0::%s\n", w.process ? seen : root);
	return keep(to, text, (size_t)size);
}

/* Keeps the recorded commands from a place on. */
static int read_history(size_t from, int (*keep)(void *, const char *, size_t), void *to)
{
	const char *text;
	size_t size;
	int fault = engine_history(from, &text, &size);
	return fault ? fault : keep(to, text, size);
}

/* 0 or -errno. EINVAL: the file can only be written. */
int control_read(long file, int (*keep)(void *, const char *, size_t), void *to)
{
	char text[32];
	size_t depth;
	WANTS_LOCK();
	if (file >= CONTROL_TABLE)
		return mount_tables_read(file - CONTROL_TABLE, keep, to);
	if (file >= CONTROL_WHERE)
		return read_where(where_of_number(file), keep, to);
	/* As the kernel's descriptor of fsopen, from which messages are read. */
	if (file == CONTROL_CONTEXT) /* there is no message about its mount */
		return -ENODATA;
	depth = engine_depth();
	switch (file) {
	case DEPTH:
		snprintf(text, sizeof text, "%zu\n", undo_steps_count(depth));
		return keep(to, text, strlen(text));
	case NEWEST:
		return read_history(undo_steps_newest(depth), keep, to);
	case TRACE:
		return read_history(0, keep, to);
	default:
		return -EINVAL;
	}
}

/* The words of a command, as the engine writes it: one blank between two of them, and a line feed at the end. */
enum { WORDS = 4 };

static void split(char *command, const char *words[WORDS])
{
	for (int i = 0; i < WORDS; i++) {
		words[i] = command;
		command += strcspn(command, " \n");
		if (*command)
			*command++ = 0;
	}
}

/* Notifies those whom an undo concerns: `command` is the undone command. */
/* An undo that changes no group and no process tells nobody. */
static void tell_undone(const char *command, size_t size)
{
	char text[2 * PATH_MAX_SAID];
	const char *words[WORDS];
	snprintf(text, sizeof text, "%.*s", (int)size, command);
	split(text, words);
	const char *verb = words[0], *group = words[1], *file = words[2], *value = words[3], *process = words[1];
	/* The group is gone, although nobody removed it. */
	if (strcmp(verb, "mkdir") == 0)
		group_state_lose(group);
	else if (strcmp(verb, "write") == 0 && strcmp(file, "cgroup.kill") == 0)
		watch_below(group);
	else if (strcmp(verb, "write") == 0 && strcmp(file, "cgroup.procs") == 0) {
		watch_above(group);
		watch_process((pid_t)strtol(value, NULL, 10));
	} else if (strcmp(verb, "fork") == 0 || strcmp(verb, "exit") == 0)
		watch_process((pid_t)strtol(process, NULL, 10));
}

/* Undoes the newest operation. If a line of it fails, what is left of it is the newest from now on. */
/* One operation of the program may be several commands. The engine undoes them one by one, from
   the newest. */
static int undo_newest(void)
{
	int fault = 0;
	for (size_t size, until = undo_steps_newest(engine_depth()); fault == 0 && engine_depth() > until;) {
		fault = engine_line("undo");
		const char *command = engine_text(&size);
		if (fault == 0)
			tell_undone(command, size);
	}
	/* Also after a fault: the steps must fit the commands that are left. */
	undo_steps_cut(engine_depth());
	/* An undo may have moved processes into or out of frozen groups. */
	freezer_undone();
	return fault;
}

/* Undoes the newest `count` operations. If there are fewer, it undoes none. */
static int undo(unsigned long count)
{
	int fault = 0;
	if (count > undo_steps_count(engine_depth()))
		return -ENODATA;
	while (count-- && fault == 0)
		fault = undo_newest();
	return fault;
}

/* Such a process is a number only. */
static int control_fork(unsigned long parent, unsigned long child)
{
	int fault = engine_line("fork %lu %lu", parent, child);
	/* A fork that was refused is counted, in a file that may be watched. */
	if (fault == 0 || fault == -EAGAIN)
		watch_process((pid_t)parent);
	return fault;
}

static int control_exit(unsigned long pid)
{
	char group[PATH_MAX_SAID];
	int fault = engine_where((long)pid, group, sizeof group);
	if (fault == -ENOMEM)
		return fault;
	/* Its group is read before the exit, after which it has none. What is not there has no exit. */
	fault = engine_line("exit %lu", pid);
	if (fault == 0)
		watch_above(group);
	return fault;
}

/* How many numbers there are; -EINVAL for more than `most`, and for anything but digits and blanks. */
int control_numbers(const char *data, size_t size, unsigned long out[], int most)
{
	int count = 0;
	for (size_t i = 0; i < size && data[i];) {
		if (is_space(data[i])) {
			i++;
			continue;
		}
		if (count == most)
			return -EINVAL;
		/* A number beyond 64 bits is still a number: it becomes the greatest one, which is beyond all that it can mean. */
		unsigned long n = 0;
		bool too_large = false;
		for (; i < size && data[i] && !is_space(data[i]); i++) {
			if (data[i] < '0' || data[i] > '9')
				return -EINVAL;
			if (__builtin_mul_overflow(n, 10UL, &n) || __builtin_add_overflow(n, (unsigned long)(data[i] - '0'), &n))
				too_large = true;
		}
		out[count++] = too_large ? ULONG_MAX : n;
	}
	return count;
}

/* EINVAL for a file that can only be read, and for numbers that it does not take. */
int control_write(long file, const char *data, size_t size)
{
	unsigned long said[2];
	WANTS_LOCK();
	int count = control_numbers(data, size, said, 2);
	/* No number means the newest operation. */
	if (file == UNDO && count >= 0 && count <= 1)
		return undo(count ? said[0] : 1);
	if (file == FORGET && count == 0) {
		engine_forget();
		return 0;
	}
	if (file == FORK && count == 2)
		return control_fork(said[0], said[1]);
	if (file == EXIT && count == 1)
		return control_exit(said[0]);
	return -EINVAL;
}
