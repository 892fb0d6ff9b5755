#include "server/mount_tables.h"
#include "channels/table_channel.h"
#include "common/cleanup.h"
#include "common/group_paths.h"
#include "engine/engine.h"
#include "server/cgroup_namespaces.h"
#include "server/control.h"
#include "server/open_files.h"
#include <errno.h>
#include <poll.h>
#include <stdio.h>
#include <stdlib.h>
#include <string.h>
#include <sys/epoll.h>
#include <sys/resource.h>
#include <unistd.h>

/* LONG: bytes of a path, of which a table escapes some by four. UNOPENED: a table that was given and not opened is dropped when so
   many others were given after it. SHARE: the part of its descriptors that the server has for tables. */
enum { LONG = 4096, ESCAPED = 4 * LONG, UNOPENED = 1024, SHARE = 4 };

/* ---------------------------------------------------------------- which there are */

/* A change is told once for each descriptor, when that is asked. So one is read and asked, and the
   other wakes who waits. `file` is read and asked, `bell` is in the epoll set. Both belong to this
   file. `opens`: how many open files show it. */
static struct table {
	struct table *next;
	struct given_table is;
	int file, bell;
	size_t opens;
	bool rings; /* the bell is watched */
} * all;
static size_t count;
static struct {
	long number;
	int fault;
} refused = { .number = -1 }; /* the last one for which there was no room */
/* It belongs to supervisor_questions.c. */
static int bells = -1; /* an epoll set */
/* The mount is being unmounted: libfuse's session may be gone. */
static bool ended;

static void drop(struct table **at)
{
	struct table *t = *at;
	*at = t->next;
	close(t->file);
	close(t->bell);
	free(t);
	count--;
}

/* The program chooses how many tables it opens, and the server needs descriptors for other things
   too. Each table has two. */
static bool has_room(void)
{
	struct rlimit most = { 0 };
	getrlimit(RLIMIT_NOFILE, &most); /* it cannot fail: there is such a limit */
	return 2 * count < most.rlim_cur / SHARE;
}

static void take_given(void)
{
	struct given_table given = { .number = 0 };
	int fds[2];
	/* It never waits. The descriptors are this function's: they go into a table, or are closed. */
	while (table_channel_take(&given, fds)) {
		bool room = has_room();
		struct table *t = room ? malloc(sizeof *t) : NULL;
		for (struct table **at = &all; *at;)
			if ((*at)->opens == 0 &&
				table_channel_count_of((*at)->is.number) + UNOPENED < table_channel_count_of(given.number))
				drop(at);
			else
				at = &(*at)->next;
		if (!t) {
			close(fds[0]);
			close(fds[1]);
			refused.number = given.number;
			refused.fault = room ? -ENOMEM : -ENFILE;
			continue;
		}
		*t = (struct table){ .next = all, .is = given, .file = fds[0], .bell = fds[1] };
		all = t;
		count++;
	}
}

static struct table **find(long number)
{
	struct table **at = &all;
	while (*at && (*at)->is.number != number)
		at = &(*at)->next;
	return at;
}

/* NULL and why, if there is none. What the helper sends comes before any program can name it: so
   what is there now has it. */
static struct table *get(long number, int *fault)
{
	WANTS_LOCK();
	take_given();
	struct table *t = *find(number);
	*fault = t ? 0 : refused.number == number ? refused.fault : -ENOENT;
	return t;
}

int mount_tables_find(long number)
{
	int fault;
	get(number, &fault);
	return fault;
}

int mount_tables_open(long number)
{
	int fault;
	struct table *t = get(number, &fault);
	if (t)
		t->opens++;
	return fault;
}

/* A table that was given and never opened goes by UNOPENED. */
void mount_tables_close(long number)
{
	struct table **at = find(number);
	WANTS_LOCK();
	if (*at && --(*at)->opens == 0)
		drop(at);
}

/* ---------------------------------------------------------------- the texts */

/* A word of a line, counted from 0. One blank ends each, and a source may be empty. It is cut where it is too long. False: there is no
   such word. */
static bool take_word(const char *line, int which, char *out, size_t size)
{
	for (; which > 0; which--) {
		line += strcspn(line, " ");
		if (!*line++)
			return false;
	}
	snprintf(out, size, "%.*s", (int)strcspn(line, " "), line);
	return true;
}

/* A path as a table has it. Of the bytes that a name of a group may have, the kernel escapes one. */
static void escape(const char *path, char out[ESCAPED])
{
	for (; *path; path++)
		if (*path == '\\')
			out = stpcpy(out, "\\134");
		else
			*out++ = *path;
	*out = 0;
}

/* A line of mountinfo without its end. The mount's root is shown relative to the root of the reader's namespace. */
/* The fourth word is the mount's root: the path of a group, or of a file in one. */
static void put_info(FILE *out, const char *line, const char *root)
{
	char group[ESCAPED], above[ESCAPED], seen[LONG];
	size_t before = 0;
	for (int i = 0; i < 3; i++)
		before += strcspn(line + before, " ") + 1;
	if (!take_word(line, 3, group, sizeof group))
		return;
	escape(root, above);
	seen_from(above, group, seen);
	fprintf(out, "%.*s%s%s - cgroup2 cgroup2 rw\n", (int)before, line, seen, line + before + strlen(group));
}

/* A line of mounts. Its options are those of the mount, and then those of FUSE, of which user_id is the first. */
static void put_entry(FILE *out, const char *line, const char *place)
{
	char options[LONG] = "";
	(void)take_word(line, 3, options, sizeof options); /* it is there: the words before it were found */
	char *of_fuse = strstr(options, ",user_id=");
	if (of_fuse)
		*of_fuse = 0;
	fprintf(out, "cgroup2 %s cgroup2 %s 0 0\n", place, options);
}

/* Which words of a line are the place, the type and the source; those of mountinfo are counted from the blank before its dash on. */
static const struct form {
	const char *what;
	int place, type, source;
} forms[] = { { "mounts", 1, 2, 0 }, { "mountinfo", 4, 2, 3 }, { "mountstats", 4, 7, 1 } };

static const struct form *form_of(const char *what)
{
	const struct form *f = forms;
	while (strcmp(f->what, what))
		f++;
	return f;
}

struct line {
	char *tail; /* of mountinfo: from its dash on */
	char place[ESCAPED], type[64], source[64];
};

/* False for a line in a form that is not known: it is shown as it is. */
static bool read_line(char *line, const struct form *f, struct line *out)
{
	out->tail = f == &forms[1] ? strstr(line, " - ") : line;
	return out->tail && take_word(line, f->place, out->place, sizeof out->place) &&
		take_word(out->tail, f->type, out->type, sizeof out->type) &&
		take_word(out->tail, f->source, out->source, sizeof out->source);
}

/* The type is what run_namespaces_mount has asked for. */
static bool is_hierarchy(const struct line *l)
{
	return strcmp(l->type, "fuse.cgroup2") == 0 && strcmp(l->source, cgroup_source) == 0;
}

static bool is_machines(const struct line *l)
{
	return strcmp(l->type, "cgroup") == 0 || strcmp(l->type, "cgroup2") == 0;
}

/* The place where the hierarchy is mounted first. */
static bool is_usual(const struct line *l)
{
	return strcmp(l->place, cgroup_mount) == 0;
}

/* Ends each line by a zero byte. Returns the first that is the hierarchy at its usual place, if some of the machine's own are listed
   too; else NULL, as in a container that has changed its root. */
static const char *split(char *kernels, const struct form *f)
{
	const char *found = NULL;
	bool machines = false;
	struct line l;
	for (char *rest = kernels, *line; (line = strsep(&rest, "\n"));) {
		bool known = read_line(line, f, &l);
		machines |= known && is_machines(&l);
		if (!found && known && is_hierarchy(&l) && is_usual(&l))
			found = line;
	}
	return machines ? found : NULL;
}

/* One line: the mount as the kernel would show a cgroup2 mount. The machine's own are left out, and so is the tmpfs in which it has
   those of version 1: the hierarchy, `first`, covers that. One that the program mounts is above the hierarchy, so it comes later. */
static void put_mount(FILE *out, char *line, const struct form *f, const char *root, const char *first)
{
	bool is_info = f == &forms[1], is_stats = f == &forms[2];
	struct line l;
	if (!read_line(line, f, &l)) {
		fprintf(out, "%s\n", line);
		return;
	}
	if (is_machines(&l))
		return;
	if (strcmp(l.type, "tmpfs") == 0 && is_usual(&l) && first && line < first)
		return;
	if (!is_hierarchy(&l))
		fprintf(out, "%s\n", line);
	else if (is_info) {
		*l.tail = 0;
		put_info(out, line, root);
	} else if (is_stats)
		fprintf(out, "device cgroup2 mounted on %s with fstype cgroup2\n", l.place);
	else
		put_entry(out, line, l.place);
}

/* The whole of the kernel's table, ended by a zero byte. 0 or -errno */
static int read_kernels(int file, char **out)
{
	size_t size = 0, room = 0;
	ssize_t n;
	do {
		if (size + 1 >= room) {
			size_t more = room ? 2 * room : 2 * LONG;
			char *at = realloc(*out, more);
			if (!at)
				return -ENOMEM;
			*out = at;
			room = more;
		}
		/* The kernel gives a table in parts, and makes each when it is read. A mount that comes in
		   between may be missing, as for any reader. */
		n = pread(file, *out + size, room - 1 - size, (off_t)size);
		size += n > 0 ? (size_t)n : 0;
	} while (n > 0);
	(*out)[size] = 0;
	return n < 0 ? -errno : 0;
}

/* With the lock: the kernel makes the text from its own memory, and waits for no file system. */
int mount_tables_read(long number, int (*keep)(void *, const char *, size_t), void *to)
{
	cleanup_free char *kernels = NULL, *text = NULL;
	size_t size = 0;
	int fault;
	const struct table *t = get(number, &fault);
	if (!t)
		return fault;
	fault = read_kernels(t->file, &kernels);
	/* It grows by itself. That it had no memory is seen at the end. */
	FILE *out = fault ? NULL : open_memstream(&text, &size);
	if (!out)
		return fault ? fault : -ENOMEM;
	const char *end = kernels + strlen(kernels);
	const struct form *form = form_of(t->is.what);
	const char *first = split(kernels, form);
	for (char *line = kernels, *next; line < end; line = next) {
		next = line + strlen(line) + 1; /* before the line is changed */
		put_mount(out, line, form, cgroup_namespaces_root(t->is.space), first);
	}
	bool incomplete = ferror(out);
	incomplete |= fclose(out) != 0;
	return incomplete || !text ? -ENOMEM
							   : keep(to, text, size); /* no text: its end had no memory, and fclose says nothing */
}

/* ---------------------------------------------------------------- polls */

void mount_tables_ring_in(int set)
{
	bells = set;
}

/* The thread of supervisor_questions.c calls it. */
void mount_tables_ring(long number)
{
	WANTS_LOCK();
	if (!ended)
		open_files_wake_control(CONTROL_TABLE + number);
}

int mount_tables_poll(long number, unsigned *told)
{
	int fault;
	struct table *t = get(number, &fault);
	if (!t)
		return fault;
	struct epoll_event changes = { .events = EPOLLPRI, .data.u64 = (uint64_t)number };
	if (!t->rings && epoll_ctl(bells, EPOLL_CTL_ADD, t->bell, &changes) &&
		errno != EPERM) /* mountstats has no changes */
		return -ENOMEM;
	t->rings = true;
	/* after that: a change in between rings, and one before is seen here */
	struct pollfd file = { .fd = t->file, .events = POLLIN | POLLRDNORM | POLLPRI };
	/* It never waits. The kernel reports a change once for each descriptor, and the answer takes
	   it. */
	poll(&file, 1, 0);
	*told = (unsigned)file.revents;
	return 0;
}

/* With the lock: a thread that rings has it too, so none rings after this. */
void mount_tables_end(void)
{
	engine_lock();
	ended = true;
	engine_unlock();
}
