#include "values/controllers.h"
#include "engine/engine.h"
#include "processes/visible_processes.h"
#include "server/open_files.h"
#include "values/scan.h"
#include "values/values.h"
#include <errno.h>
#include <makhloeum.h>
#include <stdio.h>
#include <string.h>

/* Threads of one process could be in different groups of these controllers: a group with processes may enable them for its
   children. */
enum { FOR_THREADS = HAS_CPUSET | HAS_CPU | HAS_PIDS };

static const struct {
	const char *name;
	unsigned bit;
} names[] = { { "cpuset", HAS_CPUSET }, { "cpu", HAS_CPU }, { "io", HAS_IO }, { "memory", HAS_MEMORY },
	{ "pids", HAS_PIDS } };
enum { NAMES = sizeof names / sizeof *names };

/* The controllers of --keep. Set before the mount, and not changed afterwards. 0: controllers
   can't be switched. */
static unsigned kept;

/* 0 for an unknown name. */
static unsigned bit_of(const char *name, size_t size)
{
	for (size_t i = 0; i < NAMES; i++)
		if (strlen(names[i].name) == size && strncmp(names[i].name, name, size) == 0)
			return names[i].bit;
	return 0;
}

/* The part before each comma is one name. False leaves `kept` half read: the caller ends then. */
bool controllers_keep(const char *said)
{
	do {
		size_t size = strcspn(said, ",");
		unsigned bit = bit_of(said, size);
		/* pids is always there, and can't be kept. */
		if (!(bit & ~(unsigned)HAS_PIDS))
			return false;
		kept |= bit;
		said += size;
	} while (*said++ == ',');
	return true;
}

unsigned controllers_kept(void)
{
	return kept;
}

/* ---------------------------------------------------------------- what a group has */

/* At first none is enabled. */
static unsigned subtree_of(const char *group)
{
	const struct group_state *r = group_state_find(group);
	return !kept ? HAS_PIDS : r ? r->subtree : 0;
}

/* A group has what its parent enables for its children; the root has all. */
static unsigned available(const char *group)
{
	char above[PATH_MAX_SAID];
	if (is_root(group))
		return kept | HAS_PIDS;
	snprintf(above, sizeof above, "%s", group);
	go_up(above);
	return subtree_of(above);
}

bool controllers_have(const char *group, const struct file *file)
{
	return !file->controller || file->controller & available(group);
}

/* The text of a file of the engine, without zombies. 0 or -errno. It is the engine's buffer, or
   that of visible_processes: valid until the next look. */
static int text_of(const char *group, const char *name, const char **text, size_t *size)
{
	int fault = engine_look("cat %s %s", group, name);
	if (fault)
		return fault;
	*text = engine_text(size);
	return visible_processes_text(group, file_named(name, is_root(group)), text, size);
}

/* These questions, and those below, are answered by 1, 0 or -errno. */
/* Zombies are left out: they are in no list of the kernel. */
static int has_processes(const char *group)
{
	const char *text;
	size_t size;
	int fault = text_of(group, "cgroup.procs", &text, &size);
	return fault ? fault : size > 0;
}

static int is_populated(const char *group)
{
	const char *text;
	size_t size;
	int fault = text_of(group, "cgroup.events", &text, &size);
	return fault ? fault : strncmp(text, "populated 1", 11) == 0;
}

/* Calls `ask` for each of these children, until one returns something other than 0. */
static int each_of(const char *group, const char *children, size_t count, int (*ask)(const char *child, unsigned which),
	unsigned which)
{
	char child[PATH_MAX_SAID];
	int answer = 0;
	for (; answer == 0 && count--; children += strlen(children) + 1) {
		/* A child's path always fits: the engine refuses longer ones. */
		snprintf(child, sizeof child, "%s/%s", is_root(group) ? "" : group, children);
		answer = ask(child, which);
	}
	return answer;
}

static int each_child(const char *group, int (*ask)(const char *child, unsigned which), unsigned which)
{
	const char *children;
	size_t count;
	int fault = engine_children(group, &children, &count);
	return fault ? fault : each_of(group, children, count, ask, which);
}

static int ask_populated(const char *child, unsigned unused)
{
	(void)unused;
	return is_populated(child);
}

/* Whether the child passes any of these controllers on to its own children. */
static int ask_shares(const char *child, unsigned which)
{
	return (subtree_of(child) & which) != 0;
}

/* ---------------------------------------------------------------- processes and children in one group */

/* In the kernel's words: a group with processes that enables such controllers for its children is the root of a threaded
   subtree, and the groups below it are not domains. Threads are not in groups of their own here, but that much is visible.
    */
static int is_thread_root(const char *group)
{
	return is_root(group) || !(subtree_of(group) & FOR_THREADS) ? 0 : has_processes(group);
}

/* The root always can. Another group can while it enables only controllers for threads and no
   child is populated. */
static int can_be_thread_root(const char *group)
{
	if (is_root(group) || subtree_of(group) & ~(unsigned)FOR_THREADS)
		return is_root(group);
	int populated = each_child(group, ask_populated, 0);
	return populated < 0 ? populated : !populated;
}

/* Below the root of a threaded subtree no group is one. */
static int is_domain(const char *group)
{
	char at[PATH_MAX_SAID];
	int above = 0;
	snprintf(at, sizeof at, "%s", group);
	while (above == 0 && !is_root(at)) {
		go_up(at);
		above = is_thread_root(at);
	}
	return above < 0 ? above : !above;
}

int controllers_may_enter(const char *group)
{
	/* Without --keep any group may have processes, whatever is below it. */
	if (!kept)
		return 0;
	int domain = is_domain(group);
	if (domain <= 0)
		return domain ? domain : -EOPNOTSUPP;
	/* EBUSY is the kernel's for the rule that a group with processes has no controllers for its
	   children. */
	int can = subtree_of(group) ? can_be_thread_root(group) : 1;
	return can < 0 ? can : can ? 0 : -EBUSY;
}

/* 0 or the errno of the kernel, which checks in this order: the kind of the group, then its
   processes. */
static int may_enable(const char *group, unsigned which)
{
	if (!which)
		return 0;
	int domain = is_domain(group), inner;
	if (domain <= 0)
		return domain ? domain : -EOPNOTSUPP;
	if (is_root(group))
		return 0;
	if (which & ~(unsigned)FOR_THREADS) {
		if ((inner = is_thread_root(group)))
			return inner < 0 ? inner : -EOPNOTSUPP;
	} else if ((inner = can_be_thread_root(group)))
		return inner < 0 ? inner : 0;
	inner = has_processes(group);
	return inner > 0 ? -EBUSY : inner;
}

/* ---------------------------------------------------------------- cgroup.controllers, cgroup.subtree_control */

/* Without a controller the text has no line feed either. */
static void show(unsigned which, char out[TEXT_ROOM])
{
	size_t n = 0;
	for (size_t i = 0; i < NAMES; i++)
		if (which & names[i].bit)
			n += (size_t)snprintf(out + n, TEXT_ROOM - n, "%s%s", n ? " " : "", names[i].name);
	snprintf(out + n, TEXT_ROOM - n, "%s", n ? "\n" : "");
}

/* What the group may enable for its children. */
int controllers_show(const char *group, const struct file *file, char out[TEXT_ROOM])
{
	(void)file;
	show(available(group), out);
	return 0;
}

/* What it has enabled. */
int subtree_show(const char *group, const struct file *file, char out[TEXT_ROOM])
{
	(void)file;
	show(subtree_of(group), out);
	return 0;
}

/* Reads +NAME and -NAME with blanks between; the last mention of a name counts. */
/* 0 or -EINVAL, for a word without a sign or of a controller that is not kept. */
static int read_change(char *text, unsigned *enable, unsigned *disable)
{
	char *rest = text, *word;
	*enable = *disable = 0;
	/* Two blanks give an empty word. */
	while ((word = strsep(&rest, " "))) {
		if (!*word)
			continue;
		unsigned bit = bit_of(word + 1, strlen(word + 1)) & (kept | HAS_PIDS);
		if (!bit || (*word != '+' && *word != '-'))
			return -EINVAL;
		*enable = *word == '+' ? *enable | bit : *enable & ~bit;
		*disable = *word == '-' ? *disable | bit : *disable & ~bit;
	}
	return 0;
}

/* A child loses these controllers: their values are dropped, and their open files are of no group any more. */
static int forget_in(const char *child, unsigned which)
{
	struct group_state *r = group_state_find(child);
	if (r) {
		values_forget(r, which);
		open_files_lose_files(r, which);
	}
	return 0;
}

/* A limit that is `max` already needs no line. */
static int lift_limit(const char *child, unsigned unused)
{
	uint64_t limit;
	(void)unused;
	int fault = engine_limit(child, &limit);
	return fault || limit == MK_NO_LIMIT ? fault : engine_line("write %s pids.max max", child);
}

/* The engine's limits of all children become `max`, or none does. */
static int lift_limits(const char *group, const char *children, size_t count)
{
	int fault = engine_begin();
	return fault ? fault : engine_finish(each_of(group, children, count, lift_limit, 0));
}

/* All that can fail comes first. Dropping values cannot fail. */
static int set_subtree(const char *group, unsigned which, unsigned lost)
{
	const char *children = "";
	size_t count = 0;
	struct group_state *r = group_state_make(group);
	int fault = !r ? -ENOMEM : lost ? engine_children(group, &children, &count) : 0;
	if (fault == 0 && lost & HAS_PIDS)
		fault = lift_limits(group, children, count);
	if (fault == 0) {
		each_of(group, children, count, forget_in, lost);
		r->subtree = which;
	}
	return fault;
}

/* The first controller, in the kernel's order, that cannot be changed decides the errno. */
/* ENOENT: the group lacks the controller. EBUSY: a child passes it on. */
static int may_change(const char *group, unsigned enable, unsigned disable)
{
	int shares = 0;
	for (size_t i = 0; i < NAMES && shares == 0; i++) {
		unsigned bit = names[i].bit;
		if (enable & bit & ~available(group))
			return -ENOENT;
		shares = disable & bit ? each_child(group, ask_shares, bit) : 0;
	}
	if (shares)
		return shares < 0 ? shares : -EBUSY;
	return may_enable(group, enable);
}

/* What is so already is no change, and can't be refused. */
static int change(const char *group, unsigned enable, unsigned disable)
{
	unsigned now = subtree_of(group);
	enable &= ~now;
	disable &= now;
	int fault = may_change(group, enable, disable);
	return fault ? fault : set_subtree(group, (now | enable) & ~disable, disable);
}

/* A file that accepts its current value and nothing else. */
static int take_unchanged(const char *text, const char *unchanged)
{
	return !*text || strcmp(text, unchanged) == 0 ? 0 : -EOPNOTSUPP;
}

/* A write changes all that it names, or nothing. */
int subtree_write(const char *group, const struct file *file, const char *data, size_t size)
{
	char text[TEXT_ROOM + 1];
	unsigned enable, disable;
	(void)file;
	if (size > TEXT_ROOM)
		return -E2BIG;
	memcpy(text, data, size);
	text[size] = 0;
	char *said = strip_spaces(text);
	/* Without --keep every group has pids, and a program may say so. */
	if (!kept)
		return take_unchanged(said, "+pids");
	int fault = read_change(said, &enable, &disable);
	return fault ? fault : change(group, enable, disable);
}

/* ---------------------------------------------------------------- cgroup.type */

/* Without --keep every group is a domain. */
static int type_of(const char *group, const char **type)
{
	int domain = kept ? is_domain(group) : 1;
	int inner = kept && domain > 0 ? is_thread_root(group) : 0;
	/* An errno leaves the text unused. */
	*type = !domain ? "domain invalid" : inner ? "domain threaded" : "domain";
	return domain < 0 ? domain : inner < 0 ? inner : 0;
}

int type_show(const char *group, const struct file *file, char out[TEXT_ROOM])
{
	const char *type;
	(void)file;
	int fault = type_of(group, &type);
	snprintf(out, TEXT_ROOM, "%s\n", type);
	return fault;
}

/* There are no threaded groups. */
int type_write(const char *group, const struct file *file, const char *data, size_t size)
{
	char text[TEXT_ROOM + 1];
	const char *type;
	(void)file;
	if (size > TEXT_ROOM)
		return -E2BIG;
	memcpy(text, data, size);
	text[size] = 0;
	int fault = type_of(group, &type);
	return fault ? fault : take_unchanged(strip_spaces(text), type);
}
