#include "server/freezer.h"
#include "common/growing_array.h"
#include "engine/engine.h"
#include "processes/members.h"
#include "processes/process_table.h"
#include "server/watch.h"
#include <errno.h>
#include <number_parser.h>
#include <stdint.h>
#include <stdio.h>
#include <string.h>
#include <sys/eventfd.h>
#include <unistd.h>

/* `freezing` of each process: whether it has to stop, whether it has stopped, and whether an order about it waits. */
enum { WANTED = 1, STOPPED = 2, ORDERED = 4 };

/* An eventfd; -1: a mount without a run, where no process stops. */
static int supervisor = -1;
static bool has_frozen; /* in a run 1 was written once: else no process has to stop */

/* A process has at most one order. So the list of all needs no memory, and an order is never lost for lack of it. */
static pid_t first_order, last_order;

static bool overdue; /* an undo could not be followed */

/* Before the server is forked: both processes have the descriptor. */
bool freezer_begin(int *wake)
{
	supervisor = eventfd(0, EFD_CLOEXEC | EFD_NONBLOCK);
	*wake = supervisor;
	return supervisor >= 0;
}

/* ---------------------------------------------------------------- groups */

static bool freezes_itself(const char *group)
{
	const struct group_state *r = group_state_find(group);
	return r && r->freezes;
}

/* Whether it or a group above it has to be frozen. The root has no file cgroup.freeze. */
static bool is_to_freeze(const char *group)
{
	char at[PATH_MAX_SAID];
	snprintf(at, sizeof at, "%s", group);
	for (; !is_root(at); go_up(at))
		if (freezes_itself(at))
			return true;
	return false;
}

/* For members_each: a number other than 0 ends the walk, at the first process that has not
   stopped. */
static int runs(pid_t pid, const char *group)
{
	(void)group;
	return !(process_at(pid)->freezing & STOPPED);
}

/* 1, 0 or -errno */
static int is_frozen(const char *group)
{
	if (!is_to_freeze(group))
		return 0;
	/* An empty group is frozen at once, as in the kernel. */
	int running = has_frozen ? members_each(group, false, runs) : 0;
	return running < 0 ? running : !running;
}

/* What was written to this group, whatever the groups above say. */
int freezer_show(const char *group, const struct file *file, char out[TEXT_ROOM])
{
	(void)file;
	snprintf(out, TEXT_ROOM, "%d\n", freezes_itself(group));
	return 0;
}

int freezer_text(const char *group, const struct file *file, const char **text, size_t size)
{
	/* With the lock. The last line of the engine's text always says `frozen 0`. It is copied first: to look at processes needs
	   the engine's other texts. */
	static char own[64];
	if (strcmp(file->name, "cgroup.events") != 0)
		return 0;
	memcpy(own, *text, size);
	*text = own;
	int frozen = is_frozen(group);
	if (frozen > 0)
		own[size - 2] = '1'; /* before its line feed */
	return frozen < 0 ? frozen : 0;
}

/* ---------------------------------------------------------------- orders */

/* The order says only whom it is about. What it is, freezer_order reads at the end: so it is
   always the newest. */
static void add_order(pid_t pid)
{
	struct process *p = process_at(pid);
	if (p->freezing & ORDERED)
		return;
	p->freezing |= ORDERED;
	p->next_order = 0;
	*(first_order ? &process_at(last_order)->next_order : &first_order) = pid;
	last_order = pid;
}

/* Only where it changes: then the process has not stopped yet, or is about to run again. An order about it stays. */
static void set_wanted(pid_t pid, bool stops)
{
	struct process *p = process_at(pid);
	p->freezing = (unsigned char)((p->freezing & ORDERED) | (stops ? WANTED : 0));
}

/* An order only where something changes. */
static void want(pid_t pid, bool to_freeze)
{
	if (to_freeze == !!(process_at(pid)->freezing & WANTED))
		return;
	add_order(pid);
	set_wanted(pid, to_freeze);
}

/* The supervisor then asks for the orders by its socket (freezer_order). */
static void wake(void)
{
	uint64_t one = 1;
	if (first_order && write(supervisor, &one, sizeof one) < 0) {
		/* it was woken and has not looked yet */
	}
}

/* The oldest order first. The supervisor asks until there is none: then it is about nobody, whose entry is empty. */
void freezer_order(pid_t *pid, bool *stop)
{
	WANTS_LOCK();
	struct process *p = process_at(first_order);
	*pid = first_order;
	first_order = p->next_order;
	p->freezing &= (unsigned char)~ORDERED;
	*stop = p->freezing & WANTED;
}

/* What to order: all of it is known before anything changes. */
static struct change {
	pid_t pid;
	bool to_freeze;
} * changes;
static size_t changes_count, changes_room;

static int note(pid_t pid, const char *group)
{
	struct change *more = growing_array_make_room(changes, changes_count + 1, &changes_room, sizeof *more);
	if (!more)
		return -ENOMEM;
	changes = more;
	changes[changes_count++] = (struct change){ pid, is_to_freeze(group) };
	return 0;
}

/* Orders all processes at and below a group, or none: 0 or -errno. First all that are meant are
   listed, which may find no memory, and then they are ordered, which cannot fail. */
static int order_all(const char *top)
{
	if (!has_frozen)
		return 0;
	changes_count = 0;
	int fault = members_each(top, false, note);
	if (fault)
		return fault;
	for (size_t i = 0; i < changes_count; i++)
		want(changes[i].pid, changes[i].to_freeze);
	wake();
	return 0;
}

void freezer_undone(void)
{
	WANTS_LOCK();
	overdue = order_all("/") != 0;
}

/* Called before an operation (run_processes_sweep). */
void freezer_catch_up(void)
{
	if (overdue)
		freezer_undone();
}

void freezer_moved(pid_t pid, const char *group)
{
	WANTS_LOCK();
	if (!has_frozen)
		return;
	want(pid, is_to_freeze(group));
	wake();
}

/* ---------------------------------------------------------------- events */

/* 0 or -errno. The write returns before the processes have stopped: the supervisor stops them. */
int freezer_write(const char *group, const struct file *file, const char *data, size_t size)
{
	char said[SAID_MAX];
	(void)file;
	int fault = written_value(A_SWITCH, data, size, said);
	struct group_state *r = fault ? NULL : group_state_make(group);
	if (!r)
		return fault ? fault : -ENOMEM;
	bool before = r->freezes;
	/* First, since order_all asks for it. If that fails, it is set back. */
	r->freezes = said[0] == '1';
	has_frozen |= r->freezes && supervisor >= 0;
	fault = order_all(group);
	if (fault)
		r->freezes = before;
	else
		watch_below(group);
	return fault;
}

bool freezer_born(pid_t pid, const char *group)
{
	WANTS_LOCK();
	bool stops = is_to_freeze(group);
	/* No order follows: the supervisor gets the answer with that of its question. */
	set_wanted(pid, stops);
	return stops;
}

/* An order that is left does not stop the next process of this number. */
void freezer_gone(pid_t pid)
{
	WANTS_LOCK();
	set_wanted(pid, false);
}

void freezer_told(pid_t pid, bool stopped)
{
	WANTS_LOCK();
	struct process *p = process_at(pid);
	/* A late message: meanwhile the process was thawed. */
	if (stopped && !(p->freezing & WANTED))
		return;
	p->freezing = (unsigned char)(stopped ? p->freezing | STOPPED : p->freezing & ~STOPPED);
	/* The line `frozen` of its group, or of one above, may have changed. */
	watch_process(pid);
}
