#include "processes/run_processes.h"
#include "channels/advance.h"
#include "common/cleanup.h"
#include "common/group_paths.h"
#include "common/kernel.h"
#include "engine/engine.h"
#include "processes/members.h"
#include "processes/process_table.h"
#include "processes/reservations.h"
#include "processes/tasks.h"
#include "processes/zombies.h"
#include "server/freezer.h"
#include "server/watch.h"
#include "values/controllers.h"
#include <errno.h>
#include <makhloeum.h>
#include <stdio.h>
#include <stdlib.h>
#include <string.h>

/* The engine's first process, in the root. Under `run` no real process has this number in the
   hierarchy. */
enum { PROCESS_ONE = 1 };

static size_t known_count; /* processes and threads that are not UNKNOWN */

/* It counts them, and may wrap around: only equality matters. */
static unsigned long operations; /* of the file system: each may change what was allowed */

static bool is_of_run(pid_t pid)
{
	return pid != PROCESS_ONE && is_pid(pid);
}

/* ---------------------------------------------------------------- before a birth */

/* 1 if one more does not fit into this group; 0 if it does; -errno if it can't be known, and then
   nothing may be made. Reservations count like processes, since each may become one at any moment. */
static int is_full(const char *group, bool with_reserved)
{
	uint64_t most, count;
	int fault = engine_limit(group, &most);
	if (fault || most == MK_NO_LIMIT)
		return fault;
	fault = engine_current(group, &count);
	return fault ? fault : count + (uint64_t)(with_reserved ? reservations_below(group) : 0) + 1 > most;
}

/* The root has no limit. */
static int is_any_full(const char *group, bool with_reserved)
{
	char at[PATH_MAX_SAID];
	int full = 0;
	snprintf(at, sizeof at, "%s", group);
	for (; full == 0 && !is_root(at); go_up(at))
		full = is_full(at, with_reserved);
	return full;
}

/* A number that no process has; or -ENOMEM. From the highest number down, where real processes are
   seldom. It is in use for this operation only. */
static pid_t free_number(pid_t below)
{
	char group[PATH_MAX_SAID];
	for (pid_t pid = below - 1; pid > PROCESS_ONE; pid--) {
		int fault = process_at(pid)->life == UNKNOWN ? engine_where(pid, group, sizeof group) : 0;
		if (fault)
			return fault == -ESRCH ? pid : fault;
	}
	return PROCESS_ONE;
}

/* The engine counts only a refusal that it makes itself. If only reservations fill the group,
   temporary processes take their places meanwhile. Each exits again before this returns. */
static int refuse(pid_t parent, const char *group)
{
	pid_t lowest = PIDS;
	int fault = engine_begin();
	if (fault)
		return fault;
	for (size_t left = reservations_count() + 1; left > 0 && fault == 0; left--) {
		lowest = free_number(lowest);
		fault = lowest < 0 ? lowest : engine_line("fork %d %d", parent, lowest);
		if (fault == 0)
			zombies_add_gone(lowest);
	}
	/* This sends the exits of the temporary processes, within the same operation. */
	zombies_sweep(false);
	engine_finish(0);
	/* The engine has counted the refusal: files of events have changed. */
	if (fault == -EAGAIN)
		watch_above(group);
	return fault == -ENOMEM ? -ENOMEM : -EAGAIN;
}

/* A line of a birth could not be kept. */
static bool trace_may_be_full;

enum { AS_LONG_AS_A_FORK = 64 };

/* That a fork's line can't be kept is noticed only when its child already exists. Afterwards a line that changes nothing,
   and that blanks make longer, is tried first, until one is kept. */
static bool has_room(pid_t parent)
{
	if (trace_may_be_full) {
		int fault = engine_line("where %d%*s", parent, AS_LONG_AS_A_FORK, "");
		trace_may_be_full = fault && fault != -ESRCH;
	}
	return !trace_may_be_full;
}

/* The group whose limits decide, if the process may make a child there. */
static int find_place(pid_t parent, const char *group, char at[PATH_MAX_SAID])
{
	int fault;
	snprintf(at, PATH_MAX_SAID, "%s", group ? group : "/");
	/* A group that is named may be gone, or may not take processes. */
	if (group)
		return (fault = engine_has_group(group)) ? fault : controllers_may_enter(group);
	fault = parent ? engine_where(parent, at, PATH_MAX_SAID) : -ESRCH;
	return fault == -ESRCH ? 0 : fault; /* if there is none, its own fork was undone */
}

/* What the supervisor has taken already stays allowed: its call is under way. */
static void allow_none(void)
{
	for (unsigned unused = advance_take_any(); unused; unused = advance_take_any())
		reservations_drop(unused);
}

void run_processes_operation(void)
{
	/* A birth that was allowed before this is checked again (put). */
	operations++;
	allow_none();
}

/* A process in this group has made a thread or a child: it may make some more without a question,
   if the limits allow that now. Room for its end comes first: an end must not fail. It stops where
   the limits, or memory, allow no more. */
static void allow_next(pid_t process, bool is_thread, const char *group)
{
	const struct reservation like = { .parent = process,
		.is_thread = is_thread,
		.in_advance = true,
		.allowed_in = operations };
	unsigned next;
	while (advance_wants(process, is_thread) && zombies_make_room(known_count + 2 * reservations_count() + 2) == 0 &&
		is_any_full(group, true) == 0 && reservations_add(&like, group, &next) == 0)
		reservations_drop(advance_give(process, is_thread, next));
}

/* The same with reservations, once what only seems to be there has left: what was allowed in
   advance, and zombies that were waited for. The cheap look comes first: most groups are not full. */
static int is_full_at_last(const char *group)
{
	int full = is_any_full(group, true);
	if (full <= 0)
		return full;
	allow_none();
	int fault = zombies_sweep(true);
	return fault ? fault : is_any_full(group, true);
}

/* Whether this process may make any child now: 0 or -errno. The room is for all that `refuse` makes: as many as there are reservations,
   and one more. */
static int may_make(pid_t parent)
{
	int fault = zombies_make_room(known_count + 2 * reservations_count() + 2);
	if (fault == 0)
		fault = zombies_sweep(false);
	if (fault)
		return fault;
	/* A process that a kill has reached makes no child, whatever it is answered: SIGKILL was sent with this lock. */
	bool is_known = is_of_run(parent) || parent == 0;
	return is_known && has_room(parent) ? 0 : -EAGAIN;
}

int run_processes_reserve(pid_t parent, const char *group, bool is_thread, unsigned *reservation)
{
	char at[PATH_MAX_SAID];
	int fault = may_make(parent);
	if (fault == 0)
		fault = find_place(parent, is_thread ? NULL : group, at);
	if (fault)
		return fault;
	/* A thread can't be in another group than its process. */
	if (is_thread && group && strcmp(group, at) != 0)
		return -EOPNOTSUPP;
	const struct reservation like = { .parent = parent,
		.elsewhere = group && !is_thread,
		.is_thread = is_thread,
		.allowed_in = operations };
	int full = is_full_at_last(at);
	if (full > 0) /* a child for another group is refused in that group, where nobody forks: no event is counted */
		return like.elsewhere ? -EAGAIN : refuse(parent, at);
	return full < 0 ? full : reservations_add(&like, at, reservation);
}

/* ---------------------------------------------------------------- births and deaths */

/* A move checks no limit, and process 1 is in the root, which has none: the child was allowed already. */
/* One operation of two lines: so an undo takes both back. If the group was removed meanwhile, the child has no place: -ENOENT, and it does
   not run. */
static int place(pid_t child, const char *group)
{
	int fault = engine_begin();
	if (fault)
		return fault;
	fault = engine_line("fork %d %d", PROCESS_ONE, child);
	if (fault == 0 && !is_root(group))
		fault = engine_line("write %s cgroup.procs %d", group, child);
	return engine_finish(fault);
}

/* Brings a child that was allowed into the hierarchy, and says into which group, and whether its parent is there. */
static int put(const struct reservation *r, pid_t child, char at[PATH_MAX_SAID], bool *has_parent)
{
	int fault;
	snprintf(at, PATH_MAX_SAID, "%s", r->group);
	*has_parent = r->parent && !r->elsewhere && r->allowed_in == operations;
	/* what allowed it is as it was; unless an undo has left its process without a number */
	if (*has_parent && (fault = engine_line("fork %d %d", r->parent, child)) != -ESRCH)
		return fault;
	fault = r->elsewhere || !r->parent ? -ESRCH : engine_where(r->parent, at, PATH_MAX_SAID);
	*has_parent = fault == 0;
	if (fault == -ENOMEM)
		return fault;
	/* the child was allowed already: if a group is full now, or that can't be known, it is placed past the limits */
	if (*has_parent && is_any_full(at, false) == 0)
		return engine_line("fork %d %d", r->parent, child);
	return place(child, at);
}

static int tell(const struct reservation *r, pid_t child, bool *frozen)
{
	char at[PATH_MAX_SAID];
	bool has_parent;
	if (!is_of_run(child) || !zombies_settle(child))
		return -EAGAIN;
	/* -ESRCH: the supervisor kills the child. */
	if (r->killed || process_at(r->parent)->life == DYING)
		return -ESRCH;
	/* whom its parent has waited for since the last question leaves first: else the peak would have both */
	int fault = r->in_advance ? zombies_sweep(false) : 0;
	if (fault == 0)
		fault = put(r, child, at, &has_parent);
	if (fault)
		return fault;
	struct process *c = process_at(child);
	/* The number may still be known as that of a process that a kill took out of the hierarchy. */
	known_count += c->life == UNKNOWN;
	c->life = LIVE;
	/* A group that was empty may be populated now. In the group of its parent, which is populated,
	   a child changes nothing. */
	if (!has_parent)
		watch_above(at);
	if (r->is_thread)
		tasks_add(child, r->parent);
	else
		tasks_begin_process(child);
	*frozen = freezer_born(child, at); /* of a thread nobody reads it: its process is ordered to stop */
	if (has_parent)
		allow_next(r->parent, r->is_thread, at);
	return 0;
}

int run_processes_born(unsigned reservation, pid_t child, bool *frozen)
{
	const struct reservation *r = reservations_find(reservation);
	if (!r)
		return -EAGAIN;
	bool is_first = r->parent == 0;
	int fault = tell(r, child, frozen);
	reservations_drop(reservation);
	/* All other errnos are those of a device that could not keep the line. */
	if (fault == 0 || fault == -ESRCH || fault == -ENOENT || fault == -ENOMEM)
		return fault;
	trace_may_be_full = true;
	allow_none();
	return is_first ? fault : -EAGAIN; /* of the first process a message tells, of others the errno of a fork */
}

/* Nobody waits for a thread. So it leaves the hierarchy at once. If the line can't be kept, it
   counts until a sweep keeps it. */
static void thread_ended(pid_t thread)
{
	struct process *t = process_at(thread);
	bool is_dying = t->life == DYING;
	t->life = UNKNOWN;
	known_count--;
	tasks_drop(thread);
	int fault = is_dying ? 0 : engine_line("exit %d", thread);
	if (fault && fault != -ESRCH) /* an undo may have taken its number */
		zombies_add_gone(thread);
}

void run_processes_exited(pid_t pid)
{
	char group[PATH_MAX_SAID];
	if (!is_of_run(pid) || process_at(pid)->life == UNKNOWN)
		return;
	if (tasks_is_thread(pid)) {
		thread_ended(pid);
		return;
	}
	struct process *p = process_at(pid);
	/* A killed process has left the hierarchy already, at the kill. */
	bool stands = p->life == LIVE && engine_where(pid, group, sizeof group) != -ESRCH;
	p->life = UNKNOWN;
	known_count--;
	freezer_gone(pid);
	/* else the next process of this number would have what this one was allowed in advance */
	for (unsigned unused = advance_take(pid, true); unused; unused = advance_take(pid, true))
		reservations_drop(unused);
	reservations_drop(advance_take(pid, false));
	if (!stands)
		return;
	/* It counts on, but is not listed: so `populated` may change. */
	zombies_add(pid);
	watch_process(pid);
}

/* ---------------------------------------------------------------- what else the file system needs */

int run_processes_sweep(void)
{
	freezer_catch_up();
	return zombies_sweep(true);
}

/* A program may write any number; a process that is not its own stays where it is. */
int run_processes_move(pid_t pid)
{
	/* As in the kernel: a move of a zombie succeeds and has no effect. */
	if (zombies_has(pid))
		return 1;
	if (pid == PROCESS_ONE)
		return -EPERM;
	return 0;
}

static int is_alive(pid_t pid, const char *group)
{
	(void)group;
	return !zombies_has(pid);
}

/* If a line fails, those that were moved stay above, where they count anyway. The list is copied,
   since each line replaces the engine's text. */
static int move_all(const char *group, const char *to)
{
	size_t size;
	int fault = engine_look("cat %s cgroup.procs", group);
	if (fault)
		return fault;
	const char *text = engine_text(&size);
	cleanup_free char *procs = strndup(text, size);
	if (!procs)
		return -ENOMEM;
	for (char *at = procs, *end; *at && fault == 0; at = end + (*end == '\n'))
		fault = engine_line("write %s cgroup.procs %ld", to, strtol(at, &end, 10));
	return fault;
}

int run_processes_leave(const char *group)
{
	char above[PATH_MAX_SAID];
	const char *names;
	size_t count;
	/* Without zombies the engine decides alone. */
	if (zombies_count() == 0)
		return 0;
	/* A group with groups below it can't be removed anyhow. */
	int fault = engine_children(group, &names, &count);
	if (fault || count)
		return fault;
	fault = members_each(group, true, is_alive);
	if (fault)
		return fault < 0 ? fault : 0;
	snprintf(above, sizeof above, "%s", group);
	go_up(above);
	return move_all(group, above);
}

bool run_processes_kill(pid_t pid)
{
	if (zombies_forget(pid) || process_at(pid)->life == UNKNOWN)
		return false;
	/* The engine's line takes all of them out. Real threads end with their process. */
	for (pid_t t = pid; t; t = tasks_next(t))
		process_at(t)->life = DYING;
	return true;
}
