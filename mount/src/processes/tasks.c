#include "processes/tasks.h"
#include "common/group_paths.h"
#include "common/kernel.h"
#include "engine/engine.h"
#include "processes/process_table.h"
#include <errno.h>

struct process process_table[PIDS];

/* The threads of a process that have not ended are a ring that begins and ends at the process. */

static bool any; /* there was a thread once: until then no list has to be shortened */

/* The number may have been that of a thread before. */
void tasks_begin_process(pid_t process)
{
	WANTS_LOCK();
	struct process *p = process_at(process);
	p->thread_of = p->next_thread = p->thread_before = 0;
}

void tasks_add(pid_t thread, pid_t process)
{
	WANTS_LOCK();
	struct process *t = process_at(thread), *first = process_at(process);
	/* The new thread comes last in the ring: before the process, after the newest. */
	pid_t last = first->thread_before ? first->thread_before : process;
	t->thread_of = t->next_thread = process;
	t->thread_before = last;
	process_at(last)->next_thread = thread;
	first->thread_before = thread;
	any = true;
}

void tasks_drop(pid_t thread)
{
	WANTS_LOCK();
	struct process *t = process_at(thread);
	/* `thread_of` stays: it says that the number is a thread's, and an undo may bring that back. */
	process_at(t->thread_before)->next_thread = t->next_thread;
	process_at(t->next_thread)->thread_before = t->thread_before;
	t->next_thread = t->thread_before = 0;
}

/* It stays true after the thread's end, until the number is that of a process. */
bool tasks_is_thread(pid_t number)
{
	return is_pid(number) && process_at(number)->thread_of != 0;
}

bool tasks_any(void)
{
	WANTS_LOCK();
	return any;
}

/* A thread that has ended has left the ring: its next thread is 0. */
pid_t tasks_process(pid_t number)
{
	return tasks_is_thread(number) && process_at(number)->next_thread ? process_at(number)->thread_of : number;
}

/* The ring ends at the process, which is no thread. */
pid_t tasks_next(pid_t number)
{
	pid_t next = is_pid(number) ? process_at(number)->next_thread : 0;
	return tasks_is_thread(next) ? next : 0;
}

/* A thread whose birth was undone, or could not be kept, is not in the hierarchy. It has no group,
   and is left out. */
static int move_threads(pid_t process, const char *group)
{
	char from[PATH_MAX_SAID];
	int fault = 0;
	for (pid_t t = tasks_next(process); t && fault == 0; t = tasks_next(t)) {
		fault = engine_where(t, from, sizeof from);
		if (fault == 0)
			fault = engine_line("write %s cgroup.procs %d", group, t);
		else if (fault == -ESRCH)
			fault = 0;
	}
	return fault;
}

int tasks_move(pid_t process, const char *group)
{
	int fault = engine_begin();
	if (fault)
		return fault;
	/* One line for the process and one for each thread. If one fails, engine_finish undoes those
	   before it. */
	fault = engine_line("write %s cgroup.procs %d", group, process);
	if (fault == 0)
		fault = move_threads(process, group);
	return engine_finish(fault);
}
