#include "supervisor/threads.h"
#include "common/kernel.h"
#include <signal.h>
#include <stdlib.h>

/* A place for each number, so that a look-up takes one step. It takes memory only where a number
   was used. `all` is a list in both directions, the newest first. */
static struct thread *by_number[PIDS], *all;
static size_t count;

/* NULL for a number out of range too. */
struct thread *threads_find(pid_t id)
{
	return is_pid(id) ? by_number[id] : NULL;
}

/* The owner is this file: threads_drop frees it. A thread that is known already is returned as it
   is. */
struct thread *threads_add(pid_t id, pid_t process)
{
	struct thread *t = threads_find(id);
	if (t || !is_pid(id))
		return t;
	t = calloc(1, sizeof *t);
	if (!t)
		return NULL;
	t->id = id;
	t->process = process;
	t->next = all;
	if (all)
		all->before = t;
	all = by_number[id] = t;
	count++;
	struct thread *first = threads_find(process);
	if (first) {
		first->members++;
		/* A new thread of a frozen process stays at its first stop. */
		t->frozen = first->frozen;
	}
	return t;
}

/* The caller has ended what else points to it: its births. */
void threads_drop(struct thread *t)
{
	if (t->next)
		t->next->before = t->before;
	if (t->before)
		t->before->next = t->next;
	else
		all = t->next;
	struct thread *first = threads_find(t->process);
	if (first) {
		first->members--;
		first->resting -= t->rest != RUNS;
	}
	by_number[t->id] = NULL;
	count--;
	free(t);
}

struct thread *threads_all(void)
{
	return all;
}

/* All threads of the program that have not been waited for. */
size_t threads_count(void)
{
	return count;
}

/* A number in the table is not free in the kernel: only the supervisor can wait for a thread that
   it traces. So it is still the thread that is meant. */
void threads_kill_all(void)
{
	for (struct thread *t = all; t; t = t->next)
		kill(t->process, SIGKILL); /* it cannot fail, or the process has just ended */
}
