#include "supervisor/frozen_threads.h"
#include "common/kernel.h"
#include "supervisor/link.h"
#include "supervisor/tracee.h"
#include <errno.h>
#include <signal.h>
#include <stdint.h>
#include <sys/ptrace.h>
#include <sys/wait.h>
#include <unistd.h>

/* At most ORDERS are handled before anything else, since the program decides how many there are.
   AGAIN: milliseconds between two looks at an undecided process. */
enum { ORDERS = 32, AGAIN = 5 };

/* The server adds to this eventfd for each order. It belongs to run.c, and never blocks. */
static int wake = -1;

void frozen_threads_begin(int fd)
{
	wake = fd;
}

/* The first thread of a process counts how many of its threads rest, so no look walks over them. */
static void set(struct thread *t, enum rest how)
{
	struct thread *first = threads_find(t->process);
	if (first) {
		first->resting += how != RUNS;
		first->resting -= t->rest != RUNS;
	}
	t->rest = how;
}

/* A first thread that ended before the others never stops again, and its end is not reported
   before theirs. It has no memory any more: the kernel says so without looking up a path, unless
   this process may not look at the program's memory. Then it says that there is no stop to wait
   for, once the thread has ended. EINVAL: it has no memory. ESRCH: there is no such thread any
   more. */
static bool has_ended(pid_t id)
{
	siginfo_t unused;
	if (look_for_memory(id) == 0)
		return false;
	if (errno == EINVAL || errno == ESRCH)
		return true;
	return waitid(P_PID, (id_t)id, &unused, WSTOPPED | WNOHANG | WNOWAIT | __WALL) && errno == ECHILD;
}

/* Processes of which all threads rest but the first, which may be ending: they are looked at again until that is known. */
static size_t undecided;

static void set_undecided(struct thread *first, bool is)
{
	undecided += is;
	undecided -= first->undecided;
	first->undecided = is;
}

/* A first thread that runs is either about to stop or has ended and stays a zombie: only the
   kernel knows which. So the question is put only if nothing else is missing. */
static bool rests(struct thread *first)
{
	bool all = first->resting == first->members;
	bool but_first = !all && first->members > 1 && first->resting + 1 == first->members && first->rest == RUNS;
	bool ended = but_first && has_ended(first->id);
	set_undecided(first, but_first && !ended);
	return all || ended;
}

void frozen_threads_tell(pid_t process)
{
	struct thread *first = threads_find(process);
	if (!first || !first->counted)
		return;
	bool all = first->frozen && rests(first);
	if (!first->frozen)
		set_undecided(first, false);
	/* The server hears only of changes. */
	if (all == first->told)
		return;
	first->told = all;
	link_stopped(first->id, all);
}

/* Without it the count of undecided ones would never be 0 again. */
void frozen_threads_forget(struct thread *t)
{
	set_undecided(t, false);
}

/* Called in each turn. Nothing tells when the first thread has ended, so it is asked again after
   AGAIN. */
int frozen_threads_look_again(void)
{
	static long long looked_at;
	if (undecided == 0)
		return -1;
	long long now = milliseconds();
	if (now - looked_at >= AGAIN) {
		looked_at = now;
		for (struct thread *each = threads_all(); each; each = each->next)
			if (each->undecided)
				frozen_threads_tell(each->id);
	}
	return undecided ? AGAIN : -1;
}

/* ---------------------------------------------------------------- at a stop */

/* A thread that stays is continued by go_on. */
bool frozen_threads_keeps(struct thread *t, enum rest how)
{
	if (t->frozen)
		set(t, how);
	return t->frozen;
}

void frozen_threads_moves(struct thread *t)
{
	if (t->rest != RUNS)
		set(t, RUNS);
}

void frozen_threads_listens(struct thread *t)
{
	set(t, LISTENS);
}

void frozen_threads_vforks(struct thread *t)
{
	set(t, VFORKS);
}

/* ---------------------------------------------------------------- orders */

/* The thread runs: the interruption stops it as soon as it can. */
void frozen_threads_insists(struct thread *t)
{
	/* A thread before its first stop comes to that anyhow, and stays there. */
	if (t->frozen && t->started && t->rest == RUNS)
		tracee_interrupt(t->id);
}

static void freeze(struct thread *t)
{
	t->frozen = true;
	frozen_threads_insists(t);
}

/* It may have been killed meanwhile, and another thread that called execve may have its number.
   PTRACE_GETSIGINFO fails at a stop of the whole process, which has no such record: then it
   continues by SIGCONT. */
static bool stands_parked(pid_t id)
{
	siginfo_t now;
	if (ptrace(PTRACE_GETSIGINFO, id, 0, &now))
		return false;
	int event = now.si_code >> 8;
	return event == PTRACE_EVENT_STOP || event == PTRACE_EVENT_VFORK_DONE;
}

/* A thread that a signal has stopped continues by SIGCONT, and one that waits for a child by vfork continues with that. A thread that
   runs may have been interrupted, and then leaves its next stop at once. */
static void go_on(struct thread *t, void (*call)(struct thread *t))
{
	enum rest was = t->rest;
	/* First, so that no stop on the way keeps it again. */
	t->frozen = false;
	if (was != PARKED && was != BEFORE_CALL)
		return;
	set(t, RUNS);
	if (was == PARKED && stands_parked(t->id))
		tracee_run(t->id, 0);
	else if (was == BEFORE_CALL)
		call(t);
}

static void obey(struct thread *first, bool stop, void (*call)(struct thread *t))
{
	/* the server may have thawed and frozen it since the last order, and then wants to hear of its stop again */
	first->told = false;
	/* Most processes have one thread: then the list of all is not walked. A thread may be dropped
	   on the way, so the next one is read first. */
	for (struct thread *t = first->members > 1 ? threads_all() : first, *next; t; t = next) {
		next = first->members > 1 ? t->next : NULL;
		if (t->process == first->id && stop)
			freeze(t);
		else if (t->process == first->id)
			go_on(t, call);
	}
	frozen_threads_tell(first->id);
}

bool frozen_threads_take_orders(void (*call)(struct thread *t))
{
	static bool more;
	uint64_t times;
	pid_t process;
	bool stop;
	int taken = 0;
	/* The number says that there are orders, not how many. It becomes 0 by the read. Orders that
	   were left over from the last turn need no new wake. */
	if (read(wake, &times, sizeof times) != sizeof times && !more)
		return false;
	for (; taken < ORDERS && link_order(&process, &stop); taken++) {
		struct thread *first = threads_find(process);
		if (first && first->process == process)
			obey(first, stop, call);
	}
	more = taken == ORDERS;
	return more;
}
