#include "supervisor/births.h"
#include "channels/advance.h"
#include "channels/roots.h"
#include "common/kernel.h"
#include "common/namespaces.h"
#include "supervisor/link.h"
#include "supervisor/registers.h"
#include "supervisor/tracee.h"
#include <errno.h>
#include <signal.h>
#include <stdlib.h>
#include <string.h>
#include <sys/syscall.h>
#include <sys/wait.h>

/* How long a child whose creator was killed may take to reach its first stop. It exists already and only has to be
   scheduled. PLACES: how many births there may be at once; the next call fails with EAGAIN. GRACE: milliseconds. */
enum { PLACES = 65536, GRACE = 1000 };

/* A birth reads the arguments of a clone3, then it is reserved, then it runs, and at last it is told: the hierarchy
   has the child. Before it runs, the death of its creator ends it. Once it runs, the kernel may have made the child
   already, so the record waits for that. */
struct birth {
	unsigned long ticket;
	struct thread *creator; /* NULL: gone */
	pid_t process, child; /* the child's number is known once it is told */
	bool is_thread, reads, reserved, told, runs; /* runs: the call is being made */
	bool was_clone3;
	bool makes_space; /* a cgroup namespace that the server does not know yet */
	int fault; /* if told: the errno that the call returns instead of a child */
	unsigned reservation;
	/* Without a creator: the time (milliseconds) at which its child no longer comes. */
	long long given_up_at;
	struct registers before; /* the creator's, at the stop */
};

/* Each birth has the place of its ticket modulo PLACES. Tickets count on, so each place is written in turn, and takes
   its memory then: half a megabyte after PLACES births. The first tickets have the last places, so that most runs pass
   the end of the table. */
static struct birth *births[PLACES];
static unsigned last_ticket = PLACES - 10; /* half of a register: the other half says whether the call was a clone3 */
/* The earliest given_up_at of those without a creator, or earlier; 0: there is none. */
static long long next_look;
static bool counts_threads;

static struct birth *find(unsigned long ticket)
{
	struct birth *b = births[ticket % PLACES];
	return b && b->ticket == ticket ? b : NULL; /* a place may be that of another ticket by now */
}

/* A ticket is not used again before all others were: a child that comes too late, with an old ticket, finds no birth. */
static struct birth *begin(struct thread *t)
{
	int tries = 0;
	while (births[++last_ticket % PLACES])
		if (++tries == PLACES)
			return NULL;
	struct birth *b = calloc(1, sizeof *b);
	if (!b)
		return NULL;
	b->ticket = last_ticket;
	b->creator = t;
	b->process = t->process;
	births[b->ticket % PLACES] = b;
	t->makes = b;
	return b;
}

/* What the server was told before the call, and what the child has not used, is taken back here: the reservation, and
   the namespace that was prepared. So no way out of a birth leaves it. */
static void end(struct birth *b)
{
	if (b->reserved)
		link_cancel(b->reservation);
	if (b->makes_space)
		link_namespace(0, (unsigned)b->ticket);
	if (b->creator)
		b->creator->makes = NULL;
	births[b->ticket % PLACES] = NULL;
	free(b);
}

/* A birth ends once neither its creator nor its child needs its record. The child needs it until its first stop, which
   restores its registers. */
static void end_if_over(struct birth *b)
{
	struct thread *child = threads_find(b->child);
	if (b->told && !b->creator && !(child && child->made_by == b))
		end(b);
}

void births_count_threads(bool count)
{
	counts_threads = count;
}

/* No call of the program makes this process, so there is no ticket. It has no parent in the hierarchy (0), and is
   placed in the root. */
bool births_first(pid_t program)
{
	unsigned reservation;
	struct thread *t = threads_add(program, program);
	int fault = t ? link_reserve(0, NULL, false, &reservation) : -ENOMEM;
	if (fault == 0)
		fault = link_born(reservation, program, &t->frozen);
	if (fault == 0)
		t->started = t->counted = true;
	errno = -fault;
	return fault == 0;
}

bool births_is_fork(long number)
{
	switch (number) {
	case SYS_clone:
	case SYS_clone3:
#ifdef SYS_fork
	case SYS_fork:
	case SYS_vfork:
#endif
		return true;
	default:
		return false;
	}
}

/* ---------------------------------------------------------------- before the call */

/* The error is a positive errno. The call is skipped at its stop, so the kernel makes nothing. */
static void refuse(struct thread *t, int error)
{
	struct registers before = t->makes->before;
	end(t->makes);
	tracee_return(t->id, &before, -error);
}

/* The program chose all of `args`, but can no longer change them: they are set in registers of a stopped thread.
   CLONE_UNTRACED would take the child away from its supervisor. A thread that is no longer stopped was killed. The place in the
   hierarchy is reserved before the kernel makes anything, and each step before the call can be taken back (`refuse`). */
static void make(struct thread *t, struct birth *b, long number, struct clone_registers *args, const char *group)
{
	bool goes_on;
	b->is_thread = args->flags & CLONE_THREAD;
	bool counts = !b->is_thread || counts_threads;
	int fault = !counts && group ? -EOPNOTSUPP : 0;
	/* A reservation that the server gave in advance saves a question, on which the thread would wait. A child for
	   another group is asked for, since what was allowed in advance is for the process's own group. */
	b->reservation = counts && !group ? advance_take(b->process, b->is_thread) : 0;
	if (counts && !b->reservation)
		fault = link_reserve(b->process, group, b->is_thread, &b->reservation);
	b->reserved = counts && fault == 0;
	if (fault == 0 && args->flags & CLONE_NEWCGROUP) {
		fault = link_prepare((unsigned)b->ticket, b->process, group);
		b->makes_space = fault == 0;
	}
	if (fault) {
		refuse(t, -fault);
		return;
	}
	/* before the call: the helper must not look up a path of the child by the old root */
	if (args->flags & CLONE_NEWNS)
		roots_change();
	args->flags &= ~(unsigned long)CLONE_UNTRACED;
	args->ticket = b->ticket | (b->was_clone3 ? (unsigned long)WAS_CLONE3 << 32 : 0);
	if (number == SYS_clone)
		goes_on = registers_set_call(t->id, &b->before, SYS_clone, args);
	else
		goes_on = registers_set_ticket(t->id, &b->before, b->ticket);
	b->runs = goes_on;
	if (goes_on)
		tracee_run_call(t->id);
}

/* clone3 has its arguments in memory. Other threads of the program can write there, and a file system of the program
   can block a read. So another process, which may wait, reads them once. */
static void read_arguments(struct thread *t, struct birth *b, const struct clone_registers *regs)
{
	int fault = registers_check_clone_size(regs->stack);
	if (fault == 0 && !helper_read(b->ticket, t->id, regs->flags, regs->stack))
		fault = -ENOSYS; /* too many wait already: C libraries then use `clone` */
	b->reads = b->was_clone3 = fault == 0;
	if (fault)
		refuse(t, -fault);
}

void births_ask(struct thread *t, long number)
{
	struct registers before;
	struct clone_registers args;
	if (!registers_read(t->id, &before))
		return; /* it was killed */
	if (t->makes)
		births_abandon(t);
	struct birth *b = begin(t);
	if (!b) {
		tracee_return(t->id, &before, -EAGAIN);
		return;
	}
	b->before = before;
	registers_of_clone(&before, &args);
	if (number == SYS_clone3)
		read_arguments(t, b, &args);
	else {
		if (number != SYS_clone)
			args.flags = 0;
		make(t, b, number, &args, NULL);
	}
}

void births_arguments(const struct helper_reply *reply)
{
	struct clone_registers args;
	struct birth *b = find(reply->ticket);
	/* The helper may answer long after the question: the birth may have ended, and its place be another's. */
	if (!b || !b->reads || !b->creator)
		return; /* it was killed meanwhile */
	struct thread *t = b->creator;
	const struct clone_args *said = &reply->args;
	registers_of_clone(&b->before, &args); /* of clone3: the second argument is the size */
	int fault = reply->fault ? reply->fault : registers_fit_clone(said, args.stack, &args);
	b->reads = false;
	bool elsewhere = fault == 0 && (said->flags & CLONE_INTO_CGROUP);
	if (elsewhere)
		fault = reply->group_fault;
	if (fault)
		refuse(t, -fault);
	else
		make(t, b, SYS_clone, &args, elsewhere ? reply->group : NULL);
}

/* ---------------------------------------------------------------- the child exists */

/* Whether a child was killed before its first stop and its death was seen before the event of its creator. */
static bool is_no_more(pid_t child)
{
	siginfo_t unused;
	return waitid(P_PID, (id_t)child, &unused, WEXITED | WSTOPPED | WNOHANG | WNOWAIT | __WALL) && errno == ECHILD;
}

/* Tells the hierarchy about a child that has not run. If that fails, the child does not run, and the call returns an
   errno. */
static struct thread *settle(struct birth *b, pid_t child)
{
	struct thread *t = NULL;
	int fault = 0;
	bool frozen = false;
	if (b->told)
		return threads_find(child);
	b->told = true;
	b->child = child;
	/* The kernel's event names the child also when it was killed at once. Its number may then be free already. */
	bool ended = is_no_more(child);
	if (!ended && !(t = threads_add(child, b->is_thread ? b->process : child)))
		fault = -ENOMEM;
	/* The server's answer is waited for: whether the child may run, and whether it is born frozen. A thread is only
	   reported: it was allowed before the call. */
	else if (!b->is_thread) {
		fault = link_born(b->reservation, child, &frozen);
		b->reserved = false;
	} else if (t && b->reserved) {
		link_thread_born(b->reservation, child);
		t->counted = true;
		b->reserved = false;
	}
	if (t) {
		t->made_by = b;
		t->frozen |= frozen;
		t->counted |= !b->is_thread && fault == 0;
		/* Now the namespace exists, and the child, which is stopped, shows its number. */
		if (b->makes_space && fault == 0) {
			link_namespace(namespaces_cgroup_of(child), (unsigned)b->ticket);
			b->makes_space = false;
		}
	} else if (!b->is_thread && fault == 0)
		link_exited(child); /* its death was taken when nobody knew its number */
	if (fault) {
		if (!ended)
			kill(child, SIGKILL); /* it cannot fail: it was not waited for */
		b->fault = fault == -ESRCH ? 0 : fault; /* a kill in the hierarchy now finds the child */
	}
	return t;
}

void births_told(struct thread *creator, pid_t child)
{
	struct birth *b = creator->makes;
	if (!b || !b->runs) {
		tracee_run(creator->id, 0);
		return;
	}
	settle(b, child); /* before the creator returns: it may look for its child in the hierarchy at once */
	if (b->fault) { /* its result is set after the call */
		tracee_run_call(creator->id);
		return;
	}
	/* The creator is still in its call: the program must find its own arguments there when it returns. */
	tracee_restore_in(creator->id, &b->before);
	creator->makes = NULL;
	b->creator = NULL;
	end_if_over(b);
	tracee_run(creator->id, 0);
}

/* The call made no child, or its child may not run. The call may be restarted, and then needs its arguments. */
void births_returned(struct thread *t)
{
	struct birth *b = t->makes;
	struct registers now;
	if (!b)
		return;
	if (registers_read(t->id, &now)) /* else it was killed */
		tracee_restore(t->id, &now, &b->before);
	if (b->fault)
		(void)registers_set_result(t->id, b->fault); /* it fails only if the thread was killed */
	/* The kernel has made a child that may not run. It was killed, and may not have ended yet. */
	if (b->told)
		births_abandon(t);
	else
		end(b);
}

struct thread *births_appeared(pid_t child)
{
	struct registers here;
	struct thread *t = threads_find(child);
	struct birth *b = t ? t->made_by : NULL;
	if (!registers_read(child, &here))
		return NULL; /* it was killed */
	if (!b) {
		b = find((unsigned)registers_ticket(&here));
		t = b && b->runs ? settle(b, child) : NULL;
	}
	if (!t) { /* nobody asked for it, or it came too late */
		kill(child, SIGKILL); /* it cannot fail: it was not waited for */
		return NULL;
	}
	tracee_restore(child, &here, &b->before);
	if (b->is_thread)
		tracee_stop_at_exec(child);
	t->started = true;
	t->made_by = NULL;
	end_if_over(b);
	return t;
}

/* ---------------------------------------------------------------- ends */

void births_abandon(struct thread *t)
{
	struct birth *b = t->makes;
	if (t->made_by) {
		struct birth *made_by = t->made_by;
		t->made_by = NULL;
		end_if_over(made_by);
	}
	if (!b)
		return;
	if (!b->runs) { /* it was killed before the call */
		end(b);
		return;
	}
	b->creator = NULL;
	t->makes = NULL;
	if (!b->told) {
		b->given_up_at = milliseconds() + GRACE;
		/* It exists already if the kernel has finished the call before the kill. Until it comes, or GRACE is over, it
		   keeps its reservation. */
		if (next_look == 0 || b->given_up_at < next_look)
			next_look = b->given_up_at;
	}
	end_if_over(b);
}

/* All places are looked at, but at most once for each creator that was killed in its call. */
int births_give_up(void)
{
	if (next_look == 0)
		return -1;
	long long t = milliseconds(), next = 0;
	if (t >= next_look) {
		for (size_t i = 0; i < PLACES; i++) {
			struct birth *b = births[i];
			if (!b || b->creator || b->told)
				continue;
			if (b->given_up_at <= t)
				end(b);
			else if (next == 0 || b->given_up_at < next)
				next = b->given_up_at;
		}
		next_look = next;
	}
	return next_look == 0 ? -1 : (int)(next_look - t) + 1;
}
