#include "supervisor/job_control.h"
#include "common/kernel.h"
#include "supervisor/signals.h"
#include "supervisor/threads.h"
#include <signal.h>
#include <unistd.h>

/* For how long the other processes of the group may handle the signal before they are kept from it: milliseconds. */
enum { GRACE = 300 };

/* This process owns it, until its end. */
static int terminal = -1;

/* The descriptor belongs to this file. */
void job_control_begin(int fd)
{
	terminal = fd;
}

/* 0 while it runs: a freezer's stop is none. LISTENS is the rest of a thread that a signal has
   stopped. */
static int signal_that_stopped(const struct thread *first)
{
	return first && first->rest == LISTENS && first->resting == first->members ? first->stopped_by : 0;
}

/* Whether the parent is a shell that waits for stopped jobs: the kernel, too, stops nothing for a terminal where there is none. */
static bool is_job_of_shell(void)
{
	/* A shell with job control has the same session and another process group. 0, a parent of another PID namespace, means
	   this process itself. */
	pid_t parent = getppid();
	return getsid(parent) == getsid(0) && getpgid(parent) != getpgrp();
}

/* Where nobody may know of the stop, another process of the run may be about to continue the first one, and then is not stopped. */
static bool is_followed(const struct thread *first)
{
	return threads_count() == first->members || is_job_of_shell();
}

/* Whether another process of the run has still to handle the signal that the whole group got: an
   editor restores the terminal first. After GRACE it stops without them. */
static bool has_unstopped_others(void)
{
	for (const struct thread *t = threads_all(); t; t = t->next)
		if (t->id == t->process && t->rest != LISTENS && getpgid(t->id) == getpgrp())
			return true;
	return false;
}

/* A group that the program has left is not one of its own any more. */
static bool is_group_of_run(pid_t group)
{
	for (const struct thread *t = threads_all(); t; t = t->next)
		if (t->id == t->process && getpgid(t->id) == group)
			return true;
	return false;
}

/* By the same signal, so that the shell says why. Everything else of the run waits meanwhile: no
   event of the program is handled until SIGCONT. Otherwise the signal is blocked, so its action may stay. */
static void stop_by(int signal)
{
	static const struct signal_action stops = { .handler = SIG_DFL };
	sigset_t one, before;
	/* none of these can fail: the signals exist, and SIGSTOP has its action already */
	sigemptyset(&one);
	sigaddset(&one, signal);
	(void)signal_action(signal, &stops, NULL);
	sigprocmask(SIG_UNBLOCK, &one, &before);
	kill(getpid(), signal); /* the only thread stops in this call, and leaves it once the shell continues it */
	sigprocmask(SIG_SETMASK, &before, NULL);
}

/* A shell gives the terminal back to the group of its job. A program that is a shell itself had
   given it to a group of its own. The shell may have done so while this process was stopped, so
   the group is read again afterwards. */
static void stop(int signal)
{
	pid_t had = tcgetpgrp(terminal);
	bool returns = had != getpgrp() && is_group_of_run(had);
	stop_by(signal);
	if (returns && tcgetpgrp(terminal) == getpgrp())
		tcsetpgrp(terminal, had); /* it fails if the group has ended */
}

int job_control_follow(pid_t program)
{
	static long long since; /* 0: it runs */
	/* It has stopped for this stop of the program already. */
	static bool followed;
	const struct thread *first = threads_find(program);
	int signal = signal_that_stopped(first);
	if (!signal) {
		since = 0;
		followed = false;
		return -1;
	}
	if (followed || !is_followed(first))
		return -1;
	if (since == 0)
		since = milliseconds();
	long long left = since + GRACE - milliseconds();
	if (left > 0 && has_unstopped_others())
		return (int)left;
	/* First: after a SIGCONT the program may not have continued yet, and this must not stop
	   again for the same stop. */
	followed = true;
	/* what came last counts */
	signals_hear(program);
	if (signals_waits(SIGCONT))
		return -1;
	stop(signal);
	return 0;
}
