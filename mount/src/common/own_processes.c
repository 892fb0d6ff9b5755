#include "common/own_processes.h"
#include "common/kernel.h"
#include <signal.h>
#include <stddef.h>
#include <sys/prctl.h>
#include <sys/resource.h>
#include <sys/wait.h>
#include <unistd.h>

/* A run's supervisor has three: companion, server and helper. PATIENCE: how often the ends of all that were killed are looked for, every
   millisecond. */
enum { MOST = 4, PATIENCE = 2000 };

/* The children that were not waited for. 0 is a free place. Only the process that made them uses
   it, in one thread. */
static pid_t all[MOST];

/* If the parent ends before the prctl, no signal comes. Then this process has another parent
   already: so the question follows the request. */
bool own_processes_die_with(pid_t parent)
{
	return prctl(PR_SET_PDEATHSIG, SIGKILL, 0, 0, 0) == 0 && getppid() == parent;
}

/* A fault of this process ends it all the same: where the kernel cannot deliver the signal of a fault, it takes the default action. So
   does abort. The library's own two signals keep a handler that it has set. SIGCONT and SIGCHLD end nothing. */
void own_processes_ignore_signals(void)
{
	static const struct signal_action ignored = { .handler = SIG_IGN };
	struct signal_action is;
	for (int signal = 1; signal <= SIGNALS; signal++)
		if (signal != SIGCHLD && signal != SIGCONT && signal_action(signal, NULL, &is) &&
			(signal <= SIGSYS || is.handler == SIG_DFL))
			(void)signal_action(signal, &ignored, NULL); /* it fails for SIGKILL and SIGSTOP */
}

/* Neither call can fail: there are these limits, and none rises above its own bound. */
static void raise_limit(int which)
{
	struct rlimit limit;
	if (getrlimit(which, &limit))
		return;
	/* The hard limit stays: only a privileged process may raise it. */
	limit.rlim_cur = limit.rlim_max;
	setrlimit(which, &limit);
}

void own_processes_raise_files(void)
{
	raise_limit(RLIMIT_NOFILE);
}

void own_processes_raise_sizes(void)
{
	raise_limit(RLIMIT_FSIZE);
}

static void replace(pid_t old, pid_t new)
{
	for (size_t i = 0; i < MOST; i++)
		if (all[i] == old) {
			all[i] = new;
			return;
		}
}

void own_processes_add(pid_t child)
{
	replace(0, child);
}

void own_processes_gone(pid_t child)
{
	replace(child, 0);
}

/* A number that is not in the list may be another process's by now: it gets no signal. */
void own_processes_kill(pid_t child)
{
	for (size_t i = 0; i < MOST; i++)
		if (child > 0 && all[i] == child)
			kill(child, SIGKILL); /* it cannot fail: a child that was not waited for has its number */
}

/* One whose thread waits in a file system that does not answer has not ended: it is left to the next parent. */
void own_processes_wait(void)
{
	int tries = 0;
	for (size_t i = 0; i < MOST; i++)
		while (all[i] && waitpid(all[i], NULL, WNOHANG) == 0 && tries++ < PATIENCE)
			usleep(1000); /* killed processes end soon */
}
