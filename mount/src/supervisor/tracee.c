#include "supervisor/tracee.h"
#include "common/message.h"
#include <errno.h>
#include <string.h>
#include <sys/ptrace.h>

/* Which stops there are. An execve changes something here only if the first thread of a process
   does not call it. EXITKILL: if the supervisor is killed, the kernel kills all that it traces, so
   nothing runs uncounted. TRACESYSGOOD marks a stop at a call, which else looks like a SIGTRAP. */
static const long always = PTRACE_O_TRACEFORK | PTRACE_O_TRACEVFORK | PTRACE_O_TRACECLONE | PTRACE_O_TRACEVFORKDONE |
	PTRACE_O_TRACESECCOMP | PTRACE_O_TRACESYSGOOD | PTRACE_O_EXITKILL;

/* SEIZE sends no signal: the program does not notice it. It also tells stops of job control from
   others. */
bool tracee_attach(pid_t process)
{
	return ptrace(PTRACE_SEIZE, process, 0, always) == 0;
}

/* All other calls here fail if the thread does not stand at the stop, since it was killed. Its end is reported, or another thread of
   its process that called execve has its number by now; that one has its own stops. So there is nothing to do. A right call
   has no other fault. */
static void resume(enum __ptrace_request how, pid_t thread, int signal)
{
	if (ptrace(how, thread, 0, signal) && errno != ESRCH)
		say("a thread cannot go on: %s", strerror(errno));
}

/* PTRACE_SYSCALL stops a thread in strict mode before its next call, which is judged there. */
void tracee_run(pid_t thread, int signal)
{
	const struct thread *t = threads_find(thread);
	resume(t && t->strict ? PTRACE_SYSCALL : PTRACE_CONT, thread, signal);
}

void tracee_run_call(pid_t thread)
{
	resume(PTRACE_SYSCALL, thread, 0);
}

/* A thread whose registers could not be written must not go on to make the call. */
void tracee_return(pid_t thread, const struct registers *before, int result)
{
	if (registers_return(thread, before, result))
		tracee_run(thread, 0);
}

void tracee_restore_in(pid_t thread, const struct registers *before)
{
	(void)registers_restore_in(thread, before); /* it fails as all calls here do */
}

void tracee_restore(pid_t thread, const struct registers *now, const struct registers *before)
{
	(void)registers_restore(thread, now, before); /* as above */
}

/* The kernel gives these options to all that the thread makes. */
void tracee_stop_at_exec(pid_t thread)
{
	(void)ptrace(PTRACE_SETOPTIONS, thread, 0, always | PTRACE_O_TRACEEXEC); /* as above */
}

/* LISTEN leaves it stopped, and reports its SIGCONT as a stop. */
void tracee_listen(pid_t thread)
{
	resume(PTRACE_LISTEN, thread, 0);
}

/* It returns at once. The thread comes to a stop when it is next scheduled. */
void tracee_interrupt(pid_t thread)
{
	resume(PTRACE_INTERRUPT, thread, 0);
}

/* The number is of this process's namespace. */
pid_t tracee_message(pid_t thread)
{
	unsigned long number = 0;
	return ptrace(PTRACE_GETEVENTMSG, thread, 0, &number) == 0 ? (pid_t)number : 0;
}
