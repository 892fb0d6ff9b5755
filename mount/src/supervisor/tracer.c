#include "supervisor/tracer.h"
#include "common/own_processes.h"
#include "supervisor/births.h"
#include "supervisor/calls.h"
#include "supervisor/frozen_threads.h"
#include "supervisor/link.h"
#include "supervisor/registers.h"
#include "supervisor/signals.h"
#include "supervisor/threads.h"
#include "supervisor/tracee.h"
#include <signal.h>
#include <sys/ptrace.h>
#include <sys/syscall.h>
#include <sys/wait.h>
#include <unistd.h>

/* At most STOPS are taken at once, before any of them is answered: no thread is handled twice while another waits. */
enum { STOPS = 1024, PATIENCE = 2000 };

/* The first process of the run: its end is the end of the run. */
static pid_t program;
static int program_status;
static bool program_ended;

bool tracer_hold(pid_t pid)
{
	program = pid;
	return tracee_attach(pid);
}

/* ---------------------------------------------------------------- calls that a signal interrupts although no handler runs */

/* The kernel's own number, between the end of a call and the return to the program: if a handler runs, the call returns EINTR, and
   else it begins again. The program never sees it. */
enum { ERESTARTNOHAND = 514 };

/* The calls that the kernel ends with EINTR, not with a number of its own, and that have done nothing then. */
static bool may_begin_again(long call)
{
	switch (call) {
#ifdef SYS_epoll_wait
	case SYS_epoll_wait:
#endif
	case SYS_epoll_pwait:
	case SYS_epoll_pwait2:
	case SYS_read:
	case SYS_readv:
	case SYS_recvfrom:
	case SYS_recvmsg:
	case SYS_recvmmsg:
	case SYS_write:
	case SYS_writev:
	case SYS_sendto:
	case SYS_sendmsg:
	case SYS_sendmmsg:
	case SYS_sendfile:
	case SYS_splice:
	case SYS_connect:
	case SYS_accept:
	case SYS_accept4:
	case SYS_semop:
	case SYS_semtimedop:
	case SYS_rt_sigtimedwait:
	case SYS_io_getevents:
	case SYS_io_pgetevents:
		return true;
	default:
		return false;
	}
}

/* At the stop before this signal is delivered: a call that has ended with EINTR begins again, unless a handler runs. A tracer is told
   of ignored signals too, so the kernel does not drop them where they are sent: they interrupt the call first. After a stop by a signal
   these calls end with EINTR in the kernel too. */
static void begin_again(struct thread *t, int signal)
{
	struct registers now;
	long call;
	bool was_stopped = t->was_stopped;
	t->was_stopped = signals_is_stop(signal) || (was_stopped && signal != SIGCONT);
	if (signals_is_stop(signal) || was_stopped)
		return;
	if (registers_read(t->id, &now) && registers_was_interrupted(&now, &call) && may_begin_again(call))
		(void)registers_set_result(t->id, -ERESTARTNOHAND); /* it fails only if the thread was killed */
}

/* ---------------------------------------------------------------- stops */

static void on_birth(struct thread *t, bool waits)
{
	pid_t child = tracee_message(t->id);
	if (child == 0)
		return; /* it was killed */
	births_told(t, child);
	if (waits)
		frozen_threads_vforks(t);
}

/* Its number does. A thread that the hierarchy does not know leaves nothing there. */
static void leaves(const struct thread *t)
{
	if (t->counted && t->id == t->process)
		link_exited(t->id);
	else if (t->counted)
		link_thread_ended(t->id);
}

/* The call may have a result that is not the kernel's, which is set after it. */
static void on_vfork_done(struct thread *t)
{
	if (t->makes)
		tracee_run_call(t->id);
	else if (!frozen_threads_keeps(t, PARKED))
		tracee_run(t->id, 0);
}

/* The caller was not the first thread, or a thread that was not the first has made it (tracee_stop_at_exec). All other threads of the
   process have been killed. If it was not the first, it has the first one's number from now on. The first thread, whatever it was
   doing, no longer exists, and its death is not reported. */
static void on_exec(struct thread *t)
{
	pid_t former = tracee_message(t->id);
	calls_abandon(t); /* that of the first thread */
	births_abandon(t);
	struct thread *other = former == t->id ? NULL : threads_find(former);
	if (other) {
		t->strict = other->strict;
		leaves(other);
		threads_drop(other);
	}
	tracee_run(t->id, 0);
}

/* The first stop of a new thread, or a stop of a whole process (job control), in which it stays until it is continued. */
static void on_pause(pid_t id, int signal)
{
	struct thread *t = threads_find(id);
	if (!t || !t->started)
		t = births_appeared(id);
	if (!t)
		return;
	if (signals_is_stop(signal)) {
		frozen_threads_listens(t);
		t->stopped_by = signal;
		tracee_listen(id);
	} else if (!frozen_threads_keeps(t, PARKED))
		tracee_run(id, 0);
}

static bool is_vfork(int status)
{
	return status >> 8 == PTRACE_EVENT_VFORK;
}

static void on_stop_of(pid_t id, struct thread *t, int status)
{
	int event = status >> 8, signal = status & 0x7f;
	if (event == PTRACE_EVENT_STOP) {
		on_pause(id, signal);
		return;
	}
	if (!t) { /* it was never allowed to run, so it can only have been killed */
		kill(id, SIGKILL); /* it cannot fail: it was not waited for */
		return;
	}
	switch (event) {
	case PTRACE_EVENT_SECCOMP:
		calls_before(t);
		return;
	case PTRACE_EVENT_FORK:
	case PTRACE_EVENT_VFORK:
	case PTRACE_EVENT_CLONE:
		on_birth(t, event == PTRACE_EVENT_VFORK);
		return;
	case PTRACE_EVENT_VFORK_DONE:
		on_vfork_done(t);
		return;
	case PTRACE_EVENT_EXEC:
		on_exec(t);
		return;
	}
	if (status == (SIGTRAP | 0x80))
		calls_after(t);
	else {
		begin_again(t, signal);
		tracee_run(id, t->process == program ? signals_once(id, signal) : signal);
	}
}

/* A stop that was taken and is to be answered. `alone`: whether the thread was, when it was taken. */
struct stop {
	pid_t id;
	int status;
	bool alone;
};

/* Whether no other thread of its process can get its number by an execve. */
static bool is_alone(pid_t id)
{
	const struct thread *t = threads_find(id);
	return !t || t->id != t->process || t->members == 1;
}

/* Between the look and the answer another thread of the process may have called execve: then its stop now has the number of the
   first, and is handled at the next look. */
static bool stands_there(pid_t id, int status)
{
	siginfo_t now;
	if (ptrace(PTRACE_GETSIGINFO, id, 0, &now))
		return true; /* a stop of the whole process has no such record */
	if (status >> 8 || status == (SIGTRAP | 0x80))
		return now.si_code == status;
	return now.si_signo == status;
}

static void on_stop(const struct stop *stop)
{
	pid_t id = stop->id;
	struct thread *t = threads_find(id);
	/* the process has other threads now, or had some when the stop was taken */
	if (!(stop->alone && is_alone(id)) && !stands_there(id, stop->status))
		return;
	/* It rests no longer. What is done about the stop may let it rest again. */
	if (t)
		frozen_threads_moves(t);
	on_stop_of(id, t, stop->status);
	/* It may have been dropped, or was never known. */
	if (!(t = threads_find(id)))
		return;
	frozen_threads_insists(t);
	frozen_threads_tell(t->process);
}

/* The hierarchy is told about a death before the parent is. */
static void on_end(pid_t id)
{
	struct thread *t = threads_find(id);
	if (!t)
		return;
	pid_t process = t->process;
	leaves(t);
	calls_abandon(t);
	births_abandon(t);
	frozen_threads_forget(t);
	threads_drop(t);
	frozen_threads_tell(process);
}

/* ---------------------------------------------------------------- all of them */

/* Used only within tracer_look, which is not called from itself. It is too large for a stack. */
static struct stop stops[STOPS];

/* Takes a stop. Returns 0 if there is none, 1 for one of the program, and -1 for one of makhloeum
   itself. It never waits here: the poll of watch_over does. */
static int take_stop(size_t at)
{
	siginfo_t next;
	next.si_pid = 0;
	if (waitid(P_ALL, 0, &next, WSTOPPED | WNOHANG | __WALL) || next.si_pid == 0)
		return 0;
	if (next.si_code == CLD_STOPPED) { /* the program may stop it again at once: that is another stop */
		kill(next.si_pid, SIGCONT); /* it cannot fail: it was not waited for */
		return -1;
	}
	stops[at] = (struct stop){ next.si_pid, next.si_status, is_alone(next.si_pid) };
	return 1;
}

/* Takes the next event. Returns 0 if there is none, 1 for a stop, and -1 for one that needs no
   answer. A death was reported already. WNOWAIT: it looks first, and waits only for the end that
   it has handled. */
static int take_next(size_t at)
{
	siginfo_t next;
	next.si_pid = 0;
	if (waitid(P_ALL, 0, &next, WEXITED | WSTOPPED | WNOHANG | WNOWAIT | __WALL) || next.si_pid == 0)
		return 0;
	if (next.si_code == CLD_STOPPED || next.si_code == CLD_TRAPPED) {
		int taken = take_stop(at);
		return taken ? taken : -1; /* killed in between; the next look finds its death */
	}
	/* it was not waited for, so no other process can have the number before the hierarchy has heard of the death */
	id_t id = (id_t)next.si_pid;
	signals_hear(program); /* first, since it knows the senders by their numbers */
	on_end((pid_t)id);
	int status;
	if (waitpid((pid_t)id, &status, WNOHANG | __WALL) != (pid_t)id)
		return -1; /* of a first thread whose number another has by an execve: then it is no death */
	own_processes_gone((pid_t)id);
	if ((pid_t)id == program) {
		program_status = status;
		program_ended = true;
	}
	return -1;
}

/* A creator by vfork waits for its child, so the child is answered first. So the child, whose
   first stop may be among these, has been handled before the parent's event of it. */
bool tracer_look(void)
{
	int taken = take_stop(0); /* most events are stops */
	size_t count = taken > 0;
	for (int i = 0; i < 2 * STOPS && count < STOPS && (taken = take_next(count)); i++)
		count += taken > 0;
	for (size_t i = 0; i < count; i++)
		if (!is_vfork(stops[i].status))
			on_stop(&stops[i]);
	for (size_t i = 0; i < count; i++)
		if (is_vfork(stops[i].status))
			on_stop(&stops[i]);
	return taken != 0;
}

bool tracer_obey(void)
{
	return frozen_threads_take_orders(calls_before);
}

bool tracer_has_ended(int *status)
{
	*status = program_status;
	return program_ended;
}

/* A thread that is killed may still be making a child, which is killed in the next round. What has
   not ended after PATIENCE rounds is killed by the kernel, when the tracer ends. */
void tracer_end_rest(void)
{
	/* killed threads stop no more, and end in bounded time */
	for (int i = 0; i < PATIENCE && threads_count() > 0; i++) {
		threads_kill_all();
		if (!tracer_look())
			usleep(1000);
	}
}
