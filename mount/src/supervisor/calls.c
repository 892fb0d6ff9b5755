#include "supervisor/calls.h"
#include "channels/roots.h"
#include "common/namespaces.h"
#include "helper/helper.h"
#include "supervisor/births.h"
#include "supervisor/filter.h"
#include "supervisor/frozen_threads.h"
#include "supervisor/link.h"
#include "supervisor/registers.h"
#include "supervisor/tracee.h"
#include <errno.h>
#include <sched.h>
#include <signal.h>
#include <sys/ptrace.h>
#include <sys/syscall.h>

/* What the server knows the call by; births have small numbers. These are the highest numbers,
   since process numbers are small. */
static unsigned unshare_of(const struct thread *t)
{
	return ~(unsigned)t->id;
}

/* The program has no tracer but this one, so its filter sends a call to nobody: then the kernel does not make the call. */
static void refuse(struct thread *t, int error)
{
	struct registers before;
	if (registers_read(t->id, &before)) /* else it was killed */
		tracee_return(t->id, &before, -error);
}

/* The server stores the namespace's root before the call, which begins at the process's group as it
   is now. It hears of the number of the namespace after the call. A new mount namespace changes
   which root a path of the process means, so it is stored before the call is made. */
static void on_unshare(struct thread *t, unsigned long flags)
{
	if (flags & CLONE_NEWNS)
		roots_change();
	if (!(flags & CLONE_NEWCGROUP)) {
		tracee_run(t->id, 0);
		return;
	}
	int fault = link_prepare(unshare_of(t), t->process, NULL);
	if (fault) {
		refuse(t, -fault);
		return;
	}
	t->unshares = true;
	tracee_run_call(t->id);
}

/* setns, chroot or pivot_root. The call may still fail: then the mark is set without need. */
static void on_root(struct thread *t)
{
	roots_change();
	tracee_run(t->id, 0);
}

/* The kernel would refuse strict mode, since a filter is installed already. So the supervisor
   keeps it: from now on the thread stops before each call (calls_after). */
static void return_from_strict(struct thread *t, int result)
{
	struct registers before;
	t->asks_strict = false;
	t->strict = result == 0;
	if (registers_read(t->id, &before)) /* else it was killed */
		tracee_return(t->id, &before, result);
}

/* The filter is in the program's memory, which the helper reads and writes. The answer comes by
   calls_filters. Until then the thread stays at its stop. If the helper can take no question, the
   filter is added as it is. */
static void on_new_filter(struct thread *t, unsigned long at)
{
	struct registers before;
	if (!registers_read(t->id, &before))
		return; /* it was killed */
	t->asks_filter = helper_copy_filter(t->id, at, registers_stack(&before));
	t->filter_at = at;
	if (!t->asks_filter)
		tracee_run(t->id, 0);
}

/* The call's argument is restored after it. Without a copy the thread adds its own filter, which
   may refuse a `clone` that was a `clone3`. */
static void add_filter(struct thread *t, unsigned long copy)
{
	t->asks_filter = false;
	t->adds_filter = copy && registers_set_third(t->id, copy);
	if (t->adds_filter)
		tracee_run_call(t->id);
	else
		tracee_run(t->id, 0);
}

/* How many filters the thread has is said by a file of /proc, which the helper reads. Without a
   helper that can answer, the number is unknown: then the call succeeds. */
static void on_seccomp(struct thread *t, long number, const uint64_t args[6])
{
	int fault = filter_wants_strict(number, args);
	if (filter_is_added(number, args))
		on_new_filter(t, args[2]);
	else if (fault > 0)
		tracee_run(t->id, 0);
	else if (fault < 0)
		refuse(t, -fault);
	else if (helper_count_filters(t->id))
		t->asks_strict = true;
	else
		return_from_strict(t, filter_strict_result(-1));
}

/* The thread may also have ended, and another have its number: that one asks for nothing, and the
   answer is dropped. */
void calls_filters(const struct helper_reply *reply)
{
	struct thread *t = threads_find(reply->thread); /* one that asks for nothing was killed meanwhile */
	if (t && t->asks_strict)
		return_from_strict(t, filter_strict_result(reply->filters));
	else if (t && t->asks_filter)
		add_filter(t, reply->copy);
}

/* The stop was taken a while ago. Meanwhile the thread may have been killed, and another that called execve may have its
   number and be at another stop. So the kernel is asked at which stop it is now. */
void calls_before(struct thread *t)
{
	struct __ptrace_syscall_info call;
	if (ptrace(PTRACE_GET_SYSCALL_INFO, t->id, sizeof call, &call) <= 0)
		return; /* it was killed */
	if (call.op != PTRACE_SYSCALL_INFO_SECCOMP || frozen_threads_keeps(t, BEFORE_CALL))
		return;
	long number = (long)call.seccomp.nr;
	/* Of two filters that both send a call to the tracer, the one that was added last says what
	   the mark is. */
	bool is_ours = call.seccomp.ret_data == FILTER_MARK;
	if (!is_ours || !filter_stops(number, call.seccomp.args)) /* a filter of the program wants it */
		refuse(t, ENOSYS);
	else if (births_is_fork(number))
		births_ask(t, number);
	else if (number == SYS_unshare)
		on_unshare(t, call.seccomp.args[0]);
	else if (number == SYS_setns || number == SYS_chroot || number == SYS_pivot_root)
		on_root(t);
	else if (number == SYS_prctl || number == SYS_seccomp)
		on_seccomp(t, number, call.seccomp.args);
	else /* waitid or wait4: every death before this stop has been handled, so the caller sees it */
		tracee_run(t->id, 0);
}

/* The stop after a call, or before one of a thread in strict mode. A call that failed has made no namespace. */
void calls_after(struct thread *t)
{
	struct __ptrace_syscall_info call;
	if (ptrace(PTRACE_GET_SYSCALL_INFO, t->id, sizeof call, &call) <= 0)
		return; /* it was killed */
	if (t->strict && call.op == PTRACE_SYSCALL_INFO_ENTRY && !filter_strict_allows((long)call.entry.nr)) {
		kill(t->process, SIGKILL); /* it cannot fail: the process is not waited for before this thread */
		return;
	}
	births_returned(t);
	if (t->adds_filter)
		(void)registers_set_third(t->id, t->filter_at); /* it fails only if the thread was killed */
	t->adds_filter = false;
	if (t->unshares)
		link_namespace(call.op == PTRACE_SYSCALL_INFO_EXIT && !call.exit.is_error ? namespaces_cgroup_of(t->id) : 0,
			unshare_of(t));
	t->unshares = false;
	tracee_run(t->id, 0);
}

/* The server keeps the root that was stored until it hears of a namespace, or of none. */
void calls_abandon(struct thread *t)
{
	t->asks_strict = t->asks_filter = t->adds_filter = false;
	if (t->unshares)
		link_namespace(0, unshare_of(t));
	t->unshares = false;
}
