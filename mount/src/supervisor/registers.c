#include "supervisor/registers.h"
#include <elf.h>
#include <errno.h>
#include <limits.h>
#include <signal.h>
#include <stddef.h>
#include <sys/ptrace.h>
#include <sys/uio.h>
#include <unistd.h>

/* One request for all registers. It fails with ESRCH if the thread is not at a stop. */
static bool write_all(pid_t thread, const struct user_regs_struct *regs)
{
	struct iovec all = { (void *)(size_t)regs, sizeof *regs };
	return ptrace(PTRACE_SETREGSET, thread, NT_PRSTATUS, &all) == 0;
}

/* ESRCH: the thread is not at a stop, or has ended. */
bool registers_read(pid_t thread, struct registers *out)
{
	struct iovec all = { &out->kernel, sizeof out->kernel };
	return ptrace(PTRACE_GETREGSET, thread, NT_PRSTATUS, &all) == 0;
}

/* All of them, since the call has no result yet. */
bool registers_restore_in(pid_t thread, const struct registers *before)
{
	return write_all(thread, &before->kernel);
}

#if defined(__x86_64__)

/* The sixth argument of a system call. */
unsigned long registers_ticket(const struct registers *r)
{
	return r->kernel.r9;
}

unsigned long registers_stack(const struct registers *r)
{
	return r->kernel.rsp;
}

void registers_of_clone(const struct registers *r, struct clone_registers *out)
{
	const struct user_regs_struct *k = &r->kernel;
	*out = (struct clone_registers){ k->rdi, k->rsi, k->rdx, k->r10, k->r8, k->r9 };
}

/* A call with these arguments; all else is as in `others`. */
static bool write_call(pid_t thread, const struct registers *others, unsigned long number,
	const struct clone_registers *args)
{
	struct user_regs_struct k = others->kernel;
	k.orig_rax = number;
	k.rdi = args->flags;
	k.rsi = args->stack;
	k.rdx = args->parent_tid;
	k.r10 = args->child_tid;
	k.r8 = args->tls;
	k.r9 = args->ticket;
	return write_all(thread, &k);
}

bool registers_set_call(pid_t thread, const struct registers *before, long number, const struct clone_registers *args)
{
	return write_call(thread, before, (unsigned long)number, args);
}

/* One register by itself. */
bool registers_set_ticket(pid_t thread, const struct registers *before, unsigned long ticket)
{
	(void)before;
	return ptrace(PTRACE_POKEUSER, thread, offsetof(struct user_regs_struct, r9), ticket) == 0;
}

/* The third argument. */
bool registers_set_third(pid_t thread, unsigned long value)
{
	return ptrace(PTRACE_POKEUSER, thread, offsetof(struct user_regs_struct, rdx), value) == 0;
}

bool registers_restore(pid_t thread, const struct registers *now, const struct registers *before)
{
	struct clone_registers args;
	registers_of_clone(before, &args);
	/* What the call has written elsewhere stays, its result too. A restarted call reads its number
	   from orig_rax. */
	return write_call(thread, now, before->kernel.orig_rax, &args);
}

bool registers_return(pid_t thread, const struct registers *before, int result)
{
	struct user_regs_struct k = before->kernel;
	/* -1 is no call: the kernel skips it and returns what is in rax. */
	k.orig_rax = (unsigned long)-1L;
	k.rax = (unsigned long)(long)result;
	return write_all(thread, &k);
}

/* orig_rax is -1 outside of a call. */
bool registers_was_interrupted(const struct registers *r, long *call)
{
	*call = (long)r->kernel.orig_rax;
	return *call >= 0 && (long)r->kernel.rax == -EINTR;
}

/* rax has the number of the call before it, and its result after it. */
bool registers_set_result(pid_t thread, long result)
{
	return ptrace(PTRACE_POKEUSER, thread, offsetof(struct user_regs_struct, rax), result) == 0;
}

#elif defined(__aarch64__)

/* Here the number of the call is no register, and has a request of its own. */
static bool set_number(pid_t thread, int number)
{
	struct iovec it = { &number, sizeof number };
	return ptrace(PTRACE_SETREGSET, thread, NT_ARM_SYSTEM_CALL, &it) == 0;
}

/* The sixth argument is in the register x5. */
unsigned long registers_ticket(const struct registers *r)
{
	return r->kernel.regs[5];
}

unsigned long registers_stack(const struct registers *r)
{
	return r->kernel.sp;
}

/* Here `tls` comes before `child_tid`. */
void registers_of_clone(const struct registers *r, struct clone_registers *out)
{
	const unsigned long long *x = r->kernel.regs;
	*out = (struct clone_registers){ x[0], x[1], x[2], x[4], x[3], x[5] };
}

/* The number of the call has a request of its own. */
bool registers_set_call(pid_t thread, const struct registers *before, long number, const struct clone_registers *args)
{
	struct user_regs_struct k = before->kernel;
	k.regs[0] = args->flags;
	k.regs[1] = args->stack;
	k.regs[2] = args->parent_tid;
	k.regs[3] = args->tls;
	k.regs[4] = args->child_tid;
	k.regs[5] = args->ticket;
	return write_all(thread, &k) && set_number(thread, (int)number);
}

bool registers_set_ticket(pid_t thread, const struct registers *before, unsigned long ticket)
{
	struct user_regs_struct k = before->kernel;
	k.regs[5] = ticket;
	return write_all(thread, &k);
}

bool registers_set_third(pid_t thread, unsigned long value)
{
	struct registers now;
	if (!registers_read(thread, &now))
		return false;
	now.kernel.regs[2] = value;
	return write_all(thread, &now.kernel);
}

/* The first register has the result; if a call is restarted, the kernel has kept the first argument. */
bool registers_restore(pid_t thread, const struct registers *now, const struct registers *before)
{
	struct user_regs_struct k = now->kernel;
	for (int i = 1; i <= 5; i++)
		k.regs[i] = before->kernel.regs[i];
	return write_all(thread, &k);
}

/* The number -1 skips the call. */
bool registers_return(pid_t thread, const struct registers *before, int result)
{
	struct user_regs_struct k = before->kernel;
	k.regs[0] = (unsigned long long)(long)result;
	return set_number(thread, -1) && write_all(thread, &k);
}

/* Here the kernel has decided about a restart before the stop. */
bool registers_was_interrupted(const struct registers *r, long *call)
{
	(void)r;
	*call = -1;
	return false;
}

bool registers_set_result(pid_t thread, long result)
{
	struct registers now;
	if (!registers_read(thread, &now))
		return false;
	now.kernel.regs[0] = (unsigned long long)result;
	return write_all(thread, &now.kernel);
}

#endif

/* ---------------------------------------------------------------- the arguments of clone3 */

/* PID_SPACES: how many namespaces of process numbers can be in one another. */
enum { LARGEST = 4096, PID_SPACES = 32 };

#ifndef CLONE_NEWTIME
#define CLONE_NEWTIME 0x00000080
#endif

/* E2BIG and EINVAL are the kernel's for these sizes. */
int registers_check_clone_size(size_t size)
{
	if (size > LARGEST)
		return -E2BIG;
	if (size < CLONE_ARGS_SIZE_VER0)
		return -EINVAL;
	/* larger ones have fields that do not fit into registers */
	return size > CLONE_ARGS_SIZE_VER2 ? -ENOSYS : 0;
}

/* The kernel's own checks, in clone3: what it would refuse must fail with EINVAL also here, and
   not with what `clone` says of it. */
static bool is_valid(const struct clone_args *a, size_t size)
{
	const __u64 known = 0xffffffffULL | CLONE_CLEAR_SIGHAND | CLONE_INTO_CGROUP;
	if (a->flags & ~known || a->flags & (CLONE_DETACHED | (CSIGNAL & ~CLONE_NEWTIME)))
		return false;
	if ((a->flags & CLONE_SIGHAND) && (a->flags & CLONE_CLEAR_SIGHAND))
		return false;
	if ((a->flags & (CLONE_THREAD | CLONE_PARENT)) && a->exit_signal)
		return false;
	if (a->exit_signal & ~(__u64)CSIGNAL || a->exit_signal >= NSIG)
		return false;
	/* smaller ones have no field for the group, whose 0 would be a descriptor */
	if ((a->flags & CLONE_INTO_CGROUP) && (a->cgroup > INT_MAX || size < CLONE_ARGS_SIZE_VER2))
		return false;
	if ((a->set_tid == 0) != (a->set_tid_size == 0) || a->set_tid_size > PID_SPACES)
		return false;
	/* what is above is the kernel's */
	return (a->stack == 0) == (a->stack_size == 0) && a->stack <= LONG_MAX && a->stack_size <= LONG_MAX - a->stack;
}

/* C libraries answer ENOSYS with a `clone`, which is then judged by itself. */
int registers_fit_clone(const struct clone_args *a, size_t size, struct clone_registers *out)
{
	const __u64 beyond = CLONE_CLEAR_SIGHAND | CLONE_NEWTIME;
	if (!is_valid(a, size))
		return -EINVAL;
	/* `clone` has one argument for two of the numbers that it writes */
	if (a->flags & beyond || a->set_tid_size || a->set_tid ||
		((a->flags & CLONE_PIDFD) && (a->flags & CLONE_PARENT_SETTID)))
		return -ENOSYS;
	/* `clone` takes the signal with the flags, and the upper end of the stack. */
	*out = (struct clone_registers){
		.flags = (a->flags & ~CLONE_INTO_CGROUP) | a->exit_signal,
		.stack = a->stack + a->stack_size,
		.parent_tid = a->flags & CLONE_PIDFD ? a->pidfd : a->parent_tid,
		.child_tid = a->child_tid,
		.tls = a->tls,
	};
	return 0;
}
