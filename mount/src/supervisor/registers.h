/* The registers of a stopped thread. They belong to the thread: while it is stopped, no other thread of the program can
   change them. Its memory can be changed. */
#ifndef REGISTERS_H
#define REGISTERS_H

#include <linux/sched.h>
#include <stdbool.h>
#include <stddef.h>
#include <sys/types.h>
#include <sys/user.h>

/* All registers of the machine, as the kernel gives them at a stop. */
struct registers {
	struct user_regs_struct kernel;
};

/* The arguments of `clone`, in no machine's order. `ticket` is the sixth argument of a system call, which `clone` does not
   have. The child's registers are a copy of its creator's, so the ticket shows which call made it. */
struct clone_registers {
	unsigned long flags, stack, parent_tid, child_tid, tls, ticket;
};

/* False if the thread is no longer stopped. Each of these fails alike, with ESRCH. */
bool registers_read(pid_t thread, struct registers *out);
unsigned long registers_ticket(const struct registers *r);
unsigned long registers_stack(const struct registers *r);
void registers_of_clone(const struct registers *r, struct clone_registers *out);
/* Before a call: replaces it by the call `number` with these arguments. */
bool registers_set_call(pid_t thread, const struct registers *before, long number, const struct clone_registers *args);
/* Before a call: sets only the ticket. */
bool registers_set_ticket(pid_t thread, const struct registers *before, unsigned long ticket);
/* Before or after a call: sets only the third argument. */
bool registers_set_third(pid_t thread, unsigned long value);
/* In a call: restores what the program had there before it. */
bool registers_restore_in(pid_t thread, const struct registers *before);
/* After a call: restores the arguments. `now`: what is there. */
bool registers_restore(pid_t thread, const struct registers *now, const struct registers *before);
/* Before a call: skips it; it returns this result. */
bool registers_return(pid_t thread, const struct registers *before, int result);
/* At the stop before a signal is delivered: whether a call has ended with EINTR, and which. */
bool registers_was_interrupted(const struct registers *r, long *call);
/* After a call. */
bool registers_set_result(pid_t thread, long result);

/* The arguments of clone3, as `clone` takes them in registers. */
/* Whether the kernel accepts a size of arguments: 0 or -errno. */
int registers_check_clone_size(size_t size);
/* 0; the kernel's -errno for arguments of this size that it would refuse; -ENOSYS for what does not fit into registers.
   CLONE_INTO_CGROUP is left out: the supervisor does it. */
int registers_fit_clone(const struct clone_args *args, size_t size, struct clone_registers *out);

#endif
