/* The requests of ptrace: a traced thread continues from a stop. */
#ifndef TRACEE_H
#define TRACEE_H

#include "supervisor/registers.h"
#include "supervisor/threads.h"
#include <stdbool.h>
#include <sys/types.h>

/* A process is traced from now on, with all that it makes. False with errno. */
bool tracee_attach(pid_t process);
/* A thread, at a stop, also stops after an execve, and so does all that it makes. */
void tracee_stop_at_exec(pid_t thread);
/* It runs until its next stop. `signal` is delivered to it; 0 is none. A thread in strict mode also stops at each call. */
void tracee_run(pid_t thread, int signal);
/* It runs until the end of the call that it is about to make, or is in. */
void tracee_run_call(pid_t thread);
/* The call that it is about to make is not made, and returns this: 0 or -errno. */
void tracee_return(pid_t thread, const struct registers *before, int result);
/* In a call that has no result yet: its registers are as before the call. */
void tracee_restore_in(pid_t thread, const struct registers *before);
/* After a call: its arguments are as before the call; the result stays. `now`: what its registers are. */
void tracee_restore(pid_t thread, const struct registers *now, const struct registers *before);
/* It stays stopped as a signal has stopped it, until it is continued. */
void tracee_listen(pid_t thread);
/* A running thread stops as soon as it can. */
void tracee_interrupt(pid_t thread);
/* The event's number: the child's, or the former number of a thread that called execve. 0: the thread was killed. */
pid_t tracee_message(pid_t thread);

#endif
