/* Forks and clones. Each is decided at the stop before it, from the supervisor's own copy of its arguments. It continues
   with its arguments in registers, and one of these is a ticket. The child's registers are a copy of its creator's, so its
   first stop shows the ticket. So the creator's event or the child's first stop reports a birth, whichever comes first, and
   neither waits for the other. */
#ifndef BIRTHS_H
#define BIRTHS_H

#include "helper/helper.h"
#include "supervisor/threads.h"
#include <stdbool.h>
#include <sys/types.h>

/* Before the first process: whether threads count. */
void births_count_threads(bool count);
/* The first process, which is traced; false with errno if it cannot be recorded. */
bool births_first(pid_t program);
bool births_is_fork(long number);
/* A thread is at the stop before such a call. It may wait for the server, and never for the
   helper: births_arguments continues then. */
void births_ask(struct thread *t, long number);
/* The arguments of a clone3, which the helper has read. */
void births_arguments(const struct helper_reply *reply);
/* The creator's event names a child. It continues the creator. */
void births_told(struct thread *creator, pid_t child);
/* It is at the stop after a call. */
void births_returned(struct thread *t);
/* A thread is at its first stop. NULL if it never runs. It leaves the thread at its stop. */
struct thread *births_appeared(pid_t child);
/* A thread has ended, or another has its number by an exec: its child completes the birth. */
void births_abandon(struct thread *t);
/* Gives up the births whose creator is gone and whose child did not come. Returns how long until the next look is needed:
   in milliseconds, -1 for never. */
int births_give_up(void);

#endif
