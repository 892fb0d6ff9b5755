/* The system calls at which a thread stops: what the supervisor does before and after one. births.c has those that make a process or
   a thread. The supervisor calls these functions, in its only thread, for a thread that is at a stop of ptrace. */
#ifndef CALLS_H
#define CALLS_H

#include "supervisor/threads.h"

struct helper_reply;

/* The thread is at the stop before a call: it continues, is refused, or waits for an answer of the server or the helper. */
void calls_before(struct thread *t);
/* The thread is at the stop after a call; in strict mode also before one. */
void calls_after(struct thread *t);
/* The answer of helper_count_filters or helper_copy_filter, for which the thread waits. */
void calls_filters(const struct helper_reply *reply);
/* The thread has ended, or another has its number by an exec: its call is forgotten, and the server forgets the cgroup namespace that it
   was about to make. */
void calls_abandon(struct thread *t);

#endif
