/* Frozen processes: each of their threads stays at its next stop until the server says that the process continues. */
#ifndef FROZEN_THREADS_H
#define FROZEN_THREADS_H

#include "supervisor/threads.h"

/* The eventfd by which the server reports orders. */
void frozen_threads_begin(int wake);
/* Handles some of the pending orders; true if there may be more. `call` continues a thread that is at the stop before a
   call. */
bool frozen_threads_take_orders(void (*call)(struct thread *t));
/* At a stop: whether the thread stays there. */
bool frozen_threads_keeps(struct thread *t, enum rest how);
/* The thread has come to another stop. */
void frozen_threads_moves(struct thread *t);
/* After a stop from which the thread continued: interrupts it again if it has to stay, because at every stop the kernel
   drops an earlier interruption. */
void frozen_threads_insists(struct thread *t);
/* It rests although nobody asked: a signal stopped it. */
void frozen_threads_listens(struct thread *t);
/* It waits for the child that it has made by vfork, until the stop after that. */
void frozen_threads_vforks(struct thread *t);
/* A frozen process whose first thread may be ending is looked at again. Returns how long until the next look is needed: in
   milliseconds, -1 for never. */
int frozen_threads_look_again(void);
/* The thread is about to be dropped. */
void frozen_threads_forget(struct thread *t);
/* After a change: tells the server whether all threads of the process rest now. It may wait for
   the server. */
void frozen_threads_tell(pid_t process);

#endif
