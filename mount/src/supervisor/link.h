/* The supervisor's questions to the server (channels/questions.h). */
#ifndef LINK_H
#define LINK_H

#include <stdbool.h>
#include <sys/types.h>

/* A pair of ends; false if it cannot be made. Before the server starts: the supervisor keeps
   ends[0]. */
bool link_make(int ends[2]);
/* The supervisor's side; `process` is the server. */
void link_use(int end, pid_t process);
/* 0 and a reservation, or the negated errno if the process may not make a child (in a group, if that is not NULL), or a thread.
   If the server has died, nothing may be made. */
int link_reserve(pid_t parent, const char *group, bool is_thread, unsigned *reservation);
/* 0, or a negated errno if the child may not run. The reservation has ended. `frozen`: it stays at its first stop. */
int link_born(unsigned reservation, pid_t child, bool *frozen);
void link_cancel(unsigned reservation);
/* A new thread exists; a thread or a process has ended. The server is not waited for: whatever anyone asks it later, it knows this
   first. */
void link_thread_born(unsigned reservation, pid_t thread);
void link_thread_ended(pid_t thread);
void link_exited(pid_t pid);
/* Wakes the server if events wait for a while. Returns how long until the next call is needed: in milliseconds, -1 for never. */
int link_wake_late(void);
/* All threads of a frozen process rest, or no longer do. */
void link_stopped(pid_t pid, bool stopped);
/* A call of the process is about to make a cgroup namespace, which begins at this group, or with NULL at the one that the process is
   in: 0, or the negated errno if it may not. `call` is a number by which the caller knows it. Then: it has made this one, or with
   number 0 none. */
int link_prepare(unsigned call, pid_t process, const char *group);
void link_namespace(unsigned number, unsigned call);
/* The next process that has to stop or to continue; false if there is none. */
bool link_order(pid_t *pid, bool *stop);

#endif
