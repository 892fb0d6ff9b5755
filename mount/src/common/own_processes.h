/* The processes that makhloeum makes of itself, which are children of the one that makes them. A program, which has the same user, can
   stop and kill them. */
#ifndef OWN_PROCESSES_H
#define OWN_PROCESSES_H

#include <stdbool.h>
#include <sys/types.h>

/* In the child: the kernel kills it when its parent ends, also while it is stopped. False if the parent has ended already.
   `parent` is the number that the parent had before the fork. */
bool own_processes_die_with(pid_t parent);

/* From now on this process ends by no signal that another sends, but SIGKILL. A program or a manager may send one to all processes. */
void own_processes_ignore_signals(void);

/* Lets this process have as many descriptors as it may. The server has a descriptor for each
   zombie, open table and adopted process. */
void own_processes_raise_files(void);
/* .. and files as long. */
void own_processes_raise_sizes(void);

/* In the process that makes them. The child was made. */
void own_processes_add(pid_t child);
/* The child was waited for: another process may have its number from now on. It is called right
   after the wait, in the same thread: no signal goes to the number in between. */
void own_processes_gone(pid_t child);
/* Kills it, unless it was waited for. */
void own_processes_kill(pid_t child);
/* After all were killed, at the end of the process that made them: waits for those that were not waited for, at most two seconds. The
   machine's init may wait for none. */
void own_processes_wait(void);

#endif
