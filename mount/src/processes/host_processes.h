/* Real processes in the hierarchy: those that were written to cgroup.procs (mount --adopt), or those of a program under the
   supervisor (run). Without either, a process is only a number, and no real process is ever touched.

   The folder processes: the processes and threads of the hierarchy, as the server knows them.
   Who runs it: the server, with the engine's lock.
   Under `run` it waits for nothing and looks up no path: the supervisor tells of each birth and each end, and waits for the answer
   to a question. With --adopt no supervisor waits, and it reads /proc with the lock.
   All memory that an end of a process needs is taken before its birth: an end must not fail.
   It may not trace a process or touch its memory, and kills only processes that it has a descriptor of, or whose number is held. */
#ifndef HOST_PROCESSES_H
#define HOST_PROCESSES_H

#include <stdbool.h>
#include <sys/types.h>

bool host_processes_adopt_all(void); /* for mount --adopt */
void host_processes_are_reported(void); /* for run */

/* The rest requires the engine's lock. */

/* Before an operation: sends the engine an exit for each that died, and a fork for each child that it does not know. 0, or
   -ENOMEM if it could not look at all of them: then the operation fails. */
/* It may read /proc with --adopt. Under `run` it waits for nothing. */
int host_processes_sweep(void);
/* The process of a thread. */
pid_t host_processes_process_of(pid_t thread);
/* Before a move: a process that the engine does not have is forked from process 1, and is new. 0 or -errno; 1 for a zombie,
   which does not move. */
int host_processes_adopt(pid_t pid, bool *is_new);
/* The move of a new one failed. */
void host_processes_disown(pid_t pid);

/* Before a kill, lists the real processes at and below a group: 0 or -errno. After it, kills them. */
int host_processes_note(const char *group);
void host_processes_kill_noted(void);

#endif
