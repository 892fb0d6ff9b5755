/* The processes of a program under the supervisor (run), as the hierarchy has them. A fork is decided once, by a
   reservation, before the kernel makes the child: lowering a limit afterwards does not undo it. All require the engine's
   lock. */
#ifndef RUN_PROCESSES_H
#define RUN_PROCESSES_H

#include <stdbool.h>
#include <sys/types.h>

/* 0 and a reservation, or -errno. `group` is NULL, or the group of a child that is born in another group than its parent's. A
   thread is born in its process's. */
int run_processes_reserve(pid_t parent, const char *group, bool is_thread, unsigned *reservation);
/* The child exists and has not run: 0, or -errno if the hierarchy cannot take it (-ESRCH: a kill in the hierarchy reached
   it). The reservation ends. `frozen`: it starts in a frozen group. */
int run_processes_born(unsigned reservation, pid_t child, bool *frozen);
/* An operation of the file system begins: no thread that was not made yet is allowed in advance (advance.h). */
void run_processes_operation(void);
/* A process is a zombie: it counts until its parent waits for it, and is no longer listed. A
   thread is gone. It cannot fail: what it needs was taken before the birth. */
void run_processes_exited(pid_t pid);

/* Zombies that were waited for exit, and an exit whose line could not be kept is tried again. 0 or -ENOMEM */
int run_processes_sweep(void);
/* A move of a process to a group: 0, -errno, or 1 for a zombie, which does not move. */
int run_processes_move(pid_t pid);
/* Before a group is removed: zombies do not keep it from being removed, and then count above it. 0 or -errno */
int run_processes_leave(const char *group);
/* A kill in the hierarchy reached it. True if the real process has to be killed. */
bool run_processes_kill(pid_t pid);

#endif
