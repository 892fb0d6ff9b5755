/* The threads of the program's processes. Each is a number of its own in the hierarchy, as its process is: so each counts. The
   number of a thread is the kernel's; that of the first thread is its process's. All require the engine's lock. */
#ifndef TASKS_H
#define TASKS_H

#include <stdbool.h>
#include <sys/types.h>

/* A new thread of a process; or the number is that of a new process from now on. */
void tasks_add(pid_t thread, pid_t process);
void tasks_begin_process(pid_t process);
/* It has ended. Its number stays that of a thread: an undo can bring it back into the hierarchy. */
void tasks_drop(pid_t thread);

/* Whether the number is that of a thread, and not of its process. */
bool tasks_is_thread(pid_t number);
/* Whether there was ever one. */
bool tasks_any(void);
/* The process of a thread that has not ended; else the number itself. */
pid_t tasks_process(pid_t number);
/* The next thread of the same process: of a process its first, 0 after the last. Those that have ended are left out. */
pid_t tasks_next(pid_t number);

/* Moves a process that is in the hierarchy, with all its threads. 0 or -errno */
int tasks_move(pid_t process, const char *group);

#endif
