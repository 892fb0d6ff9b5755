/* Processes that have ended and are still in the hierarchy: zombies until their parent waits for them, and those whose exit
   could not be kept because the trace had no room. All require the engine's lock. */
#ifndef ZOMBIES_H
#define ZOMBIES_H

#include <stdbool.h>
#include <stddef.h>
#include <sys/types.h>

/* Before a process is made: room for its end, for that of all others, and for a number of others, which have no process yet. Then there is
   room when one ends, which must not fail. 0 or -ENOMEM */
int zombies_make_room(size_t more);
/* It has ended. It may have been waited for, and another process may have its number. It opens a
   descriptor of the process if it may, and looks up no path. */
void zombies_add(pid_t pid);
/* There is no such process any more: only its exit is missing. */
void zombies_add_gone(pid_t pid);
/* Sends the exits of those that were waited for. 0, or -ENOMEM: then some of them still count. Each that the kernel does not
   name has to be looked at; without `looks_at_all` that is done for a few. */
int zombies_sweep(bool looks_at_all);
/* Whether the number is free in the hierarchy for a new process that has it in the kernel: an older process of that number
   is gone, whatever else is known. */
bool zombies_settle(pid_t pid);
bool zombies_has(pid_t pid);
/* True if it was one. The hierarchy no longer has it. */
bool zombies_forget(pid_t pid);
size_t zombies_count(void);

#endif
