/* The births and deaths of a program, as its tracer sees them.

   The folder supervisor: the tracer of a run's program.
   Who runs it: the supervisor, in one thread, without a lock. It waits for ptrace stops, for signals, and for its sockets to the server
   and to the helper. It waits for nothing else, since all threads of the program wait for it. So it looks up no path, opens, reads and
   writes no file, and does not touch the program's memory: each can be in a file system of the program, or behind a lock that the kernel
   holds for a thread that waits for one. (One look-up in /proc remains on kernels before 6.11: see namespaces_cgroup_of.)
   It waits for an answer of the server, which waits for nobody but the engine's lock. A server that the program has stopped is
   continued meanwhile. It never waits for an answer of the helper, whose threads may block on the program. */
#ifndef TRACER_H
#define TRACER_H

#include <stdbool.h>
#include <sys/types.h>

/* Attaches to the program before it runs; false with errno. If the tracer dies, the kernel kills everything that is left.
    */
bool tracer_hold(pid_t program);
/* Handles what has happened: it takes every pending stop and death, and then answers each stop once. True if there were too many to
   take at once. What happens afterwards comes with another SIGCHLD. */
bool tracer_look(void);
/* Stops and continues what the freezer says; true if it says more than was done. */
bool tracer_obey(void);
/* True once the program has ended, with its wait status. */
bool tracer_has_ended(int *status);
/* Kills everything that the program left behind. */
void tracer_end_rest(void);

#endif
