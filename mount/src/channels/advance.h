/* Threads and children that are allowed in advance. A process that makes one often makes the next soon. So when one is born the
   server reserves another, if the limits allow it, and the supervisor does not have to wait for an answer to make it. A
   reservation is a word of memory that both share: the supervisor takes it, or the server takes it back. */
#ifndef ADVANCE_H
#define ADVANCE_H

#include <stdbool.h>
#include <sys/types.h>

/* Before the server starts. False with errno if there is no memory. */
bool advance_begin(void);
/* The server's part. Whether the process has fewer than it may have; a reservation for it, which returns one that nobody can use
   any more, or 0. */
bool advance_wants(pid_t process, bool is_thread);
/* Both are called with the engine's lock. */
unsigned advance_give(pid_t process, bool is_thread, unsigned reservation);
/* The next one that nobody has taken, of any process. 0: there is none. The server calls it, with
   the engine's lock. */
unsigned advance_take_any(void);
/* The part of both: one of this process, or 0. The supervisor takes one before a call, the server
   at the end of a process. */
unsigned advance_take(pid_t process, bool is_thread);

#endif
