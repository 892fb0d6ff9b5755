/* What the supervisor tells in memory that it shares with the server: births and ends of threads and ends of processes, in their
   order. It waits for nobody. Whoever has the engine's lock reads all of it before anything else, so it makes no difference when
   the server is woken. */
#ifndef SUPERVISOR_EVENTS_H
#define SUPERVISOR_EVENTS_H

#include <stdbool.h>
#include <sys/types.h>

/* Before the server starts. False with errno if there is no memory. */
bool supervisor_events_begin(void);
/* The supervisor's part: a thread was born by this reservation, or with 0 a thread or a process has ended. False if there is no
   room. */
bool supervisor_events_put(unsigned reservation, pid_t thread);
/* The server's part: the next event; false if there is none. */
bool supervisor_events_take(unsigned *reservation, pid_t *thread);

/* While the server kills, no number that it knows may become another process's. So it says first that it kills, and then hears the
   events. Who tells of an end asks afterwards whether it does: then the number stays taken until the server has answered. */
void supervisor_events_set_kills(bool kills);
bool supervisor_events_is_killing(void);

#endif
