/* Signals to makhloeum that are meant for the program: each that a process outside sends to the supervisor reaches the program's first
   process once, also if the sender signals both, as a manager does that signals all processes of a service. */
#ifndef MOUNT_SIGNALS_H
#define MOUNT_SIGNALS_H

#include <stdbool.h>
#include <sys/types.h>

/* From now on the descriptor receives SIGCHLD and the signals that are passed on, and all others
   are ignored; -1. The descriptor never blocks. */
int signals_receive(void);
/* Takes what has come. A process of the run is known while its end has not been handled, so this is called before. */
void signals_hear(pid_t program);
/* Passes on what was taken. The milliseconds after which some are to be passed on; -1: none wait. */
int signals_pass_on(pid_t program);
/* Whether a signal was taken and waits to be passed on. */
bool signals_waits(int signal);
/* At the stop before a thread of the first process gets a signal: the signal, or 0 if it has had it already. */
int signals_once(pid_t thread, int signal);
/* Job control's stops. */
bool signals_is_stop(int signal);

#endif
