/* Calls that the helper makes in place of a thread of the program, in a process that has what the thread has: namespaces, root,
   working directory, user and capabilities. The kernel acts on the arguments that were looked at; the program, which could change
   its own at any time, cannot change these. */
#ifndef STAND_IN_H
#define STAND_IN_H

#include <stdbool.h>
#include <sys/types.h>

/* A namespace of a thread (`user`, `mnt`, ..), or -1 with errno; and whether it is that of this process too. */
int stand_in_open_space(pid_t thread, const char *which);
bool stand_in_is_own(int space, const char *which);
/* The thread's capability in its own user namespace. */
bool stand_in_may(pid_t thread, int capability);

/* Makes the call, which may do only what is allowed after a fork of a process with threads.
   Returns its result, an errno or 0; or why it could not be made. The thread has to be stopped in
   a call meanwhile. It waits for the call, as long as the program lets it last. */
int stand_in_call(pid_t thread, int (*call)(const void *argument), const void *argument);

#endif
