/* The processes at and below a group. */
#ifndef MEMBERS_H
#define MEMBERS_H

#include <stdbool.h>
#include <sys/types.h>

/* Requires the engine's lock. Calls `take` for each process, with its group, until one does not return 0, and returns that;
   or -errno if the processes cannot be listed. With `all` every number comes: zombies and threads too. */
int members_each(const char *top, bool all, int (*take)(pid_t pid, const char *group));

#endif
