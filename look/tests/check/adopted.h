/* Real processes of a test's file system, and the process that makes the changes which inotify reports. */
#ifndef ADOPTED_H
#define ADOPTED_H

#include "makhloeum.h"
#include <sys/types.h>

/* Forks of known processes and their deaths. Whether a child was found. */
bool adopted_look(mk_handle *engine, bool in_root, bool exits_late);
/* Makes a process known, if there is such a one. */
bool adopted_add(mk_handle *engine, pid_t pid);
/* Kills the processes of a group and of those below it; 0 or -errno. */
int adopted_kill(mk_handle *engine, const char *group, bool alone);

bool touch_begin(const char *mountpoint);
/* inotify reports the file as modified, this number of times. */
void touch_later(const char *group, const char *name, int times);

#endif
