/* Notification of changed files: wakes those that poll a file, and those that watch it by inotify. A file system cannot see
   an inotify watch. So each notified file that was ever looked up is remembered with its group, and is compared with its
   last text when something changes in the group or below it. */
#ifndef WATCH_H
#define WATCH_H

#include "server/group_state.h"

/* inotify reports only a change that is made through the mount, and the process that serves it must never make one. So a
   companion process makes the change, and receives its path by a socket. `root`: of a run, the root of its mount; -1: the
   companion looks the mount up, and unmounts if the server died. False with errno. */
bool watch_begin(const char *mountpoint, int root);
/* With root -1, once it is mounted. */
void watch_mounted(const char *mountpoint);
/* In the supervisor: closes its end of the companion's socket, and returns the companion. */
pid_t watch_leave(void);

/* The rest requires the engine's lock. A notified file was looked up. 0 or -ENOMEM */
int watch_seen(const char *group, const struct file *file);
/* The processes of a group, or its refused forks, have changed: its files and those above it may have changed. */
/* The calls below compare at once, and wait for nobody. */
void watch_above(const char *group);
/* Those of a group and of groups below it have changed: its files, those below it and those above it may have changed. */
void watch_below(const char *group);
/* The same as watch_above for the group that the process is in, if it is in any. */
void watch_process(pid_t pid);
void watch_forget(struct group_state *r);

#endif
