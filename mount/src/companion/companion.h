/* The second process of a mount, beside the server.

   The folder companion: the process that sets the time of a changed file through the mount, so that inotify reports the change.
   Who runs it: the companion, a child of the process that mounts. Only what this header declares runs elsewhere: companion_start
   before the server starts, companion_show after the mount, companion_tell_now in the server, and companion_tell in a thread of the
   server without the engine's lock, since it waits while the companion is busy.
   The companion may wait for the mount, and so for the server and for the program: nobody waits for it but that thread. It looks up
   paths only below the root of the mount (common/beneath.h): whatever the program mounts there is not reached.
   It may not touch the engine, and no process of the program. */
#ifndef COMPANION_H
#define COMPANION_H

#include "common/beneath.h"
#include <stdbool.h>
#include <sys/types.h>

/* The mark: a time of modification, before 1970, whose setting the server leaves out. The companion sets it so that inotify reports a
   change (companion.c). */
enum { MARK = 0x6d6b6872 };

struct companion {
	int to; /* the socket on which it receives paths; -1: there is none */
	pid_t process; /* of a run: a child of the supervisor */
};

/* Starts it; false with errno. `root`: of a run, the root of its mount, which the program may have covered. With -1 it looks
   the mount up for each path, since an open descriptor would keep the mount from being unmounted, and unmounts it if the
   server died. */
bool companion_start(struct companion *out, const char *mountpoint, int root);
/* Which mount it is, with root -1. False with errno. */
bool companion_show(int to, const struct mount_id *which);
/* The text of the file has changed: /GROUP/FILE. Waits while the companion is busy, and does nothing once it has ended. The caller
   has no lock. */
void companion_tell(int to, const char *path);
/* The same without waiting: false if the companion is busy too. */
bool companion_tell_now(int to, const char *path);

#endif
