/* Files below the root of a mount, opened without ever leaving the mount: whatever a program has mounted or linked there,
   another file system is not reached. */
#ifndef BENEATH_H
#define BENEATH_H

#include <stdbool.h>

/* Opens /a/b below the root; -1 with errno. `flags` as of open; the descriptor belongs to the
   caller, and closes at an exec. */
int beneath_open(int root, const char *path, int flags);

/* Which mount a descriptor is in, also one with O_PATH. */
struct mount_id {
	unsigned major, minor;
	unsigned long long mount;
};
/* False with errno. It sends no request to the file system. */
bool beneath_identify(int fd, struct mount_id *out);
/* Whether both are in one file system; they may be in different mounts of it. */
bool beneath_is_same_system(const struct mount_id *a, const struct mount_id *b);
bool beneath_is_same_mount(const struct mount_id *a, const struct mount_id *b);

#endif
