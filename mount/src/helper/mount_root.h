/* The root of the mount, and the group of a directory that is open in the program. */
#ifndef MOUNT_ROOT_H
#define MOUNT_ROOT_H

#include "common/group_paths.h"
#include <stdbool.h>
#include <sys/types.h>

/* Keeps the mount's root open, so that a mount of the program over it has no effect. */
bool mount_root_begin(void);
void mount_root_end(void);
int mount_root_descriptor(void);
/* Opens a file below the mount's root, and never one that the program has mounted there. Behind a listing of a directory that the
   program holds back, and a mkdir there, it waits. */
int mount_root_open(const char *path, int flags);
/* Finds the directory of the files of a run, before the program runs: false with errno. Then opens one of them: it waits for no lock that
   the program can hold. */
bool mount_root_find_hidden(void);
int mount_root_open_hidden(const char *path, int flags);
/* 0, or the kernel's errno for a clone3 into this descriptor: -EBADF if it is not the directory of a group, -ENOENT if that
   group was removed, -ENOMEM. It asks the server for the path of this very directory, and looks up no name in the mount: the
   program can keep look-ups there waiting. */
int mount_root_group_of(pid_t thread, int fd, char group[PATH_MAX_SAID]);
/* Whether it is a file of the mount whose name begins like this, as hidden ones at its root. */
bool mount_root_has_file(int fd, const char *begins);
/* Whether a descriptor of this process (also one with O_PATH) is in the mount. It sends no request to a file system. */
bool mount_root_has(int fd);

#endif
