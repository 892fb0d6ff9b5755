/* A mount of cgroup2 that is made step by step. The program's descriptor of it is an open file of the mount (channels/mount_steps.h),
   which each of these calls looks for among the caller's descriptors: the kernel answers those of other file systems. */
#ifndef HELPER_MOUNT_CONTEXTS_H
#define HELPER_MOUNT_CONTEXTS_H

#include <linux/seccomp.h>
#include <stdbool.h>

/* fsopen: the descriptor that it returns, or -errno. */
int mount_contexts_open(const struct seccomp_notif *call);
/* True if the kernel must not look at it. fsconfig: and then the errno of the answer. */
bool mount_contexts_configures(const struct seccomp_notif *call, int *error);
/* fsmount, fspick: and then the descriptor that it returns, or -errno. That of fsmount is no mount any more, since none can be handed to
   a caller: it keeps the group and the attributes, and move_mount makes the mount. */
bool mount_contexts_mounts(const struct seccomp_notif *call, int *opened);
bool mount_contexts_picks(const struct seccomp_notif *call, int *opened);
/* move_mount: and then the errno of the answer. */
bool mount_contexts_moves(const struct seccomp_notif *call, int *error);

#endif
