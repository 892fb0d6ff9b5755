/* Mounts that the program makes. One of type cgroup2 becomes a bind of the hierarchy. Another new file system of a superuser is
   mounted in place of the caller, who could put the type cgroup2 into memory after it was looked at. */
#ifndef MOUNTING_H
#define MOUNTING_H

#include <linux/seccomp.h>
#include <stdbool.h>
#include <stddef.h>
#include <sys/types.h>

/* mount: true if the kernel must not look at it, and then the errno of the answer. The caller still exists as long as `call` is
   valid at the listener. */
bool mounting_takes(int listener, const struct seccomp_notif *call, int *error);
/* fsopen: true if the kernel must not look at it, and then the descriptor that it returns, or -errno. */
bool mounting_opens(int listener, const struct seccomp_notif *call, int *opened);
/* A copy of the hierarchy's mount with more attributes (MOUNT_ATTR_..), starting at this group: a
   descriptor or -errno. The descriptor belongs to the caller, and with its last copy the mount is
   gone unless it was attached. */
int mounting_copy(const char *group, unsigned attributes);
/* Mounts such a copy on a file or directory, as the thread may: 0 or an errno. */
int mounting_attach(pid_t thread, int tree, int target);
/* The root of a thread's cgroup namespace: 0 or -errno. */
int mounting_root(pid_t thread, char *out, size_t size);

#endif
