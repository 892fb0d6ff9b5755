/* The file that an open of the program would open. It is found as the kernel finds it for that thread: from its root and
   its directory, through its /proc/self and its descriptors. A file system of the program can delay any of this for any
   time. */
#ifndef PATH_LOOKUP_H
#define PATH_LOOKUP_H

#include <stdbool.h>
#include <stdint.h>
#include <sys/types.h>

/* Before the first look, and before the program makes a call. */
void path_lookup_begin(pid_t program);
/* Whether the file is certainly not of /proc, or is not there, by the usual rules: most are known at little cost. */
bool path_lookup_stays_outside_proc(pid_t thread, int directory, const char *path, bool follows);
/* A descriptor (O_PATH) of the file, or -1 and errno: ENOMEM only if memory did not suffice to find it. `resolve`: rules of
   openat2, of which RESOLVE_CACHED is left out. `before`, if it isn't NULL, becomes a descriptor of the directory in which a file of
   /proc was found, or -1 if the path has only one step or leads elsewhere. */
int path_lookup_find(pid_t thread, int directory, const char *path, bool follows, uint64_t resolve, int *before);
/* The same for a descriptor of the thread. */
int path_lookup_of_descriptor(pid_t thread, int fd);
/* The open file itself, which both have then. It belongs to the caller. */
int path_lookup_take(pid_t thread, int fd);
/* Whether two threads see the same process numbers. */
bool path_lookup_same_numbers(pid_t a, pid_t b);
/* The process of a thread, in the numbers of this process. */
pid_t path_lookup_process_of(pid_t thread);
/* Whether the number, in the numbers of the asking thread, is that of a thread of makhloeum. */
bool path_lookup_is_own(pid_t thread, pid_t number);
/* The process that has this number, or a thread with it, in the numbers of the asking thread. -1: there is none; another
   -errno if it can't be known. */
pid_t path_lookup_seen_from(pid_t thread, pid_t number);
/* The same for a thread of this process. */
pid_t path_lookup_thread_seen_from(pid_t thread, pid_t process, pid_t number);

#endif
