/* The texts of /proc that mention cgroups: cgroup, cpuset and the tables of mounts of a process, and /proc/cgroups. */
#ifndef PROCFILES_H
#define PROCFILES_H

#include <sys/types.h>

/* If the file (O_PATH) is one of these, a descriptor of the text that the thread has to see in its
   place, or -errno if it cannot be made. -1 for any other file, and for one of a process that is
   gone. `from`: the directory in which it was found, or -1. The descriptor belongs to the caller,
   who gives a copy to the program. */
int procfiles_text(pid_t thread, int file, int from);

#endif
