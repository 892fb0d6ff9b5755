/* The namespaces of a thread: numbers of processes as a program has them that is in another PID namespace, and the number of its
   cgroup namespace. */
#ifndef NAMESPACES_H
#define NAMESPACES_H

#include <stddef.h>
#include <sys/types.h>

/* A descriptor of a thread's PID namespace. -1: it is that of this process, or the kernel does not
   translate numbers (before Linux 6.11). It may wait for the program: so it is asked without the
   engine's lock. The caller closes it. */
int namespaces_pid_of(pid_t thread);
/* The number here of whom that namespace calls so; 0: it has no such process. */
pid_t namespaces_pid_here(int space, pid_t number);
/* The number in that namespace of whom this process calls so; 0: it has no such process. */
pid_t namespaces_pid_there(int space, pid_t number);
/* A list of numbers, a line for each, as a reader in that namespace sees it: 0 is a process that it does not see. `out` has room
   for NAMESPACES_MORE times the size. Returns the new size. */
enum { NAMESPACES_MORE = 4 };
size_t namespaces_pid_list(int space, const char *list, size_t size, char *out);

/* The number of a thread's cgroup namespace; 0: it can't be known. It looks up no path, but before Linux 6.11 one in /proc. */
unsigned namespaces_cgroup_of(pid_t thread);

#endif
