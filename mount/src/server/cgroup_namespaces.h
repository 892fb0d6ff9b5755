/* Cgroup namespaces of the program: the root of each is the group of its first process. They are known by the kernel's number.
   If nobody under this supervisor made one, its root is the hierarchy's. */
#ifndef CGROUP_NAMESPACES_H
#define CGROUP_NAMESPACES_H

#include <sys/types.h>

/* All require the engine's lock. A call of the process is about to make a namespace: 0, or -ENOMEM if it may not,
   since its root cannot be kept. `call` is a number by which the supervisor knows it. `into`: the group in which a clone3 puts its
   child; NULL: the child is born in the group of the process, or the process itself enters the namespace. */
int cgroup_namespaces_prepare(unsigned call, pid_t process, const char *into);
/* It has made this namespace; 0: it has made none. */
void cgroup_namespaces_made(unsigned number, unsigned call);
const char *cgroup_namespaces_root(unsigned number);

#endif
