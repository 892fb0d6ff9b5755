/* Controllers: which a group has, which its children have, and what follows from that. The engine is the pids controller.
   The others only store values (--keep): their files check values and return them, and nothing is limited. Without any kept
   controller each group has pids, and nothing can be turned off. */
#ifndef CONTROLLERS_H
#define CONTROLLERS_H

#include "values/files.h"

/* In the kernel's order. */
/* Bits: a set of controllers is an unsigned number. */
enum { HAS_CPUSET = 1, HAS_CPU = 2, HAS_IO = 4, HAS_MEMORY = 8, HAS_PIDS = 16 };

/* Reads the names of --keep, with commas between; false if one of them is unknown. */
bool controllers_keep(const char *names);
/* Which are kept, and 0 for none. */
unsigned controllers_kept(void);

/* All below require the engine's lock. Whether a group has this file now. */
bool controllers_have(const char *group, const struct file *file);
/* 0; -EBUSY or -EOPNOTSUPP if the group may have no processes because it enables controllers for its children; -ENOMEM. */
int controllers_may_enter(const char *group);

/* cgroup.controllers, cgroup.subtree_control, cgroup.type. */
int controllers_show(const char *group, const struct file *file, char out[TEXT_ROOM]);
int subtree_show(const char *group, const struct file *file, char out[TEXT_ROOM]);
int subtree_write(const char *group, const struct file *file, const char *data, size_t size);
int type_show(const char *group, const struct file *file, char out[TEXT_ROOM]);
int type_write(const char *group, const struct file *file, const char *data, size_t size);

#endif
