/* Values of other controllers, which are stored and returned. One table has each file with its parser, its normal form, its
   value in a new group, and which groups have it. The values of a group are remembered with it; the engine has none of
   them.

   The folder values: the table of a group's files, the controllers, and the parsers of what is written to kept values.
   Who runs it: the server, with the engine's lock. A parser changes nothing until the whole value is accepted.
   It waits for nothing. It may not look up a path: what the machine has is read once before the mount (machine.h), since the program
   could keep a later look-up in /sys waiting, or cover what it shows. It knows no process of a run. */
#ifndef VALUES_H
#define VALUES_H

#include "server/group_state.h"

extern const struct file values_files[];
extern const size_t values_count;

/* All require the engine's lock. The last value that this file of the group accepted, else the one of a new group. */
const char *values_kept(const char *group, const char *name);
/* Stores it. 0 or -ENOMEM. */
int values_keep(const char *group, const char *name, const char *text);
/* Drops the values of these controllers. */
void values_forget(struct group_state *r, unsigned controllers);

/* The write of any kept file. */
int values_write(const char *group, const struct file *file, const char *data, size_t size);

/* values_cpu.c */
int cpu_take_max(const char *group, const struct file *file, const char *said, char out[TEXT_ROOM]);
int cpu_take_burst(const char *group, const struct file *file, const char *said, char out[TEXT_ROOM]);
int cpu_take_weight(const char *group, const struct file *file, const char *said, char out[TEXT_ROOM]);
int cpu_take_nice(const char *group, const struct file *file, const char *said, char out[TEXT_ROOM]);
int cpu_take_idle(const char *group, const struct file *file, const char *said, char out[TEXT_ROOM]);
int cpu_show_weight(const char *group, const struct file *file, char out[TEXT_ROOM]);
int cpu_show_nice(const char *group, const struct file *file, char out[TEXT_ROOM]);
int cpu_stat_show(const char *group, const struct file *file, char out[TEXT_ROOM]);
/* values_memory.c */
int memory_take_limit(const char *group, const struct file *file, const char *said, char out[TEXT_ROOM]);
int memory_take_switch(const char *group, const struct file *file, const char *said, char out[TEXT_ROOM]);
/* values_io.c */
int io_take_max(const char *group, const struct file *file, const char *said, char out[TEXT_ROOM]);
int io_take_weight(const char *group, const struct file *file, const char *said, char out[TEXT_ROOM]);
/* values_cpuset.c */
int cpuset_take_list(const char *group, const struct file *file, const char *said, char out[TEXT_ROOM]);
int cpuset_take_partition(const char *group, const struct file *file, const char *said, char out[TEXT_ROOM]);
int cpuset_show_effective(const char *group, const struct file *file, char out[TEXT_ROOM]);
int cpuset_show_partition(const char *group, const struct file *file, char out[TEXT_ROOM]);

#endif
