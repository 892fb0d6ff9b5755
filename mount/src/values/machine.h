/* What the machine has: processors, memory nodes and block devices. It is read once, before the mount answers: in a run the
   program could hold later look-ups in /sys back, or cover them. */
#ifndef MACHINE_H
#define MACHINE_H

#include "values/number_ranges.h"

enum machine_list { CPUS_POSSIBLE, CPUS_ONLINE, NODES_POSSIBLE, NODES_WITH_MEMORY, MACHINE_LISTS };

/* False if out of memory. What the machine does not report counts as one processor, one node and
   no device. It waits for /sys, before the mount. */
bool machine_read(void);
const struct number_ranges *machine_has(enum machine_list which);
/* Whether it is a block device, and no part of one. */
bool machine_has_disk(unsigned major, unsigned minor);

#endif
