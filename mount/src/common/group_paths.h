/* Paths of groups. */
#ifndef GROUP_PATHS_H
#define GROUP_PATHS_H

#include "common/bounds.h"
#include <stdbool.h>

/* Under `run`: where the hierarchy is mounted, and its name in mount tables; `makhloeum mount` has another. */
extern const char cgroup_mount[], cgroup_source[];
/* Under `run` each group has this attribute, which no list shows: the path of the group. A request by a descriptor looks up no
   name. */
extern const char group_attribute[];

/* Bytes of a path with its zero byte. */
enum { PATH_MAX_SAID = PATH_BYTES + 1 };

/* The group above; the root's is the root. */
void go_up(char *group);
bool is_root(const char *group);
/* The path of a group as it is seen if another group is the root: /../x if it is not below that group. */
void seen_from(const char *root, const char *group, char out[PATH_MAX_SAID]);
/* Whether the first is the second, or below it. */
bool is_at_or_below(const char *group, const char *top);

#endif
