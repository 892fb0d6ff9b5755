/* Owners, modes and times of groups and files. They are stored and shown, and decide nothing: the mount belongs to one user. */
#ifndef OWNER_H
#define OWNER_H

#include "server/nodes.h"
#include <fuse3/fuse_lowlevel.h>

/* All require the engine's lock. A new group, and its maker; NULL: that of the mount. */
void owner_begin(struct group_state *r, const struct inode_fields *maker);
/* Fills in what a stat shows. */
void owner_apply(const struct node *node, struct stat *st);
/* Stores what is named in `fields` (FUSE_SET_ATTR_..). 0 or -ENOMEM */
int owner_set(const struct node *node, const struct stat *st, int fields);
/* A group was made or removed in this one. */
void owner_touch(struct group_state *r);
void owner_forget(struct group_state *r);

#endif
