/* Extended attributes in the namespace `user`, of groups and of their files. */
#ifndef ATTRIBUTES_H
#define ATTRIBUTES_H

#include "server/group_state.h"
#include <fuse3/fuse_lowlevel.h>

/* For libfuse. */
void attributes_set(fuse_req_t req, fuse_ino_t number, const char *name, const char *value, size_t size, int flags);
void attributes_get(fuse_req_t req, fuse_ino_t number, const char *name, size_t room);
void attributes_list(fuse_req_t req, fuse_ino_t number, size_t room);
void attributes_remove(fuse_req_t req, fuse_ino_t number, const char *name);

/* Wants the engine's lock. */
void attributes_forget(struct group_state *r);

#endif
