/* Inode numbers, by which the kernel names groups and files: each group has one for as long as it exists, and the numbers after
   it are those of its files. No number is used again. A group that was removed keeps its number until the kernel forgets it. */
#ifndef NODES_H
#define NODES_H

#include "server/group_state.h"

/* A value, which is used up within one request: the state that it points to may be dropped
   afterwards. */
struct node {
	struct group_state *group; /* NULL: the control directory, or something in it */
	const struct file *file; /* NULL: the group itself */
	long control; /* of what is in the control directory (control.h) */
};

/* All require the engine's lock. 0; -ENOENT: the kernel has no such number from here. */
int nodes_find(uint64_t number, struct node *out);
uint64_t nodes_number(const struct node *node);
/* The directory above a directory; the root's is the root. 0 or -ENOMEM */
int nodes_find_above(const struct node *node, struct node *out);
/* What a name in a directory is of: 0 or -errno. The kernel finds what a file handle is of as "." or ".." of its number. */
int nodes_find_below(const struct node *directory, const char *name, struct node *out);
/* The path of a name in a directory. 0 or -ENAMETOOLONG */
int nodes_path(const struct node *directory, const char *name, char out[PATH_MAX_SAID]);
bool nodes_is_directory(const struct node *node);
/* The mode that decides what may be opened: owners and modes that programs set are only shown. */
mode_t nodes_mode(const struct node *node);
/* Whether this user may read or write it (R_OK, W_OK), by that mode: 0 or -EACCES. */
int nodes_may(const struct node *node, int mask, uid_t uid);
/* The kernel looked it up; and forgot some of its look-ups. */
void nodes_known(const struct node *node);
void nodes_forget(uint64_t number, uint64_t count);

#endif
