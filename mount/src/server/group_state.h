/* What the mount remembers of each group beside the engine: its inode number, its open files, its watched files, owners, times,
   extended attributes, values of kept controllers, and what was frozen. A group is remembered from its first look-up on. When
   it is removed, its values go at once; the rest goes when the kernel forgets it, so that what is still open can be asked. */
#ifndef GROUP_STATE_H
#define GROUP_STATE_H

#include "common/group_paths.h"
#include "values/files.h"
#include <stdint.h>
#include <time.h>

struct open_file;
struct watched;
struct owned;
struct attribute;
struct kept_value;

/* What a stat shows and a program can set. */
struct inode_fields {
	mode_t mode; /* without the type */
	uid_t uid;
	gid_t gid;
	struct timespec accessed, modified, changed;
};

struct group_state {
	/* Points to `bytes`. It never changes: a group can't be renamed. */
	const char *path;
	uint64_t number; /* of the group's inode; those of its files follow (nodes.h) */
	uint64_t known; /* look-ups of the group and its files that the kernel has not forgotten */
	bool gone; /* it was removed: a group that has its path now is another one */
	struct inode_fields itself;
	struct inode_fields at_first; /* its files have the owner and the times that it had when it was made */
	/* The lists below belong to the files that have their types: open_files.c, watch.c, owner.c,
	   attributes.c, values.c. */
	struct open_file *open_files;
	struct watched *watched;
	struct owned *owned;
	struct attribute *attributes;
	struct kept_value *values; /* of kept controllers */
	unsigned subtree; /* the controllers of its children */
	bool freezes; /* the value of cgroup.freeze */
	char bytes[]; /* of the path */
};

/* The root's number, and the distance between those of two groups: no group has as many files. */
enum { NUMBER_ROOT = 1, NUMBERS_OF_GROUP = 256 };

/* All calls require the engine's lock. What is remembered of a group; NULL: nothing. */
struct group_state *group_state_find(const char *group);
/* The same, made if there is none; NULL: out of memory. */
struct group_state *group_state_make(const char *group);
/* The group with this number, also if it is gone; NULL. */
struct group_state *group_state_numbered(uint64_t number);
/* Calls for each that is remembered, of a group and of those below it. The call may not make or drop any. */
void group_state_each(const char *top, void (*call)(const struct group_state *r));
/* Drops what is gone and forgotten. */
void group_state_tidy(struct group_state *r);
/* The group was removed. */
void group_state_lose(const char *group);

#endif
