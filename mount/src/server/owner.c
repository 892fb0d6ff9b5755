#include "server/owner.h"
#include "engine/engine.h"
#include "server/operations.h"
#include <errno.h>
#include <stdlib.h>

/* What was set for a file. Until then a file has the owner and the times that its group began
   with, and a mode of its own. The list of its group owns it, until owner_forget. */
struct owned {
	struct owned *next;
	const struct file *file;
	struct inode_fields fields;
};

/* NULL: nothing was set for the file. */
static struct owned *find(const struct group_state *r, const struct file *file)
{
	struct owned *o = r->owned;
	while (o && o->file != file)
		o = o->next;
	return o;
}

static struct timespec now(void)
{
	struct timespec t;
	clock_gettime(CLOCK_REALTIME, &t);
	return t;
}

/* The times of a new group and of its files are that of its beginning. */
void owner_begin(struct group_state *r, const struct inode_fields *maker)
{
	WANTS_LOCK();
	r->itself = maker ? *maker : (struct inode_fields){ .mode = 0755, .uid = look.uid, .gid = look.gid };
	r->itself.accessed = r->itself.modified = r->itself.changed = now();
	r->at_first = r->itself;
}

/* The mode of a file is its own; owner and times are those that the group had when it was made. */
static struct inode_fields of_file(const struct group_state *r, const struct file *file)
{
	const struct owned *o = find(r, file);
	struct inode_fields fields = o ? o->fields : r->at_first;
	if (!o)
		fields.mode = file_mode(file);
	return fields;
}

/* Nothing can be set for these files: they have the owner of the mount, and the time of its start. */
static struct inode_fields of_control(const struct node *node)
{
	return (struct inode_fields){ nodes_mode(node) & 07777, look.uid, look.gid, look.born, look.born, look.born };
}

/* Size, inode number and number of links are the caller's. */
void owner_apply(const struct node *node, struct stat *st)
{
	WANTS_LOCK();
	const struct inode_fields s = !node->group ? of_control(node)
		: node->file                           ? of_file(node->group, node->file)
											   : node->group->itself;
	st->st_mode = (nodes_mode(node) & S_IFMT) | s.mode;
	st->st_uid = s.uid;
	st->st_gid = s.gid;
	st->st_atim = s.accessed;
	st->st_mtim = s.modified;
	st->st_ctim = s.changed;
}

/* The analyzer takes what is kept in the list of a group for lost, if it only knows the group by a local node. */
#ifndef __clang__
#pragma GCC diagnostic push
#pragma GCC diagnostic ignored "-Wanalyzer-malloc-leak"
#endif

/* Where it is stored; NULL: out of memory. A file takes memory only once something was set for it. */
static struct inode_fields *stored(const struct node *node)
{
	struct group_state *r = node->group;
	struct owned *o = node->file ? find(r, node->file) : NULL;
	if (!node->file)
		return &r->itself;
	if (o)
		return &o->fields;
	o = calloc(1, sizeof *o);
	if (!o)
		return NULL;
	o->file = node->file;
	o->fields = of_file(r, node->file);
	o->next = r->owned;
	r->owned = o;
	return &r->owned->fields;
}
#ifndef __clang__
#pragma GCC diagnostic pop
#endif

/* `fields` names what `st` has. Nothing else of `st` is read. */
int owner_set(const struct node *node, const struct stat *st, int fields)
{
	WANTS_LOCK();
	struct inode_fields *s = stored(node);
	if (!s)
		return -ENOMEM;
	/* Any of these changes sets it. A time that is to be now is the same moment. */
	s->changed = now();
	/* The type never changes. */
	if (fields & FUSE_SET_ATTR_MODE)
		s->mode = st->st_mode & 07777;
	if (fields & FUSE_SET_ATTR_UID)
		s->uid = st->st_uid;
	if (fields & FUSE_SET_ATTR_GID)
		s->gid = st->st_gid;
	if (fields & FUSE_SET_ATTR_ATIME)
		s->accessed = fields & FUSE_SET_ATTR_ATIME_NOW ? s->changed : st->st_atim;
	if (fields & FUSE_SET_ATTR_MTIME)
		s->modified = fields & FUSE_SET_ATTR_MTIME_NOW ? s->changed : st->st_mtim;
	return 0;
}

/* The times of a directory change when a name in it is made or removed. */
void owner_touch(struct group_state *r)
{
	WANTS_LOCK();
	r->itself.modified = r->itself.changed = now();
}

void owner_forget(struct group_state *r)
{
	WANTS_LOCK();
	while (r->owned) {
		struct owned *o = r->owned;
		r->owned = o->next;
		free(o);
	}
}
