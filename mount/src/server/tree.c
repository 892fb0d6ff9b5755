#include "companion/companion.h"
#include "engine/engine.h"
#include "processes/host_processes.h"
#include "processes/run_processes.h"
#include "server/control.h"
#include "server/operations.h"
#include "server/owner.h"
#include "server/texts.h"
#include "server/watch.h"
#include "values/controllers.h"
#include <errno.h>
#include <string.h>

struct look look;

/* ---------------------------------------------------------------- what a stat shows */

/* control_read hands it the text, of which only the length is wanted. */
static int count_bytes(void *to, const char *text, size_t size)
{
	(void)text;
	((struct stat *)to)->st_size = (off_t)size;
	return 0;
}

/* A file that can only be written has no text: its size is 0. A lack of memory is not that. */
static int control_stat(const struct node *node, struct stat *st)
{
	int fault = nodes_is_directory(node) ? 0 : control_read(node->control, count_bytes, st);
	return fault == -ENOMEM ? fault : 0;
}

/* As in other file systems, a directory has two links and one for each directory in it. */
static int group_stat(const struct group_state *group, struct stat *st)
{
	const char *names;
	size_t count = 0;
	int fault = group->gone ? 0 : engine_children(group->path, &names, &count);
	st->st_nlink = (nlink_t)(2 + count);
	return fault;
}

/* The size of a file is the length of its text: sendfile and splice transfer no more than that from a FUSE file. */
static int file_stat(const struct node *node, struct stat *st)
{
	const char *text;
	size_t size = 0;
	if (node->group->gone || !controllers_have(node->group->path, node->file))
		return 0;
	/* The text may change by a process that has ended: it is found before the look. */
	int fault = host_processes_sweep();
	if (fault == 0 && node->file->readable)
		fault = texts_read(node->group->path, node->file, false, &text, &size);
	st->st_size = (off_t)size;
	return fault;
}

/* A removed group still has owners and times, so fstat of an open file works. */
static int stat_of(const struct node *node, struct stat *st)
{
	memset(st, 0, sizeof *st);
	st->st_ino = nodes_number(node);
	st->st_nlink = nodes_is_directory(node) ? 2 : 1;
	owner_apply(node, st);
	if (!node->group)
		return control_stat(node, st);
	return node->file ? file_stat(node, st) : group_stat(node->group, st);
}

static void reply_stat(fuse_req_t req, int fault, const struct stat *st)
{
	if (fault)
		fuse_reply_err(req, -fault);
	else
		/* For 0 seconds: the kernel caches no attributes, since the supervisor and other processes
		   change what they say. */
		fuse_reply_attr(req, st, 0);
}

/* The kernel asks by the number, also for an open file. */
void tree_getattr(fuse_req_t req, fuse_ino_t number, struct fuse_file_info *fi)
{
	struct node node;
	struct stat st;
	(void)fi;
	engine_lock();
	/* With the lock until the end: else the group could be removed between the look-up and the
	   stat. */
	int fault = nodes_find(number, &node);
	if (fault == 0)
		fault = stat_of(&node, &st);
	engine_unlock();
	reply_stat(req, fault, &st);
}

/* ---------------------------------------------------------------- what a program sets */

enum {
	OWNS = FUSE_SET_ATTR_MODE | FUSE_SET_ATTR_UID | FUSE_SET_ATTR_GID,
	TIMES = FUSE_SET_ATTR_ATIME | FUSE_SET_ATTR_MTIME
};

/* The companion's change, which is meant for inotify alone: it stores nothing. */
static bool is_mark(const struct stat *st, int fields)
{
	return (fields & TIMES) == FUSE_SET_ATTR_MTIME && st->st_mtim.tv_sec == -MARK;
}

/* A truncation changes nothing. By an open file it is allowed, by a path only if the file may be written. */
static int set(const struct node *node, const struct stat *st, int fields, bool is_open, uid_t uid)
{
	/* An open with O_TRUNC was checked by its own mode already. */
	if ((fields & FUSE_SET_ATTR_SIZE) && !is_open && uid != 0 && !(nodes_mode(node) & 0222))
		return -EACCES;
	if (!node->group)
		return fields & OWNS ? -EPERM : 0;
	return (fields & (OWNS | TIMES)) && !is_mark(st, fields) ? owner_set(node, st, fields) : 0;
}

/* The reply has all attributes, which the kernel shows next. */
void tree_setattr(fuse_req_t req, fuse_ino_t number, struct stat *st, int fields, struct fuse_file_info *fi)
{
	struct node node;
	struct stat after;
	engine_lock();
	int fault = nodes_find(number, &node);
	if (fault == 0)
		fault = stat_of(&node, &after); /* before anything is set: this may find no memory */
	if (fault == 0)
		fault = set(&node, st, fields, fi != NULL, fuse_req_ctx(req)->uid);
	if (fault == 0)
		owner_apply(&node, &after);
	engine_unlock();
	reply_stat(req, fault, &after);
}

/* ---------------------------------------------------------------- look-ups */

/* The kernel takes each answer, and forgets the look-up later (open_files_reply). */
static void reply_entry(fuse_req_t req, int fault, const struct fuse_entry_param *entry)
{
	if (fault)
		fuse_reply_err(req, -fault);
	else
		fuse_reply_entry(req, entry);
}

static int look_up(uint64_t parent, const char *name, struct fuse_entry_param *entry)
{
	struct node directory, node = { 0 };
	int fault = nodes_find(parent, &directory);
	if (fault == 0)
		fault = nodes_find_below(&directory, name, &node);
	if (fault == 0)
		fault = stat_of(&node, &entry->attr);
	/* From now on its changes are compared: whoever polls or watches it has looked it up before. */
	if (fault == 0 && node.file && node.file->notified)
		fault = watch_seen(node.group->path, node.file);
	if (fault)
		return fault;
	entry->ino = entry->attr.st_ino;
	nodes_known(&node); /* last: the kernel forgets only what it was told */
	return 0;
}

/* A name that is not there is answered with ENOENT, which the kernel does not cache here. */
void tree_lookup(fuse_req_t req, fuse_ino_t parent, const char *name)
{
	struct fuse_entry_param entry = { 0 };
	engine_lock();
	int fault = look_up(parent, name, &entry);
	engine_unlock();
	reply_entry(req, fault, &entry);
}

/* No reply: the kernel waits for none. */
void tree_forget(fuse_req_t req, fuse_ino_t number, uint64_t count)
{
	engine_lock();
	nodes_forget(number, count);
	engine_unlock();
	fuse_reply_none(req);
}

void tree_forget_several(fuse_req_t req, size_t count, struct fuse_forget_data *forgets)
{
	engine_lock();
	for (size_t i = 0; i < count; i++)
		nodes_forget(forgets[i].ino, forgets[i].nlookup);
	engine_unlock();
	fuse_reply_none(req);
}

/* ---------------------------------------------------------------- groups are made and removed */

/* The path of a name in a group that exists. 0 or -errno */
/* A mkdir or rmdir in the control directory, or of its name, fails with EPERM. */
static int path_in(uint64_t parent, const char *name, struct node *directory, char path[PATH_MAX_SAID])
{
	int fault = nodes_find(parent, directory);
	if (fault == 0 && directory->group && directory->group->gone)
		fault = -ENOENT;
	if (fault == 0)
		fault = nodes_path(directory, name, path);
	return fault == 0 && (!directory->group || control_has(path)) ? -EPERM : fault;
}

/* All memory is taken before the engine makes the group. */
static int make_group(const char *path, const struct inode_fields *maker, struct node *out)
{
	*out = (struct node){ .group = group_state_make(path) };
	if (!out->group)
		return -ENOMEM;
	int fault = engine_line("mkdir %s", path);
	if (fault && fault != -EEXIST)
		group_state_lose(path);
	if (fault == 0)
		owner_begin(out->group, maker);
	return fault;
}

/* In this order, as in the kernel: the parent, the name, a file of that name, and then what the
   engine refuses. */
static int make_below(uint64_t parent, const char *name, const struct inode_fields *maker, struct node *out)
{
	char path[PATH_MAX_SAID];
	struct node directory;
	int fault = path_in(parent, name, &directory, path);
	if (fault == 0)
		fault = engine_path_fault(path);
	if (fault == 0 && file_named(name, is_root(directory.group->path)))
		fault = -EEXIST; /* perhaps of a controller that the group may get later */
	if (fault == 0)
		fault = make_group(path, maker, out);
	if (fault == 0)
		owner_touch(directory.group);
	return fault;
}

void tree_mkdir(fuse_req_t req, fuse_ino_t parent, const char *name, mode_t mode)
{
	const struct fuse_ctx *by = fuse_req_ctx(req);
	struct fuse_entry_param entry = { .attr.st_nlink = 2 };
	struct node made;
	engine_lock();
	/* The kernel's mkdir, too, keeps only these bits of the mode. */
	int fault = make_below(parent, name, &(struct inode_fields){ .mode = mode & 01777, .uid = by->uid, .gid = by->gid },
		&made);
	if (fault == 0) {
		entry.ino = entry.attr.st_ino = nodes_number(&made);
		owner_apply(&made, &entry.attr);
		/* The reply is a look-up, which the kernel forgets later. */
		nodes_known(&made);
	}
	engine_unlock();
	reply_entry(req, fault, &entry);
}

/* The zombies that leave and the removal are one operation, so one undo brings all of it back. */
static int remove_below(uint64_t parent, const char *name)
{
	char path[PATH_MAX_SAID];
	struct node directory;
	int fault = path_in(parent, name, &directory, path);
	if (fault == 0)
		fault = host_processes_sweep();
	if (fault == 0)
		fault = engine_begin();
	if (fault == 0) {
		fault = run_processes_leave(path);
		fault = engine_finish(fault ? fault : engine_line("rmdir %s", path));
	}
	if (fault)
		return fault;
	/* Only now: the engine has removed it. */
	group_state_lose(path);
	owner_touch(directory.group);
	return 0;
}

/* The engine refuses it with EBUSY while processes or groups are below. */
void tree_rmdir(fuse_req_t req, fuse_ino_t parent, const char *name)
{
	engine_lock();
	int fault = remove_below(parent, name);
	engine_unlock();
	fuse_reply_err(req, -fault);
}
