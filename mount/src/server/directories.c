/* Listings of groups: the files of a group and the groups below it, each with its type and its inode number. */
#include "common/cleanup.h"
#include "engine/engine.h"
#include "server/control.h"
#include "server/nodes.h"
#include "server/open_files.h"
#include "server/operations.h"
#include "values/controllers.h"
#include <errno.h>
#include <linux/fuse.h>
#include <stdlib.h>
#include <string.h>

/* The entries that are being collected, in the kernel's form. The bytes belong to whoever
   collects, who frees them also after a fault. */
struct entries {
	fuse_req_t req;
	char *bytes;
	size_t size, room;
};

/* The offset of an entry is where the next one begins. */
/* -ENOMEM leaves what was collected so far. */
static int put(struct entries *e, const char *name, const struct node *node)
{
	const struct stat st = { .st_ino = nodes_number(node), .st_mode = nodes_mode(node) };
	/* Without room it returns how much the entry takes. */
	size_t more = fuse_add_direntry(e->req, NULL, 0, name, NULL, 0);
	if (e->size + more > e->room) {
		size_t room = 2 * (e->room + more);
		char *bytes = realloc(e->bytes, room);
		if (!bytes)
			return -ENOMEM;
		e->bytes = bytes;
		e->room = room;
	}
	fuse_add_direntry(e->req, e->bytes + e->size, more, name, &st, (off_t)(e->size + more));
	e->size += more;
	return 0;
}

/* The number of a group is given by its state, so a listing makes one for each group. */
static int put_group(struct entries *e, const char *name, const char *path)
{
	const struct node node = { .group = group_state_make(path) };
	return node.group ? put(e, name, &node) : -ENOMEM;
}

/* The names are the engine's, and stay until its next call. No call in the loop asks the engine. */
static int put_groups_below(struct entries *e, const struct node *directory)
{
	char path[PATH_MAX_SAID];
	const char *names;
	size_t count;
	int fault = engine_children(directory->group->path, &names, &count);
	for (; fault == 0 && count > 0; count--, names += strlen(names) + 1) {
		fault = nodes_path(directory, names, path);
		if (fault == 0)
			fault = put_group(e, names, path);
	}
	return fault;
}

/* Those that the group has now. A hidden file is in no listing. */
static int put_files(struct entries *e, const struct node *directory)
{
	const char *group = directory->group->path;
	const struct file *file;
	int fault = 0;
	for (size_t i = 0; fault == 0 && (file = file_at(i)); i++)
		if ((file->on_root || !is_root(group)) && controllers_have(group, file))
			fault = put(e, file->name, &(struct node){ .group = directory->group, .file = file });
	if (fault == 0 && look.history && is_root(group))
		fault = put(e, control_directory, &(struct node){ .control = CONTROL_ITSELF });
	return fault;
}

/* Its files do not depend on a group. */
static int put_control(struct entries *e)
{
	int fault = 0;
	for (int i = 0; i < CONTROL_FILES && fault == 0; i++)
		if (control_is_there(i))
			fault = put(e, control_name(i), &(struct node){ .control = i });
	return fault;
}

/* The order: the two dots, then files, then groups. */
static int collect(struct entries *e, const struct node *directory)
{
	struct node above;
	int fault = nodes_find_above(directory, &above);
	if (fault == 0)
		fault = put(e, ".", directory);
	if (fault == 0)
		fault = put(e, "..", &above);
	if (fault == 0)
		fault = directory->group ? put_files(e, directory) : put_control(e);
	return fault || !directory->group ? fault : put_groups_below(e, directory);
}

/* A listing is made when it is read from its start. What comes after that is the rest of it,
   whatever has changed. nodes_find says whether the directory is there; a removed one, still open,
   lists nothing (ENOENT), as in the kernel. */
static int begin(fuse_req_t req, uint64_t number, struct open_file *o)
{
	struct node directory;
	struct entries e = { .req = req };
	int fault = nodes_find(number, &directory);
	if (fault == 0 && directory.group && directory.group->gone)
		fault = -ENOENT;
	if (fault == 0)
		fault = collect(&e, &directory);
	cleanup_free char *bytes = e.bytes;
	return fault ? fault : open_files_keep(o, bytes, e.size);
}

/* The first entry that begins at a place or after it. The place may be any, since a program can
   seek. The lengths are in the entries, so the look begins at the first one. */
static size_t entry_from(const struct open_file *o, size_t at)
{
	size_t n = 0;
	while (n < o->size && n < at)
		n += FUSE_DIRENT_SIZE((const struct fuse_dirent *)(const void *)(o->text + n));
	return n;
}

/* How many bytes whole entries have from there on, if that is all the room. The kernel takes no
   part of an entry. */
static size_t whole_entries(const struct open_file *o, size_t from, size_t room)
{
	size_t n = from;
	while (n < o->size) {
		size_t next = n + FUSE_DIRENT_SIZE((const struct fuse_dirent *)(const void *)(o->text + n));
		if (next - from > room)
			break;
		n = next;
	}
	return n - from;
}

/* A removed group can still be opened by a descriptor of it: such a directory has no group. */
void directories_open(fuse_req_t req, fuse_ino_t number, struct fuse_file_info *fi)
{
	struct node node;
	struct open_file *o = NULL;
	engine_lock();
	int fault = nodes_find(number, &node);
	if (fault == 0 && !node.group && node.control == CONTROL_HIDDEN)
		fault = -EACCES; /* a superuser of a run may know its number */
	if (fault == 0 && !(o = open_files_new(node.group && !node.group->gone ? node.group : NULL, NULL, A_DIRECTORY)))
		fault = -ENOMEM;
	engine_unlock();
	open_files_reply(req, fault, o, fi);
}

/* A program that sets the offset back to 0 gets a new listing. */
void directories_read(fuse_req_t req, fuse_ino_t number, size_t room, off_t at, struct fuse_file_info *fi)
{
	struct open_file *o = open_files_of(fi);
	cleanup_free char *bytes = NULL;
	engine_lock();
	int fault = at == 0 ? begin(req, number, o) : 0;
	size_t from = entry_from(o, (size_t)at);
	size_t size = whole_entries(o, from, room);
	/* A copy, as in content_read. */
	if (fault == 0 && !(bytes = malloc(size + 1)))
		fault = -ENOMEM;
	if (fault == 0 && size)
		memcpy(bytes, o->text + from, size);
	engine_unlock();
	if (fault)
		fuse_reply_err(req, -fault);
	else
		fuse_reply_buf(req, bytes, size);
}

/* As of a file: both have the same structure. */
void directories_release(fuse_req_t req, fuse_ino_t number, struct fuse_file_info *fi)
{
	content_release(req, number, fi);
}
