#include "server/attributes.h"
#include "common/cleanup.h"
#include "engine/engine.h"
#include "server/nodes.h"
#include "server/operations.h"
#include <string.h>
#include <sys/xattr.h>
#include <unistd.h>

enum { NAMES_MAX = 128, VALUES_MAX = 128 * 1024 }; /* the kernel's bounds, for one group or file */

/* All attributes of a group and its files are in one list, which owns them. */
struct attribute {
	struct attribute *next;
	const struct file *file; /* NULL: of the group itself */
	char *name, *value;
	size_t size;
};

/* The group or file with this number. 0 or -errno. */
/* The control directory has no attributes: EOPNOTSUPP. */
static int find_node(uint64_t number, struct node *node)
{
	int fault = nodes_find(number, node);
	return fault == 0 && !node->group ? -EOPNOTSUPP : fault;
}

/* The same, if the caller may read or write it: that is asked for even if there is no such attribute. */
static int find_for(fuse_req_t req, uint64_t number, int mask, struct node *node)
{
	int fault = find_node(number, node);
	return fault ? fault : nodes_may(node, mask, fuse_req_ctx(req)->uid);
}

/* The place of a file's name among these attributes, or the end. */
/* The place is a pointer to a pointer, so the caller can put in and take out there. */
static struct attribute **find(struct attribute **at, const struct file *file, const char *name)
{
	while (*at && ((*at)->file != file || strcmp((*at)->name, name)))
		at = &(*at)->next;
	return at;
}

static void drop(struct attribute **at)
{
	struct attribute *a = *at;
	*at = a->next;
	free(a->name);
	free(a->value);
	free(a);
}

/* An attribute that is replaced doesn't count, and the new one does. */
static bool has_room(const struct attribute *a, const struct file *file, const struct attribute *replaced, size_t size)
{
	size_t names = 1;
	for (; a; a = a->next)
		if (a->file == file && a != replaced) {
			names++;
			size += a->size;
		}
	return names <= NAMES_MAX && size <= VALUES_MAX;
}

/* All or nothing: what was made is freed at each return that does not take it. */
static struct attribute *make(const char *name, const char *value, size_t size)
{
	cleanup_free struct attribute *a = calloc(1, sizeof *a);
	cleanup_free char *own_name = strdup(name), *own_value = malloc(size + 1);
	if (!a || !own_name || !own_value)
		return NULL;
	memcpy(own_value, value, size);
	a->size = size;
	a->name = steal_pointer(&own_name);
	a->value = steal_pointer(&own_value);
	return steal_pointer(&a);
}

/* The analyzer takes what is kept in the list of a group for lost, if it only knows the group by a local node. */
#ifndef __clang__
#pragma GCC diagnostic push
#pragma GCC diagnostic ignored "-Wanalyzer-malloc-leak"
#endif
static int set_in(struct group_state *r, const struct file *file, const char *name, const char *value, size_t size,
	int flags)
{
	struct attribute **at = find(&r->attributes, file, name);
	if (*at && (flags & XATTR_CREATE))
		return -EEXIST;
	if (!*at && (flags & XATTR_REPLACE))
		return -ENODATA;
	if (!has_room(r->attributes, file, *at, size))
		return -ENOSPC;
	struct attribute *a = make(name, value, size); /* first: without memory the old value stays */
	if (!a)
		return -ENOMEM;
	if (*at)
		drop(at);
	a->file = file;
	a->next = r->attributes;
	r->attributes = a;
	return 0;
}
#ifndef __clang__
#pragma GCC diagnostic pop
#endif

/* Other namespaces (trusted, security) fail with EOPNOTSUPP, as on a file system without them. */
static bool is_users(const char *name)
{
	return strncmp(name, "user.", 5) == 0;
}

/* The kernel has checked the sizes of name and value. */
void attributes_set(fuse_req_t req, fuse_ino_t number, const char *name, const char *value, size_t size, int flags)
{
	struct node node;
	engine_lock();
	int fault = is_users(name) ? find_for(req, number, W_OK, &node) : -EOPNOTSUPP;
	if (fault == 0)
		fault = set_in(node.group, node.file, name, value, size, flags);
	engine_unlock();
	fuse_reply_err(req, -fault);
}

/* A request for 0 bytes asks for the size. */
static void reply(fuse_req_t req, int fault, const char *value, size_t size, size_t room)
{
	/* ERANGE, so that the caller asks again with more room. */
	if (fault == 0 && room && room < size)
		fault = -ERANGE;
	if (fault)
		fuse_reply_err(req, -fault);
	else if (room)
		fuse_reply_buf(req, value, size);
	else
		fuse_reply_xattr(req, size);
}

/* The value is the list's own: the caller copies it before it gives the lock back. */
static int get(fuse_req_t req, uint64_t number, const char *name, const char **value, size_t *size)
{
	struct node node;
	/* The helper asks a group for its path by this name. No permission is needed for it. */
	bool is_path = look.marked && strcmp(name, group_attribute) == 0;
	int fault = is_path || is_users(name) ? find_for(req, number, is_path ? 0 : R_OK, &node) : -EOPNOTSUPP;
	if (fault)
		return fault;
	if (is_path) {
		*value = node.group->path;
		*size = strlen(*value);
		return node.group->gone ? -ENOENT : node.file ? -EOPNOTSUPP : 0;
	}
	const struct attribute *a = *find(&node.group->attributes, node.file, name);
	if (!a)
		return -ENODATA;
	*value = a->value;
	*size = a->size;
	return 0;
}

/* The kernel asks twice as a rule: for the size, and then for the value. */
void attributes_get(fuse_req_t req, fuse_ino_t number, const char *name, size_t room)
{
	const char *value = NULL;
	size_t size = 0;
	engine_lock();
	int fault = get(req, number, name, &value, &size);
	/* With the lock: afterwards the attribute may be replaced. */
	cleanup_free char *copy = fault == 0 && room >= size ? malloc(size + 1) : NULL;
	if (copy)
		memcpy(copy, value, size);
	else if (fault == 0 && room >= size)
		fault = -ENOMEM;
	engine_unlock();
	reply(req, fault, copy, size, room);
}

/* Names end in a zero byte each. With `room` 0 only the size is counted. */
void attributes_list(fuse_req_t req, fuse_ino_t number, size_t room)
{
	struct node node;
	size_t size = 0;
	/* Before the lock. `room` is at most 64 KiB, the kernel's bound. */
	cleanup_free char *names = malloc(room + 1);
	engine_lock();
	int fault = names ? find_node(number, &node) : -ENOMEM;
	for (const struct attribute *a = fault ? NULL : node.group->attributes; a; a = a->next) {
		size_t name = strlen(a->name) + 1;
		if (a->file != node.file)
			continue;
		if (size + name <= room)
			memcpy(names + size, a->name, name);
		size += name;
	}
	engine_unlock();
	reply(req, fault, names, size, room);
}

/* ENODATA: there is no such attribute. */
void attributes_remove(fuse_req_t req, fuse_ino_t number, const char *name)
{
	struct node node;
	engine_lock();
	int fault = is_users(name) ? find_for(req, number, W_OK, &node) : -EOPNOTSUPP;
	struct attribute **at = fault ? NULL : find(&node.group->attributes, node.file, name);
	if (fault == 0 && !*at)
		fault = -ENODATA;
	if (fault == 0)
		drop(at);
	engine_unlock();
	fuse_reply_err(req, -fault);
}

void attributes_forget(struct group_state *r)
{
	WANTS_LOCK();
	while (r->attributes)
		drop(&r->attributes);
}
