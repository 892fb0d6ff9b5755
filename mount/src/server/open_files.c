#include "server/open_files.h"
#include "engine/engine.h"
#include "server/control.h"
#include "server/mount_tables.h"
#include <errno.h>
#include <poll.h>
#include <stdlib.h>
#include <string.h>

/* Those of the control directory, and those whose group was removed or has lost the file's controller. */
static struct open_file *alone;

static struct open_file **list_of(struct group_state *group)
{
	return group ? &group->open_files : &alone;
}

/* Lists in both directions: a file is closed in one step, however many are open. */
static void enter(struct open_file *o, struct group_state *group)
{
	struct open_file **list = list_of(group);
	o->of = group;
	o->before = NULL;
	o->next = *list;
	if (o->next)
		o->next->before = o;
	*list = o;
}

static void leave(struct open_file *o)
{
	if (o->next)
		o->next->before = o->before;
	if (o->before)
		o->before->next = o->next;
	else
		*list_of(o->of) = o->next;
}

struct open_file *open_files_new(struct group_state *group, const struct file *file, long control)
{
	WANTS_LOCK();
	struct open_file *o = calloc(1, sizeof *o);
	if (!o)
		return NULL;
	o->file = file;
	o->control = control;
	/* A file that was never read reports a change, as in the kernel. */
	o->changed = control < CONTROL_WHERE; /* /proc/PID/cgroup tells of no change */
	enter(o, group);
	return o;
}

/* libfuse gives back the pointer that open_files_reply has put there. */
struct open_file *open_files_of(const struct fuse_file_info *fi)
{
	return (struct open_file *)(uintptr_t)fi->fh;
}

void open_files_reply(fuse_req_t req, int fault, struct open_file *o, struct fuse_file_info *fi)
{
	fi->fh = (uintptr_t)o;
	/* The reply is sent without the lock. Once it is sent, the file belongs to the kernel, which
	   may close it in another thread. The kernel takes each reply, also if its caller was killed, until the mount ends. */
	if (fault)
		fuse_reply_err(req, -fault);
	else
		fuse_reply_open(req, fi);
}

bool open_files_is_gone(const struct open_file *o)
{
	WANTS_LOCK();
	return !o->of;
}

/* With the lock: the message to the kernel waits for nobody. The kernel asks again (open_files_poll) before it is told again. */
static void wake(struct open_file *o)
{
	o->changed = true;
	if (!o->waiting)
		return;
	fuse_lowlevel_notify_poll(o->waiting);
	fuse_pollhandle_destroy(o->waiting);
	o->waiting = NULL;
}

/* It has no group from now on: reads and writes of it fail, and who polls it is woken. */
static void lose(struct open_file *o)
{
	leave(o);
	enter(o, NULL);
	wake(o);
}

/* The caller has taken care that nobody else uses it: the kernel has released it, or never had it. */
void open_files_free(struct open_file *o)
{
	WANTS_LOCK();
	if (o->waiting)
		fuse_pollhandle_destroy(o->waiting);
	/* The table was opened with this file (open_node). */
	if (!o->file && o->control >= CONTROL_TABLE)
		mount_tables_close(o->control - CONTROL_TABLE);
	leave(o);
	free(o->text);
	free(o);
}

int open_files_keep(struct open_file *o, const char *text, size_t size)
{
	WANTS_LOCK();
	/* First: without memory the earlier text stays, and with it a read that continues it. */
	char *copy = malloc(size + 1);
	if (!copy)
		return -ENOMEM;
	memcpy(copy, text, size);
	free(o->text);
	o->text = copy;
	o->size = size;
	o->changed = false;
	return 0;
}

/* A read that begins where the last one ended continues the earlier text; any other gets the
   current text. So a text that is read in parts is one text, although the hierarchy changes in
   between. */
bool open_files_goes_on(const struct open_file *o, off_t at)
{
	WANTS_LOCK();
	return at != 0 && o->text && at == o->read_to;
}

/* Without a kept text its size is 0. */
size_t open_files_has(const struct open_file *o, size_t size, off_t at)
{
	WANTS_LOCK();
	if (at < 0 || (size_t)at >= o->size)
		return 0;
	return size < o->size - (size_t)at ? size : o->size - (size_t)at;
}

/* `size` is what open_files_has returned. */
void open_files_read(struct open_file *o, char *out, size_t size, off_t at)
{
	WANTS_LOCK();
	if (size)
		memcpy(out, o->text + at, size);
	o->read_to = at + (off_t)size;
}

/* A file is always ready to be read and written. What a poll waits for is the change. */
unsigned open_files_poll(struct open_file *o, struct fuse_pollhandle *waiter)
{
	WANTS_LOCK();
	if (waiter) {
		/* The kernel sends a new handle with each poll. The old one is not needed any more. */
		if (o->waiting)
			fuse_pollhandle_destroy(o->waiting);
		o->waiting = waiter;
	}
	return POLLIN | POLLOUT | POLLRDNORM | POLLWRNORM | (o->changed ? POLLERR | POLLPRI : 0);
}

/* Every open file of it, whoever has it open. */
void open_files_wake(const struct group_state *r, const struct file *file)
{
	WANTS_LOCK();
	for (struct open_file *o = r->open_files; o; o = o->next)
		if (o->file == file)
			wake(o);
}

/* Files without a group are in the list of the root's (open_node). */
void open_files_wake_control(long control)
{
	const struct group_state *root = group_state_find("/");
	for (struct open_file *o = root ? root->open_files : NULL; o; o = o->next)
		if (!o->file && o->control == control)
			wake(o);
}

void open_files_lose_files(struct group_state *r, unsigned controllers)
{
	WANTS_LOCK();
	for (struct open_file *o = r->open_files, *next; o; o = next) {
		/* First: `lose` moves the file to another list. */
		next = o->next;
		if (o->file && o->file->controller & controllers)
			lose(o);
	}
}

/* Each leaves the list, so the first one is always another. */
void open_files_lose(struct group_state *r)
{
	WANTS_LOCK();
	while (r->open_files)
		lose(r->open_files);
}
