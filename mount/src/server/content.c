#include "common/cleanup.h"
#include "common/namespaces.h"
#include "engine/engine.h"
#include "processes/host_processes.h"
#include "processes/tasks.h"
#include "server/control.h"
#include "server/freezer.h"
#include "server/mount_tables.h"
#include "server/nodes.h"
#include "server/open_files.h"
#include "server/operations.h"
#include "server/supervisor_questions.h"
#include "server/texts.h"
#include "server/watch.h"
#include "values/controllers.h"
#include <errno.h>
#include <fcntl.h>
#include <number_parser.h>
#include <stdio.h>
#include <stdlib.h>
#include <string.h>

/* As in the kernel, the superuser can open a file against its mode, and then gets an error from the read or write. */
/* 0 or -errno. O_DIRECT fails with EINVAL, as for a file of the kernel. */
static int may_open(const struct node *node, int flags, uid_t uid)
{
	int way = flags & O_ACCMODE;
	bool reads = way != O_WRONLY, writes = way != O_RDONLY || flags & O_TRUNC;
	int fault = nodes_may(node, (reads ? R_OK : 0) | (writes ? W_OK : 0), uid);
	return fault ? fault : flags & O_DIRECT ? -EINVAL : 0;
}

/* What an open would answer. Nobody can execute a file here. */
static int may_access(const struct node *node, int mask, uid_t uid)
{
	return !nodes_is_directory(node) && mask & X_OK ? -EACCES : nodes_may(node, mask, uid);
}

/* The kernel asks here instead of deciding by the mode that a stat shows. */
void content_access(fuse_req_t req, fuse_ino_t number, int mask)
{
	struct node node;
	engine_lock();
	int fault = nodes_find(number, &node);
	if (fault == 0)
		fault = may_access(&node, mask, fuse_req_ctx(req)->uid);
	engine_unlock();
	fuse_reply_err(req, -fault);
}

/* Tables have the highest numbers. */
static bool is_table(long control)
{
	return control >= CONTROL_TABLE;
}

/* A file of a removed group can be found by a descriptor of it. */
/* The table is opened first. Without memory for the file it is closed again. */
static int open_node(const struct node *node, int flags, uid_t uid, struct open_file **out)
{
	struct group_state *of = node->group ? node->group : group_state_find("/");
	int fault = may_open(node, flags, uid);
	if (fault)
		return fault;
	if (node->group && (node->group->gone || !controllers_have(node->group->path, node->file)))
		return -ENODEV;
	if (is_table(node->control) && (fault = mount_tables_open(node->control - CONTROL_TABLE)))
		return fault;
	*out = open_files_new(of, node->file, node->control);
	if (!*out && is_table(node->control))
		mount_tables_close(node->control - CONTROL_TABLE);
	return *out ? 0 : -ENOMEM;
}

void content_open(fuse_req_t req, fuse_ino_t number, struct fuse_file_info *fi)
{
	struct node node;
	struct open_file *o = NULL;
	/* The kernel caches no page of the file: each read and each write comes here. */
	fi->direct_io = 1;
	engine_lock();
	int fault = nodes_find(number, &node);
	if (fault == 0)
		fault = open_node(&node, fi->flags, fuse_req_ctx(req)->uid, &o);
	fi->nonseekable = o && !o->file && o->control == CONTROL_CONTEXT;
	engine_unlock();
	open_files_reply(req, fault, o, fi);
}

/* For control_read, which hands it the text. */
static int keep(void *opened, const char *text, size_t size)
{
	return open_files_keep(opened, text, size);
}

/* Lists of processes are in the numbers of their reader's PID namespace. */
/* Only a run translates them: a mount shows its numbers as they are. */
static bool is_list(const struct open_file *o)
{
	return look.marked && o->file && (o->file->value == A_PID || strcmp(o->file->name, "cgroup.threads") == 0);
}

/* The engine has the numbers of the supervisor's namespace. */
static int keep_list(struct open_file *o, const char *text, size_t size, int space)
{
	cleanup_free char *list = malloc(NAMESPACES_MORE * size + 1);
	return list ? open_files_keep(o, list, namespaces_pid_list(space, text, size, list)) : -ENOMEM;
}

/* `space`: the reader's PID namespace, if it is another */
/* The whole text is kept with the open file: later reads continue it. */
static int begin_read(struct open_file *o, int space)
{
	size_t size;
	const char *text;
	if (!o->file)
		return control_read(o->control, keep, o);
	/* The superuser could open it against its mode. */
	if (!o->file->readable)
		return -EINVAL;
	/* The group was removed, or has lost the controller (open_files_lose_files). */
	if (open_files_is_gone(o))
		return -ENODEV;
	int fault = host_processes_sweep();
	if (fault == 0)
		fault = texts_read(o->of->path, o->file, true, &text, &size);
	if (fault == 0)
		fault = space < 0 ? open_files_keep(o, text, size) : keep_list(o, text, size, space);
	return fault;
}

/* `size` becomes what is there from `at` on. */
void content_read(fuse_req_t req, fuse_ino_t number, size_t size, off_t at, struct fuse_file_info *fi)
{
	struct open_file *o = open_files_of(fi);
	char few[TEXT_ROOM];
	(void)number;
	cleanup_fd int space = is_list(o) ? namespaces_pid_of(fuse_req_ctx(req)->pid)
									  : -1; /* without the lock: see find_meant */
	engine_lock();
	int fault = open_files_goes_on(o, at) ? 0 : begin_read(o, space);
	size = open_files_has(o, size, at);
	/* a copy: once the lock is free, another read of this open file may replace its text */
	/* Most texts fit into `few`, and take no memory. */
	cleanup_free char *many = size > sizeof few ? malloc(size) : NULL;
	char *bytes = many ? many : few;
	if (fault == 0 && size > sizeof few && !many)
		fault = -ENOMEM;
	if (fault == 0)
		open_files_read(o, bytes, size, at);
	engine_unlock();
	if (fault)
		fuse_reply_err(req, -fault);
	else
		fuse_reply_buf(req, bytes, size);
}

/* `said` is the number in the engine's own form. */
static int move_to(const struct open_file *o, const char *said)
{
	char from[PATH_MAX_SAID];
	long pid = strtol(said, NULL, 10);
	int fault = engine_where(pid, from, sizeof from);
	bool was_there = fault == 0;
	/* A process that is not in the hierarchy is refused by the engine, which says why. */
	if (fault == -ENOMEM || (was_there && (fault = controllers_may_enter(o->of->path))))
		return fault;
	if (tasks_next((pid_t)pid))
		fault = tasks_move((pid_t)pid, o->of->path);
	else
		fault = engine_line("write %s %s %s", o->of->path, o->file->name, said);
	if (fault == 0 && was_there) {
		freezer_moved((pid_t)pid, o->of->path);
		/* Both groups, and all above them, may have become populated or empty. */
		watch_above(from);
		watch_above(o->of->path);
	}
	return fault;
}

/* `said` may be changed: it has room for any number. */
static int move(const struct open_file *o, char said[SAID_MAX])
{
	bool is_new;
	pid_t number = (pid_t)strtol(said, NULL, 10), pid = tasks_process(number);
	if (pid != number) /* a thread: all of its process moves */
		snprintf(said, SAID_MAX, "%d", pid);
	int fault = host_processes_sweep();
	if (fault == 0)
		fault = host_processes_adopt(pid, &is_new);
	if (fault)
		return fault < 0 ? fault : 0;
	fault = move_to(o, said);
	if (fault == -ENOMEM && is_new)
		host_processes_disown(pid); /* it was adopted for this move alone */
	return fault;
}

/* From the first look to the last signal no number becomes another process's. Who is meant is stored before the line, after which nobody is
   in the group; signals are sent once the line is kept. */
static int kill_group(const struct open_file *o, const char *said)
{
	supervisor_questions_hold_numbers(true);
	int fault = host_processes_sweep();
	if (fault == 0)
		fault = host_processes_note(o->of->path);
	if (fault == 0)
		fault = engine_line("write %s %s %s", o->of->path, o->file->name, said);
	if (fault == 0) {
		host_processes_kill_noted();
		watch_below(o->of->path);
	}
	supervisor_questions_hold_numbers(false);
	return fault;
}

/* `who`: the process that is meant, if it is the number of one; empty: there is none. */
static int write_file(struct open_file *o, const char *data, size_t size, char who[SAID_MAX])
{
	char said[SAID_MAX];
	if (!o->file && o->control == CONTROL_CONTEXT)
		return mount_phases_step(&o->context, data, size);
	if (!o->file)
		return control_write(o->control, data, size);
	if (o->file->value == NOTHING)
		return -EINVAL;
	if (open_files_is_gone(o))
		return -ENODEV;
	if (o->file->value == WRITES)
		return o->file->write(o->of->path, o->file, data, size);
	/* The engine's parser reads decimal numbers. What the kernel accepts besides is put into that
	   form first. */
	int fault = written_value(o->file->value, data, size, said);
	if (fault)
		return fault;
	/* find_meant has put the number into `who`, before the lock. */
	if (o->file->value == A_PID)
		return who[0] ? move(o, who) : -ESRCH;
	if (o->file->value == A_ONE)
		return kill_group(o, said);
	return engine_line("write %s %s %s", o->of->path, o->file->name, said);
}

/* Whom a writer means by a number: 0 is itself (it may be a thread of its process), others are those of its PID namespace. A thread
   without a number means its process. That is asked for without the lock, since the kernel may have to wait. */
static void find_meant(pid_t writer, char who[SAID_MAX])
{
	if (strcmp(who, "0") == 0) {
		snprintf(who, SAID_MAX, "%d", host_processes_process_of(writer));
		return;
	}
	cleanup_fd int space = look.marked ? namespaces_pid_of(writer) : -1;
	pid_t meant = space < 0 ? 0 : namespaces_pid_here(space, (pid_t)strtol(who, NULL, 10));
	if (meant)
		snprintf(who, SAID_MAX, "%d", meant);
	else if (space >= 0)
		who[0] = 0;
	if (look.no_threads && who[0])
		snprintf(who, SAID_MAX, "%d", host_processes_process_of((pid_t)strtol(who, NULL, 10)));
}

/* The parsers refuse what is longer than a page (E2BIG). */
void content_write(fuse_req_t req, fuse_ino_t number, const char *data, size_t size, off_t at,
	struct fuse_file_info *fi)
{
	struct open_file *o = open_files_of(fi);
	char who[SAID_MAX] = "";
	(void)number, (void)at;
	/* Without the lock: an open file's `file` never changes. */
	if (o->file && o->file->value == A_PID && written_value(A_PID, data, size, who) == 0)
		find_meant(fuse_req_ctx(req)->pid, who);
	engine_lock();
	int fault = write_file(o, data, size, who);
	engine_unlock();
	if (fault)
		fuse_reply_err(req, -fault);
	else
		fuse_reply_write(req, size);
}

/* The kernel sends a handle only if the caller is going to wait. */
void content_poll(fuse_req_t req, fuse_ino_t number, struct fuse_file_info *fi, struct fuse_pollhandle *waiter)
{
	struct open_file *o = open_files_of(fi);
	(void)number;
	engine_lock();
	/* Its changes are compared already: a file that is open was looked up before (look_up). */
	int fault = 0;
	unsigned told = open_files_poll(o, waiter);
	if (is_table(o->control))
		fault = mount_tables_poll(o->control - CONTROL_TABLE, &told);
	engine_unlock();
	if (fault)
		fuse_reply_err(req, -fault);
	else
		fuse_reply_poll(req, told);
}

/* The last descriptor was closed: no other request for this open file is under way. */
void content_release(fuse_req_t req, fuse_ino_t number, struct fuse_file_info *fi)
{
	(void)number;
	engine_lock();
	open_files_free(open_files_of(fi));
	engine_unlock();
	fuse_reply_err(req, 0);
}
