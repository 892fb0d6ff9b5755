/* Open files: each keeps the text that it began to read, and who waits for a change. */
#ifndef OPEN_FILES_H
#define OPEN_FILES_H

#include "server/group_state.h"
#include "server/mount_phases.h"
#include <fuse3/fuse_lowlevel.h>

enum { A_DIRECTORY = -1 }; /* as `control` */

struct open_file {
	struct open_file *next, *before; /* in the list of its group, or of those without one */
	struct group_state
		*of; /* NULL once the group was removed, or has lost the file's controller; and of the control directory */
	const struct file *file; /* NULL: a directory, or a file of the control directory */
	/* Else the number of a file of the control directory (control.h), or A_DIRECTORY. */
	long control;
	/* Owned by this structure. The lock protects it, since several reads may come at once. */
	char *text; /* of the last read that did not continue an earlier one */
	size_t size;
	off_t read_to; /* where the last read ended */
	bool changed; /* since its last read; true at first */
	/* Who polls it, until the next change; NULL: nobody. It belongs to this structure. */
	struct fuse_pollhandle *waiting;
	struct mount_context context; /* of CONTROL_CONTEXT */
};

struct open_file *open_files_of(const struct fuse_file_info *fi);
/* Answers an open: with an errno, or with what was opened. Wants no lock. */
void open_files_reply(fuse_req_t req, int fault, struct open_file *o, struct fuse_file_info *fi);

/* All calls below require the engine's lock. The group may be NULL. */
struct open_file *open_files_new(struct group_state *group, const struct file *file, long control);
void open_files_free(struct open_file *o);
/* Keeps a text for the reads that continue it. */
int open_files_keep(struct open_file *o, const char *text, size_t size);
bool open_files_goes_on(const struct open_file *o, off_t at);
/* How many of `size` bytes the kept text has at a place; and a read of that many. */
size_t open_files_has(const struct open_file *o, size_t size, off_t at);
void open_files_read(struct open_file *o, char *out, size_t size, off_t at);
/* A poll: returns what it reports, and stores whom to wake at the next change. */
unsigned open_files_poll(struct open_file *o, struct fuse_pollhandle *waiter);
bool open_files_is_gone(const struct open_file *o);
/* The text of a file has changed; or of one of the control directory. */
void open_files_wake(const struct group_state *r, const struct file *file);
void open_files_wake_control(long control);
/* The group has lost these controllers: files that are open stay without one, also if it gets them again. */
void open_files_lose_files(struct group_state *r, unsigned controllers);
/* The group was removed. */
void open_files_lose(struct group_state *r);

#endif
