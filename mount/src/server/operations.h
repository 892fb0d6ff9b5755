/* The operations of the file system, for libfuse: each answers one request. */
#ifndef OPERATIONS_H
#define OPERATIONS_H

#include <fuse3/fuse_lowlevel.h>
#include <stdbool.h>
#include <sys/stat.h>
#include <time.h>

/* The options of the mount. */
struct look {
	bool history; /* the control directory is listed, and has the files of a history */
	bool marked; /* the mount is of a run */
	bool no_threads; /* a thread of a run has no number in the hierarchy */
	/* The owner of what no program has made: the root, its files and the control directory. */
	uid_t uid;
	gid_t gid;
	struct timespec born; /* when the mount began */
};
/* Set before the server serves, and only read afterwards: so no lock is needed. */
extern struct look look;
extern const struct fuse_lowlevel_ops operations;

/* Groups and files (tree.c) */
void tree_lookup(fuse_req_t req, fuse_ino_t parent, const char *name);
void tree_forget(fuse_req_t req, fuse_ino_t number, uint64_t count);
void tree_forget_several(fuse_req_t req, size_t count, struct fuse_forget_data *forgets);
void tree_getattr(fuse_req_t req, fuse_ino_t number, struct fuse_file_info *fi);
void tree_setattr(fuse_req_t req, fuse_ino_t number, struct stat *st, int fields, struct fuse_file_info *fi);
void tree_mkdir(fuse_req_t req, fuse_ino_t parent, const char *name, mode_t mode);
void tree_rmdir(fuse_req_t req, fuse_ino_t parent, const char *name);

/* Listings (directories.c) */
void directories_open(fuse_req_t req, fuse_ino_t number, struct fuse_file_info *fi);
void directories_read(fuse_req_t req, fuse_ino_t number, size_t size, off_t at, struct fuse_file_info *fi);
void directories_release(fuse_req_t req, fuse_ino_t number, struct fuse_file_info *fi);

/* Files (content.c) */
void content_access(fuse_req_t req, fuse_ino_t number, int mask);
void content_open(fuse_req_t req, fuse_ino_t number, struct fuse_file_info *fi);
void content_read(fuse_req_t req, fuse_ino_t number, size_t size, off_t at, struct fuse_file_info *fi);
void content_write(fuse_req_t req, fuse_ino_t number, const char *data, size_t size, off_t at,
	struct fuse_file_info *fi);
void content_poll(fuse_req_t req, fuse_ino_t number, struct fuse_file_info *fi, struct fuse_pollhandle *waiter);
void content_release(fuse_req_t req, fuse_ino_t number, struct fuse_file_info *fi);

#endif
