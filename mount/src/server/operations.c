/* The table for libfuse, and the operations that a cgroup file system refuses. */
#include "server/operations.h"
#include "common/bounds.h"
#include "server/attributes.h"
#include <errno.h>
#include <sys/statvfs.h>

/* libfuse calls it once, before the first request, in the thread that serves. */
static void start(void *unused, struct fuse_conn_info *connection)
{
	(void)unused;
	connection->want |= connection->capable & FUSE_CAP_EXPORT_SUPPORT; /* look-ups of . and .. (nodes.h) */
}

static void statfs_group(fuse_req_t req, fuse_ino_t number)
{
	struct statvfs st = { .f_bsize = 4096, .f_frsize = 4096, .f_namemax = NAME_BYTES };
	(void)number;
	fuse_reply_statfs(req, &st);
}

/* As in the kernel's file system of groups: files are made by the kernel only. The errno is the
   one that a kernel returns for this call. */
static void no_create(fuse_req_t req, fuse_ino_t parent, const char *name, mode_t mode, struct fuse_file_info *fi)
{
	(void)parent, (void)name, (void)mode, (void)fi;
	fuse_reply_err(req, EACCES);
}

/* To make a regular file by mknod is to create it. */
static void no_mknod(fuse_req_t req, fuse_ino_t parent, const char *name, mode_t mode, dev_t device)
{
	(void)parent, (void)name, (void)device;
	fuse_reply_err(req, S_ISREG(mode) ? EACCES : EPERM);
}

/* EPERM for all that a file system of groups does not have. */
static void no_unlink(fuse_req_t req, fuse_ino_t parent, const char *name)
{
	(void)parent, (void)name;
	fuse_reply_err(req, EPERM);
}

static void no_symlink(fuse_req_t req, const char *text, fuse_ino_t parent, const char *name)
{
	(void)text, (void)parent, (void)name;
	fuse_reply_err(req, EPERM);
}

static void no_link(fuse_req_t req, fuse_ino_t number, fuse_ino_t parent, const char *name)
{
	(void)number, (void)parent, (void)name;
	fuse_reply_err(req, EPERM);
}

/* Flags that a file system does not know come first: EINVAL. */
static void no_rename(fuse_req_t req, fuse_ino_t parent, const char *name, fuse_ino_t to, const char *to_name,
	unsigned flags)
{
	(void)parent, (void)name, (void)to, (void)to_name;
	fuse_reply_err(req, flags ? EINVAL : EPERM);
}

/* Of a directory: the kernel's has no such operation either, so EINVAL. */
static void no_fsync(fuse_req_t req, fuse_ino_t number, int only_data, struct fuse_file_info *fi)
{
	(void)number, (void)only_data, (void)fi;
	fuse_reply_err(req, EINVAL);
}

/* libfuse answers ENOSYS for an operation that is missing here. The kernel takes fsync of a file
   for done then. */
const struct fuse_lowlevel_ops operations = {
	.init = start,
	.lookup = tree_lookup,
	.forget = tree_forget,
	.forget_multi = tree_forget_several,
	.getattr = tree_getattr,
	.setattr = tree_setattr,
	.mkdir = tree_mkdir,
	.rmdir = tree_rmdir,
	.opendir = directories_open,
	.readdir = directories_read,
	.releasedir = directories_release,
	.fsyncdir = no_fsync,
	.access = content_access,
	.open = content_open,
	.read = content_read,
	.write = content_write,
	.poll = content_poll,
	.release = content_release,
	.statfs = statfs_group,
	.create = no_create,
	.mknod = no_mknod,
	.unlink = no_unlink,
	.symlink = no_symlink,
	.link = no_link,
	.rename = no_rename,
	.setxattr = attributes_set,
	.getxattr = attributes_get,
	.listxattr = attributes_list,
	.removexattr = attributes_remove,
};
