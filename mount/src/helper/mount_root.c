#include "helper/mount_root.h"
#include "common/beneath.h"
#include "common/cleanup.h"
#include "common/kernel.h"
#include "helper/path_lookup.h"
#include <fcntl.h>
#include <string.h>
#include <sys/stat.h>
#include <sys/xattr.h>

/* `root` is the supervisor's too, `hidden` the helper's alone. -1: not open. */
static int root = -1, hidden = -1;
static struct mount_id root_is;

/* In the supervisor, before the program exists. Its descriptor is inherited by the helper. */
bool mount_root_begin(void)
{
	root = open(cgroup_mount, O_PATH | O_DIRECTORY | O_CLOEXEC);
	return root >= 0 && beneath_identify(root, &root_is);
}

int mount_root_descriptor(void)
{
	return root;
}

/* In the server and at the end: a descriptor of its root keeps the mount in use. */
void mount_root_end(void)
{
	close(root);
	root = -1;
}

/* Any mount of the same file system counts: the program may have bound it elsewhere. */
bool mount_root_has(int fd)
{
	struct mount_id is;
	return beneath_identify(fd, &is) && beneath_is_same_system(&is, &root_is);
}

/* A directory can have any name, and any other file only one that is known. */
/* By the kernel's own name of the file: what the program calls it does not count. */
bool mount_root_has_file(int fd, const char *begins)
{
	char link[40], path[PATH_MAX_SAID];
	struct statx st;
	snprintf(link, sizeof link, "self/fd/%d", fd);
	if (!mount_root_has(fd) || !describe(fd, STATX_TYPE, &st) || !S_ISREG(st.stx_mode))
		return false;
	/* This is the kernel's own text for the descriptor. It sends no request. */
	ssize_t n = readlink(link, path, sizeof path - 1);
	path[n > 0 ? n : 0] = 0;
	const char *name = strrchr(path, '/');
	return name && strncmp(name + 1, begins, strlen(begins)) == 0;
}

/* Any thread may call it: the descriptor is never changed. */
int mount_root_open(const char *path, int flags)
{
	return beneath_open(root, path, flags);
}

/* Once in each run: the server answers this look-up only the first time. */
bool mount_root_find_hidden(void)
{
	hidden = mount_root_open("/.makhloeum.d", O_PATH | O_DIRECTORY);
	return hidden >= 0;
}

int mount_root_open_hidden(const char *path, int flags)
{
	return beneath_open(hidden, path, flags);
}

/* The program may have the directory from another mount namespace, where its path means something else, so the server says
   which group it is. */
int mount_root_group_of(pid_t thread, int fd, char group[PATH_MAX_SAID])
{
	char link[64];
	struct statx st;
	cleanup_fd int file = path_lookup_of_descriptor(thread, fd);
	/* EBADF, as the kernel says of a descriptor that is of no group. */
	if (file < 0 || !describe(file, STATX_TYPE, &st))
		return errno == ENOMEM ? -ENOMEM : -EBADF;
	if (!mount_root_has(file) || !S_ISDIR(st.stx_mode))
		return -EBADF;
	snprintf(link, sizeof link, "self/fd/%d", file);
	ssize_t size = getxattr(link, group_attribute, group, PATH_MAX_SAID - 1);
	if (size < 0)
		return errno == ENOMEM ? -ENOMEM : errno == ENOENT || errno == ESTALE ? -ENOENT : -EBADF;
	group[size] = 0;
	return 0;
}
