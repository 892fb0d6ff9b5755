#include "common/beneath.h"
#include "common/kernel.h"
#include <fcntl.h>
#include <linux/openat2.h>
#include <stdint.h>
#include <sys/stat.h>
#include <sys/syscall.h>
#include <unistd.h>

/* A program may mount something on a group's directory or file: NO_XDEV then fails with EXDEV.
   BENEATH refuses a path that begins with a slash, so the first slash is left out, and the root is
   ".". */
int beneath_open(int root, const char *path, int flags)
{
	struct open_how how = { .flags = (uint64_t)(unsigned)(flags | O_CLOEXEC),
		.resolve = RESOLVE_NO_XDEV | RESOLVE_NO_SYMLINKS | RESOLVE_BENEATH };
	return (int)syscall(SYS_openat2, root, path[1] ? path + 1 : ".", &how, sizeof how);
}

bool beneath_identify(int fd, struct mount_id *out)
{
	struct statx st;
	if (!describe(fd, STATX_INO | STATX_MNT_ID, &st))
		return false;
	*out = (struct mount_id){ st.stx_dev_major, st.stx_dev_minor, st.stx_mnt_id };
	return true;
}

bool beneath_is_same_system(const struct mount_id *a, const struct mount_id *b)
{
	return a->major == b->major && a->minor == b->minor;
}

/* The number identifies a mount as long as a descriptor keeps it. Later another mount may get it. */
bool beneath_is_same_mount(const struct mount_id *a, const struct mount_id *b)
{
	return beneath_is_same_system(a, b) && a->mount == b->mount;
}
