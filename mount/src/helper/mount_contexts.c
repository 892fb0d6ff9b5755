#include "helper/mount_contexts.h"
#include "channels/mount_steps.h"
#include "common/cleanup.h"
#include "common/kernel.h"
#include "helper/mount_root.h"
#include "helper/mounting.h"
#include "helper/path_lookup.h"
#include "helper/program_memory.h"
#include "helper/stand_in.h"
#include <fcntl.h>
#include <limits.h>
#include <linux/capability.h>
#include <linux/mount.h>
#include <stdio.h>
#include <string.h>
#include <sys/stat.h>
#include <sys/statvfs.h>
#include <sys/syscall.h>
#include <sys/vfs.h>

#ifndef MOUNT_ATTR_NOSYMFOLLOW /* Linux 5.14 */
#define MOUNT_ATTR_NOSYMFOLLOW 0x00200000
#endif

/* NO_SYMLINKS: a flag of a mount that the C library's header does not name. */
enum { CREATE_EXCLUSIVELY = 8 /* Linux 6.6 */, KEY = 256, BLOB = 1024 * 1024, NO_SYMLINKS = 0x2000 };

static const char context_name[] = ".makhloeum.f";

/* ---------------------------------------------------------------- the descriptor */

static bool is_context(int fd)
{
	return mount_root_has_file(fd, context_name);
}

/* The caller's open file itself, or -1. The caller may change what the number means meanwhile.
   Once it is taken it is looked at again: from then on it is this open file, whatever the number
   means. */
static int take_context(pid_t thread, int fd)
{
	cleanup_fd int seen = path_lookup_of_descriptor(thread, fd);
	cleanup_fd int taken = seen >= 0 && is_context(seen) ? path_lookup_take(thread, fd) : -1;
	return taken >= 0 && is_context(taken) ? steal_fd(&taken) : -1;
}

/* 0 or an errno */
/* The server keeps the state of the context, so copies of the descriptor, also in other processes,
   share it. */
static int make_step(int context, enum mount_step step)
{
	struct mount_step_message message = { MOUNT_STEP_MARK, (unsigned char)step };
	return write(context, &message, sizeof message) == sizeof message ? 0 : errno;
}

/* The descriptor belongs to the caller: each open of that file is a new context. */
static int new_context(enum mount_step first)
{
	cleanup_fd int fd = mount_root_open_hidden("/.makhloeum.f", O_RDWR);
	int fault = fd < 0 ? errno : first == PICK ? make_step(fd, PICK) : 0;
	return fault ? -fault : steal_fd(&fd);
}

/* EPERM first, as in the kernel. */
int mount_contexts_open(const struct seccomp_notif *call)
{
	if (!stand_in_may((pid_t)call->pid, CAP_SYS_ADMIN))
		return -EPERM;
	return call->data.args[1] & ~(__u64)FSOPEN_CLOEXEC & UINT_MAX ? -EINVAL : new_context(SET);
}

/* ---------------------------------------------------------------- fsconfig */

/* Whether the kernel takes these arguments: 0 or an errno. */
/* As the kernel's fsconfig checks them, before it looks at the context. */
static int check(unsigned command, bool has_key, bool has_value, int number)
{
	bool is_valid = false;
	switch (command) {
	case FSCONFIG_SET_FLAG:
		is_valid = has_key && !has_value && number == 0;
		break;
	case FSCONFIG_SET_STRING:
		is_valid = has_key && has_value && number == 0;
		break;
	case FSCONFIG_SET_BINARY:
		is_valid = has_key && has_value && number > 0 && number <= BLOB;
		break;
	case FSCONFIG_SET_PATH:
	case FSCONFIG_SET_PATH_EMPTY:
		is_valid = has_key && has_value && (number >= 0 || number == AT_FDCWD);
		break;
	case FSCONFIG_SET_FD:
		is_valid = has_key && !has_value && number >= 0;
		break;
	case FSCONFIG_CMD_CREATE:
	case FSCONFIG_CMD_RECONFIGURE:
	case CREATE_EXCLUSIVELY:
		is_valid = !has_key && !has_value && number == 0;
		break;
	default:
		return EOPNOTSUPP;
	}
	return is_valid ? 0 : EINVAL;
}

/* Of all file systems, whatever is said with them; and of cgroup2, which are flags. They have no effect here. */
static bool is_known(const char *key, bool is_flag)
{
	static const char *const all[] = { "ro", "rw", "sync", "async", "dirsync", "lazytime", "nolazytime", "mand",
		"nomand" };
	static const char *const own[] = { "nsdelegate", "favordynmods", "memory_localevents", "memory_recursiveprot",
		"memory_hugetlb_accounting", "pids_localevents" };
	bool known = false;
	for (size_t i = 0; i < sizeof all / sizeof *all; i++)
		known |= strcmp(key, all[i]) == 0;
	for (size_t i = 0; i < sizeof own / sizeof *own; i++)
		known |= is_flag && strcmp(key, own[i]) == 0;
	return known;
}

/* As the kernel copies it: 0 or an errno. */
static int read_text(pid_t thread, unsigned long at, char text[KEY])
{
	if (program_memory_text(thread, at, text, KEY))
		return 0;
	return program_memory_read(thread, at, text, KEY) ? EINVAL : EFAULT;
}

/* Only whether the caller has such a descriptor. */
static bool is_open(pid_t thread, int fd)
{
	cleanup_fd int file = path_lookup_of_descriptor(thread, fd);
	return file >= 0;
}

/* The step comes first: in a wrong phase the kernel fails with EBUSY, whatever the option. */
static int set_option(pid_t thread, int context, unsigned command, const __u64 *a)
{
	char key[KEY], value[KEY];
	bool has_text = command == FSCONFIG_SET_STRING;
	int fault = read_text(thread, a[2], key);
	if (fault == 0 && has_text)
		fault = read_text(thread, a[3], value);
	if (fault == 0 && command == FSCONFIG_SET_FD && !is_open(thread, (int)a[4]))
		fault = EBADF;
	bool is_source = has_text && strcmp(key, "source") == 0;
	if (fault == 0)
		fault = make_step(context, is_source ? NAME_SOURCE : SET);
	return fault || is_source || is_known(key, command == FSCONFIG_SET_FLAG) ? fault : EINVAL;
}

/* EPERM: a mount needs the right to mount. */
bool mount_contexts_configures(const struct seccomp_notif *call, int *error)
{
	const __u64 *a = call->data.args;
	pid_t thread = (pid_t)call->pid;
	cleanup_fd int context = take_context(thread, (int)a[0]);
	if (context < 0)
		return false;
	/* The kernel takes an unsigned int: the upper half does not count. */
	unsigned command = (unsigned)a[1];
	*error = check(command, a[2] != 0, a[3] != 0, (int)a[4]);
	if (*error)
		return true;
	switch (command) {
	case FSCONFIG_CMD_CREATE:
	case CREATE_EXCLUSIVELY:
		*error = !stand_in_may(thread, CAP_SYS_ADMIN)
			? EPERM
			: make_step(context, command == FSCONFIG_CMD_CREATE ? CREATE : CREATE_ALONE);
		return true;
	case FSCONFIG_CMD_RECONFIGURE:
		*error = make_step(context, RECONFIGURE);
		return true;
	default:
		*error = set_option(thread, context, command, a);
		return true;
	}
}

/* ---------------------------------------------------------------- fsmount and fspick */

/* What is not valid is left to the kernel, which refuses a descriptor that is of no context of its
   own. */
static bool are_valid(__u64 flags, __u64 attributes)
{
	const unsigned known = MOUNT_ATTR_RDONLY | MOUNT_ATTR_NOSUID | MOUNT_ATTR_NODEV | MOUNT_ATTR_NOEXEC |
		MOUNT_ATTR__ATIME | MOUNT_ATTR_NODIRATIME | MOUNT_ATTR_NOSYMFOLLOW;
	unsigned times = (unsigned)attributes & MOUNT_ATTR__ATIME;
	return !((unsigned)flags & ~(unsigned)FSMOUNT_CLOEXEC) && !((unsigned)attributes & ~known) &&
		(times == MOUNT_ATTR_RELATIME || times == MOUNT_ATTR_NOATIME || times == MOUNT_ATTR_STRICTATIME);
}

/* The directory at the top of a copy, which is unmounted here and stays in use. */
/* A descriptor or -errno. */
static int mount_of(pid_t thread, int context, __u64 attributes)
{
	char group[PATH_MAX_SAID];
	int fault = stand_in_may(thread, CAP_SYS_ADMIN) ? -mounting_root(thread, group, sizeof group) : EPERM;
	if (fault)
		return -fault;
	cleanup_fd int tree = mounting_copy(group, (unsigned)attributes);
	cleanup_fd int top = tree < 0 ? -1 : openat(tree, ".", O_RDONLY | O_DIRECTORY | O_CLOEXEC);
	if (top < 0)
		return tree < 0 ? tree : -errno;
	/* Last: after a failure before this the context may be used again. */
	fault = make_step(context, MOUNT);
	return fault ? -fault : steal_fd(&top);
}

bool mount_contexts_mounts(const struct seccomp_notif *call, int *opened)
{
	const __u64 *a = call->data.args;
	pid_t thread = (pid_t)call->pid;
	cleanup_fd int context = take_context(thread, (int)a[0]);
	if (context < 0 || !are_valid(a[1], a[2]))
		return false; /* the kernel knows why */
	*opened = mount_of(thread, context, a[2]);
	return true;
}

bool mount_contexts_picks(const struct seccomp_notif *call, int *opened)
{
	const __u64 *a = call->data.args;
	const unsigned known = FSPICK_CLOEXEC | FSPICK_SYMLINK_NOFOLLOW | FSPICK_NO_AUTOMOUNT | FSPICK_EMPTY_PATH;
	pid_t thread = (pid_t)call->pid;
	char path[PATH_MAX];
	struct statx st;
	unsigned flags = (unsigned)a[2];
	if (flags & ~known || !stand_in_may(thread, CAP_SYS_ADMIN) || !program_memory_text(thread, a[1], path, sizeof path))
		return false; /* as above */
	bool is_empty = flags & FSPICK_EMPTY_PATH && !path[0];
	cleanup_fd int file = is_empty
		? path_lookup_of_descriptor(thread, (int)a[0])
		: path_lookup_find(thread, (int)a[0], path, !(flags & FSPICK_SYMLINK_NOFOLLOW), 0, NULL);
	if (file < 0 || !mount_root_has(file) || !describe(file, STATX_TYPE, &st))
		return false;
	/* Not the root of a mount: EINVAL, as in the kernel. */
	*opened = st.stx_attributes & STATX_ATTR_MOUNT_ROOT ? new_context(PICK) : -EINVAL;
	return true;
}

/* ---------------------------------------------------------------- move_mount */

/* Whether the thread's namespace has the mount in which the file is. If that can't be known, it is
   taken for one, and the kernel answers. */
static bool has_mount(pid_t thread, int file)
{
	char path[40];
	struct statx st;
	unsigned long long number;
	snprintf(path, sizeof path, "%d/mountinfo", thread);
	cleanup_stream FILE *table = fopen(path, "re");
	bool found = !table || !describe(file, STATX_MNT_ID, &st);
	while (!found && fscanf(table, "%llu%*[^\n]", &number) == 1)
		found = number == st.stx_mnt_id;
	return found;
}

/* The attributes of the mount in which a file is. */
/* The caller asked for them by fsmount, and they are kept with the descriptor alone. */
static unsigned attributes_of(const struct statfs *st)
{
	const unsigned long flags = (unsigned long)st->f_flags;
	unsigned found = flags & ST_NOATIME ? MOUNT_ATTR_NOATIME : flags & ST_RELATIME ? 0 : MOUNT_ATTR_STRICTATIME;
	found |= flags & ST_RDONLY ? MOUNT_ATTR_RDONLY : 0;
	found |= flags & ST_NODIRATIME ? MOUNT_ATTR_NODIRATIME : 0;
	return found | (flags & NO_SYMLINKS ? MOUNT_ATTR_NOSYMFOLLOW : 0);
}

bool mount_contexts_moves(const struct seccomp_notif *call, int *error)
{
	const __u64 *a = call->data.args;
	const unsigned known = MOVE_MOUNT_F_EMPTY_PATH | MOVE_MOUNT_F_SYMLINKS | MOVE_MOUNT_F_AUTOMOUNTS |
		MOVE_MOUNT_T_EMPTY_PATH | MOVE_MOUNT_T_SYMLINKS | MOVE_MOUNT_T_AUTOMOUNTS;
	pid_t thread = (pid_t)call->pid;
	char from[2], path[PATH_MAX], group[PATH_MAX_SAID];
	struct statfs st;
	unsigned flags = (unsigned)a[4];
	/* Only a descriptor of fsmount, with an empty path, is meant here. */
	if (!(flags & MOVE_MOUNT_F_EMPTY_PATH) || flags & ~known || !program_memory_text(thread, a[1], from, sizeof from) ||
		from[0])
		return false;
	cleanup_fd int top = path_lookup_of_descriptor(thread, (int)a[0]);
	if (top < 0 || !mount_root_has(top) || has_mount(thread, top) || !stand_in_may(thread, CAP_SYS_ADMIN) ||
		!program_memory_text(thread, a[3], path, sizeof path))
		return false; /* the kernel knows why */
	bool is_empty = flags & MOVE_MOUNT_T_EMPTY_PATH && !path[0];
	cleanup_fd int target = is_empty
		? path_lookup_of_descriptor(thread, (int)a[2])
		: path_lookup_find(thread, (int)a[2], path, flags & MOVE_MOUNT_T_SYMLINKS, 0, NULL);
	if (target < 0)
		return false; /* as above */
	/* The mount is made anew at its place: the caller's was unmounted when fsmount returned. */
	int fault = mount_root_group_of(thread, (int)a[0], group);
	if (fault == 0 && fstatfs(top, &st))
		fault = -errno;
	cleanup_fd int tree = fault ? -1 : mounting_copy(group, attributes_of(&st));
	*error = fault ? -fault : tree < 0 ? -tree : mounting_attach(thread, tree, target);
	return true;
}
