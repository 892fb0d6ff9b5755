#include "helper/mounting.h"
#include "channels/descriptor_passing.h"
#include "common/cleanup.h"
#include "common/kernel.h"
#include "common/namespaces.h"
#include "helper/mount_contexts.h"
#include "helper/mount_root.h"
#include "helper/path_lookup.h"
#include "helper/program_memory.h"
#include "helper/stand_in.h"
#include <fcntl.h>
#include <limits.h>
#include <linux/capability.h>
#include <linux/mount.h>
#include <linux/nsfs.h>
#include <string.h>
#include <sys/ioctl.h>
#include <sys/socket.h>
#include <sys/stat.h>
#include <sys/syscall.h>

enum { NAME = 16 };

/* The C library's header for mount conflicts with linux/mount.h. */
extern int mount(const char *source, const char *target, const char *type, unsigned long flags, const void *data);

/* The version of cgroups that a type names; 0: another file system. */
static int version_of(const char *type)
{
	return strcmp(type, "cgroup2") == 0 ? 2 : strcmp(type, "cgroup") == 0;
}

/* Whether the kernel would let the thread mount the machine's cgroups: only a superuser of the
   namespace of users to which its cgroup namespace belongs. That of this process belongs to one
   above the program's. NS_GET_USERNS fails with EPERM for an owner above the caller's namespace. */
static bool may_mount_groups(pid_t thread)
{
	bool is_superuser = stand_in_may(thread, CAP_SYS_ADMIN);
	cleanup_fd int space = is_superuser ? stand_in_open_space(thread, "cgroup") : -1;
	cleanup_fd int owner = space < 0 ? -1 : ioctl(space, NS_GET_USERNS);
	bool is_above = owner < 0 ? space >= 0 && errno == EPERM : stand_in_is_own(owner, "user");
	return is_superuser && !is_above;
}

/* The text is 0::GROUP and a line feed, as in /proc/PID/cgroup. */
int mounting_root(pid_t thread, char *out, size_t size)
{
	char name[48], text[PATH_MAX_SAID + 8];
	snprintf(name, sizeof name, "/.makhloeum.0.%u", namespaces_cgroup_of(thread));
	cleanup_fd int fd = mount_root_open_hidden(name, O_RDONLY);
	ssize_t n = fd < 0 ? -1 : read(fd, text, sizeof text - 1);
	if (n < 0)
		return -errno;
	text[n > 0 ? n - 1 : 0] = 0;
	return n >= 5 && snprintf(out, size, "%s", text + 3) < (int)size ? 0 : -EIO;
}

/* ---------------------------------------------------------------- a mount of cgroup2 */

/* The copy is a mount of its own, attached nowhere: its attributes are no others'. */
int mounting_copy(const char *group, unsigned attributes)
{
	bool has_times = attributes & MOUNT_ATTR__ATIME;
	struct mount_attr how = { .attr_set = attributes, .attr_clr = has_times ? MOUNT_ATTR__ATIME : 0 };
	cleanup_fd int root = mount_root_open(group, O_PATH | O_DIRECTORY);
	cleanup_fd int tree = root < 0
		? -1
		: (int)syscall(SYS_open_tree, root, "", OPEN_TREE_CLONE | OPEN_TREE_CLOEXEC | AT_EMPTY_PATH);
	if (tree < 0 || (attributes && syscall(SYS_mount_setattr, tree, "", AT_EMPTY_PATH, &how, sizeof how)))
		return -errno;
	return steal_fd(&tree);
}

struct bind {
	int tree, target;
};

/* In the process of stand_in_call: it acts on descriptors alone, so no path is looked up there. */
static int bind_there(const void *argument)
{
	const struct bind *b = argument;
	const unsigned how = MOVE_MOUNT_F_EMPTY_PATH | MOVE_MOUNT_T_EMPTY_PATH;
	return syscall(SYS_move_mount, b->tree, "", b->target, "", how) ? errno : 0;
}

int mounting_attach(pid_t thread, int tree, int target)
{
	return stand_in_call(thread, bind_there, &(struct bind){ tree, target });
}

/* After the last look at the thread and before acting for it: the number is the caller's then, and
   no other's. */
static bool is_there(int listener, const struct seccomp_notif *call)
{
	return ioctl(listener, SECCOMP_IOCTL_NOTIF_ID_VALID, &call->id) == 0;
}

static int look_there(const void *path)
{
	cleanup_fd int found = open(path, O_PATH | O_CLOEXEC);
	return found < 0 ? errno : 0;
}

/* The place of a mount, or -errno. Why there is none, the kernel says where the thread is. */
/* The descriptor belongs to the caller. */
static int find_target(pid_t thread, const char *path)
{
	int target = path_lookup_find(thread, AT_FDCWD, path, true, 0, NULL);
	if (target >= 0 || errno == ENOMEM)
		return target >= 0 ? target : -ENOMEM;
	int fault = stand_in_call(thread, look_there, path);
	return fault ? -fault : -ENOENT;
}

/* As where version 2 has all controllers. */
static int refuse_version_1(pid_t thread, const char *path)
{
	cleanup_fd int target = find_target(thread, path);
	return target < 0 ? -target : stand_in_may(thread, CAP_SYS_ADMIN) ? EBUSY : EPERM;
}

/* Whether cgroup2 may be mounted there: 0 or an errno. The kernel has one file system for all groups, and mounts none at the root of a
   mount of the same. */
static int may_cover(int target)
{
	struct statx st;
	if (!describe(target, STATX_TYPE, &st))
		return ENOTDIR;
	if (st.stx_attributes & STATX_ATTR_MOUNT_ROOT && mount_root_has(target))
		return EBUSY;
	return S_ISDIR(st.stx_mode) ? 0 : ENOTDIR;
}

/* The order of the kernel's own refusals: the place, the right, and then what is there. */
static int mount_groups(int listener, const struct seccomp_notif *call, const char *path)
{
	pid_t thread = (pid_t)call->pid;
	cleanup_fd int target = find_target(thread, path);
	if (target < 0)
		return -target;
	if (!stand_in_may(thread, CAP_SYS_ADMIN))
		return EPERM;
	char group[PATH_MAX_SAID];
	int fault = may_cover(target);
	if (fault || (fault = -mounting_root(thread, group, sizeof group)))
		return fault;
	cleanup_fd int tree = mounting_copy(group, call->data.args[3] & MS_RDONLY ? MOUNT_ATTR_RDONLY : 0);
	if (tree == -ENOMEM)
		return ENOMEM;
	if (tree < 0 || !is_there(listener, call))
		return EPERM;
	return mounting_attach(thread, tree, target);
}

/* ---------------------------------------------------------------- a mount of another file system */

/* The arguments of a mount. */
struct wanted {
	char type[PATH_MAX], source[PATH_MAX], path[PATH_MAX], data[PAGE];
	bool has_source, has_data;
	unsigned long flags;
	int target; /* -1: the path is looked up again, since relative paths in `data` begin at the working directory */
	int device, device_as; /* of FUSE: a descriptor of the caller, and its number there */
};

/* As the kernel reads it: a page, or as much as there is. */
static bool read_data(pid_t thread, unsigned long at, char data[PAGE])
{
	memset(data, 0, PAGE);
	if (!program_memory_read(thread, at, data, PAGE) && !program_memory_read(thread, at, data, PAGE - at % PAGE))
		return false;
	data[PAGE - 1] = 0;
	return true;
}

/* Read once, all before any decision: the program can change its memory afterwards, but not this
   copy. */
static int read_wanted(const struct seccomp_notif *call, struct wanted *w)
{
	const __u64 *a = call->data.args;
	pid_t thread = (pid_t)call->pid;
	/* As the kernel does: the old mark in the upper half is taken out. */
	w->flags = a[3] & ((a[3] & MS_MGC_MSK) == MS_MGC_VAL ? 0xffffUL : ~0UL);
	w->has_source = a[0] != 0;
	w->has_data = a[4] != 0;
	w->target = w->device = w->device_as = -1;
	if (!a[2])
		return EINVAL;
	if (!program_memory_text(thread, a[2], w->type, sizeof w->type) ||
		!program_memory_text(thread, a[1], w->path, sizeof w->path) ||
		(w->has_source && !program_memory_text(thread, a[0], w->source, sizeof w->source)) ||
		(w->has_data && !read_data(thread, a[4], w->data)))
		return EFAULT;
	return 0;
}

/* FUSE gets its connection as a descriptor of the caller: fd=N among its options. */
static void take_device(pid_t thread, struct wanted *w)
{
	const char *at = w->data;
	if (!w->has_data || (strcmp(w->type, "fuse") != 0 && strncmp(w->type, "fuse.", 5) != 0))
		return;
	/* Options have commas between them. */
	while (at && strncmp(at, "fd=", 3) != 0)
		at = (at = strchr(at, ',')) ? at + 1 : NULL;
	if (!at)
		return;
	cleanup_fd int process = open_process(path_lookup_process_of(thread));
	w->device_as = (int)strtol(at + 3, NULL, 10);
	w->device = process < 0 ? -1 : (int)syscall(SYS_pidfd_getfd, process, w->device_as, 0);
}

/* In the process of stand_in_call, which has the thread's rights. FUSE finds the connection under
   the number that the options name. */
static int mount_there(const void *argument)
{
	const struct wanted *w = argument;
	if (w->target >= 0 && fchdir(w->target))
		return errno;
	if (w->device >= 0 && dup2(w->device, w->device_as) < 0)
		return EINVAL;
	return mount(w->has_source ? w->source : NULL, w->target >= 0 ? "." : w->path, w->type, w->flags,
			   w->has_data ? w->data : NULL)
		? errno
		: 0;
}

static int mount_other(int listener, const struct seccomp_notif *call, struct wanted *w)
{
	pid_t thread = (pid_t)call->pid;
	cleanup_fd int target = strcmp(w->type, "overlay") == 0 ? -1 : find_target(thread, w->path);
	if (target < 0 && strcmp(w->type, "overlay") != 0)
		return -target;
	w->target = target;
	take_device(thread, w);
	/* It is closed here, once the mount has its own. */
	cleanup_fd int device = w->device;
	(void)device;
	return is_there(listener, call) ? stand_in_call(thread, mount_there, w) : EPERM;
}

/* The type decides, and it is in the program's memory: so whoever could mount the machine's groups
   gets each of its mounts made here, from this copy. */
bool mounting_takes(int listener, const struct seccomp_notif *call, int *error)
{
	struct wanted w;
	pid_t thread = (pid_t)call->pid;
	int fault = read_wanted(call, &w);
	if (w.flags & (MS_REMOUNT | MS_BIND | MS_MOVE))
		return false; /* beside an old mark. Without one the filter lets each mount through that makes no new file system */
	int version = fault ? 0 : version_of(w.type);
	if (version == 2)
		*error = mount_groups(listener, call, w.path);
	else if (version == 1)
		*error = refuse_version_1(thread, w.path);
	else if (!may_mount_groups(thread))
		return false;
	else
		*error = fault ? fault : mount_other(listener, call, &w);
	return true;
}

/* ---------------------------------------------------------------- fsopen */

struct opening {
	char type[PATH_MAX];
	unsigned flags;
	int to; /* a socket */
};

static int open_there(const void *argument)
{
	const struct opening *o = argument;
	/* The descriptor goes to the helper, which hands it to the program: the other process ends
	   with the call. */
	int fd = (int)syscall(SYS_fsopen, o->type, o->flags);
	return fd >= 0 && descriptor_passing_send(o->to, "", 1, &fd, 1) ? 0 : errno;
}

/* The descriptor, or -errno. */
static int open_other(pid_t thread, struct opening *o)
{
	/* fsopen keeps the namespaces and rights of its caller, so a process that has the thread's
	   calls it. */
	int ends[2], fd;
	char byte = 0;
	if (socketpair(AF_UNIX, SOCK_SEQPACKET | SOCK_CLOEXEC, 0, ends))
		return -ENOMEM;
	cleanup_fd int from = ends[0], to = ends[1];
	o->to = to;
	int fault = stand_in_call(thread, open_there, o);
	if (fault == 0 && !descriptor_passing_take(from, &byte, 1, &fd, 1, MSG_DONTWAIT))
		fault = ENOMEM;
	return fault ? -fault : fd;
}

bool mounting_opens(int listener, const struct seccomp_notif *call, int *opened)
{
	struct opening o = { .flags = (unsigned)call->data.args[1] };
	pid_t thread = (pid_t)call->pid;
	bool is_read = program_memory_text(thread, call->data.args[0], o.type, sizeof o.type);
	int version = is_read ? version_of(o.type) : 0;
	if (version)
		*opened = version == 2 ? mount_contexts_open(call) : -ENOSYS;
	else if (!may_mount_groups(thread))
		return false;
	else
		*opened = !is_read ? -EFAULT : is_there(listener, call) ? open_other(thread, &o) : -EPERM;
	return true;
}
