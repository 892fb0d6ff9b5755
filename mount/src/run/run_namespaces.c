#include "common/cleanup.h"
#include "common/group_paths.h"
#include "common/message.h"
#include "common/own_processes.h"
#include "run/run.h"
#include "server/serve.h"
#include <errno.h>
#include <fcntl.h>
#include <linux/capability.h>
#include <linux/mount.h>
#include <sched.h>
#include <stdio.h>
#include <string.h>
#include <sys/mount.h>
#include <sys/syscall.h>
#include <sys/wait.h>
#include <unistd.h>

/* The kernel accepts less than a page of text; two lines are shorter than TWO_LINES. */
enum { MAP_SIZE = 4096, TWO_LINES = 80 };

/* One write: the kernel takes a map only as a whole. */
static bool put(const char *file, const char *text)
{
	cleanup_fd int fd = open(file, O_WRONLY | O_CLOEXEC);
	return fd >= 0 && write(fd, text, strlen(text)) == (ssize_t)strlen(text);
}

/* With the map of one user, which a process writes for itself; the numbers are read before it has
   none there. Without `deny` an unprivileged process may not write a map of groups. */
static bool enter_alone(bool as_root)
{
	char users[64], groups[64];
	snprintf(users, sizeof users, "%u %u 1\n", as_root ? 0 : geteuid(), geteuid());
	snprintf(groups, sizeof groups, "%u %u 1\n", as_root ? 0 : getegid(), getegid());
	return unshare(CLONE_NEWUSER | CLONE_NEWNS) == 0 && put("/proc/self/setgroups", "deny") &&
		put("/proc/self/uid_map", users) && put("/proc/self/gid_map", groups);
}

/* Gives a process the user numbers that this one has, each mapped to itself. 0 has its own line: programs take a map of one
   line with all numbers for the machine's first user namespace, where they expect to be allowed more. */
/* `which`: uid_map or gid_map. */
static bool map_all(pid_t pid, const char *which)
{
	char path[40], text[MAP_SIZE] = "";
	unsigned inside, outside, count;
	size_t size = 0;
	snprintf(path, sizeof path, "/proc/self/%s", which);
	cleanup_stream FILE *own = fopen(path, "re");
	while (own && fscanf(own, "%u %u %u", &inside, &outside, &count) == 3 && size < sizeof text - TWO_LINES) {
		if (inside == 0 && count > 1) {
			size += (size_t)sprintf(text + size, "0 0 1\n");
			inside++;
			count--;
		}
		size += (size_t)sprintf(text + size, "%u %u %u\n", inside, inside, count);
	}
	snprintf(path, sizeof path, "/proc/%d/%s", pid, which);
	/* A map that was not read to its end would leave users out. */
	return own && feof(own) && put(path, text);
}

/* Only a process outside may write maps of several users, so one stays outside and writes them once the namespace exists.
    */
static bool enter_with_all(void)
{
	int is_in[2], status = 0;
	char byte = 0;
	pid_t self = getpid();
	if (pipe2(is_in, O_CLOEXEC))
		return false;
	pid_t writer = fork();
	/* It has the old namespace, and with it the right to write maps. */
	if (writer == 0) {
		close(is_in[1]);
		if (own_processes_die_with(self) && read(is_in[0], &byte, 1) == 1 && map_all(self, "uid_map") &&
			map_all(self, "gid_map"))
			_exit(0);
		_exit(errno ? errno : EINVAL);
	}
	bool entered = writer > 0 && unshare(CLONE_NEWUSER | CLONE_NEWNS) == 0 && write(is_in[1], &byte, 1) == 1;
	int fault = errno;
	close(is_in[0]);
	close(is_in[1]);
	if (writer > 0)
		waitpid(writer, &status, 0); /* no signal has a handler here, so none interrupts it */
	/* The writer's status is its errno. */
	errno = !entered ? fault : WIFEXITED(status) ? WEXITSTATUS(status) : EIO;
	return errno == 0;
}

/* Both namespaces in one call: the mount namespace then belongs to the user namespace, whose user
   may mount there. */
bool run_namespaces_enter(const struct wishes *wishes)
{
	if (wishes->users && geteuid()) {
		say("--users needs root on this machine or in a user namespace: unshare --map-root-user --map-auto makes one");
		return false;
	}
	bool entered = wishes->users ? enter_with_all() : enter_alone(wishes->as_root);
	/* Private: what is mounted here must not appear in the caller's namespace. */
	if (entered && mount("none", "/", NULL, MS_REC | MS_PRIVATE, NULL) == 0)
		return true;
	say("this machine does not allow user namespaces: %s", strerror(errno));
	return false;
}

/* A user who is not the superuser gets none: without capabilities it can unmount nothing. */
bool run_namespaces_enter_below(const struct wishes *wishes)
{
	bool is_superuser = wishes->users || wishes->as_root;
	if (is_superuser && !(wishes->users ? enter_with_all() : enter_alone(true))) {
		say("this machine does not allow a user namespace in another: %s", strerror(errno));
		return false;
	}
	/* then a file that is read past the supervisor has no path of the machine's; without such a namespace it has */
	(void)unshare(CLONE_NEWCGROUP);
	return true;
}

void run_namespaces_give_up_rights(void)
{
	struct __user_cap_header_struct head = { .version = _LINUX_CAPABILITY_VERSION_3 };
	struct __user_cap_data_struct none[_LINUX_CAPABILITY_U32S_3] = { 0 };
	if (geteuid())
		syscall(SYS_capset, &head, none); /* if a sandbox refuses it, they end with the execve */
}

/* By the kernel's own call, without fusermount3: the process may mount in its namespace. */
int run_namespaces_mount(void)
{
	char words[160];
	int fd = open("/dev/fuse", O_RDWR | O_CLOEXEC);
	if (fd < 0) {
		say("this machine does not allow FUSE: /dev/fuse: %s", strerror(errno));
		return -1;
	}
	/* allow_other: processes of the program may have other users. The server checks no owner. */
	snprintf(words, sizeof words, "fd=%d,rootmode=40000,user_id=%u,group_id=%u,allow_other", fd, geteuid(), getegid());
	if (mount(cgroup_source, cgroup_mount, "fuse.cgroup2", MS_NOSUID | MS_NODEV | MS_NOEXEC, words)) {
		say("this machine does not allow FUSE: no mount on %s: %s", cgroup_mount, strerror(errno));
		close(fd);
		return -1;
	}
	return fd;
}

/* It is attached nowhere: a mount of the program over the original does not cover it. */
int run_namespaces_copy_mount(void)
{
	return (int)syscall(SYS_open_tree, AT_FDCWD, cgroup_mount, OPEN_TREE_CLONE | OPEN_TREE_CLOEXEC);
}
