#include "helper/procfiles.h"
#include "channels/descriptor_passing.h"
#include "channels/table_channel.h"
#include "common/cleanup.h"
#include "common/group_paths.h"
#include "common/namespaces.h"
#include "helper/mount_root.h"
#include "helper/mounting.h"
#include "helper/proc_numbers.h"
#include "values/controllers.h"
#include <fcntl.h>
#include <linux/magic.h>
#include <stdbool.h>
#include <string.h>
#include <sys/mman.h>
#include <sys/vfs.h>

enum { LONG = 4096 };

/* ---------------------------------------------------------------- the texts */

/* A descriptor or -errno, as all below. Two descriptors of one file: the stream owns one, and the
   other outlives it. */
static int new_text(const char *name, FILE **out)
{
	cleanup_fd int fd = memfd_create(name, MFD_CLOEXEC), own = fd < 0 ? -1 : dup(fd);
	*out = own < 0 ? NULL : fdopen(own, "w");
	if (!*out)
		return -errno;
	steal_fd(&own);
	return steal_fd(&fd);
}

/* The text is complete, or not shown. Who gets it can only read it. It is opened again for that,
   since the first descriptor can be written. */
static int end_text(int fd, FILE *out)
{
	char again[48];
	cleanup_fd int written = fd;
	bool incomplete = ferror(out);
	incomplete |= fclose(out) != 0;
	snprintf(again, sizeof again, "self/fd/%d", written);
	int readable = incomplete ? -1 : open(again, O_RDONLY | O_CLOEXEC);
	return incomplete ? -ENOMEM : readable < 0 ? -errno : readable;
}

/* A file of the mount, so that it shows the current group even if it stays open. The name says
   whose text it is, and in which cgroup namespace its reader is. */
static int cgroup_text(pid_t reader, pid_t pid)
{
	char name[48];
	snprintf(name, sizeof name, "/.makhloeum.%d.%u", pid, namespaces_cgroup_of(reader));
	int fd = mount_root_open_hidden(name, O_RDONLY);
	return fd < 0 ? -errno : fd;
}

/* A file of the mount too: it shows what is mounted when it is read. */
static int mounts_text(pid_t reader, pid_t pid, const char *what)
{
	char path[48];
	struct given_table given = { .number = table_channel_number(), .space = namespaces_cgroup_of(reader) };
	snprintf(given.what, sizeof given.what, "%s", what);
	snprintf(path, sizeof path, "%d/%s", pid, what);
	/* Two, since the kernel reports a change once for each open file: the server reads one and
	   watches the other. This may wait for a lock that the program holds, in this thread and not
	   in the server. */
	cleanup_fd int table = open(path, O_RDONLY | O_CLOEXEC), bell = open(path, O_RDONLY | O_CLOEXEC);
	if (table < 0 || bell < 0)
		return errno == ENOMEM ? -ENOMEM : -1; /* cppcheck-suppress resourceLeak ; the cleanup attribute closes them */
	/* before the open, at which the server takes all that was sent. So if the socket is full, opens of other threads soon empty it */
	if (!descriptor_passing_send(table_channel_socket(), &given, sizeof given, (int[]){ table, bell }, 2))
		return -errno;
	snprintf(path, sizeof path, "/.makhloeum.t.%ld", given.number);
	int fd = mount_root_open_hidden(path, O_RDONLY);
	return fd >= 0        ? fd
		: errno == ENOENT ? -ENFILE
						  : -errno; /* the server had no room for this one, or for very many */
}

static int constant_text(const char *name, const char *text)
{
	FILE *out;
	int fd = new_text(name, &out);
	if (fd < 0)
		return fd;
	fputs(text, out);
	return end_text(fd, out);
}

/* /proc/cgroups: all controllers that a kernel can have, in its order and by its names of version 1. Those that this run has are
   enabled. What cpuacct counts is in cpu.stat. Programs that look for it take a machine without it for one without groups. */
static int controllers_text(void)
{
	static const struct {
		unsigned which;
		const char *name;
	} all[] = { { HAS_CPUSET, "cpuset" }, { HAS_CPU, "cpu" }, { HAS_CPU, "cpuacct" }, { HAS_IO, "blkio" },
		{ HAS_MEMORY, "memory" }, { 0, "devices" }, { 0, "freezer" }, { 0, "net_cls" }, { 0, "perf_event" },
		{ 0, "net_prio" }, { 0, "hugetlb" }, { HAS_PIDS, "pids" }, { 0, "rdma" }, { 0, "misc" } };
	FILE *out;
	int fd = new_text("cgroups", &out);
	if (fd < 0)
		return fd;
	fputs("#subsys_name\thierarchy\tnum_cgroups\tenabled\n", out);
	for (size_t i = 0; i < sizeof all / sizeof *all; i++)
		fprintf(out, "%s\t0\t1\t%d\n", all[i].name, (all[i].which & (controllers_kept() | HAS_PIDS)) != 0);
	return end_text(fd, out);
}

/* ---------------------------------------------------------------- the cpuset of a process */

/* A short file of the mount without its last line feed. */
/* It takes the descriptor, which may be -1, and closes it. */
static bool read_short(int file, char *out, size_t size)
{
	cleanup_fd int fd = file;
	ssize_t n = fd < 0 ? -1 : read(fd, out, size - 1);
	out[n > 0 ? n - 1 : 0] = 0;
	return n > 0;
}

/* Its group, or the nearest above that has the controller. */
/* The mount may block here, behind a listing of the root that a program holds back: only this call
   waits. */
static bool find_cpuset(pid_t pid, char group[PATH_MAX_SAID])
{
	char path[PATH_MAX_SAID + 32], text[PATH_MAX_SAID + 8];
	snprintf(path, sizeof path, "/.makhloeum.%d.0", pid);
	if (!read_short(mount_root_open_hidden(path, O_RDONLY), text, sizeof text) || strncmp(text, "0::", 3) != 0)
		return false;
	snprintf(group, PATH_MAX_SAID, "%.*s", PATH_MAX_SAID - 1, text + 3);
	for (; !is_root(group); go_up(group)) {
		snprintf(path, sizeof path, "%s/cgroup.controllers", group);
		if (read_short(mount_root_open(path, O_RDONLY), text, sizeof text) && strncmp(text, "cpuset", 6) == 0)
			break;
	}
	return true;
}

static int cpuset_text(pid_t reader, pid_t pid)
{
	char group[PATH_MAX_SAID] = "/", root[PATH_MAX_SAID], seen[PATH_MAX_SAID + 1];
	int fault = mounting_root(reader, root, sizeof root);
	/* Without the controller every process is in the root. */
	if (fault == 0 && controllers_kept() & HAS_CPUSET && !find_cpuset(pid, group))
		fault = errno ? -errno : -EIO;
	if (fault)
		return fault;
	seen_from(root, group, seen);
	size_t size = strlen(seen);
	snprintf(seen + size, sizeof seen - size, "\n");
	return constant_text("cpuset", seen);
}

/* ---------------------------------------------------------------- which file it is */

/* Cuts the last name off a path, and returns it. */
static const char *cut_name(char *path)
{
	char *slash = strrchr(path, '/');
	if (!slash)
		return "";
	*slash = 0;
	return slash + 1;
}

static bool is_number(const char *name)
{
	return *name && name[strspn(name, "0123456789")] == 0;
}

/* The text of the file `what` of a process, or of one of its threads, as the asker sees it. */
/* A process that is gone has no text: the kernel then says so. */
static int text_of(const struct proc_numbers *numbers, const char *what, pid_t process, pid_t thread)
{
	pid_t pid = proc_numbers_process(numbers, process);
	if (pid <= 0)
		return pid ? pid : -1;
	if (strcmp(what, "cgroup") == 0)
		return cgroup_text(numbers->asker, pid);
	if (strcmp(what, "cpuset") == 0)
		return cpuset_text(numbers->asker, pid);
	/* a thread may be in another mount namespace than its process */
	pid_t id = thread ? proc_numbers_thread(numbers, pid, thread) : pid;
	return id > 0 ? mounts_text(numbers->asker, id, what) : id;
}

static bool is_text(const char *what)
{
	static const char *const all[] = { "cgroup", "cpuset", "mounts", "mountinfo", "mountstats" };
	size_t i = 0;
	while (i < sizeof all / sizeof *all && strcmp(what, all[i]) != 0)
		i++;
	return i < sizeof all / sizeof *all;
}

int procfiles_text(pid_t thread, int file, int from)
{
	char link[40], path[LONG];
	struct statfs st;
	/* Only what the kernel itself says of the descriptor counts here, not the path of the call,
	   which the program may have changed. */
	if (fstatfs(file, &st) || st.f_type != PROC_SUPER_MAGIC)
		return -1;
	snprintf(link, sizeof link, "self/fd/%d", file);
	ssize_t n = readlink(link, path, sizeof path - 1);
	if (n <= 0)
		return -1;
	path[n] = 0;
	const char *what = cut_name(path), *who = cut_name(path);
	bool is_thread = strcmp(cut_name(path), "task") == 0;
	const char *process = is_thread ? cut_name(path) : who;
	if (!is_number(who) || !is_number(process))
		return strcmp(what, "cgroups") == 0 ? controllers_text() : -1;
	if (!is_text(what))
		return -1;
	struct proc_numbers numbers = proc_numbers_of(thread, file, from);
	int text = text_of(&numbers, what, (pid_t)strtol(process, NULL, 10), is_thread ? (pid_t)strtol(who, NULL, 10) : 0);
	proc_numbers_close(&numbers);
	return text;
}
