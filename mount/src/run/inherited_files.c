#include "common/cleanup.h"
#include "common/group_paths.h"
#include "common/message.h"
#include "common/proc_status.h"
#include "run/run.h"
#include <fcntl.h>
#include <limits.h>
#include <linux/magic.h>
#include <string.h>
#include <sys/stat.h>
#include <sys/vfs.h>

/* From inherited_files_let_go in the caller's namespace to inherited_files_enter in the program's. */
static bool is_in_groups;

/* The type of the file system says it, wherever it is mounted. Machines with cgroup v1 have its hierarchies in a tmpfs, whose path
   says it; the run's mount covers that path. */
/* It sends a request to the file system of the descriptor, before the program runs. */
static bool is_of_groups(int fd, const char *link)
{
	char path[PATH_MAX];
	struct statfs st;
	if (fstatfs(fd, &st) == 0 && (st.f_type == CGROUP2_SUPER_MAGIC || st.f_type == CGROUP_SUPER_MAGIC))
		return true;
	ssize_t n = readlink(link, path, sizeof path - 1);
	path[n > 0 ? n : 0] = 0;
	return n > 0 && is_at_or_below(path, cgroup_mount);
}

/* The program does not get it. Whoever redirected a standard stream expects an effect: then there is no run. */
static bool let_go(int fd, const char *why)
{
	static const char *const streams[] = { "input", "output", "error" };
	if (fd <= STDERR_FILENO) {
		say("standard %s is %s", streams[fd], why);
		return false;
	}
	close(fd);
	return true;
}

bool inherited_files_let_go(void)
{
	char link[40];
	struct dirent *entry;
	if (!proc_status_is_ours()) {
		say("/proc is that of another PID namespace");
		return false;
	}
	/* not ".", which needs the permission to search it */
	int folder = open("/proc/self/cwd", O_PATH | O_CLOEXEC), fault = errno;
	is_in_groups = is_of_groups(folder, "/proc/self/cwd");
	close_at(&folder);
	cleanup_directory DIR *all = folder < 0 ? NULL : opendir("/proc/self/fd");
	if (!all) {
		say("/proc cannot be read: %s", strerror(folder < 0 ? fault : errno));
		return false;
	}
	while ((entry = readdir(all))) {
		int fd = entry->d_name[0] == '.' ? -1 : (int)strtol(entry->d_name, NULL, 10);
		snprintf(link, sizeof link, "/proc/self/fd/%d", fd);
		if (fd >= 0 && is_of_groups(fd, link) && !let_go(fd, "in the machine's own cgroups, which a run does not have"))
			return false;
	}
	return true;
}

/* So a directory that was moved or replaced is not taken for the old one. */
static bool is_same_file(int one, int other)
{
	struct stat a, b;
	return fstat(one, &a) == 0 && fstat(other, &b) == 0 && a.st_dev == b.st_dev && a.st_ino == b.st_ino;
}

/* A directory that was opened outside leads to the machine's groups, up to the root and down again, since its mounts are those of
   the caller's namespace. Opened again by its path it leads to what the program sees. */
static bool open_again(int fd)
{
	char link[40], path[PATH_MAX];
	snprintf(link, sizeof link, "/proc/self/fd/%d", fd);
	ssize_t n = readlink(link, path, sizeof path - 1);
	path[n > 0 ? n : 0] = 0;
	/* O_NOFOLLOW: the path has no link at its end. What is found has to be the same directory. */
	cleanup_fd int again = open(path, fcntl(fd, F_GETFL) | O_DIRECTORY | O_NOFOLLOW | O_CLOEXEC);
	if (again < 0 || !is_same_file(fd, again))
		return false;
	lseek(again, lseek(fd, 0, SEEK_CUR), SEEK_SET); /* what was opened as a path has no place */
	/* The number stays: the program knows the descriptor by it. The old open file is closed by
	   this. */
	return dup2(again, fd) == fd;
}

/* Those of makhloeum itself are closed as the program begins. */
static bool is_inherited_directory(int fd)
{
	struct stat st;
	return fd >= 0 && (fcntl(fd, F_GETFD) & FD_CLOEXEC) == 0 && fstat(fd, &st) == 0 && S_ISDIR(st.st_mode);
}

static bool open_all_again(void)
{
	struct dirent *entry;
	cleanup_directory DIR *all = opendir("/proc/self/fd");
	while (all && (entry = readdir(all))) {
		int fd = entry->d_name[0] == '.' ? -1 : (int)strtol(entry->d_name, NULL, 10);
		if (is_inherited_directory(fd) && !open_again(fd) && !let_go(fd, "a directory that is not found by its path"))
			return false;
	}
	if (!all)
		say("/proc cannot be read: %s", strerror(errno));
	return all != NULL;
}

/* The paths are looked up in the namespaces of the program, where the hierarchy covers the
   machine's groups. */
bool inherited_files_enter(void)
{
	if (!open_all_again())
		return false;
	if (!is_in_groups || chdir(cgroup_mount) == 0)
		return true;
	say("the hierarchy cannot be entered: %s", strerror(errno));
	return false;
}
