#include "common/proc_status.h"
#include "common/cleanup.h"
#include <fcntl.h>
#include <linux/mount.h>
#include <string.h>
#include <sys/mount.h>
#include <sys/syscall.h>

/* The file may be longer than `some`, since a list of groups or of processors has no bound. So it
   is read in parts, and a line may begin in one part and end in the next. A value that is longer
   than `out` is cut. */
bool proc_status_line(pid_t pid, const char *key, char *out, size_t size)
{
	char path[40], some[4096];
	size_t wanted = strlen(key), at = 0, kept = 0; /* `at` is the place in the line */
	bool matches = true;
	ssize_t n;
	snprintf(path, sizeof path, "%d/status", pid);
	cleanup_fd int fd = open(path, O_RDONLY | O_CLOEXEC);
	while (fd >= 0 && (n = read(fd, some, sizeof some)) > 0)
		for (const char *byte = some; byte < some + n; byte++) {
			if (*byte == '\n' && matches && at >= wanted) {
				out[kept] = 0;
				return true;
			}
			if (*byte == '\n') {
				at = kept = 0;
				matches = true;
				continue;
			}
			if (at < wanted)
				matches &= *byte == key[at];
			else if (matches && kept + 1 < size)
				out[kept++] = *byte;
			at++;
		}
	return false;
}

/* Values are separated by tabs. The last one of NSpid and NStgid is the number in the innermost
   namespace, and the last one of Uid and Gid the one that the kernel uses for files. */
long proc_status_number(pid_t pid, const char *key)
{
	char line[512];
	const char *last = proc_status_line(pid, key, line, sizeof line) ? strrchr(line, '\t') : NULL;
	return last ? strtol(last + 1, NULL, 10) : -1;
}

/* /proc may return less than was asked for: only 0 is the end of the file. */
ssize_t proc_status_text(const char *path, char *out, size_t size)
{
	size_t done = 0;
	ssize_t n = -1;
	cleanup_fd int fd = open(path, O_RDONLY | O_CLOEXEC);
	while (fd >= 0 && done + 1 < size && (n = read(fd, out + done, size - 1 - done)) > 0)
		done += (size_t)n;
	out[done] = 0;
	return fd < 0 || n < 0 ? -errno : (ssize_t)done;
}

/* The link has the number of its reader in the namespace for which /proc was mounted. */
bool proc_status_is_ours(void)
{
	char number[16];
	pid_t self = getpid(); /* -1: a sandbox refuses it, which another message says */
	ssize_t n = readlink("/proc/self", number, sizeof number - 1);
	number[n > 0 ? n : 0] = 0;
	return n < 0 || self < 0 || strtol(number, NULL, 10) == self;
}

/* The copy needs the right to mount, which the processes of a run have in their namespace. Without
   that right /proc itself is used. */
bool proc_status_enter(void)
{
	cleanup_fd int proc = (int)syscall(SYS_open_tree, AT_FDCWD, "/proc",
		OPEN_TREE_CLONE | OPEN_TREE_CLOEXEC | AT_RECURSIVE);
	return proc < 0 ? chdir("/proc") == 0 : fchdir(proc) == 0;
}
