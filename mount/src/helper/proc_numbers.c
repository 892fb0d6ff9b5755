#include "helper/proc_numbers.h"
#include "common/cleanup.h"
#include "common/kernel.h"
#include "common/namespaces.h"
#include "common/proc_status.h"
#include "helper/path_lookup.h"
#include <fcntl.h>
#include <linux/magic.h>
#include <sys/stat.h>
#include <sys/vfs.h>

/* PROC_ROOT: an inode number. DEPTH: /proc/N/task/N/fd is so many names below the root. */
enum { PROC_ROOT = 1, DEPTH = 4 };

/* fstatfs of a descriptor with O_PATH sends no request for files of /proc, and may block for those
   of a file system of the program. */
bool proc_numbers_is_proc(int fd)
{
	struct statfs st;
	return fstatfs(fd, &st) == 0 && st.f_type == PROC_SUPER_MAGIC;
}

bool proc_numbers_is_root(int fd)
{
	struct statx st;
	return proc_numbers_is_proc(fd) && describe(fd, STATX_INO, &st) && st.stx_ino == PROC_ROOT;
}

/* "." is /proc (proc_status_enter). */
bool proc_numbers_is_own(int fd)
{
	struct statx st, own;
	return describe(fd, STATX_INO, &st) && statx(AT_FDCWD, ".", AT_STATX_DONT_SYNC, STATX_INO, &own) == 0 &&
		is_same_device(&st, &own);
}

/* The program may have mounted another /proc over a part of this one. */
static bool is_of_same_system(int one, int other)
{
	struct statx a, b;
	return describe(one, STATX_INO, &a) && describe(other, STATX_INO, &b) && is_same_device(&a, &b);
}

/* The root of the /proc that the file is of: the directory or one above it. */
static int open_root(int file, int from)
{
	cleanup_fd int at = from < 0 ? -1 : fcntl(from, F_DUPFD_CLOEXEC, 0);
	for (int left = DEPTH; at >= 0 && left > 0 && !proc_numbers_is_root(at); left--) {
		/* Each step stays in that /proc, or leaves it at its root, which ends the walk. */
		int above = openat(at, "..", O_PATH | O_DIRECTORY | O_CLOEXEC);
		close(at);
		at = above;
	}
	return at >= 0 && proc_numbers_is_root(at) && is_of_same_system(at, file) ? steal_fd(&at) : -1;
}

/* Its process 1 is the first of the namespace. Before Linux 6.11 the kernel translates no numbers.
   The program may have mounted a file of its own there, which would answer any number. The
   descriptor belongs to the caller. */
static int open_space(int file, int from)
{
	struct statfs st;
	cleanup_fd int root = open_root(file, from);
	cleanup_fd int space = root < 0 ? -1 : openat(root, "1/ns/pid", O_RDONLY | O_CLOEXEC);
	bool is_space = space >= 0 && fstatfs(space, &st) == 0 && st.f_type == NSFS_MAGIC;
	return is_space && namespaces_pid_here(space, 1) > 0 ? steal_fd(&space) : -1;
}

/* In this process's own /proc nothing has to be translated. */
struct proc_numbers proc_numbers_of(pid_t asker, int file, int from)
{
	bool is_own = proc_numbers_is_own(file);
	return (struct proc_numbers){ asker, is_own, is_own ? -1 : open_space(file, from) };
}

void proc_numbers_close(struct proc_numbers *numbers)
{
	close_at(&numbers->space);
}

/* A number of a thread means its process here. */
pid_t proc_numbers_process(const struct proc_numbers *numbers, pid_t number)
{
	if (numbers->is_own)
		return path_lookup_process_of(number);
	/* 0 for a number that is not there: then there is no such process. */
	if (numbers->space >= 0)
		return path_lookup_process_of(namespaces_pid_here(numbers->space, number));
	return path_lookup_seen_from(numbers->asker, number);
}

pid_t proc_numbers_thread(const struct proc_numbers *numbers, pid_t process, pid_t number)
{
	if (numbers->is_own)
		return number;
	if (numbers->space < 0)
		return path_lookup_thread_seen_from(numbers->asker, process, number);
	pid_t thread = namespaces_pid_here(numbers->space, number);
	return thread > 0 ? thread : -1;
}

/* What /proc/self and /proc/thread-self lead to. */
pid_t proc_numbers_self(const struct proc_numbers *numbers, bool is_thread)
{
	bool is_same = numbers->is_own || (numbers->space < 0 && path_lookup_same_numbers(numbers->asker, getpid()));
	if (!is_same && numbers->space < 0)
		return (pid_t)proc_status_number(numbers->asker, is_thread ? "NSpid:" : "NStgid:");
	pid_t number = is_thread ? numbers->asker : path_lookup_process_of(numbers->asker);
	return is_same ? number : namespaces_pid_there(numbers->space, number);
}
