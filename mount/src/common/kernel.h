/* What several files know of the kernel: names that older headers do not have, and questions about processes and open files.

   The folder common: what any code of the mount uses.
   Who runs it: every process of makhloeum, with or without the engine's lock.
   It waits for nothing but the kernel, with two exceptions that only their callers may make: common/beneath.h opens files of a mount,
   and common/proc_status.h reads /proc. Neither is called in the supervisor, or with the engine's lock (except with --adopt), and
   rule.py refuses such a call. (Before Linux 6.11 common/namespaces.h looks up one path in /proc.)
   It may not touch the engine or the state of a run: it includes no other folder, and has no more than 20 files. */
#ifndef KERNEL_H
#define KERNEL_H

#include "common/bounds.h"
#include <errno.h>
#include <fcntl.h>
#include <stdbool.h>
#include <stddef.h>
#include <stdint.h>
#include <sys/ioctl.h>
#include <sys/stat.h>
#include <sys/syscall.h>
#include <time.h>
#include <unistd.h>

/* Linux 6.9, 6.11 and 6.13 */
#ifndef PIDFD_THREAD
#define PIDFD_THREAD O_EXCL
#endif
#ifndef PIDFD_GET_CGROUP_NAMESPACE
#define PIDFD_GET_CGROUP_NAMESPACE _IO(0xFF, 1)
#define PIDFD_GET_PID_NAMESPACE _IO(0xFF, 5)
#define PIDFD_GET_UTS_NAMESPACE _IO(0xFF, 10)
#endif

/* A page has at least this size. So a read of the program's memory that ends at such a border does
   not reach into a page that is not there. */
enum { PAGE = 4096 };

/* What the kernel knows of a signal's action. The C library's own calls leave out two signals that
   it keeps for itself. So rt_sigaction is called directly, with a mask of 64 bits. */
enum { SIGNALS = 64 };

/* The kernel's own form on x86-64 and aarch64. */
struct signal_action {
	void (*handler)(int);
	unsigned long flags;
	void (*restorer)(void);
	uint64_t mask;
};

static inline bool signal_action(int signal, const struct signal_action *new, struct signal_action *old)
{
	return syscall(SYS_rt_sigaction, signal, new, old, sizeof(uint64_t)) == 0;
}

/* Whether a process or thread can have this number. */
static inline bool is_pid(pid_t number)
{
	return number > 0 && number < PIDS;
}

/* Since an unknown start. It never goes back when somebody sets the time. */
static inline long long milliseconds(void)
{
	struct timespec t;
	clock_gettime(CLOCK_MONOTONIC, &t); /* it cannot fail: there is such a clock */
	return t.tv_sec * 1000LL + t.tv_nsec / 1000000;
}

/* Descriptors of a process, and of a thread (since Linux 6.9): -1 with errno. */
static inline int open_process(pid_t process)
{
	return (int)syscall(SYS_pidfd_open, process, 0);
}

static inline int open_thread(pid_t thread)
{
	return (int)syscall(SYS_pidfd_open, thread, PIDFD_THREAD);
}

/* Whether the process of a descriptor has ended, and its parent has waited for it. Signal 0 only
   asks. A zombie still accepts it; ESRCH comes once the parent has waited. */
static inline bool was_waited_for(int process)
{
	return syscall(SYS_pidfd_send_signal, process, 0, NULL, 0) && errno == ESRCH;
}

/* 0 for a process with memory. -1 with errno: EINVAL for one that has ended, of which other threads live; EPERM if this process may
   not look at it. It looks up no path. */
static inline long look_for_memory(pid_t process)
{
	return syscall(SYS_move_pages, process, 0UL, NULL, NULL, NULL, 0);
}

/* What the kernel knows of an open file, also one with O_PATH, without a request to its file
   system. So it never blocks, whatever file system it is. */
static inline bool describe(int fd, unsigned what, struct statx *out)
{
	return statx(fd, "", AT_EMPTY_PATH | AT_STATX_DONT_SYNC | AT_NO_AUTOMOUNT, what, out) == 0;
}

static inline bool is_same_device(const struct statx *a, const struct statx *b)
{
	return a->stx_dev_major == b->stx_dev_major && a->stx_dev_minor == b->stx_dev_minor;
}

#endif
