#include "common/message.h"
#include "run/run.h"
#include <errno.h>
#include <stdbool.h>
#include <stddef.h>
#include <stdint.h>
#include <string.h>
#include <sys/resource.h>
#include <sys/syscall.h>
#include <unistd.h>

/* Arguments with which the kernel does nothing, and has another answer than the three by which filters refuse a call: no such file
   or process, a wrong number, an empty name. */
#define CALL(name) #name, SYS_##name
enum { NOTHING = -1, ALL = -1 };

/* A sandbox's filter may refuse a call that the kernel has. That is found here, before the run
   begins, and not by a program that fails later. */
static const struct need {
	const char *name;
	long number, arguments[6];
} needs[] = {
	/* processes and threads */
	{ CALL(getpid), { 0 } },
	{ CALL(getppid), { 0 } },
	{ CALL(clone3), { 0, 0 } },
	{ CALL(prctl), { NOTHING } },
	{ CALL(kill), { 0, ALL } },
	{ CALL(waitid), { ALL } },
	{ CALL(wait4), { NOTHING, 0, ALL } },
	{ CALL(rt_sigaction), { 0 } },
	{ CALL(rt_sigprocmask), { 0, 0, 0, 0 } },
	{ CALL(signalfd4), { NOTHING, 0, 0, 0 } },
	{ CALL(pidfd_open), { NOTHING, 0 } },
	{ CALL(pidfd_getfd), { NOTHING, 0, 0 } },
	{ CALL(pidfd_send_signal), { NOTHING, 0, 0, 0 } },
	{ CALL(prlimit64), { 0, ALL } },
	{ CALL(clock_nanosleep), { NOTHING } },
	/* the program's memory, files and places */
	{ CALL(process_vm_readv), { 0, 0, 0, 0, 0, ALL } },
	{ CALL(openat2), { NOTHING, 0, 0, 0 } },
	{ CALL(open_tree), { NOTHING, 0, ALL } },
	{ CALL(chroot), { 0 } },
	{ CALL(fchdir), { NOTHING } },
	{ CALL(statx), { NOTHING, 0, ALL } },
	{ CALL(fstatfs), { NOTHING, 0 } },
#ifdef SYS_readlink
	{ CALL(readlink), { 0, 0, 0 } },
#endif
	{ CALL(readlinkat), { NOTHING, 0, 0, 0 } },
	{ CALL(getdents64), { NOTHING, 0, 0 } },
	{ CALL(getxattr), { 0, 0, 0, 0 } },
	{ CALL(utimensat), { NOTHING, 0, 0, ALL } },
	{ CALL(umount2), { 0, ALL } },
	{ CALL(setfsuid), { ALL } },
	{ CALL(setfsgid), { ALL } },
	/* descriptors, sockets and texts */
	{ CALL(fcntl), { NOTHING, 0 } },
	{ CALL(memfd_create), { 0, ALL } },
	{ CALL(pwrite64), { NOTHING, 0, 0, 0 } },
	{ CALL(writev), { NOTHING, 0, 0 } },
	{ CALL(close_range), { 1, 0, 0 } },
	{ CALL(epoll_create1), { ALL } },
	{ CALL(epoll_ctl), { NOTHING, 2, NOTHING, 0 } },
	{ CALL(sendto), { NOTHING } },
	{ CALL(sendmsg), { NOTHING } },
	{ CALL(recvfrom), { NOTHING } },
	{ CALL(recvmsg), { NOTHING } },
	{ CALL(setsockopt), { NOTHING } },
	{ CALL(getrandom), { 0, 0, ALL } },
#ifdef SYS_poll
	{ CALL(poll), { 0, 0, 0 } },
#endif
};

/* Where the kernel has no clone3, the C library makes an older call. */
/* EPERM, EACCES and ENOSYS are what sandboxes answer. Any other result shows that the kernel has
   made the call. */
static bool is_refused(const struct need *n)
{
	const long *a = n->arguments;
	return syscall(n->number, a[0], a[1], a[2], a[3], a[4], a[5]) == -1 &&
		(errno == EPERM || errno == EACCES || (errno == ENOSYS && n->number != SYS_clone3));
}

/* Below this bound a process of a run may have no descriptor for the call of the program that it answers: the kernel would answer. */
enum { FILES_LEAST = 32 };

/* Each call is made once, and has no effect. */
bool needs_are_met(void)
{
	struct rlimit files;
	for (size_t i = 0; i < sizeof needs / sizeof *needs; i++)
		if (is_refused(&needs[i])) {
			say("this machine does not allow the call %s: %s", needs[i].name, strerror(errno));
			return false;
		}
	if (getrlimit(RLIMIT_NOFILE, &files) == 0 && files.rlim_max < FILES_LEAST) {
		say("a run needs %d descriptors, and their hard limit is %ju", FILES_LEAST, (uintmax_t)files.rlim_max);
		return false;
	}
	return true;
}
