/* For LD_PRELOAD: what the program MAKHLOEUM asks of the kernel is answered as by an older one, whose version is OLD_KERNEL. */
#include <dlfcn.h>
#include <errno.h>
#include <fcntl.h>
#include <linux/seccomp.h>
#include <stdarg.h>
#include <stdbool.h>
#include <stdio.h>
#include <stdlib.h>
#include <string.h>
#include <sys/epoll.h>
#include <sys/ioctl.h>
#include <sys/syscall.h>
#include <sys/utsname.h>
#include <unistd.h>

enum { PATH = 4096, OF_PIDFD = 0xFF, OF_NAMESPACE = 0xb7, FIRST_OF_PIDS = 6, WAIT_KILLABLE = 1 << 5, SET_FLAGS = 4 };

static int version; /* 1000 times the first number, and the second; 0: that of this kernel */

__attribute__((constructor)) static void begin(void)
{
	char self[PATH], wanted[PATH];
	const char *program = getenv("MAKHLOEUM"), *said = getenv("OLD_KERNEL");
	int major = 0, minor = 0;
	ssize_t n = readlink("/proc/self/exe", self, sizeof self - 1);
	if (!said || !program || n <= 0 || !realpath(program, wanted))
		return;
	self[n] = 0;
	if (strcmp(self, wanted) == 0 && sscanf(said, "%d.%d", &major, &minor) == 2)
		version = 1000 * major + minor;
}

static bool is_before(int other)
{
	return version && version < other;
}

static int fails(int fault)
{
	errno = fault;
	return -1;
}

int uname(struct utsname *out)
{
	int result = (int)syscall(SYS_uname, out);
	if (result == 0 && version)
		snprintf(out->release, sizeof out->release, "%d.%d.0-older", version / 1000, version % 1000);
	return result;
}

int ioctl(int fd, unsigned long request, ...)
{
	va_list more;
	va_start(more, request);
	void *argument = va_arg(more, void *);
	va_end(more);
	if (is_before(6011) && _IOC_TYPE(request) == OF_PIDFD)
		return fails(ENOTTY);
	if (is_before(6011) && _IOC_TYPE(request) == OF_NAMESPACE && _IOC_NR(request) >= FIRST_OF_PIDS)
		return fails(ENOTTY);
	if (is_before(6006) && _IOC_TYPE(request) == SECCOMP_IOC_MAGIC && _IOC_NR(request) == SET_FLAGS)
		return fails(EINVAL);
	return (int)syscall(SYS_ioctl, fd, request, argument);
}

/* No pidfd hangs up: who waits for nothing else waits for ever. */
int epoll_ctl(int set, int what, int fd, struct epoll_event *event)
{
	if (is_before(6009) && what == EPOLL_CTL_ADD && event->events == 0)
		return 0;
	return (int)syscall(SYS_epoll_ctl, set, what, fd, event);
}

long syscall(long number, ...)
{
	static long (*next)(long, ...);
	long a[6];
	va_list more;
	if (!next)
		*(void **)&next = dlsym(RTLD_NEXT, "syscall");
	va_start(more, number);
	for (int i = 0; i < 6; i++)
		a[i] = va_arg(more, long);
	va_end(more);
	if (number == SYS_pidfd_open && is_before(6009) && a[1] & O_EXCL)
		return fails(EINVAL);
	if (number == SYS_seccomp && is_before(5019) && a[1] & WAIT_KILLABLE)
		return fails(EINVAL);
	return next(number, a[0], a[1], a[2], a[3], a[4], a[5]);
}
